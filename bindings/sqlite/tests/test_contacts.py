"""Where edges meet, beside the definition of contacts in docs/DATA.md, worked out by fractions."""
import itertools
import random
import struct
import unittest
from fractions import Fraction

from shapes import CLEAN, FORMS, SEVERAL, connect, empty_geopackage, geopackage, spatialite, wkb

LIMIT = 2 ** 49
POINTS = [
    ("POLYGON((0 0,4.5 4.5,4.5 0,0 4.5,0 0))", 0.5, "MULTIPOINT((2.25 2.25))"),
    ("POLYGON((-4 -4,4 4,4 -4,-4 4,-4 -4))", 1, "MULTIPOINT((0 0))"),
    # on the line y = x / 3 and on y = 2 - 2x / 3
    ("POLYGON((0 0,3 1,3 0,0 2,0 0))", 1, "MULTIPOINT((2 0.6666666666666666))"),
    ("POLYGON((0 0,4 0,4 4,4 9,4 4,0 4,0 0))", 1, "MULTIPOINT((4 4),(4 9))"),
    ("POLYGON((0 0,4 0,4 0,4 4,0 0))", 1, "MULTIPOINT((4 0))"),
    ("POLYGON((0 0,4 0,4 4,0 4,0 0),(0 1,1 1,1 2,0 1))", 1, "MULTIPOINT((0 1))"),
    ("POLYGON((0 0,9 0,9 9,0 9,0 0),(2 0,5 0,5 3,2 3,2 0))", 1, "MULTIPOINT((2 0),(5 0))"),
    ("POLYGON((0 0,4 0,4 4,0 0),(4 4,4 0,0 0,4 4))", 1, "MULTIPOINT((0 0),(4 0),(4 4))"),
    ("MULTIPOLYGON(((0 0,1 0,0 1,0 0)),((6 6,8 8,8 6,6 8,6 6)),((2 2,2 4,4 2,4 4,2 2)))", 1, "MULTIPOINT((3 3),(7 7))"),
    ("POLYGON((0 0,4.4 4.4,4.4 0,0 4.4,0 0))", 1, "MULTIPOINT((2 2))"),
]
NONE = [CLEAN, SEVERAL, "MULTIPOLYGON(((0 0,4 0,4 4,0 0)),((0 0,4 0,4 4,0 0)))", "POLYGON((0 0,4 0,4 4,0 0),(6 1,6 2,7 1,6 1))"]


def cross(one, other):
    return one[0] * other[1] - one[1] * other[0]


def minus(one, other):
    return one[0] - other[0], one[1] - other[1]


def shared(one, other):
    """The ends of what two edges share, as a set: none, one or two points."""
    (a, b), (c, d) = one, other
    along, across = minus(b, a), minus(d, c)
    turn = cross(along, across)
    if turn:
        t, u = Fraction(cross(minus(c, a), across), turn), Fraction(cross(minus(c, a), along), turn)
        return {(a[0] + t * along[0], a[1] + t * along[1])} if 0 <= t <= 1 and 0 <= u <= 1 else set()
    if any(cross(minus(p, q), minus(r, q)) for p, q, r in itertools.permutations((a, b, c, d), 3)):
        return set()
    least, greatest = max(min(a, b), min(c, d)), min(max(a, b), max(c, d))
    return {least, greatest} if least <= greatest else set()


def contact_points(rings):
    """Of one polygon, in steps."""
    edges = [(ring, k, (points[k], points[(k + 1) % len(points)])) for ring, points in enumerate(rings) for k in range(len(points))]
    found = set()
    for (ring, k, one), (other_ring, m, other) in itertools.combinations(edges, 2):
        count = len(rings[ring])
        joints = {one[1]} if ring == other_ring and (k + 1) % count == m else set()
        joints |= {other[1]} if ring == other_ring and (m + 1) % count == k else set()
        ends = shared(one, other)
        if len(ends) == 2 or ends - joints:
            found |= ends
    return found


def brought_back(number, step):
    steps_to_one = round(1 / step)
    return float(number) / steps_to_one if steps_to_one and 1 / steps_to_one == step else float(number) * step


def random_polygon(numbers):
    """Rings of few points, near one another, or with edges nearly as long as the range and nearly parallel."""
    near, far = (lambda: numbers.randrange(-3, 4)), (lambda: numbers.choice((-1, 1)) * (LIMIT - 1 - numbers.randrange(5)))
    anywhere = lambda: numbers.randrange(1 - LIMIT, LIMIT)
    xs, ys = numbers.choice(((near,), (near,), (far, near), (anywhere,), (far,))), numbers.choice(((near,), (near,), (far, near), (anywhere,)))
    return [[(numbers.choice(xs)(), numbers.choice(ys)()) for _ in range(numbers.randrange(1, 8))] for _ in range(numbers.randrange(1, 4))]


def polygon_text(rings, step):
    return "(%s)" % ",".join("(%s)" % ",".join(f"{brought_back(x, step)!r} {brought_back(y, step)!r}" for x, y in [*ring, ring[0]]) for ring in rings)


def points_of(blob):
    """Of a MultiPoint in WKB, with the low byte first."""
    order, kind, count = struct.unpack_from("<BII", blob)
    assert (order, kind, len(blob)) == (1, 4, 9 + 21 * count)
    parts = [struct.unpack_from("<BI2d", blob, 9 + 21 * k) for k in range(count)]
    assert all(part[:2] == (1, 1) for part in parts)
    return [part[2:] for part in parts]


class ContactsTest(unittest.TestCase):

    @classmethod
    def setUpClass(cls):
        cls.database = connect()

    def ask(self, blob, step):
        return self.database.execute("SELECT i_shape_contact_points(?, ?)", (blob, step)).fetchone()[0]

    def test_points(self):
        for given, step, wanted in POINTS:
            for form, blob in FORMS.items():
                with self.subTest(given=given, form=form):
                    self.assertEqual(self.ask(blob(given), step), blob(wanted))

    def test_none(self):
        for given in NONE:
            for blob, wanted in [(wkb(given), wkb("MULTIPOINT EMPTY")), (wkb(given, ">", 7), wkb("MULTIPOINT EMPTY", "<", 7)),
                                 (geopackage(given), empty_geopackage("MULTIPOINT EMPTY")), (spatialite(given), None)]:
                self.assertEqual(self.ask(blob, 1), wanted)
        for text in "POLYGON EMPTY", "MULTIPOLYGON EMPTY":
            self.assertEqual(self.ask(wkb(text), 1), wkb("MULTIPOINT EMPTY"))

    def test_ewkb_in_a_geopackage(self):
        """A GeoPackage has no EWKB, so the SRID goes."""
        given, _, wanted = POINTS[1]
        self.assertEqual(self.ask(geopackage(given)[:40] + wkb(given, srid=4326), 1), geopackage(wanted))

    def test_definition(self):
        numbers = random.Random(83)
        for _ in range(1000):
            step = numbers.choice((1, 1e-7, 0.3, 3))
            polygons = [random_polygon(numbers) for _ in range(numbers.randrange(1, 3))]
            found = set().union(*map(contact_points, polygons))
            text = f"MULTIPOLYGON({','.join(polygon_text(rings, step) for rings in polygons)})"
            with self.subTest(text=text, step=step):
                wanted = sorted({(brought_back(x, step), brought_back(y, step)) for x, y in found})
                self.assertEqual(points_of(self.ask(wkb(text), step)), wanted)

    def test_many(self):
        """More contacts than points: every edge of a star crosses most others, and each is in contact with each in a ring that goes to and fro."""
        star = [(k * k % 101 * 7919 % 1009, k * 5443 % 997) for k in range(60)]
        to_and_fro = [(k % 2 * 9, 0) for k in range(60)]
        for ring in star, to_and_fro:
            wanted = sorted({(float(x), float(y)) for x, y in contact_points([ring])})
            self.assertEqual(points_of(self.ask(wkb(f"POLYGON{polygon_text([ring], 1)}"), 1)), wanted)


if __name__ == "__main__":
    unittest.main()

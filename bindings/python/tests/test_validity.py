"""The first faults of polygons, whose rings may touch or not: by hand,
beside plain loops, and beside shapely, whose rule lets them touch."""

import itertools
import random
import unittest

import numpy as np

try:
    from shapely import geometry, validation
    WHY_NOT = None
except ImportError as error:
    WHY_NOT = f"validity is not compared with shapely: {error}"
    print(WHY_NOT)

import i_shape
import plain
import samples
from i_shape import Fault, io
from test_polygons import flat

SQUARE = [(0, 0), (4, 0), (4, 4), (0, 4)]
WIDE = [(-9, -9), (9, -9), (9, 9), (-9, 9)]
LEFT = [(-8, -8), (-8, 8), (-2, 8), (-2, -8)]
INNER = [(-7, 0), (-5, 2), (-4, -3)]
ASIDE = [(6, 1), (6, 2), (7, 1)]
BOW_TIE = [(0, 0), (4, 4), (4, 0), (0, 4)]
STRAIGHT = [(0, 0), (2, 0), (4, 0), (4, 4)]
TO_VERTEX = [(0, 0), (1, 2), (2, 1)]
TO_EDGE = [(1, 1), (2, 1), (2, 4)]
TO_BOTH = [(0, 0), (2, 4), (2, 1)]
ON_EDGE = [(0, 1), (0, 3), (2, 2)]
CHAIN = [[(-4, 0), (0, 0), (0, -2)], [(0, 0), (2, 2), (3, 1)],
         [(2, 2), (0, 4), (2, 4)]]
NOTCHED = [(0, 0), (9, 0), (9, 9), (5, 4), (0, 9)]
AROUND = [(0, 0), (2, 0), (4, 0), (4, 2), (4, 4), (2, 4), (0, 4), (0, 2)]

# Polygons, and the kind of the fault of each, with the places in it.
BY_HAND = [
    ([], Fault.VALID, 0, 0),
    ([STRAIGHT], Fault.VALID, 0, 0),
    ([WIDE, ASIDE, LEFT[::-1]], Fault.VALID, 0, 0),
    ([WIDE[::-1], ASIDE, LEFT], Fault.VALID, 0, 0),
    ([[]], Fault.TOO_FEW_POINTS, 0, 0),
    ([BOW_TIE, ASIDE, [(1, 1), (1, 1), (1, 1)]], Fault.TOO_FEW_POINTS, 2, 0),
    ([SQUARE, SQUARE[:2]], Fault.TOO_FEW_POINTS, 1, 0),
    ([BOW_TIE], Fault.CONTACT, 0, 2),
    ([SQUARE[:1] + SQUARE], Fault.CONTACT, 1, 4),
    ([SQUARE, TO_VERTEX], Fault.CONTACT, 0, 4),
    ([SQUARE, ASIDE, TO_EDGE], Fault.CONTACT, 2, 8),
    ([SQUARE, ASIDE], Fault.HOLE_OUTSIDE, 1, 0),
    ([SQUARE, WIDE], Fault.HOLE_OUTSIDE, 1, 0),
    ([WIDE, LEFT, INNER, [(20, 1), (20, 2), (21, 1)]],
     Fault.HOLE_OUTSIDE, 3, 0),
    ([WIDE, ASIDE, INNER, LEFT], Fault.HOLE_WITHIN, 2, 3),
    ([WIDE, LEFT, ASIDE, INNER], Fault.HOLE_WITHIN, 3, 1),
]

# The same where rings may touch.
BY_HAND_TOUCHING = [
    ([], Fault.VALID, 0, 0),
    ([SQUARE, TO_VERTEX], Fault.VALID, 0, 0),
    ([SQUARE, TO_EDGE], Fault.VALID, 0, 0),
    ([WIDE, *CHAIN], Fault.VALID, 0, 0),
    ([WIDE[::-1], *CHAIN[::-1]], Fault.VALID, 0, 0),
    ([WIDE, *([(0, 0), *ring] for ring in (
        [(2, 1), (1, 2)], [(-1, 2), (-2, 1)], [(1, -2), (2, -1)]))],
     Fault.VALID, 0, 0),
    ([[]], Fault.TOO_FEW_POINTS, 0, 0),
    ([BOW_TIE, SQUARE[:2]], Fault.TOO_FEW_POINTS, 1, 0),
    ([BOW_TIE], Fault.CONTACT, 0, 2),
    ([SQUARE[:1] + SQUARE], Fault.CONTACT, 1, 4),
    ([SQUARE + TO_VERTEX], Fault.CONTACT, 0, 3),
    ([SQUARE, TO_EDGE, ON_EDGE], Fault.CONTACT, 3, 7),
    ([SQUARE, SQUARE], Fault.CONTACT, 0, 4),
    ([SQUARE, ASIDE], Fault.HOLE_OUTSIDE, 1, 0),
    ([SQUARE, TO_EDGE, [(4, 2), (6, 1), (6, 3)]], Fault.HOLE_OUTSIDE, 2, 0),
    # a hole of which all points but one lie inside or on the outer ring
    ([NOTCHED, [(2, 3), (5, 4), (5, 8), (4, 5)]], Fault.HOLE_OUTSIDE, 1, 0),
    # each vertex lies on the outer ring
    ([NOTCHED, [(9, 9), (5, 4), (0, 9)]], Fault.CONTACT, 2, 5),
    ([NOTCHED[:3] + [(7, 4), (5, 4), (2, 4)] + NOTCHED[4:],
      [(9, 9), (5, 4), (0, 9)]], Fault.HOLE_OUTSIDE, 1, 0),
    ([WIDE, [(-8, 8), (-7, 0), (-2, -8)], LEFT], Fault.HOLE_WITHIN, 1, 2),
    ([WIDE, LEFT, [(-8, 8), (-7, 0), (-2, -8)]], Fault.HOLE_WITHIN, 2, 1),
    ([SQUARE, TO_BOTH], Fault.DISCONNECTED, 2, 4),
    ([SQUARE, [(2, 0), (4, 2), (2, 4), (0, 2)]], Fault.DISCONNECTED, 0, 4),
    ([WIDE, *CHAIN, [(0, 4), (-4, 4), (-4, 0)]], Fault.DISCONNECTED, 7, 10),
    ([WIDE, [(-9, 0), (-4, 0), (-4, 4)], *CHAIN, [(2, 4), (9, 9), (8, 4)]],
     Fault.DISCONNECTED, 1, 16),
]


# Whether rings may touch, polygons by hand, and the fault by plain loops.
RULES = ((False, BY_HAND, plain.first_fault),
         (True, BY_HAND_TOUCHING, plain.first_touching_fault))


def placed(kind, first, second, rings, points):
    """The fault behind so many rings and points."""
    if kind in (Fault.CONTACT, Fault.DISCONNECTED):
        return int(kind), first + points, second + points
    return (int(kind), first + rings * (kind != Fault.VALID),
            second + rings * (kind == Fault.HOLE_WITHIN))


def all_placed(polygons, faults):
    """The faults of polygons end to end."""
    rings = points = 0
    for polygon, fault in zip(polygons, faults):
        yield placed(*fault, rings, points)
        rings += len(polygon)
        points += sum(map(len, polygon))


class Answers(unittest.TestCase):

    def test_by_hand(self):
        for touching, rows, _ in RULES:
            polygons = [polygon for polygon, *_ in rows]
            right = list(all_placed(polygons, [fault for _, *fault in rows]))
            for dtype in plain.DTYPES:
                points, rings, ends = flat(polygons, dtype)
                for threads in (1, 3):
                    faults = i_shape.polygon_validity(
                        points, rings, ends, touching=touching,
                        threads=threads)
                    self.assertEqual(faults.tolist(), right)
                for low, high in ((0, 1), (3, 9), (12, len(ends))):
                    faults = i_shape.polygon_validity(
                        points, rings, ends[low:high], touching=touching)
                    self.assertEqual(faults.tolist(), right[low:high - 1])

    def test_random_polygons_and_offsets_that_leave_some_out(self):
        kinds = {touching: set() for touching, *_ in RULES}
        for dtype, (touching, _, first_fault) in itertools.product(
                plain.DTYPES, RULES):
            numbers = random.Random(73 + np.dtype(dtype).itemsize)
            for _ in range(200):
                polygons = [numbers.choice([small_polygon, touching_polygon])(
                    numbers) for _ in range(numbers.randrange(6))]
                right = list(all_placed(polygons, map(first_fault, polygons)))
                points, rings, ends = flat(polygons, dtype)
                low = numbers.randrange(len(ends))
                high = numbers.randrange(low, len(ends))
                # What lies outside isn't read.
                points[:rings[ends[low]]] = np.iinfo(dtype).min
                points[rings[ends[high]]:] = np.iinfo(dtype).max
                faults = i_shape.polygon_validity(
                    points, rings, ends[low:high + 1], touching=touching,
                    threads=numbers.randint(1, 3))
                self.assertEqual(faults.tolist(), right[low:high],
                                 (polygons, low, high))
                kinds[touching].update(faults["kind"].tolist())
        self.assertEqual(kinds, {False: {*Fault} - {Fault.DISCONNECTED},
                                 True: {*Fault}})

    def test_coordinates_of_any_safe_size(self):
        """A square whose hole touches it once, or twice."""
        for dtype in plain.DTYPES:
            most = plain.bound(dtype) - 1
            outer = [(-most, -most), (most, -most), (most, most),
                     (-most, most)]
            holes = [[(1 - most, 0), (0, 1), (1, 0)],
                     [(-most, 0), (0, most), (1, 0)]]
            given = flat([[outer, hole] for hole in (
                holes[0], holes[1][:1] + holes[0][1:], holes[1])], dtype)
            self.assertEqual(
                i_shape.polygon_validity(*given, touching=True).tolist(),
                [(0, 0, 0), (0, 0, 0), (5, 16, 18)])


def small_contours(count):
    """All contours of so many points on a grid of 4 by 4, from their least
    points on: points and offsets, in parts."""
    for least in range(16):
        places = np.indices((16 - least,) * (count - 1), np.int16)
        places = least + np.insert(places.reshape(count - 1, -1).T, 0, 0, 1)
        points = np.stack(np.divmod(places, 4), 2).reshape(-1, 2)
        yield points, np.arange(0, len(points) + 1, count)


def with_middles(ring, numbers):
    """The ring, twice as large, with the middles of some edges."""
    for (ax, ay), (bx, by) in zip(ring, ring[1:] + ring[:1]):
        yield 2 * ax, 2 * ay
        if numbers.random() < 0.5:
            yield ax + bx, ay + by


class Cleaning(unittest.TestCase):

    def test_all_small_contours(self):
        """A simple polygon stays one, and despike leaves it. Other contours
        become one by both calls or by neither."""
        kept = changed = gained = 0
        for count in range(3, 7):
            for given in small_contours(count):
                before = i_shape.are_simple_polygons(*given)
                lefts = [call(*given) for call in (
                    i_shape.simplify_rings, i_shape.despike_rings)]
                simplified, despiked = (
                    i_shape.are_simple_polygons(*left) for left in lefts)
                lengths = [np.diff(left.offsets) for left in lefts]
                self.assertTrue(simplified[before].all())
                self.assertTrue((lengths[1][before] == count).all())
                self.assertTrue((simplified == despiked).all())
                kept += int(before.sum())
                changed += int((lengths[0][before] < count).sum())
                gained += int((simplified & ~before).sum())
        self.assertTrue(0 < changed < kept and gained)

    def test_random_polygons(self):
        """A valid polygon stays one, and despike leaves it. Others are left
        with faults of the same kinds by both calls."""
        numbers = random.Random(75)
        polygons = [[list(with_middles(ring, numbers)) for ring in polygon]
                    for polygon in (small_polygon(numbers) for _ in range(
                        100_000 if samples.is_long else 4_000))]
        given = flat(polygons, np.int32)
        np.testing.assert_array_equal(*(
            i_shape.polygon_validity(*call(*given))["kind"] for call in (
                i_shape.simplify_polygons, i_shape.despike_polygons)))
        kinds = i_shape.polygon_validity(*given)["kind"]
        valid = flat([polygon for polygon, kind in zip(polygons, kinds)
                      if kind == Fault.VALID], np.int32)
        left = i_shape.simplify_polygons(*valid)
        self.assertLess(len(left.points), len(valid[0]))
        faults = i_shape.polygon_validity(*left)["kind"]
        self.assertEqual(len(faults), len(valid[2]) - 1)
        self.assertTrue((faults == Fault.VALID).all())
        for part, its in zip(i_shape.despike_polygons(*valid), valid):
            np.testing.assert_array_equal(part, its)


class Errors(unittest.TestCase):

    def test_errors(self):
        points = np.array([(0, 0), (2**30, 0), (4, 4), (0, 4)], np.int32)
        for touching, threads in itertools.product((False, True), (1, 2)):
            with self.assertRaises(i_shape.UnsafePointError) as told:
                i_shape.polygon_validity(points, [0, 1, 1, 4], [0, 1, 3],
                                         touching=touching, threads=threads)
            self.assertEqual(
                (told.exception.ring, told.exception.point), (2, 1))
        for touching, (rings, ends) in itertools.product((False, True), (
                ([], [0]), ([0, 3, 2], [0, 2]), ([0, 5], [0, 1]),
                ([0, 4], [0, 2]), ([0, 4], []))):
            with self.assertRaises(i_shape.OffsetsError):
                i_shape.polygon_validity(points, rings, ends,
                                         touching=touching)


def small_ring(numbers, span):
    return [(numbers.randint(0, span), numbers.randint(0, span))
            for _ in range(numbers.randint(3, 6))]


def small_polygon(numbers):
    """Rings within a square, of which holes are often such or triangles."""
    span = 9
    rings = [small_ring(numbers, span)]
    if numbers.random() < 0.7:
        rings[0] = [(0, 0), (span, 0), (span, span), (0, span)]
    for _ in range(numbers.randrange(3)):
        side = numbers.choice([1, 2, 6])
        x, y = (numbers.randint(1, span - side - 1) for _ in range(2))
        corners = [(x, y), (x + side, y), (x + side, y + side), (x, y + side)]
        rings.append(corners[:numbers.choice([3, 4])])
    if numbers.random() < 0.1:
        rings.append([])
    return rings


def tiny_polygon(numbers):
    """A ring on a grid of 4 by 4, half of them around it, and holes."""
    outer = [(0, 0), (3, 0), (3, 3), (0, 3)]
    if numbers.random() < 0.5:
        outer = small_ring(numbers, 3)
    return [outer, *(small_ring(numbers, 3)
                     for _ in range(numbers.randrange(3)))]


def touching_polygon(numbers):
    """A square of nine cells, and holes with their points around a cell, some
    of them outside; into some reaches another hole."""
    rings = [[(0, 0), (12, 0), (12, 12), (0, 12)]]
    for _ in range(numbers.randint(1, 4)):
        x, y = (4 * min(numbers.randrange(10) // 3, 3) for _ in range(2))
        places = sorted(numbers.sample(range(8), numbers.choice([3, 4])))
        rings.append([(x + AROUND[k][0], y + AROUND[k][1]) for k in places])
        if numbers.random() < 0.2:
            inner = [rings[-1][0], (x + 2, y + 2), (x + 2, y + 1)]
            rings.insert(numbers.randint(1, len(rings)), inner)
    return rings


def without_repeats(polygon):
    return [[point for place, point in enumerate(ring)
             if point != ring[place - 1]] for ring in polygon]


def ring_of(polygon, row):
    """The ring of a row of the points of a polygon, and the edge from it."""
    for place, ring in enumerate(polygon):
        if row < len(ring):
            return place, ring[row], ring[(row + 1) % len(ring)]
        row -= len(ring)
    raise AssertionError(row)


def difference(polygon):
    """Why a polygon that shapely takes isn't valid here."""
    kind, first, second = plain.first_fault(without_repeats(polygon))
    if kind == Fault.VALID:
        return "a repeated point"
    if kind == Fault.CONTACT:
        one, other = (ring_of(without_repeats(polygon), row)
                      for row in (first, second))
        low, high = plain.shared(*one[1:], *other[1:])
        if low == high and one[0] != other[0]:
            return "a touch at a point"
    return "unexplained"


@unittest.skipIf(WHY_NOT, WHY_NOT)
class BesideShapely(unittest.TestCase):

    COUNT = 100_000 if samples.is_long else 4_000

    def test_who_takes_what(self):
        numbers = random.Random(74)
        polygons = [tiny_polygon(numbers) for _ in range(self.COUNT)]
        kinds = i_shape.polygon_validity(*flat(polygons, np.int32))["kind"]
        counts = {}
        for polygon, kind in zip(polygons, kinds.tolist()):
            is_theirs = geometry.Polygon(polygon[0], polygon[1:]).is_valid
            if kind == Fault.VALID:
                self.assertTrue(is_theirs, polygon)
                why = "valid for both"
            else:
                why = difference(polygon) if is_theirs else "invalid for both"
            self.assertNotEqual(why, "unexplained", polygon)
            counts[why] = counts.get(why, 0) + 1
        self.assertEqual(set(counts), {
            "valid for both", "invalid for both", "a repeated point",
            "a touch at a point"})

    def test_rings_that_may_touch_are_valid_for_both_or_neither(self):
        numbers = random.Random(76)
        polygons = []
        while len(polygons) < self.COUNT:
            make = numbers.choice([tiny_polygon, touching_polygon])
            polygon = without_repeats(make(numbers))
            if all(len(ring) >= 3 for ring in polygon):
                polygons.append(polygon)
        kinds = i_shape.polygon_validity(
            *flat(polygons, np.int32), touching=True)["kind"].tolist()
        for polygon, kind in zip(polygons, kinds):
            self.assertEqual(
                geometry.Polygon(polygon[0], polygon[1:]).is_valid,
                kind == Fault.VALID, polygon)
        self.assertEqual({*kinds}, {*Fault} - {Fault.TOO_FEW_POINTS})

    def test_what_make_valid_leaves_may_touch(self):
        ring = SQUARE + [(0, 0), (1, 2), (2, 1)]
        repaired = validation.make_valid(geometry.Polygon(ring))
        self.assertTrue(repaired.is_valid)
        points, *offsets = io.from_shapely([repaired]).polygons
        self.assertEqual(len(offsets[0]), 3)
        for touching, kind in ((False, Fault.CONTACT), (True, Fault.VALID)):
            self.assertEqual(i_shape.polygon_validity(
                points.astype(np.int32), *offsets,
                touching=touching)["kind"].tolist(), [kind])


if __name__ == "__main__":
    unittest.main()

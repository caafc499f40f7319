"""The parts of the examples, over small data made by hand or at random."""

import contextlib
import importlib
import io as text_io
import random
import sys
import tempfile
import unittest
from pathlib import Path
from unittest import mock

import numpy as np

import i_shape
import plain
import samples
from i_shape import io

EXAMPLES = Path(__file__).resolve().parents[3] / "examples"
SQUARE, FAR = samples.SQUARE, [(9, 9), (8, 9), (9, 8)]


class ExampleCase(unittest.TestCase):
    """A test that imports an example, and is skipped where that can't be."""

    name = ""

    @classmethod
    def setUpClass(cls):
        sys.path.insert(0, str(EXAMPLES))
        cls.addClassCleanup(sys.path.remove, str(EXAMPLES))
        cls.why_not = None
        try:
            cls.example = importlib.import_module(cls.name)
        except ImportError as error:
            cls.why_not = f"the example {cls.name} is not tested: {error}"
            print(cls.why_not)

    def setUp(self):
        if self.why_not:
            self.skipTest(self.why_not)

    def printed(self, *words):
        """The lines that the example prints."""
        out = text_io.StringIO()
        with mock.patch.object(sys, "argv", [self.name, *words]), \
                contextlib.redirect_stdout(out):
            self.example.main()
        return out.getvalue().splitlines()


class EqualPolygons(ExampleCase):

    name = "equal_polygons"

    @samples.takes_long
    def test_keys_of_arrays_miss_no_pair(self):
        lines = self.printed("--pairs", "40")
        found = [line for line in lines if line.startswith("arrays")]
        self.assertEqual([line.split()[2] for line in found], ["0", "0"])
        missed = [line.split()[1] for line in lines
                  if line.startswith("normalize")]
        self.assertIn(missed, ([], ["0", "40"]))

    def test_what_is_written_anew_is_the_same_polygon(self):
        for place in range(40):
            polygon = self.example.parcel(place)
            for with_vertex in (False, True):
                other = self.example.written_anew(polygon, place, with_vertex)
                self.assertNotEqual(other, polygon)
                self.assertEqual(len(other[0]), 4 + with_vertex)
                self.assertTrue(i_shape.same_polygons(
                    *(samples.arrays([(False, [its])], np.int32).polygons
                      for its in (polygon, other))))


class Store(ExampleCase):

    name = "store"

    def setUp(self):
        super().setUp()
        folder = tempfile.TemporaryDirectory()
        self.addCleanup(folder.cleanup)
        self.path = str(Path(folder.name, "store.sqlite"))

    def opened(self, step=1.0):
        store = self.example.opened(self.path, step)
        self.addCleanup(store.close)
        return store

    @staticmethod
    def features(*polygons):
        return samples.arrays([(False, [its]) for its in polygons])

    def test_polygons_are_kept_once(self):
        turned = SQUARE[2:] + [(0, 0), (1, 0), (4, 0)]
        line = [(0, 0), (1, 1), (2, 2)]
        first = self.features([SQUARE], [line], [FAR], [SQUARE[::-1]])
        store = self.opened()
        self.assertEqual(self.example.add(store, "a", first, 1.0), (2, 3))
        # A store that is opened again knows them.
        store = self.opened()
        other = self.features([turned], [SQUARE, FAR], [FAR[::-1]])
        self.assertEqual(self.example.add(store, "b", other, 1.0), (1, 3))
        self.assertEqual(store.execute(
            "SELECT polygon, file, number FROM places ORDER BY file, number"
        ).fetchall(), [(1, "a", 0), (2, "a", 2), (1, "a", 3), (1, "b", 0),
                       (3, "b", 1), (2, "b", 2)])

    def test_nothing_is_added_where_an_error_is_raised(self):
        store = self.opened()
        fine = self.features([SQUARE])
        self.example.add(store, "a", fine, 1.0)
        for file, features in (("a", self.features([FAR])),
                               ("b", self.features([FAR], [
                                   [(0, 0), (float("nan"), 0), (1, 1)]]))):
            with self.assertRaises(ValueError):
                self.example.add(store, file, features, 1.0)
        self.assertEqual(store.execute(
            "SELECT count(*) FROM polygons").fetchone(), (1,))
        with self.assertRaises(ValueError):
            self.opened(step=0.5)

    def test_other_formats_are_errors_in_a_sentence(self):
        folder = Path(self.path).parent
        package, text = folder / "x.gpkg", folder / "x.wkt"
        package.write_bytes(b"SQLite format 3\0\x10\0\xff\xfe")
        text.write_text("POLYGON EMPTY")
        missing = folder / "missing.geojson"
        for path, words in ((package, "is no GeoJSON, into which `ogr2ogr"),
                            (text, "is no GeoJSON, into which `ogr2ogr"),
                            (missing, "No such file")):
            given = ["store.py", self.path, str(path), "--step", "1"]
            with mock.patch.object(sys, "argv", given), \
                    self.assertRaises(SystemExit) as ended:
                self.example.main()
            self.assertRegex(str(ended.exception.code),
                             rf"\Astore\.py: .*{words}")
            self.assertIn(str(path), str(ended.exception.code))


class Theorem(ExampleCase):

    name = "theorem"

    def test_no_contour_contradicts_it(self):
        lines = self.printed("--random", "200")
        self.assertEqual(lines[0], "7580 contours")
        self.assertEqual({line.rpartition(": ")[2] for line in lines[1:]},
                         {"0"})

    def test_a_call_that_returns_what_another_does_is_found(self):
        ring = ((4, 4), (0, 4), (0, 0), (2, 0), (4, 0), (4, 2), (4, 0))
        for name, other, part in (
                ("simplify", i_shape.despike_rings, "simplify isn't"),
                ("despike", i_shape.simplify_rings, "despike isn't"),
                ("canonical", i_shape.simplify_rings, "canonical isn't")):
            def wrong(points, offsets, its=other, **_words):
                return its(points, offsets)
            with mock.patch.object(i_shape, f"{name}_rings", wrong):
                found = self.example.faults([ring])
            faulty = [its for its, count in found.items() if count]
            with self.subTest(name):
                self.assertEqual(len(faulty), 1, faulty)
                self.assertTrue(faulty[0].startswith(part), faulty)

    def test_another_area_is_found(self):
        def backwards(points, offsets):
            return i_shape.Rings(points[::-1].copy(), np.array(offsets))
        with mock.patch.object(i_shape, "despike_rings", backwards):
            found = self.example.faults([((0, 0), (2, 0), (0, 2))])
        self.assertEqual(found["despike changes area or winding numbers"], 1)


class ContactTheorem(ExampleCase):

    name = "contact_theorem"

    @samples.takes_long
    def test_no_ring_contradicts_it(self):
        lines = self.printed("--random", "200")
        self.assertEqual(lines[0], "7580 rings")
        self.assertEqual({line.rpartition(": ")[2] for line in lines[1:]},
                         {"0"})

    def test_a_wrong_call_is_found(self):
        ring = ((0, 0), (2, 2), (2, 0), (0, 2))
        self.assertEqual(set(self.example.faults([ring]).values()), {0})
        for name, wrong in (
                ("first_contact", None), ("is_simple_polygon", True),
                ("contacts", np.empty((0, 2), np.intp)),
                ("kinds_of_contacts", [i_shape.ContactKind.TOUCH])):
            with self.subTest(name), mock.patch.object(
                    i_shape, name, return_value=wrong):
                self.assertEqual(self.example.faults([ring])[name], 1)


class Parcels(ExampleCase):

    name = "parcels"

    def test_only_canonical_keys_find_all(self):
        try:
            import shapely  # noqa: F401
        except ImportError as error:
            self.skipTest(str(error))
        counts = [line.split(":")[1].split()[0]
                  for line in self.printed("--side", "6")]
        self.assertEqual(counts, ["0", "0", "36"])

    def test_what_is_written_anew_is_the_same_ring(self):
        numbers = random.Random(1)
        for ring in self.example.cadastre(5, numbers):
            other = self.example.written_anew(ring, numbers)
            self.assertEqual(len(other), len(ring) + 1)
            self.assertEqual(
                i_shape.canonical(np.array(other)).tolist(),
                i_shape.canonical(np.array(ring)).tolist())

    def test_other_parcels_are_not_found(self):
        triangle = SQUARE[:3]
        hole = [(1, 1), (2, 2), (1, 2)]

        def read(*polygons):
            return samples.arrays([(False, [its]) for its in polygons])

        keys = self.example.canonical_keys
        one = read([SQUARE], [triangle], [SQUARE, hole])
        self.assertEqual(len(set(keys(one))), 3)
        for other, count in ((read([SQUARE]), 1), (read([FAR]), 0),
                             (read([SQUARE[::-1]]), 1),
                             (read([triangle[1:] + triangle[:1]]), 1),
                             (read([hole], [triangle, hole]), 0)):
            self.assertEqual(self.example.found(one, other, keys), count)

    def test_polygons_of_a_feature_are_told_apart(self):
        hole = [(1, 1), (2, 2), (1, 2)]
        given, turned, other = (
            samples.arrays([(True, polygons)]) for polygons in (
                [[SQUARE, hole]], [[SQUARE], [hole]], [[hole], [SQUARE]]))
        for keys, count in ((self.example.keys_of, 0),
                            (self.example.canonical_keys, 1)):
            self.assertEqual(self.example.found(given, turned, keys), 0)
            self.assertEqual(self.example.found(turned, other, keys), count)

    def test_a_file_is_read_as_it_was_written(self):
        rings = self.example.cadastre(3, random.Random(2))
        with tempfile.TemporaryDirectory() as folder:
            path = Path(folder, "parcels.wkt")
            self.example.write(path, rings)
            whole = io.features_to_grid(self.example.read(path),
                                        self.example.GRID)
        self.assertEqual([polygons[0][0] for _, polygons
                          in samples.lists(whole)], rings)


class Validity(ExampleCase):

    name = "validity"

    def test_despike_gives_each_parcel_back(self):
        given, *_, left = self.printed("--side", "6")
        self.assertIn("34 of 36 invalid, 2 as before", given)
        self.assertIn("0 of 36 invalid, 36 as before", left)


class Rounding(ExampleCase):

    name = "rounding"

    def test_faults_of_each_step(self):
        square = [(0, 0), (40, 0), (40, 40), (0, 40)]
        bow_tie = [(0, 0), (40, 40), (40, 0), (0, 40)]
        spike = square[:3] + [(90, 90), (40, 40)]
        small = [(1, 1), (2, 1), (2, 2)]
        out = text_io.StringIO()
        with contextlib.redirect_stdout(out):
            self.example.show("rings", [square, square[::-1], bow_tie, spike,
                                        small], io.Grid(0.1))
        first, *lines = out.getvalue().splitlines()
        self.assertEqual(
            first, "5 rings with a precision of 0.1, 3 valid by shapely")
        self.assertEqual(len(lines), 10)
        cleaned = "4 valid, 1 contact"
        self.assertEqual(lines[0], f"1e-7; rounded: 3 valid, 2 contact;"
                         f" simplify: {cleaned}; despike: {cleaned}")
        cleaned = "3 valid, 1 contact, 1 collapsed"
        self.assertEqual(lines[7], f"1e0; rounded: 2 valid, 1 too_few_points,"
                         f" 2 contact; simplify: {cleaned};"
                         f" despike: {cleaned}")
        cleaned = "0 valid, 5 collapsed"
        self.assertEqual(lines[9], f"1e2; rounded: 0 valid, 5 too_few_points;"
                         f" simplify: {cleaned}; despike: {cleaned}")


class Tiles(ExampleCase):

    name = "tiles"

    def features(self, *rings):
        return samples.arrays([(False, [[ring]]) for ring in rings],
                              np.int32)

    def test_where_land_begins_and_ends_on_a_line(self):
        for rings, ends in (
                ([SQUARE], {0, 4}),
                ([[*SQUARE[:2], (4, 1), (4, 3), *SQUARE[2:]]], {0, 4}),
                ([[(0, 0), (4, 1), (0, 2)]], set()),
                ([[(0, 0), (4, 1), (4, 3), (4, 1), (0, 2)]], set()),
                ([SQUARE, [(4, 6), (5, 6), (4, 9)]], {0, 4, 6, 9}),
                ([FAR], set()), ([], set())):
            found = self.example.ends_on(self.features(*rings), 4)
            self.assertEqual(found, ends)
            self.assertEqual(self.example.length(found),
                             sum(sorted(ends)[1::2])
                             - sum(sorted(ends)[::2]))

    def test_where_tiles_differ(self):
        east = [(4, 0), (9, 0), (9, 3), (4, 3)]
        for one, other, length in ((SQUARE, east, 1), (SQUARE, SQUARE, 0),
                                   (SQUARE, FAR, 4)):
            differs = self.example.differing(self.features(one),
                                             self.features(other), 4)
            self.assertEqual(self.example.length(differs), length)

    def test_cleaning_keeps_what_lies_beside_a_line(self):
        numbers = random.Random(3)
        seen = set()
        for _ in range(300):
            rings = [plain.random_ring(numbers, np.int32, 9)
                     for _ in range(numbers.randrange(4))]
            given = self.features(*rings)
            left = io.simplify_features(given, collapsed="empty")
            for x in (-1, 0, 1):
                ends = self.example.ends_on(given, x)
                self.assertEqual(self.example.ends_on(left, x), ends)
                seen.add(len(ends))
        self.assertLessEqual({0, 2, 4}, seen)

    def test_a_tile_is_cut_out(self):
        from shapely import geometry
        side = self.example.SIDE
        low, high = self.example.BOTTOM, self.example.TOP
        shore = geometry.box(-side, low + 10, 2 * side, high - 10)
        tile = self.example.cut([shore], 1, io.Grid(2.0))
        half = side // 2
        self.assertEqual(
            i_shape.canonical(tile.left.polygons.points).tolist(),
            i_shape.canonical(np.array(
                [(half, low // 2 + 5), (half, high // 2 - 5),
                 (side, high // 2 - 5), (side, low // 2 + 5)],
                np.int32)).tolist())


class Triangles(ExampleCase):

    name = "triangles"

    def test_the_triangles_of_rings(self):
        flat = [(0, 0), (2, 0), (4, 0)]
        crossed = [(0, 0), (4, 4), (4, 0), (0, 4)]
        rings = i_shape.Rings(*plain.flat([SQUARE, flat, [], crossed],
                                          np.int32))
        triangles = self.example.triangulate(rings)
        self.assertEqual(len(triangles.of_ring[0]), 2)
        areas = [self.example.doubled_areas(its).tolist()
                 for its in triangles.of_ring]
        self.assertEqual(areas[0], [16, 16])
        self.assertEqual(sum(areas[1]) + sum(areas[2]), 0)
        missed = self.example.missed(rings, triangles)
        self.assertEqual([plain.tuples(ring) for ring in missed], [crossed])
        self.assertEqual(self.example.told("a", rings, triangles).split()[:2],
                         ["a", "11"])


class Plots(ExampleCase):

    name = "plots"

    def test_a_plot_is_the_same_bytes(self):
        from matplotlib.figure import Figure
        with tempfile.TemporaryDirectory() as folder:
            paths = [Path(folder, f"{k}.svg") for k in range(2)]
            for path in paths:
                figure = Figure()
                figure.subplots().plot([1, 2], [3, 4], clip_on=True)
                self.example.save(figure, str(path))
            self.assertEqual(*(path.read_bytes() for path in paths))


if __name__ == "__main__":
    unittest.main()

"""Which feature holds a point, of floats, of WKB and of a GeoSeries."""

import random
import unittest

import numpy as np

import i_shape
import samples
from i_shape import io
from test_locating import holder

try:
    import warnings
    with warnings.catch_warnings():
        warnings.simplefilter("ignore")
        import geopandas
    from shapely import geometry
    WHY_NOT = None
except ImportError as error:
    WHY_NOT = f"geopandas is not tested: {error}"
    print(WHY_NOT)

# The last one is a MultiPolygon with an empty polygon before another.
TEXTS = ["POLYGON ((0 0, 4.5 0, 4.5 4, 0 4, 0 0), (1 1, 1 2, 2 2, 2 1, 1 1))",
         "POLYGON EMPTY", "MULTIPOLYGON (((8 0, 9 0, 9 4, 8 4, 8 0)), "
         "((1 1, 2 1, 2 2, 1 2, 1 1)))"]
POINTS = [(0.5, 0.5), (1.5, 1.5), (8.5, 3), (5, 1)]
WANTED = [0, 2, 2, -1]


def whole_ring(numbers, fewest):
    return [(numbers.randrange(8), numbers.randrange(8))
            for _ in range(fewest + numbers.randrange(6))]


class Features(unittest.TestCase):

    def test_holders_beside_plain_loops(self):
        numbers = random.Random(5)
        about = [(x, y) for x in range(-1, 9) for y in range(-1, 9)]
        for _ in range(100):
            features = samples.random_features(numbers, 4, number=whole_ring)
            wanted = []
            for point in about:
                its = [place for place, (_, parts) in enumerate(features)
                       if holder(parts, point, "evenodd") >= 0]
                wanted.append(its[0] if its else -1)
            for threads in (1, 3):
                answer = io.locate_in_features(
                    samples.arrays(features), about, 1, threads=threads)
                self.assertEqual(answer.dtype, np.intp)
                self.assertEqual(answer.tolist(), wanted, features)

    def test_text_and_bytes(self):
        given = io.from_wkt(TEXTS)
        for features in (given, io.from_wkb(io.to_wkb(given))):
            for points in (POINTS, np.array(POINTS)):
                for step in (0.5, io.Grid(0.25, (1, 1))):
                    self.assertEqual(io.locate_in_features(
                        features, points, step).tolist(), WANTED)

    def test_a_rule_takes_the_rings_of_a_polygon_together(self):
        features = io.from_wkt([
            "POLYGON ((0 0, 8 0, 8 8, 0 8, 0 0), (2 2, 4 2, 4 4, 2 4, 2 2))"])
        for rule, place in (("evenodd", -1), ("nonzero", 0), ("positive", 0),
                            ("negative", -1)):
            answer = io.locate_in_features(features, [(3, 3)], 1, rule=rule)
            self.assertEqual(answer.tolist(), [place])

    def test_points_and_features_are_rounded_alike(self):
        square = io.from_wkt(["POLYGON ((0 0, 4.4 0, 4.4 4, 0 4, 0 0))"])
        # 4.4 and 4.2 become 4 by a step of 1, and the right edge holds none.
        points = [(4.2, 1), (3.6, 1), (3.4, 1)]
        for step, wanted in ((1, [-1, -1, 0]), (0.1, [0, 0, 0])):
            self.assertEqual(io.locate_in_features(square, points,
                                                   step).tolist(), wanted)

    def test_nothing_to_hold_or_to_ask(self):
        self.assertEqual(io.locate_in_features(
            io.from_wkt([]), [(1, 1)], 1).tolist(), [-1])
        none = io.locate_in_features(io.from_wkt(TEXTS), [], 1)
        self.assertEqual((none.shape, none.dtype), ((0,), np.intp))

    def test_errors(self):
        given = io.from_wkt(TEXTS)
        for far in (1e300, np.nan):
            with self.assertRaisesRegex(i_shape.UnsafePointError,
                                        "point 1: x is") as raised:
                io.locate_in_features(given, [(0, 0), (far, 0)], 1)
            self.assertEqual(raised.exception.point, 1)
        with self.assertRaisesRegex(io.FeatureError, "feature 0, polygon 0"):
            io.locate_in_features(given, [(0, 0)], 1e-300)
        for points in ([(1, 1, 1)], np.array(["a", "b"])):
            with self.assertRaises((TypeError, ValueError)):
                io.locate_in_features(given, points, 1)
        with self.assertRaisesRegex(ValueError, "step"):
            io.locate_in_features(given, POINTS, 0)
        with self.assertRaisesRegex(ValueError, "evenodd"):
            io.locate_in_features(given, POINTS, 1, rule="odd")
        with self.assertRaisesRegex(ValueError, "others"):
            io.locate_in_features(given, POINTS, 1, others="keep")
        with self.assertRaisesRegex(ValueError, "threads"):
            io.locate_in_features(given, POINTS, 1, threads=0)


@unittest.skipIf(WHY_NOT, WHY_NOT)
class Series(unittest.TestCase):

    def polygons(self, *others):
        its = io.to_shapely(io.from_wkt(TEXTS))
        return geopandas.GeoSeries([None, *its, *others], crs="EPSG:3857",
                                   index=list("vwxyz")[:4 + len(others)])

    def points(self, *others):
        its = [geometry.Point(*point) for point in POINTS]
        return geopandas.GeoSeries([*its, None, geometry.Point(), *others],
                                   name="homes", crs="EPSG:3857",
                                   index=[7, 7, "a", "b", "c", 3, 4][
                                       :6 + len(others)])

    def test_places_by_the_index_of_the_points(self):
        # None is the first of the polygons, and so each place is one more.
        wanted = [place + 1 if place >= 0 else -1 for place in WANTED]
        answer = io.locate_in_features(self.polygons(), self.points(), 0.5)
        self.assertEqual(answer.tolist(), [*wanted, -1, -1])
        self.assertEqual(answer.index.tolist(), [7, 7, "a", "b", "c", 3])
        self.assertEqual((answer.name, answer.dtype), ("homes", np.intp))
        array = io.locate_in_features(self.polygons(), POINTS, 0.5)
        self.assertEqual(array.tolist(), wanted)
        series = io.locate_in_features(io.from_wkt(TEXTS), self.points(), 0.5)
        self.assertEqual(series.tolist(), [*WANTED, -1, -1])

    def test_a_third_coordinate_of_points_is_not_read(self):
        high = geometry.Point(0.5, 0.5, 9)
        answer = io.locate_in_features(self.polygons(), self.points(high), 0.5)
        self.assertEqual(answer.iloc[-1], 1)

    def test_other_geometries(self):
        line = geometry.LineString([(0, 0), (9, 9)])
        with self.assertRaisesRegex(io.FeatureError, "not a LineString") as it:
            io.locate_in_features(self.polygons(line), self.points(), 0.5)
        self.assertEqual(it.exception.feature, 4)
        kept = io.locate_in_features(self.polygons(line), POINTS, 0.5,
                                     others="keep")
        self.assertEqual(kept.tolist(), [1, 3, 3, -1])
        with self.assertRaisesRegex(ValueError, "point 6: expected a Point"):
            io.locate_in_features(self.polygons(), self.points(line), 0.5)
        for features, points in ((self.polygons(), "POINT (1 1)"),
                                 ("POLYGON EMPTY", POINTS)):
            with self.assertRaisesRegex(TypeError, "not a str"):
                io.locate_in_features(features, points, 0.5)

    def test_a_fault_names_the_place_in_the_series(self):
        far = geometry.Point(1e300, 0)
        with self.assertRaisesRegex(i_shape.UnsafePointError,
                                    "point 6: x is") as raised:
            io.locate_in_features(self.polygons(), self.points(far), 0.5)
        self.assertEqual(raised.exception.point, 6)
        far = geometry.Polygon([(0, 0), (1e300, 0), (0, 1)])
        with self.assertRaisesRegex(io.FeatureError, "x is 1e") as raised:
            io.locate_in_features(self.polygons(far), POINTS, 0.5)
        self.assertEqual(raised.exception.feature, 4)

    def test_two_crs_are_an_error(self):
        points = self.points().set_crs("EPSG:4326", allow_override=True)
        with self.assertRaisesRegex(ValueError, "EPSG:4326"):
            io.locate_in_features(self.polygons(), points, 0.5)
        points.crs = None
        io.locate_in_features(self.polygons(), points, 0.5)

    def test_no_points(self):
        none = io.locate_in_features(self.polygons(), self.points()[:0], 0.5)
        self.assertEqual((len(none), none.dtype), (0, np.intp))
        only_none = io.locate_in_features(self.polygons(),
                                          self.points()[4:5], 0.5)
        self.assertEqual(only_none.tolist(), [-1])


if __name__ == "__main__":
    unittest.main()

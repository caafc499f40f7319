"""Features through shapely: 1.8, and 2 or a stand-in of its ragged arrays."""

import random
import subprocess
import sys
import unittest
from unittest import mock

import numpy as np

import plain
import samples
from i_shape import io

try:
    import shapely
    from shapely import geometry, wkt
    WHY_NOT = None
except ImportError as error:
    WHY_NOT = f"shapely is not tested: {error}"
    print(WHY_NOT)

COUNT = 1500  # of which a thousand are multipolygons


def objects(items):
    """An array of objects, which numpy doesn't look into."""
    array = np.empty(len(items), object)
    for place, item in enumerate(items):
        array[place] = item
    return array


class StandIn:
    """What shapely 2 documents of its ragged arrays, by plain loops."""

    class GeometryType:
        POLYGON = 3
        MULTIPOLYGON = 6

    def __init__(self):
        self.calls = []

    def to_ragged_array(self, geometries):
        self.calls.append("to")
        are_multi = [one.geom_type == "MultiPolygon" for one in geometries]
        lists = [list(one.geoms) if is_multi else [one]
                 for one, is_multi in zip(geometries, are_multi)]
        polygons = [polygon for parts in lists for polygon in parts]
        rings = [[polygon.exterior, *polygon.interiors]
                 for polygon in polygons]
        points = [[point for point in ring.coords]
                  for its in rings for ring in its]
        offsets = [np.cumsum([0, *map(len, level)])
                   for level in (points, rings, lists)]
        kind = self.GeometryType.POLYGON
        if any(are_multi):
            kind = self.GeometryType.MULTIPOLYGON
        else:
            offsets = offsets[:2]
        coordinates = np.array([point for ring in points for point in ring])
        return kind, coordinates, tuple(offsets)

    def from_ragged_array(self, kind, coordinates, offsets):
        self.calls.append("from")
        assert kind == self.GeometryType.MULTIPOLYGON
        assert coordinates.dtype == np.float64
        levels = plain.parted(coordinates, offsets[0])
        for ring in levels:
            assert ring[0] == ring[-1]
        for ends in offsets[1:]:
            levels = [levels[a:b] for a, b in zip(ends, ends[1:])]
        return objects([geometry.MultiPolygon(
            [(rings[0], rings[1:]) for rings in polygons])
            for polygons in levels])


def stand_in():
    """Shapely with the stand-in's calls."""
    calls = StandIn()
    return calls, mock.patch.multiple(
        shapely, create=True, GeometryType=StandIn.GeometryType,
        to_ragged_array=calls.to_ragged_array,
        from_ragged_array=calls.from_ragged_array)


@unittest.skipIf(WHY_NOT, WHY_NOT)
class Shapely(unittest.TestCase):

    def assert_round_trip(self, given):
        features = samples.arrays(given)
        geometries = io.to_shapely(features)
        self.assertEqual(len(geometries), len(given))
        self.assertEqual([isinstance(one, geometry.MultiPolygon)
                          for one in geometries],
                         [is_multi for is_multi, _ in given])
        for one, (is_multi, polygons) in zip(geometries, given):
            parts = list(one.geoms) if is_multi else [one]
            for part, rings in zip(parts, polygons):
                coordinates = [list(ring.coords) for ring in
                               (part.exterior, *part.interiors)]
                self.assertEqual(coordinates,
                                 [ring + ring[:1] for ring in rings])
        found = samples.lists(io.from_shapely(geometries))
        for one, other in zip(found, given):
            self.assertEqual(one, other)
        self.assertEqual(len(found), len(given))

    def test_a_thousand_multipolygons(self):
        self.assert_round_trip(
            samples.random_features(random.Random(1), COUNT, 3, 1))

    def test_a_thousand_multipolygons_and_empty_ones(self):
        given = samples.random_features(random.Random(2), COUNT, 3)
        self.assert_round_trip([
            (is_multi, [rings for rings in polygons if rings])
            for is_multi, polygons in given])

    def test_a_thousand_multipolygons_by_ragged_arrays(self):
        calls, patch = stand_in()
        with patch:
            numbers = random.Random(3)
            self.assert_round_trip(
                samples.random_features(numbers, COUNT, 3, 1))
            self.assert_round_trip([
                (False, [[samples.random_ring(numbers, 3)]])
                for _ in range(COUNT)])
            self.assertEqual(calls.calls, ["from", "to"] * 2)
            self.assert_round_trip([(True, []), (False, [])])
            self.assert_round_trip([])
            self.assertEqual(calls.calls, ["from", "to"] * 2)

    def test_cleaned_and_back(self):
        hole, flat = [(1, 1), (1, 2), (2, 1)], [(1, 3), (2, 3), (3, 3)]
        parcels = [geometry.Polygon([(0, 0), (2, 0), *samples.SQUARE[1:]],
                                    [hole, flat]),
                   geometry.Polygon(flat),
                   geometry.MultiPolygon([geometry.Polygon(flat),
                                          geometry.Polygon(samples.SQUARE)])]
        grid = io.Grid(0.001, (-2.0, 7.0))
        whole = io.features_to_grid(io.from_shapely(objects(parcels)), grid,
                                    np.int32)
        left = io.to_shapely(io.features_from_grid(
            io.simplify_features(whole, collapsed="empty"), grid))
        self.assertEqual(left[0].area, 15.5)
        self.assertEqual(
            [list(ring.coords) for ring in
             (left[0].exterior, *left[0].interiors)],
            [samples.SQUARE + samples.SQUARE[:1], hole + hole[:1]])
        self.assertTrue(left[1].is_empty)
        self.assertEqual([part.area for part in left[2].geoms], [16])

    def test_other_geometries_name_their_place(self):
        square = geometry.Polygon(samples.SQUARE)
        thick = geometry.Polygon([(0, 0, 1), (1, 0, 1), (1, 1, 1)])
        for other, words in (
                (geometry.Point(0, 0), "not a Point"),
                (geometry.LineString([(0, 0), (1, 1)]), "not a LineString"),
                (geometry.GeometryCollection([square]),
                 "not a GeometryCollection"),
                (None, "not a NoneType"), ("text", "not a str"),
                (thick, "three coordinates"),
                (geometry.MultiPolygon([thick, square]),
                 "three coordinates")):
            with self.assertRaisesRegex(io.FeatureError, words) as told:
                io.from_shapely([square, other])
            self.assertEqual(told.exception.feature, 1)

    def test_polygons_with_measures(self):
        """Shapely 2.1 says that they have some."""
        square = geometry.Polygon(samples.SQUARE)
        with mock.patch.object(geometry.Polygon, "has_m", True, create=True), \
                self.assertRaisesRegex(io.FeatureError, "three coordinates"):
            io.from_shapely([square])

    def test_infinite_points_name_their_place(self):
        square = geometry.Polygon(samples.SQUARE)
        for number in (float("nan"), float("inf")):
            broken = geometry.Polygon([(0, 0), (1, number), (1, 1)])
            for patch in (stand_in()[1], mock.MagicMock()):
                with patch, self.assertRaises(io.FeatureError) as told:
                    io.from_shapely([square, geometry.MultiPolygon(
                        [square, broken])])
                error = told.exception
                self.assertEqual((error.feature, error.polygon, error.ring,
                                  error.point), (1, 1, 0, 1))

    def test_short_rings_name_their_place(self):
        for ring in ([], [(0, 0)], [(0, 0), (1, 1)]):
            features = samples.arrays(
                [(True, []), (True, [[samples.SQUARE],
                                     [samples.SQUARE, ring]])])
            with self.assertRaisesRegex(io.FeatureError,
                                        f"has {len(ring)}") as told:
                io.to_shapely(features)
            error = told.exception
            self.assertEqual((error.feature, error.polygon, error.ring),
                             (1, 1, 1))

    def test_empty_parts_are_left_out(self):
        for patch in (stand_in()[1], mock.MagicMock()):
            with patch:
                left = io.from_shapely([
                    wkt.loads("MULTIPOLYGON (EMPTY, ((0 0, 4 0, 4 4, 0 0)))"),
                    wkt.loads("POLYGON EMPTY"), geometry.Polygon(),
                    geometry.MultiPolygon()])
            self.assertEqual(samples.lists(left), [
                (True, [[[(0, 0), (4, 0), (4, 4)]]]), (False, []),
                (False, []), (True, [])])

    def test_polygons_without_rings_are_left_out(self):
        features = samples.arrays([(True, [[], [samples.SQUARE]]),
                                   (False, [[]])])
        left = io.to_shapely(features)
        self.assertEqual([one.area for one in left], [16, 0])


class WithoutShapely(unittest.TestCase):

    def test_only_a_call_imports_it(self):
        code = ("import sys; sys.modules['shapely'] = None;"
                " from i_shape import io; io.from_wkt(['POLYGON EMPTY']);"
                " print('read'); io.from_shapely([])")
        run = subprocess.run([sys.executable, "-c", code], text=True,
                             capture_output=True, check=False)
        self.assertEqual(run.stdout, "read\n")
        self.assertRegex(run.stderr, "(ImportError|ModuleNotFoundError)")


if __name__ == "__main__":
    unittest.main()

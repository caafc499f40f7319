"""Features through GeoJSON and WKT, and their errors."""

import json
import pickle
import random
import unittest

import numpy as np

import i_shape
import samples
from i_shape import io

COUNT = 1500  # of which a thousand are multipolygons


class FormatCase(unittest.TestCase):

    def assert_same(self, features, right):
        for one, other in zip(features.polygons, right.polygons):
            self.assertEqual(one.dtype, other.dtype)
            np.testing.assert_array_equal(one, other)
        np.testing.assert_array_equal(features.feature_offsets,
                                      right.feature_offsets)
        np.testing.assert_array_equal(features.are_multi, right.are_multi)

    def assert_fails(self, call, given, words, *place):
        """The call names the place: feature, polygon, ring, point."""
        with self.subTest(words=words, place=place):
            with self.assertRaises(io.FeatureError) as told:
                call(given)
            error = told.exception
            self.assertIn(words, str(error))
            found = [error.feature, error.polygon, error.ring, error.point]
            self.assertEqual(found, [*place, *[None] * (4 - len(place))])
            names = ("feature", "polygon", "ring", "point")
            for name, index in zip(names, place):
                self.assertIn(f"{name} {index}", str(error))


class RoundTrips(FormatCase):

    def test_a_thousand_multipolygons_through_geojson(self):
        features = samples.arrays(
            samples.random_features(random.Random(1), COUNT))
        self.assertGreater(features.are_multi.sum(), 1000)
        text = json.dumps(io.to_geojson(features))
        self.assert_same(io.from_geojson(json.loads(text)), features)

    def test_a_thousand_multipolygons_through_wkt(self):
        features = samples.arrays(
            samples.random_features(random.Random(2), COUNT))
        self.assertGreater(features.are_multi.sum(), 1000)
        self.assert_same(io.from_wkt(io.to_wkt(features)), features)

    def test_whole_numbers_are_written_as_such(self):
        for dtype in (np.int16, np.int32, np.int64):
            features = samples.arrays(
                [(False, [[[(0, 0), (4, 0), (4, -4)]]])], dtype)
            self.assertEqual(io.to_wkt(features),
                             ["POLYGON ((0 0, 4 0, 4 -4, 0 0))"])
            text = json.dumps(io.to_geojson(features)["features"][0])
            self.assertIn("[[[0, 0], [4, 0], [4, -4], [0, 0]]]", text)

    def test_offsets_of_any_width_and_from_any_start(self):
        whole = samples.arrays(
            samples.random_features(random.Random(3), 30, 1, 1))
        right = io.to_wkt(whole)[10:20]
        for dtype in (np.int32, np.int64, np.uint64):
            points, rings, parts = whole.polygons
            given = io.Features(
                i_shape.Polygons(points, rings.astype(dtype),
                                 parts.astype(dtype)),
                whole.feature_offsets[10:21].astype(dtype),
                whole.are_multi[10:20])
            self.assertEqual(io.to_wkt(given), right)
            self.assert_same(io.from_geojson(io.to_geojson(given)),
                             io.from_wkt(right))


class GeoJSON(FormatCase):

    def test_each_kind_of_document(self):
        ring = [[0, 0], [4, 0], [4, 4], [0, 0]]
        polygon = {"type": "Polygon", "coordinates": [ring]}
        feature = {"type": "Feature", "geometry": polygon, "id": 7}
        for document in (polygon, feature, samples.geojson(polygon)):
            features = io.from_geojson(document)
            self.assertEqual(samples.lists(features),
                             [(False, [[[(0, 0), (4, 0), (4, 4)]]])])
            self.assertEqual(io.to_geojson(features, document), document)

    def test_open_rings_and_tuples(self):
        ring = ((0, 0), (4, 0.5), (4, 4))
        for given in (ring, ring + ring[:1], [list(p) for p in ring],
                      [(np.float64(x), np.float64(y)) for x, y in ring]):
            features = io.from_geojson(
                {"type": "Polygon", "coordinates": [given]})
            self.assertEqual(samples.lists(features)[0][1], [[list(ring)]])

    def test_members_stay_and_boxes_go(self):
        document = samples.geojson(samples.polygon(samples.SQUARE), None)
        document.update(name="parcels", bbox=[0, 0, 4, 4])
        document["features"][0].update(bbox=[0, 0, 4, 4], id="a")
        document["features"][0]["geometry"].update(bbox=[0, 0, 4, 4], tag=1)
        before = json.dumps(document)
        features = io.from_geojson(document)
        self.assertEqual(samples.lists(features),
                         [(False, [[samples.SQUARE]]), (True, [])])
        answer = io.to_geojson(features, document)
        self.assertEqual(json.dumps(document), before)
        for part in (document, document["features"][0],
                     document["features"][0]["geometry"]):
            del part["bbox"]
        self.assertEqual(answer, document)

    def test_nothing(self):
        for document in (samples.geojson(), samples.geojson(None)):
            features = io.from_geojson(document)
            self.assertEqual(io.to_geojson(features, document), document)
            self.assertEqual(features.polygons.points.shape, (0, 2))

    def test_a_document_of_another_length(self):
        one = io.from_wkt(["POLYGON EMPTY"])
        for document in (samples.geojson(), samples.geojson(None, None)):
            with self.assertRaisesRegex(ValueError, "in the document"):
                io.to_geojson(one, document)
        with self.assertRaisesRegex(ValueError, "1 in the document"):
            io.to_geojson(io.from_wkt([]), samples.polygon(samples.SQUARE))

    def test_a_document_that_no_features_are_read_from(self):
        one = io.from_wkt(["POLYGON EMPTY"])
        for document, words in (
                ([], "expected an object of GeoJSON, not []"),
                ("text", "expected an object of GeoJSON, not 'text'"),
                ({}, "expected a Polygon or a MultiPolygon, not {}"),
                ({"type": "Point", "coordinates": [0, 0]}, "'Point'"),
                ({"type": "Feature", "geometry": 5}, "a MultiPolygon, not 5"),
                ({"type": "FeatureCollection"}, "features are None"),
                (samples.geojson([1]), "Polygon or a MultiPolygon, not [1]"),
                (samples.geojson({"type": "LineString"}), "'LineString'")):
            self.assert_fails(lambda given: io.to_geojson(one, given),
                              document, words, 0)

    def test_errors_name_the_place(self):
        square = samples.polygon(samples.SQUARE)

        def coordinates(kind, value):
            return samples.geojson(
                square, None, {"type": kind, "coordinates": value})

        for document, words, *place in (
                (None, "an object of GeoJSON", 0),
                ([square], "an object of GeoJSON", 0),
                ({}, "Polygon or a MultiPolygon", 0),
                ({"type": "Point", "coordinates": [0, 0]}, "'Point'", 0),
                ({"type": "FeatureCollection"}, "features are None", 0),
                ({"type": "FeatureCollection", "features": {}},
                 "not a list", 0),
                ({"type": "FeatureCollection", "features": [
                    {"type": "Feature", "geometry": None}, square]},
                 "expected a Feature", 1),
                (samples.geojson(square, {"type": "LineString"}),
                 "'LineString'", 1),
                (samples.geojson(square, {"type": ["Polygon"]}),
                 "['Polygon']", 1),
                (samples.geojson(square, 5), "a MultiPolygon, not 5", 1),
                (coordinates("GeometryCollection", []),
                 "'GeometryCollection'", 2),
                (coordinates("Polygon", None), "coordinates are None", 2),
                (coordinates("Polygon", "text"), "coordinates are 'text'", 2),
                (coordinates("MultiPolygon", [[], 5]),
                 "expected a list of rings, not 5", 2, 1),
                (coordinates("Polygon", [7]),
                 "expected a list of positions, not 7", 2, 0, 0),
                (coordinates("Polygon", [[[0, 0]], "ab"]),
                 "expected a list of positions, not 'ab'", 2, 0, 1),
                (coordinates("Polygon", [{}]),
                 "expected a list of positions, not {}", 2, 0, 0),
                (coordinates("Polygon", [[[0, 0]], ""]),
                 "expected a list of positions, not ''", 2, 0, 1),
                (coordinates("Polygon", [{"ab": 1}]),
                 "expected a list of positions", 2, 0, 0),
                (coordinates("Polygon", [[[0, 0], 3]]),
                 "the position 3 has no coordinates", 2, 0, 0, 1),
                (coordinates("Polygon", [[[0, 0], "ab"]]),
                 "the position 'ab' has no coordinates", 2, 0, 0, 1),
                (coordinates("Polygon", [[[0, 0], b"ab"]]),
                 "the position b'ab' has no coordinates", 2, 0, 0, 1),
                (coordinates("Polygon", [[[0, 0], {4: 0, 0: 4}]]),
                 "the position {0: 4, 4: 0} has no", 2, 0, 0, 1),
                (coordinates("Polygon", [[[0, 0], {0, 4}, [1, 1]]]),
                 "the position {0, 4} has no coordinates", 2, 0, 0, 1),
                (coordinates("Polygon", [[[0, 0], range(2)]]),
                 "the position range(0, 2) has no", 2, 0, 0, 1),
                (coordinates("Polygon", [[[0, 0], [1, 1, 1]]]),
                 "has 3 coordinates, not 2", 2, 0, 0, 1),
                (coordinates("Polygon", [[[0, 0]], [[1, 1], []]]),
                 "has 0 coordinates, not 2", 2, 0, 1, 1),
                (coordinates("MultiPolygon", [[], [[[0, 0]], [[0, "1"]]]]),
                 "'1' isn't a number", 2, 1, 1, 0),
                (coordinates("Polygon", [[[0, 0], [0, True]]]),
                 "True isn't a number", 2, 0, 0, 1),
                (coordinates("Polygon", [[[0, 0], [None, 0]]]),
                 "None isn't a number", 2, 0, 0, 1),
                (coordinates("Polygon", [[[0, 0], [[1], [2]]]]),
                 "[1] isn't a number", 2, 0, 0, 1),
                (coordinates("Polygon", [[[0, 0], [0, 10 ** 400]]]),
                 "has no room in a float64", 2, 0, 0, 1),
                (coordinates("Polygon", [[[0, 0], [0, -10 ** 5000]]]),
                 "<a number of thousands of digits> has no room in a float64",
                 2, 0, 0, 1),
                (coordinates("Polygon", [[[0, 0], [10 ** 5000]]]),
                 "has 1 coordinates, not 2", 2, 0, 0, 1),
                (coordinates("Polygon", [[[0, 0], [0, float("nan")]]]),
                 "(0.0, nan), and not finite", 2, 0, 0, 1),
                (coordinates("MultiPolygon", [[[[0, 1], [2, 3]]], [
                    [[0, 0]], [[4, 5], [float("-inf"), 0]]]]),
                 "(-inf, 0.0), and not finite", 2, 1, 1, 1)):
            self.assert_fails(io.from_geojson, document, words, *place)

    @samples.takes_long
    def test_a_million_holes(self):
        hole = [[1, 1], [1, 2], [2, 1], [1, 1]]
        document = {"type": "Polygon", "coordinates": [
            [[0, 0], [9, 0], [0, 9], [0, 0]], *[hole] * 10 ** 6]}
        features = io.from_geojson(document)
        self.assertEqual(len(features.polygons.ring_offsets), 10 ** 6 + 2)
        whole = io.features_to_grid(features, io.Grid(1), np.int16)
        left = io.simplify_features(whole)
        np.testing.assert_array_equal(left.polygons.points,
                                      features.polygons.points)
        document["coordinates"][-1] = [[1, 1], [1, None]]
        self.assert_fails(io.from_geojson, document, "None isn't a number",
                          0, 0, 10 ** 6, 1)


class WKT(FormatCase):

    def test_each_way_of_writing(self):
        for text, right in (
                ("POLYGON ((0 0, 4 0, 4 4, 0 0))",
                 (False, [[[(0, 0), (4, 0), (4, 4)]]])),
                (" polygon((0 0,4 0\t,\n4 4)) ",
                 (False, [[[(0, 0), (4, 0), (4, 4)]]])),
                ("Polygon((-1.5 +2e3, .5 -4E-1, 6. 7))",
                 (False, [[[(-1.5, 2000), (0.5, -0.4), (6, 7)]]])),
                ("POLYGON EMPTY", (False, [])),
                ("POLYGON ((1 2))", (False, [[[(1, 2)]]])),
                ("POLYGON ((1 2, 1 2))", (False, [[[(1, 2)]]])),
                ("POLYGON ((1 2, 3 4, 5 6), EMPTY)",
                 (False, [[[(1, 2), (3, 4), (5, 6)], []]])),
                ("MULTIPOLYGON EMPTY", (True, [])),
                ("MULTIPOLYGON (EMPTY, ((1 2)))", (True, [[], [[(1, 2)]]])),
                ("MULTIPOLYGON(((1 2),(3 4)),((5 6)))",
                 (True, [[[(1, 2)], [(3, 4)]], [[(5, 6)]]]))):
            with self.subTest(text=text):
                self.assertEqual(samples.lists(io.from_wkt([text])), [right])

    def test_errors_name_the_place(self):
        square = "POLYGON ((0 0, 4 0, 4 4, 0 4, 0 0))"
        for text, words, *place in (
                ("", "expected POLYGON or MULTIPOLYGON, not ''"),
                ("POINT (0 0)", "not 'POINT (0 0)'"),
                ("POLYGONS ((0 0))", "not 'POLYGONS ((0 0))'"),
                ("SRID=4326;POLYGON ((0 0))", "POLYGON or MULTIPOLYGON"),
                (None, "expected a text, not None"),
                ("POLYGON", "expected '(' at character 7, not the end"),
                ("POLYGON Z ((0 0 0))", "it has more"),
                ("POLYGON M ((0 0 0))", "it has more"),
                ("MULTIPOLYGON ZM EMPTY", "it has more"),
                ("POLYGON (0 0, 4 0)", "expected '(' at character 9"),
                ("POLYGON ((0 0, 4 0)", "expected ')' at character 19"),
                ("POLYGON ((0 0, 4 0", "expected ')' at character 18"),
                ("POLYGON ((0 0, (4 0", "has 0 coordinates", 0, 0, 1),
                ("POLYGON ((0 0)) x", "expected the end at character 16"),
                ("POLYGON EMPTY ((0 0))", "expected the end"),
                ("POLYGON ((0 0),)", "expected '(' at character 15"),
                ("POLYGON ((0 0, 4))", "has 1 coordinates", 0, 0, 1),
                ("POLYGON ((0 0, 4 5 6))", "has 3 coordinates", 0, 0, 1),
                ("POLYGON ((0 0, ))", "has 0 coordinates", 0, 0, 1),
                ("POLYGON (())", "has 0 coordinates", 0, 0, 0),
                ("POLYGON ((0 0, 1 nan))", "'nan' isn't a finite", 0, 0, 1),
                ("POLYGON ((0 0), (0 0, inf 1))", "'inf' isn't", 0, 1, 1),
                ("POLYGON ((0 0, 1 1_0))", "'1_0' isn't", 0, 0, 1),
                ("POLYGON ((0 0, 1 0x1))", "'0x1' isn't", 0, 0, 1),
                ("POLYGON ((0 0, 1 1e999))", "inf), and not finite", 0, 0, 1),
                ("MULTIPOLYGON (((0 0)), ((0 0), (1 a)))", "'a' isn't",
                 1, 1, 0)):
            self.assert_fails(io.from_wkt, [square, text], words, 1, *place)

    def test_one_text_is_no_list(self):
        with self.assertRaisesRegex(TypeError, "a list of texts"):
            io.from_wkt("POLYGON EMPTY")

    def test_many_holes(self):
        holes = ", (1 1, 1 2, 2 1, 1 1)" * 10 ** 5
        text = f"POLYGON ((0 0, 9 0, 0 9, 0 0){holes})"
        features = io.from_wkt([text])
        self.assertEqual(len(features.polygons.points), 3 * 10 ** 5 + 3)
        self.assertEqual(io.to_wkt(features), [text])


class Arrays(FormatCase):

    def test_features_that_do_not_fit(self):
        right = samples.arrays([(True, [[samples.SQUARE]]), (False, [])])
        points, rings, parts = right.polygons

        def polygons(**parts):
            return right._replace(polygons=right.polygons._replace(**parts))

        for given, kind in (
                (polygons(points=points[:3]), i_shape.OffsetsError),
                (polygons(ring_offsets=[4, 0]), i_shape.OffsetsError),
                (polygons(polygon_offsets=[0, 2]), i_shape.OffsetsError),
                (right._replace(feature_offsets=[0, 1, 2]),
                 i_shape.OffsetsError),
                (right._replace(feature_offsets=np.zeros(0, int)),
                 i_shape.OffsetsError),
                (polygons(points=points.astype(str)), TypeError),
                (polygons(points=points.astype(complex)), TypeError),
                (polygons(points=np.ma.masked_array(points)), TypeError),
                (polygons(ring_offsets=[0.0, 4.0]), TypeError),
                (polygons(points=points.ravel()), ValueError),
                (right._replace(are_multi=[True]), ValueError),
                (right._replace(are_multi=[1, 0]), ValueError)):
            for call in (io.to_wkt, io.to_geojson):
                with self.assertRaises(kind):
                    call(given)

    def test_floats_of_each_width_are_written(self):
        right = samples.arrays([(False, [[[(0, 0), (4.5, 0), (4, -4)]]])])
        for dtype in (np.float16, np.float32, np.longdouble):
            points, *offsets = right.polygons
            given = right._replace(
                polygons=i_shape.Polygons(points.astype(dtype), *offsets))
            self.assertEqual(io.to_wkt(given), io.to_wkt(right))
            self.assertEqual(json.dumps(io.to_geojson(given)),
                             json.dumps(io.to_geojson(right)))
        if np.finfo(np.longdouble).max > np.finfo(float).max:
            given.polygons.points[1, 0] = np.finfo(np.longdouble).max
            self.assert_fails(io.to_wkt, given, "not finite", 0, 0, 0, 1)

    def test_lists_and_tuples_of_nothing(self):
        nothing = ([], [0], [0]), [0], []
        self.assertEqual(io.to_wkt(nothing), [])
        with self.assertRaisesRegex(ValueError, "one bool a feature"):
            io.to_wkt((*nothing[:2], [True]))

    def test_a_polygon_has_one_polygon(self):
        given = samples.arrays([(True, []), (True, [[samples.SQUARE]] * 2)])
        given = given._replace(are_multi=np.zeros(2, np.bool_))
        for call in (io.to_wkt, io.to_geojson):
            self.assert_fails(call, given, "several polygons", 1)

    def test_infinite_points_are_not_written(self):
        for number in (float("nan"), float("inf")):
            given = samples.arrays([(True, []), (True, [
                [samples.SQUARE], [samples.SQUARE, [(0, 0), (1, number)]]])])
            for call in (io.to_wkt, io.to_geojson):
                self.assert_fails(call, given, "not finite", 1, 1, 1, 1)

    def test_polygons_are_features(self):
        polygons = i_shape.simplify_polygons(samples.SQUARE * 2, [0, 4, 8],
                                             [0, 1, 2])
        features = io.features_of(polygons)
        self.assertEqual(samples.lists(features),
                         [(False, [[samples.SQUARE]])] * 2)
        self.assertEqual(features.polygons.points.dtype, np.int64)

    def test_an_error_can_be_sent_to_another_process(self):
        with self.assertRaises(io.FeatureError) as told:
            io.from_wkt(["POLYGON ((0 0, 1 a))"])
        error = pickle.loads(pickle.dumps(told.exception))
        self.assertEqual(str(error), str(told.exception))
        self.assertEqual((error.feature, error.point), (0, 1))

    def test_the_place_of_a_row(self):
        given = samples.random_features(random.Random(5), 50)
        features = samples.arrays(given)
        right = [(feature, polygon, ring, point)
                 for feature, (_, parts) in enumerate(given)
                 for polygon, rings in enumerate(parts)
                 for ring, points in enumerate(rings)
                 for point, _ in enumerate(points)]
        self.assertEqual([features.place(row) for row in range(len(right))],
                         right)
        for row in (-1, len(right), 10 ** 9):
            with self.assertRaisesRegex(IndexError, f"row is {row}, and not"):
                features.place(row)
        with self.assertRaises(TypeError):
            features.place(0.5)
        rings = len(features.polygons.ring_offsets) - 1
        for ring in (-1, rings):
            with self.assertRaisesRegex(IndexError, f"ring is {ring}, and"):
                features.ring_place(ring)

    def test_rows_outside_the_features_have_no_place(self):
        whole = samples.arrays([(False, [[samples.SQUARE]])] * 3)
        part = whole._replace(feature_offsets=whole.feature_offsets[1:3],
                              are_multi=whole.are_multi[1:3])
        self.assertEqual(part.place(5), (0, 0, 0, 1))
        with self.assertRaisesRegex(IndexError, "polygon is 0, and not from"):
            part.place(3)


if __name__ == "__main__":
    unittest.main()

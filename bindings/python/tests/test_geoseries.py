"""The polygons of a GeoSeries: what is cleaned and what stays."""

import unittest

try:
    import warnings
    with warnings.catch_warnings():
        warnings.simplefilter("ignore")
        import geopandas
    from shapely import geometry
    WHY_NOT = None
except ImportError as error:
    WHY_NOT = f"geopandas is not tested: {error}"
    print(WHY_NOT)

from i_shape import io

SPIKED = [(0.5, 0), (0.7, 0), (0.9, 0), (0.9, 0.4), (0.9, 0.8), (0.9, 0.4),
          (0.5, 0.4)]
SQUARE = [(0.5, 0), (0.9, 0), (0.9, 0.4), (0.5, 0.4)]
FLAT = [(0.6, 0.1), (0.7, 0.1), (0.8, 0.1)]
CALLS = {"simplify": SQUARE, "despike": [SQUARE[0], (0.7, 0), *SQUARE[1:]],
         "canonical": SQUARE[:1] + SQUARE[:0:-1]}


@unittest.skipIf(WHY_NOT, WHY_NOT)
class GeoSeries(unittest.TestCase):

    def series(self, *others):
        polygon = geometry.Polygon(SPIKED)
        items = [polygon, None, geometry.MultiPolygon([polygon]),
                 geometry.Polygon(FLAT), geometry.Polygon(), *others]
        index = ["b", "a", "a", 7, 7.5, "x", "y"][:len(items)]
        return geopandas.GeoSeries(items, index=index, crs="EPSG:4326",
                                   name="parcels")

    def rings(self, one):
        return list(one.exterior.coords)[:-1]

    def test_each_cleaner_keeps_index_name_crs_and_none(self):
        given = self.series()
        for name, right in CALLS.items():
            call = getattr(io, f"{name}_geoseries")
            for step in (0.1, io.Grid(0.1)):
                left = call(given, step, collapsed="empty")
                self.assertEqual(left.index.tolist(), given.index.tolist())
                self.assertEqual((left.crs, left.name), (given.crs, "parcels"))
                self.assertEqual(self.rings(left.iloc[0]), right)
                self.assertIsNone(left.iloc[1])
                self.assertEqual([self.rings(one)
                                  for one in left.iloc[2].geoms], [right])
                self.assertTrue(all(one.is_empty for one in left.iloc[3:]))
        self.assertEqual(self.rings(given.iloc[0]), SPIKED)

    def test_others_are_kept_or_named(self):
        point = geometry.Point(1, 2)
        thick = geometry.Polygon([(x, y, 1) for x, y in SPIKED])
        for others, words in (((point, thick), "not a Point"),
                              ((thick, point), "three coordinates")):
            given = self.series(*others)
            with self.assertRaisesRegex(io.FeatureError, words) as told:
                io.simplify_geoseries(given, 0.1)
            self.assertEqual(told.exception.feature, 5)
            left = io.simplify_geoseries(given, 0.1, collapsed="empty",
                                         others="keep")
            self.assertEqual(left.iloc[5:].tolist(), list(others))
            self.assertEqual(self.rings(left.iloc[0]), SQUARE)

    def test_a_fault_names_the_place_in_the_series(self):
        far = geometry.Polygon([(0, 0), (1e300, 0), (0, 1)])
        with self.assertRaisesRegex(io.FeatureError, "x is 1e") as told:
            io.simplify_geoseries(self.series(far), 0.1)
        self.assertEqual((told.exception.feature, told.exception.point),
                         (5, 1))
        with self.assertRaisesRegex(ValueError, "others is 'drop'"):
            io.simplify_geoseries(self.series(), 0.1, others="drop")

    def test_keys_are_those_of_the_features(self):
        turned = geometry.Polygon(SPIKED[3:] + SPIKED[:3])
        point = geometry.Point(1, 2)
        given = self.series(turned, point)
        keys = io.feature_keys(given, 0.1, others="keep")
        self.assertEqual((keys.index.tolist(), keys.name),
                         (given.index.tolist(), "parcels"))
        key, = io.feature_keys(io.features_to_grid(
            io.from_shapely([turned]), io.Grid(0.1)))
        self.assertEqual(keys.tolist(), [key, None, key, b"", b"", key, None])
        with self.assertRaisesRegex(io.FeatureError, "not a Point") as told:
            io.feature_keys(given, io.Grid(0.1))
        self.assertEqual(told.exception.feature, 6)
        for call in io.feature_keys, io.simplify_features:
            with self.assertRaisesRegex(TypeError, "not a GeoSeries: .* step"):
                call(given)

    def test_what_is_no_geoseries_is_an_error(self):
        series = self.series()
        for given, name in ((geopandas.GeoDataFrame(geometry=series),
                             "GeoDataFrame"), (series.array, "GeometryArray"),
                            (series.to_wkb(), "Series"), ([], "list")):
            with self.assertRaisesRegex(TypeError, f"not a {name}$"):
                io.despike_geoseries(given, 0.1)


if __name__ == "__main__":
    unittest.main()

"""The faults of features: in words, of a GeoSeries, and by the command."""

import itertools
import json
import random
import unittest
import warnings

import numpy as np

import plain
import samples
from i_shape import Fault, io
from test_command import CommandCase
from test_geopackage import GeoPackageCase, blob
from test_geoseries import WHY_NOT

SQUARE = "(0.5 0, 2.5 0, 2.5 2, 0.5 2, 0.5 0)"
HOLE = "(1 0.5, 1 1, 1.5 0.5, 1 0.5)"
BESIDE = "(3 0.5, 3 1, 3.5 0.5, 3 0.5)"

# Features of WKT, and for each its fault and the words of it.
FAULTS = [
    (f"POLYGON ({SQUARE}, {HOLE})", None, "None"),
    ("POLYGON EMPTY", None, "None"),
    ("POLYGON ((0 0, 4.5 4.5, 4.5 0, 0 4.5, 0 0))",
     (Fault.CONTACT, 0, 0, 0, (0, 2), ((2.25, 2.25),),
      ((0.0, 0.0), (4.5, 0.0))),
     "polygon 0, ring 0: edge 0 from (0, 0) meets edge 2 from (4.5, 0)"),
    # on the line y = x / 3 and on y = 2 - 2x / 3
    ("POLYGON ((0 0, 3 1, 3 0, 0 2, 0 0))",
     (Fault.CONTACT, 0, 0, 0, (0, 2), ((2.0, 2 / 3),),
      ((0.0, 0.0), (3.0, 0.0))),
     "polygon 0, ring 0: edge 0 from (0, 0) meets edge 2 from (3, 0)"),
    # the end at 5.1 is at 5 on the grid
    ("POLYGON ((0 0, 9 0, 9 9, 0 9, 0 0), (5.1 0, 2 0, 2 3, 5 3, 5.1 0))",
     (Fault.CONTACT, 0, 0, 1, (0, 0), ((2.0, 0.0), (5.0, 0.0)),
      ((0.0, 0.0), (5.1, 0.0))),
     "polygon 0, ring 0: edge 0 from (0, 0) meets edge 0 of ring 1 from"
     " (5.1, 0)"),
    (f"MULTIPOLYGON (({SQUARE}), ({SQUARE}, (0.5 1, 1 1, 1 1.5, 0.5 1)))",
     (Fault.CONTACT, 1, 0, 1, (3, 0), ((0.5, 1.0),),
      ((0.5, 2.0), (0.5, 1.0))),
     "polygon 1, ring 0: edge 3 from (0.5, 2) meets edge 0 of ring 1 from"
     " (0.5, 1)"),
    # 0.9 and 1.1 are 4 steps
    (f"POLYGON ({SQUARE}, (1.1 1.1, 0.9 1.1, 1.1 0.9, 1.1 1.1))",
     (Fault.TOO_FEW_POINTS, 0, 1, None, None, ((1.1, 1.1),)),
     "polygon 0, ring 1: it has fewer than three points, or only equal ones,"
     " at (1.1, 1.1)"),
    # the first polygon with a fault
    (f"MULTIPOLYGON (({SQUARE}, {HOLE}, {BESIDE}), (EMPTY))",
     (Fault.HOLE_OUTSIDE, 0, 2, None, None, ((3.0, 0.5),)),
     "polygon 0, ring 2: it is a hole outside the outer ring, at (3, 0.5)"),
    (f"POLYGON ((0 0, 9 0, 9 9, 0 9, 0 0), {HOLE},"
     " (0.5 0.25, 0.5 2, 3 0.25, 0.5 0.25))",
     (Fault.HOLE_WITHIN, 0, 1, 2, None, ((1.0, 0.5),)),
     "polygon 0, ring 1: it is a hole within ring 2, another hole, at"
     " (1, 0.5)"),
    ("POLYGON (EMPTY)", (Fault.TOO_FEW_POINTS, 0, 0, None, None, ()),
     "polygon 0, ring 0: it has fewer than three points, or only equal ones"),
]
# The same where rings may touch.
WIDE = "(0 0, 9 0, 9 9, 0 9, 0 0)"
TOUCHING = [
    (f"POLYGON ({SQUARE}, (0.5 1, 1 1, 1 1.5, 0.5 1))", None, "None"),
    *(FAULTS[place] for place in (2, 4, 6)),
    (f"POLYGON ({SQUARE}, (2.5 1, 3 0.5, 3 1.5, 2.5 1))",
     (Fault.HOLE_OUTSIDE, 0, 1, None, None, ((2.5, 1.0),)),
     "polygon 0, ring 1: it is a hole outside the outer ring, at (2.5, 1)"),
    (f"POLYGON ({WIDE}, (1 1, 3 2, 2 3, 1 1), (1 1, 8 1, 8 8, 1 8, 1 1))",
     (Fault.HOLE_WITHIN, 0, 1, 2, None, ((1.0, 1.0),)),
     "polygon 0, ring 1: it is a hole within ring 2, another hole, at"
     " (1, 1)"),
    # 2.4 is 10 steps, as 2.5 is
    (f"POLYGON ({SQUARE}, (0.5 1, 1 1.5, 2.4 1, 0.5 1))",
     (Fault.DISCONNECTED, 0, 0, 1, (1, 1), ((2.5, 1.0),),
      ((2.5, 0.0), (1.0, 1.5))),
     "polygon 0, ring 0: edge 1 from (2.5, 0) touches edge 1 of ring 1 from"
     " (1, 1.5), which parts the inside"),
    (f"MULTIPOLYGON (({SQUARE}, (0.5 1, 1 1, 1 1.5, 0.5 1)), ({SQUARE},"
     " (0.5 0.5, 1 1, 1.5 0.5, 0.5 0.5), (0.5 1, 1 1, 1 1.5, 0.5 1)))",
     (Fault.DISCONNECTED, 1, 1, 2, (0, 0), ((1.0, 1.0),),
      ((0.5, 0.5), (0.5, 1.0))),
     "polygon 1, ring 1: edge 0 from (0.5, 0.5) touches edge 0 of ring 2"
     " from (0.5, 1), which parts the inside"),
]
# Whether rings may touch, the features, and their faults with the words.
RULES = [(touching, io.from_wkt([text for text, _, _ in rows]),
          [(fault, told) for _, fault, told in rows])
         for touching, rows in ((False, FAULTS), (True, TOUCHING))]
GIVEN = RULES[0][1]


class Explained(unittest.TestCase):

    def test_features(self):
        for (touching, given, faults), step in itertools.product(
                RULES, (0.25, io.Grid(0.25))):
            found = io.explain_validity(given, step, touching=touching,
                                        threads=2)
            self.assertEqual(found, [fault and io.FeatureFault(*fault)
                                     for fault, _ in faults])
            self.assertEqual(list(map(str, found)),
                             [told for _, told in faults])

    def test_edges_meet_where_fractions_say(self):
        numbers = random.Random(97)
        rings = []
        for most in 1000 * (3, 2 ** 40):
            rings.append([(numbers.randrange(-most, most),
                           numbers.randrange(-most, most))
                          for _ in range(numbers.randrange(3, 8))])
        grid, counts = io.Grid(0.3, (7, -2)), [0, 0, 0]
        given = io.features_from_grid(io.features_of(
            (*plain.flat(rings, np.int64), np.arange(len(rings) + 1))), grid)
        for ring, fault in zip(rings, io.explain_validity(given, grid)):
            if fault and fault.edges:
                edges = [(ring[k], ring[(k + 1) % len(ring)])
                         for k in fault.edges]
                wanted = sorted(set(plain.shared(*edges[0], *edges[1])))
                self.assertEqual(fault.points, tuple(
                    (7 + float(x) * 0.3, -2 + float(y) * 0.3)
                    for x, y in wanted))
                counts[len(wanted)] += 1
        self.assertGreater(min(counts[1:]), 30)

    def test_rounding_makes_and_ends_faults(self):
        text = "POLYGON ((0 0, 4 0, 4 4, 4 4.1, 0 4, 0 0))"
        given = io.from_wkt([text])
        self.assertEqual(io.explain_validity(given, 0.1), [None])
        self.assertEqual(str(io.explain_validity(given, 1)[0]),
                         "polygon 0, ring 0: edge 1 from (4, 0) meets edge 3"
                         " from (4, 4.1)")

    def test_errors(self):
        with self.assertRaises(io.FeatureError) as told:
            io.explain_validity(GIVEN, 1e-30)
        self.assertEqual(told.exception.feature, 0)
        with self.assertRaises(ValueError):
            io.explain_validity(GIVEN, 1, others="keep")
        with self.assertRaises(ValueError):
            io.explain_validity(GIVEN, 0)

    @unittest.skipIf(WHY_NOT, WHY_NOT)
    def test_geoseries(self):
        import geopandas
        from shapely import geometry
        bow_tie = geometry.Polygon([(0, 0), (4, 4), (4, 0), (0, 4)])
        items = [geometry.Point(1, 2), None, geometry.Polygon(),
                 geometry.box(0, 0, 1, 1), bow_tie]
        series = geopandas.GeoSeries(items, index=["c", "b", "a", 7, 7],
                                     name="parcels")
        found = io.explain_validity(series, 1, others="keep")
        self.assertEqual((found.index.tolist(), found.name),
                         (series.index.tolist(), "parcels"))
        self.assertEqual(found.tolist(), [
            None, None, None, None, io.FeatureFault(
                Fault.CONTACT, 0, 0, 0, (0, 2), ((2.0, 2.0),),
                ((0.0, 0.0), (4.0, 0.0)))])
        self.assertIn("polygon 0, ring 0: edge 0 from", found.to_string())
        touching = geopandas.GeoSeries.from_wkt(
            [text for text, _, _ in TOUCHING])
        self.assertEqual(
            io.explain_validity(touching, 0.25, touching=True).tolist(),
            [fault and io.FeatureFault(*fault)
             for fault, _ in RULES[True][2]])
        with self.assertRaises(io.FeatureError) as told:
            io.explain_validity(series, 1)
        self.assertEqual(told.exception.feature, 0)
        with self.assertRaises(io.FeatureError) as told:
            io.explain_validity(series[1:], 1e-30, others="keep")
        self.assertEqual(told.exception.feature, 2)
        with self.assertRaises(TypeError):
            io.explain_validity(geopandas.GeoDataFrame(geometry=series), 1)


class Checked(CommandCase):

    def test_texts(self):
        for (touching, given, faults), (name, place) in itertools.product(
                RULES, (("given.geojson", "feature {0}"),
                        ("given.wkt", "line {1}: feature {0}"))):
            path = self.folder / name
            self.write_features(path, given)
            told = self.run_command(
                "check", path, "--step", "0.25",
                *["--touching"] * touching, status=1)
            lines = [f"{place.format(at, at + 1)}: {words}\n"
                     for at, (fault, words) in enumerate(faults) if fault]
            self.assertEqual(told, (
                "".join(lines), f"i_shape: {len(lines)} of {len(faults)}"
                " features invalid\n"))
            self.assertEqual(list(self.folder.iterdir()), [path])
            path.unlink()

    def test_the_origin_of_the_grid(self):
        self.write(samples.geojson(samples.polygon(
            [(0, 0), (4, 0), (4, 4), (4, 4.4), (0, 4)])))
        words = ["check", self.given, "--step", "1"]
        self.run_command(*words, status=1)
        self.run_command(*words, "--origin", "0", "0.7")

    def test_nothing_is_told_of_valid_features(self):
        square = samples.polygon(samples.SQUARE)
        self.write(samples.geojson(square, None, square))
        told = self.run_command("check", self.given, "--step", "1", "--to",
                                self.out)
        self.assertEqual(told, ("", "i_shape: 0 of 2 features invalid\n"))
        self.assertEqual(self.geometries(), [])

    def test_points_of_faults(self):
        self.write(samples.geojson(
            None, samples.polygon([(0, 0), (4, 4), (4, 0), (0, 4)]),
            samples.polygon([])))
        self.run_command("check", self.given, "--step", "1", "--to", self.out,
                         status=1)
        features = json.loads(self.out.read_text())["features"]
        self.assertEqual(
            [(one["geometry"], one["properties"]) for one in features],
            [({"type": "Point", "coordinates": [2, 2]},
              {"fid": 1, "reason": "polygon 0, ring 0: edge 0 from (0, 0)"
               " meets edge 2 from (4, 0)"}),
             (None, {"fid": 2, "reason": FAULTS[-1][2]})])

    def test_points_of_touches(self):
        self.write(samples.geojson(*(
            samples.polygon(samples.SQUARE, [(2, 0), (x, 2), (1, 1)])
            for x in (3, 4))))
        told = {}
        for words in ([], ["--touching"]):
            self.run_command("check", self.given, "--step", "1", "--to",
                             self.out, *words, status=1)
            told[len(words)] = [
                (one["geometry"]["coordinates"], one["properties"])
                for one in json.loads(self.out.read_text())["features"]]
        edges = "polygon 0, ring 0: edge {} from ({}, 0) {} edge 0 of ring 1"
        self.assertEqual(told, {
            0: [([2, 0], {"fid": fid, "reason": edges.format(0, 0, "meets")
                          + " from (2, 0)"}) for fid in (0, 1)],
            1: [([4, 2], {"fid": 1, "reason": edges.format(1, 4, "touches")
                          + " from (2, 0), which parts the inside"})]})

    def test_the_points_have_the_members_of_the_collection(self):
        crs = {"type": "name",
               "properties": {"name": "urn:ogc:def:crs:EPSG::25832"}}
        for crossed in ([samples.polygon([(0, 0), (4, 4), (4, 0), (0, 4)])],
                        []):
            given = samples.geojson(*crossed)
            for members in ({"crs": crs, **given}, {**given, "crs": crs}):
                self.write(members)
                self.run_command("check", self.given, "--step", "1", "--to",
                                 self.out, status=len(crossed))
                written = json.loads(self.out.read_text())
                self.assertEqual(written["crs"], crs)
                self.assertEqual(len(written["features"]), len(crossed))

    def test_the_points_have_the_crs_of_a_lone_geometry_or_feature(self):
        crs = {"type": "name", "properties": {"name": "EPSG:25832"}}
        crossed = samples.polygon([(0, 0), (4, 4), (4, 0), (0, 4)])
        for document in (crossed, {"type": "Feature", "geometry": crossed}):
            self.write({**document, "crs": crs})
            self.run_command("check", self.given, "--step", "1", "--to",
                             self.out, status=1)
            written = json.loads(self.out.read_text())
            self.assertEqual(written["crs"], crs)
            self.assertEqual(len(written["features"]), 1)

    def test_no_point_is_written_that_overflows_on_the_way_back(self):
        path = self.write("POLYGON ((0 0, 1.7e308 1.7e308, 1.7e308 0,"
                          " 1.7e308 1.7e308, 0 0))", "a.wkt")
        with warnings.catch_warnings():
            warnings.simplefilter("ignore")
            told, _ = self.run_command("check", path, "--step", "1e308",
                                       "--to", self.out, status=1)
        self.assertEqual((told, self.out.exists()), ("", False))

    def test_others_are_left_out_or_errors(self):
        self.write(samples.geojson({"type": "Point", "coordinates": [0, 0]},
                                   samples.polygon(samples.SQUARE)))
        for others in ("keep", "drop"):
            told = self.run_command("check", self.given, "--step", "1",
                                    "--others", others)
            self.assertEqual(told[1], "i_shape: 0 of 1 features invalid\n")
        told = self.run_command("check", self.given, "--step", "1", "--to",
                                self.out, status=1)
        self.assertIn("feature 0: expected a Polygon or", told[1])
        self.assertFalse(self.out.exists())

    def test_words_that_are_errors(self):
        self.write(samples.geojson())
        step = ["--step", "1"]
        for words, told in (
                (["check", self.given, self.out, *step], "writes no OUT"),
                (["check", self.given, *step, "--oriented"],
                 "--oriented isn't for check"),
                (["check", self.given, *step, "--collapsed", "drop"],
                 "--collapsed isn't for check"),
                (["check", self.given, *step, "--report"],
                 "--report isn't for check"),
                (["check", self.given, *step, "--layer", "a"],
                 "--layer is for GeoPackages"),
                (["check", self.given, *step, "--to", "a.gpkg"],
                 "a.gpkg doesn't end in one of .geojson, .json"),
                (["check", self.given, *step, "--to", self.given],
                 "--to FILE is IN"),
                (["simplify", self.given, *step], "required: OUT"),
                (["simplify", self.given, self.out, *step, "--to", "a.json"],
                 "--to is for check"),
                (["dedup", self.given, self.out, *step, "--touching"],
                 "--touching is for check")):
            with self.subTest(words=words):
                self.assertIn(told, self.run_command(*words, status=2)[1])
        self.assertEqual([path.name for path in self.folder.iterdir()],
                         ["given.geojson"])

    def test_out_may_stand_behind_an_option(self):
        self.write(samples.geojson())
        self.run_command("simplify", self.given, "--step", "1", self.out)
        self.assertTrue(self.out.exists())


class CheckedGeoPackage(GeoPackageCase):

    def test_layers(self):
        blobs = [blob(wkb) for wkb in io.to_wkb(io.from_wkt(
            ["POLYGON ((0 0, 4 0, 4 4, 0 0))",
             "POLYGON ((0 0, 4 4, 4 0, 0 4, 0 0))"]))]
        self.fill(*blobs)
        self.fill(*blobs[1:], layer="fields")
        before = self.given.read_bytes()
        reason = ("polygon 0, ring 0: edge 0 from (0, 0) meets edge 2 from"
                  " (4, 0)")
        lines = [f"layer 'parcels', fid 5: {reason}\n",
                 f"layer 'fields', fid 3: {reason}\n"]
        faults = self.folder / "faults.geojson"
        for words, told in (([], lines), (["--layer", "fields"], lines[1:])):
            out, _ = self.run_command("check", self.given, "--step", "1",
                                      "--to", faults, *words, status=1)
            self.assertEqual(out, "".join(told))
        features = json.loads(faults.read_text())["features"]
        self.assertEqual([one["properties"] for one in features],
                         [{"layer": "fields", "fid": 3, "reason": reason}])
        self.assertEqual(self.given.read_bytes(), before)
        self.assertEqual({path.name for path in self.folder.iterdir()},
                         {"given.gpkg", "faults.geojson"})

    def test_the_crs_of_the_points(self):
        """The layers' CRS is named if they have one, and it isn't WGS 84."""
        self.fill()
        self.fill(layer="fields")
        self.change("CREATE TABLE gpkg_spatial_ref_sys (srs_id INTEGER,"
                    " organization TEXT, organization_coordsys_id INTEGER,"
                    " definition TEXT)")
        self.change("INSERT INTO gpkg_spatial_ref_sys VALUES"
                    " (4326, 'EPSG', 4326, ''), (7, 'epsg', 25832, ''),"
                    " (0, 'NONE', 0, ''), (-1, 'NONE', -1, '')")
        name = {"name": "urn:ogc:def:crs:EPSG::25832"}
        wanted = {"type": "name", "properties": name}
        faults = self.folder / "faults.geojson"
        for srs, crs in (((7, 7), wanted), ((4326, 4326), None),
                         ((0, 0), None), ((-1, -1), None), ((9, 9), None),
                         ((7, 4326), None)):
            for layer, number in zip(("parcels", "fields"), srs):
                self.change("UPDATE gpkg_geometry_columns SET srs_id ="
                            f" {number} WHERE table_name = '{layer}'")
            with self.subTest(srs=srs):
                self.run_command("check", self.given, "--step", "1", "--to",
                                 faults)
                written = json.loads(faults.read_text())
                self.assertEqual(written.get("crs"), crs)


if __name__ == "__main__":
    unittest.main()

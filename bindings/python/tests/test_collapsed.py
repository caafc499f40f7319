"""Features of which nothing is left: an error, made empty, or dropped."""

import contextlib
import json
import sqlite3
import unittest
from unittest import mock

import numpy as np

import samples
from i_shape import io
from i_shape._command import blocks
from test_command import FLAT, HOLE, SPIKED, SQUARE, CommandCase
from test_geopackage import GeoPackageCase, blob

CALLS = ("simplify", "despike", "canonical")
THIN = [(0.5, 0.01), (0.9, 0.02), (0.9, 0.03)]  # of no steps of 0.1
RINGS = [SQUARE, FLAT, SPIKED, THIN]
MESSAGE = ("nothing is left of it, nor of 1 other of 4 {}; is the step in the"
           " unit of the coordinates? To allow this, use {}")
COMMAND = MESSAGE.format("features", "--collapsed empty or --collapsed drop")
LAST = "i_shape: {} of 4 features changed, 2 collapsed\n"
CHANGED = {"simplify": 3, "despike": 3, "canonical": 4}


def features(rings=RINGS):
    return samples.arrays([(False, [[ring]]) for ring in rings])


class OfTexts(CommandCase):

    def files(self):
        """The same four features in each format, and the second one's name."""
        document = samples.geojson(*map(samples.polygon, RINGS))
        yield self.write(document), "feature 1"
        yield self.write("".join(
            f"{json.dumps(one)}\n" for one in document["features"]),
            "given.geojsonl"), "line 2: feature 1"
        yield self.write("\n".join(io.to_wkt(features())),
                         "given.wkt"), "line 2: feature 1"

    def left(self, path):
        """The features of a file."""
        text = path.read_text()
        if path.suffix == ".wkt":
            return io.from_wkt(text.splitlines())
        return io.from_geojson(
            json.loads(text) if path.suffix == ".geojson" else {
                "type": "FeatureCollection",
                "features": list(map(json.loads, text.splitlines()))})

    def test_they_are_errors_before_the_file_is_touched(self):
        for call in CALLS:
            for path, name in self.files():
                for largest in (1, 1 << 22):
                    before = path.read_bytes()
                    with mock.patch.object(blocks, "_LARGEST", largest):
                        told = self.run_command(call, path, path, "--step",
                                                "0.1", "--report", status=1)
                    self.assertEqual(told, (
                        "", f"i_shape: {path}: {name}: {COMMAND}\n"))
                    self.assertEqual(path.read_bytes(), before)

    def test_they_are_emptied_or_dropped_where_that_is_asked(self):
        for call in CALLS:
            for path, _ in self.files():
                for word, are_full in (("empty", [True, False, True, False]),
                                       ("drop", [True, True])):
                    out = self.folder / f"out{path.suffix}"
                    told = self.run_command(call, path, out, "--step", "0.1",
                                            "--collapsed", word)
                    self.assertEqual(told, ("", LAST.format(CHANGED[call])))
                    self.assertEqual(np.diff(
                        self.left(out).feature_offsets).tolist(), are_full)

    def test_what_was_empty_or_loses_a_part_does_not_collapse(self):
        flat, square = ([samples.polygon(ring)["coordinates"]
                         for ring in (FLAT, SQUARE)])
        self.write(samples.geojson(
            None, {"type": "Polygon", "coordinates": []},
            {"type": "Polygon", "coordinates": [[]]},
            {"type": "MultiPolygon", "coordinates": [[]]},
            {"type": "MultiPolygon", "coordinates": [flat, square]},
            samples.polygon(SQUARE, FLAT), samples.polygon(SQUARE, HOLE)))
        _, told = self.run_command("simplify", self.given, self.out,
                                   "--step", "0.1")
        self.assertEqual(told, "i_shape: 3 of 6 features changed,"
                         " 0 collapsed\n")

    def test_dropped_ones_of_a_lone_feature(self):
        self.write(samples.polygon(FLAT))
        self.run_command("simplify", self.given, self.out, "--step", "0.1",
                         "--collapsed", "drop")
        self.assertEqual(json.loads(self.out.read_text()), samples.geojson())

    def test_which_features_changed(self):
        moved = [(x + 0.01, y) for x, y in SQUARE]
        turned = SQUARE[1:] + SQUARE[:1]
        other = [(x + 1, y) for x, y in HOLE]
        self.write(samples.geojson(
            samples.polygon(SQUARE), samples.polygon(moved),
            samples.polygon(turned), samples.polygon(SQUARE, HOLE, other),
            samples.polygon(SQUARE, other, HOLE)))
        for call, words, count in (("simplify", [], 1), ("canonical", [], 5),
                                   ("canonical", ["--oriented"], 3)):
            _, told = self.run_command(call, self.given, self.out, "--step",
                                       "0.1", *words)
            self.assertIn(f"{count} of 5 features changed", told)

    def test_the_last_line_of_dedup(self):
        self.write(samples.geojson(*[samples.polygon(SQUARE)] * 3))
        _, told = self.run_command("dedup", self.given, self.out, "--step",
                                   "0.1")
        self.assertEqual(told, "i_shape: 2 of 3 features dropped\n")


class OfGeoPackages(GeoPackageCase):

    def test_they_are_errors_emptied_or_dropped(self):
        self.fill(*map(blob, io.to_wkb(features())))
        before = self.given.read_bytes()
        for call in CALLS:
            _, told = self.run_clean(call=call, out=self.given, status=1)
            self.assertIn(f": layer 'parcels', fid 5: {COMMAND}\n", told)
            self.assertEqual(self.given.read_bytes(), before)
            for word, fids in (("empty", [3, 5, 7, 9]), ("drop", [3, 7])):
                _, told = self.run_clean("--collapsed", word, call=call)
                self.assertEqual(told, LAST.format(CHANGED[call]))
                self.assertEqual([*self.geometries()], fids)
                with contextlib.closing(sqlite3.connect(self.out)) as store:
                    self.assertEqual(store.execute(
                        "SELECT id FROM rtree_parcels ORDER BY id"
                    ).fetchall(), [(3,), (7,)])


class OfFeatures(unittest.TestCase):

    def test_the_first_is_named_and_how_many_there_are(self):
        whole = io.features_to_grid(features(), io.Grid(0.1))
        for name in CALLS:
            call = getattr(io, f"{name}_features")
            for words in ({}, {"collapsed": "raise"}):
                with self.assertRaises(io.FeatureError) as told:
                    call(whole, **words)
                self.assertEqual(told.exception.feature, 1)
                self.assertEqual(
                    str(told.exception), "feature 1: "
                    + MESSAGE.format("features", "collapsed='empty'"))
            left = call(whole, collapsed="empty", threads=2)
            self.assertEqual(np.diff(left.feature_offsets).tolist(),
                             [1, 0, 1, 0])
            with self.assertRaisesRegex(ValueError, "collapsed is 'drop'"):
                call(whole, collapsed="drop")

    def test_how_many_others_there_are(self):
        for rings, told in (
                ([FLAT, SQUARE], "nothing is left of it; is the step"),
                ([FLAT] * 3 + [SQUARE], "nothing is left of it, nor of 2"
                 " others of 4 features; is the step")):
            with self.assertRaisesRegex(io.FeatureError, f"0: {told}"):
                io.simplify_features(io.features_to_grid(
                    features(rings), io.Grid(0.1)))

    def test_the_calls_over_offsets_keep_their_meaning(self):
        self.assertEqual(len(io.feature_keys(io.features_to_grid(
            features(), io.Grid(1)))), 4)


class OfGeoSeries(unittest.TestCase):

    def test_the_place_in_the_series(self):
        try:
            import geopandas
        except ImportError as error:
            self.skipTest(str(error))
        given = geopandas.GeoSeries([None, *io.to_shapely(features())])
        for name in CALLS:
            call = getattr(io, f"{name}_geoseries")
            with self.assertRaises(io.FeatureError) as told:
                call(given, 0.1)
            self.assertEqual(told.exception.feature, 2)
            self.assertEqual(
                str(told.exception), "feature 2: "
                + MESSAGE.format("polygons", "collapsed='empty'"))
            with self.assertRaisesRegex(ValueError, "collapsed is 'drop'"):
                call(given, 0.1, collapsed="drop")
            left = call(given, 0.1, collapsed="empty")
            self.assertEqual(left.is_empty.tolist(),
                             [False, False, True, False, True])


if __name__ == "__main__":
    unittest.main()

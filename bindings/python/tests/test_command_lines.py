"""The command over features a line, other geometries, and equal features."""

import contextlib
import io as text_io
import itertools
import json
import os
import random
import subprocess
import sys
import unittest
from unittest import mock

import numpy as np

import samples
from i_shape import canonical_polygons, io
from i_shape._command import blocks, decimals, json_text
from test_command import FLAT, SPIKED, SQUARE, CommandCase

SQUARE = [(float(x), float(y)) for x, y in SQUARE]

POINT = {"type": "Point", "coordinates": [1, 2]}
HIGH = {"type": "Polygon", "coordinates": [[[0, 0, 1], [1, 0, 1], [1, 1, 1]]]}
MIXED = {"type": "MultiPolygon", "coordinates": [
    [[[0, 0], [2, 0], [2, 2]]], *[[ring] for ring in HIGH["coordinates"]]]}
MANY = {"type": "GeometryCollection", "geometries": [POINT]}
FEATURE = '{"type": "Feature", "properties": null, "geometry": %s}\n'


def feature(geometry, **members):
    return json.dumps({"type": "Feature", "properties": {"a": "\u00fc"},
                       "geometry": geometry, **members}) + "\n"


class Lines(CommandCase):

    def clean(self, given, *words, out="out.geojsonl", call="simplify",
              status=0):
        told = self.run_command(call, given, self.folder / out, "--step",
                                "0.1", *words, status=status)
        return told[status]

    def test_features_a_line(self):
        given = self.write(
            "\x1e" + feature(samples.polygon(SPIKED), id=7) + "\n \n"
            + feature(None) + feature(samples.polygon(FLAT), bbox=[1, 2]),
            "given.geojsonl")
        right = [feature(samples.polygon(SQUARE), id=7), feature(None),
                 feature({"type": "Polygon", "coordinates": []})]
        for name in ("a.geojsonl", "a.geojsons", "a.ndjson", "a.jsonl"):
            self.clean(given, "--collapsed", "empty", out=name)
            self.assertEqual((self.folder / name).read_text(), "".join(right))
        self.clean(given, "--collapsed", "empty", out="out.geojson")
        self.assertEqual(json.loads(self.out.read_text()), {
            "type": "FeatureCollection", "features": list(
                map(json.loads, right))})

    def test_documents_become_lines(self):
        polygon = json.dumps(samples.polygon(SPIKED), indent=1)
        for text in ('{"features": [{"type": "Feature",\n "properties": null,'
                     f' "geometry": {polygon}}}], "type":'
                     ' "FeatureCollection", "name": 1}', polygon):
            self.clean(self.write(text))
            line, = (self.folder / "out.geojsonl").read_text().splitlines()
            self.assertEqual(json.loads(line), {
                "type": "Feature", "properties": None,
                "geometry": samples.polygon(SQUARE)})
            self.clean(self.given, out="out.wkt")
            self.assertEqual((self.folder / "out.wkt").read_text(),
                             "POLYGON ((0.5 0, 0.9 0, 0.9 0.4, 0.5 0.4,"
                             " 0.5 0))\n")

    def test_standard_input_and_output(self):
        given, right = (
            feature(samples.polygon(ring)).replace("\\u00fc", "\u00fc") * 2
            for ring in (SPIKED, SQUARE))
        run = subprocess.run(
            [sys.executable, "-X", "utf8=0", "-m", "i_shape", "simplify", "-",
             "-", "--step", "0.1", "--report"], check=True,
            input=("\ufeff" + given).encode(), capture_output=True,
            env={**os.environ, "LC_ALL": "C", "PYTHONCOERCECLOCALE": "0"})
        self.assertEqual(run.stdout.decode(), right)
        self.assertIn(b"points: 14 before, 8 after", run.stderr)
        self.assertEqual(run.stderr.splitlines()[-1],
                         b"i_shape: 2 of 2 features changed, 0 collapsed")
        for text in (given + "{", ""):
            with mock.patch.object(sys, "stdin", text_io.TextIOWrapper(
                    text_io.BytesIO(text.encode()))):
                told, error = self.run_command(
                    "simplify", "-", "-", "--step", "0.1", status=bool(text))
            self.assertEqual(told, "")
        self.assertEqual(error, "i_shape: 0 of 0 features changed,"
                         " 0 collapsed\n")

    def run_command(self, *words, status=0):
        """Return standard output, bytes written to it too, and errors."""
        shown = text_io.TextIOWrapper(text_io.BytesIO())
        with mock.patch.object(contextlib, "redirect_stdout",
                               lambda _: mock.patch.object(
                                   sys, "stdout", shown)):
            _, error = super().run_command(*words, status=status)
        shown.flush()
        return shown.buffer.getvalue().decode(), error

    def test_faults_name_the_line(self):
        right = feature(None)
        for text, words in (
                (right + "\n{", "line 3: Expecting property name enclosed in"
                 " double quotes: column 2"),
                (right + right.strip() + "x", "line 2: Extra data: column"),
                (right + "[1]", "line 2: feature 1: expected a Feature"),
                ("[" * 10 ** 5, "line 1: it is nested too deeply"),
                ("\n" + right + FEATURE % json.dumps(POINT),
                 "line 3: feature 1: expected a Polygon or a MultiPolygon,"
                 " not 'Point'"),
                (FEATURE % '{"type": "Polygon", "coordinates": [[[0, NaN]]]}',
                 "line 1: NaN isn't a number of JSON: column")):
            with self.subTest(text=text[:99]):
                self.assertIn(f"given.jsonl: {words}", self.clean(
                    self.write(text, "given.jsonl"), status=1))

    def test_a_document_is_read_in_pieces_of_any_length(self):
        document = samples.geojson(
            samples.polygon(SPIKED), None, samples.polygon(FLAT), HIGH)
        document = {"a": ["\u00fc\\\"]}", -1.5e-7, True], **document,
                    "b": {"geometry": {"coordinates": "x"}}}
        document["features"][2]["properties"] = {"geometry": [], "n": 12345}
        text = json.dumps(document, indent=1)
        self.write(text)
        words = ("--others", "keep", "--collapsed", "empty")
        self.clean(self.given, *words, out="whole.geojson")
        right = (self.folder / "whole.geojson").read_text()
        for length in (1, 2, 7, 100):
            with mock.patch.object(json_text, "_PIECE", length):
                self.clean(self.given, *words, out="out.geojson")
                self.assertEqual(self.out.read_text(), right)
                self.write(text[:-40])
                told = self.clean(self.given, *words, status=1)
                self.assertIn("Unterminated string starting at: line", told)
                self.write(text)

    def test_names_of_geojson_in_other_places(self):
        given, left = (json.dumps(samples.polygon(ring))
                       for ring in (SPIKED, SQUARE))
        strange = json.dumps({"a": given, "\u0001": [0.10, -0]})
        for text in (
                '{"type": "Feature", "properties": {"coordinates": [1, 2.50]},'
                ' "geometry": %s}',
                '{"properties": {"geometry": {"coordinates": [1]}},'
                ' "geometry": %s, "type": "Feature"}',
                '{"geometry": %s, "type": "Feature", "coordinates": []}',
                '{"type": "Feature", "properties": {"geometry": ' + given
                + '}, "\\u0067eometry": %s}',
                '{"type": "Feature", "geometry": null, "geometry": %s}',
                '{"type": "Feature", "geometry": %s, "a": ' + strange + '}'):
            for form in ("{%s}", '{"coordinates": 7, %s}', '{"crs": [], %s}',
                         '{%s, "crs": {"coordinates": 1}}'):
                for name in ("coordinates", r"c\u006fordinates"):
                    its, right = (
                        text % (form % one[1:-1].replace("coordinates", name))
                        for one in (given, left))
                    with self.subTest(text=its):
                        self.clean(self.write(its, "given.jsonl"))
                        self.assertEqual(
                            json.loads((self.folder / "out.geojsonl").
                                       read_text()), json.loads(right))

    def test_an_error_of_a_great_file_has_its_place(self):
        text = json.dumps(samples.geojson(*[samples.polygon(SPIKED)] * 99),
                          indent=0)
        faulty = text[:-60] + "?" + text[-60:]
        with self.assertRaises(json.JSONDecodeError) as right:
            json.loads(faulty)
        with mock.patch.object(json_text, "_PIECE", 100):
            told = self.clean(self.write(faulty), status=1)
        self.assertIn(str(right.exception), told)

    def test_the_texts_of_decimals(self):
        numbers = random.Random(4)
        for places, largest in itertools.product(range(16), (-5, 0, 6)):
            features = samples.arrays(samples.random_features(
                numbers, 20, number=lambda numbers, fewest: [
                    tuple(round(numbers.uniform(-1, 1) * 10 ** largest,
                                places) for _ in "xy")
                    for _ in range(fewest + numbers.randrange(4))]))
            right = [json.dumps(one["geometry"]["coordinates"])
                     for one in io.to_geojson(features)["features"]]
            for given in (places, None, max(places - 1, 0)):
                self.assertEqual(
                    list(decimals.coordinate_texts(features, given)), right)
        self.assertEqual([decimals.places_of(io.Grid(step)) for step in
                          (1, 0.1, 1e-7, 1e-14, 0.25, 10)],
                         [0, 1, 7, 14, None, None])


class Others(CommandCase):

    def test_others_are_named_kept_or_dropped(self):
        others = [POINT, HIGH, MIXED, MANY, None]
        for name in ("given.geojson", "given.geojsonl"):
            out = self.folder / f"out_{name}"
            document = samples.geojson(samples.polygon(SPIKED), *others,
                                       samples.polygon(SPIKED))
            given = self.write(
                document if name == "given.geojson" else "".join(
                    f"{json.dumps(one)}\n" for one in document["features"]),
                name)
            words = ("simplify", given, out, "--step", "0.1")
            self.assertIn("feature 1: expected a Polygon or a MultiPolygon,"
                          " not 'Point'", self.run_command(
                              *words, status=1)[1])
            square = samples.polygon(SQUARE)
            for choice, right in (("keep", [square, *others, square]),
                                  ("drop", [square, square])):
                self.run_command(*words, "--others", choice)
                text = out.read_text()
                features = (json.loads(text)["features"]
                            if name == "given.geojson"
                            else list(map(json.loads, text.splitlines())))
                self.assertEqual([one["geometry"] for one in features], right)

    def test_what_stays_as_it_is_keeps_its_bbox(self):
        square = samples.polygon(samples.SQUARE)
        for geometry, words in (
                (POINT, ["simplify", "--others", "keep"]),
                (MANY, ["simplify", "--others", "keep"]),
                (square, ["dedup"])):
            box = {"bbox": [0, 0, 4, 4]}
            whole = {"type": "Feature", **box, "geometry": {**box, **geometry}}
            for document in (whole, whole["geometry"],
                             {"type": "FeatureCollection",
                              "features": [whole]}):
                self.write(document)
                self.run_command(words[0], self.given, self.out, "--step",
                                 "1", *words[1:])
                self.assertEqual(json.loads(self.out.read_text()), document)

    def test_a_lone_feature_that_is_dropped_leaves_an_empty_collection(self):
        for document in (POINT, json.loads(feature(POINT))):
            self.write(document)
            self.run_command("simplify", self.given, self.out, "--step", "1",
                             "--others", "drop")
            self.assertEqual(json.loads(self.out.read_text()),
                             samples.geojson())

    def test_others_of_wkt(self):
        square = "POLYGON ((0 0, 4 0, 4 4, 0 4, 0 0))"
        others = ["POINT (1 2)", "polygon z ((0 0 1, 1 0 1, 1 1 1, 0 0 1))",
                  "POLYGON ((0 0 1, 1 0 1, 1 1 1, 0 0 1))",
                  "PolygonZM((0 0 1 1, 1 0 1 1, 1 1 1 1, 0 0 1 1))",
                  "MULTIPOLYGONM EMPTY", "POINTZ (1 2 3)",
                  "CURVEPOLYGON EMPTY"]
        given = self.write("\n".join([square, *others, square]), "a.wkt")
        out = self.folder / "out.wkt"
        words = ("despike", given, out, "--step", "1")
        self.assertIn("line 2: feature 1: expected POLYGON or",
                      self.run_command(*words, status=1)[1])
        self.run_command(*words, "--others", "keep")
        self.assertEqual(out.read_text().splitlines(),
                         [square, *others, square])
        self.run_command("despike", given, self.out, "--step", "1",
                         "--others", "drop")
        self.assertEqual(self.geometries(),
                         [samples.polygon(samples.SQUARE)] * 2)

    def test_faults_are_errors_whatever_becomes_of_others(self):
        for geometry in ({"type": "Polygon", "coordinates": [[[0, "1"]]]},
                         {"type": "Curve"}, 7,
                         {"type": "Polygon", "coordinates": [[[0]]]}):
            self.write(samples.geojson(geometry))
            for choice in ("keep", "drop"):
                self.run_command("simplify", self.given, self.out, "--step",
                                 "1", "--others", choice, status=1)
        self.assertFalse(os.path.exists(self.out))

    def test_words_that_do_not_fit_together(self):
        wkt, package = self.folder / "a.wkt", self.folder / "a.gpkg"
        for words, told in (
                (["simplify", wkt, self.out, "--others", "keep"], "WKT"),
                (["simplify", package, self.out], "or neither"),
                (["simplify", self.given, package], "or neither"),
                (["simplify", self.given, self.out, "--layer", "a"],
                 "--layer is for"),
                (["simplify", self.given, self.out, "--oriented"],
                 "--oriented is for"),
                (["dedup", self.given, self.out, "--collapsed", "drop"],
                 "--collapsed isn't for")):
            self.assertIn(told, self.run_command(
                *words, "--step", "1", status=2)[1])

    def test_the_version(self):
        told, _ = self.run_command("--version")
        self.assertRegex(told, r"^i_shape \d+\.\d+\.\d+\n$")


class Equal(CommandCase):

    def test_the_first_of_equal_features_stays(self):
        hole, other = [(0.6, 0.1), (0.6, 0.2), (0.7, 0.1)], FLAT
        far = [(x + 1, y) for x, y in SQUARE]
        turned = SQUARE[2:] + SQUARE[:2]

        def multi(*polygons):
            return {"type": "MultiPolygon", "coordinates": [
                samples.polygon(*rings)["coordinates"] for rings in polygons]}

        self.write(samples.geojson(
            samples.polygon(SPIKED), samples.polygon(SQUARE, hole), None,
            samples.polygon(FLAT), multi([turned]),
            multi([far], [SPIKED, other]), samples.polygon(SQUARE[::-1]),
            samples.polygon(FLAT[::-1]), multi([turned], [far])))
        words = ("dedup", self.given, self.out, "--step", "0.1", "--report")
        for (options, gone), largest in itertools.product(
                (((), {4: 0, 6: 0, 8: 5}), (("--oriented",), {4: 0, 8: 5})),
                (1, 1 << 22)):
            with mock.patch.object(blocks, "_LARGEST", largest):
                told, _ = self.run_command(*words, *options)
            self.assertEqual(told, "".join(
                [f"features with polygons: 8 before, {8 - len(gone)} after\n",
                 *(f"gone: feature {one}, equal to feature {first}\n"
                   for one, first in gone.items())]))
            given = json.loads(self.given.read_text())["features"]
            self.assertEqual(
                json.loads(self.out.read_text())["features"],
                [one for place, one in enumerate(given) if place not in gone])

    def test_wkt_becomes_geojson(self):
        given = self.write("POLYGON ((0 0, 4 0, 4 4, 0 0))\n" * 2, "a.wkt")
        self.run_command("dedup", given, self.out, "--step", "1")
        self.assertEqual(self.geometries(), [samples.polygon(
            [(0, 0), (4, 0), (4, 4)])])

    def test_keys_of_features_beside_canonical_forms(self):
        numbers = random.Random(3)

        def ring(numbers, fewest):
            return [(numbers.randrange(3), numbers.randrange(3))
                    for _ in range(fewest + numbers.randrange(3))]

        given = samples.random_features(numbers, 300, 3, number=ring)
        turned = [(is_multi, [[its[::numbers.choice((1, -1))] for its in part]
                              for part in parts]) for is_multi, parts in given]
        features = samples.arrays(given + turned, np.int64)
        for oriented in (True, False):
            keys = io.feature_keys(features, oriented=oriented).tolist()
            forms = []
            for _, parts in samples.lists(features):
                its = samples.arrays([(True, list(filter(None, parts)))],
                                     np.int64)
                forms.append([part.tolist() for part in canonical_polygons(
                    *its.polygons, oriented=oriented)])
            self.assertEqual(list(map(keys.index, keys)),
                             list(map(forms.index, forms)))
            self.assertEqual([key == b"" for key in keys],
                             [not form[0] for form in forms])


if __name__ == "__main__":
    unittest.main()

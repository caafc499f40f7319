"""The command: files in and files out."""

import contextlib
import io as text_io
import json
import os
import subprocess
import sys
import tempfile
import unittest
from pathlib import Path

import samples
from i_shape import __main__ as command
from i_shape import io

SPIKED = [(0.5, 0), (0.7, 0), (0.9, 0), (0.9, 0.4), (0.9, 0.8), (0.9, 0.4),
          (0.5, 0.4)]
SQUARE = [(0.5, 0), (0.9, 0), (0.9, 0.4), (0.5, 0.4)]
FLAT = [(0.6, 0.1), (0.7, 0.1), (0.8, 0.1)]
HOLE = [(0.6, 0.2), (0.6, 0.3), (0.7, 0.2)]


class CommandCase(unittest.TestCase):

    def setUp(self):
        folder = tempfile.TemporaryDirectory()
        self.addCleanup(folder.cleanup)
        self.folder = Path(folder.name)
        self.given = self.folder / "given.geojson"
        self.out = self.folder / "out.geojson"

    def write(self, document, name="given.geojson"):
        path = self.folder / name
        text = document if isinstance(document, str) else json.dumps(document)
        path.write_text(text)
        return path

    def write_features(self, path, features):
        path.write_text("\n".join(io.to_wkt(features)) + "\n"
                        if path.suffix == ".wkt"
                        else json.dumps(io.to_geojson(features)))

    def read_features(self, path):
        text = path.read_text()
        return (io.from_wkt(text.splitlines()) if path.suffix == ".wkt"
                else io.from_geojson(json.loads(text)))

    def run_command(self, *words, status=0):
        """What it prints, on standard output and on standard error."""
        out, error = text_io.StringIO(), text_io.StringIO()
        with contextlib.redirect_stdout(out), contextlib.redirect_stderr(
                error):
            try:
                answer = command.main([str(word) for word in words])
            except SystemExit as ended:
                answer = ended.code
        self.assertEqual(answer, status, error.getvalue())
        return out.getvalue(), error.getvalue()

    def geometries(self, path=None):
        return [feature["geometry"]
                for feature in json.loads((path or self.out).read_text())[
                    "features"]]


class Cleaned(CommandCase):

    def test_each_cleaner(self):
        self.write(samples.geojson(samples.polygon(SPIKED, FLAT, HOLE)))
        left = [SPIKED[0], SPIKED[2], SPIKED[3], SPIKED[6]]
        for cleaner, rings in (
                ("simplify", [left, HOLE]),
                ("despike", [[SPIKED[0], *left[:0], SPIKED[1], *left[1:]],
                             HOLE]),
                ("canonical", [left[:1] + left[:0:-1], HOLE])):
            with self.subTest(cleaner=cleaner):
                told = self.run_command(cleaner, self.given, self.out,
                                        "--step", "0.1")
                self.assertEqual(told, ("", "i_shape: 1 of 1 features changed,"
                                        " 0 collapsed\n"))
                self.assertEqual(self.geometries(),
                                 [samples.polygon(*rings)])

    def test_canonical_orders_holes_and_polygons(self):
        small = [(0.1, 0.1), (0.2, 0.1), (0.1, 0.2)]
        other = [(0.1, 0.0), (0.2, 0.0), (0.1, 0.1)]
        moved = [[(3, 3), (1, 1), (2, 1)]], [SQUARE[2:] + SQUARE[:2], small,
                                             other[1:] + other[:1]]
        self.write(samples.geojson({
            "type": "MultiPolygon",
            "coordinates": [samples.polygon(*rings)["coordinates"]
                            for rings in moved]}))
        right = [[SQUARE, other, small], [[(1, 1), (2, 1), (3, 3)]]]
        either_way = [[min(ring, ring[:1] + ring[:0:-1]) for ring in rings]
                      for rings in right]
        for words, forms in ((["--oriented"], right), ([], either_way)):
            self.run_command("canonical", self.given, self.out, "--step",
                             "0.1", *words)
            self.assertEqual(
                self.geometries()[0]["coordinates"],
                [samples.polygon(*rings)["coordinates"] for rings in forms])

    def test_what_stays_of_a_document(self):
        document = samples.geojson(samples.polygon(SPIKED), None,
                                   samples.polygon(FLAT),
                                   {"type": "MultiPolygon", "coordinates": [
                                       samples.polygon(FLAT)["coordinates"]]})
        document["name"] = "R\u00fcgen \ud83d"
        self.write(document)
        self.run_command("simplify", self.given, self.out, "--step", "0.1",
                         "--collapsed", "empty")
        right = json.loads(json.dumps(document))
        for feature, geometry in zip(right["features"], (
                samples.polygon(SQUARE), None,
                {"type": "Polygon", "coordinates": []},
                {"type": "MultiPolygon", "coordinates": []})):
            feature["geometry"] = geometry
        self.assertEqual(json.loads(self.out.read_text()), right)

    def test_each_kind_of_document(self):
        polygon, left = samples.polygon(SPIKED), samples.polygon(SQUARE)
        feature = {"type": "Feature", "id": 7, "geometry": polygon}
        for document, right in (
                (polygon, left), (feature, {**feature, "geometry": left}),
                (samples.geojson(), samples.geojson()),
                (samples.geojson(*[polygon] * 3), samples.geojson(
                    *[left] * 3))):
            self.write("\ufeff" + json.dumps(document))
            self.run_command("simplify", self.given, self.out, "--step", ".1")
            self.assertEqual(json.loads(self.out.read_text()), right)

    def test_wkt_and_both_ways(self):
        given = self.write("POLYGON ((0 0, 2 0, 4 0, 4 4.5, 0 0))\n\n"
                           "MULTIPOLYGON (((0 0, 1 1, 2 2, 0 0)))\n", "a.wkt")
        out = self.folder / "b.WKT"
        words = ("--step", "0.5", "--collapsed", "empty")
        self.run_command("simplify", given, out, *words)
        right = "POLYGON ((0 0, 4 0, 4 4.5, 0 0))\nMULTIPOLYGON EMPTY\n"
        self.assertEqual(out.read_text(), right)
        self.run_command("simplify", given, self.out, *words)
        again = self.folder / "c.wkt"
        self.run_command("simplify", self.out, again, "--step", "0.5")
        self.assertEqual(again.read_text(), right)

    def test_out_may_be_in_and_keeps_its_link(self):
        self.write(samples.geojson(samples.polygon(SPIKED)))
        link = self.folder / "link.geojson"
        link.symlink_to(self.given)
        self.run_command("simplify", link, link, "--step", "0.1")
        self.assertTrue(link.is_symlink())
        self.assertEqual(self.geometries(self.given),
                         [samples.polygon(SQUARE)])

    def test_out_keeps_its_mode_and_its_owner(self):
        self.write(samples.geojson(samples.polygon(SPIKED)))
        if os.geteuid() == 0:
            os.chown(self.given, 1, 2)
        for mode in (0o600, 0o640, 0o666, 0o755):
            self.given.chmod(mode)
            before = self.given.stat()
            self.run_command("simplify", self.given, self.given, "--step",
                             "0.1")
            after = self.given.stat()
            self.assertNotEqual(after.st_ino, before.st_ino)
            self.assertEqual((after.st_mode, after.st_uid, after.st_gid),
                             (before.st_mode, before.st_uid, before.st_gid))

    def test_numbers_keep_their_digits(self):
        members = ('{"big": 1e400, "long": 0.12345678901234567890123,'
                   ' "short": 1.50, "in": [-2E5, {"a": 1e-400}, "1e400"],'
                   ' "whole": 123456789012345678901234567890,'
                   f' "zeros": [-0, 0, -0.0], "huge": 1{"0" * 5000}}}')
        square = json.dumps(samples.polygon(
            [(float(x), float(y)) for x, y in samples.SQUARE]))
        feature = (f'{{"type": "Feature", "properties": {members}, "geometry":'
                   f' {square[:-1]}, "tag": {members}}}}}')
        for text in (f'{{"type": "FeatureCollection", "of": {members},'
                     f' "features": [\n{feature},\n{feature}\n]}}\n',
                     feature + "\n"):
            self.write(text)
            self.run_command("simplify", self.given, self.out, "--step",
                             "0.5")
            self.assertEqual(self.out.read_text(), text)

    def test_digits_beyond_those_of_floats_are_rounded(self):
        text = json.dumps(samples.polygon(samples.SQUARE)).replace(
            "[4, ", "[4.00000000000000000000001, ").replace("[0,", "[0.0e400,")
        self.write(text)
        self.run_command("simplify", self.given, self.out, "--step", "1")
        self.assertEqual(json.loads(self.out.read_text()),
                         samples.polygon(samples.SQUARE))

    def test_negative_numbers_of_each_form(self):
        self.write(samples.geojson(samples.polygon(SQUARE)))
        for origin in (("-1e6", "-2.5e-3"), ("-.5E1", "-1."), ("-1", "-.5")):
            self.run_command("simplify", self.given, self.out, "--step",
                             "0.5e-4", "--origin", *origin)

    def test_the_origin_moves_the_grid(self):
        self.write(samples.geojson(samples.polygon(
            [(0.25, 0.25), (8.25, 0.25), (8.75, 8.25)])))
        self.run_command("simplify", self.given, self.out, "--step", "1",
                         "--origin", "0.25", "-0.75")
        self.assertEqual(self.geometries(), [samples.polygon(
            [(0.25, 0.25), (8.25, 0.25), (8.25, 8.25)])])

    def test_as_a_module(self):
        self.write(samples.geojson(samples.polygon(SPIKED)))
        for words, status in ((["--step", "0.1"], 0), (["--step", "0"], 2),
                              (["--step", "1e-300"], 1)):
            run = subprocess.run(
                [sys.executable, "-m", "i_shape", "simplify", self.given,
                 self.out, *words], capture_output=True, text=True,
                check=False)
            self.assertEqual(run.returncode, status, run.stderr)
            self.assertNotIn("Traceback", run.stderr)


if __name__ == "__main__":
    unittest.main()

"""Errors of the command: OUT is as it was then."""

import contextlib
import importlib.util
import io as text_io
import json
import os
import random
import re
import signal
import subprocess
import sys
import textwrap
import unittest
import warnings
from unittest import mock

import samples
from i_shape import __main__ as command
from i_shape import _command
from i_shape._command import text_files
from test_command import SPIKED, SQUARE, CommandCase


class Errors(CommandCase):

    def assert_nothing_is_written(self, *words, status=1):
        """It fails, and each file stays. It returns what is printed."""
        self.out.write_text("as it was")
        before = {path: path.read_bytes() for path in self.folder.iterdir()}
        told = self.run_command(*words, status=status)
        self.assertEqual(told[0], "")
        self.assertEqual({path: path.read_bytes()
                          for path in self.folder.iterdir()}, before)
        return told[1]

    def test_hostile_files(self):
        square = json.dumps(samples.polygon(samples.SQUARE))

        def second(coordinates, kind="Polygon"):
            return (f'{{"type": "FeatureCollection", "features": [{{"type":'
                    f' "Feature", "geometry": {square}}}, {{"type": "Feature",'
                    f' "geometry": {{"type": "{kind}", "coordinates":'
                    f' {coordinates}}}}}]}}')

        for text, words in (
                ("", "line 1 column 1"),
                ("{", "line 1 column 2"),
                ("[" * 10 ** 5, "nested too deeply"),
                ('{"type": "FeatureCollection", "features": [{"a": 1}',
                 "feature 0: expected a Feature, not {'a': 1}"),
                ('{"type": "FeatureCollection", "features": [\n',
                 "Expecting value: line 2 column 1 (char 44)"),
                ('{"features": [], "type": "Feature"}', "not 'Feature'"),
                ('{"features": [], "features": []}', "twice"),
                ('{"features": null, "features": []}', "twice"),
                ('{"features": [], "features": null}', "twice"),
                ('{"type": "FeatureCollection"}', "features are None"),
                (square + "\n]", "Extra data: line 2 column 1"),
                ("[]", "feature 0: expected an object of GeoJSON"),
                ("null", "feature 0: expected an object of GeoJSON"),
                (second("[0, 0]", "Point"),
                 "feature 1: expected a Polygon or"),
                (second("[]", "GeometryCollection"),
                 "feature 1: expected a Polygon"),
                (second("[[[0, 0], [1, NaN], [1, 1]]]"),
                 "NaN isn't a number of JSON: line 1 column"),
                (second("[[[0, 0]], [[1, 0], [-Infinity, 1]]]"),
                 "-Infinity isn't a number of JSON: line 1 column"),
                ('{"type": "Feature", "properties":\n{"NaN": "\\"NaN",'
                 ' "a": [1, Infinity]}, "geometry": null}',
                 "Infinity isn't a number of JSON: line 2 column 27"),
                (second("[[[0, 0], [1, 1e999], [1, 1]]]"),
                 "feature 1, polygon 0, ring 0, point 1: the point is"
                 " (1.0, inf)"),
                (second(f"[[[0, 0], [1, 1{'0' * 5000}], [1, 1]]]"),
                 "feature 1, polygon 0, ring 0, point 1: the point is"
                 " (1.0, inf)"),
                (second("[[[0, 0, 0], [1, 1, 0], [2, 2, 0]]]"),
                 "feature 1, polygon 0, ring 0, point 0: the position"
                 " [0, 0, 0] has 3 coordinates"),
                (second('[[[0, 0], ["1", 1], [2, 2]]]'), "'1' isn't a number"),
                (second("[[[0, 0], [1, 1], 2]]"), "the position 2 has no"),
                (second("[[0, 0], [1, 1]]"), "the position 0 has no"),
                (second("[[[0, 0], [0, 4e12]]]"),
                 "feature 1, polygon 0, ring 0, point 1: y is"
                 " 4000000000000.0, 4e+19 steps of 1e-07 from the origin, and"
                 " not strictly between -2**62 and 2**62")):
            with self.subTest(text=text[:100]):
                self.write(text)
                told = self.assert_nothing_is_written(
                    "simplify", self.given, self.out, "--step", "1e-7",
                    "--report")
                self.assertIn(words, told)
                self.assertTrue(told.startswith(f"i_shape: {self.given}: "))
                self.assertEqual(told.count("\n"), 1)

    def test_hostile_lines(self):
        for text, words in (
                ("POLYGON EMPTY\nPOINT (0 0)\n",
                 "line 2: feature 1: expected POLYGON or"),
                ("\nPOLYGON EMPTY\n \nPOINT (0 0)\n",
                 "line 4: feature 1: expected POLYGON or"),
                ("\nPOLYGON ((0 0, 1 1e999))\n\nPOLYGON EMPTY",
                 "line 2: feature 0, polygon 0, ring 0, point 1: the point"),
                ("\n\nPOLYGON ((0 0, 1e300 1))",
                 "line 3: feature 0, polygon 0, ring 0, point 1: x is 1e+300"),
                ("POLYGON ((0 0, 1 nan))", "ring 0, point 1: 'nan'"),
                ("POLYGON ((0 0, 1 1)\n", "feature 0: expected ')'"),
                ("POLYGON Z ((0 0 0, 1 1 1))",
                 "feature 0: expected a POLYGON of two"),
                ("POLYGON Z ((0 0 0, 1 1 1))",
                 "--others drop allows it; `ogr2ogr -dim XY` drops heights"),
                ("POLYGON ((0 0 0, 1 1 1))", "; `ogr2ogr -dim XY` drops"),
                ("POLYGONZ ((0 0 0, 1 1 1))", "; `ogr2ogr -dim XY` drops"),
                ("POLYGONZX ((0 0 0))", "feature 0: expected POLYGON or"),
                ("POINT (0 0)",
                 "; --others keep or --others drop allows it\n"),
                ("\0", "feature 0: expected POLYGON or MULTIPOLYGON")):
            with self.subTest(text=text):
                path = self.write(text, "a.wkt")
                told = self.assert_nothing_is_written(
                    "despike", path, self.out, "--step", "1")
                self.assertIn(words, told)

    def test_floats_that_overflow_on_the_way_back(self):
        path = self.write("POLYGON EMPTY\nPOLYGON ((0 0, 1.7e308 0,"
                          " 1.7e308 1.7e308, 0 0))\n", "a.wkt")
        words = "--step", "1e308"
        with warnings.catch_warnings():
            warnings.simplefilter("error")
            told = self.assert_nothing_is_written("simplify", path, self.out,
                                                  *words)
        self.assertIn("line 2: feature 1, polygon 0, ring 0, point 1: the"
                      " point is (inf, 0.0)", told)

    def test_bytes_that_are_no_text(self):
        """The error names the byte's place in the file, if it has one."""
        mark, long = b"\xef\xbb\xbf", b" " * 500_000
        for text, place in ((b'{"type": "\xff"}', 10),
                            (mark + b"\xff\n", 3),
                            (mark + long + b"\xff" + long, 500_003),
                            (long + b"\xc3", 500_000)):
            self.given.write_bytes(text)
            told = self.assert_nothing_is_written("simplify", self.given,
                                                  self.out, "--step", "1")
            self.assertEqual(told, f"i_shape: {self.given}: it isn't UTF-8:"
                             f" byte {place} is {text[place]:#x}\n")
        run = subprocess.run(
            [sys.executable, "-m", "i_shape", "simplify", "-", self.out,
             "--step", "1"], input=text, capture_output=True, check=False)
        self.assertEqual(run.stderr,
                         b"i_shape: -: it isn't UTF-8: a byte is 0xc3\n")

    def test_random_faults_are_told_of_or_harmless(self):
        numbers = random.Random(2)
        statuses = []
        for _ in range(150):
            given = samples.arrays(samples.random_features(numbers, 2))
            name = numbers.choice(["given.geojson", "given.wkt"])
            path = self.folder / name
            self.write_features(path, given)
            text = bytearray(path.read_bytes())
            for _ in range(numbers.randrange(1, 4)):
                text[numbers.randrange(len(text))] = numbers.choice(
                    b'0123456789.,()[]{}:"eE-+ nNMZ\n\xff')
            path.write_bytes(text)
            self.out.write_text("as it was")
            with contextlib.redirect_stderr(text_io.StringIO()) as error:
                statuses.append(command.main(
                    ["simplify", str(path), str(self.out), "--step", "1e300"]))
            if statuses[-1] == 0:
                self.read_features(self.out)
            else:
                self.assertIn(str(path), error.getvalue())
                self.assertEqual(self.out.read_text(), "as it was")
            path.unlink()
            self.assertEqual(os.listdir(self.folder), ["out.geojson"])
        self.assertEqual(set(statuses), {0, 1})

    def test_rings_of_few_points_collapse(self):
        rings = [[], [[0, 0]], [[0, 0], [0, 0]], [[0, 0], [1, 1], [0, 0]]]
        self.write(samples.geojson(
            *({"type": "Polygon", "coordinates": [ring]} for ring in rings),
            {"type": "Polygon", "coordinates": []},
            {"type": "MultiPolygon", "coordinates": []},
            {"type": "MultiPolygon", "coordinates": [[]]}))
        for cleaner in ("simplify", "despike", "canonical"):
            self.run_command(cleaner, self.given, self.out, "--step", "1",
                             "--collapsed", "empty")
            self.assertEqual(
                [geometry["coordinates"] for geometry in self.geometries()],
                [[]] * 6 + [[[]]])

    def test_files_that_can_not_be_read_or_written(self):
        self.write(samples.geojson())
        folder = self.folder / "folder.geojson"
        folder.mkdir()
        self.out.write_text("as it was")
        for given, out in (
                (self.folder / "none.geojson", self.out),
                (folder, self.out), (self.given, folder),
                (self.given, self.folder / "none" / "out.geojson")):
            with self.subTest(given=given, out=out):
                before = sorted(self.folder.rglob("*"))
                _, told = self.run_command("simplify", given, out, "--step",
                                           "1", status=1)
                self.assertIn("[Errno", told)
                self.assertEqual(sorted(self.folder.rglob("*")), before)
        self.assertEqual(self.out.read_text(), "as it was")

    def test_nothing_is_half_written_where_writing_stops(self):
        self.write(samples.geojson(*[samples.polygon(SPIKED)] * 3))
        def stops(error):
            def texts(*_):
                yield "[]"
                raise error
            return texts

        for error, status, words in (
                (OSError("no room"), 1, "i_shape: no room\n"),
                (MemoryError(), 1, "there is not enough memory"),
                (KeyboardInterrupt(), 130, "")):
            with self.subTest(error=error):
                with mock.patch.object(text_files, "coordinate_texts",
                                       stops(error)):
                    told = self.assert_nothing_is_written(
                        "simplify", self.given, self.out, "--step", "0.1",
                        status=status)
                self.assertIn(words, told)

    def test_nothing_is_written_where_the_report_fails(self):
        self.write(samples.geojson(samples.polygon(SPIKED)))
        for error in (OSError("no room"), MemoryError()):
            with mock.patch.object(_command.report.Cleaning, "lines",
                                   side_effect=error):
                self.assert_nothing_is_written(
                    "simplify", self.given, self.out, "--step", "0.1",
                    "--report")

    def test_nothing_is_written_where_standard_output_is_closed(self):
        self.write(samples.geojson(samples.polygon(SPIKED)))
        self.out.write_text("as it was")
        with mock.patch.object(sys, "stdout", None), \
                contextlib.redirect_stderr(text_io.StringIO()) as error:
            status = command.main(["simplify", str(self.given), str(self.out),
                                   "--step", "0.1", "--report"])
        self.assertEqual(status, 1)
        self.assertRegex(error.getvalue(), "^i_shape: .*standard output")
        self.assertEqual(self.out.read_text(), "as it was")

    def test_nothing_is_written_of_what_is_nested_too_deeply(self):
        statuses = []
        for depth in range(sys.getrecursionlimit() - 150,
                           sys.getrecursionlimit()):
            text = (f'{{"type": "Feature", "properties": {"[" * depth}'
                    f'{"]" * depth}, "geometry": null}}\n')
            self.write(text)
            self.out.write_text("as it was")
            with contextlib.redirect_stderr(text_io.StringIO()) as error:
                statuses.append(command.main(
                    ["simplify", str(self.given), str(self.out), "--step",
                     "0.1"]))
            if statuses[-1] == 0:
                self.assertEqual(self.out.read_text(), text)
            else:
                self.assertIn("it is nested too deeply", error.getvalue())
                self.assertEqual(self.out.read_text(), "as it was")
        self.assertEqual(statuses, sorted(statuses))

    def test_a_pipe_that_nobody_reads_ends_the_program(self):
        crossed = samples.polygon([(0, 0), (4, 4), (4, 0), (0, 4)])
        for count in (1, 500):  # more than a buffer holds
            self.write(samples.geojson(*count * [crossed]))
            before = set(self.folder.iterdir())
            for words in (["check", self.given, "--to", self.out],
                          ["despike", self.given, "-"],
                          ["dedup", self.given, self.out, "--report"]):
                reader, writer = os.pipe()
                os.close(reader)
                run = subprocess.run(
                    [sys.executable, "-m", "i_shape", *words, "--step", "1"],
                    stdout=writer, stderr=subprocess.PIPE, check=False)
                os.close(writer)
                self.assertEqual((run.returncode, run.stderr), (141, b""))
                self.assertEqual(set(self.folder.iterdir()), before)

    @unittest.skipUnless(os.path.exists("/dev/full"), "there is no /dev/full")
    def test_a_full_disk_under_the_standard_streams(self):
        self.write(samples.geojson(samples.polygon(
            [(0, 0), (4, 4), (4, 0), (0, 4)])))
        no_room = r"\Ai_shape: \[Errno 28\] .*\n\Z"
        for words, stream, status, told in (
                (["check", self.given], "stdout", 1, no_room),
                (["despike", self.given, "-"], "stdout", 1, no_room),
                (["despike", self.given, self.out], "stderr", 0, r"\A\Z")):
            with open("/dev/full", "wb") as full:
                run = subprocess.run(
                    [sys.executable, "-m", "i_shape", *words, "--step", "1"],
                    **{"stdout": subprocess.PIPE, "stderr": subprocess.PIPE,
                       stream: full}, text=True, check=False,
                    env={**os.environ, "PYTHONUNBUFFERED": ""})
            self.assertEqual(run.returncode, status)
            self.assertRegex(run.stderr or "", told)

    def test_a_pipe_is_written_to(self):
        self.write(samples.geojson(samples.polygon(SPIKED)))
        os.mkfifo(self.out)
        before = sorted(self.folder.iterdir())
        end = os.open(self.out, os.O_RDWR | os.O_NONBLOCK)
        self.addCleanup(os.close, end)
        self.run_command("simplify", self.given, self.out, "--step", "0.1")
        self.assertTrue(self.out.is_fifo())
        self.assertEqual(sorted(self.folder.iterdir()), before)
        self.assertEqual(json.loads(os.read(end, 10 ** 5)),
                         samples.geojson(samples.polygon(SQUARE)))

    def test_nothing_is_written_where_a_path_is_a_folder(self):
        self.write(samples.geojson(samples.polygon(SPIKED)))
        self.out.write_text("as it was")
        plot, other = self.folder / "plot.svg", self.folder / "other.wkt"
        plot.mkdir(), other.mkdir()
        before = sorted(self.folder.iterdir())
        with mock.patch.object(importlib.util, "find_spec", str):
            for out, its in ((self.out, plot), (other, "no.svg")):
                told, error = self.run_command(
                    "simplify", self.given, out, "--step", "0.1",
                    "--report", "--plot", its, status=1)
                self.assertEqual(told, "")
                self.assertIn("Is a directory", error)
        self.assertEqual(sorted(self.folder.iterdir()), before)
        self.assertEqual(self.out.read_text(), "as it was")

    def test_a_file_is_stored_before_it_takes_its_place(self):
        self.write(samples.geojson(samples.polygon(SPIKED)))
        calls = mock.Mock()
        with mock.patch.multiple(os, fsync=calls.fsync,
                                 replace=calls.replace):
            self.assert_nothing_is_written("simplify", self.given, self.out,
                                           "--step", "0.1", status=0)
        self.assertEqual([call[0] for call in calls.mock_calls],
                         ["fsync", "replace"])

    def test_a_new_file_has_a_name_of_its_own(self):
        self.write(samples.geojson(samples.polygon(SPIKED)))
        old = self.folder / f".{self.out.name}.i_shape-{os.getpid()}"
        old.write_text("of another run")
        self.run_command("simplify", self.given, self.out, "--step", "0.1")
        self.assertEqual(old.read_text(), "of another run")

    def test_what_a_killed_run_leaves_has_the_name_of_the_file(self):
        self.write(samples.geojson(samples.polygon(SPIKED)))
        letters = "\u00fc" * 60
        long = self.folder / f"{letters}.geojson"
        for out, name in ((self.out, self.out.name), (long, letters[:50])):
            before = set(self.folder.iterdir())
            program = ("import os, signal; from i_shape import __main__\n"
                       "from i_shape._command import text_files\n"
                       "text_files.TextPair.end = lambda *_: os.kill("
                       "os.getpid(), signal.SIGKILL)\n__main__.run()")
            run = subprocess.run(
                [sys.executable, "-c", program, "simplify", self.given, out,
                 "--step", "0.1"], check=False)
            self.assertEqual(run.returncode, -signal.SIGKILL)
            left, = set(self.folder.iterdir()) - before
            self.assertRegex(left.name, rf"\A\.{re.escape(name)}"
                             r"\.i_shape-\w{8}\Z")

    def test_signals_leave_nothing_behind(self):
        samples.heed_interrupts(self)
        self.write(samples.geojson(samples.polygon(SPIKED)))
        self.out.write_text("as it was")
        before = sorted(self.folder.iterdir())
        program = textwrap.dedent("""
            import os
            import runpy
            import sys
            import time
            from i_shape._command import text_files
            rmdir = os.rmdir

            def slow(*_):
                print("it writes", flush=True)
                time.sleep(60)
                yield "[]"

            def slow_rmdir(*words, **options):
                print("it cleans", flush=True)
                time.sleep(0.2)
                rmdir(*words, **options)

            os.rmdir = slow_rmdir
            if "despike" not in sys.argv:
                text_files.coordinate_texts = slow
            runpy.run_module("i_shape", run_name="__main__", alter_sys=True)
        """)
        for first, second in ((signal.SIGTERM, signal.SIGINT),
                              (signal.SIGINT, signal.SIGTERM),
                              (signal.SIGHUP, signal.SIGHUP),
                              (signal.SIGINT, signal.SIGINT)):
            with self.subTest(first=first, second=second), subprocess.Popen(
                    [sys.executable, "-c", program, "simplify", self.given,
                     self.out, "--step", "0.1"], stdout=subprocess.PIPE,
                    stderr=subprocess.PIPE, text=True) as run:
                self.assertEqual(run.stdout.readline(), "it writes\n")
                self.assertNotEqual(sorted(self.folder.iterdir()), before)
                run.send_signal(first)
                self.assertEqual(run.stdout.readline(), "it cleans\n")
                run.send_signal(second)
                told = run.communicate(timeout=30)
                self.assertEqual(sorted(self.folder.iterdir()), before)
                self.assertEqual((run.returncode, *told),
                                 (128 + first, "", ""))
                self.assertEqual(self.out.read_text(), "as it was")
        with subprocess.Popen(
                [sys.executable, "-c", program, "despike", self.given,
                 self.out, "--step", "0.1"], stdout=subprocess.PIPE) as run:
            self.assertEqual(run.stdout.readline(), b"it cleans\n")
            run.send_signal(signal.SIGTERM)
            run.communicate(timeout=30)
            self.assertEqual(run.returncode, 128 + signal.SIGTERM)
            self.assertEqual(sorted(self.folder.iterdir()), before)

    def test_words_that_are_errors(self):
        self.write(samples.geojson())
        for words, told in (
                (["simplify", self.given, self.out], "--step"),
                (["clean", self.given, self.out, "--step", "1"], "choose"),
                (["simplify", self.given, "a.shp", "--step", "1"], "a.shp"),
                (["simplify", "a", self.out, "--step", "1"], "a doesn't end"),
                (["simplify", "a.SHP", self.out, "--step", "1"],
                 "clean a shapefile as a GeoPackage: ogr2ogr x.gpkg IN.shp"),
                (["simplify", self.given, self.out, "--step", "-1"],
                 "step is -1.0"),
                (["simplify", self.given, self.out, "--step", "-1e-7"],
                 "step is -1e-07"),
                (["simplify", self.given, self.out, "--step", "nan"],
                 "step is nan"),
                (["simplify", self.given, self.out, "--step", "1",
                  "--origin", "0", "inf"], "origin is"),
                (["simplify", self.given, self.out, "--step", "1", "--plot",
                  "a.bmp"], "a.bmp doesn't end")):
            with self.subTest(words=words):
                self.assertIn(told, self.assert_nothing_is_written(
                    *words, status=2))


if __name__ == "__main__":
    unittest.main()

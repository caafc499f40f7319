"""What the command reports: the report, the progress and the plot."""

import contextlib
import importlib.util
import io as text_io
import re
import sys
import time
import unittest
import warnings
from unittest import mock

import samples
from i_shape import _command
from i_shape._command import plot, progress
from test_command import FLAT, HOLE, SPIKED, SQUARE, CommandCase

HAS_MATPLOTLIB = importlib.util.find_spec("matplotlib") is not None
WHY_NOT = "a plot is not tested: there is no matplotlib"
if not HAS_MATPLOTLIB:
    print(WHY_NOT)


class Reports(CommandCase):

    def test_what_was_removed_and_what_collapsed(self):
        self.write(samples.geojson(
            samples.polygon(SPIKED, FLAT, HOLE), samples.polygon(FLAT),
            {"type": "MultiPolygon", "coordinates": [
                samples.polygon(ring)["coordinates"]
                for ring in (SQUARE, FLAT)]}))
        told, _ = self.run_command("simplify", self.given, self.out,
                                   "--step", "0.1", "--report",
                                   "--collapsed", "empty")
        self.assertEqual(told, """\
features with polygons: 3 before, 2 after
polygons: 4 before, 2 after
rings: 6 before, 3 after
points: 23 before, 11 after
area as given: 0.315 square units
area before: 0.315 square units, 31.5 cells of the grid
area after: 0.315 square units, 31.5 cells of the grid
collapsed: feature 0, polygon 0, ring 1
collapsed: feature 1, polygon 0, ring 0
collapsed: feature 2, polygon 1, ring 0
""")

    def test_rounding_changes_the_area(self):
        self.write(samples.geojson(samples.polygon(
            [(0, 0), (10.4, 0), (10.4, 10.4), (0, 10.4)])))
        told, _ = self.run_command("simplify", self.given, self.out,
                                   "--step", "1", "--report")
        self.assertIn("area as given: 108.16 square units\n", told)
        self.assertIn("area before: 100 square units, 100 cells of the grid\n",
                      told)
        self.assertIn("area after: 100 square units, 100 cells of the grid\n",
                      told)

    def test_holes_may_be_greater_than_the_ring_around_them(self):
        hole = [(0, 0), (7, 0), (0, 7)]
        for cells, document in (("-8.5", samples.polygon(samples.SQUARE,
                                                         hole[::-1])),
                                ("24.5", samples.polygon(hole[::-1]))):
            self.write(document)
            told, _ = self.run_command("simplify", self.given, self.out,
                                       "--step", "1", "--report")
            self.assertIn(f"area as given: {cells} square units\n"
                          f"area before: {cells} square units,"
                          f" {cells} cells of the grid\n", told)

    def test_holes_go_with_the_ring_around_them(self):
        self.write(samples.geojson(samples.polygon(FLAT, HOLE)))
        told, _ = self.run_command("simplify", self.given, self.out,
                                   "--step", "0.1", "--report",
                                   "--collapsed", "empty")
        self.assertIn("area as given: -0.005 square units\n"
                      "area before: -0.005 square units, -0.5 cells of the"
                      " grid\n"
                      "area after: 0 square units, 0 cells of the grid\n",
                      told)

    def test_a_small_parcel_far_away(self):
        x, y = 4.5e6, 5.5e6
        self.write(samples.geojson(samples.polygon(
            [(x, y), (x + 0.3, y), (x + 0.3, y + 0.3), (x, y + 0.3)])))
        told, _ = self.run_command("simplify", self.given, self.out,
                                   "--step", "0.1", "--report")
        area = re.search("area as given: (.*) square units", told)[1]
        self.assertAlmostEqual(float(area), 0.09, places=8)

    def test_areas_beyond_the_floats(self):
        for step, least in (("1e200", 0), ("6e307", -2)):
            self.write(samples.geojson(samples.polygon(
                [((least + x) * float(step), (least + y) * float(step))
                 for x, y in samples.SQUARE])))
            with warnings.catch_warnings():
                warnings.simplefilter("error")
                told, _ = self.run_command("simplify", self.given, self.out,
                                           "--step", step, "--report")
            self.assertIn("area as given: too great for a float\n"
                          "area before: too great for a float, 16 cells of"
                          " the grid\n", told)

    def test_great_areas_are_exact(self):
        far = 2 ** 61
        self.write(f"POLYGON ((0 0, {far} 0, {far} {far}, 0 {far}))",
                   "a.wkt")
        told, _ = self.run_command(
            "simplify", self.folder / "a.wkt", self.out, "--step", "1",
            "--report")
        self.assertEqual(told.count(f", {far * far} cells of the grid\n"), 2)

    def test_features_that_are_kept_as_they_are(self):
        high = {"type": "Polygon", "coordinates": [[[0, 0, 1], [1, 0, 1],
                                                    [1, 1, 1]]]}
        point = {"type": "Point", "coordinates": [1, 2]}
        self.write(samples.geojson(samples.polygon(SPIKED), high, None, point))
        for call in ("simplify", "dedup"):
            told, _ = self.run_command(call, self.given, self.out, "--step",
                                       "0.1", "--report", "--others", "keep")
            self.assertIn("features with polygons: 1 before, 1 after\n", told)
            self.assertIn("\nkept as they are: 2\n", told)
            told, _ = self.run_command(call, self.given, self.out, "--step",
                                       "0.1", "--report", "--others", "drop")
            self.assertNotIn("kept", told)

    def test_nothing(self):
        self.write(samples.geojson())
        told, _ = self.run_command("despike", self.given, self.out,
                                   "--step", "1", "--report")
        self.assertIn("points: 0 before, 0 after\n"
                      "area as given: 0 square units\n", told)

    def test_progress_is_a_line_a_second(self):
        times = iter([0, 0.5, 1.0, 1.5, 2.5, 2.6])
        error = text_io.StringIO()
        with mock.patch.dict(sys.modules, {"tqdm": None}), \
                mock.patch.object(time, "monotonic", lambda: next(times)), \
                contextlib.redirect_stderr(error):
            self.assertEqual(list(progress.track("abcde", "read", 5)),
                             list("abcde"))
        self.assertEqual(error.getvalue(), "read: 2 of 5\nread: 4 of 5\n")

    def test_progress_where_standard_error_can_not_be_written(self):
        full = mock.Mock(write=mock.Mock(side_effect=OSError("no room")))
        strange = mock.Mock(tqdm=mock.Mock(side_effect=AttributeError))
        for error, tqdm in ((None, None), (None, strange), (full, None)):
            times, out = iter([0, 1, 2]), text_io.StringIO()
            with mock.patch.dict(sys.modules, {"tqdm": tqdm}), \
                    mock.patch.object(time, "monotonic",
                                      lambda: next(times)), \
                    mock.patch.object(sys, "stderr", error), \
                    contextlib.redirect_stdout(out):
                self.assertEqual(list(progress.track("ab", "read")),
                                 list("ab"))
            self.assertEqual(out.getvalue(), "")

    def test_progress_is_that_of_tqdm_where_it_is(self):
        shown = mock.MagicMock()
        shown.tqdm.return_value.__enter__.return_value = shown.bar
        with mock.patch.dict(sys.modules, {"tqdm": shown}):
            self.assertEqual(list(progress.track("abc", "read", 3)),
                             list("abc"))
        self.assertEqual(shown.bar.update.call_count, 3)
        self.assertEqual(shown.tqdm.call_args.kwargs["total"], 3)

    def test_a_feature_read_is_a_step(self):
        self.write(samples.geojson(*[samples.polygon(SPIKED)] * 3))
        for out in ("out.geojson", "out.wkt"):
            shown = mock.MagicMock()
            shown.tqdm.return_value.__enter__.return_value = shown.bar
            with mock.patch.dict(sys.modules, {"tqdm": shown}):
                self.run_command("simplify", self.given, self.folder / out,
                                 "--step", "0.1")
            steps = [(call.kwargs["desc"], call.kwargs["total"])
                     for call in shown.tqdm.call_args_list]
            self.assertEqual(steps, [("features read", None)])
            self.assertEqual(shown.bar.update.call_count, 3)

    def test_short_files_show_no_progress(self):
        self.write(samples.geojson(samples.polygon(SPIKED)))
        for module in ({"tqdm": None}, {}):
            with mock.patch.dict(sys.modules, module):
                _, told = self.run_command("simplify", self.given, self.out,
                                           "--step", "0.1", "--report")
            self.assertEqual(told, "i_shape: 1 of 1 features changed,"
                             " 0 collapsed\n")


class Plots(CommandCase):

    @unittest.skipUnless(HAS_MATPLOTLIB, WHY_NOT)
    def test_a_plot_of_each_kind(self):
        self.write(samples.geojson(samples.polygon(SPIKED, FLAT), None))
        for kind, start in (("svg", b"<?xml"), ("png", b"\x89PNG"),
                            ("pdf", b"%PDF")):
            path = self.folder / f"plot.{kind}"
            self.run_command("simplify", self.given, self.out, "--step",
                             "0.1", "--collapsed", "empty", "--plot", path)
            self.assertTrue(path.read_bytes().startswith(start))
            self.assertEqual(self.geometries()[0], samples.polygon(SQUARE))
        self.assertIn("before: 10 points", self.texts("plot.svg"))
        self.assertIn("after: 4 points", self.texts("plot.svg"))

    @unittest.skipUnless(HAS_MATPLOTLIB, WHY_NOT)
    def test_of_many_features_those_that_lose_most(self):
        square, spiked = samples.polygon(SQUARE), samples.polygon(SPIKED)
        self.write(samples.geojson(
            *[square] * 9, *[spiked] * 10, samples.polygon(SPIKED, FLAT)))
        for most, words in ((10, ["the 9 of 20 features that lose most",
                                  "feature 19: 6 fewer", "feature 9: 3 fewer",
                                  "feature 16: 3 fewer"]),
                            (200, ["before: 116 points"])):
            with mock.patch.object(plot, "_MOST", most):
                self.run_command("simplify", self.given, self.out, "--step",
                                 "0.1", "--plot", self.folder / "plot.svg")
            texts = self.texts("plot.svg")
            for text in words:
                self.assertIn(text, " ".join(texts))
            self.assertEqual(sum("fewer" in text for text in texts),
                             9 if most == 10 else 0)

    def test_a_feature_drawn_does_not_look_at_all_others(self):
        self.write(samples.geojson(*[samples.polygon(SPIKED)] * 9))
        with mock.patch.object(importlib.util, "find_spec", str), \
                mock.patch.object(plot.Picture, "draw",
                                  lambda _, path, *__: path.touch()), \
                mock.patch.object(plot, "_ends", wraps=plot._ends) as ends:
            self.run_command("simplify", self.given, self.out, "--step",
                             "0.1", "--plot", self.folder / "plot.svg")
        self.assertEqual(ends.call_count, 2)  # of all before and after

    def texts(self, name):
        """The words of a picture, which are in its comments."""
        return re.findall("<!-- (.*) -->", (self.folder / name).read_text())

    def test_without_matplotlib_nothing_is_done(self):
        self.write(samples.geojson(samples.polygon(SPIKED)))
        with mock.patch.object(importlib.util, "find_spec", lambda _: None):
            _, told = self.run_command(
                "simplify", self.given, self.out, "--step", "0.1", "--plot",
                self.folder / "plot.svg", status=2)
        self.assertIn("there is no matplotlib", told)
        self.assertFalse(self.out.exists())

    def test_nothing_is_left_of_a_plot_that_fails(self):
        self.write(samples.geojson(samples.polygon(SPIKED)))
        before = sorted(self.folder.iterdir())

        def draw(_, path, *__):
            path.write_text("half")
            raise OSError("no room")

        with mock.patch.object(_command.plot.Picture, "draw", draw), \
                mock.patch.object(importlib.util, "find_spec", str):
            self.run_command("simplify", self.given, self.out, "--step",
                             "0.1", "--plot", self.folder / "plot.svg",
                             status=1)
        self.assertEqual(sorted(self.folder.iterdir()), before)


if __name__ == "__main__":
    unittest.main()

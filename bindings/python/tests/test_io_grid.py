"""Floats onto a grid and back; rings opened and closed; narrow offsets."""

import random
import subprocess
import sys
import unittest
from fractions import Fraction
from pathlib import Path

import numpy as np

import i_shape
import plain
import samples
from i_shape import io


def nearest(number, grid, axis):
    """The number of steps by fractions, halves to the even one."""
    origin, step = Fraction(grid.origin[axis]), Fraction(grid.step)
    return round((Fraction(number) - origin) / step)


class Table(unittest.TestCase):
    """The rows of bindings/grid.txt, which each language is tested with."""

    path = Path(__file__).resolve().parents[2] / "grid.txt"

    def test_each_row(self):
        rows = [line.split("\t") for line in self.path.read_text().splitlines()
                if not line.startswith("#")]
        self.assertGreater(len(rows), 500)
        for step, x, k, back, width, _ in rows:
            grid, point = io.Grid(float(step)), [(float(x), float(x))]
            for dtype in plain.DTYPES:
                with self.subTest(step=step, x=x, dtype=dtype):
                    if (width == "-"
                            or int(width) > 8 * np.dtype(dtype).itemsize):
                        with self.assertRaises(i_shape.UnsafePointError):
                            io.to_grid(point, grid, dtype)
                        continue
                    whole = io.to_grid(point, grid, dtype)
                    self.assertEqual(whole.tolist(), [[int(k)] * 2])
                    if back == "-":
                        continue
                    there = io.from_grid(whole, grid).ravel().tolist()
                    self.assertEqual(list(map(repr, there)), [back] * 2)

    def test_the_rows_are_those_of_the_definition(self):
        script = self.path.parents[1] / "scripts" / "grid_vectors.py"
        made = subprocess.run([sys.executable, str(script)], check=True,
                              capture_output=True, text=True)
        self.assertEqual(made.stdout, self.path.read_text())


class Grids(unittest.TestCase):

    def test_what_a_grid_is(self):
        grid = io.Grid(0.5, (1, 2))
        self.assertEqual(grid, io.Grid(step=0.5, origin=(1, 2)))
        self.assertEqual(hash(grid), hash(io.Grid(0.5, (1, 2))))
        with self.assertRaises(AttributeError):
            grid.step = 1
        for step in (0, -1, float("nan"), float("inf"), 10 ** 400,
                     10 ** 5000):
            with self.assertRaisesRegex(ValueError, "step is"):
                io.Grid(step)
        for origin in ((0, float("nan")), (float("inf"), 0), (0,), (0, 0, 0),
                       (0, 10 ** 400), (-10 ** 5000, 0)):
            with self.assertRaisesRegex(ValueError, "origin is"):
                io.Grid(1, origin)

    def test_whole_numbers_beyond_64_bits(self):
        grid = io.Grid(10 ** 20, (10 ** 21, 0))
        whole = io.to_grid([(5e20, 1e20)], grid)
        self.assertEqual(whole.tolist(), [[-5, 1]])
        there = io.from_grid(whole, grid)
        self.assertEqual((there.tolist(), there.dtype),
                         ([[5e20, 1e20]], np.float64))

    def test_the_nearest_is_taken(self):
        numbers = random.Random(1)
        for step in (0.25, 2.0, 3.0, 1024.0):
            grid = io.Grid(step, (numbers.randint(-9, 9) * step, 2 * step))
            points = [(numbers.randint(-999, 999) / 8,
                       numbers.randint(-999, 999) / 8) for _ in range(300)]
            right = [(nearest(x, grid, 0), nearest(y, grid, 1))
                     for x, y in points]
            for dtype in plain.DTYPES:
                answer = io.to_grid(points, grid, dtype)
                self.assertEqual(answer.dtype, dtype)
                self.assertEqual(plain.tuples(answer), right)

    def test_no_coordinate_moves_by_more_than_half_a_step(self):
        numbers = np.random.default_rng(2)
        points = numbers.uniform(-180, 180, (10000, 2))
        for step in (1e-7, 1e-3, 0.3, 1 / 3):
            grid = io.Grid(step, (10.5, -7.25))
            there = io.from_grid(io.to_grid(points, grid), grid)
            self.assertLess(np.abs(there - points).max(),
                            step * 0.5 + 360 * 2 ** -52)

    def test_decimals_come_back_as_they_are_written(self):
        numbers = random.Random(3)
        for digits in range(1, 10):
            grid = io.Grid(float(f"1e-{digits}"))
            texts = [f"{numbers.randint(-179, 179)}."
                     f"{numbers.randrange(10 ** digits):0{digits}}"
                     for _ in range(400)]
            points = np.array(texts, float).reshape(-1, 2)
            whole = io.to_grid(points, grid)
            self.assertEqual(
                whole.ravel().tolist(),
                [round(Fraction(text) * 10 ** digits) for text in texts])
            np.testing.assert_array_equal(io.from_grid(whole, grid), points)

    def test_the_way_back_leads_to_the_same_whole_numbers(self):
        numbers = random.Random(4)
        most = 2 ** 49
        for step in (1e-7, 1.0, 0.1, 1 / 3, 7e22, 2.5e-200):
            for far in (0, 1, most):
                grid = io.Grid(step, (far * step, -far * step))
                whole = np.array(
                    [(numbers.randint(-most, most), numbers.choice(
                        [-most, 0, most])) for _ in range(500)])
                there = io.from_grid(whole, grid)
                self.assertEqual(there.dtype, np.float64)
                np.testing.assert_array_equal(io.to_grid(there, grid), whole)

    def test_a_step_of_a_power_of_two_is_exact(self):
        numbers = random.Random(5)
        grid = io.Grid(2.0 ** -20, (1024.0, -3.0))
        whole = [(numbers.randint(-2 ** 50, 2 ** 50), 7) for _ in range(100)]
        there = io.from_grid(np.array(whole), grid)
        self.assertEqual(
            [tuple(map(Fraction, point)) for point in there.tolist()],
            [(1024 + Fraction(x, 2 ** 20), -3 + Fraction(y, 2 ** 20))
             for x, y in whole])

    def test_the_bound_of_each_dtype(self):
        for dtype in plain.DTYPES:
            bound = plain.bound(dtype)
            inside = float(bound - 1)
            if inside == bound:
                inside = np.nextafter(float(bound), 0)
            for sign in (1, -1):
                for axis in (0, 1):
                    point = [0.0, 0.0]
                    point[axis] = sign * inside
                    whole = io.to_grid([point], io.Grid(1), dtype)
                    self.assertTrue(i_shape.is_safe(whole))
                    self.assertEqual(whole[0, axis], sign * int(inside))
                    point[axis] = sign * float(bound)
                    with self.assertRaises(i_shape.UnsafePointError):
                        io.to_grid([point], io.Grid(1), dtype)

    def test_errors_name_the_point(self):
        inf, nan = float("inf"), float("nan")
        for point, grid, dtype, words in (
                ((0, 181.5), io.Grid(1e-7), np.int32,
                 "y is 181.5, 1815000000 steps of 1e-07 from the"
                 " origin, and not strictly between -2**30 and 2**30, the"
                 " safe range of int32: int64 has room for it"),
                ((-20000, 0), io.Grid(1), np.int16,
                 "x is -20000.0, -20000 steps of 1 from the origin, and not"
                 " strictly between -2**14 and 2**14, the safe range of"
                 " int16: int32 has room for it"),
                ((-20000, 2 ** 31), io.Grid(1), np.int16,
                 "the safe range of int16: int64 has room for it"),
                ((0, 2.0 ** 62), io.Grid(1), np.int16, "range of int16$"),
                ((0, 2.0 ** 62), io.Grid(1), np.int64, "range of int64$"),
                ((5, 0), io.Grid(1, (-1e300, 0)), np.int64,
                 r"x is 5.0, 1.0{15}1e\+300 steps"),
                ((nan, 0), io.Grid(1), np.int32, "x is nan, nan steps"),
                ((0, -inf), io.Grid(1), np.int32, "y is -inf, -inf steps"),
                ((0, 1), io.Grid(5e-324), np.int32, "y is 1.0, inf steps"),
                ((0, 1e300), io.Grid(1e-300), np.int32, "inf steps")):
            with self.subTest(point=point, dtype=dtype):
                words = words.replace("**", r"\*\*")
                with self.assertRaisesRegex(i_shape.UnsafePointError,
                                            words) as told:
                    io.to_grid([grid.origin, point, point], grid, dtype)
                self.assertEqual(told.exception.point, 1)
                features = samples.arrays([(True, [[[]], [
                    [grid.origin], [grid.origin, point, point]]])])
                if not np.isfinite(point).all():
                    words = "not finite"
                with self.assertRaisesRegex(
                        io.FeatureError, "feature 0, polygon 1, ring 1,"
                        f" point 1: .*{words}"):
                    io.features_to_grid(features, grid, dtype)

    def test_other_arrays_and_dtypes(self):
        grid = io.Grid(1)
        for points in ([(0.0, 0.0)], np.zeros((1, 2), np.float32),
                       np.zeros((1, 2), np.uint8), [], np.zeros((0, 2))):
            self.assertFalse(io.to_grid(points, grid).any())
        for points in (["ab"], [(1j, 0)], [(True, False)], None, object(),
                       np.ma.masked_array([(0.0, 0.0)])):
            with self.assertRaises(TypeError):
                io.to_grid(points, grid)
        for points in (np.zeros(4), np.zeros((2, 3)), np.zeros((1, 2, 2))):
            with self.assertRaises(ValueError):
                io.to_grid(points, grid)
        for dtype in (np.uint32, np.int8, float, bool, ">i4"):
            with self.assertRaisesRegex(TypeError, "int16, int32 or int64"):
                io.to_grid([(0, 0)], grid, dtype)
        with self.assertRaises(TypeError):
            io.from_grid(np.zeros((1, 2)), grid)
        with self.assertRaises(ValueError):
            io.from_grid(np.zeros((1, 3), int), grid)

    def test_what_is_given_stays(self):
        points = np.array([(0.4, 1.6)])
        points.flags.writeable = False
        io.to_grid(points, io.Grid(1, (0.5, 0.5)))
        whole = np.array([(4, 8)])
        whole.flags.writeable = False
        io.from_grid(whole, io.Grid(0.5))
        self.assertEqual(points.tolist(), [[0.4, 1.6]])

    def test_features_there_and_back(self):
        grid = io.Grid(0.5, (100.0, 0.0))
        given = samples.arrays([(True, [[samples.SQUARE, []], []])])
        whole = io.features_to_grid(given, grid, np.int32)
        self.assertEqual(whole.polygons.points.dtype, np.int32)
        self.assertEqual(
            samples.lists(whole),
            [(True, [[[(-200, 0), (-192, 0), (-192, 8), (-200, 8)], []], []])])
        for there in (whole, tuple(whole)):
            self.assertEqual(
                samples.lists(io.features_from_grid(there, grid)),
                samples.lists(given))
        with self.assertRaises(i_shape.OffsetsError):
            io.features_from_grid(whole._replace(feature_offsets=[3]), grid)
        with self.assertRaisesRegex(io.FeatureError, "feature 0, polygon 0,"
                                    r" ring 0, point 0: .*\(-inf, 0.0\)"):
            io.features_from_grid(whole, io.Grid(1e306))


class Closing(unittest.TestCase):

    def test_rings_of_each_kind(self):
        a, b, c = (0, 0), (4, 0), (4, 4)
        for closed, opened, again in (
                ([a, b, c, a], [a, b, c], [a, b, c, a]),
                ([a, b, c], [a, b, c], [a, b, c, a]),
                ([a, b, a, a], [a, b, a], [a, b, a, a]),
                ([a, a], [a], [a, a]),
                ([a], [a], [a, a]),
                ([], [], [])):
            for dtype in (np.int16, np.int64, np.float32, np.float64):
                points, offsets = plain.flat([closed], np.int64)
                rings = io.open_rings(points.astype(dtype), offsets)
                self.assertEqual(plain.parted(*rings), [opened])
                self.assertEqual((rings.points.dtype, rings.offsets.dtype),
                                 (dtype, np.int64))
                rings = io.close_rings(*rings)
                self.assertEqual(plain.parted(*rings), [again])
                self.assertEqual((rings.points.dtype, rings.offsets.dtype),
                                 (dtype, np.int64))

    def test_many_rings(self):
        numbers = random.Random(6)
        for _ in range(200):
            rings = [plain.random_ring(numbers, np.int32)
                     for _ in range(numbers.randrange(8))]
            points, offsets = plain.flat(rings, np.int32)
            closed = io.close_rings(points, offsets)
            self.assertEqual(plain.parted(*closed),
                             [ring + ring[:1] for ring in rings])
            opened = io.open_rings(*closed)
            np.testing.assert_array_equal(opened.points, points)
            np.testing.assert_array_equal(opened.offsets, offsets)

    def test_offsets_of_any_width_and_from_any_start(self):
        points, offsets = plain.flat([[(9, 9)] * 3, samples.SQUARE,
                                      samples.SQUARE], np.int32)
        for dtype in (np.int32, np.int64, np.uint32):
            closed = io.close_rings(points, offsets[1:3].astype(dtype))
            self.assertEqual(plain.parted(*closed),
                             [samples.SQUARE + samples.SQUARE[:1]])
            opened = io.open_rings(*closed)
            self.assertEqual(plain.parted(*opened), [samples.SQUARE])
            self.assertFalse(np.shares_memory(closed.points, points))

    def test_a_million_rings(self):
        points = np.tile(np.array(samples.SQUARE, np.int32), (10 ** 6, 1))
        offsets = np.arange(0, len(points) + 1, 4)
        closed = io.close_rings(points, offsets)
        self.assertEqual(closed.points[:10].tolist(),
                         [[0, 0], [4, 0], [4, 4], [0, 4], [0, 0]] * 2)
        opened = io.open_rings(*closed)
        np.testing.assert_array_equal(opened.points, points)
        np.testing.assert_array_equal(opened.offsets, offsets)

    def test_errors(self):
        for call in (io.open_rings, io.close_rings):
            for offsets in ([0, 5], [3, 1], [-1, 4], []):
                with self.assertRaises(i_shape.OffsetsError):
                    call(samples.SQUARE, offsets)
            with self.assertRaises(TypeError):
                call(samples.SQUARE, [0.0, 4.0])
            with self.assertRaises(TypeError):
                call(["a", "b"], [0, 2])
            with self.assertRaises(ValueError):
                call([1, 2, 3], [0, 3])

    def test_narrow_offsets(self):
        most = 2 ** 31 - 1
        for offsets in ([0], [0, 4, 8], [3, most], np.array([0, 4], "u8")):
            narrow = io.narrow_offsets(offsets)
            self.assertEqual(narrow.dtype, np.int32)
            np.testing.assert_array_equal(narrow, offsets)
        for offsets in ([0, most + 1], [0, -1], np.array([0, 2 ** 63], "u8")):
            with self.assertRaisesRegex(i_shape.OffsetsError,
                                        r"offsets\[1\] is"):
                io.narrow_offsets(offsets)
        with self.assertRaises(TypeError):
            io.narrow_offsets([0.0])


class Cleaners(unittest.TestCase):

    def cleaned(self, given, clean):
        """The rule of features: what collapses is left out."""
        left = []
        for is_multi, polygons in given:
            its = [[clean(ring) for ring in rings] for rings in polygons]
            left.append((is_multi, [
                [ring for ring in rings if ring] for rings in its
                if not rings or rings[0]]))
        return left

    def random_features(self, numbers, dtype):
        return samples.random_features(
            numbers, numbers.randrange(5),
            number=lambda numbers, _: plain.random_ring(numbers, dtype, 8))

    def test_simplify_and_despike_follow_the_rule(self):
        for dtype in plain.DTYPES:
            numbers = random.Random(7)
            for _ in range(150):
                given = self.random_features(numbers, dtype)
                features = samples.arrays(given, dtype)
                for call, one in ((io.simplify_features, i_shape.simplify),
                                  (io.despike_features, i_shape.despike)):
                    right = self.cleaned(given, lambda ring: plain.tuples(
                        one(plain.array(ring, dtype))))
                    for threads in (1, 3):
                        left = call(features, collapsed="empty",
                                    threads=threads)
                        self.assertEqual(samples.lists(left), right)
                        self.assertEqual(left.polygons.points.dtype, dtype)

    def test_simplify_is_that_of_polygons(self):
        numbers = random.Random(8)
        for _ in range(150):
            features = samples.arrays(
                self.random_features(numbers, np.int32), np.int32)
            left = io.simplify_features(features, collapsed="empty").polygons
            right = i_shape.simplify_polygons(*features.polygons)
            for one, other in zip(left, right):
                np.testing.assert_array_equal(one, other)

    def test_canonical_is_that_of_the_polygons_of_each_feature(self):
        for dtype in plain.DTYPES:
            numbers = random.Random(9)
            for _ in range(150):
                features = samples.arrays(
                    self.random_features(numbers, dtype), dtype)
                left = io.canonical_features(features, collapsed="empty")
                offsets = features.feature_offsets.tolist()
                parts = features.polygons.polygon_offsets
                for place, (a, b) in enumerate(zip(offsets, offsets[1:])):
                    form = i_shape.canonical_polygons(
                        *features.polygons[:2], parts[a:b + 1])
                    one = samples.lists(left)[place][1]
                    rings = plain.parted(*form[:2])
                    ends = form.polygon_offsets
                    self.assertEqual(one, [rings[c:d]
                                           for c, d in zip(ends, ends[1:])])

    def test_the_conditions_are_those_of_each_ring(self):
        calls = ((io.is_simple_features, i_shape.is_simple,
                  io.simplify_features),
                 (io.has_no_spikes_features, i_shape.has_no_spikes,
                  io.despike_features))
        for dtype in plain.DTYPES:
            numbers = random.Random(10)
            for _ in range(150):
                given = self.random_features(numbers, dtype)
                features = samples.arrays(given, dtype)
                for call, one, cleaner in calls:
                    right = [all(one(plain.array(ring, dtype))
                                 for rings in polygons for ring in rings)
                             for _, polygons in given]
                    for threads in (1, 3):
                        told = call(features, threads=threads)
                        self.assertEqual(told.tolist(), right)
                        self.assertEqual(told.dtype, np.bool_)
                    left = cleaner(features, collapsed="empty")
                    self.assertTrue(call(left).all())

    def test_what_is_given_stays(self):
        features = samples.arrays(
            [(True, [[samples.SQUARE[::-1], samples.SQUARE, samples.SQUARE],
                     [samples.SQUARE]])], np.int32)
        before = samples.lists(features)
        for call in (io.simplify_features, io.despike_features,
                     io.canonical_features):
            call(features)
            self.assertEqual(samples.lists(features), before)

    def test_floats_are_errors(self):
        features = samples.arrays([(False, [[samples.SQUARE]])])
        for call in (io.simplify_features, io.despike_features,
                     io.canonical_features):
            with self.assertRaisesRegex(TypeError, "float64"):
                call(features)

    def test_the_ring_of_an_unsafe_point(self):
        features = samples.arrays([(True, [[samples.SQUARE], [[(0, 2 ** 14)]]]
                                    )], np.int16)
        with self.assertRaises(i_shape.UnsafePointError) as told:
            io.simplify_features(features)
        self.assertEqual(told.exception.ring, 1)


if __name__ == "__main__":
    unittest.main()

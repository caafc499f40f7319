"""Tests and areas of many rings, beside plain loops and single calls."""

import ctypes
import random
import unittest
from unittest import mock

import numpy as np

import i_shape
import plain
from i_shape import _library
from test_polygons import flat, random_polygons

# Each call on many rings, that on one, and the plain loop.
TESTS = (
    (i_shape.is_simple_rings, i_shape.is_simple, plain.is_simple),
    (i_shape.has_no_spikes_rings, i_shape.has_no_spikes, plain.has_no_spikes),
    (i_shape.is_convex_rings, i_shape.is_convex, plain.is_convex),
    (i_shape.are_simple_polygons, i_shape.is_simple_polygon,
     plain.is_simple_polygon),
)
OF_SAFE_POINTS = [many for many, _, _ in TESTS]
OF_ANY_POINTS = [i_shape.is_safe_rings, i_shape.area_two_rings]
CALLS = OF_SAFE_POINTS + OF_ANY_POINTS
AREAS = {np.int16: np.int32, np.int32: np.int64, np.int64: object}


class Answers(unittest.TestCase):

    def test_each_ring_is_tested_as_by_itself(self):
        for dtype in plain.DTYPES:
            numbers = random.Random(21)
            rings = [plain.random_ring(numbers, dtype) for _ in range(2000)]
            points, offsets = plain.flat(rings, dtype)
            for many, one, loop in TESTS:
                told = many(points, offsets)
                self.assertEqual((told.dtype, told.shape),
                                 (np.bool_, (2000,)))
                self.assertEqual(told.tolist(), [loop(r) for r in rings])
                self.assertEqual(told.tolist()[:99], [
                    one(plain.array(ring, dtype)) for ring in rings[:99]])
                self.assertTrue(100 < told.sum() < 1900)

    def test_rings_with_an_unsafe_point_are_told(self):
        for dtype in plain.DTYPES:
            numbers = random.Random(22)
            limit = plain.bound(dtype)
            choices = [0, 0, 0, limit - 1, 1 - limit, limit, -limit,
                       np.iinfo(dtype).min, np.iinfo(dtype).max]
            rings = [[(numbers.choice(choices), numbers.choice(choices))
                      for _ in range(numbers.randrange(4))]
                     for _ in range(1000)]
            told = i_shape.is_safe_rings(*plain.flat(rings, dtype))
            self.assertEqual(told.tolist(), [
                all(-limit < number < limit for p in ring for number in p)
                for ring in rings])

    def test_areas_beside_plain_loops(self):
        for dtype in plain.DTYPES:
            numbers = random.Random(23)
            most = np.iinfo(dtype).max
            rings = [plain.random_ring(numbers, dtype) for _ in range(500)]
            rings += [[(numbers.randint(-most - 1, most),
                        numbers.randint(-most - 1, most))
                       for _ in range(numbers.randrange(6))]
                      for _ in range(500)]
            areas = i_shape.area_two_rings(*plain.flat(rings, dtype))
            self.assertEqual(areas.dtype, AREAS[dtype])
            self.assertEqual(areas.tolist(), [
                plain.wrapped_area(ring, dtype) for ring in rings])

    def test_areas_of_128_bits_are_exact(self):
        side = 2 ** 62 - 1
        square = [(-side, -side), (side, -side), (side, side), (-side, side)]
        for ring, area in ((square, 8 * side**2), (square[::-1],
                                                   -8 * side**2)):
            areas = i_shape.area_two_rings(*plain.flat([ring, []], np.int64))
            self.assertEqual(areas.tolist(), [area, 0])
            self.assertEqual({type(area) for area in areas.tolist()}, {int})

    def test_threads_give_the_array_of_one(self):
        for dtype in plain.DTYPES:
            numbers = random.Random(24)
            for rings in (
                    [plain.random_ring(numbers, dtype) for _ in range(1001)],
                    [[]] * 50 + [plain.random_ring(numbers, dtype, 500)],
                    []):
                points, offsets = plain.flat(rings, dtype)
                for many in CALLS:
                    one = many(points, offsets)
                    for threads in (2, 3, 8, np.int8(5)):
                        other = many(points, offsets, threads=threads)
                        self.assertEqual(other.dtype, one.dtype)
                        np.testing.assert_array_equal(other, one)

    def test_offsets_that_start_later_and_end_sooner(self):
        for dtype in plain.DTYPES:
            numbers = random.Random(25)
            rings = [plain.random_ring(numbers, dtype) for _ in range(30)]
            points, offsets = plain.flat(rings, dtype)
            part = offsets[4:21]
            # What lies outside isn't read.
            points[:part[0]] = points[part[-1]:] = np.iinfo(dtype).min
            for many in CALLS:
                right = many(*plain.flat(rings[4:20], dtype))
                for threads in (1, 4):
                    np.testing.assert_array_equal(
                        many(points, part, threads=threads), right)

    def test_no_rings_and_no_points(self):
        for dtype in plain.DTYPES:
            for many in CALLS:
                for offsets in ([0], [3]):
                    told = many(np.ones((3, 2), dtype), offsets, threads=4)
                    self.assertEqual(told.shape, (0,))
            nothing = plain.array([], dtype)
            for many, answer in zip(CALLS, (False, False, True, False, True, 0)):
                self.assertEqual(many(nothing, [0, 0, 0]).tolist(),
                                 [answer] * 2)

    def test_a_million_rings(self):
        ring = [(0, 0), (4, 0), (4, 4)]
        for dtype in plain.DTYPES:
            points = np.tile(plain.array(ring, dtype), (10**6, 1))
            offsets = np.arange(0, 3 * 10**6 + 1, 3)
            for threads in (1, 4):
                for many in CALLS:
                    told = many(points, offsets, threads=threads)
                    self.assertEqual(told.shape, (10**6,))
                    self.assertTrue(
                        (told == (16 if many is i_shape.area_two_rings
                                  else 1)).all())

    def test_other_layouts(self):
        wide = np.zeros((7, 5), np.int32)
        wide[:, 1:3] = [(0, 0), (4, 0), (4, 4), (0, 0), (2, 0), (4, 0),
                        (4, 4)]
        wide.flags.writeable = False
        for offsets in ([0, 3, 7], np.array([0, 3, 7], "u1"),
                        np.array([0, 3, 7], ">i4")):
            self.assertEqual(i_shape.is_simple_rings(
                wide[:, 1:3], offsets).tolist(), [True, False])
            self.assertEqual(i_shape.area_two_rings(
                wide[:, 1:3], offsets).tolist(), [16, 16])

    def test_the_lock_is_off_during_a_call(self):
        self.assertNotIsInstance(_library._library, ctypes.PyDLL)
        for calls in _library.CALLS.values():
            for call in (*calls.test_many.values(), calls.areas):
                self.assertEqual(call._flags_, 1)  # FUNCFLAG_CDECL alone


class Polygons(unittest.TestCase):

    def test_areas_of_polygons_are_sums(self):
        for dtype in plain.DTYPES:
            numbers = random.Random(26)
            for _ in range(200):
                polygons = random_polygons(numbers, dtype)
                half = 2 ** (16 * np.dtype(dtype).itemsize - 1)
                right = [(sum(map(plain.area_two, rings)) + half)
                         % (2 * half) - half for rings in polygons]
                for threads in (1, 3):
                    areas = i_shape.area_two_polygons(*flat(polygons, dtype),
                                                      threads=threads)
                    self.assertEqual(areas.dtype, AREAS[dtype])
                    self.assertEqual(areas.tolist(), right)

    def test_a_sum_that_does_not_fit_wraps(self):
        for dtype in plain.DTYPES:
            side = plain.bound(dtype) - 1
            square = [(-side, -side), (side, -side), (side, side),
                      (-side, side)]
            area = sum([plain.area_two(square)] * 3)
            half = 2 ** (16 * np.dtype(dtype).itemsize - 1)
            self.assertGreater(area, half)
            polygons = [[square] * 3, [square[::-1]], []]
            self.assertEqual(
                i_shape.area_two_polygons(*flat(polygons, dtype)).tolist(),
                [(area + half) % (2 * half) - half, -area // 3, 0])

    def test_a_part_of_the_polygons(self):
        numbers = random.Random(27)
        for _ in range(50):
            polygons = random_polygons(numbers, np.int32) + [[], []]
            points, rings, ends = flat(polygons, np.int32)
            part = ends[1:-1]
            right = i_shape.area_two_polygons(*flat(polygons[1:-1], np.int32))
            np.testing.assert_array_equal(
                i_shape.area_two_polygons(points, rings, part), right)

    def test_areas_in_halves(self):
        numbers = random.Random(29)
        most = np.iinfo(np.int64).max
        polygons = [[[(numbers.randint(-most, most),
                       numbers.randint(-most, most)) for _ in range(4)]
                     for _ in range(count)] for count in (1, 0, 3) * 50]
        points, rings, parts = flat(polygons, np.int64)
        for call, offsets in ((i_shape.area_two_rings, [rings]),
                              (i_shape.area_two_polygons, [rings, parts])):
            found = call(points, *offsets, halves=True)
            self.assertEqual((found["low"].dtype, found["high"].dtype),
                             (np.uint64, np.int64))
            self.assertEqual(
                [high * 2**64 + low for low, high in found.tolist()],
                call(points, *offsets).tolist())
            with self.assertRaisesRegex(ValueError, "have no halves"):
                call(points.astype(np.int32), *offsets, halves=True)

    def test_despike_polygons_follows_the_rule(self):
        for dtype in plain.DTYPES:
            numbers = random.Random(28)
            for _ in range(200):
                polygons = random_polygons(numbers, dtype)
                right = []
                for rings in polygons:
                    left = [plain.tuples(i_shape.despike(
                        plain.array(ring, dtype))) for ring in rings]
                    if not rings or left[0]:
                        right.append([ring for ring in left if ring])
                for threads in (1, 3):
                    answer = i_shape.despike_polygons(
                        *flat(polygons, dtype), threads=threads)
                    rings = plain.parted(answer.points, answer.ring_offsets)
                    ends = answer.polygon_offsets
                    self.assertEqual(
                        [rings[a:b] for a, b in zip(ends, ends[1:])], right)
                    self.assertEqual(answer.points.dtype, dtype)


class Errors(unittest.TestCase):

    def test_the_first_ring_with_an_unsafe_point(self):
        for dtype in plain.DTYPES:
            points, offsets = plain.flat(
                [[(0, 0), (4, 0), (4, 4)]] * 9, dtype)
            points[14, 1] = points[20, 0] = np.iinfo(dtype).min
            for many in OF_SAFE_POINTS:
                for threads in (1, 2, 8):
                    with self.assertRaises(i_shape.UnsafePointError) as told:
                        many(points, offsets, threads=threads)
                    self.assertEqual(
                        (told.exception.ring, told.exception.point), (4, 14))
            for many in OF_ANY_POINTS:
                many(points, offsets)

    def test_offsets_that_part_nothing(self):
        points = np.zeros((8, 2), np.int32)
        for offsets, words in (
                ([0, 9], "offsets[1] is 9, above the number of points, 8"),
                ([9], "above the number of points"),
                ([0, 4, 3, 8], "offsets[2] is 3, below 4"),
                ([-1, 8], "offsets[0] is -1, below 0"),
                ([0, -1, 8], "offsets[1] is -1, below 0"),
                (np.array([0, 2 ** 64 - 1], "u8"),
                 "offsets[1] is 18446744073709551615: no array has"),
                (np.array([], int), "are empty"), ([], "are empty")):
            for many in CALLS:
                for threads in (1, 2):
                    with self.subTest(offsets=offsets, threads=threads):
                        with self.assertRaises(i_shape.OffsetsError) as told:
                            many(points, offsets, threads=threads)
                        self.assertIn(words, str(told.exception))

    def test_offsets_of_polygons_that_part_nothing(self):
        points = np.zeros((6, 2), np.int32)
        for rings, ends, words in (
                ([0, 3, 6], [0, 3], "polygon_offsets[1] is 3, above"),
                ([0, 3, 6], [0, 2, 1], "polygon_offsets[2] is 1, below 2"),
                ([0, 3, 7], [0, 2], "ring_offsets[2] is 7, above"),
                ([0, 1, 4, 3], [1, 3], "ring_offsets[3] is 3, below 4"),
                ([], [0], "ring_offsets are empty"),
                ([0, 3, 6], np.array([0, 2 ** 63], "u8"),
                 "polygon_offsets[1] is 9223372036854775808: no array")):
            for call in (i_shape.area_two_polygons, i_shape.despike_polygons,
                         i_shape.canonical_keys):
                for threads in (1, 2):
                    with self.subTest(words=words, threads=threads):
                        with self.assertRaises(i_shape.OffsetsError) as told:
                            call(points, rings, ends, threads=threads)
                        self.assertIn(words, str(told.exception))

    def test_offsets_are_tested_first(self):
        points = np.full((8, 2), np.iinfo(np.int32).min, np.int32)
        for many in OF_SAFE_POINTS:
            for threads in (1, 2):
                with self.assertRaises(i_shape.OffsetsError):
                    many(points, [0, 4, 3], threads=threads)
                with self.assertRaises(i_shape.UnsafePointError):
                    many(points, [0, 4, 4], threads=threads)

    def test_other_arrays(self):
        points = np.zeros((8, 2), np.int32)
        for many in CALLS:
            for other in (points.astype(float), points.astype("u4"),
                          points.astype(">i4"), points.astype(object),
                          points.astype(bool), None, "points",
                          np.ma.masked_array(points)):
                with self.assertRaises(TypeError):
                    many(other, [0, 8])
            for offsets in ([0.0, 8.0], [False, True], None, np.array([])):
                with self.assertRaises(TypeError):
                    many(points, offsets)
            for given in ((points[:, :1], [0, 8]), (points, 8),
                          (points, [[0, 8]])):
                with self.assertRaises(ValueError):
                    many(*given)
            with self.assertRaises(ValueError):
                many(points, [0, 8], threads=0)
            for threads in (1.5, "2", None):
                with self.assertRaises(TypeError):
                    many(points, [0, 8], threads=threads)

    def test_a_code_of_a_part_is_raised(self):
        points, offsets = np.zeros((8, 2), np.int32), [0, 4, 8]
        points[3:5] = np.iinfo(np.int32).max
        for codes in ([-1, 0], [0, -1], [-1, -1]):
            answers = iter(codes)
            tests = {"is_simple": lambda *_: next(answers)}
            with mock.patch.dict(_library.CALLS[4].test_many, tests):
                with self.assertRaises(i_shape.UnsafePointError):
                    i_shape.is_simple_rings(points, offsets, threads=2)


if __name__ == "__main__":
    unittest.main()

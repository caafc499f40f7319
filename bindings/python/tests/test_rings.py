"""Calls on many rings, beside plain loops and the calls on one contour."""

import ctypes
import functools
import random
import threading
import unittest
from unittest import mock

import numpy as np

import i_shape
import plain
from i_shape import _library, _rings

PAIRS = ((i_shape.simplify_rings, i_shape.simplify),
         (i_shape.despike_rings, i_shape.despike),
         (i_shape.canonical_rings, i_shape.canonical),
         (functools.partial(i_shape.canonical_rings, oriented=True),
          functools.partial(i_shape.canonical, oriented=True)))
CALLS = [many for many, _ in PAIRS]


def random_rings(numbers, dtype, most=12):
    return [plain.random_ring(numbers, dtype)
            for _ in range(numbers.randrange(most + 1))]


class Answers(unittest.TestCase):

    def assert_same(self, left, right):
        for one, other in zip(left, right):
            self.assertEqual(one.dtype, other.dtype)
            np.testing.assert_array_equal(one, other)

    def test_each_ring_is_cleaned_as_by_itself(self):
        for dtype in plain.DTYPES:
            numbers = random.Random(2)
            for _ in range(150):
                rings = random_rings(numbers, dtype)
                points, offsets = plain.flat(rings, dtype)
                for many, one in PAIRS:
                    left = many(points, offsets)
                    self.assertEqual(
                        plain.parted(*left),
                        [plain.tuples(one(plain.array(ring, dtype))) or []
                         for ring in rings])
                    self.assertEqual(left.points.dtype, dtype)
                    self.assertEqual(left.offsets.dtype, np.int64)
                    self.assertEqual(left.offsets[0], 0)

    def test_canonical_rings_beside_plain_loops(self):
        for dtype in plain.DTYPES:
            numbers = random.Random(3)
            rings = [plain.random_ring(numbers, dtype) for _ in range(1000)]
            for oriented, form in ((True, plain.canonical),
                                   (False, plain.canonical_unoriented)):
                right = [form(ring, numbers) or [] for ring in rings]
                for threads in (1, 3):
                    left = i_shape.canonical_rings(
                        *plain.flat(rings, dtype), threads=threads,
                        oriented=oriented)
                    self.assertEqual(plain.parted(*left), right)

    def test_simplify_rings_beside_plain_loops(self):
        for dtype in plain.DTYPES:
            numbers = random.Random(4)
            rings = [plain.random_ring(numbers, dtype) for _ in range(1000)]
            left = plain.parted(
                *i_shape.simplify_rings(*plain.flat(rings, dtype)))
            for ring, answer in zip(rings, left):
                end = plain.removed(ring, plain.is_zero_turn, numbers)
                self.assertIn(answer, plain.rotations(end) if end else [[]])

    def test_threads_give_the_arrays_of_one(self):
        for dtype in plain.DTYPES:
            numbers = random.Random(5)
            for rings in (
                    [plain.random_ring(numbers, dtype) for _ in range(1001)],
                    [plain.random_ring(numbers, dtype, 3000)]
                    + [plain.random_ring(numbers, dtype) for _ in range(50)],
                    [[]] * 50 + [plain.random_ring(numbers, dtype, 500)],
                    random_rings(numbers, dtype)):
                points, offsets = plain.flat(rings, dtype)
                for many in CALLS:
                    one = many(points, offsets)
                    for threads in range(1, 9):
                        for number in (threads, np.int8(threads)):
                            self.assert_same(
                                many(points, offsets, threads=number), one)

    def test_the_threads_share_the_work(self):
        numbers = random.Random(10)
        for _ in range(100):
            counts = [numbers.choice([0, 0, 3, 10, 500]) for _ in range(300)]
            offsets = np.concatenate([[7], 7 + np.cumsum(counts)])
            for parts in range(2, 9):
                cuts = _rings.equal_cuts(offsets, parts)
                self.assertEqual((cuts[0], cuts[-1], len(cuts)),
                                 (0, 300, parts + 1))
                work = np.diff(offsets[cuts]) + np.diff(cuts)
                self.assertGreaterEqual(np.diff(cuts).min(), 0)
                self.assertLess(work.max(), work.sum() / parts + 502)

    def test_no_more_threads_than_processors_and_rings(self):
        self.assertEqual(_library.as_parts(10**6, 20000), 8)
        self.assertEqual(_library.as_parts(10**6, 3), 3)
        self.assertEqual(_library.as_parts(2, 20000), 2)
        self.assertEqual(_library.as_parts(10**6, 0), 1)

    def test_offsets_that_start_later_and_end_sooner(self):
        for dtype in plain.DTYPES:
            numbers = random.Random(6)
            for _ in range(50):
                rings = [plain.random_ring(numbers, dtype) for _ in range(20)]
                points, offsets = plain.flat(rings, dtype)
                first = numbers.randrange(20)
                last = numbers.randrange(first, 20)
                part = offsets[first:last + 1]
                # What lies outside isn't read.
                unsafe = points.copy()
                unsafe[:part[0]] = unsafe[part[-1]:] = np.iinfo(dtype).min
                right = i_shape.simplify_rings(
                    *plain.flat(rings[first:last], dtype))
                for threads in (1, 2, 5):
                    for given in (points, unsafe):
                        self.assert_same(i_shape.simplify_rings(
                            given, part, threads=threads), right)

    def test_offsets_of_other_dtypes_and_layouts(self):
        points, offsets = plain.flat(
            [[(0, 0), (2, 0), (4, 0), (4, 4)], [], [(1, 1)]], np.int32)
        right = i_shape.simplify_rings(points, offsets)
        wide = np.zeros((4, 3), np.int64)
        wide[:, 1] = offsets
        shifted = np.zeros(33, np.uint8)[1:].view(np.int64)
        shifted[...] = offsets
        frozen = offsets.copy()
        frozen.flags.writeable = False
        others = [offsets.astype(name) for name in (
            "i1", "i2", "i4", "u1", "u2", "u4", "u8", ">i4", ">i8", ">u8")]
        for other in (*others, wide[:, 1], shifted, frozen, list(offsets),
                      offsets[::-1].copy()[::-1]):
            for threads in (1, 2):
                self.assert_same(
                    i_shape.simplify_rings(points, other, threads=threads),
                    right)

    def test_a_million_empty_rings(self):
        for dtype in plain.DTYPES:
            offsets = np.zeros(10 ** 6 + 1, np.int64)
            for threads in (1, 4):
                left = i_shape.simplify_rings(plain.array([], dtype), offsets,
                                              threads=threads)
                self.assertEqual(left.points.shape, (0, 2))
                np.testing.assert_array_equal(left.offsets, offsets)

    def test_no_rings(self):
        for dtype in plain.DTYPES:
            for points in (plain.array([], dtype), np.ones((3, 2), dtype)):
                for offsets in ([0], [len(points)]):
                    for threads in (1, 8):
                        for many in CALLS:
                            left = many(points, offsets, threads=threads)
                            self.assertEqual(left.points.shape, (0, 2))
                            self.assertEqual(left.points.dtype, dtype)
                            self.assertEqual(left.offsets.tolist(), [0])

    def test_rings_of_one_point(self):
        for dtype in plain.DTYPES:
            points = np.ones((10 ** 5, 2), dtype)
            offsets = np.arange(10 ** 5 + 1)
            for threads in (1, 3):
                for many in CALLS:
                    left = many(points, offsets, threads=threads)
                    self.assertEqual(left.points.shape, (0, 2))
                    self.assertFalse(left.offsets.any())

    def test_calls_side_by_side(self):
        numbers = random.Random(7)
        given = plain.flat([plain.random_ring(numbers, np.int32)
                            for _ in range(2000)], np.int32)
        right = [many(*given) for many in CALLS]
        faults = []

        def run():
            try:
                for _ in range(20):
                    for many, answer in zip(CALLS, right):
                        self.assert_same(many(*given, threads=2), answer)
            except BaseException as fault:
                faults.append(fault)

        threads = [threading.Thread(target=run) for _ in range(4)]
        for thread in threads:
            thread.start()
        for thread in threads:
            thread.join()
        self.assertEqual(faults, [])

    def test_the_lock_is_off_during_a_call(self):
        self.assertNotIsInstance(_library._library, ctypes.PyDLL)
        for calls in _library.CALLS.values():
            for call in (*calls.one.values(), *calls.many.values(),
                         *calls.test.values(), calls.contains,
                         calls.area_two):
                self.assertEqual(call._flags_, 1)  # FUNCFLAG_CDECL alone


class Errors(unittest.TestCase):

    def fails(self, kind, *given, **named):
        with self.assertRaises(kind) as told:
            i_shape.simplify_rings(*given, **named)
        self.assertIs(type(told.exception), kind)
        return told.exception

    def test_a_thread_that_cannot_start_is_want_of_memory(self):
        def fail(*_):
            raise RuntimeError("can't start new thread")

        points, offsets = plain.flat([[(0, 0), (4, 0), (4, 4)]] * 9, np.int32)
        with mock.patch.object(_library.ThreadPoolExecutor, "map", fail):
            self.fails(MemoryError, points, offsets, threads=2)

    def test_the_first_ring_with_an_unsafe_point(self):
        for dtype in plain.DTYPES:
            numbers = random.Random(8)
            for _ in range(60):
                rings = [plain.random_ring(numbers, dtype) for _ in range(30)]
                points, offsets = plain.flat(rings, dtype)
                first = numbers.randrange(5)
                offsets = offsets[first:]
                bad = sorted(numbers.randrange(offsets[0], offsets[-1])
                             for _ in range(numbers.randint(1, 3)))
                limit = plain.bound(dtype)
                for place in bad:
                    points[place, numbers.randrange(2)] = numbers.choice(
                        [limit, -limit, np.iinfo(dtype).min])
                ring = next(k for k in range(len(offsets) - 1)
                            if offsets[k] <= bad[0] < offsets[k + 1])
                for threads in (1, 2, 3, 8):
                    for many in CALLS:
                        with self.assertRaises(
                                i_shape.UnsafePointError) as told:
                            many(points, offsets, threads=threads)
                        self.assertEqual(told.exception.ring, ring)
                        self.assertEqual(told.exception.point, bad[0])
                        self.assertIn(f"ring {ring}: point {bad[0]} ",
                                      str(told.exception))

    def test_offsets_that_part_nothing(self):
        points = np.zeros((8, 2), np.int32)
        for offsets, words in (
                ([0, 9], "offsets[1] is 9, above the number of points, 8"),
                ([9], "above the number of points"),
                ([9, 9], "above the number of points"),
                ([4, 3], "offsets[1] is 3, below 4"),
                ([0, 4, 3, 8], "offsets[2] is 3, below 4"),
                ([0, 9, 8], "offsets[1] is 9, above the number of points, 8"),
                ([2, 1, 8], "offsets[1] is 1, below 2"),
                ([-1, 8], "offsets[0] is -1, below 0"),
                ([-1], "offsets[0] is -1, below 0"),
                ([0, -1, 8], "offsets[1] is -1, below 0"),
                ([3, -2 ** 63, 8], "below 0"),
                ([3, 2 ** 63 - 1, 8], "above the number of points"),
                ([0, 8, -1], "offsets[2] is -1, below 0"),
                (np.array([0, 2 ** 64 - 1], "u8"),
                 "offsets[1] is 18446744073709551615: no array has"),
                (np.array([2 ** 63, 8], "u8"),
                 "offsets[0] is 9223372036854775808: no array has"),
                (np.array([], int), "are empty"), ([], "are empty")):
            ends = [0, *map(int, offsets)]
            place = next((k for k, end in enumerate(ends[1:])
                          if not ends[k] <= end <= 8), None)
            for threads in (1, 2, 8):
                with self.subTest(offsets=offsets, threads=threads):
                    fault = self.fails(i_shape.OffsetsError, points, offsets,
                                       threads=threads)
                    self.assertIn(words, str(fault))
                    self.assertEqual(fault.offset, place)

    def test_random_offsets_are_right_or_errors(self):
        numbers = random.Random(9)
        points = np.zeros((6, 2), np.int16)
        errors = 0
        for _ in range(3000):
            offsets = [numbers.randint(-1, 7)
                       for _ in range(numbers.randint(1, 4))]
            if numbers.random() < 0.5:
                offsets.sort()
            is_right = (offsets == sorted(offsets) and offsets[0] >= 0
                        and offsets[-1] <= 6)
            threads = numbers.randint(1, 4)
            if is_right:
                left = i_shape.simplify_rings(points, offsets,
                                              threads=threads)
                self.assertEqual(left.offsets.tolist(), [0] * len(offsets))
            else:
                self.fails(i_shape.OffsetsError, points, offsets,
                           threads=threads)
                errors += 1
        self.assertTrue(500 < errors < 2900)

    def test_offsets_are_tested_first(self):
        points = np.full((8, 2), np.iinfo(np.int32).min, np.int32)
        for threads in (1, 2):
            self.fails(i_shape.OffsetsError, points, [0, 4, 3],
                       threads=threads)
            self.fails(i_shape.UnsafePointError, points, [0, 4, 4],
                       threads=threads)

    def test_other_offsets(self):
        points = np.zeros((8, 2), np.int32)
        for offsets in ([0.0, 8.0], [False, True], ["0", "8"], None,
                        np.array([]), np.array([0, 8], object),
                        np.ma.masked_array([0, 8, 8], [0, 0, 1])):
            self.fails(TypeError, points, offsets)
        for offsets in (8, [[0, 8]], [[]], np.zeros((0, 2), int)):
            self.fails(ValueError, points, offsets)

    def test_other_numbers_of_threads(self):
        points, offsets = np.zeros((8, 2), np.int32), [0, 8]
        for threads in (0, -1):
            self.fails(ValueError, points, offsets, threads=threads)
        for threads in (1.5, "2", None):
            self.fails(TypeError, points, offsets, threads=threads)

    def test_each_code_has_its_error(self):
        points, offsets = np.zeros((8, 2), np.int32), np.array([0, 4, 8])
        points[3:5] = np.iinfo(np.int32).max
        for codes, kind in (([-3], MemoryError),
                            ([-1], i_shape.UnsafePointError),
                            ([0, -3], MemoryError),
                            ([-3, 0], MemoryError),
                            ([-3, -1], i_shape.UnsafePointError),
                            ([-1, -3], i_shape.UnsafePointError)):
            answers = iter(codes)
            many = {"simplify": lambda *_: next(answers)}
            with mock.patch.dict(_library.CALLS[4].many, many):
                self.fails(kind, points, offsets, threads=len(codes))


if __name__ == "__main__":
    unittest.main()

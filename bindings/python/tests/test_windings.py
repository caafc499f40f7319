"""Winding numbers and fill rules, beside plain loops."""

import random
import unittest
from functools import partial

import numpy as np

import i_shape
import plain

ROUNDS = 500
RULES = {"evenodd": lambda turns: turns % 2 == 1,
         "nonzero": lambda turns: turns != 0,
         "positive": lambda turns: turns > 0,
         "negative": lambda turns: turns < 0}


def grid(dtype):
    """The points of a small square, and a few far away."""
    limit = plain.bound(dtype) - 1
    near = [(x, y) for x in range(-2, 6) for y in range(-2, 6)]
    return near + [(limit, limit), (-limit, limit), (limit, -limit)]


def between(a, p, b):
    """Whether p lies on the segment from a to b, or is an end of it."""
    cross = (p[0] - a[0]) * (b[1] - p[1]) - (p[1] - a[1]) * (b[0] - p[0])
    return cross == 0 and all(min(a[k], b[k]) <= p[k] <= max(a[k], b[k])
                              for k in range(2))


def rings_of_each_dtype():
    for dtype in plain.DTYPES:
        numbers = random.Random(np.dtype(dtype).itemsize)
        for _ in range(ROUNDS):
            ring = plain.random_ring(numbers, dtype)
            yield dtype, ring, plain.array(ring, dtype)


class Windings(unittest.TestCase):

    def test_numbers_beside_a_plain_loop(self):
        kinds = set()
        for dtype, ring, points in rings_of_each_dtype():
            about = grid(dtype)
            wanted = [plain.winding(ring, point) for point in about]
            answer = i_shape.winding_numbers(points, plain.array(about, dtype))
            self.assertEqual(answer.tolist(), wanted, ring)
            self.assertEqual(i_shape.winding_number(points, about[20]),
                             wanted[20], ring)
            kinds |= set(wanted)
        self.assertLessEqual({-1, 0, 1}, kinds)

    def test_cleaning_keeps_them(self):
        for dtype, ring, points in rings_of_each_dtype():
            about = plain.array(grid(dtype), dtype)
            wanted = i_shape.winding_numbers(points, about).tolist()
            for cleaner in (i_shape.simplify, i_shape.despike,
                            partial(i_shape.canonical, oriented=True)):
                left = cleaner(points)
                if left is None:
                    left = points[:0]
                self.assertEqual(i_shape.winding_numbers(left, about).tolist(),
                                 wanted, (ring, cleaner))

    def test_rings_are_added_up(self):
        for dtype in plain.DTYPES:
            numbers = random.Random(7)
            rings = [plain.random_ring(numbers, dtype) for _ in range(40)]
            offsets = np.cumsum([0, *map(len, rings)])
            points = plain.array([p for ring in rings for p in ring], dtype)
            about = grid(dtype)
            wanted = [sum(plain.winding(ring, point) for ring in rings[3:30])
                      for point in about]
            given = i_shape.Rings(points, offsets[3:31])
            for threads in (1, 2, 7):
                for its in (given, tuple(given)):
                    answer = i_shape.winding_numbers(
                        its, plain.array(about, dtype), threads=threads)
                    self.assertEqual(answer.tolist(), wanted)

    def test_a_contour_may_be_a_tuple_of_points(self):
        about = np.array([(1, 1), (3, 0)])
        for ring in (((0, 0), (4, 0), (0, 4)), ((0, 0), (4, 0)), ()):
            self.assertEqual(
                i_shape.winding_numbers(ring, about).tolist(),
                [plain.winding(list(ring), (1, 1)),
                 plain.winding(list(ring), (3, 0))])

    def test_the_rules(self):
        for dtype, ring, points in rings_of_each_dtype():
            about = plain.array(grid(dtype), dtype)
            turns = i_shape.winding_numbers(points, about)
            for rule, fills in RULES.items():
                filled = i_shape.contains_points(points, about, rule=rule)
                self.assertEqual(filled.tolist(), fills(turns).tolist(), ring)
                inside = [i_shape.contains(points, point, rule=rule)
                          for point in about]
                self.assertEqual(filled.tolist(), inside, ring)

    def test_where_points_lie(self):
        for dtype, ring, points in rings_of_each_dtype():
            about = plain.array(grid(dtype), dtype)
            on = [any(between(a, tuple(map(int, p)), b)
                      for a, b in zip(ring, ring[1:] + ring[:1]))
                  for p in about]
            for rule in RULES:
                filled = i_shape.contains_points(points, about, rule=rule)
                wanted = [0 if o else 1 if f else -1
                          for o, f in zip(on, filled)]
                located = i_shape.locate(points, about, rule=rule, threads=2)
                self.assertEqual(located.dtype, np.int8)
                self.assertEqual(located.tolist(), wanted, ring)

    def test_nothing_to_ask_or_to_wind(self):
        square = np.array([(0, 0), (4, 0), (4, 4), (0, 4)], np.int16)
        self.assertEqual(i_shape.winding_numbers(square, square[:0]).shape,
                         (0,))
        self.assertEqual(i_shape.winding_numbers(square[:0], square).tolist(),
                         [0] * 4)
        none = i_shape.Rings(square, np.array([4]))
        self.assertEqual(i_shape.winding_numbers(none, square).tolist(),
                         [0] * 4)
        for rings in (([], [0]), ([], [0, 0])):
            self.assertEqual(
                i_shape.winding_numbers(rings, [(1, 1)]).tolist(), [0])

    def test_errors(self):
        square = np.array([(0, 0), (4, 0), (4, 4), (0, 4)], np.int16)
        far = np.array([(0, 0), (2**14, 0)], np.int16)
        error = i_shape.UnsafePointError
        with self.assertRaisesRegex(error, r"about\[1\]") as raised:
            i_shape.winding_numbers(square, far, threads=2)
        self.assertIsNone(raised.exception.point)
        with self.assertRaisesRegex(error, "point 1") as raised:
            i_shape.winding_numbers(far, square)
        self.assertEqual((raised.exception.ring, raised.exception.point),
                         (0, 1))
        with self.assertRaisesRegex(error, "point 1"):
            i_shape.winding_number(far, (0, 0))
        with self.assertRaises(error):
            i_shape.winding_number(square, (2**14, 0))
        with self.assertRaises(i_shape.OffsetsError):
            i_shape.winding_numbers(i_shape.Rings(square, np.array([0, 5])),
                                    square)
        with self.assertRaisesRegex(TypeError, "not that of the contours"):
            i_shape.winding_numbers(square, square.astype(np.int32))
        with self.assertRaisesRegex(ValueError, "evenodd"):
            i_shape.contains_points(square, square, rule="odd")
        with self.assertRaisesRegex(ValueError, "threads"):
            i_shape.winding_numbers(square, square, threads=0)

"""Calls on one contour, beside plain loops."""

import functools
import pickle
import random
import unittest

import numpy as np

import i_shape
import plain

ROUNDS = 2000
canonical_oriented = functools.partial(i_shape.canonical, oriented=True)
CLEANERS = (i_shape.simplify, i_shape.despike, i_shape.canonical,
            canonical_oriented)
TESTS = (i_shape.is_simple, i_shape.has_no_spikes, i_shape.is_convex,
         i_shape.is_simple_polygon, i_shape.first_contact)

# A contour, and its form where it may be read backwards too.
READ_EITHER_WAY = (
    ("a square", [(4, 4), (0, 4), (0, 0), (4, 0)],
     [(0, 0), (0, 4), (4, 4), (4, 0)]),
    ("a straight vertex", [(0, 0), (2, 0), (4, 0), (4, 4), (0, 4)],
     [(0, 0), (0, 4), (4, 4), (4, 0)]),
    ("a spike", [(0, 0), (4, 0), (4, 4), (4, 8), (4, 4), (0, 4)],
     [(0, 0), (0, 4), (4, 4), (4, 0)]),
    ("a repeated corner", [(-4, 0), (0, -4), (4, 0), (4, 0), (0, 4)],
     [(-4, 0), (0, -4), (4, 0), (0, 4)]),
    ("a bend to both sides, wound to the right",
     [(4, 4), (4, 0), (2, 0), (2, 2), (0, 2), (0, 4)],
     [(0, 2), (0, 4), (4, 4), (4, 0), (2, 0), (2, 2)]),
    ("three points on a line", [(0, 0), (0, 8), (0, 1)], None),
    ("two points", [(0, 0), (4, 4)], None),
    ("no point", [], None),
)


def rings_of_each_dtype(rounds=ROUNDS):
    for dtype in plain.DTYPES:
        numbers = random.Random(np.dtype(dtype).itemsize)
        for _ in range(rounds):
            ring = plain.random_ring(numbers, dtype)
            yield numbers, dtype, ring, plain.array(ring, dtype)


class Contours(unittest.TestCase):

    def test_simplify_answers_the_one_end(self):
        collapsed = 0
        for numbers, dtype, ring, points in rings_of_each_dtype():
            answer = i_shape.simplify(points)
            end = plain.removed(ring, plain.is_zero_turn, numbers)
            left = plain.tuples(answer)
            if end is None:
                self.assertIsNone(left, ring)
                collapsed += 1
            else:
                self.assertIn(left, plain.rotations(end), ring)
                self.assertTrue(plain.is_in_order(left, ring), ring)
                self.assertEqual(answer.dtype, dtype)
        self.assertGreater(collapsed, ROUNDS // 10)
        self.assertLess(collapsed, ROUNDS * 2)

    def test_despike_leaves_no_back_point_and_the_same_end(self):
        for numbers, dtype, ring, points in rings_of_each_dtype():
            left = plain.tuples(i_shape.despike(points))
            end = plain.removed(ring, plain.is_zero_turn, numbers)
            if end is None:
                self.assertIsNone(left, ring)
            else:
                self.assertFalse(any(plain.is_back(*turn)
                                     for turn in plain.turns(left)), ring)
                self.assertTrue(plain.is_in_order(left, ring), ring)
                self.assertIn(plain.removed(left, plain.is_zero_turn, numbers),
                              plain.rotations(end), ring)

    def test_canonical_answers_the_least_rotation(self):
        for numbers, dtype, ring, points in rings_of_each_dtype():
            left = plain.tuples(canonical_oriented(points))
            self.assertEqual(left, plain.canonical(ring, numbers), ring)

    def test_canonical_read_either_way(self):
        for name, ring, form in READ_EITHER_WAY:
            for dtype in plain.DTYPES:
                for given in (ring, ring[::-1]):
                    with self.subTest(name, dtype=dtype, given=given):
                        left = i_shape.canonical(plain.array(given, dtype))
                        self.assertEqual(plain.tuples(left), form)

    def test_canonical_unoriented_answers_the_lesser_of_both_ways(self):
        for numbers, dtype, ring, points in rings_of_each_dtype():
            form = plain.tuples(i_shape.canonical(points))
            self.assertEqual(form, plain.canonical_unoriented(ring, numbers),
                             ring)
            turned = np.roll(points[::-1], numbers.randrange(13), axis=0)
            self.assertEqual(plain.tuples(i_shape.canonical(turned)), form)

    def test_canonical_of_a_long_contour(self):
        side = 8000
        up, down = np.arange(side), np.arange(side, 0, -1)
        low, high = np.zeros(side, int), np.full(side, side)
        for dtype in plain.DTYPES:
            walk = np.stack([np.concatenate([up, high, down, low]),
                             np.concatenate([low, up, high, down])],
                            axis=1).astype(dtype)
            for given in (walk, walk[::-1]):
                self.assertEqual(
                    i_shape.canonical(given).tolist(),
                    [[0, 0], [0, side], [side, side], [side, 0]])

    def test_canonical_forgets_the_start(self):
        for numbers, dtype, ring, points in rings_of_each_dtype(100):
            form = plain.tuples(i_shape.canonical(points))
            turned = np.roll(points, numbers.randrange(13), axis=0)
            self.assertEqual(plain.tuples(i_shape.canonical(turned)), form)

    def test_area_two(self):
        for numbers, dtype, ring, points in rings_of_each_dtype():
            area = i_shape.area_two(points)
            if ring:
                self.assertIs(type(area), int)
                self.assertEqual(area, plain.wrapped_area(ring, dtype))
            else:
                self.assertIsNone(area)

    def test_area_two_of_unsafe_points(self):
        for dtype in plain.DTYPES:
            with self.subTest(dtype=dtype):
                low, high = np.iinfo(dtype).min, np.iinfo(dtype).max
                square = [(low, low), (high, low), (high, high), (low, high)]
                for ring in (square, square[:3], square[::-1], square[1::-1]):
                    area = i_shape.area_two(plain.array(ring, dtype))
                    self.assertEqual(area, plain.wrapped_area(ring, dtype))

    def test_tests(self):
        told = {name: set() for name in ("simple", "spikes", "convex",
                                         "polygon")}
        for numbers, dtype, ring, points in rings_of_each_dtype():
            for name, call, loop in (
                    ("simple", i_shape.is_simple, plain.is_simple),
                    ("spikes", i_shape.has_no_spikes, plain.has_no_spikes),
                    ("convex", i_shape.is_convex, plain.is_convex),
                    ("polygon", i_shape.is_simple_polygon,
                     plain.is_simple_polygon)):
                answer = call(points)
                self.assertIs(answer, loop(ring), (name, ring))
                told[name].add(answer)
        self.assertEqual(set(map(len, told.values())), {2})

    def test_contains(self):
        told = []
        for numbers, dtype, ring, points in rings_of_each_dtype():
            for _ in range(3):
                if ring:
                    x, y = numbers.choice(ring)[0], numbers.choice(ring)[1]
                else:
                    x, y = 0, 0
                limit = plain.bound(dtype) - 1
                x = max(-limit, min(limit, x + numbers.randint(-1, 1)))
                answer = i_shape.contains(points, (x, y))
                self.assertIs(answer, plain.contains(ring, (x, y)),
                              (ring, x, y))
                told.append(answer)
        self.assertGreater(sum(told), 100)

    def test_is_safe(self):
        for dtype in plain.DTYPES:
            with self.subTest(dtype=dtype):
                limit = plain.bound(dtype)
                extremes = np.iinfo(dtype).min, np.iinfo(dtype).max
                for number in (limit - 1, 1 - limit):
                    points = plain.array([(0, number), (number, 0)], dtype)
                    self.assertIs(i_shape.is_safe(points), True)
                for number in (limit, -limit, *extremes):
                    for point in ((0, number), (number, 0)):
                        points = plain.array([(0, 0), point], dtype)
                        self.assertIs(i_shape.is_safe(points), False)

    def test_no_points(self):
        for dtype in plain.DTYPES:
            with self.subTest(dtype=dtype):
                nothing = plain.array([], dtype)
                for cleaner in CLEANERS:
                    self.assertIsNone(cleaner(nothing))
                self.assertIs(i_shape.is_simple(nothing), False)
                self.assertIs(i_shape.has_no_spikes(nothing), False)
                self.assertIs(i_shape.is_convex(nothing), True)
                self.assertIs(i_shape.is_safe(nothing), True)
                self.assertIs(i_shape.contains(nothing, (0, 0)), False)
                self.assertIsNone(i_shape.area_two(nothing))

    def test_one_and_two_points(self):
        for ring in ([(1, 2)], [(1, 2), (3, 4)]):
            points = plain.array(ring, np.int32)
            for cleaner in CLEANERS:
                self.assertIsNone(cleaner(points))
            self.assertEqual(i_shape.area_two(points), 0)


class Errors(unittest.TestCase):

    def test_an_unsafe_point_is_told(self):
        for dtype in plain.DTYPES:
            limit = plain.bound(dtype)
            for number in (limit, -limit, np.iinfo(dtype).min):
                for column in (0, 1):
                    with self.subTest(dtype=dtype, number=number):
                        points = np.zeros((9, 2), dtype)
                        points[5, column] = points[7, column] = number
                        for call in (*CLEANERS, *TESTS):
                            with self.assertRaises(
                                    i_shape.UnsafePointError) as told:
                                call(points)
                            self.assertEqual(told.exception.point, 5)
                            self.assertIsNone(told.exception.ring)
                            self.assertIn("point 5 ", str(told.exception))
                        with self.assertRaises(
                                i_shape.UnsafePointError) as told:
                            i_shape.contains(points, (0, 0))
                        self.assertEqual(told.exception.point, 5)

    def test_an_unsafe_point_that_is_asked_about(self):
        for dtype in plain.DTYPES:
            square = plain.array([(0, 0), (4, 0), (4, 4), (0, 4)], dtype)
            limit = plain.bound(dtype)
            # Some of these would be (1, 1) in the bits of the dtype.
            for number in (limit, -limit, 4 * limit + 1, 1 - 4 * limit,
                           2 ** 64 + 1, -2 ** 70):
                for point in ((number, 1), (1, number)):
                    with self.subTest(dtype=dtype, point=point):
                        with self.assertRaises(
                                i_shape.UnsafePointError) as told:
                            i_shape.contains(square, point)
                        text = str(told.exception)
                        self.assertIn(f"({point[0]}, {point[1]})", text)
                        self.assertIn(f"2**{limit.bit_length() - 1},", text)
                        self.assertEqual("int64 has room" in text,
                                         dtype == np.int32
                                         and abs(number) < 2**62)
                        self.assertEqual("int32 has room" in text,
                                         dtype == np.int16
                                         and abs(number) < 2**30)
                        self.assertIsNone(told.exception.point)
                        self.assertIsNone(told.exception.ring)

    def test_a_point_of_other_things(self):
        square = plain.array([(0, 0), (4, 0), (4, 4), (0, 4)], np.int32)
        self.assertTrue(i_shape.contains(square, np.array([1, 1], "uint8")))
        for point in ((1.0, 1), (1, "1"), (None, 1), 1):
            with self.assertRaises(TypeError):
                i_shape.contains(square, point)
        for point in ((1,), (1, 1, 1)):
            with self.assertRaises(ValueError):
                i_shape.contains(square, point)

    def test_errors_are_value_errors_and_can_be_pickled(self):
        self.assertTrue(issubclass(i_shape.UnsafePointError, ValueError))
        self.assertTrue(issubclass(i_shape.OffsetsError, ValueError))
        error = i_shape.UnsafePointError("words", ring=3, point=8)
        again = pickle.loads(pickle.dumps(error))
        self.assertEqual((str(again), again.ring, again.point),
                         ("words", 3, 8))


if __name__ == "__main__":
    unittest.main()

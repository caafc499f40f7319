"""Which polygon holds a point, beside loops over polygons and edges."""

import random
import unittest

import numpy as np

import i_shape
import plain
from test_polygons import flat, random_polygons
from test_windings import RULES, grid

ROUNDS = 60
SQUARE = [(0, 0), (4, 0), (4, 4), (0, 4)]
HOLE = [(1, 1), (1, 2), (2, 2), (2, 1)]
ASIDE = [(x + 4, y) for x, y in SQUARE]


def holder(polygons, point, rule):
    """The first polygon that the rule fills at the point, or -1."""
    for place, polygon in enumerate(polygons):
        turns = sum(plain.winding(ring, point) for ring in polygon)
        if RULES[rule](turns):
            return place
    return -1


class Locating(unittest.TestCase):

    def test_holders_beside_plain_loops(self):
        seen = set()
        for dtype in plain.DTYPES:
            numbers = random.Random(np.dtype(dtype).itemsize)
            about = grid(dtype)
            for _ in range(ROUNDS):
                polygons = random_polygons(numbers, dtype)
                for rule in RULES:
                    wanted = [holder(polygons, point, rule)
                              for point in about]
                    answer = i_shape.locate_in_polygons(
                        *flat(polygons, dtype), plain.array(about, dtype),
                        rule=rule)
                    self.assertEqual(answer.dtype, np.intp)
                    self.assertEqual(answer.tolist(), wanted, polygons)
                    seen |= set(wanted)
        self.assertLessEqual({-1, 0, 1, 2}, seen)

    def test_the_answer_of_threads_is_the_same(self):
        numbers = random.Random(3)
        for _ in range(20):
            given = flat(random_polygons(numbers, np.int32), np.int32)
            about = plain.array(grid(np.int32), np.int32)
            wanted = i_shape.locate_in_polygons(*given, about).tolist()
            for threads in (2, 7):
                answer = i_shape.locate_in_polygons(*given, about,
                                                    threads=threads)
                self.assertEqual(answer.tolist(), wanted)

    def test_of_squares_that_tile_one_holds_each_point(self):
        squares = [[[(x + 4 * a, y + 4 * b) for x, y in SQUARE]]
                   for b in range(3) for a in range(3)]
        about = np.array([(x, y) for x in range(12) for y in range(12)])
        for rule in ("evenodd", "nonzero", "positive"):
            alone = [i_shape.contains_points(np.array(ring), about, rule=rule)
                     for ring, in squares]
            self.assertTrue((np.sum(alone, axis=0) == 1).all())
            answer = i_shape.locate_in_polygons(*flat(squares, np.int64),
                                                about, rule=rule)
            self.assertEqual(answer.tolist(),
                             np.argmax(alone, axis=0).tolist())

    def test_points_on_vertices_and_edges(self):
        polygons = [[SQUARE, HOLE], [ASIDE]]
        about = [*SQUARE, *HOLE, *ASIDE, (2, 0), (4, 2), (2, 4), (0, 2)]
        answer = i_shape.locate_in_polygons(*flat(polygons, np.int16),
                                            np.array(about, np.int16))
        self.assertEqual(answer.tolist(), [
            holder(polygons, point, "evenodd") for point in about])

    def test_nothing_to_hold_or_to_ask(self):
        points, rings, polygons = flat([[SQUARE], [], [[]]], np.int64)
        call = i_shape.locate_in_polygons
        none = call(points, rings, polygons, points[:0])
        self.assertEqual((none.shape, none.dtype), ((0,), np.intp))
        self.assertEqual(call(points, [0], [0], points[:1]).tolist(), [-1])
        self.assertEqual(call([], [0], [0], [(1, 1)]).tolist(), [-1])
        self.assertEqual(call([], [0, 0], [0, 1], [(1, 1)]).tolist(), [-1])
        self.assertEqual(call(points, rings, polygons[1:], [(1, 1)]).tolist(),
                         [-1])

    def test_what_no_polygon_has_is_not_read(self):
        far = (2**14, 0)
        points = np.array([far, far, *SQUARE, *ASIDE, far], np.int16)
        answer = i_shape.locate_in_polygons(
            points, [0, 2, 6, 10, 11], [1, 2, 3],
            np.array([(1, 1), (5, 1)], np.int16))
        self.assertEqual(answer.tolist(), [0, 1])

    def test_errors(self):
        points, rings, polygons = flat([[SQUARE, HOLE], [ASIDE]], np.int16)
        far = np.array([(0, 0), (2**14, 0)], np.int16)
        call = i_shape.locate_in_polygons
        error = i_shape.UnsafePointError
        with self.assertRaisesRegex(error, r"about\[1\]") as raised:
            call(points, rings, polygons, far, threads=2)
        self.assertEqual((raised.exception.ring, raised.exception.point),
                         (None, None))
        spoilt = points.copy()
        spoilt[9] = far[1]
        for parts in (polygons, polygons[1:]):
            with self.assertRaisesRegex(error, "ring 2: point 9") as raised:
                call(spoilt, rings, parts, far[:1])
            self.assertEqual((raised.exception.ring, raised.exception.point),
                             (2, 9))
        for its_rings, its_polygons, name in (
                ([0, 4, 3, 12], [0, 2, 3], r"ring_offsets\[2\] is 3"),
                ([0, 4, 8, 13], [0, 2, 3], r"ring_offsets\[3\] is 13"),
                ([0, 4, 8, 12], [0, 4], r"polygon_offsets\[1\] is 4"),
                ([0, 4, 8, 12], [2, 1], r"polygon_offsets\[1\] is 1"),
                ([], [0], "ring_offsets are empty"),
                ([0], [], "polygon_offsets are empty")):
            with self.assertRaisesRegex(i_shape.OffsetsError, name):
                call(points, its_rings, its_polygons, points)
        with self.assertRaisesRegex(TypeError, "not that of the contours"):
            call(points, rings, polygons, far.astype(np.int32))
        with self.assertRaisesRegex(TypeError, "float64"):
            call(points, rings, polygons, [(0.5, 1)])
        with self.assertRaisesRegex(ValueError, "evenodd"):
            call(points, rings, polygons, points, rule="odd")
        with self.assertRaisesRegex(ValueError, "threads"):
            call(points, rings, polygons, points, threads=0)


if __name__ == "__main__":
    unittest.main()

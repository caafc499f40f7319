"""Polygons beside plain loops over lists of rings."""

import random
import unittest

import numpy as np

import i_shape
import plain


def flat(polygons, dtype):
    """The arrays of polygons, which are lists of rings."""
    points, ring_offsets = plain.flat(
        [ring for polygon in polygons for ring in polygon], dtype)
    ends = np.zeros(len(polygons) + 1, np.int64)
    np.cumsum([len(polygon) for polygon in polygons], out=ends[1:])
    return points, ring_offsets, ends


def parted(points, ring_offsets, polygon_offsets):
    rings = plain.parted(points, ring_offsets)
    return [rings[start:end]
            for start, end in zip(polygon_offsets, polygon_offsets[1:])]


def cleaned(polygons, clean):
    """The rule of polygons: what collapses is left out."""
    left = []
    for polygon in polygons:
        rings = [clean(ring) for ring in polygon]
        if not rings or rings[0]:
            left.append([ring for ring in rings if ring])
    return left


def form(polygons, numbers, oriented=True):
    of_ring = plain.canonical if oriented else plain.canonical_unoriented
    return sorted(polygon[:1] + sorted(polygon[1:]) for polygon in cleaned(
        polygons, lambda ring: of_ring(ring, numbers)))


def random_polygons(numbers, dtype):
    return [[plain.random_ring(numbers, dtype, 8)
             for _ in range(numbers.randrange(5))]
            for _ in range(numbers.randrange(6))]


def rewritten(polygons, numbers, oriented=True):
    """The same polygons, written otherwise, so that their form is the same.

    Rings have another start, a repeated point and, unless ``oriented``, the
    other direction; holes and polygons have another order; and some rings
    that collapse are added.
    """
    def rewritten_ring(ring):
        turn = numbers.randrange(len(ring) + 1)
        ring = ring[turn:] + ring[:turn]
        if ring and numbers.random() < 0.5:
            place = numbers.randrange(len(ring))
            ring = ring[:place] + ring[place:place + 1] + ring[place:]
        if not oriented and numbers.random() < 0.5:
            ring = ring[::-1]
        return ring

    flat_ring = [(0, 0), (1, 1), (2, 2)]
    other = []
    for polygon in polygons:
        rings = [rewritten_ring(ring) for ring in polygon]
        holes = rings[1:]
        if rings and numbers.random() < 0.3:
            holes.append(flat_ring)
        numbers.shuffle(holes)
        other.append(rings[:1] + holes)
    if numbers.random() < 0.3:
        other.append([flat_ring, [(0, 0), (4, 0), (0, 4)]])
    numbers.shuffle(other)
    return other


class Polygons(unittest.TestCase):

    def test_simplify_polygons_follows_the_rule(self):
        for dtype in plain.DTYPES:
            numbers = random.Random(1)
            for _ in range(300):
                polygons = random_polygons(numbers, dtype)
                right = cleaned(polygons, lambda ring: plain.tuples(
                    i_shape.simplify(plain.array(ring, dtype))))
                given = flat(polygons, dtype)
                for threads in (1, 3):
                    left = i_shape.simplify_polygons(*given, threads=threads)
                    self.assertEqual(parted(*left), right)
                    self.assertEqual(
                        [part.dtype for part in left],
                        [np.dtype(dtype), np.int64, np.int64])
                    self.assertEqual(left.ring_offsets[0], 0)
                    self.assertEqual(left.polygon_offsets[0], 0)

    def test_canonical_polygons_beside_plain_loops(self):
        for dtype in plain.DTYPES:
            numbers = random.Random(2)
            for _ in range(200):
                polygons = random_polygons(numbers, dtype)
                for oriented in (True, False):
                    right = form(polygons, numbers, oriented)
                    left = i_shape.canonical_polygons(
                        *flat(polygons, dtype), oriented=oriented,
                        threads=numbers.randint(1, 3))
                    self.assertEqual(parted(*left), right)
                    self.assertEqual(left.points.dtype, dtype)

    def test_a_form_is_its_own_form(self):
        numbers = random.Random(3)
        for oriented in (True, False):
            for _ in range(100):
                given = flat(random_polygons(numbers, np.int32), np.int32)
                once = i_shape.canonical_polygons(*given, oriented=oriented)
                twice = i_shape.canonical_polygons(*once, oriented=oriented)
                for one, other in zip(once, twice):
                    np.testing.assert_array_equal(one, other)

    def test_forms_are_in_order_as_lists_of_points_are(self):
        limit = plain.bound(np.int16) - 1
        triangles = [[(x, y), (x + 9, y), (x, y + 9)] for x in
                     (-limit, -256, -255, -1, 0, 1, 255, 256)
                     for y in (-limit, -256, -1, 0, 1, 256)]
        squares = [triangle[:2] + [(triangle[0][0] + 9, triangle[0][1] + 9)]
                   + triangle[2:] for triangle in triangles]
        holes = sorted(triangles + squares)
        numbers = random.Random(4)
        for dtype in plain.DTYPES:
            numbers.shuffle(holes)
            left = i_shape.canonical_polygons(
                *flat([[holes[0], *holes]], dtype), oriented=True)
            self.assertEqual(parted(*left)[0][1:], sorted(holes))
            left = i_shape.canonical_polygons(
                *flat([[hole] for hole in holes], dtype), oriented=True)
            self.assertEqual(parted(*left), [[hole] for hole in sorted(holes)])

    def test_the_same_polygons_after_moves(self):
        for dtype in plain.DTYPES:
            numbers = random.Random(5)
            for _ in range(150):
                polygons = random_polygons(numbers, dtype)
                for oriented in (True, False):
                    other = rewritten(polygons, numbers, oriented)
                    self.assertIs(i_shape.same_polygons(
                        flat(polygons, dtype), flat(other, dtype),
                        oriented=oriented), True)

    def test_polygons_are_the_same_exactly_where_forms_are(self):
        numbers = random.Random(6)
        told = []
        rings = [[(0, 0), (1, 0), (0, 1)], [(1, 0), (0, 1), (0, 0)],
                 [(0, 0), (0, 1), (1, 0)], [(0, 0), (1, 1), (2, 2)],
                 [(0, 0), (2, 0), (0, 1)], [(0, 0), (1, 0), (2, 0), (0, 1)]]
        for _ in range(3000):
            pair = [[[numbers.choice(rings)
                      for _ in range(numbers.randrange(4))]
                     for _ in range(numbers.randrange(1, 3))]
                    for _ in range(2)]
            oriented = numbers.random() < 0.5
            one, other = (form(p, numbers, oriented) for p in pair)
            answer = i_shape.same_polygons(
                flat(pair[0], np.int16), flat(pair[1], np.int64),
                oriented=oriented)
            self.assertIs(answer, one == other)
            told.append(answer)
        self.assertTrue(100 < sum(told) < 2900)

    def test_an_outer_ring_is_not_a_hole(self):
        big, small = [(0, 0), (9, 0), (0, 9)], [(1, 1), (2, 1), (1, 2)]
        self.assertFalse(i_shape.same_polygons(
            flat([[big, small]], np.int32), flat([[small, big]], np.int32)))
        self.assertFalse(i_shape.same_polygons(
            flat([[big, small]], np.int32), flat([[big], [small]], np.int32)))

    def test_a_part_of_the_polygons(self):
        numbers = random.Random(7)
        for _ in range(100):
            polygons = random_polygons(numbers, np.int32)
            points, ring_offsets, ends = flat(polygons, np.int32)
            first = numbers.randrange(len(polygons) + 1)
            last = numbers.randint(first, len(polygons))
            part = ends[first:last + 1]
            left = i_shape.simplify_polygons(points, ring_offsets, part)
            right = i_shape.simplify_polygons(
                *flat(polygons[first:last], np.int32))
            for one, other in zip(left, right):
                np.testing.assert_array_equal(one, other)

    def test_no_polygons_and_polygons_without_rings(self):
        for dtype in plain.DTYPES:
            for polygons in ([], [[]], [[], []]):
                given = flat(polygons, dtype)
                for call in (i_shape.simplify_polygons,
                             i_shape.canonical_polygons):
                    self.assertEqual(parted(*call(*given)), polygons)
            self.assertFalse(i_shape.same_polygons(flat([], dtype),
                                                   flat([[]], dtype)))


class Errors(unittest.TestCase):

    def test_offsets_that_part_nothing(self):
        points = np.zeros((6, 2), np.int32)
        rings = [0, 3, 6]
        for ring_offsets, polygon_offsets, words in (
                (rings, [0, 3], "polygon_offsets[1] is 3, above the number of"
                                " rings, 2"),
                (rings, [-1, 2], "polygon_offsets[0] is -1, below 0"),
                (rings, [0, 2, 1], "polygon_offsets[2] is 1, below 2"),
                (rings, np.array([], int), "polygon_offsets are empty"),
                (np.array([], int), [0], "ring_offsets are empty"),
                ([0, 3, 7], [0, 2], "ring_offsets[2] is 7, above the number"
                                    " of points, 6"),
                ([0, 1, 4, 3], [1, 3], "ring_offsets[3] is 3, below 4")):
            for call in (i_shape.simplify_polygons,
                         i_shape.canonical_polygons):
                with self.subTest(words=words):
                    with self.assertRaises(i_shape.OffsetsError) as told:
                        call(points, ring_offsets, polygon_offsets)
                    self.assertIn(words, str(told.exception))

    def test_the_ring_of_an_unsafe_point(self):
        points = np.zeros((12, 2), np.int16)
        points[7] = 2 ** 14
        for call in (i_shape.simplify_polygons, i_shape.canonical_polygons):
            for polygon_offsets in ([0, 4], [0, 1, 4], [1, 3], [2, 3]):
                with self.assertRaises(i_shape.UnsafePointError) as told:
                    call(points, [0, 3, 6, 9, 12], polygon_offsets)
                self.assertEqual((told.exception.ring, told.exception.point),
                                 (2, 7))
            call(points, [0, 3, 6, 9, 12], [0, 2])
            call(points, [0, 3, 6, 9, 12], [3, 4])

    def test_other_dtypes(self):
        points = np.zeros((6, 2), np.int32)
        for given in ((points.astype(float), [0, 6], [0, 1]),
                      (points, [0.0, 6.0], [0, 1]),
                      (points, [0, 6], [0.0, 1.0])):
            with self.assertRaises(TypeError):
                i_shape.canonical_polygons(*given)
            with self.assertRaises(TypeError):
                i_shape.same_polygons(given, (points, [0, 6], [0, 1]))


if __name__ == "__main__":
    unittest.main()

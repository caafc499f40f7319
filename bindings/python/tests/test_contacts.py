"""Contacts of rings, beside all pairs of edges by fractions."""

import random
import unittest

import numpy as np

import i_shape
import plain
from i_shape import ContactKind


def some_of_many(numbers, dtype):
    """Rings, as tuples and as arrays, and how many points lie before them.

    What lies outside isn't safe.
    """
    rings = [plain.random_ring(numbers, dtype, 5)
             for _ in range(numbers.randrange(5))]
    points, offsets = plain.flat(rings, dtype)
    low = numbers.randrange(len(offsets))
    high = numbers.randrange(low, len(offsets))
    before = int(offsets[low])
    points[:before] = np.iinfo(dtype).min
    points[offsets[high]:] = np.iinfo(dtype).max
    return rings[low:high], points, offsets[low:high + 1], before


class Answers(unittest.TestCase):

    def test_one_ring(self):
        for dtype in plain.DTYPES:
            numbers, told = random.Random(71), []
            for _ in range(1500):
                ring = plain.random_ring(numbers, dtype)
                answer = i_shape.first_contact(plain.array(ring, dtype))
                self.assertEqual(answer, plain.first_contact([ring]), ring)
                told.append(answer)
            self.assertTrue(100 < told.count(None) < 1400)

    def test_many_rings_and_offsets_that_leave_some_out(self):
        for dtype in plain.DTYPES:
            numbers, told = random.Random(72), []
            for _ in range(800):
                rings, points, offsets, before = some_of_many(numbers, dtype)
                right = plain.first_contact(rings)
                if right:
                    right = tuple(place + before for place in right)
                answer = i_shape.first_contact_of_rings(points, offsets)
                self.assertEqual(answer, right, rings)
                told.append(answer)
            self.assertTrue(100 < told.count(None) < 700)

    def test_all_of_one_ring(self):
        for dtype in plain.DTYPES:
            numbers, kinds = random.Random(73), set()
            for _ in range(200):
                ring = plain.random_ring(numbers, dtype, 9)
                right = [*plain.contacts([ring])]
                points = plain.array(ring, dtype)
                pairs = i_shape.contacts(points)
                self.assertEqual((pairs.dtype, pairs.shape),
                                 (np.intp, (len(right), 2)))
                self.assert_kinds(points, pairs, right)
                kinds.update(kind for _, _, kind in right)
            self.assertEqual(kinds, {*ContactKind} - {ContactKind.NONE})

    def test_all_of_many_rings_and_offsets_that_leave_some_out(self):
        for dtype in plain.DTYPES:
            numbers = random.Random(74)
            for _ in range(200):
                rings, points, offsets, before = some_of_many(numbers, dtype)
                right = [(i + before, j + before, kind)
                         for i, j, kind in plain.contacts(rings)]
                pairs = i_shape.contacts_of_rings(points, offsets)
                self.assertEqual((pairs.dtype, pairs.shape),
                                 (np.intp, (len(right), 2)))
                self.assert_kinds((points, offsets), pairs, right)

    def assert_kinds(self, contours, pairs, right):
        kinds = i_shape.kinds_of_contacts(contours, pairs)
        self.assertEqual((kinds.dtype, kinds.shape),
                         (np.uint8, (len(right),)))
        self.assertEqual(np.column_stack([pairs, kinds]).tolist(),
                         [list(row) for row in right])

    def test_more_contacts_than_points(self):
        # Each edge overlaps each other.
        zigzag = np.tile(np.array([(0, 0), (4, 0)]), (5, 1))
        right = [[i, j] for i in range(10) for j in range(i + 1, 10)]
        self.assertEqual(i_shape.contacts(zigzag).tolist(), right)
        self.assertEqual(
            i_shape.contacts_of_rings(zigzag, [0, 4, 10]).tolist(), right)

    def test_ring_of_one_point_on_an_edge(self):
        rings = (np.array([(0, 0), (4, 0), (4, 4), (2, 0), (0, 0)]),
                 [0, 3, 4, 5])
        pairs = i_shape.contacts_of_rings(*rings)
        self.assert_kinds(rings, pairs, [(0, 3, ContactKind.TOUCH),
                                         (0, 4, ContactKind.TOUCH),
                                         (2, 4, ContactKind.TOUCH)])

    def test_kinds_of_edges_that_are_not_in_contact(self):
        square = np.array([(0, 0), (4, 0), (4, 4), (0, 4)])
        for pairs, kinds in (
                ([(0, 2), (1, 3)], [ContactKind.NONE] * 2),
                # one follows the other
                ([(0, 1), (0, 3), (3, 0)], [ContactKind.TOUCH] * 3),
                ([], [])):
            self.assertEqual(
                i_shape.kinds_of_contacts(square, pairs).tolist(), kinds)

    def test_many_points(self):
        count = 1000
        circle = np.array([(round(10**6 * np.cos(k * 2 * np.pi / count)),
                            round(10**6 * np.sin(k * 2 * np.pi / count)))
                           for k in range(count)], np.int32)
        self.assertIsNone(i_shape.first_contact(circle))
        self.assertIs(i_shape.is_simple_polygon(circle), True)
        turned = np.concatenate([circle, -circle // 2])
        offsets = [0, count, 2 * count]
        self.assertIsNone(i_shape.first_contact_of_rings(turned, offsets))
        turned[1500] = 2 * 10**6, 0
        first, second = i_shape.first_contact_of_rings(turned, offsets)
        self.assertEqual(first // count, 0)
        self.assertIn(second, (1499, 1500))


class Errors(unittest.TestCase):

    def test_errors(self):
        points = np.array([(0, 0), (2**30, 0), (4, 4), (0, 4)], np.int32)
        for call in (i_shape.first_contact, i_shape.contacts):
            with self.assertRaises(i_shape.UnsafePointError) as told:
                call(points)
            self.assertEqual(told.exception.point, 1)
        for call in (i_shape.first_contact_of_rings,
                     i_shape.contacts_of_rings):
            with self.assertRaises(i_shape.UnsafePointError) as told:
                call(points, [1, 1, 4])
            self.assertEqual((told.exception.ring, told.exception.point),
                             (1, 1))
            for offsets in ([], [0, 3, 2], [0, 5]):
                with self.assertRaises(i_shape.OffsetsError):
                    call(points, offsets)

    def test_errors_of_kinds(self):
        points = np.array([(0, 0), (2**30, 0), (4, 4), (0, 4)], np.int32)
        rings = points, [1, 1, 4]
        self.assertEqual(
            i_shape.kinds_of_contacts(points, [(2, 3)]).tolist(),
            [ContactKind.TOUCH])
        with self.assertRaises(i_shape.UnsafePointError) as told:
            i_shape.kinds_of_contacts(rings, [(2, 3)])
        self.assertEqual((told.exception.ring, told.exception.point), (1, 1))
        with self.assertRaises(i_shape.OffsetsError):
            i_shape.kinds_of_contacts((points, [0, 5]), [(2, 3)])
        for place in (0, 4, -1, 2**63 - 1):
            with self.assertRaisesRegex(IndexError, f"index {place}:"):
                i_shape.kinds_of_contacts(rings, [(2, 2), (2, place)])
        for wrong, error in ((np.zeros((1, 2)), TypeError),
                             (np.ma.masked_array([(2, 2)]), TypeError),
                             ([(2, 3, 3)], ValueError), ([2, 3], ValueError)):
            with self.assertRaises(error):
                i_shape.kinds_of_contacts(rings, wrong)


if __name__ == "__main__":
    unittest.main()

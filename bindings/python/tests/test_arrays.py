"""Layouts and dtypes of arrays: read as they are, copied, or errors."""

import ctypes
import random
import tracemalloc
import unittest

import numpy as np

import i_shape
import plain
from i_shape._library import address, as_offsets, as_points

RING = [(0, 0), (2, 0), (4, 0), (4, 4), (4, 9), (4, 4), (0, 4)]
SQUARE = [(0, 0), (4, 0), (4, 4), (0, 4)]
CALLS = (
    i_shape.simplify, i_shape.despike, i_shape.canonical, i_shape.area_two,
    i_shape.is_simple, i_shape.has_no_spikes, i_shape.is_convex,
    i_shape.is_safe, i_shape.is_simple_polygon, i_shape.first_contact,
    lambda points: i_shape.first_contact_of_rings(points, [0, len(points)]),
    lambda points: i_shape.contains(points, (1, 1)),
    lambda points: i_shape.simplify_rings(points, [0, len(points)]),
    lambda points: i_shape.despike_rings(points, [0, len(points)],
                                         threads=2),
    lambda points: i_shape.canonical_rings(points, [0, len(points)]),
    lambda points: i_shape.canonical(points, oriented=True),
    lambda points: i_shape.canonical_rings(points, [0, len(points)],
                                           oriented=True),
    lambda points: i_shape.simplify_polygons(points, [0, len(points)],
                                             [0, 1]),
    lambda points: i_shape.canonical_polygons(points, [0, len(points)],
                                              [0, 1], oriented=True),
    i_shape.contacts,
    lambda points: i_shape.contacts_of_rings(points, [0, len(points)]),
    lambda points: i_shape.kinds_of_contacts(points,
                                             i_shape.contacts(points)),
)


def unaligned(points):
    """The same points, one byte behind where they should lie."""
    room = np.empty(points.nbytes + 1, np.uint8)
    moved = room[1:].view(points.dtype).reshape(points.shape)
    moved[...] = points
    return moved


def layouts(points):
    """The same points as arrays that lie in other ways."""
    wide = np.full((len(points), 5), 9, points.dtype)
    wide[:, 1:3] = points
    yield "columns of a table", wide[:, 1:3]
    wide[:, 0], wide[:, 3] = points[:, 0], points[:, 1]
    yield "each third column", wide[:, 0:4:3]
    wide[:, 4], wide[:, 2] = points[:, 0], points[:, 1]
    yield "columns backwards", wide[:, 4:1:-2]
    yield "columns of their own", np.asfortranarray(points)
    yield "each second row", np.repeat(points, 2, axis=0)[::2]
    yield "rows backwards", points[::-1].copy()[::-1]
    yield "not aligned", unaligned(points)
    yield "a part", np.concatenate([points, points, points])[
        len(points):2 * len(points)]
    fields = np.zeros(len(points), [("at", points.dtype, 2), ("tag", "i1")])
    fields["at"] = points
    yield "a field", fields["at"]
    frozen = points.copy()
    frozen.flags.writeable = False
    yield "read-only", frozen
    yield "bytes", np.frombuffer(points.tobytes(), points.dtype).reshape(-1, 2)

    class Subclass(np.ndarray):
        pass

    yield "a subclass", points.view(Subclass)


def shown(answer):
    """What an answer says, to be compared."""
    if isinstance(answer, tuple):
        return [shown(part) for part in answer]
    if isinstance(answer, np.ndarray):
        return type(answer), answer.dtype, answer.tolist()
    return answer


class Layouts(unittest.TestCase):

    def test_each_layout_gets_the_same_answer(self):
        numbers = random.Random(1)
        for dtype in plain.DTYPES:
            rings = [RING] + [plain.random_ring(numbers, dtype)
                              for _ in range(20)]
            for ring in rings:
                points = plain.array(ring, dtype)
                for call in CALLS[:8] + CALLS[9:]:
                    right = shown(call(points))
                    for name, other in layouts(points):
                        with self.subTest(dtype=dtype, layout=name):
                            before = other.tobytes()
                            self.assertEqual(shown(call(other)), right)
                            self.assertEqual(other.tobytes(), before)

    def test_the_input_is_never_written(self):
        for dtype in plain.DTYPES:
            points = plain.array(RING, dtype)
            before = points.copy()
            offsets = np.array([0, len(RING)])
            frozen = points.copy(), offsets.copy()
            for part in frozen:
                part.flags.writeable = False
            for call in CALLS:
                call(points)
                np.testing.assert_array_equal(points, before)
            for threads in (1, 2):
                for given in ((points, offsets), frozen):
                    left = i_shape.simplify_rings(*given, threads=threads)
                    self.assertEqual(plain.tuples(left.points), SQUARE)
                    np.testing.assert_array_equal(given[0], before)
                    np.testing.assert_array_equal(given[1], [0, len(RING)])

    def test_an_answer_is_an_array_of_its_own(self):
        points = plain.array(SQUARE, np.int32)
        for call in CALLS[:3]:
            left = call(points)
            self.assertFalse(np.shares_memory(left, points))
            self.assertTrue(left.flags.owndata and left.flags.writeable
                            and left.flags.c_contiguous)
            left[...] = 7
        self.assertEqual(plain.tuples(points), SQUARE)

    def test_an_answer_keeps_no_room_that_is_not_used(self):
        points = np.zeros((10 ** 6, 2), np.int64)
        points[-3:] = [(0, 0), (1, 0), (0, 1)]
        tracemalloc.start()
        try:
            left = i_shape.simplify(points)
            rings = i_shape.simplify_rings(points, [0, len(points)])
            kept, _ = tracemalloc.get_traced_memory()
        finally:
            tracemalloc.stop()
        self.assertEqual((len(left), len(rings.points)), (3, 3))
        self.assertLess(kept, 10 ** 5)

    def test_points_that_lie_right_are_not_copied(self):
        for dtype in plain.DTYPES:
            points = plain.array(SQUARE * 25000, dtype)
            offsets = np.arange(0, len(points) + 1, 4)
            for offsets in (offsets, offsets.astype(np.uint64)):
                # the offsets are copied, and others come out
                answers = points.nbytes + 2 * offsets.nbytes
                for call, most in (
                        (i_shape.is_safe, 0),
                        (i_shape.area_two, 0),
                        (i_shape.is_convex, 0),
                        (lambda given: i_shape.contains(given, (1, 1)), 0),
                        (i_shape.simplify, points.nbytes),
                        (i_shape.canonical, points.nbytes),
                        (lambda given: i_shape.simplify_rings(given, offsets),
                         answers)):
                    with self.subTest(dtype=dtype, call=call):
                        tracemalloc.start()
                        try:
                            call(points)
                            _, peak = tracemalloc.get_traced_memory()
                        finally:
                            tracemalloc.stop()
                        self.assertLess(peak, most + 20000)

    def test_what_is_handed_over_is_contiguous_and_aligned(self):
        for dtype in plain.DTYPES:
            points = plain.array(RING, dtype)
            for name, other in layouts(points):
                with self.subTest(dtype=dtype, layout=name):
                    given = as_points(other)
                    self.assertTrue(given.flags.c_contiguous
                                    and given.flags.aligned)
                    self.assertEqual(
                        np.shares_memory(given, other),
                        other.flags.c_contiguous and other.flags.aligned)
        for offsets in (np.arange(5), np.arange(5, dtype=np.uint64)):
            for other in (offsets, unaligned(offsets),
                          np.repeat(offsets, 2)[::2], offsets[::-1],
                          offsets.astype(">i8"), offsets.astype(np.int32)):
                given = as_offsets(other)
                np.testing.assert_array_equal(given, other)
                self.assertFalse(np.shares_memory(given, other))
                self.assertTrue(given.flags.c_contiguous
                                and given.flags.aligned)


class OtherArrays(unittest.TestCase):

    def test_other_dtypes_are_errors(self):
        points = plain.array(RING, np.int32)
        others = [points.astype(name) for name in (
            "int8", "uint8", "uint16", "uint32", "uint64", "float16",
            "float32", "float64", "longdouble", "complex128", "bool",
            "object", "S4", "U4", "m8[s]", "M8[s]", ">i2", ">i4", ">i8")]
        others.append(np.zeros((4, 2), [("x", "i4")]))
        others.append(np.ma.masked_array(points, points == 9))
        others.append([[0.5, 0], [4, 0], [4, 4]])
        others.append([[2 ** 63, 0], [4, 0], [4, 4]])
        others.extend([None, "text", object(), np.array([])])
        for other in others:
            for call in CALLS[:9]:
                with self.subTest(other=type(other),
                                  dtype=getattr(other, "dtype", None)):
                    with self.assertRaises(TypeError):
                        call(other)
            for call in (i_shape.simplify_rings, i_shape.canonical_rings):
                for threads in (1, 3):
                    with self.assertRaises(TypeError):
                        call(other, [0, 3], threads=threads)

    def test_an_empty_list_is_no_points(self):
        self.assertIsNone(i_shape.simplify([]))
        self.assertIsNone(i_shape.area_two([]))
        self.assertFalse(i_shape.is_simple([]))
        left = i_shape.simplify_rings([], [0, 0])
        self.assertEqual((left.points.shape, left.points.dtype),
                         ((0, 2), np.int64))

    def test_other_shapes_are_errors(self):
        for shape in ((), (4,), (0,), (4, 1), (4, 3), (4, 0), (0, 3),
                      (2, 2, 2), (1, 4, 2), (0, 2, 2)):
            points = np.zeros(shape, np.int32)
            for call in CALLS[:9]:
                with self.subTest(shape=shape):
                    with self.assertRaises(ValueError) as told:
                        call(points)
                    self.assertIs(type(told.exception), ValueError)

    def test_lists_are_taken_as_numpy_takes_them(self):
        left = i_shape.simplify(RING)
        self.assertEqual((plain.tuples(left), left.dtype), (SQUARE, np.int64))

    def test_a_longer_dtype_of_the_same_size(self):
        self.assertEqual(plain.tuples(i_shape.simplify(
            plain.array(RING, np.longlong))), SQUARE)


class EmptyBuffers(unittest.TestCase):

    def test_no_null_pointer_is_handed_over(self):
        block = (ctypes.c_char * 16).from_buffer(bytearray(16))
        for dtype in plain.DTYPES:
            for place in range(3):
                nothing = np.ndarray((0, 2), dtype, block, place)
                self.assertNotEqual(address(nothing), 0)
                self.assertEqual(address(nothing) % 16, 0)

    def test_empty_buffers(self):
        no_block = (ctypes.c_char * 0).from_address(0)
        for dtype in plain.DTYPES:
            for nothing in (np.frombuffer(b"", dtype).reshape(0, 2),
                            np.ndarray((0, 2), dtype, no_block),
                            np.zeros((5, 2), dtype)[5:],
                            np.zeros((2, 0), dtype).T):
                for call in CALLS[:3]:
                    self.assertIsNone(call(nothing))
                for threads in (1, 4):
                    left = i_shape.simplify_rings(nothing, [0, 0, 0],
                                                  threads=threads)
                    self.assertEqual(left.points.shape, (0, 2))
                    self.assertEqual(left.points.dtype, dtype)
                    self.assertEqual(left.offsets.tolist(), [0, 0, 0])


if __name__ == "__main__":
    unittest.main()

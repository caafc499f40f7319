"""Keys of rings and polygons, and rings that two lists share."""

import random
import tracemalloc
import unittest
from pathlib import Path
from unittest import mock

import numpy as np

import i_shape
import plain
from i_shape import _keys, io
from test_polygons import flat, form, random_polygons, rewritten

RINGS = [[(0, 0), (1, 0), (0, 1)], [(1, 0), (0, 1), (0, 0)],
         [(0, 0), (0, 1), (1, 0)], [(0, 0), (1, 1), (2, 2)],
         [(0, 0), (2, 0), (0, 1)], [(0, 0), (1, 0), (2, 0), (0, 1)], []]


def groups(items):
    """For each item the place of the first that is equal."""
    return [items.index(item) for item in items]


class OfRings(unittest.TestCase):

    def test_keys_are_equal_exactly_where_forms_are(self):
        for dtype in plain.DTYPES:
            numbers = random.Random(31)
            rings = [numbers.choice(RINGS) for _ in range(50)]
            rings += [plain.random_ring(numbers, dtype) for _ in range(300)]
            for oriented, of_ring in ((True, plain.canonical),
                                      (False, plain.canonical_unoriented)):
                forms = [of_ring(ring, numbers) for ring in rings]
                for threads in (1, 3):
                    keys = i_shape.canonical_keys(
                        *plain.flat(rings, dtype), oriented=oriented,
                        threads=threads)
                    self.assertEqual((keys.dtype, keys.shape),
                                     (object, (350,)))
                    self.assertEqual(set(map(type, keys)), {bytes})
                    self.assertEqual(groups(keys.tolist()), groups(forms))
                    self.assertEqual([not key for key in keys],
                                     [not its for its in forms])

    def test_keys_do_not_depend_on_the_dtype(self):
        numbers = random.Random(32)
        rings = [plain.random_ring(numbers, np.int16) for _ in range(200)]
        one, *others = (i_shape.canonical_keys(*plain.flat(rings, dtype))
                        for dtype in plain.DTYPES)
        for other in others:
            self.assertEqual(one.tolist(), other.tolist())

    def test_the_numbers_of_a_key(self):
        given = plain.flat([[(4, 4), (0, 4), (-1, 0), (4, 0)]], np.int16)
        for key, right in (
                (i_shape.canonical_keys(*given, oriented=True),
                 [-1, 0, 4, 0, 4, 4, 0, 4]),
                (i_shape.canonical_keys(*given, [0, 1], oriented=True),
                 [2**62 + 1, 4, -1, 0, 4, 0, 4, 4, 0, 4])):
            self.assertEqual(np.frombuffer(key[0], "<i8").tolist(), right)

    def test_one_block_after_another(self):
        numbers = random.Random(41)
        given = plain.flat([numbers.choice(RINGS) for _ in range(99)],
                           np.int32)
        right = i_shape.canonical_keys(*given).tolist()
        same = i_shape.same_rings(given, given).tolist()
        for block in (1, 2, 7, 98, 99, 100):
            with mock.patch.object(_keys, "_BLOCK", block):
                self.assertEqual(i_shape.canonical_keys(*given).tolist(),
                                 right)
                self.assertEqual(i_shape.same_rings(given, given).tolist(),
                                 same)

    def test_many_rings_take_little_memory_beside_their_keys(self):
        points = np.arange(4 * 10**5, dtype=np.int16).reshape(-1, 2)
        points = np.repeat(points, 3, axis=0)
        points[1::3, 0] //= 2
        points[2::3, 1] //= 2
        offsets = np.arange(0, len(points) + 1, 3)
        tracemalloc.start()
        try:
            keys = i_shape.canonical_keys(points % 999, offsets)
            held, peak = tracemalloc.get_traced_memory()
        finally:
            tracemalloc.stop()
        self.assertGreater(sum(map(len, keys)), 9 * 10**6)
        # All of their numbers at 64 bits, twice, would be 19 MB more.
        self.assertLess(peak - held, 2 * 10**7)

    def test_errors(self):
        given = plain.flat(RINGS, np.int16)
        for ends in ([], [[0, 7]]):
            with self.assertRaisesRegex(ValueError, "threads is 0"):
                i_shape.canonical_keys(*given, *ends, threads=0)

    def test_groups_by_numpy_and_by_a_dictionary(self):
        numbers = random.Random(33)
        rings = [numbers.choice(RINGS) for _ in range(500)]
        forms = [plain.canonical_unoriented(ring, numbers) for ring in rings]
        keys = i_shape.canonical_keys(*plain.flat(rings, np.int32))
        _, first, group = np.unique(keys, return_index=True,
                                    return_inverse=True)
        self.assertEqual(first[group].tolist(), groups(forms))
        places = {}
        self.assertEqual([places.setdefault(key, place)
                          for place, key in enumerate(keys)], groups(forms))

    def test_no_rings(self):
        for dtype in plain.DTYPES:
            given = np.ones((3, 2), dtype), [3]
            self.assertEqual(i_shape.canonical_keys(*given).shape, (0,))
            self.assertEqual(i_shape.same_rings(given, given).shape, (0,))

    def test_a_million_rings(self):
        count = 10**6
        x = np.arange(count, dtype=np.int32) // 2 * 9
        points = np.zeros((count, 4, 2), np.int32)
        points[:, :, 0] = x[:, None] + [0, 2, 4, 4]
        points[:, 3, 1] = 4
        points[1::2] = np.roll(points[1::2], 1, axis=1)
        offsets = np.arange(0, 4 * count + 1, 4)
        keys = i_shape.canonical_keys(points.reshape(-1, 2), offsets,
                                      threads=2)
        self.assertEqual(len(set(keys)), count // 2)
        self.assertTrue((keys[::2] == keys[1::2]).all())


class OfPolygons(unittest.TestCase):

    def test_keys_are_equal_exactly_where_forms_are(self):
        for dtype in plain.DTYPES:
            numbers = random.Random(34)
            polygons = [[numbers.choice(RINGS)
                         for _ in range(numbers.randrange(5))]
                        for _ in range(400)]
            polygons += random_polygons(numbers, dtype)
            for oriented in (True, False):
                forms = [form([polygon], numbers, oriented)
                         for polygon in polygons]
                for threads in (1, 3):
                    keys = i_shape.canonical_keys(
                        *flat(polygons, dtype), oriented=oriented,
                        threads=threads)
                    self.assertEqual(set(map(type, keys)), {bytes})
                    self.assertEqual(groups(keys.tolist()), groups(forms))
                    self.assertEqual([not key for key in keys],
                                     [not its for its in forms])

    def test_the_key_stays_after_moves(self):
        for dtype in plain.DTYPES:
            numbers = random.Random(35)
            for _ in range(200):
                polygons = random_polygons(numbers, dtype)
                for oriented in (True, False):
                    for polygon in polygons:
                        # rewritten() may add a polygon that collapses
                        other = rewritten([polygon], numbers, oriented)
                        one, two = (
                            [key for key in i_shape.canonical_keys(
                                *flat(its, dtype), oriented=oriented) if key]
                            for its in ([polygon], other))
                        self.assertEqual(one, two)

    def test_holes_and_outer_rings_are_told_apart(self):
        big, small = [(0, 0), (9, 0), (0, 9)], [(1, 1), (2, 1), (1, 2)]
        flat_ring = [(0, 0), (1, 1), (2, 2)]
        keys = i_shape.canonical_keys(*flat(
            [[big, small], [small, big], [big], [small], [big, small, small],
             [], [flat_ring], [flat_ring, big], [big, flat_ring]], np.int32))
        self.assertEqual(groups(keys.tolist()), [0, 1, 2, 3, 4, 5, 6, 6, 2])
        self.assertEqual(keys[6], b"")

    def test_no_key_is_that_of_a_ring(self):
        # Without a mark a polygon of one ring of three points would have
        # the key of a ring that begins at (1, 3).
        ring = [(2, 2), (6, 2), (2, 6)]
        of_polygon = i_shape.canonical_keys(*flat([[ring]], np.int16))
        of_ring = i_shape.canonical_keys(*plain.flat([[(1, 3), *ring]],
                                                     np.int16))
        self.assertEqual(len(of_ring[0]), len(of_polygon[0]))
        self.assertNotEqual(of_ring[0], of_polygon[0])

    def test_rings_that_add_up_to_the_same_points(self):
        # Six points as one ring, and as a ring and a hole of three each.
        ring = [(0, 0), (9, 0), (9, 9), (1, 1), (2, 1), (2, 2)]
        keys = i_shape.canonical_keys(*flat(
            [[ring], [ring[:3], ring[3:]], [ring[:3]]], np.int16))
        self.assertEqual(len(set(keys)), 3)

    def test_many_holes_in_any_order(self):
        numbers = random.Random(36)
        holes = [[(9 * k, 1), (9 * k + 2, 1), (9 * k + 1, 3)]
                 for k in range(2000)]
        outer = [(-9, -9), (10**6, -9), (10**6, 9), (-9, 9)]
        other = holes[:]
        numbers.shuffle(other)
        one, two, three = i_shape.canonical_keys(*flat(
            [[outer, *holes], [outer, *other], [outer, *other[1:]]],
            np.int32))
        self.assertEqual(one, two)
        self.assertNotEqual(one, three)

    def test_a_part_of_the_polygons(self):
        numbers = random.Random(37)
        for _ in range(50):
            polygons = random_polygons(numbers, np.int32) + [[], []]
            points, rings, ends = flat(polygons, np.int32)
            right = i_shape.canonical_keys(*flat(polygons[1:-1], np.int32))
            self.assertEqual(
                i_shape.canonical_keys(points, rings, ends[1:-1]).tolist(),
                right.tolist())

    def test_one_block_after_another(self):
        numbers = random.Random(40)
        polygons = [[numbers.choice(RINGS)
                     for _ in range(numbers.randrange(5))] for _ in range(99)]
        given = flat(polygons, np.int32)
        right = i_shape.canonical_keys(*given).tolist()
        for block in (1, 2, 7, 98, 99, 100):
            with mock.patch.object(_keys, "_BLOCK", block):
                self.assertEqual(i_shape.canonical_keys(*given).tolist(),
                                 right)

    def test_no_polygons(self):
        for dtype in plain.DTYPES:
            self.assertEqual(
                i_shape.canonical_keys(*flat([], dtype)).shape, (0,))
            keys = i_shape.canonical_keys(*flat([[], []], dtype))
            self.assertEqual(keys[0], keys[1])
            self.assertNotEqual(keys[0], b"")


class OfFeatures(unittest.TestCase):

    def features(self, lists):
        polygons = i_shape.Polygons(*flat(sum(lists, []), np.int32))
        offsets = np.cumsum([0, *map(len, lists)])
        return io.Features(polygons, offsets, np.ones(len(lists), np.bool_))

    def right(self, polygons, oriented):
        """The keys of the polygons that a form of the list has, joined."""
        its = i_shape.canonical_polygons(*flat(polygons, np.int32),
                                         oriented=oriented)
        keys = i_shape.canonical_keys(*its, oriented=oriented)
        has_rings = np.diff(its.polygon_offsets) > 0
        return b"".join(keys[has_rings].tolist())

    def test_keys_are_those_of_the_polygons_in_canonical_order(self):
        # Rings that collapse, and outer rings that several polygons share.
        numbers = random.Random(42)
        lists = [[[numbers.choice(RINGS) for _ in range(numbers.randrange(4))]
                  for _ in range(numbers.randrange(5))] for _ in range(300)]
        features = self.features(lists)
        for oriented in (False, True):
            right = [self.right(polygons, oriented) for polygons in lists]
            for threads in (1, 2, 3):
                self.assertEqual(
                    io.feature_keys(features, oriented=oriented,
                                    threads=threads).tolist(), right)
            for block in (1, 7, 299, 300):
                with mock.patch.object(_keys, "_BLOCK", block):
                    self.assertEqual(
                        io.feature_keys(features, oriented=oriented).tolist(),
                        right)

    def test_forms_have_these_keys(self):
        numbers = random.Random(43)
        lists = [[[numbers.choice(RINGS[:3]), *numbers.choices(RINGS, k=2)]
                  for _ in range(numbers.randrange(4))] for _ in range(200)]
        features = self.features(lists)
        for threads in (1, 3):
            its = io.canonical_features(features, collapsed="empty",
                                        threads=threads)
            ends = its.feature_offsets
            keys = i_shape.canonical_keys(*its.polygons)
            self.assertEqual([b"".join(keys[a:b]) for a, b in zip(
                ends, ends[1:])], io.feature_keys(features).tolist())

    def test_no_features(self):
        self.assertEqual(io.feature_keys(self.features([])).shape, (0,))
        self.assertEqual(io.feature_keys(self.features([[], [[]]])).tolist(),
                         [b"", b""])


class Golden(unittest.TestCase):

    def test_no_version_changes_a_key(self):
        path = Path(__file__).resolve().parents[2] / "keys.txt"
        lines = path.read_text().splitlines()[1:]
        self.assertEqual(len(lines), 12)
        for line in lines:
            step, oriented, text, wanted = line.split("\t")
            whole = io.features_to_grid(io.from_wkt([text]),
                                        io.Grid(float(step)))
            words = [{"oriented": oriented == "t"}]
            if oriented == "f":
                words.append({})  # that is how SQL has it by default, too
            for its in words:
                keys = io.feature_keys(whole, **its)
                self.assertEqual([key.hex() for key in keys], [wanted])
                if not text.startswith("MULTI"):
                    keys = i_shape.canonical_keys(*whole.polygons, **its)
                    self.assertEqual([key.hex() for key in keys], [wanted])

    def test_directions_are_told_apart_where_that_is_asked(self):
        """Each call, at its default and with either word."""
        points = np.array([(0, 0), (4, 0), (4, 4)])
        ring, back = (points, [0, 3]), (points[::-1], [0, 3])
        polygon, turned = (*ring, [0, 1]), (*back, [0, 1])
        features, others = map(io.features_of, (polygon, turned))
        for words, is_same in (({}, True), ({"oriented": False}, True),
                               ({"oriented": True}, False)):
            for call, ours, theirs in (
                    (i_shape.canonical, ring[:1], back[:1]),
                    (i_shape.canonical_rings, ring, back),
                    (i_shape.canonical_polygons, polygon, turned),
                    (i_shape.canonical_keys, ring, back),
                    (i_shape.canonical_keys, polygon, turned),
                    (io.canonical_features, [features], [others]),
                    (io.feature_keys, [features], [others])):
                self.assertIs(
                    repr(call(*ours, **words)) == repr(call(*theirs, **words)),
                    is_same, (call, words))
            self.assertIs(i_shape.same_polygons(polygon, turned, **words),
                          is_same)
            self.assertEqual(
                i_shape.same_rings(ring, back, **words).tolist(),
                [0 if is_same else -1])


class SameRings(unittest.TestCase):

    def test_the_first_that_is_the_same(self):
        numbers = random.Random(38)
        for _ in range(300):
            pair = [[numbers.choice(RINGS)
                     for _ in range(numbers.randrange(9))] for _ in range(2)]
            for oriented, of_ring in ((True, plain.canonical),
                                      (False, plain.canonical_unoriented)):
                ours, theirs = ([of_ring(ring, numbers) for ring in rings]
                                for rings in pair)
                right = [theirs.index(its) if its and its in theirs else -1
                         for its in ours]
                told = i_shape.same_rings(
                    plain.flat(pair[0], np.int16),
                    i_shape.Rings(*plain.flat(pair[1], np.int64)),
                    oriented=oriented, threads=numbers.randint(1, 3))
                self.assertEqual(told.dtype, np.intp)
                self.assertEqual(told.tolist(), right)

    def test_errors_of_either(self):
        points = np.zeros((6, 2), np.int32)
        fine = points, [0, 6]
        unsafe = points + 2**30, [0, 6]
        for other, kind in (((points, [0, 7]), i_shape.OffsetsError),
                            (unsafe, i_shape.UnsafePointError),
                            ((points.astype(float), [0, 6]), TypeError)):
            for pair in ((fine, other), (other, fine)):
                with self.assertRaises(kind):
                    i_shape.same_rings(*pair)
        with self.assertRaises(ValueError):
            i_shape.same_rings(fine, fine, threads=0)


if __name__ == "__main__":
    unittest.main()

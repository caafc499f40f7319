"""Features through WKB, beside a plain writer of it, and its errors."""

import random
import struct
import unittest

import numpy as np

import samples
from i_shape import io
from test_io_formats import FormatCase

SQUARE = samples.SQUARE


def plain(is_multi, polygons, order="<", srid=None):
    """The bytes of a feature, as the standard writes them down."""
    def head(kind, srid=None):
        flag = 0 if srid is None else 0x20000000
        tail = b"" if srid is None else struct.pack(order + "I", srid)
        return struct.pack(order + "BI", order == "<", kind | flag) + tail

    def rings(polygon):
        found = struct.pack(order + "I", len(polygon))
        for ring in polygon:
            closed = [*ring, *ring[:1]]
            found += struct.pack(order + "I", len(closed))
            for point in closed:
                found += struct.pack(order + "2d", *point)
        return found

    if not is_multi:
        return head(3, srid) + rings(polygons[0] if polygons else [])
    return head(6, srid) + struct.pack(order + "I", len(polygons)) + b"".join(
        head(3) + rings(polygon) for polygon in polygons)


class Wkb(FormatCase):

    def test_features_both_ways_in_each_order(self):
        given = samples.random_features(random.Random(1), 500)
        features = samples.arrays(given)
        self.assertEqual(io.to_wkb(features),
                         [plain(*feature) for feature in given])
        for srid in (0, 4326):
            self.assertEqual(io.to_wkb(features, srid=srid),
                             [plain(*feature, srid=srid) for feature in given])
        for words in ("<", None), (">", None), ("<", 4326), (">", 2 ** 32 - 1):
            blobs = [plain(*feature, *words) for feature in given]
            for container in (blobs, np.array(blobs, object), iter(blobs),
                              list(map(memoryview, blobs))):
                self.assert_same(io.from_wkb(container), features)

    def test_a_part_may_have_another_byte_order_and_an_srid(self):
        polygon, srid = [SQUARE], 7
        blob = struct.pack("<BII", 1, 6, 2) + plain(
            False, [polygon], ">") + plain(False, [polygon], "<", srid)
        self.assertEqual(samples.lists(io.from_wkb([blob])),
                         [(True, [polygon] * 2)])

    def test_none_has_no_polygons(self):
        self.assertEqual(samples.lists(io.from_wkb([None])), [(True, [])])

    def test_errors_name_the_place(self):
        right = plain(False, [[SQUARE]])
        multi = plain(True, [[SQUARE]] * 2)
        second = 9 + len(right)
        flat = struct.pack("<BIIIdd", 1, 3, 1, 1, 0, float("inf"))
        for blob, words, *place in (
                (b"", "expected 1 bytes at byte 0, and there are 0"),
                (b"\2" + right[1:], "byte 0 is 2: a byte order"),
                (right[:3], "expected 4 bytes at byte 1, and there are 2"),
                (right[:20], "5 points need 80 bytes at byte 13, and there"
                 " are 7", 0, 0),
                (right + b"\0", "it ends at byte 93, and there are 94"),
                (multi[:second] + b"\7" + multi[second + 1:],
                 f"byte {second} is 7"),
                (multi[:second] + right.replace(b"\3", b"\1", 1),
                 "has the type 0x1", 1),
                (struct.pack("<BII", 1, 3, 2 ** 32 - 1), "expected 4 bytes"),
                (struct.pack("<BI", 1, 1), "not a Point"),
                (struct.pack(">BI", 0, 10), "not a CurvePolygon"),
                (struct.pack("<BI", 1, 1003), "it has more"),
                (struct.pack("<BI", 1, 0x80000006), "it has more"),
                (struct.pack("<BI", 1, 99), "0x63 isn't a type"),
                (struct.pack("<BI", 1, 4003), "0xfa3 isn't a type"),
                (flat, "not finite", 0, 0, 0), ("00", "expected bytes")):
            self.assert_fails(io.from_wkb, [right, blob], words, 1, *place)

    def test_each_part_of_a_geometry_is_an_error(self):
        for blob in (plain(True, [[SQUARE], [SQUARE] * 2], ">"),
                     plain(False, [[SQUARE]], srid=1)):
            for end in range(len(blob)):
                with self.assertRaises(io.FeatureError) as told:
                    io.from_wkb([None, blob[:end]])
                self.assertEqual(told.exception.feature, 1)

    def test_random_faults_are_told_of_or_harmless(self):
        numbers = random.Random(2)
        blob = plain(True, [[SQUARE, SQUARE], [SQUARE]])
        for _ in range(3000):
            faulty = bytearray(blob)
            for _ in range(numbers.randrange(1, 4)):
                faulty[numbers.randrange(len(faulty))] = numbers.choice(
                    [0, 1, 3, 6, 127, 128, 255])
            try:
                features = io.from_wkb([faulty])
            except io.FeatureError as error:
                self.assertEqual(error.feature, 0)
            else:
                self.assert_same(io.from_wkb(io.to_wkb(features)), features)

    def test_what_is_no_list_of_bytes(self):
        blob = plain(False, [[SQUARE]])
        for given in (blob, bytearray(blob), "00", np.array([blob])):
            with self.assertRaises(TypeError):
                io.from_wkb(given)
        for srid, kind in ((-1, ValueError), (2 ** 32, ValueError),
                           (1.0, TypeError)):
            with self.assertRaises(kind):
                io.to_wkb(io.from_wkb([blob]), srid)


if __name__ == "__main__":
    unittest.main()

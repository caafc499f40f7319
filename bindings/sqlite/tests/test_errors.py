"""The errors of each call, and hostile values."""
import locale
import os
import shutil
import sqlite3
import struct
import subprocess
import tempfile
import unittest
from unittest import mock

from shapes import CLEAN, FORMS, SEVERAL, SQUARE, connect, geopackage, spatialite, wkb

A_BLOB = "not a blob of WKB, GeoPackage or SpatiaLite"
A_STEP = "not a finite number above 0"
POLYGONS = "expected a Polygon or a MultiPolygon, not a"
Z_OR_M = "expected two coordinates a point, and the geometry has Z or M"
FAR = "polygon 1, ring 1, point 2: x is"
TRIANGLE = wkb("POLYGON((0 0,4 0,4 4,0 0))")
COLLECTION = struct.pack("<BII", 1, 7, 1)


def typed(kind, order="<"):
    return struct.pack(order + "BII", order == "<", kind, 0)


VALUES = [
    ("POLYGON((0 0,4 0,4 4,0 0))", f"geom is a text, {A_BLOB}"), (7, f"geom is an integer, {A_BLOB}"), (0.5, f"geom is a float, {A_BLOB}"),
    (b"", "not a geometry: it ends too soon"), (b"\5", "not a geometry: its byte order is neither 0 nor 1"),
    (TRIANGLE[:4], "not a geometry: it ends too soon"), (TRIANGLE[:-1], "not a geometry: it ends too soon"),
    (TRIANGLE + b"\0", "not a geometry: bytes are left over"), (typed(3)[:5] + b"\xff" * 4, "not a geometry: it ends too soon"),
    (typed(3)[:5] + b"\1\0\0\0" + b"\xff" * 4, "not a geometry: it ends too soon"), (typed(6)[:5] + b"\xff" * 4, "not a geometry: it ends too soon"),
    (typed(6)[:5] + b"\1\0\0\0" + typed(6), "not a geometry: a part of a MultiPolygon isn't a Polygon"),
    (wkb("POINT(1 2)"), f"{POLYGONS} Point"), (wkb("LINESTRING(0 0,1 1)"), f"{POLYGONS} LineString"), (wkb("MULTIPOINT((0 0))"), f"{POLYGONS} MultiPoint"),
    (typed(7), f"{POLYGONS} GeometryCollection"), (COLLECTION * 100000 + TRIANGLE, f"{POLYGONS} GeometryCollection"), (typed(10), f"{POLYGONS} CurvePolygon"),
    (typed(17, ">"), f"{POLYGONS} Triangle"), (typed(5000), f"{POLYGONS} geometry of an unknown type"), (typed(1003), Z_OR_M), (typed(2006), Z_OR_M),
    (typed(3003), Z_OR_M), (typed(0x80000003), Z_OR_M), (typed(0x40000006, ">"), Z_OR_M), (typed(6)[:5] + b"\1\0\0\0" + typed(1003), Z_OR_M),
    (bytes.fromhex("0106000020e6100000010000000103000020110f000000000000"), "a part of a MultiPolygon has another SRID"),
    (b"GP", "not a geometry: its GeoPackage header is invalid"), (b"GP\1\1" + bytes(4) + TRIANGLE, "not a geometry: its GeoPackage header is invalid"),
    (b"GP\0\x0b" + bytes(99), "not a geometry: its GeoPackage header is invalid"), (b"GP\0\3" + bytes(35), "not a geometry: its GeoPackage header is invalid"),
    (b"GP\0\x21" + bytes(4) + TRIANGLE, "a geometry of an extension of GeoPackage isn't read"), (b"GP\0\1" + bytes(4), "not a geometry: it ends too soon"),
    (geopackage("LINESTRING(0 0,1 1)"), f"{POLYGONS} LineString"), (spatialite("LINESTRING(0 0,1 1)"), f"{POLYGONS} LineString"),
    (spatialite(CLEAN)[:39] + struct.pack("<I", 1000003) + spatialite(CLEAN)[43:],
     "a compressed geometry of SpatiaLite isn't read: use UncompressGeometry first"),
    (spatialite(CLEAN)[:39] + struct.pack("<I", 1003) + spatialite(CLEAN)[43:], Z_OR_M),
    (spatialite(SEVERAL)[:47] + b"\1" + spatialite(SEVERAL)[48:], "not a geometry: the parts of SpatiaLite's don't fit"),
    (spatialite(SEVERAL)[:43] + b"\xff" * 4 + spatialite(SEVERAL)[47:], "not a geometry: the parts of SpatiaLite's don't fit"),
    (spatialite(CLEAN)[:-9] + b"\xfe", "not a geometry: it ends too soon"), (spatialite(CLEAN)[:-1], f"{POLYGONS} geometry of an unknown type"),
]
STEPS = [(0, f"step is 0, {A_STEP}"), (0.0, f"step is 0, {A_STEP}"), (-1, f"step is -1, {A_STEP}"), (-0.1, f"step is -0.1, {A_STEP}"),
         (float("inf"), f"step is Infinity, {A_STEP}"), (float("-inf"), f"step is -Infinity, {A_STEP}"), ("0.1", f"step is a text, {A_STEP}"),
         ("", f"step is a text, {A_STEP}"), (b"1", f"step is a blob, {A_STEP}"), (1e-300, f"{FAR} 4, 2^49 steps or more from 0"),
         (5e-324, f"{FAR} 4, 2^49 steps or more from 0"), (-2 ** 63, f"step is -9.223372036854776e+18, {A_STEP}")]
COORDINATES = [("562949953421312 0", 1, f"{FAR} 562949953421312, 2^49 steps or more from 0"), ("1.7e308 0", 1e308, f"{FAR} 1.7e+308, which rounds to no float"),
               ("NaN 0", 1, f"{FAR} NaN, which isn't finite"), ("4 -Infinity", 1, "polygon 1, ring 1, point 2: y is -Infinity, which isn't finite"),
               ("0 1234567.1234567891", 1e-300, "polygon 1, ring 1, point 2: y is 1234567.1234567892, 2^49 steps or more from 0")]
NAMES = ("simplify", "despike", "canonical", "key", "digest", "is_clean", "has_no_spikes", "is_valid", "validity_reason", "contact_points", "area_two")


class ErrorsTest(unittest.TestCase):

    @classmethod
    def setUpClass(cls):
        cls.database = connect()

    def error_of(self, call, *values):
        with self.assertRaises(sqlite3.OperationalError) as raised:
            self.database.execute(f"SELECT i_shape_{call}", values).fetchone()
        return str(raised.exception)

    def test_values(self):
        for value, wanted in VALUES:
            for name in NAMES:
                with self.subTest(name=name, wanted=wanted):
                    self.assertEqual(self.error_of(f"{name}(?, 1)", value), f"i_shape: {wanted}")

    def test_steps(self):
        for step, wanted in STEPS:
            for name in NAMES:
                with self.subTest(name=name, step=step):
                    self.assertEqual(self.error_of(f"{name}(?, ?)", TRIANGLE, step), f"i_shape: {wanted}")

    def test_coordinates(self):
        for point, step, wanted in COORDINATES:
            for form, blob in FORMS.items():
                with self.subTest(point=point, form=form):
                    self.assertEqual(self.error_of("key(?, ?)", blob(f"POLYGON((0 0,{point},4 4,0 0))"), step), f"i_shape: {wanted}")
        far = "MULTIPOLYGON(EMPTY,((0 0,4 0,4 4,0 0)),((0 0,4 0,4 4,0 0),(1 1,2 1,2 1e300,1 1)))"
        self.assertEqual(self.error_of("simplify(?, 1)", wkb(far)), "i_shape: polygon 3, ring 2, point 3: y is 1e+300, 2^49 steps or more from 0")
        self.assertEqual(self.database.execute("SELECT length(i_shape_key(?, 1))", (wkb("POLYGON((0 0,562949953421311 0,4 4,0 0))"),)).fetchone(), (64,))

    @unittest.skipUnless(shutil.which("localedef") and os.path.exists("/usr/share/i18n/locales/ps_AF"), "there is no localedef, or no locale for it")
    def test_locale(self):
        """A coordinate has a point also where the program's locale has a comma, or a letter of two bytes."""
        self.addCleanup(locale.setlocale, locale.LC_NUMERIC, "C")
        for name in "de_DE", "ps_AF":
            with self.subTest(name=name), tempfile.TemporaryDirectory() as folder, mock.patch.dict(os.environ, LOCPATH=folder):
                subprocess.run(["localedef", "-i", name, "-f", "UTF-8", os.path.join(folder, f"{name}.UTF-8")], check=True)
                locale.setlocale(locale.LC_NUMERIC, f"{name}.UTF-8")
                self.assertNotEqual(locale.localeconv()["decimal_point"], ".")
                self.assertIn("y is -1234567.1234567892, 2^49", self.error_of("key(?, 1e-300)", wkb("POLYGON((0 0,0 -1234567.1234567891,4 4,0 0))")))

    def test_third_arguments(self):
        for value, wanted in (2, "2"), (-1, "-1"), (1.0, "a float"), ("1", "a text"), (b"", "a blob"):
            for name in ("canonical", "key", "digest"):
                self.assertEqual(self.error_of(f"{name}(?, 1, ?)", TRIANGLE, value), f"i_shape: oriented is {wanted}, not 0 or 1")
            for name in ("is_valid", "validity_reason"):
                self.assertEqual(self.error_of(f"{name}(?, 1, ?)", TRIANGLE, value), f"i_shape: touching is {wanted}, not 0 or 1")

    def test_winding(self):
        for point, wanted in [
            ("POINT(1 1)", f"point is a text, {A_BLOB}"), (wkb(CLEAN), "expected a Point, not a Polygon"),
            (wkb("POINT(1 1)")[:5], "not a geometry: it ends too soon"), (wkb("POINT(1 1)") + b"\0", "not a geometry: bytes are left over"),
            (wkb("POINT(1 1)", srid=7), "the SRID of the polygon is 0, and that of the point 7"),
            (geopackage("POINT(1 1)", 7), "the SRID of the polygon is 0, and that of the point 7"),
            (spatialite("POINT(1 1)", 7), "the SRID of the polygon is 0, and that of the point 7"),
            (wkb("POINT(NaN 1)"), "the point (NaN, 1) is 2^49 steps or more from 0, isn't finite, or rounds to no float"),
        ]:
            self.assertEqual(self.error_of("winding(?, ?, 1)", TRIANGLE, point), f"i_shape: {wanted}")
        self.assertEqual(self.error_of("winding(?, ?, 0)", TRIANGLE, wkb("POINT(1 1)")), f"i_shape: step is 0, {A_STEP}")
        for blob in geopackage, spatialite:
            self.assertEqual(self.error_of("winding(?, ?, 1)", blob(CLEAN, 5), blob("POINT(1 1)", 7)),
                             "i_shape: the SRID of the polygon is 5, and that of the point 7")

    def test_area(self):
        for rings in "(0 0,5e9 0,5e9 5e9,0 0)", "(0 0,-5e9 0,5e9 5e9,0 0)", "(0 0,1 0,2 0,0 0),(0 0,5e9 0,5e9 5e9,0 0)":
            self.assertEqual(self.error_of("area_two(?, 1)", wkb(f"POLYGON({rings})")), "i_shape: twice the area needs more than 64 bits, which an integer has")

    def test_counts(self):
        for call in "simplify(?)", "simplify(?, 1, 1)", "key(?, 1, 1, 1)", "winding(?, 1)", "version(?)":
            self.assertIn("wrong number of arguments", self.error_of(call, TRIANGLE))

    @unittest.skipUnless(hasattr(sqlite3.Connection, "setlimit"), "setlimit is new in Python 3.11")
    def test_too_long(self):
        """An answer above SQLite's limit."""
        database = connect()
        database.setlimit(sqlite3.SQLITE_LIMIT_LENGTH, 120)
        with self.assertRaisesRegex(sqlite3.DataError, "too big"):
            database.execute("SELECT i_shape_simplify(?, 1)", (geopackage(SQUARE, sides=0),)).fetchone()


if __name__ == "__main__":
    unittest.main()

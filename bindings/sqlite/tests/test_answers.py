"""What each call returns, of blobs of each form."""
import hashlib
import importlib.machinery
import os
import unittest

from shapes import BOXES, CLEAN, CLEAN_SEVERAL, FORMS, MODULE, SEVERAL, SQUARE, connect, empty_geopackage, geopackage, spatialite, wkb

KEYS = os.path.join(os.path.dirname(__file__), "../../keys.txt")
NAMES = [f"i_shape_{name}" for name in ("simplify", "despike", "canonical", "key", "digest", "is_clean", "has_no_spikes", "is_valid", "validity_reason", "contact_points", "area_two", "winding",
                                         "version")]
CLEANED = [
    ("simplify", SQUARE, 1, CLEAN),
    ("simplify", "POLYGON((0 0,0 0,4 0,4 4,0 0))", 1, "POLYGON((0 0,4 0,4 4,0 0))"),
    ("simplify", "POLYGON((0 0,4 0,4 4,4 9,4 4,0 4,0 0))", 1, CLEAN),
    ("despike", "POLYGON((0 0,2 0,4 0,4 4,4 9,4 4,0 0))", 1, "POLYGON((0 0,2 0,4 0,4 4,0 0))"),
    ("simplify", "POLYGON((0 0,9 0,9 9,0 0),(1 1,2 2,3 3,1 1),(5 1,6 1,6 2,5 1))", 1, "POLYGON((0 0,9 0,9 9,0 0),(5 1,6 1,6 2,5 1))"),
    ("simplify", "MULTIPOLYGON(((0 0,2 0,4 0,4 4,0 0)),((7 0,8 0,9 0,7 0),(7 1,8 1,8 2,7 1)))", 1, "MULTIPOLYGON(((0 0,4 0,4 4,0 0)))"),
    ("simplify", SEVERAL, 1, CLEAN_SEVERAL),
    ("simplify", "POLYGON((0.5 1.5,2.5 -0.5,3.5 4.5,0.5 1.5))", 1, "POLYGON((0 2,2 0,4 4,0 2))"),
    ("simplify", "POLYGON((0.29 0,0.74 0,0 0.71,0.29 0))", 0.1, "POLYGON((0.3 0,0.7 0,0 0.7,0.3 0))"),
    ("simplify", "POLYGON((0 0,7 0,0 11,0 0))", 3, "POLYGON((0 0,6 0,0 12,0 0))"),
    ("simplify", CLEAN, 1, CLEAN),
    ("canonical", "POLYGON((4 4,0 0,2 0,4 0,4 4))", 1, "POLYGON((0 0,4 0,4 4,0 0))"),
    ("canonical", "POLYGON((0 0,4 4,4 0,0 0))", 1, "POLYGON((0 0,4 0,4 4,0 0))"),
    ("canonical", "MULTIPOLYGON(((0 0,9 0,9 9,0 0),(1 1,2 1,2 2,1 1)),((0 0,9 0,9 9,0 0)),((-1 0,9 0,9 9,-1 0)))", 1,
     "MULTIPOLYGON(((-1 0,9 0,9 9,-1 0)),((0 0,9 0,9 9,0 0)),((0 0,9 0,9 9,0 0),(1 1,2 1,2 2,1 1)))"),
    # of the same size, where the hole or the second polygon is another one
    ("canonical", "POLYGON((0 0,9 0,9 9,0 0),(2 1,2 2,1 1,2 1))", 1, "POLYGON((0 0,9 0,9 9,0 0),(1 1,2 1,2 2,1 1))"),
    ("canonical", "MULTIPOLYGON(((0 0,9 0,9 9,0 0)),((29 0,29 9,20 0,29 0)))", 1, "MULTIPOLYGON(((0 0,9 0,9 9,0 0)),((20 0,29 0,29 9,20 0)))"),
    # the same rings before and after, of other polygons
    ("canonical", "MULTIPOLYGON(((0 0,9 0,9 9,0 0),(0 0,9 0,9 9,0 0)),((0 0,9 0,9 9,0 0)))", 1,
     "MULTIPOLYGON(((0 0,9 0,9 9,0 0)),((0 0,9 0,9 9,0 0),(0 0,9 0,9 9,0 0)))"),
]
COLLAPSED = [("POLYGON((0 0,4 0,9 0,0 0))", "POLYGON EMPTY"), ("MULTIPOLYGON(((0 0,4 0,9 0,0 0)))", "MULTIPOLYGON EMPTY"),
             ("POLYGON((0 0,0.1 0,0.1 0.1,0 0))", "POLYGON EMPTY")]
MEASURED = [
    ("area_two(?, 1)", CLEAN, 32), ("area_two(?, 0.5)", CLEAN, 128), ("area_two(?, 1)", "POLYGON((0 0,4 4,4 0,0 0))", 16),
    ("area_two(?, 1)", "POLYGON((0 0,5 0,5 5,0 5,0 0),(1 1,1 2,2 2,2 1,1 1),(3 3,4 3,4 4,3 3))", 47),
    ("area_two(?, 1)", "POLYGON((0 0,1 0,2 0,0 0),(0 0,4 0,4 4,0 0))", -16),
    ("area_two(?, 1)", "POLYGON((0 0,3000000000 0,3000000000 3000000000,0 0))", 9 * 10 ** 18),
    ("is_clean(?, 1)", SQUARE, 0), ("is_clean(?, 1)", CLEAN, 1), ("is_clean(?, 1)", "POLYGON((0 0,4 0,4 4.25,0 0))", 0),
    ("is_clean(?, 1)", SEVERAL, 0), ("is_clean(?, 1)", CLEAN_SEVERAL, 1), ("is_clean(?, 1)", "POLYGON((0 0,9 0,9 9,0 0),(1 1,2 2,3 3,1 1))", 0),
    ("has_no_spikes(?, 1)", SQUARE, 1), ("has_no_spikes(?, 1)", "POLYGON((0 0,4 0,4 4,4 9,4 4,0 4,0 0))", 0),
    ("has_no_spikes(?, 1)", "POLYGON((0 0,4 0,4 4.25,0 0))", 0), ("has_no_spikes(?, 1)", "POLYGON((0 0,4 0,4 0,4 4,0 0))", 1),
]
# Why a geometry isn't valid, and nothing where it is.
REASONS = [
    ("POLYGON((0 0,4 0,4 4,0 4,0 0),(1 1,2 1,1 2,1 1))", 1, None), ("POLYGON((0 0,4 0,4 4.25,0 0))", 1, None), (SEVERAL, 1, None),
    ("POLYGON((0 0,4.5 4.5,4.5 0,0 4.5,0 0))", 0.5, "polygon 1, ring 1: edge 1 from (0, 0) meets edge 3 from (4.5, 0)"),
    ("MULTIPOLYGON(((0 0,1 0,0 1,0 0)),((0 0,4 0,4 4,0 4,0 0),(1 1,1 2,2 4,1 1)))", 1, "polygon 2, ring 1: edge 3 from (4, 4) meets edge 2 of ring 2 from (1, 2)"),
    ("POLYGON((0 0,4 0,4 4,0 4,0 0),(0 1,1 1,1 2,0 1))", 1, "polygon 1, ring 1: edge 4 from (0, 4) meets edge 1 of ring 2 from (0, 1)"),
    ("MULTIPOLYGON(((0 0,4 4,4 0,0 4,0 0)),((9 9,8 9,9 8,9 9)))", 1, "polygon 1, ring 1: edge 1 from (0, 0) meets edge 3 from (4, 0)"),
    ("MULTIPOLYGON(((0 0,4 4,4 0,0 4,0 0)),((9 9,9 9,9 9,9 9)))", 1, "polygon 1, ring 1: edge 1 from (0, 0) meets edge 3 from (4, 0)"),
    ("MULTIPOLYGON(EMPTY,((0 0,4 4,4 0,0 4,0 0)))", 1, "polygon 2, ring 1: edge 1 from (0, 0) meets edge 3 from (4, 0)"),
    ("POLYGON((0 0,4 0,4 4,0 0),(2.9 1,3.1 1,3.1 1.1,2.9 1))", 1, "polygon 1, ring 2: it has fewer than three points, or only equal ones, at (3, 1)"),
    ("POLYGON((0 0,4 0,4 4,0 0),(6 1,6 2,7.1 1,6 1))", 0.1, "polygon 1, ring 2: it is a hole outside the outer ring, at (6, 1)"),
    ("POLYGON((0 0,9 0,9 9,0 9,0 0),(2 2,4 2,4 4,2 2),(1 1,8 1,8 8,1 8,1 1))", 1, "polygon 1, ring 2: it is a hole within ring 3, another hole, at (2, 2)"),
]
TOUCHING_REASONS = [
    ("POLYGON((0 0,4 0,4 4,0 4,0 0),(1 1,2 1,1 2,1 1))", 1, None), ("POLYGON((0 0,4 0,4 4,0 4,0 0),(0 1,1 1,1 2,0 1))", 1, None),
    ("POLYGON((0 0,4.5 4.5,4.5 0,0 4.5,0 0))", 0.5, "polygon 1, ring 1: edge 1 from (0, 0) meets edge 3 from (4.5, 0)"),
    ("POLYGON((0 0,8 0,8 8,0 8,0 0),(0 4,8 4,4 6,0 4))", 1,
     "polygon 1, ring 1: edge 2 from (8, 0) touches edge 1 of ring 2 from (0, 4), which parts the inside"),
    ("POLYGON((0 0,8 0,8 8,4 4,0 8,0 0),(4 4,2 7,6 7,4 4))", 1, "polygon 1, ring 2: it is a hole outside the outer ring, at (4, 4)"),
    ("POLYGON((0 0,9 0,9 9,0 9,0 0),(1 1,7 1,7 7,1 7,1 1),(1 3,3 2,3 4,1 3))", 1, "polygon 1, ring 3: it is a hole within ring 2, another hole, at (1, 3)"),
]


class AnswersTest(unittest.TestCase):

    @classmethod
    def setUpClass(cls):
        cls.database = connect()

    def ask(self, call, *values):
        return self.database.execute(f"SELECT i_shape_{call}", values).fetchone()[0]

    def test_functions(self):
        """All are deterministic and innocuous, and no other is there."""
        rows = self.database.execute("SELECT name, flags FROM pragma_function_list WHERE NOT builtin AND name LIKE 'i\\_shape%' ESCAPE '\\'").fetchall()
        self.assertEqual({name for name, _ in rows}, set(NAMES))
        self.assertEqual({flags & 0x200800 for _, flags in rows}, {0x200800})

    def test_cleaned(self):
        for name, given, step, wanted in CLEANED:
            for form, blob in FORMS.items():
                with self.subTest(name=name, given=given, form=form):
                    self.assertEqual(self.ask(f"{name}(?, ?)", blob(given), step), blob(wanted))

    def test_collapsed(self):
        for given, wanted in COLLAPSED:
            for name in ("simplify(?, 1)", "despike(?, 1)", "canonical(?, 1)"):
                with self.subTest(name=name, given=given):
                    self.assertEqual(self.ask(name, wkb(given, srid=7)), wkb(wanted, srid=7))
                    self.assertEqual(self.ask(name, geopackage(given, 7)), empty_geopackage(wanted, 7))
                    self.assertIsNone(self.ask(name, spatialite(given)))
            for form, blob in FORMS.items():
                self.assertEqual([self.ask(f"{name}(?, 1)", blob(given)) for name in ("key", "digest")], [None, None], form)

    def test_empty(self):
        for text in ("POLYGON EMPTY", "MULTIPOLYGON EMPTY"):
            for blob in (wkb(text), empty_geopackage(text)):
                self.assertEqual([self.ask(f"{name}(?, 1)", blob) for name in ("simplify", "despike", "canonical", "key", "digest", "is_clean", "area_two")],
                                 [blob, blob, blob, None, None, 1, 0])
        self.assertEqual(self.ask("simplify(?, 1)", wkb("MULTIPOLYGON(EMPTY,((0 0,4 0,4 4,0 0)))")), wkb("MULTIPOLYGON(((0 0,4 0,4 4,0 0)))"))

    def test_orders(self):
        """WKB is written in the machine's byte order, and a GeoPackage's head with the low byte first."""
        for given, wanted in ((SQUARE, CLEAN), (SEVERAL, CLEAN_SEVERAL), (CLEAN, CLEAN)):
            self.assertEqual(self.ask("simplify(?, 1)", wkb(given, ">")), wkb(wanted))
            self.assertEqual(self.ask("simplify(?, 1)", wkb(given, ">", 9)), wkb(wanted, "<", 9))
        for sides in range(len(BOXES)):
            for order in "<>":
                for wkb_order in "<>":
                    for given, wanted in ((SQUARE, CLEAN), (SEVERAL, CLEAN_SEVERAL)):
                        self.assertEqual(self.ask("simplify(?, 1)", geopackage(given, 3857, sides, order, wkb_order)), geopackage(wanted, 3857))

    def test_unchanged(self):
        """A clean blob stays as it is, with another head or byte order. A zero below zero is a change."""
        for text in (CLEAN, CLEAN_SEVERAL):
            for sides in range(len(BOXES)):
                for order in "<>":
                    for wkb_order in "<>":
                        blob = geopackage(text, -1, sides, order, wkb_order)
                        self.assertEqual([self.ask("simplify(?, 1)", blob), self.ask("despike(?, 1)", blob)], [blob, blob])
        blob = bytearray(spatialite(CLEAN))
        blob[6:38] = bytes(32)
        self.assertEqual(self.ask("simplify(?, 1)", blob), bytes(blob))
        for below in CLEAN.replace("0 0,4", "-0.0 0,4"), CLEAN.replace("4,0 0)", "4,0 -0.0)"):
            for order in "<>":
                self.assertEqual(self.ask("simplify(?, 1)", geopackage(below, wkb_order=order)), geopackage(CLEAN))
            self.assertEqual(self.ask("simplify(?, 1)", spatialite(below)), spatialite(CLEAN))
            self.assertEqual(self.ask("is_clean(?, 1)", wkb(below)), 1)

    def test_ewkb_in_a_geopackage(self):
        """A GeoPackage has no EWKB, so the SRID goes."""
        for order in "<>":
            blob = geopackage(CLEAN)[:40] + wkb(CLEAN, order, 4326)
            self.assertEqual(self.ask("simplify(?, 1)", blob), geopackage(CLEAN))

    def test_oriented(self):
        given = wkb("POLYGON((0 0,4 4,4 0,0 0))")
        other = wkb("POLYGON((0 0,4 0,4 4,0 0))")
        self.assertEqual(self.ask("canonical(?, 1, 1)", given), given)
        for name in ("canonical", "key", "digest"):
            self.assertEqual(self.ask(f"{name}(?, 1, 0)", given), self.ask(f"{name}(?, 1)", other))
            self.assertEqual(self.ask(f"{name}(?, 1, FALSE)", given), self.ask(f"{name}(?, 1)", given))
            self.assertNotEqual(self.ask(f"{name}(?, 1, TRUE)", given), self.ask(f"{name}(?, 1, TRUE)", other))

    def test_measured(self):
        for call, given, wanted in MEASURED:
            for form, blob in FORMS.items():
                with self.subTest(call=call, given=given, form=form):
                    self.assertEqual(self.ask(call, blob(given)), wanted)

    def test_reasons(self):
        for given, step, wanted in REASONS:
            for form, blob in FORMS.items():
                with self.subTest(given=given, form=form):
                    self.assertEqual([self.ask(f"{name}(?, ?)", blob(given), step) for name in ("validity_reason", "is_valid")], [wanted, wanted is None])
        self.assertEqual(self.ask("validity_reason(?, 1)", wkb("POLYGON EMPTY")[:5] + b"\1\0\0\0" + bytes(4)),
                         "polygon 1, ring 1: it has fewer than three points, or only equal ones")

    def test_touching_reasons(self):
        for given, step, wanted in TOUCHING_REASONS:
            for form, blob in FORMS.items():
                with self.subTest(given=given, form=form):
                    self.assertEqual([self.ask(f"{name}(?, ?, 1)", blob(given), step) for name in ("validity_reason", "is_valid")], [wanted, wanted is None])
        for given, step, _ in REASONS:
            for name in ("validity_reason", "is_valid"):
                self.assertEqual(self.ask(f"{name}(?, ?, 0)", wkb(given), step), self.ask(f"{name}(?, ?)", wkb(given), step))

    def test_winding(self):
        hollow = "POLYGON((0 0,9 0,9 9,0 9,0 0),(1 1,1 8,8 8,8 1,1 1))"
        for form, blob in FORMS.items():
            for at, wanted in ("0.5 5.5", 1), ("5.5 5.5", 0), ("9.5 5.5", 0):
                self.assertEqual(self.ask("winding(?, ?, 0.5)", blob(hollow), blob(f"POINT({at})")), wanted, form)
        self.assertEqual(self.ask("winding(?, ?, 1)", geopackage("POLYGON((0 0,0 9,9 9,9 0,0 0))"), wkb("POINT(5 5)", srid=4326)), -1)
        self.assertIsNone(self.ask("winding(?, ?, 1)", wkb(CLEAN), wkb("POINT EMPTY")))

    def test_null(self):
        blob = wkb(CLEAN)
        for name in ("simplify", "despike", "canonical", "key", "digest", "is_clean", "is_valid", "validity_reason", "contact_points", "area_two"):
            self.assertEqual([self.ask(f"{name}(?, ?)", *values) for values in ((None, 1), (blob, None), (None, None), (None, "x"), ("x", None))], [None] * 5)
        for name in ("canonical", "key", "digest", "is_valid", "validity_reason"):
            self.assertIsNone(self.ask(f"{name}(?, 1, NULL)", blob))
        self.assertEqual([self.ask("winding(?, ?, ?)", *values) for values in ((None, blob, 1), (blob, None, 1), (blob, blob, None))], [None] * 3)
        self.assertIsNone(self.ask("simplify(?, ?)", blob, float("nan")))  # SQLite has no NaN

    def test_open_ring(self):
        blob = bytearray(wkb(CLEAN)[:-16])
        blob[9] = 4
        self.assertEqual([self.ask("simplify(?, 1)", blob), self.ask("is_clean(?, 1)", blob)], [wkb(CLEAN), 0])

    def test_written_keys(self):
        with open(KEYS, encoding="utf-8") as lines:
            rows = [line.split("\t") for line in lines if not line.startswith("#")]
        self.assertGreater(len(rows), 10)
        for step, oriented, text, key in rows:
            for form, blob in FORMS.items():
                with self.subTest(text=text, form=form):
                    is_oriented = int(oriented == "t")
                    made = self.ask("key(?, ?, ?)", blob(text), float(step), is_oriented)
                    self.assertEqual(made.hex(), key.strip())
                    self.assertEqual(self.ask("digest(?, ?, ?)", blob(text), float(step), is_oriented), hashlib.sha256(made).digest())

    def test_again(self):
        """Cleaned again nothing changes, at any step."""
        text = "POLYGON((12.3456789 0,100.987654321 0.1,99.5 88.8,50.1 33.3,-3.3 77.7,12.3456789 0))"
        for step in (1e-1, 1e-3, 1e-5, 1e-7, 1e-9, 0.3, 0.007, 1e-12, 0.25, 7.77e-6):
            for blob in FORMS.values():
                once = self.ask("simplify(?, ?)", blob(text), step)
                self.assertEqual([self.ask("simplify(?, ?)", once, step), self.ask("is_clean(?, ?)", once, step)], [once, 1])

    def test_module_is_no_package(self):
        """In the folder of a script, the file isn't taken for the Python package."""
        self.assertIsNone(importlib.machinery.PathFinder.find_spec("i_shape", [os.path.dirname(MODULE)]))


if __name__ == "__main__":
    unittest.main()

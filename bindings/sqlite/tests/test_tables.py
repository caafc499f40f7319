"""Indexes, checks, generated columns and triggers over the calls, and calls that are interrupted."""
import sqlite3
import struct
import tempfile
import threading
import unittest

from shapes import CLEAN, SEVERAL, SQUARE, connect, geopackage, spatialite, wkb

PAIR = geopackage("POLYGON((4 0,4 4,0 4,0 0,2 0,4 0))"), geopackage(CLEAN)
LAYER = """
CREATE TABLE layer (fid INTEGER PRIMARY KEY, name TEXT, geom BLOB);
CREATE VIRTUAL TABLE boxes USING rtree(id, minx, maxx, miny, maxy);
CREATE TRIGGER inserted AFTER INSERT ON layer WHEN NEW.geom NOT NULL AND NOT ST_IsEmpty(NEW.geom) BEGIN
    INSERT OR REPLACE INTO boxes VALUES (NEW.fid, ST_MinX(NEW.geom), ST_MaxX(NEW.geom), ST_MinY(NEW.geom), ST_MaxY(NEW.geom)); END;
CREATE TRIGGER update1 AFTER UPDATE OF geom ON layer WHEN OLD.fid = NEW.fid AND NEW.geom NOT NULL AND NOT ST_IsEmpty(NEW.geom) BEGIN
    INSERT OR REPLACE INTO boxes VALUES (NEW.fid, ST_MinX(NEW.geom), ST_MaxX(NEW.geom), ST_MinY(NEW.geom), ST_MaxY(NEW.geom)); END;
CREATE TRIGGER update2 AFTER UPDATE OF geom ON layer WHEN OLD.fid = NEW.fid AND (NEW.geom IS NULL OR ST_IsEmpty(NEW.geom)) BEGIN
    DELETE FROM boxes WHERE id = OLD.fid; END;
CREATE TRIGGER update4 AFTER UPDATE ON layer WHEN OLD.fid != NEW.fid AND (NEW.geom IS NULL OR ST_IsEmpty(NEW.geom)) BEGIN
    DELETE FROM boxes WHERE id IN (OLD.fid, NEW.fid); END;
"""


def many_triangles(count):
    parts = b"".join(struct.pack("<BIII8d", 1, 3, 1, 4, x, 0, x + 1, 0, x, 1, x, 0) for x in range(count))
    return struct.pack("<BII", 1, 6, count) + parts


class TablesTest(unittest.TestCase):

    def setUp(self):
        self.database = connect()
        self.addCleanup(self.database.close)

    def ask(self, words, *values):
        return self.database.execute(words, values).fetchall()

    def test_digest_index(self):
        """A unique index on a digest takes a polygon once, finds it, and takes collapsed ones many times."""
        self.ask("CREATE TABLE parcels (geom BLOB)")
        self.ask("CREATE UNIQUE INDEX once ON parcels (i_shape_digest(geom, 1))")
        self.ask("INSERT INTO parcels VALUES (?)", PAIR[0])
        with self.assertRaisesRegex(sqlite3.IntegrityError, "UNIQUE"):
            self.ask("INSERT INTO parcels VALUES (?)", PAIR[1])
        self.ask("INSERT INTO parcels VALUES (?) ON CONFLICT (i_shape_digest(geom, 1)) DO NOTHING", wkb(SQUARE))
        for _ in range(2):
            self.ask("INSERT INTO parcels VALUES (?)", wkb("POLYGON EMPTY"))
        self.assertEqual(self.ask("SELECT count(*) FROM parcels"), [(3,)])
        find = "SELECT geom FROM parcels WHERE i_shape_digest(geom, 1) = i_shape_digest(?, 1)"
        self.assertEqual(self.ask(find, spatialite(CLEAN)), [(PAIR[0],)])
        self.assertIn("USING INDEX once", self.ask(f"EXPLAIN QUERY PLAN {find}", PAIR[1])[0][3])
        self.ask("REINDEX once")
        self.assertEqual(self.ask("PRAGMA integrity_check"), [("ok",)])

    def test_check(self):
        self.ask("CREATE TABLE clean (geom BLOB CHECK (i_shape_is_clean(geom, 1)))")
        self.ask("INSERT INTO clean VALUES (?), (NULL), (i_shape_simplify(?, 1))", PAIR[1], PAIR[0])
        with self.assertRaisesRegex(sqlite3.IntegrityError, "CHECK"):
            self.ask("INSERT INTO clean VALUES (?)", PAIR[0])
        with self.assertRaisesRegex(sqlite3.OperationalError, "i_shape: geom is a text"):
            self.ask("INSERT INTO clean VALUES ('POLYGON')")
        self.assertEqual(self.ask("SELECT count(*) FROM clean"), [(3,)])

    def test_generated_column(self):
        """Two tables joined by it, also from a view, where the schema isn't trusted."""
        self.ask("PRAGMA trusted_schema = off")
        self.ask("CREATE TABLE stored (geom BLOB, digest BLOB GENERATED ALWAYS AS (i_shape_digest(geom, 1)) STORED UNIQUE)")
        self.ask("CREATE TABLE virtual (geom BLOB, digest BLOB AS (i_shape_digest(geom, 1)))")
        self.ask("INSERT INTO stored VALUES (?)", PAIR[0])
        self.ask("INSERT INTO virtual VALUES (?), (?)", PAIR[1], wkb(SEVERAL))
        self.ask("CREATE VIEW both AS SELECT i_shape_area_two(stored.geom, 1) FROM stored JOIN virtual USING (digest)")
        self.assertEqual(self.ask("SELECT * FROM both"), [(32,)])

    def test_without_the_extension(self):
        """Other programs read and empty a table over a call, but insert and change nothing, nor vacuum the file."""
        index = "; CREATE UNIQUE INDEX once ON parcels (i_shape_digest(geom, 1))"
        for made in f"(geom BLOB){index}", "(geom BLOB, digest BLOB AS (i_shape_digest(geom, 1)) STORED)", "(geom BLOB CHECK (i_shape_is_clean(geom, 1)))":
            with self.subTest(made=made), tempfile.NamedTemporaryFile() as file:
                database = connect(path=file.name)
                database.executescript(f"CREATE TABLE parcels {made}; INSERT INTO parcels (geom) VALUES (x'{PAIR[1].hex()}')")
                database.close()
                database = sqlite3.connect(file.name, isolation_level=None)
                for words in "INSERT INTO parcels (geom) VALUES (NULL)", "UPDATE parcels SET geom = NULL", "VACUUM", "PRAGMA integrity_check":
                    if words.startswith("PRAGMA") and "STORED" in made:
                        self.assertEqual(database.execute(words).fetchall(), [("ok",)])
                    else:
                        with self.assertRaisesRegex(sqlite3.OperationalError, "function: i_shape"):
                            database.execute(words)
                self.assertEqual(database.execute("SELECT geom FROM parcels").fetchall(), [(PAIR[1],)])
                self.assertEqual(database.execute("DELETE FROM parcels").rowcount, 1)
                database.close()

    def test_group(self):
        self.ask("CREATE TABLE shapes (geom BLOB)")
        self.database.executemany("INSERT INTO shapes VALUES (?)", [(PAIR[k % 2],) for k in range(100)] + [(wkb(SEVERAL),)])
        self.assertEqual(self.ask("SELECT count(*) FROM shapes GROUP BY i_shape_digest(geom, 1) ORDER BY 1"), [(1,), (100,)])

    def test_triggers(self):
        """The second entry has what the triggers of a GeoPackage's index call, and the first one hasn't."""
        with self.assertRaisesRegex(sqlite3.OperationalError, "no such function: ST_IsEmpty"):
            self.ask("SELECT ST_IsEmpty(NULL)")
        self.database = connect("sqlite3_modishapegpkg_init")
        flags = self.ask("SELECT flags & 0x200800 FROM pragma_function_list WHERE name LIKE 'st\\_%' ESCAPE '\\'")
        self.assertEqual(flags, [(0x200800,)] * 5)  # deterministic and innocuous
        self.database.executescript(LAYER)
        for text in ("POLYGON((0 0,2 0,9 0,9 9,9 12,9 9,0 0))", "MULTIPOLYGON(((1 1,3 1,5 1,1 1)))", "POLYGON((0 0,0 7,0 9,5 5,0 0))"):
            self.ask("INSERT INTO layer (geom) VALUES (?)", geopackage(text, sides=0))
        self.assertEqual(self.ask("SELECT * FROM boxes"), [(1, 0, 9, 0, 12), (2, 1, 5, 1, 1), (3, 0, 5, 0, 9)])
        self.ask("UPDATE layer SET geom = i_shape_simplify(geom, 1), name = 'x'")
        self.assertEqual(self.ask("SELECT * FROM boxes"), [(1, 0, 9, 0, 9), (3, 0, 5, 0, 9)])
        self.assertEqual(self.ask("SELECT rtreecheck('boxes')"), [("ok",)])

    def test_boxes(self):
        """Boxes of geometries of any type, from their heads or their points."""
        database = connect("sqlite3_modishapegpkg_init")

        def sides(blob):
            return database.execute("SELECT ST_MinX(?1), ST_MaxX(?1), ST_MinY(?1), ST_MaxY(?1)", (blob,)).fetchone()

        for text, wanted in [("POINT(1 2)", (1, 1, 2, 2)), ("LINESTRING(5 1,-3 2,4 9)", (-3, 5, 1, 9)), ("MULTIPOINT((3 1),(2 8))", (2, 3, 1, 8)),
                             ("MULTILINESTRING((0 0,1 1),(7 7,-2 5))", (-2, 7, 0, 7)), (SQUARE, (0, 4, 0, 4)), (SEVERAL, (0, 30, 0, 30))]:
            for order in "<>":
                self.assertEqual(sides(geopackage(text, 1, 0, "<", order)), wanted)
                self.assertEqual(sides(geopackage(text, 1, 1, order)), wanted)
                nested = struct.pack("<BII", 1, 7, 1) * 100000 + wkb(text, order)
                self.assertEqual(sides(b"GP\0\1" + bytes(4) + nested), wanted)
        head = b"GP\0\1" + bytes(4)
        self.assertEqual(sides(head + struct.pack("<BI3d", 1, 1001, 1, 2, 3)), (1, 1, 2, 2))
        self.assertEqual(sides(head + struct.pack("<BII8d", 1, 0xC0000002, 2, *range(8))), (0, 4, 1, 5))
        self.assertEqual(sides(geopackage(SQUARE, 1, 4, ">")), (7, 7, 7, 7))
        for blob in (None, 1, "GP", b"", b"GP", head, wkb(SQUARE), spatialite(SQUARE), head + wkb("POINT EMPTY"), head + wkb("POLYGON EMPTY"),
                     head + wkb(SQUARE)[:-1], head + struct.pack("<BII", 1, 7, 2 ** 32 - 1), head + struct.pack("<BII", 1, 99, 0),
                     b"GP\0\x21" + bytes(4) + wkb(SQUARE), b"GP\0\x0f" + bytes(99)):
            self.assertEqual(sides(blob), (None,) * 4, blob)
        for blob, wanted in [(head + wkb(SQUARE), 0), (b"GP\0\x11" + bytes(4), 1), (b"GP", None), (7, None), (None, None), (wkb(SQUARE), None)]:
            self.assertEqual(database.execute("SELECT ST_IsEmpty(?)", (blob,)).fetchone(), (wanted,))


class InterruptTest(unittest.TestCase):
    """A call over many rings runs the progress handler again and again, ends where that or another thread says so, and the connection goes on."""

    def setUp(self):
        self.database = connect()
        self.addCleanup(self.database.close)
        self.many = many_triangles(30000)
        self.looks = 0
        self.ended = []
        self.database.create_function("noted", 1, lambda digest: self.ended.append(digest) or digest)

    def looks_of(self, look=lambda looks: 0):
        """How often a call looks, where that looks too, and its answer."""
        self.looks = 0
        self.ended.clear()

        def handle():
            self.looks += 1
            return look(self.looks)

        self.database.set_progress_handler(handle, 1)
        try:
            return self.database.execute("SELECT noted(i_shape_digest(i_shape_canonical(?, 1), 1))", (self.many,)).fetchone()
        finally:
            self.database.set_progress_handler(None, 0)

    def is_interrupted(self, look):
        wanted = self.looks_of()
        all_looks = self.looks
        self.assertGreater(all_looks, 1000)
        for place in all_looks // 4, all_looks // 2, 3 * all_looks // 4:
            with self.assertRaisesRegex(sqlite3.OperationalError, "interrupted"):
                self.looks_of(lambda looks, place=place: looks == place and look())
            self.assertLess(self.looks, place + 20)
            self.assertEqual(self.ended, [])  # SQLite itself is interrupted only behind the call
        self.assertEqual(self.looks_of(), wanted)

    def test_progress_handler(self):
        self.is_interrupted(lambda: True)

    def test_interrupt(self):
        def interrupt():
            thread = threading.Thread(target=self.database.interrupt)
            thread.start()
            thread.join()

        self.is_interrupted(interrupt)

    def test_call_within_a_call(self):
        """A progress handler may call the functions of another connection."""
        other, answers = connect(), []

        def ask(looks):
            answers.append(other.execute("SELECT i_shape_digest(?, 1)", (PAIR[looks % 2],)).fetchone())

        wanted = self.looks_of()
        self.assertEqual(self.looks_of(ask), wanted)
        self.assertGreater(len(answers), 1000)
        self.assertEqual(len(set(answers)), 1)
        other.close()


class ThreadsTest(unittest.TestCase):

    def test_threads(self):
        """Connections of four threads at once."""
        answers = []

        def ask():
            database = connect()
            words = "SELECT i_shape_digest(?, 1), i_shape_simplify(?, 1)"
            answers.extend(database.execute(words, PAIR).fetchone() for _ in range(2000))
            database.close()

        threads = [threading.Thread(target=ask) for _ in range(4)]
        for thread in threads:
            thread.start()
        for thread in threads:
            thread.join()
        self.assertEqual((len(answers), len(set(answers))), (8000, 1))


if __name__ == "__main__":
    unittest.main()

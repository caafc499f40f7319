"""GeoPackages through the command, made by sqlite3 here, and hostile ones."""

import contextlib
import errno
import os
import shutil
import sqlite3
import struct
import subprocess
import sys
import textwrap
import unittest
from unittest import mock

import samples
from i_shape import io
from i_shape._command import blocks, geopackage, plot
from test_command import FLAT, SPIKED, SQUARE, CommandCase
from test_command_report import HAS_MATPLOTLIB

HAS_GDAL = shutil.which("ogr2ogr") is not None
WHY_NOT = "a file of GDAL is not tested: there is no ogr2ogr"
if not HAS_GDAL:
    print(WHY_NOT)

SCHEMA = """
CREATE TABLE IF NOT EXISTS gpkg_contents (
    table_name TEXT PRIMARY KEY, last_change TEXT);
CREATE TABLE IF NOT EXISTS gpkg_geometry_columns (table_name TEXT,
    column_name TEXT, geometry_type_name TEXT, srs_id INTEGER);
CREATE TABLE {0} (fid INTEGER PRIMARY KEY, name TEXT, geom BLOB);
INSERT INTO gpkg_contents VALUES ('{0}', 'then');
INSERT INTO gpkg_geometry_columns VALUES ('{0}', 'geom', '{1}', 4326);
CREATE VIRTUAL TABLE rtree_{0} USING rtree(id, minx, maxx, miny, maxy);
CREATE TRIGGER rtree_{0}_insert AFTER INSERT ON {0}
WHEN NEW.geom NOT NULL AND NOT ST_IsEmpty(NEW.geom) BEGIN
    INSERT OR REPLACE INTO rtree_{0} VALUES (NEW.fid, ST_MinX(NEW.geom),
        ST_MaxX(NEW.geom), ST_MinY(NEW.geom), ST_MaxY(NEW.geom)); END;
CREATE TRIGGER rtree_{0}_update1 AFTER UPDATE OF geom ON {0}
WHEN NEW.geom NOT NULL AND NOT ST_IsEmpty(NEW.geom) BEGIN
    INSERT OR REPLACE INTO rtree_{0} VALUES (NEW.fid, ST_MinX(NEW.geom),
        ST_MaxX(NEW.geom), ST_MinY(NEW.geom), ST_MaxY(NEW.geom)); END;
CREATE TRIGGER rtree_{0}_update2 AFTER UPDATE OF geom ON {0}
WHEN NEW.geom IS NULL OR ST_IsEmpty(NEW.geom) BEGIN
    DELETE FROM rtree_{0} WHERE id = OLD.fid; END;
CREATE TRIGGER rtree_{0}_delete AFTER DELETE ON {0} BEGIN
    DELETE FROM rtree_{0} WHERE id = OLD.fid; END;
"""


def polygons(*lists):
    """Features of one polygon each, of lists of rings."""
    return samples.arrays([(False, [list(rings)]) for rings in lists])


def without_progress(error):
    """What is said beside the progress of a slow run."""
    return "".join(line for line in error.splitlines(True)
                   if not line.startswith(("features of ", "changes of ")))


def blob(wkb, srs=4326, order="<", flags=0):
    return (b"GP\0" + bytes([flags | (order == "<")])
            + struct.pack(order + "i", srs) + wkb)


SPIKED_BLOB, SQUARE_BLOB, FLAT_BLOB, HIGH_BLOB = map(blob, io.to_wkb(polygons(
    [SPIKED], [SQUARE], [FLAT], [[(0, 0), (2, 0), (2, 9), (2, 1)]])))
BIG_ENDIAN = blob(struct.pack(">4dBIII8d", 0.5, 0.9, 0, 0.4, 0, 3, 1, 4, 0.5,
                              0, 0.9, 0, 0.9, 0.4, 0.5, 0), order=">", flags=2)
POINT = blob(struct.pack("<BI2d", 1, 1, 1, 2))


class GeoPackageCase(CommandCase):

    def setUp(self):
        super().setUp()
        self.given = self.folder / "given.gpkg"
        self.out = self.folder / "out.gpkg"

    def change(self, words, *values, path=None):
        store = sqlite3.connect(path or self.given)
        geopackage._add_functions(store)
        with store:
            rows = store.execute(words, values).fetchall()
        store.close()
        return rows

    def fill(self, *blobs, layer="parcels", kind="POLYGON"):
        """A layer with features 3, 5, 7, .."""
        store = sqlite3.connect(self.given)
        geopackage._add_functions(store)
        with store:
            store.executescript(SCHEMA.format(layer, kind))
            store.executemany(
                f"INSERT INTO {layer} VALUES (?, ?, ?)",
                [(2 * place + 3, f"no {place}", one)
                 for place, one in enumerate(blobs)])
        store.close()

    def rename(self, name):
        """Give the layer of parcels another name."""
        self.change(f"ALTER TABLE parcels RENAME TO {geopackage._quoted(name)}")
        for table in ("gpkg_contents", "gpkg_geometry_columns"):
            self.change(f"UPDATE {table} SET table_name = ?", name)

    def dump(self):
        with contextlib.closing(sqlite3.connect(self.given)) as store:
            return list(store.iterdump())

    def fill_out(self):
        self.out.unlink(missing_ok=True)
        self.change("CREATE TABLE other AS SELECT 'as it was'", path=self.out)

    def mode_of(self, path):
        """The journal mode of a file, which each new program reads."""
        with contextlib.closing(sqlite3.connect(path)) as store:
            return store.execute("PRAGMA journal_mode").fetchone()[0]

    def bytes_of_files(self):
        return {path: path.read_bytes() for path in self.folder.iterdir()}

    def rows(self, path, layer="parcels"):
        return self.change(f"SELECT * FROM {layer}", path=path)

    def geometries(self, path=None, layer="parcels"):
        """The text of each geometry by its fid."""
        def text(one):
            if one is None:
                return None
            return io.to_wkt(io.from_wkb([one[40:] if one[3] & 2
                                          else one[8:]]))[0]
        return {fid: text(one)
                for fid, _, one in self.rows(path or self.out, layer)}

    def run_clean(self, *words, call="simplify", status=0, out=None):
        told, error = self.run_command(
            call, self.given, out or self.out, "--step", "0.1", *words,
            status=status)
        return told, without_progress(error)


class Cleaned(GeoPackageCase):

    def test_only_what_changes_is_written(self):
        self.fill(SPIKED_BLOB, SQUARE_BLOB, None, FLAT_BLOB, BIG_ENDIAN,
                  HIGH_BLOB)
        told, _ = self.run_clean("--report", "--collapsed", "empty")
        self.assertIn("collapsed: layer 'parcels', fid 9, polygon 0", told)
        square = io.to_wkt(polygons([SQUARE]))[0]
        self.assertEqual(self.geometries(), {
            3: square, 5: square, 7: None, 9: "POLYGON EMPTY",
            11: "POLYGON ((0.5 0, 0.9 0, 0.9 0.4, 0.5 0))",
            13: "POLYGON ((0 0, 2 0, 2 1, 0 0))"})
        rows = {fid: (name, one) for fid, name, one in self.rows(self.out)}
        self.assertEqual(rows[5], ("no 1", SQUARE_BLOB))
        self.assertEqual(rows[11], ("no 4", BIG_ENDIAN))
        self.assertEqual(rows[3][1], b"GP\0\3" + struct.pack(
            "<i4d", 4326, 0.5, 0.9, 0, 0.4) + SQUARE_BLOB[8:])
        self.assertEqual(rows[9][1][:8], b"GP\0\x11" + SPIKED_BLOB[4:8])
        tree = self.change("SELECT * FROM rtree_parcels ORDER BY id",
                           path=self.out)
        self.assertEqual([row[0] for row in tree], [3, 5, 11, 13])
        self.assertEqual(tree[-1], (13, 0, 2, 0, 1))
        for row in tree[1:3]:
            self.assertEqual([round(side, 3) for side in row[1:]],
                             [0.5, 0.9, 0, 0.4])
        self.assertNotEqual(self.change(
            "SELECT last_change FROM gpkg_contents", path=self.out),
            [("then",)])

    def test_a_second_run_changes_nothing(self):
        for call in ("simplify", "despike", "canonical"):
            self.given.unlink(missing_ok=True)
            self.fill(SPIKED_BLOB, SQUARE_BLOB, FLAT_BLOB, BIG_ENDIAN)
            self.run_clean("--collapsed", "empty", call=call, out=self.given)
            before = self.dump()
            self.run_clean(call=call, out=self.given)
            self.assertEqual(self.dump(), before)

    def test_envelopes_of_each_kind(self):
        self.fill(*(blob(bytes(size) + SPIKED_BLOB[8:], flags=2 * kind)
                    for kind, size in enumerate((0, 32, 48, 48, 64))))
        self.run_clean()
        self.assertEqual(set(self.geometries().values()),
                         {io.to_wkt(polygons([SQUARE]))[0]})

    def test_layers_are_those_of_polygons_or_those_named(self):
        self.fill(SPIKED_BLOB)
        self.fill(SPIKED_BLOB, POINT, layer="mixed", kind="GEOMETRY")
        self.fill(POINT, layer="points", kind="POINT")
        self.run_clean("--others", "keep")
        square = io.to_wkt(polygons([SQUARE]))[0]
        self.assertEqual(self.geometries(), {3: square})
        mixed = self.rows(self.out, "mixed")
        self.assertEqual(mixed[1], (5, "no 1", POINT))
        self.run_clean("--others", "drop")
        self.assertEqual(self.geometries(layer="mixed"), {3: square})
        self.assertEqual(len(self.rows(self.out, "points")), 1)
        self.assertEqual(self.change("SELECT id FROM rtree_mixed",
                                     path=self.out), [(3,)])
        self.run_clean("--layer", "parcels")
        self.assertEqual(self.rows(self.out, "mixed"),
                         self.rows(self.given, "mixed"))

    def test_strange_names_and_a_layer_that_stays(self):
        self.fill(SPIKED_BLOB)
        self.fill(SQUARE_BLOB, layer="clean")
        self.change("""ALTER TABLE parcels RENAME TO "PAR ""'cels" """)
        for old, new in ("fid", "the \"'id"), ("geom", "a \"'b"):
            self.change("""ALTER TABLE "PAR ""'cels" RENAME """
                        f"{old} TO {geopackage._quoted(new)}")
        name = "par \"'cels"
        self.change("UPDATE gpkg_contents SET table_name = ?"
                    " WHERE table_name = 'parcels'", name)
        self.change("UPDATE gpkg_geometry_columns SET table_name = ?,"
                    " column_name = ?, geometry_type_name = 'CurvePolygon'"
                    " WHERE table_name = 'parcels'", name, "A \"'b")
        self.run_clean()
        self.assertEqual(self.geometries(layer="""'par "''cels'"""), {
            3: io.to_wkt(polygons([SQUARE]))[0]})
        self.assertEqual(self.change(
            "SELECT table_name, last_change = 'then' FROM gpkg_contents",
            path=self.out), [(name, 0), ("clean", 1)])

    def test_high_byte_first(self):
        """It stays, but with an SRID, an open ring or a -0 at the end."""
        points = 0, 0, 8, 0, 8, 8
        stays, *others = (
            blob(struct.pack(f">B{len(head)}I{len(its)}d", 0, *head, *its))
            for head, its in (((3, 1, 4), (*points, 0, 0)),
                              ((0x20000003, 4326, 1, 4), (*points, 0, 0)),
                              ((3, 1, 3), points),
                              ((3, 1, 4), (*points, 0, -0.0))))
        self.fill(stays, *others)
        self.run_clean()
        same, *new = [its for *_, its in self.rows(self.out)]
        self.assertEqual(same, stays)
        self.assertEqual([its[40:] for its in new], io.to_wkb(polygons(
            [[(0, 0), (8, 0), (8, 8)]])) * 3)

    def test_a_trigger_that_writes_points(self):
        """Which have no envelope; the bytes of one are high ones first."""
        self.fill(*[SQUARE_BLOB] * 2)
        self.change("CREATE TABLE labels (fid INTEGER, name TEXT, geom BLOB)")
        for fid, one in enumerate((POINT, blob(struct.pack(
                ">BI3d", 0, 1001, 7, -8, 9)))):
            self.change("INSERT INTO labels VALUES (?, '', ?)", fid, one)
        self.fill(layer="gone", kind="POINT")
        self.change("CREATE TRIGGER other AFTER DELETE ON parcels BEGIN"
                    " INSERT INTO gone SELECT * FROM labels; END")
        self.run_clean(call="dedup")
        self.assertEqual(
            self.change("SELECT * FROM rtree_gone", path=self.out),
            [(0, 1, 1, 2, 2), (1, 7, 7, -8, -8)])

    def test_equal_features_of_a_layer(self):
        turned = blob(io.to_wkb(polygons([SQUARE[:0:-1] + SQUARE[:1]]))[0])
        self.fill(SPIKED_BLOB, FLAT_BLOB, turned, None, FLAT_BLOB, SQUARE_BLOB)
        self.fill(SQUARE_BLOB, layer="other", kind="SURFACE")
        for largest in (1, 1 << 22):
            with mock.patch.object(blocks, "_LARGEST", largest):
                told, _ = self.run_clean("--report", call="dedup")
            self.assertEqual(told, """\
features with polygons: 6 before, 4 after
gone: layer 'parcels', fid 7, equal to layer 'parcels', fid 3
gone: layer 'parcels', fid 13, equal to layer 'parcels', fid 3
""")
        self.assertEqual(self.rows(self.out), [
            row for row in self.rows(self.given) if row[0] not in (7, 13)])
        self.run_clean("--oriented", call="dedup")
        self.assertIn(7, self.geometries())
        self.run_clean("--others", "drop", call="dedup")
        self.assertEqual([*self.geometries()], [3, 5, 11])


    @unittest.skipUnless(HAS_MATPLOTLIB, "there is no matplotlib")
    def test_a_plot_of_a_layer_with_dollars(self):
        self.fill(SPIKED_BLOB)
        name, picture = r"a$_$\$b", self.folder / "plot.svg"
        self.rename(name)
        with mock.patch.object(plot, "_MOST", 1):
            self.run_clean("--plot", picture)
        self.assertIn(f"layer {name!r}, fid 3: 3 fewer", picture.read_text())

    def test_a_name_that_standard_output_has_no_letters_for(self):
        self.fill(FLAT_BLOB)
        self.rename("pole \u0142")
        for words, status in ((["simplify", self.given, self.out, "--report",
                                "--collapsed", "empty"], 0),
                              (["check", self.given], 1)):
            run = subprocess.run(
                [sys.executable, "-m", "i_shape", *words, "--step", "0.1"],
                env={**os.environ, "PYTHONIOENCODING": "latin-1"},
                capture_output=True, check=False)
            self.assertEqual(run.returncode, status, run.stderr)
            self.assertIn(rb"layer 'pole \u0142', fid 3", run.stdout)


class Errors(GeoPackageCase):

    def assert_error(self, *words, told, call="simplify"):
        """It fails and says this, and each file stays as it was.

        OUT is new, is there, or is IN.
        """
        for out, is_there in ((self.out, False), (self.out, True),
                              (self.given, True)):
            self.out.unlink(missing_ok=True)
            if is_there:
                self.fill_out()
            before = self.bytes_of_files()
            _, error = self.run_clean(*words, call=call, status=1, out=out)
            self.assertIn(told.replace(str(self.out), str(out)), error)
            self.assertEqual(error.count("\n"), 1, error)
            self.assertEqual(self.bytes_of_files(), before)

    def test_faulty_geometries_name_layer_and_fid(self):
        self.fill(SQUARE_BLOB, SQUARE_BLOB)
        for one, told in (
                (SQUARE_BLOB[:7], "isn't a geometry of GeoPackage"),
                (b"PG" + SQUARE_BLOB[2:], "isn't a geometry of GeoPackage"),
                (SQUARE_BLOB[8:], "isn't a geometry of GeoPackage"),
                ("text", "isn't a geometry of GeoPackage"),
                (2 ** 60, "isn't a geometry of GeoPackage"),
                (b"GP\0\x0b" + SQUARE_BLOB[4:], "isn't a geometry"),
                (b"GP\0\x21" + SQUARE_BLOB[4:], "of an extension"),
                (SQUARE_BLOB[:50], "5 points need 80 bytes"),
                (b"GP\0\3" + SQUARE_BLOB[4:], "byte"),
                (blob(SQUARE_BLOB[8:], 4327), "its SRS is 4327, and that of"
                 " the layer 4326"),
                (POINT, "not a Point"),
                (blob(io.to_wkb(polygons([[(0, 0), (1e300, 1), (2, 2)]]))[0]),
                 "polygon 0, ring 0, point 1: x is 1e+300")):
            self.change("DROP TRIGGER IF EXISTS rtree_parcels_update1")
            self.change("UPDATE parcels SET geom = ? WHERE fid = 5", one)
            with self.subTest(told=told):
                self.assert_error(told=told)
                self.assert_error(told="layer 'parcels', fid 5")

    def test_files_that_are_no_geopackages(self):
        for text, told in ((b"", "it is no GeoPackage"), (b"x" * 9999, "not"),
                           (b"SQLite format 3\0" + b"x" * 9999, "")):
            self.given.write_bytes(text)
            self.assert_error(told=told or str(self.given))
        self.given.unlink()
        self.assert_error(told="[Errno 2]")
        self.fill(*[SQUARE_BLOB] * 2000)
        self.given.write_bytes(self.given.read_bytes()[:99_000])
        self.assert_error(told=f"i_shape: {self.given}: ")

    def test_layers_that_can_not_be_written(self):
        self.fill(SQUARE_BLOB)
        self.assert_error("--layer", "none", told="there is no layer 'none'"
                            ": those there are 'parcels'")
        column = "UPDATE gpkg_geometry_columns SET column_name = ?"
        self.change(column, "the_geom")
        self.assert_error(told="layer 'parcels' has no column 'the_geom'")
        self.change(column, "geom")
        self.change("CREATE VIEW seen AS SELECT * FROM parcels")
        self.change("INSERT INTO gpkg_geometry_columns VALUES"
                    " ('seen', 'geom', 'POLYGON', 4326)")
        self.assert_error(told="layer 'seen' is a view")
        self.change("UPDATE gpkg_geometry_columns SET table_name = 'gone'"
                    " WHERE table_name = 'seen'")
        self.assert_error(told="layer 'gone' is no table")
        self.change("UPDATE gpkg_geometry_columns SET srs_id = NULL"
                    " WHERE table_name = 'gone'")
        self.assert_error(told="layer 'gone' has column 'geom' and SRS None")
        self.change("DELETE FROM gpkg_geometry_columns"
                    " WHERE table_name = 'gone'")
        self.change("CREATE TABLE keyless (geom)")
        self.change("INSERT INTO gpkg_geometry_columns VALUES"
                    " ('keyless', 'geom', 'POLYGON', 4326)")
        self.assert_error(told="layer 'keyless' has no integer primary key")

    def test_a_trigger_of_strange_functions(self):
        self.fill(SPIKED_BLOB)
        self.change("CREATE TRIGGER other AFTER UPDATE ON parcels BEGIN"
                    " SELECT strange(NEW.geom); END")
        self.assert_error(told=f"i_shape: {self.out}: layer 'parcels': no"
                            " such function: strange")

    def test_a_trigger_that_writes_a_line_without_an_envelope(self):
        self.fill(*[SQUARE_BLOB] * 2)
        self.fill(layer="gone", kind="LINESTRING")
        line = blob(struct.pack("<BII4d", 1, 2, 2, 0, 0, 7, 8))
        self.change("CREATE TABLE labels AS SELECT ? AS geom", line)
        self.change("CREATE TRIGGER other AFTER DELETE ON parcels BEGIN"
                    " INSERT INTO gone SELECT 1, '', geom FROM labels; END")
        self.assert_error(call="dedup", told=f"{self.out}: layer 'parcels': a"
                          " trigger writes a geometry without an envelope,"
                          " which is neither a point nor a flat polygon\n")

    def test_a_trigger_that_undoes_or_changes_what_was_written(self):
        self.fill(SPIKED_BLOB, SPIKED_BLOB, SQUARE_BLOB)
        for call, when, then in (
                ("simplify", "BEFORE UPDATE", "SELECT RAISE(IGNORE)"),
                ("simplify", "AFTER UPDATE OF geom", "UPDATE parcels"
                 " SET geom = OLD.geom WHERE fid = OLD.fid"),
                ("simplify", "AFTER UPDATE", "DELETE FROM parcels"
                 " WHERE fid = OLD.fid"),
                ("dedup", "BEFORE DELETE", "SELECT RAISE(IGNORE)"),
                ("dedup", "AFTER DELETE", "INSERT INTO parcels"
                 " VALUES (OLD.fid, OLD.name, NULL)")):
            self.change(f"CREATE TRIGGER other {when} ON parcels"
                        f" WHEN OLD.fid = 5 BEGIN {then}; END")
            self.assert_error(call=call, told=f"{self.out}: layer 'parcels',"
                                " fid 5: a trigger undid or changed what was"
                                " written\n")
            self.change("DROP TRIGGER other")

    def test_a_feature_without_a_key(self):
        self.fill()
        for words in ("DROP TABLE parcels", "CREATE TABLE parcels ("
                      "fid INTEGER PRIMARY KEY DESC, name TEXT, geom BLOB)",
                      "INSERT INTO parcels VALUES (NULL, '', NULL)"):
            self.change(words)
        self.assert_error(told="layer 'parcels' has a feature without a key")

    def test_a_file_by_another_name(self):
        self.fill(SPIKED_BLOB)
        os.link(self.given, self.out)
        before = self.bytes_of_files()
        self.assertIn(f"{self.out}: it is a hard link to {self.given}\n",
                      self.run_clean(status=1)[1])
        self.assertEqual(self.bytes_of_files(), before)

    def test_an_out_that_is_no_database(self):
        self.fill(SPIKED_BLOB)
        self.out.write_text("as it was")
        before = self.bytes_of_files()
        self.assertIn("out.gpkg: file is not a database",
                      self.run_clean(status=1)[1])
        self.assertEqual(self.bytes_of_files(), before)
        self.out.write_text("")
        self.run_clean()
        self.assertEqual(len(self.rows(self.out)), 1)

    def test_an_out_with_pages_of_another_size(self):
        self.fill(SPIKED_BLOB)
        for mode in "delete", "wal":
            self.out.unlink(missing_ok=True)
            with contextlib.closing(sqlite3.connect(self.out)) as store:
                store.execute("PRAGMA page_size = 1024")
                store.execute(f"PRAGMA journal_mode = {mode}")
                store.execute("CREATE TABLE other (number)")
            before = self.bytes_of_files()
            if mode == "delete":
                self.run_clean()
                self.assertEqual(len(self.rows(self.out)), 1)
            else:
                self.assertIn("its pages have 1024 bytes, which can't change"
                              " in WAL mode", self.run_clean(status=1)[1])
                self.assertEqual(self.bytes_of_files(), before)

    def test_journal_modes_of_in_and_of_out(self):
        self.fill(SPIKED_BLOB)
        for given in "wal", "delete":
            self.change(f"PRAGMA journal_mode = {given}")
            self.run_clean()
            self.assertEqual(self.mode_of(self.out), given)
            for mode in "wal", "delete":
                self.change(f"PRAGMA journal_mode = {mode}", path=self.out)
                self.run_clean()
                self.assertEqual(self.mode_of(self.out), mode)
            self.out.unlink()

    def test_an_out_that_another_makes_meanwhile(self):
        """As late as while the new file is stored, or takes its name."""
        self.fill(SPIKED_BLOB)
        for of, name in ((geopackage.GeoPackage, "end"), (os, "fsync"),
                         (os, "link")):
            call = getattr(of, name)

            def make_and_call(*words):
                self.fill_out()
                return call(*words)

            self.out.unlink(missing_ok=True)
            with self.subTest(name=name), mock.patch.object(
                    of, name, make_and_call):
                self.assertEqual(
                    self.run_clean(status=1)[1], f"i_shape: [Errno 17] File"
                    f" exists: '{self.out}'\n")
                self.assertEqual(
                    self.change("SELECT * FROM other", path=self.out),
                    [("as it was",)])
                self.assertEqual(sorted(self.folder.glob(".*")), [])

    def test_a_log_that_another_makes_while_the_new_file_is_stored(self):
        self.fill(SPIKED_BLOB)
        log = self.folder / "out.gpkg-wal"
        with mock.patch.object(os, "fsync", lambda _: log.write_text("")):
            self.assertIn("out.gpkg-wal beside it says that another",
                          self.run_clean(status=1)[1])
        self.assertFalse(self.out.exists())

    def test_a_new_file_where_there_are_no_links(self):
        self.fill(SPIKED_BLOB)
        error = OSError(errno.EPERM, os.strerror(errno.EPERM))
        with mock.patch.object(os, "link", side_effect=error):
            self.run_clean()
            self.assertEqual(len(self.rows(self.out)), 1)
            self.out.unlink()

            def make(*_):
                self.fill_out()
                raise error

            with mock.patch.object(os, "link", make):
                self.assertIn("File exists", self.run_clean(status=1)[1])
        self.assertEqual(self.change("SELECT * FROM other", path=self.out),
                         [("as it was",)])

    def test_a_new_file_where_the_log_of_another_is(self):
        self.fill(SPIKED_BLOB)
        for end, text in ("-wal", ""), ("-shm", ""), ("-journal", "as it was"):
            log = self.folder / f"out.gpkg{end}"
            log.write_text(text)
            before = self.bytes_of_files()
            self.assertIn(f"out.gpkg{end} beside it says that another",
                          self.run_clean(status=1)[1])
            self.assertEqual(self.bytes_of_files(), before)
            log.unlink()

    def test_a_file_that_may_only_be_read(self):
        self.fill(SPIKED_BLOB)
        self.given.chmod(0o400)
        self.run_clean()
        self.assertEqual(self.out.stat().st_mode & 0o200, 0o200)

    def test_a_full_disk(self):
        self.fill(*[SPIKED_BLOB] * 2000)
        program = textwrap.dedent("""
            import resource
            import runpy
            import sys
            limit = int(sys.argv.pop(1))
            resource.setrlimit(resource.RLIMIT_FSIZE, (limit, limit))
            runpy.run_module("i_shape", run_name="__main__", alter_sys=True)
        """)
        self.fill_out()
        lines = self.folder / "out.geojson"
        given = self.folder / "given.geojsonl"
        for path, out in ((self.given, self.out), (given, lines)):
            if path == given:
                given.write_text(
                    "".join(f'{{"type": "Feature", "geometry": {one}}}\n'
                            for one in ["null"] * 9000))
                lines.write_text("as it was")
            before = self.bytes_of_files()
            run = subprocess.run(
                [sys.executable, "-c", program, "150000", "simplify", path,
                 out, "--step", "0.1"], capture_output=True, text=True,
                check=False)
            self.assertEqual(run.returncode, 1, run.stderr)
            self.assertRegex(run.stderr, "(?m)^i_shape: .*(full|disk|large)")
            self.assertEqual(self.bytes_of_files(), before)


@unittest.skipUnless(HAS_GDAL, WHY_NOT)
class OfGdal(GeoPackageCase):

    def test_a_file_of_gdal_stays_one(self):
        document = self.write(samples.geojson(
            samples.polygon(SPIKED), None, samples.polygon(FLAT)))
        subprocess.run(["ogr2ogr", "-f", "GPKG", self.given, document,
                        "-nln", "parcels"], check=True, capture_output=True)
        self.run_clean("--collapsed", "empty")
        told = subprocess.run(
            ["ogrinfo", "-al", "-q", self.out], check=True, text=True,
            capture_output=True).stdout
        self.assertIn("POLYGON ((0.5 0.0,0.9 0.0,0.9 0.4,0.5 0.4,0.5 0.0))",
                      told)
        self.assertIn("POLYGON EMPTY", told)
        rows = self.change("SELECT count(*) FROM rtree_parcels_geom",
                           path=self.out)
        self.assertEqual(rows, [(1,)])
        self.assertFalse(os.path.exists(f"{self.out}-journal"))

    def test_a_second_run(self):
        """In place no byte changes; SQLite counts what replaces a file."""
        self.fill(SPIKED_BLOB, SQUARE_BLOB)
        words = "--step", "0.1"
        self.run_command("simplify", self.given, self.given, *words)
        before = self.bytes_of_files()
        self.run_command("simplify", self.given, self.given, *words)
        self.assertEqual(self.bytes_of_files(), before)
        for _ in range(2):
            self.run_command("simplify", self.given, self.out, *words)
        counted = [place for place, (one, other) in enumerate(
            zip(self.given.read_bytes(), self.out.read_bytes()))
            if one != other]
        self.assertTrue(set(counted) <= {*range(24, 28), *range(40, 44),
                                         *range(92, 96)}, counted)

    def by_gdal(self, *words):
        return subprocess.run(list(map(str, words)), check=True, text=True,
                              capture_output=True).stdout

    def test_areas_of_degrees_and_of_metres(self):
        document = self.write(samples.geojson(samples.polygon(SPIKED)))
        for srs, unit in (("EPSG:4326", "degrees"), ("EPSG:25832", "units")):
            self.given.unlink(missing_ok=True)
            self.by_gdal("ogr2ogr", "-f", "GPKG", self.given, document,
                         "-a_srs", srs, "-nln", "parcels")
            told, _ = self.run_command("despike", self.given, self.out,
                                       "--step", "0.1", "--report")
            self.assertIn(f"\narea as given: 0.16 square {unit}\n", told)
            self.assertIn(f"\narea after: 0.16 square {unit}, 16 cells", told)

    def test_a_shapefile_by_way_of_a_package(self):
        """The road that the page and the error name."""
        metres = [(500000 + 10 * x, 5400000 + 10 * y) for x, y in SPIKED]
        document = self.write(samples.geojson(samples.polygon(metres)))
        given, cleaned = (self.folder / name
                          for name in ("parcels.shp", "cleaned.shp"))
        self.by_gdal("ogr2ogr", given, document, "-a_srs", "EPSG:25832")
        package = self.folder / "parcels.gpkg"
        self.by_gdal("ogr2ogr", package, given)
        self.run_command("despike", package, package, "--step", "0.001")
        self.by_gdal("ogr2ogr", cleaned, package)
        before, after = (self.by_gdal("ogrinfo", "-al", path)
                         for path in (given, cleaned))
        for path, told, points in ((given, before, 8), (cleaned, after, 6)):
            self.assertIn("ETRS89 / UTM zone 32N", told)
            shape, = [line for line in told.splitlines() if "POLYGON" in line]
            self.assertEqual(shape.count(",") + 1, points, path)
            self.assertRegex(shape, r"500005(\.0)? 5400000(\.0)?")


if __name__ == "__main__":
    unittest.main()

"""The bytes that the Python command, GDAL and SpatiaLite have of the same geometries, where each is there."""
import importlib.util
import json
import os
import random
import re
import shutil
import sqlite3
import subprocess
import sys
import tempfile
import unittest

from shapes import CLEAN, CLEAN_SEVERAL, MODULE, SEVERAL, SQUARE, connect, geopackage, spatialite, wkb

SCHEMA = """
CREATE TABLE gpkg_contents (table_name TEXT PRIMARY KEY, last_change TEXT);
CREATE TABLE gpkg_geometry_columns (table_name TEXT, column_name TEXT, geometry_type_name TEXT, srs_id INTEGER);
CREATE TABLE parcels (fid INTEGER PRIMARY KEY, geom BLOB);
INSERT INTO gpkg_contents VALUES ('parcels', 'then');
INSERT INTO gpkg_geometry_columns VALUES ('parcels', 'geom', 'GEOMETRY', 4326);
"""


def random_ring(numbers):
    """On few places, so that vertices are collinear, and rings have spikes and collapse; some not on the grid, or with a zero below zero."""
    points = [(numbers.randrange(-9, 9) * numbers.choice((1, 1, 1, 0.3, -0.0)), numbers.randrange(-9, 9) / 2) for _ in range(numbers.randrange(3, 9))]
    return [*points, points[0]]


def random_text(numbers):
    polygons = ["(%s)" % ",".join("(%s)" % ",".join(f"{x!r} {y!r}" for x, y in random_ring(numbers)) for _ in range(numbers.randrange(1, 4)))
                for _ in range(numbers.choice((0, 1, 1, 1, 2, 3)))]
    return "POLYGON" + polygons[0] if len(polygons) == 1 else f"MULTIPOLYGON({','.join(polygons)})" if polygons else "MULTIPOLYGON EMPTY"


def random_blobs(count):
    numbers = random.Random(70)
    # the last point of a ring with either zero
    texts = [CLEAN, CLEAN_SEVERAL, *(re.sub(r",-?0(\.0)? (?=[^,()]+\))", numbers.choice((",0 ", ",-0.0 ")), random_text(numbers)) for _ in range(count))]
    with_srids = [geopackage(CLEAN)[:40] + wkb(CLEAN, order, 4326) for order in "<>"]
    return with_srids + [geopackage(text, 4326, numbers.choice((0, 2, 4)), *(numbers.choice("<<>") for _ in range(2))) for text in texts]


def run(*words, **environment):
    ran = subprocess.run(words, env={**os.environ, **environment}, capture_output=True, text=True, check=False)
    if ran.returncode or "ERROR" in ran.stderr:
        raise AssertionError(f"{words} ended with {ran.returncode}: {ran.stdout}{ran.stderr}")
    return ran.stdout


class FolderCase(unittest.TestCase):

    def setUp(self):
        folder = tempfile.TemporaryDirectory()
        self.addCleanup(folder.cleanup)
        self.given = os.path.join(folder.name, "given.gpkg")
        self.out = os.path.join(folder.name, "out.gpkg")
        self.text = os.path.join(folder.name, "given.geojson")

    def rows(self, path, words):
        database = connect(path=path)
        try:
            return database.execute(words).fetchall()
        finally:
            database.close()


def needs(is_there, what, why_not):
    """Leaves a case out, and says why."""
    if not is_there:
        print(f"{what} are not tested: {why_not}", file=sys.stderr)
    return unittest.skipUnless(is_there, why_not)


@needs(importlib.util.find_spec("numpy") and importlib.util.find_spec("i_shape"), "the command's bytes", "there is no Python package, or no numpy for it")
class CommandTest(FolderCase):

    def test_command(self):
        """A SELECT has each blob as the command writes it, those that stay as they are too."""
        database = sqlite3.connect(self.given)
        database.executescript(SCHEMA)
        database.executemany("INSERT INTO parcels (geom) VALUES (?)", [(blob,) for blob in random_blobs(2000)])
        database.commit()
        database.close()
        for name, step in ("simplify", "0.5"), ("simplify", "0.3"), ("despike", "0.1"), ("canonical", "3"):
            run(sys.executable, "-m", "i_shape", name, self.given, self.out, "--step", step, "--collapsed", "empty")
            with self.subTest(name=name, step=step):
                ours = self.rows(self.given, f"SELECT fid, i_shape_{name}(geom, {step}) FROM parcels ORDER BY fid")
                self.assertEqual(ours, self.rows(self.out, "SELECT fid, geom FROM parcels ORDER BY fid"))
            os.remove(self.out)


@needs(shutil.which("ogr2ogr") and shutil.which("ogrinfo"), "the calls in GDAL", "there is no GDAL")
class GdalTest(FolderCase):

    def setUp(self):
        super().setUp()
        rings = [[(k, 0), (k + 0.25, 0), (k + 0.5, 0), (k + 0.5, 0.5), (k + 0.5, 0.9), (k + 0.5, 0.5), (k, 0.5), (k, 0)] for k in range(100)]
        features = [{"type": "Feature", "properties": {"name": f"parcel {k}"}, "geometry": {"type": "Polygon", "coordinates": [ring]}}
                    for k, ring in enumerate(rings)]
        with open(self.text, "w", encoding="utf-8") as text:
            json.dump({"type": "FeatureCollection", "features": features}, text)
        run("ogr2ogr", self.given, self.text, "-nln", "parcels")
        self.wanted = self.rows(self.given, "SELECT fid, i_shape_despike(geom, 0.1) FROM parcels")

    def test_update(self):
        """By GDAL's SQL, and by the second entry alone; GDAL reads both, and their index."""
        shutil.copy(self.given, self.out)
        run("ogrinfo", self.out, "-sql", "UPDATE parcels SET geom = i_shape_despike(geom, 0.1)", OGR_SQLITE_LOAD_EXTENSIONS=MODULE)
        database = connect("sqlite3_modishapegpkg_init", self.given)
        database.execute("UPDATE parcels SET geom = i_shape_despike(geom, 0.1)")
        database.close()
        for path in self.given, self.out:
            self.assertEqual(self.rows(path, "SELECT fid, geom FROM parcels"), self.wanted)
            index = self.rows(path, "SELECT max(maxy), count(*), (SELECT rtreecheck('rtree_parcels_geom')) FROM rtree_parcels_geom")
            self.assertEqual(index, [(0.5, 100, "ok")])
            told = run("ogrinfo", "-q", path, "parcels", "-fid", "7", "-spat", "6", "0", "6.4", "1")
            self.assertIn("POLYGON ((6 0,6.2 0,6.5 0,6.5 0.5,6 0.5,6 0))", told.replace(".0", ""))

    def test_select(self):
        """Measures and geometries, of GDAL's own blobs."""
        words = "SELECT i_shape_area_two(geom, 0.1) AS cells, i_shape_despike(geom, 0.1) AS geom FROM parcels WHERE fid = 1"
        told = run("ogrinfo", "-q", self.given, "-sql", words, OGR_SQLITE_LOAD_EXTENSIONS=MODULE)
        self.assertRegex(told, r"cells \(Integer(64)?\) = 50")
        self.assertIn("POLYGON ((0 0,0.2 0,0.5 0,0.5 0.5,0 0.5,0 0))", told.replace(".0", ""))
        words = "SELECT i_shape_contact_points(geom, 0.1) AS geom FROM parcels WHERE fid = 1"
        told = run("ogrinfo", "-q", self.given, "-sql", words, OGR_SQLITE_LOAD_EXTENSIONS=MODULE)
        self.assertRegex(told, r"MULTIPOINT \(\(?0\.5 0\.5\)?,\(?0\.5 0\.9\)?\)")


def with_spatialite():
    database = connect()
    database.enable_load_extension(True)
    try:
        database.load_extension("mod_spatialite")
    except sqlite3.OperationalError:
        return None
    return database


@needs(with_spatialite(), "SpatiaLite's own blobs", "there is no mod_spatialite")
class SpatiaLiteTest(unittest.TestCase):

    def test_spatialite(self):
        database = with_spatialite()

        def ask(words, *values):
            return database.execute(f"SELECT {words}", values).fetchone()

        for given, wanted in ((SQUARE, CLEAN), (SEVERAL, CLEAN_SEVERAL)):
            blob, bare = ask("GeomFromText(?1, 4326), ST_AsBinary(GeomFromText(?1))", given)
            self.assertEqual((blob, bare), (spatialite(given), wkb(given)))
            left, = ask("i_shape_simplify(?, 1)", blob)
            self.assertEqual((left,), ask("GeomFromText(?, 4326)", wanted))
            self.assertEqual(ask("ST_AsText(?1), ST_SRID(?1), ST_IsValid(?1)", left), ask("ST_AsText(GeomFromText(?)), 4326, 1", wanted))
            self.assertEqual(ask("i_shape_digest(?, 1)", blob), ask("i_shape_digest(?, 1)", bare))
        self.assertEqual(ask("i_shape_winding(GeomFromText(?, 7), MakePoint(1, 1, 7), 1)", CLEAN), (1,))
        crossed, points = "POLYGON((0 0,4 4,4 0,0 4,0 0),(0 1,0 2,-1 2,0 1))", "MULTIPOINT(0 1,0 2,2 2)"
        self.assertEqual(ask("i_shape_contact_points(GeomFromText(?, 4326), 1)", crossed), ask("GeomFromText(?, 4326)", points))
        self.assertEqual(ask("i_shape_simplify(AsGPB(GeomFromText(?, 7)), 1)", SQUARE), (geopackage(CLEAN, 7),))
        for words, wanted in [("CompressGeometry(GeomFromText('POLYGON((0 0,4 0,4 4,0 0))'))", "a compressed geometry"), ("MakePoint(1, 2)", "not a Point"),
                              ("GeomFromText('POLYGONZ((0 0 1,4 0 1,4 4 1,0 0 1))')", "has Z or M")]:
            with self.assertRaisesRegex(sqlite3.OperationalError, wanted):
                ask(f"i_shape_simplify({words}, 1)")


if __name__ == "__main__":
    unittest.main()

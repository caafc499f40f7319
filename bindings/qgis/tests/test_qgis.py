"""The algorithms by qgis_process, beside the command, on GeoPackages and a shapefile. QGIS_PROCESS names the program, and ogr2ogr makes the files. Where
MOD_I_SHAPE names the extension of SQLite, and PGHOST a server with that of PostgreSQL, their calls are beside the command too."""
import json
import os
import random
import re
import sqlite3
import struct
import subprocess
import sys
import tempfile
import unittest
from pathlib import Path
from unittest import mock

CLEANED = ("simplify", "despike", "canonical")
CALLS = (*CLEANED, "dedup")
BOXES = (0, 32, 48, 48, 64)
SPIKE = [[0, 0], [4, 0], [4, 4], [4, 9], [4, 4], [0, 0]]
THIN = [[0, 0], [0.1, 0], [0.1, 0.1], [0, 0]]
SQUARE = [[0, 0], [8, 0], [8, 8], [0, 8], [0, 0]]
TRIANGLE = [[1, 1], [6, 1], [1, 6], [1, 1]]
WITHIN = [[2, 2], [3, 2], [2, 3], [2, 2]]
CROSSED = [[0.1, 0], [4, 4], [4, 0], [0, 4], [0.1, 0]]
# By FID the polygons of a feature, and the kind, the polygon and the ring of its first fault.
TESTED = {
    2: ([[SQUARE], [THIN]], ["too few points", 1, 0]),
    3: ([[SQUARE, TRIANGLE]], None),
    5: ([[SQUARE, []]], ["too few points", 0, 1]),
    7: ([[CROSSED]], ["contact", 0, 0]),
    8: ([[SQUARE], [SQUARE, [[1, 1], [8, 2], [1, 2], [1, 1]]]], ["contact", 1, 0]),
    9: ([[SQUARE, [[9, 9], [10, 9], [9, 10], [9, 9]]]], ["hole outside", 0, 1]),
    12: ([[SQUARE, TRIANGLE, WITHIN], [THIN]], ["hole within", 0, 2]),
}
# The same where rings may touch.
TESTED_TOUCHING = {
    2: ([[SQUARE, [[0, 0], [5, 1], [1, 5], [0, 0]]]], None),
    4: ([[SQUARE, [[8.1, 2], [1, 1], [1, 3], [8.1, 2]], TRIANGLE]], ["contact", 0, 1]),
    5: ([[SQUARE], [SQUARE, [[0, 2], [8.1, 2], [1, 1], [0, 2]]]], ["disconnected", 1, 0]),
    7: ([[SQUARE, [[8, 2], [9, 2], [9, 3], [8, 2]]]], ["hole outside", 0, 1]),
    8: ([[SQUARE, TRIANGLE, [[1, 1], [3, 2], [2, 3], [1, 1]]]], ["hole within", 0, 2]),
}


def ring(numbers):
    """Few points of a small grid, so that some are repeated, and some in line."""
    points = [[400000 + numbers.randrange(6) / 2, 5800000 + numbers.randrange(6) / 2] for _ in range(numbers.randrange(3, 12))]
    return points + points[:1]


def feature(fid, kind, coordinates):
    return {"type": "Feature", "id": fid, "properties": {"name": f"number {fid}"}, "geometry": kind and {"type": kind, "coordinates": coordinates}}


def random_features(count):
    numbers = random.Random(70)
    its = [feature(3 * place + 2, "MultiPolygon", [[ring(numbers) for _ in range(numbers.randrange(1, 3))] for _ in range(numbers.randrange(1, 3))])
           for place in range(count)]
    return [*its, *(dict(one, id=one["id"] + 10000) for one in its[:count // 4])]


def near(numbers, points):
    """A ring of points in hundredths, each beside the grid by less than half of one."""
    its = [[400000 + x / 100 + numbers.uniform(-0.004, 0.004), 5800000 + y / 100 + numbers.uniform(-0.004, 0.004)] for x, y in points]
    return its + its[:1]


def parcel(numbers):
    """A ring on few places, or a square, some with a spike, and holes in it, across it, outside it, in one another or of no size."""
    if numbers.randrange(3) == 0:
        return [near(numbers, [(numbers.randrange(6), numbers.randrange(6)) for _ in range(numbers.randrange(3, 12))])]
    spike = numbers.choice(([], [(40, 60), (40, 40)]))
    anywhere = [(numbers.randrange(1, 45), numbers.randrange(1, 45), numbers.randrange(12)) for _ in range(2)]
    holes = numbers.choice(([], [(9, 9, 9)], [(2, 2, 25), (4, 8, 9)], anywhere))
    return [near(numbers, [(0, 0), (20, 0), (40, 0), (40, 40), *spike, (0, 40)]),
            *(near(numbers, [(x, y), (x, y + size), (x + size, y + size)]) for x, y, size in holes)]


def parcels(count):
    """Polygons and MultiPolygons, and the first quarter of them once more."""
    numbers = random.Random(73)
    its = [feature(3 * place + 2, *(("Polygon", parcel(numbers)) if place % 2 else ("MultiPolygon", [parcel(numbers) for _ in range(numbers.randrange(1, 4))])))
           for place in range(count)]
    return [*its, *(dict(one, id=one["id"] + 10000) for one in its[:count // 4])]


def in_sql(reason):
    """A reason as SQL returns it: polygons, rings and edges count from 1, and points are those of the grid with the step 0.01."""
    counted = re.sub(r"(polygon|ring|edge) (\d+)", lambda its: f"{its[1]} {int(its[2]) + 1}", reason)
    return re.sub(r"(?<=[( ])\d+\.\d+(?=[,)])", lambda its: f"{round(float(its[0]) * 100) / 100:.15g}", counted)


def bare(blob):
    """The WKB of a GeoPackage's blob."""
    return blob and blob[8 + BOXES[blob[3] >> 1 & 7]:]


def promoted(wkb):
    """What QGIS makes of a WKB in a layer of Polygons and MultiPolygons."""
    return struct.pack("<BII", 1, 6, wkb[5] > 0) + (wkb if wkb[5] else b"") if wkb[1] == 3 else wkb


def points_of(wkb):
    """The points of a MultiPoint, if any."""
    count, = struct.unpack_from("<I", wkb, 5) if wkb else (0,)
    return [list(struct.unpack_from("<dd", wkb, 14 + 21 * place)) for place in range(count)]


def written_faults(path):
    """By FID the reason and the points that the command has written as GeoJSON."""
    found = {}
    for its in json.loads(path.read_text())["features"]:
        fid, reason, geometry = its["properties"]["fid"], its["properties"]["reason"], its["geometry"]
        found.setdefault(fid, (reason, []))[1].extend([geometry["coordinates"]] if geometry else [])
    return found


def ask(*words):
    its = subprocess.run(words, stdout=subprocess.PIPE, stderr=subprocess.STDOUT, text=True, errors="replace")
    return its.returncode, its.stdout


class QgisTest(unittest.TestCase):

    def setUp(self):
        work = tempfile.TemporaryDirectory()
        self.addCleanup(work.cleanup)
        self.work = Path(work.name)

    def done(self, *words):
        status, told = ask(*map(str, words))
        self.assertEqual(status, 0, told)
        return told

    def package(self, features, name="given.gpkg", kind="GEOMETRY"):
        (self.work / "given.geojson").write_text(json.dumps({"type": "FeatureCollection", "features": features}))
        self.done("ogr2ogr", self.work / name, self.work / "given.geojson", "-preserve_fid", "-nln", "parcels", "-nlt", kind, "-a_srs", "EPSG:25833")
        return self.work / name

    def command(self, call, given, name, *words, step="0.5"):
        out = self.work / name
        self.done(sys.executable, "-m", "i_shape", call, given, out, "--step", step, *words)
        return out

    def ask_qgis(self, call, given, out, *words):
        return ask(os.environ["QGIS_PROCESS"], "run", f"i_shape:{call}", "--", f"INPUT={given}", f"OUTPUT={out}", *words)

    def qgis(self, call, given, name, *words, step="0.5"):
        out = self.work / name
        status, told = self.ask_qgis(call, given, out, f"STEP={step}", *words)
        self.assertEqual(status, 0, told)
        self.assertTrue(out.exists(), told)
        return out

    def rows(self, path, fields="name"):
        """The FID, fields and WKB of each feature, and the reference system of the layer."""
        store = sqlite3.connect(path)
        (table, system), = store.execute("""SELECT table_name, organization || ':' || organization_coordsys_id FROM gpkg_geometry_columns
            JOIN gpkg_spatial_ref_sys USING (srs_id)""")
        its = store.execute(f'SELECT fid, {fields}, geom FROM "{table}" ORDER BY fid').fetchall()
        rows = [(*row, bare(blob)) for *row, blob in its]
        store.close()
        return system, rows

    def same(self, call, given, words=(), choices=()):
        expected = self.rows(self.command(call, given, f"{call}.gpkg", *words))
        self.assertEqual(self.rows(self.qgis(call, given, f"qgis_{call}.gpkg", *choices)), expected)
        return expected[1]

    def faults(self, given, step, *words):
        """The faults that the command writes of a layer."""
        status, told = ask(sys.executable, "-m", "i_shape", "check", given, "--step", step, "--to", self.work / "faults.geojson", *words)
        self.assertEqual(status, 1, told)
        return written_faults(self.work / "faults.geojson"), told

    def are_as_by_command(self, given, rows):
        """The FID, the WKB of each call, the verdict and the reason of each feature are those that the command has."""
        left = [self.rows(self.command(call, given, f"{call}.gpkg", "--collapsed", "empty", step="0.01"))[1] for call in CLEANED]
        faults = {fid: in_sql(reason) for fid, (reason, _) in self.faults(given, "0.01")[0].items()}
        expected = [(its[0][0], *(wkb for *_, wkb in its), its[0][0] not in faults, faults.get(its[0][0])) for its in zip(*left)]
        self.assertEqual({row[4] for row in expected}, {True, False})
        self.assertEqual(len(rows), len(expected))
        for row, wanted in zip(rows, expected):
            self.assertEqual(row, wanted)

    def test_geopackage(self):
        """Each call gives the FIDs, attributes, bytes, reference system and faults that the command gives, but that QGIS makes each Polygon a MultiPolygon."""
        given = self.package(parcels(400))
        before = self.rows(given)[1]
        for call in CALLS:
            with self.subTest(call=call):
                words = () if call == "dedup" else ("--collapsed", "empty")
                system, left = self.rows(self.command(call, given, f"{call}.gpkg", *words, step="0.01"))
                self.assertNotEqual(left, before)
                its = self.qgis(call, given, f"qgis_{call}.gpkg", *["COLLAPSED=empty"] * bool(words), step="0.01")
                self.assertEqual(self.rows(its), (system, [(fid, name, promoted(wkb)) for fid, name, wkb in left]))
        rows = self.rows(self.qgis("validity", given, "faults.gpkg", step="0.01"), "reason")[1]
        self.assertEqual({fid: (reason, points_of(wkb)) for fid, reason, wkb in rows}, self.faults(given, "0.01")[0])

    @unittest.skipUnless(os.environ.get("MOD_I_SHAPE"), "there is no extension of SQLite")
    def test_sqlite(self):
        """The same layer by a SELECT, and among the points of its contacts those of the faults."""
        given = self.package(parcels(400))
        store = sqlite3.connect(given)
        store.enable_load_extension(True)
        store.load_extension(os.environ["MOD_I_SHAPE"])
        calls = ", ".join(f"i_shape_{call}(geom, 0.01)" for call in (*CLEANED, "is_valid", "validity_reason"))
        rows = store.execute(f"SELECT fid, {calls}, i_shape_contact_points(geom, 0.01) FROM parcels ORDER BY fid").fetchall()
        store.close()
        self.are_as_by_command(given, [(fid, *map(bare, left), verdict, reason) for fid, *left, verdict, reason, _ in rows])
        met = {fid: points_of(bare(blob)) for fid, *_, blob in rows}
        faults = [(fid, points) for fid, (reason, points) in self.faults(given, "0.01")[0].items() if " meets " in reason]
        self.assertEqual({len(points) for _, points in faults}, {1, 2})
        self.assertEqual([(fid, point) for fid, points in faults for point in points if point not in met[fid]], [])

    @unittest.skipUnless(os.environ.get("PGHOST"), "there is no server of PostgreSQL")
    def test_postgis(self):
        """The same layer in a table of PostGIS."""
        given = self.package(parcels(400))
        (self.work / "rows").write_text("".join(f"{fid}\t{wkb.hex()}\n" for fid, _, wkb in self.rows(given)[1]))
        calls = ", ".join(f"encode(ST_AsBinary(i_shape_{call}(geom, 0.01), 'NDR'), 'hex')" for call in CLEANED)
        told = self.done("psql", "-XAtq", "-v", "ON_ERROR_STOP=1", "-c", "SET client_min_messages = error", "-c", "CREATE EXTENSION i_shape CASCADE",
                         "-c", "CREATE TABLE parcels (fid int, geom geometry)", "-c", f"\\copy parcels FROM '{self.work / 'rows'}'", "-c",
                         f"SELECT fid, {calls}, i_shape_is_valid(geom, 0.01), i_shape_validity_reason(geom, 0.01) FROM parcels ORDER BY fid")
        rows = [row.split("|") for row in told.splitlines()]
        self.are_as_by_command(given, [(int(fid), *map(bytes.fromhex, left), verdict == "t", reason or None) for fid, *left, verdict, reason in rows])

    def test_oriented(self):
        turned = [[[0, 0], [4, 0], [4, 4], [0, 0]]], [[[0, 0], [4, 4], [4, 0], [0, 0]]]
        given = self.package([feature(place, "Polygon", its) for place, its in enumerate(turned, 1)])
        self.assertEqual(len(self.same("dedup", given)), 1)
        self.assertEqual(len(self.same("dedup", given, ["--oriented"], ["ORIENTED=true"])), 2)

    def test_shapefile(self):
        """The command takes it by way of a GeoPackage."""
        given = self.work / "given.shp"
        self.done("ogr2ogr", given, self.package(random_features(200)), "-nlt", "PROMOTE_TO_MULTI")
        self.done("ogr2ogr", self.work / "way.gpkg", given, "-nlt", "PROMOTE_TO_MULTI", "-nln", "parcels")
        for call in CALLS:
            with self.subTest(call=call):
                words, choices = ((), ()) if call == "dedup" else (("--collapsed", "drop"), ("COLLAPSED=drop",))
                out = self.command(call, self.work / "way.gpkg", f"{call}.gpkg", *words)
                its = self.qgis(call, given, f"qgis_{call}.gpkg", *choices)
                # a shapefile has no FIDs of its own
                self.assertEqual([row[1:] for row in self.rows(its)[1]], [row[1:] for row in self.rows(out)[1]])
                self.assertEqual(self.rows(its)[0], "EPSG:25833")
        out = self.work / "expected.shp"
        self.done("ogr2ogr", out, self.command("simplify", self.work / "way.gpkg", "out.gpkg", "--collapsed", "drop"), "-nlt", "PROMOTE_TO_MULTI")
        self.assertEqual(self.qgis("simplify", given, "out.shp", "COLLAPSED=drop").read_bytes(), out.read_bytes())

    def test_others(self):
        given = self.package([feature(2, "Polygon", [SPIKE]), feature(3, "Point", [1, 2]), feature(5, None, None),
                              feature(7, "Polygon", [[[x, y, 1] for x, y in SPIKE]])])
        out = self.work / "out.gpkg"
        status, told = self.ask_qgis("dedup", given, out, "STEP=0.5")
        self.assertNotEqual(status, 0)
        self.assertIn("fid 3: expected a Polygon or a MultiPolygon of two coordinates a point, not a Point", told)
        self.assertFalse(out.exists())
        self.assertEqual(len(self.same("despike", given, ["--others", "drop"], ["OTHERS=drop"])), 1)
        status, told = self.ask_qgis("despike", given, out, "STEP=0.5", "OTHERS=keep")
        self.assertNotEqual(status, 0)
        self.assertIn("fid 7: QGIS would drop the heights or measures of a PolygonZ in a layer of Polygons", told)
        self.assertFalse(out.exists())
        flat = self.package([feature(2, "Polygon", [SPIKE]), feature(3, "Point", [1, 2])], "flat.gpkg")
        self.assertEqual(len(self.same("despike", flat, ["--others", "keep"], ["OTHERS=keep"])), 2)

    def test_collapsed(self):
        given = self.package([feature(2, "Polygon", [SPIKE]), feature(4, "Polygon", [THIN]), feature(5, "Polygon", [THIN])])
        out = self.work / "out.gpkg"
        status, told = self.ask_qgis("simplify", given, out, "STEP=0.5")
        self.assertNotEqual(status, 0)
        self.assertIn("nothing is left of 2 of 3 features, of fid 4 first; is the step in the unit of the coordinates?", told)
        self.assertFalse(out.exists())
        for collapsed, count in (("empty", 3), ("drop", 1)):
            with self.subTest(collapsed=collapsed):
                self.assertEqual(len(self.same("simplify", given, ["--collapsed", collapsed], [f"COLLAPSED={collapsed}"])), count)

    def test_validity(self):
        """One feature for each that the command prints, with the reason and points that it prints and writes."""
        for tested, words, choices in ((TESTED, (), ()), (TESTED_TOUCHING, ["--touching"], ["TOUCHING=true"])):
            with self.subTest(choices=choices):
                given = self.package([feature(fid, "MultiPolygon", its) for fid, (its, _) in tested.items()], f"given{len(words)}.gpkg")
                out = self.work / f"out{len(words)}.gpkg"
                status, told = self.ask_qgis("validity", given, out, "STEP=0.5", *choices)
                self.assertEqual(status, 0, told)
                self.assertIn(f"{len(tested) - 1} of {len(tested)} features invalid", told)
                self.assertIn(f"INVALID:\t{len(tested) - 1}", told)
                system, rows = self.rows(out, "kind, polygon, ring, reason")
                self.assertEqual(system, "EPSG:25833")
                self.assertEqual({fid: its for fid, *its, _, _ in rows}, {fid: fault for fid, (_, fault) in tested.items() if fault})
                faults, told = self.faults(given, "0.5", *words)
                self.assertEqual({fid: (reason, points_of(wkb)) for fid, *_, reason, wkb in rows}, faults)
                self.assertEqual([f"layer 'parcels', fid {fid}: {reason}" for fid, *_, reason, _ in rows], told.splitlines()[:-1])

    def test_validity_of_others(self):
        """They are an error or aren't tested. None is lost, since none is written."""
        given = self.package([feature(2, "Polygon", [SPIKE]), feature(3, "Polygon", [[[x, y, 1] for x, y in SPIKE]]), feature(5, None, None)])
        out = self.work / "out.gpkg"
        status, told = self.ask_qgis("validity", given, out, "STEP=0.5")
        self.assertNotEqual(status, 0)
        self.assertIn("fid 3: expected a Polygon or a MultiPolygon of two coordinates a point, not a PolygonZ", told)
        self.assertFalse(out.exists())
        for others in ("keep", "drop"):
            with self.subTest(others=others):
                self.assertEqual([row[0] for row in self.rows(self.qgis("validity", given, f"{others}.gpkg", f"OTHERS={others}"), "reason")[1]], [2])

    def test_errors(self):
        """A step is needed and above 0, and coordinates within the safe range of it; the package must be there."""
        given, out = self.package([feature(2, "Polygon", [SPIKE])]), self.work / "out.gpkg"
        for words, said in (([], "STEP"), (["STEP=0"], "step is 0.0, not a finite number above 0"),
                            (["STEP=1e-20"], "fid 2, polygon 0, ring 0, point 1: x is 4.0")):
            with self.subTest(words=words):
                status, told = self.ask_qgis("simplify", given, out, *words)
                self.assertNotEqual(status, 0)
                self.assertIn(said, told)
                self.assertFalse(out.exists())
        for name, value, said in (("PYTHONPATH", "", "No module named 'i_shape'"),
                                  ("I_SHAPE_C_DIR", "/none", "/none/libi_shape.so: cannot open shared object file")):
            with self.subTest(name=name), mock.patch.dict(os.environ, {name: value}):
                status, told = self.ask_qgis("simplify", given, out, "STEP=1")
                self.assertNotEqual(status, 0)
                self.assertRegex(told, rf"The Python package i_shape can't be used: {said}.*\. Install its wheel into the Python of QGIS.")

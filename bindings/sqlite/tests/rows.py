#!/usr/bin/env python3
"""Random geometries for COPY, as lines of their WKB, a step, a point, and what SQLite returns of them: every other one from a GeoPackage, and the rest as
EWKB in either byte order. MOD_I_SHAPE names the extension.

usage: rows.py COUNT
"""
import os
import random
import sys
import tempfile

from shapes import connect, geopackage, wkb
from test_geopackage import random_text

NUMBERS = random.Random(71)
ANSWERS = ", ".join(f"i_shape_{call}" for call in (
    "simplify(geom, step)", "despike(geom, step)", "canonical(geom, step)", "canonical(geom, step, 1)", "key(geom, step)", "key(geom, step, 1)",
    "digest(geom, step)", "is_clean(geom, step)", "has_no_spikes(geom, step)", "is_valid(geom, step)",
    "validity_reason(geom, step)", "is_valid(geom, step, 1)", "validity_reason(geom, step, 1)", "contact_points(geom, step)", "area_two(geom, step)", "winding(geom, point, step)"))


def wkb_of(blob):
    """A GeoPackage's box has four sides here, or it is empty."""
    return blob[40 if blob[3] & 2 else 8:] if blob[:2] == b"GP" else blob


def column(value):
    if value is None:
        return r"\N"
    return rf"\\x{wkb_of(value).hex()}" if isinstance(value, bytes) else str(value)


def row(number):
    text, step, at = random_text(NUMBERS), NUMBERS.choice((0.5, 1, 0.1, 3, 0.3)), f"POINT({NUMBERS.randrange(-9, 9)} {NUMBERS.randrange(-9, 9)})"
    if number % 2:
        return geopackage(text, 4326, 0), step, geopackage(at, 4326, 0)
    order, srid = NUMBERS.choice("<>"), NUMBERS.choice((None, 4326))
    return wkb(text, order, srid), step, wkb(at, order, srid)


def main():
    with tempfile.TemporaryDirectory() as folder:
        database = connect(path=os.path.join(folder, "rows.gpkg"))
        database.execute("CREATE TABLE parcels (fid INTEGER PRIMARY KEY, geom BLOB, step REAL, point BLOB)")
        database.execute("BEGIN")
        database.executemany("INSERT INTO parcels (geom, step, point) VALUES (?, ?, ?)", map(row, range(int(sys.argv[1]))))
        for values in database.execute(f"SELECT geom, step, point, {ANSWERS} FROM parcels"):
            print(*map(column, values), sep="\t")
        database.close()


if __name__ == "__main__":
    main()

#!/usr/bin/env python3
"""Keeps polygons of many files in a table, each once, by canonical keys.

The table is of sqlite3, which Python has. It remembers from which files each
polygon came, under which numbers, and how it was in the first of them, so
a file that is added later finds those that are there already, whatever start
its rings have and whichever vertices lie on their edges.

    store.py STORE.sqlite IN.geojson.. --step 1e-7

prints for each file how many of its polygons are new.
"""

from __future__ import annotations

import argparse
import json
import sqlite3
import sys

import numpy as np

import i_shape
from i_shape import io

TABLES = """
CREATE TABLE IF NOT EXISTS polygons (
    id INTEGER PRIMARY KEY, key BLOB NOT NULL UNIQUE, wkt TEXT NOT NULL);
CREATE TABLE IF NOT EXISTS places (
    polygon INTEGER NOT NULL REFERENCES polygons, file TEXT NOT NULL,
    number INTEGER NOT NULL, UNIQUE (file, number));
CREATE TABLE IF NOT EXISTS grid (step REAL NOT NULL);
"""


def opened(path: str, step: float) -> sqlite3.Connection:
    """The store, all of whose polygons are on one grid."""
    store = sqlite3.connect(path)
    store.executescript(TABLES)
    known = store.execute("SELECT step FROM grid").fetchone()
    if known is None:
        with store:
            store.execute("INSERT INTO grid VALUES (?)", (step,))
    elif known != (step,):
        raise ValueError(f"{path} has the step {known[0]}, not {step}")
    return store


def read(path: str) -> io.Features:
    with open(path, encoding="utf-8") as text:
        try:
            document = json.load(text)
        except ValueError as error:  # of another format, as a GeoPackage is
            raise ValueError(f"{path} is no GeoJSON, into which `ogr2ogr -f"
                             f" GeoJSON` turns other formats: {error}"
                             ) from None
    return io.from_geojson(document)


def add(store: sqlite3.Connection, file: str, features: io.Features,
        step: float) -> tuple[int, int]:
    """Add the polygons of a file, or none where an error is raised.

    It returns how many of them are new, and how many there are, without
    those of which nothing is left.
    """
    if store.execute("SELECT 1 FROM places WHERE file = ?",
                     (file,)).fetchone():
        raise ValueError(f"{file} is in the store already")
    whole = io.features_to_grid(features, io.Grid(step))
    keys = i_shape.canonical_keys(*whole.polygons)
    count = len(keys)
    ones = np.arange(count + 1)
    texts = io.to_wkt(io.Features(features.polygons, ones,
                                  np.zeros(count, np.bool_)))
    rows = [(key, text, number) for number, (key, text)
            in enumerate(zip(keys, texts)) if key]
    with store:
        before = store.total_changes
        store.executemany("INSERT OR IGNORE INTO polygons (key, wkt)"
                          " VALUES (?, ?)", [row[:2] for row in rows])
        new = store.total_changes - before
        store.executemany(
            "INSERT INTO places SELECT id, ?, ? FROM polygons WHERE key = ?",
            [(file, number, key) for key, _, number in rows])
    return new, len(rows)


def main() -> None:
    words = argparse.ArgumentParser(
        description="Keeps polygons of many files, each once.")
    words.add_argument("store")
    words.add_argument("files", nargs="+", metavar="file")
    words.add_argument("--step", type=float, required=True,
                       help="of the grid onto which coordinates are rounded")
    options = words.parse_args()
    try:
        store = opened(options.store, options.step)
        for file in options.files:
            new, count = add(store, file, read(file), options.step)
            print(f"{file}: {new} of {count} polygons are new")
    except (OSError, ValueError, sqlite3.Error) as error:
        sys.exit(f"store.py: {error}")
    store.close()


if __name__ == "__main__":
    main()

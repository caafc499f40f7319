#!/usr/bin/env python3
"""The keys of the polygons in a folder, by one of several languages.

    keys.py python|sqlite|postgres FOLDER
    keys.py compare FOLDER LANGUAGE SECONDS

The first makes them, prints the seconds of processor time that they take, of
PostgreSQL elapsed ones, and writes them into the file that the language names,
each behind its length (64 bits). SQLite loads the extension that $MOD_I_SHAPE
names; PostgreSQL's is in the database that PGHOST and PGDATABASE name.

The second compares them with those of C: by one SHA-256, and where that differs
one by one. Of JavaScript, whose keys are other ones, it compares which are
equal; of C, which have the key of the polygon that they repeat.
"""

from __future__ import annotations

import hashlib
import os
import sqlite3
import struct
import subprocess
import sys
import time
from itertools import zip_longest
from pathlib import Path
from typing import IO, Callable, Iterable, Iterator, Optional

import numpy as np

BLOCK = 50000  # polygons in a table of SQLite
Array = np.ndarray
Keys = Iterable[Optional[bytes]]


def read(folder: Path) -> tuple[Array, Array, Array]:
    points = np.fromfile(folder / "points", "<i4").reshape(-1, 2)
    rings, polygons = (np.fromfile(folder / name, "<u4").astype(np.int64)
                       for name in ("rings", "polygons"))
    return points, rings, polygons


def wkbs(folder: Path) -> Iterator[bytes]:
    """Of each polygon the WKB."""
    points, rings, polygons = read(folder)
    numbers = points.astype("<f8").tobytes()
    ends = (16 * rings).tolist()
    of_rings = [struct.pack("<I", (end - start) // 16 + 1) + numbers[start:end]
                + numbers[start:start + 16]
                for start, end in zip(ends, ends[1:])]
    places = polygons.tolist()
    for start, end in zip(places, places[1:]):
        yield (struct.pack("<BII", 1, 3, end - start)
               + b"".join(of_rings[start:end]))


# ---- the languages ----

def by_python(folder: Path) -> tuple[float, Keys]:
    import i_shape
    given = read(folder)
    start = time.process_time()
    keys = i_shape.canonical_keys(*given)
    return time.process_time() - start, keys


def by_sqlite(folder: Path) -> tuple[float, Keys]:
    database = sqlite3.connect(":memory:")
    database.enable_load_extension(True)
    database.load_extension(os.environ["MOD_I_SHAPE"])
    database.execute("CREATE TABLE given (id INTEGER PRIMARY KEY, geom BLOB)")
    keys: list[Optional[bytes]] = []
    spent = 0.0
    rows = [(wkb,) for wkb in wkbs(folder)]
    for first in range(0, len(rows), BLOCK):
        database.executemany("INSERT INTO given (geom) VALUES (?)",
                             rows[first:first + BLOCK])
        start = time.process_time()
        found = database.execute(
            "SELECT i_shape_key(geom, 1) FROM given ORDER BY id").fetchall()
        spent += time.process_time() - start
        keys += [key for key, in found]
        database.execute("DELETE FROM given")
    return spent, keys


def ask(*words: str, stdin: Optional[IO[str]] = None) -> bytes:
    return subprocess.run(["psql", "-XAtq", "-v", "ON_ERROR_STOP=1", *words],
                          stdin=stdin, stdout=subprocess.PIPE,
                          check=True).stdout


def rows_of(copied: bytes) -> Iterator[Optional[bytes]]:
    """The values of COPY .. WITH BINARY, of one column."""
    at = 19  # behind the head
    while struct.unpack_from(">h", copied, at)[0] == 1:
        length, = struct.unpack_from(">i", copied, at + 2)
        at += 6
        yield copied[at:at + length] if length >= 0 else None
        at += max(length, 0)


def by_postgres(folder: Path) -> tuple[float, Keys]:
    key = "i_shape_wkb_key(wkb, 1)"
    lines = folder / "lines"
    with open(lines, "w") as file:
        file.writelines(f"{place}\t\\\\x{wkb.hex()}\n"
                        for place, wkb in enumerate(wkbs(folder)))
    ask("-c", "CREATE TABLE i_shape_keys (id int PRIMARY KEY, wkb bytea)")
    try:
        with open(lines) as file:
            ask("-c", "COPY i_shape_keys FROM STDIN", stdin=file)
        lines.unlink()
        ask("-c", "VACUUM ANALYZE i_shape_keys")
        told = ask("-c", "SET max_parallel_workers_per_gather = 0", "-c",
                   r"\timing", "-c",
                   f"SELECT sum(length({key})) FROM i_shape_keys").decode()
        copied = ask("-c", f"COPY (SELECT {key} FROM i_shape_keys ORDER BY id)"
                     " TO STDOUT WITH BINARY")
    finally:
        ask("-c", "DROP TABLE i_shape_keys")
    milliseconds = told.split("Time: ")[1].split()[0]
    return float(milliseconds) / 1000, rows_of(copied)


def write(folder: Path, language: str) -> None:
    ways: dict[str, Callable[[Path], tuple[float, Keys]]] = {
        "python": by_python, "sqlite": by_sqlite, "postgres": by_postgres}
    spent, keys = ways[language](folder)
    with open(folder / language, "wb") as file:
        for key in keys:
            key = key or b""  # SQL has NULL where a polygon collapses
            file.write(struct.pack("<Q", len(key)) + key)
    print(f"{spent:.3f}")


# ---- what is compared ----

def keys_in(path: Path) -> Iterator[bytes]:
    written = path.read_bytes()
    at = 0
    while at < len(written):
        length, = struct.unpack_from("<Q", written, at)
        yield written[at + 8:at + 8 + length]
        at += 8 + length


def digest_of(path: Path) -> str:
    return hashlib.sha256(path.read_bytes()).hexdigest()


def firsts_of(keys: Iterable[bytes]) -> list[int]:
    """For each key the place of the first that is equal."""
    places: dict[bytes, int] = {}
    return [places.setdefault(key, place) for place, key in enumerate(keys)]


def pairs_of(folder: Path, language: str) -> Iterator[tuple[object, object]]:
    """Of each polygon what the language has, and what it should have."""
    keys = list(keys_in(folder / "c"))
    if language == "c":
        originals = np.fromfile(folder / "originals", "<u4").tolist()
        return zip_longest(keys, [keys[place] for place in originals])
    if language == "javascript":
        firsts = np.fromfile(folder / language, "<u4").tolist()
        return zip_longest(firsts, firsts_of(keys))
    return zip_longest(keys_in(folder / language), keys)


def compared(folder: Path, language: str) -> str:
    if (language not in ("c", "javascript")
            and digest_of(folder / language) == digest_of(folder / "c")):
        return "equal"
    for place, (its, wanted) in enumerate(pairs_of(folder, language)):
        if its != wanted:
            return f"differs at {place}"
    return "equal"


def main() -> None:
    task, folder = sys.argv[1], Path(sys.argv[2])
    if task != "compare":
        write(folder, task)
        return
    language, seconds = sys.argv[3:]
    told = compared(folder, language)
    if language == "c":
        told += f", sha256 {digest_of(folder / 'c')}"
    print(f"{language:10} {float(seconds):7.2f} s  {told}", flush=True)
    sys.exit(0 if told.startswith("equal") else 1)


if __name__ == "__main__":
    main()

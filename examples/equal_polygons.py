#!/usr/bin/env python3
"""Finds equal polygons among a million, each written twice.

Every second polygon is the one before it, written anew: from another start,
and in the second table with a vertex more on an edge. Told are, for each way
to make keys, how many of these pairs are missed, the seconds, and the most
memory that the process holds meanwhile, its polygons with it. Each way has a
process of its own:

    arrays     canonical_keys of i_shape, from arrays of int32
    normalize  shapely's normalize, as WKB (Debian's python3-shapely)
    klayout    KLayout's polygons themselves, compressed (Debian's klayout)

A way whose package isn't there is left out. The polygons lie in what a way
reads, arrays or shapely's or KLayout's objects, before its clock starts; the
keys go into a set of Python.

    equal_polygons.py [--pairs N] [--threads N]
"""

from __future__ import annotations

import argparse
import os
import shutil
import subprocess
import sys
import time
from pathlib import Path
from typing import Any, Callable, Iterator

Ring = list[tuple[int, int]]
Polygon = list[Ring]


def parcel(place: int) -> Polygon:
    """A parcel of a row: every fourth has a hole."""
    x, y = 4000 * (place % 1000), 4000 * (place // 1000)
    shift = place * 7919 % 500
    outer = [(x + 2 * shift, y), (x + 3800, y + 200),
             (x + 3600, y + 3800 - 2 * shift), (x + 200, y + 3600)]
    hole = [(x + 1600, y + 1600), (x + 1600, y + 2000), (x + 2000, y + 2000),
            (x + 2000, y + 1600)]
    return [outer, hole] if place % 4 == 3 else [outer]


def written_anew(polygon: Polygon, place: int, with_vertex: bool) -> Polygon:
    """From another start, perhaps with the middle of an edge."""
    outer, *holes = polygon
    turn = 1 + place % 3
    outer = outer[turn:] + outer[:turn]
    if with_vertex:
        (ax, ay), (bx, by) = outer[0], outer[1]
        outer.insert(1, ((ax + bx) // 2, (ay + by) // 2))
    return [outer, *holes]


def polygons(pairs: int, with_vertex: bool) -> Iterator[Polygon]:
    for place in range(pairs):
        polygon = parcel(place)
        yield polygon
        yield written_anew(polygon, place, with_vertex)


def by_arrays(given: Iterator[Polygon], threads: int) -> Callable[[], Any]:
    import numpy as np

    from i_shape import canonical_keys
    points, rings, ends = [], [0], [0]
    for polygon in given:
        for ring in polygon:
            points += ring
            rings.append(len(points))
        ends.append(len(rings) - 1)
    arrays = np.array(points, np.int32), np.array(rings), np.array(ends)
    del points, rings, ends
    return lambda: canonical_keys(*arrays, threads=threads)


def by_normalize(given: Iterator[Polygon], _: int) -> Callable[[], Any]:
    from shapely.geometry import Polygon as Geometry
    geometries = [Geometry(outer, holes) for outer, *holes in given]
    return lambda: (one.normalize().wkb for one in geometries)


def by_klayout(given: Iterator[Polygon], _: int) -> Callable[[], Any]:
    import pya
    layout = []
    for outer, *holes in given:
        # Its constructor cleans unless it is told to take points raw.
        one = pya.Polygon([pya.Point(*point) for point in outer], True)
        for hole in holes:
            one.insert_hole([pya.Point(*point) for point in hole], True)
        layout.append(one)

    def keys() -> Iterator[Any]:
        for one in layout:
            one.compress(True)
            yield one

    return keys


WAYS: dict[str, Callable[[Iterator[Polygon], int], Callable[[], Any]]] = {
    "arrays": by_arrays, "normalize": by_normalize, "klayout": by_klayout}


def forget_most_memory() -> None:
    """Let the system count the most memory from here on."""
    Path("/proc/self/clear_refs").write_text("5")


def most_memory() -> int:
    """The most that this process has held since, in kilobytes."""
    lines = Path("/proc/self/status").read_text().splitlines()
    return next(int(line.split()[1]) for line in lines
                if line.startswith("VmHWM:"))


def measure(way: str, pairs: int, threads: int, with_vertex: bool) -> None:
    """Print how many keys there are, the seconds and the megabytes."""
    keys = WAYS[way](polygons(pairs, with_vertex), threads)
    forget_most_memory()
    started = time.perf_counter()
    count = len(set(keys()))
    seconds = time.perf_counter() - started
    print(count, seconds, most_memory() / 1000)


def told_by(way: str, pairs: int, threads: int,
            with_vertex: bool) -> tuple[int, float, float]:
    """What a process of its own measures."""
    words = [way, str(pairs), str(threads), str(int(with_vertex))]
    command = [sys.executable, __file__, "--measure", *words]
    environment = dict(os.environ)
    if way == "klayout":
        command = ["klayout", "-b", "-r", __file__]
        environment["EQUAL_POLYGONS"] = " ".join(words)
    run = subprocess.run(command, env=environment, check=True, text=True,
                         stdout=subprocess.PIPE)
    count, seconds, megabytes = run.stdout.split()
    return int(count), float(seconds), float(megabytes)


def is_there(way: str) -> bool:
    if way == "klayout":
        return shutil.which("klayout") is not None
    module = {"arrays": "i_shape", "normalize": "shapely"}[way]
    return subprocess.run([sys.executable, "-c", f"import {module}"],
                          check=False, capture_output=True).returncode == 0


def main() -> None:
    if "EQUAL_POLYGONS" in os.environ:  # KLayout runs this file
        way, *numbers = os.environ["EQUAL_POLYGONS"].split()
        pairs, threads, with_vertex = map(int, numbers)
        measure(way, pairs, threads, bool(with_vertex))
        return
    words = argparse.ArgumentParser(
        description="Finds equal polygons, each written twice.")
    words.add_argument("--pairs", type=int, default=500_000)
    words.add_argument("--threads", type=int, default=1,
                       help="of canonical_keys")
    words.add_argument("--measure", nargs=4, help=argparse.SUPPRESS)
    options = words.parse_args()
    if options.measure:
        way, *numbers = options.measure
        pairs, threads, with_vertex = map(int, numbers)
        measure(way, pairs, threads, bool(with_vertex))
        return
    for with_vertex in (False, True):
        print(f"{2 * options.pairs:,} polygons, the second of each pair from"
              " another start"
              + (", with a vertex more on an edge" if with_vertex else ""))
        for way in filter(is_there, WAYS):
            count, seconds, megabytes = told_by(
                way, options.pairs, options.threads, with_vertex)
            print(f"{way:9}: {count - options.pairs:,} pairs are missed,"
                  f" {seconds:.1f} s, {megabytes:.0f} MB", flush=True)


if __name__ in ("__main__", "__run__"):
    main()

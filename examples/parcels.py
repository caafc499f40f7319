#!/usr/bin/env python3
"""Finds equal parcels of two files, after each parcel was written anew.

The parcels of the second file are those of the first, in another order, each
from another start and with a vertex more on an edge, as another program may
write them. It prints how many are found again by the bytes of their
coordinates, by shapely's normalize (Debian's python3-shapely), and by
canonical_keys. Nothing is dissolved, and no tolerance is asked.

    parcels.py [--side N] [--plot FILE]
"""

from __future__ import annotations

import argparse
import random
import tempfile
import time
from pathlib import Path
from typing import Callable, Hashable

import numpy as np

import i_shape
from i_shape import io

STEP = 0.01  # of a metre
GRID = io.Grid(STEP)
Ring = list[tuple[int, int]]
Keys = Callable[[io.Features], list[Hashable]]


def cadastre(side: int, numbers: random.Random) -> list[Ring]:
    """Parcels of four corners that share them, on a grid of centimetres."""
    def shaken(place: int) -> int:
        return 4000 * place + 2 * numbers.randint(-500, 500)

    corners = {(x, y): (shaken(x), shaken(y))
               for x in range(side + 1) for y in range(side + 1)}
    return [[corners[x, y], corners[x + 1, y], corners[x + 1, y + 1],
             corners[x, y + 1]] for x in range(side) for y in range(side)]


def written_anew(ring: Ring, numbers: random.Random) -> Ring:
    """The ring from another start, with the middle of an edge."""
    start = numbers.randrange(len(ring))
    ring = ring[start:] + ring[:start]
    place = numbers.randrange(len(ring))
    (ax, ay), (bx, by) = ring[place - 1], ring[place]
    ring.insert(place, ((ax + bx) // 2, (ay + by) // 2))
    return ring


def write(path: Path, rings: list[Ring]) -> None:
    """Write a file of WKT, a parcel a line."""
    points = np.array([point for ring in rings for point in ring])
    offsets = np.cumsum([0, *map(len, rings)])
    features = io.features_of((points, offsets, np.arange(len(offsets))))
    lines = io.to_wkt(io.features_from_grid(features, GRID))
    path.write_text("".join(f"{line}\n" for line in lines))


def read(path: Path) -> io.Features:
    with open(path) as lines:
        return io.from_wkt(lines)


def keys_of(features: io.Features) -> list[Hashable]:
    """The bytes of each feature's points, and where rings and polygons end."""
    points, ends, parts = features.polygons
    keys: list[Hashable] = []
    for a, b in zip(features.feature_offsets, features.feature_offsets[1:]):
        its_parts = parts[a:b + 1]
        its_ends = ends[its_parts[0]:its_parts[-1] + 1]
        keys.append((points[its_ends[0]:its_ends[-1]].tobytes(),
                     (its_ends - its_ends[0]).tobytes(),
                     (its_parts - its_parts[0]).tobytes()))
    return keys


def canonical_keys(features: io.Features) -> list[Hashable]:
    """The keys of each feature's polygons, in any order of these."""
    whole = io.features_to_grid(features, GRID)
    keys = i_shape.canonical_keys(*whole.polygons).tolist()
    ends = whole.feature_offsets.tolist()
    return [tuple(sorted(filter(None, keys[a:b])))
            for a, b in zip(ends, ends[1:])]


def normalized_keys(features: io.Features) -> list[Hashable]:
    return [geometry.normalize().wkb for geometry in io.to_shapely(features)]


WAYS: dict[str, Keys] = {"bytes": keys_of, "normalize": normalized_keys,
                         "canonical": canonical_keys}


def found(one: io.Features, other: io.Features, keys: Keys) -> int:
    """How many features of the second file the first one has."""
    known = set(keys(one))
    return sum(key in known for key in keys(other))


def plot(path: str, rings: list[Ring], counts: dict[str, int]) -> None:
    """Draw a parcel as each file has it, and how many are found."""
    from matplotlib.figure import Figure
    import plots
    figure = Figure(figsize=(9, 3.2), layout="constrained")
    *parcels, bars = figure.subplots(1, 3)
    for axes, name, ring in zip(parcels, ("first file", "second file"),
                                rings):
        x, y = np.array(ring + ring[:1]).T * STEP
        axes.fill(x, y, color="lightsteelblue")
        axes.plot(x, y, ".-", color="black")
        for place, point in enumerate(ring):
            axes.annotate(str(place), np.multiply(point, STEP),
                          xytext=(4, 4), textcoords="offset points")
        axes.margins(0.15)
        axes.set_title(f"a parcel of the {name}", fontsize=10)
        axes.set_aspect("equal")
        axes.set_axis_off()
    bars.bar(list(counts), list(counts.values()), color="steelblue")
    bars.set_title("parcels found again", fontsize=10)
    plots.save(figure, path)


def main() -> None:
    words = argparse.ArgumentParser(
        description="Finds equal parcels that were written anew.")
    words.add_argument("--side", type=int, default=100,
                       help="of the square of parcels")
    words.add_argument("--plot", metavar="FILE")
    options = words.parse_args()
    numbers = random.Random(1)
    rings = cadastre(options.side, numbers)
    others = [written_anew(ring, numbers) for ring in rings]
    pair = rings[0], others[0]
    numbers.shuffle(others)
    with tempfile.TemporaryDirectory() as folder:
        files = Path(folder, "first.wkt"), Path(folder, "second.wkt")
        for path, its in zip(files, (rings, others)):
            write(path, its)
        one, other = map(read, files)
    counts = {}
    for name, keys in WAYS.items():
        started = time.perf_counter()
        counts[name] = found(one, other, keys)
        print(f"{name:9}: {counts[name]} of {len(others)} parcels are found"
              f" again, {time.perf_counter() - started:.2f} s")
    if options.plot:
        plot(options.plot, list(pair), counts)


if __name__ == "__main__":
    main()

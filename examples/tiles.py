#!/usr/bin/env python3
"""Compares tiles of a coastline with their neighbours' edges.

Each tile is cut out by shapely (Debian's python3-shapely), since to clip is
no task of i_shape; then it is snapped onto a grid and cleaned. Two tiles
agree on the edge that they share where both have land beside it, or neither.
Told is on how much of the edges they don't, before and after they are
cleaned, and how many vertices they have there. The data are those that
coastlines.py names.

    tiles.py [--grid N] [--plot FILE] [FILE]
"""

from __future__ import annotations

import argparse
from collections import Counter
from typing import NamedTuple

import numpy as np
from shapely import geometry, ops

import coastlines
from i_shape import io

SIDE = 1 << 16  # of a tile, in the unit of the data: about 5 degrees
BOTTOM, TOP = 24 * SIDE, 32 * SIDE  # from 30 to 70 degrees north
TILES = 8  # eastwards from Greenwich


class Tile(NamedTuple):
    """A tile on the grid, as it was cut out and as it is cleaned."""

    given: io.Features
    left: io.Features


def land(path: str) -> list[geometry.Polygon]:
    """The shores near the tiles, as polygons."""
    shores = coastlines.rings(path)
    return [geometry.Polygon(ring) for ring in shores
            if len(ring) > 2 and ring[:, 0].max() > 0
            and ring[:, 0].min() < TILES * SIDE
            and ring[:, 1].max() > BOTTOM and ring[:, 1].min() < TOP]


def cut(shores: list[geometry.Polygon], place: int, grid: io.Grid) -> Tile:
    """The tile at a place, cut out of the shores."""
    box = place * SIDE, BOTTOM, (place + 1) * SIDE, TOP
    parts = [ops.clip_by_rect(shore, *box) for shore in shores]
    polygons = [part for found in parts
                for part in getattr(found, "geoms", [found])
                if isinstance(part, geometry.Polygon) and not part.is_empty]
    given = io.features_to_grid(io.from_shapely(polygons), grid, np.int32)
    return Tile(given, io.simplify_features(given, collapsed="empty"))


def edges(features: io.Features) -> np.ndarray:
    """The edges of all rings, as (n, 2, 2) points."""
    points, ends, _ = features.polygons
    closed = io.close_rings(points, ends)
    pairs = np.stack([closed.points[:-1], closed.points[1:]], axis=1)
    inside = np.ones(len(pairs), bool)
    between = np.unique(closed.offsets)[1:-1]
    inside[between - 1] = False  # from a ring to the next one
    return pairs[inside]


def ends_on(features: io.Features, x: int) -> set[int]:
    """Where land beside the line at x begins and ends, by y.

    There an odd number of edges that lie on the line begin or end.
    """
    lines = edges(features)
    ends = lines[(lines[:, :, 0] == x).all(axis=1)][:, :, 1]
    return {y for y, count in Counter(ends.ravel().tolist()).items()
            if count % 2}


def length(ends: set[int]) -> int:
    """How long the parts are that begin and end there, in turn."""
    found = sorted(ends)
    return sum(found[1::2]) - sum(found[::2])


def differing(one: io.Features, other: io.Features, x: int) -> set[int]:
    """Where the parts begin and end that only one of the two has."""
    return ends_on(one, x) ^ ends_on(other, x)


def vertices(features: io.Features, x: int) -> int:
    """How many vertices there are on the line at x."""
    return int((features.polygons.points[:, 0] == x).sum())


def told(tiles: list[Tile], side: int) -> list[str]:
    """A line for the tiles as given, and one for them as cleaned."""
    lines = []
    for name in Tile._fields:
        its = [getattr(tile, name) for tile in tiles]
        pairs = [(one, other, (place + 1) * side)
                 for place, (one, other) in enumerate(zip(its, its[1:]))]
        count = sum(vertices(tile, x) for *both, x in pairs for tile in both)
        land = sum(length(ends_on(one, x)) for one, _, x in pairs)
        differs = sum(length(differing(*pair)) for pair in pairs)
        points = sum(len(tile.polygons.points) for tile in its)
        lines.append(f"{name:5} {points:7} {count:17} {land:14}"
                     f" {differs:23}")
    return lines


def rings_near(features: io.Features, x: int, y: float,
               span: float) -> list[np.ndarray]:
    """The rings that are no farther than the span from a point."""
    points, ends, _ = features.polygons
    rings = [points[a:b] for a, b in zip(ends, ends[1:])]
    return [ring for ring in rings
            if (ring.min(axis=0) < (x + span, y + span)).all()
            and (ring.max(axis=0) > (x - span, y - span)).all()]


def plot(path: str, tiles: list[Tile], place: int, side: int) -> None:
    """Draw the longest part of an edge that only one of its tiles has."""
    from matplotlib.collections import PolyCollection
    from matplotlib.figure import Figure
    import plots
    figure = Figure(figsize=(5, 5), layout="constrained")
    axes = figure.subplots()
    x, pair = (place + 1) * side, tiles[place:place + 2]
    found = sorted(differing(*(tile.left for tile in pair), x))
    parts = list(zip(found[::2], found[1::2]))
    low, high = max(parts, key=lambda part: part[1] - part[0])
    y, span = (low + high) / 2, max(4 * (high - low), 12)
    for tile, colour in zip(pair, ("lightsteelblue", "wheat")):
        axes.add_collection(PolyCollection(
            rings_near(tile.left, x, y, span), facecolors=colour,
            edgecolors="gray", linewidths=0.8))
    axes.axvline(x, color="gray", linewidth=0.5)
    for part in parts:
        axes.plot([x, x], part, color="crimson", linewidth=4)
    axes.set_xlim(x - span, x + span)
    axes.set_ylim(y - span, y + span)
    axes.set_aspect("equal")
    axes.set_title(f"the edge at x = {x}, red where one tile alone has land",
                   fontsize=10)
    plots.save(figure, path)


def main() -> None:
    words = argparse.ArgumentParser(
        description="Compares tiles of coastlines with their neighbours.")
    words.add_argument("--grid", type=int, default=64,
                       help="a power of two up to 65536")
    words.add_argument("--plot", metavar="FILE")
    words.add_argument("file", nargs="?", default=coastlines.FILE)
    options = words.parse_args()
    shores = land(options.file)
    side = SIDE // options.grid
    tiles = [cut(shores, place, io.Grid(options.grid))
             for place in range(TILES)]
    print("       points  vertices on edges  land on edges"
          "  of one tile alone")
    for line in told(tiles, side):
        print(line)
    if options.plot:
        worst = max(range(TILES - 1), key=lambda place: length(differing(
            tiles[place].left, tiles[place + 1].left, (place + 1) * side)))
        plot(options.plot, tiles, worst, side)


if __name__ == "__main__":
    main()

#!/usr/bin/env python3
"""Cleans the polygons of a layout, of all its cells and layers, in one call.

KLayout (Debian's klayout) reads GDSII or OASIS, runs this with the Python of
its own, and writes what is left. That Python needs the package i_shape, so
PYTHONPATH names the folder that holds it:

    klayout -b -r layout.py -rd given=IN -rd out=OUT

Rectangles, which KLayout reads as boxes, are polygons too. Paths and texts
stay as they are. A polygon that collapses is taken out, and a line names
its cell, its layer and its box in database units. A line says how many of
those left repeat an earlier one of the cell and layer, from whichever point
they start, and how many aren't valid, as where edges cross or a hole is cut
into its outer ring. With -rd times=yes, lines say how long the call took, and
how long KLayout's own Polygon.compress(true) does for the same polygons.
"""

from __future__ import annotations

import time
from array import array
from typing import NamedTuple

import numpy as np
import pya

import i_shape


_KINDS = pya.Shapes.SPolygons | pya.Shapes.SBoxes


class Place(NamedTuple):
    """A polygon in the layout."""

    cell: str
    layer: pya.LayerInfo
    shapes: pya.Shapes
    shape: pya.Shape


class Polygons(NamedTuple):
    """The polygons of a layout, end to end, and where each is."""

    places: list[Place]
    points: np.ndarray
    offsets: np.ndarray


def find(layout: pya.Layout) -> Polygons:
    """The polygons of all cells and layers."""
    places, numbers, offsets = [], array("q"), [0]
    for cell in layout.each_cell():
        for layer in layout.layer_indexes():
            info, shapes = layout.get_info(layer), cell.shapes(layer)
            for shape in shapes.each(_KINDS):
                places.append(Place(cell.name, info, shapes, shape))
                for point in shape.simple_polygon.each_point():
                    numbers.extend((point.x, point.y))
                offsets.append(len(numbers) // 2)
    return Polygons(places, np.array(numbers, np.int64).reshape(-1, 2),
                    np.array(offsets))


def put_back(polygons: Polygons, left: i_shape.Rings) -> None:
    """Give each polygon the ring that is left of it, and say which go."""
    counts, left_counts = np.diff(polygons.offsets), np.diff(left.offsets)
    changed = (left_counts == 0) | (left_counts < counts)
    for number in np.flatnonzero(changed).tolist():
        place = polygons.places[number]
        ring = left.points[left.offsets[number]:left.offsets[number + 1]]
        if len(ring):
            place.shapes.replace(place.shape, pya.SimplePolygon(
                [pya.Point(x, y) for x, y in ring.tolist()], True))
        else:
            print(f"gone: cell {place.cell}, layer {place.layer},"
                  f" box {place.shape.bbox()}")
            place.shapes.erase(place.shape)


def tell(polygons: Polygons, left: i_shape.Rings) -> None:
    """Say how many repeat an earlier one, and how many aren't valid."""
    rings = np.flatnonzero(np.diff(left.offsets))
    keys = i_shape.canonical_keys(*left)
    placed = [(polygons.places[ring].cell, str(polygons.places[ring].layer),
               keys[ring]) for ring in rings.tolist()]
    faults = i_shape.polygon_validity(*left, np.arange(len(left.offsets)))
    print(f"{len(placed) - len(set(placed))} repeat an earlier one,"
          f" {np.count_nonzero(faults['kind'][rings])} aren't valid")


def compress_seconds(polygons: Polygons) -> float:
    """How long KLayout takes for the same polygons."""
    copies = [place.shape.polygon for place in polygons.places]
    started = time.perf_counter()
    for polygon in copies:
        polygon.compress(True)
    return time.perf_counter() - started


def clean(given: str, out: str, is_timed: bool) -> None:
    """Clean the polygons of a file into another one."""
    layout = pya.Layout(True)  # it can be edited
    layout.read(given)
    polygons = find(layout)
    started = time.perf_counter()
    left = i_shape.simplify_rings(polygons.points, polygons.offsets)
    seconds = time.perf_counter() - started
    print(f"{len(polygons.places)} polygons of {len(polygons.points)} points:"
          f" {np.count_nonzero(np.diff(left.offsets))} of"
          f" {len(left.points)} are left")
    if is_timed:
        theirs = compress_seconds(polygons)
        for name, spent in (("simplify_rings", seconds),
                            ("Polygon.compress", theirs)):
            print(f"{name}: {spent * 1e3:.1f} ms,"
                  f" {len(polygons.points) / spent / 1e6:.1f} million points"
                  " a second")
    tell(polygons, left)
    put_back(polygons, left)
    layout.write(out)


if __name__ == "__main__":
    # KLayout sets the names that -rd gives.
    words = globals()
    if "given" not in words or "out" not in words:
        # KLayout keeps the message of a SystemExit to itself.
        raise ValueError("name the files: -rd given=IN -rd out=OUT")
    clean(words["given"], words["out"], "times" in words)

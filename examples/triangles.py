#!/usr/bin/env python3
"""Triangulates the coastlines of the world, as they are and cleaned.

The triangles are mapbox_earcut's (Debian's python3-mapbox-earcut), ring by
ring, on a grid that is so coarse that many points get onto a line. Told are
the triangles without an area, the rings whose triangles miss their area, how
many of these are valid polygons by shapely (Debian's python3-shapely), and
the time, the best of three. The data are those that coastlines.py names.

    triangles.py [--grid N] [--plot FILE] [FILE]
"""

from __future__ import annotations

import argparse
from typing import NamedTuple

import mapbox_earcut
import numpy as np
from shapely import geometry

import coastlines
import i_shape


class Triangles(NamedTuple):
    """The triangles of rings, as (n, 3, 2) points for each, and the time."""

    of_ring: list[np.ndarray]
    seconds: float


def triangulate(rings: i_shape.Rings) -> Triangles:
    """The triangles of each ring."""
    points = rings.points.astype(np.int32)
    ends = rings.offsets.tolist()
    places, seconds = coastlines.best(lambda: [
        mapbox_earcut.triangulate_int32(points[start:end],
                                        np.array([end - start], np.uint32))
        if end - start > 2 else np.zeros(0, np.uint32)
        for start, end in zip(ends, ends[1:])], 3)
    return Triangles([points[start:][its].reshape(-1, 3, 2)
                      for start, its in zip(ends, places)], seconds)


def doubled_areas(triangles: np.ndarray) -> np.ndarray:
    """Twice the area of each triangle."""
    wide = triangles.astype(np.int64)
    one, other = wide[:, 1] - wide[:, 0], wide[:, 2] - wide[:, 0]
    return np.abs(one[:, 0] * other[:, 1] - one[:, 1] * other[:, 0])


def missed(rings: i_shape.Rings, triangles: Triangles) -> list[np.ndarray]:
    """The rings whose triangles have another area together."""
    ends = rings.offsets.tolist()
    contours = [rings.points[start:end] for start, end in zip(ends, ends[1:])]
    return [contour for contour, its in zip(contours, triangles.of_ring)
            if int(doubled_areas(its).sum())
            != abs(i_shape.area_two(contour) or 0)]


def told(name: str, rings: i_shape.Rings, triangles: Triangles) -> str:
    """A line about the triangles of rings."""
    flat = sum(int((doubled_areas(its) == 0).sum())
               for its in triangles.of_ring)
    wrong = missed(rings, triangles)
    valid = sum(geometry.Polygon(ring).is_valid for ring in wrong)
    count = sum(map(len, triangles.of_ring))
    return (f"{name:8} {len(rings.points):7} {count:9} {flat:15}"
            f" {len(wrong):19} {valid:15} {triangles.seconds:8.2f}")


def plot(path: str, given: Triangles, left: Triangles, ring: int) -> None:
    """Draw a ring's triangles; those without an area are red lines."""
    from matplotlib.collections import PolyCollection
    from matplotlib.figure import Figure
    import plots
    figure = Figure(figsize=(9, 4.5), layout="constrained")
    for axes, name, its in zip(figure.subplots(1, 2), ("as given", "cleaned"),
                               (given.of_ring[ring], left.of_ring[ring])):
        are_flat = doubled_areas(its) == 0
        axes.add_collection(PolyCollection(
            its[~are_flat], facecolors="lightsteelblue", edgecolors="white"))
        axes.add_collection(PolyCollection(
            its[are_flat], facecolors="none", edgecolors="crimson",
            linewidths=2))
        axes.plot(*its.reshape(-1, 2).T, ".", color="black", markersize=3)
        axes.set_title(f"{name}: {len(its)} triangles, {are_flat.sum()}"
                       " without an area", fontsize=10)
        axes.set_aspect("equal")
        axes.set_axis_off()
    plots.save(figure, path)


def flattest(triangles: Triangles) -> int:
    """A ring of 20 to 60 triangles with the most without an area."""
    return max(range(len(triangles.of_ring)), key=lambda ring: (
        20 <= len(triangles.of_ring[ring]) <= 60,
        int((doubled_areas(triangles.of_ring[ring]) == 0).sum())))


def main() -> None:
    words = argparse.ArgumentParser(
        description="Triangulates coastlines, as they are and cleaned.")
    words.add_argument("--grid", type=int, default=512)
    words.add_argument("--plot", metavar="FILE")
    words.add_argument("file", nargs="?", default=coastlines.FILE)
    options = words.parse_args()
    shores = coastlines.rings(options.file)
    offsets = np.concatenate([[0], np.cumsum([len(ring) for ring in shores])])
    points = (np.concatenate(shores) // options.grid).astype(np.int32)
    rings = i_shape.Rings(points, offsets)
    left = i_shape.simplify_rings(*rings)
    print("          points triangles without an area  rings with another"
          "  valid of these  seconds")
    found = []
    for name, its in (("as given", rings), ("cleaned", left)):
        found.append(triangulate(its))
        print(told(name, its, found[-1]))
    if options.plot:
        plot(options.plot, *found, flattest(found[0]))


if __name__ == "__main__":
    main()

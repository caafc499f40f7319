#!/usr/bin/env python3
"""Times which of many points polygons contain, beside shapely and matplotlib.

    points.py

A row a kind of polygon, at 32 bits, and points at random in its box. The
columns are milliseconds of processor time, the least of some runs:

- windings, contains, locate: winding_numbers, contains_points and locate of
  i_shape, of the library in the folder I_SHAPE_C_DIR or of `make c`;
- shapely: shapely.vectorized.contains of a polygon that is there, whose index
  is made in the call; GEOS: of a prepared geometry, whose index is there too;
- matplotlib: Path.contains_points of one ring.

A dash is where a call looks at each pair of an edge and a point, and these
are more than 10^8, and for matplotlib where there is more than one ring. Which
points are inside is the same by ours and shapely, but on edges, or the script
ends with an error.
Debian has the others in python3-shapely and python3-matplotlib; the shorelines
are those of examples/coastlines.py.
"""

from __future__ import annotations

import os
import sys
import time
from pathlib import Path

import matplotlib
import numpy as np
import shapely.geometry
import shapely.prepared
import shapely.vectorized
from matplotlib.path import Path as Curve
from shapely.geos import geos_version_string

TOP = Path(__file__).parents[2]
os.environ.setdefault("I_SHAPE_C_DIR", str(TOP / "bindings/c/out"))
sys.path[:0] = [str(TOP / "bindings/python/src"), str(TOP / "examples")]
import coastlines  # noqa: E402
import i_shape  # noqa: E402

RADIUS = 5e8
RNG = np.random.default_rng(5)
COLUMNS = ("windings", "contains", "locate", "shapely", "GEOS", "matplotlib")


def around(count, radii):
    angles = 2 * np.pi * np.arange(count) / count
    return np.stack([radii * np.cos(angles), radii * np.sin(angles)], 1)


def circle(count):
    return [around(count, RADIUS)]


def star(count):
    """Each point at a random distance, so that edges pass many heights."""
    return [around(count, RADIUS * (0.2 + 0.8 * RNG.random(count)))]


def comb(count):
    """Teeth up and down, and a base: almost each edge passes each height."""
    east = np.linspace(-RADIUS, RADIUS, count - 2)
    north = np.where(np.arange(count - 2) % 2, RADIUS, -RADIUS)
    base = [(RADIUS, -1.01 * RADIUS), (-RADIUS, -1.01 * RADIUS)]
    return [np.concatenate([np.stack([east, north], 1), base])]


def small_rings(count):
    """Rings of ten points side by side, which don't meet."""
    side = int((count / 10) ** 0.5)
    size = 2 * RADIUS / side
    one = around(10, 0.4 * size)
    return [one + (column * size - RADIUS, row * size - RADIUS)
            for row in range(side) for column in range(side)]


def shorelines(_):
    rings = [ring // 16 for ring in coastlines.rings(coastlines.FILE)]
    return [ring for ring in rings if len(ring) > 2]


ROWS = [(circle, 10, 10), (circle, 10, 1_000_000), (circle, 100, 100),
        (circle, 10_000, 10_000), (circle, 100_000, 100_000),
        (circle, 1_000_000, 10), (circle, 1_000_000, 1_000_000),
        (star, 100, 100), (star, 10_000, 10_000), (star, 100_000, 10_000),
        (comb, 100, 100), (comb, 10_000, 10_000),
        (small_rings, 1_000, 1_000), (small_rings, 100_000, 100_000),
        (small_rings, 1_000_000, 1_000_000), (shorelines, 0, 10),
        (shorelines, 0, 100), (shorelines, 0, 100_000),
        (shorelines, 0, 1_000_000)]


def least(call):
    """Milliseconds, and what the call returns."""
    spent = []
    while len(spent) < 3 or (sum(spent) < 0.3 and len(spent) < 300):
        begun = time.process_time()
        answer = call()
        spent.append(time.process_time() - begun)
        if spent[-1] > 1:
            break
    return f"{1e3 * min(spent):.3g}", answer


def time_row(kind, count, asked):
    rings = [ring.astype(np.int32) for ring in kind(count)]
    ends = np.cumsum([0, *map(len, rings)])
    ours = i_shape.Rings(np.concatenate(rings), ends)
    low, high = ours.points.min(0), ours.points.max(0)
    points = RNG.integers(low, high, (asked, 2), dtype=np.int32)
    x, y = np.ascontiguousarray(points.T, float)
    polygons = [shapely.geometry.Polygon(ring) for ring in rings]
    theirs = (polygons[0] if len(polygons) == 1
              else shapely.geometry.MultiPolygon(polygons))
    kept = shapely.prepared.prep(theirs)
    calls = [lambda: i_shape.winding_numbers(ours, points) % 2 == 1,
             lambda: i_shape.contains_points(ours, points),
             lambda: i_shape.locate(ours, points) == 1,
             lambda: shapely.vectorized.contains(theirs, x, y),
             lambda: shapely.vectorized.contains(kept, x, y),
             lambda: Curve(rings[0], closed=False).contains_points(points)]
    left_out = {5} if len(rings) > 1 else set()
    if ends[-1] * asked > 1e8:
        left_out = {2, 5}
    told = [("-", None) if place in left_out else least(call)
            for place, call in enumerate(calls)]
    times, inside = zip(*told)
    differ = np.flatnonzero(inside[1] != inside[3])[:100]
    assert not i_shape.locate(ours, points[differ]).any(), "not on an edge"
    print(f"{kind.__name__:<12}|{ends[-1]:>8} |{asked:>8} | "
          + " | ".join(f"{spent:>10}" for spent in times), flush=True)


print(f"shapely {shapely.__version__} over GEOS {geos_version_string}, "
      f"matplotlib {matplotlib.__version__}; milliseconds")
print(f"{'polygon':<12}|   edges |  points | "
      + " | ".join(f"{name:>10}" for name in COLUMNS))
for row in ROWS:
    time_row(*row)

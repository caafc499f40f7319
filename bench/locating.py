#!/usr/bin/env python3
"""How long it takes to find the polygon that holds each of many points:
milliseconds of processor time, the least of five runs.

    locating.py [ROWS COLUMNS POINTS]

The polygons, by default 40 rows of 50, tile a rectangle, and have 24 points
each, in a random order; POINTS, 10,000 by default, lie in it at random. `a loop
over polygons` calls contains_points for each, `one call` is locate_in_polygons,
and both return the same. The package i_shape is needed.
"""

import sys
import time

import numpy as np

import i_shape

SIDE, STEPS = 600, 6
rows, columns, count = map(int, sys.argv[1:] or (40, 50, 10000))
numbers = np.random.default_rng(61)
# The way from each corner to the next one east, and north, at random heights.
east = numbers.integers(-99, 99, (rows + 1, columns, STEPS))
north = numbers.integers(-99, 99, (rows, columns + 1, STEPS))
east[:, :, 0] = north[:, :, 0] = 0
along = np.arange(STEPS) * (SIDE // STEPS)


def parcel(row, column):
    """The ring of one polygon: south, east, north and west border."""
    x, y = column * SIDE, row * SIDE
    borders = [(x + along, y + east[row, column]),
               (x + SIDE + north[row, column + 1], y + along),
               ((x + along)[1:], (y + SIDE + east[row + 1, column])[1:]),
               ((x + north[row, column])[1:], (y + along)[1:])]
    corners = [[], [], [(x + SIDE, y + SIDE)], [(x, y + SIDE)]]
    ways = [np.stack(border, 1) for border in borders]
    return np.concatenate([ways[0], ways[1], corners[2], ways[2][::-1],
                           corners[3], ways[3][::-1]])


rings = [parcel(row, column) for row in range(rows)
         for column in range(columns)]
rings = [rings[place] for place in numbers.permutation(len(rings))]
points = np.concatenate(rings).astype(np.int32)
offsets = np.cumsum([0, *map(len, rings)])
polygons = np.arange(len(rings) + 1)
about = np.stack([numbers.integers(0, size * SIDE, count, np.int32)
                  for size in (columns, rows)], 1)


def by_a_loop():
    found = np.full(count, -1)
    for polygon in range(len(rings) - 1, -1, -1):
        ring = points[offsets[polygon]:offsets[polygon + 1]]
        found[i_shape.contains_points(ring, about)] = polygon
    return found


def by_one_call():
    return i_shape.locate_in_polygons(points, offsets, polygons, about)


def least(call):
    times = []
    for _ in range(5):
        start = time.process_time()
        call()
        times.append(time.process_time() - start)
    return 1000 * min(times)


assert np.array_equal(by_a_loop(), by_one_call())
print(f"{count} points, {len(rings)} polygons, {len(points)} vertices, "
      f"{np.count_nonzero(by_one_call() < 0)} points in none")
print("| | milliseconds |\n|---|---|")
for name, call in (("a loop over polygons", by_a_loop),
                   ("one call", by_one_call)):
    print(f"| {name} | {least(call):.0f} |")

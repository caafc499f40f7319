#!/usr/bin/env python3
"""How long locate takes for many points about one contour: milliseconds of
processor time, the least of five runs.

    locate.py [COUNT]

The contours are a circle and a star of COUNT edges, by default 80,000; there
are as many points, a third of them vertices, a third in the middle of an edge
or next to that, and the others random. The package i_shape is needed.
"""

import sys
import time

import numpy as np

import i_shape

RADIUS = 1 << 28
count = int(sys.argv[1]) if len(sys.argv) > 1 else 80000
numbers = np.random.default_rng(67)
angles = np.arange(count) * (2 * np.pi / count)


def ring(radii):
    points = np.stack([np.cos(angles), np.sin(angles)], 1) * radii
    return np.rint(points).astype(np.int32)


def around(contour):
    """Points on the contour, next to it and far from it."""
    third = count // 3
    vertices = contour[numbers.integers(0, count, third)]
    starts = numbers.integers(0, count, third)
    middles = (contour[starts] + contour[(starts + 1) % count]) // 2
    others = numbers.integers(-RADIUS, RADIUS, (count - 2 * third, 2), np.int32)
    return np.concatenate([vertices, middles, others])


def least(call):
    times = []
    for _ in range(5):
        start = time.process_time()
        call()
        times.append(time.process_time() - start)
    return 1000 * min(times)


print(f"{count} points, {count} edges\n\n| | milliseconds |\n|---|---|")
for name, radii in (("circle", RADIUS),
                    ("star", numbers.integers(RADIUS // 20, RADIUS, (count, 1)))):
    contour = ring(radii)
    about = around(contour)
    print(f"| {name} | {least(lambda: i_shape.locate(contour, about)):.0f} |")

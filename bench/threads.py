#!/usr/bin/env python3
"""How long calls on many polygons take in 1, 2 and 4 threads: seconds by the
clock, and of all processors together, the least of five runs.

    threads.py [COUNT]

Each of the COUNT polygons, a million by default, is one ring of ten points
about its middle, at random distances. The package i_shape is needed.
"""

import sys
import time

import numpy as np

import i_shape

count = int(sys.argv[1]) if sys.argv[1:] else 1000000
numbers = np.random.default_rng(74)
turns = np.arange(10) * (2 * np.pi / 10)
rays = numbers.uniform(50, 100, (count, 10))
middles = np.stack(np.divmod(np.arange(count), 1000), 1)[:, None] * 200
points = np.stack([rays * np.cos(turns), rays * np.sin(turns)], 2)
points = (np.rint(points) + middles).astype(np.int32).reshape(-1, 2)
offsets, polygons = np.arange(count + 1) * 10, np.arange(count + 1)
CALLS = {
    "simplify_polygons": (points, offsets, polygons),
    "are_simple_polygons": (points, offsets),
    "polygon_validity": (points, offsets, polygons),
}

print("| call | threads | seconds | of processors |")
print("|---|---|---|---|")
for name, given in CALLS.items():
    for threads in 1, 2, 4:
        times = []
        for _ in range(5):
            start = time.perf_counter(), time.process_time()
            getattr(i_shape, name)(*given, threads=threads)
            times.append((time.perf_counter() - start[0],
                          time.process_time() - start[1]))
        clock, processors = map(min, zip(*times))
        print(f"| `{name}` | {threads} | {clock:.2f} | {processors:.2f} |")

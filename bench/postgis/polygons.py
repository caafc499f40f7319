#!/usr/bin/env python3
"""Polygons in degrees for COPY .. WITH BINARY into (id int4, pair int4, geom geometry), in random order.

usage: polygons.py COUNT

Half of them have 4 to 16 vertices on the grid of 1e-7, and every fourth a hole. The others are copies of these: from another start, also with a vertex in the
middle of an edge, at which every second one starts, backwards, or both.
"""
import struct
import sys

import numpy as np

COUNT = int(sys.argv[1])
RANDOM = np.random.default_rng(12)


def ewkb(rings):
    parts = [struct.pack("<BIII", 1, 0x20000003, 4326, len(rings))]
    for ring in rings:
        closed = np.concatenate((ring, ring[:1])) / 1e7
        parts += [struct.pack("<I", len(closed)), closed.tobytes()]
    return b"".join(parts)


def original(number):
    """All coordinates are even, so that a middle is whole."""
    count = 4 + number % 13
    angles = (np.arange(count) + RANDOM.uniform(-.3, .3, count)) * (2 * np.pi / count)
    radius = RANDOM.uniform(1000, 5000, count)
    centre = RANDOM.integers((-800_000_000, -400_000_000), (800_000_000, 400_000_000))
    outer = 2.0 * (centre + np.rint(np.stack((np.cos(angles), np.sin(angles)), 1) * radius[:, None] / 2))
    hole = 2.0 * (centre + np.array([(-60, -60), (-60, 60), (60, 60), (60, -60)]))
    return [outer, hole] if number % 4 == 0 else [outer]


def copied(ring, number):
    has_vertex, is_reversed = number // 4 % 4 in (1, 3), number // 4 % 4 >= 2
    ring = np.roll(ring, 1 + number // 16 % 3, axis=0)
    if has_vertex:
        ring = np.insert(ring, 1, (ring[0] + ring[1]) / 2, axis=0)
        ring = np.roll(ring, -(number // 16 % 2), axis=0)
    return ring[::-1] if is_reversed else ring


def main():
    ids = RANDOM.permutation(COUNT)
    write = sys.stdout.buffer.write
    write(b"PGCOPY\n\xff\r\n\0" + bytes(8))
    for number in range(COUNT // 2):
        rings = original(number)
        for which, its in enumerate((rings, [copied(ring, number) for ring in rings])):
            blob = ewkb(its)
            write(struct.pack(">hiiiii", 3, 4, int(ids[2 * number + which]), 4, number, len(blob)) + blob)
    write(b"\xff\xff")


if __name__ == "__main__":
    main()

#!/usr/bin/env python3
"""Random polygons for COPY, as lines of their EWKB and of the keys that Python's canonical_keys makes of them, oriented and as it
does by default.

usage: keys.py COUNT
"""
import random
import struct
import sys

import numpy as np

import i_shape

NUMBERS = random.Random(56)
SIDE = 9


def ring():
    """On few places, so that rings collapse, and holes equal one another or begin alike."""
    return [(NUMBERS.randrange(-SIDE, SIDE) * NUMBERS.choice((1, 1, 40)), NUMBERS.randrange(-SIDE, SIDE)) for _ in range(NUMBERS.randrange(3, 9))]


def ewkb(rings):
    """In either byte order, with an SRID or without."""
    order, srid = NUMBERS.choice("<>"), NUMBERS.choice((0, 4326))
    head = struct.pack(order + "BI", order == "<", 3 | (0x20000000 if srid else 0)) + (struct.pack(order + "I", srid) if srid else b"")
    parts = [struct.pack(order + "I", len(rings))]
    for points in rings:
        parts += [struct.pack(order + "I", len(points) + 1), *(struct.pack(order + "dd", x / 4, y / 4) for x, y in [*points, points[0]])]
    return head + b"".join(parts)


def main():
    polygons = [[ring() for _ in range(NUMBERS.randrange(1, 6))] for _ in range(int(sys.argv[1]))]
    rings = [its for polygon in polygons for its in polygon]
    given = (np.array([point for its in rings for point in its]), np.cumsum([0, *map(len, rings)]), np.cumsum([0, *map(len, polygons)]))
    keys = [i_shape.canonical_keys(*given, oriented=True), i_shape.canonical_keys(*given)]
    for polygon, oriented, unoriented in zip(polygons, *keys):
        print(rf"\\x{ewkb(polygon).hex()}", rf"\\x{oriented.hex()}", rf"\\x{unoriented.hex()}", sep="\t")


if __name__ == "__main__":
    main()

"""KLayout's polygons beside plain loops that remove zero turns.

    klayout -b -r bench/peers/klayout.py

Debian's klayout runs this with its own Python. For each family of rings it
prints how many `Polygon.compress(true)` leaves otherwise than the loops do, up
to start and direction, and how many have a zero turn as a polygon that isn't
compressed.
"""

import itertools
import os
import random
import sys

import pya

sys.path.append(os.path.dirname(os.path.abspath(__file__)))
from small_rings import GRID, cross, normal, turns  # noqa: E402


def left_by_loops(ring):
    """The ring without its zero turns, and nothing where it collapses."""
    ring = list(ring)
    while len(ring) >= 3:
        places = [k for k, (a, b, c) in enumerate(turns(ring))
                  if cross(a, b, c) == 0]
        if not places:
            return [ring]
        # The turn of place k is at the point behind it.
        del ring[(places[0] + 1) % len(ring)]
    return []


def polygon(ring):
    return pya.Polygon([pya.Point(x, y) for x, y in ring])


def shown(made):
    """The hull of a polygon of KLayout, nothing below three points."""
    points = [(point.x, point.y) for point in made.each_point_hull()]
    return [points] if len(points) >= 3 else []


def compressed(ring):
    made = polygon(ring)
    made.compress(True)
    return shown(made)


def has_zero_turn(rings):
    return any(cross(a, b, c) == 0 for ring in rings
               for a, b, c in turns(ring))


def random_ring(most, bound, chance):
    """Points, some repeated, some in the middle between others."""
    ring = []
    for _ in range(chance.randint(3, most)):
        if len(ring) > 1 and chance.random() < 0.4:
            a, b = chance.choices(ring, k=2)
            ring.append(((a[0] + b[0]) // 2, (a[1] + b[1]) // 2))
        else:
            ring.append((chance.randint(-bound, bound),
                         chance.randint(-bound, bound)))
    return ring


def families():
    chance = random.Random(1)
    yield "three or four points of nine", [
        list(ring) for count in (3, 4)
        for ring in itertools.product(GRID, repeat=count)]
    yield "five points of six", [
        list(ring) for ring in itertools.product(GRID[:6], repeat=5)]
    yield "random, small", [random_ring(12, 3, chance) for _ in range(23000)]
    yield "random, up to 2^30", [
        random_ring(8, 2**30 - 1, chance) for _ in range(20000)]


def main():
    print("rings", "otherwise", "zero turn, uncompressed", sep=" | ")
    for name, rings in families():
        otherwise = sum(normal(compressed(ring)) != normal(left_by_loops(ring))
                        for ring in rings)
        zero = sum(has_zero_turn(shown(polygon(ring))) for ring in rings)
        print(f"{len(rings)} {name}", otherwise, zero, sep=" | ")
    print(pya.Application.instance().version())


main()

#!/usr/bin/env python3
"""Compares the package with the cleaning theorem, by brute force.

The contours are all of up to four points of a grid of 3 by 3, and random
ones of five to eight. For each, every order of removals is followed to its
end, by the definitions of docs/PROOF.md alone, and what the calls return is
compared with these ends. It needs the package and numpy, not the Rattle kit.
That a contour of n points takes at most 3n vertex visits can't be seen from
outside.

    theorem.py [--random N] [--seed N]
"""

from __future__ import annotations

import argparse
import itertools
import random
import sys
from functools import lru_cache
from typing import Iterator

import numpy as np

import i_shape

Point = tuple[int, int]
Contour = tuple[Point, ...]
# Coordinates are even, so that odd points lie between them.
GRID = [(x, y) for x in (0, 2, 4) for y in (0, 2, 4)]
ABOUT = [(x, y) for x in range(-1, 6) for y in range(-1, 6)]


def cross(a: Point, b: Point, c: Point) -> int:
    """The cross product of the vectors from a to b and from b to c."""
    return (b[0] - a[0]) * (c[1] - b[1]) - (b[1] - a[1]) * (c[0] - b[0])


def dot(a: Point, b: Point, c: Point) -> int:
    """Their dot product."""
    return (b[0] - a[0]) * (c[0] - b[0]) + (b[1] - a[1]) * (c[1] - b[1])


def is_zero_turn(a: Point, b: Point, c: Point) -> bool:
    """Whether the path goes straight on, turns back or stays at b."""
    return cross(a, b, c) == 0


def is_back(a: Point, b: Point, c: Point) -> bool:
    """Whether it turns back or stays there."""
    return cross(a, b, c) == 0 and dot(a, b, c) <= 0


@lru_cache(None)
def ends(contour: Contour, only_back: bool = False) -> frozenset[Contour]:
    """What each order of removals comes to, until none can be removed."""
    test = is_back if only_back else is_zero_turn
    count, found = len(contour), set()
    for place in range(count) if count >= 3 else ():
        if test(contour[place - 1], contour[place],
                contour[(place + 1) % count]):
            without = contour[:place] + contour[place + 1:]
            found.update(ends(without, only_back))
    return frozenset(found or [contour])


def rotations(contour: Contour) -> set[Contour]:
    """The contour from each start."""
    return {contour[start:] + contour[:start]
            for start in range(len(contour))}


def contours(count: int, numbers: random.Random) -> Iterator[Contour]:
    """All contours of up to four points, and so many longer ones."""
    for length in range(1, 5):
        yield from itertools.product(GRID, repeat=length)
    for place in range(count):
        yield tuple(numbers.choices(GRID, k=5 + place % 4))


def flat(its: list[Contour]) -> tuple[np.ndarray, np.ndarray]:
    """Contours end to end, and the offsets that divide them."""
    points = [point for contour in its for point in contour]
    return (np.array(points, np.int32).reshape(-1, 2),
            np.cumsum([0, *map(len, its)]))


def listed(rings: i_shape.Rings) -> list[Contour]:
    """The contours of rings; of one that collapses, no point."""
    points = list(map(tuple, rings.points.tolist()))
    offsets = rings.offsets.tolist()
    return [tuple(points[start:end])
            for start, end in zip(offsets, offsets[1:])]


def measures(its: list[Contour]) -> np.ndarray:
    """Twice each area, and the winding number about each point of ABOUT.

    An edge counts for a point if exactly one of its ends lies above it, and
    it passes to the right of it: upwards 1, downwards -1.
    """
    points, offsets = flat(its)
    after = np.arange(1, len(points) + 1)
    lengths = np.diff(offsets)
    after[offsets[1:][lengths > 0] - 1] = offsets[:-1][lengths > 0]
    (x, y), (next_x, next_y) = points.T, points[after].T
    columns = [x * next_y - next_x * y]
    for at_x, at_y in ABOUT:
        side = (next_x - x) * (at_y - y) - (next_y - y) * (at_x - x)
        up = (y <= at_y) & (next_y > at_y) & (side > 0)
        down = (y > at_y) & (next_y <= at_y) & (side < 0)
        columns.append(up.astype(np.int32) - down)
    sums = np.zeros((len(points) + 1, len(columns)), np.int64)
    np.cumsum(np.stack(columns, 1), 0, out=sums[1:])
    return sums[offsets[1:]] - sums[offsets[:-1]]


def faults(its: list[Contour]) -> dict[str, int]:
    """How many contours contradict each part of the theorem."""
    points, offsets = flat(its)
    simplified = listed(i_shape.simplify_rings(points, offsets))
    despiked = listed(i_shape.despike_rings(points, offsets))
    canonical = listed(i_shape.canonical_rings(points, offsets,
                                                oriented=True))
    given = measures(its)
    found = {
        "orders that end differently": 0,
        "simplify isn't such an end": 0,
        "despike isn't an end of its removals that simplifies to it": 0,
        "canonical isn't the least rotation": 0,
    }
    one_end, simple, back, least = found
    for contour, *left in zip(its, simplified, despiked, canonical):
        reached = ends(contour)
        if all(len(end) < 3 for end in reached):
            for name, ring in zip((simple, back, least), left):
                found[name] += ring != ()
            continue
        every = rotations(max(reached, key=len))
        found[one_end] += not reached <= every
        found[simple] += left[0] not in reached
        found[back] += (left[1] not in ends(contour, True)
                        or not ends(left[1]) <= every)
        found[least] += left[2] != min(every)
    for name, rings in (("simplify", simplified), ("despike", despiked)):
        is_kept = (measures(rings) == given).all(1)
        found[f"{name} changes area or winding numbers"] = int((~is_kept).sum())
    return found


def main() -> None:
    words = argparse.ArgumentParser(description=(__doc__ or "").split("\n")[0])
    words.add_argument("--random", type=int, default=12000, metavar="N",
                       help="how many random contours")
    words.add_argument("--seed", type=int, default=1, metavar="N")
    given = words.parse_args()
    its = list(contours(given.random, random.Random(given.seed)))
    found = faults(its)
    print(f"{len(its)} contours")
    for name, count in found.items():
        print(f"{name}: {count}")
    if any(found.values()):
        sys.exit("theorem.py: the package contradicts the theorem")


if __name__ == "__main__":
    main()

#!/usr/bin/env python3
"""Compares the package with the contact theorem, by brute force.

The rings are all of up to four points of a grid of 3 by 3, and random ones of
five to eight. The points that two edges share are worked out with fractions,
and not by the signs that the calls test. It needs the package and numpy, not
the Rattle kit.

    contact_theorem.py [--random N] [--seed N]
"""

from __future__ import annotations

import argparse
import itertools
import random
import sys
from fractions import Fraction
from typing import Iterator, Optional, Union

import numpy as np

import i_shape
from i_shape import ContactKind

Point = tuple[int, int]
Ring = tuple[Point, ...]
Shared = set[tuple[Union[int, Fraction], Union[int, Fraction]]]
GRID = [(x, y) for x in range(3) for y in range(3)]


def cross(a: Point, b: Point, c: Point) -> int:
    """Above 0 if c lies left of the line from a to b, 0 if on it."""
    return (b[0] - a[0]) * (c[1] - a[1]) - (b[1] - a[1]) * (c[0] - a[0])


def is_on(p: Point, a: Point, b: Point) -> bool:
    """Whether p lies on the segment from a to b, its ends included."""
    return cross(a, b, p) == 0 and all(
        min(low, high) <= at <= max(low, high)
        for at, low, high in zip(p, a, b))


def shared(a: Point, b: Point, c: Point, d: Point) -> Shared:
    """The point that two segments share, or the ends of what they share."""
    divisor = (b[0] - a[0]) * (d[1] - c[1]) - (b[1] - a[1]) * (d[0] - c[0])
    if divisor == 0:
        return {p for p in (a, b, c, d) if is_on(p, a, b) and is_on(p, c, d)}
    share = Fraction(cross(c, d, a), divisor)
    other = Fraction(-cross(a, b, c), divisor)
    if not (0 <= share <= 1 and 0 <= other <= 1):
        return set()
    return {(a[0] + share * (b[0] - a[0]), a[1] + share * (b[1] - a[1]))}


def kind_of(ring: Ring, i: int, j: int) -> Optional[ContactKind]:
    """How edge i and edge j after it meet, if they are in contact."""
    count = len(ring)
    a, b = ring[i], ring[(i + 1) % count]
    c, d = ring[j], ring[(j + 1) % count]
    points = shared(a, b, c, d)
    joints = ({c} if j == i + 1 else set()) | ({a} if (j + 1) % count == i
                                               else set())
    # Two points are the ends of a segment, of which not all are joints.
    if len(points) < 2 and points <= joints:
        return None
    if len(points) == 2:
        return ContactKind.OVERLAP
    return ContactKind.TOUCH if points & {a, b, c, d} else ContactKind.CROSSING


def rings(count: int, numbers: random.Random) -> Iterator[Ring]:
    """All rings of up to four points, and so many longer ones."""
    for length in range(1, 5):
        yield from itertools.product(GRID, repeat=length)
    for place in range(count):
        yield tuple(numbers.choices(GRID, k=5 + place % 4))


def faults(its: list[Ring]) -> dict[str, int]:
    """For how many rings each call contradicts the theorem."""
    found = dict.fromkeys(("first_contact", "contacts", "kinds_of_contacts",
                           "is_simple_polygon"), 0)
    for ring in its:
        points = np.array(ring, np.int32)
        kinds = {pair: kind
                 for pair in itertools.combinations(range(len(ring)), 2)
                 if (kind := kind_of(ring, *pair)) is not None}
        pairs = i_shape.contacts(points)
        returned = i_shape.kinds_of_contacts((points, [0, len(ring)]), pairs)
        is_simple = len(ring) >= 3 and len(set(ring)) > 1 and not kinds
        found["first_contact"] += (i_shape.first_contact(points)
                                   != min(kinds, default=None))
        found["contacts"] += list(map(tuple, pairs.tolist())) != sorted(kinds)
        found["kinds_of_contacts"] += (
            dict(zip(map(tuple, pairs.tolist()), returned)) != kinds)
        found["is_simple_polygon"] += (i_shape.is_simple_polygon(points)
                                       != is_simple)
    return found


def main() -> None:
    words = argparse.ArgumentParser(description=(__doc__ or "").split("\n")[0])
    words.add_argument("--random", type=int, default=4000, metavar="N",
                       help="how many random rings")
    words.add_argument("--seed", type=int, default=1, metavar="N")
    given = words.parse_args()
    its = list(rings(given.random, random.Random(given.seed)))
    print(f"{len(its)} rings")
    found = faults(its)
    for name, count in found.items():
        print(f"{name} contradicts the theorem: {count}")
    if any(found.values()):
        sys.exit("contact_theorem.py: the package contradicts the theorem")


if __name__ == "__main__":
    main()

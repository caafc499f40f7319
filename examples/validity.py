#!/usr/bin/env python3
"""Counts parcels that shapely calls invalid, before and after cleaning.

Nineteen of twenty parcels get a repeated point and a spike, such as a line
leaves that is drawn out and back. This prints how many parcels are invalid,
and how many are as they were before: with the spikes, after calls of shapely
(Debian's python3-shapely), and after despike_features.

    validity.py [--side N]
"""

from __future__ import annotations

import argparse
import random
import time
from typing import Any, Callable

import numpy as np
from shapely.validation import make_valid

from i_shape import io
from parcels import GRID, Ring, cadastre

Geometries = list[Any]


def spiked(ring: Ring, numbers: random.Random) -> Ring:
    place = numbers.randrange(len(ring))
    x, y = ring[place]
    tip = x + numbers.randint(1, 3000), y + numbers.randint(1, 3000)
    return ring[:place + 1] + [(x, y), tip, (x, y)] + ring[place + 1:]


def whole_features(rings: list[Ring]) -> io.Features:
    points = np.array([point for ring in rings for point in ring])
    offsets = np.cumsum([0, *map(len, rings)])
    return io.features_of((points, offsets, np.arange(len(offsets))))


def geometries(whole: io.Features) -> Geometries:
    return list(io.to_shapely(io.features_from_grid(whole, GRID)))


def despike(given: Geometries) -> Geometries:
    whole = io.features_to_grid(io.from_shapely(given), GRID)
    return geometries(io.despike_features(whole, collapsed="empty"))


WAYS: dict[str, Callable[[Geometries], Geometries]] = {
    "as given": lambda given: given,
    "simplify(0)": lambda given: [one.simplify(0) for one in given],
    "make_valid": lambda given: [make_valid(one) for one in given],
    "buffer(0)": lambda given: [one.buffer(0) for one in given],
    "despike": despike,
}


def main() -> None:
    words = argparse.ArgumentParser(
        description="Counts invalid parcels before and after cleaning.")
    words.add_argument("--side", type=int, default=160,
                       help="of the square of parcels")
    numbers = random.Random(1)
    rings = cadastre(words.parse_args().side, numbers)
    before = [one.normalize() for one in geometries(whole_features(rings))]
    given = geometries(whole_features(
        [spiked(ring, numbers) if place % 20 else ring
         for place, ring in enumerate(rings)]))
    for name, way in WAYS.items():
        started = time.perf_counter()
        left = way(given)
        seconds = time.perf_counter() - started
        invalid = sum(not one.is_valid for one in left)
        same = sum(one.normalize().equals_exact(other, 0)
                   for one, other in zip(left, before))
        print(f"{name:11}: {invalid} of {len(left)} invalid, {same} as before,"
              f" {seconds:.2f} s")


if __name__ == "__main__":
    main()

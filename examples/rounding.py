#!/usr/bin/env python3
"""Counts valid polygons on grids of finer and coarser steps.

The polygons are the parcels of validity.py, in metres, nineteen of twenty
with a spike, and the shorelines of coastlines.py, in degrees, each by itself.
This prints how many shapely (Debian's python3-shapely) calls valid as given,
and for each step how many are valid as rounded, after simplify and after
despike, with the first faults of the others.

    rounding.py [FILE]
"""

from __future__ import annotations

import random
import sys

import coastlines
import i_shape
from i_shape import Fault, io
from parcels import GRID, Ring, cadastre
from validity import spiked, whole_features


def summary(features: io.Features, count: int) -> str:
    """How many of so many polygons are valid, have a fault, are gone."""
    kinds = i_shape.polygon_validity(*features.polygons)["kind"].tolist()
    counts = {fault.name.lower(): kinds.count(fault) for fault in Fault}
    counts["collapsed"] = count - len(kinds)
    return ", ".join(f"{number} {word}" for word, number in counts.items()
                     if number or word == "valid")


def show(name: str, rings: list[Ring], grid: io.Grid) -> None:
    given = io.features_from_grid(whole_features(rings), grid)
    valid = sum(one.is_valid for one in io.to_shapely(given))
    print(f"{len(rings)} {name} with a precision of {grid.step:.2g},"
          f" {valid} valid by shapely")
    for power in range(-7, 3):
        whole = io.features_to_grid(given, io.Grid(10.0 ** power))
        lefts = {"rounded": whole,
                 "simplify": io.simplify_features(whole, collapsed="empty"),
                 "despike": io.despike_features(whole, collapsed="empty")}
        print(f"1e{power}", *(f"{way}: {summary(left, len(rings))}"
                              for way, left in lefts.items()), sep="; ")


def main() -> None:
    numbers = random.Random(1)
    parcels = [spiked(ring, numbers) if place % 20 else ring
               for place, ring in enumerate(cadastre(160, numbers))]
    show("parcels", parcels, GRID)
    file = sys.argv[1] if len(sys.argv) > 1 else coastlines.FILE
    shores = [its.tolist() for its in coastlines.rings(file) if len(its) > 2]
    side, = coastlines.read(file, "Bin_size_in_minutes")[0].tolist()
    show("shorelines", shores, io.Grid(side / 60 / coastlines.SIDE))


if __name__ == "__main__":
    main()

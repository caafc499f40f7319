"""Where two edges in contact meet, by whole numbers rounded once."""

from __future__ import annotations

from typing import Any, Iterable, Tuple

import numpy as np
import numpy.typing as npt

from .._contacts import edges_of, name_edges
from ._features import Checked, rings_of
from ._grid import Grid, brought_back

Coordinates = Tuple[float, float]
_Pair = Tuple[Any, ...]


def _cross(u: _Pair, v: _Pair) -> int:
    product: int = u[0] * v[1] - u[1] * v[0]
    return product


def _from(a: _Pair, b: _Pair) -> _Pair:
    return b[0] - a[0], b[1] - a[1]


def _shared(ends: Iterable[Iterable[int]]) -> list[_Pair]:
    """The point that two edges share, or the ends of what they do.

    Division of Python's integers returns the nearest double.
    """
    a, b, c, d = (tuple(end) for end in ends)
    along, across = _from(a, b), _from(c, d)
    turn = _cross(along, across)
    if turn:
        part = _cross(_from(a, c), across)
        return [((a[0] * turn + part * along[0]) / turn,
                 (a[1] * turn + part * along[1]) / turn)]
    return sorted({max(min(a, b), min(c, d)), min(max(a, b), max(c, d))})


def meetings(whole: Checked, faults: npt.NDArray[Any],
             grid: Grid) -> dict[int, Tuple[Coordinates, ...]]:
    """Of each polygon whose fault is of two edges, where these meet."""
    places = np.flatnonzero(name_edges(faults))
    pairs = np.stack([faults["first"], faults["second"]], axis=1)[places]
    edges = edges_of(rings_of(whole), pairs).reshape(-1, 4, 2).tolist()
    found: dict[int, Tuple[Coordinates, ...]] = {}
    for place, ends in zip(places.tolist(), edges):
        points = brought_back(np.array(_shared(ends)), grid)
        found[place] = tuple((x, y) for x, y in points.tolist())
    return found

"""What cleaning has removed, and the areas before and after."""

from __future__ import annotations

import math
from typing import Iterable, Iterator, NamedTuple, Sequence, TypeVar

import numpy as np

from .._library import Array
from .._measures import area_two_rings
from ..io import Features, Grid
from .blocks import Block

Number = TypeVar("Number", int, float)


class Told(NamedTuple):
    """The lines of the report, what is always said at the end, and the
    status of the command.
    """

    lines: Iterable[str]
    last: str
    status: int = 0


def _are_outer(features: Features) -> Array:
    """Which rings are the first of their polygon."""
    parts = features.polygons.polygon_offsets
    outer: Array = np.zeros(len(features.polygons.ring_offsets) - 1, np.bool_)
    outer[parts[:-1][parts[:-1] < parts[1:]]] = True
    return outer


def _float_areas(features: Features, step: float) -> list[float]:
    """Twice the signed area of each ring, in floats, in cells of a grid."""
    points, ends, _ = features.polygons
    lengths = np.diff(ends)
    full = np.flatnonzero(lengths)
    areas = np.zeros(len(lengths))
    if not len(full):
        return []
    starts = ends[:-1][full]
    following = np.arange(1, len(points) + 1)
    following[ends[1:][full] - 1] = starts
    firsts = np.repeat(points[starts], lengths[full], axis=0)
    with np.errstate(over="ignore", invalid="ignore"):
        moved = (points - firsts) / step
        after = moved[following]
        areas[full] = np.add.reduceat(
            moved[:, 0] * after[:, 1] - moved[:, 1] * after[:, 0], starts)
    return list(areas.tolist())


def _whole_areas(features: Features) -> list[int]:
    """Twice the signed area of each ring."""
    points, ends, _ = features.polygons
    areas: list[int] = area_two_rings(points, ends).tolist()
    return areas


def _total(areas: Sequence[Number], features: Features) -> Number:
    """The areas of outer rings less those of holes, however they turn."""
    are_outer = _are_outer(features).tolist()
    return sum(abs(area) if is_outer else -abs(area)
               for area, is_outer in zip(areas, are_outer))


def kept_text(count: int) -> str:
    """What is said of features that aren't polygons, and are kept."""
    return f"kept as they are: {count}"


def _area_text(doubled: float, grid: Grid, unit: str) -> str:
    """Half of so many cells of the grid, in squares of the file's unit."""
    area = doubled / 2 * grid.step * grid.step
    return (f"{area:.12g} {unit}" if math.isfinite(area)
            else "too great for a float")


def _cells_text(doubled: int, grid: Grid, unit: str) -> str:
    """The same, and how many cells these are."""
    sign, half = "-" if doubled < 0 else "", ".5" if doubled % 2 else ""
    return (f"{_area_text(doubled, grid, unit)},"
            f" {sign}{abs(doubled) // 2}{half} cells of the grid")


def _counts(features: Features) -> Array:
    """The features that have polygons, the polygons, rings and points."""
    points, rings, parts = features.polygons
    return np.array([(np.diff(features.feature_offsets) > 0).sum(),
                     len(parts) - 1, len(rings) - 1, len(points)])


class Cleaning:
    """What cleaning removes, and the areas, block by block."""

    def __init__(self, grid: Grid, unit: str) -> None:
        self._grid, self._unit = grid, unit
        self._before, self._after = np.zeros((2, 4), np.int64)
        self._given_area = 0.0
        self._areas = [0, 0]
        self._kept = 0
        self._collapsed: list[str] = []

    def add(self, block: Block, whole: Features, left: Features,
            gone: Array) -> None:
        """Add features as rounded and as cleaned, and which rings went."""
        self._kept += block.kept
        self._before += _counts(whole)
        self._after += _counts(left)
        self._given_area += _total(
            _float_areas(block.features, self._grid.step), block.features)
        for place, features in enumerate((whole, left)):
            self._areas[place] += _total(_whole_areas(features), features)
        records = block.polygon_records
        for ring in np.flatnonzero(gone).tolist():
            feature, polygon, place = whole.ring_place(ring)
            self._collapsed.append(f"{records[feature].name}, polygon"
                                   f" {polygon}, ring {place}")

    def lines(self) -> Iterator[str]:
        names = ("features with polygons", "polygons", "rings", "points")
        for name, before, after in zip(names, self._before, self._after):
            yield f"{name}: {before} before, {after} after"
        if self._kept:
            yield kept_text(self._kept)
        given = _area_text(self._given_area, self._grid, self._unit)
        yield f"area as given: {given}"
        for name, doubled in zip(("before", "after"), self._areas):
            cells = _cells_text(doubled, self._grid, self._unit)
            yield f"area {name}: {cells}"
        yield from (f"collapsed: {place}" for place in self._collapsed)

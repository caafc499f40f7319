"""The texts of coordinates that are decimals, made by numpy.

They are those that Python shows of the floats, several times as fast.
"""

from __future__ import annotations

from typing import Iterator, Optional

import numpy as np

from .._library import Array
from ..io import Grid
from ..io._closing import closed
from ..io._features import Checked
from ..io._geojson import coordinates_of

_DIGITS = 15  # that floats tell apart
_LEAST = 1e-4  # what Python shows without an exponent
_AFTER = np.frombuffer(b", \0\0], [", np.uint8).reshape(2, 4)  # x, and y


def places_of(grid: Grid) -> Optional[int]:
    """How many decimal places the numbers of a grid have, if so many."""
    for places in range(_DIGITS):
        if grid.step == 1 / 10 ** places:
            return places
    return None


def _whole(numbers: Array, places: int) -> Optional[Array]:
    """The numbers times a power of ten, where their decimals are short."""
    scale = 10.0 ** places
    size = np.abs(numbers)
    if size.max(initial=0.0) * scale >= 10 ** _DIGITS:
        return None
    whole = np.rint(size * scale)
    is_shown = (whole / scale == size) & ((size >= _LEAST) | (size == 0))
    return whole.astype(np.uint64) if is_shown.all() else None


def _point_texts(points: Array, places: int) -> Optional[tuple[bytes, Array]]:
    """The texts of points, ``x, y], [`` each, and where they end."""
    numbers = points.ravel()
    rest = _whole(numbers, places)
    if rest is None:
        return None
    if not places:
        rest, places = rest * np.uint64(10), 1
    before = len(str(int(rest.max(initial=0)) // 10 ** places))
    width = 1 + before + 1 + places
    marks = np.empty((width + 4, len(numbers)), np.uint8)
    are_shown = np.ones(marks.shape, np.bool_)
    marks[0], are_shown[0] = ord("-"), np.signbit(numbers)
    marks[1 + before] = ord(".")
    marks[width:, 0::2], marks[width:, 1::2] = _AFTER[:, :, None]
    are_shown[width + 2:, 0::2] = False
    columns = [*range(width - 1, before + 1, -1), *range(before, 0, -1)]
    ends = np.zeros(len(numbers), np.bool_)
    for column in columns:
        left = rest // np.uint64(10)
        digit = (rest - left * np.uint64(10)).astype(np.uint8)
        marks[column] = digit + ord("0")
        if column > before + 2:
            ends |= digit > 0
            are_shown[column] = ends
        elif column < before:
            are_shown[column] = rest > 0
        rest = left
    lengths = are_shown.sum(axis=0).reshape(-1, 2).sum(axis=1)
    shown = np.ascontiguousarray(marks.T)[np.ascontiguousarray(are_shown.T)]
    return shown.tobytes(), np.concatenate([[0], np.cumsum(lengths)])


def coordinate_texts(features: Checked,
                     places: Optional[int]) -> Iterator[str]:
    """The coordinates of each feature as GeoJSON writes them."""
    (points, ends, parts), offsets, are_multi = features
    rings = closed(points, ends)
    found = None if places is None else _point_texts(rings.points, places)
    if found is None:
        # What Python shows of lists of floats is JSON.
        yield from map(repr, coordinates_of(features))
        return
    whole, places_of_points = found
    at = places_of_points[rings.offsets].tolist()
    text = whole.decode("ascii")
    its_rings = [f"[[{text[start:end - 4]}]]" if start < end else "[]"
             for start, end in zip(at, at[1:])]
    part_ends, feature_ends = parts.tolist(), offsets.tolist()
    polygons = [f"[{', '.join(its_rings[start:end])}]"
                for start, end in zip(part_ends, part_ends[1:])]
    for is_multi, start, end in zip(are_multi.tolist(), feature_ends,
                                    feature_ends[1:]):
        its = polygons[start:end]
        yield f"[{', '.join(its)}]" if is_multi else its[0] if its else "[]"

"""Features that are built up ring by ring."""

from __future__ import annotations

import numbers
from array import array
from itertools import chain
from reprlib import Repr
from typing import Any, Iterable, Optional

import numpy as np

from .._polygons import Polygons
from ._closing import opened
from ._features import (Checked, FeatureError, Features, OtherGeometryError,
                        as_finite)


class NumberText:
    """A number that is written as it was read, in other digits than a float.

    It may be beyond the range of floats, or have more digits than they.
    """

    __slots__ = ("text",)

    def __init__(self, text: str) -> None:
        self.text = text

    def __repr__(self) -> str:
        return self.text

    def __float__(self) -> float:
        return float(self.text)


class _Short(Repr):
    """Short texts of values, also of a number that Python doesn't show."""

    def repr_int(self, number: int, level: int) -> str:
        try:
            return super().repr_int(number, level)
        except ValueError:
            return "<a number of thousands of digits>"


numbers.Real.register(NumberText)
_PLAIN = {int, float, NumberText}
short = _Short().repr


def is_list(value: Any) -> bool:
    return isinstance(value, (list, tuple))


class Builder:
    """Features that are built up ring by ring.

    Where a ring repeats its first point at its end, that one is left out at
    last.
    """

    def __init__(self) -> None:
        self._numbers = array("d")
        self._rings = array("q", [0])
        self._polygons = array("q", [0])
        self._features = array("q", [0])
        self._are_multi = array("b")

    def add_ring(self, numbers: Iterable[float]) -> None:
        """Add a ring by its coordinates, x and y in turn."""
        self._numbers.extend(numbers)
        self._end_ring()

    def add_ring_bytes(self, coordinates: bytes, is_swapped: bool) -> None:
        """Add a ring by the bytes of its coordinates as float64."""
        start = len(self._numbers)
        self._numbers.frombytes(coordinates)
        if is_swapped:
            ring = self._numbers[start:]
            ring.byteswap()
            self._numbers[start:] = ring
        self._end_ring()

    def _end_ring(self) -> None:
        self._rings.append(len(self._numbers) // 2)

    def add_positions(self, ring: Any) -> None:
        """Add a ring by a list of positions, which are tested."""
        if not is_list(ring):
            raise self.fault("expected a list of positions, not"
                             f" {short(ring)}")
        try:
            coordinates = list(chain.from_iterable(ring))
            if (set(map(type, ring)) <= {list, tuple}
                    and set(map(len, ring)) <= {2}
                    and set(map(type, coordinates)) <= _PLAIN):
                self.add_ring(coordinates)
                return
        except (TypeError, OverflowError):
            pass
        self._require_positions(ring)
        self.add_ring(chain.from_iterable(ring))

    def _require_positions(self, ring: Any) -> None:
        """Raise an error that names the first position that isn't one."""
        for place, position in enumerate(ring):
            if not is_list(position) or len(position) != 2:
                count = len(position) if is_list(position) else "no"
                raise self.fault(f"the position {short(position)} has {count}"
                                 " coordinates, not 2", place,
                                 is_other=count in (3, 4))
            for number in position:
                self._require_number(number, place)

    def _require_number(self, number: Any, place: int) -> None:
        if not isinstance(number, numbers.Real) or isinstance(number, bool):
            raise self.fault(f"{short(number)} isn't a number", place)
        try:
            float(number)
        except OverflowError:
            raise self.fault(f"{short(number)} has no room in a float64",
                             place) from None

    def end_polygon(self) -> None:
        self._polygons.append(len(self._rings) - 1)

    def end_feature(self, is_multi: bool) -> None:
        self._features.append(len(self._polygons) - 1)
        self._are_multi.append(is_multi)

    def next_feature(self) -> int:
        return len(self._features) - 1

    def fault(self, message: str, point: Optional[int] = None,
              is_in_ring: bool = True,
              is_other: bool = False) -> FeatureError:
        """An error in the ring, or the polygon, that would be the next."""
        ring = len(self._rings) - 1 - self._polygons[-1]
        kind = OtherGeometryError if is_other else FeatureError
        error = kind(
            message, self.next_feature(),
            len(self._polygons) - 1 - self._features[-1],
            ring if is_in_ring else None, point)
        if isinstance(error, OtherGeometryError):
            error.has_more = True
        return error

    def feature_fault(self, message: str) -> FeatureError:
        """An error in the feature that would be the next."""
        return FeatureError(message, self.next_feature())

    def other(self, message: str,
              has_more: bool = False) -> OtherGeometryError:
        """An error of a next feature that has no polygons to read."""
        error = OtherGeometryError(message, self.next_feature())
        error.has_more = has_more
        return error

    def leave_out(self) -> None:
        """Forget what there is of the feature that would be the next."""
        del self._polygons[self._features[-1] + 1:]
        del self._rings[self._polygons[-1] + 1:]
        del self._numbers[2 * self._rings[-1]:]

    def features(self) -> Checked:
        """The features, whose coordinates are tested to be finite."""
        rings = opened(np.array(self._numbers, np.float64).reshape(-1, 2),
                       np.array(self._rings, np.int64))
        polygons = Polygons(*rings, np.array(self._polygons, np.int64))
        return as_finite(Features(polygons,
                                  np.array(self._features, np.int64),
                                  np.array(self._are_multi, np.bool_)))

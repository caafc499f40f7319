"""Tests and areas of many rings, and areas of polygons."""

from __future__ import annotations

from typing import Any, TypeVar

import numpy as np
import numpy.typing as npt

from ._library import CALLS, Array, address, as_parts, run_parts
from ._polygons import given_polygons
from ._rings import GivenRings, equal_cuts, given_rings, raise_codes

Int = TypeVar("Int", np.int16, np.int32, np.int64)

# What the library writes of an area, by the size of a coordinate in bytes.
_AREAS: dict[int, Any] = {
    2: np.int32,
    4: np.int64,
    8: np.dtype([("low", np.uint64), ("high", np.int64)]),
}


def _measure_rings(call: Any, given: GivenRings, item: Any,
                   threads: Any) -> Array:
    """What a call writes of each ring."""
    points, offsets, _ = given
    parts = as_parts(threads, len(offsets) - 1)
    cuts = equal_cuts(offsets, parts)
    out = np.empty(len(offsets) - 1, item)

    def measure(part: int) -> int:
        start, end = cuts[part:part + 2]
        its, items = offsets[start:end + 1], out[start:end]
        code: int = call(address(points), len(points), address(its), len(its),
                         address(items), len(items))
        return code

    raise_codes(run_parts(measure, parts), given)
    return out


def test_rings(test: str, given: GivenRings,
               threads: Any) -> npt.NDArray[np.bool_]:
    """Of which rings a test of the library holds."""
    return _measure_rings(CALLS[given.points.itemsize].test_many[test], given,
                          np.bool_, threads)


def is_simple_rings(points: npt.NDArray[Int], offsets: npt.ArrayLike, *,
                    threads: int = 1) -> npt.NDArray[np.bool_]:
    """Return which rings have three points or more and no zero turn.

    Parameters
    ----------
    points : array of shape (n, 2), int16, int32 or int64
    offsets : array of shape (m + 1,), of whole numbers
        As for :func:`simplify_rings`.
    threads : int
        How many threads test a part of the rings each, at most as many as
        there are processors. The answer is the same.

    Returns
    -------
    array of shape (m,) and dtype bool
        For each ring what :func:`is_simple` returns, in order.

    Raises
    ------
    OffsetsError, UnsafePointError, TypeError, ValueError
        As :func:`simplify_rings` does.
    MemoryError
        An allocation failed, or a thread could not be started.

    Examples
    --------
    >>> import numpy as np
    >>> from i_shape import is_simple_rings
    >>> points = np.array([(0, 0), (4, 0), (4, 4),
    ...                    (0, 0), (2, 0), (4, 0), (4, 4)])
    >>> is_simple_rings(points, [0, 3, 7]).tolist()
    [True, False]
    """
    return test_rings("is_simple", given_rings(points, offsets), threads)


def has_no_spikes_rings(points: npt.NDArray[Int], offsets: npt.ArrayLike, *,
                        threads: int = 1) -> npt.NDArray[np.bool_]:
    """Return on which rings the way nowhere turns back.

    Parameters
    ----------
    points : array of shape (n, 2), int16, int32 or int64
    offsets : array of shape (m + 1,), of whole numbers
    threads : int
        As for :func:`is_simple_rings`.

    Returns
    -------
    array of shape (m,) and dtype bool
        For each ring what :func:`has_no_spikes` returns, in order.

    Raises
    ------
    OffsetsError, UnsafePointError, TypeError, ValueError, MemoryError
        As :func:`is_simple_rings` does.

    Examples
    --------
    >>> import numpy as np
    >>> from i_shape import has_no_spikes_rings
    >>> points = np.array([(0, 0), (4, 0), (4, 4),
    ...                    (0, 0), (4, 0), (4, 4), (4, 9), (4, 4)])
    >>> has_no_spikes_rings(points, [0, 3, 8]).tolist()
    [True, False]
    """
    return test_rings("has_no_spikes", given_rings(points, offsets), threads)


def is_convex_rings(points: npt.NDArray[Int], offsets: npt.ArrayLike, *,
                    threads: int = 1) -> npt.NDArray[np.bool_]:
    """Return on which rings the way nowhere turns back nor bends both ways.

    As for :func:`is_convex`, a ring that winds round more than once, as a
    pentagram does, may be one of them.

    Parameters
    ----------
    points : array of shape (n, 2), int16, int32 or int64
    offsets : array of shape (m + 1,), of whole numbers
    threads : int
        As for :func:`is_simple_rings`.

    Returns
    -------
    array of shape (m,) and dtype bool
        For each ring what :func:`is_convex` returns, in order.

    Raises
    ------
    OffsetsError, UnsafePointError, TypeError, ValueError, MemoryError
        As :func:`is_simple_rings` does.

    Examples
    --------
    >>> import numpy as np
    >>> from i_shape import is_convex_rings
    >>> points = np.array([(0, 0), (4, 0), (4, 4),
    ...                    (0, 0), (4, 0), (4, 4), (3, 1)])
    >>> is_convex_rings(points, [0, 3, 7]).tolist()
    [True, False]
    """
    return test_rings("is_convex", given_rings(points, offsets), threads)


def are_simple_polygons(points: npt.NDArray[Int], offsets: npt.ArrayLike, *,
                        threads: int = 1) -> npt.NDArray[np.bool_]:
    """Return which rings are the boundary of a simple polygon.

    Each ring is tested by itself. :func:`first_contact_of_rings` compares
    the edges of several.

    Parameters
    ----------
    points : array of shape (n, 2), int16, int32 or int64
    offsets : array of shape (m + 1,), of whole numbers
    threads : int
        As for :func:`is_simple_rings`.

    Returns
    -------
    array of shape (m,) and dtype bool
        For each ring what :func:`is_simple_polygon` returns, in order.

    Raises
    ------
    OffsetsError, UnsafePointError, TypeError, ValueError, MemoryError
        As :func:`is_simple_rings` does.

    Examples
    --------
    >>> import numpy as np
    >>> from i_shape import are_simple_polygons
    >>> points = np.array([(0, 0), (4, 0), (4, 4),
    ...                    (0, 0), (4, 4), (4, 0), (0, 4)])
    >>> are_simple_polygons(points, [0, 3, 7]).tolist()
    [True, False]
    """
    return test_rings("is_simple_polygon", given_rings(points, offsets),
                      threads)


def is_safe_rings(points: npt.NDArray[Int], offsets: npt.ArrayLike, *,
                  threads: int = 1) -> npt.NDArray[np.bool_]:
    """Return of which rings each point is safe, as cleaners and tests ask.

    Parameters
    ----------
    points : array of shape (n, 2), int16, int32 or int64
        As for :func:`simplify_rings`, but of any coordinates: no safe range
        is asked.
    offsets : array of shape (m + 1,), of whole numbers
    threads : int
        As for :func:`is_simple_rings`.

    Returns
    -------
    array of shape (m,) and dtype bool
        For each ring what :func:`is_safe` returns, in order.

    Raises
    ------
    OffsetsError, TypeError, ValueError, MemoryError
        As :func:`is_simple_rings` does.

    Examples
    --------
    >>> import numpy as np
    >>> from i_shape import is_safe_rings
    >>> points = np.array([(0, 0), (2**14, 0), (4, 4)], "int16")
    >>> is_safe_rings(points, [0, 1, 3]).tolist()
    [True, False]
    """
    return test_rings("is_safe", given_rings(points, offsets), threads)


def _areas(given: GivenRings, threads: Any) -> Array:
    """Twice the area of each ring, as the library writes it."""
    size = given.points.itemsize
    return _measure_rings(CALLS[size].areas, given, _AREAS[size], threads)


def _as_whole(areas: Array) -> Array:
    """Areas of 128 bits as whole numbers of Python, and others as they are."""
    if areas.dtype.names is None:
        return areas
    whole: Array = areas["high"].astype(object) * 2**64 + areas["low"]
    return whole


def _require_halves(points: Array) -> None:
    if points.itemsize != 8:
        raise ValueError(f"areas of points of {points.dtype} have no halves:"
                         " those of int64 have")


def area_two_rings(points: npt.NDArray[Int], offsets: npt.ArrayLike, *,
                   threads: int = 1,
                   halves: bool = False) -> npt.NDArray[Any]:
    """Return twice the signed area of each ring.

    Parameters
    ----------
    points : array of shape (n, 2), int16, int32 or int64
        As for :func:`simplify_rings`, but of any coordinates: no safe range
        is asked.
    offsets : array of shape (m + 1,), of whole numbers
    threads : int
        As for :func:`is_simple_rings`.
    halves : bool
        True returns the areas of points of int64 as two numbers of 64 bits
        each, which numpy, pandas and databases have: the fields ``low``, of
        uint64, and ``high``, of int64, of ``high * 2**64 + low``.

    Returns
    -------
    array of shape (m,)
        For each ring what :func:`area_two` returns, in order, and 0 where
        the ring has no point. The dtype is int32 for points of int16, int64
        for int32, and object for int64: numbers of Python, since an area
        may take 128 bits. A sum that doesn't fit these bits wraps around.

    Raises
    ------
    OffsetsError, TypeError, ValueError, MemoryError
        As :func:`is_simple_rings` does. ValueError also where ``halves`` are
        asked for of points of another dtype than int64.

    Examples
    --------
    >>> import numpy as np
    >>> from i_shape import area_two_rings
    >>> points = np.array([(0, 0), (4, 0), (4, 4), (0, 4),
    ...                    (0, 0), (0, 3), (3, 0)], "int32")
    >>> area_two_rings(points, [0, 4, 4, 7]).tolist()
    [32, 0, -9]
    >>> areas = area_two_rings(points.astype("int64"), [0, 4, 4, 7],
    ...                        halves=True)
    >>> areas["low"].astype("int64").tolist(), areas["high"].tolist()
    ([32, 0, -9], [0, 0, -1])
    """
    given = given_rings(points, offsets)
    if halves:
        _require_halves(given.points)
    areas = _areas(given, threads)
    return areas if halves else _as_whole(areas)


def area_two_polygons(points: npt.NDArray[Int], ring_offsets: npt.ArrayLike,
                      polygon_offsets: npt.ArrayLike, *,
                      threads: int = 1,
                      halves: bool = False) -> npt.NDArray[Any]:
    """Return twice the signed area of each polygon.

    It is the sum over its rings, each above 0 where it turns left: a hole
    counts against an outer ring that turns the other way.

    Parameters
    ----------
    points : array of shape (n, 2), int16, int32 or int64
        As for :func:`simplify_polygons`, but of any coordinates: no safe
        range is asked.
    ring_offsets : array of shape (m + 1,), of whole numbers
    polygon_offsets : array of shape (p + 1,), of whole numbers
        As for :func:`simplify_polygons`.
    threads : int
        As for :func:`is_simple_rings`.
    halves : bool
        As for :func:`area_two_rings`.

    Returns
    -------
    array of shape (p,)
        In order, and 0 where the polygon has no ring, in the dtype that
        :func:`area_two_rings` returns. A sum that doesn't fit twice the
        bits of ``points`` wraps.

    Raises
    ------
    OffsetsError, TypeError, ValueError, MemoryError
        As :func:`simplify_polygons` and :func:`area_two_rings` do.

    Examples
    --------
    >>> import numpy as np
    >>> from i_shape import area_two_polygons
    >>> points = np.array([(0, 0), (8, 0), (8, 8), (0, 8),
    ...                    (2, 2), (2, 4), (4, 2)], "int32")
    >>> area_two_polygons(points, [0, 4, 7], [0, 2, 2]).tolist()
    [124, 0]
    """
    given = given_polygons(points, ring_offsets, polygon_offsets)
    if halves:
        _require_halves(given.rings.points)
    areas = _as_whole(_areas(given.rings, threads))
    sums = np.zeros(len(areas) + 1, areas.dtype)
    # What wraps on the way doesn't change a difference.
    np.cumsum(areas, dtype=areas.dtype, out=sums[1:])
    its: Array = sums[given.parts[1:]] - sums[given.parts[:-1]]
    if its.dtype == object:
        its = (its + 2**127) % 2**128 - 2**127
    if not halves:
        return its
    parted = np.empty(len(its), _AREAS[8])
    parted["low"], parted["high"] = its & (2**64 - 1), its >> 64
    return parted

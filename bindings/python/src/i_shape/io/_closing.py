"""Rings that repeat their first point at the end, and offsets of 32 bits."""

from __future__ import annotations

from typing import Any

import numpy as np
import numpy.typing as npt

from .._errors import OffsetsError
from .._library import Array, as_offsets
from .._rings import Rings
from ._features import as_rings

_MOST = 2 ** 31 - 1


def open_rings(points: npt.ArrayLike, offsets: npt.ArrayLike) -> Rings:
    """Return rings without the repeated first point at their end.

    GeoArrow, shapely, GeoJSON and WKT repeat it. A ring whose last point is
    another one, or that has just one point, stays as it is.

    Parameters
    ----------
    points : array of shape (n, 2), of floats or whole numbers
        The points of all rings, end to end.
    offsets : array of shape (m + 1,), of whole numbers
        Ring k is ``points[offsets[k]:offsets[k + 1]]``.

    Returns
    -------
    Rings
        New arrays: the points in their dtype, and int64 offsets from 0 on.

    Raises
    ------
    OffsetsError
        The offsets don't divide the points.
    TypeError, ValueError
        An array has another dtype or shape.

    Examples
    --------
    >>> from i_shape.io import open_rings
    >>> rings = open_rings([(0, 0), (4, 0), (4, 4), (0, 0)], [0, 4])
    >>> rings.points.tolist(), rings.offsets.tolist()
    ([[0, 0], [4, 0], [4, 4]], [0, 3])
    """
    return opened(*as_rings(points, offsets))


def opened(points: Array, offsets: Array) -> Rings:
    """The rings, whose offsets are tested and lead from 0 on."""
    starts, ends = offsets[:-1], offsets[1:]
    long = np.flatnonzero(ends - starts > 1)
    repeats = (points[starts[long]] == points[ends[long] - 1]).all(axis=1)
    are_closed = np.zeros(len(starts), np.bool_)
    are_closed[long[repeats]] = True
    left = np.ones(len(points), np.bool_)
    left[ends[are_closed] - 1] = False
    counts = np.concatenate([[0], np.cumsum(are_closed)])
    return Rings(points[left], offsets - counts)


def close_rings(points: npt.ArrayLike, offsets: npt.ArrayLike) -> Rings:
    """Return rings with their first point once more at the end.

    Parameters
    ----------
    points : array of shape (n, 2), of floats or whole numbers
        The points of all rings, end to end.
    offsets : array of shape (m + 1,), of whole numbers
        Ring k is ``points[offsets[k]:offsets[k + 1]]``. It is closed
        whatever its last point is; only a ring without points stays so.

    Returns
    -------
    Rings
        New arrays: the points in their dtype, and int64 offsets from 0 on.

    Raises
    ------
    OffsetsError, TypeError, ValueError
        As :func:`open_rings` does.

    Examples
    --------
    >>> from i_shape.io import close_rings
    >>> rings = close_rings([(0, 0), (4, 0), (4, 4)], [0, 3])
    >>> rings.points.tolist(), rings.offsets.tolist()
    ([[0, 0], [4, 0], [4, 4], [0, 0]], [0, 4])
    """
    return closed(*as_rings(points, offsets))


def closed(points: Array, offsets: Array) -> Rings:
    """The rings, whose offsets are tested and lead from 0 on."""
    has_points = offsets[1:] > offsets[:-1]
    firsts = points[offsets[:-1][has_points]]
    longer = np.insert(points, offsets[1:][has_points], firsts, axis=0)
    counts = np.concatenate([[0], np.cumsum(has_points)])
    return Rings(longer, offsets + counts)


def narrow_offsets(offsets: npt.ArrayLike) -> npt.NDArray[np.int32]:
    """Return offsets of 32 bits, as Arrow's lists have them.

    The calls take offsets of any width; their results have 64 bits.

    Parameters
    ----------
    offsets : array of shape (m + 1,), of whole numbers

    Returns
    -------
    array of shape (m + 1,) and dtype int32

    Raises
    ------
    OffsetsError
        There is no offset, or one is below 0 or has no room in 32 bits.
    TypeError, ValueError
        The array has another dtype or shape.

    Examples
    --------
    >>> from i_shape.io import narrow_offsets
    >>> narrow_offsets([0, 4, 8]).dtype
    dtype('int32')
    """
    wide = as_offsets(offsets)
    strange: Any = (wide < 0) | (wide > _MOST)
    if strange.any():
        place = int(strange.argmax())
        raise OffsetsError(f"offsets[{place}] is {wide[place]}, and not"
                           " between 0 and 2**31 - 1", place)
    return wide.astype(np.int32)

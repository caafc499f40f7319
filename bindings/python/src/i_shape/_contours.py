"""Calls on one contour."""

from __future__ import annotations

import ctypes
from typing import Optional, Sequence, TypeVar

import numpy as np
import numpy.typing as npt

from ._library import (CALLS, FillRule, Halves, address, as_points, as_rule,
                       as_safe_point, raise_code)

Int = TypeVar("Int", np.int16, np.int32, np.int64)


def _clean(name: str, points: npt.NDArray[Int]) -> Optional[npt.NDArray[Int]]:
    points = as_points(points)
    count = len(points)
    out = np.empty(points.shape, points.dtype)
    left = CALLS[points.itemsize].one[name](address(points), count,
                                            address(out), count)
    if left < 0:
        raise_code(left, points)
    if left == 0:
        return None
    out.resize((left, 2), refcheck=False)  # it gives back what isn't used
    return out


def simplify(points: npt.NDArray[Int]) -> Optional[npt.NDArray[Int]]:
    """Return the contour without its zero turns.

    A zero turn is a vertex at which the contour goes straight on, turns back,
    or repeats a point. They are removed until none is left. The result
    doesn't depend on the order of removal, except for its starting point.

    Parameters
    ----------
    points : array of shape (n, 2), int16, int32 or int64
        The contour, read as a cycle: the last point isn't the first one
        again. It is read where it lies if it is C-contiguous and aligned,
        and copied otherwise. It is never written.

    Returns
    -------
    array of shape (k, 2) and the same dtype, or None
        Some of the points in their order, at least three; None where the
        contour collapses. The double area is that of ``points``, and the
        same points lie inside.

    Raises
    ------
    UnsafePointError
        A coordinate isn't strictly between ``-2**(W-2)`` and ``2**(W-2)``
        for a dtype of ``W`` bits; ``point`` is its row.
    TypeError
        The dtype is another one, as of floats, unsigned numbers, booleans,
        objects or another byte order, or the array is masked.
    ValueError
        The shape isn't (n, 2).
    MemoryError
        An allocation failed.

    See also
    --------
    simplify_rings : many contours by one call.
    canonical : the same from one certain point on.

    Examples
    --------
    >>> import numpy as np
    >>> from i_shape import simplify
    >>> contour = np.array([(0, 0), (2, 0), (4, 0), (4, 4), (0, 4)], "int32")
    >>> simplify(contour).tolist()
    [[0, 0], [4, 0], [4, 4], [0, 4]]
    >>> simplify(contour[:3]) is None
    True
    """
    return _clean("simplify", points)


def despike(points: npt.NDArray[Int]) -> Optional[npt.NDArray[Int]]:
    """Return the contour without its back points.

    A back point repeats the one before it, or is the tip of a spike.
    Vertices on straight edges stay.

    Parameters
    ----------
    points : array of shape (n, 2), int16, int32 or int64
        The contour, as for :func:`simplify`.

    Returns
    -------
    array of shape (k, 2) and the same dtype, or None
        Some of the points in their order, at least three; None where the
        contour collapses, exactly where :func:`simplify` says so. The
        double area is that of ``points``, and the same points lie inside.

    Raises
    ------
    UnsafePointError, TypeError, ValueError, MemoryError
        As :func:`simplify` does.

    Examples
    --------
    >>> import numpy as np
    >>> from i_shape import despike
    >>> spiked = np.array([(0, 0), (2, 0), (4, 0), (4, 4), (4, 9), (4, 4)])
    >>> despike(spiked).tolist()
    [[0, 0], [2, 0], [4, 0], [4, 4]]
    """
    return _clean("despike", points)


def canonical(points: npt.NDArray[Int], *,
              oriented: bool = False) -> Optional[npt.NDArray[Int]]:
    """Return the least rotation of the simplified contour, read either way.

    Lists are compared point by point, and points by x and then by y. Two
    contours have equal results exactly where one becomes the other by
    turning it to another start, by removing or adding zero turns, and by
    reading it backwards.

    Parameters
    ----------
    points : array of shape (n, 2), int16, int32 or int64
        The contour, as for :func:`simplify`.
    oriented : bool
        True doesn't read the contour backwards. Otherwise its form is the
        lesser of those of both ways.

    Returns
    -------
    array of shape (k, 2) and the same dtype, or None
        At least three points; None where the contour collapses.

    Raises
    ------
    UnsafePointError, TypeError, ValueError, MemoryError
        As :func:`simplify` does.

    Examples
    --------
    >>> import numpy as np
    >>> from i_shape import canonical
    >>> contour = np.array([(4, 4), (0, 4), (0, 0), (2, 0), (4, 0)])
    >>> canonical(contour).tolist()
    [[0, 0], [0, 4], [4, 4], [4, 0]]
    >>> canonical(contour, oriented=True).tolist()
    [[0, 0], [4, 0], [4, 4], [0, 4]]
    """
    return _clean("canonical" if oriented else "canonical_unoriented", points)


def area_two(points: npt.NDArray[Int]) -> Optional[int]:
    """Return twice the signed area of the contour.

    Parameters
    ----------
    points : array of shape (n, 2), int16, int32 or int64
        The contour, as for :func:`simplify`, but of any coordinates: no
        safe range is asked.

    Returns
    -------
    int or None
        Twice the area in squares of the unit of the coordinates, above 0
        where the contour turns left (y goes up); None where there is no
        point. It is reduced to twice the bits of the dtype, 32, 64 or 128:
        a sum that doesn't fit wraps, which takes a contour beyond the safe
        range or one that winds round more than once.

    Raises
    ------
    TypeError, ValueError
        As :func:`simplify` does.

    Examples
    --------
    >>> import numpy as np
    >>> from i_shape import area_two
    >>> area_two(np.array([(0, 0), (4, 0), (4, 4), (0, 4)], "int16"))
    32
    """
    points = as_points(points)
    calls = CALLS[points.itemsize]
    area = calls.area()
    if not calls.area_two(address(points), len(points), ctypes.byref(area)):
        return None
    if isinstance(area, Halves):
        wide: int = area.high << 64 | area.low
        return wide - (1 << 128) if wide >> 127 else wide
    return int(area.value)


def _test(name: str, points: npt.NDArray[Int]) -> bool:
    points = as_points(points)
    test = CALLS[points.itemsize].test[name]
    answer: int = test(address(points), len(points))
    if answer < 0:
        raise_code(answer, points)
    return answer == 1


def is_simple(points: npt.NDArray[Int]) -> bool:
    """Return whether there are at least three points and no zero turn.

    Exactly then :func:`simplify` returns the same points. Edges that cross
    one another are not looked for.

    Parameters
    ----------
    points : array of shape (n, 2), int16, int32 or int64
        The contour, as for :func:`simplify`.

    Returns
    -------
    bool

    Raises
    ------
    UnsafePointError, TypeError, ValueError
        As :func:`simplify` does.

    Examples
    --------
    >>> import numpy as np
    >>> from i_shape import is_simple
    >>> is_simple(np.array([(0, 0), (4, 0), (4, 4)]))
    True
    >>> is_simple(np.array([(0, 0), (2, 0), (4, 0), (4, 4)]))
    False
    """
    return _test("is_simple", points)


def has_no_spikes(points: npt.NDArray[Int]) -> bool:
    """Return whether the way nowhere turns back.

    Points that repeat the one before them don't count; at least three
    others have to be there.

    Parameters
    ----------
    points : array of shape (n, 2), int16, int32 or int64
        The contour, as for :func:`simplify`.

    Returns
    -------
    bool

    Raises
    ------
    UnsafePointError, TypeError, ValueError
        As :func:`simplify` does.

    Examples
    --------
    >>> import numpy as np
    >>> from i_shape import has_no_spikes
    >>> has_no_spikes(np.array([(0, 0), (2, 0), (4, 0), (4, 4)]))
    True
    >>> has_no_spikes(np.array([(0, 0), (4, 0), (4, 4), (4, 9), (4, 4)]))
    False
    """
    return _test("has_no_spikes", points)


def is_convex(points: npt.NDArray[Int]) -> bool:
    """Return whether the way nowhere turns back nor bends to both sides.

    Points that repeat the one before them don't count. Fewer than three
    others are convex. So is a contour that winds round more than once and
    crosses itself, as a pentagram does.

    Parameters
    ----------
    points : array of shape (n, 2), int16, int32 or int64
        The contour, as for :func:`simplify`.

    Returns
    -------
    bool

    Raises
    ------
    UnsafePointError, TypeError, ValueError
        As :func:`simplify` does.

    Examples
    --------
    >>> import numpy as np
    >>> from i_shape import is_convex
    >>> is_convex(np.array([(0, 0), (4, 0), (4, 4), (0, 4)]))
    True
    >>> is_convex(np.array([(0, 0), (4, 0), (4, 4), (3, 1)]))
    False
    """
    return _test("is_convex", points)


def is_simple_polygon(points: npt.NDArray[Int]) -> bool:
    """Return whether the contour is the boundary of a simple polygon.

    It has at least three points, not all equal, and no two of its edges are
    in contact: see :func:`first_contact`. Points at which it goes straight
    on are allowed, unlike by :func:`is_simple`.

    Parameters
    ----------
    points : array of shape (n, 2), int16, int32 or int64
        The contour, as for :func:`simplify`.

    Returns
    -------
    bool

    Raises
    ------
    UnsafePointError, TypeError, ValueError
        As :func:`simplify` does.

    Examples
    --------
    >>> import numpy as np
    >>> from i_shape import is_simple_polygon
    >>> is_simple_polygon(np.array([(0, 0), (2, 0), (4, 0), (4, 4)]))
    True
    >>> is_simple_polygon(np.array([(0, 0), (4, 4), (4, 0), (0, 4)]))
    False
    """
    return _test("is_simple_polygon", points)


def is_safe(points: npt.NDArray[Int]) -> bool:
    """Return whether each point is safe, as cleaners and tests ask.

    Parameters
    ----------
    points : array of shape (n, 2), int16, int32 or int64
        Points, as for :func:`simplify`.

    Returns
    -------
    bool
        Whether each coordinate lies strictly between ``-2**(W-2)`` and
        ``2**(W-2)``, for a dtype of ``W`` bits. True where there is no
        point.

    Raises
    ------
    TypeError, ValueError
        As :func:`simplify` does.

    Examples
    --------
    >>> import numpy as np
    >>> from i_shape import is_safe
    >>> is_safe(np.array([(2**14 - 1, 0)], "int16"))
    True
    >>> is_safe(np.array([(2**14, 0)], "int16"))
    False
    """
    return _test("is_safe", points)


def contains(points: npt.NDArray[Int], point: Sequence[int], *,
             rule: FillRule = "evenodd") -> bool:
    """Return whether the contour fills the point, by a fill rule.

    By the even-odd rule it does if a ray from the point to the right crosses
    an odd number of edges. Some points on an edge are filled, others aren't.

    Parameters
    ----------
    points : array of shape (n, 2), int16, int32 or int64
        The contour, as for :func:`simplify`.
    point : pair of int
        x and y, as safe as ``points``.
    rule : "evenodd", "nonzero", "positive" or "negative"
        As for :func:`contains_points`.

    Returns
    -------
    bool

    Raises
    ------
    UnsafePointError
        ``point`` isn't safe for the dtype of ``points`` (then the
        attribute ``point`` is None), or a point of the contour isn't.
    TypeError
        As :func:`simplify` does, and where x or y isn't a whole number.
    ValueError
        As :func:`simplify` does, where ``point`` has fewer or more than two
        numbers, and where there is no such rule.

    Examples
    --------
    >>> import numpy as np
    >>> from i_shape import contains
    >>> square = np.array([(0, 0), (4, 0), (4, 4), (0, 4)])
    >>> contains(square, (1, 1)), contains(square, (5, 1))
    (True, False)
    """
    points = as_points(points)
    x, y = as_safe_point(point, points.dtype)
    answer: int = CALLS[points.itemsize].contains(
        address(points), len(points), x, y, as_rule(rule))
    if answer < 0:
        raise_code(answer, points)
    return answer == 1

"""Winding numbers, and where points lie by a fill rule."""

from __future__ import annotations

from typing import Any, Sequence, Tuple, TypeVar, Union

import numpy as np
import numpy.typing as npt

from ._errors import UnsafePointError
from ._library import (CALLS, NO_WINDING, UNSAFE, Array, FillRule, address,
                       as_parts, as_points, as_rule, as_safe_point,
                       first_unsafe, raise_code, run_parts, unsafe_text, words)
from ._polygons import GivenPolygons, given_polygons
from ._rings import GivenRings, Rings, given_rings, raise_codes

Int = TypeVar("Int", np.int16, np.int32, np.int64)
Contours = Union[npt.NDArray[Int], Rings,
                 Tuple[npt.NDArray[Int], npt.ArrayLike]]


def winding_number(points: npt.NDArray[Int], point: Sequence[int]) -> int:
    """Return how often the contour winds about the point, to the left.

    It is how many edges pass the height of the point upwards and strictly
    to the right of it, less those that do so downwards: 1 inside of a square
    that is wound against the clock, -1 inside of one that is wound
    clockwise. Cleaning keeps it, but for its sign where
    :func:`canonical` reads the contour backwards.

    Parameters
    ----------
    points : array of shape (n, 2), int16, int32 or int64
        The contour, as for :func:`simplify`.
    point : pair of int
        x and y, as safe as ``points``.

    Returns
    -------
    int

    Raises
    ------
    UnsafePointError
        ``point`` isn't safe for the dtype of ``points`` (then the
        attribute ``point`` is None), or a point of the contour isn't.
    TypeError
        As :func:`simplify` does, and where x or y isn't a whole number.
    ValueError
        As :func:`simplify` does, and where ``point`` has fewer or more
        than two numbers.

    Examples
    --------
    >>> import numpy as np
    >>> from i_shape import winding_number
    >>> star = np.array([(0, 8), (-5, -7), (8, 2), (-8, 2), (5, -7)])
    >>> winding_number(star, (0, 0)), winding_number(star[::-1], (0, 6))
    (2, -1)
    """
    points = as_points(points)
    x, y = as_safe_point(point, points.dtype)
    answer: int = CALLS[points.itemsize].winding(address(points),
                                                 len(points), x, y)
    if answer == NO_WINDING:
        raise_code(UNSAFE, points)
    return answer


def _raise(code: int, given: GivenRings, about: Array) -> None:
    """Raise what a code stands for, and nothing for 0."""
    place = first_unsafe(about) if code == UNSAFE else None
    if place is not None:
        raise UnsafePointError(
            unsafe_text(f"about[{place}]", about[place], about.dtype))
    raise_codes([code], given)


def _are_many(contours: Any) -> bool:
    """Whether they are points and offsets, and not one contour."""
    if isinstance(contours, Rings):
        return True
    if not isinstance(contours, tuple) or len(contours) != 2:
        return False
    points = contours[0]
    # An empty list of points has one dimension, as a point has.
    return np.ndim(points) == 2 or np.size(points) == 0


def given_contours(contours: Any) -> GivenRings:
    """The contour, or the contours, tested."""
    if _are_many(contours):
        return given_rings(*contours)
    points = as_points(contours)
    return GivenRings(points, np.array([0, len(points)], np.int64))


def _as_about(about: Any, points: Array) -> Array:
    """The points that a call on these is asked about, tested."""
    asked = as_points(about)
    if asked.dtype != points.dtype:
        raise TypeError(f"about has dtype {asked.dtype}, and not that of the"
                        f" contours, {points.dtype}")
    return asked


def _ask_of(name: str, given: GivenRings, divided: Sequence[Array],
            about: Array, rule: Sequence[int], dtype: Any,
            threads: int) -> Any:
    """Return what the call of C writes of each of the points.

    The offsets ``divided`` are further ones that it takes.
    """
    points, offsets, _ = given
    parts = as_parts(threads, len(about))
    out = np.empty(len(about), dtype)
    call = getattr(CALLS[points.itemsize], name)

    def ask(part: int) -> int:
        start = len(about) * part // parts
        end = len(about) * (part + 1) // parts
        code: int = call(*words(points, offsets, *divided, about[start:end]),
                         *rule, *words(out[start:end]))
        return code

    for code in run_parts(ask, parts):
        _raise(code, given, about)
    return out


def _ask(name: str, contours: Any, about: Any, rule: Sequence[int],
         dtype: Any, threads: int) -> Any:
    """The same of contours and points that aren't tested."""
    given = given_contours(contours)
    about = _as_about(about, given.points)
    return _ask_of(name, given, (), about, rule, dtype, threads)


def find_holders(given: GivenPolygons, about: Array, rule: int,
                 threads: int) -> npt.NDArray[np.intp]:
    """The first polygon that holds each of the points, or -1."""
    # Where there is none, the call writes the number whose bits are all 1.
    holders: npt.NDArray[np.intp] = _ask_of(
        "locate_in_shapes", given.rings, (given.parts,), about, (rule,),
        np.intp, threads)
    return holders


def winding_numbers(contours: Contours[Int], about: npt.NDArray[Int], *,
                    threads: int = 1) -> npt.NDArray[np.intp]:
    """Return the total winding number of contours around each of many points.

    Parameters
    ----------
    contours : array of shape (n, 2), int16, int32 or int64, or Rings
        One contour, as for :func:`simplify`, or many, as ``Rings`` or a
        tuple (points, offsets): of these the winding numbers are added up,
        so that the rings of a polygon give what its fill rule asks for.
    about : array of shape (m, 2), of the same dtype
        The points.
    threads : int
        How many threads take a part of the points each, at most as many as
        there are processors. The answer is the same.

    Returns
    -------
    array of shape (m,) and dtype intp

    Raises
    ------
    UnsafePointError
        One of ``about`` isn't safe (then ``ring`` and ``point`` are None),
        or a point of a contour (the message says which; ``ring`` is 0 where
        one contour is given).
    OffsetsError
        The offsets of the rings don't divide their points.
    TypeError
        As :func:`simplify` does, and where ``about`` has another dtype.
    ValueError
        A shape is another one, or ``threads`` is below 1.
    MemoryError
        An allocation failed, or a thread could not be started.

    See also
    --------
    contains_points : which of the points a fill rule fills.

    Examples
    --------
    >>> import numpy as np
    >>> from i_shape import Rings, winding_numbers
    >>> square = np.array([(0, 0), (8, 0), (8, 8), (0, 8)])
    >>> hole = np.array([(2, 2), (2, 6), (6, 6), (6, 2)])
    >>> both = Rings(np.concatenate([square, hole]), np.array([0, 4, 8]))
    >>> winding_numbers(both, np.array([(1, 1), (4, 4), (9, 9)])).tolist()
    [1, 0, 0]
    """
    numbers: npt.NDArray[np.intp] = _ask(
        "windings", contours, about, (), np.intp, threads)
    return numbers


def contains_points(contours: Contours[Int], about: npt.NDArray[Int], *,
                    rule: FillRule = "evenodd",
                    threads: int = 1) -> npt.NDArray[np.bool_]:
    """Return which of many points contours fill together, by a fill rule.

    Parameters
    ----------
    contours, about, threads
        As for :func:`winding_numbers`.
    rule : "evenodd", "nonzero", "positive" or "negative"
        Which winding numbers are filled: the odd ones, those that aren't
        0, those above 0, or those below 0.

    Returns
    -------
    array of shape (m,) and dtype bool
        Some points on an edge are filled, others aren't. :func:`locate`
        returns 0 for each of them.

    Raises
    ------
    UnsafePointError, OffsetsError, TypeError, MemoryError
        As :func:`winding_numbers` does.
    ValueError
        As :func:`winding_numbers` does, and where there is no such rule.

    Examples
    --------
    >>> import numpy as np
    >>> from i_shape import contains_points
    >>> star = np.array([(0, 8), (-5, -7), (8, 2), (-8, 2), (5, -7)])
    >>> points = np.array([(0, 0), (0, 6), (4, 4)])
    >>> contains_points(star, points).tolist()
    [False, True, False]
    >>> contains_points(star, points, rule="nonzero").tolist()
    [True, True, False]
    """
    filled: npt.NDArray[np.bool_] = _ask(
        "contains_points", contours, about, (as_rule(rule),), np.bool_,
        threads)
    return filled


def locate(contours: Contours[Int], about: npt.NDArray[Int], *,
           rule: FillRule = "evenodd",
           threads: int = 1) -> npt.NDArray[np.int8]:
    """Return where each of many points lies, by a fill rule.

    Parameters
    ----------
    contours, about, rule, threads
        As for :func:`contains_points`.

    Returns
    -------
    array of shape (m,) and dtype int8
        0 for a point on an edge of a contour, the ends included; for the
        others 1 where the rule fills the point, and -1 where it doesn't.

    Raises
    ------
    UnsafePointError, OffsetsError, TypeError, ValueError, MemoryError
        As :func:`contains_points` does.

    Examples
    --------
    >>> import numpy as np
    >>> from i_shape import locate
    >>> square = np.array([(0, 0), (8, 0), (8, 8), (0, 8)])
    >>> locate(square, np.array([(4, 4), (8, 3), (0, 0), (9, 9)])).tolist()
    [1, 0, 0, -1]
    """
    located: npt.NDArray[np.int8] = _ask(
        "locate", contours, about, (as_rule(rule),), np.int8, threads)
    return located


def locate_in_polygons(points: npt.NDArray[Int], ring_offsets: npt.ArrayLike,
                       polygon_offsets: npt.ArrayLike,
                       about: npt.NDArray[Int], *, rule: FillRule = "evenodd",
                       threads: int = 1) -> npt.NDArray[np.intp]:
    """Return the first polygon that holds each of many points.

    A polygon holds what a fill rule fills by the winding number of its rings
    together. One call takes all polygons: a point is compared with the
    bounding box of each, and with the edges of those that it may lie in.

    Parameters
    ----------
    points : array of shape (n, 2), int16, int32 or int64
    ring_offsets : array of shape (m + 1,), of whole numbers
    polygon_offsets : array of shape (p + 1,), of whole numbers
        As for :func:`simplify_polygons`.
    about : array of shape (q, 2), of the same dtype
        The points that are looked for.
    rule : "evenodd", "nonzero", "positive" or "negative"
        As for :func:`contains_points`. By "evenodd", the default, a hole
        may run in either direction.
    threads : int
        How many threads take a part of ``about`` each, at most as many as
        there are processors. The answer is the same.

    Returns
    -------
    array of shape (q,) and dtype intp
        For each of ``about`` the index of the first polygon that holds it,
        from 0 on, and -1 where none does. Of points on an edge some are
        held, as :func:`contains_points` has it: where polygons tile an area,
        one of them holds each point within it.

    Raises
    ------
    UnsafePointError
        One of ``about`` isn't safe (then ``ring`` and ``point`` are None),
        or a point of a polygon isn't.
    OffsetsError
        As :func:`simplify_polygons` does.
    TypeError
        As :func:`simplify_polygons` does, and where ``about`` has another
        dtype.
    ValueError
        A shape is another one, there is no such rule, or ``threads`` is
        below 1.
    MemoryError
        An allocation failed, or a thread could not be started.

    See also
    --------
    i_shape.io.locate_in_features : of features in floats.

    Examples
    --------
    Two squares side by side, the first with a hole.

    >>> import numpy as np
    >>> from i_shape import locate_in_polygons
    >>> points = np.array([(0, 0), (8, 0), (8, 8), (0, 8),
    ...                    (2, 2), (2, 4), (4, 4), (4, 2),
    ...                    (8, 0), (16, 0), (16, 8), (8, 8)])
    >>> about = np.array([(1, 1), (3, 3), (8, 1), (20, 1)])
    >>> locate_in_polygons(points, [0, 4, 8, 12], [0, 2, 3], about).tolist()
    [0, -1, 1, -1]
    """
    given = given_polygons(points, ring_offsets, polygon_offsets)
    about = _as_about(about, given.rings.points)
    return find_holders(given, about, as_rule(rule), threads)

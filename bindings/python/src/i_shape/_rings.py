"""Calls on many rings."""

from __future__ import annotations

import ctypes
from typing import Any, NamedTuple, Sequence, TypeVar

import numpy as np
import numpy.typing as npt

from ._errors import UnsafePointError
from ._library import (CALLS, NO_MEMORY, UNSAFE, Array, address,
                       as_offsets, as_parts, as_points, check_offsets,
                       first_unsafe, raise_code, run_parts, unsafe_text,
                       words)

Int = TypeVar("Int", np.int16, np.int32, np.int64)


class Rings(NamedTuple):
    """Rings end to end: ring k is ``points[offsets[k]:offsets[k + 1]]``.

    Attributes
    ----------
    points : array of shape (n, 2), int16, int32 or int64
        The points of all rings, in the unit that they were given in; of
        :mod:`i_shape.io` also floats.
    offsets : array of shape (m + 1,) and dtype int64
        From 0 to n in an answer. A call takes any whole numbers.
    """

    points: npt.NDArray[Any]
    offsets: npt.NDArray[np.int64]


class GivenRings(NamedTuple):
    """Rings that a caller gave, tested: nothing tests them again.

    The first of them is ring ``before`` of those that were given.
    """

    points: Array
    offsets: Array
    before: int = 0


def given_rings(points: Any, offsets: Any) -> GivenRings:
    """The rings, tested."""
    points = as_points(points)
    offsets = as_offsets(offsets)
    check_offsets(offsets, len(points))
    return GivenRings(points, offsets)


def _clean_part(call: Any, points: Array, offsets: Array, out: Array,
                polygons: Sequence[Array]) -> tuple[int, Array]:
    """Clean the rings of some offsets into ``out``, which has their room.

    ``polygons`` has the offsets that divide these rings, if the call takes
    any. It returns how many points are written, or a code, and their
    offsets.
    """
    start, end = int(offsets[0]), int(offsets[-1])
    points = points[start:end]
    if start:
        offsets = offsets - start
    ends = np.empty(offsets.shape, np.int64)
    left = call(*words(points, offsets, *polygons, out, ends))
    return left, ends


def equal_cuts(offsets: Array, parts: int) -> list[int]:
    """Where to divide the rings: about equal sums of points and rings."""
    if parts == 1:
        return [0, len(offsets) - 1]
    work = offsets + np.arange(len(offsets))
    whole = int(work[-1]) - int(work[0])
    goals = [int(work[0]) + whole * part // parts for part in range(1, parts)]
    inner = np.searchsorted(work, goals)
    return [0, *inner.tolist(), len(offsets) - 1]


def raise_codes(codes: list[int], given: GivenRings) -> None:
    """Raise what one call on all the rings would have."""
    points, offsets, before = given
    if UNSAFE in codes:
        start, end = int(offsets[0]), int(offsets[-1])
        place = first_unsafe(points[start:end])
        if place is None:
            raise UnsafePointError("a point was not in the safe range, and"
                                   " was changed during the call")
        point = start + place
        ring = int(np.searchsorted(offsets, point, side="right")) - 1 + before
        raise UnsafePointError(
            unsafe_text(f"ring {ring}: point {point}", points[point],
                        points.dtype), ring=ring, point=point)
    if NO_MEMORY in codes:
        raise_code(NO_MEMORY, points)


def clean_parts(call: Any, given: GivenRings, cuts: list[int],
                polygons: Sequence[Array] = ()) -> Rings:
    """Clean the rings, those from one cut to the next in a thread each.

    ``polygons`` has for each part the offsets that divide its rings, if the
    call takes any.
    """
    points, offsets, _ = given
    start, end = int(offsets[0]), int(offsets[-1])
    out = np.empty((end - start, 2), points.dtype)
    if len(cuts) == 2:
        total, ends = _clean_part(call, points, offsets, out, polygons)
        raise_codes([total], given)
    else:
        starts = (offsets[cuts] - start).tolist()

        def clean_part(part: int) -> tuple[int, Array]:
            return _clean_part(call, points,
                               offsets[cuts[part]:cuts[part + 1] + 1],
                               out[starts[part]:starts[part + 1]],
                               polygons[part:part + 1])

        answers = run_parts(clean_part, len(cuts) - 1)
        raise_codes([left for left, _ in answers], given)
        # What the parts have left is moved together, from the front on.
        ends = np.empty(offsets.shape, np.int64)
        ends[0] = total = 0
        for part, (left, its_ends) in enumerate(answers):
            at = starts[part]
            if left and at != total:
                ctypes.memmove(address(out[total:]), address(out[at:]),
                               left * 2 * out.itemsize)
            ends[cuts[part] + 1:cuts[part + 1] + 1] = its_ends[1:] + total
            total += left
    out.resize((total, 2), refcheck=False)  # it gives back what isn't used
    return Rings(out, ends)


def clean_rings(cleaner: str, given: GivenRings, threads: Any) -> Rings:
    """Clean each ring."""
    parts = as_parts(threads, len(given.offsets) - 1)
    return clean_parts(CALLS[given.points.itemsize].many[cleaner], given,
                       equal_cuts(given.offsets, parts))


def canonical_cleaner(oriented: bool) -> str:
    """The name of the cleaner that makes a canonical form."""
    return "canonical" if oriented else "canonical_unoriented"


def simplify_rings(points: npt.NDArray[Int], offsets: npt.ArrayLike, *,
                   threads: int = 1) -> Rings:
    """Return each ring without its zero turns.

    Parameters
    ----------
    points : array of shape (n, 2), int16, int32 or int64
        The points of all rings, end to end. They are read where they lie
        if they are C-contiguous and aligned, and copied otherwise. They
        are never written.
    offsets : array of shape (m + 1,), of whole numbers
        Ring k is ``points[offsets[k]:offsets[k + 1]]``, read as a cycle:
        the last point isn't the first one again. The first offset need not
        be 0, and points outside the offsets aren't read. Offsets are
        copied.
    threads : int
        How many threads clean a part of the rings each, at most as many as
        there are processors. The answer is the same.

    Returns
    -------
    Rings
        The named tuple ``(points, offsets)``: for each ring what
        :func:`simplify` returns, in order, in the dtype of ``points``. A
        ring that collapses is empty and keeps its place. Offsets are int64
        and start at 0.

    Raises
    ------
    OffsetsError
        There is no offset, one is below 0 or below the one before it, or
        the last one is above n. Offsets are tested before the safety of
        points.
    UnsafePointError
        A coordinate of a ring isn't strictly between ``-2**(W-2)`` and
        ``2**(W-2)`` for a dtype of ``W`` bits; ``ring`` is the first such
        ring and ``point`` the row of its first such point.
    TypeError
        ``points`` have another dtype (as floats, unsigned numbers, booleans,
        objects, another byte order), ``offsets`` or ``threads`` aren't whole
        numbers, or an array is masked.
    ValueError
        A shape is another one, or ``threads`` is below 1.
    MemoryError
        An allocation failed, or a thread could not be started.

    Examples
    --------
    >>> import numpy as np
    >>> from i_shape import simplify_rings
    >>> points = np.array([(0, 0), (2, 0), (4, 0), (4, 4), (0, 4),
    ...                    (1, 1), (2, 2), (3, 3)], "int32")
    >>> left = simplify_rings(points, [0, 5, 8])
    >>> left.points.tolist()
    [[0, 0], [4, 0], [4, 4], [0, 4]]
    >>> left.offsets.tolist()
    [0, 4, 4]
    """
    return clean_rings("simplify", given_rings(points, offsets), threads)


def despike_rings(points: npt.NDArray[Int], offsets: npt.ArrayLike, *,
                  threads: int = 1) -> Rings:
    """Return each ring without its back points, as :func:`despike` does.

    Parameters
    ----------
    points : array of shape (n, 2), int16, int32 or int64
    offsets : array of shape (m + 1,), of whole numbers
    threads : int
        As for :func:`simplify_rings`.

    Returns
    -------
    Rings
        The named tuple ``(points, offsets)``, as :func:`simplify_rings`.

    Raises
    ------
    OffsetsError, UnsafePointError, TypeError, ValueError, MemoryError
        As :func:`simplify_rings` does.

    Examples
    --------
    >>> import numpy as np
    >>> from i_shape import despike_rings
    >>> points = np.array([(0, 0), (2, 0), (4, 0), (4, 4), (4, 9), (4, 4)])
    >>> despike_rings(points, [0, 6]).offsets.tolist()
    [0, 4]
    """
    return clean_rings("despike", given_rings(points, offsets), threads)


def canonical_rings(points: npt.NDArray[Int], offsets: npt.ArrayLike, *,
                    threads: int = 1, oriented: bool = False) -> Rings:
    """Return the canonical form of each ring, as :func:`canonical` does.

    Parameters
    ----------
    points : array of shape (n, 2), int16, int32 or int64
    offsets : array of shape (m + 1,), of whole numbers
    threads : int
        As for :func:`simplify_rings`.
    oriented : bool
        True reads no ring backwards, as for :func:`canonical`.

    Returns
    -------
    Rings
        The named tuple ``(points, offsets)``, as :func:`simplify_rings`.

    Raises
    ------
    OffsetsError, UnsafePointError, TypeError, ValueError, MemoryError
        As :func:`simplify_rings` does.

    Examples
    --------
    >>> import numpy as np
    >>> from i_shape import canonical_rings
    >>> points = np.array([(4, 4), (0, 4), (0, 0), (2, 0), (4, 0)])
    >>> canonical_rings(points, [0, 5]).points.tolist()
    [[0, 0], [0, 4], [4, 4], [4, 0]]
    >>> canonical_rings(points, [0, 5], oriented=True).points.tolist()
    [[0, 0], [4, 0], [4, 4], [0, 4]]
    """
    return clean_rings(canonical_cleaner(oriented),
                       given_rings(points, offsets), threads)

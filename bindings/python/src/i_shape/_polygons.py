"""Polygons: rings with offsets of their own.

The library cleans their rings, and returns which of these and of the polygons
are left.
"""

from __future__ import annotations

from typing import Any, NamedTuple, Tuple, TypeVar

import numpy as np
import numpy.typing as npt

from ._library import (CALLS, COMPACT_SHAPES, Array, as_offsets, as_parts,
                       as_points, as_threads, check_offsets, run_parts, words)
from ._rings import (GivenRings, Rings, canonical_cleaner, clean_parts,
                     clean_rings, equal_cuts, raise_codes)

Int = TypeVar("Int", np.int16, np.int32, np.int64)


Triple = Tuple[npt.NDArray[Any], npt.ArrayLike, npt.ArrayLike]


class Polygons(NamedTuple):
    """Polygons end to end.

    Polygon j has the rings from ``polygon_offsets[j]`` to before
    ``polygon_offsets[j + 1]``, the outer one first, and ring k is
    ``points[ring_offsets[k]:ring_offsets[k + 1]]``.

    Attributes
    ----------
    points : array of shape (n, 2), int16, int32 or int64
        The points of all rings, in the unit that they were given in; of
        :mod:`i_shape.io` also floats.
    ring_offsets : array of shape (m + 1,) and dtype int64
        From 0 to n in an answer. A call takes any whole numbers.
    polygon_offsets : array of shape (p + 1,) and dtype int64
        From 0 to m in an answer. A call takes any whole numbers.
    """

    points: npt.NDArray[Any]
    ring_offsets: npt.NDArray[np.int64]
    polygon_offsets: npt.NDArray[np.int64]


class GivenPolygons(NamedTuple):
    """Polygons that a caller gave, tested: nothing tests them again.

    The offsets ``parts`` divide their rings, from 0 on.
    """

    rings: GivenRings
    parts: Array


def given_polygons(points: Any, ring_offsets: Any,
                   polygon_offsets: Any) -> GivenPolygons:
    """The polygons, tested; rings that none of them has are not."""
    points = as_points(points)
    rings = as_offsets(ring_offsets, "ring_offsets")
    parts = as_offsets(polygon_offsets, "polygon_offsets")
    check_offsets(parts, len(rings) - 1, "polygon_offsets", "rings")
    start, end = int(parts[0]), int(parts[-1])
    rings = rings[start:end + 1]
    check_offsets(rings, len(points), "ring_offsets", before=start)
    return GivenPolygons(GivenRings(points, rings, start), parts - start)


def _shrink(array: Array, length: int) -> None:
    """Give back what isn't used of an array that nobody else has."""
    array.resize((length, *array.shape[1:]), refcheck=False)


class Left(NamedTuple):
    """What is left of polygons of which some rings are empty.

    These are the indices of the rings and of the polygons, and the offsets
    that divide these rings among these polygons.
    """

    rings: Array
    polygons: Array
    offsets: Array


def which_left(ring_offsets: Array, polygon_offsets: Array) -> Left:
    """What is left of polygons whose rings that collapsed are empty."""
    left = Left(np.empty(len(ring_offsets) - 1, np.int64),
                np.empty(len(polygon_offsets) - 1, np.int64),
                np.empty(len(polygon_offsets), np.int64))
    count = COMPACT_SHAPES(*words(ring_offsets, polygon_offsets, *left))
    _shrink(left.polygons, count)
    _shrink(left.offsets, count + 1)
    _shrink(left.rings, int(left.offsets[-1]))
    return left


def left_polygons(rings: Rings, left: Left) -> Polygons:
    """The polygons that are left of rings, of which each polygon has some."""
    if len(left.rings) == len(rings.offsets) - 1:
        return Polygons(*rings, left.offsets)
    sizes = np.diff(rings.offsets)
    ends = np.zeros(len(left.rings) + 1, np.int64)
    np.cumsum(sizes[left.rings], out=ends[1:])
    points = rings.points
    if ends[-1] < len(points):
        stay = np.zeros(len(sizes), np.bool_)
        stay[left.rings] = True
        points = points.compress(np.repeat(stay, sizes), axis=0)
    return Polygons(points, ends, left.offsets)


def _clean_rings(cleaner: str, given: GivenPolygons,
                 threads: Any) -> Polygons:
    """Clean each ring, and leave out what collapses."""
    rings = clean_rings(cleaner, given.rings, threads)
    return left_polygons(rings, which_left(rings.offsets, given.parts))


def _call_on(call: Any, given: GivenPolygons,
             *features: Array) -> Tuple[int, Polygons]:
    """What a call of the library returns, and leaves of the polygons.

    ``features`` has the offsets that divide these, if the call takes any.
    """
    points, rings, _ = given.rings
    first, last = int(rings[0]), int(rings[-1])
    points, rings = points[first:last], rings - first
    left = Polygons(np.empty_like(points), np.empty_like(rings),
                    np.empty_like(given.parts))
    count: int = call(*words(points, rings, given.parts, *features, *left))
    if count >= 0:
        _shrink(left.polygon_offsets, count + 1)
        _shrink(left.ring_offsets, int(left.polygon_offsets[-1]) + 1)
        _shrink(left.points, int(left.ring_offsets[-1]))
    return count, left


def clean_whole(cleaner: str, given: GivenPolygons) -> Polygons:
    """Clean the polygons by one call of the library."""
    call = CALLS[given.rings.points.itemsize].polygons[cleaner]
    count, left = _call_on(call, given)
    raise_codes([count], given.rings)
    return left


def _joined(parts: list[Polygons]) -> Polygons:
    """The polygons of all parts, one after the other."""
    if len(parts) == 1:
        return parts[0]

    def offsets(each: list[Array]) -> Array:
        ends = np.cumsum([0, *(part[-1] for part in each)])
        return np.concatenate([ends[:1], *(
            part[1:] + end for part, end in zip(each, ends))])

    points, rings, polygons = (list(each) for each in zip(*parts))
    return Polygons(np.concatenate(points), offsets(rings), offsets(polygons))


def form_features(cleaner: str, given: GivenPolygons, features: Array,
                  threads: Any) -> Polygons:
    """The polygons of the form of each feature.

    The offsets ``features`` divide the polygons that are given, all of
    them, and those that are returned. One that collapses has no rings, and
    stays in its feature.
    """
    (points, rings, before), parts = given
    call = CALLS[points.itemsize].features[cleaner]
    cuts = equal_cuts(rings[parts[features]],
                      as_parts(threads, len(features) - 1))

    def form_part(part: int) -> Tuple[int, Polygons]:
        its = features[cuts[part]:cuts[part + 1] + 1]
        ends = parts[its[0]:its[-1] + 1]
        its_rings = GivenRings(points, rings[ends[0]:ends[-1] + 1], before)
        return _call_on(call, GivenPolygons(its_rings, ends - ends[0]),
                        its - its[0])

    answers = run_parts(form_part, len(cuts) - 1)
    raise_codes([count for count, _ in answers], given.rings)
    return _joined([left for _, left in answers])


def form_each(cleaner: str, given: GivenPolygons, threads: Any) -> Rings:
    """The rings of the form of each polygon alone.

    One that collapses is empty, and stays in its polygon.
    """
    (points, offsets, _), polygons = given
    cuts = equal_cuts(offsets[polygons], as_parts(threads, len(polygons) - 1))
    return clean_parts(CALLS[points.itemsize].forms[cleaner], given.rings,
                       polygons[cuts].tolist(),
                       [polygons[first:end + 1] - polygons[first]
                        for first, end in zip(cuts, cuts[1:])])


def simplify_polygons(points: npt.NDArray[Int], ring_offsets: npt.ArrayLike,
                      polygon_offsets: npt.ArrayLike, *,
                      threads: int = 1) -> Polygons:
    """Return each polygon without the zero turns of its rings.

    A polygon whose outer ring collapses is left out, and so are holes that
    collapse. A polygon without rings stays as it is.

    The answer is that of a proved call; where threads share the work, of two,
    one after the other: each ring is cleaned, and what collapses is left out.

    Parameters
    ----------
    points : array of shape (n, 2), int16, int32 or int64
        The points of all rings, as for :func:`simplify_rings`.
    ring_offsets : array of shape (m + 1,), of whole numbers
        Ring k is ``points[ring_offsets[k]:ring_offsets[k + 1]]``.
    polygon_offsets : array of shape (p + 1,), of whole numbers
        The rings of polygon j are those from ``polygon_offsets[j]`` to
        before ``polygon_offsets[j + 1]``; the first of them is the outer
        one. Rings and points outside the offsets aren't read.
    threads : int
        How many threads clean a part of the polygons each, at most as many
        as there are processors. The answer is the same.

    Returns
    -------
    Polygons
        The named tuple ``(points, ring_offsets, polygon_offsets)``, in the
        dtype of ``points`` and int64. All offsets start at 0.

    Raises
    ------
    OffsetsError
        As :func:`simplify_rings` does, and where ``polygon_offsets`` don't
        divide the rings. Offsets of rings that no polygon has are not tested.
    UnsafePointError, TypeError, ValueError, MemoryError
        As :func:`simplify_rings` does.

    Examples
    --------
    >>> import numpy as np
    >>> from i_shape import simplify_polygons
    >>> points = np.array([(0, 0), (4, 0), (8, 0), (8, 8), (0, 8),
    ...                    (1, 1), (2, 2), (3, 3),
    ...                    (4, 4), (4, 6), (6, 4)], "int32")
    >>> left = simplify_polygons(points, [0, 5, 8, 11], [0, 3])
    >>> left.ring_offsets.tolist(), left.polygon_offsets.tolist()
    ([0, 4, 7], [0, 2])
    """
    given = given_polygons(points, ring_offsets, polygon_offsets)
    if as_parts(threads, len(given.parts) - 1) == 1:
        return clean_whole("simplify", given)
    return _clean_rings("simplify", given, threads)


def despike_polygons(points: npt.NDArray[Int], ring_offsets: npt.ArrayLike,
                     polygon_offsets: npt.ArrayLike, *,
                     threads: int = 1) -> Polygons:
    """Return each polygon without the back points of its rings.

    It is :func:`simplify_polygons`, but a ring is left as :func:`despike`
    returns it: without repeated points and spikes, and with vertices that
    lie on an edge. :func:`i_shape.io.despike_features` does the same to the
    polygons of features.

    Parameters
    ----------
    points : array of shape (n, 2), int16, int32 or int64
    ring_offsets : array of shape (m + 1,), of whole numbers
    polygon_offsets : array of shape (p + 1,), of whole numbers
    threads : int
        As for :func:`simplify_polygons`.

    Returns
    -------
    Polygons
        The named tuple ``(points, ring_offsets, polygon_offsets)``, as
        :func:`simplify_polygons`.

    Raises
    ------
    OffsetsError, UnsafePointError, TypeError, ValueError, MemoryError
        As :func:`simplify_polygons` does.

    Examples
    --------
    >>> import numpy as np
    >>> from i_shape import despike_polygons
    >>> points = np.array([(0, 0), (2, 0), (4, 0), (4, 4), (4, 9), (4, 4),
    ...                    (1, 1), (2, 2), (3, 3)])
    >>> left = despike_polygons(points, [0, 6, 9], [0, 2])
    >>> left.points.tolist()
    [[0, 0], [2, 0], [4, 0], [4, 4]]
    >>> left.ring_offsets.tolist(), left.polygon_offsets.tolist()
    ([0, 4], [0, 1])
    """
    # The call on polygons leaves a ring without spikes as it is, also with
    # points that repeat.
    given = given_polygons(points, ring_offsets, polygon_offsets)
    return _clean_rings("despike", given, threads)


def canonical_polygons(points: npt.NDArray[Int], ring_offsets: npt.ArrayLike,
                       polygon_offsets: npt.ArrayLike, *,
                       oriented: bool = False, threads: int = 1) -> Polygons:
    """Return the canonical form of a list of polygons.

    The form of a polygon is the canonical form of its outer ring, and after
    it those of the holes that don't collapse, sorted by their points. The
    form of the list is that of the polygons whose outer rings don't
    collapse, sorted ring by ring. Lists are compared item by item, and
    points by x and then by y. A polygon without rings is its own form.

    Two lists have equal forms exactly where one becomes the other by these
    moves: a ring is turned to another start, is read backwards, loses a
    zero turn or gains one; holes or polygons are put in another order; a
    hole that collapses, or a polygon whose outer ring does, goes or comes.

    The answer is that of a proved call.

    Parameters
    ----------
    points : array of shape (n, 2), int16, int32 or int64
    ring_offsets : array of shape (m + 1,), of whole numbers
    polygon_offsets : array of shape (p + 1,), of whole numbers
        As for :func:`simplify_polygons`.
    oriented : bool
        True reads no ring backwards. Otherwise the form of each is the
        lesser of those of both ways.
    threads : int
        At least 1. One thread makes the form, however many are allowed.

    Returns
    -------
    Polygons
        The named tuple ``(points, ring_offsets, polygon_offsets)``, as
        :func:`simplify_polygons`.

    Raises
    ------
    OffsetsError, UnsafePointError, TypeError, ValueError, MemoryError
        As :func:`simplify_polygons` does.

    Examples
    --------
    >>> import numpy as np
    >>> from i_shape import canonical_polygons
    >>> points = np.array([(4, 4), (0, 4), (0, 0), (2, 0), (4, 0),
    ...                    (1, 0), (0, 1), (0, 0)])
    >>> form = canonical_polygons(points, [0, 5, 8], [0, 1, 2])
    >>> form.points.tolist()
    [[0, 0], [0, 1], [1, 0], [0, 0], [0, 4], [4, 4], [4, 0]]
    >>> form.ring_offsets.tolist()
    [0, 3, 7]
    """
    given = given_polygons(points, ring_offsets, polygon_offsets)
    as_threads(threads)
    return clean_whole(canonical_cleaner(oriented), given)


def same_polygons(a: Triple, b: Triple, *, oriented: bool = False,
                  threads: int = 1) -> bool:
    """Return whether two lists of polygons are the same.

    They are where their unoriented forms are equal, or with ``oriented``
    their canonical forms: see :func:`canonical_polygons`.

    Parameters
    ----------
    a, b : Polygons, or a tuple (points, ring_offsets, polygon_offsets)
        As for :func:`simplify_polygons`. Their dtypes may differ.
    oriented : bool
        True reads no ring backwards.
    threads : int
        At least 1. With more, each of the two forms has a thread, if there
        is more than one processor.

    Returns
    -------
    bool

    Raises
    ------
    OffsetsError, UnsafePointError, TypeError, ValueError, MemoryError
        As :func:`simplify_polygons` does.

    Examples
    --------
    >>> import numpy as np
    >>> from i_shape import same_polygons
    >>> a = np.array([(0, 0), (2, 0), (4, 0), (4, 4), (0, 4)]), [0, 5], [0, 1]
    >>> b = np.array([(4, 4), (0, 4), (0, 0), (4, 0)], "int16"), [0, 4], [0, 1]
    >>> same_polygons(a, b)
    True
    >>> same_polygons(a, (b[0][::-1], *b[1:]))
    True
    >>> same_polygons(a, (b[0][::-1], *b[1:]), oriented=True)
    False
    """
    def form(place: int) -> Polygons:
        return canonical_polygons(*(a, b)[place], oriented=oriented)

    if as_parts(threads, 2) == 1:
        forms = [form(0), form(1)]
    else:
        forms = run_parts(form, 2)
    return all(np.array_equal(one, other) for one, other in zip(*forms))

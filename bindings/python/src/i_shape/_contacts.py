"""Edges that meet, and whether polygons are valid."""

from __future__ import annotations

import enum
from typing import Any, Optional, TypeVar

import numpy as np
import numpy.typing as npt

from ._library import (CALLS, Array, address, as_pairs, as_parts, as_points,
                       raise_code, run_parts, words)
from ._polygons import GivenPolygons, given_polygons
from ._rings import GivenRings, equal_cuts, given_rings, raise_codes
from ._windings import Contours, given_contours

Int = TypeVar("Int", np.int16, np.int32, np.int64)


def _pair(places: Any, start: int = 0) -> tuple[int, int]:
    return int(places[0]) + start, int(places[1]) + start


def first_contact(points: npt.NDArray[Int]) -> Optional[tuple[int, int]]:
    """Return the first two edges of a contour that are in contact.

    An edge leads from each point to the next one, and the last edge to the
    first point. Two edges are in contact if they share a point other than
    one at which one of them follows the other: they cross, touch or overlap.

    Parameters
    ----------
    points : array of shape (n, 2), int16, int32 or int64
        The contour, as for :func:`simplify`.

    Returns
    -------
    tuple of two int, or None
        The indices of the points from which the two edges lead, the lesser
        first: of the first edge that is in contact with a later one, and of
        the first such one. None where no two edges are in contact.

    Raises
    ------
    UnsafePointError, TypeError, ValueError
        As :func:`simplify` does.

    See also
    --------
    contacts : all of them.
    first_contact_of_rings : of many rings together.
    is_simple_polygon : whether there is none, and the contour has an inside.

    Examples
    --------
    >>> import numpy as np
    >>> from i_shape import first_contact
    >>> first_contact(np.array([(0, 0), (4, 4), (4, 0), (0, 4)]))
    (0, 2)
    >>> first_contact(np.array([(0, 0), (4, 0), (4, 4)])) is None
    True
    """
    points = as_points(points)
    places = np.empty(2, np.uintp)
    code = CALLS[points.itemsize].first_contact(
        address(points), len(points), address(places), len(places))
    if code < 0:
        raise_code(code, points)
    return _pair(places) if code else None


def first_contact_of_rings(
        points: npt.NDArray[Int],
        offsets: npt.ArrayLike) -> Optional[tuple[int, int]]:
    """Return the first two edges of the rings that are in contact.

    The edges are of one ring or of two. Of a polygon, pass the rings of that
    polygon alone: those of two polygons may touch.

    Parameters
    ----------
    points : array of shape (n, 2), int16, int32 or int64
    offsets : array of shape (m + 1,), of whole numbers
        As for :func:`simplify_rings`.

    Returns
    -------
    tuple of two int, or None
        The indices in ``points`` as of :func:`first_contact`.

    Raises
    ------
    OffsetsError, UnsafePointError, TypeError, ValueError
        As :func:`simplify_rings` does.

    Examples
    --------
    A square, and in it a hole that touches its upper edge.

    >>> import numpy as np
    >>> from i_shape import first_contact_of_rings
    >>> points = np.array([(0, 0), (9, 0), (9, 9), (0, 9),
    ...                    (2, 2), (4, 9), (6, 2)])
    >>> first_contact_of_rings(points, [0, 4, 7])
    (2, 4)
    """
    given = given_rings(points, offsets)
    start, its, rings = _from_first(given)
    places = np.empty(2, np.uintp)
    code = CALLS[its.itemsize].first_contact_of_rings(
        *words(its, rings, places))
    raise_codes([code], given)
    return _pair(places, start) if code else None


def _from_first(given: GivenRings) -> tuple[int, Array, Array]:
    """The first offset, and the rings as if it were 0.

    Of those a call copies no offsets.
    """
    points, offsets, _ = given
    start, end = int(offsets[0]), int(offsets[-1])
    return start, points[start:end], offsets - start


def _list_contacts(call: Any, *given: Array) -> tuple[int, Array]:
    """The code of a call that lists contacts, and what it lists."""
    out = np.empty((len(given[0]), 2), np.intp)
    while (count := call(*words(*given, out))) > len(out):
        out = np.empty((count, 2), np.intp)
    out.resize((max(count, 0), 2), refcheck=False)
    return count, out


def contacts(points: npt.NDArray[Int]) -> npt.NDArray[np.intp]:
    """Return all pairs of edges of a contour that are in contact.

    :func:`first_contact` says what that is. It takes nearly linear time
    where few boxes around edges overlap, and otherwise up to quadratic time.

    Parameters
    ----------
    points : array of shape (n, 2), int16, int32 or int64
        The contour, as for :func:`simplify`.

    Returns
    -------
    array of shape (k, 2) and dtype intp
        Of each pair the indices of the points from which the two edges
        lead, the lesser first. Pairs are in ascending order.

    Raises
    ------
    UnsafePointError, TypeError, ValueError
        As :func:`simplify` does.
    MemoryError
        There is no memory for the pairs.

    See also
    --------
    first_contact : the first pair alone, in less time.
    contacts_of_rings : of many rings together.
    kinds_of_contacts : whether the edges cross, touch or overlap.

    Examples
    --------
    A square with a spike.

    >>> import numpy as np
    >>> from i_shape import contacts
    >>> contacts(np.array([(0, 0), (4, 0), (4, 8), (4, 4), (0, 4)])).tolist()
    [[1, 2], [1, 3]]
    """
    points = as_points(points)
    code, found = _list_contacts(CALLS[points.itemsize].contacts, points)
    if code < 0:
        raise_code(code, points)
    return found


def contacts_of_rings(points: npt.NDArray[Int],
                      offsets: npt.ArrayLike) -> npt.NDArray[np.intp]:
    """Return all pairs of edges of the rings that are in contact.

    The edges are of one ring or of two. Of a polygon, pass the rings of that
    polygon alone: those of two polygons may touch.

    Parameters
    ----------
    points : array of shape (n, 2), int16, int32 or int64
    offsets : array of shape (m + 1,), of whole numbers
        As for :func:`simplify_rings`.

    Returns
    -------
    array of shape (k, 2) and dtype intp
        The indices in ``points`` as of :func:`contacts`.

    Raises
    ------
    OffsetsError, UnsafePointError, TypeError, ValueError
        As :func:`simplify_rings` does.
    MemoryError
        There is no memory for the pairs.

    Examples
    --------
    A square, and in it a hole that touches its upper edge.

    >>> import numpy as np
    >>> from i_shape import contacts_of_rings
    >>> points = np.array([(0, 0), (9, 0), (9, 9), (0, 9),
    ...                    (2, 2), (4, 9), (6, 2)])
    >>> contacts_of_rings(points, [0, 4, 7]).tolist()
    [[2, 4], [2, 5]]
    """
    given = given_rings(points, offsets)
    start, its, rings = _from_first(given)
    code, found = _list_contacts(CALLS[its.itemsize].contacts_of_rings, its,
                                 rings)
    raise_codes([code], given)
    found += start
    return found


class ContactKind(enum.IntEnum):
    """How two edges meet.

    The numbers are those that :func:`kinds_of_contacts` returns. Paths may
    also cross at a vertex, where each edge of one only touches those of the
    other.

    Attributes
    ----------
    NONE
        They share no point.
    CROSSING
        The ends of each edge lie on both sides of the line of the other,
        none on it.
    TOUCH
        They share one point, and don't cross. So does an edge with the one
        that follows it, which isn't in contact with it.
    OVERLAP
        They share more than one point.
    """

    NONE = 0
    CROSSING = 1
    TOUCH = 2
    OVERLAP = 3


def kinds_of_contacts(contours: Contours[Int],
                      contacts: npt.ArrayLike) -> npt.NDArray[np.uint8]:
    """Return whether edges cross, touch or overlap.

    Parameters
    ----------
    contours : array of shape (n, 2), or :class:`Rings`, or a tuple
        One contour, or the points and offsets of many, as for
        :func:`winding_numbers`.
    contacts : array of shape (k, 2), int16, int32 or int64
        Of each pair of edges the indices of the points from which they
        lead, as :func:`contacts` and :func:`contacts_of_rings` return them.

    Returns
    -------
    array of shape (k,) and dtype uint8
        Of each pair one of :class:`ContactKind`.

    Raises
    ------
    IndexError
        No contour has a point of such an index.
    UnsafePointError
        An end of these edges isn't safe. ``ring`` and ``point`` are those of
        the first unsafe point of the contours.
    OffsetsError, TypeError, ValueError, MemoryError
        As :func:`winding_numbers` does.

    Examples
    --------
    A square with a spike, and in it a hole that touches the upper edge.

    >>> import numpy as np
    >>> from i_shape import ContactKind, contacts_of_rings, kinds_of_contacts
    >>> points = np.array([(0, 0), (9, 0), (9, 12), (9, 9), (0, 9),
    ...                    (2, 2), (4, 9), (6, 2)])
    >>> rings = points, [0, 5, 8]
    >>> pairs = contacts_of_rings(*rings)
    >>> kinds = kinds_of_contacts(rings, pairs)
    >>> pairs[kinds == ContactKind.OVERLAP].tolist()
    [[1, 2]]
    >>> pairs[kinds == ContactKind.TOUCH].tolist()
    [[1, 3], [3, 5], [3, 6]]
    """
    given = given_contours(contours)
    edges = edges_of(given, as_pairs(contacts, "contacts").astype(np.int64))
    kinds = np.empty(len(edges) // 4, np.uint8)
    code = CALLS[edges.itemsize].kinds_of_contacts(*words(edges, kinds))
    raise_codes([code], given)
    return kinds


def edges_of(given: GivenRings, places: Array) -> Array:
    """The ends of the edges that lead from these places."""
    points, offsets, _ = given
    outside = (places < offsets[0]) | (places >= offsets[-1])
    if outside.any():
        raise IndexError(f"contacts have the index {places[outside][0]}:"
                         " no contour has such a point")
    rings = np.searchsorted(offsets, places, side="right") - 1
    is_last = places + 1 == offsets[rings + 1]
    following = np.where(is_last, offsets[rings], places + 1)
    edges: Array = points[np.stack([places, following], axis=2)]
    return edges.reshape(-1, 2)


class Fault(enum.IntEnum):
    """What is wrong with a polygon, if anything.

    The numbers are those of ``kind`` of :func:`polygon_validity`.

    Attributes
    ----------
    VALID
        Nothing is wrong.
    TOO_FEW_POINTS
        A ring has fewer than three points, or all its points are equal.
    CONTACT
        Two edges are in contact, as of :func:`first_contact_of_rings`. Where
        rings may touch: they are of one ring, cross or overlap.
    HOLE_OUTSIDE
        A hole has a vertex about which the winding number of the outer ring
        is 0. Where rings may touch: it has such a point, anywhere on its
        edges, that isn't on the outer ring.
    HOLE_WITHIN
        A hole has a vertex about which that of another hole isn't 0. Where
        rings may touch: it has such a point, anywhere on its edges, that
        isn't on the other hole.
    DISCONNECTED
        Only where rings may touch: two edges touch, and close a circle of
        rings that touch at other points too, which parts the inside.
    """

    VALID = 0
    TOO_FEW_POINTS = 1
    CONTACT = 2
    HOLE_OUTSIDE = 3
    HOLE_WITHIN = 4
    DISCONNECTED = 5


# What the library writes of a polygon.
_FAULT = np.dtype([("kind", np.intp), ("first", np.intp),
                   ("second", np.intp)])


def polygon_validity(points: npt.NDArray[Int], ring_offsets: npt.ArrayLike,
                     polygon_offsets: npt.ArrayLike, *,
                     touching: bool = False,
                     threads: int = 1) -> npt.NDArray[Any]:
    """Return what is wrong with each polygon, if anything.

    A polygon is valid if no ring has fewer than three points or only equal
    ones, no two edges are in contact, each vertex of each hole is inside
    the outer ring, and none is inside another hole. Rings that touch at one
    point are in contact, unlike by the rules of shapely and PostGIS, unless
    they may touch. Different polygons aren't compared.

    Parameters
    ----------
    points : array of shape (n, 2), int16, int32 or int64
    ring_offsets : array of shape (m + 1,), of whole numbers
    polygon_offsets : array of shape (p + 1,), of whole numbers
    touching : bool
        True lets two rings of a polygon touch at single points, unless that
        parts the inside: valid are those polygons that are valid by OGC's
        rules, as for shapely and PostGIS, and have no repeated points. A
        ring that touches itself stays a fault.
    threads : int
        As for :func:`simplify_polygons`.

    Returns
    -------
    array of shape (p,), with fields ``kind``, ``first`` and ``second``
        Of each polygon the first fault, in order. ``kind`` is one of
        :class:`Fault`, 0 where the polygon is valid. ``first`` and
        ``second`` are, of dtype intp,

        - for TOO_FEW_POINTS and HOLE_OUTSIDE: the index of the ring, and 0;
        - for CONTACT and DISCONNECTED: the indices in ``points`` of the
          points from which the two edges lead;
        - for HOLE_WITHIN: the indices of that ring and of the other one;
        - for VALID: 0 and 0.

        Rings are those of ``ring_offsets``.

    Raises
    ------
    OffsetsError, UnsafePointError, TypeError, ValueError, MemoryError
        As :func:`simplify_polygons` does. With ``touching``, there may also
        be no memory for the contacts of a polygon, as of
        :func:`contacts_of_rings`.

    See also
    --------
    i_shape.io.explain_validity : of features, in words.

    Examples
    --------
    A triangle, and a square with a hole beside it.

    >>> import numpy as np
    >>> from i_shape import Fault, polygon_validity
    >>> points = np.array([(0, 0), (4, 0), (0, 4),
    ...                    (0, 0), (4, 0), (4, 4), (0, 4),
    ...                    (6, 1), (6, 2), (7, 1)])
    >>> faults = polygon_validity(points, [0, 3, 7, 10], [0, 1, 3])
    >>> faults["kind"].tolist()
    [0, 3]
    >>> Fault(3).name, int(faults["first"][1])
    ('HOLE_OUTSIDE', 2)

    A square with a hole that touches its upper edge, and one with a hole
    that also touches its lower edge, and so parts the inside.

    >>> points = np.array([(0, 0), (9, 0), (9, 9), (0, 9),
    ...                    (2, 2), (4, 9), (6, 2),
    ...                    (0, 0), (9, 0), (9, 9), (0, 9),
    ...                    (2, 2), (4, 9), (6, 0)])
    >>> polygons = points, [0, 4, 7, 11, 14], [0, 2, 4]
    >>> polygon_validity(*polygons)["kind"].tolist()
    [2, 2]
    >>> polygon_validity(*polygons, touching=True).tolist()
    [(0, 0, 0), (5, 7, 12)]
    >>> Fault(5).name
    'DISCONNECTED'
    """
    return find_faults(given_polygons(points, ring_offsets, polygon_offsets),
                       touching, threads)


def find_faults(given: GivenPolygons, touching: bool,
                threads: Any) -> npt.NDArray[np.void]:
    """The first fault of each polygon, whose rings may touch or not."""
    (points, rings, before), polygons = given
    calls = CALLS[points.itemsize]
    call = (calls.touching_validity_shapes if touching
            else calls.validity_shapes)
    parts = as_parts(threads, len(polygons) - 1)
    cuts = equal_cuts(rings[polygons], parts)
    faults = np.zeros(len(polygons) - 1, _FAULT)

    def test(part: int) -> int:
        start, end = cuts[part:part + 2]
        return _test_polygons(call, points, rings, polygons[start:end + 1],
                              faults[start:end])

    raise_codes(run_parts(test, parts), given.rings)
    _count_rings(faults, before)
    return faults


def _test_polygons(call: Any, points: Array, rings: Array, polygons: Array,
                   faults: Array) -> int:
    """Write the fault of each polygon of some offsets, and return a code."""
    first_ring, last_ring = int(polygons[0]), int(polygons[-1])
    rings, polygons = rings[first_ring:last_ring + 1], polygons - first_ring
    start, end = int(rings[0]), int(rings[-1])
    its, rings = points[start:end], rings - start
    code: int = call(*words(its, rings, polygons, faults))
    have_edges = name_edges(faults)
    faults["first"][have_edges] += start
    faults["second"][have_edges] += start
    _count_rings(faults, first_ring)
    return code


def name_edges(faults: Array) -> npt.NDArray[np.bool_]:
    """Which of the faults are of two edges."""
    kinds = faults["kind"]
    found: npt.NDArray[np.bool_] = (
        (kinds == Fault.CONTACT) | (kinds == Fault.DISCONNECTED))
    return found


def _count_rings(faults: Array, before: int) -> None:
    """Count the rings of faults from ``before`` on."""
    kinds = faults["kind"]
    name_a_ring = ((kinds == Fault.TOO_FEW_POINTS) | (kinds == Fault.HOLE_OUTSIDE)
                   | (kinds == Fault.HOLE_WITHIN))
    faults["first"][name_a_ring] += before
    faults["second"][kinds == Fault.HOLE_WITHIN] += before

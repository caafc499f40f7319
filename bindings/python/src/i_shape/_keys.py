"""Keys of rings and of polygons: bytes that are equal where forms are.

docs/DATA.md has their form, which no version changes. Whole numbers
take 64 bits, so keys of arrays of any dtype can be compared.
"""

from __future__ import annotations

from typing import Any, Iterator, Optional, Sequence, Tuple, TypeVar, Union

import numpy as np
import numpy.typing as npt

from ._library import Array
from ._polygons import (Polygons, form_each, given_polygons, left_polygons,
                        which_left)
from ._rings import Rings, canonical_cleaner, canonical_rings

Int = TypeVar("Int", np.int16, np.int32, np.int64)
Pair = Union[Rings, Tuple[npt.NDArray[Any], npt.ArrayLike]]

_WORD = np.dtype("<i8")
_OF_POLYGON = 1 << 62  # what no safe coordinate is
_BLOCK = 1 << 16  # rings, or polygons


def _cut(words: Array, ends: Array) -> list[bytes]:
    """The bytes of the words between one end and the next."""
    whole = words.tobytes()
    places = (ends * _WORD.itemsize).tolist()
    return [whole[a:b] for a, b in zip(places, places[1:])]


def _keys_of_rings(forms: Rings) -> Iterator[bytes]:
    # One block after another takes less memory.
    for start in range(0, len(forms.offsets) - 1, _BLOCK):
        ends = forms.offsets[start:start + _BLOCK + 1]
        points = forms.points[ends[0]:ends[-1]]
        yield from _cut(points.astype(_WORD), 2 * (ends - ends[0]))


def _keys_of_forms(forms: Rings, parts: Array) -> list[bytes]:
    """The keys of polygons of these forms, of which some rings are empty."""
    left = which_left(forms.offsets, parts)
    words, starts = _words_of(left_polygons(forms, left))
    return _cut(words, starts[np.searchsorted(left.polygons,
                                              np.arange(len(parts)))])


def _words_of(forms: Polygons) -> Tuple[Array, Array]:
    """The words of the keys of polygons, and where each of these begins."""
    points, offsets, firsts = forms
    counts = np.diff(firsts)
    # Each polygon begins with its word, and each ring with one.
    starts = np.arange(len(firsts)) + firsts + 2 * offsets[firsts]
    ring_words = (np.repeat(np.arange(1, len(firsts)), counts)
                  + np.arange(len(offsets) - 1) + 2 * offsets[:-1])
    words = np.empty(int(starts[-1]), _WORD)
    is_point = np.ones(len(words), np.bool_)
    is_point[starts[:-1]] = is_point[ring_words] = False
    words[starts[:-1]] = counts + _OF_POLYGON
    words[ring_words] = np.diff(offsets)
    words[is_point] = points.ravel()
    return words, starts


def keys_of_polygons(forms: Rings, polygon_offsets: Array) -> list[bytes]:
    """The keys of polygons, by the rings of their forms."""
    keys: list[bytes] = []
    # One block after another takes less memory.
    for start in range(0, len(polygon_offsets) - 1, _BLOCK):
        parts = polygon_offsets[start:start + _BLOCK + 1]
        ends = forms.offsets[parts[0]:parts[-1] + 1]
        its = Rings(forms.points[ends[0]:ends[-1]], ends - ends[0])
        keys += _keys_of_forms(its, parts - parts[0])
    return keys


def _keys_of_lists(forms: Polygons, features: Array) -> list[bytes]:
    """The keys of lists of polygons, each the keys of its polygons."""
    points, offsets, firsts = forms
    has_rings = np.diff(firsts) > 0  # a polygon without them doesn't count
    before = np.concatenate([[0], np.cumsum(has_rings)])
    firsts = np.append(firsts[:-1][has_rings], firsts[-1])
    words, starts = _words_of(Polygons(points, offsets, firsts))
    return _cut(words, starts[before[features]])


def keys_of_features(forms: Polygons, features: Array) -> list[bytes]:
    """The keys of features, by the polygons of their forms."""
    keys: list[bytes] = []
    # One block after another takes less memory.
    for start in range(0, len(features) - 1, _BLOCK):
        its = features[start:start + _BLOCK + 1]
        parts = forms.polygon_offsets[its[0]:its[-1] + 1]
        ends = forms.ring_offsets[parts[0]:parts[-1] + 1]
        keys += _keys_of_lists(
            Polygons(forms.points[ends[0]:ends[-1]], ends - ends[0],
                     parts - parts[0]), its - its[0])
    return keys


def as_objects(keys: Sequence[bytes]) -> npt.NDArray[np.object_]:
    array = np.empty(len(keys), object)
    array[:] = keys
    return array


def canonical_keys(points: npt.NDArray[Int], ring_offsets: npt.ArrayLike,
                   polygon_offsets: Optional[npt.ArrayLike] = None, *,
                   oriented: bool = False,
                   threads: int = 1) -> npt.NDArray[np.object_]:
    """Return a key of each ring, or of each polygon.

    Two keys are equal where the unoriented forms are, or with ``oriented``
    the canonical forms: of rings those of :func:`canonical_rings`, and of
    polygons those that :func:`canonical_polygons` returns of each alone. So
    a dictionary, a set, ``numpy.unique``, pandas or a table of a database
    finds equal ones among many. The dtypes of ``points`` may differ from
    call to call.

    Parameters
    ----------
    points : array of shape (n, 2), int16, int32 or int64
    ring_offsets : array of shape (m + 1,), of whole numbers
        As for :func:`simplify_rings`.
    polygon_offsets : array of shape (p + 1,), of whole numbers, or None
        As for :func:`simplify_polygons`. None asks for the keys of the
        rings.
    oriented : bool
        True reads no ring backwards, as for :func:`canonical`. It is the
        same word, and as here false by default, that ``i_shape_key`` in
        PostgreSQL has.
    threads : int
        How many threads make the forms of a part of the rings, or of the
        polygons, each, at most as many as there are processors. The answer
        is the same.

    Returns
    -------
    array of shape (m,) or (p,) and dtype object
        In order, each of type ``bytes``. It is empty where the ring, or the
        outer ring of the polygon, collapses; that of a polygon without
        rings isn't. But for the empty one, no key of a polygon is that of a
        ring. No version changes a key.

    Raises
    ------
    OffsetsError, UnsafePointError, TypeError, ValueError, MemoryError
        As :func:`simplify_rings` and :func:`simplify_polygons` do.

    See also
    --------
    same_rings : which rings of one list are those of another.

    Examples
    --------
    >>> import numpy as np
    >>> from i_shape import canonical_keys
    >>> points = np.array([(0, 0), (4, 0), (4, 4),
    ...                    (4, 4), (4, 0), (2, 0), (0, 0),
    ...                    (0, 0), (9, 0), (0, 9)])
    >>> keys = canonical_keys(points, [0, 3, 7, 10])
    >>> keys[0] == keys[1], keys[0] == keys[2]
    (True, False)
    >>> _, first, group = np.unique(keys, return_index=True,
    ...                             return_inverse=True)
    >>> first[group].tolist()
    [0, 0, 2]
    """
    if polygon_offsets is None:
        keys = list(_keys_of_rings(canonical_rings(
            points, ring_offsets, threads=threads, oriented=oriented)))
    else:
        given = given_polygons(points, ring_offsets, polygon_offsets)
        forms = form_each(canonical_cleaner(oriented), given, threads)
        keys = keys_of_polygons(forms, given.parts)
    return as_objects(keys)


def same_rings(a: Pair, b: Pair, *, oriented: bool = False,
               threads: int = 1) -> npt.NDArray[np.intp]:
    """Return for each ring of one list where the same ring is in another.

    Rings are the same where their unoriented forms are equal, or with
    ``oriented`` their canonical forms, as :func:`canonical_rings` returns
    them. A ring that collapses leaves nothing to compare: none is the same.

    Parameters
    ----------
    a, b : Rings, or a tuple (points, offsets)
        As for :func:`simplify_rings`. Their dtypes may differ.
    oriented : bool
        True reads no ring backwards.
    threads : int
        As for :func:`canonical_keys`.

    Returns
    -------
    array of shape (m,) and dtype intp
        For each of the m rings of ``a``, in order, the least number of a
        ring of ``b`` that is the same, and -1 where none is.

    Raises
    ------
    OffsetsError, UnsafePointError, TypeError, ValueError, MemoryError
        As :func:`simplify_rings` does.

    Examples
    --------
    >>> import numpy as np
    >>> from i_shape import same_rings
    >>> a = np.array([(0, 0), (4, 0), (4, 4), (0, 0), (9, 0), (0, 9)])
    >>> b = np.array([(1, 0), (4, 0), (4, 4), (4, 4), (0, 0), (2, 0), (4, 0)])
    >>> same_rings((a, [0, 3, 6]), (b, [0, 3, 7])).tolist()
    [1, -1]
    """
    ours, theirs = (
        canonical_rings(*rings, threads=threads, oriented=oriented)
        for rings in (a, b))
    places: dict[bytes, int] = {}
    for place, key in enumerate(_keys_of_rings(theirs)):
        places.setdefault(key, place)
    places.pop(b"", None)
    return np.fromiter((places.get(key, -1) for key in _keys_of_rings(ours)),
                       np.intp, len(ours.offsets) - 1)

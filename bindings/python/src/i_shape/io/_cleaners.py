"""The cleaners over features: each keeps its place."""

from __future__ import annotations

from typing import Callable, NamedTuple

import numpy as np
import numpy.typing as npt

from .._keys import as_objects, keys_of_features
from .._library import Array
from .._polygons import (GivenPolygons, Polygons, form_features,
                         left_polygons, which_left)
from .._rings import canonical_cleaner, clean_rings
from ._collapse import check_collapsed, require_uncollapsed
from ._features import Checked, Features, as_features, rings_of


class Cleaned(NamedTuple):
    """What is left of features, and which of their rings collapsed."""

    features: Checked
    collapsed: Array


def clean(features: Checked, cleaner: str, threads: int = 1) -> Cleaned:
    """Clean the rings, and leave out what collapses."""
    rings = clean_rings(cleaner, rings_of(features), threads)
    left = which_left(rings.offsets, features.polygons.polygon_offsets)
    return Cleaned(
        Checked(Features(left_polygons(rings, left),
                         np.searchsorted(left.polygons,
                                         features.feature_offsets),
                         features.are_multi)),
        np.diff(rings.offsets) == 0)


def _in_order(features: Checked, oriented: bool, threads: int) -> Checked:
    """Put the rings and polygons of each feature in canonical order.

    Their rings are canonical already, so that only a feature with several
    polygons or holes has something to order.
    """
    parts = features.polygons.polygon_offsets
    if (np.diff(features.feature_offsets) < 2).all() and (
            np.diff(parts) < 3).all():
        return features
    return Checked(features._replace(polygons=_form(
        features, oriented, threads)))


def _form(features: Checked, oriented: bool, threads: int) -> Polygons:
    """The polygons of the form of each feature, by one call for all."""
    return form_features(
        canonical_cleaner(oriented),
        GivenPolygons(rings_of(features), features.polygons.polygon_offsets),
        features.feature_offsets, threads)


def forms(features: Checked, oriented: bool, threads: int = 1) -> Cleaned:
    """The canonical form of each feature, and which rings collapsed."""
    cleaned = clean(features, canonical_cleaner(oriented), threads)
    return cleaned._replace(features=_in_order(cleaned.features, oriented,
                                               threads))


def _left(features: Features, collapsed: str,
          cleaned: Callable[[Checked], Cleaned]) -> Features:
    """What is left of features, or an error where that is nothing of one."""
    check_collapsed(collapsed)
    features = as_features(features)
    left = cleaned(features).features
    if collapsed == "raise":
        require_uncollapsed(features, left)
    return left


def keys_of(features: Checked, oriented: bool,
            threads: int = 1) -> npt.NDArray[np.object_]:
    """The key of each feature."""
    return as_objects(keys_of_features(_form(features, oriented, threads),
                                       features.feature_offsets))


def simplify_features(features: Features, *, collapsed: str = "raise",
                      threads: int = 1) -> Features:
    """Return each feature without the zero turns of its rings.

    A hole that collapses is left out, and so is a polygon whose outer ring
    does. Where polygons share a border, one may lose a vertex on it that the
    other keeps: :func:`despike_features` keeps both.

    Parameters
    ----------
    features : Features
        Of whole numbers, as :func:`features_to_grid` returns them.
    collapsed : "raise" or "empty"
        What becomes of a feature that has points and of which nothing is
        left: an error, as where the step was given in another unit than the
        coordinates, or an empty feature, which keeps its place.
    threads : int
        As for :func:`i_shape.simplify_rings`.

    Returns
    -------
    Features
        In the same dtype.

    Raises
    ------
    FeatureError
        A feature collapses and ``collapsed`` is "raise": ``feature`` is the
        first one, and the message says how many do. Also as :func:`to_wkt`
        does.
    UnsafePointError, TypeError, ValueError, MemoryError
        As :func:`i_shape.simplify_rings` does. A ValueError is also raised
        where ``collapsed`` is another word.
    OffsetsError
        As :func:`to_wkt` does.

    Examples
    --------
    >>> from i_shape.io import (Grid, features_to_grid, from_wkt,
    ...                         simplify_features, to_wkt)
    >>> features = from_wkt(["POLYGON ((0 0, 2 0, 4 0, 4 4, 0 0))",
    ...                      "POLYGON ((0 0, 4 0, 8 0, 0 0))"])
    >>> whole = features_to_grid(features, Grid(1))
    >>> to_wkt(simplify_features(whole, collapsed="empty"))
    ['POLYGON ((0 0, 4 0, 4 4, 0 0))', 'POLYGON EMPTY']
    """
    return _left(features, collapsed, lambda its: clean(
        its, "simplify", threads))


def despike_features(features: Features, *, collapsed: str = "raise",
                     threads: int = 1) -> Features:
    """Return each feature without the back points of its rings.

    These are repeated points and spikes. Vertices that lie on an edge stay,
    also those that a neighbour shares: so of polygons that share borders,
    as parcels do, each border keeps the same vertices on both sides, but
    for the spikes. :func:`i_shape.despike_polygons` does the same.

    Parameters
    ----------
    features : Features
    collapsed : "raise" or "empty"
    threads : int
        As for :func:`simplify_features`.

    Returns
    -------
    Features
        What collapses is left out as by :func:`simplify_features`.

    Raises
    ------
    UnsafePointError, OffsetsError, FeatureError
        As :func:`simplify_features` does.
    TypeError, ValueError, MemoryError
        As :func:`simplify_features` does.

    Examples
    --------
    >>> from i_shape.io import (Grid, despike_features, features_to_grid,
    ...                         from_wkt, to_wkt)
    >>> spiked = from_wkt(["POLYGON ((0 0, 2 0, 4 0, 4 4, 4 9, 4 4, 0 0))"])
    >>> to_wkt(despike_features(features_to_grid(spiked, Grid(1))))
    ['POLYGON ((0 0, 2 0, 4 0, 4 4, 0 0))']
    """
    return _left(features, collapsed, lambda its: clean(
        its, "despike", threads))


def canonical_features(features: Features, *, collapsed: str = "raise",
                       oriented: bool = False, threads: int = 1) -> Features:
    """Return the canonical form of each feature.

    It is the form of the list of its polygons, as
    :func:`i_shape.canonical_polygons` returns it.

    Parameters
    ----------
    features : Features
    collapsed : "raise" or "empty"
        As for :func:`simplify_features`.
    oriented : bool
        True reads no ring backwards, as for
        :func:`i_shape.canonical_polygons`.
    threads : int
        As for :func:`simplify_features`.

    Returns
    -------
    Features
        What collapses is left out as by :func:`simplify_features`.

    Raises
    ------
    UnsafePointError, OffsetsError, FeatureError
        As :func:`simplify_features` does.
    TypeError, ValueError, MemoryError
        As :func:`simplify_features` does.

    Examples
    --------
    >>> from i_shape.io import (Grid, canonical_features, features_to_grid,
    ...                         from_wkt, to_wkt)
    >>> turned = from_wkt(["POLYGON ((4 4, 4 0, 2 0, 0 0, 4 4))"])
    >>> to_wkt(canonical_features(features_to_grid(turned, Grid(1))))
    ['POLYGON ((0 0, 4 0, 4 4, 0 0))']
    """
    return _left(features, collapsed, lambda its: forms(
        its, oriented, threads))

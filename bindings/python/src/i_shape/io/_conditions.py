"""Which features have what the cleaners leave."""

from __future__ import annotations

import numpy as np
import numpy.typing as npt

from .._measures import test_rings
from ._features import Checked, Features, as_features, rings_of


def _hold(features: Checked, test: str,
          threads: int) -> npt.NDArray[np.bool_]:
    """Of which features a test holds of each ring."""
    rings = rings_of(features)
    failed = np.zeros(len(rings.offsets), np.int64)
    np.cumsum(~test_rings(test, rings, threads), out=failed[1:])
    parts = features.polygons.polygon_offsets
    bounds = failed[parts[features.feature_offsets]]
    hold: npt.NDArray[np.bool_] = bounds[:-1] == bounds[1:]
    return hold


def has_no_spikes_features(features: Features, *,
                           threads: int = 1) -> npt.NDArray[np.bool_]:
    """Return which features have no spikes.

    No ring of such a feature turns back, and each has at least three
    points, not counting repeated ones. So it is of what
    :func:`despike_features` leaves, as of parcels. Whether rings cross is
    not tested. It is what ``i_shape_has_no_spikes`` in PostgreSQL tests.

    Parameters
    ----------
    features : Features
        Of whole numbers, as :func:`features_to_grid` returns them.
    threads : int
        As for :func:`i_shape.simplify_rings`.

    Returns
    -------
    array of shape (n,) and dtype bool
        In order. A feature without rings has no spikes.

    Raises
    ------
    UnsafePointError, OffsetsError, FeatureError
        As :func:`simplify_features` does.
    TypeError, ValueError, MemoryError
        As :func:`simplify_features` does.

    Examples
    --------
    >>> from i_shape.io import (Grid, features_to_grid, from_wkt,
    ...                         has_no_spikes_features)
    >>> features = from_wkt(["POLYGON ((0 0, 2 0, 4 0, 4 4, 0 0))",
    ...                      "POLYGON ((0 0, 4 0, 4 4, 4 9, 4 4, 0 0))"])
    >>> has_no_spikes_features(features_to_grid(features, Grid(1))).tolist()
    [True, False]
    """
    return _hold(as_features(features), "has_no_spikes", threads)


def is_simple_features(features: Features, *,
                       threads: int = 1) -> npt.NDArray[np.bool_]:
    """Return which features :func:`simplify_features` leaves as they are.

    Each ring of such a feature has at least three points and no zero turn.
    Whether rings cross is not tested.

    Parameters
    ----------
    features : Features
    threads : int
        As for :func:`has_no_spikes_features`.

    Returns
    -------
    array of shape (n,) and dtype bool
        In order. A feature without rings is such a one.

    Raises
    ------
    UnsafePointError, OffsetsError, FeatureError
        As :func:`simplify_features` does.
    TypeError, ValueError, MemoryError
        As :func:`simplify_features` does.

    Examples
    --------
    >>> from i_shape.io import (Grid, features_to_grid, from_wkt,
    ...                         is_simple_features)
    >>> features = from_wkt(["POLYGON ((0 0, 4 0, 4 4, 0 0))",
    ...                      "POLYGON ((0 0, 2 0, 4 0, 4 4, 0 0))"])
    >>> is_simple_features(features_to_grid(features, Grid(1))).tolist()
    [True, False]
    """
    return _hold(as_features(features), "is_simple", threads)

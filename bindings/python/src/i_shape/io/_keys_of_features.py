"""Keys of features."""

from __future__ import annotations

from typing import Any, Optional, Union

import numpy as np

from ._cleaners import keys_of
from ._features import as_features
from ._geoseries import placed
from ._grid import Grid


def feature_keys(features: Any, step: Optional[Union[float, Grid]] = None, *,
                 oriented: bool = False, others: str = "raise",
                 threads: int = 1) -> Any:
    """Return a key of each feature.

    Two keys are equal where :func:`canonical_features` returns equal lists
    of polygons, of which those without rings don't count; a polygon equals
    a multipolygon that has just this one. So a dictionary or a table of a
    database finds equal features among many.

    Parameters
    ----------
    features : Features or geopandas.GeoSeries
        Of whole numbers, as :func:`features_to_grid` returns them, or with
        a step also of floats; a series as ``frame.geometry``.
    step : float or Grid, or None
        What features are rounded onto first, as by
        :func:`explain_validity`. A series needs it.
    oriented : bool
        True reads no ring backwards, as for :func:`canonical_features`.
    others : "raise" or "keep"
        What becomes of a geometry of a series that is no Polygon or
        MultiPolygon, or has three coordinates a point: an error, or None.
    threads : int
        As for :func:`i_shape.simplify_rings`.

    Returns
    -------
    array of shape (n,) and dtype object, or pandas.Series
        For each feature the keys that :func:`i_shape.canonical_keys` makes
        of its polygons, end to end in canonical order, as ``bytes``. It is
        empty where nothing is left, and None where a series has None. Of a
        series it has the index and the name.

    Raises
    ------
    UnsafePointError, OffsetsError, FeatureError
        As :func:`simplify_features` does, and with a step as
        :func:`explain_validity` does.
    TypeError, ValueError, MemoryError
        As :func:`simplify_features` does. A TypeError is also raised for a
        series without a step.
    ImportError
        There is no geopandas, for a series.

    Examples
    --------
    >>> from i_shape.io import feature_keys, from_wkt
    >>> features = from_wkt(["POLYGON ((0 0, 4.5 0, 4.5 4, 0 0))",
    ...                      "MULTIPOLYGON (((4.5 4, 4.5 0, 2 0, 0 0)))"])
    >>> one, other = feature_keys(features, step=0.5)
    >>> one == other
    True
    """
    if step is None:
        if others != "raise" and isinstance(features, tuple):
            raise ValueError("others is for a GeoSeries")
        return keys_of(as_features(features), oriented, threads)
    grid = step if isinstance(step, Grid) else Grid(step)
    whole, places = placed(features, grid, others)
    keys = keys_of(whole, oriented, threads)
    if isinstance(features, tuple):
        return keys
    import pandas
    found = np.full(len(features), None, object)
    found[places] = keys
    return pandas.Series(found, index=features.index, name=features.name)

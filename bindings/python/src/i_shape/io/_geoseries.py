"""The polygons of a GeoSeries of geopandas, cleaned on a grid."""

from __future__ import annotations

from contextlib import contextmanager
from functools import partial
from typing import Any, Callable, Iterator, NamedTuple, Union

import numpy as np

from .._library import Array
from ._builder import short
from ._cleaners import Cleaned, clean, forms
from ._collapse import check_collapsed, require_uncollapsed
from ._features import Checked, FeatureError, as_features
from ._grid import Grid, floats_of, rounded_features
from ._shapely import fault_of, geometries_of, read_geometries


def require_series(series: Any) -> None:
    """Raise an error for what is no GeoSeries."""
    import geopandas
    if not isinstance(series, geopandas.GeoSeries):
        raise TypeError("expected a GeoSeries, as frame.geometry, not a"
                        f" {type(series).__name__}")


def polygon_places(geometries: Any, others: str) -> Array:
    """Which of the geometries are polygons; None is none of them."""
    if others not in ("raise", "keep"):
        raise ValueError(f"others is {short(others)}, neither raise nor keep")
    faults = ["" if geometry is None else fault_of(geometry)
              for geometry in geometries]
    if others == "raise":
        for place, fault in enumerate(faults):
            if fault:
                raise FeatureError(fault, place)
    return np.flatnonzero([fault is None for fault in faults])


@contextmanager
def naming(places: Array) -> Iterator[None]:
    """Name the feature that has a fault by its place in the series."""
    try:
        yield
    except FeatureError as error:
        assert error.feature is not None
        raise error.of(int(places[error.feature])) from None


class Placed(NamedTuple):
    """Features of whole numbers, and the place of each among those given."""

    features: Checked
    places: Array


def placed(features: Any, grid: Grid, others: str) -> Placed:
    """Features, or the polygons of a series, on the grid."""
    if isinstance(features, tuple):
        if others != "raise":
            raise ValueError("others is for a GeoSeries")
        given = as_features(features)
        return Placed(rounded_features(given, grid),
                      np.arange(len(given.are_multi)))
    require_series(features)
    geometries = features.array
    places = polygon_places(geometries, others)
    with naming(places):
        return Placed(rounded_features(read_geometries(geometries[places]),
                                       grid), places)


def _cleaned(series: Any, step: Union[float, Grid],
             cleaner: Callable[[Checked], Cleaned], collapsed: str,
             others: str) -> Any:
    import geopandas
    require_series(series)
    check_collapsed(collapsed)
    grid = step if isinstance(step, Grid) else Grid(step)
    answer = series.array.copy()
    places = polygon_places(answer, others)
    with naming(places):
        whole = rounded_features(read_geometries(answer[places]), grid)
        left = cleaner(whole).features
        if collapsed == "raise":
            require_uncollapsed(whole, left, "polygons")
        left = floats_of(left, grid)
    answer[places] = geopandas.GeoSeries(geometries_of(left),
                                         crs=series.crs).array
    return geopandas.GeoSeries(answer, index=series.index, name=series.name)


def simplify_geoseries(series: Any, step: Union[float, Grid], *,
                       collapsed: str = "raise", others: str = "raise",
                       threads: int = 1) -> Any:
    """Return a GeoSeries whose polygons are rounded onto a grid and cleaned.

    Each is what :func:`simplify_features` leaves of it. Where neighbours
    share a border, :func:`despike_geoseries` keeps the vertices on it.

    Parameters
    ----------
    series : geopandas.GeoSeries
        As ``frame.geometry``. It isn't changed.
    step : float or Grid
        How far neighbours on the grid are apart, in the unit of the
        series, or the grid.
    collapsed : "raise" or "empty"
        What becomes of a geometry that isn't empty and of which nothing is
        left: an error, as where ``step`` is in another unit than the series,
        or an empty geometry, which keeps its place.
    others : "raise" or "keep"
        What becomes of a geometry that is no Polygon or MultiPolygon, or
        has three coordinates a point. None stays in either case.
    threads : int
        As for :func:`i_shape.simplify_rings`.

    Returns
    -------
    geopandas.GeoSeries
        With the same index, name and CRS.

    Raises
    ------
    ImportError
        There is no geopandas.
    FeatureError
        A geometry is another one and ``others`` is "raise", one collapses
        and ``collapsed`` is "raise", or a coordinate isn't finite or is too
        far from the origin. ``feature`` is the first place of such a one in
        the series, from 0 on, whatever the index is.
    TypeError
        ``series`` is no GeoSeries; neither is a frame.
    ValueError, TypeError, MemoryError
        As :class:`Grid` and :func:`i_shape.simplify_rings` do.

    Examples
    --------
    >>> from i_shape.io import simplify_geoseries
    >>> def cleaned(frame):
    ...     return frame.set_geometry(simplify_geoseries(frame.geometry, 1e-7))
    """
    return _cleaned(series, step, partial(
        clean, cleaner="simplify", threads=threads), collapsed, others)


def despike_geoseries(series: Any, step: Union[float, Grid], *,
                      collapsed: str = "raise", others: str = "raise",
                      threads: int = 1) -> Any:
    """Return a GeoSeries whose polygons are rounded and have no spikes.

    Each is what :func:`despike_features` leaves of it.

    Parameters
    ----------
    series : geopandas.GeoSeries
    step : float or Grid
    collapsed : "raise" or "empty"
    others : "raise" or "keep"
    threads : int
        As for :func:`simplify_geoseries`.

    Returns
    -------
    geopandas.GeoSeries
        As :func:`simplify_geoseries`.

    Raises
    ------
    ImportError, FeatureError, ValueError, TypeError, MemoryError
        As :func:`simplify_geoseries` does.

    Examples
    --------
    >>> from i_shape.io import despike_geoseries
    >>> def without_spikes(frame):
    ...     return frame.set_geometry(despike_geoseries(frame.geometry, 1e-7))
    """
    return _cleaned(series, step, partial(
        clean, cleaner="despike", threads=threads), collapsed, others)


def canonical_geoseries(series: Any, step: Union[float, Grid], *,
                        collapsed: str = "raise", oriented: bool = False,
                        others: str = "raise", threads: int = 1) -> Any:
    """Return a GeoSeries of the canonical forms of its rounded polygons.

    Each is what :func:`canonical_features` returns of it.

    Parameters
    ----------
    series : geopandas.GeoSeries
    step : float or Grid
    collapsed : "raise" or "empty"
        As for :func:`simplify_geoseries`.
    oriented : bool
        True reads no ring backwards, as for :func:`canonical_features`.
    others : "raise" or "keep"
    threads : int
        As for :func:`simplify_geoseries`.

    Returns
    -------
    geopandas.GeoSeries
        As :func:`simplify_geoseries`.

    Raises
    ------
    ImportError, FeatureError, ValueError, TypeError, MemoryError
        As :func:`simplify_geoseries` does.

    Examples
    --------
    >>> from i_shape.io import canonical_geoseries
    >>> def forms(frame):
    ...     return frame.set_geometry(canonical_geoseries(frame.geometry, 1))
    """
    return _cleaned(series, step, partial(
        forms, oriented=oriented, threads=threads), collapsed, others)

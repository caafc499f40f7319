"""Which feature holds a point."""

from __future__ import annotations

from typing import Any, Union

import numpy as np
import numpy.typing as npt

from .._errors import UnsafePointError
from .._library import Array, FillRule, as_rule
from .._polygons import GivenPolygons
from .._windings import find_holders
from ._features import as_plane_points, rings_of
from ._geoseries import Placed, placed, require_series
from ._grid import Grid, rounded


def _point_places(geometries: Any) -> Array:
    """Which of the geometries are points that aren't empty."""
    from shapely.geometry import Point
    for place, geometry in enumerate(geometries):
        if geometry is not None and not isinstance(geometry, Point):
            raise ValueError(f"point {place}: expected a Point, not a"
                             f" {type(geometry).__name__}")
    return np.flatnonzero([geometry is not None and not geometry.is_empty
                           for geometry in geometries])


def _on_grid(points: Array, places: Array, grid: Grid) -> Array:
    """The points on the grid, or an error that names the first unsafe one."""
    whole = rounded(points, grid, np.int64)
    if whole.row is not None:
        place = int(places[whole.row])
        raise UnsafePointError(f"point {place}: {whole.text}", point=place)
    return whole.points


def _holders(given: Placed, about: Array, rule: int,
             threads: int) -> npt.NDArray[np.intp]:
    """The place of the first feature that holds each of the points, or -1."""
    whole, places = given
    found = find_holders(
        GivenPolygons(rings_of(whole), whole.polygons.polygon_offsets), about,
        rule, threads)
    owners = np.repeat(places, np.diff(whole.feature_offsets))
    is_held = found >= 0
    found[is_held] = owners[found[is_held]]
    return found


def _require_one_crs(features: Any, points: Any) -> None:
    """Raise an error for two series that don't share their coordinates."""
    one, other = getattr(features, "crs", None), points.crs
    if one is not None and other is not None and one != other:
        raise ValueError(f"the points are in {other}, and the features in"
                         f" {one}")


def _located_series(given: Placed, points: Any, grid: Grid, rule: int,
                    threads: int) -> Any:
    import pandas
    places = _point_places(points.array)
    its = points.array[places]
    about = np.column_stack([its.x, its.y]).reshape(-1, 2)
    found = np.full(len(points), -1, np.intp)
    found[places] = _holders(given, _on_grid(about, places, grid), rule,
                             threads)
    return pandas.Series(found, index=points.index, name=points.name)


def locate_in_features(features: Any, points: Any, step: Union[float, Grid],
                       *, rule: FillRule = "evenodd", others: str = "raise",
                       threads: int = 1) -> Any:
    """Return the first feature that holds each of many points.

    Both are rounded onto a grid, and asked there by
    :func:`i_shape.locate_in_polygons`: a feature holds what one of its
    polygons does. Of points within a step of a border, rounding may decide
    which feature holds them.

    Parameters
    ----------
    features : Features or geopandas.GeoSeries
        Of floats or whole numbers; a series as ``frame.geometry``.
    points : array of shape (n, 2), or geopandas.GeoSeries of Point
        Of floats or whole numbers. Of a series no third coordinate is read.
    step : float or Grid
        How far neighbours on the grid are apart, in the unit of the
        coordinates, or the grid. With 1, whole numbers stay as they are,
        up to 2**53.
    rule : "evenodd", "nonzero", "positive" or "negative"
        As for :func:`i_shape.locate_in_polygons`.
    others : "raise" or "keep"
        What becomes of a geometry of ``features`` that is no Polygon or
        MultiPolygon, or has three coordinates a point: an error, or it
        holds no point.
    threads : int
        As for :func:`i_shape.locate_in_polygons`.

    Returns
    -------
    array of dtype intp, or pandas.Series with the index and name of points
        For each point the place of the first feature that holds it, from 0
        on, whatever the index of a series is, and -1 where none does. None
        and an empty point are held by none.

    Raises
    ------
    FeatureError
        A coordinate of a feature isn't finite or is too far from the origin;
        of a series, a geometry is another one and ``others`` is "raise".
    UnsafePointError
        That of a point is so. ``point`` is its place.
    OffsetsError, TypeError, ValueError, MemoryError
        As :func:`features_to_grid` and :func:`i_shape.locate_in_polygons`
        do. A ValueError is also raised where a geometry of ``points`` is no
        Point, and where both are series, of two CRS.
    ImportError
        There is no geopandas, for a series.

    Examples
    --------
    >>> from i_shape.io import from_wkt, locate_in_features
    >>> parcels = from_wkt(["POLYGON ((0 0, 4.5 0, 4.5 4, 0 4, 0 0))",
    ...                     "POLYGON ((4.5 0, 9 0, 9 4, 4.5 4, 4.5 0))"])
    >>> points = [(1.25, 1), (4.5, 2), (9.5, 1)]
    >>> locate_in_features(parcels, points, step=0.01).tolist()
    [0, 1, -1]
    """
    grid = step if isinstance(step, Grid) else Grid(step)
    code = as_rule(rule)
    if isinstance(points, (np.ndarray, list, tuple)):
        about = as_plane_points(points)
        whole = _on_grid(about, np.arange(len(about)), grid)
        return _holders(placed(features, grid, others), whole, code, threads)
    require_series(points)
    _require_one_crs(features, points)
    return _located_series(placed(features, grid, others), points, grid,
                           code, threads)

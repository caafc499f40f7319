"""Polygons of shapely, 1.8 or 2, which is imported only by a call."""

from __future__ import annotations

from typing import Any, Iterable, Optional, Sequence

import numpy as np

from .._polygons import Polygons
from ._closing import closed, open_rings
from ._features import (Checked, FeatureError, Features, as_features,
                        as_finite)
from ._wkb import blobs_of, from_wkb

_FEWEST = 3  # points that a ring of shapely has, the last one aside


def fault_of(geometry: Any) -> Optional[str]:
    """What keeps a geometry from being read, if anything does."""
    from shapely.geometry import MultiPolygon, Polygon
    if not isinstance(geometry, (Polygon, MultiPolygon)):
        return ("expected a Polygon or a MultiPolygon, not a"
                f" {type(geometry).__name__}")
    # From 2.1 on, shapely has measures too.
    if not geometry.is_empty and (geometry.has_z
                                  or getattr(geometry, "has_m", False)):
        return "it has three coordinates a point, not two"
    return None


def _are_multi(geometries: Sequence[Any]) -> list[bool]:
    from shapely.geometry import MultiPolygon
    for place, geometry in enumerate(geometries):
        fault = fault_of(geometry)
        if fault:
            raise FeatureError(fault, place)
    return [isinstance(geometry, MultiPolygon) for geometry in geometries]


def _has_empty_part(geometry: Any, is_multi: bool) -> bool:
    parts = list(geometry.geoms) if is_multi else [geometry]
    return not parts or any(part.is_empty for part in parts)


def _from_ragged(shapely: Any, geometries: list[Any],
                 are_multi: list[bool]) -> Checked:
    """The features of shapely 2's ragged arrays; no geometry is empty."""
    _, points, offsets = shapely.to_ragged_array(geometries)
    if any(are_multi):
        rings, parts, features = offsets
    else:
        rings, parts = offsets
        features = np.arange(len(geometries) + 1)
    opened = open_rings(points, rings)
    return as_finite(Features(
        Polygons(*opened, np.asarray(parts, np.int64)),
        np.asarray(features, np.int64), np.array(are_multi, np.bool_)))


def _without_empty(features: Features) -> Checked:
    """The features without polygons that have no rings."""
    parts = features.polygons.polygon_offsets
    stay = np.diff(parts) > 0
    counts = np.concatenate([np.zeros(1, np.int64), np.cumsum(stay)])
    return Checked(features._replace(
        polygons=features.polygons._replace(
            polygon_offsets=np.concatenate([parts[:1], parts[1:][stay]])),
        feature_offsets=counts[features.feature_offsets]))


def _from_objects(geometries: list[Any], are_multi: list[bool]) -> Checked:
    # A geometry of shapely 1.8 that is empty may have no bytes.
    features = from_wkb([None if geometry.is_empty else geometry.wkb
                         for geometry in geometries])
    return _without_empty(features._replace(
        are_multi=np.array(are_multi, np.bool_)))


def from_shapely(geometries: Iterable[Any]) -> Features:
    """Return the polygons of geometries of shapely.

    Parameters
    ----------
    geometries : iterable of Polygon or MultiPolygon
        A list, an array or a GeoSeries. Those of shapely 2 are read by
        ``shapely.to_ragged_array`` where none is empty or has an empty
        polygon, and else by their WKB, as those of 1.8 are.

    Returns
    -------
    Features
        In float64, without the empty polygons of a multipolygon.

    Raises
    ------
    ImportError
        There is no shapely.
    FeatureError
        A geometry is another one or none, has three coordinates a point,
        or a coordinate isn't finite. It names the feature, and the
        polygon, ring and point where there is one.

    See also
    --------
    to_shapely : the way back.

    Examples
    --------
    >>> from i_shape.io import (features_from_grid, features_to_grid,
    ...                         from_shapely, simplify_features, to_shapely)
    >>> def simplified(parcels, grid):
    ...     whole = features_to_grid(from_shapely(parcels), grid)
    ...     left = features_from_grid(simplify_features(whole), grid)
    ...     return to_shapely(left)
    """
    return read_geometries(geometries)


def read_geometries(geometries: Iterable[Any]) -> Checked:
    """The polygons of the geometries."""
    import shapely
    geometries = list(geometries)
    are_multi = _are_multi(geometries)
    if (not geometries or not hasattr(shapely, "to_ragged_array")
            or any(map(_has_empty_part, geometries, are_multi))):
        return _from_objects(geometries, are_multi)
    return _from_ragged(shapely, geometries, are_multi)


def _require_long_rings(features: Checked) -> None:
    counts = np.diff(features.polygons.ring_offsets)
    short = counts < _FEWEST
    if short.any():
        ring = int(short.argmax())
        raise FeatureError(f"shapely needs at least {_FEWEST} points, and it"
                           f" has {counts[ring]}", *features.ring_place(ring))


def _to_ragged(shapely: Any, features: Checked) -> list[Any]:
    """The geometries by shapely 2's ragged arrays; none is empty."""
    (points, ends, parts), offsets, are_multi = features
    rings = closed(points.astype(np.float64, copy=False), ends)
    found: list[Any] = list(shapely.from_ragged_array(
        shapely.GeometryType.MULTIPOLYGON, rings.points,
        (rings.offsets, parts, offsets)))
    return [geometry if is_multi else geometry.geoms[0]
            for geometry, is_multi in zip(found, are_multi.tolist())]


def _to_objects(features: Checked) -> list[Any]:
    from shapely import wkb
    return [wkb.loads(blob) for blob in blobs_of(_without_empty(features))]


def _has_empty(features: Checked) -> bool:
    levels = features.feature_offsets, features.polygons.polygon_offsets
    return not all(np.diff(offsets).all() for offsets in levels)


def to_shapely(features: Features) -> list[Any]:
    """Return the geometry of each feature, of the shapely that is there.

    Parameters
    ----------
    features : Features
        Of whole numbers or floats. A whole number that float64 doesn't
        hold is rounded.

    Returns
    -------
    list of Polygon and MultiPolygon
        Empty ones for empty features; a polygon without rings is left out
        of a multipolygon. Rings turn as they did.

    Raises
    ------
    ImportError
        There is no shapely.
    FeatureError
        A ring has fewer than three points: clean it first. Also as
        :func:`to_wkt` does.
    OffsetsError, TypeError, ValueError
        The arrays of ``features`` don't fit one another.

    Examples
    --------
    >>> from i_shape.io import features_of, to_shapely
    >>> def triangle():
    ...     points = [(0, 0), (4, 0), (4, 4)]
    ...     return to_shapely(features_of((points, [0, 3], [0, 1])))[0]
    """
    return geometries_of(as_features(features))


def geometries_of(features: Checked) -> list[Any]:
    """The geometry of each feature."""
    import shapely
    _require_long_rings(features)
    if (not len(features.are_multi) or _has_empty(features)
            or not hasattr(shapely, "from_ragged_array")):
        return _to_objects(features)
    return _to_ragged(shapely, features)

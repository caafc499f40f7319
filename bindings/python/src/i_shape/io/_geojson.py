"""Documents of GeoJSON, as the standard library's json has them."""

from __future__ import annotations

from itertools import count
from typing import Any, Iterator, Mapping, Optional

from ._builder import Builder, is_list, short
from ._features import (FeatureError, Features, OtherGeometryError,
                        as_features)

_ARE_MULTI = {"Polygon": False, "MultiPolygon": True}
_OTHERS = {"Point", "MultiPoint", "LineString", "MultiLineString",
           "GeometryCollection"}


def _geometries_of(document: Any) -> list[Any]:
    """The geometries of a document, and None where a feature has none."""
    if not isinstance(document, Mapping):
        raise FeatureError(
            f"expected an object of GeoJSON, not {short(document)}", 0)
    kind = document.get("type")
    if kind == "Feature":
        return [document.get("geometry")]
    if kind != "FeatureCollection":
        return [document]
    features: Any = document.get("features")
    if not is_list(features):
        raise FeatureError(f"features are {short(features)}, not a list",
                           0)
    for place, feature in enumerate(features):
        if (not isinstance(feature, Mapping)
                or feature.get("type") != "Feature"):
            raise FeatureError(f"expected a Feature, not {short(feature)}",
                               place)
    return [feature.get("geometry") for feature in features]


def _add_polygon(builder: Builder, rings: Any) -> None:
    if not is_list(rings):
        raise builder.fault(f"expected a list of rings, not {short(rings)}",
                            is_in_ring=False)
    for ring in rings:
        builder.add_positions(ring)
    builder.end_polygon()


def _is_multi(geometry: Any, feature: int) -> bool:
    kind = geometry.get("type") if isinstance(geometry, Mapping) else None
    if not isinstance(kind, str) or kind not in _ARE_MULTI:
        is_other = isinstance(kind, str) and kind in _OTHERS
        error = OtherGeometryError if is_other else FeatureError
        raise error("expected a Polygon or a MultiPolygon, not "
                    + (short(kind) if kind else short(geometry)), feature)
    return _ARE_MULTI[kind]


def add_geometry(builder: Builder, geometry: Any) -> None:
    """Add the feature of a geometry, or of None."""
    if geometry is None:
        builder.end_feature(True)
        return
    is_multi = _is_multi(geometry, builder.next_feature())
    coordinates = geometry.get("coordinates")
    if not is_list(coordinates):
        raise builder.feature_fault(
            f"coordinates are {short(coordinates)}, not a list")
    if is_multi:
        for rings in coordinates:
            _add_polygon(builder, rings)
    elif coordinates:
        _add_polygon(builder, coordinates)
    builder.end_feature(is_multi)


def from_geojson(document: Mapping[str, Any]) -> Features:
    """Return the polygons of a GeoJSON document.

    Parameters
    ----------
    document : mapping
        A FeatureCollection, a Feature, a Polygon or a MultiPolygon, as
        ``json.load`` returns it, or the ``__geo_interface__`` of an object.
        Rings should be closed, as the format has it; one that isn't is
        taken for open. A feature whose geometry is null has no polygons.

    Returns
    -------
    Features
        In float64: a number that it doesn't hold is rounded.

    Raises
    ------
    FeatureError
        A geometry is of another type, or isn't built as GeoJSON says; a
        position doesn't have just two coordinates; a coordinate isn't a
        finite number. It names the feature, and the polygon, ring and
        point where there is one.

    See also
    --------
    to_geojson : the way back.

    Examples
    --------
    >>> import json
    >>> from i_shape.io import from_geojson
    >>> text = '''{"type": "Polygon",
    ...            "coordinates": [[[0, 0], [4, 0], [4, 4.5], [0, 0]]]}'''
    >>> features = from_geojson(json.loads(text))
    >>> features.polygons.points.tolist()
    [[0.0, 0.0], [4.0, 0.0], [4.0, 4.5]]
    """
    builder = Builder()
    for geometry in _geometries_of(document):
        add_geometry(builder, geometry)
    return builder.features()


def coordinates_of(features: Features) -> Iterator[list[Any]]:
    """The coordinates of each feature, its rings closed."""
    polygons, offsets, are_multi = features
    points, rings, parts = polygons
    ends = rings.tolist()

    def ring(place: int) -> list[Any]:
        open_ring: list[Any] = points[ends[place]:ends[place + 1]].tolist()
        return open_ring + open_ring[:1]

    parts_ends, feature_ends = parts.tolist(), offsets.tolist()
    for place, is_multi in enumerate(are_multi.tolist()):
        found = [[ring(at) for at in range(parts_ends[part],
                                           parts_ends[part + 1])]
                 for part in range(feature_ends[place],
                                   feature_ends[place + 1])]
        yield found if is_multi else (found[0] if found else [])


def _geometries(features: Features) -> Iterator[dict[str, Any]]:
    for is_multi, coordinates in zip(features.are_multi.tolist(),
                                     coordinates_of(features)):
        yield {"type": "MultiPolygon" if is_multi else "Polygon",
               "coordinates": coordinates}


def _replaced(geometry: Any, new: dict[str, Any], feature: int) -> Any:
    """A geometry with new coordinates and its other members."""
    if geometry is None:
        return new if new["coordinates"] else None
    _is_multi(geometry, feature)
    kept = {**geometry, **new}
    kept.pop("bbox", None)
    return kept


def _with_geometry(feature: Mapping[str, Any], new: Any) -> dict[str, Any]:
    kept = {**feature, "geometry": new}
    kept.pop("bbox", None)
    return kept


def _without_document(features: Features) -> dict[str, Any]:
    feature: dict[str, Any] = {"type": "Feature", "properties": None,
                               "geometry": {"type": "Polygon"}}
    return {"type": "FeatureCollection",
            "features": [feature] * len(features.are_multi)}


def _new_geometries(features: Features, document: Any) -> Iterator[Any]:
    given = _geometries_of(document)
    if len(given) != len(features.are_multi):
        raise ValueError(f"there are {len(features.are_multi)} features, and"
                         f" {len(given)} in the document")
    return map(_replaced, given, _geometries(features), count())


def to_geojson(features: Features,
               document: Optional[Mapping[str, Any]] = None) -> dict[str, Any]:
    """Return features as a GeoJSON document.

    Parameters
    ----------
    features : Features
        Of whole numbers or floats. An empty one has no coordinates.
    document : mapping, optional
        The one that they were read from. The answer has its properties and
        other members, without ``bbox``, which may not fit any more.
        It isn't changed.

    Returns
    -------
    dict
        As ``json.dump`` takes it: a FeatureCollection without properties,
        or what ``document`` is. Rings are closed, and turn as they did.

    Raises
    ------
    FeatureError
        A feature with several polygons isn't said to be a multipolygon, a
        coordinate isn't finite, or :func:`from_geojson` would not read the
        type of a part of ``document``.
    OffsetsError, TypeError, ValueError
        The arrays of ``features`` don't fit one another, or there are not
        as many as in ``document``.

    Examples
    --------
    >>> from i_shape.io import features_of, to_geojson
    >>> left = features_of(([(0, 0), (4, 0), (4, 4)], [0, 3], [0, 1]))
    >>> to_geojson(left)["features"][0]["geometry"]
    {'type': 'Polygon', 'coordinates': [[[0, 0], [4, 0], [4, 4], [0, 0]]]}
    """
    features = as_features(features)
    if document is None:
        document = _without_document(features)
    found = _new_geometries(features, document)
    if document.get("type") == "FeatureCollection":
        kept = {name: value for name, value in document.items()
                if name not in ("features", "bbox")}
        return {**kept, "features": list(
            map(_with_geometry, document["features"], found))}
    new: dict[str, Any] = next(found)
    if document.get("type") == "Feature":
        return _with_geometry(document, new)
    return new

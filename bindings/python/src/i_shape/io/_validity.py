"""What is wrong with features, in words."""

from __future__ import annotations

from dataclasses import dataclass
from typing import Any, NamedTuple, Optional, Tuple, Union

import numpy as np

from .._contacts import Fault, find_faults
from .._library import Array
from .._polygons import GivenPolygons
from ._features import Checked, Features, as_features, rings_of
from ._geoseries import naming, polygon_places, require_series
from ._grid import Grid, rounded_features
from ._meetings import Coordinates, meetings
from ._shapely import read_geometries
from ._wkt import shown


@dataclass(frozen=True)
class FeatureFault:
    """The first fault of a feature that isn't valid.

    ``str`` of it says in words what is wrong, and where, as pandas shows it.

    Attributes
    ----------
    kind : Fault
        What is wrong; not ``Fault.VALID``.
    polygon : int
        Index of the polygon in the feature.
    ring : int
        Index of the ring in the polygon; the outer one is 0. For
        ``Fault.CONTACT`` and ``Fault.DISCONNECTED`` it has the first of the
        two edges.
    other : int or None
        Index of the other ring: for ``Fault.HOLE_WITHIN`` the hole around
        this one, or that of the second edge, which may be the same ring.
        None for other kinds.
    edges : tuple of two int, or None
        For ``Fault.CONTACT`` and ``Fault.DISCONNECTED``, of each edge the
        index in its ring of the point from which it leads. None for other
        kinds.
    points : tuple of (x, y)
        Where it is. For ``Fault.CONTACT`` and ``Fault.DISCONNECTED``, of
        the edges on the grid: the point at which they cross or touch, or
        the two ends of what they share, in the coordinates of the features,
        each number rounded to a float. Else the first point of the ring, as
        given, or nothing where it has none; of a hole that touches other
        rings it may be where nothing is wrong.
    starts : tuple of (x, y)
        For ``Fault.CONTACT`` and ``Fault.DISCONNECTED``, the points from
        which the two edges lead, as given. Empty for other kinds.
    """

    kind: Fault
    polygon: int
    ring: int
    other: Optional[int]
    edges: Optional[Tuple[int, int]]
    points: Tuple[Coordinates, ...]
    starts: Tuple[Coordinates, ...] = ()

    def __str__(self) -> str:
        return f"polygon {self.polygon}, ring {self.ring}: {self._words()}"

    def _words(self) -> str:
        places = [f"({shown(x)}, {shown(y)})"
                  for x, y in self.starts or self.points]
        if self.edges:
            first, second = self.edges
            ring = "" if self.other == self.ring else f" of ring {self.other}"
            meets, then = (
                ("touches", ", which parts the inside")
                if self.kind == Fault.DISCONNECTED else ("meets", ""))
            return (f"edge {first} from {places[0]} {meets} edge"
                    f" {second}{ring} from {places[1]}{then}")
        at = f", at {places[0]}" if places else ""
        if self.kind == Fault.TOO_FEW_POINTS:
            return f"it has fewer than three points, or only equal ones{at}"
        if self.kind == Fault.HOLE_OUTSIDE:
            return f"it is a hole outside the outer ring{at}"
        return f"it is a hole within ring {self.other}, another hole{at}"


class _Row(NamedTuple):
    """A point of features: the ring in its polygon, and where it is there."""

    ring: int
    point: int
    coordinates: Coordinates


def _row(features: Features, row: int) -> _Row:
    x, y = features.polygons.points[row].tolist()
    place = features.place(row)
    return _Row(place.ring, place.point, (x, y))


def _of_edges(features: Features, polygon: int, kind: Fault, first: int,
              second: int, points: Tuple[Coordinates, ...]) -> FeatureFault:
    """The fault of two edges, which lead from these rows."""
    one, other = _row(features, first), _row(features, second)
    return FeatureFault(kind, polygon, one.ring, other.ring,
                        (one.point, other.point), points,
                        (one.coordinates, other.coordinates))


def _of_ring(features: Features, polygon: int, kind: Fault, first: int,
             second: int) -> FeatureFault:
    """The fault of a ring, or of two of which one is within the other."""
    start, end = features.polygons.ring_offsets[first:first + 2].tolist()
    points: Array = features.polygons.points[start:min(start + 1, end)]
    other = (features.ring_place(second)[2] if kind == Fault.HOLE_WITHIN
             else None)
    return FeatureFault(kind, polygon, features.ring_place(first)[2], other,
                        None, tuple((x, y) for x, y in points.tolist()))


def faults_of(given: Checked, whole: Checked, grid: Grid, touching: bool,
              threads: int = 1) -> list[Optional[FeatureFault]]:
    """The first fault of each feature, which the grid has as ``whole``."""
    faults = find_faults(
        GivenPolygons(rings_of(whole), whole.polygons.polygon_offsets),
        touching, threads)
    met = meetings(whole, faults, grid)
    found: list[Optional[FeatureFault]] = [None] * len(whole.are_multi)
    for place in np.flatnonzero(faults["kind"])[::-1].tolist():
        # Of several faults of a feature the first one is set last.
        kind, first, second = faults[place].tolist()
        feature = int(np.searchsorted(whole.feature_offsets, place,
                                      side="right")) - 1
        polygon = place - int(whole.feature_offsets[feature])
        its = given, polygon, Fault(kind), first, second
        found[feature] = (_of_edges(*its, met[place]) if place in met
                          else _of_ring(*its))
    return found


def _explained(features: Checked, grid: Grid, touching: bool,
               threads: int) -> list[Optional[FeatureFault]]:
    return faults_of(features, rounded_features(features, grid), grid,
                     touching, threads)


def _explained_series(series: Any, grid: Grid, touching: bool, others: str,
                      threads: int) -> Any:
    require_series(series)
    import pandas
    geometries = series.array
    places = polygon_places(geometries, others)
    faults: list[Optional[FeatureFault]] = [None] * len(geometries)
    with naming(places):
        found = _explained(read_geometries(geometries[places]), grid,
                           touching, threads)
    for place, fault in zip(places.tolist(), found):
        faults[place] = fault
    return pandas.Series(faults, index=series.index, dtype=object,
                         name=series.name)


def explain_validity(features: Any, step: Union[float, Grid], *,
                     touching: bool = False, others: str = "raise",
                     threads: int = 1) -> Any:
    """Return of each feature the first fault of its polygons.

    They are rounded onto a grid, and tested there by
    :func:`i_shape.polygon_validity`. Polygons of one feature aren't
    compared with one another.

    Parameters
    ----------
    features : Features or geopandas.GeoSeries
        Of floats or whole numbers; a series as ``frame.geometry``.
    step : float or Grid
        How far neighbours on the grid are apart, in the unit of the
        coordinates, or the grid. With 1, whole numbers stay as they are,
        up to 2**53.
    touching : bool
        True lets two rings of a polygon touch at single points, as for
        :func:`i_shape.polygon_validity`.
    others : "raise" or "keep"
        What becomes of a geometry of a series that is no Polygon or
        MultiPolygon, or has three coordinates a point: an error, or None.
    threads : int
        As for :func:`i_shape.polygon_validity`.

    Returns
    -------
    list, or pandas.Series with the index and name of the series
        For each feature None if each of its polygons is valid, or else a
        :class:`FeatureFault`. A feature without polygons is valid.

    Raises
    ------
    FeatureError
        A coordinate isn't finite or is too far from the origin; of a
        series, a geometry is another one and ``others`` is "raise".
    OffsetsError, TypeError, ValueError, MemoryError
        As :func:`features_to_grid` and :func:`i_shape.polygon_validity`
        do.
    ImportError
        There is no geopandas, for a series.

    Examples
    --------
    >>> from i_shape.io import explain_validity, from_wkt
    >>> given = from_wkt(["POLYGON ((0 0, 4 0, 4 4, 0 0))",
    ...                   "POLYGON ((0 0, 4.5 4.5, 4.5 0, 0 4.5, 0 0))"])
    >>> for fault in explain_validity(given, step=0.5):
    ...     print(fault)
    None
    polygon 0, ring 0: edge 0 from (0, 0) meets edge 2 from (4.5, 0)

    A hole that touches the outer ring once, and one that does so twice.

    >>> given = from_wkt(["POLYGON ((0 0, 4 0, 0 4, 0 0), (0 0, 2 1, 1 2))",
    ...                   "POLYGON ((0 0, 4 0, 0 4, 0 0), (0 0, 2 1, 2 2))"])
    >>> faults = explain_validity(given, step=1, touching=True)
    >>> faults[0], faults[1].kind.name, faults[1].points
    (None, 'DISCONNECTED', ((2.0, 2.0),))
    """
    grid = step if isinstance(step, Grid) else Grid(step)
    if not isinstance(features, tuple):
        return _explained_series(features, grid, touching, others, threads)
    if others != "raise":
        raise ValueError("others is for a GeoSeries")
    return _explained(as_features(features), grid, touching, threads)

"""Features: polygons, and which of them belong together."""

from __future__ import annotations

import operator
from typing import Any, NamedTuple, NewType, Optional, Tuple

import numpy as np
import numpy.typing as npt

from .._library import Array, as_offsets, as_points, check_offsets
from .._polygons import Polygons, Triple
from .._rings import GivenRings


class FeatureError(ValueError):
    """A feature can't be read, rounded or written.

    Nothing has been returned, and nothing is left half written.

    Attributes
    ----------
    feature : int
        Index of the feature among those that were given.
    polygon : int or None
        Index of the polygon in the feature.
    ring : int or None
        Index of the ring in the polygon; the outer one is 0.
    point : int or None
        Index of the point in the ring.
    """

    def __init__(self, message: str, feature: Optional[int] = None,
                 polygon: Optional[int] = None, ring: Optional[int] = None,
                 point: Optional[int] = None) -> None:
        self.feature = feature
        self.polygon = polygon
        self.ring = ring
        self.point = point
        self._message = message
        super().__init__(self.named("" if feature is None
                                    else f"feature {feature}"))

    def of(self, feature: int) -> FeatureError:
        """The same error with another number for the feature."""
        return FeatureError(self._message, feature, self.polygon, self.ring,
                            self.point)

    def named(self, name: str) -> str:
        """The same words with another name for the feature."""
        places = {"polygon": self.polygon, "ring": self.ring,
                  "point": self.point}
        within = [f"{part} {place}" for part, place in places.items()
                  if place is not None]
        named = ", ".join([name] * bool(name) + within)
        return f"{named}: {self._message}" if named else self._message


class OtherGeometryError(FeatureError):
    """A geometry is no polygon or multipolygon of two coordinates a point.

    What it is made of may be without a fault. ``has_more`` is whether it is
    one, of more coordinates a point.
    """

    has_more = False


class Place(NamedTuple):
    """The position of a point: each index counts within the part before it."""

    feature: int
    polygon: int
    ring: int
    point: int


def _parted(offsets: Array, item: int, name: str) -> Tuple[int, int]:
    """The part that an item lies in, and its place there."""
    item = operator.index(item)
    if not offsets[0] <= item < offsets[-1]:
        raise IndexError(f"{name} is {item}, and not from {offsets[0]} to"
                         f" {offsets[-1] - 1}")
    part = int(np.searchsorted(offsets, item, side="right")) - 1
    return part, item - int(offsets[part])


class Features(NamedTuple):
    """Polygons end to end, and which of them each feature has.

    Feature k has the polygons from ``feature_offsets[k]`` to before
    ``feature_offsets[k + 1]`` of ``polygons``, whose points are floats or
    whole numbers, and whose rings are open: the last point isn't the first
    one again. ``are_multi[k]`` is whether it is a multipolygon; one that
    isn't has a polygon or, if it is empty, none.
    """

    polygons: Polygons
    feature_offsets: npt.NDArray[np.int64]
    are_multi: npt.NDArray[np.bool_]

    def with_points(self, points: Array) -> Features:
        """Return the same features with other points in the same places.

        Parameters
        ----------
        points : array of shape (n, 2), of whole numbers or floats
            As many as there are. Nothing is tested here; the calls that
            take features do so.

        Returns
        -------
        Features
            It shares the offsets with this one, and has these points.
        """
        return self._replace(polygons=self.polygons._replace(points=points))

    def place(self, row: int) -> Place:
        """Return where the point in a row of ``polygons.points`` is.

        Parameters
        ----------
        row : int
            From 0 on, and in a ring of a polygon of a feature.

        Returns
        -------
        Place

        Raises
        ------
        IndexError
            No feature has the row.
        TypeError
            It isn't a whole number.
        """
        ring, point = _parted(self.polygons.ring_offsets, row, "row")
        return Place(*self.ring_place(ring), point)

    def ring_place(self, ring: int) -> Tuple[int, int, int]:
        """Return the feature, the polygon and the ring in it of a ring.

        Parameters
        ----------
        ring : int
            From 0 on, as ``polygons.ring_offsets`` count the rings, and in
            a polygon of a feature.

        Returns
        -------
        tuple of three int
            The first three of a :class:`Place`.

        Raises
        ------
        IndexError, TypeError
            As :meth:`place` does.
        """
        polygon, its_ring = _parted(self.polygons.polygon_offsets, ring,
                                    "ring")
        return (*_parted(self.feature_offsets, polygon, "polygon"), its_ring)


# Features whose arrays are tested: what a reader has made, what a caller gave
# once `as_features` has taken it, and what is made of these. Functions that
# take them test nothing again.
Checked = NewType("Checked", Features)


def rings_of(features: Checked) -> GivenRings:
    """The rings of features of whole numbers, as the cleaners take them."""
    points, ends, _ = features.polygons
    return GivenRings(as_points(points), ends)


def as_finite(features: Features) -> Checked:
    """The features, or an error that names the first infinite point.

    Their offsets are those that a reader has made.
    """
    points = features.polygons.points
    if points.dtype.kind == "f" and not np.isfinite(points).all():
        row = int(np.isfinite(points).all(axis=1).argmin())
        x, y = points[row].tolist()
        raise FeatureError(f"the point is ({x}, {y}), and not finite",
                           *features.place(row))
    return Checked(features)


def as_plane_points(points: Any) -> Array:
    """The points, of whole numbers or floats, as an array."""
    if isinstance(points, np.ma.MaskedArray):
        raise TypeError("points are a masked array: fill it first")
    found: Array = np.asarray(points)
    if not found.size and not isinstance(points, np.ndarray):
        found = np.empty((0, 2))
    if found.dtype.kind not in "iuf":
        raise TypeError(f"points have dtype {found.dtype}, not one of whole"
                        " numbers or floats")
    if found.ndim != 2 or found.shape[1] != 2:
        raise ValueError(f"points have shape {found.shape}, not (n, 2)")
    return found


def _parting(offsets: Any, limit: int, name: str, of: str) -> Array:
    """Offsets that divide so many items."""
    found = as_offsets(offsets, name)
    check_offsets(found, limit, name, of)
    return found


def as_rings(points: Any, offsets: Any) -> tuple[Array, Array]:
    """The points and offsets of rings, from 0 on and nothing besides."""
    points = as_plane_points(points)
    offsets = _parting(offsets, len(points), "offsets", "points")
    start, end = int(offsets[0]), int(offsets[-1])
    return points[start:end], offsets - start


def as_features(features: Any) -> Checked:
    """The features, tested, with offsets from 0 on and nothing besides."""
    if not isinstance(features, tuple):
        raise TypeError("expected Features, as from_shapely returns them, not"
                        f" a {type(features).__name__}"
                        + (": calls that take a GeoSeries take a step too"
                           if hasattr(features, "geometry") else ""))
    (points, rings, parts), offsets, are_multi = features
    points = as_plane_points(points)
    if points.dtype.kind == "f":
        with np.errstate(over="ignore"):
            points = points.astype(np.float64, copy=False)
    rings = _parting(rings, len(points), "ring_offsets", "points")
    parts = _parting(parts, len(rings) - 1, "polygon_offsets", "rings")
    offsets = _parting(offsets, len(parts) - 1, "feature_offsets", "polygons")
    multi: Array = np.asarray(are_multi)
    if not multi.size and not isinstance(are_multi, np.ndarray):
        multi = multi.astype(np.bool_)  # of nothing numpy makes floats
    if multi.dtype != np.bool_ or multi.shape != (len(offsets) - 1,):
        raise ValueError(f"are_multi has dtype {multi.dtype} and shape"
                         f" {multi.shape}, not one bool a feature")
    many = ~multi & (np.diff(offsets) > 1)
    if many.any():
        raise FeatureError("it has several polygons, and isn't said to be a"
                           " multipolygon", int(many.argmax()))
    parts = parts[offsets[0]:offsets[-1] + 1]
    rings = rings[parts[0]:parts[-1] + 1]
    points = points[rings[0]:rings[-1]]
    return as_finite(Features(
        Polygons(points, rings - rings[0], parts - parts[0]),
        offsets - offsets[0], multi))


def features_of(polygons: Triple) -> Features:
    """Return polygons as features, each of one polygon.

    Parameters
    ----------
    polygons : Polygons, or a tuple (points, ring_offsets, polygon_offsets)
        As for :func:`i_shape.simplify_polygons`, and floats too.

    Returns
    -------
    Features

    Raises
    ------
    OffsetsError
        The offsets don't divide the points, or the rings.
    FeatureError
        A coordinate isn't finite.
    TypeError, ValueError
        An array has another dtype or shape.

    Examples
    --------
    >>> from i_shape.io import features_of, to_wkt
    >>> points = [(0, 0), (4, 0), (4, 4), (1, 0), (2, 0), (2, 1)]
    >>> to_wkt(features_of((points, [0, 3, 6], [0, 1, 2])))
    ['POLYGON ((0 0, 4 0, 4 4, 0 0))', 'POLYGON ((1 0, 2 0, 2 1, 1 0))']
    """
    count = len(as_offsets(polygons[2], "polygon_offsets")) - 1
    return as_features((polygons, np.arange(count + 1),
                        np.zeros(count, np.bool_)))

"""Well-known binary (WKB) of polygons and multipolygons, ISO's and EWKB."""

from __future__ import annotations

import operator
import struct
import sys
from typing import Any, Iterable, Optional

import numpy as np

from ._builder import Builder, short
from ._closing import closed
from ._features import Checked, FeatureError, Features, as_features

_POLYGON, _MULTIPOLYGON = 3, 6
_SRID, _Z_OR_M = 0x20000000, 0xC0000000
_COUNTS = (struct.Struct(">I").unpack_from, struct.Struct("<I").unpack_from)
_NATIVE = int(sys.byteorder == "little")
_POINT_SIZE = 16
_HEAD = struct.Struct("<BI").pack
_COUNT = struct.Struct("<I").pack
_NAMES = ("Geometry", "Point", "LineString", "Polygon", "MultiPoint",
          "MultiLineString", "MultiPolygon", "GeometryCollection",
          "CircularString", "CompoundCurve", "CurvePolygon", "MultiCurve",
          "MultiSurface", "Curve", "Surface", "PolyhedralSurface", "TIN",
          "Triangle")


class _Reader:
    """Reads the bytes of geometries, each from its front on."""

    __slots__ = ("_builder", "_blob", "_at", "_order")

    def __init__(self, builder: Builder) -> None:
        self._builder = builder
        self._blob = b""
        self._at = 0
        self._order = _NATIVE

    def read(self, blob: Any) -> None:
        """Add the feature that some bytes stand for."""
        if blob is None:
            self._builder.end_feature(True)
            return
        if not isinstance(blob, (bytes, bytearray, memoryview)):
            raise self._builder.feature_fault(
                f"expected bytes, not {short(blob)}")
        self._blob, self._at = bytes(blob), 0
        kind = self._kind()
        if kind == _POLYGON:
            self._read_polygon(self._count())
        elif kind == _MULTIPOLYGON:
            for _ in range(self._count()):
                self._read_part()
        else:
            raise self._other(kind)
        if self._at != len(self._blob):
            raise self._builder.feature_fault(
                f"it ends at byte {self._at}, and there are"
                f" {len(self._blob)} bytes")
        self._builder.end_feature(kind == _MULTIPOLYGON)

    def _kind(self) -> int:
        """The type, with what says how many coordinates a point has."""
        if self._at >= len(self._blob):
            raise self._short(1)
        self._order = self._blob[self._at]
        if self._order > 1:
            raise self._builder.feature_fault(
                f"byte {self._at} is {self._order}: a byte order is 0 or 1")
        self._at += 1
        kind = self._count()
        if kind & _SRID:
            self._count()
        return kind & ~_SRID

    def _count(self) -> int:
        try:
            count: int = _COUNTS[self._order](self._blob, self._at)[0]
        except struct.error:
            raise self._short(4) from None
        self._at += 4
        return count

    def _short(self, size: int) -> FeatureError:
        return self._builder.feature_fault(
            f"expected {size} bytes at byte {self._at}, and there are"
            f" {max(len(self._blob) - self._at, 0)}")

    def _other(self, kind: int) -> FeatureError:
        """An error for a type that isn't the right one."""
        dimensions, base = divmod(kind & ~_Z_OR_M, 1000)
        if dimensions > 3 or not base < len(_NAMES):
            return self._builder.feature_fault(
                f"{kind:#x} isn't a type of WKB")
        if base in (_POLYGON, _MULTIPOLYGON):
            return self._builder.other(
                f"expected a {_NAMES[base]} of two coordinates a point, and"
                " it has more", has_more=True)
        return self._builder.other(
            f"expected a Polygon or a MultiPolygon, not a {_NAMES[base]}")

    def _read_part(self) -> None:
        kind = self._kind()
        if kind != _POLYGON:
            raise self._builder.fault(
                f"a part of a MultiPolygon has the type {kind:#x}, not that"
                " of a Polygon, 0x3", is_in_ring=False)
        count = self._count()
        if not count:
            self._builder.end_polygon()
        self._read_polygon(count)

    def _read_polygon(self, count: int) -> None:
        for _ in range(count):
            size = _POINT_SIZE * self._count()
            start, self._at = self._at, self._at + size
            if self._at > len(self._blob):
                raise self._builder.fault(
                    f"{size // _POINT_SIZE} points need {size} bytes at byte"
                    f" {start}, and there are {len(self._blob) - start}")
            self._builder.add_ring_bytes(self._blob[start:self._at],
                                         self._order != _NATIVE)
        if count:
            self._builder.end_polygon()


def read(builder: Builder, blob: Any) -> None:
    """Add the feature that some bytes stand for."""
    _Reader(builder).read(blob)


def from_wkb(blobs: Iterable[Any]) -> Features:
    """Return the polygons of geometries in WKB.

    Parameters
    ----------
    blobs : iterable of bytes
        A Polygon or a MultiPolygon each, as a list, or an array or Series
        of objects: of ISO, or with an SRID as EWKB, in either byte order.
        None is a feature without polygons. The SRIDs aren't kept. Rings
        should be closed; one that isn't is taken for open.

    Returns
    -------
    Features
        In float64.

    Raises
    ------
    FeatureError
        A geometry is another one, has more than two coordinates a point, or
        ends too soon or too late; a coordinate isn't finite. It names the
        feature, and the polygon, ring and point where there is one.
    TypeError
        ``blobs`` are one geometry, or an array of a dtype as ``S93``, which
        loses zeros at the end: make it one of objects.

    See also
    --------
    to_wkb : the way back.

    Examples
    --------
    >>> from i_shape.io import from_wkb, to_wkt
    >>> blob = bytes.fromhex("0103000000010000000300000000000000000000000000"
    ...                      "00000000000000000000000010400000000000000000"
    ...                      "00000000000010400000000000000840")
    >>> to_wkt(from_wkb([blob]))
    ['POLYGON ((0 0, 4 0, 4 3, 0 0))']
    """
    if isinstance(blobs, (bytes, bytearray, memoryview, str)):
        raise TypeError("blobs are one geometry, not a list of bytes")
    if isinstance(blobs, np.ndarray) and blobs.dtype.kind != "O":
        raise TypeError(f"blobs have dtype {blobs.dtype}, not object")
    builder = Builder()
    reader = _Reader(builder)
    for blob in blobs:
        reader.read(blob)
    return builder.features()


def _pieces(whole: bytes, ends: list[int]) -> list[bytes]:
    return [whole[start:end] for start, end in zip(ends, ends[1:])]


def blobs_of(features: Checked, srid: Optional[int] = None) -> list[bytes]:
    """The bytes of each feature."""
    (points, ends, parts), offsets, are_multi = features
    whole = closed(points.astype("<f8", copy=False), ends)
    rings = [_COUNT(len(ring) // _POINT_SIZE) + ring for ring in
             _pieces(whole.points.tobytes(),
                     (_POINT_SIZE * whole.offsets).tolist())]
    part_ends, feature_ends = parts.tolist(), offsets.tolist()
    polygons = [_COUNT(end - start) + b"".join(rings[start:end])
                for start, end in zip(part_ends, part_ends[1:])]
    flag, tail = (0, b"") if srid is None else (_SRID, _COUNT(srid))
    heads = [_HEAD(1, kind | flag) + tail
             for kind in (_POLYGON, _MULTIPOLYGON)]
    inner = _HEAD(1, _POLYGON)
    found = []
    for is_multi, start, end in zip(are_multi.tolist(), feature_ends,
                                    feature_ends[1:]):
        if is_multi:
            its = [inner + polygon for polygon in polygons[start:end]]
            found.append(heads[1] + _COUNT(len(its)) + b"".join(its))
        else:
            its = polygons[start:end] or [_COUNT(0)]
            found.append(heads[0] + its[0])
    return found


def to_wkb(features: Features, srid: Optional[int] = None) -> list[bytes]:
    """Return each feature in WKB, the low byte first.

    Parameters
    ----------
    features : Features
        Of whole numbers or floats. A whole number that float64 doesn't
        hold is rounded.
    srid : int, optional
        From 0 to before 2**32. With it the bytes are EWKB, as PostGIS has
        them; without it those of ISO, which EWKB's readers take too.

    Returns
    -------
    list of bytes
        A Polygon or a MultiPolygon each. Rings are closed, and turn as they
        did. An empty feature has no rings, or no polygons.

    Raises
    ------
    FeatureError
        As :func:`to_wkt` does.
    OffsetsError, TypeError, ValueError
        The arrays of ``features`` don't fit one another, or ``srid`` isn't
        such a whole number.

    See also
    --------
    from_wkb : the way back.

    Examples
    --------
    >>> from i_shape.io import features_of, from_wkb, to_wkb, to_wkt
    >>> features = features_of(([(0, 0), (4, 0), (4, 3)], [0, 3], [0, 1]))
    >>> blobs = to_wkb(features, srid=4326)
    >>> len(blobs[0]), to_wkt(from_wkb(blobs))
    (81, ['POLYGON ((0 0, 4 0, 4 3, 0 0))'])
    """
    if srid is not None and not 0 <= operator.index(srid) < 2 ** 32:
        raise ValueError(f"srid is {short(srid)}, not a whole number from 0 to"
                         " before 2**32")
    return blobs_of(as_features(features), srid)

"""Well-known text (WKT) of polygons and multipolygons."""

from __future__ import annotations

import re
from itertools import chain
from typing import Any, Callable, Iterable, Iterator

from ._builder import Builder, short
from ._features import FeatureError, Features, as_features

# Some programs write POLYGONZ for POLYGON Z.
_HEAD = re.compile(r"\s*(MULTIPOLYGON|POLYGON)(?=\b|(ZM|Z|M)\b)\s*",
                   re.IGNORECASE)
_OTHER = re.compile(
    r"\s*(POINT|LINESTRING|MULTIPOINT|MULTILINESTRING|GEOMETRYCOLLECTION|"
    r"CIRCULARSTRING|COMPOUNDCURVE|CURVEPOLYGON|MULTICURVE|MULTISURFACE|"
    r"POLYHEDRALSURFACE|TIN|TRIANGLE)(ZM|Z|M)?\b", re.IGNORECASE)
_DIMENSIONS = re.compile(r"(ZM|Z|M)\b", re.IGNORECASE)
_OPEN, _CLOSE, _COMMA = (re.compile(rf"\s*{mark}\s*")
                         for mark in (r"\(", r"\)", ","))
_EMPTY = re.compile(r"\s*EMPTY\b\s*", re.IGNORECASE)
_BODY = re.compile(r"[^()]*")
_NUMBER = re.compile(r"[-+]?(\d+(\.\d*)?|\.\d+)(e[-+]?\d+)?",
                     re.IGNORECASE | re.ASCII)


class _Reader:
    """Reads one text from its front on."""

    def __init__(self, builder: Builder, text: str) -> None:
        self._builder = builder
        self._text = text
        self._at = 0

    def _takes(self, pattern: re.Pattern[str]) -> str:
        """What the pattern matches next, and is read; "" where nothing."""
        found = pattern.match(self._text, self._at)
        if found is None:
            return ""
        self._at = found.end()
        return found[0]

    def _needs(self, pattern: re.Pattern[str], name: str) -> None:
        if not self._takes(pattern):
            raise self._other(name)

    def _other(self, name: str) -> FeatureError:
        """An error at what comes next, which isn't what is expected."""
        rest = self._text[self._at:].strip()
        return self._builder.feature_fault(
            f"expected {name} at character {self._at}, not"
            f" {short(rest) if rest else 'the end'}")

    def read(self) -> None:
        kind = self._takes(_HEAD).strip().upper()
        if not kind:
            message = ("expected POLYGON or MULTIPOLYGON, not"
                       f" {short(self._text.strip())}")
            if _OTHER.match(self._text):
                raise self._builder.other(message)
            raise self._builder.feature_fault(message)
        if self._takes(_DIMENSIONS):
            raise self._builder.other(
                f"expected a {kind} of two coordinates a point, and it has"
                " more", has_more=True)
        is_multi = kind == "MULTIPOLYGON"
        if not self._takes(_EMPTY):
            if is_multi:
                self._read_list(self._read_polygon)
            else:
                self._read_polygon()
        if self._text[self._at:].strip():
            raise self._other("the end")
        self._builder.end_feature(is_multi)

    def _read_list(self, read_one: Callable[[], None]) -> None:
        self._needs(_OPEN, "'('")
        read_one()
        while self._takes(_COMMA):
            read_one()
        self._needs(_CLOSE, "')'")

    def _read_polygon(self) -> None:
        if not self._takes(_EMPTY):
            self._read_list(self._read_ring)
        self._builder.end_polygon()

    def _read_ring(self) -> None:
        if self._takes(_EMPTY):
            self._builder.add_ring(())
            return
        self._needs(_OPEN, "'('")
        self._builder.add_ring(self._numbers(self._takes(_BODY)))
        self._needs(_CLOSE, "')'")

    def _numbers(self, body: str) -> list[float]:
        """The coordinates of a ring, x and y in turn."""
        points = [point.split() for point in body.split(",")]
        words = list(chain.from_iterable(points))
        if (set(map(len, points)) == {2}
                and all(map(_NUMBER.fullmatch, words))):
            return list(map(float, words))
        raise self._fault(points)

    def _fault(self, points: list[list[str]]) -> FeatureError:
        """An error that names the first point that isn't one."""
        for place, words in enumerate(points):
            if len(words) != 2:
                return self._builder.fault(
                    f"the point {short(' '.join(words))} has {len(words)}"
                    " coordinates, not 2", place,
                    is_other=len(words) in (3, 4))
            for word in words:
                if not _NUMBER.fullmatch(word):
                    return self._builder.fault(
                        f"{short(word)} isn't a finite number", place)
        raise AssertionError("each point is one")


def read(builder: Builder, text: Any) -> None:
    """Add the feature that a text stands for."""
    if not isinstance(text, str):
        raise builder.feature_fault(f"expected a text, not {short(text)}")
    _Reader(builder, text).read()


def from_wkt(texts: Iterable[str]) -> Features:
    """Return the polygons of texts in WKT.

    Parameters
    ----------
    texts : iterable of str
        A POLYGON or a MULTIPOLYGON each; a file gives one a line. Rings
        should be closed, as the format has it; one that isn't is taken
        for open.

    Returns
    -------
    Features
        In float64: a number that it doesn't hold is rounded.

    Raises
    ------
    FeatureError
        A text is another geometry or none; a point doesn't have just two
        coordinates; a coordinate isn't a finite number. It names the
        feature, and the polygon, ring and point where there is one.
    TypeError
        ``texts`` is a single string.

    See also
    --------
    to_wkt : the way back.

    Examples
    --------
    >>> from i_shape.io import from_wkt
    >>> features = from_wkt(["POLYGON ((0 0, 4 0, 4 4.5, 0 0))"])
    >>> features.polygons.points.tolist()
    [[0.0, 0.0], [4.0, 0.0], [4.0, 4.5]]
    """
    if isinstance(texts, str):
        raise TypeError("texts are one text, not a list of texts")
    builder = Builder()
    for text in texts:
        read(builder, text)
    return builder.features()


def shown(number: float) -> str:
    """A text of the fewest digits that is read as the number."""
    text = repr(number)
    return text[:-2] if text.endswith(".0") else text


def texts(features: Features) -> Iterator[str]:
    """The text of each feature, which is tested already."""
    polygons, offsets, are_multi = features
    ends = polygons.ring_offsets.tolist()
    parts, feature_ends = polygons.polygon_offsets.tolist(), offsets.tolist()

    def listed(its: list[str]) -> str:
        return f"({', '.join(its)})" if its else "EMPTY"

    def ring(place: int) -> str:
        points = polygons.points[ends[place]:ends[place + 1]].tolist()
        return listed([f"{shown(x)} {shown(y)}"
                       for x, y in points + points[:1]])

    def polygon(place: int) -> str:
        return listed([ring(at)
                       for at in range(parts[place], parts[place + 1])])

    for place, is_multi in enumerate(are_multi.tolist()):
        its = [polygon(at) for at in range(feature_ends[place],
                                           feature_ends[place + 1])]
        if is_multi:
            yield f"MULTIPOLYGON {listed(its)}"
        else:
            yield f"POLYGON {its[0] if its else 'EMPTY'}"


def to_wkt(features: Features) -> list[str]:
    """Return the text of each feature in WKT.

    Parameters
    ----------
    features : Features
        Of whole numbers or floats.

    Returns
    -------
    list of str
        A POLYGON or a MULTIPOLYGON each. Rings are closed, and a float is
        written so that it is read as the same.

    Raises
    ------
    FeatureError
        A feature with several polygons isn't said to be a multipolygon, or
        a coordinate isn't finite.
    OffsetsError, TypeError, ValueError
        The arrays of ``features`` don't fit one another.

    Examples
    --------
    >>> from i_shape.io import features_of, to_wkt
    >>> to_wkt(features_of(([(0, 0), (4, 0), (4, 4)], [0, 3], [0, 1])))
    ['POLYGON ((0 0, 4 0, 4 4, 0 0))']
    """
    return list(texts(as_features(features)))

"""GeoJSON, a feature at a time: documents, and features a line each."""

from __future__ import annotations

import json
import re
from typing import Any, Iterator, NamedTuple, Optional, TextIO

from ..io import FeatureError
from ..io._builder import short
from .blocks import Record
from .json_text import (Member, Members, Pieces, end_at, is_next, member_at,
                        parsed, scan, skip, value_at)

_FEATURES = re.compile(r'[ \t\n\r]*"features"[ \t\n\r]*:[ \t\n\r]*\[')
_ESCAPED = re.compile(r"\\u00[4-7]").search
_NAME = '"coordinates"'
_COORDINATES = re.compile(_NAME + r'[ \t\n\r]*:[ \t\n\r]*'
                          r"(\[[-+.0-9eE\[\], \t\n\r]*)").match
FEATURE = '{"type": "Feature", "properties": null, "geometry": ', "}"


def crs_text(name: str) -> str:
    """The member that names a CRS for GDAL and QGIS; RFC 7946 has none."""
    named = {"type": "name", "properties": {"name": name}}
    return f'"crs": {json.dumps(named)}'


def collection_frame(crs: str = "") -> tuple[str, str]:
    """What comes before the features of a new collection, and behind them.

    The text of a member ``crs`` may be among it.
    """
    member = f" {crs}," if crs else ""
    return f'{{"type": "FeatureCollection",{member} "features": [\n', "\n]}\n"


def _geometry_record(fid: int, geometry: Members, whole: str, before: str,
                     behind: str, line: Optional[int] = None) -> Record:
    """The record of a geometry in what is around it, and all as it was."""
    if "coordinates" not in geometry:
        return Record(fid, geometry.plain(), whole, line=line)
    head, tail = geometry.around("coordinates")
    member = geometry["coordinates"]
    return Record(fid, geometry.plain(), before + head,
                  member.text[member.begin:], tail + behind, line, whole)


def _feature_record(fid: int, feature: Any,
                    line: Optional[int] = None) -> Record:
    if isinstance(feature, _Plain):
        return Record(fid, feature.geometry, feature.before,
                      feature.coordinates, feature.behind, line)
    if not isinstance(feature, Members) or feature.value("type") != "Feature":
        if isinstance(feature, Members):
            feature = feature.plain()
        raise FeatureError(f"expected a Feature, not {short(feature)}")
    geometry = feature.value("geometry")
    if not isinstance(geometry, Members):
        return Record(fid, geometry, feature.text(), line=line)
    return _geometry_record(fid, geometry, feature.text(),
                            *feature.around("geometry"), line)


class _Plain(NamedTuple):
    """A feature whose coordinates are found in its text at once."""

    geometry: dict[str, Any]
    before: str
    coordinates: str
    behind: str


def _plain(text: str, start: int, end: int, feature: Any) -> Optional[_Plain]:
    """The feature that a text stands for, if it is as most are.

    The word of its coordinates is there but once, and no letter is
    escaped that a name could have, so that it is their name.
    """
    geometry = feature.get("geometry") if isinstance(feature, dict) else None
    if (not isinstance(geometry, dict) or feature.get("type") != "Feature"
            or "coordinates" not in geometry
            or text.find('"bbox"', start, end) >= 0
            or _ESCAPED(text, start, end)):
        return None
    at = text.find(_NAME, start, end)
    found = _COORDINATES(text, at)
    if (text.find(_NAME, at + 1, end) >= 0 or not found
            or text[found.end()] != "}"):
        return None
    coordinates = found[1].rstrip()
    begin = found.start(1)
    return _Plain(geometry, text[start:begin], coordinates,
                  text[begin + len(coordinates):end])


def _feature_at(text: str, at: int) -> tuple[Any, int]:
    """A feature, or what is in its place, and where it ends."""
    start = skip(text, at)
    feature, end = scan(text, start)
    plain = _plain(text, start, end, feature)
    return (plain, end) if plain else value_at(text, start)


def _opened_at(text: str, at: int) -> tuple[tuple[str, Optional[Member]], int]:
    """A member, or nothing of it where the list of features begins."""
    opened = _FEATURES.match(text, at)
    if opened:
        return ("features", None), opened.end()
    return member_at(text, at)


class Document:
    """A document of GeoJSON, whose features are read one by one.

    ``head``, which comes before the features, is known with the first one,
    and ``tail`` at the end. A lone geometry becomes a feature if it is told
    that features are needed. ``crs`` is the text of that member of a lone
    feature or geometry.
    """

    def __init__(self, file: TextIO, needs_features: bool) -> None:
        self._pieces = Pieces(file)
        self._needs_features = needs_features
        self.head, self.tail, self.crs = "", "\n", ""

    def records(self) -> Iterator[Record]:
        pieces = self._pieces
        if not pieces.take(is_next("{")):
            raise FeatureError("expected an object of GeoJSON, not"
                               f" {short(pieces.take(value_at))}", 0)
        members, behind = Members(), Members()
        its = members
        for name, member in pieces.items("}", _opened_at):
            if name == "features" and (self.head or name in members):
                raise FeatureError("features stand in the document twice")
            if member is not None:
                its[name] = member
            else:
                self.head = members.opening("features") + "[\n"
                yield from self._features()
                its = behind
        pieces.take(end_at)
        if self.head:
            self.tail = "\n]" + behind.closing() + "\n"
        whole = Members({**members, **behind})
        self._require_kind(whole)
        if not self.head:
            yield self._lone_record(whole)

    def _features(self) -> Iterator[Record]:
        for number, feature in enumerate(self._pieces.items("]", _feature_at)):
            try:
                yield _feature_record(number, feature)
            except FeatureError as error:
                raise error.of(number) from None

    def _require_kind(self, members: Members) -> None:
        is_collection = members.value("type") == "FeatureCollection"
        if self.head and not is_collection:
            raise FeatureError("a document that has features is a"
                               " FeatureCollection, not"
                               f" {short(members.value('type'))}")
        if is_collection and not self.head:
            raise FeatureError(
                f"features are {short(members.value('features'))}, not a"
                " list", 0)

    def _lone_record(self, members: Members) -> Record:
        """The record of a feature or a geometry that isn't in a list."""
        if "crs" in members:
            self.crs = members["crs"].text
        if members.value("type") == "Feature":
            return _feature_record(0, members)
        before, behind = FEATURE if self._needs_features else ("", "")
        whole = f"{before}{members.text()}{behind}"
        return _geometry_record(0, members, whole, before, behind)


def line_records(file: TextIO) -> Iterator[Record]:
    """The features of a text that has one a line, but for blank lines.

    A line may begin with the mark that RFC 8142 puts before each text.
    """
    count = 0
    for number, line in enumerate(file, 1):
        text = line.lstrip("\x1e").rstrip()
        if not text:
            continue
        try:
            feature, end = parsed(_feature_at, text, 0)
            end_at(text, end)
            record = _feature_record(count, feature, number)
        except json.JSONDecodeError as error:
            raise ValueError(f"line {number}: {error.msg}: column"
                             f" {error.colno}") from None
        except FeatureError as error:
            raise ValueError(f"line {number}: {error.of(count)}") from None
        except ValueError as error:
            raise ValueError(f"line {number}: {error}") from None
        yield record
        count += 1

"""The features of a file, some at a time."""

from __future__ import annotations

from contextlib import contextmanager
from typing import Any, Callable, Iterable, Iterator, NamedTuple, Optional

from ..io import FeatureError
from ..io._builder import Builder
from ..io._features import OtherGeometryError

_LARGEST = 1 << 22  # characters or bytes of a block's records

Read = Callable[[Builder, Any], None]


def _way_of(error: OtherGeometryError) -> str:
    """What to do about a feature that isn't taken."""
    flat = ("; `ogr2ogr -dim XY` drops heights and measures"
            if error.has_more else "")
    return f"; --others keep or --others drop allows it{flat}"


class Record(NamedTuple):
    """A feature of a text, whose coordinates lie within what is about them.

    Where there are none to be replaced, all is before them. ``geometry`` is
    what the format's reader takes, and None where there is none. ``fid``
    counts the features from 0 on. ``whole`` is the text as it was, where
    that may have a ``bbox``, which other coordinates may not fit.
    """

    fid: int
    geometry: Any
    before: str
    coordinates: str = ""
    behind: str = ""
    line: Optional[int] = None
    whole: str = ""

    @property
    def name(self) -> str:
        return f"feature {self.fid}"

    @property
    def place(self) -> str:
        """What an error calls it."""
        return self.name if self.line is None else (
            f"line {self.line}: {self.name}")

    @property
    def size(self) -> int:
        return (len(self.before) + len(self.coordinates)
                + len(self.behind) + len(self.whole))

    @property
    def text(self) -> str:
        return self.whole or f"{self.before}{self.coordinates}{self.behind}"


class Block:
    """Records one after another, and the features of those with polygons.

    They are of one group, as the layer of a GeoPackage is.
    """

    def __init__(self, group: str) -> None:
        self.group = group
        self.records: list[Any] = []
        self.have_polygons: list[bool] = []
        self.dropped: list[Any] = []
        self._builder = Builder()
        self.features = self._builder.features()

    @property
    def kept(self) -> int:
        """How many records have a geometry that stays as it is."""
        return sum(not has_polygons and record.geometry is not None
                   for record, has_polygons
                   in zip(self.records, self.have_polygons))

    @property
    def polygon_records(self) -> list[Any]:
        """The records of the features, in their order."""
        return [record for record, has_polygons
                in zip(self.records, self.have_polygons) if has_polygons]

    def add(self, record: Any, read: Read, others: str) -> None:
        """Add a record, or what else is to be done with such a one."""
        has_polygons = record.geometry is not None
        if has_polygons:
            try:
                read(self._builder, record.geometry)
            except OtherGeometryError as error:
                if others == "error":
                    raise ValueError(error.named(record.place)
                                     + _way_of(error)) from None
                self._builder.leave_out()
                has_polygons = False
            except FeatureError as error:
                raise ValueError(error.named(record.place)) from None
        if others == "drop" and not has_polygons:
            self.dropped.append(record)
        else:
            self.records.append(record)
            self.have_polygons.append(has_polygons)

    def end(self) -> None:
        """Make the features of what has been added."""
        with self.naming():
            self.features = self._builder.features()

    @contextmanager
    def naming(self) -> Iterator[None]:
        """Name the feature that has a fault as the file does."""
        try:
            yield
        except FeatureError as error:
            if error.feature is None:
                raise
            place = self.polygon_records[error.feature].place
            raise ValueError(error.named(place)) from error


def in_blocks(records: Iterable[Any], read: Read, others: str,
              group: str = "") -> Iterator[Block]:
    """The records in blocks of some size.

    A record that has no geometry stays unless others are to be dropped.
    """
    block, size = Block(group), 0
    for record in records:
        block.add(record, read, others)
        size += record.size
        if size >= _LARGEST:
            block.end()
            yield block
            block, size = Block(group), 0
    if size:
        block.end()
        yield block

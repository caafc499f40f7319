"""Texts of GeoJSON and WKT: one is read in blocks, and one is written."""

from __future__ import annotations

from typing import Collection, Iterator, Optional, TextIO

from ..io import _wkt
from ..io._features import Checked
from ..io._geojson import add_geometry
from .blocks import Block, Record, in_blocks
from .decimals import coordinate_texts
from .geojson import FEATURE, Document, collection_frame, line_records
from .progress import track

_FRAMES = tuple(
    (f'{FEATURE[0]}{{"type": "{kind}", "coordinates": ', f"}}{FEATURE[1]}")
    for kind in ("Polygon", "MultiPolygon"))


def _wkt_records(file: TextIO) -> Iterator[Record]:
    """The lines that aren't blank."""
    count = 0
    for number, line in enumerate(file, 1):
        if line.strip():
            yield Record(count, line, line.strip(), line=number)
            count += 1


class TextPair:
    """A text that features are read from, and one that they are written to.

    The formats are those that :mod:`files` names. ``places`` is how many
    decimal places the coordinates that are written are likely to have.
    """

    area_unit = "square units"  # of the coordinates, which no text names

    def __init__(self, given: TextIO, given_format: str, out: TextIO,
                 out_format: str, others: str,
                 places: Optional[int]) -> None:
        self._out, self._out_format, self._others = out, out_format, others
        self._places = places
        self._is_wkt = given_format == "WKT"
        self._is_begun = False
        self._document: Optional[Document] = None
        if given_format == "GeoJSON":
            self._document = Document(given, out_format != "GeoJSON")
            self._records = self._document.records()
        else:
            self._records = (_wkt_records if self._is_wkt
                             else line_records)(given)

    def blocks(self) -> Iterator[Block]:
        return in_blocks(track(self._records, "features read"),
                         _wkt.read if self._is_wkt else add_geometry,
                         self._others)

    def write(self, block: Block, left: Optional[Checked] = None,
              gone: Collection[int] = ()) -> None:
        """Write the records of a block but for some features.

        The coordinates are those of what is left, or as they were.
        """
        if left is None and self._is_wkt != (self._out_format == "WKT"):
            left = block.features
        texts = enumerate(self._texts(block, left))
        for record, has_polygons in zip(block.records, block.have_polygons):
            if not has_polygons:
                self._put(record.text if self._out_format != "WKT"
                          or record.geometry else "MULTIPOLYGON EMPTY")
                continue
            place, text = next(texts)
            if place not in gone:
                self._put(text)

    def _texts(self, block: Block, left: Optional[Checked]) -> Iterator[str]:
        """The whole text of each record that has polygons."""
        records = block.polygon_records
        if left is None:
            return (record.text for record in records)
        if self._out_format == "WKT":
            return _wkt.texts(left)
        frames = ([_FRAMES[is_multi] for is_multi in left.are_multi.tolist()]
                  if self._is_wkt
                  else [(record.before, record.behind) for record in records])
        return (f"{before}{coordinates}{behind}" for (before, behind),
                coordinates in zip(frames,
                                   coordinate_texts(left, self._places)))

    def _put(self, text: str) -> None:
        if self._out_format == "GeoJSON":
            self._out.write(",\n" if self._is_begun else self._frame()[0])
            self._out.write(text)
            self._is_begun = True
        else:
            self._out.write(text.replace("\n", " ") + "\n")

    def _frame(self) -> tuple[str, str]:
        """What comes before the features, and behind them."""
        if self._document:
            return self._document.head, self._document.tail
        return collection_frame()

    def collection(self) -> tuple[str, str]:
        """The frame of a collection, with the members that this text has.

        Of those of a lone feature or geometry it has the CRS alone.
        """
        head, tail = self._frame()
        if head:
            return head, tail
        return collection_frame(self._document.crs if self._document else "")

    def end(self) -> None:
        """Write what comes behind the features.

        Where the lone feature of a document is dropped, an empty collection
        is left.
        """
        if self._out_format == "GeoJSON":
            head, tail = self._frame()
            if not self._is_begun:
                head, tail = self.collection()
                self._out.write(head)
            self._out.write(tail)
        self._out.flush()

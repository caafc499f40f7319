"""GeoPackages by the standard library's sqlite3.

A run reads all features before it writes the geometries that change, in one
transaction: of IN itself where OUT is IN, and else of a copy of IN.
"""

from __future__ import annotations

import os
import sqlite3
import struct
from contextlib import closing, contextmanager
from pathlib import Path
from typing import (Any, Callable, Collection, Iterator, NamedTuple, Optional,
                    Sequence)

import numpy as np

from ..io import Features, _wkb, from_wkb, to_wkb
from ..io._builder import Builder, short
from ..io._features import Checked
from .blocks import Block, in_blocks
from .geojson import collection_frame, crs_text
from .progress import track

_POLYGONS = {"GEOMETRY", "GEOMETRYCOLLECTION", "SURFACE", "CURVEPOLYGON",
             "POLYGON", "MULTISURFACE", "MULTIPOLYGON"}
_ENVELOPES = (0, 32, 48, 48, 64)  # bytes
_PATIENCE = 5.0  # seconds to wait for a file that another program locks
_OPERATIONS = 100_000  # of SQLite's, after which a signal may end a statement
_PAGES = 4096  # of a file that is copied, after which a signal may end it
_GROWTH = 4, 1 << 26  # how many times its size, and bytes more, a file may get
_CACHE = 1 << 18  # KiB of changed pages before SQLite locks readers out
_BUSY = 5  # SQLite's code for a file that another program locks
_LOCKED = "database is locked"  # and its words
_FAILED = "user-defined function raised exception"  # Python's, of one of ours
_BOXES, _EMPTY, _EXTENDED = 0x0e, 0x10, 0x20
_NUMBERS = (struct.Struct(">d").unpack_from, struct.Struct("<d").unpack_from)
_STARTS = (struct.Struct(">I2d").unpack_from,
           struct.Struct("<I2d").unpack_from)  # of WKB, behind its order
_POINT = 1  # and 1000, 2000 or 3000 more with heights or measures
_FULL_HEAD, _EMPTY_HEAD = b"GP\0\3", b"GP\0\x11"  # with a box; without one


def _quoted(name: str) -> str:
    return '"' + name.replace('"', '""') + '"'


class Layer(NamedTuple):
    """A table of features, and the number of that of its changes."""

    name: str
    column: str
    fid: str
    srs: int
    number: int

    @property
    def table(self) -> str:
        return f"main.{_quoted(self.name)}"

    @property
    def changes(self) -> str:
        """The table of the new geometry of each FID, or none if it goes."""
        return f"temp.changes_{self.number}"


class Row(NamedTuple):
    """A feature of a layer, and its geometry, as its column holds it."""

    layer: Layer
    fid: int
    blob: Any

    @property
    def geometry(self) -> Optional[Row]:
        return None if self.blob is None else self

    @property
    def name(self) -> str:
        return f"layer {self.layer.name!r}, fid {self.fid}"

    @property
    def place(self) -> str:
        return self.name

    @property
    def size(self) -> int:
        return len(self.blob) if isinstance(self.blob, bytes) else 1

    @property
    def wkb(self) -> bytes:
        start: int = 8 + _ENVELOPES[self.blob[3] >> 1 & 7]
        whole: bytes = self.blob
        return whole[start:]


def _order(blob: bytes) -> str:
    return "<" if blob[3] & 1 else ">"


def _read(builder: Builder, row: Row) -> None:
    """Add the feature of a row."""
    blob = row.blob
    if (not isinstance(blob, bytes) or len(blob) < 8 or blob[:3] != b"GP\0"
            or blob[3] >> 1 & 7 >= len(_ENVELOPES)):
        raise builder.feature_fault(
            f"{short(blob)} isn't a geometry of GeoPackage")
    if blob[3] & _EXTENDED:
        raise builder.other("expected a Polygon or a MultiPolygon, not a"
                            " geometry of an extension")
    srs = struct.unpack_from(_order(blob) + "i", blob, 4)[0]
    if srs != row.layer.srs:
        raise builder.feature_fault(
            f"its SRS is {srs}, and that of the layer {row.layer.srs}")
    _wkb.read(builder, row.wkb)


def _box(wkb: bytes) -> Optional[Sequence[float]]:
    """The least and greatest x, and those of y, of a polygon or a point."""
    kind, x, y = _STARTS[wkb[0]](wkb, 1)
    if kind % 1000 == _POINT:
        return x, x, y, y
    points = from_wkb([wkb]).polygons.points
    if not len(points):
        return None
    box: list[float] = np.stack([points.min(0), points.max(0)], 1).ravel(
        ).tolist()
    return box


def _side(place: int) -> Callable[[Any], Optional[float]]:
    """What a blob says of a side of its box; nothing where there is none.

    It is an error where the box isn't known: SQLite would take it for zeros.
    """
    start = 8 + 8 * place

    def value(blob: Any) -> Optional[float]:
        try:
            if blob[3] & _BOXES:
                number: float = _NUMBERS[blob[3] & 1](blob, start)[0]
                return number
            box = _box(blob[8:])
        except (struct.error, TypeError, IndexError):
            return None
        return None if box is None else box[place]
    return value


def _is_empty(blob: Any) -> Optional[bool]:
    if not isinstance(blob, bytes) or len(blob) < 8:
        return None
    return bool(blob[3] & _EMPTY)


def _add_functions(store: sqlite3.Connection) -> None:
    """Those that the triggers of an R-tree call."""
    for place, name in enumerate(("ST_MinX", "ST_MaxX", "ST_MinY",
                                  "ST_MaxY")):
        store.create_function(name, 1, _side(place), deterministic=True)
    store.create_function("ST_IsEmpty", 1, _is_empty, deterministic=True)


def _boxes(features: Features) -> tuple[np.ndarray[Any, Any], bytes]:
    """Which features have points, and for each the bytes of its box."""
    (points, rings, parts), offsets, _ = features
    ends = rings[parts[offsets]]
    are_full = ends[1:] > ends[:-1]
    boxes = np.zeros((len(are_full), 4), "<f8")
    starts = ends[:-1][are_full]
    if len(starts):
        boxes[are_full, 0::2] = np.minimum.reduceat(points, starts)
        boxes[are_full, 1::2] = np.maximum.reduceat(points, starts)
    return are_full, boxes.tobytes()


def _is_same(wkb: bytes, new: bytes) -> bool:
    """Whether a geometry is the new one, in whichever byte order.

    Read and written again it loses an SRID, which is more bytes, and a -0
    of a closing point, which is one byte 0x80 more.
    """
    return wkb == new or (wkb[:1] == b"\0" and len(wkb) == len(new)
                          and wkb.count(0x80) == new.count(0x80)
                          and to_wkb(from_wkb([wkb]))[0] == new)


def _changed(rows: Sequence[Row], left: Checked,
             gone: Collection[int]) -> Iterator[tuple[bytes, int]]:
    """The new blob and the fid of each row that stays and changes."""
    are_full, boxes = _boxes(left)
    for place, (row, new) in enumerate(zip(rows, _wkb.blobs_of(left))):
        if place not in gone and not _is_same(row.wkb, new):
            srs = struct.pack("<i", row.layer.srs)
            box = boxes[32 * place:32 * place + 32]
            yield (_FULL_HEAD + srs + box + new if are_full[place]
                   else _EMPTY_HEAD + srs + new), row.fid


@contextmanager
def _naming(path: Path, what: str = "") -> Iterator[None]:
    """Name the file, and what is done, that sqlite has an error of."""
    try:
        yield
    except sqlite3.Error as error:
        words = " ".join(str(error).split())  # it may quote lines of SQL
        if words == _LOCKED:
            what = ""  # whatever else it says isn't so
            words += (": another program has it open; close it there, or try"
                      " again later")
        if words == _FAILED:
            words = ("a trigger writes a geometry without an envelope, which"
                     " is neither a point nor a flat polygon")
        raise OSError(f"{path}: {what}{words}") from error


class GeoPackage:
    """A GeoPackage within a transaction, which is read and then written.

    Changes wait in temporary tables, which no SQL of the file can see. So
    what triggers do to later rows changes nothing that is still to be read.
    """

    def __init__(self, given: Path, out: Path, store: sqlite3.Connection,
                 others: str, layers: Sequence[str]) -> None:
        self._given, self._out, self._store = given, out, store
        self._others = others
        _add_functions(store)
        with _naming(given, "it is no GeoPackage: "):
            self._layers = self._found_layers(layers)
        with _naming(out):
            for layer in self._layers:
                store.execute(f"CREATE TABLE {layer.changes} (fid, blob)")

    def _found_layers(self, names: Sequence[str]) -> list[Layer]:
        """The layers of these names, or those that may have polygons."""
        rows = self._store.execute(
            "SELECT table_name, column_name, srs_id,"
            " upper(geometry_type_name) FROM main.gpkg_geometry_columns"
        ).fetchall()
        strange = set(names) - {row[0] for row in rows}
        if strange:
            raise ValueError(
                f"there is no layer {min(strange)!r}: those there are"
                f" {', '.join(short(row[0]) for row in rows)}")
        return [self._layer(number, *row[:3]) for number, row
                in enumerate(rows)
                if row[0] in names or not names and row[3] in _POLYGONS]

    def _layer(self, number: int, name: Any, column: Any,
               srs: Any) -> Layer:
        if [type(one) for one in (name, column, srs)] != [str, str, int]:
            raise ValueError(f"layer {short(name)} has column"
                             f" {short(column)} and SRS {short(srs)}")
        kind = self._store.execute(
            "SELECT type FROM main.sqlite_master WHERE name = ?"
            " COLLATE NOCASE AND type IN ('table', 'view')",
            (name,)).fetchone()
        if kind != ("table",):
            raise ValueError(f"layer {name!r} is "
                             + ("a view, which isn't written to: name others"
                                " by --layer" if kind else "no table"))
        if not self._store.execute(
                "SELECT 1 FROM pragma_table_info(?) WHERE name = ?"
                " COLLATE NOCASE", (name, column)).fetchone():
            raise ValueError(f"layer {name!r} has no column {column!r}")
        keys = self._store.execute(
            "SELECT name, upper(type) FROM pragma_table_info(?) WHERE pk > 0",
            (name,)).fetchall()
        if len(keys) != 1 or keys[0][1] != "INTEGER":
            raise ValueError(f"layer {name!r} has no integer primary key")
        return Layer(name, column, keys[0][0], srs, number)

    def _rows(self, layer: Layer) -> Iterator[Row]:
        with _naming(self._given, f"layer {layer.name!r}: "):
            for fid, blob in self._store.execute(
                    f"SELECT {_quoted(layer.fid)}, {_quoted(layer.column)}"
                    f" FROM {layer.table} ORDER BY 1"):
                if fid is None:
                    raise ValueError(f"layer {layer.name!r} has a feature"
                                     " without a key")
                yield Row(layer, fid, blob)

    def _of_srs(self, value: str) -> set[Any]:
        """The values of an SQL expression for the SRS of the layers."""
        execute = self._store.execute
        with _naming(self._given):
            if not execute("SELECT 1 FROM main.sqlite_master WHERE name ="
                           " 'gpkg_spatial_ref_sys'").fetchone():
                return {None}
            return {execute(f"SELECT max({value})"
                            " FROM main.gpkg_spatial_ref_sys"
                            " WHERE srs_id = ?", (layer.srs,)).fetchone()[0]
                    for layer in self._layers}

    @property
    def area_unit(self) -> str:
        """What areas are in: degrees if each layer says that it is."""
        are = self._of_srs("ltrim(definition) LIKE 'GEOG%'")
        return "square degrees" if are == {1} else "square units"

    def collection(self) -> tuple[str, str]:
        """The frame of a collection of GeoJSON in the CRS of the layers.

        It names none if they have several, or that of GeoJSON.
        """
        codes = self._of_srs(
            "CASE WHEN upper(organization) <> 'NONE' THEN"
            " upper(organization) || '::' || organization_coordsys_id END")
        code = codes.pop() if len(codes) == 1 else None
        return collection_frame(crs_text(f"urn:ogc:def:crs:{code}") if code
                                and code != "EPSG::4326" else "")

    def blocks(self) -> Iterator[Block]:
        for layer in self._layers:
            rows = track(self._rows(layer), f"features of {layer.name}")
            yield from in_blocks(rows, _read, self._others, layer.name)

    def write(self, block: Block, left: Optional[Checked] = None,
              gone: Collection[int] = ()) -> None:
        """Note what is left of a block's features where it differs.

        Features that are gone, and dropped ones, are to be deleted.
        """
        rows = block.polygon_records
        deleted = block.dropped + [rows[place] for place in gone]
        changes: list[tuple[Optional[bytes], int]] = [
            (None, row.fid) for row in deleted]
        if left is not None:
            changes += _changed(rows, left, gone)
        if not changes:
            return
        layer = (block.records + deleted)[0].layer
        with _naming(self._out):
            self._store.executemany(f"INSERT INTO {layer.changes}"
                                    " (blob, fid) VALUES (?, ?)", changes)

    def end(self) -> None:
        """Write what has been noted, and require that it is there then."""
        for layer in self._layers:
            with _naming(self._out, f"layer {layer.name!r}: "):
                self._change(layer)
        for layer in self._layers:
            self._require_changed(layer)

    def _change(self, layer: Layer) -> None:
        """Write the changes of a layer."""
        execute, many = self._store.execute, self._store.executemany
        if not execute(f"SELECT 1 FROM {layer.changes}").fetchone():
            return
        fid, column = _quoted(layer.fid), _quoted(layer.column)
        many(f"UPDATE {layer.table} SET {column} = ? WHERE {fid} = ?",
             track(execute(f"SELECT blob, fid FROM {layer.changes}"
                           " WHERE blob NOT NULL"),
                   f"changes of {layer.name}"))
        many(f"DELETE FROM {layer.table} WHERE {fid} = ?",
             execute(f"SELECT fid FROM {layer.changes} WHERE blob IS NULL"))
        execute("UPDATE main.gpkg_contents SET last_change ="
                " strftime('%Y-%m-%dT%H:%M:%fZ', 'now')"
                " WHERE table_name = ?", (layer.name,))

    def _require_changed(self, layer: Layer) -> None:
        """Raise an error for a row that a trigger has changed."""
        fid, column = (f"row.{_quoted(name)}"
                       for name in (layer.fid, layer.column))
        with _naming(self._out, f"layer {layer.name!r}: "):
            kept = self._store.execute(
                f"SELECT change.fid FROM {layer.changes} AS change"
                f" LEFT JOIN {layer.table} AS row ON {fid} = change.fid"
                f" WHERE ({fid} IS NULL) <> (change.blob IS NULL)"
                f" OR {column} IS NOT change.blob").fetchone()
        if kept:
            raise OSError(f"{self._out}: layer {layer.name!r}, fid {kept[0]}:"
                          " a trigger undid or changed what was written")


def _connected(path: Path, mode: str = "rw") -> sqlite3.Connection:
    """A file, whose statements a signal may end.

    Without the right to write, an IN that is only read would keep the files
    of a write-ahead log.
    """
    with _naming(path):
        store = sqlite3.connect(
            f"{path.absolute().as_uri()}?mode={mode}", uri=True,
            timeout=_PATIENCE, isolation_level=None)
    # Python runs the handlers of signals only where it runs code of its own.
    store.set_progress_handler(lambda: None, _OPERATIONS)
    return store


def _pragma(store: sqlite3.Connection, name: str) -> Any:
    return store.execute(f"PRAGMA {name}").fetchone()[0]


def _bound_growth(store: sqlite3.Connection) -> None:
    """Raise an error where triggers write very much more than there is."""
    times, more = _GROWTH
    most = (times * _pragma(store, "page_count")
            + more // _pragma(store, "page_size"))
    store.execute(f"PRAGMA max_page_count = {most}")


def _bring(source: sqlite3.Connection, goal: sqlite3.Connection) -> None:
    """Make a database a copy of another, in one transaction."""
    def ask(status: int, *_: int) -> None:
        if status == _BUSY:  # for as long as the connection has patience
            raise sqlite3.OperationalError(_LOCKED)

    source.backup(goal, pages=_PAGES, progress=ask)


def _require_exists(path: Path) -> None:
    with open(path, "rb"):
        pass  # an error names what isn't there


class _Identity(NamedTuple):
    """What a file keeps where it is moved."""

    device: int
    number: int

    @classmethod
    def of(cls, path: Path) -> _Identity:
        its = os.stat(path)
        return cls(its.st_dev, its.st_ino)

    def require(self, path: Path) -> None:
        """Raise an error for a file whose path no longer names it.

        In WAL mode, SQLite doesn't ask, and its log would stay beside
        another file.
        """
        try:
            is_there = self == _Identity.of(path)
        except FileNotFoundError:
            is_there = False
        if not is_there:
            raise OSError(f"{path}: it was moved, deleted or replaced"
                          " meanwhile")


def require_closed(out: Path) -> None:
    """Raise an error where the logs of another file are at the new one."""
    for end in ("-wal", "-shm", "-journal"):
        log = Path(os.path.realpath(out) + end)
        if log.exists() and (end != "-journal" or log.stat().st_size):
            raise OSError(f"{out}: {log.name} beside it says that another"
                          " program writes it, or was stopped then")


@contextmanager
def _copied(given: Path, beside: Path,
            out: Path) -> Iterator[tuple[sqlite3.Connection, str]]:
    """A copy of a GeoPackage within a transaction, and IN's journal mode."""
    _require_exists(given)
    with closing(_connected(beside, "rwc")) as store:
        with closing(_connected(given)) as source, _naming(given):
            # Nobody writes while it is read: a backup would begin again.
            source.execute("BEGIN")
            mode: str = _pragma(source, "journal_mode")
            source.execute("SELECT count(*) FROM sqlite_master").fetchone()
            with _naming(out):
                _bring(source, store)
        with _naming(out):
            store.execute("PRAGMA journal_mode = off")
            store.execute("PRAGMA synchronous = off")
            _bound_growth(store)
            store.execute("BEGIN")
        yield store, mode


@contextmanager
def only_read(path: Path, others: str,
              layers: Sequence[str]) -> Iterator[GeoPackage]:
    """A GeoPackage that isn't changed, within a transaction."""
    _require_exists(path)
    with closing(_connected(path)) as store:
        with _naming(path):
            store.execute("BEGIN")
        yield GeoPackage(path, path, store, others, layers)


@contextmanager
def created(given: Path, beside: Path, out: Path, others: str,
            layers: Sequence[str]) -> Iterator[GeoPackage]:
    """A GeoPackage whose copy is to become a new file, or goes to a device."""
    with _copied(given, beside, out) as (store, mode):
        yield GeoPackage(given, out, store, others, layers)
        with _naming(out):
            store.execute("COMMIT")
            store.execute(f"PRAGMA journal_mode = {mode}")


@contextmanager
def replaced(given: Path, beside: Path, out: Path, others: str,
             layers: Sequence[str]) -> Iterator[GeoPackage]:
    """A GeoPackage whose copy SQLite brings into a file at the end.

    So its locks hold, and other programs that have the file open go on.
    """
    identity = _Identity.of(out)
    with closing(_connected(out)) as goal:
        with _naming(out):
            mode = _pragma(goal, "journal_mode")
            size = _pragma(goal, "page_size")
        with _copied(given, beside, out) as (store, _):
            if mode == "wal" and size != _pragma(store, "page_size"):
                raise OSError(f"{out}: its pages have {size} bytes, which"
                              " can't change in WAL mode")
            yield GeoPackage(given, out, store, others, layers)
            with _naming(out):
                store.execute("COMMIT")
                identity.require(out)
                _bring(store, goal)


@contextmanager
def in_place(path: Path, others: str,
            layers: Sequence[str]) -> Iterator[GeoPackage]:
    """A GeoPackage that is changed in place, in one transaction."""
    _require_exists(path)
    identity = _Identity.of(path)
    with closing(_connected(path)) as store:
        with _naming(path):
            # Changed pages that no longer fit lock readers out, or wait in
            # memory while they read; without patience, they don't wait long.
            store.execute(f"PRAGMA cache_size = {-_CACHE}")
            store.execute("BEGIN IMMEDIATE")
            store.execute("PRAGMA busy_timeout = 0")
            _bound_growth(store)
        try:
            yield GeoPackage(path, path, store, others, layers)
            with _naming(path):
                store.execute(f"PRAGMA busy_timeout = {1000 * _PATIENCE:.0f}")
                identity.require(path)
                store.execute("COMMIT")
        finally:
            if store.in_transaction:
                with _naming(path):
                    store.execute("ROLLBACK")

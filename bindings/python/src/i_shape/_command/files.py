"""Files of features: read in pieces, and written whole or not at all."""

from __future__ import annotations

import errno
import io as standard_io
import os
import shutil
import stat
import sys
import tempfile
from contextlib import ExitStack, contextmanager, nullcontext, suppress
from pathlib import Path
from typing import (Any, BinaryIO, ContextManager, Iterator, Optional,
                    Sequence, TextIO, Union)

from .geopackage import (GeoPackage, created, in_place, only_read, replaced,
                         require_closed)
from .text_files import TextPair

LINES, GEOPACKAGE = "GeoJSON lines", "GeoPackage"
FORMATS = {
    ".geojson": "GeoJSON", ".json": "GeoJSON", ".geojsonl": LINES,
    ".geojsons": LINES, ".ndjson": LINES, ".jsonl": LINES, ".wkt": "WKT",
    ".gpkg": GEOPACKAGE}
STANDARD = Path("-")  # standard input or output

Pair = Union[TextPair, GeoPackage]


def format_of(path: Path) -> Optional[str]:
    """The format that the end of a file's name stands for."""
    return LINES if path == STANDARD else FORMATS.get(path.suffix.lower())


def _open(stream: Optional[Any], name: str) -> BinaryIO:
    """The bytes of a standard stream, which may be closed."""
    if stream is None:
        raise OSError(errno.EBADF, os.strerror(errno.EBADF), name)
    file: BinaryIO = stream.buffer
    return file


def _given_bytes(path: Path) -> ContextManager[BinaryIO]:
    if path != STANDARD:
        return open(path, "rb")
    return nullcontext(_open(sys.stdin, "standard input"))


@contextmanager
def _given_text(path: Path) -> Iterator[TextIO]:
    """The text of a file, or of standard input.

    An error names the first byte that isn't UTF-8 by its place in the file.
    The decoder knows its place among the bytes that were read last.
    """
    with _given_bytes(path) as file:
        try:
            yield standard_io.TextIOWrapper(file, "utf-8-sig")
        except UnicodeDecodeError as error:
            bytes_read, at = error.object, error.start
            place = "a byte"
            if file.seekable():
                place = f"byte {file.tell() - len(bytes_read) + at}"
            raise ValueError("it isn't UTF-8: "
                             f"{place} is {bytes_read[at]:#x}") from None


def _take_rights(beside: Path, goal: Path) -> None:
    """Give a file the mode of another, and where one may its owner."""
    try:
        rights = os.stat(goal)
    except FileNotFoundError:
        return
    for owner in (-1, rights.st_uid):
        with suppress(AttributeError, OSError):
            os.chown(beside, owner, rights.st_gid)
    os.chmod(beside, stat.S_IMODE(rights.st_mode))


def _store(path: Path) -> None:
    """Wait until the bytes of a file are on the disk."""
    file = os.open(path, os.O_RDWR)
    try:
        os.fsync(file)
    finally:
        os.close(file)


def _copy(beside: Path, path: Path) -> None:
    """Write a file to a device, a pipe, or standard output."""
    out: ContextManager[BinaryIO]
    if path == STANDARD:
        out = nullcontext(_open(sys.stdout, "standard output"))
    else:
        out = open(path, "wb")
    with open(beside, "rb") as file, out as device:
        shutil.copyfileobj(file, device)
        device.flush()


@contextmanager
def _hidden_folder(parent: Optional[Path], name: str) -> Iterator[Path]:
    """A folder that only the user can look into, and that goes again.

    It is named after the file, for who finds what a killed run has left.
    """
    beginning = f".{name[:50]}.i_shape-"
    folder = tempfile.TemporaryDirectory(None, beginning, parent)
    try:
        yield Path(folder.name)
    finally:
        try:
            folder.cleanup()
        except BaseException:  # as of a signal, which the next one isn't
            shutil.rmtree(folder.name, ignore_errors=True)
            raise


@contextmanager
def replacing(path: Path) -> Iterator[Path]:
    """A path of a new file, which takes the path's place at the end.

    It has the mode of the file that was there. Where something fails, the
    path keeps what it had, and the new file is taken away with its folder,
    which only the user can look into. A device or a pipe stays, and what
    the file has is written to it at the end, as to standard output.
    """
    goal = Path(os.path.realpath(path))
    is_replaced = path != STANDARD and (path.is_file() or not path.exists())
    if path != STANDARD and path.is_dir():
        raise IsADirectoryError(errno.EISDIR, os.strerror(errno.EISDIR),
                                str(path))
    parent = goal.parent if is_replaced else None
    with _hidden_folder(parent, goal.name) as folder:
        beside = folder / goal.name
        yield beside
        if is_replaced:
            _store(beside)
            _take_rights(beside, goal)
            os.replace(beside, goal)
        else:
            _copy(beside, path)


def _link(beside: Path, goal: Path) -> None:
    """Give a new file its name, which no other may have got by now."""
    try:
        os.link(beside, goal)
    except OSError as error:
        if isinstance(error, FileExistsError) or os.path.lexists(goal):
            raise FileExistsError(errno.EEXIST, os.strerror(errno.EEXIST),
                                  str(goal)) from None
        os.replace(beside, goal)  # the file system has no links


@contextmanager
def _making(path: Path) -> Iterator[Path]:
    """A path of a new file, which takes a free path at the end.

    Where something fails, nothing is there; where another program has made a
    file there by then, that one stays, and that is an error.
    """
    require_closed(path)
    goal = Path(os.path.realpath(path))
    with _hidden_folder(goal.parent, goal.name) as folder:
        beside = folder / goal.name
        yield beside
        _store(beside)
        require_closed(path)
        _link(beside, goal)


def _package(given: Path, out: Path, others: str, layers: Sequence[str],
             last: ExitStack) -> GeoPackage:
    """A GeoPackage, changed in place, or into the place of a file."""
    words = others, layers
    if given.exists() and out.exists() and given.samefile(out):
        if os.path.realpath(given) != os.path.realpath(out):
            raise OSError(f"{out}: it is a hard link to {given}")
        return last.enter_context(in_place(out, *words))
    if out.is_file():
        goal = Path(os.path.realpath(out))
        folder = last.enter_context(_hidden_folder(goal.parent, goal.name))
        return last.enter_context(
            replaced(given, folder / goal.name, out, *words))
    placed = replacing if out.exists() else _making
    beside = last.enter_context(placed(out))
    return last.enter_context(created(given, beside, out, *words))


@contextmanager
def opened(given: Path, out: Path, others: str, layers: Sequence[str],
           places: Optional[int] = None) -> Iterator[Pair]:
    """What is read and what is written, which takes its place at the end."""
    given_format, out_format = format_of(given), format_of(out)
    assert given_format and out_format
    with ExitStack() as last:
        if given_format == GEOPACKAGE:
            yield _package(given, out, others, layers, last)
            return
        beside = last.enter_context(replacing(out))
        text = last.enter_context(_given_text(given))
        file = last.enter_context(open(beside, "w", encoding="utf-8"))
        yield TextPair(text, given_format, file, out_format, others, places)


@contextmanager
def opened_to_read(given: Path, others: str,
                   layers: Sequence[str]) -> Iterator[Pair]:
    """What is read, where nothing is written."""
    given_format = format_of(given)
    assert given_format
    if given_format == GEOPACKAGE:
        with only_read(given, others, layers) as package:
            yield package
        return
    with _given_text(given) as text:
        yield TextPair(text, given_format, standard_io.StringIO(),
                       given_format, others, None)

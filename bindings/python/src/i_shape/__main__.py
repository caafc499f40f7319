"""Cleans a file's polygons: ``python -m i_shape simplify IN OUT --step S``.

What is read are files of GeoJSON or WKT, or GeoPackages, some features at a
time; their floats are rounded onto a grid, cleaned there, and brought back.
Or they are only tested: ``python -m i_shape check IN --step S``.
"""

from __future__ import annotations

import argparse
import errno
import gc
import importlib.util
import os
import re
import signal
import sys
from contextlib import ExitStack, suppress
from io import TextIOWrapper
from pathlib import Path
from typing import Any, Iterable, NoReturn, Optional, Sequence

from ._command import check, decimals, dedup, files, plot, report
from ._command.report import Told
from ._command.tally import Tally
from ._library import version
from .io import Grid
from .io._cleaners import Cleaned, clean, forms
from .io._features import Checked
from .io._grid import floats_of, rounded_features

_CLEANERS = ("simplify", "despike")
_PICTURES = ("pdf", "png", "svg")
_SHAPEFILE = (
    "; clean a shapefile as a GeoPackage: ogr2ogr x.gpkg IN.shp && i_shape"
    " despike x.gpkg x.gpkg --step S && ogr2ogr OUT.shp x.gpkg (GeoJSONSeq"
    " would turn its coordinates into degrees)")
_HANGUP = getattr(signal, "SIGHUP", None)  # which Windows hasn't
_signals: list[int] = []  # the one that ends the program, if any
_NO_READER = 128 + 13  # what a shell has for a program that SIGPIPE ends


def _file(text: str) -> Path:
    path = Path(text)
    if files.format_of(path) is None:
        way = _SHAPEFILE if path.suffix.lower() in (".shp", ".shz") else ""
        raise argparse.ArgumentTypeError(
            f"{text} doesn't end in one of {', '.join(files.FORMATS)}{way}")
    return path


def _picture(text: str) -> Path:
    path = Path(text)
    if path.suffix[1:].lower() not in _PICTURES:
        raise argparse.ArgumentTypeError(
            f"{text} doesn't end in one of .{', .'.join(_PICTURES)}")
    if importlib.util.find_spec("matplotlib") is None:
        raise argparse.ArgumentTypeError("there is no matplotlib")
    return path


def _json(text: str) -> Path:
    path = Path(text)
    if files.format_of(path) != "GeoJSON":
        raise argparse.ArgumentTypeError(
            f"{text} doesn't end in one of .geojson, .json")
    return path


def _parser() -> argparse.ArgumentParser:
    is_script = Path(sys.argv[0]).stem == "i_shape"
    parser = argparse.ArgumentParser(
        prog="i_shape" if is_script else "python -m i_shape",
        description="Cleans the polygons of a file on a grid, or tests"
        " whether they are valid. Properties stay. OUT is written whole or"
        " not at all.")
    # -1e6 is a number too, and no option begins with a digit.
    parser._negative_number_matcher = re.compile(r"-\.?\d")
    parser.add_argument(
        "call", choices=[*_CLEANERS, "canonical", "dedup", "check"],
        help="what is removed: points on straight edges, repeated points and"
        " spikes; repeated points and spikes alone; or the first, with each"
        " feature in its canonical form; or features whose form is that of"
        " one before, and nothing else; check prints a line for each feature"
        " that isn't valid, takes no OUT, and has status 1 if there is one")
    parser.add_argument("given", metavar="IN", type=_file,
                        help="a file of GeoJSON (.geojson, .json), of a"
                        " feature of it a line (.geojsonl, .geojsons,"
                        " .ndjson, .jsonl, or - for standard input), of WKT"
                        " with a geometry a line (.wkt), or a GeoPackage"
                        " (.gpkg)")
    parser.add_argument("out", metavar="OUT", type=_file, nargs="?",
                        help="the file to write; it may be IN, and - is"
                        " standard output")
    parser.add_argument("--step", type=float, required=True,
                        help="how far neighbours on the grid are apart, in"
                        " the unit of the coordinates")
    parser.add_argument("--origin", type=float, nargs=2, default=(0.0, 0.0),
                        metavar=("X", "Y"), help="where (0, 0) of the grid"
                        " lies; 0 0 unless told")
    parser.add_argument("--others", choices=("error", "keep", "drop"),
                        default="error", help="what becomes of a feature"
                        " that is no polygon, or has more than two"
                        " coordinates a point; one without a geometry stays"
                        " but with drop")
    parser.add_argument("--collapsed", choices=("error", "empty", "drop"),
                        default="error", help="what becomes of a feature of"
                        " which nothing is left, as where the step is in"
                        " another unit than the coordinates")
    parser.add_argument("--layer", action="append", default=[],
                        metavar="NAME", help="a layer of the GeoPackage, and"
                        " no other; it may be given again")
    parser.add_argument("--oriented", action="store_true",
                        help="canonical and dedup: a ring that turns the"
                        " other way is another one")
    parser.add_argument("--report", action="store_true",
                        help="print what was removed and what collapsed, and"
                        " the areas before and after, or which features went"
                        " and which they equal")
    parser.add_argument("--touching", action="store_true",
                        help="check: rings may touch at single points, as for"
                        " OGC, shapely and PostGIS")
    parser.add_argument("--to", metavar="FILE", type=_json,
                        help="check: write points of the faults to a file of"
                        " GeoJSON, in the coordinates of IN, with the fid of"
                        " the feature and the reason")
    parser.add_argument("--plot", metavar="FILE", type=_picture,
                        help="draw the rings before and after, by"
                        " matplotlib: .svg, .png or .pdf")
    parser.add_argument("--version", action="version",
                        version=f"i_shape {version()}")
    return parser


def _are_same(one: Path, other: Path) -> bool:
    """Whether two paths name one file that is there."""
    return one.exists() and other.exists() and one.samefile(other)


def _check_fault(options: argparse.Namespace) -> Optional[str]:
    """What isn't for check in the words."""
    if options.out:
        return "check writes no OUT: --to FILE is for points of the faults"
    if options.to and _are_same(options.given, options.to):
        return "--to FILE is IN, which stays"
    is_given = {"--report": options.report, "--plot": options.plot,
                "--oriented": options.oriented,
                "--collapsed": options.collapsed != "error"}
    others = [name for name, value in is_given.items() if value]
    return f"{others[0]} isn't for check" if others else None


def _fault(options: argparse.Namespace) -> Optional[str]:
    """What doesn't fit together in the words."""
    is_package = files.format_of(options.given) == files.GEOPACKAGE
    if options.layer and not is_package:
        return "--layer is for GeoPackages"
    if options.call == "check":
        return _check_fault(options)
    if options.to:
        return "--to is for check"
    if options.touching:
        return "--touching is for check"
    if not options.out:
        return "the following arguments are required: OUT"
    given, out = map(files.format_of, (options.given, options.out))
    if (out == files.GEOPACKAGE) != is_package:
        return "IN and OUT are both GeoPackages or neither: ogr2ogr converts"
    if options.others == "keep" and (given == "WKT") != (out == "WKT"):
        return "--others keep doesn't turn GeoJSON into WKT, nor WKT into it"
    if options.oriented and options.call not in ("canonical", "dedup"):
        return "--oriented is for canonical and dedup"
    if options.call == "dedup":
        if options.plot:
            return "--plot isn't for dedup"
        if options.collapsed != "error":
            return "--collapsed isn't for dedup, where what collapses stays"
    return None


def _options(words: Optional[Sequence[str]]) -> argparse.Namespace:
    parser = _parser()
    # Else an OUT behind an option would be none, since it may be left out.
    options = parser.parse_intermixed_args(words)
    try:
        x, y = options.origin
        options.grid = Grid(options.step, (x, y))
    except ValueError as error:
        parser.error(str(error))
    fault = _fault(options)
    if fault:
        parser.error(fault)
    return options


def _cleaned(whole: Checked, options: argparse.Namespace) -> Cleaned:
    if options.call == "canonical":
        return forms(whole, options.oriented)
    return clean(whole, options.call)


def _clean(pair: files.Pair, options: argparse.Namespace,
           picture: plot.Picture) -> Told:
    """Clean the features, and return the report."""
    unit = pair.area_unit if options.report else ""
    told, tally = report.Cleaning(options.grid, unit), Tally()
    for block in pair.blocks():
        with block.naming():
            whole = rounded_features(block.features, options.grid)
        left, gone = _cleaned(whole, options)
        with block.naming():
            answer = floats_of(left, options.grid)
        collapsed = tally.add(block, answer)
        is_dropped = options.collapsed == "drop"
        pair.write(block, answer, set(collapsed) if is_dropped else set())
        if options.report:
            told.add(block, whole, left, gone)
        if options.plot:
            picture.add(block, answer)
    if options.collapsed == "error":
        tally.require_uncollapsed()
    return Told(told.lines(), tally.line())


def _print(lines: Iterable[str], is_beside: bool) -> None:
    """Print the report, on standard error beside an OUT on output."""
    stream = sys.stderr if is_beside else sys.stdout
    if stream is None:  # as where it was closed from the start
        raise OSError(errno.EBADF, os.strerror(errno.EBADF),
                      "standard output")
    for line in lines:
        print(line, file=stream)
    stream.flush()


def _check(options: argparse.Namespace) -> Told:
    """Test the features, and return the report of those with faults."""
    with ExitStack() as last:
        pair = last.enter_context(files.opened_to_read(
            options.given, options.others, options.layer))
        beside = options.to and last.enter_context(
            files.replacing(options.to))
        told = check.run(pair, options.grid, options.touching, beside)
        _print(told.lines, False)
    return told


def _run(options: argparse.Namespace) -> Told:
    """Do what the words ask for, and return what is said at the end."""
    if options.call == "check":
        return _check(options)
    picture = plot.Picture()
    with files.opened(
            options.given, options.out, options.others, options.layer,
            decimals.places_of(options.grid)) as pair, ExitStack() as last:
        if options.call == "dedup":
            told = dedup.run(pair, options.grid, options.oriented)
        else:
            told = _clean(pair, options, picture)
        pair.end()
        if options.plot:
            beside = last.enter_context(files.replacing(options.plot))
            picture.draw(beside, options.plot.suffix[1:].lower())
        if options.report:
            _print(told.lines, options.out == files.STANDARD)
    return told


def main(words: Optional[Sequence[str]] = None) -> int:
    """Run the command, and return its status.

    It is 0 where all went well, 1 after an error, which a line on standard
    error names, or where check finds a feature that isn't valid, 130 where
    it was interrupted, and 141 where nobody reads a pipe any more. Words
    that aren't understood end the program with 2. OUT is replaced last, and
    then a line on standard error says how many features changed, or aren't
    valid.
    """
    options = _options(words)
    try:
        told = _run(options)
    except BrokenPipeError:
        return _NO_READER
    except OSError as error:
        # SQLite makes an error of its own of what ends a function of ours.
        return 128 + _signals[0] if _signals else _told(str(error))
    except ValueError as error:
        return _told(f"{options.given}: {error}")
    except MemoryError:
        return _told(f"{options.given}: there is not enough memory")
    except KeyboardInterrupt:
        return 130
    return _told(told.last, told.status)


def _told(text: str, status: int = 1) -> int:
    """Print it where that can be read, and return the status."""
    if sys.stderr is not None:  # as where it was closed from the start
        with suppress(OSError):
            print(f"i_shape: {text}", file=sys.stderr)
    return status


def _stop(number: int, _: Any) -> NoReturn:
    """End after a signal by way of what takes new files away.

    Another signal doesn't stop that.
    """
    _signals.append(number)
    for each in filter(None, (signal.SIGINT, signal.SIGTERM, _HANGUP)):
        signal.signal(each, lambda *_: None)
    sys.exit(128 + number)


def _forget_unwritten() -> None:
    """Drop what couldn't be written.

    Else Python would try once more at its end, and change the status.
    """
    for stream in (sys.stdout, sys.stderr):
        if stream is None:  # as where it was closed from the start
            continue
        try:
            stream.flush()
        except OSError:
            os.dup2(os.open(os.devnull, os.O_WRONLY), stream.fileno())


def run() -> NoReturn:
    """Run the command as a program does, which signals may end."""
    gc.disable()  # many lists are made, and no cycles
    if isinstance(sys.stdout, TextIOWrapper):
        sys.stdout.reconfigure(errors="backslashreplace")  # names of layers
    if signal.getsignal(signal.SIGINT) is signal.default_int_handler:
        signal.signal(signal.SIGINT, _stop)
    signal.signal(signal.SIGTERM, _stop)
    if _HANGUP and signal.getsignal(_HANGUP) is signal.SIG_DFL:  # not of nohup
        signal.signal(_HANGUP, _stop)
    status = main()
    _forget_unwritten()
    sys.exit(status)


if __name__ == "__main__":
    run()

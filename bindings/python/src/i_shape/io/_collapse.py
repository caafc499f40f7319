"""Features that collapse: something was there, and nothing is left."""

from __future__ import annotations

from .._library import Array
from ._builder import short
from ._features import FeatureError, Features


def _are_full(features: Features) -> Array:
    """Which features have points."""
    (_, rings, parts), offsets, _ = features
    ends = rings[parts[offsets]]
    are_full: Array = ends[:-1] < ends[1:]
    return are_full


def are_collapsed(before: Features, after: Features) -> Array:
    """Which features have no points any more."""
    collapsed: Array = _are_full(before) & ~_are_full(after)
    return collapsed


def collapse_text(count: int, total: int, what: str, words: str) -> str:
    """What is said of the first of so many that collapse.

    The words are those that allow it.
    """
    others = f"{count - 1} other{'s' if count > 2 else ''}"
    also = f", nor of {others} of {total} {what}" if count > 1 else ""
    return (f"nothing is left of it{also}; is the step in the unit of the"
            f" coordinates? To allow this, use {words}")


def check_collapsed(collapsed: str) -> None:
    """Test the word that says what becomes of features that collapse."""
    if collapsed not in ("raise", "empty"):
        raise ValueError(f"collapsed is {short(collapsed)}, neither raise nor"
                         " empty")


def require_uncollapsed(before: Features, after: Features,
                        what: str = "features") -> None:
    """Raise an error that names the first of them that collapses."""
    collapsed = are_collapsed(before, after)
    count = int(collapsed.sum())
    if count:
        text = collapse_text(count, len(collapsed), what, "collapsed='empty'")
        raise FeatureError(text, int(collapsed.argmax()))

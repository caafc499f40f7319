"""How many features cleaning changes, and of how many it leaves nothing."""

from __future__ import annotations

import numpy as np

from .._library import Array
from ..io import Features
from ..io._collapse import are_collapsed, collapse_text
from .blocks import Block


def _counts(features: Features) -> Array:
    """The polygons, the rings and the points of each feature."""
    (_, rings, parts), offsets, _ = features
    return np.diff([offsets, parts[offsets], rings[parts[offsets]]])


def _rows(features: Features, are_asked: Array, counts: Array) -> Array:
    """The points of some features, and which of them begin a ring."""
    points, rings, _ = features.polygons
    rows = np.zeros((len(points), 3))
    rows[:, :2] = points
    rows[rings[:-1][rings[:-1] < rings[1:]], 2] = 1
    asked: Array = rows[np.repeat(are_asked, counts)]
    return asked


def _are_changed(before: Features, after: Features) -> Array:
    """Which features have other coordinates, or as many in other rings."""
    counts, others = _counts(before), _counts(after)
    changed: Array = (counts != others).any(axis=0)
    alike = ~changed
    differ = (_rows(before, alike, counts[-1])
              != _rows(after, alike, others[-1])).any(axis=1)
    changed[np.repeat(np.flatnonzero(alike), counts[-1][alike])[differ]] = True
    return changed


class Tally:
    """The features, those that change and those that collapse."""

    def __init__(self) -> None:
        self._features = self._changed = self._collapsed = 0
        self._first = ""

    def add(self, block: Block, answer: Features) -> list[int]:
        """Add features as given and as cleaned; which of them collapse."""
        collapsed: list[int] = np.flatnonzero(
            are_collapsed(block.features, answer)).tolist()
        if collapsed and not self._collapsed:
            self._first = block.polygon_records[collapsed[0]].place
        self._features += len(answer.are_multi)
        self._changed += int(_are_changed(block.features, answer).sum())
        self._collapsed += len(collapsed)
        return collapsed

    def require_uncollapsed(self) -> None:
        """Raise an error that names the first feature that collapses."""
        if self._collapsed:
            text = collapse_text(self._collapsed, self._features, "features",
                                 "--collapsed empty or --collapsed drop")
            raise ValueError(f"{self._first}: {text}")

    def line(self) -> str:
        """What is said of them at the end."""
        return (f"{self._changed} of {self._features} features changed,"
                f" {self._collapsed} collapsed")

"""A picture of features before and after, by matplotlib."""

from __future__ import annotations

from pathlib import Path
from typing import Any, NamedTuple, Sequence

import numpy as np

from .._library import Array
from ..io import Features, close_rings
from .blocks import Block

_MOST = 50_000  # points, as given, that are drawn in one picture
_PANELS = 3  # in a row and in a column


class _Shown(NamedTuple):
    """The closed rings of a feature before and after, and what it loses."""

    name: str
    before: list[Array]
    after: list[Array]
    lost: int


def _ends(features: Features) -> Array:
    """Where the rings of each feature begin and end."""
    return features.polygons.polygon_offsets[features.feature_offsets]


def _point_counts(features: Features) -> Array:
    return np.diff(features.polygons.ring_offsets[_ends(features)])


def _rings(features: Features, place: int) -> list[Array]:
    """The rings of a feature, closed."""
    polygons = features.feature_offsets[place:place + 2]
    first, last = features.polygons.polygon_offsets[polygons]
    rings = close_rings(features.polygons.points,
                        features.polygons.ring_offsets[first:last + 1])
    ends = rings.offsets.tolist()
    return [rings.points[start:end] for start, end in zip(ends, ends[1:])]


def _draw(axes: Any, shown: list[_Shown], labels: Sequence[str]) -> None:
    """Draw the rings given, and above them those that are left."""
    from matplotlib.collections import LineCollection
    for name, label, colour, width in zip(
            ("before", "after"), labels, ("tab:red", "black"), (3, 1)):
        lines = [ring for one in shown for ring in getattr(one, name)]
        points = np.concatenate(lines or [np.empty((0, 2))])
        axes.add_collection(LineCollection(
            lines, colors=colour, linewidths=width, alpha=0.7))
        axes.plot(points[:, 0], points[:, 1], ".", color=colour,
                  markersize=2 * width + 2, label=label)
    axes.set_aspect("equal", "datalim")
    axes.autoscale_view()


class Picture:
    """All features before and after, or of many those that lose most."""

    def __init__(self) -> None:
        self._all: list[_Shown] = []
        self._losers: list[_Shown] = []
        self._features = 0
        self._points = np.zeros(2, np.int64)

    def add(self, block: Block, left: Features) -> None:
        """Add features as given and as they are left."""
        given, records = block.features, block.polygon_records
        before, after = _point_counts(given), _point_counts(left)
        self._features += len(before)
        self._points += (before.sum(), after.sum())
        lost = before - after

        def shown(place: int) -> _Shown:
            return _Shown(records[place].name, _rings(given, place),
                          _rings(left, place), int(lost[place]))

        if self._points[0] <= _MOST:
            self._all += map(shown, range(len(before)))
        most = np.argsort(-lost, kind="stable")[:_PANELS ** 2]
        self._losers += [shown(place) for place in most.tolist()
                         if lost[place] > 0]
        self._losers.sort(key=lambda one: -one.lost)
        del self._losers[_PANELS ** 2:]

    def draw(self, path: Path, kind: str) -> None:
        """Draw the features, or a panel of each that loses most."""
        from matplotlib.figure import Figure
        figure: Any = Figure(figsize=(8, 8), layout="tight")
        before, after = self._points.tolist()
        counts = f"before: {before} points", f"after: {after} points"
        if before <= _MOST:
            axes = figure.subplots()
            _draw(axes, self._all, counts)
            axes.legend(loc="best")
        else:
            figure.suptitle(f"{', '.join(counts)}\nthe {len(self._losers)} of"
                            f" {self._features} features that lose most")
            panels = figure.subplots(_PANELS, _PANELS).ravel()
            for axes, one in zip(panels, self._losers):
                _draw(axes, [one], ("", ""))
                # What is between dollars would be a formula.
                name = one.name.replace("$", r"\$")
                axes.set_title(f"{name}: {one.lost} fewer", fontsize=8)
                axes.tick_params(labelsize=5)
                axes.ticklabel_format(useOffset=False)
                axes.locator_params(nbins=4)
            for axes in panels[len(self._losers):]:
                axes.set_axis_off()
        figure.savefig(path, format=kind)

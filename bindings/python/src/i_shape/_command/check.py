"""Which features aren't valid, and why."""

from __future__ import annotations

import json
from pathlib import Path
from typing import Any, Iterator, Optional

from ..io import FeatureFault, Grid
from ..io._grid import rounded_features
from ..io._validity import faults_of
from .files import Pair
from .report import Told


def _points(group: str, fid: int,
            fault: FeatureFault) -> Iterator[dict[str, Any]]:
    """A feature of GeoJSON for each point of a fault, or one without any."""
    properties = {**({"layer": group} if group else {}), "fid": fid,
                  "reason": str(fault)}
    for point in fault.points or [None]:
        geometry = point and {"type": "Point", "coordinates": point}
        yield {"type": "Feature", "properties": properties,
               "geometry": geometry}


def _write(points: list[dict[str, Any]], frame: tuple[str, str],
           to: Path) -> None:
    head, tail = frame
    # The point where edges meet may overflow on the way back to floats.
    lines = ",\n".join(json.dumps(one, allow_nan=False) for one in points)
    to.write_text(f"{head}{lines}{tail}", encoding="utf-8")


def run(pair: Pair, grid: Grid, touching: bool, to: Optional[Path]) -> Told:
    """Return a line for each feature that isn't valid.

    Rings may touch or not. If there is a path, the points of the faults are
    written to it.
    """
    count = 0
    lines: list[str] = []
    points: list[dict[str, Any]] = []
    for block in pair.blocks():
        with block.naming():
            whole = rounded_features(block.features, grid)
        count += len(whole.are_multi)
        faults = faults_of(block.features, whole, grid, touching)
        for record, fault in zip(block.polygon_records, faults):
            if fault is not None:
                lines.append(f"{record.place}: {fault}")
                points += _points(block.group, record.fid, fault)
    if to:
        _write(points, pair.collection(), to)
    return Told(lines, f"{len(lines)} of {count} features invalid",
                1 if lines else 0)

"""Equal features: the first of each stays."""

from __future__ import annotations

import hashlib

from ..io import Grid
from ..io._cleaners import keys_of
from ..io._grid import rounded_features
from .files import Pair
from .report import Told, kept_text


def run(pair: Pair, grid: Grid, oriented: bool) -> Told:
    """Leave out features that equal one before, and return the report."""
    firsts: dict[tuple[str, bytes], str] = {}
    count = kept = 0
    gone: list[str] = []
    for block in pair.blocks():
        with block.naming():
            whole = rounded_features(block.features, grid)
        its: set[int] = set()
        keys = keys_of(whole, oriented)
        for place, (key, record) in enumerate(
                zip(keys, block.polygon_records)):
            # A digest takes less memory than a key.
            digest = block.group, hashlib.sha256(key).digest()
            first = firsts.setdefault(digest, record.name)
            if key and first != record.name:
                its.add(place)
                gone.append(f"gone: {record.name}, equal to {first}")
        count += len(keys)
        kept += block.kept
        pair.write(block, gone=its)
    return Told([f"features with polygons: {count} before,"
                 f" {count - len(gone)} after",
                 *([kept_text(kept)] if kept else []), *gone],
                f"{len(gone)} of {count} features dropped")

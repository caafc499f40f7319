#!/usr/bin/env python3
"""Computes digests of polygons for a server without the extension.

It reads rows of an identifier and a geometry, as PostgreSQL's COPY writes
them, and writes rows of the identifier and what i_shape_digest(geom, step)
of the extension returns, as COPY reads them:

    psql -c '\\copy (SELECT id, geom FROM parcels) TO STDOUT' \\
        | digests.py --step 1e-7 | psql -c '\\copy digests FROM STDIN'
"""

from __future__ import annotations

import argparse
import hashlib
import sys
from itertools import islice
from typing import Iterator

from i_shape import io


def digests(geometries: list[str], step: float) -> Iterator[str]:
    """The digest of each geometry; both are as COPY has them."""
    features = io.from_wkb([None if it == r"\N" else bytes.fromhex(it) for it in geometries])
    whole = io.features_to_grid(features, io.Grid(step))
    for key in io.feature_keys(whole):
        yield rf"\\x{hashlib.sha256(key).hexdigest()}" if key else r"\N"


def main() -> None:
    words = argparse.ArgumentParser(description=(__doc__ or "").split("\n")[0])
    words.add_argument("--step", type=float, required=True,
                       help="the step of the grid, in the geometries' unit")
    step = words.parse_args().step
    rows = (line.rstrip("\n").split("\t") for line in sys.stdin)
    while some := list(islice(rows, 10_000)):
        try:
            found = list(digests([geometry for _, geometry in some], step))
        except io.FeatureError as error:
            sys.exit(f"the row {some[error.feature or 0][0]}: {error}")
        for (identifier, _), digest in zip(some, found):
            print(identifier, digest, sep="\t")


if __name__ == "__main__":
    main()

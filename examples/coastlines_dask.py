#!/usr/bin/env python3
"""Cleans the coastlines of the world in worker processes of Dask.

The rings are divided by their offsets, each worker cleans a part by one batch
call, and the parts that come back are joined: the arrays of one call on all
the rings, byte by byte. It needs distributed (Debian's python3-distributed),
and the data that coastlines.py names.

    coastlines_dask.py [--workers N] [FILE]
"""

from __future__ import annotations

import argparse
import tempfile

import numpy as np
from distributed import Client, LocalCluster

import coastlines
import i_shape


def clean(client: Client, points: np.ndarray, offsets: np.ndarray,
          parts: int) -> i_shape.Rings:
    """What simplify_rings returns, by so many parts of about equal size."""
    workers = list(client.scheduler_info()["workers"])
    goals = np.linspace(offsets[0], offsets[-1], parts + 1)[1:-1]
    cuts = [0, *np.searchsorted(offsets, goals), len(offsets) - 1]
    cleaned = []
    for part, (first, last) in enumerate(zip(cuts, cuts[1:])):
        its_offsets = offsets[first:last + 1]
        its_points = points[its_offsets[0]:its_offsets[-1]]
        place = [workers[part % len(workers)]]
        given = client.scatter([its_points, its_offsets - its_offsets[0]],
                               workers=place, hash=False)
        # The workers need the package i_shape, and nothing of this file.
        cleaned.append(client.submit(i_shape.simplify_rings, *given,
                                     workers=place, pure=False))
    left = client.gather(cleaned)
    # The offsets of a part are raised by the points before it.
    before = np.cumsum([0] + [len(part.points) for part in left])
    raised = [part.offsets[1:] + count for part, count in zip(left, before)]
    return i_shape.Rings(np.concatenate([part.points for part in left]),
                         np.concatenate([[0], *raised]))


def are_same(left: i_shape.Rings, right: i_shape.Rings) -> bool:
    """Whether both hold the same bytes."""
    return all(one.dtype == other.dtype and one.shape == other.shape
               and one.tobytes() == other.tobytes()
               for one, other in zip(left, right))


def main() -> None:
    words = argparse.ArgumentParser(
        description="Cleans the coastlines of the world in workers of Dask.")
    words.add_argument("--workers", type=int, default=2)
    words.add_argument("file", nargs="?", default=coastlines.FILE)
    given = words.parse_args()
    shores = coastlines.rings(given.file)
    offsets = np.concatenate([[0], np.cumsum([len(ring) for ring in shores])])
    all_points = np.concatenate(shores)
    print(f"{len(shores)} rings of {len(all_points)} points")
    print(f"grid   points  ms: one call, {given.workers} workers")
    with tempfile.TemporaryDirectory() as folder, LocalCluster(
            n_workers=given.workers, threads_per_worker=1,
            dashboard_address=None, local_directory=folder) as cluster, \
            Client(cluster) as client:
        for grid in coastlines.GRIDS:
            points = (all_points // grid).astype(np.int32)
            one, alone = coastlines.best(
                lambda: i_shape.simplify_rings(points, offsets))
            many, parted = coastlines.best(
                lambda: clean(client, points, offsets, given.workers))
            assert are_same(one, many)
            print(f"{grid:4} {len(one.points):8} {alone * 1e3:13.2f},"
                  f" {parted * 1e3:.1f}")


if __name__ == "__main__":
    main()

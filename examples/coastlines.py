#!/usr/bin/env python3
"""Cleans the coastlines of the world in one batch call.

The data are GSHHG's shorelines as Debian's gmt-gshhg-low has them, read by
ncdump of netcdf-bin. A file keeps each shoreline in parts that end at the
borders of square bins; they are joined to rings here. The unit is the
65535th part of a bin's side. Snapped to a coarser grid, rings lose points and
small islands collapse.

    coastlines.py [--threads N] [FILE]
"""

from __future__ import annotations

import argparse
import re
import subprocess
import time

import numpy as np

import i_shape

FILE = "/usr/share/gmt-gshhg/binned_GSHHS_i.nc"
SIDE = 65535
GRIDS = (1, 16, 64, 512)


def read(path: str, *names: str) -> list[np.ndarray]:
    """Arrays of the file, by their names."""
    text = subprocess.run(["ncdump", "-v", ",".join(names), path], check=True,
                          capture_output=True, text=True).stdout
    text = text[text.index("\ndata:"):].replace("_,", "-32767,")
    return [np.array(re.search(rf"\n {name} = ([^;]*);", text)[1].split(","),
                     np.int64) for name in names]


def shores(path: str) -> list[tuple[int, np.ndarray]]:
    """The shorelines of a file, each without its first point at the end, and
    after the number that it has in the file."""
    columns, rows = (int(number[0]) for number in read(
        path, "N_bins_in_360_longitude_range",
        "N_bins_in_180_degree_latitude_range"))
    counts, firsts, numbers, parts, x, y = read(
        path, "Embedded_npts_levels_exit_entry_for_a_segment",
        "Id_of_first_point_in_a_segment", "Id_of_GSHHS_ID",
        "N_segments_in_a_bin", "Relative_longitude_from_SW_corner_of_bin",
        "Relative_latitude_from_SW_corner_of_bin")
    bins = np.repeat(np.arange(len(parts)), parts)
    around = columns * SIDE
    whole, begins = [], {}
    for place, first, count, shore in zip(bins, firsts, counts >> 9,
                                          numbers.tolist()):
        row, column = divmod(int(place), columns)
        part = np.stack([x[first:first + count], y[first:first + count]], 1)
        part = (part & 0xFFFF) + [column * SIDE, (rows - 1 - row) * SIDE]
        if (part[0] == part[-1]).all():
            whole.append((shore, part[:-1]))
        else:
            begins[shore, part[0, 0] % around, part[0, 1]] = part
    while begins:
        (shore, *_), part = begins.popitem()
        joined = [part[:-1]]
        end = part[-1]
        while (key := (shore, end[0] % around, end[1])) in begins:
            part = begins.pop(key)
            # A shore that goes on beyond 360 degrees isn't torn there.
            part = part + [end[0] - part[0, 0], 0]
            joined.append(part[:-1])
            end = part[-1]
        whole.append((shore, np.concatenate(joined)))
    return whole


def rings(path: str) -> list[np.ndarray]:
    """The shorelines of a file, in no certain order."""
    return [ring for _, ring in shores(path)]


def best(call, times: int = 7):
    """What the call returns, and the least time that it took."""
    spent = []
    for _ in range(times):
        start = time.perf_counter()
        answer = call()
        spent.append(time.perf_counter() - start)
    return answer, min(spent)


def main() -> None:
    words = argparse.ArgumentParser(
        description="Cleans the coastlines of the world in one batch call.")
    words.add_argument("--threads", type=int, default=1)
    words.add_argument("file", nargs="?", default=FILE)
    given = words.parse_args()
    shores = rings(given.file)
    offsets = np.concatenate([[0], np.cumsum([len(ring) for ring in shores])])
    all_points = np.concatenate(shores)
    print(f"{len(shores)} rings of {len(all_points)} points")
    print("grid    rings   points      ms  million points a second:"
          " batch, a call a ring")
    for grid in GRIDS:
        points = (all_points // grid).astype(np.int32)
        left, spent = best(lambda: i_shape.simplify_rings(
            points, offsets, threads=given.threads))
        each, by_ring = best(lambda: [
            i_shape.simplify(points[start:end])
            for start, end in zip(offsets, offsets[1:])], 3)
        kept = [ring for ring in each if ring is not None]
        assert np.array_equal(np.concatenate(kept), left.points)
        print(f"{grid:4} {len(kept):8} {len(left.points):8}"
              f" {spent * 1e3:7.2f} {len(points) / spent / 1e6:24.1f},"
              f" {len(points) / by_ring / 1e6:.1f}")


if __name__ == "__main__":
    main()

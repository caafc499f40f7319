#!/usr/bin/env python3
"""Writes shorelines of the world, a ring a line: of each number of edges the
nearest, without repeated points.

    shorelines.py EDGES ..

The data are GSHHG's in full resolution, as Debian's gmt-gshhg-full has them;
examples/coastlines.py says how they are read.
"""

import sys
from pathlib import Path

import numpy as np

sys.path.insert(0, str(Path(__file__).parents[2] / "examples"))
import coastlines  # noqa: E402

FILE = "/usr/share/gmt-gshhg/binned_GSHHS_f.nc"

shores = [ring[(ring != np.roll(ring, 1, 0)).any(1)]
          for ring in coastlines.rings(FILE)]
lengths = np.array([max(len(ring), 1) for ring in shores])
for edges in map(int, sys.argv[1:]):
    nearest = np.abs(np.log(lengths / edges)).argmin()
    print(*shores[nearest].ravel())

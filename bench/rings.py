#!/usr/bin/env python3
"""Writes the coastlines of the world at some grids, a ring a line.

    rings.py FOLDER GRID ..

A file of the folder has the name of its grid. examples/coastlines.py says
where the data are from.
"""

import sys
from pathlib import Path

sys.path.insert(0, str(Path(__file__).parents[1] / "examples"))
import coastlines  # noqa: E402

folder, *grids = sys.argv[1:]
shores = coastlines.rings(coastlines.FILE)
for grid in grids:
    with open(f"{folder}/{grid}", "w") as text:
        for ring in shores:
            print(*(ring // int(grid)).ravel(), file=text)

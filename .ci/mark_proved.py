#!/usr/bin/env python3
"""After an `rt ci` that passed at the top of this checkout: marks the libraries that it built as built from these sources, so that `rt lib`, `rt test` and
.ci/wrong.py take them and prove none of them again. rt ci leaves the mark out, since its libraries hold statements alone, which fit only one another: all are
marked together or none is. Run it only where nothing was changed since rt ci began, as in the gate's own copy of the checkout."""
import os
import shutil
import sys

sys.dont_write_bytecode = True
sys.path.insert(0, os.path.dirname(os.path.realpath(shutil.which("rt") or sys.exit("there is no rt on the path"))))
import rtlib as KIT  # noqa: E402

crates = [it for it in KIT.crates_below(os.getcwd()) if it.makes_rlib()]
if lacking := [it.name for it in crates if not os.path.isfile(f"{it.rlib}/format")]:
    sys.exit(f"rt ci has not built {' '.join(lacking)}")
for crate in crates:
    with open(f"{os.path.dirname(crate.rlib)}/stamp", "w", encoding="utf-8") as mark:
        mark.write(crate.stamp())

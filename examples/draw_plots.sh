#!/bin/sh
# Runs the examples that plot, and draws their plots into a folder: by the Python that $PYTHON names, which has the package i_shape, and Debian's
# python3-matplotlib, python3-shapely and python3-mapbox-earcut; of the data gmt-gshhg-low and netcdf-bin.
#
# usage: draw_plots.sh FOLDER
set -eu
here=$(cd "$(dirname "$0")" && pwd)
mkdir -p "${1:?the folder of the plots}"
for name in parcels tiles triangles; do
    "${PYTHON:-python3}" "$here/$name.py" --plot "$1/$name.svg"
done

#!/usr/bin/env bash
# Times this library beside GEOS on the coastlines of the world: bench/coastlines.sh [GRID ..], by default at the grids 1, 16, 64 and 512.
#
# It needs the C library of `make c` (or of the folder I_SHAPE_C_DIR), a C compiler, and of Debian python3-numpy, gmt-gshhg-low, netcdf-bin and
# libgeos-dev; the text command is timed where `make program` has built the program. Nothing is kept. docs/COMPARISON.md has what was seen.
set -eu
top=$(cd "$(dirname "$0")/.." && pwd)
library=${I_SHAPE_C_DIR:-$top/bindings/c/out}
program=$top/crates/i_shape_tool_main/out/i_shape_tool_main
work=$(mktemp -d)
trap 'rm -rf "$work"' EXIT
[ $# -gt 0 ] || set -- 1 16 64 512

"${CC:-cc}" -std=gnu11 -O2 -Wall -Wextra -Wconversion -I"$top/include" "$top/bench/coastlines.c" "$library/libi_shape.a" -lgeos_c -o "$work/coastlines"
I_SHAPE_C_DIR=$library PYTHONPATH=$top/bindings/python/src PYTHONDONTWRITEBYTECODE=1 /usr/bin/python3 "$top/bench/rings.py" "$work" "$@"

# The least processor time of seven runs of the text command on the file $1, in milliseconds, and what a second takes of it.
time_text() {
    local TIMEFORMAT='%U %S'
    for _ in 1 2 3 4 5 6 7; do
        { time "$program" simplify < "$1" > "$work/left"; } 2>> "$work/times"
    done
    awk -v points="$(wc -w < "$1")" -v left="$(grep -vc '^none$' "$work/left")" -v kept="$(sed 's/^none$//' "$work/left" | wc -w)" '
        least == "" || $1 + $2 < least { least = $1 + $2 }
        END { printf "| `i_shape_tool simplify`, a text | %.0f | %.1f | %d | %d | | |\n", least * 1e3, points / 2 / least / 1e6, left, kept / 2 }' "$work/times"
    rm "$work/times"
}

for grid in "$@"; do
    echo
    echo "grid $grid: $(wc -l < "$work/$grid") rings of $(($(wc -w < "$work/$grid") / 2)) points"
    echo
    echo '| call | processor ms | million points a second | rings left | points left | of them with a zero turn | of another area |'
    echo '|---|---|---|---|---|---|---|'
    "$work/coastlines" < "$work/$grid"
    [ ! -x "$program" ] || time_text "$work/$grid"
done
echo
echo "GEOS $(geos-config --version)"

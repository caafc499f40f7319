#!/bin/sh
# Draws the four pictures of docs/pictures into the folder that is named, by the program i_shape_tool or the one that $I_SHAPE_TOOL names.
set -eu
folder=$1
here=$(cd "$(dirname "$0")" && pwd)
program=${I_SHAPE_TOOL:-$here/../../i_shape_tool}
export PYTHONUTF8=1

# A contour on a grid as many times coarser: whole numbers, rounded down.
snap() {
    awk -v grid="$1" '{ for (k = 1; k <= NF; k++) $k = int($k / grid); print }'
}

# The same contour from a later start, as many points on.
start_at() {
    awk -v skip="$1" '{
        for (k = 0; k < NF; k++) printf "%s%s", $((k + 2 * skip) % NF + 1), k < NF - 1 ? " " : "\n"
    }'
}

# A picture by the words of draw.py, of contours on standard input.
draw() {
    name=$1
    shift
    "${PYTHON:-python3}" "$here/draw.py" --program "$program" "$@" > "$folder/$name.svg.new"
    mv "$folder/$name.svg.new" "$folder/$name.svg"
}

snap 800 < "$here/corsica.txt" | draw cleaned --aspect 0.74 --label 'Corsica, as given' simplify
snap 700 < "$here/ruegen.txt" | draw spikes --aspect 0.58 --label 'Rügen, as given' despike simplify
{
    snap 1024 < "$here/hvar.txt"
    snap 3000 < "$here/hvar.txt"
} | draw collapse --aspect 0.73 --label 'Hvar, as given' --label 'Hvar, on a coarser grid' simplify
{
    snap 1200 < "$here/corsica.txt"
    snap 1200 < "$here/corsica.txt" | "$program" simplify | start_at 7
} | draw canonical --aspect 0.74 --label 'Corsica, as given' --label 'simplified, another start' canonical

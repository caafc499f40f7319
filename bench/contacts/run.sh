#!/usr/bin/env bash
# bench/contacts/run.sh [--check] [--only WORD] [--largest N]
# Times this library's search for contacts beside the tests of GEOS, Boost.Geometry and CGAL, in one process and in turn, and compares their answers:
# nanoseconds of the processor for each edge. --check compares the answers alone; --only picks the families in whose names WORD is; --largest takes drawings
# up to N edges (1,000,000 if it isn't given).
#
# bench/contacts/run.sh --notions
# Counts instead of which small polygons the libraries say that they are valid, and why they differ.
#
# A library that isn't at hand is left out. Debian has them in libgeos-dev, libboost-dev and libcgal-dev, and the shorelines in gmt-gshhg-full, which netcdf-bin
# and python3-numpy read. Ours is that of `make c`, or of the folder I_SHAPE_C_DIR. What is built lies in ${BENCH_DIR:-${TMPDIR:-/tmp}/i_shape_contacts}, where
# the shorelines stay too. docs/COMPARISON.md has what was seen.
set -eu
bench=$(cd "$(dirname "$0")" && pwd)
top=$(cd "$bench/../.." && pwd)
library=${I_SHAPE_C_DIR:-$top/bindings/c/out}
work=${BENCH_DIR:-${TMPDIR:-/tmp}/i_shape_contacts}
objects=() defines=() links=()
mkdir -p "$work"

compile() {
    "${CXX:-c++}" -std=c++17 -O3 -DNDEBUG -Wall -Wextra -I"$top/include" "${@:2}" -c "$bench/$1.cpp" -o "$work/$1.o" && objects+=("$work/$1.o")
}

# Another library, $1, with the words that link it. What was compiled after its source and the header changed last stays.
compile_other() {
    if [ ! "$work/$1.o" -nt "$bench/$1.cpp" ] || [ ! "$work/$1.o" -nt "$bench/contacts.hpp" ]; then
        compile "$1" > "$work/log" 2>&1 || { echo "left out: $1" >&2 && return; }
    else
        objects+=("$work/$1.o")
    fi
    defines+=("-DWITH_${1^^}")
    links+=("${@:2}")
}

compile_other geos -lgeos_c
compile_other boost
compile_other cgal -lgmp -lmpfr
compile ours
program=contacts
if [ "${1:-}" = --notions ]; then program=notions; else compile families; fi
compile "$program" ${defines[@]+"${defines[@]}"}
"${CXX:-c++}" "${objects[@]}" "$library/libi_shape.a" ${links[@]+"${links[@]}"} -o "$work/$program"
[ "$program" = contacts ] || exec "$work/notions"

if [ ! -e "$work/shorelines" ]; then
    I_SHAPE_C_DIR=$library PYTHONPATH=$top/bindings/python/src PYTHONDONTWRITEBYTECODE=1 /usr/bin/python3 "$bench/shorelines.py" 10 1000 10000 100000 1000000 \
        > "$work/read" 2> "$work/log" && mv "$work/read" "$work/shorelines" || echo 'left out: shorelines' >&2
fi
[ ! -e "$work/shorelines" ] || set -- "$@" --shorelines "$work/shorelines"
echo "$(sed -n 's/^model name[^:]*: //p' /proc/cpuinfo | head -n 1); $(git -C "$top" rev-parse --short HEAD); load $(cut -d ' ' -f 1 /proc/loadavg)"
echo
exec "$work/contacts" "$@"

#!/bin/sh
# bench/builds/run.sh [--table] [NAME=LIBRARY..]
# Times the calls of the C library that cargo builds, for each x86-64 and for x86-64-v2, beside those that the kit has built (`make c`, `make c CPU=x86-64`) and
# beside other shared libraries, such as one of original.rs: nanoseconds a point on contours of 10 and 1,000 points at each width. It prints of each pair the
# geometric mean of the ratios and the greatest one, after all rows where --table is given. It needs cargo and a C compiler, and an idle processor.
set -eu
bench=$(cd "$(dirname "$0")" && pwd)
top=$(cd "$bench/../.." && pwd)
work=${BENCH_DIR:-${TMPDIR:-/tmp}/i_shape_builds}
shows=
[ "${1-}" != --table ] || { shows=yes && shift; }
mkdir -p "$work"

# The library that cargo builds for the processor $1.
build() {
    RUSTFLAGS="-C target-cpu=$1" CARGO_TARGET_DIR="$work/$1" cargo build --release --offline --locked --quiet --manifest-path "$top/rust/Cargo.toml" -p i_shape_c_library
    cp "$work/$1/release/libi_shape.so" "$work/cargo_$1.so"
}

build x86-64
build x86-64-v2
names='cargo cargo-v2'
set -- "$work/cargo_x86-64.so" "$work/cargo_x86-64-v2.so" "$@"
kit=$top/bindings/c/out
[ ! -e "$kit/x86-64/libi_shape.so" ] || set -- "$@" "kit=$kit/x86-64/libi_shape.so"
[ ! -e "$kit/libi_shape.so" ] || [ -e "$kit/by_cargo" ] || set -- "$@" "kit-v2=$kit/libi_shape.so"
for word in "$@"; do
    shift
    case $word in *=*) names="$names ${word%%=*}" ;; esac
    set -- "$@" "${word#*=}"
done
for width in 16 32 64; do
    "${CC:-cc}" -std=c11 -O2 -Wall -Wextra "-DWIDTH=$width" "-I$top/include" "$bench/builds.c" -o "$work/builds$width" -ldl -lm
    "$work/builds$width" "$@"
done > "$work/rows"
[ -z "$shows" ] || { echo "width call contour points $names" | tr ' ' '\t' && cat "$work/rows"; }
awk -F '\t' -v names="$names" 'BEGIN { count = split(names, name, " ") }
    { for (a = 1; a <= 2; a++) for (b = 1; b <= count; b++) if (b != a && $(4 + b) != "-") {
          ratio = $(4 + a) / $(4 + b); k = name[a] " / " name[b]
          sum[k, $4] += log(ratio); rows[k, $4]++
          if (ratio > most[k]) { most[k] = ratio; where[k] = $1 " " $2 ", " $3 ", " $4 " points" } } }
    /!$/ { print "answers differ: " $0 }
    END { for (a = 1; a <= 2; a++) for (b = 1; b <= count; b++) { k = name[a] " / " name[b]
          if (rows[k, 10]) printf "%s: %.2f at 10 points, %.2f at 1,000, of %d rows; the most %.2f, %s\n", k, exp(sum[k, 10] / rows[k, 10]),
              exp(sum[k, 1000] / rows[k, 1000]), rows[k, 10] + rows[k, 1000], most[k], where[k] } }' "$work/rows"

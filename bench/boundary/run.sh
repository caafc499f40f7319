#!/bin/sh
# Times the calls of the C library beside the same calls without its boundary, after `make c`, a minute or two. All that is built but the library
# lies in a folder of its own, which takes 1 GB and goes again.
set -eu
here=$(cd "$(dirname "$0")" && pwd)
top=$here/../..
bash "$top/bindings/c/build.sh"
work=$(mktemp -d)
trap 'rm -rf "$work"' EXIT
mkdir -p "$work/crates/boundary/src" "$work/crates/boundary/specs"
for crate in i_shape_core i_shape_source i_shape; do
    mkdir "$work/crates/$crate"
    (cd "$top/crates/$crate" && tar cf - --exclude=./out/incremental .) | (cd "$work/crates/$crate" && tar xf -)
done
cp "$top/HANDLES" "$work/"
grep -E '^(i_shape_core|i_shape_source|i_shape):' "$top/crates.txt" > "$work/crates.txt"
echo 'boundary staticlib: i_shape i_shape_core' >> "$work/crates.txt"
: > "$work/crates/boundary/specs/Lib.antt"
cp "$here/boundary.rt.in" "$work/crates/boundary/src/lib.rt"
(cd "$work/crates/boundary" && rt lib --jobs 1 > "$work/log" 2>&1) || { cat "$work/log" >&2; exit 1; }
"${CC:-cc}" -O2 -I"$top/include" -o "$work/boundary" "$here/boundary.c" "$work/crates/boundary/out/libboundary.a" "$top/bindings/c/out/libi_shape.a"
"$work/boundary"

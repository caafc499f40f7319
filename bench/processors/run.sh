#!/bin/sh
# Times the calls of the C library for x86-64-v2, the default, beside those for each x86-64: nanoseconds a point, in some seconds once both are built.
set -eu
here=$(cd "$(dirname "$0")" && pwd)
top=$here/../..
bash "$top/bindings/c/build.sh"
bash "$top/bindings/c/build.sh" --cpu x86-64
work=$(mktemp -d)
trap 'rm -rf "$work"' EXIT
"${CC:-cc}" -O2 -I"$top/include" -o "$work/processors" "$here/processors.c"
"$work/processors" "$top/bindings/c/out/libi_shape.so" "$top/bindings/c/out/x86-64/libi_shape.so"

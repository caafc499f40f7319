#!/bin/sh
# Times simplify by the native library and by the WebAssembly module in Node, in nanoseconds a point, after `make c wasm`. It takes half a minute.
set -eu
here=$(cd "$(dirname "$0")" && pwd)
top=$here/../..
work=$(mktemp -d)
trap 'rm -rf "$work"' EXIT
"${CC:-cc}" -O2 -I"$top/include" "$here/native.c" "$top/bindings/c/out/libi_shape.a" -o "$work/native"
echo 'native'
"$work/native"
echo 'WebAssembly'
node "$here/bench.mjs" "$top/bindings/js/out/i_shape32.wasm"

#!/bin/sh
# Builds bindings/c/test.c as a WebAssembly module with the library, in which a sum that overflows is a trap. It takes Debian's clang and lld. usage: build.sh MODULE.wasm
set -eu
here=$(cd "$(dirname "$0")" && pwd)
top=$here/../../../..
work=$(mktemp -d)
trap 'rm -rf "$work"' EXIT
bash "$here/../../cargo.sh" rustc -p i_shape_c_library --lib --crate-type staticlib --config profile.dev.debug=0 --config profile.dev.opt-level=1
for name in "$top/bindings/c/test.c" "$here/libc.c"; do
    clang --target=wasm32-unknown-unknown -O1 -std=c11 -ffreestanding -fno-builtin -nostdinc -Wall -Wextra -isystem "$here/include" -I"$top/include" \
        -c "$name" -o "$work/$(basename "$name" .c).o"
done
wasm-ld --no-entry --stack-first -z stack-size=1048576 --export=run --export=printed "$work/test.o" "$work/libc.o" \
    "$top/rust/target/wasm/wasm32-unknown-unknown/debug/libi_shape.a" -o "$1"

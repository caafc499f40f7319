#!/usr/bin/env bash
# The keys of COUNT polygons that polygons.c makes of SEED, by C, Rust, Python, SQLite, JavaScript, and PostgreSQL where PGDATABASE names a database with the
# extension: for each the seconds of processor time, of PostgreSQL and Rust elapsed ones, and whether they are those of C, by one SHA-256, or the index of the
# first that isn't; of C, whether repeats have the key of their original; of JavaScript, whose keys are strings, whether the same are equal.
#
# It takes what `make c sqlite wasm` builds, Python with numpy, cargo, and Node.
#
# usage: bench/keys/run.sh [COUNT [SEED]]
set -eu
here=$(cd "$(dirname "$0")" && pwd)
top=$(cd "$here/../.." && pwd)
library=${I_SHAPE_C_DIR:-$top/bindings/c/out}
work=$(mktemp -d)
trap 'rm -rf "$work"' EXIT
status=0
export PYTHONDONTWRITEBYTECODE=1 PYTHONPATH="$top/bindings/python/src" I_SHAPE_C_DIR="$library" MOD_I_SHAPE="${MOD_I_SHAPE:-$top/bindings/sqlite/out/mod_i_shape.so}"

by_python() { "${PYTHON:-/usr/bin/python3}" "$here/keys.py" "$@"; }

# The keys of the language $1 by what follows, compared.
try() {
    local language=$1
    by_python compare "$work" "$language" "$("${@:2}")" || status=1
    [ "$language" = c ] || rm "$work/$language"
}

build() { "${CC:-cc}" -std=gnu11 -O2 -Wall -Wextra -I"$top/include" "$here/$1.c" "${@:2}" -o "$work/by_$1"; }

build polygons
build keys "$library/libi_shape.a" -lm -lpthread
"$work/by_polygons" "${1:-1000000}" "${2:-1}" "$work"
try c "$work/by_keys" "$work"
try rust cargo run --release --offline --locked --quiet --manifest-path "$top/rust/i_shape/Cargo.toml" --example keys "$work"
try python by_python python "$work"
try sqlite by_python sqlite "$work"
[ -z "${PGDATABASE-}" ] || try postgres by_python postgres "$work"
try javascript node "$here/keys.mjs" "$work" "$top/bindings/js/out/i_shape32.wasm"
exit $status

#!/bin/sh
# Builds the wheel of the Python package, with the library of `make c`, or of the folder I_SHAPE_C_DIR. It needs setuptools and wheel of the Python
# that $PYTHON names, and no network. $WHEEL_SYSTEM is the system of its tag, where that isn't linux. $WHEEL_FASTER is the folder of the library for
# x86-64-v2, which then lies in the wheel too.
#
# usage: build.sh [FOLDER]
#
# The wheel comes into the folder, or else alone into bindings/python/out.
set -eu
top=$(cd "$(dirname "$0")/../.." && pwd)
here=$top/bindings/python
library=${I_SHAPE_C_DIR:-$top/bindings/c/out}/libi_shape.so
python=${PYTHON:-/usr/bin/python3}
out=${1-}
[ -e "$library" ] || {
    echo "there is no $library: run \`make c\`, or set I_SHAPE_C_DIR to the folder of libi_shape.so" >&2
    exit 1
}
work=$(mktemp -d)
trap 'rm -rf "$work"' EXIT
cp -R "$here/src" "$here/README.md" "$here/pyproject.toml" "$here/setup.py" "$top/LICENSE" "$top/NOTICE" "$top/include/i_shape.h" "$work"
find "$work" -name __pycache__ -prune -exec rm -rf {} +
cp "$library" "$work/src/i_shape/libi_shape.so"
[ -z "${WHEEL_FASTER-}" ] || cp "$WHEEL_FASTER/libi_shape.so" "$work/src/i_shape/libi_shape-v2.so"
chmod -R u=rwX,go=rX "$work"
if [ -z "$out" ]; then
    out=$here/out
    rm -rf "$out"
fi
mkdir -p "$out"
out=$(cd "$out" && pwd)
(cd "$work" && "$python" -c 'import sys; from setuptools.build_meta import build_wheel; build_wheel(sys.argv[1])' "$out" > "$work/log" 2>&1) || {
    cat "$work/log" >&2
    exit 1
}
ls "$out/"*.whl

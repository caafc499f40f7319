#!/bin/sh
# Puts the page into a folder that a file server can show, by default examples/page/out, with the package for JavaScript, after `make wasm`. usage: build.sh [FOLDER]
set -eu
here=$(cd "$(dirname "$0")" && pwd)
top=$here/../..
to=${1:-$here/out}
mkdir -p "$to/i_shape/out" "$to/i_shape/src" "$to/coastlines"
cp "$here"/*.html "$here"/*.css "$here"/*.js "$here"/*.svg "$to"
cp "$here/README.md" "$to/about.txt"
cp "$top/docs/JAVASCRIPT.md" "$to/javascript.txt"
cp "$top/docs/THEOREM.md" "$to/theorem.txt"
cp "$top/LICENSE" "$to/licence.txt"
cp "$top"/bindings/js/src/*.js "$to/i_shape/src"
cp "$top/bindings/js/out/i_shape32.wasm" "$to/i_shape/out"
cp "$top"/examples/draw/*.txt "$to/coastlines"

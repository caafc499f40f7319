#!/usr/bin/env bash
# Builds the WebAssembly module of the package for JavaScript, bindings/js/out/i_shape32.wasm, where it isn't built or its sources are newer: cargo compiles the
# C library of the proved source without its contracts (rust/c_library), as cargo.sh does. With the word --is-built it builds nothing, and its status says whether
# there is nothing to build; with --can-build, whether all is there that it needs.
set -eu
here=$(cd "$(dirname "$0")" && pwd)
top=$(cd "$here/../.." && pwd)
module=$here/out/i_shape32.wasm

is_built() {
    [ -e "$module" ] && [ -z "$(find "$here"/{build,cargo}.sh "$top"/{crates,crates.txt} "$top"/rust/{Cargo.toml,c_library,erase,fallible} \
        \( -name out -o -name wrong -o -name must-fail \) -prune -o -type f -newer "$module" -print -quit)" ]
}

case ${1-} in
--is-built)
    is_built
    exit
    ;;
--can-build)
    is_built || exec bash "$here/cargo.sh" --has-rust
    exit
    ;;
esac
if is_built; then
    exit
fi
mkdir -p "$here/out"
touch "$here/out/build.started"
bash "$here/cargo.sh" rustc --release -p i_shape_c_library --lib --crate-type cdylib --config profile.release.strip=true -- --cfg for_javascript < /dev/null
install -m 644 "$top/rust/target/wasm/wasm32-unknown-unknown/release/i_shape.wasm" "$module"
# sources that were changed meanwhile are newer than the module
touch -r "$here/out/build.started" "$module"

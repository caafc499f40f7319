#!/usr/bin/env bash
# Runs cargo in rust/ by these words for wasm32-unknown-unknown. Rust's core and alloc for it are those that lie beside rustc, as rustup puts them there; where there are
# none, cargo builds them of Debian's sources. Where there is neither, or no linker, standard error says what to install, and the status is 1.
#
# usage: cargo.sh [--has-rust | WORD OF cargo..]
#
# With --has-rust it only finds out whether there is all that it needs.
set -eu
top=$(cd "$(dirname "$0")/../.." && pwd)
target=wasm32-unknown-unknown
source=/usr/lib/rustlib/src/rust/library
words=()

stop() {
    echo "make wasm: $1" >&2
    exit 1
}

# Whether the compiler $1 has core and alloc for the target.
has_library() { compgen -G "$("$1" --print sysroot)/lib/rustlib/$target/lib/liballoc-*.rlib" > /dev/null; }

# Whether the compiler $1 brings the linker that it calls for the target.
has_linker() { compgen -G "$("$1" --print sysroot)/lib/rustlib/*/bin/rust-lld" > /dev/null; }

command -v cargo > /dev/null || stop 'there is no cargo, which builds the module: rustup or Debian has it, from 1.85 on'
rustc=${RUSTC:-rustc}
if ! command -v "$rustc" > /dev/null || ! has_library "$rustc"; then
    rustc=/usr/bin/rustc
    [ -x $rustc ] && [ -e $source/core/src/lib.rs ] ||
        stop "there is no Rust for $target: \`rustup target add $target\` or, in Debian 12, \`apt install rustc-web rust-web-src lld\` brings it"
    export RUSTC_BOOTSTRAP=1
    words=('-Zbuild-std=core,alloc' --config 'source.crates-io.replace-with="debian"' --config "source.debian.directory='$source/vendor'")
fi
if ! has_linker "$rustc"; then
    command -v wasm-ld > /dev/null || stop 'there is no wasm-ld, the linker: `apt install lld` brings it'
    export CARGO_TARGET_WASM32_UNKNOWN_UNKNOWN_LINKER=wasm-ld
fi
[ "${1-}" != --has-rust ] || exit 0
cd "$top/rust"
RUSTC=$rustc exec cargo "$1" ${words[@]+"${words[@]}"} --target $target --target-dir target/wasm --offline --locked --quiet "${@:2}"

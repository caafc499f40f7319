#!/usr/bin/env bash
# Builds the package PACKAGE of rust/ for this machine, whatever target the environment or a configuration of cargo names, and prints the folder that it is built in.
#
# usage: by_cargo.sh PACKAGE [PROFILE]
#
# The profile is cargo's release where none is named.
set -eu
top=$(cd "$(dirname "$0")/.." && pwd)
machine=$(cargo --version --verbose | sed -n 's/^host: //p')
cargo build --profile "${2:-release}" --offline --locked --quiet --target "$machine" --manifest-path "$top/rust/Cargo.toml" --target-dir "$top/rust/target" -p "$1" < /dev/null >&2
echo "$top/rust/target/$machine/${2:-release}"

#!/bin/sh
# Compiles for x86-64 Windows by the words that rattle gives clang for x86-64 Linux. usage: compile.sh WORD OF clang..
set -eu
exec "$(dirname "$(rt doc)")/toolchain/bin/clang" --target=x86_64-pc-windows-gnu -march=x86-64 -mllvm -no-trap-after-noreturn -ffunction-sections \
    -fdata-sections -mllvm -trap-unreachable -mllvm -no-x86-call-frame-opt -mllvm -disable-machine-licm -mllvm -disable-postra-machine-licm \
    -mllvm -sink-common-insts=false --no-default-config -no-canonical-prefixes -fintegrated-cc1 -fno-crash-diagnostics -Werror -c "$@"

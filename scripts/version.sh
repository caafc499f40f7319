#!/bin/sh
# Prints the version, as include/i_shape.h says it: two digits to base 16 a part. With the word --soname it prints what the name of the shared library has of it:
# the major version, and while that is 0 the minor one too, since it may change a call.
set -eu
version=$(printf '%d.%d.%d' $(sed -n 's/^#define I_SHAPE_VERSION 0x\(..\)\(..\)\(..\)$/0x\1 0x\2 0x\3/p' "$(dirname "$0")/../include/i_shape.h"))
case ${1-}:$version in
--soname:0.*) echo "${version%.*}" ;;
--soname:*) echo "${version%%.*}" ;;
*) echo "$version" ;;
esac

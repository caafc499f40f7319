#!/usr/bin/env bash
# Builds the C library for Windows on each x86-64 into bindings/c/out/windows: libi_shape.a, and i_shape.dll with libi_shape.dll.a, by which a program is
# linked with it. It is an experiment: what is proved is what `make c` proves and keeps, for Linux, and it builds that first. The steps: the LLVM module that
# rattle makes for x86-64 Linux (bindings/module/lower.sh), the same for Windows (retarget.py), the kit's clang by rattle's own words, and a link with the
# allocator by Debian's mingw. With the word --is-built it builds nothing, and its status says whether there is nothing to build.
set -eu
here=$(cd "$(dirname "$0")" && pwd)
top=$(cd "$here/../../.." && pwd)
module=$top/bindings/module
out=$top/bindings/c/out/windows
mingw=x86_64-w64-mingw32

is_built() {
    [ -e "$out/i_shape.dll" ] && bash "$top/bindings/c/build.sh" --is-built &&
        [ -z "$(find "$here" "$module" "$top"/bindings/c/allocator.[ch] "$top/crates/i_shape_c_calls/out/libi_shape_c_calls.a" -type f -newer "$out/i_shape.dll" -print -quit)" ]
}

# The functions that the object file $1 calls are known.
has_known_calls() {
    local called
    called=$("$mingw-nm" --undefined-only --format=just-symbols "$1") || return
    ! grep -vxE 'rattle_(alloc|realloc|dealloc)|mem(cpy|move|set)|___chkstk_ms' <<< "$called"
}

if [ "${1-}" = --is-built ]; then
    is_built
    exit
fi
if is_built; then
    exit
fi
if ! command -v rt > /dev/null || ! command -v "$mingw-gcc" > /dev/null; then
    echo "make c: TARGET=windows needs the Rattle kit's rt on the path and Debian's gcc-mingw-w64-x86-64" >&2
    exit 1
fi
bash "$top/bindings/c/build.sh"
work=$(mktemp -d)
trap 'rm -rf "$work"' EXIT

sh "$module/copy_crates.sh" "$top" "$work" i_shape_c_calls
sh "$module/lower.sh" "$work/crates/i_shape_c_calls" "$work/linux.ll" --cpu x86-64
python3 "$here/retarget.py" "$work/linux.ll" "$work/windows.ll"
sh "$here/compile.sh" -O3 -x ir "$work/windows.ll" -o "$work/i_shape.o"
if ! has_known_calls "$work/i_shape.o"; then
    echo 'make c: it is not known what the functions above are on Windows' >&2
    exit 1
fi
"$mingw-gcc" -std=c11 -O2 -Wall -Wextra -Wpedantic -Wconversion -Werror -c "$top/bindings/c/allocator.c" -o "$work/allocator.o"
"$mingw-ar" rcsD "$work/libi_shape.a" "$work/i_shape.o" "$work/allocator.o"
{ echo EXPORTS && "$mingw-nm" --defined-only "$work/i_shape.o" | sed -nE 's/^.* T (i_shape_.*)$/\1/p'; } > "$work/i_shape.def"
"$mingw-gcc" -shared -s -Wl,--no-insert-timestamp -o "$work/i_shape.dll" "$work/i_shape.o" "$work/allocator.o" "$work/i_shape.def" -Wl,--out-implib,"$work/libi_shape.dll.a"
mkdir -p "$out"
mv "$work"/{libi_shape.a,libi_shape.dll.a,i_shape.dll} "$out"
touch "$out/i_shape.dll"

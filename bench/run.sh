#!/bin/sh
# bench/run.sh [--quick] [--only WORD] [--largest N] [--build]
# Times the library's own calls: nanoseconds a point at each width, least and greatest of four placements of the code, beside a copy and a
# reading of the points in the same run. docs/COMPARISON.md says how to read the times. --quick takes fewer samples, and at most 1,000 points; --only
# picks the calls and families in whose names WORD is; --largest takes contours up to N points (100,000 if it isn't given); --build times nothing.
# It needs rt and a C compiler. What it builds lies in ${BENCH_DIR:-${TMPDIR:-/tmp}/i_shape_bench}, with a copy of the crates and of the proofs
# that their out/ keeps: 2 GB.
set -eu
bench=$(cd "$(dirname "$0")" && pwd)
top=$(dirname "$bench")
samples=31
largest=100000
only=
builds_alone=
while [ $# -gt 0 ]; do
    case $1 in
        --quick) samples=9 largest=1000 ;;
        --only) shift; only=${1:?--only wants a word} ;;
        --largest) shift; largest=${1:?--largest wants a number} ;;
        --build) builds_alone=yes ;;
        *) sed -n '2,7s/^# //p' "$0" >&2; exit 2 ;;
    esac
    shift
done
for need in rt "${CC:=cc}"; do
    command -v "$need" > /dev/null || { echo "bench: $need isn't on the path" >&2; exit 2; }
done
kit=$(cd "$(dirname "$(readlink -f "$(command -v rt)")")/.." && pwd)
mkdir -p "${BENCH_DIR:=${TMPDIR:-/tmp}/i_shape_bench}"
work=$(cd "$BENCH_DIR" && pwd)
rounds=$work/crates/bench_rounds
libraries='i_shape_core i_shape_source i_shape'

# The crates, without what changed nothing: a file that is as it was keeps its time, so that nothing is proved twice.
copy_crates() {
    for crate in $libraries; do
        mkdir -p "$work/crates/$crate"
        if [ -d "$top/crates/$crate/out" ] && [ ! -d "$work/crates/$crate/out" ]; then
            cp -a "$top/crates/$crate/out" "$work/crates/$crate/out"
        fi
        find "$work/crates/$crate" -mindepth 1 -maxdepth 1 ! -name out -exec rm -rf {} +
        (cd "$top/crates/$crate" && find . -mindepth 1 -maxdepth 1 ! -name out -exec cp -a {} "$work/crates/$crate/" \;)
    done
    { grep -E "^($(echo $libraries | tr ' ' '|'))( |:)" "$top/crates.txt"
      echo 'bench_rounds staticlib: i_shape i_shape_core'; } > "$work/crates.txt"
    cp "$top/HANDLES" "$work/"
}

build_rounds() {
    mkdir -p "$rounds/src" "$rounds/specs" "$rounds/c"
    : > "$rounds/specs/Lib.antt"
    cp "$bench/clock.c" "$rounds/c/"
    for file in "$bench"/calls/*.rt.in; do
        cp "$file" "$rounds/src/$(basename "$file" .in)"
    done
    for width in 16 64; do
        sed "2!s/i32/i$width/g; s/I32/I$width/g; 1s/32/$width/" "$bench/calls/i32.rt.in" > "$rounds/src/i$width.rt"
    done
    (cd "$rounds" && RT_ALLOW_C=bench_rounds rt lib)
}

# Four shared libraries of the same rounds, whose code lies 0, 16, 32 and 48 bytes further on.
link_placements() {
    $CC -O2 -fPIC -c "$bench/clock.c" -o "$work/clock.o"
    for place in 0 1 2 3; do
        printf '.section .note.GNU-stack,"",@progbits\n.text\n.p2align 4\n.fill %d,1,0x90\n' $((place * 16)) > "$work/place.s"
        $CC -c "$work/place.s" -o "$work/place$place.o"
        $CC -shared -o "$work/rounds$place.so" -Wl,-Bsymbolic "$work/place$place.o" -Wl,--whole-archive "$rounds/out/libbench_rounds.a" \
            -Wl,--no-whole-archive "$work/clock.o" "$kit/c/liblibc_c.a"
    done
    $CC -std=c11 -O2 -Wall -Wextra -o "$work/main" "$bench/main.c" -ldl -lm
}

copy_crates
echo 'bench: building (minutes where the libraries are not proved yet)' >&2
build_rounds > "$work/log" 2>&1 && link_placements >> "$work/log" 2>&1 || { tail -n 30 "$work/log" >&2; exit 1; }
[ -z "$builds_alone" ] || exit 0
echo "$(sed -n 's/^model name[^:]*: //p' /proc/cpuinfo | head -n 1); $(git -C "$top" rev-parse --short HEAD); load $(cut -d ' ' -f 1 /proc/loadavg)"
exec "$work/main" "$samples" "$only" "$largest" "$work/rounds0.so" "$work/rounds1.so" "$work/rounds2.so" "$work/rounds3.so"

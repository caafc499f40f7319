#!/usr/bin/env bash
# Proves and builds the program i_shape_tool, as crates/i_shape_tool_main/out/i_shape_tool_main, where it isn't built or its sources are newer; standard error says
# how far that is. Of several runs at once one builds, and the others wait for it. For another machine or processor it is proved again over the kept proofs, and built
# as i_shape_tool in a folder of that name beside the first. That for aarch64 is linked by Debian's compiler, with an allocator and functions of the system in C,
# since the kit has none for it.
#
# usage: build.sh [--is-built] [--target aarch64 | --cpu NAME]
#
# With --is-built it builds nothing, and its status says whether there is nothing to build.
set -eu
here=$(cd "$(dirname "$0")" && pwd)
top=$(cd "$here/../.." && pwd)
module=$top/bindings/module
crate=$top/crates/i_shape_tool_main
default=$crate/out/i_shape_tool_main
allocator=$top/bindings/c/allocator.c
name='make program'
log=$crate/out/build.log
# It is there from the start of a build to its good end, so that what a build that was cut short has left is not taken for built.
started=$crate/out/build.started
only_asks='' target='' cpu=''
while [ $# -gt 0 ]; do
    case $1 in
    --is-built) only_asks=yes ;;
    --target) target=${2:?a machine} && shift ;;
    --cpu) cpu=${2:?a processor} && shift ;;
    *) echo "build.sh: what is $1?" >&2 && exit 2 ;;
    esac
    shift
done
case $target:$cpu in
: | aarch64: | :?*) ;;
*) echo "make program: TARGET is aarch64, or CPU a processor of x86-64, and not $target${cpu:+ with $cpu}" >&2 && exit 2 ;;
esac
out=$crate/out/$target$cpu

is_default_built() {
    [ -x "$default" ] && [ ! -e "$started" ] &&
        [ -z "$(find "$top"/crates/i_shape{,_core,_source,_tool,_tool_main} "$top/crates.txt" -path '*/out' -prune -o -type f \
            \( -name '*.rt' -o -name '*.antt' -o -name crates.txt \) -newer "$default" -print -quit)" ]
}

is_built() {
    is_default_built || return
    [ -n "$target$cpu" ] || return 0
    [ -x "$out/i_shape_tool" ] && [ -z "$(find "$here" "$module" "${allocator%.c}".[ch] "$default" -type f -newer "$out/i_shape_tool" -print -quit)" ]
}

# Each library after those that it uses: asked for the program alone, rt reads all sources once more. Two jobs are done about as soon as four, for less work.
build_default() {
    local jobs=$(($(nproc) > 1 ? 2 : 1)) library
    has_room 4000
    touch "$started"
    : > "$log"
    echo "$name: proving and building the program with its four libraries" >&2
    for library in i_shape_core i_shape_source i_shape i_shape_tool; do
        prove "$library" lib --jobs $jobs
    done
    prove i_shape_tool_main run --jobs $jobs -- simplify
    # sources that were changed meanwhile are newer than the program
    touch -r "$started" "$default"
    rm "$started"
}

# The object file, in the folder $work: rt proves and compiles the crate and hands that to a linker, in whose place is one that links nothing.
compile() {
    sh "$module/copy_crates.sh" "$top" "$work" i_shape_tool_main
    sh "$module/link_kit.sh" "$work/kit" bin/rattle-link
    cat > "$work/kit/bin/rattle-link" << LINKER
#!/usr/bin/env bash
for word; do
    [ "\${before-}" != -o ] || { echo '#!/bin/sh' > "\$word" && chmod +x "\$word"; }
    [[ \$word != *.o ]] || cp "\$word" "$work/program.o"
    before=\$word
done
LINKER
    chmod +x "$work/kit/bin/rattle-link"
    (cd "$work/crates/i_shape_tool_main" && "$work/kit/bin/rt" run --jobs 1 ${target:+--target "$target-unknown-linux-gnu"} ${cpu:+--cpu "$cpu"} \
        < /dev/null > "$work/log" 2>&1) && grep -q "^logic=proved .* target=${target:-x86_64}-unknown-linux-gnu " "$work/log" && [ -e "$work/program.o" ] && return
    cat "$work/log" >&2
    return 1
}

link() {
    if [ "$target" = aarch64 ]; then
        aarch64-linux-gnu-gcc -std=c11 -O2 -s -Wl,-z,relro,-z,now,--build-id=sha1 -Wall -Wextra -Werror "$work/program.o" "$allocator" "$here/os.c" -o "$work/i_shape_tool"
    else
        "$kit/bin/rattle-link" --target x86_64-unknown-linux-gnu --toolchain "$kit/toolchain" -o "$work/i_shape_tool" "$work/program.o" "$kit"/c/lib{os,libc}_c.a \
            > "$work/linked" 2>&1 || { cat "$work/linked" >&2 && return 1; }
    fi
}

if [ -n "$only_asks" ]; then
    is_built
    exit
fi
if is_built; then
    exit
fi
if ! command -v rt > /dev/null; then
    echo 'make program: the program is proved and built by the Rattle kit, and there is no rt of it on the path' >&2
    [ -n "$target$cpu" ] || echo 'make program: ./i_shape_tool runs the one that cargo builds, of the same source without its contracts' >&2
    exit 1
fi
if [ "$target" = aarch64 ] && ! command -v aarch64-linux-gnu-gcc > /dev/null; then
    echo "make program: TARGET=aarch64 needs Debian's gcc-aarch64-linux-gnu and libc6-dev-arm64-cross" >&2
    exit 1
fi
. "$top/scripts/prove.sh"
mkdir -p "$crate/out"
exec 9> "$crate/out/build.lock"
if ! flock -n 9; then
    echo 'make program: waiting for another run, which builds the program' >&2
    flock 9
fi
is_default_built || build_default
if is_built; then
    exit
fi
echo "make program: proving and building it for ${target:-$cpu}" >&2
kit=$(dirname "$(rt doc)")
work=$(mktemp -d)
trap 'rm -rf "$work"' EXIT
touch "$work/started"
compile
link
mkdir -p "$out"
# what was changed meanwhile is newer than the program
touch -r "$work/started" "$work/i_shape_tool"
mv "$work/log" "$out/build.log"
mv "$work/i_shape_tool" "$out"

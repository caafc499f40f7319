#!/usr/bin/env bash
# Builds the C library into bindings/c/out: libi_shape.a, libi_shape.so as links to the file that has its version in its name, and for installing them
# i_shape.pc.in and i_shape-config-version.cmake. It is proved first, where it isn't built yet or its sources are newer, and standard error says how far that is. Where
# there is no rt, cargo builds it of the same source without its contracts, and the file by_cargo lies beside it. Both libraries hold the allocator of the C library;
# a program that defines rattle_alloc, rattle_realloc and rattle_dealloc itself takes its own with libi_shape.a.
#
# usage: build.sh [--is-built] [--target aarch64|windows] [--cpu NAME] [--backend rattle]
#
# --target builds it for another machine (windows/build.sh has that for Windows), --cpu for another processor, as x86-64 for those before x86-64-v2, the
# default, and --backend by Rattle's own compiler in place of LLVM: into a folder of that name below bindings/c/out. With --is-built it builds nothing, and its
# status says whether there is nothing to build.
set -eu
top=$(cd "$(dirname "$0")/../.." && pwd)
here=$top/bindings/c
archive=$top/crates/i_shape_c_calls/out/libi_shape_c_calls.a
version=$("$top/scripts/version.sh")
soname=libi_shape.so.$("$top/scripts/version.sh" --soname)
only_asks='' target='' cpu='' backend=''
while [ $# -gt 0 ]; do
    case $1 in
    --is-built) only_asks=yes ;;
    --target) target=${2:?a machine} && shift ;;
    --cpu) cpu=${2:?a processor} && shift ;;
    --backend) backend=${2:?a compiler} && shift ;;
    *) echo "build.sh: what is $1?" >&2 && exit 2 ;;
    esac
    shift
done
case $target$cpu$backend in
windows) exec bash "$here/windows/build.sh" ${only_asks:+--is-built} ;;
windows*) echo 'make c: TARGET=windows is for each x86-64, and takes no CPU' >&2 && exit 2 ;;
esac
case $target in
'' | aarch64) ;;
*) echo "make c: TARGET is aarch64, windows, or left out for Linux on x86-64, and not $target" >&2 && exit 2 ;;
esac
kind=$target${cpu:+-$cpu}${backend:+-$backend}
kind=${kind#-}
out=$here/out${kind:+/$kind}
# The archive of the default stays where rt writes it. Others are moved away from there.
proved=${kind:+$out/libi_shape_c_calls.a}
proved=${proved:-$archive}

# Whether one of the others is newer than the file $1.
is_older_than_one_of() {
    [ -n "$(find "${@:2}" \( -name out -o -name wrong -o -name must-fail \) -prune -o -type f -newer "$1" -print | head -n 1)" ]
}

is_proved() {
    [ -e "$proved" ] && ! is_older_than_one_of "$proved" "$top/crates" "$top/crates.txt"
}

# What the libraries are made of: the proved archive, or what cargo builds, where there is neither rt nor a proved archive of these sources.
made=$proved
[ -n "$kind" ] || command -v rt > /dev/null || is_proved || made=$out/by_cargo

is_made() {
    if [ "$made" = "$proved" ]; then
        is_proved && [ ! -e "$out/by_cargo" ]
    else
        [ -e "$made" ] && ! is_older_than_one_of "$made" "$top/crates" "$top/crates.txt" "$top"/rust/{Cargo.toml,c_library,erase,fallible}
    fi
}

is_built() {
    is_made && [ -e "$out/libi_shape.a" ] && [ -e "$out/libi_shape.so" ] && [ -e "$out/libi_shape.so.$version" ] &&
        [ -e "$out/i_shape-config-version.cmake" ] && [ -e "$out/i_shape.pc.in" ] &&
        ! is_older_than_one_of "$out/i_shape.pc.in" "$made" "$top/include" "$here/build.sh" "$here"/allocator.[ch] "$here/i_shape.pc.in" "$here/cmake"
}

# Each library after those that it uses. Sources that are changed meanwhile are newer than the archive.
prove_all() {
    has_room 4000
    touch "$out/build.started"
    for library in i_shape_core i_shape_contacts i_shape_touching i_shape_source i_shape i_shape_c i_shape_c_calls; do
        prove "$library" lib --jobs "$jobs"
    done
    touch -r "$out/build.started" "$archive"
}

# What a killed prove_other has left: another's archive in the place of the default's.
restore_default() {
    local left
    for left in "$here"/out/*/default.a; do
        [ ! -e "$left" ] || mv "$left" "$archive"
    done
}

# The same for another machine or processor, over the kept proofs of the default, whose archive is put back into its place afterwards.
prove_other() {
    touch "$out/build.started"
    cp -p "$archive" "$out/default.part"
    mv "$out/default.part" "$out/default.a"
    trap 'mv "$out/default.a" "$archive"' EXIT
    prove i_shape_c_calls lib --jobs "$jobs" ${target:+--target "$target-unknown-linux-gnu"} ${cpu:+--cpu "$cpu"} ${backend:+--backend "$backend"}
    touch -r "$out/build.started" "$archive"
    mv "$archive" "$proved"
    mv "$out/default.a" "$archive"
    trap - EXIT
}

# The allocator, in the folder of objects: that of the kit, which has none for aarch64.
add_allocator() {
    if [ "$target" = aarch64 ]; then
        aarch64-linux-gnu-gcc -std=c11 -O2 -fPIC -c "$here/allocator.c" -o allocator.o
    else
        "$kit/toolchain/bin/llvm-ar" x "$kit/c/liblibc_c.a"
    fi
}

link_shared() {
    local linker=("$kit/toolchain/bin/clang" -fuse-ld=lld)
    [ "$target" != aarch64 ] || linker=(aarch64-linux-gnu-gcc)
    echo '{ global: i_shape_*; local: *; };' > "$out/names"
    rm -f "$out"/libi_shape.so*
    "${linker[@]}" -shared -Wl,-soname,"$soname" -Wl,-z,relro,-z,now,--build-id=sha1,-s -Wl,--version-script,"$out/names" \
        -o "$out/libi_shape.so.$version" "$out"/objects/*.o
    chmod 755 "$out/libi_shape.so.$version"
    link_names
}

# The words for an installed library. They are written last, and are newer than all that they go with.
configure() {
    local processor=${target:-$(uname -m)}
    case $processor in
    x86_64 | amd64) processor='x86_64|amd64|AMD64' ;;
    aarch64 | arm64) processor='aarch64|arm64|ARM64' ;;
    esac
    sed "s/@VERSION@/$version/; s/@SYSTEM@/$(uname -s)/; s/@PROCESSOR@/$processor/; s/@POINTER@/8/" "$here/cmake/i_shape-config-version.cmake.in" > "$out/i_shape-config-version.cmake"
    sed "s|@VERSION@|$version|" "$here/i_shape.pc.in" > "$out/i_shape.pc.in"
}

# The links by which programs find the shared library.
link_names() {
    ln -sf "libi_shape.so.$version" "$out/$soname"
    ln -sf "$soname" "$out/libi_shape.so"
}

build_by_cargo() {
    local built
    if ! command -v cargo > /dev/null; then
        echo 'make c: cargo from 1.85 on builds the C library, and the Rattle kit proves it: neither cargo nor rt is on the path. Once it is built, its folder' >&2
        echo 'bindings/c/out serves without them: set I_SHAPE_C_DIR to a copy of it, or to lib of a release, for `make wheel`, `make postgres` and `make sqlite`.' >&2
        exit 1
    fi
    echo 'make c: there is no rt, which proves the C library; cargo builds it, of the same source without its contracts' >&2
    touch "$out/build.started"
    built=$(bash "$top/scripts/by_cargo.sh" i_shape_c_library)
    rm -f "$out"/libi_shape.so*
    cp "$built/libi_shape.a" "$out"
    # Rust's own objects in it also hold LLVM's code, which no linker takes
    ! command -v objcopy > /dev/null || objcopy -D --remove-section=.llvmbc --remove-section=.llvmcmd "$out/libi_shape.a"
    install -m 755 "$built/libi_shape.so" "$out/libi_shape.so.$version"
    link_names
    touch -r "$out/build.started" "$made"
    configure
}

if [ -n "$only_asks" ]; then
    # while it is proved for another machine, that archive lies in the place of the default's
    if compgen -G "$here/out/*/default.a" > /dev/null; then flock -s -w 600 "$here/out/build.lock" true; fi
    is_built
    exit
fi
# Others are proved over what the default has kept.
[ -z "$kind" ] || bash "$here/build.sh"
# What is built serves where nothing may be written.
if is_built; then
    exit
fi
mkdir -p "$out"
exec 9> "$here/out/build.lock"
flock 9
restore_default
if is_built; then
    exit
fi
if [ "$made" != "$proved" ]; then
    build_by_cargo
    exit
fi
if ! is_proved && ! command -v rt > /dev/null; then
    echo "make c: the Rattle kit's rt, which builds the C library for ${target:-$cpu$backend}, isn't on the path" >&2
    exit 1
fi
if [ "$target" = aarch64 ] && ! command -v aarch64-linux-gnu-gcc > /dev/null; then
    echo "make c: TARGET=aarch64 needs Debian's gcc-aarch64-linux-gnu and libc6-dev-arm64-cross" >&2
    exit 1
fi
kit=$(dirname "$(rt doc)")
if ! is_proved; then
    name="make c${target:+ TARGET=$target}${cpu:+ CPU=$cpu}"
    log=$out/build.log
    jobs=$(($(nproc) > 1 ? 2 : 1))
    . "$top/scripts/prove.sh"
    : > "$log"
    if [ -z "$kind" ]; then prove_all; else prove_other; fi
fi
mkdir -p "$out/objects"
rm -f "$out"/objects/* "$out/libi_shape.a"
(cd "$out/objects" && "$kit/toolchain/bin/llvm-ar" x "$proved" && add_allocator)
"$kit/toolchain/bin/llvm-ar" rcs "$out/libi_shape.a" "$out"/objects/*.o
link_shared
rm -f "$out/by_cargo"
configure

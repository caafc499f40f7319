#!/usr/bin/env bash
# Packs what a release holds into a folder: the C library for each Linux, in an archive and in a wheel, the program for each, the verdicts of the proofs, the package for JavaScript, the plugin of QGIS, in source
# the crate for Rust, the C library and the package for Python, the site, and SHA256SUMS. What isn't built yet is built first; the C library and the program for each processor of their machine. Two runs over one commit give the same bytes:
# names are sorted, and each time is that of the commit, which the file COMMIT of a source archive has too, or SOURCE_DATE_EPOCH.
#
# usage: dist.sh FOLDER [PART..]
#
# A part is linux-x86_64, linux-aarch64, wheel-x86_64, wheel-aarch64, program-x86_64, program-aarch64, proof, javascript, qgis, rust, c, python, source or site. Where
# none is named, all are packed. The last seven need no kit.
set -euo pipefail
umask 022
export LC_ALL=C
unset MAKEFLAGS MFLAGS
top=$(cd "$(dirname "$0")/.." && pwd)
folder=${1:?the folder to pack into}
shift
[ $# -gt 0 ] || set -- linux-x86_64 linux-aarch64 wheel-x86_64 wheel-aarch64 program-x86_64 program-aarch64 proof javascript qgis rust c python source site
version=$("$top/scripts/version.sh")
if [ -z "${SOURCE_DATE_EPOCH-}" ]; then
    SOURCE_DATE_EPOCH=$(stat -c %Y "$top/COMMIT" 2> /dev/null || git -C "$top" log -1 --format=%ct 2> /dev/null) || {
        echo "dist.sh: no commit in $top says the time of the files: set SOURCE_DATE_EPOCH to it, in seconds since 1970" >&2
        exit 1
    }
fi
export SOURCE_DATE_EPOCH
work=$(mktemp -d)
trap 'rm -rf "$work"' EXIT
mkdir "$work/packed"

. "$top/scripts/erased.sh"

# Packs the folder $1 of $work into the file $2.
pack() {
    tar --create --format=ustar --sort=name --owner=0 --group=0 --numeric-owner --mode=u=rwX,go=rX --mtime="@$SOURCE_DATE_EPOCH" -C "$work" "$1" |
        gzip -n9 > "$work/packed/$2"
}

# The library for the machine $1, with $library its folder and $choice the word by which make takes it.
build_library() {
    case $1 in
    x86_64) library=$top/bindings/c/out/x86-64 choice=CPU=x86-64 && bash "$top/bindings/c/build.sh" --cpu x86-64 ;;
    aarch64) library=$top/bindings/c/out/aarch64 choice=TARGET=aarch64 && bash "$top/bindings/c/build.sh" --target aarch64 ;;
    esac
}

print_proof() { python3 "$top/scripts/proof.py" "$@"; }

pack_linux() {
    local machine=$1 name=i_shape-$version-linux-$1
    build_library "$machine"
    make -s -C "$top" install-c "$choice" DESTDIR="$work/$name" PREFIX=
    # so that the folder may lie anywhere
    sed 's|@PREFIX@|${pcfiledir}/../..|; s|@INCLUDEDIR@|${prefix}/include|; s|@LIBDIR@|${prefix}/lib|' "$library/i_shape.pc.in" > "$work/$name/lib/pkgconfig/i_shape.pc"
    cp "$top/bindings/c/archive.cmake" "$work/$name/CMakeLists.txt"
    cp "$top/bindings/c/install.cmake" "$work/$name"
    cp "$top/bindings/c/archive.mk" "$work/$name/Makefile"
    cp -R "$top/bindings/c/check" "$work/$name"
    mkdir "$work/$name/sample"
    cp -R "$top"/bindings/c/{sample.c,codes.c,sample.cpp,codes.cpp,consumer} "$top"/examples/{clean,polygons}.c "$work/$name/sample"
    cp "$top"/{LICENSE,NOTICE} "$work/$name"
    sed "s|@VERSION@|$version|; s|@MACHINE@|$machine|" "$top/bindings/c/archive.md" > "$work/$name/README.md"
    print_proof "$library/build.log" i_shape_c_calls "$work/$name" lib/libi_shape.a "lib/libi_shape.so.$version" > "$work/$name/PROOF"
    [ "$machine" != x86_64 ] || add_faster "$work/$name"
    pack "$name" "$name.tar.gz"
}

# The library for x86-64-v2, with $default its folder.
build_default() {
    default=$top/bindings/c/out
    bash "$top/bindings/c/build.sh"
}

# It beside the library for each x86-64, in the folder $1/lib: glibc's loader takes that on a processor that has x86-64-v2.
add_faster() {
    local to=$1/lib/glibc-hwcaps/x86-64-v2
    build_default
    mkdir -p "$to"
    cp -P "$default"/libi_shape.so.* "$to"
    print_proof "$default/build.log" i_shape_c_calls "$1" "lib/glibc-hwcaps/x86-64-v2/libi_shape.so.$version" > "$1/PROOF.x86-64-v2"
}

pack_program() {
    local machine=$1 name=i_shape_tool-$version-linux-$1 kind=x86-64 choice=CPU=x86-64
    [ "$machine" = x86_64 ] || { kind=aarch64 && choice=TARGET=aarch64; }
    make -s -C "$top" install-program "$choice" DESTDIR="$work/$name" PREFIX=
    cp "$top"/{LICENSE,NOTICE} "$work/$name"
    sed "s|@VERSION@|$version|; s|@MACHINE@|$machine|" "$top/scripts/program/archive.md" > "$work/$name/README.md"
    print_proof "$top/crates/i_shape_tool_main/out/$kind/build.log" i_shape_tool_main "$work/$name" bin/i_shape_tool > "$work/$name/PROOF"
    pack "$name" "$name.tar.gz"
}

# The verdict of each crate that a release rests on or claims, from nothing: in a copy of these, for which the kit has kept nothing.
pack_proof() {
    local name=i_shape-$version-proof crate
    local proved=(i_shape_core i_shape_contacts i_shape_touching i_shape_source i_shape_laws i_shape i_shape_tool i_shape_tool_main i_shape_c i_shape_c_calls)
    mkdir "$work/anew" "$work/$name"
    tar --create --exclude=out -C "$top" HANDLES "${proved[@]/#/crates/}" | tar -x -C "$work/anew"
    grep -E "^($(IFS='|' && echo "${proved[*]}"))[ :]" "$top/crates.txt" > "$work/anew/crates.txt"
    echo 'dist.sh: proving each crate from nothing' >&2
    (cd "$work/anew" && rt all verdict < /dev/null > "$work/log" 2>&1) || { tail -n 20 "$work/log" >&2 && exit 1; }
    for crate in "${proved[@]}"; do
        print_proof --verdict "$work/log" "$crate" > "$work/$name/$crate"
    done
    rm -rf "$work/anew"
    sed "s|@VERSION@|$version|" "$top/scripts/proof.md" > "$work/$name/README.md"
    pack "$name" "$name.tar.gz"
}

pack_wheel() {
    build_library "$1"
    default=''
    [ "$1" != x86_64 ] || build_default
    I_SHAPE_C_DIR=$library WHEEL_FASTER=$default WHEEL_SYSTEM=manylinux_2_17 sh "$top/bindings/python/build.sh" "$work/packed" > /dev/null
}

# As `npm pack` lays it out, so that a release needs no npm.
pack_javascript() {
    local its=$top/bindings/js
    bash "$its/build.sh"
    mkdir -p "$work/package/out"
    cp -R "$its"/{package.json,README.md,src} "$top"/{LICENSE,NOTICE} "$work/package"
    cp "$its/out/i_shape32.wasm" "$work/package/out"
    pack package "i_shape-$version-javascript.tgz"
}

# The crate for Rust, and in a folder of it the crate for serde.
pack_rust() {
    local name=i_shape-$version-rust
    lay_crate "$work/$name"
    mkdir "$work/$name/serde"
    cp -R "$top"/rust/i_shape_serde/{src,tests} "$work/$name/serde"
    sed '/^#/d; s|path = "../i_shape"|path = ".."|' "$top/rust/i_shape_serde/Cargo.toml" > "$work/$name/serde/Cargo.toml"
    pack "$name" "$name.tar.gz"
}

# The package of the C library in the folder $1, whose build script is left with naming it. Where C is musl, Rust links programs statically, and a shared library
# only by a flag.
add_c_library() {
    mkdir -p "$1/.cargo"
    cp -R "$top/rust/c_library/src" "$1"
    sed '/^    \/\/ cuts the contracts/,/^    erase::/d' "$top/rust/c_library/build.rs" > "$1/build.rs"
    printf '%s\n' "[target.'cfg(target_env = \"musl\")']" 'rustflags = ["-C", "target-feature=-crt-static"]' > "$1/.cargo/config.toml"
    add_erased c_library "$1"
}

# The C library in source, for CMake.
pack_c() {
    local its=$top/bindings/c name=i_shape-$version-c
    mkdir -p "$work/$name"/{cmake,include,sample}
    sed "s|@VERSION@|$version|; s|@SONAME@|$("$top/scripts/version.sh" --soname)|" "$its/source/CMakeLists.txt" > "$work/$name/CMakeLists.txt"
    cp "$its/source/install.cmake" "$its"/cmake/* "$its/i_shape.pc.in" "$work/$name/cmake"
    cp "$top"/include/i_shape.{h,hpp} "$work/$name/include"
    cp -R "$its/check" "$top"/{LICENSE,NOTICE} "$work/$name"
    cp -R "$its"/{sample.c,codes.c,sample.cpp,codes.cpp,consumer} "$top"/examples/{clean,polygons}.c "$work/$name/sample"
    sed "s|@VERSION@|$version|" "$its/source/README.md" > "$work/$name/README.md"
    add_c_library "$work/$name/rust"
    pack "$name" "$name.tar.gz"
}

# As setuptools lays a source distribution out.
pack_python() {
    local its=$top/bindings/python name=i_shape-$version
    mkdir "$work/sdist"
    cp -R "$its"/{src,README.md,pyproject.toml,setup.py,MANIFEST.in} "$top"/{LICENSE,NOTICE,include/i_shape.h} "$work/sdist"
    find "$work/sdist" -name __pycache__ -prune -exec rm -rf {} +
    add_c_library "$work/sdist/rust"
    (cd "$work/sdist" && "${PYTHON:-/usr/bin/python3}" -c 'from setuptools.build_meta import build_sdist; build_sdist("out")' > "$work/log" 2>&1) || { cat "$work/log" >&2 && exit 1; }
    tar -xzf "$work/sdist/out/$name.tar.gz" -C "$work"
    pack "$name" "$name.tar.gz"
}

# The plugin of QGIS, as QGIS installs it from a zip. The wheel isn't in it.
pack_qgis() {
    local its=$work/qgis/i_shape_qgis
    mkdir -p "$its"
    cp "$top"/bindings/qgis/i_shape_qgis/*.py "$top/LICENSE" "$its"
    sed "s|@VERSION@|$version|" "$top/bindings/qgis/i_shape_qgis/metadata.txt" > "$its/metadata.txt"
    "${PYTHON:-/usr/bin/python3}" - "$work/qgis" "$work/packed/i_shape-$version-qgis.zip" << 'PROGRAM'
import os, pathlib, sys, time, zipfile
folder, name = map(pathlib.Path, sys.argv[1:])
time = time.gmtime(int(os.environ["SOURCE_DATE_EPOCH"]))[:6]
with zipfile.ZipFile(name, "w") as packed:
    for path in sorted(folder.glob("*/*")):
        its = zipfile.ZipInfo(str(path.relative_to(folder)), time)
        its.external_attr = 0o100644 << 16
        packed.writestr(its, path.read_bytes(), zipfile.ZIP_DEFLATED)
PROGRAM
}

# All sources, as a clone has them.
pack_source() {
    local name=i_shape-$version-source
    bash "$top/scripts/source.sh" "$work/$name"
    pack "$name" "$name.tar.gz"
}

pack_site() {
    local name=i_shape-$version-site
    bash "$top/scripts/site.sh"
    cp -R "$top/docs/out" "$work/$name"
    # what is in a release is released
    find "$work/$name" -name 'CHANGELOG*' -type f -exec sed -i '/^\(<p>\)\?Not released yet\.\(<\/p>\)\?$/d' {} +
    grep -rlZI ', not released yet,' "$work/$name" | xargs -0r sed -i 's/, not released yet,/,/'
    pack "$name" "$name.tar.gz"
}

for part; do
    case $part in
    linux-x86_64 | linux-aarch64) pack_linux "${part#linux-}" ;;
    wheel-x86_64 | wheel-aarch64) pack_wheel "${part#wheel-}" ;;
    program-x86_64 | program-aarch64) pack_program "${part#program-}" ;;
    proof) pack_proof ;;
    javascript) pack_javascript ;;
    qgis) pack_qgis ;;
    rust) pack_rust ;;
    c) pack_c ;;
    python) pack_python ;;
    source) pack_source ;;
    site) pack_site ;;
    *) echo "dist.sh: what is $part?" >&2 && exit 2 ;;
    esac
done
mkdir -p "$folder"
mv "$work"/packed/* "$folder"
# What was packed into the folder before has its line too.
python3 "$top/scripts/sbom.py" "$folder" "$version" > "$work/sbom"
mv "$work/sbom" "$folder/i_shape-$version.spdx.json"
(cd "$folder" && sha256sum -- i_shape* > "$work/SHA256SUMS")
mv "$work/SHA256SUMS" "$folder"

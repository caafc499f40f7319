#!/usr/bin/env bash
# Builds the C library and tests it, with allocators in which each growth fails in turn, and under the address sanitizer and valgrind; i_shape.hpp by two compilers;
# what is built, installed and found by CMake; and the programs of the pages. With --quick by one compiler, and under neither of the tools.
. "$(dirname "$0")/part.sh" || exit 1
library=bindings/c/out
archive=crates/i_shape_c_calls/out/libi_shape_c_calls.a
c=("${CC:-cc}" -std=c11)

# The names that the libraries export are those that the header declares.
test_names() {
    declared > "$work/declared" && [ -s "$work/declared" ] || count 1 'the names of the header'
    check 'the names of the shared library' diff <(nm -D --defined-only "$library/libi_shape.so" | cut -d ' ' -f 2- | sort) <(sed 's/^/T /' "$work/declared")
    has 'the names of the archive' rt || return
    "$(dirname "$(rt doc)")/toolchain/bin/llvm-ar" p "$archive" > "$work/all.o"
    check 'the names of the archive' diff <(nm -g --defined-only "$work/all.o" | sed -nE 's/^.* T (.*)$/\1/p' | sort) "$work/declared"
}

# A killed build for another processor has left the archive of the default in the folder $1, and another in its place, which the next build mends.
restores_default() {
    mkdir -p "$1" && cp -p "$archive" "$1/default.a" && cp -p "$archive" "$work/default.a" && rm "$archive" && echo another > "$archive" &&
        bash bindings/c/build.sh && cmp "$archive" "$work/default.a"
}

test_build() {
    local left=$library/killed
    check 'what is built, while another build runs' flock "$library/build.lock" timeout 60 bash bindings/c/build.sh
    prints 'TARGET and CPU of the environment' "$(make -s -n c)" env TARGET=another CPU=another make -s -n c
    mv "$library/libi_shape.so" "$work"
    check 'a library that is gone' fails bash bindings/c/build.sh --is-built
    mv "$work/libi_shape.so" "$library"
    [ -e "$library/by_cargo" ] || check 'what a killed build has left' restores_default "$left"
    [ ! -e "$left/default.a" ] || mv "$left/default.a" "$archive"
    rm -rf "$left"
}

# The program $2 prints what the page $1 says. It is compiled by the words from $3 on.
test_program() {
    rm -f "$work/program"
    "${@:3}" "${warnings[@]}" -Iinclude "$2" "$library/libi_shape.a" -o "$work/program"
    prints "$2" "$(shown "$1" "$2")" "$work/program"
}

# The compiler rejects each point of rejected.cpp by the words beside it.
test_rejected_points() {
    local number words
    while read -r number words; do
        ! "${CXX:-c++}" -std=c++17 -Iinclude "-DREJECTED=$number" -fsyntax-only bindings/c/rejected.cpp 2> "$work/log" && grep -qF "$words" "$work/log"
        count $? "the point $number of rejected.cpp: $words"
    done < <(sed -nE 's|^#(el)?if REJECTED == ([0-9]+) /\* (.*) \*/$|\2 \3|p' bindings/c/rejected.cpp)
}

# Of C++14 the compiler says what i_shape.hpp needs, and nothing else.
test_older_standard() {
    echo '#include "i_shape.hpp"' > "$work/older.cpp"
    ! "${CXX:-c++}" -std=c++14 -Iinclude -fsyntax-only "$work/older.cpp" 2> "$work/log" && grep -q 'error: .*needs C++17' "$work/log" &&
        [ "$(grep -c error: "$work/log")" = 1 ]
    count $? 'i_shape.hpp, C++14'
}

# The programs of the page and the tests of i_shape.hpp, by the compiler $1 at the level $2.
test_cpp() {
    has "i_shape.hpp, $1" "$1" || return
    test_program docs/CPP.md bindings/c/sample.cpp "$1" -std=c++17
    test_program docs/CPP.md bindings/c/codes.cpp "$1" -std=c++17
    test_as "i_shape.hpp, $1" "$1" -std=c++17 "$2" bindings/c/test.cpp "$library/libi_shape.a"
}

# What the program $1 prints, and which of the libraries it is linked with.
answer_and_library() { "$1" && if readelf -d "$1" | grep -q 'NEEDED.*libi_shape\.so'; then echo shared; else echo static; fi; }

# A project of CMake, configured by the words from $3 on, builds, and each of its programs prints the corners, over the library of its name: i_shape is the one $2.
test_project() {
    local program kind
    cmake -S bindings/c/consumer -B "$work/project" "${@:3}" > "$work/log" 2>&1 && cmake --build "$work/project" >> "$work/log" 2>&1 || cat "$work/log"
    for program in {i_shape,static,shared}_in_{c,cpp}; do
        kind=${program%_in_*}
        prints "CMake, $1: $program" "$corners"$'\n'"${kind/i_shape/$2}" answer_and_library "$work/project/$program"
    done
    rm -rf "$work/project"
}

# Which requests the version 0.1.5 for Linux on x86-64 serves.
test_versions() {
    local request machine
    mkdir "$work/versions"
    sed 's/@VERSION@/0.1.5/; s/@SYSTEM@/Linux/; s/@PROCESSOR@/x86_64|amd64/' bindings/c/cmake/i_shape-config-version.cmake.in > "$work/versions/i_shape-config-version.cmake"
    : > "$work/versions/i_shape-config.cmake"
    printf '%s\n' 'find_package(i_shape ${ASKED} QUIET PATHS "${CMAKE_CURRENT_LIST_DIR}/versions" NO_DEFAULT_PATH)' 'message(STATUS "${i_shape_FOUND}")' > "$work/ask.cmake"
    for request in '0.1 1' '0.1.6 0' '0.0 0' '0.2 0' '0.1...0.1.5 1' '0.1...<0.1.5 0' '0.1...0.1.4 0' '0.0...0.2 0'; do
        prints "CMake, the version 0.1.5 where it is asked for ${request% *}" "-- ${request#* }" cmake "-DASKED=${request% *}" -P "$work/ask.cmake"
    done
    for machine in 'Linux x86_64 1' 'Linux amd64 1' 'Linux aarch64 0' 'Darwin x86_64 0' 'Linux i686 0'; do
        set -- $machine
        prints "CMake, the version 0.1.5 where it is asked for on $1, $2" "-- $3" cmake -DASKED=0.1 "-DCMAKE_SYSTEM_NAME=$1" "-DCMAKE_SYSTEM_PROCESSOR=$2" -P "$work/ask.cmake"
    done
}

# The library in a project of CMake, installed into a folder whose name has a space and that a link leads to, and as a folder of a clone.
test_cmake() {
    local prefix="$work/a prefix"
    has CMake cmake || return
    make -s install-c PREFIX="$prefix/usr" && ln -s usr/lib "$prefix/lib"
    test_project 'find_package' static "-DCMAKE_PREFIX_PATH=$prefix" -DI_SHAPE_VERSION=0.2
    test_project 'add_subdirectory' shared "-DI_SHAPE_FOLDER=$PWD/bindings/c" -DBUILD_SHARED_LIBS=ON
    ! cmake -S bindings/c/consumer -B "$work/project" "-DCMAKE_PREFIX_PATH=$prefix" -DI_SHAPE_VERSION=0.1 > "$work/log" 2>&1 && grep -q 'version: 0.2' "$work/log"
    count $? 'CMake, find_package: another minor version'
    test_versions
}

# `make install-c` into folders of one's own below DESTDIR, and `make uninstall-c`.
test_install() {
    local to=$work/destdir lib=$work/destdir/usr/lib/of_a_machine soname
    local its=(DESTDIR="$to" PREFIX=/usr LIBDIR=/usr/lib/of_a_machine INCLUDEDIR=/usr/include/of_its_own)
    make -s install-c "${its[@]}" && soname=$(readelf -d "$lib/libi_shape.so" | sed -nE 's/.*SONAME.*\[(.*)\]/\1/p') &&
        [ "$soname" = "libi_shape.so.$(scripts/version.sh --soname)" ] && [ -e "$lib/$soname" ] &&
        grep -q "IMPORTED_SONAME $soname)$" "$lib/cmake/i_shape/i_shape-targets.cmake"
    count $? 'make install-c: the name of the shared library'
    grep -qx 'includedir=/usr/include/of_its_own' "$lib/pkgconfig/i_shape.pc" &&
        grep -qF 'foreach(i_shape_HEADERS "../../include/of_its_own" ' "$lib/cmake/i_shape/i_shape-config.cmake"
    count $? 'make install-c: the folders that pkg-config and CMake name'
    make -s uninstall-c "${its[@]}" && [ -z "$(find "$to" ! -type d)" ]
    count $? 'make uninstall-c'
}

has_built 'c library' bindings/c/build.sh || end_part
test_names
[ -n "$is_quick" ] || test_build
for program in bindings/c/{sample,codes}.c examples/{clean,polygons}.c; do
    test_program docs/C.md "$program" "${c[@]}"
done
# one compiler does where time counts, the quicker of the two
if [ -z "$is_quick" ] || ! command -v clang++ > /dev/null; then test_cpp g++ -O2; fi
if [ -z "$is_quick" ] || command -v clang++ > /dev/null; then test_cpp clang++ -O0; fi
test_rejected_points
test_older_standard
test_cmake
test_install
tests=("${c[@]}" bindings/c/test.c)
other=bindings/c/allocator.c
test_as 'C11' "${tests[@]}" "$library/libi_shape.a"
test_hashes 'C11' "$library/libi_shape.a" "${CC:-cc}"
test_as 'C++17' "${CXX:-c++}" -std=c++17 -x c++ bindings/c/test.c -x none "$library/libi_shape.a"
test_as 'C11, shared' "${tests[@]}" "$library/libi_shape.so" "-Wl,-rpath,$PWD/$library"
test_as 'each growth failing' "${tests[@]}" -DOWN_ALLOCATOR "$library/libi_shape.a"
[ -z "$is_quick" ] || end_part
test_as 'the allocator for other machines' "${tests[@]}" $other "$library/libi_shape.a"
test_as 'the allocator for other machines, each growth failing' "${tests[@]}" -DWRAPPED_MALLOC -Wl,--wrap=malloc,--wrap=realloc,--wrap=free $other \
    "$library/libi_shape.a"
test_hardened '' "$library/libi_shape.a"
end_part

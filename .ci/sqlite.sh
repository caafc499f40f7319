#!/usr/bin/env bash
# Builds the extension of SQLite over the library of `make c`, and tests it: in the shell sqlite3, from Python's sqlite3, and where they are there beside the
# Python package, GDAL and SpatiaLite; and the code over WKB that it shares with the extension of PostgreSQL. With --long it tries a million mutated blobs, and
# with --quick none.
. "$(dirname "$0")/part.sh" || exit 1
library=$PWD/bindings/c/out
here=bindings/sqlite
shared=bindings/wkb
sanitizers=(-fsanitize=address,undefined -fno-sanitize-recover=undefined)
case ${1-} in
--long) wkbs=5000000 blobs=1000000 ;;
*) wkbs=1000000 blobs=40000 ;;
esac

# The extension, built in the folder $1 with the words from $2 on.
build() { make -s -f "$here/Makefile" "I_SHAPE_C_DIR=$library" "OUT=$1" "${@:2}"; }

compile_fuzz() {
    "${CC:-cc}" -std=gnu11 -g -O1 "${sanitizers[@]}" -DSQLITE_CORE -Iinclude "-I$shared" "-I$here" "$shared"/{wkb,forms,contacts}.c "${@:2}" "$library/libi_shape.a" \
        -lm -lpthread -o "$1"
}

# Compiles the fuzzer from the files from $3 on, and runs it over $2 mutated blobs. At the end the sanitizer looks for blocks that weren't freed.
test_fuzz() {
    needs "$1" 'the compiler has no address sanitizer that runs here' compiles_with "${sanitizers[@]}" || return
    check "$1, compiled" compile_fuzz "$work/fuzz" "${@:3}" && check "$1" "$work/fuzz" "$2"
}

# The rule by which coordinates are rounded onto a grid, row by row of its table.
test_grid() {
    "${CC:-cc}" -std=gnu11 -O2 -Wall -Wextra -Werror -Iinclude "-I$shared" "$shared"/{wkb,forms,contacts,tests/grid}.c "$library/libi_shape.a" -lm -lpthread \
        -o "$work/grid" && "$work/grid" bindings/grid.txt
}

# Runs SQLite's shell with these words, and prints its errors too.
ask() { sqlite3 -batch "$@" 2>&1; }

test_shell() {
    has 'the shell' sqlite3 || return
    local square="x'0103000000010000000500000000000000000000000000000000000000000000000000f03f0000000000000000000000000000f03f000000000000f03f0000000000000000000000000000f03f00000000000000000000000000000000'"
    prints 'a line of the shell' 1 ask :memory: ".load $work/out/mod_i_shape" "SELECT i_shape_is_clean($square, 1)"
    prints 'a file of another name' 2 ask :memory: ".load $work/renamed" "SELECT i_shape_area_two($square, 1)"
    prints 'an error' 'i_shape: step is a text, not a finite number above 0' \
        bash -c "sqlite3 -batch :memory: '.load $work/out/mod_i_shape' \"SELECT i_shape_key(x'00', '1')\" 2>&1 | grep -o 'i_shape: step .*'"
    prints 'the version' "$(sed -n '/^## /{s/^## //p;q}' CHANGELOG.md)" ask :memory: ".load $work/out/mod_i_shape" 'SELECT i_shape_version()'
}

# The module exports its entry points alone, and imports no name of SQLite, since it calls SQLite by the table that it is given.
test_module() {
    prints 'the names of the module' $'sqlite3_extension_init\nsqlite3_modishape_init\nsqlite3_modishapegpkg_init' \
        bash -c "nm -D --defined-only '$work/out/mod_i_shape.so' | sed 's/.* //' | sort"
    prints 'what it asks of a program' 0 bash -c "nm -D --undefined-only '$work/out/mod_i_shape.so' | grep -c sqlite3; true"
    # make runs the inner make where it only prints what it would do
    ln -s "$library/libi_shape.a" "$work"
    prints 'make sqlite install-sqlite I_SHAPE_C_DIR=..' 2 \
        bash -c "make -n sqlite install-sqlite 'I_SHAPE_C_DIR=$work' | grep -c 'I_SHAPE_C_DIR=$work\b'"
    check 'make install' build "$work/out" install "DESTDIR=$work/installed" LIBDIR=/usr/lib
    check 'what is installed' cmp "$work/out/mod_i_shape.so" "$work/installed/usr/lib/mod_i_shape.so"
}

# Over the library of a release, and over that of cargo wherever it is installed, the module looks for no SSE4.2.
test_folder() {
    local folder=$work/release
    mkdir -p "$folder/glibc-hwcaps" && cp "$library/libi_shape.a" "$folder"
    check 'over the library of a release' build "$work/of_release" "I_SHAPE_C_DIR=$folder"
    [ -e "$work/of_release/mod_i_shape.so" ] && ! grep -q 'has no SSE4.2' "$work/of_release/mod_i_shape.so"
    count $? 'over the library of a release it is for each x86-64'
    rm -r "$folder/glibc-hwcaps"
    needs 'over the library of cargo' 'the library is not of cargo' [ -e "$library/by_cargo" ] || return
    check 'over the library of cargo' build "$work/of_cargo" "I_SHAPE_C_DIR=$folder"
    [ -e "$work/of_cargo/mod_i_shape.so" ] && ! grep -q 'has no SSE4.2' "$work/of_cargo/mod_i_shape.so"
    count $? 'over the library of cargo it is for each x86-64'
}

# A module that finds a processor without SSE4.2 fails to load.
test_processor() {
    needs 'a processor without SSE4.2' 'this one is no x86-64' [ "$(uname -m)" = x86_64 ] || return
    needs 'a processor without SSE4.2' "cargo's library is for each x86-64" [ ! -e "$library/by_cargo" ] || return
    has 'a processor without SSE4.2' sqlite3 || return
    build "$work/old" 'CFLAGS="-D__builtin_cpu_supports(name)=0"' > "$work/log" 2>&1 || cat "$work/log"
    prints 'a processor without SSE4.2' 1 bash -c "sqlite3 -batch :memory: '.load $work/old/mod_i_shape' 2>&1 | grep -c 'the processor has no SSE4.2'"
}

# SHA-256 of each length up to seven blocks, and of a million bytes, as Python has it.
test_sha256() {
    "${CC:-cc}" -std=c11 -O2 "${warnings[@]}" -fPIC -shared "$here/sha256.c" -o "$work/sha256.so"
    check 'SHA-256' python3 - "$work/sha256.so" << 'PROGRAM'
import ctypes, hashlib, random, sys
sha256 = ctypes.CDLL(sys.argv[1]).sha256
digest = ctypes.create_string_buffer(32)
for length in [*range(449), 10 ** 6]:
    text = random.Random(length).randbytes(length)
    sha256(text, ctypes.c_size_t(length), digest)
    assert digest.raw == hashlib.sha256(text).digest(), length
PROGRAM
}

run_tests() {
    MOD_I_SHAPE=$work/out/mod_i_shape.so I_SHAPE_C_DIR=$library PYTHONPATH=bindings/python/src "$python" bindings/python/tests/__main__.py "$here/tests" \
        > "$work/told" 2>&1
    local status=$?
    if [ "$status" = 0 ]; then grep ' not tested: ' "$work/told"; tail -n 1 "$work/told"; else cat "$work/told"; fi
    return $status
}

has_c_library sqlite || end_part
add 'the table of the grid' test_grid
[ -n "$is_quick" ] || test_fuzz 'mutated WKB' $wkbs "$shared/tests/fuzz.c"
needs sqlite 'there is no sqlite3ext.h, of libsqlite3-dev' [ -e /usr/include/sqlite3ext.h ] || end_part
[ -n "$is_quick" ] || test_fuzz 'mutated blobs' $blobs "$here"/{extension,blobs,sha256}.c "$here/tests/fuzz.c" -lsqlite3
build "$work/out" > "$work/log" 2>&1 || { cat "$work/log" && count 1 'the extension' && end_part; }
cp "$work/out/mod_i_shape.so" "$work/renamed.so"
test_shell
test_module
test_folder
test_processor
test_sha256
add 'from Python' run_tests
end_part

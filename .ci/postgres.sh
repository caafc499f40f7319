#!/usr/bin/env bash
# Builds the extension of PostgreSQL over the library of `make c`, and tests it in a server of its own. With --quick no growth fails.
. "$(dirname "$0")/part.sh" && . .ci/server.sh || exit 1
library=$PWD/bindings/c/out
here=bindings/postgres
has_postgres postgres || end_part
has_c_library postgres || end_part

# `make postgres` and `make install-postgres` over the library in another folder, as that of a release, build none.
test_folder() {
    local folder=$work/release
    # make runs the inner make where it only prints what it would do
    mkdir -p "$folder/glibc-hwcaps" bindings/postgres/out && cp "$library/libi_shape.a" "$folder"
    check 'make postgres I_SHAPE_C_DIR=..: no C library is built' fails grep -q bindings/c/build.sh <(make -n postgres install-postgres "I_SHAPE_C_DIR=$folder")
    check 'make postgres I_SHAPE_C_DIR=..' make -s postgres "I_SHAPE_C_DIR=$folder" "PG_CONFIG=$bin/pg_config"
    [ -e bindings/postgres/out/i_shape.so ] && ! strings bindings/postgres/out/i_shape.so | grep -q 'Build the extension with CPU=x86-64'
    count $? 'make postgres I_SHAPE_C_DIR=..: the library of a release is for each x86-64'
    # without a kit the library is cargo's, which CMake installs beside no other file
    rm -r "$folder/glibc-hwcaps"
    needs 'make postgres I_SHAPE_C_DIR=..: the library of cargo' 'the library is not of cargo' [ -e "$library/by_cargo" ] || return
    check 'make postgres I_SHAPE_C_DIR=.., over the library of cargo' make -s postgres "I_SHAPE_C_DIR=$folder" "PG_CONFIG=$bin/pg_config"
    check 'make postgres I_SHAPE_C_DIR=..: the library of cargo is for each x86-64' fails grep -q 'Build the extension with CPU=x86-64' bindings/postgres/out/i_shape.so
}

# A statement, or more words, of psql. An error ends it, and is printed as a result is.
ask() { psql -XAtq -v ON_ERROR_STOP=1 "$@" 2>&1; }

test_regress() {
    local name
    build_postgres "$work/out" installcheck > "$work/told" 2>&1 || cat "$work/out/regression.diffs" "$work/told"
    for name in $(sed -n 's/^REGRESS = //p' "$here/Makefile" | grep . || echo none); do
        check "pg_regress, $name" grep -qE "^test $name +\.\.\. ok" "$work/told"
    done
}

# A dump, which empties the search path, of a table with an index, a column and a check over the calls.
test_restore() {
    ask -c 'CREATE DATABASE dumped' -c 'CREATE DATABASE restored' -d template1 &&
        ask -d dumped -c 'SET client_min_messages = error' -c 'CREATE EXTENSION i_shape CASCADE' \
            -c 'CREATE TABLE kept (geom geometry CHECK (i_shape_is_clean(geom, 1)), digest bytea GENERATED ALWAYS AS (i_shape_digest(geom, 1)) STORED)' \
            -c 'CREATE UNIQUE INDEX ON kept (i_shape_key(geom, 1))' \
            -c 'INSERT INTO kept SELECT ST_MakeEnvelope(x, 0, x + 1, 1) FROM generate_series(1, 100) AS x'
    "$bin/pg_dump" dumped | ask -d restored > /dev/null
    prints 'a restore' 100 ask -d restored -c 'SELECT count(*) FROM kept WHERE digest = sha256(i_shape_key(ST_Reverse(geom), 1))'
}

# Keys of the package for Python, made of the same polygons: oriented, and with what both have by default.
test_python_keys() {
    has_python "keys beside Python's" || return
    I_SHAPE_C_DIR=$library PYTHONPATH=bindings/python/src "$python" "$here/tests/keys.py" 20000 > "$work/keys"
    ask -c 'CREATE TABLE python_keys (wkb bytea, oriented bytea, by_default bytea)' -c "\\copy python_keys FROM '$work/keys'"
    prints "keys beside Python's" '20000|20000|20000|20000' ask -c "SELECT count(*),
        count(*) FILTER (WHERE i_shape_wkb_key(wkb, 0.25, true) IS NOT DISTINCT FROM nullif(oriented, '')),
        count(*) FILTER (WHERE i_shape_wkb_key(wkb, 0.25) IS NOT DISTINCT FROM nullif(by_default, '')),
        count(*) FILTER (WHERE i_shape_key(ST_GeomFromEWKB(wkb), 0.25) IS NOT DISTINCT FROM nullif(by_default, '')) FROM python_keys"
}

# What SQLite returns of the same geometries, from a GeoPackage and as EWKB.
test_sqlite() {
    needs 'the bytes of SQLite' 'there is no sqlite3ext.h, of libsqlite3-dev' [ -e /usr/include/sqlite3ext.h ] || return
    make -s -f bindings/sqlite/Makefile "I_SHAPE_C_DIR=$library" "OUT=$work/sqlite" > "$work/log" 2>&1 || cat "$work/log"
    MOD_I_SHAPE=$work/sqlite/mod_i_shape.so I_SHAPE_C_DIR=$library PYTHONPATH=bindings/python/src "$python" bindings/sqlite/tests/rows.py 5000 > "$work/rows"
    ask -c 'CREATE TABLE of_sqlite (wkb bytea, step float8, point bytea, simplified bytea, despiked bytea, canonical bytea, oriented bytea, key bytea, oriented_key bytea,
        digest bytea, is_clean bool, has_no_spikes bool, is_valid bool, reason text, may_touch bool, touching_reason text, contacts bytea, area_two numeric, winding int8)' -c "\\copy of_sqlite FROM '$work/rows'"
    prints 'the bytes of SQLite' '5000|5000|5000' ask -c "SELECT count(*),
        count(*) FILTER (WHERE (simplified, despiked, canonical, oriented, is_clean, has_no_spikes, is_valid, reason, may_touch, touching_reason, contacts, area_two, winding) IS NOT DISTINCT FROM
            (i_shape_wkb_simplify(wkb, step), i_shape_wkb_despike(wkb, step), i_shape_wkb_canonical(wkb, step), i_shape_wkb_canonical(wkb, step, true),
             i_shape_wkb_is_clean(wkb, step), i_shape_wkb_has_no_spikes(wkb, step), i_shape_wkb_is_valid(wkb, step),
             i_shape_wkb_validity_reason(wkb, step), i_shape_wkb_is_valid(wkb, step, true),
             i_shape_wkb_validity_reason(wkb, step, true), i_shape_wkb_contact_points(wkb, step), i_shape_wkb_area_two(wkb, step),
             i_shape_wkb_winding(wkb, point, step))),
        count(*) FILTER (WHERE (key, oriented_key, digest) IS NOT DISTINCT FROM
            (i_shape_wkb_key(wkb, step), i_shape_wkb_key(wkb, step, true), i_shape_wkb_digest(wkb, step))) FROM of_sqlite"
    prints 'the geometries of SQLite' '5000' ask -c "SELECT count(*) FROM of_sqlite
        WHERE simplified = ST_AsEWKB(i_shape_simplify(ST_GeomFromEWKB(wkb), step)) AND digest IS NOT DISTINCT FROM i_shape_digest(ST_GeomFromEWKB(wkb), step)"
}

# Each growth of memory in each call, failing; and results above what a server takes, which this module has lowered to 1000 bytes.
test_failed_growths() {
    sed 's/AS .MODULE_PATHNAME./AS '"'${work//\//\\/}\/failing\/i_shape'"'/; /^\\echo/d' "$here"/i_shape--0.1{,--0.2}.sql > "$work/failing.sql"
    mkdir -p "$work/failing/tests" && build_postgres "$work/failing" MORE_OBJS=tests/fail_growth.o MORE_CPPFLAGS=-DMOST_BYTES=1000 > "$work/log" 2>&1 || cat "$work/log"
    ask -c 'CREATE DATABASE failing' -d template1
    ask -d failing -c 'SET client_min_messages = error' -c 'CREATE EXTENSION postgis' -f "$work/failing.sql"
    ask -d failing -v "module=$work/failing/i_shape" < "$here/tests/fail_growth.sql" > "$work/printed"
    check 'each allocation failing, and results that are too long' diff "$here/tests/fail_growth.out" "$work/printed"
}

# A module that finds a processor without SSE4.2 fails to load.
test_processor() {
    needs 'a processor without SSE4.2' 'this one is no x86-64' [ "$(uname -m)" = x86_64 ] || return
    needs 'a processor without SSE4.2' "cargo's library is for each x86-64" [ ! -e "$library/by_cargo" ] || return
    build_postgres "$work/old" 'MORE_CPPFLAGS="-D__builtin_cpu_supports(name)=0"' > "$work/log" 2>&1 || cat "$work/log"
    prints 'a processor without SSE4.2' 'ERROR:  0A000' fails ask -v VERBOSITY=sqlstate -c "LOAD '$work/old/i_shape'"
}

# The module shows the server nothing but its calls, and has the library's version.
test_module() {
    prints 'the names of the module' $'Pg_magic_func\n_PG_init' bash -c "nm -D --defined-only '$work/out/i_shape.so' | sed 's/.* //' | grep -vE '^(pg_finfo_)?pg_i_shape_' | sort"
    prints 'the version' "$(sed -n '/^## /{s/^## //p;q}' CHANGELOG.md)" ask -c 'SELECT i_shape_version()'
}

start_server || end_part
export PGDATABASE=contrib_regression
test_regress
test_module
test_restore
test_python_keys
test_sqlite
[ -n "$is_quick" ] || test_failed_growths
test_processor
test_folder
ask -d template1 -c 'CREATE DATABASE page'
add 'docs/POSTGIS.md' env PATH="$bin:$PATH" PGDATABASE=page python3 .ci/pages.py docs/POSTGIS.md
make -s uninstall-postgres "PG_CONFIG=$bin/pg_config" > "$work/log" 2>&1 && [ -z "$(find "$work/own" -name 'i_shape*')" ]
count $? 'make uninstall-postgres'
end_part

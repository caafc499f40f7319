#!/usr/bin/env bash
# Packs the plugin of QGIS and the wheel of the Python package, installs both into folders of their own, and tests the algorithms: by PyQGIS over
# layers in memory, by qgis_process beside the command, on GeoPackages and a shapefile, and where they are there beside SQLite and PostGIS.
. "$(dirname "$0")/part.sh" && . .ci/server.sh || exit 1
library=${I_SHAPE_C_DIR:-$PWD/bindings/c/out}
version=$(scripts/version.sh)
# The copy that the gate tests has no commits.
git log -1 > /dev/null 2>&1 || export SOURCE_DATE_EPOCH=${SOURCE_DATE_EPOCH:-1000000000}

# Debian's qgis_process passes on an option that the program doesn't know.
QGIS_PROCESS=$(command -v qgis_process.bin || command -v qgis_process)
export QGIS_PROCESS QT_QPA_PLATFORM=offscreen QGIS_PLUGINPATH=$work/plugins

install_plugin() {
    bash scripts/dist.sh "$work/dist" qgis && "$python" -m zipfile -e "$work/dist/i_shape-$version-qgis.zip" "$work/plugins" &&
        I_SHAPE_C_DIR=$library PYTHON=$python sh bindings/python/build.sh "$work/dist" &&
        "$python" -m zipfile -e "$work"/dist/*.whl "$work/site"
}

# In a home of its own, where the plugin is enabled and no other of the user's is. QGIS takes the standard library of the first python3 on the path, which has
# to be the one that it is built for.
run_qgis() {
    HOME=$work/home XDG_RUNTIME_DIR=$work PYTHONPATH=$work/site PATH=/usr/bin:$PATH "$@"
}

# The extension of SQLite and a server with that of PostgreSQL, by the variables from which the tests find them.
start_databases() {
    needs 'SQLite and PostGIS beside QGIS' 'there is no libi_shape.a' [ -e "$library/libi_shape.a" ] || return
    if needs 'SQLite beside QGIS' 'there is no sqlite3ext.h, of libsqlite3-dev' [ -e /usr/include/sqlite3ext.h ]; then
        check 'the extension of SQLite' make -s -f bindings/sqlite/Makefile "I_SHAPE_C_DIR=$library" "OUT=$work/sqlite"
        export MOD_I_SHAPE=$work/sqlite/mod_i_shape.so
    fi
    has_postgres 'PostGIS beside QGIS' && start_server
}

run_tests() {
    run_qgis "$python" bindings/python/tests/__main__.py bindings/qgis/tests > "$work/told" 2>&1
    local status=$?
    if [ "$status" = 0 ]; then tail -n 1 "$work/told"; else cat "$work/told"; fi
    return $status
}

needs qgis 'there is no qgis_process' test -n "$QGIS_PROCESS" || end_part
has_python qgis && has qgis ogr2ogr && { [ -n "${I_SHAPE_C_DIR-}" ] || has_c_library qgis; } || end_part
install_plugin > "$work/log" 2>&1 || { cat "$work/log" && count 1 'the plugin' && end_part; }
mkdir "$work/home"
run_qgis "$QGIS_PROCESS" plugins enable i_shape_qgis > "$work/log" 2>&1 || cat "$work/log"
check 'the dialog' run_qgis "$python" bindings/qgis/tests/dialog.py
start_databases
add 'the algorithms' run_tests
end_part

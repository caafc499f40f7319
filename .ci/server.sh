# A server of PostgreSQL of a part's own, for the scripts that source this after part.sh: a copy of the installed one, whose data, socket and extensions lie
# in the folder $work, and which runs as nobody where root runs the script. It takes the C library of the folder $library.
config=${PG_CONFIG:-/usr/lib/postgresql/15/bin/pg_config}

# Whether a server and its headers are there for the tests $1.
has_postgres() {
    needs "$1" "there is no server of PostgreSQL with its headers by $config" [ -e "$("$config" --includedir-server 2> /dev/null)/postgres.h" ] &&
        needs "$1" "there is no PostGIS for the server of $config" [ -e "$("$config" --sharedir)/extension/postgis.control" ]
}

# Runs what follows as whom the server runs as, which may not be root.
as_server() { if [ "$(id -u)" = 0 ]; then setpriv --reuid=nobody --regid=nogroup --clear-groups "$@"; else "$@"; fi; }

stop_server() {
    [ ! -e "$work/data/postmaster.pid" ] || as_server "$bin/pg_ctl" -D "$work/data" -m immediate stop > /dev/null 2>&1
    rm -rf "$work"
}

# The extension of PostgreSQL, built in the folder $1 with the words from $2 on.
build_postgres() {
    mkdir -p "$1"
    make -s -C "$1" -f "$PWD/bindings/postgres/Makefile" "PG_CONFIG=$bin/pg_config" "I_SHAPE_C_DIR=$library" "${@:2}"
}

# The trees of a server find each other wherever they lie, so a copy writes nothing into that which is installed.
run_server() {
    local own=$work/own name number
    for name in bindir libdir sharedir includedir-server; do
        mkdir -p "$own/$(realpath -m --relative-to=/usr "$("$config" "--$name")")"
    done
    number=$(basename "$("$config" --sharedir)")
    cp -a "/usr/lib/postgresql/$number" "$own/lib/postgresql/" && cp -a "/usr/share/postgresql/$number" "$own/share/postgresql/" &&
        cp -a /usr/include/postgresql "$own/include/" || return
    bin=$own/lib/postgresql/$number/bin
    mkdir "$work/data" "$work/socket" && { [ "$(id -u)" != 0 ] || chown nobody "$work/data" "$work/socket"; } &&
        as_server "$bin/initdb" -D "$work/data" -A trust -U postgres --locale=C.UTF-8 --no-sync || return
    printf '%s\n' "listen_addresses = ''" "unix_socket_directories = '$work/socket'" 'fsync = off' 'jit = off' >> "$work/data/postgresql.conf"
    as_server "$bin/pg_ctl" -w -D "$work/data" -l "$work/data/log" start
}

# Runs the server, in which the extension, built in $work/out, is installed, and names it for psql. It is stopped when the script ends.
start_server() {
    chmod 755 "$work"
    trap stop_server EXIT
    run_server > "$work/log" 2>&1 && build_postgres "$work/out" install >> "$work/log" 2>&1 || { cat "$work/log" "$work/data/log"; count 1 'the server'; return 1; }
    export PGHOST=$work/socket PGUSER=postgres
}

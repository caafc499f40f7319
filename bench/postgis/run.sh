#!/usr/bin/env bash
# How long PostgreSQL takes to find equal polygons, and how many of COUNT / 2 pairs, by i_shape and by PostGIS: the least of three runs of each, and one run of
# the join. It makes a table i_shape_bench in the database that PGHOST and PGDATABASE name, where the extension is, and drops it. Python needs numpy.
#
# usage: bench/postgis/run.sh [COUNT]
set -eu
cd "$(dirname "$0")"
count=${1:-1000000}

ask() {
    psql -XAtq -v ON_ERROR_STOP=1 -c "SET work_mem = '1GB'" -c 'SET max_parallel_workers_per_gather = 0' "$@"
}

# A row of the table: the name $1, the least seconds of $2 runs of the query $3, and what it returns.
row() {
    local k
    for k in $(seq "$2"); do ask -c '\timing on' -c "$3"; done > "$work/printed"
    sed -n 's/^Time: \([0-9.]*\) ms.*/\1/p' "$work/printed" | sort -n | awk -v name="$1" -v pairs="$(grep -v '^Time' "$work/printed" | head -n 1)" \
        'NR == 1 { printf "| %s | %.1f | %s |\n", name, $1 / 1000, pairs }'
}

group() {
    row "\`GROUP BY $1\`" 3 "SELECT count(*) FILTER (WHERE n = 2 AND one = other)
        FROM (SELECT count(*) AS n, min(pair) AS one, max(pair) AS other FROM i_shape_bench GROUP BY $1) AS groups"
}

work=$(mktemp -d)
trap 'rm -rf "$work"; ask -c "DROP TABLE IF EXISTS i_shape_bench"' EXIT
ask -c 'CREATE TABLE i_shape_bench (id int, pair int, geom geometry(Polygon, 4326))'
"${PYTHON:-/usr/bin/python3}" polygons.py "$count" | ask -c 'COPY i_shape_bench FROM STDIN WITH BINARY'
ask -c 'VACUUM ANALYZE i_shape_bench'
echo "| $count polygons | seconds | pairs |"
echo '|---|---|---|'
group 'i_shape_digest(geom, 1e-7)'
group 'i_shape_key(geom, 1e-7)'
group 'ST_AsBinary(ST_Normalize(geom))'
group 'ST_AsBinary(ST_Normalize(ST_Simplify(ST_Normalize(ST_SnapToGrid(ST_Scale(geom, 1e7, 1e7), 1)), 0)))'
row 'an index by GiST' 1 'CREATE INDEX ON i_shape_bench USING gist (geom)'
ask -c 'ANALYZE i_shape_bench'
row 'a join over it `ON ST_Equals`' 1 'SELECT count(*) FILTER (WHERE a.pair = b.pair)
    FROM i_shape_bench AS a JOIN i_shape_bench AS b ON a.id < b.id AND ST_Equals(a.geom, b.geom)'

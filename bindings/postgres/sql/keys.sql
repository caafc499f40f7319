\set ECHO none
\set VERBOSITY terse
\pset format unaligned
\pset tuples_only on
SET client_min_messages = error;
CREATE EXTENSION IF NOT EXISTS i_shape CASCADE;

\echo written keys: what has another one, and how many there are
\set golden `cat "$PG_ABS_SRCDIR/../keys.txt"`
CREATE VIEW golden AS SELECT part[1]::float8 AS step, part[2]::bool AS oriented, part[3]::geometry AS geom, decode(part[4], 'hex') AS key
FROM regexp_split_to_table(:'golden', E'\n') AS line, regexp_split_to_array(line, E'\t') AS part WHERE line NOT LIKE '#%';
SELECT ST_AsText(geom), i_shape_key(geom, step, oriented) FROM golden WHERE i_shape_key(geom, step, oriented) IS DISTINCT FROM key;
SELECT ST_AsText(geom), i_shape_key(geom, step) FROM golden WHERE NOT oriented AND i_shape_key(geom, step) IS DISTINCT FROM key;
SELECT count(*) FROM golden;

\echo other polygons with the same key: those that differ
WITH one(geom) AS (VALUES ('POLYGON((0 0,9 0,9 9,0 9,0 0),(1 1,1 2,2 2,1 1),(5 5,5 6,6 6,5 5))'::geometry))
SELECT name FROM one, LATERAL (VALUES
    ('another start', 'POLYGON((9 9,0 9,0 0,9 0,9 9),(1 2,2 2,1 1,1 2),(5 5,5 6,6 6,5 5))'::geometry),
    ('the other way', ST_Reverse(geom)), ('one ring the other way', 'POLYGON((0 0,0 9,9 9,9 0,0 0),(1 1,1 2,2 2,1 1),(5 5,5 6,6 6,5 5))'),
    ('a vertex on an edge', 'POLYGON((0 0,3 0,9 0,9 9,0 9,0 0),(1 1,1 2,2 2,1 1),(5 5,5 6,6 6,5 5))'),
    ('a start on an edge', 'POLYGON((3 0,9 0,9 9,0 9,0 0,3 0),(1 1,1 2,2 2,1 1),(5 5,5 6,6 6,5 5))'),
    ('a repeated point', 'POLYGON((0 0,9 0,9 0,9 9,0 9,0 0),(1 1,1 2,2 2,1 1),(5 5,5 6,6 6,5 5))'),
    ('a spike', 'POLYGON((0 0,9 0,9 9,12 12,9 9,0 9,0 0),(1 1,1 2,2 2,1 1),(5 5,5 6,6 6,5 5))'),
    ('the holes in another order', 'POLYGON((0 0,9 0,9 9,0 9,0 0),(5 5,5 6,6 6,5 5),(1 1,1 2,2 2,1 1))'),
    ('a hole that collapses', 'POLYGON((0 0,9 0,9 9,0 9,0 0),(1 1,1 2,2 2,1 1),(5 5,5 6,6 6,5 5),(7 7,8 8,7 7,7 7))'),
    ('several', ST_Multi(geom)), ('another SRID', ST_SetSRID(geom, 4326)), ('beside one that collapses', ST_Collect(geom, 'POLYGON((0 0,1 1,2 2,0 0))')),
    ('less than half a step away', ST_Translate(geom, 0.4, -0.4))
) AS row(name, other) WHERE i_shape_key(other, 1) IS DISTINCT FROM i_shape_key(geom, 1) OR i_shape_digest(other, 1) IS DISTINCT FROM i_shape_digest(geom, 1);
SELECT i_shape_key(ST_Collect(a, b), 1) = i_shape_key(ST_Collect(b, a), 1), i_shape_key(ST_Collect(a, b), 1) IN (i_shape_key(a, 1) || i_shape_key(b, 1), i_shape_key(b, 1) || i_shape_key(a, 1))
FROM (VALUES ('POLYGON((0 0,4 0,4 4,0 0))'::geometry, 'POLYGON((9 9,9 5,5 9,9 9))'::geometry)) AS row(a, b);

\echo other polygons with another key: those with the same one
WITH one(geom) AS (VALUES ('POLYGON((0 0,9 0,9 9,0 9,0 0),(1 1,1 2,2 2,1 1),(5 5,5 6,6 6,5 5))'::geometry))
SELECT name FROM one, LATERAL (VALUES
    ('without a hole', 'POLYGON((0 0,9 0,9 9,0 9,0 0),(1 1,1 2,2 2,1 1))'::geometry), ('moved', ST_Translate(geom, 1, 0)),
    ('a hole twice', 'POLYGON((0 0,9 0,9 9,0 9,0 0),(1 1,1 2,2 2,1 1),(5 5,5 6,6 6,5 5),(5 5,5 6,6 6,5 5))'), ('twice', ST_Collect(geom, geom)),
    ('the hole as a polygon', 'MULTIPOLYGON(((0 0,9 0,9 9,0 9,0 0),(1 1,1 2,2 2,1 1)),((5 5,5 6,6 6,5 5)))')
) AS row(name, other) WHERE i_shape_key(other, 1) = i_shape_key(geom, 1);
SELECT i_shape_key(geom, 1, true) = i_shape_key(ST_Reverse(geom), 1, true) FROM (VALUES ('POLYGON((0 0,4 0,4 4,0 0))'::geometry)) AS row(geom);

\echo no key, and no digest
SELECT i_shape_key(geom, 1) IS NULL AND i_shape_digest(geom, 1) IS NULL FROM (VALUES
    ('POLYGON EMPTY'::geometry), ('MULTIPOLYGON EMPTY'), ('POLYGON((0 0,4 0,9 0,0 0))'), ('MULTIPOLYGON(EMPTY,((0 0,0 0,0 0,0 0)))'), ('POLYGON((0 0,0.1 0,0.1 0.1,0 0))')
) AS row(geom);

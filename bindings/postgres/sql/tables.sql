\set ECHO none
\set VERBOSITY terse
\pset format unaligned
\pset tuples_only on
SET client_min_messages = error;
CREATE EXTENSION IF NOT EXISTS i_shape CASCADE;

\echo a unique index: 2000 squares, each once, whichever way it is written
CREATE TABLE parcels (id int, geom geometry(Polygon, 4326));
CREATE UNIQUE INDEX parcels_once ON parcels (i_shape_digest(geom, 1e-7));
INSERT INTO parcels SELECT x, ST_MakeEnvelope(x / 10.0, 0, (x + 1) / 10.0, 0.1, 4326) FROM generate_series(1, 2000) AS x;
INSERT INTO parcels SELECT -id, ST_Reverse(ST_Segmentize(geom, 0.05)) FROM parcels ON CONFLICT (i_shape_digest(geom, 1e-7)) DO NOTHING;
INSERT INTO parcels SELECT -id, ST_Reverse(geom) FROM parcels WHERE id = 7 ON CONFLICT (i_shape_digest(geom, 1e-7)) DO UPDATE SET id = 7000;
SELECT count(*), count(*) FILTER (WHERE id < 0), count(*) FILTER (WHERE id = 7000) FROM parcels;
\set VERBOSITY sqlstate
INSERT INTO parcels SELECT 0, ST_Reverse(geom) FROM parcels WHERE id = 8;
\set VERBOSITY terse
\echo what collapses is taken more than once
INSERT INTO parcels SELECT 0, 'SRID=4326;POLYGON EMPTY' FROM generate_series(1, 2);

\echo under an empty search path: the index finds one, and is made anew and checked
ANALYZE parcels;
SET search_path = '';
SET enable_seqscan = off;
SELECT id FROM public.parcels WHERE public.i_shape_digest(geom, 1e-7) = public.i_shape_digest('SRID=4326;POLYGON((0.1 0,0.1 0.1,0.2 0.1,0.2 0,0.1 0))'::public.geometry, 1e-7);
EXPLAIN (COSTS off) SELECT id FROM public.parcels WHERE public.i_shape_digest(geom, 1e-7) = '\x00';
REINDEX TABLE public.parcels;
VACUUM ANALYZE public.parcels;
SELECT id FROM public.parcels WHERE public.i_shape_digest(geom, 1e-7) = public.i_shape_digest('SRID=4326;POLYGON((0.1 0,0.1 0.1,0.2 0.1,0.2 0,0.1 0))'::public.geometry, 1e-7);
RESET enable_seqscan;
RESET search_path;

\echo a CHECK
CREATE TABLE clean_ones (geom geometry CHECK (i_shape_is_clean(geom, 1e-7)));
INSERT INTO clean_ones VALUES ('POLYGON((0 0,0.1 0,0.1 0.1,0 0))'), (NULL), ('POLYGON EMPTY');
\set VERBOSITY sqlstate
INSERT INTO clean_ones VALUES ('POLYGON((0 0,0.1 0,0.1 0.10000003,0 0))');
INSERT INTO clean_ones VALUES ('POLYGON((0 0,0.05 0,0.1 0,0.1 0.1,0 0))');
\set VERBOSITY terse
INSERT INTO clean_ones SELECT i_shape_simplify('POLYGON((0 0,0.05 0,0.1 0,0.1 0.10000003,0 0))', 1e-7);
SELECT count(*) FROM clean_ones;

\echo a CHECK of parcels, which keep the vertices that neighbours share
CREATE TABLE parcels_of_one_grid (geom geometry CHECK (i_shape_has_no_spikes(geom, 1e-7)));
INSERT INTO parcels_of_one_grid VALUES ('POLYGON((0 0,0.05 0,0.1 0,0.1 0.1,0 0))'), (NULL);
\set VERBOSITY sqlstate
INSERT INTO parcels_of_one_grid VALUES ('POLYGON((0 0,0.05 0,0.1 0,0.1 0.1,0.1 0.2,0.1 0.1,0 0))');
\set VERBOSITY terse
INSERT INTO parcels_of_one_grid SELECT i_shape_despike('POLYGON((0 0,0.05 0,0.1 0,0.1 0.1,0.1 0.2,0.1 0.1,0 0))', 1e-7);
SELECT count(*) FROM parcels_of_one_grid;

\echo a stored generated column, by which two tables are joined
CREATE TABLE stored (id int, geom geometry, digest bytea GENERATED ALWAYS AS (i_shape_digest(geom, 1e-7)) STORED UNIQUE);
INSERT INTO stored (id, geom) SELECT id, geom FROM parcels WHERE id > 0;
SELECT count(*) FROM parcels JOIN stored ON i_shape_digest(parcels.geom, 1e-7) = digest;
UPDATE stored SET geom = ST_Reverse(geom);
SELECT count(*) FROM parcels JOIN stored ON i_shape_digest(parcels.geom, 1e-7) = digest;

\echo a long ring: an entry of an index has no room for its key, and for its digest
CREATE TABLE long_ones (geom geometry);
INSERT INTO long_ones SELECT ST_MakePolygon(ST_AddPoint(line, ST_StartPoint(line)))
FROM (SELECT ST_MakeLine(array_agg(ST_Point(cos(k / 160.0) * r, sin(k / 160.0) * r) ORDER BY k)) AS line
      FROM (SELECT k, 1 + (k * 7919 % 1009) / 1009.0 AS r FROM generate_series(0, 999) AS k) AS points) AS one;
\set VERBOSITY sqlstate
CREATE INDEX ON long_ones (i_shape_key(geom, 1e-7));
CREATE UNIQUE INDEX ON long_ones (i_shape_digest(geom, 1e-7));
INSERT INTO long_ones SELECT ST_Reverse(geom) FROM long_ones;
\set VERBOSITY terse

\echo schemas of their own, without a search path
CREATE DATABASE i_shape_in_schemas;
\connect i_shape_in_schemas
SET client_min_messages = error;
CREATE SCHEMA gis;
CREATE SCHEMA shapes;
CREATE EXTENSION postgis SCHEMA gis;
CREATE EXTENSION i_shape SCHEMA shapes;
SET search_path = '';
SELECT gis.ST_AsText(shapes.i_shape_simplify('POLYGON((0 0,2 0,4 0,4 4,0 0))'::gis.geometry, 1)),
    shapes.i_shape_digest('POLYGON((0 0,2 0,4 0,4 4,0 0))'::gis.geometry, 1) = pg_catalog.sha256(shapes.i_shape_key('POLYGON((0 0,4 0,4 4,0 0))'::gis.geometry, 1));
\connect contrib_regression
DROP DATABASE i_shape_in_schemas;

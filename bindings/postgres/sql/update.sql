\set ECHO none
\set VERBOSITY terse
\pset format unaligned
\pset tuples_only on
\set tests :DBNAME
SET client_min_messages = error;
CREATE DATABASE regress_update;
\c regress_update
SET client_min_messages = error;
CREATE EXTENSION i_shape VERSION '0.1' CASCADE;
CREATE TABLE kept (geom geometry CHECK (i_shape_is_clean(geom, 1)), digest bytea GENERATED ALWAYS AS (i_shape_digest(geom, 1)) STORED);
CREATE UNIQUE INDEX ON kept (i_shape_key(geom, 1));
INSERT INTO kept SELECT ST_MakeEnvelope(x, 0, x + 1, 1) FROM generate_series(1, 100) AS x;

\echo functions of 0.1, and another of a name that 0.2 takes
SELECT count(*) FROM pg_depend JOIN pg_extension ON refobjid = pg_extension.oid WHERE extname = 'i_shape' AND deptype = 'e';
CREATE FUNCTION i_shape_has_no_spikes(geometry, numeric) RETURNS bool LANGUAGE sql RETURN false;
\set VERBOSITY sqlstate
ALTER EXTENSION i_shape UPDATE;
DROP FUNCTION i_shape_has_no_spikes(geometry, numeric);

\echo an update under an index, a check and a generated column
ALTER EXTENSION i_shape UPDATE;
SELECT count(*) FROM pg_depend JOIN pg_extension ON refobjid = pg_extension.oid WHERE extname = 'i_shape' AND deptype = 'e';
SELECT count(*), count(*) FILTER (WHERE digest = i_shape_digest(ST_Reverse(geom), 1)), bool_and(i_shape_has_no_spikes(geom, 1) AND i_shape_is_valid(geom, 1)) FROM kept;
INSERT INTO kept SELECT ST_Reverse(geom) FROM kept LIMIT 1;
INSERT INTO kept VALUES ('POLYGON((0 0,1 0,2 0,2 2,0 0))');

\c :tests
SET client_min_messages = error;
DROP DATABASE regress_update;

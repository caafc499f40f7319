\set ECHO none
\set VERBOSITY terse
\pset format unaligned
\pset tuples_only on
\set tests :DBNAME
SET client_min_messages = error;
CREATE ROLE regress_mallory;
CREATE DATABASE regress_trust;
\c regress_trust
SET client_min_messages = error;
CREATE SCHEMA gis;
CREATE EXTENSION postgis SCHEMA gis;
CREATE SCHEMA shared;
CREATE SCHEMA owned;
GRANT USAGE, CREATE ON SCHEMA shared TO regress_mallory;
GRANT USAGE ON SCHEMA gis TO regress_mallory;

-- What creating the extension comes to in the schema that mallory shares, in which mallory has run a statement. Nothing is left of either.
CREATE FUNCTION outcome(trap text) RETURNS text LANGUAGE plpgsql AS $$
DECLARE is_clean bool;
BEGIN
    SET LOCAL ROLE regress_mallory;
    EXECUTE trap;
    RESET ROLE;
    CREATE EXTENSION i_shape SCHEMA shared;
    EXECUTE $call$ SELECT shared.i_shape_is_clean('POLYGON((0 0,4 0,4 4,0 0))'::gis.geometry, 1e-7) $call$ INTO is_clean;
    RAISE 'created, a triangle is clean: %', is_clean;
EXCEPTION WHEN others THEN
    RETURN concat_ws(' / ', SQLSTATE, SQLERRM);
END $$;

\echo objects of another, made before the extension: those that end otherwise
SELECT trap, outcome(trap) FROM (VALUES
    ($$ CREATE FUNCTION shared.st_asewkb(gis.geometry) RETURNS bytea LANGUAGE sql IMMUTABLE RETURN NULL::bytea $$,
        '42P17 / i_shape: its calls would be bound to what is outside pg_catalog, PostGIS and i_shape: function shared.st_asewkb(gis.geometry)'),
    ($$ CREATE FUNCTION shared.st_geomfromewkb(bytea) RETURNS gis.geometry LANGUAGE sql IMMUTABLE RETURN NULL::gis.geometry $$,
        '42P17 / i_shape: its calls would be bound to what is outside pg_catalog, PostGIS and i_shape: function shared.st_geomfromewkb(bytea)'),
    ($$ CREATE DOMAIN shared.geometry AS gis.geometry CHECK (VALUE IS NOT NULL) $$,
        '42P17 / i_shape: its calls would be bound to what is outside pg_catalog, PostGIS and i_shape: type shared.geometry'),
    ($$ CREATE FUNCTION shared.i_shape_wkb_key(bytea, float8, bool) RETURNS bytea LANGUAGE sql RETURN NULL::bytea $$,
        '42723 / function "i_shape_wkb_key" already exists with same argument types'),
    ($$ CREATE FUNCTION shared.i_shape_wkb_is_clean(bytea, numeric) RETURNS bool LANGUAGE sql RETURN false $$,
        '42723 / i_shape: functions outside the extension have the names of its calls: function shared.i_shape_wkb_is_clean(bytea,numeric)'),
    ($$ CREATE FUNCTION shared.i_shape_is_clean(gis.geometry, numeric) RETURNS bool LANGUAGE sql RETURN false $$,
        '42723 / i_shape: functions outside the extension have the names of its calls: function shared.i_shape_is_clean(gis.geometry,numeric)'),
    ($$ CREATE FUNCTION shared.sha256(bytea) RETURNS bytea LANGUAGE sql RETURN NULL::bytea $$, 'P0001 / created, a triangle is clean: t'),
    ($$ CREATE DOMAIN shared.float8 AS int $$, 'P0001 / created, a triangle is clean: t')
) AS row(trap, wanted) WHERE outcome(trap) IS DISTINCT FROM wanted;

\echo in schemas in which no other may create, whatever is before them in the path
SET ROLE regress_mallory;
CREATE FUNCTION shared.st_asewkb(gis.geometry) RETURNS bytea LANGUAGE sql IMMUTABLE RETURN NULL::bytea;
CREATE FUNCTION shared.i_shape_is_clean(gis.geometry, numeric) RETURNS bool LANGUAGE sql RETURN false;
RESET ROLE;
SET search_path = shared, public;
CREATE EXTENSION i_shape SCHEMA owned;
SHOW search_path;
SELECT owned.i_shape_is_clean('POLYGON((0 0,4 0,4 4,0 0))'::gis.geometry, 1e-7);
DROP EXTENSION i_shape;
CREATE EXTENSION i_shape SCHEMA gis;
SELECT gis.i_shape_is_clean('POLYGON((0 0,4 0,4 4,0 0))'::gis.geometry, 1e-7);
DROP EXTENSION i_shape;

\echo created by a role that is no superuser, and an error where that has a function of its own, not called
CREATE ROLE regress_owner;
GRANT CREATE ON DATABASE regress_trust TO regress_owner;
GRANT USAGE ON SCHEMA gis TO regress_owner;
SET ROLE regress_owner;
CREATE SCHEMA own;
CREATE EXTENSION i_shape SCHEMA own;
SELECT own.i_shape_is_clean('POLYGON((0 0,4 0,4 4,0 0))'::gis.geometry, 1e-7);
DROP EXTENSION i_shape;
CREATE FUNCTION own.st_asewkb(gis.geometry) RETURNS bytea LANGUAGE plpgsql IMMUTABLE AS $$ BEGIN RAISE 'called by %', current_user; END $$;
\set VERBOSITY sqlstate
CREATE EXTENSION i_shape SCHEMA own;
\set VERBOSITY terse
RESET ROLE;

\c :tests
SET client_min_messages = error;
DROP DATABASE regress_trust;
DROP ROLE regress_mallory, regress_owner;

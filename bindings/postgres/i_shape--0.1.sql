\echo Use "CREATE EXTENSION i_shape" to load this file. \quit

-- Over WKB, and what PostGIS adds to it.
CREATE FUNCTION i_shape_wkb_simplify(wkb bytea, step float8) RETURNS bytea
AS 'MODULE_PATHNAME', 'pg_i_shape_simplify' LANGUAGE c IMMUTABLE STRICT PARALLEL SAFE COST 50;
CREATE FUNCTION i_shape_wkb_despike(wkb bytea, step float8) RETURNS bytea
AS 'MODULE_PATHNAME', 'pg_i_shape_despike' LANGUAGE c IMMUTABLE STRICT PARALLEL SAFE COST 50;
CREATE FUNCTION i_shape_wkb_canonical(wkb bytea, step float8, oriented bool DEFAULT false) RETURNS bytea
AS 'MODULE_PATHNAME', 'pg_i_shape_canonical' LANGUAGE c IMMUTABLE STRICT PARALLEL SAFE COST 50;
CREATE FUNCTION i_shape_wkb_key(wkb bytea, step float8, oriented bool DEFAULT false) RETURNS bytea
AS 'MODULE_PATHNAME', 'pg_i_shape_key' LANGUAGE c IMMUTABLE STRICT PARALLEL SAFE COST 50;
CREATE FUNCTION i_shape_wkb_is_clean(wkb bytea, step float8) RETURNS bool
AS 'MODULE_PATHNAME', 'pg_i_shape_is_clean' LANGUAGE c IMMUTABLE STRICT PARALLEL SAFE COST 50;
CREATE FUNCTION i_shape_wkb_area_two(wkb bytea, step float8) RETURNS numeric
AS 'MODULE_PATHNAME', 'pg_i_shape_area_two' LANGUAGE c IMMUTABLE STRICT PARALLEL SAFE COST 50;
CREATE FUNCTION i_shape_wkb_winding(wkb bytea, point bytea, step float8) RETURNS int8
AS 'MODULE_PATHNAME', 'pg_i_shape_winding' LANGUAGE c IMMUTABLE STRICT PARALLEL SAFE COST 50;
CREATE FUNCTION i_shape_version() RETURNS text
AS 'MODULE_PATHNAME', 'pg_i_shape_version' LANGUAGE c IMMUTABLE STRICT PARALLEL SAFE;

-- A body that begins with RETURN is bound to what its names mean now, so that no search_path changes what an index holds.
CREATE FUNCTION i_shape_wkb_digest(wkb bytea, step float8, oriented bool DEFAULT false) RETURNS bytea
LANGUAGE sql IMMUTABLE STRICT PARALLEL SAFE COST 500
RETURN sha256(i_shape_wkb_key(wkb, step, oriented));

-- Over geometry.
CREATE FUNCTION i_shape_simplify(geom geometry, step float8) RETURNS geometry
LANGUAGE sql IMMUTABLE STRICT PARALLEL SAFE COST 500
RETURN ST_GeomFromEWKB(i_shape_wkb_simplify(ST_AsEWKB(geom), step));
CREATE FUNCTION i_shape_despike(geom geometry, step float8) RETURNS geometry
LANGUAGE sql IMMUTABLE STRICT PARALLEL SAFE COST 500
RETURN ST_GeomFromEWKB(i_shape_wkb_despike(ST_AsEWKB(geom), step));
CREATE FUNCTION i_shape_canonical(geom geometry, step float8, oriented bool DEFAULT false) RETURNS geometry
LANGUAGE sql IMMUTABLE STRICT PARALLEL SAFE COST 500
RETURN ST_GeomFromEWKB(i_shape_wkb_canonical(ST_AsEWKB(geom), step, oriented));
CREATE FUNCTION i_shape_key(geom geometry, step float8, oriented bool DEFAULT false) RETURNS bytea
LANGUAGE sql IMMUTABLE STRICT PARALLEL SAFE COST 500
RETURN i_shape_wkb_key(ST_AsEWKB(geom), step, oriented);
CREATE FUNCTION i_shape_digest(geom geometry, step float8, oriented bool DEFAULT false) RETURNS bytea
LANGUAGE sql IMMUTABLE STRICT PARALLEL SAFE COST 500
RETURN sha256(i_shape_wkb_key(ST_AsEWKB(geom), step, oriented));
CREATE FUNCTION i_shape_is_clean(geom geometry, step float8) RETURNS bool
LANGUAGE sql IMMUTABLE STRICT PARALLEL SAFE COST 500
RETURN i_shape_wkb_is_clean(ST_AsEWKB(geom), step);
CREATE FUNCTION i_shape_area_two(geom geometry, step float8) RETURNS numeric
LANGUAGE sql IMMUTABLE STRICT PARALLEL SAFE COST 500
RETURN i_shape_wkb_area_two(ST_AsEWKB(geom), step);
CREATE FUNCTION i_shape_winding(geom geometry, point geometry, step float8) RETURNS int8
LANGUAGE sql IMMUTABLE STRICT PARALLEL SAFE COST 500
RETURN i_shape_wkb_winding(ST_AsEWKB(geom), ST_AsEWKB(point), step);

-- Another role that may create in the extension's schema can have put traps there, where names are looked up before PostGIS's schema. So the script fails
-- unless all that its functions are bound to is PostGIS's, the extension's, or the server's own, which pg_depend leaves out. It also fails if another function
-- has the name of a call: with a closer type, such as numeric for the literal 1e-7, that one would be called.
SET LOCAL search_path = pg_catalog, pg_temp;
DO $$
DECLARE
    strange text;
BEGIN
    WITH member AS (
        SELECT extname, classid, objid FROM pg_depend JOIN pg_extension ON refobjid = pg_extension.oid
        WHERE refclassid = 'pg_extension'::regclass AND deptype = 'e' AND extname IN ('i_shape', 'postgis')
    )
    SELECT string_agg(DISTINCT pg_describe_object(refclassid, refobjid, 0), ', ') INTO strange FROM member JOIN pg_depend USING (classid, objid)
    WHERE extname = 'i_shape' AND deptype <> 'e' AND refclassid <> 'pg_namespace'::regclass AND (refclassid, refobjid) NOT IN (SELECT classid, objid FROM member);
    IF strange IS NOT NULL THEN
        RAISE invalid_object_definition USING
            MESSAGE = 'i_shape: its calls would be bound to what is outside pg_catalog, PostGIS and i_shape: ' || strange,
            HINT = 'Drop it, or create the extension in the schema of PostGIS.';
    END IF;

    WITH call AS (
        SELECT pg_proc.oid, pronamespace, proname FROM pg_proc JOIN pg_depend ON classid = 'pg_proc'::regclass AND objid = pg_proc.oid
        JOIN pg_extension ON refclassid = 'pg_extension'::regclass AND refobjid = pg_extension.oid WHERE deptype = 'e' AND extname = 'i_shape'
    )
    SELECT string_agg(pg_describe_object('pg_proc'::regclass, oid, 0), ', ') INTO strange FROM pg_proc
    WHERE (pronamespace, proname) IN (SELECT pronamespace, proname FROM call) AND oid NOT IN (SELECT oid FROM call);
    IF strange IS NOT NULL THEN
        RAISE duplicate_function USING
            MESSAGE = 'i_shape: functions outside the extension have the names of its calls: ' || strange,
            HINT = 'Drop them, or create the extension in a schema in which no other role may create.';
    END IF;
END $$;

\echo Use "ALTER EXTENSION i_shape UPDATE" to load this file. \quit

CREATE FUNCTION i_shape_wkb_has_no_spikes(wkb bytea, step float8) RETURNS bool
AS 'MODULE_PATHNAME', 'pg_i_shape_has_no_spikes' LANGUAGE c IMMUTABLE STRICT PARALLEL SAFE COST 50;
CREATE FUNCTION i_shape_has_no_spikes(geom geometry, step float8) RETURNS bool
LANGUAGE sql IMMUTABLE STRICT PARALLEL SAFE COST 500
RETURN i_shape_wkb_has_no_spikes(ST_AsEWKB(geom), step);
CREATE FUNCTION i_shape_wkb_is_valid(wkb bytea, step float8, touching bool DEFAULT false) RETURNS bool
AS 'MODULE_PATHNAME', 'pg_i_shape_is_valid' LANGUAGE c IMMUTABLE STRICT PARALLEL SAFE COST 50;
CREATE FUNCTION i_shape_is_valid(geom geometry, step float8, touching bool DEFAULT false) RETURNS bool
LANGUAGE sql IMMUTABLE STRICT PARALLEL SAFE COST 500
RETURN i_shape_wkb_is_valid(ST_AsEWKB(geom), step, touching);
CREATE FUNCTION i_shape_wkb_validity_reason(wkb bytea, step float8, touching bool DEFAULT false) RETURNS text
AS 'MODULE_PATHNAME', 'pg_i_shape_validity_reason' LANGUAGE c IMMUTABLE STRICT PARALLEL SAFE COST 50;
CREATE FUNCTION i_shape_validity_reason(geom geometry, step float8, touching bool DEFAULT false) RETURNS text
LANGUAGE sql IMMUTABLE STRICT PARALLEL SAFE COST 500
RETURN i_shape_wkb_validity_reason(ST_AsEWKB(geom), step, touching);
CREATE FUNCTION i_shape_wkb_contact_points(wkb bytea, step float8) RETURNS bytea
AS 'MODULE_PATHNAME', 'pg_i_shape_contact_points' LANGUAGE c IMMUTABLE STRICT PARALLEL SAFE COST 50;
CREATE FUNCTION i_shape_contact_points(geom geometry, step float8) RETURNS geometry
LANGUAGE sql IMMUTABLE STRICT PARALLEL SAFE COST 500
RETURN ST_GeomFromEWKB(i_shape_wkb_contact_points(ST_AsEWKB(geom), step));

-- What \df+ shows.
COMMENT ON FUNCTION i_shape_simplify(geometry, float8) IS 'without repeated points, spikes and vertices on straight edges, rounded to multiples of step';
COMMENT ON FUNCTION i_shape_despike(geometry, float8) IS 'without repeated points and spikes, rounded to multiples of step; parcels keep the vertices that they share';
COMMENT ON FUNCTION i_shape_canonical(geometry, float8, bool) IS 'the form that all equal polygons have; rings may be read backwards unless oriented';
COMMENT ON FUNCTION i_shape_key(geometry, float8, bool) IS 'bytes that are equal exactly where the canonical forms are; NULL if nothing is left';
COMMENT ON FUNCTION i_shape_digest(geometry, float8, bool) IS 'the SHA-256 of the key, for indexes and joins';
COMMENT ON FUNCTION i_shape_is_clean(geometry, float8) IS 'whether i_shape_simplify would change nothing';
COMMENT ON FUNCTION i_shape_has_no_spikes(geometry, float8) IS 'whether it lies on the grid, and no ring has a spike or collapses';
COMMENT ON FUNCTION i_shape_is_valid(geometry, float8, bool) IS 'whether each polygon, rounded, is valid; rings may touch at single points only if touching';
COMMENT ON FUNCTION i_shape_validity_reason(geometry, float8, bool) IS 'the first fault, with indices from 1; NULL if it is valid';
COMMENT ON FUNCTION i_shape_contact_points(geometry, float8) IS 'a MultiPoint of the places at which edges of one polygon meet';
COMMENT ON FUNCTION i_shape_area_two(geometry, float8) IS 'twice the area in cells of the grid, exact, less that of holes';
COMMENT ON FUNCTION i_shape_winding(geometry, geometry, float8) IS 'how often all rings wind about the point';
COMMENT ON FUNCTION i_shape_wkb_simplify(bytea, float8) IS 'i_shape_simplify of WKB';
COMMENT ON FUNCTION i_shape_wkb_despike(bytea, float8) IS 'i_shape_despike of WKB';
COMMENT ON FUNCTION i_shape_wkb_canonical(bytea, float8, bool) IS 'i_shape_canonical of WKB';
COMMENT ON FUNCTION i_shape_wkb_key(bytea, float8, bool) IS 'i_shape_key of WKB';
COMMENT ON FUNCTION i_shape_wkb_digest(bytea, float8, bool) IS 'i_shape_digest of WKB';
COMMENT ON FUNCTION i_shape_wkb_is_clean(bytea, float8) IS 'i_shape_is_clean of WKB';
COMMENT ON FUNCTION i_shape_wkb_has_no_spikes(bytea, float8) IS 'i_shape_has_no_spikes of WKB';
COMMENT ON FUNCTION i_shape_wkb_is_valid(bytea, float8, bool) IS 'i_shape_is_valid of WKB';
COMMENT ON FUNCTION i_shape_wkb_validity_reason(bytea, float8, bool) IS 'i_shape_validity_reason of WKB';
COMMENT ON FUNCTION i_shape_wkb_contact_points(bytea, float8) IS 'i_shape_contact_points of WKB';
COMMENT ON FUNCTION i_shape_wkb_area_two(bytea, float8) IS 'i_shape_area_two of WKB';
COMMENT ON FUNCTION i_shape_wkb_winding(bytea, bytea, float8) IS 'i_shape_winding of WKB';
COMMENT ON FUNCTION i_shape_version() IS 'the version of the C library';

-- As at the end of i_shape--0.1.sql, which CREATE EXTENSION runs first: of all that the extension has now.
SET LOCAL search_path = pg_catalog, pg_temp;
DO $$
DECLARE
    strange text;
BEGIN
    WITH member AS (
        SELECT extname, classid, objid FROM pg_depend JOIN pg_extension ON refobjid = pg_extension.oid
        WHERE refclassid = 'pg_extension'::regclass AND deptype = 'e' AND extname IN ('i_shape', 'postgis')
    )
    SELECT string_agg(DISTINCT pg_describe_object(refclassid, refobjid, 0), ', ') INTO strange FROM member JOIN pg_depend USING (classid, objid)
    WHERE extname = 'i_shape' AND deptype <> 'e' AND refclassid <> 'pg_namespace'::regclass AND (refclassid, refobjid) NOT IN (SELECT classid, objid FROM member);
    IF strange IS NOT NULL THEN
        RAISE invalid_object_definition USING
            MESSAGE = 'i_shape: its calls would be bound to what is outside pg_catalog, PostGIS and i_shape: ' || strange,
            HINT = 'Drop it, or create the extension in the schema of PostGIS.';
    END IF;

    WITH call AS (
        SELECT pg_proc.oid, pronamespace, proname FROM pg_proc JOIN pg_depend ON classid = 'pg_proc'::regclass AND objid = pg_proc.oid
        JOIN pg_extension ON refclassid = 'pg_extension'::regclass AND refobjid = pg_extension.oid WHERE deptype = 'e' AND extname = 'i_shape'
    )
    SELECT string_agg(pg_describe_object('pg_proc'::regclass, oid, 0), ', ') INTO strange FROM pg_proc
    WHERE (pronamespace, proname) IN (SELECT pronamespace, proname FROM call) AND oid NOT IN (SELECT oid FROM call);
    IF strange IS NOT NULL THEN
        RAISE duplicate_function USING
            MESSAGE = 'i_shape: functions outside the extension have the names of its calls: ' || strange,
            HINT = 'Drop them, or create the extension in a schema in which no other role may create.';
    END IF;
END $$;

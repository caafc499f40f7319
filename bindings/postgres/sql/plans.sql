\set ECHO none
\set VERBOSITY terse
\pset format unaligned
\pset tuples_only on
SET client_min_messages = error;
CREATE EXTENSION IF NOT EXISTS i_shape CASCADE;

\echo each is inlined: the calls that are left
CREATE FUNCTION plan_of(query text) RETURNS SETOF text LANGUAGE plpgsql AS $$ BEGIN RETURN QUERY EXECUTE 'EXPLAIN (VERBOSE, COSTS off) ' || query; END $$;
CREATE TABLE many AS SELECT ST_MakeEnvelope(x, 0, x + 1, 1) AS geom FROM generate_series(1, 1000) AS x;
SELECT call, (SELECT string_agg(name[1], ' ' ORDER BY name[1] COLLATE "C") FROM plan_of('SELECT ' || call || ' FROM many') AS line, regexp_matches(line, '\m(i_shape_\w+|sha256)\(', 'g') AS name)
FROM unnest(ARRAY['i_shape_simplify(geom, 1)', 'i_shape_despike(geom, 1)', 'i_shape_canonical(geom, 1)', 'i_shape_key(geom, 1)', 'i_shape_digest(geom, 1)', 'i_shape_is_clean(geom, 1)', 'i_shape_has_no_spikes(geom, 1)',
    'i_shape_is_valid(geom, 1)', 'i_shape_validity_reason(geom, 1)', 'i_shape_contact_points(geom, 1)', 'i_shape_area_two(geom, 1)', 'i_shape_winding(geom, ST_PointOnSurface(geom), 1)', 'i_shape_wkb_digest(geom::bytea, 1)']) WITH ORDINALITY AS of(call, at) ORDER BY at;

\echo each runs in workers: how many calls do
SET min_parallel_table_scan_size = 0;
SET parallel_setup_cost = 0;
SET parallel_tuple_cost = 0;
SELECT count(*) FROM unnest(ARRAY['i_shape_simplify(geom, 1)::text', 'i_shape_despike(geom, 1)::text', 'i_shape_canonical(geom, 1)::text', 'i_shape_key(geom, 1)::text',
    'i_shape_digest(geom, 1)::text', 'i_shape_is_clean(geom, 1)::text', 'i_shape_has_no_spikes(geom, 1)::text', 'i_shape_is_valid(geom, 1)::text', 'i_shape_validity_reason(geom, 1)', 'i_shape_contact_points(geom, 1)::text', 'i_shape_area_two(geom, 1)::text', 'i_shape_winding(geom, ST_PointOnSurface(geom), 1)::text']) AS call
WHERE EXISTS (SELECT FROM plan_of('SELECT max(' || call || ') FROM many') AS line WHERE line ~ 'Partial Aggregate')
    AND EXISTS (SELECT FROM plan_of('SELECT max(' || call || ') FROM many') AS line WHERE line ~ 'Gather');
SELECT count(DISTINCT i_shape_digest(geom, 1)) FROM many;

\echo statement_timeout ends a call before its end: with many rings, and in a long ring
CREATE FUNCTION doubled(bytes bytea, times int) RETURNS bytea LANGUAGE plpgsql AS $$ BEGIN FOR k IN 1 .. times LOOP bytes := bytes || bytes; END LOOP; RETURN bytes; END $$;
CREATE TABLE bytes (name text, wkb bytea);
ALTER TABLE bytes ALTER wkb SET STORAGE external;
-- One triangle 2^20 times, and a ring of 2^22 points, four again and again.
INSERT INTO bytes SELECT 'many rings', '\x010600000000001000'::bytea || doubled(ST_AsBinary('POLYGON((0 0,4 0,4 4,0 0))'::geometry), 20);
INSERT INTO bytes SELECT 'a long ring', '\x01030000000100000000004000'::bytea || doubled(substr(ST_AsBinary('LINESTRING(0 0,4 0,9 9,1 2)'::geometry), 10), 20);
CREATE FUNCTION seconds(its text) RETURNS float8 LANGUAGE plpgsql AS $$
DECLARE start timestamptz := clock_timestamp();
BEGIN
    PERFORM i_shape_wkb_simplify(wkb, 1) FROM bytes WHERE name = its;
    RETURN extract(epoch FROM clock_timestamp() - start);
EXCEPTION WHEN query_canceled THEN
    RETURN -extract(epoch FROM clock_timestamp() - start);
END $$;
-- It ends before three quarters of what a whole call takes, where a third was given.
CREATE FUNCTION is_ended(its text, whole float8) RETURNS bool LANGUAGE sql AS $$ SELECT it < 0 AND -it < 0.75 * whole FROM seconds(its) AS it $$;
SELECT least(seconds('many rings'), seconds('many rings')) AS many, least(seconds('a long ring'), seconds('a long ring')) AS long \gset
SELECT set_config('statement_timeout', (1000 * :many / 3)::int::text, false) IS NOT NULL;
SELECT is_ended('many rings', :many);
SELECT set_config('statement_timeout', (1000 * :long / 3)::int::text, false) IS NOT NULL;
SELECT is_ended('a long ring', :long);
RESET statement_timeout;

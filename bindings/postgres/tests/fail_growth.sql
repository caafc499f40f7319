-- Each growth of each call, failing in turn, in the module whose allocator is tests/fail_growth.c, and whose results have at most 1000 bytes.
\set VERBOSITY terse
\pset format unaligned
\pset tuples_only on
\set ON_ERROR_STOP 0
CREATE FUNCTION fail_growth(number int8) RETURNS void AS :'module' LANGUAGE c;
CREATE FUNCTION growth_count() RETURNS int8 AS :'module' LANGUAGE c;
CREATE FUNCTION block_count() RETURNS int8 AS :'module' LANGUAGE c;
-- How many growths a call makes, how many end in the error 53200, and how many blocks are left then.
CREATE FUNCTION failed(call text, OUT growths int8, OUT reported int8, OUT blocks int8) LANGUAGE plpgsql AS $$
BEGIN
    PERFORM fail_growth(0);
    EXECUTE 'SELECT ' || call;
    growths := growth_count();
    reported := 0;
    FOR k IN 1 .. growths LOOP
        PERFORM fail_growth(k);
        BEGIN
            EXECUTE 'SELECT ' || call;
        EXCEPTION WHEN out_of_memory THEN
            reported := reported + 1;
        END;
    END LOOP;
    PERFORM fail_growth(0);
    EXECUTE 'SELECT ' || call;
    blocks := block_count();
END $$;
\echo each call takes memory, each failure is reported, no block is left
WITH of(geom) AS (VALUES ('MULTIPOLYGON(((0 0,4 0,9 0,9 9,0 9,0 0),(1 1,1 2,1 3,2 3,1 1)),((20 20,25 20,30 20,30 30,20 20)))')), calls(name, call) AS (
    SELECT name, format('%s(%L, 1)', name, geom) FROM of, unnest('{i_shape_simplify,i_shape_despike,i_shape_canonical,i_shape_key,i_shape_digest}'::text[]) AS name)
SELECT name, growths >= CASE WHEN name = 'i_shape_despike' THEN 0 ELSE 3 END, reported = growths, blocks FROM calls, LATERAL failed(call);
SELECT growths > 0, reported = growths, blocks FROM failed($$ i_shape_despike('MULTIPOLYGON(((0 0,4 0,4 4,4 9,4 4,0 0)),((9 9,12 9,12 12,12 15,12 12,9 9)))', 1) $$);
SELECT growths >= 2, reported = growths, blocks FROM failed($$ i_shape_is_valid('MULTIPOLYGON(((0 0,4 0,4 4,0 0)),((9 9,12 9,12 12,9 9)))', 1) $$);
\echo contact points are the same where no memory is given: another point divides by zero
SELECT growths > 0, reported, blocks FROM failed($$ 1 / ST_Equals('POINT(2 2)', i_shape_contact_points('POLYGON((0 0,4 4,4 0,0 4,-1 4,-2 4,-3 4,-4 4,-5 4,-6 4,-7 4,-8 4,
    -8 0,-7 0,-6 0,-5 0,-4 0,-3 0,-2 0,-1 0,0 0))', 1))::int $$);
\echo other measures and tests take none
SELECT growths FROM unnest(ARRAY['i_shape_is_clean(%L, 1)', 'i_shape_has_no_spikes(%L, 1)', 'i_shape_area_two(%L, 1)', 'i_shape_winding(%L, ''POINT(1 1)'', 1)']) AS call,
    LATERAL failed(format(call, 'POLYGON((0 0,4 0,9 0,9 9,0 9,0 0))'));
\echo an answer that is too long
\set VERBOSITY sqlstate
SELECT length(i_shape_wkb_simplify(ST_AsBinary(ST_Buffer('POINT(0 0)'::geometry, 9, 13)), 0.01)) < 1000, length(i_shape_key(ST_Buffer('POINT(0 0)'::geometry, 9, 13), 0.01)) < 1000;
SELECT i_shape_simplify(ST_Buffer('POINT(0 0)'::geometry, 9, 20), 0.01);
SELECT i_shape_key(ST_Buffer('POINT(0 0)'::geometry, 9, 20), 0.01);

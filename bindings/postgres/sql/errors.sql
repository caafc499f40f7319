\set ECHO none
\set VERBOSITY terse
\pset format unaligned
\pset tuples_only on
SET client_min_messages = error;
CREATE EXTENSION IF NOT EXISTS i_shape CASCADE;

-- The code, the message and the hint of a statement that fails.
CREATE FUNCTION error_of(statement text) RETURNS text LANGUAGE plpgsql AS $$
DECLARE hint text;
BEGIN
    EXECUTE 'SELECT ' || statement;
    RETURN 'none';
EXCEPTION WHEN others THEN
    GET STACKED DIAGNOSTICS hint = PG_EXCEPTION_HINT;
    RETURN concat_ws(' / ', SQLSTATE, SQLERRM, nullif(hint, ''));
END $$;

\echo what has another error
SELECT statement, error_of(statement) FROM (VALUES
    ($$ i_shape_simplify('POINT(0 0)', 1) $$, '0A000 / i_shape: expected a Polygon or a MultiPolygon, not a Point'),
    ($$ i_shape_despike('POINT EMPTY', 1) $$, '0A000 / i_shape: expected a Polygon or a MultiPolygon, not a Point'),
    ($$ i_shape_key('LINESTRING(0 0,1 1)', 1) $$, '0A000 / i_shape: expected a Polygon or a MultiPolygon, not a LineString'),
    ($$ i_shape_canonical('GEOMETRYCOLLECTION(POLYGON((0 0,4 0,4 4,0 0)))', 1) $$, '0A000 / i_shape: expected a Polygon or a MultiPolygon, not a GeometryCollection'),
    ($$ i_shape_simplify('CURVEPOLYGON(CIRCULARSTRING(0 0,4 0,4 4,0 4,0 0))', 1) $$, '0A000 / i_shape: expected a Polygon or a MultiPolygon, not a CurvePolygon / Use ST_CurveToLine first.'),
    ($$ i_shape_simplify('CIRCULARSTRING(0 0,1 1,2 0)', 1) $$, '0A000 / i_shape: expected a Polygon or a MultiPolygon, not a CircularString / Use ST_CurveToLine first.'),
    ($$ i_shape_wkb_simplify('\x010d000000', 1) $$, '0A000 / i_shape: expected a Polygon or a MultiPolygon, not a Curve / Use ST_CurveToLine first.'),
    ($$ i_shape_area_two('MULTISURFACE(((0 0,4 0,4 4,0 0)))', 1) $$, '0A000 / i_shape: expected a Polygon or a MultiPolygon, not a MultiSurface / Use ST_CurveToLine first.'),
    ($$ i_shape_is_valid('POINT(0 0)', 1) $$, '0A000 / i_shape: expected a Polygon or a MultiPolygon, not a Point'),
    ($$ i_shape_validity_reason('POLYGON((0 0,4 0,4 4,0 0))', 0) $$, '22023 / i_shape: step is 0, not a finite number above 0'),
    ($$ i_shape_contact_points('LINESTRING(0 0,4 0)', 1) $$, '0A000 / i_shape: expected a Polygon or a MultiPolygon, not a LineString'),
    ($$ i_shape_contact_points('POLYGON((0 0,4 0,4 4,0 0))', -1) $$, '22023 / i_shape: step is -1, not a finite number above 0'),
    ($$ i_shape_contact_points('POLYGON((0 0,562949953421312 0,4 4,0 0))', 1) $$, '22003 / i_shape: polygon 1, ring 1, point 2: x is 562949953421312, 2^49 steps or more from 0'),
    ($$ i_shape_is_clean('TRIANGLE((0 0,4 0,4 4,0 0))', 1) $$, '0A000 / i_shape: expected a Polygon or a MultiPolygon, not a Triangle'),
    ($$ i_shape_key('TIN(((0 0 0,4 0 0,4 4 0,0 0 0)))', 1) $$, '0A000 / i_shape: expected two coordinates a point, and the geometry has Z or M / Use ST_Force2D first.'),
    ($$ i_shape_simplify('POLYGON Z((0 0 1,4 0 1,4 4 1,0 0 1))', 1) $$, '0A000 / i_shape: expected two coordinates a point, and the geometry has Z or M / Use ST_Force2D first.'),
    ($$ i_shape_key('MULTIPOLYGON M(((0 0 1,4 0 1,4 4 1,0 0 1)))', 1) $$, '0A000 / i_shape: expected two coordinates a point, and the geometry has Z or M / Use ST_Force2D first.'),
    ($$ i_shape_wkb_key(ST_AsBinary('POLYGON Z((0 0 1,4 0 1,4 4 1,0 0 1))'::geometry), 1) $$, '0A000 / i_shape: expected two coordinates a point, and the geometry has Z or M / Use ST_Force2D first.'),
    ($$ i_shape_wkb_key(ST_AsBinary('POLYGON M((0 0 1,4 0 1,4 4 1,0 0 1))'::geometry), 1) $$, '0A000 / i_shape: expected two coordinates a point, and the geometry has Z or M / Use ST_Force2D first.'),
    ($$ i_shape_wkb_key(ST_AsBinary('POLYGON ZM((0 0 1 2,4 0 1 2,4 4 1 2,0 0 1 2))'::geometry), 1) $$, '0A000 / i_shape: expected two coordinates a point, and the geometry has Z or M / Use ST_Force2D first.'),
    ($$ i_shape_winding('POLYGON((0 0,4 0,4 4,0 0))', 'POLYGON((0 0,4 0,4 4,0 0))', 1) $$, '0A000 / i_shape: expected a Point, not a Polygon'),
    ($$ i_shape_winding('POLYGON((0 0,4 0,4 4,0 0))', 'POINT Z(1 1 1)', 1) $$, '0A000 / i_shape: expected two coordinates a point, and the geometry has Z or M / Use ST_Force2D first.'),
    ($$ i_shape_key('POLYGON((0 0,4 0,4 4,0 0))', 0) $$, '22023 / i_shape: step is 0, not a finite number above 0'),
    ($$ i_shape_simplify('POLYGON((0 0,4 0,4 4,0 0))', -1) $$, '22023 / i_shape: step is -1, not a finite number above 0'),
    ($$ i_shape_is_clean('POLYGON((0 0,4 0,4 4,0 0))', 'NaN') $$, '22023 / i_shape: step is NaN, not a finite number above 0'),
    ($$ i_shape_area_two('POLYGON EMPTY', 'Infinity') $$, '22023 / i_shape: step is Infinity, not a finite number above 0'),
    ($$ i_shape_winding('SRID=4326;POLYGON((0 0,4 0,4 4,0 0))', 'POINT(1 1)', 1) $$, '22023 / i_shape: the SRID of the polygon is 4326, and that of the point 0'),
    ($$ i_shape_winding('SRID=4326;POLYGON((0 0,4 0,4 4,0 0))', 'SRID=3857;POINT EMPTY', 1) $$, '22023 / i_shape: the SRID of the polygon is 4326, and that of the point 3857'),
    ($$ i_shape_wkb_key('\x0106000020e6100000010000000103000020110f000000000000', 1) $$, '22023 / i_shape: a part of a MultiPolygon has another SRID'),
    ($$ i_shape_key('POLYGON((0 0,4 0,4 4,0 0))', 1e-300) $$, '22003 / i_shape: polygon 1, ring 1, point 2: x is 4, 2^49 steps or more from 0'),
    ($$ i_shape_key('POLYGON((0 0,4 0,4 4,0 0))', 5e-324) $$, '22003 / i_shape: polygon 1, ring 1, point 2: x is 4, 2^49 steps or more from 0'),
    ($$ i_shape_key('POLYGON((0 0,1.7e308 0,4 4,0 0))', 1e308) $$, '22003 / i_shape: polygon 1, ring 1, point 2: x is 1.7e+308, which rounds to no float'),
    ($$ i_shape_key('POLYGON((0 0,562949953421311 0,4 4,0 0))', 1) IS NOT NULL $$, 'none'),
    ($$ i_shape_key('POLYGON((0 0,562949953421312 0,4 4,0 0))', 1) $$, '22003 / i_shape: polygon 1, ring 1, point 2: x is 562949953421312, 2^49 steps or more from 0'),
    ($$ i_shape_key('POLYGON((0 0,4 -562949953421312,4 4,0 0))', 1) $$, '22003 / i_shape: polygon 1, ring 1, point 2: y is -562949953421312, 2^49 steps or more from 0'),
    ($$ i_shape_simplify('MULTIPOLYGON(EMPTY,((0 0,4 0,4 4,0 0)),((0 0,4 0,4 4,0 0),(1 1,2 1,2 1e300,1 1)))', 1) $$, '22003 / i_shape: polygon 3, ring 2, point 3: y is 1e+300, 2^49 steps or more from 0'),
    ($$ i_shape_key(ST_MakePolygon(ST_MakeLine(ARRAY[ST_Point(0,0), ST_Point(4,0), ST_Point('NaN',4), ST_Point(0,0)])), 1) $$, '22003 / i_shape: polygon 1, ring 1, point 3: x is NaN, which isn''t finite'),
    ($$ i_shape_despike(ST_MakePolygon(ST_MakeLine(ARRAY[ST_Point(0,0), ST_Point(4,0), ST_Point(4,'-Infinity'), ST_Point(0,0)])), 1) $$, '22003 / i_shape: polygon 1, ring 1, point 3: y is -Infinity, which isn''t finite'),
    ($$ i_shape_winding('POLYGON((0 0,4 0,4 4,0 0))', ST_Point('NaN', 1), 1) $$, '22003 / i_shape: the point (NaN, 1) is 2^49 steps or more from 0, isn''t finite, or rounds to no float'),
    ($$ i_shape_wkb_key('', 1) $$, '22P03 / i_shape: not a geometry: it ends too soon'),
    ($$ i_shape_wkb_key('\x05', 1) $$, '22P03 / i_shape: not a geometry: its byte order is neither 0 nor 1'),
    ($$ i_shape_wkb_key('\x01030000', 1) $$, '22P03 / i_shape: not a geometry: it ends too soon'),
    ($$ i_shape_wkb_key('\x0103000000ffffffff', 1) $$, '22P03 / i_shape: not a geometry: it ends too soon'),
    ($$ i_shape_wkb_key('\x010300000001000000ffffffff', 1) $$, '22P03 / i_shape: not a geometry: it ends too soon'),
    ($$ i_shape_wkb_key('\x0106000000ffffff1c', 1) $$, '22P03 / i_shape: not a geometry: it ends too soon'),
    ($$ i_shape_wkb_key('\x01060000000100000001060000000000000000', 1) $$, '22P03 / i_shape: not a geometry: a part of a MultiPolygon isn''t a Polygon'),
    ($$ i_shape_wkb_key('\x01030000000000000000', 1) $$, '22P03 / i_shape: not a geometry: bytes are left over'),
    ($$ i_shape_wkb_key('\x018813000000000000', 1) $$, '0A000 / i_shape: expected a Polygon or a MultiPolygon, not a geometry of an unknown type'),
    ($$ i_shape_wkb_winding(ST_AsBinary('POLYGON EMPTY'::geometry), '\x0101000000', 1) $$, '22P03 / i_shape: not a geometry: it ends too soon')
) AS row(statement, wanted) WHERE error_of(statement) IS DISTINCT FROM wanted;

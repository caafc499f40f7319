\set ECHO none
\set VERBOSITY terse
\pset format unaligned
\pset tuples_only on
SET client_min_messages = error;
CREATE EXTENSION IF NOT EXISTS i_shape CASCADE;

\echo the functions: those not IMMUTABLE, STRICT and PARALLEL SAFE, or without a comment, and all
SELECT proname FROM pg_proc
WHERE proname LIKE 'i\_shape\_%' AND (NOT (provolatile = 'i' AND proisstrict AND proparallel = 's') OR obj_description(oid, 'pg_proc') IS NULL);
SELECT proname, prolang <> 13, pronargs, pronargdefaults, prorettype::regtype, procost FROM pg_proc
WHERE proname LIKE 'i\_shape\_%' ORDER BY proname COLLATE "C";

\echo the cleaners: what answers something else
SELECT name, ST_AsEWKT(got) FROM (VALUES
    ('a vertex on an edge', i_shape_simplify('POLYGON((0 0,2 0,4 0,4 4,0 0))', 1), 'POLYGON((0 0,4 0,4 4,0 0))'),
    ('a repeated point', i_shape_simplify('POLYGON((0 0,0 0,4 0,4 4,0 0))', 1), 'POLYGON((0 0,4 0,4 4,0 0))'),
    ('a spike', i_shape_simplify('POLYGON((0 0,4 0,4 4,4 9,4 4,0 4,0 0))', 1), 'POLYGON((0 0,4 0,4 4,0 4,0 0))'),
    ('a spike alone', i_shape_despike('POLYGON((0 0,2 0,4 0,4 4,4 9,4 4,0 0))', 1), 'POLYGON((0 0,2 0,4 0,4 4,0 0))'),
    ('a thin hole', i_shape_simplify('POLYGON((0 0,9 0,9 9,0 0),(1 1,2 2,3 3,1 1),(5 1,6 1,6 2,5 1))', 1), 'POLYGON((0 0,9 0,9 9,0 0),(5 1,6 1,6 2,5 1))'),
    ('a thin polygon', i_shape_simplify('MULTIPOLYGON(((0 0,2 0,4 0,4 4,0 0)),((7 0,8 0,9 0,7 0),(7 1,8 1,8 2,7 1)))', 1), 'MULTIPOLYGON(((0 0,4 0,4 4,0 0)))'),
    ('the SRID', i_shape_simplify('SRID=4326;POLYGON((0 0,2.5 0,5 0,5 5,0 0))', 0.5), 'SRID=4326;POLYGON((0 0,5 0,5 5,0 0))'),
    ('the SRID of several', i_shape_despike('SRID=3857;MULTIPOLYGON(((0 0,4 0,4 4,0 0)))', 1), 'SRID=3857;MULTIPOLYGON(((0 0,4 0,4 4,0 0)))'),
    ('halves round to the even step', i_shape_simplify('POLYGON((0.5 1.5,2.5 -0.5,3.5 4.5,0.5 1.5))', 1), 'POLYGON((0 2,2 0,4 4,0 2))'),
    ('a step of which 1 has a whole number', i_shape_simplify('POLYGON((0.29 0,0.74 0,0 0.71,0.29 0))', 0.1), 'POLYGON((0.3 0,0.7 0,0 0.7,0.3 0))'),
    ('a step of which 1 has none', i_shape_simplify('POLYGON((0 0,7 0,0 11,0 0))', 3), 'POLYGON((0 0,6 0,0 12,0 0))'),
    ('a clean one', i_shape_simplify('POLYGON((0 0,4 0,4 4,0 0))', 1), 'POLYGON((0 0,4 0,4 4,0 0))'),
    ('EMPTY', i_shape_simplify('SRID=4326;POLYGON EMPTY', 1), 'SRID=4326;POLYGON EMPTY'),
    ('EMPTY of several', i_shape_despike('MULTIPOLYGON EMPTY', 1), 'MULTIPOLYGON EMPTY'),
    ('an EMPTY part', i_shape_simplify('MULTIPOLYGON(EMPTY,((0 0,4 0,4 4,0 0)))', 1), 'MULTIPOLYGON(((0 0,4 0,4 4,0 0)))'),
    ('what collapses', i_shape_simplify('SRID=4326;POLYGON((0 0,4 0,9 0,0 0))', 1), 'SRID=4326;POLYGON EMPTY'),
    ('what collapses, of several', i_shape_canonical('MULTIPOLYGON(((0 0,4 0,9 0,0 0)))', 1), 'MULTIPOLYGON EMPTY'),
    ('what is smaller than a step', i_shape_simplify('POLYGON((0 0,0.1 0,0.1 0.1,0 0))', 1), 'POLYGON EMPTY'),
    ('the least start', i_shape_canonical('POLYGON((4 4,0 0,2 0,4 0,4 4))', 1), 'POLYGON((0 0,4 0,4 4,0 0))'),
    ('the lesser way', i_shape_canonical('POLYGON((0 0,4 4,4 0,0 0))', 1), 'POLYGON((0 0,4 0,4 4,0 0))'),
    ('the way that it goes', i_shape_canonical('POLYGON((0 0,4 4,4 0,0 0))', 1, true), 'POLYGON((0 0,4 4,4 0,0 0))'),
    ('holes by their points', i_shape_canonical('POLYGON((-9 -9,999 -9,999 999,-9 -9),(256 1,257 1,257 2,256 1),(1 1,2 1,2 2,1 1),(-1 -1,0 -1,0 0,-1 -1))', 1),
     'POLYGON((-9 -9,999 -9,999 999,-9 -9),(-1 -1,0 -1,0 0,-1 -1),(1 1,2 1,2 2,1 1),(256 1,257 1,257 2,256 1))'),
    ('polygons ring by ring', i_shape_canonical('MULTIPOLYGON(((0 0,9 0,9 9,0 0),(1 1,2 1,2 2,1 1)),((0 0,9 0,9 9,0 0)),((-1 0,9 0,9 9,-1 0)))', 1),
     'MULTIPOLYGON(((-1 0,9 0,9 9,-1 0)),((0 0,9 0,9 9,0 0)),((0 0,9 0,9 9,0 0),(1 1,2 1,2 2,1 1)))')
) AS row(name, got, wanted) WHERE ST_AsEWKT(got) IS DISTINCT FROM wanted;

\echo NULL: what answers something
SELECT name FROM (VALUES
    ('simplify', i_shape_simplify(NULL, 1)::text), ('step', i_shape_simplify('POLYGON((0 0,4 0,4 4,0 0))', NULL)::text), ('key', i_shape_key(NULL, 1)::text),
    ('oriented', i_shape_key('POLYGON((0 0,4 0,4 4,0 0))', 1, NULL)::text), ('winding', i_shape_winding('POLYGON((0 0,4 0,4 4,0 0))', NULL, 1)::text),
    ('an empty point', i_shape_winding('POLYGON((0 0,4 0,4 4,0 0))', 'POINT EMPTY', 1)::text), ('contact points', i_shape_contact_points(NULL, 1)::text)
) AS row(name, got) WHERE got IS NOT NULL;

\echo measures: what answers something else
SELECT name, got FROM (VALUES
    ('area', i_shape_area_two('POLYGON((0 0,4 0,4 4,0 0))', 1), 16), ('area in cells', i_shape_area_two('POLYGON((0 0,4 0,4 4,0 0))', 0.5), 64),
    ('area, either way', i_shape_area_two('POLYGON((0 0,4 4,4 0,0 0))', 1), 16),
    ('area with holes', i_shape_area_two('POLYGON((0 0,5 0,5 5,0 5,0 0),(1 1,1 2,2 2,2 1,1 1),(3 3,4 3,4 4,3 3))', 1), 50 - 2 - 1),
    ('area of several', i_shape_area_two('MULTIPOLYGON(((0 0,4 0,4 4,0 0)),((9 9,9 8,8 8,9 9)))', 1), 17), ('area of none', i_shape_area_two('POLYGON EMPTY', 1), 0),
    ('area above 64 bits', i_shape_area_two('POLYGON((0 0,500000000000000 0,500000000000000 500000000000000,0 0))', 1), 250000000000000000000000000000),
    ('more hole than polygon', i_shape_area_two('POLYGON((0 0,1 0,2 0,0 0),(0 0,4 0,4 4,0 0))', 1), -16),
    ('winding inside', i_shape_winding('POLYGON((0 0,9 0,9 9,0 9,0 0))', 'POINT(5 5)', 1), 1), ('winding outside', i_shape_winding('POLYGON((0 0,9 0,9 9,0 9,0 0))', 'POINT(10 5)', 1), 0),
    ('winding the other way', i_shape_winding('POLYGON((0 0,0 9,9 9,9 0,0 0))', 'POINT(5 5)', 1), -1),
    ('winding in a hole', i_shape_winding('POLYGON((0 0,9 0,9 9,0 9,0 0),(1 1,1 8,8 8,8 1,1 1))', 'POINT(5 5)', 1), 0),
    ('winding in a hole that turns as the ring', i_shape_winding('POLYGON((0 0,9 0,9 9,0 9,0 0),(1 1,8 1,8 8,1 8,1 1))', 'POINT(5 5)', 1), 2),
    ('winding of several', i_shape_winding('MULTIPOLYGON(((0 0,9 0,9 9,0 9,0 0)),((1 1,8 1,8 8,1 8,1 1)))', 'POINT(5 5)', 1), 2),
    ('winding, rounded', i_shape_winding('SRID=4326;POLYGON((0 0,9 0,9 9,0 9,0 0))', 'SRID=4326;POINT(8.6 5)', 1), 0),
    ('winding over bytes', i_shape_wkb_winding(ST_AsBinary('POLYGON((0 0,9 0,9 9,0 9,0 0))'::geometry), ST_AsBinary('POINT(5 5)'::geometry), 1), 1)
) AS row(name, got, wanted) WHERE got IS DISTINCT FROM wanted;

\echo what is clean: what answers something else
SELECT ST_AsText(geom) FROM (VALUES
    ('POLYGON((0 0,4 0,4 4,0 0))'::geometry, true), ('POLYGON EMPTY', true), ('MULTIPOLYGON EMPTY', true), ('MULTIPOLYGON(((0 0,4 0,4 4,0 0)))', true),
    ('POLYGON((0 0,2 0,4 0,4 4,0 0))', false), ('POLYGON((0 0,4 0,4 4.25,0 0))', false), ('POLYGON((0 0,4 0,4 4,0 0),(1 1,2 2,3 3,1 1))', false),
    ('POLYGON((0 0,4 0,4 4,4 9,4 4,0 0))', false), ('MULTIPOLYGON(EMPTY,((0 0,4 0,4 4,0 0)))', false)
) AS row(geom, wanted) WHERE i_shape_is_clean(geom, 1) IS DISTINCT FROM wanted OR (i_shape_simplify(geom, 1)::bytea = geom::bytea) IS DISTINCT FROM wanted;

\echo what has no spikes: what answers something else
SELECT ST_AsText(geom) FROM (VALUES
    ('POLYGON((0 0,4 0,4 4,0 0))'::geometry, true), ('POLYGON EMPTY', true), ('POLYGON((0 0,2 0,4 0,4 4,0 0))', true), ('POLYGON((0 0,0 0,4 0,4 4,0 0))', true),
    ('POLYGON((0 0,4 0,4 4,4 9,4 4,0 0))', false), ('POLYGON((0 0,4 0,4 4.25,0 0))', false), ('POLYGON((0 0,9 0,9 9,0 0),(1 1,2 2,3 3,1 1))', false),
    ('MULTIPOLYGON(((0 0,4 0,4 4,0 0)),((9 9,9 8,9 9,9 9)))', false), ('MULTIPOLYGON(((0 0,2 0,4 0,4 4,0 0)),((9 9,9 8,8 8,9 9)))', true)
) AS row(geom, wanted) WHERE i_shape_has_no_spikes(geom, 1) IS DISTINCT FROM wanted OR NOT i_shape_has_no_spikes(i_shape_despike(geom, 1), 1);

\echo what is valid: what answers something else
SELECT name, got FROM (VALUES
    ('a hole', i_shape_validity_reason('POLYGON((0 0,4 0,4 4,0 4,0 0),(1 1,2 1,1 2,1 1))', 1), NULL), ('EMPTY', i_shape_validity_reason('POLYGON EMPTY', 1), NULL),
    ('off the grid', i_shape_validity_reason('POLYGON((0 0,4 0,4 4.25,0 0))', 1), NULL), ('an EMPTY part', i_shape_validity_reason('MULTIPOLYGON(EMPTY)', 1), NULL),
    ('polygons that overlap', i_shape_validity_reason('MULTIPOLYGON(((0 0,4 0,4 4,0 0)),((0 0,4 0,4 4,0 0)))', 1), NULL),
    ('a crossing', i_shape_validity_reason('POLYGON((0 0,4.5 4.5,4.5 0,0 4.5,0 0))', 0.5), 'polygon 1, ring 1: edge 1 from (0, 0) meets edge 3 from (4.5, 0)'),
    ('a spike', i_shape_validity_reason('POLYGON((0 0,4 0,4 4,4 9,4 4,0 4,0 0))', 1), 'polygon 1, ring 1: edge 2 from (4, 0) meets edge 4 from (4, 9)'),
    ('a repeated point', i_shape_validity_reason('POLYGON((0 0,4 0,4 0,4 4,0 0))', 1), 'polygon 1, ring 1: edge 1 from (0, 0) meets edge 3 from (4, 0)'),
    ('a hole that touches', i_shape_validity_reason('MULTIPOLYGON(((0 0,1 0,0 1,0 0)),((0 0,4 0,4 4,0 4,0 0),(1 1,1 2,2 4,1 1)))', 1),
     'polygon 2, ring 1: edge 3 from (4, 4) meets edge 2 of ring 2 from (1, 2)'),
    ('a hole that touches at its first point', i_shape_validity_reason('POLYGON((0 0,4 0,4 4,0 4,0 0),(0 1,1 1,1 2,0 1))', 1),
     'polygon 1, ring 1: edge 4 from (0, 4) meets edge 1 of ring 2 from (0, 1)'),
    ('a valid polygon behind a crossing', i_shape_validity_reason('MULTIPOLYGON(((0 0,4 4,4 0,0 4,0 0)),((9 9,8 9,9 8,9 9)))', 1),
     'polygon 1, ring 1: edge 1 from (0, 0) meets edge 3 from (4, 0)'),
    ('a crossing behind an EMPTY part', i_shape_validity_reason('MULTIPOLYGON(EMPTY,((0 0,4 4,4 0,0 4,0 0)))', 1),
     'polygon 2, ring 1: edge 1 from (0, 0) meets edge 3 from (4, 0)'),
    ('another fault behind a crossing', i_shape_validity_reason('MULTIPOLYGON(((0 0,4 4,4 0,0 4,0 0)),((9 9,9 9,9 9,9 9)))', 1),
     'polygon 1, ring 1: edge 1 from (0, 0) meets edge 3 from (4, 0)'),
    ('what is smaller than a step', i_shape_validity_reason('POLYGON((0 0,4 0,4 4,0 0),(2.9 1,3.1 1,3.1 1.1,2.9 1))', 1),
     'polygon 1, ring 2: it has fewer than three points, or only equal ones, at (3, 1)'),
    ('a hole outside', i_shape_validity_reason('POLYGON((0 0,4 0,4 4,0 0),(6 1,6 2,7.1 1,6 1))', 0.1), 'polygon 1, ring 2: it is a hole outside the outer ring, at (6, 1)'),
    ('a hole within', i_shape_validity_reason('POLYGON((0 0,9 0,9 9,0 9,0 0),(2 2,4 2,4 4,2 2),(1 1,8 1,8 8,1 8,1 1))', 1),
     'polygon 1, ring 2: it is a hole within ring 3, another hole, at (2, 2)'),
    ('a ring without points', i_shape_wkb_validity_reason('\x01030000000100000000000000', 1), 'polygon 1, ring 1: it has fewer than three points, or only equal ones'),
    ('a hole that may touch', i_shape_validity_reason('POLYGON((0 0,4 0,4 4,0 4,0 0),(0 1,1 1,1 2,0 1))', 1, true), NULL),
    ('a hole that crosses', i_shape_validity_reason('POLYGON((0 0,4 0,4 4,0 4,0 0),(1 1,9 1,1 2,1 1))', 1, true),
     'polygon 1, ring 1: edge 2 from (4, 0) meets edge 1 of ring 2 from (1, 1)'),
    ('a hole that touches twice', i_shape_validity_reason('POLYGON((0 0,8 0,8 8,0 8,0 0),(0 4,8 4,4 6,0 4))', 1, true),
     'polygon 1, ring 1: edge 2 from (8, 0) touches edge 1 of ring 2 from (0, 4), which parts the inside'),
    ('a hole that touches from outside', i_shape_validity_reason('POLYGON((0 0,8 0,8 8,4 4,0 8,0 0),(4 4,2 7,6 7,4 4))', 1, true),
     'polygon 1, ring 2: it is a hole outside the outer ring, at (4, 4)'),
    ('a hole that touches another from inside',
     i_shape_validity_reason('POLYGON((0 0,9 0,9 9,0 9,0 0),(1 1,7 1,7 7,1 7,1 1),(1 3,3 2,3 4,1 3))', 1, true),
     'polygon 1, ring 3: it is a hole within ring 2, another hole, at (1, 3)')
) AS row(name, got, wanted) WHERE got IS DISTINCT FROM wanted;

\echo where edges meet: what answers something else
SELECT name, ST_AsEWKT(got) FROM (VALUES
    ('a crossing', i_shape_contact_points('SRID=4326;POLYGON((0 0,4.5 4.5,4.5 0,0 4.5,0 0))', 0.5), 'SRID=4326;MULTIPOINT(2.25 2.25)'::geometry),
    ('a crossing at thirds', i_shape_contact_points('POLYGON((0 0,3 1,3 0,0 2,0 0))', 1), 'MULTIPOINT(2 0.6666666666666666)'),
    ('a spike', i_shape_contact_points('POLYGON((0 0,4 0,4 4,4 9,4 4,0 4,0 0))', 1), 'MULTIPOINT(4 4,4 9)'),
    ('a repeated point', i_shape_contact_points('POLYGON((0 0,4 0,4 0,4 4,0 0))', 1), 'MULTIPOINT(4 0)'),
    ('a hole that touches', i_shape_contact_points('POLYGON((0 0,4 0,4 4,0 4,0 0),(0 1,1 1,1 2,0 1))', 1), 'MULTIPOINT(0 1)'),
    ('a hole along an edge', i_shape_contact_points('POLYGON((0 0,9 0,9 9,0 9,0 0),(2 0,5 0,5 3,2 3,2 0))', 1), 'MULTIPOINT(2 0,5 0)'),
    ('several', i_shape_contact_points('MULTIPOLYGON(((0 0,1 0,0 1,0 0)),((6 6,8 8,8 6,6 8,6 6)),((2 2,2 4,4 2,4 4,2 2)))', 1), 'MULTIPOINT(3 3,7 7)'),
    ('off the grid', i_shape_contact_points('POLYGON((0 0,4.4 4.4,4.4 0,0 4.4,0 0))', 1), 'MULTIPOINT(2 2)'),
    ('polygons that overlap', i_shape_contact_points('SRID=7;MULTIPOLYGON(((0 0,4 0,4 4,0 0)),((0 0,4 0,4 4,0 0)))', 1), 'SRID=7;MULTIPOINT EMPTY'),
    ('a hole outside', i_shape_contact_points('POLYGON((0 0,4 0,4 4,0 0),(6 1,6 2,7 1,6 1))', 1), 'MULTIPOINT EMPTY'),
    ('EMPTY', i_shape_contact_points('SRID=4326;POLYGON EMPTY', 1), 'SRID=4326;MULTIPOINT EMPTY')
) AS row(name, got, wanted) WHERE ST_AsEWKB(got) IS DISTINCT FROM ST_AsEWKB(wanted);
\echo a star, each of whose edges crosses eight: how many points, and whether each is where PostGIS has one
WITH star AS (
    SELECT ST_MakePolygon(ST_MakeLine(array_agg(ST_Point(round(1000 * cosd(k * 5 * 360 / 11.0)), round(1000 * sind(k * 5 * 360 / 11.0))) ORDER BY k))) AS geom
    FROM generate_series(0, 11) AS k
), edge AS (SELECT path, its.geom FROM star, ST_DumpSegments(star.geom) AS its), crossing AS (
    SELECT ST_Intersection(one.geom, other.geom) AS point FROM edge AS one JOIN edge AS other ON one.path < other.path WHERE ST_Crosses(one.geom, other.geom)
)
SELECT count(*), bool_and(EXISTS (SELECT FROM crossing WHERE ST_Distance(point, its.geom) < 1e-9)), (SELECT count(*) FROM crossing)
FROM star, ST_Dump(i_shape_contact_points(star.geom, 1)) AS its;

\echo over bytes: what differs from the call over geometry, of ISO and of the other byte order
SELECT i_shape_wkb_simplify(wkb, 1) = ST_AsEWKB(i_shape_simplify(geom, 1)), i_shape_wkb_despike(wkb, 1) = ST_AsEWKB(i_shape_despike(geom, 1)),
    i_shape_wkb_canonical(wkb, 1) = ST_AsEWKB(i_shape_canonical(geom, 1)), i_shape_wkb_key(wkb, 1) = i_shape_key(geom, 1),
    i_shape_wkb_digest(wkb, 1) = i_shape_digest(geom, 1), i_shape_digest(geom, 1) = sha256(i_shape_key(geom, 1)),
    i_shape_wkb_area_two(wkb, 1) = i_shape_area_two(geom, 1), i_shape_wkb_is_clean(wkb, 1) = i_shape_is_clean(geom, 1),
    i_shape_wkb_has_no_spikes(wkb, 1) = i_shape_has_no_spikes(geom, 1), i_shape_wkb_is_valid(wkb, 1) = i_shape_is_valid(geom, 1),
    i_shape_is_valid(geom, 1) = (i_shape_validity_reason(geom, 1) IS NULL), i_shape_wkb_contact_points(wkb, 1) = ST_AsEWKB(i_shape_contact_points(geom, 1))
FROM (VALUES ('SRID=4326;POLYGON((0 0,9 0,9 9,0 9,0 0),(1 1,1 2,2 2,1 1))'::geometry), ('MULTIPOLYGON(((0 0,2 0,4 0,4 4,0 0)),((8 8,9 8,9 9,8 8)))')) AS of(geom),
    LATERAL (VALUES (ST_AsEWKB(geom, 'NDR')), (ST_AsEWKB(geom, 'XDR'))) AS row(wkb);
SELECT i_shape_wkb_key(ST_AsBinary(geom, 'XDR'), 1) = i_shape_key(geom, 1) FROM (VALUES ('POLYGON((0 0,4 0,4 4,0 0))'::geometry)) AS of(geom);
SELECT bool_and(i_shape_wkb_simplify(wkb, 1) = wkb) FROM (VALUES ('\x01030000200000000000000000'::bytea), ('\x0103000020ffffffff00000000')) AS of(wkb);
\echo an open ring is read as closed, and is not clean
SELECT i_shape_wkb_simplify(wkb, 1) = ST_AsBinary(ST_MakePolygon(ST_AddPoint(line, ST_StartPoint(line)))), i_shape_wkb_is_clean(wkb, 1)
FROM (VALUES ('LINESTRING(0 0,4 0,4 4,0 4)'::geometry), ('LINESTRING(0 0,0 4,4 4,4 0)')) AS of(line),
    LATERAL (VALUES ('\x010300000001000000'::bytea || substr(ST_AsBinary(line), 6))) AS row(wkb);

\echo cleaned again it stays, and it is clean, at ten steps
SELECT bool_and(ST_AsEWKB(i_shape_simplify(once, step)) = ST_AsEWKB(once)), bool_and(i_shape_is_clean(once, step)), count(DISTINCT step)
FROM (SELECT step, i_shape_simplify(ST_Buffer(ST_Point(x, y), 0.3, 20), step) AS once
      FROM generate_series(-170, 170, 34) AS x, generate_series(-80, 80, 16) AS y,
           unnest('{1e-1,1e-3,1e-5,1e-7,1e-9,0.3,0.007,1e-12,0.25,7.77e-6}'::float8[]) AS step) AS cleaned;

\echo the rings turned for winding numbers: inside, in the hole, outside
SELECT i_shape_winding(ST_ForcePolygonCCW('POLYGON((0 0,0 9,9 9,9 0,0 0),(1 1,1 8,8 8,8 1,1 1))'::geometry), ST_Point(x, 5.5), 0.5) FROM unnest('{0.5,5.5,9.5}'::float8[]) AS x;

import assert from "node:assert/strict";
import { describe, test } from "node:test";
import { readPolygons, scaled } from "../formats.js";

const TRIANGLE = [[0, 0], [4, 0], [0, 4]];
const HOLE = [[1, 1], [1, 2], [2, 1]];

describe("what is read", () => {
    for (const [name, text, polygons] of [
        ["no text", " \n", []],
        ["a line", "0 0 4 0 0 4", [[TRIANGLE]]],
        ["a line with commas", "0,0 4,0 0,4", [[TRIANGLE]]],
        ["two lines, a polygon with a hole", "0 0 4 0 0 4\n1 1 1 2 2 1\n", [[TRIANGLE, HOLE]]],
        ["two polygons", "0 0 4 0 0 4\n\n1 1 1 2 2 1", [[TRIANGLE], [HOLE]]],
        ["two polygons, with empty lines about them", "\n0 0 4 0 0 4\n \n\n1 1 1 2 2 1\n\n", [[TRIANGLE], [HOLE]]],
        ["a WKT polygon", "POLYGON ((0 0, 4 0, 0 4, 0 0), (1 1, 1 2, 2 1, 1 1))", [[TRIANGLE, HOLE]]],
        ["a WKT multipolygon", "MULTIPOLYGON(((0 0,4 0,0 4,0 0)),((1 1,1 2,2 1,1 1)))", [[TRIANGLE], [HOLE]]],
        ["an empty WKT polygon", "polygon empty", []],
        ["a GeoJSON polygon", JSON.stringify({ type: "Polygon", coordinates: [[...TRIANGLE, [0, 0]], [...HOLE, [1, 1]]] }), [[TRIANGLE, HOLE]]],
        [
            "a GeoJSON multipolygon",
            JSON.stringify({ type: "MultiPolygon", coordinates: [[[...TRIANGLE, [0, 0]]], [[...HOLE, [1, 1]]]] }),
            [[TRIANGLE], [HOLE]],
        ],
        [
            "GeoJSON features, with heights",
            JSON.stringify({
                type: "FeatureCollection",
                features: [{ type: "Feature", geometry: { type: "Polygon", coordinates: [[[0, 0, 7], [4, 0, 7], [0, 4, 7], [0, 0, 7]]] } }],
            }),
            [[TRIANGLE]],
        ],
    ]) {
        test(name, () => assert.deepEqual(readPolygons(text), polygons));
    }
});

describe("what isn't read", () => {
    for (const [name, text, message] of [
        ["an x without a y", "0 0 4", /line 1: the last x has no y/],
        ["a word", "0 0 4 zero", /line 1: "zero" is no number/],
        ["a word of the second polygon", "\n0 0 4 0 0 4\n\n1 one", /line 4: "one" is no number/],
        ["a comma before the first number", ",1 2 3", /line 1: "" is no number/],
        ["a GeoJSON polygon without rings", '{"type": "Polygon"}', /undefined is no list of rings/],
        ["a GeoJSON ring that is no list", '{"type": "Polygon", "coordinates": [3]}', /3 is no list of positions/],
        ["a GeoJSON multipolygon that is no list", '{"type": "MultiPolygon", "coordinates": {}}', /no list of polygons/],
        ["GeoJSON features that are no list", '{"type": "FeatureCollection", "features": null}', /null is no list of features/],
        ["a GeoJSON type with the name of a method", '{"type": "toString"}', /a toString is no polygon/],
        ["a GeoJSON point", '{"type": "Point", "coordinates": [0, 0]}', /a Point is no polygon/],
        ["GeoJSON that ends", '{"type": "Polygon"', /JSON/],
        ["a GeoJSON position of one number", '{"type": "Polygon", "coordinates": [[[0]]]}', /\[0\] is no position/],
        ["a WKT line", "LINESTRING (0 0, 1 1)", /only POLYGON/],
        ["WKT with a bracket too many", "POLYGON ((0 0, 1 1)))", /brackets/],
        ["WKT with words", "POLYGON ((zero 0))", /more than numbers/],
    ]) {
        test(name, () => assert.throws(() => readPolygons(text), { name: "SyntaxError", message }));
    }
});

test("whole numbers, by a scale", () => assert.deepEqual(scaled([[[[0.26, -0.26], [-0.1, 1]]]], 10), [[[[3, -3], [-1, 10]]]]));

/** GeoJSON in and out, and what is worked out by keys. */
import assert from "node:assert/strict";
import { readFileSync } from "node:fs";
import { describe, test } from "node:test";
import { fromGeoJson, load, toGeoJson } from "../src/i_shape.js";
import { MODULE, WIDTHS, describeWidths } from "./support/modules.js";

const SQUARE = { type: "Polygon", coordinates: [[[0, 0, 7], [0.4, 0, 7], [0.4, 0.4, 7], [0, 0.4, 7], [0, 0, 7]], [[0.1, 0.1], [0.1, 0.3], [0.3, 0.3], [0.1, 0.1]]] };
const cycle = [];
cycle.push(cycle);

describe("GeoJSON", () => {
    test("polygons of a collection, on a grid and back", () => {
        const { type, coordinates } = SQUARE;
        const features = [
            { type: "Feature", geometry: { type, coordinates } },
            { type: "Feature", geometry: null },
            { type: "Feature", geometry: { type: "MultiPolygon", coordinates: [[], [coordinates[1]]] } },
        ];
        const polygons = fromGeoJson({ type: "FeatureCollection", features }, { step: 0.1 });
        assert.deepEqual(polygons, {
            points: Int32Array.of(0, 0, 4, 0, 4, 4, 0, 4, 1, 1, 1, 3, 3, 3, 1, 1, 1, 3, 3, 3),
            ringOffsets: Uint32Array.of(0, 4, 7, 10),
            polygonOffsets: Uint32Array.of(0, 2, 2, 3),
        });
        const flat = coordinates.map((ring) => ring.map(([x, y]) => [x, y]));
        assert.deepEqual(toGeoJson(polygons, { step: 0.1 }), { type: "MultiPolygon", coordinates: [flat, [], [flat[1]]] });
    });

    test("halves are rounded to the even step, and the step may be any number", () => {
        const triangle = (x) => ({ type: "Polygon", coordinates: [[[x, 0], [9, 0], [9, 9]]] });
        for (const [x, wanted] of [[0.5, 0], [1.5, 2], [2.5, 2], [-0.5, 0], [-1.5, -2], [-2.5, -2]]) {
            assert.equal(fromGeoJson(triangle(x), { step: 1 }).points[0], wanted);
        }
        const polygons = fromGeoJson(triangle(3), { step: 1.5, Points: BigInt64Array });
        assert.deepEqual(polygons.points, BigInt64Array.of(2n, 0n, 6n, 0n, 6n, 6n));
        assert.deepEqual(toGeoJson(polygons, { step: 1.5 }).coordinates[0][0][0], [3, 0]);
    });

    test("each row of bindings/grid.txt, which all languages are tested with", () => {
        const lines = readFileSync(new URL("../../grid.txt", import.meta.url), "utf8").split("\n").filter((line) => line && !line.startsWith("#"));
        assert.ok(lines.length > 500);
        for (const line of lines) {
            const [step, x, k, back, width] = line.split("\t");
            const given = { type: "Polygon", coordinates: [[[Number(x), Number(x)]]] };
            for (const { bits, Points, number } of WIDTHS) {
                const options = { step: Number(step), Points };
                if (width === "-" || Number(width) > bits) {
                    assert.throws(() => fromGeoJson(given, options), { name: "UnsafePointError" }, line);
                    continue;
                }
                const polygons = fromGeoJson(given, options);
                assert.deepEqual(polygons.points, Points.of(number(k), number(k)), line);
                const there = () => toGeoJson(polygons, { step: Number(step) }).coordinates[0][0][0][0];
                if (back === "-") assert.throws(there, { name: "RangeError" }, line);
                else assert.ok(Object.is(there(), Number(back)), line);
            }
        }
    });

    test("a coordinate out of the safe range is named", () => {
        const far = { type: "Polygon", coordinates: [[[0, 0], [1, 0], [1, 200]]] };
        assert.throws(() => fromGeoJson(far, { step: 1e-7 }), { name: "UnsafePointError", code: -1, point: 2, ring: 0, message: /^ring 0: point 2 is \(1, 200\), 2000000000 steps/ });
        const features = [{ type: "Feature", geometry: SQUARE }, { type: "Feature", geometry: null }, { type: "Feature", geometry: far }];
        assert.throws(() => fromGeoJson({ type: "FeatureCollection", features }, { step: 1e-7 }),
            { name: "UnsafePointError", point: 9, ring: 2, feature: 2, message: /^feature 2, ring 2: point 9 is \(1, 200\)/ });
    });

    test("the feature that isn't read is named", () => {
        const line = { type: "Feature", geometry: { type: "LineString", coordinates: [] } };
        const collection = { type: "FeatureCollection", features: [{ type: "Feature", geometry: null }, line] };
        assert.throws(() => fromGeoJson(collection, { step: 1 }), { name: "GeoJsonError", feature: 1, message: "feature 1: GeoJSON: a LineString is no polygon" });
        assert.throws(() => fromGeoJson(line, { step: 1 }), { name: "GeoJsonError", feature: undefined, message: "GeoJSON: a LineString is no polygon" });
    });

    for (const [name, call, message] of [
        ["no options", () => fromGeoJson(SQUARE), /^fromGeoJson has no step: .*degrees/],
        ["no step", () => fromGeoJson(SQUARE, { Points: Int32Array }), /^fromGeoJson has no step/],
        ["a step of another name", () => fromGeoJson(SQUARE, { Step: 1e-7 }), /^fromGeoJson has no option Step: its options are step, Points$/],
        ["a step alone", () => fromGeoJson(SQUARE, 1e-7), /^the options of fromGeoJson are 1e-7, and no object$/],
        ["no step on the way back", () => toGeoJson(fromGeoJson(SQUARE, { step: 1 })), /^toGeoJson has no step/],
        ["another option on the way back", () => toGeoJson(fromGeoJson(SQUARE, { step: 1 }), { step: 1, Points: Int32Array }), /^toGeoJson has no option Points/],
    ]) {
        test(`${name} is an error`, () => assert.throws(call, { name: "TypeError", message }));
    }

    for (const [ringOffsets, polygonOffsets, place, message] of [
        [[0, 4], [0, 1], 1, "ringOffsets[1] is 4, above the count, 3"],
        [[2, 1], [0, 1], 1, "ringOffsets[1] is 1, below the one before it"],
        [[], [0], undefined, "there are no ringOffsets"],
        [[0, 3], [0, 2], 1, "polygonOffsets[1] is 2, above the count, 1"],
        [[0, 3], [], undefined, "there are no polygonOffsets"],
        [[0, 3], [-1, 1], 0, "polygonOffsets[0] is -1: there are not so many items"],
    ]) {
        test(`offsets that don't divide what there is: ${message}`, () => assert.throws(() =>
            toGeoJson({ points: Int32Array.of(0, 0, 4, 0, 4, 4), ringOffsets, polygonOffsets }, { step: 1 }), { name: "OffsetsError", code: -2, place, message }));
    }

    for (const [name, object, message] of [
        ["a point", { type: "Point", coordinates: [0, 0] }, /a Point is no polygon/],
        ["nothing", undefined, /undefined, which has no type, is no polygon/],
        ["an object without a type", { coordinates: [] }, /\{"coordinates":\[\]\}, which has no type, is no polygon/],
        ["a text", '{"type": "Polygon"}', /parse it first/],
        ["a name of a method", { type: "toString" }, /a toString is no polygon/],
        ["a ring that is no list", { type: "Polygon", coordinates: [3] }, /3 is no list of positions/],
        ["a position of one number", { type: "Polygon", coordinates: [[[1]]] }, /\[1\] is no position/],
        ["a coordinate that is no number", { type: "Polygon", coordinates: [[[1, null]]] }, /\[1,null\] is no position/],
        ["a position with a hole", { type: "Polygon", coordinates: [[[, 1]]] }, /\[null,1\] is no position/],
        ["a coordinate that is a BigInt", { type: "Polygon", coordinates: [[[1n, 1]]] }, /\["1n",1\] is no position/],
        ["a ring that is a BigInt", { type: "Polygon", coordinates: [3n] }, /"3n" is no list of positions/],
        ["a ring with a hole", { type: "Polygon", coordinates: [[, [1, 1]]] }, /undefined is no position/],
        ["a polygon with a hole in its list", { type: "Polygon", coordinates: [, [[1, 1]]] }, /undefined is no list of positions/],
        ["a feature within a feature", { type: "Feature", geometry: { type: "Feature", geometry: null } }, /a Feature is no polygon/],
        ["a feature within a collection", { type: "GeometryCollection", geometries: [{ type: "Feature", geometry: null }] }, /a Feature is no polygon/],
        ["a position within itself", { type: "Polygon", coordinates: [[cycle]] }, /\[object Array\] is no position/],
    ]) {
        test(`${name} isn't read`, () => {
            const thrown = (error) => error instanceof TypeError && error.name === "GeoJsonError" && message.test(error.message);
            assert.throws(() => fromGeoJson(object, { step: 1 }), thrown);
        });
    }

    for (const step of [0, -1, NaN, Infinity, "1"]) test(`no step is ${step}`, () => assert.throws(() => fromGeoJson(SQUARE, { step }), { name: "RangeError" }));
});

const STRAIGHT = [[0, 0], [2, 0], [4, 0], [4, 4], [0, 4], [0, 0]];
const SPIKED = [[0, 0], [2, 0], [4, 0], [4, 4], [4, 9], [4, 4], [0, 4], [0, 0]];
const FLAT = [[1, 1], [2, 2], [3, 3], [1, 1]];
const HOLE = [[1, 1], [1, 2], [2, 2], [1, 1]];
const PLAIN = [[0, 0], [4, 0], [4, 4], [0, 4], [0, 0]];

describe("cleanFeatures", async () => {
    const shapes = await load(MODULE);
    const given = {
        type: "FeatureCollection", name: "parcels", bbox: [0, 0, 9, 9],
        features: [
            { type: "Feature", id: "a", properties: { owner: 7 }, geometry: { type: "Polygon", coordinates: [STRAIGHT, FLAT, HOLE] } },
            { type: "Feature", properties: null, geometry: null },
            { type: "Feature", id: 3, properties: {}, bbox: [0, 0, 9, 9], geometry: { type: "MultiPolygon", coordinates: [[FLAT], [SPIKED.map((position) => [...position, 5])]] } },
            { type: "Feature", properties: { empty: true }, geometry: { type: "Polygon", coordinates: [] } },
        ],
    };
    const cleaned = (call, ring) => ({
        type: "FeatureCollection", name: "parcels",
        features: [
            { type: "Feature", id: "a", properties: { owner: 7 }, geometry: { type: "Polygon", coordinates: [call === "despike" ? STRAIGHT : PLAIN, HOLE] } },
            { type: "Feature", properties: null, geometry: null },
            { type: "Feature", id: 3, properties: {}, geometry: { type: "MultiPolygon", coordinates: [[ring]] } },
            { type: "Feature", properties: { empty: true }, geometry: { type: "Polygon", coordinates: [] } },
        ],
    });

    for (const [call, ring] of [["simplify", PLAIN], ["despike", STRAIGHT]]) {
        test(`${call}: features keep what they have`, () => {
            const before = JSON.stringify(given);
            assert.deepEqual(shapes.cleanFeatures(given, { step: 1, call }), cleaned(call, ring));
            assert.equal(JSON.stringify(given), before);
        });
    }

    test("what is no collection stays what it is", () => {
        const feature = { type: "Feature", id: 1, geometry: { type: "GeometryCollection", geometries: [{ type: "Polygon", coordinates: [STRAIGHT] }] } };
        const options = { step: 0.5, call: "simplify" };
        assert.deepEqual(shapes.cleanFeatures(feature, options).geometry.geometries[0].coordinates, [PLAIN]);
        assert.deepEqual(shapes.cleanFeatures({ type: "Polygon", coordinates: [STRAIGHT] }, options), { type: "Polygon", coordinates: [PLAIN] });
        assert.throws(() => shapes.cleanFeatures({ type: "Polygon", coordinates: [FLAT] }, options), { name: "CollapsedError", feature: undefined, count: 1 });
    });

    test("coordinates that take 64 bits", () => {
        const wide = { type: "Polygon", coordinates: [[[0, 0], [90, 0], [180, 0], [180, 90], [0, 0]]] };
        assert.deepEqual(shapes.cleanFeatures(wide, { step: 1e-9, call: "simplify" }).coordinates, [[[0, 0], [180, 0], [180, 90], [0, 0]]]);
        const far = { type: "Polygon", coordinates: [[[0, 0], [1e300, 0], [1, 1]]] };
        assert.throws(() => shapes.cleanFeatures(far, { step: 1, call: "simplify" }), { name: "UnsafePointError", point: 1 });
        // 1.7 steps are rounded to two, which are more than a number holds
        const farther = { type: "Polygon", coordinates: [[[0, 0], [1.7e308, 0], [0, 1e308]]] };
        assert.throws(() => shapes.cleanFeatures(farther, { step: 1e308, call: "simplify" }), { name: "RangeError", message: /2 steps of 1e\+308 are no finite number/ });
    });

    test("a feature that collapses", () => {
        const features = [0, 1, 2].map((id) => ({ type: "Feature", id, geometry: { type: "Polygon", coordinates: [id ? FLAT : PLAIN] } }));
        const collection = { type: "FeatureCollection", features };
        assert.throws(() => shapes.cleanFeatures(collection, { step: 1, call: "despike" }), (error) => error instanceof RangeError && error.name === "CollapsedError"
            && error.feature === 1 && error.count === 2 && error.message.startsWith("feature 1: nothing is left of it, nor of 1 more of 3 features; is the step"));
        const left = shapes.cleanFeatures(collection, { step: 1, call: "despike", collapsed: "empty" });
        assert.deepEqual(left.features.map(({ id, geometry }) => [id, geometry.coordinates.length]), [[0, 1], [1, 0], [2, 0]]);
    });

    for (const [options, name, message] of [
        [undefined, "TypeError", /^cleanFeatures has no step/],
        [{ step: 1 }, "RangeError", /^the call is undefined, and none of simplify, despike$/],
        [{ step: 1, call: "toString" }, "RangeError", /^the call is toString/],
        [{ step: 1, call: "simplify", collapsed: "drop" }, "RangeError", /^collapsed is drop/],
        [{ step: 1, call: "simplify", Points: Int32Array }, "TypeError", /^cleanFeatures has no option Points/],
    ]) {
        test(`cleanFeatures: ${message}`, () => assert.throws(() => shapes.cleanFeatures(given, options), { name, message }));
    }

    test("a call by itself", () => {
        const { simplify, canonicalKeys, cleanFeatures, version } = shapes;
        assert.deepEqual(simplify(Int16Array.of(0, 0, 2, 0, 4, 0, 4, 4)), Int16Array.of(0, 0, 4, 0, 4, 4));
        assert.deepEqual(canonicalKeys(Int16Array.of(4, 4, 0, 0, 4, 0), [0, 3]), ["0 0 4 0 4 4"]);
        assert.deepEqual(cleanFeatures({ type: "MultiPolygon", coordinates: [] }, { step: 1, call: "simplify" }).coordinates, []);
        assert.equal(version, shapes.version);
    });

    test("an option of another name is an error", () => {
        const rings = { points: Int32Array.of(), offsets: [0] };
        const polygons = { points: Int32Array.of(), ringOffsets: [0], polygonOffsets: [0] };
        for (const call of [() => shapes.canonicalKeys(rings.points, [0], undefined, { orient: true }), () => shapes.sameRings(rings, rings, { orient: true }),
            () => shapes.samePolygons(polygons, polygons, { orient: true })]) {
            assert.throws(call, { name: "TypeError", message: /has no option orient: its options are oriented$/ });
        }
    });
});

describe("features", async () => {
    const shapes = await load(MODULE);
    const hole = [[1, 1], [2, 1], [1, 2]];
    const square = [[0, 0], [8, 0], [8, 8], [0, 8], [0, 0]];
    const polygons = (...coordinates) => ({ type: "MultiPolygon", coordinates });
    const collection = (...geometries) => ({ type: "FeatureCollection", features: geometries.map((geometry) => ({ type: "Feature", geometry })) });

    test("keys are equal where the polygons are the same", () => {
        const turned = [[8, 8], [8, 0], [4, 0], [0, 0], [0, 8.2]];
        const same = [polygons([square], [hole]), polygons([hole], [turned], [FLAT], [])];
        const others = [{ type: "Polygon", coordinates: [square, hole] }, polygons([square]), polygons([square], [square]), polygons([square.toReversed()], [hole])];
        const keys = shapes.featureKeys(collection(...same, ...others, null, polygons([FLAT], [])), { step: 0.5 });
        assert.equal(keys[0], keys[1]);
        assert.equal(keys[0], keys[5]);
        assert.equal(new Set(keys).size, 5);
        assert.deepEqual(keys.slice(6), ["", ""]);
        assert.deepEqual(shapes.featureKeys(same[1], { step: 0.5 }), [keys[0]]);
        assert.notDeepEqual(...[same[0], others[3]].map((object) => shapes.featureKeys(object, { step: 0.5, oriented: true })));
        const wide = polygons([[[0, 0], [4e9, 0], [4e9, 1]]]);
        assert.equal(shapes.featureKeys(collection(wide, same[0]), { step: 0.5 })[1], keys[0]);
    });

    test("faults by feature, polygon and ring", () => {
        const crossing = [[0, 0], [1, 0], [9, 4], [9, 2], [1, 5]];
        const faults = shapes.explainValidity(collection(
            polygons([square, hole]), null, polygons([square], [[[1, 1], [1, 1.2], [1.2, 1]]]), polygons([square, hole], [square, hole, crossing]),
            polygons([crossing], [FLAT]), { type: "Polygon", coordinates: [square, [[9, 9], [9, 8.5], [10, 9]]] },
            polygons([], [square, [[1.5, 1.5], [1.5, 2], [2, 1.5]], [[1, 1], [5, 1], [1, 5]]])), { step: 0.5 });
        assert.deepEqual(faults, [
            { kind: "valid" }, { kind: "valid" }, { kind: "tooFewPoints", polygon: 1, ring: 0 },
            { kind: "contact", polygon: 1, ring: 0, other: 2, edges: [0, 0] }, { kind: "contact", polygon: 0, ring: 0, other: 0, edges: [1, 3] },
            { kind: "holeOutside", polygon: 0, ring: 1 }, { kind: "holeWithin", polygon: 1, ring: 1, other: 2 },
        ]);
        assert.deepEqual(shapes.explainValidity({ type: "Polygon", coordinates: [square] }, { step: 1 }), [{ kind: "valid" }]);
    });

    test("faults of features whose rings may touch", () => {
        const once = [[0, 4], [2, 5], [2, 3]];
        const twice = [[0, 4], [8.2, 4], [2, 3]];
        const given = collection(
            { type: "Polygon", coordinates: [square, once] }, polygons([square, hole], [square, once, twice]), polygons([square, once], [square, hole, twice]),
            { type: "Polygon", coordinates: [square, [[8, 4], [9, 4], [9, 5]]] }, { type: "Polygon", coordinates: [square, [[1, 1], [5, 1], [1, 5]], hole] });
        assert.deepEqual(shapes.explainValidity(given, { step: 0.5, touching: true }), [
            { kind: "valid" }, { kind: "contact", polygon: 1, ring: 1, other: 2, edges: [1, 0] },
            { kind: "disconnected", polygon: 1, ring: 0, other: 2, edges: [1, 0] }, { kind: "holeOutside", polygon: 0, ring: 1 },
            { kind: "contact", polygon: 0, ring: 1, other: 2, edges: [0, 0] },
        ]);
        const strict = shapes.explainValidity(given, { step: 0.5 });
        assert.deepEqual(strict[0], { kind: "contact", polygon: 0, ring: 0, other: 1, edges: [3, 0] });
        assert.deepEqual(shapes.explainValidity(given, { step: 0.5, touching: false }), strict);
    });

    test("what isn't polygons, or has no step, is an error", () => {
        for (const call of [shapes.featureKeys, shapes.explainValidity]) {
            assert.throws(() => call(collection(polygons([square]), { type: "Point", coordinates: [0, 0] }), { step: 1 }), { name: "GeoJsonError", feature: 1 });
            assert.throws(() => call(collection()), { name: "TypeError", message: /has no step/ });
            assert.throws(() => call(collection(), { step: 1, call: "simplify" }), { name: "TypeError", message: /has no option call/ });
        }
    });
});

describeWidths((shapes, { points }) => {
    // A square from two starts, once with a straight point; backwards; a line.
    const RINGS = points([0, 0, 4, 0, 4, 4, 0, 4, 4, 4, 0, 4, 0, 0, 2, 0, 4, 0, 0, 4, 4, 4, 4, 0, 0, 0, 1, 1, 2, 2, 3, 3]);
    const OFFSETS = [0, 4, 9, 13, 16];

    test("keys of rings", () => {
        const keys = shapes.canonicalKeys(RINGS, OFFSETS);
        assert.equal(new Set(keys).size, 2);
        assert.equal(keys[0], keys[1]);
        assert.equal(keys[0], keys[2]);
        assert.equal(keys[3], "");
        assert.equal(keys[0], shapes.canonicalKeys(Int16Array.of(0, 0, 4, 0, 4, 4, 0, 4), [0, 4])[0]);
        assert.deepEqual(shapes.canonicalKeys(RINGS, OFFSETS, undefined, { oriented: false }), keys);
        assert.equal(new Set(shapes.canonicalKeys(RINGS, OFFSETS, undefined, { oriented: true })).size, 3);
    });

    test("keys of polygons", () => {
        const holes = points([0, 0, 9, 0, 9, 9, 1, 1, 1, 2, 2, 2, 5, 5, 5, 6, 6, 6]);
        const other = points([9, 0, 9, 9, 0, 0, 5, 5, 5, 6, 6, 6, 7, 7, 8, 8, 9, 9, 1, 1, 1, 2, 2, 2]);
        const [key] = shapes.canonicalKeys(holes, [0, 3, 6, 9], [0, 3]);
        assert.deepEqual(shapes.canonicalKeys(other, [0, 3, 6, 9, 12], [0, 4]), [key]);
        const [collapsed, empty, one] = shapes.canonicalKeys(other, [0, 3, 6, 9, 12], [2, 4, 4, 4]);
        assert.equal(collapsed, "");
        assert.ok(empty !== "" && one === empty);
        assert.notEqual(shapes.canonicalKeys(holes, [0, 3], [0, 1])[0], shapes.canonicalKeys(holes, [0, 3])[0]);
    });

    // The keys of Python and PostgreSQL are other bytes.
    test("keys are equal where those of other languages are, by default too", () => {
        const lines = readFileSync(new URL("../../keys.txt", import.meta.url), "utf8").split("\n").map((line) => line.split("\t"));
        const found = lines.filter(([, , text]) => text?.startsWith("POLYGON")).map(([step, oriented, text, key]) => {
            const coordinates = text.match(/[^()]+(?=\))/g).map((ring) => ring.split(",").map((position) => position.split(" ").map(Number)));
            const polygons = fromGeoJson({ type: "Polygon", coordinates }, { step: Number(step), Points: BigInt64Array });
            const words = oriented === "t" ? [{ oriented: true }] : [];
            return [key, shapes.canonicalKeys(polygons.points, polygons.ringOffsets, polygons.polygonOffsets, ...words)[0]];
        });
        assert.equal(found.length, 11);
        const firsts = (keys) => keys.map((key) => keys.indexOf(key));
        assert.deepEqual(firsts(found.map(([, ours]) => ours)), firsts(found.map(([theirs]) => theirs)));
    });

    test("the same rings and polygons", () => {
        const rings = { points: RINGS, offsets: OFFSETS };
        const one = { points: Int32Array.of(9, 9, 9, 0, 0, 9, 4, 4, 4, 0, 0, 0, 0, 4), offsets: [0, 3, 7] };
        assert.deepEqual(shapes.sameRings(rings, one), Int32Array.of(1, 1, 1, -1));
        assert.deepEqual(shapes.sameRings(rings, one, { oriented: true }), Int32Array.of(-1, -1, 1, -1));
        // A ring that collapses isn't the same as itself, nor as another one.
        assert.deepEqual(shapes.sameRings(rings, rings), Int32Array.of(0, 0, 0, -1));
        const polygons = (offsets) => ({ points: RINGS, ringOffsets: OFFSETS, polygonOffsets: offsets });
        assert.equal(shapes.samePolygons(polygons([0, 1]), { points: Int16Array.of(4, 0, 4, 4, 0, 4, 0, 0), ringOffsets: [0, 4], polygonOffsets: [0, 1] }), true);
        assert.equal(shapes.samePolygons(polygons([0, 1]), polygons([2, 3])), true);
        assert.equal(shapes.samePolygons(polygons([0, 1]), polygons([2, 3]), { oriented: true }), false);
    });

    test("areas of polygons", () => {
        assert.deepEqual(shapes.areaTwoPolygons(RINGS, OFFSETS, [0, 2, 2, 4]), [64n, 0n, -32n]);
        for (const wrong of [[], [0, 5], [1, 0]]) assert.throws(() => shapes.areaTwoPolygons(RINGS, OFFSETS, wrong), { name: "OffsetsError", code: -2 });
    });
});

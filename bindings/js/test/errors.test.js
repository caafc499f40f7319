import assert from "node:assert/strict";
import { describe, test } from "node:test";
import { IShapeError, OffsetsError, OutOfMemoryError, UnsafePointError, load } from "../src/i_shape.js";
import { MODULE, describeWidths } from "./support/modules.js";

const ONE = ["simplify", "despike", "canonical", "canonicalUnoriented", "isSimple", "hasNoSpikes", "isConvex", "isSimplePolygon", "firstContact", "contacts"];
const RINGS = ["simplifyRings", "despikeRings", "canonicalRings", "canonicalUnorientedRings"];
const RING_TESTS = ["isSimpleRings", "hasNoSpikesRings", "isConvexRings", "areSimplePolygons", "firstContactOfRings", "contactsOfRings"];
const RINGS_OF_ANY_POINTS = ["isSafeRings", "areaTwoRings"];
const POLYGONS = ["simplifyPolygons", "removeSpikes", "canonicalPolygons", "canonicalUnorientedPolygons", "polygonValidity"];
// Calls on rings whose results are divided among polygons.
const BY_RINGS = ["canonicalKeys", "areaTwoPolygons"];
const ABOUT_MANY = ["windingNumbers", "containsPoints", "locate"];
const SQUARE = [0, 0, 4, 0, 4, 4, 0, 4];

// What parts no 4 points.
const WRONG_OFFSETS = [
    { name: "no offset", offsets: [], place: undefined },
    { name: "an offset below the one before it", offsets: [0, 4, 3], place: 2 },
    { name: "a last offset above the count", offsets: [0, 5], place: 1 },
    { name: "an offset below 0", offsets: [-1, 4], place: 0 },
    { name: "an offset of 2^32", offsets: [0, 2 ** 32], place: 1 },
    { name: "an offset that is 4 modulo 2^32", offsets: [0, 2 ** 32 + 4, 4], place: 1 },
    { name: "an offset of 2^32 behind one that isn't in order", offsets: [0, 4, 3, 2 ** 32], place: 2 },
    { name: "an offset of 2^64", offsets: [0n, 2n ** 64n], place: 1 },
];

describeWidths((shapes, { points, number, limit, bits, Points }) => {
    const square = points(SQUARE);
    /** Calls on many rings, by the offsets of the points. */
    const calls = [
        ...[...RINGS, ...RING_TESTS].map((name) => ({ name, call: (from, offsets) => shapes[name](from, offsets) })),
        ...[...POLYGONS, "canonicalKeys"].map((name) => ({ name, call: (from, offsets) => shapes[name](from, offsets, [0]) })),
        { name: "polygonValidity, touching", call: (from, offsets) => shapes.polygonValidity(from, offsets, [0], { touching: true }) },
        ...ABOUT_MANY.map((name) => ({ name, call: (from, offsets) => shapes[name](from, offsets, points([])) })),
        { name: "locateInPolygons", call: (from, offsets) => shapes.locateInPolygons(from, offsets, [0], points([])) },
    ];

    for (const { name, call } of calls) {
        for (const row of WRONG_OFFSETS) {
            test(`${name}: ${row.name}`, () => assert.throws(() => call(square, row.offsets), { name: "OffsetsError", code: -2, place: row.place }));
        }
        test(`${name}: a point of the second ring that isn't safe`, () => {
            const from = square.slice();
            from[5] = limit;
            assert.throws(() => call(from, [0, 1, 1, 4]), { name: "UnsafePointError", code: -1, point: 2, ring: 2 });
            assert.throws(() => call(from, [0, 1, 4, 3]), OffsetsError, "offsets are tested first");
            assert.doesNotThrow(() => call(from, [0, 2]), "a point outside the offsets isn't read");
            from[0] = limit;
            assert.throws(() => call(from, [1, 4]), { point: 2, ring: 0 }, "nor is one before them");
        });
    }
    for (const name of RINGS_OF_ANY_POINTS) {
        for (const row of WRONG_OFFSETS) {
            test(`${name}: ${row.name}`, () => assert.throws(() => shapes[name](square, row.offsets), { name: "OffsetsError", code: -2 }));
        }
        test(`${name}: a point that isn't safe`, () => {
            const from = square.slice();
            from[5] = limit;
            const told = { isSafeRings: [true, false], areaTwoRings: [0n, 4n * BigInt(limit)] };
            assert.deepEqual(shapes[name](from, [0, 1, 4]), told[name]);
        });
    }
    const byPolygons = [
        ...[...POLYGONS, ...BY_RINGS].map((name) => ({ name, call: (offsets) => shapes[name](square, [0, 1, 2, 3, 4], offsets) })),
        { name: "polygonValidity, touching", call: (offsets) => shapes.polygonValidity(square, [0, 1, 2, 3, 4], offsets, { touching: true }) },
        { name: "locateInPolygons", call: (offsets) => shapes.locateInPolygons(square, [0, 1, 2, 3, 4], offsets, square) },
    ];
    for (const { name, call } of byPolygons) {
        for (const row of WRONG_OFFSETS) {
            test(`${name}: ${row.name} of polygons`, () => assert.throws(() => call(row.offsets), { name: "OffsetsError", code: -2, place: row.place }));
        }
    }

    test("canonicalKeys: offsets of polygons are tested before a ring is cleaned", () => {
        const from = square.slice();
        from[5] = limit;
        assert.throws(() => shapes.canonicalKeys(from, [0, 4], [0, 2]), { name: "OffsetsError", message: "polygonOffsets[1] is 2, above the count, 1" });
        assert.throws(() => shapes.canonicalKeys(from, [0, 5], [0, 1]), { name: "OffsetsError", message: "ringOffsets[1] is 5, above the count, 4" });
    });

    for (const name of ONE) {
        for (const coordinate of [limit, -limit]) {
            test(`${name}: a coordinate of ${coordinate}`, () => {
                const from = square.slice();
                from[3] = coordinate;
                assert.throws(() => shapes[name](from), { name: "UnsafePointError", code: -1, point: 1, ring: undefined });
            });
        }
    }
    for (const name of ["contains", "windingNumber"]) {
        test(`${name}: a point that isn't safe`, () => {
            const from = square.slice();
            from[7] = limit;
            assert.throws(() => shapes[name](from, number(1), number(1)), { name: "UnsafePointError", code: -1, point: 3, ring: undefined });
            assert.throws(() => shapes[name](square, number(1), -limit), { name: "UnsafePointError", code: -1, point: undefined });
            assert.throws(() => shapes[name](square, number(2) ** number(70), number(1)), UnsafePointError);
        });
        test(`${name}: coordinates of another type`, () => {
            const other = bits === 64 ? 1 : 1n;
            assert.throws(() => shapes[name](square, other, number(1)), TypeError);
            assert.throws(() => shapes[name](square, number(1)), TypeError);
            assert.throws(() => shapes[name](square, 1.5, 1), TypeError);
        });
    }
    for (const name of ABOUT_MANY) {
        test(`${name}: points asked about that aren't safe, or of another type`, () => {
            assert.throws(() => shapes[name](square, [0, 4], Points.of(limit, number(0))), { name: "UnsafePointError", code: -1, point: undefined });
            assert.throws(() => shapes[name](square, [0, 4], bits === 16 ? Int32Array.of(0, 0) : Int16Array.of(0, 0)), TypeError);
        });
    }
    test("locateInPolygons: points asked about that aren't safe, or of another type", () => {
        const asked = (about) => () => shapes.locateInPolygons(square, [0, 4], [0, 1], about);
        assert.throws(asked(Points.of(limit, number(0))), { name: "UnsafePointError", code: -1, point: undefined });
        assert.throws(asked(bits === 16 ? Int32Array.of(0, 0) : Int16Array.of(0, 0)), TypeError);
        assert.throws(asked(points([0, 0, 4])), RangeError);
    });
    for (const [name, ...offsets] of [["containsPoints", [0, 4]], ["locate", [0, 4]], ["locateInPolygons", [0, 4], [0, 1]]]) {
        test(`${name}: no such rule`, () => {
            for (const rule of ["even-odd", null, 0, 4]) assert.throws(() => shapes[name](square, ...offsets, square, rule), RangeError);
        });
    }
    test("contains: no such rule", () => assert.throws(() => shapes.contains(square, number(1), number(1), "even-odd"), RangeError));

    test("each call: an x without a y", () => {
        const odd = points([0, 0, 4]);
        for (const name of [...ONE, "isSafe", "areaTwo"]) assert.throws(() => shapes[name](odd), RangeError, name);
        for (const { name, call } of calls) assert.throws(() => call(odd, [0]), RangeError, name);
        for (const name of ["contains", "windingNumber"]) assert.throws(() => shapes[name](odd, number(1), number(1)), RangeError, name);
    });

    test("nothing is held after errors", () => assert.equal(shapes.heldBytes, 0));
});

/** An array whose buffer another thread has got. */
function detached() {
    const points = Int32Array.from(SQUARE);
    structuredClone(points.buffer, { transfer: [points.buffer] });
    return points;
}

describe("arrays of another type", async () => {
    const shapes = await load(MODULE);
    for (const [name, given] of [
        ["an array of numbers", SQUARE],
        ["floats", Float64Array.from(SQUARE)],
        ["unsigned numbers", Uint32Array.from(SQUARE)],
        ["unsigned bigints", BigUint64Array.from(SQUARE, BigInt)],
        ["a buffer", new ArrayBuffer(16)],
        ["a DataView", new DataView(new ArrayBuffer(16))],
        ["null", null],
        ["nothing", undefined],
        ["of another thread now", detached()],
    ]) {
        test(`points that are ${name}`, () => {
            for (const call of [...ONE, "isSafe", "areaTwo"]) assert.throws(() => shapes[call](given), TypeError, call);
            for (const call of [...RINGS, ...POLYGONS]) assert.throws(() => shapes[call](given, [0], [0]), TypeError, call);
        });
    }
    for (const [name, offsets] of [
        ["nothing", undefined],
        ["null", null],
        ["a number", 4],
        ["text", "04"],
        ["halves", [0, 1.5, 4]],
        ["texts", ["0", "4"]],
    ]) {
        test(`offsets that are ${name}`, () => {
            for (const call of RINGS) assert.throws(() => shapes[call](Int32Array.from(SQUARE), offsets), TypeError, call);
            for (const call of POLYGONS) assert.throws(() => shapes[call](Int32Array.from(SQUARE), [0, 4], offsets), TypeError, call);
        });
    }
});

describe("load", () => {
    test("each kind of source", async () => {
        const sources = {
            "a Buffer": MODULE,
            "an ArrayBuffer": Uint8Array.from(MODULE).buffer,
            "a module": await WebAssembly.compile(MODULE),
            "a response": new Response(MODULE),
            "a promise of one": Promise.resolve(new Response(MODULE)),
        };
        for (const [name, source] of Object.entries(sources)) assert.equal((await load(source)).version, "0.2.0", name);
    });
    test("a response that failed, bytes that are no module, and another module", async () => {
        await assert.rejects(load(new Response("", { status: 404 })), /404/);
        await assert.rejects(load(Uint8Array.of(1, 2, 3)), WebAssembly.CompileError);
        await assert.rejects(load(Uint8Array.of(0, 0x61, 0x73, 0x6d, 1, 0, 0, 0)), TypeError);
    });
    test("the errors are errors of the library", () => {
        for (const error of [new OffsetsError(), new OutOfMemoryError(), new UnsafePointError("")]) {
            assert.ok(error instanceof IShapeError && error instanceof Error);
            assert.equal(error.name, error.constructor.name);
        }
    });
});

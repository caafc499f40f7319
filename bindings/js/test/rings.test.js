import assert from "node:assert/strict";
import { test } from "node:test";
import { FILL_RULES } from "../src/i_shape.js";
import { describeWidths } from "./support/modules.js";

// Three rings, end to end: one with a straight vertex, one that collapses, and one with a spike.
const GIVEN = {
    points: [4, 4, 0, 4, 0, 0, 2, 0, 4, 0, /**/ 1, 1, 2, 2, 3, 3, /**/ 9, 0, 9, 5, 4, 0, 3, 0, 4, 0],
    offsets: [0, 5, 8, 13],
};

const LEFT = [
    { call: "simplifyRings", points: [4, 4, 0, 4, 0, 0, 4, 0, /**/ 9, 0, 9, 5, 4, 0], offsets: [0, 4, 4, 7] },
    { call: "despikeRings", points: [4, 4, 0, 4, 0, 0, 2, 0, 4, 0, /**/ 9, 0, 9, 5, 4, 0], offsets: [0, 5, 5, 8] },
    { call: "canonicalRings", points: [0, 0, 4, 0, 4, 4, 0, 4, /**/ 4, 0, 9, 0, 9, 5], offsets: [0, 4, 4, 7] },
    { call: "canonicalUnorientedRings", points: [0, 0, 0, 4, 4, 4, 4, 0, /**/ 4, 0, 9, 0, 9, 5], offsets: [0, 4, 4, 7] },
];

// Squares with a straight vertex, and what is left of each.
const COUNT = 20000;
const ONE = [0, 0, 2, 0, 4, 0, 4, 4, 0, 4];
const ONE_LEFT = {
    simplifyRings: [0, 0, 4, 0, 4, 4, 0, 4],
    despikeRings: ONE,
    canonicalRings: [0, 0, 4, 0, 4, 4, 0, 4],
    canonicalUnorientedRings: [0, 0, 0, 4, 4, 4, 4, 0],
};

function repeated(items, count) {
    return Array.from({ length: count }, () => items).flat();
}

function evenOffsets(count, length) {
    return Uint32Array.from({ length: count + 1 }, (_, k) => k * length);
}

// What the tests and the areas tell of the rings of GIVEN, and of ONE.
const TOLD = [
    { call: "isSimpleRings", told: [false, false, false], one: false },
    { call: "hasNoSpikesRings", told: [true, false, false], one: true },
    { call: "isConvexRings", told: [true, false, false], one: true },
    { call: "areSimplePolygons", told: [true, false, false], one: true },
    { call: "isSafeRings", told: [true, true, true], one: true },
    { call: "areaTwoRings", told: [32n, 0n, 25n], one: 32n },
];

// A square that is wound twice, and one in it that turns right.
const WOUND = { points: [0, 0, 4, 0, 4, 4, 0, 4, 0, 0, 4, 0, 4, 4, 0, 4, /**/ 1, 1, 1, 3, 3, 3, 3, 1], offsets: [0, 8, 12] };
const ABOUT = [2, 2, 0, 2, 4, 2];

// A square that is wound twice, one in it that turns right, and such a one beside it; points about which they wind 1, 2, -1 and 0 times, and three on edges.
const FILLED = {
    points: [0, 0, 8, 0, 8, 8, 0, 8, 0, 0, 8, 0, 8, 8, 0, 8, /**/ 2, 2, 2, 6, 6, 6, 6, 2, /**/ 20, 0, 20, 4, 24, 4, 24, 0],
    offsets: [0, 8, 12, 16],
    about: [4, 4, 1, 1, 22, 2, 30, 2, /**/ 0, 4, 8, 8, 4, 6],
    by: {
        evenodd: [true, false, true, false],
        nonzero: [true, true, true, false],
        positive: [true, true, false, false],
        negative: [false, false, true, false],
    },
};

/** A square from (0, 0) to (side, side) with a point at each whole step. */
function stepped(side) {
    const steps = Array.from({ length: side }, (_, k) => k);
    return [...steps.map((k) => [k, 0]), ...steps.map((k) => [side, k]), ...steps.map((k) => [side - k, side]), ...steps.map((k) => [0, side - k])].flat();
}

/** The points of a grid that reaches a step beyond that square. */
function gridAbout(side, step) {
    const steps = Array.from({ length: side / step + 3 }, (_, k) => (k - 1) * step);
    return steps.flatMap((y) => steps.map((x) => [x, y]));
}

describeWidths((shapes, { points }) => {
    for (const { call, points: left, offsets } of LEFT) {
        const wanted = { points: points(left), offsets: Uint32Array.from(offsets) };
        for (const [kind, given] of [
            ["an array", GIVEN.offsets],
            ["a Uint32Array", Uint32Array.from(GIVEN.offsets)],
            ["a BigInt64Array", BigInt64Array.from(GIVEN.offsets, BigInt)],
        ]) {
            test(`${call}: three rings, offsets in ${kind}`, () => {
                const from = points(GIVEN.points);
                assert.deepEqual(shapes[call](from, given), wanted);
                assert.deepEqual(from, points(GIVEN.points), "what is given stays as it is");
            });
        }
        test(`${call}: the second ring alone`, () =>
            assert.deepEqual(shapes[call](points(GIVEN.points), [5, 8]), { points: points([]), offsets: Uint32Array.of(0, 0) }));
        test(`${call}: no ring`, () => assert.deepEqual(shapes[call](points(GIVEN.points), [3]), { points: points([]), offsets: Uint32Array.of(0) }));
        test(`${call}: ${COUNT} rings`, () =>
            assert.deepEqual(shapes[call](points(repeated(ONE, COUNT)), evenOffsets(COUNT, 5)), {
                points: points(repeated(ONE_LEFT[call], COUNT)),
                offsets: evenOffsets(COUNT, ONE_LEFT[call].length / 2),
            }));
    }

    for (const { call, told, one } of TOLD) {
        test(`${call}: three rings`, () => assert.deepEqual(shapes[call](points(GIVEN.points), GIVEN.offsets), told));
        test(`${call}: the second ring alone`, () => assert.deepEqual(shapes[call](points(GIVEN.points), [5, 8]), told.slice(1, 2)));
        test(`${call}: no ring`, () => assert.deepEqual(shapes[call](points(GIVEN.points), [3]), []));
        test(`${call}: ${COUNT} rings`, () =>
            assert.deepEqual(shapes[call](points(repeated(ONE, COUNT)), evenOffsets(COUNT, 5)), Array(COUNT).fill(one)));
    }

    for (const { name, offsets, winding } of [
        { name: "two rings together", offsets: WOUND.offsets, winding: [1, 2, 0] },
        { name: "the first ring alone", offsets: [0, 8], winding: [2, 2, 0] },
        { name: "the second ring alone", offsets: [8, 12], winding: [-1, 0, 0] },
        { name: "no ring", offsets: [8], winding: [0, 0, 0] },
    ]) {
        test(`windingNumbers: ${name}`, () =>
            assert.deepEqual(shapes.windingNumbers(points(WOUND.points), offsets, points(ABOUT)), Int32Array.from(winding)));
    }
    test("windingNumbers: no point", () => assert.deepEqual(shapes.windingNumbers(points(WOUND.points), WOUND.offsets, points([])), new Int32Array(0)));
    for (const rule of FILL_RULES) {
        const filled = FILLED.by[rule];
        test(`containsPoints and locate: three rings, ${rule}`, () => {
            const given = [points(FILLED.points), FILLED.offsets];
            assert.deepEqual(shapes.containsPoints(...given, points(FILLED.about.slice(0, 8)), rule), filled);
            assert.deepEqual(shapes.locate(...given, points(FILLED.about), rule), Int8Array.of(...filled.map((one) => (one ? 1 : -1)), 0, 0, 0));
        });
    }
    test("containsPoints and locate: a ring of 4,000 points and a grid, by the rule that is taken where none is given", () => {
        const [side, step] = [1000, 50];
        const grid = gridAbout(side, step);
        const given = [points(stepped(side)), [0, 4 * side], points(grid.flat())];
        // An edge is passed from its lower end on, and strictly to the right.
        assert.deepEqual(shapes.containsPoints(...given), grid.map(([x, y]) => x >= 0 && x < side && y >= 0 && y < side));
        // The least of the distances to the four sides, below 0 outside.
        const depth = ([x, y]) => Math.min(x, side - x, y, side - y);
        assert.deepEqual(shapes.locate(...given), Int8Array.from(grid, (point) => Math.sign(depth(point))));
    });
    test(`windingNumbers: 1,000 rings about 1,000 points`, () =>
        assert.deepEqual(
            shapes.windingNumbers(points(repeated(ONE, 1000)), evenOffsets(1000, 5), points(repeated([1, 1], 1000))),
            new Int32Array(1000).fill(1000),
        ));
});

import assert from "node:assert/strict";
import { test } from "node:test";
import { FILL_RULES } from "../src/i_shape.js";
import { describeWidths } from "./support/modules.js";

// A square with three holes, of which one collapses; a polygon that collapses, with a hole; one without rings; and a triangle.
const GIVEN = {
    points: [
        10, 0, 10, 10, 0, 10, 0, 0, 5, 0, /**/ 8, 6, 6, 6, 6, 8, 7, 7, /**/ 1, 1, 2, 2, 3, 3, /**/ 2, 4, 4, 2, 2, 2, /**/
        1, 1, 2, 2, 3, 3, /**/ 2, 4, 4, 2, 2, 2, /**/ 0, -4, 4, 0, -4, 0,
    ],
    ringOffsets: [0, 5, 9, 12, 15, 18, 21, 24],
    polygonOffsets: [0, 4, 6, 6, 7],
};

const LEFT = [
    {
        call: "simplifyPolygons",
        points: [10, 0, 10, 10, 0, 10, 0, 0, /**/ 8, 6, 6, 6, 6, 8, /**/ 2, 4, 4, 2, 2, 2, /**/ 0, -4, 4, 0, -4, 0],
        ringOffsets: [0, 4, 7, 10, 13],
        polygonOffsets: [0, 3, 3, 4],
    },
    {
        call: "removeSpikes",
        points: [10, 0, 10, 10, 0, 10, 0, 0, 5, 0, /**/ 8, 6, 6, 6, 6, 8, 7, 7, /**/ 2, 4, 4, 2, 2, 2, /**/ 0, -4, 4, 0, -4, 0],
        ringOffsets: [0, 5, 9, 12, 15],
        polygonOffsets: [0, 3, 3, 4],
    },
    {
        call: "canonicalPolygons",
        points: [-4, 0, 0, -4, 4, 0, /**/ 0, 0, 10, 0, 10, 10, 0, 10, /**/ 2, 2, 2, 4, 4, 2, /**/ 6, 6, 6, 8, 8, 6],
        ringOffsets: [0, 3, 7, 10, 13],
        polygonOffsets: [0, 0, 1, 4],
    },
    {
        call: "canonicalUnorientedPolygons",
        points: [-4, 0, 0, -4, 4, 0, /**/ 0, 0, 0, 10, 10, 10, 10, 0, /**/ 2, 2, 2, 4, 4, 2, /**/ 6, 6, 6, 8, 8, 6],
        ringOffsets: [0, 3, 7, 10, 13],
        polygonOffsets: [0, 0, 1, 4],
    },
];

// Polygons, and the first fault of each by the places in it.
const SQUARE = [0, 0, 4, 0, 4, 4, 0, 4];
const WIDE = [-9, -9, 9, -9, 9, 9, -9, 9];
const LEFT_PART = [-8, -8, -8, 8, -2, 8, -2, -8];
const INNER = [-7, 0, -5, 2, -4, -3];
const ASIDE = [6, 1, 6, 2, 7, 1];
const FAULTS = [
    { rings: [], fault: { kind: "valid" } },
    { rings: [WIDE, ASIDE, LEFT_PART], fault: { kind: "valid" } },
    { rings: [[0, 0, 4, 4, 4, 0, 0, 4], [1, 1, 1, 1, 1, 1]], fault: { kind: "tooFewPoints", ring: 1 } },
    { rings: [SQUARE, ASIDE, [1, 1, 2, 1, 2, 4]], fault: { kind: "contact", first: 2, second: 8 } },
    { rings: [SQUARE, ASIDE], fault: { kind: "holeOutside", ring: 1 } },
    { rings: [WIDE, ASIDE, INNER, LEFT_PART], fault: { kind: "holeWithin", ring: 2, other: 3 } },
    { rings: [[]], fault: { kind: "tooFewPoints", ring: 0 } },
];

// The same where rings may touch.
const TO_VERTEX = [0, 0, 1, 2, 2, 1];
const TOUCHING = [
    { rings: [], fault: { kind: "valid" } },
    { rings: [SQUARE, TO_VERTEX], fault: { kind: "valid" } },
    { rings: [WIDE, [-4, 0, 0, 0, 0, -2], [0, 0, 2, 2, 3, 1], [2, 2, 0, 4, 2, 4]], fault: { kind: "valid" } },
    { rings: [SQUARE, [1, 1, 2, 2]], fault: { kind: "tooFewPoints", ring: 1 } },
    { rings: [SQUARE, TO_VERTEX, [1, 1, 3, 1, 3, 3]], fault: { kind: "contact", first: 5, second: 9 } },
    { rings: [[...SQUARE, ...TO_VERTEX]], fault: { kind: "contact", first: 0, second: 3 } },
    { rings: [SQUARE, TO_VERTEX, [4, 2, 6, 1, 6, 3]], fault: { kind: "holeOutside", ring: 2 } },
    { rings: [WIDE, [-8, 8, -7, 0, -2, -8], LEFT_PART], fault: { kind: "holeWithin", ring: 1, other: 2 } },
    { rings: [SQUARE, [0, 0, 2, 4, 2, 1]], fault: { kind: "disconnected", first: 2, second: 4 } },
    { rings: [WIDE, [-4, 0, 0, 0, 0, -2], [0, 0, 2, 2, 3, 1], [2, 2, 0, 4, 2, 4], [0, 4, -4, 4, -4, 0]], fault: { kind: "disconnected", first: 7, second: 10 } },
];

/** Such polygons end to end, and their faults by the places in all of them. */
function allFaults(polygons) {
    const all = { points: [], ringOffsets: [0], polygonOffsets: [0], faults: [] };
    for (const { rings, fault } of polygons) {
        const before = { ring: all.ringOffsets.length - 1, other: all.ringOffsets.length - 1, first: all.ringOffsets.at(-1), second: all.ringOffsets.at(-1) };
        all.faults.push(Object.fromEntries(Object.entries(fault).map(([name, place]) => [name, name === "kind" ? place : before[name] + place])));
        for (const ring of rings) {
            all.points.push(...ring);
            all.ringOffsets.push(all.points.length / 2);
        }
        all.polygonOffsets.push(all.ringOffsets.length - 1);
    }
    return all;
}

// Squares with a straight vertex, each with a hole that turns right, and what is left of each.
const COUNT = 3000;
const OUTER = [0, 0, 5, 0, 9, 0, 9, 9, 0, 9];
const HOLE = [2, 2, 2, 4, 4, 2];
const OUTER_LEFT = {
    simplifyPolygons: [0, 0, 9, 0, 9, 9, 0, 9],
    removeSpikes: OUTER,
    canonicalPolygons: [0, 0, 9, 0, 9, 9, 0, 9],
    canonicalUnorientedPolygons: [0, 0, 0, 9, 9, 9, 9, 0],
};

function many(outer, toArray, toPoints) {
    const coordinates = [];
    const ringOffsets = [0];
    for (let k = 0; k < COUNT; k++) {
        coordinates.push(...outer, ...HOLE);
        ringOffsets.push(ringOffsets.at(-1) + outer.length / 2, ringOffsets.at(-1) + (outer.length + HOLE.length) / 2);
    }
    return {
        points: toPoints(coordinates),
        ringOffsets: toArray(ringOffsets),
        polygonOffsets: toArray(Array.from({ length: COUNT + 1 }, (_, k) => 2 * k)),
    };
}

// A polygon without rings, a square with a hole, one beside it, and one with a hole that overlaps both of them and turns the other way.
const HOLDERS = {
    points: [0, 0, 4, 0, 4, 4, 0, 4, /**/ 1, 1, 1, 2, 2, 2, 2, 1, /**/ 4, 0, 8, 0, 8, 4, 4, 4, /**/ 6, 0, 6, 4, 10, 4, 10, 0, /**/ 8, 1, 9, 1, 9, 2, 8, 2],
    ringOffsets: [0, 4, 8, 12, 16, 20],
    polygonOffsets: [0, 0, 2, 3, 5],
    // vertices and edges, inside, and outside
    about: [[0, 0], [4, 0], [4, 4], [2, 0], [4, 2], [0, 2], [1, 1], [2, 2], [1, 2], [3, 3], [7, 1], [9, 3], [8, 1], [9, 1], [11, 1], [-1, -1]],
};

/** How often a ring winds about a point: the edges that pass its height upwards, to the right of it, less those downwards. */
function winding(ring, [x, y]) {
    return ring.reduce((sum, [ax, ay], k) => {
        const [bx, by] = ring[(k + 1) % ring.length];
        const side = (bx - ax) * (y - ay) - (by - ay) * (x - ax);
        return sum + Number(ay <= y && y < by && side > 0) - Number(by <= y && y < ay && side < 0);
    }, 0);
}

const FILLS = { evenodd: (turns) => turns % 2 !== 0, nonzero: (turns) => turns !== 0, positive: (turns) => turns > 0, negative: (turns) => turns < 0 };

/** The first of the polygons, lists of rings, that a rule fills at a point, or -1. */
function holderOf(polygons, point, rule) {
    return polygons.findIndex((rings) => FILLS[rule](rings.reduce((sum, ring) => sum + winding(ring, point), 0)));
}

/** The items that offsets divide, a list for each part. */
function parted(items, offsets) {
    return offsets.slice(1).map((end, k) => items.slice(offsets[k], end));
}

/** Polygons of a small grid, of numbers that look random. */
function randomPolygons(seed) {
    let state = seed;
    const below = (bound) => (state = (Math.imul(state, 1664525) + 1013904223) >>> 0) % 65521 % bound;
    const few = (most, make) => Array.from({ length: below(most + 1) }, make);
    return few(6, () => {
        const [x, y] = [below(5), below(5)];
        return few(3, () => few(6, () => [x + below(5), y + below(5)]));
    });
}

describeWidths((shapes, { points }) => {
    test("locateInPolygons: four polygons, by each rule", () => {
        const { ringOffsets, polygonOffsets, about } = HOLDERS;
        const coordinates = parted(HOLDERS.points, Array.from({ length: HOLDERS.points.length / 2 + 1 }, (_, k) => 2 * k));
        const polygons = parted(parted(coordinates, ringOffsets), polygonOffsets);
        for (const rule of FILL_RULES) {
            const wanted = Int32Array.from(about, (point) => holderOf(polygons, point, rule));
            assert.deepEqual(shapes.locateInPolygons(points(HOLDERS.points), ringOffsets, polygonOffsets, points(about.flat()), rule), wanted, rule);
        }
        assert.deepEqual(
            shapes.locateInPolygons(points(HOLDERS.points), ringOffsets, polygonOffsets, points([0, 0, 4, 2, 1, 1, 7, 1, 11, 1])),
            Int32Array.of(1, 2, -1, 2, -1),
            "the rule that is taken where none is given",
        );
    });
    test("locateInPolygons: polygons of a small grid", () => {
        const about = Array.from({ length: 144 }, (_, k) => [(k % 12) - 1, Math.floor(k / 12) - 1]);
        for (let seed = 1; seed <= 100; seed++) {
            const polygons = randomPolygons(seed);
            const rings = polygons.flat();
            const given = [
                points(rings.flat(2)),
                [0, ...rings.map((_, k) => rings.slice(0, k + 1).flat().length)],
                [0, ...polygons.map((_, k) => polygons.slice(0, k + 1).flat().length)],
            ];
            for (const rule of FILL_RULES) {
                const wanted = Int32Array.from(about, (point) => holderOf(polygons, point, rule));
                assert.deepEqual(shapes.locateInPolygons(...given, points(about.flat()), rule), wanted, JSON.stringify(polygons));
            }
        }
    });
    test("locateInPolygons: no polygon, no ring, no point", () => {
        assert.deepEqual(shapes.locateInPolygons(points([]), [0], [0], points([1, 1])), Int32Array.of(-1));
        assert.deepEqual(shapes.locateInPolygons(points([]), [0, 0], [0, 0, 1], points([1, 1])), Int32Array.of(-1));
        assert.deepEqual(shapes.locateInPolygons(points(HOLDERS.points), HOLDERS.ringOffsets, HOLDERS.polygonOffsets, points([])), new Int32Array(0));
        assert.equal(shapes.heldBytes, 0);
    });
    test("compactPolygons: four polygons", () => {
        const { offsets } = shapes.simplifyRings(points(GIVEN.points), GIVEN.ringOffsets);
        const left = { polygons: Uint32Array.of(0, 2, 3), rings: Uint32Array.of(0, 1, 3, 6), offsets: Uint32Array.of(0, 3, 3, 4) };
        assert.deepEqual(shapes.compactPolygons(offsets, GIVEN.polygonOffsets), left);
        assert.deepEqual(shapes.compactPolygons(offsets, [3]), { polygons: new Uint32Array(0), rings: new Uint32Array(0), offsets: Uint32Array.of(0) });
        for (const [rings, polygons, place, message] of [
            [[0, 3, 2], [0], 2, "offsets[2] is 2, below the one before it"],
            [[2 ** 33, 2 ** 32, 0], [0], 1, "offsets[1] is 4294967296, below the one before it"],
            [[], [0], undefined, "there are no offsets"],
            [[0, 3], [0, 2], 1, "polygonOffsets[1] is 2, above the count, 1"],
            [[0, 3], [], undefined, "there are no polygonOffsets"],
        ]) {
            assert.throws(() => shapes.compactPolygons(rings, polygons), { name: "OffsetsError", place, message });
        }
        const far = [2 ** 33, 2 ** 33, 2 ** 33 + 2 ** 32, 2 ** 33 + 2 ** 32 + 4];
        assert.deepEqual(shapes.compactPolygons(far, [0, 1, 3]), { polygons: Uint32Array.of(1), rings: Uint32Array.of(1, 2), offsets: Uint32Array.of(0, 2) });
        assert.equal(shapes.heldBytes, 0);
    });
    for (const [polygons, ...options] of [[FAULTS], [FAULTS, { touching: false }], [TOUCHING, { touching: true }]]) {
        test(`polygonValidity: a polygon of each fault${options.length ? `, touching ${options[0].touching}` : ""}`, () => {
            const { points: coordinates, ringOffsets, polygonOffsets, faults } = allFaults(polygons);
            const from = points(coordinates);
            assert.deepEqual(shapes.polygonValidity(from, ringOffsets, polygonOffsets, ...options), faults);
            assert.deepEqual(shapes.polygonValidity(from, ringOffsets, polygonOffsets.slice(2, 5), ...options), faults.slice(2, 4));
            assert.deepEqual(shapes.polygonValidity(from, ringOffsets, [0], ...options), []);
            assert.equal(shapes.heldBytes, 0);
        });
    }
    test("polygonValidity: where rings may touch, only contacts are other faults, or none", () => {
        let valid = 0;
        for (let seed = 1; seed <= 300; seed++) {
            const polygons = randomPolygons(seed).map((holes) => [[[0, 0], [8, 0], [8, 8], [0, 8]], ...holes]);
            const rings = polygons.flat();
            const given = [
                points(rings.flat(2)),
                [0, ...rings.map((_, k) => rings.slice(0, k + 1).flat().length)],
                [0, ...polygons.map((_, k) => polygons.slice(0, k + 1).flat().length)],
            ];
            const strict = shapes.polygonValidity(...given);
            shapes.polygonValidity(...given, { touching: true }).forEach((fault, k) => {
                if (strict[k].kind !== "contact") assert.deepEqual(fault, strict[k]);
                else if (fault.kind === "valid") valid++;
            });
        }
        assert.ok(valid > 0);
    });
    test("polygonValidity: options of another name or type", () => {
        const ask = (options) => () => shapes.polygonValidity(points(SQUARE), [0, 4], [0, 1], options);
        assert.throws(ask({ touch: true }), { name: "TypeError", message: "polygonValidity has no option touch: its options are touching" });
        for (const options of [null, true, "touching"]) assert.throws(ask(options), TypeError);
    });
    for (const { call, ...left } of LEFT) {
        const wanted = {
            points: points(left.points),
            ringOffsets: Uint32Array.from(left.ringOffsets),
            polygonOffsets: Uint32Array.from(left.polygonOffsets),
        };
        test(`${call}: four polygons`, () => {
            const from = points(GIVEN.points);
            assert.deepEqual(shapes[call](from, GIVEN.ringOffsets, GIVEN.polygonOffsets), wanted);
            assert.deepEqual(from, points(GIVEN.points), "what is given stays as it is");
        });
        if (call === "removeSpikes") {
            test("despikePolygons: its old name", () =>
                assert.deepEqual(shapes.despikePolygons(points(GIVEN.points), GIVEN.ringOffsets, GIVEN.polygonOffsets), wanted));
        }
        test(`${call}: no polygon`, () =>
            assert.deepEqual(shapes[call](points(GIVEN.points), GIVEN.ringOffsets, [0]), {
                points: points([]),
                ringOffsets: Uint32Array.of(0),
                polygonOffsets: Uint32Array.of(0),
            }));
        test(`${call}: ${COUNT} polygons`, () => {
            const given = many(OUTER, Array.from, points);
            assert.deepEqual(
                shapes[call](given.points, given.ringOffsets, given.polygonOffsets),
                many(OUTER_LEFT[call], (offsets) => Uint32Array.from(offsets), points),
            );
        });
    }
});

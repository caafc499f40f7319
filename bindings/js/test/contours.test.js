import assert from "node:assert/strict";
import { test } from "node:test";
import { describeWidths } from "./support/modules.js";

// Worked contours: what each cleaner leaves, what each test returns, and twice the area.
const CONTOURS = [
    {
        name: "a square",
        given: [4, 4, 0, 4, 0, 0, 4, 0],
        simplify: [4, 4, 0, 4, 0, 0, 4, 0],
        despike: [4, 4, 0, 4, 0, 0, 4, 0],
        canonical: [0, 0, 4, 0, 4, 4, 0, 4],
        canonicalUnoriented: [0, 0, 0, 4, 4, 4, 4, 0],
        isSimple: true, hasNoSpikes: true, isConvex: true, areaTwo: 32n,
    },
    {
        name: "a straight vertex",
        given: [0, 0, 2, 0, 4, 0, 4, 4, 0, 4],
        simplify: [0, 0, 4, 0, 4, 4, 0, 4],
        despike: [0, 0, 2, 0, 4, 0, 4, 4, 0, 4],
        canonical: [0, 0, 4, 0, 4, 4, 0, 4],
        canonicalUnoriented: [0, 0, 0, 4, 4, 4, 4, 0],
        isSimple: false, hasNoSpikes: true, isConvex: true, areaTwo: 32n,
    },
    {
        name: "three points on a line",
        given: [0, 0, 0, 8, 0, 1],
        simplify: [], despike: [], canonical: [], canonicalUnoriented: [],
        isSimple: false, hasNoSpikes: false, isConvex: false, areaTwo: 0n,
    },
    {
        name: "two points",
        given: [0, 0, 4, 4],
        simplify: [], despike: [], canonical: [], canonicalUnoriented: [],
        isSimple: false, hasNoSpikes: false, isConvex: true, areaTwo: 0n,
    },
    {
        name: "a spike",
        given: [0, 0, 4, 0, 4, 4, 4, 8, 4, 4, 0, 4],
        simplify: [0, 0, 4, 0, 4, 4, 0, 4],
        despike: [0, 0, 4, 0, 4, 4, 0, 4],
        canonical: [0, 0, 4, 0, 4, 4, 0, 4],
        canonicalUnoriented: [0, 0, 0, 4, 4, 4, 4, 0],
        isSimple: false, hasNoSpikes: false, isConvex: false, areaTwo: 32n,
    },
    {
        name: "a repeated corner",
        given: [-4, 0, 0, -4, 4, 0, 4, 0, 0, 4],
        simplify: [-4, 0, 0, -4, 4, 0, 0, 4],
        despike: [-4, 0, 0, -4, 4, 0, 0, 4],
        canonical: [-4, 0, 0, -4, 4, 0, 0, 4],
        canonicalUnoriented: [-4, 0, 0, -4, 4, 0, 0, 4],
        isSimple: false, hasNoSpikes: true, isConvex: true, areaTwo: 64n,
    },
    {
        name: "a bend to both sides, wound to the right",
        given: [4, 4, 4, 0, 2, 0, 2, 2, 0, 2, 0, 4],
        simplify: [4, 4, 4, 0, 2, 0, 2, 2, 0, 2, 0, 4],
        despike: [4, 4, 4, 0, 2, 0, 2, 2, 0, 2, 0, 4],
        canonical: [0, 2, 0, 4, 4, 4, 4, 0, 2, 0, 2, 2],
        canonicalUnoriented: [0, 2, 0, 4, 4, 4, 4, 0, 2, 0, 2, 2],
        isSimple: true, hasNoSpikes: true, isConvex: false, areaTwo: -24n,
    },
    {
        name: "no point",
        given: [],
        simplify: [], despike: [], canonical: [], canonicalUnoriented: [],
        isSimple: false, hasNoSpikes: false, isConvex: true, areaTwo: undefined,
    },
];

// A square of so many points a side, each of its edges full of them, from the corner (0, 0) to the left.
const SIDE = 16000;
const SQUARE = [0, 0, SIDE, 0, SIDE, SIDE, 0, SIDE];

function fullSquare() {
    const coordinates = [];
    for (let k = 0; k < SIDE; k++) coordinates.push(k, 0);
    for (let k = 0; k < SIDE; k++) coordinates.push(SIDE, k);
    for (let k = SIDE; k > 0; k--) coordinates.push(k, SIDE);
    for (let k = SIDE; k > 0; k--) coordinates.push(0, k);
    return coordinates;
}

CONTOURS.push({
    name: "a square of 64,000 points",
    given: fullSquare(),
    simplify: SQUARE, despike: fullSquare(), canonical: SQUARE,
    canonicalUnoriented: [0, 0, 0, SIDE, SIDE, SIDE, SIDE, 0],
    isSimple: false, hasNoSpikes: true, isConvex: true, areaTwo: 2n * BigInt(SIDE) ** 2n,
});

// Points about a square that winds twice, from (0, 0) to (4, 4), and how often it winds about them.
const TWICE = [0, 0, 4, 0, 4, 4, 0, 4, 0, 0, 4, 0, 4, 4, 0, 4];
const ABOUT_TWICE = [
    { name: "a point inside", x: 2, y: 2, winding: 2 },
    { name: "a point on the left edge", x: 0, y: 2, winding: 2 },
    { name: "a point on the right edge", x: 4, y: 2, winding: 0 },
    { name: "a point outside", x: 5, y: 1, winding: 0 },
];

describeWidths((shapes, { points, number, Points, limit }) => {
    for (const row of CONTOURS) {
        for (const call of ["simplify", "despike", "canonical", "canonicalUnoriented"]) {
            test(`${call}: ${row.name}`, () => {
                const given = points(row.given);
                assert.deepEqual(shapes[call](given), points(row[call]));
                assert.deepEqual(given, points(row.given), "what is given stays as it is");
            });
        }
        for (const call of ["isSimple", "hasNoSpikes", "isConvex", "areaTwo"]) {
            test(`${call}: ${row.name}`, () => assert.equal(shapes[call](points(row.given)), row[call]));
        }
        test(`isSafe: ${row.name}`, () => assert.equal(shapes.isSafe(points(row.given)), true));
    }

    for (const { name, x, y, winding } of ABOUT_TWICE) {
        test(`windingNumber: ${name}`, () => assert.equal(shapes.windingNumber(points(TWICE), number(x), number(y)), winding));
        test(`contains: ${name}, of the square once`, () => assert.equal(shapes.contains(points(TWICE.slice(8)), number(x), number(y)), winding > 0));
    }

    test("windingNumber: a square that turns right", () =>
        assert.equal(shapes.windingNumber(points([1, 1, 1, 3, 3, 3, 3, 1]), number(2), number(2)), -1));
    test("windingNumber and contains: no contour", () => {
        assert.equal(shapes.windingNumber(points([]), number(2), number(2)), 0);
        assert.equal(shapes.contains(points([]), number(2), number(2)), false);
    });
    test("windingNumber and contains: a square of 64,000 points", () => {
        assert.equal(shapes.windingNumber(points(fullSquare()), number(1), number(SIDE - 1)), 1);
        assert.equal(shapes.contains(points(fullSquare()), number(1), number(SIDE - 1)), true);
        assert.equal(shapes.contains(points(fullSquare()), number(-1), number(1)), false);
    });

    test("isSafe: a coordinate at each end of the safe range", () => {
        const one = number(1);
        assert.equal(shapes.isSafe(Points.of(limit - one, one - limit)), true);
        assert.equal(shapes.isSafe(Points.of(limit, one)), false);
        assert.equal(shapes.isSafe(Points.of(one, -limit)), false);
    });

    test("areaTwo: a square as great as is safe", () => {
        const far = limit - number(1);
        const square = Points.of(-far, -far, far, -far, far, far, -far, far);
        assert.equal(shapes.areaTwo(square), 8n * BigInt(far) ** 2n);
        const turned = Points.of(-far, -far, -far, far, far, far, far, -far);
        assert.equal(shapes.areaTwo(turned), -8n * BigInt(far) ** 2n);
    });

    test("a part of an array is read alone", () => {
        const whole = points([9, 9, 0, 0, 2, 0, 4, 0, 4, 4, 0, 4, 9, 9]);
        assert.deepEqual(shapes.simplify(whole.subarray(2, 12)), points([0, 0, 4, 0, 4, 4, 0, 4]));
    });
});

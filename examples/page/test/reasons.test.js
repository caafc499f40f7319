import assert from "node:assert/strict";
import { test } from "node:test";
import { reasonsOf } from "../reasons.js";

const SQUARE = [[0, 0], [4, 0], [4, 4], [0, 4]];
// The way bends at its second point by 1 in 2^58.
const GREAT = [[0, 0], [2 ** 29, 2 ** 29 - 1], [2 ** 30 - 1, 2 ** 30 - 3], [0, 3]];

for (const [name, given, left, reasons] of [
    ["nothing to remove", SQUARE, SQUARE, {}],
    ["a straight point", [[0, 0], [2, 0], ...SQUARE.slice(1)], SQUARE, { 1: "straight" }],
    ["a point that comes twice", [[0, 0], ...SQUARE], SQUARE, { 1: "repeated" }],
    ["a spike, and the point that comes twice without it", [[0, 0], [4, 0], [4, 9], [4, 0], [4, 4], [0, 4]], SQUARE, { 2: "spike", 3: "repeated" }],
    ["a straight point of a spike", [[0, 0], [4, 0], [6, 0], [9, 0], [4, 0], [4, 4], [0, 4]], SQUARE, { 2: "straight", 3: "spike", 4: "repeated" }],
    ["a contour on a line", [[0, 0], [8, 0], [3, 0]], [], { 0: "spike", 1: "collapsed", 2: "collapsed" }],
    ["one point", [[1, 1]], [], { 0: "collapsed" }],
    ["no point", [], [], {}],
    ["a turn that needs more than 53 bits", GREAT, GREAT, {}],
]) {
    test(name, () => assert.deepEqual(Object.fromEntries(reasonsOf(given, left)), reasons));
}

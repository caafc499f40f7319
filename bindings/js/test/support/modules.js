/** The module, and the widths of points that each table of the tests goes over. */
import { readFileSync } from "node:fs";
import { describe } from "node:test";
import { load } from "../../src/i_shape.js";

/** The bytes of the module. */
export const MODULE = readFileSync(new URL("../../out/i_shape32.wasm", import.meta.url));

export const WIDTHS = [
    { bits: 16, Points: Int16Array, number: Number },
    { bits: 32, Points: Int32Array, number: Number },
    { bits: 64, Points: BigInt64Array, number: BigInt },
].map((width) => ({
    ...width,
    /** The points at this width, of coordinates that are plain numbers. */
    points: (coordinates) => width.Points.from(coordinates, width.number),
    /** The least coordinate above the safe range. */
    limit: width.number(2) ** width.number(width.bits - 2),
}));

/** Defines tests of the module at each width. */
export function describeWidths(define) {
    for (const width of WIDTHS) describe(`points of ${width.bits} bits`, async () => define(await load(MODULE), width));
}

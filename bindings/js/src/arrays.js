/** What is tested of the arrays and numbers that callers give before they are copied into the module's memory. */
import { OffsetsError } from "./errors.js";

/** The types of points, each with its width and the least number above its safe range. */
const KINDS = {
    __proto__: null,
    Int16Array: { Points: Int16Array, bits: 16, limit: 2 ** 14 },
    Int32Array: { Points: Int32Array, bits: 32, limit: 2 ** 30 },
    BigInt64Array: { Points: BigInt64Array, bits: 64, limit: 2n ** 62n },
};

const TYPED_ARRAY = Object.getPrototypeOf(Int8Array.prototype);

/** Returns how many items a typed array has, whatever properties of its own it has. */
export function lengthOf(array) {
    return Reflect.get(TYPED_ARRAY, "length", array);
}

/** Returns the type of an array of points x0, y0, x1, y1, .. */
export function kindOf(points) {
    const kind = ArrayBuffer.isView(points) ? KINDS[Reflect.get(TYPED_ARRAY, Symbol.toStringTag, points)] : undefined;
    if (!kind) throw new TypeError("points are no Int16Array, Int32Array or BigInt64Array, such as Int32Array.of(x0, y0, x1, y1)");
    if (lengthOf(points) % 2 !== 0) throw new RangeError(`points have ${lengthOf(points)} coordinates: an x without a y`);
    return kind;
}

/** Returns whether a coordinate lies in the safe range of a type. */
export function isInSafeRange(coordinate, { limit }) {
    return -limit < coordinate && coordinate < limit;
}

/** Throws where a coordinate by itself is no whole number of a type. */
export function checkCoordinate(coordinate, { bits }) {
    if (bits === 64 ? typeof coordinate !== "bigint" : !Number.isInteger(coordinate)) {
        throw new TypeError(`a coordinate is ${String(coordinate)}, and no ${bits === 64 ? "bigint" : "whole number"}`);
    }
}

/** Returns an offset as a number that is exact. */
function asOffset(offset, name, place) {
    if (typeof offset !== "bigint" && !Number.isInteger(offset)) throw new TypeError(`${name} have ${String(offset)}, and no whole number`);
    if (offset < 0 || offset > Number.MAX_SAFE_INTEGER) throw new OffsetsError(`${name}[${place}] is ${offset}: there are not so many items`, place);
    return Number(offset);
}

/** Returns the error for offsets that don't divide so many items: the one at `place` is the first that is wrong, or there is none. */
export function offsetsFault(offsets, place, count, name) {
    if (!offsets.length) return new OffsetsError(`there are no ${name}`);
    const fault = offsets[place] < offsets[place - 1] ? "below the one before it" : `above the count, ${count}`;
    return new OffsetsError(`${name}[${place}] is ${offsets[place]}, ${fault}`, place);
}

/** Returns the offsets as numbers that are exact. Whether they are in order is left to the library. */
export function asOffsets(offsets, name = "offsets") {
    if (typeof offsets !== "object" || !Number.isInteger(offsets?.length)) throw new TypeError(`${name} are no array`);
    const numbers = new Float64Array(offsets.length);
    for (let k = 0; k < numbers.length; k++) numbers[k] = asOffset(offsets[k], name, k);
    return numbers;
}

/** Returns the offsets as numbers that are exact, if they divide so many items. */
export function asDividing(offsets, count, name) {
    const numbers = asOffsets(offsets, name);
    const place = numbers.findIndex((offset, k) => offset > count || offset < numbers[k - 1]);
    if (!numbers.length || place >= 0) throw offsetsFault(numbers, place, count, name);
    return numbers;
}

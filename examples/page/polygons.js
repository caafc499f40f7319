/** Polygons as the page holds them, arrays of rings of points [x, y], and as the library takes and returns them. */

/** Returns polygons end to end. */
export function flat(polygons) {
    const rings = polygons.flat();
    return {
        points: Int32Array.from(rings.flat(2)),
        ringOffsets: offsetsOf(rings),
        polygonOffsets: offsetsOf(polygons),
    };
}

function offsetsOf(lists) {
    const offsets = [0];
    for (const { length } of lists) offsets.push(offsets.at(-1) + length);
    return offsets;
}

/** Returns the rings of an answer. */
export function ringsOf(points, offsets) {
    return Array.from({ length: offsets.length - 1 }, (_, k) => pointsOf(points.subarray(2 * offsets[k], 2 * offsets[k + 1])));
}

/** Returns the polygons of an answer. */
export function polygonsOf({ points, ringOffsets, polygonOffsets }) {
    const rings = ringsOf(points, ringOffsets);
    return Array.from({ length: polygonOffsets.length - 1 }, (_, k) => rings.slice(polygonOffsets[k], polygonOffsets[k + 1]));
}

function pointsOf(coordinates) {
    return Array.from({ length: coordinates.length / 2 }, (_, k) => [coordinates[2 * k], coordinates[2 * k + 1]]);
}

/** Throws where a coordinate doesn't fit the 32 bits that the page takes. */
export function checkRange(polygons) {
    const wide = polygons.flat(3).find((each) => each !== (each | 0));
    if (wide !== undefined) throw new RangeError(`${wide} has more than 32 bits: take a lesser scale`);
}

/** Cleans many contours by one call, and shows each one that is left in a line. */
import { load } from "../bindings/js/src/i_shape.js";

const shapes = await load();
const points = Int32Array.of(
    0, 0, 2, 0, 4, 0, 4, 4, 0, 4, // a point on an edge
    0, 0, 3, 3, 6, 6, // no area: it collapses
    9, 0, 9, 5, 4, 0,
);
const left = shapes.canonicalRings(points, [0, 5, 8, 11]);
for (let ring = 0; ring + 1 < left.offsets.length; ring++) {
    const shown = [];
    for (let k = left.offsets[ring]; k < left.offsets[ring + 1]; k++) shown.push(`(${left.points[2 * k]}, ${left.points[2 * k + 1]})`);
    console.log(shown.join(" ") || "none");
}

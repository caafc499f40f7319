/** The least nanoseconds a point of many samples, as native.c times them, by the module that is named. What a call copies is counted. */
import { readFile } from "node:fs/promises";
import { load } from "../../bindings/js/src/i_shape.js";

const MOST = 100_000;
const SAMPLES = 150;
const POINTS = 200_000;

const shapes = await load(readFile(process.argv[2]));

/** A saw, with a point in the middle of each edge. */
function saw(count) {
    const points = new Int32Array(2 * count);
    for (let k = 0; k < count; k++) points.set([4 * k, [0, 1, 2, 1][k % 4]], 2 * k);
    return points;
}

function measure(name, count, clean) {
    const rounds = POINTS / count;
    let least = Infinity;
    for (let sample = 0; sample < SAMPLES; sample++) {
        const start = performance.now();
        for (let k = 0; k < rounds; k++) clean();
        least = Math.min(least, ((performance.now() - start) * 1e6) / (rounds * count));
    }
    console.log(`${name}: ${least.toFixed(1)}`);
}

for (let count = 10; count <= MOST; count *= 100) {
    const points = saw(count);
    measure(`${count} points`, count, () => shapes.simplify(points));
}
for (const count of [10, 100]) {
    const points = new Int32Array(2 * MOST);
    for (let k = 0; k < MOST; k += count) points.set(saw(count), 2 * k);
    const offsets = Uint32Array.from({ length: MOST / count + 1 }, (_, k) => k * count);
    measure(`${count} points, many rings by one call`, MOST, () => shapes.simplifyRings(points, offsets));
}
const squares = new Int32Array(2 * MOST);
for (let k = 0; k < MOST; k += 4) squares.set([0, 0, 4, 0, 4, 4, 0, 4].map((item) => item + k), 2 * k);
const ends = Uint32Array.from({ length: MOST / 4 + 1 }, (_, k) => k);
measure("4 points, keys of polygons by one call", MOST, () => shapes.canonicalKeys(squares, ends.map((end) => 4 * end), ends));

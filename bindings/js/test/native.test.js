/**
 * The module beside the native library: ten thousand random contours at each width, and coastlines on several grids. I_SHAPE_ANSWERS names the
 * programs of native/answers.c but for the width that ends each name. Without it the tests are skipped.
 */
import assert from "node:assert/strict";
import { execFileSync } from "node:child_process";
import { readFileSync } from "node:fs";
import { test } from "node:test";
import { IShapeError } from "../src/i_shape.js";
import { describeWidths } from "./support/modules.js";

const PROGRAMS = process.env.I_SHAPE_ANSWERS;
const COUNT = 10_000;
const MOST_ABOUT = 100;

/** A generator of whole numbers below a bound: the same ones in each run. */
function generator(seed) {
    let state = seed;
    return (below) => {
        state = (state * 6364136223846793005n + 1442695040888963407n) & 0xffffffffffffffffn;
        return (state >> 11n) % below;
    };
}

/** A contour: mostly of few places, so that many points lie on a line, come twice or turn back; now and then as far out as is safe, or one further. */
function randomContour(random, limit) {
    const reaches = [2n, 3n, 5n, 12n, 1000n, limit - 1n, limit - 1n, limit];
    const reach = reaches[Number(random(BigInt(reaches.length)))];
    const isFar = reach >= limit - 1n;
    const coordinate = () => (isFar && random(4n) > 0n ? (random(2n) === 0n ? reach : -reach) : random(2n * reach + 1n) - reach);
    const count = Number(random(10n) === 0n ? random(400n) : random(14n));
    const points = [];
    for (let k = 0; k < count; k++) {
        const isAgain = k > 0 && random(6n) === 0n;
        points.push(isAgain ? points[Number(random(BigInt(k)))] : [coordinate(), coordinate()]);
    }
    return { about: [coordinate(), coordinate()], points };
}

/** The coastlines of the repository, rounded to a grid, where they are safe then. */
function coastlines(grid, limit) {
    return ["corsica", "hvar", "ruegen"]
        .map((name) => readFileSync(new URL(`../../../examples/draw/${name}.txt`, import.meta.url), "utf8").trim().split(" "))
        .map((words) => words.map((word) => BigInt(Math.round(Number(word) / grid))))
        .filter((coordinates) => coordinates.every((each) => each < limit))
        .map((coordinates) => ({
            about: [coordinates[0], coordinates[1]],
            points: Array.from({ length: coordinates.length / 2 }, (_, k) => coordinates.slice(2 * k, 2 * k + 2)),
        }));
}

/** The contours at a width, and the lines that the native library returns. */
const asked = new Map();

function askedAt(bits) {
    if (asked.has(bits)) return asked.get(bits);
    const limit = 2n ** BigInt(bits - 2);
    const random = generator(BigInt(bits));
    const contours = Array.from({ length: COUNT }, () => randomContour(random, limit));
    for (const grid of [1, 16, 64, 128, 512]) contours.push(...coastlines(grid, limit));
    const input = contours.map(({ about, points }) => [points.length, ...about, ...points.flat()].join(" ")).join("\n");
    const native = execFileSync(`${PROGRAMS}${bits}`, { input, encoding: "utf8", maxBuffer: 2 ** 30 }).split("\n");
    asked.set(bits, { contours, native });
    return asked.get(bits);
}

/** What a call returns, or the code of its error. */
function answerOf(call) {
    try {
        return call();
    } catch (error) {
        if (error instanceof IShapeError) return error.code;
        throw error;
    }
}

/** The lines of native/answers.c, by the module. */
function answers(shapes, contours, { bits, Points, number }) {
    const lines = [];
    const tell = (name, points) => lines.push(typeof points === "number" ? `${name} ${points}` : [name, points.length / 2, ...points].join(" "));
    const tellOffsets = (offsets) => lines.push(`${offsets.join(" ")} `);
    const tellArea = (area) => {
        const half = (at) => BigInt.asUintN(64, area >> at).toString(16);
        lines.push(`area ${area === undefined ? "none" : bits === 64 ? `${half(64n)} ${half(0n)}` : area}`);
    };
    const safe = [];
    for (const { about, points } of contours) {
        const given = Points.from(points.flat(), number);
        const [x, y] = about.map(number);
        for (const name of ["simplify", "despike", "canonical", "canonicalUnoriented"]) tell(name, answerOf(() => shapes[name](given)));
        tellArea(shapes.areaTwo(given));
        lines.push(["tests", ...["isSafe", "isSimple", "hasNoSpikes", "isConvex"].map((name) => Number(answerOf(() => shapes[name](given))))].join(" "));
        const contains = Number(answerOf(() => shapes.contains(given, x, y)));
        lines.push(`about ${contains} ${contains < 0 ? "none" : shapes.windingNumber(given, x, y)}`);
        if (shapes.isSafe(given)) safe.push(points.flat());
    }
    const all = Points.from(safe.flat(), number);
    const offsets = [0];
    const polygons = [0];
    for (const points of safe) {
        offsets.push(offsets.at(-1) + points.length / 2);
        if (offsets.length - 1 - polygons.at(-1) > (polygons.length - 1) % 3) polygons.push(offsets.length - 1);
    }
    for (const name of ["simplify", "despike", "canonical", "canonicalUnoriented"]) {
        const left = shapes[`${name}Rings`](all, offsets);
        tell(name, left.points);
        tellOffsets(left.offsets);
    }
    for (const name of ["simplify", "despike", "canonical", "canonicalUnoriented"]) {
        const left = shapes[`${name}Polygons`](all, offsets, polygons);
        tell(name, left.points);
        tellOffsets(left.ringOffsets);
        tellOffsets(left.polygonOffsets);
    }
    tellOffsets(shapes.windingNumbers(all, offsets, all.subarray(0, 2 * MOST_ABOUT)));
    return lines;
}

describeWidths((shapes, width) => {
    const skip = !PROGRAMS && "there is no program of the native library";
    test(`${COUNT} random contours, and coastlines, as by the native library`, { skip }, () => {
        const { contours, native } = askedAt(width.bits);
        const own = [...answers(shapes, contours, width), ""];
        const place = own.findIndex((line, k) => line !== native[k]);
        assert.equal(place < 0 ? undefined : `${place}: ${own[place]}`, place < 0 ? undefined : `${place}: ${native[place]}`);
        assert.equal(own.length, native.length);
    });
});

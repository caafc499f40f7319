import assert from "node:assert/strict";
import { describe, test } from "node:test";
import { OutOfMemoryError, load } from "../src/i_shape.js";
import { borrow } from "../src/memory.js";
import { limited } from "./support/limited.js";
import { MODULE, WIDTHS } from "./support/modules.js";

// A contour from which much is removed, as rings and as polygons of three rings.
const RING = [0, 0, 2, 0, 4, 0, 4, 4, 4, 9, 4, 4, 0, 4, 0, 4];
const RINGS = 30;
const OFFSETS = Array.from({ length: RINGS + 1 }, (_, k) => (k * RING.length) / 2);
const POLYGONS = Array.from({ length: RINGS / 3 + 1 }, (_, k) => 3 * k);

/** Each call at a width, by its name. */
function callsOf(shapes, { points, number }) {
    const contour = points(RING);
    const rings = points(Array.from({ length: RINGS }, () => RING).flat());
    // a triangle with a hole that touches it twice, and a ring whose edges overlap
    const touching = points([0, 0, 4, 0, 0, 4, /**/ 0, 0, 2, 1, 2, 2, /**/ 0, 0, 4, 0, 2, 0]);
    const calls = {};
    for (const name of ["simplify", "despike", "canonical", "canonicalUnoriented", "isSimple", "hasNoSpikes", "isConvex", "isSafe", "areaTwo"]) {
        calls[name] = () => shapes[name](contour);
    }
    for (const name of ["contains", "windingNumber"]) calls[name] = () => shapes[name](contour, number(1), number(1));
    for (const name of ["windingNumbers", "containsPoints", "locate"]) calls[name] = () => shapes[name](rings, OFFSETS, rings);
    for (const name of ["simplifyRings", "despikeRings", "canonicalRings", "canonicalUnorientedRings"]) calls[name] = () => shapes[name](rings, OFFSETS);
    for (const name of ["isSimpleRings", "hasNoSpikesRings", "isConvexRings", "isSafeRings", "areaTwoRings"]) calls[name] = () => shapes[name](rings, OFFSETS);
    for (const name of ["simplifyPolygons", "removeSpikes", "canonicalPolygons", "canonicalUnorientedPolygons"]) {
        calls[name] = () => shapes[name](rings, OFFSETS, POLYGONS);
    }
    for (const name of ["contacts", "contactsOfRings"]) calls[name] = () => shapes[name](contour, [0, 3, 8]);
    calls.kindsOfContacts = () => shapes.kindsOfContacts(contour, [0, 3, 8], [{ first: 2, second: 7 }]);
    calls.polygonValidity = () => shapes.polygonValidity(rings, OFFSETS, POLYGONS);
    calls["polygonValidity, touching"] = () => shapes.polygonValidity(touching, [0, 3, 6, 9], [0, 2, 3], { touching: true });
    calls.locateInPolygons = () => shapes.locateInPolygons(rings, OFFSETS, POLYGONS, rings);
    calls.compactPolygons = () => shapes.compactPolygons(OFFSETS, POLYGONS);
    return calls;
}

/** What an array may say of itself by properties of its own. */
const OWN_PROPERTIES = {
    "a length that is less": { length: { value: 2 } },
    "a length that is more": { length: { value: 2 ** 20 } },
    "a byteLength": { byteLength: { value: 0 } },
    "a type": { [Symbol.toStringTag]: { value: "Int32Array" } },
};

/** Calls on a contour, on rings and on polygons with an unsafe point, and with offsets that divide nothing. */
function wrongCallsOf(shapes, { Points, limit, points }) {
    const wrong = Points.of(limit, limit);
    return {
        simplify: () => shapes.simplify(wrong),
        isSimple: () => shapes.isSimple(wrong),
        windingNumber: () => shapes.windingNumber(wrong, wrong[0] - wrong[0], wrong[0] - wrong[0]),
        simplifyRings: () => shapes.simplifyRings(wrong, [0, 1]),
        canonicalPolygons: () => shapes.canonicalPolygons(wrong, [0, 1], [0, 1]),
        "simplifyRings, offsets": () => shapes.simplifyRings(points(RING), [0, 99]),
        "canonicalPolygons, offsets": () => shapes.canonicalPolygons(points(RING), [0, 4], [0, 9]),
        "windingNumbers, offsets": () => shapes.windingNumbers(points(RING), [], points(RING)),
    };
}

test("an address of 32 bits from 2^31 on comes with a sign", () => {
    const buffer = new ArrayBuffer(2 ** 31 + 8);
    const exports = { memory: { buffer }, i_shape_take: () => -(2 ** 31), i_shape_give() {} };
    borrow(exports, (loan) => loan.copy(Int32Array.of(7, 9), { Points: Int32Array }, 2));
    assert.deepEqual(new Int32Array(buffer, 2 ** 31), Int32Array.of(7, 9));
});

describe("memory", async () => {
    const shapes = await load(MODULE);
    for (const width of WIDTHS) {
        for (const [name, call] of Object.entries(callsOf(shapes, width))) {
            test(`${name} at ${width.bits} bits: the memory is as it was after a thousand calls`, () => {
                call();
                const before = shapes.memoryBytes;
                for (let turn = 0; turn < 1000; turn++) call();
                assert.equal(shapes.memoryBytes, before);
                assert.equal(shapes.heldBytes, 0);
            });
        }
        for (const [own, properties] of Object.entries(OWN_PROPERTIES)) {
            test(`each call at ${width.bits} bits: points whose array has ${own} of its own`, async () => {
                const wanted = callsOf(shapes, width);
                const points = (coordinates) => Object.defineProperties(width.points(coordinates), properties);
                const fresh = await load(MODULE);
                for (const [name, call] of Object.entries(callsOf(fresh, { ...width, points }))) {
                    assert.deepEqual(call(), wanted[name](), name);
                    assert.equal(fresh.heldBytes, 0, name);
                }
            });
        }
        for (const [name, call] of Object.entries(wrongCallsOf(shapes, width))) {
            test(`${name} at ${width.bits} bits: the memory is as it was after a hundred errors`, () => {
                assert.throws(call);
                const before = shapes.memoryBytes;
                for (let turn = 0; turn < 100; turn++) assert.throws(call);
                assert.equal(shapes.memoryBytes, before);
                assert.equal(shapes.heldBytes, 0);
            });
        }
    }

    test("the memory grows with the greatest call, and later ones use it again", async () => {
        const fresh = await load(MODULE);
        const square = new Int32Array(2_000_000);
        const before = fresh.memoryBytes;
        assert.deepEqual(fresh.simplify(square), new Int32Array(0));
        const grown = fresh.memoryBytes;
        assert.ok(grown - before >= 2 * square.byteLength);
        for (let length = 2; length < square.length; length *= 4) fresh.simplify(square.subarray(0, length));
        assert.equal(fresh.memoryBytes, grown);
        assert.equal(fresh.heldBytes, 0);
    });

    test("the memory grows by an eighth at least, and by less where no more is left", () => {
        const sizesOf = (bytes) => {
            const { exports } = new WebAssembly.Instance(new WebAssembly.Module(bytes));
            const sizes = [exports.memory.buffer.byteLength];
            for (let turn = 0; turn < 1000 && exports.i_shape_take(40_000); turn++) {
                if (exports.memory.buffer.byteLength !== sizes.at(-1)) sizes.push(exports.memory.buffer.byteLength);
            }
            return sizes;
        };
        const sizes = sizesOf(MODULE);
        assert.ok(sizes.at(-1) >= 40_000_000);
        for (let k = 1; k < sizes.length; k++) assert.ok(sizes[k] >= 1.125 * sizes[k - 1], `${sizes[k]} after ${sizes[k - 1]}`);
        assert.equal(sizesOf(limited(MODULE, 100)).at(-1), sizes[0] + 100 * 65536);
    });

    // Points that fill the pages which the memory may grow by, in each way: those of the caller fail, or those of the library.
    for (const width of WIDTHS) {
        const count = 16384;
        const contour = width.points(Array.from({ length: count }, (_, k) => [k >> 2, (k >> 1) % 2]).flat());
        const offsets = Array.from({ length: 1025 }, (_, k) => 16 * k);
        const overlapping = width.points(Array.from({ length: 500 }, () => [0, 0, 4, 0]).flat());
        for (const [name, call] of Object.entries({
            simplify: (it) => it.simplify(contour),
            despike: (it) => it.despike(contour),
            canonical: (it) => it.canonical(contour),
            canonicalUnoriented: (it) => it.canonicalUnoriented(contour),
            simplifyRings: (it) => it.simplifyRings(contour, [0, count]),
            despikeRings: (it) => it.despikeRings(contour, [0, count]),
            canonicalRings: (it) => it.canonicalRings(contour, [0, count]),
            canonicalUnorientedRings: (it) => it.canonicalUnorientedRings(contour, [0, count]),
            simplifyPolygons: (it) => it.simplifyPolygons(contour, offsets, [0, 512, 1024]),
            removeSpikes: (it) => it.removeSpikes(contour, offsets, [0, 512, 1024]),
            canonicalPolygons: (it) => it.canonicalPolygons(contour, offsets, [0, 512, 1024]),
            canonicalUnorientedPolygons: (it) => it.canonicalUnorientedPolygons(contour, offsets, [0, 512, 1024]),
            contacts: (it) => it.contacts(overlapping),
            contactsOfRings: (it) => it.contactsOfRings(overlapping, [500, 1000]),
            kindsOfContacts: (it) => it.kindsOfContacts(contour, [0, count], Array(count).fill({ first: 0, second: 9 })),
            "polygonValidity, touching": (it) => it.polygonValidity(overlapping, [0, 500, 1000], [0, 1, 2], { touching: true }),
        })) {
            test(`${name} at ${width.bits} bits: a failed allocation is an error, and nothing is held`, async () => {
                const wanted = call(shapes);
                let failures = 0;
                for (let pages = 0; pages <= 256; pages = pages < 8 ? pages + 1 : 2 * pages) {
                    const scarce = await load(limited(MODULE, pages));
                    try {
                        assert.deepEqual(call(scarce), wanted);
                    } catch (error) {
                        if (!(error instanceof OutOfMemoryError)) throw error;
                        assert.equal(error.code, -3);
                        failures++;
                    }
                    assert.equal(scarce.heldBytes, 0);
                    assert.equal(scarce.simplify(width.points([0, 0, 4, 0, 4, 4])).length, 6, "and small calls go on");
                }
                assert.ok(failures > 1);
            });
        }
    }

    test("more than there is", () => {
        const exports = new WebAssembly.Instance(new WebAssembly.Module(MODULE)).exports;
        for (const size of [2 ** 31, 2 ** 32 - 17, 2 ** 32 - 1]) assert.ok(!exports.i_shape_take(size), `${size}`);
        assert.equal(exports.i_shape_held(), 0);
    });

    test("blocks are apart, aligned to 16, and used again", () => {
        const exports = new WebAssembly.Instance(new WebAssembly.Module(MODULE)).exports;
        const sizes = [0, 1, 15, 16, 17, 1000, 65536];
        const taken = [];
        for (let turn = 0; turn < 100; turn++) {
            for (const size of sizes) taken.push([exports.i_shape_take(size), size]);
        }
        taken.sort(([a], [b]) => a - b);
        taken.forEach(([address, size], k) => {
            assert.equal(address % 16, 0);
            assert.ok(k + 1 === taken.length || address + size <= taken[k + 1][0]);
        });
        const before = exports.memory.buffer.byteLength;
        for (const [address] of taken) exports.i_shape_give(address);
        assert.equal(exports.i_shape_held(), 0);
        for (let turn = 0; turn < 100; turn++) for (const size of sizes) assert.ok(exports.i_shape_take(size));
        assert.equal(exports.memory.buffer.byteLength, before);
    });

    test("points of 4 GiB, and their offsets", () => {
        assert.throws(() => shapes.simplify(new Int32Array(2 ** 30)), OutOfMemoryError);
        assert.throws(() => shapes.isSimple(new BigInt64Array(2 ** 29 + 2)), OutOfMemoryError);
        assert.equal(shapes.heldBytes, 0);
    });

    // What no call of load's object does: a pointer out of memory is a trap.
    test("a call after a trap returns what it did before", () => {
        const exports = new WebAssembly.Instance(new WebAssembly.Module(MODULE)).exports;
        assert.throws(() => exports.i_shape_is_safe_i32(2 ** 31, 8), WebAssembly.RuntimeError);
        assert.equal(exports.i_shape_version(), 0x000200);
        assert.equal(exports.i_shape_is_safe_i32(exports.i_shape_take(0), 0), 1);
    });

    test("no function or memory is imported", () => assert.deepEqual(WebAssembly.Module.imports(new WebAssembly.Module(MODULE)), []));
});

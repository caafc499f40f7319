import assert from "node:assert/strict";
import { test } from "node:test";
import { describeWidths } from "./support/modules.js";

const SQUARE = [0, 0, 4, 0, 4, 4, 0, 4];

// Rings, and each contact of their edges: two places, and the kind.
const ROWS = [
    { name: "no point", rings: [[]], wanted: [] },
    { name: "a square", rings: [SQUARE], wanted: [] },
    { name: "a bow tie", rings: [[0, 0, 4, 4, 4, 0, 0, 4]], wanted: [[0, 2, "crossing"]] },
    { name: "a vertex on an edge", rings: [[0, 0, 4, 0, 4, 4, 2, 0, 0, 4]], wanted: [[0, 2, "touch"], [0, 3, "touch"]] },
    { name: "a spike", rings: [[0, 0, 4, 0, 4, 8, 4, 4, 0, 4]], wanted: [[1, 2, "overlap"], [1, 3, "touch"]] },
    { name: "a repeated point", rings: [[0, 0, 4, 0, 4, 0, 4, 4, 0, 4]], wanted: [[0, 2, "touch"]] },
    {
        name: "edges that all overlap, more contacts than points",
        rings: [[0, 0, 4, 0, 0, 0, 4, 0]],
        wanted: [[0, 1], [0, 2], [0, 3], [1, 2], [1, 3], [2, 3]].map((pair) => [...pair, "overlap"]),
    },
    { name: "a hole that touches an edge, after an empty ring", rings: [SQUARE, [], [1, 1, 0, 2, 1, 3]], wanted: [[3, 4, "touch"], [3, 5, "touch"]] },
    {
        name: "an edge across, of a ring of two points, and a ring of one",
        rings: [SQUARE, [1, 1, 1, 9], [2, 0]],
        wanted: [[0, 6, "touch"], [2, 4, "crossing"], [2, 5, "crossing"], [4, 5, "overlap"]],
    },
];

describeWidths((shapes, { points, limit }) => {
    for (const { name, rings, wanted } of ROWS) {
        const contacts = wanted.map(([first, second]) => ({ first, second }));
        const kinds = wanted.map(([, , kind]) => kind);
        const offsets = rings.reduce((ends, ring) => [...ends, ends.at(-1) + ring.length / 2], [0]);

        if (rings.length === 1) {
            test(`contacts: ${name}`, () => assert.deepEqual(shapes.contacts(points(rings[0])), contacts));
        }
        test(`contactsOfRings, firstContactOfRings and kindsOfContacts: ${name}`, () => {
            const all = points(rings.flat());
            assert.deepEqual(shapes.contactsOfRings(all, offsets), contacts);
            assert.deepEqual(shapes.firstContactOfRings(all, offsets), contacts[0]);
            assert.deepEqual(shapes.kindsOfContacts(all, offsets, contacts), kinds);
        });
        test(`contactsOfRings and kindsOfContacts: ${name}, behind a point that isn't read`, () => {
            const all = points([0, 0, ...rings.flat(), 0, 0]);
            all[0] = all[all.length - 1] = limit;
            const moved = contacts.map(({ first, second }) => ({ first: first + 1, second: second + 1 }));
            const from = offsets.map((offset) => offset + 1);
            assert.deepEqual(shapes.contactsOfRings(all, from), moved);
            assert.deepEqual(shapes.kindsOfContacts(all, from, moved), kinds);
        });
    }

    test("kindsOfContacts: edges that aren't in contact", () => {
        const pairs = [{ first: 0, second: 2 }, { first: 0, second: 1 }, { first: 3, second: 0 }];
        assert.deepEqual(shapes.kindsOfContacts(points(SQUARE), [0, 4], pairs), ["none", "touch", "touch"]);
    });
    test("kindsOfContacts: faults", () => {
        const square = points(SQUARE);
        const pair = { first: 2, second: 3 };
        for (const place of [0, 4, -1, 1.5, NaN, undefined]) {
            for (const wrong of [{ ...pair, first: place }, { ...pair, second: place }]) {
                assert.throws(() => shapes.kindsOfContacts(square, [1, 4], [pair, wrong]), { name: "RangeError", message: new RegExp(`the place ${place}:`) });
            }
        }
        assert.throws(() => shapes.kindsOfContacts(square, [0, 5], [pair]), { name: "OffsetsError", place: 1 });
        assert.throws(() => shapes.kindsOfContacts(square, [0, 4]), TypeError);
        assert.throws(() => shapes.kindsOfContacts(square, [0, 4], [, pair]), TypeError);
        square[2] = limit;
        assert.deepEqual(shapes.kindsOfContacts(square, [0, 4], [pair]), ["touch"]);
        assert.throws(() => shapes.kindsOfContacts(square, [1, 1, 4], [pair]), { name: "UnsafePointError", point: 1, ring: 1 });
        assert.equal(shapes.heldBytes, 0);
    });
});

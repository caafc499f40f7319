/** The faults of polygons, as i_shape.d.ts has them. */

// Of each kind, at the place of its code in include/i_shape.h, what the two places are that the library writes with it.
const KINDS = [
    { kind: "valid", places: [] },
    { kind: "tooFewPoints", places: ["ring"] },
    { kind: "contact", places: ["first", "second"] },
    { kind: "holeOutside", places: ["ring"] },
    { kind: "holeWithin", places: ["ring", "other"] },
    { kind: "disconnected", places: ["first", "second"] },
];

/** Returns the faults by what the library writes of each, three numbers: its code and two places. */
export function faultsOf(numbers) {
    return Array.from({ length: numbers.length / 3 }, (_, k) => {
        const [code, ...found] = numbers.subarray(3 * k, 3 * k + 3);
        const { kind, places } = KINDS[code];
        return { kind, ...Object.fromEntries(places.map((name, place) => [name, found[place]])) };
    });
}

/** Contacts of edges, as i_shape.d.ts has them. */

// Each at the place of its code in include/i_shape.h.
const KINDS = ["none", "crossing", "touch", "overlap"];

/** Returns the contacts by what the library writes of each, two places. */
export function contactsOf(places) {
    return Array.from({ length: places.length / 2 }, (_, k) => ({ first: places[2 * k], second: places[2 * k + 1] }));
}

/** Returns the kinds by their codes. */
export function kindsOf(codes) {
    return Array.from(codes, (code) => KINDS[code]);
}

/** Returns the place of the point behind each point of the rings, at the place of that one. */
function nextPlaces(offsets) {
    const next = Uint32Array.from({ length: offsets.at(-1) }, (_, place) => place + 1);
    offsets.forEach((end, k) => {
        if (end > offsets[k - 1]) next[end - 1] = offsets[k - 1];
    });
    return next;
}

/** Returns the ends of the two edges of each contact: four points. */
export function edgesOf(points, { Points }, offsets, contacts) {
    const next = nextPlaces(offsets);
    const edge = (place) => {
        if (!(place >= offsets[0] && place in next)) throw new RangeError(`contacts have the place ${String(place)}: no ring has such a point`);
        return [place, next[place]].flatMap((end) => [points[2 * end], points[2 * end + 1]]);
    };
    return Points.from(Array.from(contacts, ({ first, second }) => [...edge(first), ...edge(second)]).flat());
}

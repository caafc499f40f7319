/** What the library returns of polygons that are read or drawn, on the page and in its worker. */
import { readPolygons, scaled } from "./formats.js";
import { checkRange, flat, polygonsOf, ringsOf } from "./polygons.js";
import { reasonsOf } from "./reasons.js";

/** Why points of all rings are removed: for each reason its points. */
function removedPoints(rings, leftRings) {
    const removed = { straight: [], spike: [], repeated: [], collapsed: [] };
    rings.forEach((ring, k) => {
        for (const [place, reason] of reasonsOf(ring, leftRings[k])) removed[reason].push(ring[place]);
    });
    return removed;
}

/** An edge of a ring: the index of the point from which it leads, and its ends. */
function edgeOf(ring, index) {
    return { index, ends: [ring[index], ring[(index + 1) % ring.length]] };
}

/** The first two edges in contact of the first ring that has such edges, or no edge. */
function contactOf(shapes, { points, ringOffsets }, rings) {
    for (const [k, ring] of rings.entries()) {
        const contact = shapes.firstContact(points.subarray(2 * ringOffsets[k], 2 * ringOffsets[k + 1]));
        if (contact) return [edgeOf(ring, contact.first), edgeOf(ring, contact.second)];
    }
    return [];
}

/**
 * Answers of polygons: end to end, what is left, which points aren't and why, the first point of the canonical form, the first two edges of a ring that are in
 * contact, twice the area, whether the first ring is convex.
 */
export function answersOf(shapes, polygons) {
    const all = flat(polygons);
    const { points, ringOffsets, polygonOffsets } = all;
    const rings = polygons.flat();
    const simplified = shapes.simplifyRings(points, ringOffsets);
    const canonical = shapes.canonicalPolygons(points, ringOffsets, polygonOffsets).points;
    return {
        all,
        left: polygonsOf(shapes.simplifyPolygons(points, ringOffsets, polygonOffsets)),
        removed: removedPoints(rings, ringsOf(simplified.points, simplified.offsets)),
        start: canonical.length ? [canonical[0], canonical[1]] : undefined,
        contact: contactOf(shapes, all, rings),
        areaTwo: shapes.areaTwoRings(points, ringOffsets).reduce((sum, area) => sum + area, 0n),
        isConvex: rings[0]?.length ? shapes.isConvex(points.subarray(0, 2 * ringOffsets[1])) : undefined,
    };
}

/** Returns the polygons of a text, in safe whole numbers of 32 bits, and by a scale of 1 one that would keep more of their fractions. */
export function polygonsIn(shapes, text, scale) {
    if (!(scale > 0)) throw new RangeError("the scale is no number above 0");
    const read = readPolygons(text);
    const polygons = scaled(read, scale);
    checkRange(polygons);
    const { points, ringOffsets } = flat(polygons);
    shapes.simplifyRings(points, ringOffsets); // it names a point that isn't safe
    return { polygons, proposed: scale === 1 ? proposedScale(read) : undefined };
}

/** The greatest power of ten, up to 10^7, by which coordinates with fractions stay in the safe range; undefined where all are whole. */
function proposedScale(polygons) {
    const all = polygons.flat(3);
    if (all.every(Number.isInteger)) return undefined;
    const greatest = all.reduce((most, each) => Math.max(most, Math.abs(each)), 0);
    const scale = [7, 6, 5, 4, 3, 2, 1].map((power) => 10 ** power).find((each) => greatest * each < 2 ** 30 - 1);
    return scale && { scale, areDegrees: greatest <= 180 };
}

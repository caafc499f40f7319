/** Polygons of GeoJSON on a grid of whole numbers, and back. */
import { asDividing, isInSafeRange, kindOf, lengthOf } from "./arrays.js";
import { CollapsedError, GeoJsonError, UnsafePointError } from "./errors.js";
import { checkedOptions } from "./options.js";

/** The calls on rings that `cleanFeatures` makes, by the names of those on a contour. */
const RING_CALLS = { __proto__: null, simplify: "simplifyRings", despike: "despikeRings" };

/** Returns the text of a value in a message, also where JSON has none. */
function shown(value) {
    try {
        return String(JSON.stringify(value, (_, item) => (typeof item === "bigint" ? `${item}n` : item)));
    } catch {
        return Object.prototype.toString.call(value);
    }
}

/** Returns an array, whose holes are undefined. */
function listOf(what, value) {
    if (!Array.isArray(value)) throw new GeoJsonError(`GeoJSON: ${shown(value)} is no list of ${what}`);
    return Array.from(value);
}

/** Returns the positions of a ring without the first one again at its end. */
function openedRing(positions) {
    const ring = listOf("positions", positions);
    for (const position of ring) {
        if (!Array.isArray(position) || ![0, 1].every((axis) => Number.isFinite(position[axis]))) {
            throw new GeoJsonError(`GeoJSON: ${shown(position)} is no position`);
        }
    }
    const [first, last] = [ring[0], ring.at(-1)];
    return ring.length > 1 && first[0] === last[0] && first[1] === last[1] ? ring.slice(0, -1) : ring;
}

function openedRings(rings) {
    return listOf("rings", rings).map(openedRing);
}

/** Returns the polygons of a geometry, or of a feature that lies in no geometry, each an array of open rings of positions. */
function polygonsOf(object, isGeometry = false) {
    if (typeof object === "string") throw new GeoJsonError("GeoJSON: a text is no object: parse it first, by JSON.parse");
    const { type, coordinates } = object ?? {};
    if (type === "Feature" && !isGeometry) return object.geometry === null ? [] : polygonsOf(object.geometry, true);
    if (type === "GeometryCollection") return listOf("geometries", object.geometries).flatMap((geometry) => polygonsOf(geometry, true));
    if (type === "Polygon") return [openedRings(coordinates)];
    if (type === "MultiPolygon") return listOf("polygons", coordinates).map(openedRings);
    throw new GeoJsonError(`GeoJSON: ${type === undefined ? `${shown(object)}, which has no type,` : `a ${type}`} is no polygon`);
}

/** The polygons of the feature of a collection, or an error that names it. */
function polygonsOfFeature(feature, place) {
    try {
        return polygonsOf(feature);
    } catch (error) {
        throw error instanceof GeoJsonError ? new GeoJsonError(`feature ${place}: ${error.message}`, place) : error;
    }
}

/** Returns the polygons of each feature of a collection, or those of another object alone. */
function featuresOf(object) {
    if (object?.type !== "FeatureCollection") return [polygonsOf(object)];
    return listOf("features", object.features).map(polygonsOfFeature);
}

/** Returns the whole number next to a number; of two that are as near the even one. */
function rounded(number) {
    const above = Math.round(number);
    return above - number === 0.5 && above % 2 !== 0 ? above - 1 : above;
}

/** How many steps make 1, where they are a whole number: 3 / 10 is the number that is written 0.3, and 3 * 0.1 isn't. */
function stepsToOne(call, step) {
    if (step === undefined) throw new TypeError(`${call} has no step: name one in the unit of the coordinates, as { step: 1e-7 } of degrees or { step: 0.001 } of metres`);
    if (!(Number.isFinite(step) && step > 0)) throw new RangeError(`the step is ${String(step)}, and no number above 0`);
    const whole = Math.round(1 / step);
    return 1 / whole === step ? whole : undefined;
}

function offsetsOf(lists) {
    const offsets = new Uint32Array(lists.length + 1);
    lists.forEach(({ length }, k) => (offsets[k + 1] = offsets[k] + length));
    return offsets;
}

/** The index of the feature that has a ring. */
function featureOf(features, ring) {
    let before = 0;
    return features.findIndex((polygons) => (before += polygons.flat().length) > ring);
}

/** The error for a position that is so many steps from 0 on an axis. */
function unsafePosition(position, steps, step, { bits }, place, ring, feature) {
    return new UnsafePointError(`${feature === undefined ? "" : `feature ${feature}, `}ring ${ring}: point ${place} is (${position.join(", ")}), `
        + `${steps} steps of ${step}, and not strictly between -2**${bits - 2} and 2**${bits - 2}`, place, ring, feature);
}

/** The polygons of features on a grid, of which `parts` steps make 1. `isCollection` is whether an error names the feature. */
function onGrid(features, isCollection, step, parts, Points) {
    const kind = kindOf(new Points(0));
    const polygons = features.flat();
    const rings = polygons.flat();
    const ringOffsets = offsetsOf(rings);
    const points = new Points(2 * ringOffsets.at(-1));
    const asItem = kind.bits === 64 ? BigInt : Number;
    rings.forEach((ring, k) => ring.forEach((position, place) => {
        const point = ringOffsets[k] + place;
        for (const axis of [0, 1]) {
            const steps = rounded(parts ? position[axis] * parts : position[axis] / step);
            if (!isInSafeRange(steps, kind)) throw unsafePosition(position, steps, step, kind, point, k, isCollection ? featureOf(features, k) : undefined);
            points[2 * point + axis] = asItem(steps);
        }
    }));
    return { points, ringOffsets, polygonOffsets: offsetsOf(polygons) };
}

export function fromGeoJson(object, options = {}) {
    const { step, Points = Int32Array } = checkedOptions("fromGeoJson", options, ["step", "Points"]);
    const parts = stepsToOne("fromGeoJson", step);
    return onGrid(featuresOf(object), object?.type === "FeatureCollection", step, parts, Points);
}

/** The positions of ring k, closed. */
function closedRing(points, ringOffsets, k, coordinate) {
    const ring = Array.from({ length: ringOffsets[k + 1] - ringOffsets[k] }, (_, place) => {
        const point = ringOffsets[k] + place;
        return [coordinate(points[2 * point]), coordinate(points[2 * point + 1])];
    });
    return ring.length ? [...ring, [...ring[0]]] : ring;
}

/** Returns the coordinates of each polygon, of grid points that lie a step apart, of which `parts` make 1. */
function coordinatesOf({ points, ringOffsets, polygonOffsets }, step, parts) {
    const coordinate = (steps) => {
        const number = parts ? Number(steps) / parts : Number(steps) * step;
        if (!Number.isFinite(number)) throw new RangeError(`${steps} steps of ${step} are no finite number`);
        return number;
    };
    return Array.from({ length: polygonOffsets.length - 1 }, (_, k) =>
        Array.from({ length: polygonOffsets[k + 1] - polygonOffsets[k] }, (_, place) => closedRing(points, ringOffsets, polygonOffsets[k] + place, coordinate)));
}

export function toGeoJson({ points, ringOffsets, polygonOffsets }, options = {}) {
    const { step } = checkedOptions("toGeoJson", options, ["step"]);
    const parts = stepsToOne("toGeoJson", step);
    kindOf(points);
    const rings = asDividing(ringOffsets, lengthOf(points) / 2, "ringOffsets");
    const polygons = asDividing(polygonOffsets, rings.length - 1, "polygonOffsets");
    return { type: "MultiPolygon", coordinates: coordinatesOf({ points, ringOffsets: rings, polygonOffsets: polygons }, step, parts) };
}

/** What is left of the polygons, without holes and polygons that collapse: nothing of one is undefined. */
function leftOf(polygons) {
    return polygons.map((rings) => (rings[0]?.length === 0 ? undefined : rings.filter((ring) => ring.length)));
}

/** A feature or a geometry with other coordinates, and its other members except `bbox`. `next` returns what is left of its polygons, one after another. */
function withCoordinates({ bbox, ...object }, next) {
    if (object.type === "Feature") return { ...object, geometry: object.geometry === null ? null : withCoordinates(object.geometry, next) };
    if (object.type === "GeometryCollection") return { ...object, geometries: object.geometries.map((geometry) => withCoordinates(geometry, next)) };
    if (object.type === "Polygon") return { ...object, coordinates: next() ?? [] };
    return { ...object, coordinates: object.coordinates.map(next).filter((polygon) => polygon) };
}

/** Throws if a feature that had points has none. `isCollection` is whether the error names the feature. */
function checkCollapsed(before, after, isCollection) {
    const isFull = (polygons) => polygons.some((rings) => rings?.some((ring) => ring.length));
    const collapsed = [...before.keys()].filter((k) => isFull(before[k]) && !isFull(after[k]));
    if (!collapsed.length) return;
    const others = collapsed.length > 1 ? `, nor of ${collapsed.length - 1} more of ${before.length} features` : "";
    const what = isCollection ? `feature ${collapsed[0]}: nothing is left of it${others}` : "nothing is left of it";
    throw new CollapsedError(`${what}; is the step in the unit of the coordinates? To allow this, use { collapsed: "empty" }`,
        isCollection ? collapsed[0] : undefined, collapsed.length);
}

/** The polygons on a grid of 32 bits, or of 64 if that has no room. */
function onEitherGrid(...given) {
    try {
        return onGrid(...given, Int32Array);
    } catch (error) {
        if (!(error instanceof UnsafePointError)) throw error;
        return onGrid(...given, BigInt64Array);
    }
}

export function cleanedFeatures(shapes, object, options) {
    const { step, call, collapsed = "raise" } = checkedOptions("cleanFeatures", options, ["step", "call", "collapsed"]);
    const parts = stepsToOne("cleanFeatures", step);
    if (!(call in RING_CALLS)) throw new RangeError(`the call is ${String(call)}, and none of ${Object.keys(RING_CALLS).join(", ")}`);
    if (!["raise", "empty"].includes(collapsed)) throw new RangeError(`collapsed is ${String(collapsed)}, and neither raise nor empty`);
    const isCollection = object?.type === "FeatureCollection";
    const before = featuresOf(object);
    const { points, ringOffsets, polygonOffsets } = onEitherGrid(before, isCollection, step, parts);
    const rings = shapes[RING_CALLS[call]](points, ringOffsets);
    const left = leftOf(coordinatesOf({ points: rings.points, ringOffsets: rings.offsets, polygonOffsets }, step, parts));
    const places = offsetsOf(before);
    if (collapsed === "raise") checkCollapsed(before, before.map((_, k) => left.slice(places[k], places[k + 1])), isCollection);
    let place = 0;
    const cleaned = (feature) => withCoordinates(feature, () => left[place++]);
    if (!isCollection) return cleaned(object);
    const { bbox, ...others } = object;
    return { ...others, features: object.features.map(cleaned) };
}

/** The features of an object, their polygons on a grid, and where those of each feature begin. */
function griddedFeatures(call, object, step) {
    const parts = stepsToOne(call, step);
    const features = featuresOf(object);
    return { features, ...onEitherGrid(features, object?.type === "FeatureCollection", step, parts), places: offsetsOf(features) };
}

export function keysOfFeatures(shapes, object, options) {
    const { step, oriented = false } = checkedOptions("featureKeys", options, ["step", "oriented"]);
    const { features, points, ringOffsets, polygonOffsets, places } = griddedFeatures("featureKeys", object, step);
    const keys = shapes.canonicalKeys(points, ringOffsets, polygonOffsets, { oriented });
    // Polygons without rings don't count, nor those that collapse.
    return features.map((polygons, k) => keys.slice(places[k], places[k + 1]).filter((key, place) => key && polygons[place].length).sort().join("|"));
}

/** The fault of a polygon of a feature, with rings counted within the polygon and edges within their ring. `starts` are where the polygon's rings begin. */
function placedFault({ kind, ring, other, first, second }, polygon, firstRing, starts) {
    if (first !== undefined) {
        const rings = [first, second].map((point) => starts.findLastIndex((start) => start <= point));
        return { kind, polygon, ring: rings[0], other: rings[1], edges: [first - starts[rings[0]], second - starts[rings[1]]] };
    }
    return { kind, polygon, ring: ring - firstRing, ...(kind === "holeWithin" && { other: other - firstRing }) };
}

export function faultsOfFeatures(shapes, object, options) {
    const { step, touching = false } = checkedOptions("explainValidity", options, ["step", "touching"]);
    const { features, points, ringOffsets, polygonOffsets, places } = griddedFeatures("explainValidity", object, step);
    const faults = shapes.polygonValidity(points, ringOffsets, polygonOffsets, { touching });
    return features.map((_, k) => {
        const polygon = faults.slice(places[k], places[k + 1]).findIndex(({ kind }) => kind !== "valid");
        if (polygon < 0) return { kind: "valid" };
        const place = places[k] + polygon;
        return placedFault(faults[place], polygon, polygonOffsets[place], ringOffsets.subarray(polygonOffsets[place], polygonOffsets[place + 1]));
    });
}

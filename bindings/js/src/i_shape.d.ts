/** `Response` and `WebAssembly` are declared in the `lib` dom. */

/** An array of points x0, y0, x1, y1, .. */
export type Points = Int16Array | Int32Array | BigInt64Array;

/** A coordinate of such points. */
export type Coordinate<P extends Points> = P extends BigInt64Array ? bigint : number;

/** The type of an answer's points: of the width of those that are given, and of no class below it. */
export type Plain<P extends Points> = P extends BigInt64Array ? BigInt64Array : P extends Int32Array ? Int32Array : Int16Array;

/** Integers from 0 on, in ascending order, repeats allowed. */
export type Offsets = ArrayLike<number> | ArrayLike<bigint>;

/** Rings end to end: ring k is the points from `offsets[k]` to before `offsets[k + 1]`. */
export interface Rings<P extends Points> {
    points: Plain<P>;
    offsets: Uint32Array;
}

/** Polygons: polygon j has the rings from `polygonOffsets[j]` to before `polygonOffsets[j + 1]`, the outer one first. */
export interface Polygons<P extends Points> {
    points: Plain<P>;
    ringOffsets: Uint32Array;
    polygonOffsets: Uint32Array;
}

/** The same as it is given to a call. */
export interface GivenPolygons {
    points: Points;
    ringOffsets: Offsets;
    polygonOffsets: Offsets;
}

/** Which polygons and rings are left, as indices: polygon `polygons[j]` has of its rings those from `rings[offsets[j]]` to before `rings[offsets[j + 1]]`. */
export interface Indices {
    polygons: Uint32Array;
    rings: Uint32Array;
    offsets: Uint32Array;
}

/** A fill rule: which winding numbers are filled: odd ones, all but 0, positive ones, or negative ones. */
export type FillRule = "evenodd" | "nonzero" | "positive" | "negative";

/** The fill rules. */
export const FILL_RULES: readonly ["evenodd", "nonzero", "positive", "negative"];

/** What the calls throw; `code` is that of the C library. */
export class IShapeError extends Error {
    readonly code: -1 | -2 | -3;
}

/** A coordinate isn't strictly between -2^(W-2) and 2^(W-2), at W bits. */
export class UnsafePointError extends IShapeError {
    /** The place of the first such point in `points`; undefined for a point that a call is asked about. */
    readonly point: number | undefined;
    /** Its ring; undefined for a call on one contour, and for a point that a call is asked about. */
    readonly ring: number | undefined;
    /** The feature that has it, in a `FeatureCollection`. */
    readonly feature: number | undefined;
}

/** There is no offset, or one is below 0, below the one before it, or above the number of points or rings. */
export class OffsetsError extends IShapeError {
    /** The place of the first such offset, or of the first below 0 or above 2^53 - 1, if there is one; undefined if there is no offset. */
    readonly place: number | undefined;
}

/** An allocation in the module's memory failed. */
export class OutOfMemoryError extends IShapeError {}

/** An object isn't GeoJSON, or has geometries that aren't polygons. */
export class GeoJsonError extends TypeError {
    /** The index of the feature, in a `FeatureCollection`. */
    readonly feature: number | undefined;
}

/** Nothing is left of a feature that had points. */
export class CollapsedError extends RangeError {
    /** The index of the first such feature, in a `FeatureCollection`. */
    readonly feature: number | undefined;
    /** How many there are. */
    readonly count: number;
}

/** Where a module comes from: its URL, the result of `fetch`, its bytes, or the compiled module. */
export type Source = URL | Response | BufferSource | WebAssembly.Module;

/** Instantiates the library: by default from the module in the package. A fault names the URL, where there is one. */
export function load(source?: Source | PromiseLike<Source>): Promise<IShape>;

/** A grid of whole numbers among the numbers of GeoJSON: k stands for k * step. `Points` is an `Int32Array` by default. */
export interface GeoJsonOptions<P extends Points> {
    /** In the unit of the coordinates: 1e-7 of degrees, 0.001 of metres. */
    step: number;
    Points?: new (length: number) => P;
}

/**
 * The polygons of a `Polygon`, a `MultiPolygon`, or a `Feature` or a collection of these, each coordinate as the number of steps that is nearest to it, of two
 * the even one. The point that closes a ring, heights and properties are left out: `cleanFeatures` keeps properties.
 * @throws {UnsafePointError} a coordinate has too many steps for the safe range
 * @throws {GeoJsonError} it is something else
 * @throws {TypeError} there is no step, or an option of another name
 */
export function fromGeoJson<P extends Points = Int32Array>(object: object, options: GeoJsonOptions<P>): Polygons<P>;

/**
 * The polygons as a `MultiPolygon`, each ring closed.
 * @throws {OffsetsError}
 * @throws {TypeError} there is no step, or an option of another name
 * @throws {RangeError} a coordinate becomes no finite number
 */
export function toGeoJson(polygons: GivenPolygons, options: { step: number }): { type: "MultiPolygon"; coordinates: number[][][][] };

/** How `cleanFeatures` cleans. */
export interface CleanOptions {
    /** Of the grid, in the unit of the coordinates: 1e-7 of degrees, 0.001 of metres. */
    step: number;
    /** What is done with each ring. Of parcels, `despike` keeps the vertices that neighbours share. */
    call: "simplify" | "despike";
    /** What becomes of a feature of which nothing is left: an error, the default, or empty coordinates. */
    collapsed?: "raise" | "empty";
}

/** Two edges that are in contact, each by the place of the point from which it leads, `first` before `second`. */
export interface Contact {
    first: number;
    second: number;
}

/** How two edges meet. Paths may also cross at a vertex, where each edge of one only touches those of the other. */
export type ContactKind =
    /** They share no point. */
    | "none"
    /** The ends of each lie on both sides of the line of the other, none on it. */
    | "crossing"
    /** They share one point, and don't cross. So does an edge with the one that follows it, which isn't in contact with it. */
    | "touch"
    /** They share more than one point. */
    | "overlap";

/**
 * The first fault of a polygon, or `"valid"`. Rings and points are named by their places in all offsets and points that the call is given. A ring has
 * too few points if it has fewer than three, or only equal ones. Faults are looked for in this order.
 */
export type Validity =
    | { kind: "valid" }
    | { kind: "tooFewPoints"; ring: number }
    /** Two edges are in contact, each by the place of the point from which it leads; where rings may touch, edges that are of one ring, cross or overlap. */
    | ({ kind: "contact" } & Contact)
    /** A vertex of the hole `ring` is outside the outer ring; where rings may touch, any point of its edges. */
    | { kind: "holeOutside"; ring: number }
    /** A vertex of the hole `ring` is within another hole, `other`; where rings may touch, any point of its edges. */
    | { kind: "holeWithin"; ring: number; other: number }
    /** Only where rings may touch: two edges touch, and close a circle of rings that touch at other points too, which parts the inside. */
    | ({ kind: "disconnected" } & Contact);

/**
 * The first fault of a feature, or `"valid"`: that of the first of its polygons that has one. `polygon` counts within the feature, `ring` and `other` within the
 * polygon. Of two edges, `ring` and `other` have the two `edges`, each by the index in its ring of the position from which it leads.
 */
export type FeatureValidity =
    | { kind: "valid" }
    | { kind: "tooFewPoints" | "holeOutside"; polygon: number; ring: number }
    | { kind: "contact" | "disconnected"; polygon: number; ring: number; other: number; edges: [number, number] }
    /** The hole `ring` is within the hole `other`. */
    | { kind: "holeWithin"; polygon: number; ring: number; other: number };

/**
 * The calls. Each serves by itself too, as in `const { simplify } = await load()`. A contour is read as a cycle: the last point isn't the first one again. No
 * call changes what it is given, and each array of an answer is a new one. A call throws a `TypeError` where an array or a number is of another type or
 * a number isn't whole, a `RangeError` where points have an x without a y or there is no such fill rule, an `OutOfMemoryError` where an allocation in the
 * module's memory fails, an `OffsetsError` where offsets don't divide the points or the rings, and an `UnsafePointError` where
 * a point that it reads isn't safe; `isSafe`, `isSafeRings`, `areaTwo`, `areaTwoRings` and `areaTwoPolygons` take any points.
 */
export interface IShape {
    /** `major.minor.patch`. */
    readonly version: string;

    /** The bytes of the module's memory. It grows with the greatest call, and never shrinks. */
    readonly memoryBytes: number;

    /** The bytes of it that a call has taken: 0 between two calls. */
    readonly heldBytes: number;

    /**
     * The contour without collinear vertices, repeated points and spikes; an empty array if it collapses.
     * @throws {UnsafePointError} a point isn't safe
     * @throws {OutOfMemoryError}
     */
    simplify<P extends Points>(contour: P): Plain<P>;

    /** The contour without repeated points and spikes. Otherwise as `simplify`. */
    despike<P extends Points>(contour: P): Plain<P>;

    /** The least rotation of the simplified contour. Otherwise as `simplify`. */
    canonical<P extends Points>(contour: P): Plain<P>;

    /** The lesser of the canonical forms of the contour and of the contour read backwards. Else as `simplify`. */
    canonicalUnoriented<P extends Points>(contour: P): Plain<P>;

    /** Whether there are at least three points, and no zero turn: `simplify` has nothing to remove then. */
    isSimple(contour: Points): boolean;

    /** Whether there are at least three points, not counting repeated ones, and the contour nowhere turns back. */
    hasNoSpikes(contour: Points): boolean;

    /** Whether at most two points are left without repeated ones, or the way over them nowhere turns back or bends to both sides. */
    isConvex(contour: Points): boolean;

    /**
     * Whether there are at least three points, not all equal, and no two edges are in contact: the contour is the boundary of a simple polygon. Points at which
     * it goes straight on are allowed, unlike by `isSimple`.
     */
    isSimplePolygon(contour: Points): boolean;

    /**
     * The first two edges that share a point other than one at which one of them follows the other, that is, cross, touch or overlap: of the first edge that is
     * in contact with a later one, and the first such one. Undefined if there are none.
     */
    firstContact(contour: Points): Contact | undefined;

    /**
     * The same of all rings together, within one or between two. The places are those in `points`.
     * @throws {OffsetsError} tested before whether points are safe
     */
    firstContactOfRings(points: Points, offsets: Offsets): Contact | undefined;

    /**
     * All pairs of edges that are in contact, by `first`, and those of one `first` by `second`. Each pair of edges may be in contact: where the engine has no
     * memory for so many objects, it ends the program.
     * @throws {UnsafePointError}
     * @throws {OutOfMemoryError}
     */
    contacts(contour: Points): Contact[];

    /**
     * The same of all rings together, within one or between two. The places are those in `points`.
     * @throws {OffsetsError} tested before whether points are safe
     * @throws {UnsafePointError}
     * @throws {OutOfMemoryError}
     */
    contactsOfRings(points: Points, offsets: Offsets): Contact[];

    /**
     * Of each pair of edges how they meet. `contacts` are what `contactsOfRings` returns, or other pairs of places in `points`; of one contour the offsets are
     * `[0, points.length / 2]`.
     * @throws {OffsetsError}
     * @throws {RangeError} no ring has a point at such a place
     * @throws {UnsafePointError} an end of these edges isn't safe
     * @throws {OutOfMemoryError}
     */
    kindsOfContacts(points: Points, offsets: Offsets, contacts: readonly Contact[]): ContactKind[];

    /**
     * Of each polygon whether it is valid, or its first fault. It is valid if each ring has enough points, no two edges are in contact, each vertex of each hole is
     * inside the outer ring, and none is inside another hole. Rings that touch at one point are in contact, unlike by the rules of JSTS and PostGIS. Different
     * polygons aren't compared. With `touching` two rings may touch at single points, unless that parts the inside: valid are the polygons that are so by OGC's
     * rules, but for repeated points, which stay faults.
     * @throws {OffsetsError} tested before whether points are safe
     * @throws {UnsafePointError} of rings that no polygon has, too
     * @throws {OutOfMemoryError} with `touching` also where there is no room for the contacts of a polygon
     * @throws {TypeError} there is an option of another name
     */
    polygonValidity(points: Points, ringOffsets: Offsets, polygonOffsets: Offsets, options?: { touching?: boolean }): Validity[];

    /** Whether each point is safe, as all calls but `isSafe`, `isSafeRings`, `areaTwo`, `areaTwoRings` and `areaTwoPolygons` ask. */
    isSafe(points: Points): boolean;

    /** Whether the fill rule, by default "evenodd", fills (x, y), by how often the contour winds about it. Of points on an edge some are filled and others aren't. */
    contains<P extends Points>(contour: P, x: Coordinate<P>, y: Coordinate<P>, rule?: FillRule): boolean;

    /** The winding number of the contour around (x, y), counterclockwise as positive. */
    windingNumber<P extends Points>(contour: P, x: Coordinate<P>, y: Coordinate<P>): number;

    /** How often all rings together wind about each of the points `about`, of the type of `points`. */
    windingNumbers<P extends Points>(points: P, offsets: Offsets, about: Plain<P>): Int32Array;

    /** Whether the fill rule, by default "evenodd", fills each of the points `about`. Of points on an edge some are filled and others aren't. */
    containsPoints<P extends Points>(points: P, offsets: Offsets, about: Plain<P>, rule?: FillRule): boolean[];

    /**
     * Where each of the points `about` lies: 0 on an edge of a ring, its ends included, and elsewhere 1 where the fill rule, by default "evenodd", fills
     * the point, and -1 where it doesn't.
     */
    locate<P extends Points>(points: P, offsets: Offsets, about: Plain<P>, rule?: FillRule): Int8Array;

    /**
     * Of each of the points `about` the index of the first polygon that holds it, and -1 where none does: the fill rule, by default "evenodd", fills it by how often
     * the rings of that polygon together wind about it. Of points on an edge some are held: where polygons tile an area, one of them holds each point within it.
     * @throws {OffsetsError} tested before whether points are safe
     * @throws {UnsafePointError} of rings that no polygon has, too
     * @throws {OutOfMemoryError}
     */
    locateInPolygons<P extends Points>(points: P, ringOffsets: Offsets, polygonOffsets: Offsets, about: Plain<P>, rule?: FillRule): Int32Array;

    /**
     * Twice the signed area, positive for a counterclockwise contour; undefined for no points. Any coordinates are
     * allowed: a sum that doesn't fit twice the bits of a coordinate wraps.
     */
    areaTwo(contour: Points): bigint | undefined;

    /**
     * Of each ring what `isSimple` returns. Points outside the offsets needn't be safe.
     * @throws {OffsetsError} tested before whether points are safe
     * @throws {UnsafePointError}
     * @throws {OutOfMemoryError}
     */
    isSimpleRings(points: Points, offsets: Offsets): boolean[];

    hasNoSpikesRings(points: Points, offsets: Offsets): boolean[];

    isConvexRings(points: Points, offsets: Offsets): boolean[];

    /** Of each ring what `isSimplePolygon` returns. */
    areSimplePolygons(points: Points, offsets: Offsets): boolean[];

    /** Of each ring what `isSafe` returns. */
    isSafeRings(points: Points, offsets: Offsets): boolean[];

    /** Of each ring what `areaTwo` returns, and 0 where it has no point. */
    areaTwoRings(points: Points, offsets: Offsets): bigint[];

    /**
     * Each ring as `simplify` leaves it; one that collapses is empty, and keeps its place. Points outside the offsets needn't be
     * safe.
     * @throws {OffsetsError} tested before whether points are safe
     * @throws {UnsafePointError}
     * @throws {OutOfMemoryError}
     */
    simplifyRings<P extends Points>(points: P, offsets: Offsets): Rings<P>;

    despikeRings<P extends Points>(points: P, offsets: Offsets): Rings<P>;

    canonicalRings<P extends Points>(points: P, offsets: Offsets): Rings<P>;

    canonicalUnorientedRings<P extends Points>(points: P, offsets: Offsets): Rings<P>;

    /**
     * A key of each ring, or of each polygon where there are `polygonOffsets`: two are equal exactly where the unoriented forms are, or with `oriented: true`
     * the canonical ones, which read no ring backwards, for points of any of the types. It is empty where the ring, or the outer ring of the polygon,
     * collapses. Other versions may make other keys.
     */
    canonicalKeys(points: Points, ringOffsets: Offsets, polygonOffsets?: Offsets, options?: { oriented?: boolean }): string[];

    /** For each ring of `a` the least number of a ring of `b` that has the same key, and -1 where none has, or where the ring collapses. */
    sameRings(a: { points: Points; offsets: Offsets }, b: { points: Points; offsets: Offsets }, options?: { oriented?: boolean }): Int32Array;

    /** Whether two lists of polygons have equal unoriented forms, or with `oriented: true` equal canonical ones. */
    samePolygons(a: GivenPolygons, b: GivenPolygons, options?: { oriented?: boolean }): boolean;

    /**
     * Which polygons and rings are left after a call such as `simplifyRings`, which leaves rings that collapse empty: a polygon is left if its outer ring has
     * points, or if it has no rings, and a ring of it if it has points. `offsets` are those of that call.
     * @throws {OffsetsError}
     */
    compactPolygons(offsets: Offsets, polygonOffsets: Offsets): Indices;

    /**
     * A `FeatureCollection`, a `Feature`, or a `Polygon`, a `MultiPolygon` or a collection of these, with each ring rounded onto a grid and cleaned. Holes that
     * collapse are left out, and polygons whose outer ring does. Features keep their order, `properties`, `id` and other members except `bbox`; a geometry
     * that is null stays. Heights are left out.
     * @throws {GeoJsonError} it is something else
     * @throws {CollapsedError} nothing is left of a feature that had points, unless `collapsed` is "empty"
     * @throws {UnsafePointError} a coordinate has too many steps for the safe range of 64 bits
     * @throws {TypeError} there is no step, or an option of another name
     * @throws {RangeError} there is no such call, or a coordinate becomes no finite number
     */
    cleanFeatures<T extends object>(object: T, options: CleanOptions): T;

    /**
     * A key of each feature of a `FeatureCollection`, rounded onto a grid, or of another object alone: two are equal exactly where the features have the same polygons,
     * in whichever order, by the keys that `canonicalKeys` returns of these. It is empty where nothing is left. Other versions may make other keys.
     * @throws {GeoJsonError} it isn't polygons
     * @throws {UnsafePointError} a coordinate has too many steps for the safe range of 64 bits
     * @throws {TypeError} there is no step, or an option of another name
     */
    featureKeys(object: object, options: { step: number; oriented?: boolean }): string[];

    /** Of each such feature what `polygonValidity` finds first, with its option. It throws as `featureKeys` does. */
    explainValidity(object: object, options: { step: number; touching?: boolean }): FeatureValidity[];

    /** The sum of what `areaTwo` returns of the rings of each polygon, which wraps as it does: a hole counts against an outer ring that turns the other way. */
    areaTwoPolygons(points: Points, ringOffsets: Offsets, polygonOffsets: Offsets): bigint[];

    /**
     * The polygons with each ring as `simplify` leaves it, without holes that collapse and without polygons whose outer ring
     * does. A polygon without rings stays.
     * @throws {OffsetsError} tested before whether points are safe
     * @throws {UnsafePointError} of rings that no polygon has, too
     * @throws {OutOfMemoryError}
     */
    simplifyPolygons<P extends Points>(points: P, ringOffsets: Offsets, polygonOffsets: Offsets): Polygons<P>;

    /** The same with each ring as `despike` leaves it, but a ring without spikes as it is, with its repeated points. */
    removeSpikes<P extends Points>(points: P, ringOffsets: Offsets, polygonOffsets: Offsets): Polygons<P>;

    /** @deprecated Its name is `removeSpikes`. */
    despikePolygons<P extends Points>(points: P, ringOffsets: Offsets, polygonOffsets: Offsets): Polygons<P>;

    /** The canonical form: rings canonical, holes and polygons sorted, so that two lists of the same polygons have equal results. */
    canonicalPolygons<P extends Points>(points: P, ringOffsets: Offsets, polygonOffsets: Offsets): Polygons<P>;

    /** The same where a ring may be read backwards too. */
    canonicalUnorientedPolygons<P extends Points>(points: P, ringOffsets: Offsets, polygonOffsets: Offsets): Polygons<P>;
}

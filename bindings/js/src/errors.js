/** What the library's calls throw. */

/** What a code of the C library stands for: the call has returned nothing. */
export class IShapeError extends Error {
    /** @param {number} code */
    constructor(code, message) {
        super(message);
        this.name = new.target.name;
        this.code = code;
    }
}

/** A point that the call reads is not safe. */
export class UnsafePointError extends IShapeError {
    /**
     * @param {number} [point] its place in the points; undefined for a point that the call is asked about
     * @param {number} [ring] the ring that has it; undefined for a call on one contour, and for a point that the call is asked about
     * @param {number} [feature] the feature of a collection that has it
     */
    constructor(message, point, ring, feature) {
        super(-1, message);
        this.point = point;
        this.ring = ring;
        this.feature = feature;
    }
}

/** The offsets do not divide the points, or the rings. */
export class OffsetsError extends IShapeError {
    /** @param {number} [place] that of an offset, as i_shape.d.ts says; undefined if there is none */
    constructor(message, place) {
        super(-2, message);
        this.place = place;
    }
}

/** An allocation in the module's memory failed. */
export class OutOfMemoryError extends IShapeError {
    constructor() {
        super(-3, "out of memory");
    }
}

/** An object isn't GeoJSON, or has geometries that aren't polygons. */
export class GeoJsonError extends TypeError {
    /** @param {number} [feature] the index of the feature, in a collection */
    constructor(message, feature) {
        super(message);
        this.name = new.target.name;
        this.feature = feature;
    }
}

/** Nothing is left of a feature that had points. */
export class CollapsedError extends RangeError {
    /**
     * @param {number} [feature] the index of the first such feature, in a collection
     * @param {number} count how many there are
     */
    constructor(message, feature, count) {
        super(message);
        this.name = new.target.name;
        this.feature = feature;
        this.count = count;
    }
}

/**
 * Contours of whole-number points, cleaned and measured by the calls of i_shape, compiled to WebAssembly from proved source.
 * i_shape.d.ts says what each call takes, returns and throws.
 */
import { asOffsets, checkCoordinate, isInSafeRange, kindOf, lengthOf, offsetsFault } from "./arrays.js";
import { contactsOf, edgesOf, kindsOf } from "./contacts.js";
import { CollapsedError, GeoJsonError, IShapeError, OffsetsError, OutOfMemoryError, UnsafePointError } from "./errors.js";
import { faultsOf } from "./faults.js";
import { cleanedFeatures, faultsOfFeatures, fromGeoJson, keysOfFeatures, toGeoJson } from "./geojson.js";
import { compiled } from "./loading.js";
import { MOST, borrow } from "./memory.js";
import { checkedOptions } from "./options.js";

export { CollapsedError, GeoJsonError, IShapeError, OffsetsError, OutOfMemoryError, UnsafePointError, fromGeoJson, toGeoJson };

// The codes of include/i_shape.h.
const UNSAFE = -1;
const BAD_OFFSETS = -2;
const NO_WINDING = -(2 ** 31);

// Each at the place of its code.
export const FILL_RULES = Object.freeze(["evenodd", "nonzero", "positive", "negative"]);

/** The module of the package. A bundler that doesn't pack it says nothing, so the error does. */
async function compiledOwn() {
    try {
        return await compiled(new URL("../out/i_shape32.wasm", import.meta.url));
    } catch (error) {
        throw new Error(`${error.message}: a bundler may have left the module out, and the README of i_shape shows how to name it`, { cause: error.cause });
    }
}

export async function load(source) {
    const { exports } = await WebAssembly.instantiate(await (source === undefined ? compiledOwn() : compiled(source)));
    if (!exports.i_shape_version) throw new TypeError("the module isn't that of i_shape");
    return new IShape(exports);
}

/** What a call is given, copied into the module's memory: points, and the offsets of rings and of polygons. */
class Given {
    constructor(loan, points, kind, ...offsets) {
        this.points = points;
        this.kind = kind;
        this.offsets = offsets;
        // read once: an array over a buffer that another thread makes longer gets longer too
        this.length = lengthOf(points);
        this.address = loan.copy(points, kind, this.length);
        this.offsetAddresses = offsets.map((each) => loan.copyOffsets(each));
    }

    /** How many points there are. */
    get count() {
        return this.length / 2;
    }

    /** How many bytes the points take. */
    get bytes() {
        return this.length * this.kind.Points.BYTES_PER_ELEMENT;
    }

    /** For each array its address, and how many items it has. */
    get words() {
        return [this.address, this.count, ...this.offsets.flatMap((each, k) => [this.offsetAddresses[k], each.length])];
    }

    /** The words of the points and of the rings, for a call that takes no polygons. */
    get ringWords() {
        return this.words.slice(0, 4);
    }
}

function outside({ bits }) {
    return `and not strictly between -2**${bits - 2} and 2**${bits - 2}, the safe range of ${bits} bits`;
}

/** Throws where a point that a call is asked about isn't one of the contour's type, or isn't safe. */
function checkAsked(x, y, kind) {
    checkCoordinate(x, kind);
    checkCoordinate(y, kind);
    if (!isInSafeRange(x, kind) || !isInSafeRange(y, kind)) {
        throw new UnsafePointError(`the point asked about is (${x}, ${y}), ${outside(kind)}`);
    }
}

/** The code of a fill rule. */
function codeOf(rule) {
    const code = FILL_RULES.indexOf(rule);
    if (code < 0) throw new RangeError(`the fill rule is ${String(rule)}, and none of ${FILL_RULES.join(", ")}`);
    return code;
}

/** The bytes at an address, 1 or 0 each, as many as there are, as booleans. */
function readBooleans(loan, address, count) {
    return Array.from(loan.read(Uint8Array, address, count), (byte) => byte === 1);
}

/** The numbers of 32 bits at an address, as many as there are. */
function readInts(loan, address, count) {
    return loan.read(Int32Array, address, count);
}

/** The areas at an address, as many as there are. */
function readAreas(loan, address, count, { bits }) {
    if (bits === 16) return Array.from(loan.read(Int32Array, address, count), BigInt);
    if (bits === 32) return Array.from(loan.read(BigInt64Array, address, count));
    const halves = loan.read(BigUint64Array, address, 2 * count);
    return Array.from({ length: count }, (_, k) => BigInt.asIntN(128, (halves[2 * k + 1] << 64n) | halves[2 * k]));
}

/** Offsets of 32 bits that are in the order of these: a call that is given no points asks for no more. Behind the first that isn't in order they may be any. */
function ranksOf(offsets) {
    let rank = 1;
    return offsets.map((offset, k) => (rank += Math.sign(offset - (offsets[k - 1] ?? offset))));
}

/** Divides the items of the rings among the polygons. */
function cut(items, polygons) {
    return Array.from(polygons.subarray(1), (end, k) => items.slice(polygons[k], end));
}

/** The key of a polygon by those of the rings of its form, of which the outer one comes first. */
function keyOfPolygon(keys) {
    return keys[0] === "" ? "" : `${keys.filter((key) => key !== "").join(";")};`;
}

class IShape {
    #exports;

    constructor(exports) {
        this.#exports = exports;
        // So that a call serves by itself, as in `const { simplify } = await load()`.
        for (const [name, { value }] of Object.entries(Object.getOwnPropertyDescriptors(IShape.prototype))) {
            if (value && name !== "constructor") Object.defineProperty(this, name, { value: value.bind(this), configurable: true, writable: true });
        }
    }

    get version() {
        const number = this.#exports.i_shape_version();
        return `${number >> 16}.${(number >> 8) & 255}.${number & 255}`;
    }

    get memoryBytes() {
        return this.#exports.memory.buffer.byteLength;
    }

    get heldBytes() {
        return this.#exports.i_shape_held() >>> 0;
    }

    simplify(contour) {
        return this.#clean("simplify", contour);
    }

    despike(contour) {
        return this.#clean("despike", contour);
    }

    canonical(contour) {
        return this.#clean("canonical", contour);
    }

    canonicalUnoriented(contour) {
        return this.#clean("canonical_unoriented", contour);
    }

    isSimple(contour) {
        return this.#test("is_simple", contour);
    }

    hasNoSpikes(contour) {
        return this.#test("has_no_spikes", contour);
    }

    isConvex(contour) {
        return this.#test("is_convex", contour);
    }

    isSimplePolygon(contour) {
        return this.#test("is_simple_polygon", contour);
    }

    isSafe(points) {
        return this.#test("is_safe", points);
    }

    firstContact(contour) {
        return this.#findContact("first_contact", contour);
    }

    firstContactOfRings(points, offsets) {
        return this.#findContact("first_contact_of_rings", points, asOffsets(offsets));
    }

    contacts(contour) {
        return this.#listContacts("contacts", contour);
    }

    contactsOfRings(points, offsets) {
        return this.#listContacts("contacts_of_rings", points, asOffsets(offsets));
    }

    kindsOfContacts(points, offsets, contacts) {
        const kind = kindOf(points);
        const rings = asOffsets(offsets);
        return borrow(this.#exports, (loan) => {
            const given = new Given(loan, points, kind, rings);
            this.#checkOffsets(given);
            const ends = edgesOf(points, kind, rings, contacts);
            const count = ends.length / 8;
            const out = loan.take(count);
            this.#answered(this.#call("kinds_of_contacts", kind)(...new Given(loan, ends, kind).words, out, count), given);
            return kindsOf(loan.read(Uint8Array, out, count));
        });
    }

    polygonValidity(points, ringOffsets, polygonOffsets, options = {}) {
        const { touching = false } = checkedOptions("polygonValidity", options, ["touching"]);
        const kind = kindOf(points);
        const rings = asOffsets(ringOffsets, "ringOffsets");
        const polygons = asOffsets(polygonOffsets, "polygonOffsets");
        return borrow(this.#exports, (loan) => {
            const count = Math.max(polygons.length - 1, 0);
            const given = new Given(loan, points, kind, rings, polygons);
            const out = loan.take(12 * count);
            const call = this.#call(touching ? "touching_validity_shapes" : "validity_shapes", kind);
            this.#answered(call(...given.words, out, count), given);
            return faultsOf(loan.read(Uint32Array, out, 3 * count));
        });
    }

    contains(contour, x, y, rule = "evenodd") {
        return this.#ask("contains_by", contour, x, y, [codeOf(rule)], (answer, given) => this.#answered(answer, given) === 1);
    }

    windingNumber(contour, x, y) {
        return this.#ask("winding", contour, x, y, [], (answer, given) => {
            if (answer === NO_WINDING) throw this.#unsafePoint(given);
            return answer;
        });
    }

    windingNumbers(points, offsets, about) {
        return this.#askMany("windings", points, { offsets }, about, [], 4, readInts);
    }

    containsPoints(points, offsets, about, rule = "evenodd") {
        return this.#askMany("contains_points", points, { offsets }, about, [codeOf(rule)], 1, readBooleans);
    }

    locate(points, offsets, about, rule = "evenodd") {
        return this.#askMany("locate", points, { offsets }, about, [codeOf(rule)], 1, (loan, out, count) => loan.read(Int8Array, out, count));
    }

    locateInPolygons(points, ringOffsets, polygonOffsets, about, rule = "evenodd") {
        // Where there is none, the call writes 2^32 - 1: the bits of -1.
        return this.#askMany("locate_in_shapes", points, { ringOffsets, polygonOffsets }, about, [codeOf(rule)], 4, readInts);
    }

    areaTwo(contour) {
        const kind = kindOf(contour);
        return borrow(this.#exports, (loan) => {
            const area = loan.take(16);
            const isThere = this.#call("area_two", kind)(...new Given(loan, contour, kind).words, area);
            return isThere ? readAreas(loan, area, 1, kind)[0] : undefined;
        });
    }

    isSimpleRings(points, offsets) {
        return this.#testRings("is_simple_contours", points, offsets);
    }

    hasNoSpikesRings(points, offsets) {
        return this.#testRings("has_no_spikes_contours", points, offsets);
    }

    isConvexRings(points, offsets) {
        return this.#testRings("is_convex_contours", points, offsets);
    }

    areSimplePolygons(points, offsets) {
        return this.#testRings("are_simple_polygons", points, offsets);
    }

    isSafeRings(points, offsets) {
        return this.#testRings("is_safe_contours", points, offsets);
    }

    areaTwoRings(points, offsets) {
        return this.#measureRings("area_two_contours", points, offsets, 16, readAreas);
    }

    simplifyRings(points, offsets) {
        return this.#cleanRings("simplify_contours", points, offsets);
    }

    despikeRings(points, offsets) {
        return this.#cleanRings("despike_contours", points, offsets);
    }

    canonicalRings(points, offsets) {
        return this.#cleanRings("canonical_contours", points, offsets);
    }

    canonicalUnorientedRings(points, offsets) {
        return this.#cleanRings("canonical_unoriented_contours", points, offsets);
    }

    canonicalKeys(points, ringOffsets, polygonOffsets, options = {}) {
        const { oriented = false } = checkedOptions("canonicalKeys", options, ["oriented"]);
        const polygons = polygonOffsets && asOffsets(polygonOffsets, "polygonOffsets");
        const cleaner = oriented ? "canonical" : "canonical_unoriented";
        const forms = this.#cleanRings(`${cleaner}_${polygons ? "polygons" : "contours"}`, points, ringOffsets, polygons);
        const ends = forms.offsets;
        const keys = Array.from({ length: ends.length - 1 }, (_, k) => forms.points.subarray(2 * ends[k], 2 * ends[k + 1]).join(" "));
        return polygons ? cut(keys, polygons).map(keyOfPolygon) : keys;
    }

    sameRings(a, b, options = {}) {
        checkedOptions("sameRings", options, ["oriented"]);
        const [ours, theirs] = [a, b].map(({ points, offsets }) => this.canonicalKeys(points, offsets, undefined, options));
        const places = new Map();
        // Rings that collapse aren't the same: nothing is left to compare.
        theirs.forEach((key, place) => key === "" || places.has(key) || places.set(key, place));
        return Int32Array.from(ours, (key) => places.get(key) ?? -1);
    }

    samePolygons(a, b, options = {}) {
        const { oriented = false } = checkedOptions("samePolygons", options, ["oriented"]);
        const [ours, theirs] = [a, b].map(({ points, ringOffsets, polygonOffsets }) =>
            this.#cleanPolygons(oriented ? "canonical_shapes" : "canonical_unoriented_shapes", points, ringOffsets, polygonOffsets));
        const areEqual = (name) => ours[name].length === theirs[name].length && ours[name].every((item, k) => item == theirs[name][k]); // a bigint too
        return ["polygonOffsets", "ringOffsets", "points"].every(areEqual);
    }

    compactPolygons(offsets, polygonOffsets) {
        const rings = asOffsets(offsets);
        const polygons = asOffsets(polygonOffsets, "polygonOffsets");
        return borrow(this.#exports, (loan) => {
            const given = [ranksOf(rings), polygons].map((each) => [loan.copyOffsets(each), each.length]);
            const outs = [rings.length - 1, polygons.length - 1, polygons.length].map((count) => Math.max(count, 0)).map((count) => [loan.take(4 * count), count]);
            const left = this.#exports.i_shape_compact_shapes(...given.flat(), ...outs.flat());
            if (left === BAD_OFFSETS) {
                this.#checkParting(rings, given[0][0], MOST, "offsets");
                this.#checkParting(polygons, given[1][0], rings.length - 1, "polygonOffsets");
            }
            const [ringsLeft, polygonsLeft, ends] = outs.map(([address]) => (count) => loan.read(Uint32Array, address, count));
            const itsOffsets = ends(left + 1);
            return { polygons: polygonsLeft(left), rings: ringsLeft(itsOffsets[left]), offsets: itsOffsets };
        });
    }

    cleanFeatures(object, options = {}) {
        return cleanedFeatures(this, object, options);
    }

    featureKeys(object, options = {}) {
        return keysOfFeatures(this, object, options);
    }

    explainValidity(object, options = {}) {
        return faultsOfFeatures(this, object, options);
    }

    areaTwoPolygons(points, ringOffsets, polygonOffsets) {
        const { bits } = kindOf(points);
        const sum = (areas) => BigInt.asIntN(2 * bits, areas.reduce((one, other) => one + other, 0n));
        const polygons = asOffsets(polygonOffsets, "polygonOffsets");
        return cut(this.#measureRings("area_two_contours", points, ringOffsets, 16, readAreas, polygons), polygons).map(sum);
    }

    simplifyPolygons(points, ringOffsets, polygonOffsets) {
        return this.#cleanPolygons("simplify_shapes", points, ringOffsets, polygonOffsets);
    }

    removeSpikes(points, ringOffsets, polygonOffsets) {
        return this.#cleanPolygons("despike_shapes", points, ringOffsets, polygonOffsets);
    }

    despikePolygons(points, ringOffsets, polygonOffsets) {
        return this.removeSpikes(points, ringOffsets, polygonOffsets);
    }

    canonicalPolygons(points, ringOffsets, polygonOffsets) {
        return this.#cleanPolygons("canonical_shapes", points, ringOffsets, polygonOffsets);
    }

    canonicalUnorientedPolygons(points, ringOffsets, polygonOffsets) {
        return this.#cleanPolygons("canonical_unoriented_shapes", points, ringOffsets, polygonOffsets);
    }

    #call(name, { bits }) {
        return this.#exports[`i_shape_${name}_i${bits}`];
    }

    /** Returns what a call has returned, or throws what its code means. */
    #answered(answer, given) {
        if (answer === UNSAFE) throw this.#unsafePoint(given);
        if (answer === BAD_OFFSETS) this.#checkOffsets(given);
        if (answer < 0) throw new OutOfMemoryError();
        return answer;
    }

    /** The place of the first unsafe point among so many at an address. */
    #firstUnsafe(address, count, kind) {
        return this.#call("first_unsafe", kind)(address, count);
    }

    /** The error for a point of a contour, or of a ring, that isn't safe. */
    #unsafePoint({ points, count, kind, address, offsets: [rings] }) {
        const [first, end] = [rings?.[0] ?? 0, rings?.at(-1) ?? count];
        const place = first + this.#firstUnsafe(address + 2 * first * kind.Points.BYTES_PER_ELEMENT, end - first, kind);
        const ring = rings?.findLastIndex((offset) => offset <= place);
        const where = `${ring === undefined ? "" : `ring ${ring}: `}point ${place}`;
        return new UnsafePointError(`${where} is (${points[2 * place]}, ${points[2 * place + 1]}), ${outside(kind)}`, place, ring);
    }

    /** Throws where offsets of rings don't divide the points, or those of polygons the rings. */
    #checkOffsets({ count, offsets: [rings, polygons], offsetAddresses: [ringAddress, polygonAddress] }) {
        this.#checkParting(rings, ringAddress, count, polygons ? "ringOffsets" : "offsets");
        if (polygons) this.#checkParting(polygons, polygonAddress, rings.length - 1, "polygonOffsets");
    }

    /** Throws where offsets at an address don't divide so many items. */
    #checkParting(offsets, address, count, name) {
        const place = this.#exports.i_shape_first_bad_offset(count, address, offsets.length);
        if (!offsets.length || place < offsets.length) throw offsetsFault(offsets, place, count, name);
    }

    /** What a call on rings is given, and the polygons that they are divided among, if there are any: these the call doesn't test. */
    #givenRings(loan, points, kind, ringOffsets, polygons) {
        const rings = asOffsets(ringOffsets, polygons ? "ringOffsets" : "offsets");
        const given = new Given(loan, points, kind, rings, ...(polygons ? [polygons] : []));
        if (polygons) this.#checkParting(polygons, given.offsetAddresses[1], rings.length - 1, "polygonOffsets");
        return given;
    }

    #clean(name, contour) {
        const kind = kindOf(contour);
        return borrow(this.#exports, (loan) => {
            const given = new Given(loan, contour, kind);
            const out = loan.take(given.bytes);
            const left = this.#answered(this.#call(name, kind)(...given.words, out, given.count), given);
            return loan.read(kind.Points, out, 2 * left);
        });
    }

    #test(name, points) {
        const kind = kindOf(points);
        return borrow(this.#exports, (loan) => {
            const given = new Given(loan, points, kind);
            return this.#answered(this.#call(name, kind)(...given.words), given) === 1;
        });
    }

    /** The places of two edges, or undefined where none are in contact. */
    #findContact(name, points, ...offsets) {
        const kind = kindOf(points);
        return borrow(this.#exports, (loan) => {
            const given = new Given(loan, points, kind, ...offsets);
            const out = loan.take(8);
            const found = this.#answered(this.#call(name, kind)(...given.words, out, 2), given);
            return found ? contactsOf(loan.read(Uint32Array, out, 2))[0] : undefined;
        });
    }

    /** The places of all two edges in contact. The call returns how many there are, also if there is room for fewer. */
    #listContacts(name, points, ...offsets) {
        const kind = kindOf(points);
        return borrow(this.#exports, (loan) => {
            const given = new Given(loan, points, kind, ...offsets);
            const list = (room) => {
                const out = loan.take(8 * room);
                const count = this.#answered(this.#call(name, kind)(...given.words, out, room), given);
                return count > room ? list(count) : contactsOf(loan.read(Uint32Array, out, 2 * count));
            };
            return list(given.count);
        });
    }

    /** Hands what a call returns about a point to `use`; `rule` is its further argument, or empty. */
    #ask(name, contour, x, y, rule, use) {
        const kind = kindOf(contour);
        checkAsked(x, y, kind);
        return borrow(this.#exports, (loan) => {
            const given = new Given(loan, contour, kind);
            return use(this.#call(name, kind)(...given.words, x, y, ...rule), given);
        });
    }

    /**
     * Hands what a call writes of the points asked about, in items of so many bytes, to `read`. `offsets` are those that it takes, by their names; `rule` is its
     * further argument, or empty.
     */
    #askMany(name, points, offsets, about, rule, bytes, read) {
        const kind = kindOf(points);
        if (kindOf(about) !== kind) throw new TypeError("the points asked about are of another type");
        const dividing = Object.entries(offsets).map(([its, each]) => asOffsets(each, its));
        return borrow(this.#exports, (loan) => {
            const given = new Given(loan, points, kind, ...dividing);
            const asked = new Given(loan, about, kind);
            const { count } = asked;
            const out = loan.take(bytes * count);
            const answer = this.#call(name, kind)(...given.words, ...asked.words, ...rule, out, count);
            const unsafe = answer === UNSAFE ? this.#firstUnsafe(asked.address, count, kind) : count;
            if (unsafe < count) checkAsked(about[2 * unsafe], about[2 * unsafe + 1], kind);
            this.#answered(answer, given);
            return read(loan, out, count);
        });
    }

    #testRings(name, points, offsets) {
        return this.#measureRings(name, points, offsets, 1, readBooleans);
    }

    /** Hands what a call writes of the rings, in items of so many bytes at the most, to `read`. */
    #measureRings(name, points, offsets, bytes, read, polygons) {
        const kind = kindOf(points);
        return borrow(this.#exports, (loan) => {
            const given = this.#givenRings(loan, points, kind, offsets, polygons);
            const count = Math.max(given.offsets[0].length - 1, 0);
            const out = loan.take(bytes * count);
            this.#answered(this.#call(name, kind)(...given.ringWords, out, count), given);
            return read(loan, out, count, kind);
        });
    }

    #cleanRings(name, points, offsets, polygons) {
        const kind = kindOf(points);
        return borrow(this.#exports, (loan) => {
            const given = this.#givenRings(loan, points, kind, offsets, polygons);
            const out = loan.take(given.bytes);
            const { length } = given.offsets[0];
            const outOffsets = loan.take(4 * length);
            const left = this.#answered(this.#call(name, kind)(...given.words, out, given.count, outOffsets, length), given);
            return { points: loan.read(kind.Points, out, 2 * left), offsets: loan.read(Uint32Array, outOffsets, length) };
        });
    }

    #cleanPolygons(name, points, ringOffsets, polygonOffsets) {
        const kind = kindOf(points);
        const rings = asOffsets(ringOffsets, "ringOffsets");
        const polygons = asOffsets(polygonOffsets, "polygonOffsets");
        return borrow(this.#exports, (loan) => {
            const given = new Given(loan, points, kind, rings, polygons);
            const out = loan.take(given.bytes);
            const outRings = loan.take(4 * rings.length);
            const outPolygons = loan.take(4 * polygons.length);
            const left = this.#answered(this.#call(name, kind)(
                ...given.words, out, given.count, outRings, rings.length, outPolygons, polygons.length), given);
            const leftPolygons = loan.read(Uint32Array, outPolygons, left + 1);
            const leftRings = loan.read(Uint32Array, outRings, leftPolygons[left] + 1);
            return { points: loan.read(kind.Points, out, 2 * leftRings.at(-1)), ringOffsets: leftRings, polygonOffsets: leftPolygons };
        });
    }
}

/** What i_shape.d.ts lets through, and what it rejects; compiled by tsc, and not run. */
import {
    CollapsedError, FILL_RULES, GeoJsonError, IShapeError, OffsetsError, UnsafePointError, fromGeoJson, load, toGeoJson,
    type FillRule, type IShape, type Polygons, type Rings,
} from "../src/i_shape.js";
import type { Contact, ContactKind, FeatureValidity, Validity } from "../src/i_shape.js";

class Own extends Int32Array {
    readonly owner = "a class of the caller's";
}

async function contours(): Promise<void> {
    const shapes: IShape = await load(fetch("i_shape32.wasm"));
    const narrow: Int16Array = shapes.simplify(Int16Array.of(0, 0));
    const wide: BigInt64Array = shapes.canonicalUnoriented(shapes.canonical(BigInt64Array.of(0n, 0n)));
    const area: bigint | undefined = shapes.areaTwo(narrow);
    const inside: boolean = shapes.contains(Int32Array.of(0, 0), 1, 1) && shapes.contains(wide, 1n, 1n);
    const winding: number = shapes.windingNumber(wide, 1n, 1n);
    console.log(area, inside, winding);
    // @ts-expect-error: floats
    shapes.simplify(Float64Array.of(0, 0));
    // @ts-expect-error: an array of numbers
    shapes.simplify([0, 0]);
    // @ts-expect-error: a number beside bigints
    shapes.contains(wide, 1, 1);
    // @ts-expect-error: the answer has the width of what is given
    const other: Int32Array = shapes.simplify(wide);
    const plain: Int32Array = shapes.simplify(new Own(2));
    // @ts-expect-error: the answer is of no class below the one of its width
    const own: Own = shapes.simplify(new Own(2));
    console.log(other, plain, own);
}

async function keys(): Promise<void> {
    const shapes = await load();
    await load(new URL("i_shape32.wasm", "https://example.org/"));
    const polygons: Polygons<Int32Array> = fromGeoJson({ type: "Polygon", coordinates: [] }, { step: 0.5 });
    const wide: Polygons<BigInt64Array> = fromGeoJson({}, { step: 1, Points: BigInt64Array });
    const told: string[] = shapes.canonicalKeys(wide.points, wide.ringOffsets, undefined, { oriented: true });
    const places: Int32Array = shapes.sameRings({ points: polygons.points, offsets: [0] }, { points: wide.points, offsets: [0n] });
    const areSame: boolean = shapes.samePolygons(polygons, wide);
    const areas: bigint[] = shapes.areaTwoPolygons(polygons.points, polygons.ringOffsets, polygons.polygonOffsets);
    const coordinates: number[][][][] = toGeoJson(wide, { step: 0.5 }).coordinates;
    console.log(told, places, areSame, areas, coordinates);
    const feature = shapes.cleanFeatures({ type: "Feature", id: 7, geometry: null }, { step: 0.5, call: "despike" });
    const id: number = feature.id;
    const ofFeatures: string[] = shapes.featureKeys(feature, { step: 0.5, oriented: true });
    const faults: FeatureValidity[] = shapes.explainValidity(feature, { step: 0.5 });
    faults.push(...shapes.explainValidity(feature, { step: 0.5, touching: true }));
    for (const fault of faults) if (fault.kind === "contact" || fault.kind === "disconnected") console.log(fault.polygon, fault.edges[1]);
    console.log(id, ofFeatures);
    // @ts-expect-error: no step
    fromGeoJson({});
    // @ts-expect-error: no step
    toGeoJson(polygons, {});
    // @ts-expect-error: no such call
    shapes.cleanFeatures({}, { step: 1, call: "canonical" });
    // @ts-expect-error: keys are asked of points and offsets
    shapes.canonicalKeys(polygons);
}

async function rings(shapes: IShape): Promise<void> {
    const points = Int32Array.of(0, 0);
    const told: boolean[] = shapes.isSimpleRings(points, [0, 1]);
    const areas: bigint[] = shapes.areaTwoRings(points, [0, 1]);
    const simplified: Rings<Int32Array> = shapes.simplifyRings(points, [0, 1]);
    const left: Rings<Int32Array> = shapes.canonicalUnorientedRings(simplified.points, simplified.offsets);
    const polygons: Polygons<Int32Array> = shapes.canonicalPolygons(left.points, left.offsets, BigInt64Array.of(0n, 1n));
    const faults: Validity[] = shapes.polygonValidity(polygons.points, polygons.ringOffsets, polygons.polygonOffsets);
    for (const fault of faults) if (fault.kind === "holeWithin") console.log(fault.ring, fault.other);
    const touching: Validity[] = shapes.polygonValidity(polygons.points, polygons.ringOffsets, polygons.polygonOffsets, { touching: true });
    for (const fault of touching) if (fault.kind === "disconnected") console.log(fault.first, fault.second);
    // @ts-expect-error: no such option
    shapes.polygonValidity(points, [0, 1], [0, 1], { touches: true });
    // @ts-expect-error: places of rings, where edges are at fault
    touching.filter((fault) => fault.kind === "disconnected").map((fault) => fault.ring);
    // @ts-expect-error: a valid polygon has no ring at fault
    faults.filter((fault) => fault.kind === "valid").map((fault) => fault.ring);
    const contacts: Contact[] = [...shapes.contacts(points), ...shapes.contactsOfRings(points, [0, 1])];
    const kinds: ContactKind[] = shapes.kindsOfContacts(points, [0, 1], contacts);
    // @ts-expect-error: no such kind
    kinds.filter((kind) => kind === "contact");
    // @ts-expect-error: places by themselves
    shapes.kindsOfContacts(points, [0, 1], [[0, 2]]);
    const windings: Int32Array = shapes.windingNumbers(new Own(2), Uint32Array.of(0, 1), polygons.points);
    const rules: readonly FillRule[] = FILL_RULES;
    const filled: boolean[][] = rules.map((rule) => shapes.containsPoints(points, [0, 1], points, rule));
    const located: Int8Array = shapes.locate(polygons.points, polygons.ringOffsets, points);
    const holders: Int32Array = shapes.locateInPolygons(polygons.points, polygons.ringOffsets, polygons.polygonOffsets, points, "nonzero");
    console.log(told, areas, windings, filled, located, holders);
    // @ts-expect-error: no such rule
    shapes.locate(points, [0, 1], points, "even-odd");
    // @ts-expect-error: points of two widths
    shapes.locateInPolygons(points, [0, 1], [0, 1], BigInt64Array.of(0n, 0n));
    // @ts-expect-error: points of two widths
    shapes.windingNumbers(points, [0, 1], Int16Array.of(0, 0));
}

function errors(error: unknown): number | undefined {
    if (error instanceof UnsafePointError) return error.point ?? error.ring;
    if (error instanceof OffsetsError) return error.code;
    if (error instanceof GeoJsonError || error instanceof CollapsedError) return error.feature;
    return error instanceof IShapeError ? error.code : undefined;
}

export { contours, errors, keys, rings };

/**
 * Polygons read from text: the lines of i_shape_tool, GeoJSON or WKT. A polygon is an array of rings, a ring an array of points [x, y], without the
 * first point again at its end.
 */

/** Returns the polygons of a text, whichever form it has. Throws a SyntaxError that says what is wrong. */
export function readPolygons(text) {
    const given = text.trim();
    if (given === "") return [];
    if (given.startsWith("{")) return readGeoJson(given);
    if (/^[a-z]/i.test(given)) return readWkt(given);
    return readLines(text);
}

/** Each line is a contour, `x y x y ..`: the first one the outer ring of a polygon, the others its holes. An empty line begins another polygon. */
function readLines(text) {
    const polygons = [[]];
    text.split("\n").forEach((line, k) => {
        if (line.trim() === "") polygons.push([]);
        else polygons.at(-1).push(readLine(line, k + 1));
    });
    return polygons.filter((rings) => rings.length > 0);
}

function readLine(line, number) {
    const words = line.trim().split(/[\s,]+/);
    const coordinates = words.map(Number);
    const wrong = coordinates.findIndex((each, k) => words[k] === "" || !Number.isFinite(each));
    if (wrong >= 0) throw new SyntaxError(`line ${number}: "${words[wrong]}" is no number`);
    if (coordinates.length % 2 !== 0) throw new SyntaxError(`line ${number}: the last x has no y`);
    return Array.from({ length: coordinates.length / 2 }, (_, k) => coordinates.slice(2 * k, 2 * k + 2));
}

/** GeoJSON and WKT give the first point again at the end of a ring. */
function opened(ring) {
    const [first, last] = [ring[0], ring.at(-1)];
    return ring.length > 1 && first[0] === last[0] && first[1] === last[1] ? ring.slice(0, -1) : ring;
}

const CHILDREN = { __proto__: null, FeatureCollection: "features", GeometryCollection: "geometries" };

function readGeoJson(text) {
    return polygonsOf(JSON.parse(text));
}

function polygonsOf(object) {
    const { type, coordinates } = object ?? {};
    if (type in CHILDREN) return listOf(CHILDREN[type], object[CHILDREN[type]]).flatMap(polygonsOf);
    if (type === "Feature") return polygonsOf(object.geometry);
    if (type === "Polygon") return [ringsOf(coordinates)];
    if (type === "MultiPolygon") return listOf("polygons", coordinates).map(ringsOf);
    throw new SyntaxError(`GeoJSON: a ${type} is no polygon`);
}

function listOf(what, value) {
    if (!Array.isArray(value)) throw new SyntaxError(`GeoJSON: ${JSON.stringify(value)} is no list of ${what}`);
    return value;
}

function ringsOf(rings) {
    return listOf("rings", rings).map((ring) => opened(listOf("positions", ring).map(pointOf)));
}

function pointOf(position) {
    const point = Array.isArray(position) ? position.slice(0, 2) : [];
    if (point.length !== 2 || !point.every(Number.isFinite)) throw new SyntaxError(`GeoJSON: ${JSON.stringify(position)} is no position`);
    return point;
}

function readWkt(text) {
    const found = /^(MULTI)?POLYGON\s*(EMPTY|\(.*\))$/is.exec(text);
    if (!found) throw new SyntaxError("WKT: only POLYGON and MULTIPOLYGON are read");
    const [, isMany, body] = found;
    if (/^EMPTY$/i.test(body)) return [];
    if (!/^[-+.\de\s,()]*$/i.test(body)) throw new SyntaxError("WKT: there is more than numbers, commas and brackets");
    // The same brackets, with each point in a pair of its own, are JSON.
    const lists = body.replace(/[^(),]+/g, wktPoint).replaceAll("(", "[").replaceAll(")", "]");
    try {
        const parsed = JSON.parse(lists);
        return isMany ? parsed.map(ringsOf) : [ringsOf(parsed)];
    } catch (error) {
        throw new SyntaxError(`WKT: the brackets don't hold rings of points (${error.message})`);
    }
}

function wktPoint(words) {
    const numbers = words.trim().split(/\s+/).map(Number);
    return words.trim() === "" ? "" : JSON.stringify(numbers);
}

/** Returns polygons in whole numbers: each coordinate times the scale, rounded. */
export function scaled(polygons, scale) {
    return polygons.map((rings) => rings.map((ring) => ring.map((point) => point.map((each) => Math.round(each * scale) + 0))));
}

/**
 * For each polygon in a folder the index of the first that has the same key in JavaScript, into its file `javascript` (uint32). It prints the seconds of
 * processor time that the keys take. usage: node keys.mjs FOLDER MODULE
 */
import { readFileSync, writeFileSync } from "node:fs";
import { load } from "../../bindings/js/src/i_shape.js";

const [folder, module] = process.argv.slice(2);
const shapes = await load(readFileSync(module));

function read(name, Items) {
    const { buffer, byteOffset, byteLength } = readFileSync(`${folder}/${name}`);
    return new Items(buffer.slice(byteOffset, byteOffset + byteLength));
}

const [points, rings, polygons] = [read("points", Int32Array), read("rings", Uint32Array), read("polygons", Uint32Array)];
const start = process.cpuUsage();
const keys = shapes.canonicalKeys(points, rings, polygons);
const { user, system } = process.cpuUsage(start);
console.log(((user + system) / 1e6).toFixed(3));
const places = new Map();
keys.forEach((key, place) => places.has(key) || places.set(key, place));
writeFileSync(`${folder}/javascript`, Uint32Array.from(keys, (key) => places.get(key)));

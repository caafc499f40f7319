import assert from "node:assert/strict";
import { readFileSync } from "node:fs";
import { test } from "node:test";
import { fileURLToPath } from "node:url";
import { gzipSync } from "node:zlib";
import { load } from "i_shape";
import * as module from "../src/i_shape.js";

const description = JSON.parse(readFileSync(new URL("../package.json", import.meta.url), "utf8"));

test("the package by its name", async () => {
    assert.equal(load, module.load);
    const path = fileURLToPath(import.meta.resolve("i_shape/i_shape32.wasm"));
    assert.equal((await load(readFileSync(path))).version, description.version);
});

test("what the module exports is what its types declare", () => {
    const types = readFileSync(new URL("../src/i_shape.d.ts", import.meta.url), "utf8");
    const declared = [...types.matchAll(/^export (?:class|function|const) (\w+)/gm)].map(([, name]) => name);
    assert.deepEqual(Object.keys(module).sort(), declared.sort());
});

test("the calls are what their types declare", async () => {
    const types = readFileSync(new URL("../src/i_shape.d.ts", import.meta.url), "utf8");
    const declared = [...types.slice(types.indexOf("export interface IShape {")).matchAll(/^    (?:readonly )?(\w+)[<(:]/gm)].map(([, name]) => name);
    const shapes = await load(readFileSync(new URL("../out/i_shape32.wasm", import.meta.url)));
    const names = Object.getOwnPropertyNames(Object.getPrototypeOf(shapes)).filter((name) => name !== "constructor");
    assert.deepEqual(names.sort(), declared.sort());
});

test("the entries at the top are those of exports", () => {
    const { types, default: main } = description.exports["."];
    assert.deepEqual([description.types, description.main], [types, main]);
});

// The page names a call on many contours by the one on a contour, whose name gets an ending, and a call of JavaScript by that of C where the words are the same.
test("docs/DATA.md has each call of C and of this package", async () => {
    const [, page] = readFileSync(new URL("../../../docs/DATA.md", import.meta.url), "utf8").split("\n## Calls\n");
    const words = new Set([...page.matchAll(/`(?:\w+(?:::|\.))?(\w+)`/g)].map(([, word]) => word));
    const areThere = (names, ending) => assert.deepEqual(names.filter((name) => !words.has(name) && !words.has(name.replace(ending, ""))), []);
    const header = readFileSync(new URL("../../../include/i_shape.h", import.meta.url), "utf8");
    areThere([...header.matchAll(/^[a-z].* i_shape_(\w+?)(?:_i32)?\((?:const (?:i_shape_point_i32|size_t)|void|size_t)/gm)].map(([, name]) => name), /_(contours|shapes)$/);
    const shapes = await load();
    const own = Object.getOwnPropertyNames(Object.getPrototypeOf(shapes)).filter((name) => !["constructor", "memoryBytes", "heldBytes", "despikePolygons"].includes(name));
    const names = [...own, "fromGeoJson", "toGeoJson"];
    areThere(names.filter((name) => !words.has(name)).map((name) => name.replace(/[A-Z]/g, (letter) => `_${letter.toLowerCase()}`)), /_(rings|polygons)$/);
    const columns = [...page.split("| JavaScript |")[1].matchAll(/^(?:\|[^|\n]*){3}\|([^|\n]*)/gm)].map(([, column]) => column);
    const told = [...page.matchAll(/JavaScript ((?:`\w+`(?:, )?)+)/g)].map(([, list]) => list);
    for (const [, name] of [...columns, ...told].join(" ").matchAll(/`(\w+)`/g)) assert.ok(names.includes(name), name);
});

test("docs/JAVASCRIPT.md says how large the module is", () => {
    const [, size, zipped] = readFileSync(new URL("../../../docs/JAVASCRIPT.md", import.meta.url), "utf8").match(/The module has some ([\d,]+) bytes, or\s+([\d,]+)\s+after gzip/)
        .map((text) => Number(text.replaceAll(",", "")));
    const module = readFileSync(new URL("../out/i_shape32.wasm", import.meta.url));
    for (const [said, found] of [[size, module.length], [zipped, gzipSync(module, { level: 9 }).length]]) {
        assert.ok(Math.abs(said - found) < 0.03 * found, `${said}, and ${found}`);
    }
});

test("nothing is depended on", () => assert.deepEqual(Object.keys(description).filter((key) => /dependencies/i.test(key)), []));

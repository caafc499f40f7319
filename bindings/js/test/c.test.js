/** The tests of the C library in a module. I_SHAPE_C_TESTS names the one that c/build.sh makes. Without it the tests are skipped. */
import assert from "node:assert/strict";
import { readFileSync } from "node:fs";
import path from "node:path";
import { test } from "node:test";
import { Browser, noChromium } from "./support/chromium.js";
import { noFirefox, readInFirefox } from "./support/firefox.js";

const MODULE = process.env.I_SHAPE_C_TESTS;
const NO_MODULE = !MODULE && "there is no module of the tests of C";

/** Runs the module, and returns its status and what it has printed. It is handed to a browser as text, too. */
async function run(bytes) {
    const { exports } = (await WebAssembly.instantiate(bytes)).instance;
    const status = exports.run();
    const printed = new Uint8Array(exports.memory.buffer, exports.printed());
    return { status, printed: new TextDecoder().decode(printed.subarray(0, printed.indexOf(0))) };
}

function check({ status, printed }) {
    assert.match(printed, /^[0-9]{4,} passed, 0 failed\n$/);
    assert.equal(status, 0);
}

test("the tests of C", { skip: NO_MODULE }, async () => check(await run(readFileSync(MODULE))));

test("the tests of C, in Chromium", { skip: NO_MODULE || noChromium }, async () => {
    const browser = await Browser.open();
    try {
        const bytes = readFileSync(MODULE).toString("base64");
        check(await browser.read(`(${run})(Uint8Array.from(atob("${bytes}"), (letter) => letter.charCodeAt(0)))`));
    } finally {
        await browser.close();
    }
});

test("the tests of C, in Firefox", { skip: NO_MODULE || noFirefox }, async () => {
    const script = `const run = ${run};
        return run(await (await fetch("/${path.basename(MODULE)}")).arrayBuffer());`;
    check(await readInFirefox(path.dirname(MODULE), script));
});

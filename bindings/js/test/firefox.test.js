/** The package in Debian's Firefox, beside Node: random contours at each width. Without firefox-esr, or the module, it is skipped. */
import assert from "node:assert/strict";
import { existsSync } from "node:fs";
import { test } from "node:test";
import { fileURLToPath } from "node:url";
import { load } from "../src/i_shape.js";
import { noFirefox, readInFirefox } from "./support/firefox.js";
import { MODULE } from "./support/modules.js";

const FOLDER = fileURLToPath(new URL("..", import.meta.url));
const skip = noFirefox || (!existsSync(`${FOLDER}/out/i_shape32.wasm`) && "`make wasm` builds what it loads");

/** What the calls answer to the same random contours in each run: of few places, so that many points lie on a line or come twice. It is handed to a browser as text, too. */
function answers(shapes) {
    let state = 1;
    const below = (count) => (state = (state * 48271) % 2147483647) % count;
    const lines = [];
    for (const [Points, number] of [[Int16Array, Number], [Int32Array, Number], [BigInt64Array, BigInt]]) {
        for (let turn = 0; turn < 500; turn++) {
            const reach = [2, 5, 1000][below(3)];
            const contour = Points.from({ length: 2 * below(14) }, () => number(below(2 * reach + 1) - reach));
            const cleaned = ["simplify", "despike", "canonical", "canonicalUnoriented"].map((call) => shapes[call](contour).join(" "));
            lines.push([...cleaned, shapes.areaTwo(contour), shapes.isConvex(contour), shapes.windingNumber(contour, number(0), number(0))].join("; "));
        }
    }
    return lines;
}

test("the module in Firefox, beside Node", { skip }, async () => {
    const told = await readInFirefox(
        FOLDER,
        `const { load } = await import("/src/i_shape.js");
        const answers = ${answers};
        return answers(await load());`,
    );
    assert.deepEqual(told, answers(await load(MODULE)));
});

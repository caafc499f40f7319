/**
 * The page in Debian's Chromium, by clicks and keys. Without chromium, or where the modules aren't built, it is skipped. I_SHAPE_SCREENSHOTS names a
 * folder to leave screenshots in.
 */
import assert from "node:assert/strict";
import { execFileSync } from "node:child_process";
import { existsSync, mkdtempSync, rmSync } from "node:fs";
import os from "node:os";
import path from "node:path";
import { after, before, describe, test } from "node:test";
import { fileURLToPath } from "node:url";
import { Browser, noChromium, serve } from "../../../bindings/js/test/support/chromium.js";
import { frameOf } from "../board.js";

const HERE = path.dirname(fileURLToPath(import.meta.url));
const SCREENSHOTS = process.env.I_SHAPE_SCREENSHOTS;
const isBuilt = existsSync(path.join(HERE, "../../../bindings/js/out/i_shape32.wasm"));
const skip = noChromium || (!isBuilt && "`make wasm` builds what it shows");
// The numbers of a square of 4 by 4 with a straight point.
const SQUARE_NUMBERS = { given: "5 points in 1 ring", left: "4 points in 1 ring", removed: "1: 1 straight", area: "16" };
const BROWSERS = [
    { name: "a wide window", width: 1100, height: 800 },
    { name: "a small window in the dark", width: 390, height: 780, isDark: true },
];

/** What a test does on the page, and reads off it. */
class Page {
    constructor(browser) {
        this.browser = browser;
    }

    text(id) {
        return this.browser.read(`document.getElementById(${JSON.stringify(id)}).textContent`);
    }

    async texts(wanted) {
        for (const [id, text] of Object.entries(wanted)) assert.equal(await this.text(id), text, id);
    }

    marks(name) {
        return this.browser.read(`document.querySelector("#board > .${name}")?.getAttribute("d").match(/M/g)?.length ?? 0`);
    }

    path(name) {
        return this.browser.read(`document.querySelector("#board > .${name}").getAttribute("d")`);
    }

    /** Where a point of the board lies in the window. */
    async placeOf([x, y]) {
        return this.browser.read(`(() => {
            const board = document.getElementById("board");
            board.scrollIntoView({ block: "nearest" });
            const place = new DOMPoint(${x}, ${-y}).matrixTransform(board.getScreenCTM());
            return [place.x, place.y];
        })()`);
    }

    async put(...points) {
        for (const point of points) await this.browser.click(...(await this.placeOf(point)));
    }

    async press(...keys) {
        for (const key of keys) await this.browser.press(key);
    }

    /** Clicks into a text area, takes out what it holds, and pastes a text. */
    async paste(id, text) {
        await this.browser.clickOn(id);
        await this.browser.read(`document.getElementById(${JSON.stringify(id)}).select()`);
        await this.browser.insert(text);
    }

    async fresh() {
        await this.browser.clickOn("clear");
    }
}

/** A test that is skipped, and counted so, where the page can't be shown. */
function check(name, run) {
    test(name, { skip }, run);
}

describe("the step of the grid", () => {
    for (const [name, ring, step] of [
        ["no point", [], 1],
        ["a small polygon about 0", [[0, 0], [12, 8]], 1],
        ["a small polygon far away", [[1000, 1000], [1002, 1001]], 1],
        ["a polygon as wide as the cells are many", [[1000, 1000], [1024, 1000]], 1],
        ["a wider one", [[1000, 1000], [1025, 1000]], 2],
        ["one of 50 in 24 cells", [[1000, 1000], [1050, 1000]], 5],
        ["one of 200 in 24 cells", [[1000, 1000], [1200, 1000]], 10],
    ]) {
        test(name, () => assert.equal(frameOf([[ring]]).step, step));
    }

    for (const width of [358, 640, 1000]) {
        test(`a cell of a board of ${width} pixels`, () => {
            const { minX, maxX, step, pixel } = frameOf([[[]]], width);
            assert.ok(step / pixel >= 39 && Math.abs((maxX - minX + step) / pixel - width) < 1);
        });
    }
});

/** Opens a browser at a file server for what `run` does with the page, and closes both. */
async function visit(folder, takes, run) {
    const { server, url } = await serve(folder, takes);
    const browser = await Browser.open();
    try {
        await browser.goTo(url);
        await run(browser, new Page(browser));
    } finally {
        await browser.close();
        server.close();
    }
}

describe("the page", () => {
    let folder;
    let served;
    before(async () => {
        if (skip) return;
        folder = mkdtempSync(path.join(os.tmpdir(), "page-"));
        execFileSync("sh", [path.join(HERE, "../build.sh"), folder]);
        served = await serve(folder);
    });
    after(() => {
        if (skip) return;
        served.server.close();
        rmSync(folder, { recursive: true });
    });

    check("a module that isn't there is reported", () => {
        const takes = (request, response) => request.url.endsWith(".wasm") && response.writeHead(404).end();
        return visit(folder, takes, async (browser) => {
            await browser.until("document.getElementById('problem')?.textContent.includes('.wasm: 404 Not Found')");
            await browser.close(); // and another time, when it has ended
        });
    });

    check("a coastline that comes too late isn't shown, and one that failed is asked for again", () => {
        let hold;
        let hasFailed = false;
        const late = new Promise((done) => (hold = done));
        const takes = ({ url }, response) => {
            if (url.endsWith("ruegen.txt")) return hold(response) ?? true;
            if (!url.endsWith("hvar.txt") || hasFailed) return false;
            hasFailed = true;
            return response.writeHead(404).end();
        };
        return visit(folder, takes, async (browser, page) => {
            const choose = (island) => browser.read(`(() => {
                const list = document.getElementById("island");
                list.value = ${JSON.stringify(island)};
                list.dispatchEvent(new Event("input"));
            })()`);
            await browser.until("document.body?.dataset.ready === 'yes'");
            await choose("hvar");
            await browser.until("document.getElementById('problem').textContent.endsWith('hvar.txt: 404 Not Found')");
            await choose("ruegen");
            await choose("hvar");
            await browser.until("document.getElementById('coast-given').textContent === '28 points'");
            (await late).end("0 0 4000 0 4000 4000");
            await browser.until("performance.getEntriesByName(new URL('coastlines/ruegen.txt', location).href).length === 1");
            await page.texts({ "coast-given": "28 points" });
        });
    });

    for (const { name, ...kind } of BROWSERS) {
        describe(name, () => {
            let browser;
            let page;
            before(async () => {
                if (skip) return;
                browser = await Browser.open(kind);
                page = new Page(browser);
                await browser.goTo(served.url);
                await browser.until("document.body?.dataset.ready === 'yes'");
            });
            after(() => browser?.close());

            check("an example at first, in whose place one is drawn, and nothing once it is cleared", async () => {
                await page.texts({ version: `i_shape 0.2.0, in WebAssembly.`, given: "18 points in 2 rings", problem: "" });
                await page.put([1, 1], [2, 2]);
                await page.texts({ given: "2 points in 1 ring" });
                await page.fresh();
                await page.texts({ given: "0 points in 0 rings", left: "0 points in 0 rings", removed: "0", area: "0", start: "-", problem: "" });
            });

            check("a square by clicks, with a straight point", async () => {
                await page.fresh();
                await page.put([0, 0], [2, 0], [4, 0], [4, 4], [0, 4]);
                await page.texts({ ...SQUARE_NUMBERS, convex: "yes", start: "(0, 0)" });
                assert.equal(await page.marks("straight"), 1);
                assert.equal(await page.marks("kept"), 4);
            });

            check("the numbers at the cursor", async () => {
                for (const [point, winding, filled] of [
                    [[1, 1], "1", "by evenodd, nonzero, positive"],
                    [[-1, 1], "0", "by no rule"],
                ]) {
                    await browser.move(...(await page.placeOf(point)));
                    await page.texts({ cursor: `(${point.join(", ")})`, winding, filled });
                }
            });

            check("the last point is taken away, by button and by key", async () => {
                await browser.clickOn("undo");
                await page.texts({ given: "4 points in 1 ring", removed: "1: 1 straight", area: "8" });
                await browser.read("document.getElementById('board').focus()");
                await page.press("Backspace");
                await page.texts({ given: "3 points in 1 ring", left: "none: it collapses", removed: "3: 1 spike, 2 collapsed", area: "0" });
            });

            check("each reason, by clicks", async () => {
                await page.fresh();
                await page.put([-4, -3], [-1, -3], [2, -3], [3, -3], [3, 0], [4, 0], [3, 0], [3, 3], [3, 3], [0, 3], [-2, 1], [-4, 3], [-4, -1]);
                await page.texts({
                    given: "13 points in 1 ring",
                    left: "6 points in 1 ring",
                    removed: "7: 4 straight, 1 spike, 2 repeated",
                    area: "38",
                    convex: "no",
                    start: "(-4, -3)",
                });
            });

            check("the first two edges that meet, of the first ring that has such", async () => {
                await page.fresh();
                await page.texts({ contact: "none" });
                await page.put([-3, -2], [3, 2], [3, -2], [-3, 2]);
                await page.texts({ contact: "edges 0 and 2 meet, from (-3, -2) and (3, -2)" });
                assert.equal(await page.path("contact"), "M-3 2L3 -2M3 2L-3 -2");
                await browser.clickOn("undo");
                await page.texts({ contact: "none" });
                assert.equal(await page.path("contact"), "");
                await browser.clickOn("ring");
                await page.put([-2, 0], [-1, 0], [-1, 1], [-1, 0]);
                await page.texts({ contact: "edges 0 and 2 meet, from (-2, 0) and (-1, 1)" });
                await browser.clickOn("undo");
                await page.put([-1, 1]);
                await page.texts({ contact: "edges 1 and 3 meet, from (-1, 0) and (-1, 1)" });
            });

            check("a square and a hole, by keys alone", async () => {
                await page.fresh();
                await browser.move(...(await page.placeOf([-3, -3])));
                await browser.read("document.getElementById('board').focus()");
                const go = (key, times) => Array.from({ length: times }, () => key);
                await page.press("Enter", ...go("ArrowRight", 6), "Enter", ...go("ArrowUp", 6), " ", ...go("ArrowLeft", 6), "Enter");
                await page.texts({ given: "4 points in 1 ring", area: "36", cursor: "(-3, 3)" });
                await page.press("n", ...go("ArrowDown", 4), ...go("ArrowRight", 2), "Enter");
                await page.press(...go("ArrowUp", 2), "Enter", ...go("ArrowRight", 2), "Enter");
                await page.texts({ given: "7 points in 2 rings", left: "7 points in 2 rings", removed: "0", area: "34" });
                await browser.move(...(await page.placeOf([-1, 0])));
                await page.texts({ winding: "0", filled: "by no rule" });
                await browser.read("document.getElementById('board').focus()");
                await page.press("Escape", "N", "Enter");
                await page.texts({ given: "8 points in 3 rings" });
            });

            check("a contour that turns right, twice round", async () => {
                await page.fresh();
                await page.paste("text", "0 0 0 4 4 4 4 0 0 0 0 4 4 4 4 0");
                await browser.clickOn("read");
                await browser.move(...(await page.placeOf([1, 1])));
                await page.texts({ given: "8 points in 1 ring", removed: "0", area: "-32", winding: "-2", filled: "by nonzero, negative" });
            });

            for (const [form, text, wanted] of [
                ["lines", "0 0 2 0 4 0 4 4 0 4\n1 1 1 2 2 1\n", { given: "8 points in 2 rings", left: "7 points in 2 rings", area: "15.5" }],
                ["WKT", "POLYGON((0 0, 2 0, 4 0, 4 4, 0 4, 0 0))", SQUARE_NUMBERS],
                ["GeoJSON", JSON.stringify({ type: "Polygon", coordinates: [[[0, 0], [2, 0], [4, 0], [4, 4], [0, 4], [0, 0]]] }), SQUARE_NUMBERS],
                ["lines far away", "1000 1000 2000 1000 3000 1000 3000 3000", { given: "4 points in 1 ring", left: "3 points in 1 ring", area: "2000000" }],
            ]) {
                check(`a text is read: ${form}`, async () => {
                    await page.paste("text", text);
                    await browser.clickOn("read");
                    await page.texts({ ...wanted, problem: "" });
                });
            }

            check("a point is put beside polygons that end where coordinates do", async () => {
                await page.paste("text", "1073741823 0 0 1073741823 -1073741823 0");
                await browser.clickOn("read");
                await page.put([1300000000, 0]);
                await page.texts({ given: "4 points in 1 ring", cursor: "(1073741823, 0)", problem: "" });
            });

            check("a scale is proposed for degrees, and taken", async () => {
                await page.paste("text", "POLYGON((8.5 42.25, 9.125 42.25, 9.75 42.25, 9.5 43))");
                await browser.clickOn("read");
                await page.texts({ given: "4 points in 1 ring", proposed: "Rounded to whole numbers. By a scale of 10000000 a step is 1e-7 of a degree, if these are degrees:" });
                await browser.clickOn("rescale");
                await page.texts({ given: "4 points in 1 ring", left: "3 points in 1 ring", removed: "1: 1 straight", start: "(85000000, 422500000)" });
                assert.equal(await browser.read("document.getElementById('proposal').hidden"), true);
                await browser.read("document.getElementById('scale').value = 1");
            });

            check("a long text is read beside the page", async () => {
                const line = Array.from({ length: 20000 }, (_, x) => `${x} ${x % 2}`).join(" ");
                await browser.read(`document.getElementById("text").value = ${JSON.stringify(`${line} 20000 40000`)}`);
                await browser.clickOn("read");
                await browser.until("document.getElementById('given').textContent === '20001 points in 1 ring'");
                await page.texts({ reading: "", removed: "0", contact: "none", problem: "" });
                await browser.read(`document.getElementById("text").value = ${JSON.stringify(`${line} one`)}`);
                await browser.clickOn("read");
                await browser.until("document.getElementById('problem').textContent.endsWith('\"one\" is no number')");
            });

            check("what is left is written", async () => {
                await page.paste("text", "0 0 2 0 4 0 4 4 0 4\n1 1 1 2 2 1");
                await browser.clickOn("read");
                await browser.clickOn("write");
                assert.equal(await browser.read("document.getElementById('text').value"), "0 0 4 0 4 4 0 4\n1 1 1 2 2 1");
            });

            for (const [wrong, text, problem] of [
                ["no polygon", "LINESTRING (0 0, 1 1)", "WKT: only POLYGON and MULTIPOLYGON are read"],
                [
                    "a point that isn't safe",
                    "0 0 1073741824 0 0 4",
                    "point 1 is (1073741824, 0), and not strictly between -2**30 and 2**30, the safe range of 32 bits",
                ],
                ["a coordinate of more than 32 bits", "0 0 5000000000 0 0 4", "5000000000 has more than 32 bits: take a lesser scale"],
            ]) {
                check(`a text isn't read: ${wrong}`, async () => {
                    await page.paste("text", text);
                    await browser.clickOn("read");
                    assert.match(await page.text("problem"), new RegExp(`${problem.replace(/[()*]/g, "\\$&")}$`));
                    await page.texts({ given: "8 points in 2 rings", left: "7 points in 2 rings" });
                    await page.put([-1, -1]);
                    await page.texts({ given: "9 points in 2 rings", problem: "" });
                    await browser.clickOn("undo");
                });
            }

            for (const [other, text, verdict] of [
                ["from another start, with a straight point", "4 4 0 4 0 0 2 0 4 0", "the same polygons"],
                ["the other way round", "0 4 4 4 4 0 0 0", "the same polygons, but for the way round of a ring"],
                ["another one", "0 0 4 0 4 5", "other polygons"],
            ]) {
                check(`two polygons are compared: ${other}`, async () => {
                    await page.paste("text", "0 0 4 0 4 4 0 4");
                    await browser.clickOn("read");
                    await page.paste("other", text);
                    await browser.clickOn("compare");
                    await page.texts({ same: verdict, problem: "" });
                });
            }

            // The grids of the pictures in docs/pictures: Corsica on that of 800, and Hvar on that of 3000.
            check("a coastline on coarser grids, by keys", async () => {
                await page.texts({ "coast-grid": "800", "coast-given": "149 points", "coast-left": "67 points" });
                assert.match(await page.text("coast-time"), /^[0-9.e-]+ ms$/);
                await browser.read("document.getElementById('grid').focus()");
                await page.press("End");
                await browser.until("document.getElementById('coast-grid').textContent === '3000'");
                assert.equal(await browser.read("document.getElementById('grid').getAttribute('aria-valuetext')"), "3000");
                await browser.read("document.getElementById('island').focus()");
                await page.press("ArrowDown");
                await browser.until("document.getElementById('coast-given').textContent === '28 points'");
                await page.texts({ "coast-grid": "3000", "coast-left": "none: it collapses" });
            });

            check("nothing is out of the window, and nothing was thrown", async () => {
                await browser.clickOn("example");
                await page.texts({ given: "18 points in 2 rings", left: "10 points in 2 rings", removed: "8: 5 straight, 1 spike, 2 repeated" });
                await page.texts({ contact: "edges 3 and 5 meet, from (3, -3) and (4, 0)" });
                for (const link of await browser.read("Array.from(document.querySelectorAll('a, link'), ({ href }) => href)")) {
                    if (link.startsWith(served.url)) assert.equal((await fetch(link)).status, 200, link);
                }
                assert.ok(await browser.read("document.documentElement.scrollWidth <= innerWidth"));
                await browser.read("scrollTo(0, 0)");
                if (SCREENSHOTS) await browser.screenshot(path.join(SCREENSHOTS, `${name.replaceAll(" ", "_")}.png`));
                assert.deepEqual(browser.thrown, []);
            });
        });
    }
});

/** How the module is found, and what is said where it isn't. The recipes of the package run in Chromium. */
import assert from "node:assert/strict";
import { execFileSync, spawnSync } from "node:child_process";
import { mkdirSync, mkdtempSync, readdirSync, rmSync, symlinkSync, writeFileSync } from "node:fs";
import os from "node:os";
import path from "node:path";
import { after, before, describe, test } from "node:test";
import { fileURLToPath } from "node:url";
import { load } from "../src/i_shape.js";
import { Browser, isQuick, noChromium, serve } from "./support/chromium.js";

const PACKAGE = fileURLToPath(new URL("..", import.meta.url));
const POLICY = "default-src 'none'; script-src 'self' 'wasm-unsafe-eval'; connect-src 'self'; worker-src 'self'";
const CONTOUR = "Int32Array.of(0, 0, 2, 0, 4, 0, 4, 4, 0, 4)";
const FILES = {
    "/": ["text/html", '<!DOCTYPE html><script type="module" src="page.js"></script>'],
    "/page.js": ["text/javascript", `
        import { load } from "./src/i_shape.js";
        const own = (await load()).simplify(${CONTOUR});
        const worker = new Worker(new URL("worker.js", import.meta.url), { type: "module" });
        worker.onmessage = ({ data }) => (document.title = own.join(" ") + ", " + data.join(" "));
        worker.postMessage(${CONTOUR});`],
    "/worker.js": ["text/javascript", `
        import { load } from "./src/i_shape.js";
        const shapes = load();
        onmessage = async ({ data }) => {
            const left = (await shapes).simplify(data);
            postMessage(left, [left.buffer]);
        };`],
    "/page.wasm": ["text/html", "<!DOCTYPE html>"],
};

/** An app of a bundler that has the module from `source`. */
function appOf(source) {
    return `
        import { load } from "i_shape";
        import module from "i_shape/i_shape32.wasm";
        const shapes = await load(${source});
        console.log(shapes.simplify(${CONTOUR}).join(" "));`;
}

/** Hands a folder in which the package is installed to `use`. */
function inApp(use) {
    const folder = mkdtempSync(path.join(os.tmpdir(), "bundled-"));
    try {
        mkdirSync(path.join(folder, "node_modules"));
        symlinkSync(PACKAGE, path.join(folder, "node_modules/i_shape"));
        use(folder);
    } finally {
        rmSync(folder, { recursive: true });
    }
}

function bundle(folder, ...words) {
    execFileSync("esbuild", ["app.js", "--bundle", "--format=esm", "--outfile=out/app.mjs", "--log-level=warning", ...words], { cwd: folder });
}

/** Answers a request for one of these, under the policy. */
function answer(request, response) {
    const [type, text] = FILES[request.url] ?? [];
    response.setHeader("content-security-policy", POLICY);
    return type ? Boolean(response.writeHead(200, { "content-type": type }).end(text)) : false;
}

describe("loading", () => {
    let served;
    before(async () => (served = await serve(PACKAGE, answer)));
    after(() => served.server.close());

    test("the module of the package, and one by its URL", async () => {
        for (const shapes of [await load(), await load(new URL("../out/i_shape32.wasm", import.meta.url)), await load(new URL("out/i_shape32.wasm", served.url))]) {
            assert.equal(shapes.version, "0.2.0");
        }
    });

    for (const [name, path, message] of [["a module that isn't there", "none.wasm", /: 404 Not Found$/], ["what isn't a module", "page.wasm", /: WebAssembly\.compile/]]) {
        test(`${name} is named`, async () => {
            const { href } = new URL(path, served.url);
            for (const source of [new URL(href), fetch(href)]) {
                await assert.rejects(load(source), (error) => error.message.startsWith(href) && message.test(error.message) && error.cause instanceof Error);
            }
        });
    }

    test("a file that isn't there is named", async () => {
        const url = new URL("none.wasm", import.meta.url);
        await assert.rejects(load(url), (error) => error.message.startsWith(url.href) && error.cause.code === "ENOENT");
    });

    test("what load takes is named", async () => {
        for (const source of ["none.wasm", { module: 1 }, null]) {
            await assert.rejects(load(source), { name: "TypeError", message: /^load\(\) takes a URL, / });
        }
        await assert.rejects(load(new Uint8Array(4)), { name: "CompileError" });
    });

    const bundling = { skip: isQuick || (spawnSync("esbuild", ["--version"]).status !== 0 && "there is no esbuild") };
    for (const [loader, source, packed] of [
        ["file", "new URL(module, import.meta.url)", 2],
        ["binary", "module", 1],
    ]) {
        test(`bundled by esbuild, with the loader ${loader}`, bundling, () => inApp((folder) => {
            writeFileSync(path.join(folder, "app.js"), appOf(source));
            bundle(folder, `--loader:.wasm=${loader}`);
            rmSync(path.join(folder, "node_modules"), { recursive: true });
            assert.equal(execFileSync(process.execPath, ["out/app.mjs"], { cwd: folder, encoding: "utf8" }), "0 0 4 0 4 4 0 4\n");
            assert.equal(readdirSync(path.join(folder, "out")).length, packed);
        }));
    }

    test("bundled by esbuild without the module", bundling, () => inApp((folder) => {
        writeFileSync(path.join(folder, "app.js"), 'import { load } from "i_shape"; await load();');
        bundle(folder);
        const { status, stderr } = spawnSync(process.execPath, ["out/app.mjs"], { cwd: folder, encoding: "utf8" });
        assert.equal(status, 1);
        assert.match(stderr, /i_shape\d\d\.wasm: ENOENT.*: a bundler may have left the module out, and the README of i_shape shows how to name it/);
    }));

    test("imported by TypeScript", { skip: isQuick || (spawnSync("tsc", ["--version"]).status !== 0 && "there is no tsc") }, () => inApp((folder) => {
        writeFileSync(path.join(folder, "package.json"), '{ "type": "module" }');
        writeFileSync(path.join(folder, "app.ts"), appOf("new URL(module, import.meta.url)"));
        const words = ["--noEmit", "--strict", "--target", "es2022", "--lib", "es2022,dom", "--module", "node16", "--moduleResolution", "node16", "app.ts"];
        const { status, stdout } = spawnSync("tsc", words, { cwd: folder, encoding: "utf8" });
        assert.equal(status, 0, stdout);
    }));

    test("a page and its worker, under a strict policy", { skip: noChromium }, async () => {
        const browser = await Browser.open();
        try {
            await browser.goTo(served.url);
            await browser.until("document.title === '0 0 4 0 4 4 0 4, 0 0 4 0 4 4 0 4'");
            assert.deepEqual(browser.thrown, []);
        } finally {
            await browser.close();
        }
    });
});

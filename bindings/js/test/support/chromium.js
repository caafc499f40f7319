/** Debian's Chromium without a window, driven over its DevTools protocol by a pipe, and a file server for what it opens. */
import { spawn, spawnSync } from "node:child_process";
import { existsSync, mkdtempSync, readFileSync, rmSync, writeFileSync } from "node:fs";
import http from "node:http";
import os from "node:os";
import path from "node:path";

const TYPES = {
    ".css": "text/css",
    ".html": "text/html; charset=utf-8",
    ".js": "text/javascript",
    ".svg": "image/svg+xml",
    ".txt": "text/plain",
    ".wasm": "application/wasm",
};
const WORDS = ["--headless=new", "--no-sandbox", "--disable-gpu", "--disable-dev-shm-usage", "--no-first-run"];
const PATIENCE = 60_000;

/** Why tests that take seconds, as those in a browser, are skipped, or false. */
export const isQuick = Boolean(process.env.QUICK_TESTS) && "QUICK_TESTS is set";

/** Why no Chromium opens a page here, or false. */
export const noChromium = isQuick || (spawnSync("chromium", [...WORDS, "--dump-dom", "about:blank"], { timeout: PATIENCE }).status !== 0 && "there is no chromium");

/** Serves the files of a folder, but for requests that `takes` handles, and returns the server and the address of the folder. */
export async function serve(folder, takes = () => false) {
    const server = http.createServer((request, response) => {
        if (takes(request, response)) return;
        const name = new URL(request.url, "http://localhost").pathname;
        const file = path.join(folder, name.endsWith("/") ? `${name}index.html` : name);
        if (!existsSync(file)) response.writeHead(404).end();
        else response.writeHead(200, { "content-type": TYPES[path.extname(file)] ?? "application/octet-stream" }).end(readFileSync(file));
    });
    await new Promise((done) => server.listen(0, "127.0.0.1", done));
    return { server, url: `http://127.0.0.1:${server.address().port}/` };
}

/** What is sent for a key: its name is that of KeyboardEvent.key. */
const KEY_CODES = { ArrowLeft: 37, ArrowUp: 38, ArrowRight: 39, ArrowDown: 40, Backspace: 8, Enter: 13, Escape: 27, Tab: 9, Home: 36, End: 35, " ": 32 };

/** One page of a browser of its own. */
export class Browser {
    #process;
    #ended;
    #home = mkdtempSync(path.join(os.tmpdir(), "chromium-"));
    #waiting = new Map();
    #session;
    #unread = "";
    #next = 1;

    /** What the page has thrown and not caught. */
    thrown = [];

    /** Opens a window of a size. The text `before` runs in each page before its own scripts. */
    static async open({ width = 1100, height = 800, isDark = false, before } = {}) {
        const browser = new Browser();
        browser.#start();
        const { targetInfos } = await browser.send("Target.getTargets");
        const { targetId } = targetInfos.find(({ type }) => type === "page");
        browser.#session = (await browser.send("Target.attachToTarget", { targetId, flatten: true })).sessionId;
        await browser.send("Runtime.enable");
        await browser.send("Page.enable");
        await browser.resize(width, height);
        await browser.send("Emulation.setEmulatedMedia", { features: [{ name: "prefers-color-scheme", value: isDark ? "dark" : "light" }] });
        if (before) await browser.send("Page.addScriptToEvaluateOnNewDocument", { source: before });
        return browser;
    }

    #start() {
        const words = [...WORDS, "--remote-debugging-pipe", `--user-data-dir=${this.#home}`, "about:blank"];
        const stdio = ["ignore", "ignore", "ignore", "pipe", "pipe"];
        this.#process = spawn("chromium", words, { stdio });
        this.#process.stdio[4].on("data", (data) => this.#hear(data));
        this.#process.stdio[3].on("error", () => {}); // it has ended
        this.#ended = new Promise((done) => this.#process.once("exit", done));
        this.#ended.then(() => {
            for (const { fail } of this.#waiting.values()) fail(new Error("chromium has ended"));
        });
    }

    #hear(data) {
        const parts = (this.#unread + data).split("\0");
        this.#unread = parts.pop();
        for (const message of parts.map((part) => JSON.parse(part))) {
            if (message.id) {
                this.#answer(message);
            } else if (message.method === "Runtime.exceptionThrown") {
                this.thrown.push(message.params.exceptionDetails.exception?.description ?? message.params.exceptionDetails.text);
            }
        }
    }

    #answer({ id, error, result }) {
        const { method, done, fail } = this.#waiting.get(id);
        this.#waiting.delete(id);
        if (error) fail(new Error(`${method}: ${error.message}`));
        else done(result);
    }

    send(method, params = {}) {
        const id = this.#next++;
        this.#process.stdio[3].write(`${JSON.stringify({ id, method, params, sessionId: this.#session })}\0`);
        return new Promise((done, fail) => this.#waiting.set(id, { method, done, fail }));
    }

    async goTo(url) {
        await this.send("Page.navigate", { url });
    }

    async resize(width, height) {
        await this.send("Emulation.setDeviceMetricsOverride", { width, height, deviceScaleFactor: 1, mobile: false });
    }

    /** Returns the value of an expression in the page, awaited. */
    async read(expression) {
        const { result, exceptionDetails } = await this.send("Runtime.evaluate", { expression, awaitPromise: true, returnByValue: true });
        if (exceptionDetails) throw new Error(exceptionDetails.exception?.description ?? exceptionDetails.text);
        return result.value;
    }

    /** Waits until an expression in the page is true. */
    async until(expression) {
        for (const end = Date.now() + PATIENCE; Date.now() < end;) {
            if (await this.read(expression)) return;
            await new Promise((done) => setTimeout(done, 50));
        }
        throw new Error(`it never came true: ${expression}; thrown: ${this.thrown.join("; ")}`);
    }

    async move(x, y) {
        await this.send("Input.dispatchMouseEvent", { type: "mouseMoved", x, y });
    }

    async click(x, y) {
        await this.move(x, y);
        for (const type of ["mousePressed", "mouseReleased"]) await this.send("Input.dispatchMouseEvent", { type, x, y, button: "left", clickCount: 1 });
    }

    /** Clicks into the middle of the element with an id, after it is scrolled into view. */
    async clickOn(id) {
        const [x, y] = await this.read(`(() => {
            const element = document.getElementById(${JSON.stringify(id)});
            element.scrollIntoView({ block: "nearest" });
            const { left, top, width, height } = element.getBoundingClientRect();
            return [left + width / 2, top + height / 2];
        })()`);
        await this.click(x, y);
    }

    async press(key) {
        const text = key === "Enter" ? "\r" : key.length === 1 ? key : undefined;
        const common = { key, windowsVirtualKeyCode: KEY_CODES[key] ?? key.toUpperCase().charCodeAt(0) };
        await this.send("Input.dispatchKeyEvent", { type: text ? "keyDown" : "rawKeyDown", text, ...common });
        await this.send("Input.dispatchKeyEvent", { type: "keyUp", ...common });
    }

    /** Puts text where the focus is, as a paste does. */
    async insert(text) {
        await this.send("Input.insertText", { text });
    }

    async screenshot(file) {
        writeFileSync(file, Buffer.from((await this.send("Page.captureScreenshot", { format: "png" })).data, "base64"));
    }

    async close() {
        this.#session = undefined;
        this.send("Browser.close").catch(() => {});
        await this.#ended;
        rmSync(this.#home, { recursive: true, force: true });
    }
}

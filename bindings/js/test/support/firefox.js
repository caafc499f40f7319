/** Debian's Firefox without a window. Its page sends what a script returns there in a request, so that no protocol has to drive it. */
import { spawn, spawnSync } from "node:child_process";
import { mkdtempSync, rmSync } from "node:fs";
import os from "node:os";
import path from "node:path";
import { json } from "node:stream/consumers";
import { isQuick, serve } from "./chromium.js";

const PATIENCE = 120_000;

/** The words and the environment of a Firefox of its own, whose files lie in a folder. */
function own(home, ...words) {
    return ["firefox-esr", ["--headless", "--no-remote", "--profile", home, ...words], { ...process.env, HOME: home }];
}

/** Why no Firefox opens a page here, or false. */
export const noFirefox = isQuick || (() => {
    const none = "there is no firefox-esr";
    if (spawnSync("firefox-esr", ["--version"]).status !== 0) return none;
    const home = mkdtempSync(path.join(os.tmpdir(), "firefox-"));
    const [name, words, env] = own(home, "--screenshot", path.join(home, "blank.png"), "about:blank");
    const { status } = spawnSync(name, words, { env, timeout: PATIENCE });
    rmSync(home, { recursive: true, force: true });
    return status !== 0 && none;
})();

/** The page: `script` is the body of a function that may wait. */
function pageOf(script) {
    return `<!doctype html><meta charset="utf-8"><script type="module">
        const tell = (told) => fetch("/told", { method: "POST", body: JSON.stringify(told) });
        try {
            await tell({ answer: await (async () => { ${script} })() });
        } catch (error) {
            await tell({ thrown: \`\${error}\` });
        }
    </script>`;
}

/** What a script returns, as JSON keeps it, in a page beside the files of a folder. */
export async function readInFirefox(folder, script) {
    const home = mkdtempSync(path.join(os.tmpdir(), "firefox-"));
    let hear, fail;
    const told = new Promise((...both) => ([hear, fail] = both));
    const { server, url } = await serve(folder, (request, response) => {
        if (request.method === "POST") hear(json(request).finally(() => response.end()));
        else if (request.url === "/told.html") response.writeHead(200, { "content-type": "text/html; charset=utf-8" }).end(pageOf(script));
        else return false;
        return true;
    });
    const [name, words, env] = own(home, `${url}told.html`);
    const firefox = spawn(name, words, { stdio: "ignore", detached: true, env });
    const ended = new Promise((done) => firefox.once("exit", done));
    ended.then(() => fail(new Error("firefox-esr has ended")));
    const clock = setTimeout(() => fail(new Error("firefox-esr told nothing")), PATIENCE);
    try {
        const { answer, thrown } = await told;
        if (thrown !== undefined) throw new Error(thrown);
        return answer;
    } finally {
        clearTimeout(clock);
        try {
            process.kill(-firefox.pid);
        } catch (error) {
            if (error.code !== "ESRCH") throw error; // it has ended
        }
        await ended;
        server.closeAllConnections();
        server.close();
        rmSync(home, { recursive: true, force: true });
    }
}

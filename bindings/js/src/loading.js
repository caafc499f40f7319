/** How `load` makes the module of what it is given. An error names the URL, if there is one. */

// Only Node has this module. A variable and comments for bundlers keep them from looking for it.
const FILES = "node:fs/promises";

async function readFile(url) {
    const files = await import(/* webpackIgnore: true */ /* @vite-ignore */ FILES);
    return files.readFile(url);
}

/** Returns whether something is of a class that some engines lack. */
function isOf(name, given) {
    return typeof globalThis[name] === "function" && given instanceof globalThis[name];
}

/** Returns the module of a URL, of what `fetch` gives, or of bytes. */
async function compiledFrom(given) {
    if (isOf("URL", given) && given.protocol === "file:") return WebAssembly.compile(await readFile(given));
    const bytes = isOf("URL", given) ? await fetch(given) : given;
    if (!isOf("Response", bytes)) return WebAssembly.compile(bytes);
    if (!bytes.ok) throw new Error(`${bytes.status} ${bytes.statusText}`);
    return WebAssembly.compile(await bytes.arrayBuffer());
}

export async function compiled(source) {
    const given = await source;
    if (given instanceof WebAssembly.Module) return given;
    try {
        return await compiledFrom(given);
    } catch (error) {
        const url = isOf("URL", given) ? given.href : isOf("Response", given) ? given.url : "";
        if (url) throw new Error(`${url}: ${error.message}`, { cause: error });
        // Of what isn't bytes, an engine says that its own function was called wrongly.
        if (error instanceof TypeError && !isOf("Response", given)) throw new TypeError("load() takes a URL, a Response, bytes or a WebAssembly.Module", { cause: error });
        throw error;
    }
}

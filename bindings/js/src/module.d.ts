/** What `import module from "i_shape/i_shape32.wasm"` is depends on the bundler: the name of a file, or the bytes. `load` takes a URL of the first, and the second. */
declare const module: any;
export default module;

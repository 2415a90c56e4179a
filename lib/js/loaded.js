// Loads the module: in node the one that DIMACS_WASM names, else the one of this package, else the proved one that
// `make wasm` built; elsewhere that of this package.
import {Library, Texts} from "./library.js";

const OWN = new URL("dimacs.wasm", import.meta.url);
const BUILT = new URL("../../build/wasm/dimacs.wasm", import.meta.url);

async function bytesInNode() {
    const {existsSync, readFileSync} = await import("node:fs");
    const named = process.env.DIMACS_WASM;
    return readFileSync(named ? named : existsSync(OWN) ? OWN : BUILT);
}

async function compiled() {
    if (globalThis.process?.versions?.node) return WebAssembly.compile(await bytesInNode());
    const response = await fetch(OWN);
    if (!response.ok) throw new Error(`${OWN}: ${response.status} ${response.statusText}`);
    return WebAssembly.compile(await response.arrayBuffer());
}

export const library = new Library(await compiled());
export const texts = new Texts(library);

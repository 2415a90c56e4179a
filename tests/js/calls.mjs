// Makes calls of dimacs.wasm for through.py: calls.mjs MODULE
//
// A line of JSON names a call and gives its arguments: a number of 32 bits (n) or 64 (q), or the bytes to which a
// pointer leads (b), and by their places in these the arrays to which pointers there lead. The line of JSON that goes
// back has the status, and all bytes that may be written.
import {readFileSync} from "node:fs";
import {createInterface} from "node:readline";

const {exports} = new WebAssembly.Instance(new WebAssembly.Module(readFileSync(process.argv[2])));
let held = [];

function put(bytes) {
    const at = exports.malloc(BigInt(bytes.length || 1));
    if (at === 0n) throw new Error("no memory");
    held.push(at);
    new Uint8Array(exports.memory.buffer).set(bytes, Number(at));
    return at;
}

const decoded = (text) => Buffer.from(text, "base64");

/** The word of an argument. The memory that may be written is noted. */
function word({n, q, b, arrays = {}, written}, noted) {
    if (b === undefined) return n ?? BigInt(q);
    const bytes = decoded(b);
    for (const [place, array] of Object.entries(arrays)) bytes.writeBigUInt64LE(put(decoded(array)), Number(place));
    const at = put(bytes);
    if (written) noted.push([Number(at), Number(at) + bytes.length]);
    return at;
}

function answer({name, args}) {
    const noted = [], given = args.map((it) => word(it, noted));
    const status = exports[name](...given) >>> 0;
    const memory = Buffer.from(exports.memory.buffer);
    const written = noted.map((it) => memory.subarray(...it).toString("base64"));
    held.forEach((it) => exports.free(it));
    held = [];
    return {status, written};
}

for await (const line of createInterface({input: process.stdin})) {
    process.stdout.write(`${JSON.stringify(answer(JSON.parse(line)))}\n`);
}

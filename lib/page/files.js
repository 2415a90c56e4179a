// Files: their bytes, what gzip packed, and their sums.
import {many, shown, textOf} from "./kinds.js";

/** More bytes are refused, packed or not: an array of bytes can't be longer everywhere. */
const MOST_BYTES = 2 ** 31 - 1;

/** What is wrong with a file, by the name of the error. */
const FAULTS = {
    AbortError: "it was stopped",
    RangeError: "it has more than 2 GB, or more than there is memory for: use the command dimacs",
    EncodingError: "it can't be unpacked: it isn't whole, or other bytes follow",
};

/** How many bytes there are, and their SHA-256. */
export async function factsOf(bytes) {
    const sum = await globalThis.crypto?.subtle?.digest("SHA-256", bytes).catch(() => null);
    const hex = sum && [...new Uint8Array(sum)].map((it) => it.toString(16).padStart(2, "0")).join("");
    const missing = "no SHA-256, which a browser computes for pages from a file, https or localhost";
    return `${many(bytes.length, "byte")}, ${hex ? `SHA-256 ${hex}` : missing}`;
}

/** The bytes of a stream, which come after so many others, if no signal stops it. */
async function gathered(stream, signal, length = 0) {
    const parts = [];
    for (const reader = stream.getReader(); ; ) {
        const {done, value} = await reader.read();
        signal.throwIfAborted();
        if (done) return new Uint8Array(await new Blob(parts).arrayBuffer());
        length += value.length;
        if (length > MOST_BYTES) throw new RangeError();
        parts.push(value);
    }
}

/** Where the next member of a gzip file may begin: as each does, with at most five flags. */
function memberAfter(bytes, at) {
    do at = bytes.indexOf(0x1f, at + 1);
    while (at >= 0 && !(bytes[at + 1] === 0x8b && bytes[at + 2] === 8 && bytes[at + 3] < 32));
    return at < 0 ? bytes.length : at;
}

/** What gzip packed, in one member or several: only trying shows where one ends. */
async function unpacked(bytes, signal) {
    const packed = new Blob([bytes]), parts = [];
    for (let from = 0, to = 0, length = 0; from < bytes.length; ) {
        to = memberAfter(bytes, to);
        const stream = packed.slice(from, to).stream().pipeThrough(new DecompressionStream("gzip"));
        const part = await gathered(stream, signal, length).catch((why) => {
            if (why.name !== "TypeError") throw why;
            if (to === bytes.length) throw new DOMException("", "EncodingError");
        });
        if (!part) continue;
        parts.push(part);
        length += part.length;
        from = to;
    }
    return new Uint8Array(await new Blob(parts).arrayBuffer());
}

/** What a file holds, what is shown of it, and the sums of the very bytes that were read; or what is wrong with it. */
export async function read(given, signal) {
    const file = given.name.replace(/[\p{Cc}\p{Zl}\p{Zp}]/gu, "\ufffd");
    try {
        if (given.size > MOST_BYTES) throw new RangeError();
        const own = await gathered(given.stream(), signal), isPacked = own[0] === 0x1f && own[1] === 0x8b;
        const bytes = isPacked ? await unpacked(own, signal) : own, all = isPacked ? [own, bytes] : [own];
        const facts = (await Promise.all(all.map(factsOf))).join("; unpacked by gzip: ");
        return {file, ...textOf(bytes), ...shown(bytes), facts, bad: bytes.length ? "" : "it is empty"};
    } catch (why) {
        const bad = FAULTS[why.name] ?? "it can't be read: it isn't a file, or has changed";
        return {file, ...textOf(new Uint8Array(0)), text: "", bad};
    }
}

#!/usr/bin/env node
// The command, on each system that has node: its arguments, output, files and statuses. Texts go through dimacs.wasm.
import {closeSync, fstatSync, openSync, readSync, statSync, writeSync} from "node:fs";
import {constants} from "node:os";
import {DEVICE, DONE, FILES, NO_MEMORY, OutOfMemory, RUN} from "./library.js";

const COMPLAINTS = {[DEVICE]: "dimacs: device fault", [NO_MEMORY]: "dimacs: out of memory"};
const STDOUT = 1, STDERR = 2;

/** At most so many bytes are written at once. */
const PIECE = 2 ** 30;

/** A line of more bytes is refused, whatever follows. So many are read at once too. */
const LINE = 2 ** 20;

/** Why the system failed, where node has other words than the C library. */
const REASONS = {
    EIO: "Input/output error",
    EISDIR: "Is a directory",
    ELOOP: "Too many levels of symbolic links",
    ENAMETOOLONG: "File name too long",
    ETXTBSY: "Text file busy",
};

/** An I/O error: what failed, and how. */
class Failure extends Error {
    constructor(shown, call, {code, message}) {
        const words = /^\w+: (.*?)(, \w+( '.*')?)?$/s.exec(message)?.[1] ?? message;
        const reason = REASONS[code] ?? words[0].toUpperCase() + words.slice(1);
        super(`dimacs: ${shown}: cannot be ${call}: ${reason} (os error ${constants.errno[code] ?? code})`);
    }
}

function attempt(shown, call, run) {
    try {
        return run();
    } catch (why) {
        if (why.code === "ERR_OUT_OF_RANGE" || why instanceof RangeError) throw new OutOfMemory();
        throw new Failure(shown, call, why);
    }
}

/** For each word the place of the first that names the same regular file, or its own. */
function sameOf(words) {
    const first = new Map();
    return words.map((name, place) => {
        const file = identity(name) ?? place;
        if (!first.has(file)) first.set(file, place);
        return first.get(file);
    });
}

function identity(name) {
    try {
        const it = statSync(name, {bigint: true});
        return it.isFile() ? `${it.dev} ${it.ino}` : null;
    } catch {
        return null;
    }
}

/** The bytes of a file, or those up to a line that is too long. */
function readAll(file) {
    let room = Buffer.allocUnsafe(Math.max(fstatSync(file).size + 1, 65536)), length = 0, line = 0;
    while (line <= LINE) {
        const got = readSync(file, room, length, Math.min(room.length - length, LINE), null);
        if (got === 0) break;
        const end = room.subarray(length, length + got).lastIndexOf(10);
        line = end < 0 ? line + got : got - end - 1;
        length += got;
        if (length === room.length) room = Buffer.concat([room, Buffer.allocUnsafe(length)]);
    }
    return room.subarray(0, length);
}

function writeAll(file, bytes) {
    for (let at = 0; at < bytes.length; ) {
        try {
            at += writeSync(file, bytes, at, Math.min(bytes.length - at, PIECE));
        } catch (why) {
            if (why.code !== "EAGAIN") throw why;
            Atomics.wait(new Int32Array(new SharedArrayBuffer(4)), 0, 0, 5);
        }
    }
}

/** The texts of the files that are read, in their order, up to the first that fails, which is `failure`. */
function readTexts(files, opened) {
    const read = [];
    for (const [i, {shown}] of files.entries()) {
        try {
            read.push(attempt(shown, "read", () => readAll(opened[i])));
        } catch (failure) {
            return {read, failure};
        }
    }
    return {read, failure: null};
}

function open({name, shown}, call, flags) {
    return attempt(shown, call, () => openSync(name, flags));
}

function write(shown, file, text) {
    attempt(shown, "written", () => writeAll(file, text));
}

/** Runs a command over its files. One to create is there before others are read, one to write is if there is a text. */
function run(texts, words, files) {
    const reads = files.filter((it) => it.mark === "r"), writes = files.filter((it) => it.mark !== "r");
    const opened = reads.map((it) => open(it, "opened", "r"));
    const created = writes.map((it) => (it.mark === "c" ? open(it, "created", "w") : null));
    const {read, failure} = readTexts(reads, opened);
    const unread = failure ? read.length + 1 : 0;
    // A name has one text: the library takes one with two for a pipe.
    const named = new Map(read.map((text, i) => [reads[i].name, text]));
    const given = reads.map(({name}, i) => read[i] ?? named.get(name) ?? Buffer.alloc(0));
    const {status, handed: [printed, ...made]} = texts.command(FILES, words, given, unread);
    if (status === DEVICE) throw failure;
    opened.forEach((it) => closeSync(it));
    for (const [i, it] of writes.entries()) {
        if (created[i] !== null || made[i].length) write(it.shown, created[i] ?? open(it, "created", "w"), made[i]);
    }
    print(printed);
    return status;
}

/** Writes to the standard error. If it can't be written, the status alone tells. */
function tell(text) {
    try {
        writeAll(STDERR, Buffer.from(text));
    } catch {
        return;
    }
}

function print(text) {
    write("standard output", STDOUT, Buffer.from(text));
}

const TRANSLATED = "compiled to WebAssembly, by a translation that isn't proved\n";

/** The status of a run, after a complaint if it ends without an answer. */
function ended(run) {
    try {
        return run();
    } catch (why) {
        if (!(why instanceof Failure) && !(why instanceof OutOfMemory)) throw why;
        const status = why instanceof Failure ? DEVICE : NO_MEMORY;
        tell(`${COMPLAINTS[status]}\n${status === DEVICE ? `${why.message}\n` : ""}`);
        return status;
    }
}

/** What the words of a command ask for: a status, and a text, or the files of a run and what is told after it. */
function asked(texts, words) {
    // Node puts U+FFFD in place of bytes that aren't UTF-8; so does one byte here.
    const given = words.map((it) => (it.includes("\uFFFD") ? Buffer.of(0xff, 0) : Buffer.from(`${it}\0`)));
    const {status, handed: [text]} = texts.request(Buffer.concat(given), sameOf(words));
    if (status !== RUN) return {status, text};
    const [marks, ...lines] = Buffer.from(text).toString().split("\n");
    const files = words.map((name, i) => ({mark: marks[i], name})).filter(({mark}) => mark !== "-");
    files.forEach((it, i) => (it.shown = lines[i]));
    return {status, files, told: lines.slice(files.length).join("\n")};
}

/** Does what arguments ask for, and returns the status. */
function answered(texts, words) {
    const {status, text, files, told} = asked(texts, words);
    if (status === RUN) {
        const found = ended(() => run(texts, words, files));
        tell(told);
        return found;
    }
    if (status === DONE) print(["--version", "-V"].includes(words[0]) ? Buffer.from(text) + TRANSLATED : text);
    else tell(text);
    return status;
}

// Whatever else fails, as a call that the engine ended, leaves a claim undecided: node's own status would be a no.
try {
    const {texts} = await import("./loaded.js");
    process.exitCode = ended(() => answered(texts, process.argv.slice(2)));
} catch (why) {
    tell(`dimacs: ${String(why?.message ?? why).split("\n")[0]}\n`);
    process.exitCode = NO_MEMORY;
}

// The WebAssembly module of the library, and how one of its calls is made.

/** What a call returns, as in dimacs.h. */
export const DONE = 0, REFUSED = 1, MISUSED = 2, DEVICE = 3, NO_MEMORY = 4, GAVE_UP = 5, RUN = 6;

/** What the texts of a command are: files, in no file, or made of arrays. */
export const FILES = 0, IN_NO_FILE = 1, OF_ARRAYS = 2;

/** The kinds of claim, and those of text, as in dimacs.h. */
export const PROBLEMS = {max: 0, min: 1, infeasible: 2, paths: 3};
export const TEXTS = {max: 0, min: 1, gr: 2, query: 3, solution: 4, cut: 5, pot: 6, dist: 7, distances: 8};

/** Throws for what is no kind of text. */
export function testKind(kind) {
    if (Object.hasOwn(TEXTS, kind)) return;
    throw new RangeError(`${kind} is no kind of text: these are ${Object.keys(TEXTS).join(", ")}`);
}

/** The limit of solvers if none is given. */
export const LIMIT = 1_000_000n;

/** Room for any line, except for answers to pairs. */
export const LINE = 256;

/** The most memory in bytes that an instance keeps after a call: it never shrinks, so one with more is dropped. */
const MOST_KEPT = 2 ** 28;

/** There wasn't enough memory: the claim is undecided. */
export class OutOfMemory extends Error {
    constructor() {
        super("there was not enough memory to judge");
        this.name = "OutOfMemory";
    }
}

/** The WebAssembly engine ended a call: the claim is undecided. `cause` is what it threw. */
export class Trapped extends Error {
    constructor(cause) {
        super(`the engine ended the call: ${cause?.message ?? cause}`, {cause});
        this.name = "Trapped";
    }
}

/** Room for items that a call hands out: so many of a typed array's kind, or of each of these kinds. */
export class Room {
    constructor(kinds, length) {
        this.kinds = [kinds].flat();
        this.length = length;
    }

    /** A room that has place for so many items too. */
    for(length) {
        return new Room(this.kinds, Math.max(length, this.length));
    }
}

/** A number that a call hands out, which is an item of a typed array's kind. */
export class One {
    constructor(kind) {
        this.kind = kind;
        this.length = 1;
    }

    for() {
        return this;
    }
}

/** An instance in arrays: its numbers, and then the address and the length of each array. */
export class InArrays {
    constructor(numbers, arrays) {
        this.numbers = numbers;
        this.arrays = arrays;
    }
}

/** The memory that one call takes in an instance of the module. */
class Held {
    constructor(exports) {
        this.exports = exports;
        this.addresses = [];
    }

    take(bytes) {
        const at = this.exports.malloc(BigInt(bytes || 1));
        if (at === 0n) throw new OutOfMemory();
        this.addresses.push(at);
        return at;
    }

    /** The items of a typed array, copied, and their number. */
    array(it) {
        const at = this.take(it.byteLength), bytes = new Uint8Array(it.buffer, it.byteOffset, it.byteLength);
        new Uint8Array(this.exports.memory.buffer).set(bytes, Number(at));
        return [at, BigInt(it.length)];
    }

    inArrays({numbers, arrays}) {
        const head = Math.ceil(numbers.length / 2) * 8;
        const fields = arrays.flatMap((it) => this.array(it));
        const at = this.take(head + 8 * fields.length);
        const view = new DataView(this.exports.memory.buffer, Number(at), head + 8 * fields.length);
        numbers.forEach((it, i) => view.setUint32(4 * i, it, true));
        fields.forEach((it, i) => view.setBigUint64(head + 8 * i, it, true));
        return [at];
    }

    /** The arguments in C for one that is given here. */
    words(it) {
        if (ArrayBuffer.isView(it)) return this.array(it);
        return it instanceof InArrays ? this.inArrays(it) : [it];
    }

    copied(items, at, length) {
        const bytes = length * items.BYTES_PER_ELEMENT;
        return new items(this.exports.memory.buffer.slice(Number(at), Number(at) + bytes));
    }

    /** The arguments for what is handed out, and after the call the number of its items, and these. */
    handed(it) {
        if (it instanceof One) {
            const at = this.take(8);
            return {words: [at], count: () => 1, items: () => [this.copied(it.kind, at, 1)[0]]};
        }
        const {kinds, length} = it, needed = this.take(8);
        const places = kinds.map((kind) => this.take(length * kind.BYTES_PER_ELEMENT));
        const count = () => Number(this.copied(BigUint64Array, needed, 1)[0]);
        return {
            words: [...places.flatMap((at) => [at, BigInt(length)]), needed],
            count,
            items: () => kinds.map((kind, i) => this.copied(kind, places[i], count())),
        };
    }

    free() {
        for (const it of this.addresses) this.exports.free(it);
        this.addresses = [];
    }
}

/** The library: an instance of its module. It is dropped after a call that trapped, or had too little or much memory. */
export class Library {
    #module;
    #exports;

    constructor(module) {
        this.#module = module;
    }

    /** The exports of the instance. */
    #calls() {
        this.#exports ??= new WebAssembly.Instance(this.#module).exports;
        return this.#exports;
    }

    /** Whether the module was compiled from code that is proved. */
    get proved() {
        return this.#calls().dimacs_proved() !== 0;
    }

    /** The version, such as "0.2.0". */
    get version() {
        return this.description.split(" ")[0];
    }

    /** The version, and what proved the code that was compiled, such as "0.2.0 (not proved)". */
    get description() {
        return String.fromCharCode(...this.call("dimacs_version_text", [], [new Room(Uint8Array, LINE)]).handed[0]);
    }

    /**
     * Makes a call. Of its arguments a number is one of 32 bits, a BigInt one of 64, and a typed array its address and
     * length. It is made again with more room if something that it hands out doesn't fit. Returns its status, and what
     * was handed out: numbers, and the arrays of each room.
     */
    call(name, given, rooms) {
        const held = new Held(this.#calls());
        let isWhole = false;
        try {
            const words = given.flatMap((it) => held.words(it));
            const answer = this.#ask(held, name, words, rooms);
            isWhole = answer.status !== NO_MEMORY;
            if (!isWhole) throw new OutOfMemory();
            return answer;
        } finally {
            if (isWhole && held.exports.memory.buffer.byteLength <= MOST_KEPT) held.free();
            else this.#exports = undefined;
        }
    }

    #ask(held, name, words, rooms) {
        for (;;) {
            const places = rooms.map((it) => held.handed(it));
            const status = run(held.exports[name], [...words, ...places.flatMap((it) => it.words)]);
            const counts = places.map((it) => it.count());
            if (counts.every((it, i) => it <= rooms[i].length)) {
                return {status, handed: places.flatMap((it) => it.items())};
            }
            rooms = rooms.map((it, i) => it.for(counts[i]));
        }
    }
}

function run(call, words) {
    try {
        return call(...words) >>> 0;
    } catch (why) {
        throw new Trapped(why);
    }
}

/** In place of a text that a call doesn't read. */
const NONE = new Uint8Array(0);

/** How many texts the call of a command takes, and how much room it is given at first, by the lengths of two of them. */
export const VERBS = {
    judge: [3, () => [LINE]],
    certify: [2, (first, second) => [LINE, LINE + first + second]],
    spread: [2, (first, second) => [LINE, LINE + first + second]],
    // An answer to a query is a longer line than the query, and a potential or label may be one than an arc.
    solve: [2, (first, second) => [LINE + 4 * second, LINE + first, LINE + 2 * first]],
    convert: [1, (first) => [LINE + first]],
    show: [1, () => [LINE]],
};

/** The calls over texts, as bytes. Each returns its status, and the texts that it handed out, the printed one first. */
export class Texts {
    constructor(library) {
        this.library = library;
    }

    #call(name, given, rooms) {
        return this.library.call(name, given, rooms.map((length) => new Room(Uint8Array, length)));
    }

    /** Makes the call of a command over the texts that it reads. */
    run(verb, kind, texts, limit = LIMIT) {
        const [count, roomsFor] = VERBS[verb], isOfSet = verb === "judge" && kind === "infeasible";
        const read = isOfSet ? [texts[0], NONE, texts[1]] : [...texts, NONE].slice(0, count);
        const words = [(count === 1 ? TEXTS : PROBLEMS)[kind], ...read, ...(verb === "solve" ? [limit] : [])];
        return this.#call(`dimacs_${verb}`, words, roomsFor(...read.map((it) => it.length)));
    }

    /** What words ask for that end with a byte 0 each; `same` has for each the place of the first that names the same file. */
    request(words, same) {
        return this.#call("dimacs_request", [words, Uint32Array.from(same)], [16 * LINE]);
    }

    /** Runs a command over the texts of its files, of which the one at the place `unread`, from 1, can't be read. */
    command(form, words, given, unread = 0) {
        const read = [...given, NONE, NONE, NONE].slice(0, 3), [verb, kind] = words[words[0] === "explain" ? 1 : 0].split("-");
        const [printed, ...made] = VERBS[verb][1](read[0].length, read[1].length);
        const ofFiles = verb === "solve" && kind === "paths" ? made.slice(1) : made;
        const rooms = [printed + 16 * LINE, ...ofFiles, 0, 0].slice(0, 3);
        return this.#call("dimacs_command", [form, endedWords(words), unread, ...read], rooms);
    }
}

/** The words of a command as the library takes them. */
function endedWords(words) {
    return new TextEncoder().encode(words.map((it) => `${it}\0`).join(""));
}

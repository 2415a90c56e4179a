// Texts as arrays, and back.
import {linesOf, throwRefused, throwUndecided} from "./answers.js";
import {bytesOf, inFormOf} from "./bytes.js";
import {SINGLE, explanation, kept} from "./explained.js";
import {ARRAYS, FORMS, Given} from "./given.js";
import {DONE, LINE, One, Room, testKind} from "./library.js";
import {library} from "./loaded.js";
import {IDS, NUMBERS, UNREACHED} from "./numbers.js";

/** The call for each kind of text, and what it hands out: numbers, arrays of the same length, and others. */
const SHAPES = {
    max: {name: "max", numbers: ["nodes", "source", "sink"], same: ["tails", "heads", "caps"], others: []},
    min: {name: "min", numbers: ["nodes"], same: ["tails", "heads", "lows", "caps", "costs"], others: ["supplies"]},
    gr: {name: "graph", numbers: ["nodes"], same: ["tails", "heads", "weights"], others: []},
    query: {name: "queries", numbers: ["pairs"], same: ["froms", "tos"], others: []},
    solution: {name: "solution", numbers: ["value"], same: [], others: ["flows"]},
    cut: {name: "cut", numbers: [], same: [], others: ["inside"]},
    pot: {name: "potentials", numbers: [], same: [], others: ["potentials"]},
    dist: {name: "labels", numbers: ["radius"], same: [], others: ["distances", "predecessors"]},
    distances: {name: "distances", numbers: [], same: [], others: ["distances"]},
};

/** What comes beside a text of these kinds. */
const BESIDE = {solution: "its instance", dist: "the source of a block", distances: "the source of a block"};

/** About as many bytes as an arc has, at least. */
const LEAST = 8;

/** About as many bytes as a line has, at most. */
const MOST = 32;

function testBeside(kind, beside) {
    const comes = Object.hasOwn(BESIDE, kind) ? `with ${BESIDE[kind]}` : "alone";
    if ((beside === undefined) !== (comes === "alone")) throw new TypeError(`a text of the kind ${kind} comes ${comes}`);
}

/** The arcs of an instance, of which a solution is: their number of nodes and their ends. */
class Arcs extends Given {
    constructor(instance) {
        super("arcs", instance);
        const {numbers: {nodes}, arrays: {tails, heads}} = this.asked;
        this.words = [nodes, tails, heads];
    }
}

/** Numbers of 64 bits. */
const WIDE = ["value", "radius"];

/** The items of an array; those of queries are IDs. */
const itemsOf = (name) => ARRAYS[name]?.[0] ?? IDS;
const arrayOf = (name) => itemsOf(name).array;

/** Room for what a text of so many bytes holds. What has more items gets more room. */
function roomsFor({numbers, same, others}, bytes) {
    const length = Math.ceil(bytes / LEAST), rooms = numbers.map((it) => new One(WIDE.includes(it) ? BigInt64Array : Uint32Array));
    if (same.length) rooms.push(new Room(same.map(arrayOf), length));
    return [new Room(Uint8Array, LINE), ...rooms, ...others.map((it) => new Room(arrayOf(it), length))];
}

/** What the call takes before and after the text, and what is said of a number past its limit. */
function around(kind, beside) {
    if (kind === "solution") {
        const {words, say} = new Arcs(beside);
        return {before: words, after: [], say};
    }
    return {before: [], after: beside === undefined ? [] : [beside]};
}

/** The value of what was handed out. */
function madeOf(kind, found, beside) {
    if (kind === "query") return {froms: found.froms, tos: found.pairs ? found.tos : null};
    if (kind === "distances") return {source: beside, ...found};
    if (kind !== "dist") return found;
    const {radius, ...arrays} = found;
    return {source: beside, ...arrays, radius: radius === UNREACHED ? null : radius};
}

/** Makes a call, and keeps what it throws with what explains it. */
function explaining(kind, text, of, call) {
    try {
        call();
    } catch (no) {
        throw kept(no, () => explained(no, kind, text, of));
    }
}

/** The lines of a text's fault, or of what arrays alone refuse. */
function explained({printed, reason, line, node}, kind, text, of) {
    const lines = explanation(`show ${kind}`, [text]), source = kind.startsWith("dist") ? of : null;
    const begins = (it, letters, id) => new RegExp(`^[${letters}]\\s+\\+?0*${id}\\s`).test(it);
    if (lines.startsWith(`${printed}\n`)) return lines;
    if (kind === "solution" && reason !== "NumberRange") return ofEntry(of, text);
    const name = SINGLE[kind] ?? "instance", records = inFormOf("", bytesOf(text)).split("\n").map((it) => it.trim());
    const sources = records.filter((it) => it.startsWith("t ")).map((it) => it.split(/\s+/)[1]);
    if (reason === "BlockMissing") {
        const listed = [...sources.slice(0, 8), ...(sources.length > 8 ? [".."] : [])].join(", ");
        const has = `${name} has no block from source ${source}; its blocks are from ${listed}`;
        return `${printed}\n${has}; ${sources.length} in all\n`;
    }
    const begin = source === null ? 0 : records.findIndex((it) => begins(it, "t", source));
    const found = line ? line - 1 : records.findIndex((it, i) => i >= begin && begins(it, "tyd", node));
    const wide = source === null ? "numbers of 64 bits" : "distances below 2^63 - 1";
    return `${printed}\n${name}:${found + 1}: ${records[found]}\narrays have ${wide}\n`;
}

/** What the certifier says of an entry that belongs to no arc, over arcs that carry nothing. */
function ofEntry(instance, text) {
    const {arcs, nodes} = new Arcs(instance).counts, none = new BigInt64Array(arcs);
    const [kind, arrays] = Object.hasOwn(instance, "sink")
        ? ["max", {caps: none}]
        : ["min", {lows: none, caps: none, costs: none, supplies: new BigInt64Array(nodes)}];
    return explanation(`certify-${kind}`, [write(kind, {...instance, ...arrays}), text]);
}

/** A text as arrays. */
export function read(kind, text, beside) {
    testKind(kind);
    testBeside(kind, beside);
    const form = SHAPES[kind], {name, numbers, same, others} = form;
    const of = beside === undefined || kind === "solution" ? beside : IDS.one(beside, "source");
    const {before, after, say} = around(kind, of), bytes = bytesOf(text);
    const words = [...before, bytes, ...after], rooms = roomsFor(form, bytes.length);
    const {status, handed: [line, ...found]} = library.call(`dimacs_read_${name}`, words, rooms);
    throwUndecided(status, linesOf(line), {say});
    explaining(kind, text, of, () => throwRefused(status, linesOf(line)));
    return madeOf(kind, Object.fromEntries([...numbers, ...same, ...others].map((it, i) => [it, found[i]])), of);
}

/** What the call takes that writes what isn't about arcs: numbers, then arrays, all of one length. */
function wordsOf(kind, value) {
    const names = kind !== "query" ? SHAPES[kind].others : (value.tos ?? null) === null ? ["froms"] : ["froms", "tos"];
    const arrays = names.map((it) => itemsOf(it).all(value[it], it)), [{length}] = arrays;
    arrays.forEach((it, i) => {
        if (it.length !== length) throw new RangeError(`${names[i]} has ${it.length} items, and ${names[0]} has ${length}`);
    });
    if (kind === "query") return [arrays.length - 1, arrays[0], arrays[1] ?? new Uint32Array(0)];
    return Object.hasOwn(BESIDE, kind) ? [IDS.one(value.source, "source"), ...arrays] : arrays;
}

/** What the call takes that writes a value, about how many lines it writes, and what is said of a number past its limit. */
function given(kind, value, instance) {
    const form = kind === "gr" ? "graph" : kind, isOverArcs = kind === "solution" || Object.hasOwn(FORMS, form);
    if (!isOverArcs) {
        const words = wordsOf(kind, value), items = words.find(ArrayBuffer.isView);
        return {words, lines: items.reduce((count, it) => count + (it ? 1 : 0), 0)};
    }
    const arcs = kind === "solution" ? new Arcs(instance).addArray("flows", value.flows) : new Given(form, value);
    const claimed = kind === "solution" ? [NUMBERS.one(value.value, "value")] : [];
    return {words: [...claimed, ...arcs.words], lines: arcs.counts.arcs, say: arcs.say};
}

/** The canonical text of what read returns, or of an object with the same fields. */
export function write(kind, value, instance) {
    testKind(kind);
    if (kind === "solution" || instance !== undefined) testBeside(kind, instance);
    if (Object(value) !== value) throw new TypeError("a value is an object of numbers and arrays, as read returns it");
    if ((value.radius ?? null) !== null) throw new RangeError(`labels with a radius, here ${value.radius}, aren't written`);
    const {words, lines, say} = given(kind, value, instance), rooms = [new Room(Uint8Array, LINE + MOST * lines)];
    const {status, handed: [text]} = library.call(`dimacs_write_${SHAPES[kind].name}`, words, rooms);
    const first = linesOf(text.subarray(0, status === DONE ? 0 : LINE));
    throwUndecided(status, first, {say});
    throwRefused(status, first);
    return inFormOf("", text);
}

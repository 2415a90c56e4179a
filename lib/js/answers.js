// What calls return, and what they throw.
import {explanationOf} from "./explained.js";
import {DONE, GAVE_UP, MISUSED} from "./library.js";

export {UNREACHED} from "./numbers.js";

/** In place of a distance: it is greater than this radius, or there is no walk. */
export class Beyond {
    constructor(radius) {
        this.radius = radius;
    }
}

/** A yes. */
export class Verdict {
    constructor(kind, value = null, pairs = []) {
        this.kind = kind;
        this.value = value;
        this.pairs = pairs;
    }

    explain() {
        return explanationOf(this);
    }
}

/** Lets objects of a class have a part by other names too. */
function alsoCalled(type, part, ...names) {
    const get = function () { return this[part]; };
    for (const name of names) Object.defineProperty(type.prototype, name, {get, configurable: true});
}

/** A yes, with a certificate by which the judge answers yes too. */
export class Certified {
    constructor(value, certificate) {
        this.value = value;
        this.certificate = certificate;
    }

    explain() {
        return explanationOf(this);
    }
}

/** An answer, which was judged before it was returned. */
export class Solved extends Certified {
    constructor(value, solution, certificate) {
        super(value, certificate);
        this.solution = solution;
    }
}

alsoCalled(Certified, "certificate", "inside", "potentials", "predecessors");
alsoCalled(Solved, "solution", "flows", "distances", "pairs");

function placed({text, line, field, arc, node}, reason) {
    if (text) return `${text} ${line} ${field} ${reason}`;
    return arc ? `arc ${arc} ${reason}` : `node ${node} ${reason}`;
}

const NOWHERE = {text: null, line: null, field: null, arc: null, node: null};

/** A no: the fault of a text, or the first test that fails. */
export class Refused extends Error {
    constructor(reason, place = {}, message = placed(place, reason)) {
        super(message);
        this.name = new.target.name;
        Object.assign(this, NOWHERE, place, {reason});
    }

    /** The line that the command prints. */
    get printed() {
        return `x ${placed(this, this.reason)}`;
    }

    explain() {
        return explanationOf(this);
    }
}

/** The first number of an instance in arrays that is past its limit: nothing was judged. */
export class PastLimit extends RangeError {
    constructor(reason, place, said = "") {
        super(placed(place, reason) + said);
        this.name = "PastLimit";
        Object.assign(this, {arc: null, node: null}, place, {reason});
    }
}

/** The flow is feasible and has the claimed value, but there is a better one. */
export class NotOptimal extends Refused {
    constructor(reason, place, message, better) {
        super(reason, place, message);
        this.better = better;
    }
}

/** No flow is feasible, as the certificate shows. */
export class Infeasible extends Refused {
    constructor(certificate) {
        super("Infeasible", {}, "no flow is feasible");
        this.certificate = certificate;
    }

    /** The line that the command prints, whose status is that of a yes. */
    get printed() {
        return "v infeasible";
    }
}

alsoCalled(Infeasible, "certificate", "inside");

/** The instance that was claimed to have no feasible flow has one. */
export class Feasible extends Refused {
    constructor(flow) {
        super("Feasible", {text: "instance", line: 0, field: 0}, "a flow is feasible");
        this.flow = flow;
    }
}

/** A limit was reached before the best was found, or the answer has numbers that don't fit. */
export class GaveUp extends Error {
    constructor(message) {
        super(message);
        this.name = "GaveUp";
    }
}

const ASCII = new TextDecoder("latin1");

/** The lines of a text that a call printed. */
export function linesOf(bytes) {
    return ASCII.decode(bytes).split("\n").slice(0, -1);
}

function place(words) {
    const [name, ...numbers] = words;
    if (name === "arc" || name === "node") return {[name]: Number(numbers[0])};
    return {text: name, line: Number(numbers[0]), field: Number(numbers[1])};
}

/** The reason and the place of a line that begins with x. */
function refused(line) {
    const words = line.split(" ").slice(1);
    return {reason: words.pop(), place: place(words)};
}

/** At what a call gives up, by its name over arrays, or else over texts. */
const GAVE_UP_AT = {
    certify_min_arrays: () => "two of the potentials that were found are 2^64 or more apart; others may fit",
    solve_max: (limit) => `limit: ${limit} flows that aren't maximum were found`,
    solve_min: (limit) => `limit: ${limit} steps led to better flows, or the least cost is out of range`,
    solve_min_arrays: (limit) => `limit: ${limit} steps led to better flows, or the least cost or a potential is out of range`,
    solve_paths_arrays: () => "a distance is 2^63 - 1 or more",
};

/** Throws what a status stands for that leaves the claim undecided, or whose certificate doesn't fit. */
export function throwUndecided(status, lines, {name, limit, say = () => ""}) {
    const gaveUp = GAVE_UP_AT[name] ?? GAVE_UP_AT[name?.replace("_arrays", "")];
    if (status === GAVE_UP) throw new GaveUp(gaveUp?.(limit) ?? "a limit was reached");
    if (status !== MISUSED) return;
    if (lines.length === 0) throw new RangeError("the library doesn't take these arguments");
    const {reason, place} = refused(lines[0]);
    throw new PastLimit(reason, place, say(reason, place));
}

const BETTER = ["NotMaximum", "NotLeast"];

/**
 * Throws the no of a status, if it is one. `flow` gives the better or the feasible flow that was made, or null, and `say`
 * the numbers that were compared.
 */
export function throwRefused(status, lines, flow = () => null, say = () => "") {
    if (status === DONE) return;
    const {reason, place} = refused(lines[0]);
    if (reason === "Feasible") throw new Feasible(flow());
    const better = BETTER.includes(reason) ? flow() : null, message = placed(place, reason) + say(reason, place, better);
    if (BETTER.includes(reason)) throw new NotOptimal(reason, place, message, better);
    throw new Refused(reason, place, message);
}

function distance([word, radius]) {
    if (word === "unreachable") return null;
    return word === "more" ? new Beyond(BigInt(radius)) : BigInt(word);
}

function pair(line) {
    const [, source, target, ...more] = line.split(" ");
    return {source: Number(source), target: Number(target), distance: distance(more)};
}

/** What the lines of a yes say. */
export function verdict(lines) {
    const [, kind, ...more] = lines.length ? lines[0].split(" ") : [];
    if (kind === "max" || kind === "min") return new Verdict(kind, BigInt(more[0]));
    if (kind === "infeasible") return new Verdict(kind);
    if (kind === "sp") return new Verdict(kind, BigInt(more[1]));
    return new Verdict("pairs", null, lines.map(pair));
}

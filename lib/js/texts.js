// The calls over texts in memory. A text is a string, or bytes: a typed array, a DataView or an ArrayBuffer.
import {Certified, Feasible, Infeasible, NotOptimal, Refused, Solved} from "./answers.js";
import {linesOf, throwRefused, throwUndecided, verdict} from "./answers.js";
import {bytesOf, inFormOf} from "./bytes.js";
import {explanation, kept} from "./explained.js";
import {DONE, LIMIT, testKind} from "./library.js";
import {texts} from "./loaded.js";
import {limitOf} from "./numbers.js";

/** The printed lines of a call, and what else it handed out; throws what leaves the claim undecided. */
function decided({status, handed: [printed, ...more]}, name, limit) {
    const lines = linesOf(printed);
    throwUndecided(status, lines, {name, limit});
    return {status, lines, more};
}

/** What a call answers or refuses, kept with what it was asked of, and what it shows. */
function asked(command, read, call) {
    try {
        const answer = call(), shown = answer instanceof Certified ? [answer.certificate] : [];
        return kept(answer, () => explanation(command, [...read, ...shown]));
    } catch (why) {
        if (why instanceof Refused) keepRefused(why, command, read);
        throw why;
    }
}

function keepRefused(no, command, read) {
    if (no instanceof Infeasible) return kept(no, () => explanation(command, [read[0], "", no.certificate]));
    const shown = no instanceof NotOptimal ? "better" : no instanceof Feasible ? "flow" : undefined;
    const given = shown && no[shown] !== null ? [...read, no[shown]] : read;
    return kept(no, () => unchanged(no, explanation(command, given, shown)));
}

/** The lines that explain a refusal, if it is still that of its texts. */
function unchanged({printed}, lines) {
    const changed = "the texts hold something else now: the refusal isn't theirs";
    return lines.startsWith(`${printed}\n`) ? lines : `${printed}\n${changed}\n`;
}

function judge(kind, ...given) {
    return asked(`judge-${kind}`, given, () => {
        const {status, lines} = decided(texts.run("judge", kind, given.map(bytesOf)));
        throwRefused(status, lines);
        return verdict(lines);
    });
}

export const judgeMax = (instance, solution, cut) => judge("max", instance, solution, cut);
export const judgeMin = (instance, solution, potentials) => judge("min", instance, solution, potentials);
export const judgeInfeasible = (instance, cut) => judge("infeasible", instance, cut);
export const judgePaths = (graph, queries, labels) => judge("paths", graph, queries, labels);

/** A better flow has the form of the claim, if there is one, and a certificate that of the instance. */
function certify(kind, ...given) {
    return asked(`certify-${kind}`, given, () => {
        const {status, lines, more: [shown]} = decided(texts.run("certify", kind, given.map(bytesOf)));
        throwRefused(status, lines, () => (shown.length ? inFormOf(given.at(-1), shown) : null));
        const hasValue = kind === "max" || kind === "min";
        return new Certified(hasValue ? verdict(lines).value : null, inFormOf(given[0], shown));
    });
}

export const certifyMax = (instance, solution) => certify("max", instance, solution);
export const certifyMin = (instance, solution) => certify("min", instance, solution);
export const certifyInfeasible = (instance) => certify("infeasible", instance);
export const certifyPaths = (graph, distances) => certify("paths", graph, distances);

function spread(kind, ...given) {
    const {status, lines, more: [made]} = decided(texts.run("spread", kind, given.map(bytesOf)));
    refusing(`spread-${kind}`, given, status, lines);
    return inFormOf(given[1], made);
}

/** Throws the refusal of a call that hands out a text alone. */
function refusing(command, given, status, lines) {
    if (status !== DONE) asked(command, given, () => throwRefused(status, lines));
}

export const spreadMax = (instance, solution) => spread("max", instance, solution);
export const spreadMin = (instance, solution) => spread("min", instance, solution);

function solve(kind, given, limit) {
    const most = limitOf(limit), answer = decided(texts.run("solve", kind, given.map(bytesOf), most), `solve_${kind}`, most);
    const [solution, certificate] = answer.more.map((it) => inFormOf(given[0], it));
    const made = kind !== "paths" && answer.status === DONE ? [solution] : [];
    return asked(`solve-${kind}`, [...given, ...made], () => {
        throwRefused(answer.status, answer.lines);
        const found = verdict(answer.lines), value = kind === "paths" ? null : found.value;
        if (found.kind === "infeasible") throw new Infeasible(certificate);
        return new Solved(value, kind === "paths" ? found.pairs : solution, certificate);
    });
}

export const solveMax = (instance, limit = LIMIT) => solve("max", [instance], limit);
export const solveMin = (instance, limit = LIMIT) => solve("min", [instance], limit);

export const solvePaths = (graph, queries) => solve("paths", [graph, queries], LIMIT);

function printed(call, kind, text) {
    testKind(kind);
    const {status, handed: [out]} = texts.run(call, kind, [bytesOf(text)]);
    refusing(`${call} ${kind}`, [text], status, linesOf(out));
    return inFormOf(text, out);
}

export const convert = (kind, text) => printed("convert", kind, text);
export const show = (kind, text) => printed("show", kind, text);

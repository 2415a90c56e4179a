// What explains an answer: the command that gives it, run once more over the same texts.
// The printed line is proved to be the answer's; the lines after it aren't.
import {bytesOf, inFormOf} from "./bytes.js";
import {IN_NO_FILE} from "./library.js";
import {texts} from "./loaded.js";

/** The names of each command's texts, which the lines quote: those that refusals have for them. */
export function namesOf(command) {
    const [verb, kind] = command.split("-");
    if (verb === "spread") return ["instance", "solution", "spread"];
    if (kind === "infeasible") return ["instance", "certificate"];
    if (kind !== "paths") return ["instance", "solution", "certificate"];
    return ["instance", verb === "certify" ? "distances" : "query", "certificate"];
}

/** Those of single texts, by their kinds; that of the others is `instance`. */
export const SINGLE = {
    query: "query",
    solution: "solution",
    distances: "distances",
    cut: "certificate",
    pot: "certificate",
    dist: "certificate",
};

/** What explains answers. It lives as long as they do. */
const EXPLAINED = new WeakMap();

/** An answer, kept with the call that explains it. */
export function kept(answer, explains) {
    EXPLAINED.set(answer, explains);
    return answer;
}

/** The words of a command. A certifier with no third text names none, and shows what it found by another name. */
export function wordsOf(command, count, shown = "certificate") {
    const [verb, kind] = command.split(" ");
    if (kind) return [verb, kind, SINGLE[kind] ?? "instance"];
    const names = namesOf(verb).map((name) => (name === "certificate" ? shown : name));
    return [verb, ...(verb.startsWith("certify") ? names.slice(0, count) : names)];
}

/** The lines that `dimacs explain` prints. */
export function explanationOf(answer) {
    if (!EXPLAINED.has(answer)) throw new TypeError("this answer doesn't keep what it was asked of");
    return EXPLAINED.get(answer)();
}

/** The lines for a command over texts; `shown` names the last one, if it isn't the certificate. */
export function explanation(command, given, shown, form = IN_NO_FILE) {
    const words = ["explain", ...wordsOf(command, given.length, shown)];
    const {handed: [lines]} = texts.command(form, words, given.map(bytesOf));
    return inFormOf("", lines);
}

// The calls over arrays. Nodes and arcs are numbered from 1: the first items of tails, heads, caps and so on belong to
// arc 1, those of supplies, inside, distances and so on to node 1.
import {Certified, Feasible, Infeasible, NotOptimal, Refused, Solved} from "./answers.js";
import {linesOf, throwRefused, throwUndecided, verdict} from "./answers.js";
import {kept} from "./explained.js";
import {Given} from "./given.js";
import {LIMIT, LINE, Room} from "./library.js";
import {library} from "./loaded.js";
import {IDS, limitOf} from "./numbers.js";

/** Makes a call that hands out a line and arrays of these names, and throws what leaves the claim undecided. */
function ask(name, given, ...handed) {
    const rooms = [new Room(Uint8Array, LINE), ...handed.map((it) => given.room(it))];
    const {status, handed: [line, ...arrays]} = library.call(`dimacs_${name}_arrays`, given.words, rooms);
    const lines = linesOf(line);
    throwUndecided(status, lines, {name: `${name}_arrays`, limit: given.words.at(-1), say: given.say});
    return {status, lines, arrays};
}

/** What a call answers or refuses, kept with what it was asked of, and by the name of the judge that says the same. */
function keeping(name, given, lines, handed, call) {
    const kind = name.split("_")[1];
    try {
        const answer = call();
        return kept(answer, () => given.asked.with(handed).explanation(`judge-${kind}`));
    } catch (why) {
        if (why instanceof Infeasible) kept(why, () => given.asked.with({inside: why.inside}).explanation("judge-infeasible"));
        else if (why instanceof Refused) {
            const better = why instanceof NotOptimal ? why.better : why instanceof Feasible ? why.flow : null;
            const asked = better ? given.asked.with({better}) : given.asked;
            kept(why, () => asked.explanation(name.replace("_", "-"), lines[0], why.message));
        }
        throw why;
    }
}

function judge(name, given) {
    const {status, lines} = ask(name, given);
    return keeping(name, given, lines, {}, () => {
        throwRefused(status, lines, undefined, given.say);
        return verdict(lines);
    });
}

function certify(name, given, ...handed) {
    const {status, lines, arrays: [certificate, flow]} = ask(name, given, ...handed);
    return keeping(name, given, lines, {[handed[0]]: certificate}, () => {
        throwRefused(status, lines, () => flow, given.say);
        const {kind, value} = verdict(lines);
        return new Certified(kind === "max" || kind === "min" ? value : null, certificate);
    });
}

function solve(name, given, ...handed) {
    const {status, lines, arrays: [solution, certificate, inside]} = ask(name, given, ...handed);
    return keeping(name, given, lines, {[handed[0]]: solution, [handed[1]]: certificate}, () => {
        throwRefused(status, lines, undefined, given.say);
        const {kind, value} = verdict(lines);
        if (kind === "infeasible") throw new Infeasible(inside);
        return new Solved(kind === "sp" ? null : value, solution, certificate);
    });
}

const ofMax = (instance) => new Given("max", instance);
const ofMin = (instance) => new Given("min", instance);
const ofGraph = (graph, source) => new Given("graph", graph).addSource(IDS.one(source, "source"));

export const judgeMaxArrays = (instance, flows, inside) =>
    judge("judge_max", ofMax(instance).addArray("flows", flows).addArray("inside", inside));

export const judgeMinArrays = (instance, flows, potentials) =>
    judge("judge_min", ofMin(instance).addArray("flows", flows).addArray("potentials", potentials));

export const judgeInfeasibleArrays = (instance, inside) =>
    judge("judge_infeasible", ofMin(instance).addArray("inside", inside));

export function judgePathsArrays(graph, source, distances, predecessors) {
    const given = ofGraph(graph, source).addArray("distances", distances);
    return judge("judge_paths", given.addArray("predecessors", predecessors));
}

export const certifyMaxArrays = (instance, flows) =>
    certify("certify_max", ofMax(instance).addArray("flows", flows), "inside", "flows");

export const certifyMinArrays = (instance, flows) =>
    certify("certify_min", ofMin(instance).addArray("flows", flows), "potentials", "flows");

export const certifyInfeasibleArrays = (instance) => certify("certify_infeasible", ofMin(instance), "inside", "flows");

export const certifyPathsArrays = (graph, source, distances) =>
    certify("certify_paths", ofGraph(graph, source).addArray("distances", distances), "predecessors");

export const solveMaxArrays = (instance, limit = LIMIT) =>
    solve("solve_max", ofMax(instance).addWord(limitOf(limit)), "flows", "inside");

export const solveMinArrays = (instance, limit = LIMIT) =>
    solve("solve_min", ofMin(instance).addWord(limitOf(limit)), "flows", "potentials", "inside");

export const solvePathsArrays = (graph, source) =>
    solve("solve_paths", ofGraph(graph, source), "distances", "predecessors");

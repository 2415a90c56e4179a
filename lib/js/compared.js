// What an exception says of the numbers that a test compared over arrays, by its reason.
import {UNREACHED} from "./numbers.js";

/** The greatest number of nodes. */
export const MOST_NODES = 2 ** 27;

const ARCS = {
    AboveCap: ({flow, cap}) => `it carries ${flow}, its capacity is ${cap}`,
    BackFlow: ({flow}) => `it enters the cut and carries ${flow}`,
    BelowLow: ({flow, low}) => `it carries ${flow}, its lower bound is ${low}`,
    BoundOrder: ({low, cap}) => `its lower bound is ${low}, its capacity ${cap}`,
    Escapes: ({from}) => `its tail is at ${from}, its head isn't reached`,
    NegativeWeight: ({weight}) => `its weight is ${weight}`,
    NodeRange: ({tail, head, nodes}) => `it goes from ${tail} to ${head}; nodes are numbered from 1, and there are ${nodes}`,
    NotSaturated: ({flow, cap}) => `it leaves the cut and carries ${flow}, its capacity is ${cap}`,
    NotShortest: ({from, weight, to}) => `${from} and its weight ${weight} are less than ${to}`,
    NotTight: ({reduced, flow, low, cap}) => `its reduced cost is ${reduced}, and it carries ${flow} of ${low} to ${cap}`,
};

const NODES = {
    Balance: ({leaves, enters, supply}) =>
        supply === undefined ? `${leaves} leaves, ${enters} enters` : `${leaves - enters} leaves, its supply is ${supply}`,
    NoTightArc: ({before, at}) => `no ${before === undefined ? "walk" : `arc from ${before}`} gives its distance ${at}`,
    NodeRange: ({node, nodes, before, at}) => {
        if (node === 0 || node > nodes) return `nodes are numbered from 1, and there are ${nodes}`;
        if (before > nodes) return `its predecessor is ${before}, and there are ${nodes} nodes`;
        return `it ${at === UNREACHED ? "isn't reached" : "is the source"}, and its predecessor is ${before}`;
    },
    NodeTwice: () => "it is the source and the sink",
    NotShortest: ({at}) => `the source is at ${at}`,
    NumberRange: () => `at most ${MOST_NODES} nodes`,
    PredUnknown: () => "its predecessors don't lead back to the source",
};

function ofArc({arrays, numbers: {nodes}}, arc) {
    const item = (name, place = arc) => arrays[name]?.[place - 1];
    const tail = item("tails"), head = item("heads"), [from, to] = [tail, head].map((it) => item("distances", it));
    const reduced = arrays.potentials && item("costs") - item("potentials", tail) + item("potentials", head);
    const bounds = {low: item("lows") ?? 0n, cap: item("caps")};
    return {tail, head, nodes, from, to, reduced, ...bounds, flow: item("flows"), weight: item("weights")};
}

function ofNode({arrays, numbers: {nodes}}, node) {
    const item = (name) => arrays[name]?.[node - 1];
    const sum = (ends) => arrays.flows?.reduce((sum, it, arc) => (ends[arc] === node ? sum + it : sum), 0n);
    const [leaves, enters] = [arrays.tails, arrays.heads].map(sum);
    return {node, nodes, leaves, enters, supply: item("supplies"), before: item("predecessors"), at: item("distances")};
}

/** What is said of the arc or the node that is refused, or of a better flow: nothing, or ": " and so on. */
export function saying(asked, reason, {arc, node}, better) {
    const say = arc === undefined ? NODES[reason] : ARCS[reason];
    if (say && (arc ?? node) !== undefined) return `: ${say(arc === undefined ? ofNode(asked, node) : ofArc(asked, arc))}`;
    if (!better) return "";
    const [mine, other] = [asked.arrays.flows, better].map((it) => asked.valueOf(it));
    if (reason === "NotLeast") return `: it costs ${mine}, and a better flow ${other}`;
    return `: its value is ${mine}, and that of a better flow ${other}`;
}

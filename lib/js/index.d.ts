/** A text: a string of ASCII, or bytes. */
export type Text = string | ArrayBufferView | ArrayBuffer;

/** Numbers by arc or by node: a typed array, which is taken as it is if it has the library's kind, or another list. */
export type Ids = Uint32Array | Iterable<number | bigint>;
export type Amounts = BigInt64Array | Iterable<number | bigint>;
/** For each node whether it is inside: a byte that isn't 0, or true. */
export type Marks = Uint8Array | Iterable<number | boolean>;
/** An unreachable node has the distance UNREACHED, or Infinity. */
export type Distances = Amounts;

/** A maximum flow instance. Nodes and arcs are numbered from 1; item k of an array belongs to arc k. */
export interface MaxInstance {
    nodes: number;
    source: number;
    sink: number;
    tails: Ids;
    heads: Ids;
    caps: Amounts;
}

/** A minimum cost flow instance. A supply is what leaves a node less what enters it. */
export interface MinInstance {
    nodes: number;
    tails: Ids;
    heads: Ids;
    lows: Amounts;
    caps: Amounts;
    costs: Amounts;
    supplies: Amounts;
}

/** A graph with a weight for each arc. */
export interface Graph {
    nodes: number;
    tails: Ids;
    heads: Ids;
    weights: Amounts;
}

/** The arcs of an instance, of which a solution is. */
export type Arcs = Pick<MaxInstance, "nodes" | "tails" | "heads">;

/** A claimed value or cost, and the amount that each arc of an instance carries. */
export interface Solution {
    value: number | bigint;
    flows: Amounts;
}

/** A cut or a set. */
export interface Cut {
    inside: Marks;
}

export interface Potentials {
    potentials: Amounts;
}

/** What distances are asked for: from each node of `froms` to that of `tos`, or to all nodes if that is null. */
export interface Queries {
    froms: Ids;
    tos: Ids | null;
}

/** The distance of each node from a source, UNREACHED of a node that isn't reached. */
export interface DistancesFrom {
    source: number;
    distances: Distances;
}

/**
 * The same with the predecessor of each node, which is 0 at the source and where there is no label. If there is a radius,
 * nodes without a label are farther, and may be reached: such labels aren't written.
 */
export interface Labels extends DistancesFrom {
    predecessors: Ids;
    radius?: bigint | null;
}

/** The same with numbers and typed arrays, as they are read. */
export type Typed<T> = {readonly [Field in keyof T]: Extract<T[Field], number | bigint | null | ArrayBufferView>};

/** The distance of a node that isn't reached, 2^63 - 1. Its predecessor is 0. */
export const UNREACHED: bigint;

/** The version of the module, as "0.2.0". */
export const version: string;

/** Whether the module was compiled from code that is proved. The translation to WebAssembly isn't proved. */
export const proved: boolean;

/** In place of a distance: it is greater than this radius, or there is no walk. */
export class Beyond {
    readonly radius: bigint;
}

/** The answer to a query. The distance is null if there is no walk. */
export interface Pair {
    source: number;
    target: number;
    distance: bigint | Beyond | null;
}

/** An answer, which keeps the texts or arrays that it was asked of. */
export interface Explainable {
    /**
     * The lines that `dimacs explain` prints: the printed line, and what the test compared, or what shows the yes. The
     * command runs once more, over the same texts, or over texts made of the arrays, of which no line is quoted.
     */
    explain(): string;
}

/**
 * A yes. `kind` is "max", "min", "infeasible", "sp" (all distances from so many sources) or "pairs"; `value` the value
 * of the flow, its cost, or the number of sources; `pairs` the answers to queries for pairs.
 */
export class Verdict implements Explainable {
    explain(): string;
    readonly kind: "max" | "min" | "infeasible" | "sp" | "pairs";
    readonly value: bigint | null;
    readonly pairs: Pair[];
}

/** A yes, with a certificate by which the judge answers yes too. `value` is null if the claim has neither. */
export class Certified<Certificate, Value = bigint> implements Explainable {
    explain(): string;
    readonly value: Value;
    readonly certificate: Certificate;
    /** The certificate, by the name that fits it. Like the names below it is a getter, which a spread leaves out. */
    get inside(): Certificate;
    get potentials(): Certificate;
    get predecessors(): Certificate;
}

/** An answer, which was judged before it was returned. */
export class Solved<Solution, Certificate, Value = bigint> extends Certified<Certificate, Value> {
    readonly solution: Solution;
    /** The solution, by the name that fits it. */
    get flows(): Solution;
    get distances(): Solution;
    /** Of queries for pairs in a text, as of a Verdict. */
    get pairs(): Solution;
}

/**
 * A no: the fault of a text, or the first test that fails. A fault has its text ("instance", "query", "solution",
 * "distances" or "certificate"), line and field, from 1; field 0 is the whole line. A test has the number of an arc or of
 * a node. What doesn't apply is null. `reason` is the command's word.
 */
export class Refused extends Error implements Explainable {
    explain(): string;
    /** The line that the command prints. */
    get printed(): string;
    readonly reason: string;
    readonly text: string | null;
    readonly line: number | null;
    readonly field: number | null;
    readonly arc: number | null;
    readonly node: number | null;
}

/**
 * The flow is feasible and has the claimed value, but there is a better one. `better` is such a flow, in the form of
 * the claimed one; null if its cost is out of the range of solutions.
 */
export class NotOptimal<Flow = any> extends Refused {
    readonly better: Flow | null;
}

/** No flow is feasible, as the certificate shows: the text of a set, or a byte for each node. */
export class Infeasible<Certificate = any> extends Refused {
    readonly certificate: Certificate;
    get inside(): Certificate;
}

/** The instance that was claimed to have no feasible flow has one. `flow` is null if its cost is out of range. */
export class Feasible<Flow = any> extends Refused {
    readonly flow: Flow | null;
}

/** The first number of an instance in arrays that is past its limit: nothing was judged. */
export class PastLimit extends RangeError {
    readonly reason: string;
    readonly arc: number | null;
    readonly node: number | null;
}

/** A limit was reached before the best was found, or the answer has numbers that don't fit. */
export class GaveUp extends Error {}

/** There wasn't enough memory: the claim is undecided. */
export class OutOfMemory extends Error {}

/** The engine ended the call: the claim is undecided. The next call begins with a new instance of the module. */
export class Trapped extends Error {}

/** Judges that a solution's flow is maximum, by a cut. Throws Refused if a text has a fault or a test fails. */
export function judgeMax(instance: Text, solution: Text, cut: Text): Verdict;
/** Judges that a solution's flow costs least, by potentials. */
export function judgeMin(instance: Text, solution: Text, potentials: Text): Verdict;
/** Judges that no flow is feasible, by a set of nodes. */
export function judgeInfeasible(instance: Text, cut: Text): Verdict;
/** Judges that all labels are distances, and answers the queries by them. */
export function judgePaths(graph: Text, queries: Text, labels: Text): Verdict;

/**
 * Decides whether a solution's flow is maximum. Returns its value, and the text of a cut that shows it: a string if the
 * instance is, else bytes. Throws NotOptimal with the text of a better flow if the flow is feasible and has the claimed
 * value, but isn't maximum; Refused if a text has a fault, or the flow isn't feasible or has another value.
 */
export function certifyMax<T extends Text>(instance: T, solution: Text): Certified<Made<T>>;
/** The same for a flow of least cost, with the text of potentials. */
export function certifyMin<T extends Text>(instance: T, solution: Text): Certified<Made<T>>;
/** Decides whether an instance has no feasible flow. Throws Feasible with the text of a flow if it has one. */
export function certifyInfeasible<T extends Text>(instance: T): Certified<Made<T>, null>;
/** Decides whether claimed distances are right, and nodes without one unreachable. Returns the text of labels. */
export function certifyPaths<T extends Text>(graph: T, distances: Text): Certified<Made<T>, null>;

/**
 * Makes a maximum flow. Returns its value, and the texts of a solution and of a cut that shows it. Throws GaveUp after
 * `limit` flows that aren't maximum (1,000,000 if none is given), and Refused if the text has a fault.
 */
export function solveMax<T extends Text>(instance: T, limit?: number | bigint): Solved<Made<T>, Made<T>>;
/**
 * Makes a flow of least cost. Throws Infeasible with the text of a set if no flow is feasible; GaveUp after `limit`
 * steps to better flows, or if the least cost is out of range.
 */
export function solveMin<T extends Text>(instance: T, limit?: number | bigint): Solved<Made<T>, Made<T>>;
/** Makes labels that answer the queries. Throws Refused if a query names no node, or a weight is negative. */
export function solvePaths<T extends Text>(graph: T, queries: Text): Solved<Pair[], Made<T>, null>;

/**
 * Deals a solution out to parallel arcs: adds up the entries with the same ends, and gives each arc with these ends its
 * share, within its bounds if possible. Returns the text of a solution with the claimed value and an entry for every
 * arc. Throws Refused if a text has a fault, an entry is of no arc, or what is left for the first of an entry's arcs
 * doesn't fit 64 bits.
 */
export function spreadMax<T extends Text>(instance: Text, solution: T): Made<T>;
/** The same for least cost: of all such flows within the bounds, one that costs least. */
export function spreadMin<T extends Text>(instance: Text, solution: T): Made<T>;

/** The kinds of text. */
export type Kind = "max" | "min" | "gr" | "query" | "solution" | "cut" | "pot" | "dist" | "distances";

/** The canonical form of a text. Throws Refused if it has a fault. */
export function convert<T extends Text>(kind: Kind, text: T): Made<T>;
/** A line that describes a text. */
export function show<T extends Text>(kind: Kind, text: T): Made<T>;

/** A text that is made: a string if what was given is one, else bytes. */
export type Made<T extends Text> = T extends string ? string : Uint8Array;

/** What texts hold that come alone, by their kinds. */
interface Values {
    max: MaxInstance;
    min: MinInstance;
    gr: Graph;
    query: Queries;
    cut: Cut;
    pot: Potentials;
}

/**
 * A text as arrays, which the calls over arrays take: `certifyMaxArrays(instance, solution.flows)`. The k-th entry of a
 * solution with given ends belongs to the k-th arc with them; an arc without one carries 0. Of distances and labels the
 * block of a source is read. Throws Refused if the text has a fault, if an entry belongs to no arc (UnknownArc, ArcTwice), if the source has no block (BlockMissing), or if a
 * number doesn't fit 64 bits (NumberRange).
 */
export function read<Alone extends keyof Values>(kind: Alone, text: Text): Typed<Values[Alone]>;
export function read(kind: "solution", text: Text, instance: Arcs): Typed<Solution> & {readonly value: bigint};
export function read(kind: "dist", text: Text, source: number | bigint): Typed<Required<Labels>>;
export function read(kind: "distances", text: Text, source: number | bigint): Typed<DistancesFrom>;

/**
 * The canonical text of arrays, which read again gives the same. A solution has an entry for each arc. Throws PastLimit if
 * a number is past a limit of texts; Refused if the distance of the source isn't 0, or predecessors of labels don't lead
 * back to it.
 */
export function write(kind: "max", instance: MaxInstance): string;
export function write(kind: "min", instance: MinInstance): string;
export function write(kind: "gr", graph: Graph): string;
export function write(kind: "query", queries: Queries): string;
export function write(kind: "solution", solution: Solution, instance: Arcs): string;
export function write(kind: "cut", cut: Cut): string;
export function write(kind: "pot", potentials: Potentials): string;
export function write(kind: "dist", labels: Labels): string;
export function write(kind: "distances", distances: DistancesFrom): string;

/**
 * The calls over arrays. They throw what those over texts do; RangeError if a number doesn't fit, isn't whole or is a
 * number from 2^53 on that should be a BigInt, or if an array has a wrong length; PastLimit, which is a RangeError, if a
 * number is past a limit of instances; TypeError for what is no number or array.
 */
export function judgeMaxArrays(instance: MaxInstance, flows: Amounts, inside: Marks): Verdict;
export function judgeMinArrays(instance: MinInstance, flows: Amounts, potentials: Amounts): Verdict;
export function judgeInfeasibleArrays(instance: MinInstance, inside: Marks): Verdict;
export function judgePathsArrays(graph: Graph, source: number, distances: Distances, predecessors: Ids): Verdict;

/** Returns for each node 1 if it is inside a cut that shows the flow to be maximum, else 0. */
export function certifyMaxArrays(instance: MaxInstance, flows: Amounts): Certified<Uint8Array>;
/** Returns potentials. Throws GaveUp if two of those that were found are 2^64 or more apart; others may fit. */
export function certifyMinArrays(instance: MinInstance, flows: Amounts): Certified<BigInt64Array>;
/** Returns for each node 1 if it is inside a set that shows it, else 0. */
export function certifyInfeasibleArrays(instance: MinInstance): Certified<Uint8Array, null>;
/** Returns predecessors; that of the source and of a node that isn't reached is 0. */
export function certifyPathsArrays(graph: Graph, source: number, distances: Distances): Certified<Uint32Array, null>;

export function solveMaxArrays(instance: MaxInstance, limit?: number | bigint): Solved<BigInt64Array, Uint8Array>;
export function solveMinArrays(instance: MinInstance, limit?: number | bigint): Solved<BigInt64Array, BigInt64Array>;
/** Throws Refused if a weight is negative, and GaveUp if a distance is UNREACHED or more. */
export function solvePathsArrays(graph: Graph, source: number): Solved<BigInt64Array, Uint32Array, null>;

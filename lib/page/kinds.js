// The kinds of text, the commands over them, and what the answers are called.

/** The kinds of text: their names, where each belongs, which claims are about it, and how it is given. */
const FORMATS = {
    max: {name: "an instance of maximum flow", slot: "instance", claims: ["max"]},
    min: {name: "an instance of least cost", slot: "instance", claims: ["min", "infeasible"]},
    gr: {name: "a graph", slot: "instance", claims: ["paths"]},
    solution: {name: "a solution", slot: "claim"},
    query: {name: "queries", slot: "claim", how: ", as p aux sp ss 1 and s 1 on two lines"},
    distances: {name: "distances", slot: "claim"},
    cut: {name: "a set of nodes", slot: "certificate"},
    pot: {name: "potentials", slot: "certificate"},
    dist: {name: "labels", slot: "certificate", how: " as the certificate, which Solve makes"},
};

/** What there is to say of a kind; of none if a text has none that is known. */
export const format = (kind) => FORMATS[kind] ?? {name: "no kind of text that is known here"};

// ---- texts

/** A longer text can't be typed, and is shown in part, since it would make the page slow. In bytes. */
export const MOST_TYPED = 2 ** 16;

/** Bytes: the end of a line, the first one of a comment, and the m of "more", which no other answer to a pair has. */
const NEWLINE = 10, COMMENT = 99, M = 109;

const latin = new TextDecoder("latin1"), unicode = new TextDecoder("utf-8", {ignoreBOM: true});

/** How often a text has a byte. */
function countOf(byte, bytes) {
    let count = 0;
    for (let at = bytes.indexOf(byte); at >= 0; at = bytes.indexOf(byte, at + 1)) count++;
    return count;
}

/** So many of something. */
export const many = (count, name) => `${count.toLocaleString("en")} ${name}${count === 1 ? "" : "s"}`;

/** What is shown of a text, whole lines if it has any, and how much more there is. */
export function shown(bytes) {
    const lines = bytes.lastIndexOf(NEWLINE, MOST_TYPED - 1) + 1;
    const end = bytes.length <= MOST_TYPED ? bytes.length : lines || MOST_TYPED, rest = bytes.subarray(end);
    const count = countOf(NEWLINE, rest) + (rest.at(-1) === NEWLINE ? 0 : 1);
    const more = lines ? many(count, "more line") : many(rest.length, "more byte");
    return {text: unicode.decode(bytes.subarray(0, end)), more: rest.length ? more : ""};
}

/** The kind by a line's first fields; null if it isn't known, and nothing for a comment or a blank line. */
function kindOf([letter, word = ""]) {
    if (/^(c|$)/.test(letter)) return undefined;
    if (letter === "s" || letter === "f") return "solution";
    const kind = {sp: "gr", aux: "query"}[word] ?? word;
    return letter === "p" && Object.hasOwn(FORMATS, kind) ? kind : null;
}

/** A text with its kind, by its first line that is neither blank nor a comment. */
export function textOf(bytes) {
    let kind;
    for (let at = 0, end; at < bytes.length && kind === undefined; at = end) {
        end = bytes.indexOf(NEWLINE, at) + 1 || bytes.length;
        if (bytes[at] === COMMENT) continue;  // quicker than by its fields
        kind = kindOf(latin.decode(bytes.subarray(at, Math.min(end, at + 2 ** 20))).trim().split(/\s+/, 2));
    }
    return {bytes, kind: kind ?? null};
}

// ---- commands

/** The kinds of instance, claim and certificate for each kind of claim. */
const NEEDED = {
    max: ["max", "solution", "cut"],
    min: ["min", "solution", "pot"],
    infeasible: ["min", null, "cut"],
    paths: ["gr", "distances", "dist"],
};

/** The command for what is asked, the texts that it reads, and what is missing. A certificate may be left out. */
export function planned({what, kind}, texts) {
    const [instance, claim, certificate] = NEEDED[kind], given = texts.claim.kind, isSolved = what === "solve";
    const has = (slot) => texts[slot].bytes.length > 0;
    const isJudged = !isSolved && has("certificate") && given !== "distances";
    const isAsked = kind === "paths" && (isSolved || isJudged || given === "query");
    const name = isAsked ? "query" : claim;
    const reads = [{name: "instance", slot: "instance", wanted: instance}];
    if (isAsked || (claim && !isSolved)) reads.push({name, slot: "claim", wanted: name});
    if (isJudged) reads.push({name: "certificate", slot: "certificate", wanted: certificate});
    const verb = isSolved ? "solve" : isJudged ? "judge" : "certify";
    const isUnasked = isSolved && isAsked && given !== "query", isUnlabelled = isAsked && verb === "certify";
    const lacked = reads.find((it) => !has(it.slot))?.wanted ?? (isUnasked ? "query" : isUnlabelled && "dist");
    const missing = lacked && `${FORMATS[lacked].name}${FORMATS[lacked].how ?? ""}`;
    return {verb, kind: isSolved && kind === "infeasible" ? "min" : kind, certificate, reads, missing};
}

// ---- answers

/** What the reasons of refusals say of a claim. All others are faults of a text. */
const REASONS = {
    wrong: "UnknownArc ArcTwice BelowLow AboveCap Balance ValueDiffers NotMaximum NotLeast Feasible Escapes NotShortest",
    notShown: "SourceOutside SinkInside NotSaturated BackFlow NotTight NotViolated NoTightArc NodesDiffer BlockMissing",
    unfit: "QueryNode NodesDiffer",
    negative: "NegativeWeight",
    range: "CostRange",
};

/** What answers to pairs say, of which some may only say that the distance is more than a radius; or nothing. */
function claimedOfPairs([, from, to, distance], pairs, far) {
    if (far === pairs) return "";
    if (far) return `the distances for ${pairs - far} of ${many(pairs, "q line")}; the others are beyond a radius`;
    if (pairs > 1) return `the distances for ${many(pairs, "q line")}`;
    return distance === "unreachable" ? `no path leads from ${from} to ${to}` : `the distance from ${from} to ${to}`;
}

/** What a yes says, or nothing. */
function claimed(line, printed) {
    const fields = line.split(" "), [, kind, value, sources] = fields;
    if (Number(kind)) return claimedOfPairs(fields, countOf(NEWLINE, printed), countOf(M, printed));
    if (kind === "max") return `the flow of value ${value} is maximum`;
    if (kind === "min") return `the flow of cost ${value} costs least`;
    if (kind === "infeasible") return "no flow is feasible";
    const all = value === "ss" ? "the sources of the queries" : many(Number(sources), "source");
    return Number(sources) > 0 && `the distances from ${all}`;
}

/** The heading of an answer, and whether it is a yes or a no. */
export function headed(answer) {
    const {what, verb, status, printed} = answer, isSolved = what === "solve";
    const open = (heading) => ({heading, state: "open"}), [line] = shown(printed).text.split("\n");
    if (status === 0) {
        const claim = claimed(line, printed);
        if (!claim) return open(isSolved ? "Nothing was asked" : "Nothing was claimed");
        return isSolved ? open(`Solved: ${claim}`) : {heading: `Yes: ${claim}`, state: "yes"};
    }
    if (status !== 1) return open("Undecided: the solver reached its limit, or the cost is out of range");
    const [, place, ...more] = line.split(" "), reason = more.pop();
    const is = (name) => REASONS[name].split(" ").includes(reason), isUnfit = is("unfit") && place !== "certificate";
    const isJudged = verb === "judge", isMissed = reason === "NoTightArc" && !isJudged, isOfRadius = is("negative") && isJudged;
    if (is("wrong") || isMissed) return {heading: "No: the answer is wrong", state: "no"};
    if (is("range")) return open("Undecided: the cost is out of range");
    if (isOfRadius || (is("notShown") && !isUnfit)) return open("Not shown: this certificate doesn't show it");
    const fault = is("negative") ? "a weight is negative" : `there is a fault in the ${place}`;
    return open(`${isSolved ? "Not solved" : "Nothing was judged"}: ${isUnfit ? "the texts don't fit together" : fault}`);
}

// Tests the package for JavaScript: node test_js.mjs, with DIMACS_WASM naming the module. The last line counts what
// passed and what failed.
import assert from "node:assert/strict";
import {readFileSync} from "node:fs";
import * as dimacs from "../js/index.js";
import {FORMS} from "../js/given.js";
import {Library, Texts} from "../js/library.js";
import {countedAll, finished} from "./cases.mjs";

// Networks whose answers were worked out by hand.
const MAX = "p max 4 5\nn 1 s\nn 4 t\na 1 2 4\na 1 3 2\na 2 3 2\na 2 4 3\na 3 4 5\n";
const FLOW = "s 6\nf 1 2 4\nf 1 3 2\nf 2 3 1\nf 2 4 3\nf 3 4 3\n";
const SMALLER = "s 2\nf 1 3 2\nf 3 4 2\n";
const CUT = "p cut 4 1\nu 1\n";
const MIN = "p min 4 5\nn 1 4\nn 4 -4\na 1 2 0 4 2\na 1 3 0 2 2\na 2 3 0 2 1\na 2 4 0 3 3\na 3 4 0 5 1\n";
const LEAST = "s 14\nf 1 2 2\nf 1 3 2\nf 2 3 2\nf 3 4 4\n";
const POT = "p pot 4 3\ny 1 4\ny 2 2\ny 3 1\n";
const SHORT = "p min 2 1\nn 1 5\nn 2 -5\na 1 2 0 3 1\n";
const GRAPH = "p sp 4 3\na 1 2 5\na 2 3 4\na 3 2 0\n";
const PAIRS = "p aux sp p2p 2\nq 1 3\nq 1 4\n";
const NEAR = "p dist 4 1\nt 1 1 7\nd 2 5 1\n";

const IN_MAX = {nodes: 4, source: 1, sink: 4, tails: [1, 1, 2, 2, 3], heads: [2, 3, 3, 4, 4], caps: [4, 2, 2, 3, 5]};
const ENDS = {tails: IN_MAX.tails, heads: IN_MAX.heads};
const NUMBERS = {lows: [0, 0, 0, 0, 0], caps: IN_MAX.caps, costs: [2, 2, 1, 3, 1], supplies: [4, 0, 0, -4]};
const IN_MIN = {nodes: 4, ...ENDS, ...NUMBERS};
const IN_SHORT = {nodes: 2, tails: [1], heads: [2], lows: [0], caps: [3], costs: [1], supplies: [5, -5]};
const IN_GRAPH = {nodes: 4, tails: [1, 2, 3], heads: [2, 3, 2], weights: [5, 4, 0]};
const LARGE = 2n ** 62n;
const NONE = dimacs.UNREACHED;

const bytes = (text) => new TextEncoder().encode(text);
const big = (...numbers) => BigInt64Array.from(numbers, BigInt);

const LABELS = {distances: big(0, 5, 5), predecessors: Uint32Array.of(0, 3, 1)};

/** What a call throws. */
function thrown(call) {
    try {
        call();
    } catch (why) {
        return why;
    }
    throw new assert.AssertionError({message: "it threw nothing"});
}

/** Tests that a call throws an error of a class, with these properties. */
function throws(call, type, properties = {}) {
    const why = thrown(call);
    assert.ok(why instanceof type, `it threw ${why.name}: ${why.message}`);
    for (const [name, wanted] of Object.entries(properties)) assert.deepEqual(why[name], wanted, name);
    return why;
}

/** A module whose dimacs_show fails: with a trap, or since malloc gives nothing. It counts its calls in a global. */
function failing(malloc, show) {
    const body = (...code) => [code.length + 2, 0, ...code, 0x0b];
    const named = (name, ...what) => [name.length, ...bytes(name), ...what];
    const sections = [
        [1, 3, 0x60, 1, 0x7e, 1, 0x7e, 0x60, 1, 0x7e, 0, 0x60, 6, 0x7f, 0x7e, 0x7e, 0x7e, 0x7e, 0x7e, 1, 0x7f],
        [3, 3, 0, 1, 2],
        [5, 1, 0, 1],
        [6, 1, 0x7f, 1, 0x41, 0, 0x0b],
        [7, 4, ...named("memory", 2, 0), ...named("malloc", 0, 0), ...named("free", 0, 1), ...named("dimacs_show", 0, 2)],
        [10, 3, ...body(...malloc), ...body(), ...body(...show)],
    ];
    const whole = sections.flatMap(([number, ...content]) => [number, content.length, ...content]);
    return new WebAssembly.Module(Uint8Array.from([0, 0x61, 0x73, 0x6d, 1, 0, 0, 0, ...whole]));
}

const SOME_PLACE = [0x42, 16], NO_PLACE = [0x42, 0];
// It returns 1 if this instance was called before, and traps otherwise.
const TRAPS_FIRST = [0x23, 0, 0x41, 1, 0x24, 0, 0x04, 0x7f, 0x41, 1, 0x05, 0x00, 0x0b];
const NO_MEMORY = [0x41, 4];

// ---- the rows of tests/rows/calls, which names the answers by hand

const table = (name) => readFileSync(new URL(`../../tests/rows/${name}`, import.meta.url), "ascii").split("\n")
    .filter((line) => line && !line.startsWith("# ")).map((line) => line.split(/ \|(?: |$)/));
const textOf = (cell) => cell.replaceAll(";", "\n").replaceAll("\\r", "\r").replaceAll("\\t", "\t");
const NAMES = Object.fromEntries([...table("files"), ...table("calls").filter(([it]) => it === "=").map(([, ...it]) => it)]);
const ROWS = table("calls").filter(([it]) => it !== "=");
const numbers = (text) => text.split(" ").filter((it) => it).map(BigInt);

/** An instance in arrays, by a line for each field. */
function instanceOf(text) {
    const lines = text.split("\n"), forms = Object.values(FORMS).map((it) => it.flat());
    const names = forms.find((it) => it.length === lines.length), singles = names.indexOf("tails");
    return Object.fromEntries(names.map((name, i) => [name, i < singles ? Number(lines[i]) : numbers(lines[i])]));
}

/** The arguments of a row as its call takes them. */
function argumentsOf(call, cell) {
    const hasKind = /^(read|convert|show)$/.test(call), oneOf = (it) => (/^\d+$/.test(it) ? Number(it) : it);
    const [first, ...more] = cell.split(", ").map((it, i) => (i === 0 && hasKind ? it : textOf(NAMES[it] ?? it)));
    if (call === "read") return [first, more[0], ...more.slice(1).map((it) => (it.includes("\n") ? instanceOf(it) : oneOf(it)))];
    if (!call.endsWith("_arrays")) return [first, ...more.map(oneOf)];
    const singles = call.includes("_paths") || call.startsWith("solve") ? 1 : 0;
    return [instanceOf(first), ...more.map((it, i) => (i < singles ? Number(it) : numbers(it)))];
}

/** What a call hands out, as a row has it. */
function shown(it) {
    if (typeof it === "string") return it;
    if (ArrayBuffer.isView(it)) return it.join(" ");
    if (!("target" in Object(it))) return `${it}`;
    const {source, target, distance} = it, radius = distance?.radius;
    return [source, target, radius === undefined ? distance ?? "unreachable" : `more ${radius}`].join(" ");
}

const OF_TEXTS = /\b(block|entr(y|ies)|labels?|lines?|lists?|PREDs?|RADIUS)\b/;

/** What explains an answer or a refusal begins with its line. Over arrays it has no word that only texts have. */
function explains(name, it) {
    const told = it.explain(), line = it.printed ?? "v ";
    assert.ok(told.startsWith(line), told);
    if (name.endsWith("_arrays")) assert.doesNotMatch(told, OF_TEXTS);
}

/** The parts of what a call answers. What it hands out is judged, and a flow of a refusal certified. */
function answerOf(name, given) {
    const call = name.replace(/_(.)/g, (_, it) => it.toUpperCase());
    try {
        const answer = dimacs[call](...given);
        if (typeof answer === "string") return [answer];
        if (answer.explain) explains(name, answer);
        if (answer instanceof dimacs.Verdict) {
            return (answer.pairs.length ? answer.pairs : [answer.value ?? "yes"]).map(shown);
        }
        if (!(answer instanceof dimacs.Certified)) {
            const {source, radius, ...parts} = answer;
            return Object.values(name === "read" && "caps" in answer ? answer : parts).filter((it) => it !== null).map(shown);
        }
        const {value, solution, certificate} = answer, pairs = call === "solvePaths" ? solution : null;
        const handed = [...(solution === undefined || pairs ? [] : [solution]), certificate];
        if (call !== "certifyPaths") dimacs[call.replace(/^[a-z]+/, "judge")](...given, ...handed);
        return [...(value === null ? [] : [value]), ...(pairs ?? []), ...handed].map(shown);
    } catch (no) {
        const said = saidOf(name, no), certifyMin = call.replace("Infeasible", "Min");
        if (no instanceof dimacs.Refused) explains(name, no);
        if (no instanceof dimacs.NotOptimal) return feasible(call, [...given.slice(0, -1), no.better], `better ${said}`);
        if (no instanceof dimacs.Feasible) return feasible(certifyMin, [...given, no.flow], `feasible ${no.printed}`);
        if (no instanceof dimacs.Infeasible) {
            dimacs[call.replace("solveMin", "judgeInfeasible")](...given, no.inside);
            return ["infeasible", shown(no.inside)];
        }
        if (no instanceof dimacs.Refused) return [saidOf(name, no)];
        if (no instanceof dimacs.PastLimit) return [`past ${saidOf(name, no)}`];
        if (no instanceof dimacs.GaveUp) return ["gave up"];
        if (no instanceof RangeError) return [no.message];
        throw no;
    }
}

const saidOf = (name, no) => (name.endsWith("_arrays") ? `x ${no.message.replaceAll(";", ",")}` : no.printed);

function feasible(call, given, answer) {
    try {
        dimacs[call](...given);
    } catch (no) {
        assert.ok(no instanceof dimacs.NotOptimal, no.message);
    }
    return [answer];
}

function answers(call, cell, wanted) {
    const given = argumentsOf(call, cell), found = answerOf(call, given), parts = textOf(wanted).split(" & ");
    assert.deepEqual(found.map((it, i) => (parts[i] === "any" ? "any" : it)), parts);
    if (call !== "read" || wanted.startsWith("x ")) return;
    const value = dimacs.read(...given), [kind, , ...of] = given;
    if (value.radius) return;
    assert.deepEqual(dimacs.read(kind, dimacs.write(kind, value, ...(kind === "solution" ? of : [])), ...of), value);
}

const CASES = {
    // What a call answers is in tests/rows/calls.
    ...Object.fromEntries(ROWS.map(([call, given, wanted]) => [`${call} ${given}`, () => answers(call, given, wanted)])),
    "answers have the form of what was given": () => {
        const near = dimacs.judgePaths(GRAPH, "p aux sp p2p 1\nq 1 3\n", NEAR).pairs;
        assert.deepEqual(near, [{source: 1, target: 3, distance: Object.assign(new dimacs.Beyond(7n))}]);
        for (const answer of [dimacs.certifyMax(bytes(MAX), FLOW), dimacs.solveMin(bytes(MIN))]) {
            assert.ok(answer.certificate instanceof Uint8Array);
        }
        assert.ok(thrown(() => dimacs.certifyMax(MAX, bytes(SMALLER))).better instanceof Uint8Array);
        throws(() => dimacs.certifyMax(MAX, SMALLER), dimacs.NotOptimal, {text: "solution", line: 1, field: 2});
        const balance = {reason: "Balance", node: 2, text: null, arc: null, message: "node 2 Balance"};
        throws(() => dimacs.judgeMax(MAX, "s 4\nf 1 2 4\n", CUT), dimacs.Refused, balance);
        throws(() => dimacs.convert("cut", "p cut 1 1\nu \u00e9\n"), dimacs.Refused, {line: 2});
        throws(() => dimacs.solveMax(MAX, -1), RangeError);
        throws(() => dimacs.show("graph", MAX), RangeError);
        throws(() => dimacs.show("max", 7), TypeError);
        const typed = [big(0, 5, 9, dimacs.UNREACHED), Uint32Array.of(0, 1, 2, 0)];
        assert.equal(dimacs.judgePathsArrays(IN_GRAPH, 1, ...typed).kind, "sp");
        assert.equal(dimacs.judgePathsArrays(IN_GRAPH, 1, [0, 5, 9, Infinity], [0, 1, 2, 0]).value, 1n);
        assert.deepEqual(dimacs.certifyMaxArrays(IN_MAX, [4n, 2n, 1n, 3n, 3n]).inside, Uint8Array.of(1, 0, 0, 0));
        const {better} = throws(() => dimacs.certifyMaxArrays(IN_MAX, [0, 2, 0, 0, 2]), dimacs.NotOptimal);
        assert.ok(better instanceof BigInt64Array && better.length === 5);
    },
    "texts are read into arrays, and written": () => {
        const typed = {tails: Uint32Array.from(IN_MAX.tails), heads: Uint32Array.from(IN_MAX.heads)};
        const far = `p pot 300 1\ny 300 ${-(2n ** 63n)}\n`, potentials = new BigInt64Array(300);
        potentials[299] = -(2n ** 63n);
        for (const [kind, text, value, ...over] of [
            ["max", MAX, {nodes: 4, source: 1, sink: 4, ...typed, caps: big(4, 2, 2, 3, 5)}],
            ["solution", FLOW, {value: 6n, flows: big(4, 2, 1, 3, 3)}, IN_MAX],
            ["pot", far, {potentials}],
            ["query", "p aux sp ss 9\n" + "s 1\n".repeat(9), {froms: new Uint32Array(9).fill(1), tos: null}],
            ["distances", "p distances 4 1\nt 2 1\nd 3 4\n", {source: 2, distances: big(NONE, 0, 4, NONE)}, 2n],
            ["dist", "p dist 3 1\nt 1 2\nd 3 5 1\nd 2 5 3\n", {source: 1, ...LABELS, radius: null}, true],
        ]) {
            for (const it of [text, bytes(text)]) assert.deepEqual(dimacs.read(kind, it, ...over), value, kind);
            assert.equal(dimacs.write(kind, value, ...(kind === "solution" ? over : [])), text, kind);
        }
        assert.equal(dimacs.write("max", IN_MAX), MAX);
        assert.equal(dimacs.write("cut", {inside: [true, false, 0, 0]}), CUT);
        assert.deepEqual(dimacs.read("dist", NEAR, 1).radius, 7n);
        const instance = dimacs.read("max", MAX), {flows} = dimacs.read("solution", FLOW, instance);
        assert.deepEqual(dimacs.certifyMaxArrays(instance, flows).inside, dimacs.read("cut", CUT).inside);
    },
    "texts that aren't read, and arrays that aren't written": () => {
        const wide = "9223372036854775808";
        for (const [said, ...given] of [
            ["x solution 2 0 UnknownArc\nsolution:2: f 4 1 2\ninstance has no arc from 4 to 1\n", "solution", "s 4\nf 4 1 2\n", IN_GRAPH],
            [`x solution 1 2 NumberRange\nsolution:1: s ${wide}\narrays have numbers of 64 bits\n`, "solution", `s ${wide}\n`, IN_MAX],
            [`x node 1 NumberRange\ncertificate:2: y 1 ${wide}\narrays have numbers of 64 bits\n`, "pot", `p pot 1 1\ny 1 ${wide}\n`],
            ["x node 2 BlockMissing\ncertificate has no block from source 2; its blocks are from 1; 1 in all\n", "dist", NEAR, 2],
            [`x node 2 NumberRange\ndistances:4: d 2 ${wide}\narrays have distances below 2^63 - 1\n`, "distances", `p distances 2 2\nt 2 0\nt 1 1\nd 2 ${wide}\n`, 1],
        ]) assert.equal(thrown(() => dimacs.read(...given)).explain().slice(0, said.length), said);
        const changing = bytes("s 9\nf 1 2 9\n"), no = thrown(() => dimacs.certifyMax(MAX, changing));
        changing.set(bytes("s 0\nf 1 2 0\n"));
        assert.equal(no.explain(), "x arc 1 AboveCap\nthe texts hold something else now: the refusal isn't theirs\n");
        const fault = thrown(() => dimacs.read("max", MAX.replace("4\n", "x\n")));
        assert.equal(fault.explain(), thrown(() => dimacs.show("max", MAX.replace("4\n", "x\n"))).explain());
        for (const [call, type, message] of [
            [() => dimacs.read("graph", GRAPH), RangeError, /^graph is no kind of text: these are max, min, gr, query, solution/],
            [() => dimacs.read("solution", FLOW), TypeError, /^a text of the kind solution comes with its instance$/],
            [() => dimacs.read("dist", NEAR), TypeError, /^a text of the kind dist comes with the source of a block$/],
            [() => dimacs.read("dist", NEAR, 2.5), RangeError, /^source: 2.5 isn't a whole number$/],
            [() => dimacs.read("max", MAX, IN_MAX), TypeError, /^a text of the kind max comes alone$/],
            [() => dimacs.read("max", 7), TypeError, /^a text is a string/],
            [() => dimacs.write("max"), TypeError, /^a value is an object/],
            [() => dimacs.write("max", {...IN_MAX, heads: [2, 3, 3, 4, 9]}), dimacs.PastLimit, /^arc 5 NodeRange: it goes/],
            [() => dimacs.write("max", IN_MAX, IN_MAX), TypeError, /^a text of the kind max comes alone$/],
            [() => dimacs.write("query", {froms: [1], tos: [2, 3]}), RangeError, /^tos has 2 items, and froms has 1$/],
            [() => dimacs.write("query", {froms: [0], tos: null}), dimacs.PastLimit, /^node 0 NumberRange/],
            [() => dimacs.write("dist", dimacs.read("dist", NEAR, 1)), RangeError, /^labels with a radius, here 7, aren't/],
            [() => dimacs.write("dist", {source: 2, ...LABELS}), dimacs.Refused, /^node 2 NotShortest$/],
            [() => dimacs.write("solution", {value: 2n ** 63n, flows: [1, 1, 1, 1, 1]}, IN_MAX), RangeError, /^value: /],
        ]) {
            assert.match(throws(call, type).message, message);
        }
    },
    "wrong arrays": () => {
        const flows = [4, 2, 1, 3, 3];
        throws(() => dimacs.certifyMaxArrays(IN_MAX, [4, 2, 2 ** 60, 3, 3]), RangeError);
        throws(() => dimacs.certifyMaxArrays(IN_MAX, [4, 2, 2n ** 63n, 3, 3]), RangeError);
        throws(() => dimacs.certifyMaxArrays(IN_MAX, [4, 2, "1", 3, 3]), TypeError);
        throws(() => dimacs.certifyMaxArrays(IN_MAX, new Set(flows)), TypeError);
        throws(() => dimacs.certifyMaxArrays({...IN_MAX, caps: undefined}, flows), TypeError);
        throws(() => dimacs.certifyMaxArrays({...IN_MAX, source: -1}, flows), RangeError);
        throws(() => dimacs.certifyMaxArrays(null, flows), TypeError);
    },
    "a trap is an error, and its instance is dropped": () => {
        const texts = new Texts(new Library(failing(SOME_PLACE, TRAPS_FIRST)));
        throws(() => texts.run("show", "cut", [bytes(CUT)]), dimacs.Trapped);
        throws(() => texts.run("show", "cut", [bytes(CUT)]), dimacs.Trapped);
    },
    "memory that isn't there is an error": () => {
        for (const module of [failing(NO_PLACE, TRAPS_FIRST), failing(SOME_PLACE, NO_MEMORY)]) {
            throws(() => new Texts(new Library(module)).run("show", "cut", [bytes(CUT)]), dimacs.OutOfMemory);
        }
    },
    "answers over texts are explained": () => {
        // tests/explain.py has all lines.
        const maximum = /^v max 6\n(.*\n){3}  arc 1: 1 -> 2, CAP 4\n  arc 2: 1 -> 3, CAP 2\n4 \+ 2 = 6, the value of the flow: .*\n$/;
        const yes = [dimacs.judgeMax(MAX, FLOW, CUT), dimacs.certifyMax(bytes(MAX), FLOW), dimacs.solveMax(MAX)];
        for (const it of yes) assert.match(it.explain(), maximum);
        for (const [lines, call] of [
            [/^x node 2 Balance\n(.*\n){3}  solution:2: f 1 2 4\n$/, () => dimacs.judgeMax(MAX, "s 4\nf 1 2 4\n", CUT)],
            [/\nbetter:1: s 6\nthis flow is feasible, /, () => dimacs.certifyMax(MAX, "s 0\n")],
            [/^x instance 0 0 Feasible\n.*: it is in `flow`\n$/, () => dimacs.certifyInfeasible(MIN)],
            [/: no flow is feasible\n$/, () => dimacs.solveMin(SHORT)],
            [/, and not `1\.0`/, () => dimacs.convert("gr", "p sp 1 1\na 1 1 1.0\n")],
            [/arc 5 leads from 3 to 4/, () => dimacs.spreadMax(MAX, "s 0\nf 4 3 2\n")],
            [/^((?!is empty)[^])*$/, () => dimacs.solveMax("p max 1 1\nn 1 s\nn 2 t\n")],
        ]) assert.match(thrown(call).explain(), lines);
        assert.match(dimacs.certifyInfeasible(SHORT).explain(), /: no flow is feasible\n$/);
        const routes = dimacs.solvePaths(GRAPH, PAIRS);
        assert.match(routes.explain(), /\n1 -> 2 -> 3: 5 \+ 4 = 9\n/);
        assert.deepEqual(routes.pairs, dimacs.judgePaths(GRAPH, PAIRS, routes.certificate).pairs);
    },
    "answers over arrays are explained": () => {
        const maximum = dimacs.judgeMax(MAX, FLOW, CUT).explain();
        const least = dimacs.judgeMin(MIN, LEAST, POT).explain().replace(" (0 without a line)", "");
        const flows = [4, 2, 1, 3, 3], cheap = [2, 2, 2, 0, 4];
        const yes = [dimacs.judgeMaxArrays(IN_MAX, flows, [1, 0, 0, 0]), dimacs.certifyMaxArrays(IN_MAX, flows)];
        for (const it of [...yes, dimacs.solveMaxArrays(IN_MAX)]) assert.equal(it.explain(), maximum);
        assert.equal(dimacs.judgeMinArrays(IN_MIN, cheap, [4, 2, 1, 0]).explain(), least);
        const unmet = dimacs.certifyInfeasible(SHORT).explain();
        assert.equal(dimacs.certifyInfeasibleArrays(IN_SHORT).explain(), unmet);
        assert.equal(thrown(() => dimacs.solveMinArrays(IN_SHORT)).explain(), unmet);
        const far = /^v sp ss 1\nthe farthest node from 1, of 2 that it reaches: 1 -> 2 -> 3: 5 \+ 4 = 9\n/;
        assert.match(dimacs.solvePathsArrays(IN_GRAPH, 1).explain(), far);
        const distances = [0, 5, 9, Infinity];
        assert.match(dimacs.certifyPathsArrays(IN_GRAPH, 1, distances).explain(), far);
    },
    "refusals over arrays are explained": () => {
        const met = "x instance 0 0 Feasible\nthe instance has a feasible flow, which costs ", weights = [5, -4, 0];
        for (const [lines, call] of [
            ["x node 2 Balance\n0 leaves node 2, 4 enters it: ", () => dimacs.certifyMaxArrays(IN_MAX, [4, 0, 0, 0, 0])],
            ["x solution 0 0 NotMaximum\nthe flow in `better` is ", () => dimacs.certifyMaxArrays(IN_MAX, [0, 2, 0, 0, 2])],
            ["x solution 0 0 NotLeast\nthe flow in `better` is ", () => dimacs.certifyMinArrays(IN_MIN, [3, 1, 1, 2, 2])],
            [met, () => dimacs.certifyInfeasibleArrays(IN_MIN)],
            ["x arc 2 NegativeWeight\narc 2: 2 -> 3, ", () => dimacs.solvePathsArrays({...IN_GRAPH, weights}, 1)],
        ]) assert.equal(thrown(call).explain().slice(0, lines.length), lines);
        // A text can't say that the source is at 1.
        const late = thrown(() => dimacs.judgePathsArrays(IN_GRAPH, 1, [1, 5, 9, Infinity], [0, 1, 2, 0]));
        assert.equal(late.explain(), "x node 1 NotShortest\nnode 1 is the source: its distance has to be 0, and is 1\n");
        throws(() => new dimacs.Verdict("max", 6n).explain(), TypeError);
    },
    "predecessors that lead to no source are refused as by the judge": () => {
        const graph = {nodes: 4, tails: [1, 4, 3, 2], heads: [4, 3, 2, 2], weights: [5, 4, 1, 0]};
        for (const predecessors of [[0, 3, 2, 1], [0, 2, 4, 1], [0, 3, 0, 1], [0, 3, 5, 1]]) {
            const no = thrown(() => dimacs.judgePathsArrays(graph, 1, [0, 10, 9, 5], predecessors));
            assert.equal(no.explain().split("\n")[0], `x ${no.message.split(":")[0]}`);
        }
        // Node 3 is at 5 + 4 = 9, and not at 8.
        const loose = thrown(() => dimacs.judgePathsArrays(graph, 1, [0, 9, 8, 5], [0, 3, 4, 1])).explain();
        assert.ok(loose.startsWith("x node 3 NoTightArc\nnode 3: distance 8, predecessor 4\n"));
    },
    "a yes for arrays that change later": () => {
        const flows = big(4, 2, 1, 3, 3), yes = dimacs.judgeMaxArrays(IN_MAX, flows, [1, 0, 0, 0]);
        assert.match(yes.explain(), /^v max 6\n/);
        flows[0] = 9n;
        const told = "the arrays hold other numbers now, and these are refused: the answer isn't theirs\n";
        assert.equal(yes.explain(), told);
    },
    "messages": () => {
        // What is said, and the call; tests/rows/calls has what is said of numbers that were compared.
        const apart = {nodes: 4, tails: [1, 2, 3], heads: [2, 3, 4], lows: [0, 0, 0], caps: [2, 2, 2]};
        const wide = {...apart, costs: Array(3).fill(2n ** 63n - 1n), supplies: [1, 0, 0, -1]};
        const graph = {nodes: 3, tails: [1, 2], heads: [2, 3], weights: [LARGE, LARGE]};
        const certify = (flows) => () => dimacs.certifyMaxArrays(IN_MAX, flows);
        const steps = "limit: 0 steps led to better flows, or the least cost";
        for (const [message, call] of [
            ["limit: 0 flows that aren't maximum were found", () => dimacs.solveMaxArrays(IN_MAX, 0)],
            ["limit: 0 flows that aren't maximum were found", () => dimacs.solveMax(MAX, 0)],
            [`${steps} or a potential is out of range`, () => dimacs.solveMinArrays(IN_MIN, 0)],
            [`${steps} is out of range`, () => dimacs.solveMin(MIN, 0)],
            [/^two of the potentials .* are 2\^64 or more apart/, () => dimacs.certifyMinArrays(wide, [1, 1, 1])],
            ["a distance is 2^63 - 1 or more", () => dimacs.solvePathsArrays(graph, 1)],
            ["flows[3]: 2.5 isn't a whole number", certify([4, 2, 1, 2.5, 3])],
            ["flows[1] is no number", certify([4, "2", 1, 3, 3])],
        ]) {
            if (message instanceof RegExp) assert.match(thrown(call).message, message);
            else assert.equal(thrown(call).message, message);
        }
    },
    "what is said of the module": () => {
        assert.match(dimacs.version, /^\d+\.\d+\.\d+/);
        assert.equal(typeof dimacs.proved, "boolean");
    },
};

await countedAll(CASES);
process.exitCode = finished();

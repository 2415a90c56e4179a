// Uses the page in a browser as a person does: page.mjs PAGE chromium|firefox PROGRAM. The last line counts what passed
// and what failed.
import assert from "node:assert/strict";
import {readFileSync, rmSync, writeFileSync} from "node:fs";
import {createServer} from "node:http";
import {join} from "node:path";
import {gzipSync} from "node:zlib";
import {counted, countedAll, finished} from "../../lib/test/cases.mjs";
import {until} from "./browser.mjs";
import {button, element, file, inBrowser, inPane, kind, pause, quoted, settled, sums, typing} from "./person.mjs";

// ---- what is tested. Networks and their answers were worked out by hand.

const MAX = "p max 2 1\nn 1 s\nn 2 t\na 1 2 4\n";
const PARALLEL = "p max 3 3\nn 1 s\nn 3 t\na 1 2 9\na 2 3 3\na 2 3 5\n";
const MIN = "p min 2 1\nn 1 2\nn 2 -2\na 1 2 0 3 5\n";
const MANY = "9000000000000000000", DEAR = `p min 2 1\nn 1 ${MANY}\nn 2 -${MANY}\na 1 2 0 ${MANY} ${MANY}\n`;
const FLOW = "s 4\nf 1 2 4\n";
const GRAPH = "p sp 2 1\na 1 2 5\n", LABELS = "p dist 2 1\nt 1 1\nd 2 5 1\n", NEAR = "p dist 2 1\nt 1 0 0\n";
const PAIR = "p aux sp p2p 1\nq 1 2\n", PAIRS = "p aux sp p2p 2\nq 1 1\nq 1 2\n";
const EXAMPLES = new URL("../../examples", import.meta.url).pathname;
const exampleFiles = (names) => Object.fromEntries(names.split(" ").map((it) => [it, readFileSync(`${EXAMPLES}/${it}`, "utf8")]));
const CUT = "p cut 5 3\nu 1\nu 2\nu 3\n";  // the only minimum cut of the example

const FAULT = "Nothing was judged: there is a fault in the instance", UNFIT = "Nothing was judged: the texts don't fit together";
const UNSHOWN = "Not shown: this certificate doesn't show it", UNCLAIMED = "Nothing was claimed";
const OTHER = "It doesn't belong here: Check reads", NO = "No: the answer is wrong", ROAD = "road.gr road.query road.dist";

/** Of files or an example: its claim, what is pressed, the heading, the line, what explains it, a file that is handed out. */
const OF_FILES = [
    ["pipes.max pipes.solution", "max", "Check", "Yes: the flow of value 12 is maximum", "v max 12", /4 \+ 8 = 12/, "pipes.cut", CUT],
    ["a flow that can grow", "max", "Check", NO, "x solution 2 2 NotMaximum", /s 10.*s 12/, "instance-better.solution", /^s 12\n/],
    ["a flow of least cost", "min", "Check", "Yes: the flow of cost 55 costs least", "v min 55", /55/],
    ["freight.min", "min", "Solve", "Solved: the flow of cost 55 costs least", "v min 55", /55/, "freight.solution", /^s 55\n/],
    ["no feasible flow", "infeasible", "Check", "Yes: no flow is feasible", "v infeasible", /its supply: 5/],
    ["no feasible flow", "infeasible", "Solve", "Solved: no flow is feasible", "v infeasible", /its supply: 5/],
    ["distances", "paths", "Check", "Yes: the distances from 2 sources", "v sp distances 2", /140 \+ 80 \+ 97 \+ 101/],
    [ROAD, "paths", "Check", "Yes: the distances for 3 q lines", "v 1 5 1400\nv 1 6 unreachable\nv 6 3 1400", /1400/],
    [ROAD, "paths", "Solve", "Solved: the distances for 3 q lines", "v 1 5 1400\nv 1 6 unreachable\nv 6 3 1400", /1400/],
    ["road-faulty.gr road.distances", "paths", "Check", FAULT, "x instance 12 4 BadNumber", /instance:12: a 3 4 {2}500\.5/],
];

/** Of typed texts: the claim, the instance, the claim's text, the certificate, and the heading. */
const TYPED = [
    ["max", MAX.replace("4\n", "4.5\n"), FLOW, "", FAULT],
    ["max", MAX, "s 4\nf 1 2\n", "", "Nothing was judged: there is a fault in the solution"],
    ["max", MAX, FLOW, "p cut 2 1\nu 3\n", "Nothing was judged: there is a fault in the certificate"],
    ["max", FLOW, MAX, "", FAULT],
    ["max", MAX, "p distances 2 0\n", "", "Nothing was judged: there is a fault in the solution"],
    ["max", MAX, "s 4\nf 2 1 4\n", "", NO],
    ["min", MIN, "s 10\nf 1 2 2\n", "p pot 2 1\ny 1 9\n", UNSHOWN],
    ["min", DEAR, `s 0\nf 1 2 ${MANY}\n`, "", "Undecided: the cost is out of range"],
    ["infeasible", `${DEAR}c typed\n`, "", "", NO],
    ["paths", GRAPH, "p aux sp ss 1\ns 9\n", LABELS, UNFIT],
    ["paths", GRAPH, "p aux sp ss 1\ns 2\n", LABELS, UNSHOWN],
    ["paths", GRAPH, "p distances 3 0\n", "", UNFIT],
    ["paths", GRAPH, "p distances 2 0\n", "", UNCLAIMED],
    ["paths", GRAPH, "p aux sp ss 0\n", "p dist 2 0\n", UNCLAIMED],
    ["paths", GRAPH, "p aux sp p2p 0\n", "p dist 2 0\n", UNCLAIMED],
    ["paths", GRAPH, PAIR, NEAR, UNCLAIMED],
    ["paths", GRAPH.replace("5\n", "-5\n"), PAIR, NEAR, UNSHOWN],
    ["paths", GRAPH, PAIR, LABELS, "Yes: the distance from 1 to 2"],
    ["paths", GRAPH, PAIRS, NEAR, "Yes: the distances for 1 of 2 q lines; the others are beyond a radius"],
    ["paths", GRAPH, "p aux sp p2p 1\nq 2 1\n", "p dist 2 1\nt 2 0\n", "Yes: no path leads from 2 to 1"],
    ["paths", GRAPH, "c\np aux sp ss 2\ns 1\n s +01\n", LABELS, "Yes: the distances from the sources of the queries"],
    ["paths", GRAPH, "p aux sp p2p 2\nq 1 2\nq 1 2\n", LABELS, "Yes: the distances for 2 q lines"],
    ["paths", GRAPH, "p distances 2 1\nt +01 1\nd 2 5\n", "", "Yes: the distances from 1 source"],
];

const BROKEN = [31, 139, 8, 0, 1, 2], ONE = "an instance of maximum flow";
const ZIPPED = [MAX.slice(0, 9), MAX.slice(9)].map((it) => gzipSync(it)), MEMBERS = [...Buffer.concat(ZIPPED)];
const CHOSEN = "((it) => it.value.slice(it.selectionStart, it.selectionEnd))(document.activeElement)";
const UNPACKED = new RegExp(`: an instance of maximum flow\\. ${sums(MEMBERS, MAX)}\\.$`);
const HUGE = "Array(33).fill(new Blob([new Uint8Array(2 ** 26)]))";

/** Files dropped on a text or beside all: what is said of one of the texts, and what Check needs then. */
const DROPPED = {
    "a packed claim": ["claim", {"student17.sol.zip": [80, 75, 3, 4]}, "claim", /^student17\.sol\.zip: no kind of text /, ""],
    "a broken instance": [null, {"new.max.gz": BROKEN, "new.sol": "s 1\n"}, "instance", /^new\.max\.gz: it can't be/, ONE],
    "a broken solution": [null, {"a.sol.gz": BROKEN, "b.max": MAX}, "claim", /^a\.sol\.gz: it can't/, "a solution"],
    "an empty file": ["claim", {"empty.sol": ""}, "claim", /^empty\.sol: it is empty/, "a solution"],
    "more than 2 GB": ["instance", {"big.max": {parts: HUGE}}, "instance", /^big\.max: it has more than 2 GB/, ONE],
    "two solutions": [null, {"a.sol": FLOW, "b.sol": "s 5\n"}, "claim", /^b\.sol: a .*\. Another file that came with it is left out/, ""],
    "a name with lines": ["claim", {"a\nv max 12.sol": FLOW}, "claim", /^a\ufffdv max 12\.sol: a solution/, ""],
    "an instance last": [null, {"a.sol": FLOW, "b.max": MAX}, "instance", /^b\.max: an .* flow\. \d/, ""],
    "what gzip packed in two members": ["instance", {"one.max": MEMBERS}, "instance", UNPACKED, ""],
    "two members that aren't whole": ["instance", {"one.max": MEMBERS.slice(0, -1)}, "instance", /one\.max: it can't be unp/, ONE],
    "other bytes after a member": ["instance", {"one.max": [...MEMBERS, 10]}, "instance", /one\.max: it can't be unpacked/, ONE],
    "a text named .gz": ["instance", {"one.max.gz": MAX}, "instance", new RegExp(`flow\\. ${sums(MAX)}\\.$`), ""],
};

/** A path of 40,000 nodes whose arcs weigh 7. */
const PATH = 40000, pathLines = (line) => Array.from({length: PATH - 1}, (_, i) => line(i + 1)).join("");
const PATH_GRAPH = `p sp ${PATH} ${PATH - 1}\n${pathLines((it) => `a ${it} ${it + 1} 7\n`)}`;
const PATH_PAIRS = `p aux sp p2p ${PATH - 1}\n${pathLines((it) => `q 1 ${it + 1}\n`)}`;
const PATH_LINES = pathLines((it) => `v 1 ${it + 1} ${7 * it}\n`);
const PATH_LABELS = `p dist ${PATH} 1\nt 1 ${PATH - 1}\n${pathLines((it) => `d ${it + 1} ${7 * it} ${it}\n`)}`;

/** How many texts the page gives to each command. */
const READS = {"judge-max": 3, "judge-min": 3, "judge-infeasible": 2, "judge-paths": 3, "certify-max": 2, "certify-min": 2};
Object.assign(READS, {"certify-infeasible": 1, "certify-paths": 2, "solve-max": 1, "solve-min": 1, "solve-paths": 2});

/** The rows of tests/rows for a command, as the page plans them. Those of two solvers begin with a limit. */
function rowsOf([command, count]) {
    const [verb, kind] = command.split("-"), from = verb === "solve" && kind !== "paths" ? 2 : 1;
    const lines = readFileSync(new URL(`../rows/${command}`, import.meta.url), "ascii").split("\n");
    const rows = lines.filter((it) => it && !it.startsWith("#")).map((it) => it.split(/ \|(?: |$)/));
    return rows.map((row) => ({verb, kind, texts: row.slice(from, from + count).map((it) => it.replaceAll(";", "\n"))}));
}

/** An expression for what explains these rows, by a worker as the page has one. */
const explaining = (rows) => `(async () => {
    const worker = new Worker(URL.createObjectURL(new Blob([${element("worker")}.textContent]))), told = [];
    const ask = (what, words) => new Promise((good) => {
        worker.onmessage = ({data}) => good(data.good);
        worker.postMessage({what, ...words});
    });
    await ask("start", {module: ${element("module")}.textContent});
    for (const {texts, ...plan} of ${quoted(rows)}) {
        await ask("run", {...plan, given: texts.map((it) => new TextEncoder().encode(it))});
        told.push(await ask("explain"));
    }
    worker.terminate();
    return told;
})()`;

const TESTS = {
    "a long verdict is shown in whole lines, and saved whole": async (person) => {
        await person.drop({"path.gr": PATH_GRAPH, "path.query": PATH_PAIRS, "path.dist": PATH_LABELS});
        await person.page.evaluate(`void ${element("check")}.focus()`);
        const {verdict, line, lines} = await person.ask("Check"), rest = PATH - 1 - line.split("\n").length;
        assert.equal(verdict, "Yes: the distances for 39,999 q lines");
        assert.ok(PATH_LINES.startsWith(`${line}\n`));
        assert.ok(lines.endsWith(`and ${rest.toLocaleString("en")} more lines`), lines.slice(-90));
        assert.equal(await person.page.evaluate("document.activeElement.id"), "check");
        await person.click("Save this answer");
        if (!person.downloads) return;
        const saved = await person.saved("path-answer.txt");
        assert.ok(saved.startsWith(`${verdict}\n\n${PATH_LINES}\n1 -> 2: 7\n`));
        assert.match(saved, /\n\nclaim: .*\ninstance: path\.gr, [\d,]+ bytes, SHA-256 .*\n[^]*\n\ndimacs .*\n$/);
    },
    "an answer is of the texts that were judged": async (person) => {
        const changes = {
            typing: () => person.write({claim: "s 11\n"}),
            "another claim": () => person.choose("min"),
            "another file": () => person.drop({"one.max": MAX}, "instance"),
            "a file of the same name and text": () => person.drop(exampleFiles("pipes.solution"), "claim"),
            "another example": () => person.click("a flow that can grow"),
            "removing a file": () => person.beside("claim", "Remove"),
            "editing a file": () => person.beside("claim", "Edit"),
        };
        for (const [name, change] of Object.entries(changes)) {
            await person.write({}, "max");
            await person.drop(exampleFiles("pipes.max pipes.solution"));
            assert.match((await person.ask("Check")).verdict, /^Yes/, name);
            await change();
            const {verdict, state} = await person.answer();
            assert.deepEqual([verdict, state], [undefined, ""], name);
        }
    },
    "an answer to what was changed meanwhile": async (person) => {
        for (const change of [typing("claim", "s 1\n"), typing("kind", "max", "change"), `${inPane("claim", "Edit")}.click()`]) {
            await person.write({}, "max");
            await person.drop(exampleFiles("pipes.max pipes.solution"));
            await person.page.evaluate(`void (${button("Check")}.click(), ${change})`);
            const {verdict, line, judged} = await person.answered();
            assert.deepEqual([verdict, line, judged], ["Stopped: a text or the claim was changed.", undefined, []]);
        }
    },
    "what was judged is named": async (person) => {
        await person.drop(exampleFiles("pipes.max pipes.solution"));
        await person.write({certificate: CUT});
        const read = (title, name) => `${title}: ${name}, ${sums(readFileSync(`${EXAMPLES}/${name}`))}`;
        const texts = [read("instance", "pipes.max"), read("solution", "pipes.solution"), `certificate: typed, ${sums(CUT)}`];
        const wanted = ["claim: the flow is maximum", ...texts];
        assert.deepEqual((await person.ask("Check")).judged.slice(0, 4), wanted);
        assert.equal(await person.page.evaluate(`document.querySelector("#judged bdi").textContent`), "pipes.max");
    },
    "a wrong solution beside what Solve answers": async (person) => {
        await person.write({instance: MAX, claim: "s 1\n"}, "max");
        const {verdict, state, judged} = await person.ask("Solve");
        assert.deepEqual([verdict, state], ["Solved: the flow of value 4 is maximum", "open"]);
        assert.equal(judged[1], "not read: typed, a solution");
        await person.write({instance: DEAR}, "min");
        assert.match((await person.ask("Solve")).verdict, /^Undecided: the solver reached its limit, or/);
        await person.write({instance: GRAPH.replace("5\n", "-5\n"), claim: PAIR, certificate: LABELS}, "paths");
        assert.equal((await person.ask("Solve")).verdict, "Not solved: a weight is negative");
        await person.ask("Check");
        const offered = `[...document.querySelectorAll("#answer button:not(.quote)")].map((it) => it.textContent)`;
        assert.deepEqual(await person.page.evaluate(offered), ["Save this answer"]);
    },
    "lines and fields that are quoted": async (person) => {
        await person.write({claim: "s 8\nf 1 2 8\nf 2 3 3\nf 2 3 6\n"}, "max");
        await person.drop({"odd.max": PARALLEL.replace("n 1", "c one\rtwo\r\nn 1").replace("5\n", "5\r\n")}, "instance");
        const {marked, line} = await person.ask("Check");
        assert.deepEqual([line, marked], ["x arc 3 AboveCap", ["instance:7: a 2 3 5 ", "solution:4: f 2 3 6"]]);
        for (const [slot, line] of [["instance", "a 2 3 5"], ["claim", "f 2 3 6"]]) {
            await person.page.evaluate(`void document.querySelectorAll("button.quote")[${Number(slot === "claim")}].click()`);
            const selected = `[document.activeElement.id, ${slot === "claim" ? CHOSEN : "String(getSelection()).trimEnd()"}]`;
            assert.deepEqual(await person.page.evaluate(selected), [slot, line]);
        }
        await person.drop({"long.max": `${"c a note\n".repeat(9000)}${PARALLEL}`}, "instance");
        await person.ask("Check");
        assert.equal(await person.page.evaluate(`document.querySelector(".quote").tagName`), "P");
        await person.write({instance: MAX.replace("a 1", "a \u{1f600}\u{1f600}"), claim: FLOW}, "max");
        assert.deepEqual((await person.ask("Check")).fields, ["\u{1f600}\u{1f600}"]);
    },
    "a certificate that doesn't show a right flow": async (person) => {
        await person.write({instance: MAX, claim: FLOW, certificate: "p cut 2 2\nu 1\nu 2\n"}, "max");
        const {verdict, line, state, meaning} = await person.ask("Check");
        assert.deepEqual([verdict, line, state], [UNSHOWN, "x node 2 SinkInside", "open"]);
        assert.match(meaning, /which may be true all the same/);
        await person.write({certificate: ""});
        assert.equal((await person.ask("Check")).verdict, "Yes: the flow of value 4 is maximum");
    },
    "no line names a command, a verb of one or a file, but what a text is quoted with": async (person) => {
        const rows = Object.entries(READS).flatMap(rowsOf), told = await person.page.evaluate(explaining(rows));
        const named = /\b(dimacs|run|judge|certify|solve|spread|convert|files?)\b|-(max|min|paths|infeasible)\b|`(flow|better)`/;
        const lines = told.flatMap((it) => it.split("\n")).filter((it) => !/^\w+:\d+: /.test(it));
        assert.ok(lines.length > 500, String(lines.length));
        assert.deepEqual(lines.filter((it) => named.test(it)), []);
        await person.write({instance: MAX, claim: "dimacs solve-max: it is in `flow`\n"}, "max");
        assert.deepEqual((await person.ask("Check")).marked, ["solution:1: dimacs solve-max: it is in `flow`"]);
    },
    "what is said in place of a command": async (person) => {
        const rows = [
            ["max", MAX, FLOW, "p cut 2 2\nu 1\nu 2\n", /true all the same: to find out, remove it, and press Check$/],
            ["paths", GRAPH, PAIR, LABELS.replace("5", "6"), /true all the same: to find out, press Solve$/],
            ["infeasible", MIN, "", "", /the instance has a feasible flow, which costs 10$/],
            ["paths", GRAPH.replace("5\n", "-5\n"), PAIR, NEAR, /below 0: Solve takes no such graph, and a block with a RADIUS/],
            ["max", FLOW, MAX, "", /the texts instance and solution are exchanged$/],
        ];
        for (const [claim, instance, given, certificate, said] of rows) {
            await person.write({instance, claim: given, certificate}, claim);
            assert.match((await person.ask("Check")).meaning, said);
        }
    },
    "a certificate that was there before the instance": async (person) => {
        const said = /It was here before the instance changed\.$/;
        const has = async () => said.test((await person.answer()).about.certificate);
        await person.drop({"a.max": MAX, "a.sol": FLOW, "a.cut": "p cut 2 1\nu 1\n"});
        await person.write({claim: FLOW});
        assert.equal(await has(), false);
        await person.drop({"a.max": MAX}, "instance");
        assert.equal(await has(), true);
        await person.drop({"a.cut": "p cut 2 1\nu 1\n"}, "certificate");
        assert.equal(await has(), false);
        await person.write({instance: MAX});
        assert.equal(await has(), true);
    },
    "reading that is stopped": async (person) => {
        const dropping = `new DragEvent("drop", {bubbles: true, dataTransfer})`;
        const given = `dataTransfer.items.add(new File([${quoted(MAX)}], "a.max")), document.body.dispatchEvent(${dropping})`;
        for (const stop of [`${button("Stop")}.click()`, `document.dispatchEvent(new KeyboardEvent("keydown", {key: "Escape"}))`]) {
            await person.write({}, "max");
            await person.page.evaluate(`((dataTransfer) => void (${given}, ${stop}))(new DataTransfer())`);
            await person.read();
            assert.match((await person.answer()).about.claim, /^a\.max: it was stopped\.$/);
            await person.drop({"a.max": MAX});
            assert.match((await person.answer()).about.instance, /^a\.max: an instance/);
        }
    },
    "a file that is removed before it is read": async (person) => {
        const path = join(person.folder, "removed.max");
        writeFileSync(path, MAX);
        await person.write({}, "max");
        if (!person.downloads) return;
        await person.page.choosing(path, () => person.click("Open a file"), () => rmSync(path));
        await person.read();
        assert.match((await person.answer()).about.instance, /^removed\.max: it can't be read/);
    },
    "texts that Check doesn't read": async (person) => {
        const rows = [
            [{instance: MAX, claim: FLOW, certificate: "p pot 2 1\ny 1 9\n"}, "max", "certificate", `${OTHER} a set of nodes`],
            [{instance: MAX, claim: CUT}, "max", "claim", `${OTHER} a solution`],
            [{instance: MIN, claim: FLOW}, "infeasible", "claim", "Check doesn't read it"],
            [{instance: GRAPH, claim: "p distances 2 0\n", certificate: LABELS}, "paths", "certificate", "Check doesn't read it"],
        ];
        for (const [texts, claim, slot, wanted] of rows) {
            await person.write(texts, claim);
            assert.ok((await person.answer()).about[slot].endsWith(`. ${wanted}.`), wanted);
        }
        await person.choose("max");
        assert.equal(await person.page.evaluate(`${element("kind")}.value`), "paths");
    },
    "a better and a feasible flow": async (person) => {
        await person.example("a flow that can grow");
        const {titles, fields} = await person.ask("Check");
        assert.deepEqual([titles, fields], [["A better solution"], ["10"]]);
        await person.click("Use it as the solution");
        await person.read();
        assert.equal((await person.ask("Check")).line, "v max 12");
        await person.write({instance: MIN, claim: "s 10\nf 1 2 2\n"}, "infeasible");
        const feasible = await person.ask("Check");
        assert.deepEqual([feasible.line, feasible.titles], ["x instance 0 0 Feasible", ["A feasible solution"]]);
    },
    "what Check and Solve need": async (person) => {
        const rows = [
            [{}, "max", "Check needs an instance of maximum flow. Solve needs an instance of maximum flow."],
            [{instance: MAX}, "max", "Check needs a solution."],
            [{instance: MIN}, "infeasible", ""],
            [{instance: GRAPH, claim: LABELS}, "paths", "Solve needs queries, as p aux sp ss 1 and s 1 on two lines."],
            [{instance: GRAPH, claim: PAIR}, "paths", "Check needs labels as the certificate, which Solve makes."],
        ];
        for (const [texts, claim, wanted] of rows) {
            await person.write(texts, claim);
            const {needs, isOff} = await person.answer();
            assert.deepEqual([needs, isOff], [wanted, wanted.includes("Check")]);
        }
    },
    "no text that a browser puts back": async (person) => {
        await person.write({instance: MIN, claim: FLOW}, "infeasible");
        await person.page.load("about:blank");
        await until(person.page, `location.href === "about:blank"`);
        await person.page.evaluate("void setTimeout(() => history.back())");  // which ends what it is called in
        await until(person.page, "document.documentElement.dataset.ready");
        const {values, isOff} = await person.answer();
        assert.equal(isOff, values.instance === "");
        assert.equal(await person.page.evaluate(`${element("kind")}.value`), isOff ? "max" : "infeasible");
    },
    "a long paste": async (person) => {
        await person.write({instance: "c before after\n", claim: ""}, "max");
        await person.page.evaluate(`${element("instance")}.setSelectionRange(9, 15)`);
        await person.paste(`"\\n" + ("c" + " 78 letters".repeat(7) + "\\n").repeat(2 ** 14) + ${quoted(MAX)}`, "instance");
        const {values, typed, about} = await person.answer();
        assert.ok(values.instance.startsWith("c before \nc 78") && values.instance.length <= 2 ** 16);
        assert.equal(typed.instance, undefined);
        assert.match(about.instance, /^pasted text: an instance of maximum flow\. .*\. Not shown: [\d,]+ more lines\.$/);
        await person.paste(`"lost"`, "instance");
        assert.equal((await person.ask("Solve")).line, "v max 4");
    },
    "a text that gets too long to be typed": async (person) => {
        await person.write({instance: `c${"\u00e9".repeat(2 ** 15)}`, claim: FLOW}, "max");
        await person.read();
        const {typed, about} = await person.answer(), editable = `${inPane("instance", "Edit")} !== null`;
        assert.deepEqual([typed.instance, await person.page.evaluate(editable)], [undefined, false]);
        assert.match(about.instance, /^pasted text: .*65,537 bytes/);
        await person.drop({"a.max": `c${"\u00e9".repeat(2 ** 14)}\n${MAX}`}, "instance");
        await person.beside("instance", "Edit");
        assert.equal((await person.answer()).typed.instance.length, 2 ** 14 + 2 + MAX.length);
        await person.drop({"latin.max": [99, 233, 10, ...Buffer.from(MAX)]}, "instance");
        assert.equal(await person.page.evaluate(editable), false);
    },
    "a run that is stopped, and a file that changes": async (person) => {
        const path = join(person.folder, "changing.max"), escape = `new KeyboardEvent("keydown", {key: "Escape"})`;
        writeFileSync(path, MAX);
        await person.write({instance: MAX, claim: FLOW}, "max");
        if (person.downloads) await person.openFile(path);
        for (const stop of [`${button("Stop")}.click()`, `document.dispatchEvent(${escape})`]) {
            const solve = `${element("answer")}.replaceChildren(), ${button("Solve")}.click()`;
            await person.page.evaluate(`void (${solve}, await null, ${stop})`);
            assert.equal((await person.answered()).verdict, "Stopped: undecided.");
        }
        writeFileSync(path, "p max 0 0\nc another text\n");
        assert.equal((await person.ask("Check")).line, "v max 4");
    },
    "keys and labels": async (person) => {
        await person.drop(exampleFiles("pipes.max pipes.solution"));
        await person.page.evaluate(`void document.dispatchEvent(new KeyboardEvent("keydown", {key: "Enter", ctrlKey: true}))`);
        const said = `document.querySelector("[role=alert]")?.textContent`;
        await until(person.page, `/^\\s*Yes: [^]*4 [+] 8 = 12/.test(${said}) && ${settled}`);
        const isNamed = `it.getAttribute("aria-label") || it.labels?.length || (it.matches("button") && it.textContent.trim())`;
        const all = `[...document.querySelectorAll("button, textarea, select, pre")]`;
        const nameless = `${all}.filter((it) => !(${isNamed})).map((it) => it.outerHTML)`;
        assert.deepEqual(await person.page.evaluate(nameless), []);
    },
    "a phone's width": async (person) => {
        await person.page.size(360, 740);
        for (const name of ["distances", "a flow that can grow"]) {
            await person.example(name);
            await person.ask("Check");
            assert.ok((await person.page.evaluate("document.documentElement.scrollWidth")) <= 360, name);
        }
        await person.page.size(1100, 900);
    },
};

async function ofFiles(person, [name, claim, pressed, heading, line, meaning, made, content]) {
    await person.write({}, claim);
    await (name.includes(".") ? person.drop(exampleFiles(name)) : person.example(name));
    await person.choose(claim);
    const answer = await person.ask(pressed);
    assert.deepEqual([answer.verdict, answer.line], [heading, line]);
    assert.equal(answer.state, heading.startsWith("Yes") ? "yes" : heading === NO ? "no" : "open");
    assert.match(answer.meaning, meaning);
    if (made && person.downloads) assert.match(await person.downloaded(made), new RegExp(content));
}

async function ofTyped(person, [claim, instance, given, certificate, heading]) {
    await person.write({instance, claim: given, certificate}, claim);
    const {verdict, state} = await person.ask("Check");
    assert.equal(verdict, heading);
    assert.equal(state, heading.startsWith("Yes") ? "yes" : heading === NO ? "no" : "open");
}

/** A file that fails leaves nothing in its place, and no old text is checked instead. */
async function ofDropped(person, [slot, named, place, about, needed]) {
    await person.drop(exampleFiles("pipes.max pipes.solution"));
    await person.drop(named, slot);
    const found = await person.answer();
    assert.match(found.about[place], about);
    assert.deepEqual([found.needs.startsWith(`Check needs ${needed}.`), found.isOff], [needed !== "", needed !== ""]);
    assert.equal(found.values[place] === "", needed !== "");
}

// ---- the network

/** Requests that a script may try; each gives whether it went through. */
const REQUESTS = {
    "a fetch": (url) => `fetch("${url}", {mode: "no-cors"}).then(() => true, () => false)`,
    "a picture": (url) => `new Promise((good) => {
        Object.assign(new Image(), {onload: () => good(true), onerror: () => good(false), src: "${url}"});
    })`,
    "a beacon": (url) => `Promise.resolve(navigator.sendBeacon("${url}")).catch(() => false)`,
    "a request from a worker": (url) => `new Promise((good) => {
        const code = 'fetch("${url}", {mode: "no-cors"}).then(() => postMessage(true), () => postMessage(false))';
        const worker = new Worker(URL.createObjectURL(new Blob([code])));
        Object.assign(worker, {onmessage: ({data}) => good(data), onerror: () => good(false)});
    })`,
};

/** Each request goes through from an empty page, and none from this one. */
async function requests(person) {
    const pages = {"/page": readFileSync(file), "/plain": "<!doctype html>"}, reached = [];
    const server = createServer(({url}, answer) => {
        if (!pages[url] && url !== "/favicon.ico") reached.push(url);
        answer.setHeader("content-type", pages[url] ? "text/html" : "image/svg+xml");
        answer.end(pages[url] ?? '<svg xmlns="http://www.w3.org/2000/svg"/>');
    });
    await new Promise((good) => server.listen(0, "0.0.0.0", good));
    const address = (host = "127.0.0.1") => `http://${host}:${server.address().port}`;
    for (const [place, wanted] of [["plain", 1], ["page", 0]]) {
        await (wanted ? person.page.load(`${address()}/${place}`) : person.open(`${address()}/${place}`));
        for (const [name, request] of Object.entries(REQUESTS)) {
            await counted(`${name} from the ${place}`, async () => {
                await person.page.evaluate(request(`${address()}/${place}-${name.replaceAll(" ", "-")}`));
                for (let tries = 0; tries < 1 || (tries < 300 && reached.length < wanted); tries++) await pause(person);
                assert.equal(reached.splice(0).length, wanted);
            });
        }
    }
    await counted("the page from a server", async () => {
        await person.example("a flow of least cost");
        assert.equal((await person.ask("Check")).line, "v min 55");
    });
    if (kind === "firefox") return;  // it doesn't open 0.0.0.0
    await counted("a page from a server without https", async () => {
        await person.open(`${address("0.0.0.0")}/page`);
        await person.example("a flow of least cost");
        assert.match((await person.ask("Check")).judged[1], /, no SHA-256, which a browser computes for /);
    });
}

await inBrowser(async (person) => {
    for (const row of OF_FILES) await counted(`${row[2]} of ${row[0]}`, () => ofFiles(person, row));
    for (const row of TYPED) await counted(`${row[0]}: ${row[4]}`, () => ofTyped(person, row));
    for (const [name, row] of Object.entries(DROPPED)) await counted(`${name} is dropped`, () => ofDropped(person, row));
    await countedAll(TESTS, person);
    await requests(person);
});
process.exit(finished());

// Hands on the page: hands.mjs PAGE chromium|firefox PROGRAM DIMACS COUNT. It does so many of the acts after each of some
// beginnings, over the claim's slot, and then so many at random, over all slots. After each, an answer that is still there has
// to be of what is shown, and Check has to judge that: the bytes whose sums it names are those of the area or of the file,
// and its line is that of DIMACS over them. The last line counts what passed and what failed.
import assert from "node:assert/strict";
import {spawnSync} from "node:child_process";
import {writeFileSync} from "node:fs";
import {join} from "node:path";
import {gzipSync} from "node:zlib";
import {counted, finished} from "../../lib/test/cases.mjs";
import {element, inBrowser, inPane, kind, more, quoted, sums} from "./person.mjs";

const [dimacs, count] = more, SLOTS = ["instance", "claim", "certificate"];

// ---- what is given

const MAX = "p max 4 5\nn 1 s\nn 4 t\na 1 2 4\na 1 3 2\na 2 3 2\na 2 4 3\na 3 4 5\n", NOTES = "c a note\n".repeat(9000);
const FLOW = "s 6\nf 1 2 4\nf 1 3 2\nf 2 3 1\nf 2 4 3\nf 3 4 3\n", CUT = "p cut 4 1\nu 1\n", BAD = "f 1 2 9\n";
const packed = (...texts) => Buffer.concat(texts.map((it) => gzipSync(it)));

/** Files, and what those hold that gzip packed. A wrong long one is wrong where it isn't shown. */
const GIVEN = {
    "a.max": MAX, "long.max": NOTES + MAX, "two.max": packed(MAX.slice(0, 20), MAX.slice(20)), "a.max.gz": packed(MAX),
    "a.sol": FLOW, "wrong.sol": FLOW + BAD, "long.sol": FLOW + NOTES, "bad.sol": FLOW + NOTES + BAD,
    "packed": packed(FLOW), "broken.gz": packed(FLOW).subarray(0, 30), "empty.sol": "", "bom.sol": `\ufeff${FLOW}`,
    "latin.sol": Buffer.concat([Buffer.from([99, 233, 10]), Buffer.from(FLOW)]), "crlf.sol": FLOW.replaceAll("\n", "\r\n"),
    "a.cut": CUT, "long.cut": NOTES + CUT,
};
const HELD = {"two.max": MAX, "a.max.gz": MAX, "packed": FLOW};
const TEXTS = ["s 6\n", BAD, "c x\n", FLOW, MAX, "u 2\n", CUT], LONG = ["bad.sol", "long.sol", "long.max"].map((it) => GIVEN[it]);

// ---- what hands do

let seed = 1;
function random(count) {
    seed = (Math.imul(seed, 1664525) + 1013904223) | 0;
    return (seed >>> 8) % count;
}
const any = (list) => list[random(list.length)];

const press = (command) => async (person, slot) => (await person.focus(slot), person.page.press(command));
const script = (...words) => async (person, slot) => {
    await person.focus(slot);
    await person.page.evaluate(`document.execCommand(${words.map((it) => quoted(it)).join(", ")})`);
};
const type = (text) => async (person, slot) => (await person.focus(slot), person.page.type(text ?? any(TEXTS)));
const drop = (name, isBeside) => {
    const named = (it) => [it, Buffer.isBuffer(GIVEN[it]) ? [...GIVEN[it]] : GIVEN[it]];
    return (person, slot) => {
        const names = name?.split(" ") ?? [any(Object.keys(GIVEN)), ...(isBeside ? [any(Object.keys(GIVEN))] : [])];
        return person.drop(Object.fromEntries(names.map(named)), isBeside ? undefined : slot);
    };
};

/** A text that may be too long for the area comes somewhere into what stands there. */
const come = (find, how) => async (person, slot) => {
    const text = find();
    const {value, from, to} = await person.page.evaluate(`(({value, selectionStart, selectionEnd}) =>
        ({value, from: selectionStart, to: selectionEnd}))(${element(slot)})`);
    const places = [[from, to], ...Array.from({length: (value?.length ?? 0) + 1}, (_, i) => [i, i])];
    if (value !== undefined) {
        person.long[slot] = places.map(([begin, end]) => () => value.slice(0, begin) + text + value.slice(end));
    }
    await how(person, slot, text);
};
const paste = (find) => come(find, (person, slot, text) => person.paste(quoted(text), slot));
const dropText = (find) => come(find, (person, slot, text) => person.page.dropAt && person.dropAt(slot, [], text));

async function byHand(person, slot) {
    const name = any(Object.keys(GIVEN)), path = join(person.folder, name);
    writeFileSync(path, GIVEN[name]);
    await (person.page.dropAt ? person.dropAt(slot, [path]) : drop(name)(person, slot));
}

const click = (find) => (person, slot) => person.page.evaluate(`void ${find(slot)}?.click()`);
const beside = (name) => click((slot) => inPane(slot, name));
const check = `${element("check")}.click()`;

async function chooses(person) {
    const all = `[...${element("kind")}.options].filter((it) => !it.disabled).map((it) => it.value)`;
    await person.choose(any(await person.page.evaluate(all)));
}

const ACTS = {
    undo: press("undo"), redo: press("redo"), all: press("selectAll"), copy: press("copy"), cut: press("cut"),
    paste: press("paste"), undone: script("undo"), redone: script("redo"), letters: script("insertText", false, "s 2"),
    deleted: script("delete"), elsewhere: (person) => press("undo")(person, "certificate"),
    outside: async (person) => {
        await person.page.evaluate("document.activeElement.blur()");
        await person.page.evaluate(`document.execCommand("undo")`);
    },
    type: type(), s1: type("s 1"), c: type("c"), f: type(BAD),
    short: paste(() => BAD), long: paste(() => any(LONG)),
    dropped: dropText(() => BAD), longDropped: dropText(() => any(LONG)), byHand, file: drop(),
    twoFiles: drop(undefined, true), right: drop("a.max a.sol", true), wrong: drop("long.max bad.sol", true),
    ...Object.fromEntries(["a.sol", "long.sol", "bad.sol", "packed"].map((it) => [it, drop(it)])),
    edit: beside("Edit"), remove: beside("Remove"), chooses,
    example: click(() => `document.querySelectorAll("#examples button")[${random(4)}]`),
    use: click(() => `[...document.querySelectorAll("#answer button")].find((it) => it.textContent.startsWith("Use it"))`),
    solve: click(() => element("solve")),
    midst: (person, slot) => person.page.evaluate(`void (${check}, ${inPane(slot, any(["Edit", "Remove"]))}?.click())`),
};

// ---- what has to hold

/** The texts that may stand in a slot, each after the bytes of its file if gzip packed it. */
function candidates(person, slot, {typed, about}) {
    if (typed[slot] !== undefined) return [["typed", () => [typed[slot]]]];
    const [name] = about[slot].split(": ");
    if (name === "pasted text") return person.long[slot].map((it) => [name, () => [it()]]);
    const own = GIVEN[name] ?? person.handed;
    return [[name, () => (name in HELD ? [own, HELD[name]] : [own])]];
}

/** Checks what is shown, if it can be. */
async function judges(person) {
    const shown = await person.answer();
    if (shown.isOff) return;
    const {judged, verdict, line} = await person.ask("Check"), paths = [];
    for (const it of judged.slice(1, -1).filter((one) => !one.startsWith("not read"))) {
        const [title] = it.split(": "), slot = SLOTS.includes(title) ? title : "claim";
        const found = candidates(person, slot, shown).find(([name, parts]) => it === `${title}: ${name}, ${sums(...parts())}`);
        assert.ok(found, it);
        writeFileSync(paths[paths.push(join(person.folder, `text${paths.length}`)) - 1], found[1]().at(-1));
    }
    const {stdout} = spawnSync(dimacs, [judged.at(-1).replace("by ", ""), ...paths], {cwd: person.folder});
    const [wanted] = stdout.toString().split("\n");
    assert.equal(line.split("\n")[0], wanted, verdict);
    assert.equal(verdict.startsWith("Yes"), wanted.startsWith("v ") && !verdict.startsWith("Nothing"));
}

/** Does something, after which an answer that is left is of what is shown. */
async function acts(person, name, slot) {
    const before = await person.answer();
    if (name === "use") person.handed = before.handed;
    await ACTS[name](person, slot);
    await person.read();
    const {verdict, judged, ...after} = await person.answer(), isKept = verdict && quoted(judged) === quoted(before.judged);
    if (isKept && !["solve", "midst"].includes(name)) {
        assert.deepEqual([after.values, after.about, after.claim], [before.values, before.about, before.claim]);
    }
}

/** What was in the claim's slot before, and what is done then. Each begins with typed letters, which could be undone. */
const BEGUN = ["", "a.sol", "long.sol", "bad.sol", "packed", "long", "a.sol edit c", "a.sol remove", "example"];
const DONE = [
    "undo", "undo undo redo", "undo f", "outside", "elsewhere undo", "undone redone", "all letters", "f", "all cut undo",
    "all copy paste paste", "all cut paste undo", "short undo", "long undo", "dropped undo", "longDropped undo",
    "bad.sol undo redo",
];

const PAIRS = DONE.flatMap((_, turn) => BEGUN.map((begun, i) => [begun, DONE[(turn + i) % DONE.length]]));

async function inTurn(person, [begun, done]) {
    await counted(`${done} after ${begun || "typing"}`, async () => {
        await person.write({instance: MAX}, "max");
        for (const name of ["s1", ...begun.split(" ").filter(Boolean)]) await acts(person, name, "claim");
        await judges(person);
        for (const name of done.split(" ")) await acts(person, name, "claim");
        await judges(person);
    });
}

async function atRandom(person) {
    const [name, slot] = [any(Object.keys(ACTS)), any(SLOTS)];
    await counted(`${name} at ${slot}, of the seed ${seed}`, async () => {
        await acts(person, name, slot);
        if (random(3)) await judges(person);
    });
}

/** Does each of these cases, 48 in a browser, since Firefox stops answering in long sessions. */
async function inBrowsers(cases, does) {
    while (cases.length > 0) {
        await inBrowser(async (person) => {
            person.long = {};
            for (const it of cases.splice(0, 48)) await does(person, it);
        });
    }
}

seed = kind === "firefox" ? 2 : 1;
await inBrowsers(PAIRS.slice(0, count), inTurn);
await inBrowsers(Array(Number(count)).fill(null), atRandom);
process.exit(finished());

// What a person does with the page, for page.mjs and hands.mjs: MODULE.mjs PAGE chromium|firefox PROGRAM ..
import {createHash} from "node:crypto";
import {existsSync, readFileSync} from "node:fs";
import {join, resolve} from "node:path";
import {pathToFileURL} from "node:url";
import {counted} from "../../lib/test/cases.mjs";
import {until, withPage} from "./browser.mjs";

export const [, , file, kind, program, ...more] = process.argv;

export const quoted = JSON.stringify;
export const button = (text) => `[...document.querySelectorAll("button")].find((it) => it.textContent.startsWith(${quoted(text)}))`;
export const element = (id) => `document.getElementById(${quoted(id)})`;
const text = (id) => `${element(id)}.textContent`;
export const settled = `!${text("doing")}`;
export const inPane = (slot, name) => `document.querySelector(${quoted(`[data-slot=${slot}] [aria-label^=${name}]`)})`;

/** An expression that types a text, in place of a file, or chooses a claim. */
export const typing = (id, content, event = "input") => `void ((it) => {
    if (it.value === undefined) ${inPane(id, "Remove")}.click();
    it = ${element(id)};
    it.value = ${quoted(content)};
    it.dispatchEvent(new Event(${quoted(event)}, {bubbles: true}));
})(${element(id)})`;

/** Expressions for files, by their names: each has a text, bytes, or parts that an expression gives. */
const files = (named) => `[${Object.entries(named).map(([name, content]) => {
    const bytes = Array.isArray(content) ? `[new Uint8Array(${quoted(content)})]` : `[${quoted(content)}]`;
    return `new File(${content.parts ?? bytes}, ${quoted(name)})`;
})}]`;

export const pause = (person) => person.page.evaluate("new Promise((good) => setTimeout(good, 200))");

export class Person {
    constructor(page, folder) {
        this.page = page;
        this.folder = folder;
    }

    async open(url) {
        await this.page.load(url);
        await until(this.page, "document.documentElement.dataset.ready");
    }

    click(name) {
        return this.page.evaluate(`void ${button(name)}.click()`);
    }

    async example(name) {
        await this.click(name);
        await this.read();
    }

    /** Waits until what was given is read. */
    async read() {
        await until(this.page, settled);
    }

    /** Types texts, by the places where they belong; all others are empty. */
    async write(texts, claim) {
        if (claim) await this.choose(claim);
        const all = claim ? {instance: "", claim: "", certificate: "", ...texts} : texts;
        for (const [slot, content] of Object.entries(all)) await this.page.evaluate(typing(slot, content));
        if (claim) await this.choose(claim);
    }

    /** Drops files on a text or beside all, or pastes. */
    async give(event, filled, slot) {
        const place = slot ? element(slot) : "document.body";
        await this.page.evaluate(`(async () => {
            const dataTransfer = new DataTransfer(), more = {bubbles: true, cancelable: true, dataType: "text/plain"};
            ${filled};
            const data = dataTransfer.getData("text/plain");  // what Firefox pastes
            ${place}.dispatchEvent(new ${event}, {...more, dataTransfer, clipboardData: dataTransfer, data}));
        })()`);
        await this.read();
    }

    drop(named, slot) {
        return this.give(`DragEvent("drop"`, `for (const it of ${files(named)}) dataTransfer.items.add(it)`, slot);
    }

    paste(expression, slot) {
        return this.give(`ClipboardEvent("paste"`, `dataTransfer.setData("text/plain", ${expression})`, slot);
    }

    /** Opens a file by the system's dialog. */
    async openFile(path) {
        await this.page.choosing(path, () => this.click("Open a file"));
        await this.read();
    }

    /** Presses a button that asks for an answer, and gives it. */
    async ask(name) {
        await this.page.evaluate(`void (${element("answer")}.replaceChildren(), ${button(name)}.click())`);
        return this.answered();
    }

    /** Waits for an answer, and gives it. */
    async answered() {
        await until(this.page, `${element("verdict")} && ${settled}`);
        return this.answer();
    }

    /** What the page shows: the answer, what stands in the texts and beside them, and whether Check is off. */
    answer() {
        const all = (selector) => `[...document.querySelectorAll(${quoted(selector)})].map((it) => it.textContent)`;
        const of = (make) => `Object.fromEntries(["instance", "claim", "certificate"].map((it) => [it, ${make}]))`;
        return this.page.evaluate(`({verdict: ${element("verdict")}?.textContent, state: ${element("answer")}.className,
            lines: ${element("line")}?.textContent, line: document.querySelector("#line pre")?.textContent.trimEnd(),
            meaning: ${element("meaning")}?.textContent, marked: ${all(".quote")}, fields: ${all(".quote mark")},
            judged: ${all("#judged li")}, titles: ${all("#answer h3")}.slice(1), needs: ${text("needs")},
            isOff: ${element("check")}.disabled, typed: ${of("document.getElementById(it).value")},
            values: ${of("document.getElementById(it).value ?? document.getElementById(it).textContent")},
            about: ${of("document.getElementById(`about-${it}`).textContent")}})`);
    }

    /** Presses a button beside a slot's text. */
    async beside(slot, name) {
        await this.page.evaluate(`void ${inPane(slot, name)}.click()`);
    }

    /** Drops files, or a text, where a slot is, as a hand does. */
    async dropAt(slot, paths, content) {
        const at = await this.page.evaluate(`((it) => [it.x + 40, it.y + 20])(${element(slot)}.getBoundingClientRect())`);
        await this.page.dropAt(at, paths, content);
        await pause(this);
        await this.read();
    }

    async focus(slot) {
        await this.page.evaluate(`void ${element(slot)}.focus()`);
    }

    choose(kind) {
        return this.page.evaluate(typing("kind", kind, "change"));
    }

    async downloaded(name) {
        await this.click(`Download ${name}`);
        return this.saved(name);
    }

    async saved(name) {
        for (let tries = 0; tries < 600 && !existsSync(join(this.folder, name)); tries++) await pause(this);
        return readFileSync(join(this.folder, name), "latin1");
    }
}

/** What the page says of bytes, and of those that gzip packed in them. */
export const sums = (...all) => all.map((it) => {
    const bytes = Buffer.from(it), sum = createHash("sha256").update(bytes).digest("hex");
    return `${bytes.length.toLocaleString("en")} byte${bytes.length === 1 ? "" : "s"}, SHA-256 ${sum}`;
}).join("; unpacked by gzip: ");

/** Does something in a browser of its own, in which the page is open. */
export const inBrowser = (use) => withPage(kind, program, async (page, folder) => {
    const person = Object.assign(new Person(page, folder), {downloads: kind === "chromium"});
    await page.size(1100, 900);
    await counted("the page opens from a file", () => person.open(pathToFileURL(resolve(file)).href));
    await use(person);
});

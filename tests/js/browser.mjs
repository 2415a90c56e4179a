// Drives a browser without a display, by its own protocol: Chromium's over pipes, or WebDriver BiDi of Firefox, for
// which node needs WebSocket: 22, or 20 with --experimental-websocket.
import {spawn} from "node:child_process";
import {mkdtempSync, rmSync} from "node:fs";
import {tmpdir} from "node:os";
import {join} from "node:path";

const sleep = (milliseconds) => new Promise((good) => setTimeout(good, milliseconds));

/** A connection that answers commands and keeps events. What it writes goes to `write`. */
class Connection {
    constructor(write) {
        this.write = write;
        this.waiting = new Map();
        this.events = [];
        this.count = 0;
    }

    take({id, result, error, method, params}) {
        if (!this.waiting.has(id)) {
            if (method) this.events.push({method, params});
            return;
        }
        const {good, bad} = this.waiting.get(id);
        this.waiting.delete(id);
        if (error) bad(new Error(JSON.stringify(error)));
        else good(result);
    }

    send(method, params = {}, sessionId = undefined) {
        return new Promise((good, bad) => {
            this.waiting.set(++this.count, {good, bad});
            this.write(JSON.stringify({id: this.count, method, params, sessionId}));
        });
    }
}

/** Chromium reads messages from its file 3 and writes them to 4, each with a byte 0 after it. */
function overPipes(browser) {
    const [, , , toBrowser, fromBrowser] = browser.stdio;
    const connection = new Connection((message) => toBrowser.write(`${message}\0`));
    let parts = [];
    fromBrowser.on("data", (chunk) => {
        for (let at; (at = chunk.indexOf(0)) >= 0; chunk = chunk.subarray(at + 1)) {
            connection.take(JSON.parse(Buffer.concat([...parts, chunk.subarray(0, at)]).toString()));
            parts = [];
        }
        parts.push(chunk);
    });
    return connection;
}

/** Firefox prints the address of its socket. */
async function overSocket(browser) {
    const socket = new WebSocket(`${await addressOf(browser)}/session`);
    const connection = new Connection((message) => socket.send(message));
    socket.onmessage = ({data}) => connection.take(JSON.parse(data));
    await new Promise((good, bad) => Object.assign(socket, {onopen: good, onerror: bad}));
    return connection;
}

/** The keys for a browser's commands, with the control key; those of redo differ. */
const KEYS = {undo: "z", redo: "y", selectAll: "a", copy: "c", cut: "x", paste: "v"}, CONTROL = "\ue009", SHIFT = "\ue008";

/** A page in Chromium. */
class ChromiumPage {
    async open(connection, folder) {
        this.connection = connection;
        const {targetInfos} = await connection.send("Target.getTargets");
        const {targetId} = targetInfos.find((it) => it.type === "page");
        ({sessionId: this.session} = await connection.send("Target.attachToTarget", {targetId, flatten: true}));
        await connection.send("Browser.setDownloadBehavior", {behavior: "allow", downloadPath: folder});
        for (const it of ["Page", "Runtime"]) await this.send(`${it}.enable`);
    }

    send(method, params) {
        return this.connection.send(method, params, this.session);
    }

    async load(url) {
        await this.send("Page.navigate", {url});
    }

    async evaluate(expression) {
        const words = {awaitPromise: true, returnByValue: true, userGesture: true};
        const asked = {...words, expression: `(async () => (${expression}))()`};
        const {result, exceptionDetails} = await this.send("Runtime.evaluate", asked);
        if (exceptionDetails) throw new Error(exceptionDetails.exception?.description ?? exceptionDetails.text);
        return result.value;
    }

    /** Gives a file to the dialog that an act opens, and does something before it is read. */
    async choosing(path, act, before = () => {}) {
        await this.send("Page.setInterceptFileChooserDialog", {enabled: true});
        const seen = this.connection.events.length;
        await act();
        const opened = () => this.connection.events.slice(seen).find((it) => it.method === "Page.fileChooserOpened");
        while (!opened()) await sleep(50);
        before();
        await this.send("DOM.setFileInputFiles", {files: [path], backendNodeId: opened().params.backendNodeId});
    }

    /** Types a text. */
    async type(text) {
        await this.send("Input.insertText", {text});
    }

    /** Makes the browser's own command, such as undo or paste, by the keys for it. */
    async press(command) {
        const key = KEYS[command], code = `Key${key.toUpperCase()}`, windowsVirtualKeyCode = key.toUpperCase().charCodeAt(0);
        const words = {modifiers: 2, key, code, windowsVirtualKeyCode};
        await this.send("Input.dispatchKeyEvent", {...words, type: "rawKeyDown", commands: [command]});
        await this.send("Input.dispatchKeyEvent", {...words, type: "keyUp"});
    }

    /** Drops files, or a text, where a place is, as a hand does. */
    async dropAt([x, y], files, text) {
        const items = text === undefined ? [] : [{mimeType: "text/plain", data: text}];
        const data = {items, files, dragOperationsMask: 1};
        for (const type of ["dragEnter", "dragOver", "drop"]) await this.send("Input.dispatchDragEvent", {type, x, y, data});
    }

    size(width, height) {
        const mobile = width < 600;
        return this.send("Emulation.setDeviceMetricsOverride", {width, height, deviceScaleFactor: 1, mobile});
    }
}

/** A page in Firefox. */
class FirefoxPage {
    async open(connection) {
        this.connection = connection;
        await connection.send("session.new", {capabilities: {}});
        const {contexts} = await connection.send("browsingContext.getTree");
        this.context = contexts[0].context;
    }

    async load(url) {
        await this.connection.send("browsingContext.navigate", {context: this.context, url, wait: "complete"});
    }

    async evaluate(expression) {
        const words = {target: {context: this.context}, awaitPromise: true, userActivation: true};
        const asked = {...words, expression: `(async () => JSON.stringify(await (${expression})))()`};
        const {type, result, exceptionDetails} = await this.connection.send("script.evaluate", asked);
        if (type === "exception") throw new Error(exceptionDetails.text);
        return result.value === undefined ? undefined : JSON.parse(result.value);
    }

    async type(text) {
        const actions = [...text].flatMap((value) => [{type: "keyDown", value}, {type: "keyUp", value}]);
        await this.act(actions.map((it) => (it.value === "\n" ? {...it, value: "\ue007"} : it)));
    }

    async press(command) {
        const keys = [CONTROL, ...(command === "redo" ? [SHIFT, "z"] : [KEYS[command]])], up = [...keys].reverse();
        await this.act([...keys.map((value) => ({type: "keyDown", value})), ...up.map((value) => ({type: "keyUp", value}))]);
    }

    act(actions) {
        const keys = [{type: "key", id: "keys", actions}];
        return this.connection.send("input.performActions", {context: this.context, actions: keys});
    }

    size(width, height) {
        return this.connection.send("browsingContext.setViewport", {context: this.context, viewport: {width, height}});
    }
}

const CHROMIUM = ["--headless=new", "--no-sandbox", "--disable-gpu", "--no-first-run", "--remote-debugging-pipe"];
const FIREFOX = ["--headless", "--no-remote", "--remote-debugging-port", "0"];

/** Of each its words before a folder and an address, and its page. */
const BROWSERS = {
    chromium: {words: (room) => [...CHROMIUM, `--user-data-dir=${room}`], connect: overPipes, Page: ChromiumPage},
    firefox: {words: (room) => [...FIREFOX, "--profile", room], connect: overSocket, Page: FirefoxPage},
};

async function addressOf(browser) {
    let printed = "";
    browser.stderr.on("data", (it) => (printed += it));
    for (let tries = 0; tries < 600; tries++) {
        const found = /listening on (ws:\S+)/i.exec(printed);
        if (found) return found[1];
        if (browser.exitCode !== null) break;
        await sleep(100);
    }
    throw new Error(`the browser doesn't answer: ${printed.slice(-600)}`);
}

/** Starts a browser, opens an empty page, and ends it after `use`, which gets a folder for downloads too; or if it hangs. */
export async function withPage(kind, program, use) {
    const {words, connect, Page} = BROWSERS[kind], room = mkdtempSync(join(tmpdir(), "browser-"));
    const stdio = ["ignore", "ignore", "pipe", "pipe", "pipe"], env = {...process.env, HOME: room};
    const browser = spawn(program, [...words(room), "about:blank"], {stdio, env, detached: true});
    const guard = setTimeout(() => {
        process.kill(-browser.pid, "SIGKILL");
        throw new Error("the browser hangs");
    }, 20 * 60 * 1000);
    try {
        const page = new Page();
        await page.open(await connect(browser), room);
        return await use(page, room);
    } finally {
        clearTimeout(guard);
        const ended = new Promise((good) => browser.on("exit", good));
        process.kill(-browser.pid, "SIGTERM");
        await ended;
        rmSync(room, {recursive: true, force: true, maxRetries: 50, retryDelay: 100});
    }
}

/** Waits until an expression is true in the page, but not for ever. */
export async function until(page, expression, seconds = 300) {
    for (const end = Date.now() + 1000 * seconds; Date.now() < end; ) {
        const value = await page.evaluate(expression).catch(() => false);
        if (value) return value;
        await sleep(50);
    }
    throw new Error(`never: ${expression}`);
}

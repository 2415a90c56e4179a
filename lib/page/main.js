// The page: what its slots hold, the worker that is asked, and its answers.
import {factsOf, read} from "./files.js";
import {MOST_TYPED, format, headed, many, planned, shown, textOf} from "./kinds.js";

const $ = (id) => document.getElementById(id);
const PROVED = "Every function that decides here is proved. Its translation to WebAssembly and this page aren't.";
const UNPROVED = "This page was built of code that is not proved.";

/** Where each slot stands, its file, and at which act it was filled. One without a file holds what stands in its area. */
const panes = Object.fromEntries([...document.querySelectorAll("[data-slot]")].map((it) => [it.dataset.slot, it]));
const SLOTS = Object.keys(panes), files = {}, filled = {};

/** The answer that is shown, whether one is computed, how often files are read, one after the other, and the acts so far. */
let answered = null, running = false, reading = 0, queue = Promise.resolve(), acts = 0;

function element(name, properties, ...inside) {
    const it = Object.assign(document.createElement(name), properties);
    it.append(...inside);
    return it;
}

const button = (onclick, ...inside) => element("button", {type: "button", onclick}, ...inside);
const row = (...inside) => element("div", {className: "row"}, ...inside);
const bdi = (name) => element("bdi", {}, name);  // a file's name, whose letters may run from right to left
const preview = (text, ariaLabel = "") => element("pre", {tabIndex: 0, ariaLabel}, text);

// ---- the worker

/** The worker, what ends the wait for it, why a run was ended, and what ends the reading of files. */
let worker = null, halt = () => {}, ended = "", halted = new AbortController();

/** Asks the worker, which answers one request after the other. */
function ask(what, words) {
    return new Promise((good, bad) => {
        worker.onmessage = ({data}) => (data.bad ? bad(new Error(data.bad)) : good(data.good));
        worker.onerror = ({message}) => bad(new Error(`No answer: ${message ?? "no worker"}.`));
        worker.postMessage({what, ...words});
    });
}

function startWorker() {
    if (!worker) {
        worker = new Worker(URL.createObjectURL(new Blob([$("worker").textContent], {type: "text/javascript"})));
        worker.started = ask("start", {module: $("module").textContent});
    }
    return worker.started;
}

/** Waits, but no longer than until the run is ended. What was ended has no answer. */
async function wait(promise) {
    const got = await Promise.race([promise, new Promise((good) => (halt = good))]);
    if (ended) throw new Error(ended);
    return got;
}

/** Ends a run: the worker can't be asked while it computes. */
function end(why) {
    if (!running || ended) return;
    ended = why;
    worker.terminate();
    worker = null;
    halt();
}

/** Ends what is under way. */
function stop() {
    halted.abort();
    halted = new AbortController();
    end(answered ? "It was stopped before it was explained." : "Stopped: undecided.");
}

// ---- what the slots hold

/** What the slots hold now: this is what is judged. */
function held() {
    const typed = (slot) => textOf(new TextEncoder().encode($(slot)?.value));
    return Object.fromEntries(SLOTS.map((it) => [it, files[it] ?? typed(it)]));
}

/** Puts a file into a slot, or a text into a new area, in which no key undoes what was there before. */
function put(slot, file, text = "") {
    const {title, like} = panes[slot].dataset;
    const action = (name, act) => Object.assign(button(act, name), {ariaLabel: `${name}: ${title}`});
    const type = (some) => (put(slot, null, some), $(slot).focus());
    const onchange = ({target}) => target.files.length && give([...target.files], slot);
    const actions = [action("Open a file", () => element("input", {type: "file", onchange}).click())];
    const isTypable = file?.text && file.bytes.length <= MOST_TYPED && !file.text.includes("\ufffd");
    if (isTypable) actions.push(action("Edit", () => type(file.text)));
    if (file) actions.push(action("Remove", () => type("")));
    const area = {value: text, placeholder: like, spellcheck: false, autocapitalize: "off", autocomplete: "off"};
    const place = file ? preview(file.text) : element("textarea", area);
    Object.assign(place, {id: slot, ariaLabel: title}).setAttribute("aria-describedby", `about-${slot}`);
    [files[slot], filled[slot]] = [file, acts];
    panes[slot].replaceChildren(row(element("h2", {}, title), ...actions), place, $(`about-${slot}`));
    changed();
}

/** After any change of a slot or of the claim: an answer to what was there goes, and none to it comes any more. */
function changed() {
    head("", "");
    end("Stopped: a text or the claim was changed.");
    ready();
}

/** Takes files that came at once. Several, or one beside the slots, go where their kinds belong. */
async function take(list, slot, signal) {
    const found = [], taken = [];
    for (const it of list) found.push(await read(it, signal));
    acts++;
    for (const it of found.sort((one, other) => Boolean(other.kind) - Boolean(one.kind))) {
        const free = ["claim", "instance", "certificate"].find((one) => !taken.includes(one));
        const at = (list.length === 1 && slot) || format(it.kind).slot || free || "claim";
        put(at, {...it, note: taken.includes(at) && "Another file that came with it is left out"});
        taken.push(at);
    }
}

/** Files are read in the order in which they come, and meanwhile nothing can be typed. */
function give(list, slot) {
    const focused = document.activeElement?.closest("[data-slot]")?.dataset.slot, {signal} = halted;
    reading++;
    changed();
    const failed = ({message}) => head(`The files can't be taken: ${message}`, "open");
    queue = queue.then(() => take(list, slot, signal)).catch(failed).finally(() => {
        reading--;
        ready();
        if (focused) $(focused).focus({preventScroll: true});
    });
}

/** What is typed. A text that gets too long for an area is given as a file. */
function typed(slot, ...parts) {
    filled[slot] = ++acts;
    if (new Blob(parts).size > MOST_TYPED) give([new File(parts, "pasted text")], slot);
    else changed();
}

/** Takes files, and long pastes, which take a browser minutes. Where one may type it takes other texts by itself. */
function come(event) {
    const {type, target} = event, {value, selectionStart, selectionEnd} = target;
    const data = event.dataTransfer ?? event.clipboardData, text = type === "paste" ? data.getData("text/plain") : "";
    const slot = target.closest?.("[data-slot]")?.dataset.slot, isTyped = target.localName === "textarea";
    const isOfFiles = data.types.includes("Files") && !data.types.includes("text/html");  // which a picture has
    if (isOfFiles && type !== "dragover") give([...data.files], slot);
    if (isTyped && !isOfFiles && text.length <= MOST_TYPED) return;
    if (isTyped && !isOfFiles) typed(slot, value.slice(0, selectionStart), text, value.slice(selectionEnd));
    event.preventDefault();
}

// ---- what can be done

/** Says what a slot holds, and what Check reads there. */
function describe(slot, {bytes, kind, file, facts, bad, note, more}, wanted) {
    const isEmpty = !file && !bytes.length, place = $(`about-${slot}`);
    const wrong = wanted ? `It doesn't belong here: Check reads ${format(wanted).name}` : "Check doesn't read it";
    const tip = kind !== wanted && (kind || !wanted) && wrong, size = facts ?? many(bytes.length, "byte");
    const old = slot === "certificate" && filled[slot] < filled.instance && "It was here before the instance changed";
    const told = [format(kind).name, size, more && `Not shown: ${more}`, note, tip, old];
    const said = isEmpty ? panes[slot].dataset.hint : `${(bad ? [bad] : told).filter(Boolean).join(". ")}.`;
    place.replaceChildren(...(file ? [bdi(file), ": "] : []), said);
    place.classList.toggle("bad", !isEmpty && Boolean(bad || note || tip || old || (file && !kind)));
}

/** Says what the slots hold, offers what can be done, and says what it needs. */
function ready() {
    const texts = held(), kind = $("kind"), {claims = []} = format(texts.instance.kind), needs = [];
    for (const it of kind.options) it.disabled = claims.length > 0 && !claims.includes(it.value);
    if (kind.selectedOptions[0].disabled) [kind.value] = claims;
    for (const it of [$("check"), $("solve")]) {
        const {missing} = planned({what: it.id, kind: kind.value}, texts);
        it.disabled = Boolean(missing);
        it.ariaDisabled = running || reading > 0;
        if (missing) needs.push(`${it.textContent} needs ${missing}.`);
    }
    $("needs").textContent = needs.join(" ");
    const {reads} = planned({what: "check", kind: kind.value}, texts);
    for (const it of SLOTS) describe(it, texts[it], reads.find(({slot}) => slot === it)?.wanted);
    $("stop").hidden = !running && !reading;
    $("given").inert = reading > 0;
    $("doing").textContent = running ? "Computing .." : reading > 0 ? "Reading .." : "";
}

// ---- the answer

/** A text that the program wrote, and how much of it isn't shown. */
function written(bytes, title) {
    const {text, more} = shown(bytes);
    return [preview(text, title), ...(more ? [element("p", {className: "about"}, `and ${more}`)] : [])];
}

/** A press of this selects a line where it stands in its slot, if it is shown there; or null. */
function leadTo(slot, number) {
    const place = $(slot), lines = (place.value ?? place.textContent).split("\n"), line = lines[number - 1];
    const begin = lines.slice(0, number - 1).join("\n").length + (number > 1), end = begin + line?.length;
    return line && button(() => {
        place.focus();
        if (files[slot]) getSelection().setBaseAndExtent(place.firstChild, begin, place.firstChild, end);
        else place.setSelectionRange(begin, end);
        place.scrollTop = (number - 4) * (place.scrollHeight / lines.length);
    });
}

/** The lines that explain an answer. One that quotes a text leads there, with its field marked, as the marks below say. */
function explained(text, judged) {
    return [...text.matchAll(/([^\n]*)\n(?:( *)(\^+)\n)?/g)].map(([, line, before, marks]) => {
        const letters = [...line], begin = letters.splice(0, before?.length ?? letters.length).join("");
        const field = marks ? [element("mark", {}, letters.splice(0, marks.length).join(""))] : [];
        const [, name, number] = /^(\w+):(\d+): /.exec(line) ?? [], place = judged.find((it) => it.name === name);
        const made = (place && leadTo(place.slot, Number(number))) || element("p");
        made.classList.toggle("quote", Boolean(name));
        made.append(begin, ...field, letters.join(""));
        return made;
    });
}

function download(name, ...parts) {
    const url = URL.createObjectURL(new Blob(parts, {type: "text/plain"}));
    element("a", {href: url, download: name}).click();
    setTimeout(() => URL.revokeObjectURL(url), 10000);
}

/** A name for a file of the answer, by that of its instance. */
const named = (ending) => `${(answered.judged[0].file ?? "instance").replace(/(\.\w+)?(\.gz)?$/i, "")}${ending}`;

function made({name, bytes}, {what, kind, status}) {
    const isOther = what === "check" && status === 1, other = kind === "infeasible" ? "feasible" : "better";
    const own = name === "solution" ? "The solution" : `What shows it: ${format(name).name}`;
    const title = isOther ? `A ${other} solution` : own, file = named(`${isOther ? `-${other}` : ""}.${name}`);
    const use = button(() => give([new File([bytes], file)], "claim"), "Use it as the solution");
    const buttons = [button(() => download(file, bytes), "Download ", bdi(file)), ...(name === "solution" ? [use] : [])];
    return [row(element("h3", {}, title), ...buttons), ...written(bytes, title)];
}

/** What was judged, in lines: the claim, each text with its sum, what wasn't read, and the command. */
function judgedIn({what, claim, verb, kind, judged, unread}) {
    const line = (title, file, about) => [`${title}: `, file ? bdi(file) : "typed", `, ${about}`];
    const texts = judged.map((it) => line(it.name, it.file, it.facts));
    texts.push(...unread.map((it) => line("not read", it.file, format(it.kind).name)), [`by ${verb}-${kind}`]);
    return what === "check" ? [[`claim: ${claim}`], ...texts] : texts;
}

/** Puts another answer in the place of the last one: none, or what begins with a heading. */
function head(heading, className) {
    const said = element("div", {id: "said", role: "alert"}, element("h2", {id: "verdict"}, heading));
    $("answer").replaceWith(element("section", {id: "answer", className, ariaLabel: "Answer"}));
    if (heading) $("answer").append(said);
    answered = null;
}

/** Shows an answer, and then what explains it. */
function answer(got) {
    const {heading, state} = headed(got);
    head(heading, state);
    answered = {...got, heading};
    const printed = element("div", {id: "line"}, ...written(got.printed, "The lines that the command prints"));
    const title = row(element("h3", {}, "This answer is about"), button(save, "Save this answer"));
    const judged = element("ul", {id: "judged"}, ...judgedIn(got).map((it) => element("li", {}, ...it)));
    $("answer").append(printed, title, judged, ...got.files.flatMap((it) => made(it, got)));
}

function explain(text) {
    answered.explanation = text;
    $("said").append(element("div", {id: "meaning"}, ...explained(text, answered.judged)));
    $("answer").scrollIntoView({block: "nearest"});
}

/** Saves the whole answer: the program's lines too that aren't shown. */
function save() {
    const {heading, printed, explanation = ""} = answered, judged = [...$("judged").children].map((it) => it.textContent);
    const parts = [`${heading}\n`, printed, explanation, `${judged.join("\n")}\n`, `${$("proof").textContent}\n`];
    download(named("-answer.txt"), ...parts.filter((it) => it.length).flatMap((it, i) => (i ? ["\n", it] : [it])));
}

/** Asks about what the slots hold at this moment. */
async function run(what) {
    const texts = held(), kind = $("kind").value, claim = $("kind").selectedOptions[0].textContent;
    const {missing, reads, ...plan} = planned({what, kind}, texts);
    if (running || reading || missing) return;
    const given = reads.map((it) => ({...it, ...texts[it.slot]}));
    const others = SLOTS.filter((it) => !reads.some(({slot}) => slot === it)).map((it) => texts[it]);
    [running, ended] = [true, ""];
    head("", "");
    ready();
    try {
        await wait(startWorker());
        const asked = ask("run", {...plan, given: given.map((it) => it.bytes)});
        const sums = given.map(async (it) => ({...it, facts: it.facts ?? (await factsOf(it.bytes))}));
        const [got, ...judged] = await wait(Promise.all([asked, ...sums]));
        answer({...got, ...plan, what, claim, judged, unread: others.filter((it) => it.bytes.length)});
        explain(await wait(ask("explain")));
    } catch (why) {
        if (answered) explain(`${why.message}\n`);
        else head(why.message, "open");
    }
    running = false;
    ready();
}

// ---- examples, files and keys

function example({kind, texts}) {
    acts++;
    for (const slot of SLOTS) put(slot, null, texts[slot]);
    $("kind").value = kind;
    changed();
}

function wire() {
    for (const it of SLOTS) put(it, null);
    for (const it of SLOTS) panes[it].oninput = ({target}) => typed(it, target.value);
    document.ondragover = document.ondrop = document.onpaste = come;
    document.onkeydown = (event) => {
        if (event.key === "Enter" && (event.ctrlKey || event.metaKey)) run("check");
        if (event.key === "Escape") stop();
    };
    $("kind").onchange = changed;
    for (const it of ["check", "solve"]) $(it).onclick = () => run(it);
    $("stop").onclick = stop;
    for (const it of JSON.parse($("examples-of").textContent)) $("examples").append(button(() => example(it), it.title));
}

function started({version, proved}) {
    $("proof").textContent = `dimacs ${version}. ${proved ? PROVED : UNPROVED}`;
    $("proof").classList.toggle("warning", !proved);
    document.documentElement.dataset.ready = Math.round(performance.now());
}

wire();
startWorker().then(started, ({message}) => head(`This browser can't run it: ${message}`, "open"));

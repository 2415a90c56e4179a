// The worker: runs commands over the bytes of texts.
import {explanation, wordsOf} from "../js/explained.js";
import {DONE, GAVE_UP, IN_NO_FILE, Library, Texts} from "../js/library.js";

/** The calls, and the last run. */
let texts, last;

/** Runs the command of a plan, and keeps what explains it. */
function called({verb, kind, certificate, given}) {
    const words = wordsOf(`${verb}-${kind}`, 3);
    const {status, handed: [printed, ...made]} = texts.command(IN_NO_FILE, words, given);
    const isInfeasible = verb === "solve" && String.fromCharCode(...printed.subarray(0, 12)) === "v infeasible";
    const shows = isInfeasible ? "cut" : certificate, isShown = kind === "paths" || (verb !== "solve" && status === DONE);
    const names = isShown ? [shows] : ["solution", shows];
    const files = made.map((bytes, i) => ({name: names[i], bytes})).filter((it) => it.bytes.length);
    last = {verb, kind: isInfeasible ? "infeasible" : kind, given, status, printed, made: files.map((it) => it.bytes)};
    return {status, printed, files};
}

/** What lines say of commands and files, which nobody has here, and what stands there instead. */
const SAID_HERE = [
    [/\bsolve-paths takes/, "Solve takes"],
    [/^the files /, "the texts "],
    [/: it is in `\w+`$/, ""],
    [/(?:^|[:;] )[^:;]*(?:\bdimacs [a-z].*|: spread it)$/, ""],
];

/** A line as it is said here, where something else decides what a certificate leaves open. One that quotes a text stays. */
function saidHere(line, decides) {
    if (/^\w+:\d+: /.test(line)) return line;
    return SAID_HERE.reduce((said, it) => said.replace(...it), line.replace(/certify it$/, decides));
}

/** The lines after those that are printed. The judge says the same of what was made, and sooner than who made it. */
function explained() {
    const {verb, kind, given, status, printed, made} = last, isPaths = verb === "certify" && kind === "paths";
    last = null;
    if (status === GAVE_UP) return "";
    const name = status === DONE && !isPaths ? "judge" : verb;
    const better = kind === "infeasible" ? "flow" : "better", isBetter = verb === "certify" && status !== DONE;
    const lines = explanation(`${name}-${kind}`, [...given, ...made], isBetter ? better : "certificate");
    const decides = kind === "paths" ? "press Solve" : "remove it, and press Check";
    const said = lines.slice(printed.length).split("\n").map((it) => saidHere(it, decides));
    return said.filter(Boolean).map((it) => `${it}\n`).join("");
}

const ANSWERS = {
    async start({module}) {
        const packed = Uint8Array.from(atob(module), (it) => it.charCodeAt(0));
        const plain = new Blob([packed]).stream().pipeThrough(new DecompressionStream("gzip"));
        const answer = new Response(plain, {headers: {"content-type": "application/wasm"}});
        texts = new Texts(new Library(await WebAssembly.compileStreaming(answer)));
        return {version: texts.library.version, proved: texts.library.proved};
    },

    run: async (plan) => called(plan),
    explain: async () => explained(),
};

onmessage = async ({data: {what, ...words}}) => {
    try {
        postMessage({good: await ANSWERS[what](words)});
    } catch (why) {
        postMessage({bad: `No answer: ${why.message}.`});
    }
};

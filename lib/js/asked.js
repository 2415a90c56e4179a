// A call over arrays, and what explains it: the command that gives the answer, run over texts made of the arrays.
import {inFormOf} from "./bytes.js";
import {explanation, namesOf} from "./explained.js";
import {DONE, LINE, OF_ARRAYS, Room, VERBS} from "./library.js";
import {library} from "./loaded.js";

const CHANGED = "the arrays hold other numbers now, and these are refused: the answer isn't theirs\n";

/** The marks in lines about arrays, before some numbers. */
const MARKS = /[\x01-\x03]/g;

/** The text that the library writes of arrays, or null if it refuses them. */
function written(name, ...words) {
    const {status, handed: [text]} = library.call(`dimacs_write_${name}`, words, [new Room(Uint8Array, LINE)]);
    return status === DONE ? inFormOf("", text) : null;
}

/**
 * A call over arrays: the form of its instance, the instance as the library takes it, its numbers, and arrays by their
 * names.
 */
export class AskedOfArrays {
    constructor(form, instance, numbers, arrays) {
        Object.assign(this, {form, instance, numbers, arrays});
    }

    /** The same with arrays that were handed out. */
    with(arrays) {
        return new AskedOfArrays(this.form, this.instance, this.numbers, {...this.arrays, ...arrays});
    }

    /** The lines for arrays that were refused by the line `printed`, with the message `said`, or null. None quotes a text. */
    explanation(command, printed, said) {
        const [verb, kind] = command.split("-"), count = command === "certify-infeasible" ? 1 : VERBS[verb][0];
        const made = namesOf(command).slice(0, count).map((name) => this.#text(kind, name));
        if (this.arrays.better) made.push(this.#solution(this.arrays.better));
        const told = made.includes(null) ? "x" : explanation(command, made, "better", OF_ARRAYS);
        const [first, ...more] = told.split("\n");
        if (!printed && first.startsWith("x ")) return CHANGED;
        if (printed && !isSame(first, printed)) return `${printed}\n${this.#own(printed) ?? said}\n`;
        return [printed ?? first, ...more].join("\n").replace(MARKS, "");
    }

    /** What explains a refusal that no text has, if it isn't what the error says. */
    #own(printed) {
        const {source} = this.numbers;
        if (printed !== `x node ${source} NotShortest`) return null;
        return `node ${source} is the source: its distance has to be 0, and is ${this.arrays.distances[source - 1]}`;
    }

    #text(kind, name) {
        const {source} = this.numbers, {flows, inside, potentials, distances, predecessors} = this.arrays;
        if (name === "instance") return written(this.form, this.instance);
        if (name === "query") return `p aux sp ss 1\ns ${source}\n`;
        if (name === "solution") return this.#solution(flows);
        if (name === "distances") return written("distances", source, distances);
        if (kind === "paths") return written("labels", source, distances, predecessors);
        return kind === "min" ? written("potentials", potentials) : written("cut", inside);
    }

    /** The value or the cost of a flow. */
    valueOf(flows) {
        const {tails, heads, costs} = this.arrays, {source} = this.numbers;
        const times = (arc) => (costs ? costs[arc] : BigInt((tails[arc] === source) - (heads[arc] === source)));
        return flows.reduce((sum, flow, arc) => sum + flow * times(arc), 0n);
    }

    /** Its value may take more than 64 bits. */
    #solution(flows) {
        const {tails, heads} = this.arrays, text = written("solution", 0n, this.numbers.nodes, tails, heads, flows);
        return text && `s ${this.valueOf(flows)}${text.slice(text.indexOf("\n"))}`;
    }
}

/** Whether texts are refused as the arrays were: for the same arc or node, or as a whole. */
function isSame(first, printed) {
    const [found, mine] = [first, printed].map((it) => it.split(" "));
    const isThere = !["arc", "node"].includes(mine[1]) || (found[1] === mine[1] && found[2] === mine[2]);
    return found[0] === "x" && found.at(-1) === mine.at(-1) && isThere;
}

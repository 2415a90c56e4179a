// The arguments of a call over arrays, as the library takes them.
import {MOST_NODES, saying} from "./compared.js";
import {AskedOfArrays} from "./asked.js";
import {InArrays, Room} from "./library.js";
import {DISTANCES, IDS, MARKS, NUMBERS} from "./numbers.js";

/** The items of each array, and whether there is one for each node or for each arc. */
export const ARRAYS = {
    tails: [IDS, "arcs"],
    heads: [IDS, "arcs"],
    lows: [NUMBERS, "arcs"],
    caps: [NUMBERS, "arcs"],
    costs: [NUMBERS, "arcs"],
    weights: [NUMBERS, "arcs"],
    flows: [NUMBERS, "arcs"],
    supplies: [NUMBERS, "nodes"],
    potentials: [NUMBERS, "nodes"],
    inside: [MARKS, "nodes"],
    distances: [DISTANCES, "nodes"],
    predecessors: [IDS, "nodes"],
};

/** The numbers and the arrays of each kind of instance, in the order of dimacs.h, and those of its arcs alone. */
export const FORMS = {
    max: [["nodes", "source", "sink"], ["tails", "heads", "caps"]],
    min: [["nodes"], ["tails", "heads", "lows", "caps", "costs", "supplies"]],
    graph: [["nodes"], ["tails", "heads", "weights"]],
    arcs: [["nodes"], ["tails", "heads"]],
};

/** The arguments of a call: an instance, and then arrays by their names. */
export class Given {
    constructor(form, instance) {
        if (Object(instance) !== instance) throw new TypeError("an instance is an object of numbers and arrays");
        const [numbers, arrays] = FORMS[form];
        const [nodes, ...ends] = numbers.map((name) => IDS.one(instance[name], name));
        const made = arrays.map((name) => [name, ARRAYS[name][0].all(instance[name], name)]);
        this.counts = {nodes, arcs: made[0][1].length};
        made.forEach((it) => this.#testLength(...it));
        this.words = [new InArrays([nodes, ...ends], made.map(([, it]) => it))];
        this.asked = new AskedOfArrays(form, this.words[0], {nodes, source: ends[0]}, Object.fromEntries(made));
    }

    /** The library tests lengths too, but doesn't report which one is wrong. */
    #testLength(name, {length}) {
        const [, each] = ARRAYS[name], wanted = this.counts[each];
        if (length !== wanted) throw new RangeError(`${name} has ${length} items, and there are ${wanted} ${each}`);
    }

    addArray(name, numbers) {
        const it = ARRAYS[name][0].all(numbers, name);
        this.#testLength(name, it);
        this.words.push(it);
        this.asked = this.asked.with({[name]: it});
        return this;
    }

    addSource(source) {
        this.asked.numbers.source = source;
        return this.addWord(source);
    }

    addWord(word) {
        this.words.push(word);
        return this;
    }

    /** What is said of the numbers that a test compared. */
    say = (...refused) => saying(this.asked, ...refused);

    /** Room for an array that is handed out. If there are too many nodes, the library hands out none by node. */
    room(name) {
        const [{array}, each] = ARRAYS[name];
        return new Room(array, each === "nodes" ? Math.min(this.counts.nodes, MOST_NODES) : this.counts.arcs);
    }
}

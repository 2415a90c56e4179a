// Tests the heap of dimacs.wasm, and calls near the end of its memory: heap.mjs MODULE. The last line counts what passed
// and what failed.
import assert from "node:assert/strict";
import {readFileSync} from "node:fs";
import {countedAll, finished} from "../../lib/test/cases.mjs";

const module = new WebAssembly.Module(readFileSync(process.argv[2]));
const fresh = () => new WebAssembly.Instance(module).exports;
const ENOUGH = 2n ** 46n;
const PAGE = 65536;

/** Numbers that look random, from 0 up to a limit. */
function chance(seed) {
    return (limit) => {
        seed = (Math.imul(seed, 1664525) + 1013904223) >>> 0;
        return Math.floor((seed / 2 ** 32) * limit);
    };
}

/** Sizes that come up: many small ones, and some of each power of two. */
function someSize(random) {
    return random(4) ? random(200) : random(2 ** (3 + random(16)));
}

class Blocks {
    constructor(exports, random) {
        this.exports = exports;
        this.random = random;
        this.kept = [];
    }

    bytes(at, size) {
        return new Uint8Array(this.exports.memory.buffer, Number(at), size);
    }

    fill(block) {
        this.bytes(block.at, block.size).fill(block.mark);
    }

    test(block, size = block.size) {
        assert.equal(block.at % 16n, 0n);
        assert.ok(this.bytes(block.at, size).every((it) => it === block.mark), `a block of ${block.size} bytes changed`);
    }

    take() {
        const size = someSize(this.random), at = this.exports.malloc(BigInt(size));
        assert.notEqual(at, 0n);
        const block = {at, size, mark: 1 + this.random(255)};
        this.fill(block);
        this.kept.push(block);
    }

    any() {
        const [last, at] = [this.kept.length - 1, this.random(this.kept.length)];
        [this.kept[at], this.kept[last]] = [this.kept[last], this.kept[at]];
        return this.kept[last];
    }

    free() {
        const block = this.any();
        this.test(block);
        this.exports.free(block.at);
        this.kept.pop();
    }

    grow() {
        const block = this.any(), size = someSize(this.random), at = this.exports.realloc(block.at, BigInt(size));
        assert.notEqual(at, 0n);
        this.test({...block, at}, Math.min(block.size, size));
        Object.assign(block, {at, size});
        this.fill(block);
    }

    step() {
        if (this.kept.length === 0 || this.random(5) < 2) this.take();
        else if (this.random(2)) this.free();
        else this.grow();
    }
}

/** Takes memory until less than so many bytes are left. */
function exhaust(exports, left) {
    for (let size = 2n ** 31n; size >= left; ) {
        const at = exports.malloc(size - 16n);
        if (at === 0n) size /= 2n;
    }
}

function text(exports, content) {
    const bytes = new TextEncoder().encode(content), at = exports.malloc(BigInt(bytes.length));
    new Uint8Array(exports.memory.buffer).set(bytes, Number(at));
    return [at, BigInt(bytes.length)];
}

/** The status and the line of dimacs_show, and the addresses that it got, which lie before what `meanwhile` takes. */
function show(exports, content, meanwhile = () => {}) {
    const given = text(exports, content), line = exports.malloc(256n), needed = exports.malloc(8n);
    assert.ok(needed > 0n);
    meanwhile();
    const status = exports.dimacs_show(0, ...given, line, 256n, needed);
    const length = Number(new BigUint64Array(exports.memory.buffer, Number(needed), 1)[0]);
    const printed = Buffer.from(exports.memory.buffer, Number(line), length).toString();
    return {status, line: printed, at: [given[0], line, needed]};
}

const MAX = "p max 2 1\nn 1 s\nn 2 t\na 1 2 4\n";

const TESTS = {
    "blocks keep their content": () => {
        for (let seed = 1; seed <= 20; seed++) {
            const blocks = new Blocks(fresh(), chance(seed));
            for (let i = 0; i < 4000; i++) blocks.step();
            while (blocks.kept.length) blocks.free();
        }
    },
    "freed memory is used again": () => {
        const exports = fresh(), blocks = new Blocks(exports, chance(7));
        let most = 0;
        for (let round = 0; round < 20; round++) {
            for (let i = 0; i < 2000; i++) blocks.step();
            while (blocks.kept.length) blocks.free();
            if (round === 9) most = exports.memory.buffer.byteLength;
        }
        assert.ok(exports.memory.buffer.byteLength <= 1.5 * most);
    },
    "what is too much isn't there": () => {
        const exports = fresh();
        const at = exports.malloc(100n), had = exports.memory.buffer.byteLength;
        for (const size of [2n ** 32n, 2n ** 40n, ENOUGH, ENOUGH + 1n, 2n ** 63n - 1n, -1n]) {
            assert.equal(exports.malloc(size), 0n, `malloc of ${size}`);
            assert.equal(exports.realloc(at, size), 0n, `realloc to ${size}`);
        }
        assert.ok(exports.memory.buffer.byteLength <= had + PAGE);
    },
    "calls above 4 GB less a little": () => {
        const exports = fresh();
        exhaust(exports, 2n ** 22n);
        const {status, line, at} = show(exports, MAX);
        assert.deepEqual([status, line], [0, "i max 2 1 1 2\n"]);
        assert.ok(at.every((it) => it > 4_000_000_000n), `${at}`);
    },
    "a call without memory": () => {
        const exports = fresh(), {status, line} = show(exports, MAX, () => exhaust(exports, 64n));
        assert.deepEqual([status, line], [4, ""]);
    },
};

await countedAll(TESTS);
process.exitCode = finished();

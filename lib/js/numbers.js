// Numbers and arrays that are given, as the library takes them.

/** The distance of a node that isn't reached. Its predecessor is 0. */
export const UNREACHED = 2n ** 63n - 1n;

/** The items of an array: their typed array, their range, and what stands for an infinite one. */
class Items {
    constructor(array, least, greatest, infinite = null) {
        Object.assign(this, {array, least, greatest, infinite});
    }

    /** A single number, as an item. */
    one(number, name) {
        const whole = wholeOf(number, this, name);
        if (whole < this.least || whole > this.greatest) throw new RangeError(`${name}: ${number} is out of range`);
        return this.array.name.startsWith("Big") ? whole : Number(whole);
    }

    /** An array as it is if its items are of the kind, else converted. */
    all(numbers, name) {
        if (numbers instanceof this.array) return numbers;
        if (!isListed(numbers)) throw new TypeError(`${name} is no array`);
        return this.array.from(numbers, (it, i) => this.one(it, `${name}[${i}]`));
    }
}

function wholeOf(number, {infinite}, name) {
    if (typeof number === "bigint") return number;
    if (typeof number === "boolean") return BigInt(number);
    if (typeof number !== "number") throw new TypeError(`${name} is no number`);
    if (number === Infinity && infinite !== null) return infinite;
    if (!Number.isInteger(number)) throw new RangeError(`${name}: ${number} isn't a whole number`);
    if (!Number.isSafeInteger(number)) throw new RangeError(`${name}: ${number} may have been rounded: give a BigInt`);
    return BigInt(number);
}

/** Whether items have places: those of a Map or a Set have none. */
function isListed(it) {
    const isObject = typeof it === "object" && it !== null;
    return isObject && typeof it[Symbol.iterator] === "function" && !(it instanceof Map || it instanceof Set);
}

export const IDS = new Items(Uint32Array, 0n, 2n ** 32n - 1n);
export const NUMBERS = new Items(BigInt64Array, -(2n ** 63n), 2n ** 63n - 1n);
export const DISTANCES = new Items(BigInt64Array, -(2n ** 63n), 2n ** 63n - 1n, UNREACHED);
export const MARKS = new Items(Uint8Array, 0n, 255n);
const LIMITS = new Items(BigUint64Array, 0n, 2n ** 64n - 1n);

export const limitOf = (limit) => LIMITS.one(limit, "limit");

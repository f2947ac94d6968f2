/**
 * A small ledger: accounts, postings and reports.
 * Modules, classes with private parts, iteration, destructuring, and attributes of imports.
 */
import fs, { readFile as read, writeFile } from "node:fs/promises";
import * as path from 'node:path';
import rates from "./rates.json" with { type: "json" };
import "./polyfill.mjs";

export * from './money.mjs';
export * as dates from "./dates.mjs";
export { default as Clock, now as currentTime } from "./clock.mjs";

const DEFAULT_CURRENCY = 'EUR', PRECISION = 2;
const MAX = 0xFFFF_FFFF, MASK = 0b1010_1010, MODE = 0o755, BIG = 9_007_199_254_740_993n;
const SCALE = 10 ** PRECISION;

let opened = 0;

/* What an account may be. */
export const Kind = Object.freeze({
    ASSET: Symbol("asset"),
    'debt-kind': Symbol(`debt`),
    [Symbol.toStringTag]: "Kind",
    42: 'answer',
    0x10: "sixteen",
    async: true,
    get: null,
    set: undefined,
    static: NaN,
});

export class LedgerError extends Error {
    name = "LedgerError";
    constructor(message, { cause, code = 500, ...rest } = {}) {
        super(message, { cause });
        Object.assign(this, rest, { code });
    }

    static wrap(error) { return error instanceof LedgerError ? error : new this(error?.message ?? "unknown", { cause: error }) }
}

/** One account. */
export class Account {
    static #instances = new WeakSet;
    static count = 0;
    static {
        // what no constructor may see
        const secret = Math.random();
        Account.check = (value) => value === secret;
    }

    #balance = 0n;
    #history = [];
    kind;
    'display name' = '';
    [Symbol.for("id")] = ++opened;

    constructor(kind = Kind.ASSET, ...labels) {
        if (!new.target) throw new LedgerError('use new');
        this.kind = kind;
        this.labels = labels;
        Account.#instances.add(this);
        Account.count++;
    }

    static isAccount(value) {
        return #balance in value && Account.#instances.has(value);
    }

    get balance() { return this.#balance; }
    set balance(amount) {
        this.#post({ amount: amount - this.#balance, at: Date.now(), why: `set by hand` });
    }

    static async *load(...paths) {
        for (const file of paths) {
            const text = await read(path.join(".", file), 'utf8');
            yield* Account.parse(text);
        }
    }

    static *parse(text) {
        let line = 0;
        for (const row of text.split(/\r?\n/u)) {
            line += 1;
            if (/^\s*(?:#|$)/.test(row)) continue;
            const match = /^(?<name>[\p{L}_][\w-]*)\s*=\s*(?<amount>[+-]?\d+)\s*(?:\/\/.*)?$/u.exec(row);
            if (match === null) { throw new LedgerError(`line ${line}: ${JSON.stringify(row)} isn't "name = amount"`, { code: 400, line }) }
            const { groups: { name, amount } } = match;
            const account = new Account(Kind.ASSET, name);
            account.balance = BigInt(amount);
            yield account;
        }
    }

    #post({ amount, at, why = "" }) {
        this.#balance += amount;
        this.#history.push([at, amount, why]);
        return this;
    }

    *[Symbol.iterator]() {
        yield* this.#history;
    }

    async save(file = `${this.labels[0]}.json`) {
        const body = JSON.stringify({ kind: String(this.kind), balance: `${this.#balance}`, history: [...this] }, null, 2);
        await writeFile(file, body);
        return body.length;
    }

    toString() { return `${this.constructor.name}(${this.labels.join`, `}) ${format(this.#balance)}` }
}

/** How an amount is written. */
export function format(amount, { currency = DEFAULT_CURRENCY, separator = ',', sign: showsSign = false } = {}) {
    const negative = amount < 0n;
    const digits = String(negative ? -amount : amount).padStart(PRECISION + 1, '0');
    const whole = digits.slice(0, -PRECISION), part = digits.slice(-PRECISION);
    const grouped = whole.replace(/\B(?=(\d{3})+(?!\d))/g, separator);
    return (negative ? "-" : showsSign ? "+" : "") + grouped + "." + part + " " + currency;
}

export const convert = (amount, from, to) => from === to ? amount : amount * BigInt(Math.round(rates[from] * SCALE)) / BigInt(Math.round((rates[to] ?? 1) * SCALE));

const sum = xs => xs.reduce((a, b) => a + b, 0n);
const compose = (...fs) => x => fs.reduceRight((y, f) => f(y), x);
const pick = ({ a, b: [c, , d = 4, ...e] = [], ...others }) => ({ a, c, d, e, others });
const lazily = async (load) => { const value = await load(); return () => value; };
const later = async x => (await x)?.value ?? (() => { throw new LedgerError("nothing came") })();

/** A report, as lines of text. */
export async function* report(accounts, { title = 'Report', width = 72, until } = {}) {
    const rule = "=".repeat(width);
    yield rule; yield title.padStart((width + title.length) >> 1); yield rule;
    let total = 0n, rows = 0;
    outer: for await (const account of accounts) {
        if (!Account.isAccount(account)) continue;
        for (const [at, amount, why] of account) {
            if (until !== undefined && at > until) continue outer;
            if (why === 'stop') break outer;
            total += amount, rows++;
            yield `${new Date(at).toISOString()}  ${format(amount, { sign: true }).padStart(20)}  ${why || "-"}`;
        }
    }
    yield rows === 0 ? '(nothing)' : `total ${format(total)} in ${rows} row${rows === 1 ? "" : "s"}`;
}

export async function main(argv = process.argv.slice(2)) {
    const options = { verbose: false, files: [] };
    for (let i = 0, n = argv.length; i < n; i++) {
        const word = argv[i];
        switch (true) {
            case word === '-v':
            case word === "--verbose":
                options.verbose = true;
                break;
            case word.startsWith('--out='): {
                const [, out] = word.split('=');
                options.out = out;
                break;
            }
            default:
                options.files.push(word);
        }
    }
    options.files.length ||= 0;
    options.out ??= path.resolve('report.txt');
    options.verbose &&= !process.env.QUIET;
    const lines = [];
    try {
        for await (const line of report(Account.load(...options.files))) lines.push(line);
    } catch (error) {
        const { code, message } = LedgerError.wrap(error);
        console.error(`${code}: ${message}`);
        return code === 400 ? 1 : 2;
    } finally {
        if (options.verbose) console.log(lines.length, "lines");
    }
    if (options.out === '-') lines.forEach((line) => { console.log(line) });
    else await fs.writeFile(options.out, lines.join("\n") + '\n');
    return 0;
}

function bits(n) {
    let count = 0;
    do { count += n & 1; n >>>= 1 } while (n);
    return count;
}

function* fibonacci() {
    let [a, b] = [0, 1];
    while (true) {
        const reset = yield a;
        [a, b] = reset ? [0, 1] : [b, a + b];
    }
}

class Tree {
    left; right
    constructor(value) { this.value = value }
    static of = (...values) => values.reduce((tree, value) => tree ? tree.add(value) : new Tree(value), null)
    add(value) {
        const side = value < this.value ? 'left' : "right";
        if (this[side] == null) this[side] = new Tree(value); else this[side].add(value);
        return this
    }
    *[Symbol.iterator]() {
        if (this.left) yield* this.left
        yield this.value
        if (this.right) yield* this.right
    }
    get ['depth']() { return 1 + Math.max(this.left?.depth ?? 0, this.right?.["depth"] ?? 0) }
    async ready() {}
    async *each() { for (const it of this) yield await it }
    'quoted method'() { return typeof this?.value !== 'undefined' && !(this.value in [] || void 0) }
}

const anonymous = class extends (class { base() { return "base" } }) {
    base() { return super.base() + super['base']?.() }
};

const view = {
    __proto__: null,
    format,
    bits, fibonacci,
    'a-b': 1,
    get size() { return this['a-b'] },
    set size(value) { this["a-b"] = value },
    async wait(ms) { await new Promise(done => setTimeout(done, ms)) },
    *walk() { yield* [1, 2, 3] },
    async *stream() { for (let i = 0; ; i++) { if (i > 3) return; yield i } },
    [`computed ${1 + 1}`]: (() => ({}))(),
    ...(MAX > MASK ? { mode: MODE } : null),
};

export { sum, compose, pick as choose, lazily, later as "named by a string" };
export default Tree;

if (import.meta.url === `file://${process.argv?.[1]}`) {
    process.exitCode = await main();
} else if (typeof BIG === 'bigint') {
    const { Clock } = await import('./clock.mjs');
    void new Clock().start?.(view, new anonymous, [...Tree.of(3, 1, 2)], [, , 1], bits(255), fibonacci().next().value);
}

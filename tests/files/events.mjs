// Events over time: a queue, streams as asynchronous generators, and a little parser of patterns.

export const [FIRST, SECOND = 2, , ...REST] = [1, , 3, 4, 5];
export let { ready = false, queue: { limit, ...settings } = { limit: 16 } } = globalThis.config ?? {};

export class Queue extends EventTarget {
    #head = 0; #tail = 0; #items = new Map();
    static MAX = 2 ** 31 - 1
    accessor = "a field that is called so"

    get length() {
        return this.#tail - this.#head
    }

    push(item, ...more) {
        if (this.length >= limit) throw RangeError(`full: ${this.length} of ${limit}`)
        this.#items.set(this.#tail++, item)
        this.dispatchEvent?.(new CustomEvent("push", { detail: { item } }))
        return more.length ? this.push(...more) : this.length
    }

    shift() {
        if (!this.length) return undefined
        const item = this.#items.get(this.#head)
        this.#items.delete(this.#head++)
        return item
    }

    async *[Symbol.asyncIterator]() {
        for (; ;) {
            while (this.length) yield this.shift()
            await new Promise((resolve) => this.addEventListener("push", resolve, { once: true }))
        }
    }
}

export async function* merge(...sources) {
    const pending = new Map(sources.map((source, i) => {
        const it = source[Symbol.asyncIterator]?.() ?? source[Symbol.iterator]();
        return [i, { it, next: Promise.resolve(it.next()).then(result => ({ i, result })) }];
    }));
    while (pending.size > 0) {
        const { i, result: { done, value } } = await Promise.race([...pending.values()].map(({ next }) => next));
        if (done) { pending.delete(i); continue }
        const { it } = pending.get(i);
        pending.set(i, { it, next: Promise.resolve(it.next()).then(result => ({ i, result })) });
        yield value;
    }
}

export const throttle = (ms) => async function* (source) {
    let last = -Infinity
    for await (const value of source) {
        const now = performance.now()
        if (now - last < ms) continue
        last = now
        yield value
    }
}

export const debounce = (f, ms = 1_00) => {
    let timer = null
    return (...args) => {
        if (timer !== null) clearTimeout(timer)
        timer = setTimeout(() => { timer = null; f(...args) }, ms)
    }
}

/* Patterns as `user.*.{created,deleted}`. */
const TOKEN = /\s*(?:([a-z_$][\w$]*)|(\*{1,2})|([.,{}]))/iy

export function tokens(text) {
    const found = []
    TOKEN.lastIndex = 0
    for (let match; TOKEN.lastIndex < text.length;) {
        const at = TOKEN.lastIndex
        if (!(match = TOKEN.exec(text))) throw new SyntaxError(`at ${at}: ${text.slice(at, at + 10)}…`)
        const [, word, star, mark] = match
        found.push(word ? { kind: "word", word } : star ? { kind: star.length > 1 ? "deep" : 'any' } : { kind: mark })
    }
    return found
}

export class Pattern {
    #parts
    constructor(text) { this.#parts = Pattern.#parse(tokens(text)[Symbol.iterator]()) }

    static #parse(input) {
        const parts = []
        for (const token of input) {
            switch (token.kind) {
                case 'word': parts.push((name) => name === token.word); break
                case 'any': parts.push(() => true); break
                case 'deep': parts.push(null); break
                case '{': {
                    const among = new Set
                    for (const inner of input) {
                        if (inner.kind === '}') break
                        else if (inner.kind === ',') continue
                        among.add(inner.word)
                    }
                    parts.push(among.has.bind(among))
                }
                case '.': break
                default: throw new SyntaxError(`unexpected ${token.kind}`)
            }
        }
        return parts
    }

    test(name) {
        const words = name.split('.')
        const go = (p, w) => p === this.#parts.length ? w === words.length
            : this.#parts[p] === null ? go(p + 1, w) || w < words.length && go(p, w + 1)
            : w < words.length && this.#parts[p](words[w]) && go(p + 1, w + 1)
        return go(0, 0)
    }

    static { Object.defineProperty(this.prototype, Symbol.toStringTag, { value: 'Pattern', writable: !1 }) }
}

export const html = (strings, ...values) => strings.raw.reduce((all, part, i) => all + String(values[i - 1] ?? '').replace(/[&<>"']/g, c => `&#${c.charCodeAt()};`) + part)

export function page({ title, items = [], footer: { text: footer = "© 2026", links: [home, ...others] = [] } = {} }) {
    return html`<!doctype html>
<title>${title}</title>
<ul>${items.map(({ name, price: { amount, unit = "€" } }) => html`<li class="${name.toLowerCase()}">${name}: ${amount.toFixed(2)}${unit}</li>`).join("\n    ")}</ul>
<script>window.data = ${JSON.stringify(items).replace(/<\/(script)/gi, '<\\/$1')}</script>
<footer>${footer} ${home ? `<a href="${home}">home</a>` : ``}${others.length || ""}</footer>`
}

const memo = new WeakMap
export const memoize = f => x => memo.get(f)?.has(x) ? memo.get(f).get(x) : (memo.has(f) || memo.set(f, new Map), memo.get(f).set(x, f(x)), memo.get(f).get(x))

label: {
    if (ready) break label
    for (const key in settings) if (Object.hasOwn(settings, key)) { for (const other of REST) if (other === key) break label }
}

let counter = 0
export { counter as default, counter as "the counter" }
export function next() { return counter++, counter **= 1, counter <<= 0, counter >>>= 0, counter %= Queue.MAX, counter &= ~0, counter |= 0, counter ^= 0 }

const pi = 3.14159, half = .5, whole = 5., exponent = 1e-7, hex = 0XFF, octal = 0O17, binary = 0B11, million = 1000000, thousand = 1000, long = 0.1 + 0.2
const ünïcödé = "naïve café", escaped = "\u{1F600}\uD83D\uDE00", \u0061bc = 'a name with an escape', 日本語 = `テンプレート ${ünïcödé}`
const values = { pi, half, whole, exponent, hex, octal, binary, million, thousand, long, escaped, abc, 日本語, "ünïcödé": 1, 'a b': 2, "if": 3, if: 4, 1.5: 5, 1e3: 6, .5: 7, 10n: 8 }
const nothing = void 0, no = !1, yes = !0, text = typeof nothing, gone = delete values.pi, comma = (no, yes), both = no && yes || no, given = nothing ?? (no || yes)
const compared = 1 < 2 == true !== false, shifted = 1 << 2 >> 3 >>> 4, within = "pi" in values && !("po" in values), made = values instanceof Object && !(values instanceof Array)
const powers = (-2) ** 2 + 2 ** (-1) ** 2 - (2 ** 3) ** 2, signs = - -pi + + +half - -(-whole) + ~-1, steps = [counter++ + ++counter, counter-- - --counter]
const immediately = (() => text)(), alsoImmediately = function () { return this?.x }(), awaited = await (async () => gone)(), lazy = () => import(`./${text}.mjs`)
export const all = [compared, shifted, within, made, powers, signs, steps, immediately, alsoImmediately, awaited, lazy, comma, both, given, import.meta]

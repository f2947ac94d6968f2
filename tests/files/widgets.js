#!/usr/bin/env node
// A script in the manner of older pages: no modules, semicolons left out, labels, `with`, and numbers as they once were written.
<!-- this is a comment in a script
;(function (global, undefined) {
    'use strict'

    var hasOwn = {}.hasOwnProperty, slice = [].slice
    var VERSION = '2.4.1'
      , NAME = "widgets"
      , debug = false

    function extend(target) {
        var i, key, source
        for (i = 1; i < arguments.length; i++) {
            source = arguments[i]
            for (key in source)
                if (hasOwn.call(source, key))
                    target[key] = source[key]
        }
        return target
    }

    function Widget(element, options) {
        if (!(this instanceof Widget)) return new Widget(element, options)
        this.element = element
        this.options = extend({}, Widget.defaults, options)
        this._listeners = {}
        this.state = 'new'
    }

    Widget.defaults = { width: 320, height: 0.75 * 320, 'class-name': "widget", speed: 1e3, easing: .5, limit: 5e-7, big: 1E21 }

    Widget.prototype = {
        constructor: Widget,

        on: function on(name, listener) {
            (this._listeners[name] || (this._listeners[name] = [])).push(listener)
            return this
        },

        off: function (name) {
            delete this._listeners[name]
            return this
        },

        emit: function (name /*, arguments */) {
            var list = this._listeners[name], args = slice.call(arguments, 1)
            if (!list) return false
            for (var i = 0, n = list.length; i < n; ++i) {
                try {
                    list[i].apply(this, args)
                }
                catch (error) {
                    if (debug) throw error
                    else report(error)
                }
                finally {
                    this.last = name
                }
            }
            return !!n
        },

        get area() { return this.options.width * this.options.height },
        set area(value) { this.options.height = value / this.options.width }
    }

    function report(error) {
        var text = error && error.stack || error + ''
        if (typeof console != 'undefined' && console.error)
            console.error(text.replace(/^\s+|\s+$/gm, '').split(/[\r\n]+/)[0])
    }

    // A scanner of templates: "{name}", "{#each list}..{/each}".
    function scan(text) {
        var at = 0, out = [], stack = [], c, start
        scanning:
        while (at < text.length) {
            c = text.charAt(at)
            switch (c) {
                case '{':
                    start = ++at
                    while (at < text.length && text.charAt(at) !== '}') at++
                    if (at === text.length) break scanning
                    var word = text.slice(start, at++)
                    if (/^#/.test(word)) { stack.push(word.slice(1).split(' ')); continue scanning }
                    if (word[0] === '/') { stack.pop(); continue }
                    out.push({ name: word, depth: stack.length })
                    break
                case '\\':
                    at++
                    // falls through
                default:
                    start = at
                    do at++
                    while (at < text.length && text.charAt(at) !== '{' && text.charAt(at) !== '\\')
                    out.push(text.slice(start, at))
            }
        }
        return out
    }

    function color(value) {
        var match = /^#?([0-9a-f]{2})([0-9a-f]{2})([0-9a-f]{2})$/i.exec(value)
        if (!match) throw new TypeError('no color: ' + value)
        return match.slice(1).map(function (pair) { return parseInt(pair, 16) / 0xff })
    }

    function blend(a, b, t) {
        return a.map(function (x, i) { return x + (b[i] - x) * (t < 0 ? 0 : t > 1 ? 1 : t) })
    }

    function hash(text) {
        var h = 0x811c9dc5 | 0, i = text.length
        while (i--) {
            h ^= text.charCodeAt(i)
            h += (h << 1) + (h << 4) + (h << 7) + (h << 8) + (h << 24)
        }
        return (h >>> 0).toString(36)
    }

    function animate(widget, from, to, done) {
        var began = +new Date, left = -1
        ;(function step() {
            var now = +new Date - began
            var t = now / widget.options.speed
            widget.emit('step', from + (to - from) * (1 - Math.pow(1 - t, 3)))
            if (t < 1) setTimeout(step, 1000 / 60); else done && done.call(widget, left)
        })()
    }

    var a = 1, b = 2
    a
    ++b
    b
    --a
    var c = a + +b - -a - --b + ++a
    var d = a++ + ++b, e = a-- - --b
    var f = a / b / c, g = /=/.test('=') / 2
    if (a) ; else ;
    if (a) { if (b) c; } else d
    if (a) if (b) c; else d; else e
    for (;;) break
    for (var k in { a: 1, b: 2 }) { if (k === 'b') continue; a += k }
    for (var n = ('x' in global) ? 1 : 2; n--;) d
    do c--; while (c > 0) e
    var nested = ((a, b), c), negative = -(-a), not = !(!a), power = (-a) ** 2, voided = void 0
    var chosen = a ? b ? c : d : e ? f : g
    var object = ({}).toString(), regexp = /[/\]]\/(?=x)/g, division = a /b/ c
    var deep = ((((((((((a)))))))))), call = (function () { return this })()
    var strings = ["it's", 'say "hi"', "both ' and \"", 'a\
b', '\x41\u0042\0', "\u2028\u2029", '</script>', '<!-- no -->', '\v\f\b\t']
    new (foo())(), new (foo().bar), new foo.bar(), new (new X), new X().y
    function foo() { return { bar: Object } } function X() {}

    global.Widget = extend(Widget, { scan: scan, color: color, blend: blend, hash: hash, animate: animate, version: VERSION, named: NAME })
    global.widgetParts = [nested, negative, not, power, voided, chosen, object, regexp, division, deep, call, strings, f, g]
})(typeof globalThis !== 'undefined' ? globalThis : this)

// Where code is not strict.
function sloppy(let, yield, await) {
    var static = 010 + 08.5, interface = 0777, package = '\07'
    with (let) yield: for (;;) { break yield }
    delete static
    label: function inner() { return interface }
    if (let) function conditional() { return await } else ;
    arguments[0] = package
    return inner, static, interface, let, yield, await
}

var async = function (of) { return of }, of = [1, 2], get = 1, set = 2, from = 3, as = 4
for (async of => of; false;);
for (var x of of) async (x)
for (let in {}) ;
let = 1
var await = async
(x)
async
function notAsync() {}

class Shape { sides() { return 0 } static create() { return new this }; }
class Square extends Shape {
    sides() { return 4 + super.sides() }
    static async = 1
    static
    get
    size() { return 1 }
    in
    instanceof = 3
    ;[x] = 2
}

--> this is a comment as well
var tagged = String.raw`\u00g ${ `nested ${ 1 + `${ 2 }` } ` } \x`, lines = `first
second ${ [1, 2].map(n => `<li>${ n }</li>`).join('') }
third`
var arrow = () => {}, body = () => ({}), chain = a => b => c => a + b + c, defaults = (a = 1, { b = 2, c: { d } = {} } = {}, [e, ...f] = []) => [a, b, d, e, f]
var optional = tagged?.length, called = arrow?.(), indexed = lines?.[0]?.b.c?.(1), mixed = (tagged ?? lines) || arrow, spread = [...of, ...[3]], kept = { ...set, get, [from]: as }
var big = 123456789012345678901234567890n + 0xFFn, separated = 1_000.000_1, tiny = 5e-324, huge = 1.7976931348623157e308, zero = 0.0
/re/gimsuy.exec(tagged)
x
/re/g
if (x) throw new Error
else debugger
try { x } catch { of } finally { }
var last = function* () { var x = yield; yield* [yield x, (yield, 1)]; return yield }, { p: [q = 1, { r }], ...rest } = { p: [, {}] }
async function main() { await null; for await (const it of of) await (async () => it)(); return (await async)`x` }
main().then(sloppy, last).catch(function () { return rest, q, r })

#!/usr/bin/env node
// Rows of the printer, made by a plain printer over acorn's tree. It reads the texts of texts.txt and layouts.txt, one a line, with the marks of
// docs/ROWS.md, and writes of those that acorn takes as a script or as a module what is to be written for them, formatted and minified (texts.rows,
// layouts.rows), and where the places of their source then stand (places.rows); and the same of operands beside operators (neighbours.rows). The plain
// printer is the table of layouts and the rules of spellings (docs/LAYOUT.md, docs/SPELLINGS.md) a second time, a line for each kind of node, and knows
// nothing of the real one. Of what acorn doesn't read there are rows by hand.
//
//   tools/rows/by_layout.js ACORN FOLDER
//
// ACORN is the path of acorn's module, as dist/acorn.js of Debian's package node-acorn; FOLDER is that of the rows, tests/rows/print.
const fs = require("fs"), path = require("path"), acorn = require(path.resolve(process.argv[2]));

// What pieces are resolved to. A semicolon that may go waits when minifying.
class Page {
  constructor(minify) {
    this.minify = minify; this.out = ""; this.depth = 0; this.start = true; this.waits = false;
    this.row = 0; this.column = 0; this.pairs = new Set(); this.mark = null;
  }
  settle() { if (this.waits) { this.waits = false; this.put(";"); } }
  put(x) {
    if (x === "") return;
    if (this.start) {
      this.out += "    ".repeat(this.depth); this.column = 4 * this.depth; this.start = false;
      if (this.mark !== null) { this.record(this.mark); this.mark = null; }
    }
    this.out += x;
    const lines = x.split(/\r\n|\r|\n/);
    if (lines.length > 1) { this.row += lines.length - 1; this.column = 0; }
    this.column += lines[lines.length - 1].length;
  }
  record(at) { this.pairs.add(`${at}@${this.row}:${this.column}`); }
  // marks the place that is reached; at the start of a line the mark waits for its first text
  at(place) { if (this.start) this.mark = place; else this.record(place); }
  text(x) { if (x === "}") this.waits = false; this.settle(); this.put(x); }
  blank() { this.text(" "); }
  gap(b) { if (b || !this.minify) this.blank(); }
  semi() { if (this.minify) { this.settle(); this.waits = true; } else this.put(";"); }
  endLine() { this.settle(); this.mark = null; if (!this.start) { this.out += "\n"; this.start = true; this.row++; this.column = 0; } }
  line() { if (!this.minify) this.endLine(); }
  deeper() { if (!this.minify) this.depth++; }
  back() { if (!this.minify) this.depth--; }
}

const isChain = (n) => n.type === "ChainExpression";
const inner = (n) => (isChain(n) ? n.expression : n);
const quoted = (n) => n.type === "Literal" && typeof n.value === "string";
const isNumber = (n) => n.type === "Literal" && typeof n.value === "number" && n.bigint === undefined;

// Whether what is written starts with a word.
function starts(n) {
  n = inner(n);
  switch (n.type) {
    case "Identifier": case "AwaitExpression": case "FunctionExpression": case "FunctionDeclaration": case "ClassExpression": case "ClassDeclaration":
    case "ThisExpression": case "YieldExpression": case "NewExpression": case "MetaProperty": case "Super": case "ImportExpression": return true;
    case "Literal": return !n.regex && typeof n.value !== "string";
    case "UnaryExpression": return /^[a-z]/.test(n.operator);
    case "ArrowFunctionExpression": return n.async || (n.params.length === 1 && starts(n.params[0]));
    case "SequenceExpression": return n.expressions.length > 0 && starts(n.expressions[0]);
    case "AssignmentExpression": case "BinaryExpression": case "LogicalExpression": case "AssignmentPattern": return starts(n.left);
    case "PrivateIdentifier": return false;
    case "ConditionalExpression": return starts(n.test);
    case "CallExpression": return starts(n.callee);
    case "MemberExpression": return starts(n.object);
    case "TaggedTemplateExpression": return starts(n.tag);
    case "UpdateExpression": return !n.prefix && starts(n.argument);
    case "ExpressionStatement": return starts(n.expression);
    case "BlockStatement": case "EmptyStatement": return false;
    case "ParenthesizedExpression": case "ArrayExpression": case "ObjectExpression": case "TemplateLiteral": case "ArrayPattern": case "ObjectPattern":
    case "RestElement": case "SpreadElement": return false;
  }
  if (/Statement$|Declaration$/.test(n.type)) return true;
  throw new Error(`starts ${n.type}`);
}

// Whether what is written ends with a word.
function ends(n) {
  switch (n.type) {
    case "ArrayExpression": case "ObjectExpression": case "ParenthesizedExpression": case "ArrayPattern": case "ObjectPattern": return false;
    case "Literal": return typeof n.value !== "string";
    case "MemberExpression": return !n.computed || n.object.type === "Super";
    case "RestElement": return ends(n.argument);
    case "AssignmentPattern": return ends(n.right);
    case "VariableDeclaration": {
      const last = n.declarations[n.declarations.length - 1];
      return last ? ends(last.init || last.id) : true;
    }
  }
  return true;
}

// The leftmost part of a right operand, as far as a regular expression may be its first token.
function leftmost(n) {
  for (;;) {
    n = inner(n);
    if (n.type === "BinaryExpression" || n.type === "LogicalExpression") n = n.left;
    else if (n.type === "MemberExpression") n = n.object;
    else if (n.type === "CallExpression") n = n.callee;
    else if (n.type === "TaggedTemplateExpression") n = n.tag;
    else if (n.type === "UpdateExpression" && !n.prefix) n = n.argument;
    else return n;
  }
}
const leftOperand = (n) => { while (n.type === "BinaryExpression" || n.type === "LogicalExpression") n = n.left; return n; };

// A number in decimal digits: digits without zeros at either end, and a power of ten.
function decimal(raw) {
  raw = raw.replace(/_/g, "");
  if (/^0[xX]/.test(raw) || /^0[oO]/.test(raw) || /^0[bB]/.test(raw)) return whole(BigInt(raw), raw);
  if (/^0[0-7]+$/.test(raw)) return whole(BigInt("0o" + raw.slice(1)), "0o" + raw.slice(1));
  const [, a, , b, , e] = /^(\d*)(\.(\d*))?([eE]([+-]?\d+))?$/.exec(raw);
  return plain(a + (b || ""), BigInt(e || "0") - BigInt((b || "").length));
}
function plain(digits, power) {
  digits = digits.replace(/^0+/, "");
  if (digits === "") return ["", 0n];
  while (digits.endsWith("0")) { digits = digits.slice(0, -1); power++; }
  return [digits, power];
}
function whole(value, raw) {
  if (value < 1n << 64n) return plain(value.toString(), 0n);
  return [raw.slice(0, 2).toLowerCase() + raw.slice(2).toLowerCase().replace(/^0+/, ""), null];
}
function minifiedNumber(raw) {
  const [d, x] = decimal(raw);
  if (x === null) return d;
  if (d === "") return "0";
  if (x >= 3n) return d + "e" + x;
  if (x >= 0n) return d + "0".repeat(Number(x));
  const n = -x, length = BigInt(d.length);
  if (n < length) return d.slice(0, Number(length - n)) + "." + d.slice(Number(length - n));
  if (n - length <= 2n) return "." + "0".repeat(Number(n - length)) + d;
  return d + "e-" + n;
}

// A string in quotes, unit by unit, for the latest edition.
function quote(value) {
  const doubles = value.split('"').length, singles = value.split("'").length;
  const q = doubles > singles ? "'" : '"';
  let out = q;
  const hex = (n, w) => n.toString(16).padStart(w, "0");
  for (let i = 0; i < value.length; i++) {
    const u = value.charCodeAt(i), c = value[i], next = value.charCodeAt(i + 1);
    if (u === 0) out += next >= 48 && next <= 57 ? "\\x00" : "\\0";
    else if (u === 8) out += "\\b";
    else if (u === 10) out += "\\n";
    else if (u === 11) out += "\\v";
    else if (u === 12) out += "\\f";
    else if (u === 13) out += "\\r";
    else if (u === 9) out += c;
    else if (c === "\\") out += "\\\\";
    else if (c === q) out += "\\" + c;
    else if (u < 32) out += "\\x" + hex(u, 2);
    else if (u === 0x2028 || u === 0x2029 || u === 0xfeff) out += "\\u" + hex(u, 4).toUpperCase();
    else if (u >= 0xd800 && u < 0xdc00 && next >= 0xdc00 && next < 0xe000) { out += c + value[i + 1]; i++; }
    else if (u >= 0xd800 && u < 0xe000) out += "\\u" + hex(u, 4).toUpperCase();
    else out += c;
  }
  return out + q;
}

// A piece of an untagged template when minifying, for the latest edition, from its raw text.
function templateText(raw) {
  raw = raw.replace(/\r\n?/g, "\n");
  const pieces = [];
  for (let i = 0; i < raw.length; ) {
    const c = String.fromCodePoint(raw.codePointAt(i));
    if (c !== "\\") { pieces.push(["bare", c]); i += c.length; continue; }
    const e = i + 1 < raw.length ? String.fromCodePoint(raw.codePointAt(i + 1)) : "";
    const m = /^\\(u\{[0-9a-fA-F]+\}|u[0-9a-fA-F]{4}|x[0-9a-fA-F]{2})/.exec(raw.slice(i));
    if (m) { pieces.push(["escape", m[0]]); i += m[0].length; }
    else { pieces.push(["escape", "\\" + e]); i += 1 + e.length; }
  }
  const hex = (n, w) => n.toString(16).padStart(w, "0");
  const written = [];
  // what a character is that stands for itself
  const bare = (c) => {
    const u = c.codePointAt(0);
    if (u === 0) return ["nul"];
    if (u === 8) return ["s", "\\b"];
    if (u === 11) return ["s", "\\v"];
    if (u === 12) return ["s", "\\f"];
    if (u >= 0x7f && u <= 0xff) return ["s", "\\x" + hex(u, 2)];
    if (u === 0x2028 || u === 0x2029 || u === 0xfeff) return ["s", "\\u" + hex(u, 4).toUpperCase()];
    return ["bare", c];
  };
  for (let k = 0; k < pieces.length; k++) {
    const [kind, x] = pieces[k];
    if (kind === "bare") { written.push(bare(x)); continue; }
    const e = x.slice(1);
    if (e === "") written.push(["s", x]);
    else if (e === "n") written.push(["bare", "\n"]);
    else if (e === "t") written.push(["bare", "\t"]);
    else if (e[0] === "x" && e.length === 3) {
      const u = parseInt(e.slice(1), 16);
      if (u === 0) written.push(["nul"]);
      else if (u === 0x24 || u === 0x5c || u === 0x60) written.push(["s", x]);
      else if (u >= 0x20 && u <= 0x7e) written.push(["bare", String.fromCharCode(u)]);
      else written.push(["s", "\\x" + hex(u, 2)]);
    }
    else if (e === "0") written.push(["nul"]);
    else if (e[0] === "u" || "\\rvbf`\n".includes(e)) written.push(["s", x]);
    else if (e === "\u2028" || e === "\u2029") continue;
    else if (e === "$" && k + 1 < pieces.length && pieces[k + 1][0] === "bare" && pieces[k + 1][1] === "{") written.push(["s", x]);
    else written.push(bare(e));
  }
  let out = "";
  for (let k = 0; k < written.length; k++) {
    const [kind, x] = written[k];
    if (kind === "nul") {
      const next = written[k + 1];
      const first = next && next[0] === "bare" ? next[1] : "";
      out += /^[0-9]/.test(first) ? "\\x00" : "\\0";
    }
    else if (kind === "bare" && x === "{" && k > 0 && written[k - 1][0] === "bare" && written[k - 1][1] === "$") out += "\\{";
    else out += x;
  }
  return out;
}

// The places of a text, in bytes that count from 1, of each UTF-16 unit.
function placesOf(source) {
  const places = [];
  let at = 1;
  for (const c of source) { places.push(at); if (c.length > 1) places.push(at); at += Buffer.byteLength(c); }
  places.push(at);
  return places;
}

// The plain printer: a line of the table for each kind of node. Its marks are those of a node's start, end and last character.
function print(program, source, minify) {
  const p = new Page(minify), place = placesOf(source), tokens = program.tokens;
  const L = (n) => p.at(place[n.start]), H = (n) => p.at(place[n.end]), h = (n) => p.at(place[n.end] - 1);
  const before = (at) => { let t = null; for (const x of tokens) { if (x.end <= at && x.end > x.start) t = x; } return t; };
  const after = (at) => tokens.find((x) => x.start >= at && x.end > x.start);
  // an identifier, as a name or as a word that is a key
  const ident = (n) => { p.settle(); L(n); p.text(n.name); };
  const raw = (n) => source.slice(n.start, n.end);
  const word = (w) => p.text(w);
  const between = (items, one, step) => items.forEach((x, i) => { if (i > 0) step(); one(x); });
  const comma = () => { p.text(","); p.gap(false); };
  const commas = (items, one) => between(items, one, comma);
  const inParens = (f) => { p.text("("); f(); p.text(")"); };
  const rows = (items, one, last) => {
    if (items.length === 0) return;
    p.line(); p.deeper(); between(items, one, () => p.line()); p.back();
    if (last) p.line();
  };
  const braces = (items, one, empty) => {
    p.text("{");
    if (items.length > 0) { p.gap(false); commas(items, one); p.gap(false); } else if (empty) p.gap(false);
    p.text("}");
  };

  // literals
  function string(n) {
    const text = raw(n), escaped = n.value === "use strict" && text.includes("\\");
    p.settle(); L(n);
    p.text(!minify || escaped ? text : quote(n.value));
    if (escaped) H(n);
  }
  const numberText = (n) => (minify ? minifiedNumber(raw(n)) : raw(n));
  function literal(n) {
    L(n);
    if (quoted(n)) string(n);
    else if (n.bigint !== undefined) { p.settle(); L(n); p.text(minify ? raw(n).replace(/_/g, "").replace(/^0[xXoObB]/, (m) => m.toLowerCase()) : raw(n)); H(n); }
    else if (isNumber(n)) { p.settle(); L(n); p.text(numberText(n)); }
    else p.text(raw(n));
  }
  function template(n, tagged) {
    L(n);
    p.text("`");
    n.quasis.forEach((q, i) => {
      if (i > 0) { p.text("${"); expr(n.expressions[i - 1]); p.text("}"); }
      const text = raw(q);
      L(q);
      p.text(tagged ? text : minify ? templateText(text) : text.replace(/\r\n?/g, "\n"));
      H(q);
    });
    p.text("`");
    H(n);
  }

  // keys
  const keyStarts = (n, computed) => !computed && !quoted(n);
  const startOf = (n, computed) => (computed ? before(n.start).start : n.start);
  function inBrackets(n) { p.at(place[startOf(n, true)]); p.text("["); expr(n); p.text("]"); p.at(place[after(n.end).end]); }
  function key(n, computed) {
    if (computed) inBrackets(n);
    else if (n.type === "PrivateIdentifier") { L(n); p.text("#"); p.settle(); L(n); p.text(n.name); H(n); }
    else if (n.type === "Identifier") ident(n);
    else literal(n);
  }

  // functions
  const param = (n) => { L(n); pattern(n); H(n); };
  const params = (list) => inParens(() => commas(list, param));
  const tail = (f) => { params(f.params); p.gap(false); block(f.body, true); };
  function functionExpr(n) {
    p.settle(); L(n);
    if (n.async) { word("async"); p.blank(); }
    word("function");
    if (n.generator) p.text("*");
    if (n.id) { p.blank(); ident(n.id); }
    tail(n);
  }
  function functionDecl(n) {
    p.settle(); L(n);
    if (n.async) { word("async"); p.blank(); }
    word("function");
    if (n.generator) { p.text("*"); p.gap(false); } else p.blank();
    ident(n.id);
    tail(n);
  }
  function arrow(n) {
    const bare = n.params.length === 1 && n.params[0].type === "Identifier";
    L(n);
    if (n.async) { word("async"); p.gap(bare); }
    if (minify && bare) pattern(n.params[0]); else inParens(() => commas(n.params, pattern));
    p.text("=>");
    if (n.expression) { p.deeper(); expr(n.body); p.back(); } else block(n.body, true);
  }
  function classTail(n) {
    L(n);
    word("class");
    if (n.id) { p.blank(); ident(n.id); }
    if (n.superClass) { p.blank(); word("extends"); p.gap(starts(n.superClass)); expr(n.superClass); }
    p.gap(false);
    p.text("{");
    if (n.body.body.length === 0) p.line(); else rows(n.body.body, member, true);
    h(n);
    p.text("}");
  }
  function member(m) {
    if (m.type === "EmptyStatement") { p.text(";"); return; }
    L(m);
    if (m.type === "StaticBlock") { word("static"); p.at(place[after(m.start + 6).start]); p.text("{"); rows(m.body, stmt, true); h(m); p.text("}"); H(m); return; }
    const secret = m.key.type === "PrivateIdentifier";
    if (m.type === "PropertyDefinition") {
      if (m.static) { word("static"); p.blank(); }
      key(m.key, m.computed);
      if (m.value) { p.gap(false); p.text("="); p.gap(false); expr(m.value); }
      p.semi();
      H(m);
      return;
    }
    if (m.kind === "constructor") { word("constructor"); params(m.value.params); block(m.value.body); return; }
    const plainKey = m.kind === "method" && !m.value.async && !m.value.generator;
    if (m.static) {
      word("static");
      if (secret) p.blank();
      else if (m.kind === "method" && !m.value.async && m.value.generator) p.gap(false);
      else if (plainKey) p.gap(keyStarts(m.key, m.computed));
      else p.blank();
    }
    if (m.kind !== "method") { word(m.kind); if (secret) p.blank(); else p.gap(keyStarts(m.key, m.computed)); }
    if (m.value.async) { word("async"); p.blank(); }
    if (m.value.generator) p.text("*");
    key(m.key, m.computed);
    if (secret) { tail(m.value); return; }
    params(m.value.params); p.gap(false); block(m.value.body);
  }

  // patterns
  function pattern(n) {
    switch (n.type) {
      case "Identifier": ident(n); return;
      case "ArrayPattern":
        L(n);
        p.text("[");
        n.elements.forEach((x, i) => { if (i > 0) comma(); if (x) pattern(x); });
        if (n.elements.length > 0 && !n.elements[n.elements.length - 1]) comma();
        p.text("]");
        H(n);
        return;
      case "ObjectPattern": L(n); braces(n.properties, patternProp, false); H(n); return;
      case "RestElement": L(n); p.text("..."); p.at(place[n.start + 3]); pattern(n.argument); return;
      case "AssignmentPattern": L(n); pattern(n.left); p.gap(false); p.text("="); p.gap(false); expr(n.right); H(n); return;
      default: expr(n);
    }
  }
  function patternProp(n) {
    if (n.type === "RestElement" || n.shorthand) { const x = n.type === "RestElement" ? n : n.value; L(n); pattern(x); if (x !== n) H(n); return; }
    L(n); key(n.key, n.computed); p.text(":"); p.gap(false); pattern(n.value); H(n);
  }

  // expressions
  function object(n) {
    L(n);
    p.text("{");
    if (n.properties.length > 0) { p.line(); p.deeper(); between(n.properties, prop, () => { p.text(","); p.line(); }); p.back(); p.line(); }
    h(n);
    p.text("}");
  }
  function prop(n) {
    if (n.type === "SpreadElement") { L(n); p.text("..."); expr(n.argument); H(n); return; }
    if (n.shorthand) { ident(n.key); return; }
    if (n.kind !== "init") {
      L(n);
      word(n.kind);
      p.gap(keyStarts(n.key, n.computed));
      key(n.key, n.computed);
      p.gap(false);
      inParens(() => commas(n.value.params, pattern));
      if (n.kind === "get") p.gap(false);
      block(n.value.body);
      return;
    }
    if (n.method) {
      L(n);
      if (n.value.async) { word("async"); p.blank(); }
      if (n.value.generator) p.text("*");
      key(n.key, n.computed);
      p.gap(false);
      tail(n.value);
      return;
    }
    p.at(place[startOf(n.key, n.computed)]); key(n.key, n.computed); p.text(":"); p.gap(false); expr(n.value);
  }
  function array(n) {
    L(n);
    p.text("[");
    if (n.elements.length > 0) {
      p.line(); p.deeper();
      n.elements.forEach((x, i) => { if (i > 0) { p.text(","); p.line(); } if (x) argument(x); });
      if (!n.elements[n.elements.length - 1]) comma();
      p.back(); p.line();
    }
    p.text("]");
    H(n);
  }
  function argument(n) { if (n.type === "SpreadElement") { p.text("..."); expr(n.argument); } else expr(n); }
  const args = (list) => inParens(() => commas(list, argument));
  // a new at the head of a call, a member, a chain or a tag, or that another new calls
  function head(n) { if (n.type === "NewExpression") newExpr(n, true); else expr(n); }
  function newExpr(n, called) {
    p.settle(); L(n);
    word("new");
    p.gap(starts(n.callee));
    head(n.callee);
    if (!minify || n.arguments.length > 0 || called) args(n.arguments);
  }
  // whether a member or a call is a part of an optional chain
  const chained = (n) => n.optional || ((n.type === "MemberExpression" && chained(n.object)) || (n.type === "CallExpression" && chained(n.callee)));
  function memberExpr(n) {
    const plain = !chained(n);
    if (plain) L(n);
    head(n.object);
    if (n.optional) p.text("?.");
    if (n.computed) { inBrackets(n.property); if (plain && n.object.type !== "Super") H(n); return; }
    if (!n.optional) {
      if (isNumber(n.object)) {
        const text = numberText(n.object);
        if (/^[0-9_]+$/.test(text) && !/^0[0-7]+$/.test(text)) p.text(".");
      }
      p.text(".");
    }
    key(n.property, false);
    if (plain && n.object.type !== "Super") H(n);
  }
  function binary(n, isLeft) {
    if (!isLeft) L(n);
    const word_ = /^[a-z]/.test(n.operator), op = n.operator;
    if (n.left.type === "PrivateIdentifier") key(n.left, false); else if (n.left.type === "BinaryExpression" || n.left.type === "LogicalExpression") binary(n.left, true); else expr(n.left);
    const right = leftOperand(n.right);
    const is = (x, o) => (x.type === "UnaryExpression" || (x.type === "UpdateExpression" && x.prefix)) && x.operator === o;
    let before = false, after = false;
    if (word_) { before = n.left.type === "PrivateIdentifier" || ends(n.left); after = starts(n.right); }
    else {
      const l = n.left;
      before = [">", ">>", ">>>", ">="].includes(op) && l.type === "UpdateExpression" && !l.prefix && l.operator === "--";
      if (op === "+") after = is(right, "+") || is(right, "++");
      if (op === "-") after = is(right, "-") || is(right, "--");
      if (op === "<" || op === "<<") after = is(right, "!") && is(right.argument, "--");
      if (op === "/") after = leftmost(n.right).regex !== undefined;
    }
    p.gap(before); p.text(op); p.gap(after);
    expr(n.right);
  }
  function unary(n) {
    L(n);
    p.text(n.operator);
    const a = n.argument;
    if (/^[a-z]/.test(n.operator)) p.gap(starts(a));
    else if ((n.operator === "+" || n.operator === "-") &&
      ((a.type === "UnaryExpression" && a.operator === n.operator) || (a.type === "UpdateExpression" && a.prefix && a.operator[0] === n.operator))) p.blank();
    expr(a);
  }
  function expr(n) {
    switch (n.type) {
      case "ChainExpression": expr(n.expression); return;
      case "Identifier": ident(n); return;
      case "Literal": literal(n); return;
      case "ThisExpression": p.settle(); L(n); word("this"); H(n); return;
      case "Super": p.settle(); L(n); word("super"); H(n); return;
      case "ArrayExpression": array(n); return;
      case "ObjectExpression": object(n); return;
      case "FunctionExpression": functionExpr(n); return;
      case "ClassExpression": classTail(n); return;
      case "ArrowFunctionExpression": arrow(n); return;
      case "UnaryExpression": unary(n); return;
      case "UpdateExpression": L(n); if (n.prefix) p.text(n.operator); expr(n.argument); if (!n.prefix) p.text(n.operator); return;
      case "BinaryExpression": case "LogicalExpression": binary(n, false); return;
      case "AssignmentExpression": pattern(n.left); p.gap(false); p.text(n.operator); p.gap(false); expr(n.right); return;
      case "ConditionalExpression":
        L(n); expr(n.test); p.gap(false); p.text("?"); p.gap(false); expr(n.consequent); p.gap(false); p.text(":"); p.gap(false); expr(n.alternate); return;
      case "CallExpression": if (!chained(n)) { p.settle(); L(n); } head(n.callee); if (n.optional) p.text("?."); args(n.arguments); return;
      case "ImportExpression": p.settle(); L(n); word("import"); p.at(place[n.start + 6]); args([n.source]); return;
      case "NewExpression": newExpr(n, false); return;
      case "MemberExpression": memberExpr(n); return;
      case "MetaProperty": L(n); p.text(`${n.meta.name}.${n.property.name}`); return;
      case "SequenceExpression": L(n); commas(n.expressions, expr); return;
      case "ParenthesizedExpression": p.settle(); L(n); inParens(() => { expr(n.expression); h(n); }); return;
      case "TemplateLiteral": template(n, false); return;
      case "TaggedTemplateExpression": L(n); head(n.tag); template(n.quasi, true); H(n); return;
      case "YieldExpression":
        L(n);
        word("yield");
        if (n.delegate) { p.text("*"); p.gap(false); } else if (n.argument) p.gap(starts(n.argument));
        if (n.argument) expr(n.argument);
        return;
      case "AwaitExpression": L(n); word("await"); p.blank(); expr(n.argument); return;
      case "ArrayPattern": case "ObjectPattern": pattern(n); return;
    }
    throw new Error(n.type);
  }

  // statements
  function block(n, isTail) { if (!isTail) L(n); p.text("{"); rows(n.body, stmt, true); h(n); p.text("}"); }
  function variables(n) {
    p.settle(); L(n);
    word(n.kind);
    const first = n.declarations[0].id.type;
    p.gap(first !== "ArrayPattern" && first !== "ObjectPattern");
    commas(n.declarations, (d) => { L(d); pattern(d.id); if (d.init) { p.gap(false); p.text("="); p.gap(false); expr(d.init); } });
  }
  function stmt(n) {
    if (n.type === "BlockStatement") { block(n); return; }
    if (n.type === "VariableDeclaration") { variables(n); p.semi(); p.line(); return; }
    other(n);
    p.line();
  }
  const headOf = (n) => (n.type === "VariableDeclaration" ? variables(n) : pattern(n));
  function jump(n, w) { word(w); if (n.label) { p.blank(); ident(n.label); } p.semi(); }
  // statements that write the semicolon that waits first, and that mark their start
  const COMMITS = ["Debugger", "With", "Return", "Labeled", "Break", "Continue", "If", "Switch", "Try", "While", "DoWhile", "For", "ForIn", "ForOf"].map((x) => `${x}Statement`);
  const UNMARKED = ["ExpressionStatement", "EmptyStatement", "LabeledStatement", "FunctionDeclaration", "ClassDeclaration"];
  function other(n) {
    if (COMMITS.includes(n.type)) p.settle();
    if (!UNMARKED.includes(n.type)) L(n);
    switch (n.type) {
      case "EmptyStatement": p.text(";"); return;
      case "ExpressionStatement": expr(n.expression); p.semi(); return;
      case "DebuggerStatement": word("debugger"); H(n); p.semi(); return;
      case "WithStatement": word("with"); p.gap(false); inParens(() => expr(n.object)); stmt(n.body); return;
      case "ReturnStatement": word("return"); if (n.argument) { p.gap(starts(n.argument)); expr(n.argument); } p.semi(); return;
      case "ThrowStatement": word("throw"); p.gap(starts(n.argument)); expr(n.argument); p.semi(); return;
      case "LabeledStatement": ident(n.label); p.text(":"); p.gap(false); stmt(n.body); return;
      case "BreakStatement": jump(n, "break"); return;
      case "ContinueStatement": jump(n, "continue"); return;
      case "IfStatement":
        word("if"); p.gap(false); inParens(() => expr(n.test)); p.gap(false); stmt(n.consequent);
        if (n.alternate) {
          if (n.consequent.type === "BlockStatement") p.gap(false);
          word("else"); p.gap(starts(n.alternate)); stmt(n.alternate);
        }
        return;
      case "SwitchStatement":
        word("switch"); inParens(() => expr(n.discriminant)); p.text("{");
        if (n.cases.length === 0) p.line(); else rows(n.cases, switchCase, true);
        h(n);
        p.text("}");
        return;
      case "TryStatement":
        word("try"); p.gap(false); block(n.block);
        if (n.handler) {
          p.gap(false); L(n.handler); word("catch"); p.gap(false);
          if (n.handler.param) inParens(() => pattern(n.handler.param));
          p.gap(false); block(n.handler.body);
        }
        if (n.finalizer) { p.gap(false); word("finally"); block(n.finalizer); }
        return;
      case "WhileStatement": word("while"); inParens(() => expr(n.test)); stmt(n.body); return;
      case "DoWhileStatement":
        word("do"); p.gap(starts(n.body)); stmt(n.body); word("while"); p.gap(false); inParens(() => expr(n.test)); p.semi(); H(n); return;
      case "ForStatement":
        word("for"); p.text("(");
        if (n.init) { if (n.init.type === "VariableDeclaration") variables(n.init); else expr(n.init); }
        p.text(";"); if (n.test) { p.gap(false); expr(n.test); }
        p.text(";"); if (n.update) { p.gap(false); expr(n.update); }
        p.text(")"); stmt(n.body);
        return;
      case "ForInStatement": case "ForOfStatement": {
        const of = n.type === "ForOfStatement";
        word("for");
        if (of) { if (n.await) { p.blank(); word("await"); } p.gap(false); }
        p.text("("); headOf(n.left); p.gap(ends(n.left)); word(of ? "of" : "in"); p.gap(starts(n.right)); expr(n.right); p.text(")"); stmt(n.body);
        return;
      }
      case "FunctionDeclaration": functionDecl(n); return;
      case "ClassDeclaration": classTail(n); return;
      case "ImportDeclaration": importDecl(n); return;
      case "ExportAllDeclaration":
        if (n.exported) { word("export"); p.gap(false);
          p.at(place[after(n.start + 6).start]); namespace(n.exported); H(n.exported);
          p.blank(); word("from"); p.gap(false); literal(n.source); p.semi(); H(n); return; }
        word("export"); p.gap(false); p.text("*"); p.gap(false); word("from"); p.gap(false); literal(n.source); p.semi(); H(n); return;
      case "ExportNamedDeclaration": exportNamed(n); return;
      case "ExportDefaultDeclaration": exportDefault(n); return;
    }
    throw new Error(n.type);
  }
  function switchCase(n) {
    L(n);
    if (n.test) { word("case"); p.gap(starts(n.test)); expr(n.test); } else word("default");
    p.text(":");
    rows(n.consequent, stmt, false);
  }

  // modules
  const name = (n) => (n.type === "Literal" ? literal(n) : ident(n));
  const same = (a, b) => a.start === b.start;
  const namespace = (n) => { p.text("*"); p.gap(false); word("as"); p.blank(); name(n); };
  function importDecl(n) {
    const first = n.specifiers.find((s) => s.type === "ImportDefaultSpecifier");
    const star = n.specifiers.find((s) => s.type === "ImportNamespaceSpecifier");
    const named = n.specifiers.filter((s) => s.type === "ImportSpecifier");
    word("import");
    p.gap(first !== undefined);
    if (first) ident(first.local);
    if (star) { if (first) comma(); namespace(star.local); }
    if (named.length > 0) {
      if (first) comma();
      braces(named, (s) => { L(s); if (!same(s.imported, s.local)) { name(s.imported); p.blank(); word("as"); p.blank(); } ident(s.local); H(s); }, true);
      p.gap(false); word("from"); p.gap(false);
    } else if (first || star) { p.blank(); word("from"); p.gap(false); }
    literal(n.source);
    p.semi();
    H(n);
  }
  function exportNamed(n) {
    word("export");
    if (n.declaration) {
      p.blank();
      const d = n.declaration;
      if (d.type === "VariableDeclaration") { variables(d); p.semi(); H(n); } else other(d);
      return;
    }
    p.gap(false);
    braces(n.specifiers, (s) => { L(s); name(s.local); if (!same(s.local, s.exported)) { p.blank(); word("as"); p.blank(); name(s.exported); } H(s); }, true);
    if (n.source) { p.gap(false); word("from"); p.gap(false); literal(n.source); }
    p.semi();
    H(n);
  }
  function exportDefault(n) {
    const d = n.declaration;
    word("export"); p.blank(); word("default");
    if (d.type === "FunctionDeclaration") { p.blank(); functionExpr(d); }
    else if (d.type === "ClassDeclaration") { p.blank(); classTail(d); }
    else { p.gap(starts(d)); expr(d); p.semi(); H(n); }
  }

  const bang = /^#!([^\n\r\u2028\u2029]*)/.exec(source);
  if (bang) { p.text("#!" + bang[1]); p.endLine(); }
  program.body.forEach(stmt);
  if (!minify) p.settle();
  program.pairs = [...p.pairs].join(" ");
  return p.out;
}

// Acorn, that keeps an empty member of a class, and takes an export of a name that isn't declared.
const Reader = acorn.Parser.extend((Base) => class extends Base {
  checkLocalExport() {}
  parseClassElement(allowsSuper) {
    if (this.type !== acorn.tokTypes.semi) return super.parseClassElement(allowsSuper);
    const node = this.startNode();
    this.next();
    return this.finishNode(node, "EmptyStatement");
  }
});
function read(text, sourceType) {
  const onToken = [], program = Reader.parse(text, { ecmaVersion: "latest", sourceType, preserveParens: true, allowHashBang: true, onToken });
  program.tokens = onToken;
  return program;
}

// Rows as docs/ROWS.md has them.
const NAMES = {0:"NUL",9:"TAB",10:"LF",11:"VT",12:"FF",13:"CR",127:"DEL",0xA0:"NBSP",0x200C:"ZWNJ",0x200D:"ZWJ",0x2028:"LS",0x2029:"PS",0xFEFF:"ZWNBSP"};
const mark = (s) => [...s].map((c) => {
  const u = c.codePointAt(0);
  return NAMES[u] ? `«${NAMES[u]}»` : u < 32 || (u >= 128 && u < 160) || "«»→".includes(c) ? `«U+${u.toString(16).toUpperCase()}»` : c;
}).join("");
const blanks = (s) => s.replace(/^ /, "«SP»").replace(/ $/, "«SP»") || "«»";
const field = (s) => blanks(mark(s));
const unmark = (s) => s.replace(/«([^»]*)»/g, (_, w) => w === "" ? "" : w === "SP" ? " " : w.startsWith("U+") ? String.fromCodePoint(parseInt(w.slice(2), 16))
  : String.fromCodePoint(Object.keys(NAMES).find((k) => NAMES[k] === w)));
// a field of several lines stands below its arrow
function row(text, ...fields) {
  const lines = [field(text).replace(/^(#|@)(?=$| )/, (c) => `«U+${c.codePointAt(0).toString(16)}»`)];
  let open = true;
  for (const f of fields) {
    const ended = f.endsWith("\n"), parts = (ended ? f.slice(0, -1) : f).split("\n");
    if (parts.length === 1) {
      if (open) lines[lines.length - 1] += ` → ${field(f)}`; else lines.push(`→ ${field(f)}`);
      open = true;
    } else {
      if (open) lines[lines.length - 1] += " →"; else lines.push("→");
      parts.forEach((x, i) => lines.push("  " + (mark(x).replace(/ $/, "«SP»") || "«»") + (i === parts.length - 1 && !ended ? "«+»" : "")));
      open = false;
    }
  }
  return lines.join("\n");
}
module.exports = { print, read, row };

// What is written for a program, formatted and minified, and the places of its source with the lines and columns at which they stand in both.
function texts(program, text) { return [print(program, text, false), print(program, text, true)]; }
function places(program, text) {
  return [false, true].map((minify) => { print(program, text, minify); return program.pairs; });
}

// The row of a text under its setting, or nothing where acorn takes it neither as a script nor as a module.
function made(text, subject, fields) {
  for (const goal of ["script", "module"]) {
    let program;
    try { program = read(text, goal); } catch (e) { if (!(e instanceof SyntaxError)) throw e; continue; }
    return { setting: `@ ${subject}${goal === "script" ? "" : " module"}`, row: row(text, ...fields(program, text)) };
  }
  return null;
}
// Texts of a file, one a line, as rows; its comments stay.
function rowsOf(lines, subject, fields) {
  const out = [];
  let setting = "";
  const seen = new Set();
  let count = 0;
  for (const line of lines) {
    if (line === "#" || line.startsWith("# ")) { out.push(line); continue; }
    if (line === "" || seen.has(line)) continue;
    seen.add(line);
    const r = made(unmark(line), subject, fields);
    if (!r) continue;
    if (r.setting !== setting) { setting = r.setting; out.push(setting); }
    out.push(r.row);
    count++;
  }
  const isHead = (x) => x === "#" || x.startsWith("# ");
  return [out.filter((x, i) => !(isHead(x) && (i + 1 === out.length || isHead(out[i + 1])))).join("\n") + "\n", count];
}
// Operands beside operators: each operator that may run together with what stands beside it.
function neighbours() {
  const left = ["a", "a--", "'s'", "/r/", "[]", "a()", "a[b]", "(a)"], right = ["a", "+a", "-a", "++a", "--a", "!--a", "/r/", "/r/.b(c)", "'s'", "typeof a", "new a", "[]"];
  const lines = [];
  for (const o of ["+", "-", "<", "<<", ">", ">>", ">>>", ">=", "/", "*", "in", "instanceof"]) {
    lines.push(`# ${o}`);
    for (const x of left) for (const y of right) if (y !== "new a" || x === "a") lines.push(`${x} ${o} ${y}`);
  }
  lines.push("# a prefix operator before its operand");
  for (const u of ["+", "-", "!", "~", "typeof", "void", "delete", "++", "--", "new"])
    for (const x of ["a", "1", "1.5", "010", "'s'", "/r/", "({})", "[]", "+a", "-a", "!a", "~a", "++a", "--a", "a++", "a--", "!--a", "typeof a", "new a", "a.b", "a[0]", "a()", "`t`", "function(){}", "class{}", "(a)"]) lines.push(`x=${u} ${x}`);
  lines.push("# a word before what it is followed by");
  for (const w of ["return", "throw", "yield", "await"])
    for (const x of ["a", "1", ".5", "'s'", "/r/", "[]", "{}", "(a)", "-a", "!a", "++a", "a++", "typeof a", "new a", "`t`", "`t`.a", "'s'.a", "function(){}", "async a=>b", "a=>b", "(a,b)=>c", "({a})=>b", "([a])=>b", "(...a)=>b", "(a=1)=>b", "()=>a", "class{}", "this", "null", "a?b:c", "[a]?b:c", "a,b", "a=b", "[a]=b", "1n", "import.meta", "import(a)", "#p in a"]) {
      if (w === "yield") lines.push(`function*f(){yield ${x}}`);
      else if (w === "await") lines.push(`async function f(){await ${x}}`);
      else if (x === "#p in a") lines.push(`class A{#p;b(){${w} #p in a}}`);
      else lines.push(`function f(){${w} ${x}}`);
    }
  return lines;
}
if (require.main === module) {
  const folder = process.argv[3], here = (name) => fs.readFileSync(path.join(__dirname, name), "utf8").split("\n");
  const byHand = new Set();
  for (const name of ["departures.rows", "faults.rows"])
    for (const line of fs.readFileSync(path.join(folder, "../parse", name), "utf8").split("\n"))
      if (line.includes(" → ")) byHand.add(line.split(" → ")[0]);
  const write = (name, head, lines, subject, fields) => {
    const [text, count] = rowsOf(lines.filter((x) => !byHand.has(x)), subject, fields);
    fs.writeFileSync(path.join(folder, name), `# Made by tools/rows/by_layout.js: programs, and ${head}, formatted and minified.\n${text}`);
    console.log(`${name}: ${count} rows`);
  };
  write("texts.rows", "what a plain printer writes for them", here("texts.txt"), "printed", texts);
  write("layouts.rows", "what a plain printer writes for them", here("layouts.txt"), "printed", texts);
  write("neighbours.rows", "what a plain printer writes for them", neighbours(), "printed", texts);
  write("places.rows", "where the places of their source are written by a plain printer", here("layouts.txt"), "places", places);
}

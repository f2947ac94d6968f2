#!/usr/bin/env node
// Rows of the parser, made by an independent one. It reads the texts of texts.txt, one a line, with the marks of docs/ROWS.md, and asks acorn for
// each as a script and as a module. It writes trees.rows, the texts that acorn takes with their trees in the form of tree_outline, and refused.rows,
// those that it refuses for their grammar. Rows by hand stand there too: early errors (faults.rows), and what acorn reads otherwise (departures.rows);
// a text is left out where it has such a row. What acorn refuses for an early error, or for a rule that isn't among ours, and has none is printed.
//
//   tools/rows/by_acorn.js ACORN FOLDER
//
// ACORN is the path of acorn's module, as dist/acorn.js of Debian's package node-acorn; FOLDER is that of the rows, tests/rows/parse.
const fs = require("fs"), path = require("path"), acorn = require(path.resolve(process.argv[2]));

// The marks of control characters and of those that mean something in a row.

function esc(s) {
  const names = {0:"NUL",9:"TAB",10:"LF",11:"VT",12:"FF",13:"CR",127:"DEL",0xA0:"NBSP",0x200C:"ZWNJ",0x200D:"ZWJ",0x2028:"LS",0x2029:"PS",0xFEFF:"ZWNBSP"};
  let out = "";
  for (const c of s) {
    const n = c.codePointAt(0);
    if (names[n]) out += `«${names[n]}»`;
    else if (n < 32 || c === "«" || c === "»" || c === "→") out += `«U+${n.toString(16).toUpperCase().padStart(2,"0")}»`;
    else out += c;
  }
  return out;
}

function unesc(s) {
  const names = {NUL:0,TAB:9,LF:10,VT:11,FF:12,CR:13,SP:32,DEL:127,NBSP:0xA0,ZWNJ:0x200C,ZWJ:0x200D,LS:0x2028,PS:0x2029,ZWNBSP:0xFEFF};
  return s.replace(/«([^»]*)»/g, (_, w) => w === "" ? "" : w.startsWith("U+") ? String.fromCodePoint(parseInt(w.slice(2),16)) : String.fromCharCode(names[w]));
}

// The tree of a text in the form of tree_outline. Places are bytes that count from 1.
function tree(text, module) {
  const tokens = [];
  const program = acorn.parse(text, { ecmaVersion: "latest", sourceType: module ? "module" : "script", preserveParens: true, onToken: tokens, allowHashBang: true });
  const bytes = [];           // offset in bytes of each UTF-16 unit
  {
    let at = 0;
    for (const c of text) { bytes.push(at); const n = Buffer.byteLength(c); if (c.length > 1) bytes.push(at); at += n; }
    bytes.push(at);
  }
  const place = (a, b) => `${bytes[a] + 1}..${bytes[b] + 1}`;
  const raw = (n) => text.slice(n.start, n.end);
  // templates make tokens of their own; only punctuators are asked for here
  const before = (at) => { let t = null; for (const x of tokens) { if (x.end <= at && x.end > x.start) t = x; } return t; };
  const after = (at) => tokens.find((x) => x.start >= at && x.end > x.start);
  const node = (kind, a, b, ...parts) => `(${kind} ${place(a, b)}${parts.filter((x) => x !== "").map((x) => " " + x).join("")})`;
  const opt = (x, f) => (x ? f(x) : "");
  const list = (xs, f) => xs.map(f).join(" ");
  const ident = (n) => node(`Ident ${n.name}`, n.start, n.end);
  const word = (n) => node(`IdentName ${n.name}`, n.start, n.end);
  const str = (n) => node(`Str ${esc(raw(n))}`, n.start, n.end);
  const binding = (n) => node(`BindingIdent ${n.name}`, n.start, n.end, ident(n));
  const priv = (n) => node(`PrivateName ${n.name}`, n.start, n.end);
  function key(n, computed) {
    if (computed) { const a = before(n.start), b = after(n.end); return node("ComputedPropName", a.start, b.end, expr(n)); }
    if (n.type === "PrivateIdentifier") return priv(n);
    if (n.type === "Identifier") return word(n);
    return literal(n);
  }
  function literal(n) {
    if (n.regex) return node(`Regex ${esc(n.regex.pattern)}${n.regex.flags && " " + n.regex.flags}`, n.start, n.end);
    if (n.bigint !== undefined) return node(`BigInt ${raw(n)}`, n.start, n.end);
    if (typeof n.value === "string") return str(n);
    if (typeof n.value === "number") return node(`Number ${raw(n)}`, n.start, n.end);
    if (n.value === null) return node("Null", n.start, n.end);
    return node(`Bool ${raw(n)}`, n.start, n.end);
  }
  function pattern(n) {
    switch (n.type) {
      case "Identifier": return binding(n);
      case "ArrayPattern": return node(`ArrayPat ${n.elements.length}`, n.start, n.end, list(n.elements.filter((x) => x), pattern));
      case "ObjectPattern": return node("ObjectPat", n.start, n.end, list(n.properties, (p) => {
        if (p.type === "RestElement") return pattern(p);
        if (p.shorthand) return node("AssignPatProp", p.start, p.end, binding(p.key), p.value.type === "AssignmentPattern" ? expr(p.value.right) : "");
        return node("KeyValuePatProp", p.start, p.end, key(p.key, p.computed), pattern(p.value));
      }));
      case "AssignmentPattern": return node("AssignPat", n.start, n.end, pattern(n.left), expr(n.right));
      case "RestElement": return node("RestPat", n.start, n.end, pattern(n.argument));
      default: return node("ExprPat", n.start, n.end, expr(n));
    }
  }
  const targets = { MemberExpression: 1, ParenthesizedExpression: 1 };
  // where a pattern is no child of the sort of patterns, the outline has its kind alone
  const bare = (line) => line.replace(/^\((\w+)( [^ ()]+)*? (\d+\.\.\d+)/, "($1 $3");
  function target(n) { return targets[n.type] ? expr(n) : n.type === "ArrayPattern" ? bare(pattern(n)) : pattern(n); }
  const param = (n) => node("Param", n.start, n.end, pattern(n));
  const flags = (n) => (n.async ? "async " : "") + (n.generator ? "*" : "");
  const kindOf = (kind, ...words) => [kind, ...words.filter((x) => x)].join(" ");
  function fn(n, start, end) { return node("Function", start, end, list(n.params, param), body(n.body)); }
  function body(n) { return node("BlockStmt", n.start, n.end, list(n.body, stmt)); }
  function args(xs) { return list(xs, (x) => x.type === "SpreadElement" ? node("ExprOrSpread", x.start, x.end, expr(x.argument)) : node("ExprOrSpread", x.start, x.end, expr(x))); }
  function chains(n) { return (n.type === "MemberExpression" || n.type === "CallExpression") && (n.optional || chains(n.type === "CallExpression" ? n.callee : n.object)); }
  function member(n) {
    if (n.computed) { const a = before(n.property.start), b = after(n.property.end); return node("ComputedPropName", a.start, b.end, expr(n.property)); }
    return n.property.type === "PrivateIdentifier" ? priv(n.property) : word(n.property);
  }
  function callee(n) { return n.type === "Super" ? node("Super", n.start, n.end) : expr(n); }
  function klass(n, start) {
    const members = [];
    for (const m of n.body.body) members.push([m.start, m.end, memberOf(m)]);
    for (const t of tokens) if (t.start > n.body.start && t.end < n.body.end && t.type.label === ";" && !n.body.body.some((m) => m.start <= t.start && t.end <= m.end)) members.push([t.start, t.end, node("EmptyStmt", t.start, t.end)]);
    members.sort((a, b) => a[0] - b[0]);
    return node("Class", start, n.end, n.superClass ? expr(n.superClass) : "", members.map((m) => m[2]).join(" "));
  }
  function memberOf(m) {
    if (m.type === "StaticBlock") { const open = tokens.find((t) => t.start >= m.start && t.type.label === "{"); return node("StaticBlock", m.start, m.end, node("BlockStmt", open.start, m.end, list(m.body, stmt))); }
    if (m.type === "PropertyDefinition") return node(m.key.type === "PrivateIdentifier" ? "PrivateProp" : "ClassProp", m.start, m.end, key(m.key, m.computed), opt(m.value, expr));
    if (m.kind === "constructor") return node("Constructor", m.start, m.end, key(m.key, m.computed), list(m.value.params, param), body(m.value.body));
    return node(m.key.type === "PrivateIdentifier" ? "PrivateMethod" : "ClassMethod", m.start, m.end, key(m.key, m.computed), fn(m.value, m.start, m.end));
  }
  function expr(n) {
    const at = (kind, ...parts) => node(kind, n.start, n.end, ...parts);
    switch (n.type) {
      case "ThisExpression": return at("ThisExpr");
      case "Identifier": return ident(n);
      case "PrivateIdentifier": return priv(n);
      case "Literal": return literal(n);
      case "ArrayExpression": return at(`ArrayLit ${n.elements.length}`, args(n.elements.filter((x) => x)));
      case "ObjectExpression": return at("ObjectLit", list(n.properties, prop));
      case "FunctionExpression": return at(kindOf("FnExpr", n.async && "async", n.generator && "*"), opt(n.id, ident), fn(n, n.start, n.end));
      case "ClassExpression": return at("ClassExpr", opt(n.id, ident), klass(n, n.start));
      case "UnaryExpression": return at(`UnaryExpr ${n.operator}`, expr(n.argument));
      case "UpdateExpression": return at(`UpdateExpr ${n.prefix ? n.operator + "_" : "_" + n.operator}`, expr(n.argument));
      case "BinaryExpression": case "LogicalExpression": return at(`BinExpr ${n.operator}`, expr(n.left), expr(n.right));
      case "AssignmentExpression": return at(`AssignExpr ${n.operator}`, target(n.left), expr(n.right));
      case "ConditionalExpression": return at("CondExpr", expr(n.test), expr(n.consequent), expr(n.alternate));
      case "ChainExpression": return expr(n.expression);
      case "MemberExpression": {
        if (n.object.type === "Super") return at("SuperPropExpr", node("Super", n.object.start, n.object.end), member(n));
        const inner = at("MemberExpr", expr(n.object), member(n));
        return chains(n) ? at(`OptChainExpr ${n.optional ? "?." : "."}`, inner) : inner;
      }
      case "CallExpression": {
        if (chains(n)) return at(`OptChainExpr ${n.optional ? "?." : "."}`, at("OptCall", expr(n.callee), args(n.arguments)));
        return at("CallExpr", callee(n.callee), args(n.arguments));
      }
      case "ImportExpression": return at("CallExpr", node("Import", n.start, n.start + 6), args([n.source]));
      case "NewExpression": return at("NewExpr", expr(n.callee), args(n.arguments));
      case "SequenceExpression": return at("SeqExpr", list(n.expressions, expr));
      case "TemplateLiteral": return template(n);
      case "TaggedTemplateExpression": return at("TaggedTpl", expr(n.tag), template(n.quasi));
      case "ArrowFunctionExpression": return at(kindOf("ArrowExpr", n.async && "async"), list(n.params, pattern), n.body.type === "BlockStatement" ? body(n.body) : expr(n.body));
      case "YieldExpression": return at(kindOf("YieldExpr", n.delegate && "*"), opt(n.argument, expr));
      case "MetaProperty": return at(`MetaPropExpr ${n.meta.name}.${n.property.name}`);
      case "AwaitExpression": return at("AwaitExpr", expr(n.argument));
      case "ParenthesizedExpression": return at("ParenExpr", expr(n.expression));
    }
    throw new Error("expression " + n.type);
  }
  function template(n) {
    let parts = [];
    n.quasis.forEach((q, i) => { parts.push(node(kindOf("TplElement", esc(raw(q))), q.start, q.end)); if (n.expressions[i]) parts.push(expr(n.expressions[i])); });
    return node("Tpl", n.start, n.end, parts.join(" "));
  }
  function prop(p) {
    const at = (kind, ...parts) => node(kind, p.start, p.end, ...parts);
    if (p.type === "SpreadElement") return at("SpreadElement", expr(p.argument));
    if (p.shorthand) return ident(p.key);
    const k = key(p.key, p.computed);
    if (p.kind === "get") return at("GetterProp", k, body(p.value.body));
    if (p.kind === "set") return at("SetterProp", k, pattern(p.value.params[0]), body(p.value.body));
    if (p.method) return at("MethodProp", k, fn(p.value, p.start, p.end));
    return at("KeyValueProp", k, expr(p.value));
  }
  const name = (n) => (n.type === "Literal" ? str(n) : ident(n));
  function varDecl(n) { return node(`VarDecl ${n.kind}`, n.start, n.end, list(n.declarations, (d) => node("VarDeclarator", d.start, d.end, pattern(d.id), opt(d.init, expr)))); }
  const head = (n) => (n.type === "VariableDeclaration" ? bare(stmt(n)) : pattern(n));
  function stmt(n) {
    const at = (kind, ...parts) => node(kind, n.start, n.end, ...parts);
    switch (n.type) {
      case "BlockStatement": return body(n);
      case "EmptyStatement": return at("EmptyStmt");
      case "DebuggerStatement": return at("DebuggerStmt");
      case "WithStatement": return at("WithStmt", expr(n.object), stmt(n.body));
      case "ReturnStatement": return at("ReturnStmt", opt(n.argument, expr));
      case "LabeledStatement": return at("LabeledStmt", ident(n.label), stmt(n.body));
      case "BreakStatement": return at("BreakStmt", opt(n.label, ident));
      case "ContinueStatement": return at("ContinueStmt", opt(n.label, ident));
      case "IfStatement": return at("IfStmt", expr(n.test), stmt(n.consequent), opt(n.alternate, stmt));
      case "SwitchStatement": return at("SwitchStmt", expr(n.discriminant), list(n.cases, (c) => node("SwitchCase", c.start, c.end, opt(c.test, expr), list(c.consequent, stmt))));
      case "ThrowStatement": return at("ThrowStmt", expr(n.argument));
      case "TryStatement": return at("TryStmt", body(n.block), opt(n.handler, (h) => node("CatchClause", h.start, h.end, opt(h.param, pattern), body(h.body))), opt(n.finalizer, body));
      case "WhileStatement": return at("WhileStmt", expr(n.test), stmt(n.body));
      case "DoWhileStatement": return at("DoWhileStmt", stmt(n.body), expr(n.test));
      case "ForStatement": return at("ForStmt", opt(n.init, (x) => x.type === "VariableDeclaration" ? bare(stmt(x)) : expr(x)), opt(n.test, expr), opt(n.update, expr), stmt(n.body));
      case "ForInStatement": return at("ForInStmt", head(n.left), expr(n.right), stmt(n.body));
      case "ForOfStatement": return at(kindOf("ForOfStmt", n.await && "await"), head(n.left), expr(n.right), stmt(n.body));
      case "ClassDeclaration": return at("ClassDecl", ident(n.id), klass(n, n.start));
      case "FunctionDeclaration": return at(kindOf("FnDecl", n.async && "async", n.generator && "*"), ident(n.id), fn(n, n.start, n.end));
      case "VariableDeclaration": return varDecl(n);
      case "ExpressionStatement": return at("ExprStmt", expr(n.expression));
      case "ImportDeclaration": return at("ImportDecl", list(n.specifiers, (s) => {
        const here = (kind, ...parts) => node(kind, s.start, s.end, ...parts);
        if (s.type === "ImportDefaultSpecifier") return here("ImportDefaultSpecifier", ident(s.local));
        if (s.type === "ImportNamespaceSpecifier") return here("ImportStarAsSpecifier", ident(s.local));
        return here("ImportNamedSpecifier", ident(s.local), s.imported.start === s.local.start ? "" : name(s.imported));
      }), str(n.source));
      case "ExportNamedDeclaration":
        if (n.declaration) return at("ExportDecl", bare(stmt(n.declaration)));
        return at("NamedExport", list(n.specifiers, (s) => node("ExportNamedSpecifier", s.start, s.end, name(s.local), s.exported.start === s.local.start ? "" : name(s.exported))), opt(n.source, str));
      case "ExportDefaultDeclaration": {
        const d = n.declaration;
        if (d.type === "FunctionDeclaration") return at("ExportDefaultDecl", node("FnExpr", d.start, d.end, opt(d.id, ident), fn(d, d.start, d.end)));
        if (d.type === "ClassDeclaration") return at("ExportDefaultDecl", node("ClassExpr", d.start, d.end, opt(d.id, ident), klass(d, d.start)));
        return at("ExportDefaultExpr", expr(d));
      }
      case "ExportAllDeclaration":
        if (n.exported) { const star = after(n.start + 6); return at("NamedExport", node("ExportNamespaceSpecifier", star.start, n.exported.end, name(n.exported)), str(n.source)); }
        return at("ExportAll", str(n.source));
    }
    throw new Error("statement " + n.type);
  }
  const line = /^#!([^\n\r\u2028\u2029]*)/.exec(text);
  const first = tokens.find((t) => t.end > t.start), lo = line || !first ? 0 : first.start;
  const hi = program.body.length ? program.body[program.body.length - 1].end : line ? line[0].length : 0;
  return node(kindOf(module ? "Module" : "Script", line && esc(line[1])), lo, hi, list(program.body, stmt));
}
// The tree that acorn reads, or its fault.
function answer(text, module) {
  try {
    return { tree: tree(text, module) };
  } catch (e) {
    if (!(e instanceof SyntaxError)) throw e;
    return { fault: e.message, at: Buffer.byteLength(text.slice(0, e.pos)) + 1 };
  }
}

// What acorn says of a text that no tree spells.
const grammar = [/^Unexpected token/, /^'import' and 'export'/, /^Assigning to rvalue/, /^The keyword '(?!.*strict)/, /^Comma is not permitted/, /^Shorthand property/, /^Unexpected keyword/,
  /^Cannot use keyword 'await'/, /^Cannot use 'import.meta'/, /^Parenthesized pattern/, /^Logical expressions and/, /^setter should/, /^Cannot use '(yield|await)' as identifier/, /^Optional chaining/,
  /^for-(in|of) loop variable/, /^getter should/, /^Setter cannot/, /^Object pattern can't/, /^Bad escape/, /^Cannot use new with/, /^Rest elements/, /^Cannot use await in class/, /^Private identifier can only/, /^Unexpected character/,
  /^Unterminated template/, /^The only valid meta/, /^Trailing comma is not/, /^Only '='/, /^Illegal newline/, /^Multiple default/, /^Missing catch/, /^The left-hand side of a for-of/, /^Binding rvalue/, /^A string literal cannot/, /^Await expression cannot be/];
const left = [], modes = ["both", "script", "module"];
// the texts that have a row in a file, with how each is read
function byHand(name) {
  const found = new Set();
  let how = [];
  for (const line of fs.readFileSync(path.join(process.argv[3], name), "utf8").split("\n")) {
    if (line.startsWith("@ ")) how = line.startsWith("@ both") ? ["script", "module"] : [line.split(" ")[1]];
    else if (line.includes(" → ")) for (const m of how) found.add(`${m}\t${line.split(" → ")[0]}`);
  }
  return found;
}
const departs = byHand("departures.rows"), faulty = byHand("faults.rows");
// rows by their settings
const sets = (...words) => Object.fromEntries(words.flatMap((w) => modes.map((m) => [`${m} ${w}`, []])));
const trees = sets("tree"), refused = sets("refused place", "refused");
const seen = new Set();
// an unexpected token is told with its place
const isToken = (a) => /^Unexpected token/.test(a.fault);
const told = (a) => (isToken(a) ? ` → ${a.at}` : " → refused"), how = (a) => (isToken(a) ? "refused place" : "refused");
const isRefused = (a) => a.fault && grammar.some((g) => g.test(a.fault));
// adds the row of a text as a script or as a module
function tell(a, k, shown) {
  if (departs.has(`${k}\t${shown}`)) return;
  if (a.tree) trees[`${k} tree`].push(`${shown} → ${a.tree}`);
  else if (faulty.has(`${k}\t${shown}`)) return;
  else if (isRefused(a)) refused[`${k} ${how(a)}`].push(shown + told(a));
  else left.push(`${k}\t${shown}\t${a.fault}`);
}
for (const line of fs.readFileSync(path.join(__dirname, "texts.txt"), "utf8").split("\n")) {
  if (line.startsWith("# ")) {
    for (const x of [trees, refused]) for (const k in x) x[k].push(line);
    continue;
  }
  if (line === "" || seen.has(line)) continue; seen.add(line);
  const [s, m] = [false, true].map((x) => answer(unesc(line), x));
  const shown = /^(#|@)( |$)/.test(line) || line[0] === "→" || line.startsWith("  ") ? line.replace(/^./, (c) => "«U+" + c.codePointAt(0).toString(16) + "»") : line.trim() === "" ? "«SP»" : line;
  const hand = ["script", "module"].some((k) => departs.has(`${k}\t${shown}`) || faulty.has(`${k}\t${shown}`));
  const departing = ["script", "module"].some((k) => departs.has(`${k}\t${shown}`));
  if (!departing && s.tree && m.tree && s.tree.replace("(Script", "(Module") === m.tree) { trees["both tree"].push(`${shown} → ${s.tree}`); continue; }
  if (!hand && isRefused(s) && isRefused(m) && told(s) === told(m)) { refused[`both ${how(s)}`].push(shown + told(s)); continue; }
  tell(s, "script", shown);
  tell(m, "module", shown);
}
const tidy = (xs) => xs.filter((x, i) => !(x.startsWith("# ") && (i + 1 === xs.length || xs[i + 1].startsWith("# "))));
const file = (head, sets) => head + Object.keys(sets).filter((k) => tidy(sets[k]).length).map((k) => `\n@ ${k}\n${tidy(sets[k]).join("\n")}\n`).join("");
fs.writeFileSync(path.join(process.argv[3], "trees.rows"), file("# Made by tools/rows/by_acorn.js: texts and their trees, each as acorn reads it: as a script and as a module alike, as a script, as a module.\n", trees));
fs.writeFileSync(path.join(process.argv[3], "refused.rows"), file("# Made by tools/rows/by_acorn.js: texts that acorn refuses for their grammar: as a script and as a module, as a script, as a module. Where it\n# finds a token unexpected, the row has that token's place.\n", refused));
console.log(left.join("\n"));
const count = (x) => Object.values(x).flat().filter((l) => !l.startsWith("# ")).length;
console.log(`${count(trees)} trees, ${count(refused)} refused, ${left.length} by hand`);

"""Tests what `tools/tree` writes from its table and in which parts of files, and where `tools/where` finds a kind of node."""
import functools
import importlib
import importlib.machinery
import importlib.util
import os
import re
import sys

ROOT = os.path.dirname(os.path.dirname(os.path.realpath(__file__)))
GRAMMAR = "crates/grammar_spec/specs/Grammar.antt"
SHAPE = "crates/grammar_spec/specs/Tokens/Shape.antt"
READ = "crates/grammar_laws/proofs/complete_base/Trees.antt"
WITHIN = "crates/grammar_laws/proofs/complete_rules/Within.antt"
CALLED = "crates/grammar_laws/proofs/complete/Sizes.antt"
OPENER = "crates/grammar_laws/proofs/complete_rules/Starts.antt"
LEAST = "crates/grammar_laws/proofs/complete_base/Cuts.antt"
DECLARED = "crates/judge_scopes_spec/specs/Declared.antt"
LAYOUT = "crates/print_layout_spec/specs/Layout.antt"
EDGES = "crates/print_gaps/specs/Edges.antt"

# What a made-up kind says in the definitions by hand that others follow: a line behind one that stands there.
MADE_UP = (
    (GRAMMAR, r"  Produces \(await_expr .*", "  Produces (made_up_expr_kind s a) c ts r = MadeUp c s (child a (λ y. Produces a y)) ts r"),
    (GRAMMAR, r"(use Rattle\.grammar_spec\.specs\.Expressions\.\{.*)\}", "use Rattle.grammar_spec.specs.Expressions.{MadeUp}"),
    (READ, r"  Covered \(await_expr .*", "  Covered (made_up_expr_kind s a) = Covered a"),
    (READ, r"  reach \(await_expr .*", "  reach (made_up_expr_kind s a) = suc (reach a)"),
    (WITHIN, r"  Within G \(throw_stmt .*", "  Within G (made_up_stmt_kind s a) = G a"),
    (CALLED, r"is_called \(throw_stmt .*", "is_called (made_up_stmt_kind s a) = true"),
    (OPENER, r"opener \(await_expr .*", "opener (made_up_expr_kind s a) = true"),
    (LEAST, r"least \(expr_pat .*", "least (made_up_program_kind s a) = 0"),
    (SHAPE, r"level \(await_expr .*", "level (made_up_expr_kind s a) = unary_level"),
    (SHAPE, r"is_statement \(throw_stmt .*", "is_statement (made_up_stmt_kind s a) = true"),
    (EDGES, r"  starts_with_word \(cond_expr .*", "  starts_with_word (made_up_expr_kind span arg) = starts_with_word arg"),
    (EDGES, r"  ends_with_word \(assign_pat .*", "  ends_with_word (made_up_pat_kind span arg) = ends_with_word arg"),
    (EDGES, r"  starts_with_regexp \(cond_expr .*", "  starts_with_regexp (made_up_expr_kind span arg) = starts_with_regexp arg"),
    (LAYOUT, r"  laid look s \(await_expr .*", "  laid look s (made_up_expr_kind span arg) = start span · laid look Alone arg"),
    (DECLARED, r"  bound_names \(array_pat .*", "  bound_names (made_up_pat_kind s ps) = all_bound_names ps"),
    (DECLARED, r"  var_names top \(with_stmt .*", "  var_names top (made_up_stmt_kind s b) = var_names false b"),
)
# The writers that read them.
READERS = ("follows", "productions", "layouts")
# What a file with parts is to import then.
IMPORTS = (
    ("crates/grammar_laws/proofs/complete/Nests.antt", "made_up_expr_kind"),
    ("crates/grammar_laws/proofs/slash/Braces.antt", "made_up_walk"),
    ("crates/judge_scopes_spec/proofs/Parts.antt", "made_up_lit"),
)
# Of a file before it is laid out these may be other: what is used, commas and braces.
USES = re.compile(r"(?ms)^(?:pub )?(?:ghost )?use .*?;$")
LAID = re.compile(r"\w+|[^\w\s,{}]")

# What has no need of a kind that is made up: a walk comes to those literals alone that stand elsewhere as well, the fields of what
# is made up stand in the table's order, and a trait's own functions name some kinds.
APART = {("visit", "crates/tree_visit/src/literals.rt"), ("walked", "crates/tree_visit/specs/Walk.antt"), ("repeated", "crates/print_nodes/src/print.rt")}

# A file with a definition, and what a part of it writes there.
HELD = "one : Tree → ℕ\n  one (a x) = 1\n  one (b x) = 2\n\n  one_more : Tree → ℕ\n  one_more (a x) = 3\n"


@functools.cache
def module(name):
    """A module of `tools/tree`."""
    if f"{ROOT}/tools/tree" not in sys.path:
        sys.path.append(f"{ROOT}/tools/tree")
    return importlib.import_module(name)


def words(text):
    """What a file of code says, however it is laid out."""
    return LAID.findall(USES.sub("", text))


def stands(name, text):
    """A test that a file that is written stands there, as it is written."""
    if not os.path.exists(f"{ROOT}/{name}"):
        return "no such file"
    found = module("clauses").read(name)
    is_same = found == text if name.endswith(".antt") else words(found) == words(text)
    return None if is_same else "another text is written: run tools/tree/generate.py, or tools/tree/check"
    yield


def model(table, enum):
    """The fields of a struct among an enum's variants, or else of one that holds an expression."""
    held = [module("table").inside(t, "Box") or t for _, t in table.variants_of[enum]]
    structs = [table.fields_of[it] for it in held if it in table.fields_of]
    return next((it for it in structs if it), structs[0] if structs else [("expr", "Expr")])


def made_up(table):
    """The table with one more variant of each enum, whose struct is made up."""
    text = (module("table").HERE / "tree.table").read_text()
    for enum, _ in table.enums:
        own = {"ExprKind": [("arg", "Expr")], "StmtKind": [("body", "Stmt")]}.get(enum) or model(table, enum)
        fields = ", ".join(f"{f}: {t}" for f, t in own)
        text = re.sub(
            rf"(?m)^(enum {enum} \{{.*) \}} -- (.*)$",
            rf"\1, MadeUp(MadeUp{enum}) }} -- \2\nstruct MadeUp{enum} {{ {fields} }} -- What is made up.",
            text,
        )
    return module("table").Table(text)


def with_made_up(file):
    """A file that others follow, with a clause of what is made up."""
    text = module("clauses").read(file)
    for own, behind, line in MADE_UP:
        if own == file:
            text = re.sub(rf"(?m)^{behind}$", lambda it: f"{it[0]}\n{line}", text, count=1)
    return text


@functools.cache
def written_more(writer):
    """What a writer writes of the table with what is made up: the lines of its files, and those of its parts by their titles."""
    more, readers = made_up(module("table").Table()), [module(it) for it in READERS]
    try:
        for it in readers:
            it.read = with_made_up
        files = writer.files(more) if hasattr(writer, "files") else {}
        parts = writer.parts(more) if hasattr(writer, "parts") else []
    finally:
        for it in readers:
            it.read = module("clauses").read
    return files, parts


def grows(writer, table, name):
    """A test that a writer names what is made up where it names a kind: in this file, or in each of its parts there."""
    kinds = [tree for tree, _, _ in table.trees()] + [struct for struct, _ in table.structs]
    kind = re.compile(rf"\b(?:{'|'.join(kinds)})(?:Of)?\b|\w+Of::\w+\(")
    files, parts = written_more(writer)
    texts = {"it": files[name]} if name in files else {}
    texts.update((f"`{part.title}`", "\n".join(part.lines)) for part in parts if part.file == name)
    lacking = [title for title, text in texts.items() if kind.search(text) and not re.search(r"MadeUp|made_up", text)]
    return f"{', '.join(lacking)} names no kind that is made up" if lacking else None
    yield


def imports_made_up(table):
    """A test that a file with parts imports what these name."""
    generate = module("generate")
    parts = [part for writer in generate.PARTIAL for part in written_more(writer)[1]]
    more = made_up(table)
    for name, constructor in IMPORTS:
        text = generate.with_own(name, [part for part in parts if part.file == name], more)
        if not re.search(rf"(?m)^use .*[{{ ]{constructor}[,}}]", text):
            return f"{name} doesn't import {constructor}"
    return None
    yield


def put(text, wanted):
    """A test of what a part makes of a file, or of why it doesn't."""
    part = module("clauses").definition("a file", "one", ["(a x) = 1", "(c x) = 4"], ["_ = 0"])
    try:
        found = part.put(text)
    except SystemExit as wrong:
        found = str(wrong)
    return None if found == wanted else f"expected {wanted!r}, got {found!r}"
    yield


def where(tool, path, text, wanted):
    """A test of which kinds stand on how many lines."""
    found = tool.Kinds(module("table").Table()).named(path, text)
    return None if found == wanted else f"expected {wanted!r}, got {found!r}"
    yield


def tells_more(file, before, line, wanted, count):
    """A test of how often what code says several times is written, where this line more stands in what it follows."""
    repeated = module("repeated")
    try:
        repeated.read = lambda name: module("clauses").read(name).replace(before, line + before, 1 if name == file else 0)
        found = sum(own.strip() == wanted for part in repeated.parts(None) for own in part.lines)
    finally:
        repeated.read = module("clauses").read
    return None if found == count else f"expected {count} of {wanted!r}, got {found}"
    yield


WRITTEN = HELD.replace("  one (a x) = 1\n  one (b x) = 2\n", "  one (a x) = 1\n  one (c x) = 4\n  one _ = 0\n")
PUTS = (
    ("a definition", HELD, WRITTEN),
    ("what it wrote before", WRITTEN, WRITTEN),
    ("none", HELD.replace("one (", "other ("), "tools/tree: a file: `one` stands in 0 runs, and not in one"),
    ("two", HELD + HELD, "tools/tree: a file: `one` stands in 2 runs, and not in one"),
)
# A function more of a trait, with its call for each holder, and a field more of the rules.
MORE = (
    ("crates/print_writers/src/text_writer.rt", "    /// Writes a blank.\n", "    fn write_more(&mut self, s: &str) -> bool;\n\n", "(**self).write_more(s)", 2),
    ("crates/print_nodes/src/print.rt", "    /// Whether it declares variables.\n", "    fn is_more(&self) -> bool;\n\n", "self.part.is_more()", 1),
    ("crates/parse_recursion/src/rules.rt", "    pub body: B,\n", "    pub more: M,\n", "more: parse_more::<T>,", 6),
)
TREE = "use Rattle.tree_spec.specs.Tree.{Tree, while_stmt}\n"
NODES = "use tree_nodes::{\n    ExprKindOf, WhileStmt,\n};\n"
FOUND = (
    ("crates/a/specs/A.antt", f"{TREE}f (while_stmt s t b) = while_stmt s\nf _ = 0\n", {"WhileStmt": 1}),
    ("crates/a/specs/A.antt", f"{TREE}-- while_stmt\nf (throw_stmt s a) = x.while_stmt\n", {}),
    ("crates/a/src/a.rt", f"{NODES}fn f(x: &WhileStmt) {{}} // WhileStmt\n    ExprKindOf::Await(x) => 1,\n", {"WhileStmt": 1, "AwaitExpr": 1}),
    ("crates/a/src/a.rt", "use other::WhileStmt;\nfn f(x: &WhileStmt) {}\n", {}),
)


def tests(_paths):
    """The tests of the tools, each with its name."""
    generate = module("generate")
    loader = importlib.machinery.SourceFileLoader("where", f"{ROOT}/tools/where")
    tool = importlib.util.module_from_spec(importlib.util.spec_from_loader("where", loader))
    loader.exec_module(tool)
    table = module("table").Table()
    written = {**generate.files(table), **generate.with_parts(table)}
    found = [(f"tools/tree: {name}", stands(name, text)) for name, text in written.items()]
    for writer in {*generate.WRITERS, *generate.PARTIAL}:
        files = {*(writer.files(table) if hasattr(writer, "files") else ()), *(it.file for it in (writer.parts(table) if hasattr(writer, "parts") else ()))}
        found += [(f"tools/tree/{writer.__name__}.py: a kind that is made up, {name}", grows(writer, table, name)) for name in sorted(files) if (writer.__name__, name) not in APART]
    found.append(("tools/tree: imports of a kind that is made up", imports_made_up(table)))
    found += [(f"tools/tree/repeated.py: {it[0]}, more", tells_more(*it)) for it in MORE]
    found += [(f"tools/tree: a part, {name}", put(text, wanted)) for name, text, wanted in PUTS]
    return found + [(f"tools/where: {path}, {text!r}", where(tool, path, text, wanted)) for path, text, wanted in FOUND]

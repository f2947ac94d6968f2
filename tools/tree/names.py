"""Writes from the table the lists of all types of the tree: those that a crate exports, the names of kinds, and what holds of
each printed node alone."""

from clauses import Part
from table import inside

AST = "crates/ecma_ast/src/lib.rt"
FRONT = "crates/ecma_front/src/ast.rt"
ALONE = "crates/ecma_codegen/src/alone.rt"
KINDS = "crates/tree_outline/src/names.rt"
WORDS = "crates/tree_outline/src/words.rt"

# Types of `tree_nodes` that the table doesn't have, but the code of `knot.rt` and what it makes of the sorts.
KNOT = ["Child", "Expr", "ExprBox", "ExprTag", "Part", "PartKind", "Pat", "PatBox", "PatTag", "Program", "Stmt", "StmtBox", "StmtTag"]

# What has its end when it is printed alone, or is none that is printed by itself.
ENDED = ["Stmt", "ModuleDecl", "ModuleItem"]
INNER = ["DefaultDecl"]

# A node with statements of its own is printed by what prints a statement.
ITEMS = ["BlockStmt"]

# The functions that have a part of the names: a name, the modules of the table that it has, and what it is about.
GROUPS = [
    ("of_program", ["programs"], "programs and declarations of modules"),
    ("of_statement", ["statements", "declarations"], "statements"),
    ("of_class", ["functions"], "functions, classes and keys"),
    ("of_expression", ["expressions"], "expressions"),
    ("of_part", ["objects", "literals", "patterns"], "elements, properties, literals and patterns"),
]

# Kinds that a group has where the table has them in the one before.
MOVED = {"ExprOrSpread": "of_part", "SpreadElement": "of_part"}

# Variants of which `words.rt` tells more than the name, and the one that the last arm is for.
SPELLED = {
    "ExprKind": ["Array", "Fn", "Unary", "Update", "Bin", "Assign", "Ident", "Lit", "Arrow", "Yield", "MetaProp", "PrivateName", "OptChain", "Invalid"],
    "StmtKind": ["ForOf", "Decl", "Expr"],
}

# Kinds without a struct.
LAST = ["ExprPat", "InvalidPat", "InvalidTarget"]


def own(table, name):
    """The names of a type of the table: its generic one comes beside its own."""
    return [name, name + "Of"] if name in table.fields_of.keys() | table.variants_of.keys() and table.is_generic(name) else [name]


def exported(table):
    names = [n for _, name in table.order for n in own(table, name)]
    return ["pub use tree_nodes::%s;" % name for name in sorted(names + KNOT)]


def alone(table):
    """The types of nodes with no end of their own: the generic name where there is one."""
    names = [own(table, name)[-1] for what, name in table.order if what != "words" and name not in ENDED + INNER]
    return sorted(names + ["Expr", "Pat", "Program"])


def impls(table):
    out = []
    for name in alone(table):
        bound = "PrintItem" if name[: -len("Of")] in ITEMS else "PrintPart"
        out += ["impl<T: %s> WithoutEnd for %s<T> {}" % (bound, name) if name.endswith("Of") else "impl WithoutEnd for %s {}" % name, ""]
    return out[:-1]


def uses(table):
    names = alone(table) + [own(table, name)[-1] for name in ENDED] + ["Child", "Part", "PartKind"]
    return ["use tree_nodes::%s;" % name for name in sorted(names)]


def named(table):
    """The name of each kind, by a function for each group of kinds, which asks the next one."""
    out = "//! The names of kinds of nodes.\n\nuse tree_visit::Kind;\n\n/// The name of a kind: that of its struct.\n"
    out += "pub fn kind_name(kind: Kind) -> &'static str {\n    %s(kind)\n}\n" % GROUPS[0][0]
    group_of = {module: group for group, modules, _ in GROUPS for module in modules}
    for at, (group, _, about) in enumerate(GROUPS):
        names = [n for n, _ in table.structs if MOVED.get(n, group_of[table.module_of[n]]) == group]
        last = at + 1 == len(GROUPS)
        names += LAST[:-1] if last else []
        rest = '"%s"' % LAST[-1] if last else "%s(kind)" % GROUPS[at + 1][0]
        out += "\n/// The name of a kind among %s.\nfn %s(kind: Kind) -> &'static str {\n    match kind {\n" % (about, group)
        out += "".join('        Kind::%s => "%s",\n' % (n, n) for n in names)
        out += "        _ => %s,\n    }\n}\n" % rest
    return out


def arms(table, enum):
    """The arms for variants that spell nothing themselves."""
    variants = [(v, inside(t, "Box") or t) for v, t in table.variants_of[enum] if v not in SPELLED[enum]]
    return ['%s::%s(_) => "%s",' % (enum, v, t) for v, t in variants]


def files(table):
    return {KINDS: named(table)}


def parts(table):
    return [
        Part(AST, "tree_nodes", exported(table), begins="pub use tree_nodes::"),
        Part(FRONT, "tree_nodes", exported(table), begins="pub use tree_nodes::"),
        Part(ALONE, "tree_nodes", uses(table), begins="use tree_nodes::"),
        Part(ALONE, "WithoutEnd", impls(table), begins=r"impl(<T: Print\w+>)? WithoutEnd for "),
        *(Part(WORDS, enum, arms(table, enum), begins=r' *%s::\w+\(_\) => "' % enum) for enum in SPELLED),
    ]

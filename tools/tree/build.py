"""Writes functions that make a tree by hand, from the table."""

import re

from node_types import Nodes, inside, snake, use_line
from table import tree_name

CRATE = "crates/ecma_ast"

SORTS = [
    ("exprs", "Expr", "ExprKind", "expressions"),
    ("stmts", "Stmt", "StmtKind", "statements and declarations"),
    ("pats", "Pat", "PatKind", "patterns"),
]

BOXES = {"Child<T, ExprTag>": "ExprBox", "Child<T, StmtTag>": "StmtBox", "Child<T, PatTag>": "PatBox", "Of<T>": ""}

# What is used from which module, by what its name looks like.
GHOST = [
    ("Rattle.std.specs.Prelude", r"\b(All|IfOk)\b"),
    ("Rattle.base_token.specs.OperatorKinds", r"\b(\w+_op_kind)\b"),
    ("Rattle.tree_spec.specs.Places", r"\b(no_place)\b"),
    ("Rattle.tree_nodes.specs.Placed", r"\b(inner|in_expr|in_stmt|in_pat|holds_expr|holds_stmt|holds_pat)\b"),
    ("Rattle.tree_nodes.specs.Fits", r"\b(fits_\w+)\b"),
    ("Rattle.tree_nodes.specs.View", r"\b(view_\w+|\w+_word)\b"),
]


class Build:
    def __init__(self, table):
        self.table = table
        self.nodes = Nodes(table)

    def leaves(self, name, wrap):
        """The structs among the variants of an enum: how each is wrapped, and whether it stands in a box."""
        for v, t in self.table.variants_of[name]:
            held = inside(t, "Box") or t
            within = wrap % ("%s::%s(%%s)" % (name, v))
            if held in self.table.variants_of:
                yield from self.leaves(held, within)
            elif held in self.table.fields_of:
                yield held, within, held != t

    def type_of(self, text):
        rust = self.nodes.rust(text)
        for old, new in BOXES.items():
            rust = rust.replace(old, new)
        return rust

    def tree(self, sort, name, fields):
        tree = "invalid_pat" if (sort, name) == ("Pat", "Invalid") else tree_name(name)
        values = [self.nodes.view_of(t, f) for f, t in fields]
        values = "".join(" (%s)" % v if " " in v else " " + v for v in values)
        return tree, "%s no_place%s" % (tree, re.sub(r"\bf\b", "inner", values))

    def function(self, sort, name, wrap, boxed, trees):
        fields = self.table.fields_of[name]
        tree, made = self.tree(sort, name, fields)
        trees.add(tree)
        params = "".join(", %s: %s" % (f, self.type_of(t)) for f, t in fields)
        out = "    /// %s\n" % " ".join(self.table.doc_of[name])
        out += "    pub fn %s(&self%s) -> Result<%sBox, AllocError>\n" % ("invalid_pat" if tree == "invalid_pat" else snake(name), params, sort)
        for f, t in fields:
            fact = self.nodes.fits_of(t, f)
            if fact:
                fact = re.sub(r"\bf\b", "(λ p. p)", fact.replace("(f ", "("))
                out += "        requires %s { %s }\n" % (f, fact)
        out += "        ensures { IfOk result (λ c. c.part.value ≡ in_%s (%s)) }\n    {\n" % (sort.lower(), made)
        literal = "%s { span: DUMMY_SP%s }" % (name, "".join(", " + f for f, _ in fields))
        out += "        let node = %s;\n" % literal
        if boxed:
            out += "        let node = Box::new(self.alloc, node)?;\n"
        return out + "        self.%s(%s)\n    }\n\n" % (sort.lower(), wrap % "node")

    def module(self, sort, kind, what):
        trees, text = set(), ""
        for name, wrap, boxed in self.leaves(kind, "%s"):
            text += self.function(sort, name, wrap, boxed, trees)
        text = text.rstrip("\n") + "\n"
        head = "//! Makes %s.\n" % what
        head += "ghost use Rattle.std.specs.Prelude.{◌≡◌};\n"
        for module, pattern in GHOST:
            names = sorted(set(re.findall(pattern, "\n".join(re.findall(r"\{ .* \}$", text, re.M)))))
            if names:
                head += "ghost use %s.{%s};\n" % (module, ", ".join(names))
        clauses = "\n".join(re.findall(r"^        ensures .*$|^        requires .*$", text, re.M))
        trees |= set(re.findall(r"\b(trees_by|part_by|element_by|list)\b", clauses))
        head += "ghost use Rattle.tree_spec.specs.Tree.{%s};\n\n" % ", ".join(sorted(trees))
        code = re.sub(r"^        (ensures|requires) .*$|^ *///.*$", "", text, flags=re.M)
        words = set(re.findall(r"\b[A-Z]\w+\b", re.sub(r"::\w+", "", code)))
        own = {n for n in words if self.nodes.is_own(n) or n in self.table.words_of or n.endswith(("Box", "Kind"))} - {"Box"}
        head += "use crate::Build;\n"
        for crate, names in (("base_token", {"Atom", "StrValue"}), ("tree_nodes", own), ("base_token", {"AssignOp", "BinaryOp", "DUMMY_SP", "NumValue", "Span"})):
            names = sorted((names & words) | ({"DUMMY_SP"} & names))
            if names:
                head += use_line(crate, names)
        head += "use std::alloc::AllocError;\n"
        return head + "\nimpl Build {\n" + text + "}\n"


def files(table):
    build = Build(table)
    return {"%s/src/%s.rt" % (CRATE, m): build.module(sort, kind, what) for m, sort, kind, what in SORTS}

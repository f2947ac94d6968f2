"""Writes whether each struct and enum of the code's tree tells that it stands in a module, from the table."""

from nesting import WHAT
from node_types import inside, snake, use_line
from table import SORTS

SRC = "crates/judge_is_module/src"

# Modules of types below a statement; literals tell nothing, and what tells of programs is written by hand.
MODULES = ("statements", "declarations", "functions", "expressions", "objects", "patterns")

# What tells by itself, and what tells nothing whatever it holds.
TELLS = {"AwaitExpr"}
SILENT = {"Function", "ArrowExpr"}

# What the proof of a type cites.
USING = {"Tpl": "crate::proofs::Texts::no_text"}

# What stands below such a type alone.
UNSEEN = {"BlockStmtOrExpr"}

# What tells where a field of it is true.
AWAITS = {"ForOfStmt": "is_await", "UsingDecl": "is_await"}


class Goal:
    def __init__(self, table):
        self.table = table

    def is_silent(self, text):
        """Whether nothing of this type tells anything."""
        for outer in ("Box", "Option", "Vec", "Hole"):
            t = inside(text, outer)
            if t:
                return self.is_silent(t)
        if text in SORTS or text in TELLS or text in AWAITS:
            return False
        if text in SILENT:
            return True
        types = [t for _, t in self.table.fields_of.get(text, [])] + [t for _, t in self.table.variants_of.get(text, [])]
        return all(self.is_silent(t) for t in types if self.table.is_tree(t))

    def question(self, field, text):
        t = inside(text, "Vec")
        if t and inside(t, "Hole"):
            return "any_element(self.%s.as_slice())" % field
        return "self.%s.tells()" % field

    def struct_body(self, name):
        questions = ["self.%s" % AWAITS[name]] if name in AWAITS else []
        questions += [self.question(f, t) for f, t in self.table.fields_of[name] if not self.is_silent(t)]
        return [" || ".join(questions)]

    def enum_body(self, name, own):
        silent = ["%s::%s(_)" % (own, v) for v, t in self.table.variants_of[name] if self.is_silent(t)]
        arms = []
        for v, t in self.table.variants_of[name]:
            if t in TELLS:
                arms.append("    %s::%s(_) => true," % (own, v))
            elif not self.is_silent(t):
                arms.append("    %s::%s(x) => x.tells()," % (own, v))
        if silent:
            arms.append("    %s => false," % " | ".join(silent))
        return ["match self {"] + arms + ["}"]

    def module(self, module):
        table = self.table
        body, names, views, helpers = [], [], [], {"Tells"}
        for what, n in table.order:
            if what == "words" or table.module_of[n] != module or self.is_silent(n) or n in TELLS | UNSEEN:
                continue
            own = n + "Of"
            lines = self.struct_body(n) if what == "struct" else self.enum_body(n, own)
            if "any_element(" in "\n".join(lines):
                helpers.add("any_element")
            names.append(own)
            views.append("view_" + snake(n))
            body.append("impl<T: Tells> Tells for %s<T> {\n" % own)
            body.append("    ghost tree = { view_%s T.tree };\n\n" % snake(n))
            if n in USING:
                body.append("    #[tactic(auto, using(%s))]\n" % USING[n])
            body.append("    fn tells(&self) -> bool {\n%s    }\n}\n\n" % "".join("        %s\n" % line for line in lines))
        head = "//! What tells of a module in %s.\n" % WHAT[module]
        head += "ghost use Rattle.tree_nodes.specs.View.{%s};\n\n" % ", ".join(views)
        head += use_line("crate::parts", sorted(helpers, key=lambda n: (n[0].islower(), n)))
        head += use_line("tree_nodes", sorted(names))
        return head + "\n" + "".join(body).rstrip("\n") + "\n"


def files(table):
    goal = Goal(table)
    return {"%s/%s.rt" % (SRC, m): goal.module(m) for m in MODULES}

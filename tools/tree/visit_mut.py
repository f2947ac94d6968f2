"""Writes the walk that changes a tree in place, from the table."""

from nesting import WHAT
from node_types import inside, snake, use_line
from table import SORTS
from visit import Visit, bare

CRATE = "crates/tree_visit_mut"

# Hooks of a type, by what they are called with.
ENTERED = ["Function", "Class"]
LEFT = ["Function", "Class"]
CHANGED = ["Ident", "IdentName", "PrivateName", "Str", "Number", "BigInt", "TplElement"]
# The functions for what several structs hold. A call that is handed a type to go over costs ten times as much as one that isn't.
SHARED = {
    "Option<Expr>": "walk_value",
    "Vec<Stmt>": "walk_stmts",
    "Vec<Decorator>": "walk_decorators",
    "Vec<ExprOrSpread>": "walk_args",
    "Vec<Param>": "walk_params",
    "Vec<VarDeclarator>": "walk_declarators",
}
# The functions for the last of a struct's fields with the struct's own place: one call with two loans costs less than two calls.
LAST = {
    "Expr": "walk_expr_at",
    "Option<Expr>": "walk_value_at",
    "Stmt": "walk_stmt_at",
}
HELPERS = ["walk_all", "walk_elements", "walk_part", "walk_place", *SHARED.values(), *LAST.values()]


class VisitMut:
    def __init__(self, table):
        self.table = table
        self.visit = Visit(table)

    def dots(self, name):
        """The places of dots that it keeps."""
        return [(f, t) for f, t in self.table.fields_of[name] if bare(t) == "Span"]

    def is_opened(self, name):
        """Whether it is changed where it is met, and is no `WalkMut` of its own: that takes one call, or it is met as a variant
        of one enum alone. A call in an arm costs a quarter of an impl."""
        if name not in self.table.fields_of or name in CHANGED + ENTERED + LEFT:
            return False
        uses = [t for fields in self.table.fields_of.values() for _, t in fields if bare(t) == name]
        variants = [t for fields in self.table.variants_of.values() for _, t in fields if bare(t) == name]
        if any(t != name for t in uses + variants):
            return False
        return len(self.lines("x", name)) == 1 or not uses and len(variants) == 1

    def lines(self, place, name):
        """Changes what a struct holds, and its place."""
        fields = list(self.visit.fields(name))
        own = "by.span(&mut %s.span);" % place
        if fields and fields[-1][1] in LAST:
            f, t = fields.pop()
            own = "%s(&mut %s.%s, &mut %s.span, by);" % (LAST[t], place, f, place)
        lines = [line for f, t in fields for line in self.field_lines("%s.%s" % (place, f), t)] + [own]
        for f, t in self.dots(name):
            lines.append("by.span(&mut %s.%s);" % (place, f) if t == "Span" else "walk_place(&mut %s.%s, by);" % (place, f))
        return lines

    def met(self, place, name):
        """Changes a part where it stands."""
        return self.lines(place, name) if self.is_opened(name) else ["%s.walk_mut(by);" % place]

    def struct_lines(self, name):
        entered = ["by.enter_%s(self);" % snake(name)] if name in ENTERED else []
        return entered + self.lines("self", name) + self.end(name)

    def field_lines(self, field, text):
        """Changes what a field holds. Lists and parts that may be left out are no `WalkMut` of their own: an impl for a
        list of what is generic costs ten times as much wherever it is used."""
        items, part = inside(text, "Vec"), inside(text, "Option")
        lent = "&mut " + field if "." in field else field
        if text in SHARED:
            return ["%s(%s, by);" % (SHARED[text], lent)]
        if items:
            return ["%s(%s, by);" % ("walk_elements" if inside(items, "Hole") else "walk_all", lent)]
        if part and (part in SORTS or self.table.is_generic(part)):
            return ["walk_part(%s, by);" % lent]
        if part:
            return ["if let Some(part) = &mut %s {" % field] + ["    " + line for line in self.field_lines("part", part)] + ["}"]
        return self.met(field, bare(text))

    def end(self, name):
        if name in CHANGED:
            return ["by.word(Word::%s(self));" % name]
        return ["by.leave_%s(self);" % snake(name)] if name in LEFT else []

    def enum_lines(self, name):
        own = name + "Of" if self.table.is_generic(name) else name
        arms = []
        for v, t in self.table.variants_of[name]:
            lines = self.met("x", bare(t))
            if len(lines) == 1:
                arms.append("    %s::%s(x) => %s," % (own, v, lines[0].rstrip(";")))
            else:
                arms += ["    %s::%s(x) => {" % (own, v)] + ["        " + line for line in lines] + ["    }"]
        return ["match self {"] + arms + ["}"] + self.end(name)

    def impl(self, name, lines):
        generic = self.table.is_generic(name)
        fits = "λ x. fits_%s C.placed x" % snake(name) if generic else "λ _. Unit {0}"
        own = "impl<T, C: Change<T>> WalkMut<T, C> for %s" % (name + "Of<T>" if generic else name)
        head = "%s {\n    ghost fits = { %s };\n\n" % (own, fits)
        head += "    fn walk_mut(&mut self, by: &mut C) {\n"
        return head + "".join("        %s\n" % line for line in lines) + "    }\n}\n\n"

    def module(self, module):
        table = self.table
        body, names, fits = [], set(), []
        for what, n in table.order:
            if what == "words" or table.module_of[n] != module or self.is_opened(n):
                continue
            body.append(self.impl(n, self.struct_lines(n) if what == "struct" else self.enum_lines(n)))
            names.add(n + "Of" if table.is_generic(n) else n)
            if table.is_generic(n):
                fits.append("fits_" + snake(n))
        head = "//! Changes %s.\n" % WHAT[module]
        if fits:
            head += "ghost use Rattle.tree_nodes.specs.Fits.{%s};\n\n" % ", ".join(fits)
        text = "".join(body)
        used = ["Change", "WalkMut"] + [it for it in ("Word",) if it + "::" in text]
        helpers = [it for it in sorted(HELPERS) if it + "(" in text]
        head += use_line("crate::walk", used + helpers)
        head += use_line("tree_nodes", sorted(names))
        return head + "\n" + "".join(body).rstrip("\n") + "\n"


def files(table):
    visit = VisitMut(table)
    return {"%s/src/%s.rt" % (CRATE, m): visit.module(m) for m in table.modules}

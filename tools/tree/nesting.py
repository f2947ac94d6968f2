"""Writes how deep each struct and enum of the code's tree goes, from the table."""

from node_types import inside, snake, use_line

SRC = "crates/tree_nesting/src"

# Structs whose count is no plain one, with the count as it is written in `knot`'s words.
OWN = {
    "BinExpr": ["self.left.nesting().max(above(self.right.nesting()))"],
    "MemberExpr": ["self.obj.nesting().max(above(self.prop.nesting()))"],
    "CallExpr": ["self.callee.nesting().max(above(self.args.nesting()))"],
    "TaggedTpl": ["self.tag.nesting().max(above(self.tpl.nesting()))"],
    "OptCall": ["self.callee.nesting().max(above(self.args.nesting()))"],
    "OptChainExpr": ["self.base.nesting()"],
    "BindingIdent": ["1"],
    "IfStmt": [
        "let head = above(self.test.nesting().max(self.cons.nesting()));",
        "match &self.alt {",
        "    Some(alt) if alt.part.is_if() => alt.nesting().max(head),",
        "    Some(alt) => above(alt.nesting()).max(head),",
        "    None => head,",
        "}",
    ],
}

WHAT = {
    "programs": "scripts, modules, imports and exports (ECMA-262, 16.1 and 16.2)",
    "statements": "statements (ECMA-262, clause 14)",
    "declarations": "declarations (ECMA-262, 14.3, 15.2 and 15.7)",
    "functions": "functions, classes and keys (ECMA-262, clause 15)",
    "expressions": "expressions (ECMA-262, clause 13)",
    "objects": "properties of objects (ECMA-262, 13.2.5)",
    "literals": "literals (ECMA-262, 13.2.3, 13.2.7 and 13.2.8)",
    "patterns": "patterns (ECMA-262, 13.15.5 and 14.3.3)",
}


class Nesting:
    def __init__(self, table):
        self.table = table

    def count(self, field, text):
        t = inside(text, "Vec")
        if t and inside(t, "Hole"):
            return "deepest_element(self.%s.as_slice())" % field
        return "self.%s.nesting()" % field

    def struct_body(self, name):
        if name in OWN:
            return OWN[name]
        fields = [(f, t) for f, t in self.table.fields_of[name] if self.table.is_tree(t)]
        counts = [self.count(f, t) for f, t in fields]
        if not counts:
            return ["1"]
        if len(counts) < 3:
            return ["above(%s)" % (counts[0] + "".join(".max(%s)" % c for c in counts[1:]))]
        lines = ["let %s = %s;" % (f, c) for (f, _), c in zip(fields, counts)]
        rest = "".join(".max(%s)" % f for f, _ in fields[1:])
        return lines + ["above(%s%s)" % (fields[0][0], rest)]

    def enum_body(self, name, own):
        arms = ["    %s::%s(x) => x.nesting()," % (own, v) for v, _ in self.table.variants_of[name]]
        return ["match self {"] + arms + ["}"]

    def module(self, module):
        table = self.table
        body, names, views, helpers = [], [], [], {"Nesting"}
        for what, n in table.order:
            if what == "words" or table.module_of[n] != module:
                continue
            generic = table.is_generic(n)
            own = n + "Of" if generic else n
            lines = self.struct_body(n) if what == "struct" else self.enum_body(n, own)
            text = "\n".join(lines)
            for helper in ("above", "deepest_element"):
                if helper + "(" in text:
                    helpers.add(helper)
            if generic:
                helpers.add("Held")
            names.append(own)
            views.append("view_" + snake(n))
            head = "impl<T: Held> Nesting for %s<T> {\n" % own if generic else "impl Nesting for %s {\n" % own
            body.append(head)
            body.append("    ghost tree = { view_%s%s };\n\n" % (snake(n), " T.tree" if generic else ""))
            body.append("    fn nesting(&self) -> u32 {\n%s    }\n}\n\n" % "".join("        %s\n" % line for line in lines))
        head = "//! How deep %s go.\n" % WHAT[module]
        head += "ghost use Rattle.tree_nodes.specs.View.{%s};\n\n" % ", ".join(views)
        head += use_line("crate::counts", sorted(helpers, key=lambda n: (n[0].islower(), n)))
        head += use_line("tree_nodes", sorted(names))
        return head + "\n" + "".join(body).rstrip("\n") + "\n"


def files(table):
    nesting = Nesting(table)
    return {"%s/%s.rt" % (SRC, m): nesting.module(m) for m in table.modules}

"""Writes the arms by which code tells how the text of each variant of an enum begins and ends. They follow the definition, which is
written by hand: a part that it asks is asked, and what it answers of itself is answered."""

import re

from clauses import Part, kinds
from follows import EDGES, clauses_of
from table import APART, SORTS, inside, tree_name

STARTS = ("crates/print_gaps/src/starts.rt", "starts_with_word", "starts_with_alpha_num", "false")
ENDS = ("crates/print_gaps/src/ends.rt", "ends_with_word", "ends_with_alpha_num", "true")

# The enums of each file, of which that is asked.
ENUMS = [
    (STARTS, ["ExprKind", "Lit", "Callee", "AssignTarget", "PatKind", "PropName", "Decl", "StmtKind"]),
    (ENDS, ["ExprKind", "Lit", "MemberProp", "PatKind", "ForHead"]),
]

# What is asked of more than one part, what has a function of its own, and what a name in brackets ends with.
OWN = {
    ("starts_with_word", "UnaryExpr"): "is_word(x.op)",
    ("starts_with_word", "UpdateExpr"): "!x.prefix && x.arg.starts_with_alpha_num()",
    ("ends_with_word", "Lit"): "lit_ends(x)",
    ("ends_with_word", "ComputedPropName"): "false",
}

# What is asked itself, which asks further.
ASKED = {
    "starts_with_word": ["MemberExpr", "SeqExpr", "ArrowExpr", "OptChainExpr"],
    "ends_with_word": ["MemberExpr", "VarDecl", "UsingDecl"],
}


class Edge:
    """What is asked of the one or the other end of a text."""

    def __init__(self, table, question, call, otherwise):
        self.table = table
        self.question = question
        self.call = call
        self.otherwise = otherwise
        self.clauses = {clause.kind: clause for clause in clauses_of(EDGES, question)}
        self.kind_of = {kind.name: kind for kind in kinds(table)}

    def told(self, enum, variant, held):
        """What an arm answers."""
        name, whole = inside(held, "Box") or held, "x.%s()" % self.call
        if (self.question, name) in OWN:
            return OWN[self.question, name]
        if name in SORTS or name in self.table.variants_of or name in ASKED[self.question]:
            return whole
        kind = self.kind_of[APART.get((enum, variant)) or tree_name(name)]
        clause = self.clauses.get(kind.name)
        if not clause or clause.says in ("true", "false"):
            return clause.says if clause else self.otherwise
        asked = re.fullmatch(self.question + r" (\w+)", clause.says)[1]
        at = clause.tree[1:-1].split(" ").index(asked) - 1
        return "x.%s.%s()" % (kind.fields[at], self.call)

    def arms(self, enum):
        own = enum + "Of" if self.table.is_generic(enum) else enum
        says = [(variant, self.told(enum, variant, held)) for variant, held in self.table.variants_of[enum]]
        return own, ["%s::%s(%s) => %s," % (own, variant, "x" if re.search(r"\bx\b", told) else "_", told) for variant, told in says]


def parts(table):
    out = []
    for (file, *asked), enums in ENUMS:
        edge = Edge(table, *asked)
        for enum in enums:
            own, arms = edge.arms(enum)
            out.append(Part(file, "%s, %s" % (enum, edge.call), arms, begins=r" *%s::\w+\([x_]\) => " % own))
    return out

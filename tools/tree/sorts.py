"""Writes from the table of which sort each kind of tree is that stands in a child's place."""

from clauses import definition, kinds
from spec_tree import pattern
from table import APART, inside, tree_name

SORTS = "crates/tree_nodes/specs/Sorts.antt"

# Each sort and the enum of what it is.
ENUMS = [("expression", "ExprKind"), ("statement", "StmtKind"), ("pattern", "PatKind")]

# What stands in no child's place by itself, but in one together with what holds it.
WITHIN = {"expression": ["opt_call"]}

# What a field is called here.
CALLED = {"ident_": "id", "function_": "fn_", "sym": "name", "exp": "body", "is_async": "waits", "is_await": "waits", "expr": "e", "dot3_token": "dots"}


def names(table, enum):
    """The kinds of an enum's variants, and of those of an enum among them."""
    for variant, held in table.variants_of[enum]:
        name = inside(held, "Box") or held
        if (enum, variant) in APART:
            yield APART[enum, variant]
        elif name in table.variants_of:
            yield from names(table, name)
        else:
            yield tree_name(name)


def parts(table):
    trees = {kind.name: pattern(kind.name, [CALLED.get(a, a) for a in kind.args]) for kind in kinds(table)}
    clauses = ["%s = %s" % (trees[name], sort) for sort, enum in ENUMS for name in [*names(table, enum), *WITHIN.get(sort, [])]]
    return [definition(SORTS, "sort_of", clauses, ["t = part"])]

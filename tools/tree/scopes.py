"""Writes from the table a tree by its parts, as the definitions of scopes go over it, and induction over trees."""

from clauses import definition, kinds, nested
from visit import ORDER

PARTS = "crates/judge_scopes_spec/proofs/Parts.antt"

# Fields in the order in which a text has them as far as scopes ask: a function's decorators are its method's, and stand before both.
OWN_ORDER = {**ORDER, "Function": None, "ImportNamedSpecifier": ["imported", "local"]}


def kids(kind):
    return kind.kids(OWN_ORDER.get(kind.struct))


def listed(kind):
    trees = [a if is_list else "more %s none" % a for a, is_list in kids(kind)]
    return "%s = %s" % (kind, " ∷ ".join(trees + ["[]"]))


def holds_of(kind):
    parts = ["holds_of_all %s" % a if is_list else "(holds_of %s, tt)" % a for a, is_list in kids(kind)]
    return "%s = step %s %s" % (kind, kind, nested(parts, "tt"))


def parts(table):
    return [
        definition(PARTS, "parts", map(listed, kinds(table))),
        definition(PARTS, "holds_of", map(holds_of, kinds(table))),
    ]

"""Writes from the table the clauses of proofs about chains of nodes, which one kind of node begins: that no other does."""

from clauses import definition, kinds

SPINES = "crates/tree_nodes/proofs/Spines.antt"
CHAINS = "crates/tree_visit/proofs/Chains.antt"


def with_one(table, before, name, own, no):
    """A clause for each kind: of the kind that begins a chain its own, and of all others that it doesn't."""
    return [own if kind.name == name else "%s%s %s" % (before, kind.blank(), no) for kind in kinds(table)]


def parts(table):
    parts = with_one(table, "", "bin_expr", "(bin_expr _ _ l r) h = omega (arith)", "h = no h")
    way = "let e : alternative (if_stmt p a b c) ≡ c = way (is_absent c) (if_stmt p a b c) c h in rw e (omega (arith))"
    shorter = with_one(table, "", "if_stmt", "(if_stmt p a b c) h = %s" % way, "h = no h")
    behind = "(before_alternative step (if_stmt p a b c) (entered step (if_stmt p a b c) s))"
    way = "ap (λ x. left step (if_stmt p a b c) (walk_of step x %s)) (sym (cond-false (is_absent c) (if_stmt p a b c) c (not-true (is_absent c) h)))" % behind
    if_link = with_one(table, "step ", "if_stmt", "step (if_stmt p a b c) s h = %s" % way, "s h = no h")
    return [
        definition(SPINES, "parts", parts),
        definition(SPINES, "shorter", shorter),
        definition(SPINES, "some_size", ["%s = omega (arith)" % kind.blank() for kind in kinds(table)]),
        definition(CHAINS, "if_link", if_link),
    ]

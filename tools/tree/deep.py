"""Writes from the table what is proved and what is tabled of how deep trees nest."""

from clauses import Part, definition, kinds

LEVELS = "crates/tree_nesting/proofs/Levels.antt"
COUNTED = "crates/tree_nesting/specs/Table.antt"

# Leaves, whatever is below them.
LEAVES = ["binding_ident"]

# A node whose levels are not those of its parts alone.
WITHIN = {"if_stmt": "(if_stmt _ a b c) = alternative (is_if c) (omega (arith, within a, within b)) (omega (arith, within c))"}

# What a tree of 3 counts to its node where that isn't one more: an operand before an operator, what a chain goes on from, and
# what stands in a place without one of its own.
ALIKE = {("bin_expr", "left"), ("member_expr", "obj"), ("call_expr", "callee"), ("tagged_tpl", "tag"), ("opt_call", "callee"), ("expr_pat", "expr"), ("list", "items")}

# Trees for a part that is asked for its kind.
CHAINED = {("opt_chain_expr", "base"): ["(member_expr place deep leaf), 3", "(member_expr place leaf deep), 4", "(opt_call place deep (one leaf)), 3", "(opt_call place leaf (one deep)), 4"]}

# What stands for a field that holds no tree.
PLAIN = {"Span": "place", "Bool": "true", "ℕ": "0", "List ℕ": "[]", "SpecNumber": "zero"}


def within(kind):
    if kind.name in WITHIN:
        return WITHIN[kind.name]
    if not kind.kids() or kind.name in LEAVES:
        return None
    letters = dict(zip([a for a, _ in kind.kids()], "abcdefgh"))
    args = " ".join(letters.get(a, "_") for a in kind.args)
    calls = ["%s %s" % ("within_all" if is_list else "within", letters[a]) for a, is_list in kind.kids()]
    return "(%s %s) = omega (arith, %s)" % (kind.name, args, ", ".join(calls))


def rows(kind):
    """A row for each part of the node, where that is deep, or one row."""
    if kind.name in ("absent", "hole"):
        return ["(%s, 0)" % kind.name]
    if kind.name in LEAVES or not kind.kids():
        deep = [a for a, _ in kind.kids()]
        return ["(%s, 1)" % filled(kind, deep)]
    out = []
    for a, _ in kind.kids():
        chained = CHAINED.get((kind.name, a))
        count = 3 if (kind.name, a) in ALIKE else 4
        if chained:
            out += ["(%s, %s)" % (filled(kind, [], row.rpartition(", ")[0]), row.rpartition(", ")[2]) for row in chained]
        else:
            out.append("(%s, %d)" % (filled(kind, [a]), count))
    return out


def filled(kind, deep, only="leaf"):
    """A tree of a kind, of which these parts are deep."""
    args = []
    for a, t in zip(kind.args, kind.types):
        tree = "deep" if a in deep else only
        plain = "None" if t.startswith("Option") else PLAIN.get(t)
        args.append({"Tree": tree, "Trees": "(one %s)" % tree}.get(t, plain))
    return " ".join([kind.name] + args)


def parts(table):
    lines = ["    " + ("∷ " if n else "") + row for n, row in enumerate(row for kind in kinds(table) for row in rows(kind))]
    return [
        definition(LEVELS, "within", map(within, kinds(table)), ["_ = omega arith"]),
        Part(COUNTED, "counts", lines, before=("counts =",), after="    -- ((a)) as a script"),
    ]

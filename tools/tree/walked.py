"""Writes from the table in which order a walk goes over fields, and the clauses of what `parse_alone` proves of a walk over a tree: that
it finds what a fold finds."""

from clauses import definition, kinds
from visit import ORDER

WALKS = "crates/parse_alone/proofs/Walks.antt"
WALK = "crates/tree_visit/specs/Walk.antt"

# The fields that a walk has in another order than a fold, as the equation that puts them back: `%s` are what is clean in them.
TURNED = {
    "do_while_stmt": "(λ y. s && y) (swapped %s %s true)",
    "function": "(λ y. s && y) (swapped %s %s (%s && true))",
    "class": "(λ y. s && (%s && y)) (swapped %s %s true)",
    "class_prop": "(λ y. s && y) (turned %s %s %s)",
    "private_prop": "(λ y. s && y) (turned %s %s %s)",
    "auto_accessor": "(λ y. s && y) (turned %s %s %s)",
}

# A property with an initialiser ends the walk.
ENDED = {"assign_prop": ("false", "sym (and-false s)")}

# A template's texts and expressions are gone over by turns.
TPL = "texts_go (walked_all quasis) (clean_all quasis) (walked_all exprs) (clean_all exprs) (all_each quasis) (all_each exprs) s"


def listed(name, kid):
    """What came of a field: of a list of trees, or of one."""
    a, is_list = kid
    return "%s_all %s" % (name, a) if is_list else "(%s %s ∷ [])" % (name, a)


def fields(name, kids):
    return "[]" if not kids else "(%s ∷ [])" % " ∷ ".join(listed(name, kid) for kid in kids)


def argument(text):
    return "(%s)" % text if " " in text and not text.startswith("(") else text


def found(kids):
    """That a walk over fields finds what is clean in them, by the first field and those behind it."""
    if not kids:
        return "nothing"
    (a, is_list), rest = kids[0], kids[1:]
    first = ("(in_turns (walked_all %s) (clean_all %s) (all_each %s))" if is_list else "(one (walked %s) (clean %s) (walks %s))") % (a, a, a)
    given = [argument(listed("walked", kids[0])), argument(listed("clean", kids[0])), fields("walked", rest), fields("clean", rest), first]
    return "(field %s %s)" % (" ".join(given), found(rest))


def walks(kind):
    kids = kind.kids(ORDER.get(kind.struct))
    state, end = ENDED.get(kind.name, ("s", ""))
    if kind.struct in ORDER:
        end = "ap %s" % TURNED[kind.name] % tuple("(all_true %s)" % argument(listed("clean", kid)) for kid in kids)
    own = TPL if kind.name == "tpl" else " ∙ ".join(filter(None, ["%s %s" % (found(kids), state), end]))
    return "%s s = %s" % (kind.kept(), own)


def in_order(kind):
    """The fields of a kind in the order of the source, where it is not the table's."""
    if kind.name == "tpl":
        return "(tpl _ _ _) (exprs ∷ texts ∷ []) s = by_turns texts exprs s"
    if kind.struct not in ORDER:
        return None
    had, has = [a for a, _ in kind.kids()], ORDER[kind.struct]
    rest = "[]"
    while had[-1] == has[-1]:
        had, has, rest = had[:-1], has[:-1], "rest"
    return "%s (%s) s = through (%s) s" % (kind.blank(), " ∷ ".join([*had, rest]), " ∷ ".join([*has, rest]))


def parts(table):
    return [
        definition(WALK, "in_order", map(in_order, kinds(table)), ["t fields s = through fields s"]),
        definition(WALKS, "walks", map(walks, kinds(table))),
        definition(WALKS, "told_of", ["%s s = refl" % kind.blank() for kind in kinds(table)]),
    ]

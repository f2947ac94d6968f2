"""Writes definitions and proofs that go over another definition clause by clause. That one is written by hand, and says what there
is to say of each kind; these have the same trees and say what follows of it."""

import re

from clauses import definition, kinds, read

LAWS = "crates/grammar_laws/proofs/"
TREES = LAWS + "complete_base/Trees.antt"
NESTS = LAWS + "complete/Nests.antt"
SIZES = LAWS + "complete/Sizes.antt"
TIED = LAWS + "complete/Tied.antt"
CUTS = LAWS + "complete_base/Cuts.antt"
WITHIN = LAWS + "complete_rules/Within.antt"
OPENINGS = LAWS + "complete_rules/Starts.antt"
AGAIN = "crates/again_laws/proofs/derived_rules/"
SHAPE = "crates/grammar_spec/specs/Tokens/Shape.antt"
DECLARED = "crates/judge_scopes_spec/specs/Declared.antt"
MOVED = "crates/judge_scopes_spec/proofs/Moved.antt"
EDGES = "crates/print_gaps/specs/Edges.antt"
BARE = "crates/print_layout_laws/proofs/Questions.antt"
REDONE = "crates/again_laws/proofs/derived_laws/Questions.antt"


def split(text, sign=" "):
    """The parts of an expression between a sign."""
    out, depth, part, at = [], 0, "", 0
    while at < len(text):
        depth += text[at] == "("
        depth -= text[at] == ")"
        if not depth and text.startswith(sign, at):
            out.append(part)
            part, at = "", at + len(sign)
        else:
            part, at = part + text[at], at + 1
    return out + [part]


def bare(text):
    """An expression without parentheses around all of it."""
    while text.startswith("(") and len(split(text)) == 1:
        text = text[1:-1]
    return text


def argument(text):
    return "(%s)" % text if " " in text else text


class Clause:
    """A clause of a definition: its tree, and what it says."""

    def __init__(self, tree, says):
        self.tree = tree
        self.says = says
        self.kind = re.match(r"\(?(\w+)", tree).group(1)

    def renamed(self, names):
        """The clause with other variables."""

        def turned(text):
            return re.sub(r"(?<![\w.(])\w+(?!\w)", lambda it: names.get(it[0], it[0]), text)

        return Clause(turned(self.tree), turned(self.says))


def clauses_of(file, name, before=""):
    """The clauses of a definition that have one tree each. `before` are the arguments before the tree."""
    found = re.findall(r"^ *%s %s(\(.*?\)|absent|hole) = (.*)$" % (re.escape(name), before), read(file), re.M)
    return [Clause(tree, says) for tree, says in found]


# ---- grammar_laws: what the law covers, and how deep that is read


def covered(clause):
    """That a tree is covered where its parts are."""
    calls = [re.sub(r"^CoveredAll ", "covered_all ", re.sub(r"^Covered ", "covered ", part)) for part in split(clause.says, " × ")]
    if calls == ["Unit {0}"]:
        return None
    return "%s = %s" % (clause.tree, calls[0] if len(calls) == 1 else "(%s)" % ", ".join(calls))


# The alternative of an `if` that is an `if`: its own depth counts, and not one more.
CHAIN = "(if_stmt s t a (if_stmt q e b d))"
CHAINED_WITHIN = "R %s = max (max (R t) (R a)) (within R (if_stmt q e b d))" % CHAIN


def handed(part):
    """What is asked of a part, and the part."""
    match = re.fullmatch(r"(?:(\w+) )?G (.*)", part)
    return match.group(1) or "G", match.group(2)


def within(clause):
    """How deep what a node hands on reaches."""
    if clause.tree == CHAIN:
        return CHAINED_WITHIN
    names = {"G": "R %s", "Each": "most R %s", "Within": "within R %s", "Withins": "withins R %s", "ItemIn": "item_in R %s"}
    parts = [names[what] % part for what, part in map(handed, split(clause.says, " × "))]
    says = parts.pop()
    for part in reversed(parts):
        says = "max (%s) (%s)" % (part, says)
    return "R %s = %s" % (clause.tree, says)


def inward(clause):
    """That what a node hands on is smaller than it."""
    small = "(omega (arith, h))"
    names = {"Each": "each_small z %s", "Within": "inward z %s", "Withins": "inwards z %s", "ItemIn": "item_small z %s"}
    parts = [small[1:-1] if what == "G" else names[what] % part + " " + small for what, part in map(handed, split(clause.says, " × "))]
    return "z %s h = %s" % (clause.tree, parts[0] if len(parts) == 1 else "(%s)" % ", ".join(parts))


def within_reach(clause):
    """That what a node hands on reaches no deeper than it."""
    names = {"Each": "most_reaches %s", "Within": "within_reach %s", "Withins": "withins_reach %s", "ItemIn": "item_reach %s"}
    parts = [names[what] % part for what, part in map(handed, split(clause.says, " × ")) if what != "G"]
    if clause.kind == "param":
        return "%s = %s" % (clause.tree, parts[0])
    return "%s = %s" % (clause.tree, "omega (%s)" % ", ".join(["arith"] + parts) if parts else "omega arith")


# What is none of the trees that may take no token, by what is asked of it.
LEASTS = ["binding_least", "bound_least", "item_least", "key_least", "private_least", "string_least", "item_takes"]


def takes_one():
    """That what is told by a question takes a token: it is no tree of which `least` says otherwise."""
    trees = [clause.tree for clause in clauses_of(CUTS, "least")]
    no = "%s h = absurd (true≢false (sym h))"
    return [definition(CUTS, name, [no % tree for tree in trees], ["_ h = refl"]) for name in LEASTS]


class Nests:
    """That no reading of a tree goes deeper than it nests: for each clause of `reach`, by the order of the table's fields."""

    # A chain's first part counts by itself, and some nodes count as their parts do.
    LINKED = ["bin_expr", "member_expr", "call_expr", "tagged_tpl", "opt_call"]
    ALIKE = ["opt_chain_expr", "expr_pat", "list"]
    # Clauses that stand behind the others.
    LAST = ["bin_expr", "if_stmt", "expr_pat", "list", "absent", "hole"]
    OWN = {
        CHAIN: "join (left _ (up (join (left _ (left _ (reach_nests t))) (right _ (left _ (left _ (reach_nests a))))))) (right _ (left _ (left _ (reach_nests (if_stmt q e b d)))))",
        "(if_stmt s t a b)": "omega (arith, reach_nests t, reach_nests a, reach_nests b)",
    }

    def __init__(self, table):
        self.kinds = {kind.name: kind for kind in kinds(table)}

    def way(self, clause):
        """The way to each part among the greatest of all: so many to the right of the first."""
        kind = self.kinds[clause.kind]
        args = split(clause.tree[1:-1])[1:]
        trees = [(a, t == "Trees") for a, t in zip(args, kind.types) if t in ("Tree", "Trees")]
        ways = {}
        for at, (a, is_list) in enumerate(trees):
            linked = kind.name in self.LINKED
            text = "left _ (reaches_nest %s)" % a if is_list else "left _ (left _ (reach_nests %s))" % a
            for _ in range(max(at - 1, 0) if linked else at):
                text = "right _ (%s)" % text
            ways[a] = (text, linked and at == 0, linked and at > 0)
        return ways

    def bound(self, says, clause, is_inner=False):
        """The bound of an expression of `reach`."""
        call = split(bare(says))
        if call[0] == "max":
            return "join (%s) (%s)" % (self.bound(call[1], clause, is_inner), self.bound(call[2], clause, is_inner))
        if call[0] == "suc":
            inner = self.bound(call[1], clause, True)
            names = re.findall(r"(?:reach_nests|reaches_nest) (\w+)", inner)
            aside = any(self.way(clause)[name][2] for name in names)
            return "right _ (up (%s))" % inner if aside else "up (%s)" % inner
        text, is_first, is_aside = self.way(clause)[call[1]]
        if is_inner or is_first or clause.kind in self.ALIKE:
            return text
        return "right _ (over (%s))" % text if is_aside else "over (%s)" % text

    def nests(self, clause):
        says = self.OWN.get(clause.tree) or ("omega arith" if clause.says == "0" else self.bound(clause.says, clause))
        return "%s = %s" % (clause.tree, says)

    def all(self, clauses):
        first = [clause for clause in clauses if clause.kind not in self.LAST]
        last = [clause for name in self.LAST for clause in clauses if clause.kind == name]
        return map(self.nests, first + last)


# ---- again_laws: shapes of trees that are given anew


def first_of_kinds(clauses):
    """Of each kind its first clause."""
    return [clause for at, clause in enumerate(clauses) if clause.kind not in [x.kind for x in clauses[:at]]]


def last_of_kinds(clauses):
    """Of each kind its last clause, which is of all its trees that the others leave."""
    return [clause for at, clause in enumerate(clauses) if clause.kind not in [x.kind for x in clauses[at + 1 :]]]


# ---- judge_scopes_spec: names that are moved


def moved(says):
    """That names are moved where those that they are put together of are."""
    joined = split(says, " ++ ")
    if len(joined) > 1:
        first, rest = joined[0], " ++ ".join(joined[1:])
        return "join_moved p %s %s _ _ (%s) (%s)" % (argument(first), argument(bare(rest)), moved(first), moved(bare(rest)))
    name, *args = split(says)
    if name == "given":
        return "given_moved p %s %s _ (%s)" % (args[0], args[1], moved(bare(args[1])))
    return " ".join([name.replace("name_in", "name_names").replace("_names", "_moved"), "p"] + args)


# ---- how the text of a node begins and ends

# A question's own clauses, where one is asked of two parts, of a part's kind or of a flag.
ASKED = {
    "ends_with_word": {
        "member_expr": ["(member_expr span obj (computed_prop_name at e)) = refl", "(member_expr span obj _) = refl"],
        "var_declarator": ["(var_declarator span name init) = if_same (same_is_there init) (same_ends_with_word init) (same_ends_with_word name)"],
    },
    "starts_with_regexp": {
        "regex_lit": ["(regex_lit span body flags) = refl"],
        "update_expr": ["(update_expr span op false arg) = same_starts_with_regexp arg", "(update_expr span op true arg) = refl"],
    },
}


def answered_alike(question):
    """That a question is answered alike of a tree with less in it: as of the part that it is asked of, or by what stays."""
    out = []
    for clause in clauses_of(EDGES, question):
        name, *args = split(clause.says)
        if clause.kind in ASKED.get(question, {}):
            out += ASKED[question][clause.kind]
        elif name.endswith(question):
            out.append("%s = same_%s" % (clause.tree, clause.says))
        elif clause.says in ("true", "false") and re.search(r" (true|false)\b", clause.tree):
            out.append("%s = refl" % clause.tree)
    return out


def in_mode(question):
    """The same of a tree that is given anew, where each part has a mode."""
    clauses = [clause.replace("if_same (same_is_there ", "if_same (same_is_there _ ") for clause in answered_alike(question)]
    return ["md " + re.sub(r"([(=] ?)same_%s " % question, r"\1same_%s _ " % question, clause) for clause in clauses]


def parts(table):
    handed_on, nests = clauses_of(WITHIN, "Within", "G "), Nests(table)
    safe = [clause.renamed({"h": "x"}) for clause in handed_on]
    level, statements = last_of_kinds(clauses_of(SHAPE, "level")), clauses_of(SHAPE, "is_statement")
    items = first_of_kinds(statements + clauses_of(SHAPE, "is_declaration") + clauses_of(SHAPE, "is_module_decl"))
    called = [clause.renamed({"b": "x", "x": "y"}) for clause in clauses_of(SIZES, "is_called") if clause.kind in [it.kind for it in items]]
    openers = [clause for clause in clauses_of(OPENINGS, "opener") if clause.kind in [it.kind for it in level]]
    no = "h = absurd (true≢false (sym h))"
    bound = [clause.renamed({"p": "q"}) for clause in clauses_of(DECLARED, "bound_names")]
    variables = [clause.renamed({"p": "q"}) for clause in clauses_of(DECLARED, "var_names", "top ")]
    return [
        definition(TREES, "covered", map(covered, clauses_of(TREES, "Covered")), ["_ = tt"]),
        definition(WITHIN, "within", map(within, handed_on), ["R _ = 0"]),
        definition(SIZES, "inward", map(inward, safe), ["z _ h = tt"]),
        definition(SIZES, "within_reach", map(within_reach, safe), ["_ = omega arith"]),
        definition(NESTS, "reach_nests", nests.all(clauses_of(TREES, "reach")), ["_ = omega arith"]),
        definition(TIED, "allowed_called", ["b %s h = refl" % it.tree for it in called], ["true _ " + no, "false _ " + no]),
        definition(OPENINGS, "level_opener", ["%s h = refl" % it.tree for it in openers], ["_ h = absurd (omega arith)"]),
        *takes_one(),
        definition(AGAIN + "Begins.antt", "is_expression", ["%s = true" % it.tree for it in level], ["_ = false"]),
        definition(AGAIN + "Begins.antt", "expression_of", ["%s h = refl" % it.tree for it in level], ["_ h = absurd (omega arith)"]),
        definition(AGAIN + "Shapes.antt", "re_is_statement", ["lv md %s = refl" % it.tree for it in statements], ["lv md _ = refl"]),
        definition(AGAIN + "Follow.antt", "no_item", ["%s h i = omega arith" % it.renamed({"h": "k", "i": "j"}).tree for it in items], ["_ h i = true≢false (sym i)"]),
        definition(MOVED, "bound_moved", ["p %s = %s" % (it.tree, moved(it.says)) for it in bound], ["p t = refl"]),
        *(definition(BARE, "same_" + it, answered_alike(it), ["_ = refl"]) for it in ("starts_with_word", "ends_with_word", "starts_with_regexp")),
        *(definition(REDONE, "same_" + it, in_mode(it), ["md _ = refl"]) for it in ("starts_with_word", "ends_with_word")),
        definition(MOVED, "var_moved", ["p top %s = %s" % (it.tree, moved(it.says)) for it in variables], ["p top t = refl"]),
    ]

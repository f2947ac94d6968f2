"""Writes from the table what `again_laws` says of each node of a tree in its place: the tree given anew, what holds of each
node, and what follows of the whole."""

from clauses import definition, kinds, nested
from spec_tree import tree_imports

CRATE = "crates/again_laws"
EVERY = CRATE + "/specs/Derived/Every.antt"
REDO = CRATE + "/specs/Derived/Redo.antt"
MAPPED = CRATE + "/proofs/derived/Mapped.antt"
FOLDED = CRATE + "/proofs/derived/Folded.antt"
PROGRAMS = CRATE + "/proofs/derived/Programs.antt"
BYTES = CRATE + "/proofs/derived_laws/LaidOutAgain.antt"

# The modes of parts that don't stand at a plain place.
MODES = {
    ("member_expr", "obj"): "(object_mode mode prop)",
    ("call_expr", "callee"): "Headed",
    ("new_expr", "callee"): "Headed",
    ("opt_call", "callee"): "Headed",
    ("opt_chain_expr", "base"): "(chain_mode optional)",
    ("tpl", "quasis"): "(quasi_mode mode)",
    ("tagged_tpl", "tag"): "Headed",
    ("tagged_tpl", "tpl_"): "Raw",
}

# What of a node is given anew by a leaf's rule: the spelling of a literal and of a text, and the place of a name.
LEAVES = {
    ("ident", "span"): "(leaves.read span.lo.0)",
    ("tpl_element", "raw"): "(leaves.quasi (is_tagged mode) raw)",
    ("str_lit", "raw"): "(leaves.string units raw)",
    ("number_lit", "raw"): "(leaves.number (is_pointed mode) value raw)",
    ("big_int_lit", "raw"): "(leaves.big radix digits raw)",
}

# Those leaves, as the text written has them, where that is proved.
PICKED = {
    ("tpl_element", "raw"): "(quasi_picked (is_tagged mode) raw cooked h.0 (λ e. cooked_so span tail raw cooked (h.1 e)) k)",
    ("str_lit", "raw"): "(string_picked units raw h k)",
    ("number_lit", "raw"): "(number_picked (is_pointed mode) value raw h k)",
    ("big_int_lit", "raw"): "(big_picked radix digits raw h k)",
}

# Nodes whose program is not that of their parts alone.
SAME = {
    "expr_stmt": "ap (λ (t : Tree). expr_stmt no_place t) (stated_same expr e.1 (program (redo l Plain expr)) ∙ ap (λ (p : Tree). stated expr p) (same Plain expr e.1))",
    "new_expr": "ap₂ (λ (t u : Tree). new_expr no_place t u) (same Headed callee e.1) (tells.arguments_kept (is_head mode) (redo l Plain args) ∙ ap arguments (same Plain args e.2))",
    "tagged_tpl": "ap₂ (λ (t u : Tree). tagged_tpl no_place t u) (same Headed tag e.1) (spelled_same tpl_ e.2 (program (redo l Raw tpl_)) ∙ ap (λ (p : Tree). spelled tpl_ p) (same Raw tpl_ e.2))",
    "expr_or_spread": "ap₂ (λ (s : Option Span) (t : Tree). expr_or_spread no_place s t) (spread_same spread) (same Plain expr e.1)",
}


class Again:
    def __init__(self, table):
        self.table = table
        self.kinds = kinds(table)

    def mode(self, kind, arg):
        return MODES.get((kind.name, arg), "Plain")

    def key(self, kind, arg):
        """Whether a part is the key of a property or a member, which may be spelled otherwise: `key`, or `constructor_key`."""
        types = dict(self.table.fields_of.get(kind.struct, []))
        if types.get(arg) not in ("PropName", "Key"):
            return None
        return "constructor_key" if kind.name == "constructor" else "key"

    def calls(self, kind, one, all_, behind=""):
        """A call for each part, in its mode; `behind` names what holds of the node, of which the part's follows."""
        out = []
        for a, is_list in kind.kids():
            what = " %s.%d" % (behind, kind.places()[a]) if behind else ""
            out.append("%s %s %s%s" % (all_ if is_list else one, self.mode(kind, a), a, what))
        return out

    def every(self, kind):
        return "mode %s = %s" % (kind, " × ".join(["P mode %s" % kind] + self.calls(kind, "every", "every_all")))

    def everywhere(self, kind):
        calls = self.calls(kind, "everywhere", "everywhere_all")
        own = "f mode %s" % kind
        return "mode %s = %s" % (kind, "(%s)" % ", ".join([own] + calls) if calls else own)

    def mapped(self, kind):
        calls = self.calls(kind, "mapped", "all_mapped", "e")
        own = "f mode %s e" % kind
        return "mode %s e = %s" % (kind, "(%s)" % ", ".join([own + ".0"] + calls) if calls else own)

    def folded(self, kind):
        parts = []
        for (a, is_list), call in zip(kind.kids(), self.calls(kind, "folded", "folded_all", "e")):
            if self.key(kind, a):
                call = "keeps.%s %s e.%d (%s)" % (self.key(kind, a), a, kind.places()[a], call)
            if (kind.name, a) == ("new_expr", "args"):
                call = "keeps.arguments (is_head mode) args (%s)" % call
            parts.append(call if is_list else "(%s, tt)" % call)
        return "mode %s e = keeps.node mode %s e _ _ %s" % (kind, kind, nested(parts, "tt"))

    def redo(self, kind):
        calls = dict(zip([a for a, _ in kind.kids()], self.calls(kind, "redo", "redos")))
        new = []
        for a, t in zip(kind.args, kind.types):
            if (kind.name, a) in LEAVES:
                new.append(LEAVES[kind.name, a])
            elif (kind.name, a) == ("new_expr", "args"):
                new.append("(leaves.arguments (is_head mode) (%s))" % calls[a])
            elif a in calls:
                new.append("(leaves.%s (%s))" % (self.key(kind, a), calls[a]) if self.key(kind, a) else "(%s)" % calls[a])
            else:
                new.append({"Span": "no_place", "Option Span": "(placed %s)" % a}.get(t, a))
        return "mode %s = %s" % (kind, " ".join([kind.name] + new))

    def same(self, kind):
        calls = []
        for (a, _), call in zip(kind.kids(), self.calls(kind, "same", "same_all", "e")):
            calls.append("tells.%s %s (%s)" % (self.key(kind, a), a, call) if self.key(kind, a) else call)
        plain = "rw (%s) refl" % ", ".join(calls) if calls else "refl"
        return "mode %s e = %s" % (kind, SAME.get(kind.name, plain))

    def agrees(self, kind):
        calls = dict(zip([a for a, _ in kind.kids()], self.calls(kind, "agrees", "all_agree", "h")))
        new, proved = [], False
        for a, t in zip(kind.args, kind.types):
            key = self.key(kind, a)
            proved = proved or a in calls or (kind.name, a) in PICKED
            if (kind.name, a) in PICKED:
                new.append(PICKED[kind.name, a])
            elif (kind.name, a) == ("new_expr", "args"):
                new.append("(new_arguments first (is_head mode) (%s k))" % calls[a])
            elif key == "constructor_key":
                new.append("(written_constructor_key (%s k))" % calls[a])
            elif key:
                new.append("((%s ∙ sym (plain_key %s)) k)" % (calls[a], a))
            elif a in calls:
                new.append("(%s k)" % calls[a])
            else:
                new.append({"Span": "no_place", "Option Span": "(placed %s)" % a}.get(t, a))
        return "mode %s h = %s" % (kind, "λ k. " + " ".join([kind.name] + new) if proved else "refl")

    def every_file(self):
        out = "-- What holds of each node of a tree, each in its place.\n" + tree_imports(self.table)
        out += "use Rattle.again_laws.specs.Derived.Redo.{Mode, Plain, Headed, Raw, quasi_mode, object_mode, chain_mode}\n\n"
        out += "module _ (P : Mode → Tree → Type 0) where\n  abbrev mutual\n    pub every : Mode → Tree → Type 0\n"
        out += "".join("    every %s\n" % self.every(kind) for kind in self.kinds)
        out += "\n    pub every_all : Mode → Trees → Type 0\n    every_all mode none = Unit {0}\n"
        return out + "    every_all mode (more t ts) = every mode t × every_all mode ts\n"

    def mapped_file(self):
        out = "-- What follows at each node from what holds of it holds of each node of a tree.\n" + tree_imports(self.table)
        out += "use Rattle.again_laws.specs.Derived.Redo.{Mode, Plain, Headed, Raw, quasi_mode, object_mode, chain_mode}\n"
        out += "use Rattle.again_laws.specs.Derived.Every.{every, every_all}\n\n"
        out += "module _ (P Q : Mode → Tree → Type 0) (f : (m : Mode) (t : Tree) → P m t → Q m t) where\n  mutual\n"
        out += "    pub mapped : (mode : Mode) (t : Tree) → every P mode t → every Q mode t\n"
        out += "".join("    mapped %s\n" % self.mapped(kind) for kind in self.kinds)
        out += "\n    pub all_mapped : (mode : Mode) (ts : Trees) → every_all P mode ts → every_all Q mode ts\n"
        out += "    all_mapped mode none e = tt\n"
        return out + "    all_mapped mode (more t ts) e = (mapped mode t e.0, all_mapped mode ts e.1)\n"


def files(table):
    again = Again(table)
    return {EVERY: again.every_file(), MAPPED: again.mapped_file()}


def parts(table):
    again = Again(table)
    return [
        definition(REDO, "redo", map(again.redo, again.kinds)),
        definition(FOLDED, "everywhere", map(again.everywhere, again.kinds)),
        definition(FOLDED, "folded", map(again.folded, again.kinds)),
        definition(PROGRAMS, "same", map(again.same, again.kinds)),
        definition(BYTES, "agrees", map(again.agrees, again.kinds)),
    ]

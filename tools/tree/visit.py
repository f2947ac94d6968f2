"""Writes the walk over all nodes of the code's tree, from the table."""

import re

from nesting import WHAT
from node_types import inside, snake, use_line
from table import SORTS

CRATE = "crates/tree_visit"

# Structs that a visitor is handed where they stand for themselves; of the others it is told kind and place.
HANDED = ["Ident", "IdentName", "PrivateName", "Str", "Number", "BigInt", "TplElement", "BindingIdent"]

# What a node's text is, where it has one.
TEXT = {"Ident": "sym", "IdentName": "sym", "PrivateName": "name", "Str": "units"}

# Fields in the order of the source, where it is not the table's.
ORDER = {
    "DoWhileStmt": ["body", "test"],
    "Function": ["decorators", "params", "body"],
    "Class": ["decorators", "super_class", "body"],
    "ClassProp": ["decorators", "key", "value"],
    "PrivateProp": ["decorators", "key", "value"],
    "AutoAccessor": ["decorators", "key", "value"],
}

KNOTS = ["ProgramKind", "StmtKind", "ExprKind", "PatKind"]

# The calls that go over all that is below a struct, by the shapes of its fields, and those that also tell of the struct
# itself. Where there is such a call no method for what is below the struct is needed.
BELOW = {
    "node": "%s.walk(visitor)",
    "node node": "walk_two(&%s, &%s, visitor)",
    "node node node": "walk_three(&%s, &%s, &%s, visitor)",
    "part": "walk_part(&%s, visitor)",
    "list": "walk_all(%s.as_slice(), visitor)",
    "elements": "walk_elements(%s.as_slice(), visitor)",
    "node list": "walk_headed(&%s, %s.as_slice(), visitor)",
}
TOLD = {
    "": "tell_leaf(%s, visitor)",
    "node": "tell_one(%s, &%s, visitor)",
    "node node": "tell_two(%s, &%s, &%s, visitor)",
    "list": "tell_list(%s, %s.as_slice(), visitor)",
}

# What tells of a node by its kind and place.
TELLS = ["enter_part", "leave_part", "tell_leaf", "tell_list", "tell_one", "tell_two"]


def bare(text):
    """A type without what it is boxed, listed or left out by."""
    for outer in ("Box", "Option", "Vec", "Hole"):
        t = inside(text, outer)
        if t:
            return bare(t)
    return text


class Visit:
    def __init__(self, table):
        self.table = table
        self.opened = set()
        self.walked = set()
        for name in KNOTS:
            self.open(name)

    def is_node(self, name):
        return name in self.table.fields_of or name in self.table.variants_of

    def open(self, name):
        """The type stands as the kind of an expression, a statement, a pattern or a program."""
        if name in self.opened or not self.is_node(name):
            return
        self.opened.add(name)
        for _, t in self.table.variants_of.get(name, []):
            self.open(bare(t))
        for _, t in self.table.fields_of.get(name, []):
            self.walk(bare(t))

    def walk(self, name):
        """The type stands for itself below another."""
        if name in self.walked or not self.is_node(name):
            return
        self.walked.add(name)
        for _, t in self.table.variants_of.get(name, []) + self.table.fields_of.get(name, []):
            self.walk(bare(t))

    def fields(self, name):
        """The fields that hold trees, in the order in which they are gone over."""
        fields = [(f, t) for f, t in self.table.fields_of[name] if bare(t) in SORTS or self.is_node(bare(t))]
        order = ORDER.get(name)
        return [next(x for x in fields if x[0] == f) for f in order] if order else fields

    def is_leaf(self, name):
        """Whether nothing is below it: a struct that holds no tree, or an enum of such."""
        if name in SORTS:
            return False
        if name in self.table.variants_of:
            return all(self.is_leaf(bare(t)) for _, t in self.table.variants_of[name])
        return not self.fields(name)

    def shape(self, text):
        """What a field holds, as far as the calls differ that go over it."""
        items, held = inside(text, "Vec"), inside(text, "Option")
        if items:
            return "elements" if inside(items, "Hole") else "list"
        if held:
            return "boxed part" if inside(held, "Box") else "part"
        return "node"

    def in_one_call(self, calls, name, place, *before):
        """The one call for a struct's fields, if there is one."""
        call = calls.get(" ".join(self.shape(t) for _, t in self.fields(name)))
        if not call:
            return None
        lent = ["*" * ("&%s" in call and bool(inside(t, "Box"))) + place + "." + f for f, t in self.fields(name)]
        return call % (*before, *lent)

    def below(self, name, place):
        """The one call that goes over what is below a struct, if there is one."""
        if name == "Tpl":
            return "walk_template(%s.quasis.as_slice(), %s.exprs.as_slice(), visitor)" % (place, place)
        return name in self.table.fields_of and self.in_one_call(BELOW, name, place)

    def field_lines(self, name):
        below = self.below(name, "self")
        if below:
            return [below + ";"]
        return [line for f, t in self.fields(name) for line in self.part_lines("self." + f, t)]

    def part_lines(self, part, text):
        """Goes over what a field holds. The impls for lists and for parts that may be left out are for users alone: an
        impl for a list of what is generic costs ten times as much wherever it is used."""
        items, held = inside(text, "Vec"), inside(text, "Option")
        if items:
            call = "walk_elements" if inside(items, "Hole") else "walk_all"
            return ["%s(%s.as_slice(), visitor);" % (call, part)]
        if held and not inside(held, "Box"):
            return ["walk_part(&%s, visitor);" % part]
        if held:
            return ["if let Some(x) = &%s {" % part] + ["    " + line for line in self.part_lines("x", held)] + ["}"]
        return ["%s.walk(visitor);" % part]

    def arms(self, name, own, call):
        lines = ["match self {"]
        for v, t in self.table.variants_of[name]:
            if call == "inside" and self.is_leaf(bare(t)):
                lines.append("    %s::%s(_) => {}" % (own, v))
            elif call == "inside" and self.below(bare(t), "x"):
                lines.append("    %s::%s(x) => %s," % (own, v, self.below(bare(t), "x")))
            elif (name, v) == ("AssignTarget", "Invalid"):
                lines.append("    %s::%s(x) => tell_leaf(Kind::InvalidTarget, x.span, visitor)," % (own, v))
            else:
                method = "walk" if bare(t) in SORTS else call
                lines.append("    %s::%s(x) => x.%s(visitor)," % (own, v, method))
        return lines + ["}"]

    def impl(self, name, trait, lines):
        generic = self.table.is_generic(name)
        own = name + "Of" if generic else name
        method = "walk" if trait == "Walk" else "inside"
        head = "impl<T: Walk> %s for %s<T> {\n" % (trait, own) if generic else "impl %s for %s {\n" % (trait, own)
        tree = "    ghost tree = { view_%s%s };\n\n" % (snake(name), " T.tree" if generic else "")
        text = "".join("        %s\n" % line for line in lines)
        return head + tree + "    fn %s<V: Watch>(&self, visitor: &mut V) {\n%s    }\n}\n\n" % (method, text)

    def struct(self, name):
        own, out = self.field_lines(name), []
        opened = name in self.opened and not self.is_leaf(name) and not self.below(name, "self")
        if opened:
            out.append(self.impl(name, "Inside", own))
        told = name not in HANDED and self.in_one_call(TOLD, name, "self", "Kind::%s, self.span" % name)
        if name in self.walked and told:
            out.append(self.impl(name, "Walk", [told + ";"]))
        elif name in self.walked:
            within = ["self.inside(visitor);"] if opened else own
            out.append(self.impl(name, "Walk", [self.event(name, "enter")] + within + [self.event(name, "leave")]))
        return "".join(out)

    def event(self, name, call):
        """Tells the visitor of a struct. A call that is handed a `Node` costs the prover more than one that isn't."""
        if name in HANDED:
            return "visitor.%s(Node::%s(self));" % (call, name)
        return "%s_part(Kind::%s, self.span, visitor);" % (call, name)

    def enum(self, name):
        own = name + "Of" if self.table.is_generic(name) else name
        out = []
        if name in self.opened and not self.is_leaf(name):
            out.append(self.impl(name, "Inside", self.arms(name, own, "inside")))
        if name in self.walked:
            out.append(self.impl(name, "Walk", self.arms(name, own, "walk")))
        return "".join(out)

    def module(self, module):
        table = self.table
        body, names, views = [], [], []
        for what, n in table.order:
            if what == "words" or table.module_of[n] != module:
                continue
            text = self.struct(n) if what == "struct" else self.enum(n)
            if text:
                body.append(text)
                names.append(n + "Of" if table.is_generic(n) else n)
                views.append("view_" + snake(n))
        text = "".join(body)
        watch = [h for h in ("Inside", "Node", "Walk", "Watch", *TELLS) if re.search(r"\b%s\b" % h, text)]
        lists = [h for h in ("walk_all", "walk_elements", "walk_headed", "walk_part", "walk_template", "walk_three", "walk_two") if h + "(" in text]
        tells = [h for h in watch if h in TELLS]
        head = "//! Goes over %s.\n" % WHAT[module]
        head += "ghost use Rattle.tree_nodes.specs.View.{%s};\n\n" % ", ".join(views)
        if "Kind::" in text.replace("PatKind::", ""):
            head += "use crate::kinds::Kind;\n"
        if lists:
            head += use_line("crate::lists", lists)
        if tells:
            head += use_line("crate::told", tells)
        head += use_line("crate::watch", [h for h in watch if h not in tells])
        head += use_line("tree_nodes", sorted(names))
        return head + "\n" + text.rstrip("\n") + "\n"

    def kinds(self):
        out = "//! Kinds of nodes.\n\n/// The kind of a node: one for each struct of the tree, with a pattern that is an expression and what\n"
        out += "/// could not be read as a pattern or as a target.\n#[derive(Clone, Copy, PartialEq, Eq)]\npub enum Kind {\n"
        for _, struct, _ in self.trees():
            out += "    %s,\n" % struct
        return out + "}\n"

    def trees(self):
        named = {"PatKind::Expr": "ExprPat", "PatKind::Invalid": "InvalidPat", "AssignTarget::Invalid": "InvalidTarget"}
        return [(t, named.get(s, s), f) for t, s, f in self.table.trees() if t not in ("list", "absent", "hole")]

    def spec(self):
        out = "-- What a visitor is told of a node: its kind, its place and its text.\n"
        out += "use Rattle.std.specs.Prelude.{ℕ, List, [], Option, Some, None}\n"
        out += "use Rattle.base_token.specs.declared.place.Span.{Span}\n"
        out += "use Rattle.tree_spec.specs.Places.{place_of}\n"
        trees = self.trees()
        out += "use Rattle.tree_spec.specs.Tree.{Tree, %s, list, absent, hole}\n" % ", ".join(t for t, _, _ in trees)
        out += "use Rattle.tree_visit.specs.declared.kinds.Kind.{Kind}\n"
        out += "\n"
        out += "-- a node as a visitor is told of it; the text is a name's bytes, a string's units and nothing of other nodes\n"
        out += "pub record Seen : Type 0 where\n  pub kind : Kind\n  pub place : Span\n  pub text : List ℕ\n\n"
        out += "abbrev pub seen : Kind → Span → List ℕ → Seen\n"
        out += "seen kind place text = record { kind = kind; place = place; text = text }\n\n"
        out += "-- what is told of a tree; a list, and what is left out, is no node\n"
        out += "abbrev pub seen_of : Tree → Option Seen\n"
        for tree, struct, fields in trees:
            text = TEXT.get(struct)
            own = "span" if fields[0][1] == "Span" else "(place_of expr)"
            args = " ".join(f if f in ("span", text) or struct == "ExprPat" else "_" for f, _ in fields)
            out += "seen_of (%s %s) = Some (seen Kind.%s %s %s)\n" % (tree, args, struct, own, text or "[]")
        return out + "seen_of (list _) = None\nseen_of absent = None\nseen_of hole = None\n"

    def laws(self):
        out = "-- A tree is told of before and after what is inside it.\n"
        out += "use Rattle.std.proofs.Common.{◌≡◌, refl}\n"
        trees = self.table.trees()
        out += "use Rattle.tree_spec.specs.Tree.{Tree, %s}\n" % ", ".join(t for t, _, _ in trees)
        out += "use Rattle.tree_visit.specs.Walk.{Event, walk_of, inside_of, entered, left}\n\n"
        out += "pub whole : {S : Type 0} (step : Event → S → S) (t : Tree) (s : S) → walk_of step t s ≡ left step t (inside_of step t (entered step t s))\n"
        for tree, _, fields in trees:
            out += "whole step %s s = refl\n" % ("(%s%s)" % (tree, " _" * len(fields)) if fields else tree)
        return out


def files(table):
    visit = Visit(table)
    out = {"%s/src/%s.rt" % (CRATE, m): visit.module(m) for m in table.modules}
    out[CRATE + "/src/kinds.rt"] = visit.kinds()
    out[CRATE + "/specs/Seen.antt"] = visit.spec()
    out[CRATE + "/proofs/Whole.antt"] = visit.laws()
    return out

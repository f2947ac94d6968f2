"""Writes the types of the code's tree, their places, their views and the lemmas on their size."""

from table import APART, SORTS, inside, snake, tree_name

CRATE = "tree_nodes"
SRC = "crates/%s/src" % CRATE
SPECS = "crates/%s/specs" % CRATE
ROOT = "Rattle.%s.specs" % CRATE

TAGS = {"Expr": "ExprTag", "Stmt": "StmtTag", "Pat": "PatTag"}
PLACES = {"Expr": "holds_expr", "Stmt": "holds_stmt", "Pat": "holds_pat"}
WRAPPERS = ("Box", "Option", "Vec", "Hole")
FIELDS_OF_CODE = {"Atom", "StrValue", "NumValue", "Span", "BinaryOp", "AssignOp"}
FOREIGN = {
    "Atom": "base_token",
    "StrValue": "base_token",
    "NumValue": "base_token",
    "Span": "base_token",
    "BinaryOp": "base_token",
    "AssignOp": "base_token",
}

class Nodes:
    def __init__(self, table):
        self.table = table

    # Rust

    def own(self, name):
        """The name of a type of the table in code, where T stands for what a child is kept in."""
        return name + "Of<T>" if self.table.is_generic(name) else name

    def rust(self, text):
        for outer in WRAPPERS:
            t = inside(text, outer)
            if t:
                return "%s<%s>" % ("Option" if outer == "Hole" else outer, self.rust(t))
        if text in SORTS:
            return "Child<T, %s>" % TAGS[text]
        if self.is_own(text):
            return self.own(text)
        return text

    def is_own(self, name):
        return name in self.table.fields_of or name in self.table.variants_of

    def names_in(self, text, out):
        for outer in WRAPPERS:
            t = inside(text, outer)
            if t:
                return self.names_in(t, out)
        out.add(text)

    def module_of(self, name):
        return self.table.module_of[name]

    def types_module(self, module):
        table = self.table
        names = [(what, n) for what, n in table.order if self.module_of(n) == module]
        used = set()
        body = []
        for what, n in names:
            derived = ([] if what == "enum" else ["Debug"]) + ([] if n in OWN_DROPS else ["Drop"])
            derive = "#[derive(%s)]\n" % ", ".join(derived) if derived else ""
            doc = "".join("/// %s\n" % line for line in table.doc_of[n])
            if what == "words":
                body.append("%s#[derive(Clone, Copy, Debug, PartialEq, Eq, Hash)]\npub enum %s {\n" % (doc, n))
                body.append("".join("    %s,\n" % w for w, _ in table.words_of[n]) + "}\n\n")
                continue
            generic = table.is_generic(n)
            head = n + ("Of<T>" if generic else "")
            if what == "struct":
                used.add("Span")
                fields = [("span", "Span")] + table.fields_of[n]
                body.append("%s%spub struct %s {\n" % (doc, derive, head))
                for f, t in fields:
                    self.names_in(t, used)
                    body.append("    pub %s: %s,\n" % (f, self.rust(t)))
            else:
                body.append("%s%spub enum %s {\n" % (doc, derive, head))
                for v, t in table.variants_of[n]:
                    self.names_in(t, used)
                    body.append("    %s(%s),\n" % (v, self.rust(t)))
            body.append("}\n\n")
            if what == "enum":
                body.append(self.own_debug(n, generic))
            if n in OWN_DROPS:
                body.append(self.own_drop(what, n, generic))
            if generic:
                body.append("%spub type %s = %sOf<Part>;\n\n" % ("".join("/// %s\n" % line for line in table.doc_of[n][:1]), n, n))
        generic_here = any(table.is_generic(n) for what, n in names if what != "words")
        uses = {}
        for n in used:
            if n in FOREIGN:
                uses.setdefault(FOREIGN[n], set()).add(n)
            elif n in SORTS:
                uses.setdefault("crate::knot", set()).update(["Child", TAGS[n]])
            elif self.is_own(n) or n in table.words_of:
                if self.module_of(n) != module:
                    name = n + "Of" if self.is_own(n) and table.is_generic(n) else n
                    uses.setdefault("crate::" + self.module_of(n), set()).add(name)
        if generic_here:
            uses.setdefault("crate::knot", set()).add("Part")
        lines = "".join(use_line(m, sorted(ns, key=fmt_key)) for m, ns in sorted(uses.items()))
        if any(what == "enum" for what, _ in names):
            lines += "use std::fmt;\n"
        return "//! %s\n%s\n%s" % (table.module_doc[module], lines, "".join(body).rstrip("\n") + "\n")

    def own_debug(self, n, generic):
        """Shows what it holds, which says of what kind it is: what is derived takes the prover more than twice as long."""
        name, bound, of = (n + "Of", "<T: fmt::Debug>", "<T>") if generic else (n, "", "")
        arms = "".join("%s::%s(x) => fmt::Debug::fmt(x, f),\n" % (name, v) for v, _ in self.table.variants_of[n])
        head = "impl%s fmt::Debug for %s%s {\n" % (bound, name, of)
        return head + "fn fmt<W: fmt::Write>(&self, f: &mut fmt::Formatter<W>) -> fmt::Result {\nmatch self {\n%s}\n}\n}\n\n" % arms

    def own_drop(self, what, n, generic):
        """The drop of a type that many crates let go: what is derived would be proved anew in each."""
        name, bound, of = (n + "Of", "<T: Drop>", "<T>") if generic else (n, "", "")
        if what == "struct":
            fields = ["span"] + [f for f, _ in self.table.fields_of[n]]
            parts = ", ".join("%s: _%s" % (f, f.strip("_")) for f in fields)
            inside = "let %s { %s } = self;" % (name, parts)
        else:
            arms = "".join("%s::%s(_%s) => {}\n" % (name, v, v.lower()) for v, _ in self.table.variants_of[n])
            inside = "match self {\n%s}" % arms
        doc = "/// One call where one is let go, in place of a step for each part."
        return "impl%s Drop for %s%s {\n%s\nfn drop(self) {\n%s\n}\n}\n\n" % (bound, name, of, doc, inside)

    def places_module(self):
        table = self.table
        uses = {}
        views = []
        body = []
        for what, n in table.order:
            if what == "words":
                continue
            generic = table.is_generic(n)
            uses.setdefault("crate::" + self.module_of(n), set()).add(n + "Of" if generic else n)
            if what == "struct":
                body.append(
                    "impl%s Spanned for %s {\n    ghost span_of = { λ x. x.span };\n\n"
                    "    fn span(&self) -> Span {\n        self.span\n    }\n}\n\n" % ("<T>" if generic else "", self.own(n))
                )
                continue
            views.append("view_" + snake(n))
            view = "view_%s%s x" % (snake(n), " inner" if generic else "")
            body.append("impl Spanned for %s {\n" % (n + "Of<Part>" if generic else n))
            body.append("    ghost span_of = { λ x. place_of (%s) };\n\n" % view)
            cycle = "    #[cycle(span)]\n" if n == "PatKind" else ""
            body.append(cycle + "    fn span(&self) -> Span {\n        match self {\n")
            for v, t in table.variants_of[n]:
                t = inside(t, "Box") or t
                field = t in table.fields_of
                body.append("            %s::%s(x) => x.span%s,\n" % (n + "Of" if generic else n, v, "" if field else "()"))
            body.append("        }\n    }\n}\n\n")
        uses.setdefault("crate::knot", set()).add("Part")
        lines = "".join(use_line(m, sorted(ns, key=fmt_key)) for m, ns in sorted(uses.items()))
        head = "//! Where each struct and enum stands in the text.\n"
        head += "ghost use Rattle.tree_spec.specs.Places.{place_of};\n"
        head += "ghost use %s.Placed.{inner};\n" % ROOT
        head += "ghost use %s.View.{%s};\n\n" % (ROOT, ", ".join(views))
        return head + lines + use_line("base_token", ["Span", "Spanned"]) + "\n" + "".join(body).rstrip("\n") + "\n"

    # specs

    def declared(self, name):
        return "%s.declared.%s.%s" % (ROOT, self.module_of(name), name)

    def spec_imports(self, variants=True):
        out = []
        for what, n in self.table.order:
            if what == "words":
                out.append("use %s.{%s}\n" % (self.declared(n), n))
                out.append("use %s.TheVariants as %s\n" % (self.declared(n), n))
                continue
            name = n + "Of" if self.table.is_generic(n) else n
            out.append("use %s.declared.%s.%s.{%s}\n" % (ROOT, self.module_of(n), name, name))
            if what == "enum" and variants:
                out.append("use %s.declared.%s.%s.TheVariants as %s\n" % (ROOT, self.module_of(n), name, n))
        return "".join(out)

    def spec_name(self, name):
        """The type of a type of the table in specs."""
        return name + "Of T" if self.table.is_generic(name) else name

    def spec_rust(self, text):
        t = inside(text, "Box")
        if t:
            return "Box (%s) Global" % self.spec_rust(t)
        t = inside(text, "Vec")
        if t:
            return "Vec (%s) Global" % self.spec_rust(t)
        t = inside(text, "Option") or inside(text, "Hole")
        if t:
            return "Option (%s)" % self.spec_rust(t)
        if text in SORTS:
            return "Child T %s" % TAGS[text]
        return self.spec_name(text)

    def viewer(self, text):
        """The function from a value of the type to its tree."""
        t = inside(text, "Box")
        if t:
            return "(λ x. %s)" % self.view_of(t, "x.value")
        if self.is_own(text):
            return "(view_%s f)" % snake(text) if self.table.is_generic(text) else "view_" + snake(text)
        return "(λ x. %s)" % self.view_of(text, "x")

    def view_of(self, text, x):
        """What stands for a field in the spec tree."""
        t = inside(text, "Box")
        if t:
            return self.view_of(t, x + ".value")
        t = inside(text, "Vec")
        if t:
            return "trees_by %s %s.items" % (self.viewer(t), x)
        t = inside(text, "Hole")
        if t:
            return "element_by %s %s" % (self.viewer(t), x)
        t = inside(text, "Option")
        if t:
            if t in FIELDS_OF_CODE:
                return x
            if inside(t, "Vec"):
                return "part_by (λ x. list (%s)) %s" % (self.view_of(t, "x"), x)
            return "part_by %s %s" % (self.viewer(t), x)
        if text in SORTS:
            return "f %s.part.value" % x
        if text in self.table.words_of:
            return "%s_word %s" % (snake(text), x)
        if text == "BinaryOp":
            return "binary_op_kind %s" % x
        if text == "AssignOp":
            return "assign_op_kind %s" % x
        if self.is_own(text):
            return "view_%s %s%s" % (snake(text), "f " if self.table.is_generic(text) else "", x)
        return x

    def fits_of(self, text, x):
        """What holds of the children in a field, or None."""
        if not self.table.holds_child(text):
            return None
        t = inside(text, "Box")
        if t:
            return self.fits_of(t, x + ".value")
        t = inside(text, "Vec")
        if t:
            return "All (λ x. %s) %s.items" % (self.fits_of(t, "x"), x)
        t = inside(text, "Option") or inside(text, "Hole")
        if t:
            return "fits_held (λ x. %s) %s" % (self.fits_of(t, "x"), x)
        if text in SORTS:
            return "%s (f %s.part.value)" % (PLACES[text], x)
        return "fits_%s f %s" % (snake(text), x)

    def ordered(self):
        """Structs and enums, each after those that it holds."""
        done, out = set(), []

        def visit(n):
            if n in done:
                return
            done.add(n)
            types = [t for _, t in self.table.fields_of.get(n, [])] + [t for _, t in self.table.variants_of.get(n, [])]
            for t in types:
                held = set()
                self.names_in(t, held)
                for h in sorted(held):
                    if self.is_own(h):
                        visit(h)
            out.append(n)

        for what, n in self.table.order:
            if what != "words":
                visit(n)
        return out

    def view_module(self):
        table = self.table
        out = [
            "-- What contracts see of the code's tree: the spec tree. `f` is what stands for a child's part.\n",
            "use Rattle.std.specs.Prelude.{ℕ, Option, Some, None}\n",
            "use Rattle.base_token.specs.Kinds.{%s}\n" % ", ".join(sorted({k for _, ws in table.words for _, k in ws if k.endswith("_kind")})),
            "use Rattle.base_token.specs.OperatorKinds.{binary_op_kind, assign_op_kind}\n",
            "use Rattle.tree_spec.specs.Tree.{Tree, Trees, none, more, plain_method, trees_by, part_by, element_by, %s}\n"
            % ", ".join(n for n, _, _ in table.trees()),
            self.spec_imports(),
            "\n",
        ]
        for n, ws in table.words:
            out.append("abbrev pub %s_word : %s → ℕ\n" % (snake(n), n))
            for w, k in ws:
                out.append("%s_word %s.%s = %s\n" % (snake(n), n, w, k))
            out.append("\n")
        for n in self.ordered():
            generic = table.is_generic(n)
            take = "{T : Type 0} → (T → Tree) → " if generic else ""
            f = "f " if generic else ""
            out.append("abbrev pub view_%s : %s%s → Tree\n" % (snake(n), take, self.spec_name(n)))
            if n in table.fields_of:
                parts = ["s.span"]
                for g, t in table.fields_of[n]:
                    v = self.view_of(t, "s." + g)
                    parts.append("(%s)" % v if " " in v else v)
                out.append("view_%s %ss = %s\n\n" % (snake(n), f, " ".join([tree_name(n)] + parts)))
            else:
                for v, t in table.variants_of[n]:
                    tree = self.view_of(t, "x")
                    if (n, v) in APART:
                        tree = "%s %s" % (APART[n, v], "x.span" if t in table.fields_of else "(%s)" % tree)
                    out.append("view_%s %s(%s.%s x) = %s\n" % (snake(n), f, n, v, tree))
                out.append("\n")
        return "".join(out).rstrip("\n") + "\n"

    def fits_module(self):
        table = self.table
        out = [
            "-- Which trees of the code are well made: each child is of the sort of its place.\n",
            "use Rattle.std.specs.Prelude.{All, Option, Some, None}\n",
            "use %s.Placed.{Placed, holds_expr, holds_stmt, holds_pat}\n" % ROOT,
            self.spec_imports(),
            "\n-- that something holds of a part, if it is there\n"
            "abbrev pub fits_held : {A : Type 0} → (A → Type 0) → Option A → Type 0\n"
            "fits_held P None = Unit {0}\nfits_held P (Some x) = P x\n\n",
        ]
        for n in self.ordered():
            if not table.is_generic(n):
                continue
            out.append("abbrev pub fits_%s : {T : Type 0} → (T → Placed) → %s → Type 0\n" % (snake(n), self.spec_name(n)))
            if n in table.fields_of:
                facts = [self.fits_of(t, "s." + g) for g, t in table.fields_of[n]]
                facts = ["(%s)" % fact for fact in facts if fact]
                if len(facts) == 1:
                    facts = [facts[0][1:-1]]
                out.append("fits_%s f s = %s\n\n" % (snake(n), " × ".join(facts)))
            else:
                for v, t in table.variants_of[n]:
                    out.append("fits_%s f (%s.%s x) = %s\n" % (snake(n), n, v, self.fits_of(t, "x") or "Unit {0}"))
                out.append("\n")
        return "".join(out).rstrip("\n") + "\n"

    def deep_module(self):
        return Sizes(self).module()

    def lib_module(self):
        """The root of the crate."""
        table = self.table
        private = ["expr_box", "pat_box", "places", "questions", "sorts", "stmt_box"]
        out = [
            "//! The syntax tree in code: a struct for each kind of node, after swc's names. Expressions, statements and\n",
            "//! patterns are the sorts of children; each child stands in a box of its sort, and a contract sees the spec\n",
            "//! tree (`tree_spec`).\n#![tactic(auto)]\n\n",
        ]
        for m in sorted(private + ["knot", "law", "spine"] + table.modules):
            out.append("%smod %s;\n" % ("" if m in private else "pub ", m))
        out.append("\n")
        for m in sorted(table.modules + ["knot"]):
            if m == "knot":
                names = ["Child", "Expr", "ExprBox", "ExprTag", "Part", "PartKind", "Pat", "PatBox", "PatTag", "Program", "Stmt", "StmtBox", "StmtTag"]
            else:
                names = []
                for what, n in table.order:
                    if self.module_of(n) == m:
                        names += [n, n + "Of"] if what != "words" and table.is_generic(n) else [n]
            out.append("pub " + use_line(m, sorted(names, key=fmt_key), 4))
        return "".join(out)

    def files(self):
        out = {"%s/lib.rt" % SRC: self.lib_module()}
        for module in self.table.modules:
            out["%s/%s.rt" % (SRC, module)] = self.types_module(module)
        out["%s/places.rt" % SRC] = self.places_module()
        out["%s/View.antt" % SPECS] = self.view_module()
        out["%s/Fits.antt" % SPECS] = self.fits_module()
        out["%s/Sizes.antt" % SPECS] = self.deep_module()
        return out


def fmt_key(name):
    return name


def use_line(module, names, before=0):
    if len(names) == 1:
        return "use %s::%s;\n" % (module, names[0])
    line = "use %s::{%s};\n" % (module, ", ".join(names))
    if len(line) + before <= 101:
        return line
    out, row = "use %s::{\n" % module, "   "
    for n in names:
        if len(row) + len(n) + 2 > 100:
            out += row + "\n"
            row = "   "
        row += " " + n + ","
    return out + row + "\n};\n"

# The types that many crates let go, which have a drop of their own.
OWN_DROPS = {"Script", "Module", "ModuleItem"}


class Sizes:
    """The prover names what each field weighs by a count of the types below `kind`, each after its parts."""

    def __init__(self, nodes):
        self.nodes = nodes
        self.table = nodes.table
        self.lemmas = []
        self.used = []

    def weight(self, at):
        name = "weighed-%s-kind-at-%d" % (self.sort, at)
        self.used.append(name)
        return name

    def next(self):
        self.count += 1
        return self.count - 1

    def lemma(self, at):
        return "%s_%d" % (self.sort.lower(), at)

    def walk(self, text):
        """Counts the types in a type and writes the lemma on it; answers its count and the proof of its bound
        for a value, with whether the bound has two more."""
        table = self.table
        if not table.holds_child(text):
            self.next()
            return None
        t = inside(text, "Box")
        if t:
            at, proof, slack = self.walk(t)
            self.next()
            return at, lambda x: proof(x + ".value"), slack
        t = inside(text, "Vec")
        if t:
            inner, proof, _ = self.walk(t)
            at = self.next()
            elem = self.nodes.viewer(t)
            weigh = "(λ x. %s)" % self.weigh_of(inner, "x")
            fact = lambda x: "most_le %s %s (λ x. omega (arith, %s)) %s.items" % (weigh, elem, proof("x"), x)
            return at, fact, True
        t = inside(text, "Option") or inside(text, "Hole")
        if t:
            inner, proof, slack = self.walk(t)
            at = self.next()
            view = self.nodes.view_of(text, "s")
            name = self.lemma(at)
            self.lemmas.append(
                self.head(name, self.nodes.spec_rust(text), at, "tree_size (%s) + 2" % view)
                + "%s μ f h None = omega arith\n%s μ f h (Some x) = omega (arith, %s)\n" % (name, name, proof("x"))
            )
            return at, lambda x: "%s μ f h %s" % (name, x), True
        if text in SORTS:
            self.next()
            self.next()
            self.next()
            at = self.next()
            return at, lambda x: "h %s.part.value" % x, True
        return self.own(text)

    def weigh_of(self, at, x):
        return "(%s).weight _ μ %s" % (self.weight(at), x)

    def head(self, name, type_, at, bound):
        return (
            "%s : {T : Type 0} (μ : T → ℕ) (f : T → Tree) → ((x : T) → μ x ≤ tree_size (f x) + 2) → (s : %s) → (%s).weight T μ s ≤ %s\n"
            % (name, type_, self.weight(at), bound)
        )

    def own(self, n):
        table = self.table
        name_type = self.nodes.spec_name(n)
        if n in table.fields_of:
            self.next()
            facts = []
            for g, t in table.fields_of[n]:
                found = self.walk(t)
                if found:
                    facts.append(found[1]("s." + g))
            at = self.next()
            name = self.lemma(at)
            self.lemmas.append(
                self.head(name, name_type, at, "tree_size (view_%s f s)" % snake(n))
                + "%s μ f h s = omega (arith, %s)\n" % (name, ", ".join(facts))
            )
            return at, lambda x: "%s μ f h %s" % (name, x), False
        found = [(v, t, self.walk(t)) for v, t in table.variants_of[n]]
        at = self.next()
        name = self.lemma(at)
        slack = any(t in SORTS for _, t, _ in found) and n != "PatKind"
        text = self.head(name, name_type, at, "tree_size (view_%s f s)%s" % (snake(n), " + 2" if slack else ""))
        for v, t, w in found:
            text += "%s μ f h (%s.%s x) = omega %s\n" % (name, n, v, "(arith, %s)" % w[1]("x") if w else "arith")
        self.lemmas.append(text)
        return at, lambda x: "%s μ f h %s" % (name, x), slack

    def module(self):
        ends = []
        for sort in SORTS:
            self.sort, self.count = sort, 0
            at, _, _ = self.own(sort + "Kind")
            low = sort.lower()
            ends.append(
                "pub %s_falls : (k : %sKindOf Part) → deep-%s (record { kind = k }) ≤ tree_size (view_%s_kind inner k)\n"
                "%s_falls k = omega (arith, %s (λ p. placed_size p + 1) inner (λ x. omega arith) k)\n"
                % (low, sort, sort, low, low, self.lemma(at))
            )
        used = sorted(set(self.used), key=lambda n: (n.split("-")[1], int(n.split("-")[-1])))
        head = [
            "-- That each part of a tree is smaller than the tree, for recursion over the code's tree. The names of\n",
            "-- weights count the types below `kind`.\n",
            "use Rattle.std.specs.Prelude.{ℕ, ◌+◌, ◌≤◌, List, [], ◌∷◌, Option, Some, None}\n",
            "use Rattle.std.proofs.Common.{arith}\n",
            "use Rattle.tree_spec.specs.Tree.{Tree, list, trees_by, part_by, element_by}\n",
            "use Rattle.tree_spec.specs.Codes.{tree_size, trees_size}\n",
            "use %s.Placed.{inner, placed_size, part_tree}\n" % ROOT,
            "use %s.View.{%s}\n" % (ROOT, ", ".join("view_" + snake(n) for n in self.nodes.ordered())),
            "use %s.declared.knot.Part.{Part}\n" % ROOT,
            "use %s.declared.knot.PartKind.{PartKind}\n" % ROOT,
            "use %s.declared.knot.PartKind.TheVariants as PartKind\n" % ROOT,
            "use %s.declared.knot.Expr.TheDeep.{deep-Part, deep-Expr, deep-Stmt, deep-Pat}\n" % ROOT,
            "use %s.declared.knot.Expr.TheShapes.{%s}\n" % (ROOT, ", ".join(used)),
            "use Rattle.std.specs.declared.boxed.Box.{Box}\n",
            "use Rattle.std.specs.declared.vec.Vec.{Vec}\n",
            "use Rattle.std.specs.declared.alloc.Global.{Global}\n",
            "use %s.declared.knot.Child.{Child}\n" % ROOT,
            "use %s.declared.knot.ExprTag.{ExprTag}\n" % ROOT,
            "use %s.declared.knot.StmtTag.{StmtTag}\n" % ROOT,
            "use %s.declared.knot.PatTag.{PatTag}\n" % ROOT,
            "use denote.Param.Weighed.{most}\n",
            self.nodes.spec_imports(),
            "\nmost_le : {A : Type 0} (g : A → ℕ) (v : A → Tree) → ((x : A) → g x ≤ tree_size (v x) + 2) → (xs : List A) → most g xs ≤ trees_size (trees_by v xs) + 2\n",
            "most_le g v h [] = omega arith\n",
            "most_le g v h (x ∷ xs) = omega (arith, most_le g v h xs, h x)\n\n",
        ]
        part = [
            "pub part_falls : (k : PartKind) → deep-Part (record { sort = k }) ≤ placed_size (part_tree k)\n",
            "part_falls (PartKind.Expr x) = omega arith\n",
            "part_falls (PartKind.Stmt x) = omega arith\n",
            "part_falls (PartKind.Pat x) = omega arith\n",
        ]
        return "".join(head) + "\n".join(self.lemmas) + "\n" + "".join(part) + "\n" + "\n".join(ends)


def files(table):
    return Nodes(table).files()

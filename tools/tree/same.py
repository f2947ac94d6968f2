"""Writes whether two structs or enums of the code's tree are the same program, from the table."""

from equal import TEST
from nesting import WHAT
from node_types import inside, snake, use_line
from spec_tree import arguments, pattern, tree_imports
from table import APART, PLAIN, SORTS, tree_name

CRATE = "tree_same"
SRC = "crates/%s/src" % CRATE
SPECS = "crates/%s/specs" % CRATE
PROOFS = "crates/%s/proofs" % CRATE
ROOT = "Rattle.%s" % CRATE

# What a struct compares where it isn't field by field, and what its rule says of that.
OWN = {
    "ExprStmt": (
        ["self.expr.same(&other.expr) && self.expr.part.is_use_strict() == other.expr.part.is_use_strict()"],
        None,
    ),
    "NewExpr": (
        ["self.callee.same(&other.callee) && same_arguments(&self.args, &other.args)"],
        "same callee callee2 && same_arguments args args2",
    ),
    "TplElement": (
        ["self.tail == other.tail && same_cooked(&self.cooked, &other.cooked)"],
        "beq tail tail2 && equal_text cooked cooked2",
    ),
    "TaggedTpl": (["self.tag.same(&other.tag) && same_template(&self.tpl, &other.tpl)"], None),
    "Str": (["self.units == other.units"], None),
    "Number": (["self.value.is_same(&other.value)"], None),
    "BigInt": (["self.radix == other.radix && self.digits == other.digits"], None),
    "ExprOrSpread": (["self.spread.is_some() == other.spread.is_some() && self.expr.same(&other.expr)"], None),
    "RestPat": (["self.arg.same(&other.arg)"], "same arg arg2"),
}

# A function that stands behind the comparison of a struct, with what its contract names.
BEHIND = {
    "TaggedTpl": """/// Whether the templates behind two tags say the same: their texts are spelled alike.
pub(crate) fn same_template<T: Held>(tpl: &TplOf<T>, other: &TplOf<T>) -> bool
    ensures { result ≡ (same (list (trees_by (λ c. T.tree c.part.value) tpl.now.exprs.items)) (list (trees_by (λ c. T.tree c.part.value) other.now.exprs.items)) && same_spellings (trees_by view_tpl_element tpl.now.quasis.items) (trees_by view_tpl_element other.now.quasis.items)) }
{
    tpl.exprs.same(&other.exprs) && same_spellings(tpl.quasis.as_slice(), other.quasis.as_slice())
}

""",
}
BEHIND_USES = (
    """ghost use Rattle.std.specs.Prelude.{◌≡◌, ◌&&◌};
ghost use Rattle.tree_spec.specs.Tree.{trees_by, list};
ghost use Rattle.tree_program_spec.specs.Same.{same};
""",
    "ghost use %s.specs.Compared.{same_spellings};\n" % ROOT,
)

# Rules that are written by hand, in proofs/Spellings.antt.
BY_HAND = {"ExprStmt": "expr_stmt_rule", "TaggedTpl": "tagged_tpl_rule", "Number": "number_rule", "ExprOrSpread": "expr_or_spread_rule", "Str": "str_lit_rule", "BigInt": "big_int_lit_rule"}

# Enums with no comparison of their own: keys.
KEYS = {"PropName": "same_key", "Key": "same_member_key"}

# Types in which a block or a declaration stands beside a child.
SEEN = {"BlockStmtOrExpr", "ForHead", "VarDeclOrExpr", "ArrowExpr", "ForStmt", "ForInStmt", "ForOfStmt", "ExprKind", "StmtKind"}

# Enums in which a child stands beside nodes of other kinds.
MIXED = {"Callee", "ModuleItem", "BlockStmtOrExpr", "ForHead", "VarDeclOrExpr"}

# Enums that others have for a variant: their kinds have a number in common.
NESTED = ("Lit", "Decl", "ModuleDecl", "Prop")


class Same:
    def __init__(self, table):
        self.table = table

    def compare(self, field, text):
        """How a field is compared, or None where it isn't."""
        a, b = "self." + field, "other." + field
        if text in KEYS:
            return "%s(&%s, &%s)" % (KEYS[text], a, b)
        t = inside(text, "Vec")
        if t and inside(t, "Hole"):
            return "same_elements(%s.as_slice(), %s.as_slice())" % (a, b)
        if self.table.is_tree(text):
            return "%s.same(&%s)" % (a, b)
        if text == "Option<Atom>":
            return "same_hashbang(&%s, &%s)" % (a, b)
        if text in self.table.words_of or text in ("BinaryOp", "AssignOp"):
            return "same_%s(%s, %s)" % (snake(text), a, b)
        return "%s == %s" % (a, b)

    def struct_body(self, name):
        if name in OWN:
            return OWN[name][0]
        fields = self.table.fields_of[name]
        tests = [self.compare(f, t) for f, t in fields]
        if not tests:
            return ["true"]
        line = " && ".join(tests)
        if len(line) <= 80:
            return [line]
        return [tests[0]] + ["    && " + t for t in tests[1:]]

    def enum_body(self, name, own):
        arms = ["    (%s::%s(x), %s::%s(y)) => %s," % (own, v, own, v, self.arm(name, t)) for v, t in self.table.variants_of[name]]
        if name in ("BlockStmtOrExpr", "ForHead", "VarDeclOrExpr"):
            child = [v for v, t in self.table.variants_of[name] if t in SORTS][0]
            arms.append("    // For the proof: no child is a statement here; the calls bring that fact.")
            arms.append("    (%s::%s(x), _) => is_statement(x)," % (own, child))
            arms.append("    (_, %s::%s(y)) => is_statement(y)," % (own, child))
        elif name in MIXED:
            child = [v for v, t in self.table.variants_of[name] if t in SORTS][0]
            arms.append("    // For the proof: a part is always a node; the calls bring that fact.")
            arms.append("    (%s::%s(x), _) => !x.part.is_node()," % (own, child))
            arms.append("    (_, %s::%s(y)) => !y.part.is_node()," % (own, child))
        if len([1 for v, t in self.table.variants_of[name] if t not in SORTS or name not in MIXED]) > 1:
            arms.append("    _ => false,")
        return ["match (self, other) {"] + arms + ["}"]

    def arm(self, name, text):
        if text in SORTS and name in ("BlockStmtOrExpr", "ForHead", "VarDeclOrExpr"):
            return "same_in_place(x, y)"
        return "x.same(y)"

    def left_out(self):
        """The types of parts that may be left out, but for children."""
        names = set()
        for _, fields in self.table.structs:
            for _, text in fields:
                t = inside(text, "Vec") or text
                t = inside(t, "Option") or inside(t, "Hole")
                if t:
                    t = inside(t, "Box") or t
                    if t in self.table.fields_of or t in self.table.variants_of:
                        names.add(t)
        return names

    def present_body(self, name, own):
        if name in self.table.fields_of:
            return ["false"]
        variants = self.table.variants_of[name]
        out = ["match self {"]
        if not any(t in SORTS for _, t in variants):
            out.insert(0, "// For the proof: the match shows which it is, and by it none is left out.")
        for v, t in variants:
            if t in SORTS:
                out.append("    // For the proof: a child is never left out; the call brings that fact.")
                out.append("    %s::%s(x) => is_nothing(x)," % (own, v))
            else:
                out.append("    %s::%s(_) => false," % (own, v))
        return out + ["}"]

    def ghost(self, name):
        if name in SEEN:
            return "seen_%s T.in_stmt T.tree" % snake(name)
        return "view_%s%s" % (snake(name), " T.tree" if self.table.is_generic(name) else "")

    def rule(self, name):
        """The lemma that its comparison rests on."""
        if name in BY_HAND:
            return "Spellings::" + BY_HAND[name]
        if name in self.table.fields_of:
            return "Rules::%s_rule" % tree_name(name)
        if name in MIXED:
            return "Mixed::%s_cases" % snake(name)
        if any(e == name for e, _ in APART):
            return "Apart::%s_cases" % snake(name)
        return "Apart::%s_apart" % snake(name)

    def module(self, module):
        table = self.table
        body, names, views, seen, helpers = [], [], [], [], {"Same"}
        present = self.left_out()
        for what, n in table.order:
            if what == "words" or table.module_of[n] != module or n in KEYS:
                continue
            generic = table.is_generic(n)
            own = n + "Of" if generic else n
            lines = self.struct_body(n) if what == "struct" else self.enum_body(n, own)
            text = "\n".join(lines) + BEHIND.get(n, "")
            for helper in HELPERS:
                if helper + "(" in text:
                    helpers.add(helper)
            if generic:
                helpers.add("Held")
            names.append(own)
            (seen if n in SEEN else views).append(("seen_" if n in SEEN else "view_") + snake(n))
            over = "<T: Held>" if generic else ""
            of = "%s<T>" % own if generic else own
            other = "other"
            if "other" not in text:
                other = "_other"
            body.append("impl%s Same for %s {\n    ghost tree = { %s };\n\n" % (over, of, self.ghost(n)))
            body.append("    #[tactic(auto, using(crate::proofs::%s))]\n" % self.rule(n))
            body.append("    fn same(&self, %s: &%s) -> bool {\n%s    }\n}\n\n" % (other, of, "".join("        %s\n" % line for line in lines)))
            body.append(BEHIND.get(n, ""))
            if n in present:
                helpers.add("Present")
                lines = self.present_body(n, own)
                if "is_nothing(" in "".join(lines):
                    helpers.add("is_nothing")
                body.append("impl%s Present for %s {\n" % (over, of))
                body.append("    fn is_left_out(&self) -> bool {\n%s    }\n}\n\n" % "".join("        %s\n" % line for line in lines))
        before, after = BEHIND_USES if any(table.module_of[n] == module for n in BEHIND) else ("", "")
        head = "//! Whether %s say the same.\n" % WHAT[module] + before
        if views:
            head += "ghost use Rattle.tree_nodes.specs.View.{%s};\n" % ", ".join(views)
        head += after
        if seen:
            head += "ghost use %s.specs.Seen.{%s};\n" % (ROOT, ", ".join(seen))
        head += "\n"
        where = {}
        for h in helpers:
            where.setdefault(HELPERS.get(h, "parts"), []).append(h)
        for m, hs in sorted(where.items()):
            head += use_line("crate::" + m, sorted(hs, key=lambda n: (n[0].islower(), n)))
        head += use_line("tree_nodes", sorted(names))
        return head + "\n" + "".join(body).rstrip("\n") + "\n"

    # proofs

    def test(self, name, field, spec, text):
        if text in KEYS:
            return "same_keys %s %s2" % (field, field)
        if spec == "Tree":
            return "same %s %s2" % (field, field)
        if spec == "Trees":
            return "same (list %s) (list %s2)" % (field, field)
        return "%s %s %s2" % (TEST[spec], field, field)

    def rules_module(self):
        table = self.table
        out = [RULES_HEAD, tree_imports(table), "\n"]
        structs = {struct: name for name, struct, _ in table.trees()}
        for name, struct, fields in table.trees():
            if struct in BY_HAND or struct not in table.fields_of:
                continue
            args = arguments(fields)
            second = [a + "2" for a in args]
            types = dict(table.fields_of[struct])
            if struct in OWN:
                what = OWN[struct][1]
            else:
                tests = [self.test(struct, a, s, types[f]) for a, (f, s) in zip(args[1:], fields[1:])]
                what = nested(tests) or "true"
            binders = "".join(" (%s %s : %s)" % (a, a2, s) for a, a2, (_, s) in zip(args, second, fields))
            out.append("pub %s_rule :%s → same %s %s ≡ (%s)\n" % (name, binders, pattern(name, args), pattern(name, second), what))
            out.append("unfolding same same_keys same_arguments\n")
            out.append("%s_rule %s = refl\n\n" % (name, " ".join(a + " " + a2 for a, a2 in zip(args, second))))
        return "".join(out).rstrip("\n") + "\n"

    def kinds(self, name):
        """The spec trees that an enum stands for, without those of its children."""
        out = []
        for v, t in self.table.variants_of[name]:
            t = inside(t, "Box") or t
            if (name, v) in APART:
                out.append(APART[name, v])
            elif t in self.table.fields_of:
                out.append(tree_name(t))
            elif t in self.table.variants_of:
                out += self.kinds(t)
        return out

    def sorts_module(self):
        fields = {name: len(fs) for name, _, fs in self.table.trees()}
        stmts, exprs, pats = self.kinds("StmtKind"), self.kinds("ExprKind"), self.kinds("PatKind")
        out = [SORTS_HEAD, tree_imports(self.table), "\n-- whether it is a statement or a declaration\nabbrev pub is_statement : Tree → Bool\n"]
        for k in stmts:
            out.append("is_statement (%s%s) = true\n" % (k, " _" * fields[k]))
        out.append("is_statement t = false\n\n-- whether it is a pattern\nabbrev pub is_pattern : Tree → Bool\n")
        for k in pats:
            out.append("is_pattern (%s%s) = true\n" % (k, " _" * fields[k]))
        out.append("is_pattern t = false\n\n-- whether it is an expression, a statement or a pattern\nabbrev pub is_node : Tree → Bool\n")
        for k in stmts + exprs + pats:
            out.append("is_node (%s%s) = true\n" % (k, " _" * fields[k]))
        out.append("is_node t = false\n")
        return "".join(out) + SORTS_TAIL

    def numbers(self):
        return {name: i for i, (name, _, _) in enumerate(self.table.trees())}

    def number_of(self, enum, variant, text, numbers):
        t = inside(text, "Box") or text
        if (enum, variant) in APART:
            return numbers[APART[enum, variant]]
        if t in NESTED and enum not in NESTED:
            return 200 + NESTED.index(t)
        n = numbers[tree_name(t)]
        if enum not in NESTED:
            for i, e in enumerate(NESTED):
                if tree_name(t) in self.kinds(e):
                    n = 200 + i
        return n

    def apart_module(self):
        table = self.table
        numbers = self.numbers()
        trees = table.trees()
        enums = [n for what, n in table.order if what == "enum" and n not in KEYS and n not in MIXED]
        views = ["view_" + snake(n) for n in enums if n not in SEEN]
        out = [APART_HEAD % ", ".join(views), tree_imports(table)]
        for n in enums:
            name = n + "Of" if table.is_generic(n) else n
            m = "Rattle.tree_nodes.specs.declared.%s.%s" % (table.module_of[n], name)
            out.append("use %s.{%s}\nuse %s.TheVariants as %s\n" % (m, name, m, n))
        out.append("\n-- a number for each kind\nabbrev tag : Tree → ℕ\n")
        for name, _, fields in trees:
            out.append("tag %s = %d\n" % (pattern(name, ["_"] * len(fields)), numbers[name]))
        out.append("\n-- the same, but for kinds that an enum takes together\nabbrev group : Tree → ℕ\n")
        for i, e in enumerate(NESTED):
            for k in self.kinds(e):
                count = [len(fs) for name, _, fs in trees if name == k][0]
                out.append("group %s = %d\n" % (pattern(k, ["_"] * count), 200 + i))
        out.append("group t = tag t\n")
        out.append(APART_LEMMAS)
        for n in sorted(enums, key=lambda n: n not in NESTED):
            out.append(self.enum_lemmas(n, numbers))
        return "".join(out).rstrip("\n") + "\n"

    def enum_lemmas(self, n, numbers):
        table = self.table
        generic = table.is_generic(n)
        test = "tag" if n in NESTED else "group"
        take, f, of = ("{T : Type 0} ", "f ", n + "Of T") if generic else ("", "", n)
        view = "view_" + snake(n)
        context = "(f : T → Tree) → " if generic else ""
        if n in SEEN:
            view, f = "seen_" + snake(n), "s f "
            context = "(s : T → Bool) (f : T → Tree) → "
        if generic:
            context = "{T : Type 0} " + context
        i = "%s_index" % snake(n)
        out = ["\nabbrev %s : %s%s → ℕ\n" % (i, "{T : Type 0} → " if generic else "", of)]
        for v, t in table.variants_of[n]:
            out.append("%s (%s.%s x) = %d\n" % (i, n, v, self.number_of(n, v, t, numbers)))
        out.append("\n%s_number : %s(k : %s) → %s (%s %sk) ≡ %s k\n" % (snake(n), context, of, test, view, f, i))
        for v, t in table.variants_of[n]:
            t = inside(t, "Box")  or t
            boxed = inside(dict(table.variants_of[n])[v], "Box")
            if t in NESTED:
                arg = "x.value" if boxed else "x"
                proof = "%s_together %s%s" % (snake(t), "f " if table.is_generic(t) else "", arg)
            else:
                proof = "refl"
            out.append("%s_number %s(%s.%s x) = %s\n" % (snake(n), f, n, v, proof))
        if n in NESTED:
            out.append("\n%s_together : %s(k : %s) → group (%s %sk) ≡ %d\n" % (snake(n), context, of, view, f, 200 + NESTED.index(n)))
            for v, t in table.variants_of[n]:
                out.append("%s_together %s(%s.%s x) = refl\n" % (snake(n), f, n, v))
        out.append(
            "\npub %s_apart : %s(a b : %s) → nat_eq (%s a) (%s b) ≡ false → false ≡ same (%s %sa) (%s %sb)\n"
            % (snake(n), context, of, i, i, view, f, view, f)
        )
        out.append(
            "%s_apart %sa b h = by_%s (%s %sa) (%s %sb) (rw (%s_number %sa) (rw (%s_number %sb) h))\n"
            % (snake(n), f, test, view, f, view, f, snake(n), f, snake(n), f)
        )
        apart = [(t, a) for (e, v), a in APART.items() if e == n for t in [dict(table.variants_of[n])[v]]]
        for t, a in apart:
            if t in table.fields_of:
                out.append("\npub %s_rule : (s s2 : Span) → same (%s s) (%s s2) ≡ same (%s s) (%s s2)\n" % (a, a, a, tree_name(t), tree_name(t)))
                out.append("unfolding same\n%s_rule s s2 = refl\n" % a)
            else:
                out.append("\npub %s_rule : (t u : Tree) → same (%s t) (%s u) ≡ same t u\nunfolding same\n%s_rule t u = refl\n" % (a, a, a, a))
        if apart:
            out.append("\npub ruleset %s_cases = (%s)\n" % (snake(n), ", ".join(["%s_apart" % snake(n)] + [a + "_rule" for _, a in apart])))
        return "".join(out)


def nested(items):
    """All of some tests."""
    if len(items) < 3:
        return " && ".join(items)
    return "%s && (%s)" % (items[0], nested(items[1:]))


# The module of each function that is shared.
HELPERS = {
    "same_key": "keys",
    "same_member_key": "keys",
    "same_arguments": "parts",
    "same_elements": "parts",
    "same_in_place": "parts",
    "is_statement": "parts",
    "is_nothing": "parts",
    "same_cooked": "texts",
    "same_hashbang": "texts",
    "same_spellings": "texts",
    "same_binary_op": "words",
    "same_assign_op": "words",
    "same_unary_op": "words",
    "same_update_op": "words",
    "same_meta_prop_kind": "words",
    "same_var_decl_kind": "words",
    "same_method_kind": "words",
}

RULES_HEAD = """-- Two trees of one kind are the same program where their fields are.
use Rattle.std.proofs.Common.{◌≡◌, ℕ, Bool, true, ◌&&◌, nat_eq, List, Option, bytes_eq, refl}
use Rattle.std.proofs.Math.Bool.{beq}
use Rattle.base_token.specs.declared.place.Span.{Span}
use Rattle.base_number.specs.Numbers.{SpecNumber}
use Rattle.tree_program_spec.specs.Equal.{equal_text}
use Rattle.tree_program_spec.specs.Same.{same}
use Rattle.tree_same.specs.Compared.{same_keys, same_arguments}
"""

SORTS_HEAD = """-- Which trees stand in which places.
use Rattle.std.specs.Prelude.{Bool, true, false}
"""

SORTS_TAIL = """
-- whether it stands for what is left out
abbrev pub is_left_out : Tree → Bool
is_left_out absent = true
is_left_out hole = true
is_left_out t = false
"""

APART_HEAD = """-- Trees of different kinds are not the same program.
use Rattle.std.proofs.Common.{◌≡◌, ℕ, Bool, true, false, nat_eq, refl, sym, ap, ◌∙◌, subst}
use Rattle.std.specs.Bool.{Decides}
use Rattle.std.proofs.lemmas.Bool.Decides.{Decides-eqb}
use Rattle.base_token.specs.declared.place.Span.{Span}
use Rattle.tree_program_spec.specs.Program.{program}
use Rattle.tree_program_spec.specs.Same.{same}
use Rattle.tree_program_spec.proofs.SameLemmas.{same_decides}
use Rattle.tree_same.specs.Sorts.{is_statement, is_node, is_left_out}
use Rattle.tree_same.specs.Seen.{seen_expr_kind, seen_stmt_kind}
use Rattle.tree_nodes.specs.View.{%s}
"""

APART_LEMMAS = """
clash : {A : Type 0} → true ≡ false → A
clash h = absurd cc

tag_kept : (t : Tree) → tag (program t) ≡ tag t
tag_kept absent = refl
tag_kept t = refl

group_kept : (t : Tree) → group (program t) ≡ group t
group_kept absent = refl
group_kept t = refl

-- what is false unless it is true
false_unless : (b : Bool) → (b ≡ true → ⊥) → false ≡ b
false_unless true h = absurd (h refl)
false_unless false h = refl

by_number : (test : Tree → ℕ) (kept : (t : Tree) → test (program t) ≡ test t) (t u : Tree) → nat_eq (test t) (test u) ≡ false → false ≡ same t u
by_number test kept t u h = false_unless (same t u) (λ s. clash (sym ((Decides-eqb (test t) (test u)).1 (sym (kept t) ∙ (ap test ((same_decides t u).0 s) ∙ kept u))) ∙ h))

by_tag : (t u : Tree) → nat_eq (tag t) (tag u) ≡ false → false ≡ same t u
by_tag = by_number tag tag_kept

by_group : (t u : Tree) → nat_eq (group t) (group u) ≡ false → false ≡ same t u
by_group = by_number group group_kept
"""


def files(table):
    same = Same(table)
    out = {"%s/%s.rt" % (SRC, m): same.module(m) for m in table.modules}
    out[SPECS + "/Sorts.antt"] = same.sorts_module()
    out[PROOFS + "/Rules.antt"] = same.rules_module()
    out[PROOFS + "/Apart.antt"] = same.apart_module()
    return out

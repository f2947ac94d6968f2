"""Writes the test of whether two trees are equal, and its proof, from the table."""

from spec_tree import arguments, pattern, tree_imports

CRATE = "crates/tree_program_spec"

# The test of equality of each type of a field, and its lemmas' stem.
TEST = {
    "Tree": "equal",
    "Trees": "equal_all",
    "Span": "equal_span",
    "ℕ": "nat_eq",
    "Bool": "beq",
    "List ℕ": "bytes_eq",
    "Option (List ℕ)": "equal_text",
    "Option Span": "equal_place",
    "SpecNumber": "equal_number",
}

EQUAL_HEAD = """-- Whether two trees are equal, as a test: kind by kind, and field by field.
use Rattle.std.specs.Prelude.{ℕ, Bool, true, false, ◌&&◌, nat_eq, List, Option, Some, None, bytes_eq}
use Rattle.std.specs.Ordering.{int_eq}
use Rattle.std.proofs.Math.Bool.{beq}
use Rattle.base_token.specs.declared.place.Span.{Span}
use Rattle.base_number.specs.Numbers.{SpecNumber, Scaled, InRadix}
"""

EQUAL_PARTS = """
abbrev pub equal_span : Span → Span → Bool
equal_span a b = nat_eq a.lo.0 b.lo.0 && nat_eq a.hi.0 b.hi.0

abbrev pub equal_place : Option Span → Option Span → Bool
equal_place None None = true
equal_place (Some a) (Some b) = equal_span a b
equal_place a b = false

abbrev pub equal_text : Option (List ℕ) → Option (List ℕ) → Bool
equal_text None None = true
equal_text (Some a) (Some b) = bytes_eq a b
equal_text a b = false

abbrev pub equal_number : SpecNumber → SpecNumber → Bool
equal_number (Scaled digits exponent) (Scaled digits2 exponent2) = bytes_eq digits digits2 && int_eq exponent exponent2
equal_number (InRadix radix digits) (InRadix radix2 digits2) = nat_eq radix radix2 && bytes_eq digits digits2
equal_number a b = false

abbrev mutual
  pub equal : Tree → Tree → Bool
"""

EQUAL_TAIL = """  equal t u = false

  pub equal_all : Trees → Trees → Bool
  equal_all none none = true
  equal_all (more t ts) (more u us) = equal t u && equal_all ts us
  equal_all ts us = false
"""


def second(args):
    return [a + "2" for a in args]


def tests(fields, args):
    return ["%s %s %s2" % (TEST[t], a, a) for a, (_, t) in zip(args, fields)]


def nested(items):
    """All of some tests."""
    if len(items) < 3:
        return " && ".join(items)
    return "%s && (%s)" % (items[0], nested(items[1:]))


# How many fields a kind has, in words.
COUNTS = {2: "two", 3: "three", 4: "four", 5: "five", 6: "six"}


def equal_module(table):
    out = [EQUAL_HEAD, tree_imports(table), EQUAL_PARTS]
    for name, _, fields in table.trees():
        args = arguments(fields)
        what = nested(tests(fields, args)) or "true"
        out.append("  equal %s %s = %s\n" % (pattern(name, args), pattern(name, second(args)), what))
    return "".join(out) + EQUAL_TAIL


LEMMAS_HEAD = """-- That the test of equality is one.
use Rattle.std.proofs.Common.{◌≡◌, ◌∙◌, ℕ, Bool, true, false, ◌&&◌, nat_eq, List, Option, Some, None, bytes_eq, refl, ap}
use Rattle.std.specs.Ordering.{int_eq}
use Rattle.std.specs.Bool.{Decides}
use Rattle.std.proofs.Math.Bool.{beq}
use Rattle.std.proofs.lemmas.Bool.{and_parts}
use Rattle.std.proofs.lemmas.Bool.Decides.{Decides-eqb, Decides-int_eq}
use Rattle.std.proofs.lemmas.Slice.Eq.{bytes_eq-Decides}
use Rattle.base_token.specs.declared.place.Span.{Span}
use Rattle.base_token.specs.declared.place.BytePos.{BytePos}
use Rattle.base_number.specs.Numbers.{SpecNumber, Scaled, InRadix}
use Rattle.tree_program_spec.specs.Equal.{equal_span, equal_place, equal_text, equal_number, equal, equal_all}
"""

LEMMAS_PARTS = """
no : {A : Type 0} → false ≡ true → A
no h = absurd cc

both : {x y : Bool} → x ≡ true → y ≡ true → (x && y) ≡ true
both h k = rw h k

same_nat_eq : (n : ℕ) → nat_eq n n ≡ true
same_nat_eq n = (Decides-eqb n n).1 refl

from_nat_eq : (n m : ℕ) → nat_eq n m ≡ true → n ≡ m
from_nat_eq n m = (Decides-eqb n m).0

same_beq : (a : Bool) → beq a a ≡ true
same_beq true = refl
same_beq false = refl

from_beq : (a b : Bool) → beq a b ≡ true → a ≡ b
from_beq true true h = refl
from_beq false false h = refl
from_beq true false h = no h
from_beq false true h = no h

same_bytes_eq : (s : List ℕ) → bytes_eq s s ≡ true
same_bytes_eq s = (bytes_eq-Decides s s).1 refl

from_bytes_eq : (s s2 : List ℕ) → bytes_eq s s2 ≡ true → s ≡ s2
from_bytes_eq s s2 = (bytes_eq-Decides s s2).0

same_equal_span : (a : Span) → equal_span a a ≡ true
same_equal_span a = both (same_nat_eq a.lo.0) (same_nat_eq a.hi.0)

abbrev span_at : ℕ → ℕ → Span
span_at lo hi = record { lo = record { 0 = lo }; hi = record { 0 = hi } }

from_equal_span : (a b : Span) → equal_span a b ≡ true → a ≡ b
from_equal_span a b h =
    let k = and_parts (nat_eq a.lo.0 b.lo.0) (nat_eq a.hi.0 b.hi.0) h in
    ap (λ n. span_at n a.hi.0) (from_nat_eq a.lo.0 b.lo.0 k.0) ∙ ap (λ n. span_at b.lo.0 n) (from_nat_eq a.hi.0 b.hi.0 k.1)

same_equal_place : (a : Option Span) → equal_place a a ≡ true
same_equal_place None = refl
same_equal_place (Some a) = same_equal_span a

from_equal_place : (a b : Option Span) → equal_place a b ≡ true → a ≡ b
from_equal_place None None h = refl
from_equal_place (Some a) (Some b) h = ap (λ s. Some s) (from_equal_span a b h)
from_equal_place None (Some b) h = no h
from_equal_place (Some a) None h = no h

same_equal_text : (a : Option (List ℕ)) → equal_text a a ≡ true
same_equal_text None = refl
same_equal_text (Some a) = same_bytes_eq a

from_equal_text : (a b : Option (List ℕ)) → equal_text a b ≡ true → a ≡ b
from_equal_text None None h = refl
from_equal_text (Some a) (Some b) h = ap (λ s. Some s) (from_bytes_eq a b h)
from_equal_text None (Some b) h = no h
from_equal_text (Some a) None h = no h

same_equal_number : (a : SpecNumber) → equal_number a a ≡ true
same_equal_number (Scaled digits exponent) = both (same_bytes_eq digits) ((Decides-int_eq exponent exponent).1 refl)
same_equal_number (InRadix radix digits) = both (same_nat_eq radix) (same_bytes_eq digits)

from_equal_number : (a b : SpecNumber) → equal_number a b ≡ true → a ≡ b
from_equal_number (Scaled d e) (Scaled d2 e2) h =
    let k = and_parts (bytes_eq d d2) (int_eq e e2) h in
    ap (λ x. Scaled x e) (from_bytes_eq d d2 k.0) ∙ ap (λ x. Scaled d2 x) ((Decides-int_eq e e2).0 k.1)
from_equal_number (InRadix r d) (InRadix r2 d2) h =
    let k = and_parts (nat_eq r r2) (bytes_eq d d2) h in
    ap (λ x. InRadix x d) (from_nat_eq r r2 k.0) ∙ ap (λ x. InRadix r2 x) (from_bytes_eq d d2 k.1)
from_equal_number (Scaled d e) (InRadix r d2) h = no h
from_equal_number (InRadix r d) (Scaled d2 e) h = no h

"""

LEMMAS_SAME = """mutual
  same_equal : (t : Tree) → equal t t ≡ true
"""

LEMMAS_MIDDLE = """
  same_equal_all : (ts : Trees) → equal_all ts ts ≡ true
  same_equal_all none = refl
  same_equal_all (more t ts) = both (same_equal t) (same_equal_all ts)

mutual
  from_equal : (t u : Tree) → equal t u ≡ true → t ≡ u
"""

LEMMAS_TAIL = """  from_equal t u h = no h

  from_equal_all : (ts us : Trees) → equal_all ts us ≡ true → ts ≡ us
  from_equal_all none none h = refl
  from_equal_all (more t ts) (more u us) h =
      let k = and_parts (equal t u) (equal_all ts us) h in
      ap (λ x. more x ts) (from_equal t u k.0) ∙ ap (λ x. more u x) (from_equal_all ts us k.1)
  from_equal_all ts us h = no h

-- the test says of two trees whether they are equal
pub equal_decides : (t u : Tree) → Decides (equal t u) (t ≡ u)
equal_decides t u = (from_equal t u, λ h. rw h (same_equal u))
"""


def each_of(n):
    """The lemma that each of N tests holds where all do: of two it is the toolchain's."""
    return "and_parts" if n == 2 else "each_of_%s" % COUNTS[n]


def families():
    """For each number of fields: that each of some tests holds where all do, and that what is made of equal fields is equal."""
    out = []
    for n, word in COUNTS.items():
        if n == 2:
            continue
        tests = list("abcdef"[:n])
        held = " × ".join("(%s ≡ true)" % it for it in tests)
        out.append("each_of_%s : (%s : Bool) → (%s) ≡ true → %s\n" % (word, " ".join(tests), nested(tests), held))
        parts = ", ".join("l.%d" % i for i in range(n - 1))
        out.append("each_of_%s %s h = let k = and_parts a (%s) h in let l = %s %s k.1 in (k.0, %s)\n\n" % (word, " ".join(tests), nested(tests[1:]), each_of(n - 1), " ".join(tests[1:]), parts))
    for n, word in COUNTS.items():
        own = list("abcdef"[:n])
        types = [it.upper() for it in own]
        given = " ".join("{%s %s2 : %s}" % (it, it, it.upper()) for it in own)
        equal = " → ".join("%s ≡ %s2" % (it, it) for it in own)
        out.append("congr_%s : {%s X : Type 0} (make : %s → X) %s\n" % (word, " ".join(types), " → ".join(types), given))
        out.append("    → %s → make %s ≡ make %s\n" % (equal, " ".join(own), " ".join(second(own))))
        hidden = " ".join("{%s = %s} {%s2 = %s2}" % (it, it, it, it) for it in own)
        steps = ["ap (λ x. make %s) p%s" % (" ".join(second(own[:i]) + ["x"] + own[i + 1 :]), own[i]) for i in range(n)]
        out.append("congr_%s make %s %s =\n    %s\n\n" % (word, hidden, " ".join("p" + it for it in own), " ∙ ".join(steps)))
    return "".join(out)


def from_clause(name, fields, args):
    """Each field is equal, and so the trees are."""
    checks, lemmas = tests(fields, args), ["from_" + TEST[t] for _, t in fields]
    if not args:
        return "refl"
    if len(args) == 1:
        return "ap (λ x. %s x) (%s %s %s2 h)" % (name, lemmas[0], args[0], args[0])
    count = COUNTS[len(args)]
    split = "%s %s h" % (each_of(len(args)), " ".join("(%s)" % it for it in checks))
    facts = ["(%s %s %s2 k.%d)" % (lemma, a, a, i) for i, (lemma, a) in enumerate(zip(lemmas, args))]
    names = "abcdef"[: len(args)]
    return "let k = %s in congr_%s (λ %s. %s %s) %s" % (split, count, " ".join(names), name, " ".join(names), " ".join(facts))


def lemmas_module(table):
    out = [LEMMAS_HEAD, tree_imports(table), LEMMAS_PARTS, families(), LEMMAS_SAME]
    for name, _, fields in table.trees():
        args = arguments(fields)
        facts = ["(same_%s %s)" % (TEST[t], a) for a, (_, t) in zip(args, fields)]
        proof = facts[-1][1:-1] if facts else "refl"
        for fact in reversed(facts[:-1]):
            proof = "both %s (%s)" % (fact, proof)
        out.append("  same_equal %s = %s\n" % (pattern(name, args), proof))
    out.append(LEMMAS_MIDDLE)
    for name, _, fields in table.trees():
        args = arguments(fields)
        left = "%s %s" % (pattern(name, args), pattern(name, second(args)))
        out.append("  from_equal %s h = %s\n" % (left, from_clause(name, fields, args)))
    return "".join(out) + LEMMAS_TAIL


def files(table):
    return {
        CRATE + "/specs/Equal.antt": equal_module(table),
        CRATE + "/proofs/EqualLemmas.antt": lemmas_module(table),
    }

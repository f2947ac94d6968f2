"""Writes the definition of a tree's program, what it says without places and spellings, from the table."""

from spec_tree import arguments, pattern, tree_imports

OUT = "crates/tree_program_spec/specs"

HEAD = """-- What a tree says: the tree without places, and without what only tells how something is spelled.
use Rattle.std.specs.Prelude.{◌≡◌, ℕ, Bool, true, false, not, ◌&&◌, ◌==◌, if◌then◌else◌, List, [], ◌∷◌, Option, Some, None, codes, bytes_eq}
use Rattle.std.specs.List.{list_any}
use Rattle.std.specs.Str.{chars}
use Rattle.base_token.specs.declared.place.Span.{Span}
use Rattle.base_token.specs.Utf16.{utf16}
use Rattle.tree_spec.specs.Places.{no_place}
"""

PARTS = """
-- whether a place is there
abbrev pub placed : Option Span → Option Span
placed None = None
placed (Some span) = Some no_place

-- the key of a property (13.2.5): a word is the string of its text
abbrev pub property_key : Tree → Tree
property_key (ident_name span sym) = str_lit no_place (utf16 (chars sym)) None
property_key t = t

-- the arguments of `new` (13.3.5): none at all are an empty list
abbrev pub arguments : Tree → Tree
arguments absent = list none
arguments t = t

-- whether a spelling has an escape or a continued line; a string without spelling has none
abbrev pub is_escaped : Option (List ℕ) → Bool
is_escaped None = false
is_escaped (Some raw) = list_any (λ b. b == 92) raw

-- An expression as a statement (11.2.1, 14.5): a string also tells whether it is `use strict` without an escape.
abbrev pub stated : Tree → Tree → Tree
stated (str_lit span units raw) program_ =
    if bytes_eq units (codes "use strict") && not (is_escaped raw) then str_lit no_place units (Some []) else program_
stated t program_ = program_

-- line ends as templates have them (12.9.6): CR LF and CR are LF; the flag says that a CR came right before
abbrev pub line_ends_after : Bool → List ℕ → List ℕ
line_ends_after past_cr [] = []
line_ends_after past_cr (c ∷ cs) =
    if c == 13 then 10 ∷ line_ends_after true cs
    else (if past_cr && (c == 10) then line_ends_after false cs else c ∷ line_ends_after false cs)

abbrev pub line_ends : List ℕ → List ℕ
line_ends text = line_ends_after false text

-- the texts of a tagged template (13.2.8.4): what counts is their spelling
abbrev pub texts : Trees → Trees
texts none = none
texts (more (tpl_element span tail raw cooked) us) = more (tpl_element no_place tail (line_ends raw) None) (texts us)
texts (more t us) = more t (texts us)

-- a template behind its tag, as spelled, with what its expressions say
abbrev pub with_texts : Trees → Tree → Tree
with_texts us (tpl span exprs quasis) = tpl span exprs us
with_texts us t = t

abbrev pub spelled : Tree → Tree → Tree
spelled (tpl span exprs quasis) program_ = with_texts (texts quasis) program_
spelled t program_ = program_

-- The program of a tree: no place is kept. Of a string, a number and a big integer the value is kept, of an untagged template its units.
abbrev mutual
  pub program : Tree → Tree
"""

SPECIAL = {
    "str_lit": ("str_lit span units raw", "str_lit no_place units None"),
    "number_lit": ("number_lit span value raw", "number_lit no_place value None"),
    "big_int_lit": ("big_int_lit span radix digits raw", "big_int_lit no_place radix digits None"),
    "tpl_element": ("tpl_element span tail raw cooked", "tpl_element no_place tail [] cooked"),
    "tagged_tpl": ("tagged_tpl span tag tpl_", "tagged_tpl no_place (program tag) (spelled tpl_ (program tpl_))"),
    "expr_stmt": ("expr_stmt span expr", "expr_stmt no_place (stated expr (program expr))"),
    "new_expr": ("new_expr span callee args", "new_expr no_place (program callee) (arguments (program args))"),
}

TAIL = """
  pub programs : Trees → Trees
  programs none = none
  programs (more t ts) = more (program t) (programs ts)

-- Two trees are the same program.
abbrev pub IsSameProgram : Tree → Tree → Type 0
IsSameProgram t u = program t ≡ program u
"""


def said(name, text, spec):
    """What a field becomes."""
    if text in ("PropName", "Key"):
        return "(property_key (program %s))" % name
    return {
        "Tree": "(program %s)",
        "Trees": "(programs %s)",
        "Span": "no_place",
        "Option Span": "(placed %s)",
    }.get(spec, "%s").replace("%s", name)


def program_module(table):
    out = [HEAD, tree_imports(table), PARTS]
    for name, struct, fields in table.trees():
        if name in SPECIAL:
            left, right = SPECIAL[name]
        else:
            texts = dict(table.fields_of.get(struct, []))
            args = arguments(fields)
            left = pattern(name, args).strip("()")
            right = pattern(name, [said(a, texts.get(f), t) for a, (f, t) in zip(args, fields)])
            right = right[1:-1] if args else right
        out.append("  program %s = %s\n" % ("(%s)" % left if " " in left else left, right))
    return "".join(out) + TAIL


def files(table):
    return {OUT + "/Program.antt": program_module(table), OUT + "/Lib.antt": "pub mod Program\npub mod Equal\npub mod Same\npub mod Laws\npub mod EqualLaws\npub mod Names\n"}

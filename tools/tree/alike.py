"""Writes that the layout of a tree given anew is alike, from the proof that the layout of a tree with less in it is. Each part of a tree
given anew has a mode, which goes with how it stands, and each lemma that takes one is asked with it."""

import re

import layouts
from clauses import Part, read

CRATE = "crates/again_laws/proofs/derived_laws/"
LAYOUTS = CRATE + "Layouts.antt"
LEMMAS = {"Parts": CRATE + "Parts.antt", "Questions": CRATE + "Questions.antt"}

NAME = "laid_alike"
LEAVES = "(keyless given)"

# The mode of what stands so, and what says that both fit.
MODES = {"Head": ("Headed", "at_head"), "Tagged": ("Raw", "at_tag")}

# Clauses of what is read again by a leaf's rule, of what goes on from a number, and of what hangs on the mode; `lv` are the leaves.
CHAIN = (
    "(opt_chain_expr span %s (member_expr at obj prop)) f = through (laid_%s look s no_place no_place (redo lv %s obj) (redo lv Plain prop))"
    " (laid_%s look s span at obj prop) (%s (λ e. laid_alike Head %s obj (%s (is_number obj)%s)) (laid_alike Alone Plain prop (at_alone (is_number prop))))"
)
POINTED = "(object_mode Plain prop)"
OWN = {
    "(ident span sym)": ["(ident span sym) f = identifier_alike lv look h (given.read span.lo.0).lo span sym"],
    "(binding_ident span (ident at sym))": ["(binding_ident span (ident at sym)) f = identifier_alike lv look h no_place.lo span sym"],
    "(new_expr span callee args)": [
        "(new_expr span callee args) f =",
        "    same ▸ start_alike span ▸ same ▸ Parts.before_word lv look Headed callee ▸ laid_alike Head Headed callee (at_head (is_number callee))",
        "    ▸ when_alike _ _ (ap (λ b. formats look || (b || is_head s)) (h.given_there (is_head_mode m) (redo lv Plain args) ∙ Questions.same_has_arguments lv Plain args))",
        "    (Parts.in_parens_alike lv look (after (h.given_laid (is_head_mode m) (redo lv Plain args)) (laid_alike Alone Plain args (at_alone (is_number args)))))",
    ],
    "(member_expr span (number_lit at value raw) prop)": [],
    "(member_expr span obj prop)": [
        "(member_expr span obj prop) f = through (laid_member look s no_place (redo lv (object_mode m prop) obj) (redo lv Plain prop)) (laid_member look s span obj prop)",
        "    (start_alike span ▸ object_alike m f.asked obj prop (λ e. laid_alike Head (object_mode m prop) obj (at_object m prop (is_number obj) e))"
        " ▸ Parts.point_before_alike lv look Plain prop ▸ laid_alike Alone Plain prop (at_alone (is_number prop)) ▸ end_alike span)",
    ],
    "(opt_chain_expr span optional (member_expr at (number_lit place value raw) prop))": [],
    "(opt_chain_expr span optional (member_expr at obj prop))": [
        CHAIN % ("true", "asked", "Headed", "asked", "asked_alike obj", "Headed", "at_head", ""),
        CHAIN % ("false", "point", POINTED, "point", "point_alike obj prop", POINTED, "at_object Plain prop", " e"),
    ],
    "(number_lit span value raw)": ["(number_lit span value raw) f = Parts.as_expression_alike lv look s span ▸ number_at lv look h (is_pointed m) (f.plain refl) span value raw"],
    "(tpl span exprs quasis)": [
        "(tpl span exprs quasis) f =",
        "    if_alike _ _ (ap₂ (λ n m. n == m + 1) (Questions.same_count lv (quasi_mode m) quasis) (Questions.same_count lv Plain exprs))",
        "    (start_alike span ▸ same ▸ template_alike s (quasi_mode m) (f.tagged ∙ sym (quasi_tagged m)) exprs quasis ▸ same ▸ end_alike span) same",
    ],
    "(tpl_element span is_last raw cooked)": ["(tpl_element span is_last raw cooked) f = quasi_alike lv look h s m f.tagged (tpl_element span is_last raw cooked)"],
}


def clauses(lines):
    """The clauses of that proof, each with the lines behind its head, and the comments between them."""
    out = []
    for line in (line[4:] for line in lines):
        if line.startswith(" "):
            out[-1].append(line)
        else:
            out.append([line])
    return out


def moded():
    """The lemmas that take a mode, as they are called."""
    return {"%s.%s" % (module, name) for module, file in LEMMAS.items() for name in re.findall(r"^ *pub (\w+) : .*?\(m : Mode\)", read(file), re.M)}


def part(match):
    """That a part is alike, in its mode."""
    stand, arg = match.groups()
    mode, fits = MODES.get(stand, ("Plain", "at_" + stand.lower()))
    return "%s %s %s %s (%s (is_number %s))" % (NAME, stand, mode, arg, fits, arg)


def anew(line, with_mode):
    """A line of the proof, where the tree is given anew."""

    def lemma(match):
        name, look, end = match.groups()
        given = " ".join([name, LEAVES] + (["look"] if look else []) + (["Plain"] if name in with_mode else []))
        return "(λ t. %s t))" % given if end else given

    line = re.sub(r"^%s s (.*?) =(?= |$)" % NAME, NAME + r" s m \1 f =", line)
    line = re.sub(r"\b%s ([A-Z]\w*) (\w+)" % NAME, part, line)
    return re.sub(r"\b((?:\w+\.)?\w+) places raws( look)?(\))?", lemma, line)


def own(line):
    """A line of a clause of its own."""
    line = re.sub(r"\blv\b", LEAVES, line)
    return line if line.startswith(" ") else "%s s m %s" % (NAME, line)


def parts(table):
    out, with_mode = [], moded()
    for lines in clauses(layouts.less_parts().lines):
        tree = re.match(r"%s s (.*?) =" % NAME, lines[0])
        is_own = tree and tree[1] in OWN
        out += map(own, OWN[tree[1]]) if is_own else [anew(line, with_mode) for line in lines]
    return [Part(LAYOUTS, NAME, ["    " + line for line in out], before=("    pub %s : " % NAME,), after="")]

"""Writes that all of a node's layout is text where the texts of the node are, piece by piece, from the layout's definition."""

import re

from again import MODES
from clauses import kinds
from follows import bare, split
from layouts import PIECES, SPELLED, argument, choice, is_layout, laid_out, told

UTF8 = "crates/again_laws/proofs/text/TreeUtf8.antt"

# Words and signs of a kind, and pieces that have lemmas as they are.
GIVEN = {"text (sign_of op)": "given (sign_utf8 op)", "text (operator_text op)": "given (operator_utf8 op)", "word (own_text kind)": "given (own_utf8 kind)"}
OWN = {
    "when (is_variables decl) (semi · end span)": "Parts.exported_text span decl",
    "if optional then optional_dot else point_before prop": "Parts.optional_point_text optional prop",
    "if kind == plain_method then method_marks waits generates else word (own_text kind) · gap_or look (starts_with_word key)": "Parts.method_start_text look kind generates waits key",
    "method_marks waits generates": "Parts.marks_text waits generates",
    "comma look": "Parts.comma_text look",
    "refused": "Parts.refused_text",
    "new_target": "Parts.new_target_text",
    "import_meta": "Parts.import_meta_text",
    "optional_dot": "Parts.optional_dot_text",
    "meant (template_end (codes _))": "Parts.back_quote_text",
}
MAYBE = re.compile(r"(gap|gap_or|line|deeper|back) look\b")

# Lists of parts, with what is said of what stands between two of them.
LISTS = {"statements": "", "each": "", "rows": "", "import_heads": "", "named_items": "", "first_namespace": "", "separated": "(Parts.%s_text look)"}

# Clauses that go by more than their pieces.
ALONE = {
    "bool_lit": ["text_of m s (bool_lit span true) h = ok refl", "text_of m s (bool_lit span false) h = ok refl"],
    "regex_lit": ['text_of m s (regex_lit span body flags) h = ok refl ▸ record { so = ((ascii (codes "/") refl).utf8, (h.0, ((ascii (codes "/") refl).utf8, (h.1, tt)))) }'],
    "tpl_element": ["text_of m s (tpl_element span is_last raw cooked) h = Parts.quasi_text look s m (tpl_element span is_last raw cooked) h"],
}


class Texts:
    """That the pieces of a clause are text. `h` says what there is to say of the node and of each below it."""

    def __init__(self, kind_of, tree):
        self.kind_of = kind_of
        self.ways = {}
        self.walk(tree, "h", "m")

    def walk(self, tree, way, mode):
        """The way to what is said of each variable of a tree, and its mode."""
        name, *args = split(tree[1:-1])
        kind = self.kind_of[name]
        for arg, field in zip(args, kind.args):
            place = kind.places().get(field)
            to = "%s.%d" % (way, place) if place else way
            of = re.sub(r"\bmode\b", mode, MODES.get((name, field), "Plain"))
            if arg.startswith("("):
                self.walk(arg, to, of)
            else:
                self.ways[arg] = (to, of)

    def all(self, text, inner=False):
        """Of a layout as a whole the words at its end are told of together."""
        pieces = [self.piece(it, inner) for it in ([text] if text.startswith("if ") else split(text, " · "))]
        while not inner and pieces[-2:] == ["ok refl"] * 2:
            pieces.pop()
        return " ▸ ".join(pieces)

    def inner(self, text):
        return argument(self.all(bare(text), True))

    def listed(self, name, args):
        way, mode = self.ways[args[-1]]
        between = [LISTS[name] % split(bare(args[1]))[0]] if LISTS[name] else []
        return " ".join([name + "_text", *args[1:-1], *between, mode, args[-1], way])

    def piece(self, text, inner):
        text = bare(text)
        name, *args = split(text)
        if text in GIVEN or text in OWN:
            return GIVEN.get(text) or OWN[text]
        if name == "if":
            _, one, other = choice(text)
            return "if_text _ %s %s" % (self.inner(one), self.inner(other))
        if MAYBE.match(text):
            return "maybe _ _ refl"
        if name == "when":
            one = self.inner(args[1])
            return "maybe _ _ refl" if one == "(piece refl)" else "when_text _ " + one
        if name == "laid":
            return "text_of %s %s %s %s" % (self.ways[args[2]][1], args[1], args[2], self.ways[args[2]][0])
        if name == "hashbang":
            return "Parts.hashbang_text %s h.0" % args[0]
        if name == "template":
            (way, mode), (other, own) = self.ways[args[2]], self.ways[args[3]]
            return "template_text s %s %s %s %s %s %s" % (mode, own, args[2], args[3], way, other)
        if name in LISTS:
            return self.listed(name, args)
        if name in PIECES + SPELLED + ["from"]:
            proved = [self.inner(a) for a in args if is_layout(a)]
            if name in SPELLED:
                proved.append(self.ways[args[2]][0])
            return " ".join(["Parts.%s_text" % name] + [a for a in args if not is_layout(a)] + proved)
        return "piece refl" if inner else "ok refl"


def parts(table):
    kind_of = {kind.name: kind for kind in kinds(table)}

    def text_of(clause):
        if clause.tree[0] != "(" or clause.says == "refused":
            return None
        says = Texts(kind_of, clause.tree).all(clause.says)
        return None if says == "ok refl" else "text_of m s %s h = %s" % (clause.tree, says)

    lines = []
    for line in told(lambda clause: ALONE.get(split(clause.tree[1:-1])[0]) or text_of(clause)):
        lines += line if isinstance(line, list) else [line]
    return [laid_out(UTF8, "text_of", [*lines, "text_of m s _ h = ok refl"])]

"""Writes that the layout of a tree with less in it is alike, piece by piece. It follows the layout's definition, which is written by hand,
as do `utf8.py` and `alike.py`. How long lines are broken is as it stands."""

import re

from clauses import Part, read
from follows import bare, split

LAYOUT = "crates/print_layout_spec/specs/Layout.antt"
SAME = "crates/print_layout_laws/proofs/Same.antt"

# Lists of parts, each laid out by a definition of its own, and a part by itself.
LISTS = {
    "laid look": "laid_alike",
    "statements look": "statements_alike",
    "rows look": "rows_alike",
    "each look": "each_alike",
    "separated look (comma look)": "commas_alike",
    "separated look (comma_line look)": "lines_alike",
    "import_heads look": "import_heads_alike",
    "first_namespace look": "first_namespace_alike",
    "template look": "template_alike",
}

# Pieces of more than words, and texts that are spelled, each with a lemma of its name; gaps by a question, with the lemma of each.
PIECES = ["in_parens", "closing", "indented", "indented_or_line", "class_head", "class_tail", "function_tail", "initial", "attributes", "field_value"]
PIECES += ["imports", "exports", "after_static", "point_before", "as_expression", "quasi"]
SPELLED = ["identifier", "name", "key_word", "hash_name", "string", "number", "big_integer", "number_before"]
GAPS = {"starts_with_word": "before_word", "ends_with_word": "behind_word", "gap_before": "before_operator", "gap_after": "behind_operator"}

# What is asked of trees, and such a question with what it is asked of.
QUESTIONS = ["is_empty", "is_there", "is_block", "is_some", "is_one_name", "is_bracketed_key", "starts_bracketed", "starts_with_default"]
QUESTIONS += ["ends_with_hole", "has_namespace", "has_other", "has_arguments", "gap_of_unary", "count"]
QUESTION = re.compile(r"\b(%s)((?: \w+)+)" % "|".join(QUESTIONS))

# Pieces that have lemmas as they are.
OWN = {
    "start (place_of key)": "key_mark places raws key",
    "when (is_variables decl) (semi · end span)": "Parts.exported_alike places raws look span decl",
    "if optional then optional_dot else point_before prop": "Parts.optional_point_alike places raws look optional prop",
    "if kind == plain_method then method_marks waits generates else word (own_text kind) · gap_or look (starts_with_word key)": "Parts.method_start_alike places raws look kind generates waits key",
}


class Clause:
    """A clause of the layout: its tree, and what it says on one line, without the texts that words and signs spell."""

    def __init__(self, tree, says):
        self.tree = tree
        self.says = re.sub(r'"[^"]*"', "_", says)


def clauses():
    """The clauses of the layout, and the comments between them."""
    body = re.search(r"^  pub laid : .*\n((?:.+\n)*)", read(LAYOUT), re.M)[1]
    for line in re.sub(r"\n {6}", " ", body).replace("name_", "name").splitlines():
        clause = re.fullmatch(r"  laid look s (\(.*?\)|\w+) = +(.*)", line)
        yield Clause(*clause.groups()) if clause else line.strip()


def told(prove):
    """A clause of a proof for each clause of the layout of which there is something to tell, and the comments."""
    for clause in clauses():
        line = clause if isinstance(clause, str) else prove(clause)
        if line:
            yield line


def choice(text):
    """The question of a layout by one, and the two layouts."""
    question, behind = text[len("if ") :].split(" then ", 1)
    one, *other = split(behind, " else ")
    return question, one, " else ".join(other)


def is_layout(arg):
    """Whether an argument is a layout."""
    return bool(re.match(r"\((laid|rows|separated|import_heads|named_items|template) look|\(if |\(.* · ", arg))


def is_same(text):
    """Whether nothing is laid out but words."""
    return set(text.split(" ▸ ")) == {"same"}


def argument(text):
    return "(%s)" % text if " " in text else text


def asked(question):
    """That a question is answered alike, or None where it is asked of no tree."""
    of_trees = QUESTION.findall(question)
    lemmas = ["(Questions.same_%s places raws%s)" % ("spread" if name == "is_some" else name, of) for name, of in of_trees]
    if not lemmas or QUESTION.fullmatch(question):
        return lemmas[0] if lemmas else None
    letters = ("nm" if "count" in question else "bc")[: len(lemmas)]
    each = iter(letters)
    told = re.sub(r"\((\w)\)", r"\1", QUESTION.sub(lambda _: next(each), question))
    return "(%s (λ %s. %s) %s)" % ("ap₂" if len(lemmas) > 1 else "ap", " ".join(letters), told, " ".join(lemmas))


def by_question(question, one, other=None):
    """That a layout by a question is alike: of two the one or the other, or one or nothing."""
    lemma = "if" if other else "when"
    proofs = [alike(it) for it in (one, other) if it]
    there = re.fullmatch(r"is_there (\w+)", question)
    if there and not other:
        return "Parts.there_alike places raws look %s %s" % (there[1], argument(proofs[0]))
    told = asked(question)
    if not told and all(map(is_same, proofs)):
        return "same"
    return " ".join(["%s_alike _ _ %s" % (lemma, told) if told else "%s_same _" % lemma, *map(argument, proofs)])


def by_name(name, args):
    """That a piece is alike by the lemma of its name."""
    if name in ("start", "end", "last"):
        return "%s_alike %s" % (name, args[0])
    if name == "named_items":
        return "named_items_alike %s (Questions.same_%s places raws) %s" % (args[1], args[1], " ".join(args[2:]))
    if name == "from":
        return "(same ▸ same ▸ %s)" % alike(bare(args[1]))
    if name == "gap_or":
        question, *of = split(bare(args[1]))
        return " ".join(["Parts.%s places raws look" % GAPS[question], *of])
    plain = [a for a in args if a != "look" and not is_layout(a)]
    if name in PIECES:
        return " ".join(["Parts.%s_alike places raws look" % name, *plain, *(argument(alike(bare(a))) for a in args if is_layout(a))])
    if name in SPELLED:
        return " ".join(["%s%s_alike places raws look h" % ("Parts." if name == "number_before" else "", name), *plain])
    return "same"


def piece(text):
    """That a piece is alike."""
    text = bare(text)
    if text in OWN:
        return OWN[text]
    if text.startswith("if "):
        return by_question(*choice(text))
    if len(split(text, " · ")) > 1:
        return alike(text)
    name, *args = split(text)
    if name == "when":
        return by_question(*map(bare, args))
    listed = next((head for head in LISTS if text.startswith(head + " ")), None)
    return LISTS[listed] + text[len(listed) :] if listed else by_name(name, args)


def alike(text):
    """That a layout is alike, piece by piece."""
    return " ▸ ".join(map(piece, [text] if text.startswith("if ") else split(text, " · ")))


def less(clause):
    """That the layout of a tree with less in it is alike."""
    says = alike(clause.says)
    return None if is_same(says) else "laid_alike s %s = %s" % (clause.tree, says)


# ---- the parts of files


def laid_out(file, name, lines):
    """The part of a file that is these clauses, each with its lines as they are broken there."""
    body = re.search(r"^ *(?:pub )?%s : .*\n((?:.+\n)*)" % name, read(file), re.M)[1]
    standing = {re.sub(r"\n +", " ", clause): clause.split("\n") for clause in re.split(r"\n(?! {8})", body.rstrip("\n"))}
    lines = [own for line in lines for own in standing.get("    " + line, ["    " + line])]
    return Part(file, name, lines, before=("    pub %s : " % name,), after="")


def less_parts():
    return laid_out(SAME, "laid_alike", [*told(less), "laid_alike s _ = same"])


def parts(table):
    return [less_parts()]

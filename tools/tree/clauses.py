"""What the writers of clauses share: each kind of tree with the names of its parts, and a part of a file that a writer writes."""

import re

from spec_tree import arguments, pattern
from table import HERE

TREES = ("Tree", "Trees")


def read(file):
    """A file of the repository, as it stands."""
    return (HERE.parent.parent / file).read_text()


class Kind:
    """A kind of tree: its constructor, the struct behind it, and a variable for each of its fields with the field's type."""

    def __init__(self, name, struct, fields):
        self.name = name
        self.struct = struct
        self.fields = [f for f, _ in fields]
        self.args = arguments(fields)
        self.types = [t for _, t in fields]
        self.tree = pattern(name, self.args)

    def __str__(self):
        return self.tree

    def kids(self, order=None):
        """The fields that hold trees: the variable of each, and whether it holds a list. `order` has them otherwise than the table."""
        kids = [(a, t == "Trees") for a, t in zip(self.args, self.types) if t in TREES]
        return [next(kid for kid in kids if kid[0] in (f, f + "_")) for f in order] if order else kids

    def places(self):
        """The kids' places among the fields that hold trees, counted from 1, by their variables."""
        return {a: n for n, (a, _) in enumerate(self.kids(), 1)}

    def blank(self):
        """The tree with no field named."""
        return pattern(self.name, ["_"] * len(self.args))

    def kept(self, kept=TREES):
        """The tree with only the fields of these types named."""
        return pattern(self.name, [a if t in kept else "_" for a, t in zip(self.args, self.types)])


def kinds(table):
    return [Kind(name, struct, fields) for name, struct, fields in table.trees()]


def nested(parts, end):
    """(a, (b, end)), as pairs nest."""
    out = end
    for part in reversed(parts):
        out = "(%s, %s)" % (part, out)
    return out


class Part:
    """Lines of a file whose other lines are written by hand. They stand in one run, which is told by what each of its lines
    begins with, or by the lines before it, of which each is the first such line behind the one before, and the first one after it."""

    def __init__(self, file, title, lines, begins=None, before=None, after=None):
        self.file = file
        self.title = title
        self.lines = lines
        self.begins = begins
        self.before = before
        self.after = after
        # lemmas that the lines use, with the modules that have them
        self.lemmas = {}

    def behind(self, lines, at, before):
        """The lines behind these, from one on."""
        found = [n + 1 for n, line in enumerate(lines[at:], at) if line.startswith(before[0])]
        return [end for n in found for end in self.behind(lines, n, before[1:])[:1]] if before[1:] else found

    def runs(self, text):
        """Where such runs stand among the lines of a file."""
        lines = text.split("\n")
        if self.before is not None:
            starts = self.behind(lines, 0, self.before)
            ends = [n for n, line in enumerate(lines) if line == self.after]
            return [(s, min(after)) for s in starts if (after := [e for e in ends if s <= e])]
        out = []
        for n, line in enumerate(lines):
            if re.match(self.begins, line):
                # blank lines may stand between two lines of a run
                joins = out and not "".join(lines[out[-1][1] : n]).strip()
                out = out[:-1] + [(out[-1][0], n + 1)] if joins else out + [(n, n + 1)]
        return out

    def run(self, text):
        """Where the run stands: its first line, and the first one behind it."""
        runs = self.runs(text)
        if len(runs) != 1:
            raise SystemExit("tools/tree: %s: `%s` stands in %d runs, and not in one" % (self.file, self.title, len(runs)))
        return runs[0]

    def put(self, text):
        """The file with these lines in place of the run that stands there."""
        first, end = self.run(text)
        lines = text.split("\n")
        indent = re.match(" *", lines[first]).group() if self.begins else ""
        lines[first:end] = [indent + line if line else line for line in self.lines]
        return "\n".join(lines)


def definition(file, name, clauses, last=()):
    """The clauses of a definition: a text for each kind that has one, or None, and those that follow."""
    lines = ["%s %s" % (name, clause) for clause in clauses if clause] + ["%s %s" % (name, clause) for clause in last]
    return Part(file, name, lines, begins=r" *%s (?!: )" % re.escape(name))


IMPORT = re.compile(r"^(use Rattle\.tree_(?:spec|nodes)\.specs\.Tree\.)\{(.*)\}$", re.M)


def with_lemmas(text, lemmas):
    """A file that imports these lemmas, each from its module, where it neither has them nor imports them."""
    for name, module in lemmas.items():
        imported = re.search(r"^use .*\{(.*[ ,])?%s[,} ]" % re.escape(name), text, re.M)
        if not imported and not re.search(r"^ *(pub )?%s : " % re.escape(name), text, re.M):
            text = re.sub(r"^(use %s\.\{.*)\}$" % re.escape(module), r"\1, %s}" % name, text, count=1, flags=re.M)
    return text


def with_imports(text, table, lines):
    """A file of definitions that imports the constructors that these of its lines use: each that lacks comes behind the one
    before it in the table."""
    order = [name for name, _, _ in table.trees()]
    words = set(re.findall(r"[^\s(){},.;]+", "\n".join(lines)))

    def imported(match):
        names = match.group(2).split(", ")
        for at, name in enumerate(order):
            if name in words and name not in names:
                before = [other for other in order[:at] if other in names]
                names.insert(names.index(before[-1]) + 1 if before else len(names), name)
        return "%s{%s}" % (match.group(1), ", ".join(names))

    return IMPORT.sub(imported, text, count=1)

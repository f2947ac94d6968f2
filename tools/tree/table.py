"""Reads the table of the tree."""

import re
from pathlib import Path

HERE = Path(__file__).resolve().parent

# Names of spec trees that differ from the struct's own: a word of antt, or too plain a word.
RENAMED = {
    "module": "es_module",
    "str": "str_lit",
    "bool": "bool_lit",
    "null": "null_lit",
    "number": "number_lit",
    "big_int": "big_int_lit",
    "regex": "regex_lit",
}

# What a field of a type is in the spec tree, where it is no tree.
PLAIN = {
    "Atom": "List ℕ",
    "StrValue": "List ℕ",
    "NumValue": "SpecNumber",
    "bool": "Bool",
    "u32": "ℕ",
    "BinaryOp": "ℕ",
    "AssignOp": "ℕ",
    "Span": "Span",
}

SORTS = ("Expr", "Stmt", "Pat")

# Variants whose spec tree is not that of what they hold, so that no two sorts have a tree in common.
APART = {
    ("PatKind", "Expr"): "expr_pat",
    ("PatKind", "Invalid"): "invalid_pat",
    ("AssignTarget", "Invalid"): "invalid_target",
}


def snake(name):
    return re.sub(r"(?<=[a-z0-9])([A-Z])", r"_\1", name).lower()


def tree_name(name):
    return RENAMED.get(snake(name), snake(name))


def split(text):
    parts, depth, part = [], 0, ""
    for c in text:
        depth += c in "<("
        depth -= c in ">)"
        if c == "," and depth == 0:
            parts.append(part.strip())
            part = ""
        else:
            part += c
    if part.strip():
        parts.append(part.strip())
    return parts


def inside(text, outer):
    """The T of outer<T>, or None."""
    if text.startswith(outer + "<") and text.endswith(">"):
        return text[len(outer) + 1 : -1]
    return None


def wrap(doc, width=96):
    """The lines of a doc comment."""
    lines, line = [], ""
    for word in doc.split():
        if line and len(line) + 1 + len(word) > width:
            lines.append(line)
            line = word
        else:
            line = (line + " " + word).strip()
    return lines + [line]


class Table:
    """The table of the tree, or the one that a text has."""

    def __init__(self, text=None):
        self.structs = []
        self.enums = []
        self.words = []
        self.order = []
        self.modules = []
        self.module_of = {}
        self.module_doc = {}
        self.doc_of = {}
        for line in (text or (HERE / "tree.table").read_text()).splitlines():
            if line.startswith("module "):
                name, doc = line[len("module ") :].split(": ", 1)
                self.modules.append(name)
                self.module_doc[name] = doc
            elif line and not line.startswith("#"):
                self.read(line)
        self.fields_of = dict(self.structs)
        self.variants_of = dict(self.enums)
        self.words_of = dict(self.words)
        self.has_child = {}

    def read(self, line):
        what, name, body, doc = re.match(r"(struct|enum|words) (\w+) \{(.*?)\} -- (.*)$", line).groups()
        self.order.append((what, name))
        self.module_of[name] = self.modules[-1]
        self.doc_of[name] = wrap(doc)
        if what == "struct":
            self.structs.append((name, [tuple(x.strip() for x in f.split(":")) for f in split(body)]))
        elif what == "enum":
            variants = [re.match(r"(\w+)\((.*)\)$", v).groups() for v in split(body)]
            self.enums.append((name, variants))
        else:
            self.words.append((name, [tuple(x.strip() for x in w.split("=")) for w in split(body)]))

    def is_generic(self, name):
        """Whether the type holds a child, by itself or further down."""
        if name not in self.has_child:
            self.has_child[name] = False
            types = [t for _, t in self.fields_of.get(name, [])] + [t for _, t in self.variants_of.get(name, [])]
            self.has_child[name] = any(self.holds_child(t) for t in types)
        return self.has_child[name]

    def holds_child(self, text):
        for outer in ("Box", "Option", "Vec", "Hole"):
            t = inside(text, outer)
            if t:
                return self.holds_child(t)
        if text in SORTS:
            return True
        return self.is_generic(text)

    def is_tree(self, text):
        """Whether a field of this type holds trees."""
        for outer in ("Box", "Option", "Vec", "Hole"):
            t = inside(text, outer)
            if t:
                return self.is_tree(t)
        return text in SORTS or text in self.fields_of or text in self.variants_of

    def spec_type(self, text):
        """What a field is in the spec tree."""
        t = inside(text, "Box")
        if t:
            return self.spec_type(t)
        if text in PLAIN:
            return PLAIN[text]
        if text in self.words_of:
            return "ℕ"
        t = inside(text, "Option")
        if t and t in PLAIN:
            plain = PLAIN[t]
            return "Option (%s)" % plain if " " in plain else "Option " + plain
        return "Trees" if inside(text, "Vec") else "Tree"

    def trees(self):
        """Each kind of spec tree: its name, the struct's name, its fields with their spec types."""
        out = []
        for name, fields in self.structs:
            spec = [("span", "Span")] + [(f, self.spec_type(t)) for f, t in fields]
            out.append((tree_name(name), name, spec))
        out.append(("expr_pat", "PatKind::Expr", [("expr", "Tree")]))
        out.append(("invalid_pat", "PatKind::Invalid", [("span", "Span")]))
        out.append(("invalid_target", "AssignTarget::Invalid", [("span", "Span")]))
        out.append(("list", "a list that may be absent", [("items", "Trees")]))
        out.append(("absent", "a part that is left out", []))
        out.append(("hole", "an element that is left out", []))
        return out


TOKEN = re.compile(r"[^\s(){},.;]+")


def used(name, words, body):
    """Whether a file's body uses a name that it imports; an operator is told by its sign."""
    if "◌" in name:
        return all(sign in words for sign in name.split("◌") if sign)
    if name == "[]":
        return "[]" in body
    return name.split(" as ")[-1] in words


def prune(text):
    """The file without imports that it doesn't use."""
    head, body = [], []
    for line in text.split("\n"):
        (head if line.startswith("use ") else body).append(line)
    code = "\n".join(line for line in body if not line.lstrip().startswith("--"))
    words = set(TOKEN.findall(code))
    out = []
    for line in text.split("\n"):
        m = re.match(r"use ([^{]*)\.\{(.*)\}$", line)
        if m:
            names = [n for n in split(m.group(2)) if used(n, words, code)]
            if names:
                out.append("use %s.{%s}" % (m.group(1), ", ".join(names)))
        else:
            out.append(line)
    return "\n".join(out)

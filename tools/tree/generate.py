#!/usr/bin/env python3
"""Writes the files of the tree from the table, and the parts of files that follow it, and prints the files' names. With a
folder, writes them there instead. `rt fmt` in each crate lays out those that are written as a whole."""

import sys
from pathlib import Path

import again
import alike
import arms
import bare
import build
import chains
import deep
import edges
import equal
import follows
import goal
import layouts
import names
import nesting
import node_types
import productions
import program
import repeated
import same
import scopes
import sorts
import spec_tree
import utf8
import variants
import visit
import visit_mut
import walked
from clauses import read, with_imports, with_lemmas
from table import HERE, Table, prune

ROOT = HERE.parent.parent

# Those that write files, and those that write parts of files whose other lines are written by hand.
WRITERS = (spec_tree, program, equal, node_types, nesting, visit, visit_mut, build, same, goal, again, names)
PARTIAL = (chains, deep, variants, walked, scopes, productions, follows, bare, again, names, arms, edges, sorts, layouts, utf8, alike, repeated)

# Files that are written without the line that says so.
UNMARKED = (again.EVERY, again.MAPPED, names.KINDS)


def head(part, name):
    """The first line of a file that this part wrote."""
    if name in UNMARKED:
        return ""
    return f"{'--' if name.endswith('.antt') else '//'} Written by tools/tree/{part.__name__}.py from tools/tree/tree.table. Don't edit this file.\n"


def files(table):
    """The files that are written as a whole, before they are laid out."""
    written = {}
    for part in WRITERS:
        for name, text in part.files(table).items():
            written[name] = head(part, name) + (prune(text) if name.endswith(".antt") else text)
    return written


def parts(table):
    """The parts of files, by their files."""
    found = {}
    for writer in PARTIAL:
        for part in writer.parts(table):
            found.setdefault(part.file, []).append(part)
    return found


def with_own(name, own, table):
    """A file as it stands, but for these parts of it and what they have it import."""
    text = read(name)
    for part in own:
        text = part.put(text)
    if name.endswith(".antt"):
        text = with_imports(text, table, [line for part in own for line in part.lines])
    for part in own:
        text = with_lemmas(text, part.lemmas)
    return text


def with_parts(table):
    """The files that have parts."""
    return {name: with_own(name, own, table) for name, own in parts(table).items()}


def main():
    root = Path(sys.argv[1]) if len(sys.argv) > 1 else ROOT
    table = Table()
    for name, text in {**files(table), **with_parts(table)}.items():
        path = root / name
        path.parent.mkdir(parents=True, exist_ok=True)
        print(name)
        path.write_text(text)


if __name__ == "__main__":
    main()

"""What is released, and what of it is of which sources: release/programs, read and written."""
import hashlib
import os
import re
import subprocess

ROOT = os.path.dirname(os.path.dirname(os.path.realpath(__file__)))
LIST = f"{ROOT}/release/programs"
# the released programs, and the crate of each
PROGRAMS = {
    "ecma-front": "ecma_front_cli",
    "ecma-lexical-answers": "test_lex_answers",
    "ecma-program-answers": "test_program_answers",
}
MACHINE = "x86_64 Linux"
HEAD = """\
# What is released: the version, the toolchain that proved and built it, the machine that it is for; and of each program its crate, the
# sum over that crate's sources and those below it (tools/sources CRATE), and its own SHA-256. Where the sources are ahead of it, a line
# `ahead DATE WHY` says since when and why. tools/release writes this file.
"""
# what the lines before those of the programs say, each once and the last where it is so
WORDS = ("version", "kit", "machine", "ahead")
AHEAD = re.compile(r"\d{4}-\d\d-\d\d \S.*")


class Wrong(Exception):
    """Why there is no answer, in one line."""


def sum_of(path):
    """The SHA-256 of a file."""
    try:
        with open(path, "rb") as it:
            return hashlib.sha256(it.read()).hexdigest()
    except OSError as error:
        raise Wrong(f"{os.path.relpath(path, ROOT)} can't be read: {error.strerror}") from error


def sources_of(crates):
    """For each of these crates the sum over its sources and those below it."""
    ran = subprocess.run([f"{ROOT}/tools/sources", *crates], stdin=subprocess.DEVNULL, capture_output=True, text=True)
    if ran.returncode:
        raise Wrong(ran.stderr.strip() or "tools/sources failed")
    return dict(reversed(line.split()) for line in ran.stdout.splitlines())


def kit():
    """The line of the toolchain, or nothing where there is none."""
    try:
        ran = subprocess.run(["rt", "version"], stdin=subprocess.DEVNULL, capture_output=True, text=True)
    except OSError:
        return None
    return ran.stdout.strip() if not ran.returncode else None


def built(crate):
    """Where a proved build leaves a program."""
    return f"{ROOT}/crates/{crate}/out/{crate}"


def path_of(program):
    """Where the released program stands."""
    return f"{ROOT}/release/{program}"


def lines_of_list():
    """The lines of release/programs that are no comments."""
    try:
        with open(LIST, encoding="utf-8", newline="") as it:
            text = it.read()
    except (OSError, ValueError) as error:
        raise Wrong("there is no release: release/programs can't be read") from error
    if "\r" in text:
        raise Wrong("release/programs has CR LF line ends, and is to have LF")
    if not text.endswith("\n"):
        raise Wrong("release/programs doesn't end with a line feed, so it is cut short")
    return [line for line in text.split("\n") if line and not line.startswith("#")]


def read():
    """What release/programs says: its words (version, kit, machine, and ahead where the sources are), and of each program the sum over
    its sources and its own."""
    lines = [line.split(" ", 1) for line in lines_of_list()]
    words = [line for line in lines if line[0] in WORDS]
    rows = [" ".join(line).split(" ") for line in lines[len(words) :]]
    said = tuple(line[0] for line in words)
    programs = [row[0] for row in rows if len(row) == 4 and PROGRAMS.get(row[0]) == row[1]]
    is_plain = said in (WORDS, WORDS[:-1]) and lines[: len(words)] == words and all(len(line) == 2 for line in words)
    if not is_plain or not rows or len({*programs}) != len(rows):
        raise Wrong("release/programs isn't as tools/release writes it")
    words = dict(words)
    if "ahead" in words and not AHEAD.fullmatch(words["ahead"]):
        raise Wrong("the line of release/programs that begins with 'ahead' isn't 'ahead DATE WHY', as 'ahead 2026-01-31 faults have places'")
    return words, {program: (sources, own) for program, _, sources, own in rows}


def write(words, rows):
    """Writes release/programs: its words, and of each program the sum over its sources and its own."""
    lines = [f"{name} {words[name]}" for name in WORDS if name in words]
    lines += [f"{program} {PROGRAMS[program]} {sources} {own}" for program, (sources, own) in rows.items()]
    with open(f"{LIST}.new", "w", encoding="utf-8") as it:
        it.write(HEAD + "".join(f"{line}\n" for line in lines))
    os.replace(f"{LIST}.new", LIST)


def version():
    """The version that CHANGELOG.md says most of, in its first heading."""
    try:
        with open(f"{ROOT}/CHANGELOG.md") as it:
            found = re.search(r"^## (\d+\.\d+\.\d+)\b", it.read(), re.M)
    except OSError:
        found = None
    if not found:
        raise Wrong("CHANGELOG.md has no heading with a version, as '## 1.2.3'")
    return found[1]

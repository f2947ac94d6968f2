"""Every beginning of every row's text, cut at each byte: it is written as the same program, or refused for its syntax or as no UTF-8.
And every row's text through the command line, in both styles."""
import functools
import os

from front import valid_bytes
from laws import Broken, Fault, Read, side_by_side, told_by_command, verdicts
from rows import read_rows

ROWS = f"{os.path.dirname(os.path.realpath(__file__))}/rows"
# the folders whose rows are of whole programs, and the parts of the language that a setting names
PARTS, LANGUAGE = ("parse", "print", "front"), ("using", "accessors")
# the parts of the language that the command line reads
USUAL = ("using",)
# a text of up to so many bytes is cut at each byte, a longer one at so many, and one past the greatest size isn't
SHORT, CUTS, GREATEST, BATCH = 512, 24, 10_000, 2_000


def texts():
    """The texts of all rows, each with the parts of the language that its setting names."""
    found = {}
    for part in PARTS:
        for name in sorted(it for it in os.listdir(f"{ROWS}/{part}") if it.endswith(".rows")):
            with open(f"{ROWS}/{part}/{name}", newline="", encoding="utf-8") as it:
                for row in read_rows(it.read()):
                    found[row.field(0), tuple(word for word in LANGUAGE if row.has(word))] = None
    return list(found)


def beginnings(text):
    """The fronts of a text, the whole among them."""
    size = len(text)
    ends = range(size + 1) if size <= SHORT else {*range(0, size, size // CUTS), *range(size - 3, size + 1)} if size <= GREATEST else ()
    return [text[:end] for end in ends]


@functools.cache
def fronts():
    """All fronts: those of short texts and those of long ones, by the parts of the language, and those that are no UTF-8."""
    found, broken = {}, {}
    for text, words in texts():
        for front in beginnings(text):
            if valid_bytes(front) < len(front):
                broken[front] = None
            else:
                found.setdefault((words, len(text) > SHORT), {})[front] = None
    return {key: list(own) for key, own in found.items()}, list(broken)


def wrong(text, verdict, is_long):
    """What is wrong with what came of a front, or nothing. A long text may itself nest too deep."""
    if isinstance(verdict, Broken):
        return f"{text!r}: {verdict.why}"
    if isinstance(verdict, Fault) and (verdict.kind == "Memory" or verdict.kind == "TooDeep" and not is_long):
        return f"{text!r}: {verdict.kind}"
    return None


def judge(path, goal, words, is_long, texts):
    """How many of these fronts are read, and what is wrong with the first that is not as it should be, or nothing."""
    found = verdicts(path, goal, texts, words)
    wrongs = (wrong(text, own, is_long) for text, own in zip(texts, found))
    return sum(isinstance(it, Read) for it in found), next((it for it in wrongs if it), None)


def told(path, goal, words, is_long, texts):
    """A test that all these fronts are as they should be."""
    batches = [(path, goal, words, is_long, texts[at : at + BATCH]) for at in range(0, len(texts), BATCH)]
    return next((why for _, why in side_by_side(judge, batches) if why), None)
    yield


def through(paths, goal, texts):
    """What is wrong with the first of these texts with which the command line ends otherwise than it should, or nothing."""
    whole = [it for it in texts if valid_bytes(it) == len(it)]
    known = dict(zip(whole, verdicts(paths["ecma-program-answers"], goal, whole, USUAL)))
    wrongs = (told_by_command(paths["ecma-front"], goal, text, known.get(text)) for text in texts)
    return next((it for it in wrongs if it), None)


def by_command(paths, goal, texts):
    """A test that the command line writes what the parts of the program write for these texts, or tells the same fault."""
    batches = [(paths, goal, texts[at : at + BATCH // 10]) for at in range(0, len(texts), BATCH // 10)]
    return next((why for why in side_by_side(through, batches) if why), None)
    yield


def tests(paths):
    """A test for each goal and each choice of the language, and one for each goal through the command line, with their names."""
    whole, broken = fronts()
    path = paths["ecma-program-answers"]
    own = [text for text, words in texts() if not words and len(text) <= GREATEST]
    found = []
    for goal in ("script", "module"):
        for (words, is_long), some in whole.items():
            kind = f"{'long' if is_long else 'short'} rows as a {goal}{''.join(f', {it}' for it in words)}"
            found.append((f"{len(some)} fronts of {kind}", told(path, goal, words, is_long, some)))
        found.append((f"{len(own)} rows as a {goal} by the command line", by_command(paths, goal, own)))
        found.append((f"{len(broken)} fronts that are no UTF-8 as a {goal}", by_command(paths, goal, broken)))
    return found

"""Texts at random, as many as are asked for: programs that grow by the grammar, texts that are changed, and trees that are made. The laws hold for
each that is read; any other is refused for its syntax, or as no UTF-8."""
import collections
import functools
import os
import random

import changing
import cuts
import joining
from asking import Ask, Refused, ask_batch
from front import valid_bytes
from laws import NEW_EACH_TIME, Broken, Fault, Read, side_by_side, told_by_command, verdicts

FILES = f"{os.path.dirname(os.path.realpath(__file__))}/files"
# how many texts are tried where no number is asked for, how many in a batch, and of how many one goes through the command line too
COUNT, BATCH, THROUGH = 10_000, 250, 50
# how many nodes grow, and how a text is to look; of those that grow so many in a thousand are read at least
FUELS, LEAST = (3, 5, 5, 8, 8, 12, 12, 20, 60), 990
LOOKS = [
    (), (), (), ("crlf", "indent=tab"), ("page",), ("ascii",), ("target=es2015",), ("target=es5",), ("target=es3", "ascii", "page"),
    ("indent=0", "target=es2020"),
]  # fmt: skip
# of how many steps a tree is made at most
STEPS = (20, 40, 60, 60, 100)
# the optional parts of the language that texts may have
LANGUAGES = [(), cuts.USUAL, cuts.USUAL, cuts.LANGUAGE]


class Tally(collections.Counter):
    """How many texts were read, and how many had which fault."""

    def line(self):
        return ", ".join(f"{count} {what}" for what, count in self.most_common())


def judge(paths, goal, look, texts, language=()):
    """A tally of these texts, and what is wrong with the first for which a law fails, or nothing."""
    whole = [it for it in texts if valid_bytes(it) == len(it)]
    found = verdicts(paths["ecma-program-answers"], goal, whole, language, look)
    tally, wrongs = Tally(), []
    for at, (text, own) in enumerate(zip(whole, found)):
        tally["read" if isinstance(own, Read) else own.kind if isinstance(own, Fault) else "wrong"] += 1
        if isinstance(own, Broken):
            wrongs.append(f"{text!r} as a {goal} {' '.join(look)}: {own.why}")
        elif isinstance(own, Fault) and own.kind in ("Memory", "TooDeep"):
            wrongs.append(f"{text!r} as a {goal}: {own.kind}")
        elif at % THROUGH == 0 and not look and language == cuts.USUAL:
            wrongs.append(told_by_command(paths["ecma-front"], goal, text, own))
    for text in texts:
        if valid_bytes(text) < len(text):
            tally["NotUtf8"] += 1
            wrongs.append(told_by_command(paths["ecma-front"], goal, text))
    return tally, next((it for it in wrongs if it), None)


def grown(paths, seed, start, count):
    """Judges texts that grow from seeds in a row."""
    rand = random.Random(f"grown {seed} {start}")
    goal = rand.choice(("script", "module"))
    language = rand.choice(LANGUAGES)
    texts = [joining.text(f"{seed} {at}", goal, rand.choice(FUELS), language).encode() for at in range(start, start + count)]
    return judge(paths, goal, rand.choice(LOOKS), texts, language)


@functools.cache
def originals():
    """The texts of all short rows, and pieces of the real files."""
    files = []
    for name in sorted(it for it in os.listdir(FILES) if not it.endswith(".md")):
        with open(f"{FILES}/{name}", "rb") as it:
            lines = it.read().splitlines(keepends=True)
        files += [b"".join(lines[at : at + 12]) for at in range(0, len(lines), 6)]
    return [it for it, _ in cuts.texts() if 0 < len(it) <= cuts.SHORT], files


def changed(paths, seed, start, count):
    """Judges texts that are changed by seeds in a row: rows, pieces of files, and programs that grow."""
    rand = random.Random(f"changed {seed} {start}")
    goal = rand.choice(("script", "module"))
    own, files = originals()
    language = rand.choice(LANGUAGES)
    some = [joining.text(f"changed {seed} {start} {at}", goal, rand.choice(FUELS), language).encode() for at in range(40)]
    texts = [changing.changed(f"{seed} {at}", rand.choice((own, own, files, some, some))) for at in range(start, start + count)]
    return judge(paths, goal, rand.choice(LOOKS), texts, language)


def trees(paths, seed, start, count):
    """Judges the texts of trees that the program makes from seeds in a row: each is read as the same program, and written again with the same bytes."""
    rand = random.Random(f"trees {seed} {start}")
    style, look = rand.choice(("format", "minify")), rand.choice(LOOKS)
    first = (seed * 1_000_003 + start) % 2**31
    asked = [" ".join(["tree", style, *look, f"seed={at}", f"steps={rand.choice(STEPS)}"]) for at in range(first, first + count)]
    kinds, tally = {}, Tally()
    for setting, answer in zip(asked, ask_batch(paths["ecma-program-answers"], [Ask("", it, ()) for it in asked])):
        if isinstance(answer, Refused):
            return tally, f"{setting}: {answer.why}"
        goal, features, text, how = answer
        if how != b"same":
            return tally, f"{setting}: its text is read as {how.decode()}: {text!r}"
        kinds.setdefault((goal.decode(), features), []).append((setting, text))
    for (goal, features), own in kinds.items():
        texts = [text for _, text in own]
        found = verdicts(paths["ecma-program-answers"], goal, texts, ("using", "accessors") if features else (), look)
        for (setting, text), it in zip(own, found):
            again = isinstance(it, Read) and (it.minified if style == "minify" else it.formatted)
            tally[goal] += 1
            if not again or again != text and not any(word in look for word in NEW_EACH_TIME):
                return tally, f"{setting}: {text!r}: {it}"
    return tally, None


def told(work, paths, seed, count):
    """A test that so many texts, or trees, are as they should be."""
    tally = Tally()
    for own, why in side_by_side(work, [(paths, seed, at, min(BATCH, count - at)) for at in range(0, count, BATCH)]):
        tally += own
        if why:
            return why
    if work is grown and tally["read"] * 1000 < LEAST * count:
        return f"too few are read: {tally.line()}"
    if count != COUNT:
        print(f"{work.__name__}, from seed {seed}: {tally.line()}")
    return None
    yield


# what a test is called after
NAMES = {grown: "texts that are grown", changed: "texts that are changed", trees: "trees"}


def tests_of(work):
    """What tests so many texts from a seed."""

    def tests(paths, count=COUNT, seed=0):
        return [(f"{count} {NAMES[work]}, from seed {seed}", told(work, paths, seed, count))]

    return tests


grown_tests, changed_tests, trees_tests = tests_of(grown), tests_of(changed), tests_of(trees)

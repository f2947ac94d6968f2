"""Real files, formatted and minified: what is written is the same program, and writing it again changes nothing."""
import os

from asking import Ask, Run, Wrong, only, ran
from programs import judge_outside
from rows import difference

FOLDER = f"{os.path.dirname(os.path.realpath(__file__))}/files"
# the files that stand there, so that none is lost
NAMES = ["events.mjs", "ledger.mjs", "sample.mjs", "widgets.js"]


def written(text, *words):
    """What is written for a text."""
    done = ran((yield [Run(words, text)])[0])
    if done.status or done.err:
        raise Wrong(f"status {done.status} for {' '.join(words)}: {done.err.decode(errors='replace')}")
    return done.out


def again(what, text, wanted, *words):
    """Writes a text again, which is to give this."""
    found = yield from written(text, *words)
    if found != wanted:
        at = next((n for n, (one, other) in enumerate(zip(found, wanted)) if one != other), min(len(found), len(wanted)))
        raise Wrong(f"{what}: {difference([wanted[at : at + 60]], [found[at : at + 60]])}, from byte {at} on")


def file(name, words):
    """A file by some options: formatted twice, minified twice, minified once formatted, and both the same program as the file."""
    with open(f"{FOLDER}/{name}", "rb") as it:
        text = it.read()
    goal = () if name.endswith(".mjs") else ("--script",)
    words = (*goal, *words)
    formatted = yield from written(text, *words)
    minified = yield from written(text, *words, "--minify")
    if not len(minified) < len(text):
        return f"minified it has {len(minified)} bytes of {len(text)}"
    yield from again("formatted twice", formatted, formatted, *words)
    yield from again("minified twice", minified, minified, *words, "--minify")
    yield from again("formatted, then minified", formatted, minified, *words, "--minify")
    kind = "script" if goal else "module"
    answers = yield [Ask("ecma-program-answers", f"same {kind} attributes nesting=256", (text, it)) for it in (formatted, minified)]
    for style, answer in zip(("formatted", "minified"), answers):
        if only(answer) != [b"same"]:
            return f"{style} it is another program"
    return (yield from judge_outside(kind, text, formatted, minified))


def all_are_there(names):
    """These are the files that are to stand in the folder."""
    return None if names == NAMES else f"expected {', '.join(NAMES)}, got {', '.join(names) or 'no file'}"
    yield


def tests(paths):
    """The tests of the files, each with its name."""
    names = sorted(it for it in os.listdir(FOLDER) if not it.endswith(".md"))
    ways = ((), ("--crlf", "--indent", "tab"), ("--inline-script",), ("--target", "es2015"))
    return [("tests/files", all_are_there(names)), *((" ".join(("tests/files/" + name, *words)), file(name, words)) for name in names for words in ways)]

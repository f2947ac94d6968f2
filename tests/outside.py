"""A parser from outside, where one is on the machine: whether acorn reads what is written as the tree of its source (tests/by_acorn)."""
import functools
import os
import select
import shutil
import subprocess
import threading

from asking import BATCH_SECONDS, Ask, Refused, Wrong, answer_of, line_of, only

PROGRAM = f"{os.path.dirname(os.path.realpath(__file__))}/by_acorn"
# how many questions are asked at once: their answers are shorter than what a pipe holds
CHUNK = 50
# two texts with one tree, with two, and none that acorn reads
PAIRS = (((b"a+(b)", b"a + b;"), b"same"), ((b"(a+b)*c", b"a+b*c"), b"other"), ((b"a b", b"a b"), b"unread"))
# of each thread the process that it asks, and that of Python's in which it was started
OWN = threading.local()


def process():
    """The process that this thread asks."""
    if getattr(OWN, "of", None) != os.getpid() or OWN.process.poll() is not None:
        how = {"stdin": subprocess.PIPE, "stdout": subprocess.PIPE, "stderr": subprocess.DEVNULL, "bufsize": 0}
        OWN.process, OWN.of = subprocess.Popen([PROGRAM], **how), os.getpid()
    return OWN.process


def answers_to(questions):
    """The answers to a few questions; where it ends or says nothing for long there is none to all of them."""
    own, found = process(), b""
    try:
        own.stdin.write(b"".join(map(line_of, questions)))
        while found.count(b"\n") < len(questions):
            is_ready = select.select([own.stdout], [], [], BATCH_SECONDS)[0]
            part = own.stdout.read(65536) if is_ready else b""
            if not part:
                own.kill()
                return [Refused("the parser from outside ended, or had no answer")] * len(questions)
            found += part
    except OSError as wrong:
        return [Refused(f"the parser from outside ended: {wrong}")] * len(questions)
    return [answer_of(it) for it in found.split(b"\n")[:-1]]


def answers(questions):
    """The answers to these questions."""
    return [it for at in range(0, len(questions), CHUNK) for it in answers_to(questions[at : at + CHUNK])]


@functools.cache
def which():
    """Which parser that is, or nothing where there is none. One that is named and can't be asked ends the tests."""
    if not shutil.which("node"):
        return None
    answer = answers([Ask("outside", "version", ())])[0]
    if isinstance(answer, Refused):
        if os.environ.get("ECMA_ACORN"):
            raise Wrong(f"ECMA_ACORN names no acorn: {answer.why}")
        return None
    for (pair, wanted), it in zip(PAIRS, answers([ask("script", *it) for it, _ in PAIRS])):
        if only(it)[0] != wanted:
            raise Wrong(f"acorn tells {it} of {pair}")
    version, where = (it.decode() for it in only(answer))
    return f"acorn {version} ({where})"


def said():
    """The line that says whether a parser from outside is asked."""
    return f"trees are compared by {which()} as well" if which() else "no parser from outside compares trees: there is no node with an acorn"


def ask(goal, one, other):
    """The question whether both texts have one tree."""
    return Ask("outside", f"same {goal}", (one, other))


def wrong(answer):
    """What is wrong by an answer, or nothing. A text that acorn doesn't read says nothing of the other."""
    if isinstance(answer, Refused):
        return answer.why
    return f"acorn reads another tree: {answer[1].decode(errors='replace')}" if answer[0] == b"other" else None


def wrongs(goal, pairs):
    """Of each of these pairs what is wrong by acorn, or nothing; nothing of all where it isn't asked."""
    return [wrong(it) for it in answers([ask(goal, *it) for it in pairs])] if which() else [None] * len(pairs)

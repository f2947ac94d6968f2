"""Neighbours that might fuse: every `u x`, `x o y` and `x o a p y` that the grammar reads is written as the same program in both styles."""
from laws import Broken, Fault, Read, side_by_side, verdicts

BINARY = "== != === !== < > <= >= in instanceof << >> >>> + - * / % ** & | ^ && || ??".split()
UNARY = "- + ! ~ typeof void delete ++ --".split()
OPERANDS = ["a", "1", "1.5", "010", '"s"', "/r/", "({})", "[]", "+a", "-a", "!a", "++a", "--a", "a++", "a--", "!--a", "typeof a", "new a"]


def unary():
    """An operator before an operand, and two before one."""
    fronts = [*UNARY, *(f"{u} {v}" for u in UNARY for v in UNARY)]
    return [f"{front} {x}" for front in fronts for x in OPERANDS]


def binary(o):
    """An operator between two operands, alone and with each other behind it."""
    behind = [f"{o} {y}" for y in OPERANDS] + [f"{o} a {p} {y}" for p in BINARY for y in OPERANDS]
    return [f"{x} {it}" for x in OPERANDS for it in behind]


def wrong(text, verdict):
    """What is wrong with what came of a text, or nothing. It is read, or not of the grammar."""
    if isinstance(verdict, Broken):
        return f"{text!r}: {verdict.why}"
    if isinstance(verdict, Fault) and verdict.kind in ("Memory", "TooDeep"):
        return f"{text!r}: {verdict.kind}"
    return None


def judge(path, o):
    """Of the texts of a binary operator, or of the unary ones, how many there are, how many are read, and what is wrong with the first, or nothing."""
    texts = [it.encode() for it in (binary(o) if o else unary())]
    found = verdicts(path, "script", texts)
    wrongs = (wrong(*it) for it in zip(texts, found))
    return len(texts), sum(isinstance(it, Read) for it in found), next((it for it in wrongs if it), None)


def told(verdict):
    """A test that ended so. Of each operator's texts some are read."""
    count, read, why = verdict
    return why or (None if read else "none is read")
    yield


def tests(paths):
    """A test for each binary operator, and one for the unary ones, with their names."""
    operators = [None, *BINARY]
    found = side_by_side(judge, [(paths["ecma-program-answers"], o) for o in operators])
    return [(f"{it[0]} texts of {o or 'unary operators'}, {it[1]} read", told(it)) for o, it in zip(operators, found)]

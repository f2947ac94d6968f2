"""Rows of the lexical layer, of spellings, of writers and of the lexer, and rows about rows."""
from asking import Ask, Wrong, only
from rows import BadLine, Problem, difference, read_rows, show, unescape


def ask(setting, *fields):
    return Ask("ecma-lexical-answers", setting, fields)


def field(row):
    """The bytes that a field stands for, or what is wrong with it."""
    try:
        return [unescape(row.text())]
    except Problem as problem:
        return [str(problem).encode()]


def rows(row):
    """The rows of a text: the line and the setting of each, and then its fields; or what is wrong with a line."""
    try:
        found = read_rows(row.text())
    except BadLine as bad:
        return [str(bad).encode()]
    return [it for own in found for it in (f"{own.line} <{own.setting}>".encode(), *own.fields)]


ABOUT_ROWS = {"field": field, "rows": rows, "shown": lambda row: [show(row.field(0)).encode()]}


def tokens(row):
    """The tokens of a text under each list of goals of the setting, which have to agree."""
    goals = row.setting.split(" ", 1)[1].split(" or ")
    answers = yield [ask(f"tokens {it}", row.field(0)) for it in goals]
    if any(only(it) != only(answers[0]) for it in answers):
        return "the goals differ"
    return difference(row.fields[1:], answers[0])


def reserved(row):
    """The tokens of a word alone, the same under both goals, and each code in which it is a reserved word with an escape."""
    text = row.field(0)
    division, expression, codes = yield [ask("tokens div *", text), ask("tokens regexp *", text), ask("reserved", text)]
    if only(division) != only(expression):
        return "the goals differ"
    return difference(row.fields[1:], division + only(codes))


def groups(row):
    """Of the spellings on these lines each two that have the same value, in both orders, each in a field."""
    lines = row.field(0).rstrip(b"\n").split(b"\n")
    pairs = [(one, other) for one in lines for other in lines]
    found = []
    for (one, other), answer in zip(pairs, (yield [ask("same", *it) for it in pairs])):
        is_same = only(answer) == [b"same"]
        if one == other and not is_same:
            return "a value differs from itself"
        if one != other and is_same:
            found.append(one + b" = " + other)
    return difference(row.fields[1:], found)


def lexer(row):
    """The tokens that the lexer hands out."""
    asked = 2 if row.has("steps") else 1
    answer = (yield [ask(f"lexer {row.setting}", *row.fields[:asked])])[0]
    return difference(row.fields[asked:], only(answer))


def plain(row):
    """What the program answers."""
    asked = 2 if row.subject() in ("same", "commented") or row.setting.startswith("spell raw") else 1
    answer = (yield [ask(row.setting, *row.fields[:asked])])[0]
    return difference(row.fields[asked:], only(answer))


def judge(row):
    """What is wrong with a row of the lexical layer, or nothing."""
    if row.subject() in ABOUT_ROWS:
        return difference(row.fields[1:], ABOUT_ROWS[row.subject()](row))
    of = {"tokens": tokens, "reserved": reserved, "groups": groups}.get(row.subject(), plain)
    return (yield from of(row))


def judge_lexer(row):
    """What is wrong with a row of the lexer, or nothing."""
    if row.subject() not in ("script", "strict", "module"):
        raise Wrong("no such subject")
    return (yield from lexer(row))

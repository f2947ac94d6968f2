"""All short texts over small alphabets: what the lexical layer reads, compared with a plain reader (plain.py)."""
import concurrent.futures
import itertools
import os
import re

import plain
from asking import Ask, Refused, ask_batch

PROCESSORS = len(os.sched_getaffinity(0))
# how many texts of a family are tried at most, and how many in one batch
MOST, BATCH = 42_000, 5_000
LS, E, SNOWMAN, ZWJ = "\u2028", "\u00e9", "\u2603", "\u200d"
# all characters that some rule asks for, and some others
ALL = f"'\"\\0 18_.exnu/*[]<!->=?\n\r{LS}a{E}`${{}}#{SNOWMAN}"
QUOTED = f"'\\\n\r{LS}xu{{}}037 8az"


def place(text, index):
    """The place of a character: bytes from 1."""
    return len(text[:index].encode()) + 1


def of_token(goal):
    """The token at the front under a goal: its sort, its bytes, and whether a word has an escape."""

    def wanted(text):
        if not text:
            return ["end"]
        found = plain.token(goal, text)
        if not found:
            return None
        sort, size = found
        return [f"{sort}{' escaped' if sort == 'Word' and chr(92) in text[:size] else ''} 1..{place(text, size)}"]

    sorts = {"Str": "Str", "Num": "Number", "BigInt": "Number", "Regex": "RegExp"}

    def found(text, fields):
        if fields == ["end"]:
            return fields
        word = fields[0].split(" ")[0]
        if is_fault(fields[:1]):
            return None
        is_word = word in ("Null", "True", "False") or word.startswith(("Ident(", "Keyword("))
        sort = sorts.get(word) or ("Word" if is_word else "Punctuator")
        escaped = " escaped" if re.search(r" escaped( \w+)? \d+\.\.\d+$", fields[0]) else ""
        return [f"{sort}{escaped} {fields[0].rsplit(' ', 1)[1]}"]

    return f"tokens {goal}", wanted, found


# the kinds of punctuators that are told by one word
MARKS = """LBrace LParen RParen LBracket RBracket RBrace Dot DotDotDot Semi Comma Bang Tilde PlusPlus MinusMinus QuestionMark Colon Arrow Hash
    At BackQuote DollarLBrace Null True False""".split()


def is_fault(fields):
    """Whether an answer is one fault alone."""
    return len(fields) == 1 and bool(re.fullmatch(r"[A-Z][A-Za-z]+ \d+\.\.\d+", fields[0])) and fields[0].split(" ")[0] not in MARKS


def of_piece():
    """The characters of a template under its goal."""

    def wanted(text):
        found = plain.TEMPLATE.match(text)
        return [f"1..{place(text, found.end(1))}"] if found else None

    def found(text, fields):
        return None if is_fault(fields) or fields == ["end"] else [fields[0].rsplit(" ", 1)[1]]

    return "tokens tail", wanted, found


def plain_string(text):
    found = plain.string(text)
    return [f"[{', '.join(map(str, found[0]))}]{' legacy' if found[1] else ''}", text[found[2] :]] if found else None


def plain_template(text):
    found = plain.template(text)
    if not found:
        return None
    cooked = "bad" if found[0] is None else f"[{', '.join(map(str, found[0]))}]"
    return [cooked, found[1], found[2], text[found[3] :]]


def or_fault(text, fields):
    """An answer as it is, and nothing for a fault."""
    return None if is_fault(fields) else fields


def plain_number(text):
    """What follows a number, whether it is of the old octal form, and its radix if it is a big integer; or its fault."""
    kind, size = plain.number(text)
    if plain.bars_number(text[size:]):
        fault, lo, hi = plain.number_fault(kind, text, size)
        return [f"{fault} {lo + 1}..{hi + 1}"]
    return [f"{kind if isinstance(kind, int) else ''} {'octal' if kind == 'LegacyOctal' else ''}", text[size:]]


def read_number(text, fields):
    if is_fault(fields):
        return fields
    big = re.match(r"BigInt (\d+):", fields[0])
    return [f"{big[1] if big else ''} {'octal' if fields[0].endswith(' LegacyOctal') else ''}", *(fields[1:] or [""])]


def of_trivia(goal, first):
    """The piece of trivia at the front."""

    def wanted(text):
        found = plain.trivia(goal, first, text)
        if found is None or isinstance(found, str):
            return [found or "none"]
        kind, own, size = found
        return [f"{kind}{own}{'*/' if kind == '/*' else ''}", text[size:]]

    def found(text, fields):
        return [fields[0].split(" ")[0]] if is_fault(fields) else fields

    return f"piece {goal}{' first' if first else ''}", wanted, found


def plain_name(text):
    if not plain.opens_name(text):
        return ["none"]
    size = plain.name(text)
    return [text[size:]] if size else None


def plain_punctuator(text):
    size = plain.punctuator(text)
    return [text[size:]] if size else ["none"]


def rest_of(text, fields):
    """What follows, from an answer that has it last."""
    return None if is_fault(fields) else fields[-1:] if len(fields) > 1 or fields == ["none"] else [""]


def whole(setting, rereads, strict):
    """The tokens and comments of a whole text, and what strict code has against them."""
    goal = "module" if setting == "module" else "script"

    def reading(text):
        return plain.Lexing(goal, rereads, text).read()

    def fields_of(text, own):
        told = []
        for broke, letter, lo, hi in own.tokens:
            told.append(f"{'^' if broke else ''}{letter}" + ("" if letter == "E" else f" {text[lo:hi]}"))
        notes = sorted(own.notes, key=lambda it: (it[1], it[0] == "leads"))
        comments = [
            f"{side} {place(text, at)} {'/*' if mark == '/*' else '//'} {place(text, lo)}..{place(text, hi)}{inner}"
            for side, at, mark, lo, hi, inner in notes
        ]
        old = [f"{place(text, it[2])}..{place(text, it[3])}" for it in own.tokens if strict and own.is_old(it)]
        return [" | ".join(told), *comments, *old]

    def wanted(text):
        return fields_of(text, reading(text))

    def asked(text):
        if not rereads:
            return (text.encode(),)
        steps = []
        for before, (_, _, lo, _) in zip([None, *(reading(text).tokens)], reading(text).tokens):
            again = before and before[2] == lo and before[3] > lo
            steps += [str(place(text, lo)), "next", "withdraw"] if again else ["next"]
        return text.encode(), " ".join(steps).encode()

    def found(text, fields):
        told = re.sub(r"(^|\| )(\^?)E \w+ \d+\.\.\d+$", r"\1\2E", fields[0]) if fields else ""
        return [told, *(it if it.startswith(("trails ", "leads ")) else it.split(" ")[-1] for it in fields[1:])]

    return f"lexer {setting}{' steps' if rereads else ''} comments", wanted, found, asked


# each family: its name, how its texts are asked, read plainly and told, its beginnings, its alphabet and the greatest length
FAMILIES = [
    *((f"{kind} of {what}", of_token(kind), [""], alphabet, longest)
      for kind in ("div", "regexp")
      for what, alphabet, longest in (
          ("up to three of all", ALL, 3),
          ("names with escapes", f"\\u061{E}", 6),
          ("names with braces", "\\u{}61", 6),
          ("decimal numbers", "018.e_-", 6),
          ("numbers with prefixes", "018boxn_\\", 5),
          ("strings", f"'\"\\\n\r{LS}{E}", 6),
          ("strings with escapes", "'\\018xu{}", 5),
          ("regular expressions", f"/*[]\\a=\n{LS}", 5),
          ("longer regular expressions", "/[]\\a", 6),
          ("punctuators", "/*<!->=?.", 5),
      )),
    *((f"pieces of {what}", of_piece(), [""], alphabet, longest)
      for what, alphabet, longest in (
          ("up to three of all", ALL, 3),
          ("templates", "`${}\\0u\r\n", 5),
          ("longer templates", f"`${{\\x{LS}", 6),
      )),
    ("strings", ("string", plain_string, or_fault), ["'"], QUOTED, 4),
    ("strings behind a beginning", ("string", plain_string, or_fault), ["'\\", "'\\u", "'\\u{", "'\\x", "'\\3", "'\\0"], QUOTED, 3),
    ("templates", ("template", plain_template, or_fault), [""], QUOTED.replace("'", "`").replace(" ", "$"), 4),
    ("templates behind a beginning", ("template", plain_template, or_fault), ["\\", "\\u", "\\u{", "\\x", "\\0"], QUOTED.replace("'", "`").replace(" ", "$"), 3),
    *((f"numbers of {alphabet}", ("number", plain_number, read_number), [""], alphabet, longest)
      for alphabet, longest in (("018.e_xnb+", 5), (f"79oEX_F\\{E};", 4), ("0.5eE+-_n ", 4))),
    *((f"trivia of a {goal}{' in front' if first else ''}, {what}", of_trivia(goal, first), [""], alphabet, longest)
      for goal in ("script", "module")
      for first in (True, False)
      for what, alphabet, longest in (("short", f"/*<!->\n\r{LS}a ", 4), ("longer", "/*->\n", 6))),
    ("names", ("name", plain_name, rest_of), [""], f"\\u{{6}}{ZWJ}", 6),
    ("punctuators", ("punctuator", plain_punctuator, rest_of), [""], ".?=><!*&|+-/0a", 5),
    ("punctuators of all", ("punctuator", plain_punctuator, rest_of), [""], f".?=><!*&|+-/%^~#@()[]{{}};,:`9a$\\ \n{E}", 3),
    *((f"tokens of a {setting}, {what}", whole(setting, setting == "strict", setting != "script"), [""], alphabet, longest)
      for setting in ("script", "strict", "module")
      for what, alphabet, longest in (
          ("up to three of all", ALL.replace("x", "").replace("u", ""), 3),
          ("templates and braces", "`${}a/", 6),
          ("longer templates", "`${}", 8),
          ("comments and line breaks", "/*\na ", 6),
          ("comments of the HTML form", "<!->\na", 6),
          ("HTML comments behind comments", "/*->\n", 7),
          ("hashbangs", f"#!\n{LS}a/", 5),
          ("slashes", "/[]\\a=\n", 5),
          ("old forms", "018.'\\ ", 5),
      )),
]  # fmt: skip


def texts_of(beginnings, alphabet, longest, most):
    """The texts of a family, the short ones first, of as many lengths as stay below so many."""
    found = []
    for size in range(longest + 1):
        if found and len(found) + len(beginnings) * len(alphabet) ** size > most:
            break
        found += [front + "".join(it) for front in beginnings for it in itertools.product(alphabet, repeat=size)]
    return found


def compare(path, index, start, most):
    """Compares a batch of the texts of a family: how many there are, and the first that is read otherwise."""
    _, (setting, wanted, found, *more), beginnings, alphabet, longest = FAMILIES[index]
    asked = more[0] if more else lambda text: (text.encode(),)
    texts = texts_of(beginnings, alphabet, longest, most)[start : start + BATCH]
    if setting == "number":
        texts = [it for it in texts if re.match(r"\.?[0-9]", it)]
    answers = ask_batch(path, [Ask("", setting, asked(it)) for it in texts])
    for text, answer in zip(texts, answers):
        own = answer.why if isinstance(answer, Refused) else found(text, [it.decode() for it in answer])
        want = wanted(text)
        if own is not None and isinstance(own, list) and isinstance(want, list):
            while own[-1:] == [""]:
                own.pop()
            while want[-1:] == [""]:
                want.pop()
        if own != want:
            return len(texts), f"{text!r}: expected {want}, got {own} ({answer})"
    return len(texts), None


def told(futures):
    """A test that ends as these batches did."""
    for future in futures:
        if wrong := future.result()[1]:
            return wrong
    return None
    yield


def tests(paths, most=MOST):
    """A test for each family, with its name."""
    pool = concurrent.futures.ProcessPoolExecutor(PROCESSORS)
    found = []
    for index, (name, _, beginnings, alphabet, longest) in enumerate(FAMILIES):
        count = len(texts_of(beginnings, alphabet, longest, most))
        futures = [pool.submit(compare, paths["ecma-lexical-answers"], index, start, most) for start in range(0, count, BATCH)]
        found.append((f"{count} texts: {name}", told(futures)))
    return found

#!/usr/bin/env python3
"""Rows of spellings, made by a program that knows nothing of the one under test: how strings, names, keys, numbers, big integers, templates
and regular expressions are written. It reads what is asked from spellings.txt, makes the families of units and of template pieces itself,
and follows the tables of docs/SPELLINGS.md. Each literal that it writes it also reads, by the rules of ECMA-262 (12.9.3, 12.9.4, 12.9.6),
and ends where that has another value than what was asked.

  tools/rows/by_spelling.py [--check] [FOLDER]

FOLDER is that of the rows, tests/rows/spell without one. --check writes nothing, and says whether the rows there are what it makes; the
status is 0 only where they are.
"""
import os
import re
import sys

HERE = os.path.dirname(os.path.realpath(__file__))
ROOT = os.path.dirname(os.path.dirname(HERE))
sys.dont_write_bytecode = True
sys.path.insert(0, f"{ROOT}/tests")
from rows import unescape  # noqa: E402

EDITIONS = {"es3": 3, "es5": 5, "es2015": 2015, "es2020": 2020}
LETTERS = {0x8: "b", 0xA: "n", 0xB: "v", 0xC: "f", 0xD: "r", 0x5C: "\\"}
# what a backslash before a letter stands for (12.9.4)
MEANS = {"b": 0x8, "t": 0x9, "n": 0xA, "v": 0xB, "f": 0xC, "r": 0xD}
DIGITS = "0123456789"


class Words:
    """The words of a setting."""

    def __init__(self, setting):
        self.words = setting.split(" ")
        self.edition = next((EDITIONS[it] for it in self.words if it in EDITIONS), 9999)

    def __contains__(self, word):
        return word in self.words


def is_surrogate(c):
    return 0xD800 <= c < 0xE000


def points_of(units):
    """The code points of units: a pair is one, any other unit is one."""
    found, at = [], 0
    while at < len(units):
        pair = units[at : at + 2]
        if len(pair) == 2 and 0xD800 <= pair[0] < 0xDC00 <= pair[1] < 0xE000:
            found.append(0x10000 + (pair[0] - 0xD800) * 0x400 + pair[1] - 0xDC00)
            at += 2
        else:
            found.append(pair[0])
            at += 1
    return found


def units_of(c):
    """The units of a code point."""
    return [c] if c < 0x10000 else [0xD800 + (c - 0x10000) // 0x400, 0xDC00 + c % 0x400]


# Strings


def string_character(c, follows, quote, words):
    """How one character of a string stands between its quotes, before this one."""
    old, ascii_only = words.edition <= 5, "ascii" in words
    if c == 0:
        return "\\x00" if words.edition <= 3 or follows and chr(follows[0]) in DIGITS else "\\0"
    if c in LETTERS:
        return "\\" + LETTERS[c]
    if c < 0x20 and c != 9:
        return f"\\x{c:02x}"
    if c < 0x7F:
        return "\\" + quote if chr(c) == quote else chr(c)
    if c < 0x100:
        return f"\\x{c:02x}" if ascii_only or old else chr(c)
    if c in (0x2028, 0x2029, 0xFEFF) or is_surrogate(c) or c < 0x10000 and ascii_only:
        return f"\\u{c:04X}"
    if c < 0x10000:
        return chr(c)
    if old:
        return "".join(f"\\u{it:04X}" for it in units_of(c))
    return f"\\u{{{c:X}}}" if ascii_only else chr(c)


def inlined(points):
    """How characters stand that would end a page's script, or open or close its comment, by their places."""
    text, found = "".join(map(chr, points)), {}
    for it in re.finditer("</(?=script[> \t])", text, re.I | re.A):
        found[it.start() + 1] = "\\/"
    for it in re.finditer("<(?=!--)", text):
        found[it.start()] = "\\x3c"
    for it in re.finditer("(?<=--)>", text):
        found[it.start()] = "\\x3e"
    return found


def string(units, words):
    """A string's text, as its quotes and the text of each character."""
    points = points_of(units)
    quote = "'" if points.count(0x22) > points.count(0x27) else '"'
    safe = inlined(points) if "inline" in words else {}
    parts = [safe.get(at) or string_character(c, points[at + 1 : at + 2], quote, words) for at, c in enumerate(points)]
    agree(value_of("".join(parts)), units, parts)
    return [quote, *parts, quote]


def raw(units, text, words):
    """A string's text where it may stand as it was read."""
    is_like_directive = units == list(map(ord, "use strict")) and "\\" in text
    if is_like_directive or "format" in words and (text.isascii() or "ascii" not in words):
        return [text]
    return string(units, words)


# Names and keys


def name(text, words, latin="\\u00{:02x}"):
    """A name's text."""
    if "ascii" not in words:
        return [text]
    forms = [(0x7F, "{}"), (0x100, latin), (0x10000, "\\u{:04X}"), (0x110000, "\\u{{{:X}}}")]
    return [next(form for end, form in forms if ord(c) < end).format(c if ord(c) < 0x7F else ord(c)) for c in text]


def key(text, words):
    """The text of a word that is a key: a string where a character of two hexadecimal digits needs an escape."""
    if "ascii" in words and any(0x7F <= ord(c) < 0x100 for c in text):
        return ['"', *name(text, words, "\\x{:02x}"), '"']
    return name(text, words)


# Numbers: a value is a radix, digits and a power of the radix


def is_legacy(text):
    """Whether a number is a legacy octal one (B.1.1)."""
    return bool(re.fullmatch("0[0-7]+", text))


def value(text):
    """The value of a number: digits without zeros at either end, and the power of ten; or a radix and digits, past 64 bits."""
    text = text.replace("_", "").lower()
    prefix = {"0x": 16, "0o": 8, "0b": 2}.get(text[:2]) or (8 if is_legacy(text) else None)
    if prefix:
        digits = text[2:] if text[1:2] in "xob" else text[1:]
        whole = int(digits, prefix)
        if whole >= 2**64:
            return prefix, digits.lstrip("0"), 0
        text = str(whole)
    digits, _, power = text.partition("e")
    whole, _, rest = digits.partition(".")
    own = (whole + rest).lstrip("0")
    kept = own.rstrip("0")
    return 10, kept, int(power or 0) - len(rest) + len(own) - len(kept) if kept else 0


def minified(text):
    """The shortest text of a number's value."""
    radix, digits, power = value(text)
    if radix != 10:
        return f"{ {16: '0x', 8: '0o', 2: '0b'}[radix]}{digits}"
    if not digits:
        return "0"
    if power >= 0:
        return digits + "0" * power if power < 3 else f"{digits}e{power}"
    if -power < len(digits):
        return f"{digits[:power]}.{digits[power:]}"
    zeros = -power - len(digits)
    return f".{'0' * zeros}{digits}" if zeros < 3 else f"{digits}e{power}"


def formatted(text, words):
    """A number as it was read, in an edition."""
    own = text.replace("_", "") if words.edition < 2021 else text
    if words.edition <= 5 and own[:2].lower() in ("0b", "0o") and int(own, 0) < 2**64:
        return str(int(own, 0))
    return own


def before_member(text):
    """A number before the point of a member: one that would take the point as its own has one more."""
    return f"{text}." if re.fullmatch("[0-9_]+", text) and not is_legacy(text) else text


def number(text, words):
    own = formatted(text, words) if "formatted" in words else minified(text)
    own = before_member(own) if "member" in words else own
    if value(own) != value(text):
        sys.exit(f"by_spelling: {text} is written as {own}")
    return [own]


def big_integer(text, words):
    """A big integer of this radix and these digits, and the text as it was read, where there is one."""
    radix, digits, *read = text.split(" ")
    if read and "format" in words:
        return [read[0].replace("_", "") if words.edition < 2021 else read[0]]
    return [{"10": "", "16": "0x", "8": "0o", "2": "0b"}[radix], digits, "n"]


# Templates


def parts_of(text):
    """The parts of a piece's raw text: escapes, by what follows the backslash, and characters."""
    return re.findall(r"\\(?:x[0-9A-Fa-f]{2}|.|$)|.", re.sub("\r\n?", "\n", text), re.S)


def bare_of(part, follows):
    """The character that a part stands for by itself, nothing where it writes none, or the part where it is as spelled."""
    if part[0] != "\\":
        return ord(part)
    if part[1:2] == "x" and len(part) == 4:
        c = int(part[2:], 16)
        if c in (0x24, 0x5C, 0x60):
            return part
        return c if c == 0 or 0x20 <= c < 0x7F else part.lower()
    if part[1:] in ("", *"\\`bfruvx\n") or part == "\\$" and follows.startswith("{"):
        return part
    if part[1:] in "\u2028\u2029":
        return None
    return {"n": 0xA, "t": 0x9, "0": 0}.get(part[1], ord(part[1]))


def template_character(c, before, is_before_digit, words):
    """How a bare character of a template is written behind a text."""
    if c == 0:
        return "\\x00" if is_before_digit else "\\0"
    if c in (0x8, 0xB, 0xC):
        return "\\" + LETTERS[c]
    if c == 0x7B and before == "$":
        return "\\{"
    if 0x7F <= c < 0x100:
        return f"\\x{c:02x}"
    if c in (0x2028, 0x2029, 0xFEFF):
        return f"\\u{c:04X}"
    return f"\\u{{{c:X}}}" if c >= 0x100 and "ascii" in words else chr(c)


def template(text, words):
    """A piece of an untagged template."""
    parts = parts_of(text)
    whole = "".join(parts)
    if "format" in words and (whole.isascii() or "ascii" not in words):
        return [whole]
    bare = [bare_of(part, "".join(parts[at + 1 :])) for at, part in enumerate(parts)]
    bare = [it for it in bare if it is not None]
    found = []
    for at, it in enumerate(bare):
        is_before_digit = at + 1 < len(bare) and isinstance(bare[at + 1], int) and chr(bare[at + 1]) in DIGITS
        found.append(it if isinstance(it, str) else template_character(it, found[-1] if found else "", is_before_digit, words))
    agree(value_of("".join(found)), value_of(whole), found)
    if re.search(r"(?<!\\)(\\\\)*\$\{", "".join(found)):
        sys.exit(f"by_spelling: {text!r} is written with a substitution: {''.join(found)!r}")
    return found


def regexp(text, _words):
    body, flags = re.fullmatch("(.*) (.*)", text).groups()
    return [f"/{body}/{flags}"]


# What ECMA-262 reads


def value_of(text):
    """The units of what stands in quotes, by SV and TV (12.9.4.2, 12.9.6.1). A `$` before `{` is no matter here."""
    found = []
    for one in re.findall(r"\\(?:u\{[0-9A-Fa-f]+\}|u[0-9A-Fa-f]{4}|x[0-9A-Fa-f]{2}|.|$)|.", text, re.S):
        own = one[1:]
        if one[0] != "\\":
            found += units_of(ord(one))
        elif own[:1] in ("u", "x") and len(own) > 1:
            found += units_of(int(own[1:].strip("{}"), 16))
        elif own not in ("\n", "\r", "\u2028", "\u2029"):
            found += [0] if own == "0" else [MEANS[own]] if own in MEANS else units_of(ord(own))
    return found


def agree(found, wanted, parts):
    """Ends where a text that was written has other units than those that were asked for."""
    if found != wanted:
        sys.exit(f"by_spelling: {''.join(parts)!r} has the units {found}, not {wanted}")


# The rows


def show(text, least=" "):
    """A text as a field of a row has it: what is not plain ASCII from this character on stands by its number, and what begins a row that is none."""
    inner = "".join(c if least <= c <= "~" else f"«U+{ord(c):X}»" for c in text)
    return f"«U+{ord(text[0]):X}»{inner[1:]}" if inner[:1] in ("#", "@") else inner or "«»"


def in_runs(parts):
    """Parts as a field that has runs as marks."""
    found = []
    for it in map(show, parts):
        if found and found[-1][0] == it:
            found[-1][1] += 1
        else:
            found.append([it, 1])
    return "".join(it if count == 1 else it * count if count < 30 else f"«{count}*{it}»" for it, count in found)


def answer(setting, field):
    """The answer to a field, as a row has it."""
    words, asked = Words(setting), [unescape(it.strip(" ")).decode() for it in field.split("→")]
    kind = words.words[1]
    if kind in ("string", "raw"):
        units = [int(it, 16) for it in asked[0].split()]
        parts = raw(units, asked[1], words) if kind == "raw" else string(units, words)
        return field.split("→")[1].strip(" ") if parts == asked[1:] else in_runs(parts) if "*" in field else show("".join(parts))
    of = {"name": name, "key": key, "bigint": big_integer, "template": template, "regexp": regexp}.get(kind, number)
    return show("".join(of(asked[0], words)), "!" if kind == "template" else " ")


def listed():
    """What is asked, as spellings.txt lists it: the lines of each section by its name."""
    found = {}
    with open(f"{HERE}/spellings.txt", encoding="utf-8", newline="") as it:
        for line in it.read().split("\n"):
            if line.startswith("== "):
                own = found.setdefault(line[3:], [])
            elif line and not line.startswith("# "):
                own.append(line)
    return found


def units(behind=""):
    """Each unit from 0 to 2FF, before this."""
    return [f"{it:X}{behind}" for it in range(0x300)]


def characters(lo, hi):
    """Each character that may stand in a template alone."""
    return [chr(it) for it in range(lo, hi) if chr(it) not in "\\`"]


# characters beyond, at the ends of what is written alike
BEYOND = [*"\u2028\u2029\ufeff\u2027\u202a\ufffe\uffff\U00010000\U0010ffff\u4e2d\U0001f600\u0fff\u1000\U000fffff\U00100000"]


def before_digits():
    """Characters before digits, and before what is next to digits."""
    return [c + d for c in "\0\x01\b\t\n\v\f\x7f\xff\u2028" for d in "0179a:/"]


def escapes():
    """Each character behind a backslash, alone and with a character before and a digit behind, but those of other escapes."""
    own = [c for c in [*map(chr, range(0x101)), *"\u2028\u2029\ufeff\u4e2d\U0001f600"] if c not in "123456789xu"]
    return [it for c in own for it in ([f"\\{c}"] if c == "0" else [f"\\{c}", f"a\\{c}0"])]


def hexadecimal():
    """Each escape of two digits: alone, before a digit, and up to 2F before an escape that is one."""
    own = lambda c: [f"\\x{c:02x}", f"\\x{c:02X}9", *([f"\\x{c:02x}\\x3{c % 10}"] if c < 0x30 else [])]
    return [it for c in range(0x100) for it in own(c)]


def marked(texts):
    """Texts as rows have them."""
    return [show(it, "!") for it in texts]


def of_strings(asked):
    more = ("", " ascii", " inline", " ascii inline", " es3", " es5", " es5 ascii", " es2015", " es2015 ascii")
    yield "texts, pairs and lone surrogates: units, and their text in quotes.", [(f"spell string{it}", asked["strings"]) for it in more]
    own = [("spell string", asked["long strings"]), ("spell string inline", asked["long strings, inline"])]
    yield "Long ones: a block of the text has 128 bytes, and 32 units are looked at in one go.", own
    ways = ("", " ascii", " format", " format ascii")
    yield "Units, their text as it was read, and what is written of both.", [(f"spell raw{it}", asked[f"raw{it}"]) for it in ways]


def of_numbers(asked):
    yield "numbers: a spelling, and the shortest text of its value.", [("spell number", asked["numbers"]), ("spell bigint", asked["big integers"])]
    ways = (" format", " format es2020")
    yield "Radix, digits and the text as it was read.", [(f"spell bigint{it}", asked[f"big integers{it}"]) for it in ways]


def of_formatted(asked):
    read = asked["numbers as they were read"]
    ways = ("", " es2020", " es2015", " es5", " es3", " member", " es2015 member", " es5 member")
    groups = [*((f"spell formatted{it}", read) for it in ways), ("spell member", read + asked["numbers before a point"])]
    head = "numbers as they were read, in an edition and before the point of a member; minified before one; regular expressions."
    yield head, [*groups, ("spell regexp", asked["regular expressions"])]


def of_templates(asked):
    whole = [*characters(0, 0x300), *BEYOND, *before_digits(), *escapes(), *hexadecimal()]
    some = [*characters(0, 0x7F)[::5], *characters(0x7F, 0x300), *BEYOND]
    own = [("spell template", marked(whole) + asked["templates"]), ("spell template ascii", marked(some) + asked["templates ascii"])]
    own += [(f"spell template{it}", asked[f"templates{it}"]) for it in (" format", " format ascii")]
    yield "pieces of untagged templates, by their raw texts.", own


def of_names(asked):
    ways = ("name", "name ascii", "key", "key ascii")
    yield "names and keys: a name without escapes, and its text.", [(f"spell {it}", asked["names"]) for it in ways]


def of_units(_asked):
    head = "each unit from 0 to 2FF alone, and before a digit: units, and their text in quotes."
    yield head, [("spell string", units()), ("spell string", units(" 31"))]


def of_ascii(_asked):
    yield "each unit from 0 to 2FF with `ascii_only`, and in ES3.", [("spell string ascii", units()), ("spell string es3", units())]


FILES = {
    "formatted.rows": of_formatted, "names.rows": of_names, "numbers.rows": of_numbers, "strings.rows": of_strings,
    "templates.rows": of_templates, "units.rows": of_units, "units_ascii.rows": of_ascii,
}  # fmt: skip


def made():
    """The text of each file."""
    asked, found = listed(), {}
    for file, of in FILES.items():
        lines = []
        for head, groups in of(asked):
            lines += [f"# {head}"] if not lines else ["", f"# {head}"]
            for setting, fields in groups:
                lines += [f"@ {setting}", *(f"{it} → {answer(setting, it)}" for it in fields)]
        found[file] = f"# Made by tools/rows/by_spelling.py: {lines[0][2:]}\n" + "".join(f"{it}\n" for it in lines[1:])
    return found


def main(words):
    is_check = "--check" in words
    folders = [it for it in words if it != "--check"] or [f"{ROOT}/tests/rows/spell"]
    if len(folders) != 1 or folders[0].startswith("-"):
        print(__doc__.strip(), file=sys.stderr)
        return 2
    wrong = 0
    for file, text in made().items():
        path = f"{folders[0]}/{file}"
        if not is_check:
            with open(path, "w", encoding="utf-8", newline="") as it:
                it.write(text)
            continue
        with open(path, encoding="utf-8", newline="") as it:
            own = it.read()
        if own != text:
            pairs = zip([*own.split("\n"), ""], [*text.split("\n"), ""])
            at, (is_so, is_to_be) = next((it for it in enumerate(pairs, 1) if it[1][0] != it[1][1]))
            print(f"{path}:{at}: {is_so!r} is to be {is_to_be!r}")
            wrong += 1
    print(f"{len(FILES) - wrong} passed, {wrong} failed" if is_check else f"{len(FILES)} files are written")
    return 1 if wrong else 0


if __name__ == "__main__":
    sys.exit(main(sys.argv[1:]))

"""Files of rows, as docs/ROWS.md describes them."""
import re
import unicodedata
from typing import NamedTuple

# the characters that have a name of their own, most as ECMA-262 names them (12.2, 12.3)
NAMES = {
    "NUL": "\0", "TAB": "\t", "LF": "\n", "VT": "\v", "FF": "\f", "CR": "\r", "SP": " ", "DEL": "\x7f", "NBSP": "\xa0",
    "ZWNJ": "\u200c", "ZWJ": "\u200d", "LS": "\u2028", "PS": "\u2029", "ZWNBSP": "\ufeff",
}  # fmt: skip
NAME_OF = {c: name for name, c in NAMES.items() if c != " "}
# what can't be seen, or means something in rows
NUMBERED = re.compile(
    "[\0-\x1f\x7f-\xa0\xab\xad\xbb\u0300-\u036f\u1680\u180e\u2000-\u200f\u2028-\u202f\u205f-\u206f\u2192\u3000\ue000-\uf8ff"
    "\ufe00-\ufe0f\ufeff\ufff0-\uffff\U000e0000-\U0010ffff]"
)


class Problem(Exception):
    """What is wrong with a line, in a word."""


class BadLine(Exception):
    """A line that can't be read: its number, and what is wrong with it."""


class Row(NamedTuple):
    """A row: its line in the file, the setting above it, and the bytes of its fields."""

    line: int
    setting: str
    fields: list

    def has(self, word):
        return word in self.setting.split(" ")

    def subject(self):
        return self.setting.split(" ")[0]

    def field(self, index):
        return self.fields[index] if index < len(self.fields) else b""

    def text(self, index=0):
        return self.field(index).decode()


def mark(text):
    """The bytes that a mark stands for."""
    if text in NAMES:
        return NAMES[text].encode()
    if re.fullmatch("U\\+[0-9A-Fa-f]+", text):
        number = int(text[2:], 16)
        if number < 0x110000 and not 0xD800 <= number < 0xE000:
            return chr(number).encode()
    if re.fullmatch("x[0-9A-Fa-f]{2}( [0-9A-Fa-f]{2})*", text):
        return bytes.fromhex(text[1:])
    if text:
        raise Problem("UnknownMark")
    return b""


def unescape(text):
    """The bytes that the text of a field stands for."""
    found, repeats, open_mark = bytearray(), [], None
    for part in re.split("([«»])", text):
        if part == "«":
            if open_mark is not None:
                raise Problem("UnknownMark")
            open_mark = ""
        elif part == "»":
            if open_mark is not None:
                found += mark(open_mark)
                open_mark = None
            elif repeats:
                start, times = repeats.pop()
                found[start:] = bytes(found[start:]) * times
            else:
                raise Problem("ClosedMark")
        elif open_mark is None:
            found += part.encode()
        elif re.match("[0-9]+\\*", part):
            times, _, rest = part.partition("*")
            repeats.append((len(found), int(times)))
            found += rest.encode()
            open_mark = None
        else:
            open_mark = part
    if open_mark is not None or repeats:
        raise Problem("OpenMark")
    return bytes(found)


def show(field):
    """Bytes as a field is written that stands for them."""
    if not field:
        return "«»"
    try:
        text = field.decode()
    except UnicodeDecodeError:
        return "".join(chr(it) if 0x20 <= it <= 0x7E else f"«x{it:02X}»" for it in field)
    before, behind = len(text) - len(text.lstrip(" ")), len(text) - len(text.rstrip(" "))
    if before == len(text):
        behind = 0
    inner = text[before : len(text) - behind]
    shown = NUMBERED.sub(lambda c: f"«{NAME_OF[c[0]]}»" if c[0] in NAME_OF else f"«U+{ord(c[0]):X}»", inner)
    return "«SP»" * before + shown + "«SP»" * behind


class Reader:
    """The rows as far as they are read. Its state: closed, beside (the last field stands beside its arrow) or block."""

    def __init__(self):
        self.rows, self.setting, self.state = [], "", "closed"

    def begin(self, number):
        self.rows.append(Row(number, self.setting, []))

    def add_all(self, text):
        for part in text.split("→"):
            own = part.strip(" ")
            self.rows[-1].fields.append(unescape(own))
            self.state = "beside" if own else "block"

    def block(self, number, text):
        if self.state == "beside":
            raise Problem("TextAboveBlock")
        if self.state == "closed":
            self.begin(number)
            self.add_all("")
        own, end = (text[:-3], b"") if text.endswith("«+»") else (text, b"\n")
        self.rows[-1].fields[-1] += unescape(own) + end

    def line(self, number, line):
        if any(unicodedata.category(c) == "Cc" for c in line):
            raise Problem("ControlCharacter")
        if line.endswith(" "):
            raise Problem("BlankAtEnd")
        if line in ("", "#") or line.startswith("# "):
            self.state = "closed"
        elif line.startswith("@ "):
            self.setting, self.state = line[2:], "closed"
        elif line.startswith("  "):
            self.block(number, line[2:])
        elif line.startswith("→"):
            if self.state == "closed":
                raise Problem("ArrowWithoutRow")
            self.add_all(line[1:])
        else:
            self.begin(number)
            self.add_all(line)


def read_rows(text):
    """The rows of a file's text."""
    reader = Reader()
    for number, line in enumerate(text.split("\n"), 1):
        try:
            reader.line(number, line)
        except Problem as problem:
            raise BadLine(f"{number}: {problem}") from problem
    return reader.rows


def trimmed(fields):
    """The fields without the empty ones at their end."""
    kept = len(fields)
    while kept and not fields[kept - 1]:
        kept -= 1
    return fields[:kept]


def shown(fields):
    """Fields as a row has them, cut where they are long."""
    parts = (show(it) for it in fields)
    return " → ".join(it if len(it) <= 1000 else f"{it[:1000]} .." for it in parts) or "nothing"


def difference(wanted, found):
    """What is wrong with found fields, or nothing; empty ones at the end don't count."""
    wanted, found = trimmed(wanted), trimmed(found)
    return None if wanted == found else f"expected {shown(wanted)}, got {shown(found)}"

"""A plain reader of the lexical grammar (ECMA-262, clause 12 and annex B.1): each rule is a regular expression, written from the
standard and sharing nothing with the code that it is compared with."""
import re

TERMINATOR = "\n\r\u2028\u2029"
HEX = "[0-9A-Fa-f]"
# a code point in braces, up to 10FFFF (12.7, CodePoint)
BRACED = rf"\{{(?={HEX})0*(?:10{HEX}{{4}}|{HEX}{{0,5}})\}}"


def is_start(c):
    """IdentifierStartChar (12.7)."""
    return c in "$_" or c.isalpha()


def is_part(c):
    """IdentifierPartChar (12.7), of the characters that these texts are made of."""
    return is_start(c) or c.isdecimal() or c in "\u200c\u200d"


NAME_PIECE = re.compile(rf"\\u({HEX}{{4}})|\\u({BRACED})|([^\\])", re.S)


def name(text):
    """How long the IdentifierName at the front is (12.7.1), or nothing where none ends there."""
    at = 0
    while piece := NAME_PIECE.match(text, at):
        code = piece[1] or (piece[2] or "").strip("{}")
        if code and 0xD800 <= int(code, 16) < 0xE000:
            break
        c = chr(int(code, 16)) if code else piece[3]
        if not (is_part(c) if at else is_start(c)):
            break
        at = piece.end()
    ends = at == len(text) or not (is_part(text[at]) or text[at] == "\\")
    return at if at and ends else None


def opens_name(text):
    """Whether a name, or a backslash, begins a text."""
    return bool(text) and (is_start(text[0]) or text[0] == "\\")


# Numeric literals (12.9.3, B.1.1), each with how it is called
DIGITS = "[0-9](?:_?[0-9])*"
INTEGER = "(?:0[0-7]*[89][0-9]*|0|[1-9](?:_?[0-9])*)"
MANTISSA = rf"(?:{INTEGER}(?:\.(?:{DIGITS})?)?|\.{DIGITS})"
RADIX = ((16, "[xX]", HEX), (8, "[oO]", "[0-7]"), (2, "[bB]", "[01]"))
NUMBERS = [
    ("Decimal", re.compile(MANTISSA)),
    ("Scaled", re.compile(rf"{MANTISSA}[eE][+-]?{DIGITS}")),
    ("LegacyOctal", re.compile("0[0-7]+")),
    (10, re.compile("(?:0|[1-9](?:_?[0-9])*)n")),
    *(("Prefixed", re.compile(f"0{mark}{digit}(?:_?{digit})*")) for _, mark, digit in RADIX),
    *((radix, re.compile(f"0{mark}{digit}(?:_?{digit})*n")) for radix, mark, digit in RADIX),
]


def number(text):
    """The longest numeric literal at the front: how it is called (a big integer by its radix), and how long it is."""
    found = [(it.end(), kind) for kind, form in NUMBERS if (it := form.match(text))]
    return max(found, key=lambda it: it[0], default=(0, None))[::-1]


def bars_number(text):
    """Whether what follows a number may not follow it (12.9.3)."""
    return bool(text) and (text[0] in "0123456789\\" or is_start(text[0]))


def number_fault(kind, text, size):
    """The fault of a number of this size before what may not follow it: its kind and its bytes."""
    rest = text[size:]
    separator = "NumericSeparatorIsAllowedOnlyBetweenTwoDigits"

    def missing(kind, to):
        return (separator, to, to + 1) if text[to : to + 1] == "_" else (kind, 0, to)

    if text[:size] == "0" and rest[0] in "xXoObB":
        return missing("ExpectedDigit", size + 1)
    if kind == "Decimal" and (exponent := re.match("[eE][+-]?", rest)):
        return missing("NumLitTerminatedWithExp", size + exponent.end())
    if rest[0] == "_":
        return separator, size, size + 1
    return "IdentAfterNum", size, size + len(rest[0].encode())


# Escapes (12.9.4, 12.9.6, B.1.2)
SINGLE = dict(zip("btnvfr", (8, 9, 10, 11, 12, 13)))
ESCAPE = re.compile(rf"x({HEX}{{2}})|u({HEX}{{4}})|u({BRACED})|(\r\n|[{TERMINATOR}])|(0)(?![0-9])|([^xu0-9{TERMINATOR}])", re.S)
LEGACY = re.compile("([0-3][0-7]{0,2}|[4-7][0-7]?)|([89])")


def escape(text, at):
    """What an escape stands for, behind its backslash: its code or nothing, and where it ends; or nothing where none stands there."""
    found = ESCAPE.match(text, at)
    if not found:
        return None
    two, four, braced, end, zero, one = found.groups()
    if end:
        code = None
    elif zero:
        code = 0
    elif one:
        code = SINGLE.get(one, ord(one))
    else:
        code = int((two or four or braced).strip("{}"), 16)
    return code, found.end()


def units(codes):
    """The UTF-16 units of code points, of which some may be surrogates."""
    found = []
    for code in codes:
        found += [code] if code < 0x10000 else [0xD800 + (code - 0x10000 >> 10), 0xDC00 + (code - 0x10000 & 0x3FF)]
    return found


def string(text):
    """The string at the front (12.9.4): its units, whether an escape of annex B.1.2 is in it, and where it ends; or nothing."""
    codes, legacy, at = [], False, 1
    while at < len(text):
        c = text[at]
        if c == text[0]:
            return units(codes), legacy, at + 1
        if c in "\n\r":
            return None
        if c != "\\":
            codes.append(ord(c))
            at += 1
        elif found := escape(text, at + 1):
            codes += [] if found[0] is None else [found[0]]
            at = found[1]
        elif old := LEGACY.match(text, at + 1):
            codes.append(ord(old[2]) if old[2] else int(old[1], 8))
            legacy, at = True, old.end()
        else:
            return None
    return None


TEMPLATE = re.compile(r"((?:[^`\\$]|\\.|\$(?!\{))*)(`|\$\{)", re.S)


def template(text):
    """The piece of a template at the front (12.9.6): its cooked units (nothing where an escape is bad), its raw text, what ends it
    and where; or nothing where it is open."""
    found = TEMPLATE.match(text)
    if not found:
        return None
    raw = re.sub("\r\n?", "\n", found[1])
    codes, at = [], 0
    while at < len(raw):
        if raw[at] != "\\":
            codes.append(ord(raw[at]))
            at += 1
        elif one := escape(raw, at + 1):
            codes += [] if one[0] is None else [one[0]]
            at = one[1]
        else:
            return None, raw, found[2], found.end()
    return units(codes), raw, found[2], found.end()


PUNCTUATORS = """{ ( ) [ ] . ... ; , < > <= >= == != === !== + - * % ** ++ -- << >> >>> & | ^ ! ~ && || ?? ? : = += -= *= %= **= <<= >>=
    >>>= &= |= ^= &&= ||= ??= => / /= } # @ `""".split()
PUNCTUATOR = re.compile("|".join(map(re.escape, sorted(PUNCTUATORS, key=len, reverse=True))))


def punctuator(text):
    """How long the longest punctuator at the front is (12.8), or 0; a dot before a digit is none."""
    found = PUNCTUATOR.match(text)
    return found.end() if found and not re.match(r"\.[0-9]", text) else 0


CLASS = rf"\[(?:[^\]\\{TERMINATOR}]|\\[^{TERMINATOR}])*\]"
PART = rf"[^/\\\[{TERMINATOR}]|\\[^{TERMINATOR}]|{CLASS}"
REG_EXP = re.compile(rf"/(?!\*)(?:{PART})(?:{PART})*/")


def reg_exp(text):
    """How long the regular expression at the front is (12.9.5), or 0."""
    found = REG_EXP.match(text)
    end = found.end() if found else 0
    while end and end < len(text) and is_part(text[end]):
        end += 1
    return end


def token(goal, text):
    """The token at the front under the goal `div` or `regexp`: its sort and its length; or nothing where none stands there."""
    if opens_name(text):
        size = name(text)
        return ("Word", size) if size else None
    if text[0] in "'\"":
        found = string(text)
        return ("Str", found[2]) if found else None
    if goal == "regexp" and text[0] == "/":
        size = reg_exp(text)
        return ("RegExp", size) if size else None
    size = number(text)[1]
    if size:
        return None if bars_number(text[size:]) else ("Number", size)
    size = punctuator(text)
    return ("Punctuator", size) if size else None


LINE_COMMENT = rf"[^{TERMINATOR}]*"
SPACE = re.compile("[\t\v\f \xa0\u3000\ufeff]+")
BREAK = re.compile(f"\r\n|[{TERMINATOR}]")
COMMENTS = (
    ("//", re.compile(f"//({LINE_COMMENT})")),
    ("<!--", re.compile(f"<!--({LINE_COMMENT})")),
    ("-->", re.compile(f"-->({LINE_COMMENT})")),
    ("/*", re.compile(r"/\*(.*?)\*/", re.S)),
)


def trivia(goal, first, text):
    """The piece of trivia at the front (12.2 to 12.4, B.1.3): its kind, its own text and its length; a fault's kind; or nothing."""
    if found := SPACE.match(text):
        return "space", "", found.end()
    if found := BREAK.match(text):
        return "break", "", found.end()
    for mark, form in COMMENTS:
        found = form.match(text)
        if mark in ("<!--", "-->") and found:
            if mark == "-->" and not first:
                continue
            if goal == "module":
                return "LegacyCommentInModule"
        if found:
            return mark, found[1], found.end()
    return "UnterminatedBlockComment" if text.startswith("/*") else None


class Lexing:
    """A whole text, read token by token: the tokens, as (mark of a line break, letter, from, to), and the comments, as (side, place at
    which it is kept, mark, from, to, text)."""

    def __init__(self, goal, rereads, text):
        self.goal, self.rereads, self.text = goal, rereads, text
        self.tokens, self.notes, self.open, self.at = [], [], [], 0

    def pass_trivia(self):
        """Passes trivia, and returns whether the line breaks, how many comments begin before the first break, and whether all is well."""
        broke, here = False, 0
        is_start = not self.tokens
        while True:
            found = trivia(self.goal, is_start or broke, self.text[self.at :])
            if found is None:
                return broke, here, True
            if isinstance(found, str):
                return broke, here, False
            kind, own, size = found
            if kind not in ("space", "break"):
                self.notes.append([None, None, kind, self.at, self.at + size, own])
                here += not broke
            broke = broke or kind == "break" or kind == "/*" and any(c in TERMINATOR for c in own)
            self.at += size

    def keep(self, count, here, behind, is_end):
        """Says where the comments behind the first so many are kept: those before a line's end trail what ends there."""
        is_start = not self.tokens
        trails = 0 if is_start else len(self.notes) if is_end else here
        lo = behind if is_end else self.at
        for number, note in enumerate(self.notes[count:]):
            note[:2] = ("trails", behind) if number < trails else ("leads", lo)

    def outside(self):
        """The next token outside of templates, or nothing at the end."""
        behind, count = self.at, len(self.notes)
        broke, here, is_well = self.pass_trivia()
        self.keep(count, here, behind, is_well and self.at == len(self.text))
        if not is_well:
            return False, "E", self.at, len(self.text)
        if self.at == len(self.text):
            return None
        return self.one("div", broke)

    def one(self, goal, broke):
        """The token at a place under a goal, or the fault there."""
        found = token(goal, self.text[self.at :])
        if not found:
            return broke, "E", self.at, len(self.text)
        sort, size = found
        own = self.text[self.at : self.at + size]
        letter = "B" if sort == "Number" and own.endswith("n") else sort[0]
        return broke, letter, self.at, self.at + size

    def in_template(self):
        """What comes in a template: its characters, or what ends them."""
        rest = self.text[self.at :]
        if self.tokens[-1][1] == "T":
            return False, "P", self.at, self.at + (2 if rest[0] == "$" else 1)
        found = TEMPLATE.match(rest)
        return (False, "T", self.at, self.at + found.end(1)) if found else (False, "E", self.at, len(self.text))

    def enclose(self, own):
        """Notes what a punctuator opens or closes."""
        if own in ("{", "${"):
            self.open.append(own)
        elif own == "`" and self.open[-1:] == ["`"]:
            self.open.pop()
        elif own == "`":
            self.open.append(own)
        elif own == "}" and self.open[-1:] in (["{"], ["${"]):
            self.open.pop()

    def next(self):
        if self.open[-1:] == ["`"]:
            return self.in_template()
        if not self.tokens and self.text.startswith("#!"):
            return False, "H", 0, re.match(f"#!{LINE_COMMENT}", self.text).end()
        return self.outside()

    def read(self):
        """Reads the whole text, or up to its first fault. A slash is read again as a regular expression where that is asked for."""
        while found := self.next():
            self.tokens.append(found)
            self.at = found[3]
            if self.rereads and found[1] == "P" and self.text[found[2] : found[3]] in ("/", "/="):
                self.at = found[2]
                found = self.one("regexp", found[0])
                self.tokens.append(found)
                self.at = found[3]
            if found[1] == "E":
                break
            if found[1] == "P":
                self.enclose(self.text[found[2] : found[3]])
        return self

    def is_old(self, token):
        """Whether strict code has something against a token: a 0 and a digit, or an escape of annex B.1.2 in a string."""
        own = self.text[token[2] : token[3]]
        return token[1] == "N" and re.match("0[0-9]", own) or token[1] == "S" and string(own)[1]

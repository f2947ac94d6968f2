"""The text of tokens that grew, with blanks, comments and line breaks at random between them, and without semicolons where they may lack."""
from growing import DO_SEMI, FIELD_SEMI, TIGHT, Growing, Mark
from hostile import BREAKS, HTML_BREAKS, SPACES

# what might fuse with another such character, and what a statement goes on with
OPERATORS = "+-*/%&|^<>=!?.:~#@"
GOES_ON = tuple("([`+-*/%,.<>=&|^?:;)")


def is_word(c):
    """Whether a character stands in names."""
    return c.isalnum() or c in "$_\\\u200c\u200d#" or ord(c) > 0x7F


def touches(before, behind):
    """Whether two tokens would be read otherwise without a blank."""
    # a name may end with an escape, and letters behind a regular expression are its flags
    is_name = is_word(before[-1]) or before[-1] == "}" and before[0] not in "}`" or before[0] == "/" and len(before) > 2
    if is_name and is_word(behind[0]):
        return True
    if before[0].isdigit() or before[0] == "." and before[1:2].isdigit():
        return behind[0] == "." or is_word(behind[0])
    if before == "?" and behind[:1] == "." and behind[1:2].isdigit():
        return False
    if before in ("?.", ".") and behind[0].isdigit():
        return True
    return before[-1] in OPERATORS and behind[0] in OPERATORS


def ends_by_line(mark, before, behind):
    """Whether a line break may stand in the place of a semicolon: what follows goes on with nothing."""
    if behind in ("in", "instanceof", "of", "as", "from", "with") or behind.startswith(GOES_ON) and behind not in ("++", "--"):
        return False
    if mark is FIELD_SEMI and (behind in ("*", "[", "++", "--") or before in ("get", "set", "static", "async", "accessor")):
        return False
    return before not in ("let", "using", "await") and (before, behind) != ("async", "function")


class Joining(Growing):
    """What grows from a seed, as a text."""

    def blank(self, before, is_tight, html):
        """Trivia behind a token."""
        way = self.random.random()
        of = SPACES if is_tight or way < 0.7 else HTML_BREAKS if html and way > 0.98 else BREAKS
        return (" " if before[-1] in "/<" else "") + self.one(of)

    def semicolon(self, mark, before, behind):
        """A semicolon, or what may stand in its place."""
        if mark is DO_SEMI and self.often(0.3):
            return " "
        if behind in (None, "}"):
            return "" if self.often(0.5) else ";"
        return "\n" if self.often(0.3) and ends_by_line(mark, before, behind) else ";"

    def text(self, goal):
        """The text of a script or a module."""
        tokens = self.program(goal)
        behind, nexts = None, []
        for own in reversed(tokens):
            nexts.append(behind)
            behind = behind if isinstance(own, Mark) else own
        found, before, is_tight = ["#!a\n"] if self.often(0.02) else [], None, False
        for own, behind in zip(tokens, reversed(nexts)):
            if own is TIGHT:
                is_tight = True
            elif isinstance(own, Mark):
                found.append(self.semicolon(own, before, behind))
                before = found[-1] or before
            else:
                if before and (touches(before, own) or self.often(0.15)):
                    found.append(self.blank(before, is_tight, goal == "script"))
                found.append(own)
                before, is_tight = own, False
        return "".join(found)


def text(seed, goal, fuel, language=()):
    """A text that grows from a seed."""
    return Joining(seed, fuel, language).text(goal)

"""Texts that are changed at random: bytes, tokens and lines go, come, change places or stand twice."""
import random
import re

TOKEN = re.compile(rb"\s+|[A-Za-z0-9_$\x80-\xff\\]+|'[^'\n]*'|\"[^\"\n]*\"|`|//[^\n]*|/\*.*?\*/|=>|\?\.|\.\.\.|[-+*/%&|^<>=!?]+|.", re.S)
# bytes and texts that are put in
BYTES = b"abefnux01279.,;:'\"`/\\*-+=<>!&|^%~?#@$_(){}[] \n\r\t\0\x7f\x80\xbf\xc3\xa9\xe2\xed\xa0\xf0\xf4\x90\xff"
TEXTS = """( ) { } [ ] ; , . ... ?. => = == + - ++ -- * ** / // /* */ <!-- --> ' " ` ${ } \\ \\u \\u{ \\x # @ ! ~ ? : ?? && || < > in of as get set static
    async await yield let const var function class extends super new new.target import import.meta export default from return throw break continue if
    else for while do switch case try catch finally with debugger delete typeof void instanceof this null true eval arguments 0 1. .5 08 010 0x 1n 1e
    1_0 /a/ `a` "a" é 😀 constructor __proto__""".split()
ENDS = ["'use strict';", "\n", "\r\n", "\r", "\u2028", "\u2029", "\n-->", "#!", "\ufeff"]


def pieces(text, choice):
    """A text in bytes, tokens or lines."""
    if choice == "bytes":
        return [text[at : at + 1] for at in range(len(text))]
    return TOKEN.findall(text) if choice == "tokens" else text.splitlines(keepends=True)


def fresh(rand, choice, others):
    """A piece that comes from elsewhere."""
    if choice == "bytes":
        return bytes([rand.choice(BYTES) if rand.random() < 0.95 else rand.randrange(256)])
    if choice == "tokens" and rand.random() < 0.6:
        return rand.choice(TEXTS + ENDS).encode()
    return rand.choice(pieces(rand.choice(others), choice) or [b""])


def change(rand, text, others):
    """A text with one change."""
    choice = rand.choices(("bytes", "tokens", "lines"), (3, 5, 1))[0]
    own = pieces(text, choice)
    at = rand.randrange(len(own) + 1)
    to = rand.randrange(len(own) + 1)
    way = rand.randrange(6)
    if way == 0:
        own[at:at] = [fresh(rand, choice, others)]
    elif way == 1:
        own[at : at + 1] = [fresh(rand, choice, others)]
    elif way == 2:
        del own[at : at + rand.randint(1, 3)]
    elif way == 3:
        own[to:to] = own[at : at + rand.randint(1, 3)]
    elif way == 4 and own:
        at, to = at % len(own), to % len(own)
        own[at], own[to] = own[to], own[at]
    else:
        other = pieces(rand.choice(others), choice)
        own[at:] = other[rand.randrange(len(other) + 1) :]
    return b"".join(own)


def changed(seed, texts):
    """One of these texts, with one to four changes."""
    rand = random.Random(seed)
    found = rand.choice(texts)
    for _ in range(rand.choice((1, 1, 1, 2, 2, 3, 4))):
        found = change(rand, found, texts)
    return found

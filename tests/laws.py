"""What holds of every text: it is written in both styles as the same program, also by a parser from outside where there is one, and writing that
again changes nothing; or it is refused."""
import concurrent.futures
import os
import subprocess
from typing import NamedTuple

import outside
from asking import RUN_SECONDS, Ask, Refused, ask_batch
from front import place_of, valid_bytes

PROCESSORS = len(os.sched_getaffinity(0))
# how deep a text may nest; how long a short text is, and its layout at most
NESTING, SHORT, ROOM = 1024, 1000, 1_000_000
# with these settings a text that was written may be written otherwise again
NEW_EACH_TIME = ("ascii", "target=es3", "target=es5")
LAWS = (
    ("format", "formatted", "formatted", "formatting the formatted text changes it"),
    ("minify", "formatted", "minified", "minifying the formatted text is not minifying the source"),
    ("minify", "minified", "minified", "minifying the minified text changes it"),
)


class Read(NamedTuple):
    """A text for which the laws hold, with what is written for it."""

    formatted: bytes
    minified: bytes


class Fault(NamedTuple):
    """A text that is refused: why, and the bytes from and to which the fault goes, from 1."""

    kind: str
    lo: int
    hi: int


class Broken(NamedTuple):
    """A text for which a law fails, and which."""

    why: str


def settings(goal, words):
    """The words that say as what a text is read."""
    return " ".join([goal, "attributes", *words, f"nesting={NESTING}"])


def printing(path, style, reading, texts):
    """What is written in a style for each of these texts."""
    setting = f"print {style} {reading}"
    return ask_batch(path, [Ask("", setting if len(text) > SHORT else f"{setting} room={ROOM}", (text,)) for text in texts])


def outcome(answer):
    """What is written, or the fault."""
    if isinstance(answer, Refused):
        return Broken(answer.why)
    if answer[0] == b"refused":
        return Fault(answer[1].decode(), int(answer[2]), int(answer[3]))
    return Broken(answer[3].decode()) if answer[3] else answer[1]


def both_styles(path, reading, texts):
    """Of each text what is written in both styles, or its fault, which is the same in both."""
    found = []
    for formatted, minified in zip(*(map(outcome, printing(path, style, reading, texts)) for style in ("format", "minify"))):
        wrong = next((it for it in (formatted, minified) if isinstance(it, Broken)), None)
        if wrong is None and isinstance(formatted, bytes) and isinstance(minified, bytes):
            found.append(Read(formatted, minified))
        elif wrong is None and formatted == minified:
            found.append(formatted)
        else:
            found.append(wrong or Broken(f"formatted it is {formatted}, minified {minified}"))
    return found


def same(path, reading, pairs):
    """What is wrong with these pairs of texts, which are to be the same program, or nothing."""
    answers = ask_batch(path, [Ask("", f"same {reading}", it) for it in pairs])
    return [None if it == [b"same"] else "it is written as another program" if it == [b"other"] else it.why for it in answers]


def verdicts(path, goal, texts, words=(), look=()):
    """Of each text Read, Fault or Broken, where these words say the parts of the language and how it is to look."""
    reading = settings(goal, words)
    writing = " ".join([reading, *look])
    found = both_styles(path, writing, texts)
    read = [(at, text, own) for at, (text, own) in enumerate(zip(texts, found)) if isinstance(own, Read)]
    for style in ("formatted", "minified"):
        wrongs = same(path, reading, [(text, getattr(own, style)) for _, text, own in read])
        by_others = outside.wrongs(goal, [(text, getattr(own, style)) for _, text, own in read])
        for (at, _, own), wrong in zip(read, map(lambda one, other: one or other, wrongs, by_others)):
            if wrong:
                found[at] = Broken(f"{style} as {getattr(own, style)!r}: {wrong}")
    for style, given, wanted, wrong in LAWS if not any(it in look for it in NEW_EACH_TIME) else ():
        answers = printing(path, style, writing, [getattr(own, given) for _, _, own in read])
        for (at, _, own), answer in zip(read, map(outcome, answers)):
            if answer != getattr(own, wanted) and isinstance(found[at], Read):
                found[at] = Broken(f"{wrong}: {getattr(own, wanted)!r} is now {answer!r}")
    return found


def by_command(path, goal, text):
    """What the command line does with a text, formatted and minified."""
    words = [path, "--nesting", str(NESTING), *(["--script"] if goal == "script" else [])]
    return [subprocess.run([*words, *style], input=text, capture_output=True, timeout=RUN_SECONDS) for style in ([], ["--minify"])]


def told_by_command(path, goal, text, verdict=None):
    """What is wrong with how the command line ends on a text of which this is known, or which is no UTF-8; or nothing. A fault is told
    in its place, and nothing is written."""
    if isinstance(verdict, Broken):
        return f"{text!r} as a {goal}: {verdict.why}"
    ran = by_command(path, goal, text)
    if isinstance(verdict, Read):
        is_well = all(it.returncode == 0 and not it.stderr for it in ran) and [it.stdout for it in ran] == [*verdict]
    else:
        lo, message = (verdict.lo - 1, "") if verdict else (valid_bytes(text), "the text is not UTF-8\n")
        place = "1:1" if verdict and verdict.kind == "TooDeep" else place_of(text, lo)
        told = f"{place}: {message}".encode()
        is_well = all(it.returncode == 1 and not it.stdout and it.stderr.startswith(told) for it in ran)
    ends = ", ".join(f"status {it.returncode}, {it.stdout[:200]!r}, {it.stderr[:200]!r}" for it in ran)
    return None if is_well else f"{text!r} as a {goal}: the command line ends otherwise, by {verdict}: {ends}"


def side_by_side(work, batches):
    """What this function answers for each batch of arguments, as many side by side as there are processors, in order."""
    with concurrent.futures.ProcessPoolExecutor(PROCESSORS) as pool:
        waiting = []
        for batch in batches:
            waiting.append(pool.submit(work, *batch))
            if len(waiting) > 4 * PROCESSORS:
                yield waiting.pop(0).result()
        yield from (it.result() for it in waiting)

"""Rows of whole runs, from text to text: through the command line, and what it can't say through the program that answers."""
from asking import Ask, Run, Wrong, only, ran
from rows import difference

TOO_DEEP = b"1:1: nested too deeply\n"


def words_of(row):
    """The words of the command line for a row's setting: without any, a script that is minified."""
    words = [] if row.has("module") else ["--script"]
    words += [] if row.has("format") else ["--minify"]
    for name, own in (("ascii", ["--ascii-only"]), ("inline", ["--inline-script"]), ("crlf", ["--crlf"])):
        words += own if row.has(name) else []
    words += ["--indent", "tab"] if row.has("tab") else ["--indent", "2"] if row.has("blanks") else []
    last = row.setting.split(" ")[-1]
    return (*words, "--nesting", last) if last.isdigit() else tuple(words)


def run_of(row):
    """One run on the text of a row, which writes either the output or one fault."""
    done = ran((yield [Run(words_of(row), row.field(0))])[0])
    if done.status and done.out or not done.status and done.err:
        raise Wrong(f"status {done.status}, and both an output and a fault: {done.err.decode(errors='replace')}")
    return done


def written(row):
    """What a text is written as."""
    done = yield from run_of(row)
    if done.status:
        return f"refused: {done.err.decode(errors='replace').strip()}"
    return difference(row.fields[1:], [done.out])


def kind_of(row, fault):
    """The word for why a text is refused."""
    if fault == TOO_DEEP or b": " in fault and not fault.endswith(b"the text is not UTF-8\n"):
        return "either" if row.has("either") else "too deep" if fault == TOO_DEEP else "syntax"
    return f"not UTF-8 at {valid_bytes(row.field(0))}" if fault.endswith(b"the text is not UTF-8\n") else "another fault"


def valid_bytes(text):
    """How long the longest front of these bytes that is UTF-8 is."""
    try:
        text.decode()
    except UnicodeDecodeError as error:
        return error.start
    return len(text)


def place_of(text, offset):
    """The line and the column of a byte of a text, both from 1, columns in UTF-16 units; lines end at LF, CR and CR LF."""
    front = text[:offset].decode(errors="ignore")
    if front.endswith("\r") and text[offset : offset + 1] == b"\n":
        ended = front[:-1].replace("\r\n", "\n").replace("\r", "\n") + "\r"
    else:
        ended = front.replace("\r\n", "\n").replace("\r", "\n")
    last = ended.rsplit("\n", 1)[-1]
    return f"{ended.count(chr(10)) + 1}:{len(last.encode('utf-16-le')) // 2 + 1}"


def refused(row):
    """Why a text is refused, told in its place."""
    done = yield from run_of(row)
    if done.status != 1:
        return f"status {done.status}, and not refused"
    kind = kind_of(row, done.err)
    if kind.startswith("not UTF-8"):
        place = place_of(row.field(0), valid_bytes(row.field(0)))
        if done.err != f"{place}: the text is not UTF-8\n".encode():
            return f"expected the place {place}, got {done.err.decode()}"
    return difference(row.fields[1:], [kind.encode()])


def front_question(row):
    """The question for what the library reads the text of a row as."""
    *words, last = row.setting.split(" ")[1:] or [""]
    limit = [f"nesting={last}"] if last.isdigit() else [last]
    return Ask("ecma-program-answers", " ".join(["front", *(it for it in [*words, *limit] if it)]), (row.field(0),))


def fault(row):
    """What is wrong with the syntax of a text, and where; the command line tells it in the same place."""
    told = only((yield [front_question(row)])[0])
    if told[0] != b"refused":
        return f"expected {row.text(1)}, got {told}"
    kind, lo, hi = (it.decode() for it in told[1:])
    done = yield from run_of(row)
    place = place_of(row.field(0), int(lo) - 1)
    if done.status != 1 or not done.err.startswith(f"{place}: ".encode()):
        return f"expected status 1 at {place}, got {done.status} and {done.err.decode()}"
    return difference(row.fields[1:], [(kind if row.has("kind") else f"{kind} {lo}..{hi}").encode()])


def nesting(row):
    """The least limit that takes a text: each lower one has to find it too deep, the next one and the greatest have to take it."""
    least = int(row.text(1))
    limits = [*range(1, least + 2), 4096]
    all_done = yield [Run(("--script", "--minify", "--nesting", str(limit)), row.field(0)) for limit in limits]
    for limit, done in zip(limits, map(ran, all_done)):
        if limit < least and (done.status, done.out, done.err) != (1, b"", TOO_DEEP):
            return f"{limit} takes it, or refuses it otherwise: {done.err.decode(errors='replace')}"
        if limit >= least and (done.status, done.err) != (0, b""):
            return f"{limit} is too low: {done.err.decode(errors='replace')}"
    return None


def deepest(row):
    """So many of a kind in one another are taken in both styles on 8 MB of stack, as the text itself and as one that is minified to it;
    one more is too deep. The fields: what opens, what stands inside, what closes, how many, and what stands before and behind all."""
    opens, inside, closes, count, before, behind = (row.field(it) if it < len(row.fields) else b"" for it in range(6))
    text, more = (before + opens * it + inside + closes * it + behind for it in (int(count), int(count) + 1))
    minify = ("--script", "--minify", "--nesting", "4096")
    asked = [Run(minify, text, stack=8192), Run(("--script", "--indent", "0", "--nesting", "4096"), text, stack=8192), Run(minify, more)]
    minified, formatted, deeper = map(ran, (yield asked))
    if (deeper.status, deeper.out, deeper.err) != (1, b"", TOO_DEEP):
        return f"one more is taken, or refused otherwise: {deeper.err.decode(errors='replace')}"
    if minified.status or minified.out != text or formatted.status:
        return f"status {minified.status} and {formatted.status}: {minified.err.decode(errors='replace')}"
    again = ran((yield [Run(minify, formatted.out)])[0])
    return difference([text], [again.out])


def read(row):
    """The program that a text is read as, by its goal and how many parts stand in its body; or why it has none."""
    told = only((yield [front_question(row)])[0])
    return difference(row.fields[1:], told[1:2])


def answer(row):
    """The status, what is printed as errors, and the output."""
    done = yield from run_of(row)
    return difference(row.fields[1:], [str(done.status).encode(), done.err, done.out])


def words(row):
    """What the words of a command line ask for: goal, style, other settings, path; or that they are refused."""
    told = only((yield [Ask("ecma-lexical-answers", "words", (row.field(0),))])[0])
    if told == [b"refused"]:
        done = ran((yield [Run(tuple(row.text().split()))])[0])
        if done.status != 2 or done.out or not done.err.endswith(b"\n"):
            return f"expected status 2 and a line of why, got {done.status} and {done.err.decode(errors='replace')}"
    return difference(row.fields[1:], told)


def place(row):
    """The line and the column of an offset of a text, both from 0."""
    told = only((yield [Ask("ecma-program-answers", "place", tuple(row.fields[:2]))])[0])
    return difference(row.fields[2:], told)


SUBJECTS = {it.__name__: it for it in (written, refused, fault, nesting, deepest, read, answer, words, place)}


def judge(row):
    """What is wrong with a row of a whole run, or nothing."""
    if row.subject() not in SUBJECTS:
        raise Wrong("no such subject")
    return (yield from SUBJECTS[row.subject()](row))

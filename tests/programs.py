"""Rows of whole programs: what the parser makes of texts, what the printer writes for them, and the laws that hold for each."""
import re

import outside
from asking import Ask, Run, Wrong, only, ran
from rows import difference

# how deep the text of a row nests at most where it doesn't say
NESTING = 1024
LANGUAGE = ("attributes", "using", "accessors", "decorators")
# how the command line calls words of a setting
COMMAND_WORDS = {"ascii": "--ascii-only", "page": "--inline-script", "crlf": "--crlf"}
PARTS = ("expr", "assignment", "pat", "binding", "params", "key", "stmt", "item", "module_item")


def ask(setting, *fields):
    return Ask("ecma-program-answers", setting, fields)


def beginnings(text):
    """The fronts of a text, without the whole."""
    whole = text.decode()
    return [whole[:end].encode() for end in range(len(whole))]


def reading(row, goal, limit=NESTING, *words):
    """The setting that asks what a text is read as."""
    return " ".join(["read", goal, *words, *(it for it in LANGUAGE if row.has(it)), f"nesting={limit}"])


def goals(row):
    """The goals that a row asks about, that which is told of first."""
    return [it for it in ("script", "module") if row.has(it) or row.has("both")]


def judge_beginnings(settings, text):
    """Each beginning is read or has a fault, and is neither too deep nor out of memory."""
    asked = [ask(setting, front) for setting in settings for front in beginnings(text)]
    for question, told in zip(asked, (yield asked)):
        fields = only(told)
        if fields[0] == b"refused" and fields[1] in (b"TooDeep", b"Memory"):
            raise Wrong(f"{fields[1].decode()} at the beginning {question.fields[0].decode()!r}")


def refusal(row, kind, lo):
    """How a refused text is told."""
    if kind in ("TooDeep", "Memory") or row.has("kinds"):
        return kind
    return lo if row.has("place") else "refused"


def told(row, fields):
    """What is told of a text that is read: its tree, its early errors, or where it is refused."""
    if fields[0] == b"refused":
        return refusal(row, fields[1].decode(), fields[2].decode())
    faults = [it.decode() for it in fields[2:]]
    if faults and row.has("refused"):
        return refusal(row, faults[0].split(" ")[0], faults[0].split(" ")[1].split("..")[0])
    if not faults and row.has("tree"):
        return fields[1].decode()
    return " | ".join(faults) or "well"


# the place of a node in a tree that is told; an expression as a pattern has no place but the expression's
PLACE = re.compile(rb"(?<!\(ExprPat) (\d+)\.\.(\d+)(?=\)| \()")


def judge_places(setting, text):
    """The walk that changes a tree comes to each node once, and last to the whole: where it gives each place a number, no two nodes have one."""
    fields = only((yield [ask(setting, text)])[0])
    if fields[0] == b"refused":
        return
    numbers = PLACE.findall(fields[1])
    given = [int(lo) for lo, hi in numbers if lo == hi]
    if len({*given}) != len(numbers) or max(given) != given[0]:
        raise Wrong(f"the nodes have the places {fields[1].decode()[:1000]}")


def tree(row):
    """The tree of a text, its early errors, or where it is refused; as a script and as a module where both are asked."""
    text, limit = row.field(0), int(row.text(1)) if row.has("nesting") else NESTING
    words = ["tree"] if row.has("tree") else []
    answers = yield [ask(reading(row, goal, limit, *words), text) for goal in goals(row)]
    if row.has("tree") or row.has("placed"):
        for goal in goals(row):
            yield from judge_places(reading(row, goal, limit, "tree", "placed"), text)
    all_told = [told(row, only(it)) for it in answers]
    found = all_told[0]
    if row.has("both") and all_told[1].replace("(Module", "(Script", 1) != found:
        found = all_told[1]
    return difference(row.fields[2 if row.has("nesting") else 1 :], [found.encode()])


def same(row, left, right):
    """Whether two texts are the same program, which is the same both ways."""
    setting = " ".join(["same", "module" if row.has("module") else "script", *(it for it in LANGUAGE if row.has(it))])
    return [ask(setting, left, right), ask(setting, right, left)]


def pair(row):
    """Whether two programs are the same."""
    both = [only(it)[0] for it in (yield same(row, row.field(0), row.field(1)))]
    if both[0] != both[1]:
        return "the other way round it is otherwise"
    return difference(row.fields[2:], both[:1])


def apart(row):
    """How many programs there are, one a line, each the same as itself and as no other."""
    lines = row.field(0).rstrip(b"\n").split(b"\n")
    asked = [it for left in lines for right in lines for it in same(row, left, right)]
    for question, answer in zip(asked, (yield asked)):
        left, right = question.fields
        if only(answer) != [b"same" if left == right else b"other"]:
            return f"{left.decode()!r} and {right.decode()!r} are {answer[0].decode()}"
    return difference(row.fields[1:], [str(len(lines)).encode()])


def part(row):
    """The tree of a part and that of what stands behind it; its early errors, or why it is refused."""
    text = row.field(0)
    words = [it for it in row.setting.split(" ") if it != "nesting"]
    limit = int(row.text(1)) if row.has("nesting") else NESTING
    yield from judge_beginnings([" ".join(["part", *words, f"nesting={NESTING}"])], text)
    fields = [it.decode() for it in only((yield [ask(" ".join(["part", *words, f"nesting={limit}"]), text)])[0])]
    if fields[0] == "refused":
        found = "TooDeep" if fields[1] == "TooDeep" else f"refused {fields[1]} {fields[2]}"
    elif fields[3:]:
        found = " | ".join(fields[3:])
    else:
        found = (fields[1] or "nothing") + (f" then {fields[2]}" if fields[2] else "")
    return difference(row.fields[2 if row.has("nesting") else 1 :], [found.encode()])


def printing(row, style):
    """The setting that asks for what is written in a style."""
    words = ["module" if row.has("module") else "script", *(it for it in row.setting.split(" ")[1:] if it not in ("module", "min", "any"))]
    if not any(it.startswith("nesting=") for it in words):
        words.append(f"nesting={NESTING}")
    return " ".join(["print", style, "attributes", *words])


def style_of(row):
    return "minify" if row.has("min") or row.has("minify") else "format"


def written(answer):
    """What is written: the text, the calls of the writer, and the places or the fault."""
    fields = only(answer)
    if fields[0] != b"written":
        raise Wrong(b" ".join(fields).decode())
    return fields[1:]


def one(answer):
    """The text that is written, whole."""
    return written(answer)[0]


def same_printed(row, left, right):
    """The question whether two texts are the same program, as the printer's rows read them."""
    words = [it for it in row.setting.split(" ")[1:] if it in LANGUAGE or it.startswith("nesting=")]
    if not any(it.startswith("nesting=") for it in words):
        words.append(f"nesting={NESTING}")
    return ask(" ".join(["same", "module" if row.has("module") else "script", "attributes", *words]), left, right)


def judge_again(row, formatted, minified):
    """Formatting and minifying what was written changes nothing more, and minifying what was formatted is minifying the source."""
    asked = [ask(printing(row, "format"), formatted), ask(printing(row, "minify"), formatted), ask(printing(row, "minify"), minified)]
    wanted = (formatted, minified, minified)
    said = (
        "formatting the formatted text changes it",
        "minifying the formatted text is not minifying the source",
        "minifying the minified text changes it",
    )
    for answer, own, wrong in zip((yield asked), wanted, said):
        if one(answer) != own:
            raise Wrong(f"{wrong}: {difference([own], [one(answer)])}")


def command_words(row):
    """The words of the command line for how a row's text is to look, or nothing where it has no setting or one that they can't say."""
    found = []
    for word in row.setting.split(" ")[1:]:
        name, _, value = word.partition("=")
        if word in COMMAND_WORDS:
            found.append(COMMAND_WORDS[word])
        elif name in ("indent", "target") and value not in ("es3", "es5"):
            found += [f"--{name}", value]
        elif word not in ("module", "min"):
            return None
    return found and [*found, "--nesting", str(NESTING), *([] if row.has("module") else ["--script"])]


def judge_command(row, text, formatted, minified):
    """The command line writes the same."""
    words = command_words(row)
    asked = [Run((*words, *style), text) for style in ((), ("--minify",))] if words else []
    for own, answer in zip((formatted, minified), (yield asked)):
        done = ran(answer)
        if (done.status, done.out, done.err) != (0, own, b""):
            raise Wrong(f"the command line ends with {done.status}, {difference([own], [done.out])}")


def judge_outside(goal, text, *others):
    """A parser from outside, where there is one, reads the same tree. It reads no `assert`."""
    for answer in (yield [outside.ask(goal, text, it) for it in others if outside.which()]):
        if outside.wrong(answer):
            raise Wrong(outside.wrong(answer))


def judged(row):
    """A text, formatted and minified, for which the laws hold. What was written is written again only for ES2015 and later, and
    where other characters than those of ASCII may stand, since only of these settings is it said that nothing changes."""
    text = row.field(0)
    answers = yield [ask(printing(row, style), text) for style in ("format", "minify")]
    formatted, minified = map(one, answers)
    answers = yield [same_printed(row, text, formatted), same_printed(row, text, minified)]
    for answer in answers:
        if only(answer) != [b"same"]:
            raise Wrong("what is written is another program")
    if not row.has("assert"):
        yield from judge_outside("module" if row.has("module") else "script", text, formatted, minified)
    yield from judge_command(row, text, formatted, minified)
    if not row.has("ascii") and not row.has("target=es3") and not row.has("target=es5"):
        yield from judge_again(row, formatted, minified)
    return formatted, minified


def printed(row):
    """The formatted text and the minified one."""
    return difference(row.fields[1:], list((yield from judged(row))))


def one_style(row):
    """The formatted text or the minified one."""
    formatted, minified = yield from judged(row)
    return difference(row.fields[1:], [minified if row.has("minify") else formatted])


def refused(row):
    """Why a text is refused."""
    fields = only((yield [ask(printing(row, style_of(row)), row.field(0))])[0])
    if fields[0] != b"refused":
        return "the text is not refused"
    return difference(row.fields[1:], [b"refused" if row.has("any") else fields[1]])


def run(row, style):
    """The setting that asks for a whole run with positions in a style."""
    steps = ["tabs=1"] if row.has("indent=tab") else []
    goal = ["module"] if row.has("module") else []
    return " ".join(["run", "positions", style, "all", *goal, *steps, f"nesting={NESTING}", "read=65536", "written=65536"])


def run_through(answer):
    """What a run has written, and the positions that it answers."""
    ended, out, _, _, _, found = [*only(answer), b""][:6]
    if ended != b"written":
        raise Wrong(ended.decode())
    return out, found


def marks(row):
    """The text that is written, and the places of the source in it."""
    if row.has("crlf"):
        text, _, found = written((yield [ask(f"{printing(row, style_of(row))} marks", row.field(0))])[0])
    else:
        text, found = run_through((yield [ask(run(row, style_of(row)), row.field(0))])[0])
    return difference(row.fields[1:], [text, found])


def places(row):
    """The places of the source in the formatted text and in the minified one."""
    answers = yield [ask(run(row, style), row.field(0)) for style in ("format", "minify")]
    return difference(row.fields[1:], [run_through(it)[1] for it in answers])


def comments(row):
    """The formatted text and the minified one, with the comments of the source, of which none is left."""
    answers = yield [ask(f"{printing(row, style)} comments", row.field(0)) for style in ("format", "minify")]
    return difference(row.fields[1:], [one(it) for it in answers])


def through(row):
    """The bytes that come out of a writer that takes small pieces or fails, in how many calls, and why no more did."""
    return difference(row.fields[1:], written((yield [ask(printing(row, style_of(row)), row.field(0))])[0]))


def command(row):
    """What a command line makes of a text, or the count of its nodes."""
    words = [it for it in row.setting.split(" ")[1:] if it != "some/path"]
    if "--count" in words:
        limit = words[words.index("--nesting") + 1] if "--nesting" in words else "256"
        fields = only((yield [ask(f"count module attributes nesting={limit}", row.field(0))])[0])
        if fields[0] == b"counted":
            return difference(row.fields[1:], fields[1:])
        words = [it for it in words if it != "--count"]
    done = ran((yield [Run(tuple(words), row.field(0))])[0])
    if done.status and done.out or not done.status and done.err:
        return f"status {done.status}, and both an output and a fault"
    found = b"usage" if done.status == 2 else done.err.rstrip(b"\n") if done.status else done.out
    return difference(row.fields[1:], [found])


SUBJECTS = {
    "printed": printed, "format": one_style, "minify": one_style, "refused": refused, "marks": marks, "places": places,
    "comments": comments, "through": through, "command": command,
}  # fmt: skip


def judge(row):
    """What is wrong with a row of a whole program, or nothing."""
    subject = row.subject()
    if subject in PARTS:
        return (yield from part(row))
    if subject in ("script", "module", "both"):
        return (yield from (pair if row.has("pair") else apart if row.has("apart") else tree)(row))
    if subject not in SUBJECTS:
        raise Wrong("no such subject")
    return (yield from SUBJECTS[subject](row))

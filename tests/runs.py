"""Whole runs of the library from a reader to a writer that take pieces and fail, each call in turn; and settings that are refused."""
from asking import Ask, only
from rows import difference

TEXT = b"import colors, { color } from 'patterns/colors';"
WRITTEN = b'import colors,{color}from"patterns/colors"'


def run(words, text=TEXT):
    goal = ["module"] if text is TEXT else []
    return Ask("ecma-program-answers", " ".join(["run", *goal, *words]), (text,))


def told(fault, output, kept, reads, writes):
    """What is told of a run: why it ended, the output, what was read, and how many calls were made and failed."""
    counts = (f"{reads[0]} reads, {reads[1]} failed", f"{writes[0]} writes, {writes[1]} failed")
    return [fault.encode(), output, kept, *(it.encode() for it in counts)]


def all_are(asked, wanted):
    """These runs end as they are wanted to."""
    for question, answer, want in zip(asked, (yield asked), wanted):
        if wrong := difference(want, only(answer)):
            return f"{question.setting}: {wrong}"
    return None


def read_fails(piece):
    """A read that fails writes nothing, and leaves what was read before it; one that would fail behind the end doesn't."""
    reads = -(-len(TEXT) // piece) + 1
    asked = [run([f"read={piece}", "written=1", f"read_fails={at}"]) for at in range(1, reads + 2)]
    wanted = [told("read failed", b"", TEXT[: piece * (at - 1)], (at, 1), (0, 0)) for at in range(1, reads + 1)]
    return (yield from all_are(asked, [*wanted, told("written", WRITTEN, TEXT, (reads, 0), (len(WRITTEN), 0))]))


def write_fails():
    """A write that fails leaves a beginning, and so does a writer without more room."""
    size, reads = len(WRITTEN), 2
    asked = [run(["written=1", f"write_fails={at}"]) for at in range(1, size + 2)]
    wanted = [told("write failed", WRITTEN[: at - 1], TEXT, (reads, 0), (at, 1)) for at in range(1, size + 1)]
    wanted.append(told("written", WRITTEN, TEXT, (reads, 0), (size, 0)))
    asked += [run(["written=1", f"room={room}"]) for room in range(size)]
    wanted += [told("write failed", WRITTEN[:room], TEXT, (reads, 0), (room + 1, 1)) for room in range(size)]
    return (yield from all_are(asked, wanted))


def interrupted():
    """A read that is interrupted is one that fails, and is not made again."""
    asked = [run(["interrupted", "read=1", f"read_fails={at}"]) for at in (1, 2, len(TEXT) + 1)]
    wanted = [told("read failed", b"", TEXT[: at - 1], (at, 1), (0, 0)) for at in (1, 2, len(TEXT) + 1)]
    return (yield from all_are(asked, wanted))


def nothing_taken():
    """A write that takes nothing is one that fails, and is not made again."""
    size = len(WRITTEN)
    asked = [run(["zeros", "written=1", f"write_fails={at}"]) for at in (1, 2, size)] + [run(["zeros", f"room={room}"]) for room in (0, 9)]
    wanted = [told("write failed", WRITTEN[: at - 1], TEXT, (2, 0), (at, 1)) for at in (1, 2, size)]
    wanted += [told("write failed", WRITTEN[:room], TEXT, (2, 0), (writes, 1)) for room, writes in ((0, 1), (9, 2))]
    return (yield from all_are(asked, wanted))


def pieces():
    """However the input and the output are cut, the output is the same."""
    asked = [run([f"read={read}", f"written={written}"]) for read in (1, 2, 3, 7, 64) for written in (1, 2, 5, 64)]
    for question, answer in zip(asked, (yield asked)):
        if only(answer)[:3] != [b"written", WRITTEN, TEXT]:
            return f"{question.setting}: {answer}"
    return None


def nothing_to_write():
    """An empty output needs no write."""
    asked = [run(["read=1", "room=0", "write_fails=1"], b" \n")]
    return (yield from all_are(asked, [told("written", b"", b" \n", (3, 0), (0, 0))]))


def blocks():
    """The output goes out in blocks of 4,096 bytes: over a writer that takes all it is given, that many calls."""
    sizes = (1, 4095, 4096, 4097, 8191, 8192, 8193, 20480)
    asked = [run(["read=65536", "written=65536"], b"a" * size) for size in sizes]
    wanted = [told("written", b"a" * size, b"a" * size, (-(-size // 16384) + 1, 0), (-(-size // 4096), 0)) for size in sizes]
    return (yield from all_are(asked, wanted))


def cut_blocks():
    """A writer that takes pieces of a block gets all of it, and with a write that fails a beginning."""
    text = b"a" * 9000
    pieces = [[piece, at] for piece in (1000, 4095, 4097) for at in (0, 1, 2, 3)]
    asked = [run(["read=65536", f"written={piece}", f"write_fails={at}"], text) for piece, at in pieces]
    for question, answer, (_, at) in zip(asked, (yield asked), pieces):
        ended, out = only(answer)[:2]
        whole = ended == b"written" and out == text and at == 0
        begun = ended == b"write failed" and text.startswith(out) and len(out) < len(text) and at > 0
        if not whole and not begun:
            return f"{question.setting}: {ended} and {len(out)} bytes"
    return None


def positions():
    """The places of the source that are marked, with the lines and columns at which they are written."""
    texts = (
        (["module"], "import{x as y}from'a'", 'import{x as y}from"a"', None),
        ([], "a:for(;;)break a", "a:for(;;)break a", "1@0:0 3@0:2 10@0:9 16@0:15"),
        (["format"], "/*é*/ ab", "ab;\n", "8@0:0"),
        ([], "a;b", "a;b", "1@0:0 3@0:2"),
        ([], "", "", ""),
        (["format"], "", "", ""),
    )
    asked = [run(["positions", *words], text.encode()) for words, text, _, _ in texts]
    for question, answer, (_, _, written, places) in zip(asked, (yield asked), texts):
        fields = [*only(answer), b""]
        if fields[:2] != [b"written", written.encode()] or places is not None and fields[5] != places.encode():
            return f"{question.setting}: {fields}"
        if places is None and not {"8@0:7", "13@0:12"} <= set(fields[5].decode().split(" ")):
            return f"{question.setting}: {fields}"
    return None


def settings_refused():
    """Settings that are refused each alone, before anything is read or written."""
    words = ["jsx", "blanks=9", "tabs=9", "blanks=255", "tabs=255", "nesting=0", "nesting=4097", "nesting=4294967295"]
    asked = [run([it], text) for it in words for text in (b"a", b"a b", b"((((a))))")]
    return (yield from all_are(asked, [told("options refused", b"", b"", (0, 0), (0, 0))] * len(asked)))


def settings_taken():
    """Their neighbours are taken."""
    words = ["nesting=3", "nesting=4096", "blanks=0", "blanks=8", "tabs=0", "tabs=8", "module", "es3", "all", "positions"]
    asked = [run([it], b" a ; b ;") for it in words]
    for question, answer in zip(asked, (yield asked)):
        if only(answer)[:2] != [b"written", b"a;b"]:
            return f"{question.setting}: {answer}"
    return None


def messages():
    """The line that tells each fault."""
    wanted = (
        "read failed", "the text is not UTF-8", "the text is too long", "nested too deeply", "out of memory", "write failed",
        "position too large", "node cannot be printed", "options refused",
    )  # fmt: skip
    answer = (yield [Ask("ecma-program-answers", "messages", ())])[0]
    return difference([it.encode() for it in wanted], only(answer))


def tests(paths):
    """The tests of runs, each with its name."""
    found = [(f"runs: a read that fails, pieces of {piece}", read_fails(piece)) for piece in (1, 2, 7, 64)]
    others = (
        write_fails, interrupted, nothing_taken, pieces, nothing_to_write, blocks, cut_blocks, positions, settings_refused, settings_taken, messages,
    )  # fmt: skip
    return [*found, *((f"runs: {it.__name__}", it()) for it in others)]

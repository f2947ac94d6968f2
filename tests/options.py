"""The options of the command line: what is written, what is said, and the exit status."""
import os
import stat
import subprocess
import tempfile

from asking import Run, ran
from rows import difference

# an output that takes nothing
FULL = "/dev/full"
# the words, standard input, and the status, output and errors that are wanted; `None` where any text will do
CASES = [
    ("", "a;b", 0, "a;\nb;\n", ""),
    ("", "import a from 'b'", 0, "import a from 'b';\n", ""),
    ("--script", "import a from 'b'", 1, "", "1:1: 'import', and 'export' cannot be used outside of module code\n"),
    ("--script", "with (a) b", 0, "with (a)b;\n", ""),
    ("", "with (a) b", 1, "", None),
    ("--minify", "a = ( 1 )", 0, "a=(1)", ""),
    ("--minify", "'a'", 0, '"a"', ""),
    ("--script --minify", "a + (b)", 0, "a+(b)", ""),
    ("--script", "a + (b", 1, "", "1:7: unexpected end of the text\n"),
    ("", "\n\n  a b", 1, "", "3:5: unexpected token\n"),
    ("--script", "\n" * 122 + " " * 100 + "a b", 1, "", "123:103: unexpected token\n"),
    ("--minify --ascii-only", "é='é'", 0, None, ""),
    ("--minify --ascii-only", "'\u00e9'", 0, '"\\xe9"', ""),
    ("--minify --inline-script", "'</script>'", 0, '"<\\/script>"', ""),
    ("--crlf", "a;b", 0, "a;\r\nb;\r\n", ""),
    ("--indent 0", "{a}", 0, "{\na;\n}", ""),
    ("--indent 1", "{a}", 0, "{\n a;\n}", ""),
    ("--indent 2", "{a}", 0, "{\n  a;\n}", ""),
    ("--indent 8", "{a}", 0, "{\n        a;\n}", ""),
    ("--indent tab", "{a}", 0, "{\n\ta;\n}", ""),
    ("", "{a}", 0, "{\n    a;\n}", ""),
    ("--indent 9", "a", 2, "", None),
    ("--indent", "a", 2, "", None),
    ("--nesting 3 --minify", "a", 0, "a", ""),
    ("--nesting 2 --minify", "a", 1, "", "1:1: nested too deeply\n"),
    ("--nesting 4096 --minify", "a", 0, "a", ""),
    ("--nesting 0", "a", 3, "", "options refused\n"),
    ("--nesting 4097", "a", 3, "", "options refused\n"),
    ("--nesting x", "a", 2, "", None),
    ("--no-such-option", "a", 2, "", None),
    ("--help", "a", 2, "", None),
    ("one.js two.js", "a", 2, "", None),
    ("no/such/file.js", "a", 3, "", "read failed\n"),
    *((f"--minify --target {it}", "`a${b}`;/c/u", 0, "`a${b}`;/c/u", "") for it in (*(f"es{n}" for n in range(2015, 2023)), "esnext")),
    ("--minify --target es2015", "'\\u{1F600}'", 0, '"\U0001f600"', ""),
    ("--minify --ascii-only --target es2015", "'\\u{1F600}'", 0, '"\\u{1F600}"', ""),
    ("--target es5", "a", 2, "", None),
    ("--target", "a", 2, "", None),
]


def option(words, text, status, out, err):
    """One run of the command line."""
    done = ran((yield [Run(tuple(words.split()), text.encode())])[0])
    wanted = [str(status).encode(), *(got if own is None else own.encode() for own, got in ((out, done.out), (err, done.err)))]
    if err is None and not done.err.endswith(b"\n"):
        return "nothing is said, or no whole line"
    return difference(wanted, [str(done.status).encode(), done.out, done.err])


def from_file(words, text, wanted):
    """A file that is named on the command line, while standard input is another text."""
    with tempfile.TemporaryDirectory() as folder:
        with open(f"{folder}/a b.js", "wb") as it:
            it.write(text)
        done = ran((yield [Run((*words, "a b.js"), b"other", folder)])[0])
    return difference([b"0", wanted], [str(done.status).encode(), done.out, done.err])


def is_device(path):
    """Whether this is a device, and no file that would be written."""
    return os.path.exists(path) and stat.S_ISCHR(os.stat(path).st_mode)


def full(path):
    """An output that takes nothing: the run fails, and says so."""
    if not is_device(FULL):
        return f"there is no {FULL}"
    with open(FULL, "wb") as out:
        done = subprocess.run([path, "--minify"], input=b"a;b", stdout=out, stderr=subprocess.PIPE, timeout=30)
    return difference([b"3", b"write failed\n"], [str(done.returncode).encode(), done.stderr])
    yield


def silent(path, text, status, out):
    """Errors that can't be printed change nothing else."""
    for errors in (FULL, os.devnull):
        if not is_device(errors):
            return f"there is no {errors}"
        with open(errors, "wb") as err:
            done = subprocess.run([path, "--script", "--minify"], input=text, stdout=subprocess.PIPE, stderr=err, timeout=30)
        if (done.returncode, done.stdout) != (status, out):
            return f"expected {status} and {out}, got {done.returncode} and {done.stdout}"
    return None
    yield


def not_utf8():
    """A text that is no UTF-8, with the place of its first byte that is none."""
    done = ran((yield [Run(("--minify",), b"a;\n'\xff'")])[0])
    return difference([b"1", b"", b"2:2: the text is not UTF-8\n"], [str(done.status).encode(), done.out, done.err])


def bad_word():
    """A word of the command line that is no UTF-8 is refused."""
    done = ran((yield [Run((b"--minify", b"\xff"), b"a")])[0])
    wanted = [b"2", b"", b"error: invalid UTF-8 was detected in one or more arguments\n"]
    return difference(wanted, [str(done.status).encode(), done.out, done.err])


def tests(paths):
    """The tests of the command line, each with its name."""
    found = [(f"options {case[0]} < {case[1]!r}", option(*case)) for case in CASES]
    found += [
        ("options: a file", from_file((), b"a;b", b"a;\nb;\n")),
        ("options: a file, minified", from_file(("--minify", "--script"), b"with (a) b", b"with(a)b")),
        ("options: a full disk", full(paths["ecma-front"])),
        ("options: no room for errors, a text", silent(paths["ecma-front"], b"a", 0, b"a")),
        ("options: no room for errors, a fault", silent(paths["ecma-front"], b"a b", 1, b"")),
        ("options: no room for errors, no text", silent(paths["ecma-front"], b"\xff", 1, b"")),
        ("options: a folder", option("/", "a", 3, "", "read failed\n")),
        ("options: not UTF-8", not_utf8()),
        ("options: a word that is not UTF-8", bad_word()),
    ]
    return found

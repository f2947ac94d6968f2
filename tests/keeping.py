"""Tests that no test can be lost: a copy of `./test` in which one thing is broken ends with a failure that names it."""
import concurrent.futures
import os
import shutil
import subprocess
import sys
import tempfile

from release import expect, expect_in, told

ROOT = os.path.dirname(os.path.dirname(os.path.realpath(__file__)))
COPIED = ("test", "tests", "tools/released.py", "tools/sources", "tools/tidy", "tools/rows/by_spelling.py", "tools/rows/spellings.txt")
# the crates of the programs
CRATES = {"ecma-front": "ecma_front_cli", "ecma-lexical-answers": "test_lex_answers", "ecma-program-answers": "test_program_answers"}
# a program that answers as the real one does, and then does something else
OTHERWISE = '#!/usr/bin/env bash\n{real} "$@"{behind}\n'


class Copy:
    """A copy of the tests, over the programs that are tested."""

    def __init__(self, folder, paths):
        self.folder, self.paths = folder, paths
        for name in COPIED:
            os.makedirs(os.path.dirname(f"{folder}/{name}"), exist_ok=True)
            copy = shutil.copytree if os.path.isdir(f"{ROOT}/{name}") else shutil.copy
            copy(f"{ROOT}/{name}", f"{folder}/{name}")
        for program, crate in CRATES.items():
            os.makedirs(f"{folder}/crates/{crate}/out")
            os.symlink(os.path.abspath(paths[program]), self.program(program))

    def program(self, program):
        """Where a program stands."""
        return f"{self.folder}/crates/{CRATES[program]}/out/{CRATES[program]}"

    def read(self, name):
        with open(f"{self.folder}/{name}", encoding="utf-8", newline="") as it:
            return it.read()

    def write(self, name, text):
        os.makedirs(os.path.dirname(f"{self.folder}/{name}"), exist_ok=True)
        with open(f"{self.folder}/{name}", "w", encoding="utf-8", newline="") as it:
            it.write(text)

    def change(self, name, old, new):
        """Changes a text that stands in a file once."""
        text = self.read(name)
        expect(text.count(old), 1, f"how often {old!r} stands in {name}")
        self.write(name, text.replace(old, new))

    def behind(self, program, behind):
        """Has a program do something behind its answers."""
        os.remove(self.program(program))
        self.write(os.path.relpath(self.program(program), self.folder), OTHERWISE.format(real=self.paths[program], behind=behind))
        os.chmod(self.program(program), 0o755)

    def test(self, *words, **more):
        """Runs the tests of the copy, and returns their status and the lines of their output."""
        how = {"stdin": subprocess.DEVNULL, "stdout": subprocess.PIPE, "stderr": subprocess.DEVNULL, "timeout": 300, "env": {**os.environ, **more}}
        ran = subprocess.run([f"{self.folder}/test", *words], **how)
        return ran.returncode, ran.stdout.decode(errors="replace").splitlines()

    def fails(self, *words, named, **more):
        """The tests fail, tell of this in a line, and end with their last line."""
        status, lines = self.test(*words, **more)
        expect(status, 1, f"the status of {lines[-3:]}")
        expect_in(named, "\n".join(lines[:-1]), "what is said")
        count = lines[-1].split(" ")
        expect((count[1::2], count[2] != "0"), (["passed,", "failed"], True), f"the last line {lines[-1]!r}")


def passes(copy):
    """Where nothing is broken the tests pass."""
    status, lines = copy.test("--built", "write", "tidied")
    expect((status, lines[-1].endswith(" passed, 0 failed")), (0, True), f"the status and {lines[-3:]}")


def tells_of_no_program(copy):
    os.remove(copy.program("ecma-program-answers"))
    copy.fails("--built", "write", named="test_program_answers is not built")


def tells_of_no_released_program(copy):
    if not os.path.exists(f"{ROOT}/release/programs"):
        return copy.fails("write", named="there is no release")
    shutil.copytree(f"{ROOT}/release", f"{copy.folder}/release")
    lines = copy.read("release/programs").splitlines(keepends=True)
    copy.write("release/programs", "".join(it for it in lines if not it.startswith("ecma-program-answers ")))
    return copy.fails("write", named="release/programs doesn't name the program ecma-program-answers")


def tells_of_an_empty_folder(copy):
    shutil.rmtree(f"{copy.folder}/tests/rows/write")
    lines = copy.read("tests/rows/counts").splitlines(keepends=True)
    copy.write("tests/rows/counts", "".join(it for it in lines if not it.startswith("write/")))
    copy.fails("--built", "write", named="write: there is no test")


def tells_of_no_files(copy):
    shutil.rmtree(f"{copy.folder}/tests/files")
    os.mkdir(f"{copy.folder}/tests/files")
    copy.fails("--built", "files", named="tests/files: expected events.mjs, ")


def tells_of_a_lost_file(copy):
    os.remove(f"{copy.folder}/tests/rows/write/calls.rows")
    copy.fails("--built", "write", named="tests/rows/write/calls.rows: ")


def tells_of_a_lost_row(copy):
    text = copy.read("tests/rows/write/comments.rows")
    copy.write("tests/rows/write/comments.rows", text.rstrip("\n").rpartition("\n")[0] + "\n")
    copy.fails("--built", "write", named="tests/rows/write/comments.rows: expected 6 rows (tests/rows/counts), got 5")


def tells_of_an_uncounted_file(copy):
    copy.write("tests/rows/write/more.rows", "# Nothing\n")
    copy.fails("--built", "write", named="tests/rows/write/more.rows: expected no rows (tests/rows/counts), got 0")


def tells_of_another_ending(copy):
    copy.write("tests/rows/write/more.row", "@ write\n")
    copy.fails("--built", "tidied", named="tests/rows/write/more.row: no part reads this file")


def tells_of_a_folder_below(copy):
    copy.write("tests/rows/write/more/x.rows", "@ write\n")
    copy.fails("--built", "tidied", named="tests/rows/write/more/x.rows: no part reads this file")


def tells_of_a_new_part(copy):
    copy.write("tests/rows/more/x.rows", "@ write\na → a\n")
    copy.write("tests/rows/counts", copy.read("tests/rows/counts") + "more/x.rows: 1\n")
    copy.fails("--built", "tidied", named="tests/rows/more: no part reads this folder")


def tells_of_a_wrong_count(copy):
    copy.write("tests/rows/counts", copy.read("tests/rows/counts") + "write/calls.rows: 0\n")
    copy.fails("--built", "tidied", named="'write/calls.rows: 0' stands there before")


def tells_of_no_count(copy):
    copy.fails("--built", "--count", "0", "grown", named="--count is to have a number from 1 on, not 0")


def tells_of_an_unknown_part(copy):
    copy.fails("--built", "wrote", named="there is no part wrote")


def tells_of_no_full_disk(copy):
    copy.change("tests/options.py", 'FULL = "/dev/full"', 'FULL = "/dev/no/full"')
    copy.fails("--built", "options", named="options: a full disk: there is no /dev/no/full")


def tells_of_a_signal(copy):
    """A program that answers all, and then ends by a signal."""
    copy.behind("ecma-lexical-answers", "; kill -SEGV $$")
    copy.fails("--built", "write", named="the program ended by signal 11")


def tells_of_a_signal_between(copy):
    """A program that answers some of a batch, and then ends by a signal."""
    copy.behind("ecma-lexical-answers", " | head -n 1; kill -KILL $$")
    copy.fails("--built", "write", named="the program ended by signal 9")


def tells_of_a_signal_of_the_command_line(copy):
    copy.behind("ecma-front", "; kill -SEGV $$")
    copy.fails("--built", "options", named="the program ended by signal 11")


def tells_of_a_status(copy):
    """A program that answers all, and then fails."""
    copy.behind("ecma-lexical-answers", "; exit 3")
    copy.fails("--built", "write", named="the program ended with status 3")


def tells_of_an_error(copy):
    """A program that answers all, and complains."""
    copy.behind("ecma-lexical-answers", "; echo complaint >&2")
    copy.fails("--built", "write", named="the program ended with status 0: complaint")


def tells_of_more(copy):
    """A program that says more than was asked."""
    copy.behind("ecma-lexical-answers", "; echo ok")
    copy.fails("--built", "write", named="the program said more than was asked")


def tells_of_half_a_line(copy):
    copy.behind("ecma-lexical-answers", "; printf o")
    copy.fails("--built", "write", named="the program said more than was asked")


def tells_of_no_gcc(copy):
    """Without gcc no memory is refused, and that is told."""
    how = {"stdin": subprocess.DEVNULL, "capture_output": True, "text": True, "timeout": 60, "env": {"PATH": copy.folder}}
    ran = subprocess.run([sys.executable, f"{copy.folder}/tests/refusals", "--built"], **how)
    said = "tests/refusals: there is no gcc, so no memory is refused\n0 passed, 1 failed\n"
    expect((ran.returncode, ran.stdout), (1, said), f"the status and what is said, {ran.stderr}")


def tells_of_tests_that_are_not_read(copy):
    copy.change("tests/tidying.py", "import os\n", "import no_such_module\n")
    copy.fails("--built", "write", named="the tests ended: ModuleNotFoundError")


def tells_of_a_part_that_ends(copy):
    """A part that ends early fails, and those behind it are tested."""
    copy.change("tests/tidying.py", "    loader = ", "    raise KeyError('odd')\n    loader = ")
    copy.fails("--built", "tidied", "write", named="tidied: the tests ended: KeyError: 'odd'\nwrite: ")


def tells_of_a_test_that_ends(copy):
    for wrong in ("raise KeyError('odd')", "raise SystemExit(0)"):
        copy.change("tests/tidying.py", "    found = ", f"    {wrong}\n    found = ")
        copy.fails("--built", "tidied", named=f"the test ended: {wrong[6:].split('(')[0]}")
        copy.change("tests/tidying.py", f"    {wrong}\n", "")


def tells_of_each_of_one_name(copy):
    """Of two tests with one name, one fails."""
    own = '("use A.{one}", "f = once", ""),'
    copy.change("tests/tidying.py", own, f'("use A.{{one}}", "f = once", "odd"),\n    {own}')
    copy.fails("--built", "tidied", named="expected 'odd")


def tells_of_another_tree(copy):
    """A parser from outside that reads other trees, and one that isn't there where it is said to be; without node the output says so."""
    if not shutil.which("node"):
        expect_in("no parser from outside compares trees", "\n".join(copy.test("--built", "tidied")[1]), "what is said")
        return
    copy.change("tests/by_acorn", "if (own === its) return", "if (own === its && one.length < 10) return")
    copy.fails("--built", "files", named="tests/files/sample.mjs: acorn reads another tree: ")
    copy.fails("--built", "tidied", named="ECMA_ACORN names no acorn", ECMA_ACORN=f"{copy.folder}/acorn.js")


def tells_of_a_changed_spelling(copy):
    """A row of spellings that is another than the program makes."""
    text = copy.read("tests/rows/spell/numbers.rows")
    copy.write("tests/rows/spell/numbers.rows", text.replace("0x0 → 0\n", "0x0 → 00\n", 1))
    how = {"stdin": subprocess.DEVNULL, "capture_output": True, "text": True, "timeout": 60}
    ran = subprocess.run([f"{copy.folder}/tools/rows/by_spelling.py", "--check"], **how)
    expect((ran.returncode, ran.stdout.splitlines()[-1]), (1, "6 passed, 1 failed"), "the status and the last line")
    expect_in("tests/rows/spell/numbers.rows:8: '0x0 → 00' is to be '0x0 → 0'", ran.stdout, "what is said")


BREAKS = (
    passes, tells_of_no_program, tells_of_no_released_program, tells_of_an_empty_folder, tells_of_no_files, tells_of_a_lost_file,
    tells_of_a_lost_row, tells_of_an_uncounted_file, tells_of_another_ending, tells_of_a_folder_below, tells_of_a_new_part,
    tells_of_a_wrong_count, tells_of_no_count, tells_of_an_unknown_part, tells_of_no_full_disk, tells_of_a_signal, tells_of_a_signal_between,
    tells_of_a_signal_of_the_command_line, tells_of_a_status, tells_of_an_error, tells_of_more, tells_of_half_a_line, tells_of_no_gcc,
    tells_of_tests_that_are_not_read, tells_of_a_part_that_ends, tells_of_a_test_that_ends, tells_of_each_of_one_name,
    tells_of_another_tree, tells_of_a_changed_spelling,
)  # fmt: skip


def outcome(breaks, paths):
    """What is wrong with how the tests of a copy end, or nothing."""
    with tempfile.TemporaryDirectory(prefix="kept-") as folder:
        try:
            breaks(Copy(folder, paths))
        except (AssertionError, OSError, subprocess.TimeoutExpired, IndexError) as wrong:
            return str(wrong) or type(wrong).__name__
    return None


def made_rows():
    """The rows that tools/rows/by_spelling.py makes are those that stand here."""
    ran = subprocess.run([f"{ROOT}/tools/rows/by_spelling.py", "--check"], stdin=subprocess.DEVNULL, capture_output=True, text=True, timeout=60)
    return None if ran.returncode == 0 else f"status {ran.returncode}: {(ran.stdout + ran.stderr).strip()}"
    yield


def tests(paths):
    """The tests that no test can be lost, each with its name."""
    pool = concurrent.futures.ThreadPoolExecutor(len(os.sched_getaffinity(0)))
    own = [(f"kept: {it.__name__}", told(pool.submit(outcome, it, paths))) for it in BREAKS]
    return [("tests/rows/spell as tools/rows/by_spelling.py makes it", made_rows()), *own]

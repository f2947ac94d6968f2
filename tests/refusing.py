"""Tests of `.ci/refused`: that it runs memory refused, the edits of crates and those of definitions, and counts what each says; and how it
draws a sample. Tried in copies of the scripts, as those of the release are, over a toolchain that only pretends to prove."""
import concurrent.futures
import os
import re
import shutil
import subprocess
import sys
import tempfile

from release import Trial, expect, expect_in, told

ROOT = os.path.dirname(os.path.dirname(os.path.realpath(__file__)))
SCRIPTS = (".ci/refused", ".ci/edits", ".ci/definitions")
# what pretends to try edits and to check a crate; else it pretends as for the release
RT = """\
#!/usr/bin/env bash
if [ "$1" = must-fail ]; then
    echo "begin must-fail" >>"$TRIAL/rt.log"
    sleep "${SLOW:-0}"
    status=0
    for it in crates/"$2"/must-fail/*.edit; do
        if grep -q '^new: the same' "$it"; then
            echo "rt: must-fail $2/${it##*/}: NOT REFUSED: the crate is still proved with this edit" && status=1
        else
            echo "rt: must-fail $2/${it##*/}: refused, as it must be"
        fi
    done
    echo "end must-fail" >>"$TRIAL/rt.log"
    exit "$status"
elif [ "$1" = check ]; then
    echo "begin check" >>"$TRIAL/rt.log"
    sleep "${SLOW:-0}"
    echo "end check" >>"$TRIAL/rt.log"
    if grep -rq turned specs; then echo "./proofs/Laws.antt:3:1: error: it says something else" && exit 1; fi
    exit 0
fi
"$0-build" "$@" || exit
if [ "$1" = lib ]; then echo built >out/rlib/stamp; fi
"""
REFUSALS = """\
#!/usr/bin/env bash
echo "begin refusals $*" >>"$TRIAL/rt.log"
sleep "${SLOW:-0}"
echo "${REFUSALS:-4 passed, 0 failed}"
echo "end refusals" >>"$TRIAL/rt.log"
"""
EDIT = "file: src/lib.rt\nold: as it was\nnew: {new}\n"
DEFINITION = "file: ecma_side/specs/Words.antt\nbreaks: ecma_side\nold: a definition\nnew: {new}\nshows: what it lets through\n"


class Refusing(Trial):
    """A copy with edits of two crates and of definitions."""

    def __init__(self, folder):
        super().__init__(folder)
        for name in SCRIPTS:
            shutil.copy(f"{ROOT}/{name}", f"{self.root}/{name}")
        shutil.move(f"{folder}/bin/rt", f"{folder}/bin/rt-build")
        self.write("bin/rt", RT, True)
        self.write("repository/tests/refusals", REFUSALS, True)
        self.write("repository/crates/ecma_side/specs/Words.antt", "-- a definition\n")
        for crate, names in (("ecma_low", "abcdefgh"), ("ecma_side", "ij")):
            for name in names:
                self.write(f"repository/crates/{crate}/edits/{name}.edit", EDIT.format(new=f"as {name} has it"))
        for name in "klm":
            self.write(f"repository/edits/definitions/{name}.edit", DEFINITION.format(new="turned"))

    def refused(self, *words, **more):
        """Runs what is tested, and returns its status, the lines before the last one, and the last one."""
        status, out, _ = self.call(".ci/refused", *words, **more)
        lines = out.splitlines()
        return status, "\n".join(lines[:-1]), lines[-1]


def runs_all(trial):
    """All are run, with how long each took."""
    status, said, last = trial.refused()
    expect((status, last), (0, "17 passed, 0 failed"), f"the status and the last line behind {said}")
    for name, count in (("tests/refusals", 4), (".ci/edits", 10), (".ci/definitions", 3)):
        found = re.search(rf"(?m)^{re.escape(name)}: {count} passed, 0 failed, in \d+:\d\d, \d+:\d\d of processor time$", said)
        expect(found is not None, True, f"{name} in {said}")


def runs_side_by_side(trial):
    """All begin before one has ended."""
    trial.refused(SLOW="2")
    own = [it.split(" ")[0] for it in trial.read("rt.log").splitlines() if re.search("must-fail|check|refusals", it)]
    expect(own[:3], ["begin"] * 3, "what began first")


def fails_where_one_is_not_refused(trial):
    """An edit of a crate that isn't refused, one of a definition, memory."""
    trial.write("repository/crates/ecma_low/edits/b.edit", EDIT.format(new="the same"))
    trial.write("repository/edits/definitions/l.edit", DEFINITION.format(new="the same"))
    status, said, last = trial.refused(REFUSALS="3 passed, 1 failed")
    expect((status, last), (1, "14 passed, 3 failed"), "the status and the last line")
    for part in ("crates/ecma_low/edits/b.edit: NOT REFUSED", "l: NOT REFUSED", "3 passed, 1 failed"):
        expect_in(part, said, "what is said")


def fails_where_nothing_is_tried(trial):
    """A runner that tries nothing, and one that says nothing of it, have failed."""
    shutil.rmtree(f"{trial.root}/crates/ecma_low/edits")
    shutil.rmtree(f"{trial.root}/crates/ecma_side/edits")
    status, said, last = trial.refused()
    expect((status, last), (1, "7 passed, 1 failed"), "no edits of crates")
    expect_in(".ci/edits: nothing was tried", said, "what is said")
    status, said, last = trial.refused(REFUSALS="well")
    expect((status, last), (1, "3 passed, 2 failed"), "no count")
    expect_in("tests/refusals: nothing was tried", said, "what is said")


def fails_where_nothing_is_built(trial):
    status, said, last = trial.refused(BROKEN="ecma_side")
    expect((status, last), (1, "0 passed, 1 failed"), "the status and the last line")
    expect_in("the libraries are not built, so nothing was tried", said, "what is said")


def listed(trial, *words):
    """What a sample would run: each runner's words."""
    _, out, _ = trial.call(".ci/refused", "--sample", *words, "--list")
    return re.findall(r"(?m)^  (\.ci/\S+ .*): about (\d+):(\d\d)$", out)


def draws_by_the_seed(trial):
    """A sample is the same for one seed, and not for all; it stays within its minutes; each edit is drawn by some seed."""
    samples = {seed: listed(trial, str(seed), "--minutes", "3") for seed in range(30)}
    expect(listed(trial, "7", "--minutes", "3"), samples[7], "the sample drawn again")
    drawn = {edit for own in samples.values() for words, _, _ in own for edit in words.split(" ")[1:]}
    expect(sorted(it.split("/")[-1][0] for it in drawn), list("abcdefghijklm"), "what is drawn")
    for own in samples.values():
        whole = sum(60 * int(it) + int(rest) for _, it, rest in own)
        expect(0 < whole <= 180 - 30, True, f"a sample of {whole} seconds")


def reckons_what_is_not_built(trial):
    """Libraries below that are not built are reckoned, and those that are built are not."""
    trial.write("repository/crates.txt", trial.read("repository/crates.txt").replace("ecma_side:", "ecma_side: ecma_low"))
    shutil.rmtree(f"{trial.root}/crates/ecma_low/edits")
    shutil.rmtree(f"{trial.root}/edits")
    expect(listed(trial, "a", "--minutes", "4"), [(".ci/edits ecma_side/i.edit ecma_side/j.edit", "2", "30")], "with a library that isn't built")
    trial.write("repository/crates/ecma_low/out/rlib/stamp", "built\n")
    expect(listed(trial, "a", "--minutes", "4"), [(".ci/edits ecma_side/i.edit ecma_side/j.edit", "2", "10")], "with one that is")


def is_drawn_by_the_commit(trial):
    """Without a seed the commit draws, and a line says how that is repeated; without a commit the date."""
    status, said, last = trial.refused("--sample", "--list")
    expect_in("`.ci/refused --sample 20", said, "a seed by the date")
    git = ["git", "-C", trial.root, "-c", "user.name=a", "-c", "user.email=a@b"]
    for words in (["init", "-q"], ["commit", "-q", "--allow-empty", "-m", "one"]):
        subprocess.run([*git, *words], check=True, capture_output=True, env=trial.environment())
    commit = subprocess.run([*git, "rev-parse", "--short=12", "HEAD"], check=True, capture_output=True, text=True).stdout.strip()
    status, said, last = trial.refused("--sample", "--list")
    expect((status, f"`.ci/refused --sample {commit}` repeats where as much is built" in said), (0, True), f"a seed by the commit in {said}")


def runs_a_sample(trial):
    """A sample runs memory refused and what it has drawn, no more, and counts it."""
    status, said, last = trial.refused("--sample", "3", "--minutes", "6", "--built")
    count = sum(len(words.split(" ")) - 1 for words, _, _ in listed(trial, "3", "--minutes", "6"))
    expect((status, last), (0, f"{4 + count} passed, 0 failed"), f"the status and the last line behind {said}")
    expect_in("begin refusals --built\n", trial.read("rt.log"), "how memory is refused")
    for name in "abcdefghij":
        path = f"repository/crates/ecma_{'side' if name in 'ij' else 'low'}/edits/{name}.edit"
        trial.write(path, EDIT.format(new="the same"))
    edits = sum(len(words.split(" ")) - 1 for words, _, _ in listed(trial, "3", "--minutes", "6") if words.startswith(".ci/edits"))
    status, _, last = trial.refused("--sample", "3", "--minutes", "6")
    expect((status, last), (1, f"{4 + count - edits} passed, {edits} failed"), "where none is refused")


def fails_without_minutes(trial):
    """A sample that draws nothing has failed."""
    status, said, last = trial.refused("--sample", "3", "--minutes", "0")
    expect((status, last.split(" ")[2] != "0"), (1, True), f"the status and {last}")
    expect_in("no edit is drawn", said, "what is said")


def stays_within_its_minutes(_trial):
    """What would pass the seconds is left out, where those before it took longer than reckoned."""
    lines = (
        "import importlib.machinery as m, importlib.util as u, sys",
        f"loader = m.SourceFileLoader('refused', {f'{ROOT}/.ci/refused'!r})",
        "sys.modules['refused'] = own = u.module_from_spec(u.spec_from_loader('refused', loader))",
        "loader.exec_module(own)",
        "busy = [sys.executable, '-c', 'import time\\nwhile time.process_time() < 1.2: pass\\nprint(\"1 passed, 0 failed\")']",
        "print(own.run([own.Runner('one', busy, 0.1), own.Runner('other', busy, 0.9)], 2))",
    )
    ran = subprocess.run([sys.executable, "-c", "\n".join(lines)], stdin=subprocess.DEVNULL, capture_output=True, text=True, timeout=60)
    expect(ran.stdout.splitlines()[-2:], ["other: not tried, since those before it took 0:01", "(1, 0)"], f"the end, with {ran.stderr}")


def is_counted_by_the_gate(trial):
    """The gate runs a sample once the proofs have passed, and counts it."""
    for name in ("tools/tree/check", "tools/crates", "tools/pages", "tools/tidy"):
        trial.write(f"repository/{name}", "#!/bin/sh\n", True)
    trial.write("repository/test", '#!/bin/sh\necho "5 passed, 0 failed"\n', True)
    trial.release()
    trial.write("repository/.ci/refused", '#!/bin/sh\necho "refused $*"\necho "6 passed, ${LET:-0} failed"\n[ "${LET:-0}" = 0 ]\n', True)
    _, out, _ = trial.call(".ci/run")
    expect_in("refused --sample --built\n6 passed, 0 failed\n", out, "what is run")
    counts = [re.findall(r"\d+", trial.call(".ci/run", LET=it)[1].splitlines()[-1]) for it in ("0", "2")]
    expect((counts[0][0] == counts[1][0], int(counts[1][1]) - int(counts[0][1])), (True, 2), f"what is counted of {counts}")
    _, out, _ = trial.call(".ci/run", REFUSED="1")
    expect("refused --sample" in out, False, "a sample where the proofs have not passed")


TRIALS = (
    runs_all, runs_side_by_side, fails_where_one_is_not_refused, fails_where_nothing_is_tried, fails_where_nothing_is_built,
    draws_by_the_seed, reckons_what_is_not_built, is_drawn_by_the_commit, runs_a_sample, fails_without_minutes, stays_within_its_minutes,
    is_counted_by_the_gate,
)  # fmt: skip


def outcome(trial):
    """What is wrong with a trial, or nothing."""
    with tempfile.TemporaryDirectory(prefix="refused-") as folder:
        try:
            trial(Refusing(folder))
        except (AssertionError, OSError, IndexError, subprocess.SubprocessError) as wrong:
            return str(wrong) or type(wrong).__name__
    return None


def tests(_paths):
    """The tests of `.ci/refused`, each with its name."""
    pool = concurrent.futures.ThreadPoolExecutor(len(os.sched_getaffinity(0)))
    return [(f".ci/refused: {it.__name__}", told(pool.submit(outcome, it))) for it in TRIALS]

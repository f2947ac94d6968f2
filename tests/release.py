"""What keeps a wrong release from being run and from landing, and what builds the sources: tried in temporary copies of the scripts, with
three small crates, a toolchain that only pretends, and programs that are scripts."""
import concurrent.futures
import functools
import glob
import hashlib
import os
import pty
import re
import shutil
import signal
import subprocess
import tempfile
import time

ROOT = os.path.dirname(os.path.dirname(os.path.realpath(__file__)))
SCRIPTS = (
    ".ci/run", "ecma-front", "tools/sources", "tools/build", "tools/release", "tools/released.py", "tools/untracked", "tools/cost/chain.py",
    "tools/tree/check",
)  # fmt: skip
PROGRAMS = {"ecma-front": "ecma_front_cli", "ecma-lexical-answers": "test_lex_answers", "ecma-program-answers": "test_program_answers"}
CRATES = """\
# libraries, and the programs over them
ecma_low:
ecma_side:
ecma_front_cli: ecma_low ecma_side std
test_lex_answers: ecma_low
test_program_answers: ecma_low ecma_side
"""
# what pretends to be the toolchain: it tells what it does, and makes a program of the sources' own words
RT = """\
#!/usr/bin/env bash
name=${PWD##*/}
make_program() {
    mkdir -p "$1/out"
    { cat "$TRIAL/program"; cat "$1/src/main.rt" "$1/../ecma_low/src/lib.rt" | sed 's/^/# /'; } >"$1/out/${1##*/}"
    chmod +x "$1/out/${1##*/}"
}
[ "$1" = version ] && { echo "${KIT:-pretended-kit}"; exit; }
if [ "$1" = ci ]; then
    for it in crates/*/src/main.rt; do
        [ -n "${UNMADE-}" ] || make_program "${it%/src/main.rt}"
    done
    [ -n "${REBUILT-}" ] && echo "# $REBUILT" >>crates/ecma_front_cli/out/ecma_front_cli
    echo "what the gate says"
    echo "3 passed, ${REFUSED:-0} failed (of all)"
    exit "$((${REFUSED:-0} > 0))"
fi
echo "begin $name" >>"$TRIAL/rt.log"
sleep "${SLOW:-0}"
[ "${BROKEN-}" = "$name" ] && { echo "$name: not proved"; exit 1; }
[ "${EDITING-}" = "$name" ] && echo "another text" >>"$TRIAL/repository/crates/ecma_low/src/lib.rt"
mkdir -p "out/rlib/$name.rlib"
if [ "$1" = run ]; then
    make_program "$PWD"
else
    echo made >"out/rlib/$name.rlib/format"
fi
echo "end $name" >>"$TRIAL/rt.log"
"""
# a program that tells its words and its input, and that it ran
PROGRAM = """\
#!/usr/bin/env bash
echo ran >>"$TRIAL/ran"
echo "words: $*"
cat
exit 7
"""
# what is counted, and else does what it always does
COUNTED = """\
#!/usr/bin/env bash
echo "$(basename "$0")" >>"$TRIAL/calls"
exec {real} "$@"
"""


class Trial:
    """A temporary copy of the scripts, with a release."""

    def __init__(self, folder):
        self.folder, self.root = folder, f"{folder}/repository"
        for name in SCRIPTS:
            os.makedirs(os.path.dirname(f"{self.root}/{name}"), exist_ok=True)
            shutil.copy(f"{ROOT}/{name}", f"{self.root}/{name}")
        self.write("repository/tools/cost/seconds.txt", "ecma_low 20\necma_side 90\necma_front_cli 5\n")
        self.write("repository/crates.txt", CRATES)
        self.write("repository/CHANGELOG.md", "# Changes\n\n## 1.2.3\n\nAll is new.\n")
        for line in CRATES.splitlines()[1:]:
            name = line.split(":")[0]
            file = "main" if "front" in name or "answers" in name else "lib"
            self.write(f"repository/crates/{name}/src/{file}.rt", f"{name} as it was\n")
        self.write("repository/.ci/refused", '#!/bin/sh\necho "0 passed, 0 failed"\n', True)
        self.write("program", PROGRAM)
        self.write("bin/rt", RT, True)
        self.write("bin/sha256sum", COUNTED.format(real=shutil.which("sha256sum")), True)
        self.write("bin/date", f"#!/bin/sh\n[ \"$1\" = +%s ] && echo 99999999999 || exec {shutil.which('date')} \"$@\"\n", True)

    def write(self, name, text, runs=False):
        os.makedirs(os.path.dirname(f"{self.folder}/{name}"), exist_ok=True)
        with open(f"{self.folder}/{name}", "w") as it:
            it.write(text)
        os.chmod(f"{self.folder}/{name}", 0o755 if runs else 0o644)

    def read(self, name):
        try:
            with open(f"{self.folder}/{name}") as it:
                return it.read()
        except OSError:
            return ""

    def environment(self, **more):
        return {"PATH": f"{self.folder}/bin:{os.environ['PATH']}", "HOME": self.folder, "TRIAL": self.folder, **more}

    def call(self, *words, root=None, **more):
        """Runs a script of the copy, and returns its status, its output and its errors."""
        how = {"input": "text\n", "capture_output": True, "text": True, "env": self.environment(**more), "timeout": 60}
        ran = subprocess.run([f"{root or self.root}/{words[0]}", *words[1:]], **how)
        return ran.returncode, ran.stdout, ran.stderr

    def release(self):
        """Makes the release, and forgets what was done for it."""
        expect(self.call("tools/release")[0], 0, "making the release")
        for name in ("rt.log", "ran", "calls"):
            self.write(name, "")

    def change(self, name="ecma_low", file="lib"):
        self.write(f"repository/crates/{name}/src/{file}.rt", f"{name} as it is now\n")


def expect(found, wanted, what):
    if found != wanted:
        raise AssertionError(f"{what}: expected {wanted!r}, got {found!r}")


def expect_in(part, text, what):
    if part not in text:
        raise AssertionError(f"{what}: expected {part!r} in {text!r}")


RAN = (7, "words: --minify a b\ntext\n", "")


def runs_at_once(trial):
    """The released program runs with its words, its input, its output and its status, and nothing is built."""
    trial.release()
    os.remove(f"{trial.folder}/bin/rt")
    expect(trial.call("ecma-front", "--minify", "a b"), RAN, "a run")
    expect(trial.read("rt.log"), "", "the toolchain")


def has_room(trial):
    """The program has 16 MB of stack, or as much as the system gives, and never less than before."""
    trial.write("program", "#!/usr/bin/env bash\nulimit -S -s\n")
    trial.release()
    for before, after in (("-S -s 8192", "16384"), ("-S -s 20000", "20000"), ("-s 9000", "9000")):
        words = ["bash", "-c", f'ulimit {before} && exec "$0"', f"{trial.root}/ecma-front"]
        ran = subprocess.run(words, capture_output=True, text=True, env=trial.environment(), timeout=60)
        expect((ran.returncode, ran.stdout, ran.stderr), (0, f"{after}\n", ""), f"ulimit {before}")


def checks_once(trial):
    """The bytes are summed up at the first run, and not again while the file is unchanged; in a copy they are summed up again."""
    trial.release()
    for calls in (1, 1):
        expect(trial.call("ecma-front", "--minify", "a b"), RAN, "a run")
        expect(trial.read("calls").split(), ["sha256sum"] * calls, "sums")
    shutil.copytree(trial.root, f"{trial.folder}/copy", symlinks=True)
    expect(trial.call("ecma-front", "--minify", "a b", root=f"{trial.folder}/copy"), RAN, "a run of the copy")
    expect(trial.read("calls").split(), ["sha256sum"] * 2, "sums with the copy's")


def remembers_no_new_file(trial):
    """A program that changed a moment ago is summed up each time, since it may change again within the clock's step."""
    trial.release()
    os.remove(f"{trial.folder}/bin/date")
    for calls in (1, 2):
        expect(trial.call("ecma-front", "--minify", "a b"), RAN, "a run")
        expect(trial.read("calls").split(), ["sha256sum"] * calls, "sums")


def change_a_byte(path):
    """Changes one byte of a file, whose size and time stay."""
    before = os.stat(path)
    with open(path, "r+b") as it:
        text = it.read()
        it.seek(text.index(b"exit 7"))
        it.write(b"exit 8"[:6])
    os.utime(path, ns=(before.st_atime_ns, before.st_mtime_ns))


def refuses_a_changed_byte(trial):
    """A program that was changed by one byte is refused and never run, also where it was checked before."""
    trial.release()
    trial.call("ecma-front")
    trial.write("ran", "")
    change_a_byte(f"{trial.root}/release/ecma-front")
    for way in ("first", "second"):
        status, out, err = trial.call("ecma-front", "--minify")
        expect((status, out, trial.read("ran")), (3, "", ""), f"the {way} run")
        expect_in("release/ecma-front is not the released program, and is not run", err, "what is said")
        expect(err.count("\n"), 1, "lines that are said")
    status, out, _ = trial.call("tools/release", "--check")
    expect(status, 1, "tools/release --check")
    expect_in("release/ecma-front is not the file that release/programs names", out, "tools/release --check")


def refuses_an_unnamed_program(trial):
    """A program that the release doesn't name is refused."""
    trial.release()
    trial.write("repository/release/programs", trial.read("repository/release/programs").replace("ecma-front ", "other "))
    status, out, err = trial.call("ecma-front")
    expect((status, out, trial.read("ran")), (3, "", ""), "a run")
    expect_in("release/programs doesn't name the program", err, "what is said")


def builds(trial, what, **more):
    """The sources are built: progress is told on standard error, and the rest is the program's."""
    status, out, err = trial.call("ecma-front", "--minify", "a b", **more)
    expect((status, out), RAN[:2], what)
    told = sorted(line.split(",")[0].split(" ")[1] for line in err.splitlines())
    expect(told, ["ecma_front_cli", "ecma_low", "ecma_side"], f"{what}: crates")
    expect_in("3/3 ecma_front_cli", err, what)


def builds_without_release(trial):
    """Without a release the sources are built, once."""
    builds(trial, "no release")
    expect(trial.call("ecma-front", "--minify", "a b"), RAN, "a second run")
    expect(trial.read("rt.log").count("begin"), 3, "crates that were built")
    trial.change()
    trial.call("ecma-front")
    expect(trial.read("rt.log").count("begin"), 5, "crates that were built once one had changed")
    expect_in("as it is now", trial.read("repository/crates/ecma_front_cli/out/ecma_front_cli"), "the program")


def builds_where_a_file_is_gone(trial):
    """Where the released program or its list is gone, the sources are built."""
    trial.release()
    shutil.rmtree(f"{trial.root}/crates/ecma_front_cli/out")
    os.remove(f"{trial.root}/release/ecma-front")
    status, _, err = trial.call("ecma-front")
    expect(status, 7, "a run")
    expect_in("ecma_front_cli", err, "what is said")


def builds_when_asked(trial):
    """ECMA_FRONT=build builds the sources beside a release."""
    trial.release()
    for name in ("ecma_low", "ecma_side", "ecma_front_cli"):
        shutil.rmtree(f"{trial.root}/crates/{name}/out")
    builds(trial, "ECMA_FRONT=build", ECMA_FRONT="build")


def builds_on_other_machines(trial):
    """A machine that the release isn't for builds the sources."""
    trial.release()
    for name in ("ecma_low", "ecma_side", "ecma_front_cli"):
        shutil.rmtree(f"{trial.root}/crates/{name}/out")
    trial.write("bin/uname", '#!/bin/sh\n[ "$1" = -m ] && echo arm64 || echo Linux\n', True)
    builds(trial, "another machine")


def needs_the_toolchain(trial):
    """Where there is neither a release nor a toolchain, one line says so."""
    os.remove(f"{trial.folder}/bin/rt")
    places = [it for it in os.environ["PATH"].split(":") if not os.path.exists(f"{it}/rt")]
    status, out, err = trial.call("ecma-front", PATH=f"{trial.folder}/bin:{':'.join(places)}")
    expect((status, out), (3, ""), "a run")
    expect_in("needs the Rattle toolchain", err, "what is said")


def tells_what_is_not_built(trial):
    """A crate that isn't proved ends the build, and the log says why; what is proved stays."""
    status, out, err = trial.call("ecma-front", BROKEN="ecma_side")
    expect((status, out), (3, ""), "a run")
    expect_in("ecma_side is not built", err, "what is said")
    expect_in("ecma_side: not proved", trial.read("repository/crates/ecma_front_cli/out/build.log"), "the log")
    expect(trial.call("ecma-front")[0], 7, "a run once it is proved")
    expect(trial.read("rt.log").count("end ecma_low"), 1, "how often the other crate was built")


def builds_side_by_side(trial):
    """Crates that don't wait for one another are built side by side, that with the longest chain behind it first."""
    trial.call("tools/build", "--jobs", "2", "ecma_front_cli", SLOW="0.5")
    expect(trial.read("rt.log").split()[0:4:2], ["begin", "begin"], "two that began before one ended")
    shutil.rmtree(f"{trial.root}/crates/ecma_low/out")
    shutil.rmtree(f"{trial.root}/crates/ecma_side/out")
    trial.write("rt.log", "")
    trial.call("tools/build", "--jobs", "1", "ecma_low", "ecma_side", "test_lex_answers")
    expect(trial.read("rt.log").split()[1:6:4], ["ecma_side", "ecma_low"], "what began first")


def keeps_what_is_proved(trial):
    """An interrupt ends the build, and leaves what is proved."""
    how = {"stdin": subprocess.DEVNULL, "stdout": subprocess.PIPE, "stderr": subprocess.PIPE, "text": True, "start_new_session": True}
    # where these tests run in the background, interrupts are ignored
    how["preexec_fn"] = lambda: signal.signal(signal.SIGINT, signal.SIG_DFL)
    started = subprocess.Popen([f"{trial.root}/ecma-front"], env=trial.environment(SLOW="1"), **how)
    for _ in range(200):
        time.sleep(0.05)
        if "begin ecma_front_cli" in trial.read("rt.log"):
            break
    os.killpg(started.pid, signal.SIGINT)
    out, _ = started.communicate(timeout=30)
    expect(out, "", "the output")
    expect(started.returncode in (3, -signal.SIGINT, 130), True, f"the status {started.returncode}")
    expect(trial.read("rt.log").count("end ecma_front_cli"), 0, "what had not ended")
    expect(trial.call("ecma-front")[0], 7, "a run behind it")
    expect([trial.read("rt.log").count(f"end {it}") for it in ("ecma_low", "ecma_side", "ecma_front_cli")], [1, 1, 1], "how often each ended")


def on_terminal(trial, *words, **more):
    """What a script of the copy says where standard error is a terminal."""
    ours, theirs = pty.openpty()
    with open(os.devnull) as nothing:
        subprocess.run([f"{trial.root}/{words[0]}", *words[1:]], stdin=nothing, stdout=subprocess.DEVNULL, stderr=theirs, env=trial.environment(**more), timeout=60)
    os.close(theirs)
    said = b""
    try:
        while part := os.read(ours, 4096):
            said += part
    except OSError:
        pass
    os.close(ours)
    return said.decode()


def tells_of_changed_sources(trial):
    """On a terminal one line says that the sources have changed since; elsewhere nothing is said, and the release runs all the same."""
    trial.release()
    expect(on_terminal(trial, "ecma-front"), "", "what is said of the same sources")
    trial.change()
    expect(trial.call("ecma-front", "--minify", "a b"), RAN, "a run")
    said = on_terminal(trial, "ecma-front")
    expect_in("this is release 1.2.3; the sources have changed since", said, "what is said")
    expect(said.count("\n"), 1, "lines that are said")


def tells_progress_in_one_line(trial):
    """On a terminal the build tells how far it is in one line."""
    said = on_terminal(trial, "ecma-front", SLOW="0.3")
    expect_in("/3 crates, ", said, "what is said")
    expect_in(" running, about a minute left", said, "what is said")
    expect(said.count("\n"), 0, "lines that are said")


def is_fresh_while_nothing_changed(trial):
    """--fresh and --check say yes of the release that was just made, and no where a source below changed."""
    trial.release()
    expect(trial.call("tools/release", "--fresh"), (0, "release 1.2.3 is of these sources\n", ""), "--fresh")
    status, out, _ = trial.call("tools/release", "--check")
    expect((status, out.count(" is what these sources build")), (0, 3), "--check")
    trial.change()
    for way in ("--fresh", "--check"):
        status, out, _ = trial.call("tools/release", way)
        expect(status, 1, way)
        expect(out.count(" is of other sources"), 3, way)
    expect(trial.read("rt.log"), "", "what was built")


def is_of_what_it_reads(trial):
    """The sum goes over sources, definitions, proofs and lines of crates.txt, of this crate and those below it alone."""
    trial.release()
    changes = (
        ("crates/ecma_side/specs/Words.antt", "-- a definition\n", 2),
        ("crates/ecma_side/proofs/F/Answers.antt", "-- a proof\n", 2),
        ("crates/ecma_side/data/x.rows", "a row\n", 0),
        ("crates/test_lex_answers/src/more.rt", "more\n", 1),
        ("crates.txt", CRATES.replace("test_lex_answers: ecma_low", "test_lex_answers: ecma_low ecma_side"), 1),
        ("crates.txt", CRATES.replace("# libraries", "# Libraries"), 0),
    )
    for name, text, count in changes:
        before = trial.read(f"repository/{name}")
        trial.write(f"repository/{name}", text)
        expect(trial.call("tools/release", "--fresh")[1].count(" is of other sources"), count, name)
        if before:
            trial.write(f"repository/{name}", before)
        else:
            os.remove(f"{trial.root}/{name}")


def compares_what_is_built(trial):
    """--built compares what stands in out/ with a release of these sources, byte for byte, and says no of a release of others, unless
    that says that the sources are ahead."""
    trial.release()
    expect(trial.call("tools/release", "--built")[0], 0, "the same programs")
    with open(f"{trial.root}/crates/ecma_front_cli/out/ecma_front_cli", "a") as it:
        it.write("# otherwise\n")
    status, out, _ = trial.call("tools/release", "--built")
    expect(status, 1, "another program of the same sources")
    expect_in("release/ecma-front IS NOT what crates/*/out has", out, "what is said")
    trial.change()
    status, out, _ = trial.call("tools/release", "--built")
    expect((status, out.count("\n")), (1, 1), "a release of other sources")
    expect_in("release/ecma-front is of other sources", out, "what is said")
    trial.call("tools/release", "--ahead", "words are read")
    expect(trial.call("tools/release", "--built")[0], 0, "a release that the sources are ahead of")


def forge(trial):
    """Puts another program into release/ and out/, where all that stands beside it names it."""
    text = "#!/bin/sh\necho forged\n"
    own = hashlib.sha256(text.encode()).hexdigest()
    listed = trial.read("repository/release/programs")
    for program, crate in PROGRAMS.items():
        trial.write(f"repository/release/{program}", text, True)
        trial.write(f"repository/crates/{crate}/out/{crate}", text, True)
        sources = trial.read(f"repository/crates/{crate}/out/built").split(" ")[0]
        trial.write(f"repository/crates/{crate}/out/built", f"{sources} {own}")
        row = next(it for it in listed.splitlines() if it.startswith(f"{program} "))
        listed = listed.replace(row, f"{row.rsplit(' ', 1)[0]} {own}")
    trial.write("repository/release/programs", listed)


def believes_nothing_in_out(trial):
    """What stands in out/ is not believed to be built of these sources, whatever names it there: it is proved here."""
    trial.release()
    forge(trial)
    status, out, _ = trial.call("tools/release", "--check")
    expect((status, out.count(" IS NOT what these sources build")), (1, 3), "tools/release --check")
    expect(trial.call("tools/build", "--check", "ecma_front_cli")[0], 1, "tools/build --check")
    status, out, _ = trial.call("ecma-front", "--minify", "a b", ECMA_FRONT="build")
    expect((status, out), RAN[:2], "ECMA_FRONT=build")
    expect(trial.call("tools/build", "--check", "ecma_front_cli"), (0, "", ""), "tools/build --check once it is built")
    expect(trial.call("tools/release", "--check")[0], 1, "tools/release --check once it is built")


def records_outside(trial):
    """What was built is recorded where no commit reaches: a folder in the repository, or one that others write to, isn't used."""
    trial.call("tools/build", "ecma_low")
    expect(trial.call("tools/build", "--check", "ecma_low")[0], 0, "what was built")
    within = {"XDG_CACHE_HOME": f"{trial.root}/cache"}
    expect(trial.call("tools/build", "ecma_low", **within)[0], 0, "with a record in the repository")
    expect(trial.call("tools/build", "--check", "ecma_low", **within)[0], 1, "with a record in the repository")
    os.chmod(f"{trial.folder}/.cache/ecma-front/built", 0o777)
    expect(trial.call("tools/build", "--check", "ecma_low")[0], 1, "where others may write the record")
    os.chmod(f"{trial.folder}/.cache/ecma-front/built", 0o700)
    trial.write("repository/crates/ecma_low/out/rlib/ecma_low.rlib/more", "forged\n")
    status, _, err = trial.call("tools/build", "--check", "ecma_low")
    expect((status, err), (1, "tools/build: ecma_low is not built of these sources\n"), "another library")


def refuses_what_git_tracks(trial):
    """Where git tracks a file of a folder out/, nothing is built and no release is made, checked or landed."""
    trial.release()
    shutil.rmtree(f"{trial.root}/release/out", ignore_errors=True)
    git = ["git", "-C", trial.root, "-c", "init.defaultBranch=main"]
    how = {"check": True, "env": trial.environment(), "stdout": subprocess.DEVNULL}
    subprocess.run([*git, "init", "-q"], **how)
    expect(trial.call("tools/untracked"), (0, "", ""), "where git tracks none")
    subprocess.run([*git, "add", "-f", "crates/ecma_low/out"], **how)
    ways = (["build", "ecma_low"], ["build", "--check", "ecma_low"], ["release"], *(["release", it] for it in ("--check", "--built", "--landing", "--fresh")))
    for name, *words in ways:
        status, out, err = trial.call(f"tools/{name}", *words)
        expect((status, out), (2, ""), f"tools/{name} {words}")
        expect_in("crates/ecma_low/out/rlib/ecma_low.rlib/format is tracked by git", err, f"tools/{name} {words}")
    status, out, err = trial.call("ecma-front", ECMA_FRONT="build")
    expect((status, out), (3, ""), "ECMA_FRONT=build")
    expect_in("is tracked by git", err, "ECMA_FRONT=build")
    expect(trial.call("tools/untracked")[0], 1, "tools/untracked")
    expect(trial.read("rt.log"), "", "what was built")


def lands_with_its_sources(trial):
    """A release lands with the sources, the toolchain and the version that it is of, and each file is the one that it names."""
    trial.release()
    right = (0, "release 1.2.3 is of these sources and this toolchain\n", "")
    expect(trial.call("tools/release", "--landing"), right, "a new release")
    status, out, _ = trial.call("tools/release", "--landing", KIT="another")
    expect((status, out.count("is by pretended-kit, and rt is another")), (1, 3), "another toolchain")
    changes = (
        ("crates/ecma_side/src/lib.rt", "another text\n", 1, "release/ecma-front is of other sources"),
        ("release/more", "more\n", 1, "release/more is not named by release/programs"),
        ("CHANGELOG.md", "# Changes\n\n## 1.3.0\n", 1, "CHANGELOG.md has version 1.3.0 first, and the release is 1.2.3"),
        ("release/ecma-front", "#!/bin/true\n", 1, "release/ecma-front is not the file that release/programs names"),
        ("release/programs", trial.read("repository/release/programs").replace("\n", "\r\n"), 2, "has CR LF line ends"),
        ("release/programs", trial.read("repository/release/programs")[:-1], 2, "doesn't end with a line feed"),
        ("release/programs", trial.read("repository/release/programs").replace("kit", "KIT"), 2, "isn't as tools/release writes it"),
        ("release/programs", trial.read("repository/release/programs").replace("machine", "ahead why\nmachine"), 2, "isn't as"),
    )
    for name, text, wanted, part in changes:
        before = trial.read(f"repository/{name}")
        trial.write(f"repository/{name}", text, True)
        status, out, err = trial.call("tools/release", "--landing")
        expect(status, wanted, name)
        expect_in(part, out + err, name)
        trial.write(f"repository/{name}", before, True) if before else os.remove(f"{trial.root}/{name}")
    os.chmod(f"{trial.root}/release/ecma-front", 0o644)
    status, out, _ = trial.call("tools/release", "--landing")
    expect((status, out), (1, "release/ecma-front has no run bit\n"), "without its run bit")


def tells_what_is_stale(trial):
    """Sources may be ahead of a release that says since when and why, until a version lands; its files are summed up all the same."""
    trial.release()
    status, _, err = trial.call("tools/release", "--ahead", "words are read")
    expect((status, err), (2, "tools/release: the release is of these sources, so they are not ahead of it\n"), "a release of these sources")
    trial.change()
    expect(trial.call("tools/release", "--ahead", "two\nlines")[0], 2, "a reason of two lines")
    expect(trial.call("tools/release", "--ahead", "words are read"), (0, "", ""), "saying so")
    since = time.strftime("%Y-%m-%d")
    said = f"stale: the sources are ahead of release 1.2.3 since {since}: words are read (ecma-front, ecma-lexical-answers, ecma-program-answers)\n"
    expect(trial.call("tools/release", "--landing"), (0, said, ""), "sources that are ahead")
    expect(trial.call("tools/release", "--landing", KIT="another")[0], 0, "another toolchain")
    listed = trial.read("repository/release/programs")
    trial.write("repository/release/programs", listed.replace(since, "2020-02-02"))
    trial.call("tools/release", "--ahead", "words and names are read")
    expect_in("ahead 2020-02-02 words and names are read\n", trial.read("repository/release/programs"), "saying so again")
    trial.write("repository/CHANGELOG.md", "# Changes\n\n## Next\n\n## 1.2.3\n")
    expect(trial.call("tools/release", "--landing")[0], 0, "a heading without a version")
    trial.write("repository/CHANGELOG.md", "# Changes\n\n## 1.3.0\n\n## 1.2.3\n")
    expect(trial.call("tools/release", "--landing")[0], 1, "the landing of a version")
    expect(trial.call("ecma-front", "--minify", "a b"), RAN, "a run")
    change_a_byte(f"{trial.root}/release/ecma-front")
    expect_in("is not the file that release/programs names", trial.call("tools/release", "--landing")[1], "another file")
    trial.release()
    expect(trial.read("repository/release/programs").count("\nahead "), 0, "the new release")
    trial.write("repository/release/programs", trial.read("repository/release/programs").replace("x86_64 Linux\n", "x86_64 Linux\nahead 2020-02-02 why\n"))
    status, out, _ = trial.call("tools/release", "--landing")
    expect((status, out.count("they are not")), (1, 1), "sources that are not ahead")


def builds_by_all_that_is_read(trial):
    """What was built by another version of the toolchain, or with another line of crates.txt, is built again."""
    trial.call("tools/build", "ecma_front_cli")
    asked = "tools/build", "--check", "ecma_front_cli"
    expect(trial.call(*asked)[0], 0, "what was built")
    expect(trial.call(*asked, KIT="another")[0], 1, "another toolchain")
    trial.write("repository/crates.txt", CRATES.replace("ecma_front_cli: ecma_low ecma_side std", "ecma_front_cli: ecma_low ecma_side"))
    expect(trial.call(*asked)[0], 1, "a line without a library of the toolchain")
    trial.write("repository/crates.txt", CRATES.replace("ecma_low:", "ecma_low staticlib:"))
    expect(trial.call(*asked)[0], 1, "a line of a crate below with another word")
    trial.write("repository/crates.txt", CRATES.replace("ecma_side std", "ecma_side  std # as before"))
    expect(trial.call(*asked)[0], 0, "the same line")


def builds_what_it_read(trial):
    """Where the sources change while they are built, what is built of them counts for nothing."""
    status, _, err = trial.call("tools/build", "--jobs", "1", "ecma_front_cli", EDITING="ecma_side")
    expect(status, 1, "a build while a text changes")
    expect_in("ecma_low is not built", err, "what is said")
    expect_in("the sources changed while they were built", trial.read("repository/crates/ecma_front_cli/out/build.log"), "the log")
    expect(trial.call("tools/build", "--check", "ecma_front_cli")[0], 1, "what is built")


def follows_links(trial):
    """A released program that is a link is the file behind it: where that changes it is refused, also where it was checked before."""
    trial.release()
    os.rename(f"{trial.root}/release/ecma-front", f"{trial.folder}/elsewhere")
    os.symlink(f"{trial.folder}/elsewhere", f"{trial.root}/release/ecma-front")
    expect(trial.call("ecma-front", "--minify", "a b"), RAN, "a run")
    change_a_byte(f"{trial.folder}/elsewhere")
    status, out, err = trial.call("ecma-front", "--minify")
    expect((status, out), (3, ""), "a run of another file")
    expect_in("release/ecma-front is not the released program", err, "what is said")


def says_what_a_release_is(trial):
    """A release that lost its run bit or the form of its list says so with status 3."""
    trial.release()
    listed = trial.read("repository/release/programs")
    lists = (
        (listed.replace("\n", "\r\n"), "release/programs has CR LF line ends"),
        (listed[:-1], "release/programs doesn't end with a line feed"),
        (listed.split("ecma-front ")[0], "release/programs doesn't name the program"),
        ("", "release/programs doesn't name the program"),
    )
    for text, part in lists:
        trial.write("repository/release/programs", text)
        status, out, err = trial.call("ecma-front", "--minify")
        expect((status, out, err.count("\n")), (3, "", 1), part)
        expect_in(part, err, part)
    trial.write("repository/release/programs", listed)
    os.chmod(f"{trial.root}/release/ecma-front", 0o644)
    status, out, err = trial.call("ecma-front", "--minify")
    expect((status, out, err.count("\n"), trial.read("ran")), (3, "", 1, ""), "without its run bit")
    expect_in("release/ecma-front has no run bit", err, "without its run bit")


def says_what_it_needs(trial):
    """A program that needs a newer C library than this machine has, or a loader that isn't there, says so with status 3."""
    trial.write("program", PROGRAM + "# GLIBC_2.34 GLIBC_2.5 GLIBC_2.2.5\n")
    trial.release()
    trial.write("bin/getconf", "#!/bin/sh\necho glibc 2.31\n", True)
    status, out, err = trial.call("ecma-front")
    expect((status, out, trial.read("ran")), (3, "", ""), "an older C library")
    expect(err, "ecma-front: release/ecma-front needs glibc 2.34 or newer, and the C library of this machine is glibc 2.31\n", "what is said")
    trial.write("bin/getconf", "#!/bin/sh\nexit 1\n", True)
    expect(trial.call("ecma-front", "--minify", "a b"), RAN, "a C library that doesn't tell its version")
    trial.write("program", PROGRAM + "# /lib64/ld-linux-nowhere.so.2 GLIBC_2.34\n")
    shutil.rmtree(f"{trial.root}/crates/ecma_front_cli/out")
    trial.release()
    status, out, err = trial.call("ecma-front")
    expect((status, out, trial.read("ran")), (3, "", ""), "no such loader")
    expect_in("needs the C library glibc 2.34, and this machine has no /lib64/ld-linux-nowhere.so.2", err, "what is said")


def says_what_does_not_run(trial):
    """A program that the machine doesn't run says so with status 3."""
    trial.write("program", "#!/nowhere/sh\n")
    trial.release()
    status, out, err = trial.call("ecma-front")
    expect((status, out), (3, ""), "a run")
    expect_in("ecma-front: release/ecma-front can't be run on this machine", err, "what is said")


def checks_what_is_generated(trial):
    """tools/tree/check says no of files that are others, and of a generator that fails or writes none."""
    written = "crates/tree_spec/specs/Tree.antt"
    for name in ("tree_spec", "tree_nodes", "tree_nesting", "tree_visit", "tree_visit_mut", "ecma_ast", "tree_same", "judge_is_module"):
        trial.write(f"repository/crates/{name}/src/lib.rt", "a text\n")
    trial.write(f"repository/{written}", "a tree\n")
    for text, end, wanted in (("a tree\n", 0, 0), ("a tree\n", 1, 1), ("another\n", 0, 1), (None, 0, 1)):
        lines = f"import os, sys\nos.makedirs(sys.argv[1] + '/crates/tree_spec/specs')\nopen(sys.argv[1] + '/{written}', 'w').write({text!r})\nprint({written!r})\n"
        trial.write("repository/tools/tree/generate.py", (lines if text else "import sys\n") + f"sys.exit({end})\n")
        expect(trial.call("tools/tree/check")[0], wanted, f"a generator that writes {text!r} and ends with {end}")


def sums_up_all_or_nothing(trial):
    """tools/sources has no answer where a file can't be summed up, or where a crate has none."""
    expect(trial.call("tools/sources", "ecma_low")[0], 0, "a sum")
    real = shutil.which("sha256sum")
    trial.write("bin/sha256sum", f'#!/bin/sh\n[ $# = 0 ] || exit 1\nexec {real} "$@"\n', True)
    status, out, _ = trial.call("tools/sources", "ecma_low")
    expect((status != 0, out), (True, ""), "files that can't be summed up")
    trial.write("repository/crates.txt", f"{CRATES}ecma_gone:\n")
    expect(trial.call("tools/sources", "ecma_gone"), (2, "", "tools/sources: ecma_gone has no files\n"), "a crate without files")


def has_the_status_of_pipes(_trial):
    """Each shell script of the repository fails where a part of a pipe does."""
    names = [f"{ROOT}/ecma-front", *(it for part in (".ci", "bench", "tests", "tools") for it in glob.glob(f"{ROOT}/{part}/**", recursive=True))]
    scripts = {}
    for name in filter(os.path.isfile, names):
        with open(name, encoding="utf-8", errors="replace") as it:
            text = it.read()
        if text.startswith("#!") and text.partition("\n")[0].endswith("sh"):
            scripts[os.path.relpath(name, ROOT)] = text
    expect({"ecma-front", ".ci/run", "tools/sources", "tools/tree/check"} <= {*scripts}, True, "the scripts")
    expect([name for name, text in scripts.items() if not re.search(r"^set -\w*o pipefail$", text, re.M)], [], "scripts without pipefail")


def has_a_version(trial):
    """A release has the version that stands first in CHANGELOG.md, and without one none is made."""
    trial.release()
    expect_in("version 1.2.3\n", trial.read("repository/release/programs"), "the list")
    trial.write("repository/CHANGELOG.md", "# Changes\n")
    expect(trial.call("tools/release")[0], 2, "without a version")


def gate(trial, wanted, what, **more):
    """Runs the gate, which has this status and this last line, and returns what it says."""
    status, out, err = trial.call(".ci/run", **more)
    expect((status, out.splitlines()[-1]), wanted, what)
    return out + err


def with_a_gate(trial):
    """Makes a release, and what the gate calls beside it."""
    trial.release()
    for name in ("tools/tree/check", "tools/crates", "tools/pages", "tools/tidy", "tools/lemmas", ".ci/edits"):
        trial.write(f"repository/{name}", f'#!/bin/sh\n[ "${{STALE-}}" != {name} ]\n', True)
    trial.write("repository/test", '#!/bin/sh\necho "$* ${WRONG:-0}"\necho "5 passed, ${WRONG:-0} failed"\n[ "${WRONG:-0}" = 0 ]\n', True)


def adds_up_the_gate(trial):
    """The gate counts what it looks at first, what rt ci and ./test count, and the release, and fails where one of them does."""
    with_a_gate(trial)
    said = gate(trial, (0, "17 passed, 0 failed"), "all is well")
    expect_in("what the gate says\n3 passed", said, "what rt ci says")
    expect_in("--built 0\n5 passed", said, "what ./test says")
    expect_in("release 1.2.3 is of these sources", said, "what is said of the release")
    for name in ("tools/crates", ".ci/edits"):
        gate(trial, (1, "16 passed, 1 failed"), f"{name} finds something", STALE=name)
    gate(trial, (1, "17 passed, 2 failed"), "tests that fail", WRONG="2")
    gate(trial, (1, "11 passed, 1 failed"), "a proof that fails", REFUSED="1")
    gate(trial, (1, "16 passed, 1 failed"), "another program of the same sources", REBUILT="otherwise")
    shutil.rmtree(f"{trial.root}/release")
    gate(trial, (1, "15 passed, 2 failed"), "no release")


def sums_up_the_release(trial):
    """The gate sums up the released files whatever else is so, and fails where they are of other sources, unless the release says it."""
    with_a_gate(trial)
    said = gate(trial, (1, "15 passed, 2 failed"), "a release by another toolchain", KIT="another")
    expect_in("release/ecma-front is by pretended-kit, and rt is another", said, "what is said")
    trial.change()
    gate(trial, (1, "15 passed, 2 failed"), "a release of other sources")
    trial.call("tools/release", "--ahead", "words are read")
    expect_in("stale: the sources are ahead of release 1.2.3", gate(trial, (0, "17 passed, 0 failed"), "sources that are ahead"), "what is said")
    shutil.copy("/bin/true", f"{trial.root}/release/ecma-front")
    gate(trial, (1, "16 passed, 1 failed"), "another program beside sources that are ahead")
    gate(trial, (1, "10 passed, 2 failed"), "another program, and a proof that fails", REFUSED="1")


def tests_what_it_built(trial):
    """The gate tests the programs that its own proofs built, and none that stood there before or that git brought."""
    with_a_gate(trial)
    said = gate(trial, (1, "16 passed, 4 failed"), "proofs that build nothing", UNMADE="1")
    expect_in("rt ci has not built ecma_front_cli", said, "what is said")
    gate(trial, (0, "17 passed, 0 failed"), "proofs that build all")
    git = ["git", "-C", trial.root, "-c", "init.defaultBranch=main"]
    how = {"check": True, "env": trial.environment(), "stdout": subprocess.DEVNULL}
    subprocess.run([*git, "init", "-q"], **how)
    gate(trial, (0, "17 passed, 0 failed"), "files of out/ that git doesn't track")
    subprocess.run([*git, "add", "-f", "crates/ecma_front_cli/out"], **how)
    said = gate(trial, (1, "14 passed, 3 failed"), "a file of out/ that git tracks")
    expect_in("crates/ecma_front_cli/out/ecma_front_cli is tracked by git", said, "what is said")


TRIALS = (
    runs_at_once, has_room, checks_once, remembers_no_new_file, refuses_a_changed_byte, refuses_an_unnamed_program, builds_without_release,
    builds_where_a_file_is_gone, builds_when_asked, builds_on_other_machines, needs_the_toolchain, tells_what_is_not_built,
    builds_side_by_side, keeps_what_is_proved, tells_of_changed_sources, tells_progress_in_one_line, is_fresh_while_nothing_changed,
    is_of_what_it_reads, compares_what_is_built, has_a_version, adds_up_the_gate, believes_nothing_in_out, records_outside,
    refuses_what_git_tracks, lands_with_its_sources, tells_what_is_stale, builds_by_all_that_is_read, builds_what_it_read, follows_links,
    says_what_a_release_is, says_what_it_needs, says_what_does_not_run, checks_what_is_generated, sums_up_all_or_nothing,
    has_the_status_of_pipes, sums_up_the_release, tests_what_it_built,
)  # fmt: skip


def outcome(trial):
    """What is wrong with a trial, or nothing."""
    with tempfile.TemporaryDirectory(prefix="release-") as folder:
        try:
            trial(Trial(folder))
        except (AssertionError, OSError, subprocess.TimeoutExpired) as wrong:
            return str(wrong)
    return None


def told(future):
    """A test that ends as a trial did."""
    return future.result()
    yield


def tests(paths):
    """The tests of the release, each with its name."""
    pool = concurrent.futures.ThreadPoolExecutor(len(os.sched_getaffinity(0)))
    return [(f"release: {it.__name__}", told(pool.submit(functools.partial(outcome, it)))) for it in TRIALS]

#!/usr/bin/env python3
"""What git leaves out: asks it about the cases in crates/test_ignore/stdin, and writes its answers to crates/test_ignore/stdout.

    tools/rows/by_git.py            writes the answers
    tools/rows/by_git.py --check    tells where the answers that stand there are others

A case is lines `+RULE`, which are those of a .gitignore file, and `?PATH`, of which those that end with a slash are folders; an empty line ends it. git is
asked in an empty folder of its own, in which each path is made before, and without settings; of a folder it is asked without the slash, which it would
take for a part of the name.
"""
import os
import pathlib
import shutil
import subprocess
import sys
import tempfile

CRATE = pathlib.Path(__file__).resolve().parents[2] / "crates/test_ignore"


def cases(text):
    """Pairs of rules and paths, one for each run of lines without an empty one."""
    for block in text.split("\n\n"):
        lines = [line for line in block.split("\n") if line]
        yield [line[1:] for line in lines if line[0] == "+"], [line[1:] for line in lines if line[0] == "?"]


def answers(rules, paths):
    """`out` or `kept` for each path."""
    with tempfile.TemporaryDirectory() as folder:
        env = {"PATH": os.environ["PATH"], "HOME": folder, "GIT_CONFIG_NOSYSTEM": "1"}

        def git(*words, **more):
            return subprocess.run(["git", "-C", folder, *words], env=env, capture_output=True, text=True, **more)

        git("init", "-q", "--template=")
        with open(os.path.join(folder, ".gitignore"), "w") as file:
            file.write("".join(rule + "\n" for rule in rules))
        for path in paths:
            target = os.path.join(folder, path)
            os.makedirs(target if path.endswith("/") else os.path.dirname(target), exist_ok=True)
            if not path.endswith("/"):
                open(target, "a").close()
            status = git("check-ignore", "-q", "--no-index", "--", path.rstrip("/")).returncode
            shutil.rmtree(os.path.join(folder, path.split("/")[0])) if "/" in path else os.remove(target)
            yield {0: "out", 1: "kept"}[status]


def main():
    told = "".join(answer + "\n" for rules, paths in cases((CRATE / "stdin").read_text()) for answer in answers(rules, paths))
    if sys.argv[1:] == ["--check"]:
        sys.exit(0 if told == (CRATE / "stdout").read_text() else "crates/test_ignore/stdout is not what git answers")
    (CRATE / "stdout").write_text(told)


main()

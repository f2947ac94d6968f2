#!/usr/bin/env python3
"""Judges bodies over the real functions of a crate: python3 tools/plant/over.py [--each N] [--batch N] [--minutes N] CRATE

`rt plant` tries bodies that give up first and all others after these, so that in a large crate its time ends before a body over the real function
(another argument, called twice, another answer or field behind it) is judged. This takes the same bodies, as the kit's own makers write them, the
first that compile of each function (`--each`, 3 if left out), and judges many in one check (`--batch`, 60 if left out), over the crate's kept work, each
function beside its unchanged call.
It prints each body that wasn't refused, and counts them:

  proves      the body meets the contract: strengthen that, unless the body is right
  elsewhere   what a function below asks of its callers was not proved, so the body is no fair test
  not-judged  the tactics met a limit, or the unchanged call was not proved
  not-run     the minutes (60 if left out) were over

It checks the crate first, as `rt check` does; run that alone before it where nothing of the crate is kept.
"""
import argparse
import collections
import contextlib
import importlib.machinery
import io
import os
import re
import shutil
import sys
import tempfile
import types

ROOT = os.path.dirname(os.path.dirname(os.path.dirname(os.path.abspath(__file__))))


def load(file):
    """The kit's program, as a module."""
    module = types.ModuleType("plant")
    module.__file__ = file
    importlib.machinery.SourceFileLoader("plant", file).exec_module(module)
    return module


def checked(plant, name):
    """The crate, its sources, and what its check said of each function."""
    folder = f"{ROOT}/crates/{name}"
    os.chdir(folder)
    with contextlib.redirect_stdout(io.StringIO()) as said:
        plant.rt.main("check")
    crate = plant.rt.Crate(folder, plant.rt.root_above(folder) or folder, {})
    crate.out = io.StringIO()
    lines = dict(re.findall(rf"(?m)^fn ({name}::\S+): (.*)", said.getvalue()))
    source = plant.bodies.Source(folder)
    source.read("src/main.rt" if crate.is_program else "src/lib.rt")
    source.read_specs()
    for library, rlib in plant.libraries(crate).items():
        if library not in (*plant.rt.SEALED, "libc", "os"):
            source.add_library(library, f"{rlib}/lang")
    return crate, source, lines


def called(plant, crate, source, lines):
    """The functions that a body can call: proved, and no methods of traits."""
    functions, _ = plant.chosen(crate, source, lines, "")
    lacking = [it.split("::") for it, how in lines.items() if not how.startswith("proved")]
    lacking = {("".join(it[1:-1][-1:]).partition("+")[0], it[-1]) for it in lacking}
    is_plain = lambda f: all(re.fullmatch(r"[a-z]\w*|_\w+", n) for n, _ in f.params)
    return [f for f in functions if not f.in_trait and is_plain(f) and (f.owner, f.name) not in lacking]


def made(plant, copy, functions, each):
    """Up to `each` bodies of each function that compile, and the unchanged calls."""
    bodies, count = plant.bodies, iter(range(1 << 30))
    of = {}
    for f in functions:
        maker = bodies.Bodies(copy.source, f)
        fails = next((it.text for it in maker.giving_up() if it.kind == "failure"), None)
        over = maker.over_the_real_one(fails)[: 2 * each]
        of[f] = [plant.Plant(f, it, next(count)) for it in over]
    good = {*copy.compiled([it for all_of in of.values() for it in all_of])}
    found = [it for all_of in of.values() for it in [it for it in all_of if it in good][:each]]
    calls = {f: plant.Plant(f, bodies.Body(f.call()), next(count)) for f in {it.f for it in found}}
    return found, calls


def judge(plant, copy, found, calls):
    """Gives each body its kind. One whose unchanged call isn't proved is not judged."""
    order = sorted([*found, *calls.values()], key=lambda it: (it.f.file, it.f.line))
    copy.write(order)
    copy.judge(order)
    for it in found:
        if calls[it.f].kind != "proves" and it.kind != "not-run":
            it.kind, it.why = "not-judged", "the unchanged call was not proved"


def main():
    words = argparse.ArgumentParser(description=__doc__.splitlines()[0])
    words.add_argument("--each", type=int, default=3)
    words.add_argument("--batch", type=int, default=60)
    words.add_argument("--minutes", type=int, default=60)
    words.add_argument("crate")
    asked = words.parse_args()
    plant = load(os.path.join(os.path.dirname(os.path.realpath(shutil.which("rt"))), "rt-plant"))
    plant.BATCH, plant.SECONDS = asked.batch, 60 * asked.minutes
    crate, source, lines = checked(plant, asked.crate)
    while any(plant.Plant.stem.encode() in it for it in source.data.values()):
        plant.Plant.stem += "_"
    with tempfile.TemporaryDirectory(prefix="plants-") as folder:
        copy = plant.Copy(crate, source, folder, ["--jobs", "1"], 60 * asked.minutes)
        found, calls = made(plant, copy, called(plant, crate, source, lines), asked.each)
        judge(plant, copy, found, calls)
    for it in found:
        if it.kind != "refused":
            print(f"{it.kind:<10}  {it.f.shown}: {{ {it.body} }}" + f"  ({it.why})" * bool(it.why))
    counts = collections.Counter(it.kind for it in found)
    print(f"bodies crate={asked.crate} functions={len(calls)} " + " ".join(f"{kind}={counts[kind]}" for kind in sorted(counts)))


if __name__ == "__main__":
    sys.dont_write_bytecode = True
    main()

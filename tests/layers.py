"""Tests what `tools/crates --check` tells of crates that don't stand where their names say, or aren't what these say."""
import contextlib
import importlib.machinery
import importlib.util
import io
import os
import tempfile

TOOL = f"{os.path.dirname(os.path.dirname(os.path.realpath(__file__)))}/tools/crates"
LISTED = "# What is said: low_*\nlow_spec:\nlow_laws: low_spec\n\n# What is done: high_*\nhigh_code: low_spec low_laws\n"
LAW = "//! What holds.\n\n/// Law: one.\npub fn one_law()\n    ensures { One }\n{}\n"
CODE = "//! What is done.\n\npub fn done() {\n    work()\n}\n"
# crates that are as their names say
FILES = {
    "crates.txt": LISTED,
    "crates/low_spec/src/lib.rt": "//! What is said.\n",
    "crates/low_laws/src/lib.rt": LAW,
    "crates/high_code/src/lib.rt": CODE,
}
# what is another file there, and what is told then
FAULTS = (
    ("all is well", {}, ""),
    ("crates below no heading", {"crates.txt": LISTED.partition("\n")[2]}, "low_spec stands below no heading of crates.txt\nlow_laws stands below no heading of crates.txt"),
    ("a name that fits another heading", {"crates.txt": LISTED.replace("high_*", "top high")}, "high_code stands below the heading `What is done`, whose crates are top high"),
    ("a use of what stands later", {"crates.txt": LISTED.replace("low_spec:", "low_spec: high_code", 1)}, "low_spec uses high_code, which crates.txt has after it"),
    ("a use of itself", {"crates.txt": LISTED.replace("low_spec:", "low_spec: low_spec", 1)}, "low_spec uses low_spec, which crates.txt has after it"),
    ("laws with code", {"crates/low_laws/src/lib.rt": LAW + CODE}, "low_laws has code, which its name denies"),
    ("laws with code in a folder", {"crates/low_laws/src/part/more.rt": CODE}, "low_laws has code, which its name denies"),
    ("definitions with code", {"crates/low_spec/src/lib.rt": CODE}, "low_spec has code, which its name denies"),
    ("laws that are named as code", {"crates/high_code/src/lib.rt": LAW}, "high_code has no code, so its name ends with one of _spec, _laws, _proofs"),
    ("code that links laws", {"crates/high_code/src/lib.rt": f"pub use low_laws::one_law;\n{CODE}"}, "high_code links low_laws, a crate of laws"),
    (
        "a proof that names a library by its former name",
        {"crates/high_code/proofs/done/Answers.antt": "use Rattle.former.proofs.done.Goals as goal\n"},
        "crates/high_code/proofs/done/Answers.antt names former, which high_code doesn't use by crates.txt",
    ),
    ("code that cites laws", {"crates/high_code/src/lib.rt": f"ghost use Rattle.low_laws.specs.Laws.{{One}};\n{CODE}"}, ""),
)  # fmt: skip
STALE = "docs/CRATES.md is not what tools/crates writes: run it"


def write(folder, files):
    """Writes files below a folder."""
    for path, text in files.items():
        os.makedirs(os.path.dirname(f"{folder}/{path}"), exist_ok=True)
        with open(f"{folder}/{path}", "w", encoding="utf-8") as file:
            file.write(text)


def told(tool, before, after, wanted):
    """A test of what is told of some files, for which the page is written, once others have come."""
    with tempfile.TemporaryDirectory() as folder, contextlib.redirect_stdout(io.StringIO()) as said:
        tool.ROOT, tool.PAGE = folder, f"{folder}/docs/CRATES.md"
        write(folder, {"docs/CRATES.md": "", **FILES, **before})
        tool.main([])
        write(folder, after)
        status = tool.main(["--check"])
    found, expected = (said.getvalue().strip(), status), (wanted, 1 if wanted else 0)
    return None if found == expected else f"expected {expected!r}, got {found!r}"
    yield


def tests(_paths):
    """The tests of the tool, each with its name."""
    loader = importlib.machinery.SourceFileLoader("crates", TOOL)
    tool = importlib.util.module_from_spec(importlib.util.spec_from_loader("crates", loader))
    loader.exec_module(tool)
    cases = [(name, files, {}, wanted) for name, files, wanted in FAULTS]
    cases.append(("a crate that says something else than the page", {}, {"crates/low_spec/src/lib.rt": "//! What else is said.\n"}, STALE))
    cases.append(("a page that was changed by hand", {}, {"docs/CRATES.md": "# The crates\n"}, STALE))
    return [(f"tools/crates --check: {name}", told(tool, before, after, wanted)) for name, before, after, wanted in cases]

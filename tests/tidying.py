"""Tests which imports of definitions and proofs `tools/tidy` drops."""
import importlib.machinery
import importlib.util
import os

TOOL = f"{os.path.dirname(os.path.dirname(os.path.realpath(__file__)))}/tools/tidy"
# what is imported, the rest of the file, and what is left of the import
FILES = (
    ("use A.{one, two}", "f = one", "use A.{one}"),
    ("use A.{one}", "f = once", ""),
    ("use A.{one}", "-- of one\nf = 1", ""),
    ("use A.{one}", 'f = codes "one"', ""),
    ("use A.{one}", 'f = codes "--" ++ one', "use A.{one}"),
    ("use A.{one}", r'f = codes "\"" ++ one -- "', "use A.{one}"),
    ("use A.{one}", "f = λone. (one)", "use A.{one}"),
    ("use A.{one as two}", "f = two.first", "use A.{one as two}"),
    ("use A.{◌+◌, ◌-◌}", "f = a + b", "use A.{◌+◌}"),
    ("use A.{◌+◌}", "f = fold ◌+◌", "use A.{◌+◌}"),
    ("use A.{if◌then◌else◌}", "f = if b then a", ""),
    ("use A.{[], ◌∷◌}", "f [] = a", "use A.{[]}"),
    ("pub use A.{one}", "f = two", "pub use A.{one}"),
    ("use A.b.C as c", "f = two", "use A.b.C as c"),
)


def tidied(tool, imports, rest, left):
    """A test of what is left of one import."""
    found = tool.without_unused(f"{imports}\n\n{rest}\n")
    wanted = f"{left}\n\n{rest}\n" if left else f"\n{rest}\n"
    return None if found == wanted else f"expected {wanted!r}, got {found!r}"
    yield


def tests(_paths):
    """The tests of the tool, each with its name."""
    loader = importlib.machinery.SourceFileLoader("tidy", TOOL)
    tool = importlib.util.module_from_spec(importlib.util.spec_from_loader("tidy", loader))
    loader.exec_module(tool)
    return [(f"tools/tidy: {imports}, {rest!r}", tidied(tool, imports, rest, left)) for imports, rest, left in FILES]

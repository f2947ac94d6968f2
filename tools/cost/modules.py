#!/usr/bin/env python3
"""Where the time of a check went: python3 tools/cost/modules.py [--top N] CRATE..

Reads what `rt check` kept in crates/CRATE/out, and so wants a check from nothing: remove that folder, check, and ask here. What is kept of a
module is written as it ends, so the time between two files is about what the later module took. Prints for each crate the seconds by kind of
module, and the functions that took most.
"""
import argparse
import collections
import os
import re

ROOT = os.path.dirname(os.path.dirname(os.path.dirname(os.path.abspath(__file__))))
# Between two checks lies more than this many seconds.
APART = 400


def kept(crate):
    """The files that a check kept, in the order in which they were written: when, how many bytes, and the module."""
    found = []
    for at, _, names in os.walk(f"{ROOT}/crates/{crate}/out/incremental"):
        for name in names:
            told = os.stat(f"{at}/{name}")
            module = re.sub(r"\.(decls\.)?oantt$", "", name)
            module = re.sub(r"^Rattle-\w+?-(specs|proofs)\.", "", module)
            found.append((told.st_mtime, told.st_size, module))
    return sorted(found)


def tell(crate, most):
    kinds, functions = collections.defaultdict(lambda: [0.0, 0]), collections.defaultdict(float)
    before = None
    for when, size, module in kept(crate):
        took = when - before if before and when - before < APART else 0
        before = when
        function, _, kind = module.rpartition(".")
        own = kinds[re.sub(r"-.*", "", kind)]
        own[0], own[1] = own[0] + took, own[1] + size
        functions[function or "the crate itself"] += took
    whole = sum(it[0] for it in kinds.values())
    told = sorted(kinds.items(), key=lambda it: -it[1][0])[:8]
    print(f"{crate}: {whole:.0f} s; " + ", ".join(f"{kind} {took:.0f} s ({size / 1e6:.0f} MB)" for kind, (took, size) in told))
    for function, took in sorted(functions.items(), key=lambda it: -it[1])[:most]:
        print(f"  {took:6.1f} {function}")


def main():
    words = argparse.ArgumentParser(description=__doc__.splitlines()[0])
    words.add_argument("--top", type=int, default=12)
    words.add_argument("crates", nargs="+")
    asked = words.parse_args()
    for crate in asked.crates:
        tell(crate, asked.top)


if __name__ == "__main__":
    main()

#!/usr/bin/env python3
"""What the gate takes at least: python3 tools/cost/chain.py [--processors N] [--without CRATE]..

Reads crates.txt and the seconds that each crate's check took (seconds.txt beside this file, `CRATE SECONDS` a line; a crate that is not in it
counts as the middle one of those that are). The gate can't end before its longest chain of crates, each of which waits for the one before it,
nor before all seconds are shared among the processors. Prints both, with the chain; and how often the gate sums up the texts of a crate for one
round over all crates, since it does so anew for each path that leads to one.
"""
import argparse
import functools
import os
import statistics

HERE = os.path.dirname(os.path.abspath(__file__))
ROOT = os.path.dirname(os.path.dirname(HERE))


def rows():
    """The crates, with those that each uses."""
    found = {}
    with open(f"{ROOT}/crates.txt") as file:
        for line in file:
            name, _, uses = line.partition("#")[0].partition(":")
            if name.strip():
                found[name.split()[0]] = uses.split()
    return {name: [it for it in uses if it in found] for name, uses in found.items()}


def seconds():
    """What each crate's check took."""
    with open(f"{HERE}/seconds.txt") as file:
        return {line.split()[0]: float(line.split()[1]) for line in file if line.strip() and not line.startswith("#")}


def main():
    words = argparse.ArgumentParser(description=__doc__.splitlines()[0])
    words.add_argument("--processors", type=int, default=4)
    words.add_argument("--without", action="append", default=[])
    asked = words.parse_args()
    uses = {name: it for name, it in rows().items() if name not in asked.without}
    listed = seconds()
    middle = statistics.median(listed.values())
    took = {name: listed.get(name, middle) for name in uses}

    @functools.cache
    def chain(name):
        """When this crate has been checked, and the chain that ends with it."""
        before = max((chain(it) for it in uses[name] if it in uses), default=(0, ()))
        return before[0] + took[name], (*before[1], name)

    @functools.cache
    def sums(name):
        """How often texts are summed up for this crate: its own, and those of each library that it uses."""
        return 1 + sum(sums(it) for it in uses[name] if it in uses)

    longest, names = max(chain(it) for it in uses)
    whole = sum(took.values())
    print(f"{whole / 60:.0f} processor minutes; on {asked.processors} processors {whole / asked.processors / 60:.0f} minutes at least, and by the longest chain {longest / 60:.0f}")
    for name in names:
        print(f"{took[name]:6.0f} {name}")
    most = max(uses, key=sums)
    print(f"texts of crates are summed up {sum(sums(it) for it in uses)} times, most often for {most}: {sums(most)}")


if __name__ == "__main__":
    main()

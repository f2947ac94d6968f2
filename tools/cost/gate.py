#!/usr/bin/env python3
"""What the gate pays for some crates: python3 tools/cost/gate.py [--jobs N] [--room FOLDER] NAME..

Copies the repository, proves these crates with their tests and the libraries of it below them there from nothing, each by the commands that `rt ci`
runs (the libraries below as statements), and runs the programs and the tests. N processes work side by side, first on the crates with the longest
chain of others behind them; a check gets those that no other waits for. Prints the seconds of the processor that each crate took as it ends, and in
the end the sum of those that were named. Edits are not in it. With --room, the copy is made in that folder and stays there, and what an earlier call
proved in it is not proved again.

A virtual processor may do half as much in a second as a minute before, when others share the machine. So a loop of a million turns is timed every
15 seconds, and the sum is also told as it were had each second done as much as those of this run in which the loop was quickest (the twentieth part
of them), with what the loop took then, so that runs can be compared.
"""
import argparse
import importlib.machinery
import importlib.util
import os
import shutil
import subprocess
import sys
import tempfile
import threading
import time

import chain

ROOT = os.path.dirname(os.path.dirname(os.path.dirname(os.path.abspath(__file__))))


def load_rt():
    """The command `rt` as a module."""
    found = os.path.realpath(shutil.which("rt"))
    spec = importlib.util.spec_from_loader("rt", importlib.machinery.SourceFileLoader("rt", found))
    made = importlib.util.module_from_spec(spec)
    spec.loader.exec_module(made)
    return made


def prove(room, name, jobs):
    """Proves one crate of the copy and its tests as `rt ci` does, by so many processes, runs them, and returns the status."""
    rt = load_rt()
    rt.rtlib.stop = rt.stop
    # (its first call sets a signal's handler, which only the main thread may)
    rt.rtlib.guarded()
    os.chdir(room)
    rt.Crate.cuts_libraries = True
    rt.Crate.allowed = rt.handles_of(room)
    rt.rtlib.Crate = rt.Crate
    crate = next(it for it in rt.rtlib.crates_below(room) if it.name == name)
    rt.read_files(crate)
    os.makedirs(f"{crate.folder}/out", exist_ok=True)
    for tests in (False, True):
        if tests and not crate.has_tests():
            continue
        status = crate.ci(["--jobs", str(jobs)], tests)
        if status:
            return status
        made = f"{crate.folder}/out/{crate.name}{'_tests' if tests else ''}"
        ends = [it for it in rt.BACKENDS.values() if (tests or crate.is_program) and os.path.isfile(made + it)]
        if not all(rt.run(crate, tests, it) for it in ends):
            return 1
    return 0


def copy(room):
    """Copies what a check reads and what a run is given; a crate's out/ is left as it is."""
    for name in ("crates.txt", "HANDLES"):
        shutil.copy(f"{ROOT}/{name}", room)
    for name in os.listdir(f"{ROOT}/crates"):
        for part in ("src", "specs", "proofs", "data"):
            of, to = f"{ROOT}/crates/{name}/{part}", f"{room}/crates/{name}/{part}"
            shutil.rmtree(to, ignore_errors=True)
            if os.path.isdir(of):
                shutil.copytree(of, to)
        for part in ("args", "stdin", "stdout", "status"):
            if os.path.isfile(f"{ROOT}/crates/{name}/{part}"):
                shutil.copy(f"{ROOT}/crates/{name}/{part}", f"{room}/crates/{name}/{part}")


def wanted(names, below):
    """These crates and the libraries below them, lowest first."""
    found = []

    def add(name):
        if name not in found:
            for it in below[name]:
                add(it)
            found.append(name)

    for name in names:
        add(name)
    return found


def longest_first(names, below):
    """These crates, first those with the longest chain of others behind them."""
    listed, behind = chain.seconds(), {}
    for name in reversed(names):
        users = (behind[it] for it in names if name in below[it])
        behind[name] = listed.get(name, 60) + max(users, default=0)
    return sorted(names, key=lambda it: -behind[it])


def start(room, name, jobs):
    """Starts the check of one crate by so many processes."""
    with open(f"{room}/{name}.log", "w") as log:
        how = {"stdout": log, "stderr": subprocess.STDOUT, "stdin": subprocess.DEVNULL}
        return subprocess.Popen([sys.executable, os.path.abspath(__file__), "--room", room, "--jobs", str(jobs), "--alone", name], **how)


class Pace(threading.Thread):
    """Times a loop over and over, to tell how much a second of the processor does."""

    def __init__(self):
        super().__init__(daemon=True)
        self.samples = []

    def run(self):
        while True:
            began = time.thread_time()
            for _ in range(1_000_000):
                pass
            self.samples.append((time.time(), time.thread_time() - began))
            time.sleep(15)

    def quickest(self):
        """What the loop took when it was quick."""
        return sorted(it for _, it in self.samples)[len(self.samples) // 20]

    def share(self, began, ended):
        """How much a second did between two moments, as a share of what the quickest do."""
        quick = self.quickest()
        own = [quick / it for when, it in self.samples if began - 15 <= when <= ended + 15]
        return sum(own) / len(own) if own else 1


def run_all(room, names, below, jobs):
    """Proves these crates, as many side by side as asked, and returns the seconds that each took, when it began and when it ended."""
    took, running = {}, {}
    left = [it for it in longest_first(names, below) if not os.path.exists(f"{room}/{it}.proved")]
    done = set(names) - set(left)
    while left or running:
        ready = [it for it in left if all(dep in done for dep in below[it])]
        for at, name in enumerate(ready):
            idle = jobs - sum(each for _, _, _, each in running.values())
            if not idle:
                break
            left.remove(name)
            each = max(1, idle // (len(ready) - at))
            started = start(room, name, each)
            running[started.pid] = name, started, time.time(), each
        pid, status, used = os.wait4(-1, 0)
        name, started, began, _ = running.pop(pid)
        started.returncode = os.waitstatus_to_exitcode(status)
        if started.returncode:
            for _, other, _, _ in running.values():
                other.terminate()
            with open(f"{room}/{name}.log", errors="replace") as log:
                sys.exit(f"{log.read()}gate: {name} is not proved")
        open(f"{room}/{name}.proved", "w").close()
        done.add(name)
        took[name] = used.ru_utime + used.ru_stime, began, time.time()
        print(f"{name} {took[name][0]:.0f}", flush=True)
    return took


def main():
    words = argparse.ArgumentParser(description=__doc__, formatter_class=argparse.RawDescriptionHelpFormatter)
    words.add_argument("--jobs", type=int)
    words.add_argument("--room")
    words.add_argument("--alone", action="store_true", help=argparse.SUPPRESS)
    words.add_argument("names", nargs="+", metavar="NAME")
    asked = words.parse_args()
    if asked.alone:
        return prove(asked.room, asked.names[0], asked.jobs or 1)
    room = asked.room or tempfile.mkdtemp(prefix="gate-")
    os.makedirs(room, exist_ok=True)
    try:
        copy(room)
        below, pace = chain.rows(), Pace()
        pace.start()
        took = run_all(room, wanted(asked.names, below), below, asked.jobs or 2)
    finally:
        if not asked.room:
            shutil.rmtree(room, ignore_errors=True)
    own = [took[it] for it in asked.names if it in took]
    whole, quick = sum(it for it, _, _ in own), sum(it * pace.share(*when) for it, *when in own)
    told = f"{quick / 60:.1f} at the quickest pace, where the loop took {pace.quickest():.3f} seconds" if own else "nothing was left to prove"
    print(f"{whole:.0f} seconds for the crates that were named, {whole / 60:.1f} minutes; {told}")
    return 0


if __name__ == "__main__":
    sys.exit(main())

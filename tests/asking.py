"""Asking the programs, and judging what they answer.

A test is a generator: it yields lists of questions (Ask, Run), is sent the list of their answers, and ends with what is wrong, or with
nothing. All tests go on together, so that what they ask is asked in batches, as many side by side as there are processors.
"""
import concurrent.futures
import functools
import os
import resource
import subprocess
from typing import NamedTuple

# how long a batch may take, and the seconds for one run of the command line
BATCH_SECONDS, RUN_SECONDS = 100, 30
PROCESSORS = len(os.sched_getaffinity(0))
# the stack of the programs, as `ecma-front` asks for it
STACK = 16 << 20


class Wrong(Exception):
    """What is wrong, in one line."""


class Ask(NamedTuple):
    """A question to a program that answers some: its setting, and its fields."""

    program: str
    setting: str
    fields: tuple


class Run(NamedTuple):
    """A run of the command line: its words, standard input, the folder that it runs in, and its KB of stack, where it has less than others."""

    words: tuple
    text: bytes = b""
    folder: str = None
    stack: int = None


class Ran(NamedTuple):
    """What a run of the command line came to."""

    status: int
    out: bytes
    err: bytes


class Refused(NamedTuple):
    """Why a question has no answer."""

    why: str


ESCAPES = ((b"\\", b"\\\\"), (b"\t", b"\\t"), (b"\n", b"\\n"), (b"\r", b"\\r"))


def escape(field):
    for own, written in ESCAPES:
        if own in field:
            field = field.replace(own, written)
    return field


def unescape(field):
    if b"\\" not in field:
        return field
    parts = field.split(b"\\\\")
    for own, written in ESCAPES[1:]:
        parts = [it.replace(written, own) for it in parts]
    return b"\\".join(parts)


def line_of(question):
    return b"\t".join([question.setting.encode(), *(escape(it) for it in question.fields)]) + b"\n"


def answer_of(line):
    word, *fields = line.split(b"\t")
    if word == b"ok":
        return [unescape(it) for it in fields]
    return Refused(unescape(b"\t".join(fields)).decode(errors="replace") or "no answer")


def give_room():
    """Gives the programs the stack that `ecma-front` gives, or as much as the system does."""
    own, most = resource.getrlimit(resource.RLIMIT_STACK)
    room = STACK if most == resource.RLIM_INFINITY else min(STACK, most)
    if own != resource.RLIM_INFINITY and own < room:
        resource.setrlimit(resource.RLIMIT_STACK, (room, most))


def run_batch(path, questions):
    """What a program says to these questions: its lines, how it ended, and whether that is wrong whatever it answered."""
    try:
        done = subprocess.run([path], input=b"".join(map(line_of, questions)), capture_output=True, timeout=BATCH_SECONDS)
    except subprocess.TimeoutExpired as late:
        lines = (late.stdout or b"").split(b"\n")[:-1]
        return lines, f"the program had not ended after {BATCH_SECONDS} seconds", len(lines) >= len(questions)
    *lines, rest = done.stdout.split(b"\n")
    why = f"the program ended with status {done.returncode}: {done.stderr.decode(errors='replace').strip()[:300]}"
    if done.returncode < 0:
        return lines, f"the program ended by signal {-done.returncode}", True
    if len(lines) + bool(rest) > len(questions):
        return lines, f"the program said more than was asked: {[*lines, rest][len(questions)][:300]!r}", True
    return lines, why, len(lines) == len(questions) and bool(done.returncode or done.stderr)


def ask_batch(path, questions):
    """The answers of a program to these questions. Where it ends early it is asked again behind the one that it doesn't answer; where it
    ends by a signal, says more than was asked, or ends badly behind its last answer, none of them has an answer."""
    answers, left = [], questions
    while left:
        lines, why, is_wrong = run_batch(path, left)
        if is_wrong:
            return [Refused(why)] * len(questions)
        found = [*map(answer_of, lines), *([Refused(why)] if len(lines) < len(left) else [])]
        answers += found
        left = left[len(found) :]
    return answers


def run_once(path, question):
    """What the command line does."""
    how = {"input": question.text, "capture_output": True, "cwd": question.folder, "timeout": RUN_SECONDS}
    limited = ["/bin/sh", "-c", f'ulimit -s {question.stack} && exec "$0" "$@"'] if question.stack else []
    try:
        ran = subprocess.run([*limited, path, *question.words], **how)
    except subprocess.TimeoutExpired:
        return Refused(f"the program had not ended after {RUN_SECONDS} seconds")
    return Ran(ran.returncode, ran.stdout, ran.stderr)


def program_of(question):
    """The program that is asked."""
    return question.program if isinstance(question, Ask) else "ecma-front"


def in_batches(questions):
    """These questions in some lists of about as much text."""
    whole = sum(len(field) + 200 for it in questions for field in it.fields)
    most, batches, size = whole / (4 * PROCESSORS), [[]], 0
    for it in questions:
        if size > most:
            batches.append([])
            size = 0
        batches[-1].append(it)
        size += sum(len(field) + 200 for field in it.fields)
    return batches


class Asker:
    """Asks the programs, each question once."""

    def __init__(self, paths, **others):
        """Others answer lists of questions in place of a program."""
        self.paths, self.known = paths, {}
        self.ways = {**{it: functools.partial(ask_batch, path) for it, path in paths.items()}, **others}
        self.pool = concurrent.futures.ThreadPoolExecutor(PROCESSORS)

    def ask(self, questions):
        """Sees to it that these questions are answered."""
        new = list(dict.fromkeys(it for it in questions if it not in self.known))
        self.known.update((it, Refused(f"there is no program {program_of(it)}")) for it in new if program_of(it) not in self.ways)
        new = [it for it in new if it not in self.known]
        waiting = []
        for program, way in self.ways.items():
            own = [it for it in new if isinstance(it, Ask) and it.program == program]
            waiting += [(batch, self.pool.submit(way, batch)) for batch in in_batches(own) if batch]
        runs = [it for it in new if isinstance(it, Run)]
        answers = self.pool.map(lambda it: run_once(self.paths["ecma-front"], it), runs)
        self.known.update(zip(runs, answers))
        for batch, future in waiting:
            self.known.update(zip(batch, future.result()))

    def judge(self, tests):
        """Runs tests, pairs of a name and a generator, and returns what is wrong with each, or nothing, in their order."""
        verdicts, active = [None] * len(tests), []

        def step(at, answers):
            try:
                active.append((at, tests[at][1].send(answers)))
            except StopIteration as end:
                verdicts[at] = end.value
            except Wrong as wrong:
                verdicts[at] = str(wrong) or "something"
            except (Exception, SystemExit) as wrong:
                verdicts[at] = f"the test ended: {type(wrong).__name__}: {wrong}"

        for at in range(len(tests)):
            step(at, None)
        while active:
            asked, active = active, []
            self.ask([question for _, questions in asked for question in questions])
            for at, questions in asked:
                step(at, [self.known[it] for it in questions])
        return verdicts


def only(answer, count=None):
    """The fields of an answer, of which there are so many."""
    if isinstance(answer, Refused):
        raise Wrong(answer.why)
    if count is not None and len(answer) != count:
        raise Wrong(f"an answer of {len(answer)} fields")
    return answer


def ran(answer):
    """What a run came to, which no signal ended."""
    if isinstance(answer, Refused):
        raise Wrong(answer.why)
    if answer.status < 0:
        raise Wrong(f"the program ended by signal {-answer.status}")
    return answer

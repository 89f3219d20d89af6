"""Runs parts of ./check: as many at a time as there are processors, each once what it needs is built; and adds up what they counted.

What a part writes is kept, and shown in one piece once all have ended. A build shows how far it is as it goes on.
"""

import concurrent.futures
import contextlib
import dataclasses
import itertools
import os
import re
import signal
import subprocess
import sys
import threading
import time

import sources
from sources import TOP

COUNT = re.compile(r"^(\d+) passed, (\d+) failed$", re.MULTILINE)
# A line that says what a part has skipped, and why.
SKIPPED = re.compile(r"^skipped: (.+)$", re.MULTILINE)
# For how long a command may go on that was told to end, in seconds.
GRACE = 10
PROCESSORS = len(os.sched_getaffinity(0))
# The processes of the commands that run.
RUNNING = set()


@dataclasses.dataclass(frozen=True)
class Part:
    """A part of ./check: what it tests; its command, in which {NAME} is what a build of the crate NAME leaves; the other crates that are built, and the
    folders that are there before it; and the command by which ./check --install fetches what it needs besides packages."""

    name: str
    tests: str
    command: str
    others: tuple[str, ...] = ()
    folders: tuple[str, ...] = ()
    fetch: str = ""

    @property
    def needs(self):
        """The crates that are built before it."""
        return tuple(dict.fromkeys([*re.findall(r"{(\w+)}", self.command), *self.others]))

    def words(self):
        """The words of its command."""
        products = {crate: sources.product(crate) for crate in self.needs}
        return [word.format(**products) for word in self.command.split()]


@dataclasses.dataclass(frozen=True)
class Result:
    """What came of a part: what it wrote, the seconds that it took, how many passed and failed, how it ended, where that alone is a failure, and what
    it skipped, with the reasons."""

    text: str
    seconds: int
    passed: int
    failed: int
    ending: str = ""
    skipped: tuple[str, ...] = ()


def result_of(text, status, seconds):
    """The result of a command that ended with this status: by its last line 'N passed, M failed', and its lines 'skipped: WHAT: REASON'. Without such a
    last line it failed, and so it did where only the status says so, or where it counted nothing and skipped nothing."""
    counts, skipped = COUNT.findall(text), tuple(SKIPPED.findall(text))
    passed, failed = map(int, counts[-1]) if counts else (0, 0)
    if counts and (failed or not status) and (passed or failed or skipped):
        return Result(text, seconds, passed, failed, "", skipped)
    ending = f"ended with status {status}" if status or not counts else "tested nothing, and skipped nothing"
    return Result(text, seconds, passed, 1, ending + ("" if counts else " and without a count"), skipped)


def run(words, show=None, environment=None):
    """Runs a command, in a session of its own, so that all that it starts can be ended with it; in this environment, or else in this process's. Calls
    `show` with each line as soon as it is written. Returns what it wrote, its status and its seconds."""
    began, lines = time.monotonic(), []
    streams = {"stdin": subprocess.DEVNULL, "stdout": subprocess.PIPE, "stderr": subprocess.STDOUT, "encoding": "utf-8", "errors": "replace"}
    with subprocess.Popen(words, cwd=TOP, start_new_session=True, env=environment, **streams) as process:
        RUNNING.add(process)
        for line in process.stdout:
            lines.append(line.removesuffix("\n") + "\n")
            if show:
                show(lines[-1])
    RUNNING.discard(process)
    return "".join(lines), process.returncode, int(time.monotonic() - began)


def stop(number, _):
    """Ends the commands that run, with all that they have started, by an interrupt first, so that they remove their temporary files; and this process."""
    for kind in signal.SIGINT, signal.SIGKILL:
        for process in [*RUNNING]:
            with contextlib.suppress(ProcessLookupError):
                os.killpg(process.pid, kind)
        until = time.monotonic() + GRACE
        while RUNNING and time.monotonic() < until:
            time.sleep(0.1)
    print(f"check: ended by {signal.Signals(number).name}", file=sys.stderr, flush=True)
    os._exit(128 + number)


class Progress:
    """Says which part begins, of how many, and how long the work has taken."""

    def __init__(self, total):
        self.total, self.numbers = total, itertools.count(1)
        self.since = time.monotonic()

    def say(self, what):
        minutes, seconds = divmod(int(time.monotonic() - self.since), 60)
        print(f"check: {what}, after {minutes}:{seconds:02} min\n", end="")

    def begin(self, part):
        self.say(f"part {next(self.numbers)} of {self.total}, {part.name}")


def is_ready(crate, gate):
    """Whether a crate needs no build: it is built of its sources as they are, or it is a program that the gate has just built, which first sets aside
    what was built before. Of a gate that failed, all that it left is taken: to build the rest would fail too, after minutes."""
    is_of_gate = gate is not None and (sources.is_program(crate) or gate.failed)
    return bool(is_of_gate and sources.sum_of_product(crate)) or sources.is_current(crate)


def build(crate, gate, progress):
    """Builds a crate, unless it needs no build, and shows how far that is, by the lines that begin with its name; and once it has ended in vain, its
    other lines. Nothing is built after a gate that failed, since that replaces libraries that parts work with. Returns whether it is built."""
    if is_ready(crate, gate) or gate is not None and gate.failed:
        return is_ready(crate, gate)
    head = f"{crate}: "
    progress.say(f"build of {crate}")
    text, status, _ = run([sys.executable, "tools/build.py", crate], lambda line: line.startswith(head) and print(line, end=""))
    if status:
        others = [line for line in text.splitlines(keepends=True) if not line.startswith(head)]
        print(f"{''.join(others)}{head}not built")
    return not status


def run_all(parts, progress, gate):
    """Runs all parts, those first that are first in the table, each as soon as what it needs is built, one crate at a time. Returns their results by
    name."""
    slots, needed = threading.Semaphore(PROCESSORS), dict.fromkeys(crate for part in parts for crate in part.needs)

    def play(part):
        lost = [crate for crate in part.needs if not built[crate].result()]
        if lost:
            return Result("", 0, 0, 1, f"not run, since {lost[0]} can't be built")
        with slots:
            for folder in part.folders:
                (TOP / folder).mkdir(parents=True, exist_ok=True)
            progress.begin(part)
            return result_of(*run(part.words()))

    with concurrent.futures.ThreadPoolExecutor(1) as builder, concurrent.futures.ThreadPoolExecutor(len(parts) + 1) as players:
        built = {crate: builder.submit(build, crate, gate, progress) for crate in sorted(needed, key=lambda crate: not is_ready(crate, gate))}
        return dict(zip((part.name for part in parts), players.map(play, parts)))

"""Proves and builds a program of the repository, or a static library, with the libraries that it depends on: independent ones in parallel.

    tools/build.py PROGRAM
    tools/build.py java         the pool for Java, and the static library `zuphinka` that it needs (tools/java.py)

Prints on standard error which crates it builds, how many are done, and how long it has worked. It shows the output of a build only if the build
failed, and the status is then 1. It passes over crates that are built of their sources as they are (tools/sources.py), and prints nothing if all are.

Each build has a job for each processor, as far as there is memory. tools/kit.py builds one crate.
"""

import concurrent.futures
import fcntl
import os
import pathlib
import shutil
import signal
import subprocess
import sys
import time

import sources
from sources import TOP, below, libraries

TOOLS = pathlib.Path(__file__).resolve().parent
# The memory that each job may take, in bytes.
EACH_JOB = 1_500_000_000


def free_memory():
    """The memory that isn't taken, in bytes."""
    lines = dict(line.split(":") for line in pathlib.Path("/proc/meminfo").read_text().splitlines())
    return int(lines["MemAvailable"].split()[0]) * 1024


def held(program):
    """Waits until no check proves in this clone and takes over what it has proved, and nobody works in the folders of a program's crates, and keeps
    both out until this ends, as `rt` does."""
    crates = [(TOP / "crates" / crate, fcntl.LOCK_EX) for crate in sorted(below(program))]
    for path, kind in [(TOP, fcntl.LOCK_SH), *crates]:
        folder = os.open(path, os.O_RDONLY)
        try:
            fcntl.flock(folder, kind | fcntl.LOCK_NB)
        except BlockingIOError:
            print(f"{program}: waits until another build or check ends, which is at {path.name}", file=sys.stderr, flush=True)
            fcntl.flock(folder, kind)
    # The sources may have changed meanwhile.
    sources.sum_of_sources.cache_clear()


class Work:
    """What is to be built, what is being built, and since when."""

    def __init__(self, program, wanted):
        self.program, self.wanted, self.done = program, wanted, 0
        self.sums = {crate: sources.sum_of_sources(crate) for crate in wanted}
        self.builds, self.running = {}, {}
        self.began = time.monotonic()

    def say(self):
        """Says how far the work is."""
        minutes, seconds = divmod(int(time.monotonic() - self.began), 60)
        far = f"{self.done} of {len(self.wanted)} crates, {minutes}:{seconds:02} min"
        print(f"{self.program}: {far}: {', '.join([*self.running])}\n", end="", file=sys.stderr, flush=True)

    def build(self, crate):
        """Builds a crate once all below it are built. Notes what that has built, except of a crate that was edited meanwhile."""
        for lower in below(crate) - {crate}:
            if lower in self.builds:
                self.builds[lower].result()
        jobs = max(1, min(len(os.sched_getaffinity(0)), free_memory() // EACH_JOB))
        streams = {"stdin": subprocess.DEVNULL, "stdout": subprocess.PIPE, "stderr": subprocess.STDOUT}
        self.running[crate] = process = subprocess.Popen([sys.executable, TOOLS / "kit.py", crate, str(jobs)], text=True, **streams)
        self.say()
        text, _ = process.communicate()
        del self.running[crate]
        if process.returncode:
            sys.exit(f"{text}{self.program}: {crate} can't be built")
        sources.sum_of_sources.cache_clear()
        if self.sums[crate] == sources.sum_of_sources(crate):
            sources.note(crate)
        self.done += 1

    def run(self):
        """Builds all of it, the lower crates first. Once one can't be built, the others end."""
        with concurrent.futures.ThreadPoolExecutor(len(self.wanted)) as workers:
            try:
                for crate in sorted(self.wanted, key=lambda crate: len(below(crate))):
                    self.builds[crate] = workers.submit(self.build, crate)
                for build in concurrent.futures.as_completed(self.builds.values()):
                    build.result()
            finally:
                for process in [*self.running.values()]:
                    process.terminate()


def main():
    if len(sys.argv) != 2:
        sys.exit(__doc__)
    program = sys.argv[1]
    if program == "java":
        os.execv(sys.executable, [sys.executable, TOOLS / "java.py"])
    if program not in libraries():
        sys.exit(f"{program}: no crate of this repository")
    signal.signal(signal.SIGTERM, lambda number, _: sys.exit(128 + number))
    if sources.is_current(program):
        return
    if not shutil.which("rt"):
        sys.exit(f"{program}: the Rattle kit's command rt is not on the PATH, and proves and builds it")
    held(program)
    # Another run may have built it meanwhile.
    if sources.is_current(program):
        return
    Work(program, [crate for crate in below(program) if not sources.is_current(crate)]).run()


if __name__ == "__main__":
    main()

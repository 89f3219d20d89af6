"""Runs the example of an archive many times over, and checks the segments that it leaves.

    play_archive.py ARCHIVE OUTPUT POOL

RUNS times ARCHIVE is given an empty folder, and must write the file OUTPUT. It must leave there archive.toml and files segment-POSITION, each with one
entry at least and no more than the pool has room for, in which each of the four workers borrowed and gave back 500 times, and which `POOL check` finds
legal. A second run over the same folder must end with status 1 and change nothing.
"""

import collections
import itertools
import pathlib
import re
import sys

from playing import ended, play_checks, run, scratch

RUNS = 20
WORKERS, REQUESTS = 4, 500
ROOM = 300
# The borrows and returns of a journal, with their callers.
CALLS = re.compile(rb"^(\d+) \d+ (?:ready .* = lent|return .*)$", re.MULTILINE)


def checks_of_run(program, output, pool):
    """What a run leaves."""
    with scratch() as folder:
        yield "the run", (output, b"", 0), ended(run(program, folder))
        files = {path: path.read_bytes() for path in sorted(folder.glob("segment-*"))}
        counts = [text.count(b" = ") for text in files.values()]
        names = [f"segment-{position:020}" for position in itertools.accumulate(counts[:-1], initial=0)]
        yield "the names and lengths", (names, True), ([path.name for path in files], all(0 < count <= ROOM for count in counts))
        calls = collections.Counter(CALLS.findall(b"".join(files.values())))
        yield "the calls", {b"%d" % worker: 2 * REQUESTS for worker in range(WORKERS)}, dict(calls)
        yield "the check", (b"legal %d\n" % sum(counts), b"", 0), ended(run(pool, "check", folder / "archive.toml", *files))
        again = run(program, folder)
        yield "a second run", (1, files), (again.returncode, {path: path.read_bytes() for path in sorted(folder.glob("segment-*"))})


def checks(program, output, pool):
    wanted = pathlib.Path(output).read_bytes()
    for at in range(RUNS):
        yield from ((f"run {at}: {name}", *found) for name, *found in checks_of_run(program, wanted, pool))


if __name__ == "__main__":
    sys.exit(play_checks(checks(*sys.argv[1:])))

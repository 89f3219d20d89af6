"""A use of each command that works on the repository, and one with a wrong word: ./check, ./try, tools/build.py and the benchmarks.

    play_tools.py POOL LIBRARY

What `./try` writes is compared with what the program writes.
"""

import shutil
import sys

from playing import TOP, ended, play_checks, run, skip

from parts import PARTS

EXAMPLE = "run", "examples/settings.toml", "examples/plain-life.script"


def used(*words):
    """What a command writes to standard output and to standard error, and its status."""
    return ended(run(*words, cwd=TOP, text=True))


def checks(pool, library):
    listed, _, status = used("./check", "--list")
    yield "./check --list", (0, set()), (status, {part.name for part in PARTS} - {line.split()[0] for line in listed.splitlines()})
    yield "a wrong part", ("", "check: there is no part nosuch: ./check --list names them all\n", 2), used("./check", "nosuch")
    yield "a wrong crate", ("", "nosuch: no crate of this repository\n", 1), used(sys.executable, "tools/build.py", "nosuch")
    if shutil.which("rt"):
        yield "./try", (used(pool, *EXAMPLE)[0], 0), used("./try", *EXAMPLE)[::2]
    else:
        skip("./try", "no kit is here")
    for name in ("peers", "longest_waits", "database", "soak", "audits", "instructions"):
        yield f"bench/{name} --help", True, used(f"bench/{name}", "--help")[0].startswith(f"usage: {name} ")
    table, _, status = used("bench/peers", "--only", "C", "--pairs", "4000", "--rounds", "1", "--pool", pool, "--library", library)
    yield "bench/peers", (True, True), (status in (0, 1), "| 1 object, 4 threads | " in table)


if __name__ == "__main__":
    sys.exit(play_checks(checks(*sys.argv[1:])))

"""Refuses a test program its allocations, and sees that it gives no wrong answer.

    refuse_memory.py goes-on PROGRAM OUTPUT
    refuse_memory.py shared PROGRAM OUTPUT CALLS
    refuse_memory.py by-chance PROGRAM OUTPUT SEEDS

The file OUTPUT has what PROGRAM writes if all allocations are granted. It is run once for each of its allocations, which is refused then
(tests/refuse.c, built with the C compiler that CC names, or cc). tests/refuse_uses.py does that with the program `pool`.

- One that `goes-on` must write the whole of OUTPUT.
- One that tests a `shared` pool must do so too. On standard error it names the call that was answered that there is no memory; the file CALLS has,
  line by line, the names of those of which each must have been answered so in some run, and no others may.
- One of many threads is run once with all allocations granted, and then for each seed from 1 to SEEDS with one in six of them refused, in any of its
  threads. Each run must end within a minute and write the whole of OUTPUT. On standard error it tells how many of its calls were answered that there
  is no memory, by lines 'CALL NUMBER': none if no allocation was refused; else some, but no more than there were refused allocations. Over all
  runs the calls of THREADED must each have been answered so.
"""

import collections
import os
import pathlib
import sys

from playing import preloaded, refusals, run, scratch, tell

ONE_OF = 6
THREADED = {"SharedPool::open", "borrow", "add", "fill", "maintain", "journal_copy", "cut"}


def is_whole(done, wanted):
    return done.returncode == 0 and done.stdout == wanted


def in_turn(path, output_file, calls_file=None):
    """What is wrong with each run of a program, and with each call of a shared pool that is named."""
    wanted = set(pathlib.Path(calls_file).read_text().splitlines()) if calls_file else set()
    output, refused = pathlib.Path(output_file).read_bytes(), set()
    with scratch() as folder:
        for number, done in refusals(preloaded("refuse", folder), folder / "refused", path):
            named = done.stderr.decode().splitlines() if calls_file else []
            refused.update(named)
            yield [f"allocation {number}: {done}"] * (not is_whole(done, output) or (number == 0 and named != []))
    for call in sorted(wanted | refused):
        yield [f"{call}: " + ("never refused" if call in wanted else "not to be refused")] * (call not in wanted & refused)


def by_chance(path, output_file, seeds):
    """What is wrong with each run of many threads, and which calls were never refused."""
    wanted, refused = pathlib.Path(output_file).read_bytes(), collections.Counter()
    with scratch() as folder:
        library, mark = preloaded("refuse", folder), folder / "refused"
        for seed in range(int(seeds) + 1):
            mark.unlink(missing_ok=True)
            chance = {"REFUSE_SEED": str(seed), "REFUSE_OF": str(ONE_OF)} if seed else {}
            done = run(path, env=os.environ | {"LD_PRELOAD": str(library), "REFUSED": str(mark)} | chance, timeout=60)
            # How often each call was refused.
            told = [line.rpartition(" ") for line in done.stderr.decode().splitlines()] if is_whole(done, wanted) else []
            calls = sum((collections.Counter({call: int(number)}) for call, _, number in told), collections.Counter())
            refused += calls
            times = mark.stat().st_size if mark.exists() else 0
            is_right = is_whole(done, wanted) and bool(seed) == bool(calls) and calls.total() <= times
            yield [f"seed {seed}: {done}, {times} were refused"] * (not is_right)
    yield from ([f"{call}: never refused"] for call in sorted(THREADED - refused.keys()))


if __name__ == "__main__":
    sys.exit(tell({"goes-on": in_turn, "shared": in_turn, "by-chance": by_chance}[sys.argv[1]](*sys.argv[2:])))

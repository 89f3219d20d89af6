"""Tests the pool for threads in C, bindings/c/src/zuphinka_pool.c, by the program tests/play_c_pool.c.

    play_c_pool.py LIBRARY JUDGE

The C compiler that CC names, or cc, compiles the pool with the program, with warnings as errors. The header must compile by itself as C99, C11 and C++
too, with more warnings.

- Each test of the program must pass. A pool whose `store` fails at each call in turn must store its whole journal in the end.
- With SEEDS seeds, THREADS threads call a pool at random over callbacks that fail at random. No two threads have an object at once, a loan that has
  ended takes none, no more objects exist than maxTotal allows, and none is left; `judge` must judge the journal legal, whatever segments it has, and with
  the settings that some pools change meanwhile; it must have each loan that the threads counted; and all journals together must have each answer.
  The same must hold while one allocation in REFUSE_OF fails (tests/refuse.c), and some must have failed in each of FEW_SEEDS runs.
- A pool without a journal lends SOAKED times to THREADS threads, in memory that does not grow.
- While THREADS threads borrow MEASURED times, each text of its metrics is in the format, and in the end their sums are right (tests/openmetrics.py).
- bindings/c/examples/shared_life.c must write the segments of a legal journal, with SHARED_ROUNDS loans for each thread. A second run over the same
  folder must fail, and leave them as they are, also if the first one crashed and had the same process number.
- All tests and some seeds must run under valgrind without an error or a leak, and under ThreadSanitizer with MORE_THREADS threads without a
  race, if these are installed; what is missing is printed.
"""

import collections
import os
import pathlib
import re
import sys

import openmetrics
from play_library import TOP, VALGRIND, compiled, compiler, header_runs
from playing import differing, has, preloaded, run, scratch, side_by_side, skip, tell

from install import POOL

SEEDS, THREADS, CALLS = 15, 4, 2_000
SHARED_ROUNDS, SOAKED = 5_000, 3_000_000
MEASURED = 400_000
# Under valgrind and ThreadSanitizer, and while allocations fail.
FEW_SEEDS, FEW_CALLS, MORE_THREADS = 6, 400, 8
REFUSE_OF = 20
LENT = re.compile(rb"^(\d+) \d+ ready \d+ good = lent$", re.MULTILINE)
ANSWER = re.compile(rb" = (\w+)")
ANSWERS = set(
    b"take make wait exhausted timeout lent check parked kept keptidle destroy destroyidle test freed gone noted count reclaimed nothing enough"
    b" noplace refused".split()
)


def built(library, folder, *flags):
    """Compiles the program over the pool with flags, links it with the library, and returns its path."""
    return compiled("play_c_pool", library, folder, ["-pthread", POOL, *flags], TOP / "tests")


def journal_in(folder):
    return b"".join(path.read_bytes() for path in sorted(folder.glob("segment-*")))


def has_tsan(folder):
    """Returns whether the compiler builds programs with ThreadSanitizer that run."""
    program = folder / "empty"
    words = compiler(), "-fsanitize=thread", "-pthread", "-o", program, "-x", "c", "-"
    return run(*words, input=b"int main(void) { return 0; }\n").returncode == 0 and run(program).returncode == 0


class Runs:
    """The runs of one build of the program, perhaps under another program or with a library that is loaded before."""

    def __init__(self, name, words, judge, environment=None):
        self.name, self.words, self.judge, self.environment = name, words, judge, environment
        self.answers = set()

    def run(self, *words):
        return run(*self.words, *words, env=self.environment)

    def silent(self, *words):
        """What differs in a test, or in a long life without a journal."""
        return differing(f"{self.name}, {words}", (b"", b"", 0), self.run(*words))

    def judged(self, name, folder, steps):
        """The journal that was written to a folder, and what differs where it is judged."""
        journal = journal_in(folder)
        self.answers |= set(ANSWER.findall(journal))
        if not steps:
            return journal, [f"{name}: segments of a journal that is dropped"] if journal else []
        return journal, differing(f"{name}, judged", (b"legal %d\n" % steps, b"", 0), run(self.judge, folder))

    def told(self, name, *words):
        """Runs the program over a folder: what it printed, as pairs of words and a number, the journal, and what differs."""
        with scratch() as folder:
            done = self.run(*words, folder)
            numbers = {words: int(number) for words, number in (line.rsplit(b" ", 1) for line in done.stdout.splitlines())}
            found = differing(name, (done.stdout, b"", 0), done)
            return numbers, *(self.judged(name, folder, numbers[b"steps"]) if not found else (b"", found))

    def sink(self, at):
        """What differs in a run whose `store` fails at this call, and how often it was called."""
        numbers, _, found = self.told(f"{self.name}, a store that fails at call {at}", "sink", str(at))
        return found, numbers.get(b"called", 0)

    def random(self, seed, threads, calls):
        """What differs in a run of threads that call at random."""
        name = f"{self.name}, seed {seed}"
        numbers, journal, found = self.told(name, "random", str(seed), str(threads), str(calls))
        counted = {words.split()[1]: number for words, number in numbers.items() if words.startswith(b"caller ") and number}
        lent = dict(collections.Counter(LENT.findall(journal))) if journal and not found else counted
        return found + [f"{name}: threads counted the loans {counted}, the journal has {lent}"] * (lent != counted)

    def metrics(self):
        """What differs in the metrics that are read while threads borrow."""
        done = self.run("metrics", str(MEASURED), str(THREADS))
        fault = openmetrics.fault_of_course("the metrics of the C pool", done.stdout.decode(), MEASURED)
        return differing(f"{self.name}, metrics", (done.stdout, b"", 0), done) + [f"{self.name}, metrics: {fault}"] * bool(fault)

    def shared(self, program):
        """What differs where the example lends connections to threads."""
        with scratch() as folder:
            settings = folder / "settings.toml"
            settings.write_text("journalLimit = 1000\n")
            name = "shared_life"
            found = differing(name, (b"", b"", 0), run(program, settings, folder, str(THREADS), str(SHARED_ROUNDS)))
            journal = journal_in(folder)
            lent = list(collections.Counter(LENT.findall(journal)).values())
            found += [f"{name}: the journal has {lent} loans for its threads"] * (lent != [SHARED_ROUNDS] * THREADS)
            # A process of its number crashed while its last segment had two names.
            crashed = ["sh", "-c", 'ln "$0" "$3/unfinished-$$" && exec "$@"', max(folder.glob("segment-*"))]
            again = run(*crashed, program, settings, folder, "1", str(SHARED_ROUNDS))
            left = b"".join(path.read_bytes() for path in sorted(folder.iterdir()) if path != settings)
            is_refused = again.returncode == 1 and left == journal
            found += [f"{name}: a second run replaces segments, or leaves more files"] * (not is_refused)
            return found + self.judged(name, folder, journal.count(b" = "))[1]


def tools(folder):
    """The names of the builds for valgrind and ThreadSanitizer, each with its flags, the words before it, and how many threads it has. Says which are
    skipped."""
    if has("the C pool under valgrind", "valgrind"):
        yield "valgrind", ["-g"], VALGRIND, THREADS
    if has_tsan(folder):
        yield "ThreadSanitizer", ["-g", "-fsanitize=thread"], [], MORE_THREADS
    else:
        skip("the C pool under ThreadSanitizer", "the C compiler has none: Debian's package gcc has it")


def refused(plain, refuse, folder, seed):
    """What differs in a run in which allocations fail."""
    mark = folder / f"refused_{seed}"
    changes = {"REFUSE_OF": str(REFUSE_OF), "REFUSE_SEED": str(seed), "REFUSED": str(mark), "LD_PRELOAD": str(refuse)}
    runs = Runs("allocations that fail", plain.words, plain.judge, os.environ | changes)
    return runs.random(seed, THREADS, CALLS) + [f"{runs.name}, seed {seed}: no allocation failed"] * (not mark.exists())


def all_calls(plain, library, folder, watches):
    """Each run as a call that returns what differs, in lists."""
    names = plain.run("list").stdout.decode().split()
    refuse = preloaded("refuse", folder)
    few = range(1, FEW_SEEDS + 1)
    calls = [(plain.silent, "test", name) for name in names] + [(plain.random, seed, THREADS, CALLS) for seed in range(1, SEEDS + 1)]
    for name, flags, before, threads in watches:
        runs = Runs(name, [*before, built(library, folder / name, *flags)], plain.judge)
        calls += [(runs.silent, "test", name) for name in names] + [(runs.random, seed, threads, FEW_CALLS) for seed in few]
    return calls + [(refused, plain, refuse, folder, seed) for seed in few]


def found(library, judge, folder):
    """What differs in each run."""
    for name, words, wanted in header_runs(folder, "zuphinka_pool.h", "return zuphinka_pool_caller() == 0;"):
        yield differing(name, wanted, run(*words))
    plain = Runs("plain", [built(library, folder)], str(pathlib.Path(judge).resolve()))
    calls = all_calls(plain, library, folder, list(tools(folder)))
    yield from side_by_side(lambda call: call[0](*call[1:]), calls)
    shared = compiled("shared_life", library, folder, ["-pthread", POOL])
    # A `store` fails at no call, and at each in turn.
    whole, called = plain.sink(0)
    yield from [whole, *(plain.sink(at)[0] for at in range(1, called + 1)), ["few calls of store"] * (called <= 3)]
    yield from [plain.silent("soak", str(SOAKED), str(THREADS)), plain.metrics(), plain.shared(shared)]
    missing = ANSWERS - plain.answers
    yield [f"no journal has {sorted(missing)}"] * bool(missing)


def main(library, judge):
    with scratch() as folder:
        return tell(found(library, judge, folder), SEEDS)


if __name__ == "__main__":
    sys.exit(main(*sys.argv[1:]))

#!/usr/bin/env python3
"""Makes random calls of Commons Pool 2 and of a pool for Java, and compares them: call by call in one thread, or what they promise six threads.

    commons_random.py [--seed N] [--runs N] LIBRARY
    commons_random.py --threads LIBRARY

LIBRARY is libzuphinka.a. In one thread (tests/commons_random) there are runs of ZuphinkaPool, and of the GenericObjectPool in place of the library's,
each with the seeds from N on, from 0 if none is given. Settings, their changes, calls and the failures of the factory are random. Each call must have
the same outcome in both pools, or the one that the rule for a row of docs/migrate.md says: its result or exception, the calls of the factory in their
order, the exceptions that are swallowed, and the numbers, properties and objects of the pool. The pools read a clock that the test sets: they are
compiled from sources that read io.github.zuphinka.TestClock in place of System.nanoTime. The class in place of the library's has the name InPlacePool.
Printed are the first calls that differ, with few calls before them, and how often each of the named differences was met.

With --threads (tests/java/Promises.java) six threads call one pool in each run, over a factory that fails at random, and are interrupted at random.
Each run has a fixed seed, though what happens depends on the threads too. A run of ZuphinkaPool that breaks a promise has failed; what Commons Pool 2
does is printed. If there is no JDK or no Commons Pool 2, all of it is skipped.
"""

import argparse
import pathlib
import re
import sys
import zipfile

from check_pages import tables
from play_java import COUNT, play_with_java, program, run_java
from playing import TOP, scratch, side_by_side

import java
from install import heap_of_kit

PAGE = TOP / "docs/migrate.md"
PROGRAM = TOP / "tests/commons_random"
# How many runs there are if none is named; and how many calls that differ are shown.
RUNS, SHOWN = 300, 3
CALLS = re.compile(r"^(\d+) calls in ", flags=re.MULTILINE)
MET = re.compile(r"^met (\d+) times: (.+)$", flags=re.MULTILINE)
# The pools for Java, and the columns of the page that say how often calls of each met a difference.
POOLS = {"ZuphinkaPool": "By `ZuphinkaPool`", "InPlacePool": "By the class in place"}
# What six threads do: the program, how many runs each pool gets, and for how many milliseconds each run calls, and waits for what may never end: by then
# ZuphinkaPool has failed, and of Commons Pool that is noted.
PROMISES = [TOP / f"tests/java/{name}.java" for name in ("Promises", "EitherPool", "Expectations")]
PROMISED_RUNS, MILLIS, LONGEST = 150, 120, {"commons-pool": 250, "zuphinka": 60_000}


def commons_pool_version():
    """The version of Commons Pool 2."""
    with zipfile.ZipFile(java.commons_pool()) as packed:
        texts = [packed.read(name).decode() for name in packed.namelist() if name.endswith("/commons-pool2/pom.properties")]
    return next((found[1] for text in texts if (found := re.search(r"^version=(.+)$", text, flags=re.MULTILINE))), "of an unknown version")


class Pools:
    """All pools and the program that calls them, compiled."""

    def __init__(self, library, folder):
        self.folder, self.native = folder, folder / "libzuphinka_jni.so"
        java.compile_native(library, heap_of_kit(), self.native)
        words = {java.JAVA / "src": ("System.nanoTime()", "TestClock.nanoTime()"), java.DROP_IN / "src": ("GenericObjectPool", "InPlacePool")}
        sources = [self.copied(source, *pair) for place, pair in words.items() for source in place.rglob("*.java")]
        java.compile_classes([*sources, *PROGRAM.rglob("*.java")], folder / "classes", java.commons_pool())

    def copied(self, source, word, other):
        """A copy of a source with another word in place of one, also in its name."""
        copy = self.folder / source.relative_to(java.JAVA).with_stem(source.stem.replace(word, other))
        copy.parent.mkdir(parents=True, exist_ok=True)
        copy.write_text(re.sub(rf"\b{re.escape(word)}(?!\w)", other, source.read_text()))
        return copy

    def played(self, pool, seed, runs):
        """Plays runs of a pool. Returns what came of it."""
        path = self.folder / "classes", java.commons_pool()
        return run_java(path, "CommonsRandom", pool, seed, runs, SHOWN, options=[f"-Dzuphinka.library={self.native}", java.QUICK], longest=None)


def checks_of_page(texts):
    """What is wanted of the page, by what all runs of each pool have written."""
    rows = list(tables(PAGE))
    named = {row["What"] for row in rows if "What" in row}
    for pool, text in texts.items():
        met = {row: int(times) for times, row in MET.findall(text)}
        yield f"{pool}: differences that are rows of the page", set(met), named & set(met)
        yield f"{pool}: how often each was met", met, {row["What differs"]: int(row[POOLS[pool]]) for row in rows if "What differs" in row}
        yield f"{pool}: the number of calls", True, f"{int(CALLS.search(text)[1]):,} calls" in PAGE.read_text()


def checks_of_runs(library, seed, runs):
    """What is wanted of the runs, and what they are. The page names numbers of the runs that are made if none are named."""
    texts = {}
    with scratch() as folder:
        pools = Pools(library, folder)
        for pool, done in zip(POOLS, side_by_side(lambda pool: pools.played(pool, seed, runs), POOLS)):
            print(f"{pool}:\n{done.stdout}", end="")
            yield from program(f"{pool}: runs that do not differ", done)
            texts[pool] = done.stdout
    if (seed, runs) == (0, RUNS) and all(text.endswith(" 0 failed\n") for text in texts.values()):
        yield from checks_of_page(texts)


def checks_of_promises(library):
    with scratch() as folder:
        jar, classes = java.build(library, heap_of_kit(), folder / "out"), folder / "classes"
        java.compile_classes(PROMISES, classes, jar, java.commons_pool())
        for pool, longest in LONGEST.items():
            done = run_java((classes, jar, java.commons_pool()), "Promises", pool, PROMISED_RUNS, MILLIS, longest)
            print(done.stdout, end="")
    yield from program("runs that keep each promise", done)
    yield "the number of runs", [PROMISED_RUNS], [int(passed) + int(failed) for passed, failed in COUNT.findall(done.stdout)][-1:]


def checks(given):
    print(f"commons-pool is version {commons_pool_version()}")
    yield from checks_of_promises(given.library) if given.threads else checks_of_runs(given.library, given.seed, given.runs)


def main():
    words = argparse.ArgumentParser(description=__doc__, formatter_class=argparse.RawDescriptionHelpFormatter)
    words.add_argument("--seed", type=int, default=0, metavar="N", help="the seed of the first run, 0 if none is given")
    words.add_argument("--runs", type=int, default=RUNS, metavar="N", help=f"how many runs, {RUNS} if none is given")
    words.add_argument("--threads", action="store_true", help="let six threads call each pool")
    words.add_argument("library", metavar="LIBRARY", type=pathlib.Path, help="libzuphinka.a")
    return play_with_java("random calls of the pool for Java and of Commons Pool 2", checks(words.parse_args()))


if __name__ == "__main__":
    sys.exit(main())

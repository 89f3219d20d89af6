"""Runs the tests of Commons Pool 2, unchanged, over the pool for Java, and compares which pass with docs/migrate.md.

    play_commons_pool.py LIBRARY JUDGE
    play_commons_pool.py --fetch

COMMONS_POOL2_SOURCE names the folder with the source of Commons Pool 2 of the version that is installed. Else it is that of Debian's archive, which
--fetch stores in the folder out. The tests run in several virtual machines, over the GenericObjectPool of bindings/java/commons-pool2, which comes
before the library's and passes each call on. A test that does not end as the page says runs again, alone, up to twice.

What fails is a test that fails without a row on the page, that passes although its row says that it differs, or that does not exist; a class of which
another number of tests passes; and a journal that is not legal, of a pool that a test closed. If a tool, a library or the source is missing, all of
it is skipped, with the reason.
"""

import collections
import contextlib
import itertools
import os
import pathlib
import re
import subprocess
import sys
import time
import urllib.request

from check_pages import backquoted, tables
from commons_random import commons_pool_version
from play_java import play_with_java, run_java
from playing import TOP, has, scratch, side_by_side, stored_journal

import java
from install import heap_of_kit

PAGE = TOP / "docs/migrate.md"
OWN = TOP / "tests/commons_pool"
# The version whose tests these are, and the archive from which Debian builds it.
VERSION = "2.11.1"
ARCHIVE = f"http://deb.debian.org/debian/pool/main/c/commons-pool2/commons-pool2_{VERSION}.orig.tar.xz"
CHECKSUM = "16deaefe5bd9ec8f242b1836459f672a786382d1154971fc2488c65eb62ae36f"
FETCHED = TOP / "out" / pathlib.PurePosixPath(ARCHIVE).name
SOURCE = os.environ.get("COMMONS_POOL2_SOURCE")
# The packages that the tests need besides, and the jars that these have.
PACKAGES = "junit5", "libcglib-java"
JUNIT = ("junit-jupiter-api", "junit-jupiter-engine", "junit-platform-commons", "junit-platform-engine", "junit-platform-launcher")
JARS = [java.DEBIAN_JAR.with_name(f"{name}.jar") for name in (*JUNIT, "apiguardian-api", "opentest4j", "hamcrest", "cglib", "asm")]
# To how many virtual machines the tests are dealt out. A processor that has ended with one takes the next.
MACHINES = 12
# What makes a short run of the virtual machine take less of the processors.
SHORT_RUN = ("-XX:TieredStopAtLevel=1", "-XX:+UseSerialGC", "-XX:-UsePerfData")
# How long a test may take, and all tests of one machine, in seconds.
TEST_SECONDS, MACHINE_SECONDS = 60, 240
# What came of a test: how it ended, for how many milliseconds it ran, and what it threw.
Result = collections.namedtuple("Result", "end millis thrown", defaults=["not run", 0, ""])
# How often a test runs again that does not end as the page says. If more than so many do not, none runs again.
REPEATS, MOST_REPEATED = 2, 8


class Page:
    """What the page says: of each class, which of its tests alone are in scope, if not all are, and how many pass and fail; which tests fail, each
    with the line of the source; and which are out of scope. A test is named CLASS#METHOD, and a class without its package."""

    def __init__(self):
        rows = list(tables(PAGE))
        classes = {backquoted(row["Class"])[0]: row for row in rows if "Pass" in row}
        tests = [(f"{row['Class']}#{method}", row.get("Line")) for row in rows if "Test" in row for method in backquoted(row["Test"])]
        self.only = {name: backquoted(row["Tests in scope"]) for name, row in classes.items()}
        self.numbers = {name: (int(row["Pass"]), int(row["Fail"])) for name, row in classes.items()}
        self.failing, self.outside = {test: line for test, line in tests if line}, {test for test, line in tests if not line}
        # The tests and the classes that it names.
        self.listed = {*self.failing, *self.outside, *(f"{name}#{method}" for name, methods in self.only.items() for method in methods)}
        self.classes = sorted({*self.only, *(test.partition("#")[0] for test in self.listed)})

    def is_in_scope(self, test):
        name, _, method = test.partition("#")
        return name in self.only and test not in self.outside and method in (self.only[name] or [method])

    def wanted(self, test):
        """How a test in scope is to end."""
        return f"failed:{self.failing[test]}" if test in self.failing else "passed"


def need_tests():
    """Commons Pool 2 has the version of the tests, and these are there."""
    if commons_pool_version() != VERSION:
        raise java.Missing(f"{java.commons_pool()} is not version {VERSION} of Commons Pool 2, whose tests these are")
    if not SOURCE and not FETCHED.is_file():
        raise java.Missing(f"no {FETCHED}: tests/play_commons_pool.py --fetch downloads it; COMMONS_POOL2_SOURCE names a folder that has the source")


def fetch():
    """Stores the archive, unless another source is named."""
    if not SOURCE:
        FETCHED.parent.mkdir(exist_ok=True)
        part = FETCHED.with_suffix(".part")
        urllib.request.urlretrieve(ARCHIVE, part)
        java.run("sha256sum", "--check", input=f"{CHECKSUM}  {part}\n")
        part.rename(FETCHED)


class Tests:
    """The tests of some classes, compiled, and the machines that run them."""

    def __init__(self, names, source, jar, folder):
        self.folder, self.sources = folder, source / "src/test/java"
        others = [java.drop_in(jar.parent), jar, java.commons_pool(), *JARS]
        own, tests = folder / "own", folder / "tests"
        java.compile_classes(sorted(OWN.rglob("*.java")), own, *others)
        words = [*(f"-J{option}" for option in SHORT_RUN), "-nowarn", "-implicit:class", "-cp", os.pathsep.join(map(str, (own, *others)))]
        java.run(java.jdk() / "bin/javac", *words, "-sourcepath", self.sources, "-d", tests, *map(self.file, names))
        self.path = tests, source / "src/test/resources", own, *others
        self.numbers = itertools.count()

    def file(self, name):
        """The file of a class."""
        return next(self.sources.rglob(f"{name}.java"), None) or sys.exit(f"{PAGE.name}: {name}: no such class\n0 passed, 1 failed")

    def qualified(self, test):
        """A class or a test, with the package of the class."""
        name, sign, method = test.partition("#")
        return ".".join(self.file(name).relative_to(self.sources).with_suffix("").parts) + sign + method

    def run(self, task, names):
        """Runs RunTests in a machine of its own, and returns the lines that it has written, without packages."""
        number = next(self.numbers)
        lines, journals = self.folder / f"lines-{number}", self.folder / f"journals-{number}"
        options = [f"-Djunit.jupiter.execution.timeout.default={TEST_SECONDS}s", f"-Dzuphinka.journals={journals}"]
        options += [*SHORT_RUN, "--add-opens", "java.base/java.lang=ALL-UNNAMED"]
        with contextlib.suppress(subprocess.TimeoutExpired):
            run_java(self.path, "RunTests", task, lines, *map(self.qualified, names), options=options, longest=MACHINE_SECONDS)
        return [re.sub(r"^(\w+\.)+", "", line) for line in lines.read_text().splitlines()] if lines.exists() else []

    def results(self, names):
        """What came of tests that run in one machine."""
        found = {name: Result(end, int(millis), thrown) for name, end, millis, thrown in (line.split(" ", 3) for line in self.run("run", names))}
        return {name: found.get(name, Result()) for name in names}

    def all_results(self, names):
        """What came of tests that run in several machines."""
        return dict(itertools.chain(*(found.items() for found in side_by_side(self.results, (names[at::MACHINES] for at in range(MACHINES))))))


def repeated(tests, page, results):
    """The results, those of tests that ran again in place of those that are not as wanted, and how often each ran again."""
    others = [test for test, result in results.items() if result.end != page.wanted(test)]
    runs = {}
    for test in others if len(others) <= MOST_REPEATED else []:
        for runs[test] in range(1, REPEATS + 1):
            results |= tests.results([test])
            if results[test].end == page.wanted(test):
                break
    return results, runs


def checks_of_page(page, found):
    """What is wanted of the page, and what it says: that it has each test that was found, and no other."""
    yield "tests on the page that do not exist", [], sorted(page.listed - set(found))
    for name, numbers in page.numbers.items():
        in_scope = {test for test in found if test.startswith(f"{name}#") and page.is_in_scope(test)}
        yield f"{name}: how many pass and fail, by the page", (len(in_scope - {*page.failing}), len(in_scope & {*page.failing})), numbers
    passing, failing = map(sum, zip(*page.numbers.values()))
    yield "the numbers in its text", True, f"{passing} of {passing + failing} pass" in PAGE.read_text()


def checks_of_journals(judge, folder):
    """What is wanted of the journals, and what they are."""
    journals = sorted({path.parent for path in folder.glob("journals-*/*/*/segment-*")})
    found = side_by_side(lambda journal: stored_journal(judge, journal, 0), journals)
    faults = [f"{journal.name}: {got}" for journal, (wanted, got) in zip(journals, found) if got != wanted]
    print(f"{len(journals) - len(faults)} journals are legal")
    yield "journals that are not legal", [], faults
    yield "there are journals", True, bool(journals)


def checks(library, judge):
    page = Page()
    with scratch() as folder:
        source = pathlib.Path(SOURCE or folder)
        if not SOURCE:
            java.run("tar", "--extract", "--file", FETCHED, "--directory", folder, "--strip-components=1", "--wildcards", "*/src/test/*")
        jar = java.build(library, heap_of_kit(), folder / "out")
        tests = Tests(page.classes, source, jar, folder)
        found = tests.run("list", page.classes)
        yield from checks_of_page(page, found)
        began = time.monotonic()
        results, runs = repeated(tests, page, tests.all_results([test for test in found if page.is_in_scope(test)]))
        print(f"{len(results)} tests in {time.monotonic() - began:.0f} s")
        for test, number in runs.items():
            print(f"{test} ran again, {number} times, and {results[test].end}")
        for test, result in sorted(results.items()):
            wanted = page.wanted(test)
            yield test, wanted, wanted if result.end == wanted else f"{result.end}, after {result.millis} ms: {result.thrown}"
        yield from checks_of_journals(judge, folder)


def main(*words):
    if words == ("--fetch",):
        return fetch()
    if SOURCE and not (pathlib.Path(SOURCE) / "src/test/java").is_dir():
        sys.exit(f"{SOURCE}/src/test/java: no such folder\n0 passed, 1 failed")
    what = "the tests of Commons Pool 2"
    return play_with_java(what, checks(*map(pathlib.Path, words)) if has(what, *PACKAGES) else (), need_tests)


if __name__ == "__main__":
    sys.exit(main(*sys.argv[1:]))

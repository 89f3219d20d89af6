"""Tests the jar with a GenericObjectPool in place of the library's, which tools/java.py builds, before Commons Pool 2 on the class path.

    play_drop_in.py LIBRARY JUDGE

The class, and that of its wrappers, must have all public and protected members of the library's, and a few others (tests/drop_in/Surface.java).
tests/drop_in/DropIn.java changes its settings at any time, also while threads call it. tests/drop_in/LaterSettings.java prints what calls do after
each change, and must print the same over both classes. So must tests/drop_in/DataSources.java, which makes calls of DBCP2's BasicDataSource over H2.
The journals must be legal, by the settings beside their segments. What needs a JDK or a jar that is missing is skipped, with the reason. The
library's own tests run over the class in play_commons_pool.py.
"""

import pathlib
import re
import sys

from play_java import journals_below, play_with_java, program, run_java
from playing import TOP, has, scratch

import java
from install import heap_of_kit

# What DBCP2 needs, and the packages that have it.
JARS = {"commons-dbcp2": "libcommons-dbcp2-java", "commons-logging": "libcommons-logging-java", "h2": "libh2-java"}
# What the tests have of those of the pool for Java.
SHARED = ("Expectations", "Lacking")
# For each class the members that the library's has not, by their names, and how many this has at least, by the documentation of version 2.11.1.
MORE = ["flushJournal", "getJournalFolder", "metrics", "setLeakDetectionThreshold", "setLeakListener", "setLeakStackTraces"]
CLASSES = {"GenericObjectPool": (MORE, 100), "DefaultPooledObject": (["getActiveDuration"], 27)}
# The name of a pool's MBean, as that of a folder; or what stands for it if there is none.
POOL = re.compile(r"[A-Za-z0-9.]+:[A-Za-z0-9.,:=$_-]+|of_[A-Za-z0-9.$]+")


def surface(classes, jars):
    """What is wanted of the members of the classes, and what they are."""
    library = java.commons_pool()
    for name, (more, least) in CLASSES.items():
        done = run_java([classes], "Surface", f"org.apache.commons.pool2.impl.{name}", library, ":".join(map(str, [*jars, library])))
        *others, last = done.stdout.splitlines() or [""]
        yield f"members that the library's {name} alone has", [], [member for member in others if member.startswith("-")]
        found = sorted(re.search(r"(\w+)\[", member)[1] for member in others if member.startswith("+"))
        yield f"members that this {name} alone has", more, found
        count = re.fullmatch(r"(\d+) members", last)
        yield f"{name} has members", True, count is not None and int(count[1]) >= least or done.stdout


def legal_journals(name, judge, folder):
    """What is wanted of the journals in a folder, and what they are."""
    names = {segment.parent.parent.name for segment in folder.glob("*/*/segment-*")}
    yield f"{name}: folders that have no pool's name", [], [name for name in names if not POOL.fullmatch(name)]
    yield from journals_below(folder, judge)


def same_as_library(name, least_lines, path, drop_in, judge, folder):
    """What is wanted of a program over the class, which is what it prints over the library's; and what it does."""
    wanted = run_java(path, name)
    yield f"{name} over the library", (0, True), (wanted.returncode, len(wanted.stdout.splitlines()) > least_lines or wanted.stdout)
    done = run_java([drop_in, *path], name, options=[f"-Dzuphinka.journals={folder}"])
    yield name, (wanted.stdout, 0), (done.stdout, done.returncode)
    yield from legal_journals(name, judge, folder)


def checks(library, judge):
    with scratch() as folder:
        jar = java.build(library, heap_of_kit(), folder / "out")
        jars, classes, others = [java.drop_in(jar.parent), jar], folder / "classes", [java.DEBIAN_JAR.parent / f"{name}.jar" for name in JARS]
        sources = [*sorted((TOP / "tests/drop_in").glob("*.java")), *(TOP / "tests/java" / f"{name}.java" for name in SHARED)]
        has_jars = has("DBCP2 over the pool for Java", *JARS.values())
        sources = [source for source in sources if has_jars or source.name != "DataSources.java"]
        java.compile_classes(sources, classes, *jars, java.commons_pool(), *others)
        yield from surface(classes, jars)
        path = [classes, java.commons_pool()]
        yield from program("drop-in", run_java([jars[0], *path], "DropIn", jars[0].name, options=[f"-Dzuphinka.journals={folder / 'journals'}"]))
        yield from legal_journals("drop-in", judge, folder / "journals")
        yield from same_as_library("LaterSettings", 100, path, jars[0], judge, folder / "of-later-settings")
        if has_jars:
            yield from same_as_library("DataSources", 20, [*path, *others], jars[0], judge, folder / "of-data-sources")


if __name__ == "__main__":
    sys.exit(play_with_java("the pool for Java in place of Commons Pool 2", checks(*map(pathlib.Path, sys.argv[1:]))))

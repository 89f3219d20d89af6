"""Builds the pool for Java (tools/java.py), and plays its test programs, each under the checks of the virtual machine for native methods.

    play_java.py LIBRARY POOL JOURNAL_PICTURE JUDGE

Each program in tests/java says what it tests. The journals that they write must be legal: by the settings beside them, if these change, and with all
entries, if a process ends or is killed while an object is lent. Metrics must be in the format. Allocations of the native library are refused in turn,
also on a full heap and a full stack. It is found in each place that the page names, in two class loaders, and in a module. A stored file must be synced
before it has its name, and its folder afterwards. The jar must have the version of all products and load nothing but the C library. Each public and
protected item must have documentation in which javac finds nothing wrong. The examples are run by the commands of bindings/java/README.md; the journal
of that over DBCP2 must be drawn. What needs a JDK or a jar that is missing is skipped, with the reason.
"""

import itertools
import os
import pathlib
import re
import shlex
import shutil
import subprocess
import sys
import time
import zipfile

import openmetrics
import playing
from check_picture import differences
from playing import LONGEST, TOP, has, play_checks, preloaded, scratch, skip_all, start_of, stored_journal

import java
from install import heap_of_kit, version

COUNT = re.compile(r"^(\d+) passed, (\d+) failed$", flags=re.MULTILINE)
# What the virtual machine writes about a native method that breaks a rule.
WARNING = re.compile(r"(?:WARNING|FATAL ERROR) in native method")
# The time of an entry, in milliseconds.
TIME = re.compile(r'^\d+ (\d+) .* = ', flags=re.MULTILINE)
# At how many entries tests/java/Calls.java has its journal cut.
CUT = 50
# How tests/java/Exits.java ends.
EXITS = ("close", "exit", "main", "killed")
SEEDS, MILLIS = range(8), 700
# Test programs that need nothing but the library, and a new folder or none.
OVER_FOLDERS, PROGRAMS = ("Policies", "Measures", "Reconfigures", "Flushes", "Lifetimes"), ("Errors", "Waits", "LostPlaces", "Overdue", "Wrappers")
# How many borrows tests/java/Measures.java makes while it reads metrics, and the names of its pools.
MEASURED, NAMES = 80_000, ["a", 'say "b\\"\nc']
# The functions that the native library calls and tests/refuse_java.c wraps.
WRAPPED = ("malloc", "calloc", "realloc", "free", "zuphinka_is_lent")
# The most bytes of a part of a text there.
SHORT_PART = 512
# What the example over DBCP2 needs, and the packages that have it.
EXAMPLE_JARS = {"commons-dbcp2": "libcommons-dbcp2-java", "h2": "libh2-java"}
# What that prints: 16 of its connections break, and others take their places.
BANK = r"1000 transfers, \d+ a second, 0 failed\n2000 euros in all\ncreated (1[7-9]|[2-9]\d), destroyed \1, idle 0, lent 0\n"
# A heap that is full soon, and to the last byte.
HEAP = ["-Xmx8m", "-XX:+UseSerialGC", "-XX:-UseTLAB", java.QUICK]


def play_with_java(what, found, *needs):
    """Tells of checks in Java, or skips them all if the JDK, Commons Pool 2, or what else a call needs is missing. Gives the status to end with."""
    try:
        for need in (java.jdk, java.commons_pool, *needs):
            need()
        return play_checks(found)
    except java.Missing as missing:
        return skip_all(what, missing)


def run_java(path, *words, options=(), variables={}, longest=LONGEST):
    """Runs a class with its words, over a class path."""
    command = [java.jdk() / "bin/java", "-XX:-UsePerfData", *options, "-cp", os.pathsep.join(map(str, path)), *map(str, words)]
    return playing.run(*command, stderr=subprocess.STDOUT, text=True, timeout=longest, env=os.environ | variables)


def run(jar, classes, *words, options=(), variables={}):
    """Runs a test program, over a jar or a folder with the classes of the library."""
    checked = ["-Xcheck:jni", "-XX:+ErrorFileToStdout", *options]
    return run_java([classes, jar, java.commons_pool()], *words, options=checked, variables=variables)


def program(name, done):
    """What is wanted of a test program, and what came of it."""
    yield f"{name}: the status", 0, done.returncode
    yield f"{name}: native methods", [], WARNING.findall(done.stdout)
    counts = COUNT.findall(done.stdout)
    yield f"{name}: what it found", "", "" if counts and counts[-1][1] == "0" else done.stdout
    yield from ((f"{name}: {number}", True, True) for number in range(int(counts[-1][0]) if counts else 0))


def found(jar, classes, native, folder):
    """What is wanted of runs in two class loaders each, and what came of it: the native library is found in each place that the page names, and its
    copy in a folder that takes it. One of tests/refuse_java.c holds no memory once its class loader is collected."""
    with zipfile.ZipFile(jar) as packed:
        packed.extractall(folder / "bare", [name for name in packed.namelist() if name.endswith(".class")])
    good, other, bad = folder / "good", folder / "home", folder / "bad"
    library, home = f"-Dzuphinka.library={jar.parent / 'libzuphinka_jni.so'}", [f"-Djava.io.tmpdir={good}", f"-Duser.home={other}"]
    good.mkdir(), other.mkdir()
    refuse = {"LD_PRELOAD": str(preloaded("refuse_folders", folder))}
    places = [
        ("by its property", folder / "bare", [library], {}),
        ("without its memory", folder / "bare", [f"-Dzuphinka.library={native}"], {"HELD": str(folder / "held")}),
        ("by the path of libraries", folder / "bare", [f"-Djava.library.path={jar.parent}"], {}),
        ("in the jar", jar, home, {}),
        ("without a temporary folder", jar, [f"-Djava.io.tmpdir={bad}"], {}),
        ("with a full folder", jar, home, refuse | {"FULL": str(good)}),
        ("with a folder that runs nothing", jar, home, refuse | {"NOEXEC": str(good)}),
    ]
    for name, path, options, variables in places:
        options = [*options, f"-Djournals={folder / 'of-loaders'}"]
        done = run(path, classes, "Loaders", classes, path, java.commons_pool(), options=options, variables=variables)
        yield from program(f"the native library {name}", done)
    nowhere = [f"-D{name}={bad}" for name in ("java.io.tmpdir", "user.home", "user.dir")]
    for name, path, options in ("without a library", folder / "bare", []), ("without a folder", jar, nowhere):
        done = run(path, classes, "Stress", 1, 50, folder / "not-found", options=options)
        told = [words in done.stdout for words in ("UnsatisfiedLinkError", "The property zuphinka.library names its file")]
        yield name, (1, [True, True]), (done.returncode, told)
    yield "copies that are left", [], [*good.iterdir(), *other.iterdir()]


def played(name, jar, classes, pool, place, **options):
    """What is wanted of a test program over a new folder, and of the journals there, each beside its settings; and what came of it."""
    place.mkdir()
    yield from program(place.name, run(jar, classes, name, place, **options))
    for settings in sorted(place.glob("*.toml")):
        done = playing.run(pool, "check", settings, settings.with_suffix(""), text=True)
        yield f"{place.name}: {settings.stem}", "legal", done.stdout.partition(" ")[0] or done.stderr


def measures(place):
    """What is wanted of the metrics, and what they are."""
    yield "measures: their course", "", openmetrics.fault_of_course("the metrics in Java", (place / "course").read_text(), MEASURED)
    if openmetrics.is_read("the metrics of two pools in Java"):
        text = (place / "pools").read_text()
        yield "measures: two pools", "", openmetrics.fault_of(openmetrics.pools_of, text)
        yield "measures: their names", NAMES, list(openmetrics.pools_of(text))


def refusing(library, folder):
    """The native library with short parts of texts, and with the native methods of io.github.zuphinka.Refusal."""
    native = folder / "refusing.so"
    flags = [*(f"-Wl,--wrap={name}" for name in WRAPPED), f"-DZUPHINKA_JNI_LONGEST_PART={SHORT_PART}"]
    java.compile_native(library, heap_of_kit(), native, *flags, TOP / "tests/refuse_java.c")
    return native


def refusals(jar, classes, native, judge, folder):
    """What is wanted of lives in which allocations fail, and what came of it: those of the native library each in turn, and those of a full heap."""
    journals = folder / "refusals"
    yield from program("refusals", run(jar, classes, "Refusals", journals, options=[f"-Dzuphinka.library={native}", java.QUICK]))
    for place in sorted(journals.iterdir()):
        yield f"refusals: {place.name}", *stored_journal(judge, place, 0)
    yield from program("a full heap", run(jar, classes, "Refusals", "heap", options=["-Xmx24m", "-XX:+UseSerialGC", java.QUICK]))


def size_until(file, entries):
    """How many bytes a file has until so many entries."""
    text = file.read_bytes()
    ends = [line.end() for line in re.finditer(rb".* = .*\n", text)] if file.name.startswith("segment-") else []
    return ends[entries - 1] if len(ends) >= entries else len(text)


def calls(jar, classes, pool, judge, folder):
    """What is wanted of the calls, of their journals, and of the order in which files of these are synced and renamed; and what came of it."""
    place, noted, wanted = folder / "calls", folder / "noted", []
    variables = {"NOTED": str(noted), "LD_PRELOAD": str(preloaded("note_syncs", folder))}
    yield from played("Calls", jar, classes, pool, place, variables=variables)
    for above in [place], [place, place / "interrupted"]:
        journal = start_of(above[-1] / "stored")
        wanted += [f"sync {existing} 0" for existing in [*above, journal.parent]]
        segments = sorted(journal.glob("segment-*"))
        for file in journal / "start.toml", journal / "settings.toml", segments[0], journal / "callers.txt", *segments[1:]:
            unfinished, size, begun = journal / ".unfinished", file.stat().st_size, size_until(file, CUT)
            wanted += [f"sync {unfinished} {begun}", f"rename {unfinished} {file}", f"sync {journal} 0", *[f"sync {file} {size}"] * (size > begun)]
        yield f"calls: {journal.parent.name}", *stored_journal(judge, journal)
    yield "calls: syncs and renames", wanted, [line for line in noted.read_text().splitlines() if str(place) in line]


def journals_below(place, judge):
    """What is wanted of the journals of pools below a folder, and what they are."""
    starts = sorted(path.parent for path in place.rglob("settings.toml"))
    yield f"{place.name}: there are journals", True, bool(starts)
    for start in starts:
        yield f"{place.name}: {start.parent.name}/{start.name}", *stored_journal(judge, start, 0)


def exits(jar, classes, judge, place):
    """What is wanted of the journals of processes that end while an object is lent, with a maintenance thread and without one; and what they are."""
    for end, more in itertools.product(EXITS, ([], ["maintained"])):
        name = " ".join(["exits:", end, *more])
        command = [java.jdk() / "bin/java", java.QUICK, "-cp", f"{classes}:{jar}:{java.commons_pool()}", "Exits", place / name, end, *more]
        with subprocess.Popen(list(map(str, command)), stdout=subprocess.PIPE, text=True) as program:
            start, steps = pathlib.Path(program.stdout.readline().strip()), int(program.stdout.readline())
            until = time.monotonic() + LONGEST
            while end == "killed" and entries_in(start) < steps and time.monotonic() < until:
                time.sleep(0.1)
            if end == "killed":
                program.kill()
            yield f"{name}: the status", -9 if end == "killed" else 0, program.wait(LONGEST)
        yield f"{name}: stored entries", (steps, True), (entries_in(start), steps > 5)
        yield f"{name}: its journal", *stored_journal(judge, place / name)


def entries_in(start):
    """How many entries are stored in a folder."""
    return sum(len(TIME.findall(segment.read_text())) for segment in start.glob("segment-*"))


def portable(jar):
    """What is wanted of the classes and the native library of a jar, and what it is: the page's oldest Java, and no library but that of C."""
    oldest = int(re.search(r"a JDK from version (\d+) on", (java.JAVA / "README.md").read_text())[1])
    with zipfile.ZipFile(jar) as packed, scratch() as folder:
        versions = {int.from_bytes(packed.read(name)[6:8], "big") for name in packed.namelist() if name.endswith(".class")}
        loaded = playing.run("ldd", packed.extract("libzuphinka_jni.so", folder), text=True).stdout
    yield "the version of the classes", {44 + oldest}, versions
    names = set(re.findall(r"^\t(?:/\S*/)?(\S+)", loaded, flags=re.MULTILINE))
    yield "what the native library loads", {"linux-vdso.so.1", "libc.so.6", "ld-linux-x86-64.so.2"}, names


def documentation(folder):
    """What is wanted of the documentation of both jars' classes, and what is wrong with it by javac."""
    words = [f"-J{java.QUICK}", "--release", java.RELEASE, "-Xdoclint:all/protected", "-Xmaxwarns", "1000", "-d", folder, "-cp", java.commons_pool()]
    sources = (path for place in (java.JAVA, java.DROP_IN) for path in (place / "src").rglob("*.java"))
    done = playing.run(java.jdk() / "bin/javac", *words, *sources, text=True)
    yield "the documentation", ("", 0), (done.stderr, done.returncode)


def example(name, report, judge, folder):
    """What is wanted of an example, and what came of it. All pages must run it by one command, whose last word is the folder for the journal."""
    pages = (page.read_text() for page in (TOP / "README.md", java.JAVA / "README.md"))
    commands = sorted({command for page in pages for command in re.findall(rf"^    (java .*/{name}\.java )", page, flags=re.MULTILINE)})
    yield f"{name}: its commands", 1, len(commands)
    done = playing.run("bash", "-ec", f"{commands[0]}{shlex.quote(str(folder))}", cwd=TOP, text=True)
    yield f"{name}: what it prints", True, re.fullmatch(report, done.stdout) is not None or done.stdout + done.stderr
    yield f"{name}: its journal", *stored_journal(judge, folder)


def examples(judge, picture, folder):
    """What is wanted of the examples, and what came of it. Those over jars that are missing are skipped."""
    if has("the examples in Java", "libcommons-pool2-java"):
        yield from example("FirstLoan", r"a session\n", judge, folder / "first")
        yield from example("Servers", r"180 requests were answered over \d+ connections\n", judge, folder / "servers")
    if has("the example Bank", "libcommons-pool2-java", *EXAMPLE_JARS.values()):
        yield from example("Bank", BANK, judge, folder / "bank")
        # Beside them a picture would have the names of their callers.
        (folder / "drawn").mkdir()
        yield "Bank: its picture", [], differences(picture, *(shutil.copy(path, folder / "drawn") for path in sorted(folder.glob("bank/*/segment-*"))))


def checks(library, pool, picture, judge):
    jar = java.build(library, heap_of_kit())
    with zipfile.ZipFile(jar) as packed:
        yield "the version", True, f"Implementation-Version: {version()}" in packed.read("META-INF/MANIFEST.MF").decode().splitlines()
    yield from portable(jar)
    with scratch() as folder:
        classes = folder / "classes"
        sources = sorted((TOP / "tests/java").rglob("*.java"))
        java.compile_classes(sources, classes, jar, java.commons_pool())
        yield from calls(jar, classes, pool, judge, folder)
        for name in OVER_FOLDERS:
            yield from played(name, jar, classes, pool, folder / name.lower())
        for name in PROGRAMS:
            yield from program(name.lower(), run(jar, classes, name))
        yield from program("errors where more stack is kept", run(jar, classes, "Errors", options=["-XX:StackShadowPages=50"]))
        yield from program("waits on a full heap", run(jar, classes, "Waits", "heap", options=HEAP))
        yield from measures(folder / "measures")
        without = [path.name for path in map(start_of, (folder / "reconfigures").iterdir()) if path.is_dir() and not [*path.glob("settings-*.toml")]]
        yield "reconfigures: journals without files of settings", [], without
        native = refusing(library, folder)
        yield from refusals(jar, classes, native, judge, folder)
        options = [f"-Dzuphinka.library={native}", java.QUICK]
        yield from program("refused changes", run(jar, classes, "RefusedChanges", options=options))
        yield from played("Folders", jar, classes, pool, folder / "folders", options=[*options, "-XX:MaxDirectMemorySize=2m"])
        for name in "folders", "flushes", "lifetimes", "reconfigures":
            yield from journals_below(folder / name, judge)
        yield from exits(jar, classes, judge, folder / "exits")
        yield from found(jar, classes, native, folder)
        options = ["-p", f"{jar}:{java.commons_pool()}", "--add-modules", java.MODULE]
        yield from program("a module", run(classes, classes, "Stress", 1, 50, folder / "module", options=options))
        yield from documentation(folder / "documented")
        yield from examples(judge, picture, folder)
        for seed in SEEDS:
            journal = folder / f"stress-{seed}"
            words = ["abandoned"] * (seed % 2) + ["bare"] * (seed // 2 % 2)
            yield from program(f"stress {seed}", run(jar, classes, "Stress", seed, MILLIS, journal, *words))
            yield f"stress {seed}: its journal", *stored_journal(judge, journal)
            times = [int(time) for segment in sorted(start_of(journal).glob("segment-*")) for time in TIME.findall(segment.read_text())]
            yield f"stress {seed}: times that fall", (True, []), (bool(times), [pair for pair in itertools.pairwise(times) if pair[0] > pair[1]])


if __name__ == "__main__":
    sys.exit(play_with_java("the pool for Java", checks(*map(pathlib.Path, sys.argv[1:]))))

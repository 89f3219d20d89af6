"""What the benchmarks share: the machine, and what else its processors do meanwhile; how programs are built, and tables."""

import argparse
import os
import pathlib
import re
import subprocess
import sys
import tempfile
import time

TOP = pathlib.Path(__file__).resolve().parent.parent
sys.path += [str(TOP / "tools"), str(TOP / "tests")]

import java
from install import INCLUDE, POOL, heap_of_kit
from playing import COMPILER

LIBRARY, JAR = java.LIBRARY, java.DEBIAN_JAR
REGISTRY = pathlib.Path("/usr/share/cargo/registry")
# Debian's packages of the pools that ours are compared with, of what they are over, and of the compilers.
PACKAGES = (
    "libcommons-pool2-java", "libcommons-dbcp2-java", "libhikaricp-java", "librust-r2d2-dev", "librust-tokio-dev", "librust-tokio-postgres-dev",
    "libpostgresql-jdbc-java", "libpq-dev", "default-jdk-headless", "gcc",
)
# The lines of the tables that were printed, each table behind an empty line.
TABLES = []


class Miscounted(Exception):
    """A run failed, or reported other counts than its work has."""


def announce(work):
    """Prints the processors, the versions of what is installed, the time with the load of the last minute, and the work."""
    names = re.findall(r"^model name\s*: (.*)$", pathlib.Path("/proc/cpuinfo").read_text(), flags=re.MULTILINE)
    words = "dpkg-query", "--show", "--showformat=${Package} ${Version}, ", *PACKAGES
    installed = subprocess.run(words, stdout=subprocess.PIPE, stderr=subprocess.DEVNULL, text=True).stdout
    print(f"{len(names)} processors, {names[0]}" if names else "an unknown processor")
    print(f"{installed}{version_of('rustc', '--version')}")
    print(f"{time.strftime('%Y-%m-%d %H:%M %Z')}, load average {os.getloadavg()[0]:.2f}; {work}", flush=True)


def times():
    """The ticks of all processors, by the kinds of `/proc/stat`, and the seconds of this program and its children."""
    with open("/proc/stat") as file:
        ticks = [int(word) for word in file.readline().split()[1:9]]
    return ticks, sum(os.times()[:4])


class Meter:
    """The processor time since it was made."""

    def __init__(self):
        self.began = times()

    def __str__(self):
        """The shares of all processor time that other programs and other machines took."""
        (ticks, own), (old_ticks, old_own) = times(), self.began
        user, nice, system, idle, iowait, irq, softirq, steal = (new - old for new, old in zip(ticks, old_ticks))
        busy = user + nice + system + irq + softirq
        whole = max(1, busy + idle + iowait + steal)
        others = max(0, busy - (own - old_own) * os.sysconf("SC_CLK_TCK"))
        return f"\nother programs took {others / whole:.1%} of the processor time, other machines {steal / whole:.1%}"


def build(*command, **options):
    subprocess.run([str(word) for word in command], check=True, **options)


def built(crate):
    """Proves and builds a program of the repository, if it isn't built of its sources. Returns its path."""
    build(sys.executable, TOP / "tools/build.py", crate)
    return TOP / "crates" / crate / "out" / crate


def of_registry(registry):
    """The words by which cargo takes the sources of crates from a registry of Debian."""
    return ["--config", 'source.crates-io.replace-with="debian"', "--config", f'source.debian.directory="{registry.resolve()}"']


def built_by_cargo(package, *words, registry=None, target=None):
    """Builds a package, with the sources of crates that a registry of Debian has, in a folder of its own or in `target`. Returns the folder of its
    programs."""
    target = target or os.environ.get("CARGO_TARGET_DIR", package / "target")
    source = of_registry(registry) if registry else []
    build("cargo", "build", "--offline", "--release", "--quiet", "--target-dir", target, *source, *words, cwd=package)
    return pathlib.Path(target) / "release"


def built_c(program, *words):
    """Compiles a program over the C pool, of sources and with flags, whose folders of headers come first. Returns its path."""
    build(COMPILER, "-std=c11", "-O2", "-pthread", "-o", program, *words, "-I", INCLUDE)
    return program


def over_c_pool(library):
    """What a program over the C pool is linked of."""
    return POOL, library, heap_of_kit()


def built_java(place, folder, names, jars, library=None, in_place=False):
    """Compiles classes of a folder over jars, with the pool for Java if its library is given, and with our class in place of Commons Pool's. Returns the
    command that runs the first class."""
    native, files = place / "libzuphinka_jni.so", [folder / f"{name}.java" for name in names]
    if library:
        java.compile_native(library, heap_of_kit(), native)
        files += (java.JAVA / "src").rglob("*.java")
    if in_place:
        files += (java.DROP_IN / "src").rglob("*.java")
    java.compile_classes(files, place, *jars)
    path = [place, *jars] if in_place else [*jars, place]
    return ["java", "-XX:-UsePerfData", f"-Dzuphinka.library={native}", "-cp", os.pathsep.join(map(str, path)), names[0]]


def version_of(*command):
    """The first line that a program prints of its version. It is empty if the program does not run."""
    try:
        done = subprocess.run(command, capture_output=True, text=True)
    except OSError:
        return ""
    return (done.stdout + done.stderr).partition("\n")[0] if done.returncode == 0 else ""


def runs_cargo():
    return bool(version_of("cargo", "--version"))


def entered(builders, wanted):
    """What comes of the builders of the wanted columns, by the names of these or of some of them. A builder that lacks something is named and left out."""
    found = {}
    for columns, builder in builders.items():
        if not {*columns}.isdisjoint(wanted):
            try:
                found |= builder([column for column in columns if column in wanted])
            except (OSError, subprocess.CalledProcessError, java.Missing, SystemExit) as error:
                print(f"left out: {'; '.join(columns)}:", *str(error).splitlines()[:2], flush=True)
    return found or sys.exit("nothing to run")


def parser_of(description, *names, **defaults):
    """A parser of these options and of --page, perhaps with other defaults."""
    parser = argparse.ArgumentParser(description=description, formatter_class=argparse.RawDescriptionHelpFormatter)
    path = {"type": pathlib.Path}
    options = {
        "only": {"metavar": "COLUMN", "action": "append"}, "rounds": {"type": int, "default": 5}, "pool": path, "judge": path,
        "library": path | {"default": LIBRARY}, "registry": path | {"default": REGISTRY},
        "page": {"metavar": "MARK", "nargs": "?", "const": f"bench/{parser.prog}", "help": "write the tables to docs/speed.md, behind this mark"},
    }
    for name in (*names, "page"):
        parser.add_argument(f"--{name}", **options[name])
    parser.set_defaults(**defaults)
    return parser


def print_line(line):
    TABLES.append(f"{line}\n")
    print(line, flush=True)


def print_row(*cells):
    print_line("| " + " | ".join(cells) + " |")


def print_head(*cells):
    print_line("")
    print_row(*cells)
    print_line("|---" * len(cells) + "|")


def write_page(mark):
    """Puts all tables that were printed into docs/speed.md, between the line `<!-- MARK -->` and the next `<!-- end -->`."""
    page, line = TOP / "docs/speed.md", f"<!-- {mark} -->\n"
    before, _, behind = page.read_text().partition(line)
    page.write_text(f"{before}{line}{''.join(TABLES).strip()}\n{behind[behind.index('<!-- end -->'):]}")


def measured(title, rows, name_of, race, form):
    """Races all rows, and prints each as soon as it is measured, a number in this form for each column. Returns what was measured, by column."""
    found = []
    for row in rows:
        found.append(race(row))
        if len(found) == 1:
            print_head(title, *found[0])
        print_row(name_of(row), *map(form, found[-1].values()))
    return found


def play(compare, asked):
    """Calls this with a temporary folder and what was asked for, and writes the tables to the page if that was. Ends this process if a run failed."""
    with tempfile.TemporaryDirectory(prefix="zuphinka-", ignore_cleanup_errors=True) as folder:
        try:
            compare(pathlib.Path(folder), asked)
        except Miscounted as error:
            sys.exit(f"a run failed: {error}")
    if asked.page:
        write_page(asked.page)

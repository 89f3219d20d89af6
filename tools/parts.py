"""The parts of ./check, as it shows them. Those begin first that take longest. `./check --list` tells their names and what they test. Some are also
parts of `./check quick`, and one of that alone. And the Debian packages that they need besides the Rattle kit, which `./check --install` installs."""

import dataclasses
import os
import pathlib
import shutil

import sources
from runner import Part

# Cargo makes this folder under another name first, on which a build beside it may come that lists the files of the Rust crate. So it is there before.
CARGO = ("bindings/rust/target",)


@dataclasses.dataclass(frozen=True)
class Package:
    """A Debian package: its name; its sign, a command or the pattern of a path, by which it counts as installed, whatever it is from; the parts that
    need it, or none if all do; and the variable that names another place of what it has."""

    name: str
    sign: str
    parts: tuple[str, ...] = ()
    variable: str = ""

    def is_there(self):
        is_path = self.sign.startswith("/")
        return bool(os.environ.get(self.variable) or (any(pathlib.Path("/").glob(self.sign[1:])) if is_path else shutil.which(self.sign)))


def libraries_of(*crates):
    """The libraries that the crates depend on. Those come first whose builds build others of them too."""
    libraries = {library for crate in crates for library in sources.below(crate) - {crate}}
    return tuple(sorted(libraries, key=lambda name: (-len(sources.below(name)), name)))


PROOFS = Part("proofs", "every proof, every test in Rattle, and that each mutant is rejected", "rt ci")

PARTS = (
    Part("mutants", "each function is rejected in which an edit makes one of several mistakes",
         "python3 tests/play_mutants.py", libraries_of(*sources.with_mistakes())),
    Part("segments", "damaged journals and segments, and segments that are checked together", "python3 tests/play_segments.py {pool} tests/cases"),
    Part("refused-uses", "each use of the program, with each allocation failing in turn", "python3 tests/refuse_uses.py {pool}"),
    Part("refused-lives", "whole lives of pools, with each allocation failing in turn",
         "python3 tests/refuse_memory.py goes-on {test_lifecycle} crates/test_lifecycle/stdout"),
    Part("refused-calls", "each call of a shared pool, with each allocation failing in turn",
         "python3 tests/refuse_memory.py shared {test_failures} crates/test_failures/stdout tests/refused_calls"),
    Part("refused-at-random", "four threads on one pool, with allocations failing at random",
         "python3 tests/refuse_memory.py by-chance {test_stress} crates/test_stress/stdout 10"),
    Part("work", "reads, writes and allocations of the program and of a cut", "python3 tests/count_work.py {pool} {test_counts}"),
    Part("sizes", "journals and settings of all sizes, and many objects that are evicted and cleared", "python3 tests/play_sizes.py {pool}"),
    Part("judge", "segments that are checked independently and joined", "python3 tests/play_judge.py {judge} tests/cases"),
    Part("rust", "the Rust crate: its tests, its examples, its binding", "python3 tests/check_rust.py {pool} {judge}", ("zuphinka",), folders=CARGO),
    Part("java",
         "the pool for Java: its calls, also with failing allocations, eight threads that call at random, its journals, examples and documentation",
         "python3 tests/play_java.py {zuphinka} {pool} {journal_picture} {judge}"),
    Part("drop-in", "the pool for Java in place of Commons Pool 2: its members, settings that change, and DBCP2's BasicDataSource over it",
         "python3 tests/play_drop_in.py {zuphinka} {judge}"),
    Part("maven", "the jars of the pool for Java that Maven builds", "python3 tests/play_maven.py {zuphinka}"),
    Part("java-random", "six threads that call at random over a factory that fails, on the pool for Java; what Commons Pool 2 does there is shown",
         "python3 tests/commons_random.py --threads {zuphinka}"),
    Part("commons-random", "random calls of one thread, each made of the pool for Java, or in place of Commons Pool 2, and of the library",
         "python3 tests/commons_random.py {zuphinka}"),
    Part("commons-pool", "the tests of Commons Pool 2, unchanged, over the pool for Java",
         "python3 tests/play_commons_pool.py {zuphinka} {judge}", fetch="python3 tests/play_commons_pool.py --fetch"),
    Part("commands", "the commands, journals and pictures that the pages show, and the examples of the settings",
         "python3 tests/play_commands.py {pool} {journal_picture}", ("judge", "example_archive", "zuphinka"), folders=CARGO),
    Part("postgres", "the examples over PostgreSQL, in Rust, Java and C, while the server fails",
         "python3 tests/play_postgres.py {zuphinka} {judge}", folders=CARGO),
    Part("c-pool", "the C pool for threads, also with failing allocations", "python3 tests/play_c_pool.py {zuphinka} {judge}"),
    Part("tools", "a use of ./check, ./try, tools/build.py and the benchmarks, and a wrong one",
         "python3 tests/play_tools.py {pool} {zuphinka}"),
    Part("soak", "some seconds of bench/soak", "python3 bench/soak --pairs 2000000 --pool {pool}", ("zuphinka",), folders=CARGO),
    Part("calls", "calls of many callers, event by event at random, against a model of their rules", "python3 tests/play_calls.py {test_calls}"),
    Part("cases", "all cases of tests/cases on the program", "python3 tests/play_cases.py {pool} tests/cases"),
    Part("case-files", "the files of tests/cases are as tests/make_cases.py makes them", "python3 tests/make_cases.py --check"),
    Part("program", "arguments, files, statuses and messages of the program", "python3 tests/play_program.py {pool}"),
    Part("lines", "lines of scripts, journals and bases that break the format", "python3 tests/play_lines.py {pool}"),
    Part("picture", "the pictures of journal_picture", "python3 tests/check_picture.py {journal_picture} tests/cases"),
    Part("archive", "the example of an archive, and its segments",
         "python3 tests/play_archive.py {example_archive} crates/example_archive/stdout {pool}"),
    Part("bank", "the example over SQLite, its accounts and its journal", "python3 tests/play_bank.py {example_bank} {pool} {journal_picture} 3"),
    Part("terminal", "progress and hints at a terminal", "python3 tests/play_terminal.py {pool}"),
    Part("pages", "what the pages name is there, the code that they show is compiled code, and their tables agree with the sources",
         "python3 tests/check_pages.py"),
    Part("version", "all products have one version", "python3 tests/check_version.py {pool} {judge} {journal_picture}"),
    Part("c-cases", "the cases on the C library", "python3 tests/play_library.py cases {zuphinka} tests/cases"),
    Part("c-segments", "the cases on the C library, with the journal cut", "python3 tests/play_library.py segments {zuphinka} {pool} tests/cases"),
    Part("c-refused", "the cases on the C library, with each allocation failing in turn",
         "python3 tests/play_library.py refused {zuphinka} tests/cases/worked"),
    Part("c-programs", "the C examples, the header, and a run under valgrind", "python3 tests/play_library.py programs {zuphinka} tests/cases/worked"),
    Part("c-crowd", "calls that wait on the C library", "python3 tests/play_library.py crowd {zuphinka}"),
    Part("c-many", "many objects on the C library", "python3 tests/play_library.py many {zuphinka} {pool}"),
    Part("c-install", "the installed C library, and programs that are built with it", "python3 tests/play_install.py {zuphinka}"),
    Part("release", "the archive of a release, unpacked and used without the kit",
         "python3 tests/play_release.py .", ("pool", "judge", "journal_picture", "zuphinka")),
)

# The part of `./check quick` alone: a whole check has others, which test the same and more.
UNPROVED = Part("unproved", "worked cases on the program without its proofs", "python3 tests/play_unproved.py tests/cases/worked")
# All parts of `./check quick`, which proves nothing and takes less than five minutes.
QUICK = (UNPROVED.name, "rust", "case-files", "pages")

JARS, CRATES = "/usr/share/java", "/usr/share/cargo/registry"
PLUGINS = "/usr/share/maven-repo/org/apache/maven/plugins"
# Maven's plugins, each in a package of its own, with the versions that it looks for.
MAVEN_PLUGINS = {"antrun": "3.1.0", "compiler": "3.10.1", "install": "2.4", "jar": "3.3.0", "javadoc": "3.4.1", "resources": "2.6", "source": "3.2.1"}
IN_JAVA = ("java", "drop-in", "maven", "java-random", "commons-random", "commons-pool", "release", "postgres")
OVER_POSTGRES = ("postgres",)

PACKAGES = (
    Package("gcc", "cc", variable="CC"),
    Package("libc6-dev", "/usr/include/stdio.h"),
    Package("g++", "g++", ("c-programs", "c-pool"), "CXX"),
    Package("clang", "clang++", ("c-programs", "c-pool"), "CXX"),
    Package("valgrind", "valgrind", ("sizes", "c-programs", "c-crowd", "c-many", "c-pool")),
    Package("make", "make", ("c-install", "commands")),
    Package("pkgconf", "pkg-config", ("c-install", "release")),
    # The cargo of Debian 12's package of that name is older than the Rust crate allows.
    Package("cargo-web", "cargo", ("rust", "commands", "soak", "release", "postgres")),
    Package("python3-prometheus-client", "/usr/lib/python3/dist-packages/prometheus_client", ("rust", "java", "c-pool", "postgres")),
    Package("librust-tokio-dev", f"{CRATES}/tokio-[0-9]*", ("rust",)),
    Package("default-jdk-headless", "javac", IN_JAVA, "JAVA_HOME"),
    Package("libcommons-pool2-java", f"{JARS}/commons-pool2.jar", IN_JAVA, "COMMONS_POOL2"),
    Package("libcommons-dbcp2-java", f"{JARS}/commons-dbcp2.jar", ("java", "drop-in", "maven", "release", "postgres")),
    Package("libcommons-logging-java", f"{JARS}/commons-logging.jar", ("drop-in",)),
    Package("libh2-java", f"{JARS}/h2.jar", ("java", "drop-in", "release")),
    Package("maven", "mvn", ("maven",)),
    Package("libexec-maven-plugin-java", "/usr/share/maven-repo/org/codehaus/mojo/exec-maven-plugin/3.1.0", ("maven",)),
    *(Package(f"libmaven-{name}-plugin-java", f"{PLUGINS}/maven-{name}-plugin/{version}", ("maven",)) for name, version in MAVEN_PLUGINS.items()),
    Package("libsurefire-java", f"{PLUGINS}/maven-surefire-plugin/2.12.4", ("maven",)),
    Package("junit5", f"{JARS}/junit-jupiter-engine.jar", ("commons-pool",)),
    Package("libcglib-java", f"{JARS}/cglib.jar", ("commons-pool",)),
    Package("postgresql", "/usr/lib/postgresql/*/bin/initdb", OVER_POSTGRES),
    Package("libpq-dev", "/usr/include/postgresql/libpq-fe.h", OVER_POSTGRES),
    Package("libpostgresql-jdbc-java", f"{JARS}/postgresql.jar", OVER_POSTGRES),
    Package("librust-tokio-postgres-dev", f"{CRATES}/tokio-postgres-[0-9]*", OVER_POSTGRES),
)

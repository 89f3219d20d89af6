"""The pools that `bench/peers` compares: how each is built, run and checked."""

import dataclasses
import functools
import os
import pathlib
import time
from collections.abc import Callable

from contest import JAR, TOP, Miscounted, build, built, built_by_cargo, built_c, built_java, over_c_pool
from playing import preloaded, run

CONTESTANTS, RUST, CRATE = TOP / "bench/peers_java", TOP / "bench/peers_rust", TOP / "bindings/rust"
# The jars of the others: those of Debian, or those that the environment names.
COMMONS_JAR = pathlib.Path(os.environ.get("COMMONS_POOL2", JAR))
HIKARI_JAR = pathlib.Path(os.environ.get("HIKARI_CP", JAR.with_name("HikariCP.jar")))
COMMONS, R2D2, PLAIN = "Commons Pool 2", "r2d2", "plain Rust"
COMMONS_HOOKS = "Commons Pool 2, hooks"
JAVA, JAVA_HOOKS = "Java", "Java, hooks"
IN_PLACE, IN_PLACE_HOOKS = "Java, in place", "Java, in place, hooks"
HIKARI = "HikariCP bag"
COUNTER, CLOCK, HOOKS = "crate, counter", "crate, clock", "crate, clock, hooks"
C = "C"
LOAD, THREADS_OF_LOAD = "load", "load, threads alone"
# The words of the crate's example for each of its columns.
PAIRS_WORDS = {COUNTER: [], CLOCK: ["instant"], HOOKS: ["instant", "hooks"]}
JOURNAL_LIMIT = 1 << 32


@dataclasses.dataclass
class Row:
    """Threads that share a pool, and the pairs of a borrow and a return that each of them makes."""

    objects: int
    threads: int
    each: int

    @property
    def pairs(self):
        return self.threads * self.each

    @property
    def name(self):
        return ", ".join(f"{number} {word}{'s' * (number > 1)}" for number, word in ((self.objects, "object"), (self.threads, "thread")))


@dataclasses.dataclass
class Entrant:
    """A program that does the work of a row, and its columns of the table. `is_right` checks its report; `times` returns the seconds of each column,
    from the report and the seconds of the whole process, which count alone if nothing else is said."""

    columns: list[str]
    command: Callable[[Row], list]
    is_right: Callable[[Row, dict], bool]
    times: Callable[[dict, float], list] = lambda report, seconds: [seconds]
    environment: dict = dataclasses.field(default_factory=dict)

    def run(self, row):
        """Runs the program once. Returns its seconds, by column."""
        command = [str(word) for word in self.command(row)]
        began = time.perf_counter()
        done = run(*command, env=os.environ | self.environment, text=True)
        seconds = time.perf_counter() - began
        report = dict(line.split(" ", 1) for line in done.stdout.splitlines() if " " in line)
        if done.returncode or not self.is_right(row, report):
            raise Miscounted(f"{row.name}: {' '.join(command)}: status {done.returncode}\n{done.stdout}{done.stderr}")
        return dict(zip(self.columns, self.times(report, seconds)))


def numbers(report, *words):
    """The numbers that a program reports beside these words; -1 for a word without a number."""
    return [int(text) if text.isdecimal() else -1 for text in (report.get(word, "") for word in words)]


def is_right_load(row, report):
    """A pair that is kept in a journal is four entries at least, an object two more in the end, and the close one."""
    created, destroyed = numbers(report, "created", "destroyed")
    asked = numbers(report, "workers", "rounds", "refused") == [row.threads, row.each, 0]
    if "steps" in report:
        done = int(report["steps"]) >= 4 * row.pairs + 2 * created + 1
    else:
        done = numbers(report, "borrowed", "returned") == [row.pairs] * 2
    return asked and done and 1 <= created == destroyed


def peer(column, program):
    """A program that is given the numbers of a row."""

    def is_right(row, report):
        pairs, created = numbers(report, "pairs", "created")
        return pairs == row.pairs and 1 <= created <= row.objects

    return {column: Entrant([column], lambda row: [program, row.objects, row.threads, row.each], is_right)}


def contestants(program, factory, columns):
    """Contestants in Java that take turns, whose times are those that they measured after their warm-up. `columns` has the column of each."""

    def is_right(row, report):
        found = [numbers(report, f"{kind}-pairs", f"{kind}-created", f"{kind}-nanoseconds") for kind in columns]
        return all(pairs == row.pairs and 1 <= created <= row.objects and nanoseconds > 0 for pairs, created, nanoseconds in found)

    def command(row):
        return [*program, row.objects, row.threads, row.each, factory, *columns]

    def times(report, _):
        return [int(report[f"{kind}-nanoseconds"]) / 1e9 for kind in columns]

    return Entrant([*columns.values()], command, is_right, times)


def in_java(folder, others, kinds, factories, jars, wanted, **options):
    """Builds contestants in Java with other classes, and enters them with each factory of which a column is wanted, by the first column of that."""
    place = folder / "-".join(kinds)
    place.mkdir()
    program = built_java(place, CONTESTANTS, ["Bench", "Contestant", *others, *kinds], jars, **options)
    chosen = {factory: columns for factory, columns in factories.items() if not {*columns}.isdisjoint(wanted)}
    return {columns[0]: contestants(program, factory, dict(zip(kinds, columns))) for factory, columns in chosen.items()}


def plain(folder, wanted):
    program = folder / "plain_pool"
    build("rustc", "-O", "--edition", "2021", RUST / "plain_pool.rs", "-o", program)
    return peer(PLAIN, program)


def asks(folder, program, *words, before=()):
    """The command of a program for each row, with settings that have a place for each object, and room for all entries if a journal is kept."""

    def command(row):
        path = folder / f"{row.objects}.toml"
        path.write_text(f"journalLimit = {JOURNAL_LIMIT}\nmaxTotal = {row.objects}\nmaxIdle = {row.objects}\n")
        return [program, *before, path, row.threads, row.each, *words]

    return command


def crate(folder, wanted):
    program = built_by_cargo(CRATE, "--example", "pairs") / "examples/pairs"
    return {column: Entrant([column], asks(folder, program, *PAIRS_WORDS[column]), is_right_load) for column in wanted}


def load(folder, pool, wanted):
    """`pool load`, once for the time of the whole process, and for that of its threads, which tell it to a preloaded library."""
    library, worked = preloaded("worked", folder, TOP / "bench"), folder / "worked"

    def times(report, seconds):
        told = float(worked.read_text())
        worked.unlink()
        return [seconds, told]

    command, environment = asks(folder, pool or built("pool"), before=["load"]), {"LD_PRELOAD": str(library), "WORKED": str(worked)}
    return {LOAD: Entrant([LOAD, THREADS_OF_LOAD], command, is_right_load, times, environment)}


def builders(folder, asked):
    """What enters the columns. `asked` has the places of what they need, and the program `pool`, if it is not to be built."""
    of_java = {"bare": [COMMONS, JAVA], "hooked": [COMMONS_HOOKS, JAVA_HOOKS]}
    in_place = {"bare": [IN_PLACE], "hooked": [IN_PLACE_HOOKS]}
    jars, of_hikari = [COMMONS_JAR], [HIKARI_JAR, HIKARI_JAR.with_name("slf4j-api.jar")]
    return {
        (COMMONS, JAVA, COMMONS_HOOKS, JAVA_HOOKS):
            lambda wanted: in_java(folder, ["Holders"], ["Commons", "Zuphinka"], of_java, jars, wanted, library=asked.library),
        (IN_PLACE, IN_PLACE_HOOKS):
            lambda wanted: in_java(folder, ["Holders", "Commons"], ["InPlace"], in_place, jars, wanted, library=asked.library, in_place=True),
        (HIKARI,): lambda wanted: in_java(folder, [], ["Hikari"], {"bare": [HIKARI]}, of_hikari, wanted),
        (R2D2,): lambda _: peer(R2D2, built_by_cargo(RUST, registry=asked.registry) / "r2d2_pool"),
        (PLAIN,): functools.partial(plain, folder),
        tuple(PAIRS_WORDS): functools.partial(crate, folder),
        (C,): lambda _: peer(C, built_c(folder / "pairs_c", TOP / "bench/pairs_c.c", *over_c_pool(asked.library))),
        (LOAD, THREADS_OF_LOAD): functools.partial(load, folder, asked.pool),
    }

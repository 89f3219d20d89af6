"""Runs the examples over PostgreSQL, in Rust, Java and C, while the server fails in several ways.

    play_postgres.py LIBRARY JUDGE

LIBRARY is libzuphinka.a, and JUDGE the program `judge`. The server is one of this test's own, in a temporary folder. Eight workers of each example
transfer money over four connections. Meanwhile the server's processes are ended at random, it is restarted, it is stopped for three seconds as in a
crash, and it is restarted with a limit of two connections and without. Then

- no money is lost, each transfer stands in the table of transfers, and each that the example counts is there;
- no two workers use a connection at a time: triggers note the worker of a transaction under the process that serves it, and refuse another one;
- no more than four processes serve the example, except while a process ends whose connection was closed;
- a transfer begins within a second after each failure is over;
- the pool's metrics, which the example serves by HTTP, are in the OpenMetrics format while transfers run (tests/openmetrics.py), and tell of them;
- nothing is lent at the end, each connection is closed, and no process of the server is left;
- the journal is legal, has the counts that the example prints, and as many connections as the server has seen.

What needs a package that is missing is skipped, with the reason.
"""

import collections
import contextlib
import pathlib
import re
import signal
import subprocess
import sys
import tempfile
import threading
import time
import urllib.request

import openmetrics
from playing import NO_CARGO, TOP, has, play_checks, skip, start_of, stored_journal
from play_library import compiled
from postgres_server import ROLE, SHARED, TABLES, WITH_PARENT, WRONG, Server, end_by, free_port, sessions_of

import java
from contest import REGISTRY, built_by_cargo, runs_cargo
from install import POOL, heap_of_kit

CONNECTIONS = 4
# For how long an example transfers, in seconds: its failures take some eleven; and how long it may take to begin and to end.
SECONDS, SLACK = 40, 120
# How soon a transfer begins after a failure, in seconds, in one of how many tries.
SOON, TRIES = 1.0, 3
# How many processes are ended, and the time between two of them, in seconds.
ENDED, APART = 8, 0.15
STOPPED, FEW = 3, 2
# The time between two looks at the server's processes, in seconds, and how often that must have succeeded.
PAUSE, LEAST_LOOKS = 0.1, 10
# How long an answer of an example may take, and all of it, in seconds.
LONGEST_ANSWER, LONGEST = 30, 900
# The tables of the examples, and what watches them: the users of processes, those that were used, and a count of transfers that began.
WATCHED = f"""SET ROLE {ROLE};
{TABLES}CREATE TABLE users (backend int PRIMARY KEY, worker int NOT NULL);
CREATE TABLE used (backend int PRIMARY KEY);
CREATE SEQUENCE begun;
CREATE FUNCTION begin_use() RETURNS trigger LANGUAGE plpgsql AS $$ BEGIN
  PERFORM nextval('begun');
  INSERT INTO users VALUES (pg_backend_pid(), NEW.worker);
  INSERT INTO used VALUES (pg_backend_pid()) ON CONFLICT DO NOTHING;
  RETURN NEW;
END $$;
CREATE FUNCTION end_use() RETURNS trigger LANGUAGE plpgsql AS $$ BEGIN
  DELETE FROM users WHERE backend = pg_backend_pid() AND worker = NEW.worker;
  RETURN NULL;
END $$;
CREATE TRIGGER begin_use BEFORE INSERT ON transfer FOR EACH ROW EXECUTE FUNCTION begin_use();
CREATE CONSTRAINT TRIGGER end_use AFTER INSERT ON transfer DEFERRABLE INITIALLY DEFERRED FOR EACH ROW EXECUTE FUNCTION end_use();
"""
# An example: its name, its money, and the command that runs it over a database for some seconds, with a folder for its journal and a port for its
# metrics.
Example = collections.namedtuple("Example", "name euros command")
REPORT = re.compile(
    r"(?P<made>\d+) transfers, \d+ a second, (?P<failed>\d+) failed\n(?P<sum>\d+) euros in all\n"
    r"created (?P<created>\d+), destroyed (?P<destroyed>\d+), idle (?P<idle>\d+), lent (?P<lent>\d+)\n"
)


def over_connection_string(program):
    """The command of a program that takes a connection string as libpq does."""
    return lambda port, base, *words: [program, f"host=127.0.0.1 port={port} user={ROLE} dbname={base}", *words]


def examples(library, folder):
    """Builds the examples of whose dependencies all are there."""
    what, crate = "the example over PostgreSQL in", TOP / "bindings/rust"
    if has(f"{what} Rust", "librust-tokio-postgres-dev"):
        if runs_cargo():
            built = built_by_cargo(crate / "examples/postgres", registry=REGISTRY, target=crate / "target/postgres")
            yield Example("rust", 10_000, over_connection_string(built / "postgres"))
        else:
            skip(f"{what} Rust", NO_CARGO)
    if has(f"{what} C", "libpq-dev"):
        program = compiled("postgres", library, folder, ["-pthread", "-I", "/usr/include/postgresql", POOL, "-lpq"])
        yield Example("c", 10_000, over_connection_string(program))
    if has(f"{what} Java", "libpostgresql-jdbc-java", "libcommons-dbcp2-java", "default-jdk-headless", "libcommons-pool2-java"):
        path = f"{java.build(library, heap_of_kit(), folder / 'java')}:{java.DEBIAN_JAR.parent}/*"

        def command(port, base, seconds, journal, metrics):
            options = ["-XX:-UsePerfData", "-cp", path, f"-Dmetrics.port={metrics}", TOP / "bindings/java/examples/Bank.java"]
            return [java.jdk() / "bin/java", *options, journal, f"jdbc:postgresql://127.0.0.1:{port}/{base}?user={ROLE}", seconds]

        yield Example("java", 2_000, command)


class Watch(threading.Thread):
    """Looks at the server's processes again and again, and notes those beyond the most that are still there at the next look."""

    def __init__(self, server):
        super().__init__()
        self.server, self.is_over, self.excess, self.looks = server, threading.Event(), [], 0

    def run(self):
        before = set()
        while not self.is_over.wait(PAUSE):
            now = self.server.backends() or set()
            self.excess += [kept for kept in [before & now] if len(kept) > CONNECTIONS]
            self.looks += bool(now)
            before = now


@contextlib.contextmanager
def running(command, folder):
    """A program that runs, whose output and errors go to files of a folder."""
    with open(folder / "output", "wb") as output, open(folder / "errors", "wb") as errors:
        process = subprocess.Popen([*WITH_PARENT, "KILL", *map(str, command)], stdin=subprocess.DEVNULL, stdout=output, stderr=errors)
    try:
        yield process
    finally:
        process.kill()
        process.wait()


def begun(server, base):
    """How many transfers have begun."""
    return int(server.ask("SELECT CASE WHEN is_called THEN last_value ELSE 0 END FROM begun", base))


def seconds_until_transfer(server, base, longest):
    """How long it takes until another transfer begins, in seconds; infinite if it takes longer than this."""
    before, since = begun(server, base), time.monotonic()
    while begun(server, base) == before:
        if time.monotonic() - since > longest:
            return float("inf")
        time.sleep(0.01)
    return time.monotonic() - since


def end_some(server):
    """Ends processes of the role at random."""
    for _ in range(ENDED):
        server.ask(f"SELECT pg_terminate_backend(pid) FROM pg_stat_activity WHERE usename = '{ROLE}' ORDER BY random() LIMIT 1")
        time.sleep(APART)


def pause(server):
    """Stops the server as in a crash, for a while."""
    server.stop("immediate")
    time.sleep(STOPPED)
    server.start()


FAILURES = {
    "processes that are ended": end_some,
    "a restart": Server.restart,
    "a server that is away": pause,
    "fewer connections than objects": lambda server: server.allow(FEW),
    "enough connections again": lambda server: server.allow(CONNECTIONS),
}


def seconds_after(fail, server, base):
    """Lets the server fail in a way, and returns how long it takes then until a transfer begins, in seconds. If that is long, this is done again, since
    the machine may be busy; the least counts."""
    least = float("inf")
    for _ in range(TRIES):
        fail(server)
        least = min(least, seconds_until_transfer(server, base, 3 * SOON))
        time.sleep(SOON)
        if least <= SOON:
            break
    return least


def metrics(name, port):
    """What is wanted of the metrics that a program serves while transfers run, and what they are."""
    if not openmetrics.is_read(f"the metrics of the example over PostgreSQL in {name}"):
        return
    with urllib.request.urlopen(f"http://127.0.0.1:{port}/metrics", timeout=LONGEST_ANSWER) as answer:
        kind, text = answer.headers["Content-Type"], answer.read().decode()
    yield f"{name}: the type of its metrics", "application/openmetrics-text; version=1.0.0; charset=utf-8", kind
    pools = openmetrics.pools_of(text)
    yield f"{name}: pools of its metrics", ["bank"], list(pools)
    samples = "created_objects_total", "destroyed_objects_total", "lent_objects", "loan_seconds_count", "borrows_total", "loan_seconds_sum"
    made, destroyed, lent, ended, borrows, seconds = numbers = [pools["bank"][f"zuphinka_{sample}"] for sample in samples]
    is_right = 1 <= made - destroyed <= CONNECTIONS and lent <= made - destroyed and 0 < ended <= borrows and seconds > 0
    yield f"{name}: {samples}", True, is_right or numbers


def failures(name, server, base, process, port):
    """Lets the server fail in all ways, and yields what is wanted of the program meanwhile, and what came of it."""
    has_begun = seconds_until_transfer(server, base, SLACK) < SLACK
    yield f"{name}: it begins", True, has_begun
    yield from metrics(name, port) if has_begun else []
    for failure, fail in FAILURES.items() if has_begun else []:
        seconds = seconds_after(fail, server, base)
        print(f"{name}: {failure}: a transfer after {1000 * seconds:.0f} ms")
        yield f"{name}: {failure}: a transfer soon", True, seconds <= SOON or seconds
    yield f"{name}: it still runs", None, process.poll()


def counts_of(lines):
    """How many objects a journal says were asked for, how many freed their places, and how many were made."""
    entries = [line.split()[2:] for line in lines if " = " in line]
    asked = sum(words[-2] == "make" for words in entries)
    freed = sum(words[-1] == "freed" for words in entries)
    failed = sum(words[0] in ("ready", "added") and words[2] == "makefail" for words in entries)
    return asked, freed, asked - failed


def journal(name, judge, folder, told, log, used):
    """What is wanted of the journal, and what came of it."""
    yield f"{name}: its journal", *stored_journal(judge, folder)
    asked, freed, made = counts_of(line for segment in start_of(folder).glob("segment-*") for line in segment.read_text().splitlines())
    yield f"{name}: the counts of its journal", (asked, freed), (int(told["created"]), int(told["destroyed"]))
    least, most = sessions_of(log)
    print(f"{name}: {made} connections by the journal; by the server {len(least | used)} to {len(most)}; {asked - made} could not be made")
    yield f"{name}: connections that the server saw", True, len(least | used) <= made <= len(most) or (len(least | used), made, len(most))
    yield f"{name}: processes that were used are authorized", set(), used - most


def money(name, euros, server, base, told):
    """What is wanted of the tables, and what is there."""
    rows, made, failed = int(server.ask("SELECT count(*) FROM transfer", base)), int(told["made"]), int(told["failed"])
    yield f"{name}: the sum", (euros, euros), (int(told["sum"]), int(server.ask("SELECT sum(euros) FROM account", base)))
    yield f"{name}: accounts that differ from the transfers", "0", server.ask(WRONG, base)
    yield f"{name}: the number of transfers", True, 0 < made <= rows <= made + failed or (made, rows, failed)
    yield f"{name}: users that are left", "0", server.ask("SELECT count(*) FROM users", base)


def report(name, process, folder):
    """Reads what the program prints. Returns its words by their names, and what is wanted of it, and what came of it."""
    status = process.wait(SECONDS + SLACK)
    text, errors = ((folder / file).read_text(errors="replace") for file in ("output", "errors"))
    found = REPORT.fullmatch(text)
    print(f"{name}: {text.strip()!r}")
    checks = [(f"{name}: its status and report", (0, True), (status, found is not None) if status == 0 and found else (status, text, errors[-1000:]))]
    if found:
        ended = found["created"] == found["destroyed"], found["idle"], found["lent"]
        checks.append((f"{name}: objects at the end", (True, "0", "0"), ended))
    return found and found.groupdict(), checks


def played(example, server, judge, folder):
    """Plays an example. Yields what is wanted of it, and what came of it."""
    name, base, place = example.name, f"{ROLE}_{example.name}", folder / f"run-{example.name}"
    place.mkdir()
    server.ask(f"CREATE DATABASE {base} OWNER {ROLE}")
    server.ask(WATCHED, base)
    begin, watch, port = server.log.stat().st_size, Watch(server), free_port()
    with running(example.command(server.port, base, SECONDS, place / "journal", port), place) as process:
        watch.start()
        try:
            yield from failures(name, server, base, process, port)
            told, found = report(name, process, place)
        finally:
            watch.is_over.set()
            watch.join()
    yield from found
    yield f"{name}: processes of the server that are left", set(), server.backends()
    yield f"{name}: more than {CONNECTIONS} processes at a time", ([], True), (watch.excess, watch.looks >= LEAST_LOOKS)
    log = server.noted(begin)
    yield f"{name}: connections with two users", [], SHARED.findall(log)
    if told:
        used = set(server.ask("SELECT backend FROM used", base).split())
        yield from money(name, example.euros, server, base, told)
        yield from journal(name, judge, place / "journal", told, log, used)


def checks(library, judge):
    with tempfile.TemporaryDirectory(prefix="zuphinka-", ignore_cleanup_errors=True) as name:
        folder = pathlib.Path(name)
        built = [*examples(library, folder)]
        with Server(folder) as server:
            for example in built:
                yield from played(example, server, judge, folder)


def main(library, judge):
    end_by(signal.SIGTERM, signal.SIGHUP, signal.SIGALRM, last="\n0 passed, 1 failed")
    signal.alarm(LONGEST)
    return play_checks(checks(pathlib.Path(library), pathlib.Path(judge)) if has("the examples over PostgreSQL", "postgresql") else ())


if __name__ == "__main__":
    sys.exit(main(*sys.argv[1:]))

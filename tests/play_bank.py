"""Runs the example of pooled connections to SQLite databases, and looks at what it leaves.

    play_bank.py BANK POOL JOURNAL_PICTURE RUNS

All three are programs. Each run must write the file stdout of crates/example_bank. Its books are read by the sqlite3 that comes with Python, and must
have the sums of the orders; its journal must be legal, have the statistics that follow from the work of its clerks, and be drawn.
"""

import collections
import contextlib
import pathlib
import re
import sqlite3
import sys

from check_picture import differences
from playing import TOP, ended, play_checks, run, scratch

CRATE = TOP / "crates/example_bank"
SETTINGS = re.compile('const SETTINGS: &str = "(.*?)";', re.DOTALL)
CLERKS, ORDERS, BOOKS = 4, 25, 3
# One loan for each order, and one more for the order over which a connection broke.
STATISTICS = {"borrowed": CLERKS * ORDERS + 1, "returned": CLERKS * ORDERS - 1, "created": BOOKS + 3, "destroyed": BOOKS + 2}
STATISTICS |= {"evicted": 0, "borrowtestfailed": 1, "reclaimed": 1}
# What each account holds in the end: its clerk's deposits, without what goes on to the next account, with what comes from the one before.
OWNED = {account: ORDERS * (10 - (account + 1) + ((account - 1) % CLERKS + 1)) for account in range(CLERKS)}


def read_books(folder):
    """What SQLite reads in the books: how many there are, which accounts they have, each with its sum, and what is wrong with their files."""
    sums, wrong, books = collections.Counter(), [], sorted(folder.glob("*.db"))
    for book in books:
        with contextlib.closing(sqlite3.connect(book)) as connection:
            wrong += [row[0] for row in connection.execute("PRAGMA integrity_check") if row[0] != "ok"]
            for account, balance in connection.execute("SELECT id, balance FROM account"):
                sums[account] += balance
    return len(books), dict(sums), wrong


def checks_of_run(bank, pool, picture, folder):
    """What a run leaves in a folder."""
    yield "the run", ((CRATE / "stdout").read_bytes(), b"", 0), ended(run(bank, cwd=folder))
    journal, settings = folder / "bank.journal", folder / "settings.toml"
    settings.write_text(SETTINGS.search((CRATE / "src/main.rt").read_text())[1])
    yield "the journal", (f"legal {len(journal.read_text().splitlines())}\n", "", 0), ended(run(pool, "check", settings, journal, text=True))
    told = run(pool, "stats", journal, text=True).stdout
    statistics = {name: int(number) for name, number in map(str.split, told.splitlines())}
    yield "the statistics", STATISTICS, {name: statistics.get(name) for name in STATISTICS}
    yield "the books", (BOOKS, OWNED, []), read_books(folder)
    yield "the picture", [], list(differences(picture, journal))


def checks(bank, pool, picture, runs):
    for number in range(int(runs)):
        with scratch() as folder:
            for name, wanted, got in checks_of_run(pathlib.Path(bank).resolve(), pool, picture, folder):
                yield f"run {number}: {name}", wanted, got


if __name__ == "__main__":
    sys.exit(play_checks(checks(*sys.argv[1:])))

"""Plays the program with all kinds of arguments, files and streams, and compares all that is answered.

    play_program.py POOL

It also runs over thousands of lists of words, compared with a reading of the rules in Python (argument_rules.py).
"""

import itertools
import os
import pathlib
import resource
import shutil
import sys

from argument_rules import WRONG, compare, found, refusal, statistics
from case_files import script_of
from case_model import STATISTICS
from playing import run, scratch, side_by_side, tell, write_files

MOST = 1_048_576
LITTLE_MEMORY = 1 << 30
# The most rounds that docs/journal.md says the default limit holds for one worker; and loads of several: settings, workers, rounds of each, and
# the most objects.
MOST_ROUNDS = 249_999
MANY_WORKERS = [
    ("four_objects.toml", 4, 10, 4), ("small.toml", 3, 7, 1), ("defaults.toml", 100, 3, 8), ("defaults.toml", 8, 249_995 // 8, 8),
    ("defaults.toml", 9, 199_996 // 9, 8), ("defaults.toml", 1_023, 20, 8),
]
PLAIN_LIFE = b"""0 10 borrow 10 = make 0
0 11 ready 0 good = lent
0 15 return 0 = check
0 16 park 0 good = parked
"""
FILES = {
    "defaults.toml": b"", "small.toml": b"maxTotal = 1\n", "two_entries.toml": b"journalLimit = 2\n", "seven_entries.toml": b"journalLimit = 7\n",
    "four_objects.toml": b"maxTotal = 4\n", "no_objects.toml": b"maxTotal = 0\nblockWhenExhausted = false\n",
    "longest.toml": b"maxTotal = 1\n".ljust(MOST, b"\n"), "too_long.toml": b"\xff".ljust(MOST + 1, b"\n"),
    "not_utf8.toml": b"lifo = true # \xff\n", "not_toml.toml": b"maxTotal =", "unknown_key.toml": b"maxTotl = 8",
    "wrong_type.toml": b'maxTotal = "8"', "first_fault.toml": b"maxIdle = true\nlifo = 1\n", "out_of_range.toml": b"minIdle = -1",
    "-hyphen.toml": b"", " spaced.toml ": b"maxTotal = 1\n", "two\nlines.toml": b"maxTotal = 1\n",
    "key_of_two_lines.toml": b'"a\\nb\\u001B\\\\" = 1', "sp\u00e4t und leer.toml": b"", "empty": b"", "unreadable": b"",
    "plain.script": script_of(PLAIN_LIFE), "plain.journal": PLAIN_LIFE, "two_borrows.script": b"0 0 borrow 0\n1 5 borrow 5\n",
    "illegal.journal": PLAIN_LIFE.replace(b"check", b"parked"), "long_line": b"a" * 300, "not_a_line": b"0 1 borrow\n",
    "bad_number": b"0 1 borrow 01\n", "truncated": b"0 1 borrow 1", "table_key.toml": b"[abandoned]\nnone = 1\n",
    "all_kinds.toml": b"lifo = true\nmaxIdle = 3\nminIdle = 1\n[abandoned]\nremoveAbandonedOnBorrow = true\n",
}
TWO_BORROWS = b"0 0 borrow 0 = make 0\n1 5 borrow 5 = wait\n"
# What the default settings answer: 8 objects, the last one parked first, an eviction of those idle for half an hour.
DEFAULT_ANSWERS = b"".join(
    [
        *(b"0 0 borrow 0 = make %d\n0 0 ready %d good = lent\n" % (i, i) for i in range(8)),
        b"0 9007199254740993 borrow 0 = wait\n0 0 add = noplace\n0 0 fill = enough\n0 9 reclaim maintain = count 0\n",
        b"0 9007199254740993 reclaimnext = nothing\n0 1 return 9 = refused notlent\n",
        *(b"0 1 return %d = check\n0 1 park %d good = parked\n" % (i, i) for i in range(8)),
        b"0 1800001 evict = count 3\n0 1800001 evictnext = keptidle 0\n0 1800002 evictnext = destroyidle 1\n",
        b"0 1800002 borrow 0 = take 7\n",
    ]
)
# Paths and what is told of those that can't be opened.
TOLD_PATHS = {
    " defaults.toml": " defaults.toml", "defaults.toml ": "defaults.toml ", "": "", " ": " ", "no\nsuch file": "no\\nsuch file",
    "\x1b[2J": "\\u001B[2J", "a\\b": "a\\b", "a\\b\n": "a\\\\b\\n", "\t\r\x08\x0c\x01\x1f\x7f": "\\t\\r\\b\\f\\u0001\\u001F\\u007F",
    "pool: out of memory\npool: x": "pool: out of memory\\npool: x", "\x85\x9f\xa0\u2028": "\\u0085\\u009F\xa0\u2028", "\xa0\\": "\xa0\\", "\"'": "\"'",
}
NOBODY = 65534
# Some of which argument_rules.py has no words, and some of which each allocation fails in refuse_uses.py.
WRONG_ARGUMENTS = [
    "nonsense", "RUN", "runs", "-Vx", "--help=run", "--version=1", "run", "run --", "run --version", "check defaults.toml", "stats plain.journal more",
    "run --settings defaults.toml plain.script", "load defaults.toml 1024 1", "load defaults.toml 1 1000001", "load defaults.toml 0 1", "--help",
    "help no such thing", "-V --help", "--version",
]
# Words that are no numbers of the format. They are told before any file is opened.
NO_NUMBERS = ["", " ", "x", "01", "00", "+1", "1.0", "1e3", "0x1", "1_000", " 1", "1 ", "\u0661", "18446744073709551616", "9" * 300]
NO_WORKERS = ["4294967296", "18446744073709551615"]
NOT_TEXT = [[b"\xff"], [b"run", b"\xff", b"plain.script"], [b"run", b"defaults.toml", b"\xc3"], [b"check", b"\xe2\x82", b"plain.journal"]]
SETTINGS_FAULTS = {
    "too_long.toml": "settings: too long", "not_utf8.toml": "settings: not TOML", "not_toml.toml": "settings: not TOML",
    "unknown_key.toml": "settings: unknown key maxTotl", "table_key.toml": "settings: unknown key abandoned.none",
    "wrong_type.toml": "settings: wrong type maxTotal", "key_of_two_lines.toml": "settings: unknown key a\\nb\\u001B\\\\",
    "first_fault.toml": "settings: wrong type lifo", "out_of_range.toml": "settings: out of range minIdle", "folder": "read failed",
    **{path: f"cannot open {path}" for path in ("missing.toml", "", "-", "missing/defaults.toml", "empty/defaults.toml", "n" * 300)},
}
LINE_FAULTS = {"long_line": "line too long", "not_a_line": "not a line", "bad_number": "bad number", "truncated": "truncated"}


def told(output):
    """The answer of a run that ends well."""
    return output, b"", 0


def fault(text):
    """The answer of a run that ends with an error."""
    return b"", b"pool: " + text.encode() + b"\n", 3


# The runs: each its words, its answer, and perhaps its standard input or other streams. What a stream gets that is given is not compared.


def good_runs():
    script, journal, legal = FILES["plain.script"], FILES["plain.journal"], told(b"legal 4\n")
    yield [], told(b"")
    yield [], told(journal), {"input": script}
    for settings in ["defaults.toml", "small.toml", "longest.toml", "all_kinds.toml", "sp\u00e4t und leer.toml", "./defaults.toml"]:
        yield ["run", settings, "plain.script"], told(journal)
        yield ["run", settings, "empty"], told(b"")
        yield ["check", settings, "plain.journal"], legal
        yield ["check", settings, "empty"], told(b"legal 0\n")
        yield ["check", settings, "illegal.journal"], (b"illegal 2 check\n", b"", 1)
    yield ["run", "--", "-hyphen.toml", "plain.script"], told(journal)
    yield ["run", "defaults.toml", "plain.script", "--"], told(journal)
    yield ["check", "defaults.toml", "plain.journal", "--"], legal
    yield ["run", "/dev/stdin", "plain.script"], told(journal), {"input": b"maxTotal = 1\n"}
    yield ["check", "/dev/stdin", "plain.journal"], legal, {"input": b"maxTotal = 1\n"}
    yield ["run", "small.toml", "/dev/stdin"], told(journal), {"input": script}
    # The settings that the file says are those that hold.
    yield from ((["run", settings, "two_borrows.script"], told(TWO_BORROWS)) for settings in ("small.toml", "longest.toml"))
    yield ["check", "defaults.toml", "/dev/stdin"], (b"illegal 1 make 1\n", b"", 1), {"input": TWO_BORROWS}
    yield ["check", "small.toml", "/dev/stdin"], told(b"legal 2\n"), {"input": TWO_BORROWS}


def runs_of_statistics():
    plain, most = told(statistics(1, 1, 1, 0, 0, 0, 0, 4, 4)), 2**64 - 1
    yield from ((["stats", *words.split()], plain) for words in ("plain.journal", "-- plain.journal", "plain.journal --"))
    yield ["stats", "empty"], told(statistics(*[0] * 9))
    yield ["stats", "illegal.journal"], told(statistics(1, 0, 1, 0, 0, 0, 0, 0, 0))
    yield ["stats", "/dev/stdin"], told(statistics(0, 1, 0, 0, 0, 0, 0, 0, 0)), {"input": b"0 5 return 0 = check\n"}
    longest = b"0 0 ready 0 good = lent\n0 18446744073709551615 return 0 = check\n"
    yield ["stats", "/dev/stdin"], told(statistics(2, 2, 0, 0, 0, 0, 0, most, most)), {"input": longest * 2}
    for name, what in LINE_FAULTS.items():
        claimed = FILES[name].replace(b"\n", b" = make 0\n")
        yield ["stats", "/dev/stdin"], fault("line 1: " + what), {"input": claimed}
        yield ["stats", "/dev/stdin"], fault("line 5: " + what), {"input": PLAIN_LIFE + claimed}
    for name, what in ("plain.script", "line 1: not a line"), ("missing", "cannot open missing"), ("folder", "read failed"):
        yield ["stats", name], fault(what)


def load_of(workers, rounds, refused, *numbers):
    """The answer to a load."""
    return told(f"workers {workers}\nrounds {rounds}\nrefused {refused}\n".encode() + statistics(*numbers))


def load_of_one(rounds):
    """The answer to a load of one worker."""
    return load_of(1, rounds, 0, rounds, rounds, 1, 1, 0, 0, 0, 1, rounds)


def runs_of_short_loads():
    for settings in ["defaults.toml", "seven_entries.toml", "small.toml", "four_objects.toml"]:
        yield ["load", settings, "1", "1"], load_of_one(1)
    yield ["load", "--", "-hyphen.toml", "1", "1"], load_of_one(1)
    yield ["load", "/dev/stdin", "1", "1"], load_of_one(1), {"input": b"journalLimit = 7\n"}
    yield ["load", "four_objects.toml", "1", "5"], load_of_one(5)
    yield ["load", "seven_entries.toml", "1", "2"], fault("journal full")


def runs_of_loads():
    for rounds in (1000, MOST_ROUNDS):
        yield ["load", "defaults.toml", "1", str(rounds)], load_of_one(rounds)
    yield ["load", "no_objects.toml", "3", "5"], load_of(3, 5, 15, *[0] * 9)
    yield ["load", "defaults.toml", "1", str(MOST_ROUNDS + 1)], fault("journal full")
    yield ["load", "two_entries.toml", "1023", "1000000"], fault("journal full")
    for settings in ["defaults.toml", "missing.toml", "not_toml.toml"]:
        for word in NO_NUMBERS:
            yield ["load", settings, word, "1"], (b"", WRONG, 2)
            yield ["load", settings, "1", word], (b"", WRONG, 2)
        for word in NO_WORKERS:
            yield ["load", settings, word, "1"], (b"", WRONG, 2)
    # There is no memory for the stacks of so many threads.
    yield ["load", "defaults.toml", "1023", "1"], fault("no thread"), {"preexec_fn": with_little_memory}


def with_little_memory():
    resource.setrlimit(resource.RLIMIT_AS, (LITTLE_MEMORY, LITTLE_MEMORY))


def wrong_arguments():
    for words in WRONG_ARGUMENTS:
        yield words.split(" "), refusal(words.split(" "))
    for words in NOT_TEXT:
        yield words, (b"", WRONG, 2)
    # These name files.
    yield ["run", "--", "-h", "--help"], fault("cannot open -h")
    yield ["stats", "help"], fault("cannot open help")
    for word in ("--help", "--version", "--"):
        yield ["stats", "--", word], fault(f"cannot open {word}")
    yield ["check", "defaults.toml", "plain.journal", "missing", "--", "-x"], fault("cannot open missing")
    yield ["check", "defaults.toml", "plain.journal", "--", "plain.journal", "-x"], fault("cannot open -x")


def settings_faults():
    for settings, what in SETTINGS_FAULTS.items():
        yield ["run", settings, "plain.script"], fault(what)
        yield ["check", settings, "plain.journal"], fault(what)
        # They are judged before the next file is opened, and before the numbers are.
        yield ["run", settings, "missing.script"], fault(what)
        yield ["check", settings, "missing.journal"], fault(what)
        yield ["load", settings, "1", "1"], fault(what)
        yield ["load", settings, "0", "18446744073709551615"], fault(what)


def short_runs():
    """The runs of which tests/refuse_uses.py plays each, once for each of its allocations."""
    return itertools.chain(good_runs(), runs_of_statistics(), runs_of_short_loads(), wrong_arguments(), settings_faults(), line_faults())


# A journal of five entries in two segments.
FIRST_SEGMENT = b"0 0 borrow 0 = make 0\n0 0 ready 0 good = lent\n0 0 return 0 = check\n0 0 park 0 good = parked\n"
SECOND_SEGMENT = b"pool-journal 2 4 1 open none 0 0 0 1\n0 idle 3 0 0 0 old\n0 0 borrow 0 = take 0\n"


def runs_of_segments(folder):
    """A journal in several files is judged as one, and each segment has the room of a journal; of a file by itself the statistics are those of its
    entries."""
    write_files(folder, {"first": FIRST_SEGMENT, "second": SECOND_SEGMENT})
    yield ["check", "seven_entries.toml", "first", "second"], told(b"legal 5\n")
    yield ["check", "--", "defaults.toml", "empty", "first", "second"], told(b"legal 5\n")
    yield ["check", "defaults.toml", "second"], (b"illegal base 0\n", b"", 1)
    yield ["check", "defaults.toml", "first", "second", "empty"], (b"illegal base 2\n", b"", 1)
    yield ["stats", "second"], told(statistics(*[0] * 9))
    yield ["check", "defaults.toml", "second", "missing"], fault("cannot open missing")


def line_faults():
    for name, what in LINE_FAULTS.items():
        yield ["run", "defaults.toml", name], fault("line 1: " + what)
        yield [], fault("line 1: " + what), {"input": FILES[name]}
        yield [], (PLAIN_LIFE[:24], *fault("line 2: " + what)[1:]), {"input": FILES["plain.script"][:15] + FILES[name]}
        claimed = FILES[name].replace(b"\n", b" = make 0\n")
        yield ["check", "defaults.toml", "/dev/stdin"], fault("line 2: " + what), {"input": PLAIN_LIFE[:24] + claimed}
    for command in ["run", "check"]:
        yield [command, "defaults.toml", "missing"], fault("cannot open missing")
        yield [command, "defaults.toml", "folder"], fault("read failed")
    # An object needs room until its place is free.
    yield ["run", "two_entries.toml", "plain.script"], fault("line 1: journal full")
    yield ["check", "two_entries.toml", "plain.journal"], fault("line 1: journal full")


def runs_of_paths(folder):
    """A path is a file's name as it stands, and is told on one line."""
    script, journal = FILES["plain.script"], FILES["plain.journal"]
    for settings in [" spaced.toml ", "two\nlines.toml"]:
        yield ["run", settings, "plain.script"], told(journal)
        yield ["run", settings, "two_borrows.script"], told(TWO_BORROWS)
    for path, shown in TOLD_PATHS.items():
        for words in ["run", path, "plain.script"], ["check", "defaults.toml", path], ["stats", path], ["load", path, "1", "1"]:
            yield words, fault("cannot open " + shown)
    # A hyphen is a file's name, and not that of standard input.
    yield ["run", "defaults.toml", "-"], fault("cannot open -"), {"input": script}
    yield ["stats", "-"], fault("cannot open -"), {"input": journal}
    write_files(folder / "folder", {"-": script, "defaults.toml": b""})
    yield ["run", "defaults.toml", "-"], told(journal), {"input": b"0 0 close\n", "cwd": folder / "folder"}


def runs_with_defaults():
    """Standard input is played with the default settings."""
    yield [], told(DEFAULT_ANSWERS), {"input": script_of(DEFAULT_ANSWERS)}
    yield ["run", "defaults.toml", "/dev/stdin"], told(DEFAULT_ANSWERS), {"input": script_of(DEFAULT_ANSWERS)}
    # The last entry but one that fits is followed by the one that closes the pool.
    full = b"0 0 use 0 = refused notlent\n" * 999_999, *fault("line 1000000: journal full")[1:]
    yield [], full, {"input": b"0 0 use 0\n" * 1_000_000}


def failing_streams(folder):
    """Runs whose output is lost, and one without standard input."""
    full, lost = open("/dev/full", "wb"), fault("write failed")
    yield [], lost, {"input": FILES["plain.script"], "stdout": full}
    checks = "check defaults.toml plain.journal", "check defaults.toml illegal.journal"
    for words in "run defaults.toml plain.script", *checks, "stats plain.journal", "load defaults.toml 1 1":
        yield words.split(), lost, {"stdout": full}
    yield ["nonsense"], (b"", b"", 2), {"stderr": full}
    yield ["run", "missing", "missing"], (b"", b"", 3), {"stderr": full}
    yield [], fault("read failed"), {"stdin": os.open(folder, os.O_RDONLY)}


def runs_of_unreadable():
    """A file that may not be read can't be opened. Root may read everything, and tries it as nobody."""
    as_nobody = {} if os.geteuid() else {"user": NOBODY, "group": NOBODY, "extra_groups": []}
    commands = "run unreadable plain.script", "run defaults.toml unreadable", "check defaults.toml unreadable", "stats unreadable", "load unreadable 1 1"
    for words in commands:
        yield words.split(), fault("cannot open unreadable"), as_nobody
    yield ["run", "defaults.toml", "plain.script"], told(FILES["plain.journal"]), as_nobody


def differences(program, folder, words, wanted, options={}):
    """What differs in a run. The answer has no stream that is given."""
    done = run(program, *words, **{"cwd": folder, **options})
    got = tuple(part or b"" if isinstance(part, bytes | None) else part for part in found(done))
    return [] if got == wanted else [f"{words}: {got}, and should be {wanted}"]


def many_workers(program, folder, settings, workers, rounds, most):
    """What differs in a load whose borrows wait: each round lends an object, which comes back."""
    done = run(program, "load", settings, str(workers), str(rounds), cwd=folder)
    numbers = {name: int(number) for name, number in (line.split(" ") for line in done.stdout.decode().splitlines())}
    every, made = workers * rounds, numbers.get("created", 0)
    wanted = {"workers": workers, "rounds": rounds, "borrowed": every, "returned": every, "destroyed": made}
    wanted |= dict.fromkeys(("refused", "evicted", "borrowtestfailed", "reclaimed"), 0)
    is_right = [*numbers] == ["workers", "rounds", "refused", *STATISTICS] and wanted.items() <= numbers.items() and 1 <= made <= most
    return [] if is_right and (done.stderr, done.returncode) == (b"", 0) else [f"load {settings} {workers} {rounds}: {done}"]


def found_by_all(program, folder):
    """What differs in each run."""
    plays = [short_runs(), runs_of_loads(), runs_of_segments(folder), runs_of_paths(folder), runs_with_defaults(), failing_streams(folder)]
    yield from side_by_side(lambda play: differences(program, folder, *play), itertools.chain(*plays, runs_of_unreadable()))
    for load in MANY_WORKERS:
        yield many_workers(program, folder, *load)
    (folder / "words").mkdir()
    yield from compare(program, folder / "words")


def lay_files(folder):
    """Writes the files that the runs name."""
    write_files(folder, FILES)
    (folder / "folder").mkdir()


def main(pool):
    with scratch() as folder:
        lay_files(folder)
        (folder / "unreadable").chmod(0)
        folder.chmod(0o755)
        # Where nobody may run it.
        program = shutil.copy(pathlib.Path(pool).resolve(), folder / "pool")
        program.chmod(0o755)
        return tell(found_by_all(program, folder))


if __name__ == "__main__":
    sys.exit(main(sys.argv[1]))

"""Sees what the program tells a terminal, and nothing else: how far it is, and hints after the line of an error.

    play_terminal.py POOL

Standard error is a terminal of the test's own, or a pipe. The program judges a journal that comes slowly, from standard input; and it is used with
wrong arguments, with files that have errors, and with several files of which one is not legal.
"""

import contextlib
import os
import pathlib
import pty
import re
import subprocess
import sys

from play_program import PLAIN_LIFE
from playing import play_checks, scratch, write_files

ENTRY = b"7 0 use 0 = refused notlent\n"
# More than is read at once, and longer apart than a second.
PIECE = 3_000
PAUSE = 1.2
NOTHING, TOLD = re.compile(b""), re.compile(rb"(\r\x1b\[Kpool: \d+( of \d+)? MB)+\r\x1b\[K")
SEGMENT = b"pool-journal 2 4 1 open none 0 0 0 1\n0 idle 3 16 11 11 old\n0 20 borrow 20 = take 0\n"
FILES = {
    "defaults.toml": b"", "two.toml": b"journalLimit = 2\n", "bad.toml": b"maxTotal = 1\n\nminIdle =\n", "script": b"0 0 borrow 0\n",
    "key.toml": b"maxTotal = 1\nmaxTotl = 8\n", "bytes.toml": b"lifo = true # \xff\n", "returns.toml": b"maxTotal = 1\r\nminIdle =\r\n",
    "journal": PLAIN_LIFE, "segment": SEGMENT, "joined": PLAIN_LIFE + SEGMENT, "returns": PLAIN_LIFE.replace(b"\n", b"\r\n"),
    "headed": SEGMENT.partition(b"\n")[0] + b"\n", "two\nlines": b"x\n", "worse": SEGMENT + b"x\n", "long": b"a" * 300,
    "number": b"0 1 borrow 01 = wait\n", "cut": PLAIN_LIFE[:-1], "wrong": PLAIN_LIFE.replace(b"check", b"gone"),
}
SWAPPED = "this is a script or a journal: SETTINGS comes first"
LIMIT = "a larger journalLimit in the settings makes room"
ENDS_EARLY = "the file ends within a line, or within its base"
ANSWERED = "this line of a journal has an answer: pool check and pool stats take a journal"
# Words, and the lines of the error at a terminal. Each but the first is a hint.
HINTS = [
    ("play", ["wrong arguments", "try pool --help"]),
    ("load defaults.toml x 1", ["wrong arguments", "try pool --help"]),
    ("load defaults.toml 0 1", ["wrong arguments", "WORKERS is 1 to 1023, and ROUNDS is 1 to 1000000"]),
    ("--help", ["wrong arguments"]), ("run -h", ["wrong arguments"]), ("--version", ["wrong arguments"]),
    ("run missing script", ["cannot open missing"]),
    ("run script defaults.toml", ["settings: not TOML", "in script, line 1", SWAPPED]),
    ("check journal defaults.toml", ["settings: not TOML", "in journal, line 1", SWAPPED]),
    ("check segment defaults.toml", ["settings: not TOML", "in segment, line 1", SWAPPED]),
    ("run bad.toml script", ["settings: not TOML", "in bad.toml, line 3"]),
    ("run key.toml script", ["settings: unknown key maxTotl", "in key.toml"]),
    ("load bytes.toml 1 1", ["settings: not TOML", "in bytes.toml", "settings are UTF-8"]),
    ("check folder journal", ["read failed", "in folder"]),
    ("run defaults.toml journal", ["line 1: not a line", "in journal", ANSWERED]),
    ("check defaults.toml script", ["line 1: not a line", "in script", "this line of a script has no answer: pool run plays a script"]),
    ("check defaults.toml joined", ["line 5: not a line", "in joined", "a segment begins here: pool check takes each segment as a file of its own"]),
    ("stats returns", ["line 1: not a line", "in returns", "this line ends with a carriage return and a line feed, and not with a line feed alone"]),
    ("stats two\nlines", ["line 1: not a line", "in two\\nlines"]),
    ("check defaults.toml long", ["line 1: line too long", "in long", "a line has at most 256 bytes"]),
    ("stats number", ["line 1: bad number", "in number", "a number has no leading zero, and a caller is at most 4294967295"]),
    ("check defaults.toml cut", ["line 4: truncated", "in cut", ENDS_EARLY]),
    ("stats headed", ["line 2: truncated", "in headed", ENDS_EARLY]),
    ("run returns.toml script", ["settings: not TOML", "in returns.toml, line 2"]),
    ("check defaults.toml journal worse", ["line 4: not a line", "in worse"]),
    ("stats folder", ["read failed", "in folder"]),
    ("run two.toml script", ["line 1: journal full", "in script", LIMIT]),
    ("load two.toml 1 1", ["journal full", LIMIT]),
]
# Files of a check, its verdict, and the file that a terminal is told of: that which is not legal, of several.
VERDICTS = [
    ("journal segment", "legal 5", None), ("journal", "legal 4", None), ("wrong", "illegal 2 check", None), ("wrong segment", "illegal 2 check", "wrong"),
    ("segment journal", "illegal base 0", "segment"), ("journal segment segment", "illegal base 2", "segment"),
]


def ended(command, folder, at_terminal, given=subprocess.DEVNULL):
    """What a program writes to standard output, and to standard error, which is a terminal or a pipe, and its status."""
    ours, theirs = pty.openpty() if at_terminal else os.pipe()
    run, told = subprocess.Popen(command, cwd=folder, stdin=given, stdout=subprocess.PIPE, stderr=theirs), b""
    os.close(theirs)
    # A terminal that nobody has open any more is an error.
    with contextlib.suppress(OSError):
        while piece := os.read(ours, 4096):
            told += piece
    os.close(ours)
    return run.communicate(timeout=60)[0], told, run.returncode


def judge(pool, folder, pieces, last, at_terminal):
    """How the program ends that checks a journal which comes slowly: in pieces, with pauses between them."""
    write_files(folder, {"piece": ENTRY * PIECE, "last": last})
    slowly = f"; sleep {PAUSE}; ".join(["cat piece"] * pieces)
    with subprocess.Popen(["sh", "-c", f"{slowly}; cat last"], cwd=folder, stdout=subprocess.PIPE) as journal:
        return ended([pool, "check", "defaults.toml", "/dev/stdin"], folder, at_terminal, journal.stdout)


def hint_cases(pool, folder):
    """Each use with an error, what it must tell a terminal, and what it tells. To a pipe tests/play_program.py has it tell the first line alone."""
    for words, (first, *hints) in HINTS:
        lines = [f"pool: {first}", *(f"  {hint}" for hint in hints)]
        yield words, "".join(f"{line}\r\n" for line in lines).encode(), ended([pool, *words.split(" ")], folder, True)[1]


def verdict_cases(pool, folder):
    """Each check, what it must print, also on standard error, which is a terminal or a pipe, and what it prints."""
    for words, verdict, wrong in VERDICTS:
        command, status = [pool, "check", "defaults.toml", *words.split(" ")], int(not verdict.startswith("legal"))
        for place, told in ("at a terminal", f"  in {wrong}\r\n".encode() if wrong else b""), ("to a pipe", b""):
            yield f"check {words}, {place}", (f"{verdict}\n".encode(), told, status), ended(command, folder, place == "at a terminal")


def progress_cases(pool, folder):
    """Journals that come slowly, or at once, what is wanted of each and what it is: standard output, the status, and on standard error what tells how
    far it is, and then a fault."""
    wrong = ENTRY.replace(b"refused notlent", b"gone")
    legal, illegal = b"legal %d\n", b"illegal %d refused notlent\n" % (3 * PIECE)
    fault = b"pool: line %d: not a line\r\n  in /dev/stdin\r\n" % (3 * PIECE + 1)
    cases = [
        ("slow", (3, b"", True), legal % (3 * PIECE), TOLD, b"", 0),
        ("illegal", (3, wrong, True), illegal, TOLD, b"", 1),
        ("with a fault", (3, b"x\n", True), b"", TOLD, fault, 3),
        ("to a pipe", (2, b"", False), legal % (2 * PIECE), NOTHING, b"", 0),
        ("quick", (1, b"", True), legal % PIECE, NOTHING, b"", 0),
    ]
    for name, asked, output, form, end, status in cases:
        found, told, code = judge(pool, folder, *asked)
        is_told = told.endswith(end) and bool(form.fullmatch(told.removesuffix(end)))
        yield name, (output, True, status), (found, is_told or told, code)


def checks(pool):
    with scratch() as folder:
        write_files(folder, FILES)
        (folder / "folder").mkdir()
        for cases in progress_cases, hint_cases, verdict_cases:
            yield from cases(str(pathlib.Path(pool).resolve()), folder)


if __name__ == "__main__":
    sys.exit(play_checks(checks(sys.argv[1])))

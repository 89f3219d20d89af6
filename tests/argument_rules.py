"""The rules of the program's arguments, read from docs/journal.md, and a comparison of the program with them over lists of words.

The program runs in a folder with one file, THERE, which is empty. As settings it gives the defaults, as a script or a journal it has no line.
So an answer takes no time and is known from the words alone.
"""

import concurrent.futures
import functools
import itertools
import os
import pathlib
import random
import re

from case_model import STATISTICS
from playing import TOP, run

THERE = "there"
COMMANDS = ["run", "check", "stats", "load"]
# Words of a list: commands, a path with a file, paths without one, options, bundles, and numbers, of which the last three are bad.
WORDS = [
    *COMMANDS, "help", THERE, "", "-", "--", "--help", "-h", "--version", "-V", f"--settings={THERE}", "-x", "-hx",
    "1", "0", "4294967296", "01", "+1", "18446744073709551616",
]
# Words of a random list. Those that stand here more than once make more of the lists name a task.
RANDOM_WORDS = WORDS + [THERE] * 8 + ["1"] * 6 + ["--"] * 4
# All lists of at most SHORT words are run, and RANDOM_LISTS longer ones.
SHORT, LONG, RANDOM_LISTS, SEED = 3, 6, 4000, 20
OPERANDS = {"run": 2, "stats": 1, "load": 3}
MOST_WORKERS, MOST_ROUNDS = 1023, 1_000_000
# The uses of the program stand in the place of its output if the words ask for help.
USES = b"the uses"
WRONG = b"pool: wrong arguments\n"


def version():
    """The line that the program prints for its version."""
    return b"pool " + (TOP / "VERSION").read_bytes()


def number_below(limit, word):
    """The number that the word spells, or None."""
    return int(word) if re.fullmatch(r"0|[1-9][0-9]*", word) and int(word) < limit else None


def task_of(words):
    """The command that the words name, with its operands, or None if they are wrong. Numbers are read. What is behind `--` is no option."""
    command, *rest = words
    before = [*itertools.takewhile("--".__ne__, rest)]
    operands = before + rest[len(before) + 1 :]
    is_counted = len(operands) >= 2 if command == "check" else len(operands) == OPERANDS.get(command)
    if not is_counted or any(len(word) > 1 and word[0] == "-" for word in before):
        return None
    if command == "load":
        settings, workers, rounds = operands
        operands = [settings, number_below(2**32, workers), number_below(2**64, rounds)]
    return None if None in operands else (command, operands)


def refusal(words):
    """The answer to wrong arguments."""
    if words[0] == "help" or "--help" in words or "-h" in words:
        return USES, WRONG, 2
    if words[0] in ("--version", "-V"):
        return version(), WRONG, 2
    return b"", WRONG, 2


def statistics(*numbers):
    """The lines of statistics."""
    return "".join(f"{name} {number}\n" for name, number in zip(STATISTICS, numbers)).encode()


def answer_of_load(workers, rounds):
    """The answer to a load on a pool with the default settings: only one worker with one round is foretold."""
    if not 1 <= workers <= MOST_WORKERS or not 1 <= rounds <= MOST_ROUNDS:
        return b"", WRONG, 2
    assert (workers, rounds) == (1, 1), "the words have no other numbers in the ranges"
    return b"workers 1\nrounds 1\nrefused 0\n" + statistics(1, 1, 1, 1, 0, 0, 0, 1, 1), b"", 0


def answer(words):
    """The output, the error and the status that the program must give for the words, with nothing on standard input."""
    task = task_of(words) if words else ("run", [THERE])
    if task is None:
        return refusal(words)
    command, operands = task
    lost = next((path for path in operands if isinstance(path, str) and path != THERE), None)
    if lost is not None:
        return b"", f"pool: cannot open {lost}\n".encode(), 3
    if command == "load":
        return answer_of_load(*operands[1:])
    return {"run": b"", "check": b"legal 0\n", "stats": statistics(*[0] * len(STATISTICS))}[command], b"", 0


def lists():
    """All short lists of words, and random longer ones."""
    for count in range(SHORT + 1):
        yield from map(list, itertools.product(WORDS, repeat=count))
    chance = random.Random(SEED)
    for _ in range(RANDOM_LISTS):
        command = chance.choice(COMMANDS) if chance.random() < 0.9 else chance.choice(WORDS)
        yield [command, *chance.choices(RANDOM_WORDS, k=chance.randrange(SHORT, LONG))]


def between(page, start, end):
    """The lines of text of a section of a man page."""
    section = page.partition(start + "\n")[2].partition(end)[0]
    return [line for line in section.splitlines() if not line.startswith(".")]


@functools.cache
def is_help(output):
    """Whether an output is the uses of the program in the order of the man page, each told in some words, with the page's example of it."""
    page = (TOP / "docs/pool.1").read_text()
    named = [re.sub(r"\\f.", "", line) for line in between(page, ".SH SYNOPSIS", ".SH ")]
    shown = [f"  {example}" for example in between(page, ".SH EXAMPLES", "\0")]
    lines = output.decode().splitlines()
    return lines[1::2] == shown and [line.partition("  ")[0] for line in lines[::2]] == named


def found(done):
    """What a run gave, with USES for the uses."""
    return USES if done.stdout and is_help(done.stdout) else done.stdout, done.stderr, done.returncode


def differences(program, folder, words):
    """What differs in a run with these words."""
    got, wanted = found(run(program, *words, cwd=folder)), answer(words)
    return [] if got == wanted else [f"{words}: {got}, and should be {wanted}"]


def compare(program, folder):
    """What differs in the runs with all lists."""
    (pathlib.Path(folder) / THERE).write_bytes(b"")
    with concurrent.futures.ProcessPoolExecutor(os.cpu_count()) as workers:
        yield from workers.map(functools.partial(differences, program, folder), lists(), chunksize=250)

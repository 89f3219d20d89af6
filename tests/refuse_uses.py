"""Refuses the program its allocations, each in turn, in all that it is used for, and sees that it tells no wrong thing.

    refuse_uses.py POOL

It is used with files and with standard input, with wrong arguments and with files that have faults, as in tests/play_program.py, and on every EACH-th
script of tests/cases. Each use is run once for each of its allocations, which is refused then (tests/refuse.c). It must then answer what it answers
else; or end with status 3, after some whole lines from the front of that answer, and the line 'pool: out of memory', 'pool: no thread' where it starts
threads, or 'pool: cannot open ..' for one of its files. If the words are wrong, only status 3 with 'pool: out of memory' and no output may replace the
answer. No use can do without its first allocation.
"""

import collections
import itertools
import pathlib
import sys

from argument_rules import found, task_of
from case_files import CASES, unpacked, wanted_of
from play_cases import wanted_of_script
from play_program import lay_files, short_runs
from playing import preloaded, refusals, scratch, side_by_side, tell

# Of the scripts, the statistics, and the journals in segments every such one is played, and this script.
EACH, SCRIPT = 4, "worked/loans/two_objects_fifo"
# Longer scripts take the same allocations, and more time.
LONGEST = 20_000
# A use: arguments of the program, its answer (output, error, status), what is on its standard input, and whether the words name a task.
Use = collections.namedtuple("Use", "arguments answer given is_task", defaults=[b"", True])


def uses():
    for words, answer, *options in short_runs():
        yield Use(words, answer, dict(*options).get("input", b""), not words or task_of(words) is not None)


def uses_of_script(case, folder):
    """A run of a script; and a check of its journal and the statistics, if it runs to its end."""
    settings, script, journal = (str(folder / name) for name in ("settings.toml", "script", "journal"))
    yield Use(["run", settings, script], wanted_of_script(case))
    if case.is_run:
        yield Use(["check", settings, journal], (b"legal %d\n" % case.journal.count(b"\n"), b"", 0))
        yield Use(["stats", journal], wanted_of(case.statistics))


def uses_of_segments(cases):
    """Checks of every EACH-th journal in several files, and the statistics of every EACH-th segment."""
    for case, folder in [(case, folder) for case, folder in cases if case.verdict is not None][::EACH]:
        paths = [str(folder / f"{number}.journal") for number in range(len(case.segments))]
        yield Use(["check", str(folder / "settings.toml"), *paths], wanted_of(case.verdict))
    segments = [(folder / f"{number}.journal", statistics) for case, folder in cases for number, (_, statistics) in enumerate(case.segments)]
    yield from (Use(["stats", str(path)], wanted_of(statistics)) for path, statistics in segments[::EACH])


def uses_of_cases(room):
    """Uses of every EACH-th script that isn't long, and of segments."""
    cases = unpacked(room, CASES)
    scripts = [(case, folder) for case, folder in cases if case.journal is not None and len(case.script) < LONGEST]
    for case, folder in [*scripts[::EACH], *(found for found in scripts if found[0].name == SCRIPT)]:
        yield from uses_of_script(case, folder)
    yield from uses_of_segments([(case, folder) for case, folder in cases if case.segments])


def is_refused(use, answer):
    """Whether the answer says that memory ran out, and nothing else."""
    if not use.is_task:
        return answer == (b"", b"pool: out of memory\n", 3)
    output, error, status = answer
    lines = {b"pool: out of memory\n", *(b"pool: cannot open %s\n" % path.encode() for path in use.arguments[1:])}
    if use.arguments[:1] == ["load"]:
        lines.add(b"pool: no thread\n")
    return status == 3 and error in lines and output[-1:] in (b"", b"\n") and use.answer[0].startswith(output)


def runs(pool, library, mark, use):
    """What is told of each run of the use: nothing if it was right. The first allocation must have been missed."""
    answers = [(number, found(done)) for number, done in refusals(library, mark, pool, *use.arguments, input=use.given, cwd=mark.parent)]
    refused = {number for number, answer in answers[1:] if is_refused(use, answer)}
    wrong = [f"{use.arguments}: allocation {number}: {answer}" for number, answer in answers if number not in refused and answer != use.answer]
    missed = [f"{use.arguments}: the first allocation was not missed"] * (1 not in refused)
    return [[]] * (len(answers) - len(wrong)) + [[line] for line in wrong + missed]


def main(pool):
    pool = pathlib.Path(pool).resolve()
    with scratch() as folder:
        library = preloaded("refuse", folder)
        lay_files(folder)
        played = enumerate([*uses(), *uses_of_cases(folder / "cases")])
        found = side_by_side(lambda use: runs(pool, library, folder / f"refused{use[0]}", use[1]), played)
        return tell(itertools.chain.from_iterable(found))


if __name__ == "__main__":
    sys.exit(main(sys.argv[1]))

"""Plays the cases of files and folders on the program, and compares all that is answered.

    play_cases.py POOL CASES..

- `POOL run` of a case's settings and script must write the journal to standard output, and end with status 0 and nothing on standard error; or, if
  the case has an error, with status 3 and that line.
- The journal of a script that runs to its end must be judged legal by `POOL check`, with the number of its lines; and with one of its answers
  replaced by another, each in its turn, illegal at that position, with the answer that was due.
- `POOL check` of a claimed journal must answer the verdict: to standard error with status 3 if it begins with `pool:`, else to standard output.
- `POOL stats` of a journal or of a segment must write its statistics, in the same way.
- `POOL run` of an empty script must end with status 0 if the answer to the settings is 'ok', and else with status 3 and that line on standard error.

Journals of more than MOST_CHANGED lines are changed at MOST_CHANGED places only, spread evenly over them.
"""

import sys

from case_files import wanted_of
from playing import differing, play_unpacked, run

MOST_CHANGED = 200
TEXT = "/dev/stdin"


def wanted_of_script(case):
    return case.journal, case.error or b"", 3 if case.error else 0


def wanted_of_settings(case):
    return wanted_of(case.answer if case.answer != b"ok\n" else b"")


def plays_of_script(case, folder):
    settings, journal, lines = folder / "settings.toml", folder / "journal", case.journal.splitlines(keepends=True)
    yield ["run", settings, folder / "script"], b"", wanted_of_script(case)
    yield ["stats", journal], b"", wanted_of(case.statistics)
    if case.is_run:
        yield ["check", settings, journal], b"", (b"legal %d\n" % len(lines), b"", 0)
        for position in range(0, len(lines), max(1, len(lines) // MOST_CHANGED)):
            asked, _, due = lines[position].rstrip(b"\n").partition(b" = ")
            wrong = asked + b" = " + (b"lent" if due == b"wait" else b"wait") + b"\n"
            text = b"".join([*lines[:position], wrong, *lines[position + 1 :]])
            yield ["check", settings, TEXT], text, (b"illegal %d %s\n" % (position, due), b"", 1)


def plays_of_case(case, folder):
    """The plays of a case: the arguments, what is on standard input, and what is wanted."""
    if case.journal is not None:
        yield from plays_of_script(case, folder)
    if case.claimed is not None:
        yield ["check", folder / "settings.toml", folder / "claimed"], b"", wanted_of(case.verdict)
    for number, (_, statistics) in enumerate(case.segments):
        yield ["stats", folder / f"{number}.journal"], b"", wanted_of(statistics)
    if case.answer is not None:
        yield ["run", folder / "settings.toml", "/dev/null"], b"", wanted_of_settings(case)


def plays(cases):
    """The plays of cases, each with the name of its case."""
    return ((case.name, *play) for case, folder in cases for play in plays_of_case(case, folder))


def main(pool, *paths):
    def differences(play):
        name, arguments, text, wanted = play
        return differing(f"{name}: {arguments[0]}", wanted, run(pool, *arguments, input=text))

    return play_unpacked(paths, plays, differences)


if __name__ == "__main__":
    sys.exit(main(*sys.argv[1:]))

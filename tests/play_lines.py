"""Plays lines that are none of the format, and a journal that is cut off at each of its bytes, and compares what is told of them.

    play_lines.py POOL

A script goes through `run`, a journal through `check` and `stats`; what is wrong with a line stands beside it here. The lines of an object follow the
first line of a base, which `check` reads after the segment that it continues.
"""

import itertools
import pathlib
import sys

from play_program import FIRST_SEGMENT, PLAIN_LIFE, fault
from playing import differing, run, scratch, side_by_side, tell, write_files

# Words in the place of an input, by what is wrong with their line.
NO_INPUTS = {
    "not a line": [
        b"", b"reclaim", b"reclaim x", b"reclaim 01", b"reclaim borrow 1", b"close 1", b"Close", b"giveback 0", b"evict next", b"clear ", b"add 0",
        b"use", b"use x", b"added 0", b"added good", b"added 0 fine", b"tested 0 good good",
    ],
    "bad number": [b"use 01", b"invalidate 00", b"added 00 x", b"tested 18446744073709551616 good"],
}
# Words in the place of an answer.
NO_ANSWERS = {
    "not a line": [
        b"", b"count", b"count x", b"keptidle", b"keptidle 1 1", b"kept 1", b"destroyidle -1", b"test good", b"nothing 0", b"timedout", b"noplace ",
        b"refused", b"refused x", b"refused 01", b"refused closed 1",
    ],
    "bad number": [b"count 01", b"count 18446744073709551616", b"keptidle 01", b"reclaimed 00"],
}
# Lines of a script.
NO_REQUESTS = {
    "not a line": [b"0 1 borrow\n", b"0  1 close\n", b"0 1 borrow 2 \n"], "truncated": [b"0 1 close"], "line too long": [b"a" * 300],
    "bad number": [b"0 1 borrow 01\n", b"4294967296 0 close\n", b"0 18446744073709551616 close\n"],
}
# Lines of a journal. The longest line has 256 bytes with its line feed.
NO_ENTRIES = {
    "not a line": [b"0 10 borrow 10\n", b"0 10 borrow 10 make 0\n", b"0 10 borrow 10 = make\n", b"a" * 255 + b"\n"],
    "bad number": [b"0 10 borrow 10 = make 00\n", b"1" * 255 + b"\n"], "truncated": [b"0 1 close", b"a" * 255], "line too long": [b"a" * 256],
}
# First lines of a base.
NO_FIRST_LINES = {
    "not a line": [
        b"pool-journal\n", b"pool-journal 2 4 1 open\n", b"pool-journal 1 4 1 open none 0 0 0 1\n", b"pool-journal 3 4 1 open none 0 0 0 0\n",
        b"pool-journal 02 4 1 open none 0 0 0 1\n", b"pool-journal 99999999999999999999 4\n", b"pool-journal  2 4 1 open none 0 0 0 1\n",
        b"pool-journals 2 4 1 open none 0 0 0 0\n", b"pool-journal 2 4 1 lent none 0 0 0 1\n", b"pool-journal 2 4 1 open new 0 0 0 1\n",
        b"pool-journal 2 4 open none 0 0 0 1\n", b"pool-journal 2 4 1 open none 0 0 0 1 1\n",
    ],
    "bad number": [
        b"pool-journal 2 4 1 open 03 0 0 0 1\n", b"pool-journal 2 04 1 open none 0 0 0 1\n", b"pool-journal 2 04 1 open none 0 0 0 0\n",
        b"pool-journal 2 4 1 open none 0 0 0 18446744073709551616\n",
    ],
    "truncated": [b"pool-journal", b"pool-journal 2 4 1 open"],
}
# A first line, and lines in the place of the object that comes after it.
FIRST_LINE = b"pool-journal 2 4 1 open none 0 0 0 1\n"
NO_OBJECTS = {
    "not a line": [
        b"0 adding 0 0 0  new\n", b"1 40 ready 0 good = lent\n", b"0 0 borrow 0 = take 0\n", b"0 gone 0 0 0 0 old\n", b"0 absent 0 0 0 0 old\n",
        b"0 idle 3 0 0 0 older\n",
    ],
    "bad number": [b"0 idle 03 0 0 0 old\n", b"18446744073709551616 idle 3 0 0 0 old\n"], "truncated": [b""],
}
# Journals with a line at fault behind others: its number, and what is wrong with it.
BEHIND_OTHERS = [
    (b"0 10 borrow 10 = make 0\n0 11 ready 00 good = lent\n", 2, "bad number"),
    (FIRST_LINE + b"0 idle 3 0 0 0 old\n0 idle 3 0 0 0 old\n", 3, "not a line"),
    (b"0 10 borrow 10 = make 0\npool-journal 2 0 0 open none 0 0 0 0\n", 2, "not a line"),
]
# Scripts with a line at fault behind others: how many lines of PLAIN_LIFE are answered before, and what is wrong with the next.
SCRIPTS = [
    (b"0 10 borrow 10\n0 11 ready 0 good\n0 15 return 00\n", 2, "bad number"),
    (b"0 10 borrow 10\n0  11 ready 0 good\n", 1, "not a line"),
    (b"0 10 borrow 10\n0 11 ready 0 good", 1, "truncated"),
]


def lines_of(table, before=b"", behind=b""):
    """The lines of a table, each with its fault. Where the table has words, what comes before and behind them is given."""
    return [(before + words + behind, what) for what, many in table.items() for words in many]


def cases():
    """Each case: the words, the text, what must be written, and the number and the fault of a line, if one is at fault."""
    # Scripts with a line at fault.
    for line, what in [*lines_of(NO_INPUTS, b"0 1 ", b"\n"), *lines_of(NO_REQUESTS)]:
        yield ["run", "defaults"], line, b"", 1, what
    for script, answered, what in SCRIPTS:
        yield ["run", "defaults"], script, b"".join(PLAIN_LIFE.splitlines(keepends=True)[:answered]), answered + 1, what
    # Journals with a line at fault.
    for line, what in [*lines_of(NO_ANSWERS, b"0 1 close = ", b"\n"), *lines_of(NO_ENTRIES), *lines_of(NO_FIRST_LINES)]:
        yield ["stats"], line, b"", 1, what
        yield ["check", "defaults"], line, b"", 1, what
    for text, what in lines_of(NO_OBJECTS, FIRST_LINE):
        yield ["stats"], text, b"", 2, what
        yield ["check", "defaults", "first"], text, b"", 2, what
    for text, line, what in BEHIND_OTHERS:
        yield ["stats"], text, b"", line, what
    # A journal that is cut off at each byte is legal where its last line is whole.
    for count in range(len(PLAIN_LIFE) + 1):
        lines = PLAIN_LIFE[:count].count(b"\n")
        is_whole = count in (0, 24, 49, 71, 97)
        yield ["check", "defaults"], PLAIN_LIFE[:count], b"legal %d\n" % lines * is_whole, lines + 1, None if is_whole else "truncated"


def main(pool):
    program = pathlib.Path(pool).resolve()
    with scratch() as folder:
        write_files(folder, {"defaults": b"", "first": FIRST_SEGMENT})

        def differences(number, case):
            """What differs in a case, which has a file of its own."""
            words, text, output, line, what = case
            write_files(folder, {number: text})
            wanted = output, *(fault(f"line {line}: {what}")[1:] if what else (b"", 0))
            return differing(f"{' '.join(words)} of {text!r}", wanted, run(program, *words, str(number), cwd=folder))

        return tell(side_by_side(differences, itertools.count(), cases()))


if __name__ == "__main__":
    sys.exit(main(sys.argv[1]))

"""Makes the expected output of the files of tests/cases anew, in the format that CONTRIBUTING.md explains, and cases from seeds.

    make_cases.py [--check]

Settings, scripts and changes stay, and so do journals that no script makes. Answers, errors, verdicts and statistics are made anew, by
tests/pool_model.py and tests/case_model.py. Segments that are legal together are made anew too: the journal of their script is cut at the same
positions. Prints the name of each file that was changed. With --check none is changed: it prints the first line that would be in each, and in the end
the line 'N passed, M failed'.

Whatever plays all of tests/cases plays the cases of `seeded` too, which are made each time.

So if a rule has changed, change the model, run this, and read the difference.
"""

import dataclasses
import itertools
import random
import sys

from case_files import CASES, TOP, Case, files_of, lines_of, read_file, written
from case_model import answer_to_settings, run, statistics_of
from play_segments import next_input, ways
from playing import play_checks
from pool_model import INPUTS, WORDS, Pool, cut_at, settings_of, verdict_of_segments, words_of

# Values of settings, besides the defaults.
VALUES = {
    "blockWhenExhausted": ("false",), "journalLimit": ("30", "60", "200"), "lifo": ("false",), "maxIdle": ("-1", "0", "1", "3"),
    "maxTotal": ("-1", "1", "2", "3", "5"), "maxWaitMillis": ("0", "10", "30"), "minEvictableIdleMillis": ("-1", "1", "20"),
    "minIdle": ("1", "2", "4"), "numTestsPerEvictionRun": ("-2", "0", "1", "9"), "softMinEvictableIdleMillis": ("1", "20"),
    "testWhileIdle": ("true",),
}
OF_ABANDONED = {"removeAbandonedOnBorrow": ("true",), "removeAbandonedOnMaintenance": ("true",), "removeAbandonedTimeoutMillis": ("0", "20", "60")}
# What stands after a key of settings: values of all types, within and beyond all ranges.
ANY_VALUES = (
    "true", "false", "0", "1", "3", "8", "-1", "-2", "-0", "+3", "03", "0x10", "1_000", "1.5", "inf", "2147483647", "2147483648", "-2147483648",
    "-2147483649", "4294967296", "4294967297", "9007199254740992", "9007199254740993", '"8"', "'a'", "[]", "[1, 2]", "{}", "1979-05-27", "12:30:00", "",
    "{ removeAbandonedOnBorrow = true }", "{ removeAbandonedTimeoutMillis = -1 }", "1 # one", "8\r",
)
# Lengths of scripts, in lines.
SHORTEST, LONGEST = 30, 80


# Cases from seeds.


def settings_by_chance(chance):
    """A line of settings for each key, with one of its values, or none; in half of them with a table of abandoned objects."""
    lines = [f"{key} = {chance.choice(VALUES[key])}\n" for key in VALUES if chance.randrange(3) == 0]
    if chance.randrange(2):
        lines += ["[abandoned]\n", *(f"{key} = {chance.choice(OF_ABANDONED[key])}\n" for key in OF_ABANDONED if chance.randrange(3) == 0)]
    return "".join(lines).encode()


def input_by_chance(pool, at, chance):
    """An input that has something to do, mostly; or one with words at random."""
    if chance.randrange(6):
        return next_input(pool, at, chance)
    name = chance.choice(sorted(INPUTS))
    numbers = {b"borrow": at - chance.randrange(at + 1)}
    id = chance.randrange(pool.drawn + 2)
    return name, *(numbers.get(name, id) if kind == "number" else chance.choice(sorted(WORDS[kind])) for kind in INPUTS[name])


def script_by_chance(settings, chance):
    """The lines of a script. In half of them the pool is closed in the last third."""
    pool, at, lines = Pool({**settings, "journalLimit": 2**32}), 1000, []
    length = SHORTEST + chance.randrange(LONGEST - SHORTEST)
    closed_at = chance.choice([length, length - 1 - chance.randrange(length // 3)])
    for position in range(length):
        at += chance.randrange(12)
        asked = (b"close",) if position == closed_at else input_by_chance(pool, at, chance)
        lines.append(b"%d %d %s\n" % (chance.randrange(20), at, words_of(asked)))
        pool.take(at, asked, 0)
    return lines


def with_other_byte(text, chance):
    """The text with one byte replaced by another one of lines, a line feed or one that is in no line."""
    at, byte = chance.randrange(len(text)), chance.choice(b"0123456789 =\nadeklmnoprstuvw\x00\xff")
    return text[:at] + bytes([byte]) + text[at + 1 :]


def wrong_line(line, chance):
    """The line of a journal with another answer, or with another byte."""
    if chance.randrange(3) == 0:
        return with_other_byte(line, chance)
    asked, _, answer = line.partition(b" = ")
    others = [b"wait", b"lent", b"check", b"parked", b"kept", b"destroy", b"freed", b"nothing", b"count 1", b"make 1", b"take 0", b"refused closed"]
    other = chance.choice([word for word in others if word + b"\n" != answer])
    return asked + b" = " + other + b"\n"


def life(name, seed):
    """A script with settings, and its journal with a wrong line."""
    chance = random.Random(seed)
    settings = settings_by_chance(chance)
    lines = script_by_chance(settings_of(settings.decode()), chance)
    if chance.randrange(8) == 0:
        at = chance.randrange(len(lines))
        lines[at] = with_other_byte(lines[at], chance)
    case = run_again(Case(name, settings=settings, rest=b"".join(lines), journal=b""))
    made = lines_of(case.journal)
    if not made:
        return case
    at = chance.randrange(len(made))
    return remade(dataclasses.replace(case, changes=[(at + 1, at + 1, wrong_line(made[at], chance))], verdict=b""))


def cut_life(name, seed):
    """The segments of a journal. Some of the first ones begin with no base."""
    chance = random.Random(seed)
    settings = settings_by_chance(chance)
    read = settings_of(settings.decode())
    journal, _ = run(Pool(read), b"".join(script_by_chance(read, chance)), 0)
    positions = {1 + chance.randrange(LONGEST) for _ in range(1 + chance.randrange(6))}
    segments = cut_at(read, journal, positions)
    if chance.randrange(2):
        segments[0] = segments[0].partition(b"\n")[2]
    # They stay as they are, mostly; or one is lost, repeated, exchanged with the next, or damaged.
    at = chance.randrange(len(segments))
    damaged = [*segments[:at], with_other_byte(segments[at] or b"\n", chance), *segments[at + 1 :]]
    chosen = chance.choice([segments] * 5 + [others for _, others in ways(segments, chance)] + [damaged])
    return remade(Case(name, settings=settings, segments=[(text, b"") for text in chosen], verdict=b""))


def any_settings(name, seed):
    """A settings file of up to five keys, most of them of settings, with any values."""
    chance, keys, lines = random.Random(seed), [*VALUES, *OF_ABANDONED, "testOnBorrow", "testOnCreate", "testOnReturn", "abandoned", "maxTotl", '""'], []
    for _ in range(1 + chance.randrange(5)):
        lines.append(f"{chance.choice(keys)} = {chance.choice(ANY_VALUES)}\n")
        if chance.randrange(6) == 0:
            lines.append("[abandoned]\n")
    return remade(Case(name, settings="".join(lines).encode(), answer=b""))


# The cases from seeds: what makes a case, the first seed, and the number of cases, each with the next seed.
SEEDED = {"lives": (life, 1_600, 280), "segments": (cut_life, 2_300, 120), "settings": (any_settings, 4_000, 150)}


def seeded():
    """The cases from seeds: lives of objects, in which most inputs have something to do, and journals of which are checked with a wrong line; such lives,
    cut, some of whose segments are damaged, lost, repeated or exchanged; and settings files with any values."""
    for kind, (make, seed, number) in SEEDED.items():
        for index in range(number):
            yield make(f"seeded/{kind}/{index}", seed + index)


# All cases anew.


def settings_in(case):
    """The settings of a case that the program takes."""
    answer = answer_to_settings(case.settings)
    if answer != b"ok\n":
        sys.exit(f"{case.name}: the program does not take the settings: {answer.decode().strip()}")
    return settings_of(case.settings.decode())


def run_again(case):
    """The case with the journal of its script, the lines that are read after it, the error and the statistics."""
    journal, error = run(Pool(settings_in(case)), case.script, 0)
    rest = lines_of(case.script)[journal.count(b"\n") :]
    return dataclasses.replace(case, journal=journal, rest=b"".join(rest), error=error, statistics=statistics_of(journal))


def cut_again(case):
    """The case with the segments of the journal of its script, cut where its segments end. A first one may have no base."""
    pool, segments = Pool(settings_in(case)), []
    for text, _ in case.segments:
        base = b"".join(pool.base()) if text.startswith(b"pool-journal ") else b""
        script = b"".join(line.partition(b" = ")[0] + b"\n" for line in lines_of(text) if b" = " in line)
        journal, error = run(pool, script, pool.position)
        if error:
            sys.exit(f"{case.name}: the script of the segments ends with '{error.decode().strip()}'; change its settings or segments")
        segments.append((base + journal, b""))
    return dataclasses.replace(case, segments=segments)


def remade(case):
    """The case with all that is written for its settings, its script or its segments."""
    if case.answer is not None:
        return dataclasses.replace(case, answer=answer_to_settings(case.settings))
    if case.journal is not None:
        case = run_again(case)
    if case.verdict is not None and case.verdict.startswith(b"legal ") and case.segments:
        case = cut_again(case)
    case = dataclasses.replace(case, segments=[(text, statistics_of(text)) for text, _ in case.segments])
    if case.verdict is None and case.claimed is None:
        return case
    files = [text for text, _ in case.segments] or [case.claimed]
    return dataclasses.replace(case, verdict=verdict_of_segments(settings_in(case), files))


def files_made():
    """Each file of cases, and its text as it is made anew."""
    for path in files_of([CASES]):
        heading, cases = read_file(path)
        yield path, written(heading, map(remade, cases))


def checks():
    """Each file of cases, with the first line of it and of the file as it is made, if these differ."""
    for path, made in files_made():
        pairs = itertools.zip_longest(path.read_text().splitlines(), made.splitlines())
        yield str(path.relative_to(CASES)), *next((pair[::-1] for pair in pairs if pair[0] != pair[1]), ("", ""))


def main():
    if sys.argv[1:] == ["--check"]:
        return play_checks(checks())
    for path, text in list(files_made()):
        if path.read_text() != text:
            path.write_text(text)
            print(path.relative_to(TOP))


if __name__ == "__main__":
    sys.exit(main())

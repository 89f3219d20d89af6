"""Judges damaged journals, and journals that were cut into segments, by the program, and compares its verdicts with what is wanted.

    play_segments.py POOL CASES..

- A journal that is longer than the program's buffer is damaged in each of 4,000 ways, which go over all lines: one byte is changed, dropped or
  doubled, two lines next to each other or further apart are exchanged, or a line is lost. The verdict must be that of tests/pool_model.py.
- Over the segments of each case with a verdict `POOL check` must answer the verdict, to standard error with status 3 if it begins with `pool:`.
- The journal of each case whose script runs to its end is cut before each of its entries, into as many segments of one entry; `check` over all
  of them must find it legal. It is cut at three places besides, and one of the segments is left out, repeated or exchanged with the next: the
  verdict must be that of tests/pool_model.py.
- Three segments are damaged: in each place a byte is changed, dropped or doubled; the verdict must be the model's.
- `check` over a thousand segments must find them legal if 256 files may be open at a time. On one processor it must take no more memory than over the
  longest of them alone, with a tenth and 512 KiB for the files' names and what differs from run to run; and on all, for each of the files that are
  judged at once, no more than what the longest takes beyond the program itself, and 512 KiB.

The segments of cases and the damaged ones are judged on all processors, side by side, and on one, one after the other: the answers must be the same.
"""

import concurrent.futures
import functools
import itertools
import os
import random
import sys

from case_files import unpacked, wanted_of
from playing import differing, peak, run, scratch, side_by_side, tell, write_files
from pool_model import Pool, cut_at, settings_of, verdict_of_segments, words_of

LENGTH, WAYS = 2_400, 4_000
# All kinds of inputs have something to do: objects are evicted, tested, forgotten, and the pool closes near the end.
SETTINGS = """maxTotal = 6
maxIdle = 4
minIdle = 2
maxWaitMillis = 30
minEvictableIdleMillis = 40
numTestsPerEvictionRun = -2
testWhileIdle = true
[abandoned]
removeAbandonedOnBorrow = true
removeAbandonedOnMaintenance = true
removeAbandonedTimeoutMillis = 60
"""
# The most segments that are handed to one run.
MOST_SEGMENTS = 400
# The words before a command by which it has one processor, so that files are judged one after the other.
ON_ONE = "/usr/bin/taskset", "--cpu-list", str(min(os.sched_getaffinity(0)))
# How many files the program judges side by side for each processor.
FILES_PER_PROCESSOR = 4
# The base before all entries.
EMPTY = b"pool-journal 2 0 0 open none 0 0 0 0\n"
THREE = [
    b"""pool-journal 2 0 0 open none 0 0 0 0
0 10 borrow 10 = make 0
0 11 ready 0 good = lent
0 15 return 0 = check
0 16 park 0 good = parked
""",
    b"""pool-journal 2 4 1 open none 0 0 0 1
0 idle 3 16 11 11 old
0 20 evictnext = keptidle 0
0 21 borrow 21 = take 0
1 22 add = make 1
""",
    b"""pool-journal 2 7 2 open 3 0 0 0 2
0 readying 3 16 11 11 old
1 adding 0 0 0 0 new
1 23 added 1 good = parked
0 24 ready 0 activatefail = destroy
0 25 close = count 1
""",
]


def next_input(pool, at, chance):
    """An input that has something to do, mostly: what goes on with an object, or one that begins something."""
    goes_on = {"readying": b"ready", "returning": b"park", "adding": b"added", "testing": b"tested"}
    ids = sorted(pool.objects)
    if ids and chance.randrange(4):
        id = chance.choice(ids)
        phase = pool.phase(id)
        if phase in goes_on:
            bad = chance.choice([b"makefail", b"createfail", b"activatefail", b"testfail", b"passivatefail"])
            return goes_on[phase], id, bad if chance.randrange(6) == 0 else b"good"
        if phase == "destroying":
            return b"destroyed", id
        if phase == "lent":
            return chance.choice([b"return", b"return", b"use", b"invalidate"]), id
    begins = [b"borrow", b"borrow", b"add", b"fill", b"evict", b"evictnext", b"evictnext", b"reclaim", b"reclaimnext", b"clearnext"]
    name = chance.choice(begins)
    given = {b"borrow": (at - chance.randrange(40),), b"reclaim": (chance.choice([b"borrow", b"maintain"]),)}
    return name, *given.get(name, ())


def journal_by_chance(settings, length):
    pool, chance, at, lines = Pool(settings), random.Random(1), 1000, []
    for position in range(length):
        at += chance.randrange(12)
        asked = (b"close",) if position == length - 100 else next_input(pool, at, chance)
        answer = pool.reply(at, asked)
        lines.append(b"%d %d %s = %s\n" % (chance.randrange(20), at, words_of(asked), words_of(answer)))
        pool.step(at, asked, answer)
    return b"".join(lines)


def damaged(text, at, chance):
    """The text with the byte at this place changed, dropped and doubled."""
    byte = bytes([chance.choice(b"0123456789 =\nabcdefghijklmnopqrstuvwxyz\x00\x7f\xff")])
    yield text[:at] + byte + text[at + 1 :]
    yield text[:at] + text[at + 1 :]
    yield text[: at + 1] + text[at:]


def ways(segments, chance):
    """The segments as they are, and with one lost, where others are left, repeated, or exchanged with the next."""
    at = chance.randrange(len(segments))
    yield "cut", segments
    if len(segments) > 1:
        yield "one lost", segments[:at] + segments[at + 1 :]
    yield "one repeated", segments[: at + 1] + segments[at:]
    yield "two exchanged", segments[:at] + segments[at : at + 2][::-1] + segments[at + 2 :]


def damaged_in_way(text, way, chance):
    """The text of a journal damaged in this way."""
    lines = text.splitlines(keepends=True)
    first, kind = way * 7919 % len(lines), way % 5
    if kind < 3:
        at = sum(map(len, lines[:first])) + chance.randrange(len(lines[first]))
        return [*damaged(text, at, chance)][kind]
    last = min(len(lines) - 1, first + chance.choice([1, 1, 2, 10, 100])) if kind == 3 else first
    others = [lines[last], *lines[first + 1 : last], lines[first]][: last - first + 1] if kind == 3 else []
    return b"".join([*lines[:first], *others, *lines[last + 1 :]])


@functools.cache
def journal():
    return journal_by_chance(settings_of(SETTINGS), LENGTH)


def differences(pool, settings, way):
    """What differs where the journal is damaged in this way."""
    text = damaged_in_way(journal(), way, random.Random(way))
    done = run(pool, "check", settings, "/dev/stdin", input=text)
    return differing(f"way {way}", wanted_of(verdict_of_segments(settings_of(SETTINGS), [text])), done)


def checked(name, command, wanted, is_anyhow=True):
    """What differs in a run of the program: on all processors, or else on one, if it is to be run anyhow."""
    alone = f"{name}, on one processor"
    return differing(name, wanted, run(*command)) or (differing(alone, wanted, run(*ON_ONE, *command)) if is_anyhow else [])


def judged(pool, name, settings, segments, verdict, is_anyhow=False):
    """What differs where the segments, written to files, are judged."""
    with scratch() as room:
        return checked(name, [pool, "check", settings, *write_files(room, dict(enumerate(segments)))], wanted_of(verdict), is_anyhow)


def segmented(cases):
    """The cases that are segments with a verdict: each with the paths of its settings and of its segments."""
    for case, folder in cases:
        if case.segments and case.verdict is not None:
            yield case, folder / "settings.toml", [folder / f"{number}.journal" for number in range(len(case.segments))]


def of_journal(pool, case, settings, chance):
    read, text = settings_of(case.settings.decode()), case.journal
    count = text.count(b"\n")
    step = max(1, count // MOST_SEGMENTS)
    every = cut_at(read, text, set(range(1, count, step)))
    yield judged, pool, f"{case.name}, cut everywhere", settings, every, b"legal %d\n" % count
    some = cut_at(read, text, {1 + chance.randrange(max(1, count)) for _ in range(3)})
    for how, segments in ways(some, chance):
        yield judged, pool, f"{case.name}, {how}", settings, segments, verdict_of_segments(read, segments)


def damaged_segments():
    """The segments THREE with each of their bytes damaged, each with a name."""
    chance = random.Random(11)
    for index, text in enumerate(THREE):
        for at in range(len(text)):
            for changed in damaged(text, at, chance):
                yield f"segment {index}, byte {at}", [*THREE[:index], changed, *THREE[index + 1 :]]


def of_memory(pool, settings):
    """What differs in the memory of a thousand segments of 50 entries, and of the first of them alone; and where few files may be open."""
    read = settings_of("")
    segments = cut_at(read, journal_by_chance(read, 50_000), set(range(50, 50_000, 50)))
    with scratch() as room:
        none, *paths = write_files(room, {"none": b"", **dict(enumerate(segments))})
        few = run("sh", "-c", 'ulimit -n 256; exec "$@"', "sh", pool, "check", settings, *paths)
        found = differing("a thousand segments of which few may be open", (b"legal 50000\n", b"", 0), few)
        (_, least), (_, longest) = (peak(room, pool, "check", settings, path) for path in (none, paths[0]))
        (alone, in_turn), (together, at_once) = (peak(room, *words, pool, "check", settings, *paths) for words in (ON_ONE, ()))
    files_at_once = FILES_PER_PROCESSOR * len(os.sched_getaffinity(0))
    most = least + files_at_once * (longest - least + 512)
    if alone.returncode or together.returncode or in_turn > longest * 1.1 + 512 or at_once > most:
        found.append(f"memory: {len(segments)} segments took {in_turn} KiB in turn and {at_once} at once; one took {longest}, none {least}")
    return found


def played(trials):
    """What differs in trials that are made side by side, each a function and its arguments."""
    return side_by_side(lambda trial: trial[0](*trial[1:]), trials)


def trials(pool, cases, defaults):
    """All trials: each a function and its arguments."""
    for case, settings, segments in segmented(cases):
        yield checked, case.name, [pool, "check", settings, *segments], wanted_of(case.verdict)
    chance, read = random.Random(7), settings_of("")
    for case, folder in cases:
        yield from of_journal(pool, case, folder / "settings.toml", chance) if case.is_run else ()
    for name, segments in damaged_segments():
        yield judged, pool, name, defaults, segments, verdict_of_segments(read, segments), True
    yield of_memory, pool, defaults


def main(pool, *paths):
    with scratch() as room, concurrent.futures.ProcessPoolExecutor(os.cpu_count()) as workers:
        cases, (defaults, settings) = unpacked(room, *paths), write_files(room, {"defaults.toml": b"", "settings.toml": SETTINGS.encode()})
        found = workers.map(functools.partial(differences, pool, settings), range(WAYS), chunksize=50)
        return tell(itertools.chain(found, played(list(trials(pool, cases, defaults)))), 100)


if __name__ == "__main__":
    sys.exit(main(*sys.argv[1:]))

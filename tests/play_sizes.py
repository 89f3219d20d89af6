"""Plays the program on journals, pools, clears, bases, settings texts and keys of all sizes, and sees that it gives up on none.

    play_sizes.py POOL

POOL is the program. Sizes are spread from 1 to the limit, or to 1,200,000 lines and 100,000 objects, with the numbers about powers of 2 for texts
and keys. What must be answered is known for each size without playing. Bases are those of tests/pool_model.py. Clears must destroy objects in the order
in which they were parked, each once.

Reclaims that find nothing must not walk over all lent objects: valgrind counts the instructions of scripts of two lengths, with as many objects.
"""

import pathlib
import sys

from argument_rules import statistics
from case_files import script_of
from many_objects import NO_LIMITS, segments_of
from playing import differing, has, instructions, run, scratch, side_by_side, tell, write_files

LONGEST_TEXT = 1_048_576
LINES = [1, 2, 10, 100, 1_000, 4_096, 10_000, 65_535, 65_536, 65_537, 100_001, 300_000, 1_048_577, 1_200_000]
OBJECTS = [1, 2, 9, 100, 1_023, 1_025, 2_001, 4_097, 10_000, 32_769, 65_537, 100_000]
CLEARED = [1_000, 100_000]
# The objects of a base.
RECORDS = [2, 9, 1_025, 10_000, 100_000]
# Lent objects that are used while others are reclaimed, and the most by which the instructions may grow.
RECLAIMED, MOST_GROWTH = (500, 2_000), 8


def lengths(limit):
    """Lengths from 1 to the limit: about the powers of 2, and between them."""
    about = {2**power + more for power in range(2, 21) for more in (-1, 0, 1, 2 ** (power - 1))}
    return sorted(length for length in {1, 2, 3, *about, limit - 1, limit} if length <= limit)


# What a part plays, in a folder of its own: functions that yield the name of a run, its words and its answer, once its files are there.


def with_limit(folder, limit=2**32):
    write_files(folder, {"limits.toml": NO_LIMITS.replace("4294967296", str(limit)).encode()})


def parked(objects):
    """The entries that park so many objects."""
    return [entry for i in range(objects) for entry in (f"0 0 add = make {i}", f"0 1 added {i} good = parked")]


def journal_runs(folder, name, entries):
    """Runs of the script of these entries, and of the checks of their journal."""
    text = "".join(entry + "\n" for entry in entries).encode()
    write_files(folder, {"journal": text, "script": script_of(text)})
    yield f"run: {name}", ["run", "limits.toml", "script"], (text, b"", 0)
    yield f"check: {name}", ["check", "limits.toml", "journal"], (b"legal %d\n" % len(entries), b"", 0)


def lines(folder):
    for count in LINES:
        # An open pool owes the entry that closes it.
        with_limit(folder, count + 1)
        yield from journal_runs(folder, f"{count} lines", [f"7 {i} use {i} = refused notlent" for i in range(count)])
        yield f"stats: {count} lines", ["stats", "journal"], (statistics(*[0] * 9), b"", 0)
        with_limit(folder, count)
        yield f"full: {count} lines", ["check", "limits.toml", "journal"], (b"", b"pool: line %d: journal full\n" % count, 3)


def objects(folder):
    with_limit(folder)
    for count in OBJECTS:
        entries = [*parked(count), f"0 2 borrow 2 = take {count - 1}", f"0 3 ready {count - 1} good = lent"]
        yield from journal_runs(folder, f"{count} objects", entries)
        yield f"stats: {count} objects", ["stats", "journal"], (statistics(1, 0, count, *[0] * 6), b"", 0)


def clears(folder):
    """Pools that are cleared, in which a place is freed then, and one more object is made. Ids are never used again."""
    with_limit(folder)
    for count in CLEARED:
        entries = [*parked(count), f"0 1 clear = count {count}", *(f"0 1 clearnext = destroyidle {i}" for i in range(count))]
        entries += ["0 1 clearnext = nothing", f"0 2 destroyed {count // 2} = freed", f"0 2 add = make {count}"]
        yield from journal_runs(folder, f"a clear of {count} objects", entries)


def bases(folder):
    with_limit(folder)
    check, files = ["check", "limits.toml"], ["first", "second", "third"]
    for count in RECORDS:
        segments, pool = segments_of(count)
        write_files(folder, {name: base + entries for name, (base, entries) in zip(files, segments)})
        yield f"bases of {count} objects", [*check, *files], (b"legal %d\n" % pool.position, b"", 0)
        yield f"a base of {count} objects, one lost", [*check, "first", "third"], (b"illegal base 1\n", b"", 1)
        # The last record says that its object is new.
        base, entries = segments[2]
        write_files(folder, {"third": base.removesuffix(b"old\n") + b"new\n" + entries})
        yield f"a base of {count} objects, changed at its end", [*check, *files], (b"illegal base 2\n", b"", 1)


def settings_texts():
    """Settings of all lengths, each with a name, and with what is wrong with them, if anything is."""
    known, unknown = b"lifo = false\n", b"life = false\n"
    for length in lengths(LONGEST_TEXT):
        yield f"a comment of {length} bytes", b"#".ljust(length, b"c"), None
        if length > len(known):
            yield f"a setting at the end of {length} bytes", b"#".ljust(length - len(known) - 1, b"c") + b"\n" + known, None
            yield f"an unknown key before {length} bytes", unknown + b"#".ljust(length - len(unknown), b"c"), b"unknown key life"
    yield "a comment that is too long", b"#".ljust(LONGEST_TEXT + 1, b"c"), b"too long"
    for length in lengths(LONGEST_TEXT - len(b" = 1")):
        yield f"a key of {length} bytes", b"k" * length + b" = 1", b"unknown key " + b"k" * length
    for length in lengths(LONGEST_TEXT // 2 - 4):
        yield f"a key of {length} line feeds", b'"' + b"\\n" * length + b'"=1', b"unknown key " + b"\\n" * length
        yield f"a key of {length} bytes in the table", b"[abandoned]\n" + b"k" * length + b"=1", b"unknown key abandoned." + b"k" * length


def texts(folder):
    for name, text, fault in settings_texts():
        write_files(folder, {"a.toml": text})
        yield name, ["run", "a.toml", "/dev/null"], (b"", b"pool: settings: %s\n" % fault, 3) if fault else (b"", b"", 0)


def instructions_of_reclaims(pool, folder, objects):
    """The instructions of a script in which all objects are lent, then each is used in turn, and after each use those are reclaimed that were used by no
    one for as long as two rounds take."""
    write_files(folder, {"a.toml": b"maxTotal = -1\n[abandoned]\nremoveAbandonedOnMaintenance = true\nremoveAbandonedTimeoutMillis = %d\n" % (objects + 1)})
    lent = (f"0 {id} borrow {id}\n0 {id} ready {id} good\n" for id in range(objects))
    used = (f"0 {at} use {at % objects}\n0 {at} reclaim maintain\n" for at in range(objects, 3 * objects))
    write_files(folder, {"script": "".join([*lent, *used]).encode()})
    done, number = instructions(pool, "run", "a.toml", "script", cwd=folder)
    return number if done.stdout.count(b" reclaim maintain = count 0\n") == 2 * objects else -1


def reclaim_differences(pool):
    """Why reclaims walk: with four times as many objects and lines a script takes 16 times as many instructions then, and otherwise 4 to 5."""
    with scratch() as folder:
        few, many = (instructions_of_reclaims(pool, folder, objects) for objects in RECLAIMED)
    return [] if 0 < many < MOST_GROWTH * few else [f"reclaims: {few} instructions with {RECLAIMED[0]} objects, {many} with {RECLAIMED[1]}"]


def played(pool, part):
    """What differs in each run of a part."""
    with scratch() as folder:
        return [differing(name, wanted, run(pool, *words, cwd=folder)) for name, words, wanted in part(folder)]


def main(pool):
    pool = pathlib.Path(pool).resolve()
    found = [found for part in side_by_side(lambda part: played(pool, part), [lines, objects, clears, bases, texts]) for found in part]
    return tell(found + ([reclaim_differences(pool)] if has("the work of reclaims", "valgrind") else []))


if __name__ == "__main__":
    sys.exit(main(sys.argv[1]))

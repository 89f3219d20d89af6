"""Counts what the program asks of the system, and compares it with what the data need.

    count_work.py POOL TALLY

POOL is the program. Its allocations, the bytes that it holds, its reads and its writes are counted by a preloaded library (tests/count.c). Reads and
writes must be within bounds that follow from the size of the buffers, the bytes within a quarter of what is said below of buffers and objects, and
allocations few, however many lines and objects there are. Segments that are judged side by side must each be read once, so what was found of them ahead
must be used. Each file of a check is opened once to see that it is there, once to be read, and once more if its base is read apart from its lines. None
stays open.

TALLY is the test program crates/test_counts, which cuts a pool of 100,000 objects, reads the base that tests/pool_model.py tells, compares
and prints it, and opens a pool from it, which goes on as the model does. The allocations of each of these calls are counted.
"""

import pathlib
import subprocess
import sys

from many_objects import NO_LIMITS, segments_of
from playing import ended, preloaded, run, scratch, tell, write_files

# The buffer for what comes, that for what waits to be written, and the longest line. At most so many bytes less are read at once.
BUFFER = 65_536
LINE = 256
# The longest settings file with one byte more, for which there is room while it is read, and how much of it is read at once.
SETTINGS, CHUNK = 1_048_577, 4_096
# An object: the seven numbers and marks of its record, its value with the mark whether there is one, and its two links in the
# queue, whose marks share a word; and its place in the index: its id, its key, and a mark.
OBJECT = (7 + 2 + 3) * 8 + 3 * 8
# The most allocations of a use, most of them by clap, which builds the program's command with its subcommands. A list has room for twice as many each
# time that it is full.
MOST_ALLOCATIONS = 200
# The most allocations of the calls of TALLY, in their order, with OBJECTS: a cut takes a list of the objects' records and one of the entries that are
# owed. The lists of the next two double, of records and of bytes. A pool is opened with lists and a map of those in the queue, of which each node has
# at least seven.
OBJECTS = 100_000
CALLS = {"step": OBJECTS, "cut": 2, "read": 17, "print": 20, "open": 25 + OBJECTS // 7, "goon": OBJECTS}
# How often a command opens its files, if the text is in one file: the settings and the text, which a check opens twice.
OPENED = {"run": 2, "check": 3, "stats": 1}


def scripts():
    """Scripts with their journals: their names, their entries, and how many objects are idle in the end."""
    life = ["0 10 borrow 10 = make 0", "0 11 ready 0 good = lent", "0 15 return 0 = check", "0 16 park 0 good = parked"]
    yield "a short life", life, 1
    yield "1,200,000 uses", [f"7 {i} use {i} = refused notlent" for i in range(1_200_000)], 0
    yield "100,000 objects", [line for i in range(100_000) for line in (f"0 0 add = make {i}", f"0 1 added {i} good = parked")], 100_000


class Counter:
    def __init__(self, pool, folder):
        self.pool, self.folder = pool, folder
        self.library, self.file = preloaded("count", folder), folder / "counted"
        self.found = []
        self.environment = {"LD_PRELOAD": str(self.library), "COUNTED": str(self.file)}
        (folder / "settings.toml").write_text(NO_LIMITS)

    def expect(self, name, number, least, most):
        self.found.append([f"{name}: {number} is not from {least} to {most}"] * (not least <= number <= most))

    def counted(self):
        """The numbers of the last run, by their names."""
        lines = self.file.read_text().splitlines()
        self.file.unlink()
        return {name: int(number) for name, number in (line.split() for line in lines)}

    def count(self, arguments, status=0):
        """Runs the program to its end, which must have this status: what is counted."""
        done = run(self.pool, *arguments, cwd=self.folder, env=self.environment, stdout=subprocess.DEVNULL)
        if done.returncode != status:
            raise RuntimeError(f"{arguments[:4]}: status {done.returncode}, {done.stderr}")
        return self.counted()

    def play(self, command, name, entries, idle):
        """Plays a script. At most two buffers and the lists of objects are held, with room for twice as many, or the settings."""
        journal = "".join(entry + "\n" for entry in entries)
        text = "".join(entry.partition(" = ")[0] + "\n" for entry in entries) if command == "run" else journal
        (self.folder / "text").write_text(text)
        counted = self.count([command, *(["settings.toml"] if command != "stats" else []), "text"])
        name, most = f"{command} of {name}", 2 * BUFFER if command == "stats" else max(OBJECT * 2 * idle + 2 * BUFFER, SETTINGS)
        self.expect(f"{name}: allocations", counted["allocations"], 1, MOST_ALLOCATIONS)
        self.expect(f"{name}: bytes held", counted["most"], 1, most * 5 // 4)
        self.expect(f"{name}: files opened", counted["opened"], OPENED[command], OPENED[command])
        self.streams(name, command, counted, len(text), len(journal))

    def streams(self, name, command, counted, text, journal):
        """Reads and writes: the settings are read once, and to their end; then the text, by whole buffers but for a piece of a line."""
        settings = 0 if command == "stats" else 2
        reads, ends = counted["reads"] - settings, 1 + settings // 2
        self.expect(f"{name}: reads", reads, text // BUFFER + 1, text // (BUFFER - LINE) + 2)
        self.expect(f"{name}: least room for a read", counted["room"], CHUNK if settings else BUFFER - LINE, BUFFER)
        self.expect(f"{name}: reads at the end", counted["ends"], ends, ends)
        self.expect(f"{name}: reads after the last write", counted["late"], 0, int(command == "run"))
        # What waits is written where it fills the buffer, and before each read.
        writes = (-(-journal // BUFFER), journal // (BUFFER - LINE) + reads) if command == "run" else (1, 1)
        self.expect(f"{name}: writes", counted["writes"], *writes)
        if command == "run":
            self.expect(f"{name}: written", counted["written"], journal, journal)

    def endless(self, name, arguments, front, line, wanted):
        """Gives the program a text without an end: it must answer, and leave, with what it had read."""
        write_files(self.folder, {"small.toml": b"maxTotal = 1\njournalLimit = 1000\n", "front": front})
        with subprocess.Popen(["sh", "-c", 'cat front; exec yes "$1"', "sh", line], cwd=self.folder, stdout=subprocess.PIPE) as text:
            try:
                done = run(self.pool, *arguments, cwd=self.folder, env=self.environment, stdin=text.stdout)
            finally:
                text.kill()
        self.expect(f"{name}: right answers {done}", int(ended(done) == wanted), 1, 1)
        # Pipes give less than is asked for.
        self.expect(f"{name}: bytes read", self.counted()["read"], len(front) + 1, len(front) + len(line) + 1000 * LINE + 2 * BUFFER)


def play_endless(counter):
    legal, wait = b"0 0 borrow 0 = make 0\n", b"0 0 borrow 0 = wait\n"
    check, stats, run_it = (["check", "small.toml", "/dev/stdin"], ["stats", "/dev/stdin"], ["run", "small.toml", "/dev/stdin"])
    illegal, no_line, long_line = (b"illegal 1 wait\n", b"", 1), (b"", b"pool: line 2: not a line\n", 3), (b"", b"pool: line 2: line too long\n", 3)
    # An object that is made for a borrower owes five entries until its place is free, and the open pool the one that closes it.
    full = legal + wait * (1000 - 6 - 1), b"pool: line 995: journal full\n", 3
    for name, words, front, line, wanted in (
        ("an illegal journal", check, legal + b"0 0 borrow 0 = exhausted\n", wait.strip(), illegal), ("no journal", check, legal, b"nonsense", no_line),
        ("no line", stats, legal, b"0 0 add lent", no_line), ("one long line", stats, legal, b"a" * 256, long_line),
        ("no script", run_it, b"0 0 borrow 0\n", b"x", (legal, *no_line[1:])), ("a full journal", run_it, b"", b"0 0 borrow 0", full),
    ):
        counter.endless(name, words, front, line, wanted)


def write_segments(counter, segments, uses):
    """Writes legal segments: the names of their files, and the bytes of all."""
    names, size = [f"segment-{index}" for index in range(segments)], 0
    for index, name in enumerate(names):
        first = index * uses
        base = f"pool-journal 2 {first} 0 open none 0 0 0 0\n" if index else ""
        text = base + "".join(f"7 {at} use {at} = refused notlent\n" for at in range(first, first + uses))
        size += (counter.folder / name).write_text(text)
    return names, size


def play_side_by_side(counter):
    """Legal segments: each is read once, but for the front of it in which its base is looked for."""
    for segments, uses in (12, 40_000), (600, 100):
        names, size = write_segments(counter, segments, uses)
        counted, name = counter.count(["check", "settings.toml", *names]), f"{segments} segments side by side"
        counter.expect(f"{name}: bytes read", counted["read"], size, size + segments * BUFFER + SETTINGS)
        # On one processor a base is compared as it is read.
        counter.expect(f"{name}: files opened", counted["opened"], 1 + 2 * segments, 1 + 3 * segments)
    # An error in the last of several segments: that one alone is opened again, to be read up to the error.
    names, _ = write_segments(counter, 12, 100)
    with (counter.folder / names[-1]).open("a") as last:
        last.write("no line\n")
    counted = counter.count(["check", "settings.toml", *names], status=3)
    counter.expect("12 segments, the last not to its end: files opened", counted["opened"], 1 + 2 * 12, 2 + 3 * 12)


def play_objects(counter, tally):
    """The calls of TALLY: how many allocations each takes behind the one before it, and what is told once all are made."""
    segments, pool = segments_of(OBJECTS)
    (_, first), (_, second), (base, rest) = segments
    (counter.folder / "journal").write_bytes(first + second)
    (counter.folder / "segment").write_bytes(base + rest)
    before = 0
    for call, most in CALLS.items():
        done = run(tally, "settings.toml", "journal", "segment", call, cwd=counter.folder, env=counter.environment)
        allocations = counter.counted()["allocations"]
        counter.expect(f"{call} of {OBJECTS} objects: allocations", allocations - before, 0, most)
        before = allocations
    # The counts of the model's pool, as TALLY tells them.
    phases = [held.phase for held in pool.objects.values()]
    idle, lent = (sum(phase in named for phase in phases) for named in (("idle", "testing"), ("lent",)))
    counts = pool.position, idle, lent, len(phases) - idle - lent, pool.drawn, pool.destroyed, pool.evicted, pool.reclaimed
    counter.expect(f"{OBJECTS} objects: right answers {done}", int(ended(done) == (b"opened %d %d %d %d %d %d %d %d\n" % counts, b"", 0)), 1, 1)


def main(pool, tally):
    with scratch() as made:
        counter = Counter(str(pathlib.Path(pool).resolve()), made)
        for script in scripts():
            for command in ("run", "check", "stats"):
                counter.play(command, *script)
        play_endless(counter)
        play_side_by_side(counter)
        play_objects(counter, str(pathlib.Path(tally).resolve()))
    return tell(counter.found)


if __name__ == "__main__":
    sys.exit(main(*sys.argv[1:]))

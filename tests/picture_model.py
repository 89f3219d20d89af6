"""What pictures of journals must show, by a plain reading of all entries at once. It shares nothing with the program."""

import bisect
import dataclasses
import types

TAKEN = {"take": "Readying", "test": "Testing", "destroyidle": "Destroying", "reclaimed": "Gone"}
OF_INPUT = {"lent": "Lent", "check": "Returning", "parked": "Idle", "kept": "Idle", "destroy": "Destroying", "freed": "Gone"}
COUNTED = {"Lent": "lent", "Idle": "idle", "Testing": "idle"}
MOST_BUCKETS, MOST_LISTED = 1000, 10
KINDS = ["refused", "no object", "evicted", "reclaimed", "failed tests"]
PERCENTS = [50, 90, 99]


@dataclasses.dataclass(frozen=True)
class Entry:
    caller: int
    at: int
    asked: list
    answer: list

    def moved(self):
        """The object that the entry moves, and its phase after it."""
        answer, *told = self.answer
        if answer == "make":
            phase = {"borrow": "Readying", "add": "Adding", "fill": "Adding"}.get(self.asked[0])
            return phase and (int(told[0]), phase)
        if answer in TAKEN:
            return None if answer == "take" and self.asked[0] != "borrow" else (int(told[0]), TAKEN[answer])
        named = len(self.asked) > 1 and self.asked[0] not in ("borrow", "reclaim")
        return (int(self.asked[1]), OF_INPUT[answer]) if named and answer in OF_INPUT else None

    def marks(self):
        """The kinds of marks that the entry has."""
        asked, answer, outcome = self.asked[0], self.answer[0], self.asked[-1]
        if answer == "refused":
            yield "refused"
        if answer in ("exhausted", "timeout"):
            yield "no object"
        if (asked, answer) == ("evictnext", "destroyidle") or ((asked, answer) == ("tested", "destroy") and outcome != "good"):
            yield "evicted"
        if answer == "reclaimed":
            yield "reclaimed"
        if answer == "destroy" and outcome in ("testfail", "createfail") and len(self.asked) == 3:
            yield "failed tests"


def read(text):
    """The journal in the text of one file, or of some that follow one another: its position, its entries, and its base, which has the objects at its
    beginning (id, phase, the time when it was lent, the time when it was parked)."""
    journal, lines, is_first = types.SimpleNamespace(position=0, base=[], entries=[]), iter(text.splitlines()), True
    for line in lines:
        words = line.split(" ")
        if words[0] == "pool-journal":
            records = [next(lines).split(" ") for _ in range(int(words[-1]))]
            if is_first:
                journal.position = int(words[2])
                journal.base = [(int(r[0]), r[1].capitalize(), int(r[4]), int(r[3])) for r in records]
        else:
            equals = words.index("=")
            journal.entries.append(Entry(int(words[0]), int(words[1]), words[2:equals], words[equals + 1 :]))
        is_first = False
    return journal


def times(entries):
    """The time of each entry, where one before an earlier entry's counts as that one."""
    found, now = [], entries[0].at if entries else 0
    for entry in entries:
        now = max(now, entry.at)
        found.append(now)
    return found


def lanes(journal):
    """The bars and the waits of a short journal, as the hints in its picture name them."""
    bars, waits, now, here, waiting = [], [], 0, {}, {}
    first = journal.entries[0].at if journal.entries else 0
    for id, phase, *_ in journal.base:
        here[id] = (id, phase, "since before the first entry", first)
    for entry, now in zip(journal.entries, times(journal.entries)):
        if move := entry.moved():
            if move[0] in here:
                bars.append((*here.pop(move[0]), now))
            if move[1] != "Gone":
                here[move[0]] = (*move, f"by caller {entry.caller}", now)
        if entry.asked[0] == "borrow":
            if entry.answer == ["wait"]:
                waiting.setdefault(entry.caller, now)
            elif entry.caller in waiting:
                waits.append((entry.caller, waiting.pop(entry.caller), now))
    now = max(now, first)
    bars += [(*bar, now) for bar in here.values()]
    waits += [(caller, since, now) for caller, since in waiting.items()]
    return sorted(f"object {i}: {p}, {c}, {f} to {t} ms" for i, p, c, f, t in bars), sorted(
        f"caller {c} waits, {f} to {t} ms" for c, f, t in waits
    )


class Overview:
    """What an overview must show."""

    def __init__(self, journal):
        self.journal, self.times = journal, times(journal.entries)
        self.waits, self.loans, self.levels = [], [], []
        self.pass_over()

    def pass_over(self):
        """Takes the entries one after the other: the levels before each of them and at the end, the waits and the loans."""
        present = {id: [phase, None, lent, {"Lent": lent, "Idle": parked}.get(phase)] for id, phase, lent, parked in self.journal.base}
        waiting, counts = {}, {"lent": 0, "idle": 0, "reserved": 0}
        for phase, *_ in present.values():
            counts[COUNTED.get(phase, "reserved")] += 1
        for number, entry in enumerate(self.journal.entries):
            self.levels.append({**counts, "waiting": len(waiting)})
            if move := entry.moved():
                id, phase = move
                before = present.pop(id, [None, None, 0, None])
                if before[0] == "Lent" != phase:
                    self.loans.append((max(0, entry.at - before[2]), number, id, before[1], before[2]))
                if before[0]:
                    counts[COUNTED.get(before[0], "reserved")] -= 1
                if phase != "Gone":
                    present[id] = [phase, entry.caller, entry.at if phase == "Lent" else before[2], entry.at]
                    counts[COUNTED.get(phase, "reserved")] += 1
            if entry.asked[0] == "borrow":
                if entry.answer == ["wait"]:
                    waiting.setdefault(entry.caller, entry.at)
                elif entry.caller in waiting:
                    self.waits.append(max(0, entry.at - waiting.pop(entry.caller)))
        self.levels.append({**counts, "waiting": len(waiting)})
        self.waiting, self.present = len(waiting), present

    def width(self):
        """The width of a bucket: the least power of two for which 1,000 are enough."""
        span, width = self.times[-1] - self.times[0], 1
        while span // width >= MOST_BUCKETS:
            width *= 2
        return width

    def buckets(self):
        """For each bucket its first time, the levels before its first entry and after each, and the numbers of its marks."""
        first, width, found, start = self.times[0], self.width(), [], 0
        for number in range((self.times[-1] - first) // width + 1):
            begin = first + number * width
            end = bisect.bisect_left(self.times, begin + width)
            marks = [kind for entry in self.journal.entries[start:end] for kind in entry.marks()]
            found.append((begin, self.levels[start : end + 1], {kind: marks.count(kind) for kind in KINDS}))
            start = end
        return found

    def longest(self):
        """The longest loans: object, caller, beginning and duration."""
        listed = sorted(self.loans, key=lambda loan: (-loan[0], loan[1]))[:MOST_LISTED]
        return [(str(id), "unknown" if caller is None else str(caller), str(at), str(lasted)) for lasted, _, id, caller, at in listed]

    def held(self):
        """The objects that are held at the end: object, phase, caller, beginning and duration."""
        found = [(since or 0, id, phase, caller, since) for id, (phase, caller, _, since) in self.present.items() if phase != "Idle"]
        for _, id, phase, caller, since in sorted(found):
            name = "unknown" if caller is None else str(caller)
            lasted = ("before the first entry", "unknown") if since is None else (str(since), str(max(0, self.times[-1] - since)))
            yield (str(id), phase, name, *lasted)

"""What the program must write for a script, for statistics and for settings, by tests/pool_model.py.

A text that begins with `pool:` is written to standard error, and the status is 3 then.
"""

import re
import tomllib

from pool_model import DEFAULTS, OF_ABANDONED, LineFault, is_evicting, read_base_line, read_entry, told, words_of

# The ranges of the numbers in a settings file; the other settings are true or false.
COUNT, MILLIS, DELAY = (-(2**31), 2**31 - 1), (-1, 2**53), (0, 2**53)
RANGES = {
    "journalLimit": (1, 2**32), "maxIdle": COUNT, "maxTotal": COUNT, "maxWaitMillis": MILLIS, "minEvictableIdleMillis": MILLIS,
    "minIdle": (0, 2**31 - 1), "numTestsPerEvictionRun": COUNT, "removeAbandonedTimeoutMillis": DELAY, "softMinEvictableIdleMillis": MILLIS,
}
# These are obeyed by the callers of a pool, and change no answer.
OF_CALLERS = {"testOnBorrow", "testOnCreate", "testOnReturn"}
KEYS = {*DEFAULTS, *OF_CALLERS, "abandoned"}
# Characters that a line shows otherwise, if one of them is a control character.
SHORT = {"\b": "\\b", "\t": "\\t", "\n": "\\n", "\f": "\\f", "\r": "\\r", "\\": "\\\\"}
CONTROL = re.compile(r"[\x00-\x1f\x7f-\x9f]")
STATISTICS = ("borrowed", "returned", "created", "destroyed", "evicted", "borrowtestfailed", "reclaimed", "longest", "total")


def run(pool, script, first):
    """The journal of a script on a pool, and what is written of the line that ends it early, or `None`. The pool's stored journal begins at position
    `first`."""
    start, entries = 0, []
    try:
        while start < len(script):
            at, asked, _, end = read_entry(script, start, False)
            answer = pool.take(at, asked, first)
            entries.append(script[start : end - 1] + b" = " + words_of(answer) + b"\n")
            start = end
    except LineFault as fault:
        return b"".join(entries), told(len(entries) + 1, fault)
    return b"".join(entries), None


class Tally:
    """The statistics of entries that are taken one by one."""

    def __init__(self):
        self.counts = dict.fromkeys(STATISTICS, 0)
        # The time at which the last loan of each object began.
        self.begun = {}

    def end_loan(self, id, at):
        lasted = max(0, at - self.begun.get(id, at))
        self.counts["longest"] = max(self.counts["longest"], lasted)
        self.counts["total"] = min(self.counts["total"] + lasted, 2**64 - 1)

    def take(self, at, asked, answer):
        input, name = asked[0], answer[0]
        counted = {b"lent": "borrowed", b"check": "returned", b"make": "created", b"freed": "destroyed", b"reclaimed": "reclaimed"}
        if name in counted:
            self.counts[counted[name]] += 1
        self.counts["evicted"] += is_evicting(name, *asked)
        self.counts["borrowtestfailed"] += (input, name, asked[-1]) == (b"ready", b"destroy", b"testfail")
        if (input, name) == (b"ready", b"lent"):
            self.begun[asked[1]] = at
        if (input, name) in ((b"return", b"check"), (b"invalidate", b"destroy")):
            self.end_loan(asked[1], at)
        if name == b"reclaimed":
            self.end_loan(answer[1], at)

    def text(self):
        return "".join(f"{name} {count}\n" for name, count in self.counts.items()).encode()


def statistics_of(text):
    """What `stats` writes of a journal or a segment."""
    tally, start, line = Tally(), 0, 0
    of_base = int(re.match(rb"[^ \n]*", text)[0] == b"pool-journal")
    try:
        while start < len(text) or line < of_base:
            line += 1
            if line > of_base:
                *entry, start = read_entry(text, start)
                tally.take(*entry)
            else:
                found, start = read_base_line(text, start)
                of_base += int(found.split(b" ")[-1]) if line == 1 else 0
    except LineFault as fault:
        return told(line, fault)
    return tally.text()


def fault_of_value(key, value):
    """What is wrong with the value of a key that has no table, or `None`."""
    if key not in RANGES:
        return None if isinstance(value, bool) and key != "abandoned" else "wrong type"
    if type(value) is not int:
        return "wrong type"
    least, greatest = RANGES[key]
    return None if least <= value <= greatest else "out of range"


def fault_of_table(table, keys, before=""):
    """The first fault of a table, in the order of the bytes of its keys, or `None`. Lines name the keys with this text before them."""
    for key, value in sorted(table.items(), key=lambda item: item[0].encode()):
        if key not in keys:
            fault = f"unknown key {before}{key}"
        elif key == "abandoned" and isinstance(value, dict):
            fault = fault_of_table(value, OF_ABANDONED, "abandoned.")
        else:
            kind = fault_of_value(key, value)
            fault = kind and f"{kind} {before}{key}"
        if fault:
            return fault
    return None


def numbers_in(value):
    """The whole numbers in a value of TOML."""
    if isinstance(value, dict | list):
        return [number for held in (value.values() if isinstance(value, dict) else value) for number in numbers_in(held)]
    return [value] if type(value) is int else []


def answer_to_settings(text):
    """What the program writes of a settings file, or `ok` if it takes it."""
    try:
        table = tomllib.loads(text.decode())
    except ValueError:
        return b"pool: settings: not TOML\n"
    if any(not -(2**63) <= number < 2**63 for number in numbers_in(table)):
        return b"pool: settings: not TOML\n"
    fault = fault_of_table(table, KEYS)
    if fault is None:
        return b"ok\n"
    if CONTROL.search(fault):
        fault = re.sub(r"[\x00-\x1f\x7f-\x9f\\]", lambda found: SHORT.get(found[0]) or f"\\u{ord(found[0]):04X}", fault)
    return f"pool: settings: {fault}\n".encode()

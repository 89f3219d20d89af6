"""Plays calls of all kinds at random on PROGRAM, event by event, and compares each answer with that of a model.

    play_calls.py PROGRAM [--seed SEED]

PROGRAM is test_calls. Each seed plays a pool with random settings: up to 16 callers make calls of all kinds, the factory fails at random, calls
are given up at any point, waits end with their time, the journal is cut or has no room, hosts wake up for nothing, return what they do not hold, and
report what does not fit. Some pools are closed. Each event is chosen by the answers so far of the model in call_model.py, and the program must give
the same: the action, what a call over several objects has come to, the calls to wake, and the counts.

At the end all that is held is returned, only calls that were woken go on, and none may be left. All seeds together see each end of each kind of call.
With --seed it plays that seed alone.
"""

import argparse
import concurrent.futures
import os
import random
import sys

from call_model import FITTING, Hosted
from playing import differing, run, tell
from pool_model import settings_of

SLOTS, SEEDS = 16, 80
# How many commands each seed has, at least.
COMMANDS = 600
# More objects than a call reclaims at a time.
MANY = 100
# The settings that the model of the pool's answers does not know.
OF_CALLS = {"journalLimit": 1_000_000, "testOnBorrow": False, "testOnCreate": False, "testOnReturn": False}
HOOKS = ("activates", "validates", "passivates")
REPORTS = sorted({report for reports in FITTING.values() for report in reports} | {"given-up"})
# How each kind of call can end, besides that it is given up or finds the journal full.
OF_FACTORY = "make-failed create-test-failed passivate-failed"
ENDS = {
    "borrow": "lent closed exhausted timed-out make-failed create-test-failed activate-failed borrow-test-failed",
    "return": "parked destroyed gone not-lent",
    **dict.fromkeys(("invalidate", "detach"), "destroyed gone not-lent"),
    "touch": "noted gone not-lent",
    "add": f"parked closed no-place destroyed {OF_FACTORY}",
    "fill": f"complete {OF_FACTORY}",
    "evict": "complete closed",
    **dict.fromkeys(("reclaim", "clear", "close"), "complete"),
}
WANTED = {f"{kind} {end}" for kind, ends in ENDS.items() for end in [*ends.split(), "cancelled", "journal-full"]}
# The calls to which a host hands over an object that is lent.
HANDED = ("return", "invalidate", "detach")
# The calls that are made most. The others are given up, and fail in the factory, so many times as likely; and at most how likely.
FREQUENT, RARE = ("borrow", "return"), 5
MOST_LIKELY = 0.4


def text_of(settings):
    """The lines of the settings as TOML."""
    flat = {key: value for key, value in settings.items() if key != "abandoned"}
    of_abandoned = ["[abandoned]", *text_of(settings["abandoned"])] if "abandoned" in settings else []
    return [f"{key} = {str(value).lower()}" for key, value in flat.items()] + of_abandoned


def random_settings(dice):
    most = dice.choice((1, 1, 1, 2, 2, 3, 4, -1))
    settings = {
        "maxTotal": most, "maxIdle": dice.choice((8, 8, 8, -1, 0, 1, 2)), "minIdle": dice.choice((0, 1, 2, 3)),
        "lifo": dice.random() < 0.5, "blockWhenExhausted": dice.random() < 0.9, "maxWaitMillis": dice.choice((-1, -1, 20, 200, 0)),
        **{key: dice.random() < 0.5 for key in ("testOnBorrow", "testOnCreate", "testOnReturn", "testWhileIdle")},
        "numTestsPerEvictionRun": dice.choice((3, 1, 10, -1, -2)), "minEvictableIdleMillis": dice.choice((-1, 20, 200, 1_800_000)),
        "softMinEvictableIdleMillis": dice.choice((-1, 10, 100)),
    }
    if dice.random() < 0.4 or most < 0:
        flags = {"removeAbandonedOnBorrow": dice.random() < 0.7, "removeAbandonedOnMaintenance": dice.random() < 0.8}
        settings["abandoned"] = flags | {"removeAbandonedTimeoutMillis": dice.choice((40, 400)) if most > 0 else 20_000}
    if most > 0 and dice.random() < 0.5:
        # As much as is needed if all objects but one are lent and one is readied, up to a little more; sometimes less.
        least = 7 + 4 * (most - 1)
        settings["journalLimit"] = dice.randint(max(least - 3, 1), least + 40)
    return settings


class Player:
    """Plays the commands of one seed on the model, and then what is left."""

    def __init__(self, seed):
        self.dice = dice = random.Random(seed)
        settings = random_settings(dice)
        most = settings["maxTotal"]
        lines = text_of(settings)
        self.settings = {**OF_CALLS, **settings_of("\n".join(lines))}
        hooks = {key: dice.random() < 0.5 for key in HOOKS}
        overtakes, millis, self.drops = dice.choice((0, 1, 1, 2, 5)), dice.choice((0, 0, 5, 50)), dice.random() < 0.25
        self.model = Hosted(self.settings, hooks, overtakes, millis, self.drops)
        flags = ["yes" if flag else "no" for flag in (*(hooks[key] for key in HOOKS), self.drops)]
        # The script, and the lines that it is answered.
        self.commands, self.answers = [*lines, "", f"pool {overtakes} {millis} {' '.join(flags)}"], []
        # How likely a factory's call fails and a call is given up, and how many objects callers hold at most.
        self.failing = dice.choice((0.0, 0.05, 0.3))
        self.giving_up = dice.choice((0.0, 0.02, 0.1))
        self.most_held = 130 if most < 0 else 12
        # After how many commands the pool may be closed, and while which call works on an object: none if while one is idle.
        self.open_for, self.closes_at = dice.uniform(0.3, 1.1) * COMMANDS, dice.choice(("add", "fill", "evict", "evict", None))
        self.clock, self.next_token = dice.choice((0, 1_000)), 100
        # The last call of each slot, the slots of those that go on, and of those for what their hosts do not hold; the tickets that were woken; and the
        # objects that hosts hold, with their tokens.
        self.calls, self.going, self.bogus, self.woken, self.lent = {}, [], set(), set(), {}
        # What may happen next, each as often as it is likely.
        self.events = [
            *[self.borrow] * (120 if most < 0 else 40), *[self.return_or_end] * (6 if most < 0 else 18), *[self.go_on] * 80, *[self.maintain] * 16,
            *[self.touch] * 4, *[self.misreport] * 8, *[self.close] * 6, *[self.end_wrongly] * 3, self.cut,
        ]
        self.seen = set()

    # What is sent.

    def send(self, command, answer):
        """Adds a command with its answer to the script."""
        self.commands.append(command)
        self.answers += answer
        self.woken.update(int(line.split(" ")[1]) for line in answer if line.startswith("wake "))

    def now(self):
        """The time of a caller: clocks differ by a little."""
        return max(0, self.clock - self.dice.choice((0, 0, 0, 0, 2)))

    def begin(self, slot, kind, *words, is_bogus=False):
        """Begins a call of this kind. The words are the id and the token of its object, if it has one."""
        caller, at = self.caller(slot), self.now()
        self.calls[slot], wanted = self.model.begin(kind, caller, at, *words)
        self.going.append(slot)
        if is_bogus:
            self.bogus.add(slot)
        elif kind in HANDED:
            del self.lent[words[0]]
        self.send(" ".join(map(str, (kind, slot, caller, at, *words))), wanted)
        self.note(slot)

    def note(self, slot):
        """Takes in the answer to a call. One that ends before its first step leaves its object with its host."""
        call = self.calls[slot]
        if not call.is_over():
            return
        end = call.action[1]
        self.seen.add(f"{call.kind} {end}")
        if end == "lent":
            self.lent[call.action[2]] = call.action[3]
        elif call.kind in HANDED and end in ("cancelled", "journal-full") and slot not in self.bogus:
            self.lent[call.id] = call.token
        self.going.remove(slot)
        self.bogus.discard(slot)

    def report(self, slot, report):
        """Reports to a call. A report that does not fit changes nothing."""
        call, caller, at, token = self.calls[slot], self.caller(slot), self.now(), None
        fits = call.fits(report)
        if report == "made":
            token, self.next_token = self.next_token, self.next_token + self.dice.randint(1, 9)
        if report == "woken" and fits:
            self.woken.discard(call.ticket)
        wanted = self.model.report(call, caller, at, report, token)
        self.send(f"report {slot} {caller} {at} {report}{'' if token is None else f' {token}'}", wanted)
        if fits:
            self.note(slot)

    def cut(self):
        """Shows the journal, and cuts it."""
        self.send("journal", self.model.journal())
        self.send("cut", self.model.cut())

    def caller(self, slot):
        """The number of the caller of a slot."""
        return 4_294_967_295 if slot == SLOTS - 1 else slot

    # What is chosen.

    def free_slots(self):
        return [slot for slot in range(SLOTS) if slot not in self.going]

    def awake(self):
        """The slots of the calls that go on and do not sleep, or were woken."""
        return [slot for slot in self.going if self.calls[slot].action[0] != "sleep" or self.calls[slot].ticket in self.woken]

    def begin_any(self, kind):
        """Begins a call that is for no object. One slot is left for those that are for one, and another for calls that do not borrow."""
        slots = self.free_slots()
        if len(slots) > (2 if kind == "borrow" else 1):
            self.begin(self.dice.choice(slots), kind)

    def borrow(self):
        if len(self.lent) < self.most_held:
            self.begin_any("borrow")

    def end_loan(self, kind):
        slots = self.free_slots()
        if slots and self.lent:
            id = self.dice.choice(sorted(self.lent))
            self.begin(self.dice.choice(slots), kind, id, self.lent[id])

    def end_wrongly(self):
        """A return, an invalidation or a detachment of an object that its host does not hold."""
        slots = self.free_slots()
        id = self.dice.randint(0, self.model.pool.drawn + 1)
        if slots and self.model.pool.phase(id) != "lent":
            self.begin(self.dice.choice(slots), self.dice.choice(HANDED), id, 7, is_bogus=True)

    def touch(self):
        """The note of a use, mostly of an object that is lent."""
        slots = self.free_slots()
        ids = sorted(self.lent) if self.dice.random() < 0.8 else range(self.model.pool.drawn + 2)
        if len(slots) > 1 and ids:
            self.begin(self.dice.choice(slots), "touch", self.dice.choice(ids))

    def maintain(self):
        """A call that is for the pool, and mostly one that leaves it as many objects."""
        kinds = ["add", "fill", "evict", "reclaim", "clear"]
        kind = self.dice.choices(kinds, [4, 6, 7, 5, 2])[0]
        if kind != "add" or len(self.model.tokens) < 4:
            self.begin_any(kind)

    def go_on(self):
        """An event of a call that goes on, mostly of one that is awake."""
        slots = (self.dice.random() < 0.9 and self.awake()) or self.going
        if not slots:
            return
        slot = self.dice.choice(slots)
        call = self.calls[slot]
        if self.dice.random() < self.likely(self.giving_up, call):
            self.report(slot, "given-up")
        elif report := self.report_of(slot):
            self.report(slot, report)

    def likely(self, chance, call):
        """How likely it is for a call what is so likely for one that is made most."""
        if call.kind in FREQUENT:
            return chance
        return MOST_LIKELY if chance and call.action[0] == "destroy" else min(chance * RARE, MOST_LIKELY)

    def report_of(self, slot):
        """What the host of a call reports next; nothing if it sleeps on."""
        call, chance = self.calls[slot], self.dice.random()
        action = call.action[0]
        if action == "step":
            return "go-on"
        if action == "make-room":
            return self.room_of(slot, chance)
        if action == "sleep":
            is_over = len(call.action) > 2 and self.clock >= call.action[2]
            return "woken" if chance < (0.5 if call.ticket in self.woken else 0.3 if is_over else 0.02) else None
        if chance < self.likely(self.failing, call):
            return "failed"
        return "made" if action == "make" else "succeeded"

    def room_of(self, slot, chance):
        """Cuts the journal, or not. What a call that is bogus names may be lent meanwhile, so that one ends."""
        if slot in self.bogus:
            return "no-room" if chance < 0.5 else "given-up"
        if chance < 0.5:
            self.cut()
        is_given_up = chance > 0.9 and self.calls[slot].fits("given-up")
        return "given-up" if is_given_up else "room-made" if chance < 0.65 else "no-room"

    def misreport(self):
        """A report that does not fit, to a call that goes on or is over."""
        if self.calls:
            slot, report = self.dice.choice(sorted(self.calls)), self.dice.choice(REPORTS)
            if not self.calls[slot].fits(report):
                self.report(slot, report)

    def event(self):
        """Something happens, mostly soon. Where many objects are lent, all of them may soon be abandoned."""
        dice = self.dice
        is_many = len(self.lent) > MANY and len(self.lent.keys() - self.model.reclaimed) > MANY
        if dice.random() < (0.1 if is_many else 0.01):
            self.clock += 30_000 if is_many else dice.choice((50, 500, 3_000))
        self.clock += dice.choice((0, 0, 1, 1, 2, 5))
        dice.choice(self.events)()

    def return_or_end(self):
        self.end_loan(self.dice.choices(HANDED, [6, 2, 1])[0])

    def close(self):
        """Closes the pool in some seeds, while a call works on an object or one is idle; and again, mostly where the journal is full."""
        if len(self.commands) < self.open_for:
            return
        going = [self.calls[slot] for slot in self.going]
        if self.model.pool.closed:
            is_time = any(call.action[0] == "make-room" for call in going)
        elif self.closes_at is None:
            is_time = bool(self.model.tokens)
        else:
            self.begin_any(self.closes_at)
            is_time = any(call.kind == self.closes_at and call.action[0] in ("make", "validate") for call in going)
        if is_time or self.dice.random() < 0.05:
            self.begin_any("close")

    def drain(self):
        """Returns all that is held. Of the calls that sleep only those go on that were woken. Yields what is wrong."""
        for _ in range(10_000):
            if slots := self.awake():
                slot = self.dice.choice(slots)
                self.report(slot, self.last_report_of(slot))
            elif self.lent:
                self.return_or_end()
            else:
                break
        if self.going or self.lent:
            yield f"{self.lent} is held, and calls go on: {[self.calls[slot].action for slot in self.going]}"

    def last_report_of(self, slot):
        action = self.calls[slot].action[0]
        if action == "make-room":
            if slot in self.bogus or self.dice.random() < 0.1:
                return "no-room"
            self.cut()
            return "room-made"
        return {"step": "go-on", "sleep": "woken", "make": "made"}.get(action, "succeeded")

    def play(self):
        """Plays. Yields what is wrong."""
        while len(self.commands) < COMMANDS:
            self.event()
        yield from self.drain()
        self.cut()
        if self.answers[-1].split(" ")[2:] != ["0", "0", "0"]:
            yield f"something is lent or reserved, or waits: {self.answers[-1]}"


def play_seed(seed, program):
    """Plays a seed. Returns what differs, the number of commands, and what was seen."""
    player = Player(seed)
    wrong = [f"seed {seed}: {told}" for told in player.play()]
    script, answers = ("".join(line + "\n" for line in lines).encode() for lines in (player.commands, player.answers))
    return wrong + differing(f"seed {seed}", (answers, b"", 0), run(program, input=script)), len(player.commands), player.seen


def main():
    words = argparse.ArgumentParser(prog="play_calls.py", description=__doc__, formatter_class=argparse.RawDescriptionHelpFormatter)
    words.add_argument("program", metavar="PROGRAM")
    words.add_argument("--seed", metavar="SEED", type=int, help="play this seed alone")
    asked = words.parse_args()
    seeds = range(1, SEEDS + 1) if asked.seed is None else [asked.seed]
    with concurrent.futures.ProcessPoolExecutor(os.cpu_count()) as workers:
        found, counts, seen = zip(*workers.map(play_seed, seeds, [asked.program] * len(seeds)))
    print(f"{sum(counts)} commands")
    missing = WANTED.difference(*seen)
    return tell([*found, [f"never seen: {sorted(missing)}"] * bool(missing and asked.seed is None)])


if __name__ == "__main__":
    sys.exit(main())

"""A journal of many objects, cut into three segments."""

from pool_model import Pool, settings_of, words_of

NO_LIMITS = "journalLimit = 4294967296\nmaxTotal = -1\nmaxIdle = -1\n"
# No number of objects that is played is a multiple of it, so that it brings all of them into another order.
STRIDE = 7_919


def made(objects):
    """So many objects are made and lent."""
    for id in range(objects):
        yield 1, (b"borrow", 1), (b"make", id)
        yield 2, (b"ready", id, b"good"), (b"lent",)


def parked(objects):
    """Nine in ten of them come back, in an order that isn't that of their ids."""
    for id in (turn * STRIDE % objects for turn in range(objects)):
        if id % 10:
            yield 3, (b"return", id), (b"check",)
            yield 4, (b"park", id, b"good"), (b"parked",)


def asked_of_some(pool):
    """What is asked that has to do with some of the objects, by name or in their turn, until the pool is closed, as the model answers it."""

    def ask(*asked):
        return 5, asked, pool.reply(5, asked)

    taken = []
    for _ in range(9):
        borrowed = ask(b"borrow", 5)
        taken.append(borrowed[2][1])
        yield borrowed
    yield from (ask(b"ready", id, b"good") for id in taken)
    yield from (ask(b"use", id) for id in (0, 10, pool.drawn))
    for id in [*taken[:5], 0]:
        yield ask(b"return", id)
        yield ask(b"park", id, b"good")
    for id in taken[5:]:
        yield ask(b"invalidate", id)
        yield ask(b"destroyed", id)
    yield from map(ask, (b"evict", b"evictnext", b"evictnext", b"evictnext", b"add", b"clear", b"clearnext", b"close"))


def segments_of(objects):
    """The journal of a pool without limits: for each segment the text of its base and that of its entries; and the pool at its end."""
    pool, segments = Pool(settings_of(NO_LIMITS)), []
    for steps in made(objects), parked(objects), asked_of_some(pool):
        base, lines = b"".join(pool.base()), []
        for at, asked, answer in steps:
            lines.append(b"0 %d %s = %s\n" % (at, words_of(asked), words_of(answer)))
            pool.step(at, asked, answer)
        segments.append((base, b"".join(lines)))
    return segments, pool

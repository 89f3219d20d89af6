"""Draws journals, and compares each picture with a plain reading of the journal (tests/picture_model.py).

    check_picture.py PROGRAM CASES..

- A picture is well-formed XML. That of a short journal has a bar for each phase of each object and for each wait, with its caller and times,
  and each bar is where its times are. That of a long one (over 10,000 entries) has the least and greatest levels and the marks of each bucket,
  areas and bars of the right heights, the quantiles within the error that it states, the longest loans, and the objects held at the end.
- The journals are those of the scripts of CASES, journals of up to 100,000 entries as a pool makes them, journals of random entries and times, and
  all of them again in segments, in one stream or in several files.
- Damaged and missing files, segments that do not continue one another, other arguments, failed reads and writes and each failed allocation
  must end with the right status and message, and with no picture.
"""

import pathlib
import random
import re
import sys
import xml.etree.ElementTree as xml

import picture_model
from case_files import unpacked
from play_segments import SETTINGS, journal_by_chance
from playing import TOP, differing, preloaded, refusals, run, scratch, tell, write_files
from pool_model import cut_at, settings_of

SVG = "{http://www.w3.org/2000/svg}"
LEFT, WIDTH, MOST = 110, 1180, 10_000
CHART_LEFT, CHART_WIDTH = 110, 1000
AREAS = {"All": ("lent", "idle", "reserved"), "LentOrIdle": ("lent", "idle"), "Lent": ("lent",)}
HINT = re.compile(
    r"(\d+) to (\d+) ms: lent (\d+) to (\d+), idle (\d+) to (\d+), reserved (\d+) to (\d+), waiting (\d+) to (\d+); "
    r"refused (\d+), no object (\d+), evicted (\d+), reclaimed (\d+), failed tests (\d+)"
)
TOTALS = dict(zip(("Refused", "Without", "Evicted", "Reclaimed", "Failed"), picture_model.KINDS))
WRONG = "journal_picture: wrong arguments; try journal_picture --help\n"
ARGUMENTS = [
    ([], 2, WRONG), (["-x"], 2, WRONG), (["a", "--draw"], 2, WRONG), (["/nowhere"], 3, "journal_picture: /nowhere: cannot open the journal\n"),
    (["/"], 3, "journal_picture: /: read failed\n"),
]
SEGMENT = "the segment does not begin where the one before it ends"


def hints(picture, start):
    return sorted(title.text for title in picture.iter(f"{SVG}title") if title.text.startswith(start))


def misplaced(picture, first, last):
    """The hints of bars that are not where their times are."""
    span = max(last - first, 1)
    for rectangle in picture.iter(f"{SVG}rect"):
        title = rectangle.find(f"{SVG}title")
        if title is not None:
            begin, end = (int(time) for time in re.search(r"(\d+) to (\d+) ms", title.text).groups())
            place, until = (LEFT + (time - first) * WIDTH // span for time in (begin, end))
            if (int(rectangle.get("x")), int(rectangle.get("width"))) != (place, max(until - place, 1)):
                yield f"misplaced: {title.text}"


def lane_differences(picture, text, journal):
    """What the picture of a short journal shows otherwise."""
    bars, waits = picture_model.lanes(journal)
    times = picture_model.times(journal.entries) or [0]
    objects = len({bar.split(":")[0] for bar in bars})
    if objects <= 300 and hints(picture, "object") != bars:
        yield "other bars"
    if objects > 300 and "300 of " not in text:
        yield "lanes are left out without a word"
    if hints(picture, "caller") != waits:
        yield "other waits"
    if f">{len(journal.entries)} entries from position {journal.position}, " not in text:
        yield "another heading"
    yield from misplaced(picture, times[0], times[-1])


def path_of(heights, top, height, highest):
    """The steps of an area's upper edge."""
    edges = [CHART_LEFT + number * CHART_WIDTH // len(heights) for number in range(1, len(heights) + 1)]
    steps = (f"V{top + height - level * height // highest}H{edge}" for edge, level in zip(edges, heights))
    return f"M{CHART_LEFT} {top + height}" + "".join(steps)


def area_differences(picture, buckets):
    """The areas and the line that are drawn otherwise."""
    paths = {path.get("id"): path.get("d") for path in picture.iter(f"{SVG}path") if path.get("id")}
    sums = {name: [[sum(level[key] for key in keys) for level in levels] for _, levels, _ in buckets] for name, keys in AREAS.items()}
    highest = max(1, max(map(max, sums["All"])))
    for name, levels in sums.items():
        for extent, pick in (("greatest", max), ("least", min)):
            if paths.get(f"{name}-{extent}") != path_of(list(map(pick, levels)), 112, 240, highest) + "V352Z":
                yield f"another area {name}-{extent}"
    waiting = [max(level["waiting"] for level in levels) for _, levels, _ in buckets]
    if paths.get("waiting") != path_of(waiting, 392, 100, max(1, *waiting)):
        yield "another line of borrowers that wait"


def hint_of(bucket, width):
    """The numbers of a bucket, as its hint has them."""
    begin, levels, marks = bucket
    spans = [(min(level[key] for level in levels), max(level[key] for level in levels)) for key in ("lent", "idle", "reserved", "waiting")]
    return tuple(map(str, (begin, min(begin + width - 1, 2**64 - 1), *(number for span in spans for number in span), *marks.values())))


def bucket_differences(picture, expected):
    """The buckets whose levels or marks differ."""
    buckets, width = expected.buckets(), expected.width()
    found = [title.text for title in picture.iter(f"{SVG}title") if " ms: lent " in title.text]
    if len(found) != len(buckets):
        yield f"{len(found)} buckets, expected {len(buckets)}"
    for text, bucket in zip(found, buckets):
        if HINT.fullmatch(text).groups() != hint_of(bucket, width):
            yield f"bucket {text}, expected {hint_of(bucket, width)}"
    totals = {text.get("id"): text.text for text in picture.iter(f"{SVG}text") if text.get("id")}
    for row, kind in TOTALS.items():
        if totals.get(f"total-{row}") != str(sum(marks[kind] for *_, marks in buckets)):
            yield f"{row}: another total"
    bars = sum(count > 0 for *_, marks in buckets for count in marks.values())
    drawn = sum(rectangle.get("fill") in ("#c02020", "#c06000", "#406080", "#8030a0", "#a08000") for rectangle in picture.iter(f"{SVG}rect"))
    if bars != drawn:
        yield f"{drawn} marks, expected {bars}"
    yield from area_differences(picture, buckets)


def rows(picture, name):
    """The rows of a table: the texts in each."""
    return [tuple(text.text for text in group) for group in picture.iter(f"{SVG}g") if group.get("class") == name]


def duration_differences(picture, expected):
    """The numbers of the distributions that differ, or are beyond the error that the picture states."""
    found = {name: (int(waits), int(loans)) for name, waits, loans in rows(picture, "durations")}
    for column, durations in enumerate((expected.waits, [loan[0] for loan in expected.loans])):
        if found["number"][column] != len(durations) or found["longest"][column] != max(durations, default=0):
            yield f"number or longest of {found}, expected {len(durations)} and {max(durations, default=0)}"
        for percent in picture_model.PERCENTS:
            # The shortest duration that so many percent do not exceed.
            exact = sorted(durations)[max(0, -(-len(durations) * percent // 100) - 1)] if durations else 0
            shown = found[f"p{percent}"][column]
            if not exact <= shown <= exact + exact // 64 or (exact < 128 and exact != shown):
                yield f"p{percent}: {shown}, exactly it is {exact}"


def overview_differences(picture, text, journal):
    """What an overview shows otherwise."""
    expected = picture_model.Overview(journal)
    yield from bucket_differences(picture, expected)
    yield from duration_differences(picture, expected)
    if rows(picture, "loan") != expected.longest():
        yield f"longest loans: {rows(picture, 'loan')}, expected {expected.longest()}"
    held = list(expected.held())
    if rows(picture, "held") != held[:30]:
        yield f"held: {rows(picture, 'held')}, expected {held[:30]}"
    more = [title.text.split("\n")[:-1] for title in picture.iter(f"{SVG}title") if title.text.startswith("object ")]
    if [len(lines) for lines in more] != ([len(held) - 30] if len(held) > 30 else []):
        yield "the other objects that are held are named otherwise"
    said = f": {len(journal.entries)} entries from position {journal.position}, times {expected.times[0]} to {expected.times[-1]} ms<"
    if said not in text or f" {expected.waiting} borrowers still wait at the end." not in text:
        yield "another heading, or other borrowers that wait at the end"


def differences(program, *files):
    """What the picture of the journal in these files shows otherwise."""
    done = run(program, *files)
    if done.returncode or done.stderr:
        return [f"status {done.returncode}, {done.stderr!r}"]
    text = done.stdout.decode()
    journal = picture_model.read("".join(pathlib.Path(file).read_text() for file in files))
    kind = overview_differences if len(journal.entries) > MOST else lane_differences
    return list(kind(xml.fromstring(text), text, journal))


def long_journal(count):
    """A journal with this number of entries of four callers that share three objects; it need not be one that a pool made."""
    for number in range(0, count, 4):
        caller, at, i = number // 4 % 4, 3 * number, number // 4 % 3
        yield f"{caller} {at} borrow {at} = " + ("make" if number < 12 else "take") + f" {i}"
        yield f"{caller} {at + 2} ready {i} good = lent"
        yield f"{caller} {at + 9} return {i} = check"
        yield f"{caller} {at + 10} park {i} good = parked"


def random_phrase(chance, phrases, ids):
    """An input or an answer, with random words in it."""
    words = {"ID": str(chance.randrange(ids)), "OUTCOME": chance.choice(["good", "good", "makefail", "createfail", "testfail", "passivatefail"])}
    return " ".join(words.get(word, word) for word in chance.choice(phrases).split(" "))


def random_journal(seed, count):
    """Entries of which each is one at random, with times that leap and go back."""
    chance, at = random.Random(seed), random.Random(seed).randrange(10**6)
    inputs = ["borrow 7"] * 6 + ["ready ID OUTCOME"] * 3 + ["return ID", "park ID OUTCOME", "invalidate ID", "use ID", "add", "evictnext"]
    inputs += ["tested ID OUTCOME", "destroyed ID", "added ID OUTCOME", "reclaim maintain", "reclaimnext", "close", "clear", "fill"]
    answers = ["wait", "lent", "lent", "make ID", "take ID", "check", "parked", "kept", "destroy", "freed", "test ID", "destroyidle ID"]
    answers += ["reclaimed ID", "exhausted", "timeout", "refused closed", "noted", "count 3", "nothing", "gone", "keptidle ID"]
    for _ in range(count):
        leap = chance.choice([0, 0, 1, 5, 40, 1000 if seed % 2 else 10**6 if chance.randrange(50) == 0 else 3])
        at = max(0, at + leap - chance.choice([0, 0, 0, 7]))
        ids = 60 if seed % 3 else 9
        yield f"{chance.randrange(12)} {at} {random_phrase(chance, inputs, ids)} = {random_phrase(chance, answers, ids)}"


def with_lines(path, lines):
    path.write_text("".join(line + "\n" for line in lines))
    return path


def made_journals(folder):
    """Journals that are made for this test."""
    for count in (0, 4, 100, 10_000, 10_001, 20_000):
        yield with_lines(folder / f"{count}.journal", list(long_journal(count + 3))[:count])
    for seed in range(6):
        yield with_lines(folder / f"random-{seed}.journal", random_journal(seed, (12_000, 300)[seed // 4]))
    ends = [0, 1, 2**64 - 2, 2**64 - 1]
    lines = enumerate(random_journal(7, 10_100))
    yield with_lines(folder / "ends.journal", (f"4294967295 {ends[k * 4 // 10_100]} {line.split(' ', 2)[2]}" for k, line in lines))
    yield with_lines(folder / "held.journal", (f"{k % 70} {k} ready {k % 70} good = lent" for k in range(11_000)))


def pool_journals(folder):
    """Journals as a pool makes them, each as its segments: files, and all of them in one."""
    settings = settings_of(SETTINGS)
    for length, positions in ((400, {1, 150, 151, 399}), (12_000, {5_000, 11_999}), (100_000, {10_000, 33_333, 90_000})):
        text = journal_by_chance(settings, length)
        segments, name = cut_at(settings, text, positions), f"pool-{length}"
        texts = {name: text, f"{name}.stream": b"".join(segments)} | {f"{name}.{number}": segment for number, segment in enumerate(segments)}
        whole, stream, *files = write_files(folder, texts)
        yield whole, files, stream


def segment_differences(program, whole, files, stream):
    """What is drawn otherwise of segments: all of them give the picture of the whole, also as a stream, and the later ones a picture too."""
    picture = run(program, whole).stdout
    yield from differences(program, whole)
    for words, given in (files, {}), ([stream], {}), (["-"], {"input": stream.read_bytes()}), (["/dev/stdin"], {"input": stream.read_bytes()}):
        yield from differing(f"{words}, and the picture of the whole", (picture, b"", 0), run(program, *words, **given))
    yield from differences(program, *files[1:])
    yield from differences(program, files[-1])


def broken(folder, files):
    """Segments that do not continue one another, with the line that reports it."""
    first, second, third = (str(file) for file in files[:3])
    head, *records = pathlib.Path(second).read_text().splitlines()
    position, length = head.split(" ")[2], picture_model.read(pathlib.Path(third).read_text()).position
    id, *fields = records[0].split(" ")

    def with_word(place, word):
        return [" ".join([*head.split(" ")[:place], word, *head.split(" ")[place + 1 :]]), *records]

    yield [second, second], second, f"line 1: {SEGMENT}: position {position}, expected {length}"
    yield [first, third], third, f"line 1: {SEGMENT}: position {length}, expected {position}"
    used = " ".join([id, *fields[:4], str(int(fields[4]) + 1), *fields[5:]])
    changed = [
        (["0 1 add = make 0"], 1, "it has no first line of a segment"), (with_word(4, "closed"), 1, "whether the pool is closed"),
        (with_word(5, "77777"), 1, "where the last object was examined"), ([head, "9" + records[0], *records[1:]], 2, f"object 9{id}"),
        ([head, used, *records[1:]], 2, f"object {id}"), ([head, records[0], records[0], *records[2:]], 3, f"object {id}"),
    ]
    for place, name in {3: "next id", 6: "destroyed", 7: "evicted", 8: "reclaimed", 9: "number of objects"}.items():
        count = int(head.split(" ")[place])
        changed.append((with_word(place, str(count + 1)), 1, f"{name} {count + 1}, expected {count}"))
    for at, (lines, number, what) in enumerate(changed):
        file = str(with_lines(folder / f"changed-{at}", lines))
        yield [first, file], file, f"line {number}: {SEGMENT}: {what}"


def damaged(folder):
    """Damaged files, with the line that reports it."""
    whole, base = b"0 0 borrow 0 = make 0\n", b"pool-journal 2 5 1 open none 0 0 0 2\n"
    texts = [
        (whole + b"0 1 ready 0 good", "line 2: truncated"), (whole + b"0 1 ready 0 good = lost\n", "line 2: not a line"),
        (whole + b"0 01 ready 0 good = lent\n", "line 2: bad number"), (whole + b"0" * 300 + b"\n", "line 2: line too long"),
        (whole + b"\n" + whole, "line 2: not a line"), (b"pool-journal 3 5 1 open none 0 0 0 2\n", "line 1: not a line"),
        (base + b"0 idle 3 16 11 11 old\n", "line 3: truncated"), (base + whole, "line 2: not a line"),
        (whole * 30_000 + b"x\n", "line 30001: not a line"),
    ]
    for file, (_, message) in zip(write_files(folder, {f"damaged-{at}": text for at, (text, _) in enumerate(texts)}), texts):
        yield [str(file)], str(file), message


def message_differences(program, cases):
    """The files that are not refused with their message."""
    for words, path, message in cases:
        yield from differing(f"{words}", (b"", f"journal_picture: {path}: {message}\n".encode(), 3), run(program, *words))


def argument_differences(program, folder):
    """What other arguments, and a write that fails, end with otherwise."""
    named = folder / "a\nb"
    for words, status, message in [*ARGUMENTS, ([named], 3, f"journal_picture: {folder}/a\\nb: cannot open the journal\n")]:
        yield from differing(f"{words}", (b"", message.encode(), status), run(program, *words))
    starts = dict.fromkeys(["--version", "-V"], f"journal_picture {(TOP / 'VERSION').read_text()}") | dict.fromkeys(["--help", "-h"], "journal_picture JOURNAL..")
    for word, start in starts.items():
        done = run(program, word)
        if (done.returncode, done.stderr) != (0, b"") or not done.stdout.decode().startswith(start):
            yield f"{word}: {done}"
    empty = run(program, "-", input=b"")
    if empty.returncode or ">0 entries from position 0, 0 objects" not in empty.stdout.decode():
        yield f"empty input: {empty}"
    with open("/dev/full", "wb") as full:
        yield from differing("a write that fails", (None, b"journal_picture: write failed\n", 3), run(program, "/dev/null", stdout=full))


def refusal_differences(program, journal, folder):
    """The failed allocations after which the program ends otherwise than with the whole picture or an error."""
    whole = run(program, journal).stdout
    for number, done in refusals(preloaded("refuse", folder), folder / "refused", program, journal):
        is_told = done.returncode == 3 and done.stderr.endswith((b"out of memory\n", b"cannot open the journal\n"))
        if not (is_told and whole.startswith(done.stdout)) and (done.returncode, done.stdout) != (0, whole):
            yield f"allocation {number} of {journal}: {done.returncode}, {done.stderr}, {len(done.stdout)} bytes"


def checks(program, paths, folder):
    """Each check by its name, with the differences that it finds."""
    cases = [place / "journal" for case, place in unpacked(folder / "cases", *paths) if case.journal is not None]
    for journal in cases + list(made_journals(folder)):
        yield journal, differences(program, journal)
    for whole, files, stream in pool_journals(folder):
        yield whole, segment_differences(program, whole, files, stream)
        if len(files) > 4:
            yield "segments that do not continue one another", message_differences(program, broken(folder, files[1:]))
    yield "damaged files", message_differences(program, damaged(folder))
    yield "arguments", argument_differences(program, folder)
    for journal in ("100.journal", "random-1.journal", "pool-400.2"):
        yield f"failed allocations, {journal}", refusal_differences(program, folder / journal, folder)


if __name__ == "__main__":
    with scratch() as room:
        sys.exit(tell([f"{name}: {line}" for line in [*found][:5]] for name, found in checks(sys.argv[1], sys.argv[2:], room)))

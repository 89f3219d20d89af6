"""Judges segments of journals by themselves, in any order, and joins what was found, as many machines would; and all that are in a folder.

    play_judge.py JUDGE CASES..

`JUDGE SETTINGS SEGMENT` must write the lines of the base that a segment reaches, with status 0, or nothing, with another status. The
segments of a journal are one legal journal where each is legal by itself, the first begins at the base before all entries, and each begins
with the lines that were written of the one before it.

- Of each case with segments and a verdict all segments are judged, in an order by chance. Joined, they must be legal exactly where the verdict
  says so; where it does, what is written of each must be the lines of the next one's base. `JUDGE --join` must say the same, and
  `JUDGE FOLDER` the verdict, with the segment that has the error. So it is of three segments with each byte damaged, by tests/pool_model.py.
- New settings that leave no room for outstanding entries, or are none, have their lines; so have folders that lack something. In a folder with a folder
  for each start each is judged. `JUDGE --held` must list the objects that are held at the end, by the names and with the times of day there.
- Other arguments, requests for help or the version, and files that cannot be opened, read or taken, must have the line, which names the file,
  and the status that crates/judge/specs/Messages.antt says.
- Segments that another one follows are judged once for each allocation, which is refused then, and so are folders, joins and lists: nothing is written, the
  status is 3 and the line tells of memory, as no other fault; or all is written, where it can do without what was refused.
"""

import itertools
import random
import re
import sys

from argument_rules import version
from case_files import unpacked
from play_segments import EMPTY, THREE, damaged_segments, played, segmented
from playing import differing, ended, preloaded, refusals, run, scratch, tell, write_files
from pool_model import settings_of, verdict_of_segments


def base_lines(segment):
    """The lines of the base with which a segment begins: none where it begins with entries, or with what is no base."""
    lines = segment.splitlines(keepends=True)
    words = lines[0].split() if lines else []
    if words[:1] != [b"pool-journal"] or not words[-1].isdigit():
        return b""
    return b"".join(lines[: 1 + int(words[-1])])


def are_joined(segments, reached):
    """Whether segments, of which so much was written, or nothing, are one legal journal."""
    bases = [base_lines(segment) for segment in segments]
    return None not in reached and all(base in (lines, b"" if lines == EMPTY else lines) for base, lines in zip(bases, [EMPTY, *reached]))


def reached_by(judge, settings, paths, chance):
    """What is written of each segment, judged in an order by chance, and nothing where it isn't legal."""
    reached = [None] * len(paths)
    for index in chance.sample(range(len(paths)), len(paths)):
        written, told, status = ended(run(judge, settings, paths[index]))
        if (status == 0) != (told == b"") or (status and written):
            raise ValueError(f"{paths[index]}: status {status}, wrote {written}, told {told}")
        reached[index] = written if status == 0 else None
    return reached


def of_segments(judge, name, settings, segments, verdict, chance):
    """What differs where segments in a folder are judged by themselves and joined, and all at once."""
    legal = verdict.startswith(b"legal ")
    with scratch() as room:
        (room / "reached").mkdir()
        first, *paths = write_files(room, {"settings.toml": settings, **{f"segment-{at}": text for at, text in enumerate(segments)}})
        reached = reached_by(judge, first, paths, chance)
        write_files(room / "reached", {path.name: text for path, text in zip(paths, reached) if text is not None})
        found = [f"{name}: legal is {legal}, reached {reached}"] * (are_joined(segments, reached) != legal)
        joined = ended(run(judge, "--join", room, room / "reached"))
        wanted = (b"one legal journal\n", b"", 0) if legal else (b"not legal from %s/segment-" % bytes(room), b"", 1)
        found += [f"{name}, joined: {joined}"] * (not joined[0].startswith(wanted[0]) or joined[1:] != wanted[1:])
        return found + of_folder(judge, name, room, paths, segments, verdict.rstrip(b"\n"))


def of_folder(judge, name, room, paths, segments, verdict):
    """What differs where all segments in a folder are judged."""
    if verdict.startswith(b"legal "):
        return differing(f"{name}, in a folder", (verdict + b"\n", b"", 0), run(judge, room))
    if verdict.startswith(b"pool: "):
        done, told = run(judge, room), re.escape(verdict.removeprefix(b"pool: "))
        is_right = (done.stdout, done.returncode) == (b"", 3) and re.fullmatch(rb"judge: \S+/segment-\d+: " + told + b"\n", done.stderr)
        return [f"{name}, in a folder: {done}"] * (not is_right)
    words, ends = verdict.split(), list(itertools.accumulate(text.count(b" = ") for text in segments))
    number = int(words[2]) if words[1] == b"base" else next(at for at, end in enumerate(ends) if int(words[1]) < end)
    told = b"judge: %s: %s\n" % (bytes(paths[number]), verdict)
    return differing(f"{name}, in a folder", (verdict + b"\n", told, 1), run(judge, room))


# What a folder has, uses of it, and what is wanted of each. The files change between the uses.


def of_later(room):
    """Later settings of a segment, before which an object is being made."""
    first = EMPTY + b"0 1 borrow 1 = make 0\n"
    second = b"pool-journal 2 1 1 open none 0 0 0 1\n0 readying 0 0 0 0 new\n0 2 ready 0 good = lent\n"
    write_files(room, {"settings.toml": b"", "segment-0": first, "segment-1": second})
    for text, wanted in (
        (b"maxTotal = 0\n", (b"legal 2\n", b"", 0)), (b"journalLimit = 1\n", line_of(room / "segment-1", "base: no room")),
        (b"maxTotal = many\n", line_of(room / "settings-1.toml", "settings: not TOML")),
        (b"maxTotl = 8\n", line_of(room / "settings-1.toml", "settings: unknown key maxTotl")),
    ):
        write_files(room, {"settings-1.toml": text})
        yield f"{text} from a segment on", wanted, [room]
    write_files(room, {"settings.toml": b"maxTotal = 0\n", "settings-0.toml": b"", "settings-1.toml": b"", "settings-9.toml": b"maxTotal = 0\n"})
    yield "settings from the first segment on", (b"legal 2\n", b"", 0), ["--", room]
    (room / "settings-1.toml").unlink()
    (room / "settings-1.toml").symlink_to("settings-1.toml")
    yield "settings that lead to themselves", (b"", b"judge: cannot open %s/settings-1.toml\n" % bytes(room), 3), [room]


def of_starts(room):
    """Folders of starts, and those that lack something."""
    yield "no folder", (b"", b"judge: cannot open %s/none\n" % bytes(room), 3), [room / "none"]
    yield "a folder without a journal", line_of(room, "no settings.toml, and no folder with one"), [room]
    yield "a folder without segments to join", line_of(room, "no segments"), ["--join", room, room]
    for name in "1-first", "2-begun", "3-whole", "notes":
        (room / name).mkdir()
    first, whole = room / "1-first", room / "3-whole"
    write_files(room, {"2-begun/start.toml": b'zero = "2026-11-30T03:54:57.120Z"\n', "1-first/settings.toml": b""})
    write_files(whole, {"settings.toml": b"", **{f"segment-{at}": text for at, text in zip((0, 4, 7), THREE)}})
    others = b"2-begun: legal 0\n3-whole: legal 10\n"
    for text, output, told, status in (
        (THREE[0], b"1-first: legal 4\n", None, 0), (THREE[0].replace(b"check", b"gone"), b"1-first: illegal 2 check\n", "illegal 2 check", 1),
        (b"x\n", b"", "line 1: not a line", 3),
    ):
        write_files(first, {"segment-000": text})
        yield f"three starts, of one {told}", (output + others, line_of(first / "segment-000", told)[1] if told else b"", status), [room]
    (first / "settings.toml").unlink()
    yield "a start without settings", line_of(first, "no settings.toml"), [first]
    write_files(whole, {"segment-7.old": b""})
    for words in [whole], ["--join", whole, room]:
        yield f"{words}", line_of(whole / "segment-7.old", "no position in the name"), words
    (whole / "segment-7.old").unlink()
    (whole / "segment-0").unlink()
    yield "the first segment is lost", (b"illegal base 0\n", line_of(whole / "segment-4", "illegal base 0")[1], 1), [whole]


def line_of(path, told, status=3):
    """What is wanted of a run that names a path in its line."""
    return b"", f"judge: {path}: {told}\n".replace("two\nlines", "two\\nlines").encode(), status


def of_held(room):
    """Lists of objects that are held."""
    write_files(room, {"settings.toml": b"", **{f"segment-{at}": text for at, text in zip((0, 4), THREE)}})
    rows = b"object 0: made ready by caller 0 since 21 ms\nobject 1: made by caller 1 since 22 ms\n"
    yield "held, without names", (rows, b"", 0), ["--held", room]
    zero = b'started = "2026-11-30T03:54:57.123Z"\nzero = "2026-11-30T03:54:57.120Z"\nprocess = 4711\n'
    write_files(room, {"start.toml": zero, "callers.txt": b"0 main\n1 worker-1\n0 worker-\xc2\x85\n1\nx y\n1 cut off"})
    rows = b"object 0: made ready by worker-\\u0085 since 2026-11-30T03:54:57.141Z\n"
    rows += b"object 1: made by worker-1 since 2026-11-30T03:54:57.142Z\n"
    yield "held, with names and times of day", (rows, b"", 0), ["--held", room]
    later = room / "starts/2"
    later.mkdir(parents=True)
    (room / "starts/3").mkdir()
    write_files(later, {"segment-0": THREE[0].partition(b"0 15")[0]})
    yield "held at the last start", (b"object 0: held by caller 0 since 11 ms\n", b"", 0), ["--held", room / "starts"]
    write_files(later, {"segment-0": THREE[1].partition(b"0 20")[0].replace(b"idle", b"lent")})
    yield "held since before the journal", (b"object 0: held by an unknown caller since 11 ms\n", b"", 0), ["--held", later]
    write_files(room, {"start.toml": b"zero = 1\n"})
    yield "no time of day", line_of(room, "no time of day in start.toml"), ["--held", room]
    write_files(later, {"segment-0": THREE[0] + b"x\n"})
    yield "no journal", line_of(later / "segment-0", "line 6: not a line"), ["--held", later]


# Files by their names: what `judge FILE segment` prints of those that give no settings, ..
SETTINGS = {
    "bad.toml": (b"maxTotal = many\n", "settings: not TOML"),
    "bytes.toml": (b"\xff", "settings: not TOML"),
    "long.toml": (b"#".ljust(1_048_577, b"c"), "settings: too long"),
    "key.toml": (b"maxTotl = 8\n", "settings: unknown key maxTotl"),
    "type.toml": (b"lifo = 1\n", "settings: wrong type lifo"),
    "range.toml": (b"minIdle = -1\n", "settings: out of range minIdle"),
}
# .. and what `judge SETTINGS FILE` prints of those that are no legal segment, with the status.
SEGMENTS = {
    "gone": (THREE[0].replace(b"check", b"gone"), "illegal 2", 1),
    "base": (b"pool-journal 2 0 1 open none 0 0 0 0\n", "base: not a base", 1),
    "two\nlines": (b"0 1 borrow\n", "line 1: not a line", 3),
    "number": (THREE[0] + b"0 1 borrow 01 = wait\n", f"line {THREE[0].count(10) + 1}: bad number", 3),
    "long": (b"a" * 300, "line 1: line too long", 3),
    "cut": (THREE[0][:-1], f"line {THREE[0].count(10)}: truncated", 3),
}
USES = ["FOLDER", "--held FOLDER", "SETTINGS SEGMENT", "--join FOLDER REACHED", "--help", "--version"]
WRONG = b"judge: wrong arguments, try judge --help\n"


def uses(room, settings):
    """Uses that end otherwise than with a base, each with what is wanted."""
    write_files(room, {name: text for name, (text, *_) in {**SETTINGS, **SEGMENTS}.items()} | {"small.toml": b"journalLimit = 2\n"})
    lost, good = f"{room}/none", f"{room}/gone"
    yield from (([f"{room}/{name}", good], line_of(f"{room}/{name}", told)) for name, (_, told) in SETTINGS.items())
    yield from (([settings, f"{room}/{name}"], line_of(f"{room}/{name}", told, status)) for name, (_, told, status) in SEGMENTS.items())
    wrong = [], [settings, good, good], ["--version", "--help", "-h"], ["--help", good], ["-x", room], ["--join", room], ["--held"]
    yield from ((words, (b"", WRONG, 2)) for words in (*wrong, ["--held", room, room]))
    for words, opened in ([lost, good], lost), ([settings, lost], lost), (["help"], "help"), (["--", "--help"], "--help"), ([settings], settings):
        yield words, (b"", f"judge: cannot open {opened}\n".encode(), 3)
    yield from (([first, second], line_of(room, "read failed")) for first, second in ((room, good), (settings, room)))
    yield [f"{room}/small.toml", good], line_of(good, "line 2: journal full")


def of_uses(judge, settings):
    with scratch() as room:
        wrong = [told for words, wanted in uses(room, settings) for told in differing(f"{words}", wanted, run(judge, *words))]
    for word in "--version", "-V":
        wrong += differing(word, (version().replace(b"pool", b"judge"), b"", 0), run(judge, word))
    for word in "--help", "-h":
        # The uses of the program, each in some words.
        output, *others = ended(run(judge, word))
        named = [line.partition("  ")[0].removeprefix("judge ") for line in output.decode().splitlines() if line.startswith("judge ")]
        wrong += [f"{word}: {output}"] * ((named, others) != (USES, [b"", 0]))
    return wrong


def of_pipe(judge, settings):
    """A segment that can be read only once is not judged, whether or not it is legal."""
    wanted = b"", b"judge: /dev/stdin: read failed\n", 3
    texts = THREE[0], THREE[0].replace(b"check", b"gone"), THREE[0].partition(b"\n")[2]
    return [told for text in texts for told in differing("a segment from a pipe", wanted, run(judge, settings, "/dev/stdin", input=text))]


def of_damaged(room):
    """What was printed of a segment, and is not one base; or is none, as of one that is not legal."""
    (room / "reached").mkdir()
    paths = write_files(room, {f"segment-{at}": text for at, text in zip((0, 4, 7), THREE)})
    bases = [base_lines(text) for text in THREE[1:]] + [EMPTY]
    no_base = line_of(paths[0], "what it reached is not one base")
    from_first, from_second = (b"not legal from %s on\n" % bytes(path) for path in paths[:2])
    for text, wanted in (
        (bases[0][:-1], no_base), (bases[0] + b"\n", no_base), (b"", (from_first, b"", 1)), (EMPTY, (from_second, b"", 1)),
        (bases[0], (b"one legal journal\n", b"", 0)),
    ):
        write_files(room / "reached", dict(zip((path.name for path in paths), [text, *bases[1:]])))
        yield f"joined after {text}", wanted, ["--join", room, room / "reached"]
    write_files(room, {"segment-0": b"pool-journal 2 0\n"})
    yield "a base of one line", line_of(paths[0], "not a base"), ["--join", room, room / "reached"]


def of_uses_of(judge, uses):
    """What differs in uses of a folder."""
    with scratch() as room:
        return [line for name, wanted, words in uses(room) for line in differing(name, wanted, run(judge, *words))]


def of_refused(command, wanted, library, mark):
    """What differs where each allocation is refused in turn, and where none is. The first cannot be done without."""
    found = []
    for number, done in refusals(library, mark, *command):
        is_whole = ended(done) == (wanted, b"", 0)
        is_refused = number and (done.stdout, done.returncode) == (b"", 3) and re.fullmatch(rb"judge: .*out of memory\n", done.stderr)
        if not is_refused and (not is_whole or number == 1):
            found.append(f"{command[1:]}, allocation {number}: {done}")
    return found if number else [f"{command[1:]}: no allocation"]


def refused(judge, room):
    """Uses of a folder, each with what it prints."""
    first, second = THREE[0], THREE[1]
    (room / "starts/first").mkdir(parents=True)
    (room / "reached").mkdir()
    start = {"settings.toml": b"maxTotal = 2\n", "settings-4.toml": b"", "segment-0": first, "segment-4": second, "callers.txt": b"0 main\n1 other\n"}
    write_files(room / "starts/first", start | {"start.toml": b'zero = "1970-01-01T00:00:00Z"\n'})
    write_files(room / "reached", {"segment-0": base_lines(second), "segment-4": base_lines(THREE[2])})
    yield [judge, room / "starts"], b"first: legal 7\n"
    yield [judge, "--join", room / "starts/first", room / "reached"], b"one legal journal\n"
    rows = b"object 0: made ready by main since 1970-01-01T00:00:00.021Z\nobject 1: made by other since 1970-01-01T00:00:00.022Z\n"
    yield [judge, "--held", room / "starts"], rows


def trials(judge, cases, defaults, room):
    """All trials: each a function and its arguments."""
    chance, (library, marks) = random.Random(5), (preloaded("refuse", room), itertools.count())
    yield from ((of_segments, judge, case.name, case.settings, [text for text, _ in case.segments], case.verdict, chance) for case, _, _ in cases)
    for name, segments in damaged_segments():
        yield of_segments, judge, name, b"", segments, verdict_of_segments(settings_of(""), segments), random.Random(len(name))
    yield from ((of_uses_of, judge, uses) for uses in (of_later, of_starts, of_held, of_damaged))
    yield from [(of_uses, judge, defaults), (of_pipe, judge, defaults)]
    # The segments that another one follows, of the legal journals among the first twelve.
    for case, settings, paths in cases[:12]:
        for path, (following, _) in zip(paths, case.segments[1:]) if case.verdict.startswith(b"legal ") else ():
            yield of_refused, [judge, settings, path], base_lines(following), library, room / f"refused-{next(marks)}"
    (room / "folders").mkdir()
    for command, wanted in refused(judge, room / "folders"):
        yield of_refused, command, wanted, library, room / f"refused-{next(marks)}"


def main(judge, *words):
    with scratch() as room:
        cases, (defaults,) = list(segmented(unpacked(room, *words))), write_files(room, {"defaults.toml": b""})
        return tell(played(list(trials(judge, cases, defaults, room))), 100)


if __name__ == "__main__":
    sys.exit(main(*sys.argv[1:]))

"""Plays the C library by its programs, and compares all that is answered.

    play_library.py programs LIBRARY CASES
    play_library.py cases LIBRARY CASES..
    play_library.py refused LIBRARY CASES..
    play_library.py segments LIBRARY POOL CASES..
    play_library.py many LIBRARY POOL
    play_library.py crowd LIBRARY

The programs bindings/c/examples/plain_life.c and long_life.c and tests/play.c are compiled by the C compiler that CC names, or cc, and linked with
LIBRARY and with the kit's heap.

- programs: `plain_life` must write the journal of examples/plain-life.script. It and `play`, with a case whole and cut, also run under valgrind, with no
  fault and nothing left behind. The examples take settings of LONGEST_SETTINGS bytes and no more, and free each object before they report it as
  destroyed (tests/destroy_first.c). `play` must find a line with a null at fault. The header must compile by itself, as C and C++ (g++ and clang++, or
  the one that CXX names), without one of the warnings of STRICT.
- cases: `play` of the settings and the script of a case must write its journal, or end with its error; of an empty script it must answer to settings.
- refused: each case that ends with status 0, whole and, if it has no more than SHORT entries, cut, is played once for each of the library's
  allocations, which is refused then, and must write the same.
- segments: each case that ends with status 0 is cut every so many entries, for each of EVERY, and must write the segments that
  tests/pool_model.py has, which POOL must judge legal together.
- many: the same of a pool that makes OBJECTS of them and parks most, and is cut where all are lent; and the segments of `long_life`, each named
  for its first entry, also of a run under valgrind. A second run over the same folder must end early, and replace none.
- crowd: so many borrows as in CROWDS wait for one object, and each gets it in its turn (tests/crowd.c). Memory is taken for the list of entries as it
  doubles, and for more tickets than TICKETS; and for nothing else. Each of the borrows' allocations is refused in turn: then one borrow ends for lack of
  memory, and all others are served. Also under valgrind.

What needs valgrind or a compiler that is missing is skipped, with the reason.
"""

import itertools
import os
import re
import shutil
import subprocess
import sys

from case_files import script_of
from many_objects import NO_LIMITS, segments_of
from play_cases import wanted_of_script, wanted_of_settings
from play_program import PLAIN_LIFE
from playing import TOP, differing, has, play_unpacked, run, scratch, skip, tell, write_files
from pool_model import cut_at, settings_of

from install import INCLUDE, heap_of_kit

EXAMPLES = TOP / "bindings/c/examples"
FLAGS = ["-std=c11", "-O2", "-Wall", "-Wextra", "-Werror"]
STRICT = ["-fsyntax-only", "-Wall", "-Wextra", "-Wshadow", "-Wpedantic", "-Werror"]
REFUSING = ["-Wl,--wrap=malloc", "-Wl,--wrap=realloc"]
DESTROYING = [TOP / "tests" / "destroy_first.c", "-Wl,--wrap=zuphinka_step", "-Wl,--wrap=free"]
EVERY = (1, 3, 7)
SHORT = 100
OBJECTS = 100_000
ROUNDS = 2_000
CROWDS = (60, 1_024, 5_000)
# For so many calls that wait a pool has memory from the start.
TICKETS = 1_024
CROWD_TEXT = re.compile(rb"(\d+) wait, (\d+) ended, allocations: (\d+), (\d+) of the first 1024, (\d+) while they are served, (\d+) by 1000 pairs\n")
LONGEST_SETTINGS = 1_048_576
VALGRIND = ["valgrind", "--quiet", "--error-exitcode=9", "--leak-check=full", "--show-leak-kinds=all", "--errors-for-leak-kinds=all"]


def compiler():
    """The C compiler's command."""
    name = os.environ.get("CC", "cc")
    if not shutil.which(name):
        sys.exit(f"no C compiler {name}: install one (Debian and Ubuntu: apt-get install gcc libc6-dev), or name yours in CC\n0 passed, 1 failed")
    return name


def compiled(name, library, folder, flags, sources=EXAMPLES):
    """Compiles NAME.c in the folder, links it with the library, and returns its path."""
    program = folder / name
    program.parent.mkdir(exist_ok=True)
    subprocess.run([compiler(), *FLAGS, "-I", INCLUDE, "-o", program, sources / f"{name}.c", *flags, library, heap_of_kit()], check=True)
    return program


def plays(cases):
    """What is played of cases: the name, the settings, the script, and what is wanted."""
    for case, folder in cases:
        settings = folder / "settings.toml"
        if case.journal is not None:
            yield case.name, settings, folder / "script", wanted_of_script(case)
        if case.answer is not None:
            yield case.name, settings, "/dev/null", wanted_of_settings(case)


def segments(settings, journal, every):
    """The segments of a journal that is cut every so many entries."""
    return cut_at(settings_of(settings.read_text()), journal, set(range(every, journal.count(b"\n"), every)))


def differing_segments(play, pool, name, settings, script, every, parts):
    """What differs where a script is cut, and where its segments are judged; `parts` are those that are wanted."""
    done = run(play, settings, script, str(every))
    found = [b"pool-journal " + part for part in done.stdout.split(b"pool-journal ")[1:]]
    entries = sum(part.count(b" = ") for part in parts)
    with scratch() as folder:
        verdict = run(pool, "check", settings, *write_files(folder, dict(enumerate(found))))
    told = differing(f"{name}, judged", (b"legal %d\n" % entries, b"", 0), verdict)
    return told + differing(f"{name}, cut every {every}", (b"".join(parts), b"", 0), done)


def cut_cases(play, pool, case):
    """What differs where a case is cut."""
    name, settings, script, (journal, _, _) = case
    return sum((differing_segments(play, pool, name, settings, script, every, segments(settings, journal, every)) for every in EVERY), [])


def many_differing(play, pool):
    """What differs in a run over many objects."""
    (first, made), (second, parked), (_, asked) = segments_of(OBJECTS)[0]
    parts = [first + made, second + parked + asked]
    with scratch() as folder:
        settings, script = write_files(folder, {"settings": NO_LIMITS.encode(), "script": script_of(made + parked + asked)})
        return differing_segments(play, pool, f"{OBJECTS} objects", settings, script, made.count(b"\n"), parts)


def long_differing(life, pool, before, rounds):
    """What differs in a long life with a short journal: four entries a round, and four to close the pool."""
    with scratch() as folder:
        (settings,), made = write_files(folder, {"settings": b"journalLimit = 100\n"}), folder / "made"
        made.mkdir()
        command = [*before, life, settings, made, str(rounds)]
        found = differing("long_life", (b"", b"", 0), run(*command))
        paths = sorted(made.iterdir())
        lengths = [path.read_bytes().count(b" = ") for path in paths]
        names = [f"segment-{first:020}" for first in itertools.accumulate(lengths[:-1], initial=0)]
        is_cut = [path.name for path in paths] == names and len(names) >= rounds // 25
        found += [f"long_life: segments {[path.name for path in paths]}, of {lengths} entries"] * (not is_cut)
        found += differing("long_life, again", (b"", b"long_life: ended early\n", 1), run(*command))
        return found + differing("long_life, judged", (b"legal %d\n" % (4 * rounds + 4), b"", 0), run(pool, "check", settings, *paths))


def crowd_of(*words):
    """The numbers that tests/crowd.c prints, or none if it fails, and what came of it."""
    done = run(*words)
    found = CROWD_TEXT.fullmatch(done.stdout) if (done.stderr, done.returncode) == (b"", 0) else None
    return list(map(int, found.groups())) if found else [0] * 6, f"{words[-2:]}: {done}"


def crowds(crowd):
    """What differs in each crowd, and where one allocation of its borrows is refused. All borrows wait, and lists take memory as they double: at most as
    often as their lengths have bits."""
    runs = []
    for size in CROWDS:
        (*ends, waited, first, served, by_pairs), told = crowd_of(crowd, str(size), "0")
        lists = 2 * (size > TICKETS)  # of tickets
        has_few = lists <= waited <= lists * size.bit_length() and first == 0
        is_served = ends == [size, 0] and has_few and 1 <= served + by_pairs <= (4 * (size + 1_000)).bit_length() + 2
        yield [told] * (not is_served)
        runs += [([crowd], size, refused) for refused in range(1, waited + 1)]
    if has("a crowd under valgrind", "valgrind"):
        runs.append(([*VALGRIND, crowd], CROWDS[-1], 2))
    for words, size, refused in runs:
        numbers, told = crowd_of(*words, str(size), str(refused))
        yield [told] * (numbers[:2] != [size - 1, 1])


def refusals(play, case):
    """Plays a case, whole and where it is short cut, with each allocation refused in turn, and gives what differs."""
    name, settings, script, (journal, error, status) = case
    whole = differing(f"{name}: refused", (journal, error, status), run(play, settings, script, "0", "each"))
    if journal.count(b"\n") > SHORT:
        return whole
    parts = segments(settings, journal, EVERY[1])
    return whole + differing(f"{name}: cut and refused", (b"".join(parts), error, status), run(play, settings, script, str(EVERY[1]), "each"))


def whole_runs(cases):
    """What is played of the scripts that run to their ends."""
    return plays((case, folder) for case, folder in cases if case.is_run)


def odd_runs(life, long, play, folder):
    """Runs with settings of the greatest size and one byte more, and of a script with a null."""
    texts = {"longest": b"#" * (LONGEST_SETTINGS - 1) + b"\n", "longer": b"#" * LONGEST_SETTINGS + b"\n", "short": b""}
    texts |= {"script": b"0 0 add\n0 0 fill\0 0\n0 0 add\n", "early": b"0 0 add\n\0\n0 0 add\n"}
    longest, longer, short, script, early = write_files(folder, texts)
    segments = folder / "segments"
    segments.mkdir()
    yield "plain_life, longest settings", [life, longest], (PLAIN_LIFE, b"", 0)
    yield "plain_life, longer settings", [life, longer], (b"", b"plain_life: no pool\n", 1)
    yield "long_life, longest settings", [long, longest, segments, "1"], (b"", b"", 0)
    yield "long_life, longer settings", [long, longer, segments, "1"], (b"", b"long_life: no pool\n", 1)
    for name, nulls in ("a null in a line", script), ("a null at the start of a line", early):
        yield name, [play, short, nulls], (b"0 0 add = make 0\n", b"pool: line 2: not a line\n", 3)


def header_runs(folder, header, body):
    """A header by itself, with a `main` of this body, for compilers of C99, C11 and C++. Names those that are missing."""
    others = [os.environ["CXX"]] if "CXX" in os.environ else ["g++", "clang++"]
    compilers = [(compiler(), "c", standard) for standard in ("c99", "c11")] + [(name, "c++", "c++11") for name in others]
    source = folder / f"alone_{header}"
    source.write_text(f'#include "{header}"\nint main(void) {{ {body} }}\n')
    for name, language, standard in compilers:
        if shutil.which(name):
            words = [name, *STRICT, "-I", INCLUDE, "-x", language, f"-std={standard}", source]
            yield f"{header} in {standard} by {name}", words, (b"", b"", 0)
        else:
            skip(f"{header} in {standard} by {name}", f"there is no {name}")


def ordered_runs(library, folder):
    """Runs of programs that must free an object before they report it, also one that is destroyed when it comes back."""
    life, long = (compiled(name, library, folder / "ordered", DESTROYING) for name in ("plain_life", "long_life"))
    settings, segments = folder / "none_idle", folder / "ordered_segments"
    settings.write_text("maxIdle = 0\n")
    segments.mkdir()
    yield "plain_life destroys first", [life, TOP / "examples" / "settings.toml"], (PLAIN_LIFE, b"", 0)
    yield "long_life destroys first", [long, settings, segments, "3"], (b"", b"", 0)


def runs(life, play, cases):
    """What the programs are run on by themselves, and what is wanted of each; under valgrind too."""
    name, settings, script, wanted = next(whole_runs(cases))
    parts = b"".join(segments(settings, wanted[0], EVERY[1])), b"", 0
    alone = [
        ("plain_life", [life, TOP / "examples" / "settings.toml"], (PLAIN_LIFE, b"", 0)),
        (name, [play, settings, script], wanted),
        (f"{name}, cut", [play, settings, script, str(EVERY[1])], parts),
    ]
    yield from alone
    if has("the C examples under valgrind", "valgrind"):
        yield from ((f"{name} under valgrind", [*VALGRIND, *words], wanted) for name, words, wanted in alone)


def main(kind, library, words):
    with scratch() as built:
        if kind == "crowd":
            return tell(crowds(compiled("crowd", library, built, REFUSING, TOP / "tests")))
        play = compiled("play", library, built, REFUSING, TOP / "tests")
        if kind == "many":
            life, (pool,) = compiled("long_life", library, built, []), words
            found = [many_differing(play, pool), long_differing(life, pool, [], ROUNDS)]
            return tell([*found, *([long_differing(life, pool, VALGRIND, ROUNDS // 10)] if has("long_life under valgrind", "valgrind") else [])])
        if kind == "programs":
            life, long = (compiled(name, library, built, []) for name in ("plain_life", "long_life"))
            header = header_runs(built, "zuphinka.h", "return zuphinka_status_text(0) == 0;")
            others = [*odd_runs(life, long, play, built), *ordered_runs(library, built), *header]
            all_runs = lambda cases: itertools.chain(runs(life, play, cases), others)
            return play_unpacked(words, all_runs, lambda case: differing(case[0], case[2], run(*case[1])))
        if kind == "refused":
            return play_unpacked(words, whole_runs, lambda case: refusals(play, case))
        if kind == "segments":
            return play_unpacked(words[1:], whole_runs, lambda case: cut_cases(play, words[0], case))
        return play_unpacked(words, plays, lambda case: differing(case[0], case[3], run(play, case[1], case[2])))


if __name__ == "__main__":
    sys.exit(main(sys.argv[1], sys.argv[2], sys.argv[3:]))

"""What the scripts share that run programs, also with libraries that are loaded before them, compare what they do with what is wanted, and say what
they skip. Each of them prints what differs, and in the end the line 'N passed, M failed'. Their words POOL, JUDGE and JOURNAL_PICTURE are programs of
these names, and LIBRARY is libzuphinka.a. Once this is imported, they can import the modules of other folders too."""

import concurrent.futures
import contextlib
import itertools
import os
import pathlib
import re
import subprocess
import sys
import tempfile

from case_files import TOP, unpacked

sys.path += [str(TOP / folder) for folder in ("tools", "bench")]

from parts import PACKAGES

NAMED = {package.name: package for package in PACKAGES}
NO_CARGO = "no cargo runs here: rustup.rs has one, and so has Debian's package cargo-web"
KINDS = ("output", "standard error", "status")
TESTS, COMPILER = TOP / "tests", os.environ.get("CC", "cc")
# A run that takes longer hangs, in seconds.
LONGEST = 1_200
# How much of a difference is printed, and how much of what is the same before it, in characters.
MOST_PRINTED, BEFORE = 2_000, 100


def run(*words, **options):
    """Runs a program to its end, with nothing on standard input if none is given."""
    streams = dict.fromkeys(("stdout", "stderr"), subprocess.PIPE) | ({} if "input" in options else {"stdin": subprocess.DEVNULL})
    return subprocess.run(words, **{**streams, "timeout": LONGEST, **options})


def ended(done):
    """What a run wrote to standard output and to standard error, and its status."""
    return done.stdout, done.stderr, done.returncode


@contextlib.contextmanager
def scratch():
    """A temporary folder."""
    with tempfile.TemporaryDirectory() as name:
        yield pathlib.Path(name).resolve()


def preloaded(name, folder, sources=TESTS):
    """Builds the library tests/NAME.c in the folder, or one of other sources, with the C compiler that CC names, or cc, and gives its path."""
    library = pathlib.Path(folder) / f"{name}.so"
    subprocess.run([COMPILER, "-O1", "-shared", "-fPIC", "-o", library, sources / f"{name}.c", "-ldl"], check=True)
    return library


def peak(folder, *words, **options):
    """Runs a program, by one that notes the most memory that it took, which is built in the folder if it isn't there. Returns what came of the run, and
    that memory, in KiB."""
    launcher, note = folder / "launcher", folder / "peak"
    if not launcher.exists():
        subprocess.run([COMPILER, "-O1", "-o", launcher, TESTS / "peak.c"], check=True)
    done = run(launcher, note, *words, **options)
    return done, int(note.read_text())


def instructions(*words, **options):
    """Counts the instructions of a run, in all its threads, by callgrind. Returns what came of the run, and that number."""
    done = run("valgrind", "--tool=callgrind", "--callgrind-out-file=/dev/null", *map(str, words), **options)
    found = re.search(rb"Collected : (\d+)", done.stderr)
    if done.returncode or not found:
        raise RuntimeError(f"{words[0]} ended with {done.returncode}: {done.stderr.decode(errors='replace')}")
    return done, int(found[1])


def refusals(library, mark, *words, **options):
    """Runs a program with all allocations granted, and then once for each of them, which is refused then, by the library of refuse.c. Yields its
    number, 0 at first, and what came of the run. The file `mark` is there after a run in which one was refused."""
    for number in itertools.count():
        mark.unlink(missing_ok=True)
        settings = {"LD_PRELOAD": str(library), "REFUSED": str(mark), "REFUSE": str(number)}
        done = run(*words, env=os.environ | settings, **options)
        if number and not mark.exists():
            return
        yield number, done


def skip(what, reason):
    """Says that something is not tested, and why, in a line that ./check counts, and shows before its last one."""
    print(f"skipped: {what}: {reason}", flush=True)


def has(what, *names):
    """Returns whether the packages of these names are there. If not, says that what needs them is skipped."""
    missing = [name for name in names if not NAMED[name].is_there()]
    if missing:
        skip(what, f"not installed: Debian's {' '.join(missing)}")
    return not missing


def skip_all(what, reason):
    """The same of all that a script tests. Gives the status to end with."""
    skip(what, reason)
    return tell((), 0)


def write_files(folder, texts):
    """Writes texts to files of a folder, by their names. Returns the paths."""
    paths = [pathlib.Path(folder) / str(name) for name in texts]
    for path, text in zip(paths, texts.values()):
        path.write_bytes(text)
    return paths


def differing(name, wanted, done):
    """What is wanted of a run and what it gave, for each of the streams and the status that differ; of long texts from a little before the difference."""
    found = []
    for kind, want, have in zip(KINDS, wanted, ended(done)):
        if want != have and not isinstance(want, int) and type(want) is type(have) and len(want) > MOST_PRINTED:
            start = max(0, len(os.path.commonprefix([want, have])) - BEFORE)
            want, have = want[start:], have[start:]
        found += [f"{name}: {kind}: wanted {want!r:.{MOST_PRINTED}}, got {have!r:.{MOST_PRINTED}}"] * (want != have)
    return found


def start_of(folder):
    """The folder of the only start of a pool below a folder, or this one if it has the settings itself."""
    starts = [] if (folder / "settings.toml").exists() else sorted(folder.glob("*/settings.toml"))
    return starts[0].parent if len(starts) == 1 else folder


def stored_journal(judge, folder, least=1):
    """What the program `judge` is to say of the segments that are stored in a folder, or below it by one start of a pool, by their entries, and what it
    says. There are at least so many entries."""
    folder = start_of(folder)
    entries = sum(path.read_bytes().count(b" = ") for path in folder.glob("segment-*"))
    return (b"legal %d\n" % max(least, entries), b"", 0), ended(run(judge, folder))


def side_by_side(work, *lists):
    """What calls return that run side by side, in their order."""
    with concurrent.futures.ThreadPoolExecutor(os.cpu_count()) as workers:
        yield from workers.map(work, *lists)


def tell(found, least=1):
    """Prints the differences that each of some checks has found, and how many passed and failed. Gives the status to end with, which is a failure too if
    fewer than the least passed."""
    passed, failed = 0, 0
    for lines in found:
        passed, failed = passed + (not lines), failed + bool(lines)
        for line in lines:
            print(line[: 2 * MOST_PRINTED])
    print(f"{passed} passed, {failed} failed")
    return 1 if failed or passed < least else 0


def play_checks(checks):
    """Tells of checks that have each a name, what is wanted and what it is."""
    return tell(([f"{name}: wanted {wanted!r}, got {got!r}"[:MOST_PRINTED]] * (wanted != got) for name, wanted, got in checks), 0)


def play_unpacked(paths, plays, differences):
    """Unpacks the cases of each file, or of all files below a folder, makes the `plays` of them side by side, and tells of these. A path without a play
    counts as failed."""
    with scratch() as room:
        found = ([*side_by_side(differences, plays(unpacked(room, path)))] or [[f"{path}: no case"]] for path in paths)
        return tell(lines for of_path in found for lines in of_path)

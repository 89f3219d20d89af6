"""Says by checksums whether what is built of a crate is still that of its sources: the files of src/, specs/ and proofs/ of the crate and of all
below it, their lines of crates.txt, HANDLES, and the kit by its line of `rt version`. Times, other files and other crates don't count.

A note is kept in out/built/, and holds for a copy of the whole folder too. `rt ci` leaves programs, no static libraries, and libraries that have only
their statements, which are taken over. Libraries with a stamp are of the kit's other commands.
"""

import functools
import hashlib
import pathlib
import shutil
import subprocess

TOP = pathlib.Path(__file__).resolve().parent.parent
NOTES = TOP / "out" / "built"
# The folders of a crate that `rt` reads to prove and to build it.
PARTS = ("src", "specs", "proofs")


@functools.cache
def declared():
    """For each crate of the repository its line of crates.txt, up to the colon and behind it."""
    found = {}
    for line in (TOP / "crates.txt").read_text().splitlines():
        head, colon, names = line.partition("#")[0].partition(":")
        if colon:
            found[head.split()[0]] = head, names
    return found


@functools.cache
def libraries():
    """For each crate of the repository the libraries of the repository that it uses."""
    crates = declared()
    return {crate: [name for name in names.split() if name in crates] for crate, (_, names) in crates.items()}


def below(crate):
    """All that a crate stands on, itself included."""
    return {crate}.union(*(below(name) for name in libraries()[crate]))


def edit_with_mistakes(crate):
    """The file of the edit of a crate that makes a mistake in each of several functions."""
    return TOP / "crates" / crate / "must-fail/one_mistake_in_each.edit"


def with_mistakes():
    """The crates that have such an edit."""
    return [crate for crate in sorted(declared()) if edit_with_mistakes(crate).is_file()]


def is_program(crate):
    """Whether a crate is a program."""
    return (TOP / "crates" / crate / "src" / "main.rt").exists()


def library(crate):
    """The folder of a library for crates above it. The kit keeps its own in out/rlib/."""
    return TOP / "crates" / crate / "out" / "statements" / f"{crate}.rlib"


def product(crate):
    """What a build of the crate leaves: a program, an archive, or the folder of a library."""
    out = TOP / "crates" / crate / "out"
    if is_program(crate):
        return out / crate
    return out / f"lib{crate}.a" if "staticlib" in declared()[crate][0].split() else library(crate)


@functools.cache
def kit():
    """The kit's line, or nothing where there is no `rt`."""
    if not shutil.which("rt"):
        return None
    return subprocess.run(["rt", "version"], check=True, capture_output=True, text=True, stdin=subprocess.DEVNULL).stdout.strip()


def git(*words):
    """What a command of git writes, or `None` where it fails or there is no git."""
    try:
        done = subprocess.run(["git", *words], cwd=TOP, stdout=subprocess.PIPE, stderr=subprocess.DEVNULL, text=True)
    except OSError:
        return None
    return done.stdout.strip() if done.returncode == 0 else None


def checked_out():
    """The commit that is checked out, followed by -changed where files here aren't those of it, or git can't tell; or `None` where there is none, as in
    a folder of another repository."""
    commit = git("rev-parse", "HEAD") if git("rev-parse", "--show-prefix") == "" else None
    return commit and commit + "-changed" * (git("status", "--porcelain", "--untracked-files=all") != "")


def files_of(folder):
    """The files in a folder, in an order that is the same everywhere."""
    return sorted(path for path in folder.rglob("*") if path.is_file())


def sum_of_files(files, folder):
    """A checksum of files, by their names in a folder and their bytes."""
    found = hashlib.sha256()
    for path in files:
        text = path.read_bytes()
        found.update(f"{path.relative_to(folder)} {len(text)}\n".encode() + text)
    return found.hexdigest()


@functools.cache
def sum_of_sources(crate):
    """The checksum of all that a crate is proved and built of, but the kit."""
    folder = TOP / "crates" / crate
    own = sum_of_files([path for part in PARTS for path in files_of(folder / part)], folder)
    line = [*declared()[crate][0].split(), ":", *declared()[crate][1].split()]
    parts = [own, " ".join(line), (TOP / "HANDLES").read_text(), *map(sum_of_sources, libraries()[crate])]
    return hashlib.sha256("\n".join(parts).encode()).hexdigest()


def sum_of_product(crate):
    """The checksum of what is built, or nothing where it isn't there."""
    built = product(crate)
    if built.is_file():
        return sum_of_files([built], built.parent)
    return sum_of_files(files_of(built), built) if any(built.glob("*/*")) else None


def note_of(crate):
    """What is noted of a crate that is built: the kit's line, and the checksums of its sources and of what is built."""
    return f"{kit()}\n{sum_of_sources(crate)}\n{sum_of_product(crate)}\n"


def note(crate):
    """Notes that what is built of a crate is that of its sources."""
    NOTES.mkdir(parents=True, exist_ok=True)
    (NOTES / crate).write_text(note_of(crate))


def is_current(crate):
    """Whether what is built of a crate is that of its sources as they are. Where there is no kit, whichever built it will do."""
    file = NOTES / crate
    if not file.is_file() or sum_of_product(crate) is None:
        return False
    noted, wanted = file.read_text().splitlines(), note_of(crate).splitlines()
    return noted[1:] == wanted[1:] and (kit() is None or noted[0] == wanted[0])


def take_over(crate):
    """Moves a library that `rt ci` has left to where those of build.py are, and returns whether there is what it has left."""
    left, folder = TOP / "crates" / crate / "out" / "rlib", library(crate)
    if is_program(crate):
        return product(crate).exists()
    if not (left / folder.name).is_dir() or (left / "stamp").exists():
        return False
    shutil.rmtree(folder, ignore_errors=True)
    folder.parent.mkdir(exist_ok=True)
    (left / folder.name).rename(folder)
    return True


def all_sums():
    """The checksum of the sources of each crate, as they are now."""
    sum_of_sources.cache_clear()
    return {crate: sum_of_sources(crate) for crate in declared()}


def take_over_all(earlier):
    """Takes over what `rt ci` has left, and notes it of each crate whose checksum is still what it was before. Of an `rt ci` that failed, `earlier`
    is empty: then nothing is noted."""
    now = all_sums()
    for crate in libraries():
        if take_over(crate) and earlier.get(crate) == now[crate]:
            note(crate)

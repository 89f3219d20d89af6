"""Makes the archive of a release by tools/release.py, unpacks it in a folder of its own, and does there what its README says, without the proof toolchain
on the PATH and without a network for cargo.

    play_release.py CLONE

CLONE is the top of a clone in which the programs and the C library are built. The commands of the README must build and run the examples in C, Rust
and Java, whose output is compared, and their journals are checked by the program of the archive. The jar must have what tests/play_java.py wants of
it. The checksums must be those of all files. What lacks cargo or a jar is skipped, with the reason; all is where there is no JDK or no Commons Pool.
"""

import os
import pathlib
import re
import sys
import tarfile

import playing
from play_java import BANK, EXAMPLE_JARS, portable
from play_library import PLAIN_LIFE, TOP
from playing import NO_CARGO, ended, has, play_checks, scratch, skip, stored_journal

from contest import runs_cargo

# The examples in Rust and Java: four servers with fifty requests each, of which each tenth breaks its connection.
ANSWERED = rb"%d requests were answered over \d+ connections\n" % (4 * 50 * 9 // 10)
THREADS, ROUNDS = 4, 500
# The lines of a page that are indented by four spaces, in blocks.
BLOCK = re.compile(r"(?:^    .*\n)+", flags=re.MULTILINE)


def shell(line, folder):
    """What a command in a folder writes, and its status. The folder of `rt` is not on its path."""
    environment = {name: value for name, value in os.environ.items() if not name.startswith(("ZUPHINKA_", "CARGO_TARGET"))}
    folders = [place for place in os.environ["PATH"].split(os.pathsep) if not pathlib.Path(place, "rt").exists()]
    environment |= {"PATH": os.pathsep.join(folders), "CARGO_NET_OFFLINE": "true"}
    return ended(playing.run("bash", "-c", line, cwd=folder, env=environment))


def checksums(top):
    """That each file has its checksum."""
    names = [line.partition("  ")[2] for line in (top / "PROVED").read_text().splitlines() if not line.startswith("#")]
    files = {path.relative_to(top).as_posix() for path in top.rglob("*") if path.is_file()}
    yield "the files with checksums", sorted(files - {"PROVED"}), sorted(names)
    yield "all is as it was packed", (b"", b"", 0), shell("sha256sum --check --strict --quiet PROVED", top)


def example(top, command, report, folder, check):
    """An example by commands of the README, what it prints, to one of the streams, and the journal that it leaves, also by the README's check."""
    said, faults, status = shell(command, top)
    yield command, 0, status
    yield f"what it prints: {command}", True, re.fullmatch(report, said + faults) is not None or said + faults
    yield f"its journal: {command}", *stored_journal(top / "bin/judge", top / folder)
    yield check, 0, shell(check, top)[2]


def commands(top):
    """The three commands of the README for C and Rust, and the check of the journal that the last stored."""
    first, check = BLOCK.findall((top / "README.md").read_text())[:2]
    compile_c, run_c, run_rust = (line.strip() for line in first.splitlines())
    yield compile_c, (b"", b"", 0), shell(compile_c, top)
    yield run_c, (PLAIN_LIFE, b"", 0), shell(run_c, top)
    if runs_cargo():
        yield from example(top, run_rust, ANSWERED, "journal", check.strip())
    else:
        skip("the Rust example of the archive", NO_CARGO)


def java_part(top):
    """The jar, and the examples in Java."""
    yield from portable(top / "java/zuphinka.jar")
    section = (top / "README.md").read_text().partition("\n## Java\n")[2]
    wanted = {"servers": (ANSWERED, ["libcommons-pool2-java"]), "bank": (BANK.encode(), EXAMPLE_JARS.values())}
    for block, (folder, (report, packages)) in zip(BLOCK.findall(section), wanted.items(), strict=True):
        if has(f"the Java example {folder}", *packages):
            *lines, check = (line.strip() for line in block.splitlines())
            yield from example(top, "\n".join(lines), report, folder, check)


def programs(top):
    """The programs, and threads that share a pool in C, with the shared library."""
    yield "a script", (PLAIN_LIFE, b"", 0), shell("bin/pool run examples/settings.toml examples/plain-life.script > plain.journal; cat plain.journal", top)
    yield "a picture", (b"<", b"", 0), shell("bin/journal_picture plain.journal > picture && head -c 1 picture", top)
    if has("shared_life.c of the archive", "pkgconf"):
        settings = "mkdir segments && echo journalLimit = 1000 > segments/settings.toml"
        build = f"{settings} && cc -o shared_life examples/shared_life.c $(PKG_CONFIG_PATH=lib/pkgconfig pkg-config --cflags --libs zuphinka)"
        command = f"{build} && LD_LIBRARY_PATH=lib ./shared_life segments/settings.toml segments {THREADS} {ROUNDS} && bin/judge segments > /dev/null"
        yield command, (b"", b"", 0), shell(command, top)


def trials(clone, folder):
    done = playing.run(sys.executable, TOP / "tools/release.py", "--programs", clone, "--output", folder, text=True)
    yield "the archive is made", (0, ""), (done.returncode, done.stderr)
    made = pathlib.Path(done.stdout.strip())
    with tarfile.open(made) as tar:
        tar.extractall(folder)
    top = folder / made.name.removesuffix(".tar.gz")
    pages = [(page, link) for page in top.rglob("*.md") for link in re.findall(r"\]\((?!\w+:)([^)#\s]+)", page.read_text())]
    yield "links of pages to files that are not there", [], [f"{page}: {link}" for page, link in pages if not (page.parent / link).exists()]
    for part in checksums, commands, java_part, programs:
        yield from part(top)


def main(clone):
    with scratch() as folder:
        is_possible = has("the archive of a release", "default-jdk-headless", "libcommons-pool2-java")
        return play_checks(trials(pathlib.Path(clone).resolve(), folder) if is_possible else ())


if __name__ == "__main__":
    sys.exit(main(*sys.argv[1:]))

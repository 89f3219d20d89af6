"""Runs the commands that README.md, docs/ and the program's help show, judges the journals, and plays the examples of settings.

    play_commands.py POOL JOURNAL_PICTURE

A block is what a page indents by four spaces, and the man page's section of examples. Each must be of commands, which are run one after the
other with the repository's examples at hand, or as one if they have a loop; the lines of a journal, which must be legal with the default
settings, cut into segments or not; the form of a line; or the line of `rt version`. Each logic of a kit that a page names must be that of this one.
Not run are ./check, since it runs this, tools/build.py, also by make, since it has built the programs, and Java's commands, which play_java.py runs.
What ./try does with the program without its proofs is done here by the program. check_pages.py holds blocks between fences against the sources.

The examples that docs/settings.md names are played, and must have the journal lines that it shows. The pictures in docs/pictures must be those of
the journals: each under the name of its settings, and those of leak.journal and overview.journal there.
"""

import lzma
import os
import pathlib
import re
import sys

from playing import NO_CARGO, TOP, has, play_checks, run, scratch, skip, write_files

import sources
from contest import runs_cargo

PICTURES = TOP / "docs/pictures"
# Commands that this does not run, since they run it.
OWN = ("./check", "./check --install")
COMMAND = re.compile(
    r"(\./pool|\./try|\./check|pool|crates/\S+|\(cd|mkdir|printf|python3 tools/\S+|make|cc|(LD_LIBRARY_PATH=\S+ )?\./first_loan|\./plain_life|"
    r"\./long_life|\./shared_life|cargo|java) "
)
# What Cargo's commands build, apart from what tests of the Rust crate use meanwhile.
BUILT = TOP / "bindings/rust/target/commands"
ENTRY = re.compile(r"^\d+ \d+ .* = ")
BASE = re.compile(r"pool-journal 2 |\d+ (readying|adding|lent|returning|idle|testing|destroying) ")
FORM = "<caller> <at> <input>"
# The line of a kit, which may have any name, and the checksum of its logic, also in a sentence.
KIT, LOGIC = "rattle-kit-", re.compile(r"\blogic [0-9a-f]{8,}")


def blocks(page):
    """The indented blocks of a page, without those of Rust."""
    text = re.sub(r"^```.*?^```$", "", page.read_text(), flags=re.MULTILINE | re.DOTALL)
    if page.suffix == ".1":
        yield [line for line in text.partition(".SH EXAMPLES\n")[2].splitlines() if not line.startswith(".")]
    for block in re.findall(r"^    \S.*\n(?:^    .*\S.*\n)*", text, flags=re.MULTILINE):
        yield [line[4:] for line in block.splitlines()]


def commands(block):
    """The commands of a block: one in each line, but one alone where there is a loop."""
    return ["\n".join(block)] if any(line.startswith("for ") for line in block) else block


class Place:
    """A folder in which the commands find what they name."""

    def __init__(self, folder, pool):
        self.folder = folder
        for name in ("examples", "crates", "bindings", "tools", "docs"):
            (self.folder / name).symlink_to(TOP / name)
        (self.folder / "pool").symlink_to(pool)
        self.runs_cargo = runs_cargo()

    def fault_of_command(self, line):
        """Why a command is not as the page says, if it isn't."""
        words = line.partition(" #")[0].strip()
        if words.startswith("python3 tools/build.py "):
            return None if any((TOP / kind / words.split()[2]).is_dir() for kind in ("crates", "bindings")) else "no such crate"
        if words.startswith("cargo") and not self.runs_cargo:
            return skip(words, NO_CARGO)
        if words in OWN or words.startswith("java "):
            return None
        words = re.sub(r"^make ", "make --old-file=library ", re.sub(r"^(\./try|pool) ", "./pool ", words))
        done = run("bash", "-c", words, cwd=self.folder, env=os.environ | {"CARGO_TARGET_DIR": str(BUILT)}, text=True)
        return f"status {done.returncode}: {done.stderr.strip()}" if done.returncode else None

    def fault_of_journal(self, segments):
        """Why segments are no legal journal, if they aren't."""
        files = write_files(self.folder, {name: text.encode() for name, text in enumerate(segments)})
        done = run("./pool", "check", "/dev/null", *files, cwd=self.folder, text=True)
        count = len(re.findall(ENTRY.pattern, "".join(segments), flags=re.MULTILINE))
        return None if done.stdout == f"legal {count}\n" else done.stdout + done.stderr

    def faults_of_page(self, page):
        """What is tried of a page, each with its fault, if it has one."""
        shown = []
        for block in blocks(page):
            if all(COMMAND.match(line + " ") for line in commands(block)):
                yield from ((line, self.fault_of_command(line)) for line in commands(block))
            elif all(ENTRY.match(line) or BASE.match(line) for line in block):
                shown += block
            elif block != [FORM] and not block[0].startswith(KIT):
                yield block[0], "neither a command nor a journal"
        for logic in LOGIC.findall(page.read_text()):
            yield logic, None if (sources.kit() or "").endswith(logic) else "another kit than this machine's"
        for segments in journals(shown):
            yield segments[0].partition("\n")[0], self.fault_of_journal(segments)


def journals(lines):
    """The journals whose lines these are, each as its segments: one begins with the first line, and where a segment says that it does."""
    for journal in re.split(r"^(?=pool-journal 2 0 )", "".join(f"{line}\n" for line in lines), flags=re.MULTILINE):
        if journal:
            yield [segment for segment in re.split(r"^(?=pool-journal 2 )", journal, flags=re.MULTILINE) if segment]


def examples(pool, picture):
    named, drawn = set(), {"leak": (PICTURES / "leak.journal").read_bytes()}
    drawn["overview"] = lzma.decompress((PICTURES / "overview.journal.xz").read_bytes())
    rows = re.findall(r"^\| (`examples/.*)$", (TOP / "docs/settings.md").read_text(), flags=re.MULTILINE)
    for settings, script, *others in (re.findall(r"`([^`]+)`", row) for row in rows):
        named |= {settings, script}
        name, lines = pathlib.Path(settings).stem, [words.encode() for words in others if " = " in words]
        done = run(pool, "run", TOP / settings, TOP / script)
        yield f"{settings} on {script}", (b"", 0), (done.stderr, done.returncode)
        yield f"the lines of {settings} on {script}", (True, []), (lines != [], [line for line in lines if line not in done.stdout.splitlines()])
        if (PICTURES / f"{name}.svg").exists():
            drawn[name] = done.stdout
    for name, journal in drawn.items():
        is_drawn = run(picture, "-", input=journal).stdout == (PICTURES / f"{name}.svg").read_bytes()
        yield f"docs/pictures/{name}.svg is drawn of its journal", True, is_drawn
    files = {f"examples/{path.name}" for path in (TOP / "examples").iterdir()}
    yield "examples that docs/settings.md doesn't name", set(), files - named


def checks(pool, picture):
    yield from examples(pool, picture)
    pages = [TOP / "README.md", *sorted((TOP / "docs").glob("*.md")), TOP / "docs/pool.1"]
    if not has("the commands of docs/c.md", "make"):
        pages.remove(TOP / "docs/c.md")
    for page in pages:
        with scratch() as folder:
            for shown, fault in Place(folder, pathlib.Path(pool).resolve()).faults_of_page(page):
                yield f"{page.name}: {shown}", None, fault


if __name__ == "__main__":
    sys.exit(play_checks(checks(*sys.argv[1:])))

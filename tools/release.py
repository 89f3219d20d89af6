"""Makes an archive of what users take, which needs no proof toolchain: zuphinka-VERSION-linux-x86_64.tar.gz.

    tools/release.py [--gate FILE] [--output FOLDER] [--programs FOLDER]

The archive has the C library with its headers and its files for pkg-config, the Rust crate and the jar for Java, each with the library in it, the
programs pool, judge and journal_picture, the man page, examples, the licence, a README, and PROVED. That file has what ./check came to, the commit,
the kit's line and a checksum of each other file, as `sha256sum --check` reads it.

--gate FILE names the log of a whole ./check that passed, of the commit that is checked out, without changes. Without a log PROVED says that nothing was
passed. --output FOLDER gets the archive, else the folder out/. What isn't built of its sources as they are is proved and built first. With --programs
FOLDER what a clone there has built is taken as it is, and PROVED says that.

The jar needs a JDK and Commons Pool 2, as tools/java.py finds them.

The same commit, programs and compilers give the same bytes. Writes the path of the archive. The status is 1, and no archive is there, if something
is missing or the log isn't one of a full check that passed.
"""

import argparse
import hashlib
import os
import pathlib
import re
import shutil
import subprocess
import sys
import tempfile

import install
import java
import sources

TOP = pathlib.Path(__file__).resolve().parent.parent
PROGRAMS = ("pool", "judge", "journal_picture")
LIBRARY = "zuphinka"
# The files of the commit, as `git ls-files` takes their names, by the folder of the archive that gets them. What is behind the last slash is kept.
PLACES = {
    "": ("LICENSE", "CHANGELOG.md", "examples"),
    "share/man/man1": ("docs/pool.1",),
    "examples": ("bindings/c/examples/*_l*.c",),
    "rust/zuphinka": ("bindings/rust/",),
    "java": ("bindings/java/README.md", "bindings/java/examples"),
}
PASSED = re.compile(r"[1-9]\d* passed, 0 failed, \d+ skipped")
# The last line of any run of ./check.
ENDED = re.compile(r"\d+ passed, \d+ failed, \d+ skipped")
# A link of a page to a file: its words, and the file.
LINK = re.compile(r"\[([^\]]*)\]\(((?!\w+:)[^)#\s]+)[^)]*\)")
PROVED = """# zuphinka {version} for Linux on x86-64
# ./check: {verdict}
# commit {commit}, of {time}
# kit: {kit}
# The checksums of all other files: sha256sum --check --strict --quiet PROVED
"""


def verdict(gate, commit):
    """What ./check came to, by its log. Ends where that isn't a full check of this commit that passed."""
    if gate is None:
        return "not passed: no log of it was given"
    lines = gate.read_text(errors="replace").splitlines() or [""]
    if [line for line in lines if ENDED.fullmatch(line)] != lines[-1:] or not PASSED.fullmatch(lines[-1]):
        sys.exit(f"{gate}: the last line of one ./check that passed is 'N passed, 0 failed, K skipped', and this is {lines[-1]!r}")
    if commit.endswith("-changed") or f"check: commit {commit}" not in lines:
        sys.exit(f"{gate}: not a check of commit {commit}")
    return lines[-1]


def build():
    """Proves and builds what isn't built of its sources."""
    for crate in (*PROGRAMS, LIBRARY):
        if subprocess.run([sys.executable, TOP / "tools/build.py", crate]).returncode:
            sys.exit(f"{crate}: not built")


def built(crate, top):
    """What a clone has built of a crate."""
    file = top / "crates" / crate / "out" / sources.product(crate).name
    if not file.is_file():
        sys.exit(f"{file}: no such file")
    return file


def put(file, there):
    there.parent.mkdir(parents=True, exist_ok=True)
    shutil.copy(file, there)


def lay_out(stage, programs):
    """Puts all files in their places, except the README and PROVED."""
    install.install(stage, "${pcfiledir}/../..", built(LIBRARY, programs), install.heap_of_kit())
    for name in PROGRAMS:
        put(built(name, programs), stage / "bin" / name)
    for place, names in PLACES.items():
        for name in names:
            for file in sources.git("ls-files", "--cached", "--others", "--exclude-standard", "--", name).splitlines():
                put(TOP / file, stage / place / pathlib.Path(file).relative_to(name.rpartition("/")[0]))
    put(stage / "lib/libzuphinka.a", stage / "rust/zuphinka/lib/libzuphinka.a")
    with tempfile.TemporaryDirectory() as out:
        jar = java.build(built(LIBRARY, programs), install.heap_of_kit(), pathlib.Path(out))
        for file in jar, java.drop_in(jar.parent):
            put(file, stage / "java" / file.name)


def describe(stage):
    """Writes the README, and takes out of the pages the links to what the archive has not. Their words stay."""
    (stage / "README.md").write_text((TOP / "tools/release_readme.txt").read_text().replace("VERSION", install.version(), 1))
    for page in stage.rglob("*.md"):
        page.write_text(LINK.sub(lambda link: link[0 if (page.parent / link[2]).exists() else 1], page.read_text()))


def prove(stage, said, commit):
    """Writes what was passed, and the checksum of each file."""
    time = sources.git("log", "-1", "--format=%cI")
    head = PROVED.format(version=install.version(), verdict=said, commit=commit, time=time, kit=sources.kit())
    names = sorted(path.relative_to(stage).as_posix() for path in stage.rglob("*") if path.is_file())
    lines = [f"{hashlib.sha256((stage / name).read_bytes()).hexdigest()}  {name}\n" for name in names]
    (stage / "PROVED").write_text(head + "".join(lines))


def pack(stage, archive):
    """Packs a folder so that the same files give the same bytes."""
    part, time = archive.with_name(archive.name + ".part"), sources.git("log", "-1", "--format=%ct")
    plain = "--format=gnu", "--sort=name", "--owner=root:0", "--group=root:0", "--mode=u=rwX,go=rX", f"--mtime=@{time}"
    install.run("tar", "--create", *plain, "--use-compress-program=gzip -9n", "--file", part, "--directory", stage.parent, stage.name)
    os.replace(part, archive)


def main():
    words = argparse.ArgumentParser(description="Makes an archive of what users take, which needs no proof toolchain.")
    words.add_argument("--gate", type=pathlib.Path, help="the log of ./check")
    words.add_argument("--output", type=pathlib.Path, default=TOP / "out", help="the folder that gets the archive")
    words.add_argument("--programs", type=pathlib.Path, help="a clone in which all is built")
    given = words.parse_args()
    try:
        java.jdk(), java.commons_pool()
    except java.Missing as missing:
        sys.exit(f"java: {missing}")
    commit = sources.checked_out() or sys.exit(f"{TOP}: no commit is checked out")
    said = verdict(given.gate, commit)
    if given.programs is None:
        build()
    else:
        said += "; the programs were taken as they were built"
    name = f"zuphinka-{install.version()}-linux-x86_64"
    archive = given.output.resolve() / f"{name}.tar.gz"
    archive.parent.mkdir(parents=True, exist_ok=True)
    with tempfile.TemporaryDirectory() as folder:
        stage = pathlib.Path(folder) / name
        stage.mkdir()
        lay_out(stage, (given.programs or TOP).resolve())
        describe(stage)
        prove(stage, said, commit)
        pack(stage, archive)
    print(archive)


if __name__ == "__main__":
    main()

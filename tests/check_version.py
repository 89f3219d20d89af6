"""Sees that all tell the version that the file VERSION has, and that the codes of the Rust crate and of the pool for Java are those of the C header.

    check_version.py [PROGRAM..]

Each PROGRAM, a path, prints its name, the version and a line feed for `--version`. What the C library returns, and its contract, is the version as one
number.
"""

import pathlib
import re
import sys

from playing import TOP, play_checks, run

HEADER, JAVA = "bindings/c/include/zuphinka.h", "bindings/java"
# What tells the version in each file, as often as it is there.
PLACES = (
    ("bindings/rust/Cargo.toml", r'^version = "(.*)"$'), ("bindings/rust/Cargo.lock", r'^name = "zuphinka"\nversion = "(.*)"$'),
    (f"{JAVA}/pom.xml", r"^  <version>(.*)</version>$"), (f"{JAVA}/commons-pool2/pom.xml", r"^  <version>(.*)</version>$"),
    (f"{JAVA}/README.md", r"<artifactId>zuphinka-commons-pool2</artifactId>\n *<version>(.*)</version>"),
    (f"{JAVA}/README.md", r"'io.github.zuphinka:\S*:([\d.]*)'"),
    (HEADER, r'^#define ZUPHINKA_VERSION "(.*)"$'), ("docs/pool.1", r'^\.TH POOL 1 "" "Zuphinka (.*)"$'),
)
# The contract and the body of the library's function, which has the number twice.
NUMBER = r"fn zuphinka_version\(\) -> u32\n    ensures \{ result ≡ (\d+) \}\n\{\n    ([\d_]+)\n\}"
# The codes of each binding. A status is negative in Java.
BOUND = {"bindings/rust/src/sys.rs": r"^pub const (\w+): u32 = (\d+);$"}
BOUND |= {f"{JAVA}/src/io/github/zuphinka/Core.java": r"static final int ([A-Z]+_\w+) = -?(\d+);"}


def found(pattern, name):
    """What a pattern finds in a file of the repository."""
    return re.findall(pattern, (TOP / name).read_text(), flags=re.MULTILINE)


def checks(version, programs):
    """What tells a version or codes: its name, what is wanted of it, and what it tells."""
    major, minor, patch = map(int, version.split("."))
    number = major * 1_000_000 + minor * 1_000 + patch
    for name, pattern in PLACES:
        yield name, [version], found(pattern, name)
    yield "the numbers of zuphinka.h", version.split("."), found(r"^#define ZUPHINKA_VERSION_(?:MAJOR|MINOR|PATCH) (\d+)$", HEADER)
    yield "the C library", [(number, number)], [tuple(map(int, numbers)) for numbers in found(NUMBER, "crates/zuphinka/src/lib.rt")]
    yield "the change log", True, version in found(r"^## \[(.*?)\]", "CHANGELOG.md")
    for program in map(pathlib.Path, programs):
        yield f"{program} --version", f"{program.name} {version}\n", run(program, "--version", text=True).stdout
    codes = dict(found(r"ZUPHINKA_(\w+) = (\d+)", HEADER))
    for name, pattern in BOUND.items():
        bound = dict(found(pattern, name))
        yield f"the codes of {name}", {code: codes[code] for code in codes if code in bound or re.match("REPORT|ACTION|END_(?!NONE)", code)}, bound



if __name__ == "__main__":
    sys.exit(play_checks(checks((TOP / "VERSION").read_text().removesuffix("\n"), sys.argv[1:])))

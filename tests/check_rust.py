"""Builds the Rust crate in bindings/rust, and sees that its tests pass and its examples do what they say.

    check_rust.py POOL JUDGE

The crate's tests are cargo's: those in its files, in tests/ and in its pages. The journals that the examples `first_loan` and `servers` store are legal,
and so are those of pools whose settings change, which a test stores; what the example `settings` writes of a file must be what Python reads there; the
metrics that a test writes must be in the format (tests/openmetrics.py). The tests under tokio run where Debian has its source. What cannot be tested is
skipped, with the reason: all of it if no cargo runs.
"""

import os
import pathlib
import re
import sys
import tomllib

import openmetrics
from case_files import CASES, unpacked
from playing import NO_CARGO, TOP, has, play_checks, run, scratch, skip_all, stored_journal

from contest import REGISTRY, built_by_cargo, of_registry, runs_cargo

CRATE = TOP / "bindings/rust"
# The tests under tokio.
TRIAL = TOP / "tests/tokio_trial"
RESULT = re.compile(r"^test result: \w+\. (\d+) passed; (\d+) failed;", flags=re.MULTILINE)
# The examples that store a journal, with what they print.
STORING = {"first_loan": b"session 0\n", "servers": b""}
# How many borrows the test of the metrics makes.
MEASURED = 80_000


def tests(package, *options, **variables):
    """Each test of cargo's in a package, and that there are some, and cargo says that they passed."""
    command = ["cargo", "test", "--no-fail-fast", "--offline", *options]
    done = run(*command, cwd=package, env=os.environ | variables, text=True)
    passed, failed = (sum(map(int, column)) for column in zip(*RESULT.findall(done.stdout) or [(0, 0)]))
    if done.returncode or not passed:
        print(done.stdout + done.stderr)
    yield f"cargo test in {package.name}", (0, True), (done.returncode, passed > 0)
    yield from ((f"a test of cargo's in {package.name}", True, number < passed) for number in range(passed + failed))


def check_settings(settings):
    """What the example writes of each file that can be taken, and what Python reads there. The crate has a default of its own for the wait."""
    plain = tomllib.loads(re.sub(r"^#(?=\[abandoned\]$|\w+ = )", "", (TOP / "examples/settings.toml").read_text(), flags=re.MULTILINE))
    abandoned, plain["maxWaitMillis"] = plain.pop("abandoned"), 30_000
    with scratch() as room:
        taken = [folder / "settings.toml" for case, folder in unpacked(room, CASES / "settings") if case.answer == b"ok\n"]
        for path in [*sorted((TOP / "examples").glob("*.toml")), *taken]:
            wanted = plain | tomllib.loads(path.read_text())
            if "abandoned" in wanted:
                wanted["abandoned"] = abandoned | wanted["abandoned"]
            done = run(settings, path)
            yield f"settings {path}", wanted, done if done.returncode else tomllib.loads(done.stdout.decode())


def check_documentation():
    """The documentation is built where there is no library, as on docs.rs, and no link in it is broken."""
    with scratch() as folder:
        variables = {"DOCS_RS": "1", "ZUPHINKA_LIB": str(folder), "RUSTDOCFLAGS": "-D warnings"}
        done = run("cargo", "doc", "--no-deps", "--offline", "--target-dir", folder / "target", cwd=CRATE, env=os.environ | variables, text=True)
        yield "the documentation without the library", 0, done.returncode and done


def check_targets():
    """Where the crate cannot work it does not compile, and says why. Its first lines are compiled alone, without std, which only the own target has. For
    such a target the build script looks for no library."""
    source = (CRATE / "src/lib.rs").read_text()
    lines, why = re.search(r'^#\[cfg\(not\(all\(.*?^compile_error!\("(.*?)"\);$', source, flags=re.DOTALL | re.MULTILINE).group(0, 1)
    alone = "#![feature(no_core, rustc_attrs)]\n#![no_core]\n#[rustc_builtin_macro]\nmacro_rules! compile_error { ($text:expr) => {} }\n"
    with scratch() as folder:
        (folder / "lines.rs").write_text(alone + lines)
        run("rustc", "--edition", "2021", "-o", folder / "build", CRATE / "build.rs")
        for target, is_own in ("x86_64-unknown-linux-gnu", True), ("aarch64-unknown-linux-gnu", False), ("x86_64-apple-darwin", False):
            words = ["--crate-type", "lib", "--emit", "metadata", "--target", target, "-o", folder / "metadata", folder / "lines.rs"]
            done = run("rustc", *words, env=os.environ | {"RUSTC_BOOTSTRAP": "1"}, text=True)
            told = re.findall(r"^error: (zuphinka .*)$", done.stderr, flags=re.MULTILINE)
            yield f"the crate for {target}", ([] if is_own else [why], is_own), (told, done.returncode == 0)
            system = {"CARGO_CFG_TARGET_OS": "linux" if "linux" in target else "macos", "CARGO_CFG_TARGET_ARCH": target.partition("-")[0]}
            variables = system | {"CARGO_MANIFEST_DIR": str(CRATE), "OUT_DIR": str(folder), "ZUPHINKA_LIB": str(folder)}
            done = run(folder / "build", env=os.environ | variables, text=True)
            yield f"the build script for {target}, without a library", int(is_own), done.returncode


def checks(pool, judge):
    program = str(pathlib.Path(pool).resolve())
    with scratch() as folder:
        yield from tests(CRATE, ZUPHINKA_POOL=program, ZUPHINKA_METRICS=str(folder / "metrics"), ZUPHINKA_CHANGES=str(folder / "changes"))
        text = (folder / "metrics").read_text() if (folder / "metrics").exists() else ""
        yield "the metrics", "", openmetrics.fault_of_course("the metrics of the Rust crate", text, MEASURED)
        journals = sorted((folder / "changes").iterdir()) if (folder / "changes").is_dir() else []
        yield "there are journals of pools whose settings change", True, bool(journals)
        yield from ((f"{journal.name}: all segments", *stored_journal(judge, journal)) for journal in journals)
    if has("tests/tokio_trial", "librust-tokio-dev"):
        yield from tests(TRIAL, *of_registry(REGISTRY), ZUPHINKA_POOL=program)
    examples = built_by_cargo(CRATE, "--examples") / "examples"
    for name, printed in STORING.items():
        with scratch() as folder:
            done = run(examples / name, folder / "journal")
            yield name, (printed, 0), (done.stdout, done.returncode and done)
            yield f"the journal of {name}", *stored_journal(judge, folder / "journal")
    yield from check_settings(examples / "settings")
    yield from check_documentation()
    yield from check_targets()


if __name__ == "__main__":
    sys.exit(play_checks(checks(*sys.argv[1:])) if runs_cargo() else skip_all("bindings/rust", NO_CARGO))

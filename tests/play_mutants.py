#!/usr/bin/env python3
"""Tries the edits that make a mistake in each of several functions, and looks whether the prover rejects every one of them, and no other function.

    play_mutants.py [CRATE..]

`rt ci` passes an edit as soon as one function is rejected. This checks, in a copy of each crate that has an edit one_mistake_in_each, the functions that
the edit changes and those that they call. The libraries below the crates must be built. What passed is kept in the user's folder for caches, by the
checksums of all that it stands on, and not tried again.
"""

import concurrent.futures
import contextlib
import hashlib
import os
import pathlib
import re
import shutil
import subprocess
import sys

from playing import TOP, play_checks, run, scratch

import kit
import sources

# How the prover says that it rejects the body of a function. One that merely calls such a function has "no proof: it calls ..".
REJECTED = r"not proved\b|no proof: expected answers in \S+; `search` did not prove"
# Half of the processors, since other parts of ./check run beside.
LANES = max(1, (os.cpu_count() or 1) // 2)


def replacements(edit):
    """The lines of an edit: each line that is replaced, with the file in which it stands and the new one."""
    path = old = None
    for line in edit.read_text().splitlines():
        word, _, rest = line.partition(": ")
        if word == "file":
            path = rest
        elif word == "old":
            old = rest
        elif word == "new":
            yield path, old, rest


def function_at(path, before):
    """The end of the prover's name of the function that these lines of a file end in: its module, or its type and trait, and its own name."""
    name = re.findall(r"\bfn (\w+)", before)[-1]
    found = re.search(r"^impl\b([^{]*)\{(?!.*^impl\b)(?!.*^\})", before, re.MULTILINE | re.DOTALL)
    if not found:
        return "::".join([*(module for module in pathlib.Path(path).with_suffix("").parts[1:] if module != "lib"), name])
    # Without the block's own type parameters.
    trait, _, of = re.sub(r"^<([^<>]|<([^<>]|<[^<>]*>)*>)*>", "", found[1].strip()).rpartition(" for ")
    words = [*re.findall(r"\w+", of)[:1], *re.findall(r"\w\w+(?!\w*::)", trait)]
    return f"{''.join(words)}::{name}"


def mistaken(room, edit):
    """Applies an edit to a copy of its crate, and returns the functions that it changes."""
    functions = []
    for path, old, new in replacements(edit):
        before, found, after = (room / path).read_text().partition(old)
        functions.append(function_at(path, before))
        (room / path).write_text(before + (new if found else "") + after)
    return functions


def checks_of(crate):
    """The functions that the edit of a crate changes, and those that the prover rejects, of these and of those that they call."""
    folder = TOP / "crates" / crate
    with scratch() as room:
        for part in sources.PARTS:
            if (folder / part).is_dir():
                shutil.copytree(folder / part, room / part)
        functions = [*dict.fromkeys(mistaken(room, sources.edit_with_mistakes(crate)))]
        only = [word for function in functions for word in ("--only", function)]
        words = [kit.rtlib().RATTLE, "check", *kit.crate_of(crate).words(["--jobs", "1"], False, keeps=False), *only]
        done = run(*map(str, words), cwd=room, stderr=subprocess.STDOUT, text=True, timeout=None)
    rejected = re.findall(rf"^fn {crate}::(\S+): (?:{REJECTED})", done.stdout, re.MULTILINE)
    yield f"{crate}: the edit changes several functions", True, len(functions) > 1
    found = {function: sum(f"::{name}".endswith(f"::{function}") for name in rejected) for function in functions}
    yield f"{crate}: each is rejected, and no other", (dict.fromkeys(functions, 1), len(functions)), (found, len(rejected))


def record_of(crate):
    """The file that has the names of the checks of a crate once all of them have passed."""
    texts = [str(sources.kit()), sources.sum_of_sources(crate), sources.edit_with_mistakes(crate).read_text(), pathlib.Path(__file__).read_text()]
    caches = pathlib.Path(os.environ.get("XDG_CACHE_HOME") or pathlib.Path.home() / ".cache")
    return caches / "zuphinka" / "mutants" / hashlib.sha256("\n".join(texts).encode()).hexdigest()


def checks_once(crate):
    """The checks of a crate, as they came out earlier or come out now."""
    record = record_of(crate)
    if record.is_file():
        return [(name, True, True) for name in record.read_text().splitlines()]
    told = [*checks_of(crate)]
    is_over_sources = all(sources.is_current(library) for library in sources.below(crate) - {crate})
    if is_over_sources and all(wanted == got for _, wanted, got in told):
        with contextlib.suppress(OSError):
            record.parent.mkdir(parents=True, exist_ok=True)
            written = record.with_suffix(f".{os.getpid()}")
            written.write_text("".join(f"{name}\n" for name, _, _ in told))
            written.rename(record)
    return told


def checks():
    crates = sys.argv[1:] or sources.with_mistakes()
    kept = sum(record_of(crate).is_file() for crate in crates)
    if kept:
        print(f"{kept} of {len(crates)} crates passed on this machine earlier, and nothing that they stand on has changed")
    with concurrent.futures.ThreadPoolExecutor(LANES) as lanes:
        for told in lanes.map(checks_once, crates):
            yield from told


if __name__ == "__main__":
    sys.exit(play_checks(checks()))

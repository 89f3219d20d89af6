"""Installs the C library under a prefix of its own, by tools/install.py and by make, and builds programs with the installed files alone.

    play_install.py LIBRARY

LIBRARY is libzuphinka.a. The shared library must export the functions that the C compiler finds in the headers, and no other name. Its own name and its
links must be those of the version, it must need nothing but the system's C library, and Python must load it. The examples of bindings/c/examples that
need no database, copied to a folder by themselves, must compile with the flags that pkg-config prints for the archive, for the shared library and for
a static program, and run; only those of the shared library may need it. The prefix has a space, and is installed to twice. bindings/c/Makefile must
install the same files, and compile the examples. What needs pkg-config or make is skipped if that isn't installed.
"""

import ctypes
import os
import pathlib
import re
import shlex
import shutil
import sys

from play_library import EXAMPLES, FLAGS, INCLUDE, PLAIN_LIFE, TOP, compiler
from playing import ended, has, play_checks, run, scratch, write_files

from install import loaded_name, version

SHARED, LOADED, FOUND = f"libzuphinka.so.{version()}", loaded_name(), "libzuphinka.so"
# The libraries of the system that a program may need.
SYSTEM = {"libc.so.6", "libpthread.so.0", "ld-linux-x86-64.so.2"}
THREADS, ROUNDS = 4, 500
# The ways to link a program: each with the words for pkg-config, the flag before its flags, and the shared libraries of ours that the program needs.
KINDS = [
    ("with the archive", ["zuphinka-static"], [], []), ("with the shared library", ["zuphinka"], [], [LOADED]),
    ("as a static program", ["--static", "zuphinka"], ["-static"], []),
]


def declared():
    """The functions without a body that the C compiler finds in zuphinka_pool.h and what it includes."""
    text = run(compiler(), "-E", "-P", "-I", INCLUDE, INCLUDE / "zuphinka_pool.h").stdout.decode()
    while (outer := re.sub(r"\{[^{}]*\}", ";", text)) != text:
        text = outer
    found = (re.match(r"(?!typedef|static)[\w\s*]+?\b(zuphinka_\w+)\s*\(", statement.strip()) for statement in text.split(";"))
    return sorted(function[1] for function in found if function)


def exported(library):
    """The names that a shared library exports, each with its kind."""
    lines = run("nm", "-D", "--defined-only", library).stdout.decode().splitlines()
    return sorted((name, kind) for _, kind, name in map(str.split, lines))


def dynamic(file, tag):
    """What a shared library or a program says under a tag of its dynamic section."""
    return re.findall(rf"\({tag}\) .*\[(.*)\]", run("readelf", "--dynamic", "--wide", file).stdout.decode())


def shared_library(lib):
    """The shared library and its links."""
    major, minor, patch = map(int, version().split("."))
    yield "the exported names", [(name, "T") for name in declared()], exported(lib / SHARED)
    yield "the name of the shared library", [LOADED], dynamic(lib / SHARED, "SONAME")
    yield "what it needs", [], sorted({*dynamic(lib / SHARED, "NEEDED")} - SYSTEM)
    yield "the links", [SHARED, LOADED], [os.readlink(lib / name) for name in (LOADED, FOUND)]
    yield "the version that Python finds in it", major * 1_000_000 + minor * 1_000 + patch, ctypes.CDLL(str(lib / LOADED)).zuphinka_version()


def programs(prefix):
    """Each example is linked in each way, and run. Threads share a pool in the last: each round has four entries at least."""
    environment = os.environ | {"PKG_CONFIG_PATH": f"{prefix}/lib/pkgconfig", "LD_LIBRARY_PATH": f"{prefix}/lib"}
    for kind, words, before, needs in KINDS:
        flags = shlex.split(run("pkg-config", "--cflags", "--libs", *words, env=environment, text=True).stdout)
        with scratch() as folder:
            (settings,), segments = write_files(folder, {"settings": b"journalLimit = 1000\n"}), folder / "segments"
            segments.mkdir()
            shared = "shared_life", [settings, segments, str(THREADS), str(ROUNDS)], b""
            for name, given, wanted in ("first_loan", [], b""), ("plain_life", [TOP / "examples/settings.toml"], PLAIN_LIFE), shared:
                source, built = shutil.copy(EXAMPLES / f"{name}.c", folder), folder / name
                yield f"{name} is compiled {kind}", (b"", b"", 0), ended(run(compiler(), *FLAGS, "-o", built, source, *before, *flags))
                yield f"what {name} needs, {kind}", needs, [library for library in dynamic(built, "NEEDED") if library not in SYSTEM]
                yield f"{name} {kind}", (wanted, b"", 0), ended(run(built, *given, env=environment))
            entries = sum(path.read_bytes().count(b" = ") for path in segments.iterdir())
            yield f"the entries of shared_life {kind}", True, entries >= 4 * THREADS * ROUNDS or entries


def files(prefix):
    """The files and links below a prefix."""
    return sorted(path.relative_to(prefix).as_posix() for path in prefix.rglob("*") if path.is_symlink() or path.is_file())


def by_make(prefix, folder):
    """The targets of the Makefile, as if the library were just built."""
    make, stage, out = ("make", "--no-print-directory", "--old-file=library", "-C", TOP / "bindings/c"), folder / "stage", folder / "out"
    yield "make install", 0, run(*make, "install", "PREFIX=/usr", f"DESTDIR={stage}").returncode
    yield "the files of make install", [f"usr/{name}" for name in files(prefix)], files(stage)
    yield "the prefix of make install", "prefix=/usr", (stage / "usr/lib/pkgconfig/zuphinka.pc").read_text().partition("\n")[0]
    done = run(*make, "examples", f"OUT={out}")
    yield "make examples", (0, b""), (done.returncode, done.stderr)
    yield "plain_life by make", (PLAIN_LIFE, b"", 0), ended(run(out / "plain_life", TOP / "examples/settings.toml"))


def checks(library):
    with scratch() as folder:
        prefix = folder / "a b"
        for _ in range(2):
            done = run(sys.executable, TOP / "tools/install.py", "--prefix", prefix, "--library", library, text=True)
            yield "an install", (0, ""), (done.returncode, done.stderr)
        printed = sorted(pathlib.Path(line).relative_to(prefix).as_posix() for line in done.stdout.splitlines())
        yield "the files that it prints", (True, files(prefix)), (bool(printed), printed)
        yield from shared_library(prefix / "lib")
        if has("programs that are built by the installed files", "pkgconf"):
            yield from programs(prefix)
        if has("bindings/c/Makefile", "make"):
            yield from by_make(prefix, folder)


if __name__ == "__main__":
    sys.exit(play_checks(checks(sys.argv[1])))

"""Installs the C library under a prefix: headers, an archive and a shared library, the source of the pool for threads, and two files for pkg-config.

    tools/install.py --prefix FOLDER [--destdir FOLDER] [--library FILE] [--heap FILE]

`python3 tools/build.py zuphinka` builds the library first. FILE is libzuphinka.a, else that of crates/zuphinka/out; and the kit's liblibc_c.a,
by which the library allocates, else that of the command `rt`. The C compiler that CC names, or cc, compiles the pool and links the shared library,
and AR, or ar, makes the archive; either may have words after it, as in a Makefile. Installed are

    include/zuphinka.h, include/zuphinka_pool.h
    lib/libzuphinka.a             the library, what it allocates by, and the pool for threads
    lib/libzuphinka.so.VERSION    the same as a shared library, which exports the functions of the headers and nothing else
    lib/libzuphinka.so.0.MINOR    a link to it, by the name that programs load: that of the versions with the same interface (from 1.0.0: .so.MAJOR)
    lib/libzuphinka.so            a link to that, by the name that `-lzuphinka` finds
    lib/pkgconfig/                zuphinka.pc, and for the archive zuphinka-static.pc: cc server.c $(pkg-config --cflags --libs zuphinka-static)
    share/zuphinka/               the source of that pool: zuphinka_pool.c, and the headers that it alone includes

Under a folder of the system, such as /usr/local, run ldconfig afterwards, so that programs find the shared library. With --destdir the files are put
below that folder, and name the prefix without it. They are put by coreutils' `install`: all may read them, and programs that have an older library
loaded keep it. Prints each file. The status is 1 if one is missing or a command fails; what was installed before may then be in part new.
"""

import argparse
import os
import pathlib
import re
import shlex
import subprocess
import sys
import tempfile

TOP = pathlib.Path(__file__).resolve().parent.parent
INCLUDE, SOURCES = TOP / "bindings/c/include", TOP / "bindings/c/src"
HEADERS = [INCLUDE / "zuphinka.h", INCLUDE / "zuphinka_pool.h"]
POOL = SOURCES / "zuphinka_pool.c"
# The source of the pool, and the headers that it alone includes.
POOL_SOURCES = [POOL, *sorted(SOURCES.glob("zuphinka_pool_*.h"))]
# What pkg-config prints for the linker, by the name of its file.
LINKED = {"zuphinka": '-L"${libdir}" -lzuphinka', "zuphinka-static": '-L"${libdir}" -l:libzuphinka.a'}
PKG_CONFIG = """prefix={prefix}
includedir=${{prefix}}/include
libdir=${{prefix}}/lib

Name: {name}
Description: An object pool whose decisions are proved, and a pool for threads over it
Version: {version}
License: Apache-2.0
Cflags: -I"${{includedir}}" -pthread
Libs: {linked} -pthread
"""
# A function that a header declares, without a body, and that is no type.
DECLARED = re.compile(r"^(?!static\b|typedef\b)\w[\w *]*?\b(zuphinka_\w+)\(", re.MULTILINE)


def heap_of_kit():
    """The kit's archive by which the library allocates."""
    try:
        page = subprocess.run(["rt", "doc"], capture_output=True, text=True, check=True).stdout.split()[0]
    except (OSError, subprocess.CalledProcessError, IndexError):
        sys.exit("rt: not on the PATH; tools/install.py takes the kit's liblibc_c.a by --heap, and bindings/c/Makefile by HEAP=")
    return pathlib.Path(page).parent / "c/liblibc_c.a"


def version():
    return (TOP / "VERSION").read_text().strip()


def loaded_name():
    """The name by which programs load the shared library: versions that share it have one interface."""
    major, minor, _ = version().split(".")
    return f"libzuphinka.so.{major}" if int(major) else f"libzuphinka.so.0.{minor}"


def command(variable, default):
    """The words of the command that a variable names, or else of this one."""
    return shlex.split(os.environ.get(variable, "")) or [default]


def run(*words, **options):
    """Runs a command, whose output is shown only if it fails."""
    try:
        done = subprocess.run(list(map(str, words)), stdout=subprocess.PIPE, stderr=subprocess.STDOUT, text=True, **options)
    except OSError as error:
        sys.exit(f"{words[0]}: {error.strerror}")
    if done.returncode:
        sys.exit(f"{words[0]}: status {done.returncode}\n{done.stdout}")


def merge(archive, library, heap):
    """Makes an archive of the members of two and of the pool, compiled. Members of one name stay apart. A script for `ar` can't name each path, so it
    has names in the archive's folder alone."""
    folder = archive.parent
    pool = folder / "zuphinka_pool.o"
    for name, file in ("library.a", library), ("heap.a", heap):
        (folder / name).symlink_to(file.resolve())
    flags = ["-std=c11", "-O2", "-fPIC", "-pthread", "-Wall", "-Wextra", "-I", INCLUDE]
    run(*command("CC", "cc"), *flags, "-c", "-o", pool, POOL)
    parts = f"ADDLIB library.a\nADDLIB heap.a\nADDMOD {pool.name}\n"
    run(*command("AR", "ar"), "-M", cwd=folder, input=f"CREATE {archive.name}\n{parts}SAVE\nEND\n")


def functions(header):
    """The functions that a header declares and the library has."""
    return DECLARED.findall(re.sub(r"/\*.*?\*/", "", header.read_text(), flags=re.DOTALL))


def link(shared, archive, name):
    """Links a shared library of this name from all members of an archive. It exports the functions of the headers, and calls its own directly."""
    script = shared.with_name("exports.map")
    exported = "".join(f" {function};" for header in HEADERS for function in functions(header))
    script.write_text(f"{{ global:{exported} local: *; }};\n")
    flags = ["-shared", "-fPIC", "-pthread", f"-Wl,-soname,{name}", "-Wl,-Bsymbolic-functions", "-Wl,-z,defs", "-Xlinker", f"--version-script={script}"]
    run(*command("CC", "cc"), *flags, "-o", shared, "-Wl,--whole-archive", archive, "-Wl,--no-whole-archive")


def put(file, folder):
    """Puts a file or a link into a folder, in place of one of its name, and gives its path."""
    there = folder / file.name
    if file.is_symlink():
        run("ln", "--symbolic", "--force", file.readlink(), there)
    else:
        run("install", "-D", f"--mode={'755' if file.stat().st_mode & 0o100 else '644'}", file, there)
    return there


def install(prefix, named, library, heap):
    """Installs all of it under a prefix, which pkg-config knows by this name, and gives the files."""
    with tempfile.TemporaryDirectory() as name:
        built = pathlib.Path(name)
        archive, shared, loaded, found = (built / name for name in ("libzuphinka.a", f"libzuphinka.so.{version()}", loaded_name(), "libzuphinka.so"))
        merge(archive, library, heap)
        link(shared, archive, loaded.name)
        loaded.symlink_to(shared.name)
        found.symlink_to(loaded.name)
        described = [built / f"{name}.pc" for name in LINKED]
        for file in described:
            file.write_text(PKG_CONFIG.format(prefix=named, name=file.stem, version=version(), linked=LINKED[file.stem]))
        parts = {"include": HEADERS, "lib": [archive, shared, loaded, found], "lib/pkgconfig": described, "share/zuphinka": POOL_SOURCES}
        return [put(file, prefix / folder) for folder, files in parts.items() for file in files]


def main():
    words = argparse.ArgumentParser(description="Installs the C library under a prefix.")
    words.add_argument("--prefix", required=True, type=pathlib.Path, help="the folder that gets include, lib and share")
    words.add_argument("--destdir", default="", help="a folder that is put before the prefix")
    words.add_argument("--library", type=pathlib.Path, default=TOP / "crates/zuphinka/out/libzuphinka.a", help="libzuphinka.a")
    words.add_argument("--heap", type=pathlib.Path, help="the kit's liblibc_c.a")
    given = words.parse_args()
    heap = given.heap or heap_of_kit()
    for file in given.library, heap:
        if not file.is_file():
            sys.exit(f"{file}: no such file; python3 tools/build.py zuphinka builds the library")
    prefix = pathlib.Path(os.path.abspath(given.prefix))
    place = pathlib.Path(given.destdir).resolve() / prefix.relative_to("/") if given.destdir else prefix
    print(*install(place, prefix, given.library, heap), sep="\n")


if __name__ == "__main__":
    main()

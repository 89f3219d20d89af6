"""Proves and builds one crate over the libraries below it, which are built (tools/build.py).

    tools/kit.py CRATE JOBS

A library keeps its statements alone, without their proofs: the crates above load it in half of the time. The kit's `rt lib` keeps the proofs too, and
its other commands take no libraries without them, so these stand in a folder of their own (tools/sources.py).
"""

import functools
import pathlib
import shutil
import subprocess
import sys

import sources
from sources import TOP


@functools.cache
def rtlib():
    """The kit's own view of crates, in the folder in which its first page stands."""
    page = subprocess.run(["rt", "doc"], check=True, capture_output=True, text=True).stdout.split()[0]
    sys.path.insert(0, str(pathlib.Path(page).resolve().parent / "bin"))
    import rtlib

    return rtlib


def crate_of(name):
    """The kit's view of one crate, over the libraries that build.py has left. It reads no other crate, so other builds may come and go."""
    crate = rtlib().Crate(str(TOP / "crates" / name), str(TOP), {})
    for library in [*crate.below(), crate]:
        library.rlib = str(sources.library(library.name))
    return crate


def build_program(crate, flags):
    """Proves, compiles and links a program, and returns the kit's status."""
    kit, program = rtlib().KIT, f"out/{crate.name}"
    status = crate.compile(flags, f"{program}.o")
    if status:
        return status
    words = ["--target", "x86_64-unknown-linux-gnu", "--toolchain", f"{kit}/toolchain", "-o", program, f"{program}.o"]
    return crate.call(f"{kit}/bin/rattle-link", *words, f"{kit}/c/libos_c.a", f"{kit}/c/liblibc_c.a")


def main():
    if len(sys.argv) != 3 or not sys.argv[2].isdecimal():
        sys.exit(__doc__)
    crate, flags = crate_of(sys.argv[1]), ["--jobs", sys.argv[2]]
    product = sources.product(crate.name)
    shutil.rmtree(product, ignore_errors=True) if product.is_dir() else product.unlink(missing_ok=True)
    product.parent.mkdir(parents=True, exist_ok=True)
    if crate.is_program:
        return build_program(crate, flags)
    if crate.is_static:
        return crate.build_static(flags)
    # It writes the library's statements alone.
    return crate.call(rtlib().RATTLE, "build", *crate.words(flags, keeps=False), "--statements", "-o", crate.rlib)


if __name__ == "__main__":
    sys.exit(main())

"""Builds the pool for Java: the native library over the core's C library, and a jar that has it.

    tools/java.py

The C library is that of crates/zuphinka/out, which is proved and built first if that is needed. JAVA_HOME names the JDK, else it is that of the
command javac; COMMONS_POOL2 the jar of Commons Pool 2, else it is Debian's; CC the C compiler, else it is cc. Made are, in bindings/java/out,

    libzuphinka_jni.so            the native library
    zuphinka.jar                  the classes and the native library; its manifest names the module, and commons-pool2.jar as its class path
    zuphinka-commons-pool2.jar    a GenericObjectPool in place of the library's; its manifest names both other jars as its class path

The same sources, library and compilers give the same bytes. The status is 1 if something cannot be compiled, and 3 if a tool or Commons Pool 2 is
missing: then its package is named.
"""

import os
import pathlib
import re
import shutil
import subprocess
import sys
import tempfile
import zipfile

from install import INCLUDE, command, heap_of_kit, run, version

TOP = pathlib.Path(__file__).resolve().parent.parent
JAVA = TOP / "bindings/java"
DROP_IN = JAVA / "commons-pool2"
OUT = JAVA / "out"
LIBRARY = TOP / "crates/zuphinka/out/libzuphinka.a"
# The oldest Java that the classes run on, and the newest compiler whose warnings are errors: a later one may have others.
RELEASE = "11"
STRICT = 17
# For a run of a second or two the virtual machine need not optimize.
QUICK = "-XX:TieredStopAtLevel=1"
DEBIAN_JAR = pathlib.Path("/usr/share/java/commons-pool2.jar")
MISSING = 3
# The name of the jar as a module, which is that of the package.
MODULE = "io.github.zuphinka"


class Missing(Exception):
    """A tool or a library that is not there, and the package that has it."""


def jdk():
    """The folder of the JDK."""
    home = os.environ.get("JAVA_HOME")
    compiler = shutil.which("javac")
    folder = pathlib.Path(home) if home else pathlib.Path(compiler).resolve().parent.parent if compiler else None
    if not folder or not (folder / "bin/javac").is_file() or not (folder / "include/jni.h").is_file():
        raise Missing("no JDK: Debian's package default-jdk-headless has one; JAVA_HOME names another")
    return folder


def commons_pool():
    """The jar of Commons Pool 2."""
    jar = pathlib.Path(os.environ.get("COMMONS_POOL2", DEBIAN_JAR))
    if not jar.is_file():
        raise Missing(f"{jar}: no such file; Debian's package libcommons-pool2-java has it; COMMONS_POOL2 names another")
    return jar.resolve()


def compile_native(library, heap, to, *more):
    """Compiles the native library, with more sources and flags of a test."""
    include = jdk() / "include"
    flags = ["-std=c11", "-O2", "-Wall", "-Wextra", "-Werror", "-fPIC", "-shared", "-I", include, "-I", include / "linux", "-I", INCLUDE]
    link = [f"-Wl,--version-script={JAVA}/native/exports.map", "-Wl,-z,defs"]
    run(*command("CC", "cc"), *flags, *sorted((JAVA / "native").glob("*.c")), *more, library, heap, *link, "-o", to)


def compile_classes(sources, to, *jars):
    """Compiles Java to class files, with warnings as errors, except those of jars that a manifest names, and those of a new compiler."""
    path = os.pathsep.join(map(str, jars))
    version = int(re.search(r'^JAVA_VERSION="(\d+)', (jdk() / "release").read_text(), flags=re.MULTILINE)[1])
    flags = ["-Xlint:all,-path", *["-Werror"] * (version <= STRICT)]
    run(jdk() / "bin/javac", f"-J{QUICK}", "--release", RELEASE, *flags, "-d", to, "-cp", path, *sources)


def pack(classes, others, jar, title, attributes):
    """Makes a jar of classes and other files, with more attributes in its manifest. Each file has the earliest time that a jar can tell."""
    lines = ["Manifest-Version: 1.0", f"Implementation-Title: {title}", f"Implementation-Version: {version()}", "Bundle-License: Apache-2.0"]
    manifest = "".join(f"{line}\n" for line in [*lines, *attributes])
    files = {"META-INF/MANIFEST.MF": manifest.encode()}
    files |= {path.relative_to(classes).as_posix(): path.read_bytes() for path in sorted(pathlib.Path(classes).rglob("*.class"))}
    files |= {path.name: path.read_bytes() for path in others}
    with zipfile.ZipFile(jar, "w") as packed:
        for name, text in files.items():
            entry = zipfile.ZipInfo(name)
            entry.external_attr = 0o644 << 16
            packed.writestr(entry, text, zipfile.ZIP_DEFLATED)


def build(library, heap, folder=OUT):
    """Builds all of it in a folder, and returns the jar of the pool."""
    folder.mkdir(exist_ok=True)
    native, jar = folder / "libzuphinka_jni.so", folder / "zuphinka.jar"
    compile_native(library, heap, native)
    with tempfile.TemporaryDirectory() as classes:
        compile_classes(sorted((JAVA / "src").rglob("*.java")), classes, commons_pool())
        pack(classes, [native], jar, "zuphinka", [f"Automatic-Module-Name: {MODULE}", f"Class-Path: {DEBIAN_JAR.name}"])
    with tempfile.TemporaryDirectory() as classes:
        compile_classes(sorted((DROP_IN / "src").rglob("*.java")), classes, jar, commons_pool())
        path = f"Class-Path: {jar.name} {DEBIAN_JAR.name}"
        pack(classes, [], drop_in(folder), drop_in(folder).stem, [path])
    return jar


def drop_in(folder=OUT):
    """The jar with a GenericObjectPool in place of the library's."""
    return folder / "zuphinka-commons-pool2.jar"


def main():
    if len(sys.argv) > 1:
        sys.exit(__doc__)
    try:
        jdk(), commons_pool()
    except Missing as missing:
        print(f"java: {missing}", file=sys.stderr)
        return MISSING
    if subprocess.run([sys.executable, TOP / "tools/build.py", "zuphinka"]).returncode:
        return 1
    print(build(LIBRARY, heap_of_kit()))
    return 0


if __name__ == "__main__":
    sys.exit(main())

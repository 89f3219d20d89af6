"""Builds the pool for Java with Maven, offline, from Debian's packages of its plugins, and compares the jars with those of tools/java.py.

    play_maven.py LIBRARY

Both jars must have the same classes and native library, byte for byte, and the same manifest, besides what Maven says of itself. A project depends on
DBCP2 and on the jar that stands in place of Commons Pool 2, as bindings/java/README.md shows it, and must have its class. What needs a JDK, Maven or a
plugin that is missing is skipped, with the reason.
"""

import os
import pathlib
import re
import shutil
import subprocess
import sys
import zipfile

from play_drop_in import SHARED
from play_java import play_with_java
from playing import NAMED, TOP, has, run, scratch

import java
from install import heap_of_kit, version

# What Debian's packages of Maven have.
DEBIAN_REPOSITORY = pathlib.Path("/usr/share/maven-repo")
NEEDED = [package.name for package in NAMED.values() if "maven" in package.parts]
# What Maven adds to a manifest and to a jar, about itself.
ABOUT_MAVEN = {"Created-By", "Build-Jdk-Spec"}
DESCRIPTION = "META-INF/maven/io.github.zuphinka/"
# The description of a project.
USER = """<project xmlns="http://maven.apache.org/POM/4.0.0">
  <modelVersion>4.0.0</modelVersion>
  <groupId>org.example</groupId>
  <artifactId>user</artifactId>
  <version>1</version>
  <properties>
    <project.build.sourceEncoding>UTF-8</project.build.sourceEncoding>
    <maven.compiler.release>{release}</maven.compiler.release>
  </properties>
  <dependencies>
{dependencies}  </dependencies>
</project>
"""
# What Maven writes to a terminal, and else too.
COLOURS = re.compile(r"\x1b\[\d*m")


class Maven:
    """Maven, offline, over a repository of links to Debian's."""

    def __init__(self, folder):
        self.folder, self.repository = folder, folder / "repository"
        shutil.copytree(DEBIAN_REPOSITORY, self.repository, copy_function=lambda file, link: os.symlink(os.path.realpath(file), link))

    def run(self, project, *words):
        """Runs Maven on a project, and returns its status and its output."""
        paths = [f"-Dmaven.repo.local={self.repository}", f"-Dzuphinka.build={self.folder / project.parent.name}"]
        environment = os.environ | {"JAVA_HOME": str(java.jdk())}
        command = ["mvn", "--offline", "--batch-mode", "--quiet", *paths, "-f", project, *map(str, words)]
        done = run(*command, stderr=subprocess.STDOUT, text=True, env=environment)
        return done.returncode, COLOURS.sub("", done.stdout)


def parts_of(jar):
    """The attributes of a jar's manifest, and its other files, besides those that Maven adds about itself."""
    with zipfile.ZipFile(jar) as packed:
        files = {name: packed.read(name) for name in packed.namelist() if not name.endswith("/") and not name.startswith(DESCRIPTION)}
    manifest = re.findall(r"^([\w-]+): (.*?)\r?$", files.pop("META-INF/MANIFEST.MF").decode(), flags=re.MULTILINE)
    return {key: value for key, value in manifest if key not in ABOUT_MAVEN}, files


def user(maven, folder):
    """What is wanted of a project that has the pool in place of Commons Pool 2, and what it does."""
    sources = folder / "user/src/main/java"
    sources.mkdir(parents=True)
    for source in TOP / "tests/drop_in/DropIn.java", *(TOP / f"tests/java/{name}.java" for name in SHARED):
        shutil.copy(source, sources)
    # Its dependencies are those that the page shows, in its block of XML; DBCP2 comes first.
    shown = re.search(r"^```xml\n(.*?)^```$", (java.JAVA / "README.md").read_text(), flags=re.MULTILINE | re.DOTALL)[1]
    dependencies = "".join(reversed(re.findall(r"<dependency>.*?</dependency>\n", shown, flags=re.DOTALL)))
    (folder / "user/pom.xml").write_text(USER.format(dependencies=dependencies, release=java.RELEASE))
    words = ["-Dexec.mainClass=DropIn", f"-Dexec.args=zuphinka-commons-pool2-{version()}.jar"]
    status, output = maven.run(folder / "user/pom.xml", "compile", "org.codehaus.mojo:exec-maven-plugin:3.1.0:java", *words)
    yield "a project with it", (0, True), (status, re.search(r"^\d{2,} passed, 0 failed$", output, flags=re.MULTILINE) is not None or output)


def checks(library):
    with scratch() as folder:
        maven, jar = Maven(folder), java.build(library, heap_of_kit(), folder / "out")
        words = [f"-Dzuphinka.library={library.resolve()}", f"-Dzuphinka.heap={heap_of_kit()}"]
        for project, options, wanted in (java.JAVA, words, jar), (java.DROP_IN, [], java.drop_in(jar.parent)):
            yield f"the build of {wanted.stem}", (0, ""), maven.run(project / "pom.xml", *options, "install")
            made = parts_of(folder / project.name / f"{wanted.stem}-{version()}.jar")
            for name, expected, got in zip(("manifest", "files"), parts_of(wanted), made):
                yield f"{project.name}: the {name} that differ", {}, dict({*got.items()} ^ {*expected.items()})
        yield from user(maven, folder)


def main():
    what = "the build with Maven"
    return play_with_java(what, checks(*map(pathlib.Path, sys.argv[1:])) if has(what, *NEEDED) else ())


if __name__ == "__main__":
    sys.exit(main())

"""Compares the pages with the sources.

check_pages.py  The last line is 'N passed, M failed'.

Each file, folder and heading that a page names or links to exists. Each single name between backquotes is a word of some source. A name beside a source,
as in "`name` in `file`", "`name` (`file`)" or a row of a table with a column "File", is declared there, and so is each clause that docs/proved.md names.
A block of Rust, C or Java is one contiguous piece of a file that is compiled, but for its indentation. README.md has at most 90 lines. The settings have
the defaults of the definitions.
"""

import functools
import re
import sys
import tomllib

from playing import TOP, play_checks

import java

DOCS, README, BINDINGS = TOP / "docs", TOP / "README.md", [TOP / f"bindings/{name}/README.md" for name in ("java", "rust")]
PAGES = (README, TOP / "CONTRIBUTING.md", TOP / "SECURITY.md", *sorted(DOCS.glob("*.md")), *BINDINGS)
FOLDERS, NO_SOURCES = ("crates", "bindings", "tests", "bench", "tools", "docs", "examples"), {".md", ".svg", ".jar", ".pyc"}
COMPILED = ("crates/example_server/src/*.rt", "bindings/c/examples/*.c", "bindings/rust/examples/*.rs", "bindings/java/examples/*.java")
# Names of other libraries and of the prover's modules, by their beginnings or ends; files that a pool or an example writes; and what stands for a name.
FOREIGN = re.compile(
    r"(get|set|list|log|use|add|prepare|evictor|timeBetween|jmx|maxWait|minE|softMinE|durationB)[A-Z]?\w*$|\w+ObjectPool$|DestroyMode$|\w*Millis$|Is$|Has$|"
    r"\w*(Lts|Tie|Proof)$|(start|callers|settings)[.]\w+$|.*(NAME|X_|[<*])|(out/)?shop$|(out|stats|worked|settings)/$|OnNone$|IsPa\S+-from_c|\w+/\w?hrases[.]"
)
FILE = re.compile(r"(?!\.\./)[\w./-]*(?:/|\.(?:antt|rt|py|md|toml|txt|c|h|rs|svg|script))[\w./-]*$")
NAME = re.compile(r"(?:[^\W\d]\w*::)*([^\W\d]\w*(?:-\w+)*)$")
BESIDE = re.compile(r"((?:`[\w:]+`(?:, and |, | and | or )?)+)(?:,? in | \()`([\w./-]+\.(?:rt|antt|rs|java|c|h))`")
# What declares a name in a source: a word of the language before it, a variant or a field, or a lemma's signature.
DECLARES = (
    r"\b(?:fn|struct|enum|trait|type|mod|const|static|let|def|class|record|data|abbrev|unfoldable|ruleset|ensures|ghost|impl)\s+(?:pub )?%s\b|"
    r"^\s*(?:pub )?(?:const |inline )?%s\s*[:({,=]|^[\w*. ]+\b%s\("
)


@functools.cache
def sources():
    """The text of each source, by its path."""
    found = [path for folder in FOLDERS for path in (TOP / folder).rglob("*") if not {"out", "target"} & {*path.relative_to(TOP).parts}]
    return {path: path.read_text(errors="replace") for path in found if path.is_file() and path.suffix not in NO_SOURCES and path.stem != "check_pages"}


@functools.cache
def words():
    """The words of all sources, and the names of the mutants."""
    text = "\n".join([*sources().values(), (TOP / "check").read_text(), *(path.stem for path in sources())])
    return {*re.findall(r"[^\W\d]\w*", text), *re.findall(r"[^\W\d]\w*(?:-\w+)+", text)}


@functools.cache
def files_named(named, crate):
    """What a page may mean by a path: from the top, from crates/, from the crate that the paragraph is about, or else any."""
    near = [path for path in (TOP / named, TOP / "crates" / named, TOP / "crates" / (crate or "none") / named) if path.exists()]
    return near or [path for path in sources() if str(path).endswith("/" + named)] or [*TOP.glob(f"crates/*/{named}")]


def is_declared(name, files):
    """Whether a source declares a name; of `Type::function` the last part is looked for."""
    pattern = re.compile(DECLARES.replace("%s", re.escape(name.split("::")[-1])), re.MULTILINE)
    return any(pattern.search(sources().get(path, "")) for path in files)


def backquoted(cell):
    return re.findall(r"`([^`\n]+)`", cell)


def tables(page):
    """The rows of each table of a page, by the names of its columns."""
    columns = None
    for line in page.read_text().splitlines():
        cells = [cell.strip() for cell in re.split(r"(?<!\\)\|", line)[1:-1]]
        if cells and columns and not set(line) <= set("|- "):
            yield dict(zip(columns, cells))
        columns = (columns or cells) if cells else None


def paragraphs(page):
    """The paragraphs of a page without its code, each with the crate that it or one before it is about, and without names of other libraries."""
    text, crate = re.sub(r"^```.*?^```$", "", page.read_text(), flags=re.MULTILINE | re.DOTALL), None
    for paragraph in text.split("\n\n"):
        about = re.match(r"\*\*`(\w+)`\*\*", paragraph)
        crate = about[1] if about else None if paragraph.startswith("#") else crate
        yield re.sub(r"^\|[^|]*\|", "|", paragraph, flags=re.MULTILINE) if page.name == "migrate.md" else paragraph, crate


def check_names(page):
    for paragraph, crate in paragraphs(page):
        for token in (token for token in backquoted(paragraph) if page not in BINDINGS and not FOREIGN.match(token)):
            is_there = files_named(token, crate) if FILE.match(token) else not (found := NAME.match(token)) or found[1] in words()
            yield token, None if is_there else "in no source, or no file"
        for names, named in BESIDE.findall(paragraph):
            yield from ((name, None if is_declared(name, files_named(named, crate)) else f"not declared in {named}") for name in backquoted(names))
        own = [path for path in sources() if path.is_relative_to(TOP / "crates" / crate)] if crate and page.name == "proved.md" else []
        for name in re.findall(r"`(\w+)`", " ".join(re.findall(r"\(([^()]*)\)", paragraph))) if own else ():
            yield name, None if is_declared(name, own) or (TOP / "crates" / name).exists() else f"no clause of {crate}"
    for name, heading in re.findall(r"\]\((?!\w+:)([^)#]*)#?([^)]*)\)", page.read_text()):
        there = page.parent / name if name else page
        lines = re.findall(r"^#+ (.*)$", there.read_text(), flags=re.MULTILINE) if heading and there.exists() else ()
        headings = {re.sub(r"[^\w -]", "", line).lower().replace(" ", "-") for line in lines}
        yield f"{name}#{heading}", None if there.exists() and (not heading or heading in headings) else "leads nowhere"


def check_rows(page):
    """Each name of a row is declared in a file that the row, or `the same` of one before it, says."""
    files = []
    for row in tables(page):
        names, named = backquoted(row.get("Clause") or row.get("Name") or row.get("Function") or ""), backquoted(row.get("File", ""))
        files = [path for name in named for path in [*files_named(name, None), *(file.parent / name for file in files)]] or files
        yield from ((name, None if is_declared(name, files) else f"not declared in {named or 'the same'}") for name in names if "File" in row)


def check_form(page):
    """The code of a page is compiled (that for Rust as tests of the crate), a page of docs/ says for whom it is, and README.md is short."""
    text, blank = page.read_text(), re.compile(r"^\s+|[ \t]+$", re.MULTILINE)
    compiled = [blank.sub("", file.read_text()) for name in COMPILED for file in TOP.glob(name)]
    for block in re.findall(r"^```(?:rust|c|java)\n(.*?)^```$", text, flags=re.MULTILINE | re.DOTALL) if page.parent.name != "rust" else ():
        yield block, None if any(blank.sub("", block) in source for source in compiled) else "no file has it"
    yield "its opening", None if page.parent != DOCS or re.match(r"# .+\n\nThis page is for [^.]+\.\n\n", text) else "does not say for whom it is"
    yield "its length", None if page != README or text.count("\n") <= 90 else "more than 90 lines"


def defaults():
    """The defaults of the definitions, by the keys of TOML. That there is no table of abandoned objects is no key."""
    for name, kind, digits in re.findall(r"^ +(\w+) = ([a-z_]*) ?(\d*);$", (TOP / "crates/pool_settings/specs/Defaults.antt").read_text(), re.MULTILINE):
        key = "abandoned." * name.startswith("remove_abandoned") + re.sub(r"_(\w)", lambda letter: letter[1].upper(), name)
        if key != "abandoned":
            yield key, -int(digits) - 1 if kind == "negsuc" else int(digits) if digits else kind == "true"


def checks():
    for page in PAGES:
        yield from ((f"{page.name}: {name}", None, fault) for check in (check_names, check_rows, check_form) for name, fault in check(page))
    rows = [(key, row["Default"].strip("`")) for row in tables(DOCS / "settings.md") for key in backquoted(row.get("Key", "")) if key != "abandoned"]
    shown = tomllib.loads(re.sub(r"^#(?=\[abandoned\]$|\w+ = )", "", (TOP / "examples/settings.toml").read_text(), flags=re.MULTILINE))
    shown |= {f"abandoned.{key}": value for key, value in shown.pop("abandoned").items()}
    yield "docs/settings.md: the defaults", dict(defaults()), {key: tomllib.loads(f"x = {value}")["x"] for key, value in rows}
    yield "examples/settings.toml: the defaults", dict(defaults()), shown
    rust = tomllib.loads((TOP / "bindings/rust/Cargo.toml").read_text())["package"]["rust-version"]
    needed = f"Java {java.RELEASE} or later", f"Rust {rust} or later", f"Version {(TOP / 'VERSION').read_text().strip()} "
    yield "README.md: versions that it lacks", [], [version for version in needed if version not in README.read_text()]


if __name__ == "__main__":
    sys.exit(play_checks(checks()))

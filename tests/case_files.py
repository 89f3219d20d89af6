"""Reads and writes files of cases, in the format that CONTRIBUTING.md explains.

    case_files.py CASES.. FOLDER

unpacks the cases of the given files, and of all files below the given folders, to files that the program takes. Below FOLDER each case gets a folder
with `settings.toml`, and with those of these files that it has: `script`, `journal`, `error`, `statistics`; `claimed`, `verdict`; for each segment
`0.journal`, `0.statistics`, ..; `answer`.
"""

import dataclasses
import json
import pathlib
import re
import sys
import tomllib

from case_model import STATISTICS

TOP = pathlib.Path(__file__).resolve().parent.parent
CASES = TOP / "tests/cases"
# Bytes that are no part of UTF-8, as Python decodes them.
NO_TEXT = re.compile("([\udc80-\udcff])")


@dataclasses.dataclass
class Case:
    """A case: the texts of its files, and the texts that the program writes. One that it does not have is `None`, or empty. A change is the first
    and the last of the journal's lines that it replaces, from 1, and the text in their place. A segment is its text and its statistics."""

    name: str
    settings: bytes = b""
    answer: bytes | None = None
    journal: bytes | None = None
    rest: bytes = b""
    error: bytes | None = None
    statistics: bytes | None = None
    changes: list = dataclasses.field(default_factory=list)
    whole_claim: bytes | None = None
    segments: list = dataclasses.field(default_factory=list)
    verdict: bytes | None = None

    @property
    def script(self):
        """The script of the journal, with the lines that are read after it."""
        return script_of(self.journal) + self.rest

    @property
    def claimed(self):
        """The journal that is checked: a whole one, or that of the script with its changes. `None` if there is none."""
        if not self.changes:
            return self.whole_claim
        lines, start, parts = lines_of(self.journal), 0, []
        for first, last, text in self.changes:
            parts += [*lines[start : first - 1], text]
            start = last
        return b"".join([*parts, *lines[start:]])

    @property
    def is_run(self):
        """Whether the case is a script that the program runs to its end."""
        return self.journal is not None and self.error is None

    def files(self):
        """The files that the case has, by their names."""
        texts = {
            "settings.toml": self.settings, "answer": self.answer, "journal": self.journal, "error": self.error, "statistics": self.statistics,
            "script": None if self.journal is None else self.script, "claimed": self.claimed, "verdict": self.verdict,
        }
        for number, (text, statistics) in enumerate(self.segments):
            texts |= {f"{number}.journal": text, f"{number}.statistics": statistics}
        return {name: text for name, text in texts.items() if text is not None}


def lines_of(text):
    """The lines of a text, each with its line feed, which alone ends a line."""
    return re.findall(rb"[^\n]*\n|[^\n]+", text)


def script_of(journal):
    return b"".join(line.partition(b" = ")[0] + b"\n" for line in lines_of(journal))


def wanted_of(text):
    """What the program must do that writes this text: its output, what is on standard error, and its status."""
    if text.startswith(b"pool: "):
        return b"", text, 3
    return text, b"", 1 if text.startswith(b"illegal ") else 0


# Reading.


def bytes_of(value):
    """The bytes of a text, or of a list of texts and of bytes that are no text."""
    return b"".join(part.encode() if isinstance(part, str) else bytes([part]) for part in ([value] if isinstance(value, str) else value))


def line_of(value):
    return value.encode() + b"\n"


def statistics_text(value):
    """The nine lines of statistics of which those that aren't 0 are named, or the program's line."""
    if isinstance(value, str):
        return line_of(value)
    return "".join(f"{name} {value.get(name, 0)}\n" for name in STATISTICS).encode()


def case_of(name, table):
    """The case of a table."""
    texts = {"settings": "settings", "run": "journal", "rest": "rest", "claim": "whole_claim"}
    case = Case(name, **{field: bytes_of(table[key]) for key, field in texts.items() if key in table})
    for key in {"error", "verdict", "answer"} & set(table):
        setattr(case, key, line_of(table[key]))
    case.changes = [(first, last, bytes_of(text)) for first, last, text in table.get("changed", [])]
    if "segments" in table:
        case.segments = [*zip(map(bytes_of, table["segments"]), map(statistics_text, table["statistics"]), strict=True)]
    elif "statistics" in table:
        case.statistics = statistics_text(table["statistics"])
    return case


def read_file(path):
    """The heading of a file, which is lines that begin with '#', and its cases."""
    text = path.read_text()
    return re.match(r"(?:#.*\n)*", text)[0].splitlines(), [case_of(name, table) for name, table in tomllib.loads(text).items()]


def files_of(paths):
    """The files of cases among the paths, and below those that are folders."""
    for path in map(pathlib.Path, paths):
        yield from sorted(path.rglob("*.toml")) if path.is_dir() else [path]


def read_cases(*paths):
    """The cases of files, and of all files below folders. Their names begin with those of their files. With those of all files come the ones that
    make_cases.py makes from seeds."""
    for path in files_of(paths):
        whole = path.resolve().with_suffix("")
        name = whole.relative_to(CASES) if whole.is_relative_to(CASES) else path.stem
        yield from (dataclasses.replace(case, name=f"{name}/{case.name}") for case in read_file(path)[1])
    if CASES in (pathlib.Path(path).resolve() for path in paths):
        import make_cases

        yield from make_cases.seeded()


def unpacked(room, *paths):
    """The cases of files and of all files below folders, each with a folder below `room`, to which its files are written."""
    found = [(case, pathlib.Path(room) / case.name) for case in read_cases(*paths)]
    for case, folder in found:
        folder.mkdir(parents=True)
        for name, text in case.files().items():
            (folder / name).write_bytes(text)
    return found


# Writing.


def quoted(text):
    """A text as a string of TOML, with escapes."""
    return json.dumps(text, ensure_ascii=False).replace("\x7f", "\\u007f")


def written_text(text):
    """A text as a value of TOML: lines as they are, and else with escapes. In a list the bytes that are not UTF-8 stand between texts."""
    shown = text.decode(errors="surrogateescape")
    if NO_TEXT.search(shown):
        parts = (str(ord(part) - 0xDC00) if NO_TEXT.match(part) else quoted(part) for part in NO_TEXT.split(shown) if part)
        return f"[{', '.join(parts)}]"
    lines = shown.split("\n")
    if len(lines) > 1 and "'''" not in shown and all(line.isprintable() and not line.endswith(" ") for line in lines):
        return f"'''\n{shown}'''"
    return quoted(shown)


def written_line(text):
    return quoted(text.decode()[:-1])


def written_statistics(text):
    if text.startswith(b"pool: "):
        return written_line(text)
    counts = (line.split(" ") for line in text.decode().splitlines())
    return "{" + ", ".join(f"{name} = {count}" for name, count in counts if count != "0") + "}"


def written_list(values):
    return "[\n" + "".join(f"{value},\n" for value in values) + "]"


def written_case(case):
    """The lines of a case: its name, and each key that it has."""
    texts, statistics = zip(*case.segments) if case.segments else (None, None)
    changes = [f"[{first}, {last}, {written_text(text)}]" for first, last, text in case.changes]
    rows = [
        ("settings", written_text, case.settings if case.settings or case.answer is not None else None), ("run", written_text, case.journal),
        ("claim", written_text, case.whole_claim), ("rest", written_text, None if case.error is None else case.rest),
        ("error", written_line, case.error), ("statistics", written_statistics, case.statistics), ("changed", written_list, changes or None),
        ("segments", lambda texts: written_list(map(written_text, texts)), texts),
        ("statistics", lambda many: written_list(map(written_statistics, many)), statistics),
        ("verdict", written_line, case.verdict), ("answer", written_line, case.answer),
    ]
    yield from ("", f"[{case.name}]", *(f"{key} = {write(value)}" for key, write, value in rows if value is not None))


def written(heading, cases):
    """The text of a file with this heading and these cases."""
    return "\n".join([*heading, *(line for case in cases for line in written_case(case)), ""])


if __name__ == "__main__":
    unpacked(sys.argv[-1], *sys.argv[1:-1])

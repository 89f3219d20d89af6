"""Plays cases on the program without its proofs, and compares what it writes to standard output, and its statuses.

    play_unproved.py CASES..

The kit's `rt try` compiles the program once, and plays the cases on it. The plays are those of play_cases.py, without the statistics and the journals
with a wrong answer, since `rt try` takes half a second or so for each. What the program writes to standard error is not looked at. Without the kit all
of it is skipped.
"""

import pathlib
import re
import shutil
import sys

from case_files import unpacked
from play_cases import TEXT, plays
from playing import TOP, play_checks, run, scratch, skip_all, write_files

CASE = re.compile(r"^case=(\S+) run=(\S+)(?: status=(\d+))?.*? output=(\S+) proved=no$", flags=re.MULTILINE)
# What `rt try` says of a run that ended and wrote what is wanted.
RIGHT = "ended", "expected"
# The commands of the program that are played.
COMMANDS = ("run", "check")


def checks(paths):
    with scratch() as made:
        folder, data = made / "plays", []
        folder.mkdir()
        chosen = [play for play in plays(unpacked(made / "cases", *paths)) if play[1][0] in COMMANDS and TEXT not in play[1]]
        for number, (_, (command, *others, last), _, (output, _, _)) in enumerate(chosen):
            # The last file that the program reads is its input; the others that its words name get other names.
            names = {f"{number}.{place}": file for place, file in enumerate(others)}
            data += [word for name, file in names.items() for word in ("--data", f"{name}={file}")]
            words = "".join(f"{word}\n" for word in (command, *names, "{}")).encode()
            write_files(folder, {number: pathlib.Path(last).read_bytes(), f"{number}.args": words, f"{number}.stdout": output})
        done = run("rt", "try", *data, "--cases", folder, cwd=TOP / "crates/pool", text=True)
        found = {number: ((end, output), status) for number, end, status, output in CASE.findall(done.stderr)}
        if not found:
            print(done.stdout + done.stderr)
        for number, (case, arguments, _, (_, _, status)) in enumerate(chosen):
            yield f"{case}: {arguments[0]}", (RIGHT, str(status)), found.get(str(number))


def main(paths):
    if not shutil.which("rt"):
        return skip_all("the cases without proofs", "the Rattle kit's command rt is not on the PATH")
    return play_checks(checks(paths))


if __name__ == "__main__":
    sys.exit(main(sys.argv[1:]))

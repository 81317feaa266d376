#!/usr/bin/env python3
"""Runs each console block of README.md, docs/TOUR.md and docs/FETCHING.md, and compares what it prints.

All blocks of a page run in one shell, in a folder that has the examples and the program: $FEDBUNDLE, or the one that
./fedbundle runs. A line after `$ ` is a command, and the lines below it are what it prints, standard error as well. A
command that runs openssl is left out, if there is no openssl. The exit status is 1 if a
command prints anything else.
"""
import os
import subprocess
import sys
import tempfile
from pathlib import Path

sys.path.insert(0, str(Path(__file__).resolve().parent / "lib"))
from harness import HANG, find_program  # noqa: E402
from needs import can  # noqa: E402

TOP = Path(__file__).resolve().parent.parent
MARK = "=== end of a command ==="


def commands(page):
    """Each command of the page's console blocks, and what it has to print."""
    inside, found = False, []
    for line in page.read_text().splitlines():
        if line.startswith("```"):
            inside = line == "```console"
        elif inside and line.startswith("$ "):
            found.append((line[2:], []))
        elif inside:
            found[-1][1].append(line)
    return [(command, wanted) for command, wanted in found if "openssl" not in command or can("openssl", command)]


def run(page, room):
    """The commands of the page, each with what it has to print and what it printed."""
    asked = commands(page)
    script = "exec 2>&1\n" + "".join(f"{command}\necho '{MARK}'\n" for command, _ in asked)
    shell = subprocess.run(["bash", "-c", script], cwd=room, capture_output=True, text=True, timeout=HANG)
    printed = shell.stdout.split(MARK + "\n")
    return [(command, wanted, came.splitlines()) for (command, wanted), came in zip(asked, printed + [""] * len(asked))]


def main():
    faults, count, program = 0, 0, find_program()
    for page in [TOP / "README.md", TOP / "docs/TOUR.md", TOP / "docs/FETCHING.md"]:
        with tempfile.TemporaryDirectory() as room:
            os.symlink(TOP / "examples", Path(room) / "examples")
            os.symlink(program, Path(room) / "fedbundle")
            for command, wanted, came in run(page, room):
                count += 1
                if came != wanted:
                    faults += 1
                    print(f"{page.name}: $ {command}\n  wanted {wanted}\n  came   {came}")
    print(f"{count} commands of the pages, {faults} print something else")
    sys.exit(1 if faults or not count else 0)


if __name__ == "__main__":
    main()

#!/usr/bin/env python3
"""Plays the rows that `rt ci` does not run, and compares what comes of each with what is wanted.

Each program lies in tests/rows/programs, in files that end in .rt.txt, since `rt ci` takes a file that ends in .rt for a crate's. It is
copied next to the crates that it uses, and `rt try` compiles it with checks and runs it once on each of its cases: it stops at an
overflow, an index out of bounds, a failed unwrap or a bad access. Nothing is proved, and nothing that is built is used.

A case is a file of tests/rows/cases/PROGRAM. It is the program's standard input, its name up to a hyphen the argument, and the output has to
be that of the file NAME.stdout. Two cases are made of the rows `calls` and `exchange`: in `devices` and `exchange_devices` each read and each write
of a call fails in turn, whole, in pieces and byte by byte; in the second at six places of a text. Such a call has to return the error of
the device, or what it returns else; what it wrote has to be a beginning of what it writes else; and a `pull` has to hold what the whole
lines before say, and to tell their number.

It prints of each case how many rows are as wanted, or the lines that differ (- wanted, + came), what each program took of a processor,
and last how many cases are as wanted and how many not. It needs python3 and rt.

usage: play [--all] [CASE..]   the cases of these names, or all but those in LONG, which take minutes to hours; `few_schedules` is a part of the first; --all: those too. The status is 1 if a case is not as wanted
"""
import difflib
import re
import resource
import signal
import subprocess
import sys
from collections.abc import Callable
from dataclasses import dataclass
from functools import partial
from itertools import zip_longest
from pathlib import Path

sys.dont_write_bytecode = True
sys.path.insert(0, str(Path(__file__).resolve().parents[1] / "lib"))
from harness import stop, temporary  # noqa: E402
from refused_calls import OF_SESSIONS, OVER_DEVICES, Judge, tries  # noqa: E402
from scratch import crate_lines, files_of, lay_out, libraries  # noqa: E402

HERE = Path(__file__).resolve().parent
PROGRAMS, CASES = HERE / "programs", HERE / "cases"
# A case that takes so many seconds hangs.
SECONDS = "7200"
LONG = ["schedules", "errors", "closure-large", "exchange-large", "devices", "exchange_devices"]
# The rows under whose calls devices fail, at how many places of a text, and what they call.
DEVICES = {"devices": ("calls", 1_000, OVER_DEVICES), "exchange_devices": ("exchange", 6, OF_SESSIONS)}
MOST_LINES = 60
ENDED = re.compile(r"^case=(\S+) run=ended status=0 ", re.M)
ANSWERED = re.compile(r"^cases=\d+ .*proved=no$", re.M)


@dataclass(frozen=True)
class Case:
    """What a program is run on, and what is wrong with the lines that it prints."""

    name: str
    argument: str
    text: str
    faults: Callable

    def rows(self):
        return sum(not line.startswith(("#", "text ")) for line in self.text.splitlines() if line)


def blocks(lines):
    """The lines of each row: its own, and what came of it behind two spaces."""
    found = []
    for line in lines:
        if line.startswith("  ") and found:
            found[-1].append(line)
        else:
            found.append([line])
    return found


def differences(file, lines):
    """Each row of which something else came than the file has, and the lines that differ."""
    found = []
    for wanted, came in zip_longest(blocks(file.read_text().splitlines()), blocks(lines), fillvalue=[]):
        if wanted != came:
            changes = list(difflib.unified_diff(wanted, came, lineterm="", n=0))[2:]
            found += wanted[:1] if wanted[:1] == came[:1] else []
            found += [line for line in changes if not line.startswith("@@")]
    return found


def faults_of_devices(name, calls, lines):
    judge = Judge(refuses_memory=False)
    judge.read(name, "\n".join(lines))
    judge.see_devices(calls)
    return judge.faults


def stored_cases(program):
    for path in sorted((CASES / program).iterdir()):
        if path.suffix == "":
            wanted = path.with_name(f"{path.name}.stdout")
            yield Case(path.name, path.name.partition("-")[0], path.read_text(), partial(differences, wanted))


def cases_of(program):
    yield from stored_cases(program)
    if program == "rows":
        for name, (rows, places, calls) in DEVICES.items():
            lines = (CASES / program / rows).read_text().splitlines(keepends=True)
            yield Case(name, "calls", tries(lines, 0, 1, 1, places), partial(faults_of_devices, rows, calls))


def wanted_cases(program, is_all, names):
    return [case for case in cases_of(program) if (case.name in names if names else is_all or case.name not in LONG)]


def play(program, cases, room):
    """What the program printed of each case, by the case's name, and what `rt try` says of it."""
    used = libraries(crate_lines(PROGRAMS / "uses.txt")[program])
    folder = lay_out(room / program, program, used, files_of(PROGRAMS / program), with_built=False)
    given = room / f"{program}.cases"
    given.mkdir()
    for case in cases:
        (given / case.name).write_text(case.text)
        (given / f"{case.name}.args").write_text(f"{case.argument}\n")
    words = ["rt", "try", "--steps", "1", "--seconds", SECONDS, "--cases", given]
    run = subprocess.run(words, cwd=folder, stdin=subprocess.DEVNULL, capture_output=True, text=True, errors="replace")
    if not ANSWERED.search(run.stderr):
        stop(f"`rt try` ran nothing of {program}:\n{run.stderr[-4_000:]}")
    return printed_by_case(run.stdout, {case.name for case in cases}), run.stderr


def printed_by_case(text, names):
    """The lines that each case printed. `rt try` prints them below two signs and the case's name."""
    found, name = {}, None
    for line in text.splitlines():
        if line.startswith("== ") and line[3:] in names:
            name = line[3:]
            found[name] = []
        elif name:
            found[name].append(line)
    return found


def is_as_wanted(program, case, lines, said):
    faults = case.faults(lines)
    if not faults and case.name in ENDED.findall(said):
        print(f"{program}/{case.name}: {case.rows()} rows as wanted")
        return True
    print(f"{program}/{case.name} is not as wanted (- wanted, + came):")
    print(*(fault[:400] for fault in faults[:MOST_LINES]), sep="\n")
    print(*re.findall(rf"^(?:checked: .*\n)*case={case.name} .*", said, re.M), sep="\n")
    return False


def used_by_children():
    children = resource.getrusage(resource.RUSAGE_CHILDREN)
    return children.ru_utime + children.ru_stime


def judge(program, cases, room):
    """How many of the cases are as wanted."""
    before = used_by_children()
    printed, said = play(program, cases, room)
    right = [case for case in cases if is_as_wanted(program, case, printed.get(case.name, []), said)]
    print(f"{program}: {used_by_children() - before:.0f} s of a processor", flush=True)
    return len(right)


def main():
    # So that what was started ends too.
    signal.signal(signal.SIGTERM, lambda number, _: sys.exit(128 + number))
    is_all = "--all" in sys.argv[1:]
    names = {word for word in sys.argv[1:] if word != "--all"}
    wanted = {path.name: wanted_cases(path.name, is_all, names) for path in sorted(CASES.iterdir())}
    unknown = names - {case.name for cases in wanted.values() for case in cases}
    if unknown:
        stop(f"there is no case {min(unknown)}")
    with temporary() as room:
        right = sum(judge(program, cases, Path(room)) for program, cases in wanted.items() if cases)
    wrong = sum(map(len, wanted.values())) - right
    print(f"{right} cases as wanted, {wrong} not")
    sys.exit(1 if wrong else 0)


if __name__ == "__main__":
    main()

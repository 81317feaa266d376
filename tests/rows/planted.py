#!/usr/bin/env python3
"""Plants wrong bodies below the simulated replicas, and looks whether the search finds each.

Each of EDITS is a wrong body of crates/bucket_sums, which the prover refuses. Here it is planted in a copy of the crate, and the program
tests/rows/programs/simulation is compiled over it by `rt try`, which proves nothing. A search of at most a thousand schedules, compared with
the model after each step, has to end with a failure whose schedule has fewer than ten steps.

usage: planted [EDIT..]   the wrong bodies of these names, or all. The status is 1 if one is not found
"""
import re
import subprocess
import sys
from pathlib import Path

sys.dont_write_bytecode = True
sys.path.insert(0, str(Path(__file__).resolve().parents[1] / "lib"))
from harness import stop, temporary  # noqa: E402
from scratch import TOP, crate_lines, files_of, lay_out, libraries  # noqa: E402
from waves import pairs_of  # noqa: E402

PROGRAMS = TOP / "tests/rows/programs"
CRATE = "bucket_sums"
# A part that differs is not marked; records are left out though they differ; a sum stays that is of less than is held.
EDITS = ["part_that_differs_is_not_marked", "records_that_differ_are_left_out", "a_sum_stays_after_a_take"]
ROW = "search all 1 1000"
MOST_STEPS = 9
SECONDS = "7200"
FOUND = re.compile(r"^after (\d+) schedules, \d+ replicas: (.*)$")


def plant(repo, name):
    """Makes the wrong body in the copy of the crate."""
    for path, old, new in pairs_of(TOP / "crates" / CRATE / "edits" / f"{name}.edit"):
        file = repo / "crates" / CRATE / path
        file.write_text(file.read_text().replace(old, new))


def searched(room, name):
    """What the search printed over the wrong body, line by line."""
    used = libraries(crate_lines(PROGRAMS / "uses.txt")["simulation"])
    program = lay_out(room / name, "simulation", used, files_of(PROGRAMS / "simulation"), with_built=False)
    plant(room / name, name)
    words = ["rt", "try", "--steps", "1", "--seconds", SECONDS]
    run = subprocess.run(words, cwd=program, input=f"{ROW}\n", capture_output=True, text=True, errors="replace")
    if "run=ended status=0" not in run.stderr:
        stop(f"`rt try` ran nothing of {name}:\n{run.stderr[-4_000:]}")
    return [line.strip() for line in run.stdout.splitlines() if line.startswith("  ")]


def is_found(name, lines):
    found = FOUND.match(lines[0]) if lines else None
    if not found:
        print(f"{name} is not found: {' '.join(lines)[:400]}", flush=True)
        return False
    print(f"{name}: {found[2]}, after {found[1]} schedules, with {len(lines) - 1} steps: {', '.join(lines[1:])}", flush=True)
    return len(lines) - 1 <= MOST_STEPS


def main():
    names = sys.argv[1:] or EDITS
    with temporary() as room:
        bad = [name for name in names if not is_found(name, searched(Path(room), name))]
    print(f"{len(names) - len(bad)} wrong bodies found by fewer than ten steps, {len(bad)} not")
    sys.exit(1 if bad else 0)


if __name__ == "__main__":
    main()

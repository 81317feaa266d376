#!/usr/bin/env python3
"""Says which functions take longest to prove, and how long and how much memory each crate takes.

Each crate is proved from nothing by one job, as many side by side as there are processors and memory. The prover names each
function when it has checked it: the seconds of a processor since the one before are those of the function. So the first
function that needs a library below also bears the reading of it. The crates below must have been proved in this tree, as
`rt check` leaves them.

If other work runs on the machine, each function takes up to twice as long.

usage: proof-times [--most N] [CRATE..]    the N dearest functions, 50 if nothing is said; all crates if none is named
"""
import os
import re
import subprocess
import sys
from concurrent.futures import ThreadPoolExecutor
from pathlib import Path

sys.dont_write_bytecode = True
TOP = Path(__file__).resolve().parent.parent
sys.path.insert(0, str(TOP / "tests/lib"))
from prover import Prover, lanes  # noqa: E402

TICKS = os.sysconf("SC_CLK_TCK")
CHECKED = re.compile(r"^checked (\S+), \d+ of \d+$")


def stop(text):
    sys.exit(f"proof-times: {text}")


def seconds_of(process):
    """The seconds of a processor that a process has used, or None if it has ended."""
    try:
        numbers = Path(f"/proc/{process}/stat").read_text().rpartition(")")[2].split()
    except OSError:
        return None
    return (int(numbers[11]) + int(numbers[12])) / TICKS


def time_crate(prover, name):
    """The seconds of each function of a crate; those of the whole, and the most memory that it took, in GB."""
    folder, functions, said, last = prover.crates[name].folder, [], [], 0.0
    ran = subprocess.Popen(
        [*prover.words(name), "--progress"], cwd=folder, stdin=subprocess.DEVNULL, stdout=subprocess.PIPE,
        stderr=subprocess.STDOUT, text=True, errors="replace",
    )
    for line in ran.stdout:
        said.append(line)
        found, now = CHECKED.match(line), seconds_of(ran.pid)
        if found and now is not None:
            functions.append((now - last, found[1]))
            last = now
    _, status, used = os.wait4(ran.pid, 0)
    if status:
        stop(f"{name} is not proved:\n{''.join(said)[-2000:]}")
    return functions, used.ru_utime + used.ru_stime, used.ru_maxrss / 1e6


def main():
    words, most = sys.argv[1:], 50
    if words[:1] == ["--most"]:
        most, words = int(words[1]) if words[1:] and words[1].isdigit() else stop("--most takes a number"), words[2:]
    prover = Prover(TOP)
    unknown = [name for name in words if name not in prover.crates]
    if unknown:
        stop(f"crates.txt names no {unknown[0]}")
    names = words or list(prover.crates)
    lacking = sorted({below for name in names for below in prover.lacks(name)})
    if lacking:
        stop(f"`rt check` has to prove these first: {' '.join(lacking)}")
    # The longest first, so that none is left alone at the end.
    names = sorted(names, key=lambda name: -prover.crates[name].count(rb"\n"))
    with ThreadPoolExecutor(lanes()) as pool:
        times = dict(zip(names, pool.map(lambda name: time_crate(prover, name), names)))
    functions = sorted(((time, path) for found, _, _ in times.values() for time, path in found), reverse=True)
    print("seconds  function")
    for time, path in functions[:most]:
        print(f"{time:7.1f}  {path}")
    whole = sum(time for _, time, _ in times.values())
    print(f"\nthese take {sum(time for time, _ in functions[:most]):.0f} s of {whole:.0f} s\n\nseconds   GB  functions  crate")
    for name, (found, time, memory) in sorted(times.items(), key=lambda item: -item[1][1]):
        print(f"{time:7.1f}  {memory:3.1f}  {len(found):9}  {name}")


if __name__ == "__main__":
    main()

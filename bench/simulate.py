#!/usr/bin/env python3
"""Lets many replicas pull from each other until all hold the same, in one process: the rows `scale` of the program
tests/rows/programs/simulation, whose main.rt.txt has the form of a row. It prints the same for the same row.

The program is the one that $SIMULATION names, or else is proved and built below bench/out. For each row the script prints what the program
printed, the seconds that it took, and the most memory that it held.

usage: simulate [ROW..]     the rows below, if none is given
"""
import os
import subprocess
import sys
import tempfile
import time

from building import build_simulation

# Sessions with sums beside sessions by haves, and then other peers and rough weather.
ROWS = [f"scale {start} mesh calm 1 {replicas} 100 2" for replicas in (10, 100, 1_000) for start in ("sums", "haves")] + [
    "scale sums mesh calm 1 100 1000 2",
    "scale sums mesh rough 1 1000 100 2",
    "scale sums random rough 1 1000 100 2",
    "scale sums star rough 1 1000 100 2",
    "scale sums tree rough 1 1000 100 2",
    "scale sums ring rough 1 100 100 2",
]


def run(program, row):
    """Prints what comes of a row, and what it took. False if the program failed, or not all replicas agree."""
    with tempfile.TemporaryFile() as rows:
        rows.write(f"{row}\n".encode())
        rows.seek(0)
        start = time.monotonic()
        process = subprocess.Popen([program], stdin=rows, stdout=subprocess.PIPE)
        out = process.stdout.read().decode()
        _, status, usage = os.wait4(process.pid, 0)
        process.returncode = os.waitstatus_to_exitcode(status)
    print(out, end="")
    print(f"  {time.monotonic() - start:.0f} s, of a processor {usage.ru_utime + usage.ru_stime:.0f} s, "
          f"{usage.ru_maxrss / 1_024:,.0f} MiB", flush=True)
    replicas = row.split()[5]
    return process.returncode == 0 and f"{replicas} of {replicas} write" in out


def main():
    program = os.environ.get("SIMULATION") or build_simulation()
    bad = [row for row in sys.argv[1:] or ROWS if not run(program, row)]
    sys.exit(f"simulate: failed: {', '.join(bad)}" if bad else 0)


if __name__ == "__main__":
    main()

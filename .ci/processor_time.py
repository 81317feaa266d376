#!/usr/bin/env python3
"""Says where the gate's processor time goes: by crate, and by what the prover did for it.

.ci/proofs.py starts it beside `rt ci`. Five times a second it looks at the processes of the prover that the process above it
started, keeps the processor time of each by the crate and the work that its command line and folder name, and prints a
table at the signal that ends it, the dearest crate first. What a process used after the last look at it is lost: some
tenths of a second each.

usage: processor_time.py [PROCESS]    PROCESS is the number of another process above those of the prover
"""
import os
import signal
import sys
import time

TICKS = os.sysconf("SC_CLK_TCK")
WORKS = ["proof", "tests", "edits"]
PAUSE = 0.2


def work_of(words, folder):
    """What the prover does in a folder by these words: an edit is checked in a folder of its own."""
    if "/rt-edit-" in folder:
        return "edits"
    return "tests" if "--test" in words else "proof"


def numbers_of(process):
    """The numbers of /proc/N/stat behind the name of the program, which stands in brackets and may hold spaces."""
    with open(f"/proc/{process}/stat") as file:
        return file.read().rpartition(")")[2].split()


def is_below(process, top):
    """Whether the process, or one above it, was started by `top`."""
    while process not in ("0", "1"):
        process = numbers_of(process)[1]
        if process == top:
            return True
    return False


def look(process, top):
    """The crate, the work and the seconds of a process of the prover below `top`, or None of any other."""
    if os.path.basename(os.readlink(f"/proc/{process}/exe")) != "rattle" or not is_below(process, top):
        return None
    with open(f"/proc/{process}/cmdline", "rb") as file:
        words = file.read().decode(errors="replace").split("\0")
    if "--crate-name" not in words:
        return None
    numbers = numbers_of(process)
    crate = words[words.index("--crate-name") + 1]
    seconds = (int(numbers[11]) + int(numbers[12])) / TICKS
    return (process, numbers[19]), crate, work_of(words, os.readlink(f"/proc/{process}/cwd")), seconds


def look_at_all(seen, top):
    """Notes the processor time of each process of the prover, by its number and the moment when it began."""
    for process in filter(str.isdigit, os.listdir("/proc")):
        try:
            found = look(process, top)
        except (OSError, IndexError):
            # It ended while it was looked at.
            continue
        if found:
            seen[found[0]] = found[1:]


def print_table(seen):
    sums = {}
    for crate, work, seconds in seen.values():
        sums.setdefault(crate, dict.fromkeys(WORKS, 0.0))[work] += seconds
    print(f"{'processor seconds of the prover':32}" + "".join(f"{work:>8}" for work in [*WORKS, "all"]))
    for crate, parts in sorted(sums.items(), key=lambda item: -sum(item[1].values())):
        numbers = [*parts.values(), sum(parts.values())]
        print(f"{crate:32}" + "".join(f"{number:8.0f}" for number in numbers))
    totals = [sum(parts[work] for parts in sums.values()) for work in WORKS]
    print(f"{'all crates':32}" + "".join(f"{number:8.0f}" for number in [*totals, sum(totals)]), flush=True)


def main():
    signal.signal(signal.SIGTERM, lambda *_: sys.exit())
    top = sys.argv[1] if len(sys.argv) > 1 else str(os.getppid())
    seen = {}
    try:
        while True:
            look_at_all(seen, top)
            time.sleep(PAUSE)
    finally:
        print_table(seen)


if __name__ == "__main__":
    main()

#!/usr/bin/env python3
"""Proves and builds the program, and says how far it is and how long it took. `./fedbundle --prove` starts it.

`rt` proves the crates that the program uses where they are, those that do not use one another side by side: as many as there are
processors, and 4 GB of free memory for each. The program's own crate comes last, with nothing beside it. What is proved stays in out/
of each crate, however this ends, so the next build proves only what is left or has changed. `rt` keeps other runs of its own out of
these crates meanwhile, and waits for one that works there. The program and the names of its crates, which ./fedbundle watches,
are put into place last.

The program runs on processors of the level x86-64-v2 (D-142, D-394), as the toolchain builds programs if nothing is said; the gate builds
the same. With FEDBUNDLE_CPU=x86-64 it runs on older ones too; with x86-64-v3 it is only for newer ones. The proofs are the same.

usage: build
"""
import fcntl
import os
import shutil
import subprocess
import sys
import time
from pathlib import Path

TOP = Path(__file__).resolve().parent.parent
PROGRAM = "fedbundle_cli"
CRATE = TOP / "crates" / PROGRAM
OUT = CRATE / "out"
LEVELS = ["x86-64-v2", "x86-64", "x86-64-v3"]
GB = 1_000_000_000
MEMORY_OF_A_CHECK = 4
# Of runs from nothing on 2026-11-29: the memory of the program's own crate, the minutes of a processor of all crates, and of
# those that wait for one another.
MEMORY_OF_THE_PROGRAM = 10
MINUTES, MINUTES_IN_TURN = 150, 60
# Ends with this process, however that ends. What `rt` starts ends with it.
RT = ["setpriv", "--pdeathsig", "TERM", "rt"]


def say(text):
    print(f"fedbundle: {text}", file=sys.stderr, flush=True)


def stop(text):
    say(text)
    sys.exit(1)


def shown(seconds):
    minutes, seconds = divmod(round(seconds), 60)
    return f"{minutes} min {seconds} s" if minutes else f"{seconds} s"


def wanted_cpu():
    """The processors that the program is to run on."""
    cpu = os.environ.get("FEDBUNDLE_CPU") or LEVELS[0]
    if cpu not in LEVELS:
        stop(f"FEDBUNDLE_CPU is none of {', '.join(LEVELS)}")
    return cpu


def crates():
    """The names of the program's crate and of all that it uses."""
    lines = [line.split(":") for line in (TOP / "crates.txt").read_text().splitlines() if line[:1] not in ("", "#")]
    used = {head.split()[0]: names.split() for head, names in lines}
    found = [PROGRAM]
    for name in found:
        found += [below for below in used[name] if below in used and below not in found]
    return found


def free_memory():
    """The memory that is free, in GB."""
    return next(int(line.split()[1]) * 1024 // GB for line in open("/proc/meminfo") if line.startswith("MemAvailable:"))


def plan(names):
    """Says what the proofs will want, and returns how many are made side by side."""
    free = free_memory()
    lanes = max(1, min(len(os.sched_getaffinity(0)), free // MEMORY_OF_A_CHECK))
    kept = sum((TOP / "crates" / name / "out/rlib/stamp").exists() for name in names)
    say(f"proving {len(names)} crates, {lanes} at a time; earlier runs proved {kept} of them, which holds if nothing below changed")
    most = max(MEMORY_OF_THE_PROGRAM, lanes * MEMORY_OF_A_CHECK)
    say(f"from nothing this takes {max(MINUTES // lanes, MINUTES_IN_TURN)} minutes or more and up to {most} GB of memory; {free} GB are free")
    if free < MEMORY_OF_THE_PROGRAM:
        say(f"the check of {PROGRAM} takes up to {MEMORY_OF_THE_PROGRAM} GB by itself: it may be killed")
    return lanes


def prove(names, lanes):
    """Proves all crates, with a line for each."""
    start = time.monotonic()
    said, done = [], 0
    how = {"cwd": CRATE, "stdin": subprocess.DEVNULL, "stdout": subprocess.PIPE, "stderr": subprocess.STDOUT}
    with subprocess.Popen([*RT, "all", "check", "--jobs", str(lanes)], text=True, errors="replace", **how) as ran:
        for line in ran.stdout:
            said.append(line)
            # rt prints what it said of a crate once it is through with it.
            if line.startswith("== ") and line != "== summary\n":
                done += 1
                say(f"[{done}/{len(names)}] {line[3:].strip()}, {shown(time.monotonic() - start)}")
            elif line.startswith("rt: waiting"):
                say(line.strip())
    if ran.returncode:
        print("".join(said[-200:]), file=sys.stderr)
        stop(f"not proved, so nothing is built: rt ended with {ran.returncode}")


def build(made, cpu):
    """Builds the proved program, and runs it once."""
    how = {"cwd": CRATE, "stdin": subprocess.DEVNULL, "capture_output": True}
    ran = subprocess.run([*RT, "run", "--cpu", cpu, "--", "--version"], text=True, errors="replace", **how)
    if ran.returncode:
        stop(f"the program is not built:\n{ran.stdout}{ran.stderr}")
    # A copy, so that the program has its own name in what it prints.
    shutil.copy2(OUT / PROGRAM, made)


def main():
    if not shutil.which("rt"):
        stop("rt, the command of the Rattle toolchain, is not on PATH")
    start, names, cpu = time.monotonic(), crates(), wanted_cpu()
    OUT.mkdir(exist_ok=True)
    # One build at a time; it ends with this process.
    lock = open(OUT / "build.lock", "w")
    fcntl.flock(lock, fcntl.LOCK_EX)
    made, stamp = OUT / "fedbundle.new", OUT / "fedbundle.built.new"
    stamp.write_text("".join(f"{line}\n" for line in [f"cpu={cpu}", *names]))
    prove(names, plan(names))
    build(made, cpu)
    os.replace(made, OUT / "fedbundle")
    os.replace(stamp, OUT / "fedbundle.built")
    say(f"proved and built in {shown(time.monotonic() - start)}")


if __name__ == "__main__":
    main()

#!/usr/bin/env python3
"""Says what a gate costs in a unit of its own, so that costs of two machines can be compared.

The unit is the processor time of one fixed proof, that of the crate `spiffe_name` from nothing: its check as one job,
alone, in a copy that has no out/ (D-220). One processor takes 40 s for it and another 90. So minutes say little, and the same
gate is about as many units on both. Where `spiffe_name` itself or the kit changes, the unit does too.

usage: units.py time      proves the unit, and prints its seconds of a processor

`cost` prints, for .ci/proofs.py, the crates with their units, the dearest first, which of them were proved in this run and
which an earlier run on this machine had proved, and the whole. Only a run that did every proof is called whole: each run that
passed does under a kit whose `rt ci` keeps nothing, and under one that does it says so. It stops if a whole run is above MOST
units, or if something cannot be read, and `time` if the unit is not proved.
"""
import re
import resource
import shutil
import subprocess
import sys
import tempfile
from pathlib import Path

TOP = Path(__file__).resolve().parent.parent
CRATE = "spiffe_name"
PARTS = ["src", "specs", "proofs"]
# The units above which a whole run fails. The first that was measured, on 2026-11-30, was 364; a day later two runs that
# together proved each crate once took 229.
MOST = 300
# What `rt ci` says at its end if nothing was taken over from an earlier run, under a kit that keeps what it proved; and
# the word of `rt help` by which such a kit is known.
ALL_DONE = "every proof and must-fail edit was done in this run"
KEEPS = "--anew"


def stop(text):
    sys.exit(f"units: {text}")


def line_of(crate):
    lines = (TOP / "crates.txt").read_text().splitlines()
    return next(line for line in lines if line.split(":")[0].split()[:1] == [crate])


def copy_unit(room):
    """A repository of the one crate, without anything that a check kept."""
    for part in PARTS:
        shutil.copytree(TOP / "crates" / CRATE / part, room / "crates" / CRATE / part)
    shutil.copy(TOP / "HANDLES", room)
    (room / "crates.txt").write_text(line_of(CRATE) + "\n")


def time_unit():
    with tempfile.TemporaryDirectory() as name:
        copy_unit(Path(name))
        # It takes nothing from out/, nor from what other checkouts kept.
        ran = subprocess.run(
            ["rt", "verdict", "--jobs", "1"], cwd=f"{name}/crates/{CRATE}", stdin=subprocess.DEVNULL,
            stdout=subprocess.PIPE, stderr=subprocess.STDOUT, text=True, errors="replace",
        )
    if ran.returncode:
        stop(f"{CRATE} is not proved, so there is no unit:\n{ran.stdout[-2000:]}")
    used = resource.getrusage(resource.RUSAGE_CHILDREN)
    print(f"{used.ru_utime + used.ru_stime:.1f}")


def read_table(text):
    """The seconds of each crate: of its proof, of its tests, of its wrong bodies, and of all three."""
    rows = re.findall(r"^(\w+) +(\d+) +(\d+) +(\d+) +(\d+)$", text, re.M)
    if not re.search(r"^all crates ", text, re.M):
        stop("the table of processor time is not whole")
    return {crate: [int(number) for number in numbers] for crate, *numbers in rows}


def keeps_work():
    """Whether `rt ci` takes over what an earlier run proved."""
    ran = subprocess.run(["rt", "help"], stdin=subprocess.DEVNULL, capture_output=True, text=True)
    return KEEPS in ran.stdout + ran.stderr


def read_log(text):
    """The crates that `rt ci` proved, those that it took over, and whether it passed and took nothing over."""
    kept = set(re.findall(r"^rt: (\w+) is kept: ", text, re.M))
    proved = set(re.findall(r"^rt: (\w+) proved$", text, re.M))
    passed = [line for line in text.splitlines() if line.startswith("rt: ok;")]
    return proved, kept, bool(passed) and (ALL_DONE in passed[-1] or not keeps_work())


def units(seconds, unit):
    return f"{seconds / unit:8.2f}"


def print_crates(table, unit, kept):
    print(f"{f'units of {unit:.1f} s':32}" + "".join(f"{work:>8}" for work in ["proof", "tests", "edits", "all"]))
    for crate, numbers in sorted(table.items(), key=lambda item: -item[1][-1]):
        print(f"{crate:32}" + "".join(units(number, unit) for number in numbers) + "  kept" * (crate in kept))


def cost(unit, table, log, used, scripts):
    """UNIT: the seconds that `time` printed. TABLE: what processor_time.py printed. LOG: what `rt ci` printed. USED: the
    seconds of processors that it used in all. SCRIPTS: those of what was run after it."""
    proved, kept, is_whole = read_log(log)
    seen = sum(numbers[-1] for numbers in table.values())
    print_crates(table, unit, kept)
    print(f"{'what is not of the prover':32}{'':24}{units(max(0, used - seen), unit)}")
    print(f"{'the scripts and wrong bodies':32}{'':24}{units(scripts, unit)}")
    print(f"proved in this run: {len(proved)} crates{''.join(f' {name}' for name in sorted(proved))}")
    print(f"kept from an earlier run: {len(kept)} crates{''.join(f' {name}' for name in sorted(kept))}")
    whole = "the whole gate" if is_whole else "a part of the gate, since not all was proved and tried in this run"
    all_units = (used + scripts) / unit
    print(f"{all_units:.1f} units of {unit:.1f} s of a processor: {whole}")
    if is_whole and all_units > MOST:
        stop(f"that is above {MOST} units")


def main():
    if sys.argv[1:] != ["time"]:
        stop("usage: units.py time")
    time_unit()


if __name__ == "__main__":
    main()

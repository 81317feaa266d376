"""Measures the library for C in a process of its own, next to the command `report` and plain Rust.

A program in C opens a replica, takes the receipts of a file one by one, and makes the report some times. Plain Rust does
the same in its own process. The command is run whole: its start, reading the input and one report are in its time. All
three have to write the same report.

arguments: [RUNS [SIZE..]]      RUNS is the number of runs of each program on each stream, 5 if left out; the sizes are 4096 and
                            16384 receipts, if none is given. $FEDBUNDLE_PREFIX has what tools/library.sh made, which else is
                            made below bench/out.
"""
import os
import subprocess
import tempfile
from pathlib import Path

from building import BENCH, OUT, TOP, build_peer, find_program, run_timed, stop
from measures.report import streams, write_stream

REPORTS = 20
SHAPES = {("realistic", "chain"), ("tiny", "chain"), ("tiny", "tree shuffled")}
ROW = "{:<10} {:<14} {:>8} | {:>9} {:>9} {:>6} | {:>10} {:>10} {:>6} | {:>9}"


def built_library():
    """The place of the library."""
    prefix = os.environ.get("FEDBUNDLE_PREFIX")
    if not prefix:
        prefix = OUT / "library"
        if subprocess.run([TOP / "tools/library.sh", prefix]).returncode:
            stop("tools/library.sh fails")
    return Path(prefix)


def build_c(prefix):
    program = OUT / "library_c"
    OUT.mkdir(exist_ok=True)
    words = ["cc", "-O2", "-Wall", "-Wextra", "-Werror", f"-I{prefix}/include", "-o", program, BENCH / "programs/library.c"]
    if subprocess.run([*words, prefix / "lib/libfedbundle.a"]).returncode:
        stop("the program in C is not built")
    return program


def timed(words):
    """The report, and the seconds for all takes and for one report."""
    done = subprocess.run(list(map(str, words)), capture_output=True)
    if done.returncode:
        stop(done.stderr.decode())
    takes, reports = map(int, done.stderr.split())
    return done.stdout, takes / 1e9, reports / 1e9 / REPORTS


def main(words):
    runs = int(words[0]) if words else 5
    sizes = [int(size) for size in words[1:]] or [4_096, 16_384]
    ours, plain, command = build_c(built_library()), build_peer("report", soft=True), find_program()
    print(f"Takes and reports a second, best of {runs} runs of each, in turns; the ratio is plain Rust's over the library's. Last")
    print("the milliseconds of a processor for the command on the same receipts.\n")
    print(ROW.format("bundles", "shape", "receipts", "takes/s", "plain", "ratio", "reports/s", "plain", "ratio", "command"))
    with tempfile.TemporaryDirectory() as name:
        folder = Path(name)
        for bundles, shape, size, documents, receipts in streams(sizes):
            if (bundles, shape) not in SHAPES:
                continue
            config, path = write_stream(folder, documents, receipts)
            found = []
            for _ in range(runs):
                by_library = timed([ours, config, path, REPORTS])
                by_plain = timed([plain, config, REPORTS, path])
                text, used, _ = run_timed([command, "report", "--config", config], path)
                if not by_library[0] == by_plain[0] == text:
                    stop(f"the programs write different reports for the {shape} of {size} receipts, {bundles}")
                found.append((*by_library[1:], *by_plain[1:], used))
            takes, report, plain_takes, plain_report, used = map(min, zip(*found))
            print(ROW.format(bundles, shape, size, f"{size / takes:,.0f}", f"{size / plain_takes:,.0f}",
                             f"{takes / plain_takes:.2f}", f"{1 / report:,.1f}", f"{1 / plain_report:,.1f}",
                             f"{report / plain_report:.2f}", f"{used * 1e3:.1f}"), flush=True)
    print("\nAll programs wrote the same report for each stream.")

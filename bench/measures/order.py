"""Measures `sorted_order` and one sorted vector in plain Rust, both built here and run in turn.

arguments: [RUNS]      RUNS is the number of runs of each program, of which the one with the least time of the insertions
                   counts; 5 if left out
"""
from building import build_ours, build_peer, run, stop

SIZES = [4_096, 65_536, 131_072]
TIMED = 8_192
SMALL = 16


class Best:
    """The times of the run in which the insertions took least, and the sums, which are the same in all runs."""

    def __init__(self):
        self.times = [float("inf")]
        self.sums = set()

    def add(self, numbers, _held):
        _, *times, walked, read = numbers
        self.times = min(self.times, times)
        self.sums.add((walked, read))


def measure(programs, size, runs):
    found = [Best() for _ in programs]
    for _ in range(runs):
        for best, program in zip(found, programs):
            best.add(*run(program, [size]))
    if len(found[0].sums | found[1].sums) != 1:
        stop(f"{size}: the answers differ, {[best.sums for best in found]}")
    return [best.times for best in found]


def main(words):
    runs = int(words[0]) if words else 5
    programs = build_ours("order", "sorted_order", words=[str(SMALL)]), build_peer("order")
    print("numbers | blocks: ns an insertion, ns a number of a walk, ns a read by place | one vector: the same | "
          "ratio of insertions")
    for size in SIZES:
        found = measure(programs, size, runs)
        cells = [f"{put / TIMED:.0f}, {walk / (size + TIMED):.2f}, {reads / TIMED:.1f}" for put, walk, reads in found]
        print(f"{size} | {cells[0]} | {cells[1]} | {found[0][0] / found[1][0]:.2f}", flush=True)

"""Measures the index `wait_index` and the same net in plain Rust, both built here and run in turn.

arguments: [RUNS]      RUNS is the number of runs of each program on each net, of which the least times count; 7 if left out
"""
from building import build_ours, build_peer, run, stop

SHAPES = ["chain", "reversed", "star", "random"]
SIZES = [65_536, 1_048_576]
SMALL = 16
STEPS = ["building", "marking", "closing"]


class Best:
    """The least times of the runs on one net, and what is the same in all of them."""

    def __init__(self):
        self.times = [float("inf")] * 3
        self.counts = None
        self.held = 0

    def add(self, numbers, held):
        built, offers, waits, marked, visits, closed, turns = numbers
        self.times = [min(old, new) for old, new in zip(self.times, [built, marked, closed])]
        self.counts = [offers + waits, visits, turns]
        self.held = held


def measure(programs, shape, size, runs):
    found = [Best() for _ in programs]
    for _ in range(runs):
        for best, program in zip(found, programs):
            best.add(*run(program, [shape, size]))
    return found


def main(words):
    runs = int(words[0]) if words else 7
    ours = build_ours("reach", "wait_index", words=["chain", str(SMALL)])
    programs = ours, build_peer("reach", cpu="x86-64-v2")
    print("ns for each edge built, visit of marking, turn of closing: index, plain Rust, ratio; bytes held for each "
          "node with its label and edges")
    for size in SIZES:
        for shape in SHAPES:
            ours, theirs = measure(programs, shape, size, runs)
            if ours.counts != theirs.counts:
                stop(f"{shape} {size}: {ours.counts} and {theirs.counts} differ")
            steps = []
            for step, count, a, b in zip(STEPS, ours.counts, ours.times, theirs.times):
                steps.append(f"{step} {a / count:.1f} {b / count:.1f} {a / b:.2f}")
            # What a process holds before it has a net shows in a small one.
            if size == SIZES[-1]:
                steps.append(f"bytes {ours.held / size:.0f} {theirs.held / size:.0f} {ours.held / theirs.held:.2f}")
            counts = "{} edges, {} visits, {} turns".format(*ours.counts)
            print(f"{shape} {size} ({counts}): {', '.join(steps)}", flush=True)

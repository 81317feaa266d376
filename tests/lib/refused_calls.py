"""Judges what the rows of calls print when memory is refused inside a call, or a device fails under it: `calls` of the program of
tests/rows/programs/rows. tests/system/calls.py refuses memory; tests/rows/play.py has devices fail."""
import re
from collections import Counter, defaultdict

from harness import shown

# What a call returns when memory runs out. The others ask for none.
NO_MEMORY = {
    "take": ["G4 NoMemory"],
    "merge": ["G4 NoMemory"],
    "reserve": ["no memory"],
    "observe": ["O6 Take G4 NoMemory"],
    "absorb": ["S10 NoMemory"],
    "snapshot": ["S10 NoMemory"],
    "have": ["S10 NoMemory"],
    "conflicts": ["no memory"],
    "explain": ["no memory"],
    "report": ["V2 NoMemory"],
    "config": ["C9 NoMemory"],
    "document": ["B8 NoMemory"],
    "receipt": ["L3 NoMemory"],
    "question": ["S10 NoMemory"],
    "answers": ["S10 NoMemory"],
    "world": ["no memory"],
}
WITHOUT_MEMORY = ["take_within_room", "take_all_within_room", "distrust", "answer"]
# What the calls are in the library, where they have another name there.
NAMES = {
    "snapshot": "read_snapshot",
    "config": "Config::read",
    "document": "Document::read",
    "receipt": "Receipt::read_line",
    "question": "read_have",
    "answers": "read_give",
    "world": "run_world",
    "report": "write_report",
    "reserve": "try_reserve",
    "serve": "serve_one",
}
OF_SESSIONS = ["snapshot", "write_snapshot", "serve", "pull"]
OVER_DEVICES = [*OF_SESSIONS, "run_report", "run_report_complaints"]
# Lines that say something else to the rows of calls than to the rows that they are of.
OTHER_VERBS = re.compile(r"tries |reserve \d")
# A row of `absorb` whose receipts are all held: it does without the memory that it is refused.
BRINGS_NOTHING = "absorb one_domain both_receipts "
# A wrong body, and what is printed where a call left half a change.
LEAK = "leak"
TRACE = ", with a trace: "
# What is printed of a row for which no call can be made.
NO_CALL = "no call is made: its text is refused before"

HEAD = re.compile(r"  (\w+) over (no closure|rounds|the exchange|the index): (?:(\d+) allocations: )?(.*)")
DEVICES = re.compile(r"  devices of (\w+) over (rounds|the exchange|the index|its own): .*")
TRIED = re.compile(r"  (once|lasting) (\d+) to (\d+), (\d+) tried: (.*)")
FAILED = re.compile(r"  (reads of . bytes?|whole reads|writes|writes of 1 byte) (\d+) to (\d+), (\d+) tried: (.*)")


def tries(lines, part, parts, step, places, offset=0):
    """The script that tries a part of these rows, as the head of the rows of calls says."""
    return f"tries {part} {parts} {step} {places} {offset}\n" + "".join(line for line in lines if not OTHER_VERBS.match(line))


class Judge:
    """What was tried of each call, and what was wrong: `refuses_memory` says whether allocations are counted and refused, or
    only devices fail."""

    def __init__(self, refuses_memory):
        self.refuses_memory = refuses_memory
        # Of each call, the rows and the closures over which it is made.
        self.rows = defaultdict(set)
        self.tried, self.refused, self.wrong = Counter(), Counter(), Counter()
        self.leaks = set()
        self.faults = []

    def fault(self, call, what):
        self.wrong[call] += 1
        self.faults.append(f"{call}: {what}")

    def read(self, script, text):
        row, call, over, is_of_devices = "", "", "", False
        for line in text.splitlines():
            if not line.startswith("  "):
                row = f"{script}: {shown(line)}"
            elif found := HEAD.fullmatch(line):
                call, over, is_of_devices = found[1], found[2], False
                self.head(call, over, found[3], row)
            elif found := DEVICES.fullmatch(line):
                call, is_of_devices = f"devices of {found[1]}", True
            elif call == LEAK and (found := TRIED.fullmatch(line)):
                self.leaks |= {(over, found[1])} if found[5].startswith("G4 NoMemory" + TRACE) else set()
            elif found := (FAILED if is_of_devices else TRIED).fullmatch(line):
                self.count(call, is_of_devices, found, row)
            elif line.strip() != NO_CALL:
                self.fault(call or "rows", f"{row} prints {shown(line)}")

    def head(self, call, over, allocations, row):
        self.rows[call].add((row, over))
        if allocations is None:
            if self.refuses_memory:
                self.fault(call, f"{row}: nothing counts allocations")
        elif call in WITHOUT_MEMORY and allocations != "0":
            self.fault(call, f"{row}: asks {allocations} times for memory")

    def count(self, call, is_of_devices, found, row):
        tried, outcome = int(found[4]), found[5]
        self.tried[call] += tried
        if is_of_devices:
            same, refusals = "as over devices that never fail", ["the error of the device"]
        else:
            same, refusals = "as without a refusal", NO_MEMORY.get(call, [])
            if call == "absorb" and BRINGS_NOTHING in row:
                refusals = []
        if outcome in refusals:
            self.refused[call] += tried
        elif outcome != same:
            self.fault(call, f"{row}: {found[1]} {found[2]} to {found[3]}: {outcome}")

    def see_all(self):
        """Calls that nothing was tried of, or that never failed, are wrong too."""
        self.see_refused(NO_MEMORY)
        self.see_devices(OVER_DEVICES)
        for call in WITHOUT_MEMORY:
            if not self.rows[call]:
                self.fault(call, "is never made")
        for over in ["rounds", "the exchange", "the index"]:
            for how in ["once", "lasting"]:
                if (over, how) not in self.leaks:
                    self.fault(LEAK, f"is not found over {over}, refused {how}")

    def see_devices(self, calls):
        self.see_refused(f"devices of {call}" for call in calls)

    def see_refused(self, calls):
        for call in calls:
            if not self.refused[call]:
                self.fault(call, "is never refused")

    def table(self):
        for call in [*NO_MEMORY, *WITHOUT_MEMORY, *(f"devices of {call}" for call in OVER_DEVICES)]:
            name = " ".join(NAMES.get(word, word) for word in call.split())
            made = f"{len(self.rows[call])} rows, " if self.rows[call] else ""
            yield f"{name}: {made}{self.tried[call]} refusals, {self.refused[call]} errors; {self.wrong[call]} wrong"

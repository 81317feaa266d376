#!/usr/bin/env python3
"""Refuses each allocation inside each call of the library in turn, alone and with all later ones, and has each read and
each write of a call over devices fail in turn.

The part `calls` of tests/rows/programs/rows makes the calls, with its own rows and those of the other parts and row programs as
their data. It is proved and built as a program of its own, since memory is refused under a program as it is used. inject.c is preloaded; the program tells it where a call begins and ends, and which allocation inside it to refuse. What
is wanted:
- a call whose allocation is refused returns its own error for that, or what it returns else;
- after that error a replica holds what it held, byte for byte, and the same call again returns what it returns else;
- `take` within room, `distrust` and `answer` ask for no memory, and with it neither of them fails;
- `absorb` of receipts that are all held never runs out of memory;
- a call whose device fails returns the device's error, or what it returns else; what it wrote is a beginning of what it
  writes else; and a `pull` holds what the whole lines before say, and tells their number;
- 100 distrusts and 1,000 takes within room that was reserved ask for no memory, and neither do 1,000 takes of a chain whose
  documents each offer a key of their own, in the order in which the last receipt releases all;
- a receipt's line that is canonical is read directly, and not by the tree of a JSON value;
- a wrong body, `leak`, which is out of memory once it has taken a receipt, is found: what the replica holds is not what
  it held.
The program is the one that $CALLS names. Else it is proved and built below tests/rows/out, where it stays: ten minutes, and with no
library proved before an hour and more. `.ci/run` does neither; tests/rows/play.py has the devices fail there.

It needs python3, cc and nm, and rt where the program is not built.

usage: calls [all [ROWS..]]   each allocation and each place at which a device fails, over the rows `calls`, and for a minute also over
    the rows `receipt`, `closure` and `exchange`, of which it says how many parts it tried; with `all` over all of these, and every
    seventh allocation and six places over the rows of floor_rows and command_rows, or over the named ones alone, which takes long:
    each part that ends is told on standard error.

    A row that makes many allocations, as one of 4,096 records does, is cut into shares of some 100 of them, so that no part takes
    long: each try builds a replica again. Of a row that makes more than 10,000, 1,000 are refused, evenly spread, and the last:
    each of them would take days. A part that takes an hour is wrong. The status is 1 where a call is wrong
"""
import base64
import hashlib
import os
import subprocess
import sys
import time
from collections import Counter
from concurrent.futures import ThreadPoolExecutor
from dataclasses import dataclass, replace
from pathlib import Path

sys.dont_write_bytecode = True
sys.path.insert(0, str(Path(__file__).resolve().parents[1] / "lib"))
from harness import TOP, build_library, shown, stop, temporary  # noqa: E402
from refused_calls import HEAD, Judge, tries  # noqa: E402
from scratch import crate_lines, files_of, lay_out, libraries  # noqa: E402

ROWS = TOP / "tests/rows"
OWN_ROWS = ROWS / "cases/rows/calls"
WHOLE_ROWS = {name: ROWS / "cases/rows" / name for name in ["receipt", "closure", "exchange"]}
OTHER_ROWS = {name: TOP / "crates" / name / "stdin" for name in ["floor_rows", "command_rows"]}
# A script of the own rows is tried in so many parts, one of the others in more, since each part is to end within a minute.
PARTS, SHORT_PARTS = 8, 64
SECONDS, SHORT = 3_600, 60
# Every how many allocations one is refused, and at how many places of a text a device fails.
OWN, WHOLE, OTHERS = (1, 1_000), (1, 6), (7, 6)
# From how many allocations on a row is cut into shares, each of so many at most; and of how many at most each one is refused, and
# else how many. A script with rows that change what is held for those after them is not cut: there only the rows of more than
# MOST_ALLOCATIONS are tried apart, which change nothing.
SHARED, SHARE, MOST_ALLOCATIONS, SAMPLE = 500, 100, 10_000, 1_000
CHANGING = ("take", "merge", "observe", "distrust", "leak", "replica", "swap")
CHAIN = 1_000
# The configured document of the own rows.
SEED = b'{"keys":[{"e":"AQAB","kty":"RSA","n":"AQAB","use":"x509-svid","x5c":["YWJj"]}],"spiffe_sequence":1}'
def find_program():
    named = os.environ.get("CALLS")
    if named:
        return str(Path(named).resolve())
    programs = ROWS / "programs"
    used = libraries(crate_lines(programs / "uses.txt")["calls"])
    own = {name: path for name, path in files_of(programs / "rows").items() if name.startswith("calls")}
    folder = lay_out(ROWS / "out", "calls", used, {**files_of(programs / "calls"), **own})
    print("proving and building the program of calls", file=sys.stderr)
    done = subprocess.run(["rt", "run"], cwd=folder, input=OWN_ROWS.read_bytes(), capture_output=True)
    if done.returncode != 0:
        stop((done.stdout + done.stderr)[-4_000:].decode(errors="replace"))
    return str(folder / "out/calls")


def link(step, voucher, key):
    """The line of a receipt of a document with one key of its own, and by what it vouches: its id and the key's."""
    certificate = f"certificate {step}".encode()
    document = ('{"keys":[{"e":"AQAB","kty":"RSA","n":"AQAB","use":"x509-svid","x5c":["'
                + base64.b64encode(certificate).decode() + '"]}],"spiffe_sequence":' + str(step) + "}")
    line = ('{"doc":' + document + ',"domain":"a.example","endpoint":"spiffe://a.example/bundle","key":"' + key
            + '","voucher":"' + voucher + '"}')
    return line, hashlib.sha256(b"a.example\n" + document.encode()).hexdigest(), hashlib.sha256(certificate).hexdigest()


def chain_rows():
    """A row that takes a chain from the configured document of the own rows, its last receipt first: so each is pending
    until the first one comes, which releases all."""
    voucher, key = hashlib.sha256(b"a.example\n" + SEED).hexdigest(), hashlib.sha256(b"abc").hexdigest()
    lines = []
    for step in range(2, CHAIN + 2):
        line, voucher, key = link(step, voucher, key)
        lines.append(line)
    return f"take_all_within_room one_domain nothing = {'${lf}'.join(reversed(lines))}${{lf}}\n"


@dataclass(frozen=True)
class Rows:
    """Rows of a script that are tried in one way."""

    script: Path
    lines: tuple
    how: tuple
    # Of a share of one row: which of the allocations it has, of each so many.
    offset: int = 0

    @classmethod
    def of(cls, script, how):
        return cls(script, tuple(script.read_text().splitlines(keepends=True)), how)

    def small(self, large):
        """Those whose rows are not large."""
        return replace(self, lines=tuple(line for line in self.lines if line.rstrip("\n") not in large))

    def shares(self, row, allocations):
        """The shares of a large row, with the texts that it needs. Of the row that is last tried the number is 1."""
        lines = tuple(line for line in self.lines if line.rstrip("\n") == row or line.startswith("text "))
        if allocations > MOST_ALLOCATIONS:
            step = allocations // SAMPLE
            offsets = range(0, 1)
        else:
            step = -(-allocations // SHARE)
            offsets = range(step)
        return [replace(self, lines=lines, how=(step, self.how[1]), offset=offset) for offset in offsets]


def printed(program, library, rows, part, parts, seconds=SECONDS):
    """What the program prints of a part of the rows."""
    text = tries(rows.lines, part, parts, *rows.how, rows.offset)
    if rows.script == OWN_ROWS:
        text += chain_rows()
    seen = subprocess.run(
        [program], input=text.encode(), capture_output=True, env={"LD_PRELOAD": library}, timeout=seconds
    )
    name = rows.script.relative_to(TOP)
    if seen.returncode != 0:
        stop(f"{name}, part {part}: status {seen.returncode}, {shown(seen.stdout)}, {shown(seen.stderr)}")
    return seen.stdout.decode()


def made(program, library, rows, part, parts, seconds=SECONDS):
    return rows.script.relative_to(TOP), printed(program, library, rows, part, parts, seconds)


def split_large(program, library, rows):
    """The rows, and the shares of those that are large. The program says of each row how many allocations it makes; of one part
    nothing is refused if it has the number 1."""
    changes = any(line.startswith(CHANGING) for line in rows.lines)
    row, large, least = "", Counter(), MOST_ALLOCATIONS if changes else SHARED
    for line in printed(program, library, rows, 1, 1).splitlines():
        if not line.startswith("  "):
            row = line
        elif (found := HEAD.fullmatch(line)) and int(found[3] or 0) > least and not row.startswith(CHANGING):
            large[row] = max(large[row], int(found[3]))
    return rows.small(large), [share for row, count in large.items() for share in rows.shares(row, count)]


def made_until(until, program, library, *task):
    """The same, as long as there is time. A part that does not end by then is not tried."""
    if until is None:
        return made_in_time(program, library, *task)
    left = until - time.monotonic()
    try:
        return made(program, library, *task, seconds=left) if left > 0 else None
    except subprocess.TimeoutExpired:
        return None


def made_in_time(program, library, rows, part, parts):
    """The same; a part that does not end within an hour is told as a line that no call prints."""
    try:
        return made(program, library, rows, part, parts)
    except subprocess.TimeoutExpired:
        return rows.script.relative_to(TOP), f"part {part} of {parts}, from {rows.offset}\n  takes longer than {SECONDS} s\n"


def read_directly(program, library):
    """How many allocations it takes to read a canonical line, and the same line with a space after it."""
    texts = "".join(line for line in OWN_ROWS.read_text().splitlines(keepends=True) if line.startswith("text "))
    rows = f"tries 1 1 1 1 0\n{texts}receipt = ${{usual_receipt}}\nreceipt = ${{usual_receipt}} \n"
    seen = subprocess.run([program], input=rows.encode(), capture_output=True, env={"LD_PRELOAD": library})
    return [int(found[3]) for line in seen.stdout.decode().splitlines() if (found := HEAD.fullmatch(line))]


def tasks_of(scripts, parts):
    return [(rows, part, parts) for part in range(parts) for rows in scripts]


def scripts_of(names):
    """The rows over which each allocation is refused, and those over which a part is."""
    wanted = lambda scripts: [path for name, path in scripts.items() if not names or name in names]  # noqa: E731
    return wanted(WHOLE_ROWS), wanted(OTHER_ROWS)


def main():
    is_all = sys.argv[1:2] == ["all"]
    whole_rows, other_rows = scripts_of(sys.argv[2:])
    program = find_program()
    judge = Judge(refuses_memory=True)
    with temporary() as folder, ThreadPoolExecutor(os.cpu_count()) as pool:
        library = build_library(folder, program)
        own = tasks_of([Rows.of(OWN_ROWS, OWN)], PARTS)
        split = [split_large(program, library, Rows.of(script, WHOLE)) for script in whole_rows]
        rest = [Rows.of(script, OTHERS) for script in other_rows] if is_all else []
        # A share has one row, whose number is 1 when it is tried.
        shares = [(share, 1, 2) for _, large in split for share in large]
        others = tasks_of([*(small for small, _ in split), *rest], SHORT_PARTS) + shares
        for script, text in pool.map(lambda task: made(program, library, *task), own):
            judge.read(script, text)
        until = None if is_all else time.monotonic() + SHORT
        tried = 0
        for came in pool.map(lambda task: made_until(until, program, library, *task), others):
            if came:
                judge.read(*came)
                tried += 1
                if is_all:
                    print(f"{tried} of {len(others)} parts, {sum(judge.tried.values())} refusals", file=sys.stderr, flush=True)
        print(f"of the rows of other programs {tried} of {len(others)} parts were tried")
        directly, by_tree = read_directly(program, library)
    judge.see_all()
    for line in judge.table():
        print(line)
    print(f"a canonical line of a receipt is read with {directly} allocations, by the tree of its value with {by_tree}")
    if 2 * directly > by_tree:
        judge.fault("receipt", "a canonical line is read by the tree of its value")
    for fault in judge.faults[:20]:
        print(fault)
    print(f"{sum(judge.tried.values())} refusals; {sum(judge.wrong.values())} wrong")
    sys.exit(1 if judge.wrong else 0)


if __name__ == "__main__":
    main()

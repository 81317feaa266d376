#!/usr/bin/env python3
"""Refuses the program each call that it makes, one in each run, and judges how it takes that.

A small library in C, inject.c, is preloaded under the built program. In each run it refuses one call by which the program asks for memory, opens, reads, writes, syncs,
renames, locks or closes a file, or uses a socket; the next run has the next call refused, until a run ends before the call comes. All calls are counted, from the first
that the program makes: it has no runtime that asks for memory before `main`. A run is right if
- no signal ended it, and it ended within ten seconds;
- what it wrote on standard output is a beginning of what the run without an error writes;
- the state file is as before, or as after the run without an error, or, behind a session that was cut, between the two, and the file with `.new` behind its name, if one
  is left, is not read: the next run, with nothing refused, gives what it gives if none was left;
- if memory was refused: the answer is that of the run without an error, or the status is 4 and the last line of
  standard error reports out of memory;
- if the system refused: the status is 3, and standard error ends with an error of a device, unless it was itself
  refused. Only a close may be refused without an answer. If the system says that memory ran out, the answer is
  out of memory, or of a read or a write an error of a device;
- if a read or a write moved one byte only, the answer is that of the run without an error.

It needs python3, cc and nm. The program is the one that ./fedbundle runs, or the one that $FEDBUNDLE names.

usage: refusals [all] [--counts] [WORD]   runs the rows below, or with `all` all rows and the examples, whose names hold
    WORD; of a session every sixteenth call, or with `all` or WORD each; --counts prints how often each answer came; the status is 1 if an answer is wrong
"""
import errno
import json
import os
import re
import sys
from collections import Counter
from multiprocessing import get_context
from pathlib import Path

sys.dont_write_bytecode = True
sys.path.insert(0, str(Path(__file__).resolve().parent.parent / "lib"))
from harness import TOP, Peer, Place, Run, build_library, find_program  # noqa: E402
from harness import shown, stop, temporary, worked_runs, writes_state  # noqa: E402

# A run for each subcommand without a socket, by the name that harness.py gives its row.
ROWS = [
    "canon-normalises/whole",
    "document-refusals/no-keys",
    "refused-lines/garbage-and-cut",
    "conflicts/seventh-of-hello-seventh-with-hint",
    "state-files/bundle",
    "chains/third-document",
    "state-files/observe-second-document",
    "state-files/observe-third-document",
    "merge/third-merges-second",
    "polls/two-failures",
    "distrust/key-of-abc",
]

# Arguments of commands that end immediately.
WORDS = [["--help"], ["--version"], ["nonsense"], ["canon"], ["canon", "--domain"], ["report", "--help"]]

# Each kind of call with how it is refused, and the error that the system then gives.
REFUSALS = [
    ("alloc", "once", errno.ENOMEM),
    ("alloc", "lasting", errno.ENOMEM),
    ("open", "once", errno.EACCES),
    ("open", "once", errno.EMFILE),
    ("open", "once", errno.ENOMEM),
    ("read", "once", errno.EIO),
    ("read", "once", errno.ENOMEM),
    ("read", "piece", 0),
    ("write", "once", errno.ENOSPC),
    ("write", "once", errno.ENOMEM),
    ("write", "lasting", errno.EIO),
    ("write", "nothing", 0),
    ("write", "piece", 0),
    ("sync", "once", errno.EIO),
    ("sync", "once", errno.ENOMEM),
    ("rename", "once", errno.EACCES),
    ("rename", "once", errno.ENOMEM),
    ("lock", "once", errno.ENOLCK),
    ("lock", "once", errno.ENOMEM),
    ("close", "once", errno.EIO),
    ("change", "once", errno.EPERM),
    ("socket", "once", errno.EMFILE),
    ("socket", "once", errno.ENOMEM),
]
# If the system says that memory ran out, these fail with that, and not with a device.
TELLING_MEMORY = ("open", "sync", "rename", "lock", "socket")
# A session makes thousands of calls: unless all are wanted, one of this many is refused.
SESSION_STEP = 16
ALL_PIECES = [("read", 1, "pieces", 0), ("write", 1, "pieces", 0)]
MOST_BYTES = 20_000

TELLS_MEMORY = re.compile(rb"fedbundle: (.* )?(E2|N6|B8|C9|G4|V2|P3|S10) NoMemory( taken [0-9]+)?\n\Z")
UNSAID = b"fedbundle: no memory to say what changes\n"
BAD_NAME = re.compile(rb"fedbundle: N[0-9]+ [A-Za-z]+\n")
TELLS_DEVICE = re.compile(rb"fedbundle: (.* )?(E3|V1|P6|S9) Io( taken [0-9]+)?\n\Z")


def last_line(text):
    return text[text[:-1].rfind(b"\n") + 1 :]


def tells_faults(seen):
    """Whether each line of standard error is an error, and the status that of the greatest: a session that failed is
    reported, and then perhaps that its state could not be written."""
    lines = seen.err.splitlines(keepends=True)
    memory = [bool(TELLS_MEMORY.match(line)) for line in lines]
    device = [bool(TELLS_DEVICE.match(line)) for line in lines]
    return len(lines) > 1 and all(map(max, memory, device)) and seen.status == (4 if any(memory) else 3)


def without_more(text):
    """Standard error without the lines that explain an error, which follow it after two spaces if they can be had."""
    return b"".join(line for line in text.splitlines(keepends=True) if not line.startswith(b"  "))


def shows_effect(run):
    """Whether standard error has what a distrust changes. That it cannot be said keeps no key from being distrusted."""
    return run.words[:1] == ["distrust"] and "--verbose" in run.words


def errors_of(run, whole):
    """What may stand on standard error: what the run without a refusal writes there, or if that shows what a distrust changes,
    a line that there is no memory for it."""
    return [without_more(whole.err)] + [UNSAID] * shows_effect(run)


def reads_arguments_first(run, seen):
    """Whether an observe ends for one of its arguments, which it reads before its input."""
    return run.words[:1] == ["observe"] and seen.status == 1 and BAD_NAME.match(seen.err)


def answers(run, seen, whole, fault):
    """Whether status and standard error are an answer that this refusal may have."""
    kind, number, how, error = fault
    err, right = without_more(seen.err), errors_of(run, whole)
    same = (seen.status, seen.out, seen.state) == (whole.status, whole.out, whole.state) and err in right
    if not seen.met or how in ("piece", "pieces"):
        return same
    # A pull that cannot write its sums continues without them, on another connection.
    if run.name == "sessions/pull" and kind == "write" and number == 1 and how != "lasting" and same:
        return True
    if (run.steps and tells_faults(seen)) or (kind == "read" and reads_arguments_first(run, seen)):
        return True
    # A line that explains an error is left out if it cannot be had.
    if same and seen.err != whole.err:
        return True
    if kind == "write" and how != "lasting" and seen.descriptor == 2 and shows_effect(run):
        if (seen.status, seen.out, seen.state) == (whole.status, whole.out, whole.state) and right[0].startswith(err):
            return True
    last = last_line(err)
    begins = any(text.startswith(err[: len(err) - len(last)]) for text in right)
    tells_memory = seen.status == 4 and TELLS_MEMORY.match(last) and begins
    tells_device = seen.status == 3 and TELLS_DEVICE.match(last) and begins
    if kind == "alloc":
        return same or tells_memory
    if kind == "close" and same:
        return True
    if kind == "write" and (how == "lasting" or seen.descriptor == 2):
        return seen.status == 3 and any(text.startswith(TELLS_DEVICE.sub(b"", err)) for text in right)
    if error == errno.ENOMEM and kind in TELLING_MEMORY:
        return tells_memory
    return tells_device or (error == errno.ENOMEM and tells_memory)


def is_between(before, state, after):
    """Whether a state holds all that the first holds, and nothing that the last does not."""
    held = [set((text or b"").splitlines()[1:-1]) for text in (before, state, after)]
    return state is not None and held[0] <= held[1] <= held[2]


def wrong(run, whole, fault, seen):
    """What is wrong in a run, as a text, or none."""
    if seen.status < 0:
        return f"ended by signal {-seen.status}"
    if not whole.out.startswith(seen.out):
        return f"standard output is no beginning: {shown(seen.out)}"
    before = run.files.get("state")
    if seen.state not in (before, whole.state) and not (run.steps and is_between(before, seen.state, whole.state)):
        return f"the state is neither the one before nor the one after: {shown(seen.state)}"
    if not answers(run, seen, whole, fault):
        return f"status {seen.status}, standard error {shown(seen.err)}"
    return None


def goes_on(run, place, wholes, seen):
    """What is wrong in the next run of the same arguments, over what the last one left."""
    following = place.see(run, anew=False)
    wanted = wholes.get((run.name, seen.state))
    if wanted is None:
        right = following.state == wholes[run.name, run.files.get("state")].state
    else:
        right = following.answer() == wanted.answer()
    if not right or following.new is not None:
        return f"the next run: status {following.status}, standard error {shown(following.err)}"
    return None


def told(seen, whole):
    """A short text for the answer."""
    if seen.answer() == whole.answer():
        return "as without"
    last = last_line(seen.err).removeprefix(b"fedbundle: ").decode(errors="replace").strip()
    return f"{seen.status} {re.sub(r'[0-9]+(?= |$)', 'n', last) if seen.err else 'nothing told'}"


def whole_runs(runs, place):
    """Each run without an error, over its own state and over the one that it leaves."""
    wholes = {}
    for run in runs:
        state = run.files.get("state")
        wholes[run.name, state] = place.see(run)
        after = wholes[run.name, state].state
        if after != state:
            wholes[run.name, after] = place.see(run.over(after))
    return wholes


def faults_of(whole, step):
    for kind, how, error in REFUSALS:
        for call in range(1, whole.calls[kind] + 2, step):
            yield kind, call, how, error
    yield from ALL_PIECES


def at_work(runs, wholes, program, library, folder):
    global RUNS, WHOLES, PLACE
    RUNS, WHOLES, PLACE = runs, wholes, Place(program, library, folder)


def judged(task):
    """Does one run. The answer is what was wrong, whether the call came, and the answer's short text."""
    number, fault = task
    run = RUNS[number]
    whole = WHOLES[run.name, run.files.get("state")]
    seen = PLACE.see(run, fault)
    why = wrong(run, whole, fault, seen)
    # How many pieces come over a socket is not always the same.
    if run.peer is None and seen.met != (fault[1] <= whole.calls[fault[0]]):
        why = "another number of calls came than without a fault"
    if why is None and run.writes and (fault[0] != "alloc" or seen.new is not None):
        why = goes_on(run, PLACE, WHOLES, seen)
    kind, call, how, error = fault
    place = f"{run.name}: {kind} {call} {how} {errno.errorcode.get(error, '')} ({seen.name or 'did not come'})"
    key = run.words[0] if run.words else "no words", kind, how, errno.errorcode.get(error, ""), told(seen, whole)
    return why and f"{place}: {why}", seen.met, key


def example_runs(place):
    """Each subcommand on the examples with real certificates: two rollovers are observed, and then asked about."""
    examples = TOP / "examples"
    lines = (examples / "receipts.jsonl").read_bytes().splitlines(keepends=True)
    receipts = [json.loads(line) for line in lines]
    held = ["--config", "config", "--state", "state"]
    of_domain = [*held, "--domain", "a.example"]

    def run(words, state=None, stdin=b""):
        name = f"examples/{words[0]}{'' if state is None else ' over a state'}"
        files = {"config": (examples / "config.json").read_bytes()}
        return Run(name, words, files, stdin, writes_state(words)).over(state)

    def observe(number, state):
        receipt = receipts[number]
        endpoint = ["--endpoint", receipt["endpoint"], "--key", receipt["key"]]
        return run(["observe", *of_domain, *endpoint], state, json.dumps(receipt["doc"]).encode())

    first = place.see(observe(0, None)).state
    second = place.see(observe(2, first)).state
    return [
        run(["canon", "--domain", "a.example"], None, (examples / "a.example.json").read_bytes()),
        run(["report", "--config", "config"], None, b"".join(lines)),
        observe(0, None),
        observe(2, first),
        run(["bundle", *of_domain], second),
        run(["explain", *of_domain], second, json.dumps(receipts[2]["doc"]).encode()),
        run(["polls", *held, "--now", "1763800200"], second, b"a.example ok 1763800000\n"),
        run(["distrust", *of_domain, "--key", receipts[0]["key"]], second),
        run(["merge", *held], first, second),
    ]


def socket_runs(rows):
    """`serve` and `pull`, each with a peer that holds the second and the third receipt, or asks for them."""
    row = rows["state-files/bundle"]
    state = row.files["state"]
    receipts = [line for line in state.splitlines(keepends=True) if line.startswith(b'{"doc":')]
    held = ["--config", "c1.json", "--state", "state"]
    return [
        Run(
            "sessions/serve",
            ["serve", *held, "--listen", "PEER", "--sessions", "1"],
            row.files,
            peer=lambda: Peer(state, receipts, asks=True),
        ),
        Run(
            "sessions/pull",
            ["pull", *held, "--peer", "PEER"],
            row.over(None).files,
            writes=True,
            steps=True,
            peer=lambda: Peer(state, receipts, asks=False),
        ),
    ]


def chosen(words, place):
    rows = worked_runs()
    told = [Run(" ".join(["words", *given]), given) for given in WORDS]
    if "all" not in words:
        return [rows[name] for name in ROWS] + socket_runs(rows) + told
    small = [run for run in rows.values() if len(run.stdin) + sum(map(len, run.files.values())) <= MOST_BYTES]
    return small + socket_runs(rows) + told + example_runs(place)


def main():
    words = sys.argv[1:]
    holding = [word for word in words if word not in ("all", "--counts")]
    step = 1 if "all" in words or holding else SESSION_STEP
    program = find_program()
    with temporary() as folder:
        library = build_library(folder, program)
        place = Place(program, library, folder)
        runs = [run for run in chosen(words, place) if all(word in run.name for word in holding)]
        wholes = whole_runs(runs, place)
        tasks = [
            (number, fault)
            for number, run in enumerate(runs)
            for fault in faults_of(wholes[run.name, run.files.get("state")], step if run.peer else 1)
        ]
        if not tasks:
            stop("no such row")
        setting = (runs, wholes, program, library, folder)
        with get_context("fork").Pool(os.cpu_count(), at_work, setting) as pool:
            done = list(pool.imap_unordered(judged, tasks, chunksize=16))
    counts = Counter(key for _, met, key in done if met)
    if "--counts" in sys.argv:
        for key, count in sorted(counts.items()):
            print(f"{count:7} {' '.join(filter(None, key))}")
    faults = [why for why, _, _ in done if why]
    for why in faults[:20]:
        print(why)
    print(f"{len(done)} runs, {sum(counts.values())} of them refused a call; {len(faults)} wrong")
    sys.exit(1 if faults else 0)


if __name__ == "__main__":
    main()

#!/usr/bin/env python3
"""Measures how long a `bundle` of one client waits while a full running replica does long work for somebody else.

One client asks for a bundle again and again, in a process of its own. Between two requests it pauses for two milliseconds, since
the replica accepts no more than 128 connections in an eighth of a second. Meanwhile each of these comes, one after another: a
report, a list, with `--keys` too, a graph, a status, the explanation of the last bundle of a chain of all receipts, whole and
`--short`, a dry run of a distrust by which all falls, a merge of all that is held, a session in which a peer sends 4,096 records
that are held, at both sides, the state file that is rewritten, and a merge and a session that bring all. For each it prints the
longest time that a bundle took: the least of these over the turns, and the longest. The least of them is the figure, since other
work on the machine only adds to it. As root, `chrt -f 5 waits` lets other work add little.

The receipts are a chain of `usual` bundles, with an RSA and an EC certificate and a key for JWTs, or of bundles of `forty` short
keys. The files are on the disk of the temporary folder.

Wanted is that all work ends well, and that a bundle waits for no longer than that work takes, or two syncs of the disk.

It needs python3, 4 GB of memory, and 2 GB in the temporary folder. The program is the one that ./fedbundle runs, or the one that
$FEDBUNDLE names.

usage: waits [TURNS [KIND..]]   5 turns of both kinds, if left out; $FEDBUNDLE_RECEIPTS says how many receipts the store has,
    65,536 if it is not set. The status is 1 if something is wrong.
"""
import hashlib
import json
import os
import socket
import sys
import tempfile
import time
from multiprocessing import get_context
from pathlib import Path

sys.dont_write_bytecode = True
HERE = Path(__file__).resolve().parent
sys.path[:0] = [str(HERE.parent / "lib"), str(HERE.parents[1] / "bench")]
import receipts  # noqa: E402
from harness import HANG, find_program# noqa: E402
import replica as running  # noqa: E402

DOMAIN, Replica, faults, free_address, want, within = (
    running.DOMAIN, running.Replica, running.faults, running.free_address, running.want, running.within)

FULL = int(os.environ.get("FEDBUNDLE_RECEIPTS", 65_536))
RECORDS = 4_096
# What all replies may have together, and a line of `list --keys` at the least: two ids and the words between them.
MOST_REPLY, LEAST_KEY_LINE = 536_870_912, 220
# What a bundle may take beyond the work that it waits for: two waits for a busy disk and the client's own turns.
MORE = 0.5
PAUSE = 0.002
SEED_KEY = hashlib.sha256(receipts.SEED_DER).hexdigest()


class Store:
    """The lines of a full store."""

    def __init__(self, kind):
        self.receipts = list(receipts.lines(kind, FULL))
        self.last = self.receipts[-1].partition('{"doc":')[2].partition(',"domain":')[0].encode()
        # For keys that no bundle has: nothing falls by them.
        keys = sorted(hashlib.sha256(b"a record of %d" % number).hexdigest() for number in range(RECORDS))
        self.records = [f'{{"distrust":"{key}","domain":"{DOMAIN}"}}\n' for key in keys]
        self.digest = hashlib.sha256(receipts.config_text().encode()).hexdigest()

    def bytes_of_keys(self):
        """How many bytes the lines of `list --keys` have, at the least."""
        return LEAST_KEY_LINE * sum(line.count('"x5c"') for line in self.receipts)

    def snapshot(self, lines=None, records=()):
        lines = self.receipts if lines is None else lines
        head = f'{{"config":"{self.digest}","format":2}}\n'
        end = f'{{"count":{len(lines)},"distrusts":{len(records)}}}\n'
        return "".join([head, *records, *sorted(lines), end]).encode()


def ask(path, words, text=b""):
    """The status of a reply, how many bytes its output has, and its errors. The output, which may be long, is not kept."""
    with socket.socket(socket.AF_UNIX) as stream:
        stream.settimeout(HANG)
        stream.connect(str(path))
        stream.sendall(json.dumps(words).encode() + b"\n" + text)
        stream.shutdown(socket.SHUT_WR)
        first, length = b"", 0
        while piece := stream.recv(1 << 20):
            first = first + piece if len(first) < 300 else first
            length += len(piece)
    head, _, rest = first.partition(b"\n")
    told = json.loads(head)
    if length != len(head) + 1 + told["output"] + told["errors"]:
        raise OSError("a reply is cut")
    return told["status"], told["output"], rest[told["output"]:]


def ask_again(path, ends, longest):
    """Asks for a bundle until the end, and keeps the longest time and how many there were."""
    while not ends.value:
        begun = time.monotonic()
        status, output, _ = ask(path, ["bundle", "--domain", DOMAIN])
        longest[0] = max(longest[0], time.monotonic() - begun)
        longest[1] += 1
        longest[2] += status != 0 or output == 0
        time.sleep(PAUSE)


def waits_during(replica, action):
    """The longest time of a bundle while the action runs, and how long that took."""
    context = get_context("fork")
    ends, longest = context.Value("b", 0), context.Array("d", 3)
    client = context.Process(target=ask_again, args=(replica.socket, ends, longest))
    client.start()
    within(20, lambda: longest[1] > 20)
    longest[0] = 0
    begun = time.monotonic()
    action()
    took = time.monotonic() - begun
    time.sleep(0.05)
    ends.value = 1
    client.join()
    want("bundles meanwhile", longest[1] > 20 and longest[2] == 0, list(longest))
    return longest[0], took


class Figures:
    """The longest waits of each kind of work, over the turns."""

    def __init__(self, kind):
        self.kind, self.seen = kind, {}

    def note(self, what, replica, action):
        wait, took = waits_during(replica, action)
        self.seen.setdefault(what, []).append((wait, took))
        want(f"{what}: a bundle waits for no longer than that takes", wait < took + MORE, wait, took)

    def print(self):
        for what, seen in self.seen.items():
            waits = [1000 * wait for wait, _ in seen]
            took = min(took for _, took in seen)
            print(f"{self.kind}, {what}: {min(waits):.0f} ms at the least, {max(waits):.0f} ms at the most; "
                  f"that work took {took:.2f} s", flush=True)


def begin(program, folder, snapshot, *words):
    """A replica that begins with this state."""
    replica = Replica(program, folder, *words)
    (folder / "config").write_text(receipts.config_text())
    (folder / "state").write_bytes(snapshot)
    replica.start()
    want("it begins", replica.ready.startswith(b"ready "), replica.ready, replica.said())
    return replica


def ends_well(replica, least, *words, text=b""):
    """Makes a request, whose output has this many bytes at least. If it is for no number of bytes, the reply is longer than there
    is room for."""
    def make():
        status, output, errors = ask(replica.socket, words, text)
        if least is None:
            is_wanted = (status, output, errors) == (1, 0, b"fedbundle: too many requests\n")
        else:
            is_wanted = status in (0, 1) and not errors and output >= least
        want(f"{' '.join(words)} ends well", is_wanted, status, output, errors)
    return make


class Begun:
    """A replica that is ended with its holder, and whose folder is emptied then."""

    def __init__(self, program, folder, snapshot, *words):
        folder.mkdir(exist_ok=True)
        self.replica = begin(program, folder, snapshot, *words)

    def __enter__(self):
        return self.replica

    def __exit__(self, *_):
        if self.replica.process:
            self.replica.kill()
        for path in self.replica.folder.iterdir():
            path.unlink()


def requests(program, above, store, turns, figures):
    whole = store.snapshot()
    last = ["explain", "--domain", DOMAIN]
    works = [
        ("report", ["report"], b"", 60 * FULL),
        ("list", ["list"], b"", 60 * FULL),
        ("list --keys", ["list", "--keys"], b"", None if store.bytes_of_keys() > MOST_REPLY else 60 * FULL),
        ("graph", ["graph"], b"", 60 * FULL),
        ("status", ["status"], b"", 100),
        ("status --format prometheus", ["status", "--format", "prometheus"], b"", 100),
        ("distrust --dry-run", ["distrust", "--domain", DOMAIN, "--key", SEED_KEY, "--dry-run"], b"", 60 * FULL),
        ("explain", last, store.last, 60 * FULL),
        ("explain --short", [*last, "--short"], store.last, 60 * FULL),
        ("merge, all held", ["merge"], whole, 6),
    ]
    with Begun(program, above / "requests", whole) as replica:
        for _ in range(turns):
            figures.note("no other work", replica, lambda: time.sleep(1))
            for what, words, text, least in works:
                figures.note(what, replica, ends_well(replica, least, *words, text=text))


def sessions_of(replica):
    return [line for line in replica.said().splitlines() if line.startswith("event=pull")]


def wait_for_session(replica, new):
    """Waits for the end of the next session, or of the first one."""
    before = len(sessions_of(replica))

    def wait():
        want("a session ends", within(HANG, lambda: len(sessions_of(replica)) > before), replica.said()[-300:])
        line = sessions_of(replica)[before]
        want("a session", f" new={new} " in line and "fault" not in line, line)
    return wait


def sessions(program, above, store, turns, figures):
    """Two replicas that hold the same, with all records, and then one that holds nothing."""
    whole = store.snapshot(records=store.records)
    nothing = store.snapshot([])
    address = free_address()
    with Begun(program, above / "asked", whole, "--listen", address) as asked:
        with Begun(program, above / "asks", whole, "--peers", address, "--every", "1") as asks:
            wait_for_session(asks, 0)()
            for _ in range(turns):
                figures.note("session with 4,096 records that are held, at the one that asks", asks, wait_for_session(asks, 0))
                figures.note("session with 4,096 records that are held, at the one that answers", asked, wait_for_session(asks, 0))
        for _ in range(turns):
            with Begun(program, above / "empty", nothing, "--peers", address, "--every", "600") as empty:
                figures.note("session that brings all, at the one that asks", empty, wait_for_session(empty, FULL))


def folds(program, above, store, turns, figures):
    """The state file is rewritten once the journal has more than half of its bytes. So a state of two thirds comes first, then
    a journal of a little less than half of that, and then the rest."""
    first = FULL * 2 // 3 - 10
    second = first + first // 2 - 10
    pieces = [store.snapshot(store.receipts[begun:end]) for begun, end in ((0, first), (first, second), (second, FULL))]
    for _ in range(turns):
        with Begun(program, above / "folds", pieces[0]) as replica:
            want("a journal", replica.ask("merge", text=pieces[1]) == (0, b"new %d\n" % (second - first), b""))
            want("no fold yet", "event=fold" not in replica.said(), replica.said())

            def fold():
                want("the rest", replica.ask("merge", text=pieces[2]) == (0, b"new %d\n" % (FULL - second), b""))
                want("a fold", within(HANG, lambda: "event=fold" in replica.said()), replica.said())
            figures.note("the state file is rewritten", replica, fold)
    for _ in range(turns):
        with Begun(program, above / "merges", store.snapshot([])) as replica:
            def merge():
                want("a merge of all", replica.ask("merge", text=store.snapshot()) == (0, b"new %d\n" % FULL, b""))
                want("a fold", within(HANG, lambda: "event=fold" in replica.said()), replica.said())
            # The client's bundle is the configured one at first.
            figures.note("merge into none, with its fold", replica, merge)


def main():
    turns = int(sys.argv[1]) if len(sys.argv) > 1 else 5
    program = find_program()
    for kind in sys.argv[2:] or ["usual", "forty"]:
        store = Store(kind)
        figures = Figures(kind)
        print(f"{kind}: {FULL} receipts, {sum(map(len, store.receipts))} bytes", flush=True)
        with tempfile.TemporaryDirectory(prefix="fedbundle-") as above:
            for part in (requests, sessions, folds):
                part(program, Path(above), store, turns, figures)
        figures.print()
        print(f"load: {os.getloadavg()}", flush=True)
    for fault in faults:
        print(fault)
    print(f"waits: {running.ran} looks, {len(faults)} wrong")
    return 1 if faults else 0


if __name__ == "__main__":
    sys.exit(main())

"""Measures a replica that stays, by how many receipts it holds: its start, what it holds, reports, a pull of all into an empty
replica, sessions that bring nothing, a distrust that reaches all, and a fold; and how long a `bundle` waits meanwhile.

Eight clients ask for a bundle at fixed times, each in a process of its own. A wait counts from the time at which the bundle
was to be asked for, so a pause of the replica is in the waits of all that were due in it. At first they are alone. Then other
clients observe new bundles until the replica has rewritten its state file, which it does when its journal has more than half
of that file's bytes. So that this comes soon, the journal is filled with a few long bundles before.

A line has the time and the seconds of a processor that it took, each with its growth: the time for each receipt over that at
the size before.

arguments: [KIND|SIZE..]    a KIND of bundles is small or usual, both if none is given; a SIZE is how many receipts are held at
                            first, in rising order: 65536 262144 1048576 if none is given
"""
import base64
import hashlib
import json
import statistics
import tempfile
import time
from multiprocessing import get_context
from pathlib import Path

from building import find_program, stop
from measures.replica import (
    IDLE_SESSIONS, LEAST_EVERY, SECONDS, Held, ask, free_address, idle_seconds, memory, next_pull, start, used)
from receipts import DOMAIN, KINDS, SEED_DER

SIZES = [65_536, 262_144, 1_048_576]
TURNS = 3
CLIENTS, EVERY = 8, 0.05
ALONE_SECONDS, BEFORE_SECONDS, AFTER_SECONDS = 10, 10, 5
OBSERVERS, OBSERVE_EVERY = 4, 0.01
# How many more receipts may be held, at least: half of those that are, so that `status` does not warn.
MORE = 16_384
# The bytes of the certificate of a long bundle, and when a journal is folded: docs/REFERENCE.md.
LONG_DER = 700_000
LEAST_JOURNAL = 8_388_608
SEED_KEY = hashlib.sha256(SEED_DER).hexdigest()
UNKNOWN_KEY = hashlib.sha256(b"no certificate").hexdigest()
# What else a second replica needs, in bytes.
SPARE_MEMORY = 1 << 30

ROW = "{:<7} {:>8} {:<44} {:>11} {:>6} {:>11} {:>6}"


class Table:
    """The lines of one size, with the growth over the size before."""

    def __init__(self):
        self.before = {}

    def begin(self, kind, count):
        self.kind, self.count = kind, count

    def times(self, what, took, processor):
        """A line of seconds; None if they were not measured."""
        cells = []
        for unit, seconds in (("s", took), ("processor", processor)):
            cells += [f"{seconds * 1e3:.2f}", self.growth(what, unit, seconds)] if seconds is not None else ["", ""]
        self.line(what, *cells)

    def growth(self, what, unit, value):
        key = self.kind, what, unit
        last, self.before[key] = self.before.get(key), value / self.count
        return f"{value / self.count / last:.2f}" if last else ""

    def bytes(self, what, held):
        self.line(what, f"{held / 2**20:.1f} MiB", self.growth(what, "bytes", held), f"{held / self.count:.0f} each", "")

    def line(self, what, *cells):
        print(ROW.format(self.kind, self.count, what, *cells), flush=True)


def print_head():
    print(ROW.format("kind", "receipts", "", "ms", "growth", "processor", "growth"), flush=True)


# What one request takes.


def timed(process, action):
    """The seconds, and those of a processor that the process used meanwhile."""
    before, begun = used(process), time.monotonic()
    action()
    return time.monotonic() - begun, used(process) - before


def least(process, action):
    found = [timed(process, action) for _ in range(TURNS)]
    return [min(times) for times in zip(*found)]


# Sessions.


def free_memory():
    lines = Path("/proc/meminfo").read_text().splitlines()
    return next(int(line.split()[1]) * 1024 for line in lines if line.startswith("MemAvailable"))


def print_sessions(table, program, held, replica, address):
    needed = memory(replica, "VmRSS") + SPARE_MEMORY
    if free_memory() < needed:
        table.line(f"no second replica: it needs {needed >> 30} GiB", "", "", "", "")
        return
    before = used(replica)
    words = ["--peers", address, "--every", str(LEAST_EVERY), *held.limits]
    other, _ = start(program, held.folder, "other", *words)
    line = next_pull(other)
    after = used(replica), used(other)
    told = dict(word.split("=") for word in line.split())
    if int(told["new"]) != table.count or "fault" in told:
        stop(f"not all was pulled: {line}")
    table.times("a pull of all, into an empty replica", float(told["seconds"]), after[1])
    table.times("  at the one that answers", None, after[0] - before)
    table.bytes("  held then", memory(other, "VmRSS"))
    table.bytes("  the most", memory(other, "VmHWM"))
    print_idle(table, replica, other)
    other.kill()
    other.wait()
    for path in held.folder.glob("other*"):
        path.unlink()


def print_idle(table, answers, asks):
    for name, seconds in zip(("answers", "asks"), idle_seconds(answers, asks, IDLE_SESSIONS)):
        table.times(f"an idle session, the one that {name}", None, seconds)


# Waits.


def ask_at_times(path, due, ends, found):
    """Asks for a bundle at fixed times until the end: when each was due, how long it took from then, and whether it came."""
    waits = []
    while not ends.value:
        time.sleep(max(0.0, due - time.monotonic()))
        waits.append((due, *waited(path, due)))
        due += EVERY
    found.put(waits)


def waited(path, due):
    try:
        came = ask(path, ["bundle", "--domain", DOMAIN])[0] != b""
    except (OSError, ValueError, SystemExit):
        came = False
    return time.monotonic() - due, came


def observe_at_times(path, held, first, ends):
    """Observes new bundles until the end."""
    number, due = first, time.monotonic()
    while not ends.value:
        ask(path, held.words(), held.bundle(number))
        number += OBSERVERS
        due = max(due + OBSERVE_EVERY, time.monotonic())
        time.sleep(max(0.0, due - time.monotonic()))


class Clients:
    """Processes that run until the end."""

    def __init__(self):
        self.context = get_context("fork")
        self.ends, self.found = self.context.Value("b", 0), self.context.SimpleQueue()
        self.processes = []

    def add(self, run, *values):
        self.processes.append(self.context.Process(target=run, args=values))
        self.processes[-1].start()

    def end(self, count):
        """What so many of them found."""
        self.ends.value = 1
        found = [wait for _ in range(count) for wait in self.found.get()]
        for process in self.processes:
            process.join()
        if any(process.exitcode for process in self.processes):
            stop("a client ended with an error")
        return found


def asking(path):
    clients, begin = Clients(), time.monotonic() + 0.2
    for at in range(CLIENTS):
        clients.add(ask_at_times, path, begin + at * EVERY / CLIENTS, clients.ends, clients.found)
    return clients


class Observed(Held):
    """A state, and bundles by their number."""

    def bundle(self, number):
        return json.dumps({**self.last, "spiffe_sequence": self.sequence + number}).encode()

    def long_bundle(self, number):
        der = hashlib.sha256(b"%d" % number).digest() + bytes(LONG_DER)
        key = {"e": "AQAB", "kty": "RSA", "n": "AQAB", "use": "x509-svid", "x5c": [base64.b64encode(der).decode()]}
        return json.dumps({"keys": [*self.last["keys"], key], "spiffe_sequence": self.sequence + number}).encode()


def fill_journal(held, path):
    """So far that some seconds are left until it is folded. How many bundles that took."""
    state, journal = (held.folder / name for name in ("state", "state.journal"))
    line = len(held.bundle(1)) + 300
    wanted = max(LEAST_JOURNAL, state.stat().st_size // 2) - BEFORE_SECONDS * OBSERVERS / OBSERVE_EVERY * line
    count = 0
    while journal.stat().st_size + LONG_DER * 4 / 3 < wanted:
        count += 1
        ask(path, held.words(), held.long_bundle(count))
    return count


def wait_for_fold(replica, folder):
    """When the replica begins to write the new state file, when it says that it is written, and the seconds of a processor."""
    name, left = folder / "state.new", time.monotonic() + SECONDS
    while not name.exists():
        if time.monotonic() > left:
            stop("the journal is not folded")
        time.sleep(0.001)
    begun, before = time.monotonic(), used(replica)
    while not (line := next_event(replica, b"event=fold")):
        if time.monotonic() > left:
            stop("no fold is reported")
        time.sleep(0.001)
    if "fault" in line:
        stop(line)
    return begun, time.monotonic(), used(replica) - before


def next_event(replica, begins):
    """The next line that begins so, if it is there. A line may be there in part, and is read again then."""
    while True:
        at = replica.events.tell()
        line = replica.events.readline()
        if not line.endswith(b"\n"):
            replica.events.seek(at)
            return ""
        if line.startswith(begins):
            return line.decode().strip()


def print_waits(table, what, waits):
    ordered = sorted(wait for _, wait, _ in waits)
    median, most = statistics.median(ordered), ordered[int(len(ordered) * 0.99)]
    told = f"{1e3 * median:.2f} median, {1e3 * most:.2f} 99 %, {1e3 * ordered[-1]:.2f} the longest of {len(ordered)}, in ms"
    failed = sum(not came for _, _, came in waits)
    told += f"; {failed} failed" if failed else ""
    print(f"{table.kind:<7} {table.count:>8} {what:<44} {told}", flush=True)


def print_load(table, held, replica, path):
    clients = asking(path)
    time.sleep(ALONE_SECONDS)
    print_waits(table, "a bundle waits, eight clients", clients.end(CLIENTS))
    first = fill_journal(held, path) + 1
    clients, begun = asking(path), time.monotonic()
    for at in range(OBSERVERS):
        clients.add(observe_at_times, path, held, first + at, clients.ends)
    folds, folded, processor = wait_for_fold(replica, held.folder)
    time.sleep(AFTER_SECONDS)
    waits = clients.end(CLIENTS)
    table.times("a fold", folded - folds, processor)
    table.line("  bytes of state then", str((held.folder / "state").stat().st_size), "", "", "")
    print_waits(table, "  meanwhile", [it for it in waits if it[0] + it[1] >= folds and it[0] <= folded])
    print_waits(table, "  before, while bundles are observed", [it for it in waits if it[0] + it[1] < folds])
    print_waits(table, f"  all {time.monotonic() - begun:.0f} s, the fold in them", waits)


def print_distrust(table, path, replica):
    table.times("a distrust that reaches all", *timed(
        replica, lambda: ask(path, ["distrust", "--domain", DOMAIN, "--key", SEED_KEY])))
    fell = int(next_event(replica, b"event=distrust").rpartition("fell=")[2])
    if fell < table.count:
        stop(f"only {fell} fell")


def print_size(table, program, folder, kind, count):
    table.begin(kind, count)
    held = Observed(folder, count, max(MORE, count // 2), kind)
    address, path = free_address(), folder / "state.socket"
    table.line("bytes of state", str((folder / "state").stat().st_size), "", "", "")
    replica, began = start(program, folder, "state", "--listen", address, "--every", "86400", *held.limits)
    table.times("from the start to ready", began, used(replica))
    table.bytes("held then", memory(replica, "VmRSS"))
    for command in (["report"], ["status"]):
        table.times(f"{command[0]} --at", *least(replica, lambda: ask(path, command)))
    print_sessions(table, program, held, replica, address)
    print_load(table, held, replica, path)
    ask(path, ["distrust", "--domain", DOMAIN, "--key", UNKNOWN_KEY, "--unknown-key"])
    next_event(replica, b"event=distrust")
    table.times("status --at, with a record", *least(replica, lambda: ask(path, ["status"])))
    print_distrust(table, path, replica)
    table.bytes("the most held in all", memory(replica, "VmHWM"))
    replica.kill()
    replica.wait()


def main(words):
    kinds = [kind for kind in KINDS if kind in words] or KINDS
    sizes = [int(word) for word in words if word.isdigit()] or SIZES
    if unknown := [word for word in words if not word.isdigit() and word not in KINDS]:
        stop(f"no kind: {' '.join(unknown)}")
    program = find_program()
    table = Table()
    print_head()
    for kind in kinds:
        for count in sizes:
            with tempfile.TemporaryDirectory(prefix="fedbundle-") as folder:
                print_size(table, program, Path(folder), kind, count)

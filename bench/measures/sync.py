"""Measures snapshots and sessions of `replica_sync` beside plain Rust that reads and writes the same bytes, both built
here, run in turn; then `pull` from `serve` over loopback, beside plain Rust that does the same.

words: [TURNS [PART|SIZE|KIND..]]
                          TURNS is how often each program takes each set, of which the least times count; 3 if left
                          out. The parts are memory, loopback, quiet and thousand; all if left out. A SIZE is a number of
                          receipts, in rising order: all parts except the last have each of them. A KIND is small or usual
"""
import filecmp
import hashlib
import os
import random
import shutil
import socket
import subprocess
import tempfile
import threading
import time
from pathlib import Path

from building import build_peer, build_with_earlier, earlier_programs, find_program, own_rows, run, stop
from receipts import KINDS, SIZES, limit_words, write_config, write_receipts, write_snapshot

HOST = "127.0.0.1"
SESSIONS = 1_000
PARTS = ["memory", "loopback", "quiet", "thousand"]


# Over memory.


class Best:
    """The least times of the runs on one set, the least memory, and what is the same in all of them."""

    def __init__(self, count):
        self.count = count
        self.times = [float("inf")] * count
        self.held = float("inf")
        self.same = None

    def add(self, program, words, path):
        numbers, held = run(program, words, path)
        self.times = [min(old, new) for old, new in zip(self.times, numbers)]
        self.held = min(self.held, held)
        if self.same not in (None, numbers[self.count:]):
            stop(f"{words}: {self.same} and {numbers[self.count:]} differ")
        self.same = numbers[self.count:]


def measure(programs, words, path, turns, count):
    found = [Best(count) for _ in programs]
    for _ in range(turns):
        for best, program in zip(found, programs):
            best.add(program, words, path)
    if len({tuple(best.same) for best in found}) != 1:
        stop(f"{words}: " + " and ".join(str(best.same) for best in found) + " differ")
    return found


def growth(now, before):
    return f"{now / before:.2f}" if before else ""


SNAPSHOT = "{:<7} {:>8} {:>6} | {:>7} {:>6} {:>7} {:>5} | {:>7} {:>6} {:>7} {:>6} {:>5} | {:>7} {:>7}"
SESSION = "{:<7} {:>8} {:<9} | {:>8} {:>8} {:>8} | {:>8} {:>6} {:>8} {:>6} {:>5} | {:>9} {:>10} | {:>5}"


def print_snapshots(programs, folder, turns, sizes):
    print("Snapshots. ns for each receipt, growth over the time for each at the size before, and the most bytes held for")
    print("each, the texts in memory included.")
    print(SNAPSHOT.format("", "", "", "write", "", "plain", "", "read", "", "plain", "", "", "held", "plain"))
    heads = ["ns", "growth", "ns", "ratio", "ns", "growth", "ns", "growth", "ratio", "bytes", "bytes"]
    print(SNAPSHOT.format("kind", "receipts", "bytes", *heads), flush=True)
    for kind in sizes:
        before = None
        for count in sizes[kind]:
            path = write_receipts(folder, kind, count)
            found = measure(programs, ["snapshot"], path, turns, 2)
            wrote, read = [[best.times[at] / count for best in found] for at in (0, 1)]
            before = before or ([None] * len(found), [None] * len(found))
            for at, word in own_rows(programs):
                print(SNAPSHOT.format(
                    word or kind, count, found[at].same[0] // count,
                    f"{wrote[at]:.0f}", growth(wrote[at], before[0][at]), f"{wrote[1]:.0f}",
                    f"{wrote[at] / wrote[1]:.2f}",
                    f"{read[at]:.0f}", growth(read[at], before[1][at]), f"{read[1]:.0f}", growth(read[1], before[1][1]),
                    f"{read[at] / read[1]:.2f}", *(f"{found[of].held / count:.0f}" for of in (at, 1)),
                ), flush=True)
            before = wrote, read


def cases_of(count):
    """What the asker holds of so many receipts, where the answerer holds all."""
    return [("all", 0), ("one", count - 1), ("nothing", count)]


def print_sessions(programs, folder, turns, sizes):
    print("\nSessions over memory: us for asking about all buckets, for answering, and for taking the answers, in which each")
    print("question is written again; then answering and taking together, which is a session, with its growth, in plain Rust")
    print("too, and the ratio; the bytes of the questions and of the answers; and how many times as long a session took as")
    print("sorting and sending the ids alone in plain Rust.")
    print(SESSION.format("", "", "", "ask", "answer", "take", "session", "", "plain", "", "", "asked", "answered", "over"))
    heads = ["us", "us", "us", "us", "growth", "us", "growth", "ratio", "bytes", "bytes", "ids"]
    print(SESSION.format("kind", "receipts", "gives", *heads), flush=True)
    for kind in sizes:
        before = {}
        for count in sizes[kind]:
            path = write_receipts(folder, kind, count)
            ids = measure(programs[1:2], ["ids"], path, turns, 1)[0].times[0]
            for name, held in cases_of(count):
                found = measure(programs, ["session", held], path, turns, 3)
                whole = [best.times[1] + best.times[2] for best in found]
                last = before.get(name)
                grown = [growth(now / count, old) for now, old in zip(whole, last)] if last else [""] * len(found)
                for at, word in own_rows(programs):
                    print(SESSION.format(
                        word or kind, count, name, *(f"{took / 1e3:.0f}" for took in found[at].times),
                        f"{whole[at] / 1e3:.0f}", grown[at], f"{whole[1] / 1e3:.0f}", grown[1],
                        f"{whole[at] / whole[1]:.2f}", found[at].same[1], found[at].same[2], f"{whole[at] / ids:.1f}",
                    ), flush=True)
                before[name] = [took / count for took in whole]


# Over loopback.


def free_port():
    with socket.socket() as probe:
        probe.bind((HOST, 0))
        return probe.getsockname()[1]


def is_listening(port):
    """Whether somebody listens there, by the system's table: to connect would be a session."""
    wanted = f":{port:04X}"
    rows = [row.split() for row in Path("/proc/net/tcp").read_text().splitlines()[1:]]
    return any(row[1].endswith(wanted) and row[3] == "0A" for row in rows)


class Server:
    """A server of a state file for so many sessions."""

    def __init__(self, words, port):
        self.port = port
        self.process = subprocess.Popen(list(map(str, words)), stdout=subprocess.PIPE, stdin=subprocess.DEVNULL)
        while not is_listening(port):
            if self.process.poll() is not None:
                stop(f"{words} ended with {self.process.returncode}")
            time.sleep(0.01)

    def memory(self):
        """What it holds now, and the most that it held, in bytes."""
        lines = Path(f"/proc/{self.process.pid}/status").read_text().splitlines()
        told = {line.split(":")[0]: line.split()[1] for line in lines if line.startswith(("VmRSS", "VmHWM"))}
        return int(told["VmRSS"]) * 1024, int(told["VmHWM"]) * 1024

    def end(self):
        said, _ = self.process.communicate(timeout=600)
        if self.process.returncode != 0:
            stop(f"a server ended with {self.process.returncode}")
        return said.decode()


class Relay:
    """Passes one connection on, and keeps how many bytes went each way, and what was asked."""

    def __init__(self, port):
        self.listener = socket.create_server((HOST, 0))
        self.port = self.listener.getsockname()[1]
        self.asked, self.answered = bytearray(), 0
        self.target = port
        self.thread = threading.Thread(target=self.pass_on)
        self.thread.start()

    def pass_on(self):
        asker, _ = self.listener.accept()
        answerer = socket.create_connection((HOST, self.target))
        back = threading.Thread(target=self.pass_back, args=(answerer, asker))
        back.start()
        while piece := asker.recv(65_536):
            self.asked += piece
            answerer.sendall(piece)
        answerer.shutdown(socket.SHUT_WR)
        back.join()
        asker.close()
        answerer.close()
        self.listener.close()

    def pass_back(self, answerer, asker):
        while piece := answerer.recv(65_536):
            self.answered += len(piece)
            asker.sendall(piece)


class Ours:
    """The words of the built program's commands, over states of so many receipts at most."""

    def __init__(self, most, program=None):
        self.program = program or find_program()
        self.limit = limit_words(most)

    def serve(self, config, state, port, sessions):
        words = ["--config", config, "--state", state, "--listen", f"{HOST}:{port}", "--sessions", sessions]
        return [self.program, "serve", *words, *self.limit]

    def pull(self, config, state, port):
        words = ["--config", config, "--state", state, "--peer", f"{HOST}:{port}"]
        return [self.program, "pull", *words, *self.limit]


class Peer:
    """Those of the peer."""

    def __init__(self, program):
        self.program = program

    def serve(self, config, state, port, sessions):
        return [self.program, "serve", config, state, f"{HOST}:{port}", sessions]

    def pull(self, config, state, port):
        return [self.program, "pull", config, state, f"{HOST}:{port}"]


def pull(program, config, state, port):
    """The seconds that it took, and what was new."""
    started = time.monotonic()
    done = subprocess.run(list(map(str, program.pull(config, state, port))), capture_output=True)
    took = time.monotonic() - started
    if done.returncode != 0:
        stop(f"a pull ended with {done.returncode}: {done.stderr.decode()}")
    return took, int(done.stdout.split()[1])


def pulled(program, config, theirs, mine, folder):
    """The seconds of a pull from a server that has loaded its state."""
    state = folder / "pulling"
    state.unlink(missing_ok=True)
    if mine:
        shutil.copy(mine, state)
    port = free_port()
    server = Server(program.serve(config, theirs, port, 1), port)
    took, new = pull(program, config, state, port)
    server.end()
    return took, new, state


def relayed(ours, config, theirs, mine, folder):
    """What our program asked, and how many bytes it answered."""
    state = folder / "pulling"
    state.unlink(missing_ok=True)
    if mine:
        shutil.copy(mine, state)
    port = free_port()
    server = Server(ours.serve(config, theirs, port, 1), port)
    relay = Relay(port)
    pull(ours, config, state, relay.port)
    relay.thread.join()
    server.end()
    return bytes(relay.asked), relay.answered


LOOPBACK = "{:<7} {:>8} {:<9} | {:>7} {:>7} {:>5} | {:>9} {:>10} {:>8}"


def print_loopback(programs, folder, turns, sizes):
    print("\nPulls from a server over loopback: the seconds of the whole process that pulls, in which it reads its state and")
    print("writes it, and the bytes both ways.")
    print(LOOPBACK.format("kind", "receipts", "held by", "s", "plain", "ratio", "asked", "answered", "new"), flush=True)
    config = write_config(folder)
    for kind, count in of_kinds(sizes):
        full = write_snapshot(folder, kind, count)
        for name, theirs, mine in [("one side", full, None), ("both", full, full), ("neither", folder / "none", None)]:
            times, found = [float("inf")] * len(programs), set()
            for _ in range(turns):
                for at, program in enumerate(programs):
                    took, new, state = pulled(program, config, theirs, mine, folder)
                    times[at] = min(times[at], took)
                    found.add((new, filecmp.cmp(state, full, shallow=False)))
            if len(found) != 1:
                stop(f"{name}: the pulls differ: {found}")
            asked, answered = relayed(programs[0], config, theirs, mine, folder)
            new, _ = found.pop()
            print(LOOPBACK.format(
                kind, count, name, *(f"{took:.2f}" for took in times), f"{times[0] / times[1]:.2f}",
                len(asked), answered, new,
            ), flush=True)


# Which of the ids of a store the asker lacks.
LACKING = {
    "nothing": lambda ids: set(),
    "one": lambda ids: {ids[0]},
    "one a bucket": lambda ids: set({id[0]: id for id in ids}.values()),
    "a tenth": lambda ids: set(ids[::10]),
    "all": set,
}


def write_part(folder, full, lacks):
    """The snapshot without some of its receipts, and how many these are."""
    with full.open("rb") as file:
        _, *ids, _ = [hashlib.sha256(line[:-1]).digest() for line in file]
    without = lacks(ids)
    path = folder / "part"
    with full.open("rb") as file, path.open("wb") as part:
        part.write(next(file))
        part.writelines(line for id, line in zip(ids, file) if id not in without)
        part.write(b'{"count":%d,"distrusts":0}\n' % (len(ids) - len(without)))
    return path, len(without)


QUIET = "{:<7} {:>8} {:<12} {:>7} | {:>7} {:>7} {:>5} {:>7} | {:>9} {:>10} {:>10} {:>10}"


def print_quiet(programs, folder, turns, sizes):
    """Ours and the peer's begin with sums; an earlier program may not."""
    print("\nPulls over loopback by what is missing: the seconds of the whole process that pulls, with its state, and the bytes")
    print("both ways, of an earlier program too if there is one.")
    heads = ["s", "plain", "ratio", "before", "asked", "answered", "before", "before"]
    print(QUIET.format("kind", "receipts", "missing", "", *heads), flush=True)
    config = write_config(folder)
    for kind, count in of_kinds(sizes):
        full = write_snapshot(folder, kind, count)
        for name, lacks in LACKING.items():
            mine, missing = write_part(folder, full, lacks)
            times = [float("inf")] * len(programs)
            for _ in range(turns):
                for at, program in enumerate(programs):
                    took, new, state = pulled(program, config, full, mine, folder)
                    times[at] = min(times[at], took)
                    if new != missing or not filecmp.cmp(state, full, shallow=False):
                        stop(f"{name}: a pull brought {new}")
            moved = [relayed(program, config, full, mine, folder) for program in [programs[0], *programs[2:]]]
            took = [f"{times[0]:.2f}", f"{times[1]:.2f}", f"{times[0] / times[1]:.2f}", *(f"{it:.2f}" for it in times[2:])]
            bytes_moved = [number for asked, answered in moved for number in (len(asked), answered)]
            rest = [""] * (4 - len(took)), [""] * (4 - len(bytes_moved))
            print(QUIET.format(kind, count, name, missing, *took, *rest[0], *bytes_moved, *rest[1]), flush=True)


def ask(port, questions):
    """One session by hand: the questions are sent while the answers are read. How many bytes were answered."""
    with socket.create_connection((HOST, port)) as stream:
        sender = threading.Thread(target=lambda: (stream.sendall(questions), stream.shutdown(socket.SHUT_WR)))
        sender.start()
        answered = 0
        while piece := stream.recv(65_536):
            answered += len(piece)
        sender.join()
        return answered


def print_thousand(ours, folder):
    print(f"\n{SESSIONS} sessions one after another with one server, which holds all that is asked about.")
    config = write_config(folder)
    count = SIZES["small"][-1]
    full = write_snapshot(folder, "small", count)
    questions, expected = relayed(ours, config, full, full, folder)
    port = free_port()
    server = Server(ours.serve(config, full, port, SESSIONS), port)
    started = time.monotonic()
    for number in range(1, SESSIONS + 1):
        if ask(port, questions) != expected:
            stop(f"session {number} had another answer")
        if number in (1, 10, 100, SESSIONS - 1):
            held, most = server.memory()
            print(f"after {number}: {held} bytes held, {most} at most", flush=True)
    took = time.monotonic() - started
    said = server.end().strip()
    print(f"{count} receipts, {len(questions)} bytes asked and {expected} answered each: {took / SESSIONS * 1e3:.1f} ms a")
    print(f"session, the client's time in it; the server said: {said}")


def of_kinds(sizes):
    return [(kind, count) for kind in sizes for count in sizes[kind]]


def main(words):
    turns = int(words[0]) if words else 3
    parts = [word for word in words[1:] if word in PARTS] or PARTS
    kinds = [kind for kind in KINDS if kind in words[1:]] or KINDS
    named = [int(word) for word in words[1:] if word.isdigit()]
    if unknown := [word for word in words[1:] if not word.isdigit() and word not in PARTS and word not in KINDS]:
        stop(f"no part and no kind: {' '.join(unknown)}")
    sizes = {kind: named or SIZES[kind] for kind in kinds}
    last = {kind: named or SIZES[kind][-1:] for kind in kinds}
    most = max(count for _, count in of_kinds(sizes))
    random.seed(1)
    peer = build_peer("sync")
    print(f"Least times of {turns} runs of each program, in turns.\n")
    with tempfile.TemporaryDirectory(dir=os.environ.get("TMPDIR")) as folder:
        if "memory" in parts:
            own, earlier = build_with_earlier("sync", "replica_sync", "trust_closure")
            programs = [own, peer, *earlier]
            print_snapshots(programs, Path(folder), turns, sizes)
            print_sessions(programs, Path(folder), turns, sizes)
        if "loopback" in parts:
            print_loopback([Ours(most), Peer(peer)], Path(folder), turns, last)
        if "quiet" in parts:
            earlier = [Ours(most, program) for program in earlier_programs()]
            print_quiet([Ours(most), Peer(peer), *earlier], Path(folder), turns, last)
        if "thousand" in parts:
            print_thousand(Ours(most), Path(folder))

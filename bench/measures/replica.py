"""Measures a replica that stays: how long its local requests take, how many bundles it acknowledges in a second, what its
sessions cost if nothing, one receipt or only records are missing, what a page or a status costs, and what it holds.

Each client speaks to the socket itself, so that no start of a program is in a time: over one connection for each request, and
for the bundles that are acknowledged in a second also over one that it keeps. The disk is that of the temporary folder. The
bundles that are observed list the key of the last one that is held, so any of them vouches for the next one.

arguments: [COUNT [REQUESTS]]   how many usual receipts are held at first, 61440 if left out, and how often each request is
                            made, 1000 if left out; a replica may hold 65,536, or what is needed here if that is more
"""
import base64
import hashlib
import json
import os
import socket
import statistics
import subprocess
import tempfile
import threading
import time
from pathlib import Path

from building import find_program, stop
from receipts import DOMAIN, ENDPOINT, config_text, limit_words, write_state

LEAST_EVERY = 1
SECONDS = 600
MOST_BYTES = 1 << 40
IDLE_SESSIONS = 20


def ask(path, words, text=b""):
    """The reply's status and output, and how long it took."""
    begun = time.perf_counter()
    with socket.socket(socket.AF_UNIX) as stream:
        stream.connect(str(path))
        stream.sendall(json.dumps(words).encode() + b"\n" + text)
        stream.shutdown(socket.SHUT_WR)
        reply = b"".join(iter(lambda: stream.recv(1 << 20), b""))
    took = time.perf_counter() - begun
    head, _, rest = reply.partition(b"\n")
    head = json.loads(head)
    if head["status"] != 0:
        stop(f"{words}: {reply[:200]}")
    return rest[: head["output"]], took


def ask_kept(stream, words, text=b""):
    """The same over a connection that is kept."""
    stream.sendall(b'{"input":%d,"words":%s}\n' % (len(text), json.dumps(words).encode()) + text)
    reply = stream.recv(1 << 20)
    while b"\n" not in reply:
        reply += stream.recv(1 << 20)
    head, _, rest = reply.partition(b"\n")
    head = json.loads(head)
    while len(rest) < head["output"] + head["errors"]:
        rest += stream.recv(1 << 20)
    if head["status"] != 0:
        stop(f"{words}: {reply[:200]}")


class Held:
    """The state of a replica, and the bundles that it may observe."""

    def __init__(self, folder, count, more, kind="usual"):
        """So many receipts are held, and so many more may come."""
        self.folder = folder
        (folder / "config").write_text(config_text())
        self.last = json.loads(write_state(folder / "state", kind, count))["doc"]
        # A session may bring 4 GiB, less the bytes of the files, if nothing else is said.
        self.limits = limit_words(count + more)
        self.limits += ["--most-bytes", str(MOST_BYTES)] if self.limits else []
        first = next(key for key in self.last["keys"] if "x5c" in key)
        self.key = hashlib.sha256(base64.b64decode(first["x5c"][0])).hexdigest()
        self.sequence = self.last["spiffe_sequence"]

    def next_bundle(self):
        self.sequence += 1
        return json.dumps({**self.last, "spiffe_sequence": self.sequence}).encode()

    def words(self):
        return ["observe", "--domain", DOMAIN, "--endpoint", ENDPOINT, "--key", self.key]


def free_address():
    with socket.socket() as probe:
        probe.bind(("127.0.0.1", 0))
        return f"127.0.0.1:{probe.getsockname()[1]}"


def start(program, folder, name, *words):
    begun = time.perf_counter()
    # A replica waits for whoever reads its events, so they go to a file.
    events = folder / f"{name}.events"
    process = subprocess.Popen(
        [program, "replica", "--config", folder / "config", "--state", folder / name, "--socket", folder / f"{name}.socket",
         "--new", *words], stdout=subprocess.PIPE, stderr=events.open("wb"))
    if not process.stdout.readline().startswith(b"ready "):
        stop("the replica does not begin: " + events.read_text())
    began = time.perf_counter() - begun
    process.events = events.open("rb")
    return process, began


def memory(process, what):
    for line in Path(f"/proc/{process.pid}/status").read_text().splitlines():
        if line.startswith(what):
            return int(line.split()[1]) * 1024
    return 0


def percentiles(times):
    ordered = sorted(times)
    return statistics.median(ordered), ordered[int(len(ordered) * 0.99)]


def print_times(name, times):
    median, most = percentiles(times)
    print(f"{name:<28} {1000 * median:>9.3f} {1000 * most:>9.3f}", flush=True)


def sync_times(folder, count):
    """How long the disk takes for an append of a receipt's size and its sync, without a replica."""
    times = []
    with open(folder / "probe", "wb", buffering=0) as file:
        for _ in range(count):
            begun = time.perf_counter()
            file.write(bytes(4_000))
            os.fdatasync(file.fileno())
            times.append(time.perf_counter() - begun)
    return times


def observed_a_second(held, path, clients, each, keeps):
    """How many bundles this many clients have acknowledged in a second."""
    bundles = [[held.next_bundle() for _ in range(each)] for _ in range(clients)]

    def run(own):
        if not keeps:
            for text in own:
                ask(path, held.words(), text)
            return
        with socket.socket(socket.AF_UNIX) as stream:
            stream.connect(str(path))
            for text in own:
                ask_kept(stream, held.words(), text)

    threads = [threading.Thread(target=run, args=(own,)) for own in bundles]
    begun = time.perf_counter()
    for thread in threads:
        thread.start()
    for thread in threads:
        thread.join()
    return clients * each / (time.perf_counter() - begun)


def next_pull(replica):
    """The line that reports the next session."""
    line = b""
    for _ in range(SECONDS * 1_000):
        part = replica.events.readline()
        line += part
        if not line.endswith(b"\n"):
            time.sleep(0.001)
        elif line.startswith(b"event=pull"):
            return line.decode().strip()
        else:
            line = b""
    stop("no session is reported")


def used(process):
    """The seconds of a processor that it used."""
    return int(Path(f"/proc/{process.pid}/schedstat").read_text().split()[0]) / 1e9


def idle_seconds(answers, asks, sessions):
    """The seconds of a processor that a session that brings nothing takes at both sides, all that the loop does for it
    included."""
    next_pull(asks)
    before = used(answers), used(asks)
    for _ in range(sessions):
        line = next_pull(asks)
        if " new=0 records=0 " not in line or "fault" in line:
            stop(f"a session was not idle: {line}")
    after = used(answers), used(asks)
    return [(end - begin) / sessions for begin, end in zip(before, after)]


def print_idle(answers, asks, sessions):
    told = " and ".join(f"{1e3 * seconds:.2f}" for seconds in idle_seconds(answers, asks, sessions))
    print(f"{sessions} idle sessions: {told} ms of a processor each, at the one that answers and the one that asks", flush=True)


def print_one(held, path, asks):
    """A session that brings one receipt."""
    ask(path, held.words(), held.next_bundle())
    for _ in range(3):
        line = next_pull(asks)
        if " new=1 " in line:
            print(f"a pull of one receipt: {line}", flush=True)
            return
    stop("one receipt was not pulled")


def get(address, path):
    """The response with the page, on a connection of its own."""
    host, _, port = address.rpartition(":")
    with socket.create_connection((host, int(port))) as stream:
        stream.sendall(f"GET {path} HTTP/1.1\r\nHost: {address}\r\n\r\n".encode())
        response = b"".join(iter(lambda: stream.recv(1 << 20), b""))
    if not response.startswith(b"HTTP/1.1 200 "):
        stop(f"{path}: {response[:200]}")


def print_costs(process, address, path, requests):
    """What a page, or a status at the socket, costs the replica, all that its loop does for it included."""
    costs = []
    for name, asked in [(page, lambda page=page: get(address, page)) for page in PAGES] + [
            ("status --at", lambda: ask(path, ["status", "--format=json"]))]:
        asked()
        before = used(process)
        for _ in range(requests):
            asked()
        costs.append(f"{name} {1e6 * (used(process) - before) / requests:.0f}")
    print(f"microseconds of a processor: {', '.join(costs)}", flush=True)


PAGES = ("/live", "/metrics", "/status.json")
RECORDS = 4_096


def print_records(held, answers, asks):
    """A session that brings records, and idle ones after it, at replicas that hold no receipt."""
    keys = sorted(hashlib.sha256(b"%d" % number).hexdigest() for number in range(RECORDS))
    lines = "".join(f'{{"distrust":"{key}","domain":"{DOMAIN}"}}\n' for key in keys)
    head = f'{{"config":"{hashlib.sha256(config_text().encode()).hexdigest()}","format":2}}\n'
    ask(held.folder / "none.socket", ["merge"], f'{head}{lines}{{"count":0,"distrusts":{RECORDS}}}\n'.encode())
    for _ in range(3):
        line = next_pull(asks)
        if f" records={RECORDS} " in line:
            break
    print(f"a pull of {RECORDS} records: {line}", flush=True)
    print_idle(answers, asks, IDLE_SESSIONS)


def main(words):
    count = int(words[0]) if words else 61_440
    requests = int(words[1]) if len(words) > 1 else 1_000
    program = find_program()
    with tempfile.TemporaryDirectory(prefix="fedbundle-") as folder:
        folder = Path(folder)
        held = Held(folder, count, 5 * requests + 100)
        address = free_address()
        health = free_address()
        replica, began = start(program, folder, "state", "--listen", address, "--every", "86400", "--health", health, *held.limits)
        path = folder / "state.socket"
        print(f"{count} usual receipts are held; {(folder / 'state').stat().st_size} bytes of state")
        print(f"from the start to ready: {began:.2f} s; held then: {memory(replica, 'VmRSS') / 2**20:.0f} MiB")
        print(f"{'ms':<28} {'median':>9} {'99 %':>9}")
        print_times("append and sync of 4,000 B", sync_times(folder, requests))
        print_times("bundle", [ask(path, ["bundle", "--domain", DOMAIN])[1] for _ in range(requests)])
        print_times("observe", [ask(path, held.words(), held.next_bundle())[1] for _ in range(requests)])
        for clients, keeps in ((1, False), (16, False), (1, True), (16, True)):
            rate = observed_a_second(held, path, clients, requests // clients, keeps)
            what = "connections kept" if keeps else "a connection for each"
            print(f"acknowledged a second, {clients:>2} clients, {what}: {rate:.0f}", flush=True)
        print_costs(replica, health, path, requests)
        other, _ = start(program, folder, "other", "--peers", address, "--every", str(LEAST_EVERY), *held.limits)
        first, idle = (next_pull(other) for _ in range(2))
        print(f"a pull of all: {first}\na pull between equal replicas: {idle}", flush=True)
        print_idle(replica, other, IDLE_SESSIONS)
        print_one(held, path, other)
        other.kill()
        address = free_address()
        none, _ = start(program, folder, "none", "--listen", address, "--every", "86400")
        asks, _ = start(program, folder, "asks", "--peers", address, "--every", str(LEAST_EVERY))
        print_records(held, none, asks)
        for process in none, asks:
            process.kill()
            process.wait()
        print(f"most held: {memory(replica, 'VmHWM') / 2**20:.0f} MiB")
        replica.kill()
        replica.wait()
        other.wait()

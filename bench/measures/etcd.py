"""Measures a replica and etcd, which a user might keep bundles in instead: the same bundles, on the same disk, in turns.
The clients are one program in Go for both, over etcd's own library and over that of bindings/go. Each keeps its connection.

An etcd of one member and a replica without peers acknowledge a write when it is on the disk. etcd checks no bundle, and
a replica checks each and answers with its receipt. etcd runs as Debian has it, and a replica with its usual options.

arguments: [COUNT [REQUESTS]]   how many usual bundles are held at first, 16384 if left out, and how many requests the
                            clients of each line make together, 4000 if left out
"""
import os
import shutil
import subprocess
import tempfile
import time
import urllib.request
from pathlib import Path

from building import BENCH, OUT, TOP, find_program, stop
from measures.replica import Held, free_address, memory, start
from receipts import DOMAIN, ENDPOINT

PACKAGES = "etcd-server golang-go golang-etcd-server-dev"
DEBIAN = Path("/usr/share/gocode")
FILLERS = 16


def build():
    """Builds the clients, over Debian's sources."""
    if not (shutil.which("etcd") and shutil.which("go") and (DEBIAN / "src/go.etcd.io/etcd/clientv3").exists()):
        stop(f"as root: apt-get install -y {PACKAGES}")
    path = OUT / "go"
    for name, folder in (("bench/etcd", BENCH / "etcd"), ("fedbundle.example/fedbundle", TOP / "bindings/go")):
        link = path / "src" / name
        link.parent.mkdir(parents=True, exist_ok=True)
        link.unlink(missing_ok=True)
        link.symlink_to(folder)
    own = {**os.environ, "GO111MODULE": "off", "GOPATH": f"{path}:{DEBIAN}", "GOFLAGS": ""}
    subprocess.run(["go", "build", "-o", OUT / "etcd-clients", "bench/etcd"], env=own, check=True)
    return OUT / "etcd-clients"


class Etcd:
    name = "etcd"

    def __init__(self, folder):
        self.folder = folder
        self.address, self.peers = f"http://{free_address()}", f"http://{free_address()}"
        self.words = [self.address.removeprefix("http://")]
        self.more = []

    def start(self):
        """Starts it, and returns how long it took until it answered."""
        begun = time.perf_counter()
        self.process = subprocess.Popen(
            ["etcd", "--data-dir", self.folder / "etcd", "--listen-client-urls", self.address, "--advertise-client-urls", self.address,
             "--listen-peer-urls", self.peers, "--initial-advertise-peer-urls", self.peers, "--initial-cluster", f"default={self.peers}"],
            stdout=subprocess.DEVNULL, stderr=subprocess.DEVNULL)
        while time.perf_counter() - begun < 60:
            try:
                with urllib.request.urlopen(f"{self.address}/health") as answer:
                    if b'"true"' in answer.read():
                        return time.perf_counter() - begun
            except OSError:
                time.sleep(0.005)
        stop("etcd does not begin")

    def disk(self):
        return sum(file.stat().st_size for file in (self.folder / "etcd").rglob("*") if file.is_file())


class Replica:
    name = "fedbundle"

    def __init__(self, folder, held, program):
        self.folder, self.held, self.program = folder, held, program
        self.words = [str(folder / "state.socket")]
        self.more = [DOMAIN, ENDPOINT, held.key]

    def start(self):
        self.process, began = start(self.program, self.folder, "state", *self.held.limits)
        return began

    def disk(self):
        return sum(file.stat().st_size for file in self.folder.glob("state*") if file.is_file())


def end(process):
    process.terminate()
    process.wait()


class Bundles:
    """Bundles that were not written yet, a line each, from the first that is free on."""

    def __init__(self, folder, held, count):
        self.path, self.texts, self.next = folder / "bundles", [held.next_bundle() for _ in range(count)], 0

    def take(self, count):
        self.path.write_bytes(b"\n".join(self.texts[self.next: self.next + count]) + b"\n")
        self.next += count
        return str(self.path)


def run(clients, does, side, bundles, number, each):
    """The requests of so many clients: how many a second, and the median and the 99th percentile of their times in ms."""
    words = [clients, does, side.name, *side.words, bundles, str(number), str(each), *side.more]
    ran = subprocess.run(words, capture_output=True, text=True)
    if ran.returncode != 0:
        stop(f"{side.name}: {ran.stderr[-300:]}")
    return [float(word) for word in ran.stdout.split()]


def fill(clients, etcd, bundles, count):
    run(clients, "write", etcd, bundles.take(count), FILLERS, count // FILLERS)


def main(words):
    count = int(words[0]) if words else 16_384
    requests = int(words[1]) if len(words) > 1 else 4_000
    program, clients = find_program(), build()
    with tempfile.TemporaryDirectory(prefix="fedbundle-") as folder:
        folder = Path(folder)
        held = Held(folder, count, 4 * requests + count)
        bundles = Bundles(folder, held, count + 4 * requests)
        etcd, replica = Etcd(folder), Replica(folder, held, program)
        etcd.start()
        fill(clients, etcd, bundles, count)
        replica.start()
        try:
            print(f"{count} usual bundles are held; requests a second, and ms: median, 99 %")
            for does in ("write", "read"):
                for number in (1, 16):
                    texts = bundles.take(requests) if does == "write" else str(bundles.path)
                    for side in (replica, etcd):
                        rate, median, most = run(clients, does, side, texts, number, requests // number)
                        print(f"{does:<6} {number:>2} clients  {side.name:<10} {rate:>8.0f} {median:>9.3f} {most:>9.3f}", flush=True)
            for side in (replica, etcd):
                print(f"{side.name:<10} {memory(side.process, 'VmRSS') / 2**20:.0f} MiB held, {side.disk() / 1e6:.0f} MB of files", flush=True)
                end(side.process)
                print(f"{side.name:<10} ready again after {side.start():.2f} s, with {memory(side.process, 'VmRSS') / 2**20:.0f} MiB", flush=True)
        finally:
            for side in (replica, etcd):
                end(side.process)

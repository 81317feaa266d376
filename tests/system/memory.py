#!/usr/bin/env python3
"""A store that is filled up to `--most-bytes` fits the memory that the units and manifests give a replica.

The shape that takes most memory for its bytes is a document of thousands of short keys: six times as much. The units allow a
replica sixteen times the bytes of the default, which is enough for two configurations and for requests. Here a smaller store
stands for the whole one, and a limit of the address space for that of the unit.

- limits: `--help` names the default, and the unit and the manifest have sixteen times that;
- start: a store of MIB starts again under that limit, and answers; also with a previous configuration, so that all is held twice;
- full: a replica whose store may have a mebibyte takes no more from a peer that has more, says so of that peer (`fault bytes`),
  and starts again.

usage: memory [MIB]     the store's size, 64 if nothing is said; 256 is the default of the program. The status is 1 if something is
                        wrong
"""
import json
import re
import resource
import subprocess
import sys
import time
from pathlib import Path

sys.dont_write_bytecode = True
TOP = Path(__file__).resolve().parents[2]
sys.path[:0] = [str(TOP / "tests/lib"), str(TOP / "bench")]
import receipts  # noqa: E402
from harness import HANG, Looks, find_program, first_port, temporary  # noqa: E402

# How many times the bytes of a store its replica may take of memory, in the units as here.
TIMES = 16
MIB = 1 << 20
KEYS = 9_000
looks = Looks()
want = looks.want


def many(random_):
    """Thousands of short authorities."""
    ders = list(dict.fromkeys(random_.randbytes(6) for _ in range(KEYS)))
    return [receipts.rsa(der, "AQAB") for der in ders], ders[0]


class Replica:
    """A replica in a folder, with the most address space that it may take."""

    def __init__(self, program, folder, most_memory, *words):
        self.program, self.socket = program, folder / "socket"
        words = [program, "replica", "--config", "config", "--state", "state", "--socket", self.socket, *words]
        self.process = subprocess.Popen(words, cwd=folder, stdout=subprocess.PIPE, stderr=subprocess.STDOUT,
                                        preexec_fn=lambda: resource.setrlimit(resource.RLIMIT_AS, (most_memory, most_memory)))

    def ask(self, command, *words):
        return subprocess.run([self.program, command, *words, "--at", self.socket], capture_output=True, text=True)

    def answers(self):
        """Whether it answers before it ends."""
        end = time.monotonic() + HANG
        while self.process.poll() is None and time.monotonic() < end:
            if self.ask("polls", "--now", "0").returncode == 0:
                return True
            time.sleep(0.1)
        return False

    def until(self, text):
        """Whether its status comes to have the text."""
        end, found = time.monotonic() + HANG, None
        while time.monotonic() < end and not found:
            time.sleep(0.1)
            found = re.search(text, self.ask("status").stdout)
        return bool(found)

    def end(self):
        self.ask("stop")
        said = self.process.communicate(timeout=HANG)[0]
        return self.process.returncode, said


def other_config():
    """The configuration with one domain more."""
    config = json.loads(receipts.config_text())
    first = config["relationships"][0]
    config["relationships"].append({**first, "domain": "b.example", "endpoint": "spiffe://b.example/bundle", "url": "https://b.example/"})
    return json.dumps(config, separators=(",", ":"), sort_keys=True)


def limits(program):
    help_text = subprocess.run([program, "replica", "--help"], capture_output=True, text=True).stdout
    most = int(re.search(r"with those of the\s+state file\s+\[(\d+)\]", help_text)[1])
    unit = (TOP / "deploy/fedbundle-replica.service").read_text()
    manifest = (TOP / "deploy/kubernetes/statefulset.yaml").read_text()
    in_unit = re.search(r"^MemoryMax=(\d+)G$", unit, re.M)
    in_manifest = re.search(r"limits: \{memory: (\d+)Gi\}", manifest)
    want("the unit allows sixteen times the default", in_unit and int(in_unit[1]) << 30 == TIMES * most, most, in_unit)
    want("the manifest allows as much", in_manifest and int(in_manifest[1]) << 30 == TIMES * most, most, in_manifest)


def start(program, folder, size):
    """The store as it is, and then with a previous configuration."""
    room = folder / "start"
    room.mkdir()
    (room / "config").write_text(receipts.config_text())
    count = size // 657_000
    receipts.write_state(room / "state", "many", count)
    want("the store is nearly full", 0.95 * size < (room / "state").stat().st_size <= size, (room / "state").stat().st_size)
    for words in [], ["--previous", "before"]:
        if words:
            (room / "config").rename(room / "before")
            (room / "config").write_text(other_config())
        replica = Replica(program, room, TIMES * size, *words)
        want(f"it answers {words}", replica.answers())
        held = replica.ask("status").stdout
        want(f"it holds all {words}", f"receipts {count} of " in held, held)
        status, said = replica.end()
        want(f"it ends well {words}", status == 0, status, said)


def full(program, folder):
    giver, taker = folder / "giver", folder / "taker"
    for room, count in (giver, 4), (taker, 0):
        room.mkdir()
        (room / "config").write_text(receipts.config_text())
        receipts.write_state(room / "state", "many", count)
    address = f"127.0.0.1:{first_port()}"
    gives = Replica(program, giver, 1 << 30, "--listen", address)
    words = ["--most-bytes", str(MIB), "--peers", address, "--every", "1"]
    for _ in range(2):
        takes = Replica(program, taker, TIMES * MIB + (64 << 20), *words)
        want("it answers while a peer has more", takes.answers())
        want("it says which peer brings too much", takes.until(r"peer 127\.0\.0\.1:\d+ .*fault bytes"), takes.ask("status").stdout)
        status, said = takes.end()
        want("it ends well", status == 0, status, said)
    sizes = sum(path.stat().st_size for path in taker.glob("state*") if path.name in ("state", "state.journal"))
    want("its files have no more than they may", sizes <= MIB, sizes)
    gives.end()


def main():
    words = sys.argv[1:]
    if len(words) > 1 or any(not word.isdigit() for word in words):
        sys.exit("usage: memory [MIB]")
    receipts.MAKERS["many"] = many
    program = find_program()
    limits(program)
    with temporary() as name:
        folder = Path(name).resolve()
        start(program, folder, int(words[0] if words else 64) * MIB)
        full(program, folder)
    looks.end("memory")


if __name__ == "__main__":
    main()

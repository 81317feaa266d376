#!/usr/bin/env python3
"""Runs replicas that stay, on loopback addresses, and looks at what clients of `--at` and other replicas see.

- Three replicas that pull from one another once a second: a bundle observed at one is the current bundle of all three,
  as equal bytes, within three seconds, and so is a key distrusted at another.
- The commands with `--at` print what the same commands over files print, and end with the same status.
- `distrust` refuses a key that no bundle lists, held or configured, and makes no record of it, unless it is asked with
  --unknown-key. It prints of which domain how many bundles fell, and with --verbose what it prints with --dry-run.
- A replica is killed (SIGKILL) at random times while eight clients observe bundles one after another. Started again,
  it holds all that was acknowledged (D-240, D-244).
- While nothing comes it makes no turns: the process is woken as often as it has something to do, and takes no time.
- Clients that send a byte a second, and a peer that asks and never reads, do not make a `bundle` take longer than 100
  milliseconds. If there are more connections than there may be, a request that comes whole is answered.
- A log that nobody reads, and accepts that fail because there are too few descriptors, neither end it nor make it turn
  without a pause.
- A full pipe as standard error makes no request wait: events are left out, and once it is read again the next line says
  how many. No line is torn.
- `status --at` shows what `status` over the files shows, and in addition the bytes of both files and how the sessions with
  each peer ended.
- A journal of more than 8 MiB is folded (D-245) into the state file while requests come, and nothing is lost by it, also if
  the replica is killed meanwhile. Behind a fold the journal has only what came since it began (D-571, D-572).
- However many others ask (D-370), a request of this machine is answered. A replica that was stopped by a signal goes on.
- A second replica, other commands that write, and a socket's file of another kind are refused; a socket that a killed
  replica left is replaced.
- The system refuses its writes and syncs, one after another: what was acknowledged is held. So it is if a call of a
  fold is refused, or the replica is killed before or behind it. After such a refusal it goes on, and leaves no new state.
- If the state cannot be written at its beginning, it goes on with the journal, whose torn last line is cut off.
- The lock, the journal or the state is removed or replaced under it: what was acknowledged is held at the next start.
- A socket's path that is too long, or to which access is refused, is reported so. It removes only a socket of its own.
- Clients wait for a reply as long as --wait says, and then end with `no reply`.
- Two replicas with different limits (--most-receipts) pull from each other: the one that is full takes no more, and says so.
- At the socket of --read-socket nothing can be changed, and the same is shown as at the other one. An address of --listen that other
  machines reach is refused without --listen-anywhere.

It needs python3, cc and nm. The program is the one that ./fedbundle runs, or the one that $FEDBUNDLE names.

usage: replica [KILLS [PART..]]   this many kills, 20 if left out; the parts are three, files, keys, status, beginnings, limits,
    most, wait, idle, log, mute, descriptors, slow, crowd, signal, fold, pieces, kills, refusals, folds, full, lost, socket, read and
    anywhere, all if left out; the status is 1 if something is wrong
"""
import base64
import fcntl
import hashlib
import json
import os
import random
import re
import resource
import signal
import socket
import subprocess
import sys
import threading
import time
from pathlib import Path

sys.dont_write_bytecode = True
sys.path.insert(0, str(Path(__file__).resolve().parent.parent / "lib"))
from harness import HANG, KINDS, TOLD, build_library, find_program, listener_of_own, shown, temporary  # noqa: E402

DOMAIN = "a.example"
ENDPOINT = "spiffe://a.example/bundle"
DER = b"the certificate of each bundle"
KEY = hashlib.sha256(DER).hexdigest()
OTHER_DER = b"another certificate"
SLOWEST = 0.1
LOCAL = 64
CLIENTS = 8
IN_A_ROW = 20

faults = []
ran = 0


def want(what, right, *seen):
    global ran
    ran += 1
    if not right:
        faults.append(f"{what}: {', '.join(shown(value) for value in seen)}")


def authority(der):
    return {"e": "AQAB", "kty": "RSA", "n": "AQAB", "use": "x509-svid", "x5c": [base64.b64encode(der).decode()]}


def bundle(sequence, *ders):
    """A bundle that lists the key that vouches for each of them, and others."""
    keys = [authority(der) for der in (DER, *ders)]
    return json.dumps({"keys": keys, "spiffe_sequence": sequence}).encode()


CONFIG = {
    "relationships": [{"domain": DOMAIN, "endpoint": ENDPOINT, "profile": "https_spiffe", "url": "https://a.example/"}],
    "seeds": [{"domain": DOMAIN, "bundle": json.loads(bundle(1))}],
}
OBSERVE = ["observe", "--domain", DOMAIN, "--endpoint", ENDPOINT, "--key", KEY]


def free_address():
    listener, port = listener_of_own()
    listener.close()
    return f"127.0.0.1:{port}"


def ask(path, words, text=b"", seconds=HANG):
    """What a replica replies to a request: the status and the two streams. None if it does not reply."""
    with socket.socket(socket.AF_UNIX) as stream:
        stream.settimeout(seconds)
        try:
            stream.connect(str(path))
            stream.sendall(json.dumps(words).encode() + b"\n" + text)
            stream.shutdown(socket.SHUT_WR)
        except OSError:
            pass
        reply = b""
        try:
            while piece := stream.recv(1 << 20):
                reply += piece
        except OSError:
            pass
    head, _, rest = reply.partition(b"\n")
    try:
        head = json.loads(head)
    except ValueError:
        return None
    if len(rest) != head["output"] + head["errors"]:
        return None
    return head["status"], rest[: head["output"]], rest[head["output"] :]


def limit_files(size):
    signal.signal(signal.SIGXFSZ, signal.SIG_IGN)
    resource.setrlimit(resource.RLIMIT_FSIZE, (size, size))


class Replica:
    """A replica in a folder of its own. It is started once it is entered."""

    def __init__(self, program, folder, *words, environment=None):
        self.program, self.folder, self.words = program, Path(folder), words
        self.environment = environment
        self.folder.mkdir(exist_ok=True)
        (self.folder / "config").write_text(json.dumps(CONFIG))
        self.socket = self.folder / "socket"
        self.process = None

    def start(self, log=None, limit=None):
        """Starts it, if a limit is given so that none of its files may have more bytes."""
        words = [self.program, "replica", "--config", "config", "--state", "state", "--socket", "socket", "--new"]
        self.log = open(self.folder / "log", "ab")
        self.process = subprocess.Popen(
            [*words, *self.words], cwd=self.folder, stdin=subprocess.DEVNULL, stdout=subprocess.PIPE,
            stderr=self.log if log is None else log, env={**os.environ, **(self.environment or {})},
            preexec_fn=None if limit is None else lambda: limit_files(limit),
        )
        self.ready = self.process.stdout.readline()
        return self

    def run(self, word, *more, text=b""):
        """The program over the state file."""
        words = [self.program, word, "--config", "config", "--state", "state", *more]
        return subprocess.run(words, input=text, capture_output=True, cwd=self.folder, timeout=HANG)

    def run_config(self, *more):
        """What the program says of the configuration."""
        words = [self.program, "config", "--config", "config", *more]
        return subprocess.run(words, capture_output=True, cwd=self.folder, timeout=HANG)

    def run_at(self, word, *more, text=b""):
        words = [self.program, word, "--at", "socket", *more]
        return subprocess.run(words, input=text, capture_output=True, cwd=self.folder, timeout=HANG)

    def ask(self, *words, text=b""):
        return ask(self.socket, words, text)

    def observe(self, sequence, *ders):
        return self.ask(*OBSERVE, text=bundle(sequence, *ders))

    def kill(self):
        self.process.kill()
        self.end()

    def end(self):
        status = self.process.wait(HANG)
        self.process.stdout.close()
        self.log.close()
        self.process = None
        return status

    def stop(self):
        self.run_at("stop")
        return self.end()

    def said(self):
        return (self.folder / "log").read_text()

    def times(self):
        """How often it was woken, and how many ticks of the processor it took."""
        status = Path(f"/proc/{self.process.pid}/status").read_text().splitlines()
        woken = sum(int(line.split()[1]) for line in status if "ctxt_switches" in line)
        fields = Path(f"/proc/{self.process.pid}/stat").read_text().rsplit(")", 1)[1].split()
        return woken, int(fields[11]) + int(fields[12])

    def __enter__(self):
        return self.start()

    def __exit__(self, *_):
        if self.process:
            self.kill()


def within(seconds, holds):
    """Whether it holds within this many seconds."""
    end = time.monotonic() + seconds
    while not holds():
        if time.monotonic() > end:
            return False
        time.sleep(0.02)
    return True


def three_replicas(program, above):
    """What one takes all have within three rounds of pulls."""
    addresses = [free_address() for _ in range(3)]
    replicas = []
    for own in addresses:
        others = ",".join(other for other in addresses if other != own)
        folder = above / f"three-{len(replicas)}"
        replicas.append(Replica(program, folder, "--listen", own, "--peers", others, "--every", "1").start())
    try:
        wanted = f"ready {replicas[0].ready.split()[1].decode()} receipts 0 distrusts 0\n".encode()
        want("three, ready", all(it.ready == wanted for it in replicas), [it.ready for it in replicas])
        taken = replicas[0].run_at(*OBSERVE, text=bundle(2, OTHER_DER))
        want("three, observed", taken.returncode == 0 and taken.stdout.count(b"\n") == 1, taken)
        canon = replicas[0].run_at("bundle", "--domain", DOMAIN).stdout
        want("three, current", b'"spiffe_sequence":2' in canon, canon)

        def reports():
            return [it.ask("report") for it in replicas]

        same = within(HANG, lambda: all(it.ask("bundle", "--domain", DOMAIN) == (0, canon, b"") for it in replicas))
        want("three, a bundle reaches all", same, reports())
        key = hashlib.sha256(OTHER_DER).hexdigest()
        seen = replicas[1].ask("distrust", "--domain", DOMAIN, "--key", key)
        want("three, distrusted", seen == (0, b"", b""), seen)
        same = within(HANG, lambda: all(key.encode() in report[1] for report in reports()))
        want("three, a record reaches all", same, reports())
        seen = reports()
        want("three, equal reports", seen[0] == seen[1] == seen[2] and seen[0][0] == 0, seen)
        ended = [it.stop() for it in replicas]
        want("three, stopped", ended == [0, 0, 0], ended)
        states = [it.run("report").stdout for it in replicas]
        want("three, what the files say", all(state == seen[0][1] for state in states), states)
    finally:
        for it in replicas:
            it.__exit__()


def as_over_files(program, above):
    """Streams and statuses of the commands with `--at`, next to those over files."""
    rows = [
        ("bundle", ["--domain", DOMAIN], b""),
        ("bundle", ["--domain", "b.example"], b""),
        ("bundle", ["--domain", "A"], b""),
        ("report", [], b""),
        ("explain", ["--domain", DOMAIN], bundle(1)),
        ("explain", ["--domain", DOMAIN], bundle(9)),
        ("explain", ["--domain", DOMAIN], b"no bundle"),
        ("observe", [*OBSERVE[1:]], bundle(2)),
        ("observe", [*OBSERVE[1:]], bundle(2)),
        ("observe", [*OBSERVE[1:]], b"{}"),
        ("observe", [*OBSERVE[1:-1], "00"], bundle(3)),
        ("observe", [*OBSERVE[1:-1], "0" * 64], bundle(3)),
        ("polls", ["--now", "5"], b""),
        ("polls", ["--now", "5"], b"no polls\n"),
        ("polls", ["--now", "x"], b""),
        ("distrust", ["--domain", DOMAIN, "--key", "0" * 64, "--dry-run"], b""),
        ("distrust", ["--domain", DOMAIN, "--key", "0" * 64], b""),
        ("distrust", ["--domain", "b.example", "--key", "0" * 64], b""),
        ("merge", [], b"garbage\n"),
        ("bundle", ["--domain", DOMAIN, "--what"], b""),
        ("report", [], b""),
    ]
    files = Replica(program, above / "over-files")
    files.run("new")
    with Replica(program, above / "at") as at:
        for word, more, text in rows:
            # Only a replica looks for the key, unless it need not know it.
            unasked = ["--unknown-key"] if word == "distrust" else []
            over, by = files.run(word, *more, text=text), at.run_at(word, *more, *unasked, text=text)
            seen = [(it.returncode, it.stdout, it.stderr) for it in (over, by)]
            if "--what" in more:
                seen = [it[0] for it in seen]
            want(f"{word} {more} at a replica", seen[0] == seen[1], seen)
        carry_and_compare(files, at)
        files_of_old = (files.folder / "state").read_bytes()
        merged = at.run_at("merge", text=files_of_old)
        want("a merge of the same", (merged.returncode, merged.stdout) == (0, b"new 0\n"), merged)
        want("it is stopped", at.stop() == 0)
    want("no replica", at.run_at("report").stderr == b"fedbundle: no replica\n", at.run_at("report"))


def carry_and_compare(files, at):
    """The commands that read another file: a configuration, or a state."""
    changed = CONFIG | {"relationships": [], "seeds": [{"domain": DOMAIN, "bundle": json.loads(bundle(7))}]}
    empty = at.run("migrate", "--to", "config", "--records-only").stdout
    for it in (files, at):
        (it.folder / "changed").write_text(json.dumps(changed))
        (it.folder / "garbage").write_bytes(b"garbage\n")
        (it.folder / "records").write_bytes(empty)
    rows = [
        ("config", []), ("config", ["--format", "json"]), ("config", ["--format", "yaml"]),
        ("config", ["--with", "config"]), ("config", ["--with", "changed"]), ("config", ["--with", "garbage"]),
        ("config", ["--with", "absent"]), ("config", ["--with", "changed", "--format", "json"]), ("config", ["--with="]),
        ("migrate", []), ("migrate", ["--records-only"]), ("migrate", ["--to", "config"]), ("migrate", ["--to", "changed"]),
        ("migrate", ["--to", "changed", "--records-only"]), ("migrate", ["--to", "garbage"]), ("migrate", ["--to", "absent"]),
        ("reseed", []), ("reseed", ["--allow", DOMAIN]), ("reseed", ["--allow", "A"]),
        ("diff", ["--with", "records"]), ("diff", ["--with", "garbage"]), ("diff", ["--with", "absent"]), ("diff", []),
    ]
    for word, more in rows:
        over = files.run_config(*more) if word == "config" else files.run(word, *more)
        by = at.run_at(word, *more)
        seen = [(it.returncode, it.stdout, it.stderr) for it in (over, by)]
        want(f"{word} {more} at a replica", seen[0] == seen[1], *seen)
    differs = at.run_at("diff", "--with", "records")
    want("there is a difference", differs.returncode == 1 and differs.stdout.startswith(b"- receipt "), differs)
    same = at.run_at("diff", "--with", "socket")
    want("a replica and itself", (same.returncode, same.stdout, same.stderr) == (0, b"", b""), same)
    whole = at.run_at("diff", "--with", "state")
    want("a state with a journal", (whole.returncode, whole.stderr) == (3, b"fedbundle: a replica is running\n"), whole)
    with Replica(at.program, at.folder.parent / "another") as other:
        socket_of_other = str(other.socket)
        seen = other.ask("distrust", "--domain", DOMAIN, "--key", "1" * 64, "--unknown-key")
        want("it holds a record", seen == (0, b"", b""), seen)
        seen = at.run_at("diff", "--with", socket_of_other)
        want("what only the other holds", seen.returncode == 1 and seen.stdout.endswith(
            b"\n+ distrust %s domain %s\n" % (b"1" * 64, DOMAIN.encode())), seen)
        (at.folder / "other").write_bytes(other.run_at("migrate").stdout)
        over = at.run_at("diff", "--with", "other")
        want("a snapshot of it says the same", (over.returncode, over.stdout) == (seen.returncode, seen.stdout), over, seen)
    seen = at.run_at("diff", "--with", socket_of_other)
    want("there is no other", (seen.returncode, seen.stderr) == (3, b"fedbundle: no replica\n"), seen)


def known_keys(program, above):
    """What a replica says of a key that is to be distrusted, and of what falls."""
    seed, other, unknown = (["distrust", "--domain", DOMAIN, "--key", key]
                            for key in (KEY, hashlib.sha256(OTHER_DER).hexdigest(), "0" * 64))

    def records():
        return [line for line in replica.ask("list")[1].decode().splitlines() if line.startswith("distrust ")]

    with Replica(program, above / "keys") as replica:
        for sequence in (2, 3):
            want("a bundle with another key", replica.observe(sequence, OTHER_DER)[0] == 0)
        refused = (1, b"", b"fedbundle: no known key\n")
        for more in ([], ["--dry-run"], ["--verbose"]):
            seen = replica.ask(*unknown, *more)
            want(f"an unknown key {more}", seen == refused, seen)
            by = replica.run_at(*unknown, *more)
            want(f"an unknown key {more}, by the command", (by.returncode, by.stdout, by.stderr) == refused, by)
        seen = replica.ask("distrust", "--domain", "b.example", *unknown[3:])
        want("a key of a domain that is not configured", seen == refused, seen)
        for words in (unknown, seed):
            seen = replica.ask(*words, "--known")
            want("a flag of files", seen == (2, b"", b"fedbundle: usage\n"), seen)
        want("no record is made", records() == [], records())
        shown = replica.ask(*seed, "--dry-run")
        want("a dry run", shown[0] == 0 and shown[1].count(b"falls ") == 2 and shown[2] == b"", shown)
        want("a dry run makes no record", records() == [], records())
        seen = replica.ask(*seed, "--verbose")
        want("what fell, and what it changed", seen == (0, f"fell {DOMAIN} 2\n".encode(), shown[1]), seen, shown)
        want("a repeated one says nothing", replica.ask(*seed) == (0, b"", b""))
        seen = replica.run_at(*other)
        want("a key that only pending bundles list", (seen.returncode, seen.stdout, seen.stderr) == (0, b"", b""), seen)
        want("two records", len(records()) == 2, records())
        seen = replica.run_at(*unknown, "--unknown-key")
        want("a key that may be unknown", (seen.returncode, seen.stdout, seen.stderr) == (0, b"", b""), seen)
        want("its record", f"distrust {'0' * 64} domain {DOMAIN}" in records(), records())
        want("it is known by no bundle all the same", replica.ask(*unknown) == refused)
        said = [line for line in replica.said().splitlines() if line.startswith("event=distrust ")]
        wanted = [f"event=distrust domain={DOMAIN} key={words[4]} fell={fell}" for words, fell in
                  ((seed, 2), (other, 0), (unknown, 0))]
        want("an event for each record", said == wanted, said)


def own_status(program, above):
    """What `status --at` has at its end, in three formats."""
    here, nowhere = free_address(), free_address()
    words = ["--peers", f"{here},{nowhere}", "--every", "1"]
    with Replica(program, above / "shown", "--listen", here) as one, Replica(program, above / "own", *words) as two:
        one.observe(2)
        began = int(time.time())
        want("a receipt is pulled", within(HANG, lambda: b"receipts 1 of" in two.ask("status")[1]), two.ask("status"))
        ended_none = f"peer {here} ended-well none".encode()
        want("the session ends well", within(HANG, lambda: ended_none not in two.ask("status")[1]), two.ask("status"))
        want("a peer that is away", within(HANG, lambda: b"fault S9" in two.ask("status")[1]), two.ask("status"))
        over = two.run("status")
        shown_lines = two.ask("status")
        told, told_over = ([line for line in text.decode().splitlines() if not line.startswith("warning: ")]
                           for text in (shown_lines[1], over.stdout))
        want("status, what is held", told[: len(told_over)] == told_over, told, told_over)
        lines = told[len(told_over) :]
        ended = lines[2].split()[3] if len(lines) == 4 else "0"
        files = [(two.folder / name).stat().st_size for name in ("state", "state.journal")]
        wanted = [
            f"snapshot {files[0]} bytes", f"journal {files[1]} bytes",
            f"peer {here} ended-well {ended} fault none receipts 1", f"peer {nowhere} ended-well none fault S9 receipts 0",
        ]
        want("status, lines", lines == wanted and shown_lines[0] == over.returncode, lines, wanted)
        want("status, the moment", began <= int(ended) <= time.time(), began, ended)
        over = json.loads(two.run("status", "--format", "json").stdout)
        shown_json = json.loads(two.ask("status", "--format", "json")[1])
        peers = shown_json.pop("peers")
        seen = [shown_json.pop(name) for name in ("snapshot_bytes", "journal_bytes")]
        want("status, json", shown_json == over and seen == files, shown_json, seen)
        wanted = [
            {"peer": here, "ended_well": peers[0]["ended_well"], "fault": None, "receipts": 1},
            {"peer": nowhere, "ended_well": None, "fault": "S9", "receipts": 0},
        ]
        want("status, the peers in json", peers == wanted and peers[0]["ended_well"] >= began, peers)
        # Certificates and warnings come last.
        at_end = "# HELP fedbundle_certificate_not_after_timestamp_seconds"
        over = two.run("status", "--format", "prometheus").stdout.decode().partition(at_end)[0]
        metrics = two.ask("status", "--format", "prometheus")[1].decode().removeprefix(over)
        want("status, warnings as metrics", at_end in metrics, metrics)
        metrics = metrics.partition(at_end)[0].splitlines()
        samples = [line.rpartition(" ") for line in metrics if not line.startswith("#")]
        seen = {name: int(value) for name, _, value in samples}
        moment = seen.pop(f'fedbundle_peer_ended_well_timestamp_seconds{{peer="{here}"}}', 0)
        wanted = {
            "fedbundle_snapshot_bytes": files[0],
            "fedbundle_journal_bytes": files[1],
            f'fedbundle_peer_receipts_total{{peer="{here}"}}': 1,
            f'fedbundle_peer_receipts_total{{peer="{nowhere}"}}': 0,
            f'fedbundle_peer_fault_info{{peer="{nowhere}",fault="S9"}}': 1,
        }
        want("status, metrics", seen == wanted and moment >= began, seen, moment)
        named = [line.split()[2] for line in metrics if line.startswith("# TYPE ")]
        want("status, each metric has a type", set(named) == {name.partition("{")[0] for name in [*seen, "fedbundle_peer_"
             "ended_well_timestamp_seconds"]} and len(named) == 5, named)
        seen = two.ask("status", "--format", "yaml")
        want("status, another format", seen == (2, b"", b"fedbundle: usage\n"), seen)


def crowd(program, above):
    """More replicas ask than there is room for, and say nothing: requests of this machine and pulls go on."""
    address, other = free_address(), free_address()
    words = ["--listen", address, "--peers", other, "--every", "1"]
    with Replica(program, above / "other", "--listen", other) as two, Replica(program, above / "crowd", *words) as one:
        gossip = [socket.create_connection(address.rsplit(":", 1)) for _ in range(150)]
        want("they are refused, as there is no room", within(HANG, lambda: "event=refuse" in one.said()), one.said())
        local = [socket.socket(socket.AF_UNIX) for _ in range(LOCAL - 1)]
        for stream in local:
            stream.connect(str(one.socket))
        seen = one.ask("report")
        want("a request in a crowd", seen is not None and seen[0] == 0, seen)
        two.observe(2)
        want("a pull in a crowd", within(HANG, lambda: b"receipts 1 of" in one.ask("status")[1]), one.ask("status"))
        last = socket.socket(socket.AF_UNIX)
        last.connect(str(one.socket))
        want("one request more in a crowd", one.ask("report")[0] == 0, one.ask("report"))
        for stream in [*gossip, *local, last]:
            stream.close()
        want("they are gone", within(HANG, lambda: (one.ask("report") or [1])[0] == 0))


def folded(program, above):
    """Bundles of nearly a MiB, of which ten make a journal too long."""
    with Replica(program, above / "fold") as replica:
        state, journal = replica.folder / "state", replica.folder / "state.journal"
        acknowledged = []
        for sequence in range(2, 14):
            reply = replica.observe(sequence, bytes([sequence]) * 700_000)
            want(f"bundle {sequence} of a long journal", reply is not None and reply[0] == 0, reply and reply[2])
            acknowledged += [reply[1]] if reply and reply[0] == 0 else []
        within(HANG, lambda: "event=fold bytes=" in replica.said())
        sizes = (state.stat().st_size, journal.stat().st_size)
        want("it is folded once", replica.said().count("event=fold bytes=") == 1, replica.said())
        want("the state has the most of it, and the journal the rest", sizes[0] > 8_388_608 > sizes[1] > 0, sizes)
        own = [line for line in replica.ask("status")[1].decode().splitlines() if not line.startswith("warning: ")]
        want("what status says of both", own[-2:] == [f"snapshot {sizes[0]} bytes", f"journal {sizes[1]} bytes"], own[-2:])
        replica.kill()
        replica.start()
        lost = lost_of(replica, acknowledged)
        want("after a fold and a kill", not lost, len(lost))
    return f"{sizes[0]} bytes of state and {sizes[1]} of journal after {len(acknowledged)} bundles"


def stopped_by_signal(program, above):
    """SIGSTOP and SIGCONT interrupt a wait: nothing is reported, and it goes on."""
    with Replica(program, above / "signal") as replica:
        for _ in range(3):
            os.kill(replica.process.pid, signal.SIGSTOP)
            time.sleep(0.1)
            os.kill(replica.process.pid, signal.SIGCONT)
            time.sleep(0.1)
        want("after signals", replica.ask("report")[0] == 0)
        want("nothing is reported", replica.said() == "", replica.said())


def refused_beginnings(program, above):
    """What keeps a replica from beginning, and what it keeps others from."""
    with Replica(program, above / "lock") as one:
        for word, more in (("merge", []), ("distrust", ["--domain", DOMAIN, "--key", KEY])):
            begun = time.monotonic()
            seen = one.run(word, *more, "--wait", "300")
            quick = time.monotonic() - begun < 100
            said = (seen.returncode, seen.stderr) == (3, b"fedbundle: a replica is running\n")
            want(f"{word} beside a replica", said and quick, seen)
        seen = one.run("report")
        want("report beside a replica", seen.returncode == 0, seen)
        seen = one.run("replica", "--socket", "other")
        want("a second replica", (seen.returncode, seen.stderr) == (3, b"fedbundle: a replica is running\n"), seen)
        want("the socket's mode", (one.folder / "socket").stat().st_mode & 0o777 == 0o600)
        one.kill()
        want("a killed one leaves its socket", (one.folder / "socket").exists())
        seen = one.run("distrust", "--domain", DOMAIN, "--key", KEY)
        want("a command after a kill", seen.returncode == 0, seen)
        one.start()
        want("a socket that stays is replaced", one.ready.startswith(b"ready "), one.ready)
        beside = Replica(program, above / "beside")
        seen = beside.run("replica", "--new", "--socket", str(one.socket))
        want("a socket in use", (seen.returncode, seen.stderr) == (3, b"fedbundle: socket taken\n"), seen)
        (beside.folder / "file").write_text("kept")
        seen = beside.run("replica", "--new", "--socket", "file")
        want("a file in the socket's place", (seen.returncode, seen.stderr) == (3, b"fedbundle: socket taken\n"), seen)
        want("it is kept", (beside.folder / "file").read_text() == "kept")
    fresh = Replica(program, above / "fresh")
    seen = fresh.run("replica", "--socket", "socket")
    want("no state", (seen.returncode, seen.stderr) == (1, b"fedbundle: no state\n"), seen)
    want("no state is made", not (fresh.folder / "state").exists())
    for words in (["--every", "0"], ["--every", "86401"], ["--peers", ",".join(["127.0.0.1:9"] * 17)]):
        seen = fresh.run("replica", "--socket", "socket", *words)
        want(f"{words[0]}", (seen.returncode, seen.stderr) == (2, b"fedbundle: usage\n"), seen)


def observe_on(replica, first, acknowledged, ended, *ders):
    """Observes one bundle after another, until the replica is gone."""
    sequence = first
    while not ended.is_set():
        reply = ask(replica.socket, OBSERVE, bundle(sequence, *ders), seconds=10)
        if reply is None:
            return
        if reply[0] == 0:
            acknowledged.append(reply[1])
        sequence += CLIENTS


def lost_of(replica, acknowledged):
    """What of it the state file does not hold, once the replica has begun."""
    held = set((replica.folder / "state").read_bytes().splitlines(keepends=True))
    return [line for line in acknowledged if line not in held]


def kill_in_a_row(replica, random_, rounds):
    """Kills it so often, and starts it again each time. Returns how many bundles were acknowledged."""
    acknowledged = []
    for number in range(rounds + 1):
        replica.start()
        lost = lost_of(replica, acknowledged)
        want(f"kill {number} of {replica.folder.name}, what was acknowledged is held", not lost, len(lost), lost[:1])
        if number == rounds:
            break
        ended, before = threading.Event(), len(acknowledged)
        work = [(replica, 2 + 100_000 * number + it, acknowledged, ended) for it in range(CLIENTS)]
        clients = [threading.Thread(target=observe_on, args=it) for it in work]
        for client in clients:
            client.start()
        # Mostly after something was acknowledged in this round.
        within(0 if number % 5 == 0 else 2, lambda: len(acknowledged) > before)
        time.sleep(random_.uniform(0, 0.15))
        replica.kill()
        ended.set()
        for client in clients:
            client.join()
    replica.kill()
    return len(acknowledged)


class LongBundles:
    """Clients that observe bundles of a quarter of a MiB, one after another, so that the replica folds every 40 of them."""

    def __init__(self, replica, first, acknowledged):
        self.ended = threading.Event()
        work = [(replica, first + it, acknowledged, self.ended, bytes(200_000)) for it in range(CLIENTS)]
        self.clients = [threading.Thread(target=observe_on, args=it) for it in work]

    def __enter__(self):
        for client in self.clients:
            client.start()

    def __exit__(self, *_):
        self.ended.set()
        for client in self.clients:
            client.join()


def kill_in_folds(replica, acknowledged, rounds):
    """Kills it so often while a new state is written."""
    new, killed = replica.folder / "state.new", 0
    for number in range(rounds):
        replica.start()
        lost = lost_of(replica, acknowledged)
        want(f"kill {number} in a fold, what was acknowledged is held", not lost, len(lost), lost[:1])
        with LongBundles(replica, 2 + 100_000 * number, acknowledged):
            begun = within(HANG, lambda: new.exists() and new.stat().st_size > 0)
            time.sleep(0.002 * number)
            killed += new.exists()
            replica.kill()
        want(f"fold {number} begins", begun, replica.said())
    return killed


def folds_under_load(program, above):
    """A replica folds piece by piece while clients observe. It is killed meanwhile, and nothing is lost; and if it is not
    killed, the journal has only what came since a fold began."""
    replica, acknowledged = Replica(program, above / "killed"), []
    killed = kill_in_folds(replica, acknowledged, 8)
    count = len(acknowledged)
    with Replica(program, above / "pieces") as replica:
        files, acknowledged = [replica.folder / name for name in ("state", "state.journal")], []
        with LongBundles(replica, 2, acknowledged):
            within(HANG, lambda: replica.said().count("event=fold bytes=") >= 3)
        want("the end of the last fold", within(HANG, lambda: not (replica.folder / "state.new").exists()))
        sizes = [file.stat().st_size for file in files]
        folds = replica.said().count("event=fold bytes=")
        # With what came before the last fold it would have more than the state has.
        is_short = sizes[1] < max(8_388_608, sizes[0] / 2) + 1_048_576 and sum(sizes) > 3 * 8_388_608
        want("the journal is short after three folds", folds >= 3 and is_short, folds, sizes)
        lines = set().union(*(file.read_bytes().splitlines(keepends=True) for file in files))
        lost = [line for line in acknowledged if line not in lines]
        want("each bundle is in one of the files", not lost, len(lost), lost[:1])
        want("no error", "fault" not in replica.said(), replica.said()[-500:])
        seen = replica.run("report")
        want("both files are read", seen.returncode == 0 and seen.stdout == replica.ask("report")[1], seen.stderr)
    return f"{killed} kills in folds, {count + len(acknowledged)} bundles acknowledged, {sizes} bytes of both files after {folds} folds"


def kills(program, above, rounds):
    """Each time something is acknowledged, and nothing of it is lost. After some kills another one begins, so that what
    is held does not grow without an end."""
    random_, count = random.Random(26), 0
    for first in range(0, rounds, IN_A_ROW):
        replica = Replica(program, above / f"kills-{first}")
        count += kill_in_a_row(replica, random_, min(IN_A_ROW, rounds - first))
    want("something was acknowledged", count > rounds // 2, count)
    return f"{rounds} kills, {count} bundles acknowledged"


def idle_turns(program, above):
    """While nothing comes it sleeps, also if a quiet connection is open, and if its peer is away."""
    with Replica(program, above / "idle", "--listen", free_address(), "--peers", free_address()) as replica:
        with socket.socket(socket.AF_UNIX) as quiet:
            quiet.connect(str(replica.socket))
            quiet.sendall(b"[")
            time.sleep(0.5)
            woken, ticks = replica.times()
            time.sleep(5)
            now_woken, now_ticks = replica.times()
        want("idle, woken", now_woken - woken <= 3, now_woken - woken)
        want("idle, time", now_ticks - ticks <= 1, now_ticks - ticks)
        return f"woken {now_woken - woken} times in 5 seconds"


def broken_log(program, above):
    """Standard error is a pipe that nobody reads any more."""
    address = free_address()
    with Replica(program, above / "log", "--listen", address) as replica:
        reading, writing = os.pipe()
        beside = Replica(program, above / "beside", "--listen", free_address(), "--verbose")
        os.close(reading)
        beside.start(writing)
        os.close(writing)
        for sequence in (2, 3):
            seen = beside.observe(sequence)
            want("an event that cannot be written", seen is not None and seen[0] == 0, seen)
        want("it is stopped all the same", beside.stop() == 0)
        want("the other one is as it was", replica.ask("report")[0] == 0)
    return "two events were lost"


OBSERVED = re.compile(
    "event=observe domain=a[.]example document=[0-9a-f]{64} sequence=([0-9]+) key=[0-9a-f]{64} voucher=[0-9a-f]{64}"
    " current=yes"
)


def observed_in(pipe):
    """How many events were left out, or None if that is not said, and of which bundles the pipe has events."""
    try:
        text = os.read(pipe, 65_536).decode()
    except BlockingIOError:
        text = ""
    want("the last line is whole", text == "" or text.endswith("\n"), text)
    first, *rest = text.splitlines() or [""]
    said = re.fullmatch("event=log lost=([0-9]+)", first)
    lines = rest if said or not first else [first, *rest]
    found = [OBSERVED.fullmatch(line) for line in lines]
    want("each line is whole, and only the first says what was left out", all(found), text)
    return int(said[1]) if said else None, [int(event[1]) for event in found if event]


def full_log(program, above):
    """Standard error is a pipe with little room that is read at times."""
    reading, writing = os.pipe()
    fcntl.fcntl(writing, fcntl.F_SETPIPE_SZ, 4096)
    os.set_blocking(reading, False)
    replica = Replica(program, above / "mute").start(writing)
    os.close(writing)
    longest = 0

    def observe(sequences):
        nonlocal longest
        for sequence in sequences:
            for words, text in ((OBSERVE, bundle(sequence)), (["bundle", "--domain", DOMAIN], b"")):
                begun = time.monotonic()
                seen = ask(replica.socket, words, text)
                longest = max(longest, time.monotonic() - begun)
                want(f"{words[0]} {sequence} while nobody reads the events", seen is not None and seen[0] == 0, seen)
                if seen is None:
                    return False
        return True

    try:
        if not observe(range(2, 62)):
            return "it waits"
        lost, first = observed_in(reading)
        want("the first events", lost is None and first == list(range(2, 2 + len(first))), lost, first)
        want("some events did not fit", 0 < len(first) < 60, len(first))
        observe([62])
        lost, events = observed_in(reading)
        want("what was left out", lost == 60 - len(first) and events == [62], lost, events)
        observe([63])
        want("nothing was left out since", observed_in(reading) == (None, [63]))
        observe(range(64, 124))
        lost, second = observed_in(reading)
        want("the next events", lost is None and second == list(range(64, 64 + len(second))), lost, second)
        want("it is stopped", replica.stop() == 0)
        want("what was left out at the end", observed_in(reading) == (60 - len(second), []))
        want("how long a request takes", longest < 60, longest)
    finally:
        replica.__exit__()
        os.close(reading)
    return f"{120 - len(first) - len(second)} events were left out, the longest request took {1000 * longest:.1f} ms"


def few_descriptors(program, above):
    """Accepts that fail take no processor, and connections are taken again once there is room."""
    with Replica(program, above / "few") as replica:
        used = len(os.listdir(f"/proc/{replica.process.pid}/fd"))
        resource.prlimit(replica.process.pid, resource.RLIMIT_NOFILE, (used + 3, used + 3))
        quiet = [socket.socket(socket.AF_UNIX) for _ in range(6)]
        for stream in quiet:
            stream.connect(str(replica.socket))
        time.sleep(0.5)
        woken, ticks = replica.times()
        time.sleep(3)
        now_woken, now_ticks = replica.times()
        want("failing accepts, woken", now_woken - woken <= 100, now_woken - woken)
        want("failing accepts, time", now_ticks - ticks <= 30, now_ticks - ticks)
        for stream in quiet:
            stream.close()
        want("there is room again", within(HANG, lambda: (replica.ask("report") or [1])[0] == 0))
        said = replica.said().count("event=accept fault=S9\n")
        want("it is reported, and not each time", 1 <= said <= 20, said)
    return f"woken {now_woken - woken} times in 3 seconds of failing accepts, {now_ticks - ticks} ticks"


def slow_others(program, above):
    """A `bundle` with slow clients, a peer that never reads, and a full table."""
    address = free_address()
    with Replica(program, above / "slow", "--listen", address) as replica:
        for sequence in range(2, 202):
            replica.observe(sequence)
        digest = replica.ready.split()[1].decode()
        question = json.dumps(
            {"bucket": 0, "config": digest, "format": 2, "have": [], "of": 256}, separators=(",", ":")
        ).encode() + b"\n"
        slow = [socket.socket(socket.AF_UNIX) for _ in range(LOCAL - 4)]
        for stream in slow:
            stream.connect(str(replica.socket))
        gossip = [socket.create_connection(address.rsplit(":", 1)) for _ in range(40)]
        never = socket.create_connection(address.rsplit(":", 1))
        never.setblocking(False)
        ended = threading.Event()

        def dribble():
            while not ended.is_set():
                for stream in slow + gossip:
                    try:
                        stream.send(b"[")
                    except OSError:
                        pass
                try:
                    never.send(question * 20)
                except OSError:
                    pass
                ended.wait(1)

        thread = threading.Thread(target=dribble)
        thread.start()
        longest = 0
        for _ in range(200):
            begun = time.monotonic()
            seen = replica.ask("bundle", "--domain", DOMAIN)
            longest = max(longest, time.monotonic() - begun)
            want("a bundle beside slow clients", seen is not None and seen[0] == 0, seen)
            time.sleep(0.01)
        want("how long it takes", longest < SLOWEST, longest)
        more = [socket.socket(socket.AF_UNIX) for _ in range(10)]
        for stream in more:
            stream.connect(str(replica.socket))
        want("one more of this machine than there may be", replica.ask("report")[0] == 0, replica.ask("report"))
        for stream in more:
            stream.close()
        want("there is room again", within(HANG, lambda: (replica.ask("report") or [1])[0] == 0))
        ended.set()
        thread.join()
        for stream in [*slow, *gossip, never]:
            stream.close()
        want("the others are gone", within(HANG, lambda: (replica.ask("report") or [1])[0] == 0))
        return f"the longest bundle took {1000 * longest:.1f} ms"


class Refusing:
    """A replica whose calls of the system or allocations one is refused of, and a client that observes three bundles,
    asks for one and ends it."""

    def __init__(self, program, above, library):
        self.program, self.above, self.library = program, above, library
        self.told = above / "told"
        self.told.write_bytes(bytes(TOLD.size))
        self.number = 0

    def run(self, kind="none", call=0, how="once", error=5):
        """What was acknowledged, the receipts of the state after a start without a refusal, and the counts of calls."""
        self.number += 1
        replica = Replica(self.program, self.above / f"refusing-{self.number}", environment={
            "LD_PRELOAD": self.library, "REFUSE_TOLD": str(self.told), "REFUSE_KIND": kind, "REFUSE_CALL": str(call),
            "REFUSE_HOW": how, "REFUSE_ERROR": str(error), "REFUSE_SECONDS": str(HANG),
        })
        acknowledged = []
        replica.start()
        if replica.ready:
            for sequence in (2, 3, 4):
                reply = ask(replica.socket, OBSERVE, bundle(sequence), 60)
                acknowledged += [reply[1]] if reply and reply[0] == 0 else []
            ask(replica.socket, ["bundle", "--domain", DOMAIN], b"", 5)
            ask(replica.socket, ["stop"], b"", 5)
        try:
            status = replica.process.wait(5)
            replica.end()
        except subprocess.TimeoutExpired:
            status = None  # the reply of `stop` or the request may have been refused
            replica.kill()
        told = TOLD.unpack(self.told.read_bytes())
        replica.environment = None
        replica.start()
        begun = replica.ready.startswith(b"ready ")
        replica.kill()
        state = set((replica.folder / "state").read_bytes().splitlines(keepends=True)) if begun else set()
        return acknowledged, begun, state, dict(zip(KINDS, told)), status


def refused_calls(program, above):
    """One call of the system after another is refused, and allocations: what was acknowledged is held, and the replica
    begins again."""
    refusing = Refusing(program, above, build_library(above, program))
    acknowledged, begun, state, calls, status = refusing.run()
    right = begun and len(acknowledged) == 3 and status == 0 and set(acknowledged) <= state
    want("no call refused", right, begun, acknowledged, status, calls)
    count = 0
    for kind in ("open", "read", "write", "sync", "rename", "lock", "change", "socket", "alloc"):
        step = max(1, calls[kind] // (60 if kind == "alloc" else 40))
        for call in range(1, calls[kind] + 1, step):
            for how in ("once", "lasting") if kind in ("write", "sync") else ("once",):
                acknowledged, begun, state, _, status = refusing.run(kind, call, how)
                lost = [line for line in acknowledged if line not in state]
                want(f"{kind} {call} refused {how}", begun and not lost, begun, status, len(acknowledged), lost[:1])
                count += 1
    return f"{count} runs with a refusal"


class Folding:
    """A replica whose journal is long after nine bundles, of which one call of the system is refused in the fold, or it is
    killed there."""

    def __init__(self, program, above, library):
        self.program, self.above, self.library = program, above, library
        self.told = above / "told"
        self.number = 0

    def counts(self):
        return dict(zip(KINDS, TOLD.unpack(self.told.read_bytes())))

    def run(self, kind="none", call=0, how="once"):
        """What was acknowledged, what of it is lost after a start without a refusal, what was said, how many calls came
        before the fold and up to its end, and whether a new state is left."""
        self.number += 1
        self.told.write_bytes(bytes(TOLD.size))
        replica = Replica(self.program, self.above / f"folding-{self.number}", environment={
            "LD_PRELOAD": self.library, "REFUSE_TOLD": str(self.told), "REFUSE_KIND": kind, "REFUSE_CALL": str(call),
            "REFUSE_HOW": how, "REFUSE_ERROR": "5", "REFUSE_SECONDS": str(HANG),
        })
        replica.start()
        acknowledged = []
        for sequence in range(2, 12):
            before = self.counts() if sequence == 10 else None
            try:
                reply = replica.observe(sequence, bytes([sequence]) * 700_000)
            except OSError:
                reply = None
            acknowledged += [reply[1]] if reply and reply[0] == 0 else []
            if before:
                within(2 if call else HANG, lambda: "event=fold" in replica.said() or replica.process.poll() is not None)
                calls = before, self.counts()
        said = replica.said()
        replica.kill()
        left = (replica.folder / "state.new").exists()
        replica.environment = None
        replica.start()
        lost = lost_of(replica, acknowledged) if replica.ready else acknowledged
        replica.kill()
        for file in replica.folder.iterdir():
            file.unlink()
        return len(acknowledged), lost, said, calls, left


def refused_folds(program, above):
    """In a fold one call of the system after another is refused, or the replica is killed before or behind it: what was
    acknowledged is held. Some of the calls are of the request before the fold, or of its reply. If the call was one of the
    fold, all bundles are acknowledged."""
    folding = Folding(program, above, build_library(above, program))
    acknowledged, lost, said, (before, after), left = folding.run()
    want("no call of a fold refused", acknowledged == 10 and not lost and "event=fold bytes=" in said, acknowledged, said)
    count, of_folds = 0, 0
    for kind in ("open", "write", "sync", "rename", "change"):
        calls = range(before[kind] + 1, after[kind] + 1)
        for call in calls[::max(1, len(calls) // 6)]:
            for how in ("once", "before", "after"):
                acknowledged, lost, said, _, left = folding.run(kind, call, how)
                is_refused = how == "once" and "event=fold fault=" in said
                goes_on = not left and (acknowledged == 10 or not is_refused) if how == "once" else True
                want(f"{kind} {call} of a fold {how}", goes_on and not lost, acknowledged, said, len(lost), left)
                count, of_folds = count + 1, of_folds + is_refused
    want("a call of a fold is refused", of_folds >= 5, of_folds)
    return f"{count} runs with a refusal or a kill; in {of_folds} a call of a fold was refused"


def observe_all(replica, sequences, acknowledged):
    """Observes bundles of nearly a MiB."""
    for sequence in sequences:
        reply = replica.observe(sequence, bytes([sequence]) * 700_000)
        want(f"bundle {sequence}", reply is not None and reply[0] == 0, reply and reply[2])
        acknowledged += [reply[1]] if reply and reply[0] == 0 else []


def full_disk(program, above):
    """At a start there is no room for the state and its journal in one file."""
    replica, acknowledged = Replica(program, above / "full"), []
    for sequences in (range(2, 7), range(7, 12)):
        replica.start()
        observe_all(replica, sequences, acknowledged)
        replica.kill()
    journal, new = replica.folder / "state.journal", replica.folder / "state.new"
    with journal.open("ab") as file:
        file.write(b'{"a line that a kill has torn')
    for sequence in (12, 13):
        replica.start(limit=7_500_000)
        begun = replica.ready.startswith(b"ready ")
        want(f"a start without room, {sequence}", begun and "event=fold fault=S9\n" in replica.said(), replica.said())
        want(f"no new state is left, {sequence}", not new.exists())
        if begun:
            observe_all(replica, [sequence], acknowledged)
        replica.kill()
    replica.start()
    lost = lost_of(replica, acknowledged) if replica.ready else acknowledged
    want("after starts without room", replica.ready.startswith(b"ready ") and not lost, len(lost))
    want("the journal is in the state", replica.said().count("fault=") == 2, replica.said())
    replica.kill()


def lost_files(program, above):
    """A file of the state is removed, or an older one put in its place: what was acknowledged is held."""
    for file in ("lock", "journal", "state"):
        for how in ("removed", "replaced"):
            what = f"the {file} is {how}"
            replica, acknowledged = Replica(program, above / f"{file}-{how}"), []
            name = replica.folder / ("state" if file == "state" else f"state.{file}")
            replica.start()
            (replica.folder / "older").write_bytes(name.read_bytes())
            acknowledged += [replica.observe(2)[1]]
            replica.kill()
            replica.start()
            acknowledged += [replica.observe(3)[1]]
            name.unlink()
            if how == "replaced":
                (replica.folder / "older").rename(name)
            reply = replica.observe(4) or (None, b"", b"")
            said = within(HANG, lambda: f"event=lost file={file}\n" in replica.said())
            want(f"{what}: it is reported", said, replica.said())
            if file == "state":
                want(f"{what}: it goes on", reply[0] == 0, reply)
                acknowledged += [reply[1]]
                replica.kill()
            else:
                want(f"{what}: nothing is acknowledged", reply[0] == 3, reply)
                ended = within(HANG, lambda: replica.process.poll() is not None)
                want(f"{what}: it ends with 3", ended and replica.process.poll() == 3)
                replica.kill()
            replica.start()
            lost = lost_of(replica, acknowledged)
            want(f"{what}: what was acknowledged is held", not lost, lost)
            replica.kill()


def drip(listener, piece, pause):
    """Takes each connection, and sends the piece again and again, after a pause each time."""
    while True:
        try:
            stream, _ = listener.accept()
        except OSError:
            return
        with stream:
            try:
                while True:
                    stream.sendall(piece)
                    time.sleep(pause)
            except OSError:
                pass


def clients_that_wait(program, above):
    """A replica that is stopped, or that reads and writes nothing or next to nothing, is waited for as long as --wait says."""
    seconds = []

    def timed(what, *words, text=b"", wanted=(3, b"fedbundle: no reply\n")):
        begun = time.monotonic()
        seen = subprocess.run([program, *words, "--wait", "1"], input=text, capture_output=True, cwd=replica.folder, timeout=HANG)
        seconds.append(time.monotonic() - begun)
        want(what, (seen.returncode, seen.stderr) == wanted, seen)
        want(f"{what}: in time", 0.9 <= seconds[-1] <= 60, seconds[-1])

    with Replica(program, above / "wait") as replica:
        os.kill(replica.process.pid, signal.SIGSTOP)
        for words in (
            ["report"], ["status"], ["bundle", "--domain", DOMAIN], ["explain", "--domain", DOMAIN], ["polls", "--now", "1"],
            ["distrust", "--domain", DOMAIN, "--key", KEY], OBSERVE, ["merge"],
        ):
            timed(f"{words[0]} at a replica that is stopped", *words, "--at", "socket")
        # More bytes than the socket holds.
        timed("an input that nobody reads", "merge", "--at", "socket", text=b"x" * 8_000_000)
        loud = "fedbundle: no reply\n  --at \"socket\" has a replica that did not answer in time\n".encode()
        timed("why", "bundle", "--domain", DOMAIN, "--verbose", "--at", "socket", wanted=(3, loud))
        os.kill(replica.process.pid, signal.SIGCONT)
        seen = replica.run_at("report", "--wait", "10")
        want("after it goes on", seen.returncode == 0 and seen.stderr == b"", seen)
        with socket.socket(socket.AF_UNIX) as listener:
            listener.bind(str(replica.folder / "other"))
            listener.listen(0)
            waiting = socket.socket(socket.AF_UNIX)
            waiting.connect(str(replica.folder / "other"))
            with waiting:
                timed("a socket at which another client waits", "stop", "--at", "other")
            listener.listen(8)
            threading.Thread(target=drip, args=[listener, b" ", 0.1], daemon=True).start()
            timed("a reply that never ends", "report", "--at", "other")
            listener.shutdown(socket.SHUT_RDWR)
    return f"from {min(seconds):.1f} to {max(seconds):.1f} s for a --wait of 1"


def own_socket(program, above):
    """The path of the socket is too long, or access to it is refused, or it is another's by now."""
    loud = {"FEDBUNDLE_VERBOSE": "1"}
    replica = Replica(program, above / "socket", environment=loud)
    long = "s" * 108

    def said(words, **more):
        environment = {**os.environ, **loud}
        return subprocess.run([program, *words], capture_output=True, cwd=replica.folder, env=environment, timeout=HANG, **more)

    seen = said(["replica", "--config", "config", "--state", "state", "--new", "--socket", long])
    wanted = (3, f"fedbundle: S9 Io\n  socket {long}: File name too long\n".encode())
    want("a long path of a socket", (seen.returncode, seen.stderr) == wanted, seen)
    seen = said(["report", "--at", long])
    wanted = (3, f"fedbundle: S9 Io\n  socket {long}: File name too long\n".encode())
    want("a long path of --at", (seen.returncode, seen.stderr) == wanted, seen)
    replica.start()
    if os.geteuid() == 0:
        # The program is another account's to run, and the folder too.
        seen = said(["report", "--at", "socket"], user=65534)
        wanted = (3, b"fedbundle: S9 Io\n  socket socket: Permission denied\n")
        want("a socket of another account", (seen.returncode, seen.stderr) == wanted, seen)
    replica.socket.rename(replica.folder / "away")
    with socket.socket(socket.AF_UNIX) as other:
        other.bind(str(replica.socket))
        number = replica.socket.stat().st_ino
        ask(replica.folder / "away", ["stop"])
        want("it ends", replica.end() == 0)
        want("another's socket stays", replica.socket.exists() and replica.socket.stat().st_ino == number)
    replica.socket.unlink(missing_ok=True)
    replica.start()
    replica.stop()
    want("its own socket goes", not replica.socket.exists())


def read_socket(program, above):
    """At a second socket the same is shown, and nothing can be changed. Its group may connect."""
    with Replica(program, above / "read", "--read-socket", "read") as replica:
        read = replica.folder / "read"
        modes = [oct(path.stat().st_mode & 0o777) for path in (replica.socket, read)]
        want("the modes", modes == ["0o600", "0o660"], modes)
        for words in (["observe", *OBSERVE[1:]], ["merge"], ["distrust", "--domain", DOMAIN, "--key", KEY], ["stop"]):
            seen = ask(read, words, bundle(2, DER))
            want(f"{words[0]} is refused", seen == (1, b"", b"fedbundle: read only\n"), seen)
        want("nothing is held", b"\nreceipts 0 " in replica.ask("report")[1])
        want("an observe", replica.observe(2, DER)[0] == 0)
        for words in (["report"], ["bundle", "--domain", DOMAIN], ["polls", "--now", "0"], ["status", "--format", "json"],
                      ["distrust", "--dry-run", "--domain", DOMAIN, "--key", KEY], ["bundle", "--domain", "none.example"], ["nothing"],
                      ["config"], ["migrate"], ["reseed"], ["diff", "--with", "nothing"]):
            at_one, at_other = ask(replica.socket, words), ask(read, words)
            want(f"{words[0]} shows the same", at_one == at_other, at_one, at_other)
        if os.geteuid() == 0:
            replica.folder.parent.chmod(0o755)
            replica.folder.chmod(0o755)
            os.chown(read, 0, 65534)
            for path, wanted in ((read, 0), (replica.socket, 3)):
                words = [program, "report", "--at", path]
                seen = subprocess.run(words, capture_output=True, user=1, group=65534, extra_groups=[], timeout=HANG)
                want(f"{path.name} by one of the group", seen.returncode == wanted, seen)
        want("it ends", replica.stop() == 0)
        want("both sockets go", not replica.socket.exists() and not read.exists())
    with Replica(program, above / "one", "--read-socket", "socket") as replica:
        want("one path for both", replica.process.wait(HANG) == 3, replica.said())


def listens_anywhere(program, above):
    """An address that is not a loopback address must be allowed, and is warned of."""
    replica = Replica(program, above / "anywhere")
    words = ["--socket", "socket", "--new", "--verbose", "--listen", "0.0.0.0:1"]
    seen = replica.run("replica", *words)
    wanted = b'fedbundle: bad address\n  --listen "0.0.0.0:1" is not a loopback address: --listen-anywhere allows it\n'
    want("an address that others reach", (seen.returncode, seen.stderr) == (1, wanted), seen)
    address = f"0.0.0.0:{free_address().rsplit(':', 1)[1]}"
    replica.words = ("--listen", address, "--listen-anywhere")
    with replica:
        warning = f"fedbundle: warning: {address} is not a loopback address: anyone can read what is held\n"
        want("a warning", replica.said() == warning, replica.said())
        want("it answers", replica.ask("report")[0] == 0)


def limits(program, above):
    """Requests that are too long, cut, or no request."""
    with Replica(program, above / "limits") as replica:
        rows = [
            (b"", b"fedbundle: no words\n"),
            (b"[", b"fedbundle: no words\n"),
            (b"{}\n", b"fedbundle: bad words\n"),
            (b"[" + b" " * 70_000, b"fedbundle: words too long\n"),
        ]
        for text, wanted in rows:
            with socket.socket(socket.AF_UNIX) as stream:
                stream.connect(str(replica.socket))
                try:
                    stream.sendall(text)
                    stream.shutdown(socket.SHUT_WR)
                except OSError:
                    pass
                reply = b""
                try:
                    while piece := stream.recv(65_536):
                        reply += piece
                except OSError:
                    pass
            want(f"{text[:5]}", reply.endswith(wanted), reply)


def different_limits(program, above):
    """Of two replicas that pull from each other one may hold two receipts, and one three."""
    of_two, of_three = free_address(), free_address()
    words = ["--every", "1", "--most-records", "1", "--most-receipts"]
    with Replica(program, above / "two", "--listen", of_two, "--peers", of_three, *words, "2") as two, Replica(
        program, above / "three", "--listen", of_three, "--peers", of_two, *words, "3"
    ) as three:
        seen = [three.observe(sequence)[0] for sequence in (2, 3, 4)]
        want("most, three are taken", seen == [0, 0, 0], seen)
        seen = three.observe(5)
        want("most, one too many", seen[0] == 1 and seen[2].endswith(b"G3 Full\n"), seen)
        shows = within(HANG, lambda: b"\nreceipts 2 of 2 " in two.ask("status")[1])
        want("most, one takes what it has room for", shows, two.ask("status"))
        shows = within(HANG, lambda: b" fault S8 " in two.ask("status")[1])
        want("most, it says that it takes no more", shows, two.ask("status"))
        warns = b"\nwarning: nearly-full: 2 of 2 receipts are held\n" in two.ask("status")[1]
        want("most, it warns", warns, two.ask("status"))
        seen = two.observe(6)
        want("most, it takes no bundle", seen[0] == 1 and seen[2].endswith(b"G3 Full\n"), seen)
        key = hashlib.sha256(OTHER_DER).hexdigest()
        seen = two.ask("distrust", "--domain", DOMAIN, "--key", key, "--unknown-key")
        want("most, it takes a record", seen == (0, b"", b""), seen)
        shows = within(HANG, lambda: b"\nrecords 1 of 1\n" in three.ask("status")[1])
        want("most, and gives it", shows, three.ask("status"))
        want("most, the other holds three", b"\nreceipts 3 of 3 " in three.ask("status")[1], three.ask("status"))
        seen = three.ask("list", "--most-receipts", "4")
        want("most, a request has no limits", seen == (2, b"", b"fedbundle: usage\n"), seen)
        seen = three.run("list", "--most-receipts", "2")
        want("most, the files under a lower limit", seen.returncode == 1 and seen.stderr.endswith(b"G3 Full\n"), seen.stderr)
        seen = three.run("list", "--most-receipts", "3")
        want("most, the files under the same limit", (seen.returncode, seen.stderr) == (0, b""), seen.stderr)


def main():
    rounds = int(sys.argv[1]) if len(sys.argv) > 1 else 20
    parts = {
        "three": three_replicas,
        "files": as_over_files,
        "keys": known_keys,
        "status": own_status,
        "beginnings": refused_beginnings,
        "limits": limits,
        "most": different_limits,
        "wait": clients_that_wait,
        "idle": idle_turns,
        "log": broken_log,
        "mute": full_log,
        "descriptors": few_descriptors,
        "slow": slow_others,
        "crowd": crowd,
        "signal": stopped_by_signal,
        "fold": folded,
        "pieces": folds_under_load,
        "kills": lambda *words: kills(*words, rounds),
        "refusals": refused_calls,
        "folds": refused_folds,
        "full": full_disk,
        "lost": lost_files,
        "socket": own_socket,
        "read": read_socket,
        "anywhere": listens_anywhere,
    }
    program = find_program()
    for name in sys.argv[2:] or parts:
        with temporary() as above:
            seen = parts[name](program, Path(above))
        print(f"{name}: {seen or 'seen'}", flush=True)
    for fault in faults:
        print(fault)
    print(f"replica: {ran} looks, {len(faults)} wrong")
    return 1 if faults else 0


if __name__ == "__main__":
    sys.exit(main())

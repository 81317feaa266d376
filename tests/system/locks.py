#!/usr/bin/env python3
"""Plays commands that wait for each other, and limits that are passed.

- A command that waits for the lock of a state gives up after `--wait` seconds (D-170), and says with `--verbose` that it waits.
- `observe` and `merge` whose input comes slowly, and `pull` whose peer is slow, keep no `distrust` waiting: all that
  each command took is in the state at the end (D-167, D-168).
- Errors of the state and of the options are reported before those of the input.
- `--most-bytes` ends `merge` and `pull` with a line of its own; a `pull` keeps what it took before.
- `--most-receipts` and `--most-records` limit what is held: one receipt or record too many is refused as full, and so is a
  state that holds more than the limits; numbers out of their ranges are refused, and with `--at` both options are.
- With `--verbose` commands that only read say that there is no state file, and `serve` says whom it serves.

The certificates are made up: fedbundle checks none. It needs python3. The program is the one that ./fedbundle runs, or
the one that $FEDBUNDLE names.

usage: locks   the exit status is 1 if something is wrong
"""
import fcntl
import hashlib
import json
import os
import re
import socket
import subprocess
import sys
import threading
import time
from pathlib import Path

sys.dont_write_bytecode = True
sys.path.insert(0, str(Path(__file__).resolve().parent.parent / "lib"))
from harness import HANG, find_program, temporary  # noqa: E402

DOMAIN = "a.example"
ENDPOINT = "spiffe://a.example/bundle"
CERTIFICATES = {"abc": ("YWJj", b"abc"), "hello": ("aGVsbG8=", b"hello")}
LOCKED = b"fedbundle: locked\n"
HAS_IT = b"  lock first.lock: another command has it\n"
TOO_MANY = b"fedbundle: too many bytes\n"
USAGE = b"fedbundle: usage\n"
FULL = b"G3 Full\n"

program = find_program()
faults = []
ran = 0


def want(right, what, seen=""):
    global ran
    ran += 1
    if not right:
        faults.append(f"{what}: {seen}")


def compact(value):
    return json.dumps(value, sort_keys=True, separators=(",", ":")).encode()


def bundle(sequence, *keys):
    elements = [{"e": "AQAB", "kty": "RSA", "n": "AQAB", "use": "x509-svid", "x5c": [CERTIFICATES[key][0]]} for key in keys]
    return {"keys": sorted(elements, key=compact), "spiffe_sequence": sequence}


def key_id(name):
    return hashlib.sha256(CERTIFICATES[name][1]).hexdigest()


def words(command, state, *more):
    return [program, command, "--config", "config.json", "--state", state, *more]


def observing(state):
    return words("observe", state, "--domain", DOMAIN, "--endpoint", ENDPOINT, "--key", key_id("abc"))


def distrusting(state, key="hello"):
    return words("distrust", state, "--domain", DOMAIN, "--key", key_id(key))


def run(command, given=b""):
    return subprocess.run(command, input=given, capture_output=True, timeout=HANG)


def start(command):
    return subprocess.Popen(command, stdin=subprocess.PIPE, stdout=subprocess.PIPE, stderr=subprocess.PIPE)


def held(state):
    """How many receipts and records the state file holds, as its last line says."""
    return tuple(json.loads(Path(state).read_text().splitlines()[-1]).values())


def expect(ended, status, stderr, what):
    want((ended.returncode, ended.stderr) == (status, stderr), what, (ended.returncode, ended.stderr))


def observe_all(state, *sequences):
    for sequence in sequences:
        want(run(observing(state), compact(bundle(sequence, "abc"))).returncode == 0, f"observe {sequence}")


def giving_up():
    commands = {
        "observe": (observing("first"), compact(bundle(2, "abc"))),
        "merge": (words("merge", "first"), b""),
        "distrust": (distrusting("first"), b""),
    }
    with open("first.lock", "w") as lock:
        fcntl.flock(lock, fcntl.LOCK_EX)
        for name, (command, given) in commands.items():
            expect(run([*command, "--wait", "0"], given), 3, LOCKED, f"{name} --wait 0")
            began = time.monotonic()
            waits = b"fedbundle: waits for the lock of first\n"
            loud = run([*command, "--wait", "1", "--verbose"], given)
            expect(loud, 3, waits + LOCKED + HAS_IT, f"{name} --wait 1 --verbose")
            took = time.monotonic() - began
            want(0.9 < took < 60, f"{name} --wait 1: seconds", took)
    want(not Path("first").exists(), "no state was made")
    for number in ("", "-1", "+1", "1.0", "86401", "x"):
        ended = run([*commands["distrust"][0], f"--wait={number}"])
        expect(ended, 2, b"fedbundle: usage\n", f"--wait={number}")


def slow_input():
    """Each command has begun to read when a record of distrust is taken."""
    observe_all("source", 2, 3)
    snapshot = Path("source").read_bytes()
    document = compact(bundle(2, "abc"))
    for name, command, given, receipts in [
        ("observe", observing("slow.observe"), document, 1),
        ("merge", words("merge", "slow.merge"), snapshot, 2),
    ]:
        state = f"slow.{name}"
        slow = start(command)
        slow.stdin.write(given[:20])
        slow.stdin.flush()
        time.sleep(0.3)
        expect(run([*distrusting(state), "--wait", "0"]), 0, b"", f"distrust beside a slow {name}")
        _, complaint = slow.communicate(given[20:], timeout=HANG)
        want((slow.returncode, complaint) == (0, b""), f"the slow {name}", (slow.returncode, complaint))
        want(held(state) == (receipts, 1), f"{name}: receipts and records", held(state))


def order_of_faults():
    """The state is bad, and so is the input: the state's error is reported."""
    Path("bad").write_bytes(b"no snapshot\n")
    for name, command in [("observe", observing("bad")), ("merge", words("merge", "bad"))]:
        expect(run(command, b"no input"), 1, b"fedbundle: S1 BadHeader\n", f"{name} over a bad state")
    bad_key = observing("none")[:-1] + ["xyz"]
    expect(run(bad_key, b"no input"), 1, b"fedbundle: bad key\n", "observe with a bad key")
    expect(run(observing("none"), b"no input"), 1, b"fedbundle: O5 Document B2 NotJson\n", "observe of no bundle")
    expect(run(words("merge", "none"), b"no input"), 1, b"fedbundle: S7 Truncated\n", "merge of no snapshot")
    want(not Path("none").exists(), "no state was made")


def free_address():
    with socket.socket() as probe:
        probe.bind(("127.0.0.1", 0))
        return "127.0.0.1:%d" % probe.getsockname()[1]


def serve(state, *more):
    address = free_address()
    server = start(words("serve", state, "--listen", address, "--sessions", "1", *more))
    place = "%04X" % int(address.rsplit(":", 1)[1])
    for _ in range(50 * HANG):
        sockets = [line.split() for line in Path("/proc/net/tcp").read_text().splitlines()[1:]]
        if any(fields[1].endswith(f":{place}") and fields[3] == "0A" for fields in sockets):
            return server, address
        time.sleep(0.02)
    sys.exit("locks: nobody listens")


class SlowPeer:
    """Is between a pull and the replica that serves, and lets nothing through before it may."""

    def __init__(self, address):
        host, port = address.rsplit(":", 1)
        self.replica = (host, int(port))
        self.listener = socket.create_server(("127.0.0.1", 0))
        self.address = "127.0.0.1:%d" % self.listener.getsockname()[1]
        self.came, self.may = threading.Event(), threading.Event()
        threading.Thread(target=self.play, daemon=True).start()

    def play(self):
        client, _ = self.listener.accept()
        self.came.set()
        self.may.wait(HANG)
        replica = socket.create_connection(self.replica)
        threading.Thread(target=self.carry, args=(client, replica), daemon=True).start()
        self.carry(replica, client)

    @staticmethod
    def carry(source, sink):
        try:
            while piece := source.recv(65536):
                sink.sendall(piece)
            sink.shutdown(socket.SHUT_WR)
        except OSError:
            pass


def slow_pull():
    for name, meanwhile, wanted in [
        ("nothing", [], (2, 0)),
        ("a record", [(distrusting("slow.pull"), b"")], (2, 1)),
        ("a receipt and a record", [(observing("slow.pull"), compact(bundle(4, "abc"))), (distrusting("slow.pull"), b"")], (3, 1)),
    ]:
        Path("slow.pull").unlink(missing_ok=True)
        server, address = serve("source")
        peer = SlowPeer(address)
        pull = start(words("pull", "slow.pull", "--peer", peer.address))
        want(peer.came.wait(HANG), "the pull came")
        for command, given in meanwhile:
            expect(run([*command, "--wait", "0"], given), 0, b"", f"{name} beside a slow pull")
        peer.may.set()
        printed, complaint = pull.communicate(timeout=HANG)
        want((pull.returncode, printed, complaint) == (0, b"new 2\n", b""), f"a slow pull beside {name}", (printed, complaint))
        want(server.wait(timeout=HANG) == 0, "serve ends")
        want(held("slow.pull") == wanted, f"a slow pull beside {name}: receipts and records", held("slow.pull"))


def too_many_bytes():
    snapshot = Path("source").read_bytes()
    ended = run([*words("merge", "few"), "--most-bytes", str(len(snapshot) - 1)], snapshot)
    expect(ended, 1, TOO_MANY, "merge of one byte too many")
    want(not Path("few").exists(), "nothing was merged")
    ended = run([*words("merge", "few"), "--most-bytes", str(len(snapshot))], snapshot)
    expect(ended, 0, b"", "merge of as many bytes as may come")
    ended = run([*words("merge", "few"), "--most-bytes", str(len(snapshot))], snapshot)
    expect(ended, 1, TOO_MANY, "merge beside what the state has")

    # The answers are cut at one limit after another: what came before is kept, and a second pull brings the rest.
    kept = set()
    for most in range(300, 100_000, 300):
        Path("cut").unlink(missing_ok=True)
        server, address = serve("source")
        ended = run([*words("pull", "cut", "--peer", address), "--most-bytes", str(most)])
        server.communicate(timeout=HANG)
        if ended.returncode == 0:
            break
        expect(ended, 1, TOO_MANY, f"pull of {most} bytes")
        kept.add(held("cut")[0])
    want(0 in kept and kept <= {0, 1, 2}, "what cut pulls keep", kept)
    want(ended.returncode == 0 and held("cut") == (2, 0), "pull of all", ended.stderr)


def fills(ended, what):
    """The command was refused since one receipt or record is too many."""
    status, said = ended.returncode, ended.stderr
    want(status == 1 and said.startswith(b"fedbundle: ") and said.endswith(FULL) and said.count(b"\n") == 1, what, (status, said))


def looking(state):
    """The commands that only look at a state."""
    return {
        "list": words("list", state), "report": words("report", state), "status": words("status", state, "--now", "0"),
        "graph": words("graph", state), "bundle": words("bundle", state, "--domain", DOMAIN), "migrate": words("migrate", state),
        "reseed": words("reseed", state), "polls": words("polls", state, "--now", "0"),
        "diff": words("diff", state, "--with", state),
    }


def too_many_held():
    two, three = ["--most-receipts", "2"], ["--most-receipts", "3"]
    for sequence in (2, 3):
        expect(run([*observing("held"), *two], compact(bundle(sequence, "abc"))), 0, b"", f"observe {sequence} of at most two")
    fills(run([*observing("held"), *two], compact(bundle(4, "abc"))), "observe one too many")
    same = run([*words("merge", "held"), *two], Path("held").read_bytes())
    want((same.returncode, same.stdout, same.stderr) == (0, b"new 0\n", b""), "merge of what a full state holds", same.stderr)
    want(held("held") == (2, 0), "what a full state holds", held("held"))
    printed = run([*words("status", "held", "--now", "0"), *two])
    want(printed.stdout.splitlines()[1].startswith(b"receipts 2 of 2 "), "status of a full state", printed.stdout)
    want(b"\nwarning: nearly-full: 2 of 2 receipts are held\n" in printed.stdout, "status warns of it", printed.stdout)
    want(printed.returncode == 1, "the exit status of a warning", printed.returncode)

    # The same state under lower limits.
    before = Path("held").read_bytes()
    for name, command in looking("held").items():
        fills(run([*command, "--most-receipts", "1"]), f"{name} of a state over its limit")
    fills(run([*distrusting("held"), "--most-receipts", "1"]), "distrust in a state over its limit")
    fills(run([*words("merge", "none.held"), "--most-receipts", "1"], before), "merge of a snapshot over the limit")
    want(not Path("none.held").exists(), "no state was made of it")
    said = run([*words("list", "held"), "--most-receipts", "1", "--verbose"]).stderr
    want(b"\n  state held: line 3 begins with " in said, "list --verbose names the line", said)
    want(Path("held").read_bytes() == before, "the state is as it was")

    # Records have a limit of their own, and both are more if the options say so.
    one = ["--most-records", "1"]
    expect(run([*distrusting("held"), *two, *one]), 0, b"", "distrust of at most one")
    fills(run([*distrusting("held", "abc"), *two, *one]), "distrust one too many")
    want(held("held") == (2, 1), "what a state full of both holds", held("held"))
    expect(run([*observing("held"), *three], compact(bundle(4, "abc"))), 0, b"", "observe with a higher limit")
    expect(run([*words("new", "fresh"), *three, *one]), 0, b"", "new with limits")
    expect(run([*words("merge", "fresh"), *three, *one], Path("held").read_bytes()), 0, b"", "merge up to both limits")
    want(held("fresh") == (3, 1), "what was merged", held("fresh"))


def limits_of_sessions():
    """`serve` and `pull` have limits too: what came before one receipt too many is kept."""
    server, address = serve("source", "--most-receipts", "2")
    ended = run(words("pull", "room", "--peer", address, "--most-receipts", "1"))
    server.communicate(timeout=HANG)
    want(ended.returncode == 1, "pull of one too many", (ended.returncode, ended.stderr))
    want(re.fullmatch(rb"fedbundle: S8 Refused line \d+ G3 Full taken 1\n", ended.stderr), "pull of one too many", ended.stderr)
    want(held("room") == (1, 0), "what it keeps", held("room"))
    server, address = serve("source", "--most-receipts", "2")
    ended = run(words("pull", "room", "--peer", address, "--most-receipts", "2"))
    server.communicate(timeout=HANG)
    expect(ended, 0, b"", "pull of all that fits")
    want(held("room") == (2, 0), "what it brought", held("room"))
    ended = run(words("serve", "source", "--listen", "127.0.0.1:0", "--sessions", "1", "--most-receipts", "1"))
    fills(ended, "serve of a state over its limit")


def bad_limits():
    ranges = {"--most-receipts": 4_194_304, "--most-records": 65_536}
    for option, most in ranges.items():
        for number in ("0", "00", str(most + 1), "x", "", "-1", "+1", "1.0", str(2**64)):
            expect(run([*words("list", "source"), f"{option}={number}"]), 2, USAGE, f"{option}={number}")
        for number in ("2", "02", str(most)):
            expect(run([*words("list", "source"), f"{option}={number}"]), 0, b"", f"{option}={number}")
        loud = run([*words("list", "source"), f"{option}=0", "--verbose"])
        name = option.encode()
        expect(loud, 2, USAGE + b"  " + name + b" \"0\" is no number of its range\n", f"{option}=0 --verbose")
        # A running replica has its own. That is refused before it is asked.
        loud = run([program, "list", "--at", "nowhere", option, "1", "--verbose"])
        expect(loud, 2, USAGE + b"  list: " + name + b" may not stand beside --at\n", f"{option} beside --at")
    for name, command in {"canon": ["canon", "--domain", DOMAIN], "config": ["config", "--config", "config.json"]}.items():
        want(run([program, *command, "--most-receipts", "1"], b"{}").returncode == 2, f"{name} has no limit")


def verbose():
    for name, more, status in [
        ("bundle", ["--domain", DOMAIN], 0), ("explain", ["--domain", DOMAIN], 0), ("polls", ["--now", "0"], 0),
    ]:
        given = compact(bundle(1, "abc")) if name == "explain" else b""
        quiet = run(words(name, "nowhere", *more), given)
        loud = run([*words(name, "nowhere", *more), "--verbose"], given)
        expect(quiet, status, b"", f"{name} without a state")
        expect(loud, status, b"fedbundle: there is no state file nowhere\n", f"{name} --verbose without a state")
        want(loud.stdout == quiet.stdout, f"{name}: its output", loud.stdout)
    server, address = serve("source", "--verbose")
    want(run(words("pull", "heard", "--peer", address)).returncode == 0, "pull")
    _, said = server.communicate(timeout=HANG)
    client = r"127\.0\.0\.1:\d+"
    wanted = f"fedbundle: listens at {re.escape(address)}\nfedbundle: {client} came\nfedbundle: {client} was given 256 answers\n"
    want(re.fullmatch(wanted, said.decode()), "serve --verbose", said)


def main():
    with temporary() as room:
        os.chdir(room)
        relationship = {"domain": DOMAIN, "endpoint": ENDPOINT, "profile": "https_spiffe", "url": "https://bundles.a.example/"}
        seed = {"bundle": bundle(1, "abc"), "domain": DOMAIN}
        Path("config.json").write_bytes(compact({"relationships": [relationship], "seeds": [seed]}))
        giving_up()
        slow_input()
        order_of_faults()
        slow_pull()
        too_many_bytes()
        too_many_held()
        limits_of_sessions()
        bad_limits()
        verbose()
        os.chdir("/")
    for fault in faults[:20]:
        print(fault)
    print(f"{ran} things looked at; {len(faults)} wrong")
    sys.exit(1 if faults else 0)


if __name__ == "__main__":
    main()

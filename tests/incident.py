#!/usr/bin/env python3
"""Plays the incident of a withdrawn key to its safe end, with two replicas, by the steps of docs/RUNBOOKS.md, over files.

A domain publishes sequence 1 (key abc), 2 (keys abc and hello) and 3 (key hello). Then the private key of `hello` is
stolen. The operator distrusts it on replica one; sequence 3 stays current if a chain under abc leads to it; otherwise
sequence 2 is current again. Then he re-seeds, from seeds that he has looked at, with the records that `migrate`
carries over. The test looks at each step whether a bundle that the thief forges under the stolen key is taken.

The certificates are made up, as those of crates/command_rows are: fedbundle checks none. It needs python3 and nothing
else.

usage: incident       the program is the one that ./fedbundle runs, or the one that $FEDBUNDLE names; the exit status
                      is 1 if a step came out another way
"""
import fcntl
import hashlib
import json
import os
import socket
import subprocess
import sys
import tempfile
import time
from pathlib import Path

sys.path.insert(0, str(Path(__file__).resolve().parent / "lib"))
from harness import HANG, find_program  # noqa: E402

PROGRAM = find_program()
DOMAIN = "a.example"
ENDPOINT = "spiffe://a.example/bundle"
CERTIFICATES = {"abc": "YWJj", "hello": "aGVsbG8=", "forged": "dGVzdA==", "test": "aGVsbG8gd29ybGQ="}
NAMES = {"abc": b"abc", "hello": b"hello", "forged": b"test", "test": b"hello world"}
KEYS = {name: hashlib.sha256(text).hexdigest() for name, text in NAMES.items()}
faults = 0


def bundle(sequence, *keys):
    """A bundle in its canonical form; without a sequence if that is None."""
    elements = [{"e": "AQAB", "kty": "RSA", "n": "AQAB", "use": "x509-svid", "x5c": [CERTIFICATES[key]]} for key in keys]
    elements.sort(key=compact)
    return {"keys": elements} if sequence is None else {"keys": elements, "spiffe_sequence": sequence}


def compact(value):
    return json.dumps(value, sort_keys=True, separators=(",", ":"))


def config(*seeds):
    relationship = {"domain": DOMAIN, "endpoint": ENDPOINT, "profile": "https_spiffe", "url": "https://bundles.a.example/"}
    return {"relationships": [relationship], "seeds": [{"bundle": seed, "domain": DOMAIN} for seed in seeds]}


def run(*words, given=b"", status=0):
    """The output of the program, which has to end with this status, and what is on standard error."""
    ran = subprocess.run([PROGRAM, *words], input=given, capture_output=True, timeout=HANG)
    check(f"{words[0]} ends with {status}", ran.returncode == status, f"{ran.returncode} {ran.stderr.decode()}")
    return ran.stdout, ran.stderr


def check(what, holds, seen=""):
    global faults
    if not holds:
        faults += 1
        print(f"differs: {what}: {seen}")


class Replica:
    """The files of a replica: its configuration and its state."""

    def __init__(self, name, configuration):
        self.config = f"{name}.config.json"
        self.state = f"{name}.state"
        Path(self.config).write_text(compact(configuration))

    def run(self, command, *words, **how):
        return run(command, "--config", self.config, "--state", self.state, *words, **how)

    def observe(self, document, key, status=0):
        words = ["--domain", DOMAIN, "--endpoint", ENDPOINT, "--key", KEYS[key]]
        return self.run("observe", *words, given=compact(document).encode(), status=status)

    def distrust(self, key, *words):
        return self.run("distrust", "--domain", DOMAIN, "--key", KEYS[key], *words)

    def looked_at(self):
        """The files of the replica, and when they were last written."""
        return {p.name: (p.read_bytes(), p.stat().st_mtime_ns, p.stat().st_ino) for p in Path(".").glob(f"{self.state}*")}

    def current(self):
        return json.loads(self.run("bundle", "--domain", DOMAIN)[0])

    def records(self):
        lines = Path(self.state).read_text().splitlines()
        return [json.loads(line)["distrust"] for line in lines if line.startswith('{"distrust"')]

    def pull_from(self, other):
        with socket.socket() as probe:
            probe.bind(("127.0.0.1", 0))
            address = "127.0.0.1:%d" % probe.getsockname()[1]
        words = ["serve", "--config", other.config, "--state", other.state, "--listen", address, "--sessions", "1"]
        server = subprocess.Popen([PROGRAM, *words], stdout=subprocess.DEVNULL)
        wait_for(address)
        self.run("pull", "--peer", address)
        check("serve ends with 0", server.wait(timeout=HANG) == 0)


def named(document):
    """A bundle as it is named: its id, and its sequence number."""
    identity = hashlib.sha256(f"{DOMAIN}\n{compact(document)}".encode()).hexdigest()
    return f"{identity} sequence {document['spiffe_sequence']}"


def what_changes(falls, later, gains, lists):
    """The lines of a record of distrust with which the one bundle falls, and the other is current again."""
    lines = [f"falls {DOMAIN} document {named(falls)}", f"current {DOMAIN} before {named(falls)} after {named(later)}"]
    lines += [f"{word} {DOMAIN} key {KEYS[key]}" for word, keys in (("gains", gains), ("lists", lists)) for key in keys]
    return "".join(f"{line}\n" for line in lines)


def wait_for(address):
    """Waits until somebody listens at the port, without a connection, which would use up the session."""
    place = "%04X" % int(address.rsplit(":", 1)[1])
    for _ in range(500):
        sockets = [line.split() for line in Path("/proc/net/tcp").read_text().splitlines()[1:]]
        if any(fields[1].endswith(f":{place}") and fields[3] == "0A" for fields in sockets):
            return
        time.sleep(0.02)


def play():
    first, second, third = bundle(1, "abc"), bundle(2, "abc", "hello"), bundle(3, "hello")
    forged = bundle(9, "forged")
    one, two = Replica("one", config(first)), Replica("two", config(first))
    one.observe(second, "abc")
    one.observe(third, "hello")
    two.pull_from(one)
    check("both hold the same", Path(one.state).read_bytes() == Path(two.state).read_bytes())
    check("sequence 3 is current", one.current() == third)

    # The key of sequence 3 is stolen. The operator looks first, while another command has the lock: nothing changes.
    before = one.looked_at()
    with open(f"{one.state}.lock", "rb+") as lock:
        fcntl.flock(lock, fcntl.LOCK_EX)
        printed, complaint = one.distrust("hello", "--dry-run")
    said = what_changes(third, second, gains=["abc"], lists=["hello"]).encode()
    check("the dry run says what would change", (printed, complaint) == (said, b""), (printed, complaint))
    check("the dry run changes no file", one.looked_at() == before)
    unknown, _ = one.distrust("test", "--dry-run")
    check("a key that is in no bundle is a warning", unknown.endswith(f" lists the key {KEYS['test']}\n".encode()), unknown)

    # It is distrusted on one replica, which says the same.
    check("the record says what it changes", one.distrust("hello", "--verbose") == (b"", said))
    check("sequence 2 is current again, which lists the retired key and the stolen one", one.current() == second)
    one.observe(forged, "hello", status=1)
    two.pull_from(one)
    check("the record came with a pull", two.records() == [KEYS["hello"]])
    two.observe(forged, "hello", status=1)

    # What must not be done: sequence 3 as a seed, and no record. The thief's bundle is taken.
    careless = Replica("careless", config(third))
    careless.observe(forged, "hello")
    check("without the record the forged bundle becomes current", careless.current() == forged)

    # What is current is not a safe seed, and `reseed` says so. If it is allowed, the record still keeps the thief
    # out.
    for replica in (one, two):
        printed, complaint = replica.run("reseed", status=1)
        refused = b"refused a.example: the current bundle lists a distrusted key\n"
        check("reseed refuses the domain by its name", (printed, complaint) == (b"", refused), (printed, complaint))
    printed, complaint = one.run("reseed", "--allow", DOMAIN)
    check("reseed prints what is current where it is allowed", printed == compact(config(second)).encode(), printed)
    one.run("reseed", "--allow", "b.example", status=1)

    # The safe end: a bundle that came over a trusted way is the seed, and the records go along.
    repaired = bundle(4, "test")
    pairs = []
    for old, name in [(one, "one.new"), (two, "two.new")]:
        new = Replica(name, config(repaired))
        snapshot, left = old.run("migrate", "--to", new.config, "--records-only")
        check("nothing is left out", left == b"", left)
        Path(new.state).write_bytes(snapshot)
        pairs.append(new)
    check("both print the same", Path(pairs[0].state).read_bytes() == Path(pairs[1].state).read_bytes())
    for new in pairs:
        check("the stolen key stays distrusted", new.records() == [KEYS["hello"]])
        check("the seed is current", new.current() == repaired)
        new.observe(forged, "hello", status=1)
        check("the new configuration's seed is safe", new.run("reseed")[0] == compact(config(repaired)).encode())
        new.observe(bundle(5, "test", "hello"), "test")
        new.run("reseed", status=1)
        check("a bundle that lists the stolen key is taken, but the key vouches for nothing", new.current()["spiffe_sequence"] == 5)
        new.observe(forged, "hello", status=1)
    pairs[1].pull_from(pairs[0])
    check("the record is held after a pull", pairs[1].records() == [KEYS["hello"]])

    # Whoever uses a bundle with the stolen key as seed after all is safe too, as long as the records go along.
    late = Replica("late", config(second))
    snapshot, _ = one.run("migrate", "--to", late.config, "--records-only")
    Path(late.state).write_bytes(snapshot)
    late.observe(forged, "hello", status=1)

    # Two bundles with one sequence: one of them is current only by its text.
    torn = Replica("torn", config(first))
    torn.observe(bundle(2, "abc"), "abc")
    check("one bundle of a sequence is a safe seed", torn.run("reseed")[0] == compact(config(bundle(2, "abc"))).encode())
    torn.observe(bundle(2, "abc", "test"), "abc")
    printed, complaint = torn.run("reseed", status=1)
    refused = b"refused a.example: another bundle has the current one's sequence\n"
    check("reseed refuses a domain with a conflict", (printed, complaint) == (b"", refused), (printed, complaint))

    # Two bundles without a sequence: one of them is current only by its text, too.
    bare = Replica("bare", config(bundle(None, "abc")))
    bare.run("new")
    check("one bundle without a sequence is a safe seed", bare.run("reseed")[0] == compact(config(bundle(None, "abc"))).encode())
    bare.observe(bundle(None, "abc", "test"), "abc")
    printed, complaint = bare.run("reseed", status=1)
    refused = b"refused a.example: another bundle has no sequence either\n"
    check("reseed refuses two bundles without a sequence", (printed, complaint) == (b"", refused), (printed, complaint))

    # A URL with a backslash in its query is written as JSON.
    odd = config(first)
    odd["relationships"][0]["url"] = "https://bundles.a.example/?a=\\b"
    strange = Replica("strange", odd)
    strange.run("new")
    printed, _ = strange.run("reseed")
    check("the configuration is the same", printed == compact(odd).encode(), printed)
    Path("strange.again").write_bytes(printed)
    run("report", "--config", "strange.again")

    # A change of configuration without an incident keeps all that fits.
    wider = config(first)
    wider["relationships"].append({"domain": "b.example", "endpoint": ENDPOINT, "profile": "https_spiffe", "url": "https://b/"})
    grown = Replica("grown", wider)
    snapshot, left = one.run("migrate", "--to", grown.config)
    Path(grown.state).write_bytes(snapshot)
    check("nothing is left out", left == b"", left)
    check("the same is current under the new configuration", grown.current() == second)
    check("the record went along", grown.records() == [KEYS["hello"]])
    back, left = grown.run("migrate", "--to", one.config)
    check("and back it is the file that it was", back == Path(one.state).read_bytes())
    grown.run("merge", given=Path(one.state).read_bytes(), status=1)


def main():
    with tempfile.TemporaryDirectory(prefix="fedbundle-") as folder:
        os.chdir(folder)
        play()
    print("the incident came out as it should" if faults == 0 else f"{faults} steps came out another way")
    sys.exit(1 if faults else 0)


if __name__ == "__main__":
    main()

#!/usr/bin/env python3
"""A federation that changes its configuration while it runs: `replica --config NEW --previous OLD`.

The new configuration has one domain more and one fewer than the old one, a floor for one, and another endpoint for one.

- start: a state of the old configuration, which commands wrote, and a journal that a killed replica left are carried over:
  the state is then what `migrate` prints, and `state.previous` is the snapshot of what was held. A second start with --previous
  keeps both, and one without it removes `state.previous`. After a change back, what fits the old configuration only is there
  again, and so it is for the new one after another change. A state of a third configuration is refused as it is
  without --previous; a file for --previous that is not there, and one of the same configuration, are as none. Both
  configurations have the limit of --most-records. If an older state is put back in the middle of a change, both it and what
  was kept are carried over, or the start is refused. A start that is refused changes no file.
- kills: starts that carry over, forward and back, are killed (SIGKILL) at random times, up to three of them in a row. The next
  one ends what was begun: both files have the wanted bytes, and nothing else is left.
- calls: the same after a start is killed before one of its calls of the system, one call after another, and after one is
  refused, or an allocation. Such a start is ready with all that is held, or it ends with an error. A library is preloaded for
  this, so a program that was built with a sanitizer is left out.
- between: a replica between two others that do not know each other passes on what fits one configuration only, under that
  one, for both. It keeps what fits only the previous one in memory, and answers its own machine from the new one.
- rolling: five replicas pull from one another each second, and four clients observe bundles at any of them. The replicas go
  over one after another, half of them by a kill; one goes back, and forward again; one is stopped for some time. What comes
  at one reaches all in each step. No replica shows an older bundle of a domain than it did, or none. At the end, without
  --previous, all have the same report and the same snapshot, with all that was acknowledged.
- status: what `status --at` says of the previous configuration, and of what the peers were asked: nothing of one that answers
  under a third configuration, and what a stranger asks is no use of the previous one.
- figures: only if it is named: the time of a start, and the memory, with 61,440 usual bundles.

Each wait is for a condition, for at most 120 seconds, and no look is about time.

It needs python3, and for `calls` cc and nm. The program is the one that ./fedbundle runs, or the one that $FEDBUNDLE names.

usage: change [KILLS [PART..]]   this many rounds of kills, 40 if left out; all parts but the figures, if none is named; the
    status is 1 if something is wrong
"""
import base64
import hashlib
import itertools
import json
import os
import random
import re
import select
import signal
import socket
import subprocess
import sys
import threading
import time
from dataclasses import dataclass
from pathlib import Path

sys.dont_write_bytecode = True
HERE = Path(__file__).resolve().parent
sys.path.insert(0, str(HERE.parent / "lib"))
from harness import HANG, KINDS, TOLD, TOP, build_library, find_program, listener_of_own, shown, temporary  # noqa: E402
from needs import left_out  # noqa: E402
import replica as replicas  # noqa: E402
import sums  # noqa: E402

ask, free_address = replicas.ask, replicas.free_address

DER = b"the certificate of each bundle"
KEY = hashlib.sha256(DER).hexdigest()
PLAIN = [f"p{number}.example" for number in range(4)]
PROBES = ["q0.example", "q1.example"]
FLOORED, MOVED, REMOVED, ADDED = "f.example", "m.example", "r.example", "n.example"
BOTH = [*PLAIN, *PROBES, FLOORED, MOVED]
FLOOR = 100
STATE_FILES = ["state", "state.new", "state.journal", "state.lock", "state.previous", "state.previous.new"]
USUAL = 61_440
MOST_RECORDS = 4_096

faults = []
ran = 0


class Failed(Exception):
    """The rest of a part would only fail too."""


def want(what, right, *seen):
    global ran
    ran += 1
    if not right:
        faults.append(f"{what}: {', '.join(shown(value) for value in seen)}")
    return right


def until(what, holds, seen=lambda: ""):
    """Waits until it holds. If it does not, that is reported, and the part ends."""
    end = time.monotonic() + HANG
    while not holds():
        if time.monotonic() > end:
            want(f"{what}, within {HANG} seconds", False, seen())
            raise Failed
        time.sleep(0.05)
    want(what, True)


# ---- configurations, and what is held under them


def authority(der):
    return '{"e":"AQAB","kty":"RSA","n":"AQAB","use":"x509-svid","x5c":["%s"]}' % base64.b64encode(der).decode()


def bundle(sequence, *ders):
    """The canonical text of a bundle that lists the key that vouches for each of them, and others."""
    keys = ",".join(sorted(authority(der) for der in (DER, *ders)))
    return '{"keys":[%s],"spiffe_sequence":%d}' % (keys, sequence)


class Configuration:
    def __init__(self, name, domains, moved="bundle", floors=None):
        self.name, self.domains, self.moved, self.floors = name, sorted(domains), moved, floors or {}
        relationships = ",".join(
            f'{{"domain":"{it}","endpoint":"{self.endpoint(it)}","profile":"https_spiffe","url":"https://{it}/"}}'
            for it in self.domains)
        seeds = ",".join(f'{{"bundle":{self.seed(it)},"domain":"{it}"}}' for it in self.domains)
        floors = ",".join(f'"{it}":{floor}' for it, floor in self.floors.items())
        start = f'"floors":{{{floors}}},' if floors else ""
        self.text = f'{{{start}"relationships":[{relationships}],"seeds":[{seeds}]}}'
        self.digest = hashlib.sha256(self.text.encode()).hexdigest()

    def endpoint(self, domain):
        return f"spiffe://{domain}/{self.moved if domain == MOVED else 'bundle'}"

    def seed(self, domain):
        return bundle(self.floors.get(domain, 1))

    def fits(self, line):
        """Whether a receipt or a record of distrust fits it."""
        said = json.loads(line)
        if said["domain"] not in self.domains:
            return False
        if "doc" not in said:
            return True
        is_below = said["doc"]["spiffe_sequence"] < self.floors.get(said["domain"], 0)
        return said["endpoint"] == self.endpoint(said["domain"]) and not is_below

    def fitting(self, lines):
        return {line for line in lines if self.fits(line)}

    def head(self):
        return b'{"config":"%s","format":2}\n' % self.digest.encode()

    def snapshot(self, lines):
        lines = [*lines]
        receipts = sorted(line for line in lines if line.startswith(b'{"doc":'))
        records = sorted(line for line in lines if not line.startswith(b'{"doc":'))
        return b"".join([self.head(), *records, *receipts,
                         b'{"count":%d,"distrusts":%d}\n' % (len(receipts), len(records))])

    def journal(self, lines):
        return b"".join([self.head(), *lines])

    def ready(self, state):
        """What a replica prints that holds this snapshot."""
        counts = json.loads(state.splitlines()[-1])
        return f"ready {self.digest} receipts {counts['count']} distrusts {counts['distrusts']}\n".encode()


OLD = Configuration("old", [*BOTH, REMOVED])
NEW = Configuration("new", [*BOTH, ADDED], "changed", {FLOORED: FLOOR})
THIRD = Configuration("third", PLAIN[:2])


def receipt(config, domain, document, voucher):
    name = hashlib.sha256(f"{domain}\n{voucher}".encode()).hexdigest()
    return (f'{{"doc":{document},"domain":"{domain}","endpoint":"{config.endpoint(domain)}","key":"{KEY}",'
            f'"voucher":"{name}"}}\n').encode()


def chain(config, domain, first, count):
    """The receipts of a domain's bundles, of which each vouches for the next."""
    voucher = config.seed(domain)
    for sequence in range(first, first + count):
        document = bundle(sequence, hashlib.sha256(f"{domain} {sequence}".encode()).digest()[:12])
        yield receipt(config, domain, document, voucher)
        voucher = document


def records(domain, count):
    for number in range(count):
        key = hashlib.sha256(f"key {number} of {domain}".encode()).hexdigest()
        yield b'{"distrust":"%s","domain":"%s"}\n' % (key.encode(), domain.encode())


def lines_of(text):
    """The receipts and records of a snapshot or a journal."""
    return {line for line in text.splitlines(keepends=True) if line.startswith((b'{"doc":', b'{"distrust":'))}


# ---- a replica


def content(path):
    try:
        return path.read_bytes()
    except FileNotFoundError:
        return None


class Replica:
    """A replica in a folder of its own, in which all configurations are."""

    def __init__(self, program, folder, *words):
        self.program, self.folder, self.words = program, Path(folder), words
        self.environment = None
        self.folder.mkdir()
        for config in (OLD, NEW, THIRD):
            (self.folder / config.name).write_text(config.text)
        self.socket = self.folder / "socket"
        self.log = self.folder / "log"
        self.log.touch()
        self.process, self.begun, self.config, self.is_away = None, 0, None, False

    def run(self, *words, text=b""):
        return subprocess.run([self.program, *words], input=text, capture_output=True, cwd=self.folder, timeout=HANG)

    def command(self, config, previous=None, socket="socket"):
        return ["replica", "--config", config.name, *(["--previous", previous.name] if previous else []), "--state", "state",
                "--socket", socket, *self.words]

    def begin(self, config, previous=None):
        self.begun, self.config = self.log.stat().st_size, config
        with self.log.open("ab") as log:
            self.process = subprocess.Popen(
                [self.program, *self.command(config, previous)], cwd=self.folder, stdin=subprocess.DEVNULL,
                stdout=subprocess.PIPE, stderr=log, env={**os.environ, **(self.environment or {})})

    def start(self, config, previous=None):
        """Starts it, and returns what it prints until it accepts requests or has ended."""
        self.begin(config, previous)
        printed, end = b"", time.monotonic() + HANG
        while not printed.endswith(b"\n"):
            if not select.select([self.process.stdout], [], [], max(0, end - time.monotonic()))[0]:
                want(f"a start, within {HANG} seconds", False, self.said())
                self.kill()
                raise Failed
            piece = os.read(self.process.stdout.fileno(), 1 << 16)
            if not piece:
                break
            printed += piece
        return printed

    def ends(self):
        """Waits until it has ended."""
        status = self.process.wait(HANG)
        self.process.stdout.close()
        self.process = None
        return status

    def kill(self):
        self.process.kill()
        return self.ends()

    def stop(self):
        self.ask("stop")
        return self.ends()

    def ask(self, *words, text=b""):
        return ask(self.socket, words, text, HANG)

    def observe(self, domain, sequence, *ders, config=None):
        words = ["--domain", domain, "--endpoint", (config or self.config).endpoint(domain), "--key", KEY]
        return ask(self.socket, ["observe", *words], bundle(sequence, *ders).encode(), HANG)

    def said(self):
        """What it reported since its last start."""
        return self.log.read_bytes()[self.begun:].decode(errors="replace")

    def files(self):
        """The state and what belongs to it, without the lock."""
        found = {name: content(self.folder / name) for name in STATE_FILES if name != "state.lock"}
        return {name: text for name, text in found.items() if text is not None}

    def lay(self, files):
        """Leaves these files of a state, and no other."""
        for name in [*STATE_FILES, "socket"]:
            (self.folder / name).unlink(missing_ok=True)
        for name, text in files.items():
            (self.folder / name).write_bytes(text)

    def migrated(self, config, to=None):
        """What `migrate` prints of the state, and how many lines it leaves out."""
        words = ["--to", to.name] if to else []
        ran = self.run("migrate", "--config", config.name, "--state", "state", *words)
        left = ran.stderr.count(b"left out ")
        if not want("migrate", ran.returncode == (1 if left else 0), ran.returncode, ran.stderr[-300:]):
            raise Failed
        return ran.stdout, left

    def __enter__(self):
        return self

    def __exit__(self, *_):
        if self.process:
            self.process.send_signal(signal.SIGCONT)
            self.kill()


def sequence_of(reply):
    """The sequence number of the bundle that was shown, or none."""
    return json.loads(reply[1])["spiffe_sequence"] if reply and reply[0] == 0 and reply[1] else None


# ---- what is there before a start, and what has to be there behind it


@dataclass
class Case:
    name: str
    files: dict
    config: Configuration
    previous: object
    state: bytes
    kept: object
    # What the state is if the next start changes in the other direction.
    turned: object = None

    def has_to_be(self):
        wanted = {"state": self.state, "state.journal": self.config.head()}
        return wanted if self.kept is None else {**wanted, "state.previous": self.kept}

    def ready(self):
        return self.config.ready(self.state)


def difference(seen, wanted):
    """What of it an operator would look for: lines that are missing, and lines that are too many."""
    if seen is None or wanted is None:
        return f"seen {seen if seen is None else len(seen)}, wanted {wanted if wanted is None else len(wanted)} bytes"
    seen, wanted = seen.splitlines(), wanted.splitlines()
    missing, more = set(wanted) - set(seen), set(seen) - set(wanted)
    return f"{len(missing)} lines are missing, {len(more)} too many: {[line[:90] for line in [*missing, *more][:4]]}"


def check(what, replica, case):
    """Both files have the wanted bytes, the journal is empty, and nothing else is left."""
    seen, wanted = replica.files(), case.has_to_be()
    for name in sorted({*seen, *wanted}):
        want(f"{what}: {name}", seen.get(name) == wanted.get(name), difference(seen.get(name), wanted.get(name)))


def cases_of(size):
    """Each way in which a start with --previous, or the first one without it, finds the files. Of each domain there are so
    many receipts, and a tenth of that of records. What one configuration holds and fits the other one is held there too, as
    it is after a change."""
    shared = [*itertools.chain.from_iterable(chain(OLD, domain, 2, size) for domain in BOTH if domain not in (FLOORED, MOVED))]
    shared += [*chain(NEW, FLOORED, FLOOR + 1, size // 2)]
    for domain in (PLAIN[0], MOVED):
        shared += records(domain, size // 10 + 1)
    # The first bundles of the one with a floor are below it.
    only_old = [*chain(OLD, FLOORED, 2, min(size // 2, FLOOR - 2)), *chain(OLD, MOVED, 2, size), *chain(OLD, REMOVED, 2, size)]
    only_old += records(REMOVED, size // 10 + 1)
    only_new = [*chain(NEW, MOVED, 2, size), *chain(NEW, ADDED, 2, size), *records(ADDED, size // 10 + 1)]
    before, later = shared[::2], shared[1::2]
    whole_old, whole_new = OLD.snapshot([*shared, *only_old]), NEW.snapshot([*shared, *only_new])
    files_old = {"state": OLD.snapshot([*before, *only_old[::3]]),
                 "state.journal": OLD.journal([*later, *only_old[1::3], *only_old[2::3]])}
    files_new = {"state": NEW.snapshot([*before, *only_new[::3]]),
                 "state.journal": NEW.journal([*later, *only_new[1::3], *only_new[2::3]])}
    previous_old, previous_new = OLD.snapshot([*before, *only_old]), NEW.snapshot([*before, *only_new])
    first = NEW.snapshot(shared)
    torn = {"state.new": first[:len(first) // 2], "state.previous.new": whole_old[:len(whole_old) // 2]}
    return [
        Case("forward", files_old, NEW, OLD, first, whole_old, whole_old),
        Case("forward, next to torn files", {**files_old, **torn}, NEW, OLD, first, whole_old, whole_old),
        Case("back", {**files_new, "state.previous": previous_old}, OLD, NEW, whole_old, whole_new, whole_new),
        Case("forward again", {**files_old, "state.previous": previous_new}, NEW, OLD, whole_new, whole_old, whole_old),
        Case("a second start", {**files_new, "state.previous": previous_old}, NEW, OLD, whole_new, previous_old, whole_old),
        Case("the end", {**files_new, "state.previous": previous_old}, NEW, None, whole_new, None),
        # An older state is put back in the middle of a change, and what was kept has more than it.
        Case("put back", {"state": OLD.snapshot([*before, *only_old[::3]]),
                          "state.previous": OLD.snapshot([*later, *only_old[1::3], *only_old[2::3]])},
             NEW, OLD, first, whole_old),
        Case("put back, and no change", {"state": previous_old, "state.previous": whole_old}, OLD, None, previous_old, whole_old),
    ]


def ends_what_was_begun(what, replica, case, also_turned=True):
    """After a start that was cut short: the next one, and one in the other direction in its place, lose nothing."""
    files = replica.files()
    ready = replica.start(case.config, case.previous)
    want(f"{what}, and a start: ready", ready == case.ready(), ready, case.ready(), replica.said())
    if ready:
        check(f"{what}, and a start", replica, case)
    replica.kill()
    if case.turned is None or not also_turned:
        return
    replica.lay(files)
    ready = replica.start(case.previous, case.config)
    wanted = case.previous.ready(case.turned)
    want(f"{what}, and a start in the other direction: ready", ready == wanted, ready, wanted, replica.said(), [*files])
    if ready:
        seen = replica.files().get("state")
        want(f"{what}, and a start in the other direction", seen == case.turned, difference(seen, case.turned), [*files])
    replica.kill()


# ---- start


def taught(program, above):
    """A replica whose state commands wrote under the old configuration, and then a replica that was killed."""
    replica = Replica(program, above / "taught")

    def by_command(word, domain, *more, text=b""):
        ran = replica.run(word, "--config", "old", "--state", "state", "--domain", domain, *more, text=text)
        want(f"{word} {domain}", ran.returncode == 0, ran)

    want("new", replica.run("new", "--config", "old", "--state", "state").returncode == 0)
    for domain, sequences in ((PLAIN[0], (2, 3, 4)), (PLAIN[1], (2,)), (FLOORED, (50, FLOOR, FLOOR + 1)), (MOVED, (2, 3)),
                              (REMOVED, (2, 3))):
        for sequence in sequences:
            by_command("observe", domain, "--endpoint", OLD.endpoint(domain), "--key", KEY, text=bundle(sequence).encode())
    for domain in (PLAIN[1], MOVED, REMOVED):
        by_command("distrust", domain, "--key", hashlib.sha256(domain.encode()).hexdigest())
    want("a replica of the old configuration", replica.start(OLD).startswith(f"ready {OLD.digest} ".encode()), replica.said())
    for domain, sequence in ((PLAIN[2], 2), (PLAIN[0], 5), (FLOORED, 60), (FLOORED, FLOOR + 2), (MOVED, 4), (REMOVED, 4)):
        reply = replica.observe(domain, sequence)
        want(f"observe {domain} {sequence}", reply is not None and reply[0] == 0, reply)
    reply = replica.ask("distrust", "--domain", PLAIN[3], "--key", "0" * 64, "--unknown-key")
    want("distrust", reply == (0, b"", b""), reply)
    replica.kill()
    want("a killed replica leaves a journal", len(lines_of(replica.files()["state.journal"])) == 7, replica.files())
    return replica


def carry_over_line(taken, unfit):
    return f"event=carry-over taken={taken} unfit={unfit} no-place=0\n"


def there_and_back(replica):
    """A state is carried over, kept by a second start, carried back and forth, and what was kept is removed."""
    (held, _), (carried, left) = replica.migrated(OLD), replica.migrated(OLD, NEW)
    want("what is held, and what of it fits", len(lines_of(held)) == 21 and left == 9 and len(lines_of(carried)) == 12,
         len(lines_of(held)), left)
    case = Case("forward", replica.files(), NEW, OLD, carried, held)
    ready = replica.start(NEW, OLD)
    want("a carry-over: ready", ready == case.ready(), ready, case.ready(), replica.said())
    check("a carry-over", replica, case)
    want("a carry-over: what it reports", replica.said() == carry_over_line(12, 9), replica.said())
    over = replica.run("report", "--config", "new", "--state", "state")
    want("report --at", replica.ask("report") == (0, over.stdout, b""), replica.ask("report"), over.stdout)
    want("migrate --at", replica.ask("migrate") == (0, carried, b""))
    reply = replica.ask("bundle", "--domain", REMOVED)
    over = replica.run("bundle", "--config", "new", "--state", "state", "--domain", REMOVED)
    want("a domain that was removed", reply == (over.returncode, over.stdout, over.stderr) and reply[0] == 1, reply, over)
    modes = {name: (replica.folder / name).stat().st_mode & 0o777 for name in ("state", "state.previous")}
    want("the modes", set(modes.values()) == {0o600}, modes)
    before = replica.files()
    for config, previous in ((NEW, OLD), (NEW, None), (OLD, NEW), (OLD, None)):
        ran = replica.run(*replica.command(config, previous, "other"))
        want("a second replica", (ran.returncode, ran.stderr) == (3, b"fedbundle: a replica is running\n"), config.name, ran)
    want("a second replica: the files", replica.files() == before, [*replica.files()], [*before])
    for domain, sequence in ((PLAIN[0], 6), (FLOORED, FLOOR + 3), (MOVED, 5), (ADDED, 2)):
        reply = replica.observe(domain, sequence)
        want(f"observe {domain} under the new one", reply is not None and reply[0] == 0, reply)
    refused = replica.observe(REMOVED, 9), replica.observe(MOVED, 9, config=OLD), replica.observe(FLOORED, 70)
    want("what does not fit the new one is refused", all(reply and reply[0] == 1 for reply in refused), refused)
    replica.kill()

    both, _ = replica.migrated(NEW)
    want("all that came is held", len(lines_of(both)) == 16, len(lines_of(both)))
    again = Case("a second start", replica.files(), NEW, OLD, both, held)
    ready = replica.start(NEW, OLD)
    want("a second start: ready", ready == again.ready(), ready, replica.said())
    check("a second start", replica, again)
    want("a second start: what it reports", "carry-over" not in replica.said(), replica.said())
    want("a second start is stopped", replica.stop() == 0)
    before = replica.files()

    # What fits the old configuration only is back, with what came and fits both.
    came = {line for line in lines_of(both) - lines_of(carried) if OLD.fits(line)}
    want("what came fits both or one", len(came) == 2, came)
    back = Case("back", before, OLD, NEW, OLD.snapshot(lines_of(held) | came), both)
    ready = replica.start(OLD, NEW)
    want("a change back: ready", ready == back.ready(), ready, back.ready(), replica.said())
    check("a change back", replica, back)
    want("a change back: what it reports", replica.said().count("event=carry-over ") == 1, replica.said())
    for domain, sequence in ((REMOVED, 5), (PLAIN[1], 3), (MOVED, 6)):
        reply = replica.observe(domain, sequence)
        want(f"observe {domain} under the old one", reply is not None and reply[0] == 0, reply)
    replica.kill()
    then, _ = replica.migrated(OLD)
    forward = Case("forward again", replica.files(), NEW, OLD, NEW.snapshot(lines_of(both) | NEW.fitting(lines_of(then))), then)
    ready = replica.start(NEW, OLD)
    want("forward again: ready", ready == forward.ready(), ready, forward.ready(), replica.said())
    check("forward again", replica, forward)
    want("forward again, it is stopped", replica.stop() == 0)

    end = Case("the end", replica.files(), NEW, None, forward.state, None)
    ready = replica.start(NEW)
    want("the end: ready", ready == end.ready(), ready, replica.said())
    check("the end", replica, end)
    want("the end: what it reports", replica.said() == "", replica.said())
    want("the end, it is stopped", replica.stop() == 0)
    ready = replica.start(NEW, OLD)
    want("with --previous after the end", ready == end.ready() and "carry-over" not in replica.said(), ready, replica.said())
    replica.kill()
    want("with --previous after the end: the state", replica.files()["state"] == end.state)


def same_as_without(what, replica, files, config, previous):
    """A start with this previous configuration ends as the one without it, and changes nothing."""
    seen = []
    for words in (replica.command(config), [*replica.command(config), "--previous", previous]):
        replica.lay(files)
        ran = replica.run(*words)
        seen.append((ran.returncode, ran.stdout, ran.stderr))
        want(f"{what}: the files", replica.files() == files, replica.files())
    want(what, seen[0] == seen[1] and seen[0][0] == 1 and seen[0][1] == b"", *seen)


def other_beginnings(program, above, taught_files):
    replica = Replica(program, above / "others")
    lines = [*chain(THIRD, PLAIN[0], 2, 3)]
    third = {"state": THIRD.snapshot(lines)}
    old, new = taught_files, {"state": NEW.snapshot(NEW.fitting(lines))}
    same_as_without("a state of a third configuration", replica, third, NEW, "old")
    same_as_without("a journal of a third configuration", replica, {"state.journal": THIRD.journal(lines)}, NEW, "old")
    beside = {**new, "state.journal": THIRD.journal(lines)}
    same_as_without("a state with the journal of a third configuration", replica, beside, NEW, "old")
    for text in (b"", b"garbage\n", third["state"][:-5], old["state"][:40]):
        same_as_without(f"a state that is none, {text[:20]}", replica, {"state": text}, NEW, "old")
    same_as_without("no state", replica, {}, NEW, "old")
    left = {"state.previous.new": OLD.snapshot(lines)}
    same_as_without("no state, and what a kill left", replica, left, NEW, "old")
    same_as_without("a state of a third configuration, and what a kill left", replica, {**third, **left}, NEW, "old")
    same_as_without("a missing file, and a state of the old configuration", replica, old, NEW, "nothing")
    # The same configuration in another spelling.
    (replica.folder / "spelled").write_text(json.dumps(json.loads(NEW.text), indent=1))
    same_as_without("the same configuration, and a state of the old one", replica, old, NEW, "spelled")
    kept = {**new, "state.previous": OLD.snapshot(lines)}
    for previous in ("nothing", "new", "spelled"):
        replica.lay(kept)
        replica.words = ("--previous", previous)
        case = Case(previous, kept, NEW, None, new["state"], None)
        ready = replica.start(NEW)
        want(f"--previous {previous}: ready", ready == case.ready(), ready, replica.said())
        check(f"--previous {previous}", replica, case)
        want(f"--previous {previous}: what it reports", replica.said() == "", replica.said())
        want(f"--previous {previous}: it is stopped", replica.stop() == 0)
    replica.words = ()
    # A configuration that is refused, as the previous one or as the present one.
    (replica.folder / "garbage").write_text("garbage")
    for files in (old, new, kept):
        replica.lay(files)
        ran = replica.run(*replica.command(NEW), "--previous", "garbage")
        right = ran.returncode == 1 and ran.stdout == b"" and ran.stderr.startswith(b"fedbundle: ")
        want("a previous configuration that is refused", right, ran)
        want("a previous configuration that is refused: the files", replica.files() == files, replica.files())
    # All that is held is in a journal.
    whole = OLD.snapshot(lines_of(old["state"]))
    replica.lay({"state.journal": OLD.journal(sorted(lines_of(old["state"])))})
    case = Case("a journal", {}, NEW, OLD, NEW.snapshot(NEW.fitting(lines_of(whole))), whole)
    ready = replica.start(NEW, OLD)
    want("a journal without a state: ready", ready == case.ready(), ready, replica.said())
    if ready:
        check("a journal without a state", replica, case)
        replica.kill()


def full_store(program, above):
    """The new configuration holds ten records that are not under the old one, which has as many as there may be."""
    with Replica(program, above / "full") as replica:
        held = OLD.snapshot(records(PLAIN[0], MOST_RECORDS))
        replica.lay({"state": held, "state.previous": NEW.snapshot(records(PLAIN[1], 10))})
        ready = replica.start(NEW, OLD)
        want("a full store: ready", ready.endswith(b" receipts 0 distrusts %d\n" % MOST_RECORDS), ready, replica.said())
        want("a full store: what it reports", " no-place=10\n" in replica.said(), replica.said())
        kept = replica.files().get("state.previous")
        want("a full store: what is kept", kept == held, difference(kept, held))


def small_store(program, above):
    """Both configurations have the limit of --most-records."""
    with Replica(program, above / "small", "--most-records", "20") as replica:
        held = OLD.snapshot(records(PLAIN[0], 20))
        replica.lay({"state": held, "state.previous": NEW.snapshot(records(PLAIN[1], 10))})
        ready = replica.start(NEW, OLD)
        want("a small store: ready", ready.endswith(b" receipts 0 distrusts 20\n"), ready, replica.said())
        want("a small store: what it reports", " no-place=10\n" in replica.said(), replica.said())
        status = replica.ask("status")
        want("a small store: its status", b"\nrecords 20 of 20\n" in status[1], status)
        want("a small store: it is stopped", replica.stop() == 0)
        replica.lay({"state": held})
        replica.words = ("--most-records", "19")
        ran = replica.run(*replica.command(NEW, OLD))
        right = ran.returncode == 1 and ran.stdout == b"" and ran.stderr.endswith(b"G3 Full\n")
        want("a state of the old configuration with one record too many", right, ran)
        want("a state with one record too many: the files", replica.files() == {"state": held}, replica.files())


def touched_previous(program, above):
    """What is kept is changed while a replica runs: nothing is lost that it acknowledges then."""
    ways = {"emptied": b"", "cut": None, "replaced by another program's": b"text", "of the new one": NEW.snapshot([])}
    for number, (way, text) in enumerate(ways.items()):
        what = f"what is kept is {way}"
        with Replica(program, above / f"touched-{number}") as replica:
            replica.lay({"state": OLD.snapshot(chain(OLD, PLAIN[0], 2, 3))})
            replica.start(NEW, OLD)
            kept = replica.folder / "state.previous"
            kept.write_bytes(kept.read_bytes()[:-5] if text is None else text)
            reply = replica.observe(PLAIN[1], 2)
            want(f"{what}: it goes on", reply is not None and reply[0] == 0, reply)
            replica.kill()
            if not replica.start(NEW, OLD):
                replica.ends()
                kept.unlink()
                replica.start(NEW, OLD)
            held = lines_of(replica.files()["state"])
            want(f"{what}: what was acknowledged is held", len(held) == 4 and reply[1] in held, len(held), replica.said())


def full_of_both(program, above):
    """A state that was put back, and what was kept, have more records than there may be: no file is changed."""
    with Replica(program, above / "both", "--most-records", "20") as replica:
        files = {"state": OLD.snapshot(records(PLAIN[0], 15)), "state.previous": OLD.snapshot(records(PLAIN[1], 10))}
        replica.lay(files)
        ran = replica.run(*replica.command(NEW, OLD))
        right = ran.returncode == 1 and ran.stdout == b"" and ran.stderr.endswith(b"G3 Full\n")
        want("a state that was put back, and no place for what was kept", right, ran)
        want("no place for what was kept: the files", replica.files() == files, [*replica.files()])


def starts(program, above):
    replica = taught(program, above)
    files = replica.files()
    with replica:
        there_and_back(replica)
    other_beginnings(program, above, files)
    full_store(program, above)
    small_store(program, above)
    full_of_both(program, above)
    touched_previous(program, above)
    return "a state was carried over, back and over again"


# ---- kills, and calls


def kills(program, above, rounds):
    chance, count, unready, before = random.Random(2026), 0, 0, len(faults)
    took = {}

    def timed(case):
        replica.lay(case.files)
        begun = time.monotonic()
        ready = replica.start(case.config, case.previous)
        took[case.name] = time.monotonic() - begun
        want(f"{case.name}, not killed: ready", ready == case.ready(), ready, case.ready(), replica.said())
        check(f"{case.name}, not killed", replica, case)
        replica.kill()

    with Replica(program, above / "kills") as replica:
        # So much that a start takes some 100 ms, if it is neither too little nor too much for other reasons.
        timed(cases_of(20)[0])
        size = max(20, min(250, int(20 * 0.1 / took["forward"])))
        cases = cases_of(size)
        for case in cases:
            timed(case)
        if len(faults) > before:
            raise Failed
        for number in range(rounds):
            case = cases[number % len(cases)]
            what = f"round {number}, {case.name}"
            replica.lay(case.files)
            for _ in range(chance.randint(1, 3)):
                replica.begin(case.config, case.previous)
                time.sleep(chance.uniform(0, 1.2 * took[case.name]))
                replica.process.kill()
                unready += not replica.process.stdout.read()
                count += 1
                replica.ends()
            ends_what_was_begun(what, replica, case)
    slowest = 1000 * max(took.values())
    held = len(lines_of(cases[0].kept))
    return (f"{count} kills in {rounds} rounds, {unready} before it was ready; a start with {held} lines took "
            f"{slowest:.0f} ms at most")


class Refusing:
    """Starts of which one call is refused, or before which they are killed."""

    def __init__(self, program, above):
        self.replica = Replica(program, above / "calls")
        self.told = above / "told"
        self.environment = {
            "LD_PRELOAD": build_library(above, program), "REFUSE_TOLD": str(self.told), "REFUSE_ERROR": "5",
            "REFUSE_SECONDS": str(HANG - 20),
        }

    def run(self, case, kind, call, how):
        """What it prints, how it ends if it does by itself, how often each kind was called, and the name of the call."""
        self.told.write_bytes(bytes(TOLD.size))
        self.replica.lay(case.files)
        self.replica.environment = {**self.environment, "REFUSE_KIND": kind, "REFUSE_CALL": str(call), "REFUSE_HOW": how}
        ready = self.replica.start(case.config, case.previous)
        seen = TOLD.unpack(self.told.read_bytes())
        status = self.replica.kill()
        self.replica.environment = None
        return ready, status, dict(zip(KINDS, seen)), seen[13].rstrip(b"\0").decode()

    def judge(self, case, kind, call, how):
        ready, status, _, name = self.run(case, kind, call, how)
        what = f"{case.name}, {kind} {call} {how}, {name}"
        if how == "before":
            want(f"{what}: it is killed", ready == b"" and status == -signal.SIGKILL or ready == case.ready(), ready, status)
        elif not ready:
            want(f"{what}: it ends with an error", status in (3, 4), status, self.replica.said())
        else:
            want(f"{what}: it has all", ready == case.ready(), ready, case.ready())
        ends_what_was_begun(what, self.replica, case, how == "before")


def some_of(count, most):
    """Numbers from 1 to this one, all or this many."""
    return range(1, count + 1, max(1, -(-count // most)))


def calls(program, above):
    if b"AddressSanitizer" in Path(program).read_bytes():
        left_out("refused calls", "the program was built with a sanitizer")
        return "nothing"
    refusing, count = Refusing(program, above), 0
    for case in cases_of(4):
        ready, _, calls_of, _ = refusing.run(case, "none", 0, "once")
        want(f"{case.name}, no call refused", ready == case.ready(), ready, refusing.replica.said())
        check(f"{case.name}, no call refused", refusing.replica, case)
        most = 500 if case.name in ("forward", "back") else 30
        plan = [("system", call, how) for call in some_of(calls_of["system"], most) for how in ("before", "once")]
        plan += [("alloc", call, "once") for call in some_of(calls_of["alloc"], 20)]
        plan += [(kind, call, "lasting") for kind in ("write", "sync", "rename") for call in some_of(calls_of[kind], 6)]
        for kind, call, how in plan:
            refusing.judge(case, kind, call, how)
        count += len(plan)
    return f"{count} starts with a refusal or a kill"


# ---- more than one replica


def net_of(program, above, count, peers_of):
    """Replicas of the old configuration that hold nothing yet, each with the peers whose numbers are given."""
    addresses = [free_address() for _ in range(count)]
    made = []
    for number, own in enumerate(addresses):
        peers = ",".join(addresses[peer] for peer in peers_of(number))
        replica = Replica(program, above / f"replica-{number}", "--listen", own, "--peers", peers, "--every", "1")
        want("new", replica.run("new", "--config", "old", "--state", "state").returncode == 0)
        made.append(replica)
    return made, addresses


class Net:
    """Replicas that end with their holder."""

    def __init__(self, program, above, count, peers_of):
        self.replicas, self.addresses = net_of(program, above, count, peers_of)

    def start(self, replica, config, previous=None):
        ready = replica.start(config, previous)
        if not want("a start", ready.startswith(f"ready {config.digest} ".encode()), ready, replica.said()):
            raise Failed
        return ready

    def __enter__(self):
        return self

    def __exit__(self, *_):
        for replica in self.replicas:
            replica.__exit__()


def has(replica, domain, sequence):
    """Whether the current bundle of the domain has this sequence number, or a greater one."""
    return (sequence_of(replica.ask("bundle", "--domain", domain)) or 0) >= sequence


def acknowledged(replica, domain, sequence):
    """Observes a bundle, and returns its line."""
    reply = replica.observe(domain, sequence)
    if not want(f"observe {domain} {sequence}", reply is not None and reply[0] == 0, reply, replica.said()[-300:]):
        raise Failed
    return reply[1]


def between(program, above):
    with Net(program, above, 3, lambda number: [1] if number != 1 else [0, 2]) as net:
        left, middle, right = net.replicas
        for replica in net.replicas:
            net.start(replica, OLD)
        for domain in (FLOORED, REMOVED):
            acknowledged(middle, domain, 7)
        middle.kill()
        held, _ = middle.migrated(OLD)
        net.start(middle, NEW, OLD)
        # From the one of the old configuration to the other, by one that changes.
        only_old = {acknowledged(left, domain, sequence) for domain, sequence in ((REMOVED, 8), (MOVED, 8), (FLOORED, 8))}
        shared = acknowledged(left, PLAIN[0], 8)
        sequences = ((REMOVED, 8), (MOVED, 8), (FLOORED, 8), (PLAIN[0], 8))
        until("what fits the old one gets past one that changes", lambda: all(has(right, *pair) for pair in sequences),
              lambda: [it.said()[-500:] for it in net.replicas])
        until("what fits both is there", lambda: has(middle, PLAIN[0], 8), middle.said)
        reply = middle.ask("bundle", "--domain", REMOVED)
        want("it answers its own machine from the new one", reply is not None and reply[0] == 1, reply)
        seen = [sequence_of(middle.ask("bundle", "--domain", domain)) for domain in (MOVED, FLOORED)]
        want("what it shows is that of the new one", seen == [1, FLOOR], seen)
        files = middle.files()
        on_disk = lines_of(files["state"]) | lines_of(files["state.journal"])
        want("what fits both is on the disk", shared in on_disk, on_disk)
        want("what fits the old one is not in the state", not only_old & on_disk, only_old & on_disk)
        kept = files.get("state.previous")
        want("what was kept is as it was", kept == held, difference(kept, held))
        # The same from the one that changes, after a kill, by what the others hold.
        middle.kill()
        net.start(middle, NEW, OLD)
        acknowledged(right, REMOVED, 9)
        until("after a kill too", lambda: has(left, REMOVED, 9), lambda: [it.said()[-500:] for it in net.replicas])
        acknowledged(middle, PLAIN[1], 9)
        until("what it takes itself reaches both", lambda: has(left, PLAIN[1], 9) and has(right, PLAIN[1], 9))

        # The other two change and forget the old configuration, and this one goes back.
        middle.kill()
        net.start(middle, OLD, NEW)
        want("it has what fits the old one again", has(middle, REMOVED, 7), middle.ask("report"))
        for replica in (left, right):
            replica.kill()
            net.start(replica, NEW, OLD)
            replica.kill()
            net.start(replica, NEW)
        acknowledged(left, ADDED, 10)
        acknowledged(left, MOVED, 10)
        acknowledged(left, PLAIN[2], 10)
        sequences = ((ADDED, 10), (MOVED, 10), (PLAIN[2], 10))
        until("what fits the new one gets past one that goes back", lambda: all(has(right, *pair) for pair in sequences),
              lambda: [it.said()[-500:] for it in net.replicas])
        until("what fits both is there, too", lambda: has(middle, PLAIN[2], 10), middle.said)
        reply = middle.ask("bundle", "--domain", ADDED)
        want("it answers from the old one", reply is not None and reply[0] == 1, reply)
    return "both configurations, past one replica"


class Fleet(Net):
    """Five replicas with clients, and who looks at them. In each step the clients have so many bundles to observe, however
    fast the machine is, so that what the replicas have to exchange is bounded."""

    CLIENTS = 4
    IN_A_STEP = 32

    def __init__(self, program, above):
        super().__init__(program, above, 5, lambda number: [other for other in range(5) if other != number])
        self.sequences = itertools.count(FLOOR + 1)
        self.acknowledged, self.only_new, self.only_old, self.refused = [], [], [], []
        self.turns, self.given, self.replies = threading.Semaphore(0), 0, []
        self.older, self.missing, self.looks = [], [], [0] * 5
        self.ended = threading.Event()
        self.threads = [threading.Thread(target=self.observe_on, args=[number]) for number in range(self.CLIENTS)]
        self.threads += [threading.Thread(target=self.look_on, args=it) for it in enumerate(self.replicas)]

    def observe_on(self, number):
        chance = random.Random(number)
        while not self.ended.wait(0.05):
            if not self.turns.acquire(timeout=0.2):
                continue
            replica = chance.choice([it for it in self.replicas if not it.is_away] or self.replicas)
            domain, sequence = chance.choice([*PLAIN, FLOORED]), next(self.sequences)
            words = ["observe", "--domain", domain, "--endpoint", OLD.endpoint(domain), "--key", KEY]
            reply = ask(replica.socket, words, bundle(sequence, chance.randbytes(12)).encode(), HANG)
            if reply is None:
                # The replica was just killed or stopped: another one gets the next bundle.
                self.turns.release()
                continue
            (self.refused if reply[0] else self.acknowledged).append(reply[2] if reply[0] else reply[1])
            self.replies.append(sequence)

    def give_turns(self):
        self.given += self.IN_A_STEP
        self.turns.release(self.IN_A_STEP)

    def look_on(self, number, replica):
        """Each bundle is at least as new as the one that was seen before. For a domain whose endpoint or floor changes the
        bundle may be another one, but there has to be one."""
        seen, pause = {}, 0.2
        while not self.ended.wait(pause):
            begun = time.monotonic()
            for domain in BOTH:
                reply = None if replica.is_away else ask(replica.socket, ["bundle", "--domain", domain], b"", HANG)
                if reply is None:
                    continue
                self.looks[number] += 1
                sequence = sequence_of(reply)
                if sequence is None:
                    self.missing.append((number, domain, reply))
                elif domain not in (MOVED, FLOORED) and sequence < seen.get(domain, 0):
                    self.older.append((number, domain, sequence, seen[domain]))
                seen[domain] = sequence or 0
            # The looks are not to be most of the work of a slow machine.
            pause = max(0.2, time.monotonic() - begun)

    def go_over(self, number, config, previous, by_kill):
        replica = self.replicas[number]
        self.give_turns()
        replica.is_away = True
        if by_kill:
            replica.kill()
        else:
            want("it is stopped", replica.stop() == 0)
        self.start(replica, config, previous)
        replica.is_away = False

    def reaches_all(self, what):
        """What comes at a replica of each configuration reaches all for which it is."""
        present = [replica for replica in self.replicas if not replica.is_away]
        wanted = []
        for config, probe, own, lines in ((OLD, PROBES[0], [REMOVED], self.only_old),
                                          (NEW, PROBES[1], [ADDED, MOVED], self.only_new)):
            of_config = [replica for replica in present if replica.config is config]
            if not of_config:
                continue
            sequence = next(self.sequences)
            self.acknowledged.append(acknowledged(of_config[0], probe, sequence))
            wanted += [(replica, probe, sequence) for replica in present]
            for domain in own:
                lines.append(acknowledged(of_config[-1], domain, sequence))
                wanted += [(replica, domain, sequence) for replica in of_config]

        def all_have():
            wanted[:] = [it for it in wanted if not has(*it)]
            return not wanted

        self.give_turns()
        until(f"{what}: what comes at one reaches all", all_have,
              lambda: [(self.replicas.index(replica), *more) for replica, *more in wanted])
        until(f"{what}: the clients have observed", lambda: len(self.replies) >= self.given,
              lambda: (len(self.replies), self.given))

    def __exit__(self, *_):
        self.ended.set()
        for replica in self.replicas:
            if replica.process:
                replica.process.send_signal(signal.SIGCONT)
        for thread in self.threads:
            if thread.ident:
                thread.join()
        super().__exit__()


def rolling(program, above):
    with Fleet(program, above) as fleet:
        for replica in fleet.replicas:
            fleet.start(replica, OLD)
        # The bundle that the new configuration has for the domain with a floor is held by all, as after a `reseed --floors`.
        fleet.only_old.append(acknowledged(fleet.replicas[0], REMOVED, 50))
        fleet.acknowledged.append(acknowledged(fleet.replicas[0], FLOORED, FLOOR))
        until("the first bundle reaches all", lambda: all(has(it, FLOORED, FLOOR) for it in fleet.replicas))
        for thread in fleet.threads:
            thread.start()
        fleet.reaches_all("all have the old one")
        fleet.go_over(0, NEW, OLD, True)
        fleet.reaches_all("one has changed")
        fleet.go_over(1, NEW, OLD, False)
        fleet.reaches_all("two have changed")
        away = fleet.replicas[4]
        away.is_away = True
        away.process.send_signal(signal.SIGSTOP)
        fleet.go_over(2, NEW, OLD, True)
        fleet.reaches_all("three have changed, and one is stopped")
        fleet.go_over(1, OLD, NEW, True)
        away.process.send_signal(signal.SIGCONT)
        away.is_away = False
        fleet.reaches_all("one has gone back")
        fleet.go_over(1, NEW, OLD, False)
        fleet.go_over(3, NEW, OLD, False)
        fleet.reaches_all("four have changed")
        fleet.go_over(4, NEW, OLD, True)
        fleet.reaches_all("all have changed")
        key = "ab" * 32
        reply = fleet.replicas[3].ask("distrust", "--domain", PLAIN[0], "--key", key, "--unknown-key")
        want("a key is distrusted", reply == (0, b"", b""), reply)
        for number in (0, 1):
            fleet.go_over(number, NEW, None, number == 0)
        fleet.reaches_all("two have forgotten the old one")
        for number in (2, 3, 4):
            fleet.go_over(number, NEW, None, number == 3)
        fleet.reaches_all("all have forgotten the old one")
        fleet.ended.set()
        for thread in fleet.threads:
            thread.join()
        want("no observe is refused", not fleet.refused, fleet.refused[:5])
        want("each domain has a current bundle all the time", not fleet.missing, fleet.missing[:5])
        want("no replica shows an older bundle than before", not fleet.older, len(fleet.older), fleet.older[:5])
        want("each replica was looked at", all(fleet.looks), fleet.looks)
        at_the_end(fleet, key)
        return (f"{len(fleet.acknowledged) + len(fleet.only_new)} bundles acknowledged, {sum(fleet.looks)} looks at bundles, "
                f"12 starts with --previous or after it")


def at_the_end(fleet, key):
    """All have the same, and it is all that was acknowledged."""
    def snapshots():
        return [it.ask("migrate") for it in fleet.replicas]

    def are_equal():
        seen = snapshots()
        return seen[0] is not None and seen[0][0] == 0 and all(it == seen[0] for it in seen)

    until("all hold the same", are_equal, lambda: [it and len(it[1]) for it in snapshots()])
    reports = [it.ask("report") for it in fleet.replicas]
    want("equal reports", reports[0] is not None and reports[0][0] == 0 and all(it == reports[0] for it in reports), reports)
    want("a key is distrusted by all", key.encode() in reports[0][1])
    for number, reply in enumerate(snapshots()):
        held = lines_of(reply[1])
        for what, lines in (("acknowledged", fleet.acknowledged), ("acknowledged under the new one", fleet.only_new)):
            lost = [line for line in lines if line not in held]
            want(f"replica {number} holds what was {what}", not lost, len(lost), lost[:2])
        more = [line for line in fleet.only_old if line in held]
        want(f"replica {number} does not hold what fits only the old one", not more, more[:2])
    for replica in fleet.replicas:
        want("what was kept is removed", {*replica.files()} == {"state", "state.journal"}, [*replica.files()])
        want("it is stopped", replica.stop() == 0)
    # A start puts all into the state file.
    for replica in fleet.replicas:
        fleet.start(replica, NEW)
        replica.kill()
    states = {replica.files()["state"] for replica in fleet.replicas}
    want("equal state files", len(states) == 1, [len(state) for state in states])


# ---- status


def answer_strangely(listener):
    """Answers each question under a configuration that nobody has."""
    while True:
        try:
            stream, _ = listener.accept()
        except OSError:
            return
        with stream:
            stream.recv(65_536)
            stream.sendall(sums.head("0" * 64))


def ask_as_stranger(address, digest):
    """Asks for a bucket from an address that no peer has, and returns what is answered."""
    host, port = address.rsplit(":", 1)
    with socket.create_connection((host, int(port)), HANG, source_address=("127.0.0.2", 0)) as stream:
        stream.sendall(b'{"bucket":0,"config":"%s","format":2,"have":[],"of":256}\n' % digest.encode())
        stream.shutdown(socket.SHUT_WR)
        return stream.makefile("rb").read()


def lines_of_status(replica):
    reply = replica.ask("status")
    return [line for line in reply[1].decode().splitlines() if not line.startswith("warning: ")] if reply else []


def status(program, above):
    """The replica of which it is asked has a peer of each configuration, and one that is away."""
    nobody = free_address()
    listener, port = listener_of_own()
    strange = f"127.0.0.1:{port}"
    threading.Thread(target=answer_strangely, args=(listener,), daemon=True).start()
    with listener, Net(program, above, 4, lambda number: [[1, 2], [0], [0], [2]][number]) as net:
        asks, old, new, other = net.replicas
        asks.words = (*asks.words[:3], f"{asks.words[3]},{strange},{nobody}", *asks.words[4:])
        net.start(old, OLD)
        for replica in (new, other):
            net.start(replica, NEW, OLD)
            replica.kill()
        net.start(new, NEW)
        began = int(time.time())
        net.start(asks, NEW, OLD)
        net.start(other, NEW, OLD)
        wanted = [f"asked {net.addresses[1]} previous", f"asked {net.addresses[2]} next", f"asked {strange} none",
                  f"asked {nobody} none"]
        until("a session with a third configuration", lambda: f"peer={strange} " in asks.said() and " fault=S2" in asks.said(), asks.said)
        until("what the peers were asked", lambda: lines_of_status(asks)[-4:] == wanted, lambda: lines_of_status(asks)[-12:])
        lines = lines_of_status(asks)
        used = re.fullmatch(f"previous {OLD.digest} used ([0-9]+)", lines[-5])
        want("when the previous one was used", used and began <= int(used[1]) <= time.time(), lines[-5], began)
        peers = [line.split()[:2] for line in lines[-9:-5]]
        want("the peers come before", peers == [["peer", it] for it in (*net.addresses[1:3], strange, nobody)], lines[-10:])
        wanted = [f"previous {OLD.digest} used none", f"asked {net.addresses[2]} next"]
        until("a replica whose peers have changed", lambda: lines_of_status(other)[-2:] == wanted,
              lambda: lines_of_status(other)[-4:])
        answered = ask_as_stranger(net.addresses[3], OLD.digest)
        want("a stranger is answered under the previous one", OLD.digest.encode() in answered, answered[:200])
        time.sleep(0.5)
        lines = lines_of_status(other)
        want("that is no use of it", lines[-2:] == wanted, lines[-4:])
        lines = lines_of_status(new)
        want("without --previous", not any(line.startswith(("previous ", "asked ")) for line in lines), lines[-4:])
    return "a peer of each configuration, and one that is away"


# ---- figures


def figures(program, above):
    """The times of starts, and the most memory, with usual bundles in the state."""
    sys.path.insert(0, str(TOP / "bench"))
    import receipts

    before = f'{{"relationships":[{{"domain":"{receipts.DOMAIN}"'
    old = receipts.config_text()
    new = old.replace(before, f'{{"floors":{{"{receipts.DOMAIN}":1}},"relationships":[{{"domain":"{receipts.DOMAIN}"')
    with Replica(program, above / "figures") as replica:
        for config, text in ((OLD, old), (NEW, new)):
            (replica.folder / config.name).write_text(text)
        digest = hashlib.sha256(old.encode()).hexdigest()
        lines = sorted(receipts.lines("usual", USUAL))
        text = [f'{{"config":"{digest}","format":2}}\n', *lines, f'{{"count":{USUAL},"distrusts":0}}\n']
        state = "".join(text).encode()
        del lines, text
        replica.lay({"state": state})
        for what, config, previous in (
            ("under the old one", OLD, None), ("carried over", NEW, OLD), ("again, with --previous", NEW, OLD),
            ("without --previous", NEW, None),
        ):
            begun = time.monotonic()
            ready = replica.start(config, previous)
            took = time.monotonic() - begun
            want(f"{what}: ready", f" receipts {USUAL} ".encode() in ready, ready, replica.said())
            if not ready:
                raise Failed
            seen = Path(f"/proc/{replica.process.pid}/status").read_text()
            held, most = (int(re.search(rf"{name}:\s+(\d+) kB", seen)[1]) / 1024 for name in ("VmRSS", "VmHWM"))
            print(f"figures: {what}: {took:.2f} s to ready; {held:.0f} MiB held then, {most:.0f} MiB at most", flush=True)
            want(f"{what}: it is stopped", replica.stop() == 0)
    return f"{USUAL} usual bundles, a state of {len(state)} bytes"


def main():
    rounds = int(sys.argv[1]) if len(sys.argv) > 1 else 40
    parts = {
        "start": starts,
        "kills": lambda *words: kills(*words, rounds),
        "calls": calls,
        "between": between,
        "rolling": rolling,
        "status": status,
        "figures": figures,
    }
    program = find_program()
    # Whoever ends this script ends its replicas too.
    signal.signal(signal.SIGTERM, lambda *_: sys.exit(1))
    for name in sys.argv[2:] or [name for name in parts if name != "figures"]:
        before, begun = len(faults), time.monotonic()
        with temporary() as above:
            try:
                seen = parts[name](program, Path(above))
            except Failed:
                seen = None
            except subprocess.TimeoutExpired as late:
                seen = want(f"{name}: a command ends", False, late)
        took = time.monotonic() - begun
        if len(faults) == before:
            print(f"ok: {name}: {seen}; {took:.0f} s", flush=True)
        else:
            print(f"{name}: {len(faults) - before} wrong; {took:.0f} s", flush=True)
    for fault in faults:
        print(fault)
    print(f"change: {ran} looks, {len(faults)} wrong")
    return 1 if faults else 0


if __name__ == "__main__":
    sys.exit(main())

#!/usr/bin/env python3
"""The audit file of `replica --audit`, and the events that say what changed.

- changes: each change of a request has a line in the audit file and an event, with the parts that another program computes;
  a repeated or refused one has neither. A pull has a line with the counts. No line has a byte that a bundle or a peer spells.
- found: a file that is not an audit file, a link and a folder are refused, and stay. A torn last line, zeros, and lines
  whose changes are not held are cut off, and it is reported how many, also if a line names many keys. A change over the
  files shows in the next line of a start.
- refused: if the audit file cannot be written, or was replaced, the request is refused, the replica ends with status 3, and
  the journal has nothing of the change.
- calls: killed by SIGKILL before and behind each call of the system that it makes for an observation, a record and a merge,
  and started again, the lines of the audit file are those of what is held, one for each change and no other.
- kills: the same of kills at some time while several clients change something.

It needs python3, cc and nm. The program is the one that ./fedbundle runs, or the one that $FEDBUNDLE names.

usage: audit [ROUNDS [PART..]]   this many rounds of kills, 10 if left out; the status is 1 if something is wrong
"""
import hashlib
import json
import os
import random
import subprocess
import sys
import threading
import time
from pathlib import Path

sys.dont_write_bytecode = True
HERE = Path(__file__).resolve().parent
sys.path.insert(0, str(HERE.parent / "lib"))
from harness import HANG, KINDS, TOLD, build_library, find_program, temporary  # noqa: E402
import replica as replicas  # noqa: E402

DOMAIN, ENDPOINT, KEY, OBSERVE = replicas.DOMAIN, replicas.ENDPOINT, replicas.KEY, replicas.OBSERVE
OTHER_DER, Replica, bundle, free_address = replicas.OTHER_DER, replicas.Replica, replicas.bundle, replicas.free_address
want, within = replicas.want, replicas.within

OTHER_KEY = hashlib.sha256(OTHER_DER).hexdigest()
AUDIT = ["--audit", "audit"]


def digest(line):
    return hashlib.sha256(line).hexdigest()


def document_id(program, text):
    """The id of the document, as `canon` prints it."""
    out = subprocess.run([program, "canon", "--domain", DOMAIN], input=text, capture_output=True, check=True).stdout
    return next(line[3:] for line in out.decode().splitlines() if line.startswith("id "))


def held_lines(replica):
    """The lines of receipts and of records in the state file and the journal."""
    found = set()
    for name in ("state", "state.journal"):
        path = replica.folder / name
        if path.exists():
            lines = path.read_bytes().split(b"\n")[:-1]
            found |= {line for line in lines if line.startswith((b'{"doc":', b'{"distrust":'))}
    return found


def audit_lines(replica):
    text = (replica.folder / "audit").read_bytes()
    want("the audit file has whole lines", text.endswith(b"\n"), text[-100:])
    return [json.loads(line) for line in text.splitlines()]


def counts(line):
    """How many receipts and records a line adds."""
    if line["event"] == "observe":
        return 1, 0
    if line["event"] == "distrust":
        return 0, len(line["key"].split(","))
    return line["new"], line["records"]


def check(replica, what, adds=()):
    """Each line is of a change that is held, and together they are all that is held. `adds` are the starts, by their number,
    before which something else than the replica changed the state."""
    held = held_lines(replica)
    lasts = {digest(line) for line in held}
    total, starts = None, 0
    for line in audit_lines(replica):
        want(f"{what}: the time", abs(line["at"] - time.time()) < 3600, line)
        if line["event"] == "start":
            found = line["receipts"], line["distrusts"]
            want(f"{what}: start {starts}", total in (None, found) or starts in adds, total, found, line)
            total, starts = found, starts + 1
            continue
        want(f"{what}: the change is held", line["last"] in lasts, line)
        total = tuple(before + more for before, more in zip(total, counts(line)))
    records = sum(line.startswith(b'{"distrust":') for line in held)
    want(f"{what}: the lines are all that is held", total == (len(held) - records, records), total, len(held), records)
    return starts


def as_event(value):
    return {"True": "yes", "False": "no"}.get(str(value), str(value))


def each_has_its_line(replica, what):
    """After a kill, before the next start: each change that is held has its line in the audit file."""
    path = replica.folder / "audit"
    texts = path.read_bytes().split(b"\n")[:-1] if path.exists() else []
    made = [line for line in map(json.loads, texts) if line["event"] != "start"]
    held = {digest(line) for line in held_lines(replica)}
    lasts = {line["last"] for line in made}
    several = sum(sum(counts(line)) - 1 for line in made if line["last"] in held)
    want(f"{what}: each change that is held has its line", len(held - lasts) == several, len(held - lasts), several)


def events_of(replica, *names):
    return [line for line in replica.said().splitlines() if line.startswith(tuple(f"event={name} " for name in names))]


def changes(program, above):
    address = free_address()
    one = Replica(program, above / "one", *AUDIT, "--listen", address)
    two = Replica(program, above / "two", *AUDIT, "--peers", address, "--every", "1")
    with one:
        texts = [bundle(3, OTHER_DER), bundle(2)]
        # The voucher is the current bundle: so the third is another receipt than the first, and the last two are repeated.
        for text in (*texts, texts[0], *texts):
            want("it is observed", one.ask(*OBSERVE, text=text)[0] == 0)
        seed = document_id(program, json.dumps(replicas.CONFIG["seeds"][0]["bundle"]).encode())
        vouched = ["observe", "--domain", DOMAIN, "--endpoint", ENDPOINT, "--key", OTHER_KEY]
        want("another key vouches", one.ask(*vouched, text=bundle(4))[0] == 0, one.said())
        reply = one.ask("distrust", "--domain", DOMAIN, "--key", "cd" * 32)
        want("an unknown key is refused", reply == (1, b"", b"fedbundle: no known key\n"), reply)
        for fell in (f"fell {DOMAIN} 1\n".encode(), b""):
            reply = one.ask("distrust", "--domain", DOMAIN, "--key", OTHER_KEY)
            want("a key is distrusted", reply == (0, fell, b""), reply)
        other = Replica(program, above / "other")
        with other:
            for sequence in (2, 7, 8):
                other.observe(sequence)
            reply = other.ask("distrust", "--domain", DOMAIN, "--key", "ab" * 32, "--unknown-key")
            want("another key is distrusted", reply == (0, b"", b""), reply)
            other.stop()
        # A merge of itself folds the journal into the state file.
        other.run("merge", text=(other.folder / "state").read_bytes())
        merged = one.ask("merge", text=(other.folder / "state").read_bytes())
        want("it is merged", merged == (0, b"new 3\n", b""), merged)
        with two:
            want("it pulls", within(HANG, lambda: events_of(two, "pull") != []), two.said())
            within(HANG, lambda: (two.folder / "audit").read_text().count("\n") > 1)
            two.stop()
        one.stop()
    ids = [document_id(program, text) for text in texts]
    last = document_id(program, bundle(4))
    wanted = [
        f"event=observe domain={DOMAIN} document={ids[0]} sequence=3 key={KEY} voucher={seed} current=yes",
        f"event=observe domain={DOMAIN} document={ids[1]} sequence=2 key={KEY} voucher={ids[0]} current=no",
        f"event=observe domain={DOMAIN} document={ids[0]} sequence=3 key={KEY} voucher={ids[0]} current=yes",
        f"event=observe domain={DOMAIN} document={last} sequence=4 key={OTHER_KEY} voucher={ids[0]} current=yes",
        f"event=distrust domain={DOMAIN} key={OTHER_KEY} fell=1",
    ]
    said = events_of(one, "observe", "distrust", "merge")
    want("the events", said[:5] == wanted and len(said) == 6, said, wanted)
    lines = audit_lines(one)
    names = [line["event"] for line in lines]
    want("the lines", names == ["start", *["observe"] * 4, "distrust", "merge"], names)
    for line, event in zip(lines[1:], said):
        pairs = dict(pair.split("=", 1) for pair in event.split())
        same = {name: as_event(line[name]) for name in pairs}
        want("a line says what the event says", same == pairs and set(line) == {"at", "last", *pairs}, line, event)
    want("the merge", said[5:] == ["event=merge new=3 records=1"], said[5:])
    mode = (one.folder / "audit").stat().st_mode & 0o777
    want("the mode", mode == 0o600, oct(mode))
    check(one, "changes")
    pulled = [line for line in audit_lines(two) if line["event"] != "start"]
    want("the pull", all(line["event"] == "pull" and line["peer"] == address for line in pulled) and pulled, pulled)
    want("the session", events_of(two, "pull")[0].startswith(f"event=pull peer={address} new=7 records=2 seconds="),
         events_of(two, "pull"))
    check(two, "pulled")
    return f"{len(lines)} lines"


def found(program, above):
    folder = above / "found"
    replica = Replica(program, folder, *AUDIT)
    audit = folder / "audit"
    with replica:
        replica.observe(2)
        replica.stop()
    good = audit.read_bytes()
    (folder / "elsewhere").write_bytes(good)
    for text in (b"hello\n", good + b"hello\n", good + b"x", good[:-1] + b",\n", good + b"\n", b"\n"):
        audit.write_bytes(text)
        replica.start()
        want("another file is refused", replica.end() == 3 and audit.read_bytes() == text, text[-40:], replica.said())
    audit.unlink()
    audit.symlink_to("elsewhere")
    replica.start()
    want("a link is refused", replica.end() == 3 and audit.is_symlink() and (folder / "elsewhere").read_bytes() == good)
    audit.unlink()
    audit.mkdir()
    replica.start()
    want("a folder is refused", replica.end() == 3 and audit.is_dir())
    audit.rmdir()
    observed = [line for line in good.splitlines(True) if b'"observe"' in line][0]
    last, none = observed.split(b'"last":"')[1][:64], b"ab" * 32
    unheld = observed.replace(last, none)
    # The line of a distrust of as many keys as records may be held.
    keys = b",".join(b"%064x" % number for number in range(65_536))
    many = b'{"at":1764265090,"event":"distrust","domain":"%s","key":"%s","fell":0,"last":"%s"}\n' % (DOMAIN.encode(), keys, last)
    for tail, cut in ((b'{"at":17', 1), (b"{", 1), (bytes(300), 1), (unheld, 1), (unheld * 3 + b'{"at":1', 4),
                      (many.replace(last, none), 1), (many[:1_000_000], 1), (many + unheld, 1)):
        audit.write_bytes(good + tail)
        before = replica.said()
        with replica:
            replica.stop()
        said = replica.said()[len(before):]
        want("what a kill leaves is cut off", audit.read_bytes().startswith(good) and f"event=audit cut={cut}\n" in said,
             tail[-40:], said)
        want("a start follows", [line["event"] for line in audit_lines(replica)][-1] == "start", audit.read_bytes()[-200:])
        want("what is held stays", not tail.startswith(many) or audit.read_bytes().startswith(good + many), audit.stat().st_size)
    want("a change over the files", replica.run(*OBSERVE, text=bundle(9)).returncode == 0)
    audit.write_bytes(good)
    with replica:
        replica.observe(10)
        replica.stop()
    check(replica, "found", {1})
    return "17 files"


def refused(program, above):
    replica = Replica(program, above / "full", *AUDIT)
    audit = replica.folder / "audit"
    audit.write_bytes(b"".join(b'{"at":%d,"event":"start","receipts":0,"distrusts":0}\n' % time.time() for _ in range(4_000)))
    size = audit.stat().st_size
    replica.start(limit=size + 100)
    journal = (replica.folder / "state.journal").read_bytes()
    reply = replica.observe(2)
    status = replica.end()
    want("a full disk", reply == (3, b"", b"fedbundle: S9 Io\n") and status == 3, reply, status)
    want("it is reported", "event=audit fault=S9\n" in replica.said(), replica.said())
    want("the journal has nothing of it", (replica.folder / "state.journal").read_bytes() == journal)
    with replica:
        replica.stop()
    check(replica, "full")
    moved = Replica(program, above / "moved", *AUDIT)
    with moved:
        moved.observe(2)
        (moved.folder / "audit").rename(moved.folder / "old")
        reply = moved.observe(3)
        want("a file that was moved", reply == (3, b"", b"fedbundle: S9 Io\n") and moved.end() == 3, reply)
    with moved:
        moved.stop()
    want("it begins a new one", [line["event"] for line in audit_lines(moved)] == ["start"])
    (moved.folder / "audit").write_bytes((moved.folder / "old").read_bytes())
    with moved:
        moved.stop()
    check(moved, "moved")
    return "2 ways"


def changed_three_times(replica, snapshot):
    """The requests that were acknowledged."""
    requests = [
        (OBSERVE, bundle(2, OTHER_DER)), (["distrust", "--domain", DOMAIN, "--key", OTHER_KEY], b""), (["merge"], snapshot),
    ]
    done = 0
    for words, text in requests:
        try:
            reply = replica.ask(*words, text=text)
        except OSError:
            reply = None
        done += reply is not None and reply[0] == 0
    return done


def calls(program, above):
    library = build_library(above, program)
    other = Replica(program, above / "other")
    with other:
        for sequence in (5, 6, 7):
            other.observe(sequence)
        other.stop()
    other.run("merge", text=(other.folder / "state").read_bytes())
    snapshot = (other.folder / "state").read_bytes()
    told = above / "told"
    runs = killed = cuts = 0

    def run(call, how):
        told.write_bytes(bytes(TOLD.size))
        replica = Replica(program, above / f"calls-{runs}", *AUDIT, environment={
            "LD_PRELOAD": library, "REFUSE_TOLD": str(told), "REFUSE_KIND": "system" if call else "none",
            "REFUSE_CALL": str(call), "REFUSE_HOW": how, "REFUSE_ERROR": "0", "REFUSE_SECONDS": str(HANG),
        })
        replica.start()
        first = dict(zip(KINDS, TOLD.unpack(told.read_bytes())))["system"]
        done = changed_three_times(replica, snapshot)
        last = dict(zip(KINDS, TOLD.unpack(told.read_bytes())))["system"]
        was_killed = replica.process.poll() is not None
        replica.kill()
        each_has_its_line(replica, f"call {call} {how}")
        replica.environment = None
        replica.start()
        want(f"call {call} {how}: it starts again", replica.ready, replica.said())
        replica.stop()
        lines = audit_lines(replica)
        check(replica, f"call {call} {how}")
        made = [line for line in lines if line["event"] != "start"]
        want(f"call {call} {how}: each acknowledged change has its line", len(made) >= done, made, done)
        cut = "event=audit cut=" in replica.said()
        for file in replica.folder.iterdir():
            file.unlink()
        return first, last, done, was_killed, cut

    first, last, done, was_killed, _ = run(0, "once")
    want("no kill", done == 3 and not was_killed, done, was_killed)
    for call in range(max(1, first - 6), last + 1):
        for how in ("before", "after"):
            runs += 1
            *_, was_killed, was_cut = run(call, how)
            killed, cuts = killed + was_killed, cuts + was_cut
    # How many calls come depends on what is ready at one time, so on a busy machine most of the last ones do not come.
    want("it is killed, and lines are cut off", killed >= 10 and cuts > 0, runs, killed, cuts)
    return f"{runs} runs, {killed} kills, after {cuts} of them lines were cut off"


def kills(program, above, rounds):
    chance, acknowledged, starts = random.Random(460), 0, 0
    replica = Replica(program, above / "kills", *AUDIT)
    sequence, refused_ones = iter(range(2, 1_000_000)), []
    for _ in range(rounds):
        replica.start()
        done, ends = [], threading.Event()

        def change(number):
            while not ends.is_set():
                try:
                    reply = replica.observe(next(sequence), os.urandom(8))
                    if number == 0:
                        made = replica.ask("distrust", "--domain", DOMAIN, "--key", os.urandom(32).hex(), "--unknown-key")
                        refused_ones.extend([made] if made not in (None, (0, b"", b"")) else [])
                except (OSError, ValueError):
                    return
                if reply is None or reply[0] != 0:
                    return
                done.append(reply[1])

        clients = [threading.Thread(target=change, args=(number,)) for number in range(6)]
        for client in clients:
            client.start()
        time.sleep(chance.uniform(0.02, 0.4))
        replica.process.kill()
        ends.set()
        for client in clients:
            client.join()
        replica.end()
        acknowledged += len(done)
        each_has_its_line(replica, "kills")
        replica.start()
        replica.stop()
        starts = check(replica, "kills")
    want("something was acknowledged", acknowledged > 0, acknowledged)
    want("no record is refused", not refused_ones, refused_ones[:1])
    return f"{rounds} kills, {acknowledged} bundles acknowledged, {starts} starts"


def main():
    rounds = int(sys.argv[1]) if len(sys.argv) > 1 else 10
    parts = {
        "changes": changes, "found": found, "refused": refused, "calls": calls,
        "kills": lambda *words: kills(*words, rounds),
    }
    program = find_program()
    for name in sys.argv[2:] or parts:
        with temporary() as above:
            seen = parts[name](program, Path(above))
        print(f"{name}: {seen}", flush=True)
    for fault in replicas.faults:
        print(fault)
    print(f"audit: {replicas.ran} looks, {len(replicas.faults)} wrong")
    return 1 if replicas.faults else 0


if __name__ == "__main__":
    sys.exit(main())

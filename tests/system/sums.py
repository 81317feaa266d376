#!/usr/bin/env python3
"""Lets two running replicas, the commands `pull` and `serve`, and hostile peers have sessions that begin with sums, and looks at
what is asked, what comes, and how many bytes move.

Of running replicas:

- `idle`: two replicas hold the same: a session is the question of sums and its answer, fewer than 40,000 bytes in all.
- `one`: one receipt is asked for with one have, about its bucket.
- `records`: 4,096 records travel once, with one have; a session after that moves no more than an idle one.
- `once`: 4,096 records travel once in a session in which most buckets differ, and not at all if both have them.
- `earlier`: a peer of a release that does not know sums, at either side: the session works on a second connection, and the next
  one does not ask for sums. A stand-in answers haves as such a release does; $FEDBUNDLE_EARLIER names the program of one, which
  is tried too where it is set.
- `gone`: a peer that ends each connection is asked for sums again.
- `answers`: hostile answers: lines that are too long, cut, of another configuration, marks of another length or of other bytes,
  and marks after which nothing comes.
- `questions`: hostile questions: too long, cut, of another configuration, lines that are not sums, a thousand questions on one
  connection, and many connections.

Of `pull` and `serve`:

- `plain`: `pull` without `--sums` asks about all 256 buckets on one connection: a peer that knows only haves and serves one
  session, and one of another configuration, which is connected to once.
- `commands`: `pull --sums` from `serve`: all, nothing, records, one receipt, and what differs in both directions.
- `earlier_commands`, `pulls`, `serves`: the same as `earlier`, `answers` and `questions`; and a peer that takes one connection
  after another, where `pull` closes its first one before the second.

It needs python3. The program is the one that ./fedbundle runs, or the one that $FEDBUNDLE names.

usage: sums [PART..]   all parts if left out; the status is 1 where something is wrong. $FEDBUNDLE_RECEIPTS says how many
    receipts the replicas of `idle`, `one` and `commands` hold, 4,000 if it is not set.
"""
import hashlib
import json
import os
import socket
import subprocess
import sys
import threading
import time
from pathlib import Path

sys.dont_write_bytecode = True
HERE = Path(__file__).resolve().parent
sys.path.insert(0, str(HERE.parent / "lib"))
from harness import HANG, find_program, listener_of_own, temporary# noqa: E402
from sums import Relay, accept_haves, answer, head, id_of, marks_between, question, sums_of  # noqa: E402
import replica as running  # noqa: E402

DOMAIN, Replica = running.DOMAIN, running.Replica
faults, free_address, want, within = running.faults, running.free_address, running.want, running.within

COUNT = int(os.environ.get("FEDBUNDLE_RECEIPTS", 4_000))
RECORDS = 4_096
IDLE = 40_000
# A replica accepts 64 of others a second.
CONNECTIONS = 200


def lines_of(replica, count, first=2):
    """The lines of receipts by the configured key, of these sequence numbers. The replica does not run."""
    seen = replica.run(*running.OBSERVE, text=running.bundle(2))
    want("an observe", seen.returncode == 0 and seen.stdout.count(b"\n") == 1, seen)
    (replica.folder / "state").unlink()
    line = seen.stdout.decode()
    return [line.replace('"spiffe_sequence":2}', '"spiffe_sequence":%d}' % number) for number in range(first, first + count)]


def records_of(count):
    keys = sorted(hashlib.sha256(b"a record of %d" % number).hexdigest() for number in range(count))
    return [f'{{"distrust":"{key}","domain":"{DOMAIN}"}}\n' for key in keys]


def snapshot(digest, receipts, records=()):
    last = '{"count":%d,"distrusts":%d}\n' % (len(receipts), len(records))
    return head(digest) + "".join([*sorted(records), *sorted(receipts), last]).encode()


def buckets_of(lines):
    """The buckets of these receipts, in order."""
    return sorted({id_of(line.encode())[0] for line in lines})


def digest_of(replica):
    return replica.ready.split()[1].decode()


class Pair:
    """A replica that answers, and one that asks it each second through a relay."""

    def __init__(self, program, above, receipts=(), records=(), asker=None, answerer=None):
        self.answers = Replica(answerer or program, above / "answers", "--listen", free_address())
        listener, _ = listener_of_own()
        self.relay = Relay(listener, self.answers.words[1])
        self.asks = Replica(asker or program, above / "asks", "--peers", self.relay.address, "--every", "1")
        self.receipts, self.records = list(receipts), list(records)

    def __enter__(self):
        self.answers.start()
        self.digest = digest_of(self.answers)
        for replica in self.answers, self.asks:
            if replica is self.asks:
                self.asks.start()
            if self.receipts or self.records:
                give(replica, snapshot(self.digest, self.receipts, self.records))
        return self

    def __exit__(self, *_):
        self.relay.close()
        self.asks.__exit__()
        self.answers.__exit__()

    def reports(self):
        return [line for line in self.asks.said().splitlines() if line.startswith("event=pull")]

    def next_sessions(self, count=1):
        """The connections of the next sessions, and the lines that report them."""
        relayed, told = len(self.relay.sessions), len(self.reports())
        ended = within(HANG, lambda: len(self.reports()) >= told + count + 1)
        want("sessions end", ended, self.reports()[-3:])
        # A session that had begun before is left out.
        return self.relay.sessions[relayed:], self.reports()[told + 1 : told + count + 1]

    def until(self, holds):
        want("what is waited for comes", within(HANG, holds), self.reports()[-3:])


def give(replica, text):
    seen = replica.run_at("merge", text=text)
    want("a merge", seen.returncode == 0, seen)


def is_idle(session):
    return session.begins_with_sums() and session.haves() == [] and session.moved() < IDLE


def idle(program, above):
    maker = Replica(program, above / "makes")
    with Pair(program, above, lines_of(maker, COUNT)) as pair:
        sessions, reports = pair.next_sessions(3)
        ended = [session for session in sessions if session.ended.is_set()]
        want("idle sessions", len(ended) >= 2 and all(map(is_idle, ended)), [(it.moved(), it.haves()) for it in ended])
        well = all(" new=0 records=0 " in line and "fault" not in line for line in reports)
        want("idle sessions, as reported", well, reports)
        asked = question(pair.digest, [line.encode() for line in pair.receipts])
        want("the question", ended and bytes(ended[0].asked) == asked, ended and bytes(ended[0].asked[:200]))
        return f"an idle session of {COUNT} receipts moves {ended[0].moved()} bytes"


def one(program, above):
    maker = Replica(program, above / "makes")
    lines = lines_of(maker, COUNT + 1)
    with Pair(program, above, lines[1:]) as pair:
        pair.next_sessions()
        before = len(pair.relay.sessions)
        give(pair.answers, snapshot(pair.digest, lines[:1]))
        pair.until(lambda: any(" new=1 records=0 " in line for line in pair.reports()))
        sessions = [session for session in pair.relay.sessions[before - 1 :] if session.haves()]
        bucket = id_of(lines[0].encode())[0]
        want("one receipt", [session.haves() for session in sessions] == [[bucket]], [it.haves() for it in sessions], bucket)
        want("one receipt, the next session", all(map(is_idle, pair.next_sessions()[0][:1])))
        want("one receipt, once", sum(" new=1 " in line for line in pair.reports()) == 1, pair.reports())
        return f"one receipt of {COUNT} moves {sessions[0].moved()} bytes"


def records(program, above):
    maker = Replica(program, above / "makes")
    held = records_of(RECORDS)
    with Pair(program, above, lines_of(maker, 3)) as pair:
        pair.next_sessions()
        before = len(pair.relay.sessions)
        give(pair.answers, snapshot(pair.digest, [], held))
        pair.until(lambda: any(f" new=0 records={RECORDS} " in line for line in pair.reports()))
        sessions = [session for session in pair.relay.sessions[before - 1 :] if session.haves()]
        want("records, the haves", [session.haves() for session in sessions] == [[0]], [it.haves() for it in sessions])
        size = sum(map(len, held))
        moved = sessions[0].moved()
        want("records, the bytes", size < moved < size + IDLE, moved, size)
        after, reports = pair.next_sessions(2)
        ended = [session for session in after if session.ended.is_set()]
        want("equal records", ended and all(map(is_idle, ended)), [(it.moved(), it.haves()) for it in ended])
        want("equal records, as reported", all(" new=0 records=0 " in line for line in reports), reports)
        return f"{RECORDS} records move {moved} bytes once, and {ended[0].moved()} where both have them"


def once(program, above):
    maker = Replica(program, above / "makes")
    lines, held = lines_of(maker, 1_200), records_of(RECORDS)
    size = sum(map(len, held))
    with Pair(program, above) as pair:
        pair.next_sessions()
        before = len(pair.relay.sessions)
        give(pair.answers, snapshot(pair.digest, lines[:600], held))
        pair.until(lambda: any(f" new=600 records={RECORDS} " in line for line in pair.reports()))
        sessions = [session for session in pair.relay.sessions[before - 1 :] if session.haves()]
        buckets = buckets_of(lines[:600])
        want("once, the haves", [session.haves() for session in sessions] == [buckets], [it.haves() for it in sessions])
        first = sessions[0].moved()
        most = size + sum(map(len, lines[:600])) + IDLE + 300 * len(buckets)
        want("once, the bytes", size < first < most, first, most)
        # Now both have the records, and receipts alone differ.
        before = len(pair.relay.sessions)
        give(pair.answers, snapshot(pair.digest, lines[600:]))
        pair.until(lambda: any(" new=600 records=0 " in line for line in pair.reports()))
        earlier = sessions[0]
        sessions = [it for it in pair.relay.sessions[before - 1 :] if it.haves() and it is not earlier]
        haves = [session.haves() for session in sessions]
        want("equal records, the haves", haves == [buckets_of(lines[600:])], [len(it) for it in haves], len(buckets_of(lines[600:])))
        later = sessions[0].moved()
        asked = 67 * 1_200 + 300 * len(buckets_of(lines[600:]))
        want("equal records, the bytes", later < sum(map(len, lines[600:])) + IDLE + asked, later, [it.moved() for it in sessions], sum(map(len, lines[600:])))
        over = pair.asks.run_at("report").stdout, pair.answers.run_at("report").stdout
        want("once, the reports", over[0] == over[1] and over[0].count(b"distrust") >= RECORDS, over[0][:200])
        return f"{RECORDS} records and {len(buckets)} buckets move {first} bytes, and {later} where both have the records"


class Server:
    """`serve` over a state file, behind a relay."""

    def __init__(self, replica, state, sessions, program=None):
        address = free_address()
        words = [program or replica.program, "serve", "--config", "config", "--state", state, "--listen", address]
        how = {"stdout": subprocess.PIPE, "stderr": subprocess.PIPE, "cwd": replica.folder}
        self.process = subprocess.Popen([*words, "--sessions", str(sessions)], **how)
        port = ":%04X 00000000:0000 0A" % int(address.rsplit(":", 1)[1])
        while self.process.poll() is None and port not in Path("/proc/net/tcp").read_text():
            time.sleep(0.01)
        self.address = address
        self.relay = Relay(listener_of_own()[0], address)

    def end(self):
        out, err = self.process.communicate(timeout=HANG)
        self.relay.close()
        return self.process.returncode, out, err


def pull(replica, state, address, program=None, more=("--sums",)):
    # An earlier program has no such option.
    words = [program or replica.program, "pull", "--config", "config", "--state", state, "--peer", address, *([] if program else more)]
    seen = subprocess.run(words, capture_output=True, cwd=replica.folder, timeout=HANG)
    return seen.returncode, seen.stdout, seen.stderr


def moved_by(server):
    for session in server.relay.sessions:
        session.ended.wait(5)
    return [(session.begins_with_sums(), session.haves()) for session in server.relay.sessions]


def plain(program, above):
    digest, maker, lines = digest_and_lines(program, above, 50)
    for name, of, wanted in [("its own", digest, (0, b"new 50\n", b"")),
                             ("another", "0" * 64, (1, b"", b"fedbundle: S2 ConfigDiffers taken 0\n"))]:
        peer = OneSessionPeer(of, lines)
        seen = pull(maker, f"of {name}", peer.address, more=())
        want(f"a plain pull from a peer of {name} configuration", seen == wanted, seen)
        asked = [have["bucket"] for have in peer.asked]
        want(f"what a peer of {name} configuration was asked", asked == list(range(256))[: 256 if of == digest else 1], asked)
        want(f"connections to a peer of {name} configuration", peer.refuses_more(), "a second one was taken")
    return "a peer that serves one session"


def commands(program, above):
    replica = Replica(program, above / "commands")
    with replica:
        digest = digest_of(replica)
    lines = lines_of(replica, COUNT)
    (replica.folder / "full").write_bytes(snapshot(digest, lines, records_of(3)))
    buckets = buckets_of(lines)
    server = Server(replica, "full", 5)
    seen = [pull(replica, "copy", server.relay.address) for _ in range(2)]
    want("pulls", seen == [(0, b"new %d\n" % COUNT, b""), (0, b"new 0\n", b"")], seen)
    want("pulls, the states", (replica.folder / "copy").read_bytes() == (replica.folder / "full").read_bytes())
    moved = moved_by(server)
    want("pulls, what was asked", moved == [(True, buckets), (True, [])], moved)
    size = server.relay.sessions[1].moved() if len(server.relay.sessions) > 1 else 0
    want("an idle pull, the bytes", 0 < size < IDLE, size)
    # Only records are missing.
    (replica.folder / "copy").write_bytes(snapshot(digest, lines))
    want("a pull of records", pull(replica, "copy", server.relay.address) == (0, b"new 0\n", b""))
    want("a pull of records, the state", (replica.folder / "copy").read_bytes() == (replica.folder / "full").read_bytes())
    want("a pull of records, what was asked", moved_by(server)[2:] == [(True, [0])], moved_by(server)[2:])
    # One receipt is missing: its bucket is asked about.
    (replica.folder / "near").write_bytes(snapshot(digest, lines[1:], records_of(3)))
    want("a pull of one receipt", pull(replica, "near", server.relay.address) == (0, b"new 1\n", b""))
    want("a pull of one receipt, the state", (replica.folder / "near").read_bytes() == (replica.folder / "full").read_bytes())
    want("a pull of one receipt, what was asked", moved_by(server)[3:] == [(True, buckets_of(lines[:1]))], moved_by(server)[3:])
    # What only the asker has makes its bucket differ.
    others = lines_of(replica, 1, COUNT + 9)
    (replica.folder / "other").write_bytes(snapshot(digest, others))
    seen = pull(replica, "other", server.relay.address)
    want("a pull by one that has another receipt", seen == (0, b"new %d\n" % COUNT, b""), seen)
    want("the same, what was asked", moved_by(server)[4:] == [(True, buckets_of(lines + others))], moved_by(server)[4:])
    ended = server.end()
    want("the server", ended == (0, b"served 5\n", b""), ended)
    return f"an idle pull moves {size} bytes"


class EarlierPeer:
    """Answers haves as a replica of an earlier release does, of these lines, and ends a connection on which anything else is
    asked."""

    def __init__(self, digest, receipts):
        self.digest, self.receipts = digest, [line.encode() for line in receipts]
        self.listener, port = listener_of_own()
        self.address = f"127.0.0.1:{port}"
        threading.Thread(target=self.answer, daemon=True).start()

    def answer(self):
        while True:
            try:
                stream = accept_haves(self.listener)
            except OSError:
                return
            with stream, stream.makefile("rb") as lines:
                stream.setsockopt(socket.IPPROTO_TCP, socket.TCP_NODELAY, 1)
                try:
                    for line in lines:
                        stream.sendall(self.give(json.loads(line)))
                except OSError:
                    pass

    def give(self, have):
        bucket, held = have["bucket"], set(have["have"])
        lines = [line for line in self.receipts if id_of(line)[0] == bucket and id_of(line).hex() not in held]
        first = f'{{"bucket":{bucket},"config":"{self.digest}","count":{len(lines)},"distrusts":0,"format":2,"of":256}}\n'
        return first.encode() + b"".join(sorted(lines))


class OneSessionPeer(EarlierPeer):
    """Answers haves on one connection, and takes no second one."""

    def __init__(self, digest, receipts):
        self.asked = []
        super().__init__(digest, receipts)

    def answer(self):
        stream, _ = self.listener.accept()
        with stream, stream.makefile("rb") as lines:
            stream.setsockopt(socket.IPPROTO_TCP, socket.TCP_NODELAY, 1)
            try:
                for line in lines:
                    self.asked.append(json.loads(line))
                    stream.sendall(self.give(self.asked[-1]))
            except (OSError, KeyError):
                pass

    def refuses_more(self):
        """Whether nobody else waits to be accepted."""
        self.listener.settimeout(0.2)
        try:
            self.listener.accept()
        except TimeoutError:
            return True
        return False


class OneByOnePeer(EarlierPeer):
    """The same, one connection after another: it takes the next one once the asker has closed the last, or after ten seconds."""

    def answer(self):
        while True:
            try:
                stream, _ = self.listener.accept()
            except OSError:
                return
            with stream, stream.makefile("rb") as lines:
                stream.settimeout(HANG)
                try:
                    for line in lines:
                        if line.startswith(b'{"bucket":'):
                            stream.sendall(self.give(json.loads(line)))
                            continue
                        stream.shutdown(socket.SHUT_WR)
                        lines.read()
                except OSError:
                    pass


def asks_earlier(program, above, name, count, address_of):
    """A replica that stays asks one of an earlier release: it asks for sums once."""
    listener, _ = listener_of_own()
    relay = Relay(listener, address_of)
    with Replica(program, above / f"asks {name}", "--peers", relay.address, "--every", "1") as replica:
        def reports():
            return [line for line in replica.said().splitlines() if line.startswith("event=pull")]

        want(f"{name}: sessions", within(HANG, lambda: len(reports()) >= 3), reports())
        relay.close()
        lines = reports()
        want(f"{name}: the first", f" new={count} records=0 " in lines[0] and "fault" not in lines[0], lines)
        want(f"{name}: the next ones", all(" new=0 " in line and "fault" not in line for line in lines[1:3]), lines)
        begun = [session.begins_with_sums() for session in relay.sessions]
        want(f"{name}: sums are asked for once", begun[:3] == [True, False, False] and True not in begun[1:], begun)
        status = replica.ask("status")[1].decode()
        line = next(line for line in status.splitlines() if line.startswith("peer "))
        want(f"{name}: the status", " fault " not in line or " fault none" in line, line)


def find_earlier():
    """The program of an earlier release, if one is named."""
    old = os.environ.get("FEDBUNDLE_EARLIER")
    return old and str(Path(old).resolve())


def digest_and_lines(program, above, count):
    """The digest of the configuration, a replica that does not run, and lines of receipts."""
    maker = Replica(program, above / "makes")
    with maker:
        digest = digest_of(maker)
    return digest, maker, lines_of(maker, count)


def earlier(program, above):
    digest, _, lines = digest_and_lines(program, above, 50)
    stand_in = EarlierPeer(digest, lines)
    asks_earlier(program, above, "a stand-in", 50, stand_in.address)
    old = find_earlier()
    if not old:
        return "a stand-in; $FEDBUNDLE_EARLIER names no program of an earlier release"
    with Replica(old, above / "old", "--listen", free_address()) as replica:
        give(replica, snapshot(digest, lines))
        asks_earlier(program, above, "an earlier program", 50, replica.words[1])
        refused = [line for line in replica.said().splitlines() if line.startswith("event=serve")]
        want("an earlier program says so once", len(refused) == 1 and refused[0].endswith(" fault=S1"), refused)
    with Replica(program, above / "new", "--listen", free_address()) as replica:
        give(replica, snapshot(digest, lines))
        with Replica(old, above / "old asks", "--peers", replica.words[1], "--every", "1") as asker:
            said = within(HANG, lambda: asker.said().count("event=pull") >= 2)
            reports = [line for line in asker.said().splitlines() if line.startswith("event=pull")]
            well = said and " new=50 " in reports[0] and " new=0 " in reports[1] and "fault" not in "".join(reports)
            want("an earlier program asks", well, reports)
            want("who answered it has no fault", "event=serve" not in replica.said(), replica.said())
    return f"a stand-in, and {old}"


def earlier_commands(program, above):
    digest, maker, lines = digest_and_lines(program, above, 50)
    stand_in = EarlierPeer(digest, lines)
    for wanted in b"new 50\n", b"new 0\n":
        seen = pull(maker, "of a stand-in", stand_in.address)
        want("a pull from a stand-in", seen == (0, wanted, b""), seen)
    begun = time.monotonic()
    seen = pull(maker, "of one by one", OneByOnePeer(digest, lines).address)
    took = time.monotonic() - begun
    want("a pull from one that takes one connection after another", seen == (0, b"new 50\n", b""), seen)
    want("its first connection is closed before the second", took < 60, took)
    old = find_earlier()
    if not old:
        return "a stand-in; $FEDBUNDLE_EARLIER names no program of an earlier release"
    (maker.folder / "full").write_bytes(snapshot(digest, lines))
    server = Server(maker, "full", 2, program=old)
    seen = pull(maker, "of an earlier one", server.address)
    want("a pull from an earlier program", seen == (0, b"new 50\n", b""), seen)
    ended = server.end()
    want("the earlier server", ended == (1, b"served 2\n", b"fedbundle: S1 BadHeader\n"), ended)
    server = Server(maker, "full", 1)
    seen = pull(maker, "by an earlier one", server.address, program=old)
    want("a pull by an earlier program", seen == (0, b"new 50\n", b""), seen)
    want("who served it", server.end() == (0, b"served 1\n", b""))
    return f"a stand-in, and {old}"


def gone(program, above):
    """A peer that ends each connection, and then answers as one that knows sums."""
    with Replica(program, above / "answers", "--listen", free_address()) as answers:
        listener, port = listener_of_own()
        ends = threading.Event()
        ends.set()
        begun = []

        def accept():
            while True:
                try:
                    stream, _ = listener.accept()
                except OSError:
                    return
                with stream:
                    begun.append(stream.recv(10, socket.MSG_WAITALL))
                # Once the second connection of a session is ended too: else the relay would get that one, and be taken for a peer
                # that does not know sums.
                if not ends.is_set() and len(begun) % 2 == 0:
                    listener.close()
                    return

        threading.Thread(target=accept, daemon=True).start()
        with Replica(program, above / "asks", "--peers", f"127.0.0.1:{port}", "--every", "1") as asks:
            def reports():
                return [line for line in asks.said().splitlines() if line.startswith("event=pull")]

            want("sessions fail", within(HANG, lambda: len(reports()) >= 2), reports())
            want("they have a fault", all("fault=S" in line for line in reports()), reports())
            ways = [text.startswith(b'{"config"') for text in begun[:4]]
            want("sums are asked for each time", ways == [True, False, True, False], begun[:4])
            ends.clear()
            want("it is gone", within(HANG, lambda: listener.fileno() < 0))
            relay = Relay(socket.create_server(("127.0.0.1", port)), answers.words[1])
            well = within(HANG, lambda: reports() and "fault" not in reports()[-1])
            want("it is back", well, reports()[-2:])
            want("and is asked for sums", within(HANG, lambda: any(map(is_idle, relay.sessions))), len(relay.sessions))
            relay.close()
    return f"{len(begun)} connections that were ended"


def marks(count=257, mark=b"1"):
    return mark * count


HOSTILE_ANSWERS = {
    # What is answered to the question, and what `pull` says: None where nothing is wrong with it.
    "a first line that is too long": (lambda digest: b"a" * 513, "S1 BadHeader"),
    "a first line without an end": (lambda digest: b"a" * 2_000_000, "S1 BadHeader"),
    "another configuration": (lambda digest: answer("0" * 64, marks()), "S2 ConfigDiffers"),
    "another format": (lambda digest: answer(digest, marks()).replace(b'"format":2', b'"format":9'), "S3 VersionDiffers"),
    "a have": (lambda digest: b'{"bucket":0,"config":"%s","format":2,"have":[],"of":256}\n' % digest.encode(), "S1 BadHeader"),
    "cut in the first line": (lambda digest: head(digest)[:-9], "S7 Truncated"),
    "cut after the first line": (head, "S7 Truncated"),
    "cut in the marks": (lambda digest: head(digest) + marks(200), "S7 Truncated"),
    "one mark too few": (lambda digest: answer(digest, marks(256)), "S4 NotCanonical line 2"),
    "one mark too many": (lambda digest: answer(digest, marks(258)), "S4 NotCanonical line 2"),
    "a line of marks that is too long": (lambda digest: head(digest) + marks(2_000_000), "S4 NotCanonical line 2"),
    "a mark that is not one": (lambda digest: answer(digest, marks(256) + b"2"), "S4 NotCanonical line 2"),
    "marks, and nothing more": (lambda digest: answer(digest, marks()), "S7 Truncated"),
    "nothing differs": (lambda digest: answer(digest, marks(mark=b"0")), None),
}


def meet_each(texts):
    """The address of a peer that reads a question, answers the next of the texts, and ends the connection."""
    listener, port = listener_of_own()

    def run():
        for text in texts:
            stream, _ = listener.accept()
            with stream, stream.makefile("rb") as lines:
                for _ in range(258):
                    lines.readline()
                try:
                    stream.sendall(text)
                    stream.shutdown(socket.SHUT_WR)
                    while stream.recv(65_536):
                        pass
                except OSError:
                    pass
        listener.close()

    threading.Thread(target=run, daemon=True).start()
    return f"127.0.0.1:{port}"


def pulls(program, above):
    digest, replica, _ = digest_and_lines(program, above, 0)
    for name, (make, fault) in HOSTILE_ANSWERS.items():
        seen = pull(replica, "hostile", meet_each([make(digest)]))
        told = f"fedbundle: {fault} taken 0\n".encode()
        want(f"pull, {name}", seen == ((1, b"", told) if fault else (0, b"new 0\n", b"")), seen)
    return f"{len(HOSTILE_ANSWERS)} answers"


def answers(program, above):
    digest, _, _ = digest_and_lines(program, above, 0)
    texts = [make(digest) for make, _ in HOSTILE_ANSWERS.values()]
    with Replica(program, above / "stays", "--peers", meet_each(texts), "--every", "1") as stays:
        def reports():
            return [line for line in stays.said().splitlines() if line.startswith("event=pull")]

        want("all are asked", within(HANG, lambda: len(reports()) >= len(texts)), reports())
        for (name, (_, fault)), line in zip(HOSTILE_ANSWERS.items(), reports()):
            code = f" fault={fault.split()[0]}" if fault else ""
            want(f"a replica, {name}", " new=0 records=0 " in line and line.partition(" seconds=")[2][5:].endswith(code), line)
        want("a request after them", stays.ask("report")[0] == 0)
    return f"{len(texts)} answers"


def hostile_questions(digest):
    """What is asked, and what `serve` says: None where nothing is wrong with it."""
    whole = question(digest, [])
    lines = whole.splitlines(keepends=True)
    return {
        "a first line that is too long": (b"a" * 9_000_000 + b"\n", "S1 BadHeader"),
        "another configuration": (question("0" * 64, []), "S2 ConfigDiffers"),
        "another format": (whole.replace(b'"format":2', b'"format":9'), "S3 VersionDiffers"),
        "cut in the first line": (whole[:20], "S7 Truncated"),
        "cut after the first line": (lines[0], "S7 Truncated"),
        "cut in the last sum": (whole[:-1], "S7 Truncated"),
        "a sum that is too short": (b"".join([lines[0], lines[1][1:]]), "S4 NotCanonical line 2"),
        "a sum in upper case": (b"".join([*lines[:9], lines[9].upper()]), "S4 NotCanonical line 10"),
        "a sum that is too long": (b"".join([*lines[:9], b"a" * 2_000_000]), "S4 NotCanonical line 10"),
        "a line of marks": (answer(digest, marks()), "S4 NotCanonical line 2"),
        "two questions": (whole + whole, "S1 BadHeader"),
        "a thousand questions": (whole * 1_000, "S1 BadHeader"),
        "a question and half a have": (whole + b'{"bucket":0,', "S7 Truncated"),
        "a question, and nothing more": (whole, None),
    }


def tell(address, text):
    """What is answered to the text, whatever becomes of the connection."""
    host, port = address.rsplit(":", 1)
    answered = b""
    with socket.create_connection((host, int(port)), HANG) as stream:
        def send():
            try:
                stream.sendall(text)
                stream.shutdown(socket.SHUT_WR)
            except OSError:
                pass

        thread = threading.Thread(target=send)
        thread.start()
        try:
            while piece := stream.recv(65_536):
                answered += piece
        except OSError:
            pass
        thread.join()
    return answered


def serves(program, above):
    digest, replica, lines = digest_and_lines(program, above, 10)
    (replica.folder / "full").write_bytes(snapshot(digest, lines))
    cases = hostile_questions(digest)
    server = Server(replica, "full", len(cases))
    asked = question(digest, []).splitlines()[1:]
    right = answer(digest, marks_between(asked, sums_of([line.encode() for line in lines])))
    for name, (text, fault) in cases.items():
        seen = tell(server.address, text)
        # What came before the fault may be answered; where the connection is cut, it may not arrive.
        whole = text.startswith(question(digest, []))
        want(f"serve, {name}: the answer", seen in ((right, b"") if whole and fault else (right,) if whole else (b"",)), seen[:200])
    ended = server.end()
    wrong = [f"fedbundle: {fault}\n" for _, fault in cases.values() if fault]
    wanted = (1, b"served %d\n" % len(cases), "".join(wrong).encode())
    want("serve, what it says", ended == wanted, ended, wanted)
    return f"{len(cases)} questions"


def questions(program, above):
    digest, _, _ = digest_and_lines(program, above, 0)
    cases = hostile_questions(digest)
    with Replica(program, above / "stays", "--listen", free_address(), "--verbose") as stays:
        def reports():
            return [line for line in stays.said().splitlines() if line.startswith("event=serve")]

        for name, (text, fault) in cases.items():
            told = len(reports())
            tell(stays.words[1], text)
            # Faults of one kind have a line of their own only if a second is between them.
            want(f"a replica, {name}: a line", within(HANG, lambda: len(reports()) > told), reports()[-2:])
            time.sleep(1.1)
            code = f" fault={fault.split()[0]}" if fault else ""
            lines = reports()[told:]
            want(f"a replica, {name}", len(lines) == 1 and lines[0].partition(" seconds=")[2][5:].endswith(code), lines)
        begun = time.monotonic()
        for _ in range(CONNECTIONS):
            tell(stays.words[1], question(digest, []))
        took = time.monotonic() - begun
        want("a request after them", stays.ask("report")[0] == 0)
    return f"{len(cases)} questions; {CONNECTIONS} on connections of their own took {took:.1f} s"


def main():
    parts = [idle, one, records, once, earlier, gone, answers, questions, plain, commands, earlier_commands, pulls, serves]
    parts = {part.__name__: part for part in parts}
    program = find_program()
    for name in sys.argv[1:] or parts:
        with temporary() as above:
            seen = parts[name](program, Path(above))
        print(f"{name}: {seen}", flush=True)
    for fault in faults:
        print(fault)
    print(f"sums: {running.ran} looks, {len(faults)} wrong")
    return 1 if faults else 0


if __name__ == "__main__":
    sys.exit(main())

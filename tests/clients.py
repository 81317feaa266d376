#!/usr/bin/env python3
"""Runs the clients of the local socket, in Go and in Python, against running replicas and against hostile servers.

- The unit tests of both, and go vet and gofmt. Both need only their standard libraries, and that of Go no cgo.
- The same requests are made by the command with `--at`, by the client in Go and by that in Python, each at a replica of its
  own over the bundles of examples/. What the clients return is what the command prints, and each code with which a
  replica refuses comes. So it is at the socket of --read-socket.
- Many requests come on one connection, at once, in pieces that are cut anywhere, and in both forms. A bad one ends it, one that
  is cut is not carried out, and one that is kept gives its place away, and is closed after half a minute. The clients keep
  theirs, and are answered by a replica that began again.
- A replica that is stopped by a signal, one whose store is full, one without room for a request, and one whose disk is full:
  the clients and the command end in the same way.
- Both examples of Watch give the current bundles, say that the replica was killed, and give the bundle that is observed
  after it has come back, and no other.
- A server that cuts its reply anywhere, or whose first line is garbage, is not a replica for the clients and for the command.
  One whose reply never ends is left immediately.

It needs python3, and go and cc for the client in Go. What is missing is left out with a line. The first run takes half a minute
more, in which go builds its own library for the race detector. The program is the one that ./fedbundle runs, or the one that
$FEDBUNDLE names.

usage: clients    the exit status is 1 if something is wrong
"""
import base64
import hashlib
import json
import os
import re
import resource
import shutil
import signal
import socket
import ssl
import subprocess
import sys
import tempfile
import threading
import time
from contextlib import ExitStack, contextmanager
from functools import partial
from pathlib import Path

sys.dont_write_bytecode = True
sys.path.insert(0, str(Path(__file__).resolve().parent / "lib"))
from harness import HANG, TOP, find_program, listener_of_own, shown, temporary  # noqa: E402
from needs import can, left_out  # noqa: E402

BINDINGS, EXAMPLES = TOP / "bindings", TOP / "examples"
NOBODY = 65534
# Nothing here takes so long, unless a client waits for ever.
ENDPOINT = "spiffe://a.example/spire/server"
RECEIPTS = (EXAMPLES / "receipts.jsonl").read_bytes().splitlines()
FIRST = json.loads(RECEIPTS[0])
A_DOCUMENT = (EXAMPLES / "a.example.json").read_bytes()
A_KEYS = [hashlib.sha256(base64.b64decode(one["x5c"][0])).hexdigest() for one in json.loads(A_DOCUMENT)["keys"] if "x5c" in one]
# A key that the configured bundle lists, and that has vouched for nothing.
SPARE = next(key for key in A_KEYS if key != FIRST["key"])
# Each code with which a request may end, except those of memory, B7, which no bundle has, and `no words` and `bad words`, since
# the clients send no such request.
CODES = {
    *"N1 N2 N3 N4 N5 B1 B2 B3 B4 B5 B6 O1 O2 O3 O4 O5 O6 G1 G3 S1 S2 S3 S4 S5 S6 S7 S8 S9 P4 P5".split(), "bad key",
    "bad moment", "no current bundle", "not accepted", "too many bytes", "too many requests", "words too long",
    "input too long", "read only", "usage", "no known key", "no replica", "no reply",
}

failures, codes = [], set()
ran = 0


def want(what, right, *seen):
    global ran
    ran += 1
    if not right:
        failures.append(f"{what}: {', '.join(shown(one) for one in seen)}")


def refused(code, status, text=None):
    """What comes of a request that is refused."""
    return {"code": code, "text": text or code, "status": status}


def based(data):
    return base64.b64encode(data).decode()


# ---- replicas

def configuration():
    """That of the examples, and a domain whose endpoint's domain has no bundle."""
    config = json.loads((EXAMPLES / "config.json").read_text())
    config["relationships"].append({"domain": "c.example", "endpoint": "spiffe://d.example/bundle",
                                    "profile": "https_spiffe", "url": "https://c.example/"})
    return json.dumps(config)


class Replica:
    """A replica in a folder of its own, with both sockets."""

    def __init__(self, program, folder, *words, most_file_bytes=None):
        self.program, self.folder, self.words, self.most = program, folder, words, most_file_bytes
        folder.mkdir()
        (folder / "config").write_text(configuration())
        self.socket, self.read = str(folder / "socket"), str(folder / "read")

    def start(self):
        words = [self.program, "replica", "--config", "config", "--state", "state", "--socket", "socket", "--new",
                 "--read-socket", "read", *self.words]
        self.process = subprocess.Popen(words, cwd=self.folder, stdin=subprocess.DEVNULL, stdout=subprocess.PIPE,
                                        stderr=subprocess.DEVNULL, preexec_fn=self.limit if self.most else None)
        self.config = self.process.stdout.readline().split()[1].decode()
        return self

    def limit(self):
        signal.signal(signal.SIGXFSZ, signal.SIG_IGN)
        resource.setrlimit(resource.RLIMIT_FSIZE, (self.most, self.most))

    def kill(self):
        self.process.kill()
        self.process.wait(HANG)
        self.process.stdout.close()

    def __enter__(self):
        return self.start()

    def __exit__(self, *_):
        self.kill()


def snapshot(config, receipts, records=(), form=2, counts=None):
    """The snapshot that has these lines."""
    receipts, records = sorted(receipts), sorted(records)
    counts = counts or (len(receipts), len(records))
    head, end = b'{"config":"%s","format":%d}' % (config.encode(), form), b'{"count":%d,"distrusts":%d}' % counts
    return b"".join(line + b"\n" for line in [head, *records, *receipts, end])


# ---- who asks

class Command:
    """The program with `--at`, and its output as the clients return it."""

    name = "the command"
    # The arguments of a call before and after its texts, and the options that have those.
    WORDS = {
        "status": ["status", "--format=json"], "metrics": ["status", "--format=prometheus"], "report": ["report"],
        "list": ["list", "--format=json"], "list_keys": ["list", "--keys", "--format=json"], "graph": ["graph"],
        "bundle": ["bundle", "--domain"], "bundle_pem": ["bundle", "--format=pem", "--domain"],
        "parsed": ["bundle", "--format=pem", "--domain"], "explain": ["explain", "--domain"],
        "explain_short": ["explain", "--short", "--domain"], "polls": ["polls"],
        "observe": ["observe", "--domain", "--endpoint", "--key"], "merge": ["merge"], "merge_at_most": ["merge"],
        "distrust": ["distrust", "--domain", "--key"], "distrust_unknown": ["distrust", "--unknown-key", "--domain", "--key"],
        "distrust_verbose": ["distrust", "--verbose", "--domain", "--key"],
        "distrust_dry_run": ["distrust", "--dry-run", "--domain", "--key"], "stop": ["stop"],
        "config": ["config"], "snapshot": ["migrate"], "migrate": ["migrate", "--to"],
        "migrate_records": ["migrate", "--records-only", "--to"], "reseed": ["reseed"], "diff": ["diff", "--with"],
    }

    def __init__(self, program, user=None):
        self.program, self.user = program, user
        self.folder = Path(tempfile.mkdtemp())
        self.folder.chmod(0o755)

    def run(self, words, data=b""):
        return subprocess.run([self.program, *words], input=data, capture_output=True, timeout=HANG, user=self.user)

    def ask(self, row):
        data = base64.b64decode(row.get("Input", "")) + b" " * row.get("Spaces", 0)
        call, texts = row["Call"], list(row.get("Texts", []))
        place = [f"--at={row['Socket']}", f"--wait={max(1, int(row['Seconds']))}"]
        if call == "version":
            return self.answer(call, row, self.run(["--version"]))
        if call == "ask":
            return self.answer(call, row, self.run([*texts, *place], data))
        if call in ("migrate", "migrate_records", "diff"):
            texts, data = [self.file(data)], b""
        if call == "reseed":
            texts = [f"--allow={one}" for one in texts if one]
        named = ("--domain", "--endpoint", "--key", "--to", "--with")
        words = [f"{word}={texts.pop(0)}" if word in named else word for word in self.WORDS[call]]
        if call in ("list", "list_keys", "graph"):
            words += [f"--domain={one}" for one in texts if one]
        words += texts if call == "reseed" else []
        if call == "polls":
            words.append(f"--now={row['Number']}")
            data = b"".join(poll_line(one) for one in row.get("Polls", []))
        if call == "merge_at_most":
            words.append(f"--most-bytes={row['Number']}")
        return self.answer(call, row, self.run([*words, *place], data))

    def file(self, text):
        """The path of a file with the text."""
        path = self.folder / hashlib.sha256(text).hexdigest()
        path.write_bytes(text)
        return str(path)

    def answer(self, call, row, done):
        if call == "ask":
            return {"answer": {"output": based(done.stdout), "errors": based(done.stderr), "status": done.returncode}}
        shows = ("status", "metrics", "migrate", "migrate_records", "diff")
        if done.returncode and not (call in shows and done.stdout):
            text = done.stderr.decode().removeprefix("fedbundle: ").removesuffix("\n")
            number = re.match(r"[A-Z]\d+(?= |$)", text)
            return refused(number.group() if number else text, done.returncode, text)
        return {"answer": self.read(call, row, done)}

    def read(self, call, row, done):
        lines = done.stdout.decode().splitlines()
        if call in ("status", "list"):
            return json.loads(done.stdout)
        if call == "list_keys":
            return json.loads(done.stdout)["keys"]
        if call in ("metrics", "report", "bundle_pem", "graph", "config", "snapshot", "reseed"):
            return based(done.stdout)
        if call in ("migrate", "migrate_records"):
            return {"snapshot": based(done.stdout), "left_out": done.stderr.decode().splitlines()}
        if call == "bundle":
            return based(done.stdout.removesuffix(b"\n"))
        if call == "parsed":
            return self.parsed(row, done.stdout.decode())
        if call == "explain":
            return [receipt(line.encode()) for line in lines]
        if call == "polls":
            return [next_poll(line) for line in lines]
        if call == "observe":
            return receipt(done.stdout.removesuffix(b"\n"))
        if call in ("merge", "merge_at_most"):
            return int(lines[0].removeprefix("new "))
        if call in ("distrust", "distrust_unknown", "stop"):
            return None
        return done.stderr.decode().splitlines() if call == "distrust_verbose" else lines

    def parsed(self, row, pem):
        """What a bundle says: of its JSON and, for the certificates, of its PEM."""
        domain = row["Texts"][0]
        document = self.run(["bundle", f"--domain={domain}", f"--at={row['Socket']}"]).stdout.removesuffix(b"\n")
        said = json.loads(document)
        return {
            "domain": domain, "id": hashlib.sha256(domain.encode() + b"\n" + document).hexdigest(),
            "document": based(document), "sequence": said.get("spiffe_sequence"),
            "refresh_hint": said.get("spiffe_refresh_hint"),
            "x509_authorities": [based(der) for der in certificates(pem)],
        }

    def end(self):
        shutil.rmtree(self.folder)


def poll_line(poll):
    return f"{poll['Domain']} {'ok' if poll['OK'] else 'fail'} {poll['Second']}\n".encode()


def certificates(pem):
    ended = "-----END CERTIFICATE-----"
    return [ssl.PEM_cert_to_DER_cert(one.strip() + ended) for one in pem.split(ended)[:-1]]


def receipt(line):
    said = json.loads(line)
    document = json.dumps(said.pop("doc"), separators=(",", ":"), ensure_ascii=False).encode()
    return {"line": based(line), "document": based(document), **said}


def next_poll(line):
    domain, when = line.split(" ", 1)
    return {"domain": domain, "due": when == "due", "next": int(when) if when.isdigit() else None}


class Language:
    """A program that makes the requests that it reads, with the client of a language."""

    def __init__(self, name, words, user=None):
        self.name = name
        self.process = subprocess.Popen(words, stdin=subprocess.PIPE, stdout=subprocess.PIPE, text=True, user=user)

    def ask(self, row):
        self.process.stdin.write(json.dumps(row) + "\n")
        self.process.stdin.flush()
        return json.loads(self.process.stdout.readline())

    def end(self):
        self.process.stdin.close()
        want(f"{self.name}, the program ends", self.process.wait(HANG) == 0)
        self.process.stdout.close()


def parties(program, programs, user=None):
    return [Command(program, user), *(Language(name, words("requests"), user) for name, words in programs.items())]


def asked(call, *texts, **more):
    return {"Call": call, "Texts": list(texts), "Seconds": HANG, **more}


def compare(what, row, askers, places):
    """Each asks at its place, and all get the same. It is returned."""
    came = [asker.ask({**row, "Socket": place}) for asker, place in zip(askers, places)]
    for asker, one in zip(askers[1:], came[1:]):
        want(f"{what}, {asker.name}", one == came[0], {**row, "Input": ""}, one, came[0])
    codes.update(one["code"] for one in came[:1] if "code" in one)
    return came[0]


# ---- the rows

def documents():
    return {
        "B1": b" " * 1_048_577, "B2": b"[", "B3": b"[]", "B4": b"{}", "B5": b'{"keys":[],"spiffe_sequence":-1}',
        "B6": b'{"keys":[],"spiffe_refresh_hint":-1}',
    }


def refusals(config):
    """Rows that change nothing, and the code that each ends with."""
    key = FIRST["key"]
    yield from ((code, asked("explain", "a.example", Input=based(text))) for code, text in documents().items())
    for code, domain in [("N1", ""), ("N2", "a" * 256), ("N4", "A"), ("no current bundle", "c.example"),
                         ("words too long", "a" * 70_000), ("no current bundle", "--verbose"), ("N4", 'é"\\<')]:
        yield code, asked("bundle", domain)
    for code, domain, endpoint, by in [
        ("N3", "a.example", "http://a.example", key), ("N5", "a.example", "spiffe://a.example//", key),
        ("O1", "x.example", ENDPOINT, key), ("O2", "a.example", "spiffe://a.example/x", key),
        ("O3", "c.example", "spiffe://d.example/bundle", key), ("O4", "a.example", ENDPOINT, "0" * 64),
        ("bad key", "a.example", ENDPOINT, "00"),
    ]:
        yield code, asked("observe", domain, endpoint, by, Input=based(A_DOCUMENT))
    yield "O5", asked("observe", "a.example", ENDPOINT, key, Input=based(b"["))
    yield "G1", asked("distrust_unknown", "x.example", key)
    yield from (("no known key", asked(call, domain, by)) for call in ("distrust", "distrust_verbose", "distrust_dry_run")
                for domain, by in (("x.example", key), ("a.example", "0" * 64)))
    yield "not accepted", asked("explain", "a.example", Input=based(b'{"keys":[]}'))
    yield "input too long", asked("merge", Spaces=268_435_457)
    yield "too many bytes", asked("merge_at_most", Number=3, Input=based(b"four"))
    yield "bad moment", asked("polls", Number=1 << 60)
    yield "P4", asked("polls", Number=5, Polls=[{"Domain": "x.example", "OK": True, "Second": 5}])
    yield "P5", asked("polls", Number=5, Polls=[{"Domain": "a.example", "OK": True, "Second": 1 << 60}])
    yield from ((code, asked("merge", Input=based(text))) for code, text in snapshots(config))


def snapshots(config):
    """Snapshots that are refused."""
    good = snapshot(config, RECEIPTS).splitlines(keepends=True)
    wrong = RECEIPTS[0].replace(ENDPOINT.encode(), b"spiffe://a.example/other")
    return [
        ("S1", b"garbage\n"), ("S2", snapshot("0" * 64, RECEIPTS)), ("S3", snapshot(config, RECEIPTS, form=3)),
        ("S4", good[0] + b"garbage\n" + good[-1]), ("S5", good[0] + good[2] + good[1] + good[-1]),
        ("S6", snapshot(config, RECEIPTS, counts=(1, 0))), ("S7", good[0]), ("S8", snapshot(config, [wrong])),
    ]


def moves(config):
    """Rows that show the configuration, what goes along to another one, and what differs from a snapshot."""
    yield from (asked(call) for call in ("config", "snapshot"))
    yield from (asked("reseed", domain) for domain in ("", "b.example"))
    for call in ("migrate", "migrate_records"):
        for text in (configuration().encode(), (EXAMPLES / "config.json").read_bytes()):
            yield asked(call, Input=based(text))
    yield from (asked("diff", Input=based(snapshot(config, receipts))) for receipts in (RECEIPTS, RECEIPTS[:1]))


def looks(has_lists):
    """Rows that show what is held."""
    for call in ("list", "list_keys", "graph") if has_lists else []:
        yield from (asked(call, domain) for domain in ("", "b.example"))
    polls = [{"Domain": "a.example", "OK": False, "Second": -5},
             {"Domain": "b.example", "OK": True, "Second": 253_402_207_199}]
    document = json.dumps(FIRST["doc"]).encode()
    for call in ("status", "metrics", "report", "version"):
        yield asked(call)
    for domain in ("a.example", "b.example"):
        yield from (asked(call, domain) for call in ("bundle", "bundle_pem", "parsed"))
    yield asked("explain", "a.example", Input=based(A_DOCUMENT))
    yield asked("explain", "a.example", Input=based(document))
    yield asked("explain_short", "a.example", Input=based(document))
    yield asked("polls", Number=-7)
    yield asked("polls", Number=253_402_207_200, Polls=polls)
    yield asked("distrust_dry_run", "a.example", FIRST["key"])
    yield asked("ask", "bundle", "--domain=a.example")
    yield asked("ask", "bundle", "--domain=x.example")
    yield asked("ask", "status", "--format=text")


def changes(config):
    """Rows that change what is held, and what comes of each; None for what only the command says."""
    observed = receipt(RECEIPTS[0])
    observe = asked("observe", "a.example", ENDPOINT, FIRST["key"], Input=based(json.dumps(FIRST["doc"]).encode()))
    merge = asked("merge", Input=based(snapshot(config, RECEIPTS)))
    b_key = hashlib.sha256(ssl.PEM_cert_to_DER_cert((EXAMPLES / "b.example-ec.pem").read_text())).hexdigest()
    return [
        (observe, {"answer": observed}), (observe, None), (merge, {"answer": 5}), (merge, {"answer": 0}),
        (asked("merge_at_most", Number=1 << 32, Input=merge["Input"]), {"answer": 0}),
        (asked("distrust_verbose", "b.example", b_key), None), (asked("distrust", "b.example", b_key), {"answer": None}),
        (asked("distrust_unknown", "a.example", "0" * 64), {"answer": None}),
        (asked("distrust_verbose", "a.example", SPARE), None),
    ]


def check_requests(program, programs, above):
    """All requests, at a replica for each that asks."""
    listener, port = listener_of_own()
    listener.close()
    with ExitStack() as stack:
        askers = parties(program, programs)
        replicas = [stack.enter_context(Replica(program, above / f"own-{i}", "--peers", f"127.0.0.1:{port}"))
                    for i in range(len(askers))]
        places, config = [one.socket for one in replicas], replicas[0].config
        for one in places:
            failed = within(HANG, lambda: b"fault S9" in askers[0].run(["status", "--at", one]).stdout)
            want("the session with the peer has failed", failed)
        check_rows(askers, places, [one.read for one in replicas], config)
        for asker, one in zip(askers, replicas):
            want(f"{asker.name}, stop", asker.ask({**asked("stop"), "Socket": one.socket}) == {"answer": None})
            want(f"{asker.name}, it has ended", one.process.wait(HANG) == 0)
        came = compare("after stop", asked("report"), askers, places)
        want("no replica", came == refused("no replica", 3), came)
        for asker in askers:
            asker.end()


def check_rows(askers, places, reads, config):
    has_lists = b"--at" in askers[0].run(["list", "--help"]).stdout
    if not has_lists:
        left_out("list and graph of a replica", "the program is older than 0.6.0")
    has_moves = b"--at" in askers[0].run(["reseed", "--help"]).stdout
    if not has_moves:
        left_out("config, diff, migrate and reseed of a replica", "the program is older than 0.7.0")
    for code, row in refusals(config):
        came = compare("refusal", row, askers, places)
        want(f"{row['Call']}, {code}", came.get("code") == code, came)
    for row, wanted in changes(config):
        for look in looks(has_lists):
            came = compare("what is held", look, askers, places)
            want(f"{look['Call']} is not refused", came.get("code", "not accepted") == "not accepted", came)
        for move in moves(config) if has_moves else []:
            came = compare("what goes along", move, askers, places)
            want(f"{move['Call']} is not refused", came.get("code", "refused ").startswith("refused "), came)
        came = compare("change", row, askers, places)
        want(f"{row['Call']}", came == wanted or (wanted is None and came["answer"]), came, wanted)
    for row in [*looks(has_lists), *(moves(config) if has_moves else [])]:
        same = [compare("at either socket", row, askers, where) for where in (places, reads)]
        want("both sockets show the same", same[0] == same[1], *same)
    status = compare("the status", asked("status"), askers, places)["answer"]
    want("it warns, and has a peer", status["warning"] and status["peers"][0]["fault"] == "S9", status)
    for row in [*(row for row, _ in changes(config)), asked("stop")]:
        came = compare("at the socket for reading", row, askers, reads)
        want("read only", came == refused("read only", 1), row["Call"], came)
    came = compare("a path that is too long", asked("report"), askers, [f"/{'x' * 107}"] * len(askers))
    want("a path that is too long", came == refused("S9", 3, "S9 Io"), came)
    came = compare("an empty path", asked("report"), askers, [""] * len(askers))
    want("an empty path", came == refused("usage", 2), came)


def within(seconds, holds):
    end = time.monotonic() + seconds
    while not holds():
        if time.monotonic() > end:
            return False
        time.sleep(0.05)
    return True


# ---- several requests on one connection

IDLE_SECONDS = 30
# How many connections of the machine a replica has at both sockets, and at the one at which nothing can be changed.
MOST_LOCAL, MOST_LOOKING = 64, 48


def counted(*words, data=b""):
    """A request that says how many bytes of input it has."""
    return b'{"input":%d,"words":%s}\n' % (len(data), json.dumps(words).encode()) + data


def joined(path):
    stream = socket.socket(socket.AF_UNIX)
    stream.settimeout(HANG)
    stream.connect(path)
    return stream


def reply_on(stream, text=b""):
    """The next reply, and none if the connection ends before it."""
    if text:
        stream.sendall(text)
    head = b""
    while not head.endswith(b"\n"):
        byte = stream.recv(1)
        if not byte:
            return head or None
        head += byte
    said, body = json.loads(head), b""
    length = said["output"] + said["errors"]
    # Not a byte of the next reply is read.
    while len(body) < length and (piece := stream.recv(length - len(body))):
        body += piece
    return head + body


def replies_to(path, pieces, count):
    """That many replies to what comes in these pieces, and what follows the last one once nothing more is sent."""
    with joined(path) as stream:
        for piece in pieces:
            stream.sendall(piece)
        came = [reply_on(stream) for _ in range(count)]
        stream.shutdown(socket.SHUT_WR)
        return came, all_of(stream)


def check_connections(program, programs, above):
    with Replica(program, above / "connections") as replica:
        check_order(replica)
        check_refused(replica)
        check_places(replica)
        check_restarted(replica, parties(program, programs)[1:])
    check_idle(program, above)


def check_order(replica):
    """The same replies as to requests on connections of their own, wherever the bytes are cut."""
    config, document = counted("config"), A_DOCUMENT
    explain = ["explain", "--domain=a.example"]
    alone = [replies_to(replica.socket, [one], 1)[0][0]
             for one in (config, counted(*explain, data=document), counted("bundle", "--domain=c.example"))]
    want("replies alone", len(set(alone)) == 3 and None not in alone, alone)
    three = config + counted(*explain, data=document) + counted("bundle", "--domain=c.example")
    with joined(replica.socket) as stream:
        came = [reply_on(stream, one) for one in [config] * 300]
        want("300 requests on a connection", came == [alone[0]] * 300, set(came) - {alone[0]})
    came = replies_to(replica.socket, [three], 3)
    want("three requests at once", came == (alone, b""), came)
    for place in range(1, len(three), 37):
        came = replies_to(replica.socket, [three[:place], three[place:]], 3)
        want(f"cut at {place}", came == (alone, b""), came)
    small = config + counted("bundle", "--domain=c.example")
    came = replies_to(replica.socket, [small[place:place + 1] for place in range(len(small))], 2)
    want("a byte at a time", came == ([alone[0], alone[2]], b""), came)
    # The form whose input ends with the stream comes last.
    last = json.dumps(explain).encode() + b"\n" + document
    came = replies_to(replica.socket, [three + last], 3)
    want("both forms", came == (alone, alone[1]), came)
    observe = ["observe", "--domain=a.example", f"--endpoint={ENDPOINT}", f"--key={FIRST['key']}"]
    data = json.dumps(FIRST["doc"]).encode()
    came = replies_to(replica.socket, [counted(*observe, data=data) * 5 + counted("status", "--format=json")], 6)
    # The first receipt is vouched for by the configured bundle, and the others by what was observed.
    want("changes in their order", len(set(came[0][1:5])) == 1 and b'"receipts":2,' in came[0][5], came)


def check_refused(replica):
    """What is refused ends the connection, and what follows it is not carried out."""
    good = replies_to(replica.socket, [counted("config")], 1)[0][0]
    texts = [(b'{"input":0,"words":[1]}\n', b"bad words"), (b'{"words":["config"],"input":0}\n', b"bad words"),
             (b'{"input":00,"words":[]}\n', b"bad words"), (b'{"input":-1,"words":[]}\n', b"bad words"),
             (b'{"input":1e1,"words":[]}\n', b"bad words"), (b"{}\n", b"bad words"), (b"{" * 65_537, b"words too long"),
             (b'{"input":268435457,"words":[]}\n', b"input too long"),
             (b'{"input":99999999999999999999,"words":[]}\n', b"bad words")]
    for text, why in texts:
        with joined(replica.socket) as stream:
            first, second = reply_on(stream, counted("config")), reply_on(stream, text + counted("stop"))
            want(f"after a good one, {why}", first == good and second.endswith(b"fedbundle: " + why + b"\n"), text[:60], second)
            want(f"it ends the connection, {why}", reply_on(stream) is None, text[:60])
    for cut in (counted("merge", data=b"12")[:-1], counted("stop")[:-1], b"{"):
        came = replies_to(replica.socket, [counted("config") + cut], 1)
        want("a request that is cut", came[0] == [good] and came[1].endswith(b"fedbundle: no words\n"), cut, came)
    came = replies_to(replica.socket, [counted("config"), b'["config"]'], 1)
    want("a line that is cut", came[1].endswith(b"no words\n"), came)
    want("nothing was stopped", replica.process.poll() is None)


def check_places(replica):
    """One that is kept is closed without a reply if its place is needed, and the first one first."""
    kept = [joined(replica.read) for _ in range(MOST_LOOKING)]
    good = [reply_on(stream, counted("config")) for stream in kept]
    kept += [joined(replica.socket) for _ in range(MOST_LOCAL - MOST_LOOKING - 1)]
    good += [reply_on(stream, counted("config")) for stream in kept[MOST_LOOKING:]]
    want("all places are taken", len(set(good)) == 1 and None not in good, set(good))
    with joined(replica.read) as looking:
        want("one that looks has a place", reply_on(looking, counted("config")) == good[0])
        want("the first one that looked is closed", reply_on(kept[0]) is None)
        # One whose request has begun is not the one that is closed.
        kept[1].sendall(b'{"input":0,')
        time.sleep(0.2)
        more = [joined(replica.socket) for _ in range(3)]
        want("three that change have places", [reply_on(one, counted("config")) for one in more] == [good[0]] * 3)
        want("its request is carried out", reply_on(kept[1], b'"words":["config"]}\n') == good[0])
        for one in more:
            one.close()
    for stream in kept:
        stream.close()


def check_restarted(replica, askers):
    """The clients have a connection that is kept, and the replica begins again."""
    row = {**asked("report"), "Socket": replica.socket}
    for asker in askers:
        first = asker.ask(row)
        replica.kill()
        replica.start()
        came = asker.ask(row)
        want(f"{asker.name}, after a restart", "answer" in first and came == first, first, came)
        asker.end()


def check_idle(program, above):
    with Replica(program, above / "idle") as replica, joined(replica.socket) as stream:
        reply_on(stream, counted("config"))
        start = time.monotonic()
        stream.settimeout(2 * IDLE_SECONDS)
        came, took = stream.recv(1), time.monotonic() - start
        want("one that is idle is closed", came == b"" and IDLE_SECONDS - 1 < took < IDLE_SECONDS + 15, came, took)


# ---- replicas that cannot answer

def check_faults(program, programs, above):
    askers = parties(program, programs)
    check_stopped(program, askers, above)
    observe = asked("observe", "a.example", ENDPOINT, FIRST["key"], Input=based(json.dumps(FIRST["doc"]).encode()))
    with Replica(program, above / "full") as replica:
        places = [replica.socket] * len(askers)
        came = askers[0].ask({**asked("merge", Input=based(full(replica.config))), "Socket": replica.socket})
        want("a full store is merged", came == {"answer": 65_536}, came)
        came = compare("a full store", observe, askers, places)
        want("a full store", came == refused("O6", 1, "O6 Take G3 Full"), came)
        came = compare("records are full", asked("distrust_unknown", "a.example", "f" * 64), askers, places)
        want("records are full", came == refused("G3", 1, "G3 Full"), came)
    with Replica(program, above / "small", "--most-request-bytes", "1048576") as replica:
        came = compare("no room", asked("merge", Spaces=2_000_000), askers, [replica.socket] * len(askers))
        want("no room", came == refused("too many requests", 1), came)
    with ExitStack() as stack:
        replicas = [stack.enter_context(Replica(program, above / f"disk-{number}", most_file_bytes=2_000))
                    for number in range(len(askers))]
        came = compare("a disk that is full", observe, askers, [one.socket for one in replicas])
        want("a disk that is full", came == refused("S9", 3, "S9 Io"), came)
    for asker in askers:
        asker.end()


def check_stopped(program, askers, above):
    """A replica that is stopped does not answer within the time limit, and later it does."""
    with Replica(program, above / "stopped") as replica:
        os.kill(replica.process.pid, signal.SIGSTOP)
        for asker in askers:
            start = time.monotonic()
            came = asker.ask({**asked("report"), "Seconds": 1, "Socket": replica.socket})
            took = time.monotonic() - start
            codes.add(came.get("code"))
            want(f"{asker.name}, a replica that is stopped", came == refused("no reply", 3), came)
            want(f"{asker.name}, the time limit", 0.9 < took < 60, took)
        os.kill(replica.process.pid, signal.SIGCONT)
        came = compare("a replica that goes on", asked("report"), askers, [replica.socket] * len(askers))
        want("it goes on", "answer" in came, came)


def full(config):
    """The snapshot of a store that has no room for more."""
    line = '{"doc":{"keys":[],"spiffe_sequence":%d},"domain":"a.example","endpoint":"%s","key":"%s","voucher":"%s"}'
    receipts = [(line % (number, ENDPOINT, "0" * 64, "0" * 64)).encode() for number in range(65_536)]
    return snapshot(config, receipts, [b'{"distrust":"%064x","domain":"a.example"}' % number for number in range(4_096)])


def check_permission(program, programs, above):
    """The socket has mode 0600, so that another user may not ask."""
    if not can("root", "a socket without permission"):
        return
    askers = {"the command": lambda: Command(program, NOBODY)}
    askers.update({name: partial(Language, name, words("requests"), NOBODY) for name, words in programs.items()})
    with Replica(program, above / "another") as replica:
        for name, make in askers.items():
            try:
                asker = make()
                came = asker.ask({**asked("report"), "Socket": replica.socket})
            except PermissionError:
                left_out("a socket without permission", f"another user cannot run {name}")
                continue
            want(f"{name}, no permission", came == refused("S9", 3, "S9 Io"), came)
            asker.end()


# ---- Watch

class Watching:
    """An example of Watch, and the lines that it printed."""

    def __init__(self, name, words):
        self.name, self.lines, self.errors = name, [], []
        # Whoever starts this test may ignore the signal, and then Python does, too.
        self.process = subprocess.Popen(words, stdout=subprocess.PIPE, stderr=subprocess.PIPE, text=True,
                                        preexec_fn=lambda: signal.signal(signal.SIGINT, signal.SIG_DFL))
        self.threads = [threading.Thread(target=self.collect, args=both, daemon=True)
                        for both in ((self.process.stdout, self.lines), (self.process.stderr, self.errors))]
        for thread in self.threads:
            thread.start()

    @staticmethod
    def collect(stream, lines):
        with stream:
            for line in stream:
                lines.append(line)

    def prints(self, what, lines):
        came = within(10, lambda: len(self.lines) >= len(lines))
        want(f"{self.name}, {what}", came and self.lines == lines, self.lines, lines)

    def end(self):
        self.process.send_signal(signal.SIGINT)
        ended = within(5, lambda: self.process.poll() is not None)
        want(f"{self.name}, it is interrupted", ended and self.process.returncode == 0, self.process.returncode)
        self.process.kill()
        self.process.wait()
        for thread in self.threads:
            thread.join()


def current_lines(command, place):
    """What an example prints of each trust domain, by the command."""
    lines = []
    status = json.loads(command.run(["status", "--format=json", f"--at={place}"]).stdout)
    for one in status["domains"]:
        domain = one["domain"]
        pem = command.run(["bundle", "--format=pem", f"--domain={domain}", f"--at={place}"]).stdout.decode()
        keys = " ".join(hashlib.sha256(der).hexdigest() for der in certificates(pem))
        lines.append(f"{domain} {one['current']['id']} [{keys}]\n" if one["current"] else f"{domain} none\n")
    return lines


def check_watch(program, programs, above):
    """Both examples, while a replica is killed and comes back."""
    command = Command(program)
    with Replica(program, above / "watched") as replica:
        wanted = current_lines(command, replica.socket)
        watches = [Watching(name, [*words("watch"), replica.read]) for name, words in programs.items()]
        for watch in watches:
            watch.prints("first", wanted)
        replica.kill()
        for watch in watches:
            seen = within(10, lambda: any("no replica" in line for line in watch.errors))
            want(f"{watch.name}, it says that the replica is away", seen, watch.errors)
        replica.start()
        row = asked("observe", "a.example", ENDPOINT, FIRST["key"], Input=based(json.dumps(FIRST["doc"]).encode()))
        came = command.ask({**row, "Socket": replica.socket})
        want("observed meanwhile", "answer" in came, came)
        wanted.append(current_lines(command, replica.socket)[0])
        for watch in watches:
            watch.prints("what was observed", wanted)
        command.run(["merge", f"--at={replica.socket}"], snapshot(replica.config, RECEIPTS))
        wanted += current_lines(command, replica.socket)[:2]
        for watch in watches:
            watch.prints("what was merged", wanted)
            watch.end()
            want(f"{watch.name}, nothing else", watch.lines == wanted, watch.lines)


# ---- hostile servers

@contextmanager
def server(path, serve):
    """A server that gives each connection to the function, and closes it."""
    with socket.socket(socket.AF_UNIX) as listener:
        listener.bind(path)
        listener.listen(64)
        thread = threading.Thread(target=accept, args=(listener, serve), daemon=True)
        thread.start()
        try:
            yield path
        finally:
            listener.shutdown(socket.SHUT_RDWR)
            thread.join()


def accept(listener, serve):
    while True:
        try:
            stream, _ = listener.accept()
        except OSError:
            return
        with stream:
            try:
                serve(stream)
            except OSError:
                pass


def all_of(stream):
    text = b""
    while piece := stream.recv(65_536):
        text += piece
    return text


def whole_request(stream):
    """Reads a request, of either form."""
    text = b""
    while b"\n" not in text and (piece := stream.recv(65_536)):
        text += piece
    line, _, data = text.partition(b"\n")
    if not line.startswith(b"{"):
        return text + all_of(stream)
    while len(data) < json.loads(line)["input"]:
        data += stream.recv(65_536)
    return line + b"\n" + data


def check_hostile(program, programs, above):
    """What comes is not a reply, or only a part of one. The command sees some of them, too."""
    askers = parties(program, programs)
    good = whole_reply()
    garbage = [b"\n", b"garbage\n", b"[]\n", b"{}\n", b"\xff\n", b"[" * 65_535 + b"\n", b" " * 65_536 + b"{}\n",
               b'{"errors":0,"output":0}\n', b'{"errors":0,"output":0,"status":256}\n',
               b'{"errors":0,"output":0,"status":-1}\n', b'{"errors":0,"output":1e0,"status":0}\nx',
               b'{"errors":0,"output":18446744073709551616,"status":0}\n',
               b'{"errors":18446744073709551615,"output":2,"status":0}\nx', good + b"x"]
    now = {}

    def serve(stream):
        whole_request(stream)
        stream.sendall(now["reply"])

    with server(str(above / "hostile"), serve) as path:
        row = {**asked("report"), "Socket": path}
        for number, reply in enumerate([*garbage, *(good[:length] for length in range(len(good)))]):
            now["reply"] = reply
            for asker in askers if number % 16 == 0 or number < len(garbage) else askers[1:]:
                came = asker.ask(row)
                want(f"{asker.name}, a wrong reply", came == refused("no replica", 3), reply[-60:], came)
        now["reply"] = good
        for asker in askers:
            want(f"{asker.name}, a whole reply", asker.ask(row) == {"answer": based(b"output\n" * 20)})
    check_endless(askers[1:], above)
    for asker in askers:
        asker.end()


def whole_reply():
    """A whole reply, with both streams."""
    return b'{"errors":10,"output":140,"status":0}\n' + b"output\n" * 20 + b"ten bytes\n"


def check_endless(askers, above):
    """An endless first line, more output than was said, and too much of it."""
    sizes = (b'{"errors":0,"output":%d,"status":0}\n' % size for size in (1, 10**12))
    for number, head in enumerate([b"", *sizes]):

        def serve(stream):
            stream.sendall(head + b"x" * 65_536)
            while True:
                stream.sendall(b"x" * 65_536)

        with server(str(above / f"endless-{number}"), serve) as path:
            for asker in askers:
                start = time.monotonic()
                came = asker.ask({**asked("report"), "Socket": path})
                took = time.monotonic() - start
                want(f"{asker.name}, endless", came == refused("no replica", 3) and took < 60, head, came, took)


# ---- programs

def run_step(name, words, where, environment=None):
    """A step of a build or a test, which prints nothing if it passes. Whether it passes."""
    done = subprocess.run([str(word) for word in words], cwd=where, capture_output=True, text=True, timeout=6 * HANG,
                          env={**os.environ, **(environment or {})})
    right = done.returncode == 0 and not (name in ("gofmt", "packages") and done.stdout)
    want(name, right, (done.stdout + done.stderr)[-3_000:])
    print(f"{name}: {'passed' if right else 'failed'}")
    return right


def built_go(folder):
    """How each program in Go is called, by the name of the language; none if Go is not there."""
    if not can("go", "the client in Go"):
        return {}
    race = ["-race"] if can("cc", "the race detector of Go") else []
    go, packages, pure = BINDINGS / "go", ["./client", "./requests", "./watch"], {"CGO_ENABLED": "0"}
    others = "{{if not .Standard}}{{if ne .ImportPath \"fedbundle.example/fedbundle/client\"}}{{.}}{{end}}{{end}}"
    built = run_step("go build", ["go", "build", *race, "-o", f"{folder}/", "./requests", "./watch"], go)
    run_step("gofmt", ["gofmt", "-l", *packages], go)
    run_step("go vet", ["go", "vet", *packages], go, pure)
    run_step("packages", ["go", "list", "-deps", "-f", others, "./client"], go, pure)
    run_step("go test", ["go", "test", *race, "-count=1", "./client"], go)
    return {"Go": lambda name: [folder / name]} if built else {}


def laid_python(folder):
    """The same of Python. Its files are copied, so that another user can read them. -S leaves out all but its own library."""
    run_step("Python's tests", [sys.executable, "-BS", "-W", "error", "test_fedbundle_client.py"], BINDINGS / "python")
    names = {"requests": "client_requests.py", "watch": "watch.py"}
    for file in ("fedbundle_client.py", *names.values()):
        shutil.copy(BINDINGS / "python" / file, folder)
    # Another user may not reach the Python that runs this.
    python = shutil.which("python3", path="/usr/bin:/bin") or sys.executable
    return {"Python": lambda name: [python, "-BS", folder / names[name]]}


def main():
    program = find_program()
    with temporary() as name:
        above = Path(name)
        above.chmod(0o755)
        programs = {**built_go(above), **laid_python(above)}
        check_requests(program, programs, above)
        check_connections(program, programs, above)
        check_faults(program, programs, above)
        check_permission(program, programs, above)
        check_watch(program, programs, above)
        check_hostile(program, programs, above)
    want("each code", CODES <= codes, CODES - codes)
    print("\n".join([*failures[:40], f"{ran} comparisons, {len(codes)} codes, {len(failures)} failures"]))
    sys.exit(1 if failures else 0)


if __name__ == "__main__":
    main()

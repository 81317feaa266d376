"""The client against servers of its own, which reply what they are given. tests/clients.py runs it."""
import hashlib
import json
import socket
import tempfile
import threading
import time
import unittest
from pathlib import Path

import fedbundle_client as client
from fedbundle_client import Client, NextPoll, Poll, ReplicaError, Reply, parse_bundle

EXAMPLES = Path(__file__).resolve().parents[2] / "examples"
KEY = "00137aeb0271226a8ddfd5ba38adce9c8d4113fd83130a4ddbdc0df64a157fd2"
DONE = b'{"errors":0,"output":0,"status":0}\n'


def replied(output=b"", errors=b"", status=0):
    """A reply with these streams."""
    return b'{"errors":%d,"output":%d,"status":%d}\n%s%s' % (len(errors), len(output), status, output, errors)


def request(stream):
    """The arguments and the input of the next request, which may be the last thing that comes, but no more."""
    text = b""
    while b"\n" not in text:
        text += received(stream)
    line, _, data = text.partition(b"\n")
    said = json.loads(line)
    while len(data) < said["input"]:
        data += received(stream)
    if list(said) != ["input", "words"] or len(data) > said["input"]:
        raise ValueError(f"not a request: {text[:100]}")
    return said["words"], data


def received(stream):
    piece = stream.recv(1 << 20)
    if not piece:
        raise ValueError("no more comes")
    return piece


class Case(unittest.TestCase):
    def served(self, serve):
        """A client of a server that gives each connection to the function, and closes it."""
        folder = tempfile.TemporaryDirectory()
        listener = socket.socket(socket.AF_UNIX)
        listener.bind(f"{folder.name}/socket")
        listener.listen()
        threads = [threading.Thread(target=self.accept, args=(listener, serve))]
        threads[0].start()

        found = Client(f"{folder.name}/socket")

        def end():
            found.close()
            listener.shutdown(socket.SHUT_RDWR)
            threads[0].join()
            listener.close()
            folder.cleanup()

        self.addCleanup(end)
        return found

    @staticmethod
    def accept(listener, serve):
        threads = []
        while True:
            try:
                stream, _ = listener.accept()
            except OSError:
                break
            threads.append(threading.Thread(target=Case.answer, args=(stream, serve)))
            threads[-1].start()
        for thread in threads:
            thread.join()

    @staticmethod
    def answer(stream, serve):
        with stream:
            try:
                serve(stream)
            except (OSError, ValueError):
                pass

    def replying(self, reply):
        """A client of a server that gives each request the same reply."""

        def serve(stream):
            request(stream)
            stream.sendall(reply)

        return self.served(serve)

    def silent(self, head=b""):
        """The same of one that writes this, reads nothing, and keeps the connection open."""
        over = threading.Event()

        def serve(stream):
            stream.sendall(head)
            over.wait()

        found = self.served(serve)
        self.addCleanup(over.set)
        return found

    def fails(self, code, status, call, *arguments, **options):
        with self.assertRaises(ReplicaError) as caught:
            call(*arguments, **options)
        self.assertEqual((code, status), (caught.exception.code, caught.exception.status))
        return caught.exception

    def quick(self, start):
        self.assertLess(time.monotonic() - start, 5)


class Requests(Case):
    def test_what_is_sent(self):
        """By MODEL.md and the command's options."""
        polls = [Poll("a.example", True, 5), Poll("b.example", False, -7)]
        observed = ["observe", "--domain=a.example", "--endpoint=spiffe://x/y", f"--key={KEY}"]
        distrust = ["distrust", "--domain=a.example", f"--key={KEY}"]
        rows = [
            ("status", (), ["status", "--format=json"], b""),
            ("metrics", (), ["status", "--format=prometheus"], b""),
            ("report", (), ["report"], b""),
            ("list", (), ["list", "--format=json"], b""),
            ("list_keys", ("a.example",), ["list", "--keys", "--format=json", "--domain=a.example"], b""),
            ("graph", (), ["graph"], b""),
            ("graph", ("a.example",), ["graph", "--domain=a.example"], b""),
            ("bundle", ("a.example",), ["bundle", "--domain=a.example"], b""),
            ("bundle", ('-"\\é<',), ["bundle", '--domain=-"\\é<'], b""),
            ("bundle_pem", ("a.example",), ["bundle", "--domain=a.example", "--format=pem"], b""),
            ("explain", ("a.example", b"{}"), ["explain", "--domain=a.example"], b"{}"),
            ("explain_short", ("a.example", b"{}"), ["explain", "--domain=a.example", "--short"], b"{}"),
            ("polls", (-5, polls), ["polls", "--now=-5"], b"a.example ok 5\nb.example fail -7\n"),
            ("observe", ("a.example", "spiffe://x/y", KEY, b"{}"), observed, b"{}"),
            ("merge", (b"snapshot\n",), ["merge"], b"snapshot\n"),
            ("distrust", ("a.example", KEY), distrust, b""),
            ("distrust_unknown", ("a.example", KEY), [*distrust, "--unknown-key"], b""),
            ("distrust_verbose", ("a.example", KEY), [*distrust, "--verbose"], b""),
            ("distrust_dry_run", ("a.example", KEY), [*distrust, "--dry-run"], b""),
            ("stop", (), ["stop"], b""),
            ("version", (), ["--version"], b""),
        ]
        seen = []

        def serve(stream):
            seen.append(request(stream))
            stream.sendall(replied(b"", b"fedbundle: O4 KeyNotInCurrent\n", 1))

        asked = self.served(serve)
        for name, arguments, words, data in rows:
            self.fails("O4", 1, getattr(asked, name), *arguments)
            self.assertEqual((words, data), seen.pop())
        self.fails("O4", 1, asked.merge, b"", most_bytes=7)
        self.assertEqual((["merge", "--most-bytes=7"], b""), seen.pop())
        self.assertEqual(Reply(b"", b"fedbundle: O4 KeyNotInCurrent\n", 1), asked.ask([], b"x"))
        self.assertEqual(([], b"x"), seen.pop())

    def test_refusals(self):
        for errors, status, code, text in [
            (b"fedbundle: O5 Document B2 NotJson\n", 1, "O5", "O5 Document B2 NotJson"),
            (b"fedbundle: no current bundle\n", 1, client.NO_BUNDLE, "no current bundle"),
            (b"fedbundle: read only\n", 1, client.READ_ONLY, "read only"),
            (b"fedbundle: usage\n", 2, client.USAGE, "usage"),
            (b"error: unexpected argument\n\nUsage: x\n", 2, client.USAGE, "error: unexpected argument\n\nUsage: x"),
            (b"fedbundle: E2 NoMemory\n", 4, "E2", "E2 NoMemory"),
            (b"", 7, "status 7", "status 7"),
        ]:
            found = self.fails(code, status, self.replying(replied(b"", errors, status)).report)
            self.assertEqual((text, text, ""), (found.text, str(found), found.reason))
        refusing = self.replying(replied(b"", b"fedbundle: too many requests\n", 1))
        self.fails(client.TOO_MANY_REQUESTS, 1, refusing.status)

    def test_paths(self):
        with tempfile.TemporaryDirectory() as folder:
            file = Path(folder) / "file"
            file.touch()
            for path, code, status in [
                ("", client.USAGE, 2), ("a\0b", client.USAGE, 2), ("\0abstract", client.USAGE, 2),
                ("\ud800", client.USAGE, 2), ("/" + "x" * 107, client.IO, 3), ("/" + "x" * 106, client.NO_REPLICA, 3),
                (file, client.NO_REPLICA, 3),
                (folder, client.NO_REPLICA, 3), (f"{folder}/none".encode(), client.NO_REPLICA, 3),
            ]:
                self.fails(code, status, Client(path).report)

    def test_arguments_that_are_not_text(self):
        self.fails(client.USAGE, 2, Client("socket").bundle, "\udcff")
        self.fails(client.USAGE, 2, Client("socket").polls, 5, [Poll("a ok 5\nb", True, 5)])
        self.fails(client.USAGE, 2, Client("socket").polls, 5, [Poll("\udcff", True, 5)])

    def test_many_threads(self):
        def serve(stream):
            words, data = request(stream)
            stream.sendall(replied(words[0].encode() + data))

        asked, seen = self.served(serve), []
        threads = [
            threading.Thread(target=lambda name=str(name): seen.append(asked.ask([name], name.encode()).output.decode()))
            for name in range(32)
        ]
        for thread in threads:
            thread.start()
        for thread in threads:
            thread.join()
        self.assertEqual(sorted(2 * str(name) for name in range(32)), sorted(seen))


STATUS = {
    "config": "c1", "receipts": 6, "receipt_limit": 65536, "pending": 1, "record_limit": 4096, "records": 2,
    "domains": [
        {"domain": "a", "current": {"id": "d1", "sequence": 2**64 - 1, "refresh_hint": None, "keys": [
            {"id": "k1", "distrusted": True}]}, "accepted": 3, "conflicts": 1},
        {"domain": "b", "current": None, "accepted": 0, "conflicts": 0},
    ],
    "keyless_seeds": [{"domain": "b", "id": "d2"}], "warning": True, "snapshot_bytes": 115, "journal_bytes": 89,
    "peers": [
        {"peer": "127.0.0.1:1", "ended_well": 5, "fault": None, "receipts": 7},
        {"peer": "127.0.0.1:2", "ended_well": None, "fault": "S9", "receipts": 0},
    ],
    "warnings": [
        {"kind": "no-current", "domain": "b"}, {"kind": "expires", "domain": "a", "key": "k1", "not_after": -1},
        {"kind": "quiet-peer", "peer": "127.0.0.1:2", "since": 9},
        {"kind": "nearly-full", "what": "receipts", "held": 60000},
    ],
}


class Answers(Case):
    def test_status(self):
        found = self.replying(replied(json.dumps(STATUS).encode() + b"\n", b"", 1)).status()
        first, second = found.domains
        self.assertEqual(("c1", 6, 65536, 1, 4096, 2, True, 115, 89), (
            found.config, found.receipts, found.receipt_limit, found.pending, found.record_limit, found.records,
            found.warning, found.snapshot_bytes, found.journal_bytes))
        self.assertEqual(client.CurrentBundle("d1", 2**64 - 1, None, (client.KeyStatus("k1", True),)), first.current)
        self.assertEqual(("a", 3, 1), (first.domain, first.accepted, first.conflicts))
        self.assertEqual(client.DomainStatus("b", None, 0, 0), second)
        self.assertEqual((client.KeylessSeed("b", "d2"),), found.keyless_seeds)
        peers = (client.PeerStatus("127.0.0.1:1", 5, None, 7), client.PeerStatus("127.0.0.1:2", None, "S9", 0))
        self.assertEqual(peers, found.peers)
        warnings = tuple(client.StatusWarning(**one) for one in STATUS["warnings"])
        self.assertEqual(warnings, found.warnings)
        self.assertIsNone(found.previous)

    def test_status_between_configurations(self):
        peers = [{"peer": "127.0.0.1:1", "asked": "next"}, {"peer": "127.0.0.1:2", "asked": None}]
        previous = {"config": "c0", "used": 5, "peers": peers}
        found = self.replying(replied(json.dumps({**STATUS, "previous": previous}).encode())).status()
        asked = (client.AskedPeer("127.0.0.1:1", "next"), client.AskedPeer("127.0.0.1:2", None))
        self.assertEqual(client.PreviousStatus("c0", 5, asked), found.previous)
        for wrong in ("x", -1, [1], {**previous, "config": None}, {**previous, "used": "x"}, {**previous, "peers": None}):
            text = json.dumps({**STATUS, "previous": wrong}).encode()
            self.fails(client.BAD_REPLY, 3, self.replying(replied(text)).status)

    def test_members_of_the_status(self):
        """A member that is missing, or of another kind, is not read."""
        for name in STATUS:
            for wrong in (None, "x", -1, [1], 1.5):
                text = json.dumps({**STATUS, name: wrong}).encode()
                if (name, wrong) != ("config", "x"):
                    self.fails(client.BAD_REPLY, 3, self.replying(replied(text)).status)

    def test_receipts(self):
        line = (EXAMPLES / "receipts.jsonl").read_bytes().splitlines()[0]
        found = self.replying(replied(line + b"\n")).observe("a.example", "", "", b"")
        said = json.loads(line)
        self.assertEqual(line, found.line)
        self.assertEqual([said["domain"], said["endpoint"], said["key"], said["voucher"]],
                         [found.domain, found.endpoint, found.key, found.voucher])
        self.assertEqual(said["doc"], json.loads(found.document))
        self.assertIn(b'{"doc":' + found.document + b',"domain":', line)
        self.assertEqual([found, found], self.replying(replied((line + b"\n") * 2)).explain("a.example", b""))
        self.assertEqual([], self.replying(DONE).explain("a.example", b""))

    def test_lists(self):
        receipt = {"receipt": "r", "domain": "a", "sequence": 4, "document": "d", "endpoint": "e", "key": "k",
                   "voucher": "v", "status": "accepted"}
        text = {"receipts": [receipt, {**receipt, "sequence": None}], "records": [{"distrust": "k", "domain": "b"}]}
        found = self.replying(replied(json.dumps(text).encode())).list()
        first = client.HeldReceipt("r", "a", 4, "d", "e", "k", "v", "accepted")
        second = client.HeldReceipt("r", "a", None, "d", "e", "k", "v", "accepted")
        self.assertEqual(client.Held((first, second), (client.Record("k", "b"),)), found)
        key = {"key": "k", "domain": "a", "public_key": "p", "not_before": -1, "not_after": 5, "distrusted": True,
               "same_public_key": False, "bundles": ["d"]}
        unread = {**key, "public_key": None, "not_before": None, "not_after": None, "valid_from": None, "subject": None}
        named = {**key, "valid_from": "f", "valid_until": "u", "subject": ""}
        found = self.replying(replied(json.dumps({"keys": [key, unread, named]}).encode())).list_keys()
        self.assertEqual([client.KnownKey("k", "a", "p", -1, 5, True, False, ("d",)),
                          client.KnownKey("k", "a", None, None, None, True, False, ("d",)),
                          client.KnownKey("k", "a", "p", -1, 5, True, False, ("d",), "f", "u", "")], found)
        for wrong in (b"{}", b"[]", b"x", b'{"receipts":[]}', b'{"keys":null}', b'{"keys":1,"receipts":1}',
                      json.dumps({"keys": [{**key, "bundles": [1]}]}).encode(),
                      json.dumps({"keys": [{**key, "subject": 1}]}).encode()):
            asked = self.replying(replied(wrong))
            self.fails(client.BAD_REPLY, 3, asked.list)
            self.fails(client.BAD_REPLY, 3, asked.list_keys)

    def test_lines(self):
        text = b"a due\nb 1764057600\nc past range\nd -7\n"
        wanted = [NextPoll("a", True, None), NextPoll("b", False, 1764057600), NextPoll("c", False, None),
                  NextPoll("d", False, -7)]
        self.assertEqual(wanted, self.replying(replied(text)).polls(5, []))
        self.assertEqual(12, self.replying(replied(b"new 12\n")).merge(b""))
        told = self.replying(replied(b"", b"loses a key k\nlocked-out a\n")).distrust_verbose("a", KEY)
        self.assertEqual(["loses a key k", "locked-out a"], told)

    def test_bundles(self):
        for domain in ("a.example", "b.example"):
            document, *ids = (EXAMPLES / f"{domain}.canon").read_bytes().splitlines()
            found = parse_bundle(domain, document)
            self.assertEqual((f"id {found.id}", 300), (ids[0].decode(), found.refresh_hint))
            keys = [f"key {hashlib.sha256(der).hexdigest()}" for der in found.x509_authorities]
            self.assertEqual([line.decode() for line in ids[1:]], keys)
        found = parse_bundle("a", b'{"keys":[]}')
        self.assertEqual((None, None, ()), (found.sequence, found.refresh_hint, found.x509_authorities))
        for text in [
            b"", b"[", b"{}", b"[]", b'{"keys":1}', b'{"keys":[1]}', b'{"keys":[{"use":"x509-svid"}]}',
            b'{"keys":[{"use":"x509-svid","x5c":["?"]}]}', b'{"keys":[{"use":"x509-svid","x5c":["AAAA","AAAA"]}]}',
            b'{"keys":[],"spiffe_sequence":1.5}', b'{"keys":[],"spiffe_sequence":true}', b"\xff", b"[" * 100_000,
        ]:
            self.fails(client.BAD_REPLY, 3, parse_bundle, "a", text)

    def test_wrong_answers(self):
        for output in (b"", b"\n", b"x\ny\n", b"x", b"{}\n", b"[]\n", b'{"doc":{}}\n', b"\xff\n", b"new 1.5\n", b"a\n"):
            asked = self.replying(replied(output))
            self.fails(client.BAD_REPLY, 3, asked.observe, "a", "b", "c", b"")
            self.fails(client.BAD_REPLY, 3, asked.merge, b"")
            if output:
                self.fails(client.BAD_REPLY, 3, asked.status)
                self.fails(client.BAD_REPLY, 3, asked.polls, 5, [])


class Servers(Case):
    def test_cut_replies(self):
        whole = replied(b"output\n", b"errors\n")
        for length in range(len(whole)):
            self.fails(client.NO_REPLICA, 3, self.replying(whole[:length]).report)

    def test_first_lines(self):
        for reply in [
            b"\n", b"x\n", b"[]\n", b"{}\n", b"null\n", b'{"errors":0,"output":0}\n', b"\xff\n", DONE + b"x",
            b'{"errors":0,"output":0,"status":256}\n', b'{"errors":-1,"output":0,"status":0}\n',
            b'{"errors":0,"output":1.0,"status":0}\nx', b'{"errors":0,"output":"0","status":0}\n',
            b'{"errors":0,"output":true,"status":0}\nx', b'{"errors":0,"output":NaN,"status":0}\n',
            b'{"errors":0,"output":536870913,"status":0}\n', b'{"errors":%d,"output":0,"status":0}\n' % 2**64,
            b'{"errors":0,"output":' + b"9" * 60_000 + b',"status":0}\n', b" " * 65_536 + DONE, b"[" * 65_535 + b"\n",
            b"x" * (1 << 20),
        ]:
            self.fails(client.NO_REPLICA, 3, self.replying(reply).report)

    def counted(self, reply, most=1 << 30):
        """A client of a server that answers so many requests on each connection, and a list of what came on each."""
        connections = []

        def serve(stream):
            connections.append([])
            for _ in range(most):
                connections[-1].append(request(stream))
                reply(stream, connections[-1][-1][0][0])

        return self.served(serve), connections

    def test_one_connection(self):
        """It is kept for the next request, also if a reply comes in pieces, and not after `close`."""

        def in_pieces(stream, word):
            for byte in replied(word.encode(), b"errors"):
                stream.sendall(bytes([byte]))

        asked, connections = self.counted(in_pieces)
        with asked:
            for number in range(20):
                self.assertEqual(Reply(b"%d" % number, b"errors", 0), asked.ask([str(number)], b"x" * number))
            self.assertEqual([[([str(number)], b"x" * number) for number in range(20)]], connections)
        self.assertEqual(b"21", asked.ask(["21"]).output)
        self.assertEqual(2, len(connections))
        asked.close()

    def test_ended_connection(self):
        """A request is made once more if the connection that was kept ends without a byte of the reply."""
        ended = []

        def reply(stream, word):
            if word == "end" and not ended:
                ended.append(word)
                raise ValueError("the replica ends")
            stream.sendall(replied(word.encode()))

        asked, connections = self.counted(reply)
        self.assertEqual(b"one", asked.ask(["one"]).output)
        self.assertEqual(b"end", asked.ask(["end"]).output)
        self.assertEqual([["one", "end"], ["end"]], [[words[0] for words, _ in one] for one in connections])
        # It was ended after the last reply, and that is seen before anything is sent.
        asked, connections = self.counted(reply, 1)
        for number in range(5):
            self.assertEqual(b"%d" % number, asked.ask([str(number)]).output)
        self.assertEqual([[str(number)] for number in range(5)], [[words[0] for words, _ in one] for one in connections])

    def test_not_made_again(self):
        """A request on a new connection, one with a byte of its reply, and `stop`."""

        def reply(stream, word):
            if word == "cut":
                stream.sendall(b"{")
            if word != "one":
                raise ValueError("the replica ends")
            stream.sendall(replied(b"1"))

        asked, connections = self.counted(reply)
        self.fails(client.NO_REPLICA, 3, asked.ask, ["none"])
        for word in ("cut", "stop"):
            asked.ask(["one"])
            self.fails(client.NO_REPLICA, 3, asked.ask, [word])
        self.assertEqual(
            [["none"], ["one", "cut"], ["one"], ["stop"]], [[words[0] for words, _ in one] for one in connections])

    def test_unasked_bytes(self):
        """What a server sends unasked is not taken for the next reply."""
        sent = threading.Event()

        def reply(stream, word):
            stream.sendall(replied(word.encode()))
            time.sleep(0.05)
            stream.sendall(replied(b"unasked"))
            sent.set()

        asked, connections = self.counted(reply)
        self.assertEqual(b"one", asked.ask(["one"]).output)
        sent.wait(5)
        self.assertEqual(b"two", asked.ask(["two"]).output)
        self.assertEqual(2, len(connections))

    def test_most_reply_bytes(self):
        asked = self.replying(replied(b"12345", b"67"))
        asked.most_reply_bytes = 6
        self.fails(client.NO_REPLICA, 3, asked.report)
        asked.most_reply_bytes = 7
        self.assertEqual(b"12345", asked.report())

    def test_endless_replies(self):
        """They are left once more came than the first line says."""
        for head in (b"", replied(b"ab")):

            def serve(stream, head=head):
                stream.sendall(head + b"x" * 65_536)
                while True:
                    stream.sendall(b"x" * 65_536)

            self.fails(client.NO_REPLICA, 3, self.served(serve).report)

    def test_refused_input(self):
        """A refusal that comes before the whole input was read is the answer, although the connection then breaks."""

        def serve(stream):
            stream.recv(10)
            stream.sendall(replied(b"", b"fedbundle: input too long\n", 1))

        self.fails("input too long", 1, self.served(serve).merge, bytes(16 << 20))

    def test_time_limits(self):
        start = time.monotonic()
        for head in (b"", b"{", DONE[:-1], replied(b"ab")[:-1]):
            self.fails(client.NO_REPLY, 3, self.silent(head).report, timeout=0.05)
        self.assertEqual(b"ab", self.silent(replied(b"ab")).report(timeout=5))
        asked = self.silent()
        asked.timeout = 0.05
        found = self.fails(client.NO_REPLY, 3, asked.report)
        self.assertEqual("no reply: the time is over", str(found))
        self.fails(client.NO_REPLY, 3, asked.merge, bytes(16 << 20))
        self.quick(start)

    def test_full_socket(self):
        with tempfile.TemporaryDirectory() as folder, socket.socket(socket.AF_UNIX) as listener:
            listener.bind(f"{folder}/socket")
            listener.listen(0)
            waiting = socket.socket(socket.AF_UNIX)
            waiting.connect(f"{folder}/socket")
            asked = Client(f"{folder}/socket")
            self.fails(client.NO_REPLY, 3, asked.report, timeout=0.1)

            def free():
                time.sleep(0.05)
                waiting.close()
                listener.accept()[0].close()
                stream, _ = listener.accept()
                with stream:
                    request(stream)
                    stream.sendall(replied(b"late"))

            thread = threading.Thread(target=free)
            thread.start()
            self.assertEqual(b"late", asked.report())
            thread.join()


class Changing:
    """A replica whose bundles change: the current document of each trust domain, which is empty if it has none, and ids
    that it tells instead of theirs."""

    def __init__(self, current, older=None):
        self.current, self.older, self.away = current, older or {}, False

    def serve(self, stream):
        words, _ = request(stream)
        if self.away:
            return
        if words[0] == "status":
            domains = [self.domain(*one) for one in self.current.items()]
            stream.sendall(replied(json.dumps({**STATUS, "domains": domains}).encode()))
            return
        document = self.current[words[1][len("--domain="):]]
        refusal = replied(b"", b"fedbundle: no current bundle\n", 1)
        stream.sendall(replied(document + b"\n") if document else refusal)

    def domain(self, name, document):
        found = self.older.get(name, hashlib.sha256(name.encode() + b"\n" + document).hexdigest() if document else None)
        current = found and {"id": found, "sequence": None, "refresh_hint": None, "keys": []}
        return {"domain": name, "current": current, "accepted": 0, "conflicts": 0}


class Watches(Case):
    def watched(self, replica, *domains):
        watch = self.served(replica.serve).watch(0.001, domains)
        self.addCleanup(watch.cancel)
        return watch

    def gives(self, watch, domain, document):
        """The next update that is not an error of the whole replica."""
        update = next(one for one in watch if one.domain)
        given = update.bundle and update.bundle.document
        self.assertEqual((domain, document, None), (update.domain, given, update.error))

    def test_changes(self):
        first, second = b'{"keys":[],"spiffe_sequence":1}', b'{"keys":[],"spiffe_sequence":2}'
        replica = Changing({"a": first, "b": first, "c": b""})
        watch = self.watched(replica)
        for domain, document in [("a", first), ("b", first), ("c", None)]:
            self.gives(watch, domain, document)
        for domain, document in [("b", second), ("b", first), ("b", b""), ("c", second)]:
            replica.current = {**replica.current, domain: document}
            self.gives(watch, domain, document or None)
        replica.current = {"b": b"", "c": second}
        self.gives(watch, "a", None)
        watch.cancel()
        self.assertEqual([], list(watch))

    def test_named_domains(self):
        replica = Changing({"a": b'{"keys":[]}', "b": b'{"keys":[]}'})
        watch = self.watched(replica, "x", "b")
        self.gives(watch, "x", None)
        self.gives(watch, "b", b'{"keys":[]}')
        replica.current = {"a": b"", "b": b""}
        self.gives(watch, "b", None)

    def test_replica_that_is_away(self):
        """Each poll gives an error, and then only what has changed comes."""
        replica = Changing({"a": b'{"keys":[]}', "b": b'{"keys":[]}'})
        watch = self.watched(replica)
        self.gives(watch, "a", b'{"keys":[]}')
        self.gives(watch, "b", b'{"keys":[]}')
        replica.away = True
        for _ in range(3):
            self.assertEqual(client.NO_REPLICA, next(watch).error.code)
        replica.current, replica.away = {"a": b'{"keys":[]}', "b": b""}, False
        self.gives(watch, "b", None)

    def test_bad_bundle(self):
        """It is an error at each poll, and the others come."""
        watch = self.watched(Changing({"a": b'{"keys":1}', "b": b'{"keys":[]}'}))
        first, second, third = next(watch), next(watch), next(watch)
        self.assertEqual([("a", client.BAD_REPLY)] * 2, [(one.domain, one.error.code) for one in (first, third)])
        self.assertEqual(("b", b'{"keys":[]}'), (second.domain, second.bundle.document))

    def test_older_status(self):
        """The bundle is given once, and one that has gone since is none."""
        replica = Changing({"a": b'{"keys":[]}', "b": b"", "c": b""}, {"a": "1", "b": "2"})
        watch = self.watched(replica)
        for domain, document in [("a", b'{"keys":[]}'), ("b", None), ("c", None)]:
            self.gives(watch, domain, document)
        threading.Timer(0.05, watch.cancel).start()
        self.assertEqual([], list(watch))

    def test_cancelled(self):
        """Within a request that is not answered, and between two polls."""
        for asked in (self.silent(), self.served(Changing({}).serve)):
            start = time.monotonic()
            with asked.watch() as watch:
                threading.Timer(0.05, watch.cancel).start()
                self.assertEqual([], list(watch))
            self.quick(start)


if __name__ == "__main__":
    unittest.main()

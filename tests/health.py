#!/usr/bin/env python3
"""Runs replicas with an address of health, and looks at what is served there, as clients, Prometheus and a browser see it.

- texts: tools/page.py wrote the page's files into the program, and they use nothing that puts texts in as HTML; each kind of
  warning has an alert and words on the page, and each metric that a rule or the dashboard names is one that is served.
- rules: promtool reads the rules, raises each alert in the cases of prometheus-rules.test.yml, and in others does not.
- paths: each path by curl, against what the command prints at the same time: GET and HEAD, status, fields, length. /ready of a
  replica without peers, with one that answers, and with one that was quiet for longer than it may be.
- bad: requests that are wrong in some seventy ways. Each gets one response with an error, or a close, and the replica answers
  the next one. Odd ones that may be answered get at most one response.
- hosts: which hosts are let in: addresses, localhost and those of --health-host; a page of another site is not.
- slow: seventeen clients that send a byte a second, and forty that send nothing, do not make a `bundle --at` wait.
- prometheus: `prometheus` scrapes two replicas for half a minute: values, rules, and each query of the dashboard.
- page: Chromium shows what `status`, `list --keys` and `report` print, and what is observed meanwhile, under the policy, in a
  wide and in a narrow window, in the light and in the dark; contrast, tables and headings; what it says when the replica is
  gone, and without JavaScript.

It needs python3, openssl and curl, and for some parts Debian's prometheus and chromium: what is not there leaves out a part, as
a line says. The program is the one that ./fedbundle runs, or the one that $FEDBUNDLE names.

usage: health [--stand-in] [--pictures FOLDER] [PART..]
    --stand-in     in the place of the replica's address, one that serves what the commands print
    --pictures     keeps four pictures of the page there
    the status is 1 if something is not so
"""
import argparse
import base64
import functools
import hashlib
import json
import re
import socket
import struct
import subprocess
import sys
import threading
import time
import urllib.parse
import urllib.request
from collections import Counter
from concurrent.futures import ThreadPoolExecutor
from pathlib import Path

sys.dont_write_bytecode = True
sys.path.insert(0, str(Path(__file__).resolve().parent / "lib"))
from browser import Browser, find_browser  # noqa: E402
from harness import HANG, TOP, find_program, listener_of_own, temporary  # noqa: E402
from needs import has, left_out, why_not  # noqa: E402
from watched_replica import EXAMPLES, WatchedReplica, has_health, has_names, receipts_of_examples  # noqa: E402

RULES = TOP / "deploy/prometheus-rules.yml"
CASES = TOP / "tests/prometheus-rules.test.yml"
DASHBOARD = TOP / "deploy/grafana-dashboard.json"
POLICY = ("default-src 'none'; script-src 'self'; style-src 'self'; connect-src 'self'; base-uri 'none'; "
          "form-action 'none'; frame-ancestors 'none'")
# A replica has these only if it is started with --previous. The rows of tests/rows/cases/rows/view have them.
PREVIOUS = {"fedbundle_previous_config_info", "fedbundle_previous_config_used_timestamp_seconds", "fedbundle_peer_asked_previous"}
GREATEST = 2**64 - 1
SLOWEST = 0.25
reported = 0


class Lacking(Exception):
    """What the machine lacks."""


def check(is_so, what, *seen):
    global reported
    told = "" if is_so else f": {', '.join(repr(one)[:600] for one in seen)}"
    print(f"{'ok:      ' if is_so else 'differs: '}{what}{told}", flush=True)
    reported += not is_so


def need(*names):
    for name in names:
        if not has(name):
            raise Lacking(why_not(name))


# ---- two replicas

def openssl(*words, given=None):
    return subprocess.run(["openssl", *words], input=given, capture_output=True, check=True).stdout


def base64url(content):
    return base64.urlsafe_b64encode(content).rstrip(b"=").decode()


class Authority:
    """A key of a domain, and certificates of it."""

    def __init__(self, domain):
        self.domain = domain
        self.key = openssl("genpkey", "-algorithm", "EC", "-pkeyopt", "ec_paramgen_curve:P-256")
        self.point = openssl("pkey", "-pubout", "-outform", "DER", given=self.key)[-64:]

    def certificate(self, days):
        words = ["req", "-x509", "-new", "-key", "/dev/stdin", "-days", str(days), "-subj", f"/CN={self.domain}",
                 "-addext", f"subjectAltName=URI:spiffe://{self.domain}", "-outform", "DER"]
        return openssl(*words, given=self.key)

    def element(self, der):
        return {"kty": "EC", "use": "x509-svid", "crv": "P-256", "x": base64url(self.point[:32]), "y": base64url(self.point[32:]),
                "x5c": [base64.b64encode(der).decode()]}


def sha256(content):
    return hashlib.sha256(content).hexdigest()


class Scene:
    """Two replicas of one configuration. It has the domains of examples/, of which a.example is in conflict; c.example, which
    has no bundle; and d.example, whose sequence is the greatest. A bundle of a.example comes with two certificates of one key:
    one that ends in three days, and one that is distrusted."""

    def __init__(self, folder, has_stand_in):
        self.config = json.loads((EXAMPLES / "config.json").read_text())
        big = Authority("d.example")
        for domain in ("c.example", "d.example"):
            self.config["relationships"].append({"domain": domain, "url": f"https://{domain}/", "profile": "https_spiffe",
                                                 "endpoint": f"spiffe://{domain}/spire/server"})
        self.config["seeds"].append({"domain": "d.example", "bundle": {"keys": [big.element(big.certificate(400))],
                                                                      "spiffe_sequence": GREATEST}})
        receipts = receipts_of_examples()
        program, make = find_program(), functools.partial(WatchedReplica, has_stand_in=has_stand_in)
        listener, port = listener_of_own()
        listener.close()
        spare, nobody = listener_of_own()
        spare.close()
        names = ["--health-host", NAMED] if has_names(program) and not has_stand_in else []
        self.two = make(program, folder / "two", self.config, words=["--listen", f"127.0.0.1:{port}", *names])
        peers = f"127.0.0.1:{port},127.0.0.1:{nobody}"
        self.one = make(program, folder / "one", self.config, receipts, ["--peers", peers, "--every", "3"])
        self.alone = make(program, folder / "alone", self.config, words=["--peers", f"127.0.0.1:{nobody}"], quiet=2)
        self.last = max((json.loads(line)["doc"] for line in receipts if json.loads(line)["domain"] == "a.example"),
                        key=lambda bundle: bundle["spiffe_sequence"])
        self.authority = Authority("a.example")
        self.soon, self.stolen = self.authority.certificate(3), self.authority.certificate(300)

    def __enter__(self):
        for replica in (self.two, self.one, self.alone):
            replica.__enter__()
        self.observe(6, self.soon, self.stolen)
        self.one.at("distrust", "--domain", "a.example", "--key", sha256(self.stolen))
        end = time.monotonic() + HANG
        while self.one.status()["peers"][0]["ended_well"] is None and time.monotonic() < end:
            time.sleep(0.1)
        return self

    def __exit__(self, *_):
        for replica in (self.alone, self.one, self.two):
            replica.__exit__()

    def observe(self, sequence, *certificates):
        """The next bundle of a.example, with the keys that it had and these."""
        keys = [*self.last["keys"], *map(self.authority.element, certificates)]
        der = next(base64.b64decode(key["x5c"][0]) for key in self.last["keys"] if key["use"] == "x509-svid")
        vouching = next(key["id"] for key in self.current("a.example")["keys"] if key["id"] == sha256(der))
        words = ["observe", "--domain", "a.example", "--endpoint", "spiffe://a.example/spire/server", "--key", vouching]
        bundle = {"keys": keys, "spiffe_sequence": sequence, "spiffe_refresh_hint": 600}
        self.one.at(*words, given=json.dumps(bundle).encode())

    def current(self, domain):
        return next(one["current"] for one in self.one.status()["domains"] if one["domain"] == domain)


# ---- requests

class Reply:
    """The response of an address, whole, as curl or a socket got it."""

    def __init__(self, content):
        head, _, self.body = content.partition(b"\r\n\r\n")
        first, *lines = head.decode("latin-1").split("\r\n")
        self.version, self.status = first.split(" ")[0], int(first.split(" ")[1])
        self.fields = [(name.lower(), value.strip()) for name, _, value in (line.partition(":") for line in lines)]

    def of(self, name):
        return [value for key, value in self.fields if key == name]


def curl(address, path, *words):
    ran = subprocess.run(["curl", "-sS", "-i", "--max-time", str(HANG), "--path-as-is", "--noproxy", "*", *words, f"http://{address}{path}"],
                         capture_output=True)
    if ran.returncode:
        raise OSError(f"curl {path}: {ran.stderr.decode()}")
    return Reply(ran.stdout)


def head_of(replica, path):
    """The response to HEAD, with all that comes: curl would leave a body unread."""
    return Reply(reply_to(replica, f"HEAD {path} HTTP/1.1\r\nHost: {replica.address}\r\n\r\n".encode()))


def is_answering(replica):
    try:
        return curl(replica.address, "/live").status == 200
    except OSError:
        return False


def look_at_fields(path, reply, kind):
    """The fields that each response has, each once."""
    wanted = {"connection": "close", "content-length": str(len(reply.body)), "x-content-type-options": "nosniff",
              "cross-origin-resource-policy": "same-origin", "cache-control": "no-store"}
    seen = {name: reply.of(name) for name in wanted}
    check(seen == {name: [value] for name, value in wanted.items()}, f"{path}: fields", reply.fields)
    check(reply.version == "HTTP/1.1" and not reply.of("transfer-encoding"), f"{path}: version", reply.version)
    check(len(reply.of("content-type")) == 1 and re.fullmatch(kind, reply.of("content-type")[0]) is not None, f"{path}: type",
          reply.of("content-type"))
    if path == "/":
        check(reply.of("content-security-policy") == [POLICY], f"{path}: policy", reply.of("content-security-policy"))


TEXT, JSON = r"text/plain(; ?charset=utf-8)?", r"application/json(; ?charset=utf-8)?"
METRICS = r"text/plain; ?version=0\.0\.4(; ?charset=utf-8)?"
GRAPH = r"text/(plain|vnd\.graphviz)(; ?charset=utf-8)?"


def paths(replica):
    """Each path, with the function that says what it serves, and its type."""
    def web(name):
        return lambda: (TOP / "web" / name).read_bytes()
    yield "/", web("index.html"), r"text/html; ?charset=utf-8"
    yield "/page.css", web("page.css"), r"text/css; ?charset=utf-8"
    yield "/page.js", web("page.js"), r"text/javascript; ?charset=utf-8"
    yield "/metrics", lambda: replica.at("status", "--format", "prometheus"), METRICS
    yield "/status.json", lambda: replica.at("status", "--format", "json"), JSON
    yield "/report.json", lambda: replica.shown("report", "--format", "json"), JSON
    yield "/keys.json", lambda: replica.shown("list", "--keys", "--format", "json"), JSON
    yield "/graph.dot", lambda: replica.shown("graph"), GRAPH
    for domain in ("a.example", "b.example", "c.example", "d.example"):
        yield f"/graph.dot?domain={domain}", functools.partial(replica.shown, "graph", "--domain", domain), GRAPH


def is_served(path, body, printed):
    """Whether a body is what the command prints. Metrics also have what only the loop of the replica counts."""
    if path != "/metrics":
        return body == printed
    lines = body.replace(printed, b"", 1).splitlines()
    return printed in body and all(re.match(rb"(# (HELP|TYPE) )?fedbundle_loop_\w+[ {]", line) for line in lines)


def look_at_path(replica, path, wanted, kind):
    """What is printed may change in between, so it is asked before and after, and a few times."""
    for _ in range(5):
        before, reply, after = wanted(), curl(replica.address, path), wanted()
        is_so = is_served(path, reply.body, before) or is_served(path, reply.body, after)
        if is_so:
            break
    check(reply.status == 200 and is_so, f"{path}: what the command prints", reply.status, reply.body)
    look_at_fields(path, reply, kind)
    head = head_of(replica, path)
    lengths = [int(value) for value in head.of("content-length")]
    same = [{name: reply.of(name) for name, _ in reply.fields if name not in ("content-length", "date")} for reply in (head, reply)]
    check(head.status == 200 and head.body == b"" and same[0] == same[1] and len(lengths) == 1 and abs(lengths[0] - len(reply.body)) < 99,
          f"{path}: HEAD has the same fields and no body", head.fields, head.body)


def look_at_paths(scene, room):
    need("curl")
    for path, wanted, kind in paths(scene.one):
        look_at_path(scene.one, path, wanted, kind)
    time.sleep(3)
    for replica, name, live, ready in [(scene.one, "with a peer that answers", 200, 200), (scene.two, "without peers", 200, 200),
                                       (scene.alone, "whose peers are quiet", 200, 503)]:
        for path, wanted in (("/live", live), ("/ready", ready)):
            reply = curl(replica.address, path)
            check(reply.status == wanted, f"{path} of a replica {name}: {wanted}", reply.status, reply.body)
            look_at_fields(path, reply, TEXT)
            head = head_of(replica, path)
            check(head.status == wanted and not head.body, f"{path} of a replica {name}: HEAD", head.status, head.body)
    reply = curl(scene.one.address, "/nothing")
    check(reply.status == 404, "/nothing: 404", reply.status)
    look_at_fields("/nothing", reply, TEXT)
    reply = curl(scene.one.address, "/live", "-X", "POST")
    check(reply.status == 405 and "GET" in "".join(reply.of("allow")), "POST /live: 405, and which methods are allowed", reply.status, reply.fields)


# ---- bad requests

HOST = b"Host: 127.0.0.1\r\n"
MANY = b"".join(b"X-%d: y\r\n" % number for number in range(200))
BAD = {
    "no line": b"\r\n\r\n\r\n\r\n",
    "not HTTP": b"GARBAGE\r\n\r\n",
    "only a method": b"GET\r\n\r\n",
    "no version": b"GET /live\r\n\r\n",
    "a fourth word": b"GET /live HTTP/1.1 more\r\n" + HOST + b"\r\n",
    "two spaces": b"GET  /live HTTP/1.1\r\n" + HOST + b"\r\n",
    "a space in front": b" GET /live HTTP/1.1\r\n" + HOST + b"\r\n",
    "a tab for a space": b"GET\t/live HTTP/1.1\r\n" + HOST + b"\r\n",
    **{f"the method {method.decode()}": method + b" /live HTTP/1.1\r\n" + HOST + b"\r\n" for method in
       (b"get", b"POST", b"PUT", b"DELETE", b"PATCH", b"TRACE", b"OPTIONS", b"GETT", b"G", b"GE\x00T", b"M" * 3000)},
    "CONNECT": b"CONNECT 127.0.0.1:80 HTTP/1.1\r\n" + HOST + b"\r\n",
    "OPTIONS of all": b"OPTIONS * HTTP/1.1\r\n" + HOST + b"\r\n",
    "the beginning of HTTP/2": b"PRI * HTTP/2.0\r\n\r\nSM\r\n\r\n\0\0\0\4\0\0\0\0\0",
    **{f"the version {version.decode()}": b"GET /live " + version + b"\r\n" + HOST + b"\r\n" for version in
       (b"HTTP/2.0", b"HTTP/0.9", b"HTTP/3", b"HTTP/1.10", b"http/1.1", b"HTTP/1.", b"HTTP/1.1\x00", b"ICAP/1.0")},
    **{f"the target {target.decode('latin-1')}": b"GET " + target + b" HTTP/1.1\r\n" + HOST + b"\r\n" for target in
       (b"/../../etc/passwd", b"/./live", b"//live", b"/live/", b"/LIVE", b"/live%00", b"/%6cive", b"/%2e%2e/state", b"live", b"*",
        b"/graph.dot?domain=%61.example", b"/graph.dot?domain=", b"/graph.dot?domain=A.EXAMPLE", b"/graph.dot?domain=../state",
        b"/graph.dot?domain=a.example&domain=b.example", b"/graph.dot?other=1", b"/metrics?x", b"/metrics#x", b"/live\x00",
        b"/li\x01ve", b"/li\xffve", b"http://127.0.0.1/live", b"http://other.example/live", b"file:///etc/passwd", b"\\live")},
    "no Host": b"GET /live HTTP/1.1\r\n\r\n",
    "two Hosts": b"GET /live HTTP/1.1\r\n" + HOST + HOST + b"\r\n",
    "a space before a colon": b"GET /live HTTP/1.1\r\nHost : 127.0.0.1\r\n\r\n",
    "a folded field": b"GET /live HTTP/1.1\r\n" + HOST + b"X: y\r\n z\r\n\r\n",
    "a field without a colon": b"GET /live HTTP/1.1\r\n" + HOST + b"nothing\r\n\r\n",
    "a field without a name": b"GET /live HTTP/1.1\r\n" + HOST + b": y\r\n\r\n",
    "a NUL in a field": b"GET /live HTTP/1.1\r\n" + HOST + b"X: a\0b\r\n\r\n",
    "a control byte in a name": b"GET /live HTTP/1.1\r\n" + HOST + b"X\x01: y\r\n\r\n",
    "a CR in a field": b"GET /live HTTP/1.1\r\n" + HOST + b"X: a\rb\r\n\r\n",
    "two lengths": b"GET /live HTTP/1.1\r\n" + HOST + b"Content-Length: 3\r\nContent-Length: 4\r\n\r\nabcd",
    "a length and a body": b"GET /live HTTP/1.1\r\n" + HOST + b"Content-Length: 4\r\n\r\nabcd",
    "a negative length": b"GET /live HTTP/1.1\r\n" + HOST + b"Content-Length: -1\r\n\r\n",
    "a huge length": b"GET /live HTTP/1.1\r\n" + HOST + b"Content-Length: 99999999999999999999999\r\n\r\n",
    "chunks": b"GET /live HTTP/1.1\r\n" + HOST + b"Transfer-Encoding: chunked\r\n\r\n4\r\nabcd\r\n0\r\n\r\n",
    "chunks and a length": b"GET /live HTTP/1.1\r\n" + HOST + b"Content-Length: 4\r\nTransfer-Encoding: chunked\r\n\r\n0\r\n\r\n",
    "200 fields": b"GET /live HTTP/1.1\r\n" + HOST + MANY + b"\r\n",
    "a long target": b"GET /" + b"a" * 20_000 + b" HTTP/1.1\r\n" + HOST + b"\r\n",
    "a long field": b"GET /live HTTP/1.1\r\n" + HOST + b"X: " + b"y" * 20_000 + b"\r\n\r\n",
    "a long name": b"GET /live HTTP/1.1\r\n" + HOST + b"X" * 20_000 + b": y\r\n\r\n",
    "a megabyte without a line": b"A" * 1_000_000,
    "a megabyte of fields": b"GET /live HTTP/1.1\r\n" + HOST + MANY * 500,
    "a megabyte of empty lines": b"\r\n" * 500_000,
    "a beginning of TLS": bytes.fromhex("16030100c8010000c40303") + bytes(200),
    "zeros": bytes(5000),
}
# These may be answered. `two` ones are answered once, since each response ends its connection.
ODD = {
    "two at once": (b"GET /live HTTP/1.1\r\n" + HOST + b"\r\n") * 2,
    "a hundred at once": (b"GET /metrics HTTP/1.1\r\n" + HOST + b"\r\n") * 100,
    "bytes behind the head": b"GET /live HTTP/1.1\r\n" + HOST + b"\r\nrubbish",
    "an empty line in front": b"\r\nGET /live HTTP/1.1\r\n" + HOST + b"\r\n",
    "line feeds only": b"GET /live HTTP/1.1\nHost: 127.0.0.1\n\n",
    "HTTP/1.0": b"GET /live HTTP/1.0\r\n\r\n",
    "a length of zero": b"GET /live HTTP/1.1\r\n" + HOST + b"Content-Length: 0\r\n\r\n",
    "Expect": b"GET /live HTTP/1.1\r\n" + HOST + b"Expect: 100-continue\r\n\r\n",
    "Upgrade": b"GET /live HTTP/1.1\r\n" + HOST + b"Connection: Upgrade\r\nUpgrade: websocket\r\n\r\n",
    "keep-alive": b"GET /live HTTP/1.1\r\n" + HOST + b"Connection: keep-alive\r\n\r\n",
    "bytes beyond ASCII in a field": b"GET /live HTTP/1.1\r\n" + HOST + b"X: \xff\xfe\r\n\r\n",
    "names in other cases": b"GET /live HTTP/1.1\r\nhOsT: 127.0.0.1\r\naccept: */*\r\n\r\n",
    "a domain that is not there": b"GET /graph.dot?domain=zz.example HTTP/1.1\r\n" + HOST + b"\r\n",
}


def connected(replica):
    host, _, port = replica.address.rpartition(":")
    return socket.create_connection((host, int(port)), 60)


def reply_to(replica, given, piece=None, pause=0.0, ends=False):
    """All that comes until the close, or None if no close came. If the address closes before it has read all, the system may
    reset the connection, and what it sent may be lost: that is a close."""
    read = b""
    with connected(replica) as stream:
        try:
            step = piece or max(1, len(given))
            for at in range(0, len(given), step):
                stream.sendall(given[at:at + step])
                time.sleep(pause)
            if ends:
                stream.shutdown(socket.SHUT_WR)
        except OSError:
            pass
        try:
            while part := stream.recv(65536):
                read += part
        except ConnectionError:
            return read if is_one_reply(read, False) else b""
        except TimeoutError:
            return None
    return read


def is_one_reply(read, is_error):
    """At most one response, whole, and an error if that is wanted."""
    if read == b"":
        return True
    if read is None or not read.startswith(b"HTTP/1.1 ") or len(re.findall(rb"HTTP/1\.[01] \d\d\d ", read)) != 1:
        return False
    reply = Reply(read)
    is_whole = reply.of("connection") == ["close"] and reply.of("content-length") == [str(len(reply.body))]
    return is_whole and (not is_error or 400 <= reply.status < 600)


def said_of(read):
    return "nothing in a minute" if read is None else "a close" if read == b"" else ascii(read.split(b"\r\n")[0].decode("latin-1"))


def look_at_bad(scene, room):
    need("curl")
    counts = Counter()
    # Some at a time, since the address waits for the end of those that have none.
    with ThreadPoolExecutor(6) as pool:
        seen = list(pool.map(lambda given: (reply_to(scene.one, given), is_answering(scene.one)), [*BAD.values(), *ODD.values()]))
    for name, (read, answers) in zip([*BAD, *ODD], seen):
        is_bad = name in BAD
        counts.update([said_of(read)] if is_bad else [])
        check(is_one_reply(read, is_bad) and answers, f"{'bad' if is_bad else 'odd'}: {ascii(name)}: {said_of(read)}", read, answers)
    look_at_pieces(scene.one)
    look_at_unfinished(scene.one)
    print(f"         {len(BAD)} bad requests: {', '.join(f'{count} times {said}' for said, count in sorted(counts.items()))}")


def look_at_pieces(replica):
    good = b"GET /live HTTP/1.1\r\n" + HOST + b"Accept: */*\r\n\r\n"
    read = reply_to(replica, good, 1, 0.01)
    check(read.startswith(b"HTTP/1.1 200 ") and is_one_reply(read, False), "a good request, a byte at a time: 200", read)
    read = reply_to(replica, good, ends=True)
    check(read.startswith(b"HTTP/1.1 200 "), "a good request, whose client sends nothing more: 200", read)
    read = reply_to(replica, good[:-1], ends=True)
    check(is_one_reply(read, True), f"a request whose last byte never comes, and whose client sends nothing more: {said_of(read)}", read)
    read = reply_to(replica, b"", ends=True)
    check(is_one_reply(read, True), f"no byte, and an end: {said_of(read)}", read)
    for _ in range(200):
        with connected(replica) as stream:
            stream.sendall(good[:9])
            stream.setsockopt(socket.SOL_SOCKET, socket.SO_LINGER, struct.pack("ii", 1, 0))
    check(is_answering(replica), "200 connections that are reset after some bytes")
    with connected(replica) as stream:
        stream.sendall(b"GET /metrics HTTP/1.1\r\n" + HOST + b"\r\n")
    check(is_answering(replica), "a client that leaves before its reply")


def look_at_unfinished(replica):
    """Requests whose end does not come, all at the same time. The address waits for it, but not for ever."""
    ends, began = {}, time.monotonic()
    def wait(name, given, piece, pause):
        ends[name] = reply_to(replica, given, piece, pause), time.monotonic() - began
    half = b"GET /live HTTP/1.1\r\n" + HOST
    cases = {"no byte": (b"", None, 0), "half a line": (b"GET /li", None, 0), "no empty line": (half, None, 0),
             "a byte in half a second": (half, 1, 0.5)}
    threads = [threading.Thread(target=wait, args=(name, *case)) for name, case in cases.items()]
    for thread in threads:
        thread.start()
    for thread in threads:
        thread.join(HANG)
    for name in cases:
        read, seconds = ends.get(name, (None, HANG))
        check(is_one_reply(read, True), f"a request without an end, {name}: {said_of(read)}", read)
    check(is_answering(replica), "the replica answers after them")


# ---- hosts

NAMED = "prometheus.example,Other.Example"
# What a request may have as Host. A name that somebody lets lead to this address is none of these.
LET_IN = ["127.0.0.1", "127.0.0.1:1", "10.1.2.3:9463", "[::1]", "[::1]:9463", "localhost", "LocalHost:80", ""]
KEPT_OUT = ["evil.example", "evil.example:9463", "localhost.evil.example", "127.0.0.1.evil.example", "evil.localhost", "x", "1.2.3.4x",
            "prometheus.example"]


def status_for(replica, path, *fields, version="1.1", method="GET"):
    head = "".join(f"{line}\r\n" for line in [f"{method} {path} HTTP/{version}", *fields, ""])
    return Reply(reply_to(replica, head.encode()))


def look_at_hosts(scene, room):
    for host in LET_IN:
        seen = status_for(scene.one, "/status.json", f"Host: {host}").status
        check(seen == 200, f"the host {host!r} is let in", seen)
    for host in KEPT_OUT:
        for path in ("/live", "/metrics", "/keys.json", "/graph.dot?domain=a.example"):
            reply = status_for(scene.one, path, f"Host: {host}")
            check(reply.status == 403 and reply.body.count(b"\n") == 1, f"the host {host!r} is not, {path}", reply.status, reply.body[:99])
    reply = status_for(scene.one, "/status.json", "Host: evil.example", method="HEAD")
    check(reply.status == 403 and not reply.body, "nor is it for HEAD", reply.status)
    look_at_fields("a host that is not let in", status_for(scene.one, "/live", "Host: evil.example"), TEXT)
    check(status_for(scene.one, "/live", version="1.0").status == 200, "a request of HTTP/1.0 without a host is let in")
    check(status_for(scene.one, "/live", "Host: evil.example", version="1.0").status == 403, "one with another host is not")
    for site, wanted in (("cross-site", 403), ("same-origin", 200), ("same-site", 200), ("none", 200)):
        seen = status_for(scene.one, "/keys.json", "Host: 127.0.0.1", f"sec-fetch-site: {site}").status
        check(seen == wanted, f"a request that a browser calls {site}: {wanted}", seen)
    check(has_names(scene.two.program), "a replica has --health-host")
    for host in ("prometheus.example", "PROMETHEUS.example:9463", "other.example"):
        seen = status_for(scene.two, "/metrics", f"Host: {host}").status
        check(seen == 200, f"{host!r} is let in by --health-host", seen)
    for host in ("example", "prometheus.example.evil.example", "prometheus.example,Other.Example"):
        seen = status_for(scene.two, "/metrics", f"Host: {host}").status
        check(seen == 403, f"{host!r} is not", seen)
    for names in ("", "a.example,", "a.example:80"):
        ran = subprocess.run([scene.two.program, "replica", "--config", "config", "--state", "none", "--socket", "none", "--new",
                              "--health", "127.0.0.1:0", "--health-host", names], capture_output=True, text=True, cwd=scene.two.folder)
        check((ran.returncode, ran.stderr.split("\n")[0]) == (1, "fedbundle: bad address"), f"--health-host {names!r} is refused",
              ran.returncode, ran.stderr)


# ---- slow clients

def longest_bundle(replica, times=40):
    """The longest of this many `bundle --at`, in seconds, without what starting a process costs."""
    longest = 0
    for _ in range(times):
        began = time.monotonic()
        with socket.socket(socket.AF_UNIX) as stream:
            stream.settimeout(HANG)
            stream.connect(str(replica.folder / "socket"))
            stream.sendall(json.dumps(["bundle", "--domain", "a.example"]).encode() + b"\n")
            stream.shutdown(socket.SHUT_WR)
            read = b""
            while piece := stream.recv(65536):
                read += piece
        longest = max(longest, time.monotonic() - began)
        assert json.loads(read.partition(b"\n")[0])["status"] == 0, read
        time.sleep(0.05)
    return longest


def look_at_slow(scene, room):
    need("curl")
    quiet = longest_bundle(scene.one)
    streams, ended = [connected(scene.one) for _ in range(17)], threading.Event()
    def dribble():
        for byte in b"GET /metrics HTTP/1.1\r\nHost: x\r\nX: " + b"y" * 1000:
            for stream in streams:
                try:
                    stream.sendall(bytes([byte]))
                except OSError:
                    pass
            if ended.wait(1):
                return
    thread = threading.Thread(target=dribble)
    thread.start()
    slow = longest_bundle(scene.one)
    silent = []
    for _ in range(40):
        silent.append(connected(scene.one))
    crowded = longest_bundle(scene.one)
    began = time.monotonic()
    read = reply_to(scene.one, b"GET /live HTTP/1.1\r\n" + HOST + b"\r\n")
    check(read is not None and time.monotonic() - began < 40 and is_one_reply(read, False),
          f"a good client next to them: {said_of(read)}, after {time.monotonic() - began:.1f} s", read)
    ended.set()
    thread.join()
    for stream in [*streams, *silent]:
        stream.close()
    end = time.monotonic() + HANG
    while not is_answering(scene.one) and time.monotonic() < end:
        time.sleep(0.1)
    check(is_answering(scene.one), "it answers when they have left")
    check(max(slow, crowded) < SLOWEST, f"the longest of 40 bundle --at: {quiet * 1000:.0f} ms before, {slow * 1000:.0f} ms next to 17 "
          f"slow clients, {crowded * 1000:.0f} ms next to 40 silent ones, too")


# ---- texts

def kinds_of_warnings():
    """The names of the kinds, as their definition has them."""
    text = (TOP / "crates/status_warnings/specs/WarningLines.antt").read_text()
    return re.findall(r'^kind_(?:of_fault|name) .*= codes "([a-z-]+)"$', text, re.M)


def alerts():
    """The names and expressions of the rules, without a reader of YAML."""
    text = RULES.read_text()
    names = re.findall(r"^ +- alert: (\w+)$", text, re.M)
    found = re.findall(r"^ +expr: (?:>-\n((?: {10}.*\n)+)|(.*)\n)", text, re.M)
    return dict(zip(names, [" ".join((folded or line).split()) for folded, line in found], strict=True))


def queries():
    """The expressions of the dashboard, with a value for each of its variables, by the titles of their panels."""
    for panel in json.loads(DASHBOARD.read_text())["panels"]:
        for target in panel.get("targets", []):
            text = target["expr"].replace("$__rate_interval", "1m").replace("$job", "fedbundle")
            yield panel["title"], re.sub(r"\$(instance|domain)", ".*", text)


def look_at_panels():
    """No two panels of the dashboard lie on each other or have one number, and each has the chosen data source."""
    panels = json.loads(DASHBOARD.read_text())["panels"]
    places = [(panel["gridPos"]["x"] + x, panel["gridPos"]["y"] + y) for panel in panels
              for x in range(panel["gridPos"]["w"]) for y in range(panel["gridPos"]["h"])]
    check(len(places) == len(set(places)) and max(places)[0] < 24, f"the dashboard's {len(panels)} panels lie side by side")
    check(len({panel["id"] for panel in panels}) == len(panels), "and have numbers of their own")
    sources = {target["datasource"]["uid"] for panel in panels for target in panel.get("targets", [])}
    check(sources == {"${datasource}"}, "and the data source that is chosen", sources)


def look_at_texts(scene, room):
    ran = subprocess.run([TOP / "tools/page.py", "--check"], capture_output=True, text=True)
    check(ran.returncode == 0, "the program's texts of the page are those of web/", ran.stderr)
    script = (TOP / "web/page.js").read_text()
    found = re.findall(r"innerHTML|outerHTML|insertAdjacent|document\.write|\beval\b|new Function|setTimeout\(['\"`]", script)
    check(not found, "page.js puts no text in as HTML, and runs none", found)
    need("curl")
    served = set(re.findall(rb"^# TYPE (\w+)", curl(scene.one.address, "/metrics").body, re.M))
    known = {name.decode() for name in served} | PREVIOUS | {"up", "scrape_duration_seconds"}
    rules = alerts()
    kinds = kinds_of_warnings()
    check(len(kinds) >= 8, f"there are {len(kinds)} kinds of warnings", kinds)
    for kind in kinds:
        check(any(f'kind="{kind}"' in rule for rule in rules.values()), f"{kind}: an alert")
        check(f'"{kind}": [' in script, f"{kind}: words on the page")
    for name, text in [*rules.items(), *queries()]:
        used = set(re.findall(r"\b(?:fedbundle_\w+|up|scrape_\w+)\b(?=[{\[ )])", re.sub(r'"[^"]*"', '""', text) + " "))
        check(used and used <= known, f"{name}: the metrics that it names are served", used - known)
    look_at_panels()


def look_at_rules(scene, room):
    need("promtool", "curl")
    for words in (["check", "rules", RULES], ["test", "rules", CASES]):
        ran = subprocess.run(["promtool", *words], capture_output=True, text=True)
        check(ran.returncode == 0, f"promtool {' '.join(words[:2])}", ran.stdout + ran.stderr)
    cases = re.findall(r"alertname: (\w+)(\}?)(\n +exp_alerts:\n +- exp_labels)?", CASES.read_text())
    for name in alerts():
        raised = {bool(expected) for found, _, expected in cases if found == name}
        check(True in raised, f"{name}: a case in which it is raised")
    for name in set(alerts()) - {"FedbundleConflict"}:
        check((name, "}", "") in cases, f"{name}: a case in which it is not")
    body = curl(scene.one.address, "/metrics").body
    ran = subprocess.run(["promtool", "check", "metrics"], input=body, capture_output=True)
    check(ran.returncode == 0 and not ran.stdout + ran.stderr, "promtool check metrics finds nothing", ran.stdout + ran.stderr)


# ---- Prometheus

class Prometheus:
    """A server that scrapes these addresses each two seconds, with our rules."""

    def __init__(self, folder, addresses):
        listener, port = listener_of_own()
        listener.close()
        self.folder, self.address = folder, f"127.0.0.1:{port}"
        targets = json.dumps([{"targets": addresses}])
        (folder / "prometheus.yml").write_text(
            "global: {scrape_interval: 2s, scrape_timeout: 2s, evaluation_interval: 2s}\n"
            f"rule_files: [{json.dumps(str(RULES))}]\n"
            f"scrape_configs: [{{job_name: fedbundle, static_configs: {targets}}}]\n")

    def __enter__(self):
        words = ["prometheus", f"--config.file={self.folder}/prometheus.yml", f"--storage.tsdb.path={self.folder}/data",
                 f"--web.listen-address={self.address}", "--log.level=warn"]
        self.log = open(self.folder / "log", "wb")
        self.process = subprocess.Popen(words, stdin=subprocess.DEVNULL, stdout=self.log, stderr=self.log)
        return self

    def __exit__(self, *_):
        self.process.terminate()
        try:
            self.process.wait(20)
        except subprocess.TimeoutExpired:
            self.process.kill()
            self.process.wait()
        self.log.close()

    def get(self, path, **fields):
        url = f"http://{self.address}/api/v1/{path}?{urllib.parse.urlencode(fields)}"
        opener = urllib.request.build_opener(urllib.request.ProxyHandler({}))
        try:
            with opener.open(url, timeout=HANG) as reply:
                return json.load(reply)
        except urllib.error.HTTPError as error:
            text = error.read()
            # It says in plain text that it is not ready yet.
            return json.loads(text) if text.startswith(b"{") else {"status": "none", "data": None}
        except OSError:
            return {"status": "none", "data": None}

    def ask(self, text):
        """The values of a query by their labels, or None."""
        answer = self.get("query", query=text)
        if answer["status"] != "success":
            return None
        if answer["data"]["resultType"] == "scalar":
            return {(): float(answer["data"]["result"][1])}
        return {tuple(sorted(one["metric"].items())): float(one["value"][1]) for one in answer["data"]["result"]}

    def becomes(self, text, seconds):
        end = time.monotonic() + seconds
        while time.monotonic() < end:
            if self.ask(text):
                return True
            time.sleep(0.5)
        return False


def by(seen, *names):
    """The values by some of their labels."""
    return {tuple(dict(labels).get(name) for name in names): value for labels, value in (seen or {}).items()}


# What has no value in half a minute: a store that grows, a rate that needs two scrapes of a counter that moved.
MAY_BE_EMPTY = {"Days until the store is full", "Previous configurations", "Time since the previous one was used",
                "Peers that last answered under the previous one"}


def look_at_prometheus(scene, room):
    need("prometheus", "promtool")
    addresses = [scene.one.address, scene.two.address]
    with Prometheus(room, addresses) as server:
        check(server.becomes("count(up == 1) == 2", HANG), "Prometheus scrapes both replicas", server.get("targets"))
        time.sleep(30)
        status = scene.one.status()
        one = f'{{instance="{scene.one.address}"}}'
        check(min(server.ask("count_over_time(up[30s])").values(), default=0) >= 14, "for half a minute, each two seconds",
              server.ask("count_over_time(up[30s])"))
        check(set(server.ask("min_over_time(up[30s])").values()) == {1.0}, "no scrape failed", server.ask("min_over_time(up[30s])"))
        look_at_values(server, status, one)
        look_at_alerts(server, scene)
        for title, text in queries():
            seen = server.ask(text)
            check(seen is not None and (seen or title in MAY_BE_EMPTY), f"the dashboard's {title}: {len(seen or [])} values", text, seen)
        for name, text in alerts().items():
            check(server.ask(text) is not None, f"the query of {name}: {len(server.ask(text) or [])} values", text)
        for variable in json.loads(DASHBOARD.read_text())["templating"]["list"]:
            look_at_variable(server, variable)
        began = time.monotonic()
        ran = subprocess.run(["promtool", "query", "instant", f"http://{server.address}", "fedbundle_receipts"], capture_output=True, text=True)
        check(ran.returncode == 0 and scene.one.address in ran.stdout, f"promtool query: {time.monotonic() - began:.1f} s", ran.stdout, ran.stderr)


def look_at_values(server, status, one):
    for name, value in [("receipts", status["receipts"]), ("receipt_limit", 65536), ("pending_receipts", status["pending"]),
                        ("distrust_records", status["records"]), ("warning", 1), ("journal_bytes", status["journal_bytes"])]:
        check(list(server.ask(f"fedbundle_{name}{one}").values()) == [value], f"fedbundle_{name} is {value}", server.ask(f"fedbundle_{name}{one}"))
    for name, member in [("current_sequence", "sequence"), ("current_refresh_hint_seconds", "refresh_hint")]:
        wanted = {(each["domain"],): float(each["current"][member]) for each in status["domains"]
                  if each["current"] and each["current"][member] is not None}
        check(by(server.ask(f"fedbundle_{name}{one}"), "domain") == wanted, f"fedbundle_{name} of each domain", wanted)
    wanted = {(each["kind"], each.get("domain")) for each in status["warnings"]}
    check(set(by(server.ask(f"fedbundle_warning_info{one}"), "kind", "domain")) == wanted, f"the warnings are {sorted(wanted)}",
          server.ask(f"fedbundle_warning_info{one}"))


def look_at_alerts(server, scene):
    rules = [rule for group in server.get("rules")["data"]["groups"] for rule in group["rules"]]
    check(len(rules) == len(alerts()) and all(rule["health"] == "ok" for rule in rules), f"{len(rules)} rules are evaluated",
          [(rule["name"], rule["health"], rule.get("lastError")) for rule in rules])
    raised = {rule["name"]: rule["state"] for rule in rules if rule["state"] != "inactive"}
    wanted = {"FedbundleConflict": "firing", "FedbundleNoCurrentBundle": "pending", "FedbundleCertificateExpires": "pending",
              "FedbundleDistrustedKeyListed": "pending", "FedbundleReplicasDisagree": "pending"}
    if "same-key" in {warning["kind"] for warning in scene.one.status()["warnings"]}:
        wanted["FedbundleSamePublicKey"] = "pending"
    check(raised == wanted, f"{len(wanted)} alerts are raised, one of them without a wait", raised)


def look_at_variable(server, variable):
    if variable["type"] == "query":
        series, label = re.fullmatch(r"label_values\((.*), (\w+)\)", variable["query"]["query"]).groups()
        series = series.replace("$job", "fedbundle").replace("$instance", ".*")
        answer = server.get(f"label/{label}/values", **{"match[]": series})
        check(answer["status"] == "success" and answer["data"], f"the dashboard's variable {variable['name']}: {answer['data']}", answer)


# ---- the page

CELLS = """(id) => [...document.getElementById(id).tBodies[0].rows].map((row) => [...row.cells].map((cell) =>
  cell.querySelector("li") ? [...cell.querySelectorAll("li")].map((one) => [...one.children].map((part) => part.textContent)) : cell.textContent))"""
# The least contrast of a text with what is behind it, as WCAG computes it, and where that is.
CONTRAST = """(() => {
  const channels = (text) => (text.match(/[\\d.]+/g) || []).map(Number);
  const light = ([r, g, b]) => [r, g, b].map((c) => c / 255).map((c) => c <= 0.04045 ? c / 12.92 : ((c + 0.055) / 1.055) ** 2.4)
    .reduce((sum, c, at) => sum + c * [0.2126, 0.7152, 0.0722][at], 0);
  const behind = (node) => {
    for (; node; node = node.parentElement) {
      const rect = node.nodeName === "g" && node.querySelector("rect");
      const color = channels(rect ? getComputedStyle(rect).fill : getComputedStyle(node).backgroundColor);
      if (color.length === 3 || color[3] > 0) return color;
    }
    return [255, 255, 255];
  };
  let least = [99, ""];
  const walk = document.createTreeWalker(document.body, NodeFilter.SHOW_TEXT);
  while (walk.nextNode()) {
    const node = walk.currentNode.parentElement;
    if (!walk.currentNode.textContent.trim() || !node.checkVisibility() || node.closest("noscript, script, title")) continue;
    const style = getComputedStyle(node);
    const [one, other] = [light(channels(node.closest("svg") ? style.fill : style.color)), light(behind(node))].sort((a, b) => b - a);
    const ratio = (one + 0.05) / (other + 0.05);
    if (ratio < least[0]) least = [ratio, node.textContent.slice(0, 40)];
  }
  return least;
})()"""
FORM = """(() => ({
  tables: document.querySelectorAll("table").length,
  captions: document.querySelectorAll("table > caption").length,
  heads: [...document.querySelectorAll("th")].every((cell) => ["col", "row"].includes(cell.scope)),
  headings: [...document.querySelectorAll("h1, h2, h3")].map((one) => one.nodeName).join(" "),
  named: [...document.querySelectorAll("section")].every((one) => document.getElementById(one.getAttribute("aria-labelledby"))),
  labelled: [...document.querySelectorAll("select, input")].every((one) => one.labels.length === 1),
  language: document.documentElement.lang, title: document.title,
  ids: new Set([...document.querySelectorAll("[id]")].map((one) => one.id)).size === document.querySelectorAll("[id]").length,
}))()"""


def span_of(seconds):
    """What is left, as the page says it."""
    for unit, length in [("years", 365.25 * 86400), ("days", 86400), ("h", 3600), ("min", 60)]:
        if seconds >= 2 * length:
            return f"{int(seconds // length)} {unit}"
    return f"{max(0, int(seconds))} s"


def wanted_domains(status, keys):
    """The rows of the table of domains, out of what the commands print."""
    known = {(key["domain"], key["key"]): key for key in keys}
    for one in status["domains"]:
        current, counts = one["current"], [str(one["accepted"]), str(one["conflicts"])]
        if not current:
            yield [one["domain"], "none", "none", "none", *counts, "none"]
            continue
        listed = []
        for key in current["keys"]:
            more = known[one["domain"], key["id"]]
            trust = ["distrusted"] if key["distrusted"] else ["public key of a distrusted one"] if more["same_public_key"] else []
            listed.append([key["id"], span_of(more["not_after"] - time.time()), *trust])
        hint = "none" if current["refresh_hint"] is None else f"{current['refresh_hint']} s"
        yield [one["domain"], current["id"], str(current["sequence"]), hint, *counts, listed]


def wanted_keys(keys):
    """The rows of the table of keys, without an order."""
    for key in keys:
        trust = ("distrusted" if key["distrusted"] else "public key of a distrusted one" if key["same_public_key"]
                 else "can vouch" if key["bundles"] else "in no accepted bundle")
        ends = time.strftime("%Y-%m-%d %H:%M:%S", time.gmtime(key["not_after"]))
        yield [key["key"], key["domain"], trust, ends, span_of(key["not_after"] - time.time()), str(len(key["bundles"]))]


def look_at_tables(browser, replica, what):
    """All tables, against what the commands print."""
    status = replica.status()
    report = json.loads(replica.shown("report", "--format", "json"))
    keys = json.loads(replica.shown("list", "--keys", "--format", "json"))["keys"]
    cells = {name: browser.evaluate(f"({CELLS})('{name}')") for name in ("domains", "keys", "conflicts", "records", "peers")}
    wanted = list(wanted_domains(status, keys))
    check(cells["domains"] == wanted, f"{what}: {len(wanted)} domains as `status` prints them", cells["domains"], wanted)
    wanted = sorted(wanted_keys(keys))
    check(sorted(cells["keys"]) == wanted, f"{what}: {len(wanted)} keys as `list --keys` prints them", sorted(cells["keys"]), wanted)
    first = [row[2] for row in cells["keys"]]
    check(first[:2] == ["distrusted", "public key of a distrusted one"] and "distrusted" not in first[2:], f"{what}: those that need attention first", first)
    wanted = [[one["domain"], str(one["sequence"]), one["kind"], [[document] for document in one["documents"]]] for one in report["conflicts"]]
    check(cells["conflicts"] == wanted, f"{what}: conflicts as `report` prints them", cells["conflicts"], wanted)
    wanted = [[one["distrust"], one["domain"]] for one in report["records"]]
    check(cells["records"] == wanted, f"{what}: records of distrust as `report` prints them", cells["records"], wanted)
    seen = [[row[0], row[1] == "never", row[2].split(":")[0], row[3]] for row in cells["peers"]]
    wanted = [[one["peer"], one["ended_well"] is None, one["fault"] or "none", f"{one['receipts']:,}"] for one in status["peers"]]
    check(seen == wanted, f"{what}: peers as `status` prints them", seen, wanted)


def look_at_warnings(browser, replica):
    texts = browser.evaluate("[...document.querySelectorAll('#warnings strong')].map((one) => one.textContent)")
    lines = [line for line in replica.at("status", text=True).splitlines() if line.startswith("warning: ")]
    about = [re.search(r"[a-z]\.example", line)[0] for line in lines]
    check(len(texts) == len(lines) and all(any(name in text for text in texts) for name in about), f"{len(lines)} warnings, first of all", texts, lines)
    for words in ("has no current bundle", "has several accepted bundles with one sequence number", "lists the distrusted key", "has a certificate that ends at"):
        check(sum(words in text for text in texts) == 1, f"a warning: {words}", texts)
    numbers = browser.evaluate("document.getElementById('numbers').textContent")
    check(f"Pending receipts{replica.status()['pending']} wait" in numbers.replace("\xa0", " "), "how many receipts are pending", numbers)


def arrows_of(text):
    """The arrows of a graph without their labels, each once."""
    return set(re.findall(r'^"(\w{8})\w+" -> "(\w{8})\w+"', text, re.M))


def look_at_graph(browser, replica, domain):
    browser.evaluate(f"location.hash = '{domain}'")
    dot = replica.shown("graph", "--domain", domain, text=True)
    boxes = len(set(re.findall(r'^"(\w{64})" \[', dot, re.M)))
    drawn = browser.becomes(f"document.getElementById('chosen').value === '{domain}' && document.querySelectorAll('#graph rect').length === {boxes}")
    check(drawn, f"the graph of {domain} has {boxes} boxes", browser.evaluate("document.getElementById('graph').textContent"))
    ends = "[...document.querySelectorAll('#arrows li')].map((one) => one.textContent.match(/\\((\\w{8})\\)/g).join(''))"
    wanted = {f"({tail})({head})" for tail, head in arrows_of(dot)}
    same = browser.becomes(f"[...new Set({ends})].sort().join(' ') === '{' '.join(sorted(wanted))}'", 5)
    listed = browser.evaluate("[...document.querySelectorAll('#arrows li')].map((one) => one.textContent)")
    check(same, f"the graph of {domain} has {len(arrows_of(dot))} arrows", listed, dot)


def look_at_sizes(browser, pictures):
    """The page in a wide and in a narrow window, in the light and in the dark."""
    for width in (1200, 400):
        for is_dark in (False, True):
            browser.show(width, 900, is_dark)
            name = f"{'wide' if width > 400 else 'narrow'}, {'dark' if is_dark else 'light'}"
            check(browser.becomes(f"innerWidth === {width} && document.documentElement.scrollWidth <= {width}", 5), f"{name}: nothing is beside the window",
                  browser.evaluate("[innerWidth, document.documentElement.scrollWidth]"))
            ratio, text = browser.evaluate(CONTRAST)
            check(ratio >= 4.5, f"{name}: the least contrast of a text is {ratio:.1f}", text)
            if pictures:
                browser.show(width, browser.evaluate("document.documentElement.scrollHeight"), is_dark)
                (Path(pictures) / f"{name.replace(', ', '-')}.png").write_bytes(browser.picture())
    browser.show(1200, 900)


def look_at_form(browser):
    form = browser.evaluate(FORM)
    check(form["tables"] == form["captions"] == 5 and form["heads"], "each table has a caption, and each head a scope", form)
    check(form["headings"].startswith("H1 H2 H2") and form["named"] and form["labelled"] and form["ids"] and form["language"] == "en",
          "headings, names of sections, labels, ids", form)
    check(re.match(r"\(\d+\) fedbundle$", form["title"]), f"the title says how many warnings there are: {form['title']}")


SEEN = "document.getElementById('looked').textContent.startsWith('Seen at')"


def look_at_without_script(scene):
    with Browser() as browser:
        browser.call("Emulation.setScriptExecutionDisabled", value=True)
        browser.open(f"http://{scene.one.address}/")
        time.sleep(2)
        browser.call("DOM.enable")
        root = browser.call("DOM.getDocument", depth=-1)["root"]["nodeId"]
        node = browser.call("DOM.querySelector", nodeId=root, selector="noscript")["nodeId"]
        text = browser.call("DOM.getOuterHTML", nodeId=node)["outerHTML"]
        links = re.findall(r'href="([^"]+)"', text)
        check(len(links) == 5 and all(curl(scene.one.address, f"/{link}").status == 200 for link in links), f"without JavaScript: links to {', '.join(links)}", text)


def look_at_page(scene, room, pictures=None):
    if not find_browser():
        raise Lacking(why_not("chromium"))
    replica = scene.one
    ran = subprocess.run([find_browser(), *Browser.FLAGS[:-1], "--dump-dom", "--virtual-time-budget=5000", f"--user-data-dir={room}/dump",
                          f"http://{replica.address}/"], capture_output=True, timeout=HANG)
    check(replica.status()["config"].encode() in ran.stdout and str(GREATEST).encode() in ran.stdout, "chromium --dump-dom has what is looked at", ran.stdout[-300:])
    with Browser() as browser:
        browser.show(1200, 900)
        browser.open(f"http://{replica.address}/")
        check(browser.becomes(SEEN), "the page looks at the replica", browser.evaluate("document.body.textContent"))
        look_at_tables(browser, replica, "first")
        look_at_warnings(browser, replica)
        look_at_form(browser)
        for domain in ("b.example", "d.example", "a.example"):
            look_at_graph(browser, replica, domain)
        look_at_sizes(browser, pictures)
        scene.observe(7, scene.soon)
        shown = browser.becomes(f"({CELLS})('domains')[0][2] === '7'", 25)
        check(shown, "a bundle that is observed meanwhile appears by itself", browser.evaluate(f"({CELLS})('domains')[0]"))
        browser.becomes(SEEN + f" && document.querySelectorAll('#graph rect').length === 6", 10)
        check(browser.evaluate("document.querySelectorAll('#graph rect.current').length") == 1, "and in the graph")
        said = browser.said
        check(not said, "no script failed, and the policy blocked nothing", said)
        look_at_end(browser, scene)
    check(curl(scene.two.address, "/").status == 200, "another replica still answers")


def look_at_end(browser, scene):
    """What the page says when the replica is gone. It still shows what it saw."""
    before = browser.evaluate(f"({CELLS})('domains')")
    scene.one.stop()
    gone = browser.becomes("!document.getElementById('failed').hidden && document.getElementById('failed').textContent.includes('The last look failed at')", 25)
    check(gone, "the page says that the last look failed", browser.evaluate("document.getElementById('failed').textContent"))
    after = browser.evaluate(f"({CELLS})('domains')")
    check([row[:6] for row in after] == [row[:6] for row in before], "and still shows what it saw", after)


PARTS = {"texts": look_at_texts, "rules": look_at_rules, "paths": look_at_paths, "bad": look_at_bad, "hosts": look_at_hosts,
         "slow": look_at_slow, "prometheus": look_at_prometheus, "page": look_at_page}


def main():
    words = argparse.ArgumentParser(add_help=False)
    words.add_argument("--stand-in", action="store_true")
    words.add_argument("--pictures")
    words.add_argument("parts", nargs="*", choices=[*PARTS, []])
    given = words.parse_args()
    if not given.stand_in and not has_health(find_program()):
        sys.exit("health: the program's replica has no --health, so only --stand-in can be tried")
    if given.pictures:
        Path(given.pictures).mkdir(parents=True, exist_ok=True)
    with temporary() as folder, Scene(Path(folder), given.stand_in) as scene:
        if find_browser() and (not given.parts or "page" in given.parts):
            look_at_without_script(scene)
        for name, part in PARTS.items():
            if not given.parts or name in given.parts:
                began, room = time.monotonic(), Path(folder) / f"room-{name}"
                room.mkdir()
                try:
                    part(scene, room, **({"pictures": given.pictures} if name == "page" else {}))
                except Lacking as lack:
                    left_out(name, lack)
                except (AssertionError, OSError, ValueError) as why:
                    check(False, f"{name} goes to its end", why)
                print(f"-- {name}: {time.monotonic() - began:.0f} s", flush=True)
    print(f"{reported} things are not so")
    sys.exit(1 if reported else 0)


if __name__ == "__main__":
    main()

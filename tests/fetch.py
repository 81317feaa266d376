#!/usr/bin/env python3
"""Runs deploy/fedbundle-fetch against TLS servers on 127.0.0.1, good and bad ones.

The servers are those of Python and `openssl s_server`; openssl makes the certificates here.
Each case has a folder, a configuration and servers of its own, and looks at what is logged, at the
exit status, at the polls file and at what `fedbundle bundle` prints afterwards.

It needs python3 and openssl. The program is the one that $FEDBUNDLE names, or else
the one that ./fedbundle runs.

usage: fetch [WORD..]   runs the cases whose name has one of the words, or all; a line for each, and
    the status is 1 if one failed
"""
from __future__ import annotations

import base64
import contextlib
import fcntl
import http.server
import importlib.machinery
import importlib.util
import json
import os
import re
import signal
import socket
import ssl
import subprocess
import sys
import tempfile
import threading
import time
import traceback
from collections.abc import Callable
from dataclasses import dataclass, field
from hashlib import sha256
from pathlib import Path

sys.dont_write_bytecode = True
sys.path.insert(0, str(Path(__file__).resolve().parent / "lib"))
from harness import HANG, find_program  # noqa: E402
from needs import require  # noqa: E402

TOP = Path(__file__).resolve().parent.parent
FETCH = TOP / "deploy/fedbundle-fetch"
# Where the module lies that the scripts share.
sys.path.insert(0, str(FETCH.parent))
ENDPOINT = "spiffe://b.test/spire/server"
NO_PATH = "the certificate's path ends in no authority of the current bundle of b.test"


class Wrong(Exception):
    """What is not as it should be."""


def want(right: bool, what: str, seen: object) -> None:
    if not right:
        raise Wrong(f"{what}: {seen}")


def until(right: Callable[[], bool], what: str) -> None:
    """Waits for something, and not for ever."""
    end = time.monotonic() + HANG
    while not right():
        want(time.monotonic() < end, f"{what} wanted", "nothing came")
        time.sleep(0.02)


def openssl(*words: str | Path, given: bytes = b"") -> bytes:
    ran = subprocess.run(["openssl", *map(str, words)], input=given, capture_output=True)
    if ran.returncode:
        raise Wrong(f"openssl {words[0]}: {ran.stderr.decode(errors='replace')}")
    return ran.stdout


# Certificates and bundles.


@dataclass(frozen=True)
class Pair:
    """A certificate and its key, and certificates that a server sends with it."""

    path: Path
    key: Path

    def der(self) -> bytes:
        return openssl("x509", "-in", self.path, "-outform", "DER")

    def id(self) -> str:
        return sha256(self.der()).hexdigest()

    def jwk(self) -> dict:
        point = openssl("pkey", "-in", self.key, "-pubout", "-outform", "DER")[-64:]
        x, y = (base64.urlsafe_b64encode(part).rstrip(b"=").decode() for part in
                (point[:32], point[32:]))
        x5c = [base64.b64encode(self.der()).decode()]
        return {"use": "x509-svid", "kty": "EC", "crv": "P-256", "x": x, "y": y, "x5c": x5c}


class Maker:
    """Makes certificates in a folder."""

    def __init__(self, folder: Path) -> None:
        self.folder = folder
        self.count = 0

    def make(self, issuer: Pair | None, lines: list[str], days: int = 10, name: str = "") -> Pair:
        """A certificate with these extensions. All authorities have one name, as SPIRE's have."""
        self.count += 1
        path, key = (self.folder / f"{self.count}.{end}" for end in ("pem", "key"))
        asked, wanted = (self.folder / f"{self.count}.{end}" for end in ("csr", "ext"))
        wanted.write_text("".join(f"{line}\n" for line in lines))
        subject = f"/C=US/O={name or 'SPIFFE'}"
        curve = ["-newkey", "ec", "-pkeyopt", "ec_paramgen_curve:P-256", "-nodes"]
        openssl("req", "-new", *curve, "-subj", subject, "-keyout", key, "-out", asked)
        by = ["-CA", issuer.path, "-CAkey", issuer.key] if issuer else ["-signkey", key]
        serial = ["-set_serial", str(1000 + self.count), "-days", str(days)]
        openssl("x509", "-req", "-in", asked, *by, *serial, "-extfile", wanted, "-out", path)
        return Pair(path, key)

    def authority(self, issuer: Pair | None = None, name: str = "", ids: bool = True) -> Pair:
        lines = ["basicConstraints=critical,CA:TRUE", "keyUsage=critical,keyCertSign,cRLSign"]
        lines += ["subjectAltName=URI:spiffe://b.test", f"subjectKeyIdentifier={hash_or(ids)}"]
        return self.make(issuer, lines, name=name)

    def leaf(self, issuer: Pair, names: str = f"URI:{ENDPOINT}", days: int = 10,
             constraints: str = "CA:FALSE", usage: str = "digitalSignature",
             ids: bool = True) -> Pair:
        lines = [f"basicConstraints=critical,{constraints}", f"keyUsage=critical,{usage}"]
        lines += ["extendedKeyUsage=serverAuth,clientAuth"]
        lines += [f"authorityKeyIdentifier={'keyid' if ids else 'none'}"]
        if names:
            lines += [f"subjectAltName={names}"]
        return self.make(issuer, lines, days, "leaf")


def hash_or(ids: bool) -> str:
    return "hash" if ids else "none"


def chain(leaf: Pair, *others: Pair) -> Pair:
    """The leaf, with other certificates that the server sends behind it."""
    path = leaf.path.with_suffix(".chain")
    path.write_bytes(b"".join(pair.path.read_bytes() for pair in (leaf, *others)))
    return Pair(path, leaf.key)


def bundle(sequence: int, *authorities: Pair) -> dict:
    keys = [authority.jwk() for authority in authorities]
    return {"keys": keys, "spiffe_sequence": sequence, "spiffe_refresh_hint": 60}


# Servers.

Behaviour = Callable[[http.server.BaseHTTPRequestHandler], None]


def answer(body: bytes, status: int = 200, more: dict[str, str] | None = None) -> Behaviour:
    """A server that answers this."""

    def behave(handler: http.server.BaseHTTPRequestHandler) -> None:
        handler.send_response(status)
        for name, value in ({"Content-Length": str(len(body))} | (more or {})).items():
            handler.send_header(name, value)
        handler.end_headers()
        handler.wfile.write(body)

    return behave


def serves(document: object) -> Behaviour:
    return answer(json.dumps(document).encode())


def drips(handler: http.server.BaseHTTPRequestHandler) -> None:
    """A server that sends a byte a second."""
    handler.send_response(200)
    handler.end_headers()
    while True:
        handler.wfile.write(b" ")
        time.sleep(1)


def pours(body: bytes, chunked: bool) -> Behaviour:
    """A server that does not send the length first."""

    def behave(handler: http.server.BaseHTTPRequestHandler) -> None:
        handler.protocol_version = "HTTP/1.1"
        handler.send_response(200)
        if chunked:
            handler.send_header("Transfer-Encoding", "chunked")
        handler.end_headers()
        for at in range(0, len(body), 60_000):
            part = body[at : at + 60_000]
            handler.wfile.write(b"%x\r\n%b\r\n" % (len(part), part) if chunked else part)
        handler.wfile.write(b"0\r\n\r\n" if chunked else b"")

    return behave


class Quiet(http.server.ThreadingHTTPServer):
    """A server without a log. Clients may leave when they like. Each handshake is a connection."""

    daemon_threads = True
    connections = 0

    def get_request(self) -> tuple[socket.socket, object]:
        self.connections += 1
        return super().get_request()

    def handle_error(self, _request: object, _client: object) -> None:
        pass


class QuietSix(Quiet):
    address_family = socket.AF_INET6


def serve(leaf: Pair, behave: Behaviour, host: str = "127.0.0.1", port: int = 0) -> Quiet:
    """Starts a server that shows this certificate."""

    class Handler(http.server.BaseHTTPRequestHandler):
        timeout = HANG

        def do_GET(self) -> None:
            self.server.asked.append((self.path, self.headers["Host"]))
            behave(self)

        def log_message(self, *_words: object) -> None:
            pass

    server = (QuietSix if ":" in host else Quiet)((host, port), Handler)
    server.asked = []
    context = ssl.SSLContext(ssl.PROTOCOL_TLS_SERVER)
    context.load_cert_chain(leaf.path, leaf.key)
    server.socket = context.wrap_socket(
        server.socket, server_side=True, do_handshake_on_connect=False
    )
    threading.Thread(target=server.serve_forever, args=(0.05,), daemon=True).start()
    return server


def raw_server(behave: Callable[[socket.socket], None]) -> int:
    """A server without TLS. Returns its port."""
    listener = socket.create_server(("127.0.0.1", 0))

    def go() -> None:
        while True:
            link, _ = listener.accept()
            threading.Thread(target=behave, args=(link,), daemon=True).start()

    threading.Thread(target=go, daemon=True).start()
    return listener.getsockname()[1]


def closed_port() -> int:
    with socket.create_server(("127.0.0.1", 0)) as listener:
        return listener.getsockname()[1]


# Cases.


@dataclass(frozen=True)
class Ran:
    """What a run of fedbundle-fetch did."""

    status: int
    lines: list[str]
    seconds: float

    def wants(self, status: int, *lines: str) -> None:
        """Asks for this status, and for these lines in any order."""
        want(self.status == status, f"status {status} wanted", (self.status, self.lines))
        want(sorted(self.lines) == sorted(lines), f"{list(lines)} wanted", self.lines)


@dataclass
class Room:
    """A folder with a configuration and a state, and what a case uses."""

    folder: Path
    program: str
    made: Maker
    a: Pair
    b: Pair
    leaf_a: Pair
    leaf_b: Pair
    relationships: list[dict] = field(default_factory=list)
    seeds: list[dict] = field(default_factory=list)
    server: Quiet | None = None

    def relate(self, place: int | str, domain: str = "b.test", endpoint: str = ENDPOINT) -> None:
        """Adds a relationship, with the port of 127.0.0.1 or the URL where it is served."""
        url = place if isinstance(place, str) else f"https://127.0.0.1:{place}/bundle"
        one = {"domain": domain, "endpoint": endpoint, "profile": "https_spiffe", "url": url}
        self.relationships = [old for old in self.relationships if old["domain"] != domain] + [one]
        self.write()

    def seed(self, domain: str, document: dict) -> None:
        self.seeds.append({"domain": domain, "bundle": document})
        self.write()

    def write(self) -> None:
        text = json.dumps({"relationships": self.relationships, "seeds": self.seeds})
        (self.folder / "config.json").write_text(text)

    def words(self, *more: str) -> list[str]:
        return [str(FETCH), "--config", "config.json", "--state", "state", *more]

    def fetch(self, *more: str) -> Ran:
        """Runs fedbundle-fetch."""
        began = time.monotonic()
        env = os.environ | {"FEDBUNDLE": self.program}
        ran = subprocess.run(
            self.words(*more), cwd=self.folder, env=env, capture_output=True, text=True, timeout=HANG
        )
        want("Traceback" not in ran.stderr, "no traceback wanted", ran.stderr)
        want(ran.stdout == "" or "--help" in more, "no output wanted", ran.stdout)
        return Ran(ran.returncode, ran.stderr.splitlines(), time.monotonic() - began)

    def ask(self, word: str, *more: str, given: bytes = b"") -> bytes:
        """Runs fedbundle."""
        words = [self.program, word, "--config", "config.json", "--state", "state", *more]
        return subprocess.run(words, cwd=self.folder, input=given, capture_output=True).stdout

    def sequence(self, domain: str = "b.test") -> int | None:
        """The sequence of the current bundle."""
        text = self.ask("bundle", "--domain", domain)
        return json.loads(text)["spiffe_sequence"] if text else None

    def polls(self) -> list[str]:
        """The lines of the polls file, without their times."""
        text = (self.folder / "state.polls").read_text()
        return [line.rsplit(" ", 1)[0] for line in text.splitlines()]

    def forget_polls(self) -> None:
        (self.folder / "state.polls").unlink(missing_ok=True)

    def one(self, leaf: Pair, behave: Behaviour, host: str = "127.0.0.1") -> Quiet:
        """Seeds b.test with sequence 1 under key A, and starts its one server, in the place of the
        one before: another port would be another configuration."""
        if not self.seeds:
            self.seed("b.test", bundle(1, self.a))
        port = 0
        if self.server:
            port = self.server.server_port
            self.stop()
        self.server = serve(leaf, behave, host, port)
        shown = f"[{host}]" if ":" in host else host
        self.relate(f"https://{shown}:{self.server.server_port}/bundle?form=jwks")
        return self.server

    def stop(self) -> None:
        if self.server:
            self.server.shutdown()
            self.server.server_close()

    def fails(self, leaf: Pair, behave: Behaviour, reason: str, *more: str) -> Ran:
        """A fetch that has to fail for this reason, and to leave everything as it was."""
        self.one(leaf, behave)
        ran = self.fetch(*more)
        ran.wants(1, f"b.test: failed: {reason}")
        want(self.polls() == ["b.test fail"], "a failed poll wanted", self.polls())
        want(not (self.folder / "state").exists(), "no state wanted", "there is one")
        return ran

    def refuses(self, leaf: Pair, reason: str) -> None:
        """A certificate that has to be refused before anything is asked."""
        server = self.one(leaf, serves(bundle(2, self.a)))
        self.fetch().wants(1, f"b.test: failed: {reason}")
        want(server.asked == [], "no question wanted", server.asked)
        want(not (self.folder / "state").exists(), "no state wanted", "there is one")
        self.forget_polls()


CASES: list[tuple[str, Callable[[Room], None]]] = []


def case(name: str) -> Callable[[Callable[[Room], None]], Callable[[Room], None]]:
    def add(run: Callable[[Room], None]) -> Callable[[Room], None]:
        CASES.append((name, run))
        return run

    return add


@case("a good fetch")
def good(room: Room) -> None:
    server = room.one(room.leaf_a, serves(bundle(2, room.a)))
    room.fetch().wants(0, f"b.test: observed sequence 2 under key {room.a.id()[:6]}..")
    want(server.asked == [("/bundle?form=jwks", f"127.0.0.1:{server.server_port}")], "one", server)
    want(room.sequence() == 2, "sequence 2 wanted", room.sequence())
    want(room.polls() == ["b.test ok"], "a poll wanted", room.polls())
    for name in "state.polls", "state.polls.lock", "state.polls.keys":
        mode = (room.folder / name).stat().st_mode & 0o777
        want(mode == 0o600, f"{name} with mode 600 wanted", oct(mode))
    want(room.ask("polls", "--now", str(int(time.time()) + 50),
                  given=(room.folder / "state.polls").read_bytes()).startswith(b"b.test 1"),
         "polls that fedbundle takes wanted", room.polls())


@case("a run by root leaves nothing that the folder's owner cannot read")
def by_root(room: Room) -> None:
    names = "state.polls", "state.polls.lock", "state.polls.keys"
    # Another user cannot give files away: then the owner is the same, and the mode alone is seen.
    own = os.geteuid(), os.getegid()
    first, later = ((65534, 65533), (65532, 65531)) if own[0] == 0 else (own, own)
    room.one(room.leaf_a, serves(bundle(2, room.a, room.b)))
    os.chown(room.folder, *first)
    want(room.fetch("--once", "b.test").status == 0, "a good fetch wanted", names)
    want(access(room, names) == {(*first, 0o600)}, "the owner wanted", access(room, names))
    for name in names:
        os.chown(room.folder / name, *later)
        os.chmod(room.folder / name, 0o640)
    before, written = files(room, names), int(time.time())
    until(lambda: time.time() >= written + 1, "another second of the poll")
    room.one(room.leaf_b, serves(bundle(3, room.b)))
    want(room.fetch("--once", "b.test").status == 0, "a good fetch wanted", names)
    kept = [one == two for one, two in zip(before, files(room, names))]
    want(kept == [False, True, False], "polls and keys in new files wanted", kept)
    want(access(room, names) == {(*later, 0o640)}, "what there was wanted", access(room, names))


def files(room: Room, names: tuple[str, ...]) -> list[int]:
    return [(room.folder / name).stat().st_ino for name in names]


def access(room: Room, names: tuple[str, ...]) -> set[tuple[int, int, int]]:
    """The owners, groups and modes of these files."""
    found = [(room.folder / name).stat() for name in names]
    return {(one.st_uid, one.st_gid, one.st_mode & 0o777) for one in found}


@case("an unchanged bundle, written in another way")
def unchanged(room: Room) -> None:
    text = json.dumps(dict(reversed(bundle(1, room.a).items())), indent=4).encode()
    room.one(room.leaf_a, answer(text))
    room.fetch().wants(0, "b.test: unchanged")
    want(not (room.folder / "state").exists(), "no state wanted", "there is one")
    want(room.polls() == ["b.test ok"], "a poll wanted", room.polls())
    room.fetch().wants(0)
    room.fetch("--once", "b.test").wants(0, "b.test: unchanged")


@case("a server that is down")
def down(room: Room) -> None:
    room.seed("b.test", bundle(1, room.a))
    room.relate(closed_port())
    room.fetch().wants(1, "b.test: failed: connection refused")
    want(room.polls() == ["b.test fail"], "a failed poll wanted", room.polls())


@case("a server that sends a byte a second")
def slow(room: Room) -> None:
    ran = room.fails(room.leaf_a, drips, "timed out after 2 s", "--timeout", "2")
    want(ran.seconds < 50, "some two seconds wanted", ran.seconds)


@case("servers that say nothing, or a byte of the handshake a second")
def silent(room: Room) -> None:
    def trickle(link: socket.socket) -> None:
        with contextlib.suppress(OSError):
            for byte in b"\x16\x03\x03\x40\x00" + bytes(60):
                time.sleep(1)
                link.sendall(bytes([byte]))

    room.seed("b.test", bundle(1, room.a, room.b))
    for behave in (lambda link: time.sleep(60)), trickle:
        room.relate(raw_server(behave))
        ran = room.fetch("--timeout", "2")
        ran.wants(1, "b.test: failed: timed out after 2 s")
        want(ran.seconds < 50, "some two seconds wanted", ran.seconds)
        room.forget_polls()


@case("servers that speak no TLS, or hang up")
def no_tls(room: Room) -> None:
    def plain(link: socket.socket) -> None:
        link.sendall(b"HTTP/1.1 200 OK\r\n\r\n{}")
        link.close()

    room.seed("b.test", bundle(1, room.a))
    for behave, words in (plain, "TLS failed: "), (lambda link: link.close(), ""):
        room.relate(raw_server(behave))
        ran = room.fetch()
        want(ran.status == 1 and len(ran.lines) == 1, "one failure wanted", ran)
        want(ran.lines[0].startswith(f"b.test: failed: {words}"), f"{words} wanted", ran.lines)
        room.forget_polls()


@case("answers that are no HTTP, or cut")
def cut(room: Room) -> None:
    def hang_up(handler: http.server.BaseHTTPRequestHandler) -> None:
        handler.connection.unwrap()

    def garbage(handler: http.server.BaseHTTPRequestHandler) -> None:
        handler.wfile.write(b"\x1b[31mnone\r\n\r\n")

    def half_a_chunk(handler: http.server.BaseHTTPRequestHandler) -> None:
        handler.wfile.write(b"HTTP/1.1 200 OK\r\nTransfer-Encoding: chunked\r\n\r\n9\r\n{}")

    short = answer(b"{}", more={"Content-Length": "100"})
    for behave, reason in [
        (hang_up, "the server closed the connection without an answer"),
        (garbage, "the answer is no HTTP: \\x1b[31mnone\\x0d\\x0a"),
        (half_a_chunk, "the answer is cut"),
        (short, "the answer is cut: 98 bytes are missing"),
    ]:
        room.fails(room.leaf_a, behave, reason)
        room.forget_polls()


@case("an expired leaf")
def expired(room: Room) -> None:
    leaf = room.made.leaf(room.a, days=-1)
    reason = "the certificate is out of its time: certificate has expired"
    room.refuses(leaf, reason)
    room.seeds.clear()
    room.seed("b.test", bundle(1, room.a, room.b))
    room.refuses(leaf, reason)


@case("a leaf of another authority, with and without key ids")
def wrong_authority(room: Room) -> None:
    room.refuses(room.leaf_b, NO_PATH)
    room.refuses(chain(room.leaf_b, room.b), NO_PATH)
    other = room.made.authority(ids=False)
    room.refuses(room.made.leaf(other, ids=False), NO_PATH)
    named = room.made.authority(name="Other")
    room.refuses(chain(room.made.leaf(named), named), NO_PATH)


@case("a leaf that signed itself")
def self_signed(room: Room) -> None:
    lines = [f"subjectAltName=URI:{ENDPOINT}", "basicConstraints=critical,CA:FALSE"]
    room.refuses(room.made.make(None, lines, name="leaf"), NO_PATH)


@case("two URIs, none, and one that is no SPIFFE ID")
def uris(room: Room) -> None:
    two = room.made.leaf(room.a, f"URI:{ENDPOINT},URI:spiffe://b.test/other")
    room.refuses(two, "the certificate has two URIs")
    twice = room.made.leaf(room.a, f"URI:{ENDPOINT},DNS:b.test,URI:{ENDPOINT}")
    room.refuses(twice, "the certificate has two URIs")
    many = room.made.leaf(room.a, ",".join(f"URI:spiffe://b.test/{n}" for n in range(4)))
    room.refuses(many, "the certificate has 4 URIs")
    room.refuses(room.made.leaf(room.a, ""), "the certificate has no URI")
    room.refuses(room.made.leaf(room.a, "DNS:b.test,IP:127.0.0.1"), "the certificate has no URI")
    web = room.made.leaf(room.a, "URI:https://b.test/spire/server")
    no_id = "the certificate's URI is no SPIFFE ID: https://b.test/spire/server"
    room.refuses(web, no_id)


@case("one URI beside other names")
def other_names(room: Room) -> None:
    leaf = room.made.leaf(room.a, f"DNS:x.test,URI:{ENDPOINT},IP:10.0.0.1")
    room.one(leaf, serves(bundle(2, room.a)))
    room.fetch().wants(0, f"b.test: observed sequence 2 under key {room.a.id()[:6]}..")


@case("a CA as leaf, the authority itself, keyCertSign, cRLSign")
def no_leaf(room: Room) -> None:
    of_authority = "the certificate is that of an authority (CA)"
    signing = "keyCertSign,digitalSignature"
    room.refuses(room.made.leaf(room.a, constraints="CA:TRUE", usage=signing), of_authority)
    room.refuses(room.a, "the certificate was refused: unsuitable certificate purpose")
    room.refuses(room.made.leaf(room.a, usage=signing),
                 "the certificate may sign certificates (keyCertSign)")
    room.refuses(room.made.leaf(room.a, usage="cRLSign,digitalSignature"),
                 "the certificate may sign revocation lists (cRLSign)")
    for more in [], ["basicConstraints=critical,CA:TRUE"]:
        listed = room.made.make(None, [f"subjectAltName=URI:{ENDPOINT}", *more])
        room.seeds.clear()
        room.seed("b.test", bundle(1, listed))
        room.refuses(listed, of_authority)


@case("another endpoint's ID")
def wrong_endpoint(room: Room) -> None:
    for other in "spiffe://b.test/spire/servers", "spiffe://b.test/spire/Server", "spiffe://b.test":
        leaf = room.made.leaf(room.a, f"URI:{other}")
        room.refuses(leaf, f"the endpoint is {other}, and not {ENDPOINT}")


@case("a chain with an intermediate, and with two")
def intermediate(room: Room) -> None:
    first = room.made.authority(room.a, "Between")
    second = room.made.authority(first, "Between the two")
    key = room.a.id()[:6]
    room.one(chain(room.made.leaf(first), first), serves(bundle(2, room.a)))
    room.fetch().wants(0, f"b.test: observed sequence 2 under key {key}..")
    room.one(chain(room.made.leaf(second), second, first, room.a), serves(bundle(3, room.a)))
    room.fetch("--once", "b.test").wants(0, f"b.test: observed sequence 3 under key {key}..")


@case("an intermediate that is not sent, or is none")
def no_intermediate(room: Room) -> None:
    between = room.made.authority(room.a, "Between")
    room.refuses(room.made.leaf(between), NO_PATH)
    leaf = room.made.leaf(chain(room.leaf_a), names=f"URI:{ENDPOINT}")
    reason = "the certificate was refused: invalid CA certificate"
    room.refuses(chain(leaf, room.leaf_a), reason)


@case("an authority that another one signed")
def not_a_root(room: Room) -> None:
    above = room.made.authority(name="Above")
    listed = room.made.authority(above, "Listed")
    room.seed("b.test", bundle(1, listed))
    leaf = room.made.leaf(listed)
    room.one(chain(leaf, listed, above), serves(bundle(2, listed)))
    room.fetch().wants(0, f"b.test: observed sequence 2 under key {listed.id()[:6]}..")


@case("404 with a page, and 302")
def statuses(room: Room) -> None:
    page = b"<html>" + b"not here" * 1000
    room.fails(room.leaf_a, answer(page, 404), "HTTP status 404")
    room.forget_polls()
    moved = answer(b"", 302, {"Location": "https://127.0.0.1/"})
    room.fails(room.leaf_a, moved, "HTTP status 302")
    room.forget_polls()
    whole = json.dumps(bundle(2, room.a)).encode()
    room.fails(room.leaf_a, answer(whole, 206), "HTTP status 206")


@case("a body of 10 MB, with a length, without, and in chunks")
def long_body(room: Room) -> None:
    text = b" " * 10_000_000 + b"{}"
    for behave in answer(text), pours(text, False), pours(text, True):
        room.fails(room.leaf_a, behave, "the answer is longer than 1048576 bytes")
        room.forget_polls()


@case("a body of 1,048,576 bytes, and in chunks, and one byte more")
def longest_body(room: Room) -> None:
    text = json.dumps(bundle(1, room.a)).encode()
    for behave in answer(text.ljust(1_048_576)), pours(text.ljust(1_048_576), True):
        room.one(room.leaf_a, behave)
        room.fetch().wants(0, "b.test: unchanged")
        room.forget_polls()
    more = "the answer is longer than 1048576 bytes"
    room.fails(room.leaf_a, pours(text.ljust(1_048_577), False), more)


@case("bodies that are no bundle")
def no_bundle(room: Room) -> None:
    for body, code in (b"<html>", "B2 NotJson"), (b"", "B2 NotJson"), (b"{}", "B4 NoKeys"):
        room.fails(room.leaf_a, answer(body), f"the answer is not a bundle: {code}")
        room.forget_polls()


@case("a rollover in two steps")
def rollover(room: Room) -> None:
    room.one(room.leaf_a, serves(bundle(1, room.a)))
    room.fetch().wants(0, "b.test: unchanged")
    room.one(room.leaf_b, serves(bundle(2, room.b)))
    room.fetch("--once", "b.test").wants(1, f"b.test: failed: {NO_PATH}")
    room.one(room.leaf_a, serves(bundle(2, room.a, room.b)))
    seen = f"b.test: observed sequence 2 under key {room.a.id()[:6]}.."
    room.fetch("--once", "b.test").wants(0, seen)
    room.one(room.leaf_b, serves(bundle(3, room.b)))
    seen = f"b.test: observed sequence 3 under key {room.b.id()[:6]}.."
    room.fetch("--once", "b.test").wants(0, seen)
    want(room.sequence() == 3, "sequence 3 wanted", room.sequence())
    room.one(room.leaf_a, serves(bundle(4, room.a)))
    room.fetch("--once", "b.test").wants(1, f"b.test: failed: {NO_PATH}")
    want(room.polls() == ["b.test ok", "b.test fail"], "two polls wanted", room.polls())


@case("several authorities, of which one is no certificate")
def several_authorities(room: Room) -> None:
    garbage, two = room.a.jwk(), room.a.jwk()
    garbage["x5c"] = [base64.b64encode(b"none").decode()]
    two["x5c"] = [base64.b64encode(room.a.der() + room.b.der()).decode()]
    listed = bundle(1, room.a, room.b)
    room.seed("b.test", listed | {"keys": [garbage, *listed["keys"]]})
    sequence = 1
    for leaf, authority in (room.leaf_a, room.a), (room.leaf_b, room.b):
        sequence += 1
        room.one(leaf, serves(bundle(sequence, room.a, room.b)))
        told = f"b.test: observed sequence {sequence} under key {authority.id()[:6]}.."
        room.fetch("--once", "b.test").wants(0, told)
    (room.folder / "state").unlink()
    room.forget_polls()
    room.seeds.clear()
    room.seed("b.test", bundle(1) | {"keys": [garbage, two]})
    for leaf in room.leaf_a, room.leaf_b:
        room.refuses(leaf, NO_PATH)


@case("a key that is distrusted")
def distrusted(room: Room) -> None:
    room.one(room.leaf_a, serves(bundle(2, room.a)))
    room.ask("distrust", "--domain", "b.test", "--key", room.a.id())
    none = "each X.509 authority of the current bundle of b.test is distrusted"
    room.fetch().wants(1, f"b.test: failed: {none}")
    server = room.one(room.leaf_a, serves(bundle(1, room.a)))
    room.fetch("--once", "b.test").wants(1, f"b.test: failed: {none}")
    want(server.connections == 0, "no handshake wanted", server.connections)


def in_order(room: Room) -> list[tuple[Pair, Pair]]:
    """Both authorities, each with its leaf, as the current bundle of b.test lists them."""
    listed = json.loads(room.ask("bundle", "--domain", "b.test"))["keys"]
    first = base64.b64decode(listed[0]["x5c"][0])
    both = [(room.a, room.leaf_a), (room.b, room.leaf_b)]
    return sorted(both, key=lambda pair: pair[0].der() != first)


@case("distrusted authorities are not tried")
def not_tried(room: Room) -> None:
    room.seed("b.test", bundle(1, room.a, room.b))
    (gone, leaf_gone), (left, leaf_left) = in_order(room)
    server = room.one(leaf_left, serves(bundle(2, room.a, room.b)))
    room.ask("distrust", "--domain", "b.test", "--key", gone.id())
    room.fetch().wants(0, f"b.test: observed sequence 2 under key {left.id()[:6]}..")
    want(server.connections == 1, "one handshake wanted", server.connections)
    server = room.one(leaf_gone, serves(bundle(3, room.a, room.b)))
    (room.folder / "state.polls.keys").write_text(f"b.test {gone.id()}\n")
    none = f"{NO_PATH} that is not distrusted"
    room.fetch("--once", "b.test").wants(1, f"b.test: failed: {none}")
    want((server.connections, server.asked) == (1, []), "a handshake alone wanted", server.asked)


@case("a key that is distrusted in another domain than the endpoint's")
def distrusted_elsewhere(room: Room) -> None:
    room.seed("b.test", bundle(1, room.a))
    room.seed("c.test", bundle(1, room.a))
    leaf = room.made.leaf(room.a, "URI:spiffe://b.test/c")
    room.relate(serve(leaf, serves(bundle(2, room.a))).server_port, "c.test", "spiffe://b.test/c")
    room.ask("distrust", "--domain", "c.test", "--key", room.a.id())
    room.fetch().wants(0, f"c.test: observed sequence 2 under key {room.a.id()[:6]}..")
    room.ask("distrust", "--domain", "b.test", "--key", room.a.id())
    none = "each X.509 authority of the current bundle of b.test is distrusted"
    room.fetch("--once", "c.test").wants(1, f"c.test: failed: {none}")


@case("the last good authority is tried first")
def last_good(room: Room) -> None:
    room.seed("b.test", bundle(1, room.a, room.b))
    first, second = in_order(room)
    keys, sequence = room.folder / "state.polls.keys", 1

    def looks(pair: tuple[Pair, Pair], handshakes: int) -> None:
        """A fetch whose endpoint is under this authority, and sees as many handshakes."""
        nonlocal sequence
        sequence += 1
        server = room.one(pair[1], serves(bundle(sequence, room.a, room.b)))
        told = f"b.test: observed sequence {sequence} under key {pair[0].id()[:6]}.."
        room.fetch("--once", "b.test").wants(0, told)
        want(server.connections == handshakes, f"{handshakes} wanted", server.connections)
        want(keys.read_text() == f"b.test {pair[0].id()}\n", "the key wanted", keys.read_text())

    looks(second, 2)
    looks(second, 1)
    looks(first, 2)
    looks(first, 1)
    keys.write_bytes(b"\xff\nb.test none\n")
    looks(second, 2)
    keys.unlink()
    keys.symlink_to(keys.name)
    looks(second, 2)
    keys.write_text(f"b.test {'0' * 64}\n")
    looks(second, 2)
    keys.write_text(f"gone.test {first[0].id()}\nb.test {second[0].id()}\n")
    looks(second, 1)


@case("a sequence number that went back, and none")
def went_back(room: Room) -> None:
    nine = bundle(9, room.a)
    room.one(room.leaf_a, serves(nine))
    room.fetch().wants(0, f"b.test: observed sequence 9 under key {room.a.id()[:6]}..")
    no_number = {"keys": nine["keys"], "spiffe_refresh_hint": 60}
    for document, told in [
        (bundle(3, room.a), "observed sequence 3, but sequence 9 stays current"),
        (no_number, "observed a bundle without a sequence number, which is not current"),
        (nine | {"spiffe_refresh_hint": 59},
         "observed sequence 9, but another bundle of sequence 9 stays current"),
    ]:
        room.one(room.leaf_a, serves(document))
        for _ in range(2):
            room.fetch("--once", "b.test").wants(1, f"b.test: failed: {told}")
        want(room.sequence() == 9, "sequence 9 wanted", room.sequence())
    want(room.polls() == ["b.test ok"] + 6 * ["b.test fail"], "failed polls wanted", room.polls())
    room.one(room.leaf_a, serves(bundle(10, room.a)))
    told = f"b.test: observed sequence 10 under key {room.a.id()[:6]}.."
    room.fetch("--once", "b.test").wants(0, told)


@case("a bundle without a sequence number that is current")
def no_sequence(room: Room) -> None:
    first = bundle(1, room.a)
    del first["spiffe_sequence"]
    room.seed("b.test", first)
    later = first | {"spiffe_refresh_hint": 61}
    room.one(room.leaf_a, serves(later))
    told = f"observed a bundle without a sequence number under key {room.a.id()[:6]}.."
    room.fetch().wants(0, f"b.test: {told}")


@case("a program whose device fails")
def device(room: Room) -> None:
    room.one(room.leaf_a, serves(bundle(2, room.a)))
    program = room.folder / "program"
    fails = 'if [ "$1" = observe ]; then echo "fedbundle: E3 Io" >&2; exit 3; fi'
    program.write_text(f'#!/bin/sh\n{fails}\nexec {room.program} "$@"\n')
    program.chmod(0o700)
    told = f"b.test: failed: {program} observe failed: E3 Io"
    room.fetch("--program", str(program)).wants(3, told)
    want(room.polls() == ["b.test fail"], "a failed poll wanted", room.polls())


def staying(room: Room, word: str, first: str = "") -> str:
    """A program that keeps running if it is called with this word, and otherwise is fedbundle."""
    program = room.folder / f"stays-at-{word}"
    stays = f'if [ "$1" = {word} ]; then {first} exec sleep 30; fi'
    program.write_text(f'#!/bin/sh\n{stays}\nexec {room.program} "$@"\n')
    program.chmod(0o700)
    return str(program)


@case("a program that takes too long, at each word")
def too_long(room: Room) -> None:
    room.one(room.leaf_a, serves(bundle(2, room.a)))
    for word in "polls", "status":
        program = staying(room, word)
        ran = room.fetch("--program", program, "--wait", "1")
        told = f"{program} {word} took longer than 1 s, and was ended"
        ran.wants(3, f"fedbundle-fetch: {told}")
        want(0.9 < ran.seconds < 15, "some seconds wanted", ran.seconds)
    want(not (room.folder / "state.polls").exists(), "no poll wanted", "there is one")
    for word in "bundle", "canon", "observe":
        program = staying(room, word)
        ran = room.fetch("--program", program, "--wait", "1.5")
        told = f"{program} {word} took longer than 1.5 s, and was ended"
        ran.wants(1, f"b.test: failed: {told}")
        want(1.4 < ran.seconds < 15, "some seconds wanted", ran.seconds)
        want(room.polls() == ["b.test fail"], "a failed poll wanted", room.polls())
        room.forget_polls()
    room.fetch().wants(0, f"b.test: observed sequence 2 under key {room.a.id()[:6]}..")


@case("a program that takes too long, and goes on when it is asked to end")
def goes_on(room: Room) -> None:
    room.one(room.leaf_a, serves(bundle(2, room.a)))
    program = staying(room, "polls", "trap '' TERM; echo $$ > pid;")
    ran = room.fetch("--program", program, "--wait", "1")
    ran.wants(3, f"fedbundle-fetch: {program} polls took longer than 1 s, and was ended")
    want(3 < ran.seconds < 15, "some four seconds wanted", ran.seconds)
    pid = int((room.folder / "pid").read_text())
    want(not Path(f"/proc/{pid}").exists(), "a program that is gone wanted", pid)


@case("a program that leaves another one behind, with its output")
def leaves_one(room: Room) -> None:
    room.one(room.leaf_a, serves(bundle(2, room.a)))
    program = staying(room, "observe", "sleep 30; exit 0;")
    ran = room.fetch("--program", program, "--wait", "1")
    told = f"{program} observe took longer than 1 s, and was ended"
    ran.wants(1, f"b.test: failed: {told}")
    want(ran.seconds < 15, "some seconds wanted", ran.seconds)


@case("one domain whose call takes too long, and another one")
def too_long_of_two(room: Room) -> None:
    room.one(room.leaf_a, serves(bundle(2, room.a)))
    leaf = room.made.leaf(room.a, "URI:spiffe://b.test/c")
    server = serve(leaf, serves(bundle(7, room.b)))
    room.relate(server.server_port, "c.test", "spiffe://b.test/c")
    program = room.folder / "program"
    stays = 'case "$*" in observe*b.test/spire*) exec sleep 30;; esac'
    program.write_text(f'#!/bin/sh\n{stays}\nexec {room.program} "$@"\n')
    program.chmod(0o700)
    ran = room.fetch("--program", str(program), "--wait", "2")
    ran.wants(1, f"b.test: failed: {program} observe took longer than 2 s, and was ended",
              f"c.test: observed sequence 7 under key {room.a.id()[:6]}..")
    want(room.polls() == ["b.test fail", "c.test ok"], "two polls wanted", room.polls())


@case("a state that another command holds for a second")
def held(room: Room) -> None:
    room.one(room.leaf_a, serves(bundle(2, room.a)))
    with open(room.folder / "state.lock", "w") as file:
        fcntl.flock(file, fcntl.LOCK_EX)
        threading.Timer(2, fcntl.flock, (file, fcntl.LOCK_UN)).start()
        ran = room.fetch()
    ran.wants(0, f"b.test: observed sequence 2 under key {room.a.id()[:6]}..")
    want(ran.seconds > 1.9, "two seconds wanted", ran.seconds)


@case("a run that is killed, and the next one")
def killed(room: Room) -> None:
    room.one(room.leaf_a, serves(bundle(2, room.a)))
    leaf = room.made.leaf(room.a, "URI:spiffe://b.test/c")
    room.relate(serve(leaf, drips).server_port, "c.test", "spiffe://b.test/c")
    env = os.environ | {"FEDBUNDLE": room.program}
    with subprocess.Popen(room.words(), cwd=room.folder, env=env, stderr=subprocess.PIPE) as first:
        told = first.stderr.readline().decode()
        until((room.folder / "state.polls").exists, "a polls file")
        first.kill()
    want(told.startswith("b.test: observed sequence 2"), "one line wanted", told)
    want(room.polls() == ["b.test ok"], "one poll wanted", room.polls())
    (room.folder / "state.polls.new").write_text("b.test ok 17")
    room.fetch("--timeout", "1").wants(1, "c.test: failed: timed out after 1 s")
    want(room.polls() == ["b.test ok", "c.test fail"], "two polls wanted", room.polls())


@case("files that a run left behind, and files of others with their names")
def new_files(room: Room) -> None:
    room.one(room.leaf_a, serves(bundle(2, room.a)))
    keys = f"b.test {room.a.id()}\n"
    for left in ("", "\0" * 4096, "b", "b.test", "b.test ", "b.test fai", "b.test fail 1",
                 "b.test ok 17\nb.test", "x.test fail 17\n"):
        (room.folder / "state.polls.new").write_text(left)
        (room.folder / "state.polls.keys.new").write_text(keys[: len(left)])
        room.fetch("--once", "b.test")
        want(room.polls() == ["b.test ok"], "a poll wanted", (left, room.polls()))
        want(not (room.folder / "state.polls.new").exists(), "no new file wanted", left)
        room.forget_polls()
        (room.folder / "state.polls.keys").unlink()
    server = room.one(room.leaf_a, serves(bundle(3, room.a)))
    for name in "state.polls.new", "state.polls.keys.new":
        new = room.folder / name
        told = f"fedbundle-fetch: {name} is not the fetcher's, so it is left as it is"
        for text in "garbage", "b.test is here\n", "b.test okay", "x.test ok 1", "[]\n", "B":
            new.write_text(text)
            room.fetch("--once", "b.test").wants(3, told)
            want(new.read_text() == text, "the text wanted", (name, text))
        new.unlink()
        new.symlink_to("config.json")
        room.fetch("--once", "b.test").wants(3, f"{told}: Too many levels of symbolic links")
        want(new.is_symlink(), "the link wanted", name)
        new.unlink()
        new.mkdir()
        room.fetch("--once", "b.test").wants(3, told)
        new.rmdir()
    want(server.connections == 0, "no handshake wanted", server.connections)


@case("an endpoint in another trust domain, and a domain without a bundle")
def abroad(room: Room) -> None:
    leaf = room.made.leaf(room.a, "URI:spiffe://b.test/c")
    server = serve(leaf, serves(bundle(7, room.b)))
    room.seed("b.test", bundle(1, room.a))
    room.relate(server.server_port, "c.test", "spiffe://b.test/c")
    room.fetch().wants(0, f"c.test: observed sequence 7 under key {room.a.id()[:6]}..")
    want(room.sequence("c.test") == 7, "sequence 7 wanted", room.sequence("c.test"))
    room.fetch("--once", "c.test").wants(0, "c.test: unchanged")
    (room.folder / "state").unlink()
    room.relate(server.server_port, "d.test", "spiffe://d.test/d")
    none = "d.test has no current bundle, so nothing vouches for the endpoint"
    room.fetch("--once", "d.test").wants(1, f"d.test: failed: {none}")
    # With this, as the units have it, fedbundle says more below its line.
    os.environ["FEDBUNDLE_VERBOSE"] = "1"
    try:
        room.fetch("--once", "d.test").wants(1, f"d.test: failed: {none}")
    finally:
        del os.environ["FEDBUNDLE_VERBOSE"]
    room.seed("d.test", bundle(1))
    none = "the current bundle of d.test has no X.509 authority"
    room.fetch("--once", "d.test").wants(1, f"d.test: failed: {none}")


@case("openssl s_server -WWW and -HTTP")
def s_server(room: Room) -> None:
    room.seed("b.test", bundle(1, room.a))
    for sequence, option in (2, "-WWW"), (3, "-HTTP"):
        text = json.dumps(bundle(sequence, room.a))
        head = f"HTTP/1.1 200 OK\r\nContent-Length: {len(text)}\r\n\r\n"
        served = room.folder / "bundle"
        served.write_bytes(((head if option == "-HTTP" else "") + text).encode())
        words = ["openssl", "s_server", "-accept", "127.0.0.1:0", option]
        words += ["-cert", str(room.leaf_a.path), "-key", str(room.leaf_a.key)]
        pipes = {"stdin": subprocess.DEVNULL, "stdout": subprocess.PIPE}
        with subprocess.Popen(words, cwd=room.folder, stderr=subprocess.STDOUT, **pipes) as server:
            try:
                port = None
                while port is None:
                    line = server.stdout.readline().decode()
                    want(bool(line), "a port wanted", option)
                    found = re.match(r"ACCEPT .*:(\d+)", line)
                    port = int(found[1]) if found else None
                room.relate(port)
                (room.folder / "state").unlink(missing_ok=True)
                told = f"b.test: observed sequence {sequence} under key {room.a.id()[:6]}.."
                room.fetch("--once", "b.test").wants(0, told)
            finally:
                server.kill()


@case("IPv6")
def ip_six(room: Room) -> None:
    server = room.one(room.leaf_a, serves(bundle(2, room.a)), "::1")
    room.fetch().wants(0, f"b.test: observed sequence 2 under key {room.a.id()[:6]}..")
    want(server.asked[0][1] == f"[::1]:{server.server_port}", "the host wanted", server.asked)


@case("a host's name")
def host_name(room: Room) -> None:
    server = room.one(room.leaf_a, serves(bundle(2, room.a)))
    room.relate(f"https://localhost:{server.server_port}/")
    room.fetch().wants(0, f"b.test: observed sequence 2 under key {room.a.id()[:6]}..")
    want(server.asked[0][0] == "/", "the path wanted", server.asked)
    room.relate("https://b.invalid/")
    told = "b.test: failed: the host b.invalid has no address"
    (room.folder / "state").unlink()
    room.fetch("--once", "b.test").wants(1, told)


@case("several domains at once")
def several(room: Room) -> None:
    lines = []
    for place in range(6):
        domain = f"d{place}.test"
        endpoint = f"spiffe://{domain}/s"
        leaf = room.made.leaf(room.a, f"URI:{endpoint}")
        behave = drips if place < 4 else serves(bundle(2, room.a))
        room.seed(domain, bundle(1, room.a))
        room.relate(serve(leaf, behave).server_port, domain, endpoint)
        told = f"observed sequence 2 under key {room.a.id()[:6]}.."
        lines.append(f"{domain}: {'failed: timed out after 6 s' if place < 4 else told}")
    ran = room.fetch("--timeout", "6")
    ran.wants(1, *lines)
    want(ran.seconds < 24, "less than one after another wanted", ran.seconds)
    wanted = [f"d{place}.test {'fail' if place < 4 else 'ok'}" for place in range(6)]
    want(room.polls() == wanted, f"{wanted} wanted", room.polls())


@case("the polls file: what is kept of it")
def kept(room: Room) -> None:
    room.seed("b.test", bundle(1, room.a))
    room.relate(closed_port())
    now = int(time.time())
    old = [f"gone.test ok {now - 900}", f"b.test fail {now - 800}", f"b.test ok {now - 700}",
           f"b.test ok {now - 600}", f"b.test fail {now - 500}", f"b.test ok {now + 9000}"]
    file = room.folder / "state.polls"
    file.write_text("\n".join([*old, "no poll", ""]))
    ran = room.fetch()
    ran.wants(1, "fedbundle-fetch: state.polls line 6 lies in the future, and is dropped",
              "fedbundle-fetch: state.polls line 7 is no poll, and is dropped",
              "b.test: failed: connection refused")
    lines = file.read_text().splitlines()
    want(lines[:2] == [old[3], old[4]] and len(lines) == 3, "the last ok and more wanted", lines)
    want(lines[2].startswith("b.test fail "), "a failed poll wanted", lines)
    before = file.stat()
    room.fetch().wants(0)
    want(file.stat() == before, "a file that is left alone wanted", file.read_text())


@case("another program's files where the polls and their lock would be")
def others_files(room: Room) -> None:
    room.one(room.leaf_a, serves(bundle(2, room.a)))
    for name, what in (("state.polls.lock", "is no lock's file"), ("state.polls", "has no poll")):
        file = room.folder / name
        file.write_text("what another program wrote\n")
        before = file.stat().st_mtime_ns
        room.fetch().wants(3, f"fedbundle-fetch: {name} {what}, so it is left as it is")
        seen = file.stat().st_mtime_ns == before, file.read_text()
        want(seen == (True, "what another program wrote\n"), "the file as it was wanted", seen)
        file.unlink()


@case("a polls file of zeros, as a cut of power leaves it")
def zeros(room: Room) -> None:
    room.seed("b.test", bundle(1, room.a))
    room.relate(closed_port())
    file = room.folder / "state.polls"
    file.write_bytes(bytes(64))
    room.fetch().wants(1, "fedbundle-fetch: state.polls line 1 is no poll, and is dropped",
                       "b.test: failed: connection refused")
    want(file.read_text().startswith("b.test fail "), "a poll wanted", file.read_text())


@case("a domain that is gone from the configuration")
def gone(room: Room) -> None:
    room.one(room.leaf_a, serves(bundle(2, room.a)))
    room.relate(closed_port(), "c.test", "spiffe://b.test/c")
    ran = room.fetch()
    want(ran.status == 1 and len(ran.lines) == 2, "two lines wanted", ran)
    want(room.polls() == ["b.test ok", "c.test fail"], "two polls wanted", room.polls())
    room.relationships = room.relationships[:1]
    room.write()
    (room.folder / "state").unlink()
    room.fetch().wants(0)
    want(room.polls() == ["b.test ok"], "one poll wanted", room.polls())


@case("sixteen failures say as much as all")
def failures(room: Room) -> None:
    room.seed("b.test", bundle(1, room.a))
    room.relate(closed_port())
    ok = b"b.test ok 1000\n"
    lines = [b"b.test fail %d\n" % (2000 + place) for place in range(40)]
    answers = {room.ask("polls", "--now", "2040", given=ok + b"".join(lines[-count:]))
               for count in range(16, 41)}
    want(len(answers) == 1 and b"b.test " in answers.pop(), "one answer wanted", answers)
    (room.folder / "state.polls").write_bytes(ok + b"".join(lines))
    room.fetch().wants(1, "b.test: failed: connection refused")
    want(room.polls() == ["b.test ok"] + 16 * ["b.test fail"], "sixteen wanted", room.polls())


@case("two runs at once")
def two_runs(room: Room) -> None:
    may_end = threading.Event()

    def waits(handler: http.server.BaseHTTPRequestHandler) -> None:
        may_end.wait(HANG)
        serves(bundle(2, room.a))(handler)

    room.one(room.leaf_a, waits)
    env = os.environ | {"FEDBUNDLE": room.program}
    how = {"cwd": room.folder, "env": env, "stderr": subprocess.PIPE, "text": True}
    file = room.folder / "state.polls.lock"
    file.touch(0o600)
    os.utime(file, (1000, 1000))
    with subprocess.Popen(room.words("--timeout", str(HANG)), **how) as first:
        try:
            until(lambda: file.stat().st_mtime > 1000 and is_locked(file), "a lock")
            for before, least in (0, 0), (-300, 300), (900, 0):
                if before:
                    os.utime(file, (time.time() + before,) * 2)
                seconds = held_since(room.fetch())
                want(least <= seconds < least + 200, f"{least} seconds wanted", seconds)
            want(first.poll() is None, "a first run that is still at work wanted", first.returncode)
        finally:
            may_end.set()
        told = first.communicate()[1]
    want(told == f"b.test: observed sequence 2 under key {room.a.id()[:6]}..\n", "the first run's line wanted", told)
    want(first.returncode == 0, "status 0 wanted", first.returncode)


def held_since(ran: Ran) -> int:
    """For how many seconds another run has the lock, as a run says that found it held."""
    line = r"fedbundle-fetch: another run has held state\.polls\.lock for (\d+) s, so this one does"
    found = re.fullmatch(f"{line} nothing", ran.lines[0]) if len(ran.lines) == 1 else None
    want(found is not None and ran.status == 4, "status 4 and a number of seconds wanted", ran)
    return int(found[1])


def is_locked(path: Path) -> bool:
    if not path.exists():
        return False
    with open(path) as file:
        try:
            fcntl.flock(file, fcntl.LOCK_SH | fcntl.LOCK_NB)
        except BlockingIOError:
            return True
    return False


@case("words, and files that are not there")
def words(room: Room) -> None:
    room.one(room.leaf_a, serves(bundle(2, room.a)))
    want(room.fetch("--help").status == 0, "status 0 wanted", "--help")
    for more in [["--what"], ["--timeout", "0"], ["--workers", "x"], ["--once"], ["--conf", "x"],
                 ["--wait", "0.9"], ["--wait", "3601"], ["--wait", "x"], ["--polls", "state"],
                 ["--state", "polls.keys", "--polls", "polls"]]:
        want(room.fetch(*more).status == 2, "status 2 wanted", more)
    told = "fedbundle-fetch: config.json has no relationship of x.test"
    room.fetch("--once", "x.test").wants(2, told)
    ran = room.fetch("--program", "./none")
    want(ran.status == 3 and "./none could not be run" in ran.lines[0], "status 3 wanted", ran)
    ran = room.fetch("--config", "none.json")
    ran.wants(3, "fedbundle-fetch: none.json could not be read: No such file or directory")
    ran = room.fetch("--polls", "none/polls")
    ran.wants(3, "fedbundle-fetch: none/polls.lock could not be locked: No such file or directory")
    (room.folder / "folder.new/x").mkdir(parents=True)
    told = "fedbundle-fetch: folder.new is not the fetcher's, so it is left as it is"
    room.fetch("--polls", "folder").wants(3, told)
    (room.folder / "config.json").write_text('{"relationships":[],"seeds":[],"more":1}')
    told = f"fedbundle-fetch: {room.program} polls refused its input: C2 Shape"
    room.fetch().wants(3, told)
    (room.folder / "config.json").write_text("[1]")
    room.fetch().wants(3, "fedbundle-fetch: config.json is no configuration")


@case("a replica that is running")
def running(room: Room) -> None:
    room.one(room.leaf_a, serves(bundle(2, room.a)))
    words = [room.program, "replica", "--config", "config.json", "--state", "state", "--new"]
    how = {"cwd": room.folder, "stdout": subprocess.PIPE, "stderr": subprocess.DEVNULL}
    with subprocess.Popen([*words, "--socket", "socket"], **how) as replica:
        try:
            begun = replica.stdout.readline()
            want(begun.startswith(b"ready "), "a replica wanted", begun)
            told = f"b.test: failed: {room.program} observe failed: a replica is running"
            room.fetch().wants(3, told)
            room.forget_polls()
            ran = room.fetch("--at", "socket")
            want(ran.status == 0 and "observed sequence 2" in ran.lines[0], "a bundle wanted", ran)
            at = [room.program, "bundle", "--at", "socket", "--domain", "b.test"]
            text = subprocess.run(at, cwd=room.folder, capture_output=True).stdout
            want(json.loads(text)["spiffe_sequence"] == 2, "the bundle wanted", text)
        finally:
            replica.kill()
    want(room.sequence() == 2, "the bundle in the files wanted", room.sequence())
    room.forget_polls()
    told = f"fedbundle-fetch: {room.program} polls failed: no replica"
    room.fetch("--at", "socket").wants(3, told)


@case("distrusted authorities, of a replica that is running")
def not_tried_at(room: Room) -> None:
    room.seed("b.test", bundle(1, room.a, room.b))
    (gone, _), (left, leaf) = in_order(room)
    server = room.one(leaf, serves(bundle(2, room.a, room.b)))
    words = [room.program, "replica", "--config", "config.json", "--state", "state", "--new"]
    how = {"cwd": room.folder, "stdout": subprocess.PIPE, "stderr": subprocess.DEVNULL}
    with subprocess.Popen([*words, "--socket", "socket"], **how) as replica:
        try:
            begun = replica.stdout.readline()
            want(begun.startswith(b"ready "), "a replica wanted", begun)
            at = [room.program, "distrust", "--at", "socket", "--domain", "b.test"]
            subprocess.run([*at, "--key", gone.id()], cwd=room.folder, capture_output=True)
            told = f"b.test: observed sequence 2 under key {left.id()[:6]}.."
            room.fetch("--at", "socket").wants(0, told)
            want(server.connections == 1, "one handshake wanted", server.connections)
        finally:
            replica.kill()


@case("a replica that is stuck")
def stuck(room: Room) -> None:
    room.one(room.leaf_a, serves(bundle(2, room.a)))
    words = [room.program, "replica", "--config", "config.json", "--state", "state", "--new"]
    how = {"cwd": room.folder, "stdout": subprocess.PIPE, "stderr": subprocess.DEVNULL}
    with subprocess.Popen([*words, "--socket", "socket"], **how) as replica:
        try:
            begun = replica.stdout.readline()
            want(begun.startswith(b"ready "), "a replica wanted", begun)
            os.kill(replica.pid, signal.SIGSTOP)
            told = f"{room.program} polls took longer than 1 s, and was ended"
            room.fetch("--at", "socket", "--wait", "1").wants(3, f"fedbundle-fetch: {told}")
            os.kill(replica.pid, signal.SIGCONT)
            told = f"b.test: observed sequence 2 under key {room.a.id()[:6]}.."
            room.fetch("--at", "socket").wants(0, told)
        finally:
            replica.kill()


@case("a replica that gets stuck within a run")
def stuck_within(room: Room) -> None:
    words = [room.program, "replica", "--config", "config.json", "--state", "state", "--new"]
    how = {"cwd": room.folder, "stdout": subprocess.PIPE, "stderr": subprocess.DEVNULL}
    document, running = serves(bundle(2, room.a)), []

    def stops(handler: http.server.BaseHTTPRequestHandler) -> None:
        os.kill(running[0].pid, signal.SIGSTOP)
        document(handler)

    room.one(room.leaf_a, stops)
    for domain in "c.test", "d.test", "e.test":
        room.relate(closed_port(), domain, "spiffe://b.test/c")
    with subprocess.Popen([*words, "--socket", "socket"], **how) as replica:
        try:
            running.append(replica)
            begun = replica.stdout.readline()
            want(begun.startswith(b"ready "), "a replica wanted", begun)
            ran = room.fetch("--at", "socket", "--wait", "3", "--workers", "1")
            stuck = f"failed: {room.program} bundle was not called, since the replica is stuck"
            first = f"b.test: failed: {room.program} observe took longer than 3 s, and was ended"
            ran.wants(1, first, *(f"{one}.test: {stuck}" for one in "cde"))
            want(ran.seconds < 9, "one wait wanted", ran.seconds)
            want(room.polls() == [f"{one}.test fail" for one in "bcde"], "polls", room.polls())
            os.kill(replica.pid, signal.SIGCONT)
            room.stop()
            room.one(room.leaf_a, document)
            ran = room.fetch("--at", "socket", "--once", "b.test")
            want(ran.status == 0, "a good fetch wanted", ran)
        finally:
            replica.kill()


@case("a state that is refused")
def bad_state(room: Room) -> None:
    room.one(room.leaf_a, serves(bundle(2, room.a)))
    (room.folder / "state").write_text("none\n")
    told = f"fedbundle-fetch: {room.program} polls refused its input: S1 BadHeader"
    room.fetch().wants(3, told)


# The parts of fedbundle-fetch.


def parts_of_fetch() -> object:
    """fedbundle-fetch as a module."""
    loader = importlib.machinery.SourceFileLoader("fedbundle_fetch", str(FETCH))
    module = importlib.util.module_from_spec(importlib.util.spec_from_loader(loader.name, loader))
    sys.modules[loader.name] = module
    loader.exec_module(module)
    return module


@case("the reader of certificates: each beginning, each changed byte")
def der(room: Room) -> None:
    fetch = parts_of_fetch()
    whole = room.leaf_a.der()
    seen = fetch.read_leaf(whole)
    right = fetch.Leaf((ENDPOINT.encode(),), False, False, False)
    want(seen == right, f"{right} wanted", seen)
    authority = fetch.read_leaf(room.a.der())
    want(authority == fetch.Leaf((b"spiffe://b.test",), True, True, True), "a CA wanted", authority)
    changed = [whole[:at] for at in range(len(whole))] + [whole + b"\x00"]
    refused = count_refused(fetch, changed)
    want(refused == len(changed), "all refused wanted", (refused, len(changed)))
    changed = [whole[:at] + bytes([whole[at] ^ bit]) + whole[at + 1 :]
               for at in range(len(whole)) for bit in (1, 0x20, 0x80, 0xFF)]
    count_refused(fetch, changed)


def count_refused(fetch: object, texts: list[bytes], reason: str = "") -> int:
    """How many certificates are refused for this reason. No other exception may come."""
    refused = 0
    for text in texts:
        try:
            fetch.read_leaf(text)
        except fetch.BadCertificate as error:
            refused += reason in str(error)
    return refused


@case("the reader of certificates: lengths, tags, doubled extensions")
def der_values(room: Room) -> None:
    fetch = parts_of_fetch()
    long = b"\x04\x81\x80" + bytes(128)
    want(fetch.values(b"") == [], "none wanted", "")
    want(fetch.values(b"\x05\x00\x04\x01\x07") == [(5, b""), (4, b"\x07")], "two wanted", "")
    want(fetch.values(long) == [(4, bytes(128))], "one wanted", "")
    bad = [b"\x04", b"\x04\x01", b"\x04\x80\x00\x00", b"\x04\x81\x01\x00", b"\x1f\x01\x00",
           b"\x04\x82\x00\x80" + bytes(128), b"\x04\x85\x00\x00\x00\x00\x01\x00", b"\x04\xff",
           b"\x04\x84\xff\xff\xff\xff", long[:-1], b"\x04\x82\x01"]
    for text in bad:
        try:
            want(False, "a refusal wanted", (text[:8], fetch.values(text)))
        except fetch.BadCertificate:
            pass
    for bits, place, has in [(b"\x01\x06", 5, True), (b"\x01\x06", 6, True), (b"\x07\x80", 0, True),
                             (b"\x07\x80", 5, False), (b"", 5, False), (b"\x00", 5, False)]:
        want(fetch.has_bit(bits, place) == has, f"{has} wanted", (bits, place))
    whole = room.made.leaf(room.a, f"URI:{ENDPOINT}", usage="digitalSignature").der()
    uri, flags = bytes([0x86, len(ENDPOINT)]), b"\x30\x03\x01\x01\xff"
    authority = room.made.leaf(room.a, constraints="CA:TRUE").der()
    for text, old, new, reason in [
        (whole, b"\x06\x03\x55\x1d\x0f", b"\x06\x03\x55\x1d\x13", "an extension twice"),
        (whole, uri, b"\xa6" + uri[1:], "not laid out"),
        (authority, flags, b"\x30\x03\x21\x01\xff", "not laid out"),
    ]:
        want(text.count(old) == 1, "one wanted", (old, text.count(old)))
        want(count_refused(fetch, [text.replace(old, new)], reason) == 1, f"{reason} wanted", new)


@case("a look-up that takes its time")
def look_up(_room: Room) -> None:
    fetch = parts_of_fetch()
    ask, fetch.socket.getaddrinfo = socket.getaddrinfo, lambda *_, **__: ended.wait(HANG)
    began, seen, ended = time.monotonic(), "", threading.Event()
    try:
        fetch.fetch(fetch.Relationship("b.test", ENDPOINT, "https://b.test"), [b"x"], 0.5)
    except fetch.FetchError as error:
        seen = str(error)
    finally:
        socket.getaddrinfo = ask
        ended.set()
    want(seen == "the look-up of b.test took too long", "that wanted", seen)
    want(time.monotonic() - began < 60, "half a second wanted", time.monotonic() - began)


@case("URLs")
def urls(_room: Room) -> None:
    fetch = parts_of_fetch()
    for url, target in [
        ("https://b.test", ("b.test", 443, "/")),
        ("HTTPS://B.test:8443/x/y?z=1&w#f", ("b.test", 8443, "/x/y?z=1&w")),
        ("https://[2001:db8::1]:1/", ("2001:db8::1", 1, "/")),
        ("https://127.0.0.1?q", ("127.0.0.1", 443, "/?q")),
    ]:
        seen = fetch.read_url(url)
        want(seen == fetch.Target(*target), f"{target} wanted", seen)
    for url in ["http://b.test/", "https:///x", "https://b.test:0/", "https://b.test:65536/",
                "https://u@b.test/", "https://u:p@b.test/", "https://b.test/a b", "b.test", "",
                "https://b.test/\r\nX: y", "https://b.test/\u00e4", "https://[::1/", "https:b.test",
                "https://b.test\\x"]:
        try:
            want(False, "a refusal wanted", (url, fetch.read_url(url)))
        except fetch.FetchError:
            pass
    hosts = [fetch.Target("::1", 443, "/"), fetch.Target("b.test", 8443, "/")]
    seen = [host.authority() for host in hosts]
    want(seen == ["[::1]", "b.test:8443"], "hosts wanted", seen)


def run_case(name: str, run: Callable[[Room], None], room: Room) -> bool:
    """Runs a case, and prints its line."""
    began, fault = time.monotonic(), ""
    try:
        run(room)
    except Wrong as error:
        fault = str(error)
    except Exception:
        fault = traceback.format_exc()
    took = f"{time.monotonic() - began:.1f} s"
    room.stop()
    print(f"{'failed' if fault else 'passed'}  {name} ({took}){': ' if fault else ''}{fault}",
          flush=True)
    return not fault


def main() -> int:
    require(__file__)
    program, words = find_program(), sys.argv[1:]
    passed = failed = 0
    with tempfile.TemporaryDirectory(prefix="fedbundle-fetch-") as folder:
        made = Maker(Path(folder))
        a, b = made.authority(), made.authority()
        leaf_a, leaf_b = made.leaf(a), made.leaf(b)
        for place, (name, run) in enumerate(CASES):
            if words and not any(word in name for word in words):
                continue
            own = Path(folder) / f"case{place}"
            own.mkdir()
            room = Room(own, program, made, a, b, leaf_a, leaf_b)
            right = run_case(name, run, room)
            passed, failed = passed + right, failed + (not right)
    print(f"{passed} passed, {failed} failed")
    return 1 if failed else 0


if __name__ == "__main__":
    sys.exit(main())

"""Answers in the place of a replica's address of health: the output of the program's commands, over HTTP/1.1.

It reads one request of a connection, answers, and closes. It takes GET and HEAD of the paths that it knows, refuses all else,
and holds at most 16 connections. What a replica cannot be asked by `--at`, it asks over the files.
"""
import json
import re
import socket
import subprocess
import threading
import time
from pathlib import Path

WEB = Path(__file__).resolve().parent.parent.parent / "web"
MOST_BYTES, MOST_FIELDS, MOST_SECONDS, MOST_CONNECTIONS = 8192, 64, 10, 16
POLICY = ("default-src 'none'; script-src 'self'; style-src 'self'; connect-src 'self'; base-uri 'none'; "
          "form-action 'none'; frame-ancestors 'none'")
FILES = {"/": ("index.html", "text/html"), "/page.css": ("page.css", "text/css"),
         "/page.js": ("page.js", "text/javascript")}
REASONS = {200: "OK", 400: "Bad Request", 404: "Not Found", 405: "Method Not Allowed", 408: "Request Timeout",
           414: "URI Too Long", 431: "Request Header Fields Too Large", 501: "Not Implemented",
           503: "Service Unavailable", 505: "HTTP Version Not Supported"}
TOKEN = rb"[!#$%&'*+.^_`|~0-9A-Za-z-]+"
FIRST = re.compile(rb"(%s) (/[!-~]*) HTTP/(\d)\.(\d)" % TOKEN)
FIELD = re.compile(rb"(%s):[ \t]*([ -~\t]*)" % TOKEN)


# What only the loop of a replica counts. A stand-in has no loop.
COUNTS = ["requests", "pages", "sessions", "faults", "received_bytes", "sent_bytes", "folds"]
GAUGES = {"info": '{version="none"} 1', "start_time_seconds": f" {int(time.time())}", "longest_turn_seconds": " 0.000"}
LOOP = "".join([*(f"# HELP fedbundle_loop_{name}_total Of a stand-in.\n# TYPE fedbundle_loop_{name}_total counter\n"
                  f"fedbundle_loop_{name}_total 0\n" for name in COUNTS),
                *(f"# HELP fedbundle_loop_{name} Of a stand-in.\n# TYPE fedbundle_loop_{name} gauge\n"
                  f"fedbundle_loop_{name}{value}\n" for name, value in GAUGES.items())]).encode()


class Refusal(Exception):
    """A request that is not answered, and the status for it."""


def target_of(head):
    """The method and the target of a request, or why it is refused."""
    lines = head.split(b"\r\n")
    first = FIRST.fullmatch(lines[0])
    if not first:
        raise Refusal(400)
    if first[3] != b"1" or first[4] not in b"01":
        raise Refusal(505)
    fields = [FIELD.fullmatch(line) for line in lines[1:]]
    if not all(fields):
        raise Refusal(400)
    names = [field[1].lower() for field in fields]
    hosts = (1,) if first[4] == b"1" else (0, 1)
    if len(names) > MOST_FIELDS or names.count(b"host") not in hosts or {b"content-length", b"transfer-encoding"} & set(names):
        raise Refusal(400)
    if first[1] not in (b"GET", b"HEAD"):
        raise Refusal(405)
    return first[1].decode(), first[2].decode()


def read_head(stream, until):
    read = b""
    while b"\r\n\r\n" not in read:
        if len(read) > MOST_BYTES:
            raise Refusal(431)
        stream.settimeout(max(0.01, until - time.monotonic()))
        piece = stream.recv(4096)
        if not piece:
            raise Refusal(400)
        read += piece
    return read.partition(b"\r\n\r\n")[0]


class StandIn:
    """An address of health for a replica that runs in `folder`, with these names of its files there. A peer may be quiet for
    this many seconds."""

    def __init__(self, program, folder, config="config", state="state", path="socket", port=0, quiet=600):
        self.program, self.folder, self.quiet, self.began = program, folder, quiet, time.time()
        self.files = ["--config", config, "--state", state]
        self.at = ["--at", path]
        self.listener = socket.create_server(("127.0.0.1", port), backlog=64)
        self.address = f"127.0.0.1:{self.listener.getsockname()[1]}"
        self.room = threading.Semaphore(MOST_CONNECTIONS)
        threading.Thread(target=self.accept, daemon=True).start()

    def close(self):
        try:
            self.listener.shutdown(socket.SHUT_RDWR)
        except OSError:
            pass
        self.listener.close()

    def accept(self):
        while True:
            try:
                stream, _ = self.listener.accept()
            except OSError:
                return
            threading.Thread(target=self.serve, args=[stream], daemon=True).start()

    def serve(self, stream):
        with stream:
            try:
                if not self.room.acquire(blocking=False):
                    stream.sendall(reply_of(503, b"too many connections\n"))
                    return
                try:
                    self.answer(stream)
                finally:
                    self.room.release()
            except OSError:
                pass

    def answer(self, stream):
        method = "GET"
        try:
            method, target = target_of(read_head(stream, time.monotonic() + MOST_SECONDS))
            reply = self.reply(target)
        except Refusal as refusal:
            reply = reply_of(refusal.args[0], b"refused\n")
        except TimeoutError:
            reply = reply_of(408, b"too slow\n")
        stream.sendall(reply.partition(b"\r\n\r\n")[0] + b"\r\n\r\n" if method == "HEAD" else reply)

    def printed(self, *words):
        ran = subprocess.run([self.program, *words], cwd=self.folder, capture_output=True, timeout=60)
        if ran.returncode > 1 or not ran.stdout:
            raise Refusal(503 if ran.returncode > 1 else 404)
        return ran.stdout

    def reply(self, target):
        path, _, query = target.partition("?")
        domain = re.fullmatch(r"domain=([a-z0-9._-]+)", query)
        if query and not (path == "/graph.dot" and domain):
            raise Refusal(400)
        if path in FILES:
            name, kind = FILES[path]
            return reply_of(200, (WEB / name).read_bytes(), kind + "; charset=utf-8", path == "/")
        if path == "/live":
            self.printed("polls", *self.at, "--now", "0")
            return reply_of(200, b"live\n")
        if path == "/ready":
            peers = json.loads(self.printed("status", *self.at, "--format", "json"))["peers"]
            heard = [time.time() - (peer["ended_well"] or self.began) < self.quiet for peer in peers]
            return reply_of(200, b"ready\n") if any(heard) or not peers else reply_of(503, b"all peers are quiet\n")
        if path == "/metrics":
            body = self.printed("status", *self.at, "--format", "prometheus")
            return reply_of(200, body + LOOP, "text/plain; version=0.0.4; charset=utf-8")
        if path == "/status.json":
            return reply_of(200, self.printed("status", *self.at, "--format", "json"), "application/json")
        if path == "/report.json":
            return reply_of(200, self.printed("report", *self.files, "--format", "json"), "application/json")
        if path == "/keys.json":
            return reply_of(200, self.printed("list", "--keys", *self.files, "--format", "json"), "application/json")
        if path == "/graph.dot":
            words = ["--domain", domain[1]] if domain else []
            return reply_of(200, self.printed("graph", *self.files, *words), "text/vnd.graphviz; charset=utf-8")
        raise Refusal(404)


def reply_of(status, body, kind="text/plain; charset=utf-8", is_page=False):
    fields = [f"HTTP/1.1 {status} {REASONS[status]}", "Connection: close", f"Content-Length: {len(body)}",
              f"Content-Type: {kind}", "X-Content-Type-Options: nosniff", "Cross-Origin-Resource-Policy: same-origin",
              "Cache-Control: no-store"]
    fields += [f"Content-Security-Policy: {POLICY}"] if is_page else []
    fields += ["Allow: GET, HEAD"] if status == 405 else []
    return "\r\n".join([*fields, "", ""]).encode() + body

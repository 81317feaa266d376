#!/usr/bin/env python3
"""Lets the built program meet a peer that is the program too, and peers that are killed, cut, silent, of another
configuration, or that send without an end (D-100), and looks at what it says, what it keeps, and how much memory it takes. The
peers of this script do not know sums: `sums` has those that do.

It needs python3. The program is the one that ./fedbundle runs, or the one that $FEDBUNDLE names.

usage: peers [slow]   with `slow` also those that say nothing more, for which the program waits thirty seconds; the status
    is 1 if something is not as it should be
"""
import hashlib
import json
import signal
import socket
import struct
import subprocess
import sys
import threading
import time
from pathlib import Path

sys.dont_write_bytecode = True
sys.path.insert(0, str(Path(__file__).resolve().parent.parent / "lib"))
from harness import HANG, TOP, find_program, listener_of_own, shown, temporary  # noqa: E402
from sums import accept_haves  # noqa: E402

CONFIG = (TOP / "examples/config.json").read_bytes()
RECEIPT = json.loads((TOP / "examples/receipts.jsonl").read_text().splitlines()[0])
HELD = 2_000
MOST_HELD = 65_536
MOST_BYTES = 100_000_000
faults = []


def judge(what, right, seen):
    if not right:
        faults.append(f"{what}: {shown(seen)}")


class Program:
    """The program in a folder, with one configuration."""

    def __init__(self, program, folder):
        self.program = program
        self.folder = Path(folder)
        (self.folder / "config").write_bytes(CONFIG)
        report = self.run("report").stdout
        self.digest = report.split()[1].decode()

    def words(self, word, state, *more):
        held = ["--state", state] if state else []
        return [self.program, word, "--config", "config", *held, *more]

    def run(self, word, state=None, *more, stdin=b""):
        return subprocess.run(self.words(word, state, *more), input=stdin, capture_output=True, cwd=self.folder, timeout=HANG)

    def pull(self, state, port):
        return self.run("pull", state, "--peer", f"127.0.0.1:{port}")

    def serve(self, state, sessions):
        """A server, once it listens, and its port."""
        listener, port = listener_of_own()
        listener.close()
        words = self.words("serve", state, "--listen", f"127.0.0.1:{port}", "--sessions", str(sessions))
        server = subprocess.Popen(words, stdout=subprocess.PIPE, stderr=subprocess.PIPE, cwd=self.folder)
        while server.poll() is None and f":{port:04X} 00000000:0000 0A" not in Path("/proc/net/tcp").read_text():
            time.sleep(0.01)
        return server, port

    def content(self, name):
        path = self.folder / name
        return path.read_bytes() if path.exists() else None

    def question(self, bucket):
        return f'{{"bucket":{bucket},"config":"{self.digest}","format":2,"have":[],"of":256}}\n'.encode()

    def head(self, bucket, count):
        text = f'{{"bucket":{bucket},"config":"{self.digest}","count":{count},"distrusts":0,"format":2,"of":256}}\n'
        return text.encode()

    def snapshot(self, count):
        """Receipts of empty bundles, each with another voucher."""
        line = '{{"doc":{{"keys":[],"spiffe_sequence":{0}}},"domain":"{1}","endpoint":"{2}","key":"{3}","voucher":"{0:064x}"}}'
        parts = RECEIPT["domain"], RECEIPT["endpoint"], RECEIPT["key"]
        lines = sorted(line.format(number, *parts) for number in range(count))
        head = f'{{"config":"{self.digest}","format":2}}'
        return "\n".join([head, *lines, f'{{"count":{count},"distrusts":0}}', ""]).encode()

    def answers(self, count):
        """What one that holds these receipts answers about each bucket to one that holds nothing."""
        by_bucket = [[] for _ in range(256)]
        for line in self.snapshot(count).splitlines(keepends=True)[1:-1]:
            by_bucket[hashlib.sha256(line[:-1]).digest()[0]].append(line)
        return [self.head(bucket, len(held)) + b"".join(held) for bucket, held in enumerate(by_bucket)]


def connected(port):
    return socket.create_connection(("127.0.0.1", port), 60)


def ended(server):
    out, err = server.communicate(timeout=HANG)
    return server.returncode, out, err


def most_memory(server):
    lines = Path(f"/proc/{server.pid}/status").read_text().splitlines()
    return next(1024 * int(line.split()[1]) for line in lines if line.startswith("VmHWM"))


def met_once(meet):
    """The port of a peer that meets one client, in a thread. Before that it ends a connection on which sums are asked for, as a
    program does that does not know them."""
    listener, port = listener_of_own()

    def wait():
        stream = accept_haves(listener)
        with listener, stream:
            try:
                meet(stream)
            except OSError:
                pass

    threading.Thread(target=wait, daemon=True).start()
    return port


def send_without_end(stream):
    for _ in range(MOST_BYTES // 1_000_000):
        stream.sendall(b"a" * 1_000_000)


def whole_exchanges(program):
    """One program pulls what the other one holds: no receipt, one, and as many as a replica holds. Again there is
    nothing new, and the states are the same bytes."""
    for count in (0, 1, MOST_HELD):
        program.run("merge", f"of {count}", stdin=program.snapshot(count))
        server, port = program.serve(f"of {count}", 2)
        pulls = [program.pull(f"copy of {count}", port) for _ in range(2)]
        seen = [(pulled.returncode, pulled.stdout, pulled.stderr) for pulled in pulls]
        judge(f"{count} receipts, pulled twice", seen == [(0, b"new %d\n" % count, b""), (0, b"new 0\n", b"")], seen)
        seen = ended(server)
        judge(f"{count} receipts, the server", seen == (0, b"served 2\n", b""), seen)
        held, copied = program.content(f"of {count}"), program.content(f"copy of {count}")
        judge(f"{count} receipts, the states", held == copied == program.snapshot(count), "another state")


def no_way(program):
    """Ports that are taken, and ports that nobody listens at."""
    listener, port = listener_of_own()
    taken = program.run("serve", "held", "--listen", f"127.0.0.1:{port}", "--sessions", "1")
    judge("a taken port", (taken.returncode, taken.stderr) == (3, b"fedbundle: S9 Io\n"), taken)
    listener.close()
    refused = program.pull("none", port)
    judge("no server", (refused.returncode, refused.stderr) == (3, b"fedbundle: S9 Io\n"), refused)
    judge("no server, the state", program.content("none") is None, program.content("none"))
    refused = program.run("pull", "none", "--peer", "127.0.0.1:0")
    judge("a peer at port 0", (refused.returncode, refused.stderr) == (1, b"fedbundle: bad address\n"), refused)


def any_port(program):
    """A server at port 0 says which port it got, and serves there."""
    words = program.words("serve", "of any port", "--listen", "127.0.0.1:0", "--sessions", "1")
    server = subprocess.Popen(words, stdout=subprocess.PIPE, stderr=subprocess.PIPE, cwd=program.folder)
    said = server.stderr.readline()
    head, _, port = said.decode().strip().rpartition(":")
    judge("port 0, what is said", head == "fedbundle: listens at 127.0.0.1" and port not in ("", "0"), said)
    pulled = program.pull("copy of any port", port)
    judge("port 0, a pull", (pulled.returncode, pulled.stdout) == (0, b"new 0\n"), pulled)
    judge("port 0, the server", ended(server) == (0, b"served 1\n", b""), "another end")


def killed_clients(program):
    """One is gone while it is answered, one within a question; the next one is served whole."""
    server, port = program.serve("held", 3)
    with connected(port) as stream:
        for bucket in range(256):
            stream.sendall(program.question(bucket))
        stream.recv(10)
        stream.setsockopt(socket.SOL_SOCKET, socket.SO_LINGER, struct.pack("ii", 1, 0))
    with connected(port) as stream:
        stream.sendall(program.question(0)[:50])
    whole = program.pull("whole", port)
    judge("the next client", (whole.returncode, whole.stdout) == (0, b"new %d\n" % HELD), whole)
    judge("what it holds", program.content("whole") == program.content("held"), "another state")
    wanted = 3, b"served 3\n", b"fedbundle: S9 Io\nfedbundle: S7 Truncated\n"
    seen = ended(server)
    judge("killed clients", seen == wanted, seen)


def cut_answers(program):
    """What the whole lines before the cut say is held, and the error says how many receipts that are."""
    answers = b"".join(program.answers(HELD))
    for size in (0, 20, 400_000, len(answers) - 1):
        def meet(stream, cut=answers[:size]):
            stream.sendall(cut)
            stream.shutdown(socket.SHUT_WR)
            while stream.recv(65_536):
                pass

        (program.folder / "cut").unlink(missing_ok=True)
        came = answers[:size].rsplit(b"\n", 1)[0].split(b"\n") if b"\n" in answers[:size] else []
        wanted = sorted(line for line in came if line.startswith(b'{"doc"'))
        pulled = program.pull("cut", met_once(meet))
        told = b"fedbundle: S7 Truncated taken %d\n" % len(wanted)
        judge(f"cut at {size}", (pulled.returncode, pulled.stdout, pulled.stderr) == (1, b"", told), pulled)
        held = [line for line in program.content("cut").splitlines() if line.startswith(b'{"doc"')]
        judge(f"cut at {size}, the state", held == wanted, len(held))


def stopped_pulls(program):
    """A pull that is stopped within a read, and goes on, ends as it would have."""
    pulls = []

    def meet(stream):
        questions = stream.makefile("rb")
        for bucket in range(256):
            questions.readline()
            for sent in (signal.SIGSTOP, signal.SIGCONT) if bucket % 50 == 0 else ():
                time.sleep(0.1)
                pulls[0].send_signal(sent)
            time.sleep(0.1 if bucket % 50 == 0 else 0)
            stream.sendall(program.head(bucket, 0))

    words = program.words("pull", "stopped", "--peer", f"127.0.0.1:{met_once(meet)}")
    pulls.append(subprocess.Popen(words, stdout=subprocess.PIPE, stderr=subprocess.PIPE, cwd=program.folder))
    seen = ended(pulls[0])
    judge("a stopped pull", seen == (0, b"new 0\n", b""), seen)


def one_by_one(program):
    """Each question is answered once it came whole, and the connection stays open after the last answer: each question is
    out before its answer is waited for, and after the last answer nothing more is waited for."""
    answers = program.answers(HELD)
    asked = []
    over, answered = threading.Event(), []

    def meet(stream):
        # Each answer goes out immediately, as the program's own do.
        stream.setsockopt(socket.IPPROTO_TCP, socket.TCP_NODELAY, 1)
        with stream.makefile("rb") as questions:
            for answer in answers:
                asked.append(questions.readline())
                stream.sendall(answer)
            answered.append(time.monotonic())
            over.wait(HANG)

    pulled = program.pull("open", met_once(meet))
    took = [time.monotonic() - last for last in answered]
    over.set()
    judge("a connection that stays open", (pulled.returncode, pulled.stdout, pulled.stderr) == (0, b"new %d\n" % HELD, b""), pulled)
    judge("a connection that stays open, the questions", asked == [program.question(bucket) for bucket in range(256)], asked)
    judge("a connection that stays open, the state", program.content("open") == program.content("held"), "another state")
    judge("a connection that stays open, the time after the last answer", took and took[0] < 20, took)


def endless_lines(program):
    """A hundred megabytes without a line feed are passed, and not kept."""
    server, port = program.serve("none", 3)
    with connected(port) as stream:
        send_without_end(stream)
        stream.shutdown(socket.SHUT_WR)
        stream.recv(1)
    with connected(port) as stream:
        send_without_end(stream)
        stream.sendall(b"\n")
        stream.recv(1)
    memory = most_memory(server)
    connected(port).close()
    judge("memory of the server", memory < MOST_BYTES, memory)
    wanted = 1, b"served 3\n", b"fedbundle: S7 Truncated\nfedbundle: S1 BadHeader\n"
    seen = ended(server)
    judge("endless questions", seen == wanted, seen)

    def meet(stream):
        stream.recv(1_000)
        send_without_end(stream)

    pulled = program.pull("endless", met_once(meet))
    judge("an endless answer", (pulled.returncode, pulled.stderr) == (1, b"fedbundle: S7 Truncated taken 0\n"), pulled)


def untrue_count(program):
    """A number that no lines follow asks for no memory, and the receipt that came is kept."""
    line = program.snapshot(1).splitlines(keepends=True)[1]

    def meet(stream):
        stream.recv(1_000)
        stream.sendall(program.head(0, 2**64 - 1) + line)

    pulled = program.pull("count", met_once(meet))
    judge("an untrue count", (pulled.returncode, pulled.stderr) == (1, b"fedbundle: S7 Truncated taken 1\n"), pulled)
    judge("an untrue count, the state", program.content("count") == program.snapshot(1), "another state")


def other_configurations(program):
    """A client of another configuration is answered nothing."""
    server, port = program.serve("held", 1)
    with connected(port) as stream:
        stream.sendall(program.question(0).replace(program.digest.encode(), b"0" * 64))
        answered = stream.recv(1_000)
    judge("another configuration, the answer", answered == b"", answered)
    seen = ended(server)
    judge("another configuration", seen == (1, b"served 1\n", b"fedbundle: S2 ConfigDiffers\n"), seen)


def silent_peers(program):
    """Who says nothing more costs one session, and some thirty seconds."""
    start = time.monotonic()
    pulled = program.pull("silent", met_once(lambda stream: time.sleep(HANG)))
    judge("a silent peer", (pulled.returncode, pulled.stderr) == (3, b"fedbundle: S9 Io taken 0\n"), pulled)
    server, port = program.serve("held", 1)
    with connected(port) as stream:
        stream.sendall(program.question(0)[:20])
        seen = ended(server)
    judge("a silent client", seen == (3, b"served 1\n", b"fedbundle: S9 Io\n"), seen)
    judge("both", 55 < time.monotonic() - start < 300, time.monotonic() - start)


def main():
    with temporary() as folder:
        program = Program(find_program(), folder)
        program.run("merge", "held", stdin=program.snapshot(HELD))
        cases = [whole_exchanges, no_way, any_port, killed_clients, cut_answers, stopped_pulls, one_by_one, endless_lines]
        cases += [untrue_count, other_configurations]
        if "slow" in sys.argv[1:]:
            cases.append(silent_peers)
        for case in cases:
            case(program)
    for fault in faults:
        print(fault)
    print(f"{len(cases)} kinds of peers; {len(faults)} wrong")
    sys.exit(1 if faults else 0)


if __name__ == "__main__":
    main()

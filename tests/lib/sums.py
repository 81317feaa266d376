"""Sums, their question and its answer, by their rules and with Python's own digests; a relay that counts what a session
moves; and stand-ins for a peer of an earlier release, which refuses the question."""
import hashlib
import json
import socket
import threading

PARTS = 257


def id_of(line):
    """The id of the receipt of this line."""
    return hashlib.sha256(line.rstrip(b"\n")).digest()


def sums_of(receipts, records=()):
    """The sum of the records, and that of each bucket, of what has these lines."""
    buckets = [[] for _ in range(256)]
    for line in receipts:
        buckets[id_of(line)[0]].append(id_of(line))
    records = b"".join(sorted(line.rstrip(b"\n") + b"\n" for line in records))
    return [hashlib.sha256(text).hexdigest() for text in (records, *(b"".join(sorted(ids)) for ids in buckets))]


def head(digest):
    return b'{"config":"%s","format":2}\n' % digest.encode()


def question(digest, receipts, records=()):
    return head(digest) + "".join(f"{sum}\n" for sum in sums_of(receipts, records)).encode()


def answer(digest, marks):
    return head(digest) + marks + b"\n"


def marks_between(asked, held):
    """The marks of the lines of a question at one that has these sums."""
    return b"".join(b"0" if line.rstrip(b"\n").decode() == sum else b"1" for line, sum in zip(asked, held))


class Relay:
    """Passes connections on, and keeps of each what was asked and how many bytes were answered."""

    def __init__(self, listener, address):
        self.listener = listener
        self.target = address
        self.address = "127.0.0.1:%d" % listener.getsockname()[1]
        self.sessions = []
        threading.Thread(target=self.accept, daemon=True).start()

    def accept(self):
        while True:
            try:
                asker, _ = self.listener.accept()
            except OSError:
                return
            threading.Thread(target=self.pass_on, args=(asker,), daemon=True).start()

    def pass_on(self, asker):
        session = Session()
        self.sessions.append(session)
        with asker:
            try:
                host, port = self.target.rsplit(":", 1)
                answerer = socket.create_connection((host, int(port)), 10)
            except OSError:
                return
            with answerer:
                for stream in asker, answerer:
                    stream.settimeout(None)
                    stream.setsockopt(socket.IPPROTO_TCP, socket.TCP_NODELAY, 1)
                back = threading.Thread(target=self.pass_back, args=(answerer, asker, session), daemon=True)
                back.start()
                self.carry(asker, answerer, session.ask)
                back.join()
        session.ended.set()

    def pass_back(self, answerer, asker, session):
        self.carry(answerer, asker, session.answer)

    @staticmethod
    def carry(source, sink, note):
        try:
            while piece := source.recv(65_536):
                note(piece)
                sink.sendall(piece)
        except OSError:
            pass
        try:
            sink.shutdown(socket.SHUT_WR)
        except OSError:
            pass

    def close(self):
        self.listener.close()


class Session:
    """What one connection moved."""

    def __init__(self):
        self.asked, self.answered = bytearray(), 0
        self.ended = threading.Event()

    def ask(self, piece):
        self.asked += piece

    def answer(self, piece):
        self.answered += len(piece)

    def moved(self):
        return len(self.asked) + self.answered

    def begins_with_sums(self):
        return self.asked.startswith(b'{"config":')

    def haves(self):
        """About which buckets it asked, one after another."""
        return [json.loads(line)["bucket"] for line in bytes(self.asked).splitlines() if line.startswith(b'{"bucket"')]


def takes_haves(stream):
    """Whether the first line that comes is a have; what is not one is refused, by the end of the connection, as a peer of
    an earlier release does. The line stays in the stream."""
    return stream.recv(10, socket.MSG_PEEK | socket.MSG_WAITALL) == b'{"bucket":'


def accept_haves(listener):
    """The next connection on which haves are asked; one that begins with sums is ended."""
    while True:
        stream, _ = listener.accept()
        if takes_haves(stream):
            return stream
        stream.close()

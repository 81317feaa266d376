"""fedbundle in Python: the store under a replica of a SPIFFE trust server, over the shared library.

    from fedbundle import Replica

    with Replica(config) as replica:
        replica.take(line)
        print(replica.report().decode())

All texts are bytes. A call that is refused raises Refused, with the number and the text of the command's code, and
leaves the replica as it was. A replica may be used by several threads: its calls take turns.

The shared library is the one that $FEDBUNDLE_LIBRARY names, or else libfedbundle.so.0 where the loader finds it.
"""
import ctypes
import os
import threading

DONE, NEEDS_ROOM, NONE, ALREADY, USAGE = 0, 1, 2, 3, -1
FIRST_ROOM = 4096


class Refused(Exception):
    """A call that was refused: `number` as fedbundle.h says, and `text`, as "G1 UnknownDomain"."""

    def __init__(self, number, text):
        super().__init__(text)
        self.number = number
        self.text = text


class _Place(ctypes.Structure):
    _fields_ = [("at", ctypes.c_void_p)]


class _Outcome(ctypes.Structure):
    _fields_ = [
        ("count", ctypes.c_uint64),
        ("length", ctypes.c_uint64),
        ("fault_length", ctypes.c_uint64),
        ("fault", ctypes.c_ubyte * 240),
    ]


_library = ctypes.CDLL(os.environ.get("FEDBUNDLE_LIBRARY", "libfedbundle.so.0"))
_REPLICA = [ctypes.POINTER(_Place)]
_IN = [ctypes.c_char_p, ctypes.c_size_t]
_OUT = [ctypes.POINTER(ctypes.c_char), ctypes.c_size_t]
_END = [ctypes.POINTER(_Outcome)]


def _export(name, arguments, result=ctypes.c_int64):
    function = getattr(_library, f"fedbundle_raw_{name}")
    function.argtypes = arguments
    function.restype = result
    return function


_version = _export("version", _OUT + _END)
_open = _export("open", _REPLICA + 2 * _IN + _END)
_take = _export("take", _REPLICA + _IN + _END)
_observe = _export("observe", _REPLICA + 4 * _IN + _OUT + _END)
_distrust = _export("distrust", _REPLICA + 2 * _IN + _END)
_merge = _export("merge", _REPLICA + _IN + _END)
_current = _export("current", _REPLICA + _IN + _OUT + _END)
_explain = _export("explain", _REPLICA + 2 * _IN + _OUT + _END)
_report = _export("replica_report", _REPLICA + _OUT + _END)
_snapshot = _export("snapshot", _REPLICA + _OUT + _END)
_have = _export("have", _REPLICA + [ctypes.c_uint8] + _OUT + _END)
_answer = _export("answer", _REPLICA + _IN + _OUT + _END)
_absorb = _export("absorb", _REPLICA + _IN + _END)
_close = _export("close", _REPLICA, None)
_report_of = _export("report", 2 * _IN + _OUT + _END)
_canon = _export("canon", 2 * _IN + _OUT + _END)


def _inputs(texts):
    """Each text as pointer and length. ctypes keeps a bytes object, and so its address, for the call."""
    for text in texts:
        if not isinstance(text, bytes):
            raise TypeError("texts are bytes")
        yield from (text, len(text))


def _judge(returned, outcome):
    if returned < 0:
        raise Refused(returned, bytes(outcome.fault[: outcome.fault_length]).decode())
    return returned


def _text_and_count(function, *arguments):
    """What a call writes, or None where there is none of it, and what it counts."""
    outcome, room = _Outcome(), FIRST_ROOM
    while True:
        buffer = ctypes.create_string_buffer(room)
        returned = _judge(function(*arguments, buffer, room, outcome), outcome)
        if returned != NEEDS_ROOM:
            return buffer.raw[: outcome.length] if returned == DONE else None, outcome.count
        room = outcome.length


def _text(function, *arguments):
    return _text_and_count(function, *arguments)[0]


def _number(function, *arguments):
    """What a call returns and counts."""
    outcome = _Outcome()
    returned = _judge(function(*arguments, outcome), outcome)
    return returned, outcome.count


def version():
    """The version of the library."""
    return _text(_version).decode()


def report(config, lines):
    """The report of what is accepted from lines of receipts, and how many lines have no receipt that fits."""
    return _text_and_count(_report_of, *_inputs([config, lines]))


def canon(domain, document):
    """The canonical text of a document of a domain, its id and the ids of its keys, each on a line of its own."""
    return _text(_canon, *_inputs([domain, document]))


class Replica:
    """A replica of a configuration: with what a snapshot has, or with nothing."""

    def __init__(self, config, snapshot=b""):
        self._lock = threading.Lock()
        self._place = _Place()
        _number(_open, self._place, *_inputs([config, snapshot]))

    def close(self):
        """Frees the replica. Each later call is refused with USAGE."""
        with self._lock:
            _close(self._place)

    def __enter__(self):
        return self

    def __exit__(self, *_):
        self.close()

    def __del__(self):
        if hasattr(self, "_place"):
            _close(self._place)

    def _counted(self, function, *texts):
        with self._lock:
            return _number(function, self._place, *_inputs(texts))

    def _written(self, function, *texts):
        with self._lock:
            return _text(function, self._place, *_inputs(texts))

    def take(self, line):
        """Takes the receipt of a line: how many bundles are accepted now and were not, or None where it was held."""
        returned, count = self._counted(_take, line)
        return None if returned == ALREADY else count

    def observe(self, domain, endpoint, key, document):
        """Takes a bundle that was fetched, on the word of TLS: the line of its receipt."""
        return self._written(_observe, domain, endpoint, key, document)

    def distrust(self, domain, key):
        """Distrusts a key for good: how many bundles are accepted no longer, or None where it was distrusted."""
        returned, count = self._counted(_distrust, domain, key)
        return None if returned == ALREADY else count

    def merge(self, snapshot):
        """Takes all of a snapshot, or nothing: how many receipts were not held."""
        return self._counted(_merge, snapshot)[1]

    def current(self, domain):
        """The current bundle of a domain, or None."""
        return self._written(_current, domain)

    def explain(self, domain, document):
        """The lines by which a document is accepted, or None where it is not."""
        return self._written(_explain, domain, document)

    def report(self):
        """The report of what is accepted."""
        return self._written(_report)

    def snapshot(self):
        """The snapshot of what is held."""
        return self._written(_snapshot)

    def have(self, bucket):
        """What is held of a bucket, from 0 to 255, for another replica to answer."""
        if not 0 <= bucket < 256:
            raise ValueError("a bucket is a number from 0 to 255")
        with self._lock:
            return _text(_have, self._place, bucket)

    def answer(self, asked):
        """The answer to another replica's have."""
        return self._written(_answer, asked)

    def absorb(self, answered):
        """Takes all of an answer, or nothing: how many receipts were not held."""
        return self._counted(_absorb, answered)[1]

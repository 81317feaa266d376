"""A client of a running replica of fedbundle, over its local socket, with Python's standard library only.

    from fedbundle_client import Client

    replica = Client("/run/fedbundle/socket")
    print(replica.status().receipts)

Each request of the replica is a method of Client. A request that is refused raises ReplicaError with the code and the
text that the command prints, and with its exit status. Watch gives the bundle of a trust domain each time it changes.

The replica's socket of --read-socket answers the same methods, except that it refuses each change with READ_ONLY.
"""
from __future__ import annotations

import base64
import copy
import errno
import hashlib
import json
import os
import re
import socket
import threading
import time
from dataclasses import dataclass
from typing import Any, Callable, Dict, Iterable, Iterator, List, Optional, Sequence, Tuple, Type, TypeVar, Union

SocketPath = Union[str, bytes, "os.PathLike[str]"]
"""The path of a replica's socket, of at most 107 bytes."""

DEFAULT_TIMEOUT = 60.0
"""How many seconds a request may take if nothing else is said."""

DEFAULT_MOST_REPLY_BYTES = 512 << 20
"""How many bytes a reply may have if nothing else is said: as many as a replica keeps of all its requests and replies,
unless it is started with another --most-request-bytes."""

DEFAULT_EVERY = 10.0
"""How many seconds are between two polls of Watch if nothing else is said."""

# Codes of errors that a caller may want to handle. REFERENCE.md of fedbundle lists all of them; one that has a letter and
# a number, as O4, is only that.
NO_REPLICA = "no replica"
"""Nobody listens on the socket, or the reply is cut or is not one. A change may have been made."""
NO_REPLY = "no reply"
"""The whole reply did not come in time, or the Watch was cancelled. A change may have been made."""
BAD_REPLY = "bad reply"
"""The replica's answer is not what the command prints. If a change was asked for, it was made."""
USAGE = "usage"
"""An argument is not one that a command can have, as a text that cannot be encoded."""
NO_BUNDLE = "no current bundle"
"""The trust domain has no current bundle."""
NO_KNOWN_KEY = "no known key"
"""A key that is to be distrusted is in no bundle of the trust domain, held or configured."""
NOT_ACCEPTED = "not accepted"
"""The replica does not accept the bundle."""
READ_ONLY = "read only"
"""A change was asked for at a socket at which nothing can be changed."""
TOO_MANY_REQUESTS = "too many requests"
"""The replica has no room for one more request. Nothing was changed."""
IO = "S9"
"""A file or a socket failed, or access to it was refused."""

_HEAD_LIMIT = 65_536
_PATH_LIMIT = 107
_PIECE = 65_536
_CONNECT_PAUSE = 0.02
_CANCEL_PAUSE = 0.1
_NUMBERED = re.compile(r"[A-Z][0-9]+\b")
_Kind = TypeVar("_Kind")


class ReplicaError(Exception):
    """A request that was refused, or that has no reply.

    `code` is the letter and the number, as "O4", or the whole text if it has none, as NO_BUNDLE. `text` is what the
    command prints after "fedbundle: ", as "O4 KeyNotInCurrent". `status` is the exit status with which it ends. `reason`
    is why the client itself gave up, if it did.
    """

    def __init__(self, code: str, text: str, status: int, reason: str = "") -> None:
        super().__init__(f"{text}: {reason}" if reason else text)
        self.code = code
        self.text = text
        self.status = status
        self.reason = reason


# ---- what is asked and answered


@dataclass(frozen=True)
class Reply:
    """What a replica replied to a request: what the command prints, and the exit status with which it ends."""

    output: bytes
    errors: bytes
    status: int


@dataclass(frozen=True)
class Migrated:
    """What goes along to another configuration: a snapshot, and a line for each receipt and each record that is left out."""

    snapshot: bytes
    left_out: List[str]


@dataclass(frozen=True)
class KeyStatus:
    """How a key of a current bundle stands: its id, and whether it is distrusted in the domain of the bundle."""

    id: str
    distrusted: bool


@dataclass(frozen=True)
class CurrentBundle:
    """What the status says of a current bundle: its document id, its numbers if it has them, and its X.509 authorities."""

    id: str
    sequence: Optional[int]
    refresh_hint: Optional[int]
    keys: Tuple[KeyStatus, ...]


@dataclass(frozen=True)
class DomainStatus:
    """How a trust domain stands: its current bundle, if it has one, and how many bundles are accepted and conflict."""

    domain: str
    current: Optional[CurrentBundle]
    accepted: int
    conflicts: int


@dataclass(frozen=True)
class KeylessSeed:
    """A configured bundle without an X.509 authority: its trust domain, and its document id."""

    domain: str
    id: str


@dataclass(frozen=True)
class PeerStatus:
    """How the sessions with a peer ended since the replica began: the Unix second at which one last ended well, the code
    of the last that failed, and how many receipts came that were not held."""

    peer: str
    ended_well: Optional[int]
    fault: Optional[str]
    receipts: int


@dataclass(frozen=True)
class AskedPeer:
    """Under which configuration a peer last answered: "next", "previous", or None if it did not answer yet."""

    peer: str
    asked: Optional[str]


@dataclass(frozen=True)
class PreviousStatus:
    """How far a change of the configuration is: the digest of the previous configuration, the Unix second at which a
    session under it was last answered, and how each peer was asked."""

    config: str
    used: Optional[int]
    peers: Tuple[AskedPeer, ...]


@dataclass(frozen=True)
class StatusWarning:
    """Something that needs attention. RUNBOOKS.md of fedbundle says what to do. Which members are not None depends on the
    kind: `domain`, with `key` and `not_after` of a certificate that expires; `peer` and `since`; `what` and `held`."""

    kind: str
    domain: Optional[str] = None
    key: Optional[str] = None
    not_after: Optional[int] = None
    peer: Optional[str] = None
    since: Optional[int] = None
    what: Optional[str] = None
    held: Optional[int] = None


@dataclass(frozen=True)
class Status:
    """How a replica stands. The members are those of the command's JSON."""

    config: str
    receipts: int
    receipt_limit: int
    pending: int
    record_limit: int
    records: int
    domains: Tuple[DomainStatus, ...]
    keyless_seeds: Tuple[KeylessSeed, ...]
    warning: bool
    snapshot_bytes: int
    journal_bytes: int
    peers: Tuple[PeerStatus, ...]
    warnings: Tuple[StatusWarning, ...]
    # None if the replica runs without --previous.
    previous: Optional[PreviousStatus] = None


@dataclass(frozen=True)
class Receipt:
    """The record of one fetch of a bundle: its line as the command prints it, without the line feed, and what it says.
    `document` is the bundle's canonical JSON, `voucher` the document id of the bundle that lists `key`."""

    line: bytes
    domain: str
    endpoint: str
    key: str
    voucher: str
    document: bytes


@dataclass(frozen=True)
class HeldReceipt:
    """What is shown of a receipt that is held: its id, its bundle's domain, sequence number and document id, and the rest as
    of Receipt. `status` is "accepted", "pending" or "distrusted"."""

    receipt: str
    domain: str
    sequence: Optional[int]
    document: str
    endpoint: str
    key: str
    voucher: str
    status: str


@dataclass(frozen=True)
class Record:
    """A record of distrust: the id of the key, and the trust domain in which it is distrusted."""

    key: str
    domain: str


@dataclass(frozen=True)
class Held:
    """What a replica holds: its receipts and its records of distrust."""

    receipts: Tuple[HeldReceipt, ...]
    records: Tuple[Record, ...]


@dataclass(frozen=True)
class KnownKey:
    """What is known of an X.509 key: the SHA-256 of its public key, and the Unix seconds between which its certificate is
    valid, which are None if the certificate is not read; whether it is distrusted in the domain; whether a distrusted key
    of the domain has the same public key; and the document ids of the accepted bundles that list it. `valid_from` and
    `valid_until` are the same times in UTC, such as "2027-01-31T23:59:59Z", and `subject` is the certificate's subject as
    RFC 4514 writes it, printable ASCII; empty if the subject is. These three are None if they are not read, and of a
    program before 0.7.0."""

    key: str
    domain: str
    public_key: Optional[str]
    not_before: Optional[int]
    not_after: Optional[int]
    distrusted: bool
    same_public_key: bool
    bundles: Tuple[str, ...]
    valid_from: Optional[str] = None
    valid_until: Optional[str] = None
    subject: Optional[str] = None


@dataclass(frozen=True)
class Poll:
    """A poll that was made: the trust domain, whether it brought the bundle, and the Unix second."""

    domain: str
    ok: bool
    second: int


@dataclass(frozen=True)
class NextPoll:
    """When the bundle of a trust domain is to be fetched next. `next` is the Unix second, or None if the poll is due, or
    would be later than the replica can say."""

    domain: str
    due: bool
    next: Optional[int]


@dataclass(frozen=True)
class Bundle:
    """The current bundle of a trust domain. `id` is the document id: the SHA-256 of the domain, a line feed and the
    document. `document` is its canonical JSON. `x509_authorities` are the certificates of its X.509 authorities as DER,
    in the order of the document. A key that is distrusted vouches for no later bundle; its certificate is here as long as
    the domain publishes it."""

    domain: str
    id: str
    document: bytes
    sequence: Optional[int]
    refresh_hint: Optional[int]
    x509_authorities: Tuple[bytes, ...]


@dataclass(frozen=True)
class Update:
    """What a poll of Watch found: the current bundle of a trust domain; or that it has none any more, if `bundle` and
    `error` are None; or why the poll failed. `domain` is empty for an error that is not about one."""

    domain: str
    bundle: Optional[Bundle] = None
    error: Optional[ReplicaError] = None


# ---- the client


class Client:
    """Asks the replica that listens on a socket, of fedbundle 0.13.0 or later. It keeps one connection for the next request,
    until `close` or the end of a `with`. Several threads may use it: a request that is made while another one is not
    answered has a connection of its own.

    If the replica has ended the connection that was kept, before a byte of the reply came, the request is made once more on a
    new one, except `stop`. What a replica holds is a set that only grows, so a request may be carried out again: `observe` may
    then hold one more receipt of the same bundle, and `merge` counts what is new since.

    `timeout` is how many seconds a request may take as a whole; each method takes another one. `most_reply_bytes` is how
    many bytes a reply may have after its first line.
    """

    def __init__(
        self,
        path: SocketPath,
        timeout: float = DEFAULT_TIMEOUT,
        most_reply_bytes: int = DEFAULT_MOST_REPLY_BYTES,
    ) -> None:
        self.path = path
        self.timeout = timeout
        self.most_reply_bytes = most_reply_bytes
        self._cancelled: Optional[threading.Event] = None
        self._kept = _Kept()

    def close(self) -> None:
        """Closes the connection that is kept, if there is one. A later request makes another one."""
        self._kept.keep(None)

    def __enter__(self) -> Client:
        return self

    def __exit__(self, *_: object) -> None:
        self.close()

    def ask(self, words: Sequence[str], data: bytes = b"", *, timeout: Optional[float] = None) -> Reply:
        """Makes any request: the arguments of a command without --at, and its standard input. A request that is refused
        is not an error here: its reply says so. Use it for what no other method asks."""
        line = _request_line(words, len(data))
        limit = _Limit(self.timeout if timeout is None else timeout, self._cancelled)
        path = _path(self.path)
        stream = self._kept.take(path) if list(words[:1]) != ["stop"] else None
        if stream:
            try:
                return self._exchange(path, stream, line, data, limit)
            except _Unanswered:
                pass
        try:
            return self._exchange(path, _connect(path, limit), line, data, limit)
        except _Unanswered:
            raise _no_replica("the reply has no first line") from None

    def _exchange(self, path: bytes, stream: socket.socket, line: bytes, data: bytes, limit: _Limit) -> Reply:
        """The reply to a request, after which the connection is kept. After anything else it is closed."""
        kept = False
        try:
            if _send(stream, line, limit):
                _send(stream, data, limit)
            reply = _read_reply(lambda: _receive(stream, limit), self.most_reply_bytes)
            kept = True
        finally:
            if not kept:
                stream.close()
        self._kept.keep(stream, path)
        return reply

    def status(self, *, timeout: Optional[float] = None) -> Status:
        """How the replica stands, and what it warns of."""
        return _parse_status(self._status_in("json", timeout))

    def metrics(self, *, timeout: Optional[float] = None) -> bytes:
        """The status in the text format of Prometheus."""
        return self._status_in("prometheus", timeout)

    def report(self, *, timeout: Optional[float] = None) -> bytes:
        """The report of what the replica accepts, as the command prints it."""
        return self._output(["report"], timeout=timeout)

    def list(self, domain: Optional[str] = None, *, timeout: Optional[float] = None) -> Held:
        """Each receipt and each record of distrust that the replica holds, or those of one trust domain. It needs a replica
        of fedbundle 0.6.0, as list_keys and graph do: an earlier one refuses it with USAGE."""
        return _parse_held(self._output(_optional(domain, "list", "--format=json"), timeout=timeout))

    def list_keys(self, domain: Optional[str] = None, *, timeout: Optional[float] = None) -> List[KnownKey]:
        """Each X.509 key that an accepted bundle or a held receipt lists, or those of one trust domain. The work of the
        replica grows with the square of a domain's keys."""
        text = self._output(_optional(domain, "list", "--keys", "--format=json"), timeout=timeout)
        return [_parse_known(one) for one in _Members(_parse_json(text)).objects("keys")]

    def graph(self, domain: Optional[str] = None, *, timeout: Optional[float] = None) -> bytes:
        """Which bundle vouches for which, for Graphviz, or only the receipts of one trust domain."""
        return self._output(_optional(domain, "graph"), timeout=timeout)

    def config(self, *, timeout: Optional[float] = None) -> bytes:
        """What the replica's configuration says, as the command prints it. It needs a replica of fedbundle 0.7.0, as
        snapshot, migrate, migrate_records, reseed and diff do: an earlier one refuses it with USAGE."""
        return self._output(["config"], timeout=timeout)

    def snapshot(self, *, timeout: Optional[float] = None) -> bytes:
        """All that the replica holds, as merge takes it."""
        return self._output(["migrate"], timeout=timeout)

    def migrate(self, config: bytes, *, timeout: Optional[float] = None) -> Migrated:
        """What goes along to another configuration."""
        return self._migrated(["migrate", "--to=-"], config, timeout)

    def migrate_records(self, config: bytes, *, timeout: Optional[float] = None) -> Migrated:
        """The same with the records of distrust, and no receipt."""
        return self._migrated(["migrate", "--to=-", "--records-only"], config, timeout)

    def reseed(self, allowed: Optional[str] = None, *, timeout: Optional[float] = None) -> bytes:
        """A configuration whose seeds are the current bundles, also that of the allowed domain. If a domain is refused, the
        text of the error has its line."""
        return self._output(["reseed"] if allowed is None else ["reseed", f"--allow={allowed}"], timeout=timeout)

    def diff(self, snapshot: bytes, *, timeout: Optional[float] = None) -> List[str]:
        """What only the replica holds, each line after "- ", and what only the snapshot holds, each after "+ "."""
        return _lines(self._shown(["diff", "--with=-"], snapshot, timeout).output)

    def bundle(self, domain: str, *, timeout: Optional[float] = None) -> bytes:
        """The current bundle of a trust domain: its canonical JSON, without a line feed. parse_bundle reads it. The code
        is NO_BUNDLE if the domain has none."""
        return _only_line(self._output(["bundle", f"--domain={domain}"], timeout=timeout))

    def bundle_pem(self, domain: str, *, timeout: Optional[float] = None) -> bytes:
        """The certificates of the X.509 authorities of the current bundle as PEM. The code is NO_BUNDLE if the domain has
        none."""
        return self._output(["bundle", f"--domain={domain}", "--format=pem"], timeout=timeout)

    def explain(self, domain: str, document: bytes, *, timeout: Optional[float] = None) -> List[Receipt]:
        """A shortest chain of receipts that leads from a configured bundle to this one. That of a configured bundle is
        empty. The code is NOT_ACCEPTED if the replica does not accept the bundle."""
        text = self._output(["explain", f"--domain={domain}"], document, timeout)
        return [_parse_receipt(line) for line in _lines(text)]

    def explain_short(self, domain: str, document: bytes, *, timeout: Optional[float] = None) -> List[str]:
        """The same chain as a line for each step, the last step first, and a line for the configured bundle."""
        return _lines(self._output(["explain", f"--domain={domain}", "--short"], document, timeout))

    def polls(self, now: int, polls: Iterable[Poll], *, timeout: Optional[float] = None) -> List[NextPoll]:
        """For each relationship when its bundle is to be fetched next, by the polls that were made, in their order, and
        the present Unix second."""
        text = self._output(["polls", f"--now={now:d}"], _poll_lines(polls), timeout)
        return [_parse_next_poll(line) for line in _lines(text)]

    def observe(
        self, domain: str, endpoint: str, key: str, document: bytes, *, timeout: Optional[float] = None
    ) -> Receipt:
        """Takes a bundle that was fetched: its receipt. The endpoint is the SPIFFE ID, and the key the id of the authority,
        under which TLS verified the connection: the replica believes both."""
        words = ["observe", f"--domain={domain}", f"--endpoint={endpoint}", f"--key={key}"]
        return _parse_receipt(_decoded(_only_line(self._output(words, document, timeout))))

    def merge(
        self, snapshot: bytes, *, most_bytes: Optional[int] = None, timeout: Optional[float] = None
    ) -> int:
        """Takes all that a snapshot holds, or nothing: how many of its receipts were not held. The snapshot and the
        replica's files may have `most_bytes` together."""
        words = ["merge"] if most_bytes is None else ["merge", f"--most-bytes={most_bytes:d}"]
        return _parse_merged(_only_line(self._output(words, snapshot, timeout)))

    def distrust(self, domain: str, key: str, *, timeout: Optional[float] = None) -> None:
        """Distrusts a key in a trust domain. This cannot be taken back. A key that no bundle lists, held or configured, is
        refused with NO_KNOWN_KEY, except by a replica up to fedbundle 0.12.0."""
        self._done(["distrust", f"--domain={domain}", f"--key={key}"], timeout=timeout)

    def distrust_unknown(self, domain: str, key: str, *, timeout: Optional[float] = None) -> None:
        """Does the same, and takes a key that no bundle lists. A replica up to fedbundle 0.12.0 refuses it with USAGE."""
        self._done(["distrust", f"--domain={domain}", f"--key={key}", "--unknown-key"], timeout=timeout)

    def distrust_verbose(self, domain: str, key: str, *, timeout: Optional[float] = None) -> List[str]:
        """Does what distrust does: what the record changed, as the lines of distrust_dry_run."""
        words = ["distrust", f"--domain={domain}", f"--key={key}", "--verbose"]
        return _lines(self._done(words, timeout=timeout).errors)

    def distrust_dry_run(self, domain: str, key: str, *, timeout: Optional[float] = None) -> List[str]:
        """What distrusting the key would change, a line each. Nothing is changed."""
        return _lines(self._output(["distrust", f"--domain={domain}", f"--key={key}", "--dry-run"], timeout=timeout))

    def stop(self, *, timeout: Optional[float] = None) -> None:
        """Ends the replica. What it acknowledged before is on its disk."""
        self._done(["stop"], timeout=timeout)

    def version(self, *, timeout: Optional[float] = None) -> List[str]:
        """The version of the replica's program and the formats that it reads and writes, a line each."""
        return _lines(self._output(["--version"], timeout=timeout))

    def watch(self, every: float = DEFAULT_EVERY, domains: Sequence[str] = ()) -> Watch:
        """A Watch of this replica."""
        return Watch(self, every, domains)

    def _status_in(self, form: str, timeout: Optional[float]) -> bytes:
        """The status in a format. If it has a warning, the exit status is 1, and it is printed all the same."""
        return self._shown(["status", f"--format={form}"], b"", timeout).output

    def _migrated(self, words: Sequence[str], config: bytes, timeout: Optional[float]) -> Migrated:
        reply = self._shown(words, config, timeout)
        return Migrated(reply.output, _lines(reply.errors))

    def _shown(self, words: Sequence[str], data: bytes, timeout: Optional[float]) -> Reply:
        """The reply to a request, if something was shown, also with the exit status 1, or nothing was to be."""
        reply = self.ask(words, data, timeout=timeout)
        if reply.status > 1 or (reply.status == 1 and not reply.output):
            raise _refusal(reply)
        return reply

    def _output(self, words: Sequence[str], data: bytes = b"", timeout: Optional[float] = None) -> bytes:
        return self._done(words, data, timeout).output

    def _done(self, words: Sequence[str], data: bytes = b"", timeout: Optional[float] = None) -> Reply:
        """The reply to a request, if it was not refused."""
        reply = self.ask(words, data, timeout=timeout)
        if reply.status != 0:
            raise _refusal(reply)
        return reply


class Watch:
    """Polls a replica, and iterates over what it finds. First comes the current bundle of each trust domain, or that there
    is none, and then each that has changed. A bundle may go back to an earlier one, if a key was distrusted: its sequence
    number shows that.

    An error comes for each poll that fails, as if the replica is away, and then the Watch goes on. It ends once `cancel`
    is called, by any thread, or at the end of a `with`. No poll is made while an update is handled.

    `every` is how many seconds are from the end of a poll to the next one. `domains` are the trust domains to look at;
    all of the replica's configuration if there are none.
    """

    def __init__(self, client: Client, every: float = DEFAULT_EVERY, domains: Sequence[str] = ()) -> None:
        self._cancelled = threading.Event()
        self._client = copy.copy(client)
        self._client._cancelled = self._cancelled
        self._every = every
        self._named = tuple(domains)
        # For each trust domain the id of the document that was given last, which is empty if it had none.
        self._given: Dict[str, str] = {}
        self._updates = self._run()

    def cancel(self) -> None:
        """Ends the Watch, and its request if one is made now, within a tenth of a second."""
        self._cancelled.set()

    def __enter__(self) -> Watch:
        return self

    def __exit__(self, *_: object) -> None:
        self.cancel()

    def __iter__(self) -> Watch:
        return self

    def __next__(self) -> Update:
        return next(self._updates)

    def _run(self) -> Iterator[Update]:
        while not self._cancelled.is_set():
            for update in self._poll():
                if self._cancelled.is_set():
                    return
                yield update
            self._cancelled.wait(self._every)

    def _poll(self) -> Iterator[Update]:
        try:
            status = self._client.status()
        except ReplicaError as error:
            yield Update("", error=error)
            return
        current = {one.domain: one.current.id if one.current else "" for one in status.domains}
        for domain in self._named or sorted({*current, *self._given}):
            try:
                yield from self._look(domain, current.get(domain, ""))
            except ReplicaError as error:
                yield Update(domain, error=error)
                # A bundle that cannot be read says nothing about the others. Without a reply none of them is asked for.
                if error.code != BAD_REPLY:
                    return

    def _look(self, domain: str, document_id: str) -> Iterator[Update]:
        """What became of a trust domain, if that is not what was given last."""
        if self._given.get(domain) == document_id:
            return
        bundle = self._bundle(domain) if document_id else None
        # The bundle may have changed since the status was asked for.
        document_id = bundle.id if bundle else ""
        if self._given.get(domain) != document_id:
            self._given[domain] = document_id
            yield Update(domain, bundle)

    def _bundle(self, domain: str) -> Optional[Bundle]:
        try:
            return parse_bundle(domain, self._client.bundle(domain))
        except ReplicaError as error:
            if error.code == NO_BUNDLE:
                return None
            raise


def parse_bundle(domain: str, document: bytes) -> Bundle:
    """Reads the canonical JSON of a bundle, as Client.bundle returns it. The code is BAD_REPLY if it is not a bundle."""
    try:
        return _parse_bundle(domain, document)
    except ReplicaError as error:
        raise _bad_reply(f"the bundle of {domain}: {error.reason}") from None


# ---- errors


def _no_replica(reason: str) -> ReplicaError:
    return ReplicaError(NO_REPLICA, NO_REPLICA, 3, reason)


def _no_reply(reason: str) -> ReplicaError:
    return ReplicaError(NO_REPLY, NO_REPLY, 3, reason)


def _bad_reply(reason: str) -> ReplicaError:
    return ReplicaError(BAD_REPLY, BAD_REPLY, 3, reason)


def _usage(reason: str) -> ReplicaError:
    return ReplicaError(USAGE, USAGE, 2, reason)


def _io_failed(reason: str) -> ReplicaError:
    return ReplicaError(IO, "S9 Io", 3, reason)


def _refusal(reply: Reply) -> ReplicaError:
    """What a reply says whose exit status is not 0."""
    text = reply.errors.decode(errors="replace").strip()
    prefix = "fedbundle: "
    text = text[len(prefix):] if text.startswith(prefix) else text
    text = text or f"status {reply.status}"
    number = _NUMBERED.match(text)
    if number:
        return ReplicaError(number.group(), text, reply.status)
    return ReplicaError(USAGE if reply.status == 2 else text, text, reply.status)


# ---- the exchange


class _Unanswered(Exception):
    """The connection has ended before a byte of the reply came."""


class _Kept:
    """The connection to a replica that no request uses now, if there is one."""

    def __init__(self) -> None:
        self._lock = threading.Lock()
        self._stream: Optional[socket.socket] = None
        self._of: Tuple[bytes, int] = (b"", 0)

    def take(self, path: bytes) -> Optional[socket.socket]:
        """It, if it is one to this path, of this process, and the replica has not ended it. It is not kept any more."""
        with self._lock:
            stream, self._stream = self._stream, None
            of = self._of
        if stream and (of != (path, os.getpid()) or not _is_quiet(stream)):
            stream.close()
            return None
        return stream

    def keep(self, stream: Optional[socket.socket], path: bytes = b"") -> None:
        """This one is kept, and another one closed."""
        with self._lock:
            other, self._stream = self._stream, stream
            self._of = path, os.getpid()
        if other:
            other.close()

    def __del__(self) -> None:
        if self._stream:
            self._stream.close()


def _is_quiet(stream: socket.socket) -> bool:
    """Whether nothing comes on it, and not its end."""
    try:
        stream.setblocking(False)
        stream.recv(1, socket.MSG_PEEK)
    except BlockingIOError:
        return True
    except OSError:
        pass
    return False


class _Limit:
    """When the time of a request is over, or who cancels it."""

    def __init__(self, seconds: float, cancelled: Optional[threading.Event]) -> None:
        self._end = time.monotonic() + seconds
        self._cancelled = cancelled

    def slice(self) -> float:
        """How long to wait before the limit is to be asked again. Raises NO_REPLY if the time is over."""
        left = self._end - time.monotonic()
        if self._cancelled and self._cancelled.is_set():
            raise _no_reply("cancelled")
        if left <= 0:
            raise _no_reply("the time is over")
        return min(left, _CANCEL_PAUSE) if self._cancelled else left


def _path(path: SocketPath) -> bytes:
    try:
        found = os.fsencode(path)
    except UnicodeEncodeError as error:
        raise _usage(str(error)) from None
    if not found or b"\0" in found:
        raise _usage(f"{path!r} is not the path of a socket")
    if len(found) > _PATH_LIMIT:
        raise _io_failed(os.strerror(errno.ENAMETOOLONG))
    return found


def _optional(domain: Optional[str], *words: str) -> List[str]:
    """The arguments, and the trust domain if there is one."""
    return [*words] if domain is None else [*words, f"--domain={domain}"]


def _request_line(words: Sequence[str], count: int) -> bytes:
    """The first line of a request, which says how many bytes of input follow it."""
    try:
        return b'{"input":%d,"words":%s}\n' % (count, json.dumps(list(words), ensure_ascii=False).encode())
    except UnicodeEncodeError as error:
        raise _usage(str(error)) from None


def _connect(path: bytes, limit: _Limit) -> socket.socket:
    """A connection. While too many clients wait at the socket, it is tried again."""
    while True:
        stream = socket.socket(socket.AF_UNIX, socket.SOCK_STREAM)
        try:
            stream.settimeout(limit.slice())
            stream.connect(path)
            return stream
        except (BlockingIOError, socket.timeout):
            stream.close()
            time.sleep(min(limit.slice(), _CONNECT_PAUSE))
        except OSError as error:
            stream.close()
            failed = _io_failed if isinstance(error, PermissionError) else _no_replica
            raise failed(str(error)) from None
        except BaseException:
            stream.close()
            raise


def _send(stream: socket.socket, data: bytes, limit: _Limit) -> bool:
    """Whether the replica took all of the bytes. If it refuses a request before it has read all of it, its reply says why:
    so a write that fails is not an error here."""
    rest = memoryview(data)
    while rest:
        stream.settimeout(limit.slice())
        try:
            rest = rest[stream.send(rest[:_PIECE]):]
        except socket.timeout:
            continue
        except OSError:
            return False
    return True


def _receive(stream: socket.socket, limit: _Limit) -> bytes:
    """The next bytes; none at the end of the stream. The connection may also end by an error of the system, as when not all
    input was read."""
    while True:
        stream.settimeout(limit.slice())
        try:
            return stream.recv(_PIECE)
        except socket.timeout:
            continue
        except OSError:
            return b""


def _read_reply(receive: Callable[[], bytes], most: int) -> Reply:
    """A reply, of at most so many bytes after its first line."""
    text = bytearray()
    while (end := text.find(b"\n")) < 0 and len(text) <= _HEAD_LIMIT:
        piece = receive()
        if not piece and not text:
            raise _Unanswered
        if not piece:
            raise _no_replica("the first line of the reply has no end")
        text += piece
    if not 0 <= end <= _HEAD_LIMIT:
        raise _no_replica("the first line of the reply is too long")
    output, errors, status = _parse_head(bytes(text[:end]))
    if output + errors > most:
        raise _no_replica(f"the reply has more than {most} bytes")
    del text[: end + 1]
    while len(text) < output + errors:
        piece = receive()
        if not piece:
            break
        text += piece
    if len(text) != output + errors:
        raise _no_replica(f"the reply does not have the {output + errors} bytes that its first line says")
    return Reply(bytes(text[:output]), bytes(text[output:]), status)


def _parse_head(line: bytes) -> Tuple[int, int, int]:
    """The first line of a reply: how many bytes of output and of errors follow, and the exit status."""
    try:
        said = _Members(_parse_json(line))
        output, errors, status = (said.count(name) for name in ("output", "errors", "status"))
    except ReplicaError as error:
        raise _no_replica(f"the first line of the reply: {error.reason}") from None
    if status > 255:
        raise _no_replica(f"the first line of the reply: the exit status {status}")
    return output, errors, status


# ---- reading answers


def _parse_json(text: Union[bytes, str]) -> Any:
    try:
        return json.loads(_decoded(text) if isinstance(text, bytes) else text)
    except (ValueError, RecursionError) as error:
        raise _bad_reply(str(error)) from None


class _Members:
    """The members of a JSON object. Each method raises BAD_REPLY if the member is not of its kind."""

    def __init__(self, value: Any) -> None:
        if not isinstance(value, dict):
            raise _bad_reply("not an object")
        self.value = value

    def _of(self, name: str, kind: Type[_Kind]) -> _Kind:
        found = self.value.get(name)
        # In Python a truth value is a number, too.
        if not isinstance(found, kind) or (kind is int and isinstance(found, bool)):
            raise _bad_reply(f"{name} is not {kind.__name__}")
        return found

    def text(self, name: str) -> str:
        return self._of(name, str)

    def flag(self, name: str) -> bool:
        return self._of(name, bool)

    def number(self, name: str) -> int:
        return self._of(name, int)

    def count(self, name: str) -> int:
        found = self.number(name)
        if found < 0:
            raise _bad_reply(f"{name} is below 0")
        return found

    def text_if_any(self, name: str) -> Optional[str]:
        return None if self.value.get(name) is None else self.text(name)

    def number_if_any(self, name: str) -> Optional[int]:
        return None if self.value.get(name) is None else self.number(name)

    def objects(self, name: str) -> List[_Members]:
        return [_Members(one) for one in self._of(name, list)]

    def texts(self, name: str) -> List[str]:
        found = self._of(name, list)
        if not all(isinstance(one, str) for one in found):
            raise _bad_reply(f"{name} are not texts")
        return found


def _parse_bundle(domain: str, document: bytes) -> Bundle:
    said = _Members(_parse_json(document))
    authorities = [key for key in said.objects("keys") if key.value.get("use") == "x509-svid"]
    return Bundle(
        domain=domain,
        id=hashlib.sha256(domain.encode() + b"\n" + document).hexdigest(),
        document=document,
        sequence=said.number_if_any("spiffe_sequence"),
        refresh_hint=said.number_if_any("spiffe_refresh_hint"),
        x509_authorities=tuple(_certificate(key.value.get("x5c")) for key in authorities),
    )


def _parse_status(text: bytes) -> Status:
    said = _Members(_parse_json(text))
    previous = said.value.get("previous")
    return Status(
        config=said.text("config"),
        receipts=said.count("receipts"),
        receipt_limit=said.count("receipt_limit"),
        pending=said.count("pending"),
        record_limit=said.count("record_limit"),
        records=said.count("records"),
        domains=tuple(_parse_domain(one) for one in said.objects("domains")),
        keyless_seeds=tuple(KeylessSeed(one.text("domain"), one.text("id")) for one in said.objects("keyless_seeds")),
        warning=said.flag("warning"),
        snapshot_bytes=said.count("snapshot_bytes"),
        journal_bytes=said.count("journal_bytes"),
        peers=tuple(_parse_peer(one) for one in said.objects("peers")),
        warnings=tuple(_parse_warning(one) for one in said.objects("warnings")),
        previous=None if previous is None else _parse_previous(_Members(previous)),
    )


def _parse_domain(said: _Members) -> DomainStatus:
    current = said.value.get("current")
    return DomainStatus(
        said.text("domain"),
        None if current is None else _parse_current(_Members(current)),
        said.count("accepted"),
        said.count("conflicts"),
    )


def _parse_current(said: _Members) -> CurrentBundle:
    keys = tuple(KeyStatus(one.text("id"), one.flag("distrusted")) for one in said.objects("keys"))
    return CurrentBundle(said.text("id"), said.number_if_any("sequence"), said.number_if_any("refresh_hint"), keys)


def _parse_peer(said: _Members) -> PeerStatus:
    return PeerStatus(
        said.text("peer"), said.number_if_any("ended_well"), said.text_if_any("fault"), said.count("receipts")
    )


def _parse_previous(said: _Members) -> PreviousStatus:
    peers = tuple(AskedPeer(one.text("peer"), one.text_if_any("asked")) for one in said.objects("peers"))
    return PreviousStatus(said.text("config"), said.number_if_any("used"), peers)


def _parse_warning(said: _Members) -> StatusWarning:
    return StatusWarning(
        kind=said.text("kind"),
        domain=said.text_if_any("domain"),
        key=said.text_if_any("key"),
        not_after=said.number_if_any("not_after"),
        peer=said.text_if_any("peer"),
        since=said.number_if_any("since"),
        what=said.text_if_any("what"),
        held=said.number_if_any("held"),
    )


def _parse_held(text: bytes) -> Held:
    said = _Members(_parse_json(text))
    return Held(
        tuple(_parse_held_receipt(one) for one in said.objects("receipts")),
        tuple(Record(one.text("distrust"), one.text("domain")) for one in said.objects("records")),
    )


def _parse_held_receipt(said: _Members) -> HeldReceipt:
    return HeldReceipt(
        receipt=said.text("receipt"),
        domain=said.text("domain"),
        sequence=said.number_if_any("sequence"),
        document=said.text("document"),
        endpoint=said.text("endpoint"),
        key=said.text("key"),
        voucher=said.text("voucher"),
        status=said.text("status"),
    )


def _parse_known(said: _Members) -> KnownKey:
    return KnownKey(
        key=said.text("key"),
        domain=said.text("domain"),
        public_key=said.text_if_any("public_key"),
        not_before=said.number_if_any("not_before"),
        not_after=said.number_if_any("not_after"),
        distrusted=said.flag("distrusted"),
        same_public_key=said.flag("same_public_key"),
        bundles=tuple(said.texts("bundles")),
        valid_from=said.text_if_any("valid_from"),
        valid_until=said.text_if_any("valid_until"),
        subject=said.text_if_any("subject"),
    )


def _parse_receipt(line: str) -> Receipt:
    said = _Members(_parse_json(line))
    return Receipt(
        line=line.encode(),
        domain=said.text("domain"),
        endpoint=said.text("endpoint"),
        key=said.text("key"),
        voucher=said.text("voucher"),
        document=_document_of(line),
    )


def _document_of(line: str) -> bytes:
    """The document as the line spells it. It is the first member."""
    begin = '{"doc":'
    if not line.startswith(begin):
        raise _bad_reply("a receipt does not begin with its document")
    _, end = json.JSONDecoder().raw_decode(line, len(begin))
    return line[len(begin):end].encode()


def _parse_merged(line: bytes) -> int:
    """Reads "new 5"."""
    found = re.fullmatch(rb"new ([0-9]{1,20})", line)
    if not found:
        raise _bad_reply("not a count of receipts")
    return int(found.group(1))


def _poll_lines(polls: Iterable[Poll]) -> bytes:
    """The polls as lines. A name with a space or a line feed would be read as something else."""
    lines = []
    for poll in polls:
        if " " in poll.domain or "\n" in poll.domain:
            raise _usage(f"{poll.domain!r} is not the name of a trust domain")
        lines.append(f"{poll.domain} {'ok' if poll.ok else 'fail'} {poll.second:d}\n")
    try:
        return "".join(lines).encode()
    except UnicodeEncodeError as error:
        raise _usage(str(error)) from None


def _parse_next_poll(line: str) -> NextPoll:
    """Reads "a.example due", "a.example 1764057600" or "a.example past range"."""
    domain, _, when = line.partition(" ")
    if when in ("due", "past range"):
        return NextPoll(domain, when == "due", None)
    if not re.fullmatch(r"-?[0-9]{1,19}", when):
        raise _bad_reply(f"{line!r} does not say when a bundle is to be fetched")
    return NextPoll(domain, False, int(when))


def _certificate(chain: Any) -> bytes:
    """The certificate of an X.509 authority, as DER."""
    if not isinstance(chain, list) or len(chain) != 1 or not isinstance(chain[0], str):
        raise _bad_reply("an X.509 authority does not have one certificate")
    try:
        return base64.b64decode(chain[0], validate=True)
    except ValueError as error:
        raise _bad_reply(str(error)) from None


def _decoded(text: bytes) -> str:
    try:
        return text.decode()
    except UnicodeDecodeError as error:
        raise _bad_reply(str(error)) from None


def _lines(text: bytes) -> List[str]:
    """The lines of a text, without their line feeds."""
    whole = _decoded(text)
    return (whole[:-1] if whole.endswith("\n") else whole).split("\n") if whole else []


def _only_line(text: bytes) -> bytes:
    """The text without its line feed, which it has only at its end."""
    if not text or text.find(b"\n") != len(text) - 1:
        raise _bad_reply("the answer is not one line")
    return text[:-1]

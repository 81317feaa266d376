"""What fedbundle-fetch, fedbundle-spire and fedbundle-import share: calls of a program, which have
a limit of time; files that keep their owner and mode; the lock of a run; the values of which a
certificate consists; the options of a command line, and how a run ends.

The scripts find it next to them. It needs Python 3.11 and its standard library.
"""
from __future__ import annotations

import argparse
import contextlib
import fcntl
import json
import math
import os
import stat
import subprocess
import sys
import threading
import time
from collections.abc import Callable
from dataclasses import dataclass
from pathlib import Path

DONE, FAILED, USAGE, BROKEN, HELD = 0, 1, 2, 3, 4
# How long a program that was ended may take to go, before it is killed.
GRACE_SECONDS = 3
# How much of what a program complained of a line has.
MOST_TOLD = 400


class Broken(Exception):
    """What fails the run and not one domain: a program, the configuration, or a file."""


class Held(Exception):
    """Another run has the lock."""


class CallFault(Exception):
    """Why a call of a program did not end by itself: what is said of that program."""


class Overrun(CallFault):
    """A call of a program took too long, and was ended."""


class BadCertificate(ValueError):
    """Why bytes are no certificate."""


# A run.


def say(text: str) -> None:
    """Prints a line on standard error. Where that is closed, nothing is printed."""
    with contextlib.suppress(OSError, ValueError):
        if sys.stderr is not None:
            print(text, file=sys.stderr, flush=True)


def status_of(name: str, run: Callable[[], int]) -> int:
    """The exit status of a run. Whatever goes wrong ends with a line, and never with a traceback.
    """
    try:
        return run()
    except Held as error:
        say(f"{name}: {error}")
        return HELD
    except Broken as error:
        say(f"{name}: {error}")
    except OSError as error:
        say(f"{name}: {error.filename or 'a file'}: {error.strerror or error}")
    except KeyboardInterrupt:
        say(f"{name}: interrupted")
    except Exception as error:
        say(f"{name}: unexpected {type(error).__name__}: {error}")
    return BROKEN


# The command line.


def reader_of(name: str, about: str | None, end: str) -> argparse.ArgumentParser:
    """What reads the command line of a script, and prints its help."""
    form = argparse.RawDescriptionHelpFormatter
    return argparse.ArgumentParser(prog=name, description=(about or "").strip(), epilog=end,
                                   formatter_class=form, allow_abbrev=False)


def within(least: float, most: float, kind: type) -> Callable[[str], float]:
    """Reads a number of the command line, which has to lie within bounds."""

    def number(text: str) -> float:
        """The number that stands there."""
        try:
            value = kind(text)
        except ValueError:
            raise argparse.ArgumentTypeError(f"{text!r} is no number") from None
        if not least <= value <= most:
            raise argparse.ArgumentTypeError(f"{text} is not from {least:g} to {most:g}")
        return value

    return number


def add_program(reader: argparse.ArgumentParser) -> None:
    """Adds the option that names fedbundle."""
    text = "the program fedbundle; $FEDBUNDLE, or the one on the PATH, unless given"
    named = os.environ.get("FEDBUNDLE") or "fedbundle"
    reader.add_argument("--program", metavar="PATH", default=named, help=text)


def add_spire(reader: argparse.ArgumentParser) -> None:
    """Adds the options that name spire-server and its socket."""
    text = "the program spire-server; the one on the PATH unless given"
    reader.add_argument("--spire", metavar="PATH", default="spire-server", help=text)
    text = "the socket of the SPIRE server's API; the one that spire-server takes unless given"
    reader.add_argument("--socket", metavar="PATH", help=text)


# Calls of a program.


@dataclass(frozen=True)
class Ran:
    """A call of a program that ended: its exit status, what it printed, and the lines of which it
    complained. With FEDBUNDLE_VERBOSE, as the units have it, that of the code is one of them."""

    status: int
    printed: bytes
    lines: list[str]

    def told(self) -> str:
        """What it complained of, in one line."""
        return " ".join(" ".join(self.lines).split())[:MOST_TOLD] or f"status {self.status}"


def call(words: list[str], wait: float, given: bytes = b"") -> Ran:
    """Runs a program, and ends it if it takes longer than it may."""
    pipe = subprocess.PIPE
    try:
        began = subprocess.Popen(words, stdin=pipe, stdout=pipe, stderr=pipe)
    except OSError as error:
        raise CallFault(f"could not be run: {error.strerror}") from None
    except ValueError as error:
        raise CallFault(f"could not be run: {error}") from None
    try:
        printed, complained = began.communicate(given, wait)
    except subprocess.TimeoutExpired:
        end(began)
        raise Overrun(f"took longer than {wait:g} s, and was ended") from None
    said = complained.decode("ascii", "backslashreplace").splitlines()
    return Ran(began.returncode, printed, [line.removeprefix("fedbundle: ") for line in said])


def end(process: subprocess.Popen[bytes]) -> None:
    """Ends a process. One that a device keeps even from being killed is left behind: it must not
    keep the lock of the run too."""
    for stop in process.terminate, process.kill:
        stop()
        with contextlib.suppress(subprocess.TimeoutExpired):
            process.wait(GRACE_SECONDS)
            break
    for pipe in process.stdin, process.stdout, process.stderr:
        with contextlib.suppress(OSError):
            if pipe is not None:
                pipe.close()


@dataclass(frozen=True)
class Asked:
    """Whom a script asks: the program fedbundle, over files or at the replica that holds them, and
    how long each call may take."""

    config: Path
    state: Path | None
    at: Path | None
    program: str
    wait: float

    @staticmethod
    def add_options(reader: argparse.ArgumentParser, at: str, state: str = "") -> None:
        """Adds the options that say it: with more words about --at, and about a --state that may
        be left out."""
        add = reader.add_argument
        add("--config", metavar="FILE", type=Path, required=True, help="the configuration")
        text = f"the state file of fedbundle{state}"
        add("--state", metavar="FILE", type=Path, required=not state, help=text)
        text = f"the socket of the replica that holds the state, and is asked in its place{at}"
        add("--at", metavar="PATH", type=Path, help=text)
        add_program(reader)
        text = "the most that one call of a program may take; 60 unless given"
        add("--wait", metavar="SECONDS", type=within(1, 3600, float), default=60.0, help=text)


class Program:
    """The command fedbundle, under one configuration and state, or at the replica that holds them.
    It runs once at a time: a run over files reads the whole state, and so the memory is that of
    one. A run has a limit on its time, since a replica that is stuck never answers. Such a replica
    is asked no more, so that it costs one wait and not one for each domain."""

    def __init__(self, asked: Asked) -> None:
        """Notes how it is called."""
        self.path = asked.program
        self.wait = asked.wait
        files = ["--config", str(asked.config), "--state", str(asked.state)]
        # The replica's client has a limit of its own, which this one comes before.
        seconds = math.ceil(asked.wait) + GRACE_SECONDS
        self.held = ["--at", str(asked.at), "--wait", str(seconds)] if asked.at else files
        self.turn = threading.Lock()
        self.is_stuck = False

    def run(self, words: list[str], given: bytes = b"") -> Ran:
        """A run that did what was asked, with status 0, or refused something, with status 1. A
        device that failed, or memory that ran out, is no refusal."""
        asks_replica = "--at" in words
        with self.turn:
            if asks_replica and self.is_stuck:
                raise Overrun(f"{self.path} {words[0]} was not called, since the replica is stuck")
            try:
                ran = call([self.path, *words], self.wait, given)
            except Overrun as error:
                self.is_stuck = self.is_stuck or asks_replica
                raise Overrun(f"{self.path} {words[0]} {error}") from None
            except CallFault as error:
                raise Broken(f"{self.path} {error}") from None
        if ran.status not in (0, 1):
            raise Broken(f"{self.path} {words[0]} failed: {ran.told()}")
        return ran

    def current(self, domain: str) -> bytes | None:
        """The current document of a domain with the end of its line, if it has one."""
        ran = self.run(["bundle", *self.held, "--domain", domain])
        if ran.status == 0 and ran.printed:
            return ran.printed
        if "no current bundle" not in ran.lines:
            raise Broken(f"{self.path} bundle refused its input: {ran.told()}")
        return None


# The configuration.


def relationships(path: Path, *names: str) -> list[tuple[str, ...]]:
    """These members of each relationship of a configuration. What else has to be right in it,
    fedbundle checks."""
    try:
        listed = json.loads(path.read_bytes())["relationships"]
        found = [tuple(one[name] for name in names) for one in listed]
    except OSError as error:
        raise Broken(f"{path} could not be read: {error.strerror}") from None
    except (ValueError, KeyError, TypeError, RecursionError):
        raise Broken(f"{path} is no configuration") from None
    if not all(isinstance(text, str) for one in found for text in one):
        raise Broken(f"{path} is no configuration")
    return found


# Files.


def beside(path: Path, end: str) -> Path:
    """The file beside another one whose name has this end too."""
    return path.with_name(path.name + end)


@dataclass(frozen=True)
class Access:
    """Who owns a file, and who may read and write it."""

    user: int
    group: int
    mode: int

    def give(self, file: int) -> None:
        """Gives it to a file that was just made. If the system does not allow this owner or group,
        the group has no access."""
        mode = self.mode
        try:
            os.fchown(file, self.user, self.group)
        except PermissionError:
            mode &= 0o707
        os.fchmod(file, mode)


def access_at(path: Path, new: int = 0o600) -> Access:
    """What a file has to have that is written to this path: what the file has that is there. If
    there is none, it belongs to the owner of the folder, so that a run by root leaves nothing that
    the unit's user cannot read."""
    with contextlib.suppress(FileNotFoundError):
        found = os.lstat(path)
        if stat.S_ISREG(found.st_mode):
            return Access(found.st_uid, found.st_gid, found.st_mode & 0o777)
    folder = os.stat(path.parent)
    return Access(folder.st_uid, folder.st_gid, new)


def write_new(path: Path, content: bytes) -> Path:
    """Writes a file beside the one of this path, whose place it can take then: it has the owner and
    the mode of that one, and is on the disk. What has its name was left behind by a run."""
    new = beside(path, ".new")
    new.unlink(missing_ok=True)
    with open(os.open(new, os.O_CREAT | os.O_EXCL | os.O_WRONLY, 0o600), "wb") as file:
        access_at(path).give(file.fileno())
        file.write(content)
        file.flush()
        os.fsync(file.fileno())
    return new


def put_in_place(new: Path, path: Path) -> None:
    """A file that was written takes the place of another one, on the disk too."""
    os.replace(new, path)
    folder = os.open(path.parent, os.O_RDONLY | os.O_DIRECTORY)
    try:
        os.fsync(folder)
    finally:
        os.close(folder)


def open_lock(path: Path) -> int:
    """Opens the file of a lock. The first run makes it."""
    while True:
        with contextlib.suppress(FileNotFoundError):
            return os.open(path, os.O_RDWR | os.O_NOFOLLOW)
        access = access_at(path)
        with contextlib.suppress(FileExistsError):
            made = os.open(path, os.O_CREAT | os.O_EXCL | os.O_RDWR | os.O_NOFOLLOW, 0o600)
            access.give(made)
            return made


def lock(path: Path) -> None:
    """Takes the lock of a run, until the process ends. The file's time says since when."""
    try:
        held = open_lock(path)
        found = os.fstat(held)
        if not stat.S_ISREG(found.st_mode) or found.st_size > 0:
            raise Broken(f"{path} is no lock's file, so it is left as it is")
        try:
            fcntl.flock(held, fcntl.LOCK_EX | fcntl.LOCK_NB)
        except BlockingIOError:
            seconds = max(0, int(time.time() - os.fstat(held).st_mtime))
            told = f"another run has held {path} for {seconds} s, so this one does nothing"
            raise Held(told) from None
        os.utime(held)
    except OSError as error:
        raise Broken(f"{path} could not be locked: {error.strerror}") from None


# Values of certificates and public keys. What is read has to be DER.

BOOLEAN, INTEGER, BIT_STRING, OCTET_STRING, OBJECT_ID, SEQUENCE = 0x01, 0x02, 0x03, 0x04, 0x06, 0x30
# A value: its tag, and its content.
Value = tuple[int, bytes]


def read_length(data: bytes, at: int) -> tuple[int, int]:
    """The length that stands at a place, and the place behind it. It is the shortest way to
    write it, and has four bytes at most."""
    first = data[at]
    if first < 0x80:
        return first, at + 1
    size = first & 0x7F
    written = data[at + 1 : at + 1 + size]
    if not 1 <= size <= 4 or len(written) != size:
        raise BadCertificate("the certificate is not valid DER")
    length = int.from_bytes(written, "big")
    if written[0] == 0 or length < 0x80:
        raise BadCertificate("the certificate is not valid DER")
    return length, at + 1 + size


def values(data: bytes) -> list[Value]:
    """The values of which the bytes consist."""
    found, at = [], 0
    while at < len(data):
        tag = data[at]
        if tag & 0x1F == 0x1F or at + 1 >= len(data):
            raise BadCertificate("the certificate is not valid DER")
        length, start = read_length(data, at + 1)
        at = start + length
        if at > len(data):
            raise BadCertificate("the certificate is not valid DER")
        found.append((tag, data[start:at]))
    return found


def content(tag: int, value: Value) -> bytes:
    """The content of a value that has to have this tag."""
    if value[0] != tag:
        raise BadCertificate("the certificate is not laid out as X.509 wants it")
    return value[1]


def sole(found: list[Value]) -> Value:
    """The one value of a list that has to have one."""
    if len(found) != 1:
        raise BadCertificate("the certificate is not laid out as X.509 wants it")
    return found[0]


def members(value: Value) -> list[Value]:
    """The values of which a sequence consists."""
    return values(content(SEQUENCE, value))

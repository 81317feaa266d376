#!/usr/bin/env python3
"""Gives some 450 lists of words to the command with --at and to the socket of a running replica: what one refuses the other
refuses, with the same line and the same exit status.

The lists are made of the options that the help of each subcommand names, each with texts that it may have and may not have, and
left out, given twice, and given beside others. The command reads what it sends from a file or from standard input; the socket
is given the same bytes. What ends the replica is left out. A subcommand that has no --at is no request: the socket refuses it.

It needs python3, and takes seconds. The program is the one that ./fedbundle runs, or the one that $FEDBUNDLE names.

usage: word_lists   the exit status is 1 if something is wrong
"""
import hashlib
import json
import re
import signal
import socket
import subprocess
import sys
from contextlib import contextmanager
from itertools import combinations
from pathlib import Path

sys.dont_write_bytecode = True
sys.path.insert(0, str(Path(__file__).resolve().parent.parent / "lib"))
from harness import HANG, find_program, temporary  # noqa: E402

PROGRAM = find_program()
# A key that the configured bundle lists, and one that no bundle lists.
KEY, UNKNOWN = hashlib.sha256(b"abc").hexdigest(), "0" * 64
# For each option with a text, one that it may have, and others. The files are those of the folder, which the command reads.
TEXTS = {
    "domain": ["a.test", "", "A.test", "other.test"],
    "endpoint": ["spiffe://a.test/bundle", "", "a.test"],
    "key": [KEY, UNKNOWN, "", "abc", "F" * 64],
    "public-key": [UNKNOWN, "", "abc"],
    "format": ["text", "json", "pem", "prometheus", "", "xml"],
    "now": ["0", "", "-1", "x", "9" * 30],
    "wait": ["5", "", "+1", "86401"],
    "most-bytes": ["5000000", "", "x", "9" * 30],
    "expires-within": ["9", "", "36526"],
    "peer-quiet": ["9", "", "31536001"],
    "allow": ["a.test", "", "A.test"],
    "with": ["config", ""],
    "to": ["config", ""],
    "polls": ["polls", ""],
}
# What a running replica has itself.
PLACES = ["config", "state", "most-receipts", "most-records"]
# The options that each subcommand needs, beside these places.
NEEDED = {
    "config": [], "report": [], "list": [], "diff": ["with"], "graph": [], "status": [], "bundle": ["domain"],
    "explain": ["domain"], "observe": ["domain", "endpoint", "key"], "merge": [], "migrate": [], "reseed": [],
    "polls": ["now"], "distrust": ["domain", "key"], "stop": [],
}
# Without --at: they are no requests.
ALONE = [
    ["canon", "--domain=a.test"], ["new"], ["pull", "--peer=127.0.0.1:1"], ["serve", "--listen=127.0.0.1:1", "--sessions=1"],
    ["replica", "--socket=other"], ["list", "--at=socket"],
]
BESIDE = [
    [], ["--help"], ["--version"], ["lst"], ["help"], ["list", "--help"], ["--domain=a.test"], ["--nothing"],
    ["distrust", "--domain=a.test", f"--key={KEY}", f"--public-key={KEY}", "--dry-run"],
    *(["distrust", "--domain=a.test", f"--public-key={text}", *more] for text in TEXTS["public-key"]
      for more in ([], ["--dry-run"], ["--unknown-key"], ["--known"], ["--verbose"])),
    *(["distrust", f"--domain={domain}", f"--key={UNKNOWN}", "--unknown-key", *more] for domain in ("a.test", "other.test")
      for more in (["--dry-run"], [], ["--known"], ["--verbose"])),
    ["distrust", "--domain=a.test", "--dry-run"], ["stop", "--wait=x"], ["stop", "--new"], ["stop", "more"],
]


def config():
    relationship = {"domain": "a.test", "endpoint": "spiffe://a.test/bundle", "profile": "https_spiffe", "url": "https://a.test/"}
    authority = {"e": "AQAB", "kty": "RSA", "n": "AQAB", "use": "x509-svid", "x5c": ["YWJj"]}
    return json.dumps({"relationships": [relationship], "seeds": [{"domain": "a.test", "bundle": {"keys": [authority]}}]})


def run(folder, *words, text=b""):
    return subprocess.run([PROGRAM, *words], input=text, capture_output=True, cwd=folder, timeout=HANG)


@contextmanager
def running(folder):
    words = [PROGRAM, "replica", "--config", "config", "--state", "state", "--socket", "socket", "--new"]
    server = subprocess.Popen(words, stdout=subprocess.PIPE, stderr=subprocess.DEVNULL, cwd=folder)
    try:
        if not server.stdout.readline().startswith(b"ready "):
            sys.exit("word_lists: the replica does not begin")
        yield
        if server.poll() is not None:
            sys.exit("word_lists: the replica ended")
    finally:
        server.send_signal(signal.SIGTERM)
        server.communicate(timeout=HANG)


# ---- the lists

def options_of(folder, name):
    """The options that the help of the subcommand names, and which of them have a text."""
    told = run(folder, name, "--help").stdout.decode()
    found = re.findall(r"^ +(?:-\w, )?--([a-z-]+)( <[A-Z_-]+>)?", told.partition("Options:")[2], re.M)
    return {option: bool(text) for option, text in found if option not in ("at", "help", "verbose")}


def words_of(name, texts):
    return [name, *(f"--{option}" if text is None else f"--{option}={text}" for option, text in texts.items())]


def changes_of(options):
    """The texts of one option, or of none: what is to be added to those that the subcommand needs."""
    for option, has_text in options.items():
        if option in PLACES:
            yield {option: "5" if option.startswith("most-") else option}
        elif has_text:
            yield from ({option: text} for text in TEXTS[option])
        else:
            yield {option: None}
    yield from ({"with": ""}, {"to": ""}, {"polls": ""}, {"nothing": None}, {"new": "true"}, {"wait": ""})


def lists_of(name, options):
    needed = {option: TEXTS[option][0] for option in NEEDED[name]}
    yield words_of(name, needed)
    for option in needed:
        yield words_of(name, {other: text for other, text in needed.items() if other != option})
    changes = list(changes_of(options))
    yield from (words_of(name, needed | change) for change in changes)
    flags = [{option: None} for option, has_text in options.items() if not has_text]
    yield from (words_of(name, needed | one | other) for one, other in combinations(flags, 2))
    if "new" in options:
        doubled = [change for change in changes if "wait" in change or "" in change.values()]
        yield from (words_of(name, needed | {"new": None} | change) for change in doubled)
    option, text = next(iter((needed or {"wait": "5"}).items()))
    yield [*words_of(name, needed), f"--{option}={text}", f"--{option}={text}"]
    yield [*words_of(name, needed), "more"]
    yield [name, *(word for option, text in needed.items() for word in (f"--{option}", text)), "--verbose"]


def all_lists(folder):
    lists = [words for name in NEEDED if name != "stop" for words in lists_of(name, options_of(folder, name))]
    return [*map(list, dict.fromkeys(map(tuple, lists))), *BESIDE]


# ---- what is replied

def line_of(errors):
    return errors.split(b"\n")[0].decode()


def input_of(folder, words):
    """What the command sends: the file that the words name, or nothing."""
    named = [word.partition("=")[2] for word in words if word.startswith(("--with=", "--to=", "--polls="))]
    return (Path(folder) / named[0]).read_bytes() if named and named[0] else b""


def by_command(folder, words):
    """With --at after the subcommand, if there is one."""
    is_named = words[:1] and words[0] in NEEDED and "--help" not in words
    ran = run(folder, *words[:1], *(["--at=socket"] if is_named else []), *words[1:])
    return ran.returncode, line_of(ran.stderr), bool(ran.stdout)


def by_socket(folder, words):
    with socket.socket(socket.AF_UNIX) as stream:
        stream.settimeout(HANG)
        stream.connect(f"{folder}/socket")
        stream.sendall(json.dumps(words).encode() + b"\n" + input_of(folder, words))
        stream.shutdown(socket.SHUT_WR)
        head, _, rest = b"".join(iter(lambda: stream.recv(65_536), b"")).partition(b"\n")
    told = json.loads(head)
    return told["status"], line_of(rest[told["output"]:]), told["output"] > 0


def compare(folder, words):
    """Whether both reply the same. A change is made before, so that both find what is held as it is after it."""
    if words[:1] == ["distrust"]:
        by_socket(folder, words)
    socket_said, command_said = by_socket(folder, words), by_command(folder, words)
    if socket_said != command_said:
        print(f"wrong: {words}: the socket {socket_said}, the command {command_said}")
    return socket_said == command_said


def refused(folder, words):
    seen = by_socket(folder, words)
    if seen != (2, "fedbundle: usage", False):
        print(f"wrong: {words} is no request: {seen}")
    return seen == (2, "fedbundle: usage", False)


def main():
    with temporary() as folder:
        for name, text in [("config", config()), ("polls", "")]:
            Path(folder, name).write_text(text)
        with running(folder):
            lists = all_lists(folder)
            right = [compare(folder, words) for words in lists] + [refused(folder, words) for words in ALONE]
    wrong = len(right) - sum(right)
    print(f"word_lists: {len(right)} lists, " + (f"{wrong} faults" if wrong else "as it must be"))
    sys.exit(1 if wrong else 0)


if __name__ == "__main__":
    main()

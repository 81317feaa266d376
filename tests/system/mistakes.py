#!/usr/bin/env python3
"""Makes mistakes that operators make, and sees that the program names the cause of each (D-260).

Each is made with FEDBUNDLE_VERBOSE=1, and with `--verbose` if a subcommand is given. The first line on standard
error and the exit status are those of the error, and the lines after it name the file, the option, or the part of it
that is wrong. Each is made also without both, with a standard error that is not a terminal: then the error's line is
the only one, and the output and the status are the same. All wanted texts are written by hand. It prints what came.

The certificates are made up: fedbundle checks none. It needs python3. What another user may not open is tried as the
user `nobody` if root runs this. The program is the one that ./fedbundle runs, or the one that $FEDBUNDLE names.

usage: mistakes   the exit status is 1 if something is wrong
"""
import fcntl
import hashlib
import json
import os
import resource
import shutil
import signal
import subprocess
import sys
from contextlib import contextmanager, nullcontext
from dataclasses import dataclass, field
from pathlib import Path

sys.dont_write_bytecode = True
sys.path.insert(0, str(Path(__file__).resolve().parent.parent / "lib"))
from harness import HANG, find_program, listener_of_own, temporary  # noqa: E402

NOBODY = 65534
KEY = hashlib.sha256(b"abc").hexdigest()
OTHER_KEY = hashlib.sha256(b"hello").hexdigest()
ENDPOINT = "spiffe://b.test/bundle"


def element(certificate):
    return {"e": "AQAB", "kty": "RSA", "n": "AQAB", "use": "x509-svid", "x5c": [certificate]}


def bundle(sequence, *certificates):
    return {"keys": [element(it) for it in certificates], "spiffe_sequence": sequence}


def relationship(domain="b.test", **members):
    usual = {
        "domain": domain,
        "endpoint": f"spiffe://{domain}/bundle",
        "profile": "https_spiffe",
        "url": f"https://{domain}/",
    }
    return {name: it for name, it in {**usual, **members}.items() if it is not None}


def seed(domain="b.test", document=None):
    return {"bundle": bundle(1, "YWJj") if document is None else document, "domain": domain}


def config(relationships=None, seeds=None):
    relationships = [relationship()] if relationships is None else relationships
    seeds = [seed()] if seeds is None else seeds
    return json.dumps({"relationships": relationships, "seeds": seeds}, indent=2).encode()


def compact(value):
    return json.dumps(value, sort_keys=True, separators=(",", ":")).encode()


def digest_of(text):
    """The digest of a configuration in which all is in order already."""
    return hashlib.sha256(compact(json.loads(text))).hexdigest()


CONFIG = config()
DIGEST = digest_of(CONFIG)
# One digit of the certificate is another one.
WRONG_DIGIT = config(seeds=[seed(document=bundle(1, "YWJk"))])
SECOND = compact(bundle(2, "aGVsbG8="))
# The first 64 bytes of a state's first line.
SHOWN_HEAD = f'"{{\\x22config\\x22:\\x22{DIGEST[:53]}.."'
COMMA = CONFIG.replace(b'"url": "https://b.test/"', b'"url": "https://b.test/",')
assert COMMA.splitlines()[6].endswith(b",")


def empty_state(digest):
    head = {"config": digest, "format": 2}
    return compact(head) + b"\n" + compact({"count": 0, "distrusts": 0}) + b"\n"


@dataclass
class Mistake:
    """What is done wrong; the exit status, the first line and the lines after it that are wanted. Only the beginning
    of a line that ends with `..` is wanted. Notes come before the first line. `PORT` in arguments and lines is the
    port that the context gives."""

    name: str
    words: str
    status: int
    line: str
    more: list
    files: dict = field(default_factory=dict)
    given: bytes = b""
    context: object = nullcontext
    before: object = None
    as_nobody: bool = False
    limited: bool = False
    notes: list = field(default_factory=list)


def taken_port(listening):
    @contextmanager
    def hold():
        listener, port = listener_of_own()
        if not listening:
            listener.close()
        try:
            yield port
        finally:
            listener.close()

    return hold


@contextmanager
def held_lock():
    with open("state.lock", "w") as file:
        fcntl.flock(file, fcntl.LOCK_EX)
        yield 0


def mode(name, bits):
    return lambda: os.chmod(name, bits)


def of_config(name, text, line, *more, status=1):
    """A mistake in the configuration."""
    return Mistake(name, "config --config config.json", status, line, [f"config config.json: {it}" for it in more],
                   {"config.json": text})


HELD = "--config config.json --state state"
OBSERVE = f"observe {HELD} --domain b.test --endpoint {ENDPOINT} --key {KEY}"
PAGE = b"<!DOCTYPE html>\n<html><body>Not here</body></html>\n"
S9 = "fedbundle: S9 Io"
USAGE = "fedbundle: usage"
DISTRUST = f"distrust {HELD} --domain b.test --key {KEY}"

# What a command that writes says first, if there is no state yet.
MISSING = ["fedbundle: there is no state file state"]

MISTAKES = [
    # The configuration.
    of_config("a trailing comma at line 7", COMMA, "fedbundle: C1 NotJson",
              "invalid JSON at line 8, column 5", 'it begins with "{\\x0a  \\x22relationships\\x22: [..'),
    of_config("an empty configuration", b"", "fedbundle: C1 NotJson", "it is empty"),
    of_config("an unknown member", config([relationship(profile=None, profil="https_spiffe")]), "fedbundle: C2 Shape",
              'relationships[0]: unknown member "profil"'),
    of_config("an unknown member of the whole", CONFIG.replace(b'"seeds"', b'"seed"'), "fedbundle: C2 Shape",
              'unknown member "seed"'),
    of_config("a member that is missing", config([relationship(), relationship("c.test", url=None)]),
              "fedbundle: C2 Shape", 'relationships[1]: no member "url"'),
    of_config("a number as domain", config([relationship(domain=7)]), "fedbundle: C2 Shape",
              'relationships[0]: no text is the member "domain"'),
    of_config("an object in the place of the array", CONFIG.replace(b'"seeds": [', b'"seeds": {"0":').replace(
        b"  ]\n}", b"  }\n}"), "fedbundle: C2 Shape", 'no array is the member "seeds"'),
    of_config("a domain in upper case", config([relationship(domain="B.test")]), "fedbundle: C3 BadName",
              'relationships[0]: domain "B.test": N4 BadDomainByte at 0'),
    of_config("an endpoint without spiffe://", config([relationship(endpoint="b.test/bundle")]),
              "fedbundle: C3 BadName", 'relationships[0]: endpoint "b.test/bundle": N3 BadScheme'),
    of_config("a seed's domain with a port", config(seeds=[seed(), seed("c.test:443")]), "fedbundle: C3 BadName",
              'seeds[1] (c.test:443): domain "c.test:443": N4 BadDomainByte at 6'),
    of_config("a URL with http", config([relationship(url="http://b.test/")]), "fedbundle: C4 BadUrl",
              "relationships[0]: url does not begin with https:"),
    of_config("a URL with a user", config([relationship(url="https://me@b.test/")]), "fedbundle: C4 BadUrl",
              "relationships[0]: url has a user name"),
    of_config("a URL with a password alone", config([relationship(url="https://:secret@b.test/")]),
              "fedbundle: C4 BadUrl", "relationships[0]: url has a password"),
    of_config("a text that is no URL", config([relationship(url="b.test/bundle")]), "fedbundle: C4 BadUrl",
              "relationships[0]: url is no URL"),
    of_config("a URL of 2,049 bytes", config([relationship(url="https://b.test/" + "x" * 2034)]),
              "fedbundle: C4 BadUrl", "relationships[0]: url has more than 2,048 bytes"),
    of_config("the profile https_web", config([relationship(profile="https_web")]), "fedbundle: C5 BadProfile",
              'relationships[0]: profile is not https_spiffe but "https_web"'),
    of_config("two relationships of one domain", config([relationship(), relationship("c.test"), relationship()]),
              "fedbundle: C6 DoubleRelationship", 'relationships[2]: domain "b.test" is that of relationships[0]'),
    of_config("a seed without keys", config(seeds=[seed(), seed("beta.test", {"spiffe_sequence": 1})]),
              "fedbundle: C7 BadSeed", "seeds[1] (beta.test): B4 NoKeys"),
    of_config("a sequence as text", config(seeds=[seed(document={"keys": [], "spiffe_sequence": "1"})]),
              "fedbundle: C7 BadSeed", "seeds[0] (b.test): B5 BadSequence"),
    of_config("bytes that drive a terminal", config([relationship(**{"\x1b[2Jx\u202e": "y"})]), "fedbundle: C2 Shape",
              'relationships[0]: unknown member "\\x1b[2Jx\\xe2\\x80\\xae"'),
    Mistake("a folder as configuration", "config --config folder", 3, "fedbundle: E3 Io",
            ["config folder: Is a directory"], {"folder/x": b""}),
    Mistake("a configuration that is not there", "config --config confg.json", 3, "fedbundle: E3 Io",
            ["config confg.json: No such file or directory"]),
    Mistake("a configuration of another user", "config --config config.json", 3, "fedbundle: E3 Io",
            ["config config.json: Permission denied"], before=mode("config.json", 0), as_nobody=True),
    # State files.
    Mistake("a wrong digit in a seed", f"bundle {HELD} --domain b.test", 1, "fedbundle: S2 ConfigDiffers",
            [f"state state: it is of configuration {DIGEST}", f"--config is configuration {digest_of(WRONG_DIGIT)}"],
            {"config.json": WRONG_DIGIT, "state": empty_state(DIGEST)}),
    Mistake("a state of another configuration", OBSERVE, 1, "fedbundle: S2 ConfigDiffers",
            [f"state state: it is of configuration {'7' * 64}", f"--config is configuration {DIGEST}"],
            {"state": empty_state("7" * 64)}, SECOND),
    Mistake("a merge of another configuration", f"merge {HELD}", 1, "fedbundle: S2 ConfigDiffers",
            ["standard input is refused, and not the state file"], given=empty_state("7" * 64), notes=MISSING),
    Mistake("a state in a folder that is not there", OBSERVE.replace("--state state", "--state sate/state"), 3, S9,
            ["lock sate/state.lock: No such file or directory"], given=SECOND),
    Mistake("a mistyped state", f"bundle {HELD.replace('state state', 'state sate')} --domain b.test", 0,
            "fedbundle: there is no state file sate", []),
    Mistake("a lock of another user", DISTRUST, 3, S9, ["lock state.lock: Permission denied"],
            {"state.lock": b""}, before=mode("state.lock", 0), as_nobody=True),
    Mistake("a read-only folder", DISTRUST, 3, S9, ["write state.new, and rename it: Permission denied"],
            {"state.lock": b""}, before=lambda: (os.chmod("state.lock", 0o666), os.chmod(".", 0o555)), as_nobody=True, notes=MISSING),
    Mistake("a disk without room", DISTRUST, 3, S9, ["write state.new, and rename it: File too large"], limited=True, notes=MISSING),
    Mistake("a folder as state", f"bundle {HELD.replace('state state', 'state folder')} --domain b.test", 3, S9,
            ["state folder: Is a directory"], {"folder/x": b""}),
    Mistake("an empty state", f"bundle {HELD} --domain b.test", 1, "fedbundle: S7 Truncated",
            ["state state: it is empty"], {"state": b""}),
    Mistake("a state that is cut", f"bundle {HELD} --domain b.test", 1, "fedbundle: S7 Truncated",
            ["state state: it ends too early"], {"state": empty_state(DIGEST)[:-5]}),
    Mistake("a snapshot with CR LF", f"bundle {HELD} --domain b.test", 1, "fedbundle: S1 BadHeader",
            [f'state state: line 1 begins with {SHOWN_HEAD}, and ends with a carriage return'],
            {"state": empty_state(DIGEST).replace(b"\n", b"\r\n")}),
    Mistake("a journal with another line", f"bundle {HELD} --domain b.test", 1,
            "fedbundle: journal: S4 NotCanonical line 2", ['journal state.journal: line 2 begins with "hello"'],
            {"state.journal": compact({"config": DIGEST, "format": 2}) + b"\nhello\n"}),
    Mistake("a state that is not there", f"status {HELD}", 1, "fedbundle: no state",
            ['--state "state" is not there: `new` writes one that holds nothing']),
    Mistake("a state that is not there, of a known key", f"{DISTRUST} --known", 1, "fedbundle: no state",
            ['--state "state" is not there: `new` writes one that holds nothing']),
    Mistake("a new state where one is", f"new {HELD}", 1, "fedbundle: state exists",
            ['--state "state" is there, or its journal is'], {"state": empty_state(DIGEST)}),
    Mistake("a lock that another command has", f"{DISTRUST} --wait 0", 3, "fedbundle: locked",
            ["lock state.lock: another command has it"], context=held_lock,
            notes=["fedbundle: waits for the lock of state"]),
    # Bundles.
    Mistake("a page as bundle", "canon --domain b.test", 1, "fedbundle: B2 NotJson",
            ["standard input: invalid JSON at line 1, column 1", 'standard input: it begins with "<!DOCTYPE html>\\x0a..'],
            given=PAGE),
    Mistake("an empty bundle", OBSERVE, 1, "fedbundle: O5 Document B2 NotJson", ["standard input: it is empty"], notes=MISSING),
    Mistake("a bundle without keys", "canon --domain b.test", 1, "fedbundle: B4 NoKeys",
            ['standard input: it begins with "{}"'], given=b"{}"),
    # The command line.
    Mistake("a key with colons", OBSERVE.replace(KEY, "BA:78:16"), 1, "fedbundle: bad key",
            ['--key "BA:78:16" is not 64 digits of 0-9a-f'], given=SECOND, notes=MISSING),
    Mistake("a missing option", f"distrust {HELD} --domain b.test", 2, USAGE, ["distrust: --key is missing"]),
    Mistake("a flag of replicas over files", f"{DISTRUST} --unknown-key", 2, USAGE, ["distrust: --unknown-key is only for --at"]),
    Mistake("a flag of files at a replica", f"distrust --at socket --domain b.test --key {KEY} --known", 2, USAGE,
            ["distrust: --known may not stand beside --at"]),
    Mistake("a new state at a replica", "status --at socket --new", 2, USAGE, ["status: --new may not stand beside --at"]),
    Mistake("a key that nobody lists", f"{DISTRUST.replace(KEY, OTHER_KEY)} --known", 1, "fedbundle: no known key",
            [f'--key "{OTHER_KEY}" is not known in the domain'], {"state": empty_state(DIGEST)}),
    Mistake("no subcommand", "", 2, USAGE, ["a subcommand is missing: see fedbundle --help"]),
    Mistake("a host's name as address", f"pull {HELD} --peer localhost:8471", 1, "fedbundle: bad address",
            ['--peer "localhost:8471" is no IP address with a port..'], notes=MISSING),
    Mistake("port 0", f"pull {HELD} --peer 127.0.0.1:0", 1, "fedbundle: bad address",
            ['--peer "127.0.0.1:0" is no IP address with a port..'], {"state": empty_state(DIGEST)}),
    Mistake("a moment that is no time", f"polls {HELD} --now 2026-11-24", 1, "fedbundle: bad moment",
            ['--now "2026-11-24" is no moment in Unix seconds'], {"state": empty_state(DIGEST)}),
    Mistake("no session", f"serve {HELD} --listen 127.0.0.1:8471 --sessions 0", 2, USAGE,
            ['--sessions "0" is no number of its range']),
    Mistake("a wait in words", f"{DISTRUST} --wait 5s", 2, USAGE, ['--wait "5s" is no number of its range']),
    Mistake("an empty path", f"bundle --config config.json --state= --domain b.test", 2, USAGE,
            ['--state "" names no file']),
    Mistake("a domain in upper case", f"bundle {HELD} --domain B.test", 1, "fedbundle: N4 BadDomainByte at 0",
            ['--domain "B.test" is no trust domain name'], {"state": empty_state(DIGEST)}),
    Mistake("an endpoint without its scheme", OBSERVE.replace(ENDPOINT, "b.test/bundle"), 1,
            "fedbundle: N3 BadScheme", ['--endpoint "b.test/bundle" is no SPIFFE ID'], given=SECOND, notes=MISSING),
    Mistake("a mistyped domain", OBSERVE.replace("--domain b.test", "--domain b.tset"), 1,
            "fedbundle: O1 NoRelationship", ["config config.json: b.tset does not occur"], given=SECOND, notes=MISSING),
    Mistake("another endpoint", OBSERVE.replace(ENDPOINT, "spiffe://b.test/other"), 1, "fedbundle: O2 WrongEndpoint",
            [f"config config.json: the endpoint of b.test is {ENDPOINT}", '--endpoint is "spiffe://b.test/other"'],
            given=SECOND, notes=MISSING),
    Mistake("a domain without a bundle", f"bundle {HELD} --domain c.test", 1, "fedbundle: no current bundle",
            ["config config.json: c.test does not occur"], {"state": empty_state(DIGEST)}),
    # Sockets.
    Mistake("a port in use", f"serve {HELD} --listen 127.0.0.1:PORT --sessions 1", 3, S9,
            ["listen 127.0.0.1:PORT: Address already in use"], {"state": empty_state(DIGEST)},
            context=taken_port(True)),
    Mistake("an address of another machine", f"serve {HELD} --listen 192.0.2.1:8471 --sessions 1", 3, S9,
            ["listen 192.0.2.1:8471: Cannot assign requested address"], {"state": empty_state(DIGEST)}),
    Mistake("nobody there", f"pull {HELD} --peer 127.0.0.1:PORT", 3, S9, ["connect 127.0.0.1:PORT: Connection refused"],
            context=taken_port(False), notes=MISSING),
]

# The subcommands. Each has `--verbose`.
WITH_VERBOSE = {"canon", "config", "report", "list", "diff", "graph", "status", "bundle", "explain", "observe", "merge",
                "migrate", "reseed", "polls", "distrust", "serve", "pull", "replica", "stop"}

program = find_program()
faults = []


def lay(mistake):
    for path in Path(".").iterdir():
        shutil.rmtree(path) if path.is_dir() else path.unlink()
    for name, text in {"config.json": CONFIG, **mistake.files}.items():
        Path(name).parent.mkdir(exist_ok=True)
        Path(name).write_bytes(text)
    if mistake.before:
        mistake.before()


def limit():
    signal.signal(signal.SIGXFSZ, signal.SIG_IGN)
    resource.setrlimit(resource.RLIMIT_FSIZE, (50, 50))


def run(mistake, called, port, environment, more):
    words = [word.replace("PORT", str(port)) for word in mistake.words.split()] + more
    user = {"user": NOBODY, "group": NOBODY, "extra_groups": []} if mistake.as_nobody and os.geteuid() == 0 else {}
    return subprocess.run(
        [called, *words], input=mistake.given, capture_output=True, timeout=HANG, env=environment,
        preexec_fn=limit if mistake.limited else None, **user,
    )


def is_as_wanted(came, wanted):
    return came.startswith(wanted[:-2]) if wanted.endswith("..") else came == wanted


def judge(mistake, called):
    with temporary() as room:
        os.chmod(room, 0o777)
        os.chdir(room)
        ways = [({}, []), ({"FEDBUNDLE_VERBOSE": "1"}, [])]
        if mistake.words.split()[:1] and mistake.words.split()[0] in WITH_VERBOSE:
            ways.append(({}, ["--verbose"]))
        ran = []
        for environment, more in ways:
            os.chmod(room, 0o777)
            lay(mistake)
            with mistake.context() as port:
                ran.append((run(mistake, called, port, environment, more), port))
        os.chmod(room, 0o777)
        os.chdir("/")
    plain, verbose = ran[0][0], ran[1][0]
    for number, (came, port) in enumerate(ran[1:]):
        lines = came.stderr.decode().splitlines()
        if number == 0:
            print(f"- {mistake.name}: `{mistake.words}`")
            print("".join(f"      {line}\n" for line in lines), end="")
        # With `--verbose` distrust says first what it changes.
        begun = lines.index(mistake.line) if number == 1 and mistake.line in lines else len(mistake.notes)
        is_begun = number == 1 or lines[:begun] == mistake.notes
        if not is_begun or lines[begun : begun + 1] != [mistake.line] or came.returncode != mistake.status:
            faults.append(f"{mistake.name}: {came.returncode}: {lines}")
        for line in mistake.more:
            wanted = f"  {line.replace('PORT', str(port))}"
            if not any(is_as_wanted(it, wanted) for it in lines[begun + 1 :]):
                faults.append(f"{mistake.name}: no line {wanted!r}, but {lines}")
    alone = "" if mistake.line.startswith("fedbundle: there is") else mistake.line + "\n"
    is_same = (plain.stdout, plain.returncode) == (verbose.stdout, verbose.returncode)
    if plain.stderr.decode() != alone or not is_same:
        faults.append(f"{mistake.name}: without the variable: {plain}")


def main():
    with temporary() as folder:
        os.chmod(folder, 0o755)
        called = str(Path(folder) / "fedbundle")
        shutil.copy(program, called)
        os.chmod(called, 0o755)
        for mistake in MISTAKES:
            judge(mistake, called)
    for why in faults:
        print(why)
    print(f"{len(MISTAKES)} mistakes; {len(faults)} wrong")
    sys.exit(1 if faults else 0)


if __name__ == "__main__":
    main()

#!/usr/bin/env python3
"""Runs every command with a state that is not there.

- `new` writes a state that holds nothing, with mode 0600. If a state or a journal is there, or another command has the
  lock, it refuses and changes nothing.
- `report`, `list`, `graph`, `status`, `diff`, and `distrust` with --dry-run or --known refuse a state that is not there as `no
  state`, with status 1, and with --new take it for one that holds nothing. A journal alone is a state. `diff` needs both states.
  `migrate` and `reseed` refuse it in any case.
- `distrust --known` refuses a key that no bundle lists as `no known key`, also with --dry-run, and makes no file.
- `bundle`, `explain`, `polls`, `observe`, `merge` and `distrust` take such a state for one that holds nothing, and say so if
  more is wanted.
- With --at there is a state, so --new and --known are refused; without it --unknown-key is.
- `replica` refuses it too.

It needs python3. The program is the one that ./fedbundle runs, or the one that $FEDBUNDLE names.

usage: states   the status is 1 if something is wrong
"""
import base64
import fcntl
import hashlib
import json
import os
import shutil
import stat
import subprocess
import sys
from pathlib import Path

sys.dont_write_bytecode = True
sys.path.insert(0, str(Path(__file__).resolve().parent.parent / "lib"))
from harness import HANG, TOP, find_program, shown, temporary  # noqa: E402

KEY = "0" * 64
MISSING, NO_KEY, USAGE = b"fedbundle: no state\n", b"fedbundle: no known key\n", b"fedbundle: usage\n"
LOOKS = {
    "report": [],
    "list": [],
    "graph": [],
    "status": [],
    "diff": ["--with", "other"],
    "distrust": ["--domain", "a.example", "--key", KEY, "--dry-run"],
}
# Nothing goes along from a state that is not there, so these have no --new.
CARRY = {"migrate": ["--to", "config"], "reseed": []}
CHANGE = {
    "observe": ["--domain", "a.example", "--endpoint", "spiffe://a.example/bundle", "--key", KEY],
    "merge": [],
    "distrust": ["--domain", "a.example", "--key", KEY],
}
SHOW = {
    "bundle": ["--domain", "a.example"],
    "explain": ["--domain", "a.example"],
    "polls": ["--now", "0"],
}

faults = []
ran = 0


def want(what, right, *seen):
    global ran
    ran += 1
    if not right:
        faults.append(f"{what}: {', '.join(shown(value) for value in seen)}")


class Folder:
    """A folder with a configuration."""

    def __init__(self, program, path):
        self.program, self.path = program, path
        path.mkdir()
        shutil.copy(TOP / "examples/config.json", path / "config")
        self.bundle = subprocess.run([program, "bundle", "--config", "config", "--state", "nothing", "--domain", "a.example"],
                                     cwd=path, capture_output=True).stdout

    def run(self, name, *words, text=b"", loud=False):
        variables = {**os.environ, "FEDBUNDLE_VERBOSE": "1" if loud else "0"}
        return subprocess.run([self.program, name, "--config", "config", "--state", "state", *words], cwd=self.path, input=text,
                              capture_output=True, timeout=HANG, env=variables)

    def key(self):
        """The id of the key that the configured bundle of a.example lists."""
        certificate = next(key["x5c"][0] for key in json.loads(self.bundle)["keys"] if key["use"] == "x509-svid")
        return hashlib.sha256(base64.b64decode(certificate)).hexdigest()

    def names(self):
        return sorted(path.name for path in self.path.iterdir())


def new(folder):
    ended = folder.run("new")
    want("new", (ended.returncode, ended.stdout, ended.stderr) == (0, b"", b""), ended)
    state = folder.path / "state"
    want("its mode", stat.S_IMODE(state.stat().st_mode) == 0o600, state.stat())
    held = folder.run("list")
    want("it holds nothing", (held.returncode, held.stdout) == (0, b""), held)
    before = state.read_bytes()
    again = folder.run("new", loud=True)
    wanted = (1, b"", b'fedbundle: state exists\n  --state "state" is there, or its journal is\n')
    want("new again", (again.returncode, again.stdout, again.stderr) == wanted, again)
    want("the state stays", state.read_bytes() == before)
    journal = folder.path / "state.journal"
    state.rename(journal)
    again = folder.run("new")
    want("beside a journal", (again.returncode, again.stderr) == (1, b"fedbundle: state exists\n"), again)
    want("the journal stays", journal.read_bytes() == before and not state.exists())
    journal.unlink()
    with open(folder.path / "state.lock", "wb") as lock:
        fcntl.flock(lock, fcntl.LOCK_EX)
        kept = folder.run("new", "--wait", "0")
        want("beside another command", (kept.returncode, kept.stderr) == (3, b"fedbundle: locked\n"), kept)
    want("no state then", not state.exists(), folder.names())


def looked_at(folder):
    (folder.path / "other").write_bytes(b"")
    for name, words in LOOKS.items():
        before = folder.names()
        ended = folder.run(name, *words)
        want(f"{name} without a state", (ended.returncode, ended.stdout, ended.stderr) == (1, b"", MISSING), ended)
        told = folder.run(name, *words, loud=True).stderr
        want(f"{name} says which", told == MISSING + b'  --state "state" is not there: `new` writes one that holds nothing\n', told)
        want(f"{name} changes nothing", folder.names() == before, folder.names())
    (folder.path / "other").unlink()
    for name, words in LOOKS.items():
        ended = folder.run(name, *words, "--new")
        want(f"{name} --new", MISSING not in ended.stderr and ended.returncode in (0, 1), ended)
    want("no file was made", folder.names() == ["config"], folder.names())
    without_a_state(folder)
    for name, words in CARRY.items():
        ended = folder.run(name, *words)
        want(f"{name} without a state", (ended.returncode, ended.stdout, ended.stderr) == (1, b"", MISSING), ended)
        want(f"{name} has no --new", folder.run(name, *words, "--new").returncode == 2)


def without_a_state(folder):
    """`distrust --known` makes no file, also not for a key that is known; the lock is taken before the state is read."""
    for key in (KEY, folder.key()):
        words = ["--domain", "a.example", "--key", key, "--known"]
        ended = folder.run("distrust", *words)
        want("distrust --known without a state", (ended.returncode, ended.stdout, ended.stderr) == (1, b"", MISSING), ended)
        want("it makes no state", {*folder.names()} <= {"config", "state.lock"}, folder.names())
    (folder.path / "state.lock").unlink(missing_ok=True)


def known(folder):
    """A key that a configured bundle lists is known, and another one is not."""
    folder.run("new")
    state = folder.path / "state"
    before = state.read_bytes()
    of_domain = ["--domain", "a.example", "--key"]
    for more in (["--known"], ["--known", "--dry-run"], ["--known", "--new"]):
        ended = folder.run("distrust", *of_domain, KEY, *more)
        want(f"an unknown key {more}", (ended.returncode, ended.stdout, ended.stderr) == (1, b"", NO_KEY), ended)
    ended = folder.run("distrust", "--domain", "b.example", "--key", folder.key(), "--known")
    want("a key of another domain", (ended.returncode, ended.stderr) == (1, NO_KEY), ended)
    want("the state stays", state.read_bytes() == before)
    shown = [folder.run("distrust", *of_domain, folder.key(), "--dry-run", *more) for more in ([], ["--known"])]
    want("a dry run of a known key", shown[0].stdout == shown[1].stdout != b"" and shown[1].returncode == 0, *shown)
    ended = folder.run("distrust", *of_domain, folder.key(), "--known")
    want("a known key", (ended.returncode, ended.stdout, ended.stderr) == (0, b"", b""), ended)
    want("its record", state.read_bytes() != before and folder.key().encode() in state.read_bytes())
    ended = folder.run("distrust", *of_domain, KEY)
    want("without --known it need not be", (ended.returncode, ended.stdout, ended.stderr) == (0, b"", b""), ended)
    held = state.read_bytes()
    ended = folder.run("distrust", *of_domain, KEY, "--unknown-key")
    want("--unknown-key over files", (ended.returncode, ended.stdout, ended.stderr) == (2, b"", USAGE), ended)
    want("it changes nothing", state.read_bytes() == held)


def with_one(folder):
    """One of two states of `diff` is not there; and a journal alone is a state."""
    folder.run("new")
    ended = folder.run("diff", "--with", "other")
    want("diff without the other state", (ended.returncode, ended.stderr) == (1, MISSING), ended)
    ended = folder.run("diff", "--with", "other", "--new")
    want("diff --new", (ended.returncode, ended.stdout) == (0, b""), ended)
    lines = (folder.path / "state").read_bytes().splitlines(keepends=True)
    (folder.path / "state").unlink()
    (folder.path / "state.journal").write_bytes(lines[0].replace(b"state", b"journal", 1))
    ended = folder.run("list")
    want("a journal alone", MISSING not in ended.stderr, ended)


def of_the_format(folder):
    for name, words in {**SHOW, **CHANGE}.items():
        for path in folder.path.glob("state*"):
            path.unlink()
        text = folder.bundle if name in ("observe", "explain") else b""
        plain, loud = folder.run(name, *words, text=text), None
        want(f"{name} has no `no state`", MISSING not in plain.stderr, plain)
        for path in folder.path.glob("state*"):
            path.unlink()
        loud = folder.run(name, *words, text=text, loud=True)
        want(f"{name} ends as before", (loud.returncode, loud.stdout) == (plain.returncode, plain.stdout), plain, loud)
        # What cannot be read at all ends before the state is looked at.
        if name != "merge":
            want(f"{name} says it", b"fedbundle: there is no state file state\n" in loud.stderr, loud)
        want(f"{name} has no --new", name == "distrust" or folder.run(name, *words, "--new").returncode == 2)


def others(folder):
    for words in (["status", "--new"], ["distrust", *CHANGE["distrust"], "--known"]):
        ended = subprocess.run([folder.program, *words, "--at", "nobody"], cwd=folder.path, capture_output=True)
        want(f"--at {words[-1]}", (ended.returncode, ended.stderr) == (2, USAGE), ended)
    before = folder.names()
    ended = folder.run("replica", "--socket", "socket")
    want("a replica without a state", (ended.returncode, ended.stdout, ended.stderr) == (1, b"", MISSING), ended)
    want("it makes nothing but the lock", sorted({*folder.names()} - {*before}) in ([], ["state.lock"]), folder.names())


def main():
    program = find_program()
    for case in (new, looked_at, known, with_one, of_the_format, others):
        with temporary() as above:
            case(Folder(program, Path(above) / "folder"))
    for fault in faults:
        print(fault)
    print(f"states: {ran} looks, {len(faults)} wrong")
    return 1 if faults else 0


if __name__ == "__main__":
    sys.exit(main())

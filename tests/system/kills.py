#!/usr/bin/env python3
"""Kills the program at each call of the system that it makes while it writes a state file, leaves it files that it must not
read, and runs many together over one state file.

- Killed by SIGKILL before and behind each call (inject.c, preloaded, does it from within): the state file is as
  before up to the rename, and as after the whole run from then on, byte for byte; the next run reads it and goes on.
- By the order of calls, the file with `.new` behind its name is put on the disk before it is renamed, and the folder
  after that.
- The same if the journal next to the state file has what is held, or if both have it: wherever the program is
  killed, nothing is lost.
- A file with `.new` behind its name that an earlier run left is replaced if a state is written, and read by no command.
  One that does not begin as a state, and a lock's file with a text of its own, are refused if a state is written, and stay.
- Ten each of observe, merge and distrust together over one state file lose nothing: the state is the one that they make
  one after another.
- If some of many commands are killed from outside at some time, each that ended with 0 is in the state, and
  nothing else but what the killed ones brought; done again, the state is the whole one.

It needs python3, cc and nm. The program is the one that ./fedbundle runs, or the one that $FEDBUNDLE names.

usage: kills [ROUNDS]   this many rounds of commands together, 5 if left out; the status is 1 if something is wrong
"""
import hashlib
import json
import random
import re
import signal
import subprocess
import sys
import time
from pathlib import Path

sys.dont_write_bytecode = True
sys.path.insert(0, str(Path(__file__).resolve().parent.parent / "lib"))
from harness import HANG, Place, Run, as_journal, build_library, content, find_program  # noqa: E402
from harness import journaled, lay, shown, temporary, worked_runs  # noqa: E402

ROWS = [
    "state-files/observe-second-document",
    "state-files/observe-third-document",
    "merge/third-merges-second",
    "distrust/key-of-abc",
]
READERS = ["state-files/bundle", "chains/third-document", "polls/two-failures"]
WRITTEN_SAFELY = re.compile(r" open (fchmod )?(__write |write )+fsync rename open fsync close ")
GARBAGE = [b"", b"garbage", bytes(1_000_000), b'{"config":"', b'{"conf']
OWN = b'{"config":"'
MANY = 10

faults = []
ran = 0


def want(right, what, *values):
    global ran
    ran += 1
    if not right:
        faults.append(f"{what}: {', '.join(shown(value) for value in values)}")


def bundle_of(run):
    domain = run.words[run.words.index("--domain") + 1] if "--domain" in run.words else "a.example"
    words = ["bundle", *run.words[1:5], "--domain", domain]
    return Run(f"{run.name}, then bundle", words, run.files)


def beside_its_journal(run):
    files = {**run.files, "state.journal": as_journal(run.files["state"])}
    return Run(f"{run.name} beside its journal", run.words, files, run.stdin, run.writes)


def killed_everywhere(run, place):
    before = run.files.get("state")
    whole = place.see(run)
    want(WRITTEN_SAFELY.search(f" {' '.join(whole.order)} "), f"{run.name}: the order of calls", whole.order)
    following = {state: place.see(run.over(state)) for state in (before, whole.state)}
    reading = {state: place.see(bundle_of(run).over(state)) for state in (before, whole.state)}
    for how in ("before", "after"):
        for call in range(1, whole.calls["system"] + 1):
            seen = place.see(run, ("system", call, how, 0))
            at = f"{run.name}: killed {how} call {call}, {seen.name}"
            want(seen.status == -signal.SIGKILL and seen.met, f"{at}: how it ended", seen.status)
            renamed = "rename" in seen.order[:-1] or (how == "after" and seen.name == "rename")
            want(seen.state == (whole.state if renamed else before), f"{at}: the state", seen.state)
            want(whole.out.startswith(seen.out), f"{at}: standard output", seen.out)
            if seen.state in reading:
                read = place.see(bundle_of(run), anew=False)
                want(read.answer() == reading[seen.state].answer(), f"{at}, then bundle", read.answer())
                next_one = place.see(run, anew=False)
                want(next_one.answer() == following[seen.state].answer(), f"{at}, then again", next_one.answer())
                want(next_one.new is None, f"{at}, then again: what is left", next_one.new)


def is_own(name, text):
    """Whether a command takes it for what another one, or a cut of power, left."""
    begins = text[:len(OWN)]
    return not text or name == "state.new" and (OWN.startswith(begins) or not begins.strip(b"\0"))


def garbage_is_not_read(run, place):
    whole = place.see(run)
    other = (whole.state or b"").replace(b'"count":', b'"count":1')
    for text in [*GARBAGE, other]:
        for name in ("state.new", "state.lock"):
            given = Run(run.name, run.words, {**run.files, name: text}, run.stdin)
            seen = place.see(given)
            what = f"{run.name} beside {name} {text[:20]}"
            if run.writes and not is_own(name, text):
                right = (seen.status, seen.err, seen.state) == (3, b"fedbundle: S9 Io\n", run.files.get("state"))
                want(right and (place.folder / name).read_bytes() == text, f"{what}: it is refused, and stays", seen.answer())
                continue
            want(seen.answer() == whole.answer(), what, seen.answer())
            if name == "state.new":
                wanted = None if run.writes else text
                want(seen.new == wanted, f"{what}: what is left", seen.new)


def document(number):
    certificate = ["YWJj", "aGVsbG8="][:number]
    keys = [{"e": "AQAB", "kty": "RSA", "n": "AQAB", "use": "x509-svid", "x5c": [text]} for text in certificate]
    return {"keys": keys, "spiffe_sequence": number}


def domain(number):
    return f"d{number:02}.example"


def configuration():
    """A relationship and a seed for each of this many domains that each observe and each merge has its own."""
    names = [domain(number) for number in range(2 * MANY)]
    relationships = [
        {"domain": name, "endpoint": f"spiffe://{name}/bundle", "profile": "https_spiffe", "url": f"https://{name}/"}
        for name in names
    ]
    seeds = [{"bundle": document(1), "domain": name} for name in names]
    return json.dumps({"relationships": relationships, "seeds": seeds}).encode()


def observe(number):
    key = hashlib.sha256(b"abc").hexdigest()
    name = domain(number)
    words = ["--domain", name, "--endpoint", f"spiffe://{name}/bundle", "--key", key]
    return ["observe", *words], json.dumps(document(2)).encode()


def distrust(number):
    key = hashlib.sha256(str(number).encode()).hexdigest()
    return ["distrust", "--domain", domain(0), "--key", key], b""


class Together:
    """Commands over one state file, without the library."""

    def __init__(self, place):
        self.place = place
        self.start_anew()
        merged = []
        for number in range(MANY, 2 * MANY):
            self.one_after_another([observe(number)])
            merged.append((["merge"], self.state()))
            self.start_anew()
        observed = [observe(number) for number in range(MANY)]
        distrusted = [distrust(number) for number in range(MANY)]
        self.groups = {"observe": observed, "merge": merged, "distrust": distrusted}
        self.groups["all three"] = [command for three in zip(observed, merged, distrusted) for command in three]
        self.wholes = {}
        for name, commands in self.groups.items():
            self.start_anew()
            self.one_after_another(commands)
            self.wholes[name] = self.state()

    def start_anew(self):
        lay(self.place.folder, {"config": configuration()})

    def state(self):
        return content(self.place.folder / "state")

    def start(self, command):
        (name, *words), text = command
        given = subprocess.Popen(
            [self.place.program, name, "--config", "config", "--state", "state", *words],
            stdin=subprocess.PIPE,
            stdout=subprocess.DEVNULL,
            stderr=subprocess.PIPE,
            cwd=self.place.folder,
        )
        try:
            given.stdin.write(text)
            given.stdin.close()
        except BrokenPipeError:
            pass
        return given

    def ends(self, processes):
        return [process.wait(timeout=HANG) for process in processes]

    def one_after_another(self, commands):
        for command in commands:
            want(self.ends([self.start(command)]) == [0], "one after another", command[0])

    def at_once(self, name):
        self.start_anew()
        processes = [self.start(command) for command in self.groups[name]]
        ended = self.ends(processes)
        want(ended == [0] * len(ended), f"{name} at once: how they ended", ended)
        want(self.state() == self.wholes[name], f"{name} at once: the state", self.state())

    def at_once_and_killed(self, chance):
        commands = self.groups["distrust"]
        self.start_anew()
        processes = []
        for command in commands:
            processes.append(self.start(command))
            if chance.random() < 0.5:
                time.sleep(chance.random() / 500)
                chance.choice(processes[-3:]).kill()
        ended = self.ends(processes)
        text = (self.state() or b"").decode()
        held = [f'"{words[words.index("--key") + 1]}"' in text for words, _ in commands]
        lost = [words for (words, _), end, here in zip(commands, ended, held) if end == 0 and not here]
        want(not lost, "at once and killed: lost", lost, ended)
        want(set(ended) <= {0, -signal.SIGKILL}, "at once and killed: how they ended", ended)
        want(f'"distrusts":{sum(held)}}}' in text or not any(held), "at once and killed: the state", text)
        self.one_after_another(commands)
        want(self.state() == self.wholes["distrust"], "at once, killed and again: the state", self.state())
        return ended.count(-signal.SIGKILL)


def main():
    rounds = int(sys.argv[1]) if len(sys.argv) > 1 else 5
    program = find_program()
    rows = worked_runs()
    killed = 0
    with temporary() as folder:
        place = Place(program, build_library(folder, program), folder)
        for name in ROWS:
            killed_everywhere(rows[name], place)
            if "state" in rows[name].files:
                killed_everywhere(journaled(rows[name]), place)
                killed_everywhere(beside_its_journal(rows[name]), place)
        for name in ROWS + READERS:
            garbage_is_not_read(rows[name], place)
        together = Together(place)
        for number in range(rounds):
            for name in together.groups:
                together.at_once(name)
            for _ in range(4):
                killed += together.at_once_and_killed(random.Random(number))
    for fault in faults[:20]:
        print(fault)
    print(f"{ran} things looked at, {killed} killed from outside; {len(faults)} wrong")
    sys.exit(1 if faults else 0)


if __name__ == "__main__":
    main()

#!/usr/bin/env python3
"""Plays docs/RUNBOOKS.md, and the sections of docs/OPERATING.md that have console blocks: brings each trouble about, and follows
the page to its end.

The commands are those of the page, and what the page shows is what they have to print. A `console` block has lines that
begin with `# ` for root and with `$ ` for the user fedbundle, both in /var/lib/fedbundle. The lines below a command have
to come in this order, and others may come between them; `<..>` means a word, `..` whatever is left of a line, and
`(status 1)` for the exit status, which is 0 if nothing is said. A command that only looks is repeated for a while until
it prints what it has to. `$key` and the like are what the page says of them. An `ini` block has lines of
/etc/default/fedbundle. Each block of a section has to be followed, and each section with such blocks has to be played: by one play,
or by several that leave out different blocks.

A machine is a copy of this one whose changes are thrown away, with the programs and units of deploy/. tests/lib/systemctl
stands in for systemd, a script for a SPIRE server, and the TLS server of tests/fetch.py for the foreign domain. All have a
network of their own.

It needs root, mounts, overlayfs, python3 and the tools of tests/lib/needs.py. The
program is the one that $FEDBUNDLE names, or else the one that ./fedbundle runs.

usage: runbooks [WORD..]   plays those whose title has one of the words, or all; a line for each, and the status is 1
    if one failed
"""
import fcntl
import importlib.machinery
import importlib.util
import json
import os
import re
import shlex
import shutil
import socket
import struct
import subprocess
import sys
import tempfile
import time
import traceback
from dataclasses import dataclass, field
from pathlib import Path

sys.dont_write_bytecode = True
sys.path.insert(0, str(Path(__file__).resolve().parent / "lib"))
from harness import find_program  # noqa: E402
from machine import Machine, mount  # noqa: E402
from needs import require  # noqa: E402

TOP = Path(__file__).resolve().parent.parent
PAGES = [TOP / "docs/RUNBOOKS.md", TOP / "docs/OPERATING.md"]
HOME = "/var/lib/fedbundle"
UNIT = "fedbundle-replica.service"
# What is repeated until it prints what the page shows.
LOOKS = re.compile(r"(fedbundle (status|report|bundle|list|diff)|journalctl|systemctl (show|is-active)|cmp|df|wc) ")
SECONDS = 300
# What the words that differ look like.
WILD = {"..": ".*", "<id>": "[0-9a-f]{64}", "<n>": "[0-9]+", "<seconds>": r"[0-9.]+", "<cause>": ".+"}


class Wrong(Exception):
    """What is not as the page says."""


def want(right, what, seen):
    if not right:
        raise Wrong(f"{what}: {seen}")


def until(right, what):
    end = time.monotonic() + SECONDS
    while not right():
        want(time.monotonic() < end, f"{what} wanted", "nothing came")
        time.sleep(0.05)


def script(name):
    """A script of tests/ as a module."""
    loader = importlib.machinery.SourceFileLoader(f"{name}_tests", str(TOP / "tests" / f"{name}.py"))
    made = importlib.util.module_from_spec(importlib.util.spec_from_loader(loader.name, loader))
    sys.modules[loader.name] = made
    loader.exec_module(made)
    return made


# The page.


@dataclass
class Command:
    """A command of a block, and what it has to print."""

    by_root: bool
    text: str
    shown: list = field(default_factory=list)
    status: int = 0

    def fault(self, status, printed):
        """What is wrong of what came, if anything is."""
        if status != self.status:
            return f"status {self.status} wanted, and not {status}"
        left = iter(printed.splitlines())
        missing = [line for line in self.shown if not any(pattern(line).fullmatch(came) for came in left)]
        return f"{missing[0]!r} wanted" if missing else ""


def pattern(line):
    """What a line of the page means."""
    parts = re.split(r"(<[^>]*>|\.\.)", line)
    return re.compile("".join(WILD.get(part, r"\S+" if part.startswith("<") else re.escape(part)) for part in parts))


def commands(block):
    """The commands of a console block."""
    found = []
    for line in block.replace("\\\n", " ").splitlines():
        if line[:2] in ("# ", "$ "):
            found.append(Command(line[0] == "#", line[2:]))
        elif status := re.fullmatch(r"\(status (\d+)\)", line):
            found[-1].status = int(status[1])
        else:
            found[-1].shown.append(line)
    return found


def runbooks():
    """The blocks of each section of the pages that has some, by its title: kinds and texts."""
    parts = [part for page in PAGES for part in page.read_text().split("\n## ")[1:]]
    found = {part.split("\n")[0]: [block for block in blocks_of(part) if block[0] in ("console", "ini")] for part in parts}
    return {title: blocks for title, blocks in found.items() if any(kind == "console" for kind, _ in blocks)}


def blocks_of(part):
    """The kind and the text of each block, those of a list moved to the left."""
    found = re.findall(r"^( *)```(\w+)\n(.*?)^ *```", part, re.S | re.M)
    return [(kind, re.sub(f"^{space}", "", text, flags=re.M)) for space, kind, text in found]


# The machines.


class Replica(Machine):
    """A machine with a replica."""

    def __init__(self, world, name, number):
        super().__init__(world.folder / name, name)
        self.number = number
        local = self.path("/usr/local")
        shutil.copy(world.program, local / "bin/fedbundle")
        for script in ("fedbundle-fetch", "fedbundle-spire", "fedbundle_scripts.py"):
            shutil.copy(TOP / "deploy" / script, local / "bin")
        for name in ("systemctl", "journalctl"):
            shutil.copy(TOP / "tests/lib/systemctl", local / "sbin" / name)
        units = local / "lib/systemd/system"
        units.mkdir(parents=True, exist_ok=True)
        for unit in (TOP / "deploy").glob("*.[st]*"):
            shutil.copy(unit, units)
        self.path("/etc/more-words").write_text("--every 1\n")
        for words in (["systemd-sysusers", TOP / "deploy/fedbundle.sysusers"],
                      ["systemd-tmpfiles", "--create", TOP / "deploy/fedbundle.tmpfiles"]):
            subprocess.run(["chroot", self.root, *words], check=True, capture_output=True)
        self.configure(json.dumps(world.config))
        if number != 1:
            self.set(self.options())

    def options(self, *more):
        """The options of a replica with its own addresses, and more peers. The replicas of these tests have addresses of
        their own on one loopback, and no stunnel."""
        peers = ",".join(f"127.0.0.1:{8470 + one}" for one in sorted({1, 2, 3, *more} - {self.number}))
        return f'REPLICA_OPTIONS="--listen 127.0.0.1:{8470 + self.number} --peers {peers}"\n'

    def set(self, text):
        """Writes the file of the units' options."""
        self.path("/etc/default/fedbundle").write_text(text)

    def give(self, name, text):
        """Puts a file into the replica's folder."""
        self.path(f"{HOME}/{name}").write_text(text)
        self.run(f"chown fedbundle: {name} && chmod 600 {name}")

    def configure(self, config):
        """The configuration, which the pusher reads by its group, and a state that holds nothing."""
        self.give("config.json", config)
        self.run("chmod 640 config.json")
        self.run("fedbundle new --config config.json --state state", by_root=False)

    def run(self, command, by_root=True, home=HOME):
        """The status of a line of a shell, and what it printed on both streams."""
        if not by_root:
            command = f"runuser -u fedbundle -- bash -c {shlex.quote(f'umask 077; {command}')}"
        ran = subprocess.run(self.words(f"exec 2>&1; unset FEDBUNDLE; {command}", home), stdout=subprocess.PIPE, text=True, timeout=1200,
                             stdin=subprocess.DEVNULL)
        return ran.returncode, ran.stdout

    def start(self):
        """Starts the replica, and waits until it answers."""
        self.run(f"systemctl start {UNIT}")
        until(lambda: self.run("fedbundle status --at /run/fedbundle/socket")[1].startswith("config"), "a replica")

    def report(self):
        return self.run("fedbundle report --at /run/fedbundle/socket")[1]

    def sequence(self, domain="b.test"):
        """The sequence of the current bundle."""
        status, told = self.run(f"fedbundle bundle --at /run/fedbundle/socket --domain {domain}")
        return json.loads(told).get("spiffe_sequence") if status == 0 else told.strip()


class Foreign:
    """A foreign domain: its authorities, and the server of its bundle."""

    def __init__(self, fetch, made, domain="b.test"):
        self.fetch, self.made, self.domain = fetch, made, domain
        self.endpoint = f"spiffe://{domain}/spire/server"
        self.server, self.document = None, None

    def serve(self, leaf, document):
        """Serves this bundle under this certificate, always at one port."""
        port = self.server.server_address[1] if self.server else 0
        self.stop()
        self.document = document
        self.server = self.fetch.serve(leaf, self.fetch.serves(document), port=port)

    def stop(self):
        if self.server:
            self.server.shutdown()
            self.server.server_close()

    def relationship(self):
        return {"domain": self.domain, "endpoint": self.endpoint, "profile": "https_spiffe",
                "url": f"https://127.0.0.1:{self.server.server_address[1]}/bundle"}


class World:
    """What a runbook is played in: a foreign domain and its replicas."""

    def __init__(self, folder, title, blocks, fetch, pairs):
        self.folder, self.title, self.left, self.fetch, self.program = folder, title, list(enumerate(blocks)), fetch, find_program()
        self.followed, self.names = set(), {}
        self.a, self.b, self.leaf_a, self.leaf_b, self.made = pairs
        self.foreign = Foreign(fetch, self.made)
        self.foreign.serve(self.leaf_a, fetch.bundle(2, self.a, self.b))
        self.config = {"relationships": [self.foreign.relationship()],
                       "seeds": [{"domain": "b.test", "bundle": fetch.bundle(1, self.a)}]}
        self.replicas, self.more, self.books = [], [], runbooks()

    def replica(self, *names):
        """Machines with these names. Each replica runs, and has fetched what is due."""
        numbers = {"one": 1, "two": 2, "three": 3, "four": 4}
        for name in names:
            made = Replica(self, name, numbers[name])
            self.replicas.append(made)
            made.start()
            made.run("systemctl start fedbundle-fetch.service")
        return self.replicas[-1] if len(names) == 1 else self.replicas[-len(names):]

    def of(self, title, place):
        """The commands of a block of a runbook, also of another one."""
        return commands(self.books[title][place][1])

    def borrow(self, title, place, on):
        """Follows a block of another runbook, to which this one leads."""
        for command in self.of(title, place):
            self.obey(on, command)

    def next(self):
        """The next block of the runbook."""
        want(bool(self.left), "one more block of the page wanted", "there is none")
        place, block = self.left.pop(0)
        self.followed.add(place)
        return block

    def follow(self, *machines):
        """Follows the next block of the runbook on each machine."""
        kind, text = self.next()
        for on in machines:
            if kind == "ini":
                on.set(text)
            for command in commands(text) if kind == "console" else []:
                self.obey(on, command)

    def obey(self, on, command):
        end, names = time.monotonic() + SECONDS, "".join(f"{name}={shlex.quote(value)}; " for name, value in self.names.items())
        while True:
            status, printed = on.run(names + command.text, command.by_root)
            fault = command.fault(status, printed)
            if not fault:
                return
            if not LOOKS.match(command.text) or time.monotonic() > end:
                raise Wrong(f"{on.name}: {command.text}: {fault}: {printed}")
            time.sleep(0.1)

    def end(self):
        want(not self.left, "no block of the page that is not followed", self.left)

    def stop(self):
        for one in (self.foreign, *self.more):
            one.stop()
        for one in self.replicas:
            one.run(f"systemctl stop {UNIT}")


PLAYED = {}


def runbook(title):
    """Marks what plays the runbook of this title."""
    def add(play):
        PLAYED.setdefault(title, []).append(play)
        return play
    return add


FETCH = "fedbundle-fetch --config config.json --state state --at /run/fedbundle/socket --once b.test"


def publish(world, leaf, document, *replicas):
    """The foreign domain serves this bundle, and these replicas fetch it."""
    world.foreign.serve(leaf, document)
    for one in replicas:
        ended, told = one.run(FETCH, by_root=False)
        want(ended == 0, "a fetch that ends well wanted", told)


def same_reports(*replicas):
    """Waits until these replicas print the same report."""
    until(lambda: len({one.report() for one in replicas}) == 1, "one report")


@runbook("Two bundles with one sequence number")
def conflict(world):
    one = world.replica("one")
    right = world.fetch.bundle(2, world.a)
    publish(world, world.leaf_a, right, one)
    world.follow(one)
    one.give("b.test.json", json.dumps(right))
    world.follow(one)
    identity = one.run("fedbundle canon --domain b.test < b.test.json")[1].split("\nid ")[1][:64]
    want(f"{identity}" in one.report().split("  conflict ")[1], "the id in the line wanted", one.report())
    status, told = one.run("fedbundle reseed --config config.json --state state", by_root=False)
    want((status, "refused b.test" in told) == (1, True), "a refusal of reseed wanted", told)
    publish(world, world.leaf_a, world.fetch.bundle(3, world.a, world.b), one)
    world.follow(one)


SEEDED = "A domain is locked out, or its numbers went back"


@runbook(SEEDED)
def locked_out(world):
    one, two = world.replica("one", "two")
    publish(world, world.leaf_a, {"keys": [], "spiffe_sequence": 3}, one)
    world.foreign.serve(world.leaf_a, world.fetch.bundle(4, world.a))
    world.follow(one)
    world.left.pop(0)
    start_anew(world, world.fetch.bundle(4, world.a), one, two)
    world.follow(one, two)
    same_reports(one, two)
    # Another line that the page names.
    one.run(f"fedbundle distrust --at /run/fedbundle/socket --domain b.test --key {world.a.id()}")
    status, told = one.run(FETCH, by_root=False)
    line = "b.test: failed: each X.509 authority of the current bundle of b.test is distrusted\n"
    want((status, told) == (1, line), "a line of the page wanted", told)
    want(line[16:-1].strip() in PAGES[0].read_text(), "the line on the page wanted", line)


@runbook(SEEDED)
def went_back(world):
    one, two = world.replica("one", "two")
    publish(world, world.leaf_a, world.fetch.bundle(9, world.a, world.b), one)
    world.foreign.serve(world.leaf_a, world.fetch.bundle(3, world.a))
    world.left.pop(0)
    world.follow(one)
    want(one.sequence() == 9, "sequence 9 wanted", one.sequence())
    start_anew(world, world.fetch.bundle(3, world.a), one, two)
    world.follow(one, two)
    want((one.sequence(), two.sequence()) == (3, 3), "sequence 3 wanted", (one.sequence(), two.sequence()))
    same_reports(one, two)
    # One that ran away: none is greater, and the next one is refused.
    last = 2**64 - 1
    publish(world, world.leaf_a, world.fetch.bundle(last, world.a), one)
    world.foreign.serve(world.leaf_a, world.fetch.bundle(last + 1, world.a))
    told = one.run(FETCH, by_root=False)
    want(told == (1, "b.test: failed: the answer is not a bundle: B5 BadSequence\n"), "a refusal wanted", told)
    want(one.sequence() == last and str(last) in PAGES[0].read_text(), "the last number wanted", one.sequence())


def start_anew(world, document, *replicas):
    """Follows steps 3 to 5: this bundle, which has the first authority only, becomes the seed, on each of these replicas."""
    one = replicas[0]
    one.give("b.test.json", json.dumps(document))
    world.follow(one)
    world.names = {"digest": public_key(one, world.b, "--at /run/fedbundle/socket")}
    world.follow(one)
    want(public_key(one, world.a, "--config config.new --state none --new") != world.names["digest"], "two public keys wanted", world.names)
    switch(world, commands(world.next()[1]), *replicas)


def public_key(one, authority, of):
    """The digest of the public key of an authority, as `list --keys` of this replica or of these files has it."""
    told = one.run(f"fedbundle list {of} --domain b.test --keys", by_root=False)[1]
    found = re.search(rf"^key {authority.id()} domain b.test public-key (\w+) ", told, re.M)
    want(bool(found), "a line of the key wanted", told)
    return found[1]


def switch(world, block, *replicas):
    """Follows the block that changes to `config.new` on each replica. The first one has that file. A timer is started only
    where it is enabled, as that of the pusher at all but the first."""
    text = replicas[0].path(f"{HOME}/config.new").read_text()
    for one in replicas:
        one.run(f"systemctl {'disable' if one is replicas[0] else 'enable'} fedbundle-spire.timer")
        one.give("config.new", text)
        for command in block:
            world.obey(one, command)
        until(lambda: one.report().startswith("config "), f"replica {one.name}")
        timer = one.run("systemctl is-active fedbundle-spire.timer")[1].strip()
        want(timer == ("inactive" if one is replicas[0] else "active"), "a timer only where it is enabled wanted", timer)


def pushed(one, line):
    """Runs the pusher, which prints a line that begins so."""
    one.run("systemctl start fedbundle-spire.service")
    told = one.run("journalctl -u fedbundle-spire.service -n 3")[1]
    want(line in told, f"{line} wanted", told)


@runbook("A key is compromised")
def compromised(world):
    one, two = world.replica("one", "two")
    with_spire(one)
    one.run("groupadd spire")
    pushed(one, "b.test: given, sequence 2")
    publish(world, world.leaf_b, world.fetch.bundle(3, world.b), one)
    pushed(one, "b.test: given, sequence 3")
    one.run("systemctl start fedbundle-spire.timer")
    world.follow(one)
    want(one.run("systemctl is-active fedbundle-spire.timer")[1] == "inactive\n", "a timer that is stopped wanted", "it is active")
    world.follow(one)
    world.names = {"key": world.b.id(), "digest": public_key(one, world.b, "--at /run/fedbundle/socket")}
    world.follow(one)
    want(one.sequence() == 3, "no change by a look wanted", one.sequence())
    world.follow(one)
    want(one.sequence() == 2, "the bundle before wanted", one.sequence())
    until(lambda: "\nrecords 1 of 4096\n" in two.run("fedbundle status --at /run/fedbundle/socket")[1], "the record at the other site")
    world.follow(one, two)
    same_reports(one, two)
    pushed(one, "b.test: held: sequence 2 is lower than 3")
    world.follow(one)
    want(not one.path("/srv/b.test").exists(), "no bundle at SPIRE wanted", "there is one")
    status, told = one.run("fedbundle status --at /run/fedbundle/socket | grep -E 'b.test .*(distrusted key|no trusted)'")
    want(status == 0 and "lists the distrusted key" in told, "a warning wanted", told)
    # The new bundle has only the key that was gone with the one before, so the pusher holds it back too.
    publish(world, world.leaf_a, world.fetch.bundle(4, world.a), one)
    world.follow(one)
    pushed(one, "b.test: held: a key that went away with sequence 3")
    world.follow(one)
    world.follow(one)
    want(json.loads(one.path("/srv/b.test").read_text())["spiffe_sequence"] == 4, "the bundle at SPIRE wanted", "another one")
    world.follow(one)
    want((one.sequence(), "lists the distrusted key" in one.run("fedbundle status --at /run/fedbundle/socket")[1]) == (4, False),
         "a bundle without the key wanted", one.report())


@runbook("A bundle does not come")
def does_not_come(world):
    one = world.replica("one")
    document = world.foreign.document
    world.foreign.stop()
    world.follow(one)
    told = one.run(FETCH, by_root=False)[1]
    want("connection refused" in told and "`connection refused`" in PAGES[0].read_text(), "a reason of the page wanted", told)
    world.foreign.serve(world.leaf_a, document)
    world.follow(one)


@runbook("A replica does not answer")
def does_not_answer(world):
    one = world.replica("one")
    right = one.path(f"{HOME}/config.json").read_text()
    one.run(f"systemctl stop {UNIT}")
    one.path(f"{HOME}/config.json").write_text("{")
    one.run(f"systemctl start {UNIT}")
    until(lambda: "C1 NotJson" in one.run(f"journalctl -u {UNIT} -n 20")[1], "a refusal of the configuration")
    world.follow(one)
    want("ExecMainStatus=1\n" == one.run(f"systemctl show -p ExecMainStatus {UNIT}")[1], "status 1 wanted", one.run(f"journalctl -u {UNIT} -n 20"))
    one.path(f"{HOME}/config.json").write_text(right)
    one.run(f"systemctl start {UNIT}")
    world.follow(one)


@runbook("Two configurations")
def two_configurations(world):
    one, two = world.replica("one", "two")
    same_reports(one, two)
    right = one.path(f"{HOME}/config.json").read_text()
    one.give("config.json", json.dumps({**world.config, "floors": {"b.test": 1}}))
    one.run("chmod 640 config.json; cp -p config.json previous.json; rm state state.journal; fedbundle new --config config.json --state new"
            " && mv new state && chown fedbundle: state && rm previous.json && systemctl restart fedbundle-replica.service")
    until(lambda: "fault=S2" in two.run(f"journalctl -u {UNIT} -n 20")[1], "a session of another configuration")
    world.follow(one)
    want(one.run("fedbundle config --at /run/fedbundle/socket")[1] != two.run("fedbundle config --at /run/fedbundle/socket")[1], "two wanted", "one")
    one.give("theirs.json", right)
    world.follow(one)
    world.follow(one)
    same_reports(one, two)
    one.run(f"rm previous.json && systemctl reload {UNIT}")
    end_change(one)


@runbook("The state is refused")
def put_back(world):
    one, two = world.replica("one", "two")
    one.run("cp state.journal backup.journal && cp state backup", by_root=False)
    publish(world, world.leaf_a, world.fetch.bundle(3, world.a, world.b), one)
    same_reports(one, two)
    for replica in (two, one):
        replica.run(f"systemctl stop {UNIT}")
    one.give("state", "nonsense\n")
    one.run(f"systemctl start {UNIT}")
    for _ in range(3):
        world.follow(one)
    want(one.sequence() == 3, "sequence 3 of the journal that was left there wanted", one.sequence())
    two.start()
    world.follow(two)
    same_reports(one, two)
    want(one.sequence() == 3, "sequence 3 wanted", one.sequence())
    # What the page says of a state that is put in place while the replica runs, and of one that is missing.
    two.run(f"systemctl stop {UNIT}")
    one.run(f"systemctl restart {UNIT}")
    until(lambda: one.sequence() == 3, "sequence 3 of the files")
    one.run("cp backup state")
    want(one.sequence() == 3, "sequence 3 of the memory wanted", one.sequence())
    one.run(f"systemctl restart {UNIT}")
    until(lambda: one.sequence() == 1, "sequence 1 of the file that was put there")
    one.run(f"systemctl stop {UNIT} && rm state state.journal")
    one.run(f"systemctl start {UNIT}")
    shown = "fedbundle: no state\n  --state \"state\" is not there: `new` writes one that holds nothing\n"
    until(lambda: one.run(f"journalctl -u {UNIT} -t fedbundle -n 2")[1] == shown, "a replica without a state that ends")


@runbook("A replica is lost")
def lost(world):
    one, two = world.replica("one", "two")
    same_reports(one, two)
    # The reports are the same as soon as one side pulled. What the page shows wants a session of this side too.
    until(lambda: re.search(r"ended-well \d", one.run("fedbundle status --at /run/fedbundle/socket")[1]), "a session")
    two.run(f"systemctl stop {UNIT}")
    world.follow(one)
    new = Replica(world, "new", 2)
    world.replicas.append(new)
    world.follow(new)
    world.follow(new)
    same_reports(one, new)


@runbook("Add a replica")
def added(world):
    one = world.replica("one")
    four = Replica(world, "four", 4)
    world.replicas.append(four)
    four.set(four.options(4))
    four.start()
    told = one.run("fedbundle status --at /run/fedbundle/socket")[1]
    want("127.0.0.1:8474" not in told, "no such peer wanted", told)
    for _ in range(3):
        world.follow(one)
    same_reports(one, four)


@runbook("Remove a replica")
def removed(world):
    one, two = world.replica("one", "two")
    same_reports(one, two)
    world.follow(two)
    want(two.report() == "fedbundle: no replica\n", "no replica wanted", two.report())
    one.set(one.options().replace("127.0.0.1:8472,", ""))
    one.run(f"systemctl reload {UNIT}")
    until(lambda: one.report().startswith("config "), "a replica")
    told = one.run("fedbundle status --at /run/fedbundle/socket")[1]
    want("127.0.0.1:8472" not in told and one.sequence() == 2, "no such peer, and what it gave, wanted", told)


def with_another_domain(world):
    """The configuration with the domain c.test too, whose bundle is served."""
    other = Foreign(world.fetch, world.made, "c.test")
    a = world.made.authority()
    other.serve(world.made.leaf(a, f"URI:{other.endpoint}"), world.fetch.bundle(2, a))
    seed = {"domain": "c.test", "bundle": world.fetch.bundle(1, a)}
    world.more.append(other)
    return {"relationships": [*world.config["relationships"], other.relationship()], "seeds": [*world.config["seeds"], seed]}


def status_has(one, line):
    """Waits until the status of a replica has this line."""
    until(lambda: f"\n{line}\n" in one.run("fedbundle status --at /run/fedbundle/socket")[1], f"{line} at {one.name}")


def end_change(one):
    """No file of the configuration before is left once the replica answers."""
    until(lambda: one.report().startswith("config "), f"replica {one.name}")
    left = [name for name in ("previous.json", "state.previous", "state.previous.new") if one.path(f"{HOME}/{name}").exists()]
    told = one.run("fedbundle status --at /run/fedbundle/socket")[1]
    want(not left and "\nprevious " not in told, "no configuration before wanted", (left, told))


@runbook("Add a domain")
def domain_added(world):
    one, two = world.replica("one", "two")
    same_reports(one, two)
    text = json.dumps(with_another_domain(world))
    one.give("config.new", text)
    world.follow(one)
    world.follow(one)
    want(one.path(f"{HOME}/state.previous").exists(), "what was held before wanted", "it is not there")
    # A bundle that the other one fetches, which has not changed, comes to the one that has.
    status_has(one, "asked 127.0.0.1:8472 previous")
    publish(world, world.leaf_a, world.fetch.bundle(3, world.a, world.b), two)
    until(lambda: one.sequence() == 3, "sequence 3 of a replica that has not changed")
    fault = re.compile(r"event=serve peer=\S+ seconds=\S+ fault=S2")
    until(lambda: fault.search(two.run(f"journalctl -u {UNIT} -n 20")[1]), "a question under the other configuration")
    two.give("config.new", text)
    world.borrow("Add a domain", 1, two)
    for replica, peer in ((one, 8472), (two, 8471)):
        status_has(replica, f"asked 127.0.0.1:{peer} next")
        replica.run("systemctl start fedbundle-fetch.service")
    world.follow(one)
    world.borrow("Add a domain", 2, two)
    for replica in (one, two):
        end_change(replica)
    world.follow(two)
    same_reports(one, two)
    want((one.sequence("c.test"), one.sequence()) == (2, 3), "two bundles wanted", one.report())


# Keeps what it is given as the bundle of the domain. It has no registration entries.
SPIRE = """#!/bin/sh
[ "$1" != entry ] || exec echo 'Found 0 entries'
for word; do
    [ "$before" != -id ] || domain=/srv/${word#spiffe://}
    [ "$before" != -path ] || path=$word
    before=$word
done
case $2 in
    set) cp "$path" "$domain" && exec echo 'bundle set.' ;;
    delete) rm "$domain" && exec echo 'bundle deleted.' ;;
esac
[ -e "$domain" ] || { echo 'Error: rpc error: code = NotFound desc = bundle not found' >&2; exit 1; }
cat "$domain"
"""


def with_spire(one):
    """Puts the stand-in for spire-server on a machine."""
    at = one.path("/usr/local/bin/spire-server")
    at.write_text(SPIRE)
    at.chmod(0o755)
    one.path("/srv").chmod(0o777)


@runbook("Change options")
def options_changed(world):
    one = world.replica("one")
    one.set('REPLICA_OPTIONS="--most-records 5"\n')
    world.follow(one)
    status_has(one, "records 0 of 5")
    # Options that are refused leave the replica as it is.
    one.set('REPLICA_OPTIONS="--peers nowhere"\n')
    status, told = one.run(f"systemctl reload {UNIT}")
    want(status == 1 and one.report().startswith("config "), "a reload that is refused, and the replica as it was, wanted", told)


@runbook("Take a change back")
def taken_back(world):
    one, two = world.replica("one", "two")
    same_reports(one, two)
    before = one.run("fedbundle config --at /run/fedbundle/socket")[1]
    one.give("config.new", json.dumps(with_another_domain(world)))
    world.borrow("Add a domain", 1, one)
    want(one.run("fedbundle config --at /run/fedbundle/socket")[1] != before, "another configuration wanted", before)
    world.follow(one)
    until(lambda: one.run("fedbundle config --at /run/fedbundle/socket")[1] == before, "the configuration of before")
    world.borrow("Add a domain", 2, one)
    end_change(one)
    same_reports(one, two)


@runbook("Retire old receipts")
def retired(world):
    one, two = world.replica("one", "two")
    for sequence in (3, 4, 5):
        publish(world, world.leaf_a, world.fetch.bundle(sequence, world.a, world.b), one)
    same_reports(one, two)
    world.follow(one)
    two.give("config.new", one.path(f"{HOME}/config.new").read_text())
    for place in (1, 2):
        for replica in (one, two):
            world.borrow("Add a domain", place, replica)
            until(lambda: replica.report().startswith("config "), f"replica {replica.name}")
    told = one.run(f"journalctl -u {UNIT} -n 100")[1]
    want("event=carry-over taken=1 unfit=3 no-place=0\n" in told, "three receipts that do not fit wanted", told)
    same_reports(one, two)
    want((one.sequence(), two.sequence()) == (5, 5), "what was current wanted", one.report())


@runbook("Back up and restore")
def backed_up(world):
    one = world.replica("one")
    world.follow(one)
    one.run(f"systemctl stop {UNIT} && rm state state.journal")
    one.run("fedbundle new --config config.json --state state", by_root=False)
    one.start()
    want(one.sequence() == 1, "an empty replica wanted", one.sequence())
    world.follow(one)
    want(one.sequence() == 2, "what the backup has wanted", one.sequence())


@runbook("Remove a domain")
def domain_removed(world):
    less = world.config
    world.config = with_another_domain(world)
    one = world.replica("one")
    with_spire(one)
    key = world.fetch.sha256(b"stolen").hexdigest()
    one.run(f"fedbundle distrust --at /run/fedbundle/socket --domain c.test --key {key} --unknown-key")
    status, _ = one.run("systemctl start fedbundle-spire.service")
    told = one.run("journalctl -u fedbundle-spire.service -n 3")[1]
    want((status, "c.test: given, sequence 2" in told) == (0, True), "the bundle at SPIRE wanted", told)
    one.give("config.new", json.dumps(less))
    world.follow(one)
    world.borrow("Add a domain", 1, one)
    one.run("cp previous.json kept.json && cp state.previous kept", by_root=False)
    world.borrow("Add a domain", 2, one)
    told = one.run(f"journalctl -u {UNIT} -n 100")[1]
    want("event=carry-over taken=1 unfit=2 no-place=0\n" in told, "a receipt and a record that do not fit wanted", told)
    end_change(one)
    world.follow(one)
    world.follow(one)
    want(one.sequence() == 2, "the other domain wanted", one.sequence())
    given = [path.name for path in one.path("/var/lib/fedbundle-spire/given").iterdir()]
    want("b.test.json" in given and not any(name.startswith("c.test") for name in given), "nothing of it wanted", given)
    added_again(world, one, key)


def added_again(world, one, key):
    """The domain is added again, with its record of distrust, which only the state that was kept has."""
    record = f"distrust {key} domain c.test"
    one.give("config.new", json.dumps(world.config))
    for place in (1, 2):
        world.borrow("Add a domain", place, one)
    end_change(one)
    told = one.run("fedbundle list --at /run/fedbundle/socket --domain c.test")[1]
    want(record not in told, "no record wanted", told)
    one.run("fedbundle migrate --config kept.json --state kept --to config.json > whole", by_root=False)
    status, told = one.run("fedbundle merge --at /run/fedbundle/socket < whole", by_root=False)
    want(status == 0, "a merge wanted", told)
    told = one.run("fedbundle list --at /run/fedbundle/socket --domain c.test")[1]
    want(record in told and one.sequence("c.test") == 2, "the record and the bundle wanted", told)


@runbook("The disk is full")
def disk_full(world):
    one = Replica(world, "one", 1)
    world.replicas.append(one)
    config = one.path(f"{HOME}/config.json").read_text()
    mount("tmpfs", "size=1m,mode=700", one.path(HOME))
    one.run("chown fedbundle: .")
    one.configure(config)
    one.start()
    publish(world, world.leaf_a, world.fetch.bundle(2, world.a, world.b), one)
    one.run("dd if=/dev/zero of=ballast bs=1k", by_root=False)
    held = 2
    for sequence in range(3, 9):
        world.foreign.serve(world.leaf_a, world.fetch.bundle(sequence, world.a, world.b))
        if "observed" not in one.run(FETCH, by_root=False)[1]:
            break
        held = sequence
    want(held < 8, "a full disk wanted", held)
    world.follow(one)
    # A start has no room for a new state, and goes on with the old files.
    one.run(f"systemctl start {UNIT}")
    until(lambda: one.sequence() == held, f"sequence {held} of a start without room")
    want(not one.path(f"{HOME}/state.new").exists(), "no file that a start left wanted", "there is one")
    status, told = one.run("fedbundle bundle --config config.json --state state --domain b.test", by_root=False)
    want(json.loads(told)["spiffe_sequence"] == held, "what was acknowledged wanted", told)
    one.run("rm ballast")
    world.follow(one)
    world.follow(one)
    until(lambda: one.sequence() == held, f"sequence {held}, which was acknowledged")
    world.follow(one)


def full_state(world):
    """A snapshot with 65,536 receipts, all vouched for by the seed. The current one lists the keys of sequence 2."""
    replica = world.replicas[0]
    report = replica.report()
    config = report.split()[1]
    voucher = re.search(r"  accepted (\w+) sequence 1 ", report)[1]
    current = replica.run("fedbundle bundle --at /run/fedbundle/socket --domain b.test")[1].strip()
    documents = [f'{{"keys":[],"spiffe_sequence":{number}}}' for number in range(10_000, 10_000 + 65_535)]
    documents.append(current.replace('"spiffe_sequence":2', '"spiffe_sequence":99999'))
    end = f'"domain":"b.test","endpoint":"{world.foreign.endpoint}","key":"{world.a.id()}","voucher":"{voucher}"}}'
    lines = sorted(f'{{"doc":{document},{end}' for document in documents)
    head, foot = f'{{"config":"{config}","format":2}}', f'{{"count":{len(lines)},"distrusts":0}}'
    return "\n".join([head, *lines, foot, ""])


@runbook("The store is full")
def store_full(world):
    one = world.replica("one")
    one.give("whole", full_state(world))
    one.run(f"systemctl stop {UNIT} && mv whole state && rm state.journal")
    one.start()
    publish(world, world.leaf_a, world.fetch.bundle(100_000, world.a))
    world.follow(one)
    # A record of distrust has room.
    key = world.fetch.sha256(b"another").hexdigest()
    status, told = one.run(f"fedbundle distrust --at /run/fedbundle/socket --domain b.test --key {key} --unknown-key", by_root=False)
    want(status == 0, "a record wanted", told)
    world.follow(one)
    switch(world, world.of(SEEDED, -2), one)
    world.follow(one)


# Moves the clock of each program that it is loaded into.
CLOCK = """
#define _GNU_SOURCE
#include <sys/syscall.h>
#include <sys/time.h>
#include <time.h>
#include <unistd.h>
int clock_gettime(clockid_t which, struct timespec *at) {
    long ended = syscall(SYS_clock_gettime, which, at);
    if (ended == 0 && which == CLOCK_REALTIME) at->tv_sec += SECONDS;
    return (int)ended;
}
time_t time(time_t *to) {
    struct timespec at;
    clock_gettime(CLOCK_REALTIME, &at);
    if (to) *to = at.tv_sec;
    return at.tv_sec;
}
int gettimeofday(struct timeval *to, void *zone) {
    struct timespec at;
    (void)zone;
    clock_gettime(CLOCK_REALTIME, &at);
    to->tv_sec = at.tv_sec;
    to->tv_usec = at.tv_nsec / 1000;
    return 0;
}
"""


def move_clock(one, seconds):
    """Moves the clock of a machine, for all programs that begin from now on. `timedatectl` sets it right."""
    (one.path("/srv") / "clock.c").write_text(CLOCK.replace("SECONDS", f"({seconds}L)"))
    ran = subprocess.run(["cc", "-shared", "-fPIC", "-O1", "-o", one.path("/srv/clock.so"), one.path("/srv/clock.c")])
    want(ran.returncode == 0, "a library wanted", ran)
    one.path("/etc/ld.so.preload").write_text("/srv/clock.so\n")
    at = one.path("/usr/local/sbin/timedatectl")
    at.write_text('#!/bin/sh\n[ "$*" = "set-ntp true" ] && rm /etc/ld.so.preload\n')
    at.chmod(0o755)


@runbook("The clock is wrong")
def clock(world):
    one = world.replica("one")
    move_clock(one, 30 * 86_400)
    world.follow(one)
    want(one.sequence() == 2, "the same bundle wanted", one.sequence())
    want(one.run("date +%s")[1] > str(int(time.time()) + 86_400), "another clock wanted", one.run("date"))
    world.follow(one)
    world.follow(one)
    # A clock that is behind: the poll that was just made is dropped, and so the domain is due.
    move_clock(one, -30 * 86_400)
    told = one.run(FETCH.replace(" --once b.test", ""), by_root=False)[1]
    want("is dropped\n" in told, "a poll of the future wanted", told)
    want("b.test: failed: the certificate is out of its time: " in told, "an early certificate wanted", told)


def play(title, blocks, fetch, pairs):
    """Plays a runbook, prints its line, and returns whether all of its blocks were followed."""
    followed = set()
    passed = [play_one(title, one, blocks, fetch, pairs, followed) for one in PLAYED[title]]
    missing = sorted(set(range(len(blocks))) - followed)
    if all(passed) and missing:
        print(f"failed  {title}: the blocks {missing} are not followed")
    return all(passed) and not missing


def play_one(title, one, blocks, fetch, pairs, followed):
    """Plays a runbook in one way, and notes the blocks that were followed."""
    began, fault = time.monotonic(), ""
    folder = Path(tempfile.mkdtemp())
    mount("tmpfs", "mode=755", folder)
    world = World(folder, title, blocks, fetch, pairs)
    try:
        one(world)
        world.end()
        followed |= world.followed
    except Wrong as error:
        fault = str(error)
    except Exception:
        fault = traceback.format_exc()
    finally:
        world.stop()
    took = f"{time.monotonic() - began:.1f} s"
    print(f"{'failed' if fault else 'passed'}  {title} ({took}){': ' if fault else ''}{fault}", flush=True)
    return not fault


def loopback():
    """Brings up the loopback of this network name space."""
    with socket.socket() as one:
        name = struct.pack("16sh14x", b"lo", 0x41)
        fcntl.ioctl(one, 0x8914, name)


def inside(words):
    """Plays the runbooks, in name spaces that are gone with this process."""
    mount("proc", "", "/proc")
    loopback()
    fetch, books = script("fetch"), runbooks()
    if set(PLAYED) != set(books):
        sys.exit(f"runbooks: of the pages and not played, or not of the pages: {sorted(set(PLAYED) ^ set(books))}")
    folder = Path(tempfile.mkdtemp())
    mount("tmpfs", "mode=755", folder)
    made = fetch.Maker(folder)
    a, b = made.authority(), made.authority()
    pairs = a, b, made.leaf(a), made.leaf(b), made
    chosen = [title for title in books if title in PLAYED and (not words or any(word in title for word in words))]
    passed = [play(title, books[title], fetch, pairs) for title in chosen]
    print(f"{passed.count(True)} passed, {passed.count(False)} failed")
    return 0 if all(passed) else 1


def main():
    if sys.argv[1:2] == ["inside"]:
        sys.exit(inside(sys.argv[3:]))
    require(__file__)
    room = ["unshare", "--mount", "--net", "--pid", "--fork", "--kill-child"]
    probe = subprocess.run([*room, "mount", "-t", "tmpfs", "none", "/mnt"], capture_output=True, text=True)
    if probe.returncode:
        sys.exit(f"runbooks: mounts are not allowed here: {probe.stderr.strip()}")
    find_program()
    with tempfile.TemporaryDirectory(prefix="fedbundle-runbooks-") as folder:
        more = os.environ | {"TMPDIR": folder}
        ran = subprocess.run([*room, sys.executable, os.path.abspath(__file__), "inside", folder, *sys.argv[1:]], env=more)
    sys.exit(ran.returncode)


if __name__ == "__main__":
    main()

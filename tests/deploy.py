#!/usr/bin/env python3
"""Checks what lies in deploy/ for operators, without root and without a network.

The units are verified by systemd's own tools, and their commands run if the program is built. The
two sides of mutual TLS run as stunnel over loopback, with certificates that openssl makes here, a
good one and others. fedbundle-spire runs with stand-ins for fedbundle and spire-server, which
record how they were called. For fedbundle-fetch there is tests/fetch.py.

What the machine lacks is left out. The program is the one that $FEDBUNDLE
names, or else the one that ./fedbundle runs.

usage: deploy [WORD..]   runs the cases whose name has one of the words, or all; a line for each,
    and the status is 1 if one failed
"""
from __future__ import annotations

import base64
import contextlib
import fcntl
import hashlib
import json
import os
import re
import shlex
import shutil
import signal
import socket
import ssl
import stat
import subprocess
import sys
import tempfile
import threading
import time
import traceback
from collections.abc import Callable, Iterator
from pathlib import Path

sys.path.insert(0, str(Path(__file__).resolve().parent / "lib"))
from harness import HANG, find_program  # noqa: E402
from needs import left_out, why_not  # noqa: E402

TOP = Path(__file__).resolve().parent.parent
DEPLOY = TOP / "deploy"
# The most that `systemd-analyze security` may say of a service, ten times the level that it prints.
MOST_EXPOSED = {"fedbundle-fetch": 30, "fedbundle-serve": 13, "fedbundle-pull@": 13,
                "fedbundle-replica": 13, "fedbundle-spire": 8, "fedbundle-watch": 12}


class Wrong(Exception):
    """What is not as it should be."""


class Skipped(Exception):
    """What the machine lacks."""


def want(right: bool, what: str, seen: object) -> None:
    if not right:
        raise Wrong(f"{what}: {seen}")


def tool(*names: str) -> str:
    """The path of a program of the machine, which may have one of these names."""
    found = [path for name in names if (path := shutil.which(name, path=search_path()))]
    if not found:
        raise Skipped(why_not(names[0]))
    return found[0]


def search_path() -> str:
    return os.environ.get("PATH", "") + ":/usr/sbin:/sbin:/usr/bin:/bin"


def run(*words: str | Path, folder: Path | None = None) -> tuple[int, str]:
    """The status of a program, and what it printed on both streams."""
    ran = subprocess.run([str(word) for word in words], stdin=subprocess.DEVNULL, cwd=folder,
                         stdout=subprocess.PIPE, stderr=subprocess.STDOUT, timeout=HANG)
    return ran.returncode, ran.stdout.decode(errors="replace")


def free_port() -> int:
    with socket.create_server(("127.0.0.1", 0)) as one:
        return one.getsockname()[1]


def until(right: Callable[[], bool], what: str) -> None:
    """Waits for something, and not for ever."""
    end = time.monotonic() + HANG
    while not right():
        want(time.monotonic() < end, f"{what} wanted", "nothing came")
        time.sleep(0.02)


def stand_in(path: Path, lines: str = "") -> None:
    path.write_text(f"#!/bin/sh\n{lines}")
    path.chmod(0o755)


# The units.


def units(folder: Path) -> list[Path]:
    """Copies of the units that call stand-ins for what they want in /usr/local/bin."""
    programs = folder / "bin"
    programs.mkdir()
    copies = []
    for unit in sorted([*DEPLOY.glob("*.service"), *DEPLOY.glob("*.timer")]):
        text = unit.read_text().replace("/usr/local/bin", str(programs))
        for name in re.findall(rf"{re.escape(str(programs))}/([\w-]+)", text):
            stand_in(programs / name)
        copies.append(folder / unit.name)
        copies[-1].write_text(text)
    return copies


def verified(folder: Path) -> None:
    analyze = tool("systemd-analyze")
    for unit in units(folder):
        # A colon would separate a file from another name for it.
        names = [unit.name] if "@" not in unit.name else [
            unit.name, unit.name.replace("@", r"@127.0.0.1\x3a8472"),
            unit.name.replace("@", r"@\x5b\x3a\x3a1\x5d\x3a8472")]
        for name in names:
            status, told = run(analyze, "verify", "--man=no", f"./{name}", folder=folder)
            told = "".join(line for line in told.splitlines(True) if not is_later(line))
            want((status, told) == (0, ""), f"nothing to say of {name} wanted", told or status)


def is_later(line: str) -> bool:
    """Whether systemd says that it does not know one of the two settings of its version 254."""
    names = "|".join(("RestartSteps", "RestartMaxDelaySec"))
    return re.search(rf"Unknown key (name )?'({names})' in section", line) is not None


def settings(unit: str) -> dict[str, str]:
    """The settings of a unit by their names, and of several of one name the last."""
    return dict(re.findall(r"^(\w+)=(.*)$", (DEPLOY / unit).read_text(), re.M))


def restarts(folder: Path) -> None:
    """What fails is tried again, with a wait, and what is refused is not. A unit that is started by
    a timer is not started again."""
    for name, how in (("replica", "on-failure"), ("serve", "always")):
        said = settings(f"fedbundle-{name}.service")
        seen = said["Restart"], said["RestartSec"], said["StartLimitIntervalSec"]
        want(seen == (how, "5", "0"), f"waits of {name}, and no end of tries, wanted", seen)
    for name in ("fetch", "pull@", "spire", "watch"):
        said = settings(f"fedbundle-{name}.service")
        want("Restart" not in said and said["Type"] == "oneshot", f"no restart of {name}", said)
    said = settings("fedbundle-replica.service")
    steps, most = int(said["RestartSteps"]), int(said["RestartMaxDelaySec"])
    want(steps > 1 and 5 < most <= 300, "a wait that grows wanted", said)
    refused = {int(one) for one in said["RestartPreventExitStatus"].split()}
    want(refused == {1, 2}, "status 1 and 2 wanted", refused)
    signals = said.get("RestartForceExitStatus", "").split()
    want({"SIGHUP", "SIGINT", "SIGTERM"} <= set(signals), "a new start after each signal wanted", signals)
    for what, status in ends_of_replica(folder):
        again = "no new start" if status in refused else "a new start"
        wanted = "a new start" if what.endswith("failed") else "no new start"
        want(again == wanted, f"{wanted} after {what} wanted", status)


def ends_of_replica(folder: Path) -> Iterator[tuple[str, int]]:
    """How the replica of the unit ends if it cannot begin."""
    words = [find_program(), *command("fedbundle-replica.service")]
    words[words.index("/run/fedbundle/socket")] = "socket"
    words[words.index("/run/fedbundle/read")] = "read"
    words[words.index("127.0.0.1:8471")] = f"127.0.0.1:{free_port()}"
    yield "a file that failed", run(*words, folder=folder)[0]
    (folder / "config.json").write_text("nonsense")
    yield "a configuration that is refused", run(*words, folder=folder)[0]
    shutil.copy(TOP / "examples/config.json", folder)
    yield "a state that is not there, and refused", run(*words, folder=folder)[0]
    files = ["--config", "config.json", "--state", "state"]
    subprocess.run([words[0], "new", *files], cwd=folder, check=True, timeout=HANG)
    (folder / "socket").touch()
    yield "a socket that failed", run(*words, folder=folder)[0]
    (folder / "state").write_text("nonsense\n")
    yield "a state that is refused", run(*words, folder=folder)[0]
    yield "a word too many", run(*words, "--nonsense", folder=folder)[0]


def exposed(folder: Path) -> None:
    analyze = tool("systemd-analyze")
    services = [unit for unit in units(folder) if unit.suffix == ".service"]
    want({unit.stem for unit in services} == set(MOST_EXPOSED), "a limit for each", services)
    for unit in services:
        most = f"--threshold={MOST_EXPOSED[unit.stem]}"
        status, told = run(analyze, "security", "--offline=true", most, unit, folder=folder)
        if "option '--offline" in told:
            raise Skipped("systemd-analyze has no --offline")
        want(status == 0, f"no more exposure of {unit.name} wanted", told.strip().split("\n")[-1])


def user(folder: Path) -> None:
    sysusers = tool("systemd-sysusers")
    (folder / "etc").mkdir()
    status, told = run(sysusers, f"--root={folder}", "--dry-run", DEPLOY / "fedbundle.sysusers")
    want(status == 0 and re.search("^Creating user 'fedbundle' ", told, re.M) is not None,
         "the user wanted", told)


def folder_of_state(folder: Path) -> None:
    tmpfiles, here = tool("systemd-tmpfiles"), folder / "var/lib/fedbundle"
    (folder / "etc").mkdir()
    ids = f"{os.getuid()}:{os.getgid()}"
    (folder / "etc/passwd").write_text(f"fedbundle:x:{ids}::/:/bin/false\n")
    (folder / "etc/group").write_text(f"fedbundle:x:{os.getgid()}:\n")
    status, told = run(tmpfiles, f"--root={folder}", "--create", DEPLOY / "fedbundle.tmpfiles")
    want((status, told) == (0, ""), "a folder wanted", told or status)
    mode = stat.S_IMODE(here.stat().st_mode)
    want(mode == 0o710 and here.stat().st_uid == os.getuid(), "mode 0710 wanted", oct(mode))


def command(unit: str, instance: str = "") -> list[str]:
    """The arguments that a service runs, without the program."""
    text = (DEPLOY / unit).read_text().replace("\\\n", " ")
    started = re.findall(r"^ExecStart=(.*)$", text, re.M)
    want(len(started) == 1, f"one command in {unit} wanted", started)
    options = options_of(unit)
    words = shlex.split(started[0].replace("%I", instance))[1:]
    named = [word for word in words if word.startswith("$")]
    want(len(named) == 1, f"one name for all options of {unit} wanted", named)
    return [one for word in words for one in (options.get(word[1:], []) if word in named else [word])]


def options_of(unit: str) -> dict[str, list[str]]:
    """The options that a unit has without a file, by the names that the file may set."""
    found = re.findall(r'^Environment="(\w+_OPTIONS)=(.*)"$', (DEPLOY / unit).read_text(), re.M)
    return {name: shlex.split(value) for name, value in found}


# What the units themselves give to their programs, and the file does not.
GIVEN = {"replica": {"config", "previous", "state", "socket", "read-socket", "new", "listen-anywhere", "verbose"},
         "serve": {"config", "state", "verbose"}, "pull": {"config", "state", "peer", "sums", "wait", "verbose"},
         "fedbundle-fetch": {"config", "state", "polls", "program", "once"},
         "fedbundle-spire": {"config", "state", "given", "program", "all", "allow"},
         "polls": {"at", "now", "config", "state", "format", "most-receipts", "most-records", "verbose"}}
OPTIONS = {"REPLICA": ("fedbundle-replica.service", ["replica"]), "FETCH": ("fedbundle-fetch.service", ["fedbundle-fetch"]),
           "SPIRE": ("fedbundle-spire.service", ["fedbundle-spire"]), "WATCH": ("fedbundle-watch.service", ["polls"]),
           "SERVE": ("fedbundle-serve.service", ["serve"]), "PULL": ("fedbundle-pull@.service", ["serve", "pull"])}


def defaults(folder: Path) -> None:
    """The file of options shows what holds without it, and explains each option that there is. Each unit reads it."""
    text = (DEPLOY / "fedbundle.default").read_text()
    said = re.findall(r'^#(\w+)_OPTIONS="(.*)"$', text, re.M)
    want({name for name, _ in said} == set(OPTIONS), "a line for each unit", said)
    for name, value in said:
        unit = OPTIONS[name][0]
        want(options_of(unit).get(f"{name}_OPTIONS", []) == shlex.split(value), f"what holds without the file in {unit}", value)
    for unit in DEPLOY.glob("*.service"):
        lines = unit.read_text().split("\n")
        want("EnvironmentFile=-/etc/default/fedbundle" in lines, "the file of options", unit.name)
        want("Environment=FEDBUNDLE_VERBOSE=1" in lines, "the line with the file that is wrong", unit.name)
    explained = explained_options(text)
    for name in {"SERVE": "", **OPTIONS}:
        known = set().union(*(options_by_help(word) - GIVEN[word] for word in OPTIONS[name][1]))
        seen = explained["SERVE" if name == "PULL" else name]
        want(seen == known or (name == "SERVE" and seen > known), f"the options of {OPTIONS[name][0]}", sorted(seen ^ known))


def explained_options(text: str) -> dict[str, set[str]]:
    """The options of which the file tells, by the name of the first line that it shows below them."""
    found = {}
    for part in text.split("# ---- ")[1:]:
        if shown := re.search(r"^#(\w+)_OPTIONS=", part, re.M):
            before = re.findall(r"^# --.*$", part[:shown.start()], re.M)
            found[shown[1]] = {one for line in before for one in re.findall(r"--([\w-]+)", line.split("   ")[0])}
    return found


def options_by_help(word: str) -> set[str]:
    """The options of a command or a program, as its help says."""
    words = [DEPLOY / word] if word.startswith("fedbundle-") else [find_program(), word]
    return set(re.findall(r"^ +(?:-\w, )?--([\w-]+)", run(*words, "--help")[1], re.M)) - {"help"}


def no_commands_again(_folder: Path) -> None:
    """No drop-in or setting of a page repeats a command or names a path of a program."""
    for page in [TOP / "README.md", *(TOP / "docs").glob("*.md")]:
        blocks = re.findall(r"^ *```ini\n(.*?)^ *```", page.read_text(), re.M | re.S)
        bad = [block for block in blocks if "ExecStart" in block or "/bin/fedbundle" in block]
        want(not bad, f"no command in a drop-in of {page.name}", bad)


def ends_without_noise(_folder: Path) -> None:
    """A look at a replica that has ended says nothing of its own."""
    text = (DEPLOY / "fedbundle-replica.service").read_text().replace("\\\n", " ")
    line = re.search(r"^ExecStartPost=(.*)$", text, re.M)[1].replace("/usr/local/bin/fedbundle", "false")
    gone = subprocess.Popen(["true"])
    gone.wait()
    for pid in (str(gone.pid), ""):
        ran = subprocess.run(shlex.split(line), env={"PATH": search_path(), "MAINPID": pid}, capture_output=True, timeout=30)
        want((ran.returncode, ran.stdout, ran.stderr) == (0, b"", b""), "no line", ran)


def commands(folder: Path) -> None:
    """The commands of the units of gossip, each in the folder of a replica."""
    program = find_program()
    for replica in ("one", "two"):
        (folder / replica).mkdir()
        shutil.copy(TOP / "examples/config.json", folder / replica / "config.json")
    files = ["--config", "config.json", "--state", "state"]
    receipt = (TOP / "examples/receipts.jsonl").read_bytes().splitlines()[0]
    serve, address = command("fedbundle-serve.service"), f"127.0.0.1:{free_port()}"
    want("127.0.0.1:8471" in serve, "the address of the page wanted", serve)
    serve = [address if word == "127.0.0.1:8471" else word for word in serve]
    sessions = int(serve[serve.index("--sessions") + 1])
    first = json.loads(receipt)
    words = ["--domain", first["domain"], "--endpoint", first["endpoint"], "--key", first["key"]]
    document = re.sub(rb'^\{"doc":(.*),"domain":"[^"]*","endpoint":.*$', rb"\1", receipt)
    subprocess.run([program, "observe", *files, *words], cwd=folder / "one", input=document,
                   stdout=subprocess.DEVNULL, check=True, timeout=HANG)
    pull = command("fedbundle-pull@.service", address)
    server = subprocess.Popen([program, *serve], cwd=folder / "one", stdout=subprocess.PIPE)
    try:
        until(lambda: listens(int(address.split(":")[1])), "serve")
        for new in [1] + [0] * (sessions - 1):
            told = run(program, *pull, folder=folder / "two")
            want(told == (0, f"new {new}\n"), "a pull wanted", told)
        ended, _ = server.communicate(timeout=HANG)
        want(server.returncode == 0, "an end of serve wanted", (server.returncode, ended))
    finally:
        server.kill()
        server.communicate()
    states = {(folder / replica / "state").read_bytes() for replica in ("one", "two")}
    want(len(states) == 1, "equal states wanted", states)


class Staying:
    """Replicas that run the command of their unit, each in a folder of its own."""

    def __init__(self, folder: Path) -> None:
        self.folder = folder
        self.program = find_program()
        self.running: dict[str, subprocess.Popen] = {}

    def start(self, name: str, own: int, *peers: int) -> None:
        """One that listens at its own port, and pulls at the others, once a second."""
        (self.folder / name).mkdir()
        shutil.copy(TOP / "examples/config.json", self.folder / name / "config.json")
        files = ["--config", "config.json", "--state", "state"]
        subprocess.run([self.program, "new", *files], cwd=self.folder / name, check=True, timeout=HANG)
        changes = {"/run/fedbundle/socket": "socket", "/run/fedbundle/read": "read", "127.0.0.1:8471": f"127.0.0.1:{own}",
                   "127.0.0.1:8472,127.0.0.1:8473": ",".join(f"127.0.0.1:{one}" for one in peers)}
        words = command("fedbundle-replica.service")
        want(set(changes) <= set(words), "the places of the page wanted", words)
        words = [changes.get(word, word) for word in words]
        replica = subprocess.Popen([self.program, *words, "--every", "1"], cwd=self.folder / name,
                                   stdout=subprocess.PIPE, stderr=subprocess.DEVNULL)
        self.running[name] = replica
        begun = replica.stdout.readline()
        want(begun.startswith(b"ready "), f"a beginning of {name} wanted", begun)

    def observe(self, name: str) -> None:
        """It observes the bundle of the first receipt of the examples."""
        receipt = (TOP / "examples/receipts.jsonl").read_bytes().splitlines()[0]
        said = json.loads(receipt)
        words = ["--domain", said["domain"], "--endpoint", said["endpoint"], "--key", said["key"]]
        document = re.sub(rb'^\{"doc":(.*),"domain":"[^"]*","endpoint":.*$', rb"\1", receipt)
        ran = subprocess.run([self.program, "observe", "--at", "socket", *words], input=document,
                             cwd=self.folder / name, capture_output=True, timeout=HANG)
        want((ran.returncode, ran.stdout) == (0, receipt + b"\n"), "the receipt wanted", ran)

    def ask(self, name: str, word: str) -> tuple[int, str]:
        return run(self.program, word, "--at", "socket", folder=self.folder / name)

    def agree(self, receipts: int) -> None:
        """All come to report the same, with this many receipts."""
        def same() -> bool:
            told = {self.ask(name, "report") for name in self.running}
            return len(told) == 1 and f"\nreceipts {receipts} " in told.pop()[1]
        until(same, "equal reports")

    def stop(self) -> None:
        for name, replica in self.running.items():
            told = self.ask(name, "stop")
            want((told, replica.wait(10)) == ((0, ""), 0), f"an end of {name} wanted", told)

    def __enter__(self) -> Staying:
        return self

    def __exit__(self, *_: object) -> None:
        for replica in self.running.values():
            replica.kill()
            replica.communicate()


def replicas(folder: Path) -> None:
    """Two that are each other's peer."""
    with Staying(folder) as staying:
        first, second = free_port(), free_port()
        staying.start("one", first, second)
        staying.start("two", second, first)
        staying.observe("one")
        staying.agree(1)
        staying.stop()


# Mutual TLS.


class Authority:
    """An authority of replicas, which makes their certificates in a folder."""

    def __init__(self, folder: Path) -> None:
        folder.mkdir()
        self.folder = folder
        self.openssl = tool("openssl")
        self.path = folder / "replicas.pem"
        words = ["req", "-x509", *self._key("ca.key"), "-subj", "/CN=replicas", "-days", "10"]
        words += ["-addext", "keyUsage=critical,keyCertSign,cRLSign", "-out", self.path]
        self._run(*words)

    def _key(self, name: str) -> list[str | Path]:
        curve = ["-newkey", "ec", "-pkeyopt", "ec_paramgen_curve:P-256", "-nodes"]
        return [*curve, "-keyout", self.folder / name]

    def _run(self, *words: str | Path) -> None:
        status, told = run(self.openssl, *words)
        want(status == 0, f"openssl {words[0]} wanted", told)

    def replica(self, name: str) -> tuple[Path, Path]:
        """The certificate and the key of a replica of this name."""
        path, key, asked, wanted = (self.folder / f"{name}.{end}" for end in
                                    ("pem", "key", "csr", "ext"))
        wanted.write_text(f"subjectAltName=DNS:{name}.replicas.internal\n")
        self._run("req", "-new", *self._key(key.name), "-subj", f"/CN={name}", "-out", asked)
        self._run("x509", "-req", "-in", asked, "-CA", self.path, "-CAkey", self.folder / "ca.key",
                  "-set_serial", "7", "-days", "10", "-extfile", wanted, "-out", path)
        return path, key


class Echo:
    """In the place of serve: sends back what comes, and counts the connections."""

    def __init__(self) -> None:
        self.count = 0
        self.listener = socket.create_server(("127.0.0.1", 0))
        self.port = self.listener.getsockname()[1]
        threading.Thread(target=self._run, daemon=True).start()

    def _run(self) -> None:
        with contextlib.suppress(OSError):
            while True:
                link, _ = self.listener.accept()
                self.count += 1
                with link:
                    while data := link.recv(4096):
                        link.sendall(data)


class Tunnels:
    """stunnel with the files of deploy/, changed as they say, and in ports and paths."""

    def __init__(self, folder: Path, stunnel: str) -> None:
        self.folder = folder
        self.stunnel = stunnel
        self.before: list[str] = []
        self.running: list[tuple[subprocess.Popen, Path]] = []

    def start(self, name: str, changes: dict[str, str], pair: tuple[Path, Path], trusted: Path,
              port: int) -> None:
        """Runs one of the files until the port is there. Each change has to meet something."""
        text = (DEPLOY / name).read_text()
        changes = {"setuid = stunnel4\n": "", "setgid = stunnel4\n": "",
                   "/etc/stunnel/one.pem": str(pair[0]), "/etc/stunnel/one.key": str(pair[1]),
                   "/etc/stunnel/replicas.pem": str(trusted), **changes}
        for old, new in changes.items():
            want(old in text, f"{old!r} in {name} wanted", "it is not there")
            text = text.replace(old, new)
        number = len(self.running)
        path, log = self.folder / f"{number}.conf", self.folder / f"{number}.log"
        path.write_text(text)
        with log.open("wb") as out:
            words = [*self.before, self.stunnel, str(path)]
            process = subprocess.Popen(words, stdin=subprocess.DEVNULL, stdout=out, stderr=out)
        self.running.append((process, log))
        until(lambda: listens(port) or process.poll() is not None, f"{self.stunnel} with {name}")
        want(process.poll() is None, f"{self.stunnel} with {name} wanted", log.read_text())

    def stop(self) -> None:
        for process, _ in self.running:
            process.kill()
            process.wait()


def listens(port: int) -> bool:
    """Whether somebody listens at the port of 127.0.0.1, as the kernel says. A try would be a
    connection, and those are counted."""
    sockets = [line.split() for line in Path("/proc/net/tcp").read_text().splitlines()[1:]]
    return any(words[1] == f"0100007F:{port:04X}" and words[3] == "0A" for words in sockets)


def answer(link: socket.socket) -> bytes:
    """What comes back of what is sent, or nothing if the connection is not let through."""
    link.settimeout(30)
    with contextlib.suppress(OSError):
        link.sendall(b"hello")
        return link.recv(100)
    return b""


def through(port: int) -> bytes:
    """What comes back. A connection that is refused may be reset before it is made."""
    with contextlib.suppress(ConnectionResetError):
        with socket.create_connection(("127.0.0.1", port), 5) as link:
            return answer(link)
    return b""


def over_tls(port: int, trusted: Path, pair: tuple[Path, Path] | None,
             version: ssl.TLSVersion = ssl.TLSVersion.TLSv1_3) -> bytes:
    """What comes back to a client that is not stunnel."""
    context = ssl.create_default_context(cafile=str(trusted))
    context.minimum_version = context.maximum_version = version
    if pair:
        context.load_cert_chain(*map(str, pair))
    with contextlib.suppress(OSError), socket.create_connection(("127.0.0.1", port), 5) as raw:
        with context.wrap_socket(raw, server_hostname="two.replicas.internal") as link:
            return answer(link)
    return b""


@contextlib.contextmanager
def mutual(folder: Path) -> Iterator[tuple[Tunnels, Echo, Authority, int]]:
    """The serve side of replica two, with an echo behind it."""
    tunnels = Tunnels(folder, tool("stunnel4", "stunnel"))
    ours, echo, port = Authority(folder / "ours"), Echo(), free_port()
    changes = {"0.0.0.0:8470": f"127.0.0.1:{port}", "127.0.0.1:8471": f"127.0.0.1:{echo.port}",
               "checkHost = two.": "checkHost = one."}
    try:
        tunnels.start("stunnel-serve.conf", changes, ours.replica("two"), ours.path, port)
        yield tunnels, echo, ours, port
    finally:
        tunnels.stop()
        echo.listener.close()


def pull_side(tunnels: Tunnels, pair: tuple[Path, Path], trusted: Path, port: int) -> list[int]:
    """A pull side, both of whose sections lead to one serve side. Returns their ports."""
    ports = [free_port(), free_port()]
    changes = {"127.0.0.1:8472": f"127.0.0.1:{ports[0]}", "127.0.0.1:8473": f"127.0.0.1:{ports[1]}",
               "two.replicas.internal:8470": f"127.0.0.1:{port}",
               "three.replicas.internal:8470": f"127.0.0.1:{port}"}
    tunnels.start("stunnel-pull.conf", changes, pair, trusted, ports[1])
    return ports


def right_certificates(folder: Path) -> None:
    with mutual(folder) as (tunnels, echo, ours, port):
        for count, name in enumerate(["one", "three"], 1):
            ports = pull_side(tunnels, ours.replica(name), ours.path, port)
            seen = through(ports[0])
            want((seen, echo.count) == (b"hello", count), f"bytes for {name} wanted", seen)
            # The section of replica three reaches replica two, whose certificate says so.
            seen = through(ports[1])
            want((seen, echo.count) == (b"", count), "no bytes wanted", (seen, echo.count))


def wrong_clients(folder: Path) -> None:
    with mutual(folder) as (tunnels, echo, ours, port):
        others = Authority(folder / "others")
        pairs = {"another authority": others.replica("one"), "another name": ours.replica("four")}
        for what, pair in pairs.items():
            seen = through(pull_side(tunnels, pair, ours.path, port)[0])
            want((seen, echo.count) == (b"", 0), f"no bytes with {what} wanted", seen)
        # A pull side that trusts another authority than that of the serve side.
        one = ours.replica("one")
        seen = through(pull_side(tunnels, one, others.path, port)[0])
        want((seen, echo.count) == (b"", 0), "no bytes of a wrong server wanted", seen)
        seen = over_tls(port, ours.path, None)
        want((seen, echo.count) == (b"", 0), "no bytes without a certificate wanted", seen)
        seen = over_tls(port, ours.path, one, ssl.TLSVersion.TLSv1_2)
        want((seen, echo.count) == (b"", 0), "no bytes with TLS 1.2 wanted", seen)
        seen = over_tls(port, ours.path, one)
        want((seen, echo.count) == (b"hello", 1), "bytes at the end wanted", seen)


def own_hosts(hosts: Path) -> list[str]:
    """The arguments before a program that sees this file as /etc/hosts."""
    bind = f'mount --bind {shlex.quote(str(hosts))} /etc/hosts && exec "$@"'
    words = [tool("unshare"), "--mount", "sh", "-c", bind, "sh"]
    if run(*words, "true")[0]:
        raise Skipped("a name space with another /etc/hosts cannot be made")
    return words


def by_name(tunnels: Tunnels, ours: Authority, port: int, changes: dict[str, str]) -> int:
    """A pull side that reaches replica two by its name. Returns the port of that section."""
    ports = [free_port(), free_port()]
    changes = {"127.0.0.1:8472": f"127.0.0.1:{ports[0]}", "127.0.0.1:8473": f"127.0.0.1:{ports[1]}",
               "two.replicas.internal:8470": f"two.replicas.internal:{port}", **changes}
    tunnels.start("stunnel-pull.conf", changes, ours.replica("one"), ours.path, ports[1])
    return ports[0]


def moving_names(folder: Path) -> None:
    """A peer's name leads nowhere, then to one address, and then to another, as when pods move:
    stunnel looks it up at each connection. Without `delay` it would not."""
    hosts, echoes = folder / "hosts", [Echo(), Echo()]
    hosts.write_text("127.0.0.1 localhost\n")
    tunnels, port = Tunnels(folder, tool("stunnel4", "stunnel")), free_port()
    ours, before = Authority(folder / "ours"), own_hosts(hosts)

    def seen(pull: int) -> tuple[bytes, list[int]]:
        """What comes back, and how many connections each echo had."""
        return through(pull), [echo.count for echo in echoes]

    try:
        for number, echo in enumerate(echoes, 1):
            changes = {"0.0.0.0:8470": f"127.0.0.{number}:{port}",
                       "127.0.0.1:8471": f"127.0.0.1:{echo.port}",
                       "checkHost = two.": "checkHost = one."}
            tunnels.start("stunnel-serve.conf", changes, ours.replica("two"), ours.path, port)
        tunnels.before = before
        pull = by_name(tunnels, ours, port, {})
        want((told := seen(pull)) == (b"", [0, 0]), "nothing wanted", told)
        for number, counts in ((1, [1, 0]), (2, [1, 1])):
            hosts.write_text(f"127.0.0.1 localhost\n127.0.0.{number} two.replicas.internal\n")
            want((told := seen(pull)) == (b"hello", counts), f"127.0.0.{number} wanted", told)
        # Without `delay` a name that is found at the beginning is looked up once.
        pull = by_name(tunnels, ours, port, {"delay = yes\n": ""})
        hosts.write_text("127.0.0.1 localhost two.replicas.internal\n")
        want((told := seen(pull)) == (b"hello", [1, 2]), "the old address wanted", told)
    finally:
        tunnels.stop()
        for echo in echoes:
            echo.listener.close()


# fedbundle-spire.

# Prints the bundle that lies in a file of the domain's name. Its arguments are recorded. With
# FEDBUNDLE_VERBOSE set it says more, as fedbundle.
STAND_IN_FEDBUNDLE = """\
cd "$(dirname "$0")" && echo "$*" >>fedbundle.words
[ ! -e refuse ] || { echo 'fedbundle: C1 NotJson' >&2; exit 1; }
[ -e "bundle.$7" ] || {
    echo "fedbundle: no current bundle" >&2
    [ -z "$FEDBUNDLE_VERBOSE" ] || echo '  config config.json: and more' >&2
    exit 1; }
cat "bundle.$7"
"""

# Records its arguments, and keeps the file that it was given as that of the domain. It can be made
# to refuse one domain, and a script can answer `bundle list` in its place.
STAND_IN_SPIRE = """\
cd "$(dirname "$0")" && echo "$*" >>spire.words
if [ "$2" = list ]; then
    [ ! -e list ] || { sh ./list; exit; }
    [ -e "server.${8#spiffe://}" ] || { cat missing >&2; exit 1; }
    exec cat "server.${8#spiffe://}"
fi
[ "$4" != "spiffe://$(cat refused)" ] || { echo 'Error: rpc error: no
 such thing' >&2; exit 1; }
if [ "$2" = delete ]; then
    [ -e "server.${4#spiffe://}" ] || { cat missing >&2; exit 1; }
    rm "server.${4#spiffe://}" && exec echo 'bundle deleted.'
fi
cat "$8" >>spire.bundles
cp "$8" "server.${4#spiffe://}"
echo 'bundle set.'
"""


def compact(tree: object) -> bytes:
    return json.dumps(tree, separators=(",", ":")).encode() + b"\n"


def x509_key(letter: str) -> dict[str, object]:
    """An element of `keys`, of which the letter is the certificate."""
    return {"use": "x509-svid", "x5c": [base64.b64encode(letter.encode()).decode()]}


def key_id(letter: str) -> str:
    return hashlib.sha256(letter.encode()).hexdigest()


class Spire:
    """fedbundle-spire with its stand-ins in a folder."""

    def __init__(self, folder: Path, *domains: str) -> None:
        self.folder = folder
        self.given = folder / "state.spire"
        stand_in(folder / "fedbundle", STAND_IN_FEDBUNDLE)
        stand_in(folder / "spire-server", STAND_IN_SPIRE)
        (folder / "refused").write_text("")
        (folder / "missing").write_text("Error: rpc error: code = NotFound desc = bundle not found")
        self.config = folder / "config.json"
        self.config.write_text(json.dumps({"relationships": [{"domain": one} for one in domains]}))

    def bundle(self, domain: str, sequence: int | None, keys: str = "") -> bytes:
        """Makes one with a key for each of these letters the current bundle of the domain."""
        numbers = {} if sequence is None else {"spiffe_sequence": sequence}
        text = compact({"keys": [x509_key(one) for one in keys], **numbers})
        (self.folder / f"bundle.{domain}").write_bytes(text)
        return text

    def run(self, *words: str) -> tuple[int, list[str], list[str]]:
        """The status, the lines that it printed, and how it called spire-server, questions aside.
        """
        folder, calls = self.folder, self.folder / "spire.words"
        for path in (calls, folder / "spire.bundles", folder / "fedbundle.words"):
            path.write_text("")
        status, told = run(DEPLOY / "fedbundle-spire", "--config", self.config, "--state",
                           folder / "state", "--program", folder / "fedbundle", "--spire",
                           folder / "spire-server", *words)
        called = calls.read_text().splitlines()
        return status, told.splitlines(), [one for one in called if " list " not in one]

    def asked(self) -> list[str]:
        """The questions to spire-server in the last run."""
        called = (self.folder / "spire.words").read_text().splitlines()
        return [one for one in called if " list " in one]

    def shows(self, domain: str, tree: object) -> None:
        """The SPIRE server has this as the bundle of the domain."""
        (self.folder / f"server.{domain}").write_bytes(compact(tree))

    def gone(self, domain: str) -> dict[str, int | None]:
        """The digests of keys that went away, by the file."""
        return json.loads((self.given / f"{domain}.gone").read_bytes())["gone"]

    def silent(self, why: str) -> str:
        """The line of a run in which `bundle list` said nothing."""
        return (f"fedbundle-spire: {self.folder}/spire-server bundle list: {why}; "
                f"so {self.given} alone says what the SPIRE server has")

    def called(self, domain: str, name: str = "") -> str:
        """How spire-server has to be called."""
        path = self.given / f"{name or domain}.json.new"
        return f"bundle set -id spiffe://{domain} -format spiffe -path {path}"


def spire_changes(folder: Path) -> None:
    spire = Spire(folder, "a.test", "b.test")
    texts = [spire.bundle("a.test", 1), spire.bundle("b.test", 7)]
    calls = [spire.called("a.test"), spire.called("b.test")]
    seen = spire.run()
    lines = ["a.test: given, sequence 1", "b.test: given, sequence 7"]
    want(seen == (0, lines, calls), "both wanted", seen)
    seen = (folder / "spire.bundles").read_bytes()
    want(seen == b"".join(texts), "both bundles wanted", seen)
    seen = (folder / "fedbundle.words").read_text().splitlines()
    asked = f"bundle --config {spire.config} --state {folder}/state --domain"
    want(seen == [f"{asked} a.test", f"{asked} b.test"], "two questions wanted", seen)
    spire.run("--at", "socket", "--all")
    seen = (folder / "fedbundle.words").read_text().splitlines()
    wanted = [f"bundle --at socket --wait 63 --domain {one}" for one in ("a.test", "b.test")]
    want(seen == wanted, "two questions to a replica wanted", seen)
    kept = [spire.given / f"{one}.json" for one in ("a.test", "b.test")]
    want([path.read_bytes() for path in kept] == texts, "copies wanted", kept)
    modes = {oct(stat.S_IMODE(path.stat().st_mode)) for path in [*kept, spire.given]}
    want(modes == {"0o600", "0o700"}, "modes 0600 and 0700 wanted", modes)
    seen = spire.run()
    want(seen == (0, ["a.test: unchanged", "b.test: unchanged"], []), "nothing wanted", seen)
    text = spire.bundle("b.test", 8)
    seen = spire.run()
    lines = ["a.test: unchanged", "b.test: given, sequence 8"]
    want(seen == (0, lines, calls[1:]), "one wanted", seen)
    want((folder / "spire.bundles").read_bytes() == text, "the new bundle wanted", "another")
    seen = spire.run("--all", "--own", "a.test", "--socket", "/run/api.sock")
    wanted = [f"{calls[1]} -socketPath /run/api.sock"]
    want(seen == (0, ["b.test: given, sequence 8"], wanted), "one at this socket wanted", seen)


def spire_by_root(folder: Path) -> None:
    """What it writes belongs to who owned what was there, or the folder above."""
    own = os.geteuid(), os.getegid()
    first, later = ((65534, 65533), (65532, 65531)) if own[0] == 0 else (own, own)
    spire = Spire(folder, "a.test")
    os.chown(folder, *first)
    spire.bundle("a.test", 1, "k")
    spire.run()
    paths = [spire.given / name for name in ("lock", "a.test.json", "a.test.gone")]
    seen = {access(path) for path in paths} | {(*access(spire.given)[:2], 0o600)}
    want(seen == {(*first, 0o600)}, "the owner of the folder above wanted", seen)
    for path in paths:
        os.chown(path, *later)
        path.chmod(0o640)
    spire.bundle("a.test", 2, "l")
    want(spire.run()[1] == ["a.test: given, sequence 2"], "a change wanted", spire.given)
    seen = {access(path) for path in paths}
    want(seen == {(*later, 0o640)}, "owner and mode as before wanted", seen)


def access(path: Path) -> tuple[int, int, int]:
    found = path.stat()
    return found.st_uid, found.st_gid, stat.S_IMODE(found.st_mode)


def spire_refuses(folder: Path) -> None:
    spire = Spire(folder, "a.test", "b.test")
    spire.bundle("a.test", 1)
    spire.bundle("b.test", 1)
    (folder / "refused").write_text("a.test")
    calls = [spire.called("a.test"), spire.called("b.test")]
    program = folder / "spire-server"
    refused = f"a.test: failed: {program} bundle set: Error: rpc error: no such thing"
    seen = spire.run()
    want(seen == (1, [refused, "b.test: given, sequence 1"], calls), "one refusal wanted", seen)
    seen = spire.run()
    want(seen == (1, [refused, "b.test: unchanged"], calls[:1]), "a second try wanted", seen)
    (folder / "refused").write_text("")
    seen = spire.run()
    lines = ["a.test: given, sequence 1", "b.test: unchanged"]
    want(seen == (0, lines, calls[:1]), "a third try wanted", seen)
    spire.bundle("a.test", 2)
    program.unlink()
    seen = spire.run()
    why = "it could not be run: No such file or directory"
    lines = [spire.silent(why), f"a.test: failed: {program} bundle set: {why}", "b.test: unchanged"]
    want(seen == (1, lines, []), "no spire-server wanted", seen)


def spire_without_bundle(folder: Path) -> None:
    spire = Spire(folder, "a.test", "b.test")
    spire.bundle("b.test", 1)
    seen = spire.run()
    lines = ["a.test: failed: no current bundle", "b.test: given, sequence 1"]
    want(seen == (1, lines, [spire.called("b.test")]), "one wanted", seen)
    os.environ["FEDBUNDLE_VERBOSE"] = "1"
    try:
        seen = spire.run()
    finally:
        del os.environ["FEDBUNDLE_VERBOSE"]
    want(seen == (1, [lines[0], "b.test: unchanged"], []), "the same lines wanted", seen)


def spire_names(folder: Path) -> None:
    """Domains that are not good names of files."""
    long = "a" * 240
    spire = Spire(folder, "..", ".", long)
    for domain in ("..", ".", long):
        spire.bundle(domain, 1)
    status, lines, calls = spire.run()
    want(status == 0 and len(calls) == 3, "three wanted", lines)
    kept = sorted(path.name for path in spire.given.iterdir())
    shown = [name for name in kept if not re.fullmatch(r"[0-9a-f]{64}\.(json|gone)", name)]
    wanted = ["...gone", "...json", "..gone", "..json", "lock"]
    want(shown == wanted and len(kept) == 7, "seven files wanted", kept)
    status, lines, calls = spire.run()
    want((status, calls) == (0, []), "nothing wanted", lines)


def spire_stops(folder: Path) -> None:
    """What ends the run and not one domain."""
    spire = Spire(folder, "a.test")
    spire.bundle("a.test", 1)
    (folder / "refuse").touch()
    status, lines, calls = spire.run()
    told = [f"fedbundle-spire: {folder}/fedbundle bundle refused its input: C1 NotJson"]
    want((status, lines, calls) == (3, told, []), "a stop wanted", lines)
    (folder / "refuse").unlink()
    for text in ("", "[]", '{"relationships":[{}]}', '{"relationships":[{"domain":1}]}'):
        spire.config.write_text(text)
        status, lines, calls = spire.run()
        told = f"fedbundle-spire: {spire.config} is no configuration"
        want((status, lines, calls) == (3, [told], []), "a stop wanted", lines)
    spire.config.unlink()
    status, lines, calls = spire.run()
    want(status == 3 and "could not be read" in lines[0], "a stop wanted", lines)
    status, lines, calls = spire.run("--nonsense")
    want(status == 2 and not calls, "a word on the command line wanted", lines)


def spire_two_runs(folder: Path) -> None:
    """A run that starts during another one does nothing, says for how long, and has a status."""
    spire = Spire(folder, "a.test")
    spire.bundle("a.test", 1)
    spire.given.mkdir(mode=0o700)
    path = spire.given / "lock"
    path.touch()
    line = rf"fedbundle-spire: another run has held {re.escape(str(path))} for (\d+) s, so this one"
    with path.open() as held:
        fcntl.flock(held, fcntl.LOCK_EX)
        for before, least in ((0, 0), (-300, 300), (900, 0)):
            os.utime(path, (time.time() + before,) * 2)
            status, lines, calls = spire.run()
            found = re.fullmatch(f"{line} does nothing", lines[0]) if len(lines) == 1 else None
            right = found is not None and least <= int(found[1]) < least + 20
            want(right and (status, calls) == (4, []), f"status 4, {least} s wanted", lines)
    os.utime(path, (1000, 1000))
    seen = spire.run()
    wanted = (0, ["a.test: given, sequence 1"], [spire.called("a.test")])
    want(seen == wanted, "a run afterwards wanted", seen)
    want(path.stat().st_mtime > 1000, "the time of the lock wanted", path.stat())


def spire_stuck(folder: Path) -> None:
    """A spire-server that does not answer costs one wait, and not one for each domain."""
    spire = Spire(folder, "a.test", "b.test", "c.test")
    for domain in ("a.test", "b.test", "c.test"):
        spire.bundle(domain, 1)
    spire.run()
    spire.bundle("a.test", 2)
    spire.bundle("c.test", 2)
    (folder / "list").write_text("exec sleep 60")
    took, seen = timed(lambda: spire.run("--wait", "1"))
    again = "it is not called again, since a call took too long"
    lines = [spire.silent("it took longer than 1 s, and was ended"),
             f"a.test: failed: {folder}/spire-server bundle set: {again}", "b.test: unchanged",
             f"c.test: failed: {folder}/spire-server bundle set: {again}"]
    want(seen == (1, lines, []) and took < 60, "one wait wanted", (took, seen))
    (folder / "list").unlink()
    seen = spire.run("--wait", "1")
    lines = ["a.test: given, sequence 2", "b.test: unchanged", "c.test: given, sequence 2"]
    calls = [spire.called("a.test"), spire.called("c.test")]
    want(seen == (0, lines, calls), "both given wanted", seen)
    stand_in(folder / "fedbundle", "exec sleep 60\n")
    took, seen = timed(lambda: spire.run("--wait", "1"))
    told = f"fedbundle-spire: {folder}/fedbundle bundle took longer than 1 s, and was ended"
    want(seen == (3, [told], []) and took < 60, "the end of the run wanted", (took, seen))
    for number in ("0.9", "3601", "x"):
        status, lines, calls = spire.run("--wait", number)
        want(status == 2 and not calls, "a word on the command line wanted", lines)


def timed(work: Callable[[], object]) -> tuple[float, object]:
    """The seconds that some work took, and what it returned."""
    began = time.monotonic()
    done = work()
    return time.monotonic() - began, done


def spire_and_stuck_replica(folder: Path) -> None:
    """A replica that was stopped does not hold the pusher, and goes on afterwards."""
    spire = Spire(folder, "a.example", "b.example")
    with Staying(folder) as staying:
        staying.start("one", free_port(), free_port())
        words = ["--at", folder / "one/socket", "--program", staying.program]
        spire.config.write_bytes((TOP / "examples/config.json").read_bytes())
        os.kill(staying.running["one"].pid, signal.SIGSTOP)
        took, seen = timed(lambda: spire.run(*map(str, words), "--wait", "1"))
        told = f"fedbundle-spire: {staying.program} bundle took longer than 1 s, and was ended"
        want(seen == (3, [told], []) and took < 60, "the end of the run wanted", (took, seen))
        os.kill(staying.running["one"].pid, signal.SIGCONT)
        status, lines, calls = spire.run(*map(str, words))
        lines = [line.partition(", ")[0] for line in lines]
        want((status, lines) == (0, ["a.example: given", "b.example: given"]), "both", lines)
        staying.stop()


def spire_sequence(folder: Path) -> None:
    """A bundle with a lower sequence than the last one is held until --allow names its domain."""
    spire = Spire(folder, "a.test", "b.test")
    calls = [spire.called("a.test"), spire.called("b.test")]
    last = spire.bundle("a.test", 5)
    spire.bundle("b.test", 1)
    spire.run()
    spire.bundle("a.test", 3)
    spire.bundle("b.test", 2)
    held = "a.test: held: sequence 3 is lower than 5, which SPIRE has; --allow a.test gives it"
    seen = spire.run()
    want(seen == (1, [held, "b.test: given, sequence 2"], calls[1:]), "one held wanted", seen)
    want((spire.given / "a.test.json").read_bytes() == last, "the last one kept wanted", "another")
    seen = spire.run("--all", "--allow", "b.test")
    want(seen == (1, [held, "b.test: given, sequence 2"], calls[1:]), "one held wanted", seen)
    seen = spire.run("--allow", "b.test", "--allow", "a.test")
    lines = ["a.test: given, sequence 3, as --allow says", "b.test: unchanged"]
    want(seen == (0, lines, calls[:1]), "one given wanted", seen)
    for sequence, told in ((3, "unchanged"), (4, "given, sequence 4"), (None, "given"),
                           (1, "given, sequence 1"), (0, None)):
        spire.bundle("a.test", sequence)
        status, lines, _ = spire.run()
        held = "held: sequence 0 is lower than 1, which SPIRE has; --allow a.test gives it"
        want(lines[0] == f"a.test: {told or held}" and status == (not told), "it wanted", lines)
    status, lines, called = spire.run("--allow", "a.tset", "--own", "a.test")
    told = ["fedbundle-spire: --allow a.tset: no relationship has this domain", "b.test: unchanged"]
    want((status, lines, called) == (2, told, []), "a word that is wrong wanted", lines)


def spire_gone(folder: Path) -> None:
    """A bundle with a key that went away is held."""
    spire = Spire(folder, "a.test")
    call = [spire.called("a.test")]

    def step(sequence: int | None, keys: str, told: str, *words: str) -> None:
        spire.bundle("a.test", sequence, keys)
        seen = spire.run(*words)
        wanted = (0, call) if told.startswith("given") else (told != "unchanged", [])
        want(seen == (wanted[0], [f"a.test: {told}"], wanted[1]), f"{sequence} {keys} wanted", seen)

    def gone(**wanted: int | None) -> None:
        ids = {key_id(letter): sequence for letter, sequence in wanted.items()}
        want(spire.gone("a.test") == ids, f"{wanted} gone wanted", spire.gone("a.test"))

    comes = "comes again, {}; --allow a.test gives it"
    again = f"a key that went away with sequence 4 {comes.format(key_id('A'))}"
    step(3, "AB", "given, sequence 3")
    step(4, "B", "given, sequence 4")
    step(5, "BCA", f"held: {again}")
    gone(A=4)
    mode = oct(stat.S_IMODE((spire.given / "a.test.gone").stat().st_mode))
    want(mode == "0o600", "mode 0600 wanted", mode)
    step(5, "BC", "given, sequence 5")
    step(2, "A", f"held: sequence 2 is lower than 5, which SPIRE has, and {again}")
    step(2, "A", "given, sequence 2, as --allow says", "--allow", "a.test")
    gone(B=2, C=2)
    step(2, "A", "unchanged")
    step(6, "AD", "given, sequence 6")
    step(7, "AB", f"held: a key that went away with sequence 2 {comes.format(key_id('B'))}")
    step(None, "D", "given")
    gone(A=None, B=2, C=2)
    step(8, "A", f"held: a key that went away {comes.format(key_id('A'))}")
    (spire.given / "a.test.gone").unlink()
    step(8, "A", "given, sequence 8")
    gone(D=8)


def spire_history(folder: Path) -> None:
    """Histories that cannot be used, and one of a run that was killed."""
    spire = Spire(folder, "a.test")
    history = spire.given / "a.test.gone"
    for sequence, text in enumerate(("", "[]", '{"gone":{"a":"b"}}', "[" * 100_000), 1):
        spire.bundle("a.test", sequence, "AB")
        spire.run()
        history.write_text(text)
        spire.bundle("a.test", 10 * sequence, "B")
        status, lines, _ = spire.run()
        told = f"fedbundle-spire: {history} could not be read, so no key counts as gone: "
        want(status == 0 and len(lines) == 2 and lines[0].startswith(told), "a line wanted", lines)
        want(spire.gone("a.test") == {key_id("A"): 10 * sequence}, "a good one wanted", lines)
        spire.given.joinpath("a.test.json").unlink()
        history.unlink()
    # SPIRE took the bundle without A, and the run was killed before it renamed the bundle's file.
    spire.bundle("a.test", 3, "AB")
    spire.run()
    history.write_bytes(compact({"gone": {key_id("A"): 4}}))
    status, lines, calls = spire.run()
    held = f"a.test: held: a key that went away with sequence 4 comes again, {key_id('A')}; "
    want((status, lines, calls) == (1, [held + "--allow a.test gives it"], []), "it wanted", lines)
    spire.bundle("a.test", 4, "B")
    seen = spire.run()
    wanted = (0, ["a.test: given, sequence 4"], [spire.called("a.test")])
    want(seen == wanted, "the same given again wanted", seen)
    # A last bundle that cannot be read does not count.
    (spire.given / "a.test.json").write_text("{")
    status, lines, calls = spire.run()
    given = f"{spire.given}/a.test.json"
    told = f"fedbundle-spire: {given} is not a bundle, so it does not count as given"
    wanted = (0, [told, "a.test: given, sequence 4"], [spire.called("a.test")])
    want((status, lines, calls) == wanted, "it given wanted", lines)


def spire_drift(folder: Path) -> None:
    """What the SPIRE server lost or has from elsewhere is given again."""
    spire = Spire(folder, "a.test", "b.test")
    spire.bundle("a.test", 5, "AB")
    spire.bundle("b.test", 1, "C")
    spire.run("--socket", "/run/api.sock")
    asked = "bundle list -format spiffe -output json -id spiffe://"
    wanted = [f"{asked}{one} -socketPath /run/api.sock" for one in ("a.test", "b.test")]
    want(spire.asked() == wanted, "two questions wanted", spire.asked())
    quiet = (0, ["a.test: unchanged", "b.test: unchanged"], [])
    seen = spire.run()
    want(seen == quiet, "nothing wanted", seen)
    want(spire.asked() == [f"{asked}a.test", f"{asked}b.test"], "two wanted", spire.asked())

    def shown(tree: object, drift: str) -> None:
        spire.shows("a.test", tree)
        seen = spire.run()
        lines = [f"a.test: given again, sequence 5: the SPIRE server had {drift}", quiet[1][1]]
        wanted = (0, lines, [spire.called("a.test")]) if drift else quiet
        want(seen == wanted, f"{drift or 'nothing'} of {tree} wanted", seen)

    same = {"keys": [{**x509_key("B"), "kty": "EC"}, x509_key("A")], "spiffe_refresh_hint": 9}
    other, one = {"keys": [x509_key("A"), x509_key("C")]}, {"keys": [x509_key("A")]}
    for tree, drift in ((same, ""), (other, "other keys"), (one, "other keys")):
        shown(tree, drift)
        shown([tree], drift)
        shown({"bundle": tree}, drift)
        shown({"bundles": {"a.test": tree}}, drift)
        shown({"bundles": [{**other, "trust_domain": "b.test"},
                           {"trust_domain": "spiffe://a.test", "bundle": tree}]}, drift)
    shown({**same, "spiffe_sequence": 4}, "another sequence")
    shown({**same, "spiffe_sequence": 0}, "")
    shown({"bundles": []}, "none")
    shown([{**same, "trust_domain": "b.test"}], "none")
    (folder / "server.a.test").unlink()
    status, lines, _ = spire.run("--all")
    told = "a.test: given again, sequence 5: the SPIRE server had none"
    want((status, lines) == (0, [told, "b.test: given, sequence 1"]), "both given wanted", lines)


def spire_message(folder: Path) -> None:
    """SPIRE's own message, and bundles with keys of both kinds."""
    spire = Spire(folder, "a.example")
    canon = json.loads((TOP / "examples/a.example.canon").read_bytes().splitlines()[0])
    (folder / "bundle.a.example").write_bytes(compact(canon))
    spire.run()
    uses = sorted({one["use"] for one in canon["keys"]})
    want(uses == ["jwt-svid", "x509-svid"], "keys of both kinds wanted", uses)
    x509 = [{"asn1": one["x5c"][0], "tainted": False} for one in canon["keys"] if "x5c" in one]
    jwt = [{"key_id": one["kid"], "public_key": ""} for one in canon["keys"] if "kid" in one]
    message = {"trust_domain": "a.example", "x509_authorities": x509[::-1], "jwt_authorities": jwt,
               "refresh_hint": "0", "sequence_number": str(canon["spiffe_sequence"])}
    # The same keys, with another order of members, and numbers with leading zeros.
    as_spire = [{name: f"AAAA{text}" if name in ("x", "y", "n", "e") else text
                 for name, text in reversed(one.items())} for one in canon["keys"]]
    cases = [(message, ""), ({**message, "sequence_number": "1000"}, "another sequence"),
             ({**message, "x509_authorities": x509[:1]}, "other keys"),
             ({**message, "jwt_authorities": []}, "other keys"), ({"keys": as_spire}, ""),
             ({"keys": [{**one, "kid": "other"} for one in as_spire]}, "other keys"),
             ({"keys": [{**one, "y": "AQAB"} for one in as_spire if "y" in one]
               + [one for one in as_spire if "y" not in one]}, "other keys")]
    for tree, drift in cases:
        spire.shows("a.example", tree)
        status, lines, _ = spire.run()
        told = f"given again, sequence {canon['spiffe_sequence']}: the SPIRE server had {drift}"
        told = f"a.example: {told if drift else 'unchanged'}"
        want((status, lines) == (0, [told]), f"{drift or 'nothing'} of {tree} wanted", lines)
    # The digest of an X.509 authority is the key id that fedbundle prints.
    (folder / "bundle.a.example").write_bytes(compact({"keys": []}))
    spire.run()
    ids = {"36c3a6c5a3b409e33ed47a123445069a1c35712b133059b5bedbdd7f31062299",
           "0962ab408c324a4e1d1302647b215cf06b881e38897380fc5dc93f9a73b0be99"}
    want(ids < set(spire.gone("a.example")), "key ids wanted", spire.gone("a.example"))


def spire_silent(folder: Path) -> None:
    """A SPIRE server that does not show what it has: the folder alone counts, as a line says."""
    spire = Spire(folder, "a.test", "b.test")
    spire.bundle("a.test", 1)
    spire.bundle("b.test", 1)
    spire.run()
    unread = "what it printed of a.test could not be read"
    scripts = {"echo 'flag provided but not defined: -output' >&2; exit 1":
               "flag provided but not defined: -output", "exit 7": "status 7", "": unread,
               "echo 'bundle: none'": unread, "echo 7": unread, "echo '{}'": unread,
               "echo '{\"keys\":{}}'": unread, "echo '{\"x509_authorities\":[{}]}'": unread,
               "echo '[{\"keys\":[]},{\"keys\":[]}]'": unread,
               "head -c 100000 /dev/zero | tr '\\0' '['": unread}
    for sequence, (script, why) in enumerate(scripts.items(), 2):
        (folder / "list").write_text(script)
        seen = spire.run()
        lines = [spire.silent(why), "a.test: unchanged", "b.test: unchanged"]
        want(seen == (0, lines, []), f"one line of {script!r} wanted", seen)
        spire.bundle("a.test", sequence)
        seen = spire.run()
        lines[1] = f"a.test: given, sequence {sequence}"
        want(seen == (0, lines, [spire.called("a.test")]), "one given wanted", seen)


def spire_on_none(folder: Path) -> None:
    """What becomes of a bundle that SPIRE has if none is current any more."""
    spire = Spire(folder, "a.test", "b.test")
    current = folder / "bundle.a.test"

    def given(sequence: int) -> None:
        spire.bundle("a.test", sequence)
        status, lines, _ = spire.run()
        want(lines[0] == f"a.test: given, sequence {sequence}", "it given wanted", lines)
        current.unlink()

    never, delete = "b.test: failed: no current bundle", "bundle delete -id spiffe://a.test -mode"
    kept = "a.test: failed: no current bundle, and the SPIRE server keeps the one that it got last"
    given(5)
    for words in ((), ("--on-none", "keep")):
        seen = spire.run(*words)
        want(seen == (1, [kept, never], []), "it kept wanted", seen)
    (folder / "refused").write_text("a.test")
    seen = spire.run("--on-none", "delete")
    told = f"{folder}/spire-server bundle delete: Error: rpc error: no such thing"
    lines = [f"a.test: failed: no current bundle, and {told}", never]
    want(seen == (1, lines, [f"{delete} restrict"]), "a refusal wanted", seen)
    (folder / "refused").write_text("")
    seen = spire.run("--on-none", "delete")
    lines = ["a.test: deleted with mode restrict: no current bundle", never]
    want(seen == (1, lines, [f"{delete} restrict"]), "it deleted wanted", seen)
    left = sorted(path.name for path in [*folder.glob("server.*"), *spire.given.iterdir()])
    want(left == ["lock"], "nothing of it wanted", left)
    seen = spire.run("--on-none", "delete")
    want(seen == (1, [never.replace("b.", "a."), never], []), "nothing to delete wanted", seen)
    given(3)
    words = ("--on-none", "delete", "--delete-mode", "dissociate", "--socket", "/run/api.sock")
    seen = spire.run(*words)
    lines = ["a.test: deleted with mode dissociate: no current bundle", never]
    want(seen == (1, lines, [f"{delete} dissociate -socketPath /run/api.sock"]), "it wanted", seen)
    given(4)
    (folder / "server.a.test").unlink()
    seen = spire.run("--on-none", "delete", "--delete-mode", "delete")
    lines = ["a.test: forgotten, since the SPIRE server had none: no current bundle", never]
    want(seen == (1, lines, [f"{delete} delete"]), "it forgotten wanted", seen)
    for words in (("--on-none", "lose"), ("--on-none", "delete", "--delete-mode", "lose")):
        status, lines, calls = spire.run(*words)
        want(status == 2 and not calls, "a word on the command line wanted", lines)


def spire_goes_on(folder: Path) -> None:
    """What goes wrong at one domain does not keep the others from their bundles."""
    spire = Spire(folder, "a.test", "b.test")
    current, path = folder / "bundle.a.test", spire.given / "a.test.json"
    for sequence, text in enumerate(("[" * 100_000, "nonsense", '{"keys":{}}'), 1):
        current.write_text(text)
        spire.bundle("b.test", sequence)
        status, lines, calls = spire.run()
        wanted = (1, f"b.test: given, sequence {sequence}", [spire.called("b.test")])
        want((status, lines[-1], calls) == wanted, "the other one wanted", lines)
        told = f"failed: what {folder}/fedbundle bundle printed is not a bundle"
        told = "failed: unexpected RecursionError: " if sequence == 1 else told
        want(len(lines) == 2 and lines[0].startswith(f"a.test: {told}"), "a line wanted", lines)
    spire.bundle("a.test", 1)
    spire.bundle("b.test", 9)
    path.mkdir()
    status, lines, calls = spire.run()
    told = [f"a.test: failed: {path}: Is a directory", "b.test: given, sequence 9"]
    want((status, lines, calls) == (3, told, [spire.called("b.test")]), "both wanted", lines)
    # What cannot be written is known before the SPIRE server is called.
    path.rmdir()
    (spire.given / "a.test.gone.new").mkdir()
    status, lines, calls = spire.run()
    told = [f"a.test: failed: {spire.given}/a.test.gone.new: Is a directory", "b.test: unchanged"]
    want((status, lines, calls) == (3, told, []), "no call wanted", lines)


def spire_writes(folder: Path) -> None:
    """The pusher writes into the folder that its unit lets it write, and nowhere else."""
    said = settings("fedbundle-spire.service")
    writes = Path("/var/lib") / said["StateDirectory"]
    want(said["ProtectSystem"] == "strict", "nothing else that can be written wanted", said)
    want(writes == Path(said["WorkingDirectory"]), "a folder of its own wanted", writes)
    text = (DEPLOY / "fedbundle-spire.service").read_text()
    want("--given given " in text, "what is given in that folder", text)
    if run(tool("unshare"), "--mount", "true")[0] != 0:
        raise Skipped("no mounts are allowed here")
    spire = Spire(folder, "a.test")
    spire.bundle("a.test", 1)
    spire.given.mkdir(mode=0o700)
    stand_in(folder / "fedbundle", f"exec cat {folder}/bundle.a.test\n")
    stand_in(folder / "spire-server", "[ $2 != list ] || echo 'Error: bundle not found' >&2\n")
    words = shlex.join(map(str, [
        DEPLOY / "fedbundle-spire", "--config", spire.config, "--state", folder / "state",
        "--program", folder / "fedbundle", "--spire", folder / "spire-server"]))
    given = f"mount --bind {spire.given} {spire.given} && "
    for may, status in ((given, 0), ("", 3)):
        kept = f"{may}mount --bind {folder} {folder} && {may}mount -o remount,bind,ro {folder}"
        script = f"{kept} && ! touch {folder}/other 2>/dev/null && {words}"
        seen = run("unshare", "--mount", "sh", "-c", script)
        right = seen[0] == status and ("a.test: given, sequence 1\n" in seen[1]) == (status == 0)
        want(right, f"status {status} wanted", seen)


# Three replicas behind mutual TLS.


def three_behind_tls(folder: Path) -> None:
    """Each pulls from the two others by its own pull side and their serve sides."""
    names = ["one", "two", "three"]
    tunnels, ours = Tunnels(folder, tool("stunnel4", "stunnel")), Authority(folder / "ours")
    pairs = {name: ours.replica(name) for name in names}
    plain, open_to_all = ({name: free_port() for name in names} for _ in range(2))
    with Staying(folder) as staying:
        try:
            for name in names:
                peers = tls_of(tunnels, pairs[name], ours.path, plain[name], open_to_all, name)
                staying.start(name, plain[name], *peers)
            staying.observe("three")
            staying.agree(1)
            staying.stop()
        finally:
            tunnels.stop()


def tls_of(tunnels: Tunnels, pair: tuple[Path, Path], trusted: Path, own: int,
           ports: dict[str, int], name: str) -> list[int]:
    """Both sides of one replica. Returns the ports at which it reaches the two others."""
    first, second = (one for one in ports if one != name)
    changes = {"0.0.0.0:8470": f"127.0.0.1:{ports[name]}", "127.0.0.1:8471": f"127.0.0.1:{own}",
               "checkHost = two.replicas.internal\ncheckHost = three.replicas.internal":
                   f"checkHost = {first}.replicas.internal\ncheckHost = {second}.replicas.internal"}
    tunnels.start("stunnel-serve.conf", changes, pair, trusted, ports[name])
    to_first, to_second = free_port(), free_port()
    changes = {
        "127.0.0.1:8472\nconnect = two.replicas.internal:8470\ncheckHost = two.":
            f"127.0.0.1:{to_first}\nconnect = 127.0.0.1:{ports[first]}\ncheckHost = {first}.",
        "127.0.0.1:8473\nconnect = three.replicas.internal:8470\ncheckHost = three.":
            f"127.0.0.1:{to_second}\nconnect = 127.0.0.1:{ports[second]}\ncheckHost = {second}.",
    }
    tunnels.start("stunnel-pull.conf", changes, pair, trusted, to_second)
    return [to_first, to_second]


CASES: list[tuple[str, Callable[[Path], None]]] = [
    ("units are verified", verified),
    ("units expose no more than they did", exposed),
    ("units start again what failed, and nothing that is refused", restarts),
    ("the user is made", user),
    ("the folder is made", folder_of_state),
    ("the file of options shows and explains each", defaults),
    ("no page has a drop-in with a command", no_commands_again),
    ("a look at a replica that has ended says nothing", ends_without_noise),
    ("the commands of the units exchange a receipt", commands),
    ("the command of a replica's unit exchanges a receipt", replicas),
    ("stunnel lets peers through", right_certificates),
    ("stunnel refuses others", wrong_clients),
    ("stunnel follows a name that moves", moving_names),
    ("three replicas agree behind mutual TLS", three_behind_tls),
    ("spire gets what changed", spire_changes),
    ("spire, run by root, leaves nothing that its user cannot read", spire_by_root),
    ("spire refuses a bundle", spire_refuses),
    ("spire gets no bundle that is not there", spire_without_bundle),
    ("spire and odd names of domains", spire_names),
    ("spire gets nothing where something else is wrong", spire_stops),
    ("spire and two runs at once", spire_two_runs),
    ("spire does not answer", spire_stuck),
    ("spire and a replica that is stuck", spire_and_stuck_replica),
    ("spire gets no bundle with a lower sequence", spire_sequence),
    ("spire gets no key again that went away", spire_gone),
    ("spire and histories of keys", spire_history),
    ("spire gets again what it lost", spire_drift),
    ("spire shows its own message", spire_message),
    ("spire does not show what it has", spire_silent),
    ("spire and a domain without a bundle any more", spire_on_none),
    ("spire gets the others if one domain fails", spire_goes_on),
    ("spire and a folder that cannot be written", spire_writes),
]


def run_case(name: str, case: Callable[[Path], None], folder: Path) -> str:
    """Runs a case and prints its line. Returns the first word of it."""
    began, word, told = time.monotonic(), "passed", ""
    try:
        case(folder)
    except Skipped as lack:
        word = "skipped"
        left_out(name, lack)
    except Wrong as error:
        word, told = "failed", f": {error}"
    except Exception:
        word, told = "failed", f": {traceback.format_exc()}"
    print(f"{word}  {name} ({time.monotonic() - began:.1f} s){told}", flush=True)
    return word


def main() -> int:
    words, came = sys.argv[1:], []
    with tempfile.TemporaryDirectory(prefix="fedbundle-deploy-") as folder:
        for place, (name, case) in enumerate(CASES):
            if not words or any(word in name for word in words):
                own = Path(folder).resolve() / f"case{place}"
                own.mkdir()
                came.append(run_case(name, case, own))
    print(", ".join(f"{came.count(word)} {word}" for word in ("passed", "failed", "skipped")))
    return 1 if "failed" in came else 0


if __name__ == "__main__":
    sys.exit(main())

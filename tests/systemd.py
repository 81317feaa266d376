#!/usr/bin/env python3
"""Starts the units of deploy/ by a systemd of its own, on a copy of this machine whose changes are thrown away.

It shows that each unit runs in its sandbox; that a replica which was killed, which a signal ended or whose disk was full
starts again by itself, and that one whose state is refused or that somebody stopped does not; that a reload has new
options and refuses wrong ones; and that what root wrote does not keep the unit of the fetcher from its work. A script
stands in for spire-server, and no foreign domain answers.

It needs root with mounts, overlayfs and cgroup2, and systemd with nsenter and unshare.
The program is the one that $FEDBUNDLE names, or else the one that ./fedbundle runs.

usage: systemd         a line for each case, and the status is 1 if one failed
"""
import json
import os
import re
import shutil
import signal
import subprocess
import sys
import tempfile
import time
from pathlib import Path

sys.dont_write_bytecode = True
sys.path.insert(0, str(Path(__file__).resolve().parent / "lib"))
from harness import find_program  # noqa: E402
from machine import Machine, mount  # noqa: E402

TOP = Path(__file__).resolve().parent.parent
SYSTEMD = Path("/lib/systemd/systemd")
HOME = "/var/lib/fedbundle"
AT = "--at /run/fedbundle/socket"
UNIT = "fedbundle-replica.service"
SPIRE = """#!/bin/sh
[ "$2" != list ] || { echo 'Error: bundle not found' >&2; exit 1; }
! touch /var/lib/fedbundle/other || { echo 'the pusher can write where the state is' >&2; exit 1; }
"""


class Wrong(Exception):
    """What is not as it should be."""


def want(right, what, seen):
    if not right:
        raise Wrong(f"{what} wanted: {seen}")


def until(right, what, seconds=300):
    """Waits for something, and returns after how many seconds it came."""
    began = time.monotonic()
    while not right():
        want(time.monotonic() < began + seconds, what, "nothing came")
        time.sleep(0.1)
    return time.monotonic() - began


# The machine.


def furnish(machine, program):
    """What an installation puts there, and what systemd wants of a machine."""
    root = machine.root
    subprocess.run(["mount", "-o", "remount,rw", root / "proc"], check=True)
    mount("sysfs", "ro", root / "sys")
    mount("tmpfs", "mode=755", root / "sys/fs/cgroup")
    mount("cgroup2", "rw", root / "sys/fs/cgroup")
    (root / "dev/console").touch()
    (root / "dev/pts").mkdir()
    (root / "dev/shm").mkdir()
    mount("devpts", "ptmxmode=666", root / "dev/pts")
    (root / "dev/ptmx").symlink_to("pts/ptmx")
    for name in ("run", "tmp"):
        mount("tmpfs", "mode=755", root / name)
    for wanted in (root / "etc/systemd/system").glob("*.wants"):
        shutil.rmtree(wanted)
    local = root / "usr/local"
    shutil.copy(program, local / "bin/fedbundle")
    for name in ("fedbundle-fetch", "fedbundle-spire", "fedbundle_scripts.py"):
        shutil.copy(TOP / "deploy" / name, local / "bin")
    (local / "bin/spire-server").write_text(SPIRE)
    (local / "bin/spire-server").chmod(0o755)
    units = local / "lib/systemd/system"
    units.mkdir(parents=True, exist_ok=True)
    for unit in [*(TOP / "deploy").glob("*.service"), *(TOP / "deploy").glob("*.timer")]:
        shutil.copy(unit, units)
    for words in (["systemd-sysusers", TOP / "deploy/fedbundle.sysusers"],
                  ["systemd-tmpfiles", "--create", TOP / "deploy/fedbundle.tmpfiles"]):
        subprocess.run(["chroot", root, *words], check=True, capture_output=True)


def inside(folder, program):
    """Becomes the systemd of a new machine."""
    mount("tmpfs", "mode=755", folder)
    machine = Machine(folder, "machine")
    furnish(machine, program)
    (machine.root / "etc/systemd/system/nothing.target").write_text("[Unit]\nDefaultDependencies=no\n")
    words = "exec env -i container=lxc PATH=/usr/local/sbin:/usr/local/bin:/usr/sbin:/usr/bin:/sbin:/bin "
    words += f"{SYSTEMD} --system --unit=nothing.target --log-target=journal-or-kmsg --show-status=0"
    change = "mount --make-rprivate / && mkdir old && pivot_root . old && umount -l /old"
    os.chdir(machine.root)
    os.execvp("sh", ["sh", "-c", f"{change} && {words}"])


class Running:
    """A machine on which systemd runs, in name spaces and a control group of its own."""

    def __init__(self, folder, program):
        self.groups = Path(tempfile.mkdtemp())
        mount("cgroup2", "rw", self.groups)
        self.group = self.groups / f"fedbundle-tests-{os.getpid()}"
        self.group.mkdir()
        room = ["unshare", "--mount", "--net", "--pid", "--cgroup", "--ipc", "--uts", "--fork", "--kill-child"]
        words = [*room, sys.executable, os.path.abspath(__file__), "inside", folder, program]
        join = ["sh", "-c", 'echo $$ > "$0" && exec "$@"', str(self.group / "cgroup.procs")]
        self.process = subprocess.Popen([*join, *words], stdin=subprocess.DEVNULL)
        self.first = None

    def found(self):
        """Whether systemd answers."""
        children = Path(f"/proc/{self.process.pid}/task/{self.process.pid}/children").read_text().split()
        self.first = children[0] if children else None
        return bool(self.first) and self.run("systemctl list-units")[0] == 0

    def run(self, command):
        """The status of a line of a shell, as root there, and what it printed."""
        enter = ["nsenter", "--target", self.first, "--mount", "--pid", "--net", "--ipc", "--uts", "--cgroup"]
        ran = subprocess.run([*enter, "sh", "-c", f"exec 2>&1; cd {HOME}; {command}"], stdin=subprocess.DEVNULL,
                             stdout=subprocess.PIPE, text=True, timeout=1200)
        return ran.returncode, ran.stdout

    def said(self, unit, name):
        return self.run(f"systemctl show -p {name} --value '{unit}'")[1].strip()

    def log(self, unit):
        return self.run(f"journalctl --no-pager -o cat -u '{unit}'")[1]

    def answers(self):
        return self.run(f"fedbundle status {AT}")[1].startswith("config ")

    def is_active(self):
        """Whether the replica answers, and its unit no longer waits for that."""
        return self.answers() and self.said(UNIT, "ActiveState") == "active"

    def end(self):
        if self.first:
            os.kill(int(self.first), signal.SIGKILL)
        self.process.kill()
        self.process.wait()
        until(lambda: not any(path.read_text() for path in self.group.rglob("cgroup.procs")), "no process")
        for path in sorted(self.group.rglob("*"), reverse=True):
            if path.is_dir():
                path.rmdir()
        self.group.rmdir()


# The cases. Each goes on from the one before.


def put(machine, path, text):
    """Writes a file of the machine."""
    at = Path(f"/proc/{machine.first}/root{path}")
    at.parent.mkdir(parents=True, exist_ok=True)
    at.write_text(text)


def loaded(machine):
    for path in sorted((TOP / "deploy").glob("*.*r*")):
        name = path.name.replace("@", "@127.0.0.1:8472")
        if path.suffix in (".service", ".timer"):
            state = machine.said(name, "LoadState")
            want(state == "loaded", f"{name} loaded", state)


def starts(machine):
    config = (TOP / "examples/config.json").read_text()
    Path(f"/proc/{machine.first}/root{HOME}/config.json").write_text(config)
    machine.run("chown fedbundle: config.json; chmod 640 config.json")
    machine.run(f"systemctl start {UNIT}")
    until(lambda: machine.said(UNIT, "ActiveState") == "failed", "a unit that has no state, and fails")
    first = machine.run(f"journalctl --no-pager -o cat -u {UNIT} -t fedbundle -n 2")[1].splitlines()
    want(first == ["fedbundle: no state", '  --state "state" is not there: `new` writes one that holds nothing'],
         "the code and the file, and nothing of systemd", first)
    # The look at the replica that has ended may come a moment later, and has nothing to say.
    until(lambda: machine.said(UNIT, "SubState") == "failed", "an end of the unit")
    want("No such process" not in machine.log(UNIT), "no other fault", machine.log(UNIT))
    new = machine.run("runuser -u fedbundle -- fedbundle new --config config.json --state state")
    want(new == (0, ""), "a state that holds nothing", new)
    status, told = machine.run(f"systemctl start {UNIT}")
    want(status == 0, "a start", (told, machine.log(UNIT)))
    want(machine.answers(), "a replica that answers once it is started", machine.log(UNIT))
    modes = machine.run("stat -c '%a %U' /run/fedbundle /run/fedbundle/socket /run/fedbundle/read state")[1].split("\n")
    want(modes[:4] == ["750 fedbundle", "600 fedbundle", "660 fedbundle", "600 fedbundle"], "modes", modes)


def killed(machine):
    before = machine.said(UNIT, "MainPID")
    want(int(before) > 1, "a process", before)
    machine.run(f"kill -9 {before}")
    until(lambda: machine.said(UNIT, "MainPID") not in (before, "0") and machine.answers(), "a new start", 60)
    log = machine.run(f"journalctl --no-pager -o short-unix -u {UNIT}")[1]
    moments = [float(line.split()[0]) for line in log.splitlines() if "'signal'" in line or "Scheduled restart" in line]
    want(len(moments) == 2 and 4 < moments[1] - moments[0] < 15, "a wait of five seconds", log)


def signalled(machine):
    """A replica that a signal ended is started again, though systemd takes an end by one of these for a good one."""
    for name in ("HUP", "INT", "TERM"):
        before = machine.said(UNIT, "MainPID")
        want(int(before) > 1, "a process", before)
        machine.run(f"kill -{name} {before}")
        until(lambda: machine.said(UNIT, "MainPID") not in (before, "0") and machine.is_active(), f"a new start after {name}", 20)
    machine.run(f"systemctl stop {UNIT}")
    time.sleep(7)
    seen = machine.said(UNIT, "ActiveState")
    want(seen == "inactive", "no start of one that was stopped", seen)
    status, told = machine.run(f"systemctl start {UNIT}")
    want(status == 0 and machine.answers(), "a replica that answers once it is started", told)


def reloaded(machine):
    """A reload has the new options, and leaves the replica alone if they or the configuration are refused."""
    before = machine.said(UNIT, "MainPID")
    put(machine, "/etc/default/fedbundle", 'REPLICA_OPTIONS="--listen 127.0.0.1:8471 --health 127.0.0.1:9463 --every 5"\n')
    log = machine.log(UNIT)
    status, told = machine.run(f"systemctl reload {UNIT}")
    want(status == 0, "a reload", (told, machine.log(UNIT)))
    more = machine.log(UNIT).removeprefix(log)
    want("Scheduled restart" not in more and "Failed" not in more, "no end that waits for a new start, or fails", more)
    want(machine.said(UNIT, "MainPID") not in (before, "0") and machine.answers(), "a replica that answers at the end", told)
    words = machine.run(f"tr '\\0' ' ' < /proc/{machine.said(UNIT, 'MainPID')}/cmdline")[1]
    want("--health 127.0.0.1:9463 --every 5" in words and "--peers" not in words, "the new options", words)
    want(machine.run("curl -sf http://127.0.0.1:9463/ready")[0] == 0, "an address that the unit allows", machine.log(UNIT))
    before = machine.said(UNIT, "MainPID")
    for options, line in (("--nonsense", "unexpected argument '--nonsense'"), ("--listen nowhere", "fedbundle: bad address")):
        put(machine, "/etc/default/fedbundle", f'REPLICA_OPTIONS="{options}"\n')
        refused_at(machine, before, line)
    put(machine, "/etc/default/fedbundle", "")
    config = machine.run("cat config.json")[1]
    machine.run("echo nonsense > config.json")
    refused_at(machine, before, "fedbundle: C1 NotJson")
    put(machine, f"{HOME}/config.json", config)
    status, told = machine.run(f"systemctl reload {UNIT}")
    want(status == 0 and machine.answers(), "a reload without a file of options", told)


def refused_at(machine, before, line):
    """A reload that is refused with this line, while the same replica goes on."""
    status, told = machine.run(f"systemctl reload {UNIT}")
    seen = machine.said(UNIT, "MainPID")
    want((status, seen) == (1, before) and machine.answers(), "the same replica", (status, before, seen, told))
    want(line in machine.log(UNIT), "the reason", machine.log(UNIT))


def watched(machine):
    """A replica that does not answer is started again, and so is one that is enabled and ended. One that answers is left alone,
    and one that was stopped too. The timer stops and starts with it."""
    before = machine.said(UNIT, "MainPID")
    status, told = machine.run("systemctl start fedbundle-watch.service")
    want((status, machine.said(UNIT, "MainPID")) == (0, before), "a replica that is left alone", told)
    put(machine, "/etc/default/fedbundle", "WATCH_OPTIONS='--wait 1'\n")
    machine.run(f"kill -STOP {before}; systemctl start fedbundle-watch.service")
    log = machine.log("fedbundle-watch.service")
    want("fedbundle: no reply" in log, "a look that has no reply", log)
    until(lambda: machine.said(UNIT, "MainPID") not in (before, "0") and machine.is_active(), "a new start", 60)
    ended(machine)
    machine.run("systemctl start fedbundle-watch.service")
    log = machine.log("fedbundle-watch.service")
    want("fedbundle: no replica" in log, "a look without a replica", log)
    time.sleep(2)
    want(machine.said(UNIT, "MainPID") == "0", "no start of one that is not enabled", machine.said(UNIT, "ActiveState"))
    machine.run(f"systemctl enable {UNIT} fedbundle-watch.timer; systemctl start {UNIT}")
    want(machine.said("fedbundle-watch.timer", "ActiveState") == "active", "a timer that starts with the replica", "none")
    ended(machine)
    machine.run("systemctl start fedbundle-watch.service")
    until(machine.is_active, "a start of one that is enabled and ended")
    stopped_by_systemd(machine)


def ended(machine):
    """Ends the replica without systemd."""
    machine.run(f"fedbundle stop {AT}")
    until(lambda: machine.said(UNIT, "ActiveState") == "inactive", "an end of the replica")


def stopped_by_systemd(machine):
    """What `systemctl stop` ended stays so, though the watch is at work meanwhile: the timer and a look that waits end too."""
    put(machine, "/etc/default/fedbundle", "WATCH_OPTIONS='--wait 60'\n")
    machine.run(f"kill -STOP {machine.said(UNIT, 'MainPID')}; systemctl --no-block start fedbundle-watch.service")
    until(lambda: machine.said("fedbundle-watch.service", "ActiveState") == "activating", "a look that waits")
    machine.run(f"systemctl stop {UNIT}")
    states = [machine.said(f"fedbundle-watch.{kind}", "ActiveState") for kind in ("timer", "service")]
    want(states[0] == "inactive" and states[1] in ("inactive", "failed"), "no watch of what was stopped", states)
    time.sleep(3)
    want(machine.said(UNIT, "ActiveState") == "inactive", "no start of one that was stopped", machine.log(UNIT))
    machine.run(f"systemctl disable {UNIT} fedbundle-watch.timer; systemctl stop fedbundle-watch.timer; rm /etc/default/fedbundle")
    status, told = machine.run(f"systemctl start {UNIT}")
    want(status == 0 and machine.answers(), "a replica that answers once it is started", told)
    state = machine.said("fedbundle-watch.timer", "ActiveState")
    want(state == "inactive", "no start of a timer that is not enabled", state)


def fetches(machine):
    """The unit fetches, also after a run by root, whose files its user can read."""
    by_root = f"fedbundle-fetch --config config.json --state state {AT} --once a.example"
    status, told = machine.run(by_root)
    want(status == 1 and "has no address" in told, "a fetch that fails, since nobody answers", told)
    machine.run("sed -i d state.polls")
    status, told = machine.run("systemctl start fedbundle-fetch.service")
    log, ended = machine.log("fedbundle-fetch.service"), machine.said("fedbundle-fetch.service", "ExecMainStatus")
    want((status, ended) == (1, "1"), "a fetch that fails, since nobody answers", (told, log))
    want("a.example: failed: the host a.example has no address" in log, "a line of it", log)
    polls = machine.run("cut -d' ' -f1,2 state.polls")[1]
    want(polls == "a.example fail\nb.example fail\n", "polls", polls)


def pushes(machine):
    status, told = machine.run("systemctl start fedbundle-spire.service")
    log = machine.log("fedbundle-spire.service")
    want(status == 0 and "a.example: given, sequence 3" in log and "b.example: given" in log, "two bundles", (told, log))
    names = machine.run("ls -A; ls /var/lib/fedbundle-spire/given")[1].split()
    want("state.spire" not in names and "a.example.json" in names, "files in its own folder alone", names)
    change = "--domain a.example --key " + "0" * 64
    as_pusher = "runuser -u fedbundle-spire -G fedbundle --"
    seen = machine.run(f"{as_pusher} fedbundle distrust --at /run/fedbundle/read {change}")
    want(seen == (1, "fedbundle: read only\n"), "a change that is refused", seen)
    seen = machine.run(f"{as_pusher} fedbundle distrust {AT} {change}; {as_pusher} cat state state.journal >/dev/null 2>&1")
    want(seen == (1, "fedbundle: S9 Io\n"), "no way to the other socket or to the state", seen)


def refused(machine):
    machine.run(f"systemctl stop {UNIT}; mkdir kept; mv state state.journal kept")
    machine.run("echo nonsense > state; chown fedbundle: state")
    machine.run(f"systemctl start {UNIT}")
    until(lambda: machine.said(UNIT, "ActiveState") == "failed", "a unit that failed")
    time.sleep(7)
    seen = [machine.said(UNIT, name) for name in ("ActiveState", "ExecMainStatus", "NRestarts")]
    want(seen == ["failed", "1", "0"], "no new start", seen)
    want("fedbundle: S1 BadHeader" in machine.log(UNIT), "the code", machine.log(UNIT))
    machine.run(f"mv kept/state kept/state.journal . && systemctl start {UNIT}")
    until(machine.answers, "a replica that answers")


def observe(machine, line):
    """Observes the bundle of a receipt of the examples. Returns the status, and what was printed."""
    receipt = (TOP / "examples/receipts.jsonl").read_text().splitlines()[line]
    said = json.loads(receipt)
    document = re.sub(r'^\{"doc":(.*),"domain":"[^"]*","endpoint":.*$', r"\1", receipt)
    Path(f"/proc/{machine.first}/root/tmp/document").write_text(document)
    words = f"--domain {said['domain']} --endpoint {said['endpoint']} --key {said['key']}"
    return machine.run(f"fedbundle observe {AT} {words} < /tmp/document")


def full(machine):
    """A disk that is full, and has room again: nobody starts the replica but systemd."""
    machine.run(f"systemctl stop {UNIT}; mkdir /small && mount -t tmpfs -o size=1m,mode=700 small /small && cp -p * /small;"
                f" chown fedbundle: /small; mount --move /small {HOME}")
    machine.run(f"systemctl start {UNIT}")
    until(machine.answers, "a replica that answers")
    want(observe(machine, 0)[0] == 0, "a receipt", "none")
    machine.run("dd if=/dev/zero of=ballast bs=1k")
    statuses = [observe(machine, line)[0] for line in (2, 4, 3, 2)]
    want(3 in statuses, "a change that has no room", statuses)
    held = 1 + statuses.index(3)
    until(lambda: int(machine.said(UNIT, "NRestarts")) >= 1, "a new start")
    want(not machine.answers(), "no replica on a full disk", "one answers")
    machine.run("rm ballast")
    until(machine.answers, "a replica that came back by itself", 80)
    told = machine.run(f"fedbundle status {AT}")[1]
    want(re.search(r"^receipts (\d+) ", told, re.M)[1] == str(held), f"the {held} receipts that were acknowledged", told)


def serves(machine):
    machine.run(f"systemctl stop {UNIT}")
    status, told = machine.run("systemctl start fedbundle-serve.service")
    want(status == 0, "a start", told)
    pull = "fedbundle-pull@127.0.0.1:8471.service"
    until(lambda: machine.run(f"systemctl start {pull}")[0] == 0, "a pull")
    want("new 0" in machine.log(pull), "a session", machine.log(pull))


CASES = [
    ("all units are loaded", loaded),
    ("a replica starts", starts),
    ("a replica that was killed starts again after five seconds", killed),
    ("a replica that another signal ended starts again", signalled),
    ("a reload has new options, and refuses wrong ones", reloaded),
    ("a replica that does not answer, or is enabled and ended, is started", watched),
    ("the fetcher runs", fetches),
    ("the pusher runs, and writes into its own folder alone", pushes),
    ("a replica whose state is refused is not started again", refused),
    ("a replica whose disk was full comes back by itself", full),
    ("serve and pull run", serves),
]


def play(folder):
    machine, failed = Running(folder, find_program()), 0
    try:
        until(machine.found, "a systemd that answers")
        for name, case in CASES:
            began, fault = time.monotonic(), ""
            try:
                case(machine)
            except Wrong as error:
                fault, failed = f": {error}", failed + 1
            print(f"{'failed' if fault else 'passed'}  {name} ({time.monotonic() - began:.1f} s){fault}", flush=True)
            if fault:
                break
    finally:
        machine.end()
    print("a case failed, and those after it were not run" if failed else f"{len(CASES)} passed")
    return 1 if failed else 0


def main():
    words = sys.argv[1:]
    if words[:1] == ["inside"]:
        inside(Path(words[1]), words[2])
    if words[:1] == ["play"]:
        sys.exit(play(words[1]))
    try:
        probe = ["unshare", "--mount", "--net", "--pid", "--cgroup", "--fork", "mount", "-t", "cgroup2", "none", "/mnt"]
        lack = subprocess.run(probe, capture_output=True, text=True).stderr.strip()
    except OSError as error:
        lack = str(error)
    if lack or not SYSTEMD.exists():
        sys.exit(f"systemd: {lack or f'{SYSTEMD} is not there'}")
    find_program()
    with tempfile.TemporaryDirectory(prefix="fedbundle-systemd-") as folder:
        # The mounts that the cases need here are gone with this process.
        ran = subprocess.run(["unshare", "--mount", sys.executable, os.path.abspath(__file__), "play", folder],
                             env=os.environ | {"TMPDIR": folder})
    sys.exit(ran.returncode)


if __name__ == "__main__":
    main()

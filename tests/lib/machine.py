"""Copies of this machine, or of another Debian, whose changes are thrown away: an overlay over a root, and a change of root.

It needs root and Linux with overlayfs. All mounts and processes are of the name spaces that `in_own_mounts` or the script
makes, and are gone when the test ends. Copies have devices of their own, and one network, that of the script.

`Booted` also runs systemd in a copy, in name spaces and a control group of its own. It needs cgroup2. What sysinit.target
would start is left out there, since it sets values of the kernel, of which there is one."""
import fcntl
import os
import shlex
import socket
import struct
import subprocess
import sys
import tempfile
import time
from pathlib import Path

TOP = Path(__file__).resolve().parent.parent.parent
# What a copy sees of this machine's devices.
DEVICES = ["null", "zero", "full", "random", "urandom", "tty"]


class Lacking(Exception):
    """What the machine lacks."""


def mount(kind, options, at):
    subprocess.run(["mount", "-t", kind, "-o", options, kind, at], check=True)


def in_own_mounts(script, words):
    """Runs a script of tests/ again as `SCRIPT inside FOLDER WORD..`, with mounts, a network and processes of its own, of which
    none outlives it. Returns its status."""
    if os.geteuid():
        raise Lacking("it needs root")
    folder = tempfile.mkdtemp()
    spaces = ["unshare", "--mount-proc", "--net", "--pid", "--fork", "--kill-child"]
    ran = subprocess.run([*spaces, sys.executable, os.path.abspath(script), "inside", folder, *words])
    # Nothing but the empty folder is left: what was mounted there is gone with the other process.
    os.rmdir(folder)
    return ran.returncode


def raise_loopback():
    """Brings up the loopback of a new name space of networks."""
    with socket.socket(socket.AF_INET, socket.SOCK_DGRAM) as link:
        fcntl.ioctl(link, 0x8914, struct.pack("16sh14x", b"lo", 1))


class Machine:
    """A copy of a root."""

    def __init__(self, folder, name, lower="/"):
        self.name, self.folder, self.root = name, folder, folder / "root"
        for part in ("upper", "work", "root"):
            (folder / part).mkdir(parents=True)
        mount("overlay", f"lowerdir={lower},upperdir={folder}/upper,workdir={folder}/work", self.root)
        mount("proc", "ro", self.root / "proc")
        mount("tmpfs", "mode=755", self.root / "dev")
        for device in DEVICES:
            (self.root / "dev" / device).touch()
            subprocess.run(["mount", "--bind", f"/dev/{device}", self.root / "dev" / device], check=True)

    def enter(self):
        """The arguments before a command that runs there."""
        return ["chroot", self.root]

    def path(self, name):
        """The path of a file of it from outside."""
        return self.root / str(name).lstrip("/")

    def words(self, command, folder=None):
        """The arguments that run a line of a shell there: in this folder, or else in the repository, or in / without
        one."""
        place = f"cd {shlex.quote(str(folder))} &&" if folder else f"cd {shlex.quote(str(TOP))} 2>/dev/null || cd /;"
        return [*self.enter(), "bash", "-c", f"{place} {command}"]

    def attempt(self, command, **more):
        """Runs a line there, with no limit on its status."""
        return subprocess.run(self.words(command), capture_output=True, text=True, timeout=1200, **{"stdin": subprocess.DEVNULL, **more})

    def run(self, command, quiet=False):
        """Runs a line there that has to end well, and returns what it printed."""
        began = time.monotonic()
        ran = self.attempt(command)
        if not quiet:
            print(f"{self.name:4} {time.monotonic() - began:6.1f} s  {command}", flush=True)
        if ran.returncode:
            sys.exit(f"{command}: status {ran.returncode}: {ran.stdout}{ran.stderr}")
        return ran.stdout

    def start(self, command):
        """Starts a line there that goes on."""
        print(f"{self.name:4}          {command}", flush=True)
        return subprocess.Popen(self.words(f"exec {command}"), stdin=subprocess.DEVNULL, stdout=subprocess.DEVNULL)


# What begins in the other name spaces: the mounts that systemd wants, and then systemd.
BEGIN = """\
set -e
mount --make-rprivate /
mount -t proc proc "$1/proc"
mount --bind "$1/proc/sys" "$1/proc/sys"
mount -o remount,bind,ro "$1/proc/sys"
mount -t sysfs -o ro sysfs "$1/sys"
mount -t cgroup2 cgroup2 "$1/sys/fs/cgroup"
mount -t tmpfs -o mode=755 tmpfs "$1/run"
mkdir -p "$1/dev/pts" "$1/dev/shm"
mount -t devpts -o newinstance,ptmxmode=0666 devpts "$1/dev/pts"
ln -s pts/ptmx "$1/dev/ptmx"
mount -t tmpfs tmpfs "$1/dev/shm"
exec chroot "$1" /usr/bin/env -i container=overlay PATH=/usr/sbin:/usr/bin:/sbin:/bin /lib/systemd/systemd --unit=sysinit.target
"""


class Booted(Machine):
    """A copy in which systemd runs."""

    def __init__(self, folder, name, lower="/"):
        super().__init__(folder, name, lower)
        if not (self.root / "lib/systemd/systemd").exists():
            raise Lacking("systemd is not there")
        # Images of containers have one that keeps packages from starting anything.
        (self.root / "usr/sbin/policy-rc.d").unlink(missing_ok=True)
        for wants in [*(self.root / "lib/systemd/system").glob("*.target.wants"), *(self.root / "etc/systemd/system").glob("*.wants")]:
            for link in wants.iterdir():
                link.unlink()
        self.group = self._group()
        begin = f"echo $$ >{shlex.quote(str(self.group))}/cgroup.procs && exec unshare --mount --pid --fork --cgroup --uts --ipc " \
                f"--kill-child sh -c {shlex.quote(BEGIN)} sh {shlex.quote(str(self.root))}"
        self.outer = subprocess.Popen(["sh", "-c", begin], stdin=subprocess.DEVNULL)
        self.first = self._until(self._first_process, "a first process")
        self._until(lambda: self.attempt("systemctl is-active sysinit.target").stdout == "active\n", "sysinit.target")
        self.attempt("systemctl start systemd-journald.socket systemd-journald.service")

    def _group(self):
        at = self.folder / "cgroup"
        at.mkdir()
        if subprocess.run(["mount", "-t", "cgroup2", "cgroup2", at], stderr=subprocess.DEVNULL).returncode:
            raise Lacking("there is no cgroup2")
        group = at / f"fedbundle-{os.getpid()}-{self.name}"
        group.mkdir()
        return group

    def _first_process(self):
        children = Path(f"/proc/{self.outer.pid}/task/{self.outer.pid}/children").read_text().split()
        return int(children[0]) if children and "systemd" in Path(f"/proc/{children[0]}/comm").read_text() else None

    def _until(self, found, what):
        end = time.monotonic() + 300
        while time.monotonic() < end and self.outer.poll() is None:
            if seen := found():
                return seen
            time.sleep(0.1)
        self.close()
        raise Lacking(f"systemd came to no {what} here")

    def enter(self):
        return ["nsenter", "--target", str(self.first), "--mount", "--pid", "--cgroup", "--uts", "--ipc", "--root", "--wd"]

    def close(self):
        """Ends all that runs there, and removes its control group."""
        self.outer.kill()
        self.outer.wait()
        for _ in range(50):
            for group in sorted([*self.group.rglob("*/"), self.group], key=lambda path: -len(path.parts)):
                try:
                    group.rmdir()
                except OSError:
                    pass
            if not self.group.exists():
                return
            time.sleep(0.1)

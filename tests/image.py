#!/usr/bin/env python3
"""Makes the container image by tools/image.py, and runs it.

- made: two runs over the same packages of Debian give the same bytes. The layout is what its digests say. The configuration
  has a user that is not root, tini as the entry, SIGTERM and labels. The image has no shell, and no program that gains rights.
- runs: a replica in the image answers. The image's fetcher takes a bundle from a TLS server, and its pusher gives it to a
  stand-in for a SPIRE server.
- ends: under the load of clients that make records of distrust, the container gets SIGTERM twenty times, and is gone within a
  second each time. Nothing that was acknowledged is lost. As the first process without tini the program goes on.

The image is unpacked by umoci, or else here. It runs under bwrap, with name spaces of its own but for the network, without
rights, and with a root that cannot be written. crun is tried once, with the configuration that umoci makes.

The archive is that of dist/, with the deploy programs as they are here. It needs root, python3, dpkg-deb, apt-get with the
network of Debian's packages or $FEDBUNDLE_DEBS with a folder of them, bwrap, and openssl for the fetcher. What is not there
leaves out a part, as a line says.

usage: image [PART..]     runs these parts, or all; the status is 1 if something is not so
"""
import gzip
import hashlib
import importlib.machinery
import importlib.util
import json
import os
import shutil
import signal
import stat
import subprocess
import sys
import tarfile
import tempfile
import threading
import time
from pathlib import Path

sys.dont_write_bytecode = True
sys.path.insert(0, str(Path(__file__).resolve().parent / "lib"))
from needs import left_out, require  # noqa: E402
TOP = Path(__file__).resolve().parent.parent
USER = 65532
ROUNDS = 20
reported = 0


class Lacking(Exception):
    """What the machine lacks."""


def check(is_so, what):
    global reported
    print(f"{'ok:      ' if is_so else 'differs: '}{what}", flush=True)
    reported += not is_so


def module_of(path):
    loader = importlib.machinery.SourceFileLoader(path.name.replace("-", "_"), str(path))
    made = importlib.util.module_from_spec(importlib.util.spec_from_loader(loader.name, loader))
    sys.modules[loader.name] = made
    loader.exec_module(made)
    return made


# ---- the image

def archive_now(folder):
    """The archive of dist/ with the plain files as they are here: the deploy programs may be newer."""
    release, package = module_of(TOP / "tools/release.py"), module_of(TOP / "tools/package.py")
    files, _ = package.read_archive(package.ARCHIVE)
    folder.mkdir()
    path = folder / package.ARCHIVE.name
    release.version = lambda: package.version_of(files)
    path.write_bytes(release.archive_of({**{place: files[place] for place in release.COMPILED}, **release.plain_files()}))
    (folder / "SHA256SUMS").write_text(f"{hashlib.sha256(path.read_bytes()).hexdigest()}  {path.name}\n")
    return path


def packages(room):
    if named := os.environ.get("FEDBUNDLE_DEBS"):
        return Path(named)
    folder = room / "debs"
    folder.mkdir()
    ran = subprocess.run(["apt-get", "download", "-qq", *module_of(TOP / "tools/image.py").PACKAGES], cwd=folder, capture_output=True)
    if ran.returncode:
        raise Lacking(f"apt-get downloads no packages: {ran.stderr.decode().strip()[:200]}")
    return folder


class Image:
    """The image, made and unpacked."""

    def __init__(self, room):
        self.room, self.archive, self.debs = room, archive_now(room / "release"), packages(room)
        self.layout = self.make("image")
        self.index = json.loads((self.layout / "index.json").read_text())
        self.manifest = json.loads(self.blob(self.index["manifests"][0]))
        self.config = json.loads(self.blob(self.manifest["config"]))
        self.root = self.unpack()

    def make(self, name, words=(), **environment):
        ran = subprocess.run([*words, TOP / "tools/image.py", self.room / name, "--debs", self.debs, "--archive", self.archive], capture_output=True,
                             text=True, env={**os.environ, **environment})
        if ran.returncode:
            sys.exit(f"image: tools/image.py: {ran.stderr}")
        print(f"  {ran.stdout.strip()}")
        return self.room / name / "fedbundle"

    def blob(self, named):
        return (self.layout / "blobs/sha256" / named["digest"].removeprefix("sha256:")).read_bytes()

    def unpack(self):
        if shutil.which("umoci"):
            bundle = self.room / "bundle"
            tag = self.index["manifests"][0]["annotations"]["org.opencontainers.image.ref.name"]
            subprocess.run(["umoci", "unpack", "--image", f"{self.layout}:{tag}", bundle], check=True, capture_output=True)
            bundle.chmod(0o755)
            return bundle / "rootfs"
        root = self.room / "rootfs"
        with gzip.open(self.layout / "blobs/sha256" / self.manifest["layers"][0]["digest"].removeprefix("sha256:")) as layer:
            with tarfile.open(fileobj=layer) as tar:
                tar.extractall(root, filter="fully_trusted")
        return root


def blobs_are_named(image):
    named = [image.index["manifests"][0], image.manifest["config"], *image.manifest["layers"]]
    return all(hashlib.sha256(content := image.blob(one)).hexdigest() == one["digest"].removeprefix("sha256:") and len(content) == one["size"]
               for one in named) and len(list((image.layout / "blobs/sha256").iterdir())) == len(named)


def made(image):
    other = image.make("another folder", ["taskset", "1", "sh", "-c", 'umask 077 && exec "$0" "$@"'], TZ="Asia/Kathmandu", LC_ALL="C")
    tars = [next(path.parent.glob("*.oci.tar")) for path in (image.layout, other)]
    check(tars[0].read_bytes() == tars[1].read_bytes(), "two runs give the same bytes")
    layer = gzip.decompress(image.blob(image.manifest["layers"][0]))
    said = image.config["rootfs"]["diff_ids"] == [f"sha256:{hashlib.sha256(layer).hexdigest()}"]
    check(blobs_are_named(image) and said, "the layout is what its digests say")
    run = image.config["config"]
    check(run["User"] == f"{USER}:{USER}" and run["Entrypoint"] == ["/usr/bin/tini", "--"] and run["StopSignal"] == "SIGTERM" and
          run["Labels"]["org.opencontainers.image.title"] == "fedbundle", "its user, its entry, its signal and its labels")
    names = {path.name: path for path in image.root.rglob("*") if path.is_file()}
    check(not names.keys() & {"sh", "bash", "dash", "busybox", "perl"}, "there is no shell")
    gains = [name for name, path in names.items() if path.stat().st_mode & (stat.S_ISUID | stat.S_ISGID)]
    check(not gains, f"no program gains rights {gains or ''}")
    programs = {path.name for path in (image.root / "usr/bin").iterdir()}
    check({"fedbundle", "fedbundle-fetch", "fedbundle-spire", "fedbundle-every", "fedbundle-import"} <= programs, f"the programs: {' '.join(sorted(programs))}")


# ---- containers

class Container:
    """A container of the image under bwrap, with the arguments that are given, or those of the
    image."""

    def __init__(self, image, room, words=None, entry=None, config=TOP / "examples/config.json"):
        self.image, self.room = image, room
        (room / "config").mkdir(parents=True, exist_ok=True)
        shutil.copy(config, room / "config/config.json")
        (room / "config/config.json").chmod(0o644)
        for part in ("state", "run"):
            (room / part).mkdir(exist_ok=True)
            os.chown(room / part, USER, USER)
        run = image.config["config"]
        self.begin_state()
        self.words = [*(run["Entrypoint"] if entry is None else entry), *(words or run["Cmd"])]
        self.began = subprocess.Popen(self.enter(self.words), stdin=subprocess.DEVNULL, stdout=subprocess.PIPE, stderr=subprocess.STDOUT)

    def begin_state(self):
        """A state that holds nothing, if there is none: without one the replica of the image does not start."""
        words = ["--config", "/etc/fedbundle/config/config.json", "--state", "/var/lib/fedbundle/state"]
        if not (self.room / "state/state").exists():
            check(self.run("fedbundle", "replica", *words, "--socket", "/run/fedbundle/no").returncode == 1, "a replica without a state ends")
            check(self.run("fedbundle", "new", *words).returncode == 0, "`fedbundle new` writes the state of a container")

    def enter(self, words):
        places = [("--ro-bind", "config", "/etc/fedbundle/config"), ("--bind", "state", "/var/lib/fedbundle"), ("--bind", "run", "/run/fedbundle")]
        binds = [word for kind, part, at in places for word in (kind, str(self.room / part), at)]
        # The folders of volumes are in a container's own root.
        root = ["--ro-bind", self.image.root, "/"]
        spaces = ["--unshare-pid", "--unshare-ipc", "--unshare-uts", "--as-pid-1", "--die-with-parent", "--cap-drop", "ALL"]
        environment = [word for text in self.image.config["config"]["Env"] for word in ("--setenv", *text.split("=", 1))]
        user = ["setpriv", f"--reuid={USER}", f"--regid={USER}", "--clear-groups", "--no-new-privs"]
        return [*user, "bwrap", "--unshare-user", *root, *binds, "--proc", "/proc", "--dev", "/dev", *spaces, "--clearenv", *environment,
                "--chdir", "/var/lib/fedbundle", *words]

    def first(self):
        """The container's first process, as this machine numbers it."""
        end = time.monotonic() + 300
        while time.monotonic() < end:
            found = Path(f"/proc/{self.began.pid}/task/{self.began.pid}/children").read_text().split()
            if found and Path(f"/proc/{found[0]}/comm").read_text() != "bwrap\n":
                return int(found[0])
            time.sleep(0.01)
        return sys.exit("image: bwrap started nothing")

    def run(self, *words):
        """Runs a command of the image next to it, with the same volumes."""
        return subprocess.run(self.enter(list(words)), capture_output=True, text=True, timeout=600, stdin=subprocess.DEVNULL)

    def ready(self):
        line = self.began.stdout.readline().decode()
        if not line.startswith("ready "):
            sys.exit(f"image: no container begins: {line}{self.began.stdout.read(500).decode()}")

    def end(self, number=signal.SIGTERM, most=10.0):
        """The seconds that it goes on after a signal, or None."""
        began = time.monotonic()
        os.kill(self.first(), number)
        try:
            self.began.wait(most)
        except subprocess.TimeoutExpired:
            return None
        return time.monotonic() - began

    def close(self):
        self.began.kill()
        self.began.wait()


def ask(container, *words, given=b""):
    """Asks the replica of a container from outside, by the program of the image."""
    return subprocess.run([container.image.root / "usr/bin/fedbundle", *words, "--at", container.room / "run/socket"], input=given,
                          capture_output=True, timeout=600)


def runs(image):
    room, tests = image.room / "runs", module_of(TOP / "tests/fetch.py")
    (room / "keys").mkdir(parents=True)
    maker = tests.Maker(room / "keys")
    authority, later = maker.authority(), maker.authority()
    server = tests.serve(maker.leaf(authority), tests.serves(tests.bundle(2, authority, later)))
    relationship = {"domain": "b.test", "endpoint": tests.ENDPOINT, "profile": "https_spiffe", "url": f"https://127.0.0.1:{server.server_address[1]}/b"}
    config = room / "config.json"
    config.write_text(json.dumps({"relationships": [relationship], "seeds": [{"domain": "b.test", "bundle": tests.bundle(1, authority)}]}))
    container = Container(image, room / "one", config=config)
    try:
        container.ready()
        said = container.run("fedbundle", "polls", "--at", "/run/fedbundle/socket", "--now", "0")
        check((said.returncode, said.stdout) == (0, "b.test due\n"), "the replica answers in its container")
        files = ["--config", "/etc/fedbundle/config/config.json", "--state", "/var/lib/fedbundle/state", "--at", "/run/fedbundle/socket"]
        said = container.run("fedbundle-fetch", *files)
        check(said.returncode == 0 and "observed sequence 2 under key" in said.stderr, f"the fetcher took a bundle over TLS: {said.stderr.strip()}")
        stand_in = room / "one/state/spire-server"
        stand_in.write_text((TOP / "tests/lib/spire-server").read_text().replace("/usr/bin/env python3", "/usr/bin/python3", 1))
        stand_in.chmod(0o755)
        container.run("/var/lib/fedbundle/spire-server", "init", "-socketPath", "/run/fedbundle/spire", "own.test")
        said = container.run("fedbundle-spire", *files, "--spire", "/var/lib/fedbundle/spire-server", "--socket", "/run/fedbundle/spire")
        check(said.returncode == 0 and "b.test: given, sequence 2" in said.stderr, f"the pusher gave it to the stand-in: {said.stderr.strip()}")
        said = container.run("stunnel4", "-version")
        check("stunnel 5." in said.stderr + said.stdout, f"stunnel starts in the image: {(said.stderr + said.stdout).splitlines()[:1]}")
    finally:
        container.close()
        server.shutdown()


class Load:
    """Clients that make records of distrust, each with a key of its own, and note what was acknowledged."""

    def __init__(self, container, number):
        self.container, self.noted, self.ended = container, [], threading.Event()
        self.threads = [threading.Thread(target=self.go, args=(number, one)) for one in range(4)]
        for one in self.threads:
            one.start()

    def go(self, number, one):
        count = 0
        while not self.ended.is_set():
            key = hashlib.sha256(f"{number} {one} {count}".encode()).hexdigest()
            if ask(self.container, "distrust", "--domain", "a.example", "--key", key, "--unknown-key").returncode == 0:
                self.noted.append(key)
            count += 1

    def stop(self):
        self.ended.set()
        for one in self.threads:
            one.join()
        return self.noted


def ends(image):
    room, noted, slowest = image.room / "ends", [], 0.0
    for number in range(ROUNDS):
        container = Container(image, room)
        try:
            container.ready()
            load = Load(container, number)
            time.sleep(0.2 + 0.02 * number)
            took = container.end()
            noted += load.stop()
            slowest = max(slowest, took or 99)
        finally:
            container.close()
    container = Container(image, room)
    try:
        container.ready()
        held = ask(container, "report").stdout.decode()
        lost = [key for key in noted if key not in held]
        check(noted and not lost, f"of {len(noted)} records that were acknowledged {len(lost)} are lost")
        check(slowest < 1, f"after SIGTERM the slowest of {ROUNDS} containers was gone in {slowest:.2f} s")
    finally:
        container.close()
    empty = Container(image, image.room / "empty")
    try:
        empty.ready()
        held = ask(empty, "report").stdout.decode()
        check(all(key not in held for key in noted), "in an empty state all of them would be found lost")
    finally:
        empty.close()
    alone = Container(image, room, entry=[])
    try:
        alone.ready()
        check(alone.end(most=2) is None, "without tini the first process ignores SIGTERM")
    finally:
        alone.close()


def crun(image):
    if not shutil.which("crun") or not shutil.which("umoci"):
        raise Lacking("there is no crun or no umoci")
    bundle = image.room / "bundle"
    config = json.loads((bundle / "config.json").read_text())
    config["process"]["terminal"] = False
    config["process"]["args"] = [*image.config["config"]["Entrypoint"], "fedbundle", "--version"]
    (bundle / "config.json").write_text(json.dumps(config))
    ran = subprocess.run(["crun", "--root", image.room / "crun", "--cgroup-manager=disabled", "run", "--bundle", bundle, f"fedbundle-{os.getpid()}"],
                         capture_output=True, text=True, timeout=600, stdin=subprocess.DEVNULL)
    if ran.returncode and "cgroup" in ran.stderr:
        raise Lacking(f"crun runs nothing here: {ran.stderr.strip()}")
    check(ran.returncode == 0 and ran.stdout.startswith("fedbundle "), f"crun runs it: {(ran.stdout or ran.stderr).splitlines()[:1]}")


PARTS = {"made": made, "runs": runs, "ends": ends, "crun": crun}


def main():
    tried = ["bwrap", "--ro-bind", "/", "/", "--unshare-user", "--unshare-pid", "true"]
    require(__file__)
    if subprocess.run(tried, capture_output=True).returncode:
        sys.exit("image: bwrap makes no name spaces here")
    with tempfile.TemporaryDirectory() as folder:
        os.chmod(folder, 0o755)
        try:
            image = Image(Path(folder))
        except Lacking as lack:
            sys.exit(f"image: {lack}")
        for name, part in PARTS.items():
            if not sys.argv[1:] or name in sys.argv[1:]:
                began = time.monotonic()
                try:
                    part(image)
                except Lacking as lack:
                    left_out(name, lack)
                print(f"-- {name}: {time.monotonic() - began:.0f} s", flush=True)
    print(f"{reported} things are not so")
    return 1 if reported else 0


if __name__ == "__main__":
    sys.exit(main())

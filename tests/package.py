#!/usr/bin/env python3
"""Makes the Debian packages by tools/package.py, and installs, upgrades, removes and purges them.

- made: two runs, in other folders and under another umask, time zone and number of processors, give the same bytes; an
  archive with a changed byte is refused. Each file of the archive is in one of the packages, with the bytes that it had, or
  those that the head of tools/package.py names.
- lintian: it finds no error. What it warns of is printed.
- pages: a package of the texts and scripts that are here has the pages, so that the links of the operator's pages to others
  lead somewhere, and the file of options as a conffile.
- life: in a copy of this machine in which systemd runs, a package of an earlier number is installed, the replica, the
  fetcher and its timer are started, and a bundle is observed. An upgrade starts the replica again with the new program, and
  it reports the same; of one that is stopped the files stay, byte for byte. Options are changed and a package is rolled back
  as docs/INSTALL.md and docs/OPERATING.md say. After `remove` nothing runs and the state is there; `purge` names what it removes. The earlier
  package has the released files, and a byte more at the end of its program; the later one has the texts, scripts and units
  that are here, with the released program.
- library: a program in C is compiled in the copy by what pkg-config says, with the shared and with the static library.

tests/first_day.py installs the package too, and follows the page with it.

It needs python3 and dpkg-deb; lintian; root, overlayfs, cgroup2 and systemd; cc and pkg-config. What is not there
leaves out a part, as a line says. $FEDBUNDLE_ROOT names a root of Debian 12, as debootstrap makes one, in the place of this
machine's. Nothing is installed on the machine itself, and no network is used.

usage: package [PART..]     runs these parts, or all; the status is 1 if something is not so
"""
import hashlib
import io
import json
import lzma
import os
import re
import shlex
import shutil
import subprocess
import sys
import tarfile
import time
from importlib.machinery import SourceFileLoader
from importlib.util import module_from_spec, spec_from_loader
from pathlib import Path
from types import SimpleNamespace

sys.dont_write_bytecode = True
sys.path.insert(0, str(Path(__file__).resolve().parent / "lib"))
from machine import Booted, Lacking, TOP, in_own_mounts, mount, raise_loopback  # noqa: E402
from needs import has, left_out, require, why_not  # noqa: E402

EARLIER = "0.1.99"
STATE = "/var/lib/fedbundle"
OF_OPERATORS = ["INSTALL", "OPERATING", "RUNBOOKS", "FETCHING", "MONITORING", "KUBERNETES", "REFERENCE"]
AS_USER = "runuser -u fedbundle --"
reported = 0


def check(is_so, what):
    global reported
    print(f"{'ok:      ' if is_so else 'differs: '}{what}", flush=True)
    reported += not is_so


def tool_of(name):
    """A script of tools/ as a module."""
    loader = SourceFileLoader(name, str(TOP / "tools" / f"{name}.py"))
    module = module_from_spec(spec_from_loader(name, loader))
    loader.exec_module(module)
    return module


def packages_of(folder, archive=None, words=(), **environment):
    """Runs tools/package.py, and returns its packages, by their names, or what it said."""
    ran = subprocess.run([*words, TOP / "tools/package.py", folder, *([archive] if archive else [])], capture_output=True, text=True,
                         env={**os.environ, **environment})
    return {path.name.split("_")[0]: path for path in folder.glob("*.deb")} if ran.returncode == 0 else ran.stderr


# ---- the packages as files

def archive_like(folder, change):
    """An archive like the released one, after a change of its members, with its sums next to it."""
    tool, made = tool_of("package"), io.BytesIO()
    with tarfile.open(tool.ARCHIVE, mode="r:xz") as old, tarfile.open(fileobj=made, mode="w") as new:
        for entry in old:
            content = old.extractfile(entry).read() if entry.isreg() else b""
            content = change(entry.name, content)
            entry.size = len(content)
            new.addfile(entry, io.BytesIO(content))
    return archive_with_sums(folder, lzma.compress(made.getvalue(), preset=0))


def archive_with_sums(folder, content):
    """Writes an archive, with its sums next to it."""
    folder.mkdir(parents=True)
    path = folder / tool_of("package").ARCHIVE.name
    path.write_bytes(content)
    (folder / "SHA256SUMS").write_text(f"{hashlib.sha256(content).hexdigest()}  {path.name}\n")
    return path


def archive_here(folder):
    """An archive with the released programs and libraries, and the texts, scripts and units that are here."""
    release, package = tool_of("release"), tool_of("package")
    # As fast as can be.
    release.lzma = SimpleNamespace(compress=lambda content, preset: lzma.compress(content, preset=0), PRESET_EXTREME=0)
    files, _ = package.read_archive(package.ARCHIVE)
    return archive_with_sums(folder, release.archive_of({**{place: files[place] for place in release.COMPILED}, **release.plain_files()}))


def files_of(package):
    """What dpkg unpacks of a package, by its path: the content and the mode of a file, the target of a link."""
    data = subprocess.run(["dpkg-deb", "--fsys-tarfile", package], capture_output=True, check=True).stdout
    with tarfile.open(fileobj=io.BytesIO(data)) as tar:
        found = {entry.name[2:]: entry for entry in tar if not entry.isdir()}
        return {name: (tar.extractfile(entry).read(), entry.mode) if entry.isreg() else entry.linkname for name, entry in found.items()}


def lost(packages):
    """The files of the archive that no package has as they were, less those that change as tools/package.py says."""
    tool = tool_of("package")
    files, links = tool.read_archive(tool.ARCHIVE)
    there = {name: files_of(path) for name, path in packages.items()}
    for place, (content, mode) in files.items():
        if place in tool.LEFT_OUT:
            continue
        package, path = tool.target_of(place)
        seen = there[package].get(path) or there[package].get(f"{path}.gz")
        wanted = tool.packed(content) if f"{path}.gz" in there[package] else content
        rewritten = place.startswith("lib/systemd") or place.endswith(".pc") or content.startswith(b"#!")
        if not seen or (seen[0] != wanted and not rewritten) or b"/usr/local/bin/fedbundle" in seen[0]:
            yield place
        elif place.startswith("bin/") and seen[1] != 0o755:
            yield f"{place}, with mode {seen[1]:o}"
    yield from (place for place in links if tool.target_of(place)[1] not in there[tool.target_of(place)[0]])


def made(room):
    first = packages_of(room / "first")
    check(set(first) == {"fedbundle", "libfedbundle-dev"}, f"two packages: {sorted(path.name for path in first.values())}")
    others = packages_of(room / "another folder", None, ["taskset", "1", "sh", "-c", 'umask 077 && exec "$0" "$@"'],
                         TZ="Asia/Kathmandu", LC_ALL="C", HOME="/nonexistent")
    check(all(first[name].read_bytes() == others[name].read_bytes() for name in first), "two runs give the same bytes")
    other = packages_of(room / "another time", None, SOURCE_DATE_EPOCH="1700000000")
    check(all(first[name].read_bytes() != other[name].read_bytes() for name in first), "with another $SOURCE_DATE_EPOCH other bytes")
    (room / "falsified").mkdir()
    for name in (tool_of("package").ARCHIVE.name, "SHA256SUMS"):
        shutil.copy(TOP / "dist" / name, room / "falsified" / name)
    archive = room / "falsified" / tool_of("package").ARCHIVE.name
    content = bytearray(archive.read_bytes())
    content[len(content) // 2] ^= 1
    archive.write_bytes(content)
    said = packages_of(room / "none", archive)
    check("SHA256SUMS" in said and not list((room / "none").glob("*")), f"an archive with another byte is refused: {str(said).strip()}")
    missing = list(lost(first))
    check(not missing, f"each file of the archive is in a package {missing or ''}")
    worse = archive_like(room / "worse", lambda name, content: content + b"#" if name.endswith("fedbundle.h") else content)
    found = list(lost(packages_of(room / "worse packages", worse)))
    check(found == ["include/fedbundle.h"], f"of an archive with another header that is found: {found}")


def pages(room):
    package = packages_of(room / "packages", archive_here(room / "archive"))["fedbundle"]
    there, folder = files_of(package), "usr/share/doc/fedbundle"
    wanted = {f"{folder}/docs/{name}.md" for name in OF_OPERATORS}
    check({*wanted, f"{folder}/docs/page.png", f"{folder}/README.md"} <= set(there), "the package has the operator's pages and a picture of the page of health")
    text = "".join(there[name][0].decode() for name in wanted & set(there))
    links = re.findall(r"\]\(([^)#:]+\.(?:md|png|svg))[#)]", text)
    lost = [link for link in links if os.path.normpath(f"{folder}/docs/{link}") not in there]
    check(links and not lost, f"each of its {len(links)} links to a page or a picture leads to one of the package {lost or ''}")
    control = subprocess.run(["dpkg-deb", "--info", package, "conffiles"], capture_output=True, text=True).stdout
    check(control == "/etc/default/fedbundle\n", f"the options are a conffile: {control.strip()}")
    default = there.get("etc/default/fedbundle", (b"", 0))[0]
    check(default == (TOP / "deploy/fedbundle.default").read_bytes(), "with the text that is here")


def lintian(room):
    if not has("lintian"):
        raise Lacking(why_not("lintian"))
    packages = packages_of(room / "packages", archive_here(room / "archive"))
    ran = subprocess.run(["lintian", "--fail-on", "error", *packages.values()], capture_output=True, text=True)
    print("".join(f"  {line}\n" for line in ran.stdout.splitlines()), end="")
    check(ran.returncode == 0, "lintian finds no error")


# ---- a machine

def earlier(room):
    """The package of an earlier number, whose program has a byte more."""
    def change(name, content):
        if name.endswith("fedbundle.pc"):
            return re.sub(rb"^Version: .*$", f"Version: {EARLIER}".encode(), content, flags=re.M)
        return content + b"\0" if name == "fedbundle/bin/fedbundle" else content
    return packages_of(room / "earlier packages", archive_like(room / "earlier", change), SOURCE_DATE_EPOCH="1700000000")["fedbundle"]


def install(machine, package):
    """By dpkg, which refuses a package whose dependencies are not there, as apt-get does, and is quicker."""
    return machine.run(f"dpkg --install {shlex.quote(str(package))}")


def property_of(machine, unit, name):
    return machine.run(f"systemctl show --property={name} --value {unit}", quiet=True).strip()


def program_of(machine, pid):
    return machine.run(f"sha256sum </proc/{pid}/exe", quiet=True).split()[0]


def observe(machine):
    """The replica observes the bundle of the first receipt of the examples, and its journal gets a receipt: the second time
    the bundle vouches for itself."""
    receipt = (TOP / "examples/receipts.jsonl").read_bytes().splitlines()[0]
    said = json.loads(receipt)
    document = re.sub(rb'^\{"doc":(.*),"domain":"[^"]*","endpoint":.*$', rb"\1", receipt).decode()
    words = f"--domain {said['domain']} --endpoint {said['endpoint']} --key {said['key']}"
    ran = machine.attempt(f"{AS_USER} fedbundle observe --at /run/fedbundle/socket {words}", stdin=None, input=document)
    check(ran.returncode == 0, f"the replica observed a bundle of {said['domain']} {ran.stderr.strip()}")


def report(machine):
    return machine.run(f"{AS_USER} fedbundle report --at /run/fedbundle/socket", quiet=True)


def sums(machine):
    return machine.run(f"cd {STATE} && find . -type f | sort | xargs sha256sum", quiet=True)


def begin(machine, package):
    """The first installation: nothing runs, until somebody starts it."""
    install(machine, package)
    check(machine.run("stat -c '%a %U %G' " + STATE, quiet=True) == "710 fedbundle fedbundle\n", f"{STATE} is there, and its group may enter")
    states = [property_of(machine, unit, "ActiveState") for unit in ("fedbundle-replica.service", "fedbundle-fetch.timer")]
    check(states == ["inactive"] * 2, "nothing runs after the first installation")
    machine.run(f"install -o fedbundle -g fedbundle -m 640 examples/config.json {STATE}/config.json")
    machine.run(f"{AS_USER} fedbundle new --config {STATE}/config.json --state {STATE}/state")
    machine.run("systemctl enable --now fedbundle-replica.service fedbundle-fetch.timer fedbundle-watch.timer")
    until(lambda: property_of(machine, "fedbundle-replica.service", "ActiveState") == "active", "the replica's unit is active")
    until(lambda: not machine.attempt(f"{AS_USER} fedbundle status --at /run/fedbundle/socket").stderr, "the replica answers")
    # The endpoints of the examples are not there: that the fetcher says so is all that is wanted.
    ran = machine.attempt("systemctl start fedbundle-fetch.service; journalctl --output=cat --unit=fedbundle-fetch.service")
    check("a.example: failed: " in ran.stdout, "systemd starts the fetcher, which asks the replica")


def until(right, what):
    end = time.monotonic() + 300
    while not (seen := right()) and time.monotonic() < end:
        time.sleep(0.1)
    check(bool(seen), what)


def upgrade(machine, package):
    observe(machine)
    before, pid = report(machine), property_of(machine, "fedbundle-replica.service", "MainPID")
    machine.run(f"{AS_USER} mkdir {STATE}/state.spire; {AS_USER} touch {STATE}/state.spire/a.example.json")
    install(machine, package)
    moved = machine.run("stat -c '%U' /var/lib/fedbundle-spire/given/a.example.json", quiet=True)
    check(moved == "fedbundle-spire\n", "what the pusher gave is its new user's")
    until(lambda: property_of(machine, "fedbundle-replica.service", "MainPID") not in ("0", pid), "an upgrade starts the replica again")
    later = property_of(machine, "fedbundle-replica.service", "MainPID")
    wanted = hashlib.sha256(files_of(package)["usr/bin/fedbundle"][0]).hexdigest()
    check(program_of(machine, later) == wanted, "it is the new program that runs")
    until(lambda: not machine.attempt(f"{AS_USER} fedbundle status --at /run/fedbundle/socket").stderr, "it answers")
    check(report(machine) == before and "receipts 1 " in before, "it reports what was held before")
    check(property_of(machine, "fedbundle-fetch.timer", "ActiveState") == "active", "the timer is active")


def section_blocks(kind, page, title):
    """The blocks of this kind below a title of a page."""
    text = (TOP / "docs" / page).read_text().split(f"\n{title}\n")[1].split("\n## ")[0].split("\n### ")[0]
    return re.findall(rf"^```{kind}\n(.*?)^```", text, re.M | re.S)


def options(machine, package):
    """Options are changed as INSTALL says, and no upgrade takes the change back."""
    line = section_blocks("ini", "INSTALL.md", "## 4. Options")[0]
    machine.run(f"printf %s {shlex.quote(line)} >/etc/default/fedbundle", quiet=True)
    before = property_of(machine, "fedbundle-replica.service", "MainPID")
    ran = machine.attempt("systemctl reload fedbundle-replica.service")
    check(ran.returncode == 0, f"a reload ends well {ran.stderr.strip()}")
    pid = property_of(machine, "fedbundle-replica.service", "MainPID")
    words = machine.attempt(f"tr '\\0' ' ' </proc/{pid}/cmdline").stdout
    check(pid not in ("0", before) and words.startswith("/usr/bin/fedbundle replica "), f"and a new replica of the package runs: {words[:26]}")
    told = machine.attempt("curl -sf http://127.0.0.1:9463/live").stdout
    check(told == "live\n", f"health answers at the address of the page {told.strip()}")
    install(machine, package)
    kept = machine.run("cat /etc/default/fedbundle", quiet=True)
    check(kept == line, "an upgrade leaves the options")
    wants = machine.attempt("readlink /etc/systemd/system/fedbundle-replica.service.wants/fedbundle-watch.timer").stdout.strip()
    check(wants.endswith("/fedbundle-watch.timer"), "the watch that was enabled before begins with the replica")
    until(lambda: not machine.attempt(f"{AS_USER} fedbundle status --at /run/fedbundle/socket").stderr, "the replica answers")


def rolled_back(machine, old, new):
    """The commands of the page for a rollback by package."""
    before, lines = report(machine), section_blocks("sh", "OPERATING.md", "## Go back to an earlier release")[0].splitlines()
    for line in lines:
        machine.run(f"cd {shlex.quote(str(old.parent))} && {line.replace('VERSION', EARLIER)}")
    version = machine.run("dpkg-query --show --showformat '${Version}' fedbundle", quiet=True)
    check(version == EARLIER, f"the package is {version} again")
    pid = property_of(machine, "fedbundle-replica.service", "MainPID")
    wanted = hashlib.sha256(files_of(old)["usr/bin/fedbundle"][0]).hexdigest()
    check(program_of(machine, pid) == wanted, "the earlier program runs")
    until(lambda: not machine.attempt(f"{AS_USER} fedbundle status --at /run/fedbundle/socket").stderr, "it answers")
    check(report(machine) == before, "it reports what was held before")
    install(machine, new)


def stopped(machine, old, new):
    """An upgrade of a replica that is stopped, with a journal that has a receipt."""
    observe(machine)
    machine.run("systemctl stop fedbundle-replica.service fedbundle-fetch.timer fedbundle-watch.timer")
    before = sums(machine)
    for package in (old, new):
        install(machine, package)
    check(sums(machine) == before and "state.journal" in before, "the files of a replica that is stopped stay, byte for byte")
    check(property_of(machine, "fedbundle-replica.service", "ActiveState") == "inactive", "an upgrade starts nothing that was stopped")


def remove(machine):
    machine.run("systemctl start fedbundle-replica.service fedbundle-fetch.timer")
    until(lambda: property_of(machine, "fedbundle-replica.service", "ActiveState") == "active", "the replica runs")
    machine.run("dpkg --remove fedbundle")
    check(machine.attempt("pgrep --exact fedbundle").returncode == 1, "after remove nothing runs")
    check(machine.attempt("command -v fedbundle fedbundle-fetch").returncode != 0, "and the programs are gone")
    check(machine.attempt("test -e /usr/lib/fedbundle").returncode == 1, "with the folder of the scripts")
    names = machine.run(f"ls {STATE}", quiet=True).split()
    check({"config.json", "state", "state.journal"} <= set(names), f"remove leaves {' '.join(names)}")


def purge(machine):
    said = machine.run("dpkg --purge fedbundle")
    named = [f"  {STATE}/{name}\n" for name in ("config.json", "state", "state.journal")]
    check(all(line in said for line in named) and "fedbundle-replica.service" in said, "purge says what it removes:")
    print("".join(f"  {line}\n" for line in said.splitlines() if line.startswith(("fedbundle:", "  /"))), end="")
    check(machine.attempt(f"test -e {STATE}").returncode == 1, "after purge there is no state")
    left = machine.run("find /etc/systemd /lib/systemd -name 'fedbundle*'", quiet=True)
    check(not left, f"and no unit {left}")
    install_again = machine.attempt("dpkg --status fedbundle").returncode
    check(install_again != 0, "dpkg knows the package no longer")


def life(room):
    old, new = earlier(room), packages_of(room / "packages", archive_here(room / "archive"))["fedbundle"]
    machine = Booted(room / "machine", "one", os.environ.get("FEDBUNDLE_ROOT", "/"))
    try:
        # The manual's index would be rebuilt at each installation, which takes half a minute.
        machine.run("rm -f /var/lib/man-db/auto-update", quiet=True)
        for path in (old, new, TOP / "examples/config.json"):
            at = machine.root / str(path)[1:]
            at.parent.mkdir(parents=True, exist_ok=True)
            shutil.copy(path, at)
        print(machine.run("systemctl --version | head -n 1; cat /etc/debian_version", quiet=True).replace("\n", ", Debian ", 1), end="")
        begin(machine, old)
        upgrade(machine, new)
        options(machine, new)
        rolled_back(machine, old, new)
        stopped(machine, old, new)
        remove(machine)
        purge(machine)
    finally:
        machine.close()


def library(room):
    package = packages_of(room / "packages")["libfedbundle-dev"]
    machine = Booted(room / "compiling", "two", os.environ.get("FEDBUNDLE_ROOT", "/"))
    try:
        if machine.attempt("command -v cc && command -v pkg-config").returncode:
            raise Lacking("cc or pkg-config is not in the copy of the machine")
        for path in (package, *sorted((TOP / "bindings/c").iterdir())):
            (machine.root / str(path)[1:]).parent.mkdir(parents=True, exist_ok=True)
            if path.is_file():
                shutil.copy(path, machine.root / str(path)[1:])
        install(machine, package)
        source = TOP / "bindings/c/report.c"
        wanted = subprocess.run([TOP / "fedbundle", "report", "--config", TOP / "examples/config.json"], capture_output=True, text=True,
                                input=(TOP / "examples/receipts.jsonl").read_text()).stdout
        for kind, flags in (("shared", "$(pkg-config --libs fedbundle)"), ("static", "-l:libfedbundle.a")):
            machine.run(f"cc $(pkg-config --cflags fedbundle) {source} {flags} -o /tmp/example", quiet=True)
            linked = "libfedbundle.so.0" in machine.run("ldd /tmp/example", quiet=True)
            printed = machine.attempt("/tmp/example examples/config.json examples/receipts.jsonl").stdout
            check(linked == (kind == "shared") and printed == wanted != "", f"a program with the {kind} library prints the report of the examples")
    finally:
        machine.close()


PARTS = {"made": made, "pages": pages, "lintian": lintian, "life": life, "library": library}


def main():
    words = sys.argv[1:]
    if words[:1] != ["inside"]:
        require(__file__)
        sys.exit(in_own_mounts(__file__, words))
    folder = Path(words[1])
    mount("tmpfs", "mode=755", folder)
    raise_loopback()
    for name, part in PARTS.items():
        if not words[2:] or name in words[2:]:
            began = time.monotonic()
            room = folder / name
            room.mkdir()
            try:
                part(room)
            except Lacking as lack:
                left_out(name, lack)
            print(f"-- {name}: {time.monotonic() - began:.0f} s", flush=True)
    print(f"{reported} things are not so")
    sys.exit(1 if reported else 0)


if __name__ == "__main__":
    main()

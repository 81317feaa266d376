#!/usr/bin/env python3
"""Checks that dist/ is the release that it has to be, and what ./fedbundle does with it.

CHANGELOG.md says which commit is a release: there its first section is a version with its day, and on each other commit since
then it is `Unreleased`.

- On each commit the files of dist/ are those that SHA256SUMS names; what was compiled has the length and the SHA-256 that
  MANIFEST names; MANIFEST's version is that of the sources and of the newest release in CHANGELOG.md, both here and in
  the archive, in which that section is the first. If git has the history, the last commit that changed dist/ is a release.
- On a release, dist/ is also that of the sources: MANIFEST has their digests, the bill of materials has what SPDX 2.3 requires and
  the toolchain's crates, and each other file of the archive is the one of the tree. With PROGRAM, which the gate built of these sources: under the kit that MANIFEST names it equals the released
  program; under another kit a line says so, and nothing is compared.
- Copies of the tree, one that is a release of its sources and one with a section Unreleased, are falsified in one thing at a
  time, and each fault is found; a changed source is one only on a release.
- SHA256SUMS is signed with minisign and with gpg, as far as they are there. The scripts of an archive of the tree run below
  any prefix.
- In copies, `./fedbundle` runs a fresh build, else the released program, with a line if a source changed, also if the user may
  not write there, and `rt` is never called. Where it cannot, it says why in a line. `--which` prints a program of these sources
  alone. `--prove` says what it wants of the machine; what it started ends with it, and what was proved stays.

usage: release [PROGRAM]      the status is 1 if something is not so
"""
import contextlib
import io
import json
import lzma
import os
import re
import shutil
import subprocess
import sys
import tarfile
import tempfile
import time
from importlib.machinery import SourceFileLoader
from importlib.util import module_from_spec, spec_from_loader
from pathlib import Path
from types import SimpleNamespace

sys.dont_write_bytecode = True
TOP = Path(__file__).resolve().parent.parent
sys.path.insert(0, str(TOP / "tests/lib"))
from needs import can  # noqa: E402
# What the checks and the launcher read.
READ = ["fedbundle", "tools", "crates.txt", "HANDLES", "crates", "dist", "deploy", "completions", "include", "LICENSE",
        "CHANGELOG.md", "README.md", "SECURITY.md", "docs", "bench/RESULTS.md"]
UNRELEASED = "Unreleased"
SOURCE = "crates/spiffe_name/src/lib.rt"
VERSION_SOURCE = "crates/command_line/src/help_texts.rt"
reported = 0


def check(is_so, what):
    global reported
    print(f"{'ok:      ' if is_so else 'differs: '}{what}")
    reported += not is_so


def tool_of(top):
    """tools/release.py, with its functions over that tree."""
    loader = SourceFileLoader("release", str(TOP / "tools/release.py"))
    module = module_from_spec(spec_from_loader("release", loader))
    loader.exec_module(module)
    module.TOP, module.DIST = top, top / "dist"
    return module


# ---- the checks

def manifest_of(tool):
    """The lines of MANIFEST by their first words, and its files by their paths."""
    found, files = {}, {}
    for line in (tool.DIST / "MANIFEST").read_text().splitlines():
        key, _, value = line.partition(" ")
        if key == "file":
            size, digest, path = value.split(" ", 2)
            files[path] = int(size), digest
        else:
            found[key] = value
    return found, files


def members_of(tool):
    """The content and the mode of each file of the archive, and the targets of its links."""
    files, links = {}, {}
    with tarfile.open(fileobj=io.BytesIO((tool.DIST / tool.ARCHIVE).read_bytes()), mode="r:xz") as tar:
        for entry in tar:
            if entry.issym():
                links[entry.name] = entry.linkname
            else:
                files[entry.name] = tar.extractfile(entry).read(), entry.mode
    return files, links


def is_release(tool):
    return tool.sections()[0] != UNRELEASED


def faults_of_sums(tool):
    lines = (tool.DIST / "SHA256SUMS").read_text().splitlines()
    sums = dict(reversed(line.split("  ", 1)) for line in lines)
    there = {path.name for path in tool.DIST.iterdir()} - {tool.SUMS, *tool.SIGNATURES}
    if sums.keys() != there:
        yield f"SHA256SUMS names {sorted(sums)}, and dist/ has {sorted(there)}"
    for name in sums.keys() & there:
        if tool.sha256((tool.DIST / name).read_bytes()) != sums[name]:
            yield f"{name} has not the sum that SHA256SUMS names"


def faults_of_version(tool, said, files):
    """What keeps dist/ from being the newest release that CHANGELOG.md names."""
    newest = next(title for title in tool.sections() if title != UNRELEASED)
    if not tool.is_version_with_day(newest):
        yield f"CHANGELOG.md has '{newest}' as the newest release, and the sources have the version {tool.version()}"
    if said["release"] != tool.version():
        yield f"dist/ is the release {said['release']}, and the sources have the version {tool.version()}"
    packed = files[f"{tool.ROOT}share/doc/fedbundle/CHANGELOG.md"][0].decode()
    if tool.sections(packed)[0] != newest:
        yield f"the archive's CHANGELOG.md begins with '{tool.sections(packed)[0]}': only a release makes dist/"


def faults_of_compiled(tool, listed, files):
    if listed.keys() != {tool.ROOT + place for place in tool.COMPILED}:
        yield f"MANIFEST lists other files: {sorted(listed)}"
    for path, (size, digest) in listed.items():
        content = files[path][0]
        if (len(content), tool.sha256(content)) != (size, digest):
            yield f"the archive has another {path} than MANIFEST"


def faults_of_sources(tool, said):
    for kind, name in {"": tool.PROGRAM, "library-": tool.LIBRARY}.items():
        crates = tool.crates_of(name)
        if (said[f"{kind}sources"], said[f"{kind}crates"]) != (tool.digest_of(crates), " ".join(crates)):
            yield f"the {kind}sources are not those of MANIFEST"


def faults_of_bill(tool, said):
    """What keeps the bill of materials from being one of SPDX 2.3, or that of the sources and of MANIFEST."""
    bill = json.loads((tool.DIST / tool.bill.NAME).read_bytes())
    packages = {one["SPDXID"]: one for one in bill["packages"]}
    wanted = {"spdxVersion": "SPDX-2.3", "dataLicense": "CC0-1.0", "SPDXID": "SPDXRef-DOCUMENT", "name": f"fedbundle-{said['release']}"}
    yield from (f"the bill's {name} is {bill.get(name)}" for name, text in wanted.items() if bill.get(name) != text)
    if not re.fullmatch(r"https://[^#\s]+", bill["documentNamespace"]):
        yield f"the bill's namespace is {bill['documentNamespace']}"
    made = bill["creationInfo"]
    if not re.fullmatch(r"\d{4}-\d\d-\d\dT\d\d:\d\d:\d\dZ", made["created"]) or not all(one.startswith("Tool: ") for one in made["creators"]):
        yield f"the bill was made {made}"
    for name, one in packages.items():
        if not re.fullmatch(r"SPDXRef-[A-Za-z0-9.-]+", name) or one["filesAnalyzed"] or not (one["name"] and one["downloadLocation"]):
            yield f"the bill has a package {one}"
    if len(packages) != len(bill["packages"]):
        yield "the bill has an id twice"
    ends = {one[end] for one in bill["relationships"] for end in ("spdxElementId", "relatedSpdxElement")}
    if ends != packages.keys() | {"SPDXRef-DOCUMENT"}:
        yield f"the bill's relations have other ends: {sorted(ends ^ (packages.keys() | {'SPDXRef-DOCUMENT'}))}"
    yield from faults_of_materials(tool, said, bill)


def faults_of_materials(tool, said, bill):
    """What the bill lacks of the sources and of MANIFEST."""
    versions = {one["name"]: one["versionInfo"] for one in bill["packages"]}
    crates = tool.toolchain_crates(tool.PROGRAM) | tool.toolchain_crates(tool.LIBRARY)
    wanted = {**dict.fromkeys(crates, said["kit"]), "compiler": said["compiler"], **dict.fromkeys(["fedbundle", "libfedbundle"], said["release"])}
    if versions != wanted:
        yield f"the bill has other packages: {sorted(versions.items() ^ wanted.items())}"
    for program, name in {"fedbundle": tool.PROGRAM, "libfedbundle": tool.LIBRARY}.items():
        of_program = [one for one in bill["relationships"] if one["spdxElementId"] == tool.bill.spdx_id(program)]
        linked = {one["relatedSpdxElement"] for one in of_program if one["relationshipType"] == "STATIC_LINK"}
        if linked != {tool.bill.spdx_id(crate) for crate in tool.toolchain_crates(name)}:
            yield f"the bill has other crates of {program}: {sorted(linked)}"
        described = {"spdxElementId": "SPDXRef-DOCUMENT", "relationshipType": "DESCRIBES", "relatedSpdxElement": tool.bill.spdx_id(program)}
        if described not in bill["relationships"]:
            yield f"the bill does not describe {program}"
    sums = {one["checksums"][0]["checksumValue"] for one in bill["packages"] if "checksums" in one}
    if sums != {tool.sha256((tool.DIST / tool.ARCHIVE).read_bytes())}:
        yield "the bill has another sum of the archive"


def faults_of_tree(tool, listed, files, links):
    plain = {tool.ROOT + place: file for place, file in tool.plain_files().items()}
    if files.keys() != plain.keys() | listed.keys():
        yield f"the archive has other files: {sorted(files.keys() ^ (plain.keys() | listed.keys()))}"
    if links != {tool.ROOT + place: target for place, target in tool.LINKS.items()}:
        yield f"the archive has other links: {links}"
    for path in plain.keys() & files.keys():
        if files[path] != plain[path]:
            yield f"the archive has another {path} than the tree"


def git(top, *words):
    return subprocess.run(["git", "-c", "safe.directory=*", "-C", top, *words], capture_output=True, text=True, check=True).stdout


def has_history(top):
    """Whether git has each commit that changed dist/."""
    is_there = (top / ".git").exists() and shutil.which("git")
    return is_there and git(top, "rev-parse", "--is-shallow-repository") == "false\n"


def faults_of_history(tool):
    """What changed dist/ since the commit of the release."""
    last = git(tool.TOP, "log", "-1", "--format=%H", "--", "dist").strip()
    if git(tool.TOP, "status", "--porcelain", "--", "dist"):
        yield "dist/ has changes that are not committed"
    if tool.sections(git(tool.TOP, "show", f"{last}:CHANGELOG.md"))[0] == UNRELEASED:
        yield f"the commit {last[:8]} changed dist/, and is no release"


def faults_of_program(tool, said, listed, program):
    if said["kit"] == tool.kit() and tool.sha256(program.read_bytes()) != listed[tool.ROOT + "bin/fedbundle"][1]:
        yield "the program that was built here differs from the released one"


def faults_of(top, program=None):
    """What is wrong with the release of a tree."""
    tool = tool_of(top)
    try:
        (said, listed), (files, links) = manifest_of(tool), members_of(tool)
        faults = [*faults_of_sums(tool), *faults_of_version(tool, said, files), *faults_of_compiled(tool, listed, files)]
        if is_release(tool):
            faults += [*faults_of_sources(tool, said), *faults_of_tree(tool, listed, files, links), *faults_of_bill(tool, said)]
            faults += [*faults_of_program(tool, said, listed, program)] if program else []
        elif has_history(top):
            faults += [*faults_of_history(tool)]
        return faults
    except Exception as why:
        # What is falsified may be unreadable: that is an error too.
        return [f"dist/ is not read: {why!r}"]


# ---- falsified copies

def copy_into(top, source=TOP):
    """A copy of what is read, without what was built."""
    ignored = shutil.ignore_patterns("out", "edits", "must-fail", "stdin", "stdout", "__pycache__")
    for name in READ:
        (top / name).parent.mkdir(parents=True, exist_ok=True)
        shutil.copytree(source / name, top / name, ignore=ignored) if (source / name).is_dir() else shutil.copy2(source / name, top / name)
    return top


def make_dist(top):
    """Makes dist/ as tools/release.py does, with what is compiled already."""
    tool = tool_of(top)
    (said, _), (files, _) = manifest_of(tool), members_of(tool)
    tool.kit, tool.compiler = lambda: said["kit"], lambda: said["compiler"]
    # As fast as can be.
    tool.lzma = SimpleNamespace(compress=lambda content, preset: lzma.compress(content, preset=0), PRESET_EXTREME=0)
    with tempfile.TemporaryDirectory() as folder, contextlib.redirect_stdout(io.StringIO()):
        for place in tool.COMPILED:
            (Path(folder) / place).parent.mkdir(exist_ok=True)
            (Path(folder) / place).write_bytes(files[tool.ROOT + place][0])
        tool.write([Path(folder) / place for place in tool.LEVELS.values()], Path(folder))


def edit(path, old, new):
    path.write_text(path.read_text().replace(old, new, 1))


def make_release(top):
    """Makes a copy the release of its sources: of its tree's version, on the day of the newest release."""
    text = (top / "CHANGELOG.md").read_text()
    (top / "CHANGELOG.md").write_text(text[text.index(f"## {tool_of(top).version()}, "):])
    make_dist(top)
    return top


def begin_unreleased(top):
    text = (top / "CHANGELOG.md").read_text()
    (top / "CHANGELOG.md").write_text(f"## {UNRELEASED}\n\n{text}")


def flip_byte(path):
    content = bytearray(path.read_bytes())
    content[len(content) // 2] ^= 1
    path.write_bytes(content)


def falsify_archive(top):
    flip_byte(top / "dist" / tool_of(top).ARCHIVE)


def falsify_manifest(top, key):
    """Another value of a line of MANIFEST, with the sum of that."""
    tool, path = tool_of(top), top / "dist/MANIFEST"
    value = manifest_of(tool)[0][key]
    before = tool.sha256(path.read_bytes())
    edit(path, f"{key} {value}", f"{key} {value[1:] + value[0]}")
    edit(top / "dist/SHA256SUMS", before, tool.sha256(path.read_bytes()))


def falsify_bill(top, change):
    """Another bill of materials, with its sum; nothing where there is none yet."""
    tool = tool_of(top)
    path = tool.DIST / tool.bill.NAME
    before, bill = tool.sha256(path.read_bytes()), json.loads(path.read_bytes())
    change(bill)
    path.write_text(json.dumps(bill))
    edit(tool.DIST / tool.SUMS, before, tool.sha256(path.read_bytes()))


def falsify_source(top):
    (top / SOURCE).write_text((top / SOURCE).read_text() + "\n")


def falsify_version(top):
    version = tool_of(top).version()
    edit(top / VERSION_SOURCE, f"\n{version}\n", f"\n{version}1\n")


FALSIFIED = {
    "a byte of the archive": falsify_archive,
    "the digest of the sources": lambda top: falsify_manifest(top, "sources"),
    "the version of the release": lambda top: falsify_manifest(top, "release"),
    "a crate of the bill": lambda top: falsify_bill(top, lambda bill: bill["packages"].pop(3)),
    "a relation of the bill": lambda top: falsify_bill(top, lambda bill: bill["relationships"].pop(3)),
    "the kit in the bill": lambda top: falsify_bill(top, lambda bill: bill["packages"][3].update(versionInfo="another")),
    "the moment of the bill": lambda top: falsify_bill(top, lambda bill: bill["creationInfo"].update(created="today")),
    "the id of a package of the bill": lambda top: falsify_bill(top, lambda bill: bill["packages"][3].update(SPDXID="SPDXRef-a_b")),
    "a source": falsify_source,
    "the version of the sources": falsify_version,
    "dist/ made anew": make_dist,
}
# On a release dist/ made anew is equal.
ALLOWED = {True: {"dist/ made anew"}, False: {"a source"}}


def check_falsified(top, is_a_release):
    """Falsifies one thing at a time in a copy that is a release, or is none, and puts it back."""
    texts = {path: path.read_bytes() for path in [*(top / "dist").iterdir(), top / SOURCE, top / VERSION_SOURCE]}
    for what, falsify in FALSIFIED.items():
        falsify(top)
        found, allowed = faults_of(top), what in ALLOWED[is_a_release]
        kind = "a release" if is_a_release else f"under {UNRELEASED}"
        check(bool(found) != allowed, f"{kind}: {what}{' may change' * allowed}: {'; '.join(found) or 'no fault'}")
        for path, text in texts.items():
            path.write_bytes(text)


def commit(top, what):
    git(top, "add", "dist", "CHANGELOG.md")
    git(top, "-c", "user.name=a", "-c", "user.email=a@a.example", "commit", "-q", "-m", what)


def check_committed(top):
    """A commit that is no release and changes dist/ is found."""
    begin_unreleased(top)
    commit(top, "Unreleased")
    check_falsified(top, False)
    check(not faults_of(top), "a commit after a release")
    falsify_manifest(top, "sources")
    commit(top, "the digest of the sources")
    check(faults_of(top), f"such a commit that changes dist/: {'; '.join(faults_of(top))}")


def check_other_program(room, program):
    """A program of other bytes is found, if the kit is the release's."""
    tool = tool_of(TOP)
    kit = manifest_of(tool)[0]["kit"]
    if program and not is_release(tool):
        print("note: no release: the program is not compared with the released one")
    elif program and kit != tool.kit():
        print(f"note: another kit: the release is of {kit}, and this is {tool.kit()}, so the programs are not compared")
    elif program:
        shutil.copy2(program, room / "other")
        flip_byte(room / "other")
        check(faults_of(TOP, room / "other"), "a program of other bytes is found")


# ---- signatures

def check_signed(room, top):
    """SHA256SUMS is signed with minisign, or else with gpg, and its signature is refused once a byte has changed."""
    tool = tool_of(top)
    without, there = room / "no signers", (room / "a signer", {"HOME": str(room / "keys"), "GNUPGHOME": str(room / "keys")})
    (room / "keys").mkdir(mode=0o700)
    folder_with(without, "python3", "sha256sum")
    ran = signed(top, without, {})
    check(ran.returncode == 1 and "neither minisign nor gpg" in ran.stderr, f"without a tool nothing is signed: {ran.stderr.strip()}")
    for name, (make, key, look) in SIGNING.items():
        if not can(name, f"signing with {name}"):
            continue
        folder, variables = there
        shutil.rmtree(folder, ignore_errors=True)
        folder_with(folder, "python3", "sha256sum", name, "gpg-agent")
        known = {**os.environ, **variables}
        subprocess.run(make.split(), cwd=room / "keys", env=known, capture_output=True, check=True)
        ran = signed(top, folder, variables, key)
        check(ran.returncode == 0 and not [*faults_of_sums(tool)], f"{name} signs: {(ran.stdout + ran.stderr).strip().splitlines()[-1]}")
        seen = [subprocess.run(look.format(room / "keys").split(), cwd=tool.DIST, env=known, capture_output=True).returncode for _ in change_once(tool.DIST / tool.SUMS)]
        check(seen[0] == 0 and seen[1] != 0, f"its signature is good, and refused once a byte has changed: {seen}")
        for made in tool.SIGNATURES:
            (tool.DIST / made).unlink(missing_ok=True)


# For each tool what makes a key, what names it, and what looks at a signature.
SIGNING = {
    "minisign": ("minisign -G -W -p key.pub -s key", "key", "minisign -V -p {0}/key.pub -m SHA256SUMS"),
    "gpg": ("gpg --batch --passphrase= --quick-generate-key releases@fedbundle.example", "releases@fedbundle.example",
            "gpg --verify SHA256SUMS.asc SHA256SUMS"),
}


def folder_with(folder, *names):
    """A folder in which only these programs of the machine are."""
    folder.mkdir()
    for name in names:
        if found := shutil.which(name):
            (folder / name).symlink_to(found)


def signed(top, path, variables, *key):
    return subprocess.run([sys.executable, top / "tools/release.py", "--sign", *key], capture_output=True, text=True,
                          env={**os.environ, **variables, "PATH": str(path)}, cwd=variables.get("HOME"))


def change_once(path):
    """Before and after a change of one byte."""
    text = path.read_bytes()
    yield
    flip_byte(path)
    yield
    path.write_bytes(text)


# ---- the scripts

def check_scripts(room):
    """Each script of an archive of the tree runs below any prefix, and leaves nothing there."""
    tool, prefix = tool_of(TOP), room / "a prefix"
    tool.lzma = SimpleNamespace(compress=lambda content, preset: lzma.compress(content, preset=0), PRESET_EXTREME=0)
    with tarfile.open(fileobj=io.BytesIO(tool.archive_of(tool.plain_files())), mode="r:xz") as tar:
        tar.extractall(prefix, filter="fully_trusted")
    before, names = sorted(prefix.rglob("*")), [f"bin/{name}" for name in ("fedbundle-every", *tool.SHARING)]
    for name in names:
        ran = subprocess.run([prefix / tool.ROOT / name, "--help"], capture_output=True, text=True)
        check(ran.returncode == 0 and not ran.stderr, f"the archive's {name} runs below a prefix {ran.stderr.strip()[-100:]}")
    check(sorted(prefix.rglob("*")) == before, "the scripts leave nothing there")


# ---- the launcher

class Clone:
    """A copy in which ./fedbundle is run, with an `rt` on the path that leaves a trace."""

    def __init__(self, room, released):
        self.top, self.bin, self.trace = copy_into(room / "a clone", released), room / "bin", room / "called"
        self.out = self.top / "crates/fedbundle_cli/out"
        self.variables = {"PATH": str(self.bin), "HOME": str(room / "home")}
        self.bin.mkdir()
        for tool in [*Path("/bin").iterdir(), *Path("/usr/bin").iterdir()]:
            if tool.name not in ("rt", "xz") and not (self.bin / tool.name).is_symlink():
                (self.bin / tool.name).symlink_to(tool)
        (self.bin / "xz").symlink_to(shutil.which("xz"))
        if not (self.bin / "python3").exists():
            (self.bin / "python3").symlink_to(sys.executable)
        (self.bin / "rt").write_text(f"#!/bin/sh\n: >'{self.trace}'\nexit 1\n")
        (self.bin / "rt").chmod(0o755)

    def run(self, *words, user=(), **variables):
        return subprocess.run([*user, self.top / "fedbundle", *words], capture_output=True, text=True, env=self.variables | variables)

    def check(self, what, ran, out="", said=""):
        """Whether it printed what begins so, or else ended with 1, and said nothing, or one line that has these words."""
        is_so = ran.stdout.startswith(out) if out else ran.returncode == 1 and not ran.stdout
        is_so &= not out or ran.returncode == 0
        lines = ran.stderr.splitlines()
        is_so &= len(lines) == 1 and said in lines[0] if said else not lines
        check(is_so and not self.trace.exists(), f"./fedbundle {what}: {ran.stderr.strip() or ran.stdout.partition(chr(10))[0]}")


def check_released(clone, version):
    clone.check("runs the release", clone.run("-V"), version)
    clone.check("runs the release again", clone.run("-V"), version)
    clone.check("finds the release", clone.run("--which"), str(clone.out))
    clone.check("finds $FEDBUNDLE", clone.run("--which", FEDBUNDLE="/bin/sh"), str(Path("/bin/sh").resolve()))
    clone.check("finds no program in $FEDBUNDLE", clone.run("--which", FEDBUNDLE="/none"), said="names no program: /none")


def check_changed(clone, version):
    """Of a changed source the release runs, with a line, and no program is found until one is built."""
    falsify_source(clone.top)
    clone.check("runs the release of a changed source", clone.run("-V"), version, "the sources have changed; ./fedbundle --prove builds them")
    clone.check("finds no program of a changed source", clone.run("--which"), said="no program of these sources")
    (clone.top / "docs/fedbundle.1").write_text("changed\n")
    ran, prefix = clone.run("--install", str(clone.top / "prefix")), clone.top / "prefix"
    page = (prefix / "share/man/man1/fedbundle.1").read_bytes()
    check(ran.returncode == 0 and page != b"changed\n" and (prefix / "bin/fedbundle").exists(), "--install: the release, with its own manual")


def check_built(clone):
    """A build that is fresh runs, by --prove or by `rt ci`, until a source changes."""
    builds = {"--prove": ("fedbundle", clone.out / "fedbundle.built"), "rt ci": ("fedbundle_cli", clone.top / ".git/rt-ci.lock")}
    for kind, (name, begun) in builds.items():
        begun.parent.mkdir(exist_ok=True)
        begun.write_text("cpu=x86-64-v2\nspiffe_name\n")
        program = clone.out / name
        program.write_text("#!/bin/sh\necho built\n")
        program.chmod(0o755)
        later = (begun.stat().st_mtime_ns + 10**7,) * 2
        os.utime(program, ns=later)
        clone.check(f"runs the build of {kind}", clone.run("-V", FEDBUNDLE_CPU="x86-64-v2"), "built")
        clone.check(f"finds the build of {kind}", clone.run("--which", FEDBUNDLE_CPU="x86-64-v2"), str(program))
        os.utime(clone.top / SOURCE, ns=later)
        clone.check(f"finds no stale build of {kind}", clone.run("--which", FEDBUNDLE_CPU="x86-64-v2"), said="no program of these sources")


def check_lacking(clone, room, version):
    """Without xz, with a damaged archive, and in a folder that the user may not write."""
    shutil.rmtree(clone.out)
    (clone.bin / "xz").unlink()
    clone.check("has no xz", clone.run("-V"), said="install the package xz-utils")
    (clone.bin / "xz").symlink_to(shutil.which("xz"))
    shutil.rmtree(clone.out)
    clone.out.parent.chmod(0o555)
    user = [] if os.geteuid() else ["setpriv", "--reuid=65534", "--regid=65534", "--clear-groups"]
    clone.check("cannot write anywhere", clone.run("-V", user=user, HOME="/dev/null"), said="set XDG_CACHE_HOME")
    cache = room / "home/.cache"
    cache.mkdir(parents=True)
    cache.chmod(0o777)
    ran = clone.run("-V", user=user)
    clone.check("unpacks below the user's cache", ran, version, "the sources have changed")
    check(len([*cache.rglob("fedbundle/*/fedbundle")]) == 1, "the program is below the user's cache")
    clone.out.parent.chmod(0o755)
    shutil.rmtree(cache)
    falsify_archive(clone.top)
    clone.check("has a damaged archive", clone.run("-V"), said="is not what SHA256SUMS says")


def has_ended(process):
    """Whether a process goes away. On a busy machine that takes a while."""
    for _ in range(2_000):
        if not Path(f"/proc/{process}").exists():
            return True
        time.sleep(0.05)
    return False


def check_prove(clone):
    """`rt` proves where the crates are, and ends with ./fedbundle. What was proved stays, and nothing is left below .git."""
    proved, started = clone.top / "crates/spiffe_name/out/rlib/stamp", clone.bin / "started"
    proved.parent.mkdir(parents=True)
    proved.touch()
    os.mkfifo(started)
    (clone.bin / "rt").write_text(f"#!/bin/sh\necho $$ $(pwd) >'{started}'\nexec sleep 1000\n")
    before = sorted((clone.top / ".git").rglob("*"))
    launcher = subprocess.Popen([clone.top / "fedbundle", "--prove"], env=clone.variables, stderr=subprocess.PIPE, text=True)
    process, _, folder = started.read_text().rstrip("\n").partition(" ")
    launcher.terminate()
    launcher.wait()
    check(has_ended(process), "rt ends with ./fedbundle --prove")
    check(Path(folder) == clone.out.parent, "it proves where the crates are")
    check(proved.exists() and sorted((clone.top / ".git").rglob("*")) == before, "what was proved stays, and .git is as it was")
    said = launcher.stderr.read()
    check("proved 1 of them" in said and " GB of memory" in said and " minutes" in said, f"--prove says first: {said.strip()}")


def main():
    program = Path(sys.argv[1]) if len(sys.argv) > 1 else None
    found = faults_of(TOP, program)
    what = "the release of these sources" if is_release(tool_of(TOP)) else "the newest release that CHANGELOG.md names"
    hint = f"; what changes after a release begins CHANGELOG.md with '## {UNRELEASED}'" * is_release(tool_of(TOP))
    check(not found, "; ".join(found) + hint if found else f"dist/ is {what}")
    if not has_history(TOP):
        print("note: git has no history here, so whether only releases changed dist/ is not looked at")
    with tempfile.TemporaryDirectory() as folder:
        room = Path(folder)
        room.chmod(0o755)
        released = make_release(copy_into(room / "released"))
        found = faults_of(released)
        check(not found, "; ".join(found) or "a copy is the release of its sources")
        clone, version = Clone(room, released), f"fedbundle {tool_of(released).version()}\n"
        check_falsified(released, True)
        git(room, "init", "-q", released)
        commit(released, "a release")
        check_committed(released)
        check_other_program(room, program)
        check_scripts(room)
        check_signed(room, released)
        check_released(clone, version)
        check_changed(clone, version)
        check_built(clone)
        check_lacking(clone, room, version)
        check_prove(clone)
    sys.exit(1 if reported else 0)


if __name__ == "__main__":
    main()

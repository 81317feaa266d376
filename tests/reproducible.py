#!/usr/bin/env python3
"""Builds the program and the library for C twice, and compares the bytes.

Each build has a folder of its own: one with a short name, with one lane, and one with a long name that has spaces, with four
lanes and, if user namespaces are allowed, by another user. What was proved is taken over from out/ of the crates, in which
`./fedbundle --prove` and tools/library.sh left it, so each build compiles and links, and proves nothing again. If dist/ is the
release of these sources, all are compared with what it has too.

usage: reproducible      the status is 1 if bytes differ or a build fails
"""
import hashlib
import os
import shutil
import signal
import subprocess
import sys
import tempfile
from pathlib import Path

sys.dont_write_bytecode = True
sys.path.insert(0, str(Path(__file__).resolve().parent / "lib"))
from needs import left_out  # noqa: E402
TOP = Path(__file__).resolve().parent.parent
sys.path.insert(0, str(TOP / "tools"))
import release  # noqa: E402

PROGRAM, LIBRARY = "fedbundle_cli", "fedbundle_c"
PARTS = ["src", "specs", "proofs", "out/rlib", "out/incremental"]
OTHER_USER = ["unshare", "--user", "--map-user=1234", "--map-group=1234"]
reported = 0


def check(is_so, what):
    global reported
    print(f"{'ok:      ' if is_so else 'differs: '}{what}", flush=True)
    reported += not is_so


def fill(room, crates):
    """A copy of what the builds read. What was proved has second names there, and is not copied."""
    room.mkdir()
    lines = (TOP / "crates.txt").read_text().splitlines(keepends=True)
    (room / "crates.txt").write_text("".join(line for line in lines if line.split(":")[0].split()[0] in crates))
    for name in ("HANDLES", "tools", "include"):
        source = TOP / name
        shutil.copytree(source, room / name) if source.is_dir() else shutil.copy2(source, room / name)
    for crate in crates:
        for part in filter(lambda part: (TOP / "crates" / crate / part).is_dir(), PARTS):
            how = {"copy_function": os.link} if part.startswith("out/") else {}
            shutil.copytree(TOP / "crates" / crate / part, room / "crates" / crate / part, **how)


def call(words, folder):
    ended = subprocess.run([str(word) for word in words], cwd=folder, stdin=subprocess.DEVNULL, capture_output=True, text=True)
    if ended.returncode:
        print(f"{ended.stdout}{ended.stderr}"[-4000:])
    return ended.returncode == 0


def built(room, lanes, user):
    """What the builds in a folder made, by name: the SHA-256 of each."""
    made = {}
    crate = room / "crates" / PROGRAM
    if call([*user, "rt", "run", "--jobs", lanes, "--cpu", "x86-64-v2", "--", "--version"], crate):
        made["fedbundle"] = crate / "out" / PROGRAM
    if call([*user, room / "tools/library.sh", room / "prefix"], room):
        made.update({name: room / "prefix/lib" / name for name in ("libfedbundle.a", "libfedbundle.so.0")})
    return {name: hashlib.sha256(path.read_bytes()).hexdigest() for name, path in made.items()}


def released():
    """The SHA-256 of each file of the release that was compiled, by its name, if it is one of these sources."""
    manifest = release.DIST / "MANIFEST"
    lines = [line.split(" ") for line in manifest.read_text().splitlines()] if manifest.exists() else []
    if ["sources", release.digest_of(release.crates_of(PROGRAM))] not in lines:
        return {}
    return {Path(words[3]).name: words[2] for words in lines if words[0] == "file"}


def main():
    # The folder below .git goes away also where this is told to end.
    for number in (signal.SIGTERM, signal.SIGHUP):
        signal.signal(number, lambda number, _: sys.exit(128 + number))
    crates = sorted({*release.crates_of(PROGRAM), *release.crates_of(LIBRARY)})
    lacking = [crate for crate in crates if not (TOP / "crates" / crate / "out/rlib").is_dir() and crate not in (PROGRAM, LIBRARY)]
    if lacking:
        sys.exit(f"reproducible: not proved yet: {' '.join(lacking)}: run ./fedbundle --prove and tools/library.sh first")
    user = OTHER_USER if call([*OTHER_USER, "true"], TOP) else []
    if not user:
        left_out("the build by another user", "no name spaces of users are allowed here")
    with tempfile.TemporaryDirectory(dir=TOP / ".git") as folder:
        rooms = [(Path(folder) / "a", 1, []), (Path(folder) / ("a folder with a long name " * 4).strip(), 4, user)]
        made = []
        for room, lanes, who in rooms:
            fill(room, crates)
            made.append(built(room, lanes, who))
            print(f"in {len(str(room))} letters, {lanes} lanes{', another user' * bool(who)}: {made[-1]}", flush=True)
            shutil.rmtree(room)
    for name in ("fedbundle", "libfedbundle.a", "libfedbundle.so.0"):
        check(name in made[0] and made[0].get(name) == made[1].get(name), f"{name} is the same in both")
    for name, digest in released().items():
        if name in made[0]:
            check(made[0][name] == digest, f"{name} is the released one")
    sys.exit(1 if reported else 0)


if __name__ == "__main__":
    main()

#!/usr/bin/env python3
"""Makes dist/, the release of the sources here, out of a proved build (D-392).

dist/ has fedbundle-x86_64-linux.tar.xz, MANIFEST, fedbundle.spdx.json and SHA256SUMS. The archive has one folder, fedbundle/, laid out as below
a prefix: the program for two levels of processors, the deploy programs, the units, the manual page, the completions,
the library for C with its header, the rules for Prometheus and the dashboard for Grafana, and the licence. Its files have no time, no owner and one order, so the same files give
the same archive.

MANIFEST has a line for each of these:
- `release` the version
- `sources` and `crates`: the digest of the program's sources, and the crates that it is of; `library-sources` and
  `library-crates`: the same of the library for C
- `kit` and `compiler`: what proved and compiled both
- `file` the bytes, the SHA-256 and the path of each file that was compiled

fedbundle.spdx.json is the bill of materials, of which tools/bill.py says more.

The digest of sources (D-393) is the SHA-256 of lines as sha256sum writes them, one for HANDLES, for crates.txt, and for each file
in src/, specs/ and proofs/ of the crates, in the order of the paths' bytes.

usage: release                        the programs that `./fedbundle --prove` builds, and the library that tools/library.sh builds
       release PROGRAM V3 LIBRARY     programs for x86-64-v2 and x86-64-v3 that were proved and built of these sources, and a
                                      folder that tools/library.sh made; tests/release.py compares the first program with the one
                                      that the gate built
       release --sign [KEY]           signs SHA256SUMS of dist/ with minisign, or else with gpg. KEY is minisign's file of the secret
                                      key, or the user's ID of gpg's; their own choice unless given. It writes
                                      SHA256SUMS.minisig or SHA256SUMS.asc
"""
import hashlib
import io
import lzma
import os
import re
import shutil
import subprocess
import sys
import tarfile
import tempfile
from pathlib import Path

sys.dont_write_bytecode = True
sys.path.insert(0, str(Path(__file__).resolve().parent))
import bill  # noqa: E402

TOP = Path(__file__).resolve().parent.parent
DIST = TOP / "dist"
ARCHIVE = "fedbundle-x86_64-linux.tar.xz"
PROGRAM, LIBRARY = "fedbundle_cli", "fedbundle_c"
PARTS = ["src", "specs", "proofs"]
ROOT = "fedbundle/"
# What is compiled, by its place in the archive.
LEVELS = {"x86-64-v2": "bin/fedbundle", "x86-64-v3": "bin/fedbundle-x86-64-v3"}
LIBRARIES = ["lib/libfedbundle.a", "lib/libfedbundle.so.0"]
SUMS = "SHA256SUMS"
# What signs it: for each tool its words before and after those of the key, the option of these, and the file that it writes.
SIGNERS = {"minisign": (["-S"], "-s", ["-m", SUMS], f"{SUMS}.minisig"),
           "gpg": (["--armor", "--detach-sign"], "--local-user", [SUMS], f"{SUMS}.asc")}
SIGNATURES = [made for *_, made in SIGNERS.values()]
COMPILED = [*LEVELS.values(), *LIBRARIES]
# Scripts that share a module lie next to it.
SHARING = ["fedbundle-fetch", "fedbundle-import", "fedbundle-spire"]
LINKS = {"lib/libfedbundle.so": "libfedbundle.so.0", **{f"bin/{name}": f"../lib/fedbundle/{name}" for name in SHARING}}
SCRIPTS = {"bin/fedbundle-every": "deploy/fedbundle-every", **{f"lib/fedbundle/{name}": f"deploy/{name}" for name in SHARING}}
TEXTS = {
    "include/fedbundle.h": "include/fedbundle.h",
    "lib/fedbundle/fedbundle_scripts.py": "deploy/fedbundle_scripts.py",
    "lib/sysusers.d/fedbundle.conf": "deploy/fedbundle.sysusers",
    "lib/tmpfiles.d/fedbundle.conf": "deploy/fedbundle.tmpfiles",
    "share/bash-completion/completions/fedbundle": "completions/fedbundle.bash",
    "share/doc/fedbundle/CHANGELOG.md": "CHANGELOG.md",
    "share/doc/fedbundle/LICENSE": "LICENSE",
    "share/doc/fedbundle/README.md": "README.md",
    "share/doc/fedbundle/SECURITY.md": "SECURITY.md",
    "share/doc/fedbundle/bench/RESULTS.md": "bench/RESULTS.md",
    "share/doc/fedbundle/fedbundle.default": "deploy/fedbundle.default",
    "share/doc/fedbundle/grafana-dashboard.json": "deploy/grafana-dashboard.json",
    "share/doc/fedbundle/prometheus-rules.yml": "deploy/prometheus-rules.yml",
    "share/doc/fedbundle/stunnel-pull.conf": "deploy/stunnel-pull.conf",
    "share/doc/fedbundle/stunnel-serve.conf": "deploy/stunnel-serve.conf",
    "share/man/man1/fedbundle.1": "docs/fedbundle.1",
    "share/zsh/site-functions/_fedbundle": "completions/_fedbundle",
}
# Found by its own place, so that the prefix may be any.
PKG_CONFIG = """\
prefix=${{pcfiledir}}/../..
includedir=${{prefix}}/include
libdir=${{prefix}}/lib

Name: fedbundle
Description: the store under a replica of a SPIFFE trust server
Version: {version}
Cflags: -I${{includedir}}
Libs: -L${{libdir}} -lfedbundle
"""


def stop(text):
    sys.exit(f"release: {text}")


def printed(*words):
    return subprocess.run(words, capture_output=True, text=True, check=True).stdout


def sha256(content):
    return hashlib.sha256(content).hexdigest()


# ---- what the sources are

def version():
    """The version that the program prints, as its source has it."""
    text = (TOP / "crates/command_line/src/help_texts.rt").read_text()
    return re.search(r'const VERSION: &str = "\\\n([0-9.]+)\n', text).group(1)


def sections(text=None):
    """The titles of the sections of CHANGELOG.md, the newest first: Unreleased, and each release with its day."""
    return re.findall(r"^## (.*)$", text or (TOP / "CHANGELOG.md").read_text(), re.M)


def is_version_with_day(title):
    return re.fullmatch(rf"{re.escape(version())}, \d{{4}}-\d\d-\d\d", title) is not None


def used_crates():
    """For each crate of the repository what it uses, of the repository and of the toolchain."""
    lines = [line.split(":") for line in (TOP / "crates.txt").read_text().splitlines() if line[:1] not in ("", "#")]
    return {head.split()[0]: names.split() for head, names in lines}


def toolchain_crates(name):
    """The crates of the toolchain that a crate uses, also by others."""
    used = used_crates()
    return {below for crate in crates_of(name) for below in used[crate]} - used.keys()


def crates_of(name):
    """A crate and all of the repository that it uses, in the order of their names."""
    used = used_crates()
    found = [name]
    for crate in found:
        found += [below for below in used[crate] if below in used and below not in found]
    return sorted(found)


def digest_of(crates):
    """The digest of the sources of these crates, and of what is common to all."""
    found = ["HANDLES", "crates.txt"]
    for crate in crates:
        for part in PARTS:
            files = (TOP / "crates" / crate / part).rglob("*")
            found += [str(path.relative_to(TOP)) for path in files if path.is_file()]
    lines = [f"{sha256((TOP / path).read_bytes())}  {path}\n" for path in sorted(found, key=str.encode)]
    return sha256("".join(lines).encode())


def kit():
    return printed("rt", "version").strip()


def compiler():
    clang = Path(printed("rt", "doc").strip()).parent / "toolchain/bin/clang"
    return printed(clang, "--version").splitlines()[0]


# ---- what the archive has

def units():
    names = [path.name for path in (TOP / "deploy").iterdir() if path.suffix in (".service", ".timer")]
    return {f"lib/systemd/system/{name}": f"deploy/{name}" for name in names}


def pages():
    """The pages and their pictures, so that their links to each other hold."""
    found = [path.relative_to(TOP) for path in (TOP / "docs").rglob("*") if path.suffix in (".md", ".png", ".svg")]
    return {f"share/doc/fedbundle/{path}": str(path) for path in found}


def plain_files():
    """What is not compiled: for each place in the archive the content and the mode."""
    found = {place: ((TOP / path).read_bytes(), 0o644) for place, path in {**TEXTS, **units(), **pages()}.items()}
    found.update({place: ((TOP / path).read_bytes(), 0o755) for place, path in SCRIPTS.items()})
    found["lib/pkgconfig/fedbundle.pc"] = PKG_CONFIG.format(version=version()).encode(), 0o644
    return found


def compiled_files(programs, library):
    """What is compiled: for each place in the archive the content and the mode."""
    paths = [*programs, *(library / place for place in LIBRARIES)]
    return {place: (path.read_bytes(), 0o644 if path.suffix == ".a" else 0o755) for place, path in zip(COMPILED, paths)}


def member(place, mode, kind=tarfile.REGTYPE):
    """A member of the archive without a time and an owner."""
    made = tarfile.TarInfo(ROOT + place)
    made.type, made.mode = kind, mode
    return made


def archive_of(files):
    """The archive of these files and of the links, as bytes."""
    made = io.BytesIO()
    with tarfile.open(fileobj=made, mode="w", format=tarfile.USTAR_FORMAT) as tar:
        for place in sorted([*files, *LINKS]):
            if place in LINKS:
                link = member(place, 0o777, tarfile.SYMTYPE)
                link.linkname = LINKS[place]
                tar.addfile(link)
            else:
                content, mode = files[place]
                entry = member(place, mode)
                entry.size = len(content)
                tar.addfile(entry, io.BytesIO(content))
    return lzma.compress(made.getvalue(), preset=9 | lzma.PRESET_EXTREME)


def manifest_of(compiled):
    program, library = crates_of(PROGRAM), crates_of(LIBRARY)
    lines = [f"release {version()}", f"sources {digest_of(program)}", f"crates {' '.join(program)}",
             f"library-sources {digest_of(library)}", f"library-crates {' '.join(library)}",
             f"kit {kit()}", f"compiler {compiler()}"]
    lines += [f"file {len(content)} {sha256(content)} {ROOT}{place}" for place, (content, _) in compiled.items()]
    return "".join(f"{line}\n" for line in lines)


def bill_of(archive):
    """The bill of materials of a release with this archive."""
    _, day = next(title for title in sections() if is_version_with_day(title)).split(", ")
    release = {"version": version(), "day": day, "kit": kit(), "compiler": compiler()}
    uses = {"fedbundle": toolchain_crates(PROGRAM), "libfedbundle": toolchain_crates(LIBRARY)}
    return bill.bill_of(release, (ARCHIVE, sha256(archive)), uses)


# ---- dist/

def built(room):
    """Builds what is missing, and returns the programs and the folder of the library."""
    programs = [room / level for level in LEVELS]
    for level, program in zip(LEVELS, programs):
        # 3 says that it was proved and built, and differs from the last release of these sources, as under another kit.
        ended = subprocess.run([TOP / "fedbundle", "--prove"], env={**os.environ, "FEDBUNDLE_CPU": level})
        if ended.returncode not in (0, 3):
            stop(f"nothing is released, as no program was proved and built for {level}")
        shutil.copy2(TOP / "crates" / PROGRAM / "out/fedbundle", program)
    if subprocess.run([TOP / "tools/library.sh", room / "library"]).returncode:
        stop("nothing is released, as the library was not built")
    return programs, room / "library"


def write(programs, library):
    compiled = compiled_files(programs, library)
    archive = archive_of({**plain_files(), **compiled})
    contents = {ARCHIVE: archive, "MANIFEST": manifest_of(compiled).encode(), bill.NAME: bill_of(archive)}
    contents[SUMS] = "".join(f"{sha256(content)}  {name}\n" for name, content in contents.items()).encode()
    shutil.rmtree(DIST, ignore_errors=True)
    DIST.mkdir()
    for name, content in contents.items():
        (DIST / name).write_bytes(content)
        print(f"{len(content):9} bytes  dist/{name}")


def sign(key):
    """Signs SHA256SUMS with the first tool that is there. A key may be the path of a file, from the folder in which this runs."""
    tool = next((name for name in SIGNERS if shutil.which(name)), None)
    if not tool:
        stop(f"nothing is signed, as there is neither {' nor '.join(SIGNERS)}")
    if subprocess.run(["sha256sum", "--check", "--status", SUMS], cwd=DIST).returncode:
        stop(f"nothing is signed, as dist/ is not what {SUMS} says")
    before, option, after, made = SIGNERS[tool]
    for old in SIGNATURES:
        (DIST / old).unlink(missing_ok=True)
    key = os.path.abspath(key) if os.path.isfile(key) else key
    if subprocess.run([tool, *before, *([option, key] if key else []), *after], cwd=DIST).returncode or not (DIST / made).exists():
        stop(f"nothing is signed, as {tool} failed")
    print(f"{(DIST / made).stat().st_size:9} bytes  dist/{made}")


def main():
    if sys.argv[1:2] == ["--sign"] and len(sys.argv) <= 3:
        sign("".join(sys.argv[2:]))
        return
    words = [Path(word) for word in sys.argv[1:]]
    if len(words) not in (0, 3):
        stop("usage: release [PROGRAM V3 LIBRARY | --sign [KEY]]")
    if not is_version_with_day(sections()[0]):
        stop(f"CHANGELOG.md begins with '{sections()[0]}', and not with the version that the sources have, {version()}, and its day")
    with tempfile.TemporaryDirectory() as room:
        write(*((words[:2], words[2]) if words else built(Path(room))))


if __name__ == "__main__":
    main()

#!/usr/bin/env python3
"""Makes Debian packages of the release: fedbundle_VERSION_amd64.deb and libfedbundle-dev_VERSION_amd64.deb.

All that is installed comes from the archive in dist/, whose sum SHA256SUMS names; the scripts and texts of a package are in
tools/debian/. The archive is laid out as below /usr/local, and a package as below /usr, so three kinds of files change:
- units name /usr/bin in the place of /usr/local/bin; the path of spire-server stays
- scripts begin with #!/usr/bin/python3, the Python that the package depends on
- the file for pkg-config names /usr and the folder of the machine's libraries
The units' options, fedbundle.default, become the conffile /etc/default/fedbundle.

Each file has the time of $SOURCE_DATE_EPOCH, or else of the release's day in CHANGELOG.md. Two runs give the same bytes.

It needs python3 and Debian's dpkg-deb.

usage: package FOLDER              makes both packages in FOLDER, of the archive in dist/
       package FOLDER ARCHIVE      of another archive, next to which SHA256SUMS lies
"""
import gzip
import hashlib
import os
import re
import shutil
import subprocess
import sys
import tarfile
import tempfile
from datetime import datetime, timezone
from pathlib import Path

TOP = Path(__file__).resolve().parent.parent
ARCHIVE = TOP / "dist/fedbundle-x86_64-linux.tar.xz"
TEXTS = TOP / "tools/debian"
MAINTAINER = "fedbundle maintainers <maintainers@fedbundle.example>"
ROOT = "fedbundle/"
PROGRAM, LIBRARY = "fedbundle", "libfedbundle-dev"
TRIPLET = "x86_64-linux-gnu"
# The place of a file of the archive, by the beginning of its place there, and its package.
PLACES = [
    ("bin/", PROGRAM, "usr/bin/"),
    ("include/", LIBRARY, "usr/include/"),
    ("lib/fedbundle/", PROGRAM, "usr/lib/fedbundle/"),
    ("lib/libfedbundle", LIBRARY, f"usr/lib/{TRIPLET}/libfedbundle"),
    ("lib/pkgconfig/", LIBRARY, f"usr/lib/{TRIPLET}/pkgconfig/"),
    ("lib/systemd/system/", PROGRAM, "lib/systemd/system/"),
    ("lib/sysusers.d/", PROGRAM, "usr/lib/sysusers.d/"),
    ("lib/tmpfiles.d/", PROGRAM, "usr/lib/tmpfiles.d/"),
    ("share/bash-completion/completions/", PROGRAM, "usr/share/bash-completion/completions/"),
    ("share/doc/fedbundle/fedbundle.default", PROGRAM, "etc/default/fedbundle"),
    ("share/doc/fedbundle/", PROGRAM, "usr/share/doc/fedbundle/"),
    ("share/man/man1/", PROGRAM, "usr/share/man/man1/"),
    ("share/zsh/site-functions/", PROGRAM, "usr/share/zsh/vendor-completions/"),
]
# What a package of Debian has in another form: copyright has the licence.
LEFT_OUT = {"share/doc/fedbundle/LICENSE"}
PACKED = re.compile(r"/man1/|CHANGELOG\.md$")
CHANGES = """\
{source} ({version}) unstable; urgency=medium

  * The release {version}.

 -- {maintainer}  {day}
"""


def stop(text):
    sys.exit(f"package: {text}")


# ---- the archive

def read_archive(path):
    """The content and the mode of each file, and the targets of links, by their places. The archive is the one of SHA256SUMS."""
    content = path.read_bytes()
    sums = dict(reversed(line.split("  ", 1)) for line in (path.parent / "SHA256SUMS").read_text().splitlines())
    if sums.get(path.name) != hashlib.sha256(content).hexdigest():
        stop(f"{path} has not the sum that SHA256SUMS names")
    files, links = {}, {}
    with tarfile.open(path, mode="r:xz") as tar:
        for entry in tar:
            place = entry.name.removeprefix(ROOT)
            if entry.issym():
                links[place] = entry.linkname
            else:
                files[place] = tar.extractfile(entry).read(), entry.mode
    return files, links


def version_of(files):
    return re.search(r"^Version: (.+)$", files["lib/pkgconfig/fedbundle.pc"][0].decode(), re.M).group(1)


def moment_of(files, version):
    """The second of all files: of the release's day, unless $SOURCE_DATE_EPOCH says another."""
    if "SOURCE_DATE_EPOCH" in os.environ:
        return int(os.environ["SOURCE_DATE_EPOCH"])
    changes = files["share/doc/fedbundle/CHANGELOG.md"][0].decode()
    found = re.search(rf"^## {re.escape(version)}, (\d+-\d+-\d+)$", changes, re.M) or stop(f"CHANGELOG.md has no day of {version}")
    return int(datetime.fromisoformat(found.group(1)).replace(tzinfo=timezone.utc).timestamp())


# ---- what a package has

def changed(place, content):
    """A file as the package has it: see the head of this file."""
    if place.startswith("lib/systemd/system/"):
        return re.sub(rb"/usr/local/bin(?!/spire-server)", b"/usr/bin", content)
    if content.startswith(b"#!/usr/bin/env python3\n"):
        return content.replace(b"/usr/bin/env python3", b"/usr/bin/python3", 1)
    if place == "lib/pkgconfig/fedbundle.pc":
        text = re.sub(rb"^prefix=.*$", b"prefix=/usr", content, flags=re.M)
        return re.sub(rb"^libdir=.*$", f"libdir=${{prefix}}/lib/{TRIPLET}".encode(), text, flags=re.M)
    return content


def packed(content):
    return gzip.compress(content, 9, mtime=0)


def target_of(place):
    """The package that has this file of the archive, and its place there."""
    for begin, package, there in PLACES:
        if place.startswith(begin):
            return package, there + place.removeprefix(begin)
    return stop(f"the archive has {place}, and PLACES does not say where it goes")


def split(files, links):
    """Of each package the files and the links, by their places."""
    packages = {name: ({}, {}) for name in (PROGRAM, LIBRARY)}
    for place, (content, mode) in files.items():
        if place not in LEFT_OUT:
            package, there = target_of(place)
            content = changed(place, content)
            if PACKED.search(there):
                there, content = f"{there}.gz", packed(content)
            # Debian has shared libraries without the right to be run.
            packages[package][0][there] = content, 0o644 if ".so." in there else mode
    for place, target in links.items():
        package, there = target_of(place)
        packages[package][1][there] = target
    packages[PROGRAM][1]["usr/share/man/man1/fedbundle-x86-64-v3.1.gz"] = "fedbundle.1.gz"
    return packages


def with_texts(name, files, version, moment):
    """The same files, and those that Debian wants of each package."""
    day = datetime.fromtimestamp(moment, timezone.utc).strftime("%a, %d %b %Y %H:%M:%S +0000")
    source = CHANGES.format(source=PROGRAM, version=version, maintainer=MAINTAINER, day=day)
    folder = f"usr/share/doc/{name}"
    added = {f"{folder}/changelog.gz": (packed(source.encode()), 0o644),
             f"{folder}/copyright": ((TEXTS / "copyright").read_bytes(), 0o644)}
    overrides = TEXTS / f"{name}.lintian-overrides"
    if overrides.exists():
        added[f"usr/share/lintian/overrides/{name}"] = overrides.read_bytes(), 0o644
    return {**files, **added}


def libc_of(files):
    """The least version of libc6 that these files ask for."""
    named = {found for content, _ in files.values() if content.startswith(b"\x7fELF")
             for found in re.findall(rb"\0GLIBC_(2\.\d+)(?=\0)", content)}
    return max((found.decode() for found in named), key=lambda text: int(text.split(".")[1]))


def control_of(name, files, version):
    """The files of DEBIAN/: for each its content and its mode."""
    size = sum(-(-len(content) // 1024) for content, _ in files.values())
    text = (TEXTS / f"{name}.control").read_text()
    text = text.format(version=version, maintainer=MAINTAINER, size=size, libc=libc_of(files))
    # What somebody may have changed, and no upgrade replaces then.
    kept = [place for place in sorted(files) if place.startswith("etc/")]
    sums = "".join(f"{hashlib.md5(files[place][0]).hexdigest()}  {place}\n" for place in sorted(set(files) - set(kept)))
    made = {"control": (text.encode(), 0o644), "md5sums": (sums.encode(), 0o644)}
    if kept:
        made["conffiles"] = "".join(f"/{place}\n" for place in kept).encode(), 0o644
    for path in sorted(TEXTS.glob(f"{name}.*")):
        part = path.name.removeprefix(f"{name}.")
        if part in ("postinst", "prerm", "postrm"):
            made[part] = path.read_bytes(), 0o755
        elif part in ("shlibs", "triggers"):
            made[part] = path.read_text().format(version=version).encode(), 0o644
    return made


# ---- the packages

def lay_out(room, files, links, moment):
    """Writes the files and links below a folder, all with one time."""
    for place, (content, mode) in files.items():
        path = room / place
        path.parent.mkdir(parents=True, exist_ok=True)
        path.write_bytes(content)
        path.chmod(mode)
    for place, target in links.items():
        (room / place).parent.mkdir(parents=True, exist_ok=True)
        (room / place).symlink_to(target)
    for path in [*room.rglob("*"), room]:
        if path.is_dir():
            path.chmod(0o755)
        os.utime(path, (moment, moment), follow_symlinks=False)


def make(name, parts, version, moment, folder):
    """Makes one package."""
    files, links = with_texts(name, parts[0], version, moment), parts[1]
    path = folder / f"{name}_{version}_amd64.deb"
    with tempfile.TemporaryDirectory() as room:
        control = {f"DEBIAN/{place}": made for place, made in control_of(name, files, version).items()}
        lay_out(Path(room), {**files, **control}, links, moment)
        # One thread, since more of them write other bytes.
        words = ["dpkg-deb", "--root-owner-group", "--uniform-compression", "-Zxz", "-z6", "--threads-max=1", "--build", room, path]
        environment = {**os.environ, "SOURCE_DATE_EPOCH": str(moment), "TZ": "UTC", "LC_ALL": "C.UTF-8"}
        subprocess.run(words, env=environment, stdout=subprocess.DEVNULL, check=True)
    print(f"{path.stat().st_size:9} bytes  {path}")


def main():
    if len(sys.argv) not in (2, 3) or sys.argv[1].startswith("-"):
        stop("usage: package FOLDER [ARCHIVE]")
    if not shutil.which("dpkg-deb"):
        stop("dpkg-deb is not there")
    folder, archive = Path(sys.argv[1]), Path(sys.argv[2]) if sys.argv[2:] else ARCHIVE
    folder.mkdir(parents=True, exist_ok=True)
    files, links = read_archive(archive)
    version = version_of(files)
    for name, parts in split(files, links).items():
        make(name, parts, version, moment_of(files, version), folder)


if __name__ == "__main__":
    main()

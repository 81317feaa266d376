#!/usr/bin/env python3
"""Makes a container image of the release, without a daemon: an OCI layout in FOLDER/fedbundle, and the same as
FOLDER/fedbundle-VERSION.oci.tar.

The image has what the archive in dist/ has for its programs, and from Debian's packages what these need: Python and
OpenSSL's libraries for the fetcher and the pusher, stunnel, and tini, which passes signals on. It has no shell. Its user is
65532, it begins as `tini --`, and unless other arguments are given it is a replica without peers.

The packages come by `apt-get download`, as the machine's apt finds them for Debian 12, or from the folder --debs. The files
of /var/lib/dpkg/status.d name them with their versions. The same archive and packages give the same bytes: all files have
the time of $SOURCE_DATE_EPOCH, or else of the release's day.

It needs python3, of version 3.11 so that Python's modules are compiled too, dpkg-deb, and apt-get if --debs is not given.

usage: image FOLDER [--debs FOLDER] [--archive FILE]
"""
import argparse
import gzip
import hashlib
import importlib.util
import io
import json
import marshal
import re
import subprocess
import sys
import tarfile
import tempfile
from datetime import datetime, timezone
from importlib.machinery import SourceFileLoader
from importlib.util import module_from_spec, spec_from_loader
from pathlib import Path

sys.dont_write_bytecode = True
TOP = Path(__file__).resolve().parent.parent
USER = 65532
# What the programs need, and what that needs: the libraries behind libwrap0 are those of stunnel.
PACKAGES = ["libc6", "libgcc-s1", "libssl3", "zlib1g", "libexpat1", "python3.11-minimal", "libpython3.11-minimal", "libpython3.11-stdlib", "tini",
            "stunnel4", "libsystemd0", "libcap2", "libgcrypt20", "libgpg-error0", "liblzma5", "libzstd1", "liblz4-1", "libwrap0", "libnsl2",
            "libtirpc3", "libgssapi-krb5-2", "libkrb5-3", "libk5crypto3", "libkrb5support0", "libcom-err2", "libkeyutils1"]
KEPT = re.compile(r"usr/(bin/(python3\.11|tini|stunnel4)|lib64/|lib/x86_64-linux-gnu/|lib/python3\.11/|share/doc/[^/]+/copyright|lib/ssl|share/python3?)"
                  r"|etc/(ssl/openssl\.cnf|hosts\.|netconfig)")
LEFT_OUT = re.compile(r"lib/python3\.11/(test|idlelib|lib2to3|tkinter|turtledemo|ensurepip|distutils|pydoc_data|sqlite3|curses|dbm|unittest|venv)/|/gconv/"
                      r"|lib-dynload/(_test|_xxtest|_codecs_|_ctypes_test|xxlimited|_sqlite3|_curses|_dbm|_tkinter|readline|nis|ossaudiodev)|/perl|/audit/|\.a$")
MERGED = re.compile(r"^(bin|sbin|lib|lib64)/")
TEXTS = {
    "etc/passwd": f"root:x:0:0:root:/:/nonexistent\nfedbundle:x:{USER}:{USER}:fedbundle:/var/lib/fedbundle:/nonexistent\n",
    "etc/group": f"root:x:0:\nfedbundle:x:{USER}:\n",
    "etc/nsswitch.conf": "passwd: files\ngroup: files\nhosts: files dns\n",
}
LINKS = {"bin": "usr/bin", "sbin": "usr/sbin", "lib": "usr/lib", "lib64": "usr/lib64", "usr/bin/python3": "python3.11", "usr/bin/stunnel": "stunnel4"}
# Folders that are empty, their owners and modes: most of them are for volumes.
FOLDERS = {"var/lib/fedbundle": (USER, 0o700), "run/fedbundle": (USER, 0o700), "tmp": (0, 0o1777),
           **dict.fromkeys(["dev", "proc", "sys", "etc/fedbundle/config"], (0, 0o755))}
ENTRY = ["/usr/bin/tini", "--"]
WORDS = ["fedbundle", "replica", "--config", "/etc/fedbundle/config/config.json", "--state", "/var/lib/fedbundle/state",
         "--socket", "/run/fedbundle/socket"]


def tool_of(name):
    """A script of tools/ as a module."""
    loader = SourceFileLoader(name, str(TOP / "tools" / f"{name}.py"))
    module = module_from_spec(spec_from_loader(name, loader))
    loader.exec_module(module)
    return module


# ---- the files: for each place its content, and its mode; of a link its target

def taken(place):
    return KEPT.search(place) and not LEFT_OUT.search(place)


def files_of_package(path):
    data = subprocess.run(["dpkg-deb", "--fsys-tarfile", path], capture_output=True, check=True).stdout
    found = {}
    with tarfile.open(fileobj=io.BytesIO(data)) as tar:
        for entry in tar:
            place = MERGED.sub(r"usr/\1/", entry.name.removeprefix("./"))
            if entry.isreg() and taken(place):
                found[place] = tar.extractfile(entry).read(), entry.mode & 0o755
            elif entry.issym() and taken(place):
                found[place] = entry.linkname
    control = subprocess.run(["dpkg-deb", "--field", path], capture_output=True, check=True).stdout
    name = re.search(rb"^Package: (.*)$", control, re.M).group(1).decode()
    return name, {**found, f"var/lib/dpkg/status.d/{name}": (control, 0o644)}


def compiled(files, moment):
    """The modules of Python as it keeps them next to their sources: the image cannot write
    there."""
    if sys.version_info[:2] != (3, 11):
        print("image: Python's modules are not compiled, since this is not Python 3.11")
        return {}
    made = {}
    for place, file in files.items():
        if place.startswith("usr/lib/python3.11/") and place.endswith(".py") and not isinstance(file, str):
            folder, name = place.rsplit("/", 1)
            code = compile(file[0], f"/{place}", "exec", dont_inherit=True, optimize=0)
            # The source is known by its hash, which is not checked: so no time is in it.
            head = importlib.util.MAGIC_NUMBER + (1).to_bytes(4, "little") + importlib.util.source_hash(file[0])
            made[f"{folder}/__pycache__/{name[:-3]}.cpython-311.pyc"] = head + marshal.dumps(code, 2), 0o644
    return made


def files_of(archive, debs, package):
    """All files of the image, and the version of the release."""
    released, links = package.read_archive(archive)
    files = {}
    for path in sorted(debs.glob("*.deb")):
        name, found = files_of_package(path)
        files |= found if name in PACKAGES else {}
    missing = [name for name in PACKAGES if f"var/lib/dpkg/status.d/{name}" not in files]
    if missing:
        sys.exit(f"image: {debs} has no package of {', '.join(missing)}")
    for place, (content, mode) in released.items():
        if place.startswith(("bin/", "lib/fedbundle/")):
            files[f"usr/{place}"] = package.changed(place, content), mode
    files |= {f"usr/{place}": target for place, target in links.items() if place.startswith("bin/")}
    files["usr/share/doc/fedbundle/LICENSE"] = released["share/doc/fedbundle/LICENSE"]
    files |= {place: (text.encode(), 0o644) for place, text in TEXTS.items()}
    version = package.version_of(released)
    moment = package.moment_of(released, version)
    return {**files, **compiled(files, moment), **LINKS}, version, moment


# ---- the layer and the layout

def member(name, kind, mode, moment, owner=0):
    made = tarfile.TarInfo(name)
    made.type, made.mode, made.mtime, made.uid, made.gid = kind, mode, moment, owner, owner
    return made


def layer_of(files, moment):
    """The files as the bytes of an archive, in one order, each folder before what is in it."""
    folders = {str(parent) for place in [*files, *FOLDERS] for parent in Path(place).parents if str(parent) != "."} | FOLDERS.keys()
    out = io.BytesIO()
    with tarfile.open(fileobj=out, mode="w", format=tarfile.USTAR_FORMAT) as tar:
        for name in sorted(folders | files.keys()):
            if name in folders:
                owner, mode = FOLDERS.get(name, (0, 0o755))
                tar.addfile(member(name, tarfile.DIRTYPE, mode, moment, owner))
            elif isinstance(files[name], str):
                entry = member(name, tarfile.SYMTYPE, 0o777, moment)
                entry.linkname = files[name]
                tar.addfile(entry)
            else:
                content, mode = files[name]
                entry = member(name, tarfile.REGTYPE, mode, moment)
                entry.size = len(content)
                tar.addfile(entry, io.BytesIO(content))
    return out.getvalue()


def config_of(layer, version, moment):
    day = datetime.fromtimestamp(moment, timezone.utc).strftime("%Y-%m-%dT%H:%M:%SZ")
    labels = {"title": "fedbundle", "version": version, "licenses": "Apache-2.0", "created": day,
              "description": "the store under a replica of a SPIFFE trust server"}
    run = {"User": f"{USER}:{USER}", "Env": ["PATH=/usr/bin", "FEDBUNDLE=/usr/bin/fedbundle"], "Entrypoint": ENTRY, "Cmd": WORDS,
           "WorkingDir": "/var/lib/fedbundle", "StopSignal": "SIGTERM", "Volumes": {"/var/lib/fedbundle": {}},
           "Labels": {f"org.opencontainers.image.{name}": text for name, text in labels.items()}}
    return {"architecture": "amd64", "os": "linux", "created": day, "config": run, "history": [{"created": day, "created_by": "tools/image.py"}],
            "rootfs": {"type": "layers", "diff_ids": [f"sha256:{hashlib.sha256(layer).hexdigest()}"]}}


def layout_of(files, version, moment):
    """The files of the layout, by their places."""
    layer, blobs = layer_of(files, moment), {}

    def blob(content, kind):
        digest = hashlib.sha256(content).hexdigest()
        blobs[f"blobs/sha256/{digest}"] = content
        return {"mediaType": f"application/vnd.oci.image.{kind}", "digest": f"sha256:{digest}", "size": len(content)}

    config = blob(json.dumps(config_of(layer, version, moment)).encode(), "config.v1+json")
    manifest = {"schemaVersion": 2, "mediaType": "application/vnd.oci.image.manifest.v1+json", "config": config,
                "layers": [blob(gzip.compress(layer, 9, mtime=0), "layer.v1.tar+gzip")]}
    named = {**blob(json.dumps(manifest).encode(), "manifest.v1+json"), "annotations": {"org.opencontainers.image.ref.name": version}}
    index = {"schemaVersion": 2, "mediaType": "application/vnd.oci.image.index.v1+json", "manifests": [named]}
    return {"oci-layout": b'{"imageLayoutVersion":"1.0.0"}', "index.json": json.dumps(index).encode(), **blobs}


def write(folder, layout, version, moment):
    for place, content in layout.items():
        path = folder / "fedbundle" / place
        path.parent.mkdir(parents=True, exist_ok=True)
        path.write_bytes(content)
    path = folder / f"fedbundle-{version}.oci.tar"
    path.write_bytes(layer_of_layout(layout, moment))
    print(f"{path.stat().st_size:9} bytes  {path}")


def layer_of_layout(layout, moment):
    out = io.BytesIO()
    with tarfile.open(fileobj=out, mode="w", format=tarfile.USTAR_FORMAT) as tar:
        for place in sorted(layout):
            entry = member(place, tarfile.REGTYPE, 0o644, moment)
            entry.size = len(layout[place])
            tar.addfile(entry, io.BytesIO(layout[place]))
    return out.getvalue()


def main():
    reader = argparse.ArgumentParser(prog="image", allow_abbrev=False)
    reader.add_argument("folder", type=Path)
    reader.add_argument("--debs", type=Path)
    reader.add_argument("--archive", type=Path)
    words, package = reader.parse_args(), tool_of("package")
    words.folder.mkdir(parents=True, exist_ok=True)
    with tempfile.TemporaryDirectory() as room:
        debs = words.debs or Path(room)
        if not words.debs and subprocess.run(["apt-get", "download", "-qq", *PACKAGES], cwd=room, stderr=subprocess.DEVNULL).returncode:
            sys.exit("image: apt-get did not download the packages; run apt-get update first, or give --debs")
        files, version, moment = files_of(words.archive or package.ARCHIVE, debs, package)
        write(words.folder, layout_of(files, version, moment), version, moment)


if __name__ == "__main__":
    main()

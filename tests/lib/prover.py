"""Calls the kit's prover on crates of a repository, over libraries that were proved and built before."""
import functools
import importlib.machinery
import importlib.util
import io
import os
import shutil
import subprocess
import sys
import tempfile
from pathlib import Path

# Bytes of memory that a check of a large crate may take.
MEMORY_OF_A_CHECK = 5_000_000_000


def lanes():
    """How many checks may run side by side."""
    free = next(int(line.split()[1]) * 1024 for line in open("/proc/meminfo") if line.startswith("MemAvailable:"))
    return max(1, min(len(os.sched_getaffinity(0)), free // MEMORY_OF_A_CHECK))


def link_or_copy(source, target):
    try:
        os.link(source, target)
    except OSError:
        shutil.copy2(source, target)


def kit():
    """The folder of the kit, from the path of its first page."""
    ran = subprocess.run(["rt", "doc"], stdin=subprocess.DEVNULL, capture_output=True, text=True, check=True)
    return Path(ran.stdout.strip()).parent


def load_rtlib(folder):
    """The module of rt that knows how the prover is called. It computes the stamp of a crate once, and not again for each
    path that leads to the crate."""
    loader = importlib.machinery.SourceFileLoader("rtlib", f"{folder}/bin/rtlib.py")
    made = importlib.util.module_from_spec(importlib.util.spec_from_loader("rtlib", loader))
    sys.modules["rtlib"] = made
    loader.exec_module(made)
    made.Crate.stamp = functools.cache(made.Crate.stamp)
    return made


class Prover:
    """The prover over the crates of a repository."""

    def __init__(self, top):
        self.rtlib = load_rtlib(kit())
        self.crates = {it.name: it for it in self.rtlib.crates_below(str(top))}
        for crate in self.crates.values():
            crate.out = io.StringIO()

    def words(self, name):
        """How rt calls the prover to check the crate, by one job."""
        return [self.rtlib.RATTLE, "check", *self.crates[name].words(["--jobs", "1"])]

    def is_built(self, name):
        """Whether the crate's library is built of the sources that are there. `rt check` leaves a stamp with it. `rt ci` leaves
        none: there the library must have been laid out after all sources were written. What an earlier run kept is laid out as
        a second name of that file, which changes the time of its inode alone."""
        crate = self.crates[name]
        made = Path(crate.rlib, "format")
        if Path(crate.folder, "out/rlib/stamp").exists() or not made.exists():
            return crate.is_built()
        folders = [Path(it.folder, part) for it in [*crate.below(), crate] for part in self.rtlib.PARTS]
        return all(file.stat().st_mtime < made.stat().st_ctime for folder in folders for file in folder.rglob("*") if file.is_file())

    def lacks(self, name):
        """The libraries below a crate that are not built from the sources that are there."""
        return [it.name for it in self.crates[name].below() if not self.is_built(it.name)]

    def check(self, name, texts, kept):
        """The status and the output of a check of the crate with these texts, over a folder of kept work."""
        return self.run(name, texts, "--incremental", str(kept))

    def look(self, name, texts):
        """What is said of the crate with these texts before any proof."""
        return self.run(name, texts, "--only", "")[1]

    def run(self, name, texts, *more):
        folder = self.crates[name].folder
        with tempfile.TemporaryDirectory() as room:
            for part in self.rtlib.PARTS:
                if os.path.isdir(f"{folder}/{part}"):
                    shutil.copytree(f"{folder}/{part}", f"{room}/{part}")
            for file, text in texts.items():
                Path(room, file).write_text(text)
            ran = subprocess.run(
                [*self.words(name), *more], cwd=room, stdin=subprocess.DEVNULL, stdout=subprocess.PIPE,
                stderr=subprocess.STDOUT, text=True, errors="replace",
            )
        return ran.returncode, ran.stdout

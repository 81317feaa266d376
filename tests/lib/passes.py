"""The lines of tests/passed/: when a script that is run by hand last passed, and on which sources.

Each script has a file of its own with one line, so that two branches that run different scripts can be merged: the day, the
commit, how many things were left out, and the digest of what the script is about (needs.py). Only tests/run writes them."""
import datetime
import hashlib
import subprocess
from pathlib import Path

TOP = Path(__file__).resolve().parent.parent.parent
FOLDER = TOP / "tests/passed"
# No script is about these.
NOT_READ = {"out", "__pycache__", "must-fail", "edits", "specs", "proofs"}


def files_of(path):
    """The files of a folder: of a crate its sources, but no proofs and no wrong bodies."""
    if path.is_file():
        return [path]
    return [file for part in path.iterdir() if part.name not in NOT_READ for file in files_of(part)]


def files_about(script):
    """The script and all that it is about, in order. A pattern that names nothing is an error in the table."""
    found = {TOP / "tests" / script.file}
    for pattern in script.about.split():
        paths = list(TOP.glob(pattern))
        if not paths:
            raise ValueError(f"{script.name} is about {pattern}, which is not there")
        found.update(file for path in paths for file in files_of(path))
    return sorted(found)


def digest_of(script):
    digest = hashlib.sha256()
    for file in files_about(script):
        digest.update(f"{file.relative_to(TOP)} {hashlib.sha256(file.read_bytes()).hexdigest()}\n".encode())
    return digest.hexdigest()[:16]


def write(script, parts, digest):
    """Notes that a script has passed on files of this digest."""
    commit = subprocess.run(["git", "rev-parse", "--short=8", "HEAD"], cwd=TOP, capture_output=True, text=True).stdout.strip()
    FOLDER.mkdir(exist_ok=True)
    (FOLDER / script.key).write_text(f"{datetime.date.today()} {commit or 'no-commit'} {parts} left out {digest}\n")


def read(script):
    """The day, the commit, how many things were left out, and the digest; or None."""
    file = FOLDER / script.key
    if not file.exists():
        return None
    day, commit, parts, _, _, digest = file.read_text().split()
    return day, commit, int(parts), digest

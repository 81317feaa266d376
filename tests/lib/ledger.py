"""The ledger of wrong bodies: when each was last tried, by which kit, and what came of it. Each crate has its own, the file
edits/ledger, so that branches which change two crates can be merged.

A line has seven words, and lines are in the order of the edits:
- the crate, and the edit's name
- a digest of what its verdict rests on (tests/lib/grounds.py); if it is another one now, the edit is due
- the kit's logic, as `rt version` names it, and the day
- the verdict, with `_` between its words
- a sum of the words before, so that a line that was changed by hand is found
"""
import fcntl
import hashlib
import os
import re
from contextlib import contextmanager
from dataclasses import dataclass

REFUSED, BY_NAME, BY_LIMIT, PROVED = "refused", "refused by a name alone", "refused by a limit", "proved"
VERDICTS = [REFUSED, BY_NAME, BY_LIMIT, PROVED]
HEAD = "# tests/edits.py --due writes this: crate, edit, digest of what the verdict rests on, kit's logic, day, verdict, sum\n"
FUNCTION = re.compile(r"( *)(pub )?(?:pub\(\w+\) )?(?:const |unsafe |extern \S+ )*fn \w")
CLAUSE = re.compile(r" *(ensures|requires|ghost|where)\b")


def sum_of(text):
    return hashlib.sha256(text.encode()).hexdigest()


@dataclass
class Line:
    crate: str
    edit: str
    digest: str
    logic: str
    day: str
    verdict: str

    def text(self):
        words = " ".join([self.crate, self.edit, self.digest, self.logic, self.day, self.verdict.replace(" ", "_")])
        return f"{words} {sum_of(words)[:8]}"


def path_of(top, crate):
    return top / "crates" / crate / "edits/ledger"


def read(path):
    """The lines of a crate's ledger by crate and edit, and what is wrong with those that are not lines of it."""
    lines, faults, crate = {}, [], path.parent.parent.name
    for number, text in enumerate(path.read_text().splitlines() if path.exists() else [], 1):
        words = text.split(" ")
        if text.startswith("#"):
            continue
        line = Line(*words[:5], words[5].replace("_", " ")) if len(words) == 7 else None
        if not line or line.text() != text or line.verdict not in VERDICTS or line.crate != crate:
            faults.append(f"{crate}/edits/ledger:{number}: the line was not written by tests/edits.py --due: {text[:80]}")
        elif (line.crate, line.edit) in lines:
            faults.append(f"{crate}/edits/ledger:{number}: {line.edit} has two lines")
        else:
            lines[line.crate, line.edit] = line
    return lines, faults


def read_all(top, crates):
    """The lines of all ledgers, and what is wrong with them."""
    lines, faults = {}, []
    for crate in crates:
        new, wrong = read(path_of(top, crate))
        lines.update(new)
        faults += wrong
    return lines, faults


def write(path, lines):
    """Writes a crate's ledger in one step, so that a stop leaves it as it was or as it is to be."""
    new = path.with_name(path.name + ".new")
    new.write_text(HEAD + "".join(line.text() + "\n" for _, line in sorted(lines.items())))
    os.replace(new, path)


@contextmanager
def locked(path):
    """No other run has this lock. It is that of the ledger's folder, so no file is left of it."""
    folder = os.open(path.parent, os.O_RDONLY)
    try:
        fcntl.flock(folder, fcntl.LOCK_EX)
        yield
    finally:
        os.close(folder)


def change(path, turn):
    """Writes what `turn` makes of the lines that the ledger has now, since another run or a merge may have written it meanwhile.
    Returns its lines then, and what is wrong with it: if something is, it is not written."""
    with locked(path):
        lines, faults = read(path)
        if not faults:
            lines = turn(lines)
            write(path, lines)
    return lines, faults


def is_at_body(contract, indent):
    """Whether the last of these lines of a function ends its contract."""
    last = contract[-1]
    is_signature = last.startswith((indent + "}", indent + ")", indent + "fn", indent + "pub")) and not CLAUSE.match(last)
    depth = sum(line.count("{") - line.count("}") for line in contract)
    return last == indent + "{" or last.endswith(";") and depth == 0 or is_signature and last.endswith(("{", "{}"))

#!/usr/bin/env python3
"""Shows, in a copy of the repository, that branches can be merged, and that the ledgers of wrong bodies say what is so.

merge      two branches change two crates: in each a source, a new edit and the ledger. They are merged without a conflict, and
           the checks of the gate that prove nothing pass on the merge
falsified  of each kind of line that no run wrote, one is put into a ledger and refused
due        an option more in the table of command_line makes at most 30 edits due, and other names of bound variables, other
           comments and another layout of definitions of replica_view make none due

The copy is of the last commit. Nothing is proved: the lines that a branch adds are of this test. It needs git and python3.

usage: merge     a line for each; the status is 1 if one is not so
"""
import shutil
import subprocess
import sys
import tempfile
from pathlib import Path

TOP = Path(__file__).resolve().parent.parent
sys.dont_write_bytecode = True
sys.path[:0] = [str(TOP / "tests"), str(TOP / "tests/lib")]
import edits  # noqa: E402
import ledger  # noqa: E402
from grounds import Grounds  # noqa: E402

# The crates of the two branches, each with a source whose first comment the branch changes.
BRANCHES = {"spiffe_name": "src/lib.rt", "text_lines": "src/lib.rt"}
CHECKS = ["names.py", "pages.py", "edits.py --texts", "edits.py --ledger", "manual.py", "release.py"]
MOST_OF_OPTION = 30
# A flag `--grouped` of `list`: in each file the text before which the new one is put.
NAME, ROWS, TABLE = "src/command_name.rt", "src/option_rows.rt", "specs/OptionRows.antt"
OPTION = [
    (NAME, "    MostReceipts,\n", "    Grouped,\n"),
    (NAME, "    TakenOption::Optional(OptionName::Keys),\n", "    TakenOption::Optional(OptionName::Grouped),\n"),
    (ROWS, "            OptionName::Keys => ", '            OptionName::Grouped => flag("grouped", "Groups the lines"),\n'),
    (TABLE, "option_row option.Keys = ", 'option_row option.Grouped = (codes "grouped", Flag)\n'),
    (TABLE, "Optional option.Keys ∷", "Optional option.Grouped ∷ "),
]
# Other bound names, another comment and another layout, of crates/replica_view.
LINES = "specs/HeldLines.antt"
RENAMED = [
    (LINES, "(r : Receipt) (line : List ℕ) : Type 0 where", "(one : Receipt)\n    (row : List ℕ) : Type 0 where"),
    (LINES, "IsStatusOf m r status\n  pub is : line ≡ mark ++ held_receipt_line r status", "IsStatusOf m one status\n  pub is : row ≡ mark ++ held_receipt_line one status"),
    (LINES, "ShowsRecord mark x line = line ≡ mark ++ held_record_line x", "ShowsRecord first it row =\n    row ≡ first ++ held_record_line it"),
    (LINES, "-- ---- lines", "-- ---- the lines"),
    ("specs/Inside/Offered.antt", "(λ d. offers_of (document_of domain d))", "(λ one. offers_of (document_of domain one))"),
]
failed = []


def say(is_so, text):
    print(f"{'ok' if is_so else 'failed'}: {text}", flush=True)
    failed.extend([] if is_so else [text])


def git(room, *words):
    ran = subprocess.run(["git", "-C", str(room), "-c", "user.name=test", "-c", "user.email=test@example.org", *words],
                         stdin=subprocess.DEVNULL, capture_output=True, text=True)
    return ran.returncode, ran.stdout + ran.stderr


def replace(file, old, new):
    text = file.read_text()
    if text.count(old) != 1:
        sys.exit(f"merge: {file} has {text.count(old)} times: {old}")
    file.write_text(text.replace(old, new))


def line_of(grounds, crate, edit, verdict=ledger.REFUSED):
    return ledger.Line(crate, edit.stem, grounds.digest(crate, edit), "0" * 16, "2026-01-01", verdict)


def begin_section(room):
    """The first change after a release begins a section of CHANGELOG."""
    changes = room / "CHANGELOG.md"
    if "\n## Unreleased\n" not in changes.read_text():
        changes.write_text(changes.read_text().replace("\n## ", "\n## Unreleased\n\n## ", 1))
        git(room, "commit", "-q", "-a", "-m", "A section of CHANGELOG")


def change_crate(room, crate, file):
    """Changes a source of the crate, adds an edit, and writes its ledger with a line of that and another day in one."""
    folder = room / "crates" / crate
    source = folder / file
    source.write_text("//! Changed on a branch.\n" + source.read_text())
    old = edits.edits_of(crate)[0]
    new = folder / "edits/of_a_branch.edit"
    new.write_text(old.read_text().rstrip("\n") + " \n")
    grounds, path = Grounds(room, edits.uses()), ledger.path_of(room, crate)
    lines, _ = ledger.read(path)
    first = lines[crate, old.stem]
    lines[crate, old.stem] = ledger.Line(crate, old.stem, first.digest, first.logic, "2026-01-01", first.verdict)
    ledger.write(path, {**lines, (crate, new.stem): line_of(grounds, crate, new)})


def check_merge(room):
    for crate, file in BRANCHES.items():
        git(room, "checkout", "-q", "-b", crate, "start")
        change_crate(room, crate, file)
        git(room, "add", "-A")
        status, said = git(room, "commit", "-q", "-m", f"A change of {crate}")
        say(status == 0, f"a branch changes {crate}{said}")
    first, second = BRANCHES
    git(room, "checkout", "-q", first)
    status, said = git(room, "merge", "-q", "--no-edit", second)
    say(status == 0, f"the branches are merged {said}")
    for check in CHECKS:
        ran = subprocess.run([f"tests/{check.split()[0]}", *check.split()[1:]], cwd=room, stdin=subprocess.DEVNULL,
                             stdout=subprocess.PIPE, stderr=subprocess.STDOUT, text=True)
        last = "\n".join(ran.stdout.splitlines()[-8:] if ran.returncode else ran.stdout.splitlines()[-1:])
        say(ran.returncode == 0, f"tests/{check} on the merge: {last}")


def falsified(line, other):
    """What nobody but a run may write, each as the text of a line, or None for a line that is taken out, and what is said."""
    text = line.text()
    proved = ledger.Line(line.crate, line.edit, line.digest, line.logic, line.day, ledger.PROVED)
    gone = ledger.Line(line.crate, "of_no_edit", line.digest, line.logic, line.day, line.verdict)
    return {
        "another verdict": (text.replace(" refused ", " refused_by_a_limit "), "was not written"),
        "another digest": (text.replace(line.digest, line.digest[::-1]), "was not written"),
        "another day": (text.replace(line.day, "2099-01-01"), "was not written"),
        "a line of another crate": (other.text(), "was not written"),
        "a line that says proved": (proved.text(), "so its contract is too weak"),
        "a line of an edit that is gone": (gone.text(), "the edit is gone"),
        "two lines of an edit": (f"{text}\n{text}", "has two lines"),
        "no line": (None, "it has no line"),
    }


def check_falsified(room):
    first, second = BRANCHES
    path, others = ledger.path_of(room, first), ledger.read(ledger.path_of(room, second))[0]
    text = path.read_text()
    line = next(line for line in ledger.read(path)[0].values() if line.verdict == ledger.REFUSED)
    say(not edits.ledger_faults()[0], "the ledgers have no fault")
    for what, (new, said) in falsified(line, next(iter(others.values()))).items():
        path.write_text(text.replace(line.text() + "\n", f"{new}\n" if new else ""))
        faults = edits.ledger_faults()[0]
        say(any(said in fault for fault in faults), f"{what} is refused: {'; '.join(faults)[:120]}")
    path.write_text(text)


def digests(room):
    grounds = Grounds(room, edits.uses())
    return {(crate, edit.stem): grounds.digest(crate, edit) for crate in grounds.used for edit in edits.edits_of(crate)}


def check_due(room):
    before = digests(room)
    for file, old, new in OPTION:
        replace(room / "crates/command_line" / file, old, new + old)
    due = sum(digest != before[name] for name, digest in digests(room).items())
    say(0 < due <= MOST_OF_OPTION, f"an option more makes {due} edits due, and {MOST_OF_OPTION} may be")
    git(room, "checkout", "-q", ".")
    for file, old, new in RENAMED:
        replace(room / "crates/replica_view" / file, old, new)
    due = [name for name, digest in digests(room).items() if digest != before[name]]
    say(not due, f"other bound names, comments and layout make {len(due)} edits due")
    git(room, "checkout", "-q", ".")


def main():
    if sys.argv[1:]:
        sys.exit("usage: merge")
    with tempfile.TemporaryDirectory() as name:
        room = Path(name, "repository")
        git(TOP, "clone", "-q", "--no-hardlinks", str(TOP), str(room))
        edits.TOP = room
        git(room, "checkout", "-q", "-b", "start")
        begin_section(room)
        check_due(room)
        check_falsified(room)
        check_merge(room)
    print(f"{len(failed)} failed")
    sys.exit(1 if failed else 0)


if __name__ == "__main__":
    main()

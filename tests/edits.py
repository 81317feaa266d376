#!/usr/bin/env python3
"""Has the prover refuse wrong bodies: the edits of crates/*/must-fail/ and of crates/*/edits/.

An edit is a change of the code that turns its meaning; if the crate is still proved with it, a contract is too weak. `rt ci`
tries those of must-fail/, which a user would name, and proves their crates a second time for it. Those of edits/ are tried by
waves: wrong bodies of different functions by one check, of just these functions (tests/lib/waves.py).

When each was last tried, and what came of it, is in the ledger of its crate, crates/NAME/edits/ledger (tests/lib/ledger.py). An
edit is due if what its verdict rests on has changed since (tests/lib/grounds.py), or if another kit tried it.

All are tried over the libraries that earlier checks left in out/, some crates side by side, each in a folder of its own. Change
no source meanwhile. It needs rt, git and python3. A line for each edit that was not refused for its meaning, and at the end how
many were tried; the status is 1 if one was accepted, or if nothing is known of one.

usage: edits --gate        after `rt ci` passed: tries at most 30 edits that have no line or are due, and then a sample: the
                           edits are cut into parts of 60, and the number of the commit says which part is tried, so that
                           any 21 commits in a row try all. It writes nothing. It fails for one that is accepted, for one that
                           cannot be applied any more, and for one that has no line and was not tried, was refused by a
                           name alone, or got no verdict. Those that are due are listed, and do not fail
       edits --due [--minutes N] [CRATE..]
                           tries those that have no line or are due and writes the ledgers, until N minutes have passed: the
                           crates with most of them first. SIGTERM ends it after what is just tried
       edits --all [--minutes N] [CRATE..]
                           the same for all edits
       edits --ledger      proves nothing: it fails if a ledger has a line that says `proved`, that is of an edit that is gone,
                           or that this script did not write, or if an edit has no line; and counts those that are due
       edits --texts       proves nothing: it checks that each edit can still be applied
"""
import datetime
import re
import resource
import shutil
import signal
import subprocess
import sys
import tempfile
import threading
import time
from concurrent.futures import ThreadPoolExecutor
from dataclasses import dataclass
from pathlib import Path

TOP = Path(__file__).resolve().parent.parent
sys.dont_write_bytecode = True
sys.path.insert(0, str(TOP / "tests/lib"))
import ledger  # noqa: E402
import waves  # noqa: E402
from grounds import Grounds  # noqa: E402
from prover import Prover, lanes  # noqa: E402

# How many edits that have no line or are due the gate tries, and how many others.
MOST_DUE = 30
SAMPLE = 60


def stop(text):
    sys.exit(f"edits: {text}")


def uses():
    """The repository's crates, each with those that it uses."""
    lines = [line.split(":") for line in (TOP / "crates.txt").read_text().splitlines() if ":" in line and line[0] != "#"]
    named = {name.split()[0] for name, _ in lines}
    return {name.split()[0]: [other for other in others.split() if other in named] for name, others in lines}


def edits_of(crate, folders=("must-fail", "edits")):
    return [file for folder in folders for file in sorted((TOP / "crates" / crate / folder).glob("*.edit"))]


def output_of(*words):
    ran = subprocess.run(words, cwd=TOP, stdin=subprocess.DEVNULL, capture_output=True, text=True, errors="replace")
    return ran.stdout.strip()


def stale(edit):
    """Why an edit cannot be applied, if it cannot: each old text is there exactly once in what the pairs before it
    made."""
    kinds = "".join(line[0] for line in edit.read_text().splitlines() if line.startswith(("file: ", "old: ", "new: ")))
    if not re.fullmatch(r"(f(on)+)+", kinds):
        return "it has no file, or not a new text for each old one"
    texts = {}
    for file, old, new in waves.pairs_of(edit):
        path = edit.parent.parent / file
        text = texts[file] if file in texts else path.read_text() if path.is_file() else ""
        if text.count(old) != 1 or new == old:
            return f"the old text stands {text.count(old)} times in its file: {old}"
        texts[file] = text.replace(old, new)
    return None


def check_texts():
    edits = [edit for crate in uses() for edit in edits_of(crate)]
    faults = [f"{edit.relative_to(TOP)}: {why}" for edit in edits if (why := stale(edit))]
    print("\n".join([*faults, f"{len(edits)} edits, {len(faults)} that cannot be applied"]))
    sys.exit(1 if faults or not edits else 0)


def logic_of_kit():
    """The kit's logic, as `rt version` names it, or None if there is no rt."""
    if not shutil.which("rt"):
        return None
    return re.search(r"\blogic (\w+)", output_of("rt", "version"))[1]


@dataclass
class Due:
    """The (crate, edit) that have no line, that rest on something else now, and that another kit tried, each oldest first."""

    none: list
    changed: list
    other: list

    def all(self):
        return [*self.none, *self.changed, *self.other]


def find_due(lines, grounds, logic):
    none, changed, other = [], [], []
    for crate in grounds.used:
        for edit in edits_of(crate):
            line = lines.get((crate, edit.stem))
            if not line:
                none.append(("", crate, edit))
            elif line.digest != grounds.digest(crate, edit):
                changed.append((line.day, crate, edit))
            elif logic and line.logic != logic:
                other.append((line.day, crate, edit))
    return Due(*([(crate, edit) for _, crate, edit in sorted(found)] for found in (none, changed, other)))


def ledger_faults():
    """What is wrong with the ledgers, and their lines."""
    used = uses()
    lines, faults = ledger.read_all(TOP, used)
    there = {(crate, edit.stem) for crate in used for edit in edits_of(crate)}
    for name, line in sorted(lines.items()):
        if name not in there:
            faults.append(f"{line.crate}/{line.edit}: the ledger has a line, and the edit is gone")
        elif line.verdict == ledger.PROVED:
            faults.append(f"{line.crate}/{line.edit}: the crate is still proved with it, so its contract is too weak")
    faults += [f"{crate}/{edit}: it has no line: tests/edits.py --due tries it" for crate, edit in sorted(there - set(lines))]
    return faults, lines


def check_ledger():
    faults, lines = ledger_faults()
    due = find_due(lines, Grounds(TOP, uses()), logic_of_kit())
    counts = {verdict: sum(line.verdict == verdict for line in lines.values()) for verdict in ledger.VERDICTS}
    print("\n".join([
        *faults, *(f"due: {crate}/{edit.stem}" for crate, edit in due.changed),
        *(f"{count} {verdict}" for verdict, count in counts.items() if count),
        f"{len(lines)} lines: {len(due.changed)} due, {len(due.none)} edits without a line, {len(due.other)} tried by another kit; "
        f"{len(faults)} faults",
    ]))
    sys.exit(1 if faults or not lines else 0)


class Trial:
    """A run that tries edits: what it knows of them, what came of those that it tried, and when it ends."""

    def __init__(self, writes, minutes=1_000_000):
        self.logic, self.prover, self.grounds, self.writes = logic_of_kit(), Prover(TOP), Grounds(TOP, uses()), writes
        if self.logic is None:
            stop("rt is missing")
        self.lines, self.faults = ledger.read_all(TOP, self.grounds.used)
        if self.faults:
            stop(self.faults[0])
        self.due = find_due(self.lines, self.grounds, self.logic)
        self.end, self.alone = time.monotonic() + 60 * minutes, threading.Lock()
        self.said, self.bad, self.left_out = {}, [], []

    def is_over(self):
        return time.monotonic() >= self.end

    def write(self, crate, digests):
        """Adds what was tried of a crate to its ledger. While that has lines that are not valid, as within a merge, it is not
        written."""
        day = datetime.datetime.now(datetime.timezone.utc).date().isoformat()
        there = {(crate, edit.stem) for edit in edits_of(crate)}
        new = {(crate, name): ledger.Line(crate, name, digest, self.logic, day, self.said[crate, name])
               for name, digest in digests.items() if self.said[crate, name]}
        _, faults = ledger.change(
            ledger.path_of(TOP, crate), lambda lines: {name: line for name, line in {**lines, **new}.items() if name in there})
        self.faults += faults
        for fault in faults[:1]:
            print(f"the ledger is not written: {fault}", flush=True)

    def is_bad(self, crate, name, verdict, said):
        """Whether this verdict fails the run. The gate is not failed by a name that is gone, nor by a check that ended without
        a verdict, as for lack of memory, unless the edit has no line. An edit whose text is no code cannot be applied."""
        is_new = self.writes or (crate, name) not in self.lines
        if verdict is None:
            return is_new or bool(waves.NO_CODE_AT.search(said))
        return verdict == ledger.PROVED or verdict == ledger.BY_NAME and is_new

    def note(self, crate, digests, verdicts, said):
        """Takes the verdicts on some edits of a crate."""
        with self.alone:
            for name, verdict in sorted(verdicts.items()):
                self.said[crate, name] = verdict
                is_bad = self.is_bad(crate, name, verdict, said)
                if is_bad or self.writes or verdict in (ledger.BY_NAME, None):
                    print(f"{crate}/{name}: {verdict or f'nothing is known{chr(10)}{said[-2000:]}'}", flush=True)
                self.bad += [f"{crate}/{name}"] * is_bad
            if self.writes:
                self.write(crate, {name: digests[name] for name in verdicts})

    def try_wave(self, tries, wave):
        """Tries a wave, and again those of its edits of which it says nothing."""
        digests = {edit.name(): self.grounds.digest(tries.crate, edit.path) for edit in wave} if self.writes else {}
        verdicts, said = tries.verdicts(wave)
        if len(wave) == 1 and None in verdicts.values() and not waves.NO_CODE_AT.search(said):
            verdicts, said = tries.verdicts(wave)
        again = [edit for edit in wave if verdicts[edit.name()] is None and len(wave) > 1]
        self.note(tries.crate, digests, {name: it for name, it in verdicts.items() if it or not again}, said)
        for part in waves.waves_again(again, said):
            if not self.is_over():
                self.try_wave(tries, part)

    def leave_out(self, crate, edits, why):
        with self.alone:
            print(f"left out: {len(edits)} edits of {crate}: {why}", flush=True)
            self.left_out += [(crate, edit.stem) for edit in edits]

    def try_crate(self, crate, edits):
        """Tries these edits of a crate over one check of it as it is, until the time is over."""
        lacking = self.prover.lacks(crate)
        if lacking or self.is_over():
            self.leave_out(crate, edits, f"the library {lacking[0]} is not built from these sources" if lacking else "the time is over")
            return
        with tempfile.TemporaryDirectory() as room:
            tries = waves.Waves(self.prover, crate, room)
            unproved = tries.begin()
            if unproved:
                self.note(crate, {}, {edit.stem: None for edit in edits}, f"{crate} is not proved\n{unproved}")
                return
            for wave in waves.in_waves([waves.read_edit(tries.folder, edit) for edit in edits]):
                if not self.is_over():
                    self.try_wave(tries, wave)

    def run(self, chosen):
        """Tries these (crate, edit), the crates with most of them first."""
        work = {}
        for crate, edit in chosen:
            work.setdefault(crate, []).append(edit)
        for number in (signal.SIGINT, signal.SIGTERM):
            signal.signal(number, lambda *_: setattr(self, "end", 0))
        with ThreadPoolExecutor(lanes()) as pool:
            list(pool.map(lambda item: self.try_crate(*item), sorted(work.items(), key=lambda item: -len(item[1]))))

    def summary(self):
        counts = {verdict: sum(it == verdict for it in self.said.values()) for verdict in ledger.VERDICTS}
        counts["without a verdict"] = sum(it is None for it in self.said.values())
        words = [f"{count} {verdict}" for verdict, count in counts.items() if count]
        used = resource.getrusage(resource.RUSAGE_CHILDREN)
        return f"{len(self.said)} edits tried{''.join(f', {it}' for it in words)}, in {used.ru_utime + used.ru_stime:.0f} s of a processor"


def part_of_commit(edits):
    """The edits of the sample, and which part of all they are. The number of the commit says which; in a clone that does not
    have all commits its name does."""
    is_whole = output_of("git", "rev-parse", "--is-shallow-repository") == "false"
    number = int(output_of("git", "rev-list", "--count", "HEAD") if is_whole else output_of("git", "rev-parse", "HEAD") or "0", 10 if is_whole else 16)
    parts = max(1, -(-len(edits) // SAMPLE))
    part = number % parts
    return edits[part * SAMPLE : (part + 1) * SAMPLE], f"part {part + 1} of {parts}"


def gate():
    """Tries what is new or due, and the sample of this commit."""
    trial = Trial(writes=False)
    kept = [(crate, edit) for crate in sorted(trial.grounds.used) for edit in edits_of(crate, ["edits"])]
    due = [it for it in trial.due.all() if it[1].parent.name == "edits"]
    sample, part = part_of_commit(kept)
    first = due[:MOST_DUE]
    faults = [f"{crate}/{edit.stem}: {why}" for crate, edit in kept if (why := stale(edit))]
    trial.run([*first, *(it for it in sample if it not in first)])
    untried = [f"{crate}/{edit.stem}" for crate, edit in trial.due.none if not trial.said.get((crate, edit.stem)) and edit.parent.name == "edits"]
    print("\n".join([
        *(f"due: {crate}/{edit.stem}" for crate, edit in [*trial.due.changed, *trial.due.other]),
        *faults, *(f"{name}: it has no line, and was not tried" for name in untried),
        f"{trial.summary()}: {len(first)} of {len(due)} that are due or have no line, and {part}; "
        f"{len(trial.left_out)} left out, {len(trial.bad) + len(faults) + len(untried)} faults",
    ]))
    sys.exit(1 if trial.bad or faults or untried else 0)


def try_chosen(words, minutes, names):
    """Tries the edits of these crates, all of them or those that are due, and writes the ledgers."""
    trial = Trial(writes=True, minutes=minutes)
    chosen = [(crate, edit) for crate in trial.grounds.used for edit in edits_of(crate)] if "--all" in words else trial.due.all()
    chosen = [it for it in chosen if not names or it[0] in names]
    trial.run(chosen)
    left = sum((crate, edit.stem) not in trial.said for crate, edit in chosen)
    print(f"{trial.summary()}; {left} are left, and {len(trial.bad)} were not refused for their meaning")
    sys.exit(1 if trial.bad or trial.faults else 0)


def number_after(words, option, default):
    """The number after an option, which is taken out of the arguments."""
    if option not in words:
        return default
    at = words.index(option)
    option, number = words.pop(at), words.pop(at) if at < len(words) else ""
    if not number.isdigit() or not int(number):
        stop(f"{option} takes a number above 0")
    return int(number)


def main():
    words = sys.argv[1:]
    minutes = number_after(words, "--minutes", 1_000_000)
    alone = {"--texts": check_texts, "--ledger": check_ledger, "--gate": gate}
    if len(words) == 1 and words[0] in alone:
        alone[words[0]]()
    if words[:1] not in (["--due"], ["--all"]):
        stop("usage: edits --gate, --due, --all, --ledger or --texts")
    unknown = [name for name in words[1:] if name not in uses()]
    if unknown:
        stop(f"crates.txt names no {unknown[0]}")
    try_chosen(words, minutes, words[1:])


if __name__ == "__main__":
    main()

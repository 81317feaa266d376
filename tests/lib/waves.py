"""Tries wrong bodies, several by one check of their crate (D-573).

A proof reads of other functions only their contracts, never their bodies. So wrong bodies of different functions have no
effect on each other: with all of them in place, a check says of each function whether its own proof fails. A wave is a list of
such edits, at most one of each function. An edit that changes more than bodies of functions is a wave of its own.

A check of a wave is of its functions alone and of those that they call. What it proves is kept in a folder, from which the
next waves of the crate take what they do not change.
"""
import re
import shutil
from dataclasses import dataclass
from pathlib import Path

import ledger
from prover import link_or_copy

# What the prover says of a goal that it did not prove, and where it stands in the sources; of a line that is wrong in a file of
# proofs; of a file of proofs that names what an edit took away; and of a search that was not finished.
GOAL = re.compile(r"^note: (?:\./)?(src/\S+?):(\d+):\d+: it is not proved that (.*)", re.M)
FAULT = re.compile(r"^(?:\./)?proofs/(\S+?)/\w+\.antt:\d+:\d+: error: (.*)", re.M)
BY_NAME = re.compile(r"has no field|is not in scope|has no `|was not admitted")
BY_LIMIT = "gave up at one of its limits"
# What it says if the text of an edit is no code, so that no contract was tried; and where.
NO_CODE = re.compile(r"^(error|rattle: |(\./)?src/\S+:\d+:\d+: error)", re.M)
NO_CODE_AT = re.compile(r"^(?:\./)?(src/\S+?):(\d+):\d+: error", re.M)
VERDICT = re.compile(r"^(logic=(proved|not-proved)\b|only=\d+ proved=\d)", re.M)
# What it says if no function has the name that it was asked for.
NO_NAME = re.compile(r"has no function `([^`]+)`")
OWNER = re.compile(r"(?:pub(?:\([^)]*\))? )?(?:unsafe )?(impl|trait)\b")
TYPE = re.compile(r"(?<!['\w])[A-Za-z_]\w*")


@dataclass
class Function:
    """A function of a source: its name, and the lines of its head, and of the first and the last line of its body, counted
    from 0."""

    file: str
    name: str
    head: int
    first: int
    last: int
    is_const: bool
    owner: str = ""

    def modules(self):
        return [part for part in self.file.removeprefix("src/").removesuffix(".rt").split("/") if part not in ("lib", "main", "mod")]

    def path(self):
        """The path by which the prover names it, below the crate."""
        return "::".join([*self.modules(), *([self.owner] if self.owner else []), self.name])

    def has(self, file, line):
        """Whether the line of the file, counted from 1, is the function's."""
        return self.file == file and self.head < line <= self.last + 2

    def is_called(self, path):
        """Whether a path of the prover, below the crate, names this function or a closure in it."""
        module = self.modules()
        parts = path.split("::")
        rest = parts[len(module):]
        if parts[: len(module)] != module or not rest:
            return False
        if "fn" in rest:
            return rest[rest.index("fn") + 1 :][:1] == [self.name]
        return rest[-1] == self.name and len(rest) <= 2 and (len(rest) == 1 or rest[0][:1].isupper())


def owner_in(head):
    """The name of the type or the trait whose impl, or which itself, has this head; and those of the trait that an impl is
    of."""
    if found := re.match(r".*?\btrait (\w+)", head, re.S):
        return found[1], []
    head, depth, at = re.sub(r"\w+::", "", head).split("impl", 1)[1], 0, 0
    while depth or head[at] in "<>":
        depth += (head[at] == "<") - (head[at] == ">" and head[at - 1] != "-")
        at += 1
    trait, _, target = re.split(r"\bwhere\b|\{", head[at:])[0].rpartition(" for ")
    return next(iter(TYPE.findall(target)), ""), TYPE.findall(trait)


def functions_of(file, text):
    """The functions of a source, the outermost ones."""
    lines, found, at, owner = text.split("\n"), [], 0, ""
    while at < len(lines):
        if OWNER.match(lines[at]):
            of_type, of_trait = owner_in("\n".join(lines[at : next(n for n in range(at, len(lines)) if lines[n].endswith(("{", "{}"))) + 1]))
            owner = "".join([of_type, *of_trait])
        head = ledger.FUNCTION.match(lines[at])
        if not head:
            at += 1
            continue
        start = at
        while not ledger.is_at_body([line for line in lines[start : at + 1] if line.strip()], head[1]) and at + 1 < len(lines):
            at += 1
        first = at + 1
        if lines[at].endswith("{"):
            at = next((n for n in range(first, len(lines)) if lines[n] == head[1] + "}"), len(lines))
            name = re.search(r"\bfn (\w+)", lines[start])[1]
            found.append(Function(file, name, start, first, at - 1, "const fn" in lines[start], owner if head[1] else ""))
        at += 1
    return found


@dataclass
class Edit:
    """A wrong body: its file, the texts of sources that it makes, and the functions whose bodies it changes, or None if it
    changes something else."""

    path: Path
    pairs: list
    functions: list

    def name(self):
        return self.path.stem


def pairs_of(path):
    """The (file, old text, new text) of an edit."""
    file, old, pairs = "", "", []
    for line in path.read_text().split("\n"):
        if line.startswith("file: "):
            file = line.removeprefix("file: ").strip()
        elif line.startswith("old: "):
            old = line.removeprefix("old: ")
        elif line.startswith("new:"):
            pairs.append((file, old, line.removeprefix("new:").removeprefix(" ")))
    return pairs


def places_of(folder, pairs):
    """The (file, line) that each pair changes, the line counted from 0; the line is None if the old text is not there once."""
    texts = {}
    for file, old, new in pairs:
        path = folder / file
        text = texts[file] if file in texts else path.read_text() if path.is_file() else ""
        yield file, text[: text.index(old)].count("\n") if text.count(old) == 1 else None
        texts[file] = text.replace(old, new)


def changed_functions(folder, pairs):
    """The functions whose bodies the pairs change, or None if one of them changes something else."""
    found = []
    for file, line in places_of(folder, pairs):
        if line is None or not file.endswith(".rt"):
            return None
        mine = [it for it in functions_of(file, (folder / file).read_text()) if it.first <= line <= it.last and not it.is_const]
        if not mine:
            return None
        found += [it for it in mine if it not in found]
    return found


def read_edit(folder, path):
    pairs = pairs_of(path)
    return Edit(path, pairs, changed_functions(folder, pairs))


def in_waves(edits):
    """The edits as waves."""
    waves = []
    for edit in edits:
        names = {(it.file, it.name) for it in edit.functions or []}
        found = next(((wave, taken) for wave, taken in waves if names and taken and not names & taken), None)
        if not found:
            waves.append(([edit], names))
            continue
        found[0].append(edit)
        found[1].update(names)
    return [wave for wave, _ in waves]


def waves_again(edits, said):
    """The waves in which edits are tried of which one check said nothing: those whose texts are no code one by one, and all
    others together; or each alone, if all are code."""
    places = [(file, int(line)) for file, line in NO_CODE_AT.findall(said)]
    bad = [edit for edit in edits if any(it.has(*place) for it in edit.functions for place in places)]
    others = [edit for edit in edits if edit not in bad]
    return [*([others] if bad and others else [[edit] for edit in others]), *([edit] for edit in bad)]


class Waves:
    """The tries of one crate, over what was proved of it as it is."""

    def __init__(self, prover, crate, room):
        self.prover, self.crate, self.room = prover, crate, Path(room)
        self.folder, self.base = Path(prover.crates[crate].folder), Path(room, "base")

    def begin(self):
        """Takes over what an earlier check of the crate kept, and proves the crate as it is, if its library is not built of
        these sources. Returns what the prover says if it does not."""
        kept = self.folder / "out/incremental"
        if kept.is_dir():
            shutil.copytree(kept, self.base, copy_function=link_or_copy)
        else:
            self.base.mkdir()
        if self.prover.is_built(self.crate):
            return None
        status, said = self.prover.check(self.crate, {}, self.base)
        return said if status else None

    def check(self, wave, texts):
        """Checks the functions of the wave, or the crate if it changes something else. A function whose name the prover does
        not know, as that of a closure's impl, stands for all of its module."""
        paths = {it.path(): "::".join(it.modules()) for edit in wave for it in edit.functions or []}
        asked = set(paths) if all(edit.functions for edit in wave) else set()
        while True:
            words = [word for path in sorted(asked) for word in ("--only", path)]
            status, said = self.prover.run(self.crate, texts, "--incremental", str(self.base), *words)
            unknown = NO_NAME.search(said)
            if not words or not unknown:
                return status, said
            asked = asked - {unknown[1]} | {paths[unknown[1]]} if paths.get(unknown[1]) else set()

    def texts(self, wave):
        """The sources with these edits, or None if one of them finds its old text in what another one made."""
        texts = {}
        for edit in wave:
            for file, old, new in edit.pairs:
                text = texts[file] if file in texts else (self.folder / file).read_text()
                if text.count(old) != 1:
                    return None
                texts[file] = text.replace(old, new)
        return texts

    def verdicts(self, wave):
        """The verdict of each edit of a wave by its name, or None if nothing is known of it; and what the prover said."""
        texts = self.texts(wave)
        if texts is None:
            return {edit.name(): None for edit in wave}, "their old texts stand there more than once"
        status, said = self.check(wave, texts)
        if not VERDICT.search(said) or len(wave) > 1 and NO_CODE.search(said):
            return {edit.name(): None for edit in wave}, said
        if len(wave) == 1:
            return {wave[0].name(): verdict_alone(status, said)}, said
        return {edit.name(): verdict_in(edit, self.crate, said) for edit in wave}, said


def verdict_of(goals, faults):
    """The verdict by what is not proved of a function, and by what is wrong in its proofs, by the rule of `rt must-fail`."""
    if any(not BY_NAME.search(fault) for fault in faults):
        return ledger.REFUSED
    if goals:
        return ledger.BY_LIMIT if all(BY_LIMIT in goal for goal in goals) else ledger.REFUSED
    return ledger.BY_NAME if faults else None


def verdict_in(edit, crate, said):
    """The verdict of an edit in a wave. It is None if no proof of its own functions fails: it is then tried alone. A function
    fails if answers are missing, or if its file of proofs is refused, and not if only one that it calls does."""
    goals = [why for file, line, why in GOAL.findall(said) if any(it.has(file, int(line)) for it in edit.functions)]
    paths = re.findall(rf"^fn {crate}::(\S+): (?:no proof: expected |not proved\b)", said, re.M)
    mine = [it for it in paths if any(function.is_called(it) for function in edit.functions)]
    faults = [why for path, why in FAULT.findall(said)
              if any(it.is_called(path.replace("/", "::")) for it in edit.functions)]
    return verdict_of(goals if mine else [], faults) or (ledger.REFUSED if mine else None)


def verdict_alone(status, said):
    """The verdict of an edit that was tried alone."""
    if status == 0:
        return ledger.PROVED
    if NO_CODE.search(said):
        return None
    return verdict_of([why for _, _, why in GOAL.findall(said)], [why for _, why in FAULT.findall(said)]) or ledger.REFUSED

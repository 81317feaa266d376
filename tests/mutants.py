#!/usr/bin/env python3
"""Makes wrong bodies by chance, and says which of them the prover accepts.

For each function with a contract that no edit changes (crates/*/edits, crates/*/must-fail), one line of its body is changed:
another number or text, another comparison, `and` for `or`, a statement left out. Which line and which change, a seed
decides. A change that is no code is left out. The others are tried as tests/edits.py tries its own (tests/lib/waves.py), over the
crates below as `rt check` left them here. Change no source meanwhile.

What is accepted is no fault by itself: a change may keep the meaning, or be in code on whose result no promise depends, such
as a guess that is checked, or what is kept for speed. Read each of them, and strengthen the contract if it is neither.

usage: mutants [--seed N] [CRATE..]    a line for each that is accepted, and one for each crate; all crates if none is named
"""
import random
import re
import sys
import tempfile
from concurrent.futures import ThreadPoolExecutor
from dataclasses import dataclass
from pathlib import Path

TOP = Path(__file__).resolve().parent.parent
sys.dont_write_bytecode = True
sys.path.insert(0, str(TOP / "tests/lib"))
import ledger  # noqa: E402
import waves  # noqa: E402
from prover import Prover, lanes  # noqa: E402

# Lines that are left as they are: comments, attributes, and what is only there for the prover.
LEFT = re.compile(r"\s*(//|#|\}|let _|prove!|$)|.*laws::")
SWAPS = [(" < ", " <= "), (" <= ", " < "), (" > ", " >= "), (" >= ", " > "), (" == ", " != "), (" != ", " == "),
         (" && ", " || "), (" || ", " && ")]
TEXT = re.compile(r'(?<=")(?:[^"\\]|\\.)+(?=")')
NUMBER = re.compile(r"""(?<![\w.'"\[<])\d+(?![\w.'"\]>])""")
# Statements that can be left out: a call whose result is not kept, and an assignment.
STATEMENT = re.compile(r"\s*(?!let|return|Ok|Err)(?:[\w.&*]+(?:\.|::|\().*\?;|(?:self\.|\*)?[\w.\[\]]+ [+-]?= .*;"
                       r"|[\w.&*]+\.(?:push|insert|clear|truncate|extend_from_slice|reverse|sort)\w*\(.*\);)$")
# How many times the compiler looks at what is left, once those that are no code are left out.
ROUNDS = 8


@dataclass
class Mutant:
    """A changed line of a function, as an edit of a wave."""

    functions: list
    line: int
    text: str

    def name(self):
        return f"{self.functions[0].file}:{self.line + 1}"


def changes_of(line):
    """The lines that one change makes of this one."""
    if LEFT.match(line):
        return
    for found in list(TEXT.finditer(line))[:1]:
        letter = re.search(r"(?<!\\)[a-z]", found[0])
        if letter:
            at = found.start() + letter.start()
            yield line[:at] + ("y" if line[at] == "x" else "x") + line[at + 1 :]
    if "=>" not in line:
        yield from (line.replace(old, new, 1) for old, new in SWAPS if old in line)
    for found in list(NUMBER.finditer(line))[:1]:
        yield line[: found.start()] + str(int(found[0]) + 1) + line[found.end() :]
    for old, new in [("true", "false"), ("false", "true")]:
        if re.search(rf"\b{old}\b", line):
            yield re.sub(rf"\b{old}\b", new, line, count=1)
    if STATEMENT.match(line):
        yield line[: len(line) - len(line.lstrip())] + "{}"
    if line.lstrip().startswith("!"):
        yield line.replace("!", "", 1)


def changed_by_edits(folder):
    """The functions that the crate's edits change, by file and first line."""
    paths = [*folder.glob("edits/*.edit"), *folder.glob("must-fail/*.edit")]
    return {(it.file, it.head) for path in paths for it in waves.read_edit(folder, path).functions or []}


def mutants_of(folder, chance):
    """A mutant of each function with a contract and no edit, if one can be made."""
    known, found = changed_by_edits(folder), []
    for path in sorted((folder / "src").rglob("*.rt")):
        text, file = path.read_text(), str(path.relative_to(folder))
        lines = text.split("\n")
        for it in waves.functions_of(file, text):
            if it.is_const or (file, it.head) in known or "ensures" not in "\n".join(lines[it.head : it.first]):
                continue
            made = [Mutant([it], at, new) for at in range(it.first, it.last + 1) for new in changes_of(lines[at]) if new != lines[at]]
            found += [chance.choice(made)] if made else []
    return found


class Tries(waves.Waves):
    """The tries of the mutants of one crate."""

    def texts(self, wave):
        texts = {}
        for it in wave:
            file = it.functions[0].file
            lines = texts[file] if file in texts else (self.folder / file).read_text().split("\n")
            lines[it.line] = it.text
            texts[file] = lines
        return {file: "\n".join(lines) for file, lines in texts.items()}

    def that_are_code(self, mutants):
        """Those that the compiler takes, found without a proof."""
        for _ in range(ROUNDS):
            said = self.prover.look(self.crate, self.texts(mutants))
            places = [(file, int(line)) for file, line in waves.NO_CODE_AT.findall(said)]
            bad = [it for it in mutants if any(it.functions[0].has(*place) for place in places)]
            if not bad:
                return mutants if not waves.NO_CODE.search(said) else []
            mutants = [it for it in mutants if it not in bad]
        return []


def try_crate(prover, crate, seed):
    """Tries the mutants of a crate, and prints those that are accepted. Returns how many were tried, and how many
    accepted."""
    lacking, accepted = prover.lacks(crate), 0
    if lacking:
        print(f"{crate}: `rt check` has to prove {lacking[0]} first", flush=True)
        return 0, 0
    with tempfile.TemporaryDirectory() as room:
        tries = Tries(prover, crate, room)
        made = mutants_of(tries.folder, random.Random(f"{seed} {crate}"))
        if tries.begin():
            print(f"{crate} is not proved, so nothing is tried", flush=True)
            return 0, 0
        mutants = tries.that_are_code(made) if made else []
        for wave in waves.in_waves(mutants):
            verdicts, _ = tries.verdicts(wave)
            for it in wave:
                verdict = verdicts[it.name()] or tries.verdicts([it])[0][it.name()]
                if verdict in (ledger.PROVED, None):
                    print(f"{crate} {it.name()} {verdict or 'nothing is known'}: {it.text.strip()}", flush=True)
                accepted += verdict == ledger.PROVED
    print(f"{crate}: {len(made)} made, {len(mutants)} tried, {accepted} accepted", flush=True)
    return len(mutants), accepted


def main():
    words, seed = sys.argv[1:], "1"
    if words[:1] == ["--seed"]:
        seed, words = " ".join(words[1:2]), words[2:]
    prover = Prover(TOP)
    unknown = [name for name in words if name not in prover.crates]
    if unknown or not seed:
        sys.exit(f"mutants: {f'crates.txt names no {unknown[0]}' if unknown else '--seed takes a number'}")
    names = [name for name in words or prover.crates if (TOP / "crates" / name / "edits").is_dir()]
    with ThreadPoolExecutor(lanes()) as pool:
        counts = list(pool.map(lambda name: try_crate(prover, name, seed), names))
    print(f"{sum(tried for tried, _ in counts)} tried, {sum(accepted for _, accepted in counts)} accepted")


if __name__ == "__main__":
    main()

#!/usr/bin/env python3
"""Runs the built program on the rows of crates/command_rows, and compares what comes of each with what is wanted.

The script is crates/command_rows/stdin, whose head says what rows there are; what is wanted of a `run` or a `shows`
is in crates/command_rows/stdout below the row, and of a `built` in the row itself. The other rows are only for
crates/command_rows. Each row runs in a folder of its own, which has the files that its arguments name.

It needs python3 and nothing else. The program is the one that ./fedbundle runs, or the one that $FEDBUNDLE names.

usage: check [WORD]     runs the rows whose lines have WORD, all if left out; the status is 1 if one fails
"""
import hashlib
import re
import subprocess
import sys
import tempfile
from pathlib import Path

TOP = Path(__file__).resolve().parent.parent.parent
sys.path.insert(0, str(TOP / "tests/lib"))
from harness import HANG, find_program  # noqa: E402

CRATE = TOP / "crates" / "command_rows"
FOR_THE_PROGRAM = ("run", "shows", "built")
MAX_SHOWN_BYTES = 200
MAX_LINES_BYTES = 4_000


class Row:
    """A row: its line, its verb, the words after that, the text of its template, and how many texts the script
    defines before it."""

    def __init__(self, line, head, text, known):
        self.line = line
        self.verb, *self.words = head.split(" ")
        self.text = text
        self.known = known


class Script:
    """The rows of a script and the texts that it defines."""

    def __init__(self, lines):
        self.texts = {}
        self.rows = []
        for line in lines:
            if not line or line.startswith("#"):
                continue
            head, _, template = line.partition(" = ")
            if head.startswith("text "):
                self.texts[head[len("text "):]] = self.expand(template)
            else:
                self.rows.append(Row(line, head, self.expand(template), len(self.texts)))
        # A long text is printed by the name of one of this many texts: all, unless a row says otherwise.
        self.known = len(self.texts)

    def expand(self, template):
        """The bytes of a template."""
        pieces = re.split(r"\$\{([^}]*)\}", template)
        return b"".join(
            self.called(piece) if place % 2 else piece.encode() for place, piece in enumerate(pieces)
        )

    def called(self, call):
        if call == "lf":
            return b"\n"
        if call.startswith("hex "):
            return bytes.fromhex(call[4:])
        if "*" in call:
            name, count = call.split("*")
            return self.texts[name] * int(count)
        if " " in call:
            name, numbers = call.split(" ")
            first, last = map(int, numbers.split(".."))
            part = self.texts[name]
            return b"".join(part.replace(b"%", b"%d" % n) for n in range(first, last + 1))
        return self.texts[call]

    def word(self, word):
        """An argument of a command line, in which `$` and a name are replaced by the text of this
        name."""
        literal, mark, name = word.partition("$")
        return literal.encode() + (self.texts[name] if mark else b"")

    def shown(self, text):
        """A text as it is printed on one line: by a name only if the script defines it before the row."""
        if len(text) <= MAX_SHOWN_BYTES:
            return "".join(map(shown_byte, text))
        for name, other in list(self.texts.items())[: self.known]:
            if other == text:
                return "${%s}" % name
        return f"{len(text)} bytes, sha256 {hashlib.sha256(text).hexdigest()}"

    def shown_lines(self, label, text):
        """The lines that are printed of a text, each behind the label."""
        if not text:
            return []
        if len(text) > MAX_LINES_BYTES:
            return [f"{label} {self.shown(text)}"]
        end = "" if text.endswith(b"\n") else " (cut)"
        lines = text.removesuffix(b"\n").split(b"\n")
        shown = [f"{label} {self.shown(line)}" for line in lines]
        shown[-1] += end
        return shown


def shown_byte(byte):
    if byte == 0x5C:
        return "\\\\"
    if byte == 0x0A:
        return "\\n"
    return chr(byte) if 0x20 <= byte <= 0x7E else f"\\x{byte:02x}"


def blocks(printed, rows):
    """What is wanted below each row: the lines behind two spaces that follow its line."""
    place = 0
    for row in rows:
        if place == len(printed) or printed[place] != row.line:
            sys.exit(f"crates/command_rows/stdout lacks the row: {row.line}")
        place += 1
        first = place
        while place < len(printed) and printed[place].startswith("  "):
            place += 1
        yield [line[2:] for line in printed[first:place]]
    if place != len(printed):
        sys.exit(f"crates/command_rows/stdout has a row more: {printed[place]}")


class Case:
    """A row as the program is run on it: the arguments, its input, and the files that the arguments
    name."""

    def __init__(self, script, words, text):
        self.words = [script.word(word) for word in words]
        self.input = text
        self.files = {}
        self.state = None
        for option, value in options(words):
            if option == "--state":
                self.state = value
            if option in ("--config", "--state", "--to", "--with") and value in script.texts:
                self.files[value] = script.texts[value]

    def run(self):
        """The output, what is on standard error, the exit status, and the state file if it has changed."""
        with tempfile.TemporaryDirectory() as folder:
            for name, text in self.files.items():
                (Path(folder) / name).write_bytes(text)
            ran = subprocess.run(
                [find_program(), *self.words],
                input=self.input,
                capture_output=True,
                cwd=folder,
                timeout=HANG,
            )
            state = self.files.get(self.state)
            path = Path(folder) / self.state if self.state else None
            left = path.read_bytes() if path and path.exists() else None
            complaints = without_reasons(ran.stderr) if b"--verbose" in self.words else ran.stderr
            return ran.stdout, complaints, ran.returncode, None if left == state else left or b""


def without_reasons(complaints):
    """The lines without those after an error's line that say why: the rows are those of the library, which has
    none. tests/system/mistakes.py compares these."""
    return b"".join(line for line in complaints.splitlines(keepends=True) if not line.startswith(b"  "))


def options(words):
    """The options of a command line and their texts."""
    for place, word in enumerate(words):
        option, mark, value = word.partition("=")
        if mark:
            yield option, value
        elif word.startswith("--") and place + 1 < len(words):
            yield word, words[place + 1]


def case_of(script, row):
    """What the program is run on for a row of one of the verbs that are for it."""
    if row.verb == "run":
        return Case(script, row.words, row.text)
    if row.verb == "shows":
        return Case(script, row.words, b"")
    _, *words = row.words
    if "<" not in words:
        return Case(script, words, b"")
    place = words.index("<")
    return Case(script, words[:place], script.texts[words[place + 1]])


def come_of(script, row):
    """The lines that say what came of a row."""
    output, errors, status, state = case_of(script, row).run()
    if row.verb == "shows":
        label, text, other = ("output", output, errors) if output else ("error", errors, output)
        lines = [f"lacks {script.shown(piece)}" for piece in row.text.split(b"|") if piece not in text]
        lines += [f"{label} holds the rest"] + script.shown_lines("besides", other)
    else:
        lines = script.shown_lines("output", output) + script.shown_lines("error", errors)
    if state is not None:
        lines += script.shown_lines("state", state) or ["state"]
    return lines + [f"status {status}"]


def wanted_of(script, row, block):
    """The lines that are wanted, of which those of a `built` are in the row."""
    if row.verb != "built":
        return block
    return script.shown_lines("error", row.text) + [f"status {row.words[0]}"]


def lines_of(path):
    return path.read_text().removesuffix("\n").split("\n")


def main():
    word = sys.argv[1] if len(sys.argv) > 1 else ""
    script = Script(lines_of(CRATE / "stdin"))
    printed = list(blocks(lines_of(CRATE / "stdout"), script.rows))
    rows = [
        (row, block)
        for row, block in zip(script.rows, printed)
        if row.verb in FOR_THE_PROGRAM and word in row.line
    ]
    failed = 0
    for row, block in rows:
        script.known = row.known
        wanted, got = wanted_of(script, row, block), come_of(script, row)
        if wanted != got:
            failed += 1
            print(row.line, *("  wanted " + line for line in wanted), sep="\n")
            print(*("  got    " + line for line in got), sep="\n")
    print(f"{len(rows) - failed} rows as wanted, {failed} not")
    sys.exit(1 if failed or not rows else 0)


if __name__ == "__main__":
    main()

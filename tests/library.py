#!/usr/bin/env python3
"""Builds the library for C and what uses it, and compares what they print with what is wanted.

- The header is C99 and C++11, and declares the exports of crates/fedbundle_c as its sources have them. The library has
  no other names.
- A program in C, one in Go, one in Python and one in Rust make the same calls: the rows of crates/command_rows for `report`,
  `bundle`, `canon`, `explain`, `merge`, `distrust` and `observe`, a session of two replicas over the receipts of examples/, and calls
  that are refused. What each prints of a row is what crates/command_rows/stdout wants of the command, and all four print
  the same bytes. With $FEDBUNDLE the command is run on the rows too.
- The examples of the pages, one in each language, print the report of examples/.
- The program in C runs under valgrind; with buffers that are too small, which must say how many bytes there are and change
  nothing; and under inject.c with each allocation of each call refused, which must leave the replica as it was.
- The tests of each binding run; Go's sources are as gofmt and go vet want them.

It needs cc, binutils and python3. What go, cargo or valgrind would do is left out if one is not there.

usage: library [PREFIX]    PREFIX has what tools/library.sh made; if left out, the released library is unpacked, if it is one
                           of these sources; the status is 1 if something fails
"""
import os
import re
import shutil
import subprocess
import sys
import tarfile
import tempfile
from importlib.machinery import SourceFileLoader
from importlib.util import module_from_spec, spec_from_loader
from pathlib import Path

sys.dont_write_bytecode = True
sys.path.insert(0, str(Path(__file__).resolve().parent / "lib"))
from needs import can  # noqa: E402
TOP = Path(__file__).resolve().parent.parent
sys.path.insert(0, str(TOP / "tools"))
import release  # noqa: E402

BINDINGS = TOP / "bindings"
EXAMPLES = TOP / "examples"
VERBS = ("report", "bundle", "canon", "explain", "merge", "distrust", "observe")
OPTIONS = {"--config", "--state", "--domain", "--endpoint", "--key"}
# What the command says of a line that `take` refuses.
COMPLAINTS = {-401: "not canonical", -402: "too long", -501: "unknown domain", -502: "wrong endpoint",
              -506: "below floor"}
NO_MEMORY = {-106, -208, -309, -403, -504, -606504, -710, -902}
failures = []


def fail(text):
    failures.append(text)
    print(f"library: {text}")


def run(words, **how):
    return subprocess.run([str(word) for word in words], capture_output=True, timeout=1_200, **how)


# ---- the header

def exports():
    """Each export of the sources, and how C sees its parameters."""
    kinds = {"&mut Handle": ["fedbundle_replica *"], "&[u8]": ["const uint8_t *", "size_t"], "u8": ["uint8_t"],
             "&mut [u8]": ["uint8_t *", "size_t"], "&mut CallOutcome": ["fedbundle_outcome *"], "Global": []}
    found = {}
    for path in (TOP / "crates/fedbundle_c/src").glob("*.rt"):
        for name, parameters in re.findall(r'extern "C" fn (\w+)\(([^)]*)\)', path.read_text()):
            types = [parameter.split(":", 1)[1].strip() for parameter in parameters.split(",") if ":" in parameter]
            found[name] = [kind for of in types for kind in kinds[of]]
    return found


def declared():
    """The same of the header."""
    text = (TOP / "include/fedbundle.h").read_text()
    found = re.findall(r"^(?:int64_t|void) (fedbundle_raw_\w+)\(([^)]*)\);", text, re.M)
    return {name: [re.sub(r"\w+$", "", " ".join(part.split())).strip() for part in parameters.split(",")]
            for name, parameters in found}


def check_header():
    sources, header = exports(), declared()
    if not sources:
        fail("no export was found")
    for name in sorted(sources.keys() | header.keys()):
        if sources.get(name) != header.get(name):
            fail(f"{name}: the source has {sources.get(name)}, the header {header.get(name)}")
    for words in (["cc", "-std=c99", "-xc"], ["c++", "-std=c++11", "-xc++"]):
        strict = ["-pedantic", "-Wall", "-Wextra", "-Werror", "-fsyntax-only", "-include", TOP / "include/fedbundle.h", "-"]
        if can(words[0], f"the header by {words[0]}"):
            made = run([*words, *strict], input=b"fedbundle_replica place = FEDBUNDLE_CLOSED;\n")
            if made.returncode:
                fail(f"the header by {' '.join(words)}: {made.stderr.decode()}")


def check_names(prefix):
    """The archive and the shared library define the exports, and no other name that a program could clash with."""
    for words in (["nm", "-g", "--defined-only", f"{prefix}/lib/libfedbundle.a"],
                  ["nm", "-D", "--defined-only", f"{prefix}/lib/libfedbundle.so"]):
        defined = {line.split()[-1] for line in run(words).stdout.decode().splitlines() if len(line.split()) == 3}
        if defined != exports().keys():
            fail(f"{words[-1]}: {sorted(defined ^ exports().keys())} are names of one of the library and the sources alone")


# ---- rows

def rows_of_commands():
    loader = SourceFileLoader("rows", str(TOP / "tests/rows/check.py"))
    rows = module_from_spec(spec_from_loader("rows", loader))
    loader.exec_module(rows)
    script = rows.Script(rows.lines_of(rows.CRATE / "stdin"))
    blocks = rows.blocks(rows.lines_of(rows.CRATE / "stdout"), script.rows)
    for row, block in zip(script.rows, blocks):
        given = dict(rows.options(row.words))
        named = {word.partition("=")[0] for word in row.words if word.startswith("--")}
        is_one = row.verb == "run" and row.words and row.words[0] in VERBS and named <= OPTIONS
        has_config = row.words[:1] == ["canon"] or given.get("--config") in script.texts
        # A file of no bytes is not a state; for the library, no bytes mean that there is no
        # snapshot.
        has_state = script.texts.get(given.get("--state")) != b""
        if is_one and has_config and has_state and "status 2" not in block:
            yield Row(rows, script, row, block, given)


def hexed(text):
    return text.hex() or "-"


class Row:
    """A row of a command, as calls of the library."""

    def __init__(self, rows, script, row, block, given):
        self.rows, self.script, self.row, self.block = rows, script, row, block
        self.command = row.words[0]
        self.state = script.texts.get(given.get("--state"))
        self.named = {option: script.word(word) for option, word in given.items()}
        self.config = script.texts.get(given.get("--config"))
        self.lines = self.calls()

    def calls(self):
        """The lines for the programs."""
        told = hexed(self.row.text)
        name, key = (hexed(self.named.get(option, b"")) for option in ("--domain", "--key"))
        if self.command == "canon":
            return [f"canon 0 {name} {told}"]
        opened = f"open 0 {hexed(self.config)} {hexed(self.state or b'')}"
        does = {
            "report": [*(f"take 0 {hexed(line)}" for line in self.row.text.split(b"\n")[:-1]), "report 0",
                       f"report_of 0 {hexed(self.config)} {told}"],
            "bundle": [f"current 0 {name}"],
            "explain": [f"explain 0 {name} {told}"],
            "merge": [f"merge 0 {told}", "snapshot 0"],
            "distrust": [f"distrust 0 {name} {key}", "snapshot 0"],
            "observe": [f"observe 0 {name} {hexed(self.named.get('--endpoint', b''))} {key} {told}", "snapshot 0"],
        }[self.command]
        return [opened, *does, "close 0"]

    def printed(self, replies):
        """What the command prints when the calls had these replies."""
        if self.command == "canon":
            return self.shown(replies)
        opened, *replies = replies[:-1]
        if opened.startswith("refused"):
            return self.refused(opened)
        return self.reported(replies) if self.command == "report" else self.shown(replies)

    def shown(self, replies):
        first, output = replies[0], b""
        if first.startswith("refused"):
            return self.refused(first)
        if first == "none":
            told = b"not accepted" if self.command == "explain" else b"no current bundle"
            return self.script.shown_lines("error", b"fedbundle: " + told + b"\n") + ["status 1"]
        if first.startswith("text"):
            output = text_in(first)
        elif self.command == "merge":
            output = b"new " + first.split()[1].encode() + b"\n"
        lines = self.script.shown_lines("output", output)
        after = text_in(replies[1]) if len(replies) > 1 else self.state
        if after != self.state:
            lines += self.script.shown_lines("state", after)
        return lines + ["status 0"]

    def reported(self, replies):
        """The same of lines that a replica takes, and of all of them without one."""
        *taken, report, at_once = replies
        errors = []
        for number, reply in enumerate(taken, 1):
            if reply.startswith("refused"):
                errors.append(f"line {number}: {COMPLAINTS.get(int(reply.split()[1]), reply)}")
        if not self.row.text.endswith(b"\n") and self.row.text:
            errors.append(f"line {len(taken) + 1}: cut")
        if self.state is None and at_once != f"counted {len(errors)} {report.partition(' ')[2]}":
            return [f"at once {at_once}"]
        lines = self.script.shown_lines("output", text_in(report))
        lines += self.script.shown_lines("error", "".join(f"{error}\n" for error in errors).encode())
        return lines + [f"status {1 if errors else 0}"]

    def refused(self, reply):
        _, number, text = reply.split(" ", 2)
        told = "bad key" if number == "-1" else text
        status = 4 if int(number) in NO_MEMORY else 1
        return self.script.shown_lines("error", f"fedbundle: {told}\n".encode()) + [f"status {status}"]


def text_in(reply):
    kind, _, word = reply.partition(" ")
    return bytes.fromhex(word) if kind == "text" and word != "-" else b""


def session():
    """Two replicas of examples/, of which one asks the other about each bucket, and a key that is distrusted."""
    config = hexed((EXAMPLES / "config.json").read_bytes())
    yield f"open 0 {config} -"
    for line in (EXAMPLES / "receipts.jsonl").read_bytes().splitlines():
        yield f"take 0 {hexed(line)}"
    yield f"open 1 {config} -"
    for bucket in range(256):
        yield from (f"have 1 {bucket}", "answer 0 $", "absorb 1 $")
    domain = hexed(b"a.example")
    yield from ("report 1", "snapshot 1", "merge 0 $", f"current 1 {domain}", f"explain 0 {domain} $", "snapshot 0")
    yield from ("take 0 -", "absorb 0 61", "answer 0 7b7d0a", "merge 1 -", "have 2 5")
    yield from ("close 0", "close 1", "snapshot 1")
    lines = (EXAMPLES / "receipts.jsonl").read_bytes()
    yield from (f"report_of 0 {config} {hexed(lines)}", f"report_of 0 {config} {hexed(lines + b'{}')}", "report_of 0 - -")
    document = hexed((EXAMPLES / "a.example.json").read_bytes())
    yield from (f"canon 0 {domain} {document}", f"canon 0 {domain} 5b", "canon 0 - -")


# ---- programs

def built_c(prefix, folder):
    program = folder / "calls"
    done = run(["cc", "-std=gnu11", "-O1", "-g", "-Wall", "-Wextra", "-Werror", f"-I{prefix}/include", "-o", program,
                TOP / "tests/lib/calls.c", f"{prefix}/lib/libfedbundle.a"])
    if done.returncode:
        sys.exit(f"library: the program in C is not built\n{done.stderr.decode()}")
    return program


def programs(prefix, folder, program):
    """How each language's program is run, and its environment."""
    found = {"C": ([program], {})}
    found["Python"] = ([sys.executable, "-B", BINDINGS / "python/calls.py"], python_environment(prefix))
    if can("go", "all of the binding for Go"):
        made = run(["go", "build", "-o", folder / "calls_go", "./calls"], cwd=BINDINGS / "go",
                   env={**os.environ, **go_cache(folder), **go_environment(prefix)})
        found["Go"] = ([folder / "calls_go"], go_environment(prefix))
        if made.returncode:
            fail(f"Go: {made.stderr.decode()}")
    if can("cargo", "all of the binding for Rust"):
        made = run(["cargo", "build", "--offline", "--quiet", "--example", "calls"], cwd=copy_of_rust(folder),
                   env={**os.environ, **rust_environment(prefix, folder)})
        found["Rust"] = ([folder / "rust_target/debug/examples/calls"], {})
        if made.returncode:
            fail(f"Rust: {made.stderr.decode()}")
    return found


def python_environment(prefix):
    return {"FEDBUNDLE_LIBRARY": f"{prefix}/lib/libfedbundle.so", "PYTHONPATH": str(BINDINGS / "python")}


def go_environment(prefix):
    return {"PKG_CONFIG_PATH": f"{prefix}/lib/pkgconfig", "LD_LIBRARY_PATH": f"{prefix}/lib", "GOFLAGS": "-mod=mod"}


def rust_environment(prefix, folder):
    return {"FEDBUNDLE_LIB_DIR": f"{prefix}/lib", "CARGO_TARGET_DIR": str(folder / "rust_target")}


def copy_of_rust(folder):
    """A copy, since cargo writes a lock file next to its sources."""
    target = folder / "bindings/rust"
    if not target.exists():
        shutil.copytree(BINDINGS / "rust", target)
        (folder / "examples").symlink_to(EXAMPLES)
    return target


def replies_of(name, words, environment, lines):
    done = run(words, input="".join(f"{line}\n" for line in lines).encode(), env={**os.environ, **environment})
    if done.returncode or (done.stderr and "refusals" not in done.stderr.decode()):
        fail(f"{name}: status {done.returncode}: {done.stderr.decode()[-2_000:]}")
    return done.stdout.decode().splitlines(), done.stderr.decode()


# ---- the checks

def check_rows(rows, replies):
    place = 0
    for row in rows:
        part = replies[place:place + len(row.lines)]
        place += len(row.lines)
        got = row.printed(part) if len(part) == len(row.lines) else part
        if got != row.block:
            shown = [f"  wanted {line}" for line in row.block] + [f"  got    {line}" for line in got]
            fail("\n".join([row.row.line[:200], *shown]))


def check_command(rows):
    for row in rows if os.environ.get("FEDBUNDLE") else []:
        if row.rows.come_of(row.script, row.row) != row.block:
            fail(f"the command prints something else: {row.row.line[:200]}")


def check_languages(prefix, folder, program, lines):
    wanted = None
    for name, (words, environment) in programs(prefix, folder, program).items():
        got, _ = replies_of(name, words, {**go_cache(folder), **environment}, lines)
        wanted = wanted or got
        if got != wanted:
            place = next((at for at, pair in enumerate(zip(got, wanted)) if pair[0] != pair[1]), min(len(got), len(wanted)))
            fail(f"{name} and C differ at {lines[place][:100]}: {got[place:place + 1]}, {wanted[place:place + 1]}")
        print(f"{name}: {len(got)} calls")
    return wanted


def check_memory(prefix, folder, program, lines, wanted):
    small, _ = replies_of("small", [program, "small"], {}, lines)
    if small != wanted:
        fail("buffers that are too small change what comes of a call")
    if can("valgrind", "the calls under valgrind"):
        words = ["valgrind", "-q", "--leak-check=full", "--error-exitcode=9", program]
        if replies_of("valgrind", words, {}, lines)[0] != wanted:
            fail("under valgrind a call comes to something else")
    library = folder / "inject.so"
    if run(["cc", "-O2", "-fPIC", "-shared", "-o", library, TOP / "tests/lib/inject.c"]).returncode:
        sys.exit("library: inject.c is not built")
    swept, said = replies_of("sweep", [program, "sweep"], {"LD_PRELOAD": str(library)}, lines)
    if swept != wanted:
        fail("a call that is made after its allocations were refused comes to something else")
    count = int((re.findall(r"(\d+) refusals", said) or ["0"])[0])
    print(f"refused allocations: {count}")
    if not count:
        fail("no allocation was refused")


def go_cache(folder):
    return {"GOCACHE": str(folder / "go_cache"), "HOME": os.environ.get("HOME", str(folder))}


def check_examples(prefix, folder):
    """The program `report` of each language, over the examples, and over lines of which none is a receipt."""
    made, flags = {"C": folder / "report_c", "Go": folder / "report_go"}, ["-std=c11", "-Wall", "-Wextra", "-Werror"]
    steps = [("C", ["cc", *flags, f"-I{prefix}/include", "-o", made["C"], BINDINGS / "c/report.c", f"{prefix}/lib/libfedbundle.a"],
              TOP, {})]
    programs = {"C": ([made["C"]], {}), "Python": ([sys.executable, "-B", BINDINGS / "python/report.py"], python_environment(prefix))}
    if can("go", "all of the binding for Go"):
        steps.append(("Go", ["go", "build", "-o", made["Go"], "./report"], BINDINGS / "go", go_environment(prefix)))
        programs["Go"] = ([made["Go"]], go_environment(prefix))
    if can("cargo", "all of the binding for Rust"):
        words = ["cargo", "build", "--offline", "--quiet", "--example", "report"]
        steps.append(("Rust", words, copy_of_rust(folder), rust_environment(prefix, folder)))
        programs["Rust"] = ([folder / "rust_target/debug/examples/report"], {})
    for name, words, where, environment in steps:
        done = run(words, cwd=where, env={**os.environ, **go_cache(folder), **environment})
        if done.returncode:
            fail(f"the example in {name} is not built: {done.stderr.decode()[-2_000:]}")
    wanted = (EXAMPLES / "receipts.report").read_bytes()
    for name, (words, environment) in programs.items():
        ended = [run([*words, EXAMPLES / "config.json", EXAMPLES / receipts], env={**os.environ, **environment})
                 for receipts in ("receipts.jsonl", "README.md")]
        if (ended[0].returncode, ended[0].stdout, ended[0].stderr) != (0, wanted, b""):
            fail(f"the example in {name} prints something else: {ended[0]}")
        if b"L1 NotCanonical" not in ended[1].stderr:
            fail(f"the example in {name} does not say why a line is refused: {ended[1]}")
        print(f"{name}: the example")


def check_bindings(prefix, folder):
    steps = [("Python", [sys.executable, "-B", "test_fedbundle.py"], BINDINGS / "python", python_environment(prefix))]
    if can("go", "all of the binding for Go"):
        for words in (["gofmt", "-l", "."], ["go", "vet", "./..."], ["go", "test", "./..."]):
            steps.append((" ".join(words), words, BINDINGS / "go", go_environment(prefix)))
    if can("cargo", "all of the binding for Rust"):
        words = ["cargo", "test", "--offline", "--quiet"]
        steps.append(("cargo test", words, copy_of_rust(folder), rust_environment(prefix, folder)))
    for name, words, where, environment in steps:
        done = run(words, cwd=where, env={**os.environ, **go_cache(folder), **environment})
        if done.returncode or (words[0] == "gofmt" and done.stdout):
            fail(f"{name}: {(done.stdout + done.stderr).decode()[-2_000:]}")
        else:
            print(f"{name}: passed")


def released(folder):
    """Unpacks the released library, if it is one of these sources."""
    line = f"library-sources {release.digest_of(release.crates_of(release.LIBRARY))}"
    if line not in (release.DIST / "MANIFEST").read_text().splitlines():
        sys.exit("library: no library of these sources: tools/library.sh PREFIX proves and builds one, and PREFIX is then given")
    with tarfile.open(release.DIST / release.ARCHIVE) as tar:
        tar.extractall(folder)
    return folder / release.ROOT


def main():
    check_header()
    with tempfile.TemporaryDirectory(prefix="fedbundle-") as name:
        folder = Path(name)
        prefix = Path(sys.argv[1]).resolve() if len(sys.argv) > 1 else released(folder)
        check_names(prefix)
        program = built_c(prefix, folder)
        rows = list(rows_of_commands())
        lines = [line for row in rows for line in row.lines] + list(session())
        wanted = check_languages(prefix, folder, program, lines)
        check_rows(rows, wanted)
        check_command(rows)
        check_memory(prefix, folder, program, lines, wanted)
        check_examples(prefix, folder)
        check_bindings(prefix, folder)
    print(f"{len(rows)} rows, {len(failures)} failures")
    sys.exit(1 if failures or not rows else 0)


if __name__ == "__main__":
    main()

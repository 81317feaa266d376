"""What `refusals` and `kills` share: the program, the library that is preloaded under it, the rows of
crates/command_rows that are given to both, the peers of sessions, and what a run showed."""
import hashlib
import json
import os
import socket
import struct
import subprocess
import sys
import tempfile
import threading
import time
from contextlib import nullcontext
from dataclasses import dataclass, field, replace
from functools import lru_cache
from importlib.machinery import SourceFileLoader
from importlib.util import module_from_spec, spec_from_loader
from itertools import count
from pathlib import Path

from sums import PARTS, answer, marks_between, question, sums_of

TOP = Path(__file__).resolve().parent.parent.parent
# What takes longer hangs, also on a machine with much other work. A shorter limit of time is only in what looks at a time.
HANG = 600

# As `struct told` of inject.c.
KINDS = ["alloc", "open", "read", "write", "sync", "rename", "lock", "close", "change", "socket", "system"]
TOLD = struct.Struct("<11Qqq24s4000s")

# What the program may ask of the C library behind the preloaded one: what asks for no memory and changes no file.
UNSEEN = {
    "__errno_location", "__libc_start_main", "__stack_chk_fail", "__sysv_signal", "__tls_get_addr",
    "__x86_get_cpuid_feature_leaf", "__xpg_strerror_r", "abort", "bcmp", "clock_gettime", "environ", "exit", "_exit",
    "free", "getauxval", "getenv", "getpid", "ioctl", "isatty", "lseek", "memchr", "memcmp", "memcpy", "memmove",
    "memset", "nanosleep", "poll", "pthread_sigmask", "sigaddset", "sigemptyset", "sigismember", "signal", "sigpending",
    "sigtimedwait", "statx", "strlen", "sysconf",
}


class Looks:
    """What a script looked at, and what of that is wrong."""

    def __init__(self):
        self.ran, self.faults = 0, []

    def want(self, name, holds, *seen):
        self.ran += 1
        if not holds:
            self.faults.append(name)
            print(f"{name}: not so", *(str(it)[-600:] for it in seen), flush=True)

    def end(self, script):
        """Prints how many, and ends the script."""
        print(f"{script}: {self.ran} looks, {len(self.faults)} wrong")
        sys.exit(1 if self.faults else 0)


def stop(text):
    sys.exit(f"{Path(sys.argv[0]).name}: {text}")


@lru_cache
def find_program():
    """The program of these sources that `./fedbundle --which` finds. If there is none, that said so in a line."""
    found = subprocess.run([TOP / "fedbundle", "--which"], stdout=subprocess.PIPE, text=True)
    return found.stdout.removesuffix("\n") if found.returncode == 0 else sys.exit(1)


def temporary():
    """A folder that goes away with its holder, in memory where that is possible: files are put on the disk in each run,
    and a disk would take its time."""
    memory = Path("/dev/shm")
    return tempfile.TemporaryDirectory(prefix="fedbundle-", dir=memory if os.access(memory, os.W_OK) else None)


def symbols(file, which):
    lines = subprocess.run(["nm", "-D", which, file], capture_output=True, text=True, check=True).stdout.splitlines()
    return {line.split()[-1].split("@")[0] for line in lines if line.split()[-2] in "TU"}


def build_library(folder, program):
    """Builds the library, and stops where the program calls what the library does not see."""
    library = str(Path(folder) / "refusals.so")
    source = Path(__file__).resolve().parent / "inject.c"
    if subprocess.run(["cc", "-O2", "-fPIC", "-shared", "-o", library, source]).returncode != 0:
        stop("the library is not built")
    called = symbols(program, "--undefined-only")
    if "malloc" not in called:
        stop(f"{program} does not take its memory from the C library, so nothing can be refused")
    unknown = called - symbols(library, "--defined-only") - UNSEEN
    if unknown:
        stop(f"the program calls what inject.c does not know: {' '.join(sorted(unknown))}")
    return library


PORTS, MARKS = count(), {}


def first_port():
    """The first of 200 ports that no other process of a test takes. The name of a socket says so while this process runs."""
    process = os.getpid()
    for number in count(process):
        if process in MARKS:
            return MARKS[process][0]
        mark = socket.socket(socket.AF_UNIX)
        try:
            mark.bind(f"\0fedbundle-ports-{number % 100}")
            MARKS[process] = 10_000 + number % 100 * 200, mark
        except OSError:
            mark.close()


def listener_of_own():
    """A listener at a port that no other process of a test takes: each has 200 of its own, below those that the system
    gives away."""
    while True:
        port = first_port() + next(PORTS) % 200
        try:
            return socket.create_server(("127.0.0.1", port)), port
        except OSError:
            continue


class Peer:
    """The other side of a session over a socket, in a thread: a replica of the state's configuration that holds these
    receipts. A run whose words have PEER meets it there: it answers a `pull`, and asks a `serve`, first about sums and then
    about each bucket."""

    def __init__(self, state, receipts, asks):
        self.config = json.loads(state.splitlines()[0])["config"]
        self.receipts = receipts
        self.asks = asks

    def __enter__(self):
        self.listener, self.port = listener_of_own()
        self.listener.settimeout(0.01)
        if self.asks:
            self.listener.close()
        self.ended = threading.Event()
        self.thread = threading.Thread(target=self.ask if self.asks else self.answer)
        self.thread.start()
        return f"127.0.0.1:{self.port}"

    def __exit__(self, *_):
        self.ended.set()
        if not self.asks:
            self.listener.close()
        self.thread.join()

    def question(self, bucket):
        return f'{{"bucket":{bucket},"config":"{self.config}","format":2,"have":[],"of":256}}\n'.encode()

    def answer_of(self, bucket):
        lines = [line for line in self.receipts if hashlib.sha256(line.rstrip(b"\n")).digest()[0] == bucket]
        head = f'{{"bucket":{bucket},"config":"{self.config}","count":{len(lines)},"distrusts":0,"format":2,"of":256}}\n'
        return head.encode() + b"".join(lines)

    def marks(self, lines):
        """The answer to the sums that come in these lines."""
        asked = [next(lines) for _ in range(PARTS)]
        return answer(self.config, marks_between(asked, sums_of(self.receipts)))

    def answer(self):
        """Answers each connection by itself, as a running replica does."""
        while not self.ended.is_set():
            try:
                stream, _ = self.listener.accept()
            except OSError:
                continue
            threading.Thread(target=self.answer_on, args=(stream,), daemon=True).start()

    def answer_on(self, stream):
        with stream, stream.makefile("rb") as lines:
            stream.settimeout(HANG)
            try:
                for line in lines:
                    is_have = line.startswith(b'{"bucket":')
                    stream.sendall(self.answer_of(json.loads(line)["bucket"]) if is_have else self.marks(lines))
            except (OSError, ValueError, StopIteration):
                pass

    def ask(self):
        while not self.ended.is_set():
            try:
                stream = socket.create_connection(("127.0.0.1", self.port), HANG)
                break
            except OSError:
                time.sleep(0.002)
        else:
            return
        with stream, stream.makefile("rb") as lines:
            try:
                stream.sendall(question(self.config, []))
                marks = [lines.readline() for _ in range(2)]
                for bucket in range(256 if marks[1] else 0):
                    stream.sendall(self.question(bucket))
                    head = json.loads(lines.readline())
                    for _ in range(head["count"] + head["distrusts"]):
                        lines.readline()
                stream.shutdown(socket.SHUT_WR)
                lines.read()
            except (OSError, ValueError):
                pass


@dataclass
class Run:
    """Words, files and input that are given to the program; whether it writes its state, and whether by steps, as by a
    session that is cut: then a fault may leave a state between the two. A run over a socket has a peer, a function that
    makes it."""

    name: str
    words: list
    files: dict = field(default_factory=dict)
    stdin: bytes = b""
    writes: bool = False
    steps: bool = False
    peer: object = None

    def over(self, state):
        """The same run where the state file has these bytes, or is not there."""
        files = {name: text for name, text in self.files.items() if name != "state"}
        return replace(self, files=files if state is None else {**files, "state": state})


def as_journal(state):
    """The journal of what a snapshot holds: all its lines but the last, which has the counts."""
    return b"".join(state.splitlines(keepends=True)[:-1])


def journaled(run):
    """The same run where the journal has what the state file had, and there is no state file."""
    files = {name: text for name, text in run.files.items() if name != "state"}
    files["state.journal"] = as_journal(run.files["state"])
    return replace(run, name=f"{run.name} of a journal", files=files)


@dataclass
class Seen:
    """What a run showed: how it ended (below 0: by that signal), what it wrote, and what it left."""

    status: int
    out: bytes
    err: bytes
    state: bytes
    new: bytes
    calls: dict
    order: list
    met: bool
    name: str
    descriptor: int

    def answer(self):
        return self.status, self.out, self.err, self.state


def content(path):
    try:
        return path.read_bytes()
    except FileNotFoundError:
        return None


def lay(folder, files):
    """Leaves these files alone in the folder."""
    for path in folder.iterdir():
        if path.is_dir():
            path.rmdir()
        elif path.name not in files:
            path.unlink()
    for name, text in files.items():
        (folder / name).write_bytes(text)


class Place:
    """A folder to run the program in, one run after another."""

    def __init__(self, program, library, above):
        self.program = program
        self.library = library
        above = Path(tempfile.mkdtemp(dir=above))
        self.folder = above / "run"
        self.folder.mkdir()
        self.told = above / "told"
        self.told.write_bytes(bytes(TOLD.size))

    def see(self, run, fault=None, anew=True):
        """Runs the program. `fault` is a kind, a number of a call, how it is refused, and the number of the error."""
        if anew:
            lay(self.folder, run.files)
        kind, call, how, error = fault or ("none", 0, "once", 0)
        environment = {
            "LD_PRELOAD": self.library,
            "REFUSE_TOLD": str(self.told),
            "REFUSE_KIND": kind,
            "REFUSE_CALL": str(call),
            "REFUSE_HOW": how,
            "REFUSE_ERROR": str(error),
            "REFUSE_SECONDS": str(HANG),
        }
        with run.peer() if run.peer else nullcontext() as address:
            words = [address if word == "PEER" else word for word in run.words]
            ran = subprocess.run(
                [self.program, *words], input=run.stdin, capture_output=True, cwd=self.folder, env=environment
            )
        told = TOLD.unpack(self.told.read_bytes())
        return Seen(
            ran.returncode,
            ran.stdout,
            ran.stderr,
            content(self.folder / "state"),
            content(self.folder / "state.new"),
            dict(zip(KINDS, told)),
            told[14].rstrip(b"\0").decode().split(),
            told[11] == 1,
            told[13].rstrip(b"\0").decode(),
            told[12],
        )


# Rows of crates/command_rows that are given by name: the line of each, or a beginning that no other line has.
NAMED_ROWS = {
    "canon-normalises/whole": 'run canon --domain a.example = ${space}{ "spiffe_sequence" : 4 ',
    "document-refusals/no-keys": "run canon --domain a.example = {}",
    "document-refusals/1048565-spaces": 'run canon --domain a.example = {"keys":[]}${space*1048565}',
    "refused-lines/garbage-and-cut": "run report --config one_domain = ${second_by_first}${lf}garbage${lf}",
    "conflicts/seventh-of-hello-seventh-with-hint": "run report --config one_domain = "
    "${seventh_of_hello_by_first}${lf}${seventh_with_hint_by_first}${lf}",
    "state-files/bundle": "run bundle --config one_domain --state held_second_third --domain a.example",
    "state-files/no-words": "run",
    "chains/third-document": "run explain --config one_domain --state held_second_third --domain a.example = ${third}",
    "state-files/observe-second-document": "run observe --config one_domain --state absent --domain a.example "
    "--endpoint spiffe://a.example/bundle --key $key_of_abc = ${second}",
    "state-files/observe-third-document": "run observe --config one_domain --state held_second --domain a.example "
    "--endpoint spiffe://a.example/bundle --key $key_of_hello = ${third}",
    "merge/third-merges-second": "run merge --config one_domain --state held_third = "
    '${old_head_of_one_domain}${lf}${second_by_first}${lf}{"count":1}${lf}',
    "polls/two-failures": "run polls --config one_domain --state absent --now=1089 = ",
    "distrust/key-of-abc": "run distrust --config one_domain --state held_second_third --domain a.example "
    "--key $key_of_abc",
}


def worked_runs():
    """The rows of crates/command_rows that are for the program, by their lines, and some of them by name."""
    loader = SourceFileLoader("rows", str(TOP / "tests/rows/check.py"))
    rows = module_from_spec(spec_from_loader("rows", loader))
    loader.exec_module(rows)
    script = rows.Script(rows.lines_of(rows.CRATE / "stdin"))
    cases = {row.line: rows.case_of(script, row) for row in script.rows if row.verb in rows.FOR_THE_PROGRAM}
    names = {the_line(begun, cases): name for name, begun in NAMED_ROWS.items()}
    runs = [worked_run(names.get(line, line), case) for line, case in cases.items()]
    return {run.name: run for run in runs}


def writes_state(words):
    """Whether a command of these words writes its state file, where nothing refuses it."""
    return words[:1] in (["observe"], ["merge"], ["distrust"], ["pull"]) and "--dry-run" not in words


def worked_run(name, case):
    """The run of a row, in which the state file is `state`, and the configuration `c1.json`."""
    called = {"--config": "c1.json", "--state": "state"}
    words, files = [], {}
    for word in map(os.fsdecode, case.words):
        if words and words[-1] in called and (word in case.files or word == "absent"):
            text, word = case.files.get(word), called[words[-1]]
            files |= {} if text is None else {word: text}
        words.append(word)
    return Run(name, words, files, case.input, writes_state(words))


def the_line(begun, lines):
    found = [begun] if begun in lines else [line for line in lines if line.startswith(begun)]
    if len(found) != 1:
        stop(f"no row, or more than one, begins so: {begun}")
    return found[0]


def shown(value):
    text = repr(value)
    return text if len(text) <= 300 else text[:300] + ".."

#!/usr/bin/env python3
"""What long work prints of itself: on a terminal, and that it prints nothing elsewhere.

Each command that reads or writes a state runs with a pseudo terminal as standard error, and then with a pipe. So that the work
takes longer than a second on any machine, the program is stopped for some more than that as soon as it has opened what it reads
or writes. The other side of a session is a peer of this script, which pauses. Wanted are, on the terminal, a line of each work
that took so long, with counts that do not fall and are no more than what there is; and no such line on the pipe. A command whose
work takes no second prints none.

- reading: each command that reads a state prints the line of `reading the state`; so does `replica` at its start;
- writing: `observe`, `distrust`, `merge` and `replica` print that of `writing the state`, `merge` that of `reading the other
  state`, and `migrate` that of `writing the migrated state`;
- sessions: `pull` and `serve` print their own, also with several sessions, and if nothing is new;
- quick: a state of a few receipts.

usage: progress [PART..]   all parts if none is named; the status is 1 if something is wrong
"""
import hashlib
import os
import pty
import re
import signal
import socket
import subprocess
import sys
import threading
import time
from pathlib import Path

sys.dont_write_bytecode = True
TOP = Path(__file__).resolve().parents[2]
sys.path[:0] = [str(TOP / "tests/lib"), str(TOP / "bench")]
import receipts  # noqa: E402
from harness import HANG, Looks, find_program, temporary  # noqa: E402

# How long the program is stopped, or a peer pauses, and how long a command may take in all.
PAUSE = 1.3
# How often a run is made again that was too quick to be stopped.
TRIES = 20
MANY, FEW = 12_000, 3
LINE = re.compile(r"fedbundle: (reading the state|reading the other state|writing the state|writing the migrated state|pulling|serving): "
                  r"(\d+) receipts, (\d+) MB so far")
DIGEST = hashlib.sha256(receipts.config_text().encode()).hexdigest()
BUCKETS = 256
looks = Looks()
want = looks.want


class Run:
    """A run of the program, whose standard error is a terminal or a pipe."""

    def __init__(self, program, words, terminal, cwd, given=b"", output=subprocess.DEVNULL):
        self.ours, theirs = pty.openpty() if terminal else os.pipe()
        self.text = b""
        self.process = subprocess.Popen([program, *map(str, words)], cwd=cwd, stdin=subprocess.PIPE, stdout=output, stderr=theirs)
        os.close(theirs)
        self.reader = threading.Thread(target=self.read)
        self.reader.start()
        self.writer = threading.Thread(target=self.write, args=(given if isinstance(given, list) else [given],))
        self.writer.start()

    def write(self, pieces):
        """Gives the pieces on standard input, and pauses between them."""
        try:
            with self.process.stdin as given:
                for number, piece in enumerate(pieces):
                    time.sleep(PAUSE if number else 0)
                    given.write(piece)
                    given.flush()
        except BrokenPipeError:
            pass

    def read(self):
        # A terminal whose other side is closed is at fault, and a pipe is at its end.
        try:
            while piece := os.read(self.ours, 65_536):
                self.text += piece
        except OSError:
            pass

    def has_open(self, path):
        folder = f"/proc/{self.process.pid}/fd"
        try:
            return any(os.readlink(f"{folder}/{name}") == str(path) for name in os.listdir(folder))
        except OSError:
            return False

    def pause_at(self, path):
        """Stops the program for a while, once it has the file open. Returns whether it came to that."""
        end = time.monotonic() + HANG
        while self.process.poll() is None and time.monotonic() < end:
            if self.has_open(path):
                self.pause()
                return True
        return False

    def pause(self):
        self.process.send_signal(signal.SIGSTOP)
        time.sleep(PAUSE)
        self.process.send_signal(signal.SIGCONT)

    def end(self):
        try:
            status = self.process.wait(HANG)
        except subprocess.TimeoutExpired:
            self.process.kill()
            status = self.process.wait()
        self.writer.join()
        self.reader.join()
        os.close(self.ours)
        return status

    def lines(self, work):
        found = [LINE.fullmatch(line) for line in self.text.decode().splitlines()]
        return [(int(it[2]), int(it[3])) for it in found if it and it[1] == work]

    def all_lines(self):
        return [line for line in self.text.decode().splitlines() if " so far" in line]


def says(run, name, work, most_receipts, most_bytes):
    """The lines of the work are there, and their counts are such as may be."""
    lines = run.lines(work)
    want(f"{name} prints {work}", bool(lines), run.text)
    want(f"{name}: the counts of {work} do not fall", lines == sorted(lines), lines)
    want(f"{name}: the counts of {work} are of what is there",
         all(count <= most_receipts and megabytes <= most_bytes // 1_000_000 for count, megabytes in lines), lines)


class Room:
    """A folder with a configuration, and states of many and of few receipts."""

    def __init__(self, program, folder):
        self.program, self.folder = program, Path(folder).resolve()
        self.config = receipts.write_config(self.folder)
        self.many = receipts.write_snapshot(self.folder, "usual", MANY)
        self.few = receipts.write_snapshot(self.folder, "usual", FEW)
        self.none = receipts.write_snapshot(self.folder, "usual", 0)
        self.bytes = self.many.stat().st_size
        self.state = self.folder / "state"

    def fill(self, source):
        for path in self.folder.glob("state*"):
            path.unlink()
        self.state.write_bytes(source.read_bytes())

    def run(self, words, terminal, given=b""):
        return Run(self.program, words, terminal, self.folder, given)

    def words(self, command, *more):
        return [command, "--config", self.config, "--state", self.state, *more]

    def stopped_run(self, words, terminal, paused_at, given, source):
        """A run that is stopped while it has the file open. One that was too quick for that is made again."""
        for _ in range(TRIES):
            self.fill(source)
            run = self.run(words, terminal, given)
            paused = run.pause_at(paused_at)
            status = run.end()
            if paused:
                break
        return run, paused, status

    def over_both(self, name, words, paused_at, works, given=b"", source=None):
        """On a terminal and on a pipe, stopped while it has the file open."""
        for terminal in [True, False]:
            run, paused, status = self.stopped_run(words, terminal, paused_at, given, source or self.many)
            want(f"{name} is stopped while it works", paused and status == 0, status, run.text)
            if terminal:
                for work, most, size in works:
                    says(run, name, work, most, size)
            else:
                want(f"{name} prints nothing where there is no terminal", run.all_lines() == [], run.text)


def reading(room):
    words = {
        "report": [], "list": [], "status": [], "explain": ["--domain", receipts.DOMAIN], "graph": ["--domain", receipts.DOMAIN],
        "bundle": ["--domain", receipts.DOMAIN], "reseed": [], "migrate": ["--to", room.config],
    }
    for command, more in words.items():
        room.over_both(command, room.words(command, *more), room.state, [("reading the state", MANY, room.bytes)],
                       given=receipts.SEED.encode())


def writing(room):
    new = room.folder / "state.new"
    key = hashlib.sha256(b"no key").hexdigest()
    room.over_both("distrust", room.words("distrust", "--domain", receipts.DOMAIN, "--key", key), new,
                   [("writing the state", MANY, room.bytes + 1_000)])
    room.over_both("merge", room.words("merge"), new, [("writing the state", MANY, room.bytes)], given=room.many.read_bytes(),
                   source=room.few)
    merges(room)
    migrates(room)


def migrates(room):
    """What goes along is written to a pipe, which is read after a pause."""
    for terminal in [True, False]:
        room.fill(room.many)
        ours, theirs = os.pipe()
        run = Run(room.program, room.words("migrate", "--to", room.config), terminal, room.folder, output=theirs)
        os.close(theirs)
        with open(ours, "rb") as migrated:
            first = migrated.read(1)
            time.sleep(PAUSE)
            size = len(first + migrated.read())
        want("migrate ends well", run.end() == 0 and size == room.bytes, size, run.text)
        if terminal:
            says(run, "migrate", "writing the migrated state", MANY, room.bytes + 1_000)
        else:
            want("migrate prints nothing where there is no terminal", run.all_lines() == [], run.text)


def merges(room):
    """The other state comes by a pipe, half of it after a pause."""
    given = room.many.read_bytes()
    for terminal in [True, False]:
        room.fill(room.few)
        run = room.run(room.words("merge"), terminal, [given[:len(given) // 2], given[len(given) // 2:]])
        want("merge ends well", run.end() == 0, run.text)
        if terminal:
            says(run, "merge", "reading the other state", MANY, room.bytes)
        else:
            want("merge prints nothing where there is no terminal", run.all_lines() == [], run.text)


def started(room, words, terminal, ready):
    run = room.run(words, terminal)
    paused = run.pause_at(room.state)
    end = time.monotonic() + HANG
    while not ready.exists() and run.process.poll() is None and time.monotonic() < end:
        time.sleep(0.01)
    return run, paused


def stopped_replica(room, terminal):
    """A replica that is stopped while it reads its state, and then asked to end. One that was too quick is started again."""
    ready = room.folder / "socket"
    for _ in range(TRIES):
        room.fill(room.many)
        run, paused = started(room, room.words("replica", "--socket", ready), terminal, ready)
        subprocess.run([room.program, "stop", "--at", ready], stderr=subprocess.DEVNULL, stdout=subprocess.DEVNULL)
        status = run.end()
        if paused:
            break
    return run, paused, status


def replica(room):
    for terminal in [True, False]:
        run, paused, status = stopped_replica(room, terminal)
        want("replica is stopped while it reads", paused and status == 0, status, run.text)
        if terminal:
            says(run, "replica", "reading the state", MANY, room.bytes)
        else:
            want("replica prints nothing where there is no terminal", run.all_lines() == [], run.text)


# ---- sessions


def id_of(line):
    return hashlib.sha256(line.rstrip("\n").encode()).digest()


def answers():
    """The receipts of the large state by their bucket, as an answer has them."""
    of = [[] for _ in range(BUCKETS)]
    for line in receipts.lines("usual", MANY):
        of[id_of(line)[0]].append(line)
    return [sorted(lines) for lines in of]


def answering(listener, of, pause_at):
    """Answers a pull, and pauses before the answer of a bucket."""
    stream, _ = listener.accept()
    with stream, stream.makefile("rb") as lines:
        for _ in range(BUCKETS):
            have = lines.readline()
            if not have:
                return
            bucket = int(re.search(rb'"bucket":(\d+)', have)[1])
            if bucket == pause_at:
                time.sleep(PAUSE)
            head = f'{{"bucket":{bucket},"config":"{DIGEST}","count":{len(of[bucket])},"distrusts":0,"format":2,"of":{BUCKETS}}}\n'
            stream.sendall((head + "".join(of[bucket])).encode())


def pulls(room, of):
    for terminal in [True, False]:
        room.fill(room.none)
        with socket.create_server(("127.0.0.1", 0)) as listener:
            peer = threading.Thread(target=answering, args=(listener, of, 100), daemon=True)
            peer.start()
            run = room.run(room.words("pull", "--peer", f"127.0.0.1:{listener.getsockname()[1]}"), terminal)
            status = run.end()
            peer.join(HANG)
        want("pull ends well", status == 0, status, run.text)
        if terminal:
            says(run, "pull", "pulling", MANY, room.bytes + 100_000)
        else:
            want("pull prints nothing where there is no terminal", run.all_lines() == [], run.text)


def asks(address, has, pause_at):
    """Asks a serve for each bucket, and pauses before one. Returns how many receipts came."""
    count = 0
    with socket.create_connection(address, HANG) as stream, stream.makefile("rb") as lines:
        for bucket in range(BUCKETS):
            if bucket == pause_at:
                time.sleep(PAUSE)
            have = ",".join(f'"{it}"' for it in sorted(has[bucket]))
            stream.sendall(f'{{"bucket":{bucket},"config":"{DIGEST}","format":2,"have":[{have}],"of":{BUCKETS}}}\n'.encode())
            head = lines.readline()
            given = int(re.search(rb'"count":(\d+)', head)[1])
            for _ in range(given):
                lines.readline()
            count += given
        stream.shutdown(socket.SHUT_WR)
        lines.read()
    return count


def port_of(run):
    """At which port it listens: it says so on standard error, since 0 was asked for."""
    end = time.monotonic() + HANG
    while time.monotonic() < end and run.process.poll() is None:
        if found := re.search(rb"listens at 127\.0\.0\.1:(\d+)", run.text):
            return int(found[1])
        time.sleep(0.01)
    return None


def serves(room, of):
    none = [[] for _ in range(BUCKETS)]
    every = [[id_of(line).hex() for line in lines] for lines in of]
    for terminal in [True, False]:
        room.fill(room.many)
        run = room.run(room.words("serve", "--listen", "127.0.0.1:0", "--sessions", "2"), terminal)
        port = port_of(run)
        if port:
            first, second = asks(("127.0.0.1", port), none, 100), asks(("127.0.0.1", port), every, 200)
            want("serve gives what is asked for", (first, second) == (MANY, 0), first, second)
        status = run.end()
        want("serve ends well", status == 0, status, run.text)
        if terminal:
            lines = run.lines("serving")
            says_of = [lines[:1], lines[-1:]]
            want("serve prints a line in each session", len(lines) >= 2 and says_of[0][0][0] > 0 and says_of[1][0][0] == 0, run.text)
            want("the counts of serve are of what is there", all(it[0] <= MANY for it in lines), lines)
        else:
            want("serve prints nothing where there is no terminal", run.all_lines() == [], run.text)


def sessions(room):
    of = answers()
    pulls(room, of)
    serves(room, of)


def quick(room):
    for command in ["report", "list", "status"]:
        room.fill(room.few)
        run = room.run(room.words(command), True)
        status = run.end()
        want(f"a quick {command} prints nothing", run.all_lines() == [] and status == 0, status, run.text)


PARTS = {"reading": reading, "writing": writing, "replica": replica, "sessions": sessions, "quick": quick}


def main():
    program = find_program()
    wrong = [name for name in sys.argv[1:] if name not in PARTS]
    if wrong:
        sys.exit(f"progress: no part is called {wrong[0]}")
    with temporary() as folder:
        room = Room(program, folder)
        for name in sys.argv[1:] or PARTS:
            PARTS[name](room)
    looks.end("progress")


if __name__ == "__main__":
    main()

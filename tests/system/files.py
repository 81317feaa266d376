#!/usr/bin/env python3
"""Puts things next to a state file, gives it modes, and takes its lock away, and looks at what a command leaves.

- What has the name with `.lock`, `.new` or `.journal` and is not ours, as a link, a second name of another file, a pipe or
  another program's file, is refused by that name with status 3, and stays as it is (D-125). What a killed command or a
  cut of power left under the names with `.new` and `.lock` keeps no command away.
- A new state file and a new lock's file have the mode 0600. A state that is replaced keeps its mode and, if the
  test runs as root, its owner and its group.
- A command that waits for a lock whose file is removed or replaced meanwhile takes the new one: what it and another
  command wrote meanwhile are both in the state (D-126).
- An empty path is refused with status 2.
- What the journal next to the state file holds counts as what the state file holds: all rows with a state give the same
  answer if the journal has it, or both have it, and what is written is the same state, without a journal. A journal
  that is cut anywhere is read as its whole lines.
- A journal of another configuration or format, or with a line that is not one, is refused with the number of its line, and
  no file is changed.
- An older text is copied over the state, its journal or the audit file of a running replica, they are cut, or get a line more, or
  another mode: before a change and during a fold. It says so, and nothing is lost that was acknowledged; or it ends.
- What is put in the place of `state.new` during a fold or a save gets no other name, and stays as it is.
- A pipe as state, journal, previous state or configuration is refused.

It needs python3. The program is the one that ./fedbundle runs, or the one that $FEDBUNDLE names.

usage: files   the status is 1 if something is wrong
"""
import fcntl
import os
import signal
import stat
import subprocess
import sys
import threading
import time
from pathlib import Path

sys.dont_write_bytecode = True
sys.path.insert(0, str(Path(__file__).resolve().parent.parent / "lib"))
from harness import HANG, as_journal, find_program, journaled, lay, shown  # noqa: E402
from harness import temporary, worked_runs  # noqa: E402
import replica as replicas  # noqa: E402

ROWS = ["state-files/observe-third-document", "merge/third-merges-second", "distrust/key-of-abc"]
# Those that a replica without a state can do.
WITHOUT_STATE = ROWS[1:]
FOREIGN = b"what another program wrote"
# A key of so many bytes in each bundle makes the journal long.
LONG_KEY = 700_000
# How many folds are begun until one is found under way.
FOLDS = 5
# What a running replica writes into its lock.
MARK = b"a replica is running\n"
NOBODY = 65534
# Rows of more bytes than these are left out if all rows are run.
MOST_BYTES = 20_000

faults = []
ran = 0


def want(right, what, *values):
    global ran
    ran += 1
    if not right:
        faults.append(f"{what}: {', '.join(shown(value) for value in values)}")


def run(program, folder, row, words=None, variables=None):
    words = [program, *(words or row.words)]
    variables = {**os.environ, **(variables or {})}
    try:
        return subprocess.run(words, cwd=folder, input=row.stdin, capture_output=True, timeout=HANG, env=variables)
    except subprocess.TimeoutExpired:
        return subprocess.CompletedProcess(words, None, b"", b"it did not end")


def mode(path):
    return stat.S_IMODE(path.stat().st_mode)


def held_in(folder):
    """What each name of the folder has: a file's number and bytes, where a link leads to, or only the kind."""
    seen = {}
    for path in folder.iterdir():
        found = path.lstat()
        text = os.readlink(path) if path.is_symlink() else path.read_bytes() if path.is_file() else stat.S_IFMT(found.st_mode)
        seen[path.name] = (found.st_ino, found.st_mode, text)
    return seen


KINDS = {
    "a link": lambda name: name.symlink_to("other"),
    "a link to nothing": lambda name: name.symlink_to("nowhere"),
    "a second name": lambda name: os.link(name.parent / "other", name),
    "a pipe": os.mkfifo,
    "another program's file": lambda name: name.write_bytes(FOREIGN),
}


def stays(program, folder, row, kind, ending, refusal, words=None):
    """Something of this kind that has the name is refused, and nothing is changed. A lock may be new."""
    lay(folder, row.files)
    (folder / "other").write_bytes(FOREIGN)
    state = folder / (words or row.words)[(words or row.words).index("--state") + 1]
    KINDS[kind](state.with_name(state.name + ending))
    before = held_in(folder)
    ended = run(program, folder, row, words, {"FEDBUNDLE_VERBOSE": "1"})
    what = f"{(words or row.words)[0]} beside {kind} with {ending}"
    want((ended.returncode, ended.stderr) == (3, refusal), what, ended.returncode, ended.stderr)
    after = held_in(folder)
    if f"{state.name}.lock" not in before:
        after.pop(f"{state.name}.lock", None)
    want(after == before, f"{what}: what is changed", str(after), str(before))


def foreign_files_stay(program, folder, row):
    for kind in KINDS:
        stays(program, folder, row, kind, ".lock", b"fedbundle: S9 Io\n  lock state.lock: File exists\n")
        stays(program, folder, row, kind, ".new", b"fedbundle: S9 Io\n  write state.new, and rename it: File exists\n")


def foreign_files_of_a_replica_stay(program, folder, row):
    config = row.words[row.words.index("--config") + 1]
    words = ["replica", "--config", config, "--state", "Cargo", "--new", "--socket", "socket"]
    for kind in KINDS:
        stays(program, folder, row, kind, ".lock", b"fedbundle: S9 Io\n  lock Cargo.lock: File exists\n", words)
        stays(program, folder, row, kind, ".new", b"fedbundle: S9 Io\n  write Cargo.new, and rename it: File exists\n", words)


def own_files_are_removed(program, folder, row, wanted):
    """What a command that was killed left, or a cut of power: a beginning of a text, or zeros."""
    for left in [*(wanted[:size] for size in (0, 5, 40, len(wanted))), bytes(5), bytes(4096)]:
        lay(folder, row.files)
        (folder / "state.new").write_bytes(left)
        what = f"{row.name} beside {len(left)} bytes of a state.new, {left[:8]}"
        want(run(program, folder, row).returncode == 0, what)
        want((folder / "state").read_bytes() == wanted, f"{what}: the state")
        want(not (folder / "state.new").exists(), f"{what}: what is left")
    for left in [MARK, MARK[:7], bytes(len(MARK))]:
        lay(folder, row.files)
        (folder / "state.lock").write_bytes(left)
        want(run(program, folder, row).returncode == 0, f"{row.name} beside a lock of {left}")
        want((folder / "state.lock").read_bytes() == b"", f"{row.name} beside a lock of {left}: what it has")


def new_modes(program, folder, row):
    lay(folder, {name: text for name, text in row.files.items() if name != "state"})
    ended = run(program, folder, row)
    want(ended.returncode == 0, f"{row.name} without a state", ended.returncode, ended.stderr)
    for name in ("state", "state.lock"):
        want(mode(folder / name) == 0o600, f"{row.name}: {name} is new", oct(mode(folder / name)))


def kept_modes(program, folder, row):
    for wanted in (0o600, 0o640, 0o644):
        lay(folder, row.files)
        state = folder / "state"
        if "state" not in row.files:
            run(program, folder, row)
        state.chmod(wanted)
        owner = (NOBODY, NOBODY) if os.geteuid() == 0 else (os.geteuid(), os.getegid())
        os.chown(state, *owner)
        want(run(program, folder, row).returncode == 0, f"{row.name} over {oct(wanted)}")
        want(mode(state) == wanted, f"{row.name} over {oct(wanted)}", oct(mode(state)))
        want((state.stat().st_uid, state.stat().st_gid) == owner, f"{row.name}: its owner", str(state.stat()))


def the_lock_is_taken_away(program, folder, row, wanted, replace):
    """The command waits for a lock, and the lock's file is removed or replaced."""
    lay(folder, row.files)
    lock = folder / "state.lock"
    with lock.open("w") as held:
        fcntl.flock(held, fcntl.LOCK_EX)
        waiting = subprocess.Popen(
            [program, *row.words], cwd=folder, stdin=subprocess.PIPE, stdout=subprocess.DEVNULL, stderr=subprocess.PIPE
        )
        waiting.stdin.write(row.stdin)
        waiting.stdin.close()
        time.sleep(0.3)
        want(waiting.poll() is None, f"{row.name}: it waits", waiting.poll())
        lock.unlink()
        if replace:
            other = lock.open("w")
            fcntl.flock(other, fcntl.LOCK_EX)
    if replace:
        time.sleep(0.3)
        want(waiting.poll() is None, f"{row.name}: it waits for the file that replaced it", waiting.poll())
        other.close()
    want(waiting.wait(timeout=HANG) == 0, f"{row.name}: the lock was taken away", waiting.stderr.read())
    want((folder / "state").read_bytes() == wanted, f"{row.name}: the lock was taken away: the state")
    want(lock.exists(), f"{row.name}: the lock was taken away: a lock's file")


def empty_paths(program, folder, row):
    lay(folder, row.files)
    for option in ("--config", "--state"):
        words = list(row.words)
        words[words.index(option) + 1] = ""
        ended = run(program, folder, row, words)
        want(ended.returncode == 2, f"{row.name}: {option} is empty", ended.returncode, ended.stderr)


def size_of(row):
    return len(row.stdin) + sum(map(len, row.files.values()))


def everything(folder):
    return {path.name: path.read_bytes() for path in folder.iterdir() if path.name != "state.lock"}


def a_journal_counts_as_the_state(program, folder, row):
    def answer(files):
        lay(folder, files)
        ended = run(program, folder, row)
        return ended.returncode, ended.stdout, ended.stderr, everything(folder)

    wanted = answer(row.files)
    if wanted[0] == 0 or b" S" not in wanted[2]:
        here = journaled(row).files
        both = {**row.files, "state.journal": here["state.journal"]}
        if not row.writes or wanted[0] != 0:
            for files in (here, both):
                seen = answer(files)
                want(seen == (*wanted[:3], files), f"{row.name} of a journal", *seen)
        else:
            for files in (here, both):
                want(answer(files) == wanted, f"{row.name} of a journal", *answer(files))


def a_cut_journal(program, folder, row):
    """Cut anywhere, it is read as its whole lines, and so is a state of these."""
    journal = as_journal(row.files["state"])
    head = journal.index(b"\n") + 1
    others = {name: text for name, text in row.files.items() if name != "state"}
    seen = {}
    for size in range(len(journal) + 1):
        whole = journal[: journal[:size].rfind(b"\n") + 1]
        lay(folder, {**others, "state.journal": journal[:size]})
        ended = run(program, folder, row)
        if whole not in seen:
            held = whole.count(b"\n") - 1
            state = whole + b'{"count":%d,"distrusts":0}\n' % held
            lay(folder, {**others, "state": state} if size >= head else others)
            seen[whole] = run(program, folder, row)
        right = (ended.returncode, ended.stdout, ended.stderr) == (
            seen[whole].returncode,
            seen[whole].stdout,
            seen[whole].stderr,
        )
        want(right, f"{row.name}: a journal cut at {size}", ended.stdout, ended.stderr)


def a_bad_journal(program, folder, row):
    journal = as_journal(row.files["state"])
    head, *lines = journal.splitlines(keepends=True)
    other = head.replace(b'"config":"', b'"config":"' + (b"1" if head[11:12] == b"0" else b"0"))
    other = other[:75] + other[76:]
    first = head + b"".join(lines)
    bad = {
        b"S1 BadHeader": b"garbage\n" + first,
        b"S2 ConfigDiffers": other + b"".join(lines),
        b"S3 VersionDiffers": head.replace(b'"format":2', b'"format":1') + b"".join(lines),
        b"S4 NotCanonical line 2": head + b"garbage\n" + b"".join(lines),
        b"S4 NotCanonical line %d" % (len(lines) + 2): first + b"{}\n" + lines[0],
        b"S8 Refused line %d G1 UnknownDomain" % (len(lines) + 2): first
        + lines[0].replace(b"a.example", b"z.example")
        + lines[0],
    }
    for why, text in bad.items():
        files = {**row.files, "state.journal": text}
        lay(folder, files)
        ended = run(program, folder, row)
        want(ended.returncode == 1, f"{row.name}: {why}: the status", ended.returncode)
        want(ended.stderr == b"fedbundle: journal: " + why + b"\n", f"{row.name}: {why}", ended.stderr)
        want(ended.stdout == b"" and everything(folder) == files, f"{row.name}: {why}: what is changed")


# ---- files that others touch while a replica runs


def copied_over(older):
    return lambda name: name.write_bytes(older)


def one_line_more(name):
    with name.open("ab") as file:
        file.write(b"x\n")


def touches(older):
    """What others do to a file, and which file it then has. All of it leaves the file's number."""
    return {
        "an older one is copied over it": copied_over(older),
        "it is emptied": lambda name: os.truncate(name, 0),
        "it is cut": lambda name: os.truncate(name, name.stat().st_size - 5),
        "it gets a line more": one_line_more,
    }


MODE = {"its mode is changed": lambda name: name.chmod(0o640)}


class Touched:
    """A replica whose files are touched, and what it has acknowledged."""

    def __init__(self, program, folder, *words):
        self.replica, self.acknowledged, self.sequence = replicas.Replica(program, folder, *words), [], 1
        self.older = {}

    def observe(self, *ders):
        self.sequence += 1
        reply = self.replica.observe(self.sequence, *ders) or (None, b"", b"")
        if reply[0] == 0:
            self.acknowledged.append(reply[1])
        return reply

    def begin(self, *names):
        """It runs on a state and a journal, each with something that an older one of them has not."""
        replica = self.replica
        replica.start()
        self.observe()
        self.older = {name: (replica.folder / name).read_bytes() for name in names}
        replica.kill()
        replica.start()
        self.observe()
        return self

    def holds_all(self, what):
        """After a kill it begins again, with all that was acknowledged."""
        replica = self.replica
        if replica.process.poll() is None:
            replica.kill()
        else:
            replica.end()
        replica.start()
        want(replica.ready.startswith(b"ready "), f"{what}: it starts again", replica.ready, replica.said())
        lost = replicas.lost_of(replica, self.acknowledged) if (replica.folder / "state").exists() else self.acknowledged
        want(not lost, f"{what}: what was acknowledged is held", len(lost), len(self.acknowledged), replica.said())
        replica.kill()

    def says(self, what, name):
        event = f"event=lost file={name.removeprefix('state.')}\n"
        want(self.replica.said().count(event) == 1, f"{what}: it is reported once", self.replica.said())


def touched_before_a_change(program, above):
    for name in ("state", "state.journal"):
        for number, how in enumerate([*touches(b""), *MODE]):
            touched = Touched(program, above / f"{name}-{number}").begin(name)
            what, file = f"{name}, {how}", touched.replica.folder / name
            {**touches(touched.older[name]), **MODE}[how](file)
            reply = touched.observe()
            want(reply[0] == 0 and touched.observe()[0] == 0, f"{what}: it goes on", *reply)
            touched.says(what, name)
            touched.holds_all(what)


def touched_audit(program, above):
    for number, how in enumerate(touches(b"")):
        touched = Touched(program, above / f"audit-{number}", "--audit", "audit").begin("audit")
        what, file, replica = f"the audit file, {how}", touched.replica.folder / "audit", touched.replica
        touches(touched.older["audit"])[how](file)
        reply = touched.observe()
        want(reply == (3, b"", b"fedbundle: S9 Io\n") and replica.end() == 3, f"{what}: it ends", *reply)
        want("event=audit fault=S9\n" in replica.said(), f"{what}: it is reported", replica.said())
        file.unlink()
        replica.start()
        touched.holds_all(what)


class InAFold:
    """A replica that is stopped by a signal while it writes its state again."""

    def __init__(self, program, folder):
        self.touched = Touched(program, folder).begin("state", "state.journal")
        self.folder, self.process = self.touched.replica.folder, self.touched.replica.process
        self.new = self.folder / "state.new"

    def __enter__(self):
        for _ in range(FOLDS):
            self.client = threading.Thread(target=self.fill)
            self.client.start()
            while self.client.is_alive() and not self.has_begun():
                pass
            os.kill(self.process.pid, signal.SIGSTOP)
            # Until the call that it is in has ended.
            time.sleep(0.05)
            if self.has_begun():
                break
            # The fold has ended before. The next one has more to write.
            self.__exit__()
        want(self.has_begun(), "it is stopped in a fold", held_names(self.folder))
        self.ended = self.folds()
        return self

    def folds(self):
        """How many folds it has reported."""
        return self.touched.replica.said().count("event=fold")

    def has_begun(self):
        try:
            return self.new.stat().st_size > 0
        except FileNotFoundError:
            return False

    def fill(self):
        while not self.has_begun() and self.touched.observe(bytes(LONG_KEY))[0] == 0:
            pass

    def __exit__(self, *_):
        os.kill(self.process.pid, signal.SIGCONT)
        self.client.join()


def held_names(folder):
    return sorted(path.name for path in folder.iterdir())


def touched_in_a_fold(program, above):
    for name in ("state", "state.journal"):
        for number, how in enumerate(touches(b"")):
            what = f"{name} in a fold, {how}"
            with InAFold(program, above / f"fold-{name}-{number}") as fold:
                touches(fold.touched.older[name])[how](fold.folder / name)
            want(fold.touched.observe()[0] == 0, f"{what}: it goes on", fold.touched.replica.said())
            fold.touched.says(what, name)
            fold.touched.holds_all(what)


def new_state_is_replaced(program, above):
    """Another file, or more than was written, is under the name of the new state."""
    for number, how in enumerate(["a valid one", "another program's", *touches(b"")]):
        what = f"state.new, {how}"
        with InAFold(program, above / f"new-{number}") as fold:
            empty = fold.touched.older["state"]
            if how in touches(b""):
                touches(empty)[how](fold.new)
            else:
                (fold.folder / "other").write_bytes(empty if number == 0 else FOREIGN)
                (fold.folder / "other").rename(fold.new)
        replica = fold.touched.replica
        want(replicas.within(HANG, lambda: fold.folds() > fold.ended), f"{what}: the fold ends", replica.said())
        want("event=fold fault=S9\n" in replica.said(), f"{what}: it fails", replica.said())
        if number == 1:
            want(fold.new.exists() and fold.new.read_bytes() == FOREIGN, f"{what}: it stays", held_names(fold.folder))
            fold.new.unlink(missing_ok=True)
        # The first one is killed before another change, which would look at the state.
        want(number == 0 or fold.touched.observe()[0] == 0, f"{what}: it goes on", replica.said())
        fold.touched.holds_all(what)


# ---- pipes


def pipes_are_refused(program, above):
    """Nothing is read from a pipe that has the name of a file, so nothing waits for who writes into it."""
    def ends(what, folder, words, wanted):
        before = held_in(folder)
        try:
            ended = subprocess.run([program, *words], cwd=folder, stdin=subprocess.DEVNULL, capture_output=True, timeout=20)
            seen = ended.returncode, ended.stdout, ended.stderr
        except subprocess.TimeoutExpired:
            seen = None, b"", b"it waits"
        want(seen[0] in (1, 3) and seen[1] == b"" and seen[2] == wanted, what, *seen)
        after = {name: held for name, held in held_in(folder).items() if name != "state.lock"}
        want(after == before, f"{what}: what is changed", held_names(folder))

    config = ["--config", "config", "--state", "state"]
    run = ["replica", *config, "--socket", "socket"]
    for name, words, wanted in (
        ("state", run, b"fedbundle: S9 Io\n"),
        ("state.journal", run, b"fedbundle: journal: S9 Io\n"),
        ("state.previous", [*run, "--previous", "other"], b"fedbundle: S9 Io\n"),
        ("config", run, b"fedbundle: E3 Io\n"),
        ("other", [*run, "--previous", "other"], b"fedbundle: E3 Io\n"),
        ("state", ["list", *config], b"fedbundle: S9 Io\n"),
        ("state.journal", ["list", *config], b"fedbundle: journal: S9 Io\n"),
        ("config", ["list", *config], b"fedbundle: E3 Io\n"),
    ):
        folder = above / "pipes"
        folder.mkdir()
        replica = replicas.Replica(program, folder)
        other = {**replicas.CONFIG, "floors": {replicas.DOMAIN: 1}}
        (folder / "other").write_text(replicas.json.dumps(other))
        subprocess.run([program, "new", *config], cwd=folder, check=True)
        for lock in (folder / "state.lock", *([folder / name] if (folder / name).exists() else [])):
            lock.unlink()
        os.mkfifo(folder / name)
        ends(f"{words[0]} with a pipe as {name}", folder, words, wanted)
        for path in folder.iterdir():
            path.unlink()
        folder.rmdir()
        del replica


def main():
    program = find_program()
    rows = worked_runs()
    os.umask(0)
    with temporary() as room:
        folder = Path(room) / "run"
        folder.mkdir()
        for name in ROWS:
            row = rows[name]
            lay(folder, row.files)
            want(run(program, folder, row).returncode == 0, name)
            wanted = (folder / "state").read_bytes()
            foreign_files_stay(program, folder, row)
            own_files_are_removed(program, folder, row, wanted)
            if name in WITHOUT_STATE:
                new_modes(program, folder, row)
            kept_modes(program, folder, row)
            for replace in (False, True):
                the_lock_is_taken_away(program, folder, row, wanted, replace)
            empty_paths(program, folder, row)
        foreign_files_of_a_replica_stay(program, folder, rows[ROWS[0]])
        for row in rows.values():
            if b'"format":2}\n{' in row.files.get("state", b"") and size_of(row) <= MOST_BYTES:
                a_journal_counts_as_the_state(program, folder, row)
        for name in (*ROWS, "state-files/bundle"):
            if "state" in rows[name].files:
                a_bad_journal(program, folder, rows[name])
        a_cut_journal(program, folder, rows["state-files/bundle"])
        for part in (touched_before_a_change, touched_audit, touched_in_a_fold, new_state_is_replaced, pipes_are_refused):
            part(program, Path(room))
    for fault in faults[:20]:
        print(fault)
    print(f"{ran} things looked at; {len(faults)} wrong")
    sys.exit(1 if faults else 0)


if __name__ == "__main__":
    main()

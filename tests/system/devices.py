#!/usr/bin/env python3
"""Gives the program what the system itself refuses: a full or closed standard output, a folder where a file should be,
a name that no file can have, and too little address space.

A run is right if no signal ends it, the state file is as before or as after the run without an error, and the answer is
status 3 and an error of a device on the last line of standard error; with too little address space it is status 4 and out
of memory, or the whole answer.

A command that is started with a standard stream closed gets no other file in its place: what it would print there
fails with status 3, its lock's file stays empty, and a command that does not use the stream ends as ever.

It needs python3. The program is the one that ./fedbundle runs, or the one that $FEDBUNDLE names.

usage: devices   the status is 1 if an answer is wrong
"""
import os
import re
import resource
import subprocess
import sys
from dataclasses import replace
from pathlib import Path

sys.dont_write_bytecode = True
sys.path.insert(0, str(Path(__file__).resolve().parent.parent / "lib"))
from harness import HANG, content, find_program, lay, shown, temporary, worked_runs  # noqa: E402

WRITES_OUT = [
    "canon-normalises/whole",
    "conflicts/seventh-of-hello-seventh-with-hint",
    "state-files/bundle",
    "chains/third-document",
    "state-files/observe-third-document",
    "merge/third-merges-second",
    "polls/two-failures",
]
READS_IN = [row for row in WRITES_OUT if row != "state-files/bundle"]
WRITES_ERR = ["document-refusals/no-keys", "refused-lines/garbage-and-cut", "state-files/no-words"]
HAS_STATE = ["state-files/bundle", "chains/third-document", "polls/two-failures"]
WRITES_STATE = ["state-files/observe-third-document", "merge/third-merges-second", "distrust/key-of-abc"]
USES_NO_STREAM = ["distrust/key-of-abc"]
LARGE = "document-refusals/1048565-spaces"

TELLS_DEVICE = re.compile(rb"(\A|\n)fedbundle: .*\b(E3|V1|P6|S9) Io\n\Z")
TELLS_MEMORY = re.compile(rb"(\A|\n)fedbundle: .*\bNoMemory\n\Z")


class Judge:
    def __init__(self, program, folder):
        self.program = program
        self.folder = Path(folder) / "run"
        self.folder.mkdir()
        self.input = Path(folder) / "input"
        self.faults = []
        self.ran = 0

    def run(self, run, folders=(), before="", **streams):
        """Runs the program under `before`, which is done by a shell."""
        lay(self.folder, run.files)
        for name in folders:
            (self.folder / name).mkdir()
        self.input.write_bytes(run.stdin)
        with self.input.open("rb") as stdin:
            given = {"stdin": stdin, "stdout": subprocess.PIPE, "stderr": subprocess.PIPE, **streams}
            words = ["/bin/sh", "-c", f'exec "$@" {before}', "sh", self.program, *run.words]
            ran = subprocess.run(words, cwd=self.folder, timeout=HANG, **given)
        return ran.returncode, ran.stdout, ran.stderr

    def want(self, what, run, right, answer):
        self.ran += 1
        if not right:
            self.faults.append(f"{run.name}, {what}: {shown(answer)}")

    def fails(self, what, run, after=None, **how):
        """The run has to end as when a device fails."""
        status, out, err = self.run(run, **how)
        told = how.get("stderr") is not None or TELLS_DEVICE.search(err)
        state = self.folder / "state"
        kept = state.is_dir() or content(state) in (run.files.get("state"), after)
        self.want(what, run, status == 3 and told and kept, (status, out, err))


def full_and_closed(judge, rows):
    for name in WRITES_OUT:
        run = rows[name]
        judge.run(run)
        after = content(judge.folder / "state")
        with open("/dev/full", "wb") as full:
            judge.fails("standard output is full", run, after, stdout=full)
        reading, writing = os.pipe()
        os.close(reading)
        judge.fails("nobody reads standard output", run, after, stdout=writing)
        os.close(writing)
        judge.fails("standard output is closed", run, after, before=">&-")
        for closed in (">&- 2>&-", "<&- >&- 2>&-"):
            status, _, _ = judge.run(run, before=closed)
            judge.want(f"closed by {closed}", run, status == 3, status)
            lock = content(judge.folder / "state.lock")
            judge.want(f"closed by {closed}: the lock's file", run, lock in (None, b""), lock)
    for name in USES_NO_STREAM:
        run = rows[name]
        judge.run(run)
        after = content(judge.folder / "state")
        status, _, _ = judge.run(run, before="<&- >&- 2>&-")
        judge.want("all streams are closed", run, status == 0, status)
        judge.want("all streams are closed: the state", run, content(judge.folder / "state") == after, "")
        judge.want("all streams are closed: the lock", run, content(judge.folder / "state.lock") == b"", "")
    for name in WRITES_ERR:
        with open("/dev/full", "wb") as full:
            judge.fails("standard error is full", rows[name], stderr=full)


def no_input(judge, rows):
    for name in READS_IN:
        run = rows[name]
        judge.fails("standard input is a folder", run, before="</")
        judge.fails("standard input is closed", run, before="<&-")


def folders_for_files(judge, rows):
    for name in HAS_STATE + WRITES_STATE:
        run = rows[name]
        files = {file: text for file, text in run.files.items() if file != "state"}
        judge.fails("the state is a folder", replace(run, files=files), folders=["state"])
        files = {file: text for file, text in run.files.items() if not file.endswith(".json")}
        judge.fails("the configuration is a folder", replace(run, files=files), folders=["c1.json"])
        judge.fails("the configuration is not there", replace(run, files=files))
        words = ["n" * 300 if word == "state" else word for word in run.words]
        judge.fails("the state has a name that is too long", replace(run, words=words))
    for name in WRITES_STATE:
        run = rows[name]
        for other in ("state.new", "state.lock"):
            judge.fails(f"{other} is a folder", run, folders=[other])
        words = ["nowhere/state" if word == "state" else word for word in run.words]
        judge.fails("the state is in a folder that is not there", replace(run, words=words))


def little_memory(judge, rows):
    """With ever less address space, down to where the system cannot load the program."""
    run = rows[LARGE]
    whole = judge.run(run)
    ended = set()
    for kilobytes in range(16_384, 0, -256):
        def limit():
            resource.setrlimit(resource.RLIMIT_AS, (kilobytes * 1024, kilobytes * 1024))

        try:
            answer = judge.run(run, preexec_fn=limit)
        except (OSError, subprocess.SubprocessError):
            break
        status, out, err = answer
        if status == 127 or (status == -11 and b"" == err):
            break
        no_memory = status == 4 and TELLS_MEMORY.search(err) and not out
        judge.want(f"{kilobytes} KiB of address space", run, answer == whole or no_memory, answer)
        ended.add(status)
    judge.want("too little address space was refused", run, 4 in ended, ended)


def main():
    rows = worked_runs()
    with temporary() as folder:
        judge = Judge(find_program(), folder)
        full_and_closed(judge, rows)
        no_input(judge, rows)
        folders_for_files(judge, rows)
        little_memory(judge, rows)
    for fault in judge.faults[:20]:
        print(fault)
    print(f"{judge.ran} runs; {len(judge.faults)} wrong")
    sys.exit(1 if judge.faults else 0)


if __name__ == "__main__":
    main()

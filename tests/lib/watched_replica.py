"""A running replica with an address of health, for tests/health.py and tools/page-picture.py."""
import json
import re
import subprocess
import time
from pathlib import Path

from health_stand_in import StandIn

EXAMPLES = Path(__file__).resolve().parent.parent.parent / "examples"


def receipts_of_examples():
    return (EXAMPLES / "receipts.jsonl").read_text().splitlines()


def has_health(program):
    """Whether the program's replica has the option."""
    return "--health " in subprocess.run([program, "replica", "--help"], capture_output=True, text=True).stdout


def has_names(program):
    """Whether names of hosts can be let in there."""
    return "--health-host " in subprocess.run([program, "replica", "--help"], capture_output=True, text=True).stdout


class WatchedReplica:
    """A replica in a folder of its own, with this configuration and these receipts. It runs from its start to its stop, or to
    the end of its holder. If it has a stand-in, that one answers at its address of health. A peer may be quiet for this many
    seconds."""

    def __init__(self, program, folder, config, receipts=(), words=(), has_stand_in=False, quiet=600):
        self.program, self.folder, self.words, self.quiet = program, Path(folder), list(words), quiet
        self.has_stand_in, self.process, self.stand_in, self.askable = has_stand_in, None, None, {}
        self.folder.mkdir(parents=True, exist_ok=True)
        (self.folder / "config").write_text(json.dumps(config))
        if not (self.folder / "state").exists():
            self.files("new", text=True)
            head = (self.folder / "state").read_text().splitlines()[0]
            lines = [head, *sorted(receipts), f'{{"count":{len(receipts)},"distrusts":0}}']
            (self.folder / "state").write_text("".join(f"{line}\n" for line in lines))

    def files(self, word, *more, text=False):
        """What a command over the files prints."""
        return self.printed(word, "--config", "config", "--state", "state", *more, text=text)

    def at(self, word, *more, given=b"", text=False):
        """What a command prints that asks the replica."""
        return self.printed(word, "--at", "socket", *more, given=given, text=text)

    def shown(self, word, *more, text=False):
        """What a command prints that shows what is held: of the replica, if the command can ask it."""
        if word not in self.askable:
            about = subprocess.run([self.program, word, "--help"], capture_output=True, text=True).stdout
            form = next((line for line in about.splitlines() if f" {word} --at <PATH>" in line), "")
            self.askable[word] = bool(form) and ("--format" in form or "--format" not in about)
        return (self.at if self.askable[word] else self.files)(word, *more, text=text)

    def printed(self, *words, given=b"", text=False):
        ran = subprocess.run([self.program, *words], input=given, capture_output=True, cwd=self.folder, timeout=600)
        if ran.returncode > 1:
            raise OSError(f"{' '.join(words)}: {ran.stderr.decode()}")
        return ran.stdout.decode() if text else ran.stdout

    def status(self):
        return json.loads(self.at("status", "--format", "json"))

    def __enter__(self):
        health = [] if self.has_stand_in else ["--health", "127.0.0.1:0", "--peer-quiet", str(self.quiet)]
        words = [self.program, "replica", "--config", "config", "--state", "state", "--socket", "socket", *health, *self.words]
        with open(self.folder / "log", "wb") as log:
            self.process = subprocess.Popen(words, cwd=self.folder, stdin=subprocess.DEVNULL, stdout=subprocess.PIPE, stderr=log)
        if not self.process.stdout.readline().startswith(b"ready "):
            raise OSError(f"the replica did not start: {self.said()}")
        if self.has_stand_in:
            self.stand_in = StandIn(self.program, self.folder, quiet=self.quiet)
            self.address = self.stand_in.address
        else:
            self.address = self.printed_address()
        return self

    def printed_address(self):
        end = time.monotonic() + 600
        while time.monotonic() < end:
            if found := re.search(r"^fedbundle: health (\S+)$", self.said(), re.M):
                return found[1]
            time.sleep(0.02)
        raise OSError(f"the replica does not say where it listens: {self.said()}")

    def said(self):
        return (self.folder / "log").read_text()

    def stop(self):
        if self.stand_in:
            self.stand_in.close()
        self.at("stop")
        self.process.wait(20)

    def __exit__(self, *_):
        if self.process.poll() is None:
            self.process.kill()
            self.process.wait()
        if self.stand_in:
            self.stand_in.close()
        self.process.stdout.close()

"""The proofs of the gate, for `tests/run --prove`: `rt ci`, what of it was not as wanted, and what it cost.

`prove` proves one small crate alone, which is the unit of the cost (units.py), and runs `rt ci`. It prints what that prints,
each line after the seconds since the start, and where a program's output is not as its file stdout has it, the first lines that
differ. `tell_cost` prints where the prover's processor time went, in units, and once more what `rt ci` did not pass: who sees
only the end of the output sees that."""
import difflib
import os
import re
import resource
import subprocess
import sys
import tempfile
import time
from pathlib import Path

import units

TOP = Path(__file__).resolve().parent.parent
sys.path.insert(0, str(TOP / "tools"))
import release  # noqa: E402

CI = TOP / ".ci"
# Bytes that a check of a large crate may take.
MEMORY_OF_A_CHECK = 5_000_000_000
NOT_PASSED = re.compile(r"^rt: .*(?:FAILED|NOT PROVED|NOT REFUSED|NOT TRIED|had not ended|was stopped by signal|ended with status"
                        r"|is not what its file).*$", re.M)
cost = {}


def lanes():
    """How many checks `rt ci` runs side by side. Left alone it counts on two to three times the memory that one takes."""
    free = next(int(line.split()[1]) * 1024 for line in open("/proc/meminfo") if line.startswith("MemAvailable:"))
    return min(len(os.sched_getaffinity(0)), free // MEMORY_OF_A_CHECK)


def used():
    """The seconds of processors that all children took until now."""
    children = resource.getrusage(resource.RUSAGE_CHILDREN)
    return children.ru_utime + children.ru_stime


def time_unit():
    ran = subprocess.run([sys.executable, CI / "units.py", "time"], stdin=subprocess.DEVNULL, capture_output=True, text=True)
    print(f"the unit: {ran.stdout.strip()} s of a processor" if ran.returncode == 0 else ran.stderr.strip(), flush=True)
    return float(ran.stdout) if ran.returncode == 0 else None


def run_rt(words):
    """Runs `rt ci`. Returns its status and what it printed."""
    more = {"RT_JOBS": str(lanes())} if lanes() > 1 else {}
    start, lines = time.monotonic(), []
    with subprocess.Popen(["rt", "ci", *words], cwd=TOP, env=os.environ | more, stdin=subprocess.DEVNULL, stdout=subprocess.PIPE,
                          stderr=subprocess.STDOUT, text=True, errors="replace") as process:
        for line in process.stdout:
            lines.append(line)
            print(f"{time.monotonic() - start:5.0f} s  {line}", end="", flush=True)
    return process.returncode, "".join(lines)


def tell_differences():
    """The first lines in which the output of a row program is not as its file has it."""
    for made in sorted([*TOP.glob("crates/*/out/stdout"), *TOP.glob("crates/*/out/stdout.by-rattle")]):
        wanted = made.parent.parent / "stdout"
        if not wanted.exists() or wanted.read_bytes() == made.read_bytes():
            continue
        print(f"{made.relative_to(TOP)} is not as wanted (- wanted, + came):")
        texts = [path.read_text(errors="replace").splitlines() for path in (wanted, made)]
        for line in list(difflib.unified_diff(*texts, lineterm=""))[2:62]:
            print(line[:400])


def prove(words):
    """Runs the proofs. Returns what of them fails the gate."""
    unit = time_unit()
    # A kit that keeps nothing has no such word.
    words = words if units.keeps_work() else []
    with tempfile.TemporaryFile("w+") as table:
        looking = subprocess.Popen([sys.executable, CI / "processor_time.py", str(os.getpid())], stdout=table)
        before, start = used(), time.monotonic()
        status, log = run_rt(words)
        took, spent = time.monotonic() - start, used() - before
        looking.terminate()
        looking.wait()
        table.seek(0)
        cost.update(unit=unit, took=took, used=spent, table=table.read(), log=log, until=used())
    tell_differences()
    return ([] if unit else ["the proof that is the unit of cost"]) + ([f"rt ci: status {status}"] if status else [])


def release_of_other_kit(folder):
    """The path of the released program in the folder, if it is of these sources and another kit built another one here."""
    lines = (TOP / "dist/MANIFEST").read_text().splitlines()
    told = dict(line.split(" ", 1) for line in lines if not line.startswith("file "))
    if told["sources"] != release.digest_of(release.crates_of("fedbundle_cli")):
        return None
    content = subprocess.run(["tar", "-xJOf", TOP / "dist/fedbundle-x86_64-linux.tar.xz", "fedbundle/bin/fedbundle"],
                             capture_output=True, check=True).stdout
    if content == (TOP / "crates/fedbundle_cli/out/fedbundle_cli").read_bytes():
        return None
    program = Path(folder) / "fedbundle"
    program.write_bytes(content)
    program.chmod(0o755)
    return program


def tell_cost():
    """Prints what the proofs cost, and what was not passed. Returns what of that fails the gate."""
    print(f"`rt ci` took {cost['took']:.0f} s, and {cost['used'] / 60:.0f} min of processors", flush=True)
    faults = []
    try:
        if cost["unit"]:
            units.cost(cost["unit"], units.read_table(cost["table"]), cost["log"], cost["used"], used() - cost["until"])
        else:
            print(cost["table"], end="")
    except SystemExit as fault:
        faults.append(str(fault))
    for line in [*NOT_PASSED.findall(cost["log"])[-20:], *cost["log"].splitlines()[-1:]]:
        print(line[:400])
    sys.stdout.flush()
    return faults

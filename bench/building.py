"""What the benchmarks share: our programs proved and built in a repository of their own, the peers in plain Rust built over
Debian's packages, the built `fedbundle`, and programs run with the most memory that they held."""
import os
import resource
import subprocess
import sys
import tempfile
from pathlib import Path

BENCH = Path(__file__).resolve().parent
TOP = BENCH.parent
sys.path.insert(0, str(TOP / "tests/lib"))
from harness import find_program  # noqa: E402, F401
from scratch import below, crate_lines, files_of, lay_out, libraries  # noqa: E402

OUT = BENCH / "out"
REGISTRY = Path("/usr/share/cargo/registry")
# The packages of the crates that the peers use.
PACKAGES = {
    "serde_json": "librust-serde-json-dev",
    "sha2": "librust-sha2-dev",
    "base64": "librust-base64-dev",
    "hex": "librust-hex-dev",
    "url": "librust-url-dev",
}
TIME = "/usr/bin/time"


def stop(text):
    sys.exit(f"run: {text}")


def earlier_programs():
    """The program of an earlier commit that $FEDBUNDLE_BEFORE names, if it names one: it is measured in the same turns."""
    program = os.environ.get("FEDBUNDLE_BEFORE")
    if program is None:
        return []
    if not os.access(program, os.X_OK):
        stop(f"{program} is not there: $FEDBUNDLE_BEFORE names it")
    return [program]


def build_ours(name, *crates, words=(), text=b"", top=TOP):
    """Builds the program programs/NAME.rt.txt of a checkout, with the files of programs/NAME/ if there are any, over the
    crates and all that they use, runs it once on the arguments and the text, and returns where it is."""
    programs = top / "bench/programs"
    files = {"main.rt": programs / f"{name}.rt.txt", **files_of(programs / name)}
    used = below(crate_lines(top / "crates.txt"), crates)
    return build_over(used, f"{name}_bench", files, words, text, top)


def build_simulation():
    """Builds the program tests/rows/programs/simulation, and returns where it is."""
    programs = TOP / "tests/rows/programs"
    used = libraries(crate_lines(programs / "uses.txt")["simulation"])
    return build_over(used, "simulation", files_of(programs / "simulation"))


def build_over(used, name, files, words=(), text=b"", top=TOP):
    """Proves and builds a program of these files over the libraries, runs it once on the arguments and the text, and returns
    where it is."""
    program = lay_out(OUT / ("repo" if top == TOP else "repo-before"), name, used, files, top)
    print(f"proving and building the crates of {top} and their benchmark", file=sys.stderr)
    done = subprocess.run(["rt", "run", "--", *words], cwd=program, input=text, capture_output=True)
    if done.returncode != 0:
        stop((done.stdout + done.stderr)[-4_000:].decode(errors="replace"))
    return program / "out" / program.name


def build_with_earlier(name, *crates):
    """Our program, and that of an earlier commit if $FEDBUNDLE_BEFORE_AT names its checkout: it is measured in the
    same turns."""
    earlier = os.environ.get("FEDBUNDLE_BEFORE_AT")
    if earlier is not None and not Path(earlier, "crates.txt").is_file():
        stop(f"{earlier} is no checkout: $FEDBUNDLE_BEFORE_AT names it")
    own = build_ours(name, *crates)
    return own, [] if earlier is None else [build_ours(name, *crates, top=Path(earlier).resolve())]


def own_rows(programs):
    """The places of our programs among all, and the word before their rows: today's comes first, the peer second, and the
    program of an earlier commit third, if there is one."""
    return [(0, ""), (2, "before")][: len(programs) - 1]


def build_peer(name, soft=False, cpu=None):
    """Builds the peer in plain Rust, and returns where it is. `soft` has it compute digests without the processor's own
    instructions; `cpu` names the processors that it is built for, if these are not all of the kind."""
    missing = [package for crate, package in PACKAGES.items() if not list(REGISTRY.glob(f"{crate}-[0-9]*"))]
    if missing:
        stop("these packages are missing: " + " ".join(missing))
    target = OUT / "-".join(filter(None, ["peer", soft and "soft", cpu]))
    environment = {**os.environ, "CARGO_TARGET_DIR": str(target)}
    if cpu:
        environment["RUSTFLAGS"] = f"-C target-cpu={cpu}"
    words = ["cargo", "build", "--release", "--offline", "--quiet", "--bin", name]
    words += ["--features", "soft"] if soft else []
    how = {"stdin": subprocess.DEVNULL, "capture_output": True, "text": True}
    try:
        done = subprocess.run(words, cwd=BENCH / "peer", env=environment, **how)
    except FileNotFoundError:
        stop("cargo is not on PATH")
    if done.returncode != 0:
        stop("cargo built nothing:\n" + done.stderr)
    return target / "release" / name


def run_timed(command, path, sink=subprocess.PIPE):
    """Runs the command on a file, and returns what it printed, if that goes to no sink, the seconds that it used of
    processors, and the most memory that it held, in bytes: as `time` tells it, whose own process is small. A process that
    starts another hands its own most on to it."""
    if not os.access(TIME, os.X_OK):
        stop(f"{TIME} is not there: it is in the package time")
    with open(path, "rb") as source, tempfile.NamedTemporaryFile("r") as told:
        words = [TIME, "-f", "%M", "-o", told.name, *map(str, command)]
        before = used_by_children()
        done = subprocess.run(words, stdin=source, stdout=sink)
        used = used_by_children() - before
        if done.returncode != 0:
            stop(f"{' '.join(map(str, command))} ended with {done.returncode}")
        return done.stdout, used, int(told.read()) * 1024


def used_by_children():
    """The seconds that ended children used of processors, in the program and in the system."""
    used = resource.getrusage(resource.RUSAGE_CHILDREN)
    return used.ru_utime + used.ru_stime


def run(program, words, path=os.devnull):
    """The numbers that the program prints, and the most memory that it held, in bytes."""
    printed, _, held = run_timed([program, *words], path)
    return [int(word) for word in printed.split()], held

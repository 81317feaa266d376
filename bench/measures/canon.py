"""Measures `fedbundle canon` and a plain Rust program that does the same.

It makes bundles of several sizes, always the same ones, checks that both programs print the same bytes for each, and
measures whole processes: start, reading standard input, and writing the answer. The runs of the two programs take turns,
so other work of the machine affects both. If $FEDBUNDLE_BEFORE names the program of an earlier commit, that one runs in
the same turns, and the last two columns have fedbundle's time over its.

arguments: [RUNS]      RUNS is the number of timed runs of each program on each bundle, 31 if left out
"""
import base64
import json
import random
import statistics
import subprocess
import tempfile
from pathlib import Path

from building import build_peer, earlier_programs, find_program, stop, used_by_children
from texts import url_text

DOMAIN = "a.example"
KIB = 1024


# The bundles.


def public_key(random_, kty):
    if kty == "RSA":
        return {"kty": "RSA", "n": url_text(random_, 256), "e": "AQAB"}
    return {"kty": "EC", "crv": "P-256", "x": url_text(random_, 32), "y": url_text(random_, 32)}


def x509(random_, kty):
    """An element with random bytes in a certificate's place, of the length that its key type has."""
    count = random_.randint(860, 900) if kty == "RSA" else random_.randint(480, 520)
    der = base64.b64encode(random_.randbytes(count)).decode()
    return {"use": "x509-svid", **public_key(random_, kty), "x5c": [der]}


def jwt(random_, kty):
    return {"use": "jwt-svid", "kid": url_text(random_, 24), **public_key(random_, kty)}


def ignored(random_):
    """An element that says no authority."""
    return random_.choice(
        [
            {"use": "x509-svid", "kty": "OKP", "crv": "Ed25519", "x": url_text(random_, 32)},
            {"use": "sig", "kid": url_text(random_, 24), **public_key(random_, "EC")},
            {"use": "jwt-svid", **public_key(random_, "RSA")},
        ]
    )


def mixed_element(random_, earlier):
    chance = random_.random()
    if chance < 0.1:
        return ignored(random_)
    if chance < 0.15 and earlier:
        return random_.choice(earlier)
    make = random_.choice([x509, jwt])
    return make(random_, random_.choice(["RSA", "EC"]))


def small_element(random_, _earlier):
    key = {"kty": "EC", "crv": "P-256", "x": url_text(random_, 3), "y": url_text(random_, 3)}
    return {"use": "jwt-svid", "kid": url_text(random_, 6), **key}


def bundle(size, next_element, indent):
    """A bundle of at most `size` bytes, and nearly as large, written with this indentation."""
    random_ = random.Random(size)
    separators = (",", ":") if indent is None else None
    keys, room = [], size - 200
    while True:
        element = next_element(random_, keys)
        text = json.dumps(element, indent=indent, separators=separators)
        room -= len(text) + 2 + (8 * (text.count("\n") + 1) if indent else 0)
        if room < 0:
            break
        keys.append(element)
    document = {"keys": keys, "spiffe_sequence": 7, "spiffe_refresh_hint": 300}
    written = json.dumps(document, indent=indent, separators=separators).encode()
    assert len(written) <= size
    return written, len(keys)


# What a bundle is made of: the four kinds and ignored elements in usual sizes, pretty-printed, or many small elements.
MIXED = "mixed elements"
SMALL = "many small ones"


def bundles():
    """Each bundle with what it is made of, its size by name, and the number of its elements."""
    for kib in (10, 100, 512, 1024):
        yield MIXED, f"{kib} KiB", *bundle(kib * KIB, mixed_element, 4)
    for kib in (100, 512, 1024):
        yield SMALL, f"{kib} KiB", *bundle(kib * KIB, small_element, None)


# The programs.


def answer(command, path):
    with path.open("rb") as source:
        done = subprocess.run(command, stdin=source, capture_output=True)
    if done.returncode != 0 or done.stderr:
        stop(f"{command[0]} ended with {done.returncode}: {done.stderr.decode(errors='replace')}")
    return done.stdout


def seconds(command, path):
    with path.open("rb") as source:
        before = used_by_children()
        subprocess.run(command, stdin=source, stdout=subprocess.DEVNULL, check=True)
        return used_by_children() - before


def measure(commands, path, runs):
    """The times of each command, which take turns."""
    times = [[] for _ in commands]
    for _ in range(runs):
        for found, command in zip(times, commands):
            found.append(seconds(command, path))
    return times


# The table.

ROW = "{:<15} {:>8} {:>8} {:>8} | {:>9} {:>8} {:>6} | {:>8} {:>8} {:>6} | {:>5} {:>6}"
RATIOS = " | {:>6} {:>6}"


def row(made_of, name, size, count, ours, plain, *earlier):
    def columns(times):
        best, median = min(times), statistics.median(times)
        return f"{best * 1e3:.2f}", f"{median * 1e3:.2f}", f"{size / 1e6 / best:.1f}"

    def ratios(others):
        return f"{min(ours) / min(others):.2f}", f"{statistics.median(ours) / statistics.median(others):.2f}"

    text = ROW.format(made_of, name, size, count, *columns(ours), *columns(plain), *ratios(plain))
    return text + "".join(RATIOS.format(*ratios(times)) for times in earlier)


def growth(points):
    """The time of each further byte from one size to the next, in ns: about the same if the time is linear."""
    steps = zip(points, points[1:])
    return ", ".join(f"{(later[1] - sooner[1]) * 1e9 / (later[0] - sooner[0]):.1f}" for sooner, later in steps)


def main(words):
    runs = int(words[0]) if words else 31
    words = ["canon", "--domain", DOMAIN]
    earlier = [[program, *words] for program in earlier_programs()]
    commands = [[find_program(), *words], [str(build_peer("canon")), DOMAIN], *earlier]
    print(f"Processor times of whole processes in ms, the start of the process included, by {runs} runs of each, in turns.")
    print("MB/s is by the best time. The ratio is fedbundle's time over that of plain Rust.\n")
    before = RATIOS.format("before", "") * len(earlier)
    print(ROW.format("", "", "", "", "fedbundle", "", "", "plain", "", "", "ratio", "") + before)
    names = [*["best", "median", "MB/s"] * 2, "best", "median"]
    print(ROW.format("bundle", "size", "bytes", "elements", *names) + RATIOS.format("best", "median") * len(earlier))
    points = {MIXED: ([], []), SMALL: ([], [])}
    with tempfile.TemporaryDirectory() as folder:
        path = Path(folder) / "bundle.json"
        for made_of, name, written, count in bundles():
            path.write_bytes(written)
            if len({answer(command, path) for command in commands}) != 1:
                stop(f"the programs print different texts for the bundle of {made_of}, {name}")
            times = measure(commands, path, runs)
            print(row(made_of, name, len(written), count, *times), flush=True)
            for found, at in zip(times[:2], points[made_of]):
                at.append((len(written), min(found)))
    print("\nAll programs printed the same bytes for each bundle.")
    print("Growth: ns for each further byte from one size to the next, which stay about the same where time is linear.")
    for made_of, (ours, plain) in points.items():
        print(f"  {made_of}: fedbundle {growth(ours)}; plain {growth(plain)}")

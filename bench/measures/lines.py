"""Measures `receipt_core` and plain Rust that reads the same receipts' lines, both built here, run in turn.

arguments: [TURNS]      TURNS is how often each program reads each file, of which the least times count; 3 if left out
"""
import base64
import random
import tempfile
from pathlib import Path

from building import build_peer, build_with_earlier, run, stop
from texts import url_text

MAX_DOCUMENT = 1_048_576
LONGEST_LINE = 1_051_063
POOL = 4_096
MANY = [4_096, 16_384, 65_536]
LARGE = [4, 16, 64]


# The lines.


def small(random_):
    """An authority as short as those of the tests, with random bytes in its certificate's place."""
    der = base64.b64encode(random_.randbytes(12)).decode()
    return f'{{"e":"AQAB","kty":"RSA","n":"AQAB","use":"x509-svid","x5c":["{der}"]}}'


def usual(random_):
    """An RSA or EC authority with random bytes in its certificate's place, of the length that its key type has."""
    if random_.random() < 0.5:
        der = base64.b64encode(random_.randbytes(random_.randint(860, 900))).decode()
        return f'{{"e":"AQAB","kty":"RSA","n":"{url_text(random_, 256)}","use":"x509-svid","x5c":["{der}"]}}'
    der = base64.b64encode(random_.randbytes(random_.randint(480, 520))).decode()
    x, y = url_text(random_, 32), url_text(random_, 32)
    return f'{{"crv":"P-256","kty":"EC","use":"x509-svid","x":"{x}","x5c":["{der}"],"y":"{y}"}}'


def line(random_, authorities, sequence):
    keys = ",".join(sorted(authorities))
    document = f'{{"keys":[{keys}],"spiffe_sequence":{sequence}}}'
    digests = f'"key":"{random_.randbytes(32).hex()}","voucher":"{random_.randbytes(32).hex()}"'
    return f'{{"doc":{document},"domain":"a.example","endpoint":"spiffe://a.example/bundle",{digests}}}\n'


def few(random_, make, keys, count):
    """Lines of this many authorities each, out of a pool."""
    pool = [make(random_) for _ in range(POOL)]
    for number in range(count):
        yield line(random_, random_.sample(pool, keys), number)


def full(random_, make, count):
    """Lines whose documents are as long as they may be, but for part of one authority."""
    for number in range(count):
        authorities, room = [], MAX_DOCUMENT - 64
        while True:
            authority = make(random_)
            room -= len(authority) + 1
            if room < 0:
                break
            authorities.append(authority)
        yield line(random_, authorities, number)


# What the lines hold, in what numbers, and how they are made.
CASES = [
    ("one small key", MANY, lambda random_, count: few(random_, small, 1, count)),
    ("one usual key", MANY, lambda random_, count: few(random_, usual, 1, count)),
    ("forty small keys", MANY, lambda random_, count: few(random_, small, 40, count)),
    ("1 MiB of usual keys", LARGE, lambda random_, count: full(random_, usual, count)),
    ("1 MiB of small keys", LARGE, lambda random_, count: full(random_, small, count)),
]


def objects(count):
    """Nothing but objects of one member, in the document's place of a line as long as a receipt's may be."""
    head, tail = '{"doc":{"keys":[', '{"":0}]}}'
    return head + (count - len(head) - len(tail)) // 7 * '{"":0},' + tail + "\n"


def chains(count):
    """The same of objects within objects, as deep as they may nest."""
    head, depth = '{"doc":{"keys":[', 124
    chain = '{"":' * depth + "0" + "}" * depth
    tail = chain + "]}}"
    return head + (count - len(head) - len(tail)) // (len(chain) + 1) * (chain + ",") + tail + "\n"


HOSTILE = [("objects beside one another", objects), ("objects within objects", chains)]


# The table.


def measure(programs, path, turns):
    """The least time and the most memory of each program, which take turns and have to answer the same."""
    best = [(float("inf"), float("inf"))] * len(programs)
    answers = set()
    for _ in range(turns):
        for at, program in enumerate(programs):
            (time, *answer), held = run(program, [1], path)
            best[at] = (min(best[at][0], time), min(best[at][1], held))
            answers.add(tuple(answer))
    if len(answers) != 1:
        stop(f"the answers differ: {answers}")
    return best, answers.pop()[0]


def main(words):
    turns = int(words[0]) if words else 3
    own, earlier = build_with_earlier("lines", "receipt_core")
    programs = [own, build_peer("lines"), build_peer("lines", soft=True), *earlier]
    print("ns a line: receipt_core, plain Rust, plain Rust without the processor's digests, and the ratios to both;")
    print("then the bytes that each held for a line, its text and its receipt. The earlier program's figures stand last.")
    with tempfile.TemporaryDirectory() as folder:
        path = Path(folder) / "lines"
        for name, counts, make in CASES:
            for count in counts:
                with path.open("w") as file:
                    file.writelines(make(random.Random(count), count))
                best, found = measure(programs, path, turns)
                if found != count:
                    stop(f"{name}: {found} of {count} lines were read")
                times = [time / count for time, _ in best]
                ratios = [times[0] / other for other in times[1:]]
                held = [memory / count for _, memory in best]
                print(
                    f"{name}, {count} lines of {path.stat().st_size // count} bytes: "
                    + " ".join(f"{time:.0f}" for time in times) + "; "
                    + " ".join(f"{ratio:.2f}" for ratio in ratios) + "; "
                    + " ".join(f"{memory:.0f}" for memory in held),
                    flush=True,
                )
        print("the most memory for one line that is no receipt's, in bytes for each byte of it: receipt_core, plain Rust")
        for name, make in HOSTILE:
            path.write_text(make(LONGEST_LINE))
            size = path.stat().st_size
            best, _ = measure(programs[:2], path, 1)
            print(f"{name}, {size} bytes: " + " ".join(f"{held / size:.0f}" for _, held in best), flush=True)

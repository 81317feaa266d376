"""Measures `fedbundle report` and a plain Rust program that does the same.

It makes streams of receipts of several shapes and sizes, always the same ones, checks that both programs print the same
report for each, and measures whole processes: start, reading the configuration and standard input, and writing the
report. The runs of the two programs take turns, so that what else the machine does falls on both.

Plain Rust is built twice: as it comes, with the processor's own digests if it has them, and with digests in plain code,
as fedbundle's are. If $FEDBUNDLE_BEFORE names the program of an earlier commit, that one runs in the same turns, and
its figures come last.

arguments: [RUNS [SIZE|NAME..]]
                            RUNS is the number of timed runs of each program on each stream, 5 if left out; the
                            sizes are 4096, 16384 and 65536 receipts, if none is given; a NAME is one of bundles, as
                            tiny, or of a shape, as 'tree shuffled': all, if none of its kind is given
"""
import base64
import functools
import hashlib
import json
import random
import tempfile
from pathlib import Path

from building import build_peer, earlier_programs, find_program, run_timed, stop
from receipts import limit_words
from texts import compact, url_text

DOMAIN = "a.example"
ENDPOINT = f"spiffe://{DOMAIN}/spire/server"
MOST_BYTES = 4_000_000_000


# Documents. Each has the text of its elements in order, and the key ids of its certificates.


def rsa(random_, modulus, count):
    """An element with random bytes in a certificate's place, and its key id."""
    der = random_.randbytes(count)
    members = {"e": "AQAB", "kty": "RSA", "n": url_text(random_, modulus), "use": "x509-svid"}
    return compact({**members, "x5c": [base64.b64encode(der).decode()]}), hashlib.sha256(der).hexdigest()


def ec(random_, count):
    der = random_.randbytes(count)
    members = {"crv": "P-256", "kty": "EC", "use": "x509-svid", "x": url_text(random_, 32), "y": url_text(random_, 32)}
    return compact({**members, "x5c": [base64.b64encode(der).decode()]}), hashlib.sha256(der).hexdigest()


class Documents:
    """Documents that differ in their sequence, and take their elements in turn from a few."""

    def __init__(self, random_, make):
        self.sets = [joined(make(random_)) for _ in range(64)]

    def elements(self, number):
        return self.sets[number % 64]

    def text(self, number):
        return f'{{"keys":[{self.elements(number)[0]}],"spiffe_sequence":{number}}}'

    def id(self, number):
        return hashlib.sha256(f"{DOMAIN}\n{self.text(number)}".encode()).hexdigest()

    def key(self, number):
        return self.elements(number)[1][0]


class Apart(Documents):
    """Documents that have no element in common."""

    def __init__(self, random_, make):
        self.seed, self.make = random_.random(), make

    @functools.lru_cache(maxsize=4)
    def elements(self, number):
        return joined(self.make(random.Random(f"{self.seed} {number}")))


class Rolled(Documents):
    """Documents each of which has one of its elements in common with the one before, and the other with the next."""

    def __init__(self, random_, make):
        self.seed, self.make = random_.random(), make

    @functools.lru_cache(maxsize=4)
    def elements(self, number):
        both = [self.make(random.Random(f"{self.seed} {at}"))[0] for at in (number, number + 1)]
        return joined(both)


def joined(elements):
    """The text of the elements in order, and their key ids."""
    elements = dict(elements)
    return ",".join(sorted(elements)), [elements[text] for text in sorted(elements)]


# What a bundle is made of, and how bundles share it.
MAKES = {
    "realistic": (Documents, lambda r: [rsa(r, 256, 880), ec(r, 500)]),
    "tiny": (Documents, lambda r: [rsa(r, 3, 8)]),
    "forty keys": (Documents, lambda r: [rsa(r, 3, 8) for _ in range(40)]),
    "rolled": (Rolled, lambda r: [rsa(r, 256, 880)]),
    "apart": (Apart, lambda r: [rsa(r, 256, 880), ec(r, 500)]),
}
# Those that are only in these shapes.
FEW_SHAPES = {"forty keys": ["chain", "tree shuffled"], "rolled": ["chain"], "apart": ["chain", "tree shuffled"]}


# Shapes: which document vouches for each of the documents 1, 2, .., and in what order the receipts come. Document 0 is
# the seed.


def chain(count, _random):
    return [(number, number - 1) for number in range(1, count + 1)]


def reversed_chain(count, random_):
    return chain(count, random_)[::-1]


def star(count, _random):
    return [(number, 0) for number in range(1, count + 1)]


def shuffled_tree(count, random_):
    receipts = [(number, random_.randrange(number)) for number in range(1, count + 1)]
    random_.shuffle(receipts)
    return receipts


def cycle(count, _random):
    """All documents in one ring, the entry of which comes last."""
    ring = [(number, number - 1) for number in range(2, count)]
    return ring + [(1, count - 1), (1, 0)]


SHAPES = {"chain": chain, "chain reversed": reversed_chain, "star": star, "tree shuffled": shuffled_tree, "cycle": cycle}


def streams(sizes, names):
    """Those of the bundles and of the shapes that are named; all bundles, or all shapes, if none of them is."""
    wanted = [bundles for bundles in MAKES if bundles in names] or list(MAKES)
    shapes = [shape for shape in SHAPES if shape in names] or list(SHAPES)
    for bundles in wanted:
        documents_of, make = MAKES[bundles]
        for shape in filter(shapes.__contains__, FEW_SHAPES.get(bundles, SHAPES)):
            receipts = SHAPES[shape]
            for size in sizes:
                random_ = random.Random(size)
                documents = documents_of(random_, make)
                if size * (len(documents.text(size)) + 300) <= MOST_BYTES:
                    yield bundles, shape, size, documents, receipts(size, random_)


def write_stream(folder, documents, receipts):
    seed = {"bundle": json.loads(documents.text(0)), "domain": DOMAIN}
    related = {"domain": DOMAIN, "endpoint": ENDPOINT, "profile": "https_spiffe", "url": f"https://{DOMAIN}/"}
    config = folder / "config.json"
    config.write_text(json.dumps({"relationships": [related], "seeds": [seed]}))
    path = folder / "receipts.jsonl"
    with path.open("w") as out:
        for number, voucher in receipts:
            out.write(f'{{"doc":{documents.text(number)},"domain":"{DOMAIN}","endpoint":"{ENDPOINT}",')
            out.write(f'"key":"{documents.key(voucher)}","voucher":"{documents.id(voucher)}"}}\n')
    return config, path


# The programs.


def measure(command, path, answer):
    """The processor time of a run, and the most bytes that its process held."""
    with answer.open("wb") as sink:
        _, used, held = run_timed(command, path, sink)
    return used, held


OURS = " | {:>8} {:>6} {:>5}"
OTHER = " | {:>8} {:>6} {:>5} {:>5}"


def main(words):
    runs = int(words[0]) if words else 5
    sizes = [int(word) for word in words[1:] if word.isdigit()] or [4_096, 16_384, 65_536]
    names = [word for word in words[1:] if not word.isdigit()]
    if unknown := [name for name in names if name not in MAKES and name not in SHAPES]:
        stop(f"no bundles and no shape: {' '.join(unknown)}")
    program = find_program()
    plain = [build_peer("report"), build_peer("report", soft=True)]
    earlier = earlier_programs()
    row = "{:<11} {:<15} {:>8} {:>10}" + OURS + OTHER * (len(plain) + len(earlier))
    print(f"Best processor times in ms of whole processes by {runs} runs of each, in turns. The ratio is fedbundle's over")
    print("the other's. Growth: the time for each receipt over that at the size before. Held: the most bytes resident beyond")
    print("those of a run on no receipts, for each byte of input.\n")
    others = ["plain", "soft", *["before"] * len(earlier)]
    print(row.format(*[""] * 4, "fedbundle", "", "", *(word for name in others for word in (name, "", "", ""))))
    heads = ["ms", "growth", "held"]
    print(row.format("bundles", "shape", "receipts", "bytes", *heads, *[*heads, "ratio"] * len(others)), flush=True)
    before = {}
    with tempfile.TemporaryDirectory() as name:
        folder = Path(name)
        empty, answers = folder / "empty", [folder / f"answer{at}" for at in range(1 + len(others))]
        empty.touch()
        for bundles, shape, size, documents, receipts in streams(sizes, names):
            config, path = write_stream(folder, documents, receipts)
            words = ["report", "--config", config, *limit_words(size)]
            commands = [[program, *words], *([one, config] for one in plain), *([one, *words] for one in earlier)]
            own = [measure(command, empty, answer)[1] for command, answer in zip(commands, answers)]
            found = [[measure(command, path, answer) for command, answer in zip(commands, answers)] for _ in range(runs)]
            if len({answer.read_bytes() for answer in answers}) != 1:
                stop(f"the programs print different reports for the {shape} of {size} receipts, {bundles}")
            bytes_, columns, best = path.stat().st_size, [], []
            for at, times in enumerate(zip(*found)):
                best.append(min(taken for taken, _ in times))
                held = (max(most for _, most in times) - own[at]) / bytes_
                each, last = best[at] / size, before.get((bundles, shape, at))
                before[bundles, shape, at] = each
                columns += [f"{best[at] * 1e3:.1f}", f"{each / last:.2f}" if last else "", f"{held:.2f}"]
                columns += [f"{best[0] / best[at]:.2f}"] if at else []
            print(row.format(bundles, shape, size, bytes_, *columns), flush=True)
    print("\nAll programs printed the same report for each stream.")

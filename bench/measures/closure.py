"""Measures `trust_closure` and plain Rust that gives the same answers, both built here, run in turn.

arguments: [TURNS [PART|SIZE|SHAPE..]]
                           TURNS is how often each program takes each set; 5 if left out
                           PART is one of: takes double merges singly alike whole; all but the last if left out
                           SIZE is how many receipts there are, in rising order; the usual ones if left out
                           SHAPE is one of those of takes; all but `usual` if left out
"""
import base64
import hashlib
import itertools
import json
import random
import statistics
import tempfile
from pathlib import Path

from building import build_peer, build_with_earlier, own_rows, run, stop
from receipts import document as document_of, usual as usual_authorities

SIZES = [4_096, 16_384, 65_536]
DOUBLES = [16_384, 32_768, 65_536]
RECORDS = [256, 1_024, 4_096]
PARTS = ["takes", "double", "merges", "singly", "alike", "whole"]
SAMPLE = 64
RING = 16
LEAVES = 8
DOMAIN = "a.example"
ENDPOINT = "spiffe://a.example/bundle"
RELATIONSHIP = {
    "domain": DOMAIN,
    "endpoint": ENDPOINT,
    "profile": "https_spiffe",
    "url": "https://bundles.a.example/",
}


# Documents and receipts.


def authority(certificate):
    der = base64.b64encode(certificate).decode()
    return f'{{"e":"AQAB","kty":"RSA","n":"AQAB","use":"x509-svid","x5c":["{der}"]}}'


COMMON, OTHER = b"common", b"other"
RARE = [b"rare %d" % number for number in range(LEAVES)]
IDLE = [b"idle %d" % number for number in range(LEAVES)]
FAN = [b"fan %d" % number for number in range(RECORDS[-1] + 1)]


def document(sequence, *certificates):
    keys = ",".join(sorted(map(authority, certificates)))
    return f'{{"keys":[{keys}],"spiffe_sequence":{sequence}}}'


def receipt(text, voucher, certificate):
    """The line of a document's receipt, under a key of another document."""
    return receipt_under(text, voucher, hashlib.sha256(certificate).hexdigest())


def receipt_under(text, voucher, key):
    voucher = hashlib.sha256(f"{DOMAIN}\n{voucher}".encode()).hexdigest()
    return f'{{"doc":{text},"domain":"{DOMAIN}","endpoint":"{ENDPOINT}","key":"{key}","voucher":"{voucher}"}}'


def record(certificate):
    return record_of(hashlib.sha256(certificate).hexdigest())


def record_of(key):
    return f'{{"distrust":"{key}","domain":"{DOMAIN}"}}'


# The configured document of takes, and one document under each of its rare keys, which nothing else is under.
SEED = document(1, COMMON, *RARE, *IDLE)
LEAF_LINES = [receipt(document(0, COMMON, b"leaf of " + rare), SEED, rare) for rare in RARE]


def forward(count):
    """Each document under the key of the one before."""
    last = SEED
    for sequence in range(2, count + 1):
        text = document(sequence, COMMON)
        yield receipt(text, last, COMMON)
        last = text


def usual(count):
    """As `forward`, with the authorities of usual bundles beside the common one."""
    random_ = random.Random(f"usual {count}")
    last = SEED
    for sequence in range(2, count + 1):
        authorities, _ = usual_authorities(random_)
        text = document_of([authority(COMMON), *authorities], sequence)
        yield receipt(text, last, COMMON)
        last = text


def reverse(count):
    return reversed(list(forward(count)))


def star(count):
    """Each document under the key of the configured one."""
    return (receipt(document(sequence, COMMON), SEED, COMMON) for sequence in range(2, count + 1))


def shuffled(count):
    """Each document, with a key of its own too, under one of the keys of any earlier one; the receipts in no order."""
    random_ = random.Random(count)
    documents = [(SEED, [COMMON])]
    lines = []
    for sequence in range(2, count + 1):
        own = random_.randbytes(16)
        text = document(sequence, COMMON, own)
        voucher, keys = random_.choice(documents)
        lines.append(receipt(text, voucher, random_.choice(keys)))
        documents.append((text, [COMMON, own]))
    random_.shuffle(lines)
    return lines


def wide(count):
    """As `shuffled`, with forty keys in each document: the common one, and one of 64 sets of others."""
    random_ = random.Random(count)
    sets = [[COMMON, *(random_.randbytes(16) for _ in range(39))] for _ in range(64)]
    documents = [(SEED, [COMMON])]
    lines = []
    for sequence in range(2, count + 1):
        keys = sets[sequence % 64]
        text = document(sequence, *keys)
        voucher, offered = random_.choice(documents)
        lines.append(receipt(text, voucher, random_.choice(offered)))
        documents.append((text, keys))
    random_.shuffle(lines)
    return lines


def rings(count):
    """Rings of documents, each under the key of the one before it in its ring, and at last one way into each."""
    entries = []
    for start in range(2, count - RING + 2, RING):
        texts = [document(sequence, COMMON) for sequence in range(start, start + RING - 1)]
        for at, text in enumerate(texts):
            yield receipt(text, texts[at - 1], COMMON)
        entries.append(receipt(texts[0], SEED, COMMON))
    yield from entries


SHAPES = {"chain": forward, "reversed": reverse, "star": star, "shuffled": shuffled, "rings": rings, "wide": wide, "usual": usual}
USUAL_SHAPES = [name for name in SHAPES if name != "usual"]
# Receipts of forty keys take some 17 KB each in memory, so they are left out at the largest size, and above this one.
MOST_WIDE = 65_536


def sizes_of(name, sizes):
    return [size for size in sizes[:-1] if size <= MOST_WIDE] if name == "wide" else sizes


def both_ways(last, sequences):
    """Each document under both keys of the one before, the first one's before being the last."""
    for sequence in sequences:
        text = document(sequence, COMMON, OTHER)
        yield receipt(text, last, COMMON)
        yield receipt(text, last, OTHER)
        last = text


def write(path, seed, receipts, certificates):
    """The configuration with its one document, the receipts, and a record of distrust for each certificate. Returns how
    many receipts there are."""
    return write_with(path, seed, receipts, map(record, certificates))


def write_with(path, seed, receipts, records):
    config = {"relationships": [RELATIONSHIP], "seeds": [{"bundle": json.loads(seed), "domain": DOMAIN}]}
    count = 0
    with path.open("w") as file:
        file.write(json.dumps(config) + "\n")
        for count, line in enumerate(receipts, 1):
            file.write(line + "\n")
        file.writelines(f"{line}\n" for line in records)
    return count


def write_shape(path, make, count):
    """The receipts of a shape, and records of the keys that nothing rests on, of the rare ones, and of the common one."""
    receipts = itertools.chain(LEAF_LINES, make(count + 1 - LEAVES))
    return write(path, SEED, receipts, [*IDLE, *RARE, COMMON])


def write_double(path, count, shuffles):
    """A double chain of at most that many receipts, and records of both keys."""
    seed = document(1, COMMON, OTHER)
    receipts = list(both_ways(seed, range(2, count // 2 + 1)))
    if shuffles:
        random.Random(count).shuffle(receipts)
    write(path, seed, receipts, [COMMON, OTHER])
    return len(receipts)


def write_fan(path, full, records, shuffles):
    """A store of so many receipts: one document under each of 4,097 keys of the configured one, a double chain from there
    on, and records of some of those keys. On each of them the whole chain rests, and it is reached otherwise too."""
    seed = document(1, *FAN)
    first = document(2, COMMON, OTHER)
    receipts = [receipt(first, seed, certificate) for certificate in FAN]
    left = full - len(receipts)
    receipts += both_ways(first, range(3, left // 2 + 3))
    if shuffles:
        random.Random(left).shuffle(receipts)
    write(path, seed, receipts, FAN[1 : records + 1])
    return len(receipts)


def write_alike(path, count, records):
    """Receipts under keys that were made up, whose ids begin alike, and records of some of these keys. Nothing is accepted
    by them."""
    keys = ["0123456789abcdef" + hashlib.sha256(b"made up %d" % number).hexdigest()[16:] for number in range(count)]
    receipts = [receipt_under(document(2 + number, COMMON), SEED, key) for number, key in enumerate(keys)]
    write_with(path, SEED, receipts, [record_of(key) for key in keys[:: count // records][:records]])
    return len(receipts)


# The tables.


class Runs:
    """What the takes and the records took in each run of a program, what is the same in all of them, and the bytes
    beyond the receipts."""

    def __init__(self):
        self.taken = []
        self.records = []
        self.told = set()
        self.held = float("inf")

    def add(self, program, word, path):
        (taken, accepted, pending, before, *rest), held = run(program, [word], path)
        self.taken.append(taken)
        self.records.append(rest[0:-2:2])
        self.told.add((accepted, pending, before, *rest[1:-2:2], *rest[-2:]))
        return held

    def add_with_memory(self, program, path):
        held = self.add(program, "take", path)
        _, alone = run(program, ["hold"], path)
        self.held = min(self.held, held - alone)

    def of(self, first, end):
        """For each run the median of these records."""
        return [statistics.median(took[first:end]) for took in self.records]

    def sums(self):
        return [sum(took) for took in self.records]


def measure(programs, turns, add):
    found = [Runs() for _ in programs]
    for _ in range(turns):
        for runs, program in zip(found, programs):
            add(runs, program)
    told = set.union(*(runs.told for runs in found))
    if len(told) != 1:
        stop(f"the answers differ: {[numbers[-40:] for numbers in told]}")
    return found


ROW = "{:<9} {:>8} | {:>6} {:>6} | {:>6} {:>6} {:>5} | {:>5} {:>5} | {:>5} {:>5}"
ROW += " | {:>5} {:>6} | {:>5} {:>6} {:>5} | {:>5} {:>5}"


def print_takes(programs, path, turns, sizes, shapes):
    print("\nTakes and a distrust that reaches all: ns for each receipt. Growth: over the time for each receipt at the size")
    print("before. A distrust on which nothing rests, and one that reaches one receipt: us, the median of eight. Held: bytes")
    print("for each receipt beyond the receipt itself. Least times of the runs.\n")
    heads = ["", "", "take", "", "plain", "", "", "none", "plain", "one", "plain"]
    print(ROW.format(*heads, "all", "", "plain", "", "", "held", "plain"))
    heads = ["ns", "growth", "ns", "growth", "ratio"]
    heads = [*heads, "us", "us", "us", "us", *heads, "bytes", "bytes"]
    print(ROW.format("shape", "receipts", *heads), flush=True)
    for name in shapes:
        last = None
        for size in sizes_of(name, sizes):
            last = print_shape(programs, path, name, SHAPES[name], size, turns, last)


def print_shape(programs, path, name, make, size, turns, last):
    count = write_shape(path, make, size)
    found = measure(programs, turns, lambda runs, program: runs.add_with_memory(program, path))
    taken = [min(runs.taken) / count for runs in found]
    fallen = [min(runs.of(2 * LEAVES, 2 * LEAVES + 1)) / count for runs in found]
    for at, word in own_rows(programs):
        none, one = [[min(found[of].of(*places)) for of in (at, 1)] for places in ((0, LEAVES), (LEAVES, 2 * LEAVES))]
        print(ROW.format(
            word or name, count, *grown_cells(taken, last and last[0], at),
            *(f"{time / 1e3:.1f}" for time in [*none, *one]), *grown_cells(fallen, last and last[1], at),
            *(f"{found[of].held / count:.0f}" for of in (at, 1)),
        ), flush=True)
    return taken, fallen


def grown_cells(times, last, at):
    """The time and its growth of one of our programs, those of the peer, and the ratio."""
    cells = [(f"{times[of]:.0f}", f"{times[of] / last[of]:.2f}" if last else "") for of in (at, 1)]
    return *cells[0], *cells[1], f"{times[at] / times[1]:.2f}"


MANY = "{:<28} {:<9} {:>8} {:>7} | {:>8} {:>8} {:>6} | {:>8} {:>8} {:>6} | {:>5}"


def print_many(title):
    print(f"\n{title} Growth: least time over that of the size before.\n")
    print(MANY.format("", "", "", "", "least", "median", "growth", "plain", "median", "growth", ""))
    print(MANY.format("what", "order", "receipts", "records", "ms", "ms", "", "ms", "ms", "", "ratio"), flush=True)


def print_lines(last, what, shuffles, count, records, times):
    """A line of print_many for each program of ours, with the times of all programs."""
    for at, word in own_rows(times):
        print_line(last, (what, word, shuffles), count, records, times[at], times[1])


def print_line(last, key, count, records, own, other):
    """A line of print_many. `last` has the least times of the size before, by what was timed."""
    what, word, shuffles = key
    before = last.get(key)
    last[key] = min(own), min(other)
    cells = []
    for at, times in enumerate((own, other)):
        growth = f"{min(times) / before[at]:.2f}" if before else ""
        cells += [f"{min(times) / 1e6:.2f}", f"{statistics.median(times) / 1e6:.2f}", growth]
    order = "shuffled" if shuffles else "in order"
    print(MANY.format(word or what, order, count, records, *cells, f"{min(own) / min(other):.2f}"), flush=True)


def print_double(programs, path, turns, sizes):
    print_many("Double chains: each document under both keys of the one before. First one key is distrusted, then the other.")
    last = {}
    for shuffles in (False, True):
        for size in sizes:
            count = write_double(path, size, shuffles)
            found = measure(programs, turns, lambda runs, program: runs.add(program, "take", path))
            for at, what in enumerate(["reaches all, loses nothing", "reaches all, loses all"]):
                print_lines(last, what, shuffles, count, 1, [runs.of(at, at + 1) for runs in found])


def print_merges(programs, path, turns, sizes):
    print_many("One merge of records into a full store. The whole chain rests on each of them, and is reached otherwise.")
    for size in sizes:
        last = {}
        for shuffles in (False, True):
            for records in RECORDS:
                count = write_fan(path, size, records, shuffles)
                found = measure(programs, turns, lambda runs, program: runs.add(program, "merge", path))
                print_lines(last, "one merge", shuffles, count, records, [runs.sums() for runs in found])


def print_singly(programs, path, turns, sizes, records):
    print_many("The same records, each distrusted on its own, as a pull does: the times of all together.")
    for shuffles in (False, True):
        last = {}
        for size in sizes:
            count = write_fan(path, size, records, shuffles)
            found = measure(programs, turns, lambda runs, program: runs.add(program, "take", path))
            print_lines(last, "one after another", shuffles, count, records, [runs.sums() for runs in found])


def print_alike(programs, path, turns, sizes, records):
    print_many("Receipts under made-up keys whose ids begin alike, and records of some of these, each distrusted on its own.")
    last = {}
    for size in sizes:
        count = write_alike(path, size, records)
        found = measure(programs, turns, lambda runs, program: runs.add(program, "take", path))
        print_lines(last, "takes", False, count, 0, [runs.taken for runs in found])
        print_lines(last, "one after another", False, count, records, [runs.sums() for runs in found])


def main(words):
    turns = int(words[0]) if words else 5
    named = [int(word) for word in words[1:] if word.isdigit()]
    parts = [word for word in words[1:] if word in PARTS] or PARTS[:-1]
    shapes = [name for name in SHAPES if name in words[1:]] or USUAL_SHAPES
    if unknown := [word for word in words[1:] if not word.isdigit() and word not in PARTS and word not in SHAPES]:
        stop(f"no part and no shape: {' '.join(unknown)}")
    sizes, doubles, full = named or SIZES, named or DOUBLES, named or SIZES[-1:]
    own, earlier = build_with_earlier("closure", "trust_closure")
    programs = [own, build_peer("closure"), *earlier]
    print(f"{turns} runs of each program, in turns.")
    with tempfile.TemporaryDirectory() as folder:
        path = Path(folder) / "receipts"
        if "takes" in parts:
            print_takes(programs, path, turns, sizes, shapes)
        if "double" in parts:
            print_double(programs, path, turns, doubles)
        if "merges" in parts:
            print_merges(programs, path, turns, full)
        if "singly" in parts:
            print_singly(programs, path, turns, full, SAMPLE)
        if "alike" in parts:
            print_alike(programs, path, turns, sizes, SAMPLE)
        if "whole" in parts:
            print_singly(programs, path, turns, full, RECORDS[-1])
    print("\nAll programs gave the same answers on each set.")

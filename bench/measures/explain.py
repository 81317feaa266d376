"""Measures `explain` of `bundle_view` and plain Rust that searches the same receipts, both built here and run in turn.

arguments: [RUNS]      RUNS is the number of timed explanations in each of five turns, 5 if left out
"""
import base64
import hashlib
import random
import subprocess

from building import build_ours, build_peer, stop
from texts import compact

SIZES = [16_384, 65_536]
SHAPES = ["chain", "tree"]
TURNS = 5
DOMAIN = "a.example"
ENDPOINT = f"spiffe://{DOMAIN}/bundle"


class Document:
    """A document with this many X.509 authorities, whose certificates are random bytes."""

    def __init__(self, random_, sequence, keys):
        certificates = [random_.randbytes(48) for _ in range(keys)]
        modulus = base64.urlsafe_b64encode(random_.randbytes(48)).decode()
        elements = [
            {"e": "AQAB", "kty": "RSA", "n": modulus, "use": "x509-svid", "x5c": [base64.b64encode(der).decode()]}
            for der in certificates
        ]
        elements.sort(key=compact)
        self.tree = {"keys": elements, "spiffe_sequence": sequence}
        self.canonical = compact(self.tree)
        self.id = hashlib.sha256(f"{DOMAIN}\n{self.canonical}".encode()).hexdigest()
        self.keys = sorted(hashlib.sha256(der).hexdigest() for der in certificates)


class Net:
    """A configured document and receipts: each of a document that the one before it vouches for, or any earlier one."""

    def __init__(self, shape, size):
        random_ = random.Random(size)
        keys = 1 if shape == "chain" else 2
        self.documents = [Document(random_, 0, keys)]
        self.lines = []
        for number in range(1, size + 1):
            document = Document(random_, number, keys)
            voucher = self.documents[-1 if shape == "chain" else random_.randrange(number)]
            key = random_.choice(voucher.keys)
            members = {"doc": document.tree, "domain": DOMAIN, "endpoint": ENDPOINT, "key": key, "voucher": voucher.id}
            self.lines.append(compact(members))
            self.documents.append(document)

    def text(self, place):
        """What both programs read to explain the document at the place."""
        seed, sought = self.documents[0], self.documents[place]
        relationship = {"domain": DOMAIN, "endpoint": ENDPOINT, "profile": "https_spiffe", "url": "https://a.example/"}
        config = compact({"relationships": [relationship], "seeds": [{"bundle": seed.tree, "domain": DOMAIN}]})
        return "".join(f"{line}\n" for line in [config, DOMAIN, sought.canonical, *self.lines]).encode()


def answer(program, text, runs):
    """The least time, the length of the chain and the first receipt's id, which the program prints."""
    done = subprocess.run([str(program), str(runs)], input=text, capture_output=True, check=True)
    least, *found = done.stdout.decode().split()
    return int(least), found


def main(words):
    runs = int(words[0]) if words else 5
    ours = build_ours("explain", "bundle_view", "trust_closure", words=["1"], text=Net("chain", 1).text(1))
    programs = ours, build_peer("explain", cpu="x86-64-v2")
    print("least times of one explanation in ms: bundle_view, plain Rust, ratio; ns for each receipt of both")
    for shape in SHAPES:
        for size in SIZES:
            net = Net(shape, size)
            for name, place in [("last", size), ("middle", size // 2)]:
                text = net.text(place)
                least = [[], []]
                for _ in range(TURNS):
                    found = [answer(program, text, runs) for program in programs]
                    if found[0][1] != found[1][1]:
                        stop(f"{shape} {size} {name}: the chains differ, {found}")
                    for times, (time, _) in zip(least, found):
                        times.append(time)
                ours, plain = (min(times) for times in least)
                print(
                    f"{shape} of {size}, {name} document, {found[0][1][0]} receipts: {ours / 1e6:.2f} "
                    f"{plain / 1e6:.2f} {ours / plain:.2f}; {ours / size:.0f} {plain / size:.0f}",
                    flush=True,
                )

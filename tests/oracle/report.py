#!/usr/bin/env python3
"""Prints what `fedbundle report --config CONFIG` prints for the receipts on standard input, or with `--state STATE` for
what a state file holds.

It is written from the rules alone, with Python's own json and hashlib and with canon.py, and shares nothing with the
program. It takes a configuration that is well formed, and lines that are receipts of its domains and endpoints or a state
file under it. A receipt below its domain's floor is passed over, and nothing else is refused.

usage: report.py CONFIG <RECEIPTS.jsonl
       report.py CONFIG STATE
"""
import hashlib
import json
import sys

from canon import canon, compact


class Document:
    """An accepted document of a domain, or one that a receipt brings."""

    def __init__(self, domain, value):
        text, name, *keys = canon(domain, value).decode().splitlines()
        self.domain, self.value, self.text = domain, value, text
        self.id = name.removeprefix("id ")
        self.ordered_keys = [key.removeprefix("key ") for key in keys]
        self.keys = set(self.ordered_keys)
        self.sequence = value.get("spiffe_sequence")
        self.authorities = json.loads(text)["keys"]

    def order(self):
        return -1 if self.sequence is None else self.sequence, self.text.encode()

    def told(self):
        return f"{self.id} sequence {'none' if self.sequence is None else self.sequence}"


def vouches(document, receipt, distrusted):
    endpoint = receipt["endpoint"].removeprefix("spiffe://").split("/")[0]
    is_named = document.domain == endpoint and document.id == receipt["voucher"] and receipt["key"] in document.keys
    return is_named and (endpoint, receipt["key"]) not in distrusted


def accepted_of(config, receipts, distrusted):
    """The least set that has the seeds and, with a document, those that it vouches for; and the number of receipts that
    nothing in it vouches for."""
    accepted = {(seed["domain"], d.text): d for seed in config["seeds"] for d in [Document(seed["domain"], seed["bundle"])]}
    pending, grown = list(receipts), True
    while grown:
        released = [r for r in pending if any(vouches(d, r, distrusted) for d in accepted.values())]
        pending = [r for r in pending if r not in released]
        grown = bool(released)
        for r in released:
            document = Document(r["domain"], r["doc"])
            accepted[document.domain, document.text] = document
    return list(accepted.values()), len(pending)


def config_id(config):
    seeds = {(s["domain"], canon(s["domain"], s["bundle"]).split(b"\n")[0]) for s in config["seeds"]}
    relationships = sorted(config["relationships"], key=lambda r: r["domain"].encode())
    written = b",".join(b'{"bundle":%s,"domain":"%s"}' % (text, domain.encode()) for domain, text in sorted(seeds))
    floors = b'"floors":%s,' % compact(config["floors"]) if config.get("floors") else b""
    return hashlib.sha256(b'{%s"relationships":%s,"seeds":[%s]}' % (floors, compact(relationships), written)).hexdigest()


def reaches_floor(config, receipt):
    floor, sequence = config.get("floors", {}).get(receipt["domain"]), receipt["doc"].get("spiffe_sequence")
    return floor is None or sequence is not None and sequence >= floor


def conflict_lines(documents):
    for sequence in sorted({d.sequence for d in documents} - {None}):
        group = [d for d in documents if d.sequence == sequence]
        if len(group) > 1:
            kind = "hint" if all(d.authorities == group[0].authorities for d in group) else "keys"
            yield f"  conflict {sequence} {kind} " + " ".join(d.id for d in group)


def report(config, lines):
    told = [json.loads(line) for line in set(lines)]
    receipts = [r for r in told if "doc" in r and reaches_floor(config, r)]
    distrusted = {(r["domain"], r["distrust"]) for r in told if "distrust" in r}
    accepted, pending = accepted_of(config, receipts, distrusted)
    yield f"config {config_id(config)}"
    yield f"receipts {len(receipts)} pending {pending}"
    named = {r["domain"] for r in config["relationships"]} | {s["domain"] for s in config["seeds"]}
    named |= {r["endpoint"].removeprefix("spiffe://").split("/")[0] for r in config["relationships"]}
    for domain in sorted(named):
        documents = sorted((d for d in accepted if d.domain == domain), key=Document.order)
        yield f"domain {domain}"
        yield f"  current {documents[-1].told()}" if documents else "  current none"
        for d in documents:
            yield f"  accepted {d.told()} authorities {len(d.authorities)}"
        yield from conflict_lines(documents)
        yield from (f"  distrust {key}" for of, key in sorted(distrusted) if of == domain)


if __name__ == "__main__":
    with open(sys.argv[1], encoding="utf-8") as file:
        configuration = json.load(file)
    if len(sys.argv) == 2:
        told_lines = sys.stdin.read().splitlines()
    else:
        with open(sys.argv[2], encoding="utf-8") as file:
            told_lines = file.read().splitlines()[1:-1]
    for line in report(configuration, told_lines):
        print(line)

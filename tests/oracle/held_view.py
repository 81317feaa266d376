#!/usr/bin/env python3
"""Prints what `fedbundle list` and `diff` print for state files under a configuration.

It is written only from the rules, with Python's own json and hashlib and with canon.py and report.py, and shares nothing
with the program. It takes files that are well formed, and refuses nothing. The lines of a state file may be in any order,
and without the first and the last one.

usage: held_view.py list CONFIG STATE [DOMAIN]
       held_view.py diff CONFIG STATE OTHER_STATE     the exit status is 1 if they hold different things
"""
import hashlib
import json
import sys

from report import Document, accepted_of, vouches


class Held:
    """What a state file holds: the lines of its receipts, its records by key and domain, and what is accepted."""

    def __init__(self, config, lines):
        values = {line: json.loads(line) for line in lines}
        self.receipts = sorted(line for line, value in values.items() if "doc" in value)
        self.records = sorted((v["distrust"], v["domain"]) for v in values.values() if "distrust" in v)
        self.values = values
        self.distrusted = {(domain, key) for key, domain in self.records}
        self.accepted, self.pending = accepted_of(config, [values[line] for line in self.receipts], self.distrusted)

    def status(self, receipt):
        if (receipt["endpoint"].removeprefix("spiffe://").split("/")[0], receipt["key"]) in self.distrusted:
            return "distrusted"
        return "accepted" if any(vouches(d, receipt, self.distrusted) for d in self.accepted) else "pending"

    def receipt_line(self, line):
        receipt = self.values[line]
        document = Document(receipt["domain"], receipt["doc"])
        sequence = "none" if document.sequence is None else document.sequence
        return (f"receipt {hashlib.sha256(line).hexdigest()} domain {receipt['domain']} sequence {sequence} "
                f"document {document.id} endpoint {receipt['endpoint']} key {receipt['key']} "
                f"voucher {receipt['voucher']} {self.status(receipt)}")


def record_line(key, domain):
    return f"distrust {key} domain {domain}"


def listed(held, chosen=None):
    for line in held.receipts:
        if chosen in (None, held.values[line]["domain"]):
            yield held.receipt_line(line)
    for key, domain in held.records:
        if chosen in (None, domain):
            yield record_line(key, domain)


def lacked(one, other):
    """The lines of what the one holds and the other does not."""
    yield from (one.receipt_line(line) for line in one.receipts if line not in other.receipts)
    yield from (record_line(*record) for record in one.records if record not in other.records)


def difference(one, other):
    return [f"- {line}" for line in lacked(one, other)] + [f"+ {line}" for line in lacked(other, one)]


def read_held(config, path):
    with open(path, "rb") as file:
        lines = [line for line in file.read().split(b"\n") if line.startswith((b'{"doc"', b'{"distrust"'))]
    return Held(config, lines)


def main(verb, config_path, state, *more):
    with open(config_path, encoding="utf-8") as file:
        config = json.load(file)
    held = read_held(config, state)
    if verb == "list":
        lines, status = list(listed(held, *more)), 0
    else:
        lines = difference(held, read_held(config, more[0]))
        status = 1 if lines else 0
    for line in lines:
        print(line)
    return status


if __name__ == "__main__":
    sys.exit(main(*sys.argv[1:]))

#!/usr/bin/env python3
"""Prints what `fedbundle config --config CONFIG [--with CONFIG]` prints.

It is written only from the rules, with Python's own json and hashlib and with canon.py and report.py, and shares
nothing with the program. It takes configurations that are well formed, and refuses nothing. The exit status is 1 if
two configurations have two digests.

usage: config_view.py CONFIG [CONFIG]
"""
import json
import sys

from report import Document, config_id


def config_lines(config):
    """The lines of a configuration: its digest, and then relationships, domains, seeds and floors, each rising."""
    relationships = sorted(config["relationships"], key=lambda r: r["domain"].encode())
    documents = [Document(seed["domain"], seed["bundle"]) for seed in config["seeds"]]
    seeds = {(d.domain.encode(), d.text.encode()): d for d in documents}
    named = {r["domain"] for r in relationships} | {d.domain for d in documents}
    named |= {r["endpoint"].removeprefix("spiffe://").split("/")[0] for r in relationships}
    yield f"config {config_id(config)}"
    for r in relationships:
        yield f"relationship {r['domain']} endpoint {r['endpoint']} url {r['url']}"
    for domain in sorted(named):
        yield f"domain {domain}"
    for key in sorted(seeds):
        yield f"seed {seeds[key].domain} document {seeds[key].told()}"
    for domain, sequence in sorted(config.get("floors", {}).items()):
        yield f"floor {domain} sequence {sequence}"


def difference(one, other):
    return [f"- {line}" for line in one if line not in other] + [f"+ {line}" for line in other if line not in one]


if __name__ == "__main__":
    read = []
    for name in sys.argv[1:]:
        with open(name, encoding="utf-8") as file:
            read.append(list(config_lines(json.load(file))))
    for line in read[0] if len(read) == 1 else difference(*read):
        print(line)
    sys.exit(len(read) == 2 and read[0][0] != read[1][0])

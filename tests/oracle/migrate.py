#!/usr/bin/env python3
"""Prints what `fedbundle migrate` prints for a state file and another configuration.

It is written only from the rules, with Python's own json and hashlib, and shares nothing with the program. It takes
files that are well formed, and configurations whose URLs and bundles are spelt in their canonical form.

usage: migrate.py STATE NEW_CONFIG [--records-only]     what is left out goes to standard error; the exit status is 1
                                                        if something is
"""
import hashlib
import json
import sys


def compact(value):
    return json.dumps(value, sort_keys=True, separators=(",", ":"), ensure_ascii=False).encode()


def config_text(config):
    """The canonical text: relationships rise by domain, and seeds by domain and bundle. Floors are there only if there
    are some."""
    relationships = sorted(config["relationships"], key=lambda r: r["domain"].encode())
    seeds = {(seed["domain"].encode(), compact(seed["bundle"])): seed for seed in config["seeds"]}
    floors = {"floors": config["floors"]} if config.get("floors") else {}
    return compact({**floors, "relationships": relationships, "seeds": [seeds[key] for key in sorted(seeds)]})


def digest_of(config):
    return hashlib.sha256(config_text(config)).hexdigest()


def trust_domain(spiffe_id):
    return spiffe_id.removeprefix("spiffe://").split("/", 1)[0]


def domains_of(config):
    domains = {seed["domain"] for seed in config["seeds"]}
    for relationship in config["relationships"]:
        domains |= {relationship["domain"], trust_domain(relationship["endpoint"])}
    return domains


def reaches_floor(config, domain, document):
    """Whether the document has a sequence number that is not lower than the domain's floor, if that has one."""
    floor = config.get("floors", {}).get(domain)
    return floor is None or document.get("spiffe_sequence") is not None and document["spiffe_sequence"] >= floor


def cause(receipt, config):
    """Why the receipt does not fit, or None."""
    endpoints = {r["domain"]: r["endpoint"] for r in config["relationships"]}
    if receipt["domain"] not in endpoints:
        return "unknown domain"
    if endpoints[receipt["domain"]] != receipt["endpoint"]:
        return "wrong endpoint"
    return None if reaches_floor(config, receipt["domain"], receipt["doc"]) else "below floor"


def migrate(lines, config, records_only):
    """The lines of the new state, and those of what is left out. The old lines are in order already."""
    domains = domains_of(config)
    kept, left, counts = [], [], {"count": 0, "distrusts": 0}
    for line in lines[1:-1]:
        value = json.loads(line)
        if "distrust" in value:
            kind, name, why = "distrusts", f"record {value['distrust']}", None if value["domain"] in domains else "unknown domain"
        elif records_only:
            continue
        else:
            kind, name, why = "count", f"receipt {hashlib.sha256(line).hexdigest()}", cause(value, config)
        if why is None:
            kept.append(line)
            counts[kind] += 1
        else:
            left.append(f"left out {name} of {value['domain']}: {why}".encode())
    return [compact({"config": digest_of(config), "format": 2}), *kept, compact(counts)], left


def main():
    state, config, *more = sys.argv[1:]
    with open(state, "rb") as file:
        lines = file.read().split(b"\n")[:-1]
    with open(config, "rb") as file:
        new, left = migrate(lines, json.load(file), more == ["--records-only"])
    sys.stdout.buffer.write(b"".join(line + b"\n" for line in new))
    sys.stderr.buffer.write(b"".join(line + b"\n" for line in left))
    sys.exit(1 if left else 0)


if __name__ == "__main__":
    main()

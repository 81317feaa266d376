#!/usr/bin/env python3
"""Prints what `fedbundle distrust --dry-run` prints for a configuration, a state file, a domain and ids of keys, except for the
lines of the keys that have the public key of a distrusted one.

It is written only from the rules, with Python's own json and hashlib and with canon.py and report.py, and shares
nothing with the program. It takes files that are well formed, and refuses nothing. A state file that is not there holds
nothing.

usage: distrust_view.py CONFIG STATE DOMAIN KEY..
"""
import json
import os
import sys

from report import Document, accepted_of


def domains_of(config):
    named = {r["domain"] for r in config["relationships"]} | {s["domain"] for s in config["seeds"]}
    return sorted(named | {r["endpoint"].removeprefix("spiffe://").split("/")[0] for r in config["relationships"]})


def by_domain(config, receipts, distrusted):
    """The accepted documents of each domain, sorted."""
    accepted, _ = accepted_of(config, receipts, distrusted)
    return {of: sorted((d for d in accepted if d.domain == of), key=Document.order) for of in domains_of(config)}


def current(documents):
    return documents[-1] if documents else None


def named(document):
    return document.told() if document else "none"


def keys(document):
    return sorted(document.keys) if document else []


def key_lines(domain, before, after, distrusted):
    yield from (f"gains {domain} key {key}" for key in keys(after) if key not in keys(before))
    yield from (f"loses {domain} key {key}" for key in keys(before) if key not in keys(after))
    yield from (f"lists {domain} key {key}" for key in keys(after) if (domain, key) in distrusted)
    if all((domain, key) in distrusted for key in keys(after)):
        yield f"locked-out {domain}"


def distrust_view(config, lines, domain, *given):
    told = [json.loads(line) for line in lines]
    receipts = [r for r in told if "doc" in r]
    old = {(r["domain"], r["distrust"]) for r in told if "distrust" in r}
    new = old | {(domain, key) for key in given}
    before, after = by_domain(config, receipts, old), by_domain(config, receipts, new)
    for of in domains_of(config):
        kept = {d.text for d in after[of]}
        yield from (f"falls {of} document {d.told()}" for d in before[of] if d.text not in kept)
        one, other = current(before[of]), current(after[of])
        if of == domain or named(one) != named(other):
            yield f"current {of} before {named(one)} after {named(other)}"
            yield from key_lines(of, one, other, new)
    held = [Document(s["domain"], s["bundle"]) for s in config["seeds"]] + [Document(r["domain"], r["doc"]) for r in receipts]
    for key in given:
        if not any(d.domain == domain and key in d.keys for d in held):
            yield f"warning: no bundle of {domain} that is held lists the key {key}"


if __name__ == "__main__":
    configuration_file, state, of_domain, *of_keys = sys.argv[1:]
    with open(configuration_file, encoding="utf-8") as file:
        configuration = json.load(file)
    held_lines = []
    if os.path.exists(state):
        with open(state, encoding="utf-8") as file:
            held_lines = file.read().splitlines()[1:-1]
    for line in distrust_view(configuration, held_lines, of_domain, *of_keys):
        print(line)

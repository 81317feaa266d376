#!/usr/bin/env python3
"""Prints what `fedbundle reseed` prints for a state file under a configuration.

It is written from the rules alone, with Python's own json and with the other scripts of this folder, and shares nothing
with the program. It takes files that are well formed, and configurations whose URLs and bundles are spelt in their
canonical form.

usage: reseed.py CONFIG STATE [--floors] [ALLOWED_DOMAIN]     the lines of refused domains, or with --floors how many
                                                              receipts stay, go to standard error; the exit status is 1
                                                              where a domain is refused
"""
import json
import sys

from held_view import read_held
from json_view import accepted_in, domains_of
from migrate import cause, config_text


def doubt(held, domain, documents):
    """What stands against the last of the documents as a seed, or None."""
    current = documents[-1]
    if any((domain, key) in held.distrusted for key in current.keys):
        return "the current bundle lists a distrusted key"
    if len([d for d in documents if d.sequence == current.sequence]) < 2:
        return None
    kind = "has no sequence either" if current.sequence is None else "has the current one's sequence"
    return f"another bundle {kind}"


def raised_floors(floors, accepted):
    """The sequence number of each current document that has one. A domain without a current document keeps its floor."""
    raised = {domain: found[-1].sequence if found else floors.get(domain) for domain, found in accepted.items()}
    return {domain: floor for domain, floor in raised.items() if floor is not None}


def main(config_path, state, *more):
    allowed = [word for word in more if word != "--floors"]
    with open(config_path, encoding="utf-8") as file:
        config = json.load(file)
    held = read_held(config, state)
    accepted = {domain: accepted_in(held, domain) for domain in domains_of(config)}
    doubts = {domain: doubt(held, domain, found) for domain, found in accepted.items() if found}
    refused = [f"refused {domain}: {why}" for domain, why in doubts.items() if why and domain not in allowed]
    if refused:
        print(*refused, sep="\n", file=sys.stderr)
        return 1
    floors = config.get("floors", {})
    new = {
        "floors": raised_floors(floors, accepted) if "--floors" in more else floors,
        "relationships": config["relationships"],
        "seeds": [{"bundle": json.loads(found[-1].text), "domain": domain} for domain, found in accepted.items() if found],
    }
    sys.stdout.buffer.write(config_text(new))
    if "--floors" in more:
        staying = [line for line in held.receipts if cause(held.values[line], new) is None]
        print(f"receipts that stay: {len(staying)} of {len(held.receipts)}", file=sys.stderr)
    return 0


if __name__ == "__main__":
    sys.exit(main(*sys.argv[1:]))

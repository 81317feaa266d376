#!/usr/bin/env python3
"""Prints the compact JSON of `fedbundle` and its graph, for files that are well formed.

It is written only from the rules, with Python's own json and hashlib and with the other scripts of this folder, and shares
nothing with the program. It refuses nothing. A state file's lines may be in any order, and without the first and the last
one.

usage: json_view.py config CONFIG
       json_view.py list CONFIG STATE [DOMAIN]
       json_view.py report CONFIG STATE
       json_view.py canon DOMAIN <BUNDLE.json
       json_view.py explain CONFIG STATE DOMAIN <BUNDLE.json     the exit status is 1 if it is not accepted
       json_view.py polls CONFIG STATE SECONDS <POLLS
       json_view.py graph CONFIG STATE [DOMAIN]
       json_view.py rows <tests/rows/cases/rows/view     what the program of rows prints of these
"""
import hashlib
import json
import re
import sys

from held_view import Held, read_held
from report import Document, config_id, vouches


def printed(value):
    return json.dumps(value, separators=(",", ":"), ensure_ascii=False)


def domains_of(config):
    named = {r["domain"] for r in config["relationships"]} | {s["domain"] for s in config["seeds"]}
    return sorted(named | {endpoint_domain(r) for r in config["relationships"]})


def endpoint_domain(value):
    return value["endpoint"].removeprefix("spiffe://").split("/")[0]


def seeds_of(config):
    """The configured documents, each once, sorted by domain and then by canonical text."""
    documents = [Document(seed["domain"], seed["bundle"]) for seed in config["seeds"]]
    seeds = {(d.domain.encode(), d.text.encode()): d for d in documents}
    return [seeds[key] for key in sorted(seeds)]


def kept_url(url):
    """The URL as the URL Standard serializes it, in as far as the rows need that: in a query of https `'` is escaped."""
    place, mark, query = url.partition("?")
    return place + mark + query.replace("'", "%27")


def config_json(given):
    config = given | {"relationships": [r | {"url": kept_url(r["url"])} for r in given["relationships"]]}
    relationships = sorted(config["relationships"], key=lambda r: r["domain"].encode())
    floors = [{"domain": d, "sequence": n} for d, n in sorted(config.get("floors", {}).items())]
    return printed({
        "config": config_id(config),
        "relationships": [{name: r[name] for name in ("domain", "endpoint", "url")} for r in relationships],
        "domains": domains_of(config),
        "seeds": [{"domain": d.domain, "document": d.id, "sequence": d.sequence} for d in seeds_of(config)],
        **({"floors": floors} if floors else {}),
    })


def receipt_members(line, receipt):
    document = Document(receipt["domain"], receipt["doc"])
    return {"receipt": hashlib.sha256(line).hexdigest(), "domain": receipt["domain"], "sequence": document.sequence,
            "document": document.id, "endpoint": receipt["endpoint"], "key": receipt["key"],
            "voucher": receipt["voucher"]}


def records_of(held, chosen=None):
    return [{"distrust": key, "domain": domain} for key, domain in held.records if chosen in (None, domain)]


def list_json(held, chosen=None):
    receipts = [line for line in held.receipts if chosen in (None, held.values[line]["domain"])]
    return printed({
        "receipts": [receipt_members(line, held.values[line]) | {"status": held.status(held.values[line])}
                     for line in receipts],
        "records": records_of(held, chosen),
    })


def accepted_in(held, domain):
    return sorted((d for d in held.accepted if d.domain == domain), key=Document.order)


def conflicts_in(domain, documents):
    for sequence in sorted({d.sequence for d in documents} - {None}):
        group = [d for d in documents if d.sequence == sequence]
        if len(group) > 1:
            kind = "hint" if all(d.authorities == group[0].authorities for d in group) else "keys"
            yield {"domain": domain, "sequence": sequence, "kind": kind, "documents": [d.id for d in group]}


def report_json(config, held):
    accepted = {domain: accepted_in(held, domain) for domain in domains_of(config)}
    return printed({
        "config": config_id(config),
        "receipts": len(held.receipts),
        "pending": held.pending,
        "domains": [{
            "domain": domain,
            "current": {"document": found[-1].id, "sequence": found[-1].sequence} if found else None,
            "accepted": [{"document": d.id, "sequence": d.sequence, "authorities": len(d.authorities)} for d in found],
        } for domain, found in accepted.items()],
        "conflicts": [conflict for domain, found in accepted.items() for conflict in conflicts_in(domain, found)],
        "records": records_of(held),
    })


def document_json(domain, value):
    d = Document(domain, value)
    members = {"document": d.id, "sequence": d.sequence, "refresh_hint": value.get("spiffe_refresh_hint"),
               "keys": d.ordered_keys}
    return printed(members)[:-1] + f',"bundle":{d.text}}}'


def explain_json(config, held, domain, value):
    """By a search from the configured documents on, a round for each length: the text, or None if it is not accepted."""
    wanted = Document(domain, value)
    reached = {(d.domain, d.id): (d, []) for d in seeds_of(config)}
    grown = True
    while (domain, wanted.id) not in reached and grown:
        more = {}
        for line in held.receipts:
            receipt = held.values[line]
            brought = Document(receipt["domain"], receipt["doc"])
            for d, chain in reached.values():
                if (brought.domain, brought.id) not in reached and vouches(d, receipt, held.distrusted):
                    more.setdefault((brought.domain, brought.id), (brought, chain + [line]))
        grown = bool(more)
        reached |= more
    if (domain, wanted.id) not in reached:
        return None
    chain = reached[domain, wanted.id][1]
    root = held.values[chain[0]]["voucher"] if chain else wanted.id
    return printed({"document": wanted.id, "configured": root,
                    "receipts": [receipt_members(line, held.values[line]) for line in chain]})


# The last second that a time may have.
LAST_SECOND = 253402207200


def next_poll(polls, hint, now):
    """Whether a poll is due, and if not, at which second the next one is; None if there is no such time."""
    if not polls:
        return True, None
    interval = 300 if hint is None else max(60, min(hint, 86400))
    failures = next((n for n, (ok, _) in enumerate(reversed(polls)) if ok), len(polls))
    wait = interval if failures == 0 else min(interval, 30 * 2 ** min(failures - 1, 11))
    at = polls[-1][1] + wait
    if at > LAST_SECOND:
        return False, None
    return (True, None) if at <= now else (False, at)


def polls_json(config, held, lines, now):
    polls = {}
    for line in lines:
        domain, outcome, second = line.split(" ")
        polls.setdefault(domain, []).append((outcome == "ok", int(second)))
    shown = []
    for domain in sorted(r["domain"] for r in config["relationships"]):
        found = accepted_in(held, domain)
        hint = found[-1].value.get("spiffe_refresh_hint") if found else None
        due, at = next_poll(polls.get(domain, []), hint, now)
        shown.append({"domain": domain, "due": due, "next": at})
    return printed({"polls": shown})


def graph_lines(config, held, chosen=None):
    """With a domain: its receipts, and of each document that is its own or vouches for one of these, all that is known."""
    every = [held.values[line] for line in held.receipts]
    receipts = [r for r in every if chosen in (None, r["domain"])]
    shown = {r["voucher"] for r in receipts}
    is_shown = lambda d: chosen in (None, d.domain) or d.id in shown
    yield "digraph trust {"
    yield "node [shape=box];"
    for r in receipts:
        yield f'"{r["voucher"]}" [label="{endpoint_domain(r)}\\n{r["voucher"][:8]}"];'
    for d in (Document(r["domain"], r["doc"]) for r in every):
        if is_shown(d):
            yield f'"{d.id}" [label="{label(d)}"];'
    for d in seeds_of(config):
        if is_shown(d):
            yield f'"{d.id}" [label="{label(d)}", peripheries=2];'
    for domain in domains_of(config):
        current = (accepted_in(held, domain) or [None])[-1]
        if current is not None and is_shown(current):
            yield f'"{current.id}" [style=bold];'
        elif current is None and chosen in (None, domain):
            yield f"// no current document of {domain}"
    for r in receipts:
        style = {"accepted": "", "pending": ", style=dashed", "distrusted": ", color=red"}[held.status(r)]
        yield f'"{r["voucher"]}" -> "{Document(r["domain"], r["doc"]).id}" [label="{r["key"][:8]}"{style}];'
    yield "}"


def label(document):
    sequence = "none" if document.sequence is None else document.sequence
    return f"{document.domain}\\nsequence {sequence}\\n{document.id[:8]}"


# ---- the rows of tests/rows/cases/rows/view

def expanded(template, texts):
    return re.sub(r"\$\{(\w+)\}", lambda found: "\n" if found[1] == "lf" else texts[found[1]], template)


def row_lines(verb, words, text, texts):
    """What comes of a row, or None if it is another program's."""
    if verb == "config-json":
        return [config_json(json.loads(text))]
    if verb == "canon-json":
        return [document_json(words, json.loads(text))]
    if verb not in ("list-json", "report-json", "explain-json", "polls-json", "graph"):
        return None
    name, *more = words.split(" ")
    config = json.loads(texts[name])
    held = Held(config, [line.encode() for line in text.split("\n") if line])
    if verb == "list-json":
        return [list_json(held, *more)]
    if verb == "report-json":
        return [report_json(config, held)]
    if verb == "graph":
        return list(graph_lines(config, held, *more))
    if verb == "polls-json":
        return [polls_json(config, held, texts[more[1]].splitlines(), int(more[0]))]
    explained = explain_json(config, held, more[0], json.loads(texts[more[1]]))
    return ["not accepted"] if explained is None else [explained]


def shown(line):
    if len(line.encode()) > 200:
        return f"{len(line.encode())} bytes, sha256 {hashlib.sha256(line.encode()).hexdigest()}"
    return line.replace("\\", "\\\\")


def rows(lines):
    texts = {}
    for line in lines:
        if not line or line.startswith("#"):
            continue
        head, _, template = line.partition(" = ")
        text = expanded(template, texts)
        if line.startswith("text "):
            texts[head.removeprefix("text ")] = text
            continue
        verb, _, words = head.partition(" ")
        came = row_lines(verb, words, text, texts)
        if came is not None:
            yield line
            yield from (f"  {shown(one)}" for one in came)


def main(verb, *words):
    if verb == "rows":
        return rows(sys.stdin.read().split("\n"))
    if verb == "canon":
        return [document_json(words[0], json.load(sys.stdin))]
    with open(words[0], encoding="utf-8") as file:
        config = json.load(file)
    if verb == "config":
        return [config_json(config)]
    held = read_held(config, words[1])
    more = words[2:]
    if verb == "list":
        return [list_json(held, *more)]
    if verb == "report":
        return [report_json(config, held)]
    if verb == "graph":
        return graph_lines(config, held, *more)
    if verb == "polls":
        return [polls_json(config, held, sys.stdin.read().splitlines(), int(more[0]))]
    explained = explain_json(config, held, more[0], json.load(sys.stdin))
    return [] if explained is None else [explained]


if __name__ == "__main__":
    came = list(main(*sys.argv[1:]))
    for line in came:
        print(line)
    sys.exit(not came)

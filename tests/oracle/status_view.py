#!/usr/bin/env python3
"""Prints what `fedbundle status` prints for a configuration and a state file, in one of its three formats; or with
`--at`, if the bytes of the two files are given, and for each peer `ADDRESS,ENDED,CODE,RECEIPTS`, a hyphen for none. An
argument `BEGAN:MOMENT` before the peers says when the replica began and when it is asked, in Unix seconds: else both are
0.

It is written only from the rules, with Python's own json and hashlib and with canon.py and report.py, and shares nothing
with the program. It takes files that are well formed, and refuses nothing. A state file that is not there holds nothing.

usage: status_view.py CONFIG STATE [text|json|prometheus [SNAPSHOT JOURNAL [BEGAN:MOMENT] [PEER..]]]
                                            the exit status is 1 if there is a warning
"""
import base64
import calendar
import hashlib
import json
import os
import sys

from report import Document, accepted_of, config_id

RECEIPT_LIMIT, RECORD_LIMIT = 65536, 4096
GAUGES = {
    "fedbundle_receipts": "Receipts that are held.",
    "fedbundle_receipt_limit": "The most receipts that are held.",
    "fedbundle_pending_receipts": "Held receipts that no accepted bundle vouches for.",
    "fedbundle_distrust_records": "Records of distrust that are held.",
    "fedbundle_distrust_record_limit": "The most records of distrust that are held.",
    "fedbundle_keyless_configured_bundles": "Configured bundles without an X.509 authority.",
    "fedbundle_warning": "1 where status has a warning, and else 0.",
}
DOMAIN_GAUGES = {
    "fedbundle_current_bundle_info": "The id of the current bundle of a trust domain.",
    "fedbundle_current_sequence": "The sequence number of the current bundle, if it has one.",
    "fedbundle_current_refresh_hint_seconds": "The refresh hint of the current bundle, if it has one.",
    "fedbundle_current_keys": "Different keys of X.509 authorities in the current bundle.",
    "fedbundle_current_distrusted_keys": "Those of these keys that are distrusted.",
    "fedbundle_accepted_bundles": "Accepted bundles of a trust domain.",
    "fedbundle_conflicts": "Sequence numbers that several accepted bundles have.",
}


def domains_of(config):
    named = {r["domain"] for r in config["relationships"]} | {s["domain"] for s in config["seeds"]}
    return sorted(named | {r["endpoint"].removeprefix("spiffe://").split("/")[0] for r in config["relationships"]})


def current_of(document, distrusted):
    keys = [{"id": key, "distrusted": (document.domain, key) in distrusted} for key in sorted(document.keys)]
    return {"id": document.id, "sequence": document.sequence,
            "refresh_hint": document.value.get("spiffe_refresh_hint"), "keys": keys}


def domain_of(domain, accepted, distrusted):
    documents = sorted((d for d in accepted if d.domain == domain), key=Document.order)
    sequences = [d.sequence for d in documents if d.sequence is not None]
    return {"domain": domain, "current": current_of(documents[-1], distrusted) if documents else None,
            "accepted": len(documents), "conflicts": sum(sequences.count(s) > 1 for s in set(sequences))}


def keyless_of(config):
    """The configured bundles without an X.509 authority, each once, sorted by domain and then by canonical text."""
    seeds = {(s["domain"], d.text): d for s in config["seeds"] for d in [Document(s["domain"], s["bundle"])]}
    return [{"domain": d.domain, "id": d.id} for _, d in sorted(seeds.items()) if not d.keys]


def status(config, lines):
    told = [json.loads(line) for line in set(lines)]
    receipts = [r for r in told if "doc" in r]
    distrusted = {(r["domain"], r["distrust"]) for r in told if "distrust" in r}
    accepted, pending = accepted_of(config, receipts, distrusted)
    stands = {"config": config_id(config), "receipts": len(receipts), "receipt_limit": RECEIPT_LIMIT, "pending": pending,
              "record_limit": RECORD_LIMIT, "records": len(distrusted),
              "domains": [domain_of(domain, accepted, distrusted) for domain in domains_of(config)],
              "keyless_seeds": keyless_of(config)}
    return {**stands, "warning": bool(list(warnings(stands)))}


def keys_of(domain):
    return domain["current"]["keys"] if domain["current"] else []


def warnings(stands):
    for seed in stands["keyless_seeds"]:
        yield f"warning: the configured bundle {seed['id']} of {seed['domain']} has no X.509 authority"
    for domain in stands["domains"]:
        for key in keys_of(domain):
            if key["distrusted"]:
                yield f"warning: the current bundle of {domain['domain']} lists the distrusted key {key['id']}"
    if stands["receipts"] / RECEIPT_LIMIT > 0.9:
        yield f"warning: of {RECEIPT_LIMIT} receipts held: {stands['receipts']}"
    if stands["records"] / RECORD_LIMIT > 0.9:
        yield f"warning: of {RECORD_LIMIT} records of distrust held: {stands['records']}"


# ---- the certificates of current bundles

def element_at(der, place=0):
    """The tag, the content and the end of the DER element at a place."""
    tag, length, place = der[place], der[place + 1], place + 2
    if length > 127:
        count = length - 128
        length, place = int.from_bytes(der[place : place + count], "big"), place + count
    assert place + length <= len(der)
    return tag, der[place : place + length], place + length


def field_at(der, number):
    """The bytes of the field that follows this many others in a certificate, without the version; and its
    content."""
    fields = element_at(element_at(der)[1])[1]
    place = element_at(fields)[2] if fields[0] == 160 else 0
    for _ in range(number):
        place = element_at(fields, place)[2]
    _, content, end = element_at(fields, place)
    return fields[place:end], content


def end_of(der):
    """The last second at which a certificate is valid (RFC 5280, section 4.1.2.5); none of other bytes."""
    try:
        _, validity = field_at(der, 3)
        tag, text, _ = element_at(validity, element_at(validity)[2])
        text = text.decode()
        if tag == 23:
            text = ("19" if text[:2] >= "50" else "20") + text
        numbers = [int(text[:4])] + [int(text[at : at + 2]) for at in range(4, 14, 2)]
        return calendar.timegm((*numbers, 0, 0, 0))
    except (AssertionError, IndexError, ValueError):
        return None


def ends_of(config, lines):
    """The ends of the certificates that are X.509 authorities of current bundles: domains rise."""
    told = [json.loads(line) for line in set(lines)]
    distrusted = {(r["domain"], r["distrust"]) for r in told if "distrust" in r}
    accepted, _ = accepted_of(config, [r for r in told if "doc" in r], distrusted)
    for domain in domains_of(config):
        documents = sorted((d for d in accepted if d.domain == domain), key=Document.order)
        for authority in documents[-1].authorities if documents else ():
            der = base64.b64decode(authority["x5c"][0]) if "x5c" in authority else b""
            if end_of(der) is not None:
                yield {"domain": domain, "key": hashlib.sha256(der).hexdigest(), "not_after": end_of(der)}


# ---- the public keys of distrusted keys

def public_key_of(der):
    """The field subjectPublicKeyInfo of a certificate (RFC 5280, section 4.1); none of other bytes."""
    return field_at(der, 5)[0] if end_of(der) is not None else None


def certificates_of(documents):
    """The certificates of X.509 authorities, each once, in their order, by their key ids."""
    ders = [base64.b64decode(a["x5c"][0]) for d in documents for a in d.authorities if "x5c" in a]
    return {hashlib.sha256(der).hexdigest(): der for der in ders}


def same_keys_of(config, lines):
    """The keys of accepted bundles that are not distrusted, though a distrusted key of the domain, in an accepted bundle
    or in that of a held receipt, has the same public key: domains rise."""
    told = [json.loads(line) for line in set(lines)]
    distrusted = {(r["domain"], r["distrust"]) for r in told if "distrust" in r}
    receipts = [r for r in told if "doc" in r]
    accepted, _ = accepted_of(config, receipts, distrusted)
    for domain in domains_of(config):
        mine = certificates_of(sorted((d for d in accepted if d.domain == domain), key=Document.order))
        held = certificates_of(Document(domain, r["doc"]) for r in receipts if r["domain"] == domain)
        stolen = {public_key_of(der) for key, der in {**mine, **held}.items() if (domain, key) in distrusted} - {None}
        yield from ({"domain": domain, "key": key} for key, der in mine.items()
                    if (domain, key) not in distrusted and public_key_of(der) in stolen)


def end_metrics(ends):
    name = "fedbundle_certificate_not_after_timestamp_seconds"
    yield from head(name, "The end of a certificate that the current bundle of a trust domain has.")
    for end in ends:
        yield f'{name}{{domain="{end["domain"]}",key="{end["key"]}"}} {end["not_after"]}'


# ---- what is wrong, as a list

FAULTS = {
    "no-current": "has no current bundle",
    "locked-out": "has no trusted X.509 authority in its current bundle",
    "conflict": "has several accepted bundles with one sequence number",
    "no-sequence": "has several accepted bundles, and the current has no number",
}
QUIET_SECONDS = 600
EXPIRES_SECONDS = 7 * 86400


def faults_of(domain):
    """The kinds of what is wrong with a domain."""
    current = domain["current"]
    if current is None:
        yield "no-current"
    elif all(key["distrusted"] for key in current["keys"]):
        yield "locked-out"
    if domain["conflicts"] > 0:
        yield "conflict"
    if current is not None and current["sequence"] is None and domain["accepted"] > 1:
        yield "no-sequence"


def late(fetch, moment):
    """Whether a domain was not fetched well for three times its wait."""
    return fetch["fetched"] is None or moment - fetch["fetched"] >= 3 * fetch["wait"]


def found(stands, running=None, clock=(0, 0), fetches=(), ends=(), same_keys=()):
    """The objects of the member `warnings`: by kinds, and within a kind by domains, peers, and receipts before records."""
    began, moment = clock
    for kind in FAULTS:
        yield from ({"kind": kind, "domain": d["domain"]} for d in stands["domains"] if kind in faults_of(d))
    yield from ({"kind": "same-key", **same} for same in same_keys)
    yield from ({"kind": "expires", **end} for end in ends if end["not_after"] <= moment + EXPIRES_SECONDS)
    for fetch in fetches:
        if late(fetch, moment):
            yield {"kind": "not-fetched", "domain": fetch["domain"], "fetched": fetch["fetched"]}
    for peer in running["peers"] if running else ():
        since = began if peer["ended_well"] is None else peer["ended_well"]
        if moment - since >= QUIET_SECONDS:
            yield {"kind": "quiet-peer", "peer": peer["peer"], "since": since}
    for what, limit in (("receipts", RECEIPT_LIMIT), ("records", RECORD_LIMIT)):
        if stands[what] / limit > 0.9:
            yield {"kind": "nearly-full", "what": what, "held": stands[what]}


def found_line(warning):
    kind = warning["kind"]
    if kind in FAULTS:
        told = f"{warning['domain']} {FAULTS[kind]}"
    elif kind == "same-key":
        told = f"{warning['domain']} accepts key {warning['key']}, which has the public key of a distrusted key"
    elif kind == "expires":
        told = f"{warning['domain']} has a certificate that ends at {warning['not_after']}, of key {warning['key']}"
    elif kind == "not-fetched":
        told = f"{warning['domain']} was last fetched: {'never' if warning['fetched'] is None else warning['fetched']}"
    elif kind == "quiet-peer":
        told = f"{warning['peer']} had no session that ended well since {warning['since']}"
    else:
        of = {"receipts": f"{RECEIPT_LIMIT} receipts", "records": f"{RECORD_LIMIT} records of distrust"}
        told = f"{warning['held']} of {of[warning['what']]} are held"
    return f"warning: {kind}: {told}"


def found_metrics(warnings_found):
    name = "fedbundle_warning_info"
    yield from head(name, "What status warns of, by kind.")
    for warning in warnings_found:
        labels = [(key, value) for key, value in warning.items() if key in ("kind", "domain", "key", "peer", "what")]
        yield name + "{" + ",".join(f'{key}="{escaped(text)}"' for key, text in labels) + "} 1"


def or_none(number):
    return "none" if number is None else number


def text_lines(stands):
    yield f"config {stands['config']}"
    yield f"receipts {stands['receipts']} of {RECEIPT_LIMIT} pending {stands['pending']}"
    yield f"records {stands['records']} of {RECORD_LIMIT}"
    for domain in stands["domains"]:
        yield f"domain {domain['domain']}"
        current = domain["current"]
        if current:
            sequence, hint = or_none(current["sequence"]), or_none(current["refresh_hint"])
            yield f"  current {current['id']} sequence {sequence} refresh-hint {hint}"
        else:
            yield "  current none"
        yield from (f"  key {key['id']}" + (" distrusted" if key["distrusted"] else "") for key in keys_of(domain))
        yield f"  accepted {domain['accepted']} conflicts {domain['conflicts']}"
    yield from warnings(stands)


def head(name, what, kind="gauge"):
    yield f"# HELP {name} {what}"
    yield f"# TYPE {name} {kind}"


def gauge_values(stands):
    return [stands["receipts"], RECEIPT_LIMIT, stands["pending"], stands["records"], RECORD_LIMIT,
            len(stands["keyless_seeds"]), int(stands["warning"])]


def domain_values(domain):
    """The value of each gauge of a domain, none for one that it lacks."""
    current, counts = domain["current"], [domain["accepted"], domain["conflicts"]]
    if not current:
        return [None] * 5 + counts
    keys = current["keys"]
    return [1, current["sequence"], current["refresh_hint"], len(keys), sum(key["distrusted"] for key in keys)] + counts


def escaped(text):
    return text.replace("\\", "\\\\").replace('"', '\\"').replace("\n", "\\n")


def samples(stands, name, place):
    for domain in stands["domains"]:
        value = domain_values(domain)[place]
        labels = {"domain": domain["domain"]}
        if name.endswith("_info") and domain["current"]:
            labels["id"] = domain["current"]["id"]
        if value is not None:
            yield name + "{" + ",".join(f'{key}="{escaped(text)}"' for key, text in labels.items()) + "} " + str(value)


def metric_lines(stands):
    yield from head("fedbundle_config_info", "The configuration's digest.")
    yield f'fedbundle_config_info{{digest="{stands["config"]}"}} 1'
    for (name, what), value in zip(GAUGES.items(), gauge_values(stands)):
        yield from head(name, what)
        yield f"{name} {value}"
    for place, (name, what) in enumerate(DOMAIN_GAUGES.items()):
        yield from head(name, what)
        yield from samples(stands, name, place)


def running_of(snapshot, journal, peers):
    """What a running replica says of itself, as the members of its JSON object."""
    told = []
    for peer in peers:
        address, ended, code, receipts = peer.split(",")
        told.append({"peer": address, "ended_well": None if ended == "-" else int(ended),
                     "fault": None if code == "-" else code, "receipts": int(receipts)})
    return {"snapshot_bytes": int(snapshot), "journal_bytes": int(journal), "peers": told}


def running_lines(running):
    yield f"snapshot {running['snapshot_bytes']} bytes"
    yield f"journal {running['journal_bytes']} bytes"
    for peer in running["peers"]:
        ended, code = or_none(peer["ended_well"]), or_none(peer["fault"])
        yield f"peer {peer['peer']} ended-well {ended} fault {code} receipts {peer['receipts']}"


def running_metrics(running):
    for part in ("snapshot", "journal"):
        yield from head(f"fedbundle_{part}_bytes", f"Bytes of the {part}.")
        yield f"fedbundle_{part}_bytes {running[part + '_bytes']}"
    peers = [(escaped(peer["peer"]), peer) for peer in running["peers"]]
    name = "fedbundle_peer_receipts_total"
    yield from head(name, "Receipts that came from a peer and were not held.", "counter")
    yield from (f'{name}{{peer="{address}"}} {peer["receipts"]}' for address, peer in peers)
    name = "fedbundle_peer_ended_well_timestamp_seconds"
    yield from head(name, "When the last session with a peer that ended well did so.")
    for address, peer in peers:
        if peer["ended_well"] is not None:
            yield f'{name}{{peer="{address}"}} {peer["ended_well"]}'
    name = "fedbundle_peer_fault_info"
    yield from head(name, "The fault of the last session with a peer that had one.")
    for address, peer in peers:
        if peer["fault"] is not None:
            yield f'{name}{{peer="{address}",fault="{peer["fault"]}"}} 1'


def lines_in(stands, shape, running=None, wrong=None, ends=()):
    """The lines; with what is wrong at the end, unless that is not asked for."""
    if shape == "json":
        more = {} if wrong is None else {"warnings": wrong}
        return [json.dumps({**stands, **(running or {}), **more}, separators=(",", ":"))]
    if shape == "prometheus":
        more = [] if wrong is None else [*end_metrics(ends), *found_metrics(wrong)]
        return [*metric_lines(stands), *(running_metrics(running) if running else []), *more]
    return [*text_lines(stands), *(running_lines(running) if running else []), *map(found_line, wrong or [])]


def clock_of(words):
    """When the replica began and when it is asked, and the arguments that follow."""
    if words and words[0].replace(":", "").isdigit() and words[0].count(":") == 1:
        began, moment = words[0].split(":")
        return (int(began), int(moment)), words[1:]
    return (0, 0), words


if __name__ == "__main__":
    configuration_file, state, *rest = sys.argv[1:]
    with open(configuration_file, encoding="utf-8") as file:
        configuration = json.load(file)
    held_lines = []
    if os.path.exists(state):
        with open(state, encoding="utf-8") as file:
            held_lines = file.read().splitlines()[1:-1]
    standing = status(configuration, held_lines)
    clock, peers_said = clock_of(rest[3:])
    own = running_of(rest[1], rest[2], peers_said) if len(rest) > 2 else None
    ends = list(ends_of(configuration, held_lines))
    wrong = list(found(standing, own, clock, (), ends, same_keys_of(configuration, held_lines)))
    for line in lines_in(standing, rest[0] if rest else "text", own, wrong, ends):
        print(line)
    sys.exit(int(standing["warning"]))

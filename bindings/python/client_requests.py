"""Makes the requests that it reads, one a line, and prints what came of each, as bindings/go/requests does. That says how a
line is written."""
import base64
import dataclasses
import json
import sys

from fedbundle_client import Client, Poll, ReplicaError, parse_bundle


def shown(value):
    """The value as JSON has it, with bytes in base64."""
    if isinstance(value, bytes):
        return base64.b64encode(value).decode()
    if isinstance(value, (list, tuple)):
        return [shown(one) for one in value]
    if isinstance(value, dict):
        return {name: shown(one) for name, one in value.items()}
    return shown(dataclasses.asdict(value)) if dataclasses.is_dataclass(value) else value


def without_none(warning):
    return {name: value for name, value in warning.items() if value is not None}


def renamed(held):
    """A record of distrust has its key under another name in JSON."""
    if isinstance(held, dict):
        held["records"] = [{"distrust": one["key"], "domain": one["domain"]} for one in held["records"]]
    return held


# One for each socket, so that a connection is kept.
CLIENTS = {}


def answer(line):
    client = CLIENTS.setdefault(line["Socket"], Client(line["Socket"]))
    client.timeout = line["Seconds"]
    name, texts = line["Call"], line.get("Texts", [])
    data = base64.b64decode(line.get("Input", "")) + b" " * line.get("Spaces", 0)
    if name == "status":
        found = shown(client.status())
        # The reply has it only from a replica that runs with --previous.
        if found["previous"] is None:
            del found["previous"]
        return {**found, "warnings": [without_none(one) for one in found["warnings"]]}
    if name in ("list", "list_keys", "graph", "reseed"):
        return renamed(shown(getattr(client, name)(texts[0] or None)))
    if name == "parsed":
        return shown(parse_bundle(texts[0], client.bundle(texts[0])))
    if name == "polls":
        polls = [Poll(one["Domain"], one["OK"], one["Second"]) for one in line.get("Polls", [])]
        return shown(client.polls(line["Number"], polls))
    if name == "merge_at_most":
        return client.merge(data, most_bytes=line["Number"])
    if name == "ask":
        return shown(client.ask(texts, data))
    given = [*texts, data] if name in ("explain", "explain_short", "observe", "merge", "migrate", "migrate_records", "diff") else texts
    return shown(getattr(client, name)(*given))


for text in sys.stdin:
    try:
        print(json.dumps({"answer": answer(json.loads(text))}), flush=True)
    except ReplicaError as error:
        print(json.dumps({"code": error.code, "text": error.text, "status": error.status}), flush=True)

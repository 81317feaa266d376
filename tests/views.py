#!/usr/bin/env python3
"""Looks at what the built program prints for operators, by other programs' eyes.

`status` in its three formats, and at other times and with other limits, against tests/oracle/status_view.py; its JSON by Python's reader; its metrics by a parser that is written here
from only the text format of Prometheus. `bundle --format pem` by openssl, if there is one.
`explain --short` against a walk over the receipts. What has `--format json`, and `graph`, against tests/oracle/json_view.py, and each object by Python's reader, and the graph by
Graphviz, if there is one. An argument that is not a subcommand against the list of all (D-255). The bundles are those of examples/.

It needs python3. The program is the one that ./fedbundle runs, or the one that $FEDBUNDLE names.

usage: views          the exit status is 1 if something is not as wanted
"""
import hashlib
import json
import re
import ssl
import subprocess
import sys
import tempfile
import time
from pathlib import Path

TOP = Path(__file__).resolve().parent.parent
sys.dont_write_bytecode = True
sys.path[:0] = [str(TOP / "tests/oracle"), str(TOP / "tests/lib")]
from report import Document, config_id  # noqa: E402
import json_view  # noqa: E402
import status_view  # noqa: E402
from harness import HANG, find_program  # noqa: E402
from held_view import Held  # noqa: E402
from needs import can  # noqa: E402

PROGRAM = find_program()
CONFIG = TOP / "examples/config.json"
faults = 0


def check(what, holds, seen=""):
    global faults
    faults += not holds
    print(f"{'ok:     ' if holds else 'differs:'} {what}{'' if holds else f': {seen}'}")


def run(*words, given=b""):
    ran = subprocess.run([PROGRAM, *words], input=given, capture_output=True, timeout=HANG)
    return ran.returncode, ran.stdout.decode(), ran.stderr.decode()


def state_of(lines):
    """The state file that holds these lines."""
    records = sorted(line for line in lines if line.startswith('{"distrust"'))
    receipts = sorted(line for line in lines if line.startswith('{"doc"'))
    config = json.loads(CONFIG.read_text())
    first = f'{{"config":"{config_id(config)}","format":2}}'
    last = f'{{"count":{len(receipts)},"distrusts":{len(records)}}}'
    return "".join(f"{line}\n" for line in [first, *records, *receipts, last])


# ---- the text format of Prometheus

SAMPLE = re.compile(r'([a-zA-Z_:][\w:]*)(?:\{(.*)\})? (\S+)')
LABEL = re.compile(r'([a-zA-Z_]\w*)="((?:[^"\\\n]|\\\\|\\"|\\n)*)"(?:,|$)')


def labels_of(text):
    """The labels, each once, with nothing between them."""
    found, place = {}, 0
    while place < len(text):
        label = LABEL.match(text, place)
        assert label and label[1] not in found, text
        found[label[1]] = re.sub(r"\\(.)", lambda m: "\n" if m[1] == "n" else m[1], label[2])
        place = label.end()
    return found


def metrics_of(text):
    """The value of each sample by its name and labels. Each metric is in one place, after its HELP and its TYPE."""
    assert text.endswith("\n")
    samples, seen, name = {}, set(), None
    helped = None
    for line in text[:-1].split("\n"):
        if line.startswith("# HELP "):
            helped = line.split(" ", 3)[2]
            assert helped not in seen and line.split(" ", 3)[3], line
        elif line.startswith("# TYPE "):
            name = line.removeprefix("# TYPE ").removesuffix(" gauge")
            assert name == helped, line
            seen.add(name)
        else:
            sample = SAMPLE.fullmatch(line)
            assert sample and sample[1] == name, line
            key = name, tuple(sorted(labels_of(sample[2] or "").items()))
            assert key not in samples, line
            samples[key] = float(sample[3])
    return samples


def wanted_metrics(stands, wrong, ends):
    for end in ends:
        labels = ("domain", end["domain"]), ("key", end["key"])
        yield ("fedbundle_certificate_not_after_timestamp_seconds", labels), end["not_after"]
    for warning in wrong:
        yield ("fedbundle_warning_info", tuple(sorted((k, v) for k, v in warning.items() if k not in ("held", "not_after")))), 1
    yield ("fedbundle_config_info", (("digest", stands["config"]),)), 1
    yield ("fedbundle_receipts", ()), stands["receipts"]
    yield ("fedbundle_receipt_limit", ()), stands["receipt_limit"]
    yield ("fedbundle_pending_receipts", ()), stands["pending"]
    yield ("fedbundle_distrust_records", ()), stands["records"]
    yield ("fedbundle_distrust_record_limit", ()), stands["record_limit"]
    yield ("fedbundle_keyless_configured_bundles", ()), len(stands["keyless_seeds"])
    yield ("fedbundle_warning", ()), stands["warning"]
    for domain in stands["domains"]:
        label, current = ("domain", domain["domain"]), domain["current"]
        yield ("fedbundle_accepted_bundles", (label,)), domain["accepted"]
        yield ("fedbundle_conflicts", (label,)), domain["conflicts"]
        if current:
            yield ("fedbundle_current_bundle_info", (label, ("id", current["id"]))), 1
            yield ("fedbundle_current_keys", (label,)), len(current["keys"])
            yield ("fedbundle_current_distrusted_keys", (label,)), sum(key["distrusted"] for key in current["keys"])
            yield ("fedbundle_current_sequence", (label,)), current["sequence"]
            yield ("fedbundle_current_refresh_hint_seconds", (label,)), current["refresh_hint"]


def look_at_status(name, state, lines):
    stands = status_view.status(json.loads(CONFIG.read_text()), lines)
    words = ["status", "--config", str(CONFIG), "--state", state]
    for shape in ["text", "json", "prometheus"]:
        ends = list(status_view.ends_of(json.loads(CONFIG.read_text()), lines))
        wrong = list(status_view.found(stands, None, (0, int(time.time())), (), ends))
        wanted = "".join(f"{line}\n" for line in status_view.lines_in(stands, shape, None, wrong, ends))
        status, output, errors = run(*words, "--format", shape)
        check(f"status of {name}, {shape}", (status, output, errors) == (int(stands["warning"]), wanted, ""), output + errors)
        if shape == "text":
            check(f"status of {name}, no format", run(*words) == (status, output, errors))
        elif shape == "json":
            check(f"status of {name}, read as JSON", json.loads(output) == {**stands, "warnings": wrong}, output)
        else:
            seen, of = metrics_of(output), {k: float(v) for k, v in wanted_metrics(stands, wrong, ends) if v is not None}
            check(f"status of {name}, read as metrics", seen == of, seen)


def look_at_limits(state, lines, folder):
    """`status` at other times, with other limits and with a log of polls, against the list that another program finds."""
    config = json.loads(CONFIG.read_text())
    stands, ends = status_view.status(config, lines), list(status_view.ends_of(config, lines))
    first = min(end["not_after"] for end in ends)
    polls = Path(folder) / "polls"
    polls.write_text("a.example ok 1000\nb.example ok 900\nb.example fail 1000\n")
    waits = [max(60, min(d["current"]["refresh_hint"] or 300, 86400)) for d in stands["domains"]]
    fetches = [{"domain": "a.example", "fetched": 1000, "wait": waits[0]}, {"domain": "b.example", "fetched": 900, "wait": waits[1]}]
    times = [(first - 7 * 86400 - 1, 7), (first - 7 * 86400, 7), (first - 30 * 86400 - 1, 30), (first - 30 * 86400, 30), (first, 0)]
    times += [(fetch["fetched"] + 3 * fetch["wait"] - less, 7) for fetch in fetches for less in (0, 1)] + [(-5, 36525)]
    usual = status_view.EXPIRES_SECONDS
    for now, days in times:
        status_view.EXPIRES_SECONDS = days * 86400
        for log, known in ([], ()), (["--polls", str(polls)], fetches):
            wrong = list(status_view.found(stands, None, (0, now), known, ends))
            wanted = "".join(f"{line}\n" for line in status_view.lines_in(stands, "text", None, wrong, ends))
            ran = run("status", "--config", str(CONFIG), "--state", state, f"--now={now}", "--expires-within", str(days), *log)
            check(f"status at {now} within {days} days, {len(known)} fetches", ran == (int(stands["warning"]), wanted, ""), ran)
    status_view.EXPIRES_SECONDS = usual
    words = ["status", "--config", str(CONFIG), "--state", state]
    polls.write_text("a.example ok 1000\na.example maybe 1000\n")
    for more, wanted in (
        (["--polls", str(polls)], (1, "", "fedbundle: P4 BadLine line 2\n")), (["--now", "now"], (1, "", "fedbundle: bad moment\n")),
        (["--polls", f"{folder}/missing"], (3, "", "fedbundle: E3 Io\n")), (["--polls", ""], (2, "", "fedbundle: usage\n")),
        (["--expires-within", "36526"], (2, "", "fedbundle: usage\n")),
        (["--peer-quiet", "31536001"], (2, "", "fedbundle: usage\n")),
    ):
        ran = run(*words, *more)
        check(f"status {' '.join(more)[:40]}", ran == wanted, ran)


def look_at_pem(state, domain):
    words = ["--config", str(CONFIG), "--state", state, "--domain", domain]
    _, document, _ = run("bundle", *words)
    status, pem, errors = run("bundle", *words, "--format", "pem")
    check(f"bundle of {domain}, json is the bundle", run("bundle", *words, "--format", "json") == (0, document, ""))
    blocks = re.findall(r"-----BEGIN CERTIFICATE-----\n[^-]+-----END CERTIFICATE-----\n", pem)
    check(f"bundle of {domain}, pem is whole", (status, errors, "".join(blocks)) == (0, "", pem), pem + errors)
    wanted = Document(domain, json.loads(document)).ordered_keys
    if can("openssl", "PEM, keys and certificates as openssl reads them"):
        ders = [subprocess.run(["openssl", "x509", "-outform", "DER"], input=block.encode(), capture_output=True).stdout
                for block in blocks]
        again = [subprocess.run(["openssl", "x509", "-inform", "DER"], input=der, capture_output=True).stdout.decode()
                 for der in ders]
        check(f"bundle of {domain}, openssl writes the same PEM", again == blocks, again)
        keys = [hashlib.sha256(der).hexdigest() for der in ders]
        check(f"bundle of {domain}, openssl reads its keys", keys == wanted and keys != [], keys)


def look_at_keys(state, domain, distrusted):
    """The keys of the domain's current bundle, as openssl reads its certificates, and which of them are distrusted."""
    words = ["list", "--config", str(CONFIG), "--state", state, "--keys"]
    status, text, errors = run(*words, "--format", "json")
    told = {one["key"]: one for one in json.loads(text)["keys"] if one["domain"] == domain}
    pem = run("bundle", "--config", str(CONFIG), "--state", state, "--domain", domain, "--format", "pem")[1]
    blocks = re.findall(r"-----BEGIN CERTIFICATE-----\n[^-]+-----END CERTIFICATE-----\n", pem)
    check(f"keys of {domain}: JSON", (status, errors) == (0, "") and len(told) >= len(blocks) > 0, (status, errors, told))
    lines = run(*words, "--domain", domain)[1].splitlines()
    check(f"keys of {domain}: a line each", [line.split()[1] for line in lines] == list(told), lines)
    if not can("openssl", "PEM, keys and certificates as openssl reads them"):
        return

    def openssl(*words, given):
        return subprocess.run(["openssl", *words], input=given, capture_output=True, check=True).stdout
    for block in map(str.encode, blocks):
        der = openssl("x509", "-outform", "DER", given=block)
        public = openssl("pkey", "-pubin", "-outform", "DER", given=openssl("x509", "-noout", "-pubkey", given=block))
        dates = dict(line.split("=") for line in openssl("x509", "-noout", "-dates", given=block).decode().splitlines())
        key = hashlib.sha256(der).hexdigest()
        wanted = (hashlib.sha256(public).hexdigest(), *(ssl.cert_time_to_seconds(dates[name]) for name in ("notBefore", "notAfter")))
        seen = tuple(told[key][name] for name in ("public_key", "not_before", "not_after"))
        check(f"key {key[:8]} of {domain}, as openssl reads it", seen == wanted, (seen, wanted))
        shown = openssl("x509", "-noout", "-subject", "-nameopt", "RFC2253", given=block).decode().removeprefix("subject=").rstrip("\n")
        dates = openssl("x509", "-noout", "-dates", "-dateopt", "iso_8601", given=block).decode().replace(" ", "T").splitlines()
        wanted = (*(line.split("=")[1] for line in dates), shown)
        seen = tuple(told[key][name] for name in ("valid_from", "valid_until", "subject"))
        check(f"key {key[:8]} of {domain}, its dates and its subject", seen == wanted, (seen, wanted))
        [line] = [line for line in lines if line.split()[1] == key]
        check(f"key {key[:8]} of {domain}, as a line", " from {} to {} ".format(*wanted) in line and line.endswith(f" subject {shown}"), line)
        check(f"key {key[:8]} of {domain}, distrusted or not", told[key]["distrusted"] == (key == distrusted), told[key])


def look_at_explanations(state, lines):
    """Each bundle that a receipt brought and that has one way back."""
    receipts = [json.loads(line) for line in lines]
    brought = {Document(r["domain"], r["doc"]).id: r for r in receipts}
    for receipt in receipts:
        document, steps = Document(receipt["domain"], receipt["doc"]), []
        at = receipt
        while at:
            of = Document(at["domain"], at["doc"])
            steps.append(f"{of.told()} <- key {at['key']} of {at['voucher']}\n")
            root, at = at["voucher"], brought.get(at["voucher"])
        wanted = "".join(steps) + f"{root} configured\n"
        words = ["explain", "--config", str(CONFIG), "--state", state, "--domain", document.domain]
        status, output, errors = run(*words, "--short", given=document.text.encode())
        if status == 1:
            check(f"explain {document.id[:8]}, not accepted", (output, errors) == ("", "fedbundle: not accepted\n"), errors)
        else:
            check(f"explain {document.id[:8]}", (status, output, errors) == (0, wanted, ""), output + errors)
    for seed in json.loads(CONFIG.read_text())["seeds"]:
        document = Document(seed["domain"], seed["bundle"])
        words = ["explain", "--config", str(CONFIG), "--state", state, "--domain", document.domain, "--short"]
        check(f"explain the configured {document.id[:8]}",
              run(*words, given=document.text.encode()) == (0, f"{document.id} configured\n", ""))


def look_at_object(what, words, wanted, given=b""):
    status, output, errors = run(*words, "--format", "json", given=given)
    check(f"{what}, json", (status, output, errors) == (0, f"{wanted}\n", ""), output + errors)
    check(f"{what}, compact", json_view.printed(json.loads(output)) + "\n" == output, output)


def look_at_json(name, state, lines):
    config = json.loads(CONFIG.read_text())
    held = Held(config, [line.encode() for line in lines])
    words = ["--config", str(CONFIG), "--state", state]
    look_at_object(f"config of {name}", ["config", "--config", str(CONFIG)], json_view.config_json(config))
    look_at_object(f"report of {name}", ["report", *words], json_view.report_json(config, held))
    look_at_object(f"list of {name}", ["list", *words], json_view.list_json(held))
    polls = ["a.example ok 1000", "b.example fail 900", "b.example fail 950"]
    wanted = json_view.polls_json(config, held, polls, 1009)
    given = "".join(f"{line}\n" for line in polls).encode()
    look_at_object(f"polls of {name}", ["polls", *words, "--now", "1009"], wanted, given)
    for domain in json_view.domains_of(config):
        chosen = [*words, "--domain", domain]
        look_at_object(f"list of {name}, {domain}", ["list", *chosen], json_view.list_json(held, domain))
        for document in json_view.accepted_in(held, domain):
            look_at_object(f"canon {document.id[:8]}", ["canon", "--domain", domain],
                           json_view.document_json(domain, document.value), document.text.encode())
            look_at_chain(config, held, document, chosen)
        look_at_graph(f"graph of {name}, {domain}", chosen, json_view.graph_lines(config, held, domain))
    look_at_graph(f"graph of {name}", words, json_view.graph_lines(config, held))


def look_at_chain(config, held, document, words):
    """Of several shortest chains any may be printed; the examples have one."""
    wanted = json_view.explain_json(config, held, document.domain, document.value)
    look_at_object(f"explain {document.id[:8]}", ["explain", *words], wanted, document.text.encode())


def look_at_graph(what, words, lines):
    status, output, errors = run("graph", *words)
    check(what, (status, output, errors) == (0, "".join(f"{line}\n" for line in lines), ""), output + errors)
    if can("dot", "graphs as Graphviz draws them"):
        drawn = subprocess.run(["dot", "-Tsvg"], input=output.encode(), capture_output=True)
        check(f"{what}, Graphviz draws it", (drawn.returncode, drawn.stderr) == (0, b""), drawn.stderr)


def look_at_picture(state):
    graph = (TOP / "docs/trust-flow.dot").read_text()
    printed = run("graph", "--config", str(CONFIG), "--state", state)
    check("docs/trust-flow.dot is the graph of the examples", printed == (0, graph, ""), printed)


def look_at_words(state):
    names = re.findall(r"^  ([a-z]+) ", run("--help")[1].split("Commands:")[1].split("Options:")[0], re.M)
    names = [name for name in names if name != "help"]
    check("help lists the subcommands", "distrust" in names and "status" in names, names)
    for word in ["distrus", "distrusts", "dist", "stat", "nonsense"]:
        status, output, errors = run(word)
        listed = f"error: unrecognized subcommand '{word}'\n\nThe subcommands are: {' '.join(names)}\n"
        check(f"the word {word}", (status, output) == (2, "") and errors.startswith(listed) and "tip" not in errors, errors)
    for words in [["status"], ["bundle", "--domain", "a.example"], ["report"], ["list"], ["polls", "--now", "0"]]:
        ran = run(*words, "--config", str(CONFIG), "--state", state, "--format", "yaml")
        check(f"{words[0]} in an unknown format", ran == (2, "", "fedbundle: usage\n"), ran)


def main():
    lines = (TOP / "examples/receipts.jsonl").read_text().splitlines()
    current = status_view.status(json.loads(CONFIG.read_text()), lines)["domains"][0]["current"]["keys"][0]["id"]
    record = f'{{"distrust":"{current}","domain":"a.example"}}'
    with tempfile.TemporaryDirectory() as folder:
        state, with_record = f"{folder}/state", f"{folder}/with_record"
        Path(state).write_text(state_of(lines))
        Path(with_record).write_text(state_of([*lines, record]))
        empty = f"{folder}/empty"
        Path(empty).write_text(state_of([]))
        look_at_status("a state that holds nothing", empty, [])
        look_at_status("the examples", state, lines)
        look_at_status("a distrusted key", with_record, [*lines, record])
        look_at_limits(state, lines, folder)
        look_at_pem(state, "a.example")
        look_at_pem(state, "b.example")
        look_at_keys(state, "a.example", None)
        look_at_keys(state, "b.example", None)
        look_at_keys(with_record, "a.example", current)
        look_at_explanations(state, lines)
        look_at_json("a state that holds nothing", empty, [])
        look_at_json("the examples", state, lines)
        look_at_json("a distrusted key", with_record, [*lines, record])
        look_at_picture(state)
        look_at_words(state)
    sys.exit(int(faults > 0))


if __name__ == "__main__":
    main()

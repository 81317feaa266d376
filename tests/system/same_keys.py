#!/usr/bin/env python3
"""Plays a stolen key with two certificates, over files and at a running replica.

openssl makes the certificates: for an RSA, an EC and an Ed25519 key one, and a second one for the same key, with another
subject and validity; and one of another key. All are authorities of one bundle. It looks at `list --keys`, whose digests are those that
openssl and hashlib say of the public keys, and which shows the subjects and the dates in both forms; at `distrust` with --dry-run
and --verbose, which name the second certificate, with the same lines over files and with --at; at `status`, which warns of it as
`same-key` in its three formats; and at `distrust --public-key`, after which nothing is warned of. A public key that no known key
has is refused. Two more bundles, each fetched by one of the two certificates, fall together, and a dry run says it once for both,
as tests/oracle/distrust_view.py; a replica says how many fell, and has one event and one line in its audit file for both keys. With
room for one record none is made of two.

It needs python3 and openssl, and takes seconds. The program is the one that ./fedbundle runs, or the one that $FEDBUNDLE
names.

usage: same_keys   the exit status is 1 if something is wrong
"""
import base64
import hashlib
import json
import signal
import subprocess
import sys
import time
from contextlib import contextmanager
from dataclasses import dataclass
from pathlib import Path

sys.dont_write_bytecode = True
sys.path.insert(0, str(Path(__file__).resolve().parent.parent / "lib"))
sys.path.insert(0, str(Path(__file__).resolve().parent.parent / "oracle"))
from distrust_view import distrust_view  # noqa: E402
from harness import HANG, find_program, temporary  # noqa: E402

PROGRAM = find_program()
DOMAIN, ENDPOINT = "a.test", "spiffe://a.test/bundle"
KINDS = {
    "RSA": ["-algorithm", "RSA", "-pkeyopt", "rsa_keygen_bits:2048"],
    "EC": ["-algorithm", "EC", "-pkeyopt", "ec_paramgen_curve:P-256"],
    "Ed25519": ["-algorithm", "ED25519"],
}
# For each certificate: its key, the subject that openssl is given, the days, and the text of RFC
# 4514.
SUBJECTS = [
    ("stolen", "/C=DE/O=Grün, & Söhne/CN=first", "30", r"CN=first,O=Gr\c3\bcn\, & S\c3\b6hne,C=DE"),
    ("stolen", "/CN=#again/emailAddress=a@test", "60", r"1.2.840.113549.1.9.1=#1606614074657374,CN=\#again"),
    ("good", "/DC=test/CN=other+OU=b", "30", "OU=b+CN=other,DC=test"),
]
FULL = ("--most-records", "1")
faults = 0


@dataclass
class Certificates:
    """Two of one key and one of another, as DER, and the digest of the first key's public key."""
    first: bytes
    again: bytes
    other: bytes
    digest: str


def check(what, holds, seen=""):
    global faults
    if not holds:
        faults += 1
        print(f"wrong: {what}: {seen}")


def openssl(folder, *words):
    return subprocess.run(["openssl", *words], cwd=folder, check=True, capture_output=True).stdout


def make(folder, options):
    for name in ("stolen", "good"):
        openssl(folder, "genpkey", *options, "-out", name)

    def issue(key, subject, days):
        words = ("req", "-x509", "-utf8", "-key", key, "-subj", subject, "-days", days, "-outform", "DER")
        return openssl(folder, *words)
    public = openssl(folder, "pkey", "-in", "stolen", "-pubout", "-outform", "DER")
    return Certificates(*(issue(key, given, days) for key, given, days, _ in SUBJECTS), hashlib.sha256(public).hexdigest())


def key_id(der):
    return hashlib.sha256(der).hexdigest()


def bundle(sequence, *ders):
    elements = [{"e": "AQAB", "kty": "RSA", "n": "AQAB", "use": "x509-svid", "x5c": [base64.b64encode(der).decode()]} for der in ders]
    return {"keys": elements, "spiffe_sequence": sequence}


def config(made):
    relationship = {"domain": DOMAIN, "endpoint": ENDPOINT, "profile": "https_spiffe", "url": f"https://{DOMAIN}/"}
    seed = {"domain": DOMAIN, "bundle": bundle(1, made.first, made.again, made.other)}
    return json.dumps({"relationships": [relationship], "seeds": [seed]})


class Over:
    """The commands over the files of a folder, with more options for each, or at a socket."""

    def __init__(self, folder, socket=None, more=()):
        of_files = ["--config", f"{folder}/config", "--state", f"{folder}/state", *more]
        self.words = of_files if socket is None else ["--at", socket]
        self.is_at = socket is not None

    def run(self, name, *words, status=0, given=""):
        ran = subprocess.run([PROGRAM, name, *self.words, *words], input=given, capture_output=True, text=True, timeout=HANG)
        check(f"{name} {words} ends with {status}", ran.returncode == status, f"{ran.returncode} {ran.stderr}")
        return ran.stdout, ran.stderr

    def keys(self):
        return {key["key"]: key for key in json.loads(self.run("list", "--keys", "--format", "json")[0])["keys"]}

    def records(self):
        return [line for line in self.run("list")[0].splitlines() if line.startswith("distrust ")]

    def warned(self, status):
        told = json.loads(self.run("status", "--format", "json", status=status)[0])
        return [warning for warning in told["warnings"] if warning["kind"] == "same-key"]


def same_lines(text):
    return [line for line in text.splitlines() if line.startswith("same public key: ")]


def new_state(folder, made):
    for path in Path(folder).iterdir():
        path.unlink()
    Path(folder, "config").write_text(config(made))
    Over(folder).run("new")


@contextmanager
def running(folder, *more):
    """A replica of the folder, and its socket. Its events are in the file `log`."""
    socket = f"{folder}/socket"
    words = [PROGRAM, "replica", "--config", f"{folder}/config", "--state", f"{folder}/state", "--socket", socket, *more]
    with open(f"{folder}/log", "w") as log:
        server = subprocess.Popen(words, stdout=subprocess.PIPE, stderr=log, text=True)
    try:
        ready = server.stdout.readline()
        check("the replica is ready", ready.startswith("ready "), ready)
        yield socket
    finally:
        server.send_signal(signal.SIGTERM)
        server.communicate(timeout=HANG)


def play(kind, made, over):
    first, again, other = (key_id(der) for der in (made.first, made.again, made.other))
    keys = over.keys()
    check(f"{kind}: three keys", set(keys) == {first, again, other}, keys)
    check(f"{kind}: the digest of the public key", keys[first]["public_key"] == keys[again]["public_key"] == made.digest, keys)
    check(f"{kind}: another public key", keys[other]["public_key"] not in (None, made.digest), keys)
    lines = {line.split()[1]: line for line in over.run("list", "--keys")[0].splitlines()}
    for key, (_, _, _, subject) in zip((first, again, other), SUBJECTS):
        check(f"{kind}: the subject of {subject}", keys[key]["subject"] == subject, keys[key])
        dates = [time.strftime("%Y-%m-%dT%H:%M:%SZ", time.gmtime(keys[key][name])) for name in ("not_before", "not_after")]
        check(f"{kind}: its dates", [keys[key][name] for name in ("valid_from", "valid_until")] == dates, keys[key])
        line = lines[key]
        check(f"{kind}: its line", f" from {dates[0]} to {dates[1]} " in line and line.endswith(f" subject {subject}"), line)
    [document] = keys[again]["bundles"]
    line = f"same public key: {again} of {DOMAIN} in {document}"
    one = ("--domain", DOMAIN, "--key", first)
    dry = over.run("distrust", *one, "--dry-run")[0]
    check(f"{kind}: a dry run names the other certificate", same_lines(dry) == [line], dry)
    check(f"{kind}: a dry run changes nothing", not any(key["distrusted"] for key in over.keys().values()))
    told = over.run("distrust", *one, "--verbose")[1]
    check(f"{kind}: --verbose names it", same_lines(told) == [line], told)
    check(f"{kind}: status warns of it", over.warned(1) == [{"kind": "same-key", "domain": DOMAIN, "key": again}], over.warned(1))
    line = f"warning: same-key: {DOMAIN} accepts key {again}, which has the public key of a distrusted key"
    text = over.run("status", status=1)[0]
    check(f"{kind}: as a line", line in text.splitlines(), text)
    sample = f'fedbundle_warning_info{{kind="same-key",domain="{DOMAIN}",key="{again}"}} 1'
    text = over.run("status", "--format", "prometheus", status=1)[0]
    check(f"{kind}: as a sample", sample in text.splitlines(), text)
    all_of = ("--domain", DOMAIN, "--public-key", made.digest)
    dry = over.run("distrust", *all_of, "--dry-run")[0]
    check(f"{kind}: a dry run of both leaves no other", same_lines(dry) == [], dry)
    told = over.run("distrust", *all_of)[0]
    check(f"{kind}: both are distrusted", sorted(told.splitlines()) == sorted(f"distrusted {key}" for key in (first, again)), told)
    distrusted = {key for key, told in over.keys().items() if told["distrusted"]}
    check(f"{kind}: both records are held, and no other", distrusted == {first, again}, distrusted)
    check(f"{kind}: status is silent", over.warned(1) == [], over.warned(1))
    return dry


def fall_together(kind, made, over):
    """Each of the two certificates has brought a bundle. Returns what the records change, and the keys in their order."""
    for key, text in ((made.first, bundle(2, made.first, made.again, made.other)), (made.again, bundle(3, made.other))):
        over.run("observe", "--domain", DOMAIN, "--endpoint", ENDPOINT, "--key", key_id(key), given=json.dumps(text))
    all_of = ("--domain", DOMAIN, "--public-key", made.digest)
    held = over.run("migrate")[0].splitlines()[1:-1]
    dry = over.run("distrust", *all_of, "--dry-run")[0]
    wanted = list(distrust_view(json.loads(config(made)), held, DOMAIN, *map(key_id, (made.first, made.again))))
    check(f"{kind}: the oracle has both fall", sum(line.startswith("falls ") for line in wanted) == 2, wanted)
    check(f"{kind}: a dry run says it once for both", dry.splitlines() == wanted, f"{dry} {wanted}")
    out, told = over.run("distrust", *all_of, "--verbose")
    named = [line.split()[1] for line in out.splitlines() if line.startswith("distrusted ")]
    check(f"{kind}: --verbose says the same", told == dry, told)
    check(f"{kind}: both keys are named", sorted(named) == sorted(map(key_id, (made.first, made.again))), out)
    fell = f"fell {DOMAIN} 2\n" if over.is_at else ""
    check(f"{kind}: what is printed", out == "".join(f"distrusted {key}\n" for key in named) + fell, out)
    check(f"{kind}: both records", len(over.records()) == 2, over.records())
    again = over.run("distrust", *all_of)[0]
    check(f"{kind}: a second time nothing falls", again == "".join(f"distrusted {key}\n" for key in named), again)
    return dry, named


def look_at_log(kind, folder, keys):
    """One event and one line of the audit file have both keys, and the last line of the journal is that of the last key."""
    said = [line for line in Path(folder, "log").read_text().splitlines() if line.startswith("event=distrust ")]
    check(f"{kind}: one event", said == [f"event=distrust domain={DOMAIN} key={','.join(keys)} fell=2"], said)
    lines = [json.loads(line) for line in Path(folder, "audit").read_text().splitlines()]
    lines = [{name: it for name, it in line.items() if name != "at"} for line in lines if line["event"] == "distrust"]
    last = hashlib.sha256(f'{{"distrust":"{keys[-1]}","domain":"{DOMAIN}"}}'.encode()).hexdigest()
    wanted = {"event": "distrust", "domain": DOMAIN, "key": ",".join(keys), "fell": 2, "last": last}
    check(f"{kind}: one line of the audit file", lines == [wanted], lines)


def without_room(kind, made, over):
    """There is room for one record: of two none is made, and nothing says that one is."""
    all_of = ("--domain", DOMAIN, "--public-key", made.digest)
    for more in ((), ("--dry-run",), ("--verbose",)):
        out, told = over.run("distrust", *all_of, *more, status=1)
        check(f"{kind}: no room for both {more}", out == "" and "fedbundle: G3 Full" in told.splitlines(), f"{out} {told}")
        check(f"{kind}: so none is made {more}", over.records() == [], over.records())
    over.run("distrust", "--domain", DOMAIN, "--key", key_id(made.again))
    out = over.run("distrust", *all_of, status=1)[0]
    check(f"{kind}: no room for the other", out == "" and len(over.records()) == 1, f"{out} {over.records()}")


def refuse(kind, over):
    unknown = ("--domain", DOMAIN, "--public-key", "0" * 64)
    for words in (unknown, (*unknown, "--dry-run")):
        told = over.run("distrust", *words, status=1)[1]
        check(f"{kind}: an unknown public key", told.startswith("fedbundle: no known key\n"), told)
    told = over.run("distrust", "--domain", DOMAIN, "--public-key", "abc", status=1)[1]
    check(f"{kind}: a digest that is not one", told.startswith("fedbundle: bad key\n"), told)
    over.run("distrust", *unknown, "--key", "0" * 64, status=2)
    over.run("distrust", "--domain", DOMAIN, status=2)


def main():
    with temporary() as folder, temporary() as work:
        for kind, options in KINDS.items():
            made = make(work, options)
            new_state(folder, made)
            refuse(kind, Over(folder))
            dry = play(kind, made, Over(folder))
            new_state(folder, made)
            with running(folder) as socket:
                refuse(f"{kind} --at", Over(folder, socket))
                at = play(f"{kind} --at", made, Over(folder, socket))
            check(f"{kind}: the same dry run", at == dry, f"{at} {dry}")
            new_state(folder, made)
            dry = fall_together(kind, made, Over(folder))
            new_state(folder, made)
            with running(folder, "--audit", f"{folder}/audit") as socket:
                at = fall_together(f"{kind} --at", made, Over(folder, socket))
                look_at_log(f"{kind} --at", folder, at[1])
            check(f"{kind}: they fall in the same way", at == dry, f"{at} {dry}")
            new_state(folder, made)
            without_room(kind, made, Over(folder, more=FULL))
            new_state(folder, made)
            with running(folder, *FULL) as socket:
                without_room(f"{kind} --at", made, Over(folder, socket))
    print("same_keys: " + ("as it must be" if faults == 0 else f"{faults} faults"))
    sys.exit(1 if faults else 0)


if __name__ == "__main__":
    main()

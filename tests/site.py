#!/usr/bin/env python3
"""A whole site and stand-ins for SPIRE servers: the importer, the pusher, and a hundred simulated days.

The stand-in is tests/lib/spire-server. No real SPIRE server was tried.

- import: deploy/fedbundle-import takes over relationships and bundles, with keys of each kind, from JWKS and from SPIRE's
  own message; names what it leaves out; and prints nothing if a program or a file fails.
- server: the stand-in refuses what it must, and keeps what it is given.
- days: two sites, each with a SPIRE server, a replica, a fetcher and a pusher, whose clock is simulated; four foreign domains
  with TLS servers, of which one has its endpoint in another's trust domain. All begin with what the importer prints. Keys
  roll over every ten days. Endpoints are down, a site cannot reach them, a SPIRE server loses its bundles, a replica is
  killed, a database is restored from a backup, and a key is stolen and distrusted. After each day `fedbundle bundle` says
  what a model of the trust says, and each SPIRE server has just that; or it has what it had, if the pusher holds a bundle
  back, and the day is one of those on which it has to.
- falsified: if the SPIRE server drops what it is given, and if the fetcher does nothing, the days are found wrong.

It needs python3 and openssl. The program is the one that $FEDBUNDLE names, or else the one that ./fedbundle runs.

usage: site [PART..]     runs these parts, or all; a line for each, and the status is 1 if one failed
"""
import base64
import hashlib
import importlib.machinery
import importlib.util
import json
import os
import py_compile
import socket
import subprocess
import sys
import time
import traceback
from pathlib import Path

sys.dont_write_bytecode = True
sys.path.insert(0, str(Path(__file__).resolve().parent / "lib"))
from harness import HANG, find_program, temporary  # noqa: E402
from needs import require  # noqa: E402

TOP = Path(__file__).resolve().parent.parent
DEPLOY = TOP / "deploy"
DAY = 86_400
BEGIN = 1_800_000_000


class Wrong(Exception):
    """What is not as it should be."""


def want(right, what, seen):
    if not right:
        raise Wrong(f"{what}: {seen}")


def fetch_tests():
    """The servers and certificates of tests/fetch.py."""
    loader = importlib.machinery.SourceFileLoader("fetch_tests", str(TOP / "tests/fetch.py"))
    made = importlib.util.module_from_spec(importlib.util.spec_from_loader("fetch_tests", loader))
    sys.modules["fetch_tests"] = made
    loader.exec_module(made)
    return made


TESTS = fetch_tests()
PROGRAM = ""
RUNNERS = []


class Runner:
    """A process that runs the deploy programs, each in a fork of itself with another clock: as a new Python would, without the
    time that one takes to start. It has to begin before there are threads."""

    def __init__(self):
        self.link, theirs = socket.socketpair()
        if not os.fork():
            self.link.close()
            self.serve(theirs)
            os._exit(0)
        self.lines = self.link.makefile("r")
        self.waiting = False

    def serve(self, link):
        for line in link.makefile("r"):
            script, now, folder, words = json.loads(line)
            out, into = os.pipe()
            child = os.fork()
            if not child:
                os.dup2(into, 1)
                os.dup2(into, 2)
                self.become(script, now, folder, words)
            os.close(into)
            with open(out, errors="replace") as told:
                text = told.read()
            status = os.waitstatus_to_exitcode(os.waitpid(child, 0)[1])
            link.sendall(json.dumps([status, text]).encode() + b"\n")

    def become(self, script, now, folder, words):
        status = 99
        try:
            os.chdir(folder)
            time.time, sys.argv = lambda: now, [script, *words]
            sys.path.insert(0, str(DEPLOY))
            exec(compile(Path(script).read_text(), script, "exec", dont_inherit=True), {"__name__": "__main__"})
            status = 0
        except SystemExit as end:
            status = end.code or 0
        finally:
            sys.stderr.flush()
            os._exit(status)

    def start(self, script, now, folder, words):
        self.link.sendall(json.dumps([str(script), now, str(folder), words]).encode() + b"\n")
        self.waiting = True

    def ended(self):
        """The status of what was started, and what it printed."""
        self.waiting = False
        return json.loads(self.lines.readline())


def fedbundle(*words, given=b""):
    ran = subprocess.run([PROGRAM, *map(str, words)], input=given, capture_output=True, timeout=HANG)
    return ran.returncode, ran.stdout, ran.stderr.decode()


class Spire:
    """A stand-in for a SPIRE server, in a folder."""

    def __init__(self, folder, domain="own.test", before="", words=""):
        folder.mkdir(parents=True, exist_ok=True)
        self.folder, self.store, self.path = folder, folder / "api.sock", folder / "spire-server"
        # Compiled, and without the site's packages, it starts in a third of the time.
        py_compile.compile(str(TOP / "tests/lib/spire-server"), str(folder / "spire-server.pyc"))
        self.path.write_text(f"#!/bin/sh\n{before}\nexec {sys.executable} -SE {folder}/spire-server.pyc \"$@\"\n")
        self.path.chmod(0o755)
        self.call("init", domain)

    def call(self, *words, given=b""):
        named = [*words[:2], "-socketPath", self.store, *words[2:]] if words[0] != "init" else ["init", "-socketPath", self.store, *words[1:]]
        ran = subprocess.run([self.path, *map(str, named)], input=given, capture_output=True, timeout=HANG)
        return ran.returncode, ran.stdout.decode(), ran.stderr.decode().strip()

    def must(self, *words, given=b""):
        status, told, complaint = self.call(*words, given=given)
        want(status == 0, f"{words} wanted", complaint)
        return told

    def federate(self, domain, url, endpoint, bundle=None):
        words = ["-trustDomain", domain, "-bundleEndpointURL", url, "-bundleEndpointProfile", "https_spiffe" if endpoint else "https_web"]
        words += ["-endpointSpiffeID", endpoint] if endpoint else []
        if bundle is not None:
            (self.folder / "bundle").write_text(json.dumps(bundle))
            words += ["-trustDomainBundlePath", self.folder / "bundle", "-trustDomainBundleFormat", "spiffe"]
        self.must("federation", "create", *words)

    def holds(self, domain):
        """What the server trusts of a domain: the sequence and the ids of the keys. None if it has no bundle."""
        found = json.loads(self.store.read_text())["bundles"].get(domain)
        if found is None:
            return None
        x509 = {hashlib.sha256(base64.b64decode(one["asn1"])).hexdigest() for one in found["x509_authorities"]}
        return int(found["sequence_number"]), frozenset(x509 | {one["key_id"] for one in found["jwt_authorities"]})


# ---- the importer

def bring(*words):
    """Runs the importer: its status, the configuration, and its lines."""
    ran = subprocess.run([sys.executable, DEPLOY / "fedbundle-import", "--program", PROGRAM, *map(str, words)], capture_output=True, timeout=HANG)
    want(b"Traceback" not in ran.stderr, "no traceback wanted", ran.stderr)
    return ran.returncode, json.loads(ran.stdout) if ran.stdout else None, ran.stderr.decode().splitlines()


def canon(domain, document):
    status, told, complaint = fedbundle("canon", "--domain", domain, given=json.dumps(document).encode())
    want(status == 0, "a bundle wanted", complaint)
    canonical, identity, *_ = told.decode().splitlines()
    return json.loads(canonical), identity.removeprefix("id ")


def example(name):
    return json.loads((TOP / f"examples/{name}.json").read_text())


def imported(room):
    """All that can be taken over: the seeds are what `canon` makes of the bundles, key by key."""
    spire = Spire(room / "all")
    for name in ("a.example", "b.example"):
        spire.federate(name, f"https://{name}/bundle", f"spiffe://{name}/spire/server", example(name))
    status, made, lines = bring("--spire", spire.path, "--socket", spire.store)
    want(status == 0 and len(lines) == 2 and all(": taken: " in line for line in lines), "both taken over wanted", lines)
    wanted = [{"domain": name, "endpoint": f"spiffe://{name}/spire/server", "profile": "https_spiffe", "url": f"https://{name}/bundle"}
              for name in ("a.example", "b.example")]
    want(made["relationships"] == wanted, "relationships wanted", made["relationships"])
    for seed, name in zip(made["seeds"], ("a.example", "b.example"), strict=True):
        bundle, identity = canon(name, example(name))
        want(seed == {"domain": name, "bundle": bundle}, f"the seed of {name} wanted", seed)
        want(any(line.endswith(f"seed {name} {identity}") for line in lines), "the ids wanted", lines)
    kinds = {(key["use"], key["kty"]) for seed in made["seeds"] for key in seed["bundle"]["keys"]}
    want(len(kinds) == 4, "keys of four kinds wanted", kinds)
    saved = room / "federation.json", room / "bundles.json"
    saved[0].write_text(spire.must("federation", "list", "-output", "json"))
    saved[1].write_text(spire.must("bundle", "list", "-format", "spiffe", "-output", "json"))
    seen = bring("--federation", saved[0], "--bundles", saved[1])
    want(seen == (status, made, lines), "the same of files wanted", seen)
    saved[1].write_text(json.dumps([{"trust_domain": f"spiffe://{name}", "bundle": example(name)} for name in ("a.example", "b.example")]))
    want(bring("--federation", saved[0], "--bundles", saved[1])[1] == made, "the same of a JWKS wanted", saved)


def left_out(room):
    """What cannot be taken over is named, and the rest is."""
    spire, good = Spire(room / "some"), example("a.example")
    cases = {"web.test": ("", good, "its profile is https_web, in which no earlier bundle vouches for a later one"),
             "none.test": ("spiffe://none.test/e", None, "the SPIRE server has no bundle of none.test"),
             "cross.test": ("spiffe://far.test/e", good, "the SPIRE server has no bundle of far.test"),
             "jwt.test": ("spiffe://jwt.test/e", {"keys": [key for key in good["keys"] if key["use"] == "jwt-svid"]},
                          "the bundle of jwt.test has no X.509 authority, so it authenticates no endpoint"),
             "id.test": ("spiffe://id.test/%", good, "fedbundle refuses it: C3 BadName")}
    for domain, (endpoint, bundle, _) in cases.items():
        spire.federate(domain, f"https://{domain}/", endpoint, bundle)
    spire.federate("user.test", "https://me@user.test/", "spiffe://user.test/e", good)
    spire.federate("good.test", "https://good.test/", "spiffe://good.test/e", good)
    spire.federate("far-good.test", "https://good.test/", "spiffe://good.test/e", good)
    store = json.loads(spire.store.read_text())
    store["bundles"]["cut.test"] = {**store["bundles"]["good.test"], "trust_domain": "cut.test", "x509_authorities": [{"asn1": "MIIC"}]}
    store["relationships"]["cut.test"] = {"trust_domain": "cut.test", "bundle_endpoint_url": "https://cut.test/",
                                          "https_spiffe": {"endpoint_spiffe_id": "spiffe://cut.test/e"}}
    spire.store.write_text(json.dumps(store))
    status, made, lines = bring("--spire", spire.path, "--socket", spire.store)
    wanted = {f"{domain}: left out: {why}" for domain, (_, _, why) in cases.items()}
    wanted |= {"user.test: left out: fedbundle refuses it: C4 BadUrl", "cut.test: left out: the bundle of cut.test has a key that cannot be read"}
    want(status == 1 and wanted == {line for line in lines if "taken" not in line}, "each named wanted", lines)
    want([one["domain"] for one in made["relationships"]] == ["far-good.test", "good.test"], "the rest wanted", made["relationships"])
    want({one["domain"] for one in made["seeds"]} == {"far-good.test", "good.test"}, "the seeds wanted", len(made["seeds"]))
    far = next(one for one in made["relationships"] if one["domain"] == "far-good.test")
    want(far["endpoint"] == "spiffe://good.test/e", "its endpoint wanted", far)


def refused(room):
    """If a program or a file fails, nothing is printed."""
    spire, text = Spire(room / "refusing"), room / "text"
    text.write_text("{")
    for words, told in ((("--spire", spire.path, "--socket", room / "none"), "code = Unavailable"), (("--spire", room / "none"), "could not be run"),
                        (("--federation", text, "--bundles", text), "is no JSON"), (("--federation", room / "none"), "could not be read"),
                        (("--spire", spire.path, "--socket", spire.store, "--program", room / "none"), "could not be run")):
        status, made, lines = bring(*words)
        want((status, made, len(lines)) == (3, None, 1) and told in lines[0], f"{told} wanted", (status, made, lines))
    text.write_text('{"error":1}')
    seen = bring("--federation", text, "--bundles", text)
    want(seen == (3, None, ["fedbundle-import: spire-server printed no federation_relationships"]), "a line wanted", seen)
    seen = bring("--spire", spire.path, "--socket", spire.store)
    want(seen == (0, {"relationships": [], "seeds": []}, []), "an empty configuration wanted", seen)
    want(bring("--lose")[0] == 2, "status 2 wanted", "another")


def importer(room):
    imported(room)
    left_out(room)
    refused(room)


# ---- the stand-in

def server(room):
    spire, good = Spire(room / "server"), json.dumps(example("a.example")).encode()
    (room / "good").write_bytes(good)
    put = ("bundle", "set", "-format", "spiffe", "-id")
    refusals = [(("bundle", "set", "-format", "spiffe"), good, "Error: id flag is required"),
                ((*put, "spiffe://own.test"), good, "server's own trust domain is not allowed"),
                ((*put, "spiffe://A.test"), good, "code = InvalidArgument"), ((*put, "a.test"), b"{", "unable to parse bundle data"),
                ((*put, "a.test", "-path", room / "none"), b"", "unable to load bundle data"),
                (("bundle", "set", "-lose", "1"), b"", "flag provided but not defined: -lose"),
                (("bundle", "list", "-id", "a.test"), b"", "code = NotFound desc = bundle not found"),
                (("bundle", "delete", "-id", "a.test"), b"", "bundle not found"), (("bundle", "lose"), b"", "Usage: spire-server"),
                (("federation", "create", "-trustDomain", "a.test"), b"", "bundle endpoint URL is required")]
    for words, given, told in refusals:
        status, printed, complaint = spire.call(*words, given=given)
        want((status, printed) == (1, "") and told in complaint, f"{told} of {words} wanted", (status, printed, complaint))
    want(spire.must(*put, "spiffe://a.test", "-path", room / "good") == "bundle set.\n", "a word wanted", "another")
    keys, sequence = example("a.example")["keys"], example("a.example")["spiffe_sequence"]
    ids = {hashlib.sha256(base64.b64decode(key["x5c"][0])).hexdigest() for key in keys if "x5c" in key} | {key["kid"] for key in keys if "kid" in key}
    want(spire.holds("a.test") == (sequence, ids), "the keys wanted", spire.holds("a.test"))
    for one in json.loads(spire.must("bundle", "list", "-output", "json", "-id", "a.test"))["jwt_authorities"]:
        read = subprocess.run(["openssl", "pkey", "-pubin", "-inform", "DER", "-noout"], input=base64.b64decode(one["public_key"]), capture_output=True)
        want(read.returncode == 0, "a key that openssl reads wanted", read.stderr)
    store = json.loads(spire.store.read_text())
    spire.store.write_text(json.dumps({**store, "federates": {"a.test": 2}}))
    want("federated with 2 registration entries" in spire.call("bundle", "delete", "-id", "a.test")[2], "a refusal wanted", "none")
    want(spire.must("bundle", "delete", "-id", "a.test", "-mode", "dissociate") == "bundle deleted.\n", "it deleted wanted", "")
    want(spire.holds("a.test") is None, "nothing wanted", spire.holds("a.test"))


# ---- foreign domains

class Foreign:
    """A foreign domain, with its keys and its endpoint."""

    def __init__(self, name, made, endpoint, offset):
        self.name, self.made, self.endpoint, self.offset = name, made, endpoint, offset
        self.ids, self.elements = {}, {}
        self.sequence, self.up, self.served = 0, True, None
        self.keys = [self.new_key()]
        self.signer = self.keys[0]
        self.published = []
        self.publish()

    def new_key(self):
        key = self.made.authority()
        element = key.jwk()
        self.ids[key] = hashlib.sha256(base64.b64decode(element["x5c"][0])).hexdigest()
        self.elements[key] = element
        return key

    def publish(self):
        """A bundle with the keys as they are, and a JWT key for each."""
        self.sequence += 1
        x509 = [self.elements[key] for key in self.keys]
        jwt = [{name: text for name, text in one.items() if name != "x5c"} | {"use": "jwt-svid", "kid": f"{self.name}-{number}"}
               for number, one in enumerate(x509)]
        self.served = {"keys": x509 + jwt, "spiffe_sequence": self.sequence}
        self.published.append(self.served)

    def behave(self, handler):
        TESTS.answer(json.dumps(self.served).encode(), 200 if self.up else 503)(handler)

    def show(self, signer):
        """The endpoint's certificate comes from this key from now on."""
        self.signer = signer
        leaf = self.made.leaf(signer, f"URI:{self.endpoint}")
        if not hasattr(self, "server"):
            self.server = TESTS.serve(leaf, self.behave)
        self.server.socket.context.load_cert_chain(leaf.path, leaf.key)

    def url(self):
        return f"https://127.0.0.1:{self.server.server_address[1]}/bundle"


def said(bundle):
    """What a bundle says: its sequence and the ids of its keys."""
    ids = {hashlib.sha256(base64.b64decode(key["x5c"][0])).hexdigest() if "x5c" in key else key["kid"] for key in bundle["keys"]}
    return bundle["spiffe_sequence"], frozenset(ids)


class Model:
    """What a replica has to accept, after the rules, in a few lines: what the seeds lead to by the receipts."""

    def __init__(self, seeds):
        self.seeds, self.receipts, self.distrusted = set(seeds), set(), set()

    def current(self, domain):
        accepted, before = set(self.seeds), None
        while accepted != before:
            before = set(accepted)
            accepted |= {document for voucher, key, document in self.receipts if voucher in accepted
                         and key in voucher[2] and (voucher[0], key) not in self.distrusted}
        return max(one for one in accepted if one[0] == domain)

    def fetch(self, foreign, domains):
        """Takes what the endpoint serves, if it can."""
        of = foreign.endpoint.removeprefix("spiffe://").split("/")[0]
        voucher, key = self.current(of), domains[of].ids[foreign.signer]
        document = (foreign.name, *said(foreign.served))
        if foreign.up and key in voucher[2] and (of, key) not in self.distrusted and document != self.current(foreign.name):
            self.receipts.add((voucher, key, document))

    def join(self, other):
        self.receipts |= other.receipts
        self.distrusted |= other.distrusted


# ---- the days

class Site:
    """A replica with its fetcher, its pusher and its SPIRE server."""

    def __init__(self, folder, config, spire, own, peer, model, fetcher, runner):
        self.folder, self.spire, self.model, self.fetcher, self.runner = folder, spire, model, fetcher, runner
        folder.mkdir(exist_ok=True)
        (folder / "config.json").write_text(json.dumps(config))
        self.words = ["--listen", f"127.0.0.1:{own}", "--peers", f"127.0.0.1:{peer}", "--every", "1"]
        self.log = open(folder / "log", "wb")
        self.start()

    def start(self):
        words = [PROGRAM, "replica", "--config", "config.json", "--state", "state", "--new", "--socket", "socket", *self.words]
        self.replica = subprocess.Popen(words, cwd=self.folder, stdout=subprocess.PIPE, stderr=self.log)
        want(self.replica.stdout.readline().startswith(b"ready "), "a replica wanted", (self.folder / "log").read_text()[-300:])

    def kill(self):
        self.replica.kill()
        self.replica.wait()
        self.replica.stdout.close()

    def ask(self, word, *more):
        return fedbundle(word, "--at", self.folder / "socket", *more)

    def run(self, script, day, *more):
        """Starts a deploy program on a day. Returns what waits for its end."""
        words = ["--config", "config.json", "--state", "state", "--at", "socket", "--program", PROGRAM, *map(str, more)]
        self.runner.start(script, BEGIN + day * DAY, self.folder, words)
        return self.runner.ended

    def says(self, domain):
        status, told, complaint = self.ask("bundle", "--domain", domain)
        want(status == 0, f"a bundle of {domain} wanted", complaint)
        return said(json.loads(told))


class World:
    """All that is simulated."""

    def __init__(self, room, drop="", fetcher=DEPLOY / "fedbundle-fetch"):
        keys = room / "keys"
        keys.mkdir()
        made = TESTS.Maker(keys)
        self.domains = {name: Foreign(name, made, f"spiffe://{of}/spire/server", offset)
                        for name, of, offset in (("a.test", "a.test", 3), ("b.test", "a.test", 8), ("c.test", "c.test", 6), ("d.test", "d.test", 5))}
        for one in self.domains.values():
            one.show(self.domains[one.endpoint.split("/")[2]].signer)
        spires = [self.spire(room / f"spire-{name}", drop) for name in ("one", "two")]
        config = self.config(spires)
        ports = TESTS.closed_port(), TESTS.closed_port()
        seeds = [(name, *said(one.published[0])) for name, one in self.domains.items()]
        self.sites = [Site(room / name, config, spire, *pair, Model(seeds), fetcher, runner)
                      for name, spire, pair, runner in zip(("one", "two"), spires, (ports, ports[::-1]), RUNNERS, strict=True)]
        self.backup = spires[0].store.read_text()
        self.allow, self.held = [], set()
        self.offline = set()

    def spire(self, folder, drop):
        """A SPIRE server that federates with all four, and with two domains that cannot be taken over."""
        spire = Spire(folder)
        for name, one in self.domains.items():
            spire.federate(name, one.url(), one.endpoint, one.served)
        spire.federate("web.test", "https://web.test/", "")
        spire.federate("none.test", "https://none.test/", "spiffe://none.test/e")
        if drop:
            spire.path.write_text(spire.path.read_text().replace("exec", f"{drop}\nexec", 1))
        return spire

    def config(self, spires):
        """What the importer prints of both, which is the same. Then SPIRE itself fetches nothing any more."""
        seen = [bring("--spire", spire.path, "--socket", spire.store) for spire in spires]
        want(seen[0] == seen[1] and seen[0][0] == 1, "the same of both wanted", seen)
        want([line.split(":")[0] for line in seen[0][2] if "left out" in line] == ["none.test", "web.test"], "two left out wanted", seen[0][2])
        for spire in spires:
            for name in (*self.domains, "web.test", "none.test"):
                spire.must("federation", "delete", "-id", name)
        return seen[0][1]

    def roll(self, day):
        """Each domain rolls its key over in three days of ten: both keys, the endpoint's certificate, and only the new key."""
        for one in self.domains.values():
            step = (day - one.offset) % 10
            if step == 0:
                one.next = one.new_key()
                one.keys = [*one.keys, one.next]
                one.publish()
            elif step == 1 and day > one.offset:
                for shown in self.domains.values():
                    if shown.endpoint.split("/")[2] == one.name:
                        shown.show(one.next)
                if one.endpoint.split("/")[2] != one.name:
                    one.signer = self.domains[one.endpoint.split("/")[2]].signer
            elif step == 2 and day > one.offset:
                one.keys = [one.next]
                one.publish()

    def happen(self, day):
        """What goes wrong on this day, and what operators do."""
        a, c, d = (self.domains[f"{name}.test"] for name in "acd")
        self.offline = {self.sites[1]} if 20 <= day < 26 else set()
        if day == 15:
            self.sites[0].spire.store.write_text(self.backup)
        if day == 30:
            self.sites[0].kill()
            self.sites[0].start()
        c.served = c.published[-2] if 40 <= day < 45 else c.published[-1]
        a.up = day not in (80, 81)
        if day == 60:
            self.steal(d)
        if day == 62:
            # The key that was retired before is used again, with a new one.
            d.next = d.new_key()
            d.keys = [d.retired, d.next]
            d.publish()
            d.show(d.retired)
            d.served = d.published[-1]
        self.held = {"d.test"} if 60 <= day < 63 else set()
        self.allow = ["--allow", "d.test"] if day == 63 else []

    def steal(self, d):
        """The key of d.test is distrusted on one site, and comes to the other."""
        key = d.ids[d.signer]
        d.retired = next(one for one in d.ids if d.ids[one] in said(d.published[-2])[1] and one is not d.signer)
        status, _, complaint = self.sites[0].ask("distrust", "--domain", "d.test", "--key", key)
        want(status == 0, "a record wanted", complaint)
        self.sites[0].model.distrusted.add(("d.test", key))

    def agree(self):
        """Waits until both hold the same."""
        end = time.monotonic() + HANG
        while len({site.ask("report")[1] for site in self.sites}) > 1:
            want(time.monotonic() < end, "equal reports wanted", "other ones")
            time.sleep(0.05)
        self.sites[0].model.join(self.sites[1].model)
        self.sites[1].model.join(self.sites[0].model)

    def fetch(self, day):
        running = {site: site.run(site.fetcher, day) for site in self.sites if site not in self.offline}
        for site, ended in running.items():
            status, told = ended()
            want(status in (0, 1), f"a fetcher of day {day} wanted", told)
            # The endpoint of b.test is in the trust domain of a.test.
            for name in self.domains:
                site.model.fetch(self.domains[name], self.domains)

    def push(self, day):
        """Runs both pushers, and compares what each SPIRE server trusts with what fedbundle says."""
        had = {site: {name: site.spire.holds(name) for name in self.domains} for site in self.sites}
        running = {site: site.run(DEPLOY / "fedbundle-spire", day, "--spire", site.spire.path, "--socket", site.spire.store, *self.allow)
                   for site in self.sites}
        for site, ended in running.items():
            status, told = ended()
            lines = dict(line.split(": ", 1) for line in told.splitlines())
            for name in self.domains:
                says, trusts = site.says(name), site.spire.holds(name)
                where = f"day {day}, site {site.folder.name}, {name}: {lines.get(name)}"
                if name in self.held:
                    want(lines.get(name, "").startswith("held: ") and trusts == had[site][name] != says, f"{where}: it held wanted", trusts)
                else:
                    want(trusts == says, f"{where}: {says[0]} wanted", trusts)
            want(status == (1 if self.held else 0), f"the pusher's status of day {day}", told)

    def day(self, day):
        self.roll(day)
        self.happen(day)
        self.fetch(day)
        if self.offline or day in (60, 61) or day % 25 == 24:
            self.agree()
        for site in self.sites:
            for name in self.domains:
                says, wanted = site.says(name), site.model.current(name)[1:]
                want(says == wanted, f"day {day}, site {site.folder.name}: {name} as the model has it, sequence {wanted[0]}, wanted", says[0])
        self.push(day)

    def end(self):
        for site in self.sites:
            if site.runner.waiting:
                site.runner.ended()
            site.kill()
            site.log.close()
        for one in self.domains.values():
            one.server.shutdown()
            one.server.server_close()


def days(room, length=100, **more):
    world, began = World(room, **more), time.monotonic()
    try:
        for day in range(1, length + 1):
            world.day(day)
        world.agree()
        counts = {name: one.sequence for name, one in world.domains.items()}
        held = ", but for the three days on which a bundle of d.test was held" if length >= 63 else ""
        print(f"  {length} days in {time.monotonic() - began:.0f} s: bundles published {counts}; "
              f"on each day both SPIRE servers trusted what fedbundle said{held}")
    finally:
        world.end()


def falsified(room):
    """Each has to be found within some days."""
    idle = room / "idle"
    idle.write_text("")
    for name, more in (("dropping", {"drop": '[ "$2" != set ] || { echo bundle set.; exit 0; }'}), ("idle-fetcher", {"fetcher": idle})):
        (room / name).mkdir()
        try:
            days(room / name, 9, **more)
        except Wrong as found:
            print(f"  found: {name}: {found}")
        else:
            raise Wrong(f"{name} was not found")


PARTS = {"import": importer, "server": server, "days": days, "falsified": falsified}


def main():
    global PROGRAM
    require(__file__)
    PROGRAM, failed = find_program(), 0
    RUNNERS.extend([Runner(), Runner()])
    os.environ.pop("FEDBUNDLE_VERBOSE", None)
    with temporary() as folder:
        for name, part in PARTS.items():
            if sys.argv[1:] and name not in sys.argv[1:]:
                continue
            room, began, told = Path(folder) / name, time.monotonic(), ""
            room.mkdir()
            try:
                part(room)
            except Wrong as error:
                told = f": {error}"
            except Exception:
                told = f": {traceback.format_exc()}"
            failed += bool(told)
            print(f"{'failed' if told else 'passed'}  {name} ({time.monotonic() - began:.0f} s){told}", flush=True)
    return 1 if failed else 0


if __name__ == "__main__":
    sys.exit(main())

#!/usr/bin/env python3
"""Renders deploy/kubernetes by `kubectl kustomize`, checks what comes, and runs its pods as processes. No cluster is used.

- objects: each volume, ConfigMap, port, label, service and name that one object or file names is there in another; each
  path of a command line is in a volume that its container has; the Secret has the three files that stunnel reads.
  Each command line, those of probes too, has only options that the program's --help names. With the component for health the
  address, the probes over HTTP and the port fit, too. So they do with the component for one of several sites, with its files and
  those that it says for the other sites.
- falsified: twenty changes of the rendered objects are each found so, and six of those of a site.
- pods: three pods, each a copy of this machine with a network of its own, run all five containers with the rendered words,
  files and rights, as the pod's user, under tini. A bundle that is observed in one comes to all three, whose reports are the
  same then; the probes end with 0; the pusher gives the bundle to a stand-in for a SPIRE server; a replica that is ended by
  SIGTERM is gone within a second, and comes back with what it had.
- sites: three pods of three sites, each with the files and the certificate of its own site. A bundle that is observed in one
  comes to all three; one that gets a certificate with another name is refused by the others.

It needs python3 with yaml, kubectl, and for the pods root, overlayfs, ip, stunnel4, tini and openssl. What is not there
leaves out a part, as a line says. $KUBECTL names another kubectl. The program is the one that $FEDBUNDLE names, or else the
one that ./fedbundle runs.

usage: kubernetes [PART..]     runs these parts, or all; the status is 1 if something is not so
"""
import json
import os
import re
import shutil
import signal
import subprocess
import sys
import tempfile
import time
from pathlib import Path

sys.dont_write_bytecode = True
sys.path.insert(0, str(Path(__file__).resolve().parent / "lib"))
from harness import find_program  # noqa: E402
from machine import Lacking, Machine, TOP, in_own_mounts, mount, raise_loopback  # noqa: E402
from needs import has, left_out, require, why_not  # noqa: E402
from watched_replica import has_health  # noqa: E402

try:
    import yaml
except ImportError:
    yaml = None
DEPLOY = TOP / "deploy"
SCRIPTS = ["fedbundle-every", "fedbundle-fetch", "fedbundle-spire", "fedbundle_scripts.py"]
HELPS = {}
SECRET = {"fedbundle-tls": {"tls.crt", "tls.key", "ca.crt"}}
# The sites of the component `site`, and their names in certificates.
SITES = ["one", "two", "three"]
reported = 0


def name_of(site):
    return f"{site}.replicas.internal"


def check(is_so, what):
    global reported
    print(f"{'ok:      ' if is_so else 'differs: '}{what}", flush=True)
    reported += not is_so


def render(folder=DEPLOY / "kubernetes"):
    kubectl = os.environ.get("KUBECTL", "kubectl")
    ran = subprocess.run([kubectl, "kustomize", folder], capture_output=True, text=True)
    if ran.returncode or ran.stderr:
        sys.exit(f"kubernetes: kubectl kustomize: {ran.stderr}")
    return list(yaml.safe_load_all(ran.stdout))


class Objects:
    """The rendered objects, and what is often asked of them. A site has the names of the others: without them the peers are the
    pods."""

    def __init__(self, listed, others=None):
        self.listed, self.is_site = listed, others is not None
        self.set = self.of("StatefulSet")
        self.pod = self.set["spec"]["template"]["spec"]
        self.containers = {one["name"]: one for one in self.pod["containers"]}
        self.labels = self.set["spec"]["template"]["metadata"]["labels"]
        self.maps = {one["metadata"]["name"]: one["data"] for one in listed if one["kind"] == "ConfigMap"}
        pods_ = [f"{self.set['metadata']['name']}-{number}.{self.set['spec']['serviceName']}" for number in range(self.set["spec"]["replicas"])]
        self.names = others or pods_

    def of(self, kind):
        return self.all(kind)[0]

    def all(self, kind):
        return [one for one in self.listed if one["kind"] == kind]

    def stunnel(self, name):
        """The values of a word in a file of stunnel."""
        return lambda word: re.findall(rf"^{word} = (.*)$", self.maps["fedbundle-stunnel"][name], re.M)

    def option(self, container, name):
        words = self.containers[container]["args"]
        return words[words.index(name) + 1]

    def commands(self):
        """Each command line, with the container that it runs in."""
        for name, one in self.containers.items():
            yield name, one["args"]
            for probe in ("startupProbe", "readinessProbe", "livenessProbe"):
                if "exec" in one.get(probe, {}):
                    yield name, one[probe]["exec"]["command"]

    def http_probes(self):
        """What the node asks over HTTP: the container's name, the path and the name of the port."""
        for name, one in self.containers.items():
            for probe in ("startupProbe", "readinessProbe", "livenessProbe"):
                if "httpGet" in one.get(probe, {}):
                    yield name, one[probe]["httpGet"]["path"], one[probe]["httpGet"]["port"]


# ---- the objects

def faults_of_volumes(found):
    volumes = {one["name"]: one for one in found.pod["volumes"]}
    claims = {one["metadata"]["name"] for one in found.set["spec"]["volumeClaimTemplates"]}
    mounted = {mount["name"] for one in found.containers.values() for mount in one["volumeMounts"]}
    if mounted != volumes.keys() | claims:
        yield f"volumes that are mounted and that are there differ: {sorted(mounted ^ (volumes.keys() | claims))}"
    for name, one in volumes.items():
        if "configMap" in one and one["configMap"]["name"] not in found.maps:
            yield f"the volume {name} has a ConfigMap that is not there"
        if "secret" in one and one["secret"]["secretName"] not in SECRET:
            yield f"the volume {name} has a Secret that the page does not name"
    places = {}
    for one in found.containers.values():
        for mount in one["volumeMounts"]:
            if places.setdefault(mount["mountPath"], mount["name"]) != mount["name"]:
                yield f"{mount['mountPath']} is two volumes"


def files_of(found, container):
    """The paths that the files of ConfigMaps and Secrets have in a container, and its folders that can be written."""
    volumes = {one["name"]: one for one in found.pod["volumes"]}
    files, folders = set(), []
    for mount in found.containers[container]["volumeMounts"]:
        one = volumes.get(mount["name"], {})
        named = found.maps.get(one.get("configMap", {}).get("name"), SECRET.get(one.get("secret", {}).get("secretName"), None))
        if named is None:
            folders.append(mount["mountPath"] + "/")
        else:
            files |= {f"{mount['mountPath']}/{name}" for name in named}
    return files, folders


def faults_of_paths(found):
    """Paths of command lines and of what stunnel reads which are nowhere in the container."""
    for container, words in found.commands():
        files, folders = files_of(found, container)
        paths = [word for word in words if word.startswith("/")]
        if words[0] == "stunnel4":
            paths += found.stunnel(Path(words[1]).name)("(?:cert|key|CAfile)")
        # A configuration to change from need not be there, but next to the configuration it can be.
        optional = {words[words.index("--previous") + 1]} if "--previous" in words else set()
        if {str(Path(path).parent) for path in optional} - {str(Path(path).parent) for path in files}:
            yield f"{container} has no folder for {optional.pop()}"
        for path in paths:
            if path not in files | optional and not path.startswith(tuple(folders)):
                yield f"{container} has no {path}"
        if "--state" in words and (Path(words[words.index("--state") + 1]).parent.as_posix() + "/") not in folders:
            yield f"{container} has no folder for the state"


def faults_of_ports(found):
    serve, pull = found.stunnel("serve.conf"), found.stunnel("pull.conf")
    ports = {one["name"]: one["containerPort"] for container in found.containers.values() for one in container.get("ports", [])}
    for service in (one["spec"] for one in found.all("Service")):
        if [int(one.split(":")[1]) for one in serve("accept")] != [ports.get(one["targetPort"]) for one in service["ports"]]:
            yield "the Service leads to another port than that of serve.conf"
    if serve("connect") != [found.option("replica", "--listen")]:
        yield "serve.conf leads elsewhere than the replica listens"
    if pull("accept") != found.option("replica", "--peers").split(","):
        yield "the replica's peers are not those of pull.conf"
    if pull("connect") != [f"{name}:{one['port']}" for name in found.names for one in service["ports"]]:
        yield "pull.conf does not lead to each peer"
    if pull("checkHost") != found.names or serve("checkHost") != found.names:
        yield "the names that stunnel checks are not those of the peers"
    if pull("delay") != ["yes"]:
        yield "pull.conf looks names up once alone"
    policy = found.of("NetworkPolicy")["spec"]
    named = [one["port"] for rule in policy["ingress"] + policy["egress"] for one in rule["ports"] if isinstance(one["port"], str)]
    if not {"gossip"} <= set(named) <= ports.keys():
        yield "the NetworkPolicy names a port that no container has"
    for container, path, port in found.http_probes():
        if path not in ("/live", "/ready") or found.option(container, "--health") != f"0.0.0.0:{ports.get(port)}":
            yield f"a probe of {container} asks {path} at {port}, where nothing answers"


def faults_of_labels(found):
    policy = found.of("NetworkPolicy")["spec"]
    selectors = {"StatefulSet": found.set["spec"]["selector"]["matchLabels"], "NetworkPolicy": policy["podSelector"]["matchLabels"],
                 **{one["metadata"]["name"]: one["spec"]["selector"] for one in found.all("Service")}}
    if found.is_site:
        # Peers come from outside, and nobody else does without a rule of its own.
        if [one["ports"] for one in policy["ingress"] if "from" not in one] != [[{"protocol": "TCP", "port": "gossip"}]]:
            yield "the NetworkPolicy lets in others than peers"
        if {"protocol": "TCP", "port": found.all("Service")[0]["spec"]["ports"][0]["port"]} not in policy["egress"][0]["ports"]:
            yield "the NetworkPolicy keeps the replica from its peers"
        if found.set["spec"]["replicas"] != 1 or found.all("PodDisruptionBudget"):
            yield "there is not one replica"
        if "LoadBalancer" not in [one["spec"].get("type") for one in found.all("Service")]:
            yield "no address leads to the replica from outside"
    else:
        selectors |= {"PodDisruptionBudget": found.of("PodDisruptionBudget")["spec"]["selector"]["matchLabels"],
                      "ingress": policy["ingress"][0]["from"][0]["podSelector"]["matchLabels"],
                      "egress": policy["egress"][0]["to"][0]["podSelector"]["matchLabels"]}
    for name, labels in selectors.items():
        if not labels or not labels.items() <= found.labels.items():
            yield f"{name} selects other pods"
    if found.set["spec"]["serviceName"] != found.of("Service")["metadata"]["name"]:
        yield "the Service of the set has another name"


def faults_of_rights(found):
    context = found.pod["securityContext"]
    if not context["runAsNonRoot"] or not context["runAsUser"]:
        yield "the pod runs as root"
    for name, one in found.containers.items():
        closed = one["securityContext"]
        if closed["allowPrivilegeEscalation"] or not closed["readOnlyRootFilesystem"] or closed["capabilities"] != {"drop": ["ALL"]}:
            yield f"{name} has more rights than it needs"
        if "memory" not in one["resources"].get("limits", {}) or "memory" not in one["resources"].get("requests", {}):
            yield f"{name} has no limit of memory"


def faults_of_words(found):
    """Options that a program does not have."""
    program, helps = find_program(), HELPS
    for container, words in found.commands():
        words = words[2:] if words[0] == "fedbundle-every" and float(words[1]) > 0 else words
        if words[0] == "stunnel4":
            continue
        called = tuple(words[:2]) if words[0] == "fedbundle" else (words[0],)
        if called not in helps:
            path = program if words[0] == "fedbundle" else str(DEPLOY / words[0])
            if not Path(path).exists():
                yield f"{container} runs {words[0]}, which is not in the image"
                continue
            start = [path] if path == program else [sys.executable, path]
            helps[called] = subprocess.run([*start, *called[1:], "--help"], capture_output=True, text=True)
        for word in words[len(called):]:
            if word.startswith("--") and not re.search(rf"{word}\b(?!-)", helps[called].stdout):
                yield f"{container}: {' '.join(called)} has no {word}"
        if helps[called].returncode:
            yield f"{container}: there is no {' '.join(called)}"


def faults_of(listed, others=None):
    try:
        found = Objects(listed, others)
        parts = (faults_of_volumes, faults_of_paths, faults_of_ports, faults_of_labels, faults_of_rights, faults_of_words)
        return [fault for part in parts for fault in part(found)]
    except (KeyError, IndexError, StopIteration, ValueError, TypeError) as why:
        return [f"something is missing: {why!r}"]


def objects(_room):
    found = render()
    faults = faults_of(found)
    health_component(found)
    for site in SITES:
        faults_there = faults_of(rendered_site(site), others_of(site))
        check(not faults_there, f"the objects of site {site} fit together {faults_there or ''}")
    check(not faults, f"{len(found)} objects fit together, and the programs take their words: {', '.join(sorted(one['kind'] for one in found))} {faults or ''}")


# Places in the rendered objects: for each a text there, and another in its place.
CHANGES = [('"mountPath": "/var/lib/fedbundle", "name": "state"', '"mountPath": "/var/lib/fedbundle", "name": "stat"'), ('"secretName": "fedbundle-tls"', '"secretName": "tls"'),
           ('"configMap": {"name": "fedbundle-config"}', '"configMap": {"name": "config"}'), ("/etc/fedbundle/config/config.json", "/etc/fedbundle/config.json"),
           ("/etc/fedbundle/config/previous.json", "/etc/fedbundle/previous.json"), ("8473,127.0.0.1:8474", "8473,127.0.0.1:8475"), ('"--listen", "127.0.0.1:8471"', '"--listen", "127.0.0.1:8470"'),
           ('"containerPort": 8470', '"containerPort": 8480'), ('"targetPort": "gossip"', '"targetPort": "other"'), ('"replicas": 3', '"replicas": 4'),
           ('"serviceName": "fedbundle"', '"serviceName": "replicas"'), ("fedbundle-1.fedbundle:8470", "fedbundle-1:8470"),
           ("delay = yes", "delay = no"), ("/etc/fedbundle/tls/ca.crt", "/etc/fedbundle/tls/ca.pem"), ('"--at"', '"--socket-at"'),
           ('"fedbundle-spire"', '"fedbundle-pusher"'), ('"runAsNonRoot": true', '"runAsNonRoot": false'), ('"drop": ["ALL"]', '"drop": ["NET_RAW"]'),
           ('"matchLabels": {"app.kubernetes.io/name": "fedbundle"}', '"matchLabels": {"app.kubernetes.io/name": "other"}'),
           ('"mountPath": "/run/fedbundle"', '"mountPath": "/run/other"')]


# The same of a site.
CHANGES_OF_SITE = [("connect = two.replicas.internal:8470", "connect = three.replicas.internal:8470"), ("checkHost = three.replicas.internal", "checkHost = four.replicas.internal"),
                   ("127.0.0.1:8472,127.0.0.1:8473", "127.0.0.1:8472"), ('"type": "LoadBalancer"', '"type": "ClusterIP"'), ('"replicas": 1', '"replicas": 2'),
                   ('"ports": [{"port": 8470, "protocol": "TCP"}]', '"ports": [{"port": 8480, "protocol": "TCP"}]')]


def falsified(_room):
    for listed, others, changes in ((render(), None, CHANGES), (rendered_site("one"), others_of("one"), CHANGES_OF_SITE)):
        text = json.dumps(listed)
        for before, after in changes:
            if before not in text:
                check(False, f"{before} is in the objects")
                continue
            found = faults_of(json.loads(text.replace(before, after)), others)
            check(found, f"{after}: {found[0] if found else 'no fault was found'}")


# ---- the pods

def openssl(*words):
    subprocess.run(["openssl", *map(str, words)], check=True, capture_output=True)


CURVE = ["-newkey", "ec", "-pkeyopt", "ec_paramgen_curve:P-256", "-nodes", "-days", "10"]


def make_authority(folder):
    """The authority of the replicas."""
    folder.mkdir()
    more = ["-addext", "keyUsage=critical,keyCertSign,cRLSign", "-keyout", folder / "ca.key", "-out", folder / "ca.crt"]
    openssl("req", "-x509", *CURVE, "-subj", "/CN=replicas", *more)
    return folder


def make_secret(authority, names):
    """The files of a Secret with a certificate for these names."""
    alternative, by = ",".join(f"DNS:{name}" for name in names), ["-CA", authority / "ca.crt", "-CAkey", authority / "ca.key"]
    openssl("req", "-x509", *CURVE, "-subj", "/CN=fedbundle", *by, "-addext", f"subjectAltName={alternative}",
            "-addext", "basicConstraints=critical,CA:FALSE", "-keyout", authority / "tls.key", "-out", authority / "tls.crt")
    return {name: (authority / name).read_bytes() for name in SECRET["fedbundle-tls"]}


class Pod(Machine):
    """A copy of this machine with a network of its own, in which the containers of a pod run as processes. The hosts are the names
    of all pods in their order."""

    def __init__(self, folder, found, number, secret, hosts):
        super().__init__(folder / f"pod-{number}", f"{number}")
        self.found, self.running, self.number = found, {}, number
        self.user = found.pod["securityContext"]["runAsUser"]
        self.holder = subprocess.Popen(["unshare", "--net", "sleep", "1000"])
        self.connect(number)
        known = [f"10.97.0.{10 + other} {name}\n" for other, name in enumerate(hosts)]
        (self.root / "etc/hosts").write_text("127.0.0.1 localhost\n" + "".join(known))
        for name in ["fedbundle", *SCRIPTS]:
            path = self.root / "usr/bin" / name
            text = Path(find_program() if name == "fedbundle" else DEPLOY / name).read_bytes()
            path.write_bytes(text.replace(b"/usr/bin/env python3", b"/usr/bin/python3", 1))
            path.chmod(0o755)
        self.fill(secret)

    def connect(self, number):
        """A cable to the bridge between the pods."""
        end = time.monotonic() + 300
        while os.readlink(f"/proc/{self.holder.pid}/ns/net") == os.readlink("/proc/self/ns/net") and time.monotonic() < end:
            time.sleep(0.01)
        inside = ["nsenter", f"--net=/proc/{self.holder.pid}/ns/net", "ip"]
        for words in (["ip", "link", "add", f"pod{number}", "type", "veth", "peer", "name", "eth0", "netns", str(self.holder.pid)],
                      ["ip", "link", "set", f"pod{number}", "master", "pods", "up"], [*inside, "link", "set", "lo", "up"],
                      [*inside, "addr", "add", f"10.97.0.{10 + number}/24", "dev", "eth0"], [*inside, "link", "set", "eth0", "up"]):
            subprocess.run(words, check=True)

    def fill(self, secret):
        """The volumes, at the places that the containers have them."""
        volumes = {one["name"]: one for one in self.found.pod["volumes"]}
        for path, name in {(mount["mountPath"], mount["name"]) for one in self.found.containers.values() for mount in one["volumeMounts"]}:
            at, one = self.root / path[1:], volumes.get(name, {})
            at.mkdir(parents=True, exist_ok=True)
            texts = self.found.maps.get(one.get("configMap", {}).get("name"), {})
            files = {name: text.encode() for name, text in texts.items()} | (secret if "secret" in one else {})
            if name == "config":
                files = {"config.json": (TOP / "examples/config.json").read_bytes()}
            for name, content in files.items():
                (at / name).write_bytes(content)
                (at / name).chmod(one["secret"]["defaultMode"] if "secret" in one else 0o644)
                os.chown(at / name, 0, self.user)
            if not files:
                # As fsGroup makes a volume: its group writes, too.
                os.chown(at, self.user, self.user)
                at.chmod(0o2770)

    def enter(self, name="replica"):
        """What runs a program as the container does: as its user, in the group of the pod."""
        user = self.found.containers[name].get("securityContext", {}).get("runAsUser", self.user)
        plain = ["/usr/bin/env", "-i", "PATH=/usr/sbin:/usr/bin:/sbin:/bin"]
        return ["nsenter", f"--net=/proc/{self.holder.pid}/ns/net", "chroot", f"--userspec={user}:{self.user}", self.root, *plain]

    def begin(self, name):
        """Starts a container, under the entry of the image."""
        log = open(self.folder / f"{name}.log", "ab")
        words = [*self.enter(name), "tini", "-s", "--", *self.found.containers[name]["args"]]
        self.running[name] = subprocess.Popen(words, stdin=subprocess.DEVNULL, stdout=log, stderr=log)

    def ask(self, *words, given=b"", name="replica"):
        return subprocess.run([*self.enter(name), *words], input=given, capture_output=True, timeout=300)

    def said(self, name):
        return (self.folder / f"{name}.log").read_text()

    def close(self):
        for process in [*self.running.values(), self.holder]:
            process.kill()
            process.wait()
        subprocess.run(["ip", "link", "del", f"pod{self.number}"], check=False)


def until(right, what):
    end = time.monotonic() + 300
    while not (seen := right()) and time.monotonic() < end:
        time.sleep(0.1)
    check(bool(seen), what)


def observe(pod):
    receipt = (TOP / "examples/receipts.jsonl").read_bytes().splitlines()[0]
    said = json.loads(receipt)
    document = re.sub(rb'^\{"doc":(.*),"domain":"[^"]*","endpoint":.*$', rb"\1", receipt)
    ran = pod.ask("fedbundle", "observe", "--at", "/run/fedbundle/socket", "--domain", said["domain"], "--endpoint", said["endpoint"],
                  "--key", said["key"], given=document)
    check(ran.returncode == 0, f"pod 0 observed a bundle of {said['domain']} {ran.stderr.decode().strip()}")


def put_spire(pod):
    """A stand-in for SPIRE's program and its server, at the rendered places."""
    path = pod.root / pod.found.option("spire", "--spire")[1:]
    path.parent.mkdir(parents=True, exist_ok=True)
    shutil.copy(TOP / "tests/lib/spire-server", path)
    path.write_text(path.read_text().replace("/usr/bin/env python3", "/usr/bin/python3", 1))
    path.chmod(0o755)
    store = pod.found.option("spire", "--socket")
    check(pod.ask(f"/{path.relative_to(pod.root)}", "init", "-socketPath", store, "own.test", name="spire").returncode == 0, "the stand-in for SPIRE is there")
    return pod.root / store[1:]


def first_start(pod, number):
    """Without a state a replica does not start. Then one is written."""
    words = pod.found.containers["replica"]["args"]
    if number == 0:
        ran = pod.ask("tini", "-s", "--", *words)
        check((ran.returncode, ran.stderr) == (1, b"fedbundle: no state\n"), "an empty volume keeps a replica from starting")
    new = ["fedbundle", "new", *words[2:6]]
    check(pod.ask(*new).returncode == 0, f"pod {number} has a state")
    pod.begin("replica")


def rendered_with(component, files=()):
    """The objects with a component of the base, and with other files of stunnel."""
    with tempfile.TemporaryDirectory(dir=DEPLOY, prefix=".overlay-") as folder:
        text = {"resources": ["../kubernetes"], "components": [f"../kubernetes/{component}"]}
        if files:
            text["configMapGenerator"] = [{"name": "fedbundle-stunnel", "behavior": "replace", "files": [*files]}]
        for name, content in {**dict(files), "kustomization.yaml": json.dumps(text)}.items():
            (Path(folder) / name).write_text(content)
        return render(folder)


def others_of(site):
    """The names of the other sites."""
    return [name_of(other) for other in SITES if other != site]


def rendered_site(site):
    """The objects of a site: with the files of site one, changed as they say."""
    first, second = (other for other in SITES if other != site)
    files = {}
    for name in ("pull.conf", "serve.conf"):
        text = (DEPLOY / "kubernetes/site" / name).read_text()
        files[name] = re.sub(r"\b(two|three)(?=\.replicas|\])", lambda found: {"two": first, "three": second}[found[1]], text)
    return rendered_with("site", files)


def first_start_component():
    """The component for the first start adds one argument."""
    plain, first = (Objects(found).containers["replica"]["args"] for found in (render(), rendered_with("first-start")))
    check(first == [*plain, "--new"], "the component for the first start adds --new, and nothing else")


def health_component(plain):
    """The component for health adds the address, and probes and a rule that lead to it. Its changes are found, too."""
    listed = rendered_with("health")
    lacking = set() if has_health(find_program()) else {"replica: fedbundle replica has no --health"}
    for lack in lacking:
        left_out("a part of the component for health", lack)
    faults = set(faults_of(listed)) - lacking
    words = Objects(listed).containers["replica"]["args"]
    check(words == [*Objects(plain).containers["replica"]["args"], "--health", "0.0.0.0:9463", "--listen-anywhere"] and not faults,
          f"the component for health adds the address, and its probes lead there {sorted(faults) or ''}")
    probes = sorted(path for _, path, _ in Objects(listed).http_probes())
    check(probes == ["/live", "/live", "/ready"], "its three probes ask /live and /ready")
    for before, after in [('"0.0.0.0:9463"', '"0.0.0.0:9464"'), ('"containerPort": 9463', '"containerPort": 9464'), ('"path": "/ready"', '"path": "/reddy"'),
                          ('"port": "health", "protocol"', '"port": "helth", "protocol"')]:
        text = json.dumps(listed)
        found = set(faults_of(json.loads(text.replace(before, after)))) - lacking
        check(before in text and found, f"{after}: {sorted(found)[0] if found else 'no fault was found'}")


def cannot_change(pod):
    """The pusher's user reaches the socket at which nothing can be changed, and not the other one."""
    words = ["--domain", "a.example", "--key", "0" * 64]
    ran = pod.ask("fedbundle", "distrust", "--at", "/run/fedbundle/read", *words, name="spire")
    check((ran.returncode, ran.stderr) == (1, b"fedbundle: read only\n"), f"the pusher may change nothing {ran.stderr}")
    ran = pod.ask("fedbundle", "bundle", "--at", "/run/fedbundle/socket", "--domain", "a.example", name="spire")
    check(ran.returncode == 3, f"nor reach the other socket {ran.stderr}")


def together(pods_, found):
    store = put_spire(pods_[0])
    observe(pods_[0])
    for pod in pods_:
        for name in found.containers:
            if name not in pod.running:
                pod.begin(name)

    def reports():
        return {pod.ask("fedbundle", "report", "--at", "/run/fedbundle/socket").stdout for pod in pods_}
    until(lambda: len(reports()) == 1 and b"\nreceipts 1 " in next(iter(reports())), "three pods report the same, with the receipt")
    probes = [pod.ask(*one[probe]["exec"]["command"]).returncode for pod in pods_ for one in found.containers.values()
              for probe in ("startupProbe", "readinessProbe", "livenessProbe") if probe in one]
    check(probes == [0] * 9, f"nine probes end with 0: {probes}")
    until(lambda: set(json.loads(store.read_text())["bundles"]) == {"a.example", "b.example"}, "the pusher gave both bundles to the stand-in for SPIRE")
    cannot_change(pods_[0])
    until(lambda: "a.example: failed: " in pods_[0].said("fetch"), "the fetcher ran, and said that the endpoints of the examples are not there")


def ending(pod):
    """SIGTERM to tini, as a cluster ends a container."""
    for name in ("replica", "fetch", "spire", "tls-serve", "tls-pull"):
        began = time.monotonic()
        pod.running[name].send_signal(signal.SIGTERM)
        pod.running[name].wait(300)
        took = time.monotonic() - began
        # A cluster waits thirty seconds.
        check(took < 25, f"{name} ends {took:.2f} s after SIGTERM, with status {pod.running.pop(name).returncode}")
    check(pod.ask(*pod.found.containers["replica"]["livenessProbe"]["exec"]["command"]).returncode == 3, "then the probe fails")
    pod.begin("replica")
    until(lambda: b"\nreceipts 1 " in pod.ask("fedbundle", "report", "--at", "/run/fedbundle/socket").stdout, "the pod comes back with what it had")


def pods(room):
    for tool in ("ip", "stunnel4", "tini", "openssl"):
        if not has(tool):
            raise Lacking(why_not(tool))
    first_start_component()
    found = Objects(render())
    secret = make_secret(make_authority(room / "secret"), found.names)
    with Pods(room, [(found, secret)] * len(found.names), found.names) as made:
        together(made, found)
        ending(made[2])


class Pods:
    """Pods with these objects and Secrets on one bridge, until the end of a `with`. All replicas answer."""

    def __init__(self, room, wanted, hosts):
        self.room, self.wanted, self.hosts, self.made = room, wanted, hosts, []

    def __enter__(self):
        subprocess.run(["ip", "link", "add", "pods", "type", "bridge"], check=True)
        subprocess.run(["ip", "link", "set", "pods", "up"], check=True)
        for found in {id(found): found for found, _ in self.wanted}.values():
            found.containers["replica"]["args"] += ["--every", "1"]
        try:
            for number, (found, secret) in enumerate(self.wanted):
                self.made.append(Pod(self.room, found, number, secret, self.hosts))
                first_start(self.made[-1], number)
            probe = ("fedbundle", "polls", "--at", "/run/fedbundle/socket", "--now", "0")
            until(lambda: all(pod.ask(*probe).returncode == 0 for pod in self.made), "three replicas answer")
        except BaseException:
            self.__exit__()
            raise
        return self.made

    def __exit__(self, *_):
        if reported:
            logs = [(path, line) for pod in self.made for path in sorted(pod.folder.glob("*.log")) for line in path.read_text().splitlines()[-3:]]
            print("".join(f"  {path}: {line}\n" for path, line in logs), end="")
        for pod in self.made:
            pod.close()
        subprocess.run(["ip", "link", "del", "pods"], check=True)


def sites(room):
    for tool in ("ip", "stunnel4", "tini", "openssl"):
        if not has(tool):
            raise Lacking(why_not(tool))
    authority = make_authority(room / "secret")
    found = [Objects(rendered_site(site), others_of(site)) for site in SITES]
    wanted = [(one, make_secret(authority, [name_of(site)])) for one, site in zip(found, SITES)]
    with Pods(room, wanted, [name_of(site) for site in SITES]) as made:
        observe(made[0])
        for pod in made:
            for name in ("tls-serve", "tls-pull"):
                pod.begin(name)

        def reports():
            return {pod.ask("fedbundle", "report", "--at", "/run/fedbundle/socket").stdout for pod in made}
        until(lambda: len(reports()) == 1 and b"\nreceipts 1 " in next(iter(reports())), "three sites report the same, with the receipt")
        peers = [re.findall(r"^peer (\S+) ended-well \d", pod.ask("fedbundle", "status", "--at", "/run/fedbundle/socket").stdout.decode(), re.M) for pod in made]
        check(all(peers), f"each had a session that ended well: {peers}")
        refuses_stranger(made[2], make_secret(authority, [name_of("four")]))


def refuses_stranger(pod, secret):
    """A certificate of the authority with a name that no site expects does not reach the others."""
    pod.running["tls-pull"].terminate()
    pod.running.pop("tls-pull").wait(300)
    for name, content in secret.items():
        (pod.root / "etc/fedbundle/tls" / name).write_bytes(content)
    pod.begin("tls-pull")

    def faults():
        return re.findall(r"^peer \S+ ended-well \d+ fault (S\d+)", pod.ask("fedbundle", "status", "--at", "/run/fedbundle/socket").stdout.decode(), re.M)
    until(lambda: len(faults()) == 2, "a certificate with another name reaches neither of the others")


PARTS = {"objects": objects, "falsified": falsified, "pods": pods, "sites": sites}


def main():
    words = sys.argv[1:]
    if words[:1] != ["inside"]:
        require(__file__)
        # So that nothing is unpacked inside.
        os.environ["FEDBUNDLE"] = find_program()
        sys.exit(in_own_mounts(__file__, words))
    folder = Path(words[1])
    mount("tmpfs", "mode=755", folder)
    raise_loopback()
    for name, part in PARTS.items():
        if not words[2:] or name in words[2:]:
            began, room = time.monotonic(), folder / name
            room.mkdir()
            try:
                part(room)
            except Lacking as lack:
                left_out(name, lack)
            print(f"-- {name}: {time.monotonic() - began:.0f} s", flush=True)
    print(f"{reported} things are not so")
    sys.exit(1 if reported else 0)


if __name__ == "__main__":
    main()

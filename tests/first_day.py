#!/usr/bin/env python3
"""Follows docs/INSTALL.md, and "Without a daemon" of docs/OPERATING.md: from two empty machines to two replicas that agree.

A machine is a copy of this one, in which all changes are thrown away: an overlay over its root, and a change of root. Both
have one network, so the second reaches the first over loopback. The foreign domain is a TLS server of tests/fetch.py. The
commands are those of the pages, block by block, and are counted. The first ones make and install the package, and write the
configuration and a state. Then one machine serves a session without a daemon, and the other one pulls. At last both follow
INSTALL to its checks: tests/lib/systemctl stands in for systemd, and the replicas reach each other without stunnel, at ports of
their own.

It needs root, Linux with overlayfs, Debian 12 with dpkg-deb, apt-get and systemd, python3 and openssl. The program is the
one in the archive of dist/.

usage: first_day       prints each command with its seconds; the status is 1 if one failed
"""
import importlib.machinery
import importlib.util
import json
import re
import shutil
import sys
import time
from pathlib import Path

sys.dont_write_bytecode = True
sys.path.insert(0, str(Path(__file__).resolve().parent / "lib"))
from machine import Machine, TOP, in_own_mounts, mount, raise_loopback  # noqa: E402

INSTALL, OPERATING = TOP / "docs/INSTALL.md", TOP / "docs/OPERATING.md"


def fetch_tests():
    """The servers and certificates of tests/fetch.py."""
    loader = importlib.machinery.SourceFileLoader("fetch_tests", str(TOP / "tests/fetch.py"))
    made = importlib.util.module_from_spec(importlib.util.spec_from_loader("fetch_tests", loader))
    sys.modules["fetch_tests"] = made
    loader.exec_module(made)
    return made


def blocks(page, title, kind="sh"):
    """The commands of each block of a section."""
    section = page.read_text().split(f"\n## {title}\n")[1].split("\n## ")[0].split("\n### ")[0]
    return [block.replace("\\\n", " ").strip().split("\n") for block in re.findall(rf"```{kind}\n(.*?)```", section, re.S)]


def daemons(*machines):
    """Follows steps 3 to 6 of INSTALL: both machines start, have a session with each other, and pass the checks."""
    options = blocks(INSTALL, "4. Options", "ini")[0][0]
    for number, machine in enumerate(machines):
        machine.run("mkdir -p /etc/stunnel", quiet=True)
        own, other = 8471 + number, 8472 - number
        text = options.replace("8472,127.0.0.1:8473", str(other)).replace("--listen 127.0.0.1:8471", f"--listen 127.0.0.1:{own}")
        machine.path("/etc/default/fedbundle").write_text(f"{text.replace('9463', str(9463 + number))}\n")
        machine.path("/etc/more-words").write_text("--every 1\n")
        shutil.copy(TOP / "tests/lib/systemctl", machine.path("/usr/local/sbin/systemctl"))
        # The package is of the last release, whose units may not be these.
        for unit in (TOP / "deploy").glob("*.[st]*"):
            text = unit.read_text().replace("/usr/local/bin/fedbundle", "/usr/bin/fedbundle")
            machine.path(f"/etc/systemd/system/{unit.name}").write_text(text)
        for command in [*blocks(INSTALL, "3. TLS between replicas")[0], *blocks(INSTALL, "5. Start")[0]]:
            if "stunnel@" not in command:
                machine.run(command)
    looks, end = blocks(INSTALL, "6. Check")[0], time.monotonic() + 300
    while True:
        told = [[machine.attempt(command).stdout for command in looks] for machine in machines]
        well = [re.search(r"^peer \S+ ended-well \d", status, re.M) and "\nwarning" not in status and " sequence 2 " in status for status, _ in told]
        if all(well) and told[0][1] == told[1][1]:
            break
        if time.monotonic() > end:
            sys.exit(f"the checks of the page do not pass: {told}")
        time.sleep(0.5)
    for machine in machines:
        machine.run("systemctl stop fedbundle-replica.service", quiet=True)


def follow(folder):
    """Follows the page. All mounts are of this process's own name space, and are gone when it ends."""
    mount("tmpfs", "mode=755", folder)
    raise_loopback()
    tests = fetch_tests()
    (folder / "keys").mkdir()
    made = tests.Maker(folder / "keys")
    authority, later = made.authority(), made.authority()
    server = tests.serve(made.leaf(authority), tests.serves(tests.bundle(2, authority, later)))
    relationship = {"domain": "b.test", "endpoint": tests.ENDPOINT, "profile": "https_spiffe",
                    "url": f"https://127.0.0.1:{server.server_address[1]}/bundle"}
    seed = {"domain": "b.test", "bundle": tests.bundle(1, authority)}
    config = {"relationships": [relationship], "seeds": [seed]}
    one, two = (Machine(folder / name, name) for name in ("one", "two"))
    for machine in (one, two):
        (machine.root / str(TOP)[1:] / "config.json").write_text(json.dumps(config))
        # The manual's index would be rebuilt, which takes half a minute.
        (machine.root / "var/lib/man-db/auto-update").unlink(missing_ok=True)
    began = time.monotonic()
    each = [*blocks(INSTALL, "1. The program")[0], *blocks(INSTALL, "2. The configuration")[-1]]
    first, second, looks = blocks(OPERATING, "Without a daemon")[1:]
    for machine in (one, two):
        for command in each:
            machine.run(command)
    for command in first[:-1]:
        one.run(command)
    serving = one.start(first[-1])
    time.sleep(1)
    for command in second:
        two.run(command)
    reports = [[machine.run(command) for command in looks] for machine in (one, two)]
    took = time.monotonic() - began
    serving.wait(timeout=600)
    if reports[0] != reports[1] or "sequence 2" not in reports[0][0]:
        sys.exit(f"the replicas differ: {reports}")
    print(reports[0][0], end="")
    count = 2 * len(each) + len(first) + len(second) + 2 * len(looks)
    print(f"{count} commands in {took:.0f} s: two replicas hold the same, and the bundle that was fetched is current")
    daemons(one, two)
    print("two daemons pass the checks of the page")


def main():
    if sys.argv[1:2] == ["inside"]:
        follow(Path(sys.argv[2]))
        return
    sys.exit(in_own_mounts(__file__, []))


if __name__ == "__main__":
    main()

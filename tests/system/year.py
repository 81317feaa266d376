#!/usr/bin/env python3
"""A simulated year of two replicas, which retire each month what is old.

100 trust domains have three servers each, and each server changes its key four times a day: 1,200 changes of a bundle a
day, and 36,000 a month. Each change is a receipt, whose voucher is the bundle before. One of the replicas, the other, or
both get it, as lines of a snapshot, and they pull from each other. In the middle of each month both go over to the
configuration that `reseed --floors` prints.

- After each day both report the same, byte for byte, and what this script says that they have to, which it computes by
  itself.
- Both print the same new configuration, which is the one that this script computes; each receipt that is left out is below
  a floor, and as many stay as `reseed` said: one of each domain.
- A replica never holds more receipts than came since the last change, and one of each domain.
- In the last month one replica is away. It misses a change of the configuration. After the last day it carries its old
  state over to the present configuration, pulls, and reports what the other one does.

It needs python3 and nothing else. The program is the one that ./fedbundle runs, or the one that $FEDBUNDLE names. The whole
year takes some ten minutes.

usage: year [--months N] [--days N] [--domains N]     so many months, 12 if left out, of so many days, 30 if left out, and so
                                                      many domains, 100 if left out; the status is 1 where something is wrong
"""
import argparse
import base64
import hashlib
import random
import subprocess
import sys
import time
from pathlib import Path

sys.dont_write_bytecode = True
sys.path.insert(0, str(Path(__file__).resolve().parent.parent / "lib"))
from harness import HANG, find_program, listener_of_own, shown, stop, temporary# noqa: E402

SERVERS, CHANGES = 3, 4


def sha256(data):
    return hashlib.sha256(data).hexdigest()


def want(what, right, *seen):
    if not right:
        stop(f"{what}: {', '.join(shown(value) for value in seen)}")


# ---- the domains


def authority(der):
    return '{"e":"AQAB","kty":"RSA","n":"AQAB","use":"x509-svid","x5c":["%s"]}' % base64.b64encode(der).decode()


class Domain:
    """A trust domain: the certificates of its servers, its present bundle, and which bundles a replica accepts."""

    def __init__(self, number, chance):
        self.name = f"d{number:04}.example"
        self.endpoint = f"spiffe://{self.name}/bundle"
        self.chance = chance
        self.certificates = [chance.randbytes(12) for _ in range(SERVERS)]
        self.sequence = 0
        self.publish()
        self.accepted = [self.present()]

    def publish(self):
        keys = ",".join(sorted(authority(der) for der in self.certificates))
        self.sequence += 1
        self.text = '{"keys":[%s],"spiffe_sequence":%d}' % (keys, self.sequence)
        self.id = sha256(f"{self.name}\n{self.text}".encode())

    def present(self):
        return f"{self.id} sequence {self.sequence}"

    def change(self):
        """A server has a new key: the line of the receipt, for which another server's key vouches."""
        changed, other = self.chance.sample(range(SERVERS), 2)
        voucher, key = self.id, sha256(self.certificates[other])
        self.certificates[changed] = self.chance.randbytes(12)
        self.publish()
        self.accepted.append(self.present())
        return ('{"doc":%s,"domain":"%s","endpoint":"%s","key":"%s","voucher":"%s"}'
                % (self.text, self.name, self.endpoint, key, voucher))

    def relationship(self):
        return ('{"domain":"%s","endpoint":"%s","profile":"https_spiffe","url":"https://%s/"}'
                % (self.name, self.endpoint, self.name))

    def report_lines(self):
        yield f"domain {self.name}"
        yield f"  current {self.accepted[-1]}"
        yield from (f"  accepted {bundle} authorities {SERVERS}" for bundle in self.accepted)


def config_text(domains, with_floors):
    """The canonical text whose seeds are the present bundles, and whose floors are their sequences."""
    floors = ",".join(f'"{d.name}":{d.sequence}' for d in domains)
    relationships = ",".join(d.relationship() for d in domains)
    seeds = ",".join(f'{{"bundle":{d.text},"domain":"{d.name}"}}' for d in domains)
    start = f'"floors":{{{floors}}},' if with_floors else ""
    return f'{{{start}"relationships":[{relationships}],"seeds":[{seeds}]}}'


# ---- the replicas


class Replica:
    """A replica that runs, in a folder of its own."""

    def __init__(self, program, folder, own, other):
        self.program, self.folder, self.own, self.other = program, folder, own, other
        self.configs = 0
        self.process = None
        folder.mkdir()

    def file(self, kind):
        return f"{kind}-{self.configs}"

    def run(self, *words, text=None):
        return subprocess.run([self.program, *words], input=text, capture_output=True, cwd=self.folder, timeout=HANG)

    def at(self, *words, text=None):
        ran = self.run(words[0], "--at", "socket", *words[1:], text=text)
        want(" ".join(words), ran.returncode == 0, ran.returncode, ran.stderr)
        return ran

    def start(self):
        """Starts it, and returns how many receipts it says that it holds."""
        words = ["replica", "--config", self.file("config"), "--state", self.file("state"), "--socket", "socket", "--new",
                 "--listen", self.own, "--peers", self.other, "--every", "1"]
        self.log = open(self.folder / "log", "ab")
        self.process = subprocess.Popen([self.program, *words], cwd=self.folder, stdin=subprocess.DEVNULL,
                                        stdout=subprocess.PIPE, stderr=self.log)
        ready = self.process.stdout.readline().split()
        want("start", len(ready) == 6, ready, (self.folder / "log").read_bytes()[-400:])
        self.digest = ready[1].decode()
        return int(ready[3])

    def stop(self):
        self.at("stop")
        want("stop", self.process.wait(HANG) == 0)
        self.process.stdout.close()
        self.log.close()
        self.process = None

    def take(self, lines):
        """Merges receipts, as lines of a snapshot."""
        text = "\n".join([f'{{"config":"{self.digest}","format":2}}', *sorted(lines),
                          f'{{"count":{len(lines)},"distrusts":0}}', ""])
        self.at("merge", text=text.encode())

    def reseed(self):
        """The new configuration, how many receipts stay under it, and how many there are."""
        ran = self.at("reseed", "--floors")
        line = ran.stderr.split()
        want("reseed, what stays", ran.stderr.startswith(b"receipts that stay: ") and len(line) == 6, ran.stderr)
        return ran.stdout, int(line[3]), int(line[5])

    def carry_over(self, text):
        """Carries the state of the stopped replica over to another configuration; how many receipts that left out."""
        old = self.file("config"), self.file("state")
        self.configs += 1
        (self.folder / self.file("config")).write_bytes(text)
        ran = self.run("migrate", "--config", old[0], "--state", old[1], "--to", self.file("config"))
        left = ran.stderr.splitlines()
        want("migrate, status", ran.returncode == (1 if left else 0), ran.returncode, left[-3:])
        want("migrate, what is left out", all(line.endswith(b": below floor") for line in left), left[-3:])
        (self.folder / self.file("state")).write_bytes(ran.stdout)
        return len(left)


# ---- the year


class Year:
    def __init__(self, program, above, options):
        chance = random.Random("a year")
        self.chance = chance
        self.domains = [Domain(number, chance) for number in range(options.domains)]
        addresses = [free_address() for _ in range(2)]
        self.replicas = [Replica(program, above / f"replica-{n}", addresses[n], addresses[1 - n]) for n in range(2)]
        self.running = list(self.replicas)
        # How many receipts came since the last change, and how many stayed then, which nothing vouches for.
        self.came, self.stayed = 0, 0
        self.all, self.most, self.changes = 0, 0, 0

    def begin(self):
        text = config_text(self.domains, False).encode()
        self.digest = sha256(text)
        for replica in self.replicas:
            (replica.folder / replica.file("config")).write_bytes(text)
            want("the first start", replica.start() == 0)
            want("the first start, digest", replica.digest == self.digest, replica.digest, self.digest)

    def day(self):
        """All changes of a day, in some order, and whom they reach first."""
        turns = self.domains * (SERVERS * CHANGES)
        self.chance.shuffle(turns)
        brought = [[] for _ in self.running]
        for domain in turns:
            line = domain.change()
            for lines in self.chance.choice([*([lines] for lines in brought), brought]):
                lines.append(line)
        for replica, lines in zip(self.running, brought):
            replica.take(lines)
        self.came += len(turns)
        self.all += len(turns)
        self.compare()

    def report(self):
        """What each replica has to report."""
        lines = [f"config {self.digest}", f"receipts {self.came + self.stayed} pending {self.stayed}"]
        for domain in self.domains:
            lines += domain.report_lines()
        return "".join(f"{line}\n" for line in lines).encode()

    def compare(self):
        """Waits until each replica that runs has all, and compares the reports."""
        wanted, end = self.report(), time.monotonic() + HANG
        self.most = max(self.most, self.came + self.stayed)
        for replica in self.running:
            while (seen := replica.at("report").stdout) != wanted:
                want("reports", time.monotonic() < end and is_below(seen, wanted), seen[:200], wanted[:200])
                time.sleep(0.05)

    def change(self):
        """Both that run go over to a new configuration, which has the present bundles as seeds and floors."""
        text = config_text(self.domains, True).encode()
        held, stay = self.came + self.stayed, min(len(self.domains), self.came)
        for replica in self.running:
            want("reseed", replica.reseed() == (text, stay, held), replica.reseed()[1:], (stay, held))
        self.digest, self.text = sha256(text), text
        for domain in self.domains:
            domain.accepted = [domain.present()]
        for replica in self.running:
            replica.stop()
            left = replica.carry_over(text)
            want("left out", left == held - stay, left, held - stay)
            started = replica.start()
            want("started with what stays", started == stay, started, stay)
            want("the new digest", replica.digest == self.digest, replica.digest, self.digest)
        self.came, self.stayed = 0, stay
        self.changes += 1
        self.compare()

    def leave(self):
        self.running.pop().stop()

    def come_back(self):
        """The one that was away carries its old state over, and pulls all that it missed."""
        replica = self.replicas[-1]
        left = replica.carry_over(self.text)
        started = replica.start()
        want("back, its old receipts are below the floors", left > 0 and started <= len(self.domains), left, started)
        self.running.append(replica)
        self.compare()
        return left, self.came + self.stayed - started


def free_address():
    listener, port = listener_of_own()
    listener.close()
    return f"127.0.0.1:{port}"


def is_below(seen, wanted):
    """Whether the report is of as many receipts as are wanted, or of fewer."""
    counts = [text.split(b"\n", 2) for text in (seen, wanted)]
    return counts[0][0] == counts[1][0] and int(counts[0][1].split()[1]) < int(counts[1][1].split()[1])


def play(program, options):
    began = time.monotonic()
    with temporary() as above:
        year = Year(program, Path(above), options)
        try:
            year.begin()
            for month in range(options.months):
                for day in range(options.days):
                    if (month, day) == (options.months - 1, 0):
                        year.leave()
                    year.day()
                    if day == options.days // 2:
                        year.change()
                took = time.monotonic() - began
                print(f"month {month + 1}: {year.all} changes of bundles, at most {year.most} receipts held, {took:.0f} s", flush=True)
            left, pulled = year.come_back()
            print(f"the replica that was away left out {left} receipts, and pulled {pulled}")
            for replica in year.replicas:
                replica.stop()
        finally:
            for replica in year.replicas:
                if replica.process:
                    replica.process.kill()
    bound = options.days * len(year.domains) * SERVERS * CHANGES + len(year.domains)
    want("what is held", year.most <= bound, year.most, bound)
    print(f"ok: {options.months * options.days} days, {year.changes} changes of the configuration, reports equal after each day; "
          f"at most {year.most} receipts held, where a month brings {bound - len(year.domains)}")


def main():
    parser = argparse.ArgumentParser(usage="year [--months N] [--days N] [--domains N]")
    for name, number in [("months", 12), ("days", 30), ("domains", 100)]:
        parser.add_argument(f"--{name}", type=int, default=number)
    play(find_program(), parser.parse_args())


if __name__ == "__main__":
    main()

#!/usr/bin/env python3
"""Runs a replica with clients and peers that want much, and looks at how long the others wait.

- `reports`: thirty clients ask together for a report of a full store, or ten for a dry run of a distrust. A `bundle` that is
  asked for after them does not wait for all of them.
- `disk`: each sync of the disk takes 0.3 seconds, and two clients observe one bundle after another. A `bundle` mostly waits
  for one sync, and not for two.
- `table`: others hold as many connections as there may be, and make new ones for those that they lose. Honest pulls end
  well, and a request of this machine is answered.
- `sessions`: a peer that sends a byte a second, one that says nothing, one that is stopped and one that sends without an end
  run next to a good one, whose record is there within three times `--every`.
- `room`: sixty clients ask for a large bundle and do not read it, and six send a large input. Those are answered that
  fit into `--most-request-bytes`, and the others are refused with `too many requests`.
- `readers`: sixty-four clients at the socket of --read-socket ask for a large bundle and do not read it. One who wants to
  change something finds a place, and bytes, at the other socket.
- `gone`: four thousand connections are made and closed at each address. What comes after them is answered within half a second.
- `flood`: thousands of connections that are cut, and others that say nothing right, make few lines of the log, which say how
  many there were.

It needs python3 and cc. The program is the one that ./fedbundle runs, or the one that $FEDBUNDLE names.

usage: turns [PART..]   all parts if left out; the status is 1 if something is wrong. $FEDBUNDLE_RECEIPTS says how many
    receipts the store has, 65,536 if it is not set.
"""
import hashlib
import json
import os
import signal
import socket
import struct
import subprocess
import sys
import threading
import time
from pathlib import Path

sys.dont_write_bytecode = True
HERE = Path(__file__).resolve().parent
sys.path.insert(0, str(HERE.parent / "lib"))
from harness import find_program, listener_of_own, temporary  # noqa: E402
import replica as running  # noqa: E402

DOMAIN, KEY, OTHER_DER, Replica = running.DOMAIN, running.KEY, running.OTHER_DER, running.Replica
faults, free_address, want, within = running.faults, running.free_address, running.want, running.within

# This many receipts make a full store; a program that is built with checks takes long for as many.
FULL = int(os.environ.get("FEDBUNDLE_RECEIPTS", 65_536))
SERVED = 48
SYNC = 0.3


def fill(replica, count=FULL):
    """Gives it this many receipts, all by the configured key."""
    line = replica.observe(2)[1].decode()
    lines = sorted(line.replace('"spiffe_sequence":2}', '"spiffe_sequence":%d}' % number) for number in range(2, count + 2))
    head = '{"config":"%s","format":2}\n' % replica.ready.split()[1].decode()
    text = head + "".join(lines) + '{"count":%d,"distrusts":0}\n' % count
    seen = replica.run_at("merge", text=text.encode())
    want("a full store", seen.returncode == 0 and seen.stdout == b"new %d\n" % (count - 1), seen)


def begin(replica, *words):
    """A request that is whole, whose reply nobody has read yet."""
    stream = socket.socket(socket.AF_UNIX)
    stream.connect(str(replica.socket))
    stream.sendall(json.dumps(words).encode() + b"\n")
    stream.shutdown(socket.SHUT_WR)
    return stream


def seconds_of(action):
    begun = time.monotonic()
    action()
    return time.monotonic() - begun


def reports(program, above):
    with Replica(program, above / "reports") as replica:
        fill(replica)
        said = []
        for count, words in (30, ["report"]), (10, ["distrust", "--domain", DOMAIN, "--key", KEY, "--dry-run"]):
            lone = min(seconds_of(lambda: replica.ask(*words)) for _ in range(3))
            longest = 0
            for _ in range(3):
                streams = [begin(replica, *words) for _ in range(count)]
                time.sleep(0.02)
                longest = max(longest, seconds_of(lambda: replica.ask("bundle", "--domain", DOMAIN)))
                for stream in streams:
                    stream.close()
                within(20, lambda: replica.ask("bundle", "--domain", DOMAIN) is not None)
            want(f"a bundle beside {count} of {words[0]}", longest < 4 * lone + 0.1, longest, lone)
            said.append(f"{1000 * longest:.0f} ms beside {count} of {words[0]}, each of which takes {1000 * lone:.0f} ms")
        return "the longest bundle took " + ", and ".join(said)


SLOW_SYNC = """
#define _GNU_SOURCE
#include <dlfcn.h>
#include <time.h>
int fdatasync(int file) {
    struct timespec wait = {0, 300000000};
    nanosleep(&wait, 0);
    return ((int (*)(int))dlsym(RTLD_NEXT, "fdatasync"))(file);
}
"""


def disk(program, above):
    source, library = above / "slow.c", above / "slow.so"
    source.write_text(SLOW_SYNC)
    subprocess.run(["cc", "-O2", "-fPIC", "-shared", "-o", library, source, "-ldl"], check=True)
    with Replica(program, above / "disk", environment={"LD_PRELOAD": str(library)}) as replica:
        ended = threading.Event()

        def observe(first):
            sequence = first
            while not ended.is_set():
                replica.observe(sequence)
                sequence += 2

        writers = [threading.Thread(target=observe, args=(first,)) for first in (2, 3)]
        for writer in writers:
            writer.start()
        time.sleep(2 * SYNC)
        took = []
        for _ in range(15):
            took.append(seconds_of(lambda: replica.ask("bundle", "--domain", DOMAIN)))
            time.sleep(0.07)
        ended.set()
        for writer in writers:
            writer.join()
        median = sorted(took)[len(took) // 2]
        want("a bundle beside writers, the median", median < 1.4 * SYNC, median)
        want("a bundle beside writers, the longest", max(took) < 2.4 * SYNC, max(took))
        return f"a bundle took {1000 * median:.0f} ms in the median and {1000 * max(took):.0f} at most, a sync {1000 * SYNC:.0f}"


def hold(address, ended):
    """Connections that ask nothing whole: each sends a byte now and then, and is made again if it is gone."""
    streams = [None] * (2 * SERVED)
    while not ended.is_set():
        for number, stream in enumerate(streams):
            try:
                if stream is None:
                    streams[number] = stream = socket.create_connection(address.rsplit(":", 1), 1)
                    stream.setblocking(False)
                stream.send(b"{")
                if stream.recv(1) == b"":
                    raise OSError
            except BlockingIOError:
                pass
            except OSError:
                if stream is not None:
                    stream.close()
                streams[number] = None
        ended.wait(0.02)
    for stream in streams:
        if stream is not None:
            stream.close()


def table(program, above):
    address = free_address()
    with Replica(program, above / "table", "--listen", address) as replica:
        fill(replica, min(FULL, 2_000))
        ended = threading.Event()
        thread = threading.Thread(target=hold, args=(address, ended))
        thread.start()
        time.sleep(2)
        puller = Replica(program, above / "puller")
        ends = []
        for number in range(10):
            seen = puller.run("pull", "--peer", address)
            ends.append(seen.returncode)
            (puller.folder / "state").unlink(missing_ok=True)
        want("pulls beside those who hold connections", ends == [0] * 10, ends)
        ended.set()
        thread.join()
        idle = [socket.socket(socket.AF_UNIX) for _ in range(64)]
        for stream in idle:
            stream.connect(str(replica.socket))
        want("a request beside idle ones", (replica.ask("bundle", "--domain", DOMAIN) or [1])[0] == 0)
        first = b"".join(iter(lambda: idle[0].recv(4096), b""))
        want("who gives way is refused", first.endswith(b"fedbundle: too many requests\n"), first)
        for stream in idle:
            stream.close()
        within(5, lambda: (replica.ask("bundle", "--domain", DOMAIN) or [1])[0] == 0)
        want("a large bundle", replica.observe(FULL + 9, b"key" * 233_000)[0] == 0)
        whole = [begin(replica, "bundle", "--domain", DOMAIN) for _ in range(64)]
        seen = within(5, lambda: replica.ask("report") == (1, b"", b"fedbundle: too many requests\n"))
        want("one more than there may be, where each has its reply", seen, replica.ask("report"))
        for stream in whole:
            stream.close()
        return f"{ends.count(0)} of 10 pulls ended well"


def answer_each(meet):
    """The address of a peer that meets each client in a thread of its own."""
    listener, port = listener_of_own()

    def accept():
        while True:
            try:
                stream, _ = listener.accept()
            except OSError:
                return
            threading.Thread(target=run, args=(stream,), daemon=True).start()

    def run(stream):
        with stream:
            try:
                meet(stream)
            except OSError:
                pass

    threading.Thread(target=accept, daemon=True).start()
    return listener, f"127.0.0.1:{port}"


def dribble(stream):
    while True:
        stream.sendall(b" ")
        time.sleep(1)


def send_without_end(stream):
    while True:
        stream.sendall(b"a" * 1_000_000)


def sessions(program, above):
    """The record of a good peer among four others."""
    good = free_address()
    stopped_at = free_address()
    listeners, others = zip(*[answer_each(meet) for meet in (dribble, lambda stream: time.sleep(600), send_without_end)])
    peers = ",".join([*others, stopped_at, good])
    with Replica(program, above / "stopped", "--listen", stopped_at) as stopped, Replica(
        program, above / "good", "--listen", good
    ) as one, Replica(program, above / "asks", "--peers", peers, "--every", "1") as two:
        time.sleep(1)
        os.kill(stopped.process.pid, signal.SIGSTOP)
        took = []
        for number in range(5):
            time.sleep(2)
            key = hashlib.sha256(b"key %d" % number).hexdigest()
            seen = one.ask("distrust", "--domain", DOMAIN, "--key", key, "--unknown-key")
            want("a record of a good peer", seen == (0, b"", b""), seen)
            begun = time.monotonic()
            held = within(3, lambda: key.encode() in two.ask("report")[1])
            took.append(time.monotonic() - begun)
            want(f"record {number} of a good peer beside others", held, took)
        statuses = {}

        def has_ended():
            lines = two.ask("status")[1].decode().splitlines()
            statuses.update({line.split()[1]: line for line in lines if line.startswith("peer ")})
            return " fault S9 " in statuses[others[0]] and " fault S9 " in statuses[others[1]]

        want("sessions in which nothing moves end", within(20, has_ended), statuses)
        os.kill(stopped.process.pid, signal.SIGCONT)
        for listener in listeners:
            listener.close()
        return f"a record of a good peer is there within {max(took):.1f} s"


def refused(streams):
    """How many of these were told that there are too many requests."""
    count = 0
    for stream in streams:
        stream.settimeout(20)
        reply = b""
        try:
            while piece := stream.recv(1 << 20):
                reply += piece
        except OSError:
            pass
        stream.close()
        count += reply.endswith(b"fedbundle: too many requests\n")
    return count


def upload(replica, size):
    """Begins a merge with that many bytes, which are not a snapshot. The caller ends it."""
    stream = socket.socket(socket.AF_UNIX)
    stream.connect(str(replica.socket))
    try:
        stream.sendall(b'["merge"]\n' + b"\n" * size)
    except OSError:
        pass
    return stream


def room(program, above):
    most = 40_000_000
    words = ["--most-request-bytes", str(most)]
    with Replica(program, above / "room", *words) as replica:
        want("a large bundle", replica.observe(2, b"key" * 233_000)[0] == 0)
        size = len(replica.ask("bundle", "--domain", DOMAIN)[1])
        streams = [begin(replica, "bundle", "--domain", DOMAIN) for _ in range(60)]
        time.sleep(2)
        seen = replica.ask("bundle", "--domain", DOMAIN)
        want("a bundle where there is no room", seen == (1, b"", b"fedbundle: too many requests\n"), seen and seen[0])
        told = refused(streams)
        want("those for whom there is no room", abs(60 - most // size - told) <= 1, told, most // size)
        want("there is room again", within(5, lambda: (replica.ask("bundle", "--domain", DOMAIN) or [1])[0] == 0))
        share = 19_000_000
        threads, streams = [], []
        for _ in range(6):
            threads.append(threading.Thread(target=lambda: streams.append(upload(replica, share))))
            threads[-1].start()
        for thread in threads:
            thread.join(60)
        for stream in streams:
            try:
                stream.shutdown(socket.SHUT_WR)
            except OSError:
                pass
        told = refused(streams)
        want("inputs for which there is no room", 4 <= told <= 5, told)
        seen = replica.run_at("merge", text=b"\n" * share)
        want("one input for which there is room", seen.returncode == 1 and b"too many" not in seen.stderr, seen)
        want("another number of bytes", replica.run("replica", "--socket", "other", *words[:1], "many").returncode == 2)
    return f"{60 - most // size} of 60 and {told} of 6 were refused"


def look(replica, *words):
    """A request that is whole, at the socket at which nothing can be changed; its reply is not read."""
    stream = socket.socket(socket.AF_UNIX)
    stream.connect(str(replica.folder / "read"))
    stream.sendall(json.dumps(words).encode() + b"\n")
    stream.shutdown(socket.SHUT_WR)
    return stream


def readers(program, above):
    said = []
    for name, words, places in ("places", [], 48), ("bytes", ["--most-request-bytes", "20000000"], None):
        with Replica(program, above / name, "--read-socket", "read", *words) as replica:
            want("a large bundle", replica.observe(2, b"key" * 233_000)[0] == 0)
            size = len(replica.ask("bundle", "--domain", DOMAIN)[1])
            streams = [look(replica, "bundle", "--domain", DOMAIN) for _ in range(64)]
            time.sleep(2)
            stolen = hashlib.sha256(b"stolen").hexdigest()
            changed = replica.ask("distrust", "--domain", DOMAIN, "--key", stolen, "--unknown-key")
            want(f"a change beside 64 readers, {name}", changed is not None and changed[0] == 0, changed)
            seen = replica.ask("bundle", "--domain", DOMAIN)
            want(f"a bundle at the socket for changes, {name}", seen is not None and seen[0] == 0, seen and seen[2])
            told = refused(streams)
            places = places or 15_000_000 // size
            want(f"the readers for whom there is none, {name}", abs(64 - places - told) <= 1, told, places)
            stream = look(replica, "bundle", "--domain", DOMAIN)
            want(f"a reader after them, {name}", refused([stream]) == 0)
            said.append(f"{told} of 64 readers were refused for {name}")
    return ", ".join(said)


def live(address):
    with socket.create_connection(address.rsplit(":", 1), 20) as stream:
        stream.sendall(b"GET /live HTTP/1.0\r\n\r\n")
        try:
            return stream.makefile("rb").read()
        except TimeoutError:
            return b"nothing"


def gone(program, above):
    at, health = free_address(), free_address()
    with Replica(program, above / "gone", "--listen", at, "--health", health) as replica:
        subprocess.run([program, "new", "--config", "config", "--state", "other"], cwd=replica.folder, check=True)
        def pull():
            words = [program, "pull", "--config", "config", "--state", "other", "--peer", at, "--sums"]
            return subprocess.run(words, cwd=replica.folder, capture_output=True, timeout=120).returncode == 0

        said = []
        for name, address, ask in ("/live", health, lambda: live(health).endswith(b"live\n")), ("a pull", at, pull):
            want(f"{name}, before", ask())
            lone = min(seconds_of(ask) for _ in range(3))
            for _ in range(4096):
                socket.create_connection(address.rsplit(":", 1), 60).close()
            answered = []
            took = seconds_of(lambda: answered.append(ask()))
            want(f"{name}, after 4,096 that left", answered == [True] and took < lone + 0.5, took, lone)
            said.append(f"{name} took {took:.2f} s after 4,096 that left, and {lone:.2f} s before")
    return ", ".join(said)


def cut(stream, text):
    """Says something, and cuts the connection."""
    try:
        stream.sendall(text)
        stream.setsockopt(socket.SOL_SOCKET, socket.SO_LINGER, struct.pack("ii", 1, 0))
    except OSError:
        pass
    stream.close()


def flood(program, above):
    address = free_address()
    with Replica(program, above / "flood", "--listen", address) as replica:
        begun, made = time.monotonic(), 0
        while time.monotonic() - begun < 4:
            try:
                stream = socket.create_connection(address.rsplit(":", 1), 1)
                cut(stream, b"garbage\n")
                made += 1
            except OSError:
                pass
        want("a request after a flood", (replica.ask("bundle", "--domain", DOMAIN) or [1])[0] == 0)
        time.sleep(1.5)
        lines = replica.said().splitlines()
        told = sum(int(line.rpartition(" times=")[2]) if " times=" in line else 1 for line in lines)
        want("the lines of a flood", 0 < len(lines) < 30, len(lines), lines[:3])
        want("the connections that they stand for", told > len(lines), told)
        return f"{made} connections that were cut made {len(lines)} lines, which stand for {told}"


def main():
    parts = {"reports": reports, "disk": disk, "table": table, "sessions": sessions, "room": room, "readers": readers,
             "gone": gone, "flood": flood}
    program = find_program()
    for name in sys.argv[1:] or parts:
        with temporary() as above:
            seen = parts[name](program, Path(above))
        print(f"{name}: {seen}", flush=True)
    for fault in faults:
        print(fault)
    print(f"turns: {running.ran} looks, {len(faults)} wrong")
    return 1 if faults else 0


if __name__ == "__main__":
    sys.exit(main())

#!/usr/bin/env python3
"""Makes docs/page.png: a picture of the page of a replica that holds the receipts of examples/.

Two replicas run on loopback: the one that is shown pulls from the other one. Each run makes other bytes, since the page shows the
time. If the program has no --health, a stand-in of tests/lib serves what its commands print.

It needs python3, Debian's chromium, and pngquant. The program is the one that $FEDBUNDLE names, or the one that ./fedbundle runs.

usage: page-picture
"""
import json
import shutil
import subprocess
import sys
from pathlib import Path

TOP = Path(__file__).resolve().parent.parent
sys.dont_write_bytecode = True
sys.path.insert(0, str(TOP / "tests/lib"))
from browser import Browser, find_browser  # noqa: E402
from harness import find_program, listener_of_own, temporary  # noqa: E402
from watched_replica import EXAMPLES, WatchedReplica, has_health, receipts_of_examples  # noqa: E402

PICTURE = TOP / "docs/page.png"
WIDTH, HEIGHT, MOST_BYTES = 1100, 1240, 150_000
SEEN = ("document.getElementById('looked').textContent.startsWith('Seen at') && document.querySelector('#graph svg')"
        " && document.getElementById('peers').textContent.includes('ago')")


def stop(text):
    sys.exit(f"page-picture: {text}")


def picture_of(address):
    with Browser() as browser:
        browser.show(WIDTH, HEIGHT)
        browser.open(f"http://{address}/")
        if not browser.becomes(SEEN):
            stop("the page shows nothing")
        return browser.picture(whole=False)


def main():
    if not find_browser() or not shutil.which("pngquant"):
        stop("chromium or pngquant is not there")
    program = find_program()
    config = json.loads((EXAMPLES / "config.json").read_text())
    listener, port = listener_of_own()
    listener.close()
    has_stand_in = not has_health(program)
    with temporary() as folder:
        peer = WatchedReplica(program, Path(folder) / "peer", config, receipts_of_examples(), ["--listen", f"127.0.0.1:{port}"], has_stand_in)
        shown = WatchedReplica(program, Path(folder) / "shown", config, (), ["--peers", f"127.0.0.1:{port}", "--every", "1"], has_stand_in)
        with peer, shown:
            made = picture_of(shown.address)
    small = subprocess.run(["pngquant", "--speed", "1", "64", "-"], input=made, capture_output=True, check=True).stdout
    if len(small) > MOST_BYTES:
        stop(f"the picture has {len(small)} bytes")
    PICTURE.write_bytes(small)
    print(f"{len(small)} bytes  {PICTURE.relative_to(TOP)}")


main()

"""Makes the calls that it reads, one a line, and prints what came of each.

A line has the call, the replica (a number from 0), and the texts in hexadecimal: `-` is an empty one, and `$` the text
that was printed last. So two replicas can talk. Each language has such a program, and tests/library.py compares them.
"""
import sys

from fedbundle import USAGE, Refused, Replica, canon, report

replicas = {}
last = b""


def text_of(word):
    return last if word == "$" else b"" if word == "-" else bytes.fromhex(word)


def made(call, replica, words):
    """What a call returns: a number of receipts or bundles, or a text, or None; or a text and a number."""
    if call in ("canon", "report_of"):
        return (canon if call == "canon" else report)(*map(text_of, words))
    if call == "open":
        replicas[replica] = Replica(*map(text_of, words))
        return 0
    if call == "close":
        replicas.pop(replica, None)
        return 0
    if replica not in replicas:
        raise Refused(USAGE, "usage")
    if call == "have":
        return replicas[replica].have(int(words[0]))
    return getattr(replicas[replica], call)(*map(text_of, words))


for line in sys.stdin:
    call, replica, *words = line.split()
    try:
        value = made(call, replica, words)
    except Refused as refused:
        print("refused", refused.number, refused.text)
        continue
    if isinstance(value, tuple):
        last, count = value
        print("counted", count, last.hex() or "-")
    elif isinstance(value, bytes):
        last = value
        print("text", value.hex() or "-")
    elif value is None:
        print("already" if call in ("take", "distrust") else "none")
    else:
        print("done", value)

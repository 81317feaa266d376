#!/usr/bin/env python3
"""Prints what `fedbundle canon --domain DOMAIN` prints for the bundle on standard input.

It is written only from the rules, with Python's own json, base64 and hashlib, and shares nothing with the program.
It takes bundles that are well formed, and refuses nothing in the program's way.

usage: canon.py DOMAIN <BUNDLE.json
"""
import base64
import binascii
import hashlib
import json
import re
import sys

URL_TEXT = re.compile(r"[A-Za-z0-9_-]+")
KEY_MEMBERS = {"RSA": ["n", "e"], "EC": ["crv", "x", "y"]}


def compact(value):
    return json.dumps(value, sort_keys=True, separators=(",", ":"), ensure_ascii=False).encode()


def certificate(element):
    """The bytes of the one certificate of x5c, or None."""
    chain = element.get("x5c")
    if not isinstance(chain, list) or len(chain) != 1 or not isinstance(chain[0], str):
        return None
    try:
        der = base64.b64decode(chain[0], validate=True)
    except (binascii.Error, ValueError):
        return None
    return der if der and base64.b64encode(der).decode() == chain[0] else None


def member_is_right(name, value):
    if not isinstance(value, str) or not value:
        return False
    return name in ("crv", "kid") or bool(URL_TEXT.fullmatch(value)) and len(value) % 4 != 1


def authority(element):
    """The members that count of an element of `keys`, or None if it is to be passed over."""
    if not isinstance(element, dict):
        return None
    use, kty = element.get("use"), element.get("kty")
    if use not in ("x509-svid", "jwt-svid") or kty not in ("RSA", "EC"):
        return None
    texts = KEY_MEMBERS[kty] + (["kid"] if use == "jwt-svid" else [])
    if not all(member_is_right(name, element.get(name)) for name in texts):
        return None
    if use == "x509-svid" and certificate(element) is None:
        return None
    kept = ["use", "kty"] + texts + (["x5c"] if use == "x509-svid" else [])
    return {name: element[name] for name in kept}


def canon(domain, bundle):
    found = {compact(kept): kept for kept in map(authority, bundle["keys"]) if kept is not None}
    rising = [found[text] for text in sorted(found)]
    document = {"keys": rising}
    for name in ("spiffe_sequence", "spiffe_refresh_hint"):
        if bundle.get(name) is not None:
            document[name] = bundle[name]
    text = compact(document)
    lines = [text, b"id " + hashlib.sha256(domain.encode() + b"\n" + text).hexdigest().encode()]
    for kept in rising:
        if kept["use"] == "x509-svid":
            lines.append(b"key " + hashlib.sha256(certificate(kept)).hexdigest().encode())
    return b"".join(line + b"\n" for line in lines)


if __name__ == "__main__":
    sys.stdout.buffer.write(canon(sys.argv[1], json.load(sys.stdin.buffer)))

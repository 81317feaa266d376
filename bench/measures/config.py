"""Measures `fed_config` and plain Rust that reads the same configurations, both built here, run in turn.

arguments: [RUNS]      RUNS is the number of timed readings of each configuration in each of five turns, 5 if left out
"""
import base64
import json
import random
import subprocess

from building import build_ours, build_peer, stop
from texts import url_text

SIZES = [16, 128, 1024]
SEEDS = 4
SEED_BYTES = 2048
TURNS = 5


def element(random_):
    """An RSA key with random bytes in its certificate's place, of the length that a seed of about 2 KiB leaves."""
    der = base64.b64encode(random_.randbytes((SEED_BYTES - 520) * 3 // 4)).decode()
    return {"use": "x509-svid", "kty": "RSA", "n": url_text(random_, 256), "e": "AQAB", "x5c": [der]}


def configuration(count):
    """This many relationships with four seeds each, written in no order."""
    random_ = random.Random(count)
    relationships, seeds = [], []
    for number in range(count):
        domain = f"d{number:04}.example"
        relationships.append(
            {
                "domain": domain,
                "endpoint": f"spiffe://{domain}/bundle",
                "profile": "https_spiffe",
                "url": f"https://bundles.{domain}/federation/bundle.json",
            }
        )
        for sequence in range(SEEDS):
            bundle = {"keys": [element(random_)], "spiffe_sequence": sequence}
            seeds.append({"domain": domain, "bundle": bundle})
    random_.shuffle(relationships)
    random_.shuffle(seeds)
    return json.dumps({"relationships": relationships, "seeds": seeds}, separators=(",", ":")).encode()


def answer(program, text, runs):
    """The least time and the id that the program prints."""
    done = subprocess.run([str(program), str(runs)], input=text, capture_output=True, check=True)
    least, id_ = done.stdout.split()
    return int(least), id_


def main(words):
    runs = int(words[0]) if words else 5
    programs = build_ours("config", "fed_config", words=["1"], text=configuration(1)), build_peer("config")
    print("least times of one reading in ms: fed_config, plain Rust, ratio; ns for each byte of both")
    for count in SIZES:
        text = configuration(count)
        least = [[], []]
        for _ in range(TURNS):
            found = [answer(program, text, runs) for program in programs]
            if found[0][1] != found[1][1]:
                stop(f"{count}: the ids differ, {found}")
            for times, (time, _) in zip(least, found):
                times.append(time)
        ours, plain = (min(times) for times in least)
        print(
            f"{count} relationships, {len(text)} bytes: {ours / 1e6:.2f} {plain / 1e6:.2f} {ours / plain:.2f}; "
            f"{ours / len(text):.2f} {plain / len(text):.2f}",
            flush=True,
        )

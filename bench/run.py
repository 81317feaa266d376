#!/usr/bin/env python3
"""Runs a benchmark: ours and plain Rust on the same work, in turn. It stops if the two give different results.

usage: run NAME [ARGUMENT..]    README.md has the names, and the arguments of each
"""
import importlib
import sys
from pathlib import Path

sys.dont_write_bytecode = True
NAMES = sorted(path.stem for path in (Path(__file__).resolve().parent / "measures").glob("*.py"))


def main():
    if len(sys.argv) < 2 or sys.argv[1] not in NAMES:
        sys.exit("usage: run NAME [ARGUMENT..], and NAME is one of: " + " ".join(NAMES))
    importlib.import_module(f"measures.{sys.argv[1]}").main(sys.argv[2:])


if __name__ == "__main__":
    main()

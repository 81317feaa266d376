#!/usr/bin/env python3
"""Writes the three files of web/ as texts of the program, into crates/health_pages/src/page_files.rt.

Each is a constant of type &str, whose lines are those of the file. Only a backslash and a quotation mark are escaped; a line of
more than 100 columns goes on after a backslash, which is not part of the text, nor is the white space that follows it. The files
are ASCII, end with a line feed, and have at most 24,576 bytes together, since each reply of the replica has one whole.

It needs python3.

usage: page             writes the file
       page --check     the status is 1 if the file is not that of web/
"""
import re
import sys
from pathlib import Path

TOP = Path(__file__).resolve().parent.parent
WRITTEN = TOP / "crates/health_pages/src/page_files.rt"
FILES = {"INDEX_HTML": "index.html", "PAGE_CSS": "page.css", "PAGE_JS": "page.js"}
COLUMNS, MOST_BYTES = 100, 24_576
HEAD = "//! The three files of web/, by tools/page: the page at `/`, and what it loads.\n"


def stop(text):
    sys.exit(f"page: {text}")


def texts():
    """The content of each file by the name of its constant."""
    found = {name: (TOP / "web" / file).read_bytes() for name, file in FILES.items()}
    for name, content in found.items():
        if not re.fullmatch(rb"[!-~](?:[ -~]|\n)*\n", content):
            stop(f"web/{FILES[name]} has to be ASCII without tabs, and to end with a line feed")
    if sum(map(len, found.values())) > MOST_BYTES:
        stop(f"the files of web/ have more than {MOST_BYTES} bytes")
    return {name: content.decode() for name, content in found.items()}


def broken(line):
    """A line of the text as lines of the source. No part but the first begins with a space, which would be lost."""
    parts = [""]
    for word in re.findall(r" *[^ ]+ *", re.sub(r'[\\"]', r"\\\g<0>", line)):
        if parts[-1] and len(parts[-1] + word) >= COLUMNS:
            parts[-1] += "\\"
            parts.append("")
        parts[-1] += word
    return parts


def constant(name, text):
    lines = [part for line in text.removesuffix("\n").split("\n") for part in broken(line)]
    said = f"/// The text of web/{FILES[name]}.\npub(crate) const {name}: &str = \"\\\n"
    return said + "".join(f"{line}\n" for line in lines) + "\";\n"


def source():
    made = "\n".join([HEAD[:-1], *(constant(name, text) for name, text in texts().items())])
    long = [line for line in made.split("\n") if len(line) > COLUMNS]
    if long:
        stop(f"a line would be too long: {long[0]}")
    return made


def main():
    if sys.argv[1:] == ["--check"]:
        if not WRITTEN.exists() or WRITTEN.read_text() != source():
            stop(f"{WRITTEN.relative_to(TOP)} is not that of web/: run tools/page.py")
    elif sys.argv[1:]:
        stop("usage: page [--check]")
    else:
        WRITTEN.parent.mkdir(parents=True, exist_ok=True)
        WRITTEN.write_text(source())


if __name__ == "__main__":
    main()

#!/usr/bin/env python3
"""Makes the tables of docs/REFERENCE.md and docs/GUARANTEES.md that come from the sources.

A table is between the lines `<!-- made: NAME -->` and `<!-- end -->`. In REFERENCE these are limits, codes, errors without a code,
and metrics: the script writes the rows and all of their cells except the last, which is written by hand on the page, and kept. The
first cell says which row it is.

In GUARANTEES these are the promises of crates. A row is there for what its second cell names by hand: a law or function, with its
crate, and perhaps some of its clauses. The first cell is the first sentence of its docstring, and the first of what the docstring says of
each of these clauses, or its first paragraph if it has no list of them. A new row is `|  | `CRATE::NAME` |`.

usage: reference [--check]     --check writes nothing, and ends with status 1 if a page is not what it would write, or if the last
    cell of a row is empty, or if an event of the sources is not on the page, or if a row names what has no docstring
"""
import re
import sys
from functools import cache
from pathlib import Path

TOP = Path(__file__).resolve().parent.parent
PAGE, PROMISES = TOP / "docs/REFERENCE.md", TOP / "docs/GUARANTEES.md"
TABLE = re.compile(r"(<!-- made: (\w+) -->\n\n(\|.*\n\|.*\n))((?:\|.*\n)*)(?=\n<!-- end -->)")
ERROR = re.compile(r'((?: +/// .*\n)+) +#\[error\("([A-Z])(\d+) (\w+)([^"]*)"\)\]')
# A function with its docstring, the type that a method is of, and what a docstring says of clauses.
DOCUMENTED = re.compile(r"^(?P<said>(?: *///.*\n)+)(?:^ *#\[.*\n)*^(?P<indent> *)(?:pub )?fn (?P<name>\w+)"
                        r"|^(?:pub )?(?:impl|trait)(?:<[^>]*>)? (?:[^{\n]* for )?(?P<owner>\w+)", re.M)
OF_CLAUSES = re.compile(r"^- ((?:`\w+`(?:, )?)+): (.*)$", re.M)
# Codes that only callers of the library see.
OF_LIBRARY = {"L1", "L2", "L3", "P1", "P2", "V1", "V2"}
# What is limited, and the constant that says it.
LIMITS = [
    ("a bundle, fetched or canonical", "bundle_doc", "MAX_DOCUMENT_BYTES", "bytes"),
    ("a line of a state file, of a message or of an input of `report`", "receipt_core", "MAX_LINE_BYTES", "bytes"),
    ("a trust domain name", "spiffe_name", "MAX_DOMAIN_BYTES", "bytes"),
    ("a SPIFFE ID", "spiffe_name", "MAX_ID_BYTES", "bytes"),
    ("a URL, as written", "fed_config", "MAX_URL_BYTES", "bytes"),
    ("relationships, and trust domains", "fed_config", "MAX_DOMAINS", ""),
    ("seeds, as written", "fed_config", "MAX_SEEDS", ""),
    ("receipts that are held", "fed_config", "USUAL_RECEIPTS", ""),
    ("records of distrust that are held", "fed_config", "USUAL_RECORDS", ""),
    ("`--most-receipts`", "receipt_core", "MOST_RECEIPTS", ""),
    ("`--most-records`", "receipt_core", "MOST_RECORDS", ""),
    ("peers of a replica", "fedbundle_cli", "MOST_PEERS", ""),
    ("connections of a replica", "replica_connections", "MOST_CONNECTIONS", ""),
    ("connections of the own machine, at both sockets", "replica_connections", "MOST_LOCAL", ""),
    ("connections on which other replicas ask", "replica_connections", "MOST_SERVED", ""),
    ("connections at the address of `--health`", "replica_connections", "MOST_PAGES", ""),
    ("the arguments of a request", "request_lines", "MOST_WORDS", "bytes"),
    ("the input of a request", "local_answers", "MOST_INPUT", "bytes"),
    ("the path of a socket", "replica_sockets", "MOST_BYTES", "bytes"),
    ("a connection on which nothing moves", "replica_connections", "MAX_IDLE_SECONDS", "seconds"),
    ("a request, or a session", "replica_connections", "MAX_AGE_SECONDS", "seconds"),
]


def sources(crate="*"):
    return [path.read_text() for path in sorted(TOP.glob(f"crates/{crate}/src/**/*.rt"))]


def constants(crate="*"):
    """The numbers of a crate, or of all, by their names."""
    found = re.findall(r"(?:const|static) ([A-Z_]+): \w+ = ([\d_]+);", "\n".join(sources(crate)))
    return {name: f"{int(number):,}" for name, number in found}


def limits():
    for what, crate, name, unit in LIMITS:
        yield [what, f"{constants(crate)[name]} {unit}".strip()]


def codes():
    """The codes that the commands print, each with what its variant says; those of lack of memory have one row."""
    known, memory = constants(), []
    found = {(letter, int(number)): (name, more, said)
             for said, letter, number, name, more in ERROR.findall("\n".join(sources()))}
    for (letter, number), (name, more, said) in sorted(found.items()):
        if name == "NoMemory" and f"{letter}{number}" not in OF_LIBRARY:
            memory.append(f"`{letter}{number}`")
        elif f"{letter}{number}" not in OF_LIBRARY:
            text = re.sub(r" \(RFC [^)]*\)", "", " ".join(re.findall(r"/// (.*)", said)))
            more = re.sub(r"\{\d\}", "CODE", re.sub(r"(at|line) \{0\}", r"\1 N", more))
            yield [f"`{letter}{number} {name}{more}`", re.sub(r"`([A-Z_]{4,})`", lambda one: known[one[1]], text)]
    yield [" ".join(memory) + " `NoMemory`", "Memory ran out: the program's, or the system's when a file or socket is opened."]


def errors():
    """What is printed without a code, and the exit status."""
    text = "\n".join(sources("command_exits"))
    statuses = {name: status for names, status in re.findall(r"^ +((?:Exit::\w+(?:\(_\))?[ |\n]*)+)=> (\d),", text, re.M)
                for name in re.findall(r"Exit::(\w+)", names)}
    printed = [(said, statuses[name]) for name, said in re.findall(r'Exit::(\w+)[^=;{}]*=> b"fedbundle: (.*)\\n"', text)]
    refused = re.findall(r'\\"status\\":(\d)\}\\nfedbundle: ([a-z ]+)\\n', "\n".join(sources("local_answers")))
    yield from ([f"`{said}`", status] for said, status in sorted({*printed, *((said, status) for status, said in refused)}))


def metrics():
    """Each metric with its text of HELP."""
    for source in sources():
        helps = dict(re.findall(r'(\w+::\w+) => "([A-Z1].*\.)"', source))
        named = re.findall(r'(\w+::\w+) => "(fedbundle_\w+)"', source)
        pairs = [(name, helps[variant]) for variant, name in named if variant in helps]
        pairs += re.findall(r'"(fedbundle_\w+)",\s*"([A-Z].*\.)",', source)
        yield from ([f"`{name}`", said] for name, said in pairs)


def made(text):
    """The page with its tables made, and the rows whose last cell is empty."""
    empty = []

    def table(found):
        kept = {row.split("|")[1].strip(): row.strip(" |\n").split(" | ")[-1].strip(" |") for row in found[4].splitlines()}
        rows = ""
        for cells in globals()[found[2]]():
            last = kept.get(cells[0], "")
            empty.extend([] if last else [cells[0]])
            rows += f"| {' | '.join([*cells, last])} |\n"
        return found[1] + rows

    return TABLE.sub(table, text), empty


@cache
def docstrings(crate):
    """The docstring of each function of a crate, by its name, which has the crate before it, and between them the type of a method,
    or `laws`."""
    found = {}
    for path in sorted(TOP.glob(f"crates/{crate}/src/**/*.rt")):
        owner = ""
        for item in DOCUMENTED.finditer(path.read_text()):
            owner = item["owner"] or owner
            before = f"{owner}::" if item["indent"] else "laws::" if path.name == "laws.rt" else ""
            if item["name"]:
                found[f"{crate}::{before}{item['name']}"] = re.sub(r"^ */// ?", "", item["said"], flags=re.M)
    return found


def first_sentence(text):
    """The first sentence, with a capital letter, and without links and numbers of sections."""
    sentence = re.match(r".*?\.(?= [A-Z`\[]|$)|.*", " ".join(text.split()))[0]
    sentence = re.sub(r"\[(`[^`]*`)\](?:\([^)]*\))?", r"\1", sentence).replace("crate::", "")
    return re.sub(r" \([^()]*\bsection [^()]*\)", "", sentence[0].upper() + sentence[1:])


def promise(said, clauses):
    """The first sentence of a docstring, and the first of what it says of each of these clauses; if it has no list of clauses, its
    first paragraph."""
    said = re.sub(r"\n +", " ", said)
    first, items = re.split(r"\n- |\n\n", said)[0], OF_CLAUSES.findall(said)
    if clauses and not items:
        return " ".join(first_sentence(text) for text in re.split(r"(?<=\.)\s(?=[A-Z`\[])", first))
    found = [more for names, more in items if set(re.findall(r"\w+", names)) & set(clauses)]
    return " ".join(first_sentence(text) for text in [first, *found])


def promised(text):
    """The page of the promises with its tables made, and what its rows name and the crates do not have."""
    lines, missing, inside = [], [], False
    for line in text.splitlines():
        inside = line == "<!-- made: promises -->" or inside and line != "<!-- end -->"
        if inside and line.startswith("| ") and not line.startswith("| Claim"):
            cell = line.split("|")[2].strip()
            name, *clauses = re.findall(r"`([\w:]+)`", cell.split("(")[0])
            said = docstrings(name.split("::")[0]).get(name)
            missing += [] if said else [name]
            line = f"| {promise(said, clauses) if said else ''} | {cell} |"
        lines.append(line)
    return "\n".join(lines) + "\n", missing


def main():
    text, guarantees = PAGE.read_text(), PROMISES.read_text()
    wanted, empty = made(text)
    promises, missing = promised(guarantees)
    names = set(re.findall(r"\bevent=([a-z-]+)", "\n".join(sources())))
    faults = [f"the last cell of {key} is empty" for key in empty]
    faults += [f"the event {name} is not there" for name in sorted(names - set(re.findall(r"event=([a-z-]+)", text)))]
    faults = [f"{PAGE.name}: {fault}" for fault in faults]
    faults += [f"{PROMISES.name}: {name} is not a function with a docstring" for name in missing]
    if "--check" not in sys.argv[1:]:
        PAGE.write_text(wanted)
        PROMISES.write_text(promises)
    else:
        faults += [f"{page.name}: it is not what tools/reference.py makes"
                   for page, old, new in ((PAGE, text, wanted), (PROMISES, guarantees, promises)) if old != new]
    print("".join(f"docs/{fault}\n" for fault in faults), end="")
    sys.exit(1 if faults else 0)


if __name__ == "__main__":
    main()

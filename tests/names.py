#!/usr/bin/env python3
"""Reports each name that has two meanings, and each line that is too long.

One name has one meaning in the whole repository. So no two files of specs/ define the same name, and no two crates have a
public type, trait or function of the same name. A name may be there twice if TWICE says why.

Nor do two crates have a source file of the same name, but for the names that each crate may have, and those of FILES.
Programs of rows name their files after the calls that they make. A file of a folder commands/ has its command's name, or
says what commands share there.

The crates of SHELL have no contracts that say what a name means. So no type of theirs, though private, has the name of
another crate's type.

A relation that the contract of a public function cites has at most four positional arguments: a reader knows each by its
place.

Lines of .rt files and of specs/ have at most 100 columns, but for those of LONG. Lines of proofs/ have at most 160, but for
those of a JSON text. A crate may have the number of wider lines that WIDER says.

usage: names          the exit status is 1 if something was reported
"""
import re
import subprocess
import sys
from collections import defaultdict
from pathlib import Path

TOP = Path(__file__).resolve().parent.parent
COLUMNS = 100
COLUMNS_OF_PROOFS = 160
DEFINITION = re.compile(r"^(?:pub )?(?:abbrev|unfoldable|record|data)(?: pub)? ([A-Za-z_]\w*)", re.M)
PUBLIC = re.compile(r"^pub (?:struct|enum|trait|type|fn) ([A-Za-z_]\w*)", re.M)
TYPE = re.compile(r"^(?:pub(?:\(\w+\))? )?(?:struct|enum|trait|type) ([A-Za-z_]\w*)", re.M)
# A definition with all its lines, and a public function with its contract.
WHOLE = re.compile(r"^(?:pub )?(?:abbrev|unfoldable|record|data)(?: pub)? ([A-Za-z_]\w*)(.*?)(?=^\S|\Z)", re.M | re.S)
CONTRACT = re.compile(r"^ *pub (?:const )?fn (\w+).*?(?=^ *\{$)", re.M | re.S)

# Names that are there twice for a reason.
TWICE = {
    "NoMemory": "the allocator's error, as two crates that do not stand on each other call it",
    "least": "a law of each crate: what is reached, and what is accepted, is the least such set",
    "plain_texts": "a law of each of two crates about its own texts",
}

# The names of files that each crate may have, and those that are in two crates for a reason.
EACH = {"lib.rt", "main.rt", "laws.rt", "error.rt"}
FILES = {
    "closure.rt": "the trait `Closure`, and its two implementations",
    "distrust.rt": "a record of distrust, and the command that makes one: commands name their files",
}
ROWS = re.compile(r"_rows$|^row_script$|^library_examples$")
COMMANDS = {"state_readers.rt": "what the commands share that show what is held",
            "state_writers.rt": "what the commands share that change what is held"}

# The crates without contracts, and the most positional arguments that a relation of a public contract has.
SHELL = ("fedbundle_cli", "subcommands", "replica_loop", "replica_connections", "replica_events", "replica_sockets",
         "peer_talks")
MOST_ARGUMENTS = 4

# Relations with more: of private contracts until their crate was cut in two, and one whose plan its session has too.
WIDE = {
    "Offers": "a step of `label_index`, which `trust_closure` takes",
    "Awaits": "another one",
    "TakesEntryText": "a step of `replica_texts`, which `replica_sync` takes",
    "HasRefusedLine": "another one",
    "HasPulledAbout": "a session about a plan; a proof that leaves the plan out, as the session has it, makes it four",
}

# What makes a line long that cannot be broken.
LONG = re.compile(r'^\s*(?:ghost )?use [\w.]+\.\{\w+ as \w+\};?$')
JSON_TEXT = re.compile(r'codes "\{\\"')
# How many wider lines the proofs of a crate have, or its contracts. They are split when the crate is changed for another
# reason, since a change of a proof or of a contract makes the proofs of all crates above it due.
WIDER = {}


def files(folder, ending):
    names = subprocess.run(["git", "ls-files", "crates"], cwd=TOP, capture_output=True, text=True, check=True).stdout
    return [TOP / name for name in names.split() if f"/{folder}/" in name and name.endswith(ending)]


def defined_twice(pattern, paths):
    """Each name that the pattern finds in two of the files, and those files."""
    found = defaultdict(list)
    for path in paths:
        for name in set(pattern.findall(path.read_text())):
            found[name].append(path)
    return {name: places for name, places in sorted(found.items()) if len(places) > 1 and name not in TWICE}


def files_named_alike(paths):
    """Each name of a source file that is in two crates, and these crates."""
    found = defaultdict(set)
    for path in paths:
        crate = path.relative_to(TOP).parts[1]
        if not ROWS.search(crate) and path.parent.name != "commands":
            found[path.name].add(crate)
    return {name: sorted(crates) for name, crates in sorted(found.items())
            if len(crates) > 1 and name not in EACH and name not in FILES}


def command_names():
    """The names of the subcommands."""
    words = next(path for path in files("specs", "/Words.antt") if "name_text" in path.read_text())
    return set(re.findall(r'^name_text command\.\w+ = codes "(.*)"', words.read_text(), re.M))


def unknown_commands(paths):
    """The files of folders commands/ that no subcommand has as its name."""
    names = command_names()
    for path in paths:
        if path.parent.name == "commands" and path.stem not in names and path.name not in COMMANDS:
            yield path


def shell_types_named_twice(paths):
    """Each type of a crate of SHELL whose name a type of another crate has, and the places of
    both."""
    found = defaultdict(dict)
    for path in paths:
        crate = path.relative_to(TOP).parts[1]
        if not ROWS.search(crate):
            for name in TYPE.findall(path.read_text()):
                found[name].setdefault(crate, path)
    return {name: list(places.values()) for name, places in sorted(found.items())
            if len(places) > 1 and any(crate in SHELL for crate in places) and name not in TWICE}


def groups(text):
    """What is in brackets at the beginning of the text, and what comes after these."""
    found, text = [], text.strip()
    while text.startswith(("(", "{")):
        depth, end = 0, 0
        for end, sign in enumerate(text):
            depth += (sign in "({") - (sign in ")}")
            if depth == 0:
                break
        found.append(text[:end + 1])
        text = text[end + 1:].strip()
    return found, text


def steps(text):
    """The parts of a type between its arrows, those in brackets aside."""
    found, depth = [""], 0
    for sign in text:
        depth += (sign in "({[") - (sign in ")}]")
        if sign == "→" and depth == 0:
            found.append("")
        else:
            found[-1] += sign
    return [part.strip() for part in found]


def names_in(group):
    """How many names a group binds: none in braces, and one if it is only a type."""
    named = re.fullmatch(r"\(([^():]+) :.*\)", group, re.S)
    return 0 if group.startswith("{") else len(named.group(1).split()) if named else 1


def arguments(rest):
    """How many positional arguments a definition has, or None if it is not a relation."""
    bound, text = groups(rest)
    if not text.startswith(":"):
        return None
    *taken, given = steps(re.split(r"\bwhere\b", text[1:])[0])
    return sum(map(names_in, bound + taken)) if re.match(r"Type\b", given) else None


def wide_relations(specs, sources):
    """The relations of public contracts with too many arguments, with the functions that cite them."""
    wide = {}
    for path in specs:
        for name, rest in WHOLE.findall(re.sub(r"^--.*\n", "", path.read_text(), flags=re.M)):
            count = arguments(rest)
            if count is not None and count > MOST_ARGUMENTS and name not in WIDE:
                wide[name] = count
    for path in sources:
        if path.relative_to(TOP).parts[1] in SHELL:
            continue
        for contract in CONTRACT.finditer(path.read_text()):
            for name in sorted(set(re.findall(r"\w+", contract.group())) & set(wide)):
                yield path, contract.group(1), name, wide[name]


def long_lines(paths, columns, exception):
    for path in paths:
        for number, line in enumerate(path.read_text().split("\n"), 1):
            if len(line) > columns and not exception.search(line):
                yield path, number, len(line)


def main():
    specs, sources, proofs = files("specs", ".antt"), files("src", ".rt"), files("proofs", ".antt")
    faults = []
    for pattern, paths in [(DEFINITION, specs), (PUBLIC, sources)]:
        for name, places in defined_twice(pattern, paths).items():
            faults.append(f"{name} is defined in " + ", ".join(str(place.relative_to(TOP)) for place in places))
    for name, crates in files_named_alike(sources).items():
        faults.append(f"{name} is a file of {', '.join(crates)}")
    for path in unknown_commands(sources):
        faults.append(f"{path.relative_to(TOP)} has no command's name")
    for name, places in shell_types_named_twice(sources).items():
        faults.append(f"{name} is a type of " + ", ".join(str(place.relative_to(TOP)) for place in places))
    for path, function, name, count in wide_relations(specs, sources):
        faults.append(f"{path.relative_to(TOP)}: {function} cites {name}, which has {count} arguments")
    wider = defaultdict(list)
    for paths, most, exception in [(specs + sources, COLUMNS, LONG), (proofs, COLUMNS_OF_PROOFS, JSON_TEXT)]:
        for path, number, columns in long_lines(paths, most, exception):
            name = path.relative_to(TOP)
            wider[name.parts[1]].append(f"{name}:{number} has {columns} columns")
    for crate, lines in wider.items():
        faults += lines if len(lines) > WIDER.get(crate, 0) else []
    for fault in faults:
        print(fault)
    print(f"{len(faults)} names and lines to mend, in {len(specs + sources + proofs)} files")
    sys.exit(1 if faults else 0)


if __name__ == "__main__":
    main()

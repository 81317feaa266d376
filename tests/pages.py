#!/usr/bin/env python3
"""Checks what the pages name: links, files and contracts.

Each relative link of a page leads to a file, and to a heading in it if it names one. Each word in backticks that looks like a path
of the repository, or of a file of a crate below crates/, is one. In the tables of docs/GUARANTEES.md each definition that a row
names is in the sources or definitions, and each clause after a function's name in the contract of a function of that name; the
claims of the rows are what tools/reference.py makes of the docstrings. The code that docs/LIBRARY.md shows is that of
crates/library_examples (D-213) and of bindings/, and the code that the README of a binding shows is that of a file next to it; that
in C is what cc takes with the header. The contracts that LIBRARY quotes are those of the sources, whole, and each of their terms
has a row with its file. The tables of docs/REFERENCE.md are what tools/reference.py makes. Each alert of
deploy/prometheus-rules.yml has a row in the first table of docs/RUNBOOKS.md, which leads to the section that the alert names, and
so has each kind of warning. Each law that a page names is in a crate. docs/trust-flow.svg is what tools/picture.py draws of
docs/trust-flow.dot, and docs/site.svg what tools/site-picture.py draws. Each decision has a number of its own, and each number that
the repository cites is that of a decision. Two pages never have figures of the same work over the same number of receipts, records
or bytes.

A page has at most the words of BUDGET, by `wc -w`, all pages have ALL_WORDS, and a release has LINES_OF_RELEASE lines in CHANGELOG.
Two sentences of two pages, of at least eight words each, are alike if the cosine of their counts of words is 0.45 or more. A word
counts by how rare it is; one that many sentences have makes two only less alike, and paths and numbers do not count. ALIKE says how
many such pairs two pages may have; the history of releases may repeat any page. If there is one more, say it on one page, and lead
there from the other. `--alike` prints all.

Some words make a text hard to read for those whose first language is another. For each it prints how many uses are left on all
pages, without code, and in all comments of the crates, without what is in backticks, and how many there may be. A new text uses
none of them, and whoever takes a use away lowers the number here.

usage: pages [--alike]     the exit status is 1 if something is missing, or more is there than may be
"""
import math
import re
import subprocess
import sys
from collections import Counter, defaultdict
from pathlib import Path

sys.dont_write_bytecode = True
sys.path.insert(0, str(Path(__file__).resolve().parent / "lib"))
from needs import can  # noqa: E402

TOP = Path(__file__).resolve().parent.parent
LINK = re.compile(r"\]\(([^)#:\s]*)(?:#([^)]*))?\)")
HEADING = re.compile(r"^#+ (.*)$", re.M)
DECISION = re.compile(r"- \*\*D-\d+\. [^*]+\.\*\* Instead of: [^*]+ Because: [^*]+")
CODE = re.compile(r"`([^`\n]+)`")
ROOTS = ("bench/", "bindings/", "crates/", "deploy/", "docs/", "examples/", "tests/", "tools/", ".ci/")
# What looks like a file of a crate, by its path below crates/.
OF_CRATE = re.compile(r"(?!std/)[a-z]\w*/(?:src|specs|proofs)/")
# A law with its crate or without it; `laws::x` is any law.
LAW = re.compile(r"\b(\w+::)?laws::(?!x\b)(\w+)")
WORD = re.compile(r"[A-Za-z_]\w*")
# A function and what stands before its body, and the names of clauses there.
FUNCTION = re.compile(r"\bfn (\w+)(.*?)(?=^\s*\{|\bfn |\Z)", re.M | re.S)
CLAUSE = re.compile(r"\b(?:ensures|requires)\*? (\w+) \{")
# Types and functions of a source, what may follow the head of a function, and a clause with its name.
ITEM = re.compile(r"^(?:pub )?(?:impl|trait)(?:<[^>]*>)? (?:[^{\n]* for )?(?P<owner>\w+)"
                  r"|^(?P<indent> *)(?:pub(?:\(crate\))? )?(?P<function>fn )\w+", re.M)
CONTRACT = re.compile(r"^ *\{| \{$|\bensures\b|\brequires\b|;", re.M)
WHOLE_CLAUSE = re.compile(r"(?:\s|//.*\n)*((?:ensures|requires)\*?(?: \w+)?) \{")
# A name that is not a member of another, and the names that a file of definitions defines.
FREE = re.compile(r"(?<![.\w])\w+")
DEFINED = re.compile(r"^(?:abbrev )?pub (?!mod\b|use\b)(?:record |data )?(\w+)", re.M)
TRAILING = re.compile(r"(\() |,? (?=\))")
# The blocks in which a page quotes contracts, and in them each source and what is quoted of it.
QUOTES = re.compile(r"^```text\n(\w+/src/\S+\.rt\n.*?)^```$", re.M | re.S)
QUOTED = re.compile(r"^(\w+/src/\S+\.rt)\n(.*?)(?=^\w+/src/|\Z)", re.M | re.S)
BLOCK = re.compile(r"^ *```.*?^ *```$", re.M | re.S)
# Lines of comments one after another in a source, and in a definition or proof, and what each line begins with.
COMMENTS = {".rt": (re.compile(r"(?:^ *//.*\n)+", re.M), re.compile(r"^ *//[/!]? ?", re.M)),
            ".antt": (re.compile(r"(?:^ *--.*\n)+", re.M), re.compile(r"^ *--(?: -+)? ?", re.M))}
# The words to avoid, and how many uses of each there may be: on the pages, and in the comments of the crates. In most the plain
# word is behind the colon.
AVOIDED = {
    "where, of a condition: if": (r"\bwhere\b", 4, 0),
    "is none": (r"\b(?:is|are) none\b", 0, 0),
    "so many": (r"\bso (?:many|much)\b", 0, 0),
    "as many as: the number of": (r"\bas (?:many|much)\b", 0, 1),
    "stands: is": (r"\b(?:stands?|stood|standing)\b(?!-in)", 0, 0),
    "Of .., at the beginning": (r"(?-i:(?:^|[.:;|] +)Of [a-z])", 0, 0),
    "alone, at the end: only": (r"\balone(?=[.,;:)]|$)", 0, 0),
    "anew: again": (r"\banew\b", 0, 0),
    "stays: runs, is still": (r"\bstays?\b", 0, 0),
    "words: arguments": (r"\bwords?\b", 1, 0),
    "moment: time": (r"\bmoments?\b", 0, 0),
    "rising: sorted": (r"\brising\b", 0, 0),
    "mend: fix": (r"\bmend(?:s|ed|ing)?\b", 0, 0),
    "beside: next to, with": (r"\bbesides?\b", 0, 0),
    "complaint: error": (r"\bcomplaints?\b", 0, 0),
    "fault: error": (r"\bfaults?\b", 0, 0),
    "is no: is not a": (r"(?<!there )\b(?:is|are) no (?!longer)[a-z]", 0, 0),
    "a comma before that": (r", that\b", 0, 0),
    "at once: immediately, together, at the same time": (r"\bat once\b", 0, 0),
    "goes on: continues": (r"\b(?:go(?:es)?|went|going) on\b", 0, 0),
    "gives way: is closed, is refused": (r"\b(?:gives?|gave|giving) way\b", 0, 0),
    "tells: says, reports": (r"\b(?:told|tells?|telling)\b", 0, 0),
    "comes to: reaches": (r"\bc[oa]mes? to\b", 0, 0),
    "the same of: the same for": (r"\bthe same of\b", 0, 0),
    "but for: except": (r"\bbut for\b", 0, 0),
}
# The work whose times and memory pages give, and how a sentence names it: the command in backticks, or for some a word of prose.
MEASURED = {command: re.compile(rf"`{command}(?: [^`]*)?`") for command in (
    "bundle", "canon", "list", "observe", "serve", "status")}
MEASURED |= {command: re.compile(rf"`{command}(?: [^`]*)?`|\b{words}\b", re.I) for command, words in (
    ("distrust", "distrusts?"), ("explain", "explanations?"), ("merge", "merges?"), ("pull", "pulls?"),
    ("report", "reports?"), ("session", "sessions?"))}
# What the parts of bench/RESULTS.md measure, even if a sentence there does not name it.
RESULTS = {"canon", "explain", "report"}
# A number with its unit, or a column of a table that has the unit in its head.
FIGURE = re.compile(r"(?<![\w.,])\d[\d,]*(?:\.\d+)? ?(?:ns|us|ms|s|kB|MB|MiB|GB)\b|^\|.*, (?:ns|us|ms|s|kB|MB|MiB|GB) \|")
COUNT = re.compile(r"(?<![\w.,])\d{1,3}(?:,\d{3})+(?![\d,]*\d)")
# A table that a script makes of the sources.
MADE = re.compile(r"<!-- made: .*?<!-- end -->", re.S)
# The most words of each page but the history of releases, of all pages, and the most lines of a release in that history.
BUDGET = {
    "CONTRIBUTING.md": 890, "README.md": 1200, "SECURITY.md": 800, "bench/README.md": 670, "bench/RESULTS.md": 1230,
    "bindings/go/README.md": 330, "bindings/python/README.md": 310, "bindings/rust/README.md": 190, "docs/ARCHITECTURE.md": 1730,
    "docs/DECISIONS.md": 2650, "docs/FETCHING.md": 1370, "docs/GUARANTEES.md": 5000, "docs/INSTALL.md": 1750,
    "docs/KUBERNETES.md": 780, "docs/LIBRARY.md": 3450, "docs/MODEL.md": 2300, "docs/MONITORING.md": 760, "docs/OPERATING.md": 2660,
    "docs/REFERENCE.md": 5000, "docs/RUNBOOKS.md": 4110, "docs/TESTING.md": 1080, "docs/TOUR.md": 770, "examples/README.md": 490,
    "tests/README.md": 220,
}
ALL_WORDS, LINES_OF_RELEASE = 40000, 10
# From which cosine on two sentences of so many words are alike, and how many such pairs two pages may have; others none.
LIKENESS, LEAST_WORDS = 0.45, 8
ALIKE = {
    ("CONTRIBUTING.md", "README.md"): 1, ("CONTRIBUTING.md", "docs/TESTING.md"): 1,
    ("README.md", "docs/INSTALL.md"): 1, ("README.md", "docs/OPERATING.md"): 1, ("SECURITY.md", "docs/REFERENCE.md"): 1,
    ("bindings/go/README.md", "bindings/python/README.md"): 1, ("bindings/python/README.md", "docs/LIBRARY.md"): 1,
    ("docs/ARCHITECTURE.md", "docs/GUARANTEES.md"): 1,
    ("docs/ARCHITECTURE.md", "docs/MODEL.md"): 2, ("docs/FETCHING.md", "docs/RUNBOOKS.md"): 1,
    ("docs/GUARANTEES.md", "docs/REFERENCE.md"): 1, ("docs/INSTALL.md", "docs/RUNBOOKS.md"): 4,
    ("docs/LIBRARY.md", "docs/MODEL.md"): 2, ("docs/MODEL.md", "docs/TOUR.md"): 2, ("docs/MONITORING.md", "docs/RUNBOOKS.md"): 2,
    ("docs/OPERATING.md", "docs/RUNBOOKS.md"): 4,
}
# Words of the second column that are no name of the code, and parts of paths that stand for any name.
PLAIN = {"SpiffeId", "NAME"}


def pages():
    names = subprocess.run(["git", "ls-files", "*.md"], cwd=TOP, capture_output=True, text=True, check=True).stdout
    return [TOP / name for name in names.split()]


def missing_links(page, text):
    for target, place in LINK.findall(text):
        leads = page.parent / target if target else page
        if not leads.exists():
            yield f"the link {target}"
        elif place and place not in places(leads.read_text()):
            yield f"the link {target}#{place}"


def places(text):
    """What links call the headings of a page."""
    headings = HEADING.findall(BLOCK.sub("", text))
    return {re.sub(r"[^\w -]", "", heading.lower()).replace(" ", "-") for heading in headings}


def missing_paths(text):
    for code in CODE.findall(text):
        path = code.split(" ")[0].rstrip("/")
        top = TOP / "crates" if OF_CRATE.match(path) else TOP
        is_path = (path.startswith(ROOTS) or top != TOP) and not re.search(r"NAME|/out/|[*<>{}$]|\.\.", path)
        if is_path and not (top / path).exists():
            yield f"the file {path}"


def missing_laws(text):
    """The laws that a page names, with their crate or without it, and no crate, or not that one, has."""
    for crate, law in LAW.findall("\n".join(CODE.findall(text))):
        sources = TOP.glob(f"crates/{crate.removesuffix('::') or '*'}/src/laws.rt")
        if not any(re.search(rf"\bfn {law}\b", source.read_text()) for source in sources):
            yield f"the law {crate}laws::{law}"


def names_of_code():
    words = set()
    for kind in ("src/**/*.rt", "specs/**/*.antt"):
        for path in TOP.glob(f"crates/*/{kind}"):
            words.update(WORD.findall(path.read_text()))
    return words


def missing_contracts(text, words):
    """What rows of the tables name in their second cell and the crates do not have."""
    for line in text.splitlines():
        cells = [cell.strip() for cell in line.strip("|").split("|")]
        if not line.startswith("| ") or len(cells) != 2 or cells[0] == "Claim":
            continue
        for word in {word for code in CODE.findall(cells[1]) for word in WORD.findall(code)} - PLAIN:
            if word not in words and word != "laws" and not (TOP / "crates" / word).exists():
                yield f"the contract {word}"


def faults_of_decisions():
    """Decisions without their three parts, numbers that stand twice, and numbers that are cited and have none."""
    text = (TOP / "docs/DECISIONS.md").read_text()
    numbers = re.findall(r"^- \*\*(D-\d+)\.", text, re.M)
    for entry in re.findall(r"^- .*$", text, re.M):
        if not DECISION.fullmatch(entry):
            yield f"DECISIONS.md: not a decision, `Instead of:` and `Because:`: {entry[:60]}"
    for number, count in Counter(numbers).items():
        if count > 1:
            yield f"DECISIONS.md: {number} stands {count} times"
    names = ["*.md", "*.rt", "*.antt", "*.edit", "*.txt", "tests", "tools", "deploy", "bench", "bindings", "include", "fedbundle", ".ci"]
    cited = subprocess.run(["git", "grep", "-ohE", r"\bD-[0-9]+\b", "--", *names], cwd=TOP, capture_output=True, text=True)
    for number in sorted(set(cited.stdout.split()) - set(numbers)):
        yield f"{number} is cited, and DECISIONS.md has no such entry"


def clauses_of_code():
    """The names of the clauses of all functions of each name."""
    clauses = defaultdict(set)
    for path in TOP.glob("crates/*/src/**/*.rt"):
        for name, contract in FUNCTION.findall(path.read_text()):
            clauses[name].update(CLAUSE.findall(contract))
    return clauses


def missing_clauses(text, clauses):
    """The clauses that a row names after functions, as in `take`, `merge`: `room`, and no such function has."""
    for line in text.splitlines():
        cells = [cell.strip() for cell in line.strip("|").split("|")]
        if not line.startswith("| ") or len(cells) != 2:
            continue
        for part in re.sub(r"\([^)]*\)", "", cells[1]).split(";"):
            functions, colon, named = part.partition("`: ")
            names = {found[-1] for code in CODE.findall(functions + "`") if (found := WORD.findall(code))}
            known = set().union(*(clauses[name] for name in names))
            for clause in CODE.findall(named) if colon else []:
                if clause not in known:
                    yield f"the clause {clause} of {', '.join(sorted(names))}"


def missing_code(text, languages, paths):
    """The blocks of code in these languages that are not those of the files."""
    sources = [path.read_text() for path in paths]
    for block in re.findall(rf"^```(?:{languages})\n(.*?)^```$", text, re.M | re.S):
        if not any(block in source for source in sources):
            yield f"the code {block.splitlines()[0]}"


def missing_code_of(page, text):
    if page.name == "LIBRARY.md":
        yield from missing_code(text, "rust", TOP.glob("crates/library_examples/src/*.rt"))
        yield from missing_code(text, "c", TOP.glob("bindings/c/*.c"))
        yield from missing_code(text, "go", TOP.glob("bindings/go/**/*.go"))
        yield from missing_code(text, "python", TOP.glob("bindings/python/*.py"))
        yield from missing_quotes(text)
        yield from missing_terms(text)
    if page.parent.parent == TOP / "bindings":
        yield from missing_code(text, "go|python|rust", (path for path in page.parent.rglob("*.*")
                                                         if path.suffix in (".go", ".py", ".rs")))


def contracts(source):
    """The contract of each function of a source, whole, as docs/LIBRARY.md quotes it: a line for what comes before the clauses,
    with the type before the name of a method, and one for each clause."""
    found, owner = set(), ""
    for item in ITEM.finditer(source):
        if not item["function"]:
            owner = item["owner"]
            continue
        end = CONTRACT.search(source, item.end()).start()
        function = TRAILING.sub(r"\1", " ".join(source[item.start("function"):end].split()))
        function = function.replace("fn ", f"fn {owner}::", 1) if item["indent"] else function
        lines = [function]
        while clause := WHOLE_CLAUSE.match(source, end):
            end = closing_brace(source, clause.end())
            lines.append(f"  {clause[1]}: {' '.join(source[clause.end():end - 1].split())}")
        found.add("\n".join(lines))
    return found


def closing_brace(source, place):
    """The place behind the brace that closes the one before this place."""
    depth = 1
    while depth:
        depth += {"{": 1, "}": -1}.get(source[place], 0)
        place += 1
    return place


def missing_quotes(text):
    """The contracts that docs/LIBRARY.md quotes and the named sources do not have, word for word and whole."""
    for path, quoted in QUOTED.findall("\n".join(QUOTES.findall(text))):
        source = TOP / "crates" / path
        known = contracts(source.read_text()) if source.exists() else set()
        for quote in re.split(r"\n(?=fn )", quoted.strip()):
            if quote not in known:
                yield f"the contract {quote.splitlines()[0]} in crates/{path}"


def missing_terms(text):
    """The terms that a row places in a file that does not define them, and those of the quoted contracts that have no row."""
    rows = re.findall(r"^\| (`.*`) \| `(\w+/specs/\S+\.antt)` \|$", text, re.M)
    for terms, path in rows:
        source = TOP / "crates" / path
        known = DEFINED.findall(source.read_text()) if source.exists() else []
        yield from (f"the term {term} in crates/{path}" for term in CODE.findall(terms) if term not in known)
    listed = {term for terms, _ in rows for term in CODE.findall(terms)}
    defined = {name for path in TOP.glob("crates/*/specs/**/*.antt") for name in DEFINED.findall(path.read_text())}
    clauses = re.findall(r"^  .*$", "\n".join(QUOTES.findall(text)), re.M)
    used = {word for clause in clauses for word in FREE.findall(clause) if f"λ {word}." not in clause}
    yield from (f"a row for the term {term}" for term in sorted(used & defined - listed))


def faults_of_c():
    """What the compiler says of the C of the pages, if there is one."""
    for path in TOP.glob("bindings/c/*.c") if can("cc", "the C of the pages by a compiler") else []:
        flags = ["-std=c11", "-fsyntax-only", "-Wall", "-Wextra", "-Werror", f"-I{TOP}/include"]
        done = subprocess.run(["cc", *flags, path], capture_output=True, text=True)
        if done.returncode:
            yield f"{path.relative_to(TOP)}: {done.stderr.strip()}"


def faults_of_pictures():
    """The pictures that are not those that their scripts draw."""
    graph = (TOP / "docs/trust-flow.dot").read_text()
    for picture, script in [("docs/trust-flow.svg", "tools/picture.py"), ("docs/site.svg", "tools/site-picture.py")]:
        drawn = subprocess.run([TOP / script], input=graph, capture_output=True, text=True, check=True).stdout
        if drawn != (TOP / picture).read_text():
            yield f"{picture}: the picture that {script} draws is not there"


def statements(text):
    """The sentences of a page, and the rows of its tables, each with the head of its table; and the text that names what each
    is about: itself, and for a row also the sentence before the table."""
    head = sentence = ""
    for line in text.splitlines():
        if not line.startswith("|"):
            head = ""
            for sentence in re.split(r"(?<=[.;]) ", line) if line else []:
                yield sentence, sentence
        elif not head:
            head = line
        else:
            yield f"{head} {line}", f"{sentence} {head} {line}"


def measured(page):
    """Which work over how many receipts, records or bytes a page gives a time or a size of."""
    for heading, part in parts(page.read_text()):
        of_part = {heading} & RESULTS if page.name == "RESULTS.md" else set()
        for statement, subject in statements(part):
            if FIGURE.search(statement):
                named = of_part | {work for work, name in MEASURED.items() if name.search(subject)}
                yield from ((work, count) for work in named for count in COUNT.findall(statement))


def parts(text):
    """The parts of a page, each with its heading of the second level; what comes before the first has none."""
    before, *others = re.split(r"^## ", text, flags=re.M)
    yield "", before
    for part in others:
        heading, _, rest = part.partition("\n")
        yield heading, rest


def faults_of_figures():
    """Work whose figures over one number of receipts, records or bytes are on two pages: one of them would become wrong."""
    homes = defaultdict(set)
    for page in pages():
        for measure in measured(page):
            homes[measure].add(str(page.relative_to(TOP)))
    for (work, count), names in sorted(homes.items()):
        if len(names) > 1:
            yield f"{' and '.join(sorted(names))} have figures of {work} over {count}: one page has them"


def comments():
    """What the comments of the crates say, with no line break within one."""
    names = subprocess.run(["git", "ls-files", "crates"], cwd=TOP, capture_output=True, text=True, check=True).stdout
    for path in (TOP / name for name in names.split() if re.search(r"/(?:src|specs|proofs)/", name)):
        if path.suffix in COMMENTS:
            whole, sign = COMMENTS[path.suffix]
            yield from (sign.sub("", comment).replace("\n", " ") for comment in whole.findall(path.read_text()))


def faults_of_tables():
    """What tools/reference.py says of docs/REFERENCE.md and docs/GUARANTEES.md."""
    yield from subprocess.run([TOP / "tools/reference.py", "--check"], capture_output=True, text=True).stdout.splitlines()


def faults_of_alerts():
    """Alerts and warnings that the first table of docs/RUNBOOKS.md lacks, or sends elsewhere than the alert."""
    rows = [line for line in next(parts((TOP / "docs/RUNBOOKS.md").read_text()))[1].splitlines() if line.startswith("| ")]
    rules = re.findall(r'- alert: (\w+)$.*?^ +runbook: "(.*?)"$', (TOP / "deploy/prometheus-rules.yml").read_text(), re.M | re.S)
    for alert, place in rules:
        leads = {f"{target or 'RUNBOOKS.md'}#{to}" for row in rows if f"`{alert}`" in row for target, to in LINK.findall(row)}
        if leads != {place}:
            yield f"RUNBOOKS.md: the alert {alert} leads to {place}, and its rows to {sorted(leads)}"
    source = (TOP / "crates/status_warnings/specs/WarningLines.antt").read_text()
    for kind in re.findall(r'^kind_(?:of_fault|name) .*= codes "([a-z-]+)"$', source, re.M):
        if not any(re.search(rf"`(?:warning: )?{kind}`", row) for row in rows):
            yield f"RUNBOOKS.md: no row for the warning {kind}"


def lasting_pages():
    """The pages without the history of releases, each with its name."""
    return {str(page.relative_to(TOP)): page for page in pages() if page.name != "CHANGELOG.md"}


def faults_of_sizes():
    """Pages with more words than BUDGET allows, by `wc -w`, and those that it lacks or that are gone; all pages together; and releases
    of CHANGELOG with too many lines."""
    sizes = {name: len(page.read_text().split()) for name, page in lasting_pages().items()}
    for name in sorted(sizes.keys() ^ BUDGET.keys()):
        yield f"{name}: it is not a page, or BUDGET has no number for it"
    for name, size in sizes.items():
        if size > BUDGET.get(name, size):
            yield f"{name}: {size} words, and {BUDGET[name]} may be there"
    history = (TOP / "CHANGELOG.md").read_text()
    total = sum(sizes.values()) + len(history.split())
    if total > ALL_WORDS:
        yield f"all pages: {total} words, and {ALL_WORDS} may be there"
    for release, part in parts(history):
        lines = sum(bool(line) for line in part.splitlines())
        if release and lines > LINES_OF_RELEASE:
            yield f"CHANGELOG.md: {release} has {lines} lines, and {LINES_OF_RELEASE} may be there"


def sentences():
    """The sentences of all pages, and the cells of tables, each with its page and the counts of its words."""
    for name, page in lasting_pages().items():
        text = re.sub(r"\]\([^)]*\)", "]", MADE.sub("", BLOCK.sub("", page.read_text())))
        for sentence in re.split(r"(?<=[.?!]) |\||\n(?:[#>*-]|\s*\n|\s*\d+\.)", text):
            words = Counter(re.findall(r"[a-z][a-z'-]+", re.sub(r"`[^`]*[/.:][^`]*`", "", sentence.lower())))
            if words.total() >= LEAST_WORDS:
                yield name, " ".join(sentence.split()), words


def alike():
    """The pairs of sentences of two pages that are alike, by their pages."""
    found, pairs, places = list(sentences()), defaultdict(list), defaultdict(list)
    spread = Counter(word for _, _, words in found for word in words)
    weights = {word: math.log(len(found) / count) for word, count in spread.items()}
    for page, sentence, words in found:
        vector = {word: count * weights[word] for word, count in words.items()}
        size, products = sum(part * part for part in vector.values()) ** 0.5, Counter()
        for word, part in vector.items():
            if spread[word] > len(found) / 25:
                continue
            for other in places[word]:
                products[other[:3]] += part * other[3]
            places[word].append((page, sentence, size, part))
        for (there, other, length), product in products.items():
            if there != page and product >= LIKENESS * size * length:
                pairs[tuple(sorted((there, page)))].append((other, sentence))
    return pairs


def faults_of_likeness(printed):
    """Two pages with more sentences that are alike than ALIKE allows; with `printed` it prints all."""
    for names, pairs in sorted(alike().items()):
        most, shown = ALIKE.get(names, 0), "".join(f"\n    {one}\n    = {other}" for one, other in pairs)
        if printed:
            print(f"{len(pairs)} of {most} {' '.join(names)}{shown}")
        if len(pairs) > most:
            yield f"{' and '.join(names)}: {len(pairs)} pairs of sentences are alike, and {most} may be{shown}"


def uses_of_words():
    """Where each avoided word is looked for, how many uses there are outside of code, and how many there may be."""
    texts = [MADE.sub("", BLOCK.sub("", page.read_text())) for page in pages()]
    prose = [CODE.sub("", "\n".join(part)) for part in (texts, comments())]
    for word, (pattern, *most) in AVOIDED.items():
        uses = [len(re.findall(pattern, part, re.M | re.I)) for part in prose]
        yield from zip(("on the pages", "in comments"), [word, word], uses, most)


def main():
    words, clauses, faults = names_of_code(), clauses_of_code(), []
    for page in pages():
        text = page.read_text()
        missing = list(missing_links(page, text))
        # What the history of releases names may be gone.
        if page.name != "CHANGELOG.md":
            missing += [*missing_paths(text), *missing_laws(text)]
        if page.name == "GUARANTEES.md":
            missing += list(missing_contracts(text, words)) + list(missing_clauses(text, clauses))
        missing += missing_code_of(page, text)
        faults += [f"{page.relative_to(TOP)}: {what} is not there" for what in missing]
    faults += [*faults_of_decisions(), *faults_of_c()]
    faults += [*faults_of_pictures(), *faults_of_figures(), *faults_of_tables(), *faults_of_alerts(), *faults_of_sizes()]
    faults += faults_of_likeness("--alike" in sys.argv[1:])
    for place, word, uses, most in uses_of_words():
        print(f"{uses:4} uses of {most:4} {place}  {word}")
        faults += [f"{word}: {uses} uses {place}, and {most} may be there"] if uses > most else []
    print("\n".join(faults + [f"{len(pages())} pages, {len(faults)} things missing"]))
    sys.exit(1 if faults else 0)


if __name__ == "__main__":
    main()

"""What the verdict on a wrong body rests on: a digest of it, by which tests/edits.py knows what is due.

A wrong body is refused because it does not do what its function's contract says. So its verdict rests on what these mean:
- the edit, and the whole of each function that it changes, with the head of its impl, and the files of proofs of that function
- what the function's code and contract name: the contracts of the functions that it calls, types with the contracts of what is
  implemented for them, traits, constants, and definitions of specs/, of this crate and of those below
- and what these name in turn, to the end. A method is looked for by its name, in each type and trait that was reached.
An edit of something else, as a constant, rests on that and on each function of its crate that names it.

Comments and layout do not count, and bound names of definitions and of clauses do not: variables of λ, of Π and of patterns.

Left out is the following, and this is why:
- Bodies of other functions, since a proof reads of them only the contracts.
- Lemmas, and the proofs of other functions: a proof is only accepted of what is true, so no lemma can have a body accepted that
  breaks its contract. Yet a body that was refused only because its proof did not suit it, and breaks no promise, may be accepted
  with another lemma. Its contract was too weak before, and then the sample finds it, or `--all`.
- What the function does not name, as a definition that only a lemma uses: a contract cannot name one of proofs/.
- Variants of enums, and equations by cases on them, that nothing reached names: what is said of other variants does not say anything of
  these. That is an argument and no proof: a clause that says that there is some variant can escape it.
- The kit, which a line of the ledger has by itself.
"""
import hashlib
import re
from collections import defaultdict
from dataclasses import dataclass
from functools import cached_property, lru_cache

import ledger
import waves

STRING = r"""b?r(?P<h>\#*)".*?"(?P=h)|b?"(?:[^"\\]|\\.)*"|b?'(?:[^'\\\n]|\\[^\n]+?)'(?!\w)"""
ANTT_STRING = r'"(?:[^"\\]|\\.)*"'
# The comments of a file, or the strings that are none, by the ending of the file's name.
COMMENTS = {
    ".rt": re.compile(rf"(?P<kept>{STRING})|//[^\n]*|/\*.*?\*/", re.S),
    ".antt": re.compile(rf"(?P<kept>{ANTT_STRING})|(?<!\S)--[^\n]*"),
}
# A word that can be a bound name: `_` is none, and stands for what is inferred where nothing binds it.
WORD = re.compile(r"(?!_\b)[^\W\d][\w'-]*")
# The words of a Rust text, each with what stands before it.
NAMED = re.compile(r"(::\s*|\.\s*)?\b([A-Za-z_]\w*)(?=(\s*(?:\(|::))?)")
VISIBLE = r"(?:pub(?:\([^)]*\))? )?"
VALUE = re.compile(rf"{VISIBLE}(?:struct|enum|union|type|const|static(?: mut)?) (\w+)")
DEFINED = re.compile(r"(?:(?:abbrev|unfoldable|opaque|pub|record|data|infix[lr]? \d+) )*(\S+)")
EQUATION = re.compile(r"abbrev |unfoldable |opaque |pub |record |data |infix")


def sum_of(text):
    return hashlib.sha256(text.encode()).hexdigest()


def without_comments(text, ending):
    """The text without its comments, each line at its place."""
    return COMMENTS[ending].sub(lambda it: it[0] if it["kept"] else "\n" * it[0].count("\n"), text)


def shape_of(text):
    """The source with blanks in the place of what its strings have, each line at its place."""
    return re.sub(STRING, lambda it: re.sub(r"[^\n]", " ", it[0]), text, flags=re.S)


def plain(text):
    """The text with a blank at most where a layout has one, and no comma before a bracket that closes."""
    parts = re.split(rf"({STRING})", text, flags=re.S)
    strings, others = parts[1::3], parts[::3]
    kept = [re.sub(r" ?([(){}\[\];,]) ?", r"\1", re.sub(r"\s+", " ", it)) for it in others]
    return re.sub(r",([)}\]])", r"\1", "".join(a + b for a, b in zip(kept, [*strings, ""])))


# ---- names

def branches(text):
    """The paths of a `use`, each with the name that it brings: `a::{b, c::d as e}`, or the same with dots."""
    text = text.strip()
    head, brace, rest = text.partition("{")
    if not brace:
        path, _, new = text.partition(" as ")
        path = re.split(r"::|\.", re.sub(r"\s", "", path))
        yield path, new.strip() or path[-1]
        return
    depth, start, inside = 0, 0, rest.rstrip().removesuffix("}") + ","
    for at, letter in enumerate(inside):
        depth += (letter == "{") - (letter == "}")
        if letter == "," and depth == 0:
            if inside[start:at].strip():
                yield from branches(head + inside[start:at].strip())
            start = at + 1


class Scope:
    """The names that a file can use: for each the crate and the name of what it stands for, or None if that is the kit's."""

    def __init__(self, crate, crates):
        self.crate, self.crates, self.names, self.enums = crate, crates, defaultdict(set), []

    def add(self, path, name):
        head = path[0]
        if head == "Rattle":
            is_variant = "TheVariants" in path[:-1]
            target = (path[1], f"{path[-3]}.{path[-1]}" if is_variant else path[-2] if path[-1] == "TheVariants" else path[-1])
        else:
            crate = self.crate if head in ("crate", "self", "super") else head
            target = (crate, path[-2] if path[-1] == "self" else path[-1])
        name = path[-2] if name == "self" else name
        for part in {name, *name.split("◌")} - {""}:
            self.names[part].add(target if target[0] in self.crates else None)

    def keys(self, name):
        return {it for it in self.names.get(name, ()) if it}

    def named_by(self, text):
        """What a Rust text, or a clause in it, names; and the names of methods that it may call."""
        keys, calls, root, last = set(), set(), None, ""
        for found in NAMED.finditer(re.sub(STRING, '""', text, flags=re.S)):
            before, name, is_head = (found[1] or "").strip(), found[2], bool(found[3])
            if before == "::":
                keys |= {(root or self.crate, it) for it in (name, *(f"{own}.{name}" for own in (self.enums if last == "Self" else [last])))}
                calls.add(name)
                last = name
                continue
            if before == "." and is_head:
                calls.add(name)
            own = self.keys(name)
            if before != ".":
                keys |= own
            if before == "." and root:
                keys |= {(root, name), (root, f"{last}.{name}")}
            first, last = min(own, default=(name, name))
            root = self.crate if name in ("crate", "self", "super") else first
        return keys | {key for it in re.findall(r"[^\s\w(){}\[\];,.\"]+", text) for key in self.keys(it)}, calls

    def named_in(self, text):
        """What a definition names."""
        keys = set()
        for word in re.findall(r"[^\s(){}\[\];,]+", re.sub(r'"(?:[^"\\]|\\.)*"', '""', text)):
            head, _, rest = word.partition(".")
            keys |= self.keys(head)
            member = rest.split(".")[0]
            keys |= {(crate, it) for crate, name in self.keys(head) if member for it in (member, f"{name}.{member}")}
        return keys


# ---- bound names

class Bound:
    """Puts numbers in the place of bound names, so that two texts which differ only in these are one. A binder that hides
    another one names it too. Where it is not known that a name is bound, the name stays."""

    def __init__(self, names):
        self.names, self.scopes, self.count = names, [{}], 0

    def number(self, name):
        return next((it[name] for it in reversed(self.scopes) if name in it), None)

    def bind(self, name):
        hidden, self.count = self.number(name), self.count + 1
        self.scopes[-1][name] = f"#{self.count}"
        return f"#{self.count}" + (f"/{hidden}" if hidden else "")

    def binders(self, tokens, at):
        """The place after the names of a binder `(x y :` that begins here, or None."""
        end = at + 1
        while end < len(tokens) and WORD.fullmatch(tokens[end]):
            end += 1
        return end if end > at + 1 and tokens[end : end + 1] == [":"] else None

    def words(self, text):
        """The tokens of an equation, a type or a clause, with numbers for bound names."""
        tokens, made, at = re.findall(r'"(?:[^"\\]|\\.)*"|[(){}\[\];,]|[^\s(){}\[\];,"]+', text), [], 0
        is_in_lambda = False
        while at < len(tokens):
            token = tokens[at]
            head, dot, rest = token.partition(".")
            if token in "({[":
                end = self.binders(tokens, at) if token != "[" else None
                made.append(token)
                if end:
                    made += [self.bind(name) for name in tokens[at + 1 : end]]
                    at = end - 1
                self.scopes.append({})
            elif token in ")}]":
                if len(self.scopes) > 1:
                    self.scopes.pop()
                made.append(token)
            elif token == "λ" or is_in_lambda:
                is_in_lambda = not (dot and not rest)
                name = head if token != "λ" else ""
                made.append(self.bind(name) + dot if WORD.fullmatch(name) and name not in self.names and not rest else token)
            elif made[-1:] == ["let"] and WORD.fullmatch(token):
                made.append(self.bind(token))
            elif tokens[at + 1 : at + 2] == ["="] and made[-1:] in (["{"], [";"]):
                made.append(token)
            else:
                number = self.number(head) if WORD.fullmatch(head) else None
                made.append(number + dot + rest if number else token)
            at += 1
        return " ".join(made)

    def equation(self, text):
        """An equation, whose left side binds each word that names nothing."""
        left, equals, right = re.split(r"(?<=\s)(=)(?=\s)", text, maxsplit=1) if re.search(r"\s=\s", text) else (text, "", "")
        if equals:
            for name in re.findall(r"(?<![^\s(){}])[^\s(){}.]+(?![^\s(){}])", left):
                if WORD.fullmatch(name) and name not in self.names and name not in self.scopes[0]:
                    self.bind(name)
        return self.words(text)


# ---- what a file has

class Piece:
    """A part of a file: the sum of its text as it counts, what that names, and the methods that it may call."""

    def __init__(self, crate, text, keys, calls=(), needs=()):
        self.crate, self.sum, self.keys, self.calls = crate, sum_of(f"{crate}: {text}"), frozenset(keys), frozenset(calls)
        self.text, self.needs = text, frozenset(needs)


@dataclass
class Part:
    """A function or another item of a source: its lines, from 0, the piece of all of it, and of its contract."""

    file: str
    name: str
    first: int
    last: int
    whole: Piece
    contract: Piece
    owner: Piece
    is_function: bool


def chunks(lines, first, last, indent):
    """The items at this indent, each as the places of its first line and after its last."""
    heads = [at for at in range(first, last) if re.match(rf" {{{indent}}}[\w#]", lines[at])]
    joined = [at for n, at in enumerate(heads) if not (n and lines[heads[n - 1]].lstrip().startswith("#"))]
    return list(zip(joined, [*joined[1:], last]))


def skip_attributes(lines, first, last):
    return next((at for at in range(first, last) if not lines[at].lstrip().startswith(("#", ")]")) and lines[at].strip()), first)


class Source:
    """A source: what it has by name, and its functions and other items."""

    def __init__(self, crate, file, text, crates):
        text = without_comments(text, ".rt")
        self.crate, self.file, self.lines, self.shape = crate, file, text.split("\n"), shape_of(text).split("\n")
        self.scope, self.found, self.methods, self.parts = Scope(crate, crates), [], [], []
        self.exports = []
        for is_pub, path in re.findall(r"^\s*(pub(?:\([^)]*\))? )?(?:ghost )?use ([^;]+);", text, re.M):
            for path, name in branches(path):
                self.scope.add(path, name)
                if is_pub and path[0] in crates:
                    self.exports.append((name, (path[0], path[-1])))
        self.items = chunks(self.shape, 0, len(self.lines), 0)
        for first, last in self.items:
            at = skip_attributes(self.shape, first, last)
            found = re.match(rf"{VISIBLE}(?:const |unsafe |extern \S+ )*(?:struct|enum|union|type|fn|trait|const|static(?: mut)?) (\w+)", self.lines[at])
            if found:
                self.scope.names[found[1]].add((crate, found[1]))
                self.scope.enums += [found[1]] if " enum " in f" {self.lines[at]}" else []
        for first, last in self.items:
            self.read_item(first, last)

    def piece(self, text, contract=True):
        keys, calls = self.scope.named_by(text)
        counted = Bound(self.scope.names).words(plain(text)) if contract else plain(text)
        return Piece(self.crate, counted, frozenset(keys), frozenset(calls))

    def text(self, first, last):
        return "\n".join(self.lines[first:last])

    def function(self, first, last, indent, owner):
        """Reads a function, and returns its name and the piece of its contract."""
        at = skip_attributes(self.shape, first, last)
        end = at + 1
        while not ledger.is_at_body([line for line in self.shape[at:end] if line.strip()], " " * indent) and end < last:
            end += 1
        name = re.search(r"\bfn (\w+)", self.lines[at])[1]
        is_const = "const fn" in self.lines[at]
        contract = self.piece(self.text(at, last if is_const else end))
        whole = self.piece(self.text(first, end))
        body = self.piece(self.text(end, last), contract=False)
        whole = Piece(self.crate, whole.text + body.text, whole.keys | body.keys, whole.calls | body.calls | {name})
        self.parts.append(Part(self.file, name, first, last, whole, contract, owner, not is_const))
        return name, contract

    def read_item(self, first, last):
        at = skip_attributes(self.shape, first, last)
        line = self.lines[at]
        if ledger.FUNCTION.match(line):
            name, contract = self.function(first, last, 0, None)
            self.found.append(((self.crate, name), contract))
        elif waves.OWNER.match(line):
            self.read_owner(first, at, last)
        elif value := VALUE.match(line):
            piece = self.piece(self.text(first, last))
            self.parts.append(Part(self.file, value[1], first, last, piece, piece, None, False))
            variants = self.variants(first, at, last)
            self.found += [((self.crate, f"{value[1]}.{name}"), Piece(piece.crate, f"{value[1]}.{it.text}", it.keys)) for name, it in variants]
            self.found.append(((self.crate, value[1]), self.piece(self.text(first, at + 1)) if variants else piece))

    def variants(self, first, at, last):
        """The variants of an enum whose order has no meaning, each with its piece."""
        if not re.search(r"\benum ", self.lines[at]) or re.search(r"\bOrd\b|\brepr\b| = ", self.text(first, last)):
            return []
        return [(self.lines[a].split("(")[0].split("{")[0].strip(" ,"), self.piece(self.text(a, b)))
                for a, b in chunks(self.shape, at + 1, self.shape.index("}", at), 4)]

    def read_owner(self, first, at, last):
        """An impl or a trait: its head and its ghost members count for its type, and the contracts of methods by name; those
        of an impl of a trait count for the type too, since code calls some of them without a name, as `==` and `?` do."""
        inner = [it for it in chunks(self.shape, at + 1, last, 4) if not re.match(r" *(ghost )?use ", self.shape[it[0]])]
        is_function = {it: bool(ledger.FUNCTION.match(self.lines[skip_attributes(self.shape, *it)])) for it in inner}
        begin = next((n for n in range(at, last) if self.shape[n].endswith(("{", "{}"))), at) + 1
        kept = [self.text(first, begin), *(self.text(*it) for it in inner if not is_function[it])]
        owner = self.piece("\n".join(kept))
        methods = [self.function(*it, 4, owner) for it in inner if is_function[it]]
        name, of_trait = waves.owner_in(self.text(at, begin))
        for key in self.scope.keys(name) or {(self.crate, name)}:
            self.found.append((key, owner))
            self.found += [(key, contract) for _, contract in methods if of_trait]
            self.methods += [(key, method, contract) for method, contract in methods if not of_trait]


def definitions(text):
    """The definitions of a file of specs/: the name of each, and its lines."""
    made = []
    for line in text.split("\n"):
        if line.strip() and not line.startswith(" ") and EQUATION.match(line):
            made.append([DEFINED.match(line)[1], []])
        if made and line.strip() and not re.match(r"(pub )?(use|mod) ", line):
            made[-1][1].append(line)
    return [(name, lines) for name, lines in made if name not in ("use", "mod")]


def read_definitions(crate, text, crates):
    """What the definitions of a file of specs/ are, by name."""
    text = without_comments(text, ".antt")
    scope = Scope(crate, crates)
    for path in re.findall(r"^(?:pub )?use ([^\n]+(?:\n [^\n]*)*)", text, re.M):
        for path, name in branches(path):
            scope.add(path, name)
    items = definitions(text)
    members = [(name, re.findall(r"^  (?:pub )?(\S+) :", "\n".join(lines), re.M)) for name, lines in items if " data " in f" {lines[0]}"]
    for name, own in [(name, [name]) for name, _ in items] + members:
        for member in own:
            scope.add(["Rattle", crate, name], member)
    for name, lines in items:
        starts = [n for n, line in enumerate(lines) if not line.startswith(" ")]
        equations = ["\n".join(lines[a:b]) for a, b in zip(starts, [*starts[1:], len(lines)])]
        always = []
        for equation in equations:
            left, _, right = equation.partition(" = ")
            needs = {key for key in scope.named_in(left) if "." in key[1]} if right else set()
            text = Bound(scope.names).equation(equation)
            if needs:
                yield (crate, name), Piece(crate, f"{len(always)} {text}", scope.named_in(right), needs=needs)
            else:
                always.append((text, scope.named_in(equation)))
        piece = Piece(crate, "\n".join(text for text, _ in always), {key for _, keys in always for key in keys})
        for key in [name, *(member for own, found in members if own == name for member in found)]:
            yield (crate, key), piece


class Grounds:
    """What verdicts rest on, in the repository at `top`, whose crates use one another as `used` has it."""

    def __init__(self, top, used):
        self.top, self.used = top, used

    def files(self, crate, part, ending):
        folder = self.top / "crates" / crate
        return [(str(path.relative_to(folder)), path.read_text()) for path in sorted((folder / part).rglob(f"*{ending}"))]

    @lru_cache(maxsize=None)
    def below(self, crate):
        found = [crate]
        for at in found:
            found += [other for other in self.used[at] if other not in found]
        return frozenset(found)

    @lru_cache(maxsize=None)
    def sources(self, crate):
        return [Source(crate, file, text, self.used) for file, text in self.files(crate, "src", ".rt")]

    @cached_property
    def known(self):
        """All pieces by the crate and the name of what they are of, the methods of each, and what crates pass on."""
        pieces, methods, exports = defaultdict(set), defaultdict(lambda: defaultdict(set)), {}
        for crate in self.used:
            for source in self.sources(crate):
                for key, piece in source.found:
                    pieces[key].add(piece)
                for key, method, piece in source.methods:
                    methods[key][method].add(piece)
                exports.update({(crate, name): key for name, key in source.exports})
            for _, text in self.files(crate, "specs", ".antt"):
                for key, piece in read_definitions(crate, text, self.used):
                    pieces[key].add(piece)
        return pieces, methods, exports

    def reach(self, crate, roots):
        """The pieces that these rest on, themselves among them."""
        pieces, methods, exports = self.known
        calls, below = {name for piece in roots for name in piece.calls}, self.below(crate)
        left, seen, found, waiting = {key for piece in roots for key in piece.keys}, set(), set(roots), set()
        while left:
            key = left.pop()
            seen.add(key)
            new = {piece for piece in pieces.get(key, ()) if piece.crate in below}
            new |= {piece for name, found in methods.get(key, {}).items() if name in calls for piece in found}
            waiting |= {piece for piece in new if not piece.needs <= seen}
            new = (new | {piece for piece in waiting if key in piece.needs}) - found
            ready = {piece for piece in new if piece.needs <= seen}
            found |= ready
            waiting -= ready
            left |= {exports[key]} if key in exports and key not in pieces else set()
            left |= {it for piece in ready for it in piece.keys}
            left -= seen
        return found

    def changed(self, crate, pairs):
        """The parts that an edit changes, or that name what it changes; or None if it changes something else than sources."""
        parts = [part for source in self.sources(crate) for part in source.parts]
        found = []
        for file, line in waves.places_of(self.top / "crates" / crate, pairs):
            mine = [part for part in parts if line is not None and part.file == file and part.first <= line < part.last]
            if not mine:
                return None
            found += mine + [part for it in mine if not it.is_function for part in parts if (crate, it.name) in part.whole.keys]
        return found

    @lru_cache(maxsize=None)
    def proof_files(self, crate):
        """The files of proofs of functions, by the folder of each."""
        found = defaultdict(list)
        for file, text in self.files(crate, "proofs", ".antt"):
            found[tuple(file.split("/")[1:-1])].append(file + plain(without_comments(text, ".antt")))
        return found

    def proofs(self, crate, parts):
        """The files of proofs of these functions."""
        functions = [waves.Function(part.file, part.name, 0, 0, 0, False) for part in parts if part.is_function]
        for folders, texts in self.proof_files(crate).items():
            if any(it.is_called("::".join(folders[:n])) for it in functions for n in range(1, len(folders) + 1)):
                yield from texts

    def digest(self, crate, edit):
        """The digest of what the verdict on this edit rests on."""
        pairs = waves.pairs_of(edit)
        parts = self.changed(crate, pairs)
        if parts is None:
            return self.of_crate(crate, edit)
        new = [self.in_file(crate, file).piece(text, contract=False) for file, _, text in pairs]
        roots = [*new, *(piece for part in parts for piece in (part.whole, part.owner) if piece)]
        sums = sorted({piece.sum for piece in self.reach(crate, roots)})
        return sum_of("\n".join([edit.read_text(), *sums, *self.proofs(crate, parts)]))[:16]

    def in_file(self, crate, file):
        return next(source for source in self.sources(crate) if source.file == file)

    def of_crate(self, crate, edit):
        """The digest of an edit that is not one of sources: of all that its crate has."""
        own = [file + text for part in ("src", "specs", "proofs") for ending in COMMENTS for file, text in self.files(crate, part, ending)]
        return sum_of("\n".join([edit.read_text(), *own]))[:16]

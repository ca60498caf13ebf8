"""Reads the sources of this repository for the scripts beside it: the definitions of `specs/`, the types and public calls of `src/`, their clauses,
and which definition each of them cites. It knows as much of the two languages as that takes, and no more."""
import os
import re
from dataclasses import dataclass

TOP = os.path.dirname(os.path.dirname(os.path.abspath(__file__)))
# a word of a definition or a clause: a name, perhaps behind a module's name and a dot
WORD = re.compile(r"[^\s(){}\[\],;|]+")
USE = re.compile(r"(?:^|\s)(?:pub |ghost )?use\s+(Rattle\.[\w.]+?)(?:\.\{([^}]*)\})?(?:\s+as\s+(\w+))?\s*;?\s*(?=\n|$)")
DECLARED = re.compile(r"Rattle\.(\w+)\.specs\.declared\.(?:\w+\.)*?(\w+?)(?:\.TheVariants|\.TheInside)?$")


def read(path):
    with open(os.path.join(TOP, path), encoding="utf-8") as file:
        return file.read()


def first_word(text):
    it = re.match(r"\w+", text or "")
    return it[0] if it else None


def without_comments(text):
    return re.sub(r"--[^\n]*", "", text)


def listed():
    """Each crate of crates.txt with all that it stands on, libraries of the kit among them."""
    lines = (line.partition("#")[0].strip() for line in read("crates.txt").splitlines())
    return {line.partition(":")[0].split()[0]: line.partition(":")[2].split() for line in lines if line}


def crates():
    """The crates with those of this repository that each stands on, lowest first."""
    below = {name: [it for it in names if it in listed()] for name, names in listed().items()}
    order = []

    def place(name):
        if name not in order:
            for it in below[name]:
                place(it)
            order.append(name)

    for name in below:
        place(name)
    return {name: below[name] for name in order}


def uses(text):
    """The names that the `use` lines of a text bring in: name here -> (module, name there); None for a whole module."""
    scope = {}
    for module, items, other in USE.findall(text):
        if not items:
            scope[other or module.rpartition(".")[2]] = (module, None)
        for item in filter(None, (it.strip() for it in items.split(","))):
            there, _, here = item.partition(" as ")
            scope[(here or there).strip()] = (module, there.strip())
    return scope


def ghost_uses(text):
    return uses("\n".join(re.sub(r"\s+", " ", it) for it in re.findall(r"ghost use [^;]*;", text)))


def closing(text, at, opens, closes):
    """The place behind the bracket that closes the one at `at`."""
    depth = 0
    for i in range(at, len(text)):
        depth += (text[i] == opens) - (text[i] == closes)
        if depth == 0:
            return i + 1
    return len(text)


@dataclass(eq=False)
class Definition:
    """One declaration of a file of `specs/`: its kind is record, data, abbrev, unfoldable, or lemma where it has none of these words."""

    file: "Specs"
    kind: str
    name: str
    sentence: str
    text: str

    def __repr__(self):
        return f"{self.file.crate}/{self.file.name}.{self.name}"


@dataclass(eq=False)
class Type:
    """A type or a trait of `src/`."""

    crate: str
    path: str
    line: int
    kind: str
    name: str
    sentence: str

    def __repr__(self):
        return f"{self.crate}::{self.name}"


@dataclass(eq=False)
class Call:
    """A function, or a method of a type or a trait, with its clauses: `ensures` or `requires`, a name, perhaps empty, and a text."""

    crate: str
    path: str
    line: int
    owner: str
    trait: str
    name: str
    is_public: bool
    clauses: list
    text: str

    def title(self):
        return f"{self.owner}::{self.name}" if self.owner else self.name

    def ensured(self):
        return [it for it in self.clauses if it[0] == "ensures"]


@dataclass(eq=False)
class Ghost:
    """A ghost member of a trait or of an impl block, with the names that stand in its block."""

    owner: str
    trait: str
    name: str
    text: str
    scope: dict


class Specs:
    """One file of `specs/`."""

    HEAD = re.compile(r"^(?P<words>(?:(?:abbrev|unfoldable|pub|record|data|syntax|ruleset)\s+)*)(?P<name>[^\s(){},;:]+)\s*[:({].*$")
    KINDS = ("record", "data", "abbrev", "unfoldable", "syntax", "ruleset")

    def __init__(self, crate, path):
        self.crate, self.path = crate, path
        self.name = path.partition("/specs/")[2].removesuffix(".antt").replace("/", ".")
        self.module = f"Rattle.{crate}.specs.{self.name}"
        text = read(path)
        self.lines = text.splitlines()
        self.scope = uses(text)
        first = next((k for k, line in enumerate(self.lines) if not line.startswith("--")), len(self.lines))
        self.head = [line[2:].strip() for line in self.lines[:first]]
        self.definitions = self.read_definitions()
        self.constructors = {name: it for it in self.definitions.values() if it.kind == "data" for name in re.findall(r"^ +(\S+)(?: \S+)* :", without_comments(it.text), re.M)}

    def named(self, name):
        """The definition of this name, or the data type with this constructor."""
        return self.definitions.get(name) or self.constructors.get(name)

    def sentence(self):
        """The head up to its first blank line or its source."""
        ends = next((k for k, line in enumerate(self.head) if not line or line.startswith(("Source:", "Own:", "Own."))), len(self.head))
        return " ".join(self.head[:ends])

    def flat_lines(self):
        """The lines behind the head, without the indentation of the modules with parameters around them, each with the text of these parameters."""
        around, is_opening = [], False
        for line in self.lines[len(self.head) :]:
            spaces = len(line) - len(line.lstrip(" "))
            while line.strip() and not is_opening and around and spaces < around[-1][0]:
                around.pop()
            if is_opening:
                around[-1] = (around[-1][0], f"{around[-1][1]} {line}")
            elif line.lstrip(" ").startswith("module "):
                around.append((spaces + 2, line))
                is_opening = True
            else:
                yield line[around[-1][0] :] if around else line, "\n".join(text for _, text in around)
            is_opening = is_opening and not line.rstrip().endswith("where")

    def read_definitions(self):
        found, above, now = {}, [], None
        for line, around in self.flat_lines():
            it = self.HEAD.match(line)
            if line.startswith("--"):
                # the heading of a part of the file is the sentence only where no other stands below it
                above = [] if above and above[0].startswith("----") else above
                above.append(line[2:].strip())
            elif not line.strip():
                above, now = [], None
            elif line.startswith(("use ", "pub use ", "pub mod ", "mod ", "unfolding ")):
                above = above if line.startswith("unfolding ") else []
            elif it and it["name"] not in found and (it["words"] or now is None or now.name != it["name"]):
                kind = next((word for word in self.KINDS if word in it["words"].split()), "lemma")
                now = found[it["name"]] = Definition(self, kind, it["name"], " ".join(above).removeprefix("---- "), f"{around}\n{line}")
                above = []
            elif now:
                now.text += f"\n{line}"
        return found


class Source:
    """One file of `src/`: its types, its functions with their clauses, and the ghost members of its traits and impl blocks."""

    ITEM = re.compile(r"^ *(?P<pub>pub(?:\([^)]*\))? )?(?P<kind>fn|struct|enum|trait|impl|mod)\b(?P<rest>.*)$", re.M)
    CLAUSE = re.compile(r"\b(ensures|requires)\b(?:\s+(\w+))?\s*\{|[{;]")

    def __init__(self, crate, path):
        self.crate, self.path = crate, path
        self.text = read(path)
        # without comments, at the same places
        self.plain = re.sub(r"//[^\n]*", lambda it: " " * len(it[0]), self.text)
        self.scope = ghost_uses(self.plain)
        self.types, self.calls, self.ghosts = [], [], []
        self.read_items()

    def line(self, at):
        return self.plain.count("\n", 0, at) + 1

    def doc(self, at):
        """The first paragraph of the comment above an item."""
        lines = []
        for line in reversed(self.text[:at].splitlines()):
            line = line.strip()
            if line.startswith("///"):
                lines.insert(0, line[3:].strip())
            elif not line.startswith("#["):
                break
        return " ".join(lines[: lines.index("")] if "" in lines else lines)

    def read_items(self):
        # the blocks around a place: where each ends, its owner and its trait
        around = []
        for it in self.ITEM.finditer(self.plain):
            at, kind, rest = it.start(), it["kind"], it["rest"].strip()
            around = [block for block in around if block[0] > at]
            if kind == "fn":
                self.read_call(it, around[-1] if around else None)
            elif kind in ("struct", "enum"):
                self.types.append(Type(self.crate, self.path, self.line(at), kind, first_word(rest), self.doc(at)))
            elif kind in ("impl", "trait") or rest.endswith("{"):
                opens = self.plain.index("{", at)
                ends = closing(self.plain, opens, "{", "}")
                owner, trait = None, None
                if kind == "trait":
                    owner = trait = first_word(rest)
                    self.types.append(Type(self.crate, self.path, self.line(at), kind, owner, self.doc(at)))
                elif kind == "impl":
                    head = re.sub(r"\s+", " ", self.plain[at:opens]).partition("impl")[2]
                    head = re.sub(r"<[^<>]*(?:<[^<>]*>[^<>]*)*>", "", head).strip()
                    trait, _, owner = (part.strip() or None for part in head.rpartition(" for "))
                around.append((ends, owner, trait))
                if trait:
                    self.read_ghosts(owner, trait, self.plain[opens:ends])

    def read_ghosts(self, owner, trait, body):
        scope = {**self.scope, **ghost_uses(body)}
        for it in re.finditer(r"ghost (\w+)\s*[:=]\s*\{", body):
            self.ghosts.append(Ghost(owner, trait, it[1], body[it.end() - 1 : closing(body, it.end() - 1, "{", "}")], scope))

    def read_call(self, it, block):
        _, owner, trait = block or (None, None, None)
        if block and not owner:
            # in a module of tests
            return
        # clauses stand behind the parameters, up to the brace that opens the body or a semicolon
        at = closing(self.plain, self.plain.index("(", it.start()), "(", ")")
        clauses = []
        while (found := self.CLAUSE.search(self.plain, at)) and found[1]:
            at = closing(self.plain, found.end() - 1, "{", "}")
            clauses.append((found[1], found[2] or "", self.plain[found.end() : at - 1]))
        is_public = (it["pub"] or "").strip() == "pub" or trait is not None
        # the method of a trait has the trait as its owner alone
        trait = None if trait == owner else trait
        self.calls.append(Call(self.crate, self.path, self.line(it.start()), owner, trait, first_word(it["rest"].strip()), is_public, clauses, self.plain[it.start() : at]))


class Repository:
    def __init__(self):
        self.below = crates()
        self.specs = {crate: [Specs(crate, path) for path in files(crate, "specs", ".antt")] for crate in self.below}
        self.sources = {crate: [Source(crate, path) for path in files(crate, "src", ".rt")] for crate in self.below}
        self.modules = {file.module: file for each in self.specs.values() for file in each}
        self.declared = {(crate, it.name): it for crate, each in self.sources.items() for source in each for it in source.types}
        self.exported = {crate: self.exports(crate) for crate in self.below}

    def exports(self, crate):
        tops = [it for it in self.sources[crate] if it.path.endswith("src/lib.rt")]
        return {name for top in tops for use in re.findall(r"pub use [^;]*;", top.plain) for name in re.findall(r"\w+", use)}

    def public_calls(self, crate):
        """The calls that other crates can make: exported functions, and methods of exported types and traits; of a program, those of its main file."""
        names = self.exported[crate]
        for source in self.sources[crate]:
            for call in source.calls:
                if source.path.endswith("src/main.rt") or (call.is_public and (first_word(call.owner) or call.name) in names):
                    yield call

    def public_ghosts(self, crate):
        """The ghost members that callers see: those of exported traits and of impls for exported types, and what the values of such types are."""
        names = self.exported[crate]
        for source in self.sources[crate]:
            for it in source.ghosts:
                is_seen = first_word(it.owner) in names or first_word(it.trait) in names
                if is_seen and (it.trait != "Model" or it.name == "Value"):
                    yield it

    def unresolved(self):
        """The names that `use` lines take from this repository and that are not found: there are none, or this reader misses something."""
        for file in (it for crate in self.below for it in (*self.specs[crate], *self.sources[crate])):
            for here, (module, there) in file.scope.items():
                is_ours = module.split(".")[1] in self.below and ".proofs." not in module
                if is_ours and there is not None and self.resolve(file.scope, here) is None:
                    yield file.path, module, there

    def resolve(self, scope, word, own=None):
        """The definition or the declared type that a word names, (module, name) for a word of the kit, or None."""
        parts = word.split(".")
        for i in range(len(parts), 0, -1):
            name = ".".join(parts[:i])
            if own and own.named(name):
                return own.named(name)
            if name in scope:
                module, there = scope[name]
                declared = DECLARED.match(module)
                if declared:
                    return self.declared.get(declared.groups())
                file = self.modules.get(module)
                if file is None:
                    return (module, there or "")
                if there is None:
                    # a whole module: the next part is a name of it
                    return file.named(parts[i]) if i < len(parts) else None
                return file.named(there) or (self.resolve(file.scope, there) if there in file.scope else None)
        return None

    def cited(self, text, scope, own=None):
        """What a text cites, in its order, each once."""
        found = []
        for word in WORD.findall(without_comments(text)):
            holes = [key for key in scope if "◌" in key and word in key.split("◌")]
            for it in (self.resolve(scope, name, own) for name in (word, *holes)):
                if it is not None and it not in found:
                    found.append(it)
        return found

    def cited_by(self, calls):
        """What the clauses of these calls cite."""
        scopes = {source.path: source.scope for each in self.sources.values() for source in each}
        return [it for call in calls for _, _, text in call.clauses for it in self.cited(text, scopes[call.path])]

    def cites(self, it):
        """What a definition cites; of a lemma, its statement; of a declared type, what its values are."""
        if isinstance(it, Definition):
            text = re.split(r"^\S+[^:]*=\s", it.text, maxsplit=1, flags=re.M)[0] if it.kind == "lemma" else it.text
            return [other for other in self.cited(text, it.file.scope, it.file) if other is not it]
        ghosts = [ghost for source in self.sources[it.crate] for ghost in source.ghosts if first_word(ghost.owner) == it.name]
        return [other for ghost in ghosts if ghost.trait != "Model" or ghost.name in ("Value", "view") for other in self.cited(ghost.text, ghost.scope)]

    def reach(self, first):
        """All that these reach, without the words of the kit."""
        found, todo = {}, list(first)
        while todo:
            it = todo.pop(0)
            if id(it) not in found and not isinstance(it, tuple):
                found[id(it)] = it
                todo += self.cites(it)
        return list(found.values())


def files(crate, folder, kind):
    """The files of a folder of a crate with this ending, by name, without those that only list others."""
    for at, _, names in sorted(os.walk(os.path.join(TOP, "crates", crate, folder))):
        for name in sorted(names):
            if name.endswith(kind) and name != "Lib.antt":
                yield os.path.relpath(os.path.join(at, name), TOP)

#!/usr/bin/env python3
"""Writes docs/STATEMENT.md: the definitions on which the clauses of `lie` rest, in reading order, each with its file and its sentence.

    python3 docs/statement.py            writes it
    python3 docs/statement.py --check    compares it with the sources, and says what is missing
    python3 docs/statement.py --apart    lists the files of specs/ that no public clause of any crate reaches
"""
import os
import re
import sys

import sources
from sources import Definition, Type

TARGET = os.path.join(sources.TOP, "docs", "STATEMENT.md")
# streams are read beside the session, which alone cites them
LATE = ["lie_kit", "lie_session"]


INTRODUCTION = """\
# What a reader must believe

`lie` (`crates/lie_session/src/program.rt`) is the call that the program makes, and its clauses are what is proved of the program. This page
has the {definitions} definitions of {files} files, and the {types} types of the code, on which these clauses rest, in reading order: from numbers and fields to
replies. Who has read them knows what the clauses say. Bodies and lemmas need no reading: the prover checks them. What the clauses promise in
words stands in [PROVED.md](PROVED.md).

The page is made by `docs/statement.py` from the sources; `python3 docs/statement.py --check` compares. Each sentence is the comment above its
definition.

## The clauses
"""
LIBRARY = """\

## Words of the kit's library

The definitions use these words of the kit, which mean what they mean there.
"""


def anchor(heading):
    return re.sub(r"[^\w\- ]", "", heading.lower()).replace(" ", "-")


def heading(it):
    return f"{it.file.crate}: {it.file.name}" if isinstance(it, Definition) else f"{it.crate}: types of the code"


def link(path):
    return f"[{path.partition('crates/')[2].partition('/')[2]}](../{path})"


def table(head, rows):
    return ["", f"| {head} | It says |", "|---|---|", *(f"| {name} | {said.replace('|', chr(92) + '|')} |" for name, said in rows)]


def top_call(repository):
    calls = [(call, source) for source in repository.sources["lie_session"] for call in source.calls if call.title() == "lie"]
    return calls[0] if calls else sys.exit("the top call `lie` was not found")


def traits_of(repository, call):
    """The traits of this repository that bound the type parameters of a call, each with its file and its methods."""
    names = re.findall(r":\s*(\w+)", call.text.partition("<")[2].partition(">")[0])
    files = [source for each in repository.sources.values() for source in each]
    for name in names:
        for source in files:
            for it in source.types:
                if it.kind == "trait" and it.name == name:
                    yield it, source, [method for method in source.calls if method.owner == name]


def in_reading_order(repository, files):
    """The files of a crate, each behind those that it cites."""
    order = []

    def place(file, above=()):
        if file in order or file in above:
            return
        for module, _ in file.scope.values():
            other = repository.modules.get(module)
            if other in files:
                place(other, (*above, file))
        order.append(file)

    for file in files:
        place(file)
    return order


def first_sentence(repository, crate):
    top = next(it for it in repository.sources[crate] if it.path.endswith(("src/lib.rt", "src/main.rt")))
    lines = top.text.splitlines()
    return " ".join(line[3:].strip() for line in lines[: lines.index("//!")])


def of_trait(repository, trait, source, methods):
    """The ghost members of a trait with the comments above them, and what the clauses of its methods cite."""
    text = source.text[source.text.index(f"trait {trait.name}") :]
    rows = []
    for comment, name in re.findall(r"((?: *///[^\n]*\n)+) *ghost (\w+):", text):
        rows.append((f"`{name}`", " ".join(line.strip().removeprefix("///").strip() for line in comment.strip().splitlines())))
    for method in methods:
        for kind, name, text in method.clauses:
            names = ", ".join(f"`{it.name}`" for it in repository.cited(text, source.scope) if isinstance(it, Definition))
            if names:
                rows.append((f"`{method.name}`, {kind} `{name}`", names))
    return ["", f"### {trait.crate}: {trait.name}", "", f"{link(trait.path)}. {trait.sentence}", *table("Member, clause", rows)]


def of_types(crate, types):
    rows = [(f"`{it.name}` in {link(it.path)}", it.sentence) for it in sorted(types, key=lambda it: (it.path, it.line))]
    return ["", f"### {crate}: types of the code", *table("Type", rows)]


def of_file(file, definitions):
    rows = [(f"`{it.name}`", it.sentence) for it in file.definitions.values() if it in definitions]
    return ["", f"### {file.crate}: {file.name}", "", f"{link(file.path)}. {file.sentence()}", *table("Definition", rows)]


def of_library(repository, definitions):
    words = {}
    for found in (it for definition in definitions for it in repository.cites(definition)):
        if isinstance(found, tuple) and ".proofs." not in found[0]:
            words.setdefault(found[0].removeprefix("Rattle."), set()).add(found[1])
    return [LIBRARY, *(f"- `{module}`: " + " ".join(f"`{name}`" for name in sorted(words[module])) for module in sorted(words))]


def page(repository):
    """The page, the definitions on it, and what has no sentence above it."""
    call, source = top_call(repository)
    traits = list(traits_of(repository, call))
    reached = repository.reach(repository.cited_by([call, *(method for _, _, methods in traits for method in methods)]))
    definitions = {it: None for it in reached if isinstance(it, Definition) and it.kind != "lemma"}
    types = [it for it in reached if isinstance(it, Type)]
    files = {it.file for it in definitions}
    clauses, contents, body = [], [], []
    for _, name, text in call.clauses:
        cited = [it for it in repository.cited(text, source.scope) if isinstance(it, (Definition, Type))]
        clauses.append(f"| `{name}` | {', '.join(f'[`{it.name}`](#{anchor(heading(it))})' for it in cited)} |")
    for crate in sorted(repository.below, key=lambda crate: LATE.index(crate) if crate in LATE else -1):
        mine = in_reading_order(repository, [file for file in repository.specs[crate] if file in files])
        own = [it for it in types if it.crate == crate]
        if mine or own:
            contents.append(f"- [{crate}](#{anchor(crate)}): " + ", ".join(f"[{file.name}](#{anchor(f'{crate}: {file.name}')})" for file in mine))
            body += ["", f"## {crate}", "", first_sentence(repository, crate)]
            body += [line for each in traits if each[0].crate == crate for line in of_trait(repository, *each)]
            body += of_types(crate, own) if own else []
            body += [line for file in mine for line in of_file(file, definitions)]
    text = INTRODUCTION.format(definitions=len(definitions), files=len(files), types=len(types))
    head = [text, "| Clause of `lie` | Begins with |", "|---|---|", *clauses, "", "Files, in the order of this page:", "", *contents]
    return "\n".join([*head, *body, *of_library(repository, definitions)]) + "\n", definitions, [it for it in (*definitions, *types) if not it.sentence]


def apart(repository):
    """Each file of specs/, whether a public clause of any crate reaches it, and whether its head says that none does: `no public clause cites it`."""
    first = []
    for crate in repository.below:
        first += repository.cited_by(repository.public_calls(crate))
        for ghost in repository.public_ghosts(crate):
            first += repository.cited(ghost.text, ghost.scope)
    reached = {it.file for it in repository.reach(first) if isinstance(it, Definition) and it.kind != "lemma"}
    for crate in repository.below:
        for file in repository.specs[crate]:
            yield file, file in reached, any("no public clause cites it" in line for line in file.head)


def main(words):
    repository = sources.Repository()
    if words == ["--apart"]:
        for file, is_reached, says in apart(repository):
            if not is_reached:
                print(f"{'says so' if says else 'SILENT '}  {file.path}")
            elif says:
                print(f"REACHED  {file.path}")
        return 0
    text, definitions, bare = page(repository)
    status = 0
    for path, module, name in repository.unresolved():
        print(f"{path} takes {name} of {module}, which this reader does not find")
        status = 1
    for it in bare:
        print(f"no sentence above {it!r}")
    silent = [file.path for file, is_reached, says in apart(repository) if is_reached == says]
    if silent:
        print(f"{len(silent)} files of specs/ have no head that says rightly whether a public clause cites them: docs/statement.py --apart lists them")
        status = 1
    if words == ["--check"]:
        old = open(TARGET, encoding="utf-8").read() if os.path.exists(TARGET) else ""
        if old != text:
            print("docs/STATEMENT.md is not what the sources give: run python3 docs/statement.py")
            status = 1
        missing = [it for it in definitions if f"| `{it.name}` |" not in old]
        print(f"{len(definitions)} definitions, {len(missing)} of them missing from docs/STATEMENT.md")
        return status or bool(missing)
    with open(TARGET, "w", encoding="utf-8") as file:
        file.write(text)
    print(f"docs/STATEMENT.md: {len(definitions)} definitions")
    return status


if __name__ == "__main__":
    sys.exit(main(sys.argv[1:]))

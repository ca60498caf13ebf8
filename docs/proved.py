#!/usr/bin/env python3
"""Checks docs/PROVED.md against the sources: each row names a call that is there, in its file, and clauses that the call has; each public call has a
row; and the crates that a crate is said to stand on are those of crates.txt.

    python3 docs/proved.py
"""
import os
import re
import sys

import sources

PAGE = os.path.join(sources.TOP, "docs", "PROVED.md")
ROW = re.compile(r"^\| `([^`]+)` \| (.*) \| ([^|]*) \| \[[^\]]*\]\(\.\./([^)]*)\) \|$")
# calls that pass on an error as another; they are made for `?`, and promise nothing more
PASSED = ("from",)
ONE = "its one clause"


def rows():
    crate = None
    for number, line in enumerate(open(PAGE, encoding="utf-8"), 1):
        if line.startswith("## "):
            crate = line[3:].partition(":")[0].strip()
        row = ROW.match(line.rstrip("\n"))
        if row:
            yield number, crate, row[1], row[2], row[3], row[4]
        elif line.startswith("| `"):
            print(f"docs/PROVED.md:{number}: this row can't be read")


def clauses_of(repository, call):
    """What a call ensures; where an impl has no clauses of its own, what the method of its trait does."""
    if call.ensured() or not call.trait:
        return call.ensured()
    trait = sources.first_word(call.trait)
    methods = [it for each in repository.sources.values() for source in each for it in source.calls if it.title() == f"{trait}::{call.name}"]
    return [clause for it in methods for clause in it.ensured()]


def words(text):
    return set(re.findall(r"[^\s(){}\[\],;|]+", text))


def told_by(repository, crate, title, path):
    """Whether the file has a public call or a type of this name, the words that a row may give as its clauses, and whether it has one clause, without
    a name."""
    calls = [it for it in repository.public_calls(crate) if it.title() == title and it.path == path]
    types = [it for source in repository.sources[crate] for it in source.types if it.name == title and it.path == path]
    ghosts = [it for source in repository.sources[crate] for it in source.ghosts if sources.first_word(it.owner) == title.partition("::")[0]]
    impls = [source for source in repository.sources[crate] for it in source.ghosts if source.path == path and sources.first_word(it.owner) == title]
    clauses = [clause for call in calls for clause in clauses_of(repository, call)]
    known = {name for _, name, _ in clauses} | {it.name for it in ghosts}
    known = known.union(*(words(text) for _, _, text in clauses), *(words(it.text) for it in ghosts))
    return bool(calls or types or impls), known, len(clauses) == 1 and not clauses[0][1]


def faults_of_rows(repository):
    for number, crate, title, _, clauses, path in rows():
        where = f"docs/PROVED.md:{number}: {title} of {crate}"
        is_there, known, is_unnamed = told_by(repository, crate, title, path) if crate in repository.below else (False, set(), False)
        names = [] if clauses.startswith("those of") else re.findall(r"`([^`]+)`", clauses)
        if not is_there:
            yield f"{where} is not in {path}"
        elif names:
            yield from (f"{where} has no clause {name}" for name in names if name not in known and f"{name}:" not in known)
        elif not clauses.startswith("those of") and not (clauses.strip() == ONE and is_unnamed):
            yield f"{where} has no single clause without a name"


def faults_of_calls(repository, page):
    """Public calls without a row. A type with a row speaks for the calls of the traits that it implements."""
    told = {(crate, title) for _, crate, title, *_ in rows()}
    for crate in repository.below:
        if f"**{crate}**" in page:
            # one of the crates without a promise
            continue
        for call in repository.public_calls(crate):
            is_told = (crate, call.title()) in told or (call.trait and (not call.ensured() or (crate, sources.first_word(call.owner)) in told))
            if call.name not in PASSED and call.clauses and not is_told:
                yield f"{call.path}:{call.line}: {call.title()} of {crate} has no row in docs/PROVED.md"


def faults_of_crates(repository, page):
    """Crates that are not said to stand on what crates.txt has them stand on."""
    for part in re.split(r"^## ", page, flags=re.M)[1:]:
        crate = part.partition(":")[0].strip()
        if crate in repository.below:
            said = re.search(r"Stands on ([^\n]*)", part)
            names = {it.strip("`") for it in re.findall(r"lie_\w+|`\w+`", said[1])} if said else set()
            if names - {"std"} != set(sources.listed()[crate]):
                yield f"docs/PROVED.md: {crate} stands on {' '.join(sorted(sources.listed()[crate]))}, by crates.txt"


def main():
    repository = sources.Repository()
    page = sources.read(os.path.join("docs", "PROVED.md"))
    faults = [*faults_of_rows(repository), *faults_of_calls(repository, page), *faults_of_crates(repository, page)]
    for it in faults:
        print(it)
    print(f"{len(list(rows()))} rows, {len(faults)} faults")
    return 1 if faults else 0


if __name__ == "__main__":
    sys.exit(main())

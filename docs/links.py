#!/usr/bin/env python3
"""Follows the links of README.md and of the pages in docs/, bench/, data/ and bridges/.

    python3 docs/links.py

Each link leads to a file that is there, and to a heading that is there; each name that stands behind a link to a file stands in that file; each
definition that docs/TERMS.md names is one of its file; and each term of docs/terms.txt is found from README.md in two links: to a page with a line on
the term, and from that line to the file of its definition.
"""
import glob
import os
import re
import sys

TOP = os.path.dirname(os.path.dirname(os.path.abspath(__file__)))
LINK = re.compile(r"!?\[((?:[^\[\]]|\[[^\]]*\])*)\]\(([^)\s]+)\)")


def read(path):
    with open(path, encoding="utf-8") as file:
        return file.read()


def prose(text):
    """A page without its blocks of code."""
    return re.sub(r"^```.*?^```", "", text, flags=re.M | re.S)


def anchors(text):
    """The headings of a page, and the places with a name of their own."""
    return {*re.findall(r'<a id="([^"]+)"></a>', text)} | {re.sub(r"[^\w\- ]", "", re.sub(r"\[([^\]]*)\]\([^)]*\)", r"\1", line.lstrip("#").strip()).lower()).replace(" ", "-") for line in prose(text).splitlines() if line.startswith("#")}


def target(page, link):
    path, _, anchor = link.partition("#")
    return os.path.normpath(os.path.join(os.path.dirname(page), path)) if path else page, anchor


def defines(path, name):
    """Whether the file of definitions has one of this name."""
    return re.search(rf"^\s*(?:(?:abbrev|unfoldable|pub|record|data)\s+)*{re.escape(name)}\s[^=]*[:(]", read(path), re.M) is not None


def broken(page):
    for label, link in LINK.findall(prose(read(page))):
        if re.match(r"\w+://", link):
            continue
        path, anchor = target(page, link)
        if not os.path.exists(path):
            yield f"{link} is not there"
        elif anchor and path.endswith(".md") and anchor not in anchors(read(path)):
            yield f"{link} is no heading"
        elif re.fullmatch(r"`[\w:]+`", label) and path.endswith((".rt", ".antt")) and label.strip("`").rpartition("::")[2] not in re.findall(r"\w+", read(path)):
            yield f"{link} doesn't have {label}"


def named(page):
    """The definitions that a page names behind the link to their file."""
    for part in re.finditer(r"\]\(([^)\s]+\.antt)\): ((?:`[^`]+`(?:, )?)+)", read(page)):
        path, _ = target(page, part[1])
        for name in re.findall(r"`([^`]+)`", part[2]):
            if os.path.exists(path) and not defines(path, name):
                yield f"{part[1]} doesn't define {name}"


def found(term, name, first):
    """Whether two links from the page lead to the definition."""
    pages = [first, *{target(first, link)[0] for _, link in LINK.findall(prose(read(first)))}]
    for page in pages:
        if page.endswith(".md") and os.path.isfile(page):
            for line in prose(read(page)).splitlines():
                if re.search(rf"(?<![\w-]){re.escape(term)}(?:s|es)?(?![\w-])", line, re.I):
                    for _, link in LINK.findall(line):
                        path = target(page, link)[0]
                        if path.endswith(".antt") and os.path.isfile(path) and defines(path, name):
                            return True
    return False


def main():
    faults, links = [], 0
    first = os.path.join(TOP, "README.md")
    for page in [first, *(page for part in ("docs", "bench", "data", "bridges") for page in sorted(glob.glob(os.path.join(TOP, part, "*.md"))))]:
        links += len(LINK.findall(prose(read(page))))
        faults += [f"{os.path.relpath(page, TOP)}: {why}" for why in (*broken(page), *named(page))]
    terms = [line.rpartition(": ") for line in read(os.path.join(TOP, "docs", "terms.txt")).splitlines() if line and not line.startswith("#")]
    faults += [f"{term}: two links from README.md don't lead to {name}" for term, _, name in terms if not found(term, name, first)]
    for it in faults:
        print(it)
    print(f"{links} links, {len(terms)} terms, {len(faults)} faults")
    return 1 if faults else 0


if __name__ == "__main__":
    sys.exit(main())

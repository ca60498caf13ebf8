#!/usr/bin/env python3
"""Compares docs/ARCHITECTURE.md with crates.txt: what is said to stand on what does, the longest chain is the one that is named, and each crate has
its row.

    python3 docs/layers.py
"""
import functools
import os
import re
import sys

import sources


def main():
    below = sources.crates()
    text = sources.read(os.path.join("docs", "ARCHITECTURE.md"))
    faults = []
    for line in re.search(r"```text\n(.*?)```", text, re.S)[1].splitlines():
        for above, rest in re.findall(r"(\w+) > (\w+(?:, \w+)*)", line):
            faults += [f"{above} doesn't stand on {it}" for it in rest.split(", ") if it not in below.get(above, ())]
        for above, rest in re.findall(r"> (\w+) > (\w+(?:, \w+)*)", line):
            faults += [f"{above} doesn't stand on {it}" for it in rest.split(", ") if it not in below.get(above, ())]

    @functools.cache
    def chain(crate):
        return (*max((chain(it) for it in below[crate]), key=len, default=()), crate)

    said = tuple(re.search(r"longest chain is ((?:lie_\w+ < )+lie_\w+)", text)[1].split(" < "))
    if len(said) != len(chain("lie_cli")) or any(low not in below[high] for low, high in zip(said, said[1:])):
        faults.append(f"the longest chain is {' < '.join(chain('lie_cli'))}: {len(chain('lie_cli'))} crates")
    files = {name for _, _, names in os.walk(os.path.join(sources.TOP, "crates")) for name in names}
    faults += [f"there is no {it}" for it in re.findall(r"`(\w+\.antt)`", text) if it not in files]
    faults += [f"{crate} has no row" for crate in below if not re.search(rf"^\|[^|]*`{crate}`", text, re.M)]
    for it in faults:
        print(f"docs/ARCHITECTURE.md: {it}")
    print(f"{len(below)} crates, {len(faults)} faults")
    return 1 if faults else 0


if __name__ == "__main__":
    sys.exit(main())

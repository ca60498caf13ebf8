#!/usr/bin/env python3
"""Times `load`: of E_8 over two elements, of SL_3 over three, of G_2 over five, and of each named datum over two and over three elements.

    python3 load.py              all of them
    python3 load.py E_8 A_8      some

The figures are the processor time and the most memory of a run of the built program up to the reply, the least time of three runs. A
limit that is not kept is marked by `!`. The reply is compared with the dimension of the carrier that carriers.py works out.
"""
import sys

from carriers import NAMED, all_roots, carrier, lines, named
from measured import least

FIELDS = {2: "field 2 1 0 1", 3: "field 3 1 0 2", 5: "field 5 1 0 2"}

# seconds, and MiB where there is a limit
LIMITS = {("E_8", 2): (60, 512), ("E_7", 2): (15, None), ("E_7", 3): (15, None), ("A_2", 3): (0.01, None), ("G_2", 5): (0.01, None)}


def row(name, order):
    kind, rank = name.split("_")
    datum = named(kind, int(rank))
    roots = len(all_roots(*datum)[0])
    wanted = "loaded %d %d %d %d" % (order, datum[0], roots, len(carrier(*datum)))
    script = "\n".join([FIELDS[order]] + lines(*datum) + ["load", ""]).encode()
    run = least(script, 1)
    if run.last != wanted:
        raise SystemExit("%s over %d: %r, not %r" % (name, order, run.last, wanted))
    seconds, mebibytes = LIMITS.get((name, order), (None, None))
    mark = lambda figure, limit: " !" if limit is not None and figure > limit else ""
    limit = ("%g s" % seconds if seconds else "") + (", %d MiB" % mebibytes if mebibytes else "")
    print(
        "| %s over %d | %d | %s | %.4f s%s | %.1f MiB%s | %s |"
        % (name, order, roots, wanted.split()[-1], run.processor, mark(run.processor, seconds), run.memory, mark(run.memory, mebibytes), limit),
        flush=True,
    )


def main(names):
    print("| Group | roots | carrier | time | memory | limit |\n|---|---:|---:|---:|---:|---|")
    every = [("E_8", (2,)), ("A_2", (3,)), ("G_2", (5,))]
    every += [("%s_%d" % (kind, rank), (2, 3)) for kind, ranks in NAMED for rank in ranks]
    for name, orders in every if not names else [(name, (2, 3)) for name in names]:
        for order in orders:
            row(name, order)


if __name__ == "__main__":
    main(sys.argv[1:])

#!/usr/bin/env python3
"""Times modules that are made of others and of large tables, through the built program, and its memory: products.sh runs it.

The figures are the processor time of a run up to its last reply, less that of the run up to the line before the named one, and the most
memory of the whole run. A limit that is not kept is marked by `!`.
"""
import modules
from measured import watched

SL2 = modules.Setting(modules.DATA["SL2"], 5).lines()
POWERS = ["module v1 orbit 1", "module v2 tensor v1 v1", "module v4 tensor v2 v2"]
LAST, ENTRY = modules.large_table()

# name, the lines before those that are timed, these, the last reply, the limit in seconds, and that in MiB
CASES = [
    ("a tensor product of dimension 256", POWERS, ["module v8 tensor v4 v4"], "module v8 256", 10, None),
    ("its dual", POWERS + ["module v8 tensor v4 v4"], ["module e dual v8"], "module e 256", None, None),
    ("a table of 20,000 entries, refused in the audit", [], ["module v table 200 20000"] + LAST + [ENTRY], "refused 20206 relation s1 1 1 151 1 1 100 0", None, None),
    (
        "16 modules, 13 of them of dimension 256", POWERS, ["module v8 tensor v4 v4"] + ["module e%d dual v8" % k for k in range(12)],
        "module e11 256", None, 1024,
    ),
]  # fmt: skip


def run(lines):
    """The run of a script whose lines behind `load` have one reply each, but for those of a table."""
    replies = sum(not line.startswith(("weight", "entry")) for line in lines)
    return watched("\n".join(SL2 + lines + [""]).encode(), 1 + replies)


def main():
    print("| Over SL2 with five elements | time | memory | limit |\n|---|---:|---:|---|")
    for name, before, lines, wanted, seconds, mebibytes in CASES:
        base, whole = run(before), run(before + lines)
        if whole.last != wanted:
            raise SystemExit("%s: %r, not %r" % (name, whole.last, wanted))
        mark = lambda figure, limit: " !" if limit is not None and figure > limit else ""
        limits = ["%g s" % seconds] if seconds else []
        limits += ["%d MiB" % mebibytes] if mebibytes else []
        time = whole.processor - base.processor
        print("| %s | %.2f s%s | %.1f MiB%s | %s |" % (name, time, mark(time, seconds), whole.memory, mark(whole.memory, mebibytes), ", ".join(limits)), flush=True)


if __name__ == "__main__":
    main()

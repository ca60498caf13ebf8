#!/usr/bin/env python3
"""Times the reader and the replies line by line, through the built program, and its memory.

    python3 lines.py

16 MiB of comments, a million `form` lines of short torus words, the longest lines, and blank lines: each a script of at most 16,777,216
bytes that ends with a line `form 1`. The figures are those of a run up to the last reply, the least processor time of three. A limit
that is not kept is marked by `!`.
"""
from measured import least

LIMIT = 16_777_216
BEGIN = b"field 5 1 0 2\ndatum 1 0\nload\n"
END = b"form 1\n"
MEBIBYTES = 64


def filled(line, most=None):
    """A script with as many copies of a line as there is room for, or with so many."""
    room = (LIMIT - len(BEGIN) - len(END)) // len(line)
    count = room if most is None else most
    assert count <= room
    return BEGIN + line * count + END, count


# what the script is of, its bytes, its replies to each copy of the line, and the limit in seconds
SCRIPTS = [
    ("comments of 64 bytes", filled(b"#" + b" " * 62 + b"\n"), 0, 0.5),
    ("comments of 65,536 bytes", filled(b"#" + b" " * 65_535 + b"\n"), 0, 0.5),
    ("blank lines", filled(b"\n"), 0, 0.5),
    ("`form` lines of one torus letter", filled(b"form h(2)\n", 1_000_000), 1, 3),
    ("lines that are too long", filled(b"x" * 65_537 + b"\n"), 1, None),
    ("words that are no command", filled(b"x\n"), 1, None),
]


def main():
    print("| 16 MiB at most of | lines | bytes | processor | clock | memory | limit |\n|---|---:|---:|---:|---:|---:|---|")
    for name, (script, count), replies, seconds in SCRIPTS:
        run = least(script, 2 + replies * count)
        mark = lambda figure, limit: " !" if limit is not None and figure > limit else ""
        print(
            "| %s | %d | %d | %.2f s%s | %.2f s | %.1f MiB%s | %s |"
            % (
                name, count, len(script), run.processor, mark(run.processor, seconds), run.clock, run.memory, mark(run.memory, MEBIBYTES),
                ("%g s, " % seconds if seconds else "") + "%d MiB" % MEBIBYTES,
            ),
            flush=True,
        )  # fmt: skip
        assert run.last == "- | 1 | - | -"


if __name__ == "__main__":
    main()

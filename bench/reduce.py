#!/usr/bin/env python3
"""Times `reduce` blocks, through the built program: reduce.sh runs it.

Random words of 40 letters are turned into matrices by the program itself, and these are reduced, each many times. A figure is the
processor time of a block, its rows read and its form printed, less that of a run without blocks.
"""
import random
import subprocess
import sys

import measured

# name, the line `field`, its number of elements, the Cartan matrix, the line `module`, the dimension, matrices, times each is reduced
CASES = [
    ("SL4(4)", "field 2 2 1 1 2", 4, ["2 -1 0", "-1 2 -1", "0 -1 2"], "orbit 1 0 0", 4, 200, 20),
    ("G2(5)", "field 5 1 0 2", 5, ["2 -1", "-3 2"], "adjoint", 14, 100, 4),
    ("E6(2)", "field 2 1 0 1", 2, ["2 0 -1 0 0 0", "0 2 0 -1 0 0", "-1 0 2 -1 0 0", "0 -1 -1 2 -1 0", "0 0 0 -1 2 -1", "0 0 0 0 -1 2"], "orbit 1 0 0 0 0 0", 27, 40, 2),
]
POSITIVE = {"SL4(4)": 6, "G2(5)": 6, "E6(2)": 36}


def datum(field, rows):
    d = len(rows)
    units = [" ".join("1" if k == i else "0" for k in range(d)) for i in range(d)]
    return [field, f"datum {d} {d}", *(f"root {row}" for row in rows), *(f"coroot {unit}" for unit in units), "load"]


def word(draw, rank, positive, q):
    letters = []
    for _ in range(40):
        kind = draw.randrange(3)
        if kind == 0:
            letters.append(f"x{draw.choice(['', '-'])}{draw.randint(1, positive)}({draw.randrange(1, q)})")
        elif kind == 1:
            letters.append(f"n{draw.randint(1, rank)}{draw.choice(['', chr(39)])}")
        else:
            letters.append("h(" + ",".join(str(draw.randrange(1, q)) for _ in range(rank)) + ")")
    return " ".join(letters)


def seconds(lines, replies):
    return min(measured.watched("\n".join(lines).encode() + b"\n", replies).processor for _ in range(3))


def main():
    draw = random.Random(24)
    for name, field, q, rows, kind, n, count, times in CASES:
        head = [*datum(field, rows), f"module v {kind}"]
        words = [word(draw, len(rows), POSITIVE[name], q) for _ in range(count)]
        asked = "\n".join([*head, *(line for w in words for line in (f"form {w}", f"matrix v {w}"))]) + "\n"
        told = subprocess.run([measured.PROGRAM, "run"], input=asked, capture_output=True, text=True, check=True).stdout.splitlines()[2:]
        forms, blocks = [], []
        for k in range(count):
            form, *matrix = told[k * (n + 1):(k + 1) * (n + 1)]
            forms.append(form)
            blocks.append(["reduce v", *(f"row {row}" for row in matrix)])
        once = "\n".join([*head, *(line for block in blocks for line in block)]) + "\n"
        back = subprocess.run([measured.PROGRAM, "run"], input=once, capture_output=True, text=True, check=True).stdout.splitlines()[2:]
        if back != forms:
            sys.exit(f"{name}: a matrix is reduced to another form than that of its word")
        whole = seconds([*head, *(line for block in blocks * times for line in block)], 2 + count * times)
        base = seconds(head, 2)
        print(f"lie  {name:8} dimension {n:3} {1e6 * (whole - base) / (count * times):10.1f} microseconds a matrix ({count * times} of them: {whole:.2f} s)")


main()

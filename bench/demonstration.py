#!/usr/bin/env python3
"""Compares the summaries of demonstrations with scripts that are made here, apart from the program.

    python3 bench/demonstration.py ./lie            demo 1 to demo 30
    python3 bench/demonstration.py ./lie 7 12       demo 7 to demo 12
    python3 bench/demonstration.py --script 7       prints the script of 7

A script has the field of four elements, a datum that its number chooses, and three commands on each of 400 words that are drawn.
Each command has a reply, and so has `load`; none is refused; and each of the lines `same` is answered by `yes`.
"""
import subprocess
import sys

ROOTS = {
    0: ["2 -1 0", "-1 2 -1", "0 -1 2"],
    1: ["2 -1 0", "-1 2 -1", "0 -2 2"],
    2: ["2 -1", "-3 2"],
}
POSITIVE = {0: 6, 1: 9, 2: 6}


class Draws:
    def __init__(self, n):
        self.state = n

    def draw(self, m):
        self.state = (1103515245 * self.state + 12345) % 2**31
        return self.state // 65536 % m


def letter(draws, rank, positive):
    kind = draws.draw(3)
    if kind == 0:
        sign = "-" if draws.draw(2) == 1 else ""
        root = 1 + draws.draw(positive)
        return f"x{sign}{root}({1 + draws.draw(3)})"
    if kind == 1:
        index = 1 + draws.draw(rank)
        return f"n{index}" + ("'" if draws.draw(2) == 1 else "")
    return "h(" + ",".join(str(1 + draws.draw(3)) for _ in range(rank)) + ")"


def script(n):
    roots = ROOTS[n % 3]
    rank = len(roots)
    lines = ["field 2 2 1 1 2", f"datum {rank} {rank}"]
    lines += [f"root {root}" for root in roots]
    lines += ["coroot " + " ".join("1" if i == j else "0" for j in range(rank)) for i in range(rank)]
    lines.append("load")
    draws = Draws(n)
    for _ in range(400):
        word = " ".join(letter(draws, rank, POSITIVE[n % 3]) for _ in range(40))
        lines += [f"form {word}", f"inv {word}", f"same {word} n1 n1 ; {word}"]
    return lines


def summary(n):
    lines = script(n)
    commands = sum(line.startswith(("form ", "inv ", "same ")) for line in lines)
    yes = sum(line.startswith("same ") for line in lines)
    return f"demo {n} lines {len(lines)} replies {commands + 1} refused 0 yes {yes}\n"


def main(words):
    if words[:1] == ["--script"] and len(words) == 2:
        print("\n".join(script(int(words[1]))))
        return 0
    if len(words) not in (1, 3):
        sys.exit(__doc__)
    first, last = (int(words[1]), int(words[2])) if len(words) == 3 else (1, 30)
    failed = 0
    for n in range(first, last + 1):
        run = subprocess.run([words[0], "demo", str(n)], stdin=subprocess.DEVNULL, capture_output=True, text=True)
        if run.stdout != summary(n) or run.returncode != 0:
            failed += 1
            print(f"demo {n}: {run.stdout!r} with status {run.returncode}, and not {summary(n)!r} with status 0")
    print(f"demo {first} to demo {last}: {failed} differ")
    return 1 if failed else 0


if __name__ == "__main__":
    sys.exit(main(sys.argv[1:]))

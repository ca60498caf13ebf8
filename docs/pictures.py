#!/usr/bin/env python3
"""Draws the root systems A2, B2 and G2 as the program numbers them, from its replies to `roots`: docs/A2.svg, B2.svg, G2.svg.

    python3 docs/pictures.py [PROGRAM]       with ./lie, if no other program is named
    python3 docs/pictures.py --check [PROGRAM]
"""
import math
import os
import subprocess
import sys

TOP = os.path.dirname(os.path.dirname(os.path.abspath(__file__)))
# name: the rows of the Cartan matrix, which are the simple roots; the simple coroots are the unit vectors
SYSTEMS = {"A2": ["2 -1", "-1 2"], "B2": ["2 -1", "-2 2"], "G2": ["2 -1", "-3 2"]}
LONG, MARGIN = 110, 40


def roots(program, rows):
    """The positive roots that the program lists: number, coefficients, vector, coroot."""
    lines = ["field 5 1 0 2", "datum 2 2", *(f"root {row}" for row in rows), "coroot 1 0", "coroot 0 1", "load", "roots"]
    ran = subprocess.run([program, "run"], input="\n".join(lines) + "\n", capture_output=True, text=True)
    replies = ran.stdout.splitlines()
    at = next(k for k, line in enumerate(replies) if line.startswith("roots "))
    for line in replies[at + 1 : at + 1 + int(replies[at].split()[1])]:
        first, vector, coroot = ([int(word) for word in part.split()] for part in line.split("|"))
        yield first[0], first[1:], vector, coroot


def plane(found):
    """The simple roots as vectors of the plane: a_1 to the right, the longest root of length LONG."""
    simple = {tuple(coefficients): (vector, coroot) for _, coefficients, vector, coroot in found}
    (a, ca), (b, cb) = simple[1, 0], simple[0, 1]
    pair = lambda x, y: sum(s * t for s, t in zip(x, y))
    # <a, b^> |b|^2 = 2 (a, b) = <b, a^> |a|^2
    ratio = math.sqrt(pair(b, ca) / pair(a, cb))
    angle = math.acos(pair(a, cb) * ratio / 2)
    short = LONG / max(1, ratio)
    return (short, 0), (short * ratio * math.cos(angle), short * ratio * math.sin(angle))


def number(x):
    """With one digit behind the point, and no negative zero."""
    return f"{round(x, 1) + 0:.1f}"


def picture(name, found):
    (ax, ay), (bx, by) = plane(found)
    half = LONG + MARGIN
    out = [
        f'<svg xmlns="http://www.w3.org/2000/svg" width="{2 * half}" height="{2 * half}" viewBox="{-half} {-half} {2 * half} {2 * half}" font-family="sans-serif" font-size="15">',
        f"<title>The roots of {name}, as the program numbers them</title>",
        f'<rect x="{-half}" y="{-half}" width="{2 * half}" height="{2 * half}" fill="white"/>',
        f'<text x="{-half + 12}" y="{-half + 24}" font-weight="bold">{name}</text>',
    ]
    for root, (m, n), _, _ in found:
        x, y = m * ax + n * bx, -(m * ay + n * by)
        for sign, colour in ((-1, "#999999"), (1, "#1f4e9c")):
            bold = ' font-weight="bold"' if sign > 0 and m + n == 1 else ""
            u, v = sign * x, sign * y
            length = math.hypot(x, y)
            far = 1 + 18 / length
            # the tip: a triangle of length 10 and width 7
            back, aside = (1 - 10 / length), 3.5 / length
            points = [(u, v), (u * back - v * aside, v * back + u * aside), (u * back + v * aside, v * back - u * aside)]
            tip = " ".join(f"{number(a)},{number(b)}" for a, b in points)
            out.append(f'<line x1="0" y1="0" x2="{number(u * back)}" y2="{number(v * back)}" stroke="{colour}" stroke-width="{2.4 if bold else 1.4}"/>')
            out.append(f'<polygon points="{tip}" fill="{colour}"/>')
            out.append(f'<text x="{number(u * far)}" y="{number(v * far + 5)}" text-anchor="middle" fill="{colour}"{bold}>{sign * root}</text>')
    return "\n".join([*out, "</svg>"]) + "\n"


def main(words):
    check = words[:1] == ["--check"]
    program = (words[check:] or [os.path.join(TOP, "lie")])[0]
    faults = 0
    for name, rows in SYSTEMS.items():
        text, path = picture(name, list(roots(program, rows))), os.path.join(TOP, "docs", f"{name}.svg")
        if check:
            differs = not os.path.exists(path) or open(path, encoding="utf-8").read() != text
            faults += differs
            if differs:
                print(f"docs/{name}.svg is not what the program's roots give")
        else:
            with open(path, "w", encoding="utf-8") as file:
                file.write(text)
    print(f"{len(SYSTEMS)} pictures, {faults} faults" if check else f"{len(SYSTEMS)} pictures")
    return 1 if faults else 0


if __name__ == "__main__":
    sys.exit(main(sys.argv[1:]))

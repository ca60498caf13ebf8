#!/usr/bin/env python3
"""Writes the table of `crates/test_factors`: matrices over a field of p elements, and their triangular factors.

It multiplies every upper unitriangular, every invertible diagonal and every lower unitriangular matrix of a dimension, and so
knows, without taking a matrix apart, which matrices are such products and of which factors; that no matrix is one of two
triples is tested on the way. `python3 factors.py` writes `stdin` and `stdout` of the crate; `--check` compares them.
"""
import itertools
import os
import random
import sys

CRATE = os.path.join(os.path.dirname(os.path.dirname(os.path.abspath(__file__))), "crates", "test_factors")


def product(p, a, b):
    n = len(a)
    return tuple(tuple(sum(a[i][k] * b[k][j] for k in range(n)) % p for j in range(n)) for i in range(n))


def matrices(n, places, choices, diagonal):
    """All matrices with one of the choices at each of the places, and the diagonal."""
    for values in itertools.product(choices, repeat=len(places)):
        m = [[0] * n for _ in range(n)]
        for i in range(n):
            m[i][i] = diagonal[i]
        for (i, j), value in zip(places, values):
            m[i][j] = value
        yield tuple(tuple(row) for row in m)


def factors(p, n):
    """Each product U D L with its three factors."""
    above = [(i, j) for i in range(n) for j in range(n) if i < j]
    below = [(j, i) for i, j in above]
    uppers = list(matrices(n, above, range(p), [1] * n))
    lowers = list(matrices(n, below, range(p), [1] * n))
    found = {}
    for units in itertools.product(range(1, p), repeat=n):
        d = next(matrices(n, [], [], units))
        for l in lowers:
            dl = product(p, d, l)
            for u in uppers:
                m = product(p, u, dl)
                assert m not in found, "two triples of factors"
                found[m] = (u, d, l)
    return found


def text(m):
    return " / ".join(" ".join(map(str, row)) for row in m) or "-"


def everything(p, n):
    """All matrices of a dimension."""
    places = [(i, j) for i in range(n) for j in range(n)]
    return list(matrices(n, places, range(p), [0] * n))


def some(p, n, found, with_factors, without):
    """Matrices that have factors and matrices that have none, by a fixed sequence of random numbers."""
    numbers = random.Random(1000 * p + n)
    chosen = numbers.sample(sorted(found), with_factors)
    while without > 0:
        m = tuple(tuple(numbers.randrange(p) for _ in range(n)) for _ in range(n))
        if m not in found and m not in chosen:
            chosen.append(m)
            without -= 1
    return sorted(chosen)


def table():
    yield "# Triangular factors of square matrices: M = U D L with U upper unitriangular, D diagonal and invertible, L lower", ""
    yield "# unitriangular. Rows of a matrix stand between strokes; - is the matrix of dimension 0.", ""
    yield "# field: characteristic | coefficients below the leading term | generator = number of elements", ""
    yield "# factors: M = U | D | L, or none", ""
    for p, generator in [(2, 1), (5, 2)]:
        yield "", ""
        yield f"field: {p} | 0 | {generator}", f" = {p}"
        for n in range(4):
            found = factors(p, n)
            if p ** (n * n) <= 16:
                chosen = everything(p, n)
            elif p == 2:
                chosen = some(p, n, found, 24, 24)
            else:
                chosen = some(p, n, found, 24, 12)
            yield f"# Dimension {n}: {len(found)} of {p ** (n * n)} matrices have factors" + (
                "." if p ** (n * n) <= 16 else "; some of each kind."
            ), ""
            for m in chosen:
                triple = found.get(m)
                yield "factors: " + text(m), " = " + (" | ".join(map(text, triple)) if triple else "none")


def main():
    rows = list(table())
    for name, lines in [("stdin", [row for row, _ in rows]), ("stdout", [row + answer for row, answer in rows])]:
        path, new = os.path.join(CRATE, name), "\n".join(lines) + "\n"
        if sys.argv[1:] == ["--check"]:
            with open(path, encoding="utf-8") as file:
                if file.read() != new:
                    sys.exit(f"{path} differs")
        else:
            with open(path, "w", encoding="utf-8") as file:
                file.write(new)


main()

#!/usr/bin/env python3
"""Answers the rows of the crate test_audits from the definitions alone: what the audit of a module says, and whether the module is covering.

    python3 audits.py < ../crates/test_audits/stdin          each row with its answer
    python3 audits.py --check                                compares that with the stored output

Both sides of each relation are multiplied out as matrices of Laurent polynomials, and the sizes of their factors as matrices of whole
numbers; on modules of more than FEW dimensions the sides are compared first at two elements of a large prime field, and multiplied out
only where they differ there. Nothing is taken from the program.
"""
import os
import sys
from math import prod
from random import Random

from carriers import named
from relations import Datum, adjoint, constants, orbit, terms
from relations import Module

TOP = os.path.dirname(os.path.dirname(os.path.abspath(__file__)))
HUGE = 2**126
FEW = 20
PRIME = 2**61 - 1


class Torus:
    """A root datum without roots."""

    def __init__(self, dim):
        self.dim, self.l, self.m, self.vec, self.covec = dim, 0, 0, [], []


# ---- sparse matrices: for each column the entries that aren't 0, by their rows; an entry is a whole number or a polynomial

class Numbers:
    """Whole numbers, or with a modulus those below it."""

    def __init__(self, modulus=None):
        self.modulus = modulus

    def reduced(self, x):
        return x if self.modulus is None else x % self.modulus

    def plus(self, x, y):
        return self.reduced(x + y)

    def times(self, x, y):
        return self.reduced(x * y)

    def is_zero(self, x):
        return x == 0

    def one(self):
        return 1


class Polynomials:
    """Laurent polynomials in t and u: coefficients that aren't 0, by the exponents of t and of u."""

    def plus(self, x, y):
        out = dict(x)
        for e, c in y.items():
            out[e] = out.get(e, 0) + c
        return {e: c for e, c in out.items() if c}

    def times(self, x, y):
        out = {}
        for (i, j), a in x.items():
            for (k, l), b in y.items():
                out[i + k, j + l] = out.get((i + k, j + l), 0) + a * b
        return {e: c for e, c in out.items() if c}

    def is_zero(self, x):
        return not x

    def one(self):
        return {(0, 0): 1}


def multiplied(ring, left, right):
    out = []
    for column in right:
        new = {}
        for k, y in column.items():
            for a, x in left[k].items():
                z = ring.times(x, y)
                new[a] = ring.plus(new[a], z) if a in new else z
        out.append({a: x for a, x in new.items() if not ring.is_zero(x)})
    return out


def product(ring, factors, size):
    out = [{b: ring.one()} for b in range(size)]
    for factor in factors:
        out = multiplied(ring, out, factor)
    return out


class Space:
    """A module with its powers as sparse matrices of whole numbers."""

    def __init__(self, module):
        self.weights, self.size = module.weights, len(module.weights)
        self.powers = {r: [[{a: row[b] for a, row in enumerate(e) if row[b]} for b in range(self.size)] for e in powers] for r, powers in module.powers.items()}

    def root_element(self, ring, r, power, scaled):
        """1 plus the sum of the powers of f times E_r^(k)."""
        out = [{b: ring.one()} for b in range(self.size)]
        for k, e in enumerate(self.powers[r], 1):
            f = power(k)
            for column, entries in zip(out, e):
                for a, c in entries.items():
                    x = scaled(c, f)
                    column[a] = ring.plus(column[a], x) if a in column else x
        return [{a: x for a, x in column.items() if not ring.is_zero(x)} for column in out]


# ---- relations: the factors of both sides are ("x", root, coefficient, exponent of t, exponent of u), ("sum", root) or ("h", index)

def relations(d, n, eta):
    """The relations in their order, each with its name, its left and its right side."""
    full = range(2 * d.m)
    for r in full:
        yield ("S1", d.number(r)), [("x", r, 1, 1, 0), ("x", r, 1, 0, 1)], [("sum", r)]
    for r in full:
        for s in range(r + 1, 2 * d.m):
            if s != d.opposite(r):
                right = [("x", r, 1, 1, 0), ("x", s, 1, 0, 1)]
                right += [("x", k, c * (-1) ** i, i, j) for i, j, k, c in terms(d, n, r, s)]
                yield ("S2", d.number(r), d.number(s)), [("x", s, 1, 0, 1), ("x", r, 1, 1, 0)], right
    for i in range(d.l):
        o = d.opposite(i)
        left = [("x", i, 1, 1, 0), ("x", o, -1, -1, 0), ("x", i, 1, 1, 0), ("x", i, -1, 0, 0), ("x", o, 1, 0, 0), ("x", i, -1, 0, 0)]
        yield ("S6", i + 1), left, [("h", i)]
    for i in range(d.l):
        o = d.opposite(i)
        weyl = [("x", i, 1, 0, 0), ("x", o, -1, 0, 0), ("x", i, 1, 0, 0)]
        for s in full:
            yield ("S7", i + 1, d.number(s)), weyl + [("x", s, 1, 1, 0)], [("x", d.reflect(i, s), eta[i, s], 1, 0)] + weyl


def size_of(space, factor):
    """The matrix of sizes of a factor."""
    if factor[0] == "h":
        return [{b: 1} for b in range(space.size)]
    f = 2 if factor[0] == "sum" else abs(factor[2])
    return space.root_element(Numbers(), factor[1], lambda k: f**k, lambda c, x: abs(c) * x)


def matrix_of(d, space, factor):
    """The matrix of a factor over the Laurent polynomials."""
    ring = Polynomials()
    if factor[0] == "h":
        return [{b: {(d.pair(x, factor[1]), 0): 1}} for b, x in enumerate(space.weights)]
    f = {(1, 0): 1, (0, 1): 1} if factor[0] == "sum" else {(factor[3], factor[4]): factor[2]}

    def power(k):
        out = ring.one()
        for _ in range(k):
            out = ring.times(out, f)
        return out

    return space.root_element(ring, factor[1], power, lambda c, x: {e: c * y for e, y in x.items()})


def value_of(d, space, factor, t, u):
    """The matrix of a factor at two elements of the prime field."""
    ring = Numbers(PRIME)
    if factor[0] == "h":
        return [{b: pow(t, d.pair(x, factor[1]), PRIME)} for b, x in enumerate(space.weights)]
    f = t + u if factor[0] == "sum" else factor[2] * pow(t, factor[3], PRIME) * pow(u, factor[4], PRIME)
    return space.root_element(ring, factor[1], lambda k: pow(f, k, PRIME), lambda c, x: c * x % PRIME)


def largest_sizes(d, space, n, eta):
    """The largest entry of the products of sizes, and at how many places of it, for each relation."""
    known = {}

    def size(factor):
        key = factor[:3]
        if key not in known:
            known[key] = size_of(space, factor)
        return known[key]

    for name, left, right in relations(d, n, eta):
        found = [x for side in (left, right) for column in product(Numbers(), map(size, side), space.size) for x in column.values()]
        yield name, left, right, found


def audit(d, space, n, eta):
    """None for a module that is audited, or the text of what fails first."""
    said = lambda name: "%s %s" % (name[0], " ".join(map(str, name[1:])))
    for r in range(2 * d.m):
        for k, e in enumerate(space.powers[r], 1):
            for b, column in enumerate(e):
                for a in sorted(column):
                    if any(x != y + k * z for x, y, z in zip(space.weights[a], space.weights[b], d.vec[r])):
                        return "not graded at %d %d %d %d" % (d.number(r), k, a + 1, b + 1)
    draw = Random("two elements")
    for name, left, right, sizes in largest_sizes(d, space, n, eta):
        if max(sizes, default=0) >= HUGE:
            return "large " + said(name)
        if space.size > FEW:
            t, u = draw.randrange(1, PRIME), draw.randrange(1, PRIME)
            sides = [product(Numbers(PRIME), [value_of(d, space, f, t, u) for f in side], space.size) for side in (left, right)]
            if sides[0] == sides[1]:
                continue
        x, y = (product(Polynomials(), [matrix_of(d, space, f) for f in side], space.size) for side in (left, right))
        for b in range(space.size):
            for a in range(space.size):
                p, q = x[b].get(a, {}), y[b].get(a, {})
                if p != q:
                    e = min(e for e in set(p) | set(q) if p.get(e, 0) != q.get(e, 0))
                    return "%s | %d %d | %d %d | %d %d" % (said(name), a + 1, b + 1, *e, p.get(e, 0), q.get(e, 0))
    return None


# ---- modules that are made by hand

def table_fault(d, weights, entries):
    """The number of the first entry that repeats an earlier place or isn't graded, or None."""
    seen = set()
    for count, (i, k, row, col, _) in enumerate(entries, 1):
        root = d.vec[abs(i) - 1]
        sign = 1 if i > 0 else -1
        graded = all(x == y + sign * k * z for x, y, z in zip(weights[row - 1], weights[col - 1], root))
        if (i, k, row, col) in seen or not graded:
            return count
        seen.add((i, k, row, col))
    return None


def absolute(e):
    return [{a: abs(x) for a, x in column.items()} for column in e]


def completed(d, eta, weights, entries):
    """The module whose simple roots have these entries, or the first root and power that are huge."""
    space = Space(Module(d, weights))
    size = space.size
    for r in range(2 * d.m):
        space.powers[r] = []
    for i, k, row, col, value in entries:
        r = i - 1 if i > 0 else d.opposite(-i - 1)
        while len(space.powers[r]) < k:
            space.powers[r].append([{} for _ in range(size)])
        space.powers[r][k - 1][col - 1][row - 1] = value
    height = lambda r: abs(sum(d.full[r]))
    numbers = Numbers()
    for r in sorted(range(2 * d.m), key=lambda r: (height(r), r)):
        if height(r) == 1:
            continue
        i = next(i for i in range(d.l) if height(d.reflect(i, r)) < height(r))
        s, o = d.reflect(i, r), d.opposite(i)
        element = lambda k, c: space.root_element(numbers, k, lambda e: c**e, lambda x, y: x * y)
        weyl = [element(i, 1), element(o, -1), element(i, 1)]
        back = [element(i, -1), element(o, 1), element(i, -1)]
        sizes = [size_of(space, ("x", k, 1)) for k in (i, o, i)]
        for k, e in enumerate(space.powers[s], 1):
            bound = product(numbers, sizes + [absolute(e)] + sizes, size)
            if any(x >= HUGE for column in bound for x in column.values()):
                return None, "huge %d %d" % (d.number(r), k)
            space.powers[r].append([{a: eta[i, s] ** k * x for a, x in c.items()} for c in product(numbers, weyl + [e] + back, size)])
        while space.powers[r] and not any(space.powers[r][-1]):
            space.powers[r].pop()
    return space, None


def kronecker(a, b, size):
    return [{i * size + j: x * y for i, x in left.items() for j, y in right.items()} for left in a for right in b]


def summed(a, b):
    return [{i: x.get(i, 0) + y.get(i, 0) for i in set(x) | set(y) if x.get(i, 0) + y.get(i, 0)} for x, y in zip(a, b)]


def tensor(d, a, b):
    """The tensor product, or what it is refused for."""
    size = a.size * b.size
    if size > 300:
        return None, "wide %d" % min(size, 1025)
    space = Space(Module(d, [tuple(x + y for x, y in zip(v, w)) for v in a.weights for w in b.weights]))
    for at, w in enumerate(space.weights, 1):
        if any(abs(x) > 1000000 for x in w):
            return None, "heavy %d" % at
    one = lambda n: [{k: 1} for k in range(n)]
    powers = lambda v, r: [one(v.size)] + v.powers[r]
    height = lambda r: abs(sum(d.full[r]))
    for r in sorted(range(2 * d.m), key=lambda r: (height(r), r)):
        left, right, found = powers(a, r), powers(b, r), []
        for k in range(1, len(left) + len(right) - 1):
            total, sizes = [{} for _ in range(size)], [{} for _ in range(size)]
            for i in range(k + 1):
                if i < len(left) and k - i < len(right):
                    total = summed(total, kronecker(left[i], right[k - i], b.size))
                    sizes = summed(sizes, kronecker(absolute(left[i]), absolute(right[k - i]), b.size))
            if any(x >= HUGE for column in sizes for x in column.values()):
                return None, "huge %d %d" % (d.number(r), k)
            found.append(total)
        while found and not any(found[-1]):
            found.pop()
        space.powers[r] = found
    return space, None


# ---- covering

def lowered(d, x):
    """While a root pairs to 2 or more, half of the pairing of the first such root is taken away."""
    while True:
        for r in range(2 * d.m):
            p = d.pair(x, r)
            if p >= 2:
                x = tuple(a - p // 2 * b for a, b in zip(x, d.vec[r]))
                break
        else:
            return x


def covering(d, space, p):
    for r in range(d.m):
        if not any(x % p for e in space.powers[r][:1] for column in e for x in column.values()):
            return "dead %d" % d.number(r)
    for j in range(d.dim):
        reached = lambda x, c: not any(lowered(d, tuple(c * a - int(k == j) for k, a in enumerate(x))))
        if not any(reached(x, c) for c in range(9) for x in space.weights):
            return "uncovered %d" % (j + 1)
    return "covering"


# ---- rows

def lists(text, mark="|"):
    return [[int(x) for x in part.split() if x != "-"] for part in text.split(mark)]


def datum_of(text):
    if "_" in text:
        kind, rank = text.strip().split("_")
        dim, simple, cosimple = named(kind, int(rank))
    else:
        dim, simple, cosimple = text.split("|")
        dim, simple, cosimple = int(dim), [tuple(x) for x in lists(simple, "/") if x], [tuple(x) for x in lists(cosimple, "/") if x]
    if not simple:
        return Torus(dim)
    return Datum([[sum(a * b for a, b in zip(r, y)) for y in cosimple] for r in simple], simple, cosimple)


def signs_of(d, text):
    table = sum(lists(text), [])
    assert len(table) == 2 * d.m * d.l
    return {(i, s): table[2 * d.m * i + s] for i in range(d.l) for s in range(2 * d.m)}


def answer(said, question, text):
    if question == "adjoint":
        d = datum_of(text)
        if not d.l:
            n, eta, space = None, {}, Space(Module(d, []))
        else:
            n = constants(d)
            module, at = adjoint(d, n)
            eta = {(i, s): module.weyl(i)[at[d.reflect(i, s)]][at[s]] for i in range(d.l) for s in range(2 * d.m)}
            space = Space(module)
    else:
        d = datum_of(said["datum"])
        n, eta = constants(d), signs_of(d, said["signs"])
        if question == "orbit":
            source = datum_of(said["made for"])
            space = Space(orbit(source, signs_of(source, said["made with"]), tuple(lists(text)[0])))
        else:
            count, text = text.split("|", 1) if question == "power" else (1, text)
            weights = [tuple(x) for x in lists(said["weights"])]
            entries = [tuple(x) for x in lists(text) if x]
            fault = table_fault(d, weights, entries)
            if fault is not None:
                return "table %d" % fault
            factor, fault = completed(d, eta, weights, entries)
            space = factor
            for _ in range(1, int(count)):
                if space is not None:
                    space, fault = tensor(d, space, factor)
            if space is None:
                return fault
    fault = audit(d, space, n, eta)
    if fault:
        return fault
    text = "audited, dimension %d" % space.size
    if "field" in said:
        text += " " + covering(d, space, lists(said["field"])[0][0])
    return text


def answered(given):
    said, out = {}, []
    for line in given:
        question, mark, text = line.partition(":")
        if not mark or line.startswith("#"):
            out.append(line)
        elif question in ("adjoint", "orbit", "table", "power"):
            out.append(line + " = " + answer(said, question, text))
        else:
            said[question] = text
            out.append(line)
    return out


def main(words):
    if words == ["--check"]:
        given, stored = (open(os.path.join(TOP, "crates", "test_audits", name)).read().splitlines() for name in ("stdin", "stdout"))
        found = answered(given)
        for x, y in zip(found, stored):
            if x != y:
                print("worked out: %s\nstored:     %s" % (x, y))
        sys.exit(found != stored)
    for line in answered(sys.stdin.read().splitlines()):
        print(line)


if __name__ == "__main__":
    main(sys.argv[1:])

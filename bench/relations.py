#!/usr/bin/env python3
"""Writes the scripts of `relations/`: both sides of ten relations of each kind S1 to S7, on the adjoint module and on one orbit
module where the datum has a minuscule weight, and what the program must print for them.

    python3 relations.py FOLDER          one file TYPE_PRIME.lie for each datum and field, and TYPE_PRIME.out beside it

All values are worked out here from the definitions, with whole-number matrices: nothing is taken from the program.
"""
import os
import random
import sys
from fractions import Fraction
from math import factorial

ORDER = 240


def cartan(kind, n):
    c = [[2 if i == j else (-1 if abs(i - j) == 1 else 0) for j in range(n)] for i in range(n)]
    if kind == "B":
        c[n - 2][n - 1] = -2
    if kind == "C":
        c[n - 1][n - 2] = -2
    if kind == "D":
        c[n - 2][n - 1] = c[n - 1][n - 2] = 0
        c[n - 3][n - 1] = c[n - 1][n - 3] = -1
    if kind == "G":
        c[1][0] = -3
    return c


class Datum:
    """A root datum, by its Cartan matrix, its simple roots and its simple coroots; where these aren't given, the roots are the rows
    of the Cartan matrix and the coroots unit vectors."""

    def __init__(self, c, roots=None, coroots=None):
        self.c, self.l = c, len(c)
        unit = [tuple(int(i == j) for j in range(self.l)) for i in range(self.l)]
        self.simple, self.cosimple = roots or c, coroots or unit
        self.dim = len(self.simple[0])
        seen, todo = {}, [(u, u) for u in unit]
        while todo:
            r, y = todo.pop()
            if r in seen:
                continue
            seen[r] = y
            assert len(seen) <= ORDER
            for i in range(self.l):
                todo.append(self.reflected(i, r, y))
        positive = sorted((r for r in seen if min(r) >= 0), key=lambda r: (sum(r), tuple(-x for x in r)))
        self.m = len(positive)
        self.full = positive + [tuple(-x for x in r) for r in positive]
        self.co = [seen[r] for r in self.full]
        self.place = {r: k for k, r in enumerate(self.full)}
        self.vec = [combined(*zip(r, self.simple)) for r in self.full]
        self.covec = [combined(*zip(y, self.cosimple)) for y in self.co]
        self.norm = [sum(self.pair(x, s) ** 2 for s in range(2 * self.m)) for x in self.vec]

    def reflected(self, i, r, y):
        """The simple reflection of a root and its coroot, by coefficients."""
        a = sum(r[k] * self.c[k][i] for k in range(self.l))
        b = sum(y[k] * self.c[i][k] for k in range(self.l))
        return (tuple(x - a * int(k == i) for k, x in enumerate(r)), tuple(x - b * int(k == i) for k, x in enumerate(y)))

    def pair(self, x, s):
        """The pairing of a vector with the coroot of the root at place s."""
        return sum(a * b for a, b in zip(x, self.covec[s]))

    def number(self, k):
        return k + 1 if k < self.m else -(k - self.m + 1)

    def opposite(self, k):
        return (k + self.m) % (2 * self.m)

    def find(self, v):
        return self.place.get(tuple(v))

    def reflect(self, i, k):
        return self.find(self.reflected(i, self.full[k], self.co[k])[0])


def combined(*parts):
    return tuple(sum(k * v[i] for k, v in parts) for i in range(len(parts[0][1])))


def constants(d):
    """N_rs by places: p + 1 on extraspecial pairs, the rest by the equations of the other special pairs and the sign rules."""
    n = {}

    def put(r, s, value):
        ro, so = d.opposite(r), d.opposite(s)
        n[r, s], n[s, r], n[ro, so], n[so, ro] = value, -value, -value, value

    def of(r, s):
        return n.get((r, s), 0) if d.find(combined((1, d.full[r]), (1, d.full[s]))) is not None else 0

    def gap(s, r):
        k = d.find(combined((1, d.full[s]), (-1, d.full[r])))
        return d.norm[k] if k is not None else 1

    for k in range(d.m):
        extra = None
        for r in range(d.m):
            s = d.find(combined((1, d.full[k]), (-1, d.full[r])))
            if s is None or s >= d.m or s <= r:
                continue
            if extra is None:
                extra = (r, s)
                p = 0
                while d.find(combined((1, d.full[s]), (-(p + 1), d.full[r]))) is not None:
                    p += 1
                value = Fraction(p + 1)
            else:
                r0, s0 = extra
                b2, b3 = gap(s, r0), gap(r, r0)
                o = d.opposite
                value = Fraction(d.norm[k] * (of(s, o(r0)) * of(r, o(s0)) * b3 + of(o(r0), r) * of(s, o(s0)) * b2), of(r0, s0) * b2 * b3)
            assert value.denominator == 1
            put(r, s, int(value))
            minus = d.opposite(k)
            for (x, y), top in (((s, minus), r), ((minus, r), s)):
                mixed = Fraction(n[r, s] * d.norm[top], d.norm[k])
                assert mixed.denominator == 1
                put(x, y, int(mixed))
    return of


def terms(d, n, r, s):
    """(i, j, place, C_ijrs) by rising i + j, then rising i."""

    def value(u, v):
        a, b = d.find(u), d.find(v)
        return 0 if a is None or b is None or b == d.opposite(a) else n(a, b)

    def chain(u, v, k):
        product = 1
        for q in range(k):
            product *= value(u, combined((q, u), (1, v)))
        return Fraction(product, factorial(k))

    found = []
    x, y = d.full[r], d.full[s]
    both = combined((1, x), (1, y))
    for i, j in ((1, 1), (1, 2), (2, 1), (1, 3), (3, 1), (2, 3), (3, 2)):
        k = d.find(combined((i, x), (j, y)))
        if k is None:
            continue
        if j == 1:
            c = chain(x, y, i)
        elif i == 1:
            c = (-1) ** j * chain(y, x, j)
        elif i == 3:
            c = chain(both, x, 2) / 3
        else:
            c = -2 * chain(both, y, 2) / 3
        assert c.denominator == 1
        found.append((i, j, k, int(c)))
    return found


def times(a, b):
    return [[sum(x * b[k][j] for k, x in enumerate(row) if x) for j in range(len(b[0]))] for row in a]


def identity(n):
    return [[int(i == j) for j in range(n)] for i in range(n)]


class Module:
    """Weights, and for each place of a root the matrices E^(1), E^(2), .."""

    def __init__(self, d, weights):
        self.d, self.weights, self.powers = d, weights, {}

    def element(self, r, t):
        m = identity(len(self.weights))
        for k, e in enumerate(self.powers[r], 1):
            m = [[x + t ** k * y for x, y in zip(u, v)] for u, v in zip(m, e)]
        return m

    def weyl(self, i, sign=1):
        x, y = self.element(i, sign), self.element(self.d.opposite(i), -sign)
        return times(x, times(y, x))


def adjoint(d, n):
    size = 2 * d.m + d.l
    at = {k: d.m - 1 - k if k < d.m else d.l + k for k in range(2 * d.m)}
    v = Module(d, [d.vec[d.m - 1 - a] if a < d.m else ((0,) * d.dim if a < d.m + d.l else d.vec[a - d.l]) for a in range(size)])
    for r in range(2 * d.m):
        e = [[0] * size for _ in range(size)]
        for s in range(2 * d.m):
            k = d.find(combined((1, d.full[r]), (1, d.full[s])))
            if k is not None:
                e[at[k]][at[s]] = n(r, s)
        for i in range(d.l):
            e[d.m + i][at[d.opposite(r)]] = d.co[r][i]
            e[at[r]][d.m + i] = -d.pair(d.vec[r], i)
        v.powers[r], power, k = [], e, 1
        while any(map(any, power)):
            assert all(x % factorial(k) == 0 for row in power for x in row)
            v.powers[r].append([[x // factorial(k) for x in row] for row in power])
            power, k = times(e, power), k + 1
    return v, at


def orbit_weights(d, weight):
    """The orbit of a weight, in the order of the basis: by falling level, then by falling coordinates."""
    members, todo = {weight}, [weight]
    while todo:
        x = todo.pop()
        for i in range(d.l):
            y = combined((1, x), (-d.pair(x, i), d.vec[i]))
            if y not in members:
                members.add(y)
                todo.append(y)
    level = lambda x: sum(d.pair(x, s) for s in range(d.m))
    return sorted(members, key=lambda x: (-level(x), tuple(-a for a in x)))


def orbit(d, eta, weight):
    weights = orbit_weights(d, weight)
    at = {x: k for k, x in enumerate(weights)}
    v = Module(d, weights)
    for r in sorted(range(2 * d.m), key=lambda k: (abs(sum(d.full[k])), k)):
        if abs(sum(d.full[r])) == 1:
            e = [[0] * len(weights) for _ in weights]
            for x in weights:
                if d.pair(x, r) == -1:
                    e[at[combined((1, x), (1, d.vec[r]))]][at[x]] = 1
        else:
            i = next(i for i in range(d.l) if abs(sum(d.full[d.reflect(i, r)])) < abs(sum(d.full[r])))
            s = d.reflect(i, r)
            e = times(v.weyl(i), times(v.powers[s][0], v.weyl(i, -1)))
            e = [[eta[i, s] * x for x in row] for row in e]
        v.powers[r] = [e]
    return v


def word_matrix(v, p, word):
    m = identity(len(v.weights))
    for letter in word:
        kind, rest = letter[0], letter[1:]
        if kind == "x":
            factor = v.element(rest[0], rest[1])
        elif kind == "h":
            factor = identity(len(v.weights))
            for a, x in enumerate(v.weights):
                for t, c in zip(rest[0], x):
                    factor[a][a] = factor[a][a] * pow(t, c % (p - 1) if p > 2 else 0, p) % p
        else:
            factor = v.weyl(rest[0], 1 if kind == "n" else -1)
        m = [[x % p for x in row] for row in times(m, factor)]
    return m


def spelled(d, p, word):
    out = []
    for letter in word:
        kind, rest = letter[0], letter[1:]
        if kind == "x":
            out.append("x%d(%d)" % (d.number(rest[0]), rest[1] % p))
        elif kind == "h":
            out.append("h(%s)" % ",".join(map(str, rest[0])))
        else:
            out.append("n%d%s" % (rest[0] + 1, "" if kind == "n" else "'"))
    return " ".join(out)


def relations(d, n, eta, p, draw):
    """Ten relations of each kind, each as its two sides."""
    root = lambda: draw.randrange(2 * d.m)
    elem = lambda: draw.randrange(p)
    unit = lambda: draw.randrange(1, p)
    torus = lambda: tuple(unit() for _ in range(d.l))
    x = lambda r, a: ("x", r, a % p)
    for _ in range(10):
        r, a, b = root(), elem(), elem()
        yield [x(r, a), x(r, b)], [x(r, a + b)]
    for _ in range(10):
        while True:
            r, s = sorted((root(), root()))
            if r != s and s != d.opposite(r) and (terms(d, n, r, s) or d.l * d.m == 1 or draw.random() < 0.2):
                break
            if d.m == 1:
                break
        if d.m == 1:
            break
        t, u = unit(), unit()
        yield [x(s, u), x(r, t)], [x(r, t), x(s, u)] + [x(k, c * (-t) ** i * u ** j) for i, j, k, c in terms(d, n, r, s)]
    for _ in range(10):
        t, u = torus(), torus()
        yield [("h", t), ("h", u)], [("h", tuple(a * b % p for a, b in zip(t, u)))]
    for _ in range(10):
        t, r, a = torus(), root(), elem()
        value = a
        for b, c in zip(t, d.vec[r]):
            value = value * pow(b, c % (p - 1) if p > 2 else 0, p) % p
        yield [("h", t), x(r, a)], [x(r, value), ("h", t)]
    for k in range(10):
        i, sign = draw.randrange(d.l), 1 if k % 2 == 0 else -1
        yield [("n" if sign == 1 else "n'", i)], [x(i, sign), x(d.opposite(i), -sign), x(i, sign)]
    for _ in range(10):
        i, t = draw.randrange(d.l), unit()
        o = d.opposite(i)
        minus = -pow(t, p - 2, p)
        yield [x(i, t), x(o, minus), x(i, t), x(i, -1), x(o, 1), x(i, -1)], [("h", tuple(t if j == i else 1 for j in range(d.l)))]
    for _ in range(10):
        i, s, a = draw.randrange(d.l), root(), elem()
        yield [("n", i), x(s, a)], [x(d.reflect(i, s), eta[i, s] * a), ("n", i)]


def main(folder):
    os.makedirs(folder, exist_ok=True)
    for kind, n in (("A", 1), ("A", 2), ("A", 3), ("A", 4), ("B", 2), ("B", 3), ("C", 3), ("D", 4), ("G", 2)):
        d = Datum(cartan(kind, n))
        table = constants(d)
        adj, at = adjoint(d, table)
        eta = {(i, s): adj.weyl(i)[at[d.reflect(i, s)]][at[s]] for i in range(d.l) for s in range(2 * d.m)}
        assert all(abs(x) == 1 for x in eta.values())
        units = [tuple(int(i == j) for j in range(d.l)) for i in range(d.l)]
        minuscule = next((u for u in units if all(abs(d.pair(u, s)) <= 1 for s in range(d.m))), None)
        modules = [("adj", adj, "module adj adjoint")]
        if minuscule:
            modules.append(("nat", orbit(d, eta, minuscule), "module nat orbit " + " ".join(map(str, minuscule))))
        for p, g in ((2, 1), (3, 2), (5, 2)):
            draw = random.Random("%s%d over %d" % (kind, n, p))
            lines = ["field %d 1 0 %d" % (p, g), "datum %d %d" % (d.l, d.l)]
            lines += ["root " + " ".join(map(str, row)) for row in d.c] + ["coroot " + " ".join(map(str, u)) for u in units] + ["load"]
            out = ["loaded %d %d %d -" % (p, d.l, 2 * d.m)]
            for name, v, line in modules:
                lines.append(line)
                out.append("module %s %d" % (name, len(v.weights)))
            for sides in relations(d, table, eta, p, draw):
                for name, v, _ in modules:
                    matrices = [word_matrix(v, p, side) for side in sides]
                    assert matrices[0] == matrices[1], (kind, n, p, name, sides)
                    for side, m in zip(sides, matrices):
                        lines.append("matrix %s %s" % (name, spelled(d, p, side)))
                        out += [" ".join(map(str, row)) for row in m]
            for end, text in (("lie", lines), ("out", out)):
                with open(os.path.join(folder, "%s%d_%d.%s" % (kind, n, p, end)), "w") as file:
                    file.write("\n".join(text) + "\n")


if __name__ == "__main__":
    main(sys.argv[1])

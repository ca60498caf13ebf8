#!/usr/bin/env python3
"""Bruhat forms of words by matrices alone: outside values for the lines `form`, `mul`, `inv` and `same`.

    python3 forms.py --transcripts [form | mul | same]    cases for crates/test_transcripts; without a word, those of form
    python3 forms.py --add [form] [mul] [same]            writes these cases there, in place of those that it wrote before
    python3 forms.py --check [GAP_VALUES LIE_VALUES]      tests this script
    python3 forms.py NAME ORDER                           the replies to lines `form w`, `mul w ; v`, `inv w` and `same w ; v`

NAME is one of DATA, and ORDER, the number of elements of a field, one of FIELDS; the lines come from standard input. GAP_VALUES and
LIE_VALUES are those of tables.py.

The matrix of a word is made on a module whose weights span the characters and on which each root acts, so that it is faithful.
For each Weyl element w the matrix, with n_w taken away, is taken apart into an upper unitriangular, a diagonal and a lower
unitriangular factor, and these into letters. Exactly one w must give a form, and the word of this form must have the matrix that was
given. So no relation is used to find a form, and nothing is taken from the program.
"""
import os
import re
import sys
from collections import Counter, namedtuple
from itertools import combinations, cycle, product
from math import gcd
from random import Random

from relations import Datum, adjoint, combined, constants, orbit, terms
from tables import Reference, images, least, text

# Simple roots, simple coroots, and the weight whose orbit is the basis of the module; where there is none, the adjoint module is used.
DATA = {
    "SL2": ([(2,)], [(1,)], (1,)),
    "PGL2": ([(1,)], [(2,)], None),
    "GL2": ([(1, -1)], [(1, -1)], (1, 0)),
    "SL3": ([(2, -1), (-1, 2)], [(1, 0), (0, 1)], (1, 0)),
    "B2": ([(2, -1), (-2, 2)], [(1, 0), (0, 1)], (1, 0)),
    "G2": ([(2, -1), (-3, 2)], [(1, 0), (0, 1)], None),
    "A3": ([(2, -1, 0), (-1, 2, -1), (0, -1, 2)], [(1, 0, 0), (0, 1, 0), (0, 0, 1)], (1, 0, 0)),
}

# The characteristic, the coefficients below the leading one, and a generator of the units, by the number of elements.
FIELDS = {2: (2, [0], 1), 3: (3, [0], 2), 4: (2, [1, 1], 2), 5: (5, [0], 2)}

# An element for each positive root, a torus vector, a least word counted from 1, and elements again, 0 where w keeps the root positive.
Form = namedtuple("Form", "u h w v")


class Field:
    """An element is a number: its digits in base p are the coefficients of a polynomial, which is taken modulo a monic one."""

    def __init__(self, order):
        self.p, self.below, self.generator = FIELDS[order]
        self.q = self.p ** len(self.below)
        digits = [[a // self.p**k % self.p for k in range(len(self.below))] for a in range(self.q)]
        self.add = [[self.number([x + y for x, y in zip(a, b)]) for b in digits] for a in digits]
        self.mul = [[self.number(self.multiplied(a, b)) for b in digits] for a in digits]
        self.neg = [row.index(0) for row in self.add]
        assert sorted(self.power(self.generator, k) for k in range(self.q - 1)) == list(range(1, self.q))

    def number(self, digits):
        return sum(x % self.p * self.p**k for k, x in enumerate(digits))

    def multiplied(self, a, b):
        found = [0] * len(a)
        for x in reversed(b):
            found = [y - found[-1] * c + x * z for y, c, z in zip([0] + found, self.below, a)]
        return found

    def integer(self, n):
        return n % self.p

    def power(self, a, exponent):
        """A power of a unit, or one of any element with an exponent from 0 on."""
        found = 1
        for _ in range(exponent % (self.q - 1) if a else exponent):
            found = self.mul[found][a]
        return found

    def line(self):
        return "field %d %d %s %d" % (self.p, len(self.below), text(self.below), self.generator)


class Group:
    """A group over a field, with a faithful module. A word is a list of letters ("x", place of its root, element), ("h", elements),
    ("n", i) and ("n'", i), in which places and i count from 0. A matrix is a list of rows, and acts on columns."""

    def __init__(self, name, order):
        roots, coroots, weight = DATA[name]
        self.field = Field(order)
        self.datum = d = Datum([[sum(a * b for a, b in zip(r, y)) for y in coroots] for r in roots], roots, coroots)
        self.constants = constants(d)
        module, at = adjoint(d, self.constants)
        self.eta = {(i, s): module.weyl(i)[at[d.reflect(i, s)]][at[s]] for i in range(d.l) for s in range(2 * d.m)}
        if weight:
            module = orbit(d, self.eta, weight)
        self.weights = module.weights
        self.powers = {r: [[list(map(self.field.integer, row)) for row in e] for e in powers] for r, powers in module.powers.items()}
        self.tori = list(product(range(1, order), repeat=d.dim))
        self.ones = (1,) * d.dim
        self.elements = self.weyl_elements()
        self.known = {}

    def weyl_elements(self):
        """The least word of each."""
        found, todo = {}, [()]
        while todo:
            w = todo.pop()
            key = tuple(images(self.datum, w))
            if key not in found:
                found[key] = tuple(least(self.datum, w))
                todo += [w + (i,) for i in range(1, self.datum.l + 1)]
        return list(found.values())

    def made_negative(self, w):
        """The places of the positive roots that w makes negative."""
        found = []
        for r in range(self.datum.m):
            k = r
            for i in reversed(w):
                k = self.datum.reflect(i - 1, k)
            if k >= self.datum.m:
                found.append(r)
        return found

    def character(self, v, t):
        value = 1
        for a, exponent in zip(t, v):
            value = self.field.mul[value][self.field.power(a, exponent)]
        return value

    def torus_product(self, t, u):
        return tuple(self.field.mul[a][b] for a, b in zip(t, u))

    def torus_inverse(self, t):
        return tuple(self.field.power(a, -1) for a in t)

    def inverse(self, word):
        """The word with inverted letters, the last first."""
        out = []
        for kind, *rest in reversed(word):
            if kind == "x":
                out.append(("x", rest[0], self.field.neg[rest[1]]))
            elif kind == "h":
                out.append(("h", self.torus_inverse(rest[0])))
            else:
                out.append(({"n": "n'", "n'": "n"}[kind], rest[0]))
        return out

    def three_letters(self, i, a):
        return [("x", i, a), ("x", self.datum.opposite(i), self.field.neg[a]), ("x", i, a)]

    # Matrices.

    def identity(self):
        return [[int(a == b) for b in range(len(self.weights))] for a in range(len(self.weights))]

    def times(self, left, right):
        add, mul = self.field.add, self.field.mul
        out = []
        for row in left:
            new = [0] * len(right)
            for a, other in zip(row, right):
                if a:
                    new = [add[x][mul[a][y]] for x, y in zip(new, other)]
            out.append(new)
        return out

    def matrix(self, word):
        found = self.identity()
        for letter in word:
            if letter not in self.known:
                self.known[letter] = self.letter_matrix(*letter)
            found = self.times(found, self.known[letter])
        return found

    def letter_matrix(self, kind, *rest):
        add, mul, power = self.field.add, self.field.mul, self.field.power
        found = self.identity()
        if kind == "x":
            for k, e in enumerate(self.powers[rest[0]], 1):
                found = [[add[x][mul[power(rest[1], k)][y]] for x, y in zip(*rows)] for rows in zip(found, e)]
        elif kind == "h":
            for a, v in enumerate(self.weights):
                found[a][a] = self.character(v, rest[0])
        else:
            found = self.matrix(self.three_letters(rest[0], 1 if kind == "n" else self.field.neg[1]))
        return found

    # Forms.

    def root_letters(self, elements):
        return [("x", r, a) for r, a in enumerate(elements) if a]

    def weyl_letters(self, w):
        return [("n", i - 1) for i in w]

    def form_word(self, form):
        return self.root_letters(form.u) + [("h", form.h)] + self.weyl_letters(form.w) + self.root_letters(form.v)

    def factors(self, matrix):
        """An upper unitriangular matrix, the entries of a diagonal one and a lower unitriangular one, with this product; or None."""
        add, mul, neg, power = self.field.add, self.field.mul, self.field.neg, self.field.power
        upper, rest = self.identity(), matrix
        for k in reversed(range(len(rest))):
            if rest[k][k] == 0:
                return None
            for a in range(k):
                c = upper[a][k] = mul[rest[a][k]][power(rest[k][k], -1)]
                rest = rest[:a] + [[add[x][mul[neg[c]][y]] for x, y in zip(rest[a], rest[k])]] + rest[a + 1 :]
        diagonal = [row[k] for k, row in enumerate(rest)]
        return upper, diagonal, [[mul[power(c, -1)][x] for x in row] for c, row in zip(diagonal, rest)]

    def entry_of(self, r):
        """A place at which E_r^(1) isn't 0 over the field, and the entry there."""
        return next((a, b, c) for a, row in enumerate(self.powers[r][0]) for b, c in enumerate(row) if c)

    def root_elements(self, matrix):
        """The elements of the positive roots whose letters, in order, have this product; or None. At the places of E_r^(1) the product
        of the letters from r on has what the letter of r brings: other roots from r on have no sum r."""
        found = []
        for r in range(self.datum.m):
            a, b, c = self.entry_of(r)
            found.append(self.field.mul[matrix[a][b]][self.field.power(c, -1)])
            matrix = self.times(self.matrix([("x", r, self.field.neg[found[-1]])]), matrix)
        return tuple(found) if matrix == self.identity() else None

    def form_at(self, w, matrix):
        """The form with this Weyl element whose word has this matrix, or None. As n_w makes a lower unitriangular matrix of that of v,
        the matrix with n_w taken away has the three factors."""
        weyl = self.matrix(self.weyl_letters(w))
        back = self.matrix(self.inverse(self.weyl_letters(w)))
        factors = self.factors(self.times(matrix, back))
        if factors is None:
            return None
        upper, diagonal, lower = factors
        u, v = self.root_elements(upper), self.root_elements(self.times(back, self.times(lower, weyl)))
        tori = [t for t in self.tori if [self.character(x, t) for x in self.weights] == diagonal]
        if u is None or v is None or not tori or any(a and r not in self.made_negative(w) for r, a in enumerate(v)):
            return None
        (h,) = tori
        return Form(u, h, w, v)

    def form_of(self, matrix):
        """The only form whose word has this matrix."""
        (form,) = filter(None, (self.form_at(w, matrix) for w in self.elements))
        assert self.matrix(self.form_word(form)) == matrix
        return form

    # Texts.

    def spelled(self, word):
        out = []
        for kind, *rest in word:
            if kind == "x":
                out.append("x%d(%d)" % (self.datum.number(rest[0]), rest[1]))
            elif kind == "h":
                out.append("h(%s)" % ",".join(map(str, rest[0])))
            else:
                out.append("n%d%s" % (rest[0] + 1, kind[1:]))
        return " ".join(out)

    def read(self, line):
        word = []
        for spelled in line.split():
            x = re.fullmatch(r"x(-?)(\d+)\((\d+)\)", spelled)
            h = re.fullmatch(r"h\((\d+(?:,\d+)*)\)", spelled)
            n = re.fullmatch(r"n(\d+)('?)", spelled)
            if x:
                word.append(("x", int(x[2]) - 1 + (self.datum.m if x[1] else 0), int(x[3])))
            elif h:
                word.append(("h", tuple(map(int, h[1].split(",")))))
            elif n:
                word.append(("n" + n[2], int(n[1]) - 1))
            else:
                assert spelled == "1"
        return word

    def text(self, form):
        roots = lambda elements: self.spelled(self.root_letters(elements)) or "-"
        return " | ".join((roots(form.u), text(form.h), text(form.w), roots(form.v)))

    def reply(self, line):
        command, rest = line.split(" ", 1)
        if command == "module":
            return "module adj %d" % (2 * self.datum.m + self.datum.l)
        words = [self.read(word) for word in rest.split(";")]
        if command == "same":
            return "yes" if self.matrix(words[0]) == self.matrix(words[1]) else "no"
        if command == "inv":
            words = [self.inverse(words[0])]
        return self.text(self.form_of(self.matrix(sum(words, []))))

    def lowered(self, v):
        """While a root pairs with v to 2 or more, half of the pairing, rounded down, of the first such root is taken away."""
        d = self.datum
        for r in range(2 * d.m):
            if d.pair(v, r) >= 2:
                return self.lowered(combined((1, v), (-(d.pair(v, r) // 2), d.vec[r])))
        return v

    def carrier_dimension(self):
        """The dimensions of the adjoint module and of the orbits of the lowered unit vectors that aren't 0, each orbit once."""
        d = self.datum
        weights = [self.lowered(tuple(int(i == j) for i in range(d.dim))) for j in range(d.dim)]
        orbits = {frozenset(orbit(d, self.eta, v).weights) for v in weights if any(v)}
        return 2 * d.m + d.l + sum(map(len, orbits))

    def loaded(self):
        """The reply to `load`."""
        return "loaded %d %d %d %d" % (self.field.q, self.datum.dim, 2 * self.datum.m, self.carrier_dimension())


class Relations:
    """The relations S0 to S7 of a group, as steps from word to word, drawn at random."""

    KINDS = ("S0", "S1", "S2", "S3", "S4", "S5", "S6", "S7")

    def __init__(self, group, draw):
        self.group, self.draw = group, draw

    def is_sorted(self, r, s):
        """Whether S2 has a left side x_s x_r."""
        return r < s and s != self.group.datum.opposite(r)

    def term_letters(self, r, t, s, u):
        """Those behind x_r(t) x_s(u) on the right side of S2."""
        g, f = self.group, self.group.field
        found = terms(g.datum, g.constants, r, s)
        return [("x", k, f.mul[f.integer(c)][f.mul[f.power(f.neg[t], i)][f.power(u, j)]]) for i, j, k, c in found]

    def six_letters(self, i, t):
        """The left side of S6."""
        g, f = self.group, self.group.field
        minus = f.neg[f.power(t, -1)]
        return [("x", i, t), ("x", g.datum.opposite(i), minus), ("x", i, t)] + g.three_letters(i, f.neg[1])

    def coroot_letter(self, i, t):
        """The right side of S6."""
        return ("h", tuple(self.group.field.power(t, exponent) for exponent in self.group.datum.covec[i]))

    def other_sides(self, kind, word):
        """What a relation of this kind puts for letters at the front of a word: how many letters go, and which come. Where the other
        side isn't determined it is drawn."""
        return getattr(self, kind)(word, "".join(letter[0] for letter in word[:2]))

    def S0(self, word, front):
        g = self.group
        root = ("x", self.draw.randrange(2 * g.datum.m), 0)
        yield 0, [self.draw.choice([("h", g.ones), root])]
        if word and (word[0] == ("h", g.ones) or word[0][0] == "x" and word[0][2] == 0):
            yield 1, []

    def S1(self, word, front):
        f = self.group.field
        if front == "xx" and word[0][1] == word[1][1]:
            yield 2, [("x", word[0][1], f.add[word[0][2]][word[1][2]])]
        if front[:1] == "x":
            a = self.draw.randrange(f.q)
            yield 1, [("x", word[0][1], a), ("x", word[0][1], f.add[word[0][2]][f.neg[a]])]

    def S2(self, word, front):
        if front == "xx":
            (_, r, t), (_, s, u) = word[:2]
            if self.is_sorted(s, r):
                yield 2, [word[1], word[0]] + self.term_letters(s, u, r, t)
            if self.is_sorted(r, s):
                behind = self.term_letters(r, t, s, u)
                if word[2 : 2 + len(behind)] == behind:
                    yield 2 + len(behind), [word[1], word[0]]

    def S3(self, word, front):
        g = self.group
        if front == "hh":
            yield 2, [("h", g.torus_product(word[0][1], word[1][1]))]
        if front[:1] == "h":
            coroot = self.coroot_letter(self.draw.randrange(g.datum.l), self.draw.randrange(1, g.field.q))
            letter = self.draw.choice([coroot, ("h", self.draw.choice(g.tori))])
            yield 1, [letter, ("h", g.torus_product(g.torus_inverse(letter[1]), word[0][1]))]

    def S4(self, word, front):
        g = self.group
        if front == "hx":
            (_, t), (_, r, a) = word[:2]
            yield 2, [("x", r, g.field.mul[g.character(g.datum.vec[r], t)][a]), word[0]]
        if front == "xh":
            (_, r, a), (_, t) = word[:2]
            yield 2, [word[1], ("x", r, g.field.mul[g.character(g.datum.vec[r], g.torus_inverse(t))][a])]

    def S5(self, word, front):
        g = self.group
        for i in range(g.datum.l):
            for letter, a in ((("n", i), 1), (("n'", i), g.field.neg[1])):
                if word[:1] == [letter]:
                    yield 1, g.three_letters(i, a)
                if word[:3] == g.three_letters(i, a):
                    yield 3, [letter]

    def S6(self, word, front):
        for i in range(self.group.datum.l):
            for t in range(1, self.group.field.q):
                if word[:6] == self.six_letters(i, t):
                    yield 6, [self.coroot_letter(i, t)]
                if word[:1] == [self.coroot_letter(i, t)]:
                    yield 1, self.six_letters(i, t)

    def S7(self, word, front):
        g = self.group
        moved = lambda i, s, eta, a: ("x", g.datum.reflect(i, s), g.field.mul[g.field.integer(eta)][a])
        if front == "nx":
            (_, i), (_, s, a) = word[:2]
            yield 2, [moved(i, s, g.eta[i, s], a), word[0]]
        if front == "xn":
            (_, s, a), (_, i) = word[:2]
            yield 2, [word[1], moved(i, s, g.eta[i, g.datum.reflect(i, s)], a)]

    def step(self, kind, word, most):
        """A word after one step of this kind, of at most so many letters; or none. Whether it is shorter, as long or longer is drawn
        first."""
        found = {}
        for at in range(len(word) + 1):
            for count, right in self.other_sides(kind, word[at:]):
                if len(word) - count + len(right) <= most:
                    sign = (len(right) > count) - (len(right) < count)
                    found.setdefault(sign, []).append(word[:at] + right + word[at + count :])
        return [self.draw.choice(self.draw.choice(list(found.values())))] if found else []

    def unsorting(self, word, most):
        """The words after steps by S0 and S1 that put the term letters, with their inverses, behind two letters in order, and after the
        step by S2 that then exchanges these; or none."""
        places = []
        for at, (x, y) in enumerate(zip(word, word[1:])):
            if x[0] == y[0] == "x" and self.is_sorted(x[1], y[1]):
                behind = self.term_letters(*x[1:], *y[1:])
                if behind and len(word) + len(behind) <= most:
                    places.append((at, behind))
        if not places:
            return []
        at, behind = self.draw.choice(places)
        chain = [word]
        for k, (_, r, a) in enumerate(behind, at + 2):
            front, back = chain[-1][:k], chain[-1][k:]
            chain += [front + [("x", r, 0)] + back, front + [("x", r, a), ("x", r, self.group.field.neg[a])] + back]
        return chain[1:] + [word[:at] + [word[at + 1], word[at]] + chain[-1][at + 2 + len(behind) :]]

    def chain(self, word, steps, most):
        """Words from this one on, each made from the one before it by one side of a relation for the other inside it, and how often
        each kind was drawn. The last one has at most so many letters."""
        chain, used = [word], Counter()
        while sum(used.values()) < steps:
            kind = self.draw.choice(self.KINDS)
            unsorts = kind == "S2" and self.draw.random() < 0.5
            added = self.unsorting(chain[-1], most) if unsorts else self.step(kind, chain[-1], most)
            chain += added
            used[kind] += bool(added)
        return chain, used


# Words drawn at random, and the cases that are made of them.

NAMES, ORDERS = ("SL3", "GL2", "B2", "G2", "A3"), (2, 3, 4, 5)

# How the names of a command's cases begin, and what stands above the cases.
WHAT = {"form": "forms", "mul": "products and inverses", "same": "equal and unequal words"}
HEADINGS = {
    "form": """\
# Forms of random words, by bench/forms.py: the matrix of a word on a faithful module is taken apart into
# triangular factors and n_w, which gives one form alone, with the same matrix. No relation is used.""",
    "mul": """\
# Products and inverses of random words, by bench/forms.py: the forms of the matrices of the joined and of the
# reversed words.""",
    "same": """\
# Equal and unequal words, by bench/forms.py. Where the reply is yes, the second word is made from the first by
# random steps, each by one of the relations S0 to S7. Where it is no, it is made so from the form of the first
# word with a change in u, h, w or v, or with h times a central element, which the adjoint module doesn't show.
# In each case the matrices on a faithful module say the same.""",
}


def random_word(g, draw, length):
    word = []
    while len(word) < length:
        kind = draw.choice(("x", "x-", "h", "n", "n'"))
        if kind[0] == "x":
            r = draw.randrange(g.datum.m)
            element = draw.randrange(1, g.field.q) if draw.random() < 0.9 else 0
            word.append(("x", g.datum.opposite(r) if kind == "x-" else r, element))
        elif kind == "h":
            if g.field.q > 2 or draw.random() < 0.3:
                word.append(("h", draw.choice(g.tori)))
        else:
            word.append((kind, draw.randrange(g.datum.l)))
    return word


def changed(g, draw, form, part):
    """A form that differs from this one in one part, but that v is 0 where a new w keeps the root positive; or None where none does."""
    if part in ("u", "v"):
        places = range(g.datum.m) if part == "u" else g.made_negative(form.w)
        if not places:
            return None
        r, elements = draw.choice(places), list(getattr(form, part))
        elements[r] = g.field.add[elements[r]][draw.randrange(1, g.field.q)]
        return form._replace(**{part: tuple(elements)})
    if part == "w":
        w = draw.choice([w for w in g.elements if w != form.w])
        places = g.made_negative(w)
        return form._replace(w=w, v=tuple(a if r in places else 0 for r, a in enumerate(form.v)))
    is_central = lambda t: all(g.character(g.datum.vec[r], t) == 1 for r in range(g.datum.l))
    tori = [t for t in g.tori if t != g.ones and (part == "h" or is_central(t))]
    return form._replace(h=g.torus_product(draw.choice(tori), form.h)) if tori else None


def form_lines(g, draw):
    """Words of 1 to 12 letters."""
    return ["form " + g.spelled(random_word(g, draw, 1 + 12 * k // 20)) for k in range(20)]


def mul_lines(g, draw):
    lines = []
    for _ in range(5):
        words = [g.spelled(random_word(g, draw, draw.randint(1, 8))) for _ in range(2)]
        lines += ["mul " + " ; ".join(words), "inv " + g.spelled(random_word(g, draw, draw.randint(1, 12)))]
    return lines


def same_lines(g, draw, parts):
    """Five words, each with one that a chain joins to it, and five, each with one that no chain does: by turns."""
    lines, relations, total = ["module adj adjoint"], Relations(g, draw), Counter()
    for k in range(10):
        start = word = random_word(g, draw, draw.randint(1, 10))
        if k % 2 == 1:
            form = g.form_of(g.matrix(word))
            start = g.form_word(next(filter(None, (changed(g, draw, form, part) for part in parts))))
        chain, used = relations.chain(start, 40, 18)
        matrices = [g.matrix(w) for w in chain]
        assert all(m == matrices[0] for m in matrices) and (g.matrix(word) == matrices[0]) == (k % 2 == 0)
        lines.append("same %s ; %s" % (g.spelled(word), g.spelled(chain[-1]) or "1"))
        total += used
    assert set(total) == {kind for kind in relations.KINDS if kind != "S2" or g.datum.m > 1}
    return lines


def transcripts(command):
    """The paragraphs of the cases of a command. Those of `form` come with the scripts of the data, on which the others stand too."""
    out = [HEADINGS[command]]
    if command == "form":
        for name in NAMES:
            d = Group(name, 2).datum
            rows = ["> root " + text(v) for v in d.simple] + ["> coroot " + text(v) for v in d.cosimple]
            out.append("\n".join(["script the datum of " + name, "> datum %d %d" % (d.dim, d.l)] + rows + ["> load"]))
    parts = cycle(("u", "h", "w", "v", "centre"))
    for name, order in product(NAMES, ORDERS):
        g, draw = Group(name, order), Random("%s in %s over %d" % (command, name, order))
        lines = {"form": form_lines, "mul": mul_lines, "same": lambda g, draw: same_lines(g, draw, parts)}[command](g, draw)
        given = ["case %s in %s over %d" % (WHAT[command], name, order), "> " + g.field.line(), "from the datum of " + name]
        replies = ["< " + reply for reply in [g.loaded()] + [g.reply(line) for line in lines]]
        out.append("\n".join(given + ["> " + line for line in lines] + replies + ["status Done"]))
    return "\n\n".join(out) + "\n"


def add(commands):
    """Writes the cases into both files of the crate, before the last block, which docs/blocks.py writes."""
    blocks = [transcripts(command) for command in commands]
    for end in ("stdin", "stdout"):
        path = os.path.join(os.path.dirname(os.path.abspath(__file__)), "..", "crates", "test_transcripts", end)
        before, mark, last = open(path).read().partition("# The sessions of README.md and of docs/TOUR.md")
        assert mark
        before = before.partition(HEADINGS["form"])[0].rstrip("\n") + "\n"
        with open(path, "w") as file:
            file.write("\n\n".join([before] + blocks + [mark + last]))


# Tests of this script.

# A datum, the order of a field, a line and its reply, worked out by hand.
LINES = [
    ("SL2", 5, "form 1", "- | 1 | - | -"),
    ("SL2", 5, "form x1(0)", "- | 1 | - | -"),
    ("SL2", 5, "form x-1(1)", "x1(1) | 4 | 1 | x1(1)"),
    ("SL2", 5, "inv x-1(1)", "x1(4) | 1 | 1 | x1(4)"),
    ("SL2", 5, "mul x1(1) n1 ; x1(2)", "x1(1) | 1 | 1 | x1(2)"),
    ("SL2", 5, "form n1 n1", "- | 4 | - | -"),
    ("SL2", 5, "form n1'", "- | 4 | 1 | -"),
    ("SL2", 5, "same n1 ; n1'", "no"),
    ("SL2", 5, "form" + 4096 * " n1", "- | 1 | - | -"),
    ("PGL2", 5, "form x-1(1)", "x1(1) | 1 | 1 | x1(1)"),
    ("PGL2", 5, "form n1 n1", "- | 1 | - | -"),
    ("PGL2", 5, "same n1 ; n1'", "yes"),
    ("GL2", 3, "form x1(1) h(2,2) n1 x1(2)", "x1(1) | 2 2 | 1 | x1(2)"),
    ("SL3", 3, "form x2(1) x1(1)", "x1(1) x2(1) x3(2) | 1 1 | - | -"),
    ("SL3", 3, "form n2 n1 n2", "- | 1 1 | 1 2 1 | -"),
    ("SL3", 3, "same n1 n2 n1 ; n2 n1 n2", "yes"),
    ("B2", 2, "form x3(1) x1(1)", "x1(1) x3(1) | 1 1 | - | -"),
    ("B2", 3, "form x2(1) x1(1)", "x1(1) x2(1) x3(2) x4(1) | 1 1 | - | -"),
    ("B2", 3, "form x3(1) x1(1)", "x1(1) x3(1) x4(1) | 1 1 | - | -"),
    ("G2", 5, "form x2(1) x1(1)", "x1(1) x2(1) x3(4) x4(1) x5(4) x6(4) | 1 1 | - | -"),
]

# The same with the matrix of a word on the module, and the form.
MATRICES = [
    ("SL2", 5, "n1", [[0, 1], [4, 0]], "- | 1 | 1 | -"),
    ("GL2", 3, "h(2,1)", [[2, 0], [0, 1]], "- | 2 1 | - | -"),
    ("GL2", 3, "x1(1) h(2,2) n1 x1(2)", [[1, 1], [1, 2]], "x1(1) | 2 2 | 1 | x1(2)"),
    ("SL3", 3, "x2(1) x1(1)", [[1, 1, 0], [0, 1, 1], [0, 0, 1]], "x1(1) x2(1) x3(2) | 1 1 | - | -"),
    ("SL3", 3, "n2 n1", [[0, 1, 0], [0, 0, 1], [1, 0, 0]], "- | 1 1 | 2 1 | -"),
]

# Dimensions of carriers.
CARRIERS = [("SL2", 5), ("PGL2", 3), ("GL2", 5), ("SL3", 14), ("B2", 14), ("G2", 14)]

# Orders of small groups.
SIZES = [
    ("SL2", 4, 60),
    ("SL2", 5, 120),
    ("PGL2", 5, 120),
    ("GL2", 4, 180),
    ("GL2", 5, 480),
    ("SL3", 2, 168),
    ("SL3", 3, 5616),
    ("B2", 2, 720),
]


def determinant(rows):
    if not rows:
        return 1
    minor = lambda j: [row[:j] + row[j + 1 :] for row in rows[1:]]
    return sum((-1) ** j * a * determinant(minor(j)) for j, a in enumerate(rows[0]))


def check_module(g, draw):
    """The weights span the characters, each root acts, and both sides of a relation have one matrix: for S1, S2, S4 and S7 at all roots,
    with units drawn at random."""
    d, f, relations = g.datum, g.field, Relations(g, draw)
    assert gcd(*(determinant(rows) for rows in combinations(g.weights, d.dim))) == 1
    roots, indices = range(2 * d.m), range(d.l)
    assert all(g.entry_of(r) for r in roots)
    letter = lambda r: ("x", r, draw.randrange(1, f.q))
    sides = [("S0", [("h", g.ones)])] + [("S0", [("x", r, 0)]) for r in roots]
    sides += [("S1", [letter(r), letter(r)]) for r in roots]
    sides += [("S2", [letter(s), letter(r)]) for r in roots for s in roots if relations.is_sorted(r, s)]
    sides += [("S3", [("h", draw.choice(g.tori)), ("h", t)]) for t in g.tori]
    sides += [("S4", [("h", draw.choice(g.tori)), letter(r)]) for r in roots]
    sides += [("S5", [(kind, i)]) for i in indices for kind in ("n", "n'")]
    sides += [("S6", relations.six_letters(i, t)) for i in indices for t in range(1, f.q)]
    sides += [("S7", [("n", i), letter(s)]) for i in indices for s in roots]
    for kind, left in sides:
        others = [right for count, right in relations.other_sides(kind, left) if count == len(left)]
        assert others and all(g.matrix(right) == g.matrix(left) for right in others)


def all_forms(g):
    for w in g.elements:
        places = g.made_negative(w)
        of_u = product(range(g.field.q), repeat=g.datum.m)
        of_v = list(product(*(range(g.field.q) if r in places else (0,) for r in range(g.datum.m))))
        for u, h, v in product(of_u, g.tori, of_v):
            yield Form(u, h, w, v)


def check(values):
    """Lines, matrices and carriers worked out by hand; for each module that the cases use the relations, and that forms drawn at random
    are found from the matrices of their words; for small groups the same of all forms, which are as many as the group has elements and
    have as many matrices. Where they are given, products of GAP and least words of LiE."""
    for name, order, line, reply in LINES:
        assert Group(name, order).reply(line) == reply, line
    for name, order, line, matrix, form in MATRICES:
        g = Group(name, order)
        assert g.matrix(g.read(line)) == matrix and g.text(g.form_of(matrix)) == form, line
    for name, dimension in CARRIERS:
        assert Group(name, 2).carrier_dimension() == dimension
    for name, order in product(DATA, ORDERS):
        g, draw = Group(name, order), Random("check of %s over %d" % (name, order))
        check_module(g, draw)
        for _ in range(20):
            element = lambda: draw.randrange(order)
            w = draw.choice(g.elements)
            v = tuple(element() if r in g.made_negative(w) else 0 for r in range(g.datum.m))
            form = Form(tuple(element() for _ in range(g.datum.m)), draw.choice(g.tori), w, v)
            assert g.form_of(g.matrix(g.form_word(form))) == form
    for name, order, size in SIZES:
        g, seen = Group(name, order), set()
        for form in all_forms(g):
            matrix = g.matrix(g.form_word(form))
            assert g.form_of(matrix) == form
            seen.add(str(matrix))
        assert len(seen) == size
    print("by hand: %d lines, %d matrices, %d carriers" % (len(LINES), len(MATRICES), len(CARRIERS)))
    print("all forms of %s" % ", ".join("%s over %d" % row[:2] for row in SIZES))
    if values:
        check_values(*values)


def check_values(gap_path, lie_path):
    names, count = {"A2": "SL3", "A3": "A3", "C2": "B2", "G2": "G2"}, Counter()
    for (kind, order), rows in Reference(gap_path).products.items():
        if kind in names:
            g = Group(names[kind], order)
            for a, b, c in rows:
                form = g.form_of(g.matrix(g.root_letters(a) + g.root_letters(b)))
                assert form == Form(tuple(c), g.ones, (), (0,) * g.datum.m)
                count["products of GAP"] += 1
    for line in open(lie_path):
        kind, word, answer = (part.split() for part in line.split("|"))
        if kind[0] in names:
            g = Group(names[kind[0]], 3)
            form = g.form_of(g.matrix(g.weyl_letters(map(int, word))))
            assert text(form.w) == " ".join(answer) and not any(form.u + form.v)
            count["least words of LiE"] += 1
    print(", ".join("%d %s" % (n, what) for what, n in count.items()))


def main(words):
    if words[0] == "--transcripts":
        print(transcripts(*words[1:] or ["form"]), end="")
    elif words[0] == "--add":
        add(words[1:])
    elif words[0] == "--check":
        check(words[1:])
    else:
        g = Group(words[0], int(words[1]))
        for line in sys.stdin:
            print(g.reply(line.strip()))


if __name__ == "__main__":
    main(sys.argv[1:])

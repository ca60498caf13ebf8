#!/usr/bin/env python3
"""Writes the tables of `crates/test_tables` and `crates/test_modules`: their questions, and the answers that they must print.

    python3 tables.py words >LIE_VALUES                     `TYPE | word | least word` for random words, by LiE's `canonical`
    python3 tables.py GAP_VALUES LIE_VALUES CRATES          CRATES/test_tables/stdin and stdout, CRATES/test_modules/stdin and stdout

GAP_VALUES is what `tables.g` prints (`gap -q -b tables.g </dev/null`): roots in order, structure constants and products.
What neither program answers is worked out here from the definitions, by `relations.py`, or stands here as it was worked out by
hand; where two of these sources know a value they are compared. Nothing is taken from the program.
"""
import random
import re
import subprocess
import sys

import relations
from relations import Datum, adjoint, cartan, constants, orbit, terms, word_matrix

# Bourbaki, Lie groups and Lie algebras, chapter VI, plates I to IX: the number of roots and the highest root. Beside them a long
# and a short simple root with the sums of the squares of their pairings with all coroots, from the dual Coxeter numbers of the
# types of the coroots; where all roots have one length, each counts as long and as short.
KNOWN = {
    "A_1": (2, [1], (1, 8), (1, 8)),
    "A_2": (6, [1] * 2, (1, 12), (2, 12)),
    "A_3": (12, [1] * 3, (1, 16), (3, 16)),
    "A_4": (20, [1] * 4, (1, 20), (4, 20)),
    "A_5": (30, [1] * 5, (1, 24), (5, 24)),
    "A_6": (42, [1] * 6, (1, 28), (6, 28)),
    "A_7": (56, [1] * 7, (1, 32), (7, 32)),
    "A_8": (72, [1] * 8, (1, 36), (8, 36)),
    "B_2": (8, [1, 2], (1, 24), (2, 12)),
    "B_3": (18, [1, 2, 2], (1, 32), (3, 16)),
    "B_4": (32, [1, 2, 2, 2], (1, 40), (4, 20)),
    "B_5": (50, [1, 2, 2, 2, 2], (1, 48), (5, 24)),
    "B_6": (72, [1, 2, 2, 2, 2, 2], (1, 56), (6, 28)),
    "C_3": (18, [2, 2, 1], (3, 40), (1, 20)),
    "C_4": (32, [2, 2, 2, 1], (4, 56), (1, 28)),
    "C_5": (50, [2, 2, 2, 2, 1], (5, 72), (1, 36)),
    "C_6": (72, [2, 2, 2, 2, 2, 1], (6, 88), (1, 44)),
    "D_4": (24, [1, 2, 1, 1], (1, 24), (4, 24)),
    "D_5": (40, [1, 2, 2, 1, 1], (1, 32), (5, 32)),
    "D_6": (60, [1, 2, 2, 2, 1, 1], (1, 40), (6, 40)),
    "E_6": (72, [1, 2, 2, 3, 2, 1], (1, 48), (2, 48)),
    "E_7": (126, [2, 2, 3, 4, 3, 2, 1], (1, 72), (2, 72)),
    "E_8": (240, [2, 3, 4, 6, 5, 4, 3, 2], (1, 120), (2, 120)),
    "F_4": (48, [2, 3, 4, 2], (1, 72), (4, 36)),
    "G_2": (12, [3, 2], (2, 48), (1, 16)),
}


def bourbaki(name):
    """The Cartan matrix of a type, numbered as in Bourbaki."""
    kind, n = name[0], int(name[2:])
    if kind == "F":
        return [[2, -1, 0, 0], [-1, 2, -2, 0], [0, -1, 2, -1], [0, 0, -1, 2]]
    if kind == "E":
        edges = [(1, 3), (3, 4), (2, 4)] + [(i, i + 1) for i in range(4, n)]
        return [[2 if i == j else -int((i, j) in edges or (j, i) in edges) for j in range(1, n + 1)] for i in range(1, n + 1)]
    return cartan(kind, n)


def text(numbers):
    return " ".join(map(str, numbers)) or "-"


def bars(lists):
    return " | ".join(map(text, lists))


class Table:
    """The rows that are written: a heading, or a question with its answer."""

    def __init__(self):
        self.rows = []

    def heading(self, *lines):
        if self.rows:
            self.rows.append(("", None))
        self.rows += [("# " + line, None) for line in lines]

    def row(self, question, lists, answer):
        lists = lists if isinstance(lists, str) else bars(lists)
        self.rows.append(("%s: %s" % (question, lists), answer if isinstance(answer, str) else bars(answer)))

    def datum(self, c, name=None):
        """A datum of a Cartan matrix with unit coroots."""
        d = Datum(c)
        units = [[int(i == j) for j in range(d.l)] for i in range(d.l)]
        given = name or "%d | %s | %s" % (d.l, " / ".join(map(text, c)), " / ".join(map(text, units)))
        self.row("datum", given, [[d.l], [d.l], [d.m]])
        return d

    def write(self, folder):
        with open(folder + "/stdin", "w") as f:
            f.writelines(q + "\n" for q, _ in self.rows)
        with open(folder + "/stdout", "w") as f:
            f.writelines(q + (" = " + a if a is not None else "") + "\n" for q, a in self.rows)


def columns(d, k):
    r, co = d.full[k], d.co[k]
    return [r, co, d.vec[k], co, [sum(r)], [d.norm[k]]]


def place(d, k):
    return k - 1 if k > 0 else d.m - k - 1


def root(t, d, k):
    t.row("root", [[k]], columns(d, place(d, k)))


def named_data(t):
    t.heading(
        "Named data: numbers of roots, highest roots and norms, by Bourbaki's plates.",
        "datum: name = dimension | simple roots | positive roots",
        "root: k = coefficients | those of the coroot | vector | coroot | height | sum of the squares of the pairings with all coroots",
    )
    for name, (count, highest, long, short) in KNOWN.items():
        d = t.datum(bourbaki(name), name)
        assert 2 * d.m == count and list(d.full[d.m - 1]) == highest
        assert all(d.norm[k - 1] == norm for k, norm in (long, short))
        for k in dict.fromkeys((d.m, long[0], short[0])):
            root(t, d, k)


def roots_of_g2(t):
    t.heading("Roots of G_2 and A_3, one by one, and look-ups.", "root of coefficients, root of vector: a list = k, or none")
    d = t.datum(bourbaki("G_2"), "G_2")
    # k, coefficients, those of the coroot, height and vector, worked out by hand
    by_hand = [
        (1, (1, 0), (1, 0), 1, (2, -1)),
        (2, (0, 1), (0, 1), 1, (-3, 2)),
        (3, (1, 1), (1, 3), 2, (-1, 1)),
        (4, (2, 1), (2, 3), 3, (1, 0)),
        (5, (3, 1), (1, 1), 4, (3, -1)),
        (6, (3, 2), (1, 2), 5, (0, 1)),
        (-5, (-3, -1), (-1, -1), -4, (-3, 1)),
    ]
    for k, coeffs, co, height, vector in by_hand:
        assert columns(d, place(d, k))[:5] == [coeffs, co, vector, co, [height]]
        root(t, d, k)
        t.row("root of coefficients", [coeffs], [[k]])
        t.row("root of vector", [vector], [[k]])
    t.row("root of vector", [[0] * 8], "none")
    t.heading(
        "Numbers of roots: r_1, .., r_m, r_(-1), .., r_(-m) in the full order, places from 0.",
        "opposite: k = -k",
        "place: k = place",
        "root at place: place = k",
    )
    d = t.datum(bourbaki("A_3"), "A_3")
    for k, coeffs in ((1, (1, 0, 0)), (2, (0, 1, 0)), (3, (0, 0, 1)), (4, (1, 1, 0)), (5, (0, 1, 1)), (6, (1, 1, 1)), (-5, (0, -1, -1))):
        assert d.full[place(d, k)] == coeffs
        root(t, d, k)
        t.row("opposite", [[k]], [[-k]])
    for k in (0, 7, -7, -(2**31), 2**31):
        t.row("root", [[k]], "none")
    for at, k in ((0, 1), (5, 6), (6, -1), (11, -6)):
        t.row("root at place", [[at]], [[k]])
        t.row("place", [[k]], [[at]])


def sums(t):
    t.heading(
        "Sums, strings and reflections.",
        "sum: r s = r + s, or none",
        "string: r s = how often r can be taken away from s | how often it can be added",
        "reflection: i r = s_i r",
    )
    t.datum(bourbaki("A_2"), "A_2")
    a2 = [(1, 2, 3, (0, 1)), (1, 3, None, (1, 0)), (3, -1, 2, (0, 1))]
    g2 = [(1, 2, 3, (0, 3)), (1, 3, 4, (1, 2)), (2, 1, 3, (0, 1)), (4, -3, 1, (1, 2)), (5, 6, None, (1, 0)), (2, 5, 6, (0, 1))]
    for name, cases in (("A_2", a2), ("G_2", g2)):
        if name == "G_2":
            t.datum(bourbaki("G_2"), "G_2")
        for r, s, both, (down, up) in cases:
            t.row("sum", [[r, s]], "none" if both is None else [[both]])
            t.row("string", [[r, s]], [[down], [up]])
    for i, r, image in ((1, 1, -1), (1, 2, 5), (1, 3, 4), (1, 6, 6), (2, 1, 3), (2, 5, 6), (2, -4, -4)):
        t.row("reflection", [[i, r]], [[image]])


def other_data(t):
    t.heading(
        "Data with a central torus, and a sum of data.",
        "datum: dimension | simple roots | simple coroots = dimension | simple roots | positive roots, or the first fault",
    )
    t.row("datum", "2 | 1 -1 | 1 -1", [[2], [1], [1]])
    t.row("root", [[1]], [[1], [1], [1, -1], [1, -1], [1], [8]])
    t.row("root of vector", [[-1, 1]], [[-1]])
    t.row("root of vector", [[1, 0]], "none")
    t.row("datum", "1 | - | -", [[1], [0], [0]])
    t.row("root of vector", [[0] * 8], "none")
    t.row("root", [[1]], "none")
    t.row("datum", "5 | 2 -2 / -1 2 / 0 0 2 -1 / 0 0 -3 2 | 1 / 0 1 / 0 0 1 / 0 0 0 1", [[5], [4], [10]])
    d = Datum([[2, -2, 0, 0], [-1, 2, 0, 0], [0, 0, 2, -1], [0, 0, -3, 2]])
    for k, coeffs in ((5, (1, 1, 0, 0)), (6, (0, 0, 1, 1)), (7, (1, 2, 0, 0)), (10, (0, 0, 3, 2))):
        c = columns(d, k - 1)
        assert c[0] == coeffs
        t.row("root", [[k]], c[:2] + [tuple(v) + (0,) for v in c[2:4]] + c[4:])


def faults(t):
    t.heading("Data that do not load: the first fault.")
    cases = [
        ("0 | - | -", "Size"),
        ("9 | - | -", "Size"),
        ("1 | 2 | -", "Size"),
        ("0 | 2 | 1", "Size"),
        ("1 | 2 1 | 1", "Entry(Roots, 1, 2)"),
        ("1 | 2 | -101", "Entry(Coroots, 1, 1)"),
        ("1 | 2 | 2", "Pairing(1, 4)"),
        ("1 | 2 | 1", "1 | 1 | 1"),
        ("2 | 2 0 / 1 2 | 1 0 / 0 1", "Positive(2, 1)"),
        ("2 | 2 0 / -1 2 | 1 0 / 0 1", "Zero(1, 2)"),
        ("2 | 2 -1 / 0 2 | 1 0 / 0 1", "Zero(2, 1)"),
        ("2 | 2 -2 / -2 2 | 1 0 / 0 1", "Roots"),
        ("2 | 2 -1 / -4 2 | 1 0 / 0 1", "Roots"),
        ("2 | 2 -1 / -3 2 | 1 0 / 0 1", "2 | 2 | 6"),
    ]
    for question, answer in cases:
        t.row("datum", question, answer)


class Reference:
    """The lines of GAP: for each type and order of a field the Cartan matrix, roots, constants and products."""

    def __init__(self, path):
        self.cartan, self.roots, self.constants, self.products = {}, {}, {}, {}
        for line in open(path):
            words = line.replace("|", " | ").split()
            kind, name = words[:2]
            rest = words[2:]
            if kind == "datum":
                rows = line.split("|")[1].split("/")
                self.cartan[name] = [list(map(int, r.split())) for r in rows]
            elif kind == "root":
                self.roots.setdefault(name, {})[int(rest[0])] = tuple(map(int, rest[2:]))
            elif kind == "const":
                r, s, n = map(int, rest)
                self.constants.setdefault(name, {})[r, s] = n
            else:
                sides = [list(map(int, p.split())) for p in line.split("|")[1:]]
                self.products.setdefault((name, int(rest[0])), []).append(sides)


def given_name(c):
    return next((name for name in KNOWN if bourbaki(name) == c), None)


def roots_of_gap(t, gap):
    t.heading("Roots of GAP 4.12.1, in order; vectors, heights and norms from the definitions.")
    for name, roots in gap.roots.items():
        d = t.datum(gap.cartan[name], given_name(gap.cartan[name]))
        assert d.m == len(roots)
        for k, coeffs in roots.items():
            assert d.full[k - 1] == coeffs
            root(t, d, k)


def constants_of_gap(t, gap):
    t.heading(
        "Structure constants of GAP 4.12.1, all of them, with + on extraspecial pairs.",
        "constants: r = N_rs for s in the full order, 0 at s = -r",
    )
    for name, known in gap.constants.items():
        d = t.datum(gap.cartan[name], given_name(gap.cartan[name]))
        own = constants(d)
        for r in range(2 * d.m):
            row = []
            for s in range(2 * d.m):
                j, k = d.number(r), d.number(s)
                n = known.get((j, k), 0) - known.get((k, j), 0)
                assert s == d.opposite(r) or n == own(r, s)
                row.append(n)
            t.row("constants", [[d.number(r)]], [row])


def constants_by_hand(t):
    t.heading(
        "Constants and terms of G_2.",
        "constant: r s = N_rs",
        "terms: r s = for each term i, j, the root i r + j s and its coefficient, by rising i + j, then rising i",
        "jacobi: - = triples of roots of which no two are opposite and whose sum isn't 0 | those at which the Jacobi identity fails",
    )
    d = t.datum(bourbaki("G_2"), "G_2")
    n = constants(d)
    for r, s, value in ((1, 2, 1), (2, 1, -1), (1, 3, 2), (1, 4, 3), (2, 5, 1), (3, 4, -3), (5, 6, 0)):
        assert n(place(d, r), place(d, s)) == value
        t.row("constant", [[r, s]], [[value]])
    worked = {
        (1, 2): [(1, 1, 3, 1), (2, 1, 4, 1), (3, 1, 5, 1), (3, 2, 6, 1)],
        (2, 1): [(1, 1, 3, -1), (1, 2, 4, 1), (1, 3, 5, -1), (2, 3, 6, -2)],
        (3, 4): [(1, 1, 6, -3)],
        (5, 6): [],
    }
    for r in range(2 * d.m):
        for s in range(2 * d.m):
            if s not in (r, d.opposite(r)):
                found = [(i, j, d.number(k), c) for i, j, k, c in terms(d, n, r, s)]
                pair = d.number(r), d.number(s)
                assert worked.get(pair, found) == found
                t.row("terms", [pair], found or "-")
    for name in ("A_2", "B_2", "G_2"):
        d = t.datum(bourbaki(name), name)
        add = lambda r, s: d.find(relations.combined((1, d.full[r]), (1, d.full[s])))
        general = lambda r, s, u: d.opposite(u) not in (r, s, add(r, s)) and s != d.opposite(r)
        all_roots = range(2 * d.m)
        count = sum(general(r, s, u) for r in all_roots for s in all_roots for u in all_roots)
        t.row("jacobi", "-", [[count], [0]])
    d = t.datum(bourbaki("E_8"), "E_8")
    assert constants(d)(7, 118) == 1
    t.row("constant", [[8, 119]], [[1]])


def products(t, gap):
    t.heading(
        "Products in the unipotent radical, of GAP 4.12.1: one element for each positive root, in order.",
        "field: characteristic | coefficients below the leading term | generator = number of elements",
        "product: a | b = a b",
    )
    generator = {2: 1, 3: 2, 5: 2}
    for (name, q), rows in gap.products.items():
        t.row("field", [[q], [0], [generator[q]]], [[q]])
        t.datum(gap.cartan[name], given_name(gap.cartan[name]))
        for a, b, c in rows:
            t.row("product", [a, b], [c])
    t.heading(
        "Products worked out by hand.",
        "letters: r a | s b | .. = x_r(a) x_s(b) ..",
        "inverse: a = 1 / a",
        "split: a | word of w = the part of the roots that w keeps positive | the part of the others",
    )
    t.row("field", "5 | 0 | 2", [[5]])
    t.datum(bourbaki("G_2"), "G_2")
    t.row("letters", [[2, 1], [1, 1]], [[1, 1, 4, 1, 4, 4]])
    t.row("letters", [[1, 1]], [[1, 0, 0, 0, 0, 0]])
    t.row("inverse", [[1, 0, 0, 0, 0, 0]], [[4, 0, 0, 0, 0, 0]])
    t.row("field", "3 | 0 | 2", [[3]])
    t.datum(bourbaki("A_2"), "A_2")
    t.row("split", [[1, 1, 0], [1]], [[0, 1, 1], [1, 0, 0]])


def images(d, word):
    """The images of the simple roots under a word, the last letter of which acts first, by numbers."""
    found = []
    for i in range(d.l):
        k = i
        for letter in reversed(word):
            k = d.reflect(letter - 1, k)
        found.append(d.number(k))
    return found


def least(d, word):
    """The lexicographically least shortest word: the first letter i that makes the word shorter is one with w^-1(a_i) negative."""
    word, found = list(word), []
    while True:
        back = images(d, word[::-1])
        first = next((i for i, k in enumerate(back, 1) if k < 0), None)
        if first is None:
            return found
        found.append(first)
        word = [first] + word


def shown(d, word):
    w = least(d, word)
    assert images(d, w) == images(d, word)
    return [w, [len(w)], images(d, word)]


LONGEST = {
    "A_3": [-3, -2, -1],
    "A_5": [-5, -4, -3, -2, -1],
    "B_3": [-1, -2, -3],
    "C_3": [-1, -2, -3],
    "D_4": [-1, -2, -3, -4],
    "F_4": [-1, -2, -3, -4],
    "G_2": [-1, -2],
    "E_6": [-6, -2, -5, -4, -3, -1],
    "E_7": [-1, -2, -3, -4, -5, -6, -7],
    "E_8": [-1, -2, -3, -4, -5, -6, -7, -8],
}


def elements(t, path):
    t.heading(
        "Least words by LiE 2.2.2, in Bourbaki's numbers; images from the definition. The last letter of a word acts first.",
        "element: word = least word | length | images of the simple roots",
    )
    words = {}
    for line in open(path):
        kind, word, answer = (p.split() for p in line.split("|"))
        name = kind[0][0] + "_" + kind[0][1:]
        words.setdefault(name, []).append((list(map(int, word)), [int(i) for i in answer if i != "-"]))
    for name, cases in words.items():
        c = [[2, -1], [-2, 2]] if name == "C_2" else bourbaki(name)
        d = t.datum(c, name if name in KNOWN else None)
        for word, answer in cases:
            assert least(d, word) == answer
            t.row("element", [word], shown(d, word))
    t.heading("The longest elements, by their images.", "element of images: images = least word | length | images, or none")
    for name, ends in LONGEST.items():
        d = t.datum(bourbaki(name), name)
        word = []
        while any(k > 0 for k in images(d, word)):
            word.append(next(i for i, k in enumerate(images(d, word), 1) if k > 0))
        assert images(d, word) == ends and len(word) == d.m
        t.row("element of images", [ends], shown(d, word))
    t.heading(
        "Calls on A_2, worked out by hand.",
        "inverse element: word of w = that of 1 / w",
        "product of elements: word of w | word of v = w v",
        "simple factor behind: word of w | i = w s_i",
        "simple factor before: word of w | i = s_i w",
        "equal elements: word of w | word of v = whether w = v",
    )
    d = t.datum(bourbaki("A_2"), "A_2")
    one, both, longest, back = [[], [0], [1, 2]], [[1, 2], [2], [2, -3]], [[1, 2, 1], [3], [-2, -1]], [[2, 1], [2], [-3, 1]]
    for word, answer in (([], one), ([1, 2], both), ([2, 1, 2], longest), ([1, 2, 1, 2], back)):
        assert shown(d, word) == answer
        t.row("element", [word], answer)
    t.row("element of images", [[2, -3]], both)
    t.row("element of images", [[1, 1]], "none")
    t.row("inverse element", [[1, 2]], back)
    t.row("simple factor behind", [[1, 2], [1]], longest)
    t.row("simple factor before", [[1, 2], [1]], [[2], [1], [3, -2]])
    t.row("product of elements", [[1, 2], [1, 2]], back)
    t.row("product of elements", [[1, 2], [2, 1]], one)
    t.row("equal elements", [[], [1, 2, 2, 1]], "yes")
    t.row("equal elements", [[], [1, 2]], "no")


def torus(t):
    t.heading(
        "Torus vectors, worked out by hand.",
        "torus vector: entries = entries, or none where they are not one to eight units",
        "ones: d = the vector of d ones",
        "torus entry: t | j = t_j",
        "torus product: t | u = t u",
        "torus inverse: t = 1 / t",
        "character: t | v = v(t)",
        "coroot at: r a = r-check(a)",
        "reflected torus: i | t = s_i t",
    )
    cases = [
        (5, 2, (2, 1), (3, 1), (1, 1), (3, 1)),
        (5, 2, (2, 3), (4, 2), (3, 1), (3, 2)),
        (5, 3, (4, 1), (4, 2), (1, 2), (4, 1)),
        (3, 2, (2, 1), (2, 2), (1, 2), (2, 1)),
    ]
    t.datum(bourbaki("A_2"), "A_2")
    for p, g, a, b, product, inverse in cases:
        t.row("field", [[p], [0], [g]], [[p]])
        t.row("torus product", [a, b], [product])
        t.row("torus inverse", [a], [inverse])
        t.row("torus entry", [a, [1]], [[a[0]]])
        t.row("torus entry", [a, [2]], [[a[1]]])
    t.row("field", "5 | 0 | 2", [[5]])
    for entries, answer in (([], None), ([4], [4]), ([4, 0], None), ([4] * 8, [4] * 8), ([4] * 9, None)):
        t.row("torus vector", [entries], "none" if answer is None else [answer])
    t.row("ones", [[2]], [[1, 1]])
    for a, v, value in (((2, 3), (0, 0), 1), ((2, 3), (2, -1), 3), ((2, 3), (-1, 2), 2), ((4, 2), (1, 1), 3), ((2, 1), (-3, 5), 2)):
        t.row("character", [a, v], [[value]])
    for r, entries in ((1, (2, 1)), (2, (1, 2)), (3, (2, 2)), (-1, (3, 1))):
        t.row("coroot at", [[r, 2]], [entries])
    for i, entries in ((1, (4, 3)), (2, (2, 4))):
        t.row("reflected torus", [[i], (2, 3)], [entries])


def kept(matrix):
    """The entries that are not 0, by columns: row, column, entry, from 1."""
    n = range(len(matrix))
    return [[i + 1, j + 1, matrix[i][j]] for j in n for i in n if matrix[i][j]]


def lowered(t):
    t.heading(
        "Lowered weights of SL_2 and PGL_2, and a pairing, worked out by hand.",
        "lowered weight: v = the weight that v lowers to",
        "pairing: x | y = <x, y>",
    )
    for given, cases in (("1 | 2 | 1", ((5, 1), (-3, -1))), ("1 | 1 | 2", ((1, 0),))):
        t.row("datum", given, [[1], [1], [1]])
        for v, answer in cases:
            t.row("lowered weight", [[v]], [[answer]])
    t.row("pairing", [[3, -2], [5, 7]], [[1]])


def adjoint_modules(t):
    t.heading(
        "Adjoint modules, from the definition. The basis: e_r by falling height, the coroots, e_r at the negative roots.",
        "weights of the adjoint module: - = the weights",
        "adjoint matrix: r k = the entries of E_r^(k) that are not 0, as row, column and entry, or none",
    )
    by_hand = {
        "A_1": {(1, 1): [[1, 2, -2], [2, 3, 1]], (1, 2): [[1, 3, -1]], (-1, 1): [[2, 1, -1], [3, 2, 2]], (-1, 2): [[3, 1, -1]]},
        "G_2": {},
    }
    for name in ("A_1", "G_2"):
        d = t.datum(bourbaki(name), name)
        v, at = adjoint(d, constants(d))
        if name == "A_1":
            assert v.weights == [(2,), (0,), (-2,)]
        else:
            # a root, a power, and the image of the root e_s: e_t with a coefficient
            for r, k, s, image, value in ((1, 1, 2, 3, 1), (1, 2, 2, 4, 1), (1, 3, 2, 5, 1), (2, 1, 1, 3, -1)):
                assert v.powers[place(d, r)][k - 1][at[place(d, image)]][at[place(d, s)]] == value
            assert len(v.powers[0]) == 3 and len(v.powers[1]) == 2
        t.row("weights of the adjoint module", "-", v.weights)
        for r in range(2 * d.m):
            for k, matrix in enumerate(v.powers[r], 1):
                pair = d.number(r), k
                assert by_hand[name].get(pair, kept(matrix)) == kept(matrix)
                t.row("adjoint matrix", [pair], kept(matrix))
            t.row("adjoint matrix", [[d.number(r), 0]], "none")
            t.row("adjoint matrix", [[d.number(r), len(v.powers[r]) + 1]], "none")


def signs_of(d):
    v, at = adjoint(d, constants(d))
    return {(i, s): v.weyl(i)[at[d.reflect(i, s)]][at[s]] for i in range(d.l) for s in range(2 * d.m)}


def sign_rows(t, d):
    """The signs, from the definition, and that all braid values are 1."""
    eta = signs_of(d)
    table = [eta[i, s] for i in range(d.l) for s in range(2 * d.m)]
    t.row("signs", [table], [[len(table)]])
    t.row("signs of the adjoint module", "-", [table])
    t.row("braid values", "-", "all 1")
    return eta


def orbit_rows(t, d, eta, weight):
    v = orbit(d, eta, weight)
    t.row("orbit", [weight], v.weights)
    for r in range(2 * d.m):
        matrix = kept(v.powers[r][0])
        t.row("orbit matrix", [weight, [d.number(r), 1]], matrix or "none")
    return v


def orbits(t):
    t.heading(
        "Signs, braid values and modules of minuscule orbits, from the definitions.",
        "signs: for i rising, one for each root in the full order = how many",
        "signs of the adjoint module: - = those that are read off the adjoint module",
        "braid values: - = whether all are 1, or the first that isn't, as i, j and value",
        "orbit: v = the weights of its module, or the root that pairs with v to more than 1 or less than -1",
        "orbit matrix: v | r 1 = the entries of E_r^(1) that are not 0, as row, column and entry, or none",
    )
    d = t.datum(bourbaki("A_1"), "A_1")
    t.row("signs", [[-1, -1]], [[2]])
    v = orbit_rows(t, d, signs_of(d), (1,))
    assert v.weights == [(1,), (-1,)] and kept(v.powers[0][0]) == [[1, 2, 1]] and kept(v.powers[1][0]) == [[2, 1, 1]]
    for weight in (2, -2, 100):
        t.row("orbit", [[weight]], "not minuscule at 1")
    t.row("datum", "1 | - | -", [[1], [0], [0]])
    t.row("signs", "-", [[0]])
    t.row("orbit", [[7]], [[7]])
    d = t.datum(bourbaki("A_2"), "A_2")
    eta = sign_rows(t, d)
    assert [eta[i, s] for i in range(2) for s in range(6)] == [-1, 1, -1, -1, 1, -1, -1, -1, 1, -1, -1, 1]
    v = orbit_rows(t, d, eta, (1, 0))
    assert v.weights == [(1, 0), (-1, 1), (0, -1)]
    assert [kept(v.powers[r][0]) for r in (0, 1, 2, 3, 5)] == [[[1, 2, 1]], [[2, 3, 1]], [[1, 3, 1]], [[2, 1, 1]], [[3, 1, 1]]]
    t.heading("A table of signs with a braid value of -1: all are 1 but that of 2 and the first root.")
    t.datum(bourbaki("A_2"), "A_2")
    t.row("signs", [[1, 1, 1, 1, 1, 1, -1, 1, 1, 1, 1, 1]], [[12]])
    t.row("braid values", "-", [[1, 2, -1]])
    t.heading("Other data of rank two, with conjugates of sign -1: c_12 = -1 and c_21 = -2 among them.")
    for c, weight in (([[2, 0], [0, 2]], (1, 0)), ([[2, -2], [-1, 2]], (0, 1)), ([[2, -1], [-2, 2]], (1, 0)), ([[2, -1], [-3, 2]], None)):
        d = t.datum(c, given_name(c))
        eta = sign_rows(t, d)
        if weight:
            v = orbit_rows(t, d, eta, weight)
            if c == [[2, -1], [-2, 2]]:
                assert any(x < 0 for r in range(8) for row in v.powers[r][0] for x in row)
    t.heading("Orbits of rank three and four.")
    for name, weight in (("A_3", (0, 1, 0)), ("B_3", (0, 0, 1)), ("C_3", (1, 0, 0)), ("D_4", (1, 0, 0, 0))):
        d = t.datum(bourbaki(name), name)
        orbit_rows(t, d, sign_rows(t, d), weight)


def matrices(t):
    t.heading(
        "Matrices of words on the adjoint module over a field, by rows.",
        "matrix of x: r a = that of x_r(a)",
        "matrix of n and its inverse: i = that of n_i n_i'",
        "matrix of h: t = that of h(t)",
    )
    by_hand = [[[1, 3, 4], [0, 1, 1], [0, 0, 1]], [[1, 0, 0], [0, 1, 0], [0, 0, 1]], [[4, 0, 0], [0, 1, 0], [0, 0, 4]]]
    for name, p, torus in (("A_1", 5, (2,)), ("A_2", 5, (2, 3))):
        t.row("field", [[p], [0], [2]], [[p]])
        d = t.datum(bourbaki(name), name)
        v, _ = adjoint(d, constants(d))
        worked = [word_matrix(v, p, w) for w in ([("x", 0, 1)], [("n", 0), ("n'", 0)], [("h", torus)])]
        assert name != "A_1" or worked == by_hand
        t.row("matrix of x", [[1, 1]], worked[0])
        t.row("matrix of n and its inverse", [[1]], worked[1])
        t.row("matrix of h", [torus], worked[2])


def matrices_of_integers(t):
    t.heading(
        "Matrices of integers, worked out by hand. A matrix is its shape and its entries, row after row.",
        "matrix product, matrix sum, direct sum, Kronecker product, transposed matrix, identity matrix: = the shape, and",
        "    the entries that are not 0, by columns: the row, the column and the entry; or wide",
        "equal matrices: M | N = whether they are equal; symmetric identity: n = whether it is its own transpose",
        "image of vector: M | v = M v",
        "next entry: M | i j = the row of the first entry of column j from row i on that is not 0, and the entry, or none",
    )

    def given(m):
        return [[len(m), len(m[0])], [x for row in m for x in row]]

    def kept(m):
        places = ((i, j) for j in range(len(m[0])) for i in range(len(m)))
        return [[len(m), len(m[0])]] + [[i + 1, j + 1, m[i][j]] for i, j in places if m[i][j]]

    a, b = [[1, 2], [0, 3]], [[2, 0], [-1, 1]]
    upper, lower, one = [[1, 1], [0, 1]], [[1, 0], [1, 1]], [[1]]
    c = [[2, 1], [1, 1]]
    t.row("matrix product", given(a) + given(b), kept([[0, 2], [-3, 3]]))
    t.row("matrix product", given(b) + given(a), kept([[2, 4], [-1, 1]]))
    t.row("matrix product", given(upper) + given(lower), kept(c))
    t.row("matrix product", given([[1 << 100]]) * 2, "wide")
    t.row("equal matrices", given(upper) + given(lower), "no")
    t.row("equal matrices", given([[1 << 100]]) * 2, "yes")
    t.row("matrix sum", given(a) + given(b), kept([[3, 2], [-1, 4]]))
    t.row("matrix sum", given(c) * 2, kept([[4, 2], [2, 2]]))
    t.row("transposed matrix", given(a), kept([[1, 0], [2, 3]]))
    t.row("transposed matrix", given(c), kept(c))
    product = [[2, 0, 4, 0], [-1, 1, -2, 2], [0, 0, 6, 0], [0, 0, -3, 3]]
    t.row("Kronecker product", given(a) + given(b), kept(product))
    t.row("Kronecker product", given(c) + given(one), kept(c))
    blocks = [[1, 2, 0, 0], [0, 3, 0, 0], [0, 0, 2, 0], [0, 0, -1, 1]]
    t.row("direct sum", given(a) + given(b), kept(blocks))
    t.row("direct sum", given(c) + given(one), kept([[2, 1, 0], [1, 1, 0], [0, 0, 1]]))
    t.row("image of vector", given(a) + [[5, -1]], [[3, -3]])
    t.row("image of vector", given(c) + [[1, 1]], [[3, 2]])
    for start, answer in (((1, 1), [[2, 5]]), ((1, 2), [[1, 4]]), ((2, 2), [[2, 6]]), ((3, 1), "none")):
        t.row("next entry", given([[0, 4], [5, 6]]) + [start], answer)
    t.row("identity matrix", [[2]], kept([[1, 0], [0, 1]]))
    for n in (0, 1, 1024):
        t.row("symmetric identity", [[n]], "yes")
        t.row("matrix product", [[n, 0], [], [0, n], []], [[n, n]])


def words_of_lie():
    """Random words of 5 to 120 letters and their least words, by LiE."""
    random.seed(20240501)
    for kind, n in (("A", 3), ("A", 5), ("B", 3), ("C", 3), ("C", 2), ("D", 4), ("G", 2), ("F", 4), ("E", 6), ("E", 7), ("E", 8)):
        words = [[random.randint(1, n) for _ in range(k)] for k in (5, 10, 20, 20, 40, 40, 80, 120)]
        lines = ["canonical([%s],%s%d)" % (",".join(map(str, w)), kind, n) for w in words]
        said = subprocess.run(["lie"], input="\n".join(["maxobjects 1000000"] + lines) + "\n", capture_output=True, text=True).stdout
        answers = re.findall(r"\[([0-9, ]*)\]", said.replace("\n", " "))
        assert len(answers) == len(words)
        for word, answer in zip(words, answers):
            print("%s%d | %s | %s" % (kind, n, text(word), text(answer.replace(",", " ").split())))


def main(gap_path, lie_path, crates):
    gap, t = Reference(gap_path), Table()
    named_data(t)
    roots_of_g2(t)
    sums(t)
    other_data(t)
    faults(t)
    roots_of_gap(t, gap)
    constants_of_gap(t, gap)
    constants_by_hand(t)
    elements(t, lie_path)
    products(t, gap)
    torus(t)
    t.write(crates + "/test_tables")
    t = Table()
    lowered(t)
    adjoint_modules(t)
    orbits(t)
    matrices(t)
    matrices_of_integers(t)
    t.write(crates + "/test_modules")


if __name__ == "__main__":
    if sys.argv[1:] == ["words"]:
        words_of_lie()
    else:
        main(*sys.argv[1:])

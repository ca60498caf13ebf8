#!/usr/bin/env python3
"""Works out the weights of carriers from the definitions alone.

    python3 carriers.py                  rows for the crate test_modules
    python3 carriers.py --transcripts    cases for crates/test_transcripts: each named datum loads over two and over three elements
    python3 carriers.py --add            writes these cases there, in place of those that it wrote before
    python3 carriers.py NAME             the lines `datum`, `root`, `coroot` of a named datum, as E_7

The weights of the adjoint module, then for each axis the orbit of the weight that its unit vector lowers to, where that is
not 0 and its orbit has not come before.
"""
import os
import sys

LIMIT = 1024
HEAVY = 1000000


def dot(x, y):
    return sum(a * b for a, b in zip(x, y))


def combined(coefficients, vectors, dim):
    return tuple(sum(c * v[k] for c, v in zip(coefficients, vectors)) for k in range(dim))


def all_roots(dim, simple, cosimple):
    """Pairs of a root in X and its coroot in Y in the full order, and the number of positive roots."""
    count = len(simple)
    seen = {(tuple(int(k == i) for k in range(count)),) * 2 for i in range(count)}
    todo = list(seen)
    while todo:
        r, s = todo.pop()
        for i in range(count):
            m = dot(combined(r, simple, dim), cosimple[i])
            n = dot(simple[i], combined(s, cosimple, dim))
            image = (tuple(c - m * (k == i) for k, c in enumerate(r)), tuple(c - n * (k == i) for k, c in enumerate(s)))
            if image not in seen:
                seen.add(image)
                todo.append(image)
    positive = sorted((q for q in seen if min(q[0]) >= 0), key=lambda q: (sum(q[0]), [-c for c in q[0]], [-c for c in q[1]]))
    pairs = [(combined(r, simple, dim), combined(s, cosimple, dim)) for r, s in positive]
    return pairs + [(tuple(-c for c in x), tuple(-c for c in y)) for x, y in pairs], len(pairs)


def lowered(x, roots):
    """Takes away the first root that pairs to 2 or more, half as often, while there is one."""
    while True:
        for r, s in roots:
            m = dot(x, s)
            if m >= 2:
                x = tuple(a - (m // 2) * b for a, b in zip(x, r))
                break
        else:
            return x


def orbit(x, simple, cosimple, coroots):
    seen = {x}
    todo = [x]
    while todo:
        y = todo.pop()
        for a, b in zip(simple, cosimple):
            image = tuple(p - dot(y, b) * q for p, q in zip(y, a))
            if image not in seen:
                seen.add(image)
                todo.append(image)
    return sorted(seen, key=lambda y: (-dot(y, coroots), [-c for c in y]))


def carrier(dim, simple, cosimple):
    roots, m = all_roots(dim, simple, cosimple)
    coroots = tuple(sum(roots[k][1][j] for k in range(m)) for j in range(dim))
    weights = [roots[k][0] for k in reversed(range(m))] + [(0,) * dim] * len(simple) + [x for x, _ in roots[m:]]
    orbits = []
    for j in range(dim):
        y = lowered(tuple(int(k == j) for k in range(dim)), roots)
        if any(y) and not any(y in o for o in orbits):
            orbits.append(orbit(y, simple, cosimple, coroots))
    return weights + [x for o in orbits for x in o]


def answer(weights):
    if len(weights) > LIMIT:
        return "wide %d" % min(len(weights), LIMIT + 1)
    for a, x in enumerate(weights):
        if max(map(abs, x)) > HEAVY:
            return "heavy %d" % (a + 1)
    return " | ".join(" ".join(map(str, x)) for x in weights)


def spelled(vectors):
    return " / ".join(" ".join(map(str, v)) for v in vectors) if vectors else "-"


def cartan(kind, rank):
    """The Cartan matrix of a type, numbered as in Bourbaki: row i has the pairings of the simple root i with the simple coroots."""
    links = [(i, i + 1) for i in range(1, rank)]
    if kind == "D":
        links[-1] = (rank - 2, rank)
    if kind == "E":
        links = [(1, 3), (2, 4)] + [(i, i + 1) for i in range(3, rank)]
    c = [[2 * int(i == j) - int((i, j) in links or (j, i) in links) for j in range(1, rank + 1)] for i in range(1, rank + 1)]
    # a pairing of a long root with a short coroot
    strong = {"B": (rank - 1, rank, -2), "C": (rank, rank - 1, -2), "F": (2, 3, -2), "G": (2, 1, -3)}
    if kind in strong:
        i, j, value = strong[kind]
        c[i - 1][j - 1] = value
    return c


# The types with a name, and the ranks of each.
NAMED = [("A", range(1, 9)), ("B", range(2, 7)), ("C", range(3, 7)), ("D", range(4, 7)), ("E", (6, 7)), ("F", (4,)), ("G", (2,))]


def named(kind, rank):
    """The datum of a type: the rows of its Cartan matrix are the simple roots, and the unit vectors the simple coroots."""
    return rank, [tuple(row) for row in cartan(kind, rank)], [tuple(int(i == j) for j in range(rank)) for i in range(rank)]


DATA = [
    (1, [(2,)], [(1,)]),
    (1, [(1,)], [(2,)]),
    (2, [(1, -1)], [(1, -1)]),
    (2, [(2, -1), (-1, 2)], [(1, 0), (0, 1)]),
    (2, [(2, -1), (-2, 2)], [(1, 0), (0, 1)]),
    (2, [(2, -1), (-3, 2)], [(1, 0), (0, 1)]),
    (2, [], []),
    # seven roots that are orthogonal, with orbits of 128 weights
    (8, [tuple(i + int(k == i) for k in range(1, 8)) + (-9 * i - 1,) for i in range(1, 8)],
        [tuple(1 + 2 * int(k == i) for k in range(1, 9)) for i in range(1, 8)]),
    # E_7 with entries near 100, where weights are large
    (8, [tuple(c - 98 for c in row) + (1,) for row in cartan("E", 7)], [tuple(int(k == j) for k in range(7)) + (98,) for j in range(7)]),
]

HEADING = """\
# Named data over two and over three elements, numbered as in Bourbaki: the rows of a Cartan matrix are the simple roots, and unit vectors
# the simple coroots. Each loads, with the dimension of its carrier that bench/carriers.py works out: the roots, the rank, and the orbits of
# the lowered unit vectors."""
BEHIND = "# Relations. In each case the matrix lines stand in pairs"


def lines(dim, simple, cosimple):
    rows = [("root", v) for v in simple] + [("coroot", v) for v in cosimple]
    return ["datum %d %d" % (dim, len(simple))] + [word + " " + " ".join(map(str, v)) for word, v in rows]


def transcripts():
    out = [HEADING]
    for kind, ranks in NAMED:
        for rank in ranks:
            datum, name = named(kind, rank), "%s_%d" % (kind, rank)
            roots = len(all_roots(*datum)[0])
            out.append("\n".join(["script the named datum " + name] + ["> " + line for line in lines(*datum) + ["load"]]))
            for p, g in ((2, 1), (3, 2)):
                reply = "loaded %d %d %d %d" % (p, rank, roots, len(carrier(*datum)))
                out.append(
                    "case %s over %d\n> field %d 1 0 %d\nfrom the named datum %s\n< %s\nstatus Done" % (name, p, p, g, name, reply)
                )
    return "\n\n".join(out) + "\n"


def add():
    """Writes the cases into both files of the crate, before the cases of relations."""
    for end in ("stdin", "stdout"):
        path = os.path.join(os.path.dirname(os.path.abspath(__file__)), "..", "crates", "test_transcripts", end)
        before, mark, last = open(path).read().partition(BEHIND)
        assert mark
        before = before.partition(HEADING)[0].rstrip("\n") + "\n"
        with open(path, "w") as file:
            file.write("\n\n".join([before, transcripts(), mark + last]))


def main(words):
    if words == ["--transcripts"]:
        print(transcripts(), end="")
    elif words == ["--add"]:
        add()
    elif words:
        kind, rank = words[0].split("_")
        print("\n".join(lines(*named(kind, int(rank)))))
    else:
        for dim, simple, cosimple in DATA:
            print("datum: %d | %s | %s" % (dim, spelled(simple), spelled(cosimple)))
            print("carrier: - = " + answer(carrier(dim, simple, cosimple)))


if __name__ == "__main__":
    main(sys.argv[1:])

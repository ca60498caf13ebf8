#!/usr/bin/env python3
"""Matrices, and the forms of the words that have them: outside values for the lines `reduce` and `row`, by matrices alone (forms.py).

    python3 reductions.py                    cases for crates/test_transcripts
    python3 reductions.py --add              writes these cases there, in place of those that it wrote before
    python3 reductions.py --check            compares these cases with those there

For each of SL_3 on two modules, GL_3, Sp_4 and G_2, over two to five elements, there are matrices of fifteen random words, and fifteen that
no word has: one entry of a word's matrix changed, or a row or a column multiplied or made 0, two rows exchanged, a multiple of a word's
matrix, a transposed one, the matrix of zeros. A matrix is that of a word exactly if for some Weyl element it comes apart into the factors
of a form whose word has it.

Beside that stands what the classical groups are: a matrix is in GL_3 exactly if its determinant isn't 0, in SL_3 exactly if it is 1, and in
Sp_4 exactly if it keeps the bilinear form that the letters of roots keep. Each matrix of these groups is decided in both ways. For GL_3 and
SL_3 eight random matrices with such a determinant come beside those of words.
"""
from itertools import product
from random import Random

import forms
import region
from forms import Group, random_word
from tables import text

# simple roots, simple coroots, and the weight of the module; the adjoint module of G_2 where there is none
forms.DATA.update({
    "SL3 by its first module": ([(2, -1), (-1, 2)], [(1, 0), (0, 1)], (1, 0)),
    "SL3 by its second module": ([(2, -1), (-1, 2)], [(1, 0), (0, 1)], (0, 1)),
    "GL3": ([(1, -1, 0), (0, 1, -1)], [(1, -1, 0), (0, 1, -1)], (1, 0, 0)),
    "Sp4": ([(2, -1), (-2, 2)], [(1, 0), (0, 1)], (1, 0)),
})
NAMES, ORDERS, COUNT = ("SL3 by its first module", "SL3 by its second module", "GL3", "Sp4", "G2"), (2, 3, 4, 5), 15

HEADING = """\
# Matrices of random words, and matrices that no word has, by bench/reductions.py: each matrix is taken apart into triangular factors and
# n_w for each Weyl element, and is that of a word exactly if the word of a form that is found so has it."""

BY_HAND = """\
# More of the lines reduce and row, by hand.

case a product in SL3, and a permutation
from SL3 over 3
> module nat orbit 1 0
> matrix nat x1(1) x2(1) x3(2)
> matrix nat x2(1) x1(1)
> reduce nat
> row 0 1 0
> row 0 0 1
> row 1 0 0
> reduce nat
> row 1 1 0
> row 0 1 1
> row 0 0 1
> reduce nat
> row 2 0 0
> row 0 2 0
> row 0 0 1
< module nat 3
< 1 1 0
< 0 1 1
< 0 0 1
< 1 1 0
< 0 1 1
< 0 0 1
< - | 1 1 | 2 1 | -
< x1(1) x2(1) x3(2) | 1 1 | - | -
< - | 2 1 | - | -
status Done

case outside: determinants of SL2, and a matrix of it
from SL2 over 5
> module nat orbit 1
> reduce nat
> row 0 1
> row 1 0
> reduce nat
> row 0 0
> row 0 0
> reduce nat
> row 2 1
> row 1 1
< module nat 2
< refused 9 outside
< refused 12 outside
< x1(2) | 4 | 1 | x1(1)
status Refused

case silent lines in a block, and 0 with a sign
from SL2 over 5
> module nat orbit 1
> reduce nat
> # the first row
> row 01 -0
>
> \\t row 0 1 \\r
< module nat 2
< - | 1 | - | -
status Done

case dead: a root of SL2 twice that moves no weight
from five
> datum 2 2
> root 2 0
> root 0 2
> coroot 1 0
> coroot 0 1
> load
> module v orbit 1 0
> module w orbit 0 1
> reduce v
> reduce w
< loaded 5 2 4 10
< module v 2
< module w 2
< refused 10 dead 2
< refused 11 dead 1
status Refused

case uncovered: a torus, on a module without a basis vector, and on two characters
from torus over 5
> module adj adjoint
> module two orbit 2
> module one orbit 1
> reduce adj
> reduce two
> reduce one
> row 3
< loaded 5 1 0 1
< module adj 0
< module two 1
< module one 1
< refused 7 uncovered 1
< refused 8 uncovered 1
< - | 3 | - | -
status Refused

case order: a command drops a block
from SL2 over 5
> module nat orbit 1
> reduce nat
> row 0 1
> form 1
> row 4 0
> form n1
> reduce nat
> reduce nat
> reduce nat
> row 0 1
> row 4 0
< loaded 5 1 2 5
< module nat 2
< refused 9 order
< refused 10 order
< - | 1 | 1 | -
< refused 13 order
< - | 1 | 1 | -
status Refused

case refused rows drop a block
from SL2 over 5
> module nat orbit 1
> reduce nat
> row 0
> row 0 1
> reduce nat
> row 0 1 4
> reduce nat
> row 0 x
> reduce nat
> row 5 1
> reduce nat
> row 0 -1
> reduce nat
> row 0 1000000000000000000
> reduce nat
> row 1 0
> rwo 0 1
> reduce nat
> row 0 1
> row 4 0
< loaded 5 1 2 5
< module nat 2
< refused 8 fields 1
< refused 9 order
< refused 11 fields 3
< refused 13 number 7
< refused 15 value 5
< refused 17 value 7
< refused 19 range 7
< refused 22 command 1
< - | 1 | 1 | -
status Refused

case blocks dropped by lines that are too long, that have a foreign byte, and that aren't awaited
from SL2 over 5
> module nat orbit 1
> reduce nat
> row\\{ *65530} 0 1
> row 0 1
> reduce nat
> row 0 1
> #\\{#*65536}
> row 4 0
> reduce nat
> row 0\\x0C1
> row 0 1
> reduce nat
> # \\x80
> row 0 1
> row 4\\x000
> row 4 0
> reduce nat
> load
> row 0 1
> reduce nat
> matrix nat
> row 0 1
> reduce nat
> collect 1
> row 0 1
> reduce nat
> roots
> roots
< loaded 5 1 2 5
< module nat 2
< refused 8 long
< refused 9 order
< refused 12 long
< refused 13 order
< refused 15 byte 6
< refused 16 order
< refused 20 byte 6
< refused 21 order
< refused 23 order
< refused 24 order
< refused 26 order
< refused 27 order
< refused 29 order
< refused 30 order
< refused 32 order
< roots 1
< 1 1 | 2 | 1
status Refused

case end: behind one row too few, and a remark without a line feed
from SL2 over 5
> module nat orbit 1
> reduce nat
> row 0 1
> row 4 0
> reduce nat
> row 0 1
> # a remark\\e
< loaded 5 1 2 5
< module nat 2
< - | 1 | 1 | -
< refused 12 end
status Refused

case a last row without a line feed
from SL2 over 5
pieces of 1
> module nat orbit 1
> reduce nat
> row 0 1
> row 4 0\\e
< loaded 5 1 2 5
< module nat 2
< - | 1 | 1 | -
status Done

case uncovered 2: the second factor of PGL2 and SL2, on the adjoint module
from five
> datum 2 2
> root 1 0
> root 0 2
> coroot 2 0
> coroot 0 1
> load
> module adj adjoint
> reduce adj
< loaded 5 2 4 8
< module adj 6
< refused 9 uncovered 2
status Refused

case uncovered: the root lattice of SL3 has index 3
from SL3 over 3
> module adj adjoint
> reduce adj
< loaded 3 2 6 14
< module adj 8
< refused 9 uncovered 1
status Refused

case dead before uncovered: no root of SL2 acts on a module of one dimension
from SL2 over 5
> module one orbit 0
> reduce one
> row 1
< loaded 5 1 2 5
< module one 1
< refused 7 dead 1
< refused 8 order
status Refused
"""


def form_with(g, matrix):
    """The form whose word has this matrix, or None."""
    found = [form for form in filter(None, (g.form_at(w, matrix) for w in g.elements)) if g.matrix(g.form_word(form)) == matrix]
    assert len(found) <= 1
    return found[0] if found else None


def transposed(matrix):
    return [list(row) for row in zip(*matrix)]


def determinant(f, matrix):
    """By the first row."""
    if not matrix:
        return 1
    found = 0
    for k, a in enumerate(matrix[0]):
        minor = determinant(f, [row[:k] + row[k + 1 :] for row in matrix[1:]])
        found = f.add[found][f.mul[a][minor if k % 2 == 0 else f.neg[minor]]]
    return found


def kernel(f, rows, size):
    """A basis of the vectors of this size on which all rows are 0."""
    reduced = {}
    for row in rows:
        for k, other in reduced.items():
            row = [f.add[x][f.mul[f.neg[row[k]]][y]] for x, y in zip(row, other)]
        lead = next((k for k, x in enumerate(row) if x), None)
        if lead is not None:
            row = [f.mul[f.power(row[lead], -1)][x] for x in row]
            for k, other in reduced.items():
                reduced[k] = [f.add[x][f.mul[f.neg[other[lead]]][y]] for x, y in zip(other, row)]
            reduced[lead] = row
    free = [k for k in range(size) if k not in reduced]
    return [[1 if j == k else f.neg[reduced[j][k]] if j in reduced else 0 for j in range(size)] for k in free]


def kept_form(g):
    """The bilinear form, one alone but for multiples, that the letters of all roots keep."""
    f, size, rows = g.field, len(g.weights), []
    for r in range(2 * g.datum.m):
        m = g.matrix([("x", r, 1)])
        for a, b in product(range(size), repeat=2):
            row = [f.mul[m[i][a]][m[j][b]] for i, j in product(range(size), repeat=2)]
            row[a * size + b] = f.add[row[a * size + b]][f.neg[1]]
            rows.append(row)
    (found,) = kernel(f, rows, size * size)
    return [found[k * size : (k + 1) * size] for k in range(size)]


def membership(name, g):
    """Whether a matrix is in the classical group, by what this group is; None for G_2."""
    if name == "GL3":
        return lambda m: determinant(g.field, m) != 0
    if name.startswith("SL3"):
        return lambda m: determinant(g.field, m) == 1
    if name == "Sp4":
        form = kept_form(g)
        assert determinant(g.field, form)
        return lambda m: g.times(transposed(m), g.times(form, m)) == form
    return None


def changes(g, draw, matrix):
    """Matrices that are made from one of a word, most of which no word has."""
    size, order, mul = len(matrix), g.field.q, g.field.mul
    copy = lambda: [list(row) for row in matrix]
    a, b = draw.sample(range(size), 2)
    unit = draw.randrange(1, order)
    entry = copy()
    entry[a][b] = g.field.add[entry[a][b]][unit]
    scaled = copy()
    scaled[a] = [mul[unit][x] for x in scaled[a]]
    column = [[mul[unit][x] if k == b else x for k, x in enumerate(row)] for row in matrix]
    zero = copy()
    zero[a] = [0] * size
    twice = copy()
    twice[a] = list(twice[b])
    exchanged = copy()
    exchanged[a], exchanged[b] = exchanged[b], exchanged[a]
    return [
        entry, scaled, column, zero, twice, exchanged, [[mul[unit][x] for x in row] for row in matrix],
        transposed(matrix), [[0] * size for _ in matrix], [list(reversed(row)) for row in matrix],
    ]  # fmt: skip


def matrices(name, g, draw):
    """Matrices of random words and as many that no word has, by turns, with the form or None; and random matrices of GL_3 and SL_3."""
    kind, size, is_member = 0, len(g.weights), membership(name, g)
    for k in range(COUNT):
        word = random_word(g, draw, 1 + k)
        matrix = g.matrix(word)
        assert is_member is None or is_member(matrix)
        yield matrix, g.form_of(matrix)
        while True:
            if kind % 20 == 19:
                word = random_word(g, draw, 6)
            changed = changes(g, draw, g.matrix(word))
            found = changed[kind % len(changed)]
            kind += 1
            form = form_with(g, found)
            assert is_member is None or is_member(found) == (form is not None)
            if form is None:
                yield found, None
                break
    more = 8 if size == 3 else 0
    while more:
        matrix = [[draw.randrange(g.field.q) for _ in range(size)] for _ in range(size)]
        if is_member(matrix):
            yield matrix, g.form_of(matrix)
            more -= 1


def random_cases():
    out = [HEADING]
    for name, order in product(NAMES, ORDERS):
        g, draw = Group(name, order), Random("reductions in %s over %d" % (name, order))
        d, weight = g.datum, forms.DATA[name][2]
        lines = [g.field.line(), "datum %d %d" % (d.dim, d.l)]
        lines += ["root " + text(v) for v in d.simple] + ["coroot " + text(v) for v in d.cosimple] + ["load"]
        lines.append("module v " + ("orbit " + text(weight) if weight else "adjoint"))
        replies = [g.loaded(), "module v %d" % len(g.weights)]
        for matrix, form in matrices(name, g, draw):
            lines += ["reduce v"] + ["row " + text(row) for row in matrix]
            replies.append(g.text(form) if form else "refused %d outside" % len(lines))
        given = ["case matrices of %s over %d" % (name, order)] + ["> " + line for line in lines]
        out.append("\n".join(given + ["< " + reply for reply in replies] + ["status Refused"]))
    return "\n\n".join(out) + "\n"


def by_hand():
    """The cases worked out by hand, each with the reply to its line `load` in front where it isn't there."""
    loaded = {"SL2 over 5": "loaded 5 1 2 5", "SL3 over 3": "loaded 3 2 6 14"}
    out = []
    for case in BY_HAND.split("\n\n"):
        lines = case.split("\n")
        reply = next((r for name, r in loaded.items() if "from " + name in lines), None)
        if reply and "< " + reply not in lines:
            lines.insert(next(k for k, line in enumerate(lines) if line.startswith("< ")), "< " + reply)
        out.append("\n".join(lines))
    return "\n\n".join(out)


def transcripts():
    return by_hand() + "\n\n" + random_cases()


if __name__ == "__main__":
    region.main(transcripts, BY_HAND.partition("\n")[0], forms.HEADINGS["form"])

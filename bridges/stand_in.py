#!/usr/bin/env python3
"""Stands in for the program in a test of the bridges where the program isn't built: it answers `run` from the definitions, by the matrices of
bench/forms.py, over the fields of two to five elements and for small groups. It is slow, and refuses only what the test asks.

    sh bridges/test.sh bridges/stand_in.py

Where TALK in the environment names a folder, each session is kept in its folders scripts and replies, so that the program can be asked the same.
"""
import os
import re
import sys

sys.path.insert(0, os.path.join(os.path.dirname(os.path.dirname(os.path.abspath(__file__))), "bench"))
import forms  # noqa: E402
import reductions  # noqa: E402
from relations import terms  # noqa: E402
from tables import images, least  # noqa: E402


class Refusal(Exception):
    pass


class Group(forms.Group):
    """A group that keeps the matrices of words of Weyl representatives."""

    def matrix(self, word):
        key = tuple(word)
        if key in self.known or not all(it[0] in ("n", "n'") for it in key):
            return self.known[key] if key in self.known else super().matrix(word)
        self.known[key] = super().matrix(word)
        return self.known[key]


class Session:
    def __init__(self):
        self.lines, self.data, self.group, self.modules, self.block = 0, {"root": [], "coroot": []}, None, {}, None
        self.status = 0

    def line(self, text):
        """The lines of the reply."""
        self.lines += 1
        if not text.strip() or text.startswith("#"):
            return []
        word, *fields = text.split()
        try:
            if (self.block is not None) != (word == "row"):
                self.block = None
                raise Refusal("order")
            return getattr(self, "line_" + word, self.line_unknown)(fields, text)
        except Refusal as why:
            self.status = 1
            return [f"refused {self.lines} {why}"]

    def line_unknown(self, fields, text):
        raise Refusal("command 1")

    # up to load

    def line_field(self, fields, text):
        p, k, *rest = map(int, fields)
        assert forms.FIELDS[p**k] == (p, rest[:-1], rest[-1])
        self.order = p**k
        return []

    def line_datum(self, fields, text):
        return []

    def line_root(self, fields, text):
        self.data[text.split()[0]].append(tuple(map(int, fields)))
        return []

    line_coroot = line_root

    def made(self, weight):
        """A group with the module of the orbit of a weight, or the adjoint one."""
        forms.DATA["given"] = (self.data["root"], self.data["coroot"], weight)
        return Group("given", self.order)

    def line_load(self, fields, text):
        self.adjoint = self.made(None)
        d = self.adjoint.datum
        first = tuple(int(j == 0) for j in range(d.dim))
        self.group = self.made(first) if self.large(first) is None else self.adjoint
        return [self.group.loaded()]

    def large(self, weight):
        """The number of the first root that pairs with the weight to more than 1 or less than -1."""
        d = self.adjoint.datum
        return next((d.number(s) for s in range(2 * d.m) if abs(d.pair(weight, s)) > 1), None)

    # commands

    def word(self, text, first):
        """The letters of a word that begins behind a column."""
        d, q = self.group.datum, self.group.field.q
        for it in re.finditer(r"\S+", text):
            at = first + it.start()
            x = re.fullmatch(r"x(-?\d+)\((\d+)\)", it[0])
            h = re.fullmatch(r"h\((\d+(?:,\d+)*)\)", it[0])
            n = re.fullmatch(r"n(\d+)'?", it[0])
            if not (x or h or n or it[0] == "1"):
                raise Refusal(f"letter {at}")
            if x and not 0 < abs(int(x[1])) <= d.m:
                raise Refusal(f"root {at}")
            if n and not 0 < int(n[1]) <= d.l:
                raise Refusal(f"simple {at}")
            elements = [int(x[2])] if x else list(map(int, h[1].split(","))) if h else []
            if any(a >= q for a in elements):
                raise Refusal(f"value {at}")
            if h and (len(elements) != d.dim or 0 in elements):
                raise Refusal(f"torus {at}")
        return self.group.read(text)

    def form(self, word):
        return [self.group.text(self.group.form_of(self.group.matrix(word)))]

    def line_form(self, fields, text):
        return self.form(self.word(text[5:], 6))

    def line_inv(self, fields, text):
        return self.form(self.group.inverse(self.word(text[4:], 5)))

    def both(self, text):
        left, _, right = text.partition(";")
        return self.word(left.partition(" ")[2], 1 + left.index(" ") + 1), self.word(right, len(left) + 2)

    def line_mul(self, fields, text):
        return self.form(sum(self.both(text), []))

    def line_same(self, fields, text):
        left, right = map(self.group.matrix, self.both(text))
        return ["yes" if left == right else "no"]

    def line_roots(self, fields, text):
        d = self.group.datum
        rows = [(d.full[k], d.vec[k], d.covec[k]) for k in range(d.m)]
        return [f"roots {d.m}"] + [f"{k} " + " | ".join(" ".join(map(str, it)) for it in row) for k, row in enumerate(rows, 1)]

    def line_constant(self, fields, text):
        g, d = self.group, self.group.datum
        r, s = (int(it) - 1 if int(it) > 0 else d.m - int(it) - 1 for it in fields)
        found = [(i, j, d.number(k), c) for i, j, k, c in terms(d, g.constants, r, s)]
        return [" | ".join([str(g.constants(r, s))] + [" ".join(map(str, it)) for it in found])]

    def line_weyl(self, fields, text):
        d, word = self.group.datum, [] if fields == ["-"] else list(map(int, fields))
        found = least(d, word)
        return [" | ".join(" ".join(map(str, it)) or "-" for it in ([len(found)], found, images(d, word)))]

    def line_module(self, fields, text):
        name, kind, *weight = fields
        if kind not in ("adjoint", "orbit"):
            raise Refusal(f"kind {9 + len(name)}")
        weight = tuple(map(int, weight))
        if kind == "orbit" and self.large(weight) is not None:
            raise Refusal(f"notminuscule {self.large(weight)}")
        self.modules[name] = self.made(weight or None)
        return [f"module {name} {len(self.modules[name].weights)}"]

    def named(self, name):
        if name not in self.modules:
            raise Refusal("unknown 8")
        return self.modules[name]

    def line_matrix(self, fields, text):
        module = self.named(fields[0])
        word = self.word(text[8 + len(fields[0]):], 9 + len(fields[0]))
        return [" ".join(map(str, row)) for row in module.matrix(word)]

    def line_reduce(self, fields, text):
        self.block = (self.named(fields[0]), [])
        return []

    def line_row(self, fields, text):
        module, rows = self.block
        if len(fields) != len(module.weights):
            self.block = None
            raise Refusal(f"fields {len(fields)}")
        rows.append(list(map(int, fields)))
        if len(rows) < len(module.weights):
            return []
        self.block = None
        form = reductions.form_with(module, rows)
        if form is None:
            raise Refusal("outside")
        return [module.text(form)]


def main():
    session, folder = Session(), os.environ.get("TALK")
    scripts, replies = (open(os.path.join(folder, it, str(os.getpid())), "w") if folder else None for it in ("scripts", "replies"))
    try:
        for line in iter(sys.stdin.readline, ""):
            answer = session.line(line.rstrip("\n"))
            if folder:
                print(line, end="", file=scripts, flush=True)
                print(*answer, sep="\n", end="\n" if answer else "", file=replies, flush=True)
            for reply in answer:
                print(reply, flush=True)
    except OSError:
        # a terminal that is gone
        pass
    return session.status


if __name__ == "__main__":
    sys.exit(main())

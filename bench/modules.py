#!/usr/bin/env python3
"""Sums, tensor products, duals, tables and cover lines: outside values for the lines `module`, `weight`, `entry`, `cover`, `matrix` and
`reduce`, from the definitions alone.

    python3 modules.py                    cases for crates/test_transcripts
    python3 modules.py --add              writes these cases there, in place of those that it wrote before
    python3 modules.py --check            compares these cases with those there

A session of this script reads the lines of a case and works out each reply: it makes the modules with matrices of whole numbers, tests
their relations (audits.py), multiplies the letters of a word over the field, and takes a matrix apart as forms.py does. Nothing is taken
from the program. Beside that,

- the matrices of the modules that are made of the natural one are made in a second way, from the word's matrix M on that module: blocks
  of M and of its transposed inverse, the products of two entries of M, of entries of M and of the inverse, the determinants of two rows
  and two columns of M, and the coefficients of products of two linear forms;
- cases with replies by hand are compared with the replies of the session.

How sizes come to 2^126 (`large`, `huge`), where a table has entries within 100:

- the natural module of Sp_2n twice, with another basis of the two copies at each step of the orbit: the matrices of the simple roots are
  C = [[k, k-1], [k-1, k-2]] and its inverse, of determinant -1, so that the relations hold for each k, and the matrices of a root of height h
  are products of h of these. `natural_twice` makes it; its case has the last k for which it is audited and the first for which a
  relation is large, which were found by trying;
- the same module times itself, of which the sizes are products of two;
- weights in a box, where each simple root leads from each place to all above it, with one and the same entry. The relations don't
  hold, but `huge` comes before the audit. `box` makes it; its case has the first entry that is huge and the one before it.
"""
import re
from itertools import product as pairs
from random import Random

import audits
import carriers
import forms
import reductions
import region
from audits import HUGE, Numbers, Polynomials, Space, Torus, lowered, table_fault
from forms import Group, random_word
from relations import Datum, Module, combined, constants, orbit_weights
from tables import text

KINDS = ("adjoint", "orbit", "sum", "tensor", "dual", "table")
COMMANDS = ("form", "same", "mul", "inv", "roots", "constant", "weyl", "module", "cover", "matrix", "reduce")
OTHERS = ("field", "datum", "root", "coroot", "collect", "load", "weight", "entry", "row")
LIMIT, MOST, HEAVY, NAMED, LINE = 300, 1025, 1_000_000, 16, 65_536

UNITS = [(1, 0), (0, 1)]
DATA = {
    "torus": ([], [], 1),
    "SL2": ([(2,)], [(1,)], 1),
    "PGL2": ([(1,)], [(2,)], 1),
    "GL2": ([(1, -1)], [(1, -1)], 2),
    "SL3": ([(2, -1), (-1, 2)], UNITS, 2),
    "Sp4": ([(2, -1), (-2, 2)], UNITS, 2),
}


class Refused(Exception):
    """The name of a refusal, with its numbers."""


# ---- modules as sparse matrices of whole numbers

def blank(d, weights):
    space = Space(Module(d, list(weights)))
    space.powers = {r: [] for r in range(2 * d.m)}
    return space


def power(space, r, k):
    """E_r^(k), which is 1 for k = 0 and 0 from some k on."""
    if k == 0:
        return [{b: 1} for b in range(space.size)]
    return space.powers[r][k - 1] if k <= len(space.powers[r]) else [{} for _ in range(space.size)]


def put(space, r, columns):
    """The next power of a root."""
    space.powers[r].append([{a: x for a, x in column.items() if x} for column in columns])


def trimmed(space):
    for powers in space.powers.values():
        while powers and not any(powers[-1]):
            powers.pop()
    return space


def sum_of(d, v, w):
    space = blank(d, v.weights + w.weights)
    for r in space.powers:
        for k in range(1, max(len(v.powers[r]), len(w.powers[r])) + 1):
            put(space, r, power(v, r, k) + [{a + v.size: x for a, x in column.items()} for column in power(w, r, k)])
    return space


def kronecker(v, w, r, k, value):
    """The sum of E_r^(i) (x) E_r^(k-i), of the values of the entries."""
    out = [{} for _ in range(v.size * w.size)]
    for i in range(k + 1):
        first, second = power(v, r, i), power(w, r, k - i)
        for a, b in pairs(range(v.size), range(w.size)):
            column = out[a * w.size + b]
            for p, x in first[a].items():
                for q, y in second[b].items():
                    column[p * w.size + q] = column.get(p * w.size + q, 0) + value(x) * value(y)
    return out


def height(d, r):
    return abs(sum(d.full[r]))


def tensor_of(d, v, w):
    """Without its matrices where its weights are heavy."""
    space = blank(d, [combined((1, x), (1, y)) for x in v.weights for y in w.weights])
    check_light(space.weights)
    for r in sorted(space.powers, key=lambda r: (height(d, r), r)):
        for k in range(1, len(v.powers[r]) + len(w.powers[r]) + 1):
            if any(x >= HUGE for column in kronecker(v, w, r, k, abs) for x in column.values()):
                raise Refused("huge %d %d" % (d.number(r), k))
            put(space, r, kronecker(v, w, r, k, int))
    return trimmed(space)


def dual_of(d, v):
    space = blank(d, [tuple(-x for x in weight) for weight in v.weights])
    for r in space.powers:
        for k, e in enumerate(v.powers[r], 1):
            columns = [{} for _ in range(v.size)]
            for b, column in enumerate(e):
                for a, x in column.items():
                    columns[a][b] = (-1) ** k * x
            put(space, r, columns)
    return space


def check_light(weights):
    for a, x in enumerate(weights, 1):
        if max(map(abs, x), default=0) > HEAVY:
            raise Refused("heavy %d" % a)


def adjoint_of(d, n):
    """e_(r_m), .., e_(r_1), h_1, .., h_l, e_(-1), .., e_(-m)."""
    place = lambda r: d.m - 1 - r if r < d.m else r + d.l
    weights = [d.vec[d.m - 1 - a] for a in range(d.m)] + [(0,) * d.dim] * d.l + [d.vec[d.m + a] for a in range(d.m)]
    space = blank(d, weights)
    for r in space.powers:
        columns = [{} for _ in weights]
        for s in range(2 * d.m):
            k = d.find(combined((1, d.full[r]), (1, d.full[s])))
            if s == d.opposite(r):
                columns[place(s)] = {d.m + i: c for i, c in enumerate(d.co[r]) if c}
            elif k is not None:
                columns[place(s)] = {place(k): n(r, s)}
        for i in range(d.l):
            columns[d.m + i] = {place(r): -d.pair(d.vec[r], i)}
        e = columns
        k = 1
        while any(e):
            put(space, r, e)
            k += 1
            e = audits.multiplied(Numbers(), columns, e)
            assert all(x % k == 0 for column in e for x in column.values())
            e = [{a: x // k for a, x in column.items()} for column in e]
    return trimmed(space), place


def through(ring, factors, column):
    for factor in reversed(factors):
        (column,) = audits.multiplied(ring, factor, [column])
    return column


def signs(d, n):
    """eta_is, the entry of N_i on the adjoint module."""
    space, place = adjoint_of(d, n)
    element = lambda r, t: space.root_element(Numbers(), r, lambda k: t**k, lambda c, x: c * x)
    found = {}
    for i in range(d.l):
        weyl = [element(i, 1), element(d.opposite(i), -1), element(i, 1)]
        for s in range(2 * d.m):
            column = through(Numbers(), weyl, {place(s): 1})
            (found[i, s],) = column.values()
            assert list(column) == [place(d.reflect(i, s))] and abs(found[i, s]) == 1
    return found


def orbit_of(d, eta, weight):
    for r in range(2 * d.m):
        if abs(d.pair(weight, r)) > 1:
            raise Refused("notminuscule %d" % d.number(r))
    weights = orbit_weights(d, weight)
    entries = []
    for b, x in enumerate(weights, 1):
        for i in range(d.l):
            if d.pair(x, i):
                sign = -d.pair(x, i)
                entries.append((sign * (i + 1), 1, weights.index(combined((1, x), (sign, d.vec[i]))) + 1, b, 1))
    return completed(d, eta, weights, entries)


def completed(d, eta, weights, entries):
    """The module of a table whose entries are well placed."""
    space, fault = audits.completed(d, eta, weights, entries) if d.l else (blank(d, weights), None)
    if fault:
        raise Refused(fault)
    return trimmed(space)


# ---- the audit, where the modules are larger than those of audits.py

def bound(columns):
    return max((sum(column.values()) for column in columns), default=0)


def fault_of(d, space, n, eta):
    """The name of the first failure with its numbers, or None: relations that agree on a random vector over a large prime field, at two
    random elements, hold; the others are compared column by column."""
    for r in range(2 * d.m):
        for k, e in enumerate(space.powers[r], 1):
            for b, column in enumerate(e):
                for a in sorted(column):
                    if space.weights[a] != combined((1, space.weights[b]), (k, d.vec[r])):
                        return "graded %d %d %d %d" % (d.number(r), k, a + 1, b + 1)
    draw, ring, known = Random("two elements"), Numbers(audits.PRIME), {}
    t, u = draw.randrange(2, audits.PRIME), draw.randrange(2, audits.PRIME)
    vector = {a: draw.randrange(1, audits.PRIME) for a in range(space.size)}

    def kept(make, factor):
        if (make, factor) not in known:
            known[make, factor] = make(factor)
        return known[make, factor]

    size = lambda factor: audits.size_of(space, factor)
    most = lambda factor: bound(kept(size, factor[:3]))
    value = lambda factor: audits.value_of(d, space, factor, t, u)
    polynomial = lambda factor: audits.matrix_of(d, space, factor)
    for name, *sides in audits.relations(d, n, eta):
        said = "%s %s" % (name[0].lower(), " ".join(map(str, name[1:])))
        for side in sides:
            product = 1
            for factor in side:
                product *= most(factor)
            if product >= HUGE:
                entries = audits.product(Numbers(), [kept(size, factor[:3]) for factor in side], space.size)
                if any(x >= HUGE for column in entries for x in column.values()):
                    return "large " + said
        found = [through(ring, [kept(value, factor) for factor in side], vector) for side in sides]
        if found[0] != found[1]:
            return "relation " + said + first_difference(space, [[polynomial(factor) for factor in side] for side in sides])
    return None


def first_difference(space, sides):
    for b in range(space.size):
        x, y = (through(Polynomials(), side, {b: {(0, 0): 1}}) for side in sides)
        for a in sorted(set(x) | set(y)):
            p, q = x.get(a, {}), y.get(a, {})
            if p != q:
                e = min(e for e in set(p) | set(q) if p.get(e, 0) != q.get(e, 0))
                return " %d %d %d %d %d %d" % (a + 1, b + 1, *e, p.get(e, 0), q.get(e, 0))
    raise AssertionError("no difference")


# ---- a group and its modules

class Setting(Group):
    """The field, the datum, the constants and the signs of a loaded group."""

    def __init__(self, given, order):
        roots, coroots, dim = given
        self.given, self.field = given, forms.Field(order)
        self.datum = d = Datum([[carriers.dot(r, y) for y in coroots] for r in roots], roots, coroots) if roots else Torus(dim)
        self.constants = constants(d) if roots else None
        self.eta = signs(d, self.constants) if roots else {}
        self.ones = (1,) * d.dim
        self.tori = list(pairs(range(1, order), repeat=d.dim)) if order ** d.dim < 10000 else None
        self.known, self.found = {}, None

    @property
    def elements(self):
        if self.found is None:
            self.found = self.weyl_elements() if self.datum.l else [()]
        return self.found

    def loaded(self):
        roots, coroots, dim = self.given
        return "loaded %d %d %d %d" % (self.field.q, dim, 2 * self.datum.m, len(carriers.carrier(dim, roots, coroots)))

    def lines(self):
        roots, coroots, dim = self.given
        return [self.field.line()] + carriers.lines(dim, roots, coroots) + ["load"]

    def on(self, space, order=None):
        """The group with this module, its basis in this order."""
        order = list(range(space.size)) if order is None else order
        g = object.__new__(Setting)
        g.__dict__ |= self.__dict__
        g.weights, g.known = [space.weights[a] for a in order], {}
        dense = lambda e: [[self.field.integer(e[b].get(a, 0)) for b in order] for a in order]
        g.powers = {r: list(map(dense, powers)) for r, powers in space.powers.items()}
        return g


class Named:
    """A module with a name: the group on it, and the cover lines."""

    def __init__(self, g, space):
        self.space, self.group, self.cover = space, g.on(space), {}

    def covering(self):
        g, space = self.group, self.space
        for r in range(g.datum.m):
            if not any(x % g.field.p for e in space.powers[r][:1] for column in e for x in column.values()):
                raise Refused("dead %d" % g.datum.number(r))
        for j in range(g.datum.dim):
            reached = lambda x, c: not any(lowered(g.datum, tuple(c * a - int(k == j) for k, a in enumerate(x))))
            if j not in self.cover and not any(reached(x, c) for c in range(9) for x in space.weights):
                raise Refused("uncovered %d" % (j + 1))

    def form(self, matrix):
        """The form of a word with this matrix, or None. The basis is put in the order of falling levels first."""
        g = self.group
        level = lambda x: sum(g.datum.pair(x, s) for s in range(g.datum.m))
        order = sorted(range(self.space.size), key=lambda a: -level(self.space.weights[a]))
        sorted_group = g.on(self.space, order)
        return reductions.form_with(sorted_group, [[matrix[a][b] for b in order] for a in order])


# ---- sessions

def columned(line):
    return [(field.start() + 1, field[0]) for field in re.finditer(r"[^ \t]+", line)]


def number(field):
    column, spelled = field
    if not re.fullmatch(r"-?[0-9]+", spelled):
        raise Refused("number %d" % column)
    return int(spelled)


def whole(field, least, most, zero=True):
    found = number(field)
    if len(field[1].lstrip("-")) > 18 or not least <= found <= most or not (zero or found):
        raise Refused("range %d" % field[0])
    return found


def fields(given, count):
    if len(given) != count:
        raise Refused("fields %d" % len(given))


class Session:
    """A loaded group, its named modules, and the block that is being read."""

    def __init__(self, setting, lines):
        self.setting, self.lines, self.modules, self.block = setting, lines, {}, None

    def answer(self, line):
        """The replies to a line."""
        self.lines += 1
        line = line.removesuffix("\r")
        given = columned(line)
        try:
            if len(line) > LINE:
                raise Refused("long")
            if not given or given[0][1][0] == "#":
                return []
            foreign = next((k for k, c in enumerate(line, 1) if not " " <= c <= "~" and c != "\t"), None)
            if foreign:
                raise Refused("byte %d" % foreign)
            (column, word), given = given[0], given[1:]
            if word not in COMMANDS + OTHERS:
                raise Refused("command %d" % column)
            if word not in (COMMANDS if self.block is None else (self.block.awaited(),)):
                raise Refused("order")
            return getattr(self, "read_" + word)(given)
        except Refused as refused:
            self.block = None
            return ["refused %d %s" % (self.lines, refused)]

    def end(self):
        return [] if self.block is None else ["refused %d end" % self.lines]

    def found(self, field):
        if field[1] not in self.modules:
            raise Refused("unknown %d" % field[0])
        return self.modules[field[1]]

    def audited(self, name, space):
        check_light(space.weights)
        fault = fault_of(self.setting.datum, space, self.setting.constants, self.setting.eta) if self.setting.datum.l else None
        if fault:
            raise Refused(fault)
        self.modules[name] = Named(self.setting, space)
        return ["module %s %d" % (name, space.size)]

    def read_module(self, given):
        d = self.setting.datum
        if len(given) < 2:
            raise Refused("fields %d" % len(given))
        (column, name), (kind_column, kind) = given[:2]
        if not re.fullmatch(r"[a-z][a-z0-9_]{0,15}", name):
            raise Refused("name %d" % column)
        if kind not in KINDS:
            raise Refused("kind %d" % kind_column)
        fields(given, {"adjoint": 2, "orbit": 2 + d.dim, "sum": 4, "tensor": 4, "dual": 3, "table": 4}[kind])
        rest = given[2:]
        if kind == "orbit":
            arguments = [whole(field, -100, 100) for field in rest]
        elif kind == "table":
            arguments = [whole(rest[0], 1, LIMIT), whole(rest[1], 0, 20_000)]
        else:
            arguments = [self.found(field).space for field in rest]
        if name in self.modules:
            raise Refused("taken %d" % column)
        if len(self.modules) == NAMED:
            raise Refused("full")
        return getattr(self, "make_" + kind)(name, *arguments)

    def make_adjoint(self, name):
        d = self.setting.datum
        return self.audited(name, adjoint_of(d, self.setting.constants)[0] if d.l else blank(d, []))

    def make_orbit(self, name, *weight):
        return self.audited(name, orbit_of(self.setting.datum, self.setting.eta, weight))

    def check_narrow(self, size):
        if size > LIMIT:
            raise Refused("wide %d" % min(size, MOST))

    def make_sum(self, name, v, w):
        self.check_narrow(v.size + w.size)
        return self.audited(name, sum_of(self.setting.datum, v, w))

    def make_tensor(self, name, v, w):
        self.check_narrow(v.size * w.size)
        return self.audited(name, tensor_of(self.setting.datum, v, w))

    def make_dual(self, name, v):
        return self.audited(name, dual_of(self.setting.datum, v))

    def make_table(self, name, n, e):
        self.block = Table(name, n, e)
        return []

    def read_weight(self, given):
        fields(given, self.setting.datum.dim)
        self.block.weights.append(tuple(whole(field, -1000, 1000) for field in given))
        return self.whole_table()

    def read_entry(self, given):
        fields(given, 5)
        i = number(given[0])
        if len(given[0][1].lstrip("-")) > 18:
            raise Refused("range %d" % given[0][0])
        if not 1 <= abs(i) <= self.setting.datum.l:
            raise Refused("simple %d" % given[0][0])
        limits = ((1, 16, True), (1, self.block.n, True), (1, self.block.n, True), (-100, 100, False))
        self.block.entries.append((i, *(whole(field, *limit) for field, limit in zip(given[1:], limits))))
        return self.whole_table()

    def whole_table(self):
        table = self.block
        if len(table.weights) < table.n or len(table.entries) < table.e:
            return []
        self.block = None
        fault = table_fault(self.setting.datum, table.weights, table.entries)
        if fault:
            raise Refused("table %d" % fault)
        return self.audited(table.name, completed(self.setting.datum, self.setting.eta, table.weights, table.entries))

    def read_cover(self, given):
        if len(given) < 2:
            raise Refused("fields %d" % len(given))
        module, dim = self.found(given[0]), self.setting.datum.dim
        axis = whole(given[1], 1, dim)
        fields(given, module.space.size + 2)
        numbers = [whole(field, -HEAVY, HEAVY) for field in given[2:]]
        found = [sum(c * x[k] for c, x in zip(numbers, module.space.weights)) for k in range(dim)]
        for k, value in enumerate(found, 1):
            if value != int(k == axis):
                raise Refused("sum %d %d" % (k, value))
        module.cover[axis - 1] = numbers
        return ["covered %s %d" % (given[0][1], axis)]

    def read_matrix(self, given):
        if len(given) < 2:
            raise Refused("fields %d" % len(given))
        group = self.found(given[0]).group
        return [text(row) for row in group.matrix(group.read(" ".join(field[1] for field in given[1:])))]

    def read_reduce(self, given):
        fields(given, 1)
        module = self.found(given[0])
        module.covering()
        self.block = Rows(module)
        return []

    def read_row(self, given):
        rows, q = self.block, self.setting.field.q
        fields(given, rows.module.space.size)
        row = []
        for field in given:
            row.append(number(field))
            if len(field[1].lstrip("-")) > 18:
                raise Refused("range %d" % field[0])
            if not 0 <= row[-1] < q:
                raise Refused("value %d" % field[0])
        rows.rows.append(row)
        if len(rows.rows) < rows.module.space.size:
            return []
        self.block = None
        form = rows.module.form(rows.rows)
        if form is None:
            raise Refused("outside")
        return [self.setting.text(form)]


class Table:
    def __init__(self, name, n, e):
        self.name, self.n, self.e, self.weights, self.entries = name, n, e, [], []

    def awaited(self):
        return "weight" if len(self.weights) < self.n else "entry"


class Rows:
    def __init__(self, module):
        self.module, self.rows = module, []

    def awaited(self):
        return "row"


# ---- cases

def spelled_out(line):
    """The bytes of a line of a case."""
    line = re.sub(r"\\\{(.*?)\*(\d+)\}", lambda m: m[1] * int(m[2]), line.removesuffix("\\e"))
    return re.sub(r"\\x(..)", lambda m: chr(int(m[1], 16)), line.replace("\\t", "\t").replace("\\r", "\r"))


SETTINGS = {}


def setting(name, order):
    if (name, order) not in SETTINGS:
        kind, _, rank = name.partition("_")
        given = DATA[name] if name in DATA else (*carriers.named(kind, int(rank))[1:], int(rank))
        SETTINGS[name, order] = Setting(given, order)
    return SETTINGS[name, order]


# the scripts that stand further up in the file
STORED = (("torus", 5), ("SL2", 5), ("PGL2", 5), ("GL2", 3), ("SL3", 3))


def case(title, name, order, lines, scripts=(), replies=None):
    """The text of a case of a group; its lines come behind those of the scripts."""
    g = setting(name, order)
    if "_" in name:
        head = ["> " + g.field.line(), "from the named datum " + name]
    elif (name, order) in STORED:
        head = ["from %s over %d" % (name, order)]
    else:
        head = ["> " + line for line in g.lines()]
    session, found = Session(g, len(g.lines())), [g.loaded()]
    for line in [line for script in scripts for line in SCRIPTS[script]] + lines:
        found += session.answer(spelled_out(line))
    found += session.end()
    assert replies is None or found == [g.loaded()] + replies, (title, found, replies)
    status = "Refused" if any(reply.startswith("refused ") for reply in found) else "Done"
    given = ["case " + title] + head + ["from " + script for script in scripts] + [("> " + line).rstrip(" ") for line in lines]
    return "\n".join(given + ["< " + reply for reply in found] + ["status " + status])


def table_lines(name, weights, entries):
    lines = ["module %s table %d %d" % (name, len(weights), len(entries))]
    return lines + ["weight " + text(x) for x in weights] + ["entry " + text(e) for e in entries]


# ---- squares of natural modules

def transposed(matrix):
    return [list(row) for row in zip(*matrix)]


def determinant_of(f, m, rows, columns):
    (i, j), (k, l) = rows, columns
    return f.add[f.mul[m[i][k]][m[j][l]]][f.neg[f.mul[m[i][l]][m[j][k]]]]


def coefficient(f, m, rows, columns):
    """Of x_i x_j in the product of the columns k and l of m, as linear forms."""
    (i, j), (k, l) = rows, columns
    one = f.mul[m[i][k]][m[j][l]]
    return one if i == j else f.add[one][f.mul[m[i][l]][m[j][k]]]


def square_entries(space, places, make):
    """Weights and entries of a square: of 1 + t E on the natural module, `make` gives an entry of the square as (1, t, t^2)."""
    weights = [combined((1, space.weights[i]), (1, space.weights[j])) for i, j in places]
    entries, d = [], space.datum
    for i in range(d.l):
        for sign, r in ((1, i), (-1, d.opposite(i))):
            assert len(space.powers[r]) == 1
            e = space.powers[r][0]
            m = [[(int(a == b), e[b].get(a, 0)) for b in range(space.size)] for a in range(space.size)]
            for col, columns in enumerate(places, 1):
                for row, rows in enumerate(places, 1):
                    for k, x in enumerate(make(m, rows, columns)):
                        if k and x:
                            entries.append((sign * (i + 1), k, row, col, x))
    return weights, sorted(entries, key=lambda e: (abs(e[0]), -e[0], e[1:]))


def times(x, y):
    return (x[0] * y[0], x[0] * y[1] + x[1] * y[0], x[1] * y[1])


def plus(x, y, sign=1):
    return tuple(a + sign * b for a, b in zip(x, y))


def minor(m, rows, columns):
    (i, j), (k, l) = rows, columns
    return plus(times(m[i][k], m[j][l]), times(m[i][l], m[j][k]), -1)


def mixed(m, rows, columns):
    (i, j), (k, l) = rows, columns
    one = times(m[i][k], m[j][l])
    return one if i == j else plus(one, times(m[i][l], m[j][k]))


def on_modules(f, m, back):
    """The matrices on the modules of a square case, from that on the natural module and that of the inverse."""
    n = range(len(m))
    other, zero = transposed(back), [0] * len(m)
    both = list(pairs(n, n))
    product = lambda x, y: [[f.mul[x[a][c]][y[b][e]] for c, e in both] for a, b in both]
    below = [(i, j) for i in n for j in n if i < j]
    upto = [(i, j) for i in n for j in n if i <= j]
    return {
        "nat": m,
        "d": other,
        "s": [row + zero for row in m] + [zero + row for row in other],
        "t": product(m, other),
        "sq": product(m, m),
        "ext": [[determinant_of(f, m, rows, columns) for columns in below] for rows in below],
        "sym": [[coefficient(f, m, rows, columns) for columns in upto] for rows in upto],
    }


def square_case(name, order):
    """The natural module, its dual, their sum, two tensor products, and by table the exterior and the symmetric square."""
    g, draw = setting(name, order), Random("squares in %s over %d" % (name, order))
    d, f = g.datum, g.field
    weight = (1,) + (0,) * (d.dim - 1)
    space = orbit_of(d, g.eta, weight)
    space.datum = d
    n = range(space.size)
    lines = ["module nat orbit " + text(weight), "module d dual nat", "module s sum nat d", "module t tensor nat d", "module sq tensor nat nat"]
    lines += table_lines("ext", *square_entries(space, [(i, j) for i in n for j in n if i < j], minor))
    lines += table_lines("sym", *square_entries(space, [(i, j) for i in n for j in n if i <= j], mixed))
    session = Session(g, 0)
    for line in lines:
        session.answer(line)
    nat = session.modules["nat"].group
    for length in (1, 3, 8):
        word = random_word(g, draw, length)
        wanted = on_modules(f, nat.matrix(word), nat.matrix(g.inverse(word)))
        assert list(wanted) == list(session.modules)
        for module, matrix in wanted.items():
            assert session.modules[module].group.matrix(word) == matrix, (name, order, module)
            lines.append("matrix %s %s" % (module, g.spelled(word)))
    word = random_word(g, draw, 5)
    for module, matrix in on_modules(f, nat.matrix(word), nat.matrix(g.inverse(word))).items():
        if module == "nat":
            continue
        lines.append("reduce " + module)
        if not session.answer(lines[-1]):
            session.block = None
            lines += ["row " + text(row) for row in matrix]
            changed = [list(row) for row in matrix]
            changed[draw.randrange(len(matrix))][draw.randrange(len(matrix))] ^= 1
            lines += ["reduce " + module] + ["row " + text(row) for row in changed]
    return case("squares of the natural module of %s over %d" % (name, order), name, order, lines)


# ---- cover lines

def cover_case():
    """GL_2 on the sum of the natural module times the square and times the cube of the determinant: weights of the sums 5 and 7."""
    g, draw = setting("GL2", 3), Random("cover lines")
    lines = ["module nat orbit 1 0", "module two orbit 2 2", "module three orbit 3 3"]
    lines += ["module a tensor nat two", "module b tensor nat three", "module s sum a b", "reduce s"]
    lines += ["cover s 2 1 2 -1 -1", "reduce s", "cover s 1 1 2 -1 -1", "cover s 1 2 1 -1 0", "cover s 1 2 1 -1 -1", "cover s 2 0 3 0 -2"]
    session = Session(g, 0)
    for line in lines:
        session.answer(line)
    group = session.modules["s"].group
    for length in (1, 2, 3, 5, 8):
        word = random_word(g, draw, length)
        rows = ["row " + text(row) for row in group.matrix(word)]
        lines += ["matrix s " + g.spelled(word), "reduce s"] + rows
        if length == 3:
            # a later line for an axis stands in place of the earlier one, and a refused one doesn't
            lines += ["cover s 1 3 0 -2 0", "cover s 1 3 0 -2 1", "cover s 2 1 2 -1 -1"]
    rows[0] = "row " + text([2 * x % 3 for x in group.matrix(word)[0]])
    return case("cover lines on a module of GL2", "GL2", 3, lines + ["reduce s"] + rows)


# ---- sizes

def natural_twice(d, k):
    """Weights and entries of the natural module of C_n twice, with a change of the basis at each step."""
    c, back = ((k, k - 1), (k - 1, k - 2)), ((2 - k, k - 1), (k - 1, -k))
    steps = list(range(d.l)) + list(range(d.l - 2, -1, -1))
    chain = [(1,) + (0,) * (d.l - 1)]
    for i in steps:
        chain.append(combined((1, chain[-1]), (-1, d.vec[i])))
    entries = []
    for at, i in enumerate(steps):
        for a, b in pairs(range(2), repeat=2):
            entries.append((i + 1, 1, 2 * at + a + 1, 2 * at + b + 3, c[a][b]))
            entries.append((-i - 1, 1, 2 * at + a + 3, 2 * at + b + 1, back[a][b]))
    return [x for x in chain for _ in range(2)], [e for e in entries if e[4]]


def box(d, value, lengths, without=()):
    """Weights in a box, so many steps long in the directions of the simple roots, and at all powers one entry, with the sign (-1)^k for a
    negative root; without the first powers of some roots."""
    places = list(pairs(*(range(length, -1, -1) for length in lengths)))
    entries = []
    for i in range(d.l):
        for place in places:
            for k in range(2 if i in without else 1, lengths[i] + 1):
                up = tuple(x + k * int(j == i) for j, x in enumerate(place))
                if up in places:
                    row, col = places.index(up) + 1, places.index(place) + 1
                    entries += [(i + 1, k, row, col, value), (-i - 1, k, col, row, (-1) ** k * value)]
    return [combined(*((c, d.vec[i]) for i, c in enumerate(place))) for place in places], entries


def size_cases():
    c3, c5 = setting("C_3", 2).datum, setting("C_5", 2).datum
    lines = table_lines("v", *natural_twice(c5, 89)) + table_lines("w", *natural_twice(c5, 90)) + ["matrix v 1", "matrix w 1"]
    yield case("large: a table whose entries are within 90", "C_5", 2, lines)
    lines = table_lines("v", *natural_twice(c3, 100)) + ["module w tensor v v", "module x sum v v", "module y dual v", "matrix w 1"]
    yield case("large: the square of a module, where its sum and its dual aren't", "C_3", 2, lines)
    lines = table_lines("v", *box(c3, 85, (2, 1, 2))) + table_lines("v", *box(c3, 86, (2, 1, 2)))
    lines += table_lines("v", *box(c3, 100, (2, 2, 2), without=(1,))) + ["matrix v 1"]
    yield case("huge: a table of 18 weights, and one of 27", "C_3", 2, lines)


# ---- tables of 20,000 entries

def large_table():
    """50 weights 2, 100 weights 0 and 50 weights -2, and the entry 1 wherever a step of the root leads: all but the last entry."""
    lines = ["weight %d" % x for x, count in ((2, 50), (0, 100), (-2, 50)) for _ in range(count)]
    lines += ["entry 1 1 %d %d 1" % (a, b) for a in range(1, 51) for b in range(51, 151)]
    lines += ["entry 1 1 %d %d 1" % (a, b) for a in range(51, 151) for b in range(151, 201)]
    lines += ["entry -1 1 %d %d 1" % (a, b) for a in range(51, 151) for b in range(1, 51)]
    lines += ["entry -1 1 %d %d 1" % (a, b) for a in range(151, 201) for b in range(51, 151)]
    return lines[:-1], lines[-1]


SCRIPTS = {"a table of 20000 entries, but the last": ["module v table 200 20000"] + large_table()[0]}


def long_cases():
    (name,) = SCRIPTS
    yield "\n".join(["script " + name] + ["> " + line for line in SCRIPTS[name]])
    title = "relation: a table of 20000 entries, of which the square isn't twice the second power"
    yield case(title, "SL2", 5, [large_table()[1], "matrix v 1"], [name])


# ---- cases whose lines are written by hand; where replies stand below them, these are by hand too

HEADING = """\
# Sums, tensor products, duals, tables and cover lines, by bench/modules.py: it makes each module from the definitions, tests the relations on
# it, multiplies the matrices of letters, and takes matrices apart. First worked by hand: a table whose entry 2 breaks S6, and one that
# repeats a place; two characters of a torus; tensor products and a dual in SL2; weights that double until they are heavy."""

FIRST = """\
case relation: a table with an entry 2
from SL2 over 5
> module bad table 2 2
> weight 1
> weight -1
> entry 1 1 1 2 1
> entry -1 1 2 1 2
< refused 10 relation s6 1 1 1 0 0 1 0

case a table of the natural module
from SL2 over 5
> module bad table 2 2
> weight 1
> weight -1
> entry 1 1 1 2 1
> entry -1 1 2 1 1
< module bad 2

case table: a place is given once
from SL2 over 5
> module bad table 2 2
> weight 1
> weight -1
> entry 1 1 1 2 1
> entry 1 1 1 2 1
< refused 10 table 2

case cover: two characters of a torus
from torus over 5
> module a orbit 2
> module b orbit 3
> module s sum a b
> reduce s
> cover s 1 1 1
> cover s 1 -1 1
> reduce s
> row 4 0
> row 0 3
< module a 1
< module b 1
< module s 2
< refused 7 uncovered 1
< refused 8 sum 1 5
< covered s 1
< - | 2 | - | -

case wide: tensor products of the natural module of SL2
from SL2 over 5
> module nat orbit 1
> module t tensor nat nat
> matrix t x1(1)
> module e dual nat
> matrix e x1(1)
> module f tensor t t
> module g tensor f f
> module k tensor g nat
< module nat 2
< module t 4
< 1 1 1 1
< 0 1 0 1
< 0 0 1 1
< 0 0 0 1
< module e 2
< 1 0
< 4 1
< module f 16
< module g 256
< refused 13 wide 512

case heavy: weights that double, and full
from torus over 5
> module a1 orbit 100
> module a2 tensor a1 a1
> module a3 tensor a2 a2
> module a4 tensor a3 a3
> module a5 tensor a4 a4
> module a6 tensor a5 a5
> module a7 tensor a6 a6
> module a8 tensor a7 a7
> module a9 tensor a8 a8
> module a10 tensor a9 a9
> module a11 tensor a10 a10
> module a12 tensor a11 a11
> module a13 tensor a12 a12
> module a14 tensor a13 a13
> module a15 tensor a14 a14
> module a16 dual a1
> module a17 dual a1
> module a18 dual a1
< module a1 1
< module a2 1
< module a3 1
< module a4 1
< module a5 1
< module a6 1
< module a7 1
< module a8 1
< module a9 1
< module a10 1
< module a11 1
< module a12 1
< module a13 1
< module a14 1
< refused 18 heavy 1
< module a16 1
< module a17 1
< refused 21 full
"""

BLOCKS_HEADING = "# Lines of tables and blocks, and the order of their checks."

BLOCKS = """\
case a refused entry drops the block and leaves no module
from SL2 over 5
> module v table 2 2
> weight 1
> weight -1
> entry 1 1 1 2 0
> entry -1 1 2 1 1
> matrix v 1
> module v table 2 2
> weight 1
> weight -1
> entry 1 1 1 2 1
> entry -1 1 2 1 1
> matrix v n1

case a refused weight drops the block and leaves no module
from torus over 5
> module v table 2 0
> weight 1
> weight 1 2
> weight 1
> dual v
> module w dual v
> module v table 2 0
> weight 1
> weight x
> module v table 2 0
> weight 2
> weight -3
> matrix v h(2)

case a table that the audit refuses leaves no module, nor does one with a bad place
from SL2 over 5
> module v table 1 0
> weight 1
> matrix v 1
> module v table 1 1
> weight 0
> entry 1 1 1 1 1
> matrix v 1
> module v table 1 0
> weight 0
> matrix v n1

case refused lines that begin a table
from SL2 over 5
> module v table
> module v table 1
> module v table 1 1 1
> module v table x 1
> module v table 0 1
> module v table 301 1
> module v table -1 1
> module v table 1 x
> module v table 1 -1
> module v table 1 20001
> module v table 0 x
> module v table 1234567890123456789 1
> module v table 1 1234567890123456789
> module V table 0 0
> module v tables 1 1
> weight 1
> module v table 1 1
> weight 0
> entry 1 1 1 1 1

case refused weights
from GL2 over 3
> module v table 1 0
> weight
> module v table 1 0
> weight 1
> module v table 1 0
> weight 1 2 3
> module v table 1 0
> weight 1 x
> module v table 1 0
> weight 1001 0
> module v table 1 0
> weight 0 -1001
> module v table 1 0
> weight 0 1234567890123456789
> module v table 1 0
> weight 01000 0001000
> matrix v h(2,1)

case weights at the limit
from torus over 5
> module a table 1 0
> weight 1000
> module b table 1 0
> weight 1001
> module b table 1 0
> weight -1000
> module c table 2 0
> weight -1001
> module c table 2 0
> weight 1000
> weight -999
> matrix c h(2)
> cover c 1 1 1
> reduce c
> row 1 0
> row 0 3

case refused entries
from SL2 over 5
> module v table 2 1
> weight 1
> weight -1
> entry 1 1 1 2
> module v table 2 1
> weight 1
> weight -1
> entry 1 1 1 2 1 1
> module v table 2 1
> weight 1
> weight -1
> entry x 1 1 2 1
> module v table 2 1
> weight 1
> weight -1
> entry 0 1 1 2 1
> module v table 2 1
> weight 1
> weight -1
> entry 2 1 1 2 1
> module v table 2 1
> weight 1
> weight -1
> entry -2 x 1 2 1
> module v table 2 1
> weight 1
> weight -1
> entry 1234567890123456789 1 1 2 1
> module v table 2 1
> weight 1
> weight -1
> entry 1 0 1 2 1
> module v table 2 1
> weight 1
> weight -1
> entry 1 17 1 2 1
> module v table 2 1
> weight 1
> weight -1
> entry 1 1 0 2 1
> module v table 2 1
> weight 1
> weight -1
> entry 1 1 3 2 1
> module v table 2 1
> weight 1
> weight -1
> entry 1 1 1 0 1
> module v table 2 1
> weight 1
> weight -1
> entry 1 1 1 3 1
> module v table 2 1
> weight 1
> weight -1
> entry 1 1 1 2 -0
> module v table 2 1
> weight 1
> weight -1
> entry 1 1 1 2 101
> module v table 2 1
> weight 1
> weight -1
> entry 1 1 1 2 -101
> module v table 2 1
> weight 1
> weight -1
> entry 1 1 1 2 1.0
> module v table 2 1
> weight 1
> weight -1
> entry 1 16 2 1 100

case no entry of a torus
from torus over 5
> module v table 1 1
> weight 0
> entry 1 1 1 1 1
> module v table 1 1
> weight 0
> entry -1 1 1 1 1

case table: the first entry that repeats a place or leads to another weight
from SL2 over 5
> module v table 3 3
> weight 2
> weight 0
> weight -2
> entry 1 1 1 2 1
> entry 1 1 1 3 1
> entry 1 1 1 2 1
> module v table 3 3
> weight 2
> weight 0
> weight -2
> entry 1 1 1 2 1
> entry 1 1 1 2 2
> entry 1 2 1 2 1
> module v table 3 1
> weight 2
> weight 0
> weight -2
> entry -1 1 1 2 1
> module v table 3 3
> weight 2
> weight 0
> weight -2
> entry 1 2 1 3 1
> entry -1 2 3 1 1
> entry -1 2 3 2 1
> module v table 2 2
> weight 2
> weight 2
> entry 1 1 1 2 1
> entry -1 1 1 2 1

case graded: entries of N_1 that don't lead from weight to weight
from SL3 over 3
> module v table 3 3
> weight 1 0
> weight -1 1
> weight 0 -1
> entry 1 1 1 2 1
> entry 2 1 2 3 1
> entry -2 1 3 2 1

case relation s1: the second power of a symmetric square is missing
from SL2 over 5
> module v table 3 4
> weight 2
> weight 0
> weight -2
> entry 1 1 1 2 1
> entry 1 1 2 3 2
> entry -1 1 2 1 2
> entry -1 1 3 2 1
> module v table 3 6
> weight 2
> weight 0
> weight -2
> entry 1 1 1 2 1
> entry 1 1 2 3 2
> entry 1 2 1 3 -1
> entry -1 1 2 1 2
> entry -1 1 3 2 1
> entry -1 2 3 1 1
> module v table 3 6
> weight 2
> weight 0
> weight -2
> entry 1 1 1 2 2
> entry 1 1 2 3 1
> entry 1 2 1 3 1
> entry -1 1 2 1 1
> entry -1 1 3 2 2
> entry -1 2 3 1 1
> matrix v x1(2)

case relation s2: an entry 2 for the second simple root alone
from SL3 over 3
> module v table 3 4
> weight 1 0
> weight -1 1
> weight 0 -1
> entry 1 1 1 2 1
> entry -1 1 2 1 1
> entry 2 1 2 3 2
> entry -2 1 3 2 1
> module v table 3 4
> weight 1 0
> weight -1 1
> weight 0 -1
> entry 1 1 1 2 -1
> entry -1 1 2 1 -1
> entry 2 1 2 3 1
> entry -2 1 3 2 1
> matrix v x1(1) x2(1) x3(1)

case relation s6: nothing acts on a weight that pairs to 1
from SL2 over 5
> module v table 3 2
> weight 0
> weight 1
> weight -1
> entry 1 1 2 3 1
> entry -1 1 3 2 -1
> module v table 3 2
> weight 0
> weight 1
> weight -1
> entry 1 1 2 3 -1
> entry -1 1 3 2 -1
> matrix v n1

case a line of another kind drops a table
from SL2 over 5
> module v table 2 2
> # a remark
> weight 1
>
> weight -1
> \\t entry 1 1 1 2 01 \\r
> form 1
> entry -1 1 2 1 1
> module v table 2 2
> entry 1 1 1 2 1
> weight 1
> module v table 2 1
> weight 1
> weight -1
> weight 3
> entry 1 1 1 2 1
> module v table 1 0
> wieght 0
> weight 0
> module v table 1 0
> weight 0\\x00
> weight 0
> module v table 1 0
> weight\\{ *65530} 0
> weight 0
> module v table 1 0
> module v adjoint
> weight 0
> module v table 1 1
> weight 0
> cover v 1 1
> load
> row 1
> matrix v 1

case a block in a block
from SL2 over 5
> module nat orbit 1
> reduce nat
> row 0 1
> module v table 1 0
> row 4 0
> weight 0
> module v table 1 1
> weight 0
> reduce nat
> entry 1 1 1 1 1
> row 0 1
> reduce nat
> row 0 1
> row 4 0

case end: inside a table
from SL2 over 5
> module v table 1 1
> weight 0
> # a remark

case a last weight without a line feed
from SL2 over 5
pieces of 1
> module v table 1 0
> weight 0\\e
"""

MADE_HEADING = "# Sums, tensor products and duals: names, limits, and the order of checks."

MADE = """\
case the sum of a module with itself, its square, and the dual of its dual
from SL2 over 5
> module v orbit 1
> module s sum v v
> module t tensor v v
> module e dual v
> module f dual e
> matrix s n1 x1(2)
> matrix t n1 x1(2)
> matrix e n1 x1(2)
> matrix f n1 x1(2)
> matrix v n1 x1(2)

case sums and products of two modules, in both orders
from SL3 over 3
> module nat orbit 1 0
> module adj adjoint
> module v sum nat adj
> module w sum adj nat
> module x tensor nat adj
> module y tensor adj nat
> module z dual adj
> matrix v x1(1) x-2(1)
> matrix w x1(1) x-2(1)
> matrix x x1(1) x-2(1)
> matrix y x1(1) x-2(1)
> matrix z x1(1) x-2(1)

case a module of dimension 0 in sums, products and a dual
from torus over 5
> module a adjoint
> module b orbit 1
> module c sum a b
> module d tensor a b
> module e tensor b a
> module f dual a
> module g sum a a
> matrix c h(2)
> matrix d h(2)
> cover d 1
> cover c 1 1
> reduce d

case refused names of a sum, a product and a dual
from SL2 over 5
> module nat orbit 1
> module s sum
> module s sum nat
> module s sum nat nat nat
> module t tensor nat
> module e dual
> module e dual nat nat
> module s sum nat s
> module s sum s t
> module t tensor t nat
> module e dual e
> module nat dual other
> module nat dual nat
> module S dual nat
> module s add nat nat
> module s sum nat Nat
> matrix s 1

case full: the check comes behind the others, and before the block of a table
from torus over 5
> module m1 orbit 1
> module m2 sum m1 m1
> module m3 tensor m1 m2
> module m4 dual m3
> module m5 sum m1 m4
> module m6 dual m1
> module m7 dual m1
> module m8 dual m1
> module m9 dual m1
> module m10 dual m1
> module m11 dual m1
> module m12 dual m1
> module m13 dual m1
> module m14 dual m1
> module m15 dual m1
> module m16 adjoint
> module m17 dual m1
> module m17 dual m17
> module m16 dual m1
> module m17 table 1 0
> weight 0
> module m17 table 0 0
> module m17 sum m5 m5
> module m17 adjoint
> module m17 orbit 1
> matrix m5 h(2)

case wide: dimensions above 300, and from 1025 on
from torus over 5
> module one orbit 0
> module m2 sum one one
> module m4 sum m2 m2
> module m8 sum m4 m4
> module m16 sum m8 m8
> module m32 sum m16 m16
> module m24 sum m16 m8
> module m25 sum m24 one
> module m40 sum m32 m8
> module m41 sum m40 one
> module m12 sum m8 m4
> module m300 tensor m25 m12
> module n sum m300 one
> module n sum m300 m300
> module n tensor m32 m32
> module n tensor m25 m41
> module n tensor m300 m300
> module n sum m40 m300
> module n tensor m41 m8
> module n dual m300

case heavy: a weight of 1000000, and one above
from torus over 5
> module m1 table 1 0
> weight 1000
> module m2 tensor m1 m1
> module m4 tensor m2 m2
> module m5 tensor m4 m1
> module m10 tensor m5 m5
> module m20 tensor m10 m10
> module m40 tensor m20 m20
> module m50 tensor m40 m10
> module m100 tensor m50 m50
> module m200 tensor m100 m100
> module m400 tensor m200 m200
> module m500 tensor m400 m100
> module m1000 tensor m500 m500
> module u table 3 0
> weight 0
> weight -1
> weight 1
> module v tensor m1000 u
> module v tensor u m1000
> module v dual m1000
> matrix v h(2)
> module w tensor v u
> module w tensor v m1000
> matrix w h(2)
> cover v 1 1
> cover v 1 1000000

case wide before heavy
from torus over 5
> module m1 table 18 0
> weight 1000
> weight 1
> weight 1
> weight 1
> weight 1
> weight 1
> weight 1
> weight 1
> weight 1
> weight 1
> weight 1
> weight 1
> weight 1
> weight 1
> weight 1
> weight 1
> weight 1
> weight 1
> module a table 1 0
> weight 1000
> module b tensor a a
> module c tensor b b
> module d tensor c c
> module e tensor d d
> module f tensor e e
> module g tensor f f
> module h tensor g g
> module i tensor h h
> module j tensor i i
> module k tensor j m1
> module l tensor k j
> module l tensor k k
"""

COVERS_HEADING = "# Cover lines: their checks, and which axes they cover."

COVERS = """\
case refused cover lines
from GL2 over 3
> module nat orbit 1 0
> cover
> cover nat
> cover other 1 1 0
> cover other x
> cover nat x 1 0
> cover nat 0 1 0
> cover nat 3 1 0
> cover nat -1 1 0
> cover nat 1
> cover nat 1 1
> cover nat 1 1 0 0
> cover nat 3 1
> cover nat 1 x 0
> cover nat 1 0 1000001
> cover nat 1 -1000001 x
> cover nat 1 1234567890123456789 0
> cover nat 1 0 1
> cover nat 2 1 0
> cover nat 1 1 1
> cover nat 1 2 0
> cover nat 1 0 0
> cover nat 01 01 -0
> cover nat 2 0 1
> reduce nat
> row 2 0
> row 0 1

case a cover line covers its own axis alone
from GL2 over 3
> module nat orbit 1 0
> module e dual nat
> reduce e
> cover e 2 0 -1
> reduce e
> cover e 1 0 -1
> reduce e
> matrix e x1(1) h(2,1)
> cover e 1 -1 0
> reduce e
> row 2 0
> row 1 1
> reduce e
> row 0 0
> row 1 1
> module f dual nat
> reduce f
> module g sum e f
> reduce g

case the first axis without a line is told
from GL2 over 3
> module nat orbit 1 0
> module e dual nat
> cover e 1 -1 0
> reduce e
> row 1 0

case dead before uncovered, and cover lines don't change that
from GL2 over 3
> module det orbit 1 1
> module nat orbit 1 0
> module e dual nat
> reduce det
> cover det 1 1
> module s sum det e
> reduce s
> cover s 1 0 -1 0
> cover s 1 1 0 1
> cover s 2 0 0 -1
> reduce s
> row 2 0 0
> row 0 2 0
> row 0 0 1

case a line whose sum is made of large numbers
from torus over 5
> module v table 2 0
> weight 1000
> weight 999
> reduce v
> cover v 1 -998999 1000000
> cover v 1 -998999 999999
> reduce v
> row 1 0
> row 0 3
> cover v 1 1000000 1000000

case a cover line is no line of a block
from torus over 5
> module a orbit 2
> module b orbit 3
> module s sum a b
> cover s 1 -1 1
> reduce s
> row 4 0
> cover s 1 -4 3
> row 0 3
> reduce s
> row 4 0
> row 0 3
> cover s 1 -4 3
> reduce s
> row 4 0
> row 0 2

case a module of a covered one isn't covered
from torus over 5
> module a orbit 2
> module b orbit 3
> module s sum a b
> cover s 1 -1 1
> module t sum s s
> module e dual s
> reduce s
> row 1 0
> row 0 1
> reduce t
> reduce e
> cover e 1 1 -1
> reduce e
> row 4 0
> row 0 2
"""

SQUARES_HEADING = """\
# Squares of natural modules: sums, tensor products and the dual, and by table the exterior and the symmetric square. The matrices are made
# in two ways, from the module and from the matrix of the word on the natural module."""
SIZES_HEADING = "# Sizes from 2^126 on: tables whose entries are within 100."
LONG_HEADING = "# A table of 20,000 entries."


def by_hand(cases):
    out = []
    for text in cases.strip("\n").split("\n\n"):
        title, start, *rest = text.split("\n")
        name, _, order = start.removeprefix("from ").partition(" over ")
        replies = [line[2:] for line in rest if line.startswith("< ")] or None
        pieces = [line for line in rest if line.startswith("pieces ")]
        made = case(title.removeprefix("case "), name, int(order), [line[2:] for line in rest if line.startswith(">")], (), replies)
        out.append(made.replace(start, "\n".join([start] + pieces), 1))
    return out


def transcripts():
    parts = [(HEADING, by_hand(FIRST)), (MADE_HEADING, by_hand(MADE)), (BLOCKS_HEADING, by_hand(BLOCKS))]
    parts.append((COVERS_HEADING, by_hand(COVERS) + [cover_case()]))
    parts.append((SQUARES_HEADING, [square_case(*group) for group in pairs(("SL2", "SL3", "Sp4"), (2, 3, 5))]))
    parts += [(SIZES_HEADING, list(size_cases())), (LONG_HEADING, list(long_cases()))]
    return "\n\n\n".join("\n\n".join([heading] + cases) for heading, cases in parts) + "\n"


if __name__ == "__main__":
    region.main(transcripts, HEADING.partition("\n")[0], reductions.BY_HAND.partition("\n")[0])

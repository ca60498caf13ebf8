#!/usr/bin/env python3
"""Makes the headers of this folder: fields/Q for each field of at most 256 elements, and groups/NAME for each usual group.

    python3 data/make.py            writes the files
    python3 data/make.py --check    compares the files, and the cases of the gate, with what would be written
    python3 data/make.py --add      writes the cases in which the gate loads the small ones into crates/test_transcripts

A field file is one line `field p k c_0 .. c_(k-1) g`. For k = 1 the polynomial is x, and g the least primitive root modulo p; else the polynomial is
Conway's, and g is x, whose number is p. Then g is GAP's Z(q). That the powers of g are all units is tested here, and by the program.

A group file has comment lines on the type, the Cartan matrix and the natural module, then the lines `datum`, `root`, `coroot`, `load`. Simple roots are
numbered as in Bourbaki, and row i of the Cartan matrix has the pairings <a_i, a_j^v> of the simple root i with the simple coroots j.

Source: Bourbaki, Lie Groups and Lie Algebras, chapters 4 to 6, plates I to IX; Luebeck, Conway polynomials for finite fields.
"""
import itertools
import os
import sys

TOP = os.path.dirname(os.path.dirname(os.path.abspath(__file__)))
sys.path.insert(0, os.path.join(TOP, "bench"))
from carriers import all_roots, carrier, cartan, lines, lowered, orbit  # noqa: E402

FOLDER = os.path.join(TOP, "data")
LARGEST = 256
RANK = 8


# --- fields

def factors(n):
    """The primes that divide n."""
    return [p for p in range(2, n + 1) if n % p == 0 and all(p % d for d in range(2, p))]


def times(a, b, f, p):
    """The product of two polynomials below the degree of f, modulo f and p; a polynomial is its coefficients, the constant one first."""
    k = len(f) - 1
    product = [0] * (2 * k - 1)
    for i, x in enumerate(a):
        for j, y in enumerate(b):
            product[i + j] = (product[i + j] + x * y) % p
    for top in range(2 * k - 2, k - 1, -1):
        for j in range(k + 1):
            product[top - k + j] = (product[top - k + j] - product[top] * f[j] if j < k else 0) % p
    return product[:k]


def power(a, e, f, p):
    result = [1] + [0] * (len(f) - 2)
    for bit in bin(e)[2:]:
        result = times(result, result, f, p)
        if bit == "1":
            result = times(result, a, f, p)
    return result


def is_primitive(a, f, p):
    """Whether the powers of a modulo f are all q - 1 units, one after the other."""
    q = p ** (len(f) - 1)
    one = [1] + [0] * (len(f) - 2)
    seen, value = [], one
    for _ in range(q - 1):
        seen.append(tuple(value))
        value = times(value, a, f, p)
    return value == one and len(set(seen)) == q - 1 and all(any(it) for it in seen)


def conway(p, k, known={}):
    """The Conway polynomial of degree k over p, the constant coefficient first: the first in order, compared from the top with alternating signs, of
    which x is primitive, and whose x has the powers that are roots of the Conway polynomials of the divisors of k."""
    if (p, k) not in known:
        known[p, k] = next(
            f
            for word in itertools.product(range(p), repeat=k)
            for f in [[(-1) ** (i + 1) * a % p for i, a in enumerate(word)][::-1] + [1]]
            if f[0] and agrees(f, p, k) and is_primitive(x_modulo(f, p), f, p)
        )
    return known[p, k]


def x_modulo(f, p):
    return [0, 1] + [0] * (len(f) - 3) if len(f) > 2 else [-f[0] % p]


def agrees(f, p, k):
    """Whether, for each proper divisor m of k, the power of x that lies in the field of p^m is a root of its Conway polynomial."""
    for m in range(1, k):
        if k % m == 0:
            y = power(x_modulo(f, p), (p**k - 1) // (p**m - 1), f, p)
            value = [0] * k
            for c in reversed(conway(p, m)):
                value = times(value, y, f, p)
                value[0] = (value[0] + c) % p
            if any(value):
                return False
    return True


def field_line(p, k):
    if k == 1:
        g = -conway(p, 1)[0] % p
        assert is_primitive([g], [0, 1], p)
        return f"field {p} 1 0 {g}"
    f = conway(p, k)
    return " ".join(map(str, ["field", p, k, *f[:k], p]))


def fields():
    """The number of elements of each field, with its line."""
    for q in range(2, LARGEST + 1):
        if len(factors(q)) == 1:
            p = factors(q)[0]
            k = next(k for k in range(1, 9) if p**k == q)
            yield q, field_line(p, k)


# --- groups

def unit(n, i, value=1):
    return tuple(value * int(k == i) for k in range(n))


def minus(n, i, j):
    return tuple(int(k == i) - int(k == j) for k in range(n))


def plus(n, i, j):
    return tuple(int(k == i) + int(k == j) for k in range(n))


def type_name(kind, n):
    """The type in the usual names: low ranks coincide with others."""
    return {("B", 1): "A_1", ("C", 1): "A_1", ("D", 2): "A_1 A_1"}.get((kind, n), f"{kind}_{n}")


def matrix(kind, n):
    if (kind, n) == ("D", 2):
        return [[2, 0], [0, 2]]
    return [[2]] if n == 1 else cartan(kind, n)


class Group:
    """A name of a file, what the group is, its type, and its datum; the natural module is that of a minuscule weight, or the adjoint one."""

    def __init__(self, name, what, kind, n, simple, cosimple, dim, basis, natural=None):
        self.name, self.what, self.kind, self.n, self.basis, self.natural = name, what, kind, n, basis, natural
        self.datum = (dim, simple, cosimple)

    def type(self):
        return type_name(self.kind, self.n) if self.kind else "none"

    def roots(self):
        return len(all_roots(*self.datum)[0])

    def natural_words(self):
        return "adjoint" if self.natural is None else " ".join(map(str, ["orbit", *self.natural]))

    def weights(self, words):
        """The weights of a module."""
        dim, simple, cosimple = self.datum
        pairs, m = all_roots(*self.datum)
        if words == "adjoint":
            return [x for x, _ in pairs] + [(0,) * dim] * len(simple)
        coroots = tuple(sum(pairs[k][1][j] for k in range(m)) for j in range(dim))
        weight = tuple(map(int, words.split()[1:]))
        assert all(abs(sum(a * b for a, b in zip(weight, y))) <= 1 for _, y in pairs)
        return orbit(weight, simple, cosimple, coroots)

    def covers(self, words):
        """Whether each unit vector is a weight, or a multiple of up to eight, but for what lowering takes away."""
        pairs, _ = all_roots(*self.datum)
        some = set(self.weights(words))
        return all(
            any(not any(lowered(tuple(c * a - b for a, b in zip(x, unit(self.datum[0], j))), pairs)) for x in some for c in range(9))
            for j in range(self.datum[0])
        )

    def file(self):
        dim, simple, cosimple = self.datum
        out = [f"# {self.name}: {self.what}"]
        out.append(f"# type {self.type()}; {self.roots()} roots, {len(simple)} simple, in {dim} coordinate{'s' * (dim > 1)}: {self.basis}")
        if simple:
            rows = [[sum(a * b for a, b in zip(x, y)) for y in cosimple] for x in simple]
            assert rows == matrix(self.kind, self.n)
            out.append("# Cartan matrix, <a_i, a_j^v> in row i and column j, numbered as in Bourbaki:")
            out += ["#   " + " ".join(f"{c:2}" for c in row) for row in rows]
        words = self.natural_words()
        says = "covers" if self.covers(words) else "doesn't cover"
        out += [f"# module nat {words}", f"#   dimension {len(self.weights(words))}; it {says}"]
        return "\n".join(out + lines(*self.datum) + ["load"]) + "\n"


def connected(kind, n):
    """The simply connected datum of a type, by fundamental weights."""
    return [tuple(row) for row in matrix(kind, n)], [unit(n, i) for i in range(n)]


def adjoint(kind, n):
    """The adjoint datum of a type, by simple roots."""
    rows = matrix(kind, n)
    return [unit(n, i) for i in range(n)], [tuple(rows[i][j] for i in range(n)) for j in range(n)]


WEIGHTS = "X has the fundamental weights as basis, Y the simple coroots"
ROOTS = "X has the simple roots as basis, Y the fundamental coweights"


def axes(n):
    return f"the characters {', '.join(f'e_{i}' for i in range(1, n + 1)) if n < 4 else f'e_1, .., e_{n}'} of a diagonal torus"


def linear():
    for n in range(2, RANK + 2):
        yield Group(f"SL{n}", f"SL_{n}, simply connected", "A", n - 1, *connected("A", n - 1), n - 1, WEIGHTS, unit(n - 1, 0))
    for n in range(2, RANK + 1):
        steps = [minus(n, i, i + 1) for i in range(n - 1)]
        yield Group(f"GL{n}", f"GL_{n}", "A", n - 1, steps, steps, n, axes(n), unit(n, 0))
    for n in range(2, RANK + 2):
        yield Group(f"PGL{n}", f"PGL_{n}, adjoint", "A", n - 1, *adjoint("A", n - 1), n - 1, ROOTS)


def symplectic():
    for n in range(1, RANK + 1):
        steps = [minus(n, i, i + 1) for i in range(n - 1)]
        last = unit(n, n - 1, 2), unit(n, n - 1)
        yield Group(f"Sp{2 * n}", f"Sp_{2 * n}, simply connected", "C", n, steps + [last[0]], steps + [last[1]], n, axes(n), unit(n, 0))


def orthogonal():
    for n in range(1, RANK + 1):
        steps = [minus(n, i, i + 1) for i in range(n - 1)]
        yield Group(f"SO{2 * n + 1}", f"SO_{2 * n + 1}, adjoint", "B", n, steps + [unit(n, n - 1)], steps + [unit(n, n - 1, 2)], n, axes(n))
        if n > 1:
            last = [plus(n, n - 2, n - 1)]
            yield Group(f"SO{2 * n}", f"SO_{2 * n}", "D", n, steps + last, steps + last, n, axes(n), unit(n, 0))
        yield Group(f"Spin{2 * n + 1}", f"Spin_{2 * n + 1}, simply connected; its natural module here is the spin module", "B", n,
                    *connected("B", n), n, WEIGHTS, unit(n, n - 1))
        if n > 1:
            yield spin(n)


def spin(n):
    """Spin_2n. A half-spin module covers where n is odd; where n is even no orbit does."""
    half = n % 2 == 1
    says = "a half-spin module, and orbit 1 0 .. 0 is that of SO" if half else "that of SO, and no orbit covers"
    weight = unit(n, n - 1) if half else plus(n, 0, 1) if n == 2 else unit(n, 0)
    return Group(f"Spin{2 * n}", f"Spin_{2 * n}, simply connected; its natural module here is {says}", "D", n, *connected("D", n), n, WEIGHTS, weight)


def exceptional():
    for n, place in ((6, 0), (7, 6)):
        yield Group(f"E{n}sc", f"E_{n}, simply connected", "E", n, *connected("E", n), n, WEIGHTS, unit(n, place))
        yield Group(f"E{n}ad", f"E_{n}, adjoint", "E", n, *adjoint("E", n), n, ROOTS)
    for kind, n in (("E", 8), ("F", 4), ("G", 2)):
        yield Group(f"{kind}{n}", f"{kind}_{n}, simply connected and adjoint", kind, n, *connected(kind, n), n, WEIGHTS)


def tori():
    for n in range(1, RANK + 1):
        yield Group(f"T{n}", f"a torus of dimension {n}", "", 0, [], [], n, axes(n), unit(n, 0))


def groups():
    return [*linear(), *symplectic(), *orthogonal(), *exceptional(), *tori()]


# --- the files, and the cases of the gate

HEADING = """\
# Headers of the folder data/, as data/make.py --add writes them: the lines of a field file and of a group file, then the natural module of the group.
# The dimension of the carrier is that which bench/carriers.py works out."""
BEHIND = "# The sessions of README.md and of docs/TOUR.md, as docs/blocks.py --add writes them."

# the small headers that the gate loads: a field, and groups
SMALL = [(4, "SL2 SL3 GL2 PGL2 PGL3 T1 T2"), (3, "GL3 Sp2 Sp4 SO3 SO4 SO5 Spin4 Spin5"), (9, "SL2 PGL2 G2"), (2, "SL4 SO6 Spin6 Sp6 SO7 Spin7"), (256, "T1"), (251, "T1")]


def files():
    found = {f"fields/{q}": line + "\n" for q, line in fields()}
    return {**found, **{f"groups/{it.name}": it.file() for it in groups()}}


def cases():
    made, known = files(), {it.name: it for it in groups()}
    out = [HEADING]
    for q, names in SMALL:
        for it in (known[name] for name in names.split()):
            dim = len(carrier(*it.datum))
            script = [*(made[f"fields/{q}"] + made[f"groups/{it.name}"]).splitlines(), f"module nat {it.natural_words()}"]
            replies = [f"loaded {q} {it.datum[0]} {it.roots()} {dim}", f"module nat {len(it.weights(it.natural_words()))}"]
            out.append("\n".join([f"case data/fields/{q} data/groups/{it.name}", *("> " + line for line in script), *("< " + line for line in replies), "status Done"]))
    return "\n\n".join(out) + "\n"


def with_cases(text):
    before, mark, last = text.partition(BEHIND)
    assert mark
    return "\n\n".join([before.partition(HEADING)[0].rstrip("\n") + "\n", cases(), mark + last])


def read(path):
    with open(path, encoding="utf-8") as file:
        return file.read()


def write(path, text):
    os.makedirs(os.path.dirname(path), exist_ok=True)
    with open(path, "w", encoding="utf-8") as file:
        file.write(text)


def faults():
    made = files()
    for name, text in made.items():
        path = os.path.join(FOLDER, name)
        if not os.path.exists(path) or read(path) != text:
            yield f"data/{name} isn't as it would be written"
    for part in ("fields", "groups"):
        for name in os.listdir(os.path.join(FOLDER, part)):
            if f"{part}/{name}" not in made:
                yield f"data/{part}/{name} isn't made by this script"
    for end in ("stdin", "stdout"):
        path = os.path.join(TOP, "crates", "test_transcripts", end)
        if with_cases(read(path)) != read(path):
            yield f"crates/test_transcripts/{end} has other cases"


def main(words):
    if words == ["--check"]:
        found = list(faults())
        for it in found:
            print(it)
        print(f"{len(files())} headers, {len(found)} faults")
        return 1 if found else 0
    if words == ["--add"]:
        for end in ("stdin", "stdout"):
            path = os.path.join(TOP, "crates", "test_transcripts", end)
            text = with_cases(read(path))
            write(path, text)
        return 0
    if words:
        print(__doc__, file=sys.stderr)
        return 2
    for name, text in files().items():
        write(os.path.join(FOLDER, name), text)
    return 0


if __name__ == "__main__":
    sys.exit(main(sys.argv[1:]))

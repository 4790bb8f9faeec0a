#!/usr/bin/env python3
"""Compares what `defined` says of random typed core terms with their values.

    bench/random_analysis.py PROGRAM [SEED [TERMS]]

The program is the one that bench/analysis.sh makes; `bench/analysis.sh random [SEED [TERMS]]` makes it and calls this. Each term
is evaluated here by its definition, and it is kept which of its parts have no value at some list of values with which the
evaluation comes to them. A part of which `defined` says that it is sure to have a value, and that is one of those, is a fault: the
term is printed, and the status is 1. It prints how many terms and parts were compared, and how many parts are sure.
"""

import random
import subprocess
import sys

MOST = 2**128 - 1
# position 1 is 7, 2 is {3, 5}, 3 is [[3; 1, 2, 4]], 4 is undefined
GLOBALS = [None, 7, (3, 5), ([3], [1, 2, 4]), None]
TYPES = [None, "n", ("s", "n"), ("a", 1, "n"), "n"]


class Node:
    def __init__(self, form, parts=(), arg=None):
        self.form, self.parts, self.arg = form, list(parts), arg
        self.missing = False

    def nodes(self):
        yield self
        for part in self.parts:
            yield from part.nodes()

    def words(self):
        inner = [part.words() for part in self.parts]
        own = {"v": f"v{self.arg}", "g": f"g{self.arg}", "n": str(self.arg), "tab": f"tab{self.arg}", "sub": f"sub{self.arg}"}
        own |= {"dim": f"dim{self.arg}", "lit": f"lit{self.arg}", "tup": f"tup{self.arg}"}
        word = "max" if self.form == "n" and self.arg == MOST else own.get(self.form, self.form)
        return " ".join(inner + [word])


def number(n):
    return Node("n", arg=n)


def small():
    return number(random.choice([0, 1, 1, 2, 2, 3]))


def some_type(depth):
    if depth <= 0 or random.random() < 0.6:
        return random.choice(["n", "n", "n", "b"])
    kind = random.random()
    if kind < 0.4:
        return ("s", some_type(depth - 1))
    if kind < 0.7:
        return ("a", random.choice([1, 1, 2]), some_type(depth - 1))
    return ("t", some_type(depth - 1), some_type(depth - 1))


def leaf(ty, env):
    here = [i for i, t in enumerate(env) if t == ty]
    if here and random.random() < 0.7:
        return Node("v", arg=random.choice(here))
    there = [n for n in range(1, 5) if TYPES[n] == ty]
    if there and random.random() < 0.2:
        return Node("g", arg=random.choice(there))
    if ty == "n":
        return number(random.choice([0, 1, 2, 3, 4, 5, 7, 10, 100, 2**32, 2**63, 2**64 - 1, MOST]))
    if ty == "b":
        return Node(random.choice("TF"))
    if ty[0] == "s":
        return Node("{}") if random.random() < 0.5 else Node("one", [leaf(ty[1], env)])
    if ty[0] == "a":
        return Node("tab", [small() for _ in range(ty[1])] + [leaf(ty[2], ["n"] * ty[1] + env)], ty[1])
    return Node("tup", [leaf(t, env) for t in ty[1:]], len(ty) - 1)


def term(ty, env, size):
    if size <= 1:
        return leaf(ty, env)
    if random.random() < 0.01:
        return Node("bot")
    return random.choice(FORMS.get(ty if isinstance(ty, str) else ty[0], []) + ANY * (2 if random.random() < 0.5 else 1))(ty, env, size)


def split(size, count):
    cuts = [random.random() for _ in range(count)]
    return [max(1, int((size - 1) * cut / sum(cuts))) for cut in cuts]


def a_let(ty, env, size):
    other = some_type(2)
    a, b = split(size, 2)
    return Node("let", [term(other, env, a), term(ty, [other] + env, b)])


def an_if(ty, env, size):
    c, a, b = split(size, 3)
    return Node("if", [term("b", env, c), term(ty, env, a), term(ty, env, b)])


def a_default(ty, env, size):
    a, b = split(size, 2)
    return Node("or", [term(ty, env, a), term(ty, env, b)])


def a_projection(ty, env, size):
    other = some_type(1)
    first = random.random() < 0.5
    return Node("p1" if first else "p2", [term(("t", ty, other) if first else ("t", other, ty), env, size - 1)])


def a_member(ty, env, size):
    return Node("get", [term(("s", ty), env, size - 1)])


def a_cell(ty, env, size):
    rank = random.choice([1, 1, 2])
    sizes = split(size, rank + 1)
    return Node("sub", [term(("a", rank, ty), env, sizes[0])] + [term("n", env, s) for s in sizes[1:]], rank)


def arithmetic(ty, env, size):
    a, b = split(size, 2)
    return Node(random.choice("++*/%-"), [term("n", env, a), term("n", env, b)])


def operand(ty, env, size):
    if ty == "n" and random.random() < 0.7:
        return Node("gen", [small() if random.random() < 0.6 else bounded(env, size - 1)])
    return term(("s", ty), env, size)


def bounded(env, size):
    return Node("%", [term("n", env, max(1, size - 2)), number(random.choice([1, 2, 3, 4]))])


def a_sum(ty, env, size):
    other = random.choice(["n", some_type(1)])
    a, b = split(size, 2)
    return Node("S", [operand(other, env, a), term("n", [other] + env, b)])


def a_dimension(ty, env, size):
    return Node("dim", [term(("a", 1, some_type(1)), env, size - 1)], 1)


def a_comparison(ty, env, size):
    a, b = split(size, 2)
    other = "n" if random.random() < 0.8 else some_type(1)
    return Node(random.choice("<<=") if other == "n" else "=", [term(other, env, a), term(other, env, b)])


def one_member(ty, env, size):
    return Node("one", [term(ty[1], env, size - 1)])


def a_union(ty, env, size):
    a, b = split(size, 2)
    return Node("u", [term(ty, env, a), term(ty, env, b)])


def a_big_union(ty, env, size):
    other = random.choice(["n", some_type(1)])
    a, b = split(size, 2)
    return Node("U", [operand(other, env, a), term(ty, [other] + env, b)])


def a_generated(ty, env, size):
    if ty[1] != "n":
        return a_union(ty, env, size)
    return Node("gen", [small() if random.random() < 0.5 else bounded(env, size - 1)])


def a_tabulation(ty, env, size):
    rank = ty[1]
    sizes = split(size, rank + 1)
    bounds = [small() if random.random() < 0.7 else bounded(env, s) for s in sizes[:-1]]
    return Node("tab", bounds + [term(ty[2], ["n"] * rank + env, sizes[-1])], rank)


def a_literal(ty, env, size):
    if ty[1] != 1:
        return a_tabulation(ty, env, size)
    count = random.choice([0, 1, 2, 3])
    cells = [term(ty[2], env, s) for s in split(size, count)] if count else []
    return Node("lit", [number(count if random.random() < 0.9 else count + 1)] + cells, count)


def an_index(ty, env, size):
    if ty[1] != 1 or ty[2][0] != "s":
        return a_tabulation(ty, env, size)
    pair = Node("tup", [bounded(["n"] + env, size // 3), term(ty[2][1], ["n"] + env, max(1, size // 3))], 2)
    return Node("idx", [Node("U", [Node("gen", [small()]), Node("one", [pair])])])


def a_tuple(ty, env, size):
    return Node("tup", [term(t, env, s) for t, s in zip(ty[1:], split(size, len(ty) - 1))], len(ty) - 1)


ANY = [a_let, an_if, a_default, a_projection, a_member, a_cell]
FORMS = {
    "n": [arithmetic] * 8 + [a_sum, a_sum, a_dimension],
    "b": [a_comparison] * 6,
    "s": [one_member, a_union, a_big_union, a_big_union, a_generated, a_generated],
    "a": [a_tabulation] * 4 + [a_literal, a_literal, an_index],
    "t": [a_tuple] * 5,
}


def order(v):
    """A key by which values of one type are ordered."""
    if isinstance(v, frozenset):
        raise TypeError
    if isinstance(v, tuple) and v and v[0] == "array":
        return (len(v[1]), v[1], tuple(order(c) for c in v[2]))
    if isinstance(v, tuple) and v and v[0] in ("tuple", "set"):
        return tuple(order(c) for c in v[1])
    return v


def set_of(vs):
    keyed = {}
    for v in vs:
        keyed[order(v)] = v
    return ("set", tuple(keyed[k] for k in sorted(keyed)))


def position(n):
    v = GLOBALS[n]
    if n == 2:
        return ("set", v)
    if n == 3:
        return ("array", tuple(v[0]), tuple(v[1]))
    return v


def product(ns):
    out = 1
    for n in ns:
        out *= n
    return out


def indices(dims):
    if not dims:
        return [()]
    return [(i,) + rest for i in range(dims[0]) for rest in indices(dims[1:])]


class Large(Exception):
    pass


def value(t, env):
    """The value, or None; each part is evaluated at each list of values with which the evaluation comes to it."""
    v = made(t, env)
    if v is None:
        t.missing = True
    return v


def made(t, env):
    f, ps = t.form, t.parts
    if f == "v":
        return env[t.arg]
    if f == "g":
        return position(t.arg)
    if f == "n":
        return t.arg
    if f in "TF":
        return f == "T"
    if f == "bot":
        return None
    if f == "{}":
        return ("set", ())
    if f == "let":
        a = value(ps[0], env)
        return None if a is None else value(ps[1], [a] + env)
    if f == "if":
        c = value(ps[0], env)
        return None if c is None else value(ps[1] if c else ps[2], env)
    if f == "or":
        a = value(ps[0], env)
        return value(ps[1], env) if a is None else a
    if f in "US" and f:
        over = value(ps[0], env)
        if over is None:
            return None
        bodies = [value(ps[1], [m] + env) for m in over[1]]
        if None in bodies:
            return None
        if f == "S":
            return sum(bodies) if sum(bodies) <= MOST else None
        return set_of([m for b in bodies for m in b[1]])
    if f == "tab":
        dims = [value(p, env) for p in ps[:-1]]
        if None in dims:
            return None
        if product(dims) > 500:
            raise Large
        cells = [value(ps[-1], list(reversed(at)) + env) for at in indices(dims)]
        return None if None in cells else ("array", tuple(dims), tuple(cells))
    vs = [value(p, env) for p in ps]
    return None if None in vs else strict(t, vs)


def strict(t, vs):
    f = t.form
    if f == "tup":
        return ("tuple", tuple(vs))
    if f in ("p1", "p2"):
        return vs[0][1][0 if f == "p1" else 1]
    if f in "+-*/%":
        a, b = vs
        if f in "/%":
            return None if b == 0 else a // b if f == "/" else a % b
        n = a + b if f == "+" else a * b if f == "*" else max(0, a - b)
        return n if n <= MOST else None
    if f in "<=":
        return order(vs[0]) < order(vs[1]) if f == "<" else order(vs[0]) == order(vs[1])
    if f == "one":
        return ("set", (vs[0],))
    if f == "u":
        return set_of(vs[0][1] + vs[1][1])
    if f == "gen":
        if vs[0] > 500:
            raise Large
        return ("set", tuple(range(vs[0])))
    if f == "get":
        return vs[0][1][0] if len(vs[0][1]) == 1 else None
    if f == "sub":
        _, dims, cells = vs[0]
        if any(i >= d for i, d in zip(vs[1:], dims)):
            return None
        at = 0
        for i, d in zip(vs[1:], dims):
            at = at * d + i
        return cells[at]
    if f == "dim":
        dims = vs[0][1]
        return dims[0] if len(dims) == 1 else ("tuple", tuple(dims))
    if f == "idx":
        pairs = [p[1] for p in vs[0][1]]
        size = max((i + 1 for i, _ in pairs), default=0)
        return ("array", (size,), tuple(set_of([v for i, v in pairs if i == j]) for j in range(size)))
    if f == "lit":
        return ("array", (vs[0],), tuple(vs[1:])) if vs[0] == len(vs) - 1 else None
    raise AssertionError(f)


def batch(count):
    terms = []
    while len(terms) < count:
        t = term(some_type(2), [], random.randint(2, 40))
        try:
            value(t, [])
        except Large:
            continue
        terms.append(t)
    return terms


def main():
    program = sys.argv[1]
    random.seed(int(sys.argv[2]) if len(sys.argv) > 2 else 1)
    wanted = int(sys.argv[3]) if len(sys.argv) > 3 else 50000
    sys.setrecursionlimit(10000)
    done = parts = sure = missing = faults = 0
    while done < wanted:
        terms = batch(min(1000, wanted - done))
        told = subprocess.run([program, "each"], input="".join(t.words() + "\n" for t in terms).encode(), stdout=subprocess.PIPE, check=True)
        lines = told.stdout.decode().splitlines()
        assert len(lines) == len(terms), (len(lines), len(terms))
        for t, line in zip(terms, lines):
            nodes = list(t.nodes())
            assert len(nodes) == len(line), t.words()
            parts += len(nodes)
            sure += line.count("1")
            missing += sum(n.missing for n in nodes)
            if any(n.missing and d == "1" for n, d in zip(nodes, line)):
                faults += 1
                print(t.words(), line)
        done += len(terms)
    print(f"{done} terms, {parts} parts, {sure} sure, {missing} without a value at some list, {faults} faults")
    sys.exit(1 if faults else 0)


if __name__ == "__main__":
    main()

#!/usr/bin/env python3
"""Compares the values of loops that aql prints, over 1 to 8 workers, with those of Python, on random scripts.

    bench/random_loops.py [SEED [QUERIES]]

The loops go over so many members that they are cut into blocks and pieces (511, 512, 513, 1,024, 1,025 and fewer), over numbers that
are counted up, sets of numbers, of pairs and of both; their bodies are sums, products, differences, quotients and remainders, tests,
bindings, parts of pairs, subscripts and sums of their own, with numbers about 2^64 and 2^128 among them, members at which a body is
undefined, and branches that are not taken and undefined. Each script runs with a random number of workers. The values here are taken
member by member from the meaning of the language. It prints the first scripts that differ, and how many queries it compared; its
status is 1 where one differs.
"""

import random
import subprocess
import sys
from pathlib import Path

PROGRAM = Path(__file__).resolve().parent.parent / "crates/aql/out/aql"
LIMIT = 1 << 128
COUNTS = [0, 1, 2, 7, 8, 9, 60, 100, 255, 511, 512, 513, 700, 1023, 1024, 1025]
CONSTANTS = [0, 1, 2, 3, 7, 97, 255, 256, 511, 65535, (1 << 32) - 1, (1 << 63), (1 << 64) - 2, (1 << 64) - 1, 1 << 64, (1 << 127), LIMIT - 1]


class Undefined(Exception):
    """The value is undefined."""


def fits(n):
    if n >= LIMIT:
        raise Undefined
    return n


def divided(a, b):
    if b == 0:
        raise Undefined
    return a // b


def left_over(a, b):
    if b == 0:
        raise Undefined
    return a % b


OPERATIONS = [
    ("+", lambda a, b: fits(a + b)),
    ("*", lambda a, b: fits(a * b)),
    ("-", lambda a, b: max(a - b, 0)),
    ("/", divided),
    ("%", left_over),
]
COMPARISONS = [
    ("=", lambda a, b: a == b),
    ("<>", lambda a, b: a != b),
    ("<", lambda a, b: a < b),
    ("<=", lambda a, b: a <= b),
    (">", lambda a, b: a > b),
    (">=", lambda a, b: a >= b),
]


class Bodies:
    """Makes terms that are numbers, as pairs of a text and a function of the values of the names."""

    def __init__(self, rng):
        self.rng = rng
        self.fresh = 0

    def name(self):
        self.fresh += 1
        return f"x{self.fresh}"

    def number(self, names, depth):
        rng = self.rng
        choice = rng.random()
        if depth <= 0 or choice < 0.2:
            if names and rng.random() < 0.75:
                name = rng.choice(names)
                return name, lambda env: env[name]
            constant = rng.choice(CONSTANTS) if rng.random() < 0.3 else rng.randrange(20)
            return str(constant), lambda env: constant
        if choice < 0.62:
            sign, apply = rng.choice(OPERATIONS)
            left, first = self.number(names, depth - 1)
            right, second = self.number(names, depth - 1)
            if sign in "/%" and rng.random() < 0.8:
                constant = rng.randrange(1, 100)
                right, second = str(constant), lambda env: constant
            return f"({left} {sign} {right})", lambda env: apply(first(env), second(env))
        if choice < 0.78:
            test, holds = self.test(names, depth - 1)
            yes, first = self.number(names, depth - 1)
            no, second = self.number(names, depth - 1)
            return f"(if {test} then {yes} else {no})", lambda env: first(env) if holds(env) else second(env)
        if choice < 0.86:
            name = self.name()
            bound, value = self.number(names, depth - 1)
            body, meaning = self.number(names + [name], depth - 1)
            return f"let val \\{name} = {bound} in {body} end", lambda env: meaning({**env, name: value(env)})
        if choice < 0.93:
            index, place = self.number(names, depth - 1)
            return f"A[{index} % 700]", lambda env: at(env["A"], left_over(place(env), 700))
        if choice < 0.97:
            name = self.name()
            count, many = self.number(names, 0)
            body, meaning = self.number(names + [name], depth - 2)
            small = self.rng.randrange(1, 12)
            return (f"summap(fn \\{name} => {body})!(gen!({count} % {small}))",
                    lambda env: total(meaning({**env, name: i}) for i in range(many(env) % small)))
        return "(fst!P + snd!P)", lambda env: fits(env["P"][0] + env["P"][1])

    def test(self, names, depth):
        sign, holds = self.rng.choice(COMPARISONS)
        left, first = self.number(names, depth)
        right, second = self.number(names, depth)
        if self.rng.random() < 0.5:
            constant = self.rng.randrange(40)
            right, second = str(constant), lambda env: constant
        return f"{left} {sign} {right}", lambda env: holds(first(env), second(env))


def at(cells, i):
    if i >= len(cells):
        raise Undefined
    return cells[i]


def total(numbers):
    found = 0
    for n in list(numbers):
        found += n
    return fits(found)


def query(bodies, names):
    """A query over the declared A, P, S and T whose value is a number, with its meaning."""
    rng = bodies.rng
    kind = rng.randrange(9)
    n = rng.choice(COUNTS)
    x, y, z = bodies.name(), bodies.name(), bodies.name()
    if kind == 0:
        body, f = bodies.number(names + [x], 3)
        return f"summap(fn \\{x} => {body})!(gen!{n})", lambda env: total(f({**env, x: i}) for i in range(n))
    if kind == 1:
        body, f = bodies.number(names + [x], 3)
        return f"summap(fn \\{x} => {body})!(S)", lambda env: total(f({**env, x: i}) for i in sorted(env["S"]))
    if kind == 2:
        body, f = bodies.number(names + [x, y], 3)
        return f"summap(fn (\\{x},\\{y}) => {body})!(T)", lambda env: total(f({**env, x: a, y: b}) for a, b in sorted(env["T"]))
    if kind == 3:
        body, f = bodies.number(names + [x], 2)
        test, g = bodies.test(names + [x], 2)
        over, members = rng.choice([(f"gen!{n}", lambda env: range(n)), ("S", lambda env: sorted(env["S"]))])
        return (f"let val \\{z} = {{{body} | \\{x} <- {over}, {test}}} in count!{z} + summap(fn \\{y} => {y} % 1000)!({z}) end",
                lambda env: summed({f(e) for e in ({**env, x: i} for i in members(env)) if g(e)}))
    if kind == 4:
        first, f = bodies.number(names + [x], 2)
        second, g = bodies.number(names + [x], 2)
        test, h = bodies.test(names + [x], 1)
        text = f"let val \\{z} = {{({first}, {second}) | \\{x} <- gen!{n}, {test}}} in count!{z} + summap(fn (\\{y},_) => {y} % 1000)!({z}) end"
        return text, lambda env: summed_pairs({(f(e), g(e)) for e in ({**env, x: i} for i in range(n)) if h(e)})
    if kind == 5:
        dims = rng.choice([[n], [rng.randrange(4), n], [n % 40, 9], [3, 5, rng.choice([8, 11, 64, 520])], [2, 0, 9]])
        index = [bodies.name() for _ in dims]
        body, f = bodies.number(names + index, 2)
        bounds = ", ".join(f"\\{i} < {d}" for i, d in zip(index, dims))
        outer = [bodies.name() for _ in dims]
        inner = f"{z}[{', '.join(outer)}] % 1000"
        for name, d in reversed(list(zip(outer, dims))):
            inner = f"summap(fn \\{name} => {inner})!(gen!{d})"
        return f"let val \\{z} = [[{body} | {bounds}]] in {inner} end", lambda env: total(cell % 1000 for cell in cells(f, env, index, dims))
    if kind == 6:
        return (f"count!({{({y},{z}) | (\\{x},\\{y}) <- T, ({x},\\{z}) <- T}})",
                lambda env: len({(b, d) for a, b in env["T"] for c, d in env["T"] if a == c}) if len(env["T"]) < 300 else None)
    if kind == 7:
        first, f = bodies.number(names + [x], 1)
        second, g = bodies.number(names + [x], 2)
        width = rng.choice([1, 3, 50])
        text = (f"let val \\{z} = index_1!({{(({first}) % {width}, {second}) | \\{x} <- gen!{n}}}) in "
                f"len!{z} + summap(fn \\{y} => count!({z}[{y}]) * ({y} + 1))!(gen!(len!{z})) end")
        return text, lambda env: grouped({(f(e) % width, g(e)) for e in ({**env, x: i} for i in range(n))})
    body, f = bodies.number(names + [x, y], 2)
    m = rng.choice([3, 9, 40, 513])
    return (f"summap(fn \\{x} => summap(fn \\{y} => {body})!(gen!{m}))!(gen!{min(n, 20)})",
            lambda env: total(total(f({**env, x: i, y: j}) for j in range(m)) for i in range(min(n, 20))))


def summed(members):
    return fits(len(members) + total(m % 1000 for m in members))


def summed_pairs(members):
    return fits(len(members) + total(a % 1000 for a, _ in members))


def grouped(pairs):
    if not pairs:
        return 0
    width = max(a for a, _ in pairs) + 1
    return width + total((a + 1) for a, _ in pairs)


def cells(f, env, index, dims):
    places = [()]
    for d in dims:
        places = [p + (i,) for p in places for i in range(d)]
    return [f({**env, **dict(zip(index, p))}) for p in places]


def value_of(meaning, env):
    try:
        return meaning(env)
    except Undefined:
        return "undefined"


def script(rng):
    """A script, and what its last queries print."""
    bodies = Bodies(rng)
    n = rng.choice(COUNTS)
    step, start = rng.randrange(1, 9), rng.choice([0, 0, 5, (1 << 64) - 600, (1 << 64) - 9000])
    m, width = rng.choice(COUNTS), rng.choice([1, 4, 30])
    text = [
        "val \\A = [[(i*i + 3) % 251 | \\i < 600]];",
        f"val \\P = ({rng.randrange(100)}, 41);",
        f"val \\S = {{i * {step} + {start} | \\i <- gen!{n}}};",
        f"val \\T = {{(i % {width}, i * {step}) | \\i <- gen!{m}}};",
    ]
    env = {
        "A": [(i * i + 3) % 251 for i in range(600)],
        "S": {i * step + start for i in range(n)},
        "T": {(i % width, i * step) for i in range(m)},
    }
    env["P"] = (int(text[1].split("(")[1].split(",")[0]), 41)
    wanted = []
    for _ in range(6):
        one, meaning = query(bodies, [])
        value = value_of(meaning, env)
        if value is not None:
            text.append(one + ";")
            wanted.append(str(value))
    return "\n".join(text), wanted


def main():
    seed = int(sys.argv[1]) if len(sys.argv) > 1 else 1
    most = int(sys.argv[2]) if len(sys.argv) > 2 else 1000
    rng = random.Random(seed)
    compared = wrong = 0
    while compared < most:
        text, wanted = script(rng)
        workers = rng.choice([1, 1, 2, 3, 5, 8])
        ran = subprocess.run([str(PROGRAM), "--workers", str(workers), "--budget", "50000000"], input=text.encode(), stdout=subprocess.PIPE)
        lines = [line[len("val it = "):] for line in ran.stdout.decode().splitlines() if line.startswith("val it = ")]
        compared += len(wanted)
        if lines != wanted:
            wrong += 1
            if wrong <= 3:
                print(f"workers {workers}, status {ran.returncode}\n{text}\nwanted {wanted}\nprinted {lines}\n{ran.stdout.decode()[-300:]}")
    print(f"{compared} queries, {wrong} scripts that differ")
    return 1 if wrong else 0


if __name__ == "__main__":
    sys.exit(main())

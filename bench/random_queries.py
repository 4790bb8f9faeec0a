#!/usr/bin/env python3
"""Compares the values that aql prints with those of an evaluator of its own, on random scripts.

    bench/random_queries.py [SEED [SCRIPTS]]

A script has four declarations, and each may use those before it, also undefined ones. The evaluator
here follows docs/LANGUAGE.md and shares nothing with the program. It knows neither turns nor plans:
of a script that passes the budget only the declarations before that are compared. It prints the
first scripts that differ, and how many declarations it compared; its status is 1 where one differs.

An expression is made as a pair of its text and its meaning: a function from the values of the names
to the value, which raises Undefined where there is none. The names of an expression under way are a
list of (name, type), the innermost last.
"""

import itertools
import random
import subprocess
import sys
from pathlib import Path

PROGRAM = Path(__file__).resolve().parent.parent / "crates/aql/out/aql"
GREATEST = 2**128 - 1

NAT, BOOL, STRING = ("nat",), ("bool",), ("string",)
FEW_STRINGS = ["", "a", "ab", "b"]


class Undefined(Exception):
    pass


class TooLarge(Exception):
    """An array of more cells than a comparison is worth: the script is passed over."""


class Array:
    def __init__(self, dims, cells):
        self.dims, self.cells = tuple(dims), tuple(cells)

    def __eq__(self, other):
        return (self.dims, self.cells) == (other.dims, other.cells)

    def __hash__(self):
        return hash((self.dims, self.cells))


def set_of(t):
    return ("set", t)


def tuple_of(*ts):
    return ("tuple", *ts)


def array_of(rank, t):
    return ("array", rank, t)


def key(v):
    """What Python orders as the language orders v among the values of its type."""
    if isinstance(v, bool):
        return int(v)
    if isinstance(v, tuple):
        return tuple(map(key, v))
    if isinstance(v, frozenset):
        return tuple(sorted(map(key, v)))
    if isinstance(v, Array):
        return (v.dims, tuple(map(key, v.cells)))
    return v


def shown(v):
    if isinstance(v, bool):
        return "true" if v else "false"
    if isinstance(v, int):
        return str(v)
    if isinstance(v, str):
        return f'"{v}"'
    if isinstance(v, tuple):
        return "(" + ", ".join(map(shown, v)) + ")"
    if isinstance(v, frozenset):
        return "{" + ", ".join(shown(x) for x in sorted(v, key=key)) + "}"
    return "[[" + ",".join(map(str, v.dims)) + "; " + ", ".join(map(shown, v.cells)) + "]]"


def value_of(env, name):
    if env[name] is None:
        raise Undefined
    return env[name]


def strict(parts, f):
    """The meaning of a form that wants the values of all its parts."""

    def meaning(env):
        return f(*[part(env) for part in parts])

    return meaning


def some_type(depth):
    chosen = random.random()
    if depth <= 0 or chosen < 0.45:
        return random.choice([NAT, NAT, NAT, BOOL, STRING])
    if chosen < 0.65:
        return set_of(some_type(depth - 1))
    if chosen < 0.8:
        return tuple_of(*[some_type(depth - 1) for _ in range(random.randint(2, 3))])
    return array_of(random.choice([1, 1, 2]), some_type(depth - 1))


made_names = itertools.count()


def new_name():
    return random.choice("abcxyz") if random.random() < 0.5 else f"v{next(made_names)}"


def names_of(t, names):
    """The visible names of that type: a later name hides an earlier one that is spelled alike."""
    return [name for name, its in dict(names).items() if its == t]


# Patterns: the text, the names that it binds, and a function from a value and the values of the
# names to the values bound, or None where the value does not match.


def binder(t):
    if random.random() < 0.15:
        return "_", [], lambda v, env: {}
    name = new_name()
    return "\\" + name, [(name, t)], lambda v, env: {name: v}


def pattern(t, names, may_fail=True):
    chosen = random.random()
    if t[0] == "tuple" and chosen < 0.6:
        return tuple_pattern(t, names, may_fail)
    if chosen < 0.8 or not may_fail:
        return binder(t)
    if chosen < 0.9 and t in (NAT, BOOL, STRING):
        text, meaning = constant(t)
        return text, [], lambda v, env: {} if v == meaning(env) else None
    seen = names_of(t, names)
    if not seen:
        return binder(t)
    name = random.choice(seen)
    return name, [], lambda v, env: {} if v == value_of(env, name) else None


def tuple_pattern(t, names, may_fail):
    texts, bound, parts = [], [], []
    for part_type in t[1:]:
        text, new, match = pattern(part_type, names + bound, may_fail)
        texts.append(text)
        bound = bound + new
        parts.append(match)

    def match_all(v, env):
        return matched_in_turn(zip(parts, v), env)

    return "(" + ", ".join(texts) + ")", bound, match_all


def matched_in_turn(pairs, env):
    """What the patterns bind, each seeing what those before it bound, or None."""
    bound = {}
    for match, v in pairs:
        new = match(v, {**env, **bound})
        if new is None:
            return None
        bound.update(new)
    return bound


# Numbers and cells.


def number(n):
    if n > GREATEST:
        raise Undefined
    return n


def divided(f):
    def of(a, b):
        if b == 0:
            raise Undefined
        return f(a, b)

    return of


ARITHMETIC = {
    "+": lambda a, b: number(a + b),
    "-": lambda a, b: max(0, a - b),
    "*": lambda a, b: number(a * b),
    "/": divided(lambda a, b: a // b),
    "%": divided(lambda a, b: a % b),
}

COMPARISONS = {
    "=": lambda a, b: a == b,
    "<>": lambda a, b: a != b,
    "<": lambda a, b: a < b,
    "<=": lambda a, b: a <= b,
    ">": lambda a, b: a > b,
    ">=": lambda a, b: a >= b,
}


def cell(array, *at):
    place = 0
    for dim, i in zip(array.dims, at):
        if i >= dim:
            raise Undefined
        place = place * dim + i
    return array.cells[place]


def only(members):
    if len(members) != 1:
        raise Undefined
    return next(iter(members))


def extreme(f):
    def of(members):
        if not members:
            raise Undefined
        return f(members, key=key)

    return of


def indices(dims):
    return itertools.product(*map(range, dims))


# Expressions.


def constant(t):
    if t == NAT:
        n = random.choice([GREATEST, 2**64, 2**127]) if random.random() < 0.02 else random.randint(0, 6)
        return str(n), lambda env: n
    if t == BOOL:
        truth = random.random() < 0.5
        return shown(truth), lambda env: truth
    text = random.choice(FEW_STRINGS)
    return shown(text), lambda env: text


def expression(t, names, depth):
    seen = names_of(t, names)
    if seen and random.random() < 0.3:
        name = random.choice(seen)
        return name, lambda env: value_of(env, name)
    if depth <= 0 and t in (NAT, BOOL, STRING):
        return constant(t)
    if depth > 0 and random.random() < 0.33:
        return random.choice(ANY_TYPE)(t, names, depth)
    return OF_TYPE[t[0]](t, names, depth)


def applied(word, types, names, depth, f):
    """An application of a macro or an operation to parts of these types."""
    parts = [expression(t, names, depth - 1) for t in types]
    text = f"({word}!(" + ", ".join(text for text, _ in parts) + "))"
    return text, strict([meaning for _, meaning in parts], f)


def infix(signs, t, names, depth):
    sign = random.choice(list(signs))
    a, first = expression(t, names, depth - 1)
    b, second = expression(t, names, depth - 1)
    return f"(({a}){sign}({b}))", strict([first, second], signs[sign])


def a_choice(t, names, depth):
    c, test = expression(BOOL, names, depth - 1)
    a, yes = expression(t, names, depth - 1)
    b, no = expression(t, names, depth - 1)
    return f"(if {c} then {a} else {b})", lambda env: yes(env) if test(env) else no(env)


def a_default(t, names, depth):
    a, first = expression(t, names, depth - 1)
    b, second = expression(t, names, depth - 1)

    def meaning(env):
        try:
            return first(env)
        except Undefined:
            return second(env)

    return f"(({a}) default ({b}))", meaning


def a_binding(t, names, depth):
    """A let, a function in place, or the same without a name."""
    bound_type = some_type(1)
    a, value = expression(bound_type, names, depth - 1)
    p, bound, match = pattern(bound_type, names, random.random() < 0.3)
    b, body = expression(t, names + bound, depth - 1)

    def meaning(env):
        new = match(value(env), env)
        if new is None:
            raise Undefined
        return body({**env, **new})

    return random.choice([f"let val {p} = {a} in {b} end", f"((fn {p} => {b})!({a}))"]), meaning


def a_subscript(t, names, depth):
    rank = random.choice([1, 1, 2])
    a, array = expression(array_of(rank, t), names, depth - 1)
    at = [expression(NAT, names, depth - 2) for _ in range(rank)]
    text = f"(({a})[" + ", ".join(text for text, _ in at) + "])"
    return text, strict([array] + [meaning for _, meaning in at], cell)


def a_part(t, names, depth):
    other = some_type(1)
    if random.random() < 0.5:
        return applied("fst", [tuple_of(t, other)], names, depth, lambda pair: pair[0])
    return applied("snd", [tuple_of(other, t)], names, depth, lambda pair: pair[1])


def an_extreme(t, names, depth):
    word, f = random.choice([("least", min), ("greatest", max)])
    return applied(word, [set_of(t)], names, depth, extreme(f))


def one_of_two(t, names, depth):
    word, f = random.choice([("min2", min), ("max2", max)])
    return applied(word, [t, t], names, depth, lambda a, b: f(a, b, key=key))


def the_member(t, names, depth):
    return applied("get", [set_of(t)], names, depth, only)


ANY_TYPE = [a_choice, a_default, a_binding, a_binding, a_subscript, a_part, an_extreme, one_of_two, the_member]


def a_sum(names, depth):
    over_type = some_type(1)
    a, over = expression(set_of(over_type), names, depth - 1)
    p, bound, match = pattern(over_type, names, random.random() < 0.2)
    b, body = expression(NAT, names + bound, depth - 1)

    def meaning(env):
        total = 0
        for member in over(env):
            new = match(member, env)
            if new is None:
                raise Undefined
            total += body({**env, **new})
        return number(total)

    return f"(summap(fn {p} => {b})!({a}))", meaning


def a_nat(t, names, depth):
    chosen = random.random()
    if chosen < 0.5:
        return infix(ARITHMETIC, NAT, names, depth)
    if chosen < 0.7:
        return a_sum(names, depth)
    if chosen < 0.8:
        return applied("len", [array_of(1, some_type(1))], names, depth, lambda array: array.dims[0])
    if chosen < 0.9:
        return applied("count", [set_of(some_type(1))], names, depth, len)
    return applied("total", [set_of(NAT)], names, depth, lambda members: number(sum(members)))


def a_bool(t, names, depth):
    chosen = random.random()
    if chosen < 0.5:
        compared = {sign: lambda a, b, f=f: f(key(a), key(b)) for sign, f in COMPARISONS.items()}
        return infix(compared, some_type(2), names, depth)
    if chosen < 0.7:
        a, first = expression(BOOL, names, depth - 1)
        b, second = expression(BOOL, names, depth - 1)
        if random.random() < 0.5:
            return f"({a} and {b})", lambda env: second(env) if first(env) else False
        return f"({a} or {b})", lambda env: True if first(env) else second(env)
    if chosen < 0.8:
        a, part = expression(BOOL, names, depth - 1)
        return f"(not {a})", lambda env: not part(env)
    of = some_type(1)
    if chosen < 0.83:
        return applied("isempty", [set_of(of)], names, depth, lambda members: not members)
    if chosen < 0.9:
        return applied("member", [of, set_of(of)], names, depth, lambda x, members: x in members)
    return applied("subset", [set_of(of), set_of(of)], names, depth, lambda a, b: a <= b)


def a_string(t, names, depth):
    return constant(STRING)


def a_tuple(t, names, depth):
    if t == tuple_of(NAT, NAT) and random.random() < 0.2:
        return applied("dim_2", [array_of(2, some_type(1))], names, depth, lambda array: array.dims)
    parts = [expression(part, names, depth - 1) for part in t[1:]]
    text = "(" + ", ".join(text for text, _ in parts) + ")"
    return text, strict([meaning for _, meaning in parts], lambda *vs: vs)


def a_set(t, names, depth):
    of, chosen = t[1], random.random()
    if depth <= 0 or chosen < 0.25:
        members = [expression(of, names, depth - 1) for _ in range(random.randint(0, 3))]
        text = "{" + ", ".join(text for text, _ in members) + "}"
        return text, strict([meaning for _, meaning in members], lambda *vs: frozenset(vs))
    if of == NAT and chosen < 0.4:
        n, limit = expression(NAT, names, depth - 1)
        return f"(gen!(({n})%6))", strict([limit], lambda n: frozenset(range(n % 6)))
    if chosen < 0.5:
        a, first = expression(t, names, depth - 1)
        b, second = expression(t, names, depth - 1)
        return f"(({a}) union ({b}))", strict([first, second], lambda a, b: a | b)
    if chosen < 0.6:
        word, f = random.choice([("inter", lambda a, b: a & b), ("minus", lambda a, b: a - b)])
        return applied(word, [t, t], names, depth, f)
    if chosen < 0.7:
        return random.choice(macros_of_sets(of))(t, names, depth)
    return a_comprehension(of, names, depth)


def macros_of_sets(of):
    """Applications that make sets with such members."""
    made = [
        lambda t, names, depth: applied("flatten", [set_of(t)], names, depth, lambda sets: frozenset().union(*sets)),
        lambda t, names, depth: applied("cells", [array_of(1, of)], names, depth, lambda a: frozenset(a.cells)),
    ]
    if of == NAT:
        row = array_of(1, some_type(1))
        made.append(lambda t, names, depth: applied("range", [NAT, NAT], names, depth, numbers_between))
        made.append(lambda t, names, depth: applied("domain", [row], names, depth, lambda a: frozenset(range(*a.dims))))
    if of[0] == "tuple" and len(of) == 3:
        sides, pairs = [set_of(of[1]), set_of(of[2])], lambda a, b: frozenset(itertools.product(a, b))
        made.append(lambda t, names, depth: applied("product", sides, names, depth, pairs))
    if of[0] == "tuple" and len(of) == 3 and of[1] == NAT:
        row = array_of(1, of[2])
        made.append(lambda t, names, depth: applied("graph", [row], names, depth, lambda a: frozenset(enumerate(a.cells))))
    return made


def numbers_between(a, b):
    if b - a > 1000:
        raise TooLarge
    return frozenset(range(a, b))


# Qualifiers: the text, the names that it binds, and a function from the values of the names to the
# list of what each row binds.


def from_set(names, depth):
    of = some_type(1)
    a, over = expression(set_of(of), names, depth)
    p, bound, match = pattern(of, names)

    def rows(env):
        found = (match(member, env) for member in over(env))
        return [new for new in found if new is not None]

    return f"{p} <- {a}", bound, rows


def from_cells(names, depth):
    of, rank = some_type(1), random.choice([1, 1, 2])
    a, over = expression(array_of(rank, of), names, depth)
    texts, bound, matches = [], [], []
    for part in [NAT] * rank + [of]:
        text, new, match = pattern(part, names + bound)
        texts.append(text)
        bound = bound + new
        matches.append(match)
    index = texts[0] if rank == 1 else "(" + ", ".join(texts[:rank]) + ")"

    def rows(env):
        array = over(env)
        cells = zip(indices(array.dims), array.cells)
        found = (matched_in_turn(zip(matches, [*at, v]), env) for at, v in cells)
        return [new for new in found if new is not None]

    return f"[{index}:{texts[rank]}] <- {a}", bound, rows


def one_more(names, depth):
    of = some_type(1)
    a, value = expression(of, names, depth)
    p, bound, match = pattern(of, names)

    def rows(env):
        new = match(value(env), env)
        return [] if new is None else [new]

    return f"{p} == {a}", bound, rows


def a_test(names, depth):
    a, test = expression(BOOL, names, depth)
    return f"({a})", [], lambda env: [{}] if test(env) else []


def a_comprehension(of, names, depth):
    texts, each = [], []
    for _ in range(random.randint(1, 3)):
        qualifier = random.choice([from_set, from_set, from_cells, one_more, a_test])
        text, bound, rows = qualifier(names, depth - 2)
        texts.append(text)
        each.append(rows)
        names = names + bound
    h, head = expression(of, names, depth - 2)

    def members(rows, env):
        if not rows:
            return frozenset([head(env)])
        return frozenset().union(*[members(rows[1:], {**env, **new}) for new in rows[0](env)])

    return "{" + f"{h} | " + ", ".join(texts) + "}", lambda env: members(each, env)


def a_literal(rank, of, names, depth):
    dims = [random.randint(0, 2) for _ in range(rank)]
    wanted = len(list(indices(dims)))
    given = wanted + (random.random() < 0.06)
    cells = [expression(of, names, depth - 1) for _ in range(given)]

    def made(*vs):
        if len(vs) != wanted:
            raise Undefined
        return Array(dims, vs)

    text = "[[" + ",".join(map(str, dims)) + "; " + ", ".join(text for text, _ in cells) + "]]"
    return text, strict([meaning for _, meaning in cells], made)


def a_tabulation(rank, of, names, depth):
    bounds = [expression(NAT, names, depth - 2) for _ in range(rank)]
    binds = [new_name() for _ in range(rank)]
    b, body = expression(of, names + [(name, NAT) for name in binds], depth - 1)

    def meaning(env):
        dims = [bound(env) % 4 for _, bound in bounds]
        return Array(dims, [body({**env, **dict(zip(binds, at))}) for at in indices(dims)])

    limits = ", ".join(f"\\{name}<({text})%4" for name, (text, _) in zip(binds, bounds))
    return f"[[{b} | {limits}]]", meaning


def grouped(rank):
    """The meaning of index_k on pairs of an index and a value."""

    def of(pairs):
        keyed = [((at,) if rank == 1 else at, v) for at, v in pairs]
        dims = [max((at[i] + 1 for at, _ in keyed), default=0) for i in range(rank)]
        if any(dim > 30 for dim in dims):
            raise TooLarge
        return Array(dims, [frozenset(v for k, v in keyed if k == at) for at in indices(dims)])

    return of


def cells_from(array, first, many):
    if many > 0 and first + many > len(array.cells):
        raise Undefined
    return Array([many], array.cells[first : first + many])


def zipped(a, b):
    pairs = list(zip(a.cells, b.cells))
    return Array([len(pairs)], pairs)


def an_array(t, names, depth):
    _, rank, of = t
    chosen = random.random()
    if depth <= 0 or chosen < 0.35:
        return a_literal(rank, of, names, depth)
    if of[0] == "set" and chosen < 0.6:
        index = NAT if rank == 1 else tuple_of(*[NAT] * rank)
        return applied(f"index_{rank}", [set_of(tuple_of(index, of[1]))], names, depth, grouped(rank))
    if rank == 1 and chosen < 0.65:
        return applied("reverse", [t], names, depth, lambda a: Array(a.dims, a.cells[::-1]))
    if rank == 1 and chosen < 0.68:
        return applied("subseq", [t, NAT, NAT], names, depth, cells_from)
    if rank == 1 and of[0] == "tuple" and len(of) == 3 and chosen < 0.72:
        return applied("zip", [array_of(1, of[1]), array_of(1, of[2])], names, depth, zipped)
    if rank == 1 and chosen < 0.73:
        both = lambda a, b: Array([a.dims[0] + b.dims[0]], a.cells + b.cells)
        return applied("append", [t, t], names, depth, both)
    if rank == 2 and chosen < 0.7:
        turned = lambda a: Array(a.dims[::-1], [cell(a, i, j) for j, i in indices(a.dims[::-1])])
        return applied("transpose", [t], names, depth, turned)
    return a_tabulation(rank, of, names, depth)


OF_TYPE = {"nat": a_nat, "bool": a_bool, "string": a_string, "tuple": a_tuple, "set": a_set, "array": an_array}


def script(declarations):
    """The declarations' lines, and the lines that their values are printed in."""
    lines, wanted, names, env = [], [], [], {}
    for number_of_it in range(declarations):
        name, t = f"g{number_of_it}", some_type(2)
        text, meaning = expression(t, names, random.randint(1, 4))
        try:
            env[name] = meaning(env)
        except Undefined:
            env[name] = None
        lines.append(f"val \\{name} = {text};")
        wanted.append(f"val {name} = " + ("undefined" if env[name] is None else shown(env[name])))
        names = names + [(name, t)]
    return lines, wanted


def main():
    random.seed(int(sys.argv[1]) if len(sys.argv) > 1 else 1)
    scripts = int(sys.argv[2]) if len(sys.argv) > 2 else 1000
    compared = undefined = spent = different = 0
    for _ in range(scripts):
        try:
            lines, wanted = script(4)
        except TooLarge:
            continue
        words = [str(PROGRAM), "--workers", random.choice(["1", "3", "8"])]
        done = subprocess.run(words, input="\n".join(lines), capture_output=True, text=True)
        printed = [line for line in done.stdout.splitlines() if line.startswith("val ")]
        past_budget = done.returncode == 12
        if past_budget:
            spent += 1
            wanted = wanted[: len(printed)]
        compared += len(wanted)
        undefined += sum(line.endswith("= undefined") for line in wanted)
        if (done.returncode != 0 and not past_budget) or printed != wanted:
            different += 1
            if different <= 3:
                print("\n".join(lines), *wanted, f"status {done.returncode}", done.stdout, sep="\n")
    print(f"{compared} declarations compared, {undefined} of them undefined")
    print(f"{spent} scripts passed the budget; {different} differ")
    return different > 0


if __name__ == "__main__":
    sys.exit(main())

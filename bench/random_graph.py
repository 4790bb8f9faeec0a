#!/usr/bin/env python3
"""Checks what aql prints of array-free forms, on random scripts, by a translation and an encoding of its own.

    bench/random_graph.py [SEED [QUERIES]]
    bench/random_graph.py --self-test

Runs scripts of one to five queries with --plan and --graph, some with --motion too; the later ones may use
the earlier ones, also undefined ones. Of each query it asks that the line `graph` has the encoding of the
query's value, `undefined` exactly where the query has none, and `spent` exactly where the turns of the
array-free form of the printed plan pass the budget, which takes these turns by evaluating a form that it
makes itself. It asks besides that these turns are at most the bound by those of the plan's parts. Each
script with a query whose form takes turns runs again with budgets of just these turns and of one less,
where the query itself is within them. Without the word no such line may stand.

Encoding, translation and evaluation are written from the language and share nothing with the program; the
plan is read by random_motion.py. It prints the first scripts that differ with what differs, and how many
queries it compared; its status is 1 where one differs. `--self-test` runs no program: it checks worked
values and forms, and that its own forms are worth the encodings of random queries within the bound.
"""

import random
import sys

sys.dont_write_bytecode = True

import random_motion as motion
import random_plans as plans
from core_terms import BOTTOM, EMPTY, UNDEFINED, ZERO, Meaning, node, outcomes_of, shifted, terms
from random_queries import Array, TooLarge, indices, shown

LARGE = 10000000


# The encoding of a value: an array is the pair of its dimensions and the set of its pairs of an index and a cell.


def index_value(at):
    return at[0] if len(at) == 1 else tuple(at)


def encoded(v):
    if isinstance(v, tuple):
        return tuple(map(encoded, v))
    if isinstance(v, frozenset):
        return frozenset(map(encoded, v))
    if isinstance(v, Array):
        pairs = zip(indices(v.dims), map(encoded, v.cells))
        return index_value(v.dims), frozenset((index_value(tuple(at)), cell) for at, cell in pairs)
    return v


# The array-free form of a term.


def var(i):
    return node("var", i)


def variables(k):
    """The k innermost variables, the outermost of them first."""
    return [var(k - 1 - j) for j in range(k)]


def tuple_term(parts):
    return parts[0] if len(parts) == 1 else node("tuple", None, *parts)


def pair_term(first, second):
    return node("tuple", None, first, second)


def part_of(at, of, t):
    return node("proj", (at, of), t)


def single(t):
    return node("single", None, t)


def equal(a, b):
    return node("compare", "=", a, b)


def lets(bound, body):
    """The body under one variable for each of these terms, which stand around the lets."""
    for j in reversed(range(len(bound))):
        body = node("let", None, shifted(bound[j], j), body)
    return body


def table(k, cell):
    """The pair of the k innermost variables and of the pairs over the loops below them; the cell has the loops' variables."""
    pairs = single(pair_term(tuple_term(variables(k)), cell))
    for _ in range(k):
        pairs = node("bigunion", None, node("gen", None, var(k - 1)), pairs)
    return pair_term(tuple_term(variables(k)), pairs)


def found_at(pairs, at):
    """The second parts of those pairs whose first part is the index."""
    test = equal(part_of(1, 2, var(0)), shifted(at, 1))
    return node("bigunion", None, pairs, node("if", None, test, single(part_of(2, 2, var(0))), EMPTY))


def greatest(k, j):
    """The j-th numbers of the indices of variable 0 that no such number is greater than."""

    def number_of(pair):
        index = part_of(1, 2, pair)
        return index if k == 1 else part_of(j + 1, k, index)

    greater = node("compare", "<", number_of(var(1)), number_of(var(0)))
    above = node("bigunion", None, var(1), node("if", None, greater, single(number_of(var(0))), EMPTY))
    return node("bigunion", None, var(0), node("if", None, equal(above, EMPTY), single(number_of(var(0))), EMPTY))


def dimension_above(k, j):
    one_more = node("arith", "+", node("nat", 1), node("get", None, greatest(k, j)))
    return node("if", None, equal(var(0), EMPTY), ZERO, one_more)


def product_of(factors):
    product = factors[0]
    for factor in factors[1:]:
        product = node("arith", "*", product, factor)
    return product


def literal_form(k, parts):
    dims, cells = parts[:k], [shifted(c, k) for c in parts[k:]]
    filled = equal(product_of(variables(k)), node("nat", len(cells)))
    for d in reversed(variables(k)):
        filled = node("if", None, equal(d, ZERO), node("bool", not cells), filled)
    pairs = EMPTY
    for m, cell in enumerate(cells):
        at = []
        for j, d in enumerate(variables(k)):
            rest = variables(k)[j + 1 :]
            over = node("arith", "/", node("nat", m), product_of(rest)) if rest else node("nat", m)
            at.append(node("arith", "%", over, d))
        pairs = node("union", None, pairs, single(pair_term(tuple_term(at), cell)))
    return lets(dims, node("if", None, filled, pair_term(tuple_term(variables(k)), pairs), BOTTOM))


def array_free(t):
    form, data, parts = t[0], t[1], [array_free(p) for p in t[2]]
    if form == "tab":
        k = len(parts) - 1
        return lets(parts[:-1], table(k, shifted(parts[-1], k, k)))
    if form == "sub":
        found = found_at(part_of(2, 2, var(1)), var(0))
        return lets([parts[0], tuple_term(parts[1:])], node("get", None, found))
    if form == "dim":
        return part_of(1, 2, parts[0])
    if form == "index":
        cell = found_at(var(2 * data), tuple_term(variables(data)))
        dims = [dimension_above(data, j) for j in range(data)]
        return node("let", None, parts[0], lets(dims, table(data, cell)))
    if form == "literal":
        return literal_form(data, parts)
    return (form, data, tuple(parts))


# The bound of its turns, by those of the parts of the term.


def prefix_products(dims):
    total, product = 0, 1
    for n in dims:
        product *= n
        total += product
    return total


class Bound(Meaning):
    """Values, with the turns of the bound in place of the turns."""

    def run(self, t, env):
        value, turns = super().run(t, env)
        if t[0] == "sub" and all(self.is_defined(p, env) for p in t[2]):
            turns += len(self.value(t[2][0], env).cells)
        if t[0] == "index" and self.is_defined(t[2][0], env):
            turns += self.of_index(t[1], self.value(t[2][0], env), value)
        return value, turns

    def is_defined(self, t, env):
        return self.value(t, env) is not UNDEFINED

    def of_index(self, rank, pairs, value):
        m = len(pairs)
        own = rank * (m + m * m)
        if value is UNDEFINED:
            return own
        return own + 2 * prefix_products(value.dims) + len(value.cells) * m - (m + len(value.cells))

    def tabulation(self, parts, env):
        value, turns = super().tabulation(parts, env)
        dims = [self.value(p, env) for p in parts[:-1]]
        if any(v is UNDEFINED for v in dims):
            return value, turns
        count = 1
        for n in dims:
            count *= n
        return value, turns - count + 2 * prefix_products(dims)


class Form:
    """The array-free form of a plan: its outcome and its turns over encoded outcomes."""

    def __init__(self, plan, outcomes):
        over = Meaning({n: encoded(v) for n, v in outcomes.items()})
        self.value, self.turns = over.run(array_free(plan), ())
        self.bound = Bound(outcomes).run(plan, ())[1]


def line_of(form, budget):
    if form.turns > budget:
        return "spent"
    return "undefined" if form.value is UNDEFINED else shown(form.value)


def wanted_of(start, outcomes):
    value = Meaning(outcomes).value(start, ())
    return "undefined" if value is UNDEFINED else shown(encoded(value))


def checked(start, outcomes, printed, budget):
    """What differs in the lines of one query, and its form; the first is None where nothing differs."""
    if not all(word in printed for word in ("val", "plan", "turns", "graph")):
        return "lines are missing", None
    try:
        plan = motion.read(printed["plan"])
    except (ValueError, IndexError) as wrong:
        return f"a term cannot be read: {wrong}", None
    form = Form(plan, outcomes)
    if form.turns > form.bound:
        return f"the turns {form.turns} of its own form pass the bound {form.bound}", form
    if line_of(form, LARGE) not in ("spent", wanted_of(start, outcomes)):
        return f"its own form is worth {line_of(form, LARGE)}", form
    wanted = "spent" if form.turns > budget else wanted_of(start, outcomes)
    if printed["graph"] != wanted:
        return f"the graph is {wanted}, its form takes {form.turns} turns", form
    return None, form


# Runs of the program.


def lines_of(output):
    found = []
    for line in output.splitlines():
        word, _, rest = line.partition(" ")
        if word == "typ":
            found.append({})
        if word in ("val", "plan", "turns", "moved", "graph") and found:
            found[-1][word] = rest.partition(" = ")[2]
    return found


class Count:
    def __init__(self):
        self.compared = self.spent = self.undefined = self.arrays = self.large = self.different = self.ended = 0

    def differs(self, script, done, what):
        self.different += 1
        if self.different <= 5:
            print(script, " ".join(done.args[1:]), done.stdout, what, "", sep="\n")


def compare(count, script, starts, outcomes, budget):
    """Runs a script, checks each query, and gives for each what was printed and its form, where that was made."""
    words = ["--plan", "--graph"] + (["--motion"] if random.random() < 0.2 else [])
    done = motion.run(script, budget, words)
    printed = lines_of(done.stdout)
    found = []
    for n, lines in enumerate(printed, 1):
        before = {i: v for i, v in outcomes.items() if i < n}
        try:
            what, form = checked(starts[n - 1], before, lines, budget)
        except TooLarge:
            count.large += 1
            found.append((lines, None))
            continue
        if what is not None:
            count.differs(script, done, f"declaration {n}: {what}")
            return []
        count.compared += 1
        count.spent += lines["graph"] == "spent"
        count.undefined += lines["graph"] == "undefined"
        count.arrays += "[[" in lines["val"]
        found.append((lines, form))
    if done.returncode == 12 and len(printed) < len(starts):
        count.ended += 1
    elif done.returncode != 0 or len(printed) != len(starts):
        count.differs(script, done, f"status {done.returncode}")
    return found


def compare_again(count, script, starts, outcomes, found):
    """With the turns of the form of one query as the budget, and one less, where the queries are within it."""
    turns = {form.turns for _, form in found if form is not None}
    most = max([int(lines["turns"]) for lines, _ in found], default=0)
    fits = [n for n in turns if n > 1 and n - 1 >= most]
    if fits:
        budget = random.choice(fits)
        compare(count, script, starts, outcomes, budget)
        compare(count, script, starts, outcomes, budget - 1)


def compare_without(count, script):
    done = motion.run(script, LARGE, ["--plan"])
    if any("graph" in lines for lines in lines_of(done.stdout)):
        count.differs(script, done, "a line that was not asked for")


def main():
    plans.make_more_forms()
    if sys.argv[1:2] == ["--self-test"]:
        return self_test()
    random.seed(int(sys.argv[1]) if len(sys.argv) > 1 else 1)
    wanted = int(sys.argv[2]) if len(sys.argv) > 2 else 10000
    count, queries_run = Count(), 0
    while queries_run < wanted:
        script, starts, outcomes, turns = plans.random_script(motion.COUNTS)
        queries_run += len(starts)
        budget = LARGE if random.random() < 0.8 else random.randint(1, 2 * turns[-1] + 2)
        found = compare(count, script, starts, outcomes, budget)
        if len(found) == len(starts):
            compare_again(count, script, starts, outcomes, found)
        if random.random() < 0.05:
            compare_without(count, script)
    print(f"{count.compared} queries compared, {count.arrays} with arrays in their value")
    print(f"{count.spent} spent, {count.undefined} undefined, {count.ended} ends for the budget, {count.large} queries too large")
    print(f"{count.different} differ")
    return count.different > 0


# Worked queries: the script, the line of its last query, and the turns of the array-free form of that query as it is written.

WORKED = r"""
[[i*10+j | \i<2, \j<2]];                                ~ ((2, 2), {((0, 0), 0), ((0, 1), 1), ((1, 0), 10), ((1, 1), 11)}) ~ 12
index_1!({(0,5),(2,7)});                                ~ (3, {(0, {5}), (1, {}), (2, {7})}) ~ 18
[[i | \i<10]];                                          ~ (10, {(0, 0), (1, 1), (2, 2), (3, 3), (4, 4), (5, 5), (6, 6), (7, 7), (8, 8), (9, 9)}) ~ 20
[[3; 5, 6, 7]][3];                                      ~ undefined ~ 3
[[2,2; 1, 2, 3, 4]];                                    ~ ((2, 2), {((0, 0), 1), ((0, 1), 2), ((1, 0), 3), ((1, 1), 4)}) ~ 0
[[2,2; 1, 2, 3]];                                       ~ undefined ~ 0
[[0; ]];                                                ~ (0, {}) ~ 0
[[i | \i<3, \j<0]];                                     ~ ((3, 0), {}) ~ 6
{[[1; 3]], [[2; 5, 6]]};                                ~ {(1, {(0, 3)}), (2, {(0, 5), (1, 6)})} ~ 0
len!([[3; 5, 6, 7]]);                                   ~ 3 ~ 0
index_2!({((0,1),5)});                                  ~ ((1, 2), {((0, 0), {}), ((0, 1), {5})}) ~ 12
val \A = [[3; 5, 6, 7]]; A[1];                          ~ 6 ~ 3
"""


def self_test():
    bad = 0
    for row in WORKED.strip().split("\n"):
        script, line, turns = [field.strip() for field in row.split(" ~ ")]
        starts = terms(script)
        outcomes, _ = outcomes_of(starts[:-1])
        form = Form(starts[-1], outcomes)
        if (line_of(form, LARGE), wanted_of(starts[-1], outcomes), str(form.turns)) != (line, line, turns):
            bad += 1
            print(row, line_of(form, LARGE), form.turns, sep="\n")
    random.seed(7)
    seen = met = large = 0
    for _ in range(400):
        script, starts, outcomes, _ = plans.random_script(motion.COUNTS)
        for n, start in enumerate(starts, 1):
            before = {i: v for i, v in outcomes.items() if i < n}
            try:
                form = Form(start, before)
                right = form.turns <= form.bound and line_of(form, 10**9) == wanted_of(start, before)
            except TooLarge:
                large += 1
                continue
            seen, met = seen + 1, met + (form.turns == form.bound)
            if not right:
                bad += 1
                print(script, f"declaration {n}", line_of(form, 10**9), form.turns, form.bound, sep="\n")
    print(f"{seen} forms of its own, {met} with the turns of the bound, {large} too large; {bad} are not as they should be")
    return bad > 0


if __name__ == "__main__":
    sys.exit(main())

#!/usr/bin/env python3
"""Checks what aql prints of code motion, on random scripts, by a table of the moves of its own.

    bench/random_motion.py [SEED [QUERIES]]
    bench/random_motion.py --self-test

Runs scripts of one to five queries with --plan and --motion; the later ones may use the earlier ones, also
undefined ones. Of each query it reads the printed plan and the printed moved term, and looks for a chain of
moves with the printed names, in that order, from the one to the other: the move fits at a place, and what has
to be defined there has a value with each list of values with which an evaluation comes to that place. It asks
besides that the moved term is still (no M4 fits, and no M1, M2 or M3 whose terms are firm), that it has the
plan's weight and value, and that value and turns are those of the first of plan, query and moved term whose
turns are within the budget. Where a run ends for the budget it asks that the turns of all three pass it: it
runs the script again with a larger one to see plan and moved term. Scripts also run with budgets that only
the moved term meets, and again without --motion, where the run must end.

Reading, evaluation (core_terms.py), firmness (plan_rules.py) and the moves are written from the language and
the table of moves, and share nothing with the program. It prints the first scripts that differ with what
differs, and how many queries it compared; its status is 1 where one differs. `--self-test` runs no program: it
reads the terms that it prints, accepts worked moves, refuses wrong ones, and accepts the moves of a small
mover on the plans of a small normaliser, where each must lower the measure.
"""

import random
import re
import subprocess
import sys

sys.dont_write_bytecode = True

import random_plans as plans
import random_queries as queries
from core_terms import EMPTY, UNDEFINED, ZERO, Meaning, binders, is_strict, mapped, node, shifted, shown_outcome
from core_terms import string_of, terms, outcomes_of, text, uses
from plan_rules import Place, Rewriting, Unfinished, is_firm, is_worth, places, put_at
from random_queries import BOOL, NAT, PROGRAM, TooLarge, array_of, expression, number, some_type

sys.setrecursionlimit(100000)

LARGE = 10000000

# Scripts have mostly several queries, so that there are terms that no rule computes.
COUNTS = (1, 3, 4, 5)


# Reading the text of a core term. Variables are read as levels, and numbered from the innermost at the end.

TOKEN = re.compile(r'\s*(?:("(?:[^"\\]|\\.)*")|(<=|>=|<>|[A-Za-z0-9_@#/]+|[-+*/%<>=(){}\[\],;|]))')


class Reader:
    def __init__(self, printed):
        self.tokens, at = [], 0
        while at < len(printed):
            match = TOKEN.match(printed, at)
            if match is None:
                raise ValueError(f"no token at {printed[at:][:20]}")
            self.tokens.append(match[1] or match[2])
            at = match.end()
        self.at = 0

    def peek(self, further=0):
        return self.tokens[self.at + further] if self.at + further < len(self.tokens) else ""

    def take(self):
        self.at += 1
        return self.tokens[self.at - 1]

    def want(self, *wanted):
        for token in wanted:
            if self.peek() != token:
                raise ValueError(f"{token} is wanted before {self.tokens[self.at :][:5]}")
            self.at += 1

    def took(self, *wanted):
        if all(self.peek(i) == token for i, token in enumerate(wanted)):
            self.at += len(wanted)
            return True
        return False

    def listed(self, end):
        found = []
        while not self.took(end):
            if found:
                self.want(",")
            found.append(self.term())
        return found

    def term(self):
        token = self.take()
        if token[0] == '"':
            return node("text", string_of(token))
        if token.isdigit():
            return node("nat", int(token))
        if token in ("true", "false"):
            return node("bool", token == "true")
        if token == "undefined":
            return node("bottom")
        if re.fullmatch(r"x\d+", token):
            return node("level", int(token[1:]))
        if token[0] == "@":
            return node("global", int(token[1:]))
        if token in ("U", "S"):
            return self.loop("bigunion" if token == "U" else "sum")
        if token == "{":
            if self.took("}"):
                return EMPTY
            member = self.term()
            self.want("}")
            return node("single", None, member)
        if token == "[":
            self.want("[")
            return self.bracketed()
        if token == "(":
            return self.parenthesised()
        return self.called(token)

    def loop(self, form):
        self.want("{")
        body = self.term()
        self.want("|")
        self.take()
        self.want("in")
        over = self.term()
        self.want("}")
        return node(form, None, over, body)

    def bracketed(self):
        first = self.term()
        if self.took("|"):
            bounds = []
            while not self.took("]", "]"):
                if bounds:
                    self.want(",")
                self.take()
                self.want("<")
                bounds.append(self.term())
            return node("tab", None, *bounds, first)
        dims = [first]
        while self.took(","):
            dims.append(self.term())
        self.want(";")
        cells = []
        while not self.took("]", "]"):
            if cells:
                self.want(",")
            cells.append(self.term())
        return node("literal", len(dims), *dims, *cells)

    def parenthesised(self):
        if self.took("let"):
            self.take()
            self.want("=")
            bound = self.term()
            self.want("in")
            body = self.term()
            self.want(")")
            return node("let", None, bound, body)
        if self.took("if"):
            test = self.term()
            self.want("then")
            yes = self.term()
            self.want("else")
            no = self.term()
            self.want(")")
            return node("if", None, test, yes, no)
        first, sign = self.term(), self.take()
        if sign == ",":
            return node("tuple", None, first, *self.listed(")"))
        second = self.term()
        self.want(")")
        if sign in ("union", "default"):
            return node(sign, None, first, second)
        return node("compare" if sign in queries.COMPARISONS else "arith", sign, first, second)

    def called(self, token):
        self.want("(")
        if token[0] == "#":
            at, of = token[1:].split("/")
            return node("proj", (int(at), int(of)), *self.listed(")"))
        if token == "sub":
            array = self.term()
            self.want(";")
            return node("sub", None, array, *self.listed(")"))
        form, _, rank = token.partition("_")
        return node(form, int(rank) if rank else None, *self.listed(")"))


def numbered(t, d):
    """With variables in place of levels, under d binders."""
    if t[0] == "level":
        if t[1] >= d:
            raise ValueError(f"x{t[1]} is not bound")
        return node("var", d - 1 - t[1])
    return (t[0], t[1], tuple(numbered(p, d + binders(t, i)) for i, p in enumerate(t[2])))


def read(printed):
    """The closed term that prints so."""
    reader = Reader(printed)
    found = reader.term()
    if reader.at != len(reader.tokens):
        raise ValueError(f"more than a term: {reader.tokens[reader.at :][:5]}")
    found = numbered(found, 0)
    if text(found) != printed:
        raise ValueError(f"it prints as {text(found)}")
    return found


# The moves: of a term that is a left side, the right sides, each with the terms that have to be defined.


def lowered(t, k):
    """Without the variables 0 to k-1, which must not occur."""
    return shifted(t, -k)


def is_free_of(t, k):
    return all(uses(t, j) == 0 for j in range(k))


def with_part(t, i, part):
    return (t[0], t[1], t[2][:i] + (part,) + t[2][i + 1 :])


def rotated(t, k):
    """Variable 0 becomes variable k, and variables 1 to k are lowered by one."""

    def on_variable(i, depth):
        j = i - depth
        return node("var", depth + k if j == 0 else i - 1 if 1 <= j <= k else i)

    return mapped(t, 0, on_variable)


def let_around(t, i, bound, part):
    """A let around the node with that part in place of its part i."""
    rest = tuple(p if j == i else shifted(p, 1, binders(t, j)) for j, p in enumerate(t[2]))
    return node("let", None, bound, with_part((t[0], t[1], rest), i, part))


def move_m1(t):
    if t[0] in ("bigunion", "sum") and t[2][1][0] == "if":
        over, (test, yes, no) = t[2][0], t[2][1][2]
        nothing = EMPTY if t[0] == "bigunion" else ZERO
        if no == nothing and is_free_of(test, 1):
            c = lowered(test, 1)
            yield node("if", None, c, node(t[0], None, over, yes), nothing), [over, c]


def let_from_body(t, i):
    k = binders(t, i)
    if t[2][i][0] == "let" and is_free_of(t[2][i][2][0], k):
        bound, body = lowered(t[2][i][2][0], k), t[2][i][2][1]
        yield let_around(t, i, bound, rotated(body, k)), [bound]


def move_m2(t):
    if t[0] in ("bigunion", "sum"):
        yield from let_from_body(t, 1)


def move_m3(t):
    if t[0] == "tab":
        yield from let_from_body(t, len(t[2]) - 1)


def move_m4(t):
    for i, part in enumerate(t[2]):
        if t[0] != "let" and is_strict(t, i) and part[0] == "let":
            yield let_around(t, i, *part[2]), []


MOVES = {"M1": move_m1, "M2": move_m2, "M3": move_m3, "M4": move_m4}


class Moving:
    """The moves of terms over the outcomes of the positions."""

    def __init__(self, outcomes):
        self.outcomes = outcomes

    def is_firm(self, place, needs):
        return all(is_firm(Place(t, place.path, place.depth, place.facts), self.outcomes) for t in needs)

    def is_defined(self, whole, place, needs):
        """Whether the terms have values with each list of values with which an evaluation comes to the place."""
        meaning = Meaning(self.outcomes)
        lists = meaning.reach(whole, place.path) if needs else []
        return all(meaning.value(t, env) is not UNDEFINED for env in lists for t in needs)

    def moves(self, whole, rule):
        """The terms that one move leads to. Where evaluation is too large, firm terms stand for it."""
        for place in places(Place(whole)):
            for right, needs in MOVES[rule](place.term):
                try:
                    holds = self.is_defined(whole, place, needs)
                except TooLarge:
                    if not self.is_firm(place, needs):
                        raise
                    holds = True
                if holds:
                    yield put_at(whole, place.path, right)

    def first(self, whole):
        """A move whose terms are firm: its rule, the place's text, and the term that it leads to."""
        for place in places(Place(whole)):
            for rule, move in MOVES.items():
                for right, needs in move(place.term):
                    if self.is_firm(place, needs):
                        return rule, text(place.term, place.depth), put_at(whole, place.path, right)
        return None

    def moved(self, whole):
        """The term after all firm moves, and their names."""
        names = []
        while True:
            found = self.first(whole)
            if found is None:
                return whole, names
            assert measure(found[2]) < measure(whole) and weight(found[2]) == weight(whole), text(whole)
            names.append(found[0])
            whole = found[2]


MOST_TRIED = 3000


def leads(moving, plan, names, moved):
    """Whether a chain of moves with these names leads from the plan to the moved term."""
    failed, tried = set(), [0]

    def follow(t, i):
        if i == len(names):
            return t == moved
        if (i, t) in failed:
            return False
        tried[0] += 1
        if tried[0] > MOST_TRIED:
            raise Unfinished
        if any(follow(u, i + 1) for u in moving.moves(t, names[i])):
            return True
        failed.add((i, t))
        return False

    return follow(plan, 0)


# Weight, and the measure that each move lowers.


def nodes(t):
    return 1 + sum(map(nodes, t[2]))


def weight(t):
    own = {"tab": 6 * len(t[2]), "dim": 2 * (t[1] or 0) + 2 if t[0] == "dim" else 1}.get(t[0], 1)
    return own + sum(map(weight, t[2]))


def lets(t):
    return (t[0] == "let") + sum(map(lets, t[2]))


def measure(t):
    """(n+1)*Q + P: Q pairs of a loop or tabulation and a node in its body, P pairs of a node and a let below it."""
    q = p = 0
    for place in places(Place(t)):
        u = place.term
        if u[0] in ("bigunion", "sum", "tab"):
            q += nodes(u[2][-1])
        if u[0] != "let":
            p += sum(map(lets, u[2]))
    return (nodes(t) + 1) * q + p


# A query with what was printed.


def turns_of(term, outcomes):
    return Meaning(outcomes).run(term, ())[1]


def read_terms(printed):
    return read(printed["plan"]), read(printed["moved"])


def counted(start, plan, moved, outcomes, budget):
    """Value and turns of the first of plan, query and moved term whose turns are within the budget, and which it is."""
    for by, term in (("plan", plan), ("start", start), ("moved", moved)):
        value, turns = Meaning(outcomes).run(term, ())
        if turns <= budget:
            return value, turns, by
    return None


def checked(start, outcomes, printed, budget):
    """What differs in the lines of one query, a dictionary from their words to their texts; None where nothing does."""
    if not all(word in printed for word in ("val", "plan", "rules", "turns", "moved", "moves")):
        return "lines are missing"
    try:
        plan, moved = read_terms(printed)
    except (ValueError, IndexError) as wrong:
        return f"a term cannot be read: {wrong}"
    moving = Moving(outcomes)
    names = [] if printed["moves"] == "none" else printed["moves"].split(" ")
    if any(name not in MOVES for name in names):
        return f"unknown moves {printed['moves']}"
    if weight(plan) != weight(moved) or nodes(plan) != nodes(moved):
        return "the moved term has another weight than the plan"
    if not leads(moving, plan, names, moved):
        return f"no chain of moves {printed['moves']} leads from {printed['plan']} to {printed['moved']}"
    left = moving.first(moved)
    if left is not None:
        return f"the moved term is not still: {left[0]} fits {left[1]}"
    if not is_worth(moved, outcomes, Meaning(outcomes).value(plan, ())):
        return "the moved term has another value than the plan"
    found = counted(start, plan, moved, outcomes, budget)
    if found is None:
        return "the turns of all three terms pass the budget, and there is an answer"
    value, turns, _ = found
    if printed["val"] != shown_outcome(value):
        return f"the value is {shown_outcome(value)}"
    if printed["turns"] != str(turns):
        return f"the turns are {turns}"
    return None


# Expressions beside those of random_plans.py, in which something may be moved: a text and a meaning each.


def a_binding_used_twice(t, names, depth):
    """A let of a number that the body uses more than once, which stands wherever an expression may stand."""
    y, low, high = plans.fresh(), random.randint(0, 4), random.randint(2, 9)
    inner = names + [(y, NAT)]
    a, bound = expression(NAT, names, depth - 2)
    (b, yes), (c, no) = expression(t, inner, depth - 1), expression(t, inner, depth - 2)

    def meaning(env):
        n = bound(env)
        return (yes if n < low or n > high else no)({**env, y: n})

    return f"(let val \\{y} = {a} in if {y}<{low} or {y}>{high} then {b} else {c} end)", meaning


def a_quotient(names, depth):
    """A number that may have no value."""
    (a, dividend), (b, divisor) = expression(NAT, names, depth - 2), expression(NAT, names, depth - 2)
    n = random.randint(2, 3)

    def meaning(env):
        top, bottom = dividend(env), divisor(env) % n
        if bottom == 0:
            raise queries.Undefined
        return top // bottom

    return f"(({a})/(({b})%{n}))", meaning


def a_bound(names, depth):
    """A number with or without a value, for a test or a binding."""
    return (a_quotient if random.random() < 0.4 else lambda names, depth: expression(NAT, names, depth - 1))(names, depth)


def a_test_from_outside(t, names, depth):
    """A loop, often without members, with a test that does not speak of its member."""
    x, n, op, limit = plans.fresh(), random.randint(1, 3), random.choice(list(queries.COMPARISONS)), random.randint(0, 4)
    s, over = expression(NAT, names, depth - 2)
    c, bound = a_bound(names, depth)
    h, head = expression(t[1], names + [(x, NAT)], depth - 2)

    def meaning(env):
        members = range(over(env) % n)
        return frozenset(head({**env, x: v}) for v in members if queries.COMPARISONS[op](bound(env), limit))

    return "{" + f"{h} | \\{x} <- gen!(({s})%{n}), {c}{op}{limit}" + "}", meaning


def a_test_of_the_outer_loop(t, names, depth):
    """Two loops with a test that speaks of the outer member alone."""
    x, y = plans.fresh(), plans.fresh()
    (m, outer), (n, inner) = [(random.randint(0, 5),) * 2, (random.randint(0, 6),) * 2]
    more = names + [(x, NAT)]
    c, test = expression(BOOL, more, depth - 1)
    h, head = expression(t[1], more + [(y, NAT)], depth - 2)

    def meaning(env):
        rows = [{**env, x: i, y: j} for i in range(outer) for j in range(inner)]
        return frozenset(head(row) for row in rows if test(row))

    return "{" + f"{h} | \\{x} <- gen!{m}, \\{y} <- gen!{n}, {c}" + "}", meaning


def a_sum_of_a_binding(t, names, depth):
    """A sum whose body begins with a let that does not speak of the member."""
    x, y, n = plans.fresh(), plans.fresh(), random.randint(0, 5)
    a, bound = a_bound(names, depth - 1)
    b, body = expression(NAT, names + [(x, NAT), (y, NAT)], depth - 2)

    def meaning(env):
        total = 0
        for i in range(n):
            twice = bound(env)
            total += number(number(twice + twice) + body({**env, x: i, y: twice}))
        return number(total)

    return f"(summap(fn \\{x} => let val \\{y} = {a} in {y}+{y}+({b}) end)!(gen!{n}))", meaning


def an_array_of_a_binding(t, names, depth):
    """A tabulation whose body begins with a let that speaks of no index."""
    at, y = [plans.fresh() for _ in range(t[1])], plans.fresh()
    dims, limit = [random.randint(0, 3) for _ in at], random.randint(0, 4)
    a, bound = a_bound(names, depth - 1)
    inner = names + [(i, NAT) for i in at] + [(y, NAT)]
    (b, yes), (c, no) = expression(t[2], inner, depth - 2), expression(t[2], inner, depth - 2)

    def meaning(env):
        cells = []
        for index in queries.indices(dims):
            more = {**env, **dict(zip(at, index)), y: bound(env)}
            cells.append((yes if more[y] < limit or more[y] > 9 else no)(more))
        return queries.Array(dims, cells)

    bounds = ", ".join(f"\\{i}<{n}" for i, n in zip(at, dims))
    return f"[[let val \\{y} = {a} in if {y}<{limit} or {y}>9 then {b} else {c} end | {bounds}]]", meaning


def make_more_forms():
    plans.make_more_forms()
    queries.ANY_TYPE.extend([a_binding_used_twice, a_binding_used_twice])
    of_type = queries.OF_TYPE
    for more, chance in ((a_test_from_outside, 0.2), (a_test_of_the_outer_loop, 0.2)):
        of_type["set"] = plans.sometimes(more, of_type["set"], chance)
    of_type["nat"] = plans.sometimes(a_sum_of_a_binding, of_type["nat"], 0.12)
    of_type["array"] = plans.sometimes(an_array_of_a_binding, of_type["array"], 0.25)


# Runs of the program.

WORDS = ("val", "plan", "rules", "turns", "moved", "moves")


def lines_of(output):
    """For each declaration that printed lines, the texts of these lines by their words."""
    found = []
    for line in output.splitlines():
        word, _, rest = line.partition(" ")
        if word == "typ":
            found.append({})
        if word in WORDS and found:
            found[-1][word] = rest.partition(" = ")[2]
    return found


def run(script, budget, more):
    workers = random.choice(["1", "2", "3", "8"])
    words = [str(PROGRAM), "--workers", workers, "--budget", str(budget)] + more
    return subprocess.run(words, input=script, capture_output=True, text=True)


class Count:
    def __init__(self):
        self.compared = self.moved = self.large = self.unfinished = self.different = self.ended = 0
        self.by = {"plan": 0, "start": 0, "moved": 0}

    def differs(self, script, done, what):
        self.different += 1
        if self.different <= 5:
            print(script, " ".join(done.args[1:]), done.stdout, what, "", sep="\n")


def compare(count, script, starts, outcomes, budget):
    """Runs a script with both words, checks each query, and gives what was printed."""
    done = run(script, budget, ["--plan", "--motion"])
    printed = lines_of(done.stdout)
    for n, lines in enumerate(printed, 1):
        before = {i: v for i, v in outcomes.items() if i < n}
        try:
            what = checked(starts[n - 1], before, lines, budget)
            by = None if what else counted(starts[n - 1], *read_terms(lines), before, budget)[2]
        except TooLarge:
            count.large += 1
            continue
        except Unfinished:
            count.unfinished += 1
            continue
        if what is not None:
            return count.differs(script, done, f"declaration {n}: {what}")
        count.compared += 1
        count.moved += lines["moves"] != "none"
        count.by[by] += 1
    if done.returncode == 12 and len(printed) < len(starts):
        return compare_end(count, script, starts, outcomes, budget, done, len(printed) + 1)
    if done.returncode != 0 or len(printed) != len(starts):
        return count.differs(script, done, f"status {done.returncode}")
    return printed


def compare_end(count, script, starts, outcomes, budget, done, n):
    """Of a run that ended for the budget at declaration n: the turns of all three of its terms pass it."""
    if not done.stdout.endswith(f"fault budget in declaration {n}\n"):
        return count.differs(script, done, "another end")
    larger = lines_of(run(script, LARGE, ["--plan", "--motion"]).stdout)
    if len(larger) < n or budget >= LARGE:
        count.large += 1
        return None
    before = {i: v for i, v in outcomes.items() if i < n}
    try:
        if counted(starts[n - 1], *read_terms(larger[n - 1]), before, budget) is not None:
            return count.differs(script, done, f"declaration {n} has a term within the budget")
        count.ended += 1
    except TooLarge:
        count.large += 1
    return None


def compare_by_moved(count, script, starts, outcomes, turns, printed):
    """Again with a budget that only the moved term of the last query meets, and then without the word."""
    n, before = len(starts), {i: v for i, v in outcomes.items() if i < len(starts)}
    try:
        plan, moved = [turns_of(t, before) for t in read_terms(printed[-1])]
    except TooLarge:
        return
    earlier = max([int(lines["turns"]) for lines in printed[:-1]], default=0)
    low, high = max(moved, earlier, 1), min(plan, turns[-1]) - 1
    if low > high:
        return
    budget = random.randint(low, high)
    compare(count, script, starts, outcomes, budget)
    done = run(script, budget, ["--plan"])
    if done.returncode != 12 or not done.stdout.endswith(f"fault budget in declaration {n}\n"):
        count.differs(script, done, "without the word the last query has a term within the budget")


def main():
    make_more_forms()
    if sys.argv[1:2] == ["--self-test"]:
        return self_test()
    random.seed(int(sys.argv[1]) if len(sys.argv) > 1 else 1)
    wanted = int(sys.argv[2]) if len(sys.argv) > 2 else 20000
    count, queries_run = Count(), 0
    while queries_run < wanted:
        script, starts, outcomes, turns = plans.random_script(COUNTS)
        queries_run += len(starts)
        budget = LARGE if random.random() < 0.8 else random.randint(1, 2 * turns[-1] + 2)
        printed = compare(count, script, starts, outcomes, budget)
        if printed is not None:
            compare_by_moved(count, script, starts, outcomes, turns, printed)
    print(f"{count.compared} queries compared, of {count.moved} something was moved; by", count.by)
    print(f"{count.ended} ends for the budget, {count.large} queries too large, {count.unfinished} chains too long")
    print(f"{count.different} differ")
    return count.different > 0


# Worked moves, over positions of which @1 is 0, @2 is undefined, @3 is {1, 2} and @4 is [[2; 5, 6]].

OUTCOMES = {1: 0, 3: frozenset([1, 2]), 4: queries.Array([2], [5, 6])}

WORKED = r"""
U{U{(if (x0 < 5) then {x0} else {}) | x1 in gen(40)} | x0 in gen(30)} ~ M1 ~ U{(if (x0 < 5) then U{{x0} | x1 in gen(40)} else {}) | x0 in gen(30)}
U{(if ((1 / @1) = 1) then {1} else {}) | x0 in gen(@1)} ~ none ~ U{(if ((1 / @1) = 1) then {1} else {}) | x0 in gen(@1)}
S{(if (@1 < 4) then x0 else 0) | x0 in @3} ~ M1 ~ (if (@1 < 4) then S{x0 | x0 in @3} else 0)
S{(if (@1 < 4) then x0 else 1) | x0 in @3} ~ none ~ S{(if (@1 < 4) then x0 else 1) | x0 in @3}
S{(let x1 = (7 * 8) in (x1 + (x0 * x1))) | x0 in gen(3)} ~ M2 ~ (let x0 = (7 * 8) in S{(x0 + (x1 * x0)) | x1 in gen(3)})
S{(let x1 = sub(@4; 1) in (x1 + (x0 * x1))) | x0 in gen(3)} ~ none ~ S{(let x1 = sub(@4; 1) in (x1 + (x0 * x1))) | x0 in gen(3)}
S{(let x1 = sub(@4; 1) in (x1 + (x0 * x1))) | x0 in gen(3)} ~ M2 ~ (let x0 = sub(@4; 1) in S{(x0 + (x1 * x0)) | x1 in gen(3)})
[[(let x2 = (7 % 4) in ((x0 + x2) * (x1 + x2))) | x0<2, x1<3]] ~ M3 ~ (let x0 = (7 % 4) in [[((x1 + x0) * (x2 + x0)) | x1<2, x2<3]])
((let x0 = (1 + 2) in (x0 * x0)) + 4) ~ M4 ~ (let x0 = (1 + 2) in ((x0 * x0) + 4))
U{U{(if (@1 = 0) then {(x0, x1)} else {}) | x1 in gen(2)} | x0 in gen(3)} ~ M1 M1 ~ (if (@1 = 0) then U{U{{(x0, x1)} | x1 in gen(2)} | x0 in gen(3)} else {})
U{(if (let x1 = (9 % 2) in ((x1 * x1) = x1)) then {x0} else {}) | x0 in gen(3)} ~ M4 M2 ~ (let x0 = (9 % 2) in U{(if ((x0 * x0) = x0) then {x1} else {}) | x1 in gen(3)})
U{(if (let x1 = (9 % 2) in ((x1 * x1) = x1)) then {x0} else {}) | x0 in gen(3)} ~ M4 M2 M1 ~ (let x0 = (9 % 2) in (if ((x0 * x0) = x0) then U{{x1} | x1 in gen(3)} else {}))
((let x0 = 1 in (x0 + x0)) + (let x0 = 2 in (x0 * x0))) ~ M4 M4 ~ (let x0 = 1 in (let x1 = 2 in ((x0 + x0) + (x1 * x1))))
((let x0 = 1 in (x0 + x0)) + (let x0 = 2 in (x0 * x0))) ~ M4 M4 ~ (let x0 = 2 in (let x1 = 1 in ((x1 + x1) + (x0 * x0))))
(if (@1 = 0) then (let x0 = 3 in (x0 + x0)) else 0) ~ none ~ (if (@1 = 0) then (let x0 = 3 in (x0 + x0)) else 0)
((let x0 = 3 in (x0 + x0)) default 0) ~ none ~ ((let x0 = 3 in (x0 + x0)) default 0)
U{(if (U{{x1} | x1 in gen(100)} = {}) then {x0} else {}) | x0 in gen(@1)} ~ M1 ~ (if (U{{x0} | x0 in gen(100)} = {}) then U{{x0} | x0 in gen(@1)} else {})
"""

# Moves that must be refused, with a word of the reason.
WRONG = r"""
U{(if ((1 / @1) = 1) then {1} else {}) | x0 in gen(@1)} ~ M1 ~ (if ((1 / @1) = 1) then U{{1} | x0 in gen(@1)} else {}) ~ no chain
U{(if (1 = 2) then {1} else {}) | x0 in gen(@2)} ~ M1 ~ (if (1 = 2) then U{{1} | x0 in gen(@2)} else {}) ~ no chain
U{(if (x0 < 2) then {x0} else {}) | x0 in gen(3)} ~ M1 ~ (if (0 < 2) then U{{x0} | x0 in gen(3)} else {}) ~ no chain
S{(if (@1 < 4) then x0 else 1) | x0 in @3} ~ M1 ~ (if (@1 < 4) then S{x0 | x0 in @3} else 1) ~ no chain
S{(let x1 = (x0 + 1) in (x1 * x1)) | x0 in gen(3)} ~ M2 ~ (let x0 = (x0 + 1) in S{(x0 * x0) | x1 in gen(3)}) ~ read
S{(let x1 = (x0 + 1) in (x1 * x1)) | x0 in gen(3)} ~ M2 ~ (let x0 = (0 + 1) in S{(x0 * x0) | x1 in gen(3)}) ~ no chain
S{(let x1 = (1 / @1) in (x1 * x1)) | x0 in gen(@1)} ~ M2 ~ (let x0 = (1 / @1) in S{(x0 * x0) | x1 in gen(@1)}) ~ no chain
S{(let x1 = (7 * 8) in (x1 + (x0 * x1))) | x0 in gen(3)} ~ M2 ~ (let x0 = (7 * 8) in S{(x1 + (x0 * x1)) | x1 in gen(3)}) ~ no chain
S{(let x1 = (7 * 8) in (x1 + (x0 * x1))) | x0 in gen(3)} ~ M3 ~ (let x0 = (7 * 8) in S{(x0 + (x1 * x0)) | x1 in gen(3)}) ~ no chain
S{(let x1 = (7 * 8) in (x1 + (x0 * x1))) | x0 in gen(3)} ~ M2 ~ (let x0 = 56 in S{(x0 + (x1 * x0)) | x1 in gen(3)}) ~ weight
S{(let x1 = (7 * 8) in (x1 + (x0 * x1))) | x0 in gen(3)} ~ none ~ S{(let x1 = (7 * 8) in (x1 + (x0 * x1))) | x0 in gen(3)} ~ not still
[[(let x1 = x0 in (x1 + x1)) | x0<2]] ~ M3 ~ (let x0 = 2 in [[(x0 + x0) | x1<2]]) ~ no chain
((let x0 = (1 + 2) in (x0 * x0)) + 4) ~ none ~ ((let x0 = (1 + 2) in (x0 * x0)) + 4) ~ not still
(let x0 = (let x0 = 1 in (x0 + x0)) in (x0 + x0)) ~ M4 ~ (let x0 = 1 in (let x1 = (x0 + x0) in (x1 + x1))) ~ no chain
((let x0 = 3 in (x0 + x0)) default 0) ~ M4 ~ (let x0 = 3 in ((x0 + x0) default 0)) ~ no chain
(1 + 2) ~ M5 ~ (1 + 2) ~ unknown moves
"""


def self_test():
    bad = 0
    for wrong, table in ((False, WORKED), (True, WRONG)):
        for row in table.strip().split("\n"):
            fields = row.split(" ~ ")
            value, turns = Meaning(OUTCOMES).run(read(fields[0]), ())
            printed = {"plan": fields[0], "moves": fields[1], "moved": fields[2], "rules": "none"}
            printed.update({"val": shown_outcome(value), "turns": str(turns)})
            what = checked(read(fields[0]), OUTCOMES, printed, LARGE)
            if (fields[3] not in what if what else True) if wrong else what is not None:
                bad += 1
                print(row, what, sep="\n")
    bad += choices_are_wrong()
    random.seed(7)
    seen = some = 0
    for _ in range(300):
        script, starts, outcomes, _ = plans.random_script(COUNTS)
        for n, start in enumerate(starts, 1):
            before = {i: v for i, v in outcomes.items() if i < n}
            what, moved = own_moves(start, before)
            seen, some = seen + 1, some + moved
            if what is not None:
                bad += 1
                print(script, f"declaration {n}: {what}", sep="\n")
    print(f"{seen} plans with moves of its own accepted, {some} with a move; {bad} rows and plans are not as they should be")
    return bad > 0


def choices_are_wrong():
    """How many budgets choose another term than they should: of a query of 20 turns, a plan of 30 and a moved term of 10."""
    start, plan, moved = [node("gen", None, node("nat", n)) for n in (20, 30, 10)]
    wanted = {30: "plan", 29: "start", 20: "start", 19: "moved", 10: "moved", 9: None}
    found = {b: counted(start, plan, moved, {}, b) for b in wanted}
    return sum((found[b][2] if found[b] else None) != by for b, by in wanted.items())


def own_moves(start, outcomes):
    """What is wrong with the moves of the small mover on the plan of the small normaliser, and whether there are any."""
    plan, rules = Rewriting(outcomes).normalised(start)
    moved, names = Moving(outcomes).moved(plan)
    try:
        assert read(text(plan)) == plan and read(text(moved)) == moved, text(plan)
        value, turns = Meaning(outcomes).run(plan, ())
        printed = {"plan": text(plan), "rules": " ".join(rules) or "none", "turns": str(turns)}
        printed.update({"val": shown_outcome(value), "moved": text(moved), "moves": " ".join(names) or "none"})
        return checked(start, outcomes, printed, 10**9), bool(names)
    except (TooLarge, Unfinished):
        return None, False


if __name__ == "__main__":
    sys.exit(main())

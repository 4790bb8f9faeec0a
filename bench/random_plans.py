#!/usr/bin/env python3
"""Checks the plans that aql prints, on random scripts, by a table of the rewriting rules of its own.

    bench/random_plans.py [SEED [QUERIES]]
    bench/random_plans.py --self-test

Runs scripts of one to four queries with --plan; the later ones may use the earlier ones, also undefined
ones. Of each query it parses the text, translates it to a core term, and looks for a chain of steps with
the printed names, in that order, from this term to one that prints as the plan: the rule fits at a place,
what the rule wants defined has a value with each list of values with which an evaluation comes there, and
what a check of a comparison says is so there. It asks besides that the plan is normal, and that value and
turns are those of the plan where its turns are within the budget, else of the translated query, else that
the run ends for the budget.

Parser, translation and evaluation (core_terms.py) and the rules (plan_rules.py) are written from the
language and the table of rules, and share nothing with the program. It prints the first scripts that differ with what differs, and how many queries
it compared; its status is 1 where one differs. `--self-test` runs no program: it checks worked queries
with their plans, refuses wrong ones, and accepts the plans of a small normaliser on random scripts.
"""

import random
import subprocess
import sys

sys.dont_write_bytecode = True

import random_queries as queries
from core_terms import Meaning, outcomes_of, shown_outcome, terms, text
from plan_rules import Rewriting, Unfinished, checked
from random_queries import NAT, PROGRAM, Array, TooLarge, array_of, expression, shown

sys.setrecursionlimit(100000)


# Expressions beside those of random_queries.py, for the rules that few of them fit: a text and a meaning each.


def fresh():
    return f"w{next(queries.made_names)}"


def a_tested_index(t, names, depth):
    """A cell of a tabulation whose body tests the index."""
    name, n, bound, op = fresh(), random.randint(1, 4), random.randint(0, 5), random.choice(list(queries.COMPARISONS))
    inner = names + [(name, NAT)]
    a, yes = expression(t, inner, depth - 1)
    b, no = expression(t, inner, depth - 1)
    k, at = expression(NAT, names, depth - 2)

    def meaning(env):
        cells = []
        for i in range(n):
            holds = queries.COMPARISONS[op](i, bound)
            cells.append((yes if holds else no)({**env, name: i}))
        return queries.cell(Array([n], cells), at(env) % 5)

    return f"([[if {name}{op}{bound} then {a} else {b} | \\{name}<{n}]][({k})%5])", meaning


def a_measured_tabulation(t, names, depth):
    """A let of a tabulation whose dimension is asked for."""
    array, i, n, of = fresh(), fresh(), random.randint(0, 3), queries.some_type(1)
    b, body = expression(of, names + [(i, NAT)], depth - 1)
    inner = names + [(array, array_of(1, of))]
    k, limit = expression(NAT, inner, depth - 2)
    x, yes = expression(t, inner, depth - 1)
    y, no = expression(t, inner, depth - 1)

    def meaning(env):
        more = {**env, array: Array([n], [body({**env, i: j}) for j in range(n)])}
        return yes(more) if n < limit(more) else no(more)

    text = f"(let val \\{array} = [[{b} | \\{i}<{n}]] in if len!{array} < {k} then {x} else {y} end)"
    return text, meaning


def one_test_twice(t, names, depth):
    """A test within both branches of the same test."""
    a, left = expression(NAT, names, depth - 2)
    b, right = expression(NAT, names, depth - 2)
    op = random.choice(list(queries.COMPARISONS))
    (p, yes), (q, _), (r, _), (s, no) = [expression(t, names, depth - 1) for _ in range(4)]
    test = f"(({a}){op}({b}))"
    text = f"(if {test} then (if {test} then {p} else {q}) else (if {test} then {r} else {s}))"
    return text, lambda env: yes(env) if queries.COMPARISONS[op](left(env), right(env)) else no(env)


def a_set_with_repeats(t, names, depth):
    """A loop over the remainders of numbers: as many turns as there are numbers, if the sets are not made."""
    x, n, k = fresh(), random.randint(0, 6), random.randint(1, 3)
    h, head = expression(t[1], names + [(x, NAT)], depth - 1)
    text = "{" + f"{h} | \\{x} <- {{y%{k} | \\y <- gen!{n}}}" + "}"
    return text, lambda env: frozenset(head({**env, x: i}) for i in {j % k for j in range(n)})


def a_set_below(t, names, depth):
    """A loop over generated numbers that tests that they are below their bound."""
    x = fresh()
    e, limit = expression(NAT, names, depth - 2)
    h, head = expression(t[1], names + [(x, NAT)], depth - 1)
    bound = f"(({e})%4)"
    text = "{" + f"{h} | \\{x} <- gen!{bound}, {x}<{bound}" + "}"
    return text, lambda env: frozenset(head({**env, x: i}) for i in range(limit(env) % 4))


def an_array_again(t, names, depth):
    """The tabulation of all cells of an array."""
    a, array = expression(t, names, depth - 1)
    i, j = fresh(), fresh()
    if t[1] == 1:
        return f"[[({a})[{i}] | \\{i}<len!({a})]]", array
    bounds = f"\\{i}<fst!(dim_2!({a})), \\{j}<snd!(dim_2!({a}))"
    return f"[[({a})[{i},{j}] | {bounds}]]", array


def sometimes(first, second, chance):
    return lambda t, names, depth: (first if depth > 0 and random.random() < chance else second)(t, names, depth)


def make_more_forms():
    queries.ANY_TYPE.extend([a_tested_index, a_measured_tabulation, one_test_twice])
    for form, more, chance in (("set", a_set_with_repeats, 0.12), ("set", a_set_below, 0.1), ("array", an_array_again, 0.15)):
        queries.OF_TYPE[form] = sometimes(more, queries.OF_TYPE[form], chance)


# Runs of the program.


def lines_of(output):
    """For each declaration that printed all its lines, the texts of these lines by their words."""
    found, current = [], {}
    for line in output.splitlines():
        word, _, rest = line.partition(" ")
        if word == "typ":
            current = {}
        if word in ("val", "plan", "rules", "turns"):
            current[word] = rest.partition(" = ")[2]
        if word == "turns":
            found.append(current)
    return found


class Count:
    def __init__(self):
        self.compared = self.spent = self.large = self.unfinished = self.by_start = self.different = 0

    def differs(self, script, words, what, output):
        self.different += 1
        if self.different <= 5:
            print(script, " ".join(words[1:]), output, what, "", sep="\n")


def compare(count, script, starts, outcomes, turns, words, budget):
    """Runs a script, checks each query, and gives the turns of the last plan where it ran."""
    done = subprocess.run(words, input=script, capture_output=True, text=True)
    printed = lines_of(done.stdout)
    for n, lines in enumerate(printed, 1):
        before = {i: v for i, v in outcomes.items() if i < n}
        try:
            what = checked(starts[n - 1], before, lines, budget)
        except TooLarge:
            count.large += 1
            continue
        except Unfinished:
            count.unfinished += 1
            continue
        count.compared += 1
        if what is not None:
            return count.differs(script, words, f"declaration {n}: {what}", done.stdout)
    ended = done.returncode == 12 and done.stdout.endswith(f"fault budget in declaration {len(printed) + 1}\n")
    if ended and len(printed) < len(starts) and turns[len(printed)] > budget:
        count.spent += 1
    elif done.returncode != 0 or len(printed) != len(starts):
        return count.differs(script, words, f"status {done.returncode}", done.stdout)
    return int(printed[-1]["turns"]) if printed and len(printed) == len(starts) else None


def random_script(counts=(1, 1, 1, 2, 3, 4)):
    """A script with its translated queries, their outcomes and their turns."""
    while True:
        try:
            lines, wanted = queries.script(random.choice(counts))
            script = "\n".join(lines)
            starts = terms(script)
            outcomes, turns = outcomes_of(starts)
        except TooLarge:
            continue
        mine = ["undefined" if n not in outcomes else shown(outcomes[n]) for n in range(1, len(lines) + 1)]
        assert [line.partition(" = ")[2] for line in wanted] == mine, script
        return script, starts, outcomes, turns


def main():
    make_more_forms()
    if sys.argv[1:2] == ["--self-test"]:
        return self_test()
    random.seed(int(sys.argv[1]) if len(sys.argv) > 1 else 1)
    wanted = int(sys.argv[2]) if len(sys.argv) > 2 else 20000
    count, queries_run = Count(), 0
    while queries_run < wanted:
        script, starts, outcomes, turns = random_script()
        queries_run += len(starts)
        budget = 10000000 if random.random() < 0.7 else random.randint(1, 2 * turns[-1] + 2)
        words = [str(PROGRAM), "--plan", "--workers", random.choice(["1", "3", "8"]), "--budget"]
        by_plan = compare(count, script, starts, outcomes, turns, words + [str(budget)], budget)
        if by_plan is not None and by_plan > turns[-1] >= max(turns):
            # The plan takes more turns than the query: within such a budget the query runs as it is written.
            budget = random.randint(turns[-1], by_plan - 1) or 1
            count.by_start += 1
            compare(count, script, starts, outcomes, turns, words + [str(budget)], budget)
    print(f"{count.compared} plans compared, of {count.by_start} the query itself ran within a smaller budget")
    print(f"{count.spent} scripts passed the budget, {count.large} queries were too large and {count.unfinished} chains too long")
    print(f"{count.different} differ")
    return count.different > 0


# Worked queries.

WORKED = r"""
len!([[10/i | \i<3]]);                                            ~ undefined ~ dim_1([[(10 / x0) | x0<3]]) ~ none ~ 3
[[(i,i) | \i<10]][3];                                             ~ (3, 3) ~ (3, 3) ~ A1 L1 K1 I1 ~ 0
summap(fn \x => x)!({y | \y <- gen!3});                           ~ 3 ~ S{x0 | x0 in gen(3)} ~ L1 S6 L1 ~ 6
len!([[i | \i<1000000000000]]);                                   ~ 1000000000000 ~ 1000000000000 ~ A3 ~ 0
summap(fn \x => [[j | \j<1000000000000]][x])!(gen!3);             ~ 3 ~ S{x0 | x0 in gen(3)} ~ L1 A1 L1 C4 I1 ~ 6
len!([[i*i | \i<18446744073709551616]]);                          ~ 18446744073709551616 ~ 18446744073709551616 ~ A3 ~ 0
[[10/i default 0 | \i<3]];                                        ~ [[3; 0, 10, 5]] ~ [[((10 / x0) default 0) | x0<3]] ~ none ~ 3
len!([[10/i | \i<3]]) default 0;                                  ~ 0 ~ (dim_1([[(10 / x0) | x0<3]]) default 0) ~ none ~ 3
1 default 1/0;                                                    ~ 1 ~ 1 ~ N2 ~ 0
let val \x = 1/0 in x default 3 end;                              ~ undefined ~ undefined ~ L2 K1 B1 ~ 0
{x | \x <- gen!30, \y <- gen!40, x < 5};                          ~ {0, 1, 2, 3, 4} ~ U{U{(if (x0 < 5) then {x0} else {}) | x1 in gen(40)} | x0 in gen(30)} ~ L1 L1 ~ 2460
val \n = 0; {1 | \y <- gen!n, 1/n = 1};                           ~ {} ~ U{(if ((1 / @1) = 1) then {1} else {}) | x0 in gen(@1)} ~ L1 ~ 0
summap(fn \x => 1)!({y%2 | \y <- gen!10});                        ~ 2 ~ S{1 | x0 in U{{(x0 % 2)} | x0 in gen(10)}} ~ L1 L1 ~ 22
(3,3);                                                            ~ (3, 3) ~ (3, 3) ~ none ~ 0
val \u = 1/0; let val \x = u in x+x end;                          ~ undefined ~ (let x0 = @1 in (x0 + x0)) ~ L2 ~ 0
val \u = 7; let val \x = u in x+x end;                            ~ 14 ~ (@1 + @1) ~ L1 L1 ~ 0
fst!(3,gen!2);                                                    ~ 3 ~ 3 ~ L2 L2 L3 L2 P1 ~ 0
fst!(3,1/0);                                                      ~ undefined ~ undefined ~ K1 B1 B1 ~ 0
let val \a = [[i | \i<5]] in len!a + a[2] end;                    ~ 7 ~ 7 ~ L2 A4 L2 A1 L1 K1 I1 K1 ~ 0
val \a = [[1; 5]]; [[a[i] | \i<len!a]];                           ~ [[1; 5]] ~ @1 ~ A2 ~ 0
"""

# Plans that must be refused, with a word of the reason.
WRONG = r"""
len!([[10/i | \i<3]]);                                            ~ undefined ~ 3 ~ A3 ~ 0 ~ no chain
let val _ = 1/0 in 4 end;                                         ~ 4 ~ 4 ~ L3 ~ 0 ~ no chain
summap(fn \x => 1)!({y%2 | \y <- gen!10});                        ~ 10 ~ S{1 | x0 in gen(10)} ~ L1 L1 S3 ~ 20 ~ no chain
[[(i,i) | \i<10]][3];                                             ~ (3, 3) ~ sub([[(x0, x0) | x0<10]]; 3) ~ none ~ 10 ~ not normal
len!([[i*i | \i<18446744073709551616]]);                          ~ 18446744073709551616 ~ dim_1([[(x0 * x0) | x0<18446744073709551616]]) ~ none ~ 0 ~ not normal
let val \x = 1/0 in x default 3 end;                              ~ 3 ~ 3 ~ L2 L2 K1 N1 ~ 0 ~ no chain
{x | \x <- gen!3};                                                ~ {0, 1, 2} ~ gen(3) ~ L1 S6 ~ 2 ~ turns are 3
{x | \x <- gen!3};                                                ~ {0, 1} ~ gen(3) ~ L1 S6 ~ 3 ~ value is
[[if i<9 then 1 else 2 | \i<10]];                                 ~ [[10; 1, 1, 1, 1, 1, 1, 1, 1, 1, 1]] ~ [[1 | x0<10]] ~ C4 I1 ~ 10 ~ no chain
[[if i<10 then 1 else 2 | \i<10]];                                ~ [[10; 1, 1, 1, 1, 1, 1, 1, 1, 1, 1]] ~ [[1 | x0<10]] ~ C2 I1 ~ 10 ~ no chain
{(x,y) | \y <- gen!2, \x <- {y | \y <- gen!3}};                   ~ {} ~ U{U{{(x0, x1)} | x1 in gen(3)} | x0 in gen(2)} ~ L1 S6 L1 ~ 0 ~ no chain
"""


def self_test():
    bad = 0
    for wrong, table in ((False, WORKED), (True, WRONG)):
        for row in table.strip().split("\n"):
            fields = [field.strip() for field in row.split(" ~ ")]
            starts = terms(fields[0])
            outcomes, _ = outcomes_of(starts[:-1])
            printed = dict(zip(("val", "plan", "rules", "turns"), fields[1:5]))
            what = checked(starts[-1], outcomes, printed, 10000000)
            if (fields[5] not in what if what else True) if wrong else what is not None:
                bad += 1
                print(fields[0], what, sep="\n")
    random.seed(7)
    plans = 0
    for _ in range(1500):
        script, starts, outcomes, _ = random_script()
        for n, start in enumerate(starts, 1):
            before = {i: v for i, v in outcomes.items() if i < n}
            what = own_plan(start, before)
            plans += 1
            if what is not None:
                bad += 1
                print(script, f"declaration {n}: {what}", sep="\n")
    print(f"{plans} plans of its own accepted; {bad} rows and plans are not as they should be")
    return bad > 0


def own_plan(start, outcomes):
    """What is wrong with the plan of the small normaliser, None where nothing is."""
    plan, names = Rewriting(outcomes).normalised(start)
    try:
        value, turns = Meaning(outcomes).run(plan, ())
        wanted = shown_outcome(value)
        rules = " ".join(names) or "none"
        printed = {"val": wanted, "plan": text(plan), "rules": rules, "turns": str(turns)}
        return checked(start, outcomes, printed, 10**9)
    except (TooLarge, Unfinished):
        return None


if __name__ == "__main__":
    sys.exit(main())

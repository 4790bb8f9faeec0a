"""The rules of the rewriting, the steps of core terms, and which terms are normal.

For bench/random_plans.py and bench/random_motion.py. The rules are written from the table of rules, and share nothing with the
program.
"""

import random_queries as queries
from core_terms import BOTTOM, EMPTY, NO, UNDEFINED, YES, ZERO, Meaning, arithmetic, binders, is_strict
from core_terms import lowered, node, put_in, shifted, shown_outcome, text, uses
from random_queries import GREATEST, TooLarge, key


# Places: the facts there, spans, and terms that are firm.


class Place:
    """A place of a term, with its way, the number of its variables and its facts: a comparison, what is known of it, and
    the number of variables where it is written."""

    def __init__(self, term, path=(), depth=0, facts=()):
        self.term, self.path, self.depth, self.facts = term, path, depth, facts

    def part(self, i):
        t, deeper = self.term, self.depth + binders(self.term, i)
        more = [(comparison, known, deeper) for comparison, known in facts_in(t, i)]
        return Place(t[2][i], self.path + (i,), deeper, self.facts + tuple(more))

    def at(self, way):
        place = self
        for i in way:
            place = place.part(i)
        return place

    def known(self):
        """All that is literally known of the term."""
        return {known for fact, known, depth in self.facts if shifted(fact, self.depth - depth) == self.term}


def facts_in(t, i):
    form, _, parts = t
    if form == "tab" and i == len(parts) - 1:
        k = len(parts) - 1
        return [(node("compare", "<", node("var", k - 1 - j), shifted(parts[j], k)), "C1") for j in range(k)]
    if form in ("bigunion", "sum") and i == 1 and parts[0][0] == "gen":
        return [(node("compare", "<", node("var", 0), shifted(parts[0][2][0], 1)), "C1")]
    if form == "if" and i > 0 and parts[0][0] == "compare":
        return [(parts[0], "C2" if i == 1 else "C3")]
    return []


def places(place):
    """All places from this one on, in pre-order."""
    yield place
    for i in range(len(place.term[2])):
        yield from places(place.part(i))


def span(place):
    """The least and the greatest number that the term may be, where that is told."""
    form, data, parts = place.term
    if form == "nat":
        return (data, data)
    if form == "var":
        for fact, known, depth in place.facts:
            left, right = fact[2]
            if known == "C1" and right[0] == "nat" and left[1] + place.depth - depth == data:
                return (0, max(0, right[1] - 1))
    if form != "arith":
        return None
    a, number = span(place.part(0)), parts[1][1] if parts[1][0] == "nat" else None
    if data in "+*":
        b = span(place.part(1))
        if a is None or b is None:
            return None
        low, high = (a[0] + b[0], a[1] + b[1]) if data == "+" else (a[0] * b[0], a[1] * b[1])
        return (low, high) if high <= GREATEST else None
    if data == "%":
        return (0, number - 1) if number else None
    return (0, a[1]) if a is not None and (data == "-" or number) else None


FIRM_FORMS = set("tuple proj compare if let single union gen dim bigunion tab var nat bool text empty".split())


def is_firm(place, outcomes):
    form, data, parts = place.term
    inner = (is_firm(place.part(i), outcomes) for i in range(len(parts)))
    if form == "global":
        return outcomes.get(data, UNDEFINED) is not UNDEFINED
    if form == "default":
        return any(inner)
    if form == "arith":
        if data in "+*":
            return span(place) is not None and all(inner)
        if data in "/%":
            return parts[1][0] == "nat" and parts[1][1] != 0 and all(inner)
        return all(inner)
    return form in FIRM_FORMS and all(inner)


# The rules: of a term that is a left side, the right side and the ways to what must have a value.

ATOMS = {"var", "nat", "bool", "text", "empty", "global"}


def sizes(terms):
    return terms[0] if len(terms) == 1 else node("tuple", None, *terms)


def literal_of(t):
    """Dimensions and cells of a literal whose dimensions are numbers with the number of its cells as product."""
    if t[0] != "literal" or any(p[0] != "nat" for p in t[2][: t[1]]):
        return None
    dims, cells = [p[1] for p in t[2][: t[1]]], t[2][t[1] :]
    count = 0 if 0 in dims else 1
    for n in dims:
        count *= n
    return (dims, cells) if count == len(cells) else None


def rule_b1(t):
    if any(p == BOTTOM and is_strict(t, i) for i, p in enumerate(t[2])):
        return BOTTOM, []


def rule_k1(t):
    form, data, parts = t
    kinds = [p[0] for p in parts]
    if form == "arith" and kinds == ["nat", "nat"]:
        n = arithmetic(data, parts[0][1], parts[1][1])
        return (BOTTOM if n is UNDEFINED else node("nat", n)), []
    if form == "compare" and kinds in (["nat"] * 2, ["bool"] * 2, ["text"] * 2):
        return node("bool", queries.COMPARISONS[data](key(parts[0][1]), key(parts[1][1]))), []
    if form == "gen" and parts[0] == ZERO:
        return EMPTY, []
    if form == "get" and parts[0] == EMPTY:
        return BOTTOM, []
    if form == "literal" and all(kind == "nat" for kind in kinds[:data]) and literal_of(t) is None:
        return BOTTOM, []


def rule_i1(t):
    if t[0] == "if" and t[2][0][0] == "bool":
        return (t[2][1] if t[2][0][1] else t[2][2]), []


def rule_i2(t):
    if t[0] in ("bigunion", "sum") and t[2][0][0] == "if" and t[2][0][2][2] == EMPTY:
        test, members, _ = t[2][0][2]
        return node("if", None, test, node(t[0], None, members, t[2][1]), EMPTY if t[0] == "bigunion" else ZERO), []


def rule_l1(t):
    if t[0] == "let" and t[2][0][0] in ATOMS:
        return put_in(t[2][1], t[2][0]), [(0,)] if t[2][0][0] == "global" else []


def rule_l2(t):
    if t[0] == "let" and uses(t[2][1], 0) == 1 and uses(t[2][1], 0, True) == 1:
        return put_in(t[2][1], t[2][0]), []


def rule_l3(t):
    if t[0] == "let" and uses(t[2][1], 0) == 0:
        return lowered(t[2][1], 0), [(0,)]


def rule_p1(t):
    if t[0] == "proj" and t[2][0][0] == "tuple" and len(t[2][0][2]) == t[1][1] and 1 <= t[1][0] <= t[1][1]:
        of = t[2][0][2]
        return of[t[1][0] - 1], [(0, i) for i in range(len(of)) if i != t[1][0] - 1]


def rule_p2(t):
    if t[0] == "proj" and t[2][0][0] == "let":
        bound, body = t[2][0][2]
        return node("let", None, bound, node("proj", t[1], body)), []


def loop_over(form, over):
    """A rule of loops of this form over such an operand."""

    def asked(right):
        def rule(t):
            return (right(t), []) if t[0] == form and t[2][0][0] == over else None

        return rule

    return asked


def under_let(t):
    return node("let", None, t[2][0][2][0], t[2][1])


def rule_s3(t):
    if t[0] == "bigunion" and t[2][0][0] == "bigunion":
        first, inner = t[2][0][2]
        return node("bigunion", None, first, node("bigunion", None, inner, shifted(t[2][1], 1, 1))), []


def rule_s6(t):
    if t[0] == "bigunion" and t[2][1] == node("single", None, node("var", 0)):
        return t[2][0], []


def rule_s7(t):
    if t[0] == "union" and EMPTY in t[2]:
        return (t[2][0] if t[2][1] == EMPTY else t[2][1]), []


def rule_s8(t):
    if t[0] == "get" and t[2][0][0] == "single":
        return t[2][0][2][0], []


def rule_s9(t):
    if t[0] in ("bigunion", "sum") and t[2][0][0] == "let":
        bound, members = t[2][0][2]
        return node("let", None, bound, node(t[0], None, members, shifted(t[2][1], 1, 1))), []


def rule_a1(t):
    if t[0] != "sub" or t[2][0][0] != "tab" or len(t[2][0][2]) != len(t[2]):
        return None
    k, at = len(t[2]) - 1, t[2][1:]
    bounds, right = t[2][0][2][:-1], t[2][0][2][-1]
    for j in reversed(range(k)):
        test = node("compare", "<", node("var", k - 1 - j), shifted(bounds[j], k))
        right = node("if", None, test, right, BOTTOM)
    for j in reversed(range(k)):
        right = node("let", None, shifted(at[j], j), right)
    return right, [(0, k)]


def rule_a2(t):
    if t[0] != "tab" or t[2][-1][0] != "sub" or len(t[2][-1][2]) != len(t[2]):
        return None
    k, (inner, *at) = len(t[2]) - 1, t[2][-1][2]
    whole = t[2][0] if k == 1 else (t[2][0][2][0] if t[2][0][0] == "proj" else BOTTOM)
    if whole[0] != "dim" or whole[1] != k or inner != shifted(whole[2][0], k):
        return None
    wanted = [whole] if k == 1 else [node("proj", (j + 1, k), whole) for j in range(k)]
    if list(t[2][:-1]) == wanted and at == [node("var", k - 1 - j) for j in range(k)]:
        return whole[2][0], []


def rule_a3(t):
    if t[0] == "dim" and t[2][0][0] == "tab" and t[1] == len(t[2][0][2]) - 1:
        return sizes(t[2][0][2][:-1]), [(0, t[1])]


def rule_a4(t):
    if t[0] != "let" or t[2][0][0] != "tab" or any(p[0] not in ("var", "nat") for p in t[2][0][2][:-1]):
        return None
    size = shifted(sizes(t[2][0][2][:-1]), 1)

    def replaced(u, depth):
        if u[0] == "dim" and u[2][0] == node("var", depth):
            return shifted(size, depth)
        return (u[0], u[1], tuple(replaced(p, depth + binders(u, i)) for i, p in enumerate(u[2])))

    body = replaced(t[2][1], 0)
    return None if body == t[2][1] else (node("let", None, t[2][0], body), [])


def rule_a5(t):
    if t[0] != "sub" or any(p[0] != "nat" for p in t[2][1:]) or literal_of(t[2][0]) is None:
        return None
    dims, cells = literal_of(t[2][0])
    at = [p[1] for p in t[2][1:]]
    if len(at) != len(dims):
        return None
    if any(i >= n for i, n in zip(at, dims)):
        return BOTTOM, []
    place = 0
    for i, n in zip(at, dims):
        place = place * n + i
    return cells[place], [(0, len(dims) + i) for i in range(len(cells)) if i != place]


def rule_a6(t):
    if t[0] == "dim" and literal_of(t[2][0]) is not None and t[1] == t[2][0][1]:
        whole = t[2][0]
        return sizes(whole[2][: whole[1]]), [(0, i) for i in range(whole[1], len(whole[2]))]


def rule_a7(t):
    if t[0] in ("sub", "dim") and t[2][0][0] == "let":
        bound, body = t[2][0][2]
        return node("let", None, bound, node(t[0], t[1], body, *[shifted(p, 1) for p in t[2][1:]])), []


def rule_n1(t):
    if t[0] == "default" and t[2][0] == BOTTOM:
        return t[2][1], []


def rule_n2(t):
    if t[0] == "default":
        return t[2][0], [(0,)]


RULES = {
    "B1": rule_b1,
    "K1": rule_k1,
    "I1": rule_i1,
    "I2": rule_i2,
    "L1": rule_l1,
    "L2": rule_l2,
    "L3": rule_l3,
    "P1": rule_p1,
    "P2": rule_p2,
    "S1": loop_over("bigunion", "empty")(lambda t: EMPTY),
    "S2": loop_over("bigunion", "single")(under_let),
    "S3": rule_s3,
    "S4": loop_over("sum", "empty")(lambda t: ZERO),
    "S5": loop_over("sum", "single")(under_let),
    "S6": rule_s6,
    "S7": rule_s7,
    "S8": rule_s8,
    "S9": rule_s9,
    "A1": rule_a1,
    "A2": rule_a2,
    "A3": rule_a3,
    "A4": rule_a4,
    "A5": rule_a5,
    "A6": rule_a6,
    "A7": rule_a7,
    "N1": rule_n1,
    "N2": rule_n2,
}
KNOWN = {"C1": YES, "C2": YES, "C3": NO}


def holds_apart(op, a, b):
    """The truth value of a comparison whose sides have such spans, where one lies wholly below the other."""
    if a is None or b is None or not (a[1] < b[0] or b[1] < a[0]):
        return None
    return queries.COMPARISONS[op](a[0], b[0])


def decided(place, outcomes):
    """The truth value of a comparison with firm sides whose spans lie apart."""
    if place.term[0] != "compare":
        return None
    sides = [place.part(0), place.part(1)]
    truth = holds_apart(place.term[1], span(sides[0]), span(sides[1]))
    return truth if truth is not None and all(is_firm(side, outcomes) for side in sides) else None


def put_at(t, path, right):
    if not path:
        return right
    i, parts = path[0], list(t[2])
    parts[i] = put_at(parts[i], path[1:], right)
    return (t[0], t[1], tuple(parts))


class Rewriting:
    """The steps of terms over the outcomes of the positions."""

    def __init__(self, outcomes):
        self.outcomes = outcomes

    def is_defined(self, whole, path, t):
        """Whether the part has a value with each list of values with which an evaluation comes there."""
        meaning = Meaning(self.outcomes)
        return all(meaning.value(t, env) is not UNDEFINED for env in meaning.reach(whole, path))

    def firm_steps(self, whole, rule):
        """The places where the rule may be applied since what it wants is firm, and its right sides. By evaluation it
        must hold too, where that is not too large."""
        for place in places(Place(whole)):
            for right, seen in self.rights(place, rule):
                if seen and self.holds_or_is_large(whole, place, rule, right):
                    yield place.path, right

    def rights(self, place, rule):
        """The right sides of a place, and whether the condition is seen to hold."""
        t = place.term
        if rule in KNOWN:
            if t[0] == "compare" and rule in place.known():
                yield KNOWN[rule], True
        elif rule == "C4":
            truth = decided(place, self.outcomes)
            if truth is not None:
                yield node("bool", truth), True
            elif t[0] == "compare":
                yield YES, False
                yield NO, False
        else:
            found = RULES[rule](t)
            if found is not None:
                yield found[0], all(is_firm(place.at(way), self.outcomes) for way in found[1])

    def other_steps(self, whole, rule):
        """Those where the condition is not seen to hold, and holds by evaluation."""
        for place in places(Place(whole)):
            for right, seen in self.rights(place, rule):
                if not seen and self.holds(whole, place, rule, right):
                    yield place.path, right

    def holds_or_is_large(self, whole, place, rule, right):
        try:
            return self.holds(whole, place, rule, right)
        except TooLarge:
            return True

    def holds(self, whole, place, rule, right):
        """Whether the rule's condition holds at each list of values with which an evaluation comes to the place."""
        if rule in KNOWN or rule == "C4":
            meaning = Meaning(self.outcomes)
            return all(meaning.value(place.term, env) == right[1] for env in meaning.reach(whole, place.path))
        ways = RULES[rule](place.term)[1]
        return all(self.is_defined(whole, place.path + way, place.at(way).term) for way in ways)

    def not_normal(self, whole):
        """Why the term is not normal, or None."""
        for place in places(Place(whole)):
            if place.term[0] == "compare" and place.known():
                return f"{text(place.term, place.depth)} is known"
            if decided(place, self.outcomes) is not None:
                return f"{text(place.term, place.depth)} is decided"
            for name, rule in RULES.items():
                found = rule(place.term)
                if found is not None and all(is_firm(place.at(way), self.outcomes) for way in found[1]):
                    return f"{name} fits {text(place.term, place.depth)}"
        return None

    def normalised(self, whole):
        """A plan by the first place at which a rule may be applied since what it wants is firm."""
        names = []
        while True:
            found = self.first(whole)
            if found is None:
                return whole, names
            whole = put_at(whole, found[1], found[2])
            names.append(found[0])

    def first(self, whole):
        before = [name for name in RULES if name not in ("N1", "N2")]
        for place in places(Place(whole)):
            for name in before + ["C1", "C2", "C3", "C4", "N1", "N2"]:
                for right, seen in self.rights(place, name):
                    if seen:
                        return name, place.path, right
        return None


class Unfinished(Exception):
    """More chains were tried than a comparison is worth."""


MOST_TRIED = 3000


def led_to(rewriting, start, names, plan):
    """A term that prints as the plan, at the end of a chain of steps with these names; None where there is none."""
    failed, tried = set(), [0]

    def follow(t, i):
        if i == len(names):
            return t if text(t) == plan else None
        if (i, t) in failed:
            return None
        tried[0] += 1
        if tried[0] > MOST_TRIED:
            raise Unfinished
        for steps in (rewriting.firm_steps, rewriting.other_steps):
            for path, right in steps(t, names[i]):
                found = follow(put_at(t, path, right), i + 1)
                if found is not None:
                    return found
        failed.add((i, t))
        return None

    return follow(start, 0)


# A query with what was printed.


def is_worth(term, outcomes, value):
    """Whether the term has this value, or is too large to be evaluated."""
    try:
        return shown_outcome(Meaning(outcomes).value(term, ())) == shown_outcome(value)
    except TooLarge:
        return True


def checked(start, outcomes, printed, budget):
    """What differs in the lines of one query, a dictionary from their words to their texts; None where nothing does."""
    rewriting = Rewriting(outcomes)
    names = [] if printed["rules"] == "none" else printed["rules"].split(" ")
    if any(name not in RULES and name not in ("C1", "C2", "C3", "C4") for name in names):
        return f"unknown rules {printed['rules']}"
    plan = led_to(rewriting, start, names, printed["plan"])
    if plan is None:
        return f"no chain of steps {printed['rules']} leads from {text(start)} to {printed['plan']}"
    reason = rewriting.not_normal(plan)
    if reason is not None:
        return f"the plan is not normal: {reason}"
    value, turns = Meaning(outcomes).run(plan, ())
    if not is_worth(start, outcomes, value):
        return "the plan has another value than the query"
    if turns > budget:
        turns = Meaning(outcomes).run(start, ())[1]
        if turns > budget:
            return "the turns of both terms pass the budget, and there is an answer"
    if printed["val"] != shown_outcome(value):
        return f"the value is {shown_outcome(value)}"
    if printed["turns"] != str(turns):
        return f"the turns are {turns}"
    return None

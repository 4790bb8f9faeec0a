"""Scripts of the language as trees, their core terms, and what these are worth.

For bench/random_plans.py, random_motion.py and random_graph.py. Parser, translation and evaluation are written from the language, and share
nothing with the program.
"""

import itertools
import re

import random_queries as queries
from random_queries import GREATEST, Array, TooLarge, key, shown


# Lexis and grammar.

PRELUDE = r"""
macro \fst = fn (\x,_) => x;
macro \snd = fn (_,\y) => y;
macro \isempty = fn \s => s = {};
macro \member = fn (\x,\s) => not ({1 | x <- s} = {});
macro \count = fn \s => summap(fn _ => 1)!(s);
macro \total = fn \s => summap(fn \x => x)!(s);
macro \inter = fn (\s,\t) => {x | \x <- s, x <- t};
macro \minus = fn (\s,\t) => {x | \x <- s, not (member!(x,t))};
macro \subset = fn (\s,\t) => minus!(s,t) = {};
macro \product = fn (\s,\t) => {(x,y) | \x <- s, \y <- t};
macro \flatten = fn \s => {x | \t <- s, \x <- t};
macro \least = fn \s => get!({x | \x <- s, {1 | \y <- s, y < x} = {}});
macro \greatest = fn \s => get!({x | \x <- s, {1 | \y <- s, y > x} = {}});
macro \min2 = fn (\a,\b) => if a < b then a else b;
macro \max2 = fn (\a,\b) => if a < b then b else a;
macro \range = fn (\a,\b) => {a+i | \i <- gen!(b-a)};
macro \domain = fn \a => gen!(len!a);
macro \cells = fn \a => {x | [_:\x] <- a};
macro \graph = fn \a => {(i,x) | [\i:\x] <- a};
macro \reverse = fn \a => [[a[len!a-i-1] | \i<len!a]];
macro \subseq = fn (\a,\s,\n) => [[a[s+i] | \i<n]];
macro \append = fn (\a,\b) => [[if i < len!a then a[i] else b[i-len!a] | \i<len!a+len!b]];
macro \transpose = fn \a => [[a[j,i] | \i<snd!(dim_2!a), \j<fst!(dim_2!a)]];
macro \zip = fn (\a,\b) => [[(a[i],b[i]) | \i<min2!(len!a,len!b)]];
"""

RESERVED = set("val macro readval using at fn let in end if then else true false and or not union gen get len".split())
RESERVED |= {"summap", "default"} | {f"{word}_{k}" for word in ("dim", "index") for k in range(1, 9)}
COMPARISONS = {"=", "<>", "<", "<=", ">", ">="}
TOKEN = re.compile(
    r"""(?P<blank>[ \t\r\n]+|\(\*.*?\*\))|(?P<name>[A-Za-z][A-Za-z0-9_']*)|(?P<number>[0-9]+)"""
    r"""|(?P<text>"(?:[^"\\]|\\["\\]|\\x[0-9a-fA-F]{2})*")|(?P<sign>==|=>|<-|<=|>=|<>|[(){}\[\],;:|!\\_=<>+*/%-])""",
    re.DOTALL,
)


def tokens(script):
    found, at = [], 0
    while at < len(script):
        match = TOKEN.match(script, at)
        if match is None:
            raise ValueError(f"no token at {at}")
        at, kind = match.end(), match.lastgroup
        if kind == "name" and match.group() in RESERVED:
            kind = "word"
        if kind != "blank":
            found.append((kind, match.group()))
    return found + [("end", "")]


def string_of(token):
    def byte(match):
        return match[1] if match[1] in '"\\' else chr(int(match[1][1:], 16))

    return re.sub(r"\\(x..|.)", byte, token[1:-1])


class Parser:
    """By descent, one method a level of the grammar. A tree is a tuple, its form's name first."""

    def __init__(self, script):
        self.tokens, self.at = tokens(script), 0

    def peek(self, further=0):
        return self.tokens[min(self.at + further, len(self.tokens) - 1)]

    def sees(self, *texts):
        return all(self.peek(i)[0] in ("word", "sign") and self.peek(i)[1] == text for i, text in enumerate(texts))

    def take(self):
        self.at += 1
        return self.tokens[self.at - 1]

    def want(self, *texts):
        for text in texts:
            if not self.sees(text):
                raise ValueError(f"{text} is wanted before {self.tokens[self.at :][:5]}")
            self.at += 1

    def took(self, text):
        if self.sees(text):
            self.at += 1
            return True
        return False

    def name(self):
        kind, text = self.take()
        if kind != "name":
            raise ValueError(f"a name is wanted before {text}")
        return text

    def script(self):
        found = []
        while self.peek()[0] != "end":
            found.append(self.declaration())
            self.want(";")
        return found

    def declaration(self):
        if self.took("val"):
            self.want("\\")
            name = self.name()
            self.want("=")
            return ("val", name, self.expr())
        if self.took("macro"):
            self.want("\\")
            name = self.name()
            self.want("=", "fn")
            pattern = self.pattern()
            self.want("=>")
            return ("macro", name, pattern, self.expr())
        return ("val", "it", self.expr())

    def expr(self):
        if self.took("if"):
            test = self.expr()
            self.want("then")
            yes = self.expr()
            self.want("else")
            return ("if", test, yes, self.expr())
        first = self.disjunction()
        return ("default", first, self.expr()) if self.took("default") else first

    def chain(self, part, signs):
        left = part()
        while any(self.sees(sign) for sign in signs):
            sign = self.take()[1]
            left = (signs[sign], sign, left, part())
        return left

    def disjunction(self):
        return self.chain(self.conjunction, {"or": "or"})

    def conjunction(self):
        return self.chain(self.negation, {"and": "and"})

    def negation(self):
        return ("not", self.negation()) if self.took("not") else self.comparison()

    def comparison(self):
        left = self.unions()
        if self.peek()[0] == "sign" and self.peek()[1] in COMPARISONS:
            return ("compare", self.take()[1], left, self.unions())
        return left

    def unions(self):
        return self.chain(self.sums, {"union": "union"})

    def sums(self):
        return self.chain(self.products, {"+": "arith", "-": "arith"})

    def products(self):
        return self.chain(self.application, {"*": "arith", "/": "arith", "%": "arith"})

    def function(self):
        self.want("fn")
        pattern = self.pattern()
        self.want("=>")
        body = self.expr()
        self.want(")")
        return pattern, body

    def application(self):
        kind, text = self.peek()
        if kind == "name" and self.peek(1) == ("sign", "!"):
            self.at += 2
            return ("apply", text, self.application())
        if kind == "word" and (text in ("gen", "get", "len") or text[:4] in ("dim_", "inde")):
            self.at += 1
            self.want("!")
            return ("word", text, self.application())
        if self.took("summap"):
            self.want("(")
            pattern, body = self.function()
            self.want("!")
            return ("summap", pattern, body, self.application())
        if self.sees("(", "fn"):
            self.want("(")
            pattern, body = self.function()
            self.want("!")
            return ("fun", pattern, body, self.application())
        return self.subscripted()

    def subscripted(self):
        array = self.primary()
        while self.took("["):
            at = self.listed(self.expr)
            self.want("]")
            array = ("sub", array, at)
        return array

    def listed(self, part):
        parts = [part()]
        while self.took(","):
            parts.append(part())
        return parts

    def primary(self):
        if self.sees("(") or self.sees("{") or self.sees("[", "["):
            return self.bracketed()
        if self.took("let"):
            binds = []
            while self.took("val"):
                pattern = self.pattern()
                self.want("=")
                binds.append((pattern, self.expr()))
            self.want("in")
            body = self.expr()
            self.want("end")
            return ("let", binds, body)
        return self.constant_or_name()

    def constant_or_name(self):
        kind, text = self.take()
        if kind == "number":
            return ("nat", int(text))
        if kind == "text":
            return ("text", string_of(text))
        if text in ("true", "false") and kind == "word":
            return ("bool", text == "true")
        if kind == "name":
            return ("name", text)
        raise ValueError(f"no expression begins with {text}")

    def bracketed(self):
        if self.took("("):
            parts = self.listed(self.expr)
            self.want(")")
            return parts[0] if len(parts) == 1 else ("tuple", parts)
        if self.took("{"):
            if self.took("}"):
                return ("members", [])
            first = self.expr()
            if self.took("|"):
                qualifiers = self.listed(self.qualifier)
                self.want("}")
                return ("comprehension", first, qualifiers)
            members = [first] + (self.listed(self.expr) if self.took(",") else [])
            self.want("}")
            return ("members", members)
        self.want("[", "[")
        first = self.expr()
        if self.took("|"):
            binds = self.listed(self.bind)
            self.want("]", "]")
            return ("tab", first, binds)
        dims = [first] + (self.listed(self.expr) if self.took(",") else [])
        self.want(";")
        cells = [] if self.sees("]") else self.listed(self.expr)
        self.want("]", "]")
        return ("literal", dims, cells)

    def bind(self):
        self.want("\\")
        name = self.name()
        self.want("<")
        return (name, self.expr())

    def qualifier(self):
        if self.sees("[") and not self.sees("[", "["):
            self.want("[")
            index = self.pattern()
            self.want(":")
            cell = self.pattern()
            self.want("]", "<-")
            return ("cells", index, cell, self.expr())
        before = self.at
        try:
            pattern = self.pattern()
            for sign, form in (("<-", "from"), ("==", "match")):
                if self.took(sign):
                    return (form, pattern, self.expr())
        except ValueError:
            pass
        self.at = before
        return ("test", self.expr())

    def pattern(self):
        if self.took("\\"):
            return ("bind", self.name())
        if self.took("_"):
            return ("any",)
        if self.took("("):
            parts = self.listed(self.pattern)
            self.want(")")
            return parts[0] if len(parts) == 1 else ("tuple", parts)
        return self.constant_or_name()


# Core terms: a form, what the form has beside its parts, and the parts. Variables are numbered from the innermost.


def node(form, data=None, *parts):
    return (form, data, parts)


BOTTOM, EMPTY, ZERO, YES, NO = node("bottom"), node("empty"), node("nat", 0), node("bool", True), node("bool", False)


def binders(t, i):
    """How many variables the node binds in part i."""
    if t[0] in ("let", "bigunion", "sum"):
        return 1 if i == 1 else 0
    return len(t[2]) - 1 if t[0] == "tab" and i == len(t[2]) - 1 else 0


def mapped(t, depth, on_variable):
    """The term with another term for each variable, which is told with the number of binders around it."""
    if t[0] == "var":
        return on_variable(t[1], depth)
    if not t[2]:
        return t
    return (t[0], t[1], tuple(mapped(p, depth + binders(t, i), on_variable) for i, p in enumerate(t[2])))


def shifted(t, by, start=0):
    if by == 0:
        return t
    return mapped(t, start, lambda i, depth: node("var", i + by if i >= depth else i))


def lowered(t, start):
    """Without the variable of that number, which must not occur."""
    return mapped(t, start, lambda i, depth: node("var", i - 1 if i > depth else i))


def put_in(body, a):
    """The body with a for its outermost variable."""

    def on_variable(i, depth):
        if i == depth:
            return shifted(a, depth)
        return node("var", i - 1 if i > depth else i)

    return mapped(body, 0, on_variable)


STRICT_BUT = {"if": {1, 2}, "default": {0, 1}, "bigunion": {1}, "sum": {1}}


def is_strict(t, i):
    """Whether the node always evaluates part i and has no value where that has none."""
    if t[0] == "tab":
        return i < len(t[2]) - 1
    return i not in STRICT_BUT.get(t[0], ())


def uses(t, at, strictly=False):
    if t[0] == "var":
        return int(t[1] == at)
    parts = enumerate(t[2])
    return sum(uses(p, at + binders(t, i), strictly) for i, p in parts if not strictly or is_strict(t, i))


# The text of a core term.


def text(t, d=0):
    form, data, parts = t
    if form == "var":
        return f"x{d - 1 - data}"
    if form == "global":
        return f"@{data}"
    if form in ("nat", "bool", "text"):
        return shown(data)
    if form in ("bigunion", "sum"):
        sign = "U" if form == "bigunion" else "S"
        return f"{sign}{{{text(parts[1], d + 1)} | x{d} in {text(parts[0], d)}}}"
    if form == "let":
        return f"(let x{d} = {text(parts[0], d)} in {text(parts[1], d + 1)})"
    if form == "tab":
        bounds = ", ".join(f"x{d + j}<{text(p, d)}" for j, p in enumerate(parts[:-1]))
        return f"[[{text(parts[-1], d + len(parts) - 1)} | {bounds}]]"
    inner = [text(p, d) for p in parts]
    if form == "sub":
        return f"sub({inner[0]}; {', '.join(inner[1:])})"
    if form == "literal":
        return f"[[{','.join(inner[:data])}; {', '.join(inner[data:])}]]"
    if form == "if":
        return f"(if {inner[0]} then {inner[1]} else {inner[2]})"
    if form in ("arith", "compare"):
        return f"({inner[0]} {data} {inner[1]})"
    if form in ("union", "default"):
        return f"({inner[0]} {form} {inner[1]})"
    shapes = {
        "bottom": "undefined",
        "empty": "{}",
        "single": "{%s}",
        "tuple": "(%s)",
        "gen": "gen(%s)",
        "get": "get(%s)",
        "proj": "#%s/%s(%%s)" % data if form == "proj" else "",
        "dim": f"dim_{data}(%s)",
        "index": f"index_{data}(%s)",
    }
    return shapes[form].replace("%s", ", ".join(inner))


# Translation. Names are levels: the number of binders around the one that binds the name.


class Scope:
    """The positions that a declaration sees: by name, the number of a value or a macro with its own scope."""

    def __init__(self, known=None):
        self.known = dict(known or {})

    def with_position(self, name, meaning):
        return Scope({**self.known, name: meaning})


def translated(e, scope, names=None, d=0):
    """The core term of a tree under d binders."""
    names = names or {}

    def part(x):
        return translated(x, scope, names, d)

    form = e[0]
    if form in ("nat", "bool", "text"):
        return node(form, e[1])
    if form == "name":
        if e[1] in names:
            return node("var", d - 1 - names[e[1]])
        return node("global", scope.known[e[1]])
    if form == "tuple":
        return node("tuple", None, *map(part, e[1]))
    if form == "members":
        return united([node("single", None, part(x)) for x in e[1]])
    if form == "if":
        return node("if", None, part(e[1]), part(e[2]), part(e[3]))
    if form == "and":
        return node("if", None, part(e[2]), part(e[3]), NO)
    if form == "or":
        return node("if", None, part(e[2]), YES, part(e[3]))
    if form == "not":
        return node("if", None, part(e[1]), NO, YES)
    if form in ("compare", "arith"):
        return node(form, e[1], part(e[2]), part(e[3]))
    if form == "union":
        return node("union", None, part(e[2]), part(e[3]))
    if form == "default":
        return node("default", None, part(e[1]), part(e[2]))
    if form == "word":
        return of_word(e[1], part(e[2]))
    if form == "sub":
        return node("sub", None, part(e[1]), *map(part, e[2]))
    if form == "literal":
        return node("literal", len(e[1]), *map(part, e[1]), *map(part, e[2]))
    if form == "tab":
        inner = {**names, **{name: d + j for j, (name, _) in enumerate(e[2])}}
        body = translated(e[1], scope, inner, d + len(e[2]))
        return node("tab", None, *[part(bound) for _, bound in e[2]], body)
    if form == "summap":
        body = match(e[1], d, scope, names, d + 1, lambda n, k: translated(e[2], scope, n, k), BOTTOM)
        return node("sum", None, part(e[3]), body)
    if form == "fun":
        return bound_to(e[1], part(e[3]), scope, names, d, lambda n, k: translated(e[2], scope, n, k))
    if form == "apply":
        pattern, body, own = scope.known[e[1]]
        term = match(pattern, d, own, {}, d + 1, lambda n, k: translated(body, own, n, k), BOTTOM)
        return node("let", None, part(e[2]), term)
    if form == "let":
        return of_let(e[1], e[2], scope, names, d)
    assert form == "comprehension", form
    return rows(e[2], e[1], scope, names, d)


def of_word(word, part):
    if word in ("gen", "get"):
        return node(word, None, part)
    if word == "len":
        return node("dim", 1, part)
    form, rank = word.split("_")
    return node(form, int(rank), part)


def united(terms):
    if len(terms) < 2:
        return terms[0] if terms else EMPTY
    half = len(terms) // 2
    return node("union", None, united(terms[:half]), united(terms[half:]))


def bound_to(pattern, value, scope, names, d, yes):
    return node("let", None, value, match(pattern, d, scope, names, d + 1, yes, BOTTOM))


def of_let(binds, body, scope, names, d):
    if not binds:
        return translated(body, scope, names, d)
    pattern, e = binds[0]
    value = translated(e, scope, names, d)
    return bound_to(pattern, value, scope, names, d, lambda n, k: of_let(binds[1:], body, scope, n, k))


def match(pattern, level, scope, names, d, yes, no):
    """What is made of the variable of that level where it matches, under d binders."""
    form = pattern[0]
    if form == "any":
        return yes(names, d)
    if form == "bind":
        return node("let", None, node("var", d - 1 - level), yes({**names, pattern[1]: d}, d + 1))
    if form == "tuple":
        return match_parts(pattern[1], 0, level, scope, names, d, yes, no)
    constant = translated(pattern, scope, names, d)
    return node("if", None, node("compare", "=", node("var", d - 1 - level), constant), yes(names, d), no)


def match_parts(parts, j, level, scope, names, d, yes, no):
    if j == len(parts):
        return yes(names, d)
    rest = lambda n, k: match_parts(parts, j + 1, level, scope, n, k, yes, no)
    part = node("proj", (j + 1, len(parts)), node("var", d - 1 - level))
    return node("let", None, part, match(parts[j], d, scope, names, d + 1, rest, no))


def rows(qualifiers, head, scope, names, d):
    """The set of the head over the rows of the qualifiers."""
    if not qualifiers:
        return node("single", None, translated(head, scope, names, d))
    first, rest = qualifiers[0], lambda n, k: rows(qualifiers[1:], head, scope, n, k)
    if first[0] == "test":
        return node("if", None, translated(first[1], scope, names, d), rest(names, d), EMPTY)
    over = translated(first[-1], scope, names, d)
    if first[0] == "from":
        return node("bigunion", None, over, match(first[1], d, scope, names, d + 1, rest, EMPTY))
    if first[0] == "match":
        return node("let", None, over, match(first[1], d, scope, names, d + 1, rest, EMPTY))
    return node("let", None, over, cells_of(first[1], first[2], d, scope, names, rest))


def cells_of(index, cell, array, scope, names, rest):
    """The rows of an array generator, the array being the variable of that level."""
    parts = index[1] if index[0] == "tuple" else [index]
    k, d = len(parts), array + 1

    def dimension(j, depth):
        whole = node("dim", k, node("var", depth - 1 - array))
        return whole if k == 1 else node("proj", (j + 1, k), whole)

    def matched(j, n, depth):
        if j < k:
            return match(parts[j], d + j, scope, n, depth, lambda m, deeper: matched(j + 1, m, deeper), EMPTY)
        at = [node("var", depth - 1 - (d + i)) for i in range(k)]
        value = node("sub", None, node("var", depth - 1 - array), *at)
        return node("let", None, value, match(cell, depth, scope, n, depth + 1, rest, EMPTY))

    def loops(j, depth):
        if j == k:
            return matched(0, names, depth)
        return node("bigunion", None, node("gen", None, dimension(j, depth)), loops(j + 1, depth + 1))

    return loops(0, d)


def prelude_scope():
    scope = Scope()
    for _, name, pattern, body in Parser(PRELUDE).script():
        scope = scope.with_position(name, (pattern, body, scope))
    return scope


# Evaluation: the value of a term, or UNDEFINED, and its turns.

UNDEFINED = object()
MOST = 200000


class Meaning:
    """Values over the outcomes of the positions, within a number of steps."""

    def __init__(self, outcomes):
        self.outcomes, self.left = outcomes, MOST

    def step(self, count=1):
        self.left -= count
        if self.left < 0:
            raise TooLarge

    def value(self, t, env):
        return self.run(t, env)[0]

    def run(self, t, env):
        """Value and turns. env has the values of the variables, the innermost last."""
        self.step()
        form, data, parts = t
        if form == "var":
            return env[-1 - data], 0
        if form == "global":
            return self.outcomes.get(data, UNDEFINED), 0
        if form in ("nat", "bool", "text"):
            return data, 0
        if form == "bottom":
            return UNDEFINED, 0
        if form == "empty":
            return frozenset(), 0
        if form == "let":
            bound, turns = self.run(parts[0], env)
            if bound is UNDEFINED:
                return UNDEFINED, turns
            body, more = self.run(parts[1], env + (bound,))
            return body, turns + more
        if form == "if":
            test, turns = self.run(parts[0], env)
            if test is UNDEFINED:
                return UNDEFINED, turns
            chosen, more = self.run(parts[1 if test else 2], env)
            return chosen, turns + more
        if form == "default":
            first, turns = self.run(parts[0], env)
            if first is not UNDEFINED:
                return first, turns
            second, more = self.run(parts[1], env)
            return second, turns + more
        if form in ("bigunion", "sum"):
            return self.loop(form, parts, env)
        if form == "tab":
            return self.tabulation(parts, env)
        found = [self.run(p, env) for p in parts]
        turns = sum(n for _, n in found)
        values = [v for v, _ in found]
        if any(v is UNDEFINED for v in values):
            return UNDEFINED, turns
        value, own = operation(form, data, values)
        return value, turns + own

    def loop(self, form, parts, env):
        over, turns = self.run(parts[0], env)
        if over is UNDEFINED:
            return UNDEFINED, turns
        turns += len(over)
        values = []
        for member in over:
            v, more = self.run(parts[1], env + (member,))
            values.append(v)
            turns += more
        if any(v is UNDEFINED for v in values):
            return UNDEFINED, turns
        if form == "bigunion":
            return frozenset().union(*values), turns
        total = sum(values)
        return (total if total <= GREATEST else UNDEFINED), turns

    def tabulation(self, parts, env):
        found = [self.run(p, env) for p in parts[:-1]]
        turns, dims = sum(n for _, n in found), [v for v, _ in found]
        if any(v is UNDEFINED for v in dims):
            return UNDEFINED, turns
        count = 1
        for n in dims:
            count *= n
        self.step(count)
        cells = []
        for at in itertools.product(*map(range, dims)) if count else []:
            v, more = self.run(parts[-1], env + at)
            cells.append(v)
            turns += more
        turns += count
        if any(v is UNDEFINED for v in cells):
            return UNDEFINED, turns
        return Array(dims, cells), turns

    def reach(self, t, path):
        """The lists of values with which an evaluation of a closed term comes to the place."""
        lists = [()]
        for i in path:
            lists = [inner for env in lists for inner in self.entered(t, i, env)]
            self.step(len(lists))
            t = t[2][i]
        return lists

    def entered(self, t, i, env):
        form, _, parts = t
        if form == "let" and i == 1:
            bound = self.value(parts[0], env)
            return [] if bound is UNDEFINED else [env + (bound,)]
        if form in ("bigunion", "sum") and i == 1:
            over = self.value(parts[0], env)
            return [] if over is UNDEFINED else [env + (member,) for member in over]
        if form == "if" and i > 0:
            test = self.value(parts[0], env)
            return [env] if test is not UNDEFINED and test == (i == 1) else []
        if form == "default" and i == 1:
            return [env] if self.value(parts[0], env) is UNDEFINED else []
        if form == "tab" and i == len(parts) - 1:
            dims = [self.value(p, env) for p in parts[:-1]]
            if any(v is UNDEFINED for v in dims) or 0 in dims:
                return []
            count = 1
            for n in dims:
                count *= n
            self.step(count)
            return [env + at for at in itertools.product(*map(range, dims))]
        return [env]


def arithmetic(op, a, b):
    if op in "/%" and b == 0:
        return UNDEFINED
    n = {"+": a + b, "-": max(0, a - b), "*": a * b, "/": a // b if b else 0, "%": a % b if b else 0}[op]
    return n if n <= GREATEST else UNDEFINED


def operation(form, data, values):
    """The value of a form that wants the values of all its parts, and its own turns."""
    if form == "tuple":
        return tuple(values), 0
    if form == "proj":
        return values[0][data[0] - 1], 0
    if form == "arith":
        return arithmetic(data, *values), 0
    if form == "compare":
        return queries.COMPARISONS[data](key(values[0]), key(values[1])), 0
    if form == "single":
        return frozenset(values), 0
    if form == "union":
        return values[0] | values[1], 0
    if form == "gen":
        if values[0] > MOST:
            raise TooLarge
        return frozenset(range(values[0])), values[0]
    if form == "get":
        return (next(iter(values[0])) if len(values[0]) == 1 else UNDEFINED), 0
    if form == "sub":
        array, at = values[0], values[1:]
        if any(i >= n for i, n in zip(at, array.dims)):
            return UNDEFINED, 0
        return queries.cell(array, *at), 0
    if form == "dim":
        return (values[0].dims[0] if data == 1 else values[0].dims), 0
    if form == "index":
        return grouped(data, values[0])
    assert form == "literal", form
    dims, cells = values[:data], values[data:]
    count = 0 if 0 in dims else 1
    for n in dims:
        count *= n
    return (Array(dims, cells) if count == len(cells) else UNDEFINED), 0


def grouped(rank, pairs):
    keyed = [((at,) if rank == 1 else at, v) for at, v in pairs]
    dims = [max((at[i] + 1 for at, _ in keyed), default=0) for i in range(rank)]
    if any(n > GREATEST for n in dims):
        return UNDEFINED, len(keyed)
    count = 1
    for n in dims:
        count *= n
    if count > MOST:
        raise TooLarge
    cells = {at: set() for at in itertools.product(*map(range, dims))}
    for at, v in keyed:
        cells[at].add(v)
    return Array(dims, [frozenset(v) for v in cells.values()]), len(keyed) + count


def shown_outcome(value):
    return "undefined" if value is UNDEFINED else shown(value)


# Scripts.


def terms(script):
    """The translated queries of a script whose declarations are all `val`."""
    scope, found = prelude_scope(), []
    for n, (_, name, e) in enumerate(Parser(script).script(), 1):
        found.append(translated(e, scope))
        scope = scope.with_position(name, n)
    return found


def outcomes_of(starts):
    """The outcomes of positions by their numbers, those without a value left out, and the turns of the queries."""
    outcomes, turns = {}, []
    for n, start in enumerate(starts, 1):
        value, taken = Meaning(outcomes).run(start, ())
        turns.append(taken)
        if value is not UNDEFINED:
            outcomes[n] = value
    return outcomes, turns

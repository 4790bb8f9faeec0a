#!/usr/bin/env python3
"""Compares where aql shows faults of syntax, and what it says is wanted there, with a recogniser, on random wrong scripts.

    bench/random_faults.py [SEED [SCRIPTS [PROGRAM]]]

A script is a line of LINES with one to three tokens put in, left out, changed or swapped. The recogniser (after Earley) has the
grammar of docs/LANGUAGE.md as rules and shares nothing with the program: it keeps every rule that may be under way behind each
token, so that the first token behind which none is left is the first with which no script goes on, and the tokens that the rules
want there are all that may stand there. The place is compared for each script with a fault, and the sentence where it is no slip
of its own. A script that the recogniser reads must have no fault of syntax. Prints the scripts that differ; the status is then 1.
"""

import random
import re
import subprocess
import sys
from pathlib import Path

SEED = int(sys.argv[1]) if len(sys.argv) > 1 else 1
SCRIPTS = int(sys.argv[2]) if len(sys.argv) > 2 else 2500
PROGRAM = sys.argv[3] if len(sys.argv) > 3 else str(Path(__file__).resolve().parent.parent / "crates/aql/out/aql")

GRAMMAR = r"""
script: | script decl ;
decl: val \ NAME = expr | macro \ NAME = fn pat => expr | readval \ NAME using READER at expr | expr
expr: if expr then expr else expr | or | or default expr
or: and | or "or" and
and: not | and "and" not
not: "not" not | cmp
cmp: uni | uni COMPARE uni
uni: sum | uni union sum
sum: prod | sum + prod | sum - prod
prod: app | prod * app | prod / app | prod % app
app: head ! app | post
head: NAME | HEAD | ( fn pat => expr ) | summap ( fn pat => expr )
post: prim | post [ few ]
prim: CONSTANT | NAME | ( exprs ) | { } | { exprs } | { expr BAR quals } | let vals in expr end
prim: [ [ expr BAR binds ] ] | [ [ few ; ] ] | [ [ few ; exprs ] ]
exprs: expr | exprs , expr
quals: qual | quals , qual
vals: val pat = expr | vals val pat = expr
bind: \ NAME < expr
qual: pat <- expr | [ pat : pat ] <- expr | pat == expr | expr
pat: \ NAME | _ | CONSTANT | NAME | ( pats )
pats: pat | pats , pat
"""
COMPARISONS = ["=", "<>", "<", "<=", ">", ">="]
RULES = {}
for line in GRAMMAR.strip().split("\n"):
    left, right = line.split(": ", 1) if ": " in line else (line.rstrip(":"), "")
    for form in re.split(r"(?:^| )\|(?: |$)", right):
        form = [w if w != "BAR" else "|" for w in form.split()]
        RULES.setdefault(left, []).extend([tuple(c if w == "COMPARE" else w for w in form) for c in COMPARISONS] if "COMPARE" in form else [tuple(form)])
for name, item in (("few", "expr"), ("binds", "bind")):
    RULES[name] = [tuple(", ".join([item] * n).replace(",", " ,").split()) for n in range(1, 9)]
# The words that are also the names of rules stand in quotes.
TOKENS = {w for forms in RULES.values() for form in forms for w in form if w not in RULES}

EXPRESSION = {"CONSTANT", "NAME", "HEAD", "(", "summap", "{", "[", "let"}
PATTERN = {"\\", "_", "CONSTANT", "NAME", "("}
OPERATORS = {'"or"', '"and"', "union", "+", "-", "*", "/", "%", "[", "default", "!"} | set(COMPARISONS)
LISTED = ["then", "else", "using", "at", "fn", "val", "in", "end", "\\", "=", "=>", "<-", "==", "<", ":", "!", "|", ",", ";", "(", ")", "}", "[", "]"]

RESERVED = set("val macro readval using at fn let in end if then else true false and or not union gen get len summap default".split())
RESERVED |= {f"{w}_{n}" for w in ("dim", "index") for n in range(1, 9)}

LINES = r"""
val \x = 3 ;
macro \f = fn ( \x , ( _ , 2 ) ) => x + 1 ; f ! ( 1 , ( 2 , 2 ) ) ;
readval \t using NETCDF3 at ( "a.nc" , "v" , ( 0 , 0 , 0 ) , ( 1 , 2 , 3 ) ) ;
readval \t using CSVHNS at "a.csv" ; count ! t ;
if 1 < 2 then 3 else if 2 = 3 and not true then 4 else 5 ;
{ ( i , x ) | [ ( \i , \j ) : \x ] <- [[ 1 , 2 ; 3 , 4 ]] , x > 2 , \y == x , ( \a , _ ) <- { ( 1 , 2 ) } } ;
{ } union { 1 , 2 , 3 } = { 1 } ;
[[ i * j + 1 | \i < 3 , \j < len ! a ]] [ 0 , 1 ] ;
[[ 2 , 2 ; 1 , 2 , 3 , 4 ]] [ 1 , 0 ] - 1 % 7 ;
[[ 0 ; ]] ;
let val \x = 3 val ( \a , \b ) = ( 1 , 2 ) in x * a / b end ;
summap ( fn \x => x * x ) ! ( gen ! 10 ) default 0 ;
( fn ( \x , \y ) => { x } ) ! ( 1 , 2 ) ;
dim_2 ! m ; index_2 ! s ; get ! { "a" } ;
fst ! a [ b [ 1 ] , c ] >= 3 or d <> e ;
{ x | ( x ) = 3 , ( x , y ) <- s , ( x ) , true == x , "a" <- t , { y | y } = z } ;
1 + 2 * ( 3 - ( 4 ) ) union x [ 1 , 1 , 1 , 1 , 1 , 1 , 1 , 1 ] ;
[[ 1 , 1 , 1 , 1 , 1 , 1 , 1 , 1 ; 0 ]] ; [[ 0 | \a < 1 , \b < 1 , \c < 1 , \d < 1 , \e < 1 , \f < 1 , \g < 1 , \h < 1 ]] ;
not not true and false ; not { 1 } = { 2 } ;
""".strip().split("\n")
POOL = "( ) { } [ ] , ; : | ! \\ _ = == => <- < <= + - * 1 x NETCDF2 CSVN \"a\" val macro readval using at fn let in end if then else true and or not union gen len summap default dim_2".split()


def split(line):
    """The tokens of a line; brackets that stand together are two."""
    words = line.replace("[[", "[ [").replace("]]", "] ]").replace("\\", "\\ ")
    return words.split()


def kinds(word):
    """What a token may be to the rules."""
    if word[0] == '"' or word[0].isdigit() or word in ("true", "false"):
        return {"CONSTANT"}
    if word in ("and", "or", "not"):
        return {f'"{word}"'}
    if word in ("gen", "get", "len") or re.fullmatch(r"(dim|index)_[1-8]", word):
        return {"HEAD"}
    if word[0].isalpha() and word not in RESERVED:
        reads = re.fullmatch(r"NETCDF[ZS]?[1-8]|CSVH?[NS]{1,8}", word)
        return {"NAME", "READER"} if reads else {"NAME"}
    return {word}


def furthest(words):
    """The first token with which no script goes on, and what may stand there; none of a script that reads."""
    sets = []

    def close(items, n):
        work = list(items)
        while work:
            left, form, dot, begun = work.pop()
            found = []
            if dot == len(form):
                found = [(l, f, d + 1, b) for l, f, d, b in (sets[begun] if begun < n else items) if d < len(f) and f[d] == left]
            elif form[dot] in RULES:
                found = [(form[dot], f, 0, n) for f in RULES[form[dot]]]
                if form[dot] == "script":
                    found.append((left, form, dot + 1, begun))
            for item in found:
                if item not in items:
                    items.add(item)
                    work.append(item)
        return items

    def wanted(items):
        return {form[dot] for _l, form, dot, _b in items if dot < len(form) and form[dot] in TOKENS}

    sets.append(close({("script", form, 0, 0) for form in RULES["script"]}, 0))
    for n, word in enumerate(words):
        step = {(l, f, d + 1, b) for l, f, d, b in sets[n] if d < len(f) and f[d] in kinds(word)}
        if not step:
            return n, wanted(sets[n])
        sets.append(close(step, n + 1))
    if any(l == "script" and d == len(f) and b == 0 for l, f, d, b in sets[-1]):
        return None, set()
    return len(words), wanted(sets[-1])


def sentence(words, at, want):
    """What is wanted, and what stands there."""
    if EXPRESSION <= want:
        text = "an expression"
    elif PATTERN <= want:
        text = "a pattern"
    elif want == {"NAME"}:
        text = "a name"
    else:
        is_behind = "*" in want or "[" in want and "=>" not in want
        quoted = [f"`{w}`" for w in LISTED if w in want and not (is_behind and w in OPERATORS)]
        text = "an operator or " if is_behind else ""
        text += quoted[0] if len(quoted) == 1 else ", ".join(quoted[:-1]) + " or " + quoted[-1] if quoted else ""
    return f"aql: {text} is wanted here, and {found(words, at)} stands here"


def found(words, at):
    if at == len(words):
        return "the end of the script"
    word = words[at]
    if word[0] == '"':
        return "a string"
    if word[0].isdigit():
        return f"the number `{word}`"
    if word in RESERVED:
        return f"the word `{word}`"
    return f"the name `{word}`" if word[0].isalpha() else f"`{word}`"


def edited(words):
    words = list(words)
    for _ in range(random.choice((1, 1, 1, 2, 3))):
        at, way = random.randrange(len(words) + 1), random.random()
        if way < 0.35 or not words:
            words.insert(at, random.choice(POOL))
        elif way < 0.65:
            words.pop(min(at, len(words) - 1))
        elif way < 0.9:
            words[min(at, len(words) - 1)] = random.choice(POOL)
        else:
            a, b = random.randrange(len(words)), random.randrange(len(words))
            words[a], words[b] = words[b], words[a]
    return words


def main():
    random.seed(SEED)
    faults = sentences = reads = differing = 0
    for _ in range(SCRIPTS):
        words = edited(split(random.choice(LINES)))
        script = " ".join(words)
        run = subprocess.run([PROGRAM], input=script.encode(), stdout=subprocess.PIPE, stderr=subprocess.PIPE, timeout=60)
        at, want = furthest(words)
        if at is None or run.returncode != 4:
            if at is None and run.returncode != 4:
                reads += 1
            else:
                differing += 1
                print(f"{script}\n    the status is {run.returncode}, and the recogniser {'reads it' if at is None else f'stops at token {at}'}")
            continue
        faults += 1
        places = [sum(len(w) + 1 for w in words[:k]) for k in range(len(words) + 1)]
        end = places[at] - 1 if at > 0 else 0
        lines = run.stderr.decode().split("\n")
        said = lines[2].split("; `")[0] if len(lines) > 2 else ""
        is_end = at == len(words) or said == "aql: a `;` is wanted behind the declaration"
        place = f"1:{(end if is_end else places[at]) + 1}: "
        expected = sentence(words, at, want)
        if not lines[0].startswith(place):
            differing += 1
            print(f"{script}\n    shown at {lines[0].split(': ')[0]}, and the recogniser stops at {place}")
        elif " is wanted here, and " in said:
            sentences += 1
            if said != expected:
                differing += 1
                print(f"{script}\n    {said}\n    {expected}")
    print(f"{faults} faults of syntax, {sentences} of them without a sentence of their own, {reads} scripts that read; {differing} differ")
    return 1 if differing else 0


sys.exit(main())

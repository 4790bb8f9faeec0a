#!/usr/bin/env bash
# Measures what nrca_ranges and nrca_defined answer of core terms: processor seconds of a balanced term of 20,001 nodes under 100
# nested tests, `defined` asked at each node, and of 8 nested tabulations of 8 dimensions; with the word `depth`, how deep a chain
# of some forms is walked on a stack of 8 MB; with the word `random` (and a seed, and a number of terms), whether random terms have
# a value wherever `defined` says yes; with the word `all` (and the same two numbers) each of these. Makes a small repository of its
# own in a temporary folder; run it from anywhere.
set -eu
. "$(dirname "$0")/crates.sh"
begin nrca_defined nrca_ranges nrca_term aql_value anyhow
cat > "$work/crates/measure/src/main.rt" <<'PROGRAM'
#![tactic(auto)]

use anyhow::{Result, anyhow};
use aql_value::made::{both, make_box, make_boxes};
use aql_value::{ArithOp, Cells, CompareOp, Dims, Items, Memory, Str, Value, canon};
use nrca_defined::defined;
use nrca_ranges::{Ctx, GlobalShapes, is_small, shape_of, shape_of_value};
use nrca_term::{Core, Terms};
use std::alloc::Global;
use std::io::{BufRead, BufReader};

fn last(stack: &mut Vec<Core>) -> Result<Core, Memory> {
    stack.pop().ok_or(Memory)
}

fn lasts(stack: &mut Vec<Core>, count: u64) -> Result<Vec<Core>, Memory> {
    let count = usize::try_from(count).map_err(|_| Memory)?;
    if stack.len() < count {
        return Err(Memory);
    }
    Ok(stack.split_off(stack.len() - count)?)
}

// The number behind a word's first letters, where it begins with them.
fn behind(word: &str, letters: &str) -> Option<u64> {
    match word.strip_prefix(letters) {
        Some(rest) => match rest.parse::<u64>() {
            Ok(n) => Some(n),
            Err(_) => None,
        },
        None => None,
    }
}

#[derive(Clone, Copy)]
enum OfTwo {
    Let,
    Default,
    Arith(ArithOp),
    Compare(CompareOp),
    Union,
    BigUnion,
    Sum,
}

fn of_two(word: &str) -> Option<OfTwo> {
    match word {
        "let" => Some(OfTwo::Let),
        "or" => Some(OfTwo::Default),
        "+" => Some(OfTwo::Arith(ArithOp::Add)),
        "-" => Some(OfTwo::Arith(ArithOp::Monus)),
        "*" => Some(OfTwo::Arith(ArithOp::Mul)),
        "/" => Some(OfTwo::Arith(ArithOp::Quotient)),
        "%" => Some(OfTwo::Arith(ArithOp::Remainder)),
        "=" => Some(OfTwo::Compare(CompareOp::Equal)),
        "<" => Some(OfTwo::Compare(CompareOp::Less)),
        "u" => Some(OfTwo::Union),
        "U" => Some(OfTwo::BigUnion),
        "S" => Some(OfTwo::Sum),
        _ => None,
    }
}

fn join(form: OfTwo, a: Box<Core>, b: Box<Core>) -> Core {
    match form {
        OfTwo::Let => Core::Let(a, b),
        OfTwo::Default => Core::Default(a, b),
        OfTwo::Arith(op) => Core::Arith(op, a, b),
        OfTwo::Compare(op) => Core::Compare(op, a, b),
        OfTwo::Union => Core::Union(a, b),
        OfTwo::BigUnion => Core::BigUnion { over: a, body: b },
        OfTwo::Sum => Core::Sum { over: a, body: b },
    }
}

fn choice(alloc: Global, stack: &mut Vec<Core>) -> Result<Core, Memory> {
    let arms = make_boxes(alloc, last(stack), last(stack));
    let ((no, yes), test) = both(arms, make_box(alloc, last(stack)))?;
    Ok(Core::If(test, yes, no))
}

fn tabulation(alloc: Global, stack: &mut Vec<Core>, rank: u64) -> Result<Core, Memory> {
    let (body, bounds) = both(make_box(alloc, last(stack)), lasts(stack, rank))?;
    Ok(Core::Tab {
        bounds: Terms(bounds),
        body,
    })
}

fn subscript(alloc: Global, stack: &mut Vec<Core>, rank: u64) -> Result<Core, Memory> {
    let (at, array) = both(lasts(stack, rank), make_box(alloc, last(stack)))?;
    Ok(Core::Sub {
        array,
        at: Terms(at),
    })
}

// An array of rank 1 with so many cells, behind its dimension.
fn literal(stack: &mut Vec<Core>, count: u64) -> Result<Core, Memory> {
    let (cells, dims) = both(lasts(stack, count), lasts(stack, 1))?;
    Ok(Core::Literal {
        dims: Terms(dims),
        cells: Terms(cells),
    })
}

fn of_one(alloc: Global, stack: &mut Vec<Core>, word: &str) -> Result<Core, Memory> {
    let part = make_box(alloc, last(stack))?;
    match word {
        "one" => Ok(Core::Single(part)),
        "gen" => Ok(Core::Gen(part)),
        "get" => Ok(Core::Get(part)),
        "idx" => Ok(Core::Index { rank: 1, pairs: part }),
        "p1" => Ok(Core::Proj { at: 1, of: 2, part }),
        "p2" => Ok(Core::Proj { at: 2, of: 2, part }),
        _ => match behind(word, "dim") {
            Some(rank) => Ok(Core::Dim { rank, array: part }),
            None => {
                drop(part);
                Err(Memory)
            }
        },
    }
}

fn counted(alloc: Global, stack: &mut Vec<Core>, word: &str) -> Result<Core, Memory> {
    match behind(word, "tab") {
        Some(rank) => tabulation(alloc, stack, rank),
        None => match behind(word, "sub") {
            Some(rank) => subscript(alloc, stack, rank),
            None => match behind(word, "lit") {
                Some(count) => literal(stack, count),
                None => match behind(word, "tup") {
                    Some(count) => Ok(Core::Tuple(Terms(lasts(stack, count)?))),
                    None => of_one(alloc, stack, word),
                },
            },
        },
    }
}

fn leaf(alloc: Global, stack: &mut Vec<Core>, word: &str) -> Result<Core, Memory> {
    match behind(word, "v") {
        Some(i) => Ok(Core::Var(i)),
        None => match behind(word, "g") {
            Some(n) => Ok(Core::Global(n)),
            None => match word.parse::<u64>() {
                Ok(n) => Ok(Core::Nat(u128::from(n))),
                Err(_) => counted(alloc, stack, word),
            },
        },
    }
}

fn node(alloc: Global, stack: &mut Vec<Core>, word: &str) -> Result<Core, Memory> {
    match of_two(word) {
        Some(form) => {
            let (b, a) = make_boxes(alloc, last(stack), last(stack))?;
            Ok(join(form, a, b))
        }
        None => match word {
            "max" => Ok(Core::Nat(u128::MAX)),
            "T" => Ok(Core::Bool(true)),
            "F" => Ok(Core::Bool(false)),
            "'a" => Ok(Core::Text(Str {
                bytes: Vec::from_slice(alloc, "a".as_bytes())?,
            })),
            "{}" => Ok(Core::Empty),
            "bot" => Ok(Core::Bottom),
            "if" => choice(alloc, stack),
            _ => leaf(alloc, stack, word),
        },
    }
}

fn pushed(stack: &mut Vec<Core>, made: Result<Core, Memory>) -> Result<(), Memory> {
    stack.push(made?)?;
    Ok(())
}

fn term(alloc: Global, words: &str) -> Result<Core, Memory> {
    let mut stack = Vec::new(alloc);
    for word in words.split(' ') {
        let made = node(alloc, &mut stack, word);
        pushed(&mut stack, made)?;
    }
    last(&mut stack)
}

fn items(alloc: Global, numbers: &[u128]) -> Result<Items, Memory> {
    let mut items = Vec::new(alloc);
    for n in numbers {
        items.push(Value::Nat(*n))?;
    }
    Ok(Items { items })
}

fn set(alloc: Global, numbers: &[u128]) -> Result<Value, Memory> {
    Ok(Value::Members(canon(alloc, items(alloc, numbers)?)?))
}

fn array(alloc: Global, size: u128, numbers: &[u128]) -> Result<Value, Memory> {
    let mut dims = Vec::new(alloc);
    dims.push(size)?;
    let cells = Cells::new(Dims { dims }, items(alloc, numbers)?).ok_or(Memory)?;
    Ok(Value::Grid(cells))
}

fn add(alloc: Global, globals: &mut GlobalShapes, value: Result<Value, Memory>) -> Result<(), Memory> {
    let value = value?;
    let shape = shape_of_value(alloc, &value);
    drop(value);
    globals.push(Some(shape?))?;
    Ok(())
}

// Position 1 is 7, 2 is {3, 5}, 3 is [[3; 1, 2, 4]], and 4 is undefined.
fn fill(alloc: Global, globals: &mut GlobalShapes) -> Result<(), Memory> {
    add(alloc, globals, Ok(Value::Nat(7)))?;
    add(alloc, globals, set(alloc, &[3, 5]))?;
    add(alloc, globals, array(alloc, 3, &[1, 2, 4]))?;
    globals.push(None)
}

// Whether the term is sure to have a value, as a digit; 2 where it is not small.
fn digit(alloc: Global, term: &Core, ctx: &Ctx) -> Result<u8, Memory> {
    if is_small(term, ctx.depth()) {
        if defined(alloc, term, ctx)? {
            return Ok(b'1');
        }
        return Ok(b'0');
    }
    Ok(b'2')
}

// The digits of the part and of all terms in it.
#[cycle(digits)]
fn inside(
    alloc: Global,
    left: u64,
    from: u64,
    term: &Core,
    i: u64,
    ctx: &mut Ctx,
    out: &mut Vec<u8>,
) -> Result<(), Memory> {
    if i < term.parts() && is_small(term, ctx.depth()) {
        let mark = ctx.push(alloc, term, i)?;
        if let Some(part) = term.part(i) {
            digits(alloc, left, from, part, ctx, out)?;
        }
        ctx.take_back(mark);
    }
    Ok(())
}

// The digits of the term and of all terms in it, in pre-order, at the levels that have at most `from` below them, down to a depth.
#[cycle(digits)]
fn digits(alloc: Global, left: u64, from: u64, term: &Core, ctx: &mut Ctx, out: &mut Vec<u8>) -> Result<(), Memory> {
    if left <= from {
        let first = digit(alloc, term, ctx)?;
        out.push(first)?;
    }
    if left > 0 {
        for i in 0..term.parts() {
            inside(alloc, left - 1, from, term, i, ctx, out)?;
        }
    }
    Ok(())
}

// What is told of the root alone.
fn root(alloc: Global, term: &Core, ctx: &Ctx, out: &mut Vec<u8>) -> Result<(), Memory> {
    let found = digit(alloc, term, ctx)?;
    let shape = shape_of(alloc, term, ctx)?;
    drop(shape);
    out.push(found)?;
    Ok(())
}

fn told(alloc: Global, call: &str, term: &Core, ctx: &mut Ctx, out: &mut Vec<u8>) -> Result<(), Memory> {
    match call {
        "each" => digits(alloc, 1000000, 1000000, term, ctx, out),
        "inner" => digits(alloc, 1000000, 999899, term, ctx, out),
        "none" => digits(alloc, 1000000, 0, term, ctx, out),
        "root" => root(alloc, term, ctx, out),
        _ => Ok(()),
    }
}

fn answered(alloc: Global, call: &str, words: &str, ctx: &mut Ctx) -> Result<Vec<u8>, Memory> {
    let mut out = Vec::new(alloc);
    let term = term(alloc, words)?;
    let done = told(alloc, call, &term, ctx, &mut out);
    drop(term);
    done?;
    Ok(out)
}

fn context(alloc: Global) -> Result<Ctx, Memory> {
    let mut globals = GlobalShapes::new(alloc);
    let filled = fill(alloc, &mut globals);
    let ctx = Ctx::new(alloc, globals);
    filled?;
    Ok(ctx)
}

fn main(rt: HostRuntime) -> Result<()> {
    let mut args = std::env::args(&rt)?;
    let _program = args.next();
    let call = args.next().ok_or_else(|| anyhow!("no call"))?;
    let input = BufReader::new(rt.alloc(), rt.stdin())?;
    for line in input.lines(rt.alloc()) {
        let line = line?;
        let mut ctx = context(rt.alloc()).map_err(|_| anyhow!("out of memory"))?;
        let out = answered(rt.alloc(), &call, &line, &mut ctx).map_err(|_| anyhow!("no term"))?;
        let text = String::from_utf8(out).map_err(|_| anyhow!("no text"))?;
        println!(rt; "{text}")?;
    }
    Ok(())
}
PROGRAM
mkdir -p "$work/crates/measure/proofs/+digits"
cat > "$work/crates/measure/proofs/+digits/Invariants.antt" <<'MEASURE'
use Rattle.std.proofs.Common.{◌+◌, ◌*◌}
use Rattle.measure.proofs.+digits.Given as goal

abbrev pub decreases-inside : goal.decreases-inside
decreases-inside l = 2 * l.left + 2

abbrev pub decreases-digits : goal.decreases-digits
decreases-digits l = 2 * l.left + 1
MEASURE
cd "$work/crates/measure"
echo 1 | rt run -- root > "$work/log" 2>&1 || { cat "$work/log"; exit 1; }
program=$(find "$work/crates/measure/out" -maxdepth 1 -type f -perm -u+x | head -1)
measure() {
    python3 - "$program" "$1" <<'MEASURE'
import resource
import subprocess
import sys

program = sys.argv[1]


def balanced(nodes, place=0):
    """Sums of indices and numbers, nested evenly: words of so many nodes, an odd number."""
    if nodes == 1:
        return "7" if place % 2 else "v0"
    half = (nodes - 1) // 2 | 1
    return balanced(half, 2 * place) + " " + balanced(nodes - 1 - half, 2 * place + 1) + " +"


def under_tests(nodes, tests):
    body = balanced(nodes)
    return "1000 " + "v0 5 < " * tests + body + " 3 if" * tests + " tab1"


def nested(depth):
    return " ".join("2" for _ in range(8)) + " " + ("1" if depth == 0 else nested(depth - 1)) + " tab8"


def used(call, words):
    best = None
    for _ in range(3):
        before = resource.getrusage(resource.RUSAGE_CHILDREN).ru_utime
        out = subprocess.run([program, call], input=(words + "\n").encode(), stdout=subprocess.PIPE)
        after = resource.getrusage(resource.RUSAGE_CHILDREN).ru_utime
        assert out.returncode == 0, (call, out.returncode)
        best = after - before if best is None else min(best, after - before)
    return best


CHAINS = {
    "sums": lambda n: "1" + " 1 +" * n,
    "lets": lambda n: "1 " * n + "1" + " let" * n,
    "tests": lambda n: "T " * n + "1" + " 2 if" * n,
    "sets": lambda n: "1" + " one" * n,
    "tabulations": lambda n: "2 " * n + "1" + " tab1" * n,
}


def deepest(chain):
    """The deepest chain that is told of on a stack of 8 MB."""
    low, high = 1, 400000
    while low + 1 < high:
        middle = (low + high) // 2
        limit = lambda: resource.setrlimit(resource.RLIMIT_STACK, (8 << 20, resource.RLIM_INFINITY))
        words = CHAINS[chain](middle) + "\n"
        done = subprocess.run([program, "root"], input=words.encode(), stdout=subprocess.PIPE, preexec_fn=limit)
        low, high = (middle, high) if done.returncode == 0 else (low, middle)
    return low


if sys.argv[2] == "depth":
    for chain in CHAINS:
        print(f"{chain:12} {deepest(chain):8}")
else:
    for name, call, without, words in [
        ("20,001 nodes under 100 tests, defined at each of them", "inner", "none", under_tests(20001, 100)),
        ("the same, at each of the 100 tests too", "each", "none", under_tests(20001, 100)),
        ("8 nested tabulations of 8 dimensions, the root", "root", "read", nested(7)),
    ]:
        print(f"{name:54} {used(call, words) - used(without, words):6.3f}")
MEASURE
}
case "${1:-}" in
    random) python3 "$top/bench/random_analysis.py" "$program" "${2:-1}" "${3:-50000}" ;;
    all)
        measure times
        measure depth
        python3 "$top/bench/random_analysis.py" "$program" "${2:-1}" "${3:-50000}"
        ;;
    *) measure "${1:-times}" ;;
esac

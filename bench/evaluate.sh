#!/usr/bin/env bash
# Measures evaluate of nrca_eval on five loops, with 1, 2 and 4 workers, beside the same loops in Python 3 and in plain Rust built by
# rustc -O: a sum, a tabulation, a big union with few distinct members, the set of pairs, an index of these into few cells. Prints the
# elapsed and the processor seconds of the run of three that was the shortest, and its peak memory in KiB. `bench/evaluate.sh depth` prints instead how deep a term of nested lets, and one of nested sums,
# is evaluated on the stack that the shell allows. Makes a small repository of its own in a temporary folder; run it from anywhere.
set -eu
. "$(dirname "$0")/crates.sh"
begin nrca_eval nrca_term nrca_par nrca_array aql_outside aql_value anyhow
cat > "$work/crates/measure/src/main.rt" <<'PROGRAM'
#![tactic(auto)]

use anyhow::{Result, anyhow, bail};
use aql_outside::FreeGate;
use aql_value::{ArithOp, Memory};
use nrca_eval::{Globals, evaluate};
use nrca_term::{Core, Terms};
use std::alloc::Global;

fn boxed(alloc: Global, term: Core) -> Result<Box<Core>, Memory> {
    let kept = Box::new(alloc, term)?;
    Ok(kept)
}

fn below(alloc: Global, n: u64) -> Result<Box<Core>, Memory> {
    let number = boxed(alloc, Core::Nat(u128::from(n)))?;
    boxed(alloc, Core::Gen(number))
}

fn remainder(alloc: Global, term: Core, by: u128) -> Result<Core, Memory> {
    let term = boxed(alloc, term)?;
    Ok(Core::Arith(ArithOp::Remainder, term, boxed(alloc, Core::Nat(by))?))
}

// The sum of the numbers below n.
fn sum(alloc: Global, n: u64) -> Result<Core, Memory> {
    let over = below(alloc, n)?;
    let body = boxed(alloc, Core::Var(0))?;
    Ok(Core::Sum { over, body })
}

// [[i * i % 97 | i < n]]
fn table(alloc: Global, n: u64) -> Result<Core, Memory> {
    let mut bounds = Vec::new(alloc);
    bounds.push(Core::Nat(u128::from(n)))?;
    let first = boxed(alloc, Core::Var(0))?;
    let square = Core::Arith(ArithOp::Mul, first, boxed(alloc, Core::Var(0))?);
    let body = boxed(alloc, remainder(alloc, square, 97)?)?;
    Ok(Core::Tab { bounds: Terms(bounds), body })
}

// The set of what a term is at the numbers below n.
fn set(alloc: Global, n: u64, member: Core) -> Result<Core, Memory> {
    let over = below(alloc, n)?;
    let member = boxed(alloc, member)?;
    let body = boxed(alloc, Core::Single(member))?;
    Ok(Core::BigUnion { over, body })
}

// The pairs of i % 10 and i, for i below n.
fn pairs(alloc: Global, n: u64) -> Result<Core, Memory> {
    let mut parts = Vec::new(alloc);
    parts.push(remainder(alloc, Core::Var(0), 10)?)?;
    parts.push(Core::Var(0))?;
    set(alloc, n, Core::Tuple(Terms(parts)))
}

fn index(alloc: Global, n: u64) -> Result<Core, Memory> {
    let pairs = boxed(alloc, pairs(alloc, n)?)?;
    Ok(Core::Index { rank: 1, pairs })
}

// let 1 in let 1 in .. in 1
fn lets(alloc: Global, n: u64) -> Result<Core, Memory> {
    let mut term = Core::Nat(1);
    for _ in 0..n {
        let bound = boxed(alloc, Core::Nat(1))?;
        term = Core::Let(bound, boxed(alloc, term)?);
    }
    Ok(term)
}

// 1 + (1 + .. + 1)
fn sums(alloc: Global, n: u64) -> Result<Core, Memory> {
    let mut term = Core::Nat(1);
    for _ in 0..n {
        let first = boxed(alloc, Core::Nat(1))?;
        term = Core::Arith(ArithOp::Add, first, boxed(alloc, term)?);
    }
    Ok(term)
}

// A chain within a loop, which is evaluated in a piece.
fn within(alloc: Global, body: Core) -> Result<Core, Memory> {
    let over = below(alloc, 1)?;
    let body = boxed(alloc, body)?;
    Ok(Core::Sum { over, body })
}

fn term_of(alloc: Global, what: &str, n: u64) -> Result<Option<Core>, Memory> {
    let term = match what {
        "sum" => sum(alloc, n)?,
        "tabulation" => table(alloc, n)?,
        "union" => set(alloc, n, remainder(alloc, Core::Var(0), 100)?)?,
        "pairs" => pairs(alloc, n)?,
        "index" => index(alloc, n)?,
        "lets" => lets(alloc, n)?,
        "sums" => sums(alloc, n)?,
        "lets_in_a_loop" => within(alloc, lets(alloc, n)?)?,
        "sums_in_a_loop" => within(alloc, sums(alloc, n)?)?,
        _ => return Ok(None),
    };
    Ok(Some(term))
}

fn main(rt: HostRuntime) -> Result<()> {
    let mut args = std::env::args(&rt)?;
    let _program = args.next();
    let what = args.next().ok_or_else(|| anyhow!("no name"))?;
    let n = args.next().ok_or_else(|| anyhow!("no number"))?;
    let n = n.parse::<u64>()?;
    let workers = args.next().ok_or_else(|| anyhow!("no workers"))?;
    let workers = workers.parse::<u64>()?;
    if workers < 1 || workers > 64 {
        bail!("1 to 64 workers");
    }
    let term = match term_of(rt.alloc(), &what, n) {
        Ok(Some(term)) => term,
        Ok(None) => bail!("no such name"),
        Err(_) => bail!("out of memory"),
    };
    let globals = Globals { list: Vec::new(rt.alloc()) };
    match evaluate(&rt, rt.alloc(), &term, &globals, 50_000_000, workers, &FreeGate) {
        Ok(done) => {
            let turns = done.turns;
            let has = done.value.is_some();
            println!(rt; "{turns} {has}")?
        }
        Err(_) => bail!("no answer"),
    }
    Ok(())
}
PROGRAM
cd "$work/crates/measure"
rt run -- sum 1 1 > "$work/log" 2>&1 || { cat "$work/log"; exit 1; }
program=$(find "$work/crates/measure/out" -maxdepth 1 -type f -perm -u+x | head -1)

if [ "${1-}" = depth ]; then
    for what in lets sums lets_in_a_loop sums_in_a_loop; do
        low=0 high=200000
        while [ $((high - low)) -gt 100 ]; do
            middle=$(((low + high) / 2))
            if "$program" "$what" "$middle" 1 > /dev/null 2>&1; then low=$middle; else high=$middle; fi
        done
        printf '%-15s %9s\n' "$what" "$low"
    done
    exit
fi

cat > "$work/loops.py" <<'PROGRAM'
import sys

def total(n):
    s = 0
    for i in range(n):
        s += i
    return s

def table(n):
    cells = []
    for i in range(n):
        cells.append(i * i % 97)
    return len(cells)

def union(n):
    members = set()
    for i in range(n):
        members.add(i % 100)
    return len(sorted(members))

def pairs(n):
    members = set()
    for i in range(n):
        members.add((i % 10, i))
    return sorted(members)

def index(n):
    cells = []
    for at, value in pairs(n):
        while len(cells) <= at:
            cells.append(set())
        cells[at].add(value)
    return len([sorted(cell) for cell in cells])

loops = {"sum": total, "tabulation": table, "union": union, "pairs": lambda n: len(pairs(n)), "index": index}
print(loops[sys.argv[1]](int(sys.argv[2])))
PROGRAM
cat > "$work/loops.rs" <<'PROGRAM'
use std::hint::black_box;

fn sum(n: u128) -> u128 {
    let mut total: u128 = 0;
    for i in 0..n {
        total = total.checked_add(black_box(i)).unwrap();
    }
    total
}

fn table(n: u128) -> usize {
    let mut cells: Vec<u128> = Vec::new();
    for i in 0..n {
        cells.push(black_box(i).checked_mul(i).unwrap() % 97);
    }
    cells.len()
}

fn union(n: u128) -> usize {
    let mut members: Vec<u128> = (0..n).map(|i| black_box(i) % 100).collect();
    members.sort();
    members.dedup();
    members.len()
}

fn pairs(n: u128) -> Vec<(u128, u128)> {
    let mut members: Vec<(u128, u128)> = (0..n).map(|i| (black_box(i) % 10, i)).collect();
    members.sort();
    members.dedup();
    members
}

fn index(n: u128) -> usize {
    let mut cells: Vec<Vec<u128>> = Vec::new();
    for (at, value) in pairs(n) {
        while cells.len() <= at as usize {
            cells.push(Vec::new());
        }
        cells[at as usize].push(value);
    }
    for cell in &mut cells {
        cell.sort();
        cell.dedup();
    }
    cells.len()
}

fn main() {
    let args: Vec<String> = std::env::args().collect();
    let n: u128 = args[2].parse().unwrap();
    let found = match args[1].as_str() {
        "sum" => sum(n),
        "tabulation" => table(n) as u128,
        "union" => union(n) as u128,
        "pairs" => pairs(n).len() as u128,
        _ => index(n) as u128,
    };
    println!("{found}");
}
PROGRAM
rustc -O -o "$work/loops" "$work/loops.rs"
least() {
    for _ in 1 2 3; do
        { env time -f '%e %U %M' "$@" > /dev/null; } 2>&1
    done | sort -n | head -1
}
printf '%-12s %9s %-10s %9s %9s %9s\n' loop n by elapsed processor KiB
for line in "sum 5000000" "tabulation 1000000" "union 1000000" "pairs 1000000" "index 1000000"; do
    set -- $line
    printf '%-12s %9s %-10s %9s %9s %9s\n' "$1" "$2" python $(least python3 "$work/loops.py" "$1" "$2")
    printf '%-12s %9s %-10s %9s %9s %9s\n' "$1" "$2" rust $(least "$work/loops" "$1" "$2")
    for workers in 1 2 4; do
        printf '%-12s %9s %-10s %9s %9s %9s\n' "$1" "$2" "$workers" $(least "$program" "$1" "$2" "$workers")
    done
done

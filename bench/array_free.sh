#!/usr/bin/env bash
# Measures to_graph of nrca_graph on terms that its own program makes: a tabulation, a subscript, dimensions and an index of each rank;
# a literal of so many cells; tabulations of rank 1, each in the body of the one before; lets, each in the body of the one before.
# Prints the nodes of the term and of its array-free form, seconds (the least of three runs) and peak memory in KiB.
# Then measures evaluate of nrca_eval on tabulations of some ranks, all bounds being equal, and on their array-free forms: prints the
# turns and the seconds of both (the least of three runs).
# Makes a small repository of its own in a temporary folder; run it from anywhere: bench/array_free.sh
set -eu
. "$(dirname "$0")/crates.sh"
begin nrca_graph nrca_eval nrca_term nrca_par nrca_array aql_outside aql_value anyhow
cat > "$work/crates/measure/src/main.rt" <<'PROGRAM'
#![tactic(auto)]

use anyhow::{Result, anyhow, bail};
use aql_outside::FreeGate;
use aql_value::Memory;
use aql_value::made::{both, make_box, make_boxes};
use nrca_eval::{Globals, evaluate};
use nrca_graph::{greatest_variable, to_graph};
use nrca_term::{Core, Terms, weight};
use std::alloc::Global;
use std::thread::Threads;

const ROOM: u64 = 4611686018427387904;

fn equal_numbers(alloc: Global, count: u64, number: u128) -> std::result::Result<Terms, Memory> {
    let mut items = Vec::new(alloc);
    for _i in 0..count {
        items.push(Core::Nat(number))?;
    }
    Ok(Terms(items))
}

fn numbers(alloc: Global, count: u64) -> std::result::Result<Terms, Memory> {
    equal_numbers(alloc, count, 1)
}

// A tabulation of its last index, all bounds being equal.
fn grid(alloc: Global, rank: u64, side: u64) -> std::result::Result<Core, Memory> {
    let bounds = equal_numbers(alloc, rank, u128::from(side));
    let (bounds, body) = both(bounds, make_box(alloc, Ok(Core::Var(0))))?;
    Ok(Core::Tab { bounds, body })
}

fn tabulation(alloc: Global, rank: u64, body: std::result::Result<Core, Memory>) -> std::result::Result<Core, Memory> {
    let (bounds, body) = both(numbers(alloc, rank), make_box(alloc, body))?;
    Ok(Core::Tab { bounds, body })
}

fn subscript(alloc: Global, rank: u64) -> std::result::Result<Core, Memory> {
    let (array, at) = both(make_box(alloc, Ok(Core::Global(1))), numbers(alloc, rank))?;
    Ok(Core::Sub { array, at })
}

fn dimensions(alloc: Global, rank: u64) -> std::result::Result<Core, Memory> {
    let array = make_box(alloc, Ok(Core::Global(1)))?;
    Ok(Core::Dim { rank, array })
}

fn index(alloc: Global, rank: u64) -> std::result::Result<Core, Memory> {
    let pairs = make_box(alloc, Ok(Core::Global(1)))?;
    Ok(Core::Index { rank, pairs })
}

fn literal(alloc: Global, count: u64) -> std::result::Result<Core, Memory> {
    let (dims, cells) = both(numbers(alloc, 1), numbers(alloc, count))?;
    Ok(Core::Literal { dims, cells })
}

fn nested(alloc: Global, count: u64) -> std::result::Result<Core, Memory> {
    let mut term = Ok(Core::Var(0));
    for _i in 0..count {
        term = tabulation(alloc, 1, term);
    }
    term
}

fn one_let(alloc: Global, body: std::result::Result<Core, Memory>) -> std::result::Result<Core, Memory> {
    let (bound, body) = make_boxes(alloc, Ok(Core::Nat(1)), body)?;
    Ok(Core::Let(bound, body))
}

fn lets(alloc: Global, count: u64) -> std::result::Result<Core, Memory> {
    let mut term = Ok(Core::Var(0));
    for _i in 0..count {
        term = one_let(alloc, term);
    }
    term
}

fn made(alloc: Global, what: &str, n: u64) -> Result<Core> {
    let term = match what {
        "tab" => tabulation(alloc, n, Ok(Core::Var(0))),
        "sub" => subscript(alloc, n),
        "dim" => dimensions(alloc, n),
        "index" => index(alloc, n),
        "literal" => literal(alloc, n),
        "nested" => nested(alloc, n),
        "lets" => lets(alloc, n),
        _ => bail!("no such name"),
    };
    term.map_err(|_| anyhow!("memory"))
}

fn nodes(term: &Core) -> u64 {
    let mut count = 1u64;
    for i in 0..term.parts() {
        if let Some(part) = term.part(i) {
            count = count.saturating_add(nodes(part));
        }
    }
    count
}

fn free(alloc: Global, term: &Core) -> Result<Core> {
    if weight(term) > 1280000 || greatest_variable(term) >= ROOM {
        bail!("too large");
    }
    to_graph(alloc, term).map_err(|_| anyhow!("memory"))
}

fn turns<R: Threads + Sync>(rt: &R, alloc: Global, term: &Core) -> Result<u128> {
    let globals = Globals { list: Vec::new(alloc) };
    match evaluate(rt, alloc, term, &globals, 50_000_000, 1, &FreeGate) {
        Ok(done) => Ok(done.turns),
        Err(_) => bail!("no answer"),
    }
}

fn main(rt: HostRuntime) -> Result<()> {
    let mut args = std::env::args(&rt)?;
    let _program = args.next();
    let what = args.next().ok_or_else(|| anyhow!("no name"))?;
    let n = args.next().ok_or_else(|| anyhow!("no number"))?;
    let n = n.parse::<u64>()?;
    if let Some(side) = args.next() {
        let side = side.parse::<u64>()?;
        let term = grid(rt.alloc(), n, side).map_err(|_| anyhow!("memory"))?;
        let term = if what.as_str() == "free" { free(rt.alloc(), &term)? } else { term };
        println!(rt; "{}", turns(&rt, rt.alloc(), &term)?)?;
        return Ok(());
    }
    let term = made(rt.alloc(), &what, n)?;
    let graph = free(rt.alloc(), &term)?;
    println!(rt; "{} {}", nodes(&term), nodes(&graph))?;
    Ok(())
}
PROGRAM
mkdir -p "$work/crates/measure/proofs/+nodes"
cat > "$work/crates/measure/proofs/+nodes/Invariants.antt" <<'MEASURE'
use Rattle.nrca_term.specs.Term.{weight_of}
use Rattle.nrca_term.specs.View.{term_of}
use Rattle.measure.proofs.+nodes.Given as goal

abbrev pub decreases-nodes : goal.decreases-nodes
decreases-nodes l = weight_of (term_of l.term.now)

abbrev pub invariant-loop-i : goal.invariant-loop-i
invariant-loop-i l = Unit {0}
MEASURE
cat > "$work/crates/measure/proofs/+nodes/Answers.antt" <<'MEASURE'
use Rattle.std.proofs.Common.{arith, sym}
use Rattle.nrca_term.specs.Laws.Measure.{weight_of-child}
use Rattle.nrca_term.specs.View.{term_of}
use Rattle.measure.proofs.+nodes.Goals as goal

pub nodes-requires : goal.nodes-requires
nodes-requires t c =
    (omega (arith, c.decreases, weight_of-child (term_of c.args.term.now) c.loop-i.i (term_of c.in-Some.part.now) (sym c.in-Some.ensures)), tt)
MEASURE
cd "$work/crates/measure"
rt run -- tab 1 > "$work/log" 2>&1 || { cat "$work/log"; exit 1; }
program=$(find "$work/crates/measure/out" -maxdepth 1 -type f -perm -u+x | head -1)
printf '%-8s %8s %9s %9s %9s %9s\n' what n nodes free seconds KiB
for line in "tab 1" "tab 2" "tab 8" "sub 1" "sub 8" "dim 8" "index 1" "index 2" "index 8" "literal 9990" "literal 1000000" \
    "nested 100" "nested 1000" "lets 10000"; do
    set -- $line
    answer=$("$program" "$1" "$2")
    for _ in 1 2 3; do
        { env time -f '%U %M' "$program" "$1" "$2" > /dev/null; } 2>&1
    done | sort -n | head -1 | { read -r seconds kib; printf '%-8s %8s %9s %9s %9s %9s\n' "$1" "$2" $answer "$seconds" "$kib"; }
done

printf '\n%4s %9s %9s %9s %9s %9s\n' rank side turns seconds free seconds
for line in "1 100000" "1 1000000" "2 1000" "4 32" "8 6"; do
    set -- $line
    row=$(printf '%4s %9s' "$1" "$2")
    for what in plain free; do
        answer=$("$program" $what "$1" "$2")
        seconds=$(for _ in 1 2 3; do { env time -f '%U' "$program" $what "$1" "$2" > /dev/null; } 2>&1; done | sort -n | head -1)
        row="$row $(printf '%9s %9s' "$answer" "$seconds")"
    done
    echo "$row"
done

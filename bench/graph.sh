#!/usr/bin/env bash
# Measures the solver of aql_types on graphs of five shapes: members of one set type, each a set of a variable of its own and equal to the
# one before it (two nodes and one equation each), or to the first one; pairs of equal types, both 12 pairs deep; pairs of variables
# that are made equal at random; a chain of pairs that doubles its type at each step. For each shape two lines: `make` only makes the graph
# and its equations, `solve` also solves them. Prints seconds (the least of three runs), peak memory in KiB, and what solve answers.
# Makes a small repository of its own in a temporary folder; run it from anywhere: bench/graph.sh
set -eu
. "$(dirname "$0")/crates.sh"
begin aql_types aql_ty aql_value anyhow
cat > "$work/crates/measure/src/main.rt" <<'PROGRAM'
#![tactic(auto)]

use anyhow::{Result, anyhow, bail};
use aql_types::graph::Graph;
use aql_types::grow::{empty_graph, push_natural, push_set, push_tuple, push_variable};
use aql_types::inside::are_nodes;
use aql_types::node::Equation;
use aql_types::solved_graph::solve;
use aql_types::fault::UnifyFault;
use std::alloc::Global;

// A graph and equations between its nodes.
#[derive(Drop)]
struct Made {
    graph: Graph,
    work: Vec<Equation>,
}

fn variable(g: Graph) -> Result<(u32, Graph)> {
    push_variable(g).map_err(|_| anyhow!("memory"))
}

fn natural(g: Graph) -> Result<(u32, Graph)> {
    push_natural(g).map_err(|_| anyhow!("memory"))
}

fn set(g: Graph, member: u32) -> Result<(u32, Graph)> {
    if (member as usize) < g.nodes.len() {
        push_set(g, member).map_err(|_| anyhow!("memory"))
    } else {
        bail!("no node")
    }
}

fn pair(g: Graph, a: u32, b: u32) -> Result<(u32, Graph)> {
    if (a as usize) < g.nodes.len() && (b as usize) < g.nodes.len() {
        push_tuple(g, &[a, b]).map_err(|_| anyhow!("memory"))
    } else {
        bail!("no node")
    }
}

fn members(alloc: Global, n: u64, first: bool) -> Result<Made> {
    let mut g = empty_graph(alloc);
    let mut work = Vec::new(alloc);
    let mut left = 1;
    for i in 0..n {
        let (v, more) = variable(g)?;
        let (m, more) = set(more, v)?;
        g = more;
        if i > 0 {
            work.push(Equation { left, right: m })?;
        }
        if !first {
            left = m;
        }
    }
    Ok(Made { graph: g, work })
}

fn doubled(g: Graph, a: u32, n: u64) -> Result<(u32, Graph)> {
    let mut a = a;
    let mut g = g;
    for _ in 0..n {
        let (b, more) = pair(g, a, a)?;
        a = b;
        g = more;
    }
    Ok((a, g))
}

fn pairs(alloc: Global, n: u64) -> Result<Made> {
    let (v, g) = variable(empty_graph(alloc))?;
    let (a, g) = doubled(g, v, 12)?;
    let (v, g) = variable(g)?;
    let (b, g) = doubled(g, v, 12)?;
    let mut work = Vec::new(alloc);
    for _ in 0..n {
        work.push(Equation { left: a, right: b })?;
    }
    Ok(Made { graph: g, work })
}

fn random(alloc: Global, n: u64) -> Result<Made> {
    let mut g = empty_graph(alloc);
    for _ in 0..n {
        let (_, more) = variable(g)?;
        g = more;
    }
    let mut work = Vec::new(alloc);
    let mut state: u64 = 1;
    for _ in 0..n {
        state = state.wrapping_mul(6364136223846793005).wrapping_add(1442695040888963407);
        let left = (state >> 33) % n.max(1);
        state = state.wrapping_mul(6364136223846793005).wrapping_add(1442695040888963407);
        let right = (state >> 33) % n.max(1);
        let left = u32::try_from(left)?;
        let right = u32::try_from(right)?;
        work.push(Equation { left, right })?;
    }
    Ok(Made { graph: g, work })
}

fn chain(alloc: Global, n: u64) -> Result<Made> {
    let (a, g) = natural(empty_graph(alloc))?;
    let (_, g) = doubled(g, a, n)?;
    Ok(Made {
        graph: g,
        work: Vec::new(alloc),
    })
}

fn graph_of(alloc: Global, what: &str, n: u64) -> Result<Made> {
    match what {
        "members" => members(alloc, n, false),
        "first" => members(alloc, n, true),
        "pairs" => pairs(alloc, n),
        "random" => random(alloc, n),
        "chain" => chain(alloc, n),
        _ => bail!("no such name"),
    }
}

fn main(rt: HostRuntime) -> Result<()> {
    let mut args = std::env::args(&rt)?;
    let _program = args.next();
    let call = args.next().ok_or_else(|| anyhow!("no call"))?;
    let what = args.next().ok_or_else(|| anyhow!("no name"))?;
    let n = args.next().ok_or_else(|| anyhow!("no number"))?;
    let n = n.parse::<u64>()?;
    let made = graph_of(rt.alloc(), &what, n)?;
    if call.as_str() != "solve" {
        println!(rt; "-")?;
        return Ok(());
    }
    if !are_nodes(&made.work, made.graph.nodes.len()) {
        bail!("no node");
    }
    match solve(rt.alloc(), made.graph, made.work) {
        Ok(_) => println!(rt; "solved")?,
        Err(UnifyFault::Clash) => println!(rt; "clash")?,
        Err(UnifyFault::Memory) => bail!("want of memory"),
    }
    Ok(())
}
PROGRAM
cd "$work/crates/measure"
rt run -- solve members 1 > "$work/log" 2>&1 || { cat "$work/log"; exit 1; }
program=$(find "$work/crates/measure/out" -maxdepth 1 -type f -perm -u+x | head -1)
printf '%-6s %-8s %9s %9s %9s %9s\n' call what n seconds KiB answer
for line in "members 100000" "members 1000000" "first 100000" "first 1000000" "pairs 1000000" "random 200000" "random 2000000" \
    "chain 12" "chain 13" "chain 399" "chain 400"; do
    set -- $line
    for call in make solve; do
        answer=$("$program" "$call" "$1" "$2")
        for _ in 1 2 3; do
            { env time -f '%U %M' "$program" "$call" "$1" "$2" > /dev/null; } 2>&1
        done | sort -n | head -1 | { read -r seconds kib; printf '%-6s %-8s %9s %9s %9s %9s\n' "$call" "$1" "$2" "$seconds" "$kib" "$answer"; }
    done
done

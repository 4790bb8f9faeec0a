#!/usr/bin/env bash
# Measures canon and merge of aql_value on pseudo-random values: seconds (the least of five runs), and peak memory in KiB.
# Makes a small repository of its own in a temporary folder; run it from anywhere: bench/values.sh
set -eu
. "$(dirname "$0")/crates.sh"
begin aql_value anyhow
cat > "$work/crates/measure/src/main.rt" <<'PROGRAM'
#![tactic(auto)]

use anyhow::{Result, anyhow, bail};
use aql_value::{Items, Memory, Parts, Value, canon, merge};
use std::alloc::Global;

#[derive(Drop)]
struct Random(u64);

impl Random {
    fn next(&mut self) -> u64 {
        self.0 = self.0.wrapping_mul(6364136223846793005).wrapping_add(1442695040888963407);
        self.0 >> 20
    }
}

fn numbers(alloc: Global, n: u64) -> Result<Items, Memory> {
    let mut random = Random(1);
    let mut items = Vec::new(alloc);
    for _ in 0..n {
        items.push(Value::Nat(random.next() as u128))?;
    }
    Ok(Items { items })
}

fn multiples(alloc: Global, n: u64, of: u64) -> Result<Items, Memory> {
    let mut items = Vec::new(alloc);
    for i in 0..n {
        items.push(Value::Nat((i as u128).wrapping_mul(of as u128)))?;
    }
    Ok(Items { items })
}

fn pairs(alloc: Global, n: u64) -> Result<Items, Memory> {
    let mut random = Random(1);
    let mut items = Vec::new(alloc);
    for _ in 0..n {
        let mut parts = Vec::new(alloc);
        parts.push(Value::Nat((random.next() % 16) as u128))?;
        parts.push(Value::Nat(random.next() as u128))?;
        let parts = Parts::new(Items { items: parts }).ok_or(Memory)?;
        items.push(Value::Row(parts))?;
    }
    Ok(Items { items })
}

fn measured(alloc: Global, what: &str, n: u64) -> Result<Option<usize>, Memory> {
    let count = match what {
        "numbers" => numbers(alloc, n)?.items.len(),
        "canon_numbers" => canon(alloc, numbers(alloc, n)?)?.items().items.len(),
        "pairs" => pairs(alloc, n)?.items.len(),
        "canon_pairs" => canon(alloc, pairs(alloc, n)?)?.items().items.len(),
        "lists" => {
            let a = canon(alloc, multiples(alloc, n, 2)?)?;
            let b = canon(alloc, multiples(alloc, n, 3)?)?;
            a.items().items.len().wrapping_add(b.items().items.len())
        }
        "merge" => {
            let a = canon(alloc, multiples(alloc, n, 2)?)?;
            let b = canon(alloc, multiples(alloc, n, 3)?)?;
            merge(alloc, a, b)?.items().items.len()
        }
        _ => return Ok(None),
    };
    Ok(Some(count))
}

fn main(rt: HostRuntime) -> Result<()> {
    let mut args = std::env::args(&rt)?;
    let _program = args.next();
    let what = args.next().ok_or_else(|| anyhow!("no name"))?;
    let n = args.next().ok_or_else(|| anyhow!("no number"))?;
    let n = n.parse::<u64>()?;
    match measured(rt.alloc(), &what, n) {
        Ok(Some(count)) => println!(rt; "{count}")?,
        Ok(None) => bail!("no such name"),
        Err(_) => bail!("out of memory"),
    }
    Ok(())
}
PROGRAM
cd "$work/crates/measure"
rt run -- numbers 1 > "$work/log" 2>&1 || { cat "$work/log"; exit 1; }
program=$(find "$work/crates/measure/out" -maxdepth 1 -type f -perm -u+x | head -1)
printf '%-14s %9s %9s %9s\n' what n seconds KiB
for line in "numbers 500000" "canon_numbers 500000" "numbers 1000000" "canon_numbers 1000000" "numbers 2000000" "canon_numbers 2000000" \
    "pairs 100000" "canon_pairs 100000" "pairs 200000" "canon_pairs 200000" "pairs 400000" "canon_pairs 400000" \
    "lists 500000" "merge 500000" "lists 1000000" "merge 1000000" "lists 2000000" "merge 2000000"; do
    set -- $line
    for _ in 1 2 3 4 5; do
        { env time -f '%U %M' "$program" "$1" "$2" > /dev/null; } 2>&1
    done | sort -n | head -1 | { read -r seconds kib; printf '%-14s %9s %9s %9s\n' "$1" "$2" "$seconds" "$kib"; }
done

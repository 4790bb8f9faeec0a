#!/usr/bin/env bash
# Measures gathers and unions of nrca_sets: processor seconds (the least of five runs), and peak memory in KiB. Beside them stand `canon`
# of aql_value on the same members, and a vector in plain Rust that is sorted and rid of repeats at its end.
# Makes a small repository of its own in a temporary folder; run it from anywhere: bench/sets.sh
set -eu
. "$(dirname "$0")/crates.sh"
begin nrca_sets aql_value anyhow
cat > "$work/crates/measure/src/main.rt" <<'PROGRAM'
#![tactic(auto)]

use anyhow::{Result, anyhow, bail};
use aql_value::{Items, Memory, Parts, Value, canon};
use nrca_sets::{Gather, Set};
use std::alloc::Global;

#[derive(Drop)]
struct Random(u64);

impl Random {
    fn next(&mut self) -> u64 {
        self.0 = self.0.wrapping_mul(6364136223846793005).wrapping_add(1442695040888963407);
        self.0 >> 20
    }
}

// Numbers of which 100 are distinct.
fn few(alloc: Global, n: u64) -> Result<Gather, Memory> {
    let mut random = Random(1);
    let mut gather = Gather::new(alloc);
    for _ in 0..n {
        gather = gather.one(alloc, random.next() % 100)?;
    }
    Ok(gather)
}

fn numbers(alloc: Global, n: u64) -> Result<Gather, Memory> {
    let mut random = Random(1);
    let mut gather = Gather::new(alloc);
    for _ in 0..n {
        gather = gather.one(alloc, random.next())?;
    }
    Ok(gather)
}

fn pairs(alloc: Global, n: u64) -> Result<Gather, Memory> {
    let mut random = Random(1);
    let mut gather = Gather::new(alloc);
    for _ in 0..n {
        let first = random.next() % 16;
        gather = gather.two(alloc, first, random.next())?;
    }
    Ok(gather)
}

fn pair(alloc: Global, a: u64, b: u64) -> Result<Value, Memory> {
    let mut parts = Vec::new(alloc);
    parts.push(Value::Nat(a as u128))?;
    parts.push(Value::Nat(b as u128))?;
    let parts = Parts::new(Items { items: parts }).ok_or(Memory)?;
    Ok(Value::Row(parts))
}

// Numbers and pairs in turn.
fn mixed(alloc: Global, n: u64) -> Result<Gather, Memory> {
    let mut random = Random(1);
    let mut gather = Gather::new(alloc);
    for _ in 0..n {
        gather = gather.one(alloc, random.next())?;
        let first = random.next() % 16;
        gather = gather.add(alloc, pair(alloc, first, random.next())?)?;
    }
    Ok(gather)
}

fn multiples(alloc: Global, n: u64, of: u64) -> Result<Set, Memory> {
    let mut gather = Gather::new(alloc);
    for i in 0..n {
        gather = gather.one(alloc, i.wrapping_mul(of))?;
    }
    Ok(gather.finish())
}

fn few_values(alloc: Global, n: u64) -> Result<Items, Memory> {
    let mut random = Random(1);
    let mut items = Vec::new(alloc);
    for _ in 0..n {
        items.push(Value::Nat((random.next() % 100) as u128))?;
    }
    Ok(Items { items })
}

fn pair_values(alloc: Global, n: u64) -> Result<Items, Memory> {
    let mut random = Random(1);
    let mut items = Vec::new(alloc);
    for _ in 0..n {
        let first = random.next() % 16;
        items.push(pair(alloc, first, random.next())?)?;
    }
    Ok(Items { items })
}

fn mixed_values(alloc: Global, n: u64) -> Result<Items, Memory> {
    let mut random = Random(1);
    let mut items = Vec::new(alloc);
    for _ in 0..n {
        items.push(Value::Nat(random.next() as u128))?;
        let first = random.next() % 16;
        items.push(pair(alloc, first, random.next())?)?;
    }
    Ok(Items { items })
}

fn measured(alloc: Global, what: &str, n: u64) -> Result<Option<usize>, Memory> {
    let count = match what {
        "few" => few(alloc, n)?.finish().count(),
        "numbers" => numbers(alloc, n)?.finish().count(),
        "pairs" => pairs(alloc, n)?.finish().count(),
        "mixed" => mixed(alloc, n)?.finish().count(),
        "lists" => {
            let a = multiples(alloc, n, 2)?;
            let b = multiples(alloc, n, 3)?;
            a.count().wrapping_add(b.count())
        }
        "merge" => {
            let a = multiples(alloc, n, 2)?;
            let b = multiples(alloc, n, 3)?;
            a.merge(alloc, b)?.count()
        }
        "canon_few" => canon(alloc, few_values(alloc, n)?)?.items().items.len(),
        "canon_pairs" => canon(alloc, pair_values(alloc, n)?)?.items().items.len(),
        "canon_mixed" => canon(alloc, mixed_values(alloc, n)?)?.items().items.len(),
        _ => return Ok(None),
    };
    Ok(Some(count))
}

fn main(rt: HostRuntime) -> Result<()> {
    let mut args = std::env::args(&rt)?;
    let _program = args.next();
    let what = args.next().ok_or_else(|| anyhow!("no name"))?;
    let n = args.next().ok_or_else(|| anyhow!("no number"))?;
    let n = n.parse::<u64>()?;
    match measured(rt.alloc(), &what, n) {
        Ok(Some(count)) => println!(rt; "{count}")?,
        Ok(None) => bail!("no such name"),
        Err(_) => bail!("out of memory"),
    }
    Ok(())
}
PROGRAM
cat > "$work/plain.rs" <<'PROGRAM'
struct Random(u64);

impl Random {
    fn next(&mut self) -> u64 {
        self.0 = self.0.wrapping_mul(6364136223846793005).wrapping_add(1442695040888963407);
        self.0 >> 20
    }
}

fn count<T: Ord>(mut members: Vec<T>) -> usize {
    members.sort_unstable();
    members.dedup();
    members.len()
}

fn main() {
    let mut args = std::env::args().skip(1);
    let what = args.next().unwrap();
    let n: u64 = args.next().unwrap().parse().unwrap();
    let mut random = Random(1);
    let count = match what.as_str() {
        "plain_few" => count((0..n).map(|_| random.next() % 100).collect::<Vec<u64>>()),
        "plain_numbers" => count((0..n).map(|_| random.next()).collect::<Vec<u64>>()),
        "plain_pairs" => count((0..n).map(|_| (random.next() % 16, random.next())).collect::<Vec<(u64, u64)>>()),
        _ => panic!("no such name"),
    };
    println!("{count}");
}
PROGRAM
rustc -O -o "$work/plain" "$work/plain.rs"
cd "$work/crates/measure"
rt run -- few 1 > "$work/log" 2>&1 || { cat "$work/log"; exit 1; }
program=$(find "$work/crates/measure/out" -maxdepth 1 -type f -perm -u+x | head -1)
printf '%-14s %9s %9s %9s %9s\n' what n members seconds KiB
for line in "few 1000000" "few 10000000" "canon_few 1000000" "plain_few 1000000" "numbers 1000000" "numbers 2000000" "plain_numbers 1000000" \
    "pairs 1000000" "pairs 2000000" "canon_pairs 1000000" "plain_pairs 1000000" "mixed 200000" "mixed 400000" "canon_mixed 200000" \
    "lists 1000000" "merge 1000000" "lists 2000000" "merge 2000000"; do
    set -- $line
    runs=$program
    case $1 in plain_*) runs=$work/plain ;; esac
    members=$("$runs" "$1" "$2")
    for _ in 1 2 3 4 5; do
        { env time -f '%U %S %M' "$runs" "$1" "$2" > /dev/null; } 2>&1
    done | awk '{ printf "%.2f %s\n", $1 + $2, $3 }' | sort -n | head -1 | { read -r seconds kib; printf '%-14s %9s %9s %9s %9s\n' "$1" "$2" "$members" "$seconds" "$kib"; }
done

#!/usr/bin/env bash
# Measures check of aql_infer on scripts of six shapes: many declarations of 20 nodes, many that each name the first of all, one
# comprehension of many generators, one set of many empty sets, a chain of macros that doubles its type at each step, a let that
# doubles it at each binding. For each script two lines: `read` only reads it, `check` also infers its types. Prints seconds (the
# least of three runs), peak memory in KiB, and the first declaration without a typing (0: there is none). Makes a small repository
# of its own in a temporary folder; run it from anywhere: bench/infer.sh
set -eu
. "$(dirname "$0")/crates.sh"
begin aql_lex aql_parse aql_infer aql_syntax anyhow
cat > "$work/crates/measure/src/main.rt" <<'PROGRAM'
#![tactic(auto)]

use anyhow::{Result, anyhow, bail};
use aql_infer::check::check;
use aql_infer::fault::TypeFault;
use aql_lex::lexer::tokens;
use aql_parse::script;
use aql_syntax::ast::Decls;
use std::alloc::{AllocError, Global};

fn repeated(alloc: Global, before: &[u8], part: &[u8], after: &[u8], n: u64) -> Result<Vec<u8>, AllocError> {
    let mut text = Vec::new(alloc);
    text.extend_from_slice(before)?;
    for _ in 0..n {
        text.extend_from_slice(part)?;
    }
    text.extend_from_slice(after)?;
    Ok(text)
}

// Macros `p1` to `pN` behind `p0`, each a pair of two uses of the one before it.
fn chained(alloc: Global, n: u64) -> Result<Vec<u8>, AllocError> {
    let mut text = Vec::new(alloc);
    text.extend_from_slice(b"macro \\p0 = fn \\x => x;")?;
    for j in 0..n {
        let k = j + 1;
        let part = format!(in alloc; "macro \\p{k} = fn \\x => (p{j}!x,p{j}!x);")?;
        text.extend_from_slice(part.as_bytes())?;
    }
    Ok(text)
}

fn text_of(alloc: Global, what: &str, n: u64) -> Result<Option<Vec<u8>>, AllocError> {
    match what {
        "declarations" => Ok(Some(repeated(alloc, b"", b"{(x,x*x,x) | \\x <- gen!4, x<3 and not (x=2)};", b"", n)?)),
        "uses" => Ok(Some(repeated(alloc, b"val \\x=1;", b"x;", b"", n)?)),
        "generators" => Ok(Some(repeated(alloc, b"{1 | \\x <- {1}", b", \\x <- {x}", b"};", n)?)),
        "sets" => Ok(Some(repeated(alloc, b"{", b"{},", b"{}};", n)?)),
        "macros" => Ok(Some(chained(alloc, n)?)),
        "let" => Ok(Some(repeated(alloc, b"let val \\x = 1", b" val \\x = (x,x)", b" in 1 end;", n)?)),
        _ => Ok(None),
    }
}

fn first_untyped(alloc: Global, decls: &Decls) -> Result<u64> {
    match check(alloc, decls) {
        Ok(_) => Ok(0),
        Err(TypeFault::NoType { declaration }) => Ok(declaration),
        Err(TypeFault::Memory) => bail!("want of memory"),
    }
}

fn main(rt: HostRuntime) -> Result<()> {
    let mut args = std::env::args(&rt)?;
    let _program = args.next();
    let call = args.next().ok_or_else(|| anyhow!("no call"))?;
    let what = args.next().ok_or_else(|| anyhow!("no name"))?;
    let n = args.next().ok_or_else(|| anyhow!("no number"))?;
    let n = n.parse::<u64>()?;
    let text = text_of(rt.alloc(), &what, n)?.ok_or_else(|| anyhow!("no such name"))?;
    match tokens(rt.alloc(), &text) {
        Ok(found) => match script(rt.alloc(), &found, &text) {
            Ok(decls) => {
                if call.as_str() == "check" {
                    let untyped = first_untyped(rt.alloc(), &decls)?;
                    println!(rt; "{untyped}")?
                } else {
                    println!(rt; "-")?
                }
            }
            Err(_) => bail!("no reading"),
        },
        Err(_) => bail!("no tokens"),
    }
    Ok(())
}
PROGRAM
cd "$work/crates/measure"
rt run -- check declarations 1 > "$work/log" 2>&1 || { cat "$work/log"; exit 1; }
program=$(find "$work/crates/measure/out" -maxdepth 1 -type f -perm -u+x | head -1)
printf '%-6s %-14s %9s %9s %9s %9s\n' call what n seconds KiB untyped
for line in "declarations 5000" "declarations 10000" "declarations 20000" "uses 50000" "uses 100000" "uses 200000" \
    "generators 2500" "generators 5000" "generators 10000" \
    "sets 5000" "sets 10000" "sets 19990" "macros 12" "macros 100" "macros 200" "let 12" "let 60" "let 120"; do
    set -- $line
    for call in read check; do
        untyped=$("$program" "$call" "$1" "$2")
        for _ in 1 2 3; do
            { env time -f '%U %M' "$program" "$call" "$1" "$2" > /dev/null; } 2>&1
        done | sort -n | head -1 | { read -r seconds kib; printf '%-6s %-14s %9s %9s %9s %9s\n' "$call" "$1" "$2" "$seconds" "$kib" "$untyped"; }
    done
done

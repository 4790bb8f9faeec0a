#!/usr/bin/env bash
# Measures tokens of aql_lex and script of aql_parse together on scripts of four shapes: many short declarations, a long list of
# sums, nested brackets to the scan's limit, a long list of qualifiers that begin as patterns. Prints seconds (the least of three
# runs) and peak memory in bytes a byte of the script. Makes a small repository of its own in a temporary folder; run it from anywhere: bench/scripts.sh
set -eu
. "$(dirname "$0")/crates.sh"
begin aql_lex aql_parse anyhow
cat > "$work/crates/measure/src/main.rt" <<'PROGRAM'
#![tactic(auto)]

use anyhow::{Result, anyhow, bail};
use aql_lex::lexer::tokens;
use aql_parse::script;
use std::alloc::{AllocError, Global};

fn repeated(alloc: Global, before: &[u8], part: &[u8], after: &[u8], n: u64) -> Result<Vec<u8>, AllocError> {
    let mut text = Vec::new(alloc);
    text.extend_from_slice(before)?;
    for _ in 0..n {
        text.extend_from_slice(part)?;
    }
    text.extend_from_slice(after)?;
    Ok(text)
}

fn nested(alloc: Global, n: u64) -> Result<Vec<u8>, AllocError> {
    let mut text = Vec::new(alloc);
    for _ in 0..n {
        for _ in 0..399 {
            text.push(b'(')?;
        }
        text.push(b'1')?;
        for _ in 0..399 {
            text.push(b')')?;
        }
        text.push(b';')?;
    }
    Ok(text)
}

fn text_of(alloc: Global, what: &str, n: u64) -> Result<Option<Vec<u8>>, AllocError> {
    match what {
        "declarations" => Ok(Some(repeated(alloc, b"", b"1;", b"", n)?)),
        "list" => Ok(Some(repeated(alloc, b"{1", b",1+1", b"};", n)?)),
        "brackets" => Ok(Some(nested(alloc, n)?)),
        "qualifiers" => Ok(Some(repeated(alloc, b"{1|1", b",(a,b)=c", b"};", n)?)),
        _ => Ok(None),
    }
}

fn main(rt: HostRuntime) -> Result<()> {
    let mut args = std::env::args(&rt)?;
    let _program = args.next();
    let what = args.next().ok_or_else(|| anyhow!("no name"))?;
    let n = args.next().ok_or_else(|| anyhow!("no number"))?;
    let n = n.parse::<u64>()?;
    let text = text_of(rt.alloc(), &what, n)?.ok_or_else(|| anyhow!("no such name"))?;
    match tokens(rt.alloc(), &text) {
        Ok(found) => match script(rt.alloc(), &found, &text) {
            Ok(decls) => {
                let bytes = text.len();
                let count = decls.items.len();
                println!(rt; "{bytes} {count}")?
            }
            Err(_) => bail!("no reading"),
        },
        Err(_) => bail!("no tokens"),
    }
    Ok(())
}
PROGRAM
cd "$work/crates/measure"
rt run -- declarations 1 > "$work/log" 2>&1 || { cat "$work/log"; exit 1; }
program=$(find "$work/crates/measure/out" -maxdepth 1 -type f -perm -u+x | head -1)
printf '%-14s %9s %9s %9s\n' what bytes seconds 'bytes/byte'
for line in "declarations 131072" "declarations 262144" "declarations 524288" "list 65536" "list 131072" "list 262144" \
    "brackets 328" "brackets 656" "brackets 1312" "qualifiers 32768" "qualifiers 65536" "qualifiers 131072"; do
    set -- $line
    bytes=$("$program" "$1" "$2" | cut -d' ' -f1)
    for _ in 1 2 3; do
        { env time -f '%U %M' "$program" "$1" "$2" > /dev/null; } 2>&1
    done | sort -n | head -1 | { read -r seconds kib; printf '%-14s %9s %9s %9s\n' "$1" "$bytes" "$seconds" "$((kib * 1024 / bytes))"; }
done

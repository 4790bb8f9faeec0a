#!/usr/bin/env bash
# Measures read_csv of aql_csv over the file system beside Python's csv, a set and sorted on the same files, which are of five shapes
# and of the given size in bytes (24000000, at most 50000000) and half of it. Prints seconds (the least of the runs, of which
# there are three or the number given), peak memory in KiB, and how many times as long the whole takes as the half and as Python.
#
#     bench/records.sh [BYTES [RUNS]]
#
# With the word random it compares instead what is read of random files with what Python reads (bench/random_records.py):
#
#     bench/records.sh random [SEED [FILES]]
#
# Makes a small repository of its own in a temporary folder; run it from anywhere.
set -eu
. "$(dirname "$0")/crates.sh"
begin aql_csv aql_outside aql_syntax aql_system aql_print aql_value anyhow
cat > "$work/crates/measure/src/main.rt" <<'PROGRAM'
#![tactic(auto)]

use anyhow::{Result, anyhow, bail};
use aql_csv::{Csv, CsvFault, read_csv};
use aql_syntax::ast::{CsvReader, Kind, Kinds};
use aql_system::FileSystem;
use aql_print::print_value;
use aql_value::{Str, Value};
use std::alloc::Global;
use std::io::{self, Write};

// FILE READER [show]: reads a file, and prints how many members its set has, or shows the set; or prints the fault.
fn main(rt: HostRuntime) -> Result<()> {
    let alloc = rt.alloc();
    let mut args = std::env::args(&rt)?;
    let _program = args.next();
    let name = args.next().ok_or_else(|| anyhow!("no file"))?;
    let letters = args.next().ok_or_else(|| anyhow!("no reader"))?;
    let shows = args.next().is_some();
    let reader = reader_of(alloc, letters.as_bytes())?;
    if reader.kinds.items.is_empty() {
        bail!("no kinds");
    }
    let name = Str { bytes: Vec::from_slice(alloc, name.as_bytes())? };
    let mut files = FileSystem::new(&rt);
    match read_csv(alloc, &mut files, &name, &reader, 50_000_000) {
        Ok(csv) if shows => show(&rt, alloc, &csv)?,
        Ok(csv) => println!(rt; "{}", members(&csv.value))?,
        Err(CsvFault::Fields { row, found }) => println!(rt; "fields {found} in record {row}")?,
        Err(CsvFault::Number { row, field }) => println!(rt; "number in field {field} of record {row}")?,
        Err(fault) => println!(rt; "{fault:?}")?,
    }
    Ok(())
}

fn reader_of(alloc: Global, letters: &[u8]) -> Result<CsvReader> {
    let mut items = Vec::new(alloc);
    let mut header = false;
    for letter in letters {
        match *letter {
            b'H' => header = true,
            b'N' => items.push(Kind::Number)?,
            _ => items.push(Kind::Bytes)?,
        }
    }
    Ok(CsvReader { header, kinds: Kinds { items } })
}

fn members(value: &Value) -> usize {
    match value {
        Value::Members(set) => set.items().items.len(),
        _ => 0,
    }
}

fn show(rt: &impl Print, alloc: Global, csv: &Csv) -> Result<()> {
    let mut text = Vec::new(alloc);
    if print_value(alloc, &csv.value, &mut text).is_err() {
        bail!("no memory");
    }
    match str::from_utf8(&text) {
        Ok(text) => println!(rt; "{text} of {}", csv.bytes)?,
        Err(_) => bail!("no text"),
    }
    Ok(())
}
PROGRAM
cd "$work/crates/measure"
echo 1 > one.csv
rt run -- one.csv N > "$work/log" 2>&1 || { cat "$work/log"; exit 1; }
program=$(find "$work/crates/measure/out" -maxdepth 1 -type f -perm -u+x | head -1)
cd "$work"
if [ "${1:-}" = random ]; then
    shift
    python3 "$top/bench/random_records.py" "$program" "$@"
    exit
fi
bytes=${1:-24000000}
runs=${2:-3}
cat > "$work/make.py" <<'PROGRAM'
import itertools, sys

shape, size = sys.argv[1], int(sys.argv[2])
numbers = (i * 2654435761 % 4294967291 for i in itertools.count(1))
records = {
    "mixed": lambda n: f"{n},name{n % 1000},{n % 97},{n // 7}\n",
    "sorted": lambda n: f"{n},name{n % 1000},{n % 97},{n // 7}\n",
    "quoted": lambda n: f'{n},"name, ""{n % 1000}""","{n % 89} in the {n % 97}",{n // 7}\r\n',
    "few numbers": lambda n: f"{n % 100}\n",
    "few strings": lambda n: f"{n % 100}\n",
}[shape]
lines, length = [], 0
for n in numbers:
    line = records(n)
    length += len(line)
    if length > size:
        break
    lines.append(line)
if shape == "sorted":
    lines.sort(key=lambda line: int(line.split(",")[0]))
with open(sys.argv[3], "w", newline="") as file:
    file.writelines(lines)
PROGRAM
cat > "$work/plain.py" <<'PROGRAM'
import csv, sys

kinds = sys.argv[2]
with open(sys.argv[1], newline="", encoding="latin-1") as file:
    rows = csv.reader(file)
    members = {tuple(int(f) if k == "N" else f for k, f in zip(kinds, row)) for row in rows if row}
print(len(sorted(members)))
PROGRAM
least() {
    for _ in $(seq "$runs"); do
        { env time -f '%e %M' "$@" > "$work/members"; } 2>&1
    done | sort -n | head -1
}
printf '%-12s %10s %10s %9s %9s %9s %9s %9s %9s\n' shape bytes members seconds KiB 'of half' Python KiB ratio
while read -r kinds shape; do
    python3 make.py "$shape" "$((bytes / 2))" half.csv
    python3 make.py "$shape" "$bytes" whole.csv
    half=$(least "$program" half.csv "$kinds")
    whole=$(least "$program" whole.csv "$kinds"); a=$(cat members)
    plain=$(least python3 plain.py whole.csv "$kinds"); b=$(cat members)
    [ "$a" = "$b" ] || { echo "the numbers of members differ: $a and $b"; exit 1; }
    echo "$bytes $a $half $whole $plain" | awk -v shape="$shape" '
        function over(a, b) { return b > 0 ? a / b : 0 }
        { printf "%-12s %10s %10s %9s %9s %9.1f %9s %9s %9.2f\n", shape, $1, $2, $5, $6, over($5, $3), $7, $8, over($5, $7) }'
done <<'SHAPES'
NSNN mixed
NSNN sorted
NSSN quoted
N few numbers
S few strings
SHAPES

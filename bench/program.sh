#!/usr/bin/env bash
# Measures the built program beside plain Rust built by rustc -O: its start with a script of one sum, `--sample 1000000`, and reading
# 1,000,000 shorts of a netCDF file and printing them. Prints the least elapsed seconds of the runs and the peak memory in KiB.
# Wants the program built (./aql builds it), rustc, GNU time and Python 3; run it from anywhere.
set -eu
top=$(cd "$(dirname "$0")/.." && pwd)
program="$top/crates/aql/out/aql"
test -x "$program" || { echo "build the program first: ./aql < examples/first.aql" >&2; exit 1; }
work=$(mktemp -d)
trap 'rm -rf "$work"' EXIT
cat > "$work/hello.rs" <<'PLAIN'
use std::io::Read;

// Reads standard input and prints one line.
fn main() {
    let mut text = String::new();
    std::io::stdin().read_to_string(&mut text).unwrap();
    println!("typ it : nat\nval it = {}", text.len());
}
PLAIN
cat > "$work/shorts.rs" <<'PLAIN'
use std::fs::File;
use std::io::{Read, Seek, SeekFrom, Write};

// Reads the shorts behind the header and prints them as the program does.
fn main() {
    let mut file = File::open("shorts.nc").unwrap();
    file.seek(SeekFrom::Start(HEADER)).unwrap();
    let mut bytes = Vec::new();
    file.read_to_end(&mut bytes).unwrap();
    let mut out = std::io::BufWriter::new(std::io::stdout());
    write!(out, "typ v : [[nat]]_1\nval v = [[{}; ", bytes.len() / 2).unwrap();
    for (i, pair) in bytes.chunks(2).enumerate() {
        if i > 0 {
            out.write_all(b", ").unwrap();
        }
        write!(out, "{}", i16::from_be_bytes([pair[0], pair[1]])).unwrap();
    }
    out.write_all(b"]]\n").unwrap();
}
PLAIN
cd "$work"
python3 - <<'MAKE'
import struct

n = 1000000
name = b"v" + bytes(3)
header = b"CDF\x01" + struct.pack(">I", 0)
header += struct.pack(">III", 10, 1, 1) + b"x" + bytes(3) + struct.pack(">I", n)
header += struct.pack(">II", 0, 0)
begin = len(header) + 8 + 4 + 4 + 4 + 4 + 8 + 4 + 4 + 4
header += struct.pack(">III", 11, 1, 1) + name + struct.pack(">II", 1, 0) + struct.pack(">II", 0, 0)
header += struct.pack(">III", 3, 2 * n, begin)
assert len(header) == begin
with open("shorts.nc", "wb") as f:
    f.write(header)
    f.write(b"".join(struct.pack(">h", i * 7 % 32768) for i in range(n)))
text = open("shorts.rs").read().replace("HEADER", str(begin))
open("shorts.rs", "w").write(text)
open("shorts.aql", "w").write('readval \\v using NETCDF1 at ("shorts.nc", "v", 0, %d);\n' % n)
open("one.aql", "w").write("1+2*3;\n")
open("none.aql", "w").write("")
MAKE
rustc -O -o hello hello.rs
rustc -O -o shorts shorts.rs
python3 - "$program" <<'MEASURE'
import subprocess
import sys
import time

program = sys.argv[1]


def run(words, script, times):
    least = None
    for _ in range(times):
        begun = time.perf_counter()
        status = subprocess.call(words, stdin=open(script), stdout=open("out", "wb"))
        elapsed = time.perf_counter() - begun
        assert status == 0, (words, status)
        least = elapsed if least is None else min(least, elapsed)
    timed = ["env", "time", "-o", "peak", "-f", "%M"] + words
    subprocess.check_call(timed, stdin=open(script), stdout=open("out", "wb"))
    return least, int(open("peak").read()), open("out", "rb").read()


def line(what, measured):
    print("| %s | %.4f | %d |" % (what, measured[0], measured[1]))


print("| what | seconds | KiB |")
print("|---|---|---|")
line("one sum, plain Rust", run(["./hello"], "one.aql", 50))
line("one sum", run([program], "one.aql", 50))
line("--sample 1000000", run([program, "--sample", "1000000"], "none.aql", 3))
plain = run(["./shorts"], "none.aql", 5)
line("1,000,000 shorts, plain Rust", plain)
read = run([program], "shorts.aql", 5)
line("1,000,000 shorts", read)
assert plain[2] == read[2], "the two programs print the same"
MEASURE

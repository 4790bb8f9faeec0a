#!/usr/bin/env bash
# Measures read_header and read_slab over the program's adapter of files beside plain Rust programs on the same real files: all of
# 50,000,000 shorts and every 7th; one number of each of 100,000 records of 129,600 bytes; 100 columns of 10,000 x 10,000 bytes; and a
# header of 16 MB whose variables have as many dimensions as they may. It prints seconds (the least of twelve runs, in turn with those
# of the plain program), peak memory in KiB and how many bytes a cell were read, and the seconds of the plain program, with their ratio.
# The plain program sums the numbers as it reads them; of the shorts it is also run so that it keeps them in an array, as ours does
# (`kept`). That ours makes the same numbers is seen in a run of its own, which sums the array, so that what is measured is the reading
# alone.
#
#     bench/hyperslabs.sh
#
# With the word random it compares instead what is answered of random files with what a reader in Python answers
# (bench/random_headers.py):
#
#     bench/hyperslabs.sh random [SEED [FILES]]
#
# Makes a small repository of its own in a temporary folder; run it from anywhere.
set -eu
. "$(dirname "$0")/crates.sh"
begin cdf_slab cdf_header nrca_array aql_outside aql_system aql_value anyhow byteorder
# Proves and builds the program, and runs it once with these words.
build() {
    (cd "$work/crates/measure" && rt run -- "$@") > "$work/log" 2>&1 || { cat "$work/log"; exit 1; }
    program=$(find "$work/crates/measure/out" -maxdepth 1 -type f -perm -u+x | head -1)
}
if [ "${1:-}" = random ]; then
    shift
    cat > "$work/crates/measure/src/main.rt" <<'PROGRAM'
#![tactic(auto)]

use anyhow::{Result, anyhow};
use aql_system::FileSystem;
use aql_value::{Index, Memory, Str, saturating_product};
use byteorder::{ByteOrder, LittleEndian};
use cdf_header::{CdfFault, read_header};
use cdf_slab::read_slab;
use nrca_array::Flat;
use std::alloc::Global;
use std::io;
use std::rt::Files;

#[derive(Clone, Copy)]
struct Asked<'a> {
    start: &'a Index,
    count: &'a Index,
    stride: &'a Index,
    signed: bool,
}

// The numbers of a list with commas.
fn index(alloc: Global, text: &str) -> Result<Index> {
    let mut numbers = Vec::new(alloc);
    for word in text.split(',') {
        numbers.push(word.parse::<u128>()?)?;
    }
    Ok(Index::from_slice(alloc, numbers.as_slice())?)
}

fn text(alloc: Global, text: &str) -> Result<Str, Memory> {
    Ok(Str {
        bytes: Vec::from_slice(alloc, text.as_bytes())?,
    })
}

fn answer<R: Files>(
    alloc: Global,
    files: &mut FileSystem<R>,
    file: &str,
    variable: &str,
    asked: &Asked,
) -> Result<Flat, CdfFault> {
    let rank = asked.start.len();
    if rank == 0 || rank > 8 || asked.count.len() != rank || asked.stride.len() != rank {
        return Err(CdfFault::Memory);
    }
    if saturating_product(asked.count) > 50000000 {
        return Err(CdfFault::Memory);
    }
    let name = text(alloc, file)?;
    let variable = text(alloc, variable)?;
    let header = read_header(alloc, files, &name)?;
    match header.find(&variable) {
        Some(v) => read_slab(
            alloc,
            files,
            &name,
            &header,
            v,
            asked.start,
            asked.count,
            asked.stride,
            asked.signed,
        ),
        None => Err(CdfFault::NoVariable),
    }
}

fn number_at(width: u64, bytes: &[u8], i: usize) -> u64 {
    let at = i.saturating_mul(width as usize / 8);
    match (width, bytes.get(at..)) {
        (8, Some([first, ..])) => u64::from(*first),
        (16, Some(part)) if part.len() >= 2 => u64::from(LittleEndian::read_u16(part)),
        (32, Some(part)) if part.len() >= 4 => u64::from(LittleEndian::read_u32(part)),
        (64, Some(part)) if part.len() >= 8 => LittleEndian::read_u64(part),
        _ => 0,
    }
}

fn print_cells(rt: &impl Print, flat: &Flat, signed: bool) -> io::Result<()> {
    let Some((width, bytes)) = flat.packed() else { return Ok(()) };
    let n = flat.len();
    for i in 0..n {
        if i > 0 {
            print!(rt; ", ")?;
        }
        let x = number_at(width, bytes, i);
        if signed {
            let at = n.saturating_mul(width as usize / 8).saturating_add(i);
            let below = bytes.get(at) == Some(&1);
            print!(rt; "({below}, {x})")?;
        } else {
            print!(rt; "{x}")?;
        }
    }
    Ok(())
}

fn print_flat(rt: &impl Print, flat: &Flat, signed: bool) -> io::Result<()> {
    print!(rt; "val x = [[")?;
    let mut first = true;
    for d in &flat.dims().dims {
        if !first {
            print!(rt; ",")?;
        }
        first = false;
        print!(rt; "{d}")?;
    }
    print!(rt; "; ")?;
    print_cells(rt, flat, signed)?;
    println!(rt; "]]")
}

fn print_fault(rt: &impl Print, fault: CdfFault) -> io::Result<()> {
    print!(rt; "fault file in declaration 1: ")?;
    match fault {
        CdfFault::Absent => println!(rt; "absent"),
        CdfFault::NotClassic => println!(rt; "not classic"),
        CdfFault::Version { found } => println!(rt; "version {found}"),
        CdfFault::Malformed { at } => println!(rt; "malformed at {at}"),
        CdfFault::TooMany { list } => println!(rt; "too many in list {list}"),
        CdfFault::NoVariable => println!(rt; "no variable"),
        CdfFault::Rank { found } => println!(rt; "rank {found}"),
        CdfFault::FloatVariable => println!(rt; "float variable"),
        CdfFault::Stride { dimension } => println!(rt; "stride {dimension}"),
        CdfFault::Outside { dimension } => println!(rt; "outside dimension {dimension}"),
        CdfFault::Cut { at } => println!(rt; "cut at {at}"),
        CdfFault::Negative { cell } => println!(rt; "negative cell {cell}"),
        CdfFault::Device => println!(rt; "device"),
        CdfFault::Memory => println!(rt; "memory"),
    }
}

// FILE VARIABLE START COUNT STRIDE signed|plain
fn main(rt: HostRuntime) -> Result<()> {
    let alloc = rt.alloc();
    let mut args = std::env::args(&rt)?;
    let _program = args.next();
    let file = args.next().ok_or_else(|| anyhow!("no file"))?;
    let variable = args.next().ok_or_else(|| anyhow!("no variable"))?;
    let start = args.next().ok_or_else(|| anyhow!("no start"))?;
    let count = args.next().ok_or_else(|| anyhow!("no count"))?;
    let stride = args.next().ok_or_else(|| anyhow!("no stride"))?;
    let signed = args.next().is_some_and(|word| word.as_str() == "signed");
    let start = index(alloc, start.as_str())?;
    let count = index(alloc, count.as_str())?;
    let stride = index(alloc, stride.as_str())?;
    let asked = Asked {
        start: &start,
        count: &count,
        stride: &stride,
        signed,
    };
    let mut files = FileSystem::new(&rt);
    match answer(alloc, &mut files, file.as_str(), variable.as_str(), &asked) {
        Ok(flat) => print_flat(&rt, &flat, signed)?,
        Err(fault) => print_fault(&rt, fault)?,
    }
    Ok(())
}
PROGRAM
    build none.nc v 0 1 1 plain
    python3 "$top/bench/random_headers.py" "${1:-1}" "${2:-1000}" "$program"
    exit
fi
cat > "$work/crates/measure/src/main.rt" <<'PROGRAM'
#![tactic(auto)]

use anyhow::{Result, anyhow, bail};
use aql_system::FileSystem;
use aql_value::{Index, Memory, Str, saturating_product};
use byteorder::{ByteOrder, LittleEndian};
use cdf_header::{Header, read_header};
use cdf_slab::read_slab;
use std::alloc::Global;
use std::rt::Files;

// The numbers of a list with commas, the last of them so much greater.
fn index(alloc: Global, text: &str, more: u128) -> Result<Index> {
    let mut numbers = Vec::new(alloc);
    for word in text.split(',') {
        numbers.push(word.parse::<u128>()?)?;
    }
    if let Some(last) = numbers.pop() {
        numbers.push(last.saturating_add(more))?;
    }
    Ok(Index::from_slice(alloc, numbers.as_slice())?)
}

fn text(alloc: Global, text: &str) -> Result<Str, Memory> {
    Ok(Str {
        bytes: Vec::from_slice(alloc, text.as_bytes())?,
    })
}

// Of shorts four at a time.
fn sum_of(width: u64, bytes: &[u8]) -> u64 {
    let mut sum = 0u64;
    if width == 16 {
        let whole = bytes.len() / 8;
        for i in 0..whole {
            let four = LittleEndian::read_u64(&bytes[8 * i..]);
            let two = (four & 0xffff_0000_ffff).wrapping_add((four >> 16) & 0xffff_0000_ffff);
            sum = sum.wrapping_add(two & 0xffff_ffff).wrapping_add(two >> 32);
        }
        for i in 4 * whole..bytes.len() / 2 {
            sum = sum.wrapping_add(u64::from(LittleEndian::read_u16(&bytes[2 * i..])));
        }
    } else {
        for byte in bytes {
            sum = sum.wrapping_add(u64::from(*byte));
        }
    }
    sum
}

#[derive(Clone, Copy)]
enum Told {
    Sum,
    Bytes,
}

// Of a hyperslab of naturals the sum, or how many bytes are kept of it.
fn told_of<R: Files>(
    alloc: Global,
    files: &mut FileSystem<R>,
    name: &Str,
    header: &Header,
    start: &Index,
    count: &Index,
    stride: &Index,
    told: Told,
) -> Result<u64> {
    let variable = text(alloc, "v").map_err(|_| anyhow!("no memory"))?;
    let v = header.find(&variable).ok_or_else(|| anyhow!("no variable"))?;
    let rank = start.len();
    if rank == 0 || rank > 8 || count.len() != rank || stride.len() != rank {
        bail!("no rank");
    }
    if saturating_product(count) > 50000000 {
        bail!("too many");
    }
    match read_slab(alloc, files, name, header, v, start, count, stride, false) {
        Ok(flat) => match flat.packed() {
            Some((width, bytes)) => match told {
                Told::Sum => Ok(sum_of(width, bytes)),
                Told::Bytes => Ok(bytes.len() as u64),
            },
            None => Ok(0),
        },
        Err(_) => bail!("no hyperslab"),
    }
}

fn main(rt: HostRuntime) -> Result<()> {
    let alloc = rt.alloc();
    let mut args = std::env::args(&rt)?;
    let _program = args.next();
    let file = args.next().ok_or_else(|| anyhow!("no file"))?;
    let times = args.next().ok_or_else(|| anyhow!("no times"))?.parse::<u32>()?;
    let start = args.next().ok_or_else(|| anyhow!("no start"))?;
    let count = args.next().ok_or_else(|| anyhow!("no count"))?;
    let stride = args.next().ok_or_else(|| anyhow!("no stride"))?;
    let told = match args.next() {
        Some(_) => Told::Sum,
        None => Told::Bytes,
    };
    let mut files = FileSystem::new(&rt);
    let name = text(alloc, file.as_str()).map_err(|_| anyhow!("no memory"))?;
    let header = match read_header(alloc, &mut files, &name) {
        Ok(header) => header,
        Err(_) => bail!("no header"),
    };
    let count = index(alloc, count.as_str(), 0)?;
    let stride = index(alloc, stride.as_str(), 0)?;
    let mut all = 0u64;
    for i in 0..times {
        let start = index(alloc, start.as_str(), u128::from(i))?;
        let more = told_of(alloc, &mut files, &name, &header, &start, &count, &stride, told)?;
        all = all.wrapping_add(more);
    }
    println!(rt; "{all}")?;
    Ok(())
}
PROGRAM
cat > "$work/plain.rs" <<'PROGRAM'
use std::fs::File;
use std::io::{Read, Seek, SeekFrom};
use std::os::unix::fs::FileExt;

// The shorts from byte 80 on, every so many-th.
fn shorts(count: usize, stride: usize) -> u64 {
    let mut file = File::open("shorts.nc").unwrap();
    file.seek(SeekFrom::Start(80)).unwrap();
    let mut piece = vec![0u8; 65536];
    let (mut sum, mut k, mut read) = (0u64, 0usize, 0usize);
    let last = (count - 1) * stride;
    while k <= last {
        let n = file.read(&mut piece).unwrap();
        assert!(n > 0 && n % 2 == 0);
        while k <= last && 2 * k < read + n {
            let at = 2 * k - read;
            sum += u64::from(u16::from_be_bytes([piece[at], piece[at + 1]]));
            k += stride;
        }
        read += n;
    }
    sum
}

// The same shorts, kept.
fn kept(count: usize, stride: usize) -> Vec<u16> {
    let mut file = File::open("shorts.nc").unwrap();
    file.seek(SeekFrom::Start(80)).unwrap();
    let mut piece = vec![0u8; 65536];
    let mut cells = Vec::with_capacity(count);
    let (mut k, mut read) = (0usize, 0usize);
    let last = (count - 1) * stride;
    while k <= last {
        let n = file.read(&mut piece).unwrap();
        assert!(n > 0 && n % 2 == 0);
        while k <= last && 2 * k < read + n {
            let at = 2 * k - read;
            cells.push(u16::from_be_bytes([piece[at], piece[at + 1]]));
            k += stride;
        }
        read += n;
    }
    cells
}

// So many shorts, or bytes, each read alone.
fn alone(file: &File, size: usize, start: u64, count: u64, step: u64) -> u64 {
    let mut cell = [0u8; 2];
    let mut sum = 0;
    for i in 0..count {
        file.read_exact_at(&mut cell[2 - size..], start + i * step).unwrap();
        sum += u64::from(u16::from_be_bytes(cell));
    }
    sum
}

fn main() {
    let words: Vec<String> = std::env::args().skip(1).collect();
    let number = |i: usize| words[i].parse::<u64>().unwrap();
    let sum = match words[0].as_str() {
        "shorts" => shorts(number(1) as usize, number(2) as usize),
        "kept" => kept(number(1) as usize, number(2) as usize).len() as u64,
        "point" => alone(&File::open("point.nc").unwrap(), 2, number(1), 100_000, 129_600),
        "columns" => {
            let file = File::open("field.nc").unwrap();
            (0..number(2)).map(|c| alone(&file, 1, number(1) + c, 10_000, 10_000)).sum()
        }
        _ => std::fs::read("hostile.nc").unwrap().iter().map(|b| u64::from(*b)).sum(),
    };
    println!("{sum}");
}
PROGRAM
rustc -O -o "$work/plain" "$work/plain.rs"
cd "$work"
cat > files.py <<'PROGRAM'
import array, random, sys

def put(file, words):
    file.write(b"".join(word.to_bytes(4, "big") for word in words))

# A variable `v` of 50,000,000 shorts over one dimension, from byte 80 on; each is 0 to 32767.
n = 50000000
cells = array.array("H", (i * 40503 % 32768 for i in range(1000003)))
if sys.byteorder == "little":
    cells.byteswap()
piece = cells.tobytes()
with open("shorts.nc", "wb") as file:
    put(file, [0x43444601, 0, 10, 1, 1, 0x78000000, n, 0, 0, 11, 1, 1, 0x76000000, 1, 0, 0, 0, 3, 2 * n, 80])
    left = 2 * n
    while left > 0:
        file.write(piece[:left])
        left -= min(left, len(piece))

# `v` of shorts over 100,000 records of 180 x 360, from byte 112 on, most of it never written.
with open("point.nc", "wb") as file:
    put(file, [0x43444601, 100000, 10, 3, 1, 0x74000000, 0, 1, 0x79000000, 180, 1, 0x78000000, 360, 0, 0])
    put(file, [11, 1, 1, 0x76000000, 3, 0, 1, 2, 0, 0, 3, 129600, 112])
    for t in range(0, 100000, 1000):
        file.seek(112 + t * 129600 + (90 * 360 + 180) * 2)
        file.write((t // 1000 + 300).to_bytes(2, "big"))
    file.truncate(112 + 100000 * 129600)

# `v` of bytes over 10,000 x 10,000, from byte 96 on.
with open("field.nc", "wb") as file:
    put(file, [0x43444601, 0, 10, 2, 1, 0x79000000, 10000, 1, 0x78000000, 10000, 0, 0])
    put(file, [11, 1, 1, 0x76000000, 2, 0, 1, 0, 0, 1, 100000000, 96])
    row = bytes(i * 31 % 127 for i in range(10007))
    for y in range(10000):
        file.write(row[y % 7 :][:10000])

# 1,024 dimensions, and as many variables of 1,024 of them as a header may have; the first is `v`, of one.
with open("hostile.nc", "wb") as file:
    put(file, [0x43444601, 0, 10, 1024] + [0, 1] * 1024 + [0, 0, 11, 4066])
    put(file, [1, 0x76000000, 1, 0, 0, 0, 1, 4, 0])
    put(file, ([0, 1024] + list(range(1024)) + [0, 0, 1, 4, 0]) * 4065)
PROGRAM
python3 files.py
ln -s "$work"/*.nc "$work/crates/measure"
build shorts.nc 1 0 3 1
cat > runs.py <<'PROGRAM'
import os, subprocess, sys, time

def run(words):
    """What it prints, seconds, and the bytes that it read."""
    out, into = os.pipe()
    start = time.monotonic()
    pid = os.posix_spawn(words[0], words, os.environ, file_actions=[(os.POSIX_SPAWN_DUP2, into, 1)])
    os.close(into)
    text = b""
    while part := os.read(out, 65536):
        text += part
    os.close(out)
    os.waitid(os.P_PID, pid, os.WEXITED | os.WNOWAIT)
    seconds = time.monotonic() - start
    with open(f"/proc/{pid}/io") as io:
        read = int(io.readline().split()[1])
    assert os.waitpid(pid, 0)[1] == 0, words
    return text, seconds, read

def least(*programs):
    """Of each program what it prints, the least seconds of twelve runs in turn, and the bytes that it read."""
    runs = [[run(words) for words in programs] for _ in range(12)]
    return [(runs[0][i][0], min(r[i][1] for r in runs), runs[0][i][2]) for i in range(len(programs))]

def peak(words):
    """In KiB; by a small program, since a child's peak is at least what its parent has."""
    done = subprocess.run(["env", "time", "-f", "%M", *words], stdout=subprocess.DEVNULL, stderr=subprocess.PIPE, check=True)
    return int(done.stderr)

program, plain = sys.argv[1:]
SHAPES = [
    ("50000000 every 1", 50000000, ["shorts.nc", "1", "0", "50000000", "1"], ["shorts", "50000000", "1"]),
    ("7142858 every 7", 7142858, ["shorts.nc", "1", "0", "7142858", "7"], ["shorts", "7142858", "7"]),
    ("one point", 100000, ["point.nc", "1", "0,90,180", "100000,1,1", "1,1,1"], ["point", str(112 + 2 * (90 * 360 + 180))]),
    ("100 columns", 1000000, ["field.nc", "100", "0,0", "10000,1", "1,1"], ["columns", "96", "100"]),
    ("a hostile header", 0, ["hostile.nc", "1", "0", "0", "1"], ["hostile"]),
]
print(f"{'what':18} {'seconds':>8} {'plain':>8} {'ratio':>6} {'kept':>8} {'ratio':>6} {'KiB':>7} {'bytes read a cell':>18}")
for what, cells, ours, theirs in SHAPES:
    a = run([program, *ours, "sum"])[0]
    keeps = [["kept", *theirs[1:]]] if theirs[0] == "shorts" else []
    (_, seconds, read), (b, others, _), *kept = least([program, *ours], *([plain, *words] for words in [theirs, *keeps]))
    assert cells == 0 or a == b, (what, a, b)
    each = f"{read / cells:.1f}" if cells else ""
    more = f"{kept[0][1]:8.3f} {seconds / kept[0][1]:6.2f}" if kept else " " * 15
    print(f"{what:18} {seconds:8.3f} {others:8.3f} {seconds / others:6.2f} {more} {peak([program, *ours]):7} {each:>18}")
PROGRAM
python3 runs.py "$program" "$work/plain"

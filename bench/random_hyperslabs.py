#!/usr/bin/env python3
"""Compares what readvals print with the cells that were written, on random netCDF classic files.

    bench/random_hyperslabs.py [SEED [FILES]]

Each file is of version 1, 2 or 5 and has up to three variables, with records or without. One hyperslab of
it is read, with signs, with a stride, or plainly; some reach outside, and some meet a number below 0. It
prints the first that differ, and how many it compared; its status is 1 where one differs.
"""

import itertools
import random
import struct
import subprocess
import sys
import tempfile
from dataclasses import dataclass
from pathlib import Path

PROGRAM = Path(__file__).resolve().parent.parent / "crates/aql/out/aql"


@dataclass
class Type:
    tag: int
    code: str
    least: int
    greatest: int

    @property
    def size(self):
        return struct.calcsize(">" + self.code)


CLASSIC = [
    Type(1, "b", -(2**7), 2**7 - 1),
    Type(2, "B", 0, 2**8 - 1),
    Type(3, "h", -(2**15), 2**15 - 1),
    Type(4, "i", -(2**31), 2**31 - 1),
]
LATER = [
    Type(7, "B", 0, 2**8 - 1),
    Type(8, "H", 0, 2**16 - 1),
    Type(9, "I", 0, 2**32 - 1),
    Type(10, "q", -(2**63), 2**63 - 1),
    Type(11, "Q", 0, 2**64 - 1),
]


@dataclass
class Variable:
    name: str
    type: Type
    dims: list
    cells: list


def product(dims):
    return len(list(itertools.product(*map(range, dims))))


@dataclass
class File:
    """`dims` are the lengths, 0 for the record dimension, which is the first; a variable's are places in it."""

    version: int
    records: int
    dims: list
    variables: list

    def shape(self, variable):
        return [self.dims[d] or self.records for d in variable.dims]

    def has_records(self, variable):
        return self.dims[variable.dims[0]] == 0

    def slab(self, variable):
        """The bytes of a variable without records, or of one record of it, without padding."""
        return product([self.dims[d] for d in variable.dims if self.dims[d]]) * variable.type.size

    def count(self, n):
        return struct.pack(">q" if self.version == 5 else ">i", n)

    def named(self, name):
        return self.count(len(name)) + padded(name.encode())

    def listed(self, tag, items):
        return struct.pack(">i", tag if items else 0) + self.count(len(items)) + b"".join(items)

    def header(self, begins):
        dims = [self.named(f"d{i}") + self.count(n) for i, n in enumerate(self.dims)]
        variables = []
        for v, begin in zip(self.variables, begins):
            ids = self.count(len(v.dims)) + b"".join(map(self.count, v.dims))
            size = self.count(self.slab(v) + -self.slab(v) % 4)
            at = struct.pack(">i" if self.version == 1 else ">q", begin)
            kind = struct.pack(">i", v.type.tag)
            variables.append(self.named(v.name) + ids + self.listed(0, []) + kind + size + at)
        magic = b"CDF" + bytes([self.version]) + self.count(self.records)
        return magic + self.listed(10, dims) + self.listed(0, []) + self.listed(11, variables)

    def bytes(self):
        fixed = [v for v in self.variables if not self.has_records(v)]
        recorded = [v for v in self.variables if self.has_records(v)]
        place = len(self.header([0] * len(self.variables)))
        begins, data, record = {}, b"", []
        for v in fixed:
            begins[v.name] = place + len(data)
            data += padded(packed(v, v.cells))
        first = place + len(data)
        for v in recorded:
            begins[v.name] = first
            # A single variable with records has its records one behind the other, without padding.
            size = self.slab(v) if len(recorded) == 1 else self.slab(v) + -self.slab(v) % 4
            record.append((v, size))
            first += size
        for r in range(self.records):
            for v, size in record:
                cells = len(v.cells) // self.records
                data += packed(v, v.cells[r * cells : (r + 1) * cells]).ljust(size, b"\0")
        return self.header([begins[v.name] for v in self.variables]) + data


def padded(text):
    return text + bytes(-len(text) % 4)


def packed(variable, cells):
    return struct.pack(f">{len(cells)}{variable.type.code}", *cells)


def some_file():
    version = random.choice([1, 2, 5])
    dims = [random.randint(1, 4) for _ in range(random.randint(1, 4))]
    if random.random() < 0.5:
        dims[0] = 0
    file = File(version, random.randint(0, 4) if dims[0] == 0 else 0, dims, [])
    for i in range(random.randint(1, 3)):
        others = [d for d, n in enumerate(dims) if n]
        ids = [random.randrange(len(dims))] + random.choices(others, k=random.randint(0, 3) if others else 0)
        v = Variable(f"v{i}", random.choice(CLASSIC + (LATER if version == 5 else [])), ids, [])
        least = random.choice([0, v.type.least, max(v.type.least, -9)])
        greatest = random.choice([9, v.type.greatest])
        v.cells = [random.randint(least, greatest) for _ in range(product(file.shape(v)))]
        file.variables.append(v)
    return file


@dataclass
class Hyperslab:
    start: list
    count: list
    stride: list

    def outside(self, shape):
        """The dimensions, counted from 1, that it goes past."""
        last = [b + (c - 1) * s if c else b - 1 for b, c, s in zip(self.start, self.count, self.stride)]
        return [j for j, (at, n) in enumerate(zip(last, shape), 1) if at >= n]

    def cells(self, shape, cells):
        for index in itertools.product(*map(range, self.count)):
            place = 0
            for n, b, i, s in zip(shape, self.start, index, self.stride):
                place = place * n + b + i * s
            yield cells[place]


def some_hyperslab(shape, strided):
    stride = [random.randint(1, 3) if strided else 1 for _ in shape]
    start = [random.randint(0, max(0, n - 1)) for n in shape]
    count = [random.randint(1, max(1, -(-(n - b) // s))) for n, b, s in zip(shape, start, stride)]
    if random.random() < 0.1:
        count[random.randrange(len(count))] += 1
    if random.random() < 0.05:
        count[random.randrange(len(count))] = 0
    return Hyperslab(start, count, stride)


def tupled(numbers):
    return str(numbers[0]) if len(numbers) == 1 else "(" + ",".join(map(str, numbers)) + ")"


def readval(kind, variable, slab):
    parts = ['"random.nc"', f'"{variable.name}"', tupled(slab.start), tupled(slab.count)]
    if kind == "S":
        parts.append(tupled(slab.stride))
    return f"readval \\x using NETCDF{kind}{len(slab.start)} at ({', '.join(parts)});"


def wanted(kind, shape, variable, slab):
    """The status and the last line."""
    outside = slab.outside(shape)
    if outside:
        return 9, f"fault file in declaration 1: outside dimension {outside[0]}"
    cells = list(slab.cells(shape, variable.cells))
    below = [i for i, x in enumerate(cells) if x < 0]
    if below and kind != "Z":
        return 9, f"fault file in declaration 1: negative cell {below[0]}"
    signed = [f"({str(x < 0).lower()}, {abs(x)})" for x in cells]
    texts = signed if kind == "Z" else map(str, cells)
    return 0, "val x = [[" + ",".join(map(str, slab.count)) + "; " + ", ".join(texts) + "]]"


def main():
    random.seed(int(sys.argv[1]) if len(sys.argv) > 1 else 1)
    files = int(sys.argv[2]) if len(sys.argv) > 2 else 1000
    different = faults = 0
    with tempfile.TemporaryDirectory() as folder:
        for _ in range(files):
            file, kind = some_file(), random.choice(["", "Z", "S"])
            (Path(folder) / "random.nc").write_bytes(file.bytes())
            variable = random.choice(file.variables)
            shape = file.shape(variable)
            slab = some_hyperslab(shape, kind == "S")
            script = readval(kind, variable, slab)
            status, line = wanted(kind, shape, variable, slab)
            done = subprocess.run([str(PROGRAM)], input=script, cwd=folder, capture_output=True, text=True)
            faults += status != 0
            if done.returncode != status or done.stdout.splitlines()[-1:] != [line]:
                different += 1
                if different <= 3:
                    print(script, shape, file, status, line, done.returncode, done.stdout, sep="\n")
    print(f"{files} hyperslabs compared, {faults} of them with a fault; {different} differ")
    return different > 0


if __name__ == "__main__":
    sys.exit(main())

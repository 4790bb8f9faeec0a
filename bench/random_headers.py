#!/usr/bin/env python3
"""Compares what readvals of random netCDF classic files give, values and faults, with a reader in Python.

    bench/random_headers.py [SEED [FILES [PROGRAM]]]

The files are of the versions 1, 2 and 5 and have dimensions, attributes and variables at random, empty lists with and without
their tag, padding of any bytes, gaps before the cells and equal names; some are streaming, some are cut, and of many a word or more
is changed. One hyperslab of each is asked for. The reader here follows the format's own text and shares nothing with the program. It
prints the first that differ, how many it compared and how many of each fault; its status is 1 where one differs.

PROGRAM is the program of bench/hyperslabs.sh that answers one readval by its words; without it the built aql is run.
"""

import random
import struct
import subprocess
import sys
import tempfile
from collections import Counter
from itertools import product
from math import prod
from pathlib import Path

AQL = Path(__file__).resolve().parent.parent / "crates/aql/out/aql"
GREATEST = 2**128 - 1
MOST_HEADER = 16777216
SIZES = {1: 1, 2: 1, 3: 2, 4: 4, 5: 4, 6: 8, 7: 1, 8: 2, 9: 4, 10: 8, 11: 8}
SIGNED = {1, 3, 4, 10}


class Fault(Exception):
    pass


# ---- the reader


class Header:
    """The fields of a header, one behind the other from byte 4 on."""

    def __init__(self, data):
        self.data, self.at = data, 4
        self.end = min(len(data), MOST_HEADER)
        if len(data) < 4 or data[:3] != b"CDF":
            raise Fault("not classic")
        self.version = data[3]
        if self.version not in (1, 2, 5):
            raise Fault(f"version {self.version}")
        self.wide = 8 if self.version == 5 else 4
        self.numrecs = self.number(self.wide)
        self.dims = []
        for _ in range(self.items(10, 1, 1024)):
            self.name()
            place = self.at
            length = self.number(self.wide)
            if length == 0 and 0 in self.dims:
                raise Fault(f"malformed at {place}")
            self.dims.append(length)
        self.attributes()
        self.variables = [self.variable() for _ in range(self.items(11, 3, 8192))]

    def take(self, room):
        if self.at + room > self.end:
            raise Fault(f"malformed at {self.at}")
        self.at += room
        return self.data[self.at - room : self.at]

    def number(self, width):
        return int.from_bytes(self.take(width), "big")

    def count(self, which, most, tag=None):
        place = self.at
        n = self.number(self.wide)
        if n > most:
            raise Fault(f"too many in list {which}")
        if tag == 0 and n != 0:
            raise Fault(f"malformed at {place}")
        return n

    def items(self, own, which, most):
        place = self.at
        tag = self.number(4)
        if tag not in (0, own):
            raise Fault(f"malformed at {place}")
        return self.count(which, most, tag)

    def name(self):
        n = self.number(self.wide)
        return self.take((n + 3) // 4 * 4)[:n]

    def type(self):
        place = self.at
        n = self.number(4)
        if not 1 <= n <= (11 if self.version == 5 else 6):
            raise Fault(f"malformed at {place}")
        return n

    def attributes(self):
        for _ in range(self.items(12, 2, 8192)):
            self.name()
            size = SIZES[self.type()]
            n = self.number(self.wide) * size
            self.take((n + 3) // 4 * 4)

    def variable(self):
        name = self.name()
        ids = []
        for j in range(self.count(4, 1024)):
            place = self.at
            i = self.number(self.wide)
            if i >= len(self.dims) or (j > 0 and self.dims[i] == 0):
                raise Fault(f"malformed at {place}")
            ids.append(i)
        self.attributes()
        kind = self.type()
        self.number(self.wide)
        begin = self.number(4 if self.version == 1 else 8)
        return name, ids, kind, begin

    def has_records(self, ids):
        return bool(ids) and self.dims[ids[0]] == 0

    def record(self):
        """The bytes from one record to the next."""
        slabs = [
            prod(self.dims[i] for i in ids[1:]) * SIZES[kind] for _, ids, kind, _ in self.variables if self.has_records(ids)
        ]
        return slabs[0] if len(slabs) == 1 else sum((n + 3) // 4 * 4 for n in slabs)

    def records(self):
        if self.numrecs != 2 ** (8 * self.wide) - 1:
            return self.numrecs
        begins = [begin for _, ids, _, begin in self.variables if self.has_records(ids)]
        size = self.record()
        if not begins or size == 0:
            return 0
        return max(0, (len(self.data) - min(begins)) // size)


def answer(data, asked):
    """The line that is printed last, without its front."""
    if data is None:
        raise Fault("absent")
    header = Header(data)
    found = [v for v in header.variables if v[0] == asked.variable.encode()]
    if not found:
        raise Fault("no variable")
    _, ids, kind, begin = found[0]
    if len(ids) != len(asked.start):
        raise Fault(f"rank {len(ids)}")
    if kind in (5, 6):
        raise Fault("float variable")
    if 0 in asked.stride:
        raise Fault(f"stride {asked.stride.index(0) + 1}")
    shape = [header.dims[i] or header.records() for i in ids]
    for j, (n, s, c, t) in enumerate(zip(shape, asked.start, asked.count, asked.stride), 1):
        if s > n if c == 0 else s + (c - 1) * t >= n:
            raise Fault(f"outside dimension {j}")
    over_records = header.has_records(ids)
    size, record, places = SIZES[kind], header.record(), []
    for index in product(*(range(s, s + c * t, t) if c else [] for s, c, t in zip(asked.start, asked.count, asked.stride))):
        offset = 0
        for i, at in list(zip(ids, index))[1 if over_records else 0 :]:
            offset = offset * header.dims[i] + at
        place = begin + offset * size + (index[0] * record if over_records else 0)
        if place + size > len(data):
            raise Fault(f"cut at {min(place, GREATEST)}")
        places.append(place)
    numbers = [int.from_bytes(data[p : p + size], "big", signed=kind in SIGNED) for p in places]
    if asked.reader == "Z":
        cells = [f"({str(x < 0).lower()}, {abs(x)})" for x in numbers]
    else:
        for c, x in enumerate(numbers):
            if x < 0:
                raise Fault(f"negative cell {c}")
        cells = list(map(str, numbers))
    return "val x = [[" + ",".join(map(str, asked.count)) + "; " + ", ".join(cells) + "]]"


# ---- files


class Writer:
    def __init__(self):
        self.version = random.choice([1, 2, 5])
        self.wide = ">Q" if self.version == 5 else ">I"

    def count(self, n):
        return struct.pack(self.wide, n)

    def padding(self, n):
        return random.choice([bytes(-n % 4), random.randbytes(-n % 4)])

    def name(self, text):
        return self.count(len(text)) + text.encode() + self.padding(len(text))

    def list(self, tag, items):
        if not items:
            tag = random.choice([0, 0, tag])
        return struct.pack(">I", tag) + self.count(len(items)) + b"".join(items)

    def attributes(self):
        return self.list(12, [self.attribute() for _ in range(random.choice([0, 0, 0, 1, 2]))])

    def type(self):
        return random.choice([1, 2, 3, 4] * 3 + [5, 6] + ([7, 8, 9, 10, 11] * 2 if self.version == 5 else []))

    def attribute(self):
        kind, n = self.type(), random.randint(0, 5)
        values = random.randbytes(n * SIZES[kind])
        return self.name(some_name()) + struct.pack(">I", kind) + self.count(n) + values + self.padding(len(values))

    def make(self):
        """The bytes, and the names of the variables with their dimensions' lengths and the number of records."""
        lengths = [random.choice([1, 2, 3, 3, 4, 5]) for _ in range(random.choice([0, 1, 2, 2, 3, 3, 4]))]
        if lengths and random.random() < 0.6:
            lengths[random.randrange(len(lengths))] = 0
        records = random.randint(0, 4)
        fixed = [i for i, n in enumerate(lengths) if n]
        variables = []
        for _ in range(random.choice([0, 1, 1, 2, 2, 3, 4])):
            first = random.choices(range(len(lengths)), k=1) if lengths and random.random() < 0.95 else []
            ids = first + (random.choices(fixed, k=random.choice([0, 0, 1, 1, 2])) if first and fixed else [])
            variables.append((some_name(), ids, self.type(), self.attributes()))
        front = b"CDF" + bytes([self.version])
        streaming = random.random() < 0.25
        front += struct.pack(self.wide, (2**64 if self.version == 5 else 2**32) - 1) if streaming else self.count(records)
        front += self.list(10, [self.name(some_name()) + self.count(n) for n in lengths])
        front += self.attributes()
        width = 4 if self.version == 1 else 8
        heads = [
            self.name(name) + self.count(len(ids)) + b"".join(map(self.count, ids)) + kept + struct.pack(">I", kind)
            for name, ids, kind, kept in variables
        ]
        empty = self.list(11, [head + self.count(0) + bytes(width) for head in heads])
        place = len(front) + len(empty) + random.choice([0, 0, 4, 10])
        slabs = {}
        for v, (_, ids, kind, _) in enumerate(variables):
            over = bool(ids) and lengths[ids[0]] == 0
            slabs[v] = over, prod(lengths[i] for i in ids[over:]) * SIZES[kind]
        begins = {}
        for v, (over, n) in slabs.items():
            if not over:
                begins[v] = place
                place += (n + 3) // 4 * 4
        recorded = [v for v, (over, _) in slabs.items() if over]
        size = sum((slabs[v][1] + 3) // 4 * 4 for v in recorded) if len(recorded) != 1 else slabs[recorded[0]][1]
        at = place
        for v in recorded:
            begins[v] = at
            at += (slabs[v][1] + 3) // 4 * 4
        if begins and random.random() < 0.05:
            begins[random.choice(list(begins))] = random.choice([0, 5, 2**31, 2**32 - 1, 2**64 - 1 if width == 8 else 7])
        vsize = (lambda: 0) if random.random() < 0.5 else (lambda: random.randint(0, 2**32 - 1))
        items = [head + self.count(vsize()) + begins[v].to_bytes(width, "big") for v, head in enumerate(heads)]
        tag = empty[:4] if not items else struct.pack(">I", 11)
        data = front + tag + self.count(len(items)) + b"".join(items)
        small = random.random() < 0.5
        length = max(place + size * records, len(data)) - len(data)
        data += bytes(random.choice([0, 1, 7, 127]) for _ in range(length)) if small else random.randbytes(length)
        shapes = [(name, [lengths[i] or records for i in ids]) for name, ids, _, _ in variables]
        return bytearray(data), shapes


def some_name():
    return "".join(random.choices("vwx", k=random.choice([0, 1, 1, 1, 1, 2, 5])))


WORDS = [0, 1, 2, 3, 4, 5, 6, 7, 10, 11, 12, 0x400, 0x401, 0x2000, 0x2001, 0x7FFFFFFF, 0xFFFFFFFF]


def spoil(data):
    """Cuts a file, or changes words of it."""
    lot = random.random()
    if lot < 0.15:
        del data[random.randint(0, len(data)) :]
    elif lot < 0.5:
        for _ in range(random.choice([1, 1, 1, 2, 3])):
            at = random.randrange(0, min(len(data), 400) // 4 + 1) * 4
            word = random.choice(WORDS) if random.random() < 0.9 else random.randrange(2**32)
            if at + 4 <= len(data):
                data[at : at + 4] = word.to_bytes(4, "big")
    elif lot < 0.52:
        data[random.randrange(4)] ^= 1 << random.randrange(8)


class Asked:
    def __init__(self, shapes):
        self.reader = random.choice(["", "Z", "S"])
        self.variable, shape = random.choice(shapes) if shapes else ("v", [2])
        if random.random() < 0.03:
            self.variable = random.choice(["none", "v"])
        if not shape or random.random() < 0.03:
            shape = [2] * random.randint(1, 3)
        self.file = "none.nc" if random.random() < 0.005 else "random.nc"
        self.stride = [random.randint(1, 3) if self.reader == "S" else 1 for _ in shape]
        self.start = [random.randint(0, max(0, n - 1)) for n in shape]
        self.count = [random.randint(1, max(1, -(-(n - s) // t))) for n, s, t in zip(shape, self.start, self.stride)]
        j = random.randrange(len(shape))
        lot = random.random()
        if lot < 0.08:
            self.count[j] += random.choice([1, 1, 40])
        elif lot < 0.16:
            self.count[j], self.start[j] = 0, random.randint(0, shape[j] + 1)
        elif lot < 0.2:
            self.start[j] = random.choice([shape[j], 2**64 - 3, GREATEST])
        elif lot < 0.24 and self.reader == "S":
            self.stride[j] = random.choice([0, 2**64, GREATEST])

    def numbers(self):
        return [self.start, self.count] + ([self.stride] if self.reader == "S" else [])

    def script(self):
        numbers = [str(ns[0]) if len(ns) == 1 else "(" + ",".join(map(str, ns)) + ")" for ns in self.numbers()]
        argument = ", ".join([f'"{self.file}"', f'"{self.variable}"', *numbers])
        return f"readval \\x using NETCDF{self.reader}{len(self.start)} at ({argument});"

    def words(self):
        lists = [",".join(map(str, ns)) for ns in (self.start, self.count, self.stride)]
        return [self.file, self.variable, *lists, "signed" if self.reader == "Z" else "plain"]


def told(program, asked, folder):
    if program is None:
        done = subprocess.run([str(AQL)], input=asked.script(), cwd=folder, capture_output=True, text=True)
    else:
        done = subprocess.run([program, *asked.words()], cwd=folder, capture_output=True, text=True)
    return done.stdout.splitlines()[-1:], done.returncode


def main():
    random.seed(int(sys.argv[1]) if len(sys.argv) > 1 else 1)
    files = int(sys.argv[2]) if len(sys.argv) > 2 else 1000
    program = sys.argv[3] if len(sys.argv) > 3 else None
    different, kinds = 0, Counter()
    with tempfile.TemporaryDirectory() as folder:
        for _ in range(files):
            data, shapes = Writer().make()
            spoil(data)
            data = bytes(data)
            asked = Asked(shapes)
            (Path(folder) / "random.nc").write_bytes(data)
            try:
                line, status = answer(data if asked.file == "random.nc" else None, asked), 0
                kinds["a value"] += 1
            except Fault as fault:
                line, status = f"fault file in declaration 1: {fault}", 9
                kinds[str(fault).rstrip("0123456789").strip()] += 1
            found, ended = told(program, asked, folder)
            if found != [line] or (program is None and ended != status):
                different += 1
                if different <= 3:
                    print(asked.script(), data.hex(), line, found, ended, sep="\n")
    print(f"{files} files, {different} differ")
    for kind, n in kinds.most_common():
        print(f"{n:7} {kind}")
    return different > 0


if __name__ == "__main__":
    sys.exit(main())

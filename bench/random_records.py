#!/usr/bin/env python3
"""Compares what is read of random files of records with what Python's csv reads of them.

    bench/random_records.py PROGRAM [SEED [FILES]]

The program is the one that bench/records.sh makes; `bench/records.sh random [SEED [FILES]]` makes it and calls this. Half of
the files are random bytes among commas, quotes, ends of lines, marks, digits and signs, half are records with numbers,
quotes, blanks and now and then another length. It prints the first files that differ, and how many it compared; its
status is 1 where one differs.
"""

import csv
import io
import random
import subprocess
import sys
import tempfile
from pathlib import Path

MARK = b"\xef\xbb\xbf"
PIECES = [b",", b",", b'"', b'"', b"\n", b"\r", b"\r\n", MARK, b"\x00", b"\xff", b" ", b"+", b"-", b"a", b"0", b"7", b"12"]
FIELDS = [b"", b"1", b"007", b"+1", b"-1", b" 1", b"1.0", b"a", b'"a,b"', b'"a""b"', b'"1"', b'"\r\n"', b'a"b', b'"a"b', b'"', b"\xff"]
LARGE = [str(2**128 - 1).encode(), str(2**128).encode(), b"0" * 40 + b"5"]


def random_bytes():
    return b"".join(random.choices(PIECES, k=random.randint(0, 30)))


def random_field(kind):
    if kind == "N" and random.random() < 0.93:
        return random.choice([b"1", b"2", b"3", b"007", b'"1"', b"34"])
    return random.choice(FIELDS + LARGE if random.random() < 0.2 else FIELDS)


def random_records(kinds):
    lines = [MARK] if random.random() < 0.1 else []
    for _ in range(random.randint(0, 6)):
        fields = [random_field(kind) for kind in kinds]
        if random.random() < 0.04:
            fields = random.choice([fields[1:], fields + [b"1"]])
        lines += [b",".join(fields), random.choice([b"\n", b"\n", b"\r\n", b"\r", b"\n\n"])]
    return b"".join(lines if random.random() < 0.7 else lines[:-1])


def records(data):
    """The records by Python's csv, of which a line without bytes is none."""
    text = data.removeprefix(MARK).decode("latin-1")
    return [[f.encode("latin-1") for f in row] for row in csv.reader(io.StringIO(text, newline="")) if row]


def number(field):
    n = int(field) if field.isdigit() else 2**128
    return n if n < 2**128 else None


def quoted(field):
    def byte(b):
        return "\\" + chr(b) if b in b'"\\' else chr(b) if 0x20 <= b < 0x7F else f"\\x{b:02x}"

    return '"' + "".join(map(byte, field)) + '"'


def wanted(data, header, kinds):
    """The line that the program prints."""
    members = set()
    for r, row in list(enumerate(records(data), 1))[1 if header else 0 :]:
        if len(row) != len(kinds):
            return f"fields {len(row)} in record {r}"
        parts = [number(f) if k == "N" else f for k, f in zip(kinds, row)]
        if None in parts:
            return f"number in field {parts.index(None) + 1} of record {r}"
        members.add(tuple(parts))
    texts = [[str(p) if isinstance(p, int) else quoted(p) for p in member] for member in sorted(members)]
    shown = [t[0] if len(kinds) == 1 else "(" + ", ".join(t) + ")" for t in texts]
    return "{" + ", ".join(shown) + "} of " + str(len(data))


def main():
    program = str(Path(sys.argv[1]).resolve())
    random.seed(int(sys.argv[2]) if len(sys.argv) > 2 else 1)
    files = int(sys.argv[3]) if len(sys.argv) > 3 else 1000
    different = faults = 0
    with tempfile.TemporaryDirectory() as folder:
        for _ in range(files):
            header = random.random() < 0.3
            kinds = "".join(random.choices("NS", k=random.randint(1, 3)))
            data = random_bytes() if random.random() < 0.5 else random_records(kinds)
            (Path(folder) / "random.csv").write_bytes(data)
            words = [program, "random.csv", "H" * header + kinds, "show"]
            done = subprocess.run(words, cwd=folder, capture_output=True, text=True)
            line = wanted(data, header, kinds)
            faults += not line.startswith("{")
            if done.stdout != line + "\n":
                different += 1
                if different <= 3:
                    print(words[2], data, line, done.stdout, done.stderr, sep="\n")
    print(f"{files} files compared, {faults} of them with a fault; {different} differ")
    return different > 0


if __name__ == "__main__":
    sys.exit(main())

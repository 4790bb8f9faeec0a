#!/usr/bin/env python3
"""Runs the script of docs/LARGE.md over files that it makes, and compares each value with what Python finds over the same numbers,
and the turns with the page's formulas.

    checks/large.py PROGRAM            a grid of 11 x 14, 200 records of 30 names
    checks/large.py PROGRAM large      a grid of 1,000 x 1,000, 100,000 records of 2,000 names, with the greatest budget

Prints what differs, and behind the word the time and memory of the whole script. Wants no more than Python's own library.
"""

import array
import csv
import io
import random
import re
import resource
import shutil
import struct
import subprocess
import sys
import tempfile
import time
from collections import Counter, defaultdict
from pathlib import Path

ROOT = Path(__file__).resolve().parent.parent
sys.path.insert(0, str(ROOT / "examples"))
sys.dont_write_bytecode = True
import values  # noqa: E402

SIZES = {False: (11, 14, 200, 30, 60), True: (1000, 1000, 100_000, 2000, 5000)}


def main():
    program, is_large = Path(sys.argv[1]).resolve(), sys.argv[2:] == ["large"]
    rows, columns, records, names, days = SIZES[is_large]
    data = Data(random.Random(7), rows, columns, records, names, days)
    wrong = []
    with tempfile.TemporaryDirectory() as folder:
        data.write(Path(folder))
        script = script_of(rows, columns, days)
        start = time.monotonic()
        run = subprocess.Popen(
            [program, "--plan", "--budget", "50000000"], stdin=subprocess.PIPE, stdout=subprocess.PIPE, cwd=folder
        )
        out = run.communicate(script.encode())[0]
        used = time.monotonic() - start
    lines = out.split(b"\n")
    turns = {name: int(count) for name, count in re.findall(rb"^turns (\w+) = (\d+)$", out, re.M)}
    found = {}
    try:
        for name, value in values.entries(io.BytesIO(b"\n".join(each for each in lines if each[:4] in (b"typ ", b"val ", b"mac ")) + b"\n")):
            found[name] = list(value) if isinstance(value, array.array) else value
    except values.Fault as fault:
        wrong.append(str(fault))
    if run.returncode:
        wrong.append(f"the script ends with status {run.returncode}: {lines[-2].decode(errors='replace')}")
    for name, want in expected(data).items():
        if name not in found:
            wrong.append(f"{name} has no value")
        elif found[name] != want:
            wrong.append(f"{name} is {str(found[name])[:200]}, and Python finds {str(want)[:200]}")
    for name, most in most_turns(data).items():
        if turns.get(name.encode(), 0) > most:
            wrong.append(f"{name} takes {turns[name.encode()]} turns, and the page says {most} at most")
    if is_large:
        print(f"{used:.1f} s, {resource.getrusage(resource.RUSAGE_CHILDREN).ru_maxrss // 1024} MB, {sum(turns.values())} turns by the plans")
    print("\n".join(wrong) if wrong else f"{len(expected(data))} values")
    sys.exit(bool(wrong))


class Data:
    """The numbers that the files have."""

    def __init__(self, chance, rows, columns, records, names, days):
        self.rows, self.columns = rows, columns
        self.depth = [[0 if chance.random() < 0.1 else chance.randrange(3500) for _ in range(columns)] for _ in range(rows)]
        one = [[chance.randrange(300) for _ in range(columns)] for _ in range(rows)]
        self.sst = [one, [[x + (chance.random() < 0.01) for x in row] for row in one]]
        self.series = [chance.randrange(5, 10) if chance.random() < 0.45 else chance.randrange(5) for _ in range(days)]
        known = [f"station {number}" for number in chance.sample(range(10**6), names + names // 4)]
        self.readings = [(number, chance.choice(known[:names]), chance.randrange(1000)) for number in range(records)]
        self.heights = [(name, chance.randrange(3000)) for name in known[names // 4 :]]

    def write(self, folder):
        (folder / "sst.nc").write_bytes(
            netcdf({
                "depth": ([("lat", self.rows), ("lon", self.columns)], [x for row in self.depth for x in row]),
                "sst": ([("time", 2), ("lat", self.rows), ("lon", self.columns)], [x for day in self.sst for row in day for x in row]),
            })
        )
        shutil.copy(ROOT / "examples/anomaly.nc", folder)
        (folder / "series.nc").write_bytes(netcdf({"level": ([("day", len(self.series))], self.series)}))
        for name, head, rows in [("readings.csv", ("id", "station", "value"), self.readings), ("heights.csv", ("station", "height"), self.heights)]:
            with open(folder / name, "w", newline="") as file:
                csv.writer(file).writerows([head, *rows])


def netcdf(variables):
    """A classic file of variables of shorts, each with its dimensions and cells."""
    dimensions = list(dict.fromkeys(each for of, _ in variables.values() for each in of))
    begins = [0] * len(variables)
    for _ in range(2):
        head = b"CDF\1" + struct.pack(">iii", 0, 10, len(dimensions))
        head += b"".join(name_of(name) + struct.pack(">i", size) for name, size in dimensions)
        head += struct.pack(">iiii", 0, 0, 11, len(variables))
        at = []
        for (name, (of, cells)), begin in zip(variables.items(), begins):
            head += name_of(name) + struct.pack(">i", len(of)) + b"".join(struct.pack(">i", dimensions.index(each)) for each in of)
            head += struct.pack(">iiiii", 0, 0, 3, padded(2 * len(cells)), begin)
            at.append(padded(2 * len(cells)))
        begins = [len(head) + sum(at[:i]) for i in range(len(at))]
    body = b"".join(struct.pack(f">{len(cells)}h", *cells).ljust(padded(2 * len(cells)), b"\0") for _, cells in variables.values())
    return head + body


def padded(size):
    return (size + 3) // 4 * 4


def name_of(name):
    return struct.pack(">i", len(name)) + name.encode().ljust(padded(len(name)), b"\0")


def script_of(rows, columns, days):
    """The macros and the blocks of the page, over the sizes of the files that were made."""
    page = (ROOT / "docs/LARGE.md").read_text()
    blocks = [block for kind, block in re.findall(r"^```(.*)\n((?:.*\n)*?)```\n", page, re.M) if kind == "" and not block.startswith("typ ")]
    text = (ROOT / "examples/large.aql").read_text() + "".join(blocks)
    text = text.replace("(0,0), (3,4)", f"(0,0), ({rows},{columns})").replace("(1,3,4)", f"(1,{rows},{columns})")
    return text.replace('"level", 0, 16', f'"level", 0, {days}')


def expected(data):
    """Each value of the page, as Python finds it."""
    depth, cells = data.depth, [(x, i, j) for i, row in enumerate(data.depth) for j, x in enumerate(row)]
    count = Counter(x for x, _, _ in cells)
    falling = sorted((x for x, _, _ in cells), reverse=True)
    deepest, limit = falling[0], falling[2]
    tens, groups = defaultdict(list), defaultdict(list)
    for _, name, x in data.readings:
        tens[x // 10].append(x)
        groups[name].append(x)
    heights = dict(data.heights)
    there = [x for x, _, _ in cells if x]
    days = data.series
    run, longest = 0, 0
    for level in days:
        run = run + 1 if level >= 5 else 0
        longest = max(longest, run)
    assert longest < 16
    gaps = {((i - 2) ** 2 + j**2): None for x, i, j in cells if x >= 100}
    gap = min(gaps)
    return {
        "deepest": deepest,
        "where": listed((i, j) for x, i, j in cells if x == deepest),
        "shallowest": min(there),
        "limit": limit,
        "first_3": listed(each for each in cells if each[0] >= limit),
        "median": falling[(len(cells) + 1) // 2 - 1],
        "percentile_90": falling[len(cells) // 10],
        "distinct": listed(count.items()),
        "mean_by_ten": listed((10 * k, sum(of) // len(of)) for k, of in tens.items()),
        "mean_by_name": listed((name, len(of), sum(of) // len(of)) for name, of in groups.items()),
        "joined": listed((number, x, heights[name]) for number, name, x in data.readings if name in heights),
        "mean_there": sum(there) // len(there),
        "coldest": (True, 12),
        "mean_anomaly": (True, 2),
        "risen": values.Array((3,), [(True, 7), (False, 19), (True, 5)]),
        "run": longest,
        "from_day": listed(t for t in range(len(days) - longest + 1) if all(x >= 5 for x in days[t : t + longest])),
        "box": listed((i, j, depth[i][j]) for i in (1, 2) for j in (1, 2)),
        "near": listed((i, j) for _, i, j in cells if (i - 1) ** 2 + (j - 1) ** 2 <= 2),
        "gap": gap,
        "nearest": listed((i, j) for x, i, j in cells if x >= 100 and (i - 2) ** 2 + j**2 == gap),
        "differ": listed(
            (i, j, x, data.sst[1][i][j]) for i, row in enumerate(data.sst[0]) for j, x in enumerate(row) if data.sst[1][i][j] != x
        ),
    }


def listed(members):
    return sorted(set(members))


def most_turns(data):
    """The page's formulas."""
    grid, cells = 2 * (data.rows + data.rows * data.columns), data.rows * data.columns
    most = max(x for row in data.depth for x in row) + 1
    distinct = min(cells, most)
    n, names = len(data.readings), len({name for _, name, _ in data.readings})
    days = len(data.series)
    return {
        "deepest": grid + 2 * distinct + most,
        "where": grid,
        "h": grid + 2 * cells + 2 * most,
        "limit": 36 * most,
        "median": 36 * most,
        "names": n + 2 * names * names + 3 * names,
        "by_name": 2 * n + names,
        "mean_by_name": 3 * n + 4 * names,
        "joined": 3 * n,
        "mean_there": 0,
        "moving": days + 6 * days,
        "rise": days,
        "r2": days,
        "longest": days + 12 * days,
        "differ": 2 * (1 + data.rows + cells),
    }


main()

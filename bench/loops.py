#!/usr/bin/env python3
"""Measures loops by the built program with one worker beside the same loops in Python, in turn.

    bench/loops.py [RUNS [NAME..]]

For each loop it prints the least processor seconds of the runs (five where no number is given) of the program and of a Python
process that runs the loop alone, their ratio and the most that it may be, the peak memory of the program above that of a script of
one number, and the most that it may be. Both must print the same value. `workers` in place of names measures one loop with 1, 2 and
4 workers by elapsed seconds instead.
"""

import os
import subprocess
import sys
import tempfile
import time
from pathlib import Path

PROGRAM = Path(__file__).resolve().parent.parent / "crates/aql/out/aql"
MB = 1 << 20

# Of each loop its query, the Python that makes the same value in `r`, the most of Python's time, the most memory above the least
# in bytes (None: not said).
LOOPS = {
    "sum": ("summap(fn \\i => i)!(gen!5000000);", "r = 0\nfor i in range(5000000): r += i", 1 / 5, 2 * MB),
    "products": ("summap(fn \\i => i*i%97)!(gen!5000000);", "r = 0\nfor i in range(5000000): r += i * i % 97", 1 / 5, 2 * MB),
    "tabulation": (
        "let val \\a = [[i*i%97 | \\i<1000000]] in a[5]+a[7] end;",
        "a = []\nfor i in range(1000000): a.append(i * i % 97)\nr = a[5] + a[7]", 1 / 3, 1.5 * 1e6 + 2 * MB),
    "two dimensions": (
        "let val \\a = [[i*j%97 | \\i<1000,\\j<1000]] in a[5,1]+a[7,2] end;",
        "a = []\nfor i in range(1000):\n  for j in range(1000): a.append(i * j % 97)\nr = a[5001] + a[7002]", 1 / 3,
        1.5 * 1e6 + 2 * MB),
    "cells": (
        "let val \\a = [[i*i%97 | \\i<1000000]] in summap(fn \\i => a[i]+a[i])!(gen!1000000) end;",
        "a = []\nfor i in range(1000000): a.append(i * i % 97)\nr = 0\nfor i in range(1000000): r += a[i] + a[i]", 1 / 3,
        1.5 * 1e6 + 2 * MB),
    "if": (
        "summap(fn \\i => if i%3=0 then i else 1)!(gen!5000000);",
        "r = 0\nfor i in range(5000000): r += i if i % 3 == 0 else 1", 1 / 3, 2 * MB),
    "nested": (
        "summap(fn \\i => summap(fn \\j => i*j)!(gen!100))!(gen!50000);",
        "r = 0\nfor i in range(50000):\n  s = 0\n  for j in range(100): s += i * j\n  r += s", 1 / 3, 2 * MB),
    "row sums": (
        "let val \\a = [[i*j%97 | \\i<1000,\\j<1000]] val \\b = [[summap(fn \\j => a[i,j]+a[i,j])!(gen!1000) | \\i<1000]]"
        " in b[1]+b[2] end;",
        "a = []\nfor i in range(1000):\n  for j in range(1000): a.append(i * j % 97)\nb = []\nfor i in range(1000):\n  s = 0\n"
        "  for j in range(1000): s += a[i * 1000 + j] + a[i * 1000 + j]\n  b.append(s)\nr = b[1] + b[2]", 1 / 3, 1.5 * 1e6 + 2 * MB),
    "filter": (
        "count!({x*x | \\x <- gen!1000000, x%3=0});",
        "s = set()\nfor x in range(1000000):\n  if x % 3 == 0: s.add(x * x)\nr = len(sorted(s))", 1 / 3, 2.5 * 8 * 333334 + 2 * MB),
    "few": (
        "count!({x%100 | \\x <- gen!1000000});",
        "s = set()\nfor x in range(1000000): s.add(x % 100)\nr = len(sorted(s))", 1 / 3, 2.5 * 800 + 2 * MB),
    "pairs": (
        "count!({(x%10,x) | \\x <- gen!1000000});",
        "s = set()\nfor x in range(1000000): s.add((x % 10, x))\nr = len(sorted(s))", 1 / 10, 32e6 + 2 * MB),
    "index": (
        "len!(index_1!({(x%10,x) | \\x <- gen!1000000}));",
        "s = set()\nfor x in range(1000000): s.add((x % 10, x))\ng = [[] for _ in range(10)]\nfor k, x in sorted(s): g[k].append(x)\n"
        "r = len(g)", 1 / 10, 48e6 + 2 * MB),
    "sum over pairs": (
        "let val \\s = {(x%10,x) | \\x <- gen!1000000} in summap(fn (\\a,\\b) => a*b)!(s) + count!s end;",
        "s = set()\nfor x in range(1000000): s.add((x % 10, x))\nr = 0\nfor a, b in sorted(s): r += a * b\nr += len(s)", 1 / 10, 32e6 + 2 * MB),
    "join": (
        "val \\s = {(x,x*x) | \\x <- gen!1500}; val \\t = {(x,2*x) | \\x <- gen!1500}; count!({(b,c) | (\\a,\\b) <- s, (a,\\c) <- t});",
        "s = [(x, x * x) for x in range(1500)]\nt = [(x, 2 * x) for x in range(1500)]\no = set()\nfor a, b in s:\n  for d, c in t:\n"
        "    if a == d: o.add((b, c))\nr = len(sorted(o))", 1, 2 * MB),
    "part": (
        "val \\p = ([[i | \\i<10000]], 7); summap(fn \\i => (fst!p)[i%10000])!(gen!1000000);",
        "p = (list(range(10000)), 7)\nr = 0\nfor i in range(1000000): r += p[0][i % 10000]", 3, None),
    "strings": (
        'count!({if x%2=0 then "even" else if x%3=0 then "three" else "odd" | \\x <- gen!300000});',
        's = set()\nfor x in range(300000): s.add("even" if x % 2 == 0 else "three" if x % 3 == 0 else "odd")\nr = len(sorted(s))',
        2, None),
    "mixed": (
        "count!({(x%10,x,x<5) | \\x <- gen!200000});",
        "s = set()\nfor x in range(200000): s.add((x % 10, x, x < 5))\nr = len(sorted(s))", 2, None),
    "huge": (
        "summap(fn \\i => i*100000000000000000000)!(gen!1000000);",
        "r = 0\nfor i in range(1000000): r += i * 100000000000000000000", 2, None),
}


def program(path, words=(), workers=1):
    with open(path) as source:
        started = time.perf_counter()
        child = subprocess.Popen(
            [str(PROGRAM), "--budget", "50000000", "--workers", str(workers), *words], stdin=source, stdout=subprocess.PIPE, stderr=subprocess.STDOUT)
        out = child.stdout.read()
        _, status, used = os.wait4(child.pid, 0)
        elapsed = time.perf_counter() - started
    if status:
        sys.exit(f"the program ended with status {os.waitstatus_to_exitcode(status)}: {out[-200:].decode(errors='replace')}")
    return used.ru_utime + used.ru_stime, out, elapsed


def python(loop):
    text = f"import time\nt = time.process_time()\ndef f():\n  " + loop.replace("\n", "\n  ") + \
        "\n  return r\nr = f()\nprint(time.process_time() - t)\nprint(r)"
    out = subprocess.run([sys.executable, "-c", text], capture_output=True, check=True, text=True).stdout.splitlines()
    return float(out[0]), out[1]


def peak(path):
    """In bytes; by a small program, since a child's peak is at least what its parent has."""
    with open(path) as source:
        done = subprocess.run(
            ["env", "time", "-f", "%M", str(PROGRAM), "--budget", "50000000"], stdin=source, stdout=subprocess.DEVNULL,
            stderr=subprocess.PIPE, check=True)
    return int(done.stderr) * 1024


def one(path):
    path.write_text("1;")
    return min(peak(path) for _ in range(3))


def loops(runs, names):
    print("| loop | seconds | Python | ratio | at most | MB | at most |\n|---|---|---|---|---|---|---|")
    with tempfile.TemporaryDirectory() as folder:
        path = Path(folder) / "script"
        least = one(path)
        for name in names or LOOPS:
            query, loop, ratio, memory = LOOPS[name]
            path.write_text(query)
            ours, theirs, memory_above = [], [], peak(path) - least
            for _ in range(runs):
                seconds, out, _ = program(path)
                ours.append(seconds)
                slow, value = python(loop)
                theirs.append(slow)
            said = out.decode().splitlines()[-1].split(" = ", 1)[1]
            if said != value:
                sys.exit(f"{name}: {said} is not {value}")
            most = f"{memory / 1e6:.1f}" if memory else ""
            print(
                f"| {name} | {min(ours):.3f} | {min(theirs):.3f} | {min(ours) / min(theirs):.2f} | {ratio:.2f} | {memory_above / 1e6:.1f} |"
                f" {most} |", flush=True)


def workers(runs):
    print("| loop | workers | elapsed | times as fast |\n|---|---|---|---|")
    with tempfile.TemporaryDirectory() as folder:
        path = Path(folder) / "script"
        for name, query in {
            "sum": "summap(fn \\i => (i*i%97)*(i*i%89)+(i*i%83)*(i*i%79))!(gen!24000000);",
            "tabulation": "let val \\a = [[summap(fn \\j => (i*j%97)*(i*j%89)+(i*j%83)*(i*j%79))!(gen!50) | \\i<400000]] in a[5]+a[7] end;",
            "few": "count!({x%100 | \\x <- gen!20000000});",
            "pairs": "count!({(x%10,x) | \\x <- gen!8000000});",
            "index": "len!(index_1!({(x%10,x) | \\x <- gen!4000000}));",
        }.items():
            path.write_text(query)
            took = {w: min(program(path, (), w)[2] for _ in range(runs)) for w in (1, 2, 4)}
            for w, seconds in took.items():
                print(f"| {name} | {w} | {seconds:.2f} | {took[1] / seconds:.2f} |", flush=True)


def main():
    words = sys.argv[1:]
    runs = int(words[0]) if words else 5
    if words[1:] == ["workers"]:
        workers(runs)
    else:
        loops(runs, words[1:])


main()

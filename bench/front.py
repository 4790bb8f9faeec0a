#!/usr/bin/env python3
"""Measures what a script costs before its first line: runs the built program on long scripts that are read, typed and measured.

    bench/front.py [RUNS]                 the table, each shape whole and by half (least of so many runs, 3 where none is given)
    bench/front.py random [SEED [N]]      N random shapes (200) of 1 MiB each, made of pieces of the grammar; the slowest ten
    bench/front.py print SHAPE [PART]     prints the script of a shape, or the part of it that is given as a fraction

The program is the one that the build leaves, or the one that AQL names. A line has the bytes of the script, the least processor
seconds, the peak memory in MB, the last line, and how many times as long the whole takes as half of it; behind them stands how
long a loop of Python takes meanwhile, so that tables of two machines can be compared. A run is cut off after 60 seconds or at
6 GB. `1=true;` at the end of a script has no type, so that what stands before it is read and typed, and nothing is evaluated.
"""

import os
import random
import resource
import subprocess
import sys
import tempfile
import time
from pathlib import Path

PROGRAM = Path(os.environ.get("AQL", Path(__file__).resolve().parent.parent / "crates/aql/out/aql"))
MIB = 1 << 20
END = "1=true;"


def filled(before, part, after, size):
    return before + part * max(1, (size - len(before) - len(after)) // len(part)) + after


def listed(part, n):
    return ",".join([part] * n)


def macros(n):
    return "macro \\p0 = fn \\x => x;" + "".join(f"macro \\p{i + 1} = fn \\x => (p{i}!x,p{i}!x);" for i in range(n))


def lets(n):
    return "let val \\x = 1" + " val \\x = (x,x)" * n + " in 1 end;"


def named(n):
    return "(let val \\x0=1" + "".join(f" val \\x{i + 1}=x{i}" for i in range(n)) + f" in x{n} end)"


# Each shape makes a script from a part between 0 and 1 of its size; behind it stands the most that it may take: seconds, MB.
SHAPES = {
    "uses": (lambda p: filled("val \\x=1;", "x;", "", int(p * MIB)), 3, 700),
    "first": (lambda p: filled("", "fst!(1,2);", "", int(p * MIB)), 5, None),
    "empties": (lambda p: "{" + listed("{}", int(p * 19_990)) + "};", 0.5, None),
    "empties17": (lambda p: ("{" + listed("{}", 19_990) + "};") * int(p * 17), 6, None),
    "large": (lambda p: filled("{", "{},", "{}};", int(p * MIB)), 3, None),
    "generators": (lambda p: "{1 | \\x <- {1}" + ", \\x <- {x}" * int(p * 10_000) + "};", 1, None),
    "macro": (
        lambda p: "macro \\f = fn \\x => (" + "x=x," * int(p * 6_600) + "let val \\a=(1,1)" + " val \\a=(a,a)" * 11
        + " in x=a end);" + END, 0.5, 100),
    "tuple": (lambda p: "val \\x = (" + listed("1", 9_990) + ");{" + listed("x=x", int(p * 6_600)) + "};" + END, 0.5, 100),
    "open": (lambda p: "val \\x = (" + listed("{}", 4_999) + ");{" + listed("x=x", int(p * 6_600)) + "};" + END, 12, 3_000),
    "scheme": (
        lambda p: "macro \\f = fn (" + listed("_", 9_990) + ") => 1;macro \\g = fn \\x => (" + listed("f!x", int(p * 1_000)) + ");"
        + END, 2, None),
    "lets": (lambda p: filled("", "{" + ",".join([named(190)] * 34) + "};", END, int(p * MIB)), 3, None),
    "between": (
        lambda p: "macro \\f = fn \\x => x;" + "1;" * int(p * 250_000) + "f!1;" * int(p * (MIB - 500_100) / 4), 5, None),
    "applied": (
        lambda p: "macro \\a = fn 1 => 1;macro \\b = fn 1 => {" + listed("a!1", 4_000) + "};{" + listed("b!1", int(p * 258_000))
        + "};", 1, None),
    "macros100": (lambda p: macros(int(p * 100)), 0.1, None),
    "lets100": (lambda p: lets(int(p * 100)), 0.1, None),
}


def limited():
    resource.setrlimit(resource.RLIMIT_AS, (6 << 30, 6 << 30))


def run(script, path, seconds=60):
    path.write_text(script)
    printed = path.with_suffix(".printed")
    # (into a file, as a user keeps a long answer: through a pipe each line wakes the reader, at the cost of the program)
    with open(path) as source, open(printed, "wb") as sink:
        # (a small program starts ours, since a child's peak is at least what its parent has)
        child = subprocess.Popen(["env", str(PROGRAM)], stdin=source, stdout=sink, stderr=subprocess.STDOUT, preexec_fn=limited)
        timer = subprocess.Popen(["sh", "-c", f"sleep {seconds}; kill {child.pid}"], stdout=subprocess.DEVNULL)
        _, status, used = os.wait4(child.pid, 0)
        timer.kill()
        timer.wait()
    with open(printed, "rb") as answer:
        answer.seek(max(0, printed.stat().st_size - 300))
        lines = answer.read().decode(errors="replace").splitlines()
    ended = lines[-1][:60] if lines and not os.WIFSIGNALED(status) else "cut off"
    return used.ru_utime + used.ru_stime, used.ru_maxrss / 1024, ended


def loop():
    """The processor seconds of a loop of 5,000,000 additions: tells how fast the machine goes just then."""
    begun, total = time.process_time(), 0
    for i in range(5_000_000):
        total += i
    return time.process_time() - begun


def table(runs):
    print("| shape | bytes | seconds | at most | MB | at most | of half | last line |\n|---|---|---|---|---|---|---|---|")
    paces = []
    with tempfile.TemporaryDirectory() as folder:
        path = Path(folder) / "script"
        for name, (make, seconds, mb) in SHAPES.items():
            whole, half = make(1), make(0.5)
            paces.append(loop())
            # (in turn, so that a host that slows down slows both)
            both = [(run(whole, path), run(half, path)) for _ in range(runs)]
            took, most, last = min(r for r, _ in both)
            halved = min(r for _, r in both)[0]
            ratio = f"{took / halved:.1f}" if halved > 0.02 else ""
            print(f"| {name} | {len(whole)} | {took:.2f} | {seconds} | {most:.0f} | {mb or ''} | {ratio} | `{last}` |", flush=True)
    print(f"\nA loop of 5,000,000 additions in Python took {min(paces):.2f} to {max(paces):.2f} seconds between the shapes.")


# Random shapes: a few declarations, and one typed piece that is repeated in a list, a chain or as declarations. `n` is a number, `b` a
# truth value, `p` a pair of numbers, `s` a set of numbers, `a` an array of numbers; names are given by these letters.
def expression(rng, names, kind, depth):
    leaves = {"n": ["1", "2"], "b": ["true", "1=2"], "p": ["(1,2)"], "s": ["{}", "{1}", "{1,2}"], "a": ["[[2; 1,2]]"]}[kind]
    if depth == 0 or rng.random() < 0.15:
        return rng.choice(leaves + names.get(kind, []) * 3)

    def part(of, **more):
        return expression(rng, {**names, **{k: names.get(k, []) + [v] for k, v in more.items()}}, of, depth - 1)

    x = rng.choice("xyz")
    of = rng.choice("nbpsa")
    ways = {
        "n": [lambda: f"({part('n')}+{part('n')})", lambda: f"({part('n')}*{part('n')})", lambda: f"fst!{part('p')}",
              lambda: f"count!({part('s')})", lambda: f"len!({part('a')})", lambda: f"({part('a')})[{part('n')}]",
              lambda: f"summap(fn \\{x} => {part('n', n=x)})!({part('s')})", lambda: f"get!({part('s')})"],
        "b": [lambda: f"({part(of)}={part(of)})", lambda: f"({part('n')}<{part('n')})", lambda: f"(not {part('b')})",
              lambda: f"({part('b')} and {part('b')})"],
        "p": [lambda: f"({part('n')},{part('n')})", lambda: f"m!({part('n')})"],
        "s": [lambda: f"{{{part('n')},{part('n')}}}", lambda: f"{{{part('n', n=x)} | \\{x} <- {part('s')}}}",
              lambda: f"{{{part('n', n=x)} | \\{x} <- {part('s')}, {part('b')}}}", lambda: f"(gen!({part('n')}))",
              lambda: f"({part('s')} union {part('s')})"],
        "a": [lambda: f"[[{part('n', n=x)} | \\{x}<{part('n')}]]", lambda: f"[[2; {part('n')},{part('n')}]]"],
    }[kind]
    always = [
        lambda: f"(if {part('b')} then {part(kind)} else {part(kind)})", lambda: f"({part(kind)} default {part(kind)})",
        lambda: f"(let val \\{x}={part('n')} in {part(kind, n=x)} end)",
    ]
    return rng.choice(ways * 2 + always)()


def shape(rng, size):
    head = "val \\v=1;val \\w=(1,2);val \\t=gen!3;macro \\m=fn \\x => (x,x);" + rng.choice(["", "val \\u={};"])
    kind = rng.choice("nbpsa")
    part = expression(rng, {"n": ["v"], "p": ["w"], "s": ["t"]}, kind, rng.choice([1, 2, 2, 3]))
    way = rng.choice(["declared", "declared", "named", "macros", "tuple", "set", "array", "sum", "tests", "generators", "lets", "nested"])
    room = size - len(head) - len(END)
    if way == "declared":
        body = (part + ";") * max(1, room // (len(part) + 1))
    elif way == "named":
        n = max(1, room // (len(part) + 14))
        body = "".join(f"val \\a{i}={part};" for i in range(n))
    elif way == "macros":
        n = max(1, room // (len(part) + 26))
        body = "".join(f"macro \\b{i}=fn \\x => {part};" for i in range(n))
    elif way in ("tuple", "set", "array"):
        # Lists of lengths that are within the limits, and one to the end that may not be.
        length = rng.choice([50, 1_000, 9_000, room])
        n = max(2, min(length, room // (len(part) + 1)))
        left, right = {"tuple": "()", "set": "{}", "array": ("[[" + str(n) + ";", "]]")}[way]
        whole = left + listed(part, n) + right + ";"
        body = whole * max(1, room // len(whole))
    elif way == "sum":
        op = {"n": "+", "b": " and ", "s": " union "}.get(kind, " default ")
        n = rng.choice([100, 5_000, room])
        whole = op.join([part] * max(1, min(n, room // (len(part) + len(op))))) + ";"
        body = whole * max(1, room // len(whole))
    elif way in ("tests", "generators"):
        piece = f", {part}={part}" if way == "tests" else f", \\x <- {{{part}}}"
        n = max(1, min(rng.choice([100, 900, 20_000, room]), room // len(piece)))
        whole = "{1 | \\x <- {1}" + piece * n + "};"
        body = whole * max(1, room // len(whole))
    elif way == "lets":
        piece = f" val \\x={part}"
        n = max(1, min(rng.choice([10, 300, 5_000, room]), room // len(piece)))
        whole = "let val \\x=1" + piece * n + " in x end;"
        body = whole * max(1, room // len(whole))
    else:
        depth = rng.choice([10, 100, 380])
        left, right = rng.choice([("(", ")"), ("{", "}"), ("fst!(", ",1)"), ("m!(fst!(", ",1))"), ("if true then ", f" else {part}")])
        whole = left * depth + part + right * depth + ";"
        body = whole * max(1, room // len(whole))
    return way, part, head + body + END


def randomly(seed, n):
    rng = random.Random(seed)
    found = []
    with tempfile.TemporaryDirectory() as folder:
        path = Path(folder) / "script"
        for i in range(n):
            way, part, script = shape(rng, MIB)
            found.append((*run(script, path), way, len(script), part))
            if sys.stderr.isatty():
                print(f"\r{i + 1}", end="", file=sys.stderr)
    print("| seconds | MB | way | bytes | last line | piece |\n|---|---|---|---|---|---|")
    slowest = sorted(found, key=lambda f: -f[0])[:10]
    largest = sorted(found, key=lambda f: -f[1])[:3]
    for took, most, last, way, size, part in slowest + largest:
        print(f"| {took:.2f} | {most:.0f} | {way} | {size} | `{last}` | `{part[:80]}` |")


def main():
    words = sys.argv[1:]
    if words[:1] == ["random"]:
        randomly(int(words[1]) if len(words) > 1 else 1, int(words[2]) if len(words) > 2 else 200)
    elif words[:1] == ["print"]:
        print(SHAPES[words[1]][0](float(words[2]) if len(words) > 2 else 1))
    else:
        table(int(words[0]) if words else 3)


main()

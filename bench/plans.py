#!/usr/bin/env python3
"""Measures what plans cost: runs the built program with --plan on scripts whose terms are long, deep or heavy.

    bench/plans.py [RUNS]

For each script it prints its bytes, the least processor seconds of the runs (3 where no number is given), the peak memory,
the status and the last lines, cut to 60 bytes. The stack is the one that the shell allows (`ulimit -s`, 8 MB as a rule).

- `lets`: nested lets, 50 of them, each of a sum of 196 numbers that ends with the name before; the plan of it is some 9,750 deep.
- `loops`: sums within sums over generated sets, a subscript of a tabulation in each.
- `nodes`: a tuple of comprehensions of about 1,000 nodes.
- `string`: a string of 500,000 bytes, used 1,000 times; and `through`: one of 1,000,000 bytes through 100 lets.
- `row`: the subscript of a tabulation of pairs; `far`: the length of a tabulation of 10^12 cells; both are single queries.
- `many`: 50,000 declarations of a name each, behind one of a set.
"""

import resource
import subprocess
import sys
import tempfile
from pathlib import Path

PROGRAM = Path(__file__).resolve().parent.parent / "crates/aql/out/aql"


def scripts():
    ones = "+1" * 195
    yield "lets", "".join(
        f"let val \\x{i} = ({f'x{i - 1}' if i else '1'}{ones}) in " for i in range(50)
    ) + "x49" + " end" * 50 + ";"
    yield "loops", (
        "(" + ",".join(f"summap(fn \\x => [[j+{i} | \\j<1000000000000]][x])!(gen!3)" for i in range(40)) + ");"
    )
    yield "nodes", "(" + ",".join(f"{{x*x+{i} | \\x <- gen!10, x < {i}}}" for i in range(45)) + ");"
    yield "string", 'let val \\s = "' + "a" * 500_000 + '" in count!({' + ",".join(["s"] * 1000) + "}) end;"
    yield "through", (
        'let val \\a0 = "' + "b" * 1_000_000 + '" in '
        + "".join(f"let val \\a{i} = a{i - 1} in " for i in range(1, 100))
        + "a99" + " end" * 100 + ";"
    )
    yield "row", "[[(i,i) | \\i<10]][3];"
    yield "far", "len!([[i | \\i<1000000000000]]);"
    yield "many", "val \\s = gen!3; " + "s;" * 50_000


def run(script, path):
    path.write_text(script)
    with open(path) as source:
        before = resource.getrusage(resource.RUSAGE_CHILDREN)
        done = subprocess.run(
            ["/usr/bin/env", "time", "-f", "%M", str(PROGRAM), "--plan"], stdin=source, capture_output=True
        )
        after = resource.getrusage(resource.RUSAGE_CHILDREN)
    seconds = after.ru_utime + after.ru_stime - before.ru_utime - before.ru_stime
    kib = done.stderr.decode(errors="replace").split()[-1:]
    return seconds, kib[0] if kib else "?", done.returncode, done.stdout


def main():
    runs = int(sys.argv[1]) if len(sys.argv) > 1 else 3
    print("| script | bytes | seconds | KiB | status | last lines |\n|---|---|---|---|---|---|")
    with tempfile.TemporaryDirectory() as folder:
        for name, script in scripts():
            least = min((run(script, Path(folder) / "script") for _ in range(runs)), key=lambda r: r[0])
            last = " / ".join(line[:60].decode(errors="replace") for line in least[3].splitlines()[-2:])
            print(f"| {name} | {len(script)} | {least[0]:.3f} | {least[1]} | {least[2]} | `{last}` |", flush=True)


main()

#!/usr/bin/env python3
"""Compares readvals of random files of records with what Python's csv reads of them.

    bench/random_tables.py [SEED [FILES]]

The files, and what is wanted of them, are those of bench/random_records.py. Each is read by a script of two
declarations with `--plan`, at times with a budget near the file's size, or by a name that no file has. The whole
output is compared, with the type and the turns. It prints the first that differ, and how many it compared; its
status is 1 where one differs.
"""

import random
import subprocess
import sys
import tempfile
from pathlib import Path

sys.dont_write_bytecode = True

from random_records import random_bytes, random_records, wanted

PROGRAM = Path(__file__).resolve().parent.parent / "crates/aql/out/aql"
TYPES = {"N": "nat", "S": "string"}
BEFORE = "typ it : nat\nval it = 1\nplan it = 1\nrules it = none\nturns it = 0\n"


def expected(name, data, header, kinds, budget):
    """The status and the whole output of the script."""
    if name != "random.csv":
        return 9, BEFORE + "fault file in declaration 2: absent\n"
    if len(data) > budget:
        return 12, BEFORE + "fault budget in declaration 2\n"
    line = wanted(data, header, kinds)
    if not line.startswith("{"):
        return 9, BEFORE + f"fault file in declaration 2: {line}\n"
    value, size = line.rsplit(" of ", 1)
    members = " * ".join(TYPES[k] for k in kinds)
    plan = f'plan T = "{name}"\nrules T = none\nturns T = {size}\n'
    return 0, BEFORE + f"typ T : {{{members}}}\nval T = {value}\n{plan}"


def main():
    random.seed(int(sys.argv[1]) if len(sys.argv) > 1 else 1)
    files = int(sys.argv[2]) if len(sys.argv) > 2 else 1000
    different = faults = 0
    with tempfile.TemporaryDirectory() as folder:
        for _ in range(files):
            header = random.random() < 0.3
            kinds = "".join(random.choices("NS", k=random.randint(1, 3)))
            data = random_bytes() if random.random() < 0.5 else random_records(kinds)
            (Path(folder) / "random.csv").write_bytes(data)
            name = "random.csv" if random.random() < 0.98 else "none.csv"
            near = max(1, len(data) + random.randint(-1, 1))
            budget = near if random.random() < 0.2 else 10_000_000
            script = f'1; readval \\T using CSV{"H" * header}{kinds} at "{name}";'
            words = [str(PROGRAM), "--plan", "--budget", str(budget)]
            done = subprocess.run(words, input=script, cwd=folder, capture_output=True, text=True)
            status, output = expected(name, data, header, kinds, budget)
            faults += status != 0
            if (done.returncode, done.stdout) != (status, output):
                different += 1
                if different <= 3:
                    print(script, data, budget, status, output, done.returncode, done.stdout, sep="\n")
    print(f"{files} tables compared, {faults} of them with a fault; {different} differ")
    return different > 0


if __name__ == "__main__":
    sys.exit(main())

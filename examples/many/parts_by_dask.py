#!/usr/bin/env python3
"""Asks many files by the workers of dask.distributed: prints a line of comma-separated numbers for each file, the number of the file first.

    python3 many/parts_by_dask.py SCRIPT FILE..

Starts two workers on this machine; with the address of a scheduler in DASK_SCHEDULER it takes that one's workers, which need the program,
the files and this folder under the same names. AQL names the program where it is not on the path. A file whose run ends early is told
on standard error, and the others go on; the status is then 1. Wants dask.distributed.
"""

import os
import subprocess
import sys
from pathlib import Path


def part(number, script, file, program):
    """The numbers of one file, or the line of the fault."""
    sys.path.insert(0, str(Path(script).resolve().parent.parent))
    import values

    text = Path(script).read_text().replace("FILE", file)
    run = subprocess.run([program], input=text.encode(), capture_output=True)
    if run.returncode:
        return file, None, (run.stdout or run.stderr).decode(errors="replace").splitlines()[-1]
    return file, [number, *values.read(run.stdout.decode(errors="surrogateescape"))["part"]], None


def main():
    from distributed import Client, LocalCluster

    script, files = sys.argv[1], sys.argv[2:]
    address = os.environ.get("DASK_SCHEDULER") or LocalCluster(n_workers=2, threads_per_worker=1, dashboard_address=None)
    failed = False
    with Client(address) as client:
        program = os.environ.get("AQL", "aql")
        answers = client.gather(client.map(part, range(1, len(files) + 1), [script] * len(files), files, [program] * len(files)))
    for file, numbers, fault in answers:
        if fault:
            print(f"{file}: {fault}", file=sys.stderr)
            failed = True
        else:
            print(*numbers, sep=",")
    sys.exit(failed)


if __name__ == "__main__":
    main()

#!/usr/bin/env python3
"""Prints, for each variable of a netCDF file that aql can read, the declaration that reads all of it.

    python3 readvals.py sst.nc > sst.aql
    python3 readvals.py stations.csv

Where ./install has put it, it is the command aql-readvals.

Of a netCDF file it wants the command `ncdump` (Debian: netcdf-bin). A variable whose type has signs is read with NETCDFZ where one
of its cells is below 0, as `ncdump` shows them. Of a variable that cannot be read it prints a comment with the reason, and with
a command that makes it readable where there is one. Of a file of comma-separated records it prints the declaration with the kind
of each field, N for numbers and S for strings, as all of its records have them, and the names of the fields where the first record
has names. With Python's own library alone.
"""

import csv
import re
import subprocess
import sys
from pathlib import Path

PROGRAM = Path(sys.argv[0]).name
NUMBERS = {"byte", "short", "int", "int64", "ubyte", "ushort", "uint", "uint64", "char"}
SIGNED = {"byte", "short", "int", "int64"}
RESERVED = set(
    "val macro readval using at fn let in end if then else true false and or not union gen get len summap default".split()
) | {f"{word}_{rank}" for word in ("dim", "index") for rank in range(1, 9)}
KINDS = {"classic", "64-bit offset", "cdf5", "64-bit data"}
BUDGET, GREATEST = 10_000_000, 50_000_000
DIMENSION = re.compile(r"^\t(\S+) = (?:UNLIMITED ; // \((\d+) currently\)|(\d+) ;)")
VARIABLE = re.compile(r"^\t(\w+) (\S+?)(?:\(([^)]*)\))? ;$")
FILL = re.compile(r"^\t\t(\S+):_FillValue = ([0-9]+)")
NUMBER = re.compile(r"[0-9]+")
MOST = 2**128 - 1


def main():
    if len(sys.argv) != 2 or sys.argv[1].startswith("-"):
        sys.exit(f"usage: {PROGRAM} FILE")
    name = sys.argv[1]
    try:
        with open(name, "rb") as file:
            front = file.read(8)
    except OSError as error:
        sys.exit(f"{PROGRAM}: {error}")
    is_netcdf = front[:3] == b"CDF" or front == b"\x89HDF\r\n\x1a\n"
    print("\n".join(of_netcdf(name) if is_netcdf else of_records(name)))


def of_netcdf(name):
    """The declarations of a netCDF file."""
    kind = ncdump("-k", name).strip()
    if kind not in KINDS:
        yield comment(f"{name} is of the kind {kind}: nccopy -k classic OLD NEW makes a file that can be read")
        return
    lengths, taken, header = {}, set(), ncdump("-h", name).splitlines()
    filled = {unescaped(found[1]) for found in map(FILL.match, header) if found}
    for line in header:
        dimension, variable = DIMENSION.match(line), VARIABLE.match(line)
        if dimension:
            lengths[unescaped(dimension[1])] = int(dimension[2] or dimension[3])
        elif variable:
            of, escaped, dimensions = variable.groups()
            sizes = [lengths[unescaped(each)] for each in dimensions.split(", ")] if dimensions else []
            yield from of_variable(name, of, unescaped(escaped), dimensions or "", sizes, taken, filled)


def of_variable(file, of, variable, dimensions, sizes, taken, filled):
    """The declaration of a variable, or why it has none."""
    said = f"{variable}: {of}" + (f" ({dimensions}), {' x '.join(map(str, sizes))}" if sizes else "")
    cells = 1
    for size in sizes:
        cells *= size
    if not 1 <= len(sizes) <= 8:
        yield comment(f"{said}: of rank {len(sizes)}, and the ranks 1 to 8 can be read")
    elif of not in NUMBERS:
        cure = f"ncap2 -3 -s '{variable}=int(10*{variable})' OLD NEW makes whole numbers of it, here tenths" if of in ("float", "double") else ""
        yield comment(f"{said}: no whole numbers" + (f"; {cure}" if cure else ""))
    elif cells > GREATEST:
        yield comment(f"{said}: {cells} cells, more than {GREATEST} at a time; read a part")
    else:
        sign = "Z" if of in SIGNED and has_negative(file, variable, variable not in filled) else ""
        start, count = ("(" + ",".join(texts) + ")" if len(texts) > 1 else texts[0] for texts in (["0"] * len(sizes), list(map(str, sizes))))
        more = f"; wants --budget {cells}" if cells > BUDGET else ""
        yield comment(said + ("; a pair (true, 3) is -3" if sign else "") + more)
        reads = f"NETCDF{sign}{len(sizes)} at ({text(file)}, {text(variable)}, {start}, {count})"
        yield f"readval \\{name_of(variable, taken)} using {reads};"


def has_negative(file, variable, fill_is_negative):
    """Whether a cell of the variable is below 0. ncdump shows a cell with the fill value as `_`; where the file names none it is below 0."""
    below = re.compile(r"(?:^|[\s=,])(?:-[0-9]|_)" if fill_is_negative else r"(?:^|[\s=,])-[0-9]")
    command = ["ncdump", "-v", variable, file]
    with subprocess.Popen(command, stdout=subprocess.PIPE, text=True, errors="replace") as run:
        data = False
        for line in run.stdout:
            if data and below.search(line):
                run.stdout.close()
                run.kill()
                return True
            data = data or line.startswith("data:")
    return False


def of_records(name):
    """The declaration of a file of comma-separated records."""
    with open(name, newline="", encoding="utf-8-sig", errors="surrogateescape") as file:
        try:
            records = [record for record in csv.reader(file, strict=True)]
        except csv.Error as error:
            yield comment(f"{name}: {error}")
            return
    if not records:
        yield comment(f"{name}: no records")
        return
    fields = len(records[0])
    for number, record in enumerate(records):
        if len(record) != fields:
            yield comment(f"{name}: record {number + 1} has {len(record)} fields, and the first one {fields}")
            return
    head = is_head(records)
    rows = records[1:] if head else records
    kinds = "".join("N" if rows and all(is_number(row[i]) for row in rows) else "S" for i in range(fields))
    if head:
        yield comment(f"{name}: " + ", ".join(f"{field} {kind}" for field, kind in zip(records[0], kinds)))
    for i, kind in enumerate(kinds):
        yield from of_field(records[0][i] if head else f"field {i + 1}", kind, [row[i] for row in rows])
    yield f"readval \\{name_of(re.split(r'[/.]', name)[-2] if '.' in name else name, set())} using CSV{'H' if head else ''}{kinds} at {text(name)};"


def of_field(field, kind, texts):
    """What keeps a field from being a number, where most of it are numbers."""
    wrong = [written for written in texts if not is_number(written)]
    if kind == "S" and 2 * len(wrong) < len(texts):
        yield comment(
            f"{field} is read as strings, since {len(wrong)} of {len(texts)} are no whole numbers from 0 on, as {wrong[0]!r}: "
            "leave these records out, or count in tenths, before (docs/RECIPES.md)"
        )


def is_head(records):
    """Whether the first record names the fields: where it has no number, and a later one has."""
    return not any(map(is_number, records[0])) and any(is_number(written) for record in records[1:] for written in record)


def is_number(written):
    return bool(NUMBER.fullmatch(written)) and int(written) <= MOST


def name_of(written, taken):
    """A name of the language that is near the one that is written, and not taken yet."""
    name = re.sub(r"[^A-Za-z0-9_]", "_", written)
    name = name if re.match(r"[A-Za-z]", name) else "v" + name
    name = name + "_" if name in RESERVED else name
    found, number = name, 2
    while found in taken:
        found, number = f"{name}_{number}", number + 1
    taken.add(found)
    return found


def text(written):
    """A string of the language."""
    read_bytes = written.encode("utf-8", "surrogateescape")
    return "\"" + "".join(map(escaped, read_bytes)) + "\""


def escaped(byte):
    if byte in b'"\\':
        return "\\" + chr(byte)
    return chr(byte) if 0x20 <= byte <= 0x7E else f"\\x{byte:02x}"


def unescaped(name):
    """A name as the file has it: ncdump puts a backslash before some signs."""
    return re.sub(r"\\(.)", r"\1", name)


def comment(words):
    return f"(* {words.replace('*)', '* )')} *)"


def ncdump(word, name):
    try:
        run = subprocess.run(["ncdump", word, name], capture_output=True)
    except FileNotFoundError:
        sys.exit(f"{PROGRAM}: the command ncdump is wanted (Debian: netcdf-bin)")
    if run.returncode:
        sys.exit(f"{PROGRAM}: {run.stderr.decode(errors='replace').strip()}")
    return run.stdout.decode(errors="surrogateescape")


if __name__ == "__main__":
    main()

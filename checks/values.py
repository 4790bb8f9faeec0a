#!/usr/bin/env python3
"""Tries examples/values.py on each kind of printed value, and on values of the program.

    checks/values.py PROGRAM
"""

import array
import io
import subprocess
import sys
from pathlib import Path

ROOT = Path(__file__).resolve().parent.parent
sys.dont_write_bytecode = True
sys.path.insert(0, str(ROOT / "examples"))
import values  # noqa: E402

GREATEST = 2**128 - 1
CELLS = 300_000

# What is written, and what is read of it.
WRITTEN = [
    ("0", 0),
    (str(GREATEST), GREATEST),
    ("true", True),
    ("false", False),
    ("undefined", None),
    ('""', ""),
    (r'"a\"b\\c\x0a\x7f"', 'a"b\\c\n\x7f'),
    ('"\u00e9, \u2264"', "\u00e9, \u2264"),
    ("(1, \"a, b\", false)", (1, "a, b", False)),
    ("{}", []),
    ("{7}", [7]),
    ("{1, 2, 3}", [1, 2, 3]),
    (f"{{1, 2, {GREATEST}, {GREATEST}}}", [1, 2, GREATEST, GREATEST]),
    ("{{}, {1, 2}}", [[], [1, 2]]),
    ('{("a", (1, 2))}', [("a", (1, 2))]),
    ("[[0; ]]", values.Array((0,), [])),
    ("[[2,2; 1, 2, 3, 4]]", values.Array((2, 2), [1, 2, 3, 4])),
    ("[[1; (false, 4)]]", values.Array((1,), [(False, 4)])),
    ("[[2; {}, {5, 6}]]", values.Array((2,), [[], [5, 6]])),
    ("[[1; [[1,2; 3, 4]]]]", values.Array((1,), [values.Array((1, 2), [3, 4])])),
]

# Declarations, and the rows of their values.
SCRIPT = f"""
val \\big = [[i | \\i<{CELLS}]];
val \\pairs = {{(i, i*i) | \\i <- gen!3}};
val \\grid = [[10*i + j | \\i<2, \\j<2]];
val \\signed = [[2; (true, 3), (false, 0)]];
val \\names = {{"a\\"b", "\\x0a"}};
val \\none = 1/0;
val \\nested = {{({{1, 2}}, [[2; 3, 4]])}};
"""
ROWS = {
    "pairs": [(0, 0), (1, 1), (2, 4)],
    "grid": [(0, 0, 0), (0, 1, 1), (1, 0, 10), (1, 1, 11)],
    "signed": [(0, True, 3), (1, False, 0)],
    "names": [("\n",), ('a"b',)],
    "none": [(None,)],
    "nested": [([1, 2], values.Array((2,), [3, 4]))],
}
LINES = [("nested", "[[1, 2], [[2], [3, 4]]]\n"), ("signed", "[0, true, 3]\n[1, false, 0]\n"), ("none", "[null]\n")]


class Slowly(io.RawIOBase):
    """Gives a text in pieces of a few bytes."""

    def __init__(self, text, size):
        self.text, self.size, self.at = text, size, 0

    def read(self, _=-1):
        piece = self.text[self.at : self.at + self.size]
        self.at += len(piece)
        return piece


def plain(value):
    """The same with lists for what is kept as numbers of eight bytes."""
    if isinstance(value, values.Array):
        return values.Array(value.dims, plain(value.cells))
    if isinstance(value, (list, array.array)):
        return [plain(part) for part in value]
    return tuple(map(plain, value)) if isinstance(value, tuple) else value


def differences(program):
    for written, wanted in WRITTEN:
        text = f"typ x : t\nval x = {written}\nmac f\n"
        for size in (1, 2, 3, 7, 1 << 20):
            found = plain(values.read(Slowly(text.encode(), size))["x"])
            if found != wanted or type(found) is not type(wanted):
                yield f"{written} in pieces of {size} bytes is read as {found!r}"
        if plain(values.value_of(written)) != wanted:
            yield f"{written} alone is read as {values.value_of(written)!r}"
    for wrong in ("", "x", "(1, 2", "1 2", "nothing"):
        try:
            yield f"{wrong!r} is read as {values.value_of(wrong)!r}"
        except ValueError:
            pass
    try:
        yield f"a fault is read as {values.read('val it = 3' + chr(10) + 'fault input' + chr(10))}"
    except values.Fault as fault:
        if str(fault) != "fault input":
            yield f"a fault's line is read as {fault}"
    with subprocess.Popen([program], stdin=subprocess.PIPE, stdout=subprocess.PIPE) as run:
        run.stdin.write(SCRIPT.encode())
        run.stdin.close()
        printed = values.read(run.stdout)
    if printed["big"].dims != (CELLS,) or printed["big"].cells != array.array("Q", range(CELLS)):
        yield "an array of many cells is read otherwise"
    for name, rows in ROWS.items():
        if list(values.records(printed[name])) != rows:
            yield f"the rows of {name} are {list(values.records(printed[name]))}"
    for words, wanted in [(["--lines", name], lines) for name, lines in LINES] + [(["signed"], "0,True,3\n1,False,0\n")]:
        command = [sys.executable, "-B", ROOT / "examples" / "values.py", *words]
        with subprocess.Popen([program], stdin=subprocess.PIPE, stdout=subprocess.PIPE) as run:
            run.stdin.write(SCRIPT.encode())
            run.stdin.close()
            written = subprocess.run(command, stdin=run.stdout, capture_output=True).stdout.decode()
        if written != wanted:
            yield f"{' '.join(words)} writes {written!r}"
    try:
        import numpy
    except ImportError:
        return
    if not numpy.array_equal(values.numpy_of(printed["grid"]), [[0, 1], [10, 11]]):
        yield "the numpy array of a grid differs"
    if values.numpy_of(printed["signed"]).shape != (2, 2) or values.numpy_of(printed["pairs"]).shape != (3, 2):
        yield "the numpy array of tuples has another shape"


if __name__ == "__main__":
    if len(sys.argv) != 2:
        sys.exit(__doc__)
    found = list(differences(sys.argv[1]))
    print("\n".join(found) or "values.py reads what is printed")
    sys.exit(bool(found))

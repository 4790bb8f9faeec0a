#!/usr/bin/env python3
"""Reads what aql prints, with Python's own library alone.

    ../aql < mean.aql | python3 values.py wet > wet.csv
    ../aql < mean.aql | python3 values.py --lines wet > wet.jsonl

The first writes the last value of that name as comma-separated records: a set one record a member, an array one a cell behind
its indices, anything else one record. The second writes the same rows as lines of JSON: tuples and sets as lists, an array within a row as the
list of its dimensions and the list of its cells, `undefined` as null.

`read(file)` gives a dictionary of the last value of each name; `file` is what `subprocess` gives as `stdout`, another binary file,
or a text. A number is an int, a truth value a bool, a string a str (bytes that are no UTF-8 become surrogates), a tuple a tuple, a
set a list in ascending order, an array Array(dims, cells) with the cells in row-major order, `undefined` None. Where numbers below
2^64 follow one another, as the cells of most arrays, they are kept in 8 bytes each; the text itself is read in pieces and never
held. `entries(file)` gives the pairs of name and value one after another, so that only one has to be held. `numpy_of(value)` makes
a numpy array of an array or a set, where numpy is there.
"""

import array
import csv
import io
import itertools
import json
import re
import sys
from typing import NamedTuple

PIECE = 1 << 20
NUMBERS = re.compile(rb"[0-9]+(?:, [0-9]+)*")
STRING = re.compile(rb'([^"\\]*(?:\\.[^"\\]*)*)"', re.DOTALL)
ESCAPE = re.compile(rb"\\(?:x([0-9a-fA-F]{2})|(.))", re.DOTALL)
WORDS = {b"t": (b"true", True), b"f": (b"false", False), b"u": (b"undefined", None)}
CLOSES = {b"(": b")", b"{": b"}"}


class Array(NamedTuple):
    dims: tuple
    cells: list


class Fault(ValueError):
    """The run that printed this ended early: the text is the line of its fault."""


def read(file):
    """The last value of each name."""
    return dict(entries(file))


def entries(file):
    """Each name with its value, in the order of the declarations."""
    text = _Text(io.BytesIO(file.encode("utf-8", "surrogateescape")) if isinstance(file, str) else file)
    while text.more():
        if text.begins(b"fault "):
            raise Fault(text.line())
        if not text.begins(b"val "):
            text.skip_line()
            continue
        text.at += 4
        name = text.until(b" = ").decode()
        value = text.value()
        if text.skip_line():
            raise ValueError(f"no value of the name {name}")
        yield name, value


def value_of(written):
    """The value that is written."""
    text = _Text(io.BytesIO(written.encode("utf-8", "surrogateescape")))
    text.more()
    value = text.value()
    if text.line():
        raise ValueError(f"no value: {written}")
    return value


def records(value):
    """The rows of a table, one after another: the members of a set, the indices and the cells of an array, or the value alone."""
    if isinstance(value, Array):
        indices = itertools.product(*map(range, value.dims))
        return (index + _row(cell) for index, cell in zip(indices, value.cells))
    if isinstance(value, (list, array.array)):
        return map(_row, value)
    return iter([_row(value)])


def numpy_of(value):
    """A numpy array of an array's shape, or of a set's members; of tuples one with a last dimension for the parts."""
    import numpy

    cells = value.cells if isinstance(value, Array) else value
    kept = numpy.frombuffer(cells, dtype="u8") if isinstance(cells, array.array) and len(cells) else numpy.array(list(cells))
    return kept.reshape(tuple(value.dims) + kept.shape[1:]) if isinstance(value, Array) else kept


def _row(value):
    parts = value if isinstance(value, tuple) and not isinstance(value, Array) else (value,)
    return tuple(map(_listed, parts))


def _listed(value):
    """A value of a row: lists for what is kept as numbers of eight bytes."""
    if isinstance(value, Array):
        return Array(value.dims, _listed(value.cells))
    if isinstance(value, (list, array.array)):
        return [_listed(part) for part in value]
    return tuple(map(_listed, value)) if isinstance(value, tuple) else value


class _Text:
    """The bytes of a file from a place on, a piece at a time."""

    def __init__(self, file):
        self.file, self.piece, self.at = file, b"", 0

    def more(self, want=1):
        """Whether so many bytes stand here; reads on where they are not at hand."""
        while len(self.piece) - self.at < want:
            new = self.file.read(PIECE)
            if not new:
                return False
            self.piece, self.at = self.piece[self.at :] + new, 0
        return True

    def begins(self, word):
        return self.more(len(word)) and self.piece.startswith(word, self.at)

    def find(self, sign):
        """The place of the sign, or None where it does not come."""
        start = self.at
        while True:
            found = self.piece.find(sign, start)
            if found >= 0:
                return found
            seen = max(0, len(self.piece) - self.at - len(sign) + 1)
            if not self.more(len(self.piece) - self.at + 1):
                return None
            start = self.at + seen

    def until(self, sign):
        """The bytes before the sign, which is passed."""
        end = self.find(sign)
        if end is None:
            raise ValueError("the text ends too early")
        taken, self.at = self.piece[self.at : end], end + len(sign)
        return taken

    def line(self):
        """The rest of the line, which is passed."""
        end = self.find(b"\n")
        end = len(self.piece) if end is None else end
        taken, self.at = self.piece[self.at : end], end + 1
        return taken.decode("utf-8", "surrogateescape")

    def skip_line(self):
        """Passes the rest of the line without holding it; gives how many bytes it had."""
        passed = 0
        while True:
            end = self.piece.find(b"\n", self.at)
            if end >= 0:
                passed, self.at = passed + end - self.at, end + 1
                return passed
            passed, self.at = passed + len(self.piece) - self.at, len(self.piece)
            if not self.more():
                return passed

    def value(self):
        if self.begins(b"[["):
            self.at += 2
            dims = tuple(self.list(b";"))
            cells = self.list(b"]")
            self.at += 1
            return Array(dims, cells)
        if not self.more():
            raise ValueError("the text ends too early")
        sign = self.piece[self.at : self.at + 1]
        if sign in CLOSES:
            self.at += 1
            parts = self.list(CLOSES[sign])
            return tuple(parts) if sign == b"(" else parts
        if sign == b'"':
            self.at += 1
            return self.string()
        if sign in WORDS and self.begins(WORDS[sign][0]):
            self.at += len(WORDS[sign][0])
            return WORDS[sign][1]
        if sign.isdigit():
            return self.numbers(1)[0]
        raise ValueError(f"no value begins with {sign!r}")

    def list(self, close):
        """Values with commas between them up to the closing sign, which is passed."""
        values = []
        while True:
            if self.begins(b" "):
                self.at += 1
            if self.begins(close):
                self.at += 1
                return values
            if not self.more():
                raise ValueError("the text ends too early")
            if self.piece[self.at : self.at + 1].isdigit():
                values = _appended(values, self.numbers())
            else:
                values = _appended(values, [self.value()])
            if self.begins(b","):
                self.at += 1

    def string(self):
        """The string whose first quote is passed."""
        while True:
            found = STRING.match(self.piece, self.at)
            if found:
                self.at = found.end()
                return _unescaped(found[1]).decode("utf-8", "surrogateescape")
            if not self.more(len(self.piece) - self.at + 1):
                raise ValueError("the text ends too early")

    def numbers(self, most=None):
        """The number that stands here, and those behind it as far as they are at hand."""
        while True:
            found = NUMBERS.match(self.piece, self.at)
            whole = found.group()
            if found.end() + 2 <= len(self.piece) or not self.more(len(self.piece) - self.at + 1):
                break
            # The piece may end within a number: those before the last one are whole.
            if most is None and b", " in whole:
                whole = whole[: whole.rindex(b", ")]
                break
        if most == 1:
            whole = whole.split(b",", 1)[0]
        self.at += len(whole)
        return list(map(int, whole.split(b", ")))


def _unescaped(written):
    return ESCAPE.sub(lambda found: bytes([int(found[1], 16)]) if found[1] else found[2], written)


def _appended(values, new):
    """The list with these behind it: an array of 8 bytes a number as long as all are numbers of 64 bits."""
    if isinstance(values, array.array) or not values and len(new) > 1:
        kept = values or array.array("Q")
        before = len(kept)
        try:
            kept.extend(new)
            return kept
        except OverflowError:
            values = list(kept[:before])
    values.extend(new)
    return values


def main():
    words = sys.argv[1:]
    lines = words[:1] == ["--lines"]
    if len(words) != 1 + lines:
        sys.exit("usage: values.py [--lines] NAME < what aql printed")
    sys.stdout.reconfigure(errors="surrogateescape", newline="")
    try:
        values = read(sys.stdin.buffer)
    except Fault as fault:
        sys.exit(f"values.py: {fault}")
    if words[-1] not in values:
        sys.exit(f"values.py: no value of the name {words[-1]}")
    rows = records(values[words[-1]])
    if lines:
        for row in rows:
            print(json.dumps(row, ensure_ascii=False))
    else:
        csv.writer(sys.stdout, lineterminator="\n").writerows(rows)


if __name__ == "__main__":
    main()

#!/usr/bin/env python3
"""Runs what the documents show, and says where the program prints something else.

    checks/blocks.py PROGRAM

In README.md and the pages of docs/ named below a fenced block is one of these:

- a transcript: lines that begin with `$ ` are commands, the others what they print;
- commands, marked `sh`, with what they print in the next block;
- output: lines as the program prints them; they end what the script or the commands before them print;
- marked `text`: not run; marked `csv`: a file of examples/;
- a script, which may end with a fault only where the text behind it names the fault in backticks. In docs/RECIPES.md all
  scripts are one. A declaration with a comment `(* TYPE: VALUE *)` behind it has that type and value;
- a part of an example: where the lines stand in a file of examples/, which checks/run compares with its output.

Of "The commonest slips" each item `- CODE: FAULT` is run. Everything runs in a copy of examples/ with the program as `../aql`.
Wants no more than Python's own library.
"""

import re
import shutil
import subprocess
import sys
import tempfile
from pathlib import Path

ROOT = Path(__file__).resolve().parent.parent
PAGES = ["README.md", "docs/LANGUAGE.md", "docs/RECIPES.md", "docs/LARGE.md", "docs/MANY.md"]
PRINTED = re.compile(r"(typ \S+ : |val [^\\ ]+ = |mac |plan \S+ = |rules \S+ = |turns \S+ = |moved \S+ = |moves \S+ = |graph \S+ = |fault )")
STATED = re.compile(r"^(.*;)\s*\(\* ([^:]*): (.*) \*\)$")


class Page:
    def __init__(self, name, folder):
        self.name = name
        self.folder = folder
        self.wrong = []
        self.one_script = name.endswith(("RECIPES.md", "LARGE.md"))
        self.script = (ROOT / "examples/large.aql").read_text() if name.endswith("LARGE.md") else ""
        self.lines = self.aql(self.script).count("\n") if self.script else 0
        self.blocks = 0

    def fails(self, number, message):
        self.wrong.append(f"{self.name}, line {number}: {message}")

    def aql(self, script):
        return subprocess.run(
            [self.folder.parent / "aql"], input=script.encode(), capture_output=True, cwd=self.folder, timeout=60
        ).stdout.decode(errors="surrogateescape")

    def shell(self, command):
        return subprocess.run(
            ["bash", "-c", command], capture_output=True, cwd=self.folder, timeout=60
        ).stdout.decode(errors="surrogateescape")

    def check(self):
        texts, before, behind = [], None, ""
        for number, kind, block in blocks_of((ROOT / self.name).read_text()):
            if kind is None:
                texts.append(block)
                behind = block
                continue
            if kind == "text":
                continue
            self.blocks += 1
            if kind == "csv":
                if not any(block == path.read_text() for path in (ROOT / "examples").glob("*.csv")):
                    self.fails(number, "no file of examples/ is this")
                continue
            if before is not None and is_printed(block, before, kind):
                self.compare(number, block, before[1])
                before = None
                continue
            self.ends(before, behind)
            before = self.run(number, kind, block)
        self.ends(before, behind)
        self.slips("\n".join(texts))

    def run(self, number, kind, block):
        """Runs a block; gives its line, what it prints, and whether it is a script."""
        if block.startswith("$ "):
            self.transcript(number, block)
            return None
        if kind == "sh":
            return number, self.shell(block), False
        if PRINTED.match(block):
            self.fails(number, "output of no script")
            return None
        if is_part(block) and not self.one_script and not all(map(STATED.match, block.splitlines())):
            return number, None, True
        if self.one_script:
            self.script += block
            printed = self.aql(self.script).splitlines(keepends=True)
            fresh, self.lines = printed[self.lines :], len(printed)
            out = "".join(fresh)
        else:
            out = self.aql(block)
        self.stated(number, block, out)
        return number, out, True

    def ends(self, before, text):
        """A script without output ends well, or with the fault that the text behind it names."""
        if before is None or before[1] is None or not before[2]:
            return
        number, out, _ = before
        last = out.splitlines()[-1] if out else ""
        named = re.search(r"`(fault [^`]*)`", text.strip().split("\n\n")[0])
        if last.startswith("fault"):
            if not named or named.group(1) != last:
                self.fails(number, f"it ends with '{last}'")
        elif not out:
            self.fails(number, "it prints nothing")

    def compare(self, number, block, out):
        if out is None:
            if not any(block in path.read_text() for path in sorted((ROOT / "examples").glob("*.out"))):
                self.fails(number, "no example prints this")
        elif not ("\n" + out).endswith("\n" + block):
            self.fails(number, f"it prints:\n{out}")

    def transcript(self, number, block):
        parts = re.split(r"^\$ (.*)\n", block, flags=re.M)
        place = self.folder
        for command, printed in zip(parts[1::2], parts[2::2]):
            command = command.removeprefix("cd examples && ")
            out = subprocess.run(["bash", "-c", command], capture_output=True, cwd=place, timeout=60).stdout.decode()
            if out != printed:
                self.fails(number, f"'{command}' prints:\n{out}")

    def stated(self, number, block, out):
        """Types and values in comments behind the declarations of a script of queries."""
        found = [STATED.match(line) for line in block.splitlines()]
        if not all(found):
            return
        want = "".join(f"typ it : {it.group(2)}\nval it = {it.group(3)}\n" for it in found)
        if out != want:
            self.fails(number, f"it prints:\n{out}")

    def slips(self, text):
        _, _, section = text.partition("## The commonest slips\n")
        section = section.partition("\n## ")[0]
        for item in re.findall(r"^- (.*)$", section, flags=re.M):
            head, found, _ = item.partition(": `fault ")
            fault = re.search(r": `(fault [^`]*)`", item)
            codes = re.findall(r"`([^`]*)`", head)
            if not fault or not codes:
                self.fails(0, f"no slip: {item}")
                continue
            for code in codes:
                out = self.aql(code)
                if out != fault.group(1) + "\n":
                    self.fails(0, f"'{code}' prints:\n{out}")


def blocks_of(text):
    """The texts (kind None) and the fenced blocks of a page, each with its line and its kind."""
    number = 1
    for i, part in enumerate(re.split(r"^```(.*\n(?:.*\n)*?)```\n", text, flags=re.M)):
        if i % 2 == 0:
            yield number, None, part
            number += part.count("\n")
        else:
            kind, _, block = part.partition("\n")
            yield number, kind, block
            number += part.count("\n") + 1


def is_printed(block, before, kind):
    return kind == "" and (PRINTED.match(block) is not None or not before[2])


def is_part(block):
    """Whether the lines stand in a script of examples/."""
    return any(block in path.read_text() for path in (ROOT / "examples").glob("*.aql"))


def main():
    program = Path(sys.argv[1]).resolve()
    wrong, count = [], 0
    with tempfile.TemporaryDirectory() as work:
        folder = Path(work) / "examples"
        shutil.copytree(ROOT / "examples", folder)
        (Path(work) / "aql").symlink_to(program)
        for name in PAGES:
            page = Page(name, folder)
            page.check()
            wrong += page.wrong
            count += page.blocks
    print("\n".join(wrong) if wrong else f"{count} blocks")
    sys.exit(1 if wrong else 0)


if __name__ == "__main__":
    main()

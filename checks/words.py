#!/usr/bin/env python3
"""Compares the words of the program, as its command has them, with those of the manual page, the completion, README and LANGUAGE, and
the statuses of the manual page with those of LANGUAGE. Prints what differs. Where `man` is there, the page must show without a warning."""

import re
import shutil
import subprocess
import sys
from pathlib import Path

ROOT = Path(__file__).resolve().parent.parent
PAGE, COMPLETION = ROOT / "share/aql.1", ROOT / "share/aql.bash"


def main():
    wrong = []
    command = (ROOT / "crates/aql_options/src/command.rt").read_text()
    numbers = dict(re.findall(r'number_option\(alloc, "(\w+)", (\w+)\)', command))
    words = set(numbers) | set(re.findall(r'flag_option\(alloc, "(\w+)"\)', command))
    page = PAGE.read_text().replace("\\-", "-")
    options = page[page.index(".SH OPTIONS") : page.index(".SH OUTPUT")]
    sections = dict(re.findall(r"^\.BI? --(\w+)[^\n]*\n(.*?)(?=^\.TP|\Z)", options, re.M | re.S))
    completed = re.search(r"for each in ((?:--\w+ ?)+);", COMPLETION.read_text())[1].split()
    readme = re.search(r"The program's words are (.*?)\n\n", (ROOT / "README.md").read_text(), re.S)[1]
    language = (ROOT / "docs/LANGUAGE.md").read_text()
    table = re.search(r"## Options\n(.*?)\n## ", language, re.S)[1]
    found = {
        "the manual page": set(sections),
        "the completion": {each[2:] for each in completed},
        "README.md": set(re.findall(r"`--(\w+)[ `]", readme)),
        "docs/LANGUAGE.md": set(re.findall(r"^\| `--(\w+)[ `]", table, re.M)),
    }
    for place, has in found.items():
        if has != words:
            wrong.append(f"{place} has the words {sorted(has)}, and the program {sorted(words)}")
    for word, constant in numbers.items():
        greatest = constant_of(constant)
        if not re.search(rf"\b{greatest}\b", sections.get(word, "")):
            wrong.append(f"the manual page does not say that {greatest} is the greatest number of --{word}")
    statuses = {int(each) for each in re.findall(r"^\.B (\d+)$", page[page.index(".SH EXIT STATUS") : page.index(".SH EXAMPLES")], re.M)}
    rows = {int(each) for each in re.findall(r"^\| (\d+) \|", re.search(r"\n## When a run ends early\n(.*?)\n## ", language, re.S)[1], re.M)}
    if statuses != rows:
        wrong.append(f"the manual page has the statuses {sorted(statuses)}, and docs/LANGUAGE.md {sorted(rows)}")
    if shutil.which("man"):
        shown = subprocess.run(["man", "--warnings", "-E", "UTF-8", "-l", PAGE], capture_output=True, text=True)
        if shown.returncode or shown.stderr:
            wrong.append(f"man says of the manual page: {shown.stderr.strip()}")
    print("\n".join(f"checks/words.py: {each}" for each in wrong), end="\n" if wrong else "")
    sys.exit(bool(wrong))


def constant_of(name):
    """The number that a constant of the sources has."""
    for path in sorted((ROOT / "crates").glob("*/src/*.rt")):
        found = re.search(rf"pub const {name}: \w+ = ([0-9_]+);", path.read_text())
        if found:
            return int(found[1].replace("_", ""))
    sys.exit(f"checks/words.py: no constant {name}")


main()

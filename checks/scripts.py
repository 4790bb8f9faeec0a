#!/usr/bin/env python3
"""Runs the scripts of checks/scripts/ over the built program, and says where it prints something else or ends otherwise.

    checks/scripts.py PROGRAM

Each page checks/scripts/TOPIC.txt is blocks with an empty line between each two, and what came of each was worked out by hand:

    # What the script shows: lines that begin so are comments.
    $ aql --budget 2
    1; gen!3;
    = 12
    typ it : nat
    val it = 1
    fault budget in declaration 2

First the command line, or several, with each of which the script is run; then the script, without the end of its last line; then the
status, and all that is printed on standard output, byte for byte. A line `...` of what is printed stands for any lines, also for none.
In a script and in what is printed `⟨TEXT⟩×N` stands for so many copies of a text. Each run begins in a folder with the files of
checks/scripts/files.py. Prints what differs; the status is 1 where something does. Wants no more than Python's own library.
"""

import re
import subprocess
import sys
import tempfile
from pathlib import Path

PAGES = Path(__file__).resolve().parent / "scripts"
sys.dont_write_bytecode = True
sys.path.insert(0, str(PAGES))
from files import FILES  # noqa: E402

COPIES = re.compile(r"⟨([^⟩]*)⟩×(\d+)")
COMMAND = "$ aql"


def written_out(text):
    """A text with its copies written out."""
    return COPIES.sub(lambda found: found.group(1) * int(found.group(2)), text)


def blocks_of(page):
    """The blocks of a page: each with its line, its command lines, its script, its status and what is printed."""
    number = 1
    for block in page.read_text().split("\n\n"):
        lines = block.rstrip("\n").split("\n")
        start = number
        number += block.count("\n") + 2
        while lines and lines[0].startswith("#"):
            lines.pop(0)
            start += 1
        if not lines:
            continue
        commands = []
        while lines and lines[0].startswith(COMMAND):
            commands.append(lines.pop(0)[len(COMMAND) :].split())
        ends = [i for i, line in enumerate(lines) if re.fullmatch(r"= \d+", line)]
        if not commands or not ends:
            sys.exit(f"{page.name}, line {start}: no block")
        script, printed = lines[: ends[0]], lines[ends[0] + 1 :]
        yield start, commands, written_out("\n".join(script)), int(lines[ends[0]][2:]), printed


def is_printed(found, lines):
    """Whether these bytes are the lines of a block."""
    wanted = "".join(r"(?:.*\n)*?" if line == "..." else re.escape(written_out(line)) + r"\n" for line in lines)
    return re.fullmatch(wanted.encode(), found) is not None


def differs(program, folder, words, script, status, printed):
    """What a run does otherwise than its block says, and nothing where it does the same."""
    try:
        ran = subprocess.run([program, *words], input=script.encode(), capture_output=True, cwd=folder, timeout=120)
    except subprocess.TimeoutExpired:
        return "it does not end"
    if ran.returncode != status:
        return f"the status is {ran.returncode}, and it prints:\n{ran.stdout.decode(errors='replace')}"
    if not is_printed(ran.stdout, printed):
        return f"it prints:\n{ran.stdout.decode(errors='replace')}"
    return ""


def main():
    if len(sys.argv) != 2:
        sys.exit("usage: checks/scripts.py PROGRAM")
    program = Path(sys.argv[1]).resolve()
    runs, wrong = 0, []
    with tempfile.TemporaryDirectory() as folder:
        for name, content in FILES.items():
            (Path(folder) / name).write_bytes(content)
        for page in sorted(PAGES.glob("*.txt")):
            for line, commands, script, status, printed in blocks_of(page):
                for words in commands:
                    runs += 1
                    found = differs(program, folder, words, script, status, printed)
                    if found:
                        wrong.append(f"{page.name}, line {line}, {' '.join(['aql', *words])}: {found}")
    if not runs:
        wrong.append("there is no script")
    print("\n".join(wrong) if wrong else f"{runs} runs of scripts")
    sys.exit(1 if wrong else 0)


if __name__ == "__main__":
    main()

#!/usr/bin/env python3
"""Prints docs/DEFINITIONS.md: each crate, what it stands on, and the definitions of its own that public contracts name.

Reads the sources alone, as checks/headline.py does, whose reading of modules it shares.
"""
import os
import re
import sys
from collections import OrderedDict

from headline import ROOT, WORD, lines_of, module

GHOST = re.compile(r"^ghost use Rattle\.([A-Za-z_0-9.]+?)\.\{(.*)\};$")


def crates():
    """The crates with the libraries that they stand on, the lowest first."""
    found = OrderedDict()
    for text in lines_of("crates.txt"):
        match = re.match(r"^(\w+):(.*)", text)
        if match:
            found[match.group(1)] = match.group(2).split()
    return found


def sources(crate):
    """The files of a crate's code, the lines of each."""
    top = os.path.join(ROOT, "crates", crate, "src")
    for folder, folders, names in os.walk(top):
        folders.sort()
        for name in sorted(names):
            if name.endswith(".rt"):
                yield lines_of(os.path.relpath(os.path.join(folder, name), ROOT))


def public_text(source):
    """The headers of public functions, with their contracts, and all of public traits and types."""
    found, inside, whole = [], False, False
    for text in source:
        if re.match(r"^pub (trait|struct|enum) ", text):
            whole = True
        elif re.match(r"^\s*(pub(\(\w+\))? )?(const )?fn ", text):
            inside = bool(re.match(r"^\s*pub (const )?fn ", text))
        if inside or whole:
            found.append(text)
        if re.match(r"^\s*\{$", text):
            inside = False
        if text == "}":
            inside = whole = False
    return "\n".join(found)


def cited():
    """By crate and module, the names of the definitions that the public text of any crate names."""
    found = {}
    for crate in crates():
        for source in sources(crate):
            body = public_text(source)
            words = set(WORD.findall(body)) | set(re.findall(r"[A-Za-z_0-9'-]+", body))
            for text in source:
                match = GHOST.match(text)
                if match and ".specs." in match.group(1) and ".declared." not in match.group(1):
                    for name in re.split(r",\s*", match.group(2)):
                        if name in words:
                            where = match.group(1)
                            found.setdefault(where.split(".")[0], {}).setdefault(where, set()).add(name)
    return found


def about(crate):
    """The first sentence of the crate's head comment."""
    path = "lib.rt" if os.path.exists(os.path.join(ROOT, "crates", crate, "src", "lib.rt")) else "main.rt"
    first = []
    for text in lines_of("crates/%s/src/%s" % (crate, path)):
        if not text.startswith("//!") or not text[3:].strip():
            break
        first.append(text[3:].strip())
    return re.split(r"(?<=\.) ", " ".join(first))[0]


def page():
    out = []
    say = out.append
    below, named = crates(), cited()
    say("# The crates and their definitions")
    say("")
    say("Made by `checks/definitions.py` from the sources; `checks/text` refuses a page that differs from them.")
    say("")
    say("The crates, the lowest first: what each does, what it stands on, and the definitions of its own that public contracts name, here or in "
        "the crates above, each with the comment above it, or with its type where it has none of its own. What the contracts claim by these "
        "words is in `docs/PROVED.md`; all that the contract of the top call rests on is in `docs/HEADLINE.md`.")
    say("")
    say("| Crate | What it does |")
    say("|---|---|")
    for crate in below:
        say("| %s | %s |" % (crate, about(crate)))
    for crate, libraries in below.items():
        say("")
        say("## %s" % crate)
        say("")
        say("Stands on %s." % (", ".join(libraries) if libraries else "no other crate"))
        names = named.get(crate, {})
        if names:
            say("")
        for where in sorted(names):
            here = module(where)
            say("- `%s`: %s" % (here.path.split("/", 2)[2][:-5], here.about))
            for name, item in here.items.items():
                if name in names[where]:
                    if item.head:
                        say("  - `%s`: %s" % (name, item.head))
                    else:
                        say("  - `%s`" % re.sub(r"^(abbrev|unfoldable|pub|record|data| )+", "", item.text[0]))
    return "\n".join(out) + "\n"


if __name__ == "__main__":
    sys.stdout.write(page())

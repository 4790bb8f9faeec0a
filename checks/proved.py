#!/usr/bin/env python3
"""The part of docs/PROVED.md that is made from the sources: of each crate its head comment and its public calls with their comments.

With the word --write it puts that part between the page's two marks; with none it compares, and ends with 1 where they differ. A call that no
crate but those of tests makes is said to be one that the program does not make: UNMADE has these, and so has docs/ARCHITECTURE.md, made here too.
"""
import os
import re
import sys

from headline import ROOT, lines_of

TESTS = re.compile(r"_tests$")
# the calls that the program does not make, though others may: where it makes another, what it makes
UNMADE = {
    "aql_outside": {"written_bytes": ""},
    "aql_types": {"unify": "inference solves many equations at once, by `solve_graph`", "solve": "the same", "are_nodes": ""},
    "aql_syntax": {"size": "scripts are measured by `Extents`", "levels": "the same"},
    "aql_desugar": {"translate": "a session calls `translate_within`, over an index of its names"},
    "nrca_ranges": {"shape_of": "the analysis asks a whole walk"},
    "nrca_defined": {"firmness": "`defined` answers for it"},
    "nrca_normal": {"normalise": "a session lends its shapes to `normalise_over`"},
    "nrca_motion": {"motion": "a session lends its shapes to `motion_over`"},
    "nrca_array": {"from_cells": "arrays are packed as they are made, by `Builder`"},
    "nrca_par": {"canon_wide": "big unions gather their members packed, by `Gather` of nrca_sets"},
    "nrca_graph": {"encode_type": ""},
    "nrca_eval": {"eval": "a session calls `evaluate`, of a closed term"},
    "aql_print_round_trip": {"print_value": "values are printed by aql_print, whose text this call shows to read back"},
}
BEGIN, END = "<!-- made by checks/proved.py: begin -->", "<!-- made by checks/proved.py: end -->"


def crates():
    return [re.split(r"[ :]", it)[0] for it in lines_of("crates.txt") if it.strip() and not it.startswith("#")]


def sources(crate):
    for where, folders, names in os.walk(os.path.join(ROOT, "crates", crate, "src")):
        folders.sort()
        for name in sorted(names):
            if name.endswith(".rt"):
                path = os.path.relpath(os.path.join(where, name), ROOT)
                yield path, lines_of(path)


def head(crate):
    """The paragraphs of a crate's head comment."""
    for name in ("lib.rt", "main.rt"):
        path = "crates/%s/src/%s" % (crate, name)
        if os.path.exists(os.path.join(ROOT, path)):
            said = [text[3:].strip() for text in lines_of(path) if text.startswith("//!")]
            return [" ".join(it.split("\n")) for it in "\n".join(said).split("\n\n")]
    return []


def calls(crate):
    """The public functions of a crate: the type that they belong to, the name, the comment, whether it is a law's."""
    for path, source in sources(crate):
        owner = ""
        for number, text in enumerate(source):
            match = re.match(r"impl(?:<[^>]*>)? (?:\w+(?:<[^>]*>)? for )?(\w+)", text)
            owner = match.group(1) + "::" if match else "" if text == "}" else owner
            match = re.match(r"(\s*)pub (?:const )?fn (\w+)", text)
            if match:
                top, doc = number, []
                while re.match(r"\s*(///|#\[)", source[top - 1]):
                    top -= 1
                    if source[top].strip().startswith("///"):
                        doc.insert(0, source[top].strip()[3:].strip())
                yield (owner if match.group(1) else ""), match.group(2), " ".join(doc).strip(), path.endswith("/laws.rt")


def unmade(texts):
    """The calls that the program does not make: of each crate the names that no crate but those of tests names, and it only where they are defined."""
    found, words = {}, {crate: set(re.findall(r"\w+", text)) for crate, text in texts.items()}
    for crate, text in texts.items():
        if TESTS.search(crate):
            continue
        others = set().union(*(it for name, it in words.items() if name != crate and not TESTS.search(name)))
        own = re.sub(r"(?m)^\s*(//|pub use |use |ghost ).*$|\bfn \w+", "", text)
        used = set(re.findall(r"\w+", re.sub(r"(requires|ensures)[^{]*\{.*", "", own)))
        names = {name for _, name, _, law in calls(crate) if name not in others and name not in used and not law}
        if names:
            found[crate] = names
    return found


def section(crate):
    out = ["### " + crate, ""]
    for paragraph in head(crate):
        out += [paragraph, ""]
    for owner, name, doc, law in calls(crate):
        more = " A law." if law else " The program does not make this call." if name in UNMADE.get(crate, ()) else ""
        if doc or more:
            out.append("- `%s%s`: %s%s" % (owner, name, doc[:1].upper() + doc[1:], more))
    return out if out[-1] else out[:-1]


def main(write):
    free = unmade({crate: "\n".join("\n".join(source) for _, source in sources(crate)) for crate in crates()})
    made = []
    for crate in crates():
        if not TESTS.search(crate):
            made += [*section(crate), ""]
    listed = ["- %s: %s" % (crate, ", ".join("`%s`%s" % (it, " (%s)" % why if why else "") for it, why in names.items())) for crate, names in UNMADE.items()]
    public = {crate: {name for _, name, _, _ in calls(crate)} for crate in UNMADE}
    wrong = ["%s::%s" % (crate, name) for crate, names in UNMADE.items() for name in names if name not in public[crate]]
    wrong += ["%s::%s" % (crate, name) for crate, names in free.items() for name in names if name not in UNMADE.get(crate, ())]
    for it in wrong:
        print("checks/proved.py: UNMADE is wrong about %s" % it)
    bad = 1 if wrong else 0
    for path, lines in (("docs/PROVED.md", made[:-1]), ("docs/ARCHITECTURE.md", listed)):
        page = "\n".join(lines_of(path))
        if page.count(BEGIN) != 1 or page.count(END) != 1:
            sys.exit("checks/proved.py: %s wants each of its two marks once" % path)
        front, back = page.split(BEGIN)[0], page.split(END)[1]
        text = front + BEGIN + "\n\n" + "\n".join(lines) + "\n\n" + END + back
        if write:
            with open(os.path.join(ROOT, path), "w", encoding="utf-8") as file:
                file.write(text)
        elif text != page:
            print("%s differs from the sources: checks/proved.py --write" % path)
            bad = 1
    return bad


if __name__ == "__main__":
    sys.exit(main("--write" in sys.argv[1:]))

#!/usr/bin/env python3
"""Lists where the text of the sources is against the rules of this house, and ends with 1 where it is.

- a clause of a contract, an invariant, a measure or a ghost member of a type or an impl whose line is longer than 100 columns;
- a function that takes more than seven parameters, but those of WIDE and HANDED_ON, or one of these that takes fewer;
- a law, that is a definition that is neither an abbreviation nor a type and whose result is a statement, in specs/ outside of specs/Laws;
- a public definition of specs/ outside of specs/Laws without a comment of its own;
- an edit that must be refused whose text does not stand once in the file that it names;
- a public function that no other crate names, but the laws of a crate and the calls of FIXED;
- a place that makes want of memory, where neither `From`, nor `?`, nor an arm that matched one hands it on, but those of MADE.
"""
import os
import re
import sys

from headline import ROOT

LONGEST, MOST = 100, 7
CLAUSE = re.compile(r"^\s*(requires|ensures|invariant|decreases|ghost_requires|ghost_ensures)\b|^\s*(pub )?ghost (?!use )\w+\s*[:=]")
SIGNATURE = re.compile(r"^((?:(?:abbrev|unfoldable|pub) )*)(\S+) :(?: |$)(.*)$")
# the results of definitions that are no statements
DATA = re.compile(r"^(ℕ|Datum|Ty|Subst|Term|Parts|List|Type|Option|Bool|Trees?|String)( |$)")
# the files and names of public calls whose parameters are fixed, and of a test's call of one
WIDE = {
    "crates/aql_session/src/step.rt::step",
    "crates/cdf_slab/src/slab.rt::read_slab",
    "crates/file_tests/src/tests/asked.rt::read",
}
# those of functions of the recursions of inference and translation, and of a step, each of which hands on what it was lent;
# docs/DECISIONS.md says why they take no struct
HANDED_ON = {
    "crates/aql_desugar/src/matches.rt::wrap_parts",
    "crates/aql_desugar/src/queries.rt::grid",
    "crates/aql_infer/src/walk.rt::infer_choice",
    "crates/aql_infer/src/walk.rt::infer_function",
    "crates/aql_infer/src/walk.rt::infer_sum",
    "crates/aql_run/src/serving.rt::end_of",
    "crates/aql_run/src/serving.rt::serve",
    "crates/aql_run/src/serving.rt::serve_sample",
    "crates/aql_run/src/serving.rt::serve_source",
    "crates/aql_run/src/steps.rt::answer_all",
    "crates/aql_session/src/executions.rt::run_declaration",
    "crates/aql_session/src/executions.rt::run_plain",
    "crates/aql_session/src/executions.rt::run_readval",
    "crates/nrca_encoded/src/running.rt::graph_of",
    "crates/nrca_encoded/src/running.rt::run_encoded",
}
# calls that a library of the language promises to whoever stands on it, though no other crate here makes them
FIXED = {
    "aql_run::exit_of",
    "aql_run::run_keeping",
    "aql_run::sample_script",
}
# The functions that make want of memory themselves, in how many places; docs/DECISIONS.md has the reason of each.
MADE = {
    "crates/aql_csv/src/rows.rt::memory_fault": 1,
    "crates/aql_desugar/src/matches.rt::add_numbers": 1,
    "crates/aql_infer/src/walk.rt::infer": 1,
    "crates/aql_infer_steps/src/names.rt::open": 1,
    "crates/aql_infer_steps/src/positions.rt::push": 1,
    "crates/aql_infer_steps/src/store.rt::new_variable": 1,
    "crates/aql_parse/src/expressions.rt::complete": 1,
    "crates/aql_run/src/serving.rt::end_with_made": 1,
    "crates/aql_run/src/serving.rt::serve_sample": 1,
    "crates/aql_run/src/steps.rt::answer_all": 1,
    "crates/aql_run/src/steps.rt::answer_next": 1,
    "crates/aql_run/src/steps.rt::discard_made": 1,
    "crates/aql_run/src/steps.rt::write_entry": 1,
    "crates/aql_session/src/session.rt::push_outcome": 2,
    "crates/aql_types/src/count.rt::to_number": 1,
    "crates/aql_types/src/grow.rt::push_variable": 1,
    "crates/aql_types/src/push.rt::find_variable": 1,
    "crates/aql_types/src/push.rt::raised_variable": 1,
    "crates/aql_types/src/subst.rt::apply_raised": 1,
    "crates/cdf_header/src/file.rt::read_piece": 1,
    "crates/cdf_slab/src/loading.rt::load": 1,
    "crates/cdf_slab/src/runs.rt::push_naturals": 1,
    "crates/nrca_motion/src/still.rt::reduce_room": 1,
}
# laws that a definition beside them is made of
NEEDED = {"decode-spell", "decode-spell_all"}


def files(crate, folder, ending):
    top = os.path.join(ROOT, "crates", crate, folder)
    for where, folders, names in os.walk(top):
        folders.sort()
        for name in sorted(names):
            if name.endswith(ending):
                path = os.path.join(where, name)
                with open(path, encoding="utf-8") as file:
                    yield os.path.relpath(path, ROOT), file.read().split("\n")


def long_clauses(path, source):
    """The lines of clauses that are longer than the limit. A clause goes on until its braces are closed."""
    depth = 0
    for number, text in enumerate(source, 1):
        if depth > 0 or CLAUSE.match(text):
            depth += text.count("{") - text.count("}")
            if len(text) > LONGEST:
                yield "%s:%d: a line of %d columns in a clause" % (path, number, len(text))


def wide_functions(path, source):
    """The functions with more parameters than the limit."""
    whole = "\n".join(source)
    for match in re.finditer(r"^[ \t]*(?:pub(?:\([a-z]+\))? )?(?:const )?fn ([a-z_0-9]+)", whole, re.M):
        at = match.end()
        if whole[at : at + 1] == "<":
            level = 0
            while True:
                level += {"<": 1, ">": -1}.get(whole[at], 0) if whole[at - 1 : at + 1] != "->" else 0
                at += 1
                if level == 0:
                    break
        if whole[at : at + 1] != "(":
            continue
        level, count, last, some = 0, 0, "", False
        for ch in whole[at:]:
            if ch in "([{<":
                level += 1
            elif ch in ")]}" or ch == ">" and last != "-":
                level -= 1
                if level == 0:
                    break
            elif ch == "," and level == 1:
                count, some = count + 1, False
            elif level == 1 and not ch.isspace():
                some = True
            last = ch
        count += some
        exempt = "%s::%s" % (path, match.group(1)) in WIDE | HANDED_ON
        if (count > MOST) != exempt:
            yield "%s:%d: %s takes %d parameters" % (path, whole.count("\n", 0, match.start()) + 1, match.group(1), count)


def result(text):
    """What a signature's arrows end in."""
    level, last = 0, 0
    for at, ch in enumerate(text):
        if ch in "({[":
            level += 1
        elif ch in ")}]":
            level -= 1
        elif ch == "→" and level == 0:
            last = at + 1
    return text[last:].strip()


def signature(source, at, indent):
    whole = [source[at].split(" :", 1)[1]]
    for text in source[at + 1 :]:
        if not text.startswith(" " * (indent + 2)) or text.strip() == "where":
            break
        whole.append(text)
    return " ".join(" ".join(whole).split())


def laws(path, source):
    """The laws that stand in a module of definitions."""
    within = None
    for number, text in enumerate(source):
        if re.match(r"^(\w+ )?mutual\s*$|^module ", text):
            within = text.split()[0]
            continue
        if text and not text.startswith(" ") and not text.startswith("--"):
            within = None if not re.match(r"^(\w+ )?mutual|^module ", text) else within
        indent = 2 if within else 0
        line = text[2:] if within and text.startswith("  ") and not text.startswith("   ") else text
        if within in ("abbrev", "unfoldable") or line.startswith(" ") or not line.strip():
            continue
        match = SIGNATURE.match(line)
        if match and "abbrev" not in match.group(1) and "unfoldable" not in match.group(1) and match.group(2) not in ("data", "record"):
            if re.match(r"^(pub )?(data|record|ruleset|infix\w*) ", line):
                continue
            if match.group(2) not in NEEDED and not DATA.match(result(signature(source, number, indent))):
                yield "%s:%d: the law %s stands outside of specs/Laws" % (path, number + 1, match.group(2))


def uncommented(path, source):
    """The public definitions without a comment of their own."""
    for number, text in enumerate(source):
        match = re.match(r"^\s{0,2}(?:(?:abbrev|unfoldable) )?pub (?:record |data )?(\S+)", text)
        if not match or re.match(r"^\s*pub (mod|use|ruleset) ", text) or text.startswith("  ") and not inner(source, number):
            continue
        above = source[number - 1].strip() if number else ""
        if not above.startswith("--"):
            yield "%s:%d: %s has no comment of its own" % (path, number + 1, match.group(1))


def inner(source, number):
    """Whether an indented line stands in definitions that call each other, and not in a record."""
    for text in reversed(source[:number]):
        if text and not text.startswith(" "):
            return bool(re.match(r"^(\w+ )?mutual\s*$", text))
    return False


def stale(path, source):
    """The texts of an edit that do not stand once in the file that it names, where those before them are changed as it says."""
    crate = os.path.join(ROOT, *path.split(os.sep)[:2])
    held, old = "", ""
    for number, text in enumerate(source, 1):
        word, _, rest = text.partition(": ")
        if word == "file":
            with open(os.path.join(crate, rest), encoding="utf-8") as file:
                held = file.read()
        elif word == "old":
            old = rest
            if held.count(old) != 1:
                yield "%s:%d: the text stands %d times and not once" % (path, number, held.count(old))
        elif word == "new":
            held = held.replace(old, rest)


def unnamed(crates):
    """The public functions that no source of another crate names; a law's function stands in the crate's file laws."""
    words = {crate: set() for crate in crates}
    for crate in crates:
        for path, source in files(crate, "src", ".rt"):
            words[crate].update(re.findall(r"\w+", "\n".join(source)))
    for crate in crates:
        others = set().union(*(it for name, it in words.items() if name != crate))
        for path, source in files(crate, "src", ".rt"):
            for number, text in enumerate(source, 1):
                match = re.match(r"\s*pub (?:const )?fn (\w+)", text)
                if match and match.group(1) not in others and not path.endswith("/laws.rt") and "%s::%s" % (crate, match.group(1)) not in FIXED:
                    yield "%s:%d: no other crate names %s, which is public" % (path, number, match.group(1))


def want_of_memory(path, source):
    """The places of each function that make want of memory, where it is not handed on from one that was matched."""
    found, name, above = {}, "", []
    for text in source:
        line = text.split("//")[0].rstrip()
        match = re.match(r"\s*(?:pub(?:\([a-z]+\))? )?(?:const )?fn (\w+)", line)
        name = match.group(1) if match else name
        indent = len(line) - len(line.lstrip())
        if not line:
            continue
        above = [it for it in above if it[0] < indent]
        pattern, arrow, value = line.rpartition("=>")
        makes = re.search(r"\bErr\(Memory\)|\bAllocError( \{|;|\)?$)|\b[A-Z]\w*::Memory\b|^\s*Memory,?$|\bstatus: 1\b", value)
        handed = "Memory" in pattern or any(re.search(r"Memory.*=>|impl.* From<|\benum ", opener) for _, opener in above)
        if makes and not handed and not re.match(r"\s*(use|ghost|requires|ensures) ", line) and not re.search(r"\bif let .*= |matches!", line):
            found[name] = found.get(name, 0) + 1
        if line.endswith(("{", "(")):
            above.append((indent, line))
    known = {key.split("::")[1] for key in MADE if key.startswith(path + "::")}
    for name in sorted(known | set(found)):
        count = found.get(name, 0)
        if MADE.get("%s::%s" % (path, name), 0) != count:
            yield "%s: %s makes want of memory in %d places" % (path, name, count)


def main():
    crates = sorted(os.listdir(os.path.join(ROOT, "crates")))
    found = [*unnamed(crates)]
    for crate in crates:
        for path, source in files(crate, "src", ".rt"):
            found += long_clauses(path, source)
            found += wide_functions(path, source)
            if not crate.endswith("_tests"):
                found += want_of_memory(path, source)
        for folder in ("must-fail", "edits"):
            for path, source in files(crate, folder, ".edit"):
                found += stale(path, source)
        for path, source in files(crate, "specs", ".antt"):
            if "/specs/Laws/" not in path and not path.endswith("/Lib.antt"):
                found += laws(path, source)
                found += uncommented(path, source)
    for text in found:
        print(text)
    return 1 if found else 0


if __name__ == "__main__":
    sys.exit(main())

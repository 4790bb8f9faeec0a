#!/usr/bin/env python3
"""The book of the promise: docs/HEADLINE.md, and docs/headline/ with every definition that the contract of `run` rests on.

With the word --write it writes these pages; with none it compares them with the sources, names those that differ and ends with 1. It refuses a
definition that no page has a place for, and a book past the counts of MOST. Each definition stands in full, with its file and line.
"""
import os
import re
import sys

from headline import ROOT, call, lines_of, module, reach, rust_type, view

# the most definitions and lines, of all pages and without the annexes
MOST = {"all": (930, 3776), "first": (598, 2529)}

# the pages in a reader's order: the file, its title, what to know before it, its modules in order
PAGES = [
    ("1-run", "The promise of a run", """
`Headline` is the promise. It speaks of the words of the command line, of what three devices told and counted before and after the run, and of the
report that the run answers. `RunsWords` says what each status means; `HasRun` what was read, answered and written; `IsAnswered` what is answered of one
declaration; `IsCause` why a declaration was not answered; `EndsWell` when a run must end well. A definition stands before those that it is made of.
""", """aql_run.specs.Headline aql_session.specs.Device aql_run.specs.Devices aql_outside.specs.Causes aql_outside.specs.Contents aql_run.specs.Codes
aql_run.specs.Outcome aql_run.specs.Reading aql_run.specs.Sample aql_run.specs.Answered aql_session.specs.Step aql_session.specs.Bound
aql_session.specs.Asked aql_session.specs.Reading aql_run.specs.Entry aql_run.specs.Lines aql_script.specs.Script aql_syntax.specs.Script
aql_run.specs.Complete aql_value.specs.Limits"""),
    ("2-words", "The words of the command line", """
The words are read as `clap` reads them: which words a command takes is told in clap's own terms, and `options_of` says what the options then are. `Settings`
is what a declaration is answered by: the budget and the words that ask for more lines, and not the number of workers.
""", "aql_options.specs.Words aql_options.specs.Settings"),
    ("3-grammar", "From bytes to trees", """
A script is bytes. `Lexis` says which tokens they are, `Signs` how the reserved words and signs are spelled, `Scan` how deep the brackets go, `Grammar` which
trees a list of tokens reads as: a relation, which holds of one list of trees at most. `Tree` has the trees.
""", """aql_syntax.specs.Tree aql_syntax.specs.Lexis aql_syntax.specs.Signs aql_lex.specs.Lexed aql_syntax.specs.Scan aql_syntax.specs.Grammar
aql_syntax.specs.Names aql_syntax.specs.Size"""),
    ("4-types", "Types", """
A type is within limits: 400 levels, 10,000 nodes, tuples of two parts or more, arrays of rank 1 to 8. `Has` is the typing of an expression. A declaration is
printed with its principal type: the one of which each of its types is an instance.
""", """aql_ty.specs.Types aql_ty.specs.OperationTypes aql_syntax.specs.Typing aql_syntax.specs.Sound aql_ty.specs.ValueTypes aql_ty.specs.Variables
aql_infer_steps.specs.Numbering aql_infer_steps.specs.Typed aql_infer.specs.Checked aql_prelude.specs.Typing aql_ty.specs.View"""),
    ("5-values", "Values and operations", """
A value is a number without an end, a truth value, a string of bytes, a tuple, a set as its ascending members, or an array as its dimensions and its cells in
row-major order. An operation on values may have no value: `None` is the undefined outcome, and `>>=` hands it on.
""", """aql_value.specs.Datum aql_value.specs.Order aql_value.specs.Canon aql_value.specs.Lists aql_value.specs.Partial aql_value.specs.Indices
aql_value.specs.Arith aql_value.specs.Ops aql_value.specs.Operations aql_value.specs.Strict aql_value.specs.Meaning"""),
    ("6-meaning", "What an expression denotes, and what it costs", """
`den` is the value of an expression under the outcomes of the declarations before it and the values of its local names, and `work` the turns that it takes: one
for each member or cell that a loop comes to. The table below has, for each form of expression, its value and its turns; the definitions follow whole.
""", "aql_syntax.specs.Denotation aql_syntax.specs.Matching aql_syntax.specs.View aql_syntax.specs.Work"),
    ("7-files", "What files hold", """
A file is bytes under a name. Of a netCDF file `Format` says which fields its header has, one after another, `File` and `Places` where the cells of a variable
stand, `Slab` which cells a hyperslab takes and which fault comes first. Of a file of records `Rows` says which records it has and `File` which set they are.
""", """cdf_header.specs.Limits cdf_header.specs.Format cdf_header.specs.Header cdf_header.specs.File cdf_header.specs.Places cdf_slab.specs.Numbers
cdf_slab.specs.Slab aql_csv.specs.File aql_csv.specs.Records aql_csv.specs.Rows aql_csv.specs.Number"""),
    ("8-texts", "What is printed", """
The text of a type and of a value. How they are put together to the lines of a declaration stands with the promise, under `Entry`.
""", "aql_print.specs.Joined aql_print.specs.Names aql_print.specs.TypeText aql_print.specs.ValueText nrca_array.specs.Held"),
    ("a-plan", "Annex: the plan of a query", """
What the word `--plan` prints. A query's start term is its translation into core terms (`Start`); a plan is a normal form of it, reached by rewriting steps
(`Rules`), each of which keeps the value. `Firm` says which terms are sure to have one, `Facts` and `Places` with which values an evaluation comes to a place.
Whoever does not ask for plans needs of this page `settle` alone, the turns of a term, by which the budget is counted.
""", """nrca_term.specs.Term nrca_term.specs.View nrca_term.specs.Nodes nrca_term.specs.Meaning nrca_term.specs.Turns aql_desugar_spec.specs.Start
aql_desugar_spec.specs.Positions nrca_normal.specs.Planned nrca_term.specs.Rules nrca_term.specs.Subst nrca_term.specs.Places nrca_term.specs.Facts
nrca_term.specs.Firm nrca_term.specs.Normal aql_print.specs.CoreText aql_print.specs.TraceText"""),
    ("b-motion", "Annex: moved terms", "\nWhat the word `--motion` adds: lets and tests of a plan that are moved out of loops.\n",
     "nrca_motion.specs.Moved nrca_motion.specs.Moves aql_print.specs.MovesText"),
    ("c-graph", "Annex: array-free forms", "\nWhat the word `--graph` adds: a form of the plan without arrays, over sets that encode them.\n",
     "nrca_encoded.specs.Graphs nrca_graph.specs.ArrayFree nrca_graph.specs.Encoding nrca_graph.specs.Tabulation nrca_graph.specs.GraphTurns"),
    ("d-prelude", "Annex: the prelude", "\nThe 24 macros that stand before each script, as trees; `docs/LANGUAGE.md` has their text.\n", "aql_prelude.specs.Prelude"),
]
ANNEXES = ("a-plan", "b-motion", "c-graph", "d-prelude")


def stop(why):
    sys.exit("checks/book.py: " + why)


def link(path, line, deep=True):
    return "[%s:%d](%s%s#L%d)" % (path.split("/", 1)[1], line, "../../" if deep else "../", path, line)


def shown(where, name):
    """A definition in full: its name, what it means, where it stands, its text."""
    here = module(where)
    item = here.items[name]
    text = [it for it in item.text]
    while text and not text[-1].strip():
        text.pop()
    yield ""
    yield "`%s` %s%s" % (name, link(here.path, item.line), ": " + item.head if item.head else "")
    yield ""
    yield "```antt"
    yield from text
    yield "```"


def clauses(where, name):
    """The clauses of a definition by cases, by the constructor that each begins with."""
    found = {}
    for text in module(where).items[name].text[1:]:
        match = re.match(re.escape(name) + r" \((\w+)|" + re.escape(name) + r" (\w+)", text)
        if match:
            form = match.group(1) or match.group(2)
            found[form] = [text]
        elif found:
            found[form].append(text.strip())
    return found


def forms():
    """The table of expressions: for each form of tree its value and its turns."""
    value, turns = clauses("aql_syntax.specs.Denotation", "den"), clauses("aql_syntax.specs.Work", "work")
    cell = lambda lines: "`%s`" % " ".join(" ".join(lines).split("= ", 1)[1].split()).replace("|", "\\|") if lines else ""
    yield ""
    yield "| Form | Its value | Its turns |"
    yield "|---|---|---|"
    for form, lines in value.items():
        yield "| `%s` | %s | %s |" % (form, cell(lines), cell(turns.get(form, [])))


def page(number, taken):
    file, title, about, modules = PAGES[number]
    out = ["# " + title, "", "Made from the sources by `checks/book.py`. [The index](../HEADLINE.md)" + "".join(
        ", [%s](%s.md)" % (word, PAGES[at][0]) for word, at in (("the page before", number - 1), ("the next page", number + 1)) if 0 <= at < len(PAGES)) + ".",
        *about.rstrip().split("\n")]
    if file == "6-meaning":
        out += forms()
    for where in modules.split():
        if where not in taken:
            continue
        here = module(where)
        out += ["", "## %s, `%s`" % (where.split(".")[0], here.path.split("/", 2)[2])]
        if here.about:
            out += ["", here.about]
        for name in here.items:
            if name in taken[where]:
                out += shown(where, name)
    return "\n".join(out) + "\n"


def types_page(shapes):
    out = ["# The types of the code", "", "Made from the sources by `checks/book.py`. [The index](../HEADLINE.md).", "",
           "The definitions name these types of the code. One that has a view is seen by them as what the view makes of it."]
    for (crate, path, name), (doc, number, text) in shapes:
        seen = re.search(r"ghost Value = \{ (.*) \};", "\n".join(view(path, name)))
        out += ["", "`%s` %s%s%s" % (name, link(path, number), ": " + doc if doc else "", " Seen as `%s`." % seen.group(1) if seen else ""), "", "```rust", *text, "```"]
    return "\n".join(out) + "\n"


def counts(taken, pages):
    names = [(where, name) for _, _, _, modules in pages for where in modules.split() if where in taken for name in taken[where]]
    return len(names), sum(len(module(where).items[name].text) for where, name in names)


def trusted_lines(path):
    """How many lines of code a file has, without comments and blank lines."""
    return sum(1 for text in lines_of(path) if text.strip() and not text.strip().startswith("//"))


def index(taken, library, shapes):
    all_counts, first = counts(taken, PAGES), counts(taken, [it for it in PAGES if it[0] not in ANNEXES])
    prose = open(os.path.join(ROOT, "docs", "headline", "PROSE.md"), encoding="utf-8").read()
    contract = "\n".join(["```rust", *call(), "```"])
    pages = ["| Page | Definitions | Lines |", "|---|---|---|"]
    for file, title, _, modules in PAGES:
        pages.append("| [%s](headline/%s.md) | %d | %d |" % (title, file, *counts(taken, [(file, title, "", modules)])))
    pages.append("| [The types of the code](headline/e-types.md) | %d | %d |" % (len(shapes), sum(len(text) for _, (_, _, text) in shapes)))
    pages.append("| Without the annexes | %d | %d |" % first)
    pages.append("| All but the types | %d | %d |" % all_counts)
    words = ["| Library | Words that the definitions name |", "|---|---|"]
    for target, names in sorted(library.items()):
        words.append("| `%s` | %d: %s |" % (target.replace(".specs.", "::"), len(names), " ".join("`%s`" % it.replace("◌", "").replace("|", "\\|") for it in sorted(names))))
    words.append("| Together | %d |" % sum(len(it) for it in library.values()))
    edge = ["| File | Lines of code |", "|---|---|"]
    for path in ("crates/aql/src/main.rt", "crates/aql_run/src/program.rt", "crates/aql_system/src/system.rt"):
        if os.path.exists(os.path.join(ROOT, path)):
            edge.append("| [`%s`](../%s) | %d |" % (path, path, trusted_lines(path)))
    for mark, lines in (("CONTRACT", [contract]), ("PAGES", pages), ("LIBRARY", words), ("EDGE", edge)):
        if prose.count("<!-- %s -->" % mark) != 1:
            stop("docs/headline/PROSE.md wants one line <!-- %s -->" % mark)
        prose = prose.replace("<!-- %s -->" % mark, "\n".join(lines))
    return prose, all_counts, first


def main(write):
    taken, types, library = reach()
    placed = [where for _, _, _, modules in PAGES for where in modules.split()]
    lost = [where for where in taken if where not in placed]
    if lost or len(set(placed)) < len(placed):
        stop("these modules have no place in the book, or two: %s" % " ".join(lost or sorted(it for it in placed if placed.count(it) > 1)))
    shapes = [(where, rust_type(where[1], where[2])) for where in types if where]
    shapes = [(where, shape) for where, shape in shapes if shape]
    made, all_counts, first = index(taken, library, shapes)
    for word, found in (("all", all_counts), ("first", first)):
        if found[0] > MOST[word][0] or found[1] > MOST[word][1]:
            stop("the book has %d definitions on %d lines (%s), and at most %d on %d are allowed" % (*found, word, *MOST[word]))
    pages = {"docs/HEADLINE.md": made, "docs/headline/e-types.md": types_page(shapes)}
    for number, (file, _, _, _) in enumerate(PAGES):
        pages["docs/headline/%s.md" % file] = page(number, taken)
    there = {"docs/headline/" + it for it in os.listdir(os.path.join(ROOT, "docs/headline"))} - {"docs/headline/PROSE.md", "docs/headline/one-run.md"}
    bad = sorted(there - set(pages))
    for path, text in pages.items():
        full = os.path.join(ROOT, path)
        if write:
            with open(full, "w", encoding="utf-8") as file:
                file.write(text)
        elif not os.path.exists(full) or open(full, encoding="utf-8").read() != text:
            bad.append(path)
    for path in bad:
        print("%s differs from the sources: checks/book.py --write" % path)
    return 1 if bad else 0


if __name__ == "__main__":
    sys.exit(main("--write" in sys.argv[1:]))

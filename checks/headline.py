#!/usr/bin/env python3
"""What the contract of `run` rests on, as checks/book.py prints it.

Reads the sources alone: the specs of each crate, and the Rust types that these name. A definition is taken where another one that is
taken names it, beginning with those that the clause of `run` names. Of a type's view it takes what the view is, and not how its values are
stored for proofs.
"""
import os
import re
from collections import OrderedDict

ROOT = os.path.join(os.path.dirname(os.path.abspath(__file__)), "..")
RUN = "crates/aql_run/src/lib.rt"
START = ("aql_run.specs.Headline", "Headline")
OPENS = re.compile(r"^(?:pub )?(?:record|data|ruleset) (\S+)|^(?:(?:abbrev|unfoldable) )?(?:pub )?(\S+) :(?: |$)")
USE = re.compile(r"^use (?:Rattle\.)?([A-Za-z_0-9.]+?)(?:\.\{(.*)\}| as ([A-Za-z_]+))$")
WORD = re.compile(r"[^\s(){}\[\],;.]+")


def lines_of(path):
    with open(os.path.join(ROOT, path), encoding="utf-8") as file:
        return file.read().split("\n")


class Item:
    """A definition: its name, the comment above it, its lines, and the names of its constructors or fields."""

    def __init__(self, name, head, line):
        self.name, self.head, self.line, self.text = name, head, line, []

    def inner(self):
        found = []
        for text in self.text[1:]:
            match = re.match(r"^\s+(?:pub )?(\S+) :", text)
            if match:
                found.append(match.group(1))
        return found


class Module:
    """A module of definitions: what it uses, and its items by name, in the order of the source."""

    def __init__(self, name):
        crate, rest = name.split(".", 1)
        self.name = name
        self.path = "crates/%s/%s.antt" % (crate, rest.replace(".", "/"))
        self.uses, self.aliases, self.items, self.about = {}, {}, OrderedDict(), ""
        head, item, first = [], None, True
        for number, text in self.unwrapped():
            if first and not text.startswith("--"):
                # the comment at the head is the module's, unless a definition stands right below it
                self.about = "" if OPENS.match(text) else " ".join(head)
                first = False
            if text.startswith(("use ", "pub mod ", "mod ")):
                self.use(text)
                head = []
            elif text.startswith("--"):
                head.append(text[2:].strip())
                item = None
            elif text.startswith("infix"):
                head, item = [], None
            elif not text.strip():
                head = []
            elif OPENS.match(text):
                name = next(group for group in OPENS.match(text).groups() if group)
                item = self.items.setdefault(name, Item(name, " ".join(head), number))
                item.text.append(text)
                head = []
            else:
                # a clause behind a comment of its own belongs to the definition that it names
                item = item or self.items.get(text.split()[0]) or (list(self.items.values())[-1] if self.items else None)
                if item:
                    item.text.append(text)
                head = []
        self.within = {}
        for name, item in self.items.items():
            self.within[name] = name
            if re.match(r"^(pub )?data", item.text[0]):
                for inner in item.inner():
                    self.within.setdefault(inner, name)

    def unwrapped(self):
        """The lines with their numbers, those of definitions that call each other brought to the margin."""
        within = False
        for number, text in enumerate(lines_of(self.path), 1):
            if re.match(r"^(\w+ )?mutual$", text):
                within = True
                yield number, ""
                continue
            within = within and (not text or text.startswith("  "))
            yield number, text[2:] if within else text

    def use(self, text):
        match = USE.match(text)
        if not match:
            return
        target, names, alias = match.groups()
        if alias:
            self.aliases[alias] = target
        else:
            for name in re.split(r",\s*", names):
                name = re.sub(r" as .*", "", name.strip())
                self.uses[name] = target


MODULES = {}


def module(name):
    if name not in MODULES:
        MODULES[name] = Module(name)
    return MODULES[name]


def declared(target):
    """The crate, the file and the name of a Rust type that the specs name."""
    target = re.sub(r"\.The\w+$", "", target)
    match = re.match(r"^(\w+)\.specs\.declared\.(.+)\.(\w+)$", target)
    if not match:
        return None
    crate, rest, name = match.groups()
    return crate, "crates/%s/src/%s.rt" % (crate, rest.replace(".", "/")), name


def rust_type(path, name):
    """The doc comment, the line and the text of a Rust type."""
    source = lines_of(path)
    for number, text in enumerate(source):
        if re.match(r"^(pub )?(struct|enum|trait) %s\b" % name, text):
            end = number
            if not text.rstrip().endswith((";", "}")):
                while not source[end].startswith("}") and not source[end].rstrip().endswith(";") or source[end].startswith(" "):
                    end += 1
            top, doc = number, []
            while top and (source[top - 1].startswith("///") or source[top - 1].startswith("#[")):
                top -= 1
                if source[top].startswith("///"):
                    doc.insert(0, source[top][3:].strip())
            return " ".join(doc), number + 1, source[number : end + 1]
    return None


# the members of a view that say what a value is; the others say how proofs store and measure it
SEEN = ("ghost Value", "ghost view")


def view(path, name):
    """The view of a Rust type: what its `impl Model` says that a value is, with the lines that bring in the names of that."""
    source = lines_of(path)
    for number, text in enumerate(source):
        if re.match(r"^impl(<.*>)? Model for %s\b" % name, text):
            end = next(n for n in range(number, len(source)) if source[n] == "}")
            body, taken, inside = source[number : end + 1], [], False
            for line in body:
                if line.startswith("    ghost "):
                    inside = line.startswith(tuple("    " + it for it in SEEN)) or line.startswith("    ghost use ")
                if inside:
                    taken.append(line)
            return taken
    return []


def types_in(crate, path, name):
    """The Rust types of this repository that the text of one names, with the crate and the file that each stands in."""
    found = rust_type(path, name)
    if not found:
        return []
    words = set(re.findall(r"\b[A-Z]\w*", re.sub(r"//.*", "", "\n".join(found[2])))) - {name}
    source, out = lines_of(path), []
    brought = {}
    for pieces in re.findall(r"^(?:pub )?use ([a-z_:]+)::(?:\{([^}]*)\}|(\w+));", "\n".join(source), re.M):
        for word in re.split(r",\s*", pieces[1] or pieces[2]):
            brought[word.strip()] = pieces[0].split("::")
    for word in sorted(words):
        if rust_type(path, word):
            out.append((crate, path, word))
        elif word in brought:
            first = brought[word][0]
            there = crate if first in ("crate", "self") else first
            top = os.path.join(ROOT, "crates", there, "src")
            files = sorted(os.listdir(top)) if os.path.isdir(top) else []
            files.sort(key=lambda file: file != brought[word][-1] + ".rt")
            for file in files:
                if file.endswith(".rt") and rust_type("crates/%s/src/%s" % (there, file), word):
                    out.append((there, "crates/%s/src/%s" % (there, file), word))
                    break
    return out


def reach():
    """The definitions that the start rests on, the Rust types, and the names of the standard library, each in the order of reaching."""
    taken, types, library = OrderedDict(), OrderedDict(), OrderedDict()
    waiting = [START, *cited()]
    for target, used in cited(library=True):
        library.setdefault(target, set()).add(used)
    seen = set()
    while waiting or len(seen) < len(types):
        if not waiting:
            here = next(it for it in types if it not in seen)
            seen.add(here)
            if here:
                for other in types_in(*here):
                    types.setdefault(other, True)
                text = view(here[1], here[2])
                words = set(re.findall(r"[A-Za-z_0-9'-]+", "\n".join(line for line in text if "use Rattle." not in line)))
                for line in text:
                    match = re.match(r"^\s*ghost use Rattle\.([A-Za-z_0-9.]+)\.\{(.*)\};$", line)
                    for used in re.split(r",\s*", match.group(2)) if match else []:
                        if used not in words:
                            continue
                        if not os.path.isdir(os.path.join(ROOT, "crates", match.group(1).split(".")[0])):
                            library.setdefault(match.group(1), set()).add(used)
                        elif ".specs.declared." in match.group(1):
                            types.setdefault(declared(match.group(1)), True)
                        elif module(match.group(1)).within.get(used):
                            waiting.append((match.group(1), module(match.group(1)).within[used]))
            continue
        where, name = waiting.pop(0)
        if name in taken.setdefault(where, OrderedDict()):
            continue
        taken[where][name] = True
        here = module(where)
        body = "\n".join(here.items[name].text)
        body = re.sub(r"--.*", "", body)
        words = set(WORD.findall(body)) | set(re.findall(r"[A-Za-z_0-9'-]+", body))
        if "do" in words:
            # its lines are joined by the `>>=` in scope
            words.add(">>=")

        def follow(target, used):
            if not os.path.isdir(os.path.join(ROOT, "crates", target.split(".")[0])):
                library.setdefault(target, set()).add(used)
            elif ".specs.declared." in target:
                types.setdefault(declared(target), True)
            else:
                within = module(target).within.get(used)
                if within:
                    waiting.append((target, within))

        for used, target in here.uses.items():
            parts = [part for part in used.split("◌") if part]
            if all(part in words for part in parts):
                follow(target, used)
        for alias, target in here.aliases.items():
            for used in sorted(set(re.findall(r"(?<![A-Za-z_0-9.])%s\.([A-Za-z_0-9'-]+)" % alias, body))):
                follow(target, used)
        for used, within in here.within.items():
            if within != name and all(part in words for part in used.split("◌") if part):
                waiting.append((where, within))
    return taken, types, library


def cited(library=False):
    """The other definitions that the clause of `run` names, by the lines that bring them into its file; or those of libraries."""
    words = set(WORD.findall("\n".join(call())))
    found = []
    for text in lines_of(RUN):
        match = re.match(r"^ghost use Rattle\.([A-Za-z_0-9.]+)\.\{(.*)\};$", text)
        if match and library != os.path.isdir(os.path.join(ROOT, "crates", match.group(1).split(".")[0])):
            found += [(match.group(1), name) for name in re.split(r",\s*", match.group(2)) if name in words]
    return [it for it in found if it != START]


def call():
    """The contract of `run`, as it stands in the source."""
    source = lines_of(RUN)
    first = next(n for n, text in enumerate(source) if text.startswith("pub fn run<"))
    top = first
    while source[top - 1].startswith("///"):
        top -= 1
    end = next(n for n in range(first, len(source)) if source[n] == "{")
    return source[top:end]

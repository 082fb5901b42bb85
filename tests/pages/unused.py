#!/usr/bin/env python3
"""Lists what nothing uses, by names: lemmas and definitions that no contract, answer or used lemma names, and public functions
that no code calls, apart from the tests of their own crate.

It compares names, not meanings, so it lists too little: any `.name` or `Type::name` in the code counts as a call of a method,
whatever the type. A function without parameters is a law, which is there to be read. KEPT has the reason for each exception.
"""
import re
import sys
from pathlib import Path

ROOT = Path(__file__).resolve().parent.parent.parent
CRATES = ROOT / "crates"

# Unused items that stay, with the reason.
KEPT = {
    "chase_unifier.specific_by": "the more specific tuples by a binding: a promise of its own",
    "core_engine.drained": "an opened and drained core gives the serial run, whatever the settings",
    "def_machine.proofs.Sessions.committed_alike": "a law of the crate's README",
    "run_laws.proofs.Serial.ms": "a word of its module for the mappings of the session",
    "set_versions.proofs.Sent.held_send": "versions may be sent to another thread",
    "set_versions.proofs.Sent.held_sync": "versions may be read by several threads",
}

# Crates that grow: their public items may be there before the first caller.
GROWING = re.compile(r"(ws_\w+|def_workspace)\.")

GOALS = {"Answers.antt", "Invariants.antt", "Proof.antt"}
WORD = re.compile(r"[\w◌'-]+(?:\.[\w'-]+)*")
USE = re.compile(r"^ *(?:ghost )?use Rattle\.(\w+)\.((?:proofs|specs)[^ {};]*?)(?:\.\{(.*)\}| as (\w+)|);? *$", re.M)
NAMED = re.compile(r"(\w+)::((?:proofs|specs)(?:::\w+)+)::(\w+)")
SCOPE = re.compile(r" *(?:abbrev )?(?:module _|mutual)")
FORMED = re.compile(r" *(?:(?:pub|unfoldable|opaque) )*(record|data) ([^\s:(){}]+)")
STATED = re.compile(r" *(?:(?:pub|abbrev|unfoldable|opaque) )*(?!(?:pub|abbrev|unfoldable|opaque) )([^\s:(){}]+)(?: [^:]*)? : ")
IMPORT = re.compile(r"^ *(?:pub |ghost )?use [^;]*;", re.M)
CLAUSE = re.compile(r"^ *(?:ensures|requires|ghost|prove!)\b[^{;]*\{[^\0]*?\}[;,]? *$", re.M)
PUBLIC = re.compile(r"^( *)pub (?:const |unsafe )*fn (\w+)(?:<[^(]*>)?\(\s*(\S)", re.M)
VARIANT = re.compile(r" +([^\s:(){}]+) :")


class Module:
    """A file of definitions or lemmas: its items by name, each with its lines, and the names in the rest of the file."""

    def __init__(self, file):
        parts = file.relative_to(CRATES).parts
        self.file, self.crate, self.path = file, parts[0], ".".join(parts[1:])[:-5]
        self.lines = file.read_text().split("\n")
        self.imports, self.whole = imports_of("\n".join(self.lines))
        self.items, self.variants, self.outside = {}, {}, []
        self.read([line.split("--")[0] for line in self.lines])

    def read(self, lines):
        """Finds the items: at the margin, or one step in within each `module _` and `mutual`."""
        margins, opened, heading, item, form = [0], False, False, None, None
        for number, line in enumerate(lines):
            if not line.strip() or USE.match(line):
                continue
            if heading:
                heading = not line.rstrip().endswith("where")
                self.outside.append(line)
                continue
            indent = len(line) - len(line.lstrip())
            if opened:
                margins.append(indent)
            while indent < margins[-1]:
                margins.pop()
            opened = indent == margins[-1] and bool(SCOPE.match(line))
            if opened:
                item, heading = None, "module" in line and not line.rstrip().endswith("where")
            elif indent == margins[-1]:
                item, form = self.begun(line, item)
            elif form == "data" and (variant := VARIANT.match(line)):
                self.variants[variant[1]] = item
            self.items[item].append(number) if item else self.outside.append(line)

    def begun(self, line, item):
        """The item that a line at the margin begins or goes on with, and whether it is a record or data."""
        if formed := FORMED.match(line):
            self.items.setdefault(formed[2], [])
            return formed[2], formed[1]
        if stated := STATED.match(line):
            self.items.setdefault(stated[1], [])
            return stated[1], None
        first = WORD.match(line.strip())
        return (first[0] if first and first[0] in self.items else item), None

    def text(self, item):
        return "\n".join(self.lines[number].split("--")[0] for number in self.items[item])


def imports_of(text):
    """The names that a file imports, each with its module, and the modules that it imports whole."""
    imports, whole = {}, {}
    for crate, path, names, alias in USE.findall(text):
        if names:
            for name in names.split(","):
                given, _, own = name.strip().partition(" as ")
                imports[own or given] = (crate, path, given)
        else:
            whole[alias or path.rpartition(".")[2]] = (crate, path)
    return imports, whole


def is_stored(file):
    return "out" not in file.relative_to(CRATES).parts


def is_goal(file):
    """Whether the file answers goals of a function."""
    return file.name in GOALS and file.relative_to(CRATES).parts[1] == "proofs"


def modules():
    files = [file for file in CRATES.rglob("*.antt") if is_stored(file) and not is_goal(file) and file.name != "Lib.antt"]
    return {(module.crate, module.path): module for module in map(Module, files)}


def known(stored, crate, path, name):
    """The item that a name of a module means, with the type for a variant; None if the name is no item."""
    module = stored.get((crate, path))
    if module is None and (crate, path.rpartition(".")[0]) in stored:
        module = stored[crate, path.rpartition(".")[0]]
    if module is None:
        return None
    name = module.variants.get(name, name)
    return (module.crate, module.path, name) if name in module.items else None


def named_in(stored, text, imports, whole, own=None):
    """The items that a text names."""
    for word in set(WORD.findall(text)):
        parts = word.split(".")
        for place, part in enumerate(parts):
            if own and (item := known(stored, own.crate, own.path, part)):
                yield item
            if part in imports and (item := known(stored, *imports[part])):
                yield item
            if part in whole and place + 1 < len(parts) and (item := known(stored, *whole[part], parts[place + 1])):
                yield item


def roots(stored):
    """The names in answers, invariants and code, and in the rest of each module."""
    for module in stored.values():
        yield from named_in(stored, "\n".join(module.outside), module.imports, module.whole, module)
        yield from ((module.crate, module.path, name) for name in module.items if "◌" in name)
    for file in filter(is_stored, CRATES.rglob("*.*t")):
        if is_goal(file) or file.suffix == ".rt":
            text = file.read_text()
            imports, whole = imports_of(text)
            yield from named_in(stored, USE.sub("", text), imports, whole)
            for crate, path, name in NAMED.findall(text):
                crate = file.relative_to(CRATES).parts[0] if crate == "crate" else crate
                if item := known(stored, crate, path.replace("::", "."), name):
                    yield item


def unused_items(stored):
    """The items to which no chain of names leads from a root, each as crate, module and name."""
    used, waiting = set(), list(roots(stored))
    for crate, *path, name in (kept.split(".") for kept in KEPT):
        waiting += filter(None, [known(stored, crate, ".".join(path), name)])
    while waiting:
        item = waiting.pop()
        if item not in used:
            used.add(item)
            module = stored[item[:2]]
            waiting += named_in(stored, module.text(item[2]), module.imports, module.whole, module)
    everything = {(*key, name) for key, module in stored.items() for name in module.items}
    return sorted(everything - used)


class Source:
    """A file of code: its public functions, and its text without comments, imports and clauses."""

    def __init__(self, file):
        parts = file.relative_to(CRATES).parts
        self.crate, self.is_test = parts[0], file.name == "tests.rt"
        text = re.sub(r"//.*", "", file.read_text())
        self.uses = {crate for statement in IMPORT.findall(text) for crate in re.findall(r"\b\w+\b", statement)}
        self.code = CLAUSE.sub("", IMPORT.sub("", text))
        self.own = set(re.findall(r"^(?:pub(?:\([a-z]+\))? )?fn (\w+)", self.code, re.M))

    def functions(self):
        """The public functions with parameters: name, and whether it is a method."""
        for margin, name, first in PUBLIC.findall(self.code):
            if first != ")":
                yield name, margin != ""

    def calls(self, crate, name, method):
        """Whether the code names the function of the crate, outside its own body."""
        code, margin = self.code, " +" if method else ""
        if self.crate == crate:
            code = re.sub(rf"^({margin})(?:pub )?fn {name}\b[^\0]*?^\1}}$", "", code, flags=re.M)
        return bool(re.search(rf"(?:\.|::){name}\b" if method else rf"\b{name}\b", code))


def uncalled():
    """The public functions that no code calls, apart from the tests of their crate, as crate and name."""
    sources = [Source(file) for file in CRATES.rglob("*.rt") if is_stored(file)]
    for crate in sorted({source.crate for source in sources}):
        for name, method in sorted({function for source in sources if source.crate == crate for function in source.functions()}):
            if not any(source.calls(crate, name, method) for source in sources if may_call(source, crate, name, method)):
                yield crate, name


def may_call(source, crate, name, method):
    """Whether a call by this name can be meant: in the crate itself without its tests, or in a file that imports the crate's
    name."""
    if source.crate == crate:
        return not source.is_test
    return method or name in source.uses and name not in source.own or f"{crate}::{name}" in source.code


if __name__ == "__main__":
    stored = modules()
    unused = unused_items(stored) + list(uncalled())
    for item in map(".".join, unused):
        if item not in KEPT and not GROWING.match(item):
            print(item)

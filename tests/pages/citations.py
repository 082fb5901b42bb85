#!/usr/bin/env python3
"""Checks docs/PROOFS.md against the contracts: each item of a section on a crate cites a contract, and each cited contract
exists. With the word `uncited` it prints instead the crates that have no section, and the laws (public functions without
arguments) that no item cites.

A citation is `function`, `function: clause, ..`, `Type::function: clause, ..`, or `Type: word, ..` for a ghost word of a type, of
the crate that the section is on; `crate::` in front names another crate. `File.name` or `name` may be a definition.
"""
import re
import sys
from pathlib import Path

ROOT = Path(__file__).resolve().parent.parent.parent
CRATES = sorted(folder.name for folder in (ROOT / "crates").iterdir() if folder.is_dir())
LISTED = re.findall(r"[a-z][a-z0-9_]*", re.sub(r"#.*", "", (ROOT / "crates.txt").read_text()))
PLAIN = {"out", "err", "since"}     # words that are about the program and cite nothing

HEAD = re.compile(r"^(?:pub(?:\([a-z]+\))? |unsafe )*(impl|trait|struct|enum)\b(.*)")
FUNCTION = re.compile(r"^\s*(?:pub(?:\([a-z]+\))? |const |unsafe )*fn (\w+)")
CLAUSE = re.compile(r"^\s*(?:ensures|requires)\s*([a-z_0-9]*)")
MEMBER = re.compile(r"^\s+ghost (\w+)\s*[:=]")


def owner_of(kind, rest):
    """The type of an impl, or the name of a trait, struct or enum; nothing for a type without a name."""
    if kind == "impl":
        shorter = None
        while shorter != rest:
            shorter, rest = rest, re.sub(r"<[^<>]*>", "", rest)
        rest = rest.split(" for ")[-1]
    name = re.match(r"\W*(\w+)", rest)
    return name and name[1]


def contracts_of(crate):
    """What can be cited of a crate: the clauses of each function, by type and name, and the ghost words of each type."""
    clauses, words = {}, {}
    for file in sorted((ROOT / "crates" / crate / "src").rglob("*.rt")):
        owner, function = None, None
        for line in file.read_text().splitlines():
            if head := HEAD.match(line):
                owner, function = owner_of(*head.groups()), None
            elif line.startswith("}"):
                owner, function = None, None
            elif member := MEMBER.match(line):
                words.setdefault(owner, set()).add(member[1])
            elif start := FUNCTION.match(line):
                function = clauses.setdefault((owner, start[1]), set())
            elif function is not None and (clause := CLAUSE.match(line)):
                function.add(clause[1])
    return clauses, words


CONTRACTS = {crate: contracts_of(crate) for crate in CRATES}


def defines(crate, files, name):
    """Whether the name stands in one of these files of definitions."""
    return any(re.search(rf"\b{name}\b", file.read_text()) for file in (ROOT / "crates" / crate / "specs").glob(files))


def is_there(crate, cited):
    """Whether the crate has the cited definition, words of a type, or function with these clauses."""
    name, _, listed = cited.partition(": ")
    wanted = set(filter(None, listed.split(", ")))
    if "." in name:
        file, _, definition = name.partition(".")
        return defines(crate, f"{file}.antt", definition)
    clauses, words = CONTRACTS[crate]
    if name[:1].isupper() and "::" not in name:
        return bool(wanted) and wanted <= words.get(name, set())
    owner, _, function = name.rpartition("::")
    found = clauses.get((owner or None, function))
    return bool(found) and wanted <= found or not (owner or wanted) and defines(crate, "*.antt", name)


def items_of(lines):
    """The items of a list, each as one line, with the number of its first line."""
    items = []
    for number, line in lines:
        if re.match(r"(?:-|\d+\.) ", line):
            items.append([number, line])
        elif line.startswith("  ") and items:
            items[-1][1] += " " + line.strip()
    return items


def sections_of(page):
    """Each section: the crate that its heading names, if any, and its numbered lines."""
    section = (None, [])
    for number, line in enumerate(page.read_text().splitlines(), 1):
        if line.startswith("#"):
            yield section
            named = re.fullmatch(r"#+ `(\w+)`", line)
            section = (named[1] if named else line.lstrip("# "), [])
        else:
            section[1].append((number, line))
    yield section


def offences(page):
    for heading, lines in sections_of(page):
        crate = heading if heading in CRATES else None
        if not crate and heading not in ("Twelve promises", "The whole program", "The formats"):
            continue
        for number, item in items_of(lines):
            quoted = re.findall(r"`([^`]+)`", item)
            tokens = [token for token in quoted if token not in PLAIN and token not in LISTED and "/" not in token]
            if not tokens:
                yield f"{number}: cites no contract"
            for token in tokens:
                prefix = re.match(r"(\w+)::", token)
                inside = prefix[1] if prefix and prefix[1] in CRATES else crate
                cited = token[len(prefix[0]):] if prefix and prefix[1] in CRATES else token
                if inside is None or not is_there(inside, cited):
                    yield f"{number}: `{token}` is not there"


def uncited(page):
    """The crates and the laws that the page does not name."""
    text = page.read_text()
    for crate in CRATES:
        if not re.search(rf"^#+ `{crate}`$", text, re.M):
            yield f"{crate} has no section"
        for file in sorted((ROOT / "crates" / crate / "src").rglob("*.rt")):
            for law in re.findall(r"^pub fn (\w+)\(\)\s*\n\s*ensures", file.read_text(), re.M):
                if not re.search(rf"`{law}[`:]", text):
                    yield f"{crate} has a law {law}"


if __name__ == "__main__":
    page = ROOT / "docs" / "PROOFS.md"
    found = list(uncited(page) if sys.argv[1:] == ["uncited"] else offences(page))
    for offence in found:
        print(f"{page.relative_to(ROOT)}: {offence}")
    sys.exit(bool(found))

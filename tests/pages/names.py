#!/usr/bin/env python3
"""Prints each name of the crates that the pages quote and that does not exist.

In docs/GLOSSARY.md: each name in the column Definitions that no definition has, and in the column Code that no code has. In the
pages on how things work: each name with an underscore that neither the definitions, the code nor the list of crates has. In
crates.txt: each crate of the kit that docs/PROOFS.md does not list as trusted.
"""
import re
import sys
from pathlib import Path

ROOT = Path(__file__).resolve().parent.parent.parent
COLUMNS = {"Definitions": "specs/*.antt", "Code": "src/**/*.rt"}
PAGES = ("README.md", "CONTRIBUTING.md", "docs/RULES.md", "docs/ARCHITECTURE.md", "docs/CONCURRENCY.md", "docs/CALLING.md",
         "crates/*/README.md")
NOT_OURS = {"serde_json"}   # names that pages mention without using them


def words_in(pattern):
    """Every word that stands in these files of the crates, comments aside."""
    words = set()
    for file in (ROOT / "crates").glob("*/" + pattern):
        words.update(re.findall(r"\w+", re.sub(r"^\s*(//|--).*$", "", file.read_text(), flags=re.M)))
    return words


def listed():
    """The crates of the list, and the crates of the kit that they use."""
    lines = re.sub(r"#.*", "", (ROOT / "crates.txt").read_text()).split("\n")
    crates = {re.split(r"[ :]", line)[0] for line in lines if ":" in line}
    return crates, {name for line in lines if ":" in line for name in line.split(":")[1].split()} - crates


def of_glossary(there):
    heads = []
    for number, line in enumerate((ROOT / "docs" / "GLOSSARY.md").read_text().splitlines(), 1):
        cells = [cell.strip() for cell in line.strip("|").split("|")] if line.startswith("|") else []
        if "Word" in cells:
            heads = cells
        for head, cell in zip(heads, cells):
            for name in re.findall(r"`(\w+)`", cell) if head in COLUMNS else []:
                if name not in there[head]:
                    yield f"docs/GLOSSARY.md: {number}: {head} has no {name}"


def of_pages(there):
    for pattern in PAGES:
        for page in sorted(ROOT.glob(pattern)):
            text = re.sub(r"^```.*?^```", "", page.read_text(), flags=re.M | re.S)
            for name in sorted(set(re.findall(r"`(?:\w+::)?([a-z0-9]+(?:_[a-z0-9]+)+)`", text)) - there):
                yield f"{page.relative_to(ROOT)}: there is no {name}"


def of_trusted(kit):
    trusted = (ROOT / "docs" / "PROOFS.md").read_text().split("# What is trusted")[1]
    for name in sorted(kit):
        if f"`{name}`" not in trusted:
            yield f"docs/PROOFS.md: {name} is used, and not said to be trusted"


def main():
    crates, kit = listed()
    there = {column: words_in(pattern) for column, pattern in COLUMNS.items()}
    wrong = list(of_glossary(there))
    wrong += of_pages(there["Definitions"] | there["Code"] | words_in("proofs/**/*.antt") | crates | kit | NOT_OURS)
    wrong += of_trusted(kit)
    print(*wrong, sep="\n", end="\n" if wrong else "")
    sys.exit(bool(wrong))


if __name__ == "__main__":
    main()

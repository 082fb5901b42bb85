#!/usr/bin/env python3
"""Checks the layers of the crates. crates.txt lists them from the lowest: each line `# LAYER: what it has` begins one.

- The name of a crate begins with its layer, except in the layer `programs`.
- A crate uses only crates of its own layer and of lower layers, and is listed after all that it uses.
- The headings of docs/ARCHITECTURE.md (`### `LAYER`: ..`) and of docs/GLOSSARY.md (`## `LAYER`: ..`) name the same layers with
  the same words. The tables below them name the same crates, all in the same order.
"""
import re
import sys
from pathlib import Path

ROOT = Path(__file__).resolve().parent.parent.parent
PAGES = {"docs/ARCHITECTURE.md": 0, "docs/GLOSSARY.md": 2}    # the column of a table that names the crate


def listed():
    """Each layer of crates.txt: its name, what it has, and its crates with what each uses."""
    layers = []
    for line in (ROOT / "crates.txt").read_text().splitlines():
        if head := re.fullmatch(r"# ([a-z]+): (.+)", line):
            layers.append((head[1], head[2], []))
        elif crate := re.match(r"([a-z][a-z0-9_]*)[^:#]*:(.*)", line):
            layers[-1][2].append((crate[1], crate[2].split()))
    return layers


def of_page(page, column):
    """Each layer that the page has a heading for: its name, its words, and the crates of its table, each once."""
    layers = []
    for line in (ROOT / page).read_text().splitlines():
        if head := re.fullmatch(r"#+ `([a-z]+)`: (.+)", line):
            layers.append((head[1], head[2], []))
        elif layers and line.startswith("| "):
            cells = [cell.strip() for cell in line.strip("|").split("|")]
            crate = re.fullmatch(r"`(\w+)`", cells[column])
            if crate and crate[1] not in layers[-1][2]:
                layers[-1][2].append(crate[1])
    return layers


def misplaced(layers):
    """The breaches of the order of the layers."""
    place = {name: at for at, (_, _, crates) in enumerate(layers) for name, _ in crates}
    seen = set()
    for at, (layer, _, crates) in enumerate(layers):
        for name, used in crates:
            if layer != "programs" and not name.startswith(layer + "_"):
                yield f"crates.txt: {name} stands in the layer {layer}"
            for other in used:
                if place.get(other, -1) > at:
                    yield f"crates.txt: {name} uses {other}, which is of a higher layer"
                elif other in place and other not in seen:
                    yield f"crates.txt: {name} uses {other}, which is listed after it"
            seen.add(name)


def differing(layers, page, column):
    """The differences between the page and crates.txt."""
    wanted = {layer: (text, [name for name, _ in crates]) for layer, text, crates in layers}
    found = of_page(page, column)
    if [layer for layer, _, _ in found] != list(wanted):
        yield f"{page}: its layers are {' '.join(layer for layer, _, _ in found)}, those of crates.txt {' '.join(wanted)}"
    for layer, text, crates in found:
        told, names = wanted.get(layer, (text, crates))
        if text != told:
            yield f"{page}: {layer} is '{text}', and in crates.txt '{told}'"
        if crates != names:
            yield f"{page}: {layer} has {' '.join(crates)}, and in crates.txt {' '.join(names)}"


def main():
    layers = listed()
    wrong = list(misplaced(layers))
    for page, column in PAGES.items():
        wrong += differing(layers, page, column)
    print(*wrong, sep="\n", end="\n" if wrong else "")
    sys.exit(bool(wrong))


if __name__ == "__main__":
    main()

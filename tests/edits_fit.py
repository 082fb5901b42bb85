#!/usr/bin/env python3
"""Prints each must-fail edit, of crates/*/must-fail and of tests/edits, that does not fit: its file is missing, or its old text
does not stand there exactly once."""
import sys
from pathlib import Path

ROOT = Path(__file__).resolve().parent.parent


def misfit(edit, crate):
    """Why the edit does not fit the crate; None if it fits."""
    texts, path, old, pairs = {}, None, None, 0
    for line in edit.read_text().splitlines():
        if line.startswith("file: "):
            path = crate / line.removeprefix("file: ").strip()
            if not path.is_file():
                return f"there is no file {path.relative_to(ROOT)}"
            texts.setdefault(path, path.read_text())
        elif line.startswith("old: "):
            old = line.removeprefix("old: ")
        elif line.startswith("new:") and path and old:
            if texts[path].count(old) != 1:
                return f"its old text stands {texts[path].count(old)} times in {path.relative_to(ROOT)}"
            texts[path] = texts[path].replace(old, line.removeprefix("new:").removeprefix(" "))
            old, pairs = None, pairs + 1
    return None if pairs else "it has no pair of texts"


def main():
    edits = [(edit, edit.parent.parent) for edit in sorted(ROOT.glob("crates/*/must-fail/*.edit"))]
    edits += [(edit, ROOT / "crates" / edit.parent.name) for edit in sorted(ROOT.glob("tests/edits/*/*.edit"))]
    misfits = [f"{edit.relative_to(ROOT)}: {why}" for edit, crate in edits if (why := misfit(edit, crate))]
    print("\n".join(misfits), end="\n" if misfits else "")
    sys.exit(bool(misfits))


if __name__ == "__main__":
    main()

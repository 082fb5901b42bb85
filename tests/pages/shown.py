#!/usr/bin/env python3
"""Prints each block of a page that shows code which is not in its file: `shown.py PAGE`.

A block ```rust FILE has lines that stand in FILE, unchanged and one after the other.
"""
import re
import sys
from pathlib import Path

ROOT = Path(__file__).resolve().parent.parent.parent


def main():
    page = Path(sys.argv[1])
    blocks = re.findall(r"^```rust (\S+)\n(.*?)^```$", page.read_text(), re.M | re.S)
    lost = [file for file, text in blocks if not (ROOT / file).exists() or text not in (ROOT / file).read_text()]
    for file in lost:
        print(f"{page}: a block of {file} does not stand there")
    if not blocks:
        print(f"{page}: no block shows code")
    sys.exit(bool(lost) or not blocks)


if __name__ == "__main__":
    main()

#!/usr/bin/env python3
"""Prints each link of the pages that leads nowhere, to no file or to no heading of a page, and each file that the pages name and
that does not exist."""
import re
import sys
from pathlib import Path

ROOT = Path(__file__).resolve().parent.parent.parent
PAGES = ("*.md", "docs/*.md", "crates/*/README.md", "examples/*/*.md", "tests/*.md", "bench/*.md", "bench/*/*.md")
LINK = re.compile(r"\]\(([^)\s]+)\)")
NAMED = re.compile(r"`((?:crates|tests|docs|share|bench|examples)/[\w./-]+)`")


def without_blocks(text):
    return re.sub(r"^```.*?^```", "", text, flags=re.M | re.S)


def anchors_of(page):
    """The anchors of a page's headings, as they are made on the usual sites."""
    headings = re.findall(r"^#+ (.*)$", without_blocks(page.read_text()), re.M)
    return {re.sub(r"[^\w\- ]", "", heading).strip().lower().replace(" ", "-") for heading in headings}


def leads_nowhere(page, link):
    place, _, anchor = link.partition("#")
    target = (page.parent / place) if place else page
    return not target.exists() or bool(anchor) and anchor not in anchors_of(target)


def main():
    failed = False
    for page in sorted(page for pattern in PAGES for page in ROOT.glob(pattern)):
        text = without_blocks(page.read_text())
        lost = [link for link in LINK.findall(text) if "://" not in link and leads_nowhere(page, link)]
        lost += [name for name in NAMED.findall(text) if "NAME" not in name and not (ROOT / name).exists()]
        for name in lost:
            failed = True
            print(f"{page.relative_to(ROOT)}: {name}")
    sys.exit(failed)


if __name__ == "__main__":
    main()

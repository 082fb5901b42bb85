#!/usr/bin/env python3
"""Checks that the pages are in plain English, as far as a machine can: `english.py [PAGE..]`.

It finds the words that CONTRIBUTING lists under (a) to (g), and sentences of more than 40 words. It reads no fenced blocks and no
headings, and takes quoted code as one word. Each cell of a table and each item of a list is a text of its own.
"""
import re
import sys
from pathlib import Path

ROOT = Path(__file__).resolve().parent.parent.parent
PAGES = ("README.md", "CONTRIBUTING.md", "docs/GUIDE.md", "docs/ARCHITECTURE.md", "docs/CONCURRENCY.md", "docs/PROVING.md",
         "docs/DECISIONS.md", "bench/RESULTS.md")
LONGEST = 40
EXAMPLES = "| | Avoid |"    # the head of the table that shows what to avoid

# What each pattern finds.
HOUSE = {
    "a clause as the subject": r"(?:^|(?<=[.:] ))(?:What|Who|Whoever|Whatever|How many) (?!if\b|is\b|kind\b)[^?]*?[.:](?=\s|$)",
    "where for if": (r"(?:^|(?<=[.;:] ))Where (?![^.]*\?|is\b|are\b|what\b|things\b)|\b(?:only|exactly|just|except|but|also) where\b"
                     r"|(?<!says )(?<!shows )(?<!knows )(?<!folder )(?<!file )(?<!place )(?<!line )\bwhere "
                     r"(?=(?:there (?:is|are)|no|none|nothing|nobody|memory|somebody|it (?:is|has|does)|they (?:are|have|do))\b)"),
    "behind, past for after": r"\bbehind\b|\bpast (?:it|the|what|so|that|which|an?|its|\d)\b",
    "a thing without its name": r"\bso (?:many|much)\b|\bthose (?:of|that|who|which|whose)\b|\bno such\b|(?<!twice )\bas many\b",
    "a house word": (r"\bwanted\b|\bare due\b|\bis due\b|\blet(?:s|ting)? (?:\w+ )?go\b|\bwork(?:s|ed|ing)? (?:\w+ )?out\b|\btold\b"
                     r"|\bin vain\b|\banew\b|\bdear(?:er|est)?\b|\bhandles? of\b|\bis refused only\b|\btakes no memory\b"),
    "a diary": r"\b(?:half a|the half|a|the) day before\b|\bday before\b|\bhalf a day\b|\bbefore that\b(?! )",
    "a fraction in words": r"\b\d+(?:\.\d+)? (?:to \d+(?:\.\d+)? )?of (?:a )?(?:100|hundred)\b",
    "a negative": r"\b(?:nothing|none|nobody|no other \w+) but\b|\bbut for\b",
}


def texts_of(page):
    """The texts of a page, each with the number of its first line: paragraphs, items of lists, cells of tables."""
    fence, shown, start, words = False, False, 0, []
    for number, line in enumerate(page.read_text().splitlines() + [""], 1):
        begins = re.match(r"\s*(?:[-*] |\d+\. |\||#|```|$|:?-{3,}|>)", line)
        if (begins or fence) and words:
            yield start, " ".join(words)
            words = []
        if line.lstrip().startswith("```"):
            fence = not fence
        elif fence or line.startswith(("#", "<", "    ", "![")):
            pass
        elif line.startswith("|"):
            shown = line.startswith(EXAMPLES) or shown
            if not shown:
                yield from ((number, cell) for cell in line.strip("|").split("|"))
        elif line.strip():
            start, shown = start if words else number, False
            words.append(re.sub(r"^\s*(?:[-*]|\d+\.) ", "", line).strip())
        else:
            shown = False


def plain(text):
    """The text with code, links and marks taken away."""
    text = re.sub(r"``[^`]*``|`[^`]*`", "CODE", text)
    text = re.sub(r"!?\[([^\]]*)\]\([^)]*\)", r"\1", text)
    return re.sub(r"\s+", " ", re.sub(r"[*_]{1,2}(?=\S)|(?<=\S)[*_]{1,2}", "", text)).strip()


def sentences_of(text):
    return re.split(r"(?<=[.!?])[\")*]*\s+(?=[A-Z\"(*\d])", text)


def offences(page):
    for number, text in texts_of(page):
        for sentence in sentences_of(plain(text)):
            count = len(re.findall(r"[A-Za-z0-9]\S*", sentence))
            if count > LONGEST:
                yield f"{number}: {count} words: {sentence[:60]}.."
            for what, pattern in HOUSE.items():
                for found in re.finditer(pattern, sentence):
                    at = max(0, found.start() - 20)
                    yield f"{number}: {what}: {sentence[at:found.start() + 40]}"


def main():
    failed = False
    for name in sys.argv[1:] or PAGES:
        for offence in offences(ROOT / name):
            failed = True
            print(f"{name}: {offence}")
    sys.exit(failed)


if __name__ == "__main__":
    main()

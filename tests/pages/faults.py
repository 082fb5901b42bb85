#!/usr/bin/env python3
"""faults.py PROGRAM: prints each example in the tables of faults of docs/FORMATS.md for which the program gives another fault.

An example is line 3 of a small session, and its fault is at line 3. The rows that say otherwise are spelled out here.
"""
import re
import subprocess
import sys
from pathlib import Path

ROOT = Path(__file__).resolve().parent.parent.parent

# The input and the line of each row whose example is not line 3 as it stands.
OTHERWISE = {
    "13": ('youtopia 1\nrelation A 1\nbase A("' + "x" * 257 + '")\nend\n', 3),
    "20": ("youtopia 3\nrelation A 1\nend\n", 1),
    "25": ("youtopia 1\nrelation A 1\n", 3),
    "26": ("youtopia 1\nrelation A 1\nend\nend\n", 4),
}


def rows_of(text, head):
    """The cells of each row of the table with this head."""
    table = text.split(f"| {head} |")[1].split("\n\n")[0].splitlines()[2:]
    return [re.split(r" *\| +", row.strip("| ")) for row in table]


def examples(text):
    """What each row shows: an input and its fault."""
    for number, _, example, told in rows_of(text, "N | WORDS | Example | Its words"):
        data, line = OTHERWISE.get(number, (f"youtopia 1\nrelation A 1\n{example.strip('`')}\nend\n", 3))
        yield data, f"session line {line}: fault {number}: {told.split('`')[1]}"
    for wanted, _, example in rows_of(text, "WANTED | Where | Example"):
        yield f"youtopia 1\nrelation A 1\n{example.strip('`')}\nend\n", f"session line 3: fault 21: expected {wanted.strip('`')}"


def main():
    failed, count = False, 0
    for data, wanted in examples((ROOT / "docs" / "FORMATS.md").read_text()):
        run = subprocess.run([sys.argv[1], "check"], input=data.encode(), capture_output=True)
        count += 1
        if run.stderr.decode() != f"youtopia: {wanted}\n":
            failed = True
            print(f"wanted: {wanted}\ntold: {run.stderr.decode()}")
    if count < 30:
        failed = True
        print(f"only {count} examples were found")
    sys.exit(failed)


if __name__ == "__main__":
    main()

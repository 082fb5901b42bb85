#!/usr/bin/env python3
"""drawn_rows.py FOLDER FIRST COUNT: writes there a row for each of COUNT random cases, of the seeds from FIRST on.

The cases are those of tests/differential: a command with its options over a random session, often a garbled one; a row has what the
reference tells. Those are left out that read no input, or may tell any of several histories. A row has the name `drawn-SEED`, by which
it can be made again.
"""
import random
import sys
from pathlib import Path

from running import youtopia     # which makes the reference known

from oracle.cases import case

LEFT_OUT = {"words", "drill", "trace"}
REFUSED = 2     # the status of words that are refused


def drawn(seed):
    """The words and the input of the seed's first case that counts, and what is told of it."""
    rng = random.Random(f"row {seed}")
    while True:
        kind, words, data = case(rng)
        told = youtopia(words, data)
        if kind not in LEFT_OUT and told[0] != REFUSED:
            return words, data, told


def main(folder, first, count):
    for seed in range(int(first), int(first) + int(count)):
        words, data, (status, out, err) = drawn(seed)
        row = Path(folder) / f"drawn-{seed}"
        row.mkdir(parents=True)
        said = "".join(word + "\n" for word in words).encode()
        texts = {"session": data, "words": said, "out": out, "err": err, "status": b"%d\n" % status}
        for name, text in texts.items():
            (row / name).write_bytes(text)


if __name__ == "__main__":
    main(*sys.argv[1:])

#!/usr/bin/env python3
"""live_cuts.py PROGRAM [cheap]: conversations with a part missing; the program must give the answer of the reference.

Every beginning of each conversation, of at most 1,500 bytes. If not cheap, also every end of each stored conversation of at most
that length, and each of these with any one byte left out. The last line is 'N passed, M failed'.
"""
import sys

from conversations import conversations, stored
from cuts import beginnings, ends, with_one_left_out
from running import Tally, told_by

from oracle.live import curate

LONGEST = 1500      # bytes


def main():
    program, cheap = sys.argv[1], len(sys.argv) > 2
    tally = Tally()
    for name, data in conversations(cheap).items():
        whole = not cheap and name in stored() and len(data) <= LONGEST
        for way in [beginnings, ends, with_one_left_out] if whole else [beginnings]:
            for number, part in enumerate(way(data[:LONGEST])):
                tally.compare(f"{name}, {way.__name__} {number}", curate([], part), told_by(program, [], part))
    tally.end()


if __name__ == "__main__":
    main()

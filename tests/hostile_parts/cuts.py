#!/usr/bin/env python3
"""cuts.py PROGRAM [cheap]: inputs with a part missing; the program must give the answer of the reference.

Every beginning of five sessions and of a journal, each with its row's words, and every beginning of a query. If not cheap, also
every end of each, and each with any one byte left out. The last line is 'N passed, M failed'.
"""
import sys

from running import TESTS, Tally, told_by, youtopia

ROWS = ("travel", "taken-null", "added-mapping", "negative-frontier-both", "unify-answer", "spacing-format", "recover-travel")
QUERY = 'q(a, c): Airport(a, l, c), City(c), Attraction(l, "x\\n\u00e9"), Tour(n, z, -7)  # why'


def beginnings(data):
    return (data[:end] for end in range(len(data) + 1))


def ends(data):
    return (data[start:] for start in range(1, len(data) + 1))


def with_one_left_out(data):
    return (data[:place] + data[place + 1:] for place in range(len(data)))


def main():
    program, cheap = sys.argv[1], len(sys.argv) > 2
    ways = [beginnings] if cheap else [beginnings, ends, with_one_left_out]
    tally = Tally()
    for name in ROWS:
        row = TESTS / "rows" / name
        words, data = (row / "words").read_text().splitlines(), (row / "session").read_bytes()
        for way in ways:
            for number, part in enumerate(way(data)):
                tally.compare(f"{name}, {way.__name__} {number}", youtopia(words, part), told_by(program, words, part))
    data = (TESTS / "rows" / "travel" / "session").read_bytes()
    for way in ways:
        for part in way(QUERY):
            words = ["ask", "--query=" + part]
            tally.compare(f"the query {part}", youtopia(words, data), told_by(program, words, data))
    tally.end()


if __name__ == "__main__":
    main()

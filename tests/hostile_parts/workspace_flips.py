#!/usr/bin/env python3
"""workspace_flips.py YT COUNT [cheap]: damaged files; yt reports the damage, or reads what was there.

Every bit of a small workspace is flipped (if cheap, one bit of each byte), and the file is cut at every byte. A larger one is
damaged COUNT times at random: bytes changed, taken out or put in, parts doubled or moved, the end filled with zeros. The reply
must be the reference's, byte by byte. Either the file is reported as damaged (status 12), or nothing has changed; only a cut, and
damage at the last gate, may take whole records away from the end. The last line is 'N passed, M failed'.
"""
import collections
import random
import sys
from pathlib import Path

from workspace_runs import LOOKS, Bench, Tally, by_reference, command_list, yt

SMALL = ['relation A(x*, y)', 'insert A(1, ?)', 'mapping m: A(x, y) -> A(y, z)', 'insert A("a", 1)', 'answer 3 1', 'undo 1']


class Damage:
    def __init__(self, bench, tally, lines):
        self.bench, self.tally, self.counts = bench, tally, collections.Counter()
        self.states = bench.states(lines)
        self.data = Path(bench.path("reference.yt")).read_bytes()
        self.whole = self.states[-1]

    def check(self, what, data):
        file = self.bench.path("copy.yt")
        Path(file).write_bytes(data)
        told = yt(self.bench.program, ["--keep-going", file], LOOKS)
        wanted = by_reference(["--keep-going", file], LOOKS)
        self.tally.compare(f"{what} is told as the reference tells it", wanted, told)
        state = "damaged" if told[0] == 12 and b"damaged" in told[2] else "nothing changed" if told == self.whole else None
        if state is None and told in self.states:
            state = "whole records fewer"
        self.counts[state] += 1
        self.tally.holds(f"{what} is damaged, or nothing changed: {told}", state is not None)
        self.tally.holds(f"{what} leaves the file", Path(file).read_bytes() == data)

    def flips(self, bits):
        for place in range(len(self.data)):
            for bit in bits:
                changed = bytearray(self.data)
                changed[place] ^= 1 << bit
                self.check(f"bit {bit} of byte {place} flipped", bytes(changed))

    def cuts(self):
        for end in range(1, len(self.data)):
            self.check(f"cut at {end}", self.data[:end])

    def at_random(self, rng, count):
        for number in range(count):
            self.check(f"damage {number}", damaged(rng, self.data))


def damaged(rng, data):
    """The bytes with one to three random damages."""
    for _ in range(rng.choice([1, 1, 2, 3])):
        at, size = rng.randrange(len(data)), rng.choice([1, 2, 4, 16, 64])
        there, other = data[at:at + size], rng.randrange(len(data))
        data = rng.choice([
            data[:at] + rng.randbytes(size) + data[at + size:],
            data[:at] + data[at + size:],
            data[:at] + rng.randbytes(size) + data[at:],
            data[:at] + there + data[at:],
            data[:other] + there + data[other + size:],
            data[:at] + bytes(size) + data[at + size:],
            data[:at] + bytes(len(data) - at),
        ])
    return data


def main():
    program, count, cheap = sys.argv[1], int(sys.argv[2]), len(sys.argv) > 3
    tally = Tally()
    with Bench(program) as bench:
        small = Damage(bench, tally, SMALL)
        small.flips([0] if cheap else range(8))
        small.cuts()
        large = Damage(bench, tally, command_list(bench, 3) + command_list(bench, 3)[2:])
        large.at_random(random.Random(2), count)
    for state, number in (small.counts + large.counts).items():
        print(f"{state}: {number}")
    tally.end()


if __name__ == "__main__":
    main()

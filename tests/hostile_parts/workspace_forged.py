#!/usr/bin/env python3
"""workspace_forged.py YT FIRST COUNT FILES: damaged and forged workspace files, read by a yt that stays open.

COUNT files of random scripts. Of each file every bit is flipped, if FILES is 1,000 or more. Then FILES times it is damaged at
random, as in workspace_flips.py, or forged: the lines of its records are garbled, lost, doubled or moved, and each record gets
the right seal again. A damaged file must be reported, or nothing has changed, or whole records have gone from the end. A forged
file must be reported as damaged, or read. yt replies to each question within a second and goes on. Every 100th damaged file must
get the reference's reply, and so must forged files that are read. Equal files count once. JOBS in the environment is the number
of processes. The last line is 'N passed, M failed'.
"""
import hashlib
import json
import os
import random
import re
import sys
from concurrent.futures import ProcessPoolExecutor
from pathlib import Path

from workspace_flips import damaged
from workspace_garbled import garbled_line
from workspace_images import OPTIONS, SHOWN, Judge, settled
from workspace_runs import LOOKS, NEVER, Bench, Workspace, by_reference, random_script

from oracle.yt.files import frame, sealed          # noqa: E402

STATUS = re.compile(rb'"status":(\d+)')
NUMBER = re.compile(rb'"line":\d+,(?="reply":"fault")')     # for the line number in a fault of a yt that stays open
CAN_BE = {b"0", b"3", b"4", b"12", b"13"}
SECOND, COMPARED, THOROUGH = 1, 100, 1000


def texts_of(data):
    """The texts of the records, the head first."""
    texts, place = [], 0
    while True:
        end = place + 4 + int.from_bytes(data[place:place + 4], "big")
        texts.append(data[place + 21:end])
        if data[end] != 1:
            return texts
        place = end + 1


def file_of(texts):
    """A file of these texts, each with its seal."""
    frames, mark = [], b""
    for text in texts:
        payload = sealed(mark, text)
        mark = payload[:16]
        frames.append(frame(payload))
    return b"\1".join(frames) + b"\0"


def forged(rng, texts):
    """The texts with one to three lines garbled, lost, doubled or moved."""
    texts = [text.split(b"\n") for text in texts]
    for _ in range(rng.choice([1, 1, 2, 3])):
        lines, others = rng.choice(texts), rng.choice(texts)
        at = rng.randrange(len(lines)) if lines else 0
        line = lines[at:at + 1]
        lines[at:at + rng.randrange(2)] = rng.choice([
            lambda: [garbled_line(rng, text.decode("utf-8", "replace")) for text in line],
            lambda: [garbled_line(rng, text.decode("utf-8", "replace")) for text in line],
            lambda: [],
            lambda: line * rng.choice([2, 2, 300]),
            lambda: [rng.choice(others)] if others else [],
        ])()
    if rng.random() < 0.2:
        at = rng.randrange(len(texts))
        texts[at:at + rng.randrange(2)] = rng.choice([[], [rng.choice(texts)]])
    return [b"\n".join(lines) for lines in texts]


def is_damaged(shown):
    return shown.count(b'"status":12') == LOOKS.count(b"\n")


class Attack:
    """One file, damaged and forged."""

    def __init__(self, bench, seed):
        self.bench, self.seed, self.judge, self.seen, self.failures = bench, seed, Judge(bench), set(), []
        drawn, file = bench.path("drawn.yt"), bench.path("reference.yt")
        lines = [settled(line) for line in random_script(seed, Workspace(drawn, "ann")) if line != "fold"]
        self.states = {told if told is NEVER else told[1] for told in bench.states(lines)}
        self.data = Path(file).read_bytes()
        self.states.add(self.judge.shows(file_of(texts_of(self.data)[:1])))

    def shown(self, image):
        """What yt shows of the file, within a second."""
        start = self.judge.worked()
        shown = self.judge.shows(image)
        took = self.judge.worked() - start
        # A mapping may have the name `status`.
        odd = [line for line in shown.splitlines() if not CAN_BE.issuperset(STATUS.findall(line))]
        statuses = {json.loads(line)["status"] for line in odd} - {int(status) for status in CAN_BE}
        if took > SECOND or statuses:
            self.fails(image, f"{took:.1f} s, statuses {statuses}")
        return shown

    def compare(self, image, shown):
        """Compares some of the files with the reference too."""
        if len(self.seen) % COMPARED == 0:
            copy = self.bench.path("copy.yt")
            Path(copy).write_bytes(image)
            if NUMBER.sub(b"", by_reference([*OPTIONS, copy], LOOKS)[1]) != NUMBER.sub(b"", shown):
                self.fails(image, "not as the reference tells it")

    def fails(self, image, why):
        name = f"{self.bench.folder}-{self.seed}-{len(self.failures)}.yt"
        if len(self.failures) < SHOWN:
            Path(name).write_bytes(image)
        self.failures.append(f"file {self.seed}, {why}: {name}")

    def is_new(self, image):
        key, count = hashlib.blake2b(image, digest_size=16).digest(), len(self.seen)
        self.seen.add(key)
        return len(self.seen) > count

    def damage(self, image):
        if self.is_new(image):
            shown = self.shown(image)
            self.compare(image, shown)
            if not is_damaged(shown) and shown not in self.states:
                self.fails(image, "another state")

    def forge(self, image):
        if self.is_new(image):
            shown = self.shown(image)
            if not is_damaged(shown):
                self.compare(image, shown)

    def play(self, files):
        """Every bit, if it is to be thorough, and files at random."""
        rng, texts = random.Random(f"forged {self.seed}"), texts_of(self.data)
        for place in range(len(self.data)) if files >= THOROUGH else []:
            for bit in range(8):
                self.damage(self.data[:place] + bytes([self.data[place] ^ 1 << bit]) + self.data[place + 1:])
        for _ in range(files):
            if rng.random() < 0.4:
                self.damage(damaged(rng, self.data))
            else:
                self.forge(file_of(forged(rng, texts)))


def attacked(program, seed, files):
    with Bench(program, "--json") as bench:
        attack = Attack(bench, seed)
        try:
            attack.play(files)
        except (EOFError, BrokenPipeError):
            attack.failures.append(f"file {seed}: yt ended by itself")
        status = attack.judge.end()
        return len(attack.seen), attack.failures + [f"file {seed}: the signal {-status} ended yt"] * (status < 0)


def main(program, first, count, files):
    passed = failed = 0
    with ProcessPoolExecutor(int(os.environ.get("JOBS", "2"))) as pool:
        seeds = range(int(first), int(first) + int(count))
        for task in [pool.submit(attacked, program, seed, int(files)) for seed in seeds]:
            made, failures = task.result()
            passed, failed = passed + max(0, made - len(failures)), failed + len(failures)
            print("".join(f"FAILED {failure}\n" for failure in failures[:SHOWN]), end="", flush=True)
    print(f"{passed} passed, {failed} failed")
    sys.exit(failed > 0)


if __name__ == "__main__":
    main(*sys.argv[1:])

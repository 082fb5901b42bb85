#!/usr/bin/env python3
"""workspace_cuts.py YT CALLS.SO RECORD.SO FIRST COUNT KILLS: yt is killed at random calls over one file, and the power is cut.

COUNT lists of commands. yt gets a list and is killed by workspace_calls.c at a random system call, in place of the call or after
it; then it gets the rest, until it was killed KILLS times. Every second time, the record of workspace_record.c since the last cut
decides what a power cut leaves: of the unsynced writes all, parts or nothing, of the unsynced names one. The folder has that from
then on. Each time the file must show, read by a yt that stays open, what the reference shows after the commands that had replies,
or after one more command of each process since the last reply. JOBS in the environment is the number of processes. The last line
is 'N passed, M failed'.
"""
import os
import random
import shutil
import sys
from concurrent.futures import ProcessPoolExecutor
from pathlib import Path

from workspace_disks import Disk, entries, random_image, replies
from workspace_images import OPTIONS, SHOWN, Judge, small_list
from workspace_runs import NEVER, Bench, yt

CALLS = 80         # it is killed at one of its first CALLS calls, if it makes that many


class Chain:
    """One list of commands, given to one process after the other over one file."""

    def __init__(self, bench, calls, record, rng, lines):
        self.bench, self.preloaded, self.rng, self.lines = bench, f"{calls}:{record}", rng, lines
        self.wanted = [told if told is NEVER else told[1] for told in bench.states(lines)]
        self.path, self.record, self.judge = bench.path("disk/w.yt"), bench.path("record"), Judge(bench)
        self.story, self.failures = [], []
        self.begin()

    def begin(self):
        self.least = self.stands = 0        # of the commands: the number acknowledged, and the number that the file shows
        self.story = []
        self.leave(None)

    def leave(self, image):
        """The state after a power cut: this file, or none, and perhaps a file beside it."""
        shutil.rmtree(self.bench.path("disk"), ignore_errors=True)
        os.mkdir(self.bench.path("disk"))
        self.disk = Disk(self.path, image)
        if self.rng.random() < 0.2:
            Path(f"{self.path}.{self.rng.randrange(9, 99999)}.new").write_bytes(self.rng.randbytes(20))
        if image is not None:
            Path(self.path).write_bytes(image)
            found = os.stat(self.path)
            self.disk.files[str(found.st_dev * 10 ** 12 + found.st_ino)] = self.disk.named

    def kill(self):
        """Gives the rest of the commands, and kills yt at a call. If it has replied, it has read all commands that stood."""
        at, how = self.rng.randrange(1, CALLS), self.rng.choice(["kill", "killed"])
        Path(self.record).unlink(missing_ok=True)
        script = "".join(line + "\n" for line in self.lines[self.stands:]).encode()
        yt(self.bench.program, [*OPTIONS, self.path], script, LD_PRELOAD=self.preloaded, CALLS_AT=str(at), CALLS_DO=how, RECORD_TO=self.record)
        self.disk.begin()
        for words, data in entries(Path(self.record).read_bytes() if os.path.exists(self.record) else b""):
            self.disk.take(words, data)
        told = replies(self.disk.told)
        self.least, self.most = self.stands + told if told else self.least, self.stands + told + 1
        self.story.append(f"{how} {at}")

    def cut(self):
        """Cuts the power, or does nothing; returns the file as it is then."""
        if self.rng.random() < 0.5:
            return Path(self.path).read_bytes() if os.path.exists(self.path) else None
        image = random_image(self.rng, self.rng.choice(self.disk.state()), b"")
        self.leave(image)
        self.story.append("cut")
        return image

    def attack(self):
        self.kill()
        image = self.cut()
        shown = self.judge.shows(image)
        allowed = self.wanted[self.least:self.most + 1]
        if shown not in allowed:
            self.failures.append(f"{self.least} to {self.most} commands, {', '.join(self.story)}: {shown[-300:]}")
            self.begin()
            return
        self.stands = self.least + allowed.index(shown)
        if self.story[-1] == "cut":
            self.least = self.stands
        if self.stands >= len(self.lines):
            self.begin()


def attacked(program, calls, record, seed, kills):
    with Bench(program, "--json") as bench:
        chain = Chain(bench, calls, record, random.Random(f"cuts {seed}"), small_list(bench, seed))
        for _ in range(kills):
            chain.attack()
        chain.judge.end()
        return [f"list {seed}, {failure}" for failure in chain.failures]


def main(program, calls, record, first, count, kills):
    seeds, failed = range(int(first), int(first) + int(count)), 0
    with ProcessPoolExecutor(int(os.environ.get("JOBS", "2"))) as pool:
        for task in [pool.submit(attacked, program, calls, record, seed, int(kills)) for seed in seeds]:
            failures = task.result()
            failed += len(failures)
            print("".join(f"FAILED {failure}\n" for failure in failures[:SHOWN]), end="", flush=True)
    print(f"{int(count) * int(kills) - failed} passed, {failed} failed")
    sys.exit(failed > 0)


if __name__ == "__main__":
    main(*sys.argv[1:])

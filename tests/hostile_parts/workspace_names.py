#!/usr/bin/env python3
"""workspace_names.py YT CALLS.SO RECORD.SO: a process that makes or folds a file is killed at each call; the next one changes the
file.

workspace_calls.c kills it in place of each system call and after it, so also between the name of the file and the sync of its
folder. A second process gives two commands, each in a process of its own. The record of workspace_record.c tells what a power cut
then leaves at the path: after each reply it must be the file with the acknowledged commands, and never no file or the file
before. The last line is 'N passed, M failed'.
"""
import os
import shutil
import sys
from pathlib import Path

from workspace_disks import Disk, entries
from workspace_runs import Bench, Tally, yt

MADE = ["relation A(x)", "insert A(1)", "insert A(2)"]
AFTER = ["insert A(3)", "insert A(4)"]


class Names:
    def __init__(self, bench, calls, record, tally):
        self.bench, self.calls, self.library, self.tally = bench, calls, record, tally
        self.folder, self.record = bench.path("disk"), bench.path("record")
        self.path, self.told = bench.path("disk/w.yt"), bench.path("told")

    def place(self, before):
        """The folder after these commands, all of it synced."""
        shutil.rmtree(self.folder, ignore_errors=True)
        os.mkdir(self.folder)
        for line in before:
            yt(self.bench.program, [self.path, line])
        self.disk = Disk(self.path, Path(self.path).read_bytes() if before else None)
        if before:
            found = os.stat(self.path)
            self.disk.files[str(found.st_dev * 10 ** 12 + found.st_ino)] = self.disk.named

    def says(self, line, **more):
        """Gives the line to one process, and returns what it did to the disk."""
        Path(self.record).unlink(missing_ok=True)
        preloaded = f"{self.calls}:{self.library}" if more else self.library
        status = yt(self.bench.program, [self.path, line], LD_PRELOAD=preloaded, RECORD_TO=self.record, **more)[0]
        for words, data in entries(Path(self.record).read_bytes() if os.path.exists(self.record) else b""):
            self.disk.take(words, data)
        return status

    def is_kept(self, line):
        """Whether a power cut can only leave the file that stands at the path, with all its writes synced."""
        states = self.disk.state()
        return all(state and not state[1] and state[0] == Path(self.path).read_bytes() for state in states)

    def at_calls(self, before, line, how):
        number = 0
        while True:
            number += 1
            self.place(before)
            Path(self.told).unlink(missing_ok=True)
            self.says(line, CALLS_AT=str(number), CALLS_DO=how, CALLS_TOLD=self.told)
            was_killed = os.path.exists(self.told)
            for after in AFTER if os.path.exists(self.path) else []:
                status = self.says(after)
                self.tally.holds(f"{how} {number} of {line}, then {after}: {status}", status == 0 and self.is_kept(after))
            if not was_killed:
                return


def main(program, calls, record):
    tally = Tally()
    with Bench(program) as bench:
        names = Names(bench, calls, record, tally)
        for how in ("kill", "killed"):
            names.at_calls([], MADE[0], how)
            names.at_calls(MADE, "fold", how)
    tally.end()


if __name__ == "__main__":
    main(*sys.argv[1:])

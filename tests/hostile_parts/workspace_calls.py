#!/usr/bin/env python3
"""workspace_calls.py YT CALLS.SO COUNT [cheap]: each system call of a command fails in turn, by workspace_calls.c.

COUNT lists of commands. Every command of each list, over the file before it, has each of its calls fail: by an error of the
device, for want of space or beyond a quota, because nothing may be written, interrupted, and moving only one byte; once, and for
all later calls of its name too. Some of its requests of memory are refused as well, as workspace_verbs.py does with all. Then
statuses 5 and 6 must be explained in words. 5 and 7 must leave the file as it was, and 6 as it was or with the record. 7 may come
only if memory ran out. Any other answer must be the answer of an undisturbed yt, with the file that yt leaves undisturbed. The
last line is 'N passed, M failed', with the numbers of each status before it.
"""
import collections
import errno
import os
import shutil
import sys

from workspace_runs import Bench, Tally, command_list, yt

WAYS = [(str(errno.EIO), False), (str(errno.ENOSPC), False), (str(errno.EINTR), False), ("short", False), (str(errno.EIO), True), ("short", True),
        (str(errno.ENOSPC), True), (str(errno.EDQUOT), True), (str(errno.EROFS), True), ("memory", False)]
STRIDE = 20        # after this many requests of memory the stride between two grows by one


class Failing:
    """One command over one file, whose calls fail one after the other. A command of several lines goes to the standard input."""

    def __init__(self, bench, calls, tally, before, line, *options):
        self.bench, self.calls, self.tally, self.before, self.line = bench, calls, tally, before, line
        self.file, self.told = bench.path("w.yt"), bench.path("told")
        self.said = ([*options, self.file], line.encode()) if "\n" in line else ([*options, self.file, line], b"")
        self.place()
        self.undisturbed = yt(bench.program, *self.said)
        self.was, self.becomes = bench.stands_for(before), bench.stands_for(self.file)

    def place(self):
        for name in os.listdir(self.bench.folder):
            if name.startswith("w.yt"):
                os.unlink(self.bench.path(name))
        if os.path.exists(self.before):
            shutil.copyfile(self.before, self.file)

    def all_calls(self, do, lasting, counts, stride=STRIDE):
        number = 0
        while True:
            number += 1 + (number // stride if do == "memory" else 0)
            self.place()
            if os.path.exists(self.told):
                os.unlink(self.told)
            more = {"CALLS_LASTING": "1"} if lasting else {}
            told = yt(self.bench.program, *self.said, LD_PRELOAD=self.calls, CALLS_AT=str(number), CALLS_DO=do, CALLS_TOLD=self.told, **more)
            if not os.path.exists(self.told):
                return
            with open(self.told) as name:
                what = f"{name.read()} {number} {do}{' lasting' * lasting} of {self.line}"
            self.check(what, told, counts)

    def check(self, what, told, counts):
        status, out, err = told
        in_words = err.startswith(b"yt: ") or b'"reply":"fault"' in out
        there = self.bench.stands_for(self.file)
        # After a refused change a new file may be there without a record, which makes no difference to what it stands for.
        counts[status, "as before" if there == self.was else "with the record"] += 1
        if status == (7 if " memory " in what else 5):
            good = (in_words or " lasting " in what) and there == self.was
        elif status == 6:
            good = (in_words or what.startswith("write ")) and there in (self.was, self.becomes)
        else:
            good = told == self.undisturbed and there == self.becomes
        self.tally.holds(f"{what}: {told}", good)


def main():
    program, calls, count = sys.argv[1], sys.argv[2], int(sys.argv[3])
    ways = [WAYS[0], WAYS[-1]] if len(sys.argv) > 4 else WAYS
    tally, counts = Tally(), collections.Counter()
    with Bench(program) as bench:
        for seed in range(count):
            before = bench.path("before.yt")
            if os.path.exists(before):
                os.unlink(before)
            for line in command_list(bench, seed):
                failing = Failing(bench, calls, tally, before, line)
                for do, lasting in ways:
                    failing.all_calls(do, lasting, counts)
                yt(program, [before, line])
    for (status, there), number in sorted(counts.items()):
        print(f"status {status}, the file {there}: {number}")
    tally.end()


if __name__ == "__main__":
    main()

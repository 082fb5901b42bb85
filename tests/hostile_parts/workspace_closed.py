#!/usr/bin/env python3
"""workspace_closed.py YT COUNT: yt starts with standard streams closed; the files that it opens get their numbers, but not their
text.

COUNT lists of commands. Every command of each list is given, over the file before it, with each choice of the three streams
closed; also commands with faults. Then the file is as it was or has the record, as the reference reads it. The last line is 'N
passed, M failed'.
"""
import itertools
import os
import shutil
import sys

from running import end_of
from workspace_runs import Bench, Tally, command_list, yt

CHOICES = [choice for size in (1, 2, 3) for choice in itertools.combinations(range(3), size)]
FAULTS = ["insert Nothing(1)", "insert Painting(", "show", "load Painting nowhere.csv"]


def with_closed(program, words, closed):
    """The status of yt with these streams closed and the others at /dev/null."""
    actions = [(os.POSIX_SPAWN_OPEN, stream, "/dev/null", os.O_RDWR, 0) for stream in range(3)]
    actions += [(os.POSIX_SPAWN_CLOSE, stream) for stream in closed]
    return end_of(os.posix_spawn(program, [program, *words], os.environ, file_actions=actions))


def main():
    program, count, tally = sys.argv[1], int(sys.argv[2]), Tally()
    with Bench(program) as bench:
        before, file = bench.path("before.yt"), bench.path("w.yt")
        for seed in range(count):
            for name in (before, file):
                if os.path.exists(name):
                    os.unlink(name)
            for line in command_list(bench, seed) + FAULTS:
                was = bench.stands_for(before)
                after = shutil.copyfile(before, file) if os.path.exists(before) else file
                yt(program, [after, line])
                becomes = bench.stands_for(after)
                for closed in CHOICES:
                    if os.path.exists(file):
                        os.unlink(file)
                    if os.path.exists(before):
                        shutil.copyfile(before, file)
                    status = with_closed(program, [file, line], closed)
                    there = bench.stands_for(file)
                    tally.holds(f"{line}, without the streams {closed}: status {status}", status >= 0 and there in (was, becomes))
                if becomes != was:
                    yt(program, [before, line])
    tally.end()


if __name__ == "__main__":
    main()

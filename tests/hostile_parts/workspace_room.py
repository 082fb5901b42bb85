#!/usr/bin/env python3
"""workspace_room.py YT [cheap]: there is no room for what yt writes: a small tmpfs that is full, or a limit on the size of files.

The file system has 0, 1, 2 .. pages left, and the limit is 0, 1, 2 .. bytes, until the command is done. The command makes a file,
appends a short or a long record, folds, or makes a file with a long record. yt must give status 6 in words, with the file as
before or with the record, and leave nothing beside it. A limit may also kill yt. If no file system can be mounted here, this is
reported and not counted. The last line is 'N passed, M failed'.
"""
import errno
import os
import resource
import shutil
import signal
import subprocess
import sys
from pathlib import Path

from workspace_runs import NEVER, Bench, Tally, yt

PAGE, MOST = 4096, 64
BEGIN = ["relation A(x, y)", "insert A(1, ?), A(2, 2)", "undo 1", "redo 1"]


def mounted(bench):
    """A small file system of its own, or None."""
    folder = bench.path("mount")
    os.makedirs(folder, exist_ok=True)
    words = ["mount", "-t", "tmpfs", "-o", f"size={PAGE * MOST}", "none", folder]
    if subprocess.run(words, capture_output=True).returncode:
        print("a file system of its own: not tried, since it cannot be mounted")
        return None
    return folder


class Room:
    """Commands, each over the file before it, with perhaps no room for what they write."""

    def __init__(self, bench, tally, cheap):
        self.bench, self.tally, self.cheap = bench, tally, cheap
        self.good, rows = bench.path("good.yt"), bench.path("rows.csv")
        for line in BEGIN:
            yt(bench.program, [self.good, line])
        Path(rows).write_text("x,y\n" + "".join(f"{n},some words to fill the file\n" for n in range(9, 400)))
        load, good = f"load A {rows}", self.good
        lines = [(None, BEGIN[0]), (good, "insert A(3, ?)"), (good, "fold"), (good, load), (None, load + " --create")]
        self.commands = [(before, line, bench.stands_for(before) if before else NEVER, self.becomes(before, line)) for before, line in lines]

    def becomes(self, before, line):
        path = self.bench.path("done.yt")
        if before:
            shutil.copyfile(before, path)
        yt(self.bench.program, [path, line])
        told = self.bench.stands_for(path)
        os.unlink(path)
        return told

    def says(self, what, path, command, limit=None):
        """Whether the command is done."""
        _, line, was, becomes = command
        run = subprocess.run([self.bench.program, path, line], capture_output=True, timeout=60, preexec_fn=limit)
        there, told = self.bench.stands_for(path), (run.returncode, run.stderr)
        is_refused = run.returncode == 6 and b"yt: cannot write " in run.stderr or run.returncode == -signal.SIGXFSZ
        self.tally.holds(f"{what}, {line}: {told}", run.returncode == 0 and there == becomes or is_refused and there in (was, becomes))
        folder = os.path.dirname(path)
        beside = [name for name in os.listdir(folder) if name.startswith("w.yt.")]
        self.tally.holds(f"{what}, {line}, beside it: {beside}", not beside or run.returncode < 0)
        for name in beside + ["w.yt"]:
            Path(folder, name).unlink(missing_ok=True)
        return run.returncode == 0

    def limited(self):
        """Sets a limit on the size of files. A process that writes beyond it gets an error, or is killed."""
        os.mkdir(self.bench.path("limited"))
        for answer in (signal.SIG_IGN, signal.SIG_DFL):
            for command in self.commands:
                self.until_it_fits(self.bench.path("limited/w.yt"), command, answer)

    def until_it_fits(self, path, command, answer):
        """The command under a limit that grows until there is room for it."""
        is_done, size = False, 0

        def limit():
            signal.signal(signal.SIGXFSZ, answer)
            resource.setrlimit(resource.RLIMIT_FSIZE, (size, size))
        while not is_done:
            if command[0]:
                shutil.copyfile(command[0], path)
            is_done = self.says(f"at most {size} bytes", path, command, limit)
            size += 1 + (297 if self.cheap else size // 500)

    def full(self):
        """Leaves this number of pages of the file system."""
        folder = mounted(self.bench)
        if not folder:
            return
        path, filler = os.path.join(folder, "w.yt"), os.path.join(folder, "filler")
        for command in self.commands:
            is_done, pages = False, 0
            while not is_done:
                if command[0]:
                    shutil.copyfile(command[0], path)
                filled(filler, pages)
                is_done = self.says(f"{pages} pages are left", path, command)
                os.unlink(filler)
                pages += 1
        subprocess.run(["umount", folder], check=True)


def filled(path, pages):
    """Makes a file that takes all pages but these."""
    size = 0
    with open(path, "wb", buffering=0) as file:
        try:
            while True:
                size += file.write(bytes(PAGE))
        except OSError as error:
            assert error.errno == errno.ENOSPC
        file.truncate(max(0, size // PAGE - pages) * PAGE)


def main():
    tally = Tally()
    with Bench(os.path.realpath(sys.argv[1])) as bench:
        room = Room(bench, tally, len(sys.argv) > 2)
        room.limited()
        room.full()
    tally.end()


if __name__ == "__main__":
    main()

#!/usr/bin/env python3
"""workspace_meets.py YT [cheap]: another program changes the file between two commands of a yt that stays open.

The file is cut, a byte of it is changed, its end is zeroed, at each place. Rubbish comes after it, another workspace takes its
place or its bytes, it is deleted, it becomes a folder, its folder is deleted. Then yt shows, changes or folds. It must end by
itself, with a status that fits, in words if it refuses; and after a refusal everything is as the other program left it. The last
line is 'N passed, M failed'.
"""
import os
import re
import shutil
import subprocess
import sys
from pathlib import Path

from workspace_runs import Bench, Tally, yt

BEGIN = ["relation A(x, y)", "insert A(1, ?), A(2, 2)", "insert A(3, 4)"]
LINES = ["show", "insert A(5, ?)", "fold"]
REFUSED, DONE = {3, 5, 6, 12}, {0, 1, 13}


def bytes_at(path):
    return Path(path).read_bytes() if os.path.isfile(path) else None


class Meeting:
    """A yt that has read a file, and then finds what another program made of it."""

    def __init__(self, bench, tally):
        self.bench, self.tally = bench, tally
        self.good, self.other = bench.path("good.yt"), bench.path("other.yt")
        for path, lines in ((self.good, BEGIN), (self.other, BEGIN[:1] + ["insert A(7, 7)"])):
            for line in lines:
                yt(bench.program, [path, line])
        self.data = Path(self.good).read_bytes()

    def meets(self, what, change):
        for line in LINES:
            path = self.bench.path("changing/w.yt")
            os.mkdir(os.path.dirname(path))
            shutil.copyfile(self.good, path)
            words = [self.bench.program, "--json", "--keep-going", path]
            with subprocess.Popen(words, stdin=subprocess.PIPE, stdout=subprocess.PIPE) as run:
                run.stdin.write(b"status\n")
                run.stdin.flush()
                run.stdout.readline()
                change(path)
                there = bytes_at(path)
                out, _ = run.communicate(line.encode() + b"\n", timeout=60)
            found = re.findall(rb'"status":(\d+)', out)
            status = int(found[-1]) if found else -1
            is_right = status in DONE or status in REFUSED and b'"words":' in out and bytes_at(path) == there
            self.tally.holds(f"{what}, {line}: {run.returncode}, {out}", run.returncode >= 0 and is_right)
            shutil.rmtree(os.path.dirname(path), ignore_errors=True)

    def writes(self, what, data):
        """Has the other program write these bytes into the file, or put them in its place."""
        self.meets(what, lambda path: Path(path).write_bytes(data))
        self.meets(f"{what}, in its place", lambda path: (Path(path + "2").write_bytes(data), os.replace(path + "2", path)))

    def play(self, step):
        data, size = self.data, len(self.data)
        for place in range(0, size, step):
            self.writes(f"cut at {place}", data[:place])
            self.writes(f"a byte at {place}", data[:place] + bytes([data[place] ^ 1]) + data[place + 1:])
            self.writes(f"zeros from {place}", data[:place] + bytes(size - place))
        self.writes("rubbish after it", data + b"rubbish" * 99)
        self.writes("a record twice", data[:-1] + b"\1" + data[-40:])
        self.writes("another workspace", Path(self.other).read_bytes())
        self.meets("nothing", os.unlink)
        self.meets("a folder", lambda path: (os.unlink(path), os.mkdir(path)))
        self.meets("a link to another", lambda path: (os.unlink(path), os.symlink(self.other, path)))
        self.meets("no folder", lambda path: shutil.rmtree(os.path.dirname(path)))


def main():
    tally = Tally()
    with Bench(sys.argv[1]) as bench:
        Meeting(bench, tally).play(29 if len(sys.argv) > 2 else 1)
    tally.end()


if __name__ == "__main__":
    main()

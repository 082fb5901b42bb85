#!/usr/bin/env python3
"""workspace_kills.py YT CALLS.SO COUNT: yt is killed in the midst of command lists; all that it acknowledged must be there.

COUNT lists of commands. Each is killed in place of every system call and after it, by workspace_calls.c, and COUNT times at
random moments. Then the reference reads the file: it must hold all acknowledged commands, and at most one more; and yt must read
the same. The last line is 'N passed, M failed'.
"""
import json
import os
import random
import subprocess
import sys
import time

from workspace_runs import LOOKS, Bench, Tally, command_list, yt

OPTIONS = ["--json", "--keep-going"]


def acknowledged(out):
    """The number of commands with a complete reply."""
    whole = out[:out.rfind(b"\n") + 1]
    return sum(1 for line in whole.splitlines() if not json.loads(line).get("more"))


def without(file):
    for name in (file, file + ".told"):
        if os.path.exists(name):
            os.unlink(name)


class Kills:
    def __init__(self, bench, calls, tally, lines):
        self.bench, self.calls, self.tally, self.lines = bench, calls, tally, lines
        self.states, self.file = bench.states(lines), bench.path("w.yt")
        self.script = "".join(line + "\n" for line in lines).encode()

    def check(self, what, out):
        """Checks the file: it has all that was acknowledged, and at most one more; and yt accepts it."""
        told = acknowledged(out)
        there = self.bench.stands_for(self.file)
        self.tally.holds(f"{what}: after {told} replies", there in self.states[told:told + 2])
        if os.path.exists(self.file):
            copy = self.bench.path("copy.yt")
            os.replace(self.file, copy)
            self.tally.holds(f"{what}: yt reads it", yt(self.bench.program, ["--keep-going", copy], LOOKS) == there)

    def at_calls(self, how):
        number = 0
        while True:
            number += 1
            without(self.file)
            told = self.file + ".told"
            _, out, _ = yt(self.bench.program, OPTIONS + [self.file], self.script, LD_PRELOAD=self.calls, CALLS_AT=str(number),
                           CALLS_DO=how, CALLS_TOLD=told)
            self.check(f"{how} {number} of {self.lines}", out)
            if not os.path.exists(told):
                return

    def at_random(self, rng, count):
        whole = time.time()
        without(self.file)
        yt(self.bench.program, OPTIONS + [self.file], self.script)
        whole = time.time() - whole
        for _ in range(count):
            without(self.file)
            run = subprocess.Popen([self.bench.program, *OPTIONS, self.file], stdin=subprocess.PIPE, stdout=subprocess.PIPE)
            run.stdin.write(self.script)
            run.stdin.close()
            time.sleep(rng.random() * whole)
            run.kill()
            out = run.stdout.read()
            run.wait()
            self.check(f"a random moment of {self.lines}", out)


def main():
    program, calls, count = sys.argv[1], sys.argv[2], int(sys.argv[3])
    tally, rng = Tally(), random.Random(1)
    with Bench(program) as bench:
        for seed in range(count):
            kills = Kills(bench, calls, tally, command_list(bench, seed))
            kills.at_calls("kill")
            kills.at_calls("killed")
            kills.at_random(rng, count)
    tally.end()


if __name__ == "__main__":
    main()

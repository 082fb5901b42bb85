#!/usr/bin/env python3
"""workspace_together.py YT COUNT: many processes of yt change one file at the same time, and some of them are killed.

COUNT times 8 and 16 processes insert tuples of their own, answer, undo and fold, each one command at a time. Every acknowledged
command must be there afterwards, as the reference reads it, with a record of its own; a command that a killed process had not
acknowledged may be there or not. Then 8 processes insert 200 tuples each, and the log has 1,600 records more, those of each
process in its order. The last line is 'N passed, M failed'.
"""
import json
import os
import random
import subprocess
import sys
import time

from workspace_runs import Bench, Tally, by_reference, yt

EACH = 6           # commands of a process
LONG = 200         # commands of a process that is not killed, where the order of records is looked at
BEGIN = ["relation A(who, what)", "relation B(who, more)", "mapping m: A(x, y) -> B(x, z)"]


def commands(rng, name):
    """The commands of one process, one after the other."""
    for number in range(EACH):
        yield "insert A(%d, %d)" % (name, number)
        if rng.random() < 0.15:
            yield rng.choice(["fold", "status", "show A --limit 3", "try delete A(%d, _) --cascade" % name])


class Process:
    """One process of yt that gets all its commands at once, and may be killed."""

    def __init__(self, bench, file, name, lines, killed=False):
        self.lines = lines
        self.killed = killed
        self.run = subprocess.Popen([bench.program, "--as", "p%d" % name, "--json", "--keep-going", "--wait", "120", file],
                                    stdin=subprocess.PIPE, stdout=subprocess.PIPE, stderr=subprocess.PIPE)
        self.run.stdin.write("".join(line + "\n" for line in self.lines).encode())
        self.run.stdin.close()

    def end(self):
        """The replies that came complete."""
        if self.killed:
            time.sleep(0.02)
            self.run.kill()
        out = self.run.stdout.read()
        self.run.wait()
        whole = out[:out.rfind(b"\n") + 1].decode()
        return [json.loads(line) for line in whole.splitlines()]


def opened(bench):
    """A new workspace with two relations and a mapping."""
    file = bench.path("together.yt")
    if os.path.exists(file):
        os.unlink(file)
    for line in BEGIN:
        yt(bench.program, [file, line])
    return file


def play_in_order(bench, tally):
    """8 processes at the same time: a record for each command, those of a process in its order."""
    file = opened(bench)
    said = [["insert A(%d, %d)" % (name, number) for number in range(LONG)] for name in range(8)]
    for process in [Process(bench, file, name, lines) for name, lines in enumerate(said)]:
        tally.holds("each command is replied to", len(process.end()) == LONG)
    log = [json.loads(line) for line in yt(bench.program, ["--json", file, "log"])[1].splitlines()]
    tally.holds("1,600 records", sum(record["curator"] != "ann" for record in log) == 8 * LONG)
    for name, lines in enumerate(said):
        tally.holds(f"the records of process {name} are in its order",
                    [record["line"] for record in log if record["curator"] == "p%d" % name] == lines)


def play(bench, tally, rng, count, kills):
    file = opened(bench)
    processes = [Process(bench, file, name, list(commands(rng, name)), kills and name % 4 == 3) for name in range(count)]
    replies = [process.end() for process in processes]
    there = by_reference(["--json", file, "show A"])
    rows = {tuple(row) for row in json.loads(there[1])["rows"]} if there[0] == 0 else set()
    changed = []
    for name, (process, told) in enumerate(zip(processes, replies)):
        what = f"{count} processes, process {name}"
        tally.holds(f"{what} is replied to", process.killed or len(told) >= len(process.lines))
        tally.holds(f"{what} is refused nothing", all(reply["status"] in (0, 13) for reply in told))
        for reply in told:
            if reply.get("reply") == "change" and reply["line"].startswith("insert"):
                changed.append(reply["at"])
                values = tuple(int(v) for v in reply["line"][len("insert A("):-1].split(", "))
                tally.holds(f"{what}: {reply['line']} is there", values in rows)
    tally.holds(f"{count} processes: a record for each change", len(changed) == len(set(changed)))
    most = len(changed) + sum(process.killed for process in processes)
    tally.holds(f"{count} processes: nothing that nobody said", len(changed) <= len(rows) <= most)
    tally.compare(f"{count} processes: yt reads what the reference reads", there, yt(bench.program, ["--json", file, "show A"]))


def main():
    program, count = sys.argv[1], int(sys.argv[2])
    tally, rng = Tally(), random.Random(4)
    with Bench(program) as bench:
        for number in range(count):
            for processes in (8, 16):
                play(bench, tally, rng, processes, number % 2)
        play_in_order(bench, tally)
    tally.end()


if __name__ == "__main__":
    main()

#!/usr/bin/env python3
"""workspace_crowd.py YT SECONDS: 16 processes write, read and fold one file at the same time for SECONDS.

Ten write: an insertion, which a mapping doubles, and the deletion of an older pair, each as one command. Five read, one folds.
Half of them stay open, the others are a process for each command. No reader may see half a command, a pair that was deleted, or
fewer than were acknowledged before it asked. The records are numbered without gaps, each curator's in order, each number given
once. No command may be refused, or wait longer than `--wait` allows. Each reply counts. The lines before the last have the number
of replies and the longest wait; the last line is 'N passed, M failed'.
"""
import json
import subprocess
import sys
import threading
import time

from workspace_runs import Bench, Tally, yt

WRITERS, READERS, KEPT = 10, 5, 4          # KEPT: the pairs of each writer that are not deleted
BEGIN = ["relation A(who, what)", "relation B(who, what)", "mapping m: A(x, y) -> B(x, y)"]
PATIENCE = 120                             # seconds after the end until a process hangs


class Apart:
    """A process of yt for each command."""

    def __init__(self, crowd, name):
        self.crowd, self.words = crowd, ["--as", name, "--json", crowd.file]

    def ask(self, line):
        """The objects of the reply."""
        start = time.monotonic()
        told = self.said(line)
        self.crowd.longest = max(self.crowd.longest, time.monotonic() - start)
        return [json.loads(text) for text in told]

    def said(self, line):
        return yt(self.crowd.program, [*self.words, line])[1].splitlines()

    def end(self):
        """Does nothing, because each process has ended already."""


class Stays(Apart):
    """One process that stays open, and gets a command when the one before has its reply."""

    def __init__(self, crowd, name):
        super().__init__(crowd, name)
        self.run = subprocess.Popen([crowd.program, "--keep-going", *self.words], stdin=subprocess.PIPE, stdout=subprocess.PIPE)

    def said(self, line):
        self.run.stdin.write(line.encode() + b"\n")
        self.run.stdin.flush()
        told = [self.run.stdout.readline()]
        while b'"more":true' in told[-1]:
            told.append(self.run.stdout.readline())
        return told

    def end(self):
        self.run.stdin.close()
        status = self.run.wait()
        self.crowd.holds(f"it ends: {self.words}, {status}", status in (0, 3))


class Crowd:
    def __init__(self, program, file, seconds):
        self.program, self.file, self.seconds, self.until = program, file, seconds, 0
        self.tally, self.lock, self.longest = Tally(), threading.Lock(), 0
        self.said, self.done, self.leave, self.left = ([0] * WRITERS for _ in range(4))
        self.numbers, self.counts = [], {}

    def holds(self, name, is_so):
        with self.lock:
            self.tally.holds(name, is_so)

    def goes_on(self):
        return time.monotonic() < self.until

    def count(self, what):
        with self.lock:
            self.counts[what] = self.counts.get(what, 0) + 1

    # ---- what they do ----

    def write(self, who, process):
        last = 0
        while self.goes_on():
            number = self.said[who] = self.said[who] + 1
            last = self.changed(who, process.ask(f"insert A({who}, {number})"), last)
            self.done[who] = number
            if number > KEPT:
                old = self.leave[who] = number - KEPT
                last = self.changed(who, process.ask(f"delete A({who}, {old}), B({who}, {old})"), last)
                self.left[who] = old
        process.end()

    def changed(self, who, told, last):
        """The number of the record, which must be greater than the number of its writer's last record."""
        is_right = len(told) == 1 and told[0]["status"] == 0 and told[0].get("did") == "done" and told[0]["at"] > last
        self.holds(f"writer {who}: {told[:1]}", is_right)
        self.count("changes")
        with self.lock:
            self.numbers.append(told[0].get("at"))
        return told[0].get("at", last)

    def fold(self, _, process):
        while self.goes_on():
            told = process.ask("fold")
            self.holds(f"fold: {told[:1]}", told[0]["status"] in (0, 13))
            self.count("folds")
            time.sleep(0.3)
        process.end()

    def read(self, who, process):
        while self.goes_on():
            done, left = list(self.done), list(self.left)
            tables = process.ask("show A B")
            rows = [[tuple(row) for row in table.get("rows", ())] for table in tables]
            is_whole = [table["status"] for table in tables] == [0, 0] and sorted(rows[0]) == sorted(rows[1])
            self.holds(f"reader {who}: the same rows in both tables: {rows}", is_whole)
            for writer in range(WRITERS):
                self.seen(who, writer, sorted(number for name, number in rows[0] if name == writer), done[writer], left[writer])
            self.count("looks")
            self.follow(who, process)
        process.end()

    def seen(self, who, writer, numbers, done, left):
        """Checks the pairs of a writer that a reader saw: all that were inserted and not deleted."""
        low, high = (numbers[0], numbers[-1]) if numbers else (1, 0)
        is_right = numbers == list(range(low, high + 1)) and done <= high <= self.said[writer] and left < low <= self.leave[writer] + 1
        self.holds(f"reader {who} sees {numbers} of writer {writer}, after {done} and {left}", is_right)

    def follow(self, who, process):
        """Checks the last records: by their numbers, and each curator's in order."""
        last = process.ask("log --limit 1")[0]
        told = process.ask("log --since %d" % max(0, last.get("at", 0) - 20)) if "at" in last else []
        records = [record for record in told if record.get("count")]
        numbers = [record["at"] for record in records]
        self.holds(f"reader {who}: records {numbers}", not numbers or numbers == list(range(numbers[0], numbers[-1] + 1)))
        for writer in range(WRITERS):
            own = [record["lines"][0]["line"] for record in records if record["curator"] == f"p{writer}"]
            inserted = [int(line[:-1].split(", ")[1]) for line in own if line.startswith("insert")]
            is_right = not inserted or inserted == list(range(inserted[0], inserted[-1] + 1))
            self.holds(f"reader {who}: insertions of writer {writer}: {inserted}", is_right)

    # ---- all of them ----

    def play(self):
        for line in BEGIN:
            yt(self.program, [self.file, line])
        roles = [(self.write, number, f"p{number}") for number in range(WRITERS)]
        roles += [(self.read, number, f"r{number}") for number in range(READERS)] + [(self.fold, 0, "folder")]
        begun = [(do, number, (Stays if number % 2 else Apart)(self, name)) for do, number, name in roles]
        self.until = time.monotonic() + self.seconds
        threads = [threading.Thread(target=do, args=(number, process), daemon=True) for do, number, process in begun]
        for thread in threads:
            thread.start()
        for thread in threads:
            thread.join(max(0, self.until + PATIENCE - time.monotonic()))
            self.holds("a process goes on", not thread.is_alive())
        at = json.loads(yt(self.program, ["--json", self.file, "status"])[1])["at"]
        self.holds(f"{len(self.numbers)} changes are the records up to {at}", sorted(self.numbers) == list(range(len(BEGIN) + 1, at + 1)))
        print(", ".join(f"{count} {what}" for what, count in sorted(self.counts.items())) + f"; the longest wait {self.longest:.2f} s")


def main():
    with Bench(sys.argv[1]) as bench:
        crowd = Crowd(sys.argv[1], bench.path("crowd.yt"), float(sys.argv[2]))
        crowd.play()
    crowd.tally.end()


if __name__ == "__main__":
    main()

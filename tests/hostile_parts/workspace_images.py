#!/usr/bin/env python3
"""workspace_images.py YT RECORD.SO all|random FIRST COUNT [IMAGES]: what a disk may hold after a crash at each moment of
conversations.

COUNT conversations with yt, whose writes, syncs, names and replies are recorded by workspace_record.c. After each call `all`
makes every image that workspace_disks.py has, or one in IMAGES; `random` draws images until IMAGES of a conversation are
different. A yt that stays open reads each image, in the place of the one before. It must show what the reference shows after the
commands that had replies by then, or after one more. Every 64th image is also read by a yt of its own; this one then gets the
other commands and must end as the conversation did. Equal images count once. JOBS in the environment is the number of processes.
The last line is 'N passed, M failed'.
"""
import hashlib
import os
import random
import re
import signal
import subprocess
import sys
from concurrent.futures import ProcessPoolExecutor
from pathlib import Path

from workspace_disks import Disk, all_images, entries, moments, random_image
from workspace_runs import LOOKS, NEVER, Bench, Workspace, command_list, random_script, yt

OPTIONS = ["--json", "--keep-going"]
SECONDS, OWN = 60, 64
SHOWN = 3          # failures of a conversation that are printed


def settled(line):
    """The command, with an answer that does not depend on what a process showed before."""
    return re.sub(r"^((?:try )?answer \d+) [\d, ]+( --at.*)?$", r"\1 new", line)


def small_list(bench, seed):
    """Random commands with a fold. Each fifth list makes its file by a `load`."""
    lines = [settled(line) for line in command_list(bench, seed)]
    if seed % 5 == 0:
        rows = bench.path("rows.csv")
        Path(rows).write_text("name,place\nHall,1\nAttic,\n")
        lines.insert(0, f"load Room {rows} --create --empty new")
    return lines


def large_list(bench, seed):
    """A whole random script, with two folds and a record of many lines."""
    rng, drawn = random.Random(seed), bench.path("drawn.yt")
    lines = [settled(line) for line in random_script(seed, Workspace(drawn, "ann")) if "#" not in line]
    os.unlink(drawn)
    rows = bench.path("rows.csv")
    Path(rows).write_text("title,museum\n" + "".join(f"t{rng.randrange(900)},museum {n}\n" for n in range(rng.choice([5, 20, 60]))))
    for line in ("fold", f"load Loan {rows}", "fold"):
        lines.insert(rng.randrange(7, len(lines) + 1), line)
    return lines


class Judge:
    """A yt that stays open: what it shows of each image that takes the place of the one before."""

    def __init__(self, bench, name="judge"):
        self.folder, self.program = bench.path(name), bench.program
        os.mkdir(self.folder)
        self.file, self.next = (os.path.join(self.folder, name) for name in ("copy.yt", "next"))
        self.run = subprocess.Popen([bench.program, *OPTIONS, "copy.yt"], cwd=self.folder, stdin=subprocess.PIPE, stdout=subprocess.PIPE)

    def place(self, image):
        if image is None:
            Path(self.file).unlink(missing_ok=True)
            return
        with open(self.next, "wb") as file:
            file.write(image)
        os.replace(self.next, self.file)

    def shows(self, image):
        """Its replies to the questions of LOOKS over this image. It has SECONDS for them."""
        self.place(image)
        signal.alarm(SECONDS)
        self.run.stdin.write(LOOKS)
        self.run.stdin.flush()
        lines, left = [], LOOKS.count(b"\n")
        while left:
            lines.append(self.run.stdout.readline())
            if not lines[-1]:
                raise EOFError("yt ended")
            left -= b'"more":true' not in lines[-1]
        signal.alarm(0)
        absent = image is None and all(b'"words":"there is no file copy.yt"' in line for line in lines)
        return NEVER if absent else b"".join(lines)

    def end(self):
        """Waits until it ends by itself, when there are no more questions."""
        self.run.stdin.close()
        self.run.stdout.close()
        return self.run.wait()

    def worked(self):
        """The seconds of processor time that it took."""
        with open(f"/proc/{self.run.pid}/stat") as stat:
            return sum(map(int, stat.read().rsplit(")", 1)[1].split()[11:13])) / os.sysconf("SC_CLK_TCK")

    def by_its_own(self, image, lines):
        """What a yt of its own shows, and what it shows after these lines."""
        self.place(image)
        first = yt(self.program, [*OPTIONS, self.file], LOOKS)[1]
        yt(self.program, [*OPTIONS, self.file], b"".join(line.encode() + b"\n" for line in lines))
        return first, yt(self.program, [*OPTIONS, self.file], LOOKS)[1]


class Conversation:
    """Commands, what yt did to the disk for them, and what the reference shows after each."""

    def __init__(self, bench, library, seed, lines):
        self.bench, self.lines, self.judge = bench, lines, Judge(bench)
        self.wanted = [told if told is NEVER else told[1] for told in bench.states(lines)]
        self.first = {shown: place for place, shown in reversed(list(enumerate(self.wanted)))}
        self.path, self.told, self.failures = bench.path("w.yt"), {}, []
        self.record = self.recorded(library, ("together", "apart", "pieces")[seed % 3])

    def recorded(self, library, how):
        """Gives all commands to one process, or each to a process of its own, or has one process write in pieces."""
        record = self.bench.path("record")
        more = {"RECORD_PIECE": "40"} if how == "pieces" else {}
        for words, data in [([line], b"") for line in self.lines] if how == "apart" else [([], "\n".join(self.lines).encode() + b"\n")]:
            yt(self.bench.program, [*OPTIONS, self.path, *words], data, LD_PRELOAD=library, RECORD_TO=record, **more)
        return Path(record).read_bytes()

    def is_recorded(self):
        """Whether the record makes the file that is there."""
        disk = Disk(self.path)
        for words, data in entries(self.record):
            disk.take(words, data)
        return disk.named.read == Path(self.path).read_bytes()

    def check(self, replies, image):
        """Whether the image shows the commands that had replies, and at most one more."""
        key = hashlib.blake2b(b"" if image is None else b"." + image, digest_size=16).digest()
        if key not in self.told:
            shown = self.judge.shows(image)
            self.told[key] = self.first.get(shown)
            if len(self.told) % OWN == 1 and self.told[key] is not None:
                self.check_own(replies, image, shown, self.told[key])
        stands = self.told[key]
        if stands is None or stands not in [self.first[shown] for shown in self.wanted[replies:replies + 2]]:
            self.failures.append((replies, image, "another state"))

    def check_own(self, replies, image, shown, stands):
        first, last = self.judge.by_its_own(image, self.lines[stands:])
        if image is not None and first != shown or last != self.wanted[-1]:
            self.failures.append((replies, image, "by a yt of its own"))

    def result(self, seed):
        """The number of images, the number of failures, and words about the first of these, which are kept."""
        kept = [] if self.judge.end() >= 0 else [f"conversation {seed}: yt was ended by a signal"]
        for number, (replies, image, why) in enumerate(self.failures[:SHOWN]):
            name = f"{self.bench.folder}-{seed}-{number}.yt"
            Path(name).write_bytes(image or b"")
            kept.append(f"conversation {seed}, after {replies} replies, {why}: {name}")
        return len(self.told), len(self.failures), kept


def check_all(rng, talk, choices, stride):
    for replies, state in choices:
        for image in all_images(rng, state, stride):
            talk.check(replies, image)


def check_random(rng, talk, choices, count):
    for replies, state in choices:
        talk.check(replies, state and state[0])
    open_ = [choice for choice in choices if choice[1] and choice[1][1]]
    while len(talk.told) < count and len(talk.failures) < 100:
        replies, state = rng.choice(open_)
        talk.check(replies, random_image(rng, state, talk.record))


def attacked(program, library, what, seed, images):
    rng = random.Random(f"{what} {seed}")
    with Bench(program, "--json") as bench:
        talk = Conversation(bench, library, seed, (small_list if what == "all" else large_list)(bench, seed))
        if not talk.is_recorded():
            return 0, 1, [f"conversation {seed}: the record makes another file"]
        there = list(dict.fromkeys(moments(talk.path, talk.record)))
        choices = [(replies, state) for replies, states in there for state in states]
        (check_all if what == "all" else check_random)(rng, talk, choices, images)
        return talk.result(seed)


def main(program, library, what, first, count, images="0"):
    seeds, passed, failed = range(int(first), int(first) + int(count)), 0, 0
    with ProcessPoolExecutor(int(os.environ.get("JOBS", "2"))) as pool:
        tasks = [pool.submit(attacked, program, library, what, seed, int(images)) for seed in seeds]
        for task in tasks:
            made, wrong, kept = task.result()
            passed, failed = passed + max(0, made - wrong), failed + wrong
            print("".join(f"FAILED {line}\n" for line in kept), end="", flush=True)
    print(f"{passed} passed, {failed} failed")
    sys.exit(failed > 0)


if __name__ == "__main__":
    main(*sys.argv[1:])

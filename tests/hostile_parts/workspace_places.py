#!/usr/bin/env python3
"""workspace_places.py YT: the path names no good file, or a file that may not be read or written, or that is in use.

Folders, pipes, devices, sockets, links of every kind, long and odd names, files and folders without permission, a read-only file
system, files that others have locked. yt must give a status that fits, in words, and everything must stay as it was; a link stays
a link. What the system does not allow here (a mount, another user) is reported, and not counted. The last line is 'N passed, M
failed'.
"""
import fcntl
import os
import shutil
import socket
import subprocess
import sys
from pathlib import Path

from workspace_room import mounted
from workspace_runs import Bench, Tally, yt

NOBODY = 65534
CREATE, CHANGE, FOLD = "relation A(x, y)", "insert A(1, ?), A(2, 2)", "fold"
# The mode of a file, the mode of its folder, and the statuses that a look, a change and a fold may give.
MODES = [(0o000, 0o755, [5], [5, 6], [5, 6]), (0o444, 0o755, [0], [6], [6]), (0o666, 0o555, [0], [0], [6]), (0o222, 0o755, [5], [5, 6], [5, 6]),
         (0o666, 0o000, [5], [5, 6], [5, 6])]
WORDS = {3: b"there is no ", 5: b"cannot read", 6: b"cannot write", 12: b"is damaged"}


class Places:
    def __init__(self, bench, tally):
        self.bench, self.tally = bench, tally
        self.good = bench.path("good.yt")
        for line in (CREATE, CHANGE, "insert A(3, 4)"):
            yt(bench.program, [self.good, line])
        self.data = Path(self.good).read_bytes()

    def path(self, name, data=None):
        path = Path(self.bench.path(name))
        path.parent.mkdir(exist_ok=True)
        if data is not None:
            path.write_bytes(data)
        return str(path)

    def says(self, what, path, line, statuses, **how):
        """Checks that yt gives one of these statuses, and says why."""
        run = subprocess.run([self.bench.program, path, line], capture_output=True, timeout=60, stdin=subprocess.DEVNULL, **how)
        told = run.returncode, run.stdout, run.stderr
        is_right = run.returncode in statuses and (run.returncode == 0 or run.stderr.startswith(b"yt: ") and WORDS[run.returncode] in run.stderr)
        self.tally.holds(f"{what}, {line}: {told}", is_right)
        return run.returncode

    def all_say(self, what, path, look, change, create, **how):
        self.says(what, path, "show", look, **how)
        self.says(what, path, CHANGE, change, **how)
        self.says(what, path, FOLD, change, **how)
        self.says(what, path, CREATE, create, **how)

    # ---- not a file ----

    def no_files(self):
        folder = self.path("folder/x")[:-2]
        self.all_say("a folder", folder, [5], [5], [5])
        self.all_say("a folder, with a slash", folder + "/", [5], [5], [5])
        self.all_say("in a folder that is not there", self.path("f")[:-1] + "no/w.yt", [3], [3], [6])
        self.all_say("in a file", self.good + "/w.yt", [5], [5], [5, 6])
        self.all_say("a name that is too long", self.bench.path("n" * 256), [5], [5], [5, 6])
        pipe, meeting = self.bench.path("pipe"), self.bench.path("meeting")
        os.mkfifo(pipe)
        with socket.socket(socket.AF_UNIX) as made:
            made.bind(meeting)
            for path in (pipe, meeting, "/dev/null", "/dev/zero", "/dev/full"):
                self.all_say(path, path, [5], [5], [5])
        self.tally.holds("the good file is as it was", Path(self.good).read_bytes() == self.data)

    def odd_names(self):
        for name in ["a b.yt", "-w.yt", "w\n.yt", "\u65e5.yt", "n" * 235, "n" * 255, "w.yt.1.new", b"w\xe9.yt"]:
            path = os.path.join(os.fsencode(self.bench.folder), os.fsencode(name))
            status = subprocess.run([self.bench.program, path, CREATE], capture_output=True, timeout=60).returncode
            self.tally.holds(f"a file of the name {name}: {status}", os.path.exists(path) == (status == 0) and status in (0, 2, 6))
            if status == 0:
                status = subprocess.run([self.bench.program, path, FOLD], capture_output=True, timeout=60).returncode
                self.tally.holds(f"a fold of {name}: {status}", status in (0, 13))
        long = self.path("m" * 253, self.data)
        self.says("a name that leaves no room for one beside it", long, CHANGE, [0])
        before = Path(long).read_bytes()
        self.says("a name that leaves no room for one beside it", long, FOLD, [6])
        self.tally.holds("it is as it was", Path(long).read_bytes() == before)

    def odd_words(self):
        """A word that is not UTF-8 is refused by its number, and a script that cannot be read in words."""
        for words, number in (([self.good, b"show \xe9"], 2), ([b"--as=\xe9", self.good, "show"], 1), ([self.good, "show", "A", b"\xff"], 4)):
            for json in ([], ["--json"]):
                run = subprocess.run([self.bench.program, *json, *words], capture_output=True, timeout=60)
                said = b"word %d is not UTF-8" % (number + len(json))
                self.tally.holds(f"{json} {words}: {run}", run.returncode == 2 and said in (run.stdout if json else run.stderr))
        run = subprocess.run([os.fsencode(self.bench.folder) + b"/\xe9", self.good, "status"], executable=self.bench.program, capture_output=True)
        self.tally.holds(f"a program whose name is not UTF-8: {run}", run.returncode == 0)
        run = subprocess.run([self.bench.program, self.good, "insert A(9, 9)"], capture_output=True, env={**os.environb, b"YT_TIME": b"\xe9"})
        self.tally.holds(f"a time that is not UTF-8: {run}", run.returncode == 2 and b"YT_TIME is no time" in run.stderr)
        folder = os.open(self.bench.folder, os.O_RDONLY)
        for words in ([self.good], [self.good, "load", "A", "-"], [self.good, "load A --lines 2"]):
            run = subprocess.run([self.bench.program, *words], capture_output=True, timeout=60, stdin=folder)
            said = b"yt: cannot read standard input: is a directory\n"
            self.tally.holds(f"a folder as standard input of {words}: {run}", run.returncode == 5 and run.stderr == said)
        os.close(folder)
        self.tally.holds("the good file is as it was", Path(self.good).read_bytes() == self.data)

    def links(self):
        target, there = self.path("there/target.yt", self.data), self.bench.path("link.yt")
        os.symlink("there/target.yt", there)
        for line in (CHANGE, FOLD, CHANGE):
            self.says("a link", there, line, [0])
            self.tally.holds(f"the link stays after {line}", os.path.islink(there) and not os.path.islink(target))
        self.tally.holds("the file is changed, and nothing is left beside it", os.listdir(os.path.dirname(target)) == ["target.yt"])
        self.tally.holds("both are the same", self.bench.stands_for(there) == self.bench.stands_for(target) != self.bench.stands_for(self.good))
        for name, leads, look, change in (("nowhere", "no.yt", [3], [3]), ("itself", "itself", [5], [5, 6]), ("folder-link", "there", [5], [5])):
            path = self.bench.path(name)
            os.symlink(leads, path)
            self.all_say(f"a link to {leads}", path, look, change, [5, 6])
            stays = os.readlink(path) == leads and not os.path.exists(self.bench.path("no.yt"))
            self.tally.holds(f"the link to {leads} stays, and leads there", stays)
        os.link(target, self.bench.path("second.yt"))
        before = Path(target).read_bytes()
        self.says("a second name", self.bench.path("second.yt"), FOLD, [0])
        self.tally.holds("the first name has the old file", Path(target).read_bytes() == before)

    # ---- no permission to read or write ----

    def permissions(self):
        if os.getuid():
            print("another user: not tried, since we are not root")
            return
        program, folder = self.path("program/yt"), self.bench.path("locked")
        shutil.copy(self.bench.program, program)
        for path in (self.bench.folder, os.path.dirname(program), program):
            os.chmod(path, 0o755)
        file, how = self.path("locked/w.yt", self.data), {"user": NOBODY, "group": NOBODY, "extra_groups": []}
        mine, self.bench.program = self.bench.program, program
        for mode, of_folder, look, change, fold in MODES:
            shutil.copyfile(self.good, file)
            os.chmod(file, mode)
            os.chmod(folder, of_folder)
            what = f"a file of mode {mode:o} in a folder of mode {of_folder:o}"
            self.says(what, file, "show", look, **how)
            self.says(what, file, FOLD, fold, **how)
            self.tally.holds(f"{what} is as it was", Path(file).read_bytes() == self.data)
            self.says(what, file, CHANGE, change, **how)
            self.says(what, self.bench.path("locked/new.yt"), CREATE, [5, 6], **how)
            self.tally.holds(f"{what}, nothing is left beside it", os.listdir(folder) == ["w.yt"])
        self.bench.program = mine

    def only_read(self):
        folder = mounted(self.bench)
        if folder:
            shutil.copyfile(self.good, folder + "/w.yt")
            subprocess.run(["mount", "-o", "remount,ro", folder], check=True)
            self.says("a file system that is only read", folder + "/w.yt", "show", [0])
            for line in (CHANGE, FOLD):
                self.says("a file system that is only read", folder + "/w.yt", line, [6])
            self.says("a file system that is only read", folder + "/new.yt", CREATE, [6])
            subprocess.run(["umount", folder], check=True)

    # ---- files that others use ----

    def in_use(self):
        path = self.path("used.yt", self.data)
        for how, statuses in ((fcntl.LOCK_EX, {"show": [5], CHANGE: [5], FOLD: [5]}), (fcntl.LOCK_SH, {"show": [0], CHANGE: [5], FOLD: [5]})):
            with open(path) as file:
                fcntl.flock(file, how)
                for line, allowed in statuses.items():
                    run = subprocess.run([self.bench.program, "--wait", "0", path, line], capture_output=True, timeout=60)
                    in_words = run.returncode == 0 or b"used.yt is in use: waited 0 seconds" in run.stderr
                    self.tally.holds(f"a file in use, {line}: {run.returncode}, {run.stderr}", run.returncode in allowed and in_words)
        self.tally.holds("a file in use is as it was", Path(path).read_bytes() == self.data)


def main():
    tally = Tally()
    with Bench(os.path.realpath(sys.argv[1])) as bench:
        places = Places(bench, tally)
        for attack in (places.no_files, places.odd_names, places.odd_words, places.links, places.permissions, places.only_read, places.in_use):
            attack()
    tally.end()


if __name__ == "__main__":
    main()

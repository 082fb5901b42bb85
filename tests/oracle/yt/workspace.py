"""A workspace in a file: lock, read what is new, do a command, append, unlock."""
import os
import re

from . import text as T
from .clock import now
from .doer import Doer
from .files import FileFault, Journal, fresh
from .helping import help_text
from .items import Stop
from .logging import read_answer, read_item
from .replies import DAMAGED, DONE, MEMORY, Reply, fault_reply
from .space import Space


class Workspace:
    def __init__(self, path, who, wait=10, closed=False, brief=False):
        self.path, self.who, self.closed, self.brief = path, who, closed, brief
        self.name = self.say(path)
        self.journal = Journal(path, wait, self.name)
        self.payloads, self.space, self.read, self.comment = [], None, 0, ""
        self.shown = {}          # questions that this process has shown: number -> candidates

    def say(self, path):
        """The name of a file in faults: its last part, if replies are objects."""
        return os.path.basename(path.rstrip("/")) or path if self.brief else path

    # ---- the file ----
    def open(self, write):
        """Locks the file, and reads what is new. Returns whether there is a file."""
        changed = self.journal.lock(write)
        if changed is None:
            return False
        if changed:
            self.payloads, self.space = [], None
        self.payloads += self.journal.news()
        self.build()
        return True

    def build(self):
        try:
            if self.space is None:
                self.read = 0
                self.space, self.read = Space(self.payloads[0]), 1
            for p in self.payloads[self.read:]:
                self.space.replay(p)
                self.read += 1
        except (T.Fault, ValueError, KeyError, IndexError, UnicodeDecodeError, AssertionError, AttributeError, Stop) as e:
            self.space = None
            raise FileFault(DAMAGED, "%s is damaged: record %d cannot be read" % (self.name, self.read))

    def accept(self, lines, time, tables=None):
        if self.comment:
            lines = ["%s  # %s" % (lines[0], self.comment)] + lines[1:]
        payload = "\n".join(["%s %s" % (time, self.who)] + lines).encode()
        if self.journal.fd is None:
            self.create(payload)
        else:
            self.journal.append(payload)
        self.payloads.append(payload)
        self.read += 1
        self.space.at += 1
        entry = {"at": self.space.at, "time": time, "curator": self.who, "lines": [],
                 "tables": self.space.changed() if tables is None else tables}
        for text in lines:
            entry["lines"].append(log_entry(self.space, text))
        self.space.records.append(entry)

    # ---- commands ----
    def command(self, line, data=None):
        """The reply to one line, or None if the line is blank. `data`: (bytes, number of lines), what belongs to a load."""
        self.data = data
        verb = re.match(r"\s*([A-Za-z_]*)", line).group(1)
        write = verb in T.CHANGES
        try:
            if not line.strip() or line.strip().startswith("#"):
                return None
            there = self.open(write)
            if not there:
                self.space = None
                cmd = T.parse(line, T.Schema(), {})
                if cmd is None:
                    return None
                self.allowed(cmd)
                self.comment = cmd[-1].get("#", "")
                if cmd[0] == "help":
                    return self.do_help(cmd)
                if cmd[0] == "quit":
                    return Reply(DONE, [], {"reply": "quit"})
                if cmd[0] == "load" and "create" in cmd[-1]:
                    self.payloads, self.read = [self.head()], 1
                    self.space = Space(self.payloads[0])
                    return Doer(self, self.space).do(cmd)
                if cmd[0] != "relation":
                    raise T.Fault("there is no file %s" % self.name, None,
                                  "its first command makes it: relation NAME(COLUMN, ..)", 3)
                return self.make(cmd)
            cmd = T.parse(line, self.space.schema, {m: 1 for m in self.space.standing_mappings()})
            if cmd is None:
                return None
            self.allowed(cmd)
            self.comment = cmd[-1].get("#", "")
            return Doer(self, self.space).do(cmd)
        except T.Fault as f:
            self.space = None if write else self.space
            return fault_reply(f, line)
        except FileFault as f:
            self.space = None
            return fault_reply(T.Fault(f.words, status=f.status), line)
        except MemoryError:
            self.space = None
            return Reply(MEMORY, ["out of memory"], {"reply": "fault", "words": "out of memory"})
        finally:
            self.journal.unlock()

    def allowed(self, cmd):
        """Refuses a command that reads or writes another file, if files are not allowed; and a command that is not --still up to
        date."""
        cmd = cmd[1] if cmd[0] == "try" else cmd
        if self.closed and (cmd[0] == "load" and cmd[2] not in (None, "-") or "to" in cmd[-1] or "sqlite" in cmd[-1]):
            raise T.Fault("files are closed", None, None, 3)
        at = 0 if self.space is None else self.space.at
        if cmd[-1].get("still", at) != at:
            raise T.Fault("the log is at %d" % at, None, None, 3)

    def do_help(self, cmd):
        lines = help_text(cmd[1])
        return Reply(DONE, lines, {"reply": "help", "text": "\n".join(lines)})

    def head(self):
        return "\n".join(["yt 1", "created %s %s" % (now(), self.who), "last 0 at 0", "end"]).encode()

    def make(self, cmd):
        """Makes the file by its first relation."""
        line = T.show_line(T.Schema(), cmd) + ("  # " + cmd[-1]["#"] if cmd[-1]["#"] else "")
        self.write_new([self.head(), ("%s %s\n%s" % (now(), self.who, line)).encode()])
        self.open(True)
        return Doer(self, self.space).related(cmd, True)

    def create(self, payload):
        """Makes the file of a workspace that is only in memory, with its first record."""
        self.write_new(self.payloads + [payload])
        self.journal.lock(True)
        self.journal.news()

    def write_new(self, payloads):
        if not fresh(self.path, payloads, False, self.name):
            raise T.Fault("somebody has just made %s; say it again" % self.name, None, None, 3)


def log_entry(space, text):
    if text[0].isdigit():
        n, _, cmd = read_item(text, space.schema, space.mappings)
    elif text.startswith("answer "):
        n, choice, _, comment = read_answer(text[7:], space.schema)
        return (None, ("answer", n, choice, {}), comment)
    else:
        n, cmd = None, T.parse(text, space.schema, space.mappings)
    return (n, cmd, cmd[-1].get("#", "") if isinstance(cmd[-1], dict) else "")

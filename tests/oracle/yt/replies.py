"""Replies as lines and as objects, and their statuses."""
import json

from . import text as T

DONE, WAITS, WORDS, REFUSED, VIOLATED, READ, WRITE, MEMORY, DAMAGED, NOTHING, SPENT = 0, 1, 2, 3, 4, 5, 6, 7, 12, 13, 14
MANY = 20
TUPLES = 1000000


def compact(o):
    return json.dumps(o, ensure_ascii=False, sort_keys=True, separators=(",", ":"))


class Reply:
    def __init__(self, status, lines, obj, more=()):
        self.status, self.lines, self.obj, self.more = status, lines, obj, list(more)

    def json(self):
        out, every = [], [self.obj] + self.more
        for i, o in enumerate(every, 1):
            o = dict(o)
            o.setdefault("status", self.status)
            if i < len(every):
                o["more"] = True
            out.append(compact(o))
        return out


def plural(n, word):
    return "%d %s" % (n, word if n == 1 else word[:-1] + "ies" if word.endswith("y") else word + "s")


def note_line(n):
    """A note is its words, or its words and commands that it proposes."""
    return n if isinstance(n, str) else "%s: %s" % (n[0], " | ".join(n[1]))


def note_object(n):
    return {"words": n, "commands": []} if isinstance(n, str) else {"words": n[0], "commands": list(n[1])}


def fault_reply(f, line, number=None):
    words, more, hint = T.escaped(f.words), [T.escaped(m) for m in f.more], f.hint and T.escaped(f.hint)
    obj = {"reply": "fault", "words": words}
    lines = [words]
    if f.at is not None:
        obj["column"] = f.at + 1
        lines[0] = "column %d: %s" % (f.at + 1, words)
        shown = line.rstrip("\r\n")
        mark = "".join("\t" if ch == "\t" else " " * T.width(ch) for ch in shown[:f.at])
        if not any(T.control(ch) and ch != "\t" for ch in shown):
            lines += ["  " + shown, "  " + mark + "^"]
    lines += ["  " + m for m in more]
    if more:
        obj["faults"] = more
    if hint:
        obj["hint"] = hint
        lines.append("  " + hint)
    return Reply(f.status, lines, obj)

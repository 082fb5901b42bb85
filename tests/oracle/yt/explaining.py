"""Why a tuple is there, what drew an unknown, and the log."""
from . import text as T
from .items import Stop
from .pictures import why_dot
from .replies import DONE, NOTHING, Reply, plural


class Explaining:
    """Explains tuples and unknowns."""

    def why_unknown(self, name):
        s = self.space
        if name[1:] in s.became or name[1:] not in s.null_of:
            raise self.lost(name)
        where = [self.fact(s.named(t)) for t in s.facts.occurs(*s.null_of[name[1:]])]
        if not where:
            raise self.lost(name)
        item = s.items.get(name[1])
        cause = next((c for c, p in (item.places if item else {}).items() if p == name[2]), None)
        if item is None or item.state != "stands":
            words = "%s is in the base" % T.show_value(name)
        elif cause[0] == "_new":
            words = "%s is new in %d by %s" % (T.show_value(name), item.number, item.curator)
        else:
            m = cause[0][5:] if cause[0].startswith("_fix_") else cause[0]
            words = "%s is %s of %s in %d by %s" % (T.show_value(name), cause[1], m, item.number, item.curator)
            if not cause[0].startswith("_fix_"):
                words += ", since " + ", ".join(self.fact(t) for t in cause[2])
        return Reply(DONE, [words] + ["  stands in " + w for w in where],
                     {"reply": "unknown", "unknown": T.show_value(name), "words": words, "tuples": where})

    def do_why(self, cmd):
        s = self.space
        if len(cmd[1]) == 3:
            return self.why_unknown(cmd[1])
        cmd = (cmd[0], self.one(cmd[1]), cmd[2])
        there = True
        try:
            t = s.inner_fact(cmd[1])
            there = t in s.facts
        except Stop:
            there = False
        if not there:
            return self.why_gone(cmd[1])
        reasons = s.why(t)
        if "dot" in cmd[-1]:
            text = why_dot(self, reasons)
            return Reply(DONE, text, {"reply": "dot", "text": "\n".join(text)})
        lines, objs = [], []
        for t, item, h, depth, again in reasons:
            if t is None:
                continue
            who = " in %d by %s" % (item.number, item.curator) if item else ""
            if h[0] == "base":
                words = "is in the base"
            elif h[0] == "inserted":
                words = "was inserted" + who
            elif h[0] == "generated":
                words = "was made by %s%s" % (h[1], who)
            else:
                words = "was %s%s" % (self.fact(h[1]), who)
            lines.append("%s%s %s%s" % ("  " * depth, self.fact(t), words, ", as above" if again and h[0] != "base" else ""))
            o = {"tuple": self.fact(t), "how": h[0], "depth": depth}
            if item:
                o.update(number=item.number, curator=item.curator)
            if h[0] == "generated":
                o.update(mapping=h[1], image=[self.fact(x) for x in h[2]])
            if h[0] == "rewritten":
                o["from"] = self.fact(h[1])
            objs.append(o)
        return Reply(DONE, lines, {"reply": "why", "reasons": objs})

    def why_gone(self, t):
        s = self.space
        found = s.gone_by(t)
        if found is None:
            near = self.nearest(t)
            raise T.Fault("%s is not there" % self.fact(t), None, "; ".join("there is " + x for x in near) or None, 3)
        item, h = found
        where = "in %d by %s: %s" % (item.number, item.curator, self.line(item.line))
        words = {"deleted": "was deleted", "needed": "went by %s", "chosen": "was chosen to go by %s",
                 "became": "became %s"}[h[0]]
        if len(h) > 1:
            words %= self.fact(s.named(h[1])) if h[0] == "became" else h[1].replace("_fix_", "")
        line = "%s %s %s" % (self.fact(t), words, where)
        return Reply(NOTHING, [line], {"reply": "gone", "tuple": self.fact(t), "how": h[0], "number": item.number,
                                       "curator": item.curator, "words": line})

    def do_log(self, cmd):
        s, opts = self.space, cmd[-1]
        if cmd[1] is not None:
            return self.log_one(self.item(cmd[1]))
        lines, objs = [], []
        records = s.records
        if "since" in opts:
            if opts["since"] > s.at:
                raise T.Fault("the log has no record %d" % opts["since"], None, "it is at %d" % s.at, 3)
            if opts["since"] < s.at - len(s.records):
                raise T.Fault("record %d was folded" % opts["since"], None, "look again: status", 3)
            records = [e for e in records if e["at"] > opts["since"]][:opts.get("limit")]
        elif "limit" in opts:
            records = records[-opts["limit"]:]
        for e in records:
            for number, c, comment in (e["lines"] if len(e["lines"]) <= 6 else e["lines"][:3]):
                state = ""
                if number is not None:
                    item = s.items[number]
                    state = "" if item.state == "stands" else "  (%s)" % item.state
                lines.append("%d  %s  %s  %s%s%s%s" % (e["at"], e["time"], e["curator"],
                             "" if number is None else "%d " % number, self.line(c), state,
                             "  # " + comment if comment else ""))
                objs.append({"reply": "log", "at": e["at"], "time": e["time"], "curator": e["curator"], "line": self.line(c)})
                if comment:
                    objs[-1]["comment"] = comment
                if number is not None:
                    objs[-1].update(number=number, state=item.state)
            if len(e["lines"]) > 6:
                last = e["lines"][-1][0]
                lines.append("%d  .. and %d more lines%s" % (e["at"], len(e["lines"]) - 3, ", up to %d" % last if last else ""))
                for number, c, _ in e["lines"][3:]:
                    objs.append({"reply": "log", "at": e["at"], "time": e["time"], "curator": e["curator"],
                                 "line": self.line(c)})
                    if number is not None:
                        objs[-1].update(number=number, state=s.items[number].state)
        if "since" in opts:
            objs = [self.record_object(e) for e in records]
            if not objs:
                lines = ["nothing since record %d" % opts["since"]]
                objs = [{"reply": "record", "at": s.at, "count": 0, "lines": [], "tables": []}]
        elif s.folded and not lines:
            lines.append("nothing since the fold at %d" % s.at)
        elif s.folded:
            lines.insert(0, "what came before was folded, up to %d" % s.folded)
        if not objs:
            objs = [{"reply": "log", "line": None}]
        return Reply(DONE, lines, objs[0], objs[1:])

    def record_object(self, e):
        """One record of the log, with its first three lines."""
        s, lines = self.space, []
        for number, c, comment in e["lines"][:3]:
            o = {"line": self.line(c)}
            if number is not None:
                o.update(number=number, state=s.items[number].state)
            if comment:
                o["comment"] = comment
            lines.append(o)
        return {"reply": "record", "at": e["at"], "time": e["time"], "curator": e["curator"], "count": len(e["lines"]),
                "lines": lines, "tables": [s.schema.relations[r][0] for r in sorted(e["tables"])]}

    def log_one(self, item):
        s = self.space
        lines = ["%d  %s  %s  %s" % (item.number, item.time, item.curator, self.line(item.line))]
        lines += ["  answer %s" % T.show_choice(s.schema, a) for a, _ in item.answers]
        state = item.state if item.state != "stands" else "done"
        if item.state == "waits":
            stop = s.run(item, peek=True)
            state = "waits: " + self.why_waits(stop)
        elif state == "done":
            state = "done in %s, with %s" % (plural(item.work, "step"), plural(item.drawn, "unknown"))
        lines.append("  " + state)
        writes = [] if item.state != "stands" else item.writes
        lines += ["  %s %s" % ("+" if ins else "-", self.fact(t)) for ins, t in writes]
        return Reply(DONE, lines, {"reply": "update", "number": item.number, "curator": item.curator, "time": item.time,
                                   "line": self.line(item.line), "state": item.state,
                                   "answers": [T.show_choice(s.schema, a) for a, _ in item.answers],
                                   "writes": [("+" if ins else "-") + self.fact(t) for ins, t in writes]})

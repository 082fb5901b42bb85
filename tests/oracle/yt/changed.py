"""The reply of a change: what came, went and was filled, and why."""
from . import text as T
from .naming import WANT
from .replies import MANY, Reply, note_line, note_object, plural


class Changed:
    """Prints what a change did."""

    def change(self, cmd, did, status, number=None, notes=(), next=(), again=(), question=None, effect=None, extra=()):
        s = self.space
        came, went, filled, merged = effect if effect is not None else s.effect()
        by = self.reasons() if came or went else {}
        text = self.line(cmd)
        head = "%s%s: %s" % ("" if number is None else "%d " % number, did, text)
        if self.trying:
            head = "try " + head
        lines = [head]
        quiet = question is not None
        if not quiet:
            rows = ["+ %s%s" % (self.fact(t), "   by " + by[t] if by.get(t) else "") for t in came]
            rows += ["- %s%s" % (self.fact(t), "   by " + by[t] if by.get(t) else "") for t in went]
            rows += ["= %s is %s, in %s" % (T.show_value(n), T.show_value(v), plural(k, "tuple")) for n, v, k in filled]
            lines += ["  " + r for r in rows[:MANY]]
            if len(rows) > MANY:
                lines.append("  .. and %d more: %s came, %s went in all" % (
                    len(rows) - MANY, plural(len(came), "tuple"), plural(len(went), "tuple")))
            if merged:
                lines.append("  %s became one with another" % plural(merged, "tuple"))
        lines += ["  " + x for x in extra]
        if question is not None:
            lines += ["  " + x for x in self.question_lines(question, True)]
        for item in again:
            lines.append("  ! " + self.again_words(item))
        lines += ["note: " + note_line(n) for n in notes]
        if not self.trying:
            lines += ["next: " + " | ".join(next)] if next else []
        obj = {"reply": "try" if self.trying else "change", "did": did, "line": text, "at": s.at,
               "came": [dict([("tuple", self.fact(t))] + ([("by", by[t])] if by.get(t) else [])) for t in came],
               "went": [dict([("tuple", self.fact(t))] + ([("by", by[t])] if by.get(t) else [])) for t in went],
               "filled": [{"unknown": T.show_value(n), "value": T.show_value(v), "tuples": k} for n, v, k in filled]}
        if number is not None:
            obj["number"] = number
        if again:
            obj["again"] = [{"number": i.number, "now": i.state,
                             "words": self.again_words(i)} for i in again]
        if notes:
            obj["notes"] = [note_object(n) for n in notes]
        if next and not self.trying:
            obj["next"] = list(next)
        if extra:
            obj["also"] = list(extra)
        if question is not None:
            obj["question"] = self.question_object(question)
        return Reply(status, lines, obj)

    def again_words(self, item):
        if item.state == "stands":
            return "%d %s: %s" % (item.number, "did something else now" if item.was == "stands" else "is done now",
                                  self.line(item.line))
        if item.state == "given up":
            return "%d is given up: %s" % (item.number, self.line(item.line))
        return "%d waits now (%s): %s" % (
            item.number, self.why_waits(self.space.run(item, peek=True)), self.line(item.line))

    def why_waits(self, stop):
        if stop is None:
            return "nothing is in its way: answer it with go"
        if stop.why == "question":
            return "it asks"
        if stop.why == "lost":
            return "%s is not there" % T.show_value(stop.name)
        if stop.why == "spent":
            return "its steps do not suffice"
        if stop.why == "violated":
            return "%s has %s" % (stop.mapping, plural(stop.count, "violation"))
        return "mapping %s is gone" % stop.mapping

    def reasons(self):
        """{named tuple: mapping} of the tuples that the last items generated."""
        s, out = self.space, {}
        for item in s.order[self.seen:] if self.seen is not None else ():
            how = {}
            for r in item.runs:
                for _, puts, takes in r.steps:
                    for t, h in takes.items():
                        if h[0] in ("needed", "chosen") and t[0] < WANT:
                            out[s.named(t)] = h[1]
                    for t, h in puts.items():
                        if h[0] == "generated":
                            how[t] = h[1][5:] if h[1].startswith("_fix_") else h[1]
                        elif h[0] == "rewritten":
                            how[t] = how.get(h[1])
                        else:
                            how[t] = None
            for t, m in how.items():
                if m and t in s.facts and t[0] < WANT:
                    out[s.named(t)] = m
        return out

    seen = None

    def begin(self):
        self.space.begin()
        self.seen = len(self.space.order)

"""Words about tuples, and questions by number."""
from . import text as T
from .chase import matches
from .items import Stop
from .replies import plural


class Asked:
    """Names tuples, and prints questions."""

    def fact(self, t):
        return T.show_fact(self.space.schema, t)

    def line(self, cmd):
        return T.show_line(self.space.schema, cmd)

    def lost(self, name):
        """Why no unknown has this name."""
        s, chain, n = self.space, [], name[1:]
        while n in s.became:
            v, number = s.became[n]
            v = s.named_value(v) if v[0] != 2 or v[1:3] in s.name_of else v
            chain.append("update %d took %s to be %s" % (number, "it" if not chain else "that", T.show_value(v)))
            if v[0] != 2:
                break
            n = v[1:]
        if chain:
            return T.Fault("%s is no unknown any more" % T.show_value(name), None, ", ".join(chain), 3)
        return T.Fault("there is no unknown %s" % T.show_value(name), None,
                       "`show` has them; a new one is written ? in an insert", 3)

    def matching(self, t):
        """The tuples, by names, that fit a tuple with _ in it, in order."""
        s = self.space
        if all(v[0] != 4 for v in t[1]):
            return [t]
        self.check_nulls(t[1])
        a = (t[0], tuple(("v", i) if v[0] == 4 else ("c", s.inner(v)) for i, v in enumerate(t[1])))
        return [s.named(image[0]) for image, _ in matches((a,), s.facts, {})]

    def one(self, t):
        """The one tuple that fits."""
        found = self.matching(t)
        if len(found) != 1:
            raise T.Fault("%s fits %s" % (self.fact(t), plural(len(found), "tuple")), None, None, 3,
                          [self.fact(x) for x in found[:3]])
        return found[0]

    def check_nulls(self, values):
        for v in values:
            if v[0] == 2:
                try:
                    self.space.inner(v)
                except Stop as e:
                    raise self.lost(e.name)

    def next_number(self):
        return self.space.last + 1

    def pattern(self, q):
        return self.space.show_mapping(self.space.mappings[q["mapping"]])

    def candidates(self, q, like=None):
        """[(number, tuple)] of the candidates that have the text in them as printed, in the order in which they are shown."""
        rows = [(i, self.fact(t)) for i, t in enumerate(q["candidates"], 1)]
        order = self.ranked(q)
        return sorted((r for r in rows if not like or like.lower() in r[1].lower()), key=lambda r: order[r[0] - 1])

    def question_lines(self, q, brief=False, like=None, limit=10):
        out = []
        if q["kind"] == "positive":
            out.append("%s wants %s. Is it one of these?" % (q["mapping"], self.fact(q["wanted"])))
        else:
            out.append("%s no longer holds for these. Which of them go?" % q["mapping"])
        rows = self.candidates(q, like)
        w = len(str(len(q["candidates"])))
        w = max(w, 3) if q["kind"] == "positive" else w
        out += ["  %s  %s" % (str(i).ljust(w), t) for i, t in rows[:limit]]
        if len(rows) > limit:
            out.append("  .. and %d more: questions %d --like TEXT, or --limit N" % (len(rows) - limit, q["number"]))
        if like and not rows:
            out.append("  none of %s has %s in it" % (plural(len(q["candidates"]), "candidate"), T.quoted(like.encode())))
        if q["kind"] == "positive":
            out.append("  %s  none of them" % "new".ljust(w))
        out.append("why: " + self.pattern(q))
        if q["kind"] == "positive":
            out.append("     since " + ", ".join(self.fact(t) for t in q["since"]))
        for sign, t in q["so_far"][:6]:
            out.append("so far: %s %s" % (sign, self.fact(t)))
        if len(q["so_far"]) > 6:
            out.append("so far: and %d more" % (len(q["so_far"]) - 6))
        return out

    def ranked(self, q):
        """The rank of each candidate: first those with most values in common with the known ones, then by number."""
        if q["kind"] == "negative":
            return list(range(len(q["candidates"])))
        seen = {v for t in q["since"] for v in t[1]} | {v for _, t in q["so_far"] for v in t[1]}
        seen -= set(q["wanted"][1])
        order = sorted(range(len(q["candidates"])), key=lambda i: (-sum(v in seen for v in q["candidates"][i][1]), i))
        out = [0] * len(order)
        for rank, i in enumerate(order):
            out[i] = rank
        return out

    def question_object(self, q, like=None, limit=10):
        rows = self.candidates(q, like)
        o = {"number": q["number"], "kind": q["kind"], "mapping": q["mapping"], "rule": self.pattern(q),
             "candidates": [{"number": i, "tuple": t} for i, t in rows[:limit]], "count": len(q["candidates"]), "since": [self.fact(t) for t in q["since"]],
             "so_far": [s + self.fact(t) for s, t in q["so_far"]]}
        if q["kind"] == "positive":
            o["wanted"] = self.fact(q["wanted"])
        if like:
            o["fit"] = len(rows)
        return o

    def question_next(self, q):
        n = q["number"]
        out = ["answer %d %d" % (n, self.ranked(q).index(0) + 1)]
        if q["kind"] == "positive":
            out.append("answer %d new" % n)
        out += ["questions %d" % n, "undo %d" % n]
        return out

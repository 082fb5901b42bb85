"""What stands, what changed, and why a tuple is there."""
from .chase import substitute
from .naming import WANT


class Telling:
    """Answers questions about what stands."""

    def visible(self):
        """The repository: its tuples in order, by their names."""
        return [self.named(t) for t in self.facts.list() if t[0] < WANT]

    def effect(self):
        """(came, went, filled, merged) since `begin`, if no undo came between."""
        def sub(t):
            for _, s in self.subs:
                t = substitute(s, t)
            return t
        before = [t for t, was in self.touched.items() if was and t[0] < WANT]
        after = {t for t in self.touched if t in self.facts and t[0] < WANT}
        moved = {t: sub(t) for t in before}
        gone = set(moved.values())
        came = [self.named(t) for t in sorted(after - gone)]
        went = [self.named(t) for t in sorted(t for t in before if moved[t] not in after and moved[t] not in self.facts)]
        filled = []
        seen = set()
        for _, s in self.subs:
            for n in s:
                if n[1] <= self.mark and n not in seen:
                    seen.add(n)
                    v = n
                    for _, s2 in self.subs:
                        v = s2.get(v, v)
                    if v != n:
                        count = len([t for t in before if n in t[1]])
                        filled.append((self.named_value(n), self.named_value(v), count))
        survivors = [t for t in before if moved[t] in self.facts]
        merged = len(survivors) - len({moved[t] for t in survivors})
        return came, went, sorted(filled), merged

    def step_list(self):
        """All steps of what stands: (item number, step, puts)."""
        out = []
        for item in self.order:
            n = 0
            for r in item.runs:
                for s, puts, _ in r.steps:
                    n += 1
                    out.append((item, n, puts))
        return out

    def why(self, t):
        """A list of (named tuple, item or None, how with named tuples, depth), or None."""
        steps = self.step_list()
        puts = {}
        for i, (_, _, ps) in enumerate(steps):
            for x in ps:
                puts.setdefault(x, []).append(i)

        def origin(x, before):
            found = [i for i in puts.get(x, ()) if i < before]
            return found[-1] if found else -1

        out, seen = [], set()

        def walk(x, before, depth):
            o = origin(x, before)
            again = (x, o) in seen
            seen.add((x, o))
            if o < 0:
                out.append((self.named(x), None, ("base",), depth, again))
                return
            item, _, ps = steps[o]
            h = ps[x]
            more = h[2] if h[0] == "generated" else (h[1],) if h[0] == "rewritten" else ()
            if x[0] >= WANT:
                out.append((None, item, ("wanted",), depth, again))
                return
            if h[0] == "generated" and h[1].startswith("_fix_"):
                more = item.image
                h = ("generated", h[1][5:], more)
            if h[0] == "generated":
                named = ("generated", h[1], [self.named(y) for y in more])
            elif h[0] == "rewritten":
                named = ("rewritten", self.named(h[1]))
            else:
                named = h
            out.append((self.named(x), item, named, depth, again))
            if not again:
                for y in more:
                    walk(y, o, depth + 1)

        if t not in self.facts:
            return None
        walk(t, len(steps), 0)
        return out

    def gone_by(self, t):
        """(item, how) of the last step that took the tuple away, or None; t by names."""
        for item in reversed(self.order):
            for r in reversed(item.runs):
                for _, _, takes in reversed(r.steps):
                    for x, h in takes.items():
                        if x[0] == t[0] and self.named(x) == t:
                            return item, h
        return None

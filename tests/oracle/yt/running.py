"""One update taken whole over what stands, with its answers and the names of its unknowns."""
from .chase import Program, evaluate, how, matches, substitute
from .items import Run, Stop
from .naming import UNKNOWN, WANT


class Running:
    """Runs an update: each of its ops in turn, or none."""

    def run_op(self, item, op, hidden=None):
        self.seq += 1
        seq = self.seq
        maps = self.in_force() + ([hidden] if hidden else [])
        p = Program(op, seq, 0)
        run = Run()
        run.op, run.choices, run.seq, run.steps, run.changes, run.force = op, [], seq, [], [], None
        self._runs.append(run)
        while not p.ended():
            if p.phase == "asked" and len(run.choices) == p.taken:
                c = None
                if self._taken < len(item.answers):
                    said, key = item.answers[self._taken]
                    if key == self.key(item, p, maps):
                        c = self.choice(said, p.question)
                if c is None:
                    raise Stop("question", question=self.question(item, p, maps))
                self._taken += 1
                run.choices.append(c)
            drawn = p.nulls
            reads, writes = p.step(lambda q: evaluate(q, self.facts, maps, p.own, p.direction, False),
                               run.choices, maps, item.steps)
            if p.nulls > drawn:
                m, image = maps[p.repair[0]], tuple((min(t[0], WANT), self.named(t)[1]) for t in p.repair[1])
                for k, v in enumerate(range(m.universal, len(m.names)), drawn + 1):
                    self.give((seq, k), (item.number, self.place((m.name, m.names[v], image))))
            self._drawn += p.nulls - drawn
            before = {t: t in self.facts for _, t in writes}
            self._undo = self.facts.apply(writes) + self._undo
            for t in before:
                self._touched.setdefault(t, before[t])
            puts = {t: self.reason(how(p.kind, t, writes), maps) for t, was in before.items()
                    if not was and t in self.facts}
            if p.kind[0] == "unify":
                self._subs.append(dict(p.kind[1]))
            elif p.kind[0] == "start" and len(p.kind) > 2:
                self._subs.append(dict(p.kind[2]))
            takes = {}
            for t, was in before.items():
                if was and t not in self.facts:
                    if p.kind[0] == "look":
                        takes[t] = ("needed", maps[reads[-1][0][1]].name)
                    elif p.kind[0] == "delete":
                        takes[t] = ("chosen", self._asked)
                    elif p.kind == ("start", "delete"):
                        takes[t] = ("deleted",)
                    else:
                        takes[t] = ("became", substitute(p.kind[-1], t))
            run.steps.append((p.steps, puts, takes))
            if p.phase == "asked":
                self._asked = maps[p.question[1]].name
            run.changes += writes
        run.drawn, run.work = p.nulls, p.steps
        self._work += p.steps
        if p.phase == "spent":
            raise Stop("spent", runs=self._runs)
        if p.phase == "refused":
            raise Stop("lost", name=self.named_value((2,) + p.refused))
        return run

    def place(self, origin):
        """The place of a cause: always the same for the same cause in the same update; another cause gets the next free place."""
        p = self._places.get(origin)
        if p is None or p in self._used:
            p = max(list(self._places.values()) + list(self._used), default=0) + 1
            self._places.setdefault(origin, p)
        self._used.add(p)
        return p

    def reason(self, h, maps):
        if h[0] == "generated":
            return ("generated", maps[h[1]].name, h[2])
        return h

    def choice(self, named, q):
        """The answer as a choice of the oracle, or None if it does not fit."""
        kind = named[0]
        if q[0] == "positive":
            if kind == "expand":
                return ("expand",)
            if kind == "unify":
                for t in q[3]:
                    if self.named(t) == named[1]:
                        return ("unify", t)
            return None
        if kind != "delete":
            return None
        members = {self.named(t): t for t in q[2]}
        if not named[1] or any(t not in members for t in named[1]):
            return None
        return ("delete", tuple(members[t] for t in named[1]))

    def key(self, item, p, maps):
        """The identity of a question: its mapping and tuples."""
        q = p.question
        return (maps[q[1]].name, tuple(map(self.named, (q[2],) if q[0] == "positive" else q[2])))

    def question(self, item, p, maps):
        q = p.question
        m = maps[q[1]]
        out = {"key": self.key(item, p, maps), "kind": q[0], "mapping": m.name, "number": item.number}
        if q[0] == "positive":
            out["wanted"] = self.named(q[2])
            out["candidates"] = [self.named(t) for t in q[3]]
            image, b = p.repair[1], p.repair[2]
            if m.name.startswith("_fix_"):
                name = m.name[5:]
                real = self.mappings[name]
                out["mapping"] = name
                left = {v: b[i] for i, v in enumerate(self.frontier(real))}
                found = next(matches(real.left, self.facts, left), None)
                image = found[0] if found else ()
            out["since"] = [self.named(t) for t in image]
        else:
            out["candidates"] = [self.named(t) for t in q[2]]
            out["since"] = out["candidates"]
        net = {t: was for t, was in self._touched.items() if (t in self.facts) != was and t[0] < WANT}
        out["so_far"] = [("+" if not was else "-", self.named(t)) for t, was in sorted(net.items())]
        out["misfit"] = len(item.answers) > self._taken
        out["taken"] = self._taken
        return out

    # ---- one item ----
    def ops(self, item):
        line, kind = item.line, item.line[0]
        if kind in ("insert", "delete", "replace"):
            facts = line[1] if kind != "replace" else () if len(line[1]) == 3 else (line[2],)
            news = []
            for t in facts:
                for i, v in enumerate(t[1]):
                    if v[0] == 3 and (v[1] == "" or v[1] not in news):
                        news.append(v[1])
            fresh = []
            for j, _ in enumerate(news):
                run = self.run_op(item, ("insert", (WANT, ((0, j + 1),))), self.hidden(WANT))
                fresh.append((2, run.seq, 1, 0))
            names = dict(zip([n for n in news if n], [f for n, f in zip(news, fresh) if n]))
            blanks = iter([f for n, f in zip(news, fresh) if not n])

            def full(t):
                return (t[0], tuple((next(blanks) if v[1] == "" else names[v[1]]) if v[0] == 3 else v for v in t[1]))
            subs = len(self._subs)
            plan = [("insert", full(t)) for t in facts] if kind != "delete" else [("delete", t) for t in facts]
            if kind == "replace" and len(line[1]) == 2:
                plan.append(("delete", line[1]))
            if kind == "replace" and len(line[1]) == 3:
                plan = [("replace", self.inner(line[1]), self.inner(line[2]))]
            else:
                plan = [(op, (t[0], tuple(v if len(v) == 4 else self.inner(v) for v in t[1]))) for op, t in plan]
            for op in plan:
                if op[0] != "replace":
                    t = (op[1][0], tuple(self.follow(v, subs) for v in op[1][1]))
                    if op[0] == "delete" and t not in self.facts:
                        continue
                    op = (op[0], t)
                self.run_op(item, op)
            for j, f in enumerate(fresh):
                self.run_op(item, ("delete", (UNKNOWN, ((0, j + 1), self.follow(f, subs)))), self.hidden(WANT))
        elif kind == "fix":
            if line[1] in self.gone:
                raise Stop("gone", mapping=line[1])
            rel = self.fix_relation(line[1])
            hidden = self.hidden(rel, line[1])
            key = tuple(self.inner(v) for v in line[2])
            m = self.mappings[line[1]]
            found = next(matches(m.left, self.facts, dict(zip(self.frontier(m), key))), None)
            self._image = found[0] if found else ()
            key = key or ((0, 0),)
            self.run_op(item, ("insert", (rel, key)), hidden)
            now = self.facts.relation(rel)[0]
            self.run_op(item, ("delete", now), hidden)
        elif kind == "force":
            name = line[1]
            if name in self.gone:
                raise Stop("gone", mapping=name)
            if name not in self.force:
                bad = self.violations(name)
                if bad:
                    raise Stop("violated", mapping=name, count=len(bad))
                self.seq += 1
                run = Run()
                run.op, run.choices, run.seq, run.steps, run.changes = ("mapping", name), [], self.seq, [], []
                run.drawn, run.work, run.force = 0, 2, name
                self._runs.append(run)
                self.force.append(name)
        elif kind == "drop":
            if line[1] in self.gone:
                raise Stop("gone", mapping=line[1])
            self.gone.add(line[1])
            if line[1] in self.force:
                self.force.remove(line[1])
        else:
            raise AssertionError(kind)

    def follow(self, v, since):
        for sub in self._subs[since:]:
            v = sub.get(v, v)
        return v

    def run(self, item, peek=False):
        """Runs the item over what stands. Returns None if it is done, otherwise its Stop; then nothing has changed."""
        self._undo, self._runs, self._touched, self._drawn, self._taken, self._subs, self._work = [], [], {}, 0, 0, [], 0
        self._image, self._places, self._used = (), dict(item.places), set()
        seq, force, gone = self.seq, list(self.force), set(self.gone)
        stop = None
        try:
            self.ops(item)
        except Stop as s:
            stop = s
            stop.taken = self._taken
        if not peek:
            item.places = self._places
        if stop is None and not peek:
            item.runs, item.drawn, item.work, item.image = self._runs, self._drawn, self._work, self._image
            for sub in self._subs:
                for n, v in sub.items():
                    if n != v:
                        self.became[self.name_of[n[1:3]]] = (v, item.number)
            item.answers = item.answers[:self._taken]
            item.writes = [(ins, self.named(t)) for r in self._runs for ins, t in r.changes if t[0] < WANT]
            self.subs += [(item.number, s) for s in self._subs]
            for t, was in self._touched.items():
                self.touched.setdefault(t, was)
            return None
        for ins, t in self._undo:
            self.facts.insert(t) if ins else self.facts.remove(t)
        for s in range(seq + 1, self.seq + 1):
            for k in range(1, self._drawn + 2):
                n = self.name_of.pop((s, k), None)
                if n is not None and self.null_of.get(n) == (s, k):
                    del self.null_of[n]
        self.seq, self.force, self.gone = seq, force, gone
        return stop

    def begin(self):
        """Begins a command: the tuples that it touches and the unknowns that it fills are counted from here."""
        self.touched, self.subs, self.mark = {}, [], self.seq

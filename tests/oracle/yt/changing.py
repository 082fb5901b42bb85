"""The changes: relation, mapping, insert, delete, replace."""
import re

from . import text as T
from .chase import images as specific_by
from .clock import now
from .items import Stop
from .logging import STEPS, item_line
from .replies import DONE, MANY, NOTHING, SPENT, TUPLES, WAITS, note_object, plural


class Changing:
    """Does the plain changes."""

    def do_relation(self, cmd):
        s = self.space
        names = s.schema.names()
        redo = False
        if cmd[1] in names:
            r = names.index(cmd[1])
            if s.schema.relations[r] == (cmd[1], cmd[2]):
                return self.change(cmd, "there already", NOTHING, effect=([], [], [], 0))
            speak = [c for c, _ in s.schema.relations[r][1]] != [c for c, _ in cmd[2]] and (s.facts.relation(r) or [t for t in s.base if t[0] == r] or any(
                r in relations_of(i.line) for i in s.items.values()) or any(
                a[0] == r for m in s.mappings.values() for a in m.left + m.right))
            if speak:
                raise T.Fault("there is a relation %s" % s.schema.form(r), None,
                              "its columns can change only while no tuple, update or mapping speaks of it", 3)
            redo = True
        elif cmd[1].lower() in [n.lower() for n in names]:
            raise T.Fault("there is a relation %s; names differ by more than capitals" % next(
                n for n in names if n.lower() == cmd[1].lower()), None, None, 3)
        elif len(names) >= 100:
            raise T.Fault("there are 100 relations, which is the limit", None, None, 3)
        s.do_plain(cmd)
        self.accept([self.line(cmd)], now(), set())
        return self.related(cmd, not redo)

    def related(self, cmd, new):
        s = self.space
        name, cols = cmd[1], [c for c, _ in cmd[2]]
        return self.change(cmd, "done", DONE, effect=([], [], [], 0),
                           next=["insert %s(%s)" % (name, ", ".join('"%s"' % c for c in cols)), "load %s FILE.csv" % name])

    def do_mapping(self, cmd):
        s = self.space
        m = s.make_mapping(cmd)
        old = s.mappings.get(m.name)
        if old and old.key() == m.key() and m.name not in s.gone:
            return self.change(cmd, "there already", NOTHING, effect=([], [], [], 0))
        s.check_mapping(m)
        time = now()
        self.begin()
        s.do_plain(cmd)
        notes = self.lints(m)
        bad = s.violations(m.name)
        if bad:
            self.accept([self.line(cmd)], time)
            return self.change(cmd, "proposed", DONE, notes=notes, effect=([], [], [], 0),
                               extra=["it has %s, so it is not in force" % plural(len(bad), "violation")] +
                               self.violation_lines(m.name, bad[:3]),
                               next=["violations " + m.name, "try adopt " + m.name, "adopt " + m.name])
        n = self.next_number()
        line = ("force", m.name)
        item, _ = s.do_item(n, self.ws.who, time, line, STEPS)
        self.accept([self.line(cmd), item_line(s.schema, item)], time)
        return self.change(cmd, "in force", DONE, n, notes=notes)

    def lints(self, m):
        s, notes = self.space, []
        uses = {}
        for side, atoms in (("left", m.left), ("right", m.right)):
            for r, ts in atoms:
                for col, (k, v) in enumerate(ts):
                    if k == "v":
                        uses.setdefault(v, []).append((side, r, col))
        for v, where in uses.items():
            name = m.names[v]
            if len(where) == 1:
                _, r, col = where[0]
                if s.facts.scan(r, col, (1, name.encode())):
                    notes.append('the variable %s of %s stands for any value; for the text write "%s"' % (
                        name, s.schema.relations[r][0], name))
        known = set(range(m.universal))
        linked = {i for i, (_, ts) in enumerate(m.right) if any(k == "v" and v in known for k, v in ts)
                  or all(k == "c" for k, v in ts)}
        while True:
            reach = {v for i in linked for k, v in m.right[i][1] if k == "v"}
            more = {i for i, (_, ts) in enumerate(m.right) if i not in linked and any(k == "v" and v in reach for k, v in ts)}
            if not more:
                break
            linked |= more
        for i, (r, ts) in enumerate(m.right):
            if i not in linked:
                notes.append("%s shares no variable with the left side: any tuple of %s will do" % (
                    T.show_atoms(s.schema, [(r, tuple(("v", m.names[v]) if k == "v" else (k, v) for k, v in ts))]),
                    s.schema.relations[r][0]))
        return notes

    def violation_lines(self, name, bad):
        s = self.space
        return ["%s lacks %s" % (", ".join(self.fact(s.named(t)) for t in image),
                                 ", ".join(self.fact(t) for t in s.lacking(name, key))) for key, image in bad]

    def run_item(self, line, steps, time):
        """Does one numbered line: (item, stop); refuses an item that is spent or lost."""
        s = self.space
        item, stop = s.do_item(self.next_number(), self.ws.who, time, line, steps)
        if stop is not None and stop.why == "lost":
            raise self.lost(stop.name)
        if stop is not None and stop.why == "spent":
            raise self.spent(stop, steps)
        return item, stop

    def spent(self, stop, steps):
        counts = {}
        for r in stop.runs:
            for _, puts, _ in r.steps:
                for h in puts.values():
                    if h[0] == "generated":
                        counts[h[1]] = counts.get(h[1], 0) + 1
        words = ", ".join("%s made %s" % (m.replace("_fix_", ""), plural(n, "tuple")) for m, n in sorted(counts.items()))
        return T.Fault("spent: %d steps did not suffice; nothing was changed" % steps, None,
                       (words + "; " if words else "") + "more steps: --steps N, or ask whether the mappings go round for ever",
                       SPENT)

    def single(self, cmd, opts, notes_for=()):
        time = now()
        self.begin()
        s = self.space
        line = cmd[:-1] + ({},)
        item, stop = self.run_item(line, opts.get("steps", STEPS), time)
        if stop is not None:
            if "only" in opts:
                raise T.Fault("it would ask: %s" % self.question_lines(stop.question)[0], None, "without --only it asks", 3)
            self.accept([item_line(s.schema, item)], time)
            self.show_question(stop.question)
            return self.change(line, "waits", WAITS, item.number, question=stop.question, effect=([], [], [], 0),
                               notes=self.facts_notes(notes_for, False), next=self.question_next(stop.question))
        effect = s.effect()
        if "only" in opts:
            mine = set()
            for t in cmd[1] if cmd[0] in ("insert", "delete") else cmd[1:3]:
                mine.add(t)
            extra = [t for t in effect[1] if t not in mine]
            extra += [t for t in effect[0] if self.reasons().get(t)]
            if extra:
                raise T.Fault("more than what is named would change: %s" % plural(len(extra), "tuple"), None,
                              "try it, or leave --only", 3, [self.fact(t) for t in extra[:10]])
        if "cascade" not in opts and (cmd[0] == "delete" or cmd[0] == "replace" and len(cmd[1]) == 2):
            named = set(cmd[1]) if cmd[0] == "delete" else {cmd[1]}
            along = [t for t in effect[1] if t not in named]
            if along:
                by = self.reasons()
                rows = ["- %s%s" % (self.fact(t), "   by " + by[t] if by.get(t) else "") for t in along]
                raise T.Fault("%s would go along that you do not name" % plural(len(along), "tuple"), None,
                              "to let them go: --cascade", 3,
                              rows[:MANY] + [".. and %d more" % (len(rows) - MANY)] * (len(rows) > MANY))
        notes = self.facts_notes(notes_for, True)
        more = len(effect[1]) - (len(cmd[1]) if cmd[0] == "delete" else 0)
        next = []
        if cmd[0] == "delete" and more > 0:
            notes.append("%s went that you did not name" % plural(more, "tuple"))
            next = ["undo %d" % item.number]
        self.accept([item_line(s.schema, item)], time)
        return self.change(line, "done", DONE, item.number, notes=notes, effect=effect, next=next)

    def vague(self, r):
        """The tuples of a relation that have unknowns, by column and value; computed once for each command."""
        if r not in self.vagues:
            index = self.vagues[r] = {}
            for y in self.space.facts.relation(r):
                if any(w[0] == 2 for w in y[1]):
                    for c, w in enumerate(y[1]):
                        if w[0] != 2:
                            index.setdefault((c, w), []).append(y)
        return self.vagues[r]

    def kinds(self, r, c):
        """The numbers of numbers and of texts in each column; computed once for each command."""
        if (r, c) not in self.vagues:
            kinds = [y[1][c][0] for y in self.space.facts.relation(r)]
            self.vagues[(r, c)] = (kinds.count(0), kinds.count(1))
        return self.vagues[(r, c)]

    def facts_notes(self, facts, there):
        """Hints about inserted tuples: twins, keys, kinds of values."""
        s, notes = self.space, []
        for t in facts:
            if any(v[0] == 3 for v in t[1]):
                continue
            for i in sorted(s.waiting.values(), key=lambda i: i.number):
                if i.line[0] == "insert" and t in i.line[1] and i.number != s.last:
                    notes.append(("update %d of %s waits with %s too" % (i.number, i.curator, self.fact(t)),
                                  ["questions %d" % i.number]))
            try:
                x = s.inner_fact(t)
            except Stop:
                continue
            r, cols = t[0], s.schema.relations[t[0]][1]
            twins = set()
            index = self.vague(r)
            for c, v in enumerate(x[1]):
                if v[0] != 2:
                    twins |= {y for y in index.get((c, v), ()) if y != x and specific_by(y, x) is not None}
            for y in sorted(twins)[:3]:
                g = specific_by(y, x)
                fill = ["replace %s with %s" % (T.show_value(s.named_value(n)), T.show_value(s.named_value(v)))
                        for n, v in g.items() if n[0] == 2 and n != v]
                notes.append(("%s may be the same" % self.fact(s.named(y)), fill))
            keys = [i for i, (_, k) in enumerate(cols) if k]
            if keys:
                same = [y for y in s.facts.scan(r, keys[0], x[1][keys[0]])
                        if y != x and y not in twins and all(y[1][i] == x[1][i] for i in keys)]
                if same:
                    notes.append("the key %s is there already: %s" % (
                        ", ".join(cols[i][0] for i in keys), self.fact(s.named(same[0]))))
            for c, v in enumerate(x[1]):
                if v[0] == 1 and re.fullmatch(rb"-?[0-9]+", v[1]):
                    numbers, texts = self.kinds(r, c)
                    if numbers and texts == (x in s.facts):
                        notes.append("%s.%s has numbers so far, and %s is a text" % (
                            s.schema.relations[r][0], cols[c][0], T.show_value(v)))
        return notes

    def do_insert(self, cmd):
        s = self.space
        self.check_nulls(v for t in cmd[1] for v in t[1])
        if len(s.facts) >= TUPLES:
            raise T.Fault("there are %d tuples, which is the limit" % TUPLES, None, None, 3)
        if all(v[0] != 3 for t in cmd[1] for v in t[1]) and all(s.inner_fact(t) in s.facts for t in cmd[1]):
            return self.change(cmd, "there already", NOTHING, effect=([], [], [], 0))
        return self.single(cmd, cmd[-1], cmd[1])

    def nearest(self, t):
        """Tuples of the relation that share most values, at most three."""
        s = self.space
        best = {}
        for c, v in enumerate(t[1]):
            try:
                found = s.facts.scan(t[0], c, s.inner(v))
            except Stop:
                continue
            for y in found[:200]:
                best[y] = best.get(y, 0) + 1
        rows = sorted(best, key=lambda y: (-best[y], y))[:3]
        if not rows:
            rows = [y for y in s.facts.relation(t[0])
                    if T.near(T.show_value(s.named_value(y[1][0])), [T.show_value(t[1][0])])][:3]
        return [self.fact(s.named(y)) for y in rows]

    def do_delete(self, cmd):
        s = self.space
        if any(v[0] == 4 for t in cmd[1] for v in t[1]):
            full = tuple(dict.fromkeys(x for t in cmd[1] for x in self.matching(t)))
            if not full:
                return self.change(cmd, "not there", NOTHING, effect=([], [], [], 0))
            cmd = (cmd[0], full, cmd[2])
        self.check_nulls(v for t in cmd[1] for v in t[1])
        absent = [t for t in cmd[1] if s.inner_fact(t) not in s.facts]
        if len(absent) == len(cmd[1]):
            near = self.nearest(absent[0])
            return self.change(cmd, "not there", NOTHING, effect=([], [], [], 0), extra=["there is " + x for x in near])
        reply = self.single(cmd, cmd[-1])
        if absent:
            reply.lines.append("note: %s was not there" % ", ".join(map(self.fact, absent)))
            reply.obj.setdefault("notes", []).append(note_object("%s was not there" % ", ".join(map(self.fact, absent))))
        return reply

    def do_replace(self, cmd):
        s = self.space
        if len(cmd[1]) == 3:
            self.check_nulls(cmd[1:3])
            if cmd[1] == cmd[2]:
                return self.change(cmd, "nothing to do", NOTHING, effect=([], [], [], 0))
            return self.single(cmd, cmd[-1])
        old = self.one(cmd[1])
        if old[0] != cmd[2][0] and any(v[0] == 4 for v in cmd[2][1]):
            raise T.Fault("_ keeps a value of the same relation", None, None, 3)
        cmd = (cmd[0], old, (cmd[2][0], tuple(old[1][i] if v[0] == 4 else v for i, v in enumerate(cmd[2][1]))), cmd[3])
        self.check_nulls(v for t in cmd[1:3] for v in t[1])
        if s.inner_fact(cmd[1]) not in s.facts:
            raise T.Fault("%s is not there" % self.fact(cmd[1]), None,
                          "; ".join("there is " + x for x in self.nearest(cmd[1])) or None, 3)
        if cmd[1] == cmd[2]:
            return self.change(cmd, "nothing to do", NOTHING, effect=([], [], [], 0))
        return self.single(cmd, cmd[-1], cmd[2:3])


def relations_of(line):
    out = set()
    if line[0] in ("insert", "delete"):
        out |= {t[0] for t in line[1]}
    elif line[0] == "replace" and len(line[1]) == 2:
        out |= {line[1][0], line[2][0]}
    return out

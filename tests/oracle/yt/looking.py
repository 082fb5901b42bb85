"""Looking: show, ask, violations, questions, status."""
import os

from . import text as T
from .changing import relations_of
from .chase import matches
from .replies import DONE, VIOLATED, Reply, plural
from .text import span


class Looking:
    """Prints what stands."""

    def json_value(self, v):
        if v[0] == 2:
            return {"unknown": T.show_value(v)}
        return v[1] if v[0] == 0 else v[1].decode()

    def do_show(self, cmd):
        s, opts = self.space, cmd[-1]
        what = cmd[1] or [(r, None) for r in range(len(s.schema.relations))]
        lines, objs = [], []
        for r, terms in what:
            name, cols = s.schema.relations[r]
            rows = []
            if terms is None:
                rows = [s.named(t) for t in s.facts.relation(r)]
            else:
                numbers = {}
                a = (r, tuple(("v", numbers.setdefault((v, i if v == "_" else -1), len(numbers))) if k == "v" else (k, v)
                              for i, (k, v) in enumerate(terms)))
                rows = [s.named(image[0]) for image, _ in matches((a,), s.facts, {})]
            if "unknowns" in opts:
                rows = [t for t in rows if any(v[0] == 2 for v in t[1])]
                if not rows:
                    continue
            if "like" in opts:
                like = opts["like"].lower()
                rows = [t for t in rows if any(like in T.cell(v).lower() for v in t[1])]
                if not rows and not cmd[1]:
                    continue
            first = opts.get("from", 1)
            shown = rows[first - 1:first - 1 + opts["limit"]] if "limit" in opts else rows[first - 1:]
            if lines:
                lines.append("")
            lines.append("%s: %s%s" % (name, plural(len(rows), "row") if rows else "no rows",
                                       ", from %d" % first if first > 1 else ""))
            lines += T.table([c + ("*" if k else "") for c, k in cols], [t[1] for t in shown])
            if first - 1 + len(shown) < len(rows):
                lines.append(".. and %d more" % (len(rows) - (first - 1 + len(shown))))
            waits = sorted(i.number for i in s.waiting.values() if r in relations_of(i.line))
            if waits and terms is None:
                lines.append("waiting: %s" % span(waits))
            objs.append({"waiting": waits, "reply": "table", "relation": name, "columns": [c for c, _ in cols], "count": len(rows),
                         "rows": [[self.json_value(v) for v in t[1]] for t in shown]})
            if "from" in opts:
                objs[-1]["from"] = first
        if not objs:
            return Reply(DONE, ["no rows" if s.schema.relations else "no relations"], {"reply": "table", "rows": []})
        return Reply(DONE, lines, objs[0], objs[1:])

    def do_ask(self, cmd):
        s, opts = self.space, cmd[-1]
        head, raw = cmd[1]
        numbers, atoms, blank = {}, [], 0
        for r, ts in raw:
            row = []
            for k, v in ts:
                if k == "v":
                    if v == "_":
                        blank += 1
                        v = "_%d" % blank
                    row.append(("v", numbers.setdefault(v, len(numbers))))
                else:
                    row.append((k, v))
            atoms.append((r, tuple(row)))
        cols = [numbers[h] for h in head]
        every = sorted({tuple(b[v] for v in cols) for _, b in matches(tuple(atoms), s.facts, {})})
        sure = [r for r in every if all(v[0] != 2 for v in r)]
        rows = every if "unknowns" in opts else sure
        shown = [tuple(s.named_value(v) for v in r) for r in (rows[:opts["limit"]] if "limit" in opts else rows)]
        lines = [plural(len(rows), "answer") if rows else "no answers"] + (T.table(head, shown) if rows else [])
        if len(shown) < len(rows):
            lines.append(".. and %d more" % (len(rows) - len(shown)))
        if len(every) > len(rows):
            lines.append("%s with unknowns: ask --unknowns" % plural(len(every) - len(rows), "more row") if False else
                         "and %s with unknowns in %s: --unknowns" % (plural(len(every) - len(rows), "row"),
                                                                     "it" if len(every) - len(rows) == 1 else "them"))
        return Reply(DONE, lines, {"reply": "answers", "columns": list(head), "count": len(rows),
                                   "uncertain": len(every) - len(sure),
                                   "rows": [[self.json_value(v) for v in r] for r in shown]})

    def do_questions(self, cmd):
        s, opts = self.space, cmd[-1]
        want = s.waiting.values() if cmd[1] is None else [self.item(cmd[1])]
        if "mine" in opts:
            want = [i for i in want if i.curator == self.ws.who]
        lines, objs = [], []
        for item in sorted(want, key=lambda i: i.number):
            if item.state != "waits":
                raise T.Fault("update %d waits for no answer: it is %s" % (
                    item.number, "done" if item.state == "stands" else item.state), None, None, 3)
            stop = s.run(item, peek=True)
            if lines:
                lines.append("")
            lines.append("%d %s: %s" % (item.number, item.curator, self.line(item.line)))
            o = {"reply": "question", "number": item.number, "curator": item.curator, "line": self.line(item.line),
                 "at": s.at, "time": item.time}
            if stop is not None and stop.why == "question":
                q = stop.question
                self.show_question(q)
                limit = opts.get("limit", 10 if cmd[1] is None else 50)
                lines += ["  " + x for x in self.question_lines(q, False, opts.get("like"), limit)]
                if q["misfit"]:
                    lines.append("  an answer that it had does not fit any more")
                o.update(self.question_object(q, opts.get("like"), limit))
            else:
                lines.append("  %s" % self.why_waits(stop))
                o["kind"] = "none" if stop is None else stop.why
                o["words"] = self.why_waits(stop)
            objs.append(o)
        if not objs:
            return Reply(DONE, ["no questions"], {"reply": "question", "kind": "nothing", "at": s.at})
        if len(objs) > 1 or cmd[1] is not None:
            pass
        return Reply(DONE, lines, objs[0], objs[1:])

    def key_clashes(self, r):
        s = self.space
        keys = [i for i, (_, k) in enumerate(s.schema.relations[r][1]) if k]
        groups = {}
        for t in s.facts.relation(r):
            key = tuple(t[1][i] for i in keys)
            if all(v[0] != 2 for v in key):
                groups.setdefault(key, []).append(t)
        return [g for g in groups.values() if len(g) > 1] if keys else []

    def do_violations(self, cmd):
        s, opts = self.space, cmd[-1]
        names = [cmd[1]] if cmd[1] else s.standing_mappings()
        lines, objs, total = [], [], 0
        for m in names:
            bad = [] if m in s.force else s.violations(m)
            total += len(bad)
            limit = opts.get("limit", 3 if cmd[1] is None else 1000000)
            lines.append("%s: %s, %s" % (m, "in force" if m in s.force else "proposed", plural(len(bad), "violation") if bad
                                         else "no violations"))
            rows = self.violation_lines(m, bad[:limit])
            lines += ["  " + x for x in rows]
            if len(bad) > limit:
                lines.append("  .. and %d more: violations %s" % (len(bad) - limit, m))
            objs.append({"reply": "violations", "mapping": m, "rule": s.show_mapping(s.mappings[m]),
                         "in_force": m in s.force, "count": len(bad),
                         "violations": [{"since": [self.fact(s.named(t)) for t in image],
                                         "lacks": [self.fact(t) for t in s.lacking(m, key)]} for key, image in bad[:limit]]})
        if cmd[1] is None:
            for r, (name, cols) in enumerate(s.schema.relations):
                groups = self.key_clashes(r)
                if groups:
                    total += len(groups)
                    lines.append("key of %s: %s" % (s.schema.form(r), plural(len(groups), "clash").replace("clashs", "clashes")))
                    limit = opts.get("limit", 3)
                    for g in groups[:limit]:
                        lines.append("  " + ", ".join(self.fact(s.named(t)) for t in g))
                    if len(groups) > limit:
                        lines.append("  .. and %d more" % (len(groups) - limit))
                    objs.append({"reply": "violations", "key": s.schema.form(r), "count": len(groups),
                                 "violations": [{"since": [self.fact(s.named(t)) for t in g]} for g in groups]})
        if not objs:
            return Reply(DONE, ["no mappings"], {"reply": "violations", "count": 0})
        return Reply(VIOLATED if total else DONE, lines, objs[0], objs[1:])

    def do_status(self, cmd):
        s = self.space
        counts = [(name, len(s.facts.relation(r))) for r, (name, _) in enumerate(s.schema.relations)]
        unknowns = len({v for t in s.facts.all for v in t[1] if v[0] == 2})
        lines = ["%s: %s in %s, %s" % (T.escaped(os.path.basename(self.ws.path)), plural(sum(n for _, n in counts), "tuple"),
                                       plural(len(counts), "relation"), plural(unknowns, "unknown"))]
        lines += ["  %s %d" % (s.schema.form(r), counts[r][1]) for r in range(len(counts))]
        lines += ["in force: " + s.show_mapping(s.mappings[m]) for m in s.force]
        props = []
        for m in s.proposed():
            n = len(s.violations(m))
            props.append((m, n))
            lines.append("proposed: %s  (%s)" % (s.show_mapping(s.mappings[m]),
                                                 plural(n, "violation") if n else "no violations: adopt %s" % m))
        waits = []
        for n in sorted(s.waiting):
            item = s.waiting[n]
            waits.append({"number": n, "curator": item.curator, "line": self.line(item.line)})
            if len(waits) <= 10:
                lines.append("waits: %d %s: %s" % (n, item.curator, self.line(item.line)))
        if len(waits) > 10:
            lines.append("waits: and %d more" % (len(waits) - 10))
        lines.append("last update %d, at record %d; %s since %s" % (
            s.last, s.at, "1 stands" if len(s.order) == 1 else "%d stand" % len(s.order),
            "the fold at %d" % s.folded if s.folded else "the beginning"))
        if waits:
            lines.append("next: questions")
        elif any(n for _, n in props):
            lines.append("next: violations")
        rels = [{"name": name, "columns": [c for c, _ in cols], "key": [i for i, (_, k) in enumerate(cols, 1) if k],
                 "count": counts[r][1]} for r, (name, cols) in enumerate(s.schema.relations)]
        return Reply(DONE, lines, {"reply": "status", "file": os.path.basename(self.ws.path), "at": s.at, "last": s.last,
                                   "curator": self.ws.who, "created": s.created,
                                   "folded": s.folded, "stand": len(s.order), "unknowns": unknowns, "relations": rels,
                                   "in_force": list(s.force), "proposed": dict(props), "waits": waits})

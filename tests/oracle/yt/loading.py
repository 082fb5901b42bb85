"""Load: a file of comma-separated values becomes insertions."""
import re

from . import text as T
from .clock import now
from .files import FileFault
from .items import Stop
from .logging import STEPS, item_line
from .naming import WANT
from .replies import DONE, MANY, NOTHING, READ, TUPLES, WAITS, Reply, note_line, note_object, plural
from .text import span

ONE_CELL = 'the header is one cell; if semicolons or tabs separate the cells: --separator ";", or tab'


class Loading:
    """Loads rows."""

    def do_load(self, cmd):
        s, name, path, opts = self.space, cmd[1], cmd[2], cmd[3]
        sep = {"tab": "\t"}.get(opts.get("separator", ","), opts.get("separator", ","))
        if len(sep) != 1 or sep in '"\n\r':
            raise T.Fault("the separator is one character, or tab")
        if opts.get("empty", "refuse") not in ("refuse", "new", "text", "skip"):
            raise T.Fault("--empty is new (a new unknown), text (the empty text), skip (the row) or refuse")
        said = "--lines %d" % opts["lines"] if path is None else T.escaped(path)
        if path in (None, "-"):
            path = "standard input"
            if self.ws.data is None:
                raise T.Fault("standard input has the commands", None, "load %s --lines N" % name)
            data, count = self.ws.data
            if count < opts.get("lines", 0):
                raise T.Fault("standard input ended after %d of %s" % (count, plural(opts["lines"], "line")))
        else:
            try:
                with open(path, "rb") as f:
                    data = f.read()
            except OSError as e:
                raise FileFault(READ, "cannot read %s: %s" % (self.ws.say(path), (e.strerror or "fault").lower()))
            path = self.ws.say(path)
        try:
            text = data.decode()
        except UnicodeDecodeError as e:
            raise T.Fault("%s is not UTF-8, at byte %d, line %d" % (path, e.start, 1 + data.count(b"\n", 0, e.start)), None,
                          "convert it: iconv -f latin1 -t utf8", 3)
        rows, faults = T.read_csv(text, sep)
        if not rows:
            raise T.Fault("%s has no header" % path, None, None, 3)
        header = [h.strip() for h in rows[0][1]]
        time = now()
        lines = []
        chosen = opts["columns"].split(",") if "columns" in opts else None
        if chosen:
            for c in chosen:
                if c not in header:
                    raise T.Fault("%s has no column %s" % (path, c), None, T.mean(c, header) or "it has " + ", ".join(header), 3)
        if name not in s.schema.names():
            cols = [re.sub(r"[^A-Za-z0-9_]", "_", h) or "c" for h in chosen or header]
            cols = [c if re.match(r"[A-Za-z]", c) else "c" + c for c in cols]
            make = "relation %s(%s)" % (name, ", ".join(cols))
            if "create" not in opts:
                raise T.Fault("there is no relation %s" % name, None,
                              (T.mean(name, s.schema.names()) or "make it: " + make + ", or load it with --create"), 3)
            made = self.declaration(make)
            if name.lower() in [n.lower() for n in s.schema.names()]:
                raise T.Fault("there is no relation %s" % name, None, T.mean(name, s.schema.names()), 3)
            s.do_plain(made)
            lines.append(self.line(made))
            if not chosen:
                header = cols
        r = s.schema.find(name)
        cols = [c for c, _ in s.schema.relations[r][1]]
        nulls = {""} | set(opts.get("null", "").split(",") if "null" in opts else [])
        texts = [x for x in opts.get("text", "").split(",") if x]
        for x in texts:
            if x not in cols:
                raise T.Fault("%s has no column %s" % (name, x), None, T.mean(x, cols), 3)
        if chosen and len(chosen) != len(cols):
            raise T.Fault("%s has %s, --columns names %d" % (name, plural(len(cols), "column"), len(chosen)), None,
                          "it is " + s.schema.form(r), 3)
        bad = [] if chosen else [h for h in header if h not in cols]
        if not chosen and (bad or sorted(header) != sorted(cols)):
            words = []
            for h in bad:
                words.append("line %d: there is no column %s%s" % (rows[0][0], T.quoted(h.encode()),
                             "; " + T.mean(h, cols) if T.mean(h, cols) else ""))
            missing = [c for c in cols if c not in header]
            if missing:
                words.append("line %d: column%s %s missing" % (rows[0][0], "" if len(missing) == 1 else "s",
                             ", ".join(missing) + (" is" if len(missing) == 1 else " are")))
            if len(set(header)) < len(header):
                words.append("line %d: a column stands twice" % rows[0][0])
            raise T.Fault("%s does not fit %s" % (path, s.schema.form(r)), None, "its first line names the columns", 3, words)
        place = [header.index(c) for c in chosen or cols]
        faults = [(line, words) for line, words in faults]
        plan, skipped = [], 0
        for i, (line, row) in enumerate(rows[1:], 1):
            if len(row) != len(header):
                faults.append((line, "row %d has %s, the header has %d" % (i, plural(len(row), "cell"), len(header))))
                continue
            if opts.get("empty") == "skip" and any(row[p] in nulls for p in place):
                skipped += 1
                continue
            vs = []
            for c, p in zip(cols, place):
                x = row[p]
                x = "" if x in nulls else x
                if x == "" and opts.get("empty", "refuse") == "new":
                    vs.append((3, ""))
                elif x == "" and opts.get("empty", "refuse") == "refuse":
                    faults.append((line, "row %d: %s is empty; --empty new makes it a new unknown" % (i, c)))
                elif "\0" in x:
                    faults.append((line, "row %d: %s has a zero byte" % (i, c)))
                elif len(x.encode()) > 256:
                    faults.append((line, "row %d: %s has %d bytes, a text 256 at most" % (i, c, len(x.encode()))))
                elif "unknowns" in opts and T.NULL.fullmatch(x):
                    v = (2,) + tuple(map(int, x[1:].split(".")))
                    if s.null_of.get(v[1:]) is None or not s.facts.occurs(*s.null_of[v[1:]]):
                        faults.append((line, "row %d: there is no unknown %s" % (i, x)))
                    vs.append(v)
                else:
                    vs.append(T.cell_value(x, c in texts))
            plan.append((line, i, (r, tuple(vs))))
        if faults:
            faults.sort(key=lambda f: f[0])
            raise T.Fault("%s has %s; nothing was loaded" % (path, plural(len(faults), "fault")), None,
                          ONE_CELL if len(header) == 1 else None, 3,
                          ["line %d: %s" % f for f in faults])
        if len(s.facts) + len(plan) > TUPLES:
            raise T.Fault("there would be more than %d tuples" % TUPLES, None, None, 3)
        self.begin()
        done, asks, spents, there = [], [], [], 0
        for line, i, t in plan:
            if all(v[0] != 3 for v in t[1]):
                try:
                    if s.inner_fact(t) in s.facts:
                        there += 1
                        continue
                except Stop as e:
                    raise T.Fault("line %d: row %d: unknown %s was filled by a row before" % (line, i, T.show_value(e.name)),
                                  None, None, 3)
            item, stop = s.do_item(self.next_number(), self.ws.who, time, ("insert", (t,), {}), opts.get("steps", STEPS))
            if stop is not None and stop.why == "spent":
                raise self.spent(stop, item.steps)
            lines.append(item_line(s.schema, item))
            if stop is None:
                done.append(item)
            else:
                asks.append(item)
        shown = ("load", name, said, {})
        effect = s.effect()
        named = {t for _, _, t in plan}
        if not lines:
            return self.plain(shown, "there already" if there else "nothing to do", NOTHING, "load %s %s" % (name, said), None,
                              ["%s: 0 inserted%s%s" % (plural(len(plan) + skipped, "row"), ", %d there already" % there if there
                               else "", ", %d skipped" % skipped if skipped else "")])
        notes = []
        twins = [x for item in done for x in self.facts_notes(item.line[1], True)]
        notes += twins[:3] + (["and %d more such hints" % (len(twins) - 3)] if len(twins) > 3 else [])
        mine = {s.named(t) for item in done for rr in item.runs if rr.op[0] == "insert" for t in [rr.op[1]] if t[0] < WANT}
        other = [t for t in effect[0] if t not in mine]
        extra = ["%s: %d inserted%s%s%s%s" % (plural(len(plan) + skipped, "row"), len(done),
                 ", by " + span([i.number for i in done]) if done else "",
                 ", %d there already" % there if there else "", ", %d skipped" % skipped if skipped else "",
                 ", %d wait: %s" % (len(asks), span([i.number for i in asks])) if asks else "")]
        counts = {}
        for t in other:
            counts[t[0]] = counts.get(t[0], 0) + 1
        if other:
            extra.append("the mappings added %s" % ", ".join("%d %s" % (n, s.schema.relations[k][0]) for k, n in sorted(counts.items())))
        self.accept(lines, time)
        for c, (col, _) in enumerate(s.schema.relations[r][1]):
            forms = {}
            for v in sorted({t[1][c] for t in s.facts.relation(r) if t[1][c][0] == 1}):
                forms.setdefault(" ".join(v[1].decode().casefold().split()), []).append(v)
            alike = [f for f in forms.values() if len(f) > 1]
            if alike:
                notes.append("%s.%s has spellings that are alike: %s%s" % (
                    name, col, "; ".join(" and ".join(map(T.show_value, f)) for f in alike[:3]),
                    "; .." if len(alike) > 3 else ""))
        for p in s.proposed():
            n = len(s.violations(p))
            if n:
                notes.append("mapping %s is proposed and has %s" % (p, plural(n, "violation")))
        return self.plain(shown, "waits" if asks else "done", WAITS if asks else DONE, "load %s %s" % (name, said), effect, extra,
                          notes, ["questions"] if asks else [], [i.number for i in done], [i.number for i in asks])

    def declaration(self, line):
        """The relation that a header declares. A fault of it has no place, because nobody gave this line."""
        try:
            return T.parse(line, self.space.schema, {})
        except T.Fault as f:
            f.at = None
            raise

    def plain(self, cmd, did, status, text, effect, extra, notes=(), next=(), numbers=(), waiting=()):
        lines = [("try " if self.trying else "") + "%s: %s" % (did, text)]
        if effect and cmd[0] == "answer":
            rows = ["+ " + self.fact(t) for t in effect[0]] + ["- " + self.fact(t) for t in effect[1]]
            lines += ["  " + x for x in rows[:MANY]] + (["  .. and %d more" % (len(rows) - MANY)] if len(rows) > MANY else [])
        lines += ["  " + x for x in extra]
        lines += ["note: " + note_line(n) for n in notes]
        if not self.trying:
            lines += ["next: " + " | ".join(next)] if next else []
        obj = {"reply": "try" if self.trying else "change", "did": did, "line": text, "at": self.space.at,
               "also": list(extra), "came": [], "went": [], "filled": []}
        if numbers or waiting:
            obj.update(numbers=list(numbers), waiting=list(waiting))
        if effect:
            obj["came"] = [{"tuple": self.fact(t)} for t in effect[0]]
            obj["went"] = [{"tuple": self.fact(t)} for t in effect[1]]
            obj["filled"] = [{"unknown": T.show_value(n), "value": T.show_value(v), "tuples": k} for n, v, k in effect[2]]
        if notes:
            obj["notes"] = [note_object(n) for n in notes]
        if next and not self.trying:
            obj["next"] = list(next)
        return Reply(status, lines, obj)

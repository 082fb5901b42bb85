"""The head of a file: written from the workspace as it stands, and read."""
from . import text as T
from .items import Item
from .logging import bare, head_rule, item_line, read_answer, read_item, answer_line
from .naming import WANT


class Heads:
    """Reads and writes the head, and replays the records after it."""

    def head_lines(self):
        """The state as the head of a new file: what stands becomes the base, what waits goes on waiting."""
        nulls = sorted({v for t in self.facts.all for v in t[1] if v[0] == 2})
        out = ["yt 1", "created " + self.created, "last %d at %d" % (self.last, self.at)]
        out += [T.show_line(self.schema, ("relation", n, c)) for n, c in self.schema.relations]
        out += ["mapping " + self.show_mapping(self.mappings[m]) for m in self.force]
        out += ["proposed " + self.show_mapping(self.mappings[m]) for m in self.proposed()]
        for v in nulls:
            out.append("unknown " + T.show_value(self.named_value(v)))
        out += ["base " + T.show_fact(self.schema, self.named(t)) for t in self.facts.list() if t[0] < WANT]
        for n in sorted(self.waiting):
            item = self.waiting[n]
            out.append("waits %s %s %s" % (item.time, item.curator, item_line(self.schema, item)))
            for (m, v, image), p in sorted(item.places.items(), key=lambda x: x[1]):
                if self.is_gone(m):
                    continue
                seen = image if image[0][0] < WANT else () if m != "_new" else image[0][1]
                out.append("drew %d %d %s %s%s" % (n, p, m, v, "" if not seen else " " + (
                    T.show_value(seen[0]) if m == "_new" else ", ".join(T.show_fact(self.schema, t) for t in seen))))
            out += [answer_line(self.schema, n, a, key) for a, key in item.answers if not key or not self.is_gone(key[0])]
        return out + ["end"]

    def is_gone(self, name):
        """Whether a question or an unknown came from a mapping that was dropped."""
        return name.removeprefix("_fix_") in self.gone

    def read_head(self, payload):
        lines = payload.decode().split("\n")
        if lines[0] != "yt 1":
            raise T.Fault("it is no workspace of yt", None, None, 12)
        self.base, self.base_force, self.base_names, self.base_gone = [], [], [], set()
        for line in lines[1:]:
            w, _, rest = line.partition(" ")
            if w == "created":
                self.created = rest
            elif w == "last":
                a, _, b = rest.split(" ")
                self.last, self.at = int(a), int(b)
                self.folded = self.last
            elif w == "relation":
                c = T.parse(line, self.schema, self.mappings)
                self.schema.relations.append((c[1], c[2]))
            elif w in ("mapping", "proposed"):
                c = T.Cursor(rest)
                m = self.make_mapping(head_rule(c, self.schema))
                self.mappings[m.name] = m
                if w == "mapping":
                    self.base_force.append(m.name)
            elif w == "unknown":
                a, b = rest[1:].split(".")
                self.base_names.append((int(a), int(b)))
                self.null_of[self.base_names[-1]] = (0, len(self.base_names))
            elif w == "base":
                t = T.fact(T.Cursor(rest), self.schema)
                self.base.append((t[0], tuple((2,) + self.null_of[v[1:]] + (0,) if v[0] == 2 else v for v in t[1])))
            elif w == "waits":
                time, curator, text = rest.split(" ", 2)
                number, steps, cmd = read_item(text, self.schema, self.mappings)
                if number > self.last or number in self.items:
                    raise ValueError("the number %d was not given, or is given twice" % number)
                item = Item(number, curator, time, bare(cmd), steps)
                item.first = True
                self.items[number] = self.waiting[number] = item
            elif w == "drew":
                c = T.Cursor(rest)
                n, p, m, v = c.number(), c.number(), c.name("a mapping"), c.name("a variable")
                item = self.waiting[n]
                if m == "_new":
                    image = ((WANT, (c.value(),)),)
                elif m.startswith("_fix_"):
                    image = ((WANT, item.line[2] or ((0, 0),)),)
                else:
                    image = tuple(c.listed(lambda: T.fact(c, self.schema)))
                item.places[(m, v, image)] = p
            elif w == "answer":
                n, choice, key, _ = read_answer(rest, self.schema)
                self.items[n].first_answers.append((choice, key))
        self.restart()
        self.begin()

    def replay(self, payload):
        """One record of the log."""
        lines = payload.decode().split("\n")
        time, curator = lines[0].split(" ")[:2]
        entry = {"at": self.at + 1, "time": time, "curator": curator, "lines": [], "tables": set()}
        self.begin()
        for text in lines[1:]:
            self.log_line(entry, text)
        entry["tables"] |= self.changed()
        self.at += 1
        self.records.append(entry)

    def changed(self):
        """The relations whose tuples have changed since `begin`, if no undo came between."""
        return {t[0] for t, was in self.touched.items() if (t in self.facts) != was and t[0] < WANT}

    def log_line(self, entry, text):
        if text[0].isdigit():
            number, steps, cmd = read_item(text, self.schema, self.mappings)
            if number <= self.last:
                raise ValueError("the number %d is given twice" % number)
            entry["lines"].append((number, cmd, cmd[-1].get("#", "") if isinstance(cmd[-1], dict) else ""))
            self.do_item(number, entry["curator"], entry["time"], bare(cmd), steps)
            return
        if text.startswith("answer "):
            n, choice, key, comment = read_answer(text[7:], self.schema)
            entry["lines"].append((None, ("answer", n, choice, {}), comment))
            self.answer(n, choice, key)
            return
        cmd = T.parse(text, self.schema, self.mappings)
        entry["lines"].append((None, cmd, cmd[-1].get("#", "")))
        before = set(self.visible()) if cmd[0] in ("undo", "redo") else ()
        self.do_plain(cmd)
        if cmd[0] in ("undo", "redo"):
            entry["tables"] |= {t[0] for t in before ^ set(self.visible())}
            self.begin()

    def do_plain(self, cmd):
        if cmd[0] == "relation":
            found = [i for i, r in enumerate(self.schema.relations) if r[0] == cmd[1]]
            if found:
                self.schema.relations[found[0]] = (cmd[1], cmd[2])
            else:
                self.schema.relations.append((cmd[1], cmd[2]))
        elif cmd[0] == "mapping":
            m = self.make_mapping(cmd)
            self.mappings[m.name] = m
        elif cmd[0] == "redo":
            self.redo(cmd[1])
        elif cmd[0] == "undo":
            (self.undo_answers if "answers" in cmd[2] else self.undo)(cmd[1])
        else:
            raise AssertionError(cmd)

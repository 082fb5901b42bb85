"""Undo, redo, the repair of all violations of a mapping, drop, fold and try."""
import os

from . import text as T
from .chase import extends, matches
from .clock import apart, now
from .files import fresh
from .items import Stop
from .logging import STEPS, item_line
from .replies import DONE, NOTHING, SPENT, WAITS, plural
from .text import span


class Undoing:
    """Changes of many updates at once."""

    def do_undo(self, cmd):
        s, opts = self.space, cmd[-1]
        take = sorted(n for n in set(cmd[1]) if n in s.items and n not in s.out)
        if not take:
            item = self.item(cmd[1][0])
            raise T.Fault("update %d is undone already" % item.number, None, "redo %d brings it back" % item.number, 3)
        if "answers" in opts:
            take = [n for n in take if s.items[n].answers]
            if not take:
                return self.change(("undo", cmd[1], opts), "no answers", NOTHING, effect=([], [], [], 0))
            return self.again(("undo", tuple(take), opts), s.undo_answers, [])
        rest = sorted(set(cmd[1]) - set(take))
        return self.again(("undo", tuple(take), opts), s.undo, ["not there, or undone already: %s" % span(rest)] if rest else [])

    def do_redo(self, cmd):
        s = self.space
        take = sorted(n for n in set(cmd[1]) if n in s.out)
        if not take:
            item = self.item(cmd[1][0])
            raise T.Fault("update %d is not undone" % item.number, None, None, 3)
        rest = sorted(set(cmd[1]) - set(take))
        return self.again(("redo", tuple(take), cmd[-1]), s.redo, ["not undone: %s" % span(rest)] if rest else [])

    def again(self, line, how, notes):
        """Does the lines again, and prints what is different."""
        s, time = self.space, now()
        before, force = s.visible(), list(s.force)
        changed = how(line[1])
        after = s.visible()
        old, new = set(before), set(after)
        self.accept([self.line(line)], time, {t[0] for t in old ^ new})
        extra = ["mapping %s is no longer in force" % m for m in force if m not in s.force]
        extra += ["mapping %s is in force again" % m for m in s.force if m not in force]
        self.seen = None
        mine = [s.items[n] for n in line[1] if s.items[n].state == "waits"]
        waits = mine or any(i.state == "waits" for i in changed)
        return self.change(line, "done", WAITS if waits else DONE, again=changed + mine, notes=notes, extra=extra,
                           effect=([t for t in after if t not in old], [t for t in before if t not in new], [], 0),
                           next=["questions"] if waits else [] if line[0] == "redo" or "answers" in line[2] else
                           ["redo " + span(line[1])])

    # ---- bulk ----
    def do_adopt(self, cmd):
        s, name, opts = self.space, cmd[1], cmd[-1]
        if name in s.force:
            return self.change(cmd, "in force already", NOTHING, effect=([], [], [], 0))
        time, steps = now(), opts.get("steps", STEPS)
        self.begin()
        lines, fixed, asks = [], [], []
        waiting = {i.line for i in s.waiting.values() if i.line[0] == "fix"}
        for _ in range(10):
            bad = [k for k, _ in s.violations(name) if ("fix", name, tuple(s.named_value(v) for v in k)) not in waiting]
            if not bad:
                break
            for key in [tuple(s.named_value(v) for v in k) for k in bad]:
                line = ("fix", name, key)
                if not self.still(name, key):
                    continue
                item, stop = self.run_item(line, steps, time)
                lines.append(item_line(s.schema, item))
                if stop is None:
                    fixed.append(item)
                else:
                    asks.append((item, stop))
                    waiting.add(line)
        else:
            raise T.Fault("spent: the repairs of %s violate it anew, ten times over; nothing was changed" % name, None,
                          "does it go round for ever?", SPENT)
        left = s.violations(name)
        number = None
        if not left:
            number = self.next_number()
            item, _ = s.do_item(number, self.ws.who, time, ("force", name), STEPS)
            lines.append(item_line(s.schema, item))
        if not lines:
            return self.change(cmd, "waits", WAITS, effect=([], [], [], 0),
                               extra=["%s, and each waits for its question" % plural(len(left), "violation")],
                               next=["questions"])
        effect = s.effect()
        self.accept(lines, time)
        first = fixed[0].number if fixed else None
        extra = []
        if fixed:
            extra.append("%s repaired by %s" % (plural(len(fixed), "violation"), span([i.number for i in fixed])))
        if asks:
            extra.append("%s: %s" % (plural(len(asks), "question"), span([i.number for i, _ in asks])))
        if number:
            extra.append("%s is in force from %d on" % (name, number))
            reply = self.change(cmd, "done", DONE, number, extra=extra, effect=effect)
            reply.obj.update(numbers=[i.number for i in fixed], waiting=[])
            return reply
        extra.append("%s is not in force yet: %s left" % (name, plural(len(left), "violation")))
        reply = self.change(cmd, "waits", WAITS, extra=extra, effect=effect, next=["questions", "adopt " + name])
        reply.obj.update(numbers=[i.number for i in fixed], waiting=[i.number for i, _ in asks])
        return reply

    def still(self, name, key):
        s = self.space
        m = s.mappings[name]
        try:
            b = dict(zip(s.frontier(m), [s.inner(v) for v in key]))
        except Stop:
            return False
        found = next(matches(m.left, s.facts, b), None)
        return found is not None and not extends(m.right, s.facts, {v: x for v, x in found[1].items()})

    def do_drop(self, cmd):
        s = self.space
        time = now()
        self.begin()
        inforce = cmd[1] in s.force
        item, _ = s.do_item(self.next_number(), self.ws.who, time, cmd[:-1] + ({},), STEPS)
        self.accept([item_line(s.schema, item)], time)
        return self.change(cmd, "done", DONE, item.number, effect=([], [], [], 0),
                           notes=["its tuples stay"] if inforce else [])

    def do_fold(self, cmd):
        s = self.space
        if not s.order and not s.records:
            return self.plain(cmd, "nothing to fold", NOTHING, "fold", None, [])
        n = len(s.order)
        head = "\n".join(s.head_lines()).encode()
        fresh(self.ws.path, [head], True, self.ws.name)
        self.ws.space = None
        os.close(self.ws.journal.fd)
        self.ws.journal.fd = None
        self.ws.payloads = []
        extra = ["%s now the base; %s; what they did can no longer be undone" % (
            "1 update is" if n == 1 else "%d updates are" % n, "1 waits" if len(s.waiting) == 1 else "%d wait" % len(s.waiting))]
        return self.plain(cmd, "done", DONE, "fold", None, extra)

    def do_try(self, cmd):
        return apart(lambda: type(self)(self.ws, self.space, True).do(cmd[1]))

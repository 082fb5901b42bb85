"""Answers to questions."""
from . import text as T
from .clock import now
from .logging import answer_line
from .replies import DONE, NOTHING, WAITS, plural
from .space import Space
from .text import span


class Answering:
    """Takes answers, one or several."""

    def show_question(self, q):
        if not self.trying:
            self.ws.shown[q["number"]] = (q.get("wanted"), q["candidates"])

    def item(self, n):
        s = self.space
        if n in s.items:
            return s.items[n]
        if n <= s.folded:
            raise T.Fault("update %d is from before the last fold" % n, None, "what was folded stays", 3)
        raise T.Fault("there is no update %d" % n, None, "the last is %d" % s.last, 3)

    def do_answers(self, cmd):
        """Several updates take the same answer, new or go, one after the other."""
        s, time = self.space, now()
        take = [n for n in cmd[1] if n in s.waiting]
        if not take:
            item = self.item(cmd[1][0])
            raise T.Fault("none of these updates waits", None, None, 3)
        self.begin()
        lines, done, asks = [], [], []
        for n in take:
            stop = s.run(s.waiting[n], peek=True)
            q = stop.question if stop is not None and stop.why == "question" else None
            go = cmd[2][0] == "go"
            if go and stop is not None or not go and (q is None or q["kind"] != "positive"):
                continue
            key = None if go else q["key"]
            item, stop = s.answer(n, cmd[2], key)
            if stop is not None and stop.why == "spent":
                raise self.spent(stop, item.steps)
            lines.append(answer_line(s.schema, n, cmd[2], key))
            while not go and stop is not None and stop.why == "question" and stop.question["kind"] == "positive":
                key = stop.question["key"]
                item, stop = s.answer(n, cmd[2], key)
                if stop is not None and stop.why == "spent":
                    raise self.spent(stop, item.steps)
                lines.append(answer_line(s.schema, n, cmd[2], key))
            (done if stop is None else asks).append(n)
        if not lines:
            return self.plain(cmd, "nothing changed", NOTHING, "answer %s %s" % (span(take), cmd[2][0]), None,
                              ["none of them takes this answer"])
        self.accept(lines, time)
        left = sorted(n for n in take if n in s.waiting)
        extra = (["done: " + span(done)] if done else []) + (["wait: " + span(left)] if left else [])
        return self.plain(cmd, "waits" if left else "done", WAITS if left else DONE,
                          "answer %s %s" % (span([n for n in take]), cmd[2][0]), s.effect(), extra,
                          next=["questions"] if left else [], numbers=done, waiting=left)

    def do_answer(self, cmd):
        s, n, choice, opts = self.space, cmd[1], cmd[2], cmd[3]
        if isinstance(n, tuple):
            return self.do_answers(cmd)
        item = self.item(n)
        if item.state != "waits":
            raise T.Fault("update %d waits for no answer: it is %s" % (
                n, "done" if item.state == "stands" else item.state), None,
                "undo %d --answers makes it ask again" % n if item.state == "stands" and item.answers else None, 3)
        stop = s.run(item, peek=True)
        q = stop.question if stop is not None and stop.why == "question" else None
        if q is None and choice[0] != "go":
            raise T.Fault("update %d asks nothing now: %s" % (n, self.why_waits(stop)), None, "answer %d go" % n, 3)
        if "at" in opts and q is not None:
            self.same_since(n, q, opts["at"])
        elif q is not None and choice[0] == "pick" and n in self.ws.shown and self.ws.shown[n] != (q.get("wanted"), q["candidates"]):
            self.show_question(q)
            raise T.Fault("the candidates of %d have changed since they were shown" % n, None, "look again: questions %d" % n,
                          3, self.question_lines(q))
        if q is not None:
            choice = self.choose(q, choice)
        time = now()
        self.begin()
        line = ("answer", n, choice, {})
        key = None if choice[0] == "go" else q["key"]
        if choice[0] == "go" and q is not None:
            self.show_question(q)
            return self.change(line, "asks", NOTHING, n, question=q, effect=([], [], [], 0), next=self.question_next(q))
        item, stop2 = s.answer(n, choice, key)
        if stop2 is not None and stop2.why == "spent":
            raise self.spent(stop2, item.steps)
        if stop2 is not None and stop2.why != "question":
            raise T.Fault("update %d cannot go on: %s" % (n, self.why_waits(stop2)), None, "undo %d" % n, 3)
        self.accept([answer_line(s.schema, n, choice, key)], time)
        if not self.trying:
            self.ws.shown.pop(n, None)
        if stop2 is not None:
            self.show_question(stop2.question)
            return self.change(line, "waits", WAITS, n, question=stop2.question, effect=([], [], [], 0),
                               next=self.question_next(stop2.question))
        next, extra = [], []
        if item.line[0] == "fix":
            name = item.line[1]
            rest = len(s.violations(name))
            extra = ["%s of %s left" % (plural(rest, "violation"), name) if rest else "%s has no violation now" % name]
            next = ["questions"] if rest else ["adopt " + name]
        return self.change(line, "done", DONE, n, next=next, extra=extra)

    def same_since(self, n, q, at):
        s = self.space
        if at > s.at:
            raise T.Fault("the log has no record %d" % at, None, "it is at %d" % s.at, 3)
        first = s.at - len(self.ws.payloads) + 1
        if at < first:
            raise T.Fault("record %d was folded" % at, None, "look again: questions %d" % n, 3)
        if at == s.at:
            return
        past = Space(self.ws.payloads[0])
        for p in self.ws.payloads[1:1 + at - first]:
            past.replay(p)
        item = past.waiting.get(n)
        stop = past.run(item, peek=True) if item else None
        old = stop.question["candidates"] if stop is not None and stop.why == "question" else None
        if old != q["candidates"] or stop.question.get("wanted") != q.get("wanted"):
            raise T.Fault("the question of %d is another than at %d" % (n, at), None, "look again: questions %d" % n, 3,
                          self.question_lines(q))

    def choose(self, q, choice):
        n, kind = q["number"], choice[0]
        if kind == "pick":
            for i in choice[1]:
                if i > len(q["candidates"]):
                    raise T.Fault("update %d has %s, not %d" % (n, plural(len(q["candidates"]), "candidate"), i), None,
                                  "questions %d" % n, 3)
            facts = tuple(q["candidates"][i - 1] for i in choice[1])
        elif kind in ("unify", "delete", "facts"):
            facts = choice[1] if kind != "unify" else (choice[1],)
            for t in facts:
                if t not in q["candidates"]:
                    like = T.near(self.fact(t), [self.fact(c) for c in q["candidates"]])
                    raise T.Fault("%s is no candidate of %d" % (self.fact(t), n), None,
                                  "did you mean %s?" % like if like else "questions %d has them" % n, 3)
        if q["kind"] == "positive":
            if kind == "go":
                return ("go",)
            if kind == "expand":
                return ("expand",)
            if kind == "delete" or len(facts) != 1:
                raise T.Fault("update %d asks which one it is: answer with one candidate, or new" % n, None, None, 3)
            return ("unify", facts[0])
        if kind == "go":
            return ("go",)
        if kind in ("expand", "unify"):
            raise T.Fault("update %d asks what goes: answer with one candidate or more" % n, None, None, 3)
        return ("delete", tuple(sorted(set(facts))))

"""Attempts of numbered updates in any order: standings, events with their conflicts and cascades, and the history."""
from .matching import evaluate, images, mentions
from .serial import Result, answered
from .steps import Program, fits
from .values import Facts, Update, is_null, outer


class Refusal(Exception):
    """An event that is not allowed, with the reason: a word, and perhaps the standing."""


class Attempted:
    """An update with its present attempt, its log of reads, and the answers that were delivered and that wait."""

    def __init__(self, number, operation, inbox):
        self.number, self.operation = number, operation
        self.attempt, self.withdrawn = 0, False
        self.answers, self.inbox = [], list(inbox)
        self.begin()

    def begin(self):
        self.program, self.log = Program(self.operation, self.number, self.attempt), []

    def restart(self):
        self.attempt += 1
        self.begin()

    def trail(self):
        """The writes that other updates see."""
        return [] if self.withdrawn or self.program.phase == "spent" else self.program.own

    def has_ended(self):
        return self.withdrawn or self.program.ended()


class Core:
    """The updates of a session whose base meets its mappings, with the settings of a run and the history so far."""

    def __init__(self, session, steps=100, retries=3, precise=True, admitted=True):
        self.session, self.mappings = session, session.mappings
        self.steps, self.retries, self.precise = steps, retries, precise
        self.updates, self.history = [], []
        self.committed = 0
        self.facts = Facts(session.base)        # the base with the trails of the committed updates
        for update in session.updates if admitted else ():
            self.enter(update)

    # ---- what stands

    def update(self, number):
        if not 1 <= number <= len(self.updates):
            raise Refusal("no such update")
        return self.updates[number - 1]

    def standing(self, number):
        u = self.update(number)
        if u.withdrawn:
            return ("withdrawn",)
        if u.program.ended():
            return (u.program.phase,)
        if u.attempt > self.retries and self.committed < number - 1:
            return ("held", self.committed + 1)
        lack = u.program.lack(u.answers)
        return ({None: "ready", "missing": "pending", "misfit": "misfit"}[lack],)

    def question(self, number):
        paused = self.standing(number)[0] in ("pending", "misfit")
        return self.update(number).program.question if paused else None

    def lowest(self, holds):
        return next((u.number for u in self.updates[self.committed:] if holds(u)), None)

    def lowest_runnable(self):
        return self.lowest(lambda u: self.standing(u.number)[0] == "ready")

    def lowest_deliverable(self):
        return self.lowest(lambda u: self.standing(u.number)[0] == "pending" and u.inbox)

    def is_quiet(self):
        return self.lowest_runnable() is None and self.lowest_deliverable() is None

    def is_live(self, u):
        return u.number > self.committed and not u.withdrawn

    def writes_below(self, number):
        """The writes that turn the committed repository into what lies below this update."""
        return [w for u in self.updates[self.committed:number - 1] for w in u.trail()]

    # ---- reads that have another value now

    def value(self, query, own, direction):
        """The value of a query over `facts`, among the violations that the own writes caused."""
        return evaluate(query, self.facts, self.mappings, own, direction, all_violations=False)

    def can_see(self, query, writes):
        """Whether these writes can change the value of the query."""
        if query[0] == "present":
            return any(t == query[1] for _, t in writes)
        if query[0] == "specific":
            return any(images(query[1], t) is not None for _, t in writes)
        if query[0] == "occurs":
            return any(is_null(v) and v[1:3] == query[1:] for _, t in writes for v in t[1])
        return any(mentions(query, self.mappings, t[0]) for _, t in writes)

    def first_changed(self, u, writes):
        """The first logged read of u that has another value over `facts`, which have what lies below u now: its number
        from 1, the old and the new answer; or None. Only reads that can see the writes are evaluated again."""
        own, made, undo, found = u.program.own, 0, [], None
        for number, (query, answer, count) in enumerate(u.log, 1):
            if not self.can_see(query, writes):
                continue
            undo = self.facts.apply(own[made:count]) + undo
            made = count
            now = self.value(query, own[:count], u.program.direction)
            if now != answer:
                found = (number, answer, now)
                break
        self.facts.apply(undo)
        return found

    def conflicts(self, number, writes):
        """The live updates above that have a read changed by these writes of the update, as causes, in order."""
        causes, undo = [], self.facts.apply(self.writes_below(number + 1))
        for u in self.updates[number:]:
            changed = self.first_changed(u, writes) if self.is_live(u) else None
            if changed:
                causes.append(("conflict", u.number, changed[0], number) + changed[1:])
            undo = self.facts.apply(u.trail()) + undo
        self.facts.apply(undo)
        return causes

    def cascade(self, first):
        """The live updates above that depend on the updates that go, lowest first, as causes. `first` are the first that go."""
        if not first:
            return []
        members, causes, gone = set(first), [], []
        lowest = min(first)
        undo = self.facts.apply(self.writes_below(lowest))
        for u in self.updates[lowest - 1:]:
            read = self.dependence(u, gone) if gone and u.number not in members and self.is_live(u) else None
            if read is not None:
                query = u.log[read - 1][0]
                on = next(m for m in sorted(members) if self.wrote_mentioned(m, query))
                causes.append(("depends", u.number, read, on))
                members.add(u.number)
            if u.number in members:
                gone += u.trail()
            else:
                undo = self.facts.apply(u.trail()) + undo
        self.facts.apply(undo)
        return causes

    def wrote_mentioned(self, number, query):
        """Whether the update's trail has a write to a relation that the query mentions."""
        return any(mentions(query, self.mappings, t[0]) for _, t in self.update(number).trail())

    def dependence(self, u, gone):
        """The number of the first read of u that depends on lost writes: by its value or, if coarse, by their relations."""
        if self.precise:
            changed = self.first_changed(u, gone)
            return changed and changed[0]
        relations = {t[0] for _, t in gone}
        return next((number for number, (query, _, _) in enumerate(u.log, 1)
                     if any(mentions(query, self.mappings, r) for r in relations)), None)

    # ---- events; each adds an entry to the history

    def record(self, event, number, **more):
        """Commits what has ended, from the lowest update on, and adds the event to the history."""
        while self.committed < len(self.updates) and self.updates[self.committed].has_ended():
            self.facts.apply(self.updates[self.committed].trail())
            self.committed += 1
        entry = {"event": event, "update": number, "committed": self.committed, **more}
        if event != "withdrawn":
            entry["standing"] = self.standing(number)
        self.history.append(entry)

    def enter(self, update):
        """Admits an update of the session, with its recorded answers in the inbox."""
        self.updates.append(Attempted(len(self.updates) + 1, update.operation, update.answers))
        self.record("admitted", len(self.updates))

    def can_admit(self, operation):
        """Whether the nulls of the operation are of updates that are there. No mapping is added live."""
        values = operation[1:] if operation[0] == "replace" else operation[1][1]
        return all(not is_null(v) or v[1] <= len(self.updates) for v in values)

    def admit(self, update):
        if len(self.updates) == 1000:
            raise Refusal("full")
        if not self.can_admit(update.operation):
            raise Refusal("unfit")
        self.enter(Update(update.label, update.curator, update.operation))

    def step(self, number):
        standing = self.standing(number)
        if standing[0] != "ready":
            raise Refusal("not runnable", standing)
        u = self.update(number)
        after, own = u.program.copy(), list(u.program.own)
        undo = self.facts.apply(self.writes_below(number) + own)
        reads, writes = after.step(lambda query: self.value(query, own, after.direction), u.answers, self.mappings, self.steps)
        self.facts.apply(undo)
        self.install(u, after, reads, writes)

    def install(self, u, after, reads, writes):
        """Publishes a step: its writes may conflict with updates above; if the update is spent, its trail goes."""
        causes = []
        if after.phase == "spent":
            causes, writes = self.cascade([u.number]), []
        u.program, u.log = after, u.log + reads
        if writes:
            causes = self.conflicts(u.number, writes)
            causes += self.cascade([cause[1] for cause in causes])
        attempt = u.attempt
        for cause in causes:
            self.update(cause[1]).restart()
        self.record("stepped", u.number, attempt=attempt, writes=writes, causes=causes)

    def deliver(self, number):
        standing = self.standing(number)
        if standing[0] != "pending":
            raise Refusal("not pending", standing)
        u = self.update(number)
        if not u.inbox:
            raise Refusal("no answer")
        u.answers.append(u.inbox.pop(0))
        self.record("delivered", number)

    def answer(self, number, choice):
        standing = self.standing(number)
        if standing[0] not in ("pending", "misfit"):
            raise Refusal("not pending", standing)
        u = self.update(number)
        if not fits(u.program.question, choice):
            raise Refusal("misfit")
        u.answers[u.program.taken:] = [choice]
        self.record("answered", number, choice=choice)

    def withdraw(self, number):
        u = self.update(number)
        if number <= self.committed:
            raise Refusal("committed")
        if u.withdrawn:
            raise Refusal("withdrawn")
        causes = self.cascade([number])
        for cause in causes:
            self.update(cause[1]).restart()
        u.withdrawn, u.log = True, []
        self.record("withdrawn", number, causes=causes)

    def drain(self):
        """Steps the lowest ready update, or delivers to the lowest that can have an answer, until the session is quiet."""
        while True:
            number = self.lowest_runnable()
            if number is not None:
                self.step(number)
                continue
            number = self.lowest_deliverable()
            if number is None:
                return
            self.deliver(number)

    def repository(self):
        """The tuples that the committed updates left, in outer form."""
        return sorted(map(outer, answered(self.facts.list())))

    def result(self):
        """The result of a quiet history without withdrawals, in the form of the serial machine's result."""
        result = Result()
        for u in self.updates[:self.committed]:
            result.finishes.append((u.number, u.program.phase, u.program.refused, u.program.steps, u.program.nulls))
        if self.committed < len(self.updates):
            number = self.committed + 1
            kind, mapping, *told = self.question(number)
            told[-1] = tuple(map(outer, told[-1]))
            if kind == "positive":
                told[0] = outer(told[0])
            lack = {"pending": "missing", "misfit": "misfit"}[self.standing(number)[0]]
            result.stop = (number, (kind, mapping, *told), lack)
        result.repository = self.repository()
        return result

"""Lists of calls on a core, as `crates/try_core` takes them: the answer of each call, and lists that are drawn at random."""
from .checks import Schema, choice_of
from .core import Core, Refusal
from .printing import choice_text, operation_text, session_text
from .printing import tuple_text
from .results import question_lines, result_lines
from .serial import answered
from .statements import Line
from .tokens import line_of
from .traces import entry_line
from .values import Update, outer

# The words for refusals that give a standing, by call.
STANDS = {"step": "not ready", "deliver": "not pending", "answer": "not paused"}


def standing_text(standing):
    return " ".join(map(str, standing))


class Caller:
    """Makes calls on the core of a session, and gives their answers."""

    def __init__(self, session, steps, retries, precise):
        self.session, self.schema = session, Schema(session.relations)
        self.core = Core(session, steps, retries, precise)

    def told(self, line):
        """The lines of the answer to a call."""
        if line.startswith(b"#"):
            return [line]
        name, _, rest = line.partition(b" ")
        return getattr(self, "tell_" + name.decode())(rest, line)

    def event(self, call, make, *given):
        """Makes an event, and returns its entry or the reason why there is none."""
        try:
            make(*given)
        except Refusal as refusal:
            return [b"refused " + self.cause(call, *refusal.args).encode()]
        return [entry_line(self.session.relations, self.core.history[-1])]

    def cause(self, call, why, standing=None):
        if standing:
            return "%s: %s" % (STANDS[call], standing_text(standing))
        return "committed %d" % self.core.committed if why == "committed" else why

    # ---- calls that may make an event

    def tell_step(self, rest, line):
        return self.event("step", self.core.step, int(rest[1:]))

    def tell_deliver(self, rest, line):
        return self.event("deliver", self.core.deliver, int(rest[1:]))

    def tell_withdraw(self, rest, line):
        return self.event("withdraw", self.core.withdraw, int(rest[1:]))

    def tell_answer(self, rest, line):
        words = Line(line_of(line)[1:])
        number = int(words.take("name", "name")[1:])
        kind, raws = words.choice()
        return self.event("answer", self.core.answer, number, choice_of(kind, [self.schema.fact(raw) for raw in raws]))

    def tell_update(self, rest, line):
        words = Line(line_of(line)[1:])
        label, curator, raw = words.take("name", "name"), words.take("name", "name"), words.operation(False)
        operation = raw if raw[0] == "replace" else (raw[0], self.schema.fact(raw[1]))
        return self.event("update", self.core.admit, Update(label, curator, operation))

    def tell_drain(self, rest, line):
        before = len(self.core.history)
        self.core.drain()
        return [entry_line(self.session.relations, entry) for entry in self.core.history[before:]]

    # ---- calls that ask

    def tell_standing(self, rest, line):
        try:
            return [b"stands " + standing_text(self.core.standing(int(rest[1:]))).encode()]
        except Refusal:
            return [b"stands nowhere"]

    def tell_question(self, rest, line):
        try:
            question = self.core.question(int(rest[1:]))
        except Refusal:
            question = None
        return question_lines(self.session, question) if question else [b"asks nothing"]

    def tell_counts(self, rest, line):
        rest = "quiet" if self.core.is_quiet() else "open"
        return [b"committed %d of %d, %s" % (self.core.committed, len(self.core.updates), rest.encode())]

    def tell_result(self, rest, line):
        return list(result_lines(self.session, self.core.result()))

    def tell_repository(self, rest, line):
        return [tuple_text(self.session.relations, t) for t in self.core.repository()]


def case_text(session, steps, retries, precise, calls):
    """A case as the program reads it."""
    head = b"case %d %d %s\n" % (steps, retries, b"precise" if precise else b"coarse")
    return head + session_text(session) + b"".join(call + b"\n" for call in calls) + b"done\n"


class Drawn:
    """A list of calls on the core of a random session, drawn call by call, with the answer of each.

    Most calls are allowed; some are drawn blindly, so that every refusal comes. Often one update runs ahead of the others, in
    half of the lists a higher one ahead of lower ones, so that much is restarted."""

    def __init__(self, rng, maker, retries, precise):
        self.rng, self.maker, self.session = rng, maker, maker.session
        self.caller = Caller(maker.session, maker.steps, retries, precise)
        self.core = self.caller.core
        self.calls, self.told = [], []
        self.blind, self.withdrawals = rng.choice([0.05, 0.15, 0.5]), rng.choice([0.02, 0.05, 0.2])
        self.ahead = rng.choice([0.3, 0.6, 0.9])
        self.first = rng.sample(range(60), 60) if rng.random() < 0.5 else list(range(60, 0, -1))

    def call(self, line):
        self.calls.append(line)
        self.told += self.caller.told(line)

    def some_number(self):
        """The number of an update, or a number next to one."""
        return self.rng.choice([*range(1, len(self.core.updates) + 1)] * 4 + [0, len(self.core.updates) + 1])

    def some_choice(self, number):
        """A choice that may answer the update's question."""
        question = self.core.question(number) if 1 <= number <= len(self.core.updates) else None
        if question is None or self.rng.random() < 0.2:
            question = ("negative", 0, (self.maker.tuple(number), self.maker.tuple(number)))
        return self.maker.answer(question, number)

    def answer(self, number):
        return b"answer u%d " % number + choice_text(self.session.relations, self.some_choice(number))

    def admission(self):
        """One more update, which adds no mapping."""
        number = len(self.core.updates) + 1
        operation = ("mapping",)
        while operation[0] == "mapping" or not self.core.can_admit(operation):
            operation = self.maker.operation(sorted(map(outer, answered(self.core.facts.list()))), number)
        return b"update u%d c%d " % (number, self.rng.randrange(3)) + operation_text(self.session, operation)

    def allowed(self):
        """Calls that make an event, each as often as its weight."""
        for u in self.core.updates[self.core.committed:]:
            standing = self.core.standing(u.number)[0]
            if standing == "ready":
                yield from [(self.first[u.number], b"step u%d" % u.number)] * 6
            if standing == "pending" and u.inbox:
                yield from [(self.first[u.number], b"deliver u%d" % u.number)] * 3
            if standing in ("pending", "misfit"):
                yield self.first[u.number], self.answer(u.number)
            if standing != "withdrawn" and self.rng.random() < self.withdrawals:
                yield self.first[u.number], b"withdraw u%d" % u.number

    def any_call(self):
        number = self.some_number()
        kinds = [b"step u%d", b"deliver u%d", b"withdraw u%d", b"standing u%d", b"question u%d"]
        kind = self.rng.choice(kinds + [self.answer, b"counts"])
        return self.answer(number) if kind == self.answer else kind if kind == b"counts" else kind % number

    def next_call(self):
        if self.rng.random() < self.blind:
            return self.any_call()
        if self.rng.random() < 0.04 and len(self.core.updates) < 12:
            return self.admission()
        calls = list(self.allowed())
        if not calls:
            return self.any_call()
        if self.rng.random() < self.ahead:         # one update runs ahead of the others
            least = min(calls)[0]
            calls = [call for call in calls if call[0] == least]
        return self.rng.choice(calls)[1]

    def draw(self):
        for _ in range(self.rng.choice([5, 15, 40, 80])):
            self.call(self.next_call())
        if self.rng.random() < 0.6:
            self.call(b"drain")
            self.call(b"counts")
            for number in range(len(self.core.updates) + 2):
                self.call(b"standing u%d" % number)
                self.call(b"question u%d" % number)
            self.call(b"repository")
            if len(self.core.updates) == len(self.session.updates) and not any(u.withdrawn for u in self.core.updates):
                self.call(b"result")
        return self

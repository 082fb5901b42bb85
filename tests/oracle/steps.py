"""One attempt at an update, step by step, and an update taken whole."""
from .matching import binding_of, evaluate, ground, rewriting, substitute, unifier
from .values import force, is_null, nulls_of, outer, outer_value


# ---- questions: ('positive', mapping number, tuple, candidates), ('negative', mapping number, tuples)

def offered(question):
    """The tuples that a question offers, by their outer forms."""
    return [outer(t) for t in (question[3] if question[0] == "positive" else question[2])]


def fits(question, choice):
    if question[0] == "positive":
        return choice[0] == "expand" or choice[0] == "unify" and choice[1] in offered(question)
    return choice[0] == "delete" and len(choice[1]) > 0 and set(choice[1]) <= set(offered(question))


# ---- attempts

class Program:
    """An attempt at an update. Its phase is start, look, generate, asked, done, spent or refused."""

    def __init__(self, operation, number, attempt):
        self.operation, self.number, self.attempt = operation, number, attempt
        self.direction = "backward" if operation[0] == "delete" else "forward"
        self.phase = "start"
        self.repair = None      # the violation under repair: its mapping's number, image, binding, the next right atom
        self.question = None
        self.own = []
        self.steps = self.nulls = self.taken = 0
        self.refused = None     # the outer name of the null that is nowhere
        self.made = None        # what the last step was, for explanations

    def copy(self):
        other = Program(self.operation, self.number, self.attempt)
        other.__dict__.update(self.__dict__, own=list(self.own))
        return other

    def ended(self):
        return self.phase in ("done", "spent", "refused")

    def lack(self, answers):
        """Why it stops at its question: 'missing' or 'misfit'; None if it does not stop."""
        if self.phase != "asked":
            return None
        if self.taken == len(answers):
            return "missing"
        return None if fits(self.question, answers[self.taken]) else "misfit"

    def step(self, value, answers, mappings, budget):
        """Makes one step. `value` answers queries over the repository at its beginning. Returns its reads and its writes.

        A read is (query, answer, number of own writes before it).
        """
        reads, count = [], len(self.own)

        def ask(*query):
            reads.append((query, value(query), count))
            return reads[-1][1]

        self.made = (self.phase,)
        writes = getattr(self, "from_" + self.phase)(ask, answers, mappings)
        self.own.extend(writes)
        self.steps += 1
        if self.steps >= budget and not self.ended():
            self.phase, self.question = "spent", None
        return reads, writes

    def found(self, ask, nulls):
        """The values that the named nulls stand for, with the tuples that hold each; None if one of them is nowhere."""
        table, holders = {}, {}
        for null in nulls:
            holders[null] = ask("occurs", null[1], null[2])
            if not holders[null]:
                self.phase, self.refused = "refused", null[1:3]
                return None
            table[null] = next(v for v in holders[null][0][1] if is_null(v) and outer_value(v) == null)
        return table, holders

    def from_start(self, ask, answers, mappings):
        kind = self.operation[0]
        if kind == "mapping":
            self.phase = "look"
            return [(True, force(self.operation[1]))]
        if kind == "replace":
            return self.replaced(ask)
        t = self.operation[1]
        found = self.found(ask, nulls_of(t))
        if found is None:
            return []
        t = substitute(found[0], t)
        self.made, self.phase = ("insert",), "look"
        return [(kind == "insert", t)] if ask("present", t) != (kind == "insert") else []

    def replaced(self, ask):
        _, null, value = self.operation
        found = self.found(ask, [null] + [value] * is_null(value))
        if found is None:
            return []
        table, holders = found
        sub = {table[null]: table.get(value, value)}
        self.made, self.phase = ("rewrite", sub), "look"
        return rewriting(sub, holders[null])

    def from_look(self, ask, answers, mappings):
        for n, mapping in enumerate(mappings):
            if mapping.since and (mapping.since > self.number or not ask("present", force(n))):
                continue
            image = ask("violation", n)
            if image is not None:
                return self.begin(n, mapping, image)
        self.phase = "done"
        return []

    def begin(self, n, mapping, image):
        """Begins the repair of a violation: forward with fresh nulls, backward with its deletion or its question."""
        binding = binding_of(mapping, image)
        if self.direction == "forward":
            for v in range(mapping.universal, len(mapping.names)):
                self.nulls += 1
                binding[v] = (2, self.number, self.nulls, self.attempt)
            self.repair, self.phase = (n, image, binding, 0), "generate"
            return []
        tuples = tuple(sorted(set(image)))
        if len(tuples) == 1:
            return [(False, tuples[0])]
        self.question, self.phase = ("negative", n, tuples), "asked"
        return []

    def go_on(self, mappings):
        """Goes on to the next right atom, or looks again after the last one."""
        n, image, binding, at = self.repair
        last = at + 1 == len(mappings[n].right)
        self.repair = None if last else (n, image, binding, at + 1)
        self.phase, self.question = "look" if last else "generate", None

    def from_generate(self, ask, answers, mappings):
        n, image, binding, at = self.repair
        t = ground(mappings[n].right[at], binding)
        self.made = ("generate", n, image)
        if ask("present", t):
            self.go_on(mappings)
            return []
        candidates = ask("specific", t)
        if candidates:
            self.question, self.phase = ("positive", n, t, candidates), "asked"
            return []
        self.go_on(mappings)
        return [(True, t)]

    def from_asked(self, ask, answers, mappings):
        choice, question = answers[self.taken], self.question
        self.taken += 1
        if choice[0] == "delete":
            self.question, self.phase = None, "look"
            return [(False, t) for t in question[2] if outer(t) in choice[1]]
        n, image, binding, at = self.repair
        t = question[2]
        if choice[0] == "expand":
            self.made = ("generate", n, image)
            self.go_on(mappings)
            return [(True, t)]
        sub = unifier(t, next(c for c in question[3] if outer(c) == choice[1]))
        moved = sorted(x for x, y in sub.items() if x != y)
        holders = [h for x in moved for h in ask("occurs", x[1], x[2])]
        self.made = ("rewrite", sub)
        self.repair = (n, tuple(substitute(sub, x) for x in image), {v: sub.get(x, x) for v, x in binding.items()}, at)
        self.go_on(mappings)
        return rewriting(sub, holders)


def whole(facts, number, operation, answers, mappings, budget, watch=None):
    """Takes an update whole, by attempt 0 and looking at every violation. `facts` keep its writes only if it is done.

    Returns the program as it came to rest. `watch(program, writes, facts)` is called for each step before its writes are made.
    """
    program, undo = Program(operation, number, 0), []
    while not program.ended() and not program.lack(answers):
        def value(query):
            return evaluate(query, facts, mappings, program.own, program.direction)

        _, writes = program.step(value, answers, mappings, budget)
        if watch:
            watch(program, writes, facts)
        undo = facts.apply(writes) + undo
    if program.phase != "done":
        facts.apply(undo)
    return program

"""Random scripts for yt, drawn beside a workspace of the reference, so that most commands fit what stands."""
import random

from . import text as T

RELATIONS = {"Painting": ("title", "painter"), "Painter": ("name", "country"), "Hangs": ("title", "room"), "Loan": ("title", "museum"),
             "Insured": ("title", "value"), "Reports": ("who", "to")}
MAPPINGS = ["hung: Hangs(t, r) -> Painting(t, p), Painter(p, c)", "insured: Painting(t, p), Loan(t, m) -> Insured(t, v)",
            "rep: Reports(a, b) -> Reports(b, c)", "all: Loan(t, _) -> Painting(t, _)", "who: Painting(t, p) -> Reports(p, x)",
            "back: Insured(t, v) -> Loan(t, m), Hangs(t, r)", "hung: Hangs(t, r) -> Painting(t, r)", "turn: Painting(x, y) -> Painting(y, x)",
            "who: Painting(t, p) -> Painter(t, x)", "rep: Reports(a, b), Loan(b, c) -> Insured(a, c)", 'text: Loan(t, "a") -> Hangs(t, 1)']
VALUES = ['"a"', '"b"', '"c"', "1", "2", '"12"', '"x y"', '"\\u{7f}"', "-3"]
LOOKS = ["show", "show --unknowns", "show Painting", "show Painting Loan --limit 2", 'show --like "a"', 'show Painting("a", _)', "show Loan --from 2 --limit 1",
         "ask Painting(t, p), Painter(p, _)", "ask q(t): Loan(t, m), Hangs(t, _) --unknowns", "ask Painting(t, p) --limit 1", "questions",
         "questions --mine", "questions --limit 1", "violations", "violations --limit 1", "log", "log --limit 2", "status", "export --json",
         "export --sql", "export Painting", "export Loan --csv", "graph", "dump", "page", "help", "help insert"]
FAULTS = ["insert Paintings(1, 2)", "insert Painting(1)", "insert Painting(1, x)", "select Painting", 'insert Painting("a', "answer x", "undo 99",
          "redo 1..", "why Nothing(1)", "drop nothing", "adopt nothing", "fold --now", "relation Painting(a, a)", "try show", "show --limit 0",
          "insert Painting('a', 1)", "mapping m: A(x)", "replace ?99.1 with 3", 'insert Painting("\\q", 1)', "insert Painting(1.5, 2)", "relation painting(x)"]


class Writer:
    """Draws commands over the workspace as it stands, and does each."""

    def __init__(self, rng, workspace, others=3):
        self.rng, self.workspace = rng, workspace
        self.others = others        # the weight of folds, drops, `--still` and `try undo` among the lines
        self.lines = []

    @property
    def space(self):
        return self.workspace.space

    def say(self, line):
        """Lets the reference do the line, and keeps it."""
        self.lines.append(line)
        self.workspace.command(line)
        if self.space is None:
            self.workspace.command("status")

    def begin(self):
        for name, columns in RELATIONS.items():
            self.say("relation %s(%s)" % (name, ", ".join(columns)))

    def unknown(self):
        """The name of an unknown that stands, if any."""
        s = self.space
        names = sorted({n for k, n in s.name_of.items() if s.facts.occurs(*k)})
        return "?%d.%d" % self.rng.choice(names) if names else None

    def value(self, news=True):
        unknown = self.unknown() if self.rng.random() < 0.25 else None
        if unknown:
            return unknown
        if news and self.rng.random() < 0.12:
            return self.rng.choice(["?", "?x", "?y"])
        return self.rng.choice(VALUES[:5] if self.rng.random() < 0.9 else VALUES)

    def fact(self, there=False, news=True):
        tuples = self.space.visible() if there and self.rng.random() < 0.85 else ()
        if tuples:
            return T.show_fact(self.space.schema, self.rng.choice(tuples))
        return "%s(%s)" % (self.rng.choice(list(RELATIONS)), ", ".join(self.value(news) for _ in range(2)))

    def insert(self):
        facts = ", ".join(self.fact() for _ in range(self.rng.choice([1, 1, 1, 2, 3])))
        return "insert " + facts + self.rng.choice([""] * 8 + [" --only", " --steps 3", " --steps 400", "  # as the letter says"])

    def delete(self):
        wild = "%s(%s, _)" % (self.rng.choice(list(RELATIONS)), self.value(False))
        return "delete %s%s" % (self.fact(True, False) if self.rng.random() < 0.8 else wild, self.rng.choice(["", " --cascade", " --only"]))

    def replace(self):
        unknown = self.unknown()
        if unknown and self.rng.random() < 0.5:
            return "replace %s with %s" % (unknown, self.value(False))
        return "replace %s with %s%s" % (self.fact(True, False), self.fact(), self.rng.choice(["", " --cascade"]))

    def mapping(self):
        proposed = self.space.proposed()
        if proposed and self.rng.random() < 0.5:
            return "adopt " + self.rng.choice(proposed)
        return "mapping " + self.rng.choice(MAPPINGS)

    def answer(self):
        waiting = sorted(self.space.waiting)
        if not waiting:
            return self.insert()
        if self.rng.random() < 0.15:
            return "answer %s %s" % (T.span(waiting), self.rng.choice(["new", "go"]))
        choice = self.rng.choice(["1", "1", "2", "new", "go", "1, 2", "", "expand", "7"])
        return "answer %d %s%s" % (self.rng.choice(waiting), choice, self.rng.choice(["", "", " --at %d" % max(0, self.space.at - 1)]))

    def undo(self):
        s = self.space
        if s.out and self.rng.random() < 0.5:
            return "redo %d" % self.rng.choice(sorted(s.out))
        if not s.items:
            return self.insert()
        number = self.rng.choice(sorted(s.items))
        return "undo %d%s" % (number, self.rng.choice(["", "", " --answers", "..%d" % (number + 1)]))

    def look(self):
        s = self.space
        more = ["why " + self.fact(True, False), "log --since %d" % self.rng.randrange(s.at + 2)]
        more += ["why " + self.unknown()] if self.unknown() else []
        more += ["log %d" % self.rng.choice(sorted(s.items)), "questions %d" % self.rng.choice(sorted(s.items))] if s.items else []
        return self.rng.choice(more if self.rng.random() < 0.4 else LOOKS)

    def other(self):
        s = self.space
        drop = ["drop " + self.rng.choice(s.standing_mappings())] if s.standing_mappings() else []
        return self.rng.choice(["fold", "insert %s --still %d" % (self.fact(), s.at - self.rng.randrange(2)), "try undo 1"] + drop)

    def line(self):
        kinds = [(self.insert, 26), (self.delete, 10), (self.replace, 8), (self.mapping, 9), (self.answer, 14), (self.undo, 10),
                 (self.look, 12), (self.other, self.others), (lambda: self.rng.choice(FAULTS), 4)]
        line = self.rng.choices([kind for kind, _ in kinds], [weight for _, weight in kinds])[0]()
        return "try " + line if line.split()[0] in T.CHANGES - {"fold"} and self.rng.random() < 0.08 else line


def random_script(seed, workspace):
    """The lines of a script, done one after the other by this workspace, whose file does not exist yet. Many lines of an odd seed
    from 1,000,001 on fold and drop."""
    rng = random.Random(seed)
    writer = Writer(rng, workspace, 25 if seed > 1000000 and seed % 2 else 3)
    writer.begin()
    for _ in range(rng.choice([10, 20, 40])):
        writer.say(writer.line())
    return writer.lines

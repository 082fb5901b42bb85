"""The chase of the reference, step by step, as yt uses it: the kind of each step, and why it put a tuple."""
from ..matching import evaluate, extends, images, matches, substitute
from ..steps import Program as Attempt
from ..steps import fits
from ..values import Facts
from ..values import Mapping as Plain

__all__ = ["Facts", "Mapping", "Program", "evaluate", "extends", "fits", "how", "images", "matches", "plain_cycle", "substitute"]


class Mapping(Plain):
    """A mapping that can be compared with another."""

    def key(self):
        """Two mappings with equal keys are the same as written."""
        return self.name, tuple(self.names), self.left, self.right


class Program(Attempt):
    """An attempt that also keeps the kind of its last step, in `kind`."""

    def step(self, value, answers, mappings, budget):
        before, asked = self.phase, self.question
        taken = answers[self.taken][0] if before == "asked" else None
        out = super().step(value, answers, mappings, budget)
        self.kind = self.kind_of(before, taken)
        return out

    def kind_of(self, before, taken):
        if before == "start":
            sub = self.made[1:] if self.made[0] == "rewrite" else ()
            return ("start", self.operation[0]) + sub
        if before == "asked":
            return {"delete": ("delete",), "expand": self.made, "unify": ("unify",) + self.made[1:]}[taken]
        return self.made if before == "generate" else ("look",)


def how(kind, t, writes):
    """Why a step of this kind put the tuple."""
    if kind[:2] == ("start", "insert"):
        return ("inserted",)
    if kind[0] == "generate":
        return ("generated", kind[1], kind[2])
    return ("rewritten", min(d for insertion, d in writes if not insertion and substitute(kind[-1], d) == t))


def plain_cycle(mappings):
    """Whether some relation leads to itself in one or more steps through atoms without an existential variable."""
    edges = {}
    for m in mappings:
        for r, terms in m.right:
            if all(not (k == "v" and v >= m.universal) for k, v in terms):
                for l, _ in m.left:
                    edges.setdefault(l, set()).add(r)
    for start in edges:
        seen, todo = set(), list(edges[start])
        while todo:
            r = todo.pop()
            if r == start:
                return True
            if r not in seen:
                seen.add(r)
                todo.extend(edges.get(r, ()))
    return False

"""Random sessions with joins of three to six atoms in any order, over bases so large that a bad order is seen.

The mappings join sources, on their left sides or on their right ones, in chains, stars, cycles and products of two chains.
"""
from .matching import binding_of, extends, ground, violations
from .sessions import Maker
from .values import Facts, Mapping

SOURCES, OTHERS = "ABCD", "TU"
ROUNDS, LARGEST = 6, 300


def pairs(shape, count):
    """The numbers of the two variables that each atom of a join holds."""
    chain = [(i, i + 1) for i in range(count)]
    if shape == "star":
        return [(0, i + 1) for i in range(count)]
    if shape == "cycle":
        return chain[:-1] + [(count - 1, 0)]
    if shape == "product":
        middle = count // 2
        return [(i, i + 1) if i < middle else (i + 1, i + 2) for i in range(count - 1)] + [(0, middle + 1)]
    return chain


class JoinMaker(Maker):
    """Draws one session. Its values are few, and one of them stands in a third of the columns."""

    def __init__(self, rng, steps):
        super().__init__(rng, steps)
        self.dense, self.values = False, rng.choice([6, 12, 24])

    def constant(self):
        return (0, 1 if self.often(0.3) else self.rng.randrange(self.values))

    # ---- mappings

    def term(self, names):
        return ("c", self.constant()) if self.often(0.04) else ("v", self.rng.choice(names))

    def join(self):
        """The atoms of a join over sources in any order; a third column, if there is one, holds any variable."""
        count = self.rng.choice([3, 3, 4, 4, 5, 6])
        held = pairs(self.rng.choice(["chain", "chain", "star", "cycle", "product"]), count)
        self.rng.shuffle(held)
        for both in held:
            relation = self.rng.randrange(len(SOURCES))
            rest = [self.term([f"v{x}" for pair in held for x in pair]) for _ in range(self.session.relations[relation][1] - 2)]
            yield relation, [("v", f"v{x}") for x in self.rng.sample(both, 2)] + rest

    def other_side(self, names):
        """One atom or two over these names and one more, which all are of other relations than the join's."""
        for _ in range(self.rng.choice([1, 1, 2])):
            relation = len(SOURCES) + self.rng.randrange(len(OTHERS))
            yield relation, [self.term(names) for _ in range(self.session.relations[relation][1])]

    def mapping(self, name, since=0):
        join = list(self.join())
        held = sorted({x for _, terms in join for kind, x in terms if kind == "v"})
        other = list(self.other_side(self.rng.sample(held, self.rng.choice([1, 2, 2, 3])) + ["w"] * self.often(0.5)))
        left, right = (join, other) if self.often(0.6) else (other, join)
        names = list(dict.fromkeys(x for _, terms in left + right for kind, x in terms if kind == "v"))
        universal = len({x for _, terms in left for kind, x in terms if kind == "v"})

        def numbered(side):
            return tuple((r, tuple((kind, names.index(x)) if kind == "v" else (kind, x) for kind, x in terms)) for r, terms in side)

        return Mapping(name, names, universal, numbered(left), numbered(right), since)

    # ---- the base, updates

    def close_base(self):
        """Repairs all violations at once, a few times; answers whether the base then meets the mappings, and is not too large."""
        facts = Facts(self.session.base)
        for _ in range(ROUNDS):
            found = [(m, image) for m in self.session.mappings for image, _ in violations(m, facts)]
            if not found:
                self.session.base = facts.list()
                return True
            for mapping, image in found:
                self.repair(mapping, image, facts)
            if len(facts) > LARGEST:
                return False
        return False

    def repair(self, mapping, image, facts):
        """Removes a tuple of a violation, or inserts what its right side lacks."""
        binding = binding_of(mapping, image)
        if not all(t in facts for t in image) or extends(mapping.right, facts, binding):
            return
        if self.often(0.3):
            facts.remove(self.rng.choice(image))
            return
        for v in range(mapping.universal, len(mapping.names)):
            binding[v] = self.null(0) if self.often(0.2) else self.constant()
        for atom in mapping.right:
            facts.insert(ground(atom, binding))

    def made(self):
        """The session, or None if its base could not be made to meet the mappings."""
        rng, session = self.rng, self.session
        session.relations = [(name, rng.choice([2, 2, 3])) for name in SOURCES] + [(name, rng.choice([1, 2])) for name in OTHERS]
        for i in range(rng.choice([1, 1, 2])):
            self.add_mapping("m%d" % (i + 1))
        sizes = [rng.choice([5, 20, 40, 60]) for _ in session.relations]
        session.base = sorted({(r, tuple(self.null(0) if self.often(0.05) else self.constant() for _ in range(columns)))
                               for r, (_, columns) in enumerate(session.relations) for _ in range(sizes[r])})
        if not self.close_base():
            return None
        for _ in range(rng.choice([1, 2, 3])):
            self.add_update()
        return session


def join_session(rng, steps):
    """The maker of a session with joins, which has it."""
    while True:
        maker = JoinMaker(rng, steps)
        if maker.made():
            return maker

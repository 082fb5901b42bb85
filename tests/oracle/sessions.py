"""Random small sessions that the language accepts and whose base meets its mappings.

They are drawn so that much happens: few values, so that joins meet; updates close to what the repository has; and answers to the
questions, mostly fitting ones.
"""
from .checks import has_plain_cycle, read_session
from .drill import BEGINNING
from .matching import bind, binding_of, first_violation, ground
from .serial import serial
from .values import Facts, Mapping, Session, Update, is_null, outer

TEXTS = [b"a", b"US", b"", b"t\tb", b"\x01\x7f", b"\r", b"#(,", b'q"q', b"b\\s", b"l\nf", "\u00e9".encode()]


class Maker:
    """Draws the parts of one session. A dense one has fewer values and longer right sides."""

    def __init__(self, rng, steps):
        self.rng, self.steps, self.dense = rng, steps, rng.random() < 0.6
        self.session = Session(rng.choice([1, 1, 2]))

    def often(self, share):
        return self.rng.random() < share

    # ---- values and tuples

    def constant(self):
        if self.dense or self.often(0.85):
            return (0, self.rng.choice([1, 1, 2] if self.dense else [1, 1, 2, 2, 3]))
        return (1, self.rng.choice(TEXTS)) if self.often(0.8) else (0, self.rng.choice([-5, 0, 2 ** 63 - 1, -2 ** 63]))

    def null(self, below):
        """A null of the base or of an update with a lower number, which may be there or not."""
        update = self.rng.randrange(below) if below and self.often(0.7) else 0
        return (2, update, self.rng.choice([1, 1, 1, 2, 3]), 0)

    def tuple(self, below, nulls=0.3):
        relation = self.rng.randrange(len(self.session.relations))
        columns = self.session.relations[relation][1]
        return relation, tuple(self.null(below) if self.often(nulls) else self.constant() for _ in range(columns))

    # ---- mappings and the base

    def atoms(self, counts, names):
        """Atoms over these names, with a constant here and there."""
        def term():
            return ("c", (0, self.rng.choice([1, 2]))) if self.often(0.08) else ("v", self.rng.choice(names))

        for _ in range(self.rng.choice(counts)):
            relation = self.rng.randrange(len(self.session.relations))
            yield relation, [term() for _ in range(self.session.relations[relation][1])]

    def mapping(self, name, since=0):
        left = list(self.atoms([1, 1, 2, 2] if self.dense else [1, 1, 1, 2, 2, 3], "xyz"))
        used = sorted({x for _, terms in left for kind, x in terms if kind == "v"})
        right_names = used + ["v", "v", "w"] if self.dense and self.often(0.7) else used * 2 + ["v", "w"] * self.often(0.6)
        right = list(self.atoms([1, 2, 2, 2, 3] if self.dense else [1, 1, 2, 2, 3], right_names or ["v"]))
        names = list(dict.fromkeys(x for _, terms in left + right for kind, x in terms if kind == "v"))

        def numbered(terms):
            return tuple((kind, names.index(x)) if kind == "v" else (kind, x) for kind, x in terms)

        left, right = (tuple((r, numbered(terms)) for r, terms in side) for side in (left, right))
        return Mapping(name, names, len(used), left, right, since)

    def add_mapping(self, name, since=0):
        """Adds a mapping that closes no plain cycle, and tells whether one was found."""
        for _ in range(6):
            mapping = self.mapping(name, since)
            if not has_plain_cycle(self.session.mappings + [mapping]):
                self.session.mappings.append(mapping)
                return True
        return False

    def close_base(self):
        """Repairs the base at random until it meets the mappings; tells whether it does, and stayed small."""
        facts = Facts(self.session.base)
        for _ in range(25):
            found = ((m, first_violation(m, facts)) for m in self.session.mappings)
            violated = next(((m, image) for m, image in found if image is not None), None)
            if violated is None:
                self.session.base = facts.list()
                return len(self.session.base) <= 14
            mapping, image = violated
            if self.often(0.15 if self.dense else 0.45):
                facts.remove(self.rng.choice(image))
                continue
            binding = binding_of(mapping, image)
            for v in range(mapping.universal, len(mapping.names)):
                binding[v] = self.null(0) if self.often(0.6) else self.constant()
            for atom in mapping.right:
                facts.insert(ground(atom, binding))
        return False

    # ---- updates and answers

    def near(self, here, below):
        """A tuple close to the tuples that are there: one with a value changed, or an atom of a mapping under values from one."""
        if here and self.often(0.4):
            relation, values = self.rng.choice(here)
            at = self.rng.randrange(len(values))
            value = self.known_null(here, below) if self.often(0.4) else self.constant()
            return relation, values[:at] + (value,) + values[at + 1:]
        if self.session.mappings and self.often(0.85):
            mapping = self.rng.choice(self.session.mappings)
            relation, terms = self.rng.choice(mapping.left * 2 + mapping.right)
            values, binding = sorted({v for t in here for v in t[1]}), {}
            for kind, x in terms:
                if kind == "v" and x not in binding:
                    binding[x] = self.rng.choice(values) if values and self.often(0.6) else self.constant()
            return ground((relation, terms), binding)
        return self.tuple(below, 0.1)

    def known_null(self, here, below):
        """Mostly a null that is there, and mostly one that an update drew."""
        there = sorted({v for t in here for v in t[1] if is_null(v)})
        drawn = [v for v in there if v[1]]
        if drawn and self.often(0.7):
            return self.rng.choice(drawn)
        return self.rng.choice(there) if there and self.often(0.9) else self.null(below)

    def insertion(self, here, below):
        """Mostly a tuple that is not there, of a relation that stands on some left side."""
        lefts = {atom[0] for m in self.session.mappings for atom in m.left}
        for _ in range(6):
            t = self.near(here, below)
            if t not in here and (t[0] in lefts or self.often(0.3)):
                break
        return "insert", t

    def deletion(self, here, below):
        """Mostly a tuple that is there, and mostly one for whose deletion several left tuples may go."""
        rights = [atom for m in self.session.mappings if len(m.left) > 1 for atom in m.right]
        wanted = [t for t in here if any(bind(atom, t, {}) is not None for atom in rights)]
        pool = wanted if wanted and self.often(0.7) else here
        return "delete", self.rng.choice(pool) if pool and self.often(0.85) else self.near(here, below)

    def operation(self, here, number):
        if self.session.format == 2 and self.often(0.18) and self.add_mapping("e%d" % number, number):
            return "mapping", len(self.session.mappings) - 1
        kind = self.rng.choice(["insert"] * 12 + ["delete"] * 5 + ["replace"] * 3)
        if kind == "insert":
            return self.insertion(here, number)
        if kind == "delete":
            return self.deletion(here, number)
        return kind, self.known_null(here, number), self.known_null(here, number) if self.often(0.4) else self.constant()

    def answer(self, question, number):
        if self.often(0.05):
            return self.rng.choice([("expand",), ("unify", self.tuple(number)), ("delete", (self.tuple(number),))])
        if question[0] == "positive":
            return ("expand",) if self.often(0.4) else ("unify", outer(self.rng.choice(question[3])))
        some = self.rng.sample(list(question[2]), self.rng.randrange(1, len(question[2]) + 1))
        return "delete", tuple(map(outer, some))

    def add_update(self):
        """One more update, with answers to its questions as long as `patience` lasts."""
        result, number = serial(self.session, self.steps), len(self.session.updates) + 1
        update = Update("u%d" % number, "c%d" % self.rng.randrange(3), self.operation(result.repository, number))
        self.session.updates.append(update)
        for _ in range(self.rng.choice([1, 6, 12, 12])):
            result = serial(self.session, self.steps)
            if not result.stop or result.stop[0] != number or result.stop[2] == "misfit":
                break
            update.answers.append(self.answer(result.stop[1], number))
        if self.often(0.06):
            update.answers.append(("expand",))

    def made(self):
        """The session, or None if its base could not be made to meet the mappings."""
        rng, session = self.rng, self.session
        session.relations = [(name, rng.choice([1, 1, 2, 2, 3])) for name in "ABCD"[:rng.choice([2, 3, 3, 4])]]
        for i in range(rng.choice([1, 2, 2, 3, 3, 4])):
            self.add_mapping("m%d" % (i + 1))
        session.base = sorted({self.tuple(0) for _ in range(rng.choice([2, 5, 8] if self.dense else [0, 2, 4, 6]))})
        if not self.close_base():
            return None
        for _ in range(rng.choice([1, 2, 3, 3, 4, 4, 5, 6])):
            self.add_update()
        answered = [update for update in session.updates if update.answers]
        if answered and self.often(0.1):
            update = rng.choice(answered)
            del update.answers[rng.randrange(len(update.answers))]
        return session


def random_session(rng, steps):
    """The maker of a session, which has the session and can draw more that is close to it."""
    while True:
        maker = Maker(rng, steps)
        if maker.made():
            return maker


def busy_session(rng):
    """The mappings of generated sessions over few values, with more updates."""
    session = read_session(BEGINNING)
    for i in range(rng.choice([6, 9, 12])):
        relation = rng.choice([0, 0, 0, 2, 2, 3, 3, 1])
        values = tuple((0, rng.randrange(below)) for below in {0: (3, 2), 1: (2, 2), 2: (4, 3), 3: (3, 3, 3)}[relation])
        kind = "delete" if rng.random() < 0.25 else "insert"
        session.updates.append(Update("u%d" % (i + 1), "c%d" % i, (kind, (relation, values)), [("expand",)] * 4))
    return session

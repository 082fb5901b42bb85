"""Unknowns by name, and mappings as they were written."""
from . import text as T
from .chase import Mapping, extends, matches, plain_cycle
from .items import Stop

WANT, UNKNOWN, FIX = 60000, 60001, 60002       # relations that hold nothing between two updates


class Naming:
    """Names of unknowns, and the mappings that are declared."""

    def named_value(self, v):
        return (2,) + self.name_of[v[1:3]] if v[0] == 2 else v

    def named(self, t):
        return (t[0], tuple(self.named_value(v) for v in t[1]))

    def inner(self, v):
        if v[0] != 2:
            return v
        n = self.null_of.get(v[1:])
        if n is None or not self.facts.occurs(*n):
            raise Stop("lost", name=v)
        return (2,) + n + (0,)

    def inner_fact(self, t):
        return (t[0], tuple(self.inner(v) for v in t[1]))

    def give(self, null, name):
        self.name_of[null] = name
        self.null_of[name] = null

    # ---- mappings ----
    def in_force(self):
        return [self.mappings[m] for m in self.force]

    def proposed(self):
        return [m for m in self.mappings if m not in self.force and m not in self.gone]

    def standing_mappings(self):
        return [m for m in self.mappings if m not in self.gone]

    def frontier(self, m):
        """The left variables that stand on the right too, by number."""
        right = {v for _, ts in m.right for k, v in ts if k == "v"}
        return [v for v in range(m.universal) if v in right]

    def fix_relation(self, name):
        return FIX + list(self.mappings).index(name)

    def hidden(self, rel, name=None):
        if name is None:
            return Mapping("_new", ["n", "u"], 1, ((WANT, (("v", 0),)),), ((UNKNOWN, (("v", 0), ("v", 1))),))
        m = self.mappings[name]
        front = self.frontier(m)
        order = front + [v for v in range(len(m.names)) if v not in front and v >= m.universal]
        number = {v: i for i, v in enumerate(order)}
        left = ((rel, tuple(("v", number[v]) for v in front) or (("c", (0, 0)),)),)
        right = tuple((r, tuple(("v", number[v]) if k == "v" else (k, v) for k, v in ts)) for r, ts in m.right)
        return Mapping("_fix_" + name, [m.names[v] for v in order], len(front), left, right)

    def make_mapping(self, line):
        """The mapping of a line; raises Fault if it is not allowed."""
        _, name, left, right = line[:4]
        numbers, names, sides, universal = {}, [], [], None
        used = {v for side in (left, right) for _, ts in side for k, v in ts if k == "v"}
        blank = 0
        for side in (left, right):
            atoms = []
            for r, ts in side:
                row = []
                for k, v in ts:
                    if k == "v":
                        if v == "_":
                            blank += 1
                            v = "_%d" % blank
                            while v in used:
                                v = "_" + v
                        if v not in numbers:
                            numbers[v] = len(names)
                            names.append(v)
                        row.append(("v", numbers[v]))
                    else:
                        row.append((k, v))
                atoms.append((r, tuple(row)))
            sides.append(tuple(atoms))
            if universal is None:
                universal = len(names)
        return Mapping(name, names, universal, sides[0], sides[1])

    def check_mapping(self, m):
        if m.name in self.gone:
            raise T.Fault("there was a mapping %s; its name is free after `fold`" % m.name, None, None, 3)
        if m.name in self.force:
            raise T.Fault("mapping %s is in force" % m.name, None, "drop %s takes it away" % m.name, 3)
        speak = [n for n, i in sorted(self.items.items()) if i.line[0] in ("fix", "force", "drop") and i.line[1] == m.name]
        if speak:
            raise T.Fault("update %d speaks of mapping %s" % (speak[0], m.name), None, "take another name, or fold first", 3)
        others = [self.mappings[n] for n in self.standing_mappings() if n != m.name]
        if len(others) >= 40:
            raise T.Fault("there are 40 mappings, which is the limit", None, None, 3)
        if plain_cycle(others + [m]):
            raise T.Fault("mapping %s closes a circle without an unknown: %s" % (m.name, self.loop(others + [m], m)), None,
                          "a circle has to go through a variable that stands on a right side alone", 3)
        if len(self.frontier(m)) > 8:
            raise T.Fault("more than 8 variables stand on both sides", None, None, 3)

    def loop(self, mappings, last):
        edges = {}
        for m in mappings:
            for r, ts in m.right:
                if all(not (k == "v" and v >= m.universal) for k, v in ts):
                    for l, _ in m.left:
                        edges.setdefault(l, {}).setdefault(r, m.name)
        for l in sorted(edges):
            todo = [(l, [])]
            seen = set()
            while todo:
                x, path = todo.pop(0)
                for y, name in sorted(edges.get(x, {}).items()):
                    step = path + ["%s -> %s by %s" % (self.schema.relations[x][0], self.schema.relations[y][0], name)]
                    if y == l and any(s.endswith(" by " + last.name) for s in step):
                        return ", ".join(step)
                    if y not in seen:
                        seen.add(y)
                        todo.append((y, step))
        return "by " + last.name

    def show_mapping(self, m):
        def side(atoms):
            return T.show_atoms(self.schema, [(r, tuple(("v", m.names[v]) if k == "v" else (k, v) for k, v in ts))
                                              for r, ts in atoms])
        return "%s: %s -> %s" % (m.name, side(m.left), side(m.right))

    def violations(self, name, facts=None):
        """[(values of the frontier, image)], one for each list of values, in the order of its least image."""
        facts = facts or self.facts
        m, front, seen, out = self.mappings[name], self.frontier(self.mappings[name]), set(), []
        for image, b in matches(m.left, facts, {}):
            key = tuple(b[v] for v in front)
            if key in seen:
                continue
            seen.add(key)
            if not extends(m.right, facts, b):
                out.append((key, image))
        return out

    def lacking(self, name, key):
        """The right side under the values: what `insert` would take."""
        m = self.mappings[name]
        b = dict(zip(self.frontier(m), key))
        return [(r, tuple(self.named_value(b[v]) if k == "v" and v in b else (3, m.names[v]) if k == "v" else v
                          for k, v in ts)) for r, ts in m.right]

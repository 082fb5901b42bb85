"""yt: the workspace as it stands, as a session of youtopia."""
from ..printing import session_text
from ..values import Facts, Mapping, Session, Update
from .logging import item_line
from .naming import FIX, UNKNOWN, WANT


def session_of(space, updates=1000, added=16):
    """(session, {null of the session: name}, items in it, items before it)."""
    order = space.order
    start = max([i + 1 for i, item in enumerate(order) if item.line[0] == "drop"], default=0)
    n = m = a = 0
    curators, hidden = set(), set()
    cut = len(order)
    while cut > start:
        item = order[cut - 1]
        n += len(item.runs)
        m += sum(r.force is not None for r in item.runs)
        a += len(item.answers)
        curators.add(item.curator)
        if item.line[0] == "fix":
            hidden.add(item.line[1])
        if n > updates or m > added or a > 20000 or len(curators) > 64 or len(hidden) > 20:
            break
        cut -= 1
    facts = Facts(space.base)
    force, gone = list(space.base_force), set()
    seq = 0
    for item in order[:cut]:
        for r in item.runs:
            facts.apply(r.changes)
            seq = r.seq
            if r.force:
                force.append(r.force)
        if item.line[0] == "drop" and item.line[1] in force:
            force.remove(item.line[1])
    s = Session()
    s.format = 2
    s.relations = [(name, len(cols)) for name, cols in space.schema.relations]
    number = {i: i for i in range(len(s.relations))}
    mappings = [space.mappings[x] for x in force]
    used = []
    for item in order[cut:]:
        for r in item.runs:
            for t in facts_of(r):
                if t[0] >= WANT and t[0] not in used:
                    used.append(t[0])
    if WANT in used or UNKNOWN in used:
        for rel, name, arity in ((WANT, "_want", 1), (UNKNOWN, "_unknown", 2)):
            number[rel] = len(s.relations)
            s.relations.append((name, arity))
        mappings.append(space.hidden(WANT))
    for rel in sorted(x for x in used if x >= FIX):
        name = list(space.mappings)[rel - FIX]
        number[rel] = len(s.relations)
        s.relations.append(("_fix_" + name, max(1, len(space.frontier(space.mappings[name])))))
        mappings.append(space.hidden(rel, name))

    def moved(m, since=0):
        side = lambda atoms: tuple((number[r], ts) for r, ts in atoms)
        return Mapping(m.name, m.names, m.universal, side(m.left), side(m.right), since)
    s.mappings = [moved(m) for m in mappings]
    nulls = sorted({v for t in facts.all for v in t[1] if v[0] == 2})
    table = {n: (2, 0, j, 0) for j, n in enumerate(nulls, 1)}
    names = {(0, j): space.name_of[n[1:3]] for j, n in enumerate(nulls, 1)}

    def value(v):
        if v[0] != 2:
            return v
        return table[v] if v[1] <= seq else (2, v[1] - seq, v[2], 0)

    def fact(t):
        return (number[t[0]], tuple(value(v) for v in t[1]))
    s.base = sorted(fact(t) for t in facts.all)
    for item in order[cut:]:
        for j, r in enumerate(item.runs, 1):
            p = len(s.updates) + 1
            label = "u%d" % item.number if j == 1 else "u%d_%d" % (item.number, j)
            if r.force:
                s.mappings.append(moved(space.mappings[r.force], p))
                op = ("mapping", len(s.mappings) - 1)
            elif r.op[0] == "replace":
                op = ("replace", value(r.op[1]), value(r.op[2]))
            else:
                op = (r.op[0], fact(r.op[1]))
            answers = []
            for c in r.choices:
                if c[0] == "unify":
                    c = ("unify", fact(c[1]))
                elif c[0] == "delete":
                    c = ("delete", tuple(fact(t) for t in c[1]))
                answers.append(c)
            s.updates.append(Update(label, item.curator, op, answers))
            for k in range(1, r.drawn + 1):
                names[(p, k)] = space.name_of[(r.seq, k)]
    return s, names, order[cut:], order[:cut]


def facts_of(r):
    return [t for _, t in r.changes] + ([r.op[1]] if r.op[0] in ("insert", "delete") else [])


def dump_text(space):
    s, names, inside, before = session_of(space)
    lines = session_text(s).decode().split("\n")
    notes = []
    if before:
        notes.append("# the base has the first %d updates in it, up to u%d" % (len(before), before[-1].number))
    notes += ["# ?%d.%d is ?%d.%d" % (k + n) for k, n in sorted(names.items())]
    for n in sorted(space.waiting):
        item = space.waiting[n]
        notes.append("# waits: %s %s" % (item.curator, item_line(space.schema, item)))
    return "\n".join(lines[:1] + notes + lines[1:])

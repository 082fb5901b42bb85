"""From bytes to a session, or to the first fault: the checks of each statement in their order."""
from .statements import Line
from .tokens import Fault, lex_line, line_of
from .values import Mapping, Session, Update, is_null

LIMITS = {1: {"relations": 64, "base": 20000, "answers": 10000},
          2: {"relations": 128, "base": 100000, "answers": 20000}}
MAPPINGS, ADDED, UPDATES, CURATORS = 64, 16, 1000, 64
SECTION = {"relation": 1, "mapping": 2, "base": 3, "update": 4, "answer": 4, "end": 5}


class Schema:
    """The relations by name."""

    def __init__(self, relations=()):
        self.relations = list(relations)
        self.number = {name: r for r, (name, _) in enumerate(self.relations)}

    def add(self, name, columns):
        self.number[name] = len(self.relations)
        self.relations.append((name, columns))

    def relation(self, name, found):
        if name not in self.number:
            raise Fault("UnknownRelation", name)
        r = self.number[name]
        if self.relations[r][1] != found:
            raise Fault("Arity", name, self.relations[r][1], found)
        return r

    def fact(self, raw):
        name, values = raw
        return self.relation(name, len(values)), tuple(values)


def check_sides(left, right):
    for side in (left, right):
        if not side:
            raise Fault("EmptySide")
    for side in (left, right):
        if len(side) > 8:
            raise Fault("TooManyAtoms")


def numbered(schema, atoms, names):
    """The atoms with their relations and variables by number; new names are added after the others."""
    out = []
    for relation, terms in atoms:
        r = schema.relation(relation, len(terms))
        for kind, name in terms:
            if kind == "v" and name not in names:
                names.append(name)
        out.append((r, tuple((kind, names.index(x)) if kind == "v" else (kind, x) for kind, x in terms)))
    return tuple(out)


def mapping_of(schema, name, left, right, since):
    check_sides(left, right)
    names = []
    first = numbered(schema, left, names)
    universal = len(names)
    return Mapping(name, names, universal, first, numbered(schema, right, names), since)


def has_plain_cycle(mappings):
    """Whether some relation leads to itself, in one step or more, through right atoms without existential variables."""
    leads = {}
    for m in mappings:
        for r, terms in m.right:
            if not any(kind == "v" and v >= m.universal for kind, v in terms):
                for left, _ in m.left:
                    leads.setdefault(left, set()).add(r)
    for start in leads:
        seen, todo = set(), [start]
        while todo:
            for r in leads.get(todo.pop(), ()):
                if r == start:
                    return True
                if r not in seen:
                    seen.add(r)
                    todo.append(r)
    return False


def nulls_within(values, most):
    for v in values:
        if is_null(v) and v[1] > most:
            raise Fault("NullNotBelow", v[1], v[2])


def choice_of(kind, facts):
    return {"expand": lambda: (kind,), "unify": lambda: (kind, facts[0]), "delete": lambda: (kind, tuple(facts))}[kind]()


class Reader:
    """A session as far as it has been read. Each `read_*` takes a line after its first word."""

    def __init__(self):
        self.session, self.schema = None, Schema()
        self.names, self.labels, self.curators, self.base = set(), {}, set(), set()
        self.answers, self.section = 0, 0       # section 0: before the header

    def limit(self, which, count):
        if count >= LIMITS[self.session.format][which]:
            raise Fault("LimitReached", which)

    def statement(self, tokens):
        if self.section == 0:
            if [t[0] for t in tokens] != ["name", "number"] or tokens[0][3] != "youtopia" or tokens[1][3] not in LIMITS:
                raise Fault("Header")
            self.session, self.section = Session(tokens[1][3]), 1
            return
        if self.section == 5:
            raise Fault("AfterEnd")
        kind, word = tokens[0][0], tokens[0][3]
        if kind != "name" or SECTION.get(word, 0) < self.section:
            raise Fault("Expected", "statement")
        getattr(self, "read_" + word)(Line(tokens, 1))
        self.section = SECTION[word]

    def read_relation(self, line):
        name = line.take("name", "name")
        columns = line.take("number", "number")
        line.end()
        if name in self.schema.number:
            raise Fault("DuplicateName", name)
        if not 1 <= columns <= 8:
            raise Fault("LimitReached", "arity")
        self.limit("relations", len(self.schema.relations))
        self.schema.add(name, columns)

    def read_mapping(self, line):
        self.add_mapping(line.mapping(), 0)

    def add_mapping(self, raw, since):
        name, left, right = raw
        mappings = self.session.mappings
        if name in self.names:
            raise Fault("DuplicateName", name)
        if len(mappings) >= MAPPINGS or since and sum(m.since > 0 for m in mappings) >= ADDED:
            raise Fault("LimitReached", "mappings")
        mapping = mapping_of(self.schema, name, left, right, since)
        if has_plain_cycle(mappings + [mapping]):
            raise Fault("PlainCycle", name)
        self.names.add(name)
        mappings.append(mapping)

    def read_base(self, line):
        t = self.schema.fact(line.whole_fact())
        nulls_within(t[1], 0)
        if t not in self.base:
            self.limit("base", len(self.base))
        self.base.add(t)

    def read_update(self, line):
        label = line.take("name", "name")
        curator = line.take("name", "name")
        raw = line.operation(self.session.format == 2)
        updates = self.session.updates
        if label in self.labels:
            raise Fault("DuplicateName", label)
        if len(updates) >= UPDATES:
            raise Fault("LimitReached", "updates")
        if curator not in self.curators and len(self.curators) >= CURATORS:
            raise Fault("LimitReached", "curators")
        operation = self.operation_of(raw, len(updates) + 1)
        self.curators.add(curator)
        updates.append(Update(label, curator, operation))
        self.labels[label] = len(updates)

    def operation_of(self, raw, number):
        if raw[0] == "mapping":
            self.add_mapping(raw[1], number)
            return "mapping", len(self.session.mappings) - 1
        if raw[0] == "replace":
            nulls_within(raw[1:], number - 1)
            return raw
        t = self.schema.fact(raw[1])
        nulls_within(t[1], number - 1)
        return raw[0], t

    def read_answer(self, line):
        label = line.take("name", "name")
        kind, raws = line.choice()
        if label not in self.labels:
            raise Fault("UnknownLabel", label)
        self.limit("answers", self.answers)
        facts = []
        for raw in raws:
            facts.append(self.schema.fact(raw))
            nulls_within(facts[-1][1], self.labels[label])
        self.answers += 1
        self.session.updates[self.labels[label] - 1].answers.append(choice_of(kind, facts))

    def read_end(self, line):
        line.end()

    def finished(self):
        self.session.relations = self.schema.relations
        self.session.base = sorted(self.base)
        return self.session


def at_line(fault, line):
    fault.line = line
    return fault


def read_session(data):
    """The session of the bytes; raises the first fault, with its line, if there is one."""
    try:
        data.decode("utf-8")
    except UnicodeDecodeError as wrong:
        raise at_line(Fault("BadByte", wrong.start), 1 + data.count(b"\n", 0, wrong.start)) from None
    reader, place, line = Reader(), 0, 1
    while place is not None:
        try:
            tokens, place = lex_line(data, place)
            if tokens:
                reader.statement(tokens)
        except Fault as fault:
            raise at_line(fault, line)
        line += 1
    if reader.section != 5:
        raise at_line(Fault("NoEnd" if reader.section else "Header"), 1 + data.count(b"\n"))
    return reader.finished()


def read_one(text, form, meaning):
    """The content of a text of one line: None if it does not have the form, False if it fits no relation."""
    tokens = line_of(text)
    if tokens is None:
        return None
    try:
        raw = form(Line(tokens))
    except Fault:
        return None
    try:
        return meaning(raw)
    except Fault:
        return False


def read_fact(schema, text):
    return read_one(text, Line.whole_fact, schema.fact)


def is_fact(text):
    return bool(read_one(text, Line.whole_fact, lambda raw: True))


def read_choice(schema, text):
    return read_one(text, Line.choice, lambda raw: choice_of(raw[0], [schema.fact(fact) for fact in raw[1]]))

"""The printed form of sessions, tuples, mappings and answers. Texts are bytes."""
from .values import FORCE, is_null


def value_text(value, inner=False):
    """A value; with `inner` a null has its attempt too, as in traces."""
    if is_null(value):
        return b"?%d.%d@%d" % value[1:] if inner else b"?%d.%d" % value[1:3]
    if value[0] == 0:
        return b"%d" % value[1]
    return b'"' + value[1].replace(b"\\", b"\\\\").replace(b'"', b'\\"').replace(b"\n", b"\\n") + b'"'


def tuple_text(relations, t, inner=False):
    if t[0] == FORCE:
        return b"*" + value_text(t[1][0])
    return relations[t[0]][0].encode() + b"(" + b", ".join(value_text(v, inner) for v in t[1]) + b")"


def tuples_text(relations, tuples):
    return b", ".join(tuple_text(relations, t) for t in tuples)


def side_text(relations, mapping, atoms):
    def term_text(term):
        kind, x = term
        return mapping.names[x].encode() if kind == "v" else value_text(x)
    return b", ".join(relations[r][0].encode() + b"(" + b", ".join(map(term_text, terms)) + b")" for r, terms in atoms)


def mapping_text(relations, mapping):
    sides = [side_text(relations, mapping, side) for side in (mapping.left, mapping.right)]
    return b"mapping " + mapping.name.encode() + b": " + sides[0] + b" -> " + sides[1]


def choice_text(relations, choice):
    if choice[0] == "expand":
        return b"expand"
    return choice[0].encode() + b" " + tuples_text(relations, [choice[1]] if choice[0] == "unify" else choice[1])


def operation_text(session, operation):
    if operation[0] == "replace":
        return b"replace " + value_text(operation[1]) + b" with " + value_text(operation[2])
    if operation[0] == "mapping":
        return mapping_text(session.relations, session.mappings[operation[1]])
    return operation[0].encode() + b" " + tuple_text(session.relations, operation[1])


def lines_of(session):
    yield b"youtopia %d" % session.format
    for name, columns in session.relations:
        yield b"relation %s %d" % (name.encode(), columns)
    for mapping in session.mappings:
        if not mapping.since:
            yield mapping_text(session.relations, mapping)
    for t in session.base:
        yield b"base " + tuple_text(session.relations, t)
    for update in session.updates:
        yield b"update %s %s " % (update.label.encode(), update.curator.encode()) + operation_text(session, update.operation)
        for choice in update.answers:
            yield b"answer " + update.label.encode() + b" " + choice_text(session.relations, choice)
    yield b"end"


def session_text(session):
    return b"".join(line + b"\n" for line in lines_of(session))

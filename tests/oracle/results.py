"""The printed result of a run: the result text, a question's lines, the saved session."""
from .printing import tuple_text
from .values import Mapping, Session, is_null


def question_lines(session, question):
    head = b"question %s %s" % (question[0].encode(), session.mappings[question[1]].name.encode())
    if question[0] == "positive":
        head += b" " + tuple_text(session.relations, question[2])
    return [head] + [b"candidate " + tuple_text(session.relations, t) for t in question[-1]]


def named(session, number):
    update = session.updates[number - 1]
    return b"%d %s %s" % (number, update.label.encode(), update.curator.encode())


def result_lines(session, result):
    yield b"youtopia result 1"
    for number, outcome, refused, steps, nulls in result.finishes:
        end = outcome.encode() + (b" ?%d.%d" % refused if refused else b"")
        yield b"update %s %s steps %d nulls %d" % (named(session, number), end, steps, nulls)
    if result.stop:
        number, question, lack = result.stop
        yield b"stuck %s %s" % (named(session, number), lack.encode())
        yield from question_lines(session, question)
    yield b"repository %d" % len(result.repository)
    yield from (tuple_text(session.relations, t) for t in result.repository)
    yield b"committed %d of %d" % (len(result.finishes), len(session.updates))


def result_text(session, result):
    return b"".join(line + b"\n" for line in result_lines(session, result))


def saved(session, result):
    """The final repository as a session that begins with it: its mappings are there from the start, its nulls are nulls of a
    base."""
    left = Session(2)
    left.relations = session.relations
    done = {number for number, outcome, *_ in result.finishes if outcome == "done"}
    left.mappings = [Mapping(m.name, m.names, m.universal, m.left, m.right)
                     for m in session.mappings if not m.since or m.since in done]
    nulls = sorted({v for t in result.repository for v in t[1] if is_null(v)})
    names = {null: (2, 0, place, 0) for place, null in enumerate(nulls, 1)}
    left.base = sorted((t[0], tuple(names.get(v, v) for v in t[1])) for t in result.repository)
    return left

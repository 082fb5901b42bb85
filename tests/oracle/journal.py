"""The journal of commits: its bytes, and what is recovered from them.

A journal is the session's beginning as a payload, a gate, and for each commit, after an open gate, a payload and the next gate. A
payload has its length in four bytes before it. The last gate is shut.
"""
from .checks import Schema, read_fact, read_session
from .printing import session_text, tuple_text
from .tokens import Fault
from .values import FORCE, Facts, Session, outer

LIMIT = 16777216
OPEN, SHUT = b"\1", b"\0"


def sized(payload):
    return len(payload).to_bytes(4, "big") + payload


def beginning(session):
    """The session without its updates, and without the mappings that they add."""
    begun = Session(session.format)
    begun.relations, begun.base = session.relations, session.base
    begun.mappings = [m for m in session.mappings if not m.since]
    return begun


def commit_payload(relations, number, writes):
    lines = [(b"+" if insertion else b"-") + tuple_text(relations, outer(t)) for insertion, t in writes if t[0] != FORCE]
    return b"".join(line + b"\n" for line in [b"commit %d" % number] + lines)


def journal_bytes(session, result):
    """The journal of a serial run, or None if a payload or the whole journal has too many bytes."""
    payloads = [session_text(beginning(session))]
    for (number, *_), writes in zip(result.finishes, result.trails):
        payloads.append(commit_payload(session.relations, number, writes))
    data = OPEN.join(map(sized, payloads)) + SHUT
    return data if max(map(len, payloads + [data])) <= LIMIT else None


class Damaged(Exception):
    """The place at which bytes stop being a journal."""


def payload_at(data, place, damage):
    """A payload and the place after it."""
    size = int.from_bytes(data[place:place + 4], "big")
    if len(data) < place + 4 + size:
        raise Damaged(damage)
    return data[place + 4:place + 4 + size], place + 4 + size


def writes_in(schema, number, payload):
    """The writes of the payload of this commit, or None if it is not in its printed form."""
    head, *lines = payload[:-1].split(b"\n")
    if not payload.endswith(b"\n") or head != b"commit %d" % number or number > 4294967295:
        return None
    writes = []
    for line in lines:
        t = read_fact(schema, line[1:])
        if line[:1] not in (b"+", b"-") or not t or tuple_text(schema.relations, t) != line[1:]:
            return None
        writes.append((line[:1] == b"+", t))
    return writes


def recover(data):
    """The session that the journal begins with, the number of commits, and the repository that they left."""
    payload, place = payload_at(data, 0, 0)
    try:
        session = read_session(payload)
    except Fault:
        raise Damaged(0) from None
    if session.updates or session_text(session) != payload:
        raise Damaged(0)
    commits, facts, schema = 0, Facts(session.base), Schema(session.relations)
    while True:
        if place >= len(data):
            raise Damaged(place)
        if data[place:place + 1] != OPEN:
            return session, commits, facts.list()
        payload, following = payload_at(data, place + 1, place)
        writes = writes_in(schema, commits + 1, payload)
        if writes is None:
            raise Damaged(place)
        facts.apply(writes)
        commits, place = commits + 1, following

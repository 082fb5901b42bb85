"""What a conversation commits, by its replies alone, and what the serial machine makes of the same updates."""
import json
import re

from .printing import tuple_text
from .serial import answered
from .steps import whole
from .values import Facts

NULL = re.compile(rb'("(?:[^"\\]|\\.)*")|(\?\d+\.\d+)@\d+')


def outer_text(text):
    """A tuple's text without the attempts of its nulls."""
    return NULL.sub(lambda found: found[1] or found[2], text)


def trails(replies):
    """The writes of each update that stand after the replies, and how many updates are committed."""
    writes, committed = {}, 0
    for line in replies:
        if not line.startswith(b"{"):
            continue
        entry = json.loads(line)
        number = entry["update"]
        writes.setdefault(number, []).extend(entry.get("writes", ()))
        for cause in entry.get("causes", ()):
            writes[cause["reader"]] = []
        if entry["event"] == "withdrawn" or entry.get("status") == "spent":
            writes[number] = []
        committed = entry.get("committed", committed)
    return writes, committed


def left_by_replies(session, replies):
    """The texts of the tuples that the replies say are committed, in the order of their bytes, and the count of updates."""
    writes, committed = trails(replies)
    left = {outer_text(tuple_text(session.relations, t, inner=True)) for t in answered(session.base)}
    for number in range(1, committed + 1):
        for write in writes.get(number, ()):
            if write[1] != "*":             # a mapping in force, not a tuple that people see
                (left.add if write[0] == "+" else left.discard)(outer_text(write[1:].encode()))
    return sorted(left), committed


def left_by_serial(core, committed):
    """The texts of the tuples that the serial machine leaves of so many updates, each with the answers delivered to it."""
    facts = Facts(core.session.base)
    for update in core.updates[:committed]:
        if not update.withdrawn:
            whole(facts, update.number, update.operation, update.answers, core.mappings, core.steps)
    return sorted(tuple_text(core.session.relations, t) for t in answered(facts.list()))


def is_serial(live, replies):
    """Whether the replies commit what the serial machine makes of the committed updates of the conversation."""
    left, committed = left_by_replies(live.session, replies)
    return left == left_by_serial(live.core, committed)

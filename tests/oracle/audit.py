"""The auditor: whether a trace is the trace of a legal history, which is replayed event by event."""
import json
import re

from .checks import Schema, read_choice
from .core import Core, Refusal
from .results import result_text
from .serial import serial
from .tokens import Fault, lex_line
from .traces import entry_line

RESULT = b"youtopia result 1\n"
EVENTS = ("admitted", "stepped", "delivered", "answered", "withdrawn")
DEEPEST = 127


class Bad(Exception):
    """What is wrong with a line: its form, its event, or the event's effect."""


def number_of(text):
    if len(text) > 310:
        raise ValueError
    return int(text)


def finite(text):
    if float(text) in (float("inf"), float("-inf")):
        raise ValueError
    return float(text)


def no_constant(text):
    raise ValueError


def depth(value):
    inner = value.values() if isinstance(value, dict) else value if isinstance(value, list) else None
    return 0 if inner is None else 1 + max(map(depth, inner), default=0)


def object_of(line):
    """The object of a line of JSON. Of equal keys the last counts; a text with a lone surrogate is not accepted."""
    try:
        value = json.loads(line.decode("utf-8"), parse_constant=no_constant, parse_float=finite, parse_int=number_of)
        json.dumps(value, ensure_ascii=False).encode("utf-8")
    except (ValueError, RecursionError):
        raise Bad("form") from None
    if not isinstance(value, dict) or depth(value) > DEEPEST:
        raise Bad("form")
    return value


def event_of(line, schema):
    """The event of a line, the update and, for an answer, the choice."""
    told = object_of(line)
    event, number, choice = told.get("event"), told.get("update"), told.get("choice")
    if event not in EVENTS or type(number) is not int or not 1 <= number <= 1000:
        raise Bad("form")
    if event != "answered":
        return event, number, None
    choice = isinstance(choice, str) and read_choice(schema, choice.encode("utf-8"))
    if not choice:
        raise Bad("form")
    return event, number, choice


def replay(core, event, number, choice):
    if event == "admitted":
        if number != len(core.updates) + 1:
            raise Bad("event")
        core.enter(core.session.updates[number - 1])
    elif event == "answered":
        core.answer(number, choice)
    else:
        {"stepped": core.step, "delivered": core.deliver, "withdrawn": core.withdraw}[event](number)


def check_line(core, line, schema):
    """Makes the event of a line. All its updates are admitted first."""
    event, number, choice = event_of(line, schema)
    if (event == "admitted") != (len(core.updates) < len(core.session.updates)):
        raise Bad("event")
    try:
        replay(core, event, number, choice)
    except Refusal:
        raise Bad("event") from None
    if entry_line(core.session.relations, core.history[-1]) != line:
        raise Bad("effect")


def audit(session, steps, retries, precise, trace):
    """The verdict on a trace, in one line."""
    head = re.match(rb"trace (0|[1-9][0-9]*)\n", trace)
    lines = trace.split(b"\n")[1:-1]
    if not head or not trace.endswith(b"\n") or len(head[1]) > 9 or int(head[1]) != len(lines):
        return b"no line 1 form"
    core, schema = Core(session, steps, retries, precise, admitted=False), Schema(session.relations)
    for number, line in enumerate(lines, 2):
        try:
            check_line(core, line, schema)
        except Bad as bad:
            return b"no line %d %s" % (number, bad.args[0].encode())
    if len(core.updates) < len(session.updates):
        return b"no line %d event" % (len(lines) + 2)
    return b"yes entries %d %s" % (len(lines), b"quiet" if core.is_quiet() else b"open")


def session_end(data):
    """The place after the first line that has `end` as its only token, or None."""
    place = 0
    while place is not None:
        try:
            tokens, following = lex_line(data, place)
        except Fault:
            end = data.find(b"\n", place)
            tokens, following = [], None if end < 0 else end + 1
        if [token[3] for token in tokens if token[0] == "name"] == ["end"] and len(tokens) == 1:
            return len(data) if following is None else following
        place = following
    return None


def split(data):
    """The session's part of an input, and the rest."""
    place = session_end(data)
    return (data, b"") if place is None else (data[:place], data[place:])


def audit_rest(session, steps, retries, precise, rest):
    """The verdict on the text after a session: perhaps a result text, which must be the session's, then a trace."""
    if (rest + b"\n").startswith(RESULT):
        begins = re.search(rb"^trace ", rest, re.M)
        text, rest = (rest[:begins.start()], rest[begins.start():]) if begins else (rest, b"")
        if text != result_text(session, serial(session, steps)):
            return b"no result"
    return audit(session, steps, retries, precise, rest)

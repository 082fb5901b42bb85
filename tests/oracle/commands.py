"""The program as a function of its words and its input: a status, a text for the output, a line for the error stream."""
from .ask import answers_text, bind_ask, certain, parse_ask
from .audit import audit_rest, split
from .checks import Schema, read_fact, read_session
from .core import Core
from .drill import drill, summary
from .explain import explain, explanation_text
from .journal import LIMIT, Damaged, journal_bytes, recover
from .printing import session_text, tuple_text, tuples_text
from .results import result_text, saved
from .serial import base_violation, serial
from .tokens import Fault
from .traces import trace_text
from .values import Facts
from .words import HELP, Refused, read_words

USAGE = (2, b"", b"youtopia: usage: youtopia COMMAND [OPTIONS]\n")
TOO_LARGE = (9, b"", b"youtopia: output too large\n")


def drained(session, said):
    core = Core(session, said["steps"], said["retries"], said["deps"] == "precise")
    core.drain()
    return core


def do_run(session, said):
    core = drained(session, said)
    result = core.result()
    trace = trace_text(session.relations, core.history) if said["trace"] else b""
    return (1 if result.stop else 0), result_text(session, result) + trace, b""


def of_serial(make):
    """A command on the serial run. `make` gives the text from the session, the result and the options; None is too large."""
    def do(session, said):
        result = serial(session, said["steps"])
        text = make(session, result, said)
        return TOO_LARGE if text is None else ((1 if result.stop else 0), text, b"")
    return do


def save_text(session, result, said):
    text = session_text(saved(session, result))
    return text if len(result.repository) <= 100000 and len(text) <= LIMIT else None


def explained(session, result, said):
    t = read_fact(Schema(session.relations), said["tuple"].encode())
    reasons = explain(session, said["steps"], t) if t else None
    return b"absent\n" if reasons is None else explanation_text(session, reasons)


def do_ask(session, said):
    try:
        query = bind_ask(Schema(session.relations), parse_ask(said["query"].encode()))
    except Fault as fault:
        return 11, b"", b"youtopia: query: " + fault.words.encode() + b"\n"
    return of_serial(lambda s, result, _: answers_text(certain(query, Facts(result.repository))))(session, said)


def do_check(session, said):
    answers = sum(len(update.answers) for update in session.updates)
    counts = len(session.relations), len(session.mappings), len(session.base), len(session.updates), answers
    return 0, b"ok relations %d mappings %d base %d updates %d answers %d\n" % counts, b""


def do_format(session, said):
    return 0, session_text(session), b""


def do_upgrade(session, said):
    session.format = 2
    return do_format(session, said)


def do_drill(said):
    session = drill(said["count"], said["seed"])
    return 0, summary(said["count"], said["seed"], serial(session, said["steps"])), b""


def do_recover(data):
    try:
        session, commits, repository = recover(data)
    except Damaged as damaged:
        return 12, b"", b"youtopia: journal damaged at %d\n" % damaged.args[0]
    lines = b"".join(tuple_text(session.relations, t) + b"\n" for t in repository)
    return 0, b"commits %d\nrepository %d\n" % (commits, len(repository)) + lines, b""


# The commands on any session, and those on a session whose base meets its mappings.
ON_ANY = {"format": do_format, "upgrade": do_upgrade}
ON_MET = {
    "check": do_check,
    "run": do_run,
    "serial": of_serial(lambda session, result, said: result_text(session, result)),
    "save": of_serial(save_text),
    "explain": of_serial(explained),
    "ask": do_ask,
    "journal": of_serial(lambda session, result, said: journal_bytes(session, result)),
}


def on_session(said, data):
    data, rest = split(data) if said["command"] == "audit" else (data, b"")
    try:
        session = read_session(data)
    except Fault as fault:
        return 3, b"", b"youtopia: session line %d: fault %d: %s\n" % (fault.line, fault.number, fault.words.encode())
    if said["command"] in ON_ANY:
        return ON_ANY[said["command"]](session, said)
    violated = base_violation(session)
    if violated:
        mapping, image = violated
        return 4, b"", b"youtopia: base violates %s: %s\n" % (mapping.name.encode(), tuples_text(session.relations, image))
    if said["command"] == "audit":
        line = audit_rest(session, said["steps"], said["retries"], said["deps"] == "precise", rest)
        return (10 if line.startswith(b"no") else 0), line + b"\n", b""
    return ON_MET[said["command"]](session, said)


def youtopia(words, data):
    """The status, the text for the output (None for the library's own help), and the line for the error stream."""
    try:
        said = read_words(words)
    except Refused:
        return USAGE
    if said == HELP:
        return 0, None, b""
    if said["command"] == "drill":
        return do_drill(said)
    if len(data) > LIMIT:
        return 8, b"", b"youtopia: input longer than %d bytes\n" % LIMIT
    if said["command"] == "recover":
        return do_recover(data)
    return on_session(said, data)

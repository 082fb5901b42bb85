"""Random cases: words and an input, for each command."""
from .core import Core
from .joins import join_session
from .journal import beginning, commit_payload, journal_bytes, sized
from .printing import session_text, tuple_text
from .results import result_text
from .serial import serial
from .sessions import busy_session, random_session
from .spelling import mangle, respell
from .steps import fits
from .traces import trace_text

ON_SESSIONS = ["run"] * 6 + ["serial", "format", "check", "save", "upgrade"] * 2

# Command lines that are refused, accepted or ask for help; the first has no words. A pair of quotes is an empty word.
WORDS = [["" if word == "''" else word for word in line.split()] for line in """
dance|run --workers 0|run --workers 17|run --workers x|run --workers|run --workers=|run --steps 0|run --steps 301
run --steps -1|run --retries 5|run --retries=-1|run --deps both|run --deps|run --deps=|run --bogus|run -x|run serial
run --trace=1|run --trace --trace|run --steps 3 --steps 3|--steps 3|-- --trace|run -- --trace|-- dance|RUN|''|-|run -
run --count 0|run --count 1001|run --seed 4294967296|run --seed 1.5|run --seed ''|run --steps 0x3
explain|explain --tuple|explain --tuple A(|explain --tuple A(x)|explain --tuple ''|explain --tuple A(1),|explain --tuple=
explain --tuple A(1) --tuple A(1)|explain --tuple A(99999999999999999999)|check --tuple -x|check --tuple --trace
ask|ask --query|ask --query q|ask --query q(x):A(y)|ask --query q(1):A(1)|ask --query q():A(x)|ask --query q(x):A(x),
ask --query q(x):A(?0.1),A(x)|ask --query q(x):A(x)->A(x)|--workers --trace run|--workers --help|-h --bogus|--help
run --help|-V|--version|--bogus --help|run serial --help|--help=1|dance --help|--workers 17 --help
run --steps=+3|run --steps 003|-- run|run --|--workers=1 -- run|--deps=coarse run|run --tuple=|run --tuple ''|run --tuple -
check --trace|format --deps coarse --seed 4294967295|run --tuple=-x|run --count 1000 --seed 0""".replace("\n", "|").split("|")]

BAD_EVENTS = [b"{}", b"[]", b"", b"null", b"\xff", b'{"event":"stepped","update":1,}', b'{"event":"stepped","update":1}',
              b'{"event":"hop","update":1}', b'{"event":"admitted","update":1}', b'{"event":"stepped","update":1001}',
              b'{"event":"stepped","update":1.0}', b'{"event":"stepped","update":"1"}', b'{"event":"answered","update":1}',
              b'{"choice":"expand","event":"answered","update":1}', b'{"choice":"hop","event":"answered","update":1}',
              b'{"choice":7,"event":"answered","update":1}', b'{"event":"delivered","update":1}', b'{"event":"withdrawn","update":1}']
BAD_HEADS = [b"trace 0", b"trace 00", b"trace", b"trace  1", b"trace -1", b"Trace 1", b"trace 99999999999999999999"]
EFFECTS = [(b'"committed":0', b'"committed":1'), (b'"causes":[]', b'"causes":[{}]'), (b'"update":1', b'"update":2'),
           (b'"ready"', b'"done"'), (b'"attempt":0', b'"attempt":1'), (b",", b", ")]


def option(rng, name, value):
    return ["--%s=%s" % (name, value)] if rng.random() < 0.3 else ["--" + name, str(value)]


def options(rng, command, steps):
    """The command with some of its options, in any order."""
    parts = [[command]]
    if rng.random() < 0.7:
        parts.append(option(rng, "steps", rng.choice([steps, steps, 1, 2, 4, 300])))
    if rng.random() < 0.3:
        parts.append(option(rng, "deps", rng.choice(["coarse", "precise"])))
    if rng.random() < 0.3:
        parts.append(option(rng, "retries", rng.randrange(5)))
    if rng.random() < 0.4:
        parts.append(option(rng, "workers", rng.choice([1, 2, 3, 8, 16])))
    return [word for part in rng.sample(parts, len(parts)) for word in part]


def of_session(rng, maker, text):
    return options(rng, rng.choice(ON_SESSIONS), maker.steps), text


def of_trace(rng, maker, text):
    """A run with a trace, mostly of updates that conflict. One worker gives one history, several give any legal one."""
    words = ["run", "--trace", *option(rng, "workers", rng.choice([1, 2, 4, 8])), *option(rng, "retries", rng.randrange(5)),
             *option(rng, "deps", rng.choice(["coarse", "precise"]))]
    if rng.random() < 0.6:
        return words, session_text(busy_session(rng))
    return words + option(rng, "steps", maker.steps), text


def of_spelling(rng, maker, text):
    return options(rng, rng.choice(ON_SESSIONS + ["format"] * 4), maker.steps), respell(rng, text)


def of_mangled(rng, maker, text):
    text = respell(rng, text) if rng.random() < 0.3 else text
    return [rng.choice(["run", "format", "check", "serial"])], mangle(rng, text)


def of_open_base(rng, maker, text):
    maker.session.base = sorted(set(maker.session.base) | {maker.tuple(0) for _ in range(3)})
    return options(rng, rng.choice(ON_SESSIONS), maker.steps), session_text(maker.session)


def of_words(rng, maker, text):
    return rng.choice(WORDS), text


def of_explanation(rng, maker, text):
    pool = serial(maker.session, maker.steps).repository * 2 + [maker.tuple(len(maker.session.updates))]
    fact = tuple_text(maker.session.relations, rng.choice(pool)).decode()
    if rng.random() < 0.1:
        spelled = [" " + fact + " ", fact.replace("(", " ( "), fact.replace("?", "?0")]
        fact = rng.choice(["Nope(1)", "A(1, 2, 3, 4)"] + spelled)
    return ["explain", "--tuple=" + fact, "--steps", str(maker.steps)], text


def query(rng, session):
    atoms, used = [], []
    for _ in range(rng.choice([1, 1, 2, 2, 3])):
        name, columns = rng.choice(session.relations)
        name, columns = rng.choice([(name, columns)] * 24 + [("Nope", columns), (name, columns + 1)])
        terms = [rng.choice(list("xyzw") * 4 + ["1", "2", '"US"', "3"]) for _ in range(columns)]
        used += [term for term in terms if term in "xyzw"]
        atoms.append("%s(%s)" % (name, ", ".join(terms)))
    head = [rng.choice(used or ["x"]) for _ in range(rng.choice([1, 1, 2, 3]))]
    return "q(%s): %s" % (", ".join(head), ", ".join(atoms))


def of_query(rng, maker, text):
    return ["ask", "--query", query(rng, maker.session), "--steps", str(maker.steps)], text


def events(rng, maker, core):
    """The events that are allowed, more likely ones several times."""
    for u in core.updates[core.committed:]:
        standing = core.standing(u.number)[0]
        if standing == "ready":
            yield from [(core.step, u.number)] * 6
        if standing == "pending" and u.inbox:
            yield from [(core.deliver, u.number)] * 4
        if standing in ("pending", "misfit"):
            choice = maker.answer(core.question(u.number), u.number)
            if fits(core.question(u.number), choice):
                yield core.answer, u.number, choice
        if standing != "withdrawn" and rng.random() < 0.1:
            yield core.withdraw, u.number


def history(rng, maker, retries, precise):
    """The trace of a random history, with answers and withdrawals."""
    core = Core(maker.session, maker.steps, retries, precise)
    for _ in range(rng.choice([0, 3, 10, 40])):
        allowed = list(events(rng, maker, core))
        if not allowed:
            break
        event, *given = rng.choice(allowed)
        event(*given)
    if rng.random() < 0.6:
        core.drain()
    return trace_text(maker.session.relations, core.history)


def bend(rng, trace):
    """A trace with one change, which may make it wrong."""
    lines = trace.split(b"\n")
    at = rng.randrange(len(lines))
    kind = rng.choice(["byte"] * 3 + ["drop", "add", "swap", "head", "effect", "effect", "cut"])
    if kind == "byte" and lines[at]:
        place = rng.randrange(len(lines[at]))
        lines[at] = lines[at][:place] + bytes([rng.choice(b'0123456789"{}[],?+-abc \\')]) + lines[at][place + 1:]
    elif kind == "drop":
        del lines[at]
        lines[:1] = [b"trace %d" % max(0, len(lines) - 2)]
    elif kind == "add":
        lines.insert(max(1, at), rng.choice(BAD_EVENTS))
        lines[0] = b"trace %d" % (len(lines) - 2)
    elif kind == "swap":
        other = rng.randrange(len(lines))
        lines[at], lines[other] = lines[other], lines[at]
    elif kind == "head":
        lines[0] = rng.choice(BAD_HEADS + [b"trace %d" % len(lines)])
    elif kind == "effect":
        for old, new in rng.sample(EFFECTS, 2):
            lines[at] = lines[at].replace(old, new, 1)
    elif kind == "cut":
        return trace[:rng.randrange(len(trace))]
    return b"\n".join(lines)


def of_audit(rng, maker, text):
    retries, deps = rng.randrange(5), rng.choice(["coarse", "precise"])
    trace, between = history(rng, maker, retries, deps == "precise"), b""
    if rng.random() < 0.6:
        trace = bend(rng, trace)
    if rng.random() < 0.3:
        told = result_text(maker.session, serial(maker.session, maker.steps))
        bent = [told.replace(b"done", b"spent", 1), told[:-1], told + b"\n", told.replace(b"committed", b"committed ")]
        between = rng.choice([told] * 4 + bent)
    if rng.random() < 0.2:
        text = rng.choice([respell, mangle])(rng, text)
    return ["audit", "--steps", str(maker.steps), "--retries", str(retries), "--deps", deps], text + between + trace


def of_drill(rng, maker, text):
    words = ["drill", "--count", str(rng.choice([1, 2, 5, 20, 60])), "--seed", str(rng.randrange(2 ** 32))]
    words += ["--steps", str(rng.choice([1, 3, 4, 6, 100])), *option(rng, "workers", rng.choice([1, 2, 8]))]
    return words + option(rng, "retries", rng.randrange(5)) + option(rng, "deps", rng.choice(["coarse", "precise"])), b""


def of_journal(rng, maker, text):
    return ["journal", "--steps", str(maker.steps)], text


def odd_commit(rng, body):
    """The payload of a commit with something unusual in it."""
    respelled = [body.replace(b"(", b"( ", 1), body.replace(b"commit ", b"commit 0"), body.replace(b"+", b" +", 1)]
    ended = [body[:-1], body + b"\n", body + b"+A(1)", body + b"+Nope(1)\n", body + b"+*0\n", b"", b"commit\n"]
    return rng.choice(respelled + ended)


def made_journal(rng, maker):
    """A journal of commits that no run made, some of them odd."""
    session, number = maker.session, 0
    data = sized(session_text(beginning(session)))
    for _ in range(rng.choice([1, 2, 3])):
        number += rng.choice([1, 1, 1, 1, 2, 0])
        writes = [(rng.random() < 0.6, maker.tuple(3)) for _ in range(rng.randrange(3))]
        body = commit_payload(session.relations, number, writes)
        data += b"\1" + sized(odd_commit(rng, body) if rng.random() < 0.25 else body)
    return data + b"\0"


def of_recovery(rng, maker, text):
    data = journal_bytes(maker.session, serial(maker.session, maker.steps))
    at = rng.randrange(len(data) + 1)
    byte = bytes([rng.choice([0, 1, 2, rng.randrange(256)])])
    bent = [data[:at], data[:at] + byte + data[at + 1:], data[:at] + byte + data[at:], data + byte]
    return ["recover"], rng.choice([data, data[:at], *bent, made_journal(rng, maker), made_journal(rng, maker)])


def of_join(rng, maker, text):
    """A session with joins in place of the one drawn, or a query with such a join."""
    maker = join_session(rng, maker.steps)
    text = session_text(maker.session)
    if rng.random() < 0.8:
        return options(rng, rng.choice(["run", "run", "serial", "check"]), maker.steps), text
    atoms = [(maker.session.relations[r][0], [x if kind == "v" else str(x[1]) for kind, x in terms]) for r, terms in maker.join()]
    names = sorted({x for _, terms in atoms for x in terms if x.startswith("v")})
    head = ", ".join(rng.sample(names, rng.choice([1, 2, 2, 3])))
    body = ", ".join("%s(%s)" % (name, ", ".join(terms)) for name, terms in atoms)
    return ["ask", "--query", "q(%s): %s" % (head, body), "--steps", str(maker.steps)], text


# How often each kind comes, and the kinds that come only if they are asked for.
KINDS = {of_session: 26, of_mangled: 34, of_audit: 12, of_spelling: 10, of_explanation: 8, of_words: 6, of_query: 6, of_recovery: 6,
         of_trace: 6, of_journal: 4, of_open_base: 3, of_drill: 2}
ASKED = {of_join: 1}


def case(rng, asked=()):
    """A case's kind, its words and its input; of one of the kinds that are asked for, if there are any."""
    maker = random_session(rng, rng.choice([3, 5, 8, 12, 30, 100]))
    if rng.random() < 0.05:
        maker.session = busy_session(rng)
    kinds = {make: share for make, share in (KINDS | ASKED).items() if make.__name__[3:] in asked} if asked else KINDS
    make = rng.choices(list(kinds), list(kinds.values()))[0]
    words, data = make(rng, maker, session_text(maker.session))
    return make.__name__[3:], words, data

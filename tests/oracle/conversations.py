"""Random conversations: a session and lines of commands; most of them do something, some are refused."""
from .live import Live
from .printing import choice_text, session_text, tuple_text
from .sessions import random_session
from .spelling import mangle, respell

ODD = [b"", b"  ", b"# c", b"hop", b"step 1", b"deliver x", b"answer", b"answer u1", b"question", b"question nobody",
       b"withdraw nobody", b"withdraw", b"answer nobody expand", b"answer u1 expand", b"answer u1 unify Nope(1)",
       b"answer u1 delete A(1)", b"update u1 kim insert Nope(1)", b"update y kim insert Nope(1)", b"update y kim insert A(?99.1)",
       b"update y kim mapping m: A(x) -> A(v)", b"step # x", b"\xff", b"# \xff", b'question "', b"step\r", b" step", b"end",
       b"update y kim insert A(x)", b"answer u1 unify A(?99.1)", b"quit now"]


def admission(rng, maker, live):
    number = len(live.core.updates) + 1
    label = rng.choice(["x%d" % number] * 3 + ["u1"])
    if rng.random() < 0.15:
        return "update %s kim replace ?%d.1 with %s" % (label, rng.randrange(number + 1), rng.choice(["1", "?0.1"]))
    t = maker.tuple(number + (rng.random() < 0.1), 0.3)
    return "update %s kim %s %s" % (label, rng.choice(["insert", "insert", "delete"]), tuple_text(live.session.relations, t).decode())


def command(rng, maker, live):
    """One more line, which is likely to do something."""
    labels = list(live.labels) or ["u1"]
    paused = [(label, u) for label, u in live.labels.items() if live.core.standing(u)[0] in ("pending", "misfit")]
    drawn = rng.random()
    if drawn < 0.45:
        return b"step"
    if drawn < 0.55:
        return b"deliver"
    if drawn < 0.7 and paused:
        label, u = rng.choice(paused)
        return b"answer %s " % label.encode() + choice_text(live.session.relations, maker.answer(live.core.question(u), u))
    if drawn < 0.75:
        return b"question " + (rng.choice(paused)[0] if paused and rng.random() < 0.8 else rng.choice(labels)).encode()
    if drawn < 0.8:
        return b"withdraw " + rng.choice(labels).encode()
    if drawn < 0.9:
        return admission(rng, maker, live).encode()
    return b"quit" if drawn > 0.995 else rng.choice(ODD)


def opening(rng, maker):
    """The text of the session; sometimes in another spelling, and sometimes not a session."""
    text = session_text(maker.session)
    if rng.random() < 0.15:
        text = respell(rng, text)
    if rng.random() < 0.06:
        text = mangle(rng, text)
    if rng.random() < 0.03:
        maker.session.base = sorted(set(maker.session.base) | {maker.tuple(0) for _ in range(3)})
        text = session_text(maker.session)
    return text if text.endswith(b"\n") else text + b"\n"


def conversation(rng):
    """The bytes of a whole conversation; the last line may lack its line feed."""
    maker = random_session(rng, 100)
    text, live, lines = opening(rng, maker), Live(maker.session), []
    for _ in range(rng.choice([2, 10, 30, 80])):
        lines.append(command(rng, maker, live))
        if live.reply(lines[-1]) is None:
            break
    return text + b"\n".join(lines) + (b"\n" if rng.random() < 0.8 else b"")

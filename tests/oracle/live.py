"""The server of lines over one session: `python3 -m oracle.live < input`, a session and then one command a line."""
import sys

from .audit import session_end
from .checks import Schema, choice_of, read_session
from .core import Core, Refusal
from .journal import LIMIT
from .printing import tuples_text
from .results import question_lines
from .serial import base_violation
from .statements import Line
from .tokens import Fault, line_of
from .traces import entry_line
from .values import Update


class Refused(Exception):
    """Why a line is refused, in one word."""


class Live:
    def __init__(self, session):
        self.session, self.core, self.schema = session, Core(session), Schema(session.relations)
        self.labels = {update.label: number for number, update in enumerate(session.updates, 1)}

    def reply(self, text):
        """The lines of the reply to a line, none for a blank line; None if the line ends the session."""
        tokens = line_of(text)
        try:
            if tokens is None:
                raise Refused("line")
            return self.reply_to(Line(tokens)) if tokens else []
        except Refused as refused:
            return [b"refused " + refused.args[0].encode()]

    def reply_to(self, line):
        try:
            word = line.take("name", "name")
            form = getattr(self, "form_" + word, None)
            if form is None:
                raise Refused("line")
            given = form(line)
            line.end()
        except Fault:
            raise Refused("line") from None
        return getattr(self, "do_" + word)(*given)

    # ---- the command of each line; all of it is read before any of it is done

    def form_quit(self, line):
        return ()

    form_step = form_deliver = form_quit

    def form_update(self, line):
        return line.take("name", "name"), line.take("name", "name"), line.operation(False)

    def form_answer(self, line):
        return line.take("name", "name"), *line.choice()

    def form_question(self, line):
        return (line.take("name", "name"),)

    form_withdraw = form_question

    # ---- the effect of each command

    def entered(self):
        return [entry_line(self.session.relations, self.core.history[-1])]

    def number(self, label):
        if label not in self.labels:
            raise Refused("label")
        return self.labels[label]

    def facts(self, raws):
        try:
            return [self.schema.fact(raw) for raw in raws]
        except Fault:
            raise Refused("fact") from None

    def event(self, make, *given):
        """Makes an event. An event of an update that does not wait is refused by the update's standing."""
        try:
            make(*given)
        except Refusal as refusal:
            why, *standing = refusal.args
            raise Refused(standing[0][0] if standing else why) from None
        return self.entered()

    def do_quit(self):
        return None

    def do_step(self):
        number = self.core.lowest_runnable()
        return [b"idle"] if number is None else self.event(self.core.step, number)

    def do_deliver(self):
        number = self.core.lowest_deliverable()
        return [b"idle"] if number is None else self.event(self.core.deliver, number)

    def do_update(self, label, curator, raw):
        if label in self.labels:
            raise Refused("label")
        operation = raw if raw[0] == "replace" else (raw[0], *self.facts(raw[1:]))
        if len(self.core.updates) == 1000:
            raise Refused("full")
        if not self.core.can_admit(operation):
            raise Refused("null")
        reply = self.event(self.core.admit, Update(label, curator, operation))
        self.labels[label] = len(self.core.updates)
        return reply

    def do_answer(self, label, kind, raws):
        number = self.number(label)
        return self.event(self.core.answer, number, choice_of(kind, self.facts(raws)))

    def do_withdraw(self, label):
        return self.event(self.core.withdraw, self.number(label))

    def do_question(self, label):
        question = self.core.question(self.number(label))
        return [b"none"] if question is None else question_lines(self.session, question)


def served(live, lines):
    """The replies to the lines, and whether one of them ended the session."""
    out = [b"ready %d" % len(live.core.updates)]
    for line in lines:
        reply = live.reply(line)
        if reply is None:
            return out + [b"bye"], True
        out += reply
    return out, False


def held(data):
    """The session of a conversation that is not refused, after all its lines."""
    place = session_end(data)
    live = Live(read_session(data[:place]))
    served(live, data[place:].split(b"\n"))
    return live


def curate(words, data):
    """The status, the text for the output, and the line for the error stream."""
    if words:
        return 2, b"", b"yt_live: usage: yt_live\n"
    too_long = len(data) > LIMIT
    if too_long:
        data = data[:data.rfind(b"\n", 0, LIMIT) + 1]       # only whole lines count
    place = session_end(data)
    longer = (8, b"yt_live: input longer than %d bytes\n" % LIMIT)
    if place is None and too_long:
        return longer[0], b"", longer[1]
    place = len(data) if place is None else place
    try:
        session = read_session(data[:place])
    except Fault as fault:
        return 3, b"", b"yt_live: session line %d: fault %d: %s\n" % (fault.line, fault.number, fault.words.encode())
    violated = base_violation(session)
    if violated:
        mapping, image = violated
        return 4, b"", b"yt_live: base violates %s: %s\n" % (mapping.name.encode(), tuples_text(session.relations, image))
    lines = data[place:].split(b"\n")
    out, ended = served(Live(session), lines if lines[-1] else lines[:-1])
    text = b"".join(line + b"\n" for line in out)
    return (longer[0], text, longer[1]) if too_long and not ended else (0, text, b"")


def main():
    words = sys.argv[1:]
    status, out, err = curate(words, b"" if words else sys.stdin.buffer.read())
    sys.stdout.buffer.write(out)
    sys.stderr.buffer.write(err)
    sys.exit(status)


if __name__ == "__main__":
    main()

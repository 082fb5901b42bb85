"""A desk over a core, one call after the other: tickets with the plan of a step, which is made later or found stale.

Calls are drawn at random, or the seats come in every order."""
from .core import Core
from .matching import mentions
from .printing import session_text
from .results import result_text
from .traces import entry_line, trace_text


class Ticket:
    """A ticket of an update, with the step of its snapshot and the number of entries at that time."""

    def __init__(self, number, update, stamp, step):
        self.number, self.update, self.stamp, self.step = number, update, stamp, step


def planned(core, number):
    """The next step of an update at the present state: the program after it, its reads and its writes."""
    u = core.update(number)
    after, own = u.program.copy(), list(u.program.own)
    undo = core.facts.apply(core.writes_below(number) + own)
    reads, writes = after.step(lambda query: core.value(query, own, after.direction), u.answers, core.mappings, core.steps)
    core.facts.apply(undo)
    return after, reads, writes


def in_question(core, update, reads, since):
    """The first entry after `since` that may make a plan of the update stale, or None: below the update a relation that a read
    mentions was written or lost its writes, or the update was restarted."""
    def is_mentioned(relations):
        return any(mentions(query, core.mappings, r) for query, _, _ in reads for r in relations)

    written = {}
    for number, entry in enumerate(core.history, 1):
        restarted = [cause[1] for cause in entry.get("causes", ())]
        gone = restarted + [entry["update"]] * (entry["event"] == "withdrawn" or entry.get("standing") == ("spent",))
        new = {t[0] for _, t in entry.get("writes", ())}
        touched = set(new) if entry["update"] < update else set()
        written.setdefault(entry["update"], set()).update(new)
        for other in gone:
            touched |= written.pop(other, set()) if other < update else set()
        if number > since and (update in restarted or is_mentioned(touched)):
            return number
    return None


class Desk:
    """The desk of a session, and what its three seats hold."""

    def __init__(self, session, steps, retries, precise):
        self.session, self.core = session, Core(session, steps, retries, precise)
        self.given, self.hands, self.ready = 0, {}, set()

    def flying(self):
        return {ticket.update for ticket in self.hands.values()}

    def told(self, line):
        """The answer to a call."""
        call, seat = line.split()
        if self.due(seat) != call and not (call == "back" and seat in self.hands):
            return "unfit"
        return getattr(self, call)(seat)

    def due(self, seat):
        return "next" if seat not in self.hands else "finish" if seat in self.ready else "evaluate"

    def next(self, seat):
        core, flying = self.core, self.flying()
        number = core.lowest(lambda u: core.standing(u.number)[0] == "ready" and u.number not in flying)
        if number is not None:
            self.given += 1
            ticket = self.hands[seat] = Ticket(self.given, number, len(core.history), planned(core, number))
            return f"ticket {ticket.number} of update {number}, stamp {ticket.stamp}"
        number = core.lowest_deliverable()
        if number is not None:
            core.deliver(number)
            return f"delivered to {number}"
        return f"idle, {min(flying)} in flight" if flying else "quiet"

    def evaluate(self, seat):
        self.ready.add(seat)
        return "planned"

    def finish(self, seat):
        ticket = self.hands.pop(seat)
        self.ready.discard(seat)
        after, reads, writes = ticket.step
        entry = in_question(self.core, ticket.update, reads, ticket.stamp)
        if entry is not None:
            return f"stale, entry {entry}"
        self.core.install(self.core.update(ticket.update), after, reads, writes)
        return f"stepped, entry {len(self.core.history)}"

    def back(self, seat):
        del self.hands[seat]
        self.ready.discard(seat)
        return "back"

    def entries(self):
        return [entry_line(self.session.relations, entry) for entry in self.core.history]


def case_told(session, steps, retries, precise, calls):
    """A case as the program reads it, and its answer."""
    desk = Desk(session, steps, retries, precise)
    head = b"case %d %d %s\n" % (steps, retries, b"precise" if precise else b"coarse")
    case = head + session_text(session) + "".join(call + "\n" for call in calls).encode() + b"done\n"
    answers = [desk.told(call).encode() for call in calls]
    return case, answers + desk.entries()


def drawn(rng, maker, retries, precise):
    """A random list of calls on the desk of a random session, and the answers. Seats work at different speeds."""
    desk, calls = Desk(maker.session, maker.steps, retries, precise), []
    seats = rng.choices(["s1", "s2", "s3"], [rng.choice([1, 1, 3, 10]) for _ in range(3)], k=rng.choice([20, 60, 150, 300]))
    for seat in seats:
        call = rng.choice(["back", "finish"]) if rng.random() < 0.02 else desk.due(seat)
        calls.append(f"{call} {seat}")
        if desk.told(calls[-1]) == "quiet":
            break
    return case_told(maker.session, maker.steps, retries, precise, calls)


class Order:
    """An order of seats: one is picked at each of the first calls. An idle seat comes again after something was done."""

    def __init__(self, seats, calls):
        self.seats, self.calls, self.picks = seats, calls, []

    def played(self, desk):
        """Lets the seats of a desk come in this order until nothing is left to do."""
        place, idle, told = 0, set(), ""
        while told != "quiet":
            there = [f"s{i + 1}" for i in range(self.seats) if f"s{i + 1}" not in idle]
            if place < self.calls and place == len(self.picks):
                self.picks.append((0, len(there)))
            seat = there[self.picks[place][0] if place < self.calls else 0]
            told, place = desk.told(f"{desk.due(seat)} {seat}"), place + 1
            if told.startswith("idle"):
                idle.add(seat)
            elif told.startswith(("stepped", "stale", "delivered")):
                idle.clear()

    def goes_on(self):
        """The next order, if there is one."""
        while self.picks:
            taken, count = self.picks.pop()
            if taken + 1 < count:
                self.picks.append((taken + 1, count))
                return True
        return False


def explored(session, steps, retries, precise, seats, calls):
    """A case that explores, and its answer: the number of schedules and of ends, and the ends in order."""
    order, ends, count, goes_on = Order(seats, calls), set(), 0, True
    while goes_on:
        desk = Desk(session, steps, retries, precise)
        order.played(desk)
        ends.add(result_text(session, desk.core.result()) + trace_text(session.relations, desk.core.history))
        count, goes_on = count + 1, order.goes_on()
    head = b"case %d %d %s\n" % (steps, retries, b"precise" if precise else b"coarse")
    case = head + session_text(session) + b"explore %d %d 1000000\ndone\n" % (seats, calls)
    told = b"schedules %d, ends %d\n" % (count, len(ends)) + b"".join(sorted(ends))
    return case, told.splitlines()

#!/usr/bin/env python3
"""Writes the stdin and the stdout of crates/try_core and crates/try_desk: worked lists of calls on a core and on a desk, and the
answers of the reference.

The rows on a core show conflicts, cascades, holds and withdrawals. After them come all pairs of a standing and a call, whose
answers must match the grid below, and a core that is full. The rows on a desk show tickets and stale plans, and explore two
sessions.
"""
import sys
from pathlib import Path

sys.dont_write_bytecode = True

from oracle.calls import Caller, case_text     # noqa: E402
from oracle.checks import read_session         # noqa: E402
from oracle.desk import case_told, explored    # noqa: E402

CRATES = Path(__file__).parent.parent / "crates"

INSERT_DELETE = """relation A 1
relation B 1
mapping m: A(x) -> B(x)
update a ann insert A(1)
update b bob delete A(1)
"""
CASCADE = """relation A 1
relation B 1
relation C 1
mapping m: A(x), C(x) -> B(x)
update a ann insert A(1)
update b bob insert C(1)
update c cy delete C(1)
update d dee delete C(5)
"""
TWO_LEVELS = """relation A 1
relation B 1
relation C 1
relation E 1
relation G 1
mapping m1: A(x), C(x) -> B(x)
mapping m2: C(x), G(x) -> E(x)
update a ann insert A(1)
update b bob insert C(1)
update c cy insert G(1)
update d dee insert E(1)
"""
LEANING = """relation A 1
relation C 1
relation D 1
mapping m: A(x), C(x) -> D(x)
update a ann insert A(1)
update b bob insert C(1)
update c cy insert D(1)
"""
LEANING_ON_LONG = LEANING.replace("mapping m", """relation F 1
relation G 1
mapping l1: A(x) -> F(x)
mapping l2: F(x) -> G(x)
mapping m""")
TAKEN_NULL = """relation A 1
relation B 2
relation C 1
relation D 1
relation E 1
mapping m1: A(x) -> B(x, z)
mapping m2: A(x), D(x) -> E(x)
update a ann insert D(1)
update b bob insert A(1)
update c cy insert C(?2.1)
"""
CITIES = """relation City 2
relation Country 2
relation Capital 2
mapping m: City(x, c) -> Country(c, z), Capital(z, c)
base Country("US", "DC")
"""
CAPITAL = CITIES + 'update a ann insert City("Ithaca", "US")\n'
ADDED = """relation A 1
relation B 1
base A(1)
update a ann mapping m: A(x) -> B(x)
update b bob insert A(2)
"""
ADDED_TO_MANY = ADDED.replace("base A(1)\n", "base A(1)\nbase A(3)\nbase A(4)\n")

# The name of each row, its steps, retries and session, and its calls; a number before a call says how often it is made.
ROWS = [
    ("a conflict aborts an update that has ended", 100, 3, INSERT_DELETE,
     "2 step u2, standing u2, counts, step u1, standing u2, drain, counts, result"),
    ("an aborted update takes those along that depend on it, by values or by relations", 100, 3, CASCADE,
     "2 step u2, 2 step u3, 2 step u4, step u1, standing u2, standing u3, standing u4, drain, result"),
    ("a cascade over two levels", 100, 3, TWO_LEVELS, "2 step u2, 4 step u3, 2 step u4, step u1, drain, result"),
    ("a withdrawal over two levels", 100, 3, LEANING, "step u1, 4 step u2, 2 step u3, withdraw u1, standing u2, standing u3, drain, counts"),
    ("an update that is spent, over two levels", 4, 3, LEANING_ON_LONG, "3 step u1, 4 step u2, 2 step u3, step u1, standing u2, drain, result"),
    ("without retries an update that was aborted once waits for all lower ones", 100, 0, INSERT_DELETE,
     "2 step u2, step u1, standing u2, step u2, 3 step u1, counts, standing u2, drain, counts, result"),
    ("whoever took over a null starts again with the update that drew it", 100, 3, TAKEN_NULL,
     "4 step u2, 2 step u3, step u1, standing u3, drain, result"),
    ("calls at a question, and a withdrawal that commits", 100, 3, CAPITAL,
     "3 step u1, standing u1, question u1, deliver u1, answer u1 delete Country(1, 2), step u2, step u0, withdraw u1, counts, withdraw u1"),
    ("a withdrawal above one that goes on", 100, 3, CAPITAL + 'update b bob insert City("Oslo", "NO")\n',
     "withdraw u2, counts, withdraw u2"),
    ("a mapping that comes into force is in conflict with who looked before", 100, 3, ADDED,
     "2 step u2, standing u2, step u1, standing u2, drain, result"),
    ("who looked at an added mapping depends on the update that added it: that one is spent", 4, 3, ADDED_TO_MANY,
     "3 step u1, 4 step u2, standing u2, step u1, standing u1, standing u2, drain, result"),
    ("who looked at an added mapping depends on the update that added it: that one is withdrawn", 100, 3, ADDED,
     "step u1, 4 step u2, standing u2, withdraw u1, standing u1, standing u2, drain, counts"),
    ("the repository is what the committed updates left, whatever those above have done", 100, 3, INSERT_DELETE,
     "repository, 2 step u2, repository, 4 step u1, counts, repository, drain, repository"),
    ("an update that names a null of no lower update is unfit", 100, 3, TAKEN_NULL,
     "update d dee insert C(?4.1), counts, update d dee insert C(?2.2), counts, drain, repository"),
]

# For each standing of update 2, the answers of step, deliver, answer and withdraw: made, not ready, not pending or paused,
# withdrawn.
GRID = {"ready": "mppm", "held": "rppm", "pending": "rmmm", "misfit": "rpmm", "done": "rppm", "spent": "rppm",
        "refused": "rppm", "withdrawn": "rppw"}
TWO_CITIES = CITIES + 'update z zed insert City("a", "b")\nupdate a ann insert City("Ithaca", "US")\n'
# How update 2 comes to this standing, with update 1 open below it: steps, retries, session and calls.
STANDING = {
    "ready": (100, 3, TWO_CITIES, ""),
    "held": (100, 0, INSERT_DELETE, "2 step u2, step u1"),
    "pending": (100, 3, TWO_CITIES + "answer a expand\n", "3 step u2"),
    "misfit": (100, 3, TWO_CITIES + "answer a delete City(1, 1)\n", "3 step u2, deliver u2"),
    "done": (100, 3, INSERT_DELETE, "2 step u2"),
    "spent": (1, 3, TWO_CITIES, "step u2"),
    "refused": (100, 3, TWO_CITIES.replace('"Ithaca"', "?0.5"), "step u2"),
    "withdrawn": (100, 3, TWO_CITIES, "withdraw u2"),
}
CALLS = ("step u2", "deliver u2", "answer u2 expand", "withdraw u2")
BEGINS = {"m": '{"', "r": "refused not ready: ", "p": "refused not p", "w": "refused withdrawn"}


def calls_of(text):
    """The calls of a row, one on each line."""
    for item in filter(None, text.split(", ")):
        times, _, call = item.partition(" ")
        yield from [call] * int(times) if times.isdigit() else [item]


def joined(text):
    """The calls of a row; a comma within brackets belongs to a fact."""
    lines = []
    for call in calls_of(text):
        if lines and lines[-1].count("(") > lines[-1].count(")"):
            lines[-1] += ", " + call
        else:
            lines.append(call)
    return lines


def told(title, steps, retries, precise, text, calls):
    """A case and its output."""
    session = read_session(b"youtopia 2\n" + text.encode() + b"end\n")
    lines = [line.encode() for line in ["# " + title, *calls]]
    caller = Caller(session, steps, retries, precise)
    return case_text(session, steps, retries, precise, lines), [line for call in lines for line in caller.told(call)]


def rows():
    for title, steps, retries, text, calls in ROWS:
        for precise in (True, False):
            yield told(title + (" (precise)" if precise else " (coarse)"), steps, retries, precise, text, joined(calls))


def pairs():
    """Each pair of a standing and a call, whose answer must match the grid."""
    for standing, cells in GRID.items():
        steps, retries, text, before = STANDING[standing]
        for call, cell in zip(CALLS, cells):
            case, lines = told(f"{standing}: {call}", steps, retries, True, text, [*joined(before), "standing u2", call])
            assert lines[-2].decode().startswith("stands " + standing), (standing, lines)
            assert lines[-1].decode().startswith(BEGINS[cell]), (standing, call, lines)
            yield case, lines


def full():
    """A core with one place left."""
    text = "relation A 1\n" + "".join(f"update u{i} ann insert A({i})\n" for i in range(999))
    calls = ["update x ann insert A(5)", "update y ann insert A(6)", "counts", "step u1000", "standing u1001"]
    yield told("1,000 updates are the most", 100, 3, True, text, calls)


# The name of each row, and calls on a desk with the answers they must have; the reference must give the same.
TWO_INSERTS = "relation A 1\nupdate a ann insert A(1)\nupdate b bob insert A(2)\n"
ONE_INSERT = "relation A 1\nupdate a ann insert A(1)\n"
BOTH_PLANNED = """next s1: ticket 1 of update 1, stamp 2
next s2: ticket 2 of update 2, stamp 2
evaluate s1: planned
evaluate s2: planned
"""
DESK_ROWS = [
    ("tickets of one update, one after the other",
     ONE_INSERT, """next s1: ticket 1 of update 1, stamp 1
next s2: idle, 1 in flight
evaluate s1: planned
finish s1: stepped, entry 2
next s1: ticket 2 of update 1, stamp 2
evaluate s1: planned
finish s1: stepped, entry 3
next s2: quiet"""),
    ("a plan that a step below makes stale, and that changes nothing",
     INSERT_DELETE, BOTH_PLANNED + "finish s1: stepped, entry 3\nfinish s2: stale, entry 3"),
    ("a plan that is stale by the relation that was written, though no read of it has another value",
     TWO_INSERTS, BOTH_PLANNED + "finish s1: stepped, entry 3\nfinish s2: stale, entry 3"),
    ("an upper update that goes first and is restarted, so that its second plan is stale",
     INSERT_DELETE, BOTH_PLANNED + """finish s2: stepped, entry 3
next s2: ticket 3 of update 2, stamp 3
evaluate s2: planned
finish s1: stepped, entry 4
finish s2: stale, entry 4"""),
    ("a ticket that is given back, and given again",
     INSERT_DELETE, "next s1: ticket 1 of update 1, stamp 2\nback s1: back\nnext s1: ticket 2 of update 1, stamp 2"),
]


def desk_rows():
    for _, text, calls in DESK_ROWS:
        session = read_session(b"youtopia 2\n" + text.encode() + b"end\n")
        wanted = [line.split(": ") for line in calls.splitlines()]
        case, lines = case_told(session, 100, 3, True, [call for call, _ in wanted])
        assert [line.decode() for line in lines[:len(wanted)]] == [answer for _, answer in wanted], lines
        yield case, lines


def explorations():
    """Every order of two seats, and of three, for a few calls."""
    for text, retries, precise, seats, calls in ((INSERT_DELETE, 3, True, 2, 6), (CASCADE, 0, False, 3, 4)):
        session = read_session(b"youtopia 2\n" + text.encode() + b"end\n")
        yield explored(session, 100, retries, precise, seats, calls)


def write(crate, cases):
    (CRATES / crate / "stdin").write_bytes(b"".join(case for case, _ in cases))
    (CRATES / crate / "stdout").write_bytes(b"".join(line + b"\n" for _, lines in cases for line in lines))
    print(f"{len(cases)} cases for {crate}")


def main():
    write("try_core", [*rows(), *pairs(), *full()])
    write("try_desk", [*desk_rows(), *explorations()])


if __name__ == "__main__":
    main()

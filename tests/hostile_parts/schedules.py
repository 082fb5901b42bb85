#!/usr/bin/env python3
"""schedules.py PROGRAM TWO THREE [FIRST DRAWN]: every order in which two and three seats of a desk come, over sessions whose updates meet.

The program is that of crates/try_desk, which makes the schedules on one thread: a seat asks for a ticket, works its step out, and
hands it in. Two seats come in every order for their first TWO calls, three for THREE, and then by turns; in DRAWN random sessions
besides, of the seeds from FIRST on, for four and three calls less. If FIRST is not 0, these sessions come alone. Each end that is
reached has to be the result of the serial machine and a history of which the reference's auditor says that it is legal and ends
quiet. JOBS processes in the environment. The last line is 'N passed, M failed'.
"""
import os
import random
import subprocess
import sys
from concurrent.futures import ProcessPoolExecutor

from running import TESTS     # noqa: F401, makes the reference known

from call_cases import CASCADE, INSERT_DELETE, TAKEN_NULL, TWO_LEVELS
from oracle.audit import audit
from oracle.checks import read_session
from oracle.printing import session_text
from oracle.results import result_text
from oracle.serial import serial
from oracle.sessions import busy_session

SESSIONS = {
    "two insertions": "relation A 1\nupdate a ann insert A(1)\nupdate b bob insert A(2)\n",
    "an insertion and a deletion": INSERT_DELETE,
    "a cascade": CASCADE,
    "a null that is taken over": TAKEN_NULL,
    "a cascade over two levels": TWO_LEVELS,
}
BUDGET, MOST = 100, 10 ** 9
FEWER = {2: 4, 3: 3}        # calls in a drawn session, by the number of seats


def tasks(two, three, seeds):
    """Each session with a setting of the desk, a number of seats, and how many of their calls come in every order."""
    for extent in () if seeds.start else ((3, three), (2, two)):
        for deps, retries in ((b"precise", 3), (b"coarse", 3), (b"precise", 0)):
            for name, text in SESSIONS.items():
                yield name, b"youtopia 2\n" + text.encode() + b"end\n", deps, retries, *extent
    for seed in seeds:
        rng = random.Random(seed)
        data = session_text(busy_session(rng))
        for seats, calls in ((3, three), (2, two)):
            yield f"session {seed}", data, rng.choice([b"precise", b"coarse"]), rng.choice([0, 1, 3]), seats, calls - FEWER[seats]


def ends_of(program, data, deps, retries, seats, calls):
    """The number of schedules, and the ends that they reached."""
    case = b"case %d %d %s\n" % (BUDGET, retries, deps) + data + b"explore %d %d %d\ndone\n" % (seats, calls, MOST)
    told = subprocess.run([program], input=case, capture_output=True, check=True).stdout
    head, _, rest = told.partition(b"\n")
    _, schedules, _, ends = head.replace(b",", b"").split()
    parts = [b"youtopia result 1\n" + part for part in rest.split(b"youtopia result 1\n")[1:]]
    assert len(parts) == int(ends), head
    return int(schedules), parts


def is_right(session, result, retries, deps, end):
    """Whether an end is the result, and after it a legal history that ends quiet."""
    if not end.startswith(result):
        return False
    told = audit(session, BUDGET, retries, deps == b"precise", end[len(result):])
    return told.startswith(b"yes ") and told.endswith(b" quiet")


def explored(program, name, data, deps, retries, seats, calls):
    """The number of schedules and of ends, and words about the wrong ones."""
    session = read_session(data)
    result = result_text(session, serial(session, BUDGET))
    schedules, ends = ends_of(program, data, deps, retries, seats, calls)
    about = f"{name}, {seats} seats, {deps.decode()}, {retries} retries"
    return schedules, len(ends), [f"{about}:\n{end.decode()}" for end in ends if not is_right(session, result, retries, deps, end)]


def main(program, two, three, first="0", drawn="0"):
    passed = failed = distinct = 0
    seeds = range(int(first), int(first) + int(drawn))
    with ProcessPoolExecutor(int(os.environ.get("JOBS", "2"))) as pool:
        for made in [pool.submit(explored, program, *task) for task in tasks(int(two), int(three), seeds)]:
            schedules, ends, wrong = made.result()
            distinct, passed, failed = distinct + ends, passed + schedules - len(wrong), failed + len(wrong)
            print("".join(end + "\n" for end in wrong), end="", flush=True)
    print(f"{distinct} ends")
    print(f"{passed} passed, {failed} failed")


if __name__ == "__main__":
    main(*sys.argv[1:])

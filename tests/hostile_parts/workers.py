#!/usr/bin/env python3
"""workers.py PROGRAM SHIM [cheap]: runs by 2, 4, 8 and 16 workers on updates that conflict.

Each run must give the bytes of the serial run, and with --trace a history after them that the reference's auditor finds legal and
quiet at its end. The runs with a trace and half of the others are shaken by faults.c, so that the workers meet in other orders.
Conflicts show that two workers meet and that one alone does not. A program whose runs have no trace yet is skipped. The last line
is 'N passed, M failed'.
"""
import random
import subprocess
import sys

from running import TESTS, Tally, told_by, youtopia

from oracle.printing import session_text
from oracle.sessions import busy_session, random_session

WORKERS = (2, 4, 8, 16)
SESSION = b"youtopia 1\nrelation A 1\nupdate a ann insert A(1)\nend\n"


def crowded(rng, seed):
    """Insertions at one end of a chain of relations, deletions at the other."""
    options = {"length": rng.choice([2, 4, 10]), "values": rng.choice([1, 2, 3]), "updates": rng.choice([8, 16, 40]), "seed": seed}
    words = [f"--{name}={value}" for name, value in options.items()]
    return subprocess.run([TESTS.parent / "bench" / "sessions.py", "contention", *words], capture_output=True, check=True).stdout


def drawn(rng, seed):
    """A session, and the number of steps that its updates may take."""
    kind = rng.choice(["crowded", "crowded", "busy", "random"])
    if kind == "crowded":
        return crowded(rng, seed), 100
    if kind == "busy":
        return session_text(busy_session(rng)), rng.choice([6, 30, 100])
    maker = random_session(rng, rng.choice([5, 12, 100]))
    return session_text(maker.session), maker.steps


def judged(settings, data, wanted, told):
    """The output, with the auditor's verdict in the place of the trace."""
    status, out, err = told
    result, trace = out[:len(wanted[1])], out[len(wanted[1]):]
    if (status, result, err) != wanted or not trace:
        return told
    verdict = youtopia(["audit", *settings], data + trace)[1]
    legal = verdict.startswith(b"yes ") and verdict.endswith(b" quiet\n")
    return (status, result, err) if legal else (status, result + trace, err + verdict)


def meetings(program, shim, workers):
    """How many of ten shaken histories by this number of workers have a conflict; updates one after the other never have one."""
    words, found = ["run", "--workers", str(workers), "--trace"], 0
    for seed in range(10):
        told = told_by(program, words, crowded(random.Random(seed), seed), LD_PRELOAD=shim, FAULTS_SHAKE=str(seed))
        found += b'"kind":"conflict"' in told[1]
    return found


def settings_of(rng, steps):
    return ["--steps", str(steps), "--deps", rng.choice(["coarse", "precise"]), "--retries", str(rng.randrange(5))]


def main():
    program, shim, cheap = sys.argv[1], sys.argv[2], len(sys.argv) > 3
    if told_by(program, ["run", "--trace"], SESSION)[0] == 2:
        print("skipped: a run has no trace yet")
        print("0 passed, 0 failed")
        return
    tally, conflicts = Tally(), 0
    for seed in range(1, (13 if cheap else 501)):
        rng = random.Random(seed)
        data, steps = drawn(rng, seed)
        wanted = youtopia(["serial", "--steps", str(steps)], data)
        for workers in WORKERS:
            settings = settings_of(rng, steps)
            for trace in ([], ["--trace"]):
                shaken = {"LD_PRELOAD": shim, "FAULTS_SHAKE": str(seed)} if trace or seed % 2 else {}
                words = ["run", "--workers", str(workers), *settings, *trace]
                told = told_by(program, words, data, **shaken)
                conflicts += b'"kind":"conflict"' in told[1]
                tally.compare(f"session {seed}, {' '.join(words)}", wanted, judged(settings, data, wanted, told) if trace else told)
    print(f"{conflicts} histories have a conflict")
    tally.holds("two workers meet", 0 < meetings(program, shim, 2))
    tally.holds("one worker meets nobody", meetings(program, shim, 1) == 0)
    tally.end()


if __name__ == "__main__":
    main()
